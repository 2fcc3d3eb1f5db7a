/* What reads the blocks of gazhdor_messages, and those of a stream of GAZHDOR_STREAM_MESSAGES. gazhdor.h includes it.
 *
 *     gazhdor_reader at = gazhdor_read(blocks);
 *     while (gazhdor_next(&at)) {
 *         if (at.message != GAZHDOR_MESSAGE_RECORD)
 *             continue;
 *         gazhdor_field heart = gazhdor_named(at.definition, "heart_rate");
 *         printf("%lu %g\n", (unsigned long)gazhdor_time(at.block), gazhdor_value(heart, at.block, 0));
 *     }
 *
 * Tested, not proved: none of these reads outside the blocks that it is given, which are memory of their length, whatever bytes they
 * have and whatever the other numbers are. What isn't there is NAN, 0, "" or NULL, as each says. Names and texts lie in the blocks, and
 * last as long as they do. What is more than an access to a place stands in the library, in c/beside_blocks.h. */
#ifndef GAZHDOR_BLOCKS_H
#define GAZHDOR_BLOCKS_H

#include "gazhdor.h"

#include <math.h>
#include <stdlib.h>
#include <string.h>

#ifdef __cplusplus
extern "C" {
#endif

/* What gazhdor_amount gives. */
enum gazhdor_amount_kind { GAZHDOR_SPEED = 0, GAZHDOR_DISTANCE = 1, GAZHDOR_CYCLES = 2, GAZHDOR_POWER = 3 };

#define GAZHDOR_NO_MESSAGE 0xFFFFFFFFu
#define GAZHDOR_UNKNOWN_MESSAGE 0xFFFFFFFEu
#define GAZHDOR_NO_DEFINITION 0xFFFFFFFFFFFFFFFFu

/* Add this to a time for seconds since 1970-01-01T00:00:00 UTC. A time below GAZHDOR_SYSTEM_TIME has no date: it counts from when the
 * device was switched on. */
#define GAZHDOR_EPOCH 631065600
#define GAZHDOR_SYSTEM_TIME 268435456u

typedef struct gazhdor_block {
    const uint8_t *bytes; /* NULL where there is no block; all else is then 0 */
    size_t length;
    uint32_t kind;   /* an enum gazhdor_kind */
    uint32_t file;   /* counted from 1 */
    uint64_t place;  /* where what it tells begins among the bytes of the files */
    uint64_t number; /* of a definition and of a message: which definition of all, counted from 0 */
} gazhdor_block;

/* Goes through the blocks, and knows the definition of each message. One that has kept definitions isn't copied, since each copy would
 * free them. */
typedef struct gazhdor_reader {
    gazhdor_block block;      /* the one that it is at */
    gazhdor_block definition; /* of a message its definition, of a definition itself, else none */
    uint32_t message;         /* at a message its global message number, an enum gazhdor_message_number if it has a name, or
                               * GAZHDOR_UNKNOWN_MESSAGE where the reader doesn't know its definition; else GAZHDOR_NO_MESSAGE */
    gazhdor_text left;        /* the blocks that are still to come */
    gazhdor_block known[16];  /* the last definition of each local message type */
    uint8_t *kept[16];        /* copies of those that lie in blocks of earlier pieces, by gazhdor_keep */
    uint64_t unknown;         /* how many messages it came to without their definition, as those of a piece that was read alone */
} gazhdor_reader;

/* A field of the messages of a definition. */
typedef struct gazhdor_field {
    int there;           /* 1; or 0 where there is no such field, and all else is then 0, "" or GAZHDOR_NO_DEFINITION */
    const char *name;    /* as "heart_rate"; "" where nothing names it */
    const char *unit;    /* as "bpm"; "" where it has none */
    uint64_t definition; /* the number of its definition */
    uint64_t invalid;    /* the item that stands for no value */
    uint32_t at;         /* where its items begin in the block of a message; they follow one another */
    uint32_t scale;      /* an item stands for item / scale - offset, which has `decimals` decimals */
    uint32_t offset;
    uint8_t number;           /* of the field in its message */
    uint8_t developer, index; /* 1 for a developer field, else 0; and its developer data index */
    uint8_t base_type, kind;  /* its code in the file; and an enum gazhdor_items_kind */
    uint8_t width, count;     /* bytes of an item: 1, 2, 4 or 8; and how many items */
    uint8_t decimals;
    size_t end; /* where the next one is described in the block of the definition */
} gazhdor_field;

/* Numbers of 1 to 8 bytes are in little endian in blocks, and on each machine. */
#if defined __BYTE_ORDER__ && __BYTE_ORDER__ == __ORDER_BIG_ENDIAN__
static inline uint64_t gazhdor_number(const uint8_t *from, size_t width)
{
    uint64_t number = 0;
    while (width-- > 0)
        number = number << 8 | from[width];
    return number;
}

static inline void gazhdor_store(uint8_t *at, uint64_t number, size_t width)
{
    for (size_t k = 0; k < width; k++)
        at[k] = GAZHDOR_CAST(uint8_t, number >> 8 * k & 0xFF);
}
#else
static inline uint64_t gazhdor_number(const uint8_t *from, size_t width)
{
    uint64_t number = 0;
    memcpy(&number, from, width);
    return number;
}

static inline void gazhdor_store(uint8_t *at, uint64_t number, size_t width)
{
    memcpy(at, &number, width);
}
#endif

/* A number of 1 to 8 bytes in a block, by docs/BLOCKS.md; 0 where the block ends before. */
static inline uint64_t gazhdor_load(gazhdor_block block, uint64_t at, size_t width)
{
    if (width == 0 || width > 8 || at > block.length || width > block.length - at)
        return 0;
    return gazhdor_number(block.bytes + at, width);
}

/* The first of some blocks; none where there isn't a whole one. */
gazhdor_block gazhdor_first(gazhdor_text blocks);

/* A reader before the first of some blocks, which knows no definition yet. */
static inline gazhdor_reader gazhdor_read(gazhdor_text blocks)
{
    gazhdor_reader reader;
    memset(&reader, 0, sizeof reader);
    reader.left = blocks;
    reader.message = GAZHDOR_NO_MESSAGE;
    return reader;
}

/* Goes to the next block: 1, or 0 where there is none. */
int gazhdor_next(gazhdor_reader *reader);

/* ---- Blocks of a stream. A message may be of a definition in an earlier piece, so a reader goes on from piece to piece:
 *
 *     gazhdor_reader at = gazhdor_read(none);        with a gazhdor_text that is GAZHDOR_NO_TEXT
 *     .. and with the blocks of each call:
 *         gazhdor_read_on(&at, blocks);
 *         while (gazhdor_next(&at)) ..
 *         int kept = gazhdor_keep(&at);
 *         gazhdor_free(blocks);
 *     if (at.unknown != 0) ..                        messages whose definition wasn't kept
 *     gazhdor_forget(&at);
 *
 * Where each piece gets a reader of its own, most messages are GAZHDOR_UNKNOWN_MESSAGE. Names and units last as long as the blocks here too: a field is looked up again after gazhdor_keep. */

/* Goes on before the first of the blocks of the next piece. */
static inline void gazhdor_read_on(gazhdor_reader *reader, gazhdor_text blocks)
{
    reader->left = blocks;
}

/* Passes over the blocks that are left, and copies the definitions that later messages may be of, in memory of malloc, so that the blocks
 * may be freed: 1. Where memory is refused for one it is 0, and its messages are unknown. From here on the reader isn't copied. */
int gazhdor_keep(gazhdor_reader *reader);

/* Frees these copies. The reader knows no definition any more. */
void gazhdor_forget(gazhdor_reader *reader);

/* A text in bytes of which the last is a zero; "" where it isn't. */
const char *gazhdor_name_at(gazhdor_block block, size_t at);

/* The name of the messages of a definition, as "record"; "" where the profile has none. */
const char *gazhdor_message_name(gazhdor_block definition);

/* The field that is described at this place in the block of its definition. For the next two. */
gazhdor_field gazhdor_field_at(gazhdor_block definition, size_t at);

/* The first field of a definition, and the one after a field of it: the fields in their order, and then the developer fields. There is
 * none after the last, after a field that isn't there, and after one of another definition. */
gazhdor_field gazhdor_first_field(gazhdor_block definition);

gazhdor_field gazhdor_next_field(gazhdor_block definition, gazhdor_field field);

/* The first field of a definition that has this name; developer fields have names too. None where the name is NULL or "". */
gazhdor_field gazhdor_named(gazhdor_block definition, const char *name);

/* The first field of a definition with this number, developer fields left out. */
gazhdor_field gazhdor_numbered(gazhdor_block definition, uint32_t number);

/* The first developer field of a definition with this developer data index and this number. */
gazhdor_field gazhdor_developer(gazhdor_block definition, uint32_t index, uint32_t number);

/* All items of a field in a message, as they follow one another in its block; NULL where the message isn't of the field's definition. */
gazhdor_text gazhdor_items(gazhdor_field field, gazhdor_block message);

/* Item k of a field in a message, counted from 0, as it is: of a signed field the number as an int64_t, of a float its bits. Returns
 * whether it stands for a value; where there is no such item, it is 0. `raw` may be NULL, where only that is asked. */
int gazhdor_raw(gazhdor_field field, gazhdor_block message, size_t k, uint64_t *raw);

/* The number of a float by its bits, of 4 or 8 bytes. */
double gazhdor_float(uint64_t bits, uint32_t width);

/* Item k of a field in a message, counted from 0, as a number in the field's unit: what a program mostly wants. NAN where the item says
 * that there is no value, where there is no such item or field, where the message is of another definition, and of strings and bytes. */
double gazhdor_value(gazhdor_field field, gazhdor_block message, size_t k);

/* The text of a string field in a message, up to its first zero: UTF-8, if the file keeps to the protocol. NULL of other fields. */
gazhdor_text gazhdor_string(gazhdor_field field, gazhdor_block message);

/* When a message was recorded, in seconds since 1989-12-31T00:00:00 UTC: by its timestamp, or else by its compressed header.
 * GAZHDOR_NO_TIME where neither tells it. */
static inline uint32_t gazhdor_time(gazhdor_block message)
{
    return message.kind == GAZHDOR_MESSAGE ? GAZHDOR_CAST(uint32_t, gazhdor_load(message, GAZHDOR_AT_MESSAGE_TIME, 4)) : GAZHDOR_NO_TIME;
}

/* The time of a compressed header alone. */
static inline uint32_t gazhdor_header_time(gazhdor_block message)
{
    return message.kind == GAZHDOR_MESSAGE ? GAZHDOR_CAST(uint32_t, gazhdor_load(message, GAZHDOR_AT_MESSAGE_HEADER_TIME, 4)) : GAZHDOR_NO_TIME;
}

/* What a record message tells by a compressed or a short field: GAZHDOR_SPEED, in m/s; or added up over its file, GAZHDOR_DISTANCE, in
 * m, GAZHDOR_CYCLES, or GAZHDOR_POWER, in W. NAN where it tells none. */
double gazhdor_amount(gazhdor_block message, uint32_t amount);

#ifdef __cplusplus
}
#endif

#endif
