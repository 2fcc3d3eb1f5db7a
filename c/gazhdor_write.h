/* What makes blocks of values, and changed copies of messages that were read: a gazhdor_writer puts them, or gazhdor_from_messages takes all
 * blocks of a file at once. gazhdor.h includes it.
 *
 *     gazhdor_field fields[] = { gazhdor_new_field(253, GAZHDOR_TYPE_UINT32, 1),
 *         gazhdor_scaled(gazhdor_new_field(2, GAZHDOR_TYPE_UINT16, 1), 5, 500) };
 *     gazhdor_blocks to = gazhdor_write(NULL, 0, gazhdor_by_realloc, NULL);
 *     gazhdor_put_header(&to, 0);
 *     gazhdor_put_definition(&to, 0, GAZHDOR_MESSAGE_RECORD, fields, 2);
 *     gazhdor_put_message(&to, 0);
 *     gazhdor_set_number(&to, fields[0], 0, 1000000000);
 *     gazhdor_set_value(&to, fields[1], 0, 408.2);
 *     gazhdor_put_end(&to);
 *     if (to.fault == GAZHDOR_PUT) answer = gazhdor_from_messages(to.bytes, to.length, &file);
 *     free(to.bytes);
 *
 * Tested, not proved: each function does all of what it says or nothing, and none reads or writes outside the memory that it is given,
 * whatever the numbers are. */
#ifndef GAZHDOR_WRITE_H
#define GAZHDOR_WRITE_H

#include "gazhdor.h"

#ifdef __cplusplus
extern "C" {
#endif

/* What a function that writes answers. With all but GAZHDOR_PUT the blocks are what they were. gazhdor_put_text says it in words. */
enum gazhdor_put {
    GAZHDOR_PUT = 0,        /* It was done. */
    GAZHDOR_PUT_FULL = 1,   /* The memory has no room for the block, or more was refused. */
    GAZHDOR_PUT_ORDER = 2,  /* No file is open, or, for a header, one is; or the last block isn't a message. */
    GAZHDOR_PUT_LOCAL = 3,  /* There is no such local message type, the file doesn't define it, or its messages have no time offset. */
    GAZHDOR_PUT_COUNT = 4,  /* There are more than 255 fields or developer fields, or one comes after a developer field. */
    GAZHDOR_PUT_FIELD = 5,  /* There is no such field, its size isn't allowed, it is none of the last message, or it has no such item. */
    GAZHDOR_PUT_LENGTH = 6, /* Text or items are too long or too short, or a block isn't whole. */
    GAZHDOR_PUT_KIND = 7,   /* The field has no numbers, or no text. */
    GAZHDOR_PUT_RANGE = 8,  /* The number has no place there, or stands for no value. */
    GAZHDOR_PUT_NAN = 9     /* What no call answers any more: NAN is no value. */
};

#define GAZHDOR_NOWHERE (~GAZHDOR_CAST(size_t, 0))

/* Gives memory of at least that capacity which begins with what `bytes` held, and lets go of `bytes`, which may be NULL; NULL where there
 * is none, and then `bytes` stay as they are. `own` is the caller's. */
typedef uint8_t *gazhdor_grow(void *own, uint8_t *bytes, size_t capacity);

/* Blocks in the making. Between calls you may read all of it, and set `fault`. Only one copy of it is written to. */
typedef struct gazhdor_blocks {
    uint8_t *bytes;       /* the blocks, in memory of `capacity` bytes */
    size_t length;
    size_t capacity;
    gazhdor_grow *grow;   /* NULL where there is no more memory than this */
    void *own;            /* what `grow` is given */
    uint32_t fault;       /* the first answer with which a block didn't come, an enum gazhdor_put */
    uint32_t file;        /* how many files have begun */
    int within;           /* 1 within a file, else 0 */
    uint64_t definitions; /* how many definitions were made here */
    size_t message;       /* where the last block begins, if it is a message; else GAZHDOR_NOWHERE */
    size_t known[16];     /* where the last definition of each local message type in this file begins, or GAZHDOR_NOWHERE */
} gazhdor_blocks;

static inline uint8_t *gazhdor_by_realloc(void *own, uint8_t *bytes, size_t capacity)
{
    (void)own;
    return GAZHDOR_CAST(uint8_t *, realloc(bytes, capacity));
}

static inline void gazhdor_know_nothing(gazhdor_blocks *to)
{
    to->message = GAZHDOR_NOWHERE;
    for (size_t i = 0; i < 16; i++)
        to->known[i] = GAZHDOR_NOWHERE;
}

/* Nothing yet, in memory of `capacity` bytes that `grow` makes larger. `grow` is gazhdor_by_realloc for memory of malloc, or NULL, and
 * `bytes` may be; `own` is what it gets. The memory stays the caller's, who frees it. */
static inline gazhdor_blocks gazhdor_write(uint8_t *bytes, size_t capacity, gazhdor_grow *grow, void *own)
{
    gazhdor_blocks to;
    memset(&to, 0, sizeof to);
    to.bytes = bytes;
    to.capacity = bytes == GAZHDOR_NULL ? 0 : capacity;
    to.grow = grow;
    to.own = own;
    gazhdor_know_nothing(&to);
    return to;
}

/* ---- fields */

/* A field for gazhdor_put_definition: its number, the code of its base type, and how many items it has. It isn't there where there is no
 * such number or base type, or where it has more than 255 bytes. */
static inline gazhdor_field gazhdor_new_field(uint32_t number, uint32_t base_type, size_t count)
{
    static const uint8_t widths[] = GAZHDOR_TYPE_WIDTHS, kinds[] = GAZHDOR_TYPE_KINDS;
    gazhdor_block nothing = { GAZHDOR_NULL, 0, 0, 0, 0, 0 };
    gazhdor_field field = gazhdor_field_at(nothing, 0);
    uint32_t type = base_type & 31, width = type < sizeof widths ? widths[type] : 0;
    if (width == 0 || base_type != (width > 1 ? 0x80 | type : type) || number > 255 || count > 255 / width)
        return field;
    uint64_t ones = ~GAZHDOR_CAST(uint64_t, 0) >> (64 - 8 * width);
    field.there = 1;
    field.invalid = (GAZHDOR_TYPE_ZEROS >> type & 1) != 0 ? 0 : kinds[type] == GAZHDOR_SIGNED ? ones >> 1 : ones;
    field.scale = 1;
    field.number = GAZHDOR_CAST(uint8_t, number);
    field.base_type = GAZHDOR_CAST(uint8_t, base_type);
    field.kind = kinds[type];
    field.width = GAZHDOR_CAST(uint8_t, width);
    field.count = GAZHDOR_CAST(uint8_t, count);
    return field;
}

/* The same of a developer field. For gazhdor_from_messages the base type is that of its description, which comes before the definition in
 * the file; where none does, it is GAZHDOR_TYPE_BYTE. A gazhdor_writer describes the field, by this base type and by what you set its `name`
 * and its `unit` to. */
static inline gazhdor_field gazhdor_new_developer(uint32_t index, uint32_t number, uint32_t base_type, size_t count)
{
    gazhdor_field field = gazhdor_new_field(index > 255 ? 256 : number, base_type, count);
    field.developer = field.there != 0;
    field.index = GAZHDOR_CAST(uint8_t, field.there ? index : 0);
    return field;
}

/* A field of whose items each stands for item / scale - offset, as its profile says. */
static inline gazhdor_field gazhdor_scaled(gazhdor_field field, uint32_t scale, uint32_t offset)
{
    field.scale = scale;
    field.offset = offset;
    return field;
}

/* ---- blocks */

/* This answer, with which a block didn't come. */
static inline uint32_t gazhdor_missed(gazhdor_blocks *to, uint32_t answer)
{
    to->message = GAZHDOR_NOWHERE;
    if (to->fault == GAZHDOR_PUT)
        to->fault = answer;
    return answer;
}

/* Sees that there is room for that many bytes more. */
static inline int gazhdor_has_room(gazhdor_blocks *to, size_t length)
{
    if (to->length <= to->capacity && length <= to->capacity - to->length)
        return 1;
    size_t most = GAZHDOR_NOWHERE - to->length, capacity = to->capacity < GAZHDOR_NOWHERE / 2 ? 2 * to->capacity : to->capacity;
    if (to->grow == GAZHDOR_NULL || length > most)
        return 0;
    if (capacity < to->length + length)
        capacity = to->length + length;
    uint8_t *bytes = to->grow(to->own, to->bytes, capacity);
    if (bytes == GAZHDOR_NULL)
        return 0;
    to->bytes = bytes;
    to->capacity = capacity;
    return 1;
}

/* The block that begins at this place; none where there is none. */
static inline gazhdor_block gazhdor_block_at(const gazhdor_blocks *to, size_t place)
{
    gazhdor_text none = { GAZHDOR_NULL, 0 }, rest = { to->bytes, to->length };
    if (place >= to->length)
        return gazhdor_first(none);
    rest.bytes += place;
    rest.length -= place;
    return gazhdor_first(rest);
}

/* A new block at the end, of zeros but for its length, its kind and its file; NULL where there is no room. */
static inline uint8_t *gazhdor_new_block(gazhdor_blocks *to, size_t length, uint32_t kind)
{
    if (!gazhdor_has_room(to, length))
        return GAZHDOR_NULL;
    uint8_t *block = to->bytes + to->length;
    memset(block, 0, length);
    gazhdor_store(block + GAZHDOR_AT_LENGTH, length, 4);
    gazhdor_store(block + GAZHDOR_AT_KIND, kind, 1);
    gazhdor_store(block + GAZHDOR_AT_FILE, to->file, 4);
    to->message = GAZHDOR_NOWHERE;
    to->length += length;
    return block;
}

/* Begins a file: a header of 14 bytes with its checksum, of protocol 2.0 and this version of the profile, as 2132 for 21.32. */
static inline uint32_t gazhdor_put_header(gazhdor_blocks *to, uint32_t profile)
{
    if (to->within || profile > 0xFFFF)
        return gazhdor_missed(to, to->within ? GAZHDOR_PUT_ORDER : GAZHDOR_PUT_RANGE);
    uint8_t *block = gazhdor_new_block(to, GAZHDOR_AT_HEADER_REST, GAZHDOR_FILE_HEADER);
    if (block == GAZHDOR_NULL)
        return gazhdor_missed(to, GAZHDOR_PUT_FULL);
    gazhdor_know_nothing(to);
    to->within = 1;
    to->file++;
    block[GAZHDOR_AT_HEADER_SIZE] = 14;
    block[GAZHDOR_AT_HEADER_PROTOCOL] = 0x20;
    block[GAZHDOR_AT_HEADER_SUM] = GAZHDOR_OWN_SUM;
    gazhdor_store(block + GAZHDOR_AT_FILE, to->file, 4);
    gazhdor_store(block + GAZHDOR_AT_HEADER_PROFILE, profile, 8);
    return GAZHDOR_PUT;
}

/* Ends the file. */
static inline uint32_t gazhdor_put_end(gazhdor_blocks *to)
{
    if (!to->within)
        return gazhdor_missed(to, GAZHDOR_PUT_ORDER);
    if (gazhdor_new_block(to, GAZHDOR_LEAST_BLOCK, GAZHDOR_FILE_END) == GAZHDOR_NULL)
        return gazhdor_missed(to, GAZHDOR_PUT_FULL);
    to->within = 0;
    return GAZHDOR_PUT;
}

/* How long the items of a field are in a message's block. */
static inline size_t gazhdor_slot(gazhdor_field field)
{
    return (GAZHDOR_CAST(size_t, field.count) * field.width + 7) / 8 * 8;
}

/* How much room a name or a unit of a developer field has in its entry, with the zeros after it. Of other fields none is kept. */
static inline size_t gazhdor_text_room(gazhdor_field field, const char *text)
{
    return field.developer && text != GAZHDOR_NULL ? (strlen(text) + 8) / 8 * 8 : 8;
}

/* Whether a definition may have these fields, and how many of them are developer fields. */
static inline uint32_t gazhdor_judge(const gazhdor_field *fields, size_t count, size_t *developer)
{
    *developer = 0;
    if (count > 510)
        return GAZHDOR_PUT_COUNT;
    for (size_t i = 0; i < count; i++) {
        size_t size = GAZHDOR_CAST(size_t, fields[i].count) * fields[i].width;
        gazhdor_field lone = gazhdor_new_field(0, fields[i].base_type, 1);
        size_t width = lone.there && size % lone.width == 0 ? lone.width : 1;
        if (!fields[i].there || size > 255 || fields[i].width != width)
            return GAZHDOR_PUT_FIELD;
        if (gazhdor_text_room(fields[i], fields[i].name) > 256 || gazhdor_text_room(fields[i], fields[i].unit) > 256)
            return GAZHDOR_PUT_LENGTH;
        if (*developer > 0 && !fields[i].developer)
            return GAZHDOR_PUT_COUNT;
        *developer += fields[i].developer != 0;
    }
    return count - *developer > 255 || *developer > 255 ? GAZHDOR_PUT_COUNT : GAZHDOR_PUT;
}

/* How long the entry of a field is. */
static inline size_t gazhdor_entry_length(gazhdor_field field)
{
    return GAZHDOR_AT_ENTRY_NAME + gazhdor_text_room(field, field.name) + gazhdor_text_room(field, field.unit);
}

/* Where a text is, which may have been in these blocks when they had this length and were at `old`. */
static inline const char *gazhdor_moved(const gazhdor_blocks *to, const char *text, const uint8_t *old, size_t length)
{
    const uint8_t *bytes = GAZHDOR_BYTES_OF(text);
    int is_within = text != GAZHDOR_NULL && old != GAZHDOR_NULL && bytes >= old && bytes < old + length;
    return is_within ? GAZHDOR_CAST(const char *, GAZHDOR_CAST(const void *, to->bytes + (bytes - old))) : text;
}

/* The entry of a field, in bytes that are 0. */
static inline void gazhdor_store_entry(uint8_t *entry, gazhdor_field field)
{
    size_t unit = GAZHDOR_AT_ENTRY_NAME + gazhdor_text_room(field, field.name);
    gazhdor_store(entry + GAZHDOR_AT_ENTRY_LENGTH, gazhdor_entry_length(field), 2);
    gazhdor_store(entry + GAZHDOR_AT_ENTRY_UNIT, unit, 2);
    entry[GAZHDOR_AT_ENTRY_NUMBER] = field.number;
    entry[GAZHDOR_AT_ENTRY_DEVELOPER] = field.developer != 0;
    entry[GAZHDOR_AT_ENTRY_INDEX] = field.index;
    entry[GAZHDOR_AT_ENTRY_BASE_TYPE] = field.base_type;
    entry[GAZHDOR_AT_ENTRY_KIND] = field.kind;
    entry[GAZHDOR_AT_ENTRY_WIDTH] = field.width;
    entry[GAZHDOR_AT_ENTRY_COUNT] = field.count;
    entry[GAZHDOR_AT_ENTRY_DECIMALS] = field.decimals;
    gazhdor_store(entry + GAZHDOR_AT_ENTRY_ITEMS, field.at, 4);
    gazhdor_store(entry + GAZHDOR_AT_ENTRY_SCALE, field.scale, 4);
    gazhdor_store(entry + GAZHDOR_AT_ENTRY_OFFSET, field.offset, 4);
    gazhdor_store(entry + GAZHDOR_AT_ENTRY_INVALID, field.invalid, 8);
    if (field.developer && field.name != GAZHDOR_NULL)
        memcpy(entry + GAZHDOR_AT_ENTRY_NAME, field.name, strlen(field.name));
    if (field.developer && field.unit != GAZHDOR_NULL)
        memcpy(entry + unit, field.unit, strlen(field.unit));
}

/* Defines what the messages of a local message type are: of the message with this number, with these fields and then developer fields, in
 * little endian. The fields then are those of this definition, for gazhdor_set_value and the like. They may be new, or fields of a
 * definition that was read. Of developer fields it takes the names and the units along, of at most 255 bytes. */
static inline uint32_t gazhdor_put_definition(gazhdor_blocks *to, uint32_t local, uint32_t message, gazhdor_field *fields, size_t count)
{
    size_t developer;
    uint32_t answer = gazhdor_judge(fields, count, &developer), begins = GAZHDOR_AT_MESSAGE_ITEMS;
    if (!to->within || local > 15 || message > 0xFFFF)
        answer = !to->within ? GAZHDOR_PUT_ORDER : local > 15 ? GAZHDOR_PUT_LOCAL : GAZHDOR_PUT_RANGE;
    if (answer != GAZHDOR_PUT)
        return gazhdor_missed(to, answer);
    size_t place = to->length, entry = GAZHDOR_AT_DEFINITION_NAME + 8, all = entry;
    const uint8_t *old = to->bytes;
    for (size_t i = 0; i < count; i++)
        all += gazhdor_entry_length(fields[i]);
    uint8_t *block = gazhdor_new_block(to, all, GAZHDOR_DEFINITION);
    if (block == GAZHDOR_NULL)
        return gazhdor_missed(to, GAZHDOR_PUT_FULL);
    uint64_t number = (GAZHDOR_CAST(uint64_t, 1) << 63) + to->definitions++;
    to->known[local] = place;
    for (size_t i = 0; i < count; i++) {
        fields[i].definition = number;
        fields[i].at = begins;
        fields[i].name = gazhdor_moved(to, fields[i].name, old, place);
        fields[i].unit = gazhdor_moved(to, fields[i].unit, old, place);
        gazhdor_store_entry(block + entry, fields[i]);
        entry += gazhdor_entry_length(fields[i]);
        fields[i].end = entry;
        begins += GAZHDOR_CAST(uint32_t, gazhdor_slot(fields[i]));
    }
    gazhdor_store(block + GAZHDOR_AT_DEFINITION_LOCAL, local, 1);
    gazhdor_store(block + GAZHDOR_AT_DEFINITION_MESSAGE_LENGTH, begins, 4);
    gazhdor_store(block + GAZHDOR_AT_DEFINITION_NUMBER, number, 8);
    gazhdor_store(block + GAZHDOR_AT_DEFINITION_MESSAGE, message, 2);
    gazhdor_store(block + GAZHDOR_AT_DEFINITION_FIELDS, count - developer, 2);
    gazhdor_store(block + GAZHDOR_AT_DEFINITION_DEVELOPERS, developer, 2);
    gazhdor_store(block + GAZHDOR_AT_DEFINITION_BITS, developer != 0 ? GAZHDOR_SAYS_DEVELOPERS : 0, 2);
    return GAZHDOR_PUT;
}

/* Where the items of a field are in the last message; NULL where it isn't one of its fields. */
static inline uint8_t *gazhdor_place_of(const gazhdor_blocks *to, gazhdor_field field)
{
    gazhdor_text items = gazhdor_items(field, gazhdor_block_at(to, to->message));
    int is_width = field.width == 1 || field.width == 2 || field.width == 4 || field.width == 8;
    return items.bytes == GAZHDOR_NULL || !is_width ? GAZHDOR_NULL : to->bytes + (items.bytes - to->bytes);
}

/* Sets all items of a field to the one that stands for no value: of text zeros, of bytes 255 each. For the fields of the message that was
 * written last, as all of gazhdor_set.h. */
static inline uint32_t gazhdor_set_invalid(gazhdor_blocks *to, gazhdor_field field)
{
    uint8_t *items = gazhdor_place_of(to, field);
    if (items == GAZHDOR_NULL)
        return GAZHDOR_PUT_FIELD;
    for (size_t k = 0; k < field.count; k++)
        gazhdor_store(items + k * field.width, field.kind == GAZHDOR_BYTES ? ~GAZHDOR_CAST(uint64_t, 0) : field.invalid, field.width);
    return GAZHDOR_PUT;
}

/* A message of the last definition of this local message type in this file, in which each field has no value yet. */
static inline uint32_t gazhdor_put_message(gazhdor_blocks *to, uint32_t local)
{
    gazhdor_block definition = gazhdor_block_at(to, local > 15 ? GAZHDOR_NOWHERE : to->known[local]);
    size_t length = GAZHDOR_CAST(size_t, gazhdor_load(definition, GAZHDOR_AT_DEFINITION_MESSAGE_LENGTH, 4)), place = to->length;
    if (!to->within || definition.kind != GAZHDOR_DEFINITION)
        return gazhdor_missed(to, to->within ? GAZHDOR_PUT_LOCAL : GAZHDOR_PUT_ORDER);
    if (length < GAZHDOR_AT_MESSAGE_ITEMS || length > GAZHDOR_AT_MESSAGE_COUNTED_ITEMS + 510 * 256 || length % 8 != 0)
        return gazhdor_missed(to, GAZHDOR_PUT_LENGTH);
    uint8_t *block = gazhdor_new_block(to, length, GAZHDOR_MESSAGE);
    if (block == GAZHDOR_NULL)
        return gazhdor_missed(to, GAZHDOR_PUT_FULL);
    definition = gazhdor_block_at(to, to->known[local]);
    gazhdor_store(block + GAZHDOR_AT_MESSAGE_LOCAL, local, 1);
    gazhdor_store(block + GAZHDOR_AT_MESSAGE_OFFSET, GAZHDOR_NO_OFFSET, 1);
    gazhdor_store(block + GAZHDOR_AT_MESSAGE_TIME, GAZHDOR_NO_TIME, 4);
    gazhdor_store(block + GAZHDOR_AT_MESSAGE_DEFINITION, definition.number, 8);
    gazhdor_store(block + GAZHDOR_AT_MESSAGE_HEADER_TIME, GAZHDOR_NO_TIME, 8);
    to->message = place;
    for (gazhdor_field f = gazhdor_first_field(definition); f.there; f = gazhdor_next_field(definition, f))
        gazhdor_set_invalid(to, f);
    return GAZHDOR_PUT;
}

/* A copy of a message that was read, to be changed by the fields of its definition and then put by a gazhdor_writer. The block isn't one of
 * these. */
static inline uint32_t gazhdor_put_copy(gazhdor_blocks *to, gazhdor_block message)
{
    gazhdor_text bytes = { message.bytes, message.length };
    gazhdor_block whole = gazhdor_first(bytes);
    if (whole.bytes == GAZHDOR_NULL || whole.length != message.length || whole.kind != GAZHDOR_MESSAGE)
        return gazhdor_missed(to, GAZHDOR_PUT_LENGTH);
    if (!gazhdor_has_room(to, message.length))
        return gazhdor_missed(to, GAZHDOR_PUT_FULL);
    memcpy(to->bytes + to->length, message.bytes, message.length);
    to->message = to->length;
    to->length += message.length;
    return GAZHDOR_PUT;
}

/* No blocks any more, in the same memory: what had no place before may have one now. */
static inline void gazhdor_begin_anew(gazhdor_blocks *to)
{
    to->length = 0;
    to->within = 0;
    to->fault = GAZHDOR_PUT;
    gazhdor_know_nothing(to);
}

#ifdef __cplusplus
}
#endif

#endif
