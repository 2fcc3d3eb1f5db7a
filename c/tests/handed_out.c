/* Tests that a stream of gazhdor.h keeps no byte of a message that was handed out. A file has ten messages with one text, and thirty with
 * another. It is fed to a stream of each kind, in pieces of many sizes, and what is made of it is freed. Then the first text is looked for in
 * the memory that the stream still has, after the ten messages, after all, after the end of the file, and after a byte that was refused:
 *  - What `at` points to doesn't have it. There a stream of lines, rows or blocks has the room in which it makes those of one message, up to a
 *    kilobyte: in it those of the last one may stand, until the next is made.
 *  - A stream that checks has it nowhere, nor has it there with each byte as a number of two, four or eight bytes.
 *  - No stream has it anywhere once other messages have come: what is made of these stands where texts are made.
 * The same is asked of messages of at most eight bytes, whose bytes a decoder keeps as they are while pieces cut one.
 * All blocks of memory are looked through, to the end of what the allocator gave: link with --wrap=malloc, realloc and free. */
#include "want.h"

#include <malloc.h>

/* ---- memory: the blocks that are in use */

enum { BLOCKS = 4096 };
static void *blocks[BLOCKS];
static size_t count;

void *__real_malloc(size_t size);
void *__real_realloc(void *block, size_t size);
void __real_free(void *block);

static void add(void *block)
{
    WANT_OF(count < BLOCKS, "more than %d blocks\n", BLOCKS);
    blocks[count++] = block;
}

static void take_away(void *block)
{
    size_t i = 0;
    while (i < count && blocks[i] != block)
        i++;
    WANT_OF(i < count, "a block that isn't in use is given back\n");
    blocks[i] = blocks[--count];
}

/* What a block had before isn't in it: it is cleared, and so is each block that grows or is given back. */
void *__wrap_malloc(size_t size)
{
    void *block = __real_malloc(size);
    if (block != NULL) {
        memset(block, 0, malloc_usable_size(block));
        add(block);
    }
    return block;
}

void __wrap_free(void *block)
{
    if (block == NULL)
        return;
    take_away(block);
    memset(block, 0, malloc_usable_size(block));
    __real_free(block);
}

void *__wrap_realloc(void *old, size_t size)
{
    void *block = __wrap_malloc(size);
    if (old != NULL && block != NULL) {
        size_t before = malloc_usable_size(old);
        memcpy(block, old, before < size ? before : size);
        __wrap_free(old);
    }
    return block;
}

/* ---- a file of messages with a text */

enum { MESSAGES = 10, OTHERS = 30, TEXT = 24, MOST = 2048 };
static const char text[] = "47 Long Lane; last house", other[] = "some words that are long";
static size_t sought = TEXT; /* how many of its first bytes are looked for */

typedef struct {
    uint8_t bytes[MOST];
    size_t first; /* how many bytes have come with the messages that have the text */
    size_t data;  /* and with the last message: the closing checksum comes after it */
} fit_file;

static uint8_t *put(uint8_t *at, const void *bytes, size_t length)
{
    return (uint8_t *)memcpy(at, bytes, length) + length;
}

/* Record messages with a time, a text and a heart rate. All bytes are fewer than the 2,048 that a decoder once kept. */
static void make(fit_file *file)
{
    static const uint8_t definition[] = { 0x40, 0, 0, 20, 0, 3, 253, 4, 0x86, 200, TEXT, 7, 3, 1, 2 };
    enum { LENGTH = sizeof definition + (MESSAGES + OTHERS) * (TEXT + 6) };
    static const uint8_t head[] = { 14, 0x20, 0, 0, LENGTH & 255, LENGTH >> 8, 0, 0, '.', 'F', 'I', 'T', 0, 0 };
    uint8_t *at = put(put(file->bytes, head, sizeof head), definition, sizeof definition);
    for (uint8_t i = 0; i < MESSAGES + OTHERS; i++) {
        const uint8_t front[] = { 0, i, 0, 0, 60 };
        at = put(put(at, front, sizeof front), i < MESSAGES ? text : other, TEXT);
        *at++ = 120;
        if (i < MESSAGES)
            file->first = (size_t)(at - file->bytes);
    }
    file->data = (size_t)(at - file->bytes);
    with_checksum(file->bytes, file->data);
}

/* ---- what stands in memory */

/* How often the text stands in some bytes, each of its own as a number of that width, at whatever place. */
static size_t often(const uint8_t *bytes, size_t length, size_t width)
{
    size_t found = 0;
    for (size_t at = 0; at + (sought - 1) * width < length; at++) {
        size_t same = 0;
        while (same < sought && bytes[at + same * width] == (uint8_t)text[same])
            same++;
        found += same == sought;
    }
    return found;
}

static size_t often_in(const void *block)
{
    size_t found = 0;
    for (size_t width = 1; width <= 8; width *= 2)
        found += often(block, malloc_usable_size((void *)block), width);
    return found;
}

static size_t often_anywhere(void)
{
    size_t found = 0;
    for (size_t i = 0; i < count; i++)
        found += often_in(blocks[i]);
    return found;
}

/* ---- streams */

enum { KINDS = 5 };
static const struct {
    const char *name;
    size_t made; /* how often the text stands in all that is made of the file */
    size_t room; /* how often it may stand in what `at` points to, while no other message has come */
} kinds[KINDS] = { { "check", 0, 0 }, { "show", MESSAGES, 1 }, { "table", 0, 0 }, { "to_csv", MESSAGES, 1 }, { "messages", MESSAGES, 1 } };

typedef struct {
    uint32_t kind;
    size_t size; /* of a piece */
    gazhdor_stream stream;
    size_t made;
} feeding;

static void feed(feeding *f, const uint8_t *bytes, size_t length, uint32_t wanted)
{
    uint32_t status = GAZHDOR_GOOD;
    for (size_t at = 0; at < length; at += f->size) {
        gazhdor_text piece = GAZHDOR_NO_TEXT;
        status = gazhdor_feed(&f->stream, bytes + at, length - at < f->size ? length - at : f->size, &piece).status;
        f->made += often(piece.bytes, piece.length, 1);
        gazhdor_free(piece);
    }
    WANT_OF(status == wanted, "%s by %zu: status %u\n", kinds[f->kind].name, f->size, status);
}

static void look(const feeding *f, const char *when, size_t room, int anywhere)
{
    const char *name = kinds[f->kind].name;
    WANT_OF(often_in(f->stream.at) <= room, "%s by %zu: %zu times %s\n", name, f->size, often_in(f->stream.at), when);
    WANT_OF(!anywhere || often_anywhere() == 0, "%s by %zu: %zu times %s\n", name, f->size, often_anywhere(), when);
}

/* The last byte of the file is refused where `wrong` isn't 0. */
static void handed_out(uint32_t kind, const fit_file *file, size_t size, uint8_t wrong)
{
    feeding f = { kind, size, GAZHDOR_CLOSED_STREAM, 0 };
    gazhdor_text last = GAZHDOR_NO_TEXT;
    const uint8_t end[2] = { file->bytes[file->data], (uint8_t)(file->bytes[file->data + 1] ^ wrong) };
    uint32_t status = wrong ? GAZHDOR_REFUSED : GAZHDOR_GOOD;
    WANT_OF(gazhdor_open(&f.stream, kind).status == GAZHDOR_GOOD && count > 0, "%s\n", kinds[kind].name);
    feed(&f, file->bytes, file->first, GAZHDOR_GOOD);
    look(&f, "after the messages that have it", kinds[kind].room, kind == GAZHDOR_STREAM_CHECK);
    feed(&f, file->bytes + file->first, file->data - file->first, GAZHDOR_GOOD);
    look(&f, "after all messages", 0, 1);
    feed(&f, end, sizeof end, status);
    look(&f, wrong ? "after a refusal" : "after the end of the file", 0, 1);
    WANT_OF(gazhdor_finish(&f.stream, &last).status == status && last.length == 0, "%s\n", kinds[kind].name);
    look(&f, "at the end", 0, 1);
    WANT_OF(f.made == kinds[kind].made, "%s by %zu: %zu texts made\n", kinds[kind].name, size, f.made);
    gazhdor_close(&f.stream);
    WANT_OF(count == 0, "%s: %zu blocks after it was closed\n", kinds[kind].name, count);
}

/* The same where the file ends, or a byte is refused, with the messages that have the text. */
static void handed_out_last(uint32_t kind, const fit_file *file, size_t size, uint8_t wrong)
{
    fit_file own = *file;
    size_t data = own.first - 14;
    own.bytes[4] = (uint8_t)data;
    own.bytes[5] = (uint8_t)(data >> 8);
    uint16_t sum = (uint16_t)(checksum(own.bytes, own.first) ^ (wrong << 8));
    const uint8_t end[2] = { (uint8_t)sum, (uint8_t)(sum >> 8) };
    feeding f = { kind, size, GAZHDOR_CLOSED_STREAM, 0 };
    WANT_OF(gazhdor_open(&f.stream, kind).status == GAZHDOR_GOOD, "%s\n", kinds[kind].name);
    feed(&f, own.bytes, own.first, GAZHDOR_GOOD);
    feed(&f, end, sizeof end, wrong ? GAZHDOR_REFUSED : GAZHDOR_GOOD);
    look(&f, wrong ? "after a refusal" : "after the end of the file", kinds[kind].room, kind == GAZHDOR_STREAM_CHECK);
    gazhdor_close(&f.stream);
}

/* ---- messages of at most eight bytes */

enum { DEFINED = 14 + 9 }; /* a header, and a definition of one field */

/* As many record messages, each with so many bytes of a text alone. Returns how long the file is without its closing checksum. */
static size_t make_short(uint8_t *bytes, uint8_t length)
{
    const uint8_t definition[] = { 0x40, 0, 0, 20, 0, 1, 200, length, 7 };
    size_t data = sizeof definition + (size_t)(MESSAGES + OTHERS) * (1u + length);
    const uint8_t head[] = { 14, 0x20, 0, 0, (uint8_t)data, (uint8_t)(data >> 8), 0, 0, '.', 'F', 'I', 'T', 0, 0 };
    uint8_t *at = put(put(bytes, head, sizeof head), definition, sizeof definition);
    for (int i = 0; i < MESSAGES + OTHERS; i++) {
        *at++ = 0;
        at = put(at, i < MESSAGES ? text : other, length);
    }
    return (size_t)(at - bytes);
}

/* A stream that checks has no text after a message that is whole, and no stream has it after the others. */
static void handed_out_short(uint32_t kind, uint8_t length, size_t size)
{
    uint8_t bytes[MOST];
    size_t whole = 1u + length, end = make_short(bytes, length), at = DEFINED;
    feeding f = { kind, size, GAZHDOR_CLOSED_STREAM, 0 };
    WANT_OF(gazhdor_open(&f.stream, kind).status == GAZHDOR_GOOD, "%s\n", kinds[kind].name);
    sought = length;
    feed(&f, bytes, DEFINED, GAZHDOR_GOOD);
    for (; at < DEFINED + MESSAGES * whole; at += whole) {
        feed(&f, bytes + at, whole, GAZHDOR_GOOD);
        look(&f, "after a short message", kinds[kind].room, kind == GAZHDOR_STREAM_CHECK);
    }
    feed(&f, bytes + at, end - at, GAZHDOR_GOOD);
    look(&f, "after all short messages", 0, 1);
    WANT_OF(f.made == kinds[kind].made, "%s by %zu: %zu short texts made\n", kinds[kind].name, size, f.made);
    gazhdor_close(&f.stream);
    sought = TEXT;
}

/* A text that stands in memory is found, in each width: else nothing would be said. */
static void found_where_it_is(void)
{
    for (size_t width = 1; width <= 8; width *= 2) {
        uint8_t *block = __wrap_malloc(TEXT * width + 3);
        for (size_t i = 0; i < TEXT; i++)
            block[3 + i * width] = (uint8_t)text[i];
        WANT_OF(often_anywhere() == 1, "width %zu: %zu times\n", width, often_anywhere());
        __wrap_free(block);
    }
}

int main(void)
{
    static fit_file file;
    make(&file);
    WANT_OF(file.data + 2 < MOST, "%zu bytes\n", file.data);
    found_where_it_is();
    for (uint32_t kind = 0; kind < KINDS; kind++)
        for (size_t size = 1; size <= file.data; size += size < 64 ? 1 : 97)
            for (uint8_t wrong = 0; wrong <= 1; wrong++) {
                handed_out(kind, &file, size, wrong);
                handed_out_last(kind, &file, size, wrong);
            }
    for (uint32_t kind = 0; kind < KINDS; kind++)
        for (uint8_t length = 4; length < 8; length++)
            for (size_t size = 1; size <= 9; size++)
                handed_out_short(kind, length, size);
    return 0;
}
