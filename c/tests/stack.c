/* How much stack the calls of gazhdor.h take: stack FILE.. Each call on each file and on the greatest message, on its blocks, and on its CSV
 * text in three spellings, each kind of stream of it in pieces, and a writer of its blocks, runs in a thread whose stack has the 64 KiB that the header says to be
 * enough: one that takes more runs into memory that can't be written. The stack is painted before, so that what stays as it was is what no
 * call has taken. With SAY in the environment it prints how much that was, besides what a thread takes that does nothing. */
#define _GNU_SOURCE
#include "want.h"

#include <pthread.h>
#include <sys/mman.h>

enum { STACK = 65536, SAID = 48 * 1024, GUARD = 65536, MOST = 1 << 22, PAINT = 0xA5, KINDS = 5 };

typedef gazhdor_answer call(const uint8_t *bytes, size_t length, gazhdor_text *text);
static call *const calls[] = { gazhdor_table, gazhdor_to_csv, gazhdor_show, gazhdor_messages, gazhdor_from_csv, gazhdor_from_messages };
enum { CALLS = sizeof calls / sizeof *calls };

/* What a thread is to do. */
static struct {
    const uint8_t *bytes;
    size_t length, piece;
    uint32_t kind;
} job;

/* A call of the kind; the first is gazhdor_check. */
static void *one_call(void *unused)
{
    gazhdor_text text = GAZHDOR_NO_TEXT;
    if (job.kind == 0)
        gazhdor_check(job.bytes, job.length);
    else
        calls[job.kind - 1](job.bytes, job.length, &text);
    gazhdor_free(text);
    return unused;
}

static void *one_stream(void *unused)
{
    gazhdor_stream stream = GAZHDOR_CLOSED_STREAM;
    gazhdor_open(&stream, job.kind);
    for (size_t at = 0; at < job.length; at += job.piece) {
        gazhdor_text text = GAZHDOR_NO_TEXT;
        gazhdor_feed(&stream, job.bytes + at, job.length - at < job.piece ? job.length - at : job.piece, &text);
        gazhdor_free(text);
    }
    gazhdor_text text = GAZHDOR_NO_TEXT;
    gazhdor_finish(&stream, &text);
    gazhdor_free(text);
    gazhdor_close(&stream);
    return unused;
}

/* Whether what the reader is at is a message that doesn't describe developer fields. */
static int is_other(const gazhdor_reader *at)
{
    return at->block.kind == GAZHDOR_MESSAGE && at->message != GAZHDOR_MESSAGE_FIELD_DESCRIPTION && at->message != GAZHDOR_MESSAGE_DEVELOPER_DATA_ID;
}

/* Puts blocks, one by one: all of them, or of kind 1 those of headers and of messages alone that don't describe developer fields, which are
 * described before them. */
static void *one_writer(void *unused)
{
    gazhdor_writer writer = GAZHDOR_CLOSED_WRITER;
    gazhdor_text blocks = { job.bytes, job.length }, text = GAZHDOR_NO_TEXT;
    gazhdor_answer answer = gazhdor_writer_open(&writer);
    for (gazhdor_reader at = gazhdor_read(blocks); answer.status == GAZHDOR_GOOD && gazhdor_next(&at);) {
        if (at.block.kind == GAZHDOR_FILE_HEADER)
            answer = gazhdor_writer_file(&writer, at.block.bytes, at.block.length);
        else if (at.block.kind == GAZHDOR_DEFINITION && job.kind == 0)
            answer = gazhdor_writer_definition(&writer, at.block.bytes, at.block.length);
        else if (is_other(&at) || (at.block.kind == GAZHDOR_MESSAGE && job.kind == 0))
            answer = gazhdor_writer_messages(&writer, at.definition.bytes, at.definition.length, at.block.bytes, at.block.length);
    }
    WANT(answer.status == GAZHDOR_GOOD && gazhdor_writer_finish(&writer, &text).status == GAZHDOR_GOOD);
    gazhdor_free(text);
    gazhdor_writer_close(&writer);
    return unused;
}

static void *nothing(void *unused)
{
    return unused;
}

/* The bytes of its stack that a thread writes which does this. */
static size_t taken(void *(*what)(void *))
{
    uint8_t *room = mmap(NULL, GUARD + STACK, PROT_READ | PROT_WRITE, MAP_PRIVATE | MAP_ANONYMOUS, -1, 0);
    WANT(room != MAP_FAILED && mprotect(room, GUARD, PROT_NONE) == 0);
    memset(room + GUARD, PAINT, STACK);
    pthread_attr_t attributes;
    pthread_t thread;
    WANT(pthread_attr_init(&attributes) == 0 && pthread_attr_setstack(&attributes, room + GUARD, STACK) == 0);
    WANT(pthread_create(&thread, &attributes, what, NULL) == 0 && pthread_join(thread, NULL) == 0);
    pthread_attr_destroy(&attributes);
    size_t left = 0;
    while (left < STACK && room[GUARD + left] == PAINT)
        left++;
    munmap(room, GUARD + STACK);
    return STACK - left;
}

static size_t most_of_calls, most_of_streams, most_of_writers;

static void see(size_t *most, void *(*what)(void *))
{
    size_t now = taken(what);
    *most = now > *most ? now : *most;
}

static void see_calls(const uint8_t *bytes, size_t length)
{
    job.bytes = bytes, job.length = length;
    for (job.kind = 0; job.kind <= CALLS; job.kind++)
        see(&most_of_calls, one_call);
}

/* A text with CR LF, and one with each cell in quotes: how other programs spell it. */
static void see_spellings(gazhdor_text text)
{
    uint8_t *other = malloc(4 * text.length + 2);
    size_t length = 0;
    WANT(other != NULL);
    see_calls(text.bytes, text.length);
    for (size_t at = 0; at < text.length; at++) {
        if (text.bytes[at] == '\n')
            other[length++] = '\r';
        other[length++] = text.bytes[at];
    }
    see_calls(other, length);
    length = 0;
    other[length++] = '"';
    for (size_t at = 0; at + 1 < text.length; at++) {
        int parts = text.bytes[at] == ',' || text.bytes[at] == '\n';
        if (parts)
            other[length++] = '"';
        other[length++] = text.bytes[at];
        if (parts)
            other[length++] = '"';
    }
    other[length++] = '"';
    other[length++] = '\n';
    see_calls(other, length);
    free(other);
}

/* A writer of the blocks of a file. */
static void see_writer(const uint8_t *bytes, size_t length, uint32_t kind)
{
    gazhdor_text blocks = GAZHDOR_NO_TEXT;
    gazhdor_messages(bytes, length, &blocks);
    job.bytes = blocks.bytes, job.length = blocks.length, job.kind = kind;
    see(&most_of_writers, one_writer);
    gazhdor_free(blocks);
}

static void see_file(const uint8_t *bytes, size_t length)
{
    static const size_t pieces[] = { 1, 100, 65536 };
    see_calls(bytes, length);
    for (size_t i = 0; i < sizeof pieces / sizeof *pieces; i++) {
        job.piece = pieces[i];
        for (job.kind = 0; job.kind < KINDS; job.kind++)
            see(&most_of_streams, one_stream);
    }
    gazhdor_text text = GAZHDOR_NO_TEXT;
    gazhdor_to_csv(bytes, length, &text);
    see_spellings(text);
    gazhdor_free(text);
    gazhdor_text blocks = GAZHDOR_NO_TEXT;
    gazhdor_messages(bytes, length, &blocks);
    see_calls(blocks.bytes, blocks.length);
    gazhdor_free(blocks);
    see_writer(bytes, length, 0);
}

/* ---- the greatest message, of 255 fields and 255 developer fields with names and units of 255 bytes */

static size_t put(uint8_t *bytes, size_t at, size_t count, const uint8_t *what)
{
    memcpy(bytes + at, what, count);
    return at + count;
}

enum { NAME_END = 12 + 21 + 4 + 254, UNIT_END = NAME_END + 255 };

static size_t put_definitions(uint8_t *bytes, size_t at)
{
    static const uint8_t description[] = { 0x40, 0, 0, 206, 0, 5, 0, 1, 2, 1, 1, 2, 2, 1, 2, 3, 255, 7, 8, 255, 7 };
    static const uint8_t head[] = { 0x61, 0, 0, 20, 0, 255 };
    at = put(bytes, at, sizeof description, description);
    at = put(bytes, at, 4, (const uint8_t[]){ 0, 0, 7, 2 });
    memset(bytes + at, 'n', 510);
    bytes[at + 9] = '"', bytes[at + 300] = '"';
    at = put(bytes, at + 510, sizeof head, head);
    for (int i = 0; i < 255; i++)
        at = put(bytes, at, 3, (const uint8_t[]){ (uint8_t)i, 1, 2 });
    bytes[at++] = 255;
    for (int i = 0; i < 255; i++)
        at = put(bytes, at, 3, (const uint8_t[]){ 7, 1, 0 });
    return at;
}

static void see_the_greatest(void)
{
    static uint8_t bytes[8192];
    size_t at = put_definitions(bytes, 12);
    for (int i = 0; i < 3; i++) {
        bytes[at] = 1;
        memset(bytes + at + 1, 77, 510);
        at += 511;
    }
    put(bytes, 0, 12, (const uint8_t[]){ 12, 32, 0, 0, (uint8_t)(at - 12), (uint8_t)((at - 12) >> 8), 0, 0, '.', 'F', 'I', 'T' });
    at = with_checksum(bytes, at);
    WANT(gazhdor_check(bytes, at).status == GAZHDOR_GOOD);
    see_file(bytes, at);
    /* With a zero at the end of name and unit, so that they can be described. */
    bytes[NAME_END] = bytes[UNIT_END] = 0;
    see_writer(bytes, with_checksum(bytes, at - 2), 1);
}

int main(int argc, char **argv)
{
    size_t own = taken(nothing);
    WANT(argc > 1);
    see_the_greatest();
    for (int i = 1; i < argc; i++) {
        gazhdor_text file = file_of(argv[i], MOST);
        see_file(file.bytes, file.length);
        see_writer(file.bytes, file.length, 1);
        free_file(file);
    }
    if (getenv("SAY") != NULL)
        printf("calls %zu, streams %zu, writers %zu bytes\n", most_of_calls - own, most_of_streams - own, most_of_writers - own);
    WANT(most_of_calls - own <= SAID && most_of_streams - own <= SAID && most_of_writers - own <= SAID);
    return 0;
}
