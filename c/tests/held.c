/* Tests of the memory that the streams of gazhdor.h keep between pieces: held FILE.. Each FILE is fed in pieces of 64 KB to a stream of each
 * kind, whose text is freed after each piece. Then no more than 100,000 bytes are held, however long the texts were, and none once the stream
 * is closed. So are files of messages of one byte each, of which the rows are 275,163 bytes, of one definition and of sixteen in turn: there
 * what stands around the values of one message is kept, and no more. Bytes are counted: link with --wrap=malloc, realloc and free. */
#define COUNTED
#include "want.h"

enum { KINDS = 5, PIECE = 65536, MOST = 100000, HOSTILE = 1000000, SIXTEEN = 2000000 };

/* Feeds all of it in pieces of that size. Returns how many bytes the greatest text of a piece had. */
static size_t fed(uint32_t kind, const char *name, const uint8_t *bytes, size_t length, size_t size, size_t most)
{
    gazhdor_stream stream = GAZHDOR_CLOSED_STREAM;
    size_t greatest = 0;
    WANT_OF(gazhdor_open(&stream, kind).status == GAZHDOR_GOOD, "kind %u\n", kind);
    for (size_t at = 0; at < length; at += size) {
        gazhdor_text text = GAZHDOR_NO_TEXT;
        size_t piece = length - at < size ? length - at : size;
        gazhdor_answer answer = gazhdor_feed(&stream, bytes + at, piece, &text);
        WANT_OF(answer.status == GAZHDOR_GOOD, "%s, kind %u: status %u at %zu\n", name, kind, answer.status, at);
        greatest = text.length > greatest ? text.length : greatest;
        gazhdor_free(text);
        WANT_OF(memory.held <= most, "%s, kind %u: %zu bytes after the piece at %zu, whose text had %zu\n", name, kind, memory.held, at, text.length);
    }
    gazhdor_text last = GAZHDOR_NO_TEXT;
    gazhdor_answer answer = gazhdor_finish(&stream, &last);
    WANT_OF(answer.status == GAZHDOR_GOOD && answer.files == 1, "%s, kind %u: status %u\n", name, kind, answer.status);
    gazhdor_free(last);
    WANT_OF(memory.held <= most, "%s, kind %u: %zu bytes at the end\n", name, kind, memory.held);
    gazhdor_close(&stream);
    WANT_OF(memory.held == 0, "%s, kind %u: %zu bytes after it was closed\n", name, kind, memory.held);
    return greatest;
}

/* Feeds all of it to a stream of each kind. Some text is longer than what may be held: else nothing would be said. */
static void fed_to_each(const char *name, const uint8_t *bytes, size_t length, size_t size, size_t most)
{
    size_t greatest = 0;
    for (uint32_t kind = 0; kind < KINDS; kind++) {
        size_t text = fed(kind, name, bytes, length, size, most);
        greatest = text > greatest ? text : greatest;
    }
    WANT_OF(greatest > most, "%s: the greatest text had %zu bytes\n", name, greatest);
}

/* ---- messages of one byte with long texts */

enum { TEXT = 255, FIELDS = 255 };

static uint8_t *put(uint8_t *at, const void *bytes, size_t length)
{
    return (uint8_t *)memcpy(at, bytes, length) + length;
}

/* A developer field whose name and unit are quotation marks, that many definitions of record messages of 255 fields and 255 such fields, all
 * of no bytes, and messages of each in turn. */
static size_t hostile(uint8_t *bytes, int definitions, int messages)
{
    static const uint8_t described[] = { 0x40, 0, 0, 206, 0, 5, 0, 1, 2, 1, 1, 2, 2, 1, 2, 3, TEXT, 7, 8, TEXT, 7, 0, 0, 1, 2 };
    uint8_t *at = put(bytes + 14, described, sizeof described);
    at = (uint8_t *)memset(at, '"', 2 * TEXT) + 2 * TEXT;
    for (int local = 0; local < definitions; local++) {
        *at++ = (uint8_t)(0x60 | local);
        at = put(at, "\0\0\x14\0\xFF", 5);
        for (int i = 0; i < FIELDS; i++)
            at = put(at, "\x1C\0\x84", 3);
        *at++ = FIELDS;
        for (int i = 0; i < FIELDS; i++)
            at = put(at, "\1\0\0", 3);
    }
    for (int i = 0; i < messages; i++)
        *at++ = (uint8_t)(i % definitions);
    size_t data = (size_t)(at - bytes) - 14;
    uint8_t head[14] = { 14, 0x20, 0, 0, (uint8_t)data, (uint8_t)(data >> 8), 0, 0, '.', 'F', 'I', 'T', 0, 0 };
    put(bytes, head, sizeof head);
    return with_checksum(bytes, data + 14);
}

int main(int count, char **words)
{
    for (int i = 1; i < count; i++) {
        gazhdor_text file = file_of(words[i], 1 << 22);
        memory.held = 0;
        fed_to_each(words[i], file.bytes, file.length, PIECE, MOST);
        free_file(file);
    }
    static uint8_t bytes[32768];
    memory.held = 0;
    fed_to_each("messages of one byte", bytes, hostile(bytes, 1, 300), PIECE, HOSTILE);
    fed_to_each("messages of one byte of sixteen definitions", bytes, hostile(bytes, 16, 32), PIECE, SIXTEEN);
    return 0;
}
