/* Makes one call of gazhdor.h on a file, for tests/gains to count: calls CALL SIZE FILE. CALL is check, show, table, to_csv or messages, in
 * pieces of SIZE bytes, or all at once where SIZE is 0. Two take a file of blocks: `back` makes the bytes of them, and `put` puts them by a
 * writer, messages of one definition SIZE a call, or all that stand together. What it makes is written where SIZE is 0. */
#include "gazhdor.h"

#include <stdio.h>
#include <stdlib.h>
#include <string.h>

static const char *const names[] = { "check", "show", "table", "to_csv", "messages", "back", "put" };
enum { CALLS = 7, BACK = 5, PUT = 6, MOST = 1 << 24 };

typedef gazhdor_answer call(const uint8_t *bytes, size_t length, gazhdor_text *text);

static gazhdor_answer check(const uint8_t *bytes, size_t length, gazhdor_text *text)
{
    (void)text;
    return gazhdor_check(bytes, length);
}

static call *const calls[PUT] = { check, gazhdor_show, gazhdor_table, gazhdor_to_csv, gazhdor_messages, gazhdor_from_messages };

static void stop(const char *why)
{
    fprintf(stderr, "calls: %s\n", why);
    exit(1);
}

static void whole(uint32_t kind, const uint8_t *bytes, size_t length)
{
    gazhdor_text text = GAZHDOR_NO_TEXT;
    if (calls[kind](bytes, length, &text).status != GAZHDOR_GOOD)
        stop("the input isn't good");
    fwrite(text.bytes, 1, text.length, stdout);
    gazhdor_free(text);
}

static void in_pieces(uint32_t kind, const uint8_t *bytes, size_t length, size_t size)
{
    gazhdor_stream stream = GAZHDOR_CLOSED_STREAM;
    gazhdor_text text = GAZHDOR_NO_TEXT;
    if (kind == BACK || gazhdor_open(&stream, kind).status != GAZHDOR_GOOD)
        stop("there is no such stream");
    for (size_t at = 0; at < length; at += size) {
        gazhdor_feed(&stream, bytes + at, length - at < size ? length - at : size, &text);
        gazhdor_free(text);
        text = (gazhdor_text)GAZHDOR_NO_TEXT;
    }
    if (gazhdor_finish(&stream, &text).status != GAZHDOR_GOOD)
        stop("the input isn't good");
    gazhdor_free(text);
    gazhdor_close(&stream);
}

/* How long the run of messages is that begins here, of one local message type and so of one definition, at most so many. */
static size_t run_length(gazhdor_text blocks, size_t at, size_t most)
{
    uint8_t local = blocks.bytes[at + GAZHDOR_AT_MESSAGE_LOCAL];
    size_t end = at;
    while (most-- > 0 && end < blocks.length && blocks.bytes[end + GAZHDOR_AT_KIND] == GAZHDOR_MESSAGE && blocks.bytes[end + GAZHDOR_AT_MESSAGE_LOCAL] == local)
        end += (size_t)gazhdor_number(blocks.bytes + end, 4);
    return end - at;
}

/* Puts all blocks, which are cut here by their lengths alone, so that what is counted is the writer. */
static gazhdor_answer put_blocks(gazhdor_writer *writer, gazhdor_text blocks, size_t most)
{
    gazhdor_text known[16] = { { NULL, 0 } };
    gazhdor_answer answer = gazhdor_writer_open(writer);
    for (size_t at = 0, length; answer.status == GAZHDOR_GOOD && at < blocks.length; at += length) {
        const uint8_t *block = blocks.bytes + at;
        gazhdor_text whole = { block, length = (size_t)gazhdor_number(block, 4) };
        if (block[GAZHDOR_AT_KIND] == GAZHDOR_FILE_HEADER) {
            answer = gazhdor_writer_file(writer, block, length);
        } else if (block[GAZHDOR_AT_KIND] == GAZHDOR_DEFINITION) {
            known[block[GAZHDOR_AT_DEFINITION_LOCAL] & 15] = whole;
            answer = gazhdor_writer_definition(writer, block, length);
        } else if (block[GAZHDOR_AT_KIND] == GAZHDOR_MESSAGE) {
            gazhdor_text definition = known[block[GAZHDOR_AT_MESSAGE_LOCAL] & 15];
            length = run_length(blocks, at, most);
            answer = gazhdor_writer_messages(writer, definition.bytes, definition.length, block, length);
        }
    }
    return answer;
}

static void put_all(gazhdor_text blocks, size_t size)
{
    gazhdor_writer writer = GAZHDOR_CLOSED_WRITER;
    gazhdor_text text = GAZHDOR_NO_TEXT;
    if (put_blocks(&writer, blocks, size == 0 ? SIZE_MAX : size).status != GAZHDOR_GOOD)
        stop("the input isn't good");
    if (gazhdor_writer_finish(&writer, &text).status != GAZHDOR_GOOD)
        stop("there is no file");
    if (size == 0)
        fwrite(text.bytes, 1, text.length, stdout);
    gazhdor_free(text);
    gazhdor_writer_close(&writer);
}

int main(int count, char **words)
{
    uint32_t kind = 0;
    if (count != 4)
        stop("calls CALL SIZE FILE");
    while (kind < CALLS && strcmp(names[kind], words[1]) != 0)
        kind++;
    FILE *file = fopen(words[3], "rb");
    uint8_t *bytes = malloc(MOST);
    if (kind == CALLS || file == NULL || bytes == NULL)
        stop("there is no such call, or no such file");
    size_t length = fread(bytes, 1, MOST, file), size = (size_t)atol(words[2]);
    fclose(file);
    gazhdor_text input = { bytes, length };
    if (kind == PUT)
        put_all(input, size);
    else if (size == 0)
        whole(kind, bytes, length);
    else
        in_pieces(kind, bytes, length, size);
    free(bytes);
    return 0;
}
