/* Says what the library answers: any [-d COUNT] FILE.. makes each call on each file, on its text and its blocks, on COUNT damaged copies of each,
 * and on pieces of each, and writes each answer and all bytes that were made to standard output. So two libraries are compared by `cmp`. Of a
 * long file it makes only the text, and the file again; of one like the ride four threads make each call at once, too.
 *
 * With REFUSES it also makes each call on each file with memory refused from each place on, and says where the answer is wrong. The library's
 * malloc and realloc have to come through here for that: -Wl,--wrap=malloc,--wrap=realloc. */
#include "gazhdor.h"

#include <stdio.h>
#include <stdlib.h>
#include <string.h>
#ifdef _WIN32
#include <fcntl.h>
#include <io.h>
#endif

enum { FEW = 1000, REFUSED_AT_MOST = 4000, MANY = 50000 };

/* ---- numbers that are the same on every machine */

static uint64_t state = 88172645463325252u;

static size_t below(size_t most)
{
    state ^= state << 13;
    state ^= state >> 7;
    state ^= state << 17;
    return (size_t)(state % most);
}

/* ---- what is said */

static void say(const char *call, gazhdor_answer a, gazhdor_text text)
{
    printf("%s: %u %u %llu %llu %llu %llu, %s, %s, %llu bytes\n", call, (unsigned)a.status, (unsigned)a.reason, (unsigned long long)a.place,
        (unsigned long long)a.row, (unsigned long long)a.column, (unsigned long long)a.files, gazhdor_status_name(a.status),
        gazhdor_reason_name(a.reason), (unsigned long long)text.length);
    fwrite(text.bytes, 1, text.length, stdout);
    printf("\n");
}

static void say_only(const char *call, gazhdor_answer answer)
{
    gazhdor_text none = GAZHDOR_NO_TEXT;
    say(call, answer, none);
}

typedef gazhdor_answer call(const uint8_t *bytes, size_t length, gazhdor_text *text);

static gazhdor_text made(const char *name, call *of, const uint8_t *bytes, size_t length)
{
    gazhdor_text text = GAZHDOR_NO_TEXT;
    say(name, of(bytes, length, &text), text);
    return text;
}

/* ---- calls */

static void *some(size_t bytes)
{
    void *block = malloc(bytes + 1);
    if (block == NULL)
        exit(3);
    return block;
}

/* A text or blocks, of which one bit is another, given to the call that reads such. */
static void say_changed(const char *name, call *of, gazhdor_text text)
{
    uint8_t *changed = some(text.length);
    for (int round = 0; round < 4 && text.length > 100; round++) {
        size_t place = below(text.length), bit = below(8);
        memcpy(changed, text.bytes, text.length);
        changed[place] ^= (uint8_t)(1u << bit);
        gazhdor_free(made(name, of, changed, text.length));
    }
    free(changed);
}

/* Puts blocks by a writer, up to the first that it refuses; the chain where none was. */
static gazhdor_answer written(const uint8_t *bytes, size_t length, gazhdor_text *text)
{
    gazhdor_writer writer = GAZHDOR_CLOSED_WRITER;
    gazhdor_text blocks = { bytes, length };
    gazhdor_answer answer = gazhdor_writer_open(&writer);
    for (gazhdor_reader at = gazhdor_read(blocks); answer.status == GAZHDOR_GOOD && gazhdor_next(&at);) {
        if (at.block.kind == GAZHDOR_FILE_HEADER)
            answer = gazhdor_writer_file(&writer, at.block.bytes, at.block.length);
        else if (at.block.kind == GAZHDOR_DEFINITION)
            answer = gazhdor_writer_definition(&writer, at.block.bytes, at.block.length);
        else if (at.block.kind == GAZHDOR_MESSAGE)
            answer = gazhdor_writer_messages(&writer, at.definition.bytes, at.definition.length, at.block.bytes, at.block.length);
    }
    if (answer.status == GAZHDOR_GOOD)
        answer = gazhdor_writer_finish(&writer, text);
    gazhdor_writer_close(&writer);
    gazhdor_writer_close(&writer);
    return answer;
}

#include "any_threads.h"

static void say_pieces(const uint8_t *bytes, size_t length, uint32_t kind)
{
    gazhdor_stream stream = GAZHDOR_CLOSED_STREAM;
    size_t most = length < 3000 ? 7 : 4000;
    gazhdor_answer answer = gazhdor_open(&stream, kind);
    say_only("open", answer);
    for (size_t at = 0; at < length && answer.status == GAZHDOR_GOOD;) {
        size_t piece = 1 + below(most);
        gazhdor_text text = GAZHDOR_NO_TEXT;
        piece = piece > length - at ? length - at : piece;
        answer = gazhdor_feed(&stream, bytes + at, piece, &text);
        say("feed", answer, text);
        gazhdor_free(text);
        at += piece;
    }
    gazhdor_text text = GAZHDOR_NO_TEXT, none = GAZHDOR_NO_TEXT;
    answer = gazhdor_finish(&stream, &text);
    say("finish", answer, text);
    gazhdor_free(text);
    gazhdor_close(&stream);
    gazhdor_close(&stream);
    say_only("feed", gazhdor_feed(&stream, bytes, length, &none));
}

static void say_all(const uint8_t *bytes, size_t length)
{
    say_only("check", gazhdor_check(bytes, length));
    gazhdor_free(made("table", gazhdor_table, bytes, length));
    gazhdor_free(made("show", gazhdor_show, bytes, length));
    gazhdor_text csv = made("to_csv", gazhdor_to_csv, bytes, length), blocks = made("messages", gazhdor_messages, bytes, length);
    gazhdor_free(made("from_csv", gazhdor_from_csv, csv.bytes, csv.length));
    gazhdor_free(made("from_messages", gazhdor_from_messages, blocks.bytes, blocks.length));
    say_changed("from_csv", gazhdor_from_csv, csv);
    say_changed("from_messages", gazhdor_from_messages, blocks);
    gazhdor_free(made("a writer", written, blocks.bytes, blocks.length));
    say_changed("a writer", written, blocks);
    gazhdor_free(csv);
    gazhdor_free(blocks);
    for (uint32_t kind = 0; kind < 7; kind++)
        say_pieces(bytes, length, kind);
}

/* Memory grows past a megabyte here. */
static void say_long(const uint8_t *bytes, size_t length)
{
    gazhdor_text csv = made("to_csv", gazhdor_to_csv, bytes, length);
    gazhdor_free(made("from_csv", gazhdor_from_csv, csv.bytes, csv.length));
    gazhdor_free(csv);
}

/* A copy with up to three other bytes, which may end too soon. */
static void say_damaged(const uint8_t *bytes, size_t length)
{
    uint8_t *damaged = some(length);
    size_t changes = below(4);
    memcpy(damaged, bytes, length);
    for (; changes > 0 && length > 0; changes--) {
        size_t place = below(length);
        damaged[place] = (uint8_t)below(256);
    }
    say_all(damaged, below(3) == 0 && length > 0 ? below(length) : length);
    free(damaged);
}

/* ---- memory that is refused */

#ifdef REFUSES
void *__real_malloc(size_t bytes);
void *__real_realloc(void *block, size_t bytes);
static long granted = -1; /* how many more blocks there are; -1: any number */
static int refused;

static int is_refused(void)
{
    if (granted < 0)
        return 0;
    refused |= granted == 0;
    if (granted > 0)
        granted--;
    return granted == 0 && refused;
}

void *__wrap_malloc(size_t bytes) { return is_refused() ? NULL : __real_malloc(bytes); }
void *__wrap_realloc(void *block, size_t bytes) { return is_refused() ? NULL : __real_realloc(block, bytes); }

/* A stream that is opened, fed and finished; the answer is the first that isn't good. */
static gazhdor_answer streamed(const uint8_t *bytes, size_t length, gazhdor_text *text)
{
    gazhdor_stream stream = GAZHDOR_CLOSED_STREAM;
    gazhdor_text rest = GAZHDOR_NO_TEXT;
    gazhdor_answer answer = gazhdor_open(&stream, GAZHDOR_STREAM_TO_CSV);
    if (answer.status == GAZHDOR_GOOD)
        answer = gazhdor_feed(&stream, bytes, length, text);
    gazhdor_answer last = answer.status == GAZHDOR_GOOD ? gazhdor_finish(&stream, &rest) : answer;
    if (answer.status == GAZHDOR_NO_MEMORY && stream.at != NULL && gazhdor_finish(&stream, &rest).status != GAZHDOR_NO_MEMORY)
        printf("a stream goes on after memory was refused\n");
    gazhdor_free(rest);
    gazhdor_close(&stream);
    return last;
}

static gazhdor_answer checked(const uint8_t *bytes, size_t length, gazhdor_text *text)
{
    (void)text;
    return gazhdor_check(bytes, length);
}

/* Memory is refused from each block on that a call asks for, until there is enough of it. */
static void refuse(const char *name, call *of, const uint8_t *bytes, size_t length)
{
    gazhdor_text text = GAZHDOR_NO_TEXT;
    const gazhdor_answer wanted = of(bytes, length, &text);
    gazhdor_free(text);
    for (long n = 0; n == 0 || refused; n++) {
        gazhdor_text some_text = GAZHDOR_NO_TEXT;
        refused = 0;
        granted = n;
        gazhdor_answer answer = of(bytes, length, &some_text);
        granted = -1;
        if (answer.status != (refused ? (uint32_t)GAZHDOR_NO_MEMORY : wanted.status))
            printf("%s with memory for %ld blocks: status %u\n", name, n, (unsigned)answer.status);
        gazhdor_free(some_text);
    }
}

static void refuse_all(const uint8_t *bytes, size_t length)
{
    gazhdor_text csv = GAZHDOR_NO_TEXT, blocks = GAZHDOR_NO_TEXT;
    gazhdor_to_csv(bytes, length, &csv);
    gazhdor_messages(bytes, length, &blocks);
    refuse("check", checked, bytes, length);
    refuse("table", gazhdor_table, bytes, length);
    refuse("show", gazhdor_show, bytes, length);
    refuse("to_csv", gazhdor_to_csv, bytes, length);
    refuse("messages", gazhdor_messages, bytes, length);
    refuse("from_csv", gazhdor_from_csv, csv.bytes, csv.length);
    refuse("from_messages", gazhdor_from_messages, blocks.bytes, blocks.length);
    refuse("a stream", streamed, bytes, length);
    refuse("a writer", written, blocks.bytes, blocks.length);
    gazhdor_free(csv);
    gazhdor_free(blocks);
}
#else
static void refuse_all(const uint8_t *bytes, size_t length)
{
    (void)bytes;
    (void)length;
}
#endif

static uint8_t *bytes_of(const char *path, size_t *length)
{
    FILE *file = fopen(path, "rb");
    if (file == NULL || fseek(file, 0, SEEK_END) != 0) {
        fprintf(stderr, "any: %s can't be read\n", path);
        exit(1);
    }
    *length = (size_t)ftell(file);
    rewind(file);
    uint8_t *bytes = some(*length);
    if (fread(bytes, 1, *length, file) != *length)
        exit(1);
    fclose(file);
    return bytes;
}

int main(int argc, char **argv)
{
    int damage = 0, first = 1;
#ifdef _WIN32
    _setmode(1, _O_BINARY);
#endif
    if (argc > 2 && strcmp(argv[1], "-d") == 0) {
        damage = atoi(argv[2]);
        first = 3;
    }
    printf("%s\n", gazhdor_version());
    say_only("check", gazhdor_check(GAZHDOR_NULL, 0));
    for (int k = first; k < argc; k++) {
        size_t length;
        uint8_t *bytes = bytes_of(argv[k], &length);
        printf("file %d\n", k);
        if (length < MANY)
            say_all(bytes, length);
        else
            say_long(bytes, length);
        if (length < REFUSED_AT_MOST)
            refuse_all(bytes, length);
        if (length < REFUSED_AT_MOST && length > FEW)
            say_threads(bytes, length);
        for (int round = 0; round < damage && length < MANY; round++)
            say_damaged(bytes, length);
        free(bytes);
    }
    return 0;
}
