/* Measures blocks beside the text of the table, and streams beside the calls on all bytes: blocks FILE KIND ROUNDS
 *
 * It prints rows of the table of bench/blocks. Times are processor time of this thread; of each the best counts, and the two of a row are
 * measured by turns. What comes out of the two is compared first. */
#define _POSIX_C_SOURCE 199309L
#include "gazhdor.h"

#include <stdio.h>
#include <time.h>

enum { PIECE = 65536, RECORD = 20 };

static uint8_t *bytes;
static size_t length;

static void stop(const char *why)
{
    fprintf(stderr, "blocks: %s\n", why);
    exit(1);
}

static double now(void)
{
    struct timespec t;
    clock_gettime(CLOCK_THREAD_CPUTIME_ID, &t);
    return (double)t.tv_sec + (double)t.tv_nsec / 1e9;
}

/* ---- what is measured: each returns a number that depends on all that it makes */

typedef gazhdor_answer call(const uint8_t *bytes, size_t length, gazhdor_text *text);

static gazhdor_answer check(const uint8_t *given, size_t count, gazhdor_text *text)
{
    (void)text;
    return gazhdor_check(given, count);
}

static call *const calls[] = { check, gazhdor_show, gazhdor_table, gazhdor_to_csv, gazhdor_messages };

static double whole(uint32_t kind)
{
    gazhdor_text text = GAZHDOR_NO_TEXT;
    if (calls[kind](bytes, length, &text).status != GAZHDOR_GOOD)
        stop("the recording isn't good");
    double size = (double)text.length;
    gazhdor_free(text);
    return size;
}

static double in_pieces(uint32_t kind)
{
    gazhdor_stream stream = GAZHDOR_CLOSED_STREAM;
    gazhdor_answer answer = gazhdor_open(&stream, kind);
    double size = 0;
    for (size_t at = 0; at < length && answer.status == GAZHDOR_GOOD; at += PIECE) {
        gazhdor_text text = GAZHDOR_NO_TEXT;
        answer = gazhdor_feed(&stream, bytes + at, length - at < PIECE ? length - at : PIECE, &text);
        size += (double)text.length;
        gazhdor_free(text);
    }
    gazhdor_text text = GAZHDOR_NO_TEXT;
    if (gazhdor_finish(&stream, &text).status != GAZHDOR_GOOD)
        stop("the recording isn't good in pieces");
    gazhdor_free(text);
    gazhdor_close(&stream);
    return size;
}

static const char *const columns[] = { "altitude", "distance", "speed", "heart_rate", "cadence", "power", "temperature" };
enum { COLUMNS = 7 };

/* The sum of seven columns of all records, from blocks. */
static double columns_of_blocks(uint32_t kind)
{
    (void)kind;
    gazhdor_text blocks = GAZHDOR_NO_TEXT;
    gazhdor_messages(bytes, length, &blocks);
    gazhdor_reader at = gazhdor_read(blocks);
    gazhdor_field fields[COLUMNS];
    uint64_t known = GAZHDOR_NO_DEFINITION;
    double sum = 0;
    while (gazhdor_next(&at)) {
        if (at.message != RECORD)
            continue;
        for (int i = 0; at.block.number != known && i < COLUMNS; i++)
            fields[i] = gazhdor_named(at.definition, columns[i]);
        known = at.block.number;
        for (int i = 0; i < COLUMNS; i++) {
            double value = gazhdor_value(fields[i], at.block, 0);
            sum += isnan(value) ? 0 : value;
        }
    }
    gazhdor_free(blocks);
    return sum;
}

/* The same from the text of the table. */
static double columns_of_table(uint32_t kind)
{
    (void)kind;
    gazhdor_text text = GAZHDOR_NO_TEXT;
    gazhdor_table(bytes, length, &text);
    const char *at = (const char *)text.bytes, *end = at + text.length;
    double sum = 0;
    at = (const char *)memchr(at, '\n', text.length) + 1;
    while (at < end) {
        for (int cell = 0; cell < 4; cell++)
            at = (const char *)memchr(at, ',', (size_t)(end - at)) + 1;
        for (int i = 0; i < COLUMNS; i++) {
            char *next = (char *)(uintptr_t)at;
            if (*at != ',' && *at != '\n')
                sum += strtod(at, &next);
            at = next + 1;
        }
    }
    gazhdor_free(text);
    return sum;
}

/* ---- the rows */

typedef double work(uint32_t kind);

static void row(const char *what, const char *of, work *one, uint32_t kind, const char *beside, work *other, uint32_t other_kind, int rounds)
{
    double best[2] = { 1e9, 1e9 };
    volatile double made = 0;
    for (int round = 0; round < rounds; round++)
        for (int i = 0; i < 2; i++) {
            double start = now();
            made += i == 0 ? one(kind) : other(other_kind);
            double took = now() - start;
            best[i] = took < best[i] ? took : best[i];
        }
    printf("| %s | %s, %.0f MB | %.3f s | %.0f MB/s | %s %.3f s | %.2f |\n", what, of, (double)length / 1e6, best[0], (double)length / best[0] / 1e6, beside,
        best[1], best[0] / best[1]);
    fflush(stdout);
}

int main(int argc, char **argv)
{
    static const char *const names[] = { "`gazhdor_check`", "`gazhdor_show`", "`gazhdor_table`", "`gazhdor_to_csv`", "`gazhdor_messages`" };
    FILE *file = argc == 4 ? fopen(argv[1], "rb") : NULL;
    if (file == NULL)
        stop("FILE KIND ROUNDS");
    fseek(file, 0, SEEK_END);
    length = (size_t)ftell(file);
    rewind(file);
    bytes = (uint8_t *)malloc(length);
    if (bytes == NULL || fread(bytes, 1, length, file) != length)
        stop("the recording can't be read");
    fclose(file);
    int rounds = atoi(argv[3]);
    double sums[2] = { columns_of_blocks(0), columns_of_table(0) };
    if (fabs(sums[0] - sums[1]) > 1e-9 * fabs(sums[1]))
        stop("the columns of blocks aren't those of the table");
    row("blocks made", argv[2], whole, 4, "text of the table", whole, 2, rounds);
    row("seven columns of blocks in C", argv[2], columns_of_blocks, 0, "of the text, by `strtod`", columns_of_table, 0, rounds);
    for (uint32_t kind = 0; kind < 5; kind++) {
        if (in_pieces(kind) != whole(kind))
            stop("a stream makes another text");
        row("a stream of it, in pieces of 64 KB", argv[2], in_pieces, kind, names[kind], whole, kind, rounds);
    }
    free(bytes);
    return 0;
}
