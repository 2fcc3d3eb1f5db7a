/* Makes one call of the library once: any CALL FILE, or with none for CALL just reads FILE; and with time for CALL prints what a check of no
 * more than a header takes. bench/any counts its instructions. */
#define _POSIX_C_SOURCE 199309L
#include "gazhdor.h"

#include <stdio.h>
#include <stdlib.h>
#include <string.h>
#include <time.h>

typedef gazhdor_answer call(const uint8_t *bytes, size_t length, gazhdor_text *text);

/* Puts blocks by a writer, a message at a time, as most programs do. */
static gazhdor_answer put(const uint8_t *bytes, size_t length, gazhdor_text *text)
{
    gazhdor_writer writer = GAZHDOR_CLOSED_WRITER;
    gazhdor_text blocks = { bytes, length };
    gazhdor_answer answer = gazhdor_writer_open(&writer);
    for (gazhdor_reader at = gazhdor_read(blocks); answer.status == GAZHDOR_GOOD && gazhdor_next(&at);) {
        if (at.block.kind == GAZHDOR_FILE_HEADER)
            answer = gazhdor_writer_file(&writer, at.block.bytes, at.block.length);
        else if (at.block.kind == GAZHDOR_MESSAGE)
            answer = gazhdor_writer_messages(&writer, at.definition.bytes, at.definition.length, at.block.bytes, at.block.length);
    }
    if (answer.status == GAZHDOR_GOOD)
        answer = gazhdor_writer_finish(&writer, text);
    gazhdor_writer_close(&writer);
    return answer;
}

/* A stream of rows, in pieces of 4 KB. */
static gazhdor_answer streamed(const uint8_t *bytes, size_t length, gazhdor_text *text)
{
    gazhdor_stream stream = GAZHDOR_CLOSED_STREAM;
    gazhdor_answer answer = gazhdor_open(&stream, GAZHDOR_STREAM_TO_CSV);
    for (size_t at = 0; at < length && answer.status == GAZHDOR_GOOD; at += 4096) {
        gazhdor_text rows = GAZHDOR_NO_TEXT;
        answer = gazhdor_feed(&stream, bytes + at, length - at < 4096 ? length - at : 4096, &rows);
        gazhdor_free(rows);
    }
    answer = gazhdor_finish(&stream, text);
    gazhdor_close(&stream);
    return answer;
}

static const struct {
    const char *name;
    call *of, *input; /* what makes the input of FILE, where that isn't FILE itself */
} calls[] = {
    { "table", gazhdor_table, NULL },
    { "to_csv", gazhdor_to_csv, NULL },
    { "show", gazhdor_show, NULL },
    { "messages", gazhdor_messages, NULL },
    { "from_csv", gazhdor_from_csv, gazhdor_to_csv },
    { "from_messages", gazhdor_from_messages, gazhdor_messages },
    { "writer", put, gazhdor_messages },
    { "stream", streamed, NULL },
};

static double microseconds(void)
{
    struct timespec t;
    clock_gettime(CLOCK_PROCESS_CPUTIME_ID, &t);
    return (double)t.tv_sec * 1e6 + (double)t.tv_nsec / 1e3;
}

/* The best of thirty times a thousand calls on fourteen bytes. */
static void say_time(const uint8_t *bytes)
{
    double best = 1e9;
    for (int turn = 0; turn < 30; turn++) {
        double from = microseconds();
        for (int k = 0; k < 1000; k++)
            gazhdor_check(bytes, 14);
        double taken = (microseconds() - from) / 1000;
        best = taken < best ? taken : best;
    }
    printf("%.2f\n", best);
}

static void make(const char *name, gazhdor_text input)
{
    for (size_t k = 0; k < sizeof calls / sizeof *calls; k++) {
        if (strcmp(name, calls[k].name) != 0)
            continue;
        gazhdor_text made = GAZHDOR_NO_TEXT, text = GAZHDOR_NO_TEXT;
        if (calls[k].input != NULL) {
            calls[k].input(input.bytes, input.length, &made);
            input = made;
        }
        calls[k].of(input.bytes, input.length, &text);
        gazhdor_free(text);
        gazhdor_free(made);
    }
}

int main(int argc, char **argv)
{
    static uint8_t bytes[1 << 20];
    FILE *file = argc == 3 ? fopen(argv[2], "rb") : NULL;
    if (file == NULL)
        return 2;
    gazhdor_text input = { bytes, fread(bytes, 1, sizeof bytes, file) };
    fclose(file);
    if (strcmp(argv[1], "time") == 0)
        say_time(bytes);
    else if (strcmp(argv[1], "check") == 0)
        gazhdor_check(input.bytes, input.length);
    else
        make(argv[1], input);
    return 0;
}
