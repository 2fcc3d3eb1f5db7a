/* Measures what a call costs beside the library's own time: cost FILE
 *
 * What a call adds is no more than what it takes on no bytes, where the library has next to nothing to do. So the library's own time
 * on the file is at least the difference. Times are processor time of this thread, the best of 20 turns of 500 calls. The file is one
 * of less than 1 MB. */
#define _POSIX_C_SOURCE 199309L
#include "gazhdor.h"

#include <stdio.h>
#include <time.h>

enum { TURNS = 20, CALLS = 500 };

typedef gazhdor_answer (*text_call)(const uint8_t *, size_t, gazhdor_text *);

static double now(void)
{
    struct timespec t;
    clock_gettime(CLOCK_THREAD_CPUTIME_ID, &t);
    return (double)t.tv_sec * 1e6 + (double)t.tv_nsec / 1e3;
}

static gazhdor_answer check(const uint8_t *bytes, size_t length, gazhdor_text *text)
{
    (void)text;
    return gazhdor_check(bytes, length);
}

/* The microseconds of a call over these bytes. */
static double least(text_call call, const uint8_t *bytes, size_t length)
{
    double best = 0;
    for (int turn = 0; turn < TURNS; turn++) {
        double start = now();
        for (int i = 0; i < CALLS; i++) {
            gazhdor_text text = GAZHDOR_NO_TEXT;
            call(bytes, length, &text);
            gazhdor_free(text);
        }
        double took = (now() - start) / CALLS;
        if (turn == 0 || took < best)
            best = took;
    }
    return best;
}

static void row(const char *name, text_call call, const uint8_t *bytes, size_t length)
{
    double none = least(call, bytes, 0), all = least(call, bytes, length);
    printf("%-21s %12.2f %12.2f %8.3f\n", name, none, all, all / (all - none));
}

int main(int argc, char **argv)
{
    static uint8_t bytes[1 << 20];
    if (argc != 2) {
        fprintf(stderr, "usage: cost FILE\n");
        return 2;
    }
    FILE *file = fopen(argv[1], "rb");
    size_t length = file == NULL ? 0 : fread(bytes, 1, sizeof bytes, file);
    if (file == NULL || ferror(file) || length == 0 || length == sizeof bytes) {
        fprintf(stderr, "cannot read %s, or it is empty, or larger than 1 MB\n", argv[1]);
        return 4;
    }
    fclose(file);

    printf("%-21s %12s %12s %8s\n", "", "no bytes, us", "the file, us", "at most");
    row("gazhdor_check", check, bytes, length);
    row("gazhdor_table", gazhdor_table, bytes, length);
    row("gazhdor_to_csv", gazhdor_to_csv, bytes, length);
    row("gazhdor_show", gazhdor_show, bytes, length);
    row("gazhdor_messages", gazhdor_messages, bytes, length);

    gazhdor_text text = GAZHDOR_NO_TEXT;
    if (gazhdor_to_csv(bytes, length, &text).status == GAZHDOR_GOOD)
        row("gazhdor_from_csv", gazhdor_from_csv, text.bytes, text.length);
    gazhdor_free(text);
    gazhdor_text blocks = GAZHDOR_NO_TEXT;
    if (gazhdor_messages(bytes, length, &blocks).status == GAZHDOR_GOOD)
        row("gazhdor_from_messages", gazhdor_from_messages, blocks.bytes, blocks.length);
    gazhdor_free(blocks);
    return 0;
}
