/* Reads files that come on standard input, 64 KB at a time, and writes what comes of each piece: pieces check|show|table|to-csv|messages
 *
 * `messages` writes time, name and heart rate of each message that has one. The exit status is that of `fit`. */
#include "gazhdor.h"

#include <stdio.h>

static const char *const kinds[] = { "check", "show", "table", "to-csv", "messages" };
enum { KINDS = 5, PIECE = 65536 };

static void print_messages(gazhdor_reader *at, gazhdor_text blocks)
{
    gazhdor_read_on(at, blocks);
    while (gazhdor_next(at)) {
        gazhdor_field heart = gazhdor_named(at->definition, "heart_rate");
        double value = gazhdor_value(heart, at->block, 0);
        if (!isnan(value))
            printf("%lu %s %g %s\n", (unsigned long)gazhdor_time(at->block), gazhdor_message_name(at->definition), value, heart.unit);
    }
}

/* Writes what a call has made, and frees it. Returns whether there was memory. */
static int put(uint32_t kind, gazhdor_reader *at, gazhdor_text text)
{
    int kept = 1;
    if (kind == GAZHDOR_STREAM_MESSAGES) {
        print_messages(at, text);
        kept = gazhdor_keep(at);
    } else {
        fwrite(text.bytes, 1, text.length, stdout);
    }
    gazhdor_free(text);
    return kept;
}

/* Reads all of standard input, or up to a fault; what is written is flushed piece by piece. */
static gazhdor_answer run(gazhdor_stream *stream, uint32_t kind, gazhdor_reader *at)
{
    static uint8_t piece[PIECE];
    gazhdor_answer answer = gazhdor_open(stream, kind);
    int last = 0;
    while (answer.status == GAZHDOR_GOOD && !last) {
        size_t length = fread(piece, 1, sizeof piece, stdin);
        gazhdor_text text = GAZHDOR_NO_TEXT;
        if (ferror(stdin))
            break;
        last = length == 0;
        answer = last ? gazhdor_finish(stream, &text) : gazhdor_feed(stream, piece, length, &text);
        if (!put(kind, at, text))
            answer.status = GAZHDOR_NO_MEMORY;
        if (fflush(stdout) != 0)
            break;
    }
    return answer;
}

/* Says what was found, on standard output where that is all that was asked for. */
static int say(gazhdor_answer answer, uint32_t kind)
{
    FILE *to = kind == GAZHDOR_STREAM_CHECK ? stdout : stderr;
    switch (answer.status) {
    case GAZHDOR_GOOD:
        if (kind == GAZHDOR_STREAM_CHECK)
            printf("ok, %llu file(s)\n", (unsigned long long)answer.files);
        return 0;
    case GAZHDOR_REFUSED:
        fprintf(to, "refused at byte %llu: %s\n", (unsigned long long)answer.place, gazhdor_reason_name(answer.reason));
        return 1;
    case GAZHDOR_TRUNCATED:
        fprintf(to, "truncated at byte %llu\n", (unsigned long long)answer.place);
        return 1;
    default:
        fprintf(stderr, "%s\n", gazhdor_status_name(answer.status));
        return 3;
    }
}

int main(int argc, char **argv)
{
    uint32_t kind = 0;
    while (kind < KINDS && (argc != 2 || strcmp(argv[1], kinds[kind]) != 0))
        kind++;
    if (kind == KINDS) {
        fprintf(stderr, "usage: pieces check|show|table|to-csv|messages <FILE\n");
        return 2;
    }
    gazhdor_text none = GAZHDOR_NO_TEXT;
    gazhdor_reader at = gazhdor_read(none);
    gazhdor_stream stream = GAZHDOR_CLOSED_STREAM;
    gazhdor_answer answer = run(&stream, kind, &at);
    gazhdor_close(&stream);
    if (at.unknown != 0) /* Where memory was refused for a definition. */
        fprintf(stderr, "%llu messages without their definition\n", (unsigned long long)at.unknown);
    gazhdor_forget(&at);
    if (ferror(stdin) || ferror(stdout)) {
        fprintf(stderr, ferror(stdin) ? "read fault\n" : "write fault\n");
        return 4;
    }
    int status = say(answer, kind);
    if (fflush(stdout) != 0) {
        fprintf(stderr, "write fault\n");
        return 4;
    }
    return status;
}
