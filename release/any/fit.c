/* The program fit over the library for C, for machines that have no released one: the same words, lines and statuses. On Windows its words are
 * UTF-16, and its standard streams binary.
 *
 * Not proved, as the released program is; tests/any compares the two. */
#ifndef _WIN32
#define _POSIX_C_SOURCE 200809L
#endif
#include "gazhdor.h"

#include <errno.h>
#include <fcntl.h>
#include <signal.h>
#include <stdio.h>
#include <stdlib.h>
#include <string.h>
#include <sys/stat.h>
#ifdef _WIN32
#include <io.h>
#define CLOSED(error) ((error) == EPIPE || (error) == EINVAL)
#else
#include <unistd.h>
#define CLOSED(error) ((error) == EPIPE)
#endif

#include "words.h"

enum { GOOD = 0, REFUSED = 1, BAD_USAGE = 2, NO_MEMORY = 3, FAILED = 4 };
enum { INPUT = 65536, OUTPUT = 8192 };
#ifdef _WIN32
enum { AT_ONCE = 32768 }; /* older consoles take no more */
#else
enum { AT_ONCE = 1 << 30 };
#endif

static const char usage[] = "usage: fit check|show|to-csv|from-csv|table [FILE]\n";

/* ---- Files, as the system has them: bytes, and no other line ends */

#ifdef _WIN32
static long long read_some(int file, void *to, size_t most) { return _read(file, to, (unsigned)most); }
static long long write_some(int file, const void *from, size_t most) { return _write(file, from, (unsigned)most); }
static int open_file(const letter *path) { return _wopen(path, _O_RDONLY | _O_BINARY); }
#else
static long long read_some(int file, void *to, size_t most) { return read(file, to, most); }
static long long write_some(int file, const void *from, size_t most) { return write(file, from, most); }
static int open_file(const letter *path) { return open(path, O_RDONLY); }
#endif

static int is_folder(int file)
{
    struct stat about;
    return fstat(file, &about) == 0 && (about.st_mode & S_IFMT) == S_IFDIR;
}

static int write_all(int file, const uint8_t *bytes, size_t length)
{
    while (length > 0) {
        long long count = write_some(file, bytes, length < AT_ONCE ? length : AT_ONCE);
        if (count < 0 && errno == EINTR)
            continue;
        if (count <= 0)
            return 0;
        bytes += count;
        length -= (size_t)count;
    }
    return 1;
}

/* ---- The output, through a buffer; and lines on standard error */

static struct {
    uint8_t kept[OUTPUT];
    size_t count;
    int failed, closed; /* closed: nobody reads the pipe any more, of which nothing is said */
} output;

static void output_now(const uint8_t *bytes, size_t length)
{
    if (!output.failed && !write_all(1, bytes, length)) {
        output.closed = CLOSED(errno);
        output.failed = 1;
    }
}

static void flush(void)
{
    output_now(output.kept, output.count);
    output.count = 0;
}

static void put(const void *bytes, size_t length)
{
    if (output.count + length > OUTPUT)
        flush();
    if (length >= OUTPUT) {
        output_now(bytes, length);
    } else if (length > 0) {
        memcpy(output.kept + output.count, bytes, length);
        output.count += length;
    }
}

static void put_line(const char *line) { put(line, strlen(line)); }

static void fault(const char *line) { write_all(2, (const uint8_t *)line, strlen(line)); }

static int write_fault(void)
{
    if (!output.closed)
        fault("write fault\n");
    return FAILED;
}

static int out_of_memory(void)
{
    fault("out of memory\n");
    return NO_MEMORY;
}

/* ---- What was found */

/* The line of an answer; that of a good one is the last line of check and show. */
static int finding(gazhdor_answer answer, char *line, size_t room)
{
    unsigned long long place = answer.place, row = answer.row, column = answer.column;
    switch (answer.status) {
    case GAZHDOR_GOOD: snprintf(line, room, "ok\n"); return GOOD;
    case GAZHDOR_REFUSED: snprintf(line, room, "refused at byte %llu: %s\n", place, gazhdor_reason_name(answer.reason)); return REFUSED;
    case GAZHDOR_TRUNCATED: snprintf(line, room, "truncated at byte %llu\n", place); return REFUSED;
    case GAZHDOR_TEXT:
        if (row == 1)
            snprintf(line, room, "header row refused\n");
        else if (column == 0)
            snprintf(line, room, "row %llu refused\n", row);
        else
            snprintf(line, room, "row %llu column %llu refused\n", row, column);
        return REFUSED;
    /* A file that is too long has a text that is too long for this. */
    case GAZHDOR_UNWRITABLE: snprintf(line, room, "encode fault: ZeroIsSum\n"); return REFUSED;
    default: snprintf(line, room, "out of memory\n"); return NO_MEMORY;
    }
}

/* Says what was found, in the output for a report, and returns the status. */
static int conclude(gazhdor_answer answer, int report)
{
    char line[96];
    int status = finding(answer, line, sizeof line);
    if (report && status != NO_MEMORY) {
        put_line(line);
    } else if (status != GOOD) {
        fault(line);
    }
    return status;
}

/* ---- Commands that read piece by piece */

/* What check counts, of the blocks of messages. Their numbers are in little endian. */
static unsigned long long files, data_size, records;

static uint32_t number_at(const uint8_t *bytes)
{
    return (uint32_t)bytes[0] | (uint32_t)bytes[1] << 8 | (uint32_t)bytes[2] << 16 | (uint32_t)bytes[3] << 24;
}

static void count(gazhdor_text blocks)
{
    for (size_t at = 0; at < blocks.length; at += number_at(blocks.bytes + at)) {
        const uint8_t *block = blocks.bytes + at;
        char line[96];
        switch (block[4]) {
        case GAZHDOR_FILE_HEADER:
            data_size = number_at(block + 12);
            records = 0;
            break;
        case GAZHDOR_FILE_END:
            snprintf(line, sizeof line, "file %llu: %llu data bytes, %llu records\n", ++files, data_size, records);
            put_line(line);
            break;
        default: records++;
        }
    }
}

static void pass_on(gazhdor_text text, uint32_t kind)
{
    if (kind == GAZHDOR_STREAM_MESSAGES)
        count(text);
    else
        put(text.bytes, text.length);
    gazhdor_free(text);
}

/* How a run of a stream ended. */
static int ended(gazhdor_stream *stream, gazhdor_answer answer, uint32_t kind, unsigned long long place, int read_failed)
{
    int report = kind == GAZHDOR_STREAM_MESSAGES || kind == GAZHDOR_STREAM_SHOW;
    if (answer.status == GAZHDOR_GOOD && !output.failed) {
        gazhdor_text text = GAZHDOR_NO_TEXT;
        answer = gazhdor_finish(stream, &text);
        pass_on(text, kind);
    }
    gazhdor_close(stream);
    if (output.failed)
        return write_fault();
    if (read_failed && answer.status != GAZHDOR_NO_MEMORY) {
        char line[96];
        snprintf(line, sizeof line, "read fault at byte %llu\n", place);
        fault(line);
        return FAILED;
    }
    return conclude(answer, report);
}

static int run_stream(int file, uint32_t kind)
{
    gazhdor_stream stream = GAZHDOR_CLOSED_STREAM;
    gazhdor_answer answer = gazhdor_open(&stream, kind);
    uint8_t *piece = malloc(INPUT);
    unsigned long long place = 0;
    long long count = 1;
    if (piece == NULL || answer.status != GAZHDOR_GOOD) {
        free(piece);
        gazhdor_close(&stream);
        return out_of_memory();
    }
    while (answer.status == GAZHDOR_GOOD && !output.failed && count != 0) {
        count = read_some(file, piece, INPUT);
        if (count < 0 && errno == EINTR)
            continue;
        if (count < 0)
            break;
        gazhdor_text text = GAZHDOR_NO_TEXT;
        answer = gazhdor_feed(&stream, piece, (size_t)count, &text);
        pass_on(text, kind);
        place += (unsigned long long)count;
    }
    free(piece);
    return ended(&stream, answer, kind, place, count < 0);
}

/* ---- from-csv, which reads all first */

/* All bytes of a file; GOOD, or why they aren't there. */
static int read_all(int file, uint8_t **bytes, size_t *length)
{
    size_t room = 0;
    for (long long count = 1; count != 0;) {
        if (*length == room) {
            room = room == 0 ? INPUT : 2 * room;
            uint8_t *more = room > SIZE_MAX / 4 ? NULL : realloc(*bytes, room);
            if (more == NULL)
                return NO_MEMORY;
            *bytes = more;
        }
        count = read_some(file, *bytes + *length, room - *length < AT_ONCE ? room - *length : AT_ONCE);
        if (count < 0 && errno != EINTR)
            return FAILED;
        *length += count > 0 ? (size_t)count : 0;
    }
    return GOOD;
}

static int from_csv(int file)
{
    uint8_t *bytes = NULL;
    size_t length = 0;
    int status = read_all(file, &bytes, &length);
    if (status == GOOD) {
        gazhdor_text text = GAZHDOR_NO_TEXT;
        gazhdor_answer answer = gazhdor_from_csv(bytes, length, &text);
        put(text.bytes, text.length);
        gazhdor_free(text);
        status = output.failed ? write_fault() : conclude(answer, 0);
    } else if (status == FAILED) {
        fault("read fault\n");
    } else {
        out_of_memory();
    }
    free(bytes);
    return status;
}

/* ---- The program */

static int bad_usage(int count, letter **words)
{
    fault(usage);
    if (count > 2 && words[2][0] == '-' && words[2][1] != 0 && !same(words[2], "--"))
        fault("use -- before a FILE that begins with -\n");
    return BAD_USAGE;
}

/* Runs a command, and flushes its output. What is wrong with the output counts for more than what is wrong with the input. */
static int run(int file, int kind)
{
    int status = kind == FROM_CSV ? from_csv(file) : run_stream(file, (uint32_t)kind);
    if (output.failed)
        return FAILED;
    flush();
    return output.failed && status != FAILED ? write_fault() : status;
}

static int run_line(int count, letter **words, const char *path)
{
    line line = line_of(count, words);
    int kind = kind_of(line.command);
    if (line.help) {
        put_line(usage);
        flush();
        return output.failed ? write_fault() : GOOD;
    }
    if (line.refused || kind < 0)
        return bad_usage(count, words);
    if (line.path == NULL || same(line.path, "-"))
        return run(0, kind);
    int file = open_file(line.path);
    if (file < 0) {
        fprintf(stderr, "cannot open %s\n%s (os error %d)\n", path, strerror(errno), errno);
        return FAILED;
    }
    int status = run(file, kind);
    if (is_folder(file))
        fprintf(stderr, "%s is a folder\n", path);
    return status;
}

static int started(int count, letter **words)
{
    char *path = NULL;
    for (int k = 0; k < count; k++) {
        char *text = utf8(words[k]);
        if (text == NULL)
            return out_of_memory();
        if (!is_utf8(text)) {
            fault("a word of the command line isn't UTF-8\nuse < for a FILE with such a name\n");
            return bad_usage(0, words);
        }
        if (k > 0 && line_of(count, words).path == words[k]) {
            free(path);
            path = text;
        } else {
            free(text);
        }
    }
    int status = run_line(count, words, path == NULL ? "" : path);
    free(path);
    return status;
}

#ifdef _WIN32
int wmain(int count, wchar_t **words)
{
    _setmode(0, _O_BINARY);
    _setmode(1, _O_BINARY);
    _setmode(2, _O_BINARY);
    return started(count, words);
}
#else
int main(int count, char **words)
{
    signal(SIGPIPE, SIG_IGN);
    return started(count, words);
}
#endif
