/* Tests of the streams of gazhdor.h, by the calls that take all bytes at once: pieces STEP FILE.. Each FILE is fed in two pieces, at each
 * STEP-th place, and byte by byte; so are its fronts and copies with a changed byte. Blocks of memory are counted, and each growth is
 * refused in turn: link with --wrap=malloc, realloc and free. With 0 for STEP only that is done, of the whole file, which may be longer: fed
 * at once, whose text is put several times, and in ten pieces. */
#define COUNTED
#include "want.h"

#include <pthread.h>

enum { KINDS = 5, MOST = 1 << 20 };
typedef gazhdor_answer call(const uint8_t *bytes, size_t length, gazhdor_text *text);

static gazhdor_answer check(const uint8_t *bytes, size_t length, gazhdor_text *text)
{
    (void)text;
    return gazhdor_check(bytes, length);
}

static call *const calls[KINDS] = { check, gazhdor_show, gazhdor_table, gazhdor_to_csv, gazhdor_messages };

static int only(gazhdor_answer a, uint32_t status)
{
    return is(a, status, 0, 0, 0, 0, 0);
}

/* What one call says of all bytes, but with the count of files that the end of a stream gives too; and its text. */
static gazhdor_answer whole(uint32_t kind, const uint8_t *bytes, size_t length, gazhdor_text *text)
{
    gazhdor_answer answer = calls[kind](bytes, length, text);
    answer.files = gazhdor_check(bytes, length).files;
    return answer;
}

/* ---- a stream, and all of its text */

typedef struct {
    gazhdor_stream stream;
    gazhdor_answer answer;
    gazhdor_text wanted; /* the text that all of its own is to be, or to begin */
    size_t made;
} feeding;

static feeding opened(uint32_t kind, gazhdor_text wanted)
{
    feeding f = { GAZHDOR_CLOSED_STREAM, { 0, 0, 0, 0, 0, 0 }, wanted, 0 };
    f.answer = gazhdor_open(&f.stream, kind);
    return f;
}

static void see(feeding *f, gazhdor_text text)
{
    WANT(text.length <= f->wanted.length - f->made && memcmp(text.bytes, f->wanted.bytes + f->made, text.length) == 0);
    f->made += text.length;
    gazhdor_free(text);
}

/* Feeds bytes from a block of just their length, so that a read past them, or later, is seen. */
static void feed(feeding *f, const uint8_t *bytes, size_t length)
{
    uint8_t *piece = __real_malloc(length + (length == 0));
    gazhdor_text text = GAZHDOR_NO_TEXT;
    if (length != 0)
        memcpy(piece, bytes, length);
    f->answer = gazhdor_feed(&f->stream, length == 0 ? NULL : piece, length, &text);
    memset(piece, 0x5A, length);
    __real_free(piece);
    see(f, text);
}

static void finish(feeding *f)
{
    gazhdor_text text = GAZHDOR_NO_TEXT;
    f->answer = gazhdor_finish(&f->stream, &text);
    see(f, text);
}

/* The whole, in pieces that end at these places and at the end: text and answer are those of one call. A fault comes with the piece that
 * has the first byte which is refused, and then again and again. */
static void pieces(uint32_t kind, const uint8_t *bytes, size_t length, const size_t *ends, size_t count)
{
    gazhdor_text text = GAZHDOR_NO_TEXT;
    gazhdor_answer wanted = whole(kind, bytes, length, &text);
    feeding f = opened(kind, text);
    WANT(only(f.answer, GAZHDOR_GOOD) && f.stream.at != NULL);
    size_t at = 0;
    for (size_t i = 0; i <= count; i++) {
        size_t end = i < count ? ends[i] : length;
        feed(&f, bytes + at, end - at);
        at = end;
        if (wanted.status == GAZHDOR_REFUSED && wanted.place < end)
            WANT(same_answer(f.answer, wanted) && f.made == text.length);
        else
            WANT(f.answer.status == GAZHDOR_GOOD && f.answer.reason == 0 && f.answer.place == 0);
    }
    if (wanted.status == GAZHDOR_GOOD)
        WANT(f.answer.files == wanted.files && f.made == text.length);
    finish(&f);
    WANT(same_answer(f.answer, wanted) && f.made == text.length);
    gazhdor_close(&f.stream);
    WANT(f.stream.at == NULL);
    gazhdor_free(text);
}

static void byte_by_byte(uint32_t kind, const uint8_t *bytes, size_t length)
{
    size_t *ends = __real_malloc((length + 1) * sizeof *ends);
    for (size_t i = 0; i < length; i++)
        ends[i] = i + 1;
    pieces(kind, bytes, length, ends, length);
    __real_free(ends);
}

static void in_pieces(uint8_t *bytes, size_t length, size_t step)
{
    for (uint32_t kind = 0; kind < KINDS; kind++) {
        pieces(kind, bytes, length, NULL, 0);
        byte_by_byte(kind, bytes, length);
        for (size_t end = 0; end <= length; end += step) {
            pieces(kind, bytes, length, &end, 1);
            byte_by_byte(kind, bytes, end < 200 ? end : 0);
        }
        for (size_t at = 0; at < length; at += step) {
            bytes[at] ^= 0x55;
            pieces(kind, bytes, length, &at, 1);
            if (length < 200)
                byte_by_byte(kind, bytes, length);
            bytes[at] ^= 0x55;
        }
    }
}

/* What is found at the end is asked after each byte, and that ends nothing. */
static void asked_in_between(uint32_t kind, const uint8_t *bytes, size_t length)
{
    gazhdor_text text = GAZHDOR_NO_TEXT;
    whole(kind, bytes, length, &text);
    feeding f = opened(kind, text);
    for (size_t at = 0; at <= length; at++) {
        gazhdor_text front = GAZHDOR_NO_TEXT;
        gazhdor_answer wanted = whole(kind, bytes, at, &front);
        finish(&f);
        WANT(same_answer(f.answer, wanted) && f.made == front.length);
        gazhdor_free(front);
        if (at < length)
            feed(&f, bytes + at, 1);
    }
    WANT(f.made == text.length);
    gazhdor_close(&f.stream);
    gazhdor_free(text);
}

/* How many files have ended, byte for byte, is how many one call finds in a front that is good. */
static void counted(const uint8_t *bytes, size_t length)
{
    gazhdor_text none = GAZHDOR_NO_TEXT;
    feeding f = opened(GAZHDOR_STREAM_CHECK, none);
    uint64_t files = 0;
    for (size_t at = 0; at < length; at++) {
        gazhdor_answer front = gazhdor_check(bytes, at + 1);
        feed(&f, bytes + at, 1);
        files = front.status == GAZHDOR_GOOD ? front.files : files;
        WANT(f.answer.status == GAZHDOR_GOOD && f.answer.files == files);
    }
    gazhdor_close(&f.stream);
}

/* ---- streams that aren't open */

static void closed(void)
{
    gazhdor_text none = GAZHDOR_NO_TEXT;
    for (uint32_t kind = 0; kind < KINDS + 3; kind++) {
        feeding f = opened(kind, none);
        WANT(only(f.answer, kind < KINDS ? GAZHDOR_GOOD : GAZHDOR_NO_KIND) && (f.stream.at != NULL) == (kind < KINDS));
        gazhdor_close(&f.stream);
        for (int twice = 0; twice < 2; twice++) {
            WANT(f.stream.at == NULL);
            feed(&f, (const uint8_t *)"\x0E", 1);
            WANT(only(f.answer, GAZHDOR_CLOSED));
            finish(&f);
            WANT(only(f.answer, GAZHDOR_CLOSED));
            gazhdor_close(&f.stream);
        }
        /* What is open is closed first, also where it isn't opened again. */
        WANT(only(gazhdor_open(&f.stream, GAZHDOR_STREAM_CHECK), GAZHDOR_GOOD));
        feed(&f, (const uint8_t *)"\x0D", 1);
        WANT(f.answer.status == GAZHDOR_REFUSED && f.answer.reason == GAZHDOR_HEADER_SIZE && f.answer.place == 0);
        gazhdor_open(&f.stream, kind);
        WANT((f.stream.at != NULL) == (kind < KINDS));
        gazhdor_text text = GAZHDOR_NO_TEXT;
        WANT(only(gazhdor_feed(&f.stream, (const uint8_t *)"\x0E", 1, &text), kind < KINDS ? GAZHDOR_GOOD : GAZHDOR_CLOSED));
        gazhdor_free(text);
        gazhdor_close(&f.stream);
    }
    WANT(only(gazhdor_open(&(gazhdor_stream)GAZHDOR_CLOSED_STREAM, 0xFFFFFFFF), GAZHDOR_NO_KIND));
}

/* ---- memory */

/* Each growth refused in turn, fed in pieces of that size: no memory, from then on, with a front of the text; or else what it always is. No
 * block is left. */
static void refusals(uint32_t kind, const uint8_t *bytes, size_t length, size_t size)
{
    gazhdor_text text = GAZHDOR_NO_TEXT;
    gazhdor_answer wanted = whole(kind, bytes, length, &text);
    for (long turn = 1;; turn++) {
        long before = memory.blocks;
        memory.growths = 0, memory.refused = turn;
        feeding f = opened(kind, text);
        for (size_t at = 0; at < length; at += size) {
            int over = f.answer.status != GAZHDOR_GOOD;
            size_t made = f.made;
            feed(&f, bytes + at, length - at < size ? length - at : size);
            WANT(f.answer.status == GAZHDOR_GOOD || only(f.answer, f.stream.at == NULL ? GAZHDOR_CLOSED : GAZHDOR_NO_MEMORY));
            WANT(!over || (f.answer.status != GAZHDOR_GOOD && f.made == made));
        }
        int over = f.answer.status != GAZHDOR_GOOD;
        finish(&f);
        WANT(over || only(f.answer, GAZHDOR_NO_MEMORY) || (same_answer(f.answer, wanted) && f.made == text.length));
        WANT(!over || f.answer.status != GAZHDOR_GOOD);
        gazhdor_close(&f.stream);
        memory.refused = 0;
        WANT(memory.blocks == before);
        if (memory.growths < turn)
            break;
    }
    gazhdor_free(text);
}

/* ---- messages whose definitions came with earlier pieces */

/* All that is read of a message, as a number. */
static uint64_t told(gazhdor_reader *at)
{
    uint64_t sum = at->block.place * 31 + at->message + gazhdor_time(at->block), raw;
    for (gazhdor_field f = gazhdor_first_field(at->definition); f.there; f = gazhdor_next_field(at->definition, f)) {
        for (const char *name = f.name; *name != 0; name++)
            sum = sum * 31 + (uint8_t)*name;
        for (size_t k = 0; k < f.count; k++)
            sum = sum * 31 + (uint64_t)gazhdor_raw(f, at->block, k, &raw) + raw;
    }
    return sum;
}

static void kept(const uint8_t *bytes, size_t length, size_t size)
{
    gazhdor_text all = GAZHDOR_NO_TEXT, none = GAZHDOR_NO_TEXT;
    gazhdor_messages(bytes, length, &all);
    long before = memory.blocks;
    gazhdor_reader wanted = gazhdor_read(all), at = gazhdor_read(none);
    gazhdor_stream stream = GAZHDOR_CLOSED_STREAM;
    gazhdor_open(&stream, GAZHDOR_STREAM_MESSAGES);
    for (size_t begin = 0; begin < length; begin += size) {
        gazhdor_text text = GAZHDOR_NO_TEXT;
        gazhdor_feed(&stream, bytes + begin, length - begin < size ? length - begin : size, &text);
        gazhdor_read_on(&at, text);
        while (gazhdor_next(&at)) {
            WANT(gazhdor_next(&wanted) && wanted.message == at.message && wanted.definition.length == at.definition.length);
            WANT(at.message == GAZHDOR_NO_MESSAGE || told(&at) == told(&wanted));
        }
        WANT(at.left.length == 0 && gazhdor_keep(&at) && at.block.bytes == NULL && at.message == GAZHDOR_NO_MESSAGE);
        gazhdor_free(text);
    }
    WANT(!gazhdor_next(&wanted) && at.unknown == 0);
    gazhdor_close(&stream);
    gazhdor_forget(&at);
    WANT(memory.blocks == before && !gazhdor_next(&at));
    gazhdor_free(all);
}

/* A reader for each piece, as where the loop for pieces stands around that for messages, misses no message without saying so: each one is
 * a message that the reader of all blocks finds, or unknown, and counted. */
static void alone(const uint8_t *bytes, size_t length, size_t size)
{
    gazhdor_text all = GAZHDOR_NO_TEXT;
    gazhdor_messages(bytes, length, &all);
    gazhdor_reader wanted = gazhdor_read(all);
    gazhdor_stream stream = GAZHDOR_CLOSED_STREAM;
    gazhdor_open(&stream, GAZHDOR_STREAM_MESSAGES);
    for (size_t begin = 0; begin < length; begin += size) {
        gazhdor_text text = GAZHDOR_NO_TEXT;
        uint64_t unknown = 0;
        gazhdor_feed(&stream, bytes + begin, length - begin < size ? length - begin : size, &text);
        gazhdor_reader at = gazhdor_read(text);
        while (gazhdor_next(&at)) {
            WANT(gazhdor_next(&wanted));
            if (wanted.message != GAZHDOR_NO_MESSAGE)
                WANT(at.message == wanted.message || at.message == GAZHDOR_UNKNOWN_MESSAGE);
            else
                WANT(at.message == GAZHDOR_NO_MESSAGE);
            unknown += at.message == GAZHDOR_UNKNOWN_MESSAGE;
        }
        WANT(at.unknown == unknown);
        gazhdor_free(text);
    }
    gazhdor_close(&stream);
    gazhdor_free(all);
}

/* A program that leaves a piece at its first message, and so its loop with blocks still to come, has the definitions of all of them: the
 * first message of each piece is what a reader of all blocks finds there. The blocks of a piece are freed before the next ones. */
static void left_early(const uint8_t *bytes, size_t length, size_t size)
{
    gazhdor_text all = GAZHDOR_NO_TEXT, none = GAZHDOR_NO_TEXT;
    gazhdor_messages(bytes, length, &all);
    gazhdor_reader wanted = gazhdor_read(all), at = gazhdor_read(none);
    gazhdor_stream stream = GAZHDOR_CLOSED_STREAM;
    gazhdor_open(&stream, GAZHDOR_STREAM_MESSAGES);
    for (size_t begin = 0; begin < length; begin += size) {
        gazhdor_text text = GAZHDOR_NO_TEXT;
        gazhdor_feed(&stream, bytes + begin, length - begin < size ? length - begin : size, &text);
        gazhdor_read_on(&at, text);
        while (gazhdor_next(&at) && at.block.kind != GAZHDOR_MESSAGE)
            ;
        if (at.block.kind == GAZHDOR_MESSAGE) {
            while (gazhdor_next(&wanted) && wanted.block.place != at.block.place)
                ;
            WANT(at.message != GAZHDOR_NO_MESSAGE && at.message == wanted.message && told(&at) == told(&wanted));
        }
        WANT(gazhdor_keep(&at) && at.left.length == 0 && at.block.bytes == NULL && at.message == GAZHDOR_NO_MESSAGE);
        gazhdor_free(text);
        WANT(!gazhdor_next(&at));
    }
    gazhdor_close(&stream);
    gazhdor_forget(&at);
    gazhdor_free(all);
}

/* Where memory is refused for a copy, its messages are passed over, and nothing is lost. */
static void forgotten(const uint8_t *bytes, size_t length)
{
    gazhdor_text all = GAZHDOR_NO_TEXT;
    gazhdor_messages(bytes, length, &all);
    long before = memory.blocks;
    gazhdor_reader at = gazhdor_read(all);
    while (gazhdor_next(&at))
        ;
    memory.growths = 0, memory.refused = 1;
    WANT(!gazhdor_keep(&at));
    memory.refused = 0;
    WANT(gazhdor_keep(&at));
    gazhdor_forget(&at);
    WANT(memory.blocks == before);
    gazhdor_free(all);
}

/* ---- threads, each with a stream of its own */

static uint8_t *given;
static size_t given_length;

static void *in_thread(void *kind)
{
    for (int turn = 0; turn < 20; turn++)
        byte_by_byte(*(uint32_t *)kind, given, given_length < 500 ? given_length : 500);
    return NULL;
}

static void threads(void)
{
    static uint32_t kinds[4] = { 1, 2, 3, 4 };
    pthread_t four[4];
    for (int i = 0; i < 4; i++)
        WANT(pthread_create(&four[i], NULL, in_thread, &kinds[i]) == 0);
    for (int i = 0; i < 4; i++)
        WANT(pthread_join(four[i], NULL) == 0);
}

/* ---- one stream in several threads, one call at a time */

typedef struct {
    uint32_t kind;
    feeding f;
    size_t at, size; /* how much was fed, and how much is fed at once */
    pthread_mutex_t turn;
    pthread_cond_t next;
    int threads, taken, pieces; /* how many feed it in turn, how many of these have a number, how many were fed */
    long blocks; /* what these threads took and didn't give back */
} passing;

static void *opens(void *passed)
{
    passing *p = passed;
    p->f = opened(p->kind, p->f.wanted);
    WANT(only(p->f.answer, GAZHDOR_GOOD));
    p->blocks += memory.blocks;
    return NULL;
}

/* Feeds each piece whose turn it is, but a tenth of all. */
static void *feeds(void *passed)
{
    passing *p = passed;
    pthread_mutex_lock(&p->turn);
    int mine = p->taken++;
    for (size_t last = given_length - given_length / 10; p->at < last;) {
        if (p->pieces % p->threads != mine) {
            pthread_cond_wait(&p->next, &p->turn);
            continue;
        }
        size_t size = last - p->at < p->size ? last - p->at : p->size;
        feed(&p->f, given + p->at, size);
        p->at += size;
        p->pieces++;
        pthread_cond_broadcast(&p->next);
    }
    p->blocks += memory.blocks;
    pthread_mutex_unlock(&p->turn);
    return NULL;
}

/* Feeds the rest. */
static void *finishes(void *passed)
{
    passing *p = passed;
    feed(&p->f, given + p->at, given_length - p->at);
    finish(&p->f);
    p->blocks += memory.blocks;
    return NULL;
}

static void *closes(void *passed)
{
    passing *p = passed;
    gazhdor_close(&p->f.stream);
    WANT(p->f.stream.at == NULL);
    p->blocks += memory.blocks;
    return NULL;
}

/* That many threads at once make a step, and have ended when this returns. */
static void step(void *(*what)(void *), passing *p, int count)
{
    pthread_t threads[4];
    for (int i = 0; i < count; i++)
        WANT(pthread_create(&threads[i], NULL, what, p) == 0);
    for (int i = 0; i < count; i++)
        WANT(pthread_join(threads[i], NULL) == 0);
}

/* One thread opens a stream, one or four feed it, another finishes, and yet another closes it: text and answer are those of one call, and
 * no block is left. */
static void passed_on(uint32_t kind, int count)
{
    gazhdor_text text = GAZHDOR_NO_TEXT;
    gazhdor_answer wanted = whole(kind, given, given_length, &text);
    passing p = { .kind = kind, .f = { .wanted = text }, .size = count == 1 ? given_length : 19,
        .turn = PTHREAD_MUTEX_INITIALIZER, .next = PTHREAD_COND_INITIALIZER, .threads = count };
    step(opens, &p, 1);
    step(feeds, &p, count);
    step(finishes, &p, 1);
    WANT(same_answer(p.f.answer, wanted) && p.f.made == text.length);
    step(closes, &p, 1);
    WANT(p.blocks == 0);
    gazhdor_free(text);
}

int main(int argc, char **argv)
{
    WANT(argc > 2);
    size_t every = (size_t)atol(argv[1]);
    given = malloc(MOST);
    closed();
    for (int i = 2; i < argc; i++) {
        FILE *file = fopen(argv[i], "rb");
        WANT(file != NULL);
        given_length = fread(given, 1, MOST, file);
        fclose(file);
        if (every == 0) {
            WANT(given_length > 20000 && given_length < 65536);
            for (uint32_t kind = 0; kind < KINDS; kind++) {
                refusals(kind, given, given_length, given_length);
                refusals(kind, given, given_length, given_length / 10 + 1);
            }
            continue;
        }
        in_pieces(given, given_length, every);
        counted(given, given_length);
        for (uint32_t kind = 0; kind < KINDS; kind++) {
            asked_in_between(kind, given, given_length < 500 ? given_length : 500);
            refusals(kind, given, given_length < 3000 ? given_length : 3000, given_length < 3000 ? given_length / 10 + 1 : 301);
            passed_on(kind, 1);
            passed_on(kind, 4);
        }
        for (size_t size = 1; size < 100; size += 7)
            kept(given, given_length, size), alone(given, given_length, size), left_early(given, given_length, 7 * size);
        if (strstr(argv[i], "ride") != NULL)
            forgotten(given, given_length);
    }
    if (every != 0)
        threads();
    free(given);
    WANT(memory.blocks == 0);
    return 0;
}
