/* Tests of the calls of gazhdor.h on a ride, by what must be so of any file: calls RIDE FOLDER STEP. STEP 1 tries each front and each byte, and
 * with 0 only memory is refused, of a longer file. Blocks are counted, and each growth of memory is refused in turn: link with
 * --wrap=malloc, realloc and free. */
#define COUNTED
#include "want.h"

#include <pthread.h>

typedef gazhdor_answer call(const uint8_t *bytes, size_t length, gazhdor_text *text);
static call *const calls[] = { gazhdor_table, gazhdor_to_csv, gazhdor_show, gazhdor_messages, gazhdor_from_csv, gazhdor_from_messages };
static const char *const names[] = { "table", "to-csv", "show", NULL, "from-csv", "from-csv" };
enum { CSV = 1, BLOCKS = 3, READERS = 4, FROM_CSV = 4, FROM_MESSAGES = 5, CALLS = 6 };

static int begins(gazhdor_text front, gazhdor_text whole)
{
    return front.length <= whole.length && memcmp(front.bytes, whole.bytes, front.length) == 0;
}

static uint8_t *ride;
static size_t length;
static gazhdor_text texts[CALLS];

/* What a call is given: the ride, or the text or the blocks of which it makes the ride again. */
static gazhdor_text input(int i)
{
    gazhdor_text bytes = { ride, length };
    return i == FROM_CSV ? texts[CSV] : i == FROM_MESSAGES ? texts[BLOCKS] : bytes;
}

/* Each call on the whole ride; and its text is what the program writes, in the files that the folder has. It writes no blocks; rows.c
 * reads those. */
static void whole(const char *folder)
{
    WANT(is(gazhdor_check(ride, length), GAZHDOR_GOOD, 0, 0, 0, 0, 1));
    for (int i = 0; i < CALLS; i++) {
        gazhdor_text none = GAZHDOR_NO_TEXT;
        texts[i] = none;
        WANT(is(calls[i](input(i).bytes, input(i).length, &texts[i]), GAZHDOR_GOOD, 0, 0, 0, 0, 0));
        if (names[i] == NULL)
            continue;
        char path[4096];
        snprintf(path, sizeof path, "%s/%s", folder, names[i]);
        FILE *file = fopen(path, "rb");
        WANT(file != NULL);
        for (size_t at = 0; at < texts[i].length; at++)
            WANT(fgetc(file) == texts[i].bytes[at]);
        WANT(fgetc(file) == EOF);
        fclose(file);
    }
    gazhdor_text bytes = { ride, length };
    WANT(same_text(texts[FROM_CSV], bytes) && same_text(texts[FROM_MESSAGES], bytes));
}

/* A front of a file is truncated at its end, and the text of what has come is a front of the text. The block has just that many
 * bytes, so that valgrind sees a read past them. */
static void fronts(size_t step)
{
    for (size_t end = 0; end < length; end += step) {
        uint8_t *front = malloc(end + (end == 0));
        memcpy(front, ride, end);
        WANT(is(gazhdor_check(front, end), GAZHDOR_TRUNCATED, 0, end, 0, 0, 0));
        for (int i = 0; i < READERS; i++) {
            gazhdor_text text = GAZHDOR_NO_TEXT;
            WANT(is(calls[i](front, end, &text), GAZHDOR_TRUNCATED, 0, end, 0, 0, 0));
            WANT(begins(text, texts[i]));
            gazhdor_free(text);
        }
        free(front);
    }
}

/* With one byte changed the bytes aren't good, since the closing checksum sees each such change; the bytes before it still begin a file.
 * The calls agree on what is wrong. */
static void changed(size_t step)
{
    for (size_t at = 0; at < length; at += step) {
        ride[at] ^= 0x55;
        gazhdor_answer found = gazhdor_check(ride, length);
        WANT(found.status == GAZHDOR_REFUSED ? at <= found.place && found.place < length && 1 <= found.reason && found.reason <= 11
                                         : is(found, GAZHDOR_TRUNCATED, 0, length, 0, 0, 0));
        for (int i = 0; i < READERS; i++) {
            gazhdor_text text = GAZHDOR_NO_TEXT;
            WANT(is(calls[i](ride, length, &text), found.status, found.reason, found.place, 0, 0, 0));
            gazhdor_free(text);
        }
        ride[at] ^= 0x55;
    }
}

/* Blocks that end too soon are refused at the first that isn't whole, or where the end of the file is missing. */
static void fronts_of_blocks(size_t step)
{
    gazhdor_reader at = gazhdor_read(texts[BLOCKS]);
    uint64_t row = 0, place = 0;
    for (size_t end = 0; end < texts[BLOCKS].length; end += step) {
        uint8_t *front = malloc(end + (end == 0));
        gazhdor_text bytes = GAZHDOR_NO_TEXT;
        memcpy(front, texts[BLOCKS].bytes, end);
        for (; place + (at.left.length < 4 ? 4 : at.left.bytes[0] + 256u * at.left.bytes[1]) <= end; row++) {
            WANT(gazhdor_next(&at));
            place += at.block.length;
        }
        WANT(is(gazhdor_from_messages(front, end, &bytes), GAZHDOR_BLOCK, GAZHDOR_BLOCK_CUT, place, row, 0, 0) && bytes.length == 0);
        free(front);
    }
}

/* With a byte of them changed blocks are those of another file, or of the same one, or one of them is refused: that with the byte, or a
 * later one. */
static void changed_blocks(size_t step)
{
    uint8_t *blocks = (uint8_t *)(uintptr_t)texts[BLOCKS].bytes;
    for (size_t at = 0; at < texts[BLOCKS].length; at += step) {
        gazhdor_text bytes = GAZHDOR_NO_TEXT;
        blocks[at] ^= 0x55;
        gazhdor_answer a = gazhdor_from_messages(blocks, texts[BLOCKS].length, &bytes);
        gazhdor_reader reader = gazhdor_read(texts[BLOCKS]);
        size_t place = 0;
        for (uint64_t row = 0; a.status == GAZHDOR_BLOCK && row < a.row; row++, place += reader.block.length)
            WANT(gazhdor_next(&reader));
        if (a.status == GAZHDOR_BLOCK) {
            WANT(a.place == place && bytes.length == 0 && a.reason >= 1 && a.reason <= GAZHDOR_BLOCK_ITEMS);
            WANT(!gazhdor_next(&reader) || place + reader.block.length > at);
        } else {
            WANT(is(a, GAZHDOR_GOOD, 0, 0, 0, 0, 0) && is(gazhdor_check(bytes.bytes, bytes.length), GAZHDOR_GOOD, 0, 0, 0, 0, 1));
        }
        gazhdor_free(bytes);
        blocks[at] ^= 0x55;
    }
}

/* Texts that stand for no file, by their rows and cells; and the chain of the ride twice. */
static void others(void)
{
    static const struct { const char *text; uint64_t row, column; } bad[] = {
        { "", 1, 0 },
        { "row,a,b,c,d,e\n", 1, 0 },
        { "row,a,b,c,d,e,f\n", 2, 0 },
        { "row,a,b,c,d,e,f\nfile,14,32,0,sum,,\n", 3, 0 },
        { "row,a,b,c,d,e,f\nfield,14,32,0,sum,,\n", 2, 0 },
        { "row,a,b,c,d,e,f\nfile,14,32,65536,sum,,\nend,,,,,,\n", 2, 4 },
    };
    for (size_t i = 0; i < sizeof bad / sizeof *bad; i++) {
        gazhdor_text none = GAZHDOR_NO_TEXT;
        WANT(is(gazhdor_from_csv((const uint8_t *)bad[i].text, strlen(bad[i].text), &none), GAZHDOR_TEXT, 0, 0, bad[i].row, bad[i].column, 0));
        WANT(none.length == 0);
    }
    /* The true sum of this header is 0, which zeros in its place can't say. */
    const char *zeros = "row,a,b,c,d,e,f\nfile,14,32,46477,zero,,\nend,,,,,,\n";
    gazhdor_text none = GAZHDOR_NO_TEXT;
    WANT(is(gazhdor_from_csv((const uint8_t *)zeros, strlen(zeros), &none), GAZHDOR_UNWRITABLE, 0, 0, 0, 0, 0));
    WANT(none.length == 0);
    uint8_t *twice = malloc(2 * length);
    memcpy(twice, ride, length);
    memcpy(twice + length, ride, length);
    WANT(is(gazhdor_check(twice, 2 * length), GAZHDOR_GOOD, 0, 0, 0, 0, 2));
    WANT(is(gazhdor_check(twice, 2 * length - 1), GAZHDOR_TRUNCATED, 0, 2 * length - 1, 0, 0, 0));
    twice[length] = 0x0D;
    WANT(is(gazhdor_check(twice, 2 * length), GAZHDOR_REFUSED, GAZHDOR_HEADER_SIZE, length, 0, 0, 0));
    free(twice);
}

/* With no bytes the pointer may be NULL: that is the front of no bytes, and the text without a first line. */
static void nothing(void)
{
    WANT(is(gazhdor_check(NULL, 0), GAZHDOR_TRUNCATED, 0, 0, 0, 0, 0));
    for (int i = 0; i < CALLS; i++) {
        gazhdor_text text = GAZHDOR_NO_TEXT, front = GAZHDOR_NO_TEXT;
        gazhdor_answer answer = calls[i](NULL, 0, &text);
        WANT(i == FROM_CSV ? is(answer, GAZHDOR_TEXT, 0, 0, 1, 0, 0) : i == FROM_MESSAGES ? is(answer, GAZHDOR_BLOCK, GAZHDOR_BLOCK_CUT, 0, 0, 0, 0)
                                                                                          : is(answer, GAZHDOR_TRUNCATED, 0, 0, 0, 0, 0));
        calls[i]((const uint8_t *)"", 0, &front);
        WANT(same_text(text, front));
        gazhdor_free(text);
        gazhdor_free(front);
    }
}

/* The names; CMakeLists.txt compares those of reasons with what the program prints. */
static void named(void)
{
    static const char *const statuses[] = { "good", "refused", "truncated", "out of memory", "text refused", "no file has such rows",
        "closed", "no such kind", "block refused" };
    for (uint32_t status = GAZHDOR_GOOD; status <= GAZHDOR_BLOCK; status++)
        WANT(strcmp(gazhdor_status_name(status), statuses[status]) == 0);
    WANT(strcmp(gazhdor_status_name(GAZHDOR_BLOCK + 1), "unknown") == 0);
    WANT(strcmp(gazhdor_reason_name(0), "unknown") == 0);
    WANT(strcmp(gazhdor_reason_name(GAZHDOR_TOO_MANY_FILES + 1), "unknown") == 0);
    for (uint32_t reason = GAZHDOR_HEADER_SIZE; reason <= GAZHDOR_TOO_MANY_FILES; reason++) {
        WANT(strncmp(gazhdor_reason_text(reason), "the byte ", 9) == 0);
        for (uint32_t other = GAZHDOR_HEADER_SIZE; other < reason; other++)
            WANT(strcmp(gazhdor_reason_text(reason), gazhdor_reason_text(other)) != 0);
    }
    WANT(strstr(gazhdor_reason_text(GAZHDOR_UNDEFINED_LOCAL), "local message type isn't defined") != NULL);
    WANT(strcmp(gazhdor_reason_text(0), "unknown") == 0 && strcmp(gazhdor_reason_text(GAZHDOR_TOO_MANY_FILES + 1), "unknown") == 0);
    WANT(strcmp(gazhdor_version(), GAZHDOR_VERSION) == 0);
}

static void named_of_blocks(void)
{
    static const char *const reasons[] = { "unknown", "Cut", "Kind", "Header", "Local", "Architecture", "Entries", "Size", "Offset",
        "Undefined", "Items", "NoFile", "Files", "Full", "Time", "Described", "TooLong", "unknown" };
    for (uint32_t reason = 0; reason <= GAZHDOR_BLOCK_TOO_LONG + 1; reason++) {
        int is_one = reason >= GAZHDOR_BLOCK_CUT && reason <= GAZHDOR_BLOCK_TOO_LONG;
        WANT(strcmp(gazhdor_block_reason_name(reason), reasons[reason]) == 0);
        WANT(is_one ? strncmp(gazhdor_block_reason_text(reason), "the block ", 10) == 0 : strcmp(gazhdor_block_reason_text(reason), "unknown") == 0);
        for (uint32_t other = GAZHDOR_BLOCK_CUT; is_one && other < reason; other++)
            WANT(strcmp(gazhdor_block_reason_text(reason), gazhdor_block_reason_text(other)) != 0);
    }
    WANT(strstr(gazhdor_block_reason_text(GAZHDOR_BLOCK_UNDEFINED), "local message type isn't defined") != NULL);
    for (uint32_t answer = GAZHDOR_PUT; answer <= GAZHDOR_PUT_NAN + 1; answer++) {
        WANT((strcmp(gazhdor_put_text(answer), "unknown") == 0) == (answer > GAZHDOR_PUT_NAN));
        for (uint32_t other = GAZHDOR_PUT; other < answer; other++)
            WANT(strcmp(gazhdor_put_text(answer), gazhdor_put_text(other)) != 0);
    }
    WANT(strstr(gazhdor_put_text(GAZHDOR_PUT_FULL), "no room") != NULL && strstr(gazhdor_put_text(GAZHDOR_PUT_NAN), "isn't a number") != NULL);
}

/* Each growth of memory refused in turn: no memory, with a front of the text; or, where another way needs less, the same answer as
 * ever. No block is left. */
static void want(void)
{
    long before = memory.blocks;
    for (memory.refused = 1;; memory.refused++) {
        memory.growths = 0;
        gazhdor_answer a = gazhdor_check(ride, length);
        WANT(memory.blocks == before);
        if (memory.growths < memory.refused)
            break;
        WANT(is(a, GAZHDOR_NO_MEMORY, 0, 0, 0, 0, 0) || is(a, GAZHDOR_GOOD, 0, 0, 0, 0, 1));
    }
    for (int i = 0; i < CALLS; i++)
        for (memory.refused = 1;; memory.refused++) {
            memory.growths = 0;
            gazhdor_text text = GAZHDOR_NO_TEXT;
            gazhdor_answer a = calls[i](input(i).bytes, input(i).length, &text);
            long made = memory.growths;
            WANT(made < memory.refused || is(a, GAZHDOR_NO_MEMORY, 0, 0, 0, 0, 0) || (a.status == GAZHDOR_GOOD && same_text(text, texts[i])));
            WANT(i >= FROM_CSV && a.status != GAZHDOR_GOOD ? text.length == 0 : begins(text, texts[i]));
            gazhdor_free(text);
            WANT(memory.blocks == before);
            if (made < memory.refused)
                break;
        }
    memory.refused = 0;
}

static void *in_thread(void *given)
{
    for (long i = 0; i < *(long *)given; i++) {
        gazhdor_text text = GAZHDOR_NO_TEXT;
        WANT(is(gazhdor_check(ride, length), GAZHDOR_GOOD, 0, 0, 0, 0, 1));
        WANT(is(calls[i % READERS](ride, length, &text), GAZHDOR_GOOD, 0, 0, 0, 0, 0));
        WANT(same_text(text, texts[i % READERS]));
        gazhdor_free(text);
    }
    return NULL;
}

static void threads(long rounds)
{
    pthread_t four[4];
    for (int i = 0; i < 4; i++)
        WANT(pthread_create(&four[i], NULL, in_thread, &rounds) == 0);
    for (int i = 0; i < 4; i++)
        WANT(pthread_join(four[i], NULL) == 0);
}

int main(int argc, char **argv)
{
    WANT(argc == 4);
    size_t step = (size_t)atol(argv[3]);
    FILE *file = fopen(argv[1], "rb");
    ride = malloc(1 << 20);
    WANT(file != NULL && ride != NULL);
    length = fread(ride, 1, 1 << 20, file);
    fclose(file);
    whole(argv[2]);
    if (step > 0) {
        fronts(step);
        changed(step);
        fronts_of_blocks(step);
        changed_blocks(step);
        others();
        nothing();
        named();
        named_of_blocks();
        threads(600 / (long)step);
    } else {
        WANT(length > 20000);
    }
    want();
    for (int i = 0; i < CALLS; i++)
        gazhdor_free(texts[i]);
    free(ride);
    return 0;
}
