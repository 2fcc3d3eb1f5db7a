/* Tests of gazhdor_from_messages on changed blocks: mutants ROUNDS FILE.. The first blocks of each file, and those of a header whose checksum
 * is 0, get some changes: bytes; numbers at the places of docs/BLOCKS.md set to the ends of what they can be; lengths that lie; blocks that
 * are left out, doubled, swapped and cut. They stand before a page that can't be read, and then after one, so that a read outside them is a
 * fault, though the library isn't built with a compiler's checks. What must be so of an answer is worked out from the blocks, by that page.
 * Link with --wrap=malloc, realloc and free, which count what is kept. */
#define _GNU_SOURCE
#define COUNTED
#include "want.h"

#include <signal.h>
#include <sys/mman.h>
#include <unistd.h>

static long mutant;

#undef WANT
#define WANT(what) WANT_OF(what, "mutant %ld\n", mutant)

enum { ROOM = 1 << 16, FRONT = 6000, MOST = 40, SEEDS = 24, END = 24, REASONS = GAZHDOR_BLOCK_ITEMS + 1 };

/* ---- the call, on blocks beside a page that can't be read */

static uint8_t *room;

static void outside(int number)
{
    char said[100];
    int length = snprintf(said, sizeof said, "mutants.c: signal %d: a read outside the blocks of mutant %ld\n", number, mutant);
    (void)!write(2, said, (size_t)length);
    _exit(1);
}

static void make_room(void)
{
    size_t page = (size_t)sysconf(_SC_PAGESIZE);
    uint8_t *all = mmap(NULL, ROOM + 2 * page, PROT_NONE, MAP_PRIVATE | MAP_ANONYMOUS, -1, 0);
    WANT(all != MAP_FAILED && mprotect(all + page, ROOM, PROT_READ | PROT_WRITE) == 0);
    room = all + page;
    WANT(signal(SIGSEGV, outside) != SIG_ERR && signal(SIGBUS, outside) != SIG_ERR);
}

/* The answer, which is the same at both ends of the room; and the blocks stay as they are. */
static gazhdor_answer ask(gazhdor_text blocks, gazhdor_text *file)
{
    uint8_t *last = room + ROOM - blocks.length;
    gazhdor_text again = GAZHDOR_NO_TEXT;
    memcpy(last, blocks.bytes, blocks.length);
    gazhdor_answer a = gazhdor_from_messages(last, blocks.length, file);
    WANT(memcmp(last, blocks.bytes, blocks.length) == 0);
    memcpy(room, blocks.bytes, blocks.length);
    gazhdor_answer b = gazhdor_from_messages(room, blocks.length, &again);
    WANT(memcmp(room, blocks.bytes, blocks.length) == 0);
    WANT(a.status == b.status && a.reason == b.reason && a.place == b.place && a.row == b.row && a.column == 0 && a.files == 0);
    WANT(same_text(*file, again) && (a.status == GAZHDOR_GOOD) == (file->length != 0));
    WANT(a.status == GAZHDOR_BLOCK || (a.reason == 0 && a.place == 0 && a.row == 0));
    gazhdor_free(again);
    return a;
}

#include "judge.h"

/* ---- each answer, and how often it came */

static long goods, unwritables, reasons[REASONS];

static void judge(gazhdor_text blocks)
{
    long had = memory.blocks;
    gazhdor_text file = GAZHDOR_NO_TEXT;
    gazhdor_answer a = ask(blocks, &file);
    WANT(a.status == GAZHDOR_GOOD || a.status == GAZHDOR_BLOCK || a.status == GAZHDOR_UNWRITABLE);
    if (a.status == GAZHDOR_GOOD) {
        see_good(blocks, file);
        goods++;
    } else if (a.status == GAZHDOR_BLOCK) {
        WANT(a.reason > 0 && a.reason < REASONS);
        see_refused(blocks, a);
        reasons[a.reason]++;
    } else {
        before b = before_place(blocks, blocks.length);
        WANT(!b.within && are_unwritable(blocks));
        unwritables++;
    }
    gazhdor_free(file);
    WANT(memory.blocks == had);
}

/* ---- changes */

static uint64_t any(void)
{
    static uint64_t seed = 1;
    seed ^= seed << 13;
    seed ^= seed >> 7;
    seed ^= seed << 17;
    return seed;
}

/* A number at an end of what one may be, or near, or any. */
static uint64_t edge(void)
{
    uint64_t power = (uint64_t)1 << any() % 33;
    return any() % 3 == 0 ? any() % 4 : any() % 3 == 0 ? power - 1 : any() % 2 == 0 ? power : any();
}

/* Blocks, and where each begins; the last place is their end. */
typedef struct {
    uint8_t bytes[ROOM];
    size_t count, starts[2 * MOST + 1];
} block_list;

static void add(block_list *to, const uint8_t *block, size_t length)
{
    memcpy(to->bytes + to->starts[to->count], block, length);
    to->starts[to->count + 1] = to->starts[to->count] + length;
    to->count++;
}

static void set(block_list *in, size_t at, int width, uint64_t value)
{
    for (; width > 0 && at < in->starts[in->count]; width--, at++, value >>= 8)
        in->bytes[at] = (uint8_t)value;
}

/* The places at which there are numbers, by the kind of a block, or of each. */
static const struct { uint8_t kind, at, width; } places[] = {
    { 0, GAZHDOR_AT_KIND, 1 }, { 0, GAZHDOR_AT_FILE, 4 }, { 0, GAZHDOR_AT_MESSAGE_TIME, 4 }, { 0, GAZHDOR_AT_PLACE, 8 },
    { GAZHDOR_FILE_HEADER, GAZHDOR_AT_HEADER_SIZE, 1 }, { GAZHDOR_FILE_HEADER, GAZHDOR_AT_HEADER_PROTOCOL, 1 },
    { GAZHDOR_FILE_HEADER, GAZHDOR_AT_HEADER_SUM, 1 }, { GAZHDOR_FILE_HEADER, GAZHDOR_AT_HEADER_PROFILE, 8 },
    { GAZHDOR_DEFINITION, GAZHDOR_AT_DEFINITION_LOCAL, 1 }, { GAZHDOR_DEFINITION, GAZHDOR_AT_DEFINITION_ARCHITECTURE, 1 },
    { GAZHDOR_DEFINITION, GAZHDOR_AT_DEFINITION_RESERVED, 1 }, { GAZHDOR_DEFINITION, GAZHDOR_AT_DEFINITION_NUMBER, 8 },
    { GAZHDOR_DEFINITION, GAZHDOR_AT_DEFINITION_MESSAGE, 2 }, { GAZHDOR_DEFINITION, GAZHDOR_AT_DEFINITION_FIELDS, 2 },
    { GAZHDOR_DEFINITION, GAZHDOR_AT_DEFINITION_DEVELOPERS, 2 }, { GAZHDOR_DEFINITION, GAZHDOR_AT_DEFINITION_BITS, 2 },
    { GAZHDOR_DEFINITION, GAZHDOR_AT_DEFINITION_NAME, 1 },
    { GAZHDOR_MESSAGE, GAZHDOR_AT_MESSAGE_BITS, 1 }, { GAZHDOR_MESSAGE, GAZHDOR_AT_MESSAGE_LOCAL, 1 },
    { GAZHDOR_MESSAGE, GAZHDOR_AT_MESSAGE_OFFSET, 1 }, { GAZHDOR_MESSAGE, GAZHDOR_AT_MESSAGE_DEFINITION, 8 },
    { GAZHDOR_MESSAGE, GAZHDOR_AT_MESSAGE_HEADER_TIME, 8 },
};
static const struct { uint8_t at, width; } in_entry[] = {
    { GAZHDOR_AT_ENTRY_LENGTH, 2 }, { GAZHDOR_AT_ENTRY_UNIT, 2 }, { GAZHDOR_AT_ENTRY_NUMBER, 1 }, { GAZHDOR_AT_ENTRY_DEVELOPER, 1 },
    { GAZHDOR_AT_ENTRY_INDEX, 1 }, { GAZHDOR_AT_ENTRY_BASE_TYPE, 1 }, { GAZHDOR_AT_ENTRY_KIND, 1 }, { GAZHDOR_AT_ENTRY_WIDTH, 1 },
    { GAZHDOR_AT_ENTRY_COUNT, 1 }, { GAZHDOR_AT_ENTRY_DECIMALS, 1 }, { GAZHDOR_AT_ENTRY_ITEMS, 4 }, { GAZHDOR_AT_ENTRY_SCALE, 4 },
    { GAZHDOR_AT_ENTRY_OFFSET, 4 }, { GAZHDOR_AT_ENTRY_INVALID, 8 },
};

static void change_number(block_list *in, size_t start)
{
    size_t i = any() % (sizeof places / sizeof *places);
    while (places[i].kind != 0 && places[i].kind != in->bytes[start + GAZHDOR_AT_KIND])
        i = any() % (sizeof places / sizeof *places);
    set(in, start + places[i].at, places[i].width, edge());
}

static void change_entry(block_list *in, size_t start, size_t length)
{
    size_t i = any() % (sizeof in_entry / sizeof *in_entry), at = first_entry(in->bytes + start, length);
    for (uint64_t skip = any() % 12; skip > 0 && at + 32 < length; skip--)
        at += (size_t)number(in->bytes + start + at, 2);
    if (at + 32 <= length)
        set(in, start + at + in_entry[i].at, in_entry[i].width, edge());
}

/* A wrong length of a block, or of an entry. */
static void lie(block_list *in, size_t start, size_t length)
{
    static const int64_t off[] = { -8, 8, -1, 1, -24, 24, 32, 64 };
    uint64_t left = in->starts[in->count] - start;
    uint64_t lies[] = { length + (uint64_t)off[any() % 8], edge(), edge() / 8 * 8, left, left + 8, 0xFFFFFFF8, 24, 16 };
    set(in, start, 4, lies[any() % 8]);
}

static void change(block_list *in)
{
    size_t k = any() % in->count, start = in->starts[k], length = in->starts[k + 1] - start;
    switch (any() % 8) {
    case 0: lie(in, start, length); break;
    case 1: case 2: case 3: change_number(in, start); break;
    case 4: case 5:
        if (in->bytes[start + GAZHDOR_AT_KIND] == GAZHDOR_DEFINITION) {
            change_entry(in, start, length);
            break;
        }
        /* fall through */
    default: in->bytes[start + any() % length] = (uint8_t)(any() % 2 == 0 ? edge() : any());
    }
}

/* Those of a seed, but that some are left out, doubled, or changed with others. */
static void shuffle(block_list *to, const block_list *from, uint64_t moves)
{
    size_t order[2 * MOST], count = from->count;
    for (size_t i = 0; i < count; i++)
        order[i] = i;
    for (; moves > 0; moves--) {
        size_t i = any() % count, j = any() % count, moved = order[i];
        uint64_t how = any() % 3;
        if (how == 0 && count > 1) {
            memmove(order + i, order + i + 1, (--count - i) * sizeof *order);
        } else if (how == 1) {
            memmove(order + i + 1, order + i, (count++ - i) * sizeof *order);
        } else {
            order[i] = order[j];
            order[j] = moved;
        }
    }
    to->count = 0;
    for (size_t i = 0; i < count; i++)
        add(to, from->bytes + from->starts[order[i]], from->starts[order[i] + 1] - from->starts[order[i]]);
}

static void mutate(const block_list *seed)
{
    static block_list made;
    uint64_t moves = any() % 4 == 0 ? 1 + any() % 3 : 0, changes = any() % 8 == 0 && moves > 0 ? 0 : 1 + any() % 3;
    shuffle(&made, seed, moves);
    for (; changes > 0; changes--)
        change(&made);
    gazhdor_text blocks = { made.bytes, made.starts[made.count] };
    if (any() % 16 == 0)
        blocks.length = any() % 2 == 0 ? any() % (blocks.length + 1) : made.starts[any() % (made.count + 1)];
    judge(blocks);
}

/* ---- what is changed */

static block_list seeds[SEEDS];
static size_t count_of_seeds;

/* The first blocks, and an end after them. */
static void add_seed(gazhdor_text blocks)
{
    static const uint8_t end[END] = { END, 0, 0, 0, GAZHDOR_FILE_END };
    WANT(count_of_seeds < SEEDS);
    block_list *seed = &seeds[count_of_seeds++];
    size_t at = 0, length = 0;
    for (; at < blocks.length && at < FRONT && seed->count < MOST - 1; at += length) {
        length = own_length(blocks, at);
        add(seed, blocks.bytes + at, length);
    }
    if (blocks.bytes[at - length + GAZHDOR_AT_KIND] != GAZHDOR_FILE_END)
        add(seed, end, END);
    gazhdor_text front = { seed->bytes, seed->starts[seed->count] };
    judge(front);
    WANT(goods == (long)count_of_seeds);
}

static void add_file(const char *path)
{
    gazhdor_text file = file_of(path, 1 << 20), blocks = GAZHDOR_NO_TEXT;
    WANT(gazhdor_messages(file.bytes, file.length, &blocks).status == GAZHDOR_GOOD);
    add_seed(blocks);
    gazhdor_free(blocks);
    free_file(file);
}

int main(int argc, char **argv)
{
    /* A header of protocol version 32 and profile version 46477, without data: its checksum is 0. */
    static const uint8_t zero_sum[] = { 32, 0, 0, 0, GAZHDOR_FILE_HEADER, 14, 32, 2, 1, 0, 0, 0, 0, 0, 0, 0, 0, 0, 0, 0, 0, 0, 0, 0, 0x8D, 0xB5, 0, 0,
        0, 0, 0, 0 };
    gazhdor_text alone = { zero_sum, sizeof zero_sum };
    WANT(argc > 2 && is_zero_sum(zero_sum, 0));
    make_room();
    add_seed(alone);
    for (int i = 2; i < argc; i++)
        add_file(argv[i]);
    long rounds = atol(argv[1]);
    for (mutant = 1; mutant <= rounds; mutant++)
        mutate(&seeds[any() % 8 == 0 ? 0 : any() % count_of_seeds]);
    if (getenv("SAY") != NULL) {
        printf("good %ld, unwritable %ld, refused by reason", goods, unwritables);
        for (int i = 1; i < REASONS; i++)
            printf(" %ld", reasons[i]);
        printf("\n");
    }
    WANT(goods >= rounds / 10 && unwritables >= rounds / 5000);
    for (int i = 1; i < REASONS; i++)
        WANT(reasons[i] >= rounds / 500);
    return 0;
}
