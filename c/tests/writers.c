/* Tests of a gazhdor_writer: writers ROUNDS FILE.. The blocks of each file, put one by one, in runs and in random runs, make its bytes again; so
 * do random chains of random files, of which gazhdor_from_messages makes the same. Where any messages are left out, the others are read back
 * as they were, with what describes their developer fields. Each reason; lengths that lie; a writer that is closed; each growth of memory
 * refused in turn, and then the call again. Link with --wrap=malloc, realloc and free. */
#define COUNTED
#include "want.h"

enum { MOST = 1 << 20, FILES = 24, ALL = 1 << 30 };

static gazhdor_text files[FILES], blocks_of[FILES];
static size_t count_of_files;

static uint64_t any(void)
{
    static uint64_t seed = 1;
    seed ^= seed << 13;
    seed ^= seed >> 7;
    seed ^= seed << 17;
    return seed;
}

static int is_good(gazhdor_answer answer)
{
    return answer.status == GAZHDOR_GOOD;
}

/* ---- blocks that were read are put */

/* Puts messages of one definition from here on, at most so many, and steps to the last of them. */
static gazhdor_answer put_run(gazhdor_writer *writer, gazhdor_reader *at, uint64_t most)
{
    gazhdor_block definition = at->definition, first = at->block;
    gazhdor_reader next = *at;
    uint64_t count = 0;
    size_t length = 0;
    do {
        length += next.block.length;
        *at = next;
    } while (++count < most && gazhdor_next(&next) && next.block.kind == GAZHDOR_MESSAGE && next.definition.bytes == definition.bytes);
    gazhdor_answer answer = gazhdor_writer_messages(writer, definition.bytes, definition.length, first.bytes, length);
    WANT(!is_good(answer) || (is(answer, GAZHDOR_GOOD, 0, 0, count, 0, answer.files) && answer.files <= count));
    return answer;
}

/* Puts what the reader is at; of messages a run of at most so many, or where that is 0 of any number. */
static gazhdor_answer put(gazhdor_writer *writer, gazhdor_reader *at, uint64_t most)
{
    gazhdor_answer nothing = { 0, 0, 0, 0, 0, 0 };
    switch (at->block.kind) {
    case GAZHDOR_FILE_HEADER: return gazhdor_writer_file(writer, at->block.bytes, at->block.length);
    case GAZHDOR_DEFINITION: return gazhdor_writer_definition(writer, at->block.bytes, at->block.length);
    case GAZHDOR_MESSAGE: return put_run(writer, at, most == 0 ? 1 + any() % 9 : most);
    default: return nothing;
    }
}

/* Puts all blocks of a chain in their order, so that the amounts of each message are read as its block has them. */
static void put_all(gazhdor_writer *writer, gazhdor_text blocks, uint64_t most)
{
    for (gazhdor_reader at = gazhdor_read(blocks); gazhdor_next(&at);) {
        gazhdor_answer answer = put(writer, &at, most);
        WANT(is_good(answer) && answer.files == answer.row);
    }
}

/* The writer makes these bytes, twice. */
static void makes(gazhdor_writer *writer, gazhdor_text wanted)
{
    for (int i = 0; i < 2; i++) {
        gazhdor_text bytes = GAZHDOR_NO_TEXT;
        WANT(is(gazhdor_writer_finish(writer, &bytes), GAZHDOR_GOOD, 0, 0, 0, 0, 0) && same_text(bytes, wanted));
        gazhdor_free(bytes);
    }
}

/* All blocks of a file: its bytes; and once more after the end: these bytes twice. */
static void copies(gazhdor_text file, gazhdor_text blocks)
{
    static const uint64_t runs[] = { 1, ALL, 0 };
    uint8_t *twice = malloc(2 * file.length);
    WANT(twice != NULL);
    memcpy(twice, file.bytes, file.length);
    memcpy(twice + file.length, file.bytes, file.length);
    gazhdor_text both = { twice, 2 * file.length };
    for (size_t i = 0; i < sizeof runs / sizeof *runs; i++) {
        gazhdor_writer writer = GAZHDOR_CLOSED_WRITER;
        WANT(is_good(gazhdor_writer_open(&writer)));
        put_all(&writer, blocks, runs[i]);
        makes(&writer, file);
        put_all(&writer, blocks, runs[i]);
        makes(&writer, both);
        gazhdor_writer_close(&writer);
    }
    free(twice);
}

/* Some files one after another, from their blocks and by a writer. */
static void any_chain(void)
{
    gazhdor_writer writer = GAZHDOR_CLOSED_WRITER;
    gazhdor_text bytes = GAZHDOR_NO_TEXT;
    size_t length = 0, count = 1 + any() % 4, which[4];
    for (size_t i = 0; i < count; i++)
        length += blocks_of[which[i] = any() % count_of_files].length;
    uint8_t *all = malloc(length);
    WANT(all != NULL && is_good(gazhdor_writer_open(&writer)));
    length = 0;
    for (size_t i = 0; i < count; i++) {
        gazhdor_text blocks = blocks_of[which[i]];
        memcpy(all + length, blocks.bytes, blocks.length);
        length += blocks.length;
        put_all(&writer, blocks, 0);
    }
    WANT(is_good(gazhdor_from_messages(all, length, &bytes)));
    makes(&writer, bytes);
    gazhdor_free(bytes);
    gazhdor_writer_close(&writer);
    free(all);
}

/* ---- messages that are left out */

/* What a message says of developer fields: the writer may have put it. */
static int describes(const gazhdor_reader *at)
{
    return at->message == GAZHDOR_MESSAGE_FIELD_DESCRIPTION || at->message == GAZHDOR_MESSAGE_DEVELOPER_DATA_ID;
}

/* Whether a definition has a developer field, or one of which nothing is said. */
static int has_developer(gazhdor_block definition, int is_bare)
{
    for (gazhdor_field f = gazhdor_first_field(definition); f.there; f = gazhdor_next_field(definition, f))
        if (f.developer && (!is_bare || (f.base_type == GAZHDOR_TYPE_BYTE && f.name[0] == 0 && f.unit[0] == 0)))
            return 1;
    return 0;
}

/* Whether what the reader is at describes developer fields, or is a definition that has such. */
static int is_of_developers(const gazhdor_reader *at)
{
    return at->block.kind == GAZHDOR_MESSAGE ? describes(at) : has_developer(at->block, 0);
}

/* Whether two messages have the same fields with the same items, but that in the other the time of the header may come first as one. */
static int same_fields(const gazhdor_reader *x, const gazhdor_reader *y)
{
    gazhdor_field f = gazhdor_first_field(x->definition), g = gazhdor_first_field(y->definition);
    if (g.there && g.number == 253 && !g.developer && !gazhdor_numbered(x->definition, 253).there)
        g = gazhdor_next_field(y->definition, g);
    for (; f.there && g.there; f = gazhdor_next_field(x->definition, f), g = gazhdor_next_field(y->definition, g)) {
        gazhdor_text a = gazhdor_items(f, x->block), b = gazhdor_items(g, y->block);
        if (f.number != g.number || f.developer != g.developer || f.index != g.index || f.base_type != g.base_type || !same_text(a, b)
            || strcmp(f.name, g.name) != 0 || strcmp(f.unit, g.unit) != 0)
            return 0;
    }
    return !f.there && !g.there;
}

static int same_message(const gazhdor_reader *x, const gazhdor_reader *y)
{
    return x->message == y->message && gazhdor_time(x->block) == gazhdor_time(y->block) && same_fields(x, y);
}

/* Whether two messages tell the same speed, distance, cycles and power. */
static int same_amounts(const gazhdor_reader *x, const gazhdor_reader *y)
{
    for (uint32_t k = GAZHDOR_SPEED; k <= GAZHDOR_POWER; k++) {
        double a = gazhdor_amount(x->block, k), b = gazhdor_amount(y->block, k);
        if (a != b && (a == a || b == b))
            return 0;
    }
    return 1;
}

/* Steps to the next message, past what may have been put to describe developer fields before a message like this one. */
static void step_to(gazhdor_reader *back, const gazhdor_reader *at)
{
    do
        WANT(gazhdor_next(back));
    while (back->block.kind != GAZHDOR_MESSAGE || (!same_message(at, back) && describes(back)));
}

/* A file without any of its messages and definitions; or with all that describe developer fields or have them, and then none is refused. Else
 * none is but one that has a field of which nothing is said, where the file describes it. What is read are the messages that were put, with
 * what describes their developer fields among them, and the answers say whether their amounts are. */
static void any_selection(gazhdor_text blocks)
{
    enum { LEFT_OUT, OTHER_AMOUNTS, SAME_AMOUNTS };
    static uint8_t puts[MOST];
    gazhdor_writer writer = GAZHDOR_CLOSED_WRITER;
    gazhdor_text bytes = GAZHDOR_NO_TEXT, read = GAZHDOR_NO_TEXT;
    uint64_t part = 1 + any() % 5;
    int keeps = any() % 2 == 0;
    size_t number = 0;
    WANT(is_good(gazhdor_writer_open(&writer)));
    for (gazhdor_reader at = gazhdor_read(blocks); gazhdor_next(&at); number++) {
        puts[number] = LEFT_OUT;
        if (at.block.kind != GAZHDOR_FILE_HEADER && !(keeps && is_of_developers(&at)) && any() % part != 0)
            continue;
        gazhdor_answer answer = put(&writer, &at, 1);
        int is_other = is(answer, GAZHDOR_BLOCK, GAZHDOR_BLOCK_DESCRIBED, 0, 0, 0, 0) && has_developer(at.definition, 1);
        WANT(is_good(answer) || (is_other && !keeps));
        if (is_good(answer) && at.block.kind == GAZHDOR_MESSAGE)
            puts[number] = answer.files == 1 ? SAME_AMOUNTS : OTHER_AMOUNTS;
    }
    WANT(is_good(gazhdor_writer_finish(&writer, &bytes)) && is_good(gazhdor_messages(bytes.bytes, bytes.length, &read)));
    gazhdor_reader back = gazhdor_read(read);
    number = 0;
    for (gazhdor_reader at = gazhdor_read(blocks); gazhdor_next(&at); number++) {
        if (puts[number] == LEFT_OUT)
            continue;
        step_to(&back, &at);
        WANT(same_message(&at, &back) && same_amounts(&at, &back) == (puts[number] == SAME_AMOUNTS));
    }
    while (gazhdor_next(&back))
        WANT(back.block.kind != GAZHDOR_MESSAGE || describes(&back));
    gazhdor_free(read);
    gazhdor_free(bytes);
    gazhdor_writer_close(&writer);
}

/* ---- blocks that can't be put */

/* A header, a definition with one field of two bytes, and messages, each of 48 bytes; and then a writer after the header. */
enum { HEADER = 0, DEFINITION = 32, FIRST = 128, MESSAGE = 48, COUNT = 5, END = FIRST + COUNT * MESSAGE };

static uint8_t small[END];

static void make_small(void)
{
    gazhdor_field field = gazhdor_new_field(2, GAZHDOR_TYPE_UINT16, 1);
    gazhdor_blocks to = gazhdor_write(NULL, 0, gazhdor_by_realloc, NULL);
    WANT(gazhdor_put_header(&to, 0) == GAZHDOR_PUT && gazhdor_put_definition(&to, 0, 20, &field, 1) == GAZHDOR_PUT);
    for (uint64_t i = 0; i < COUNT; i++)
        WANT(gazhdor_put_message(&to, 0) == GAZHDOR_PUT && gazhdor_set_number(&to, field, 0, 1000 + i) == GAZHDOR_PUT);
    WANT(to.length == END);
    memcpy(small, to.bytes, END);
    free(to.bytes);
}

static gazhdor_writer begun(void)
{
    gazhdor_writer writer = GAZHDOR_CLOSED_WRITER;
    WANT(is_good(gazhdor_writer_open(&writer)) && is_good(gazhdor_writer_file(&writer, small, DEFINITION)));
    return writer;
}

static gazhdor_answer put_first(gazhdor_writer *writer, size_t count)
{
    return gazhdor_writer_messages(writer, small + DEFINITION, FIRST - DEFINITION, small + FIRST, count * MESSAGE);
}

/* The writer has just these first messages; closes it. */
static void has_first(gazhdor_writer *writer, size_t count)
{
    gazhdor_writer other = begun();
    gazhdor_text wanted = GAZHDOR_NO_TEXT;
    WANT(count == 0 || is(put_first(&other, count), GAZHDOR_GOOD, 0, 0, count, 0, count));
    WANT(is_good(gazhdor_writer_finish(&other, &wanted)));
    makes(writer, wanted);
    gazhdor_free(wanted);
    gazhdor_writer_close(&other);
    gazhdor_writer_close(writer);
}

/* A change of one byte, and why the block is refused: of the header, of the definition, and of the first message. */
static const struct {
    size_t at;
    uint8_t byte, reason;
} changes[] = {
    { HEADER, 16, GAZHDOR_BLOCK_CUT }, { HEADER, 36, GAZHDOR_BLOCK_CUT }, { HEADER + 3, 1, GAZHDOR_BLOCK_CUT }, { HEADER + 4, 3, GAZHDOR_BLOCK_KIND },
    { HEADER + 5, 13, GAZHDOR_BLOCK_HEADER }, { HEADER + 6, 0x30, GAZHDOR_BLOCK_HEADER }, { HEADER + 7, 3, GAZHDOR_BLOCK_HEADER },
    { DEFINITION, 88, GAZHDOR_BLOCK_CUT }, { DEFINITION + 4, 3, GAZHDOR_BLOCK_KIND }, { DEFINITION + 5, 16, GAZHDOR_BLOCK_LOCAL },
    { DEFINITION + 6, 2, GAZHDOR_BLOCK_ARCHITECTURE }, { DEFINITION + 34, 2, GAZHDOR_BLOCK_ENTRIES }, { DEFINITION + 36, 1, GAZHDOR_BLOCK_ENTRIES },
    { DEFINITION + 57, 4, GAZHDOR_BLOCK_SIZE }, { DEFINITION + 58, 128, GAZHDOR_BLOCK_SIZE },
    { FIRST, 16, GAZHDOR_BLOCK_CUT }, { FIRST, 52, GAZHDOR_BLOCK_CUT }, { FIRST + 3, 1, GAZHDOR_BLOCK_CUT }, { FIRST + 4, 2, GAZHDOR_BLOCK_KIND },
    { FIRST + 7, 32, GAZHDOR_BLOCK_OFFSET }, { FIRST + 7, 254, GAZHDOR_BLOCK_OFFSET }, { FIRST, 40, GAZHDOR_BLOCK_ITEMS },
};

/* Each as a call of its own, and a definition also with its messages: nothing is put. */
static void refused_blocks(void)
{
    for (size_t i = 0; i < sizeof changes / sizeof *changes; i++) {
        size_t at = changes[i].at;
        uint32_t reason = changes[i].reason;
        uint8_t old = small[at];
        gazhdor_writer writer = begun();
        small[at] = changes[i].byte;
        if (at < DEFINITION)
            WANT(is(gazhdor_writer_file(&writer, small, DEFINITION), GAZHDOR_BLOCK, reason, 0, 0, 0, 0));
        else if (at < FIRST)
            WANT(is(gazhdor_writer_definition(&writer, small + DEFINITION, FIRST - DEFINITION), GAZHDOR_BLOCK, reason, 0, 0, 0, 0));
        if (at >= DEFINITION)
            WANT(is(put_first(&writer, 3), GAZHDOR_BLOCK, reason, 0, 0, at < FIRST, 0));
        small[at] = old;
        has_first(&writer, 0);
    }
}

/* Where a file hasn't begun, whatever the blocks are; and no messages at all. */
static void no_file(void)
{
    static const uint8_t nothing[1];
    gazhdor_writer writer = GAZHDOR_CLOSED_WRITER;
    gazhdor_text bytes = GAZHDOR_NO_TEXT;
    WANT(is_good(gazhdor_writer_open(&writer)));
    for (int is_after_a_file = 0; is_after_a_file < 2; is_after_a_file++) {
        WANT(is(put_first(&writer, 1), GAZHDOR_BLOCK, GAZHDOR_BLOCK_NO_FILE, 0, 0, 0, 0));
        WANT(is(gazhdor_writer_messages(&writer, nothing, 1, nothing, 1), GAZHDOR_BLOCK, GAZHDOR_BLOCK_NO_FILE, 0, 0, 0, 0));
        WANT(is(gazhdor_writer_definition(&writer, nothing, 0), GAZHDOR_BLOCK, GAZHDOR_BLOCK_NO_FILE, 0, 0, 0, 0));
        if (!is_after_a_file) {
            WANT(is(gazhdor_writer_finish(&writer, &bytes), GAZHDOR_BLOCK, GAZHDOR_BLOCK_NO_FILE, 0, 0, 0, 0) && bytes.length == 0);
            WANT(is_good(gazhdor_writer_file(&writer, small, DEFINITION)) && is(put_first(&writer, 0), GAZHDOR_GOOD, 0, 0, 0, 0, 0));
            WANT(is(gazhdor_writer_messages(&writer, NULL, 0, NULL, 0), GAZHDOR_BLOCK, GAZHDOR_BLOCK_CUT, 0, 0, 1, 0));
            WANT(is_good(gazhdor_writer_finish(&writer, &bytes)));
            gazhdor_free(bytes);
        }
    }
    has_first(&writer, 0);
}

/* What is refused of messages that could stand alone, after one that is put: a timestamp has no place, or no number. */
static void untold_times(void)
{
    gazhdor_field fields[255];
    for (uint32_t i = 0; i < 255; i++)
        fields[i] = gazhdor_new_field(i == 253 ? 7 : i, GAZHDOR_TYPE_UINT8, 1);
    for (int is_full = 0; is_full < 2; is_full++) {
        gazhdor_writer writer = begun();
        gazhdor_blocks to = gazhdor_write(NULL, 0, gazhdor_by_realloc, NULL);
        WANT(gazhdor_put_header(&to, 0) == GAZHDOR_PUT && gazhdor_put_definition(&to, 3, 20, fields, is_full ? 255 : 254) == GAZHDOR_PUT);
        size_t place = to.length;
        WANT(gazhdor_put_message(&to, 3) == GAZHDOR_PUT);
        size_t length = to.length - place;
        WANT(gazhdor_put_message(&to, 3) == GAZHDOR_PUT);
        uint8_t *message = to.bytes + to.message;
        message[GAZHDOR_AT_MESSAGE_OFFSET] = 5;
        message[GAZHDOR_AT_MESSAGE_BITS] |= GAZHDOR_TOLD_HEADER_TIME;
        gazhdor_store(message + GAZHDOR_AT_MESSAGE_HEADER_TIME, is_full ? 1000000000 : 0xFFFFFFFF, 8);
        gazhdor_answer answer = gazhdor_writer_messages(&writer, to.bytes + DEFINITION, place - DEFINITION, to.bytes + place, 2 * length);
        WANT(is(answer, GAZHDOR_BLOCK, is_full ? GAZHDOR_BLOCK_FULL : GAZHDOR_BLOCK_TIME, length, 1, 0, 1));
        WANT(is(put_first(&writer, COUNT), GAZHDOR_GOOD, 0, 0, COUNT, 0, COUNT));
        gazhdor_writer_close(&writer);
        free(to.bytes);
    }
}

/* A developer field of which nothing is said, and which is described in the file. */
static void described_otherwise(void)
{
    gazhdor_writer writer = begun();
    gazhdor_field own = gazhdor_new_developer(0, 5, GAZHDOR_TYPE_UINT16, 1), plain = gazhdor_new_developer(0, 5, GAZHDOR_TYPE_BYTE, 2);
    gazhdor_blocks to = gazhdor_write(NULL, 0, gazhdor_by_realloc, NULL);
    WANT(gazhdor_put_header(&to, 0) == GAZHDOR_PUT && gazhdor_put_description(&to, 0, own, "Form power", "watts") == GAZHDOR_PUT);
    WANT(is_good(gazhdor_writer_messages(&writer, to.bytes + DEFINITION, to.message - DEFINITION, to.bytes + to.message, to.length - to.message)));
    size_t place = to.length;
    WANT(gazhdor_put_definition(&to, 1, 20, &plain, 1) == GAZHDOR_PUT && gazhdor_put_message(&to, 1) == GAZHDOR_PUT);
    gazhdor_answer answer = gazhdor_writer_messages(&writer, to.bytes + place, to.message - place, to.bytes + to.message, to.length - to.message);
    WANT(is(answer, GAZHDOR_BLOCK, GAZHDOR_BLOCK_DESCRIBED, 0, 0, 0, 0));
    gazhdor_writer_close(&writer);
    free(to.bytes);
}

/* A developer field of values is described before its first message, by its name and its unit, and then no more. */
static void described_before(void)
{
    gazhdor_writer writer = begun();
    gazhdor_text bytes = GAZHDOR_NO_TEXT, read = GAZHDOR_NO_TEXT;
    gazhdor_field fields[2] = { gazhdor_new_field(3, GAZHDOR_TYPE_UINT8, 1), gazhdor_new_developer(0, 5, GAZHDOR_TYPE_UINT16, 1) };
    gazhdor_blocks to = gazhdor_write(NULL, 0, gazhdor_by_realloc, NULL);
    fields[1].name = "Form power";
    fields[1].unit = "watts";
    WANT(gazhdor_put_header(&to, 0) == GAZHDOR_PUT && gazhdor_put_definition(&to, 1, 20, fields, 2) == GAZHDOR_PUT);
    WANT(gazhdor_put_message(&to, 1) == GAZHDOR_PUT && gazhdor_set_value(&to, fields[1], 0, 300) == GAZHDOR_PUT);
    size_t first = to.message;
    for (int i = 0; i < 2; i++)
        WANT(is(gazhdor_writer_messages(&writer, to.bytes + DEFINITION, first - DEFINITION, to.bytes + first, to.length - first),
            GAZHDOR_GOOD, 0, 0, 1, 0, 1));
    WANT(is_good(gazhdor_writer_finish(&writer, &bytes)) && is_good(gazhdor_messages(bytes.bytes, bytes.length, &read)));
    static const uint32_t wanted[] = { GAZHDOR_MESSAGE_DEVELOPER_DATA_ID, GAZHDOR_MESSAGE_FIELD_DESCRIPTION, 20, 20 };
    gazhdor_reader at = gazhdor_read(read);
    for (size_t i = 0; i < 4; i++) {
        do
            WANT(gazhdor_next(&at));
        while (at.block.kind != GAZHDOR_MESSAGE);
        WANT(at.message == wanted[i]);
        gazhdor_field power = gazhdor_named(at.definition, "Form power");
        WANT(power.there == (i > 1) && (!power.there || (strcmp(power.unit, "watts") == 0 && gazhdor_value(power, at.block, 0) == 300)));
    }
    gazhdor_free(read);
    gazhdor_free(bytes);
    gazhdor_writer_close(&writer);
    free(to.bytes);
}

/* ---- lengths that lie */

/* A run of which one block says another length, of bytes that end where they do: what is put are the blocks before the first that can't be
 * cut or read. */
static void lies(void)
{
    static const uint32_t said[] = { 0, 8, 16, 23, 24, 32, 40, 47, 49, 56, 96, 100, 144, 192, 200, 240, 248, 0x100, 0xFFFFFFF0, 0xFFFFFFF8, 0xFFFFFFFF };
    for (size_t k = 0; k < COUNT; k++) {
        for (size_t i = 0; i < sizeof said / sizeof *said; i++) {
            gazhdor_writer writer = begun();
            uint8_t *exact = malloc(COUNT * MESSAGE);
            WANT(exact != NULL);
            memcpy(exact, small + FIRST, COUNT * MESSAGE);
            gazhdor_store(exact + k * MESSAGE, said[i], 4);
            gazhdor_answer answer = gazhdor_writer_messages(&writer, small + DEFINITION, FIRST - DEFINITION, exact, COUNT * MESSAGE);
            int is_cut = said[i] < 24 || said[i] % 8 != 0 || said[i] > (COUNT - k) * MESSAGE, is_whole = !is_cut && said[i] % MESSAGE == 0;
            if (is_cut || said[i] < MESSAGE)
                WANT(is(answer, GAZHDOR_BLOCK, is_cut ? GAZHDOR_BLOCK_CUT : GAZHDOR_BLOCK_ITEMS, k * MESSAGE, k, 0, k));
            else if (is_whole)
                WANT(is(answer, GAZHDOR_GOOD, 0, 0, COUNT + 1 - said[i] / MESSAGE, 0, answer.row));
            else
                WANT(answer.status == GAZHDOR_BLOCK ? answer.place == k * MESSAGE + said[i] && answer.row == k + 1 : said[i] == (COUNT - k) * MESSAGE);
            free(exact);
            if (is_cut || said[i] < MESSAGE)
                has_first(&writer, k);
            gazhdor_writer_close(&writer);
        }
    }
}

/* ---- a writer that is closed */

static void closed(void)
{
    gazhdor_writer writer = GAZHDOR_CLOSED_WRITER;
    for (int i = 0; i < 3; i++) {
        gazhdor_text bytes = GAZHDOR_NO_TEXT;
        WANT(is(gazhdor_writer_file(&writer, small, DEFINITION), GAZHDOR_CLOSED, 0, 0, 0, 0, 0));
        WANT(is(gazhdor_writer_definition(&writer, small + DEFINITION, FIRST - DEFINITION), GAZHDOR_CLOSED, 0, 0, 0, 0, 0));
        WANT(is(put_first(&writer, COUNT), GAZHDOR_CLOSED, 0, 0, 0, 0, 0));
        WANT(is(gazhdor_writer_finish(&writer, &bytes), GAZHDOR_CLOSED, 0, 0, 0, 0, 0) && bytes.length == 0);
        gazhdor_writer_close(&writer);
        if (i == 1)
            WANT(is_good(gazhdor_writer_open(&writer)) && is_good(gazhdor_writer_file(&writer, small, DEFINITION)));
        WANT(is_good(gazhdor_writer_open(&writer)));
        WANT(is(gazhdor_writer_finish(&writer, &bytes), GAZHDOR_BLOCK, GAZHDOR_BLOCK_NO_FILE, 0, 0, 0, 0));
        gazhdor_writer_close(&writer);
        gazhdor_writer_close(&writer);
    }
}

/* ---- memory that is refused */

/* Opens, puts and finishes, each call again where it had no memory, and messages from the one that wasn't put. */
static gazhdor_answer insist(gazhdor_writer *writer, gazhdor_text blocks, gazhdor_text *bytes)
{
    gazhdor_answer answer;
    while ((answer = gazhdor_writer_open(writer)).status == GAZHDOR_NO_MEMORY)
        WANT(is(answer, GAZHDOR_NO_MEMORY, 0, 0, 0, 0, 0) && is(put_first(writer, 1), GAZHDOR_CLOSED, 0, 0, 0, 0, 0));
    for (gazhdor_reader at = gazhdor_read(blocks); is_good(answer) && gazhdor_next(&at);) {
        gazhdor_reader before = at;
        while ((answer = put(writer, &at, 3)).status == GAZHDOR_NO_MEMORY) {
            WANT(answer.row < 3 && (answer.row == 0) == (answer.place == 0));
            for (at = before; answer.row > 0; answer.row--)
                WANT(gazhdor_next(&at));
            before = at;
        }
    }
    WANT(is_good(answer));
    while ((answer = gazhdor_writer_finish(writer, bytes)).status == GAZHDOR_NO_MEMORY)
        WANT(is(answer, GAZHDOR_NO_MEMORY, 0, 0, 0, 0, 0) && bytes->length == 0);
    return answer;
}

static void refusals(gazhdor_text file, gazhdor_text blocks)
{
    long before = memory.blocks;
    for (memory.refused = 1;; memory.refused++) {
        gazhdor_writer writer = GAZHDOR_CLOSED_WRITER;
        gazhdor_text bytes = GAZHDOR_NO_TEXT;
        memory.growths = 0;
        WANT_OF(is_good(insist(&writer, blocks, &bytes)) && same_text(bytes, file), "growth %ld\n", memory.refused);
        long made = memory.growths;
        gazhdor_free(bytes);
        gazhdor_writer_close(&writer);
        WANT(memory.blocks == before);
        if (made < memory.refused)
            break;
    }
    memory.refused = 0;
}

int main(int argc, char **argv)
{
    WANT(argc > 2);
    long rounds = atol(argv[1]);
    make_small();
    closed();
    no_file();
    refused_blocks();
    untold_times();
    described_otherwise();
    described_before();
    lies();
    for (int i = 2; i < argc && count_of_files < FILES; i++) {
        gazhdor_text *file = &files[count_of_files], *blocks = &blocks_of[count_of_files];
        count_of_files++;
        *file = file_of(argv[i], MOST);
        *blocks = (gazhdor_text)GAZHDOR_NO_TEXT;
        WANT(is_good(gazhdor_messages(file->bytes, file->length, blocks)));
        copies(*file, *blocks);
        if (file->length < 8000)
            refusals(*file, *blocks);
    }
    for (long i = 0; i < rounds; i++) {
        any_chain();
        any_selection(blocks_of[any() % count_of_files]);
    }
    for (size_t i = 0; i < count_of_files; i++) {
        gazhdor_free(blocks_of[i]);
        free_file(files[i]);
    }
    WANT(memory.blocks == 0);
    return 0;
}
