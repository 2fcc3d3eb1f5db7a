/* Tests of gazhdor_write.h and gazhdor_set.h on blocks that were read, and by random calls: rewrites FILE ROUNDS. Copies of all messages, and
 * those of which each item was set to what it is, make the bytes of FILE; without a field they say the others. Random calls with random numbers, in
 * memory of just its length, show a compiler's checks, or valgrind, a read or a write outside it; where they had no fault, they made a file. */
#include "want.h"

#define PUT(what) WANT((what) == GAZHDOR_PUT)

/* ---- copies */

/* Sets each item of the last message to what it is. */
static void set_again(gazhdor_blocks *to, const gazhdor_reader *at)
{
    for (gazhdor_field f = gazhdor_first_field(at->definition); f.there; f = gazhdor_next_field(at->definition, f)) {
        gazhdor_text items = gazhdor_items(f, at->block), text = gazhdor_string(f, at->block);
        char name[256] = "";
        PUT(gazhdor_set_invalid(to, f));
        for (size_t k = 0; k < f.count; k++) {
            uint64_t raw;
            int is_value = gazhdor_raw(f, at->block, k, &raw) && f.kind < GAZHDOR_FLOAT && f.width <= 4;
            double value = gazhdor_value(f, at->block, k);
            PUT(is_value ? gazhdor_set_value(to, f, k, value) : gazhdor_set_number(to, f, k, raw));
        }
        if (text.bytes != NULL && text.length < f.count) {
            memcpy(name, text.bytes, text.length);
            WANT(items.bytes[items.length - 1] != 0 || gazhdor_set_text(to, f, name) == GAZHDOR_PUT);
        }
        PUT(gazhdor_set_items(to, f, items.bytes, items.length));
    }
    PUT(gazhdor_set_offset(to, at->block.bytes[GAZHDOR_AT_MESSAGE_OFFSET]));
}

/* Puts a message as it is: a copy, of which each item was set again. */
static gazhdor_answer put_copy(gazhdor_writer *writer, gazhdor_blocks *to, const gazhdor_reader *at)
{
    gazhdor_begin_anew(to);
    PUT(gazhdor_put_copy(to, at->block));
    WANT(to->length == at->block.length && memcmp(to->bytes, at->block.bytes, to->length) == 0);
    set_again(to, at);
    WANT(to->length == at->block.length && memcmp(to->bytes, at->block.bytes, to->length) == 0);
    return gazhdor_writer_messages(writer, at->definition.bytes, at->definition.length, to->bytes, to->length);
}

static void copies(gazhdor_text blocks, const uint8_t *bytes, size_t length)
{
    gazhdor_blocks to = gazhdor_write(NULL, 0, gazhdor_by_realloc, NULL);
    gazhdor_writer writer = GAZHDOR_CLOSED_WRITER;
    gazhdor_text file = GAZHDOR_NO_TEXT;
    gazhdor_answer answer = gazhdor_writer_open(&writer);
    for (gazhdor_reader at = gazhdor_read(blocks); answer.status == GAZHDOR_GOOD && gazhdor_next(&at);) {
        if (at.block.kind == GAZHDOR_FILE_HEADER)
            answer = gazhdor_writer_file(&writer, at.block.bytes, at.block.length);
        else if (at.block.kind == GAZHDOR_DEFINITION)
            answer = gazhdor_writer_definition(&writer, at.block.bytes, at.block.length);
        else if (at.block.kind == GAZHDOR_MESSAGE)
            answer = put_copy(&writer, &to, &at);
    }
    WANT(answer.status == GAZHDOR_GOOD && gazhdor_writer_finish(&writer, &file).status == GAZHDOR_GOOD);
    WANT(file.length == length && memcmp(file.bytes, bytes, length) == 0);
    gazhdor_free(file);
    gazhdor_writer_close(&writer);
    free(to.bytes);
}

/* The fields of a definition but for those of this number; how many there are. */
static size_t fields_without(gazhdor_block definition, uint32_t number, gazhdor_field *fields)
{
    size_t count = 0;
    for (gazhdor_field f = gazhdor_first_field(definition); f.there; f = gazhdor_next_field(definition, f))
        if (f.developer || f.number != number)
            fields[count++] = f;
    return count;
}

/* Copies all blocks, records without their first field; in little endian. */
static gazhdor_blocks without_a_field(gazhdor_text blocks)
{
    static gazhdor_field fields[16][510];
    size_t counts[16] = { 0 };
    gazhdor_blocks to = gazhdor_write(NULL, 0, gazhdor_by_realloc, NULL);
    for (gazhdor_reader at = gazhdor_read(blocks); gazhdor_next(&at);) {
        uint32_t local = at.block.bytes[at.block.kind == GAZHDOR_DEFINITION ? 5 : 6] & 15;
        uint32_t number = (uint32_t)gazhdor_load(at.definition, GAZHDOR_AT_DEFINITION_MESSAGE, 2);
        if (at.block.kind == GAZHDOR_DEFINITION) {
            counts[local] = fields_without(at.block, number == 20 ? gazhdor_first_field(at.block).number : 999, fields[local]);
            PUT(gazhdor_put_definition(&to, local, number, fields[local], counts[local]));
        } else if (at.block.kind == GAZHDOR_MESSAGE) {
            PUT(gazhdor_put_message(&to, local));
            PUT(gazhdor_set_offset(&to, at.block.bytes[GAZHDOR_AT_MESSAGE_OFFSET]));
            for (size_t i = 0; i < counts[local]; i++) {
                gazhdor_field f = gazhdor_developer(at.definition, fields[local][i].index, fields[local][i].number);
                f = fields[local][i].developer ? f : gazhdor_numbered(at.definition, fields[local][i].number);
                gazhdor_text items = gazhdor_items(f, at.block);
                PUT(gazhdor_set_items(&to, fields[local][i], items.bytes, items.length));
            }
        } else {
            PUT(at.block.kind == GAZHDOR_FILE_HEADER ? gazhdor_put_header(&to, 0) : gazhdor_put_end(&to));
        }
    }
    return to;
}

/* Whether two messages have the same items, but that the first field of the first one may be missing in the other. */
static int same_items(const gazhdor_reader *whole, const gazhdor_reader *part, int is_without)
{
    gazhdor_field f = gazhdor_first_field(whole->definition), g = gazhdor_first_field(part->definition);
    f = is_without ? gazhdor_next_field(whole->definition, f) : f;
    while (f.there && g.there) {
        gazhdor_text x = gazhdor_items(f, whole->block), y = gazhdor_items(g, part->block);
        if (f.number != g.number || f.developer != g.developer || f.index != g.index || x.length != y.length)
            return 0;
        if (x.length != 0 && memcmp(x.bytes, y.bytes, x.length) != 0)
            return 0;
        f = gazhdor_next_field(whole->definition, f);
        g = gazhdor_next_field(part->definition, g);
    }
    return !f.there && !g.there && whole->block.bytes[GAZHDOR_AT_MESSAGE_OFFSET] == part->block.bytes[GAZHDOR_AT_MESSAGE_OFFSET];
}

/* Whether these blocks say a file whose messages are those of `blocks`, records without their first field where `is_without`. */
static void say_the_same(const gazhdor_blocks *to, gazhdor_text blocks, int is_without)
{
    gazhdor_text file = GAZHDOR_NO_TEXT, read = GAZHDOR_NO_TEXT;
    WANT(to->fault == GAZHDOR_PUT && gazhdor_from_messages(to->bytes, to->length, &file).status == GAZHDOR_GOOD);
    WANT(gazhdor_messages(file.bytes, file.length, &read).status == GAZHDOR_GOOD);
    gazhdor_reader whole = gazhdor_read(blocks), part = gazhdor_read(read);
    while (gazhdor_next(&whole)) {
        WANT(gazhdor_next(&part) && part.block.kind == whole.block.kind && part.message == whole.message);
        WANT(whole.block.kind != GAZHDOR_MESSAGE || same_items(&whole, &part, is_without && whole.message == 20));
    }
    WANT(!gazhdor_next(&part) && part.left.length == 0);
    gazhdor_free(file);
    gazhdor_free(read);
}

/* A developer field that was described, as a reader names it. */
static void described(void)
{
    gazhdor_field own = gazhdor_new_developer(3, 7, GAZHDOR_TYPE_SINT16, 2);
    gazhdor_blocks to = gazhdor_write(NULL, 0, gazhdor_by_realloc, NULL);
    gazhdor_text file = GAZHDOR_NO_TEXT, blocks = GAZHDOR_NO_TEXT;
    PUT(gazhdor_put_header(&to, 0));
    PUT(gazhdor_put_description(&to, 2, own, "Form power", "watts"));
    PUT(gazhdor_put_definition(&to, 2, GAZHDOR_MESSAGE_LAP, &own, 1));
    PUT(gazhdor_put_message(&to, 2));
    PUT(gazhdor_set_value(&to, own, 1, -300));
    PUT(gazhdor_put_end(&to));
    WANT(gazhdor_from_messages(to.bytes, to.length, &file).status == GAZHDOR_GOOD);
    WANT(gazhdor_messages(file.bytes, file.length, &blocks).status == GAZHDOR_GOOD);
    gazhdor_reader at = gazhdor_read(blocks);
    while (at.message != GAZHDOR_MESSAGE_LAP)
        WANT(gazhdor_next(&at));
    gazhdor_field read = gazhdor_named(at.definition, "Form power");
    WANT(read.developer && read.index == 3 && read.number == 7 && read.base_type == GAZHDOR_TYPE_SINT16 && strcmp(read.unit, "watts") == 0);
    WANT(read.count == 2 && isnan(gazhdor_value(read, at.block, 0)) && gazhdor_value(read, at.block, 1) == -300);
    gazhdor_free(blocks);
    gazhdor_free(file);
    free(to.bytes);
}

/* Memory elsewhere each time; what was there before is spoilt. */
static uint8_t *elsewhere(void *own, uint8_t *bytes, size_t capacity)
{
    const gazhdor_blocks *to = own;
    uint8_t *made = malloc(capacity);
    WANT(made != NULL);
    if (bytes != NULL) {
        memcpy(made, bytes, to->length);
        memset(bytes, 'x', to->length);
    }
    free(bytes);
    return made;
}

/* A definition takes the names and the units of developer fields along, also where they lie in the blocks, which move. */
static void names_in_definitions(void)
{
    static char most[256], more[257];
    gazhdor_field own = gazhdor_new_developer(3, 7, GAZHDOR_TYPE_SINT16, 2);
    gazhdor_blocks to = gazhdor_write(NULL, 0, elsewhere, &to);
    own.name = "Form power";
    own.unit = memset(most, 'u', sizeof most - 1);
    PUT(gazhdor_put_header(&to, 0));
    for (int i = 0; i < 20; i++) {
        PUT(gazhdor_put_definition(&to, 2, GAZHDOR_MESSAGE_LAP, &own, 1));
        WANT(strcmp(own.name, "Form power") == 0 && strcmp(own.unit, most) == 0);
        own = gazhdor_named(gazhdor_block_at(&to, to.known[2]), "Form power");
        WANT(own.developer && own.index == 3 && own.number == 7 && own.base_type == GAZHDOR_TYPE_SINT16 && strcmp(own.unit, most) == 0);
    }
    gazhdor_field heart = gazhdor_new_field(3, GAZHDOR_TYPE_UINT8, 1);
    heart.name = "heart_rate"; /* What isn't a developer field has its name from the profile. */
    PUT(gazhdor_put_definition(&to, 2, GAZHDOR_MESSAGE_LAP, &heart, 1));
    WANT(gazhdor_first_field(gazhdor_block_at(&to, to.known[2])).name[0] == 0);
    size_t length = to.length;
    own.name = memset(more, 'n', sizeof more - 1);
    WANT(gazhdor_put_definition(&to, 2, GAZHDOR_MESSAGE_LAP, &own, 1) == GAZHDOR_PUT_LENGTH && to.length == length);
    own.name = NULL;
    to.fault = GAZHDOR_PUT;
    PUT(gazhdor_put_definition(&to, 2, GAZHDOR_MESSAGE_LAP, &own, 1));
    WANT(gazhdor_first_field(gazhdor_block_at(&to, to.known[2])).name[0] == 0);
    free(to.bytes);
}

/* Copies a block with one byte changed, and as the last thing puts the byte back. */
static uint32_t put_changed(gazhdor_blocks *to, gazhdor_block block, size_t at, uint8_t byte)
{
    uint8_t *bytes = (uint8_t *)(uintptr_t)block.bytes, old = bytes[at];
    bytes[at] = byte;
    uint32_t answer = gazhdor_put_copy(to, block);
    bytes[at] = old;
    return answer;
}

/* Blocks that aren't whole, or of no message; and a definition that says a wrong length of its messages. */
static void wrong_blocks(void)
{
    static const uint32_t lengths[] = { 0, 32, 41, 72 + 510 * 256 + 8, 0xFFFFFFF8 };
    gazhdor_field field = gazhdor_new_field(3, GAZHDOR_TYPE_UINT8, 1);
    gazhdor_blocks from = gazhdor_write(NULL, 0, gazhdor_by_realloc, NULL), to = from;
    PUT(gazhdor_put_header(&from, 0));
    PUT(gazhdor_put_definition(&from, 1, 20, &field, 1));
    PUT(gazhdor_put_message(&from, 1));
    gazhdor_block header = gazhdor_block_at(&from, 0), definition = gazhdor_block_at(&from, 32), message = gazhdor_block_at(&from, 128), cut = message;
    cut.length -= 8;
    WANT(gazhdor_put_copy(&to, cut) == GAZHDOR_PUT_LENGTH && put_changed(&to, message, 0, 24) == GAZHDOR_PUT_LENGTH);
    for (uint8_t kind = 0; kind < 8; kind++)
        WANT(kind == GAZHDOR_MESSAGE || put_changed(&to, message, GAZHDOR_AT_KIND, kind) == GAZHDOR_PUT_LENGTH);
    WANT(gazhdor_put_copy(&to, header) == GAZHDOR_PUT_LENGTH && gazhdor_put_copy(&to, definition) == GAZHDOR_PUT_LENGTH);
    WANT(to.length == 0 && to.fault == GAZHDOR_PUT_LENGTH && to.message == GAZHDOR_NOWHERE);
    PUT(gazhdor_put_copy(&to, message));
    WANT(to.message == 0 && to.length == message.length);
    gazhdor_begin_anew(&to);
    WANT(to.length == 0 && to.fault == GAZHDOR_PUT && gazhdor_set_invalid(&to, field) == GAZHDOR_PUT_FIELD);
    for (size_t i = 0; i < sizeof lengths / sizeof lengths[0]; i++) {
        size_t length = from.length;
        memcpy(from.bytes + 32 + 12, &lengths[i], 4);
        WANT(gazhdor_put_message(&from, 1) == GAZHDOR_PUT_LENGTH && from.length == length);
    }
    free(from.bytes);
    free(to.bytes);
}

/* A field whose size isn't a multiple of its type's width is bytes, each 255 where it has no value. */
static void odd_size(void)
{
    gazhdor_field odd = gazhdor_new_field(3, GAZHDOR_TYPE_UINT16Z, 1);
    gazhdor_blocks to = gazhdor_write(NULL, 0, gazhdor_by_realloc, NULL);
    odd.width = 1;
    odd.count = 3;
    odd.kind = GAZHDOR_BYTES;
    PUT(gazhdor_put_header(&to, 0));
    PUT(gazhdor_put_definition(&to, 0, 20, &odd, 1));
    PUT(gazhdor_put_message(&to, 0));
    WANT(memcmp(gazhdor_items(odd, gazhdor_block_at(&to, to.message)).bytes, "\xFF\xFF\xFF", 4) == 0);
    free(to.bytes);
}

/* ---- random calls */

static uint64_t seed = 1;

static uint64_t any(void)
{
    seed ^= seed << 13;
    seed ^= seed >> 7;
    seed ^= seed << 17;
    return seed;
}

/* A number that is often small, and sometimes at an end. */
static uint64_t some(void)
{
    uint64_t n = any();
    return n % 4 == 0 ? n / 4 % 8 : n % 4 == 1 ? n / 4 % 300 : n % 4 == 2 ? n : 0 - n % 8;
}

/* A field that may be there, or has numbers of none; developer fields are those that nothing describes. */
static gazhdor_field any_field(int *is_sure)
{
    static const uint8_t codes[] = { 0, 1, 2, 7, 10, 13, 0x83, 0x84, 0x85, 0x86, 0x88, 0x89, 0x8B, 0x8C, 0x8E, 0x8F, 0x90, 3, 255 };
    gazhdor_field field = gazhdor_new_field((uint32_t)any() % 256, codes[any() % sizeof codes], (size_t)(any() % 8));
    if (any() % 4 == 0)
        field = gazhdor_new_developer((uint32_t)(any() % 2), (uint32_t)any() % 256, GAZHDOR_TYPE_BYTE, (size_t)(any() % 300));
    if (any() % 16 != 0)
        return field;
    *is_sure = 0;
    uint8_t *bytes[] = { &field.number, &field.developer, &field.index, &field.base_type, &field.kind, &field.width, &field.count, &field.decimals };
    for (size_t i = any() % 8; i < 8; i += 1 + any() % 8)
        *bytes[i] = (uint8_t)some();
    field.there = any() % 8 != 0;
    field.scale = (uint32_t)some();
    field.offset = (uint32_t)some();
    field.at = (uint32_t)some();
    field.definition = some();
    field.end = (size_t)some();
    return field;
}

static double any_value(void)
{
    uint64_t bits = any();
    double value;
    memcpy(&value, &bits, 8);
    return any() % 2 == 0 ? value : (double)(int64_t)some() / 8;
}

/* One of the calls that set something. */
static void any_set(gazhdor_blocks *to, gazhdor_field field)
{
    static const char *texts[] = { "", "a", "Zürich", "a text that is longer than most fields of a few bytes are", NULL };
    static const uint8_t items[256];
    uint64_t raw = some();
    size_t k = (size_t)(any() % 4 == 0 ? some() : any() % (field.count + 1u));
    switch (any() % 6) {
    case 0: gazhdor_set_value(to, field, k, any_value()); break;
    case 1:
        if (gazhdor_set_number(to, field, k, raw) == GAZHDOR_PUT) {
            uint64_t back;
            gazhdor_raw(field, gazhdor_block_at(to, to->message), k, &back);
            WANT(back == raw);
        }
        break;
    case 2: gazhdor_set_text(to, field, texts[any() % 5]); break;
    case 3: gazhdor_set_items(to, field, items, (size_t)(any() % 256)); break;
    case 4: gazhdor_set_invalid(to, field); break;
    default: gazhdor_set_offset(to, (uint32_t)some());
    }
}

/* A block of these, in memory of just its length, often with changes; the caller frees it. */
static gazhdor_block any_block(gazhdor_text blocks, int *is_sure)
{
    gazhdor_reader at = gazhdor_read(blocks);
    for (uint64_t skip = any() % 60; skip > 0 && gazhdor_next(&at); skip--)
        ;
    gazhdor_block block = at.block;
    uint8_t *bytes = malloc(block.length + 1);
    WANT(bytes != NULL);
    if (block.length != 0)
        memcpy(bytes, block.bytes, block.length);
    uint8_t *exact = realloc(bytes, block.length == 0 ? 1 : block.length);
    WANT(exact != NULL);
    *is_sure = 0;
    for (uint64_t changes = any() % 5; changes > 0 && block.length != 0; changes--)
        exact[any() % 2 == 0 ? any() % block.length : any() % block.length / 8 * 8] = (uint8_t)some();
    block.bytes = exact;
    if (any() % 8 == 0 && block.length > 8)
        block.length -= any() % 3 * 8;
    return block;
}

/* Some calls in their order, for a file that may become one. */
static void any_calls(gazhdor_blocks *to, gazhdor_text blocks, int *is_sure)
{
    gazhdor_field fields[12] = { any_field(is_sure) };
    gazhdor_block block;
    size_t count = 0;
    for (uint64_t calls = any() % 60; calls > 0; calls--) {
        uint32_t local = (uint32_t)(any() % 8 == 0 ? some() : any() % 4), message = (uint32_t)some();
        switch (any() % 16) {
        case 0: gazhdor_put_header(to, (uint32_t)some()); break;
        case 1: gazhdor_put_end(to); break;
        case 2: case 3: case 4:
            count = any() % 12;
            for (size_t i = 0; i < count; i++)
                fields[i] = any_field(is_sure);
            gazhdor_put_definition(to, local, message == GAZHDOR_MESSAGE_FIELD_DESCRIPTION ? 0 : message, fields, count);
            break;
        case 5: case 6: case 7: gazhdor_put_message(to, local); break;
        case 8: gazhdor_put_description(to, local, gazhdor_new_developer(2, (uint32_t)some(), GAZHDOR_TYPE_SINT16, 3), "own", "unit"); break;
        case 9:
            if (any() % 4 == 0) {
                block = any_block(blocks, is_sure);
                gazhdor_put_copy(to, block);
                free((void *)(uintptr_t)block.bytes);
            }
            break;
        default: any_set(to, fields[count == 0 ? 0 : any() % count]);
        }
    }
}

static long made;

static void any_file(gazhdor_text blocks)
{
    size_t capacity = any() % 2 == 0 ? 0 : 1 + any() % 4000;
    uint8_t *room = capacity == 0 ? NULL : malloc(capacity);
    gazhdor_blocks to = gazhdor_write(room, capacity, room == NULL || any() % 2 == 0 ? gazhdor_by_realloc : NULL, NULL);
    gazhdor_text file = GAZHDOR_NO_TEXT;
    int is_sure = 1;
    if (any() % 4 != 0)
        gazhdor_put_header(&to, 0);
    any_calls(&to, blocks, &is_sure);
    gazhdor_text all = { to.bytes, to.length };
    gazhdor_reader at = gazhdor_read(all);
    while (gazhdor_next(&at))
        ;
    WANT(at.left.length == 0);
    if (to.within)
        gazhdor_put_end(&to);
    gazhdor_answer answer = gazhdor_from_messages(to.bytes, to.length, &file);
    if (is_sure && to.file > 0 && !to.within) {
        WANT(answer.status == GAZHDOR_GOOD && gazhdor_check(file.bytes, file.length).status == GAZHDOR_GOOD);
        all.bytes = to.bytes;
        all.length = to.length;
        to.fault = GAZHDOR_PUT;
        say_the_same(&to, all, 0);
        made++;
    }
    gazhdor_free(file);
    free(to.bytes);
}

int main(int argc, char **argv)
{
    WANT(argc == 3);
    gazhdor_text file = file_of(argv[1], 1 << 20), blocks = GAZHDOR_NO_TEXT;
    WANT(gazhdor_messages(file.bytes, file.length, &blocks).status == GAZHDOR_GOOD);
    copies(blocks, file.bytes, file.length);
    gazhdor_blocks without = without_a_field(blocks);
    say_the_same(&without, blocks, 1);
    free(without.bytes);
    described();
    names_in_definitions();
    wrong_blocks();
    odd_size();
    long rounds = atol(argv[2]);
    for (long i = 0; i < rounds; i++)
        any_file(blocks);
    WANT(made >= rounds / 50);
    gazhdor_free(blocks);
    free_file(file);
    return 0;
}
