/* Tests of gazhdor_messages and of what gazhdor.h reads its blocks with: blocks FILE ROUNDS. A chain of files whose blocks stand here, as
 * docs/BLOCKS.md says them; what the functions say of them; and the functions on blocks with random changes, by random arguments, so
 * that a compiler's checks, or valgrind, see a read outside a block. */
#include "want.h"

/* ---- known blocks */

/* A header of 16 bytes alone; both architectures, a compressed header, speed and distance; a developer field before and after its
 * description. */
static const char chain[] =
    "10 20 00 00 00 00 00 00 2E 46 49 54 B4 AD 41 42 B0 61 "
    "0E 20 00 00 24 00 00 00 2E 46 49 54 9F 6E "
    "40 00 00 14 00 02 FD 04 86 03 01 02  00 1F CA 9A 3B 78 "
    "41 00 01 00 14 02 02 02 84 08 03 0D  A2 09 C4 64 00 10  F0 3B "
    "0E 20 00 00 36 00 00 00 2E 46 49 54 1F BB "
    "40 00 00 CE 00 04 00 01 02 01 01 02 02 01 02 03 03 07  61 00 00 14 00 00 01 05 02 00 "
    "01 34 12  00 00 05 84 6D 6F 00  01 34 12  61 00 00 14 00 00 01 05 02 00  01 34 12  4A 8B";

/* W:N is a number of W bytes, 'TEXT' a text, which a zero ends and more of them fill up. */
static const char expected[] =
    "4:40 1:1 1:16 1:32 1:2 4:1 4:0 8:0  8:0 1:65 1:66 6:0 "
    "4:24 1:4 3:0 4:1 4:0 8:16 "

    "4:32 1:1 1:14 1:32 1:2 4:2 4:36 8:18  8:0 "
    "4:160 1:2 1:0 1:0 1:0 4:2 4:56 8:32  8:0 2:20 2:2 2:0 2:0 'record' "
    "2:56 2:48 1:253 1:0 1:0 1:134 1:0 1:4 1:1 1:0 4:40 4:1 4:0 8:4294967295 'timestamp' 's' "
    "2:56 2:48 1:3 1:0 1:0 1:2 1:0 1:1 1:1 1:0 4:48 4:1 4:0 8:255 'heart_rate' 'bpm' "
    "4:56 1:3 1:1 1:0 1:255 4:2 4:1000000031 8:44  8:0 8:4294967295  4:1000000031 4:0  1:120 7:0 "
    "4:176 1:2 1:1 1:1 1:0 4:2 4:88 8:50  8:1 2:20 2:2 2:0 2:2 'record' "
    "2:56 2:48 1:2 1:0 1:0 1:132 1:0 1:2 1:1 1:1 4:72 4:5 4:500 8:65535 'altitude' 'm' "
    "2:72 2:64 1:8 1:0 1:0 1:13 1:4 1:1 1:3 1:0 4:80 4:1 4:0 8:255 'compressed_speed_distance' '' "
    "4:88 1:3 1:15 1:1 1:2 4:2 4:1000000034 8:62  8:1 8:1000000034 "
    "8:100 8:256 8:18446744073709551615 8:18446744073709551615  2:2500 6:0  1:100 1:0 1:16 5:0 "
    "4:24 1:4 3:0 4:2 4:0 8:68 "

    "4:32 1:1 1:14 1:32 1:2 4:3 4:54 8:70  8:0 "
    "4:312 1:2 1:0 1:0 1:0 4:3 4:72 8:84  8:2 2:206 2:4 2:0 2:0 'field_description' "
    "2:64 2:56 1:0 1:0 1:0 1:2 1:0 1:1 1:1 1:0 4:40 4:1 4:0 8:255 'developer_data_index' '' "
    "2:64 2:56 1:1 1:0 1:0 1:2 1:0 1:1 1:1 1:0 4:48 4:1 4:0 8:255 'field_definition_number' '' "
    "2:64 2:56 1:2 1:0 1:0 1:2 1:0 1:1 1:1 1:0 4:56 4:1 4:0 8:255 'fit_base_type_id' '' "
    "2:56 2:48 1:3 1:0 1:0 1:7 1:3 1:1 1:3 1:0 4:64 4:1 4:0 8:0 'field_name' '' "
    "4:96 1:2 1:1 1:0 1:0 4:3 4:48 8:102  8:3 2:20 2:0 2:1 2:1 'record' "
    "2:48 2:40 1:5 1:1 1:0 1:13 1:4 1:1 1:2 1:0 4:40 4:1 4:0 8:255 '' '' "
    "4:48 1:3 1:0 1:1 1:255 4:3 4:4294967295 8:112  8:3 8:4294967295  1:52 1:18 6:0 "
    "4:72 1:3 1:0 1:0 1:255 4:3 4:4294967295 8:115  8:2 8:4294967295  1:0 7:0  1:5 7:0  1:132 7:0  1:109 1:111 6:0 "
    "4:48 1:3 1:0 1:1 1:255 4:3 4:4294967295 8:122  8:3 8:4294967295  1:52 1:18 6:0 "
    "4:96 1:2 1:1 1:0 1:0 4:3 4:48 8:125  8:4 2:20 2:0 2:1 2:1 'record' "
    "2:48 2:40 1:5 1:1 1:0 1:132 1:0 1:2 1:1 1:0 4:40 4:1 4:0 8:65535 'mo' '' "
    "4:48 1:3 1:0 1:1 1:255 4:3 4:4294967295 8:135  8:4 8:4294967295  2:4660 6:0 "
    "4:24 1:4 3:0 4:3 4:0 8:138";

/* What such texts say, as bytes: two hexadecimal digits without a colon are one byte. */
static size_t bytes_of(const char *text, uint8_t *bytes)
{
    size_t length = 0;
    while (*text != 0) {
        char *end = (char *)(uintptr_t)text + 1;
        if (*text == '\'') {
            while (*++text != '\'')
                bytes[length++] = (uint8_t)*text;
            do
                bytes[length++] = 0;
            while (length % 8 != 0);
            end = (char *)(uintptr_t)text + 1;
        } else if (text[0] != ' ' && text[1] == ':') {
            unsigned long long number = strtoull(text + 2, &end, 10);
            for (int width = text[0] - '0'; width > 0; width--, number >>= 8)
                bytes[length++] = (uint8_t)number;
        } else if (*text != ' ') {
            bytes[length++] = (uint8_t)strtoul(text, &end, 16);
        }
        text = end;
    }
    return length;
}

static void known_blocks(void)
{
    uint8_t files[256], wanted[4096];
    size_t length = bytes_of(chain, files), size = bytes_of(expected, wanted);
    gazhdor_text blocks = GAZHDOR_NO_TEXT;
    gazhdor_answer answer = gazhdor_messages(files, length, &blocks);
    WANT(answer.status == GAZHDOR_GOOD && answer.reason == 0 && answer.place == 0 && answer.files == 0);
    WANT(blocks.length == size && memcmp(blocks.bytes, wanted, size) == 0);
    gazhdor_free(blocks);
    /* Of a file that is refused there are the blocks of what comes before: here of all but the last message and its end. */
    files[length - 5] = 0x02;
    gazhdor_text front = GAZHDOR_NO_TEXT;
    answer = gazhdor_messages(files, length, &front);
    WANT(answer.status == GAZHDOR_REFUSED && answer.reason == GAZHDOR_UNDEFINED_LOCAL && answer.place == length - 5);
    WANT(front.length == size - 72 && memcmp(front.bytes, wanted, front.length) == 0);
    gazhdor_free(front);
}

/* ---- what the functions say of them */

static int is_text(gazhdor_text text, const char *wanted)
{
    return text.bytes != NULL && text.length == strlen(wanted) && memcmp(text.bytes, wanted, text.length) == 0;
}

/* After the last field comes none, nor after that, nor after one of another definition; and no name and no place for an item are no names
 * and no places. */
static void no_more_fields(gazhdor_block definition, gazhdor_field last, gazhdor_field other)
{
    gazhdor_field none = gazhdor_next_field(definition, last);
    for (int i = 0; i < 3; i++, none = gazhdor_next_field(definition, none))
        WANT(!none.there && none.name[0] == 0 && none.unit[0] == 0 && none.definition == GAZHDOR_NO_DEFINITION);
    WANT(other.there && other.definition != definition.number && !gazhdor_next_field(definition, other).there);
    WANT(gazhdor_named(definition, last.name).there && !gazhdor_named(definition, NULL).there);
}

/* The messages of the second file. */
static void numbers(gazhdor_reader *at)
{
    uint64_t raw;
    for (int i = 0; i < 4; i++)
        WANT(gazhdor_next(at));
    WANT(at->message == 20 && at->block.file == 2 && at->block.place == 44 && at->block.number == 0);
    WANT(gazhdor_time(at->block) == 1000000031 && gazhdor_header_time(at->block) == GAZHDOR_NO_TIME);
    WANT(isnan(gazhdor_amount(at->block, GAZHDOR_SPEED)));
    gazhdor_field heart = gazhdor_named(at->definition, "heart_rate");
    WANT(heart.there && heart.number == 3 && heart.count == 1 && strcmp(heart.unit, "bpm") == 0);
    WANT(gazhdor_value(heart, at->block, 0) == 120 && isnan(gazhdor_value(heart, at->block, 1)));
    WANT(gazhdor_raw(heart, at->block, 0, &raw) && raw == 120 && !gazhdor_raw(heart, at->block, 1, &raw) && raw == 0);
    WANT(gazhdor_raw(heart, at->block, 0, NULL) && !gazhdor_raw(heart, at->block, 1, NULL));
    WANT(gazhdor_string(heart, at->block).bytes == NULL && gazhdor_items(heart, at->block).length == 1);
    WANT(gazhdor_value(gazhdor_numbered(at->definition, 253), at->block, 0) == 1000000031);
    WANT(!gazhdor_named(at->definition, "power").there && isnan(gazhdor_value(gazhdor_named(at->definition, "power"), at->block, 0)));
    WANT(gazhdor_next(at) && at->message == GAZHDOR_NO_MESSAGE && at->definition.bytes == at->block.bytes);
    WANT(strcmp(gazhdor_message_name(at->definition), "record") == 0);
    WANT(gazhdor_next(at) && at->message == 20 && at->block.number == 1);
    WANT(isnan(gazhdor_value(heart, at->block, 0)));
    gazhdor_field altitude = gazhdor_numbered(at->definition, 2), both = gazhdor_next_field(at->definition, altitude);
    WANT(gazhdor_value(altitude, at->block, 0) == 0 && gazhdor_raw(altitude, at->block, 0, &raw) && raw == 2500);
    WANT(altitude.scale == 5 && altitude.offset == 500 && altitude.decimals == 1 && altitude.invalid == 0xFFFF);
    WANT(both.kind == GAZHDOR_BYTES && isnan(gazhdor_value(both, at->block, 0)));
    no_more_fields(at->definition, both, heart);
    both.invalid = 0x10; /* Of bytes no single one says that there is no value. */
    WANT(gazhdor_raw(both, at->block, 2, &raw) && raw == 0x10 && gazhdor_items(both, at->block).length == 3);
    WANT(gazhdor_time(at->block) == 1000000034 && gazhdor_header_time(at->block) == 1000000034);
    WANT(gazhdor_amount(at->block, GAZHDOR_SPEED) == 1 && gazhdor_amount(at->block, GAZHDOR_DISTANCE) == 16);
    WANT(isnan(gazhdor_amount(at->block, GAZHDOR_CYCLES)) && isnan(gazhdor_amount(at->block, 4)));
}

/* The developer field of the third file. */
static void developer(gazhdor_reader *at)
{
    static const int messages[] = { 20, 206, 20, 20 };
    for (int i = 0; i < 4; i++) {
        while (gazhdor_next(at) && at->message == GAZHDOR_NO_MESSAGE)
            WANT(gazhdor_time(at->block) == GAZHDOR_NO_TIME);
        WANT(at->message == (uint32_t)messages[i] && at->block.file == 3 && gazhdor_time(at->block) == GAZHDOR_NO_TIME);
        gazhdor_field own = gazhdor_developer(at->definition, 0, 5), name = gazhdor_named(at->definition, "field_name");
        if (messages[i] == 206) {
            WANT(is_text(gazhdor_string(name, at->block), "mo") && isnan(gazhdor_value(name, at->block, 0)));
            continue;
        }
        WANT(own.there && own.developer && !gazhdor_developer(at->definition, 1, 5).there && !gazhdor_numbered(at->definition, 5).there);
        WANT(gazhdor_named(at->definition, "mo").there == (i == 3) && !gazhdor_named(at->definition, "").there);
        WANT(i == 3 ? gazhdor_value(own, at->block, 0) == 4660 : isnan(gazhdor_value(own, at->block, 0)));
    }
    WANT(gazhdor_next(at) && at->block.kind == GAZHDOR_FILE_END && at->definition.bytes == NULL);
    WANT(!gazhdor_next(at) && at->block.bytes == NULL && !gazhdor_next(at));
}

/* What doesn't belong together gives nothing. */
static void changed_values(gazhdor_text blocks, uint8_t *bytes)
{
    gazhdor_reader at = gazhdor_read(blocks);
    while (at.message != 20)
        WANT(gazhdor_next(&at));
    gazhdor_field time = gazhdor_first_field(at.definition);
    size_t place = (size_t)(at.block.bytes - bytes);
    WANT(gazhdor_value(time, at.block, 0) == 1000000031 && !gazhdor_developer(at.definition, 0, 253).there);
    WANT(gazhdor_items(time, at.definition).bytes == NULL && gazhdor_header_time(at.definition) == GAZHDOR_NO_TIME);
    gazhdor_block other = at.definition;
    other.kind = GAZHDOR_MESSAGE;
    WANT(gazhdor_message_name(at.block)[0] == 0 && !gazhdor_first_field(other).there && !gazhdor_field_at(at.definition, 49).there);
    time.scale = 0;
    WANT(isnan(gazhdor_value(time, at.block, 0)));
    time.scale = 1;
    time.kind = GAZHDOR_BYTES;
    WANT(isnan(gazhdor_value(time, at.block, 0)));
    time.kind = GAZHDOR_FLOAT;
    WANT(!isnan(gazhdor_value(time, at.block, 0)));
    time.width = 2;
    WANT(isnan(gazhdor_value(time, at.block, 0)));
    bytes[place + GAZHDOR_AT_MESSAGE_BITS] |= GAZHDOR_TOLD_SPEED << GAZHDOR_SPEED;
    WANT(isnan(gazhdor_amount(at.block, GAZHDOR_SPEED)));
    bytes[at.definition.bytes - bytes + 5] = 4;
    WANT(isnan(gazhdor_amount(at.definition, GAZHDOR_SPEED)));
    bytes[at.definition.bytes - bytes + 5] = 0;
}

/* Nor does a message whose definition hasn't come; and what is no block ends them. */
static void no_blocks(gazhdor_text blocks, uint8_t *bytes)
{
    static const uint8_t lengths[] = { 0, 16, 32, 57, 255 };
    gazhdor_reader at = gazhdor_read(blocks);
    while (at.message != 20)
        WANT(gazhdor_next(&at));
    size_t place = (size_t)(at.block.bytes - bytes);
    bytes[place + GAZHDOR_AT_MESSAGE_DEFINITION] = 9;
    at = gazhdor_read(blocks);
    while (at.block.kind != GAZHDOR_MESSAGE)
        WANT(gazhdor_next(&at));
    WANT(at.message == GAZHDOR_UNKNOWN_MESSAGE && at.definition.bytes == NULL && at.unknown == 1);
    blocks.bytes += place;
    blocks.length = 248;
    at = gazhdor_read(blocks);
    WANT(gazhdor_next(&at) && at.message == GAZHDOR_UNKNOWN_MESSAGE && at.definition.bytes == NULL && at.block.number == 9);
    for (size_t i = 0; i < sizeof lengths; i++) {
        bytes[place] = lengths[i];
        at = gazhdor_read(blocks);
        WANT(!gazhdor_next(&at));
    }
    gazhdor_text none = { NULL, 0 };
    at = gazhdor_read(none);
    WANT(!gazhdor_next(&at));
}

static void known_values(void)
{
    static uint8_t bytes[4096];
    gazhdor_text blocks = { bytes, bytes_of(expected, bytes) };
    gazhdor_reader at = gazhdor_read(blocks);
    WANT(at.message == GAZHDOR_NO_MESSAGE && at.block.bytes == NULL);
    WANT(gazhdor_next(&at) && at.block.kind == GAZHDOR_FILE_HEADER && at.block.length == 40 && at.block.file == 1);
    WANT(gazhdor_load(at.block, 32, 2) == 0x4241 && gazhdor_load(at.block, 33, 8) == 0 && gazhdor_load(at.block, 40, 1) == 0);
    WANT(gazhdor_load(at.block, 0, 9) == 0 && gazhdor_load(at.block, UINT64_MAX, 8) == 0);
    numbers(&at);
    developer(&at);
    changed_values(blocks, bytes);
    no_blocks(blocks, bytes);
}

/* ---- blocks with changes, in memory of just their length */

static uint64_t seed = 1;
static volatile double sink;

static uint64_t any(void)
{
    seed ^= seed << 13;
    seed ^= seed >> 7;
    seed ^= seed << 17;
    return seed;
}

/* A number that is often small, and sometimes at an end. */
static uint64_t some(void)
{
    uint64_t n = any();
    return n % 4 == 0 ? n % 8 : n % 4 == 1 ? n % 300 : n % 4 == 2 ? n : 0 - n % 8;
}

/* A field with numbers of no block. */
static gazhdor_field any_field(gazhdor_block message)
{
    gazhdor_field field = gazhdor_numbered(message, 0);
    field.there = 1;
    field.definition = any() % 4 == 0 ? any() : message.number;
    field.at = (uint32_t)(any() % 4 == 0 ? some() : some() % 100);
    field.scale = (uint32_t)some();
    field.offset = (uint32_t)some();
    field.kind = (uint8_t)(some() % 6);
    field.width = (uint8_t)(any() % 4 == 0 ? some() : 1u << any() % 4);
    field.count = (uint8_t)some();
    field.end = (size_t)some();
    return field;
}

static void read_field(gazhdor_field field, gazhdor_block message)
{
    uint64_t raw;
    gazhdor_text text = gazhdor_string(field, message);
    sink += (double)strlen(field.name) + (double)strlen(field.unit);
    for (size_t i = 0; i < text.length; i++)
        sink += text.bytes[i];
    text = gazhdor_items(field, message);
    for (size_t i = 0; i < text.length; i++)
        sink += text.bytes[i];
    for (size_t k = 0; k < 3; k++)
        sink += gazhdor_raw(field, message, k, &raw) + gazhdor_value(field, message, k);
    sink += gazhdor_value(field, message, (size_t)some()) + gazhdor_value(field, message, field.count - (size_t)1);
}

/* All functions on these two, which may be any blocks. */
static void read_both(gazhdor_block definition, gazhdor_block message)
{
    sink += (double)strlen(gazhdor_message_name(definition)) + gazhdor_amount(message, (uint32_t)some()) + gazhdor_time(message)
        + gazhdor_header_time(message) + (double)gazhdor_load(message, some(), (size_t)some());
    for (uint32_t amount = 0; amount < 4; amount++)
        sink += gazhdor_amount(message, amount);
    for (gazhdor_field f = gazhdor_first_field(definition); f.there; f = gazhdor_next_field(definition, f))
        read_field(f, message);
    read_field(gazhdor_named(definition, "altitude"), message);
    read_field(gazhdor_numbered(definition, (uint32_t)some()), message);
    read_field(gazhdor_developer(definition, 0, (uint32_t)some()), message);
    read_field(gazhdor_next_field(definition, any_field(message)), message);
    read_field(any_field(message), message);
}

/* A block in memory of its own, of just its length. */
static gazhdor_block alone(gazhdor_block block)
{
    uint8_t *bytes = malloc(block.length + (block.length == 0));
    WANT(bytes != NULL);
    if (block.bytes != NULL)
        memcpy(bytes, block.bytes, block.length);
    block.bytes = bytes;
    return block;
}

static void read_all(gazhdor_text blocks)
{
    gazhdor_reader at = gazhdor_read(blocks);
    gazhdor_block last = at.block;
    while (gazhdor_next(&at)) {
        gazhdor_block definition = alone(any() % 8 == 0 ? last : at.definition), message = alone(at.block);
        read_both(definition, message);
        free((void *)(uintptr_t)definition.bytes);
        free((void *)(uintptr_t)message.bytes);
        last = any() % 2 == 0 ? at.block : last;
    }
}

/* A few blocks from one of them on, with some bytes changed, mostly where lengths, places and counts are. */
static void torn(gazhdor_text blocks)
{
    gazhdor_reader at = gazhdor_read(blocks);
    for (uint64_t skip = any() % 40; skip > 0 && gazhdor_next(&at); skip--)
        ;
    gazhdor_block part = { at.left.bytes, at.left.length < 2000 ? at.left.length : 2000 - any() % 64, 0, 0, 0, 0 };
    part = alone(part);
    uint8_t *bytes = (uint8_t *)(uintptr_t)part.bytes;
    if (any() % 4 == 0 && part.length > 32)
        memset(bytes + any() % (part.length - 32), 'x', 1 + any() % 32);
    for (uint64_t changes = any() % 12; changes > 0 && part.length != 0; changes--) {
        size_t place = (size_t)(any() % part.length);
        bytes[any() % 2 == 0 ? place : place / 8 * 8] = (uint8_t)some();
    }
    gazhdor_text changed = { part.bytes, part.length };
    read_all(changed);
    free(bytes);
}

int main(int argc, char **argv)
{
    WANT(argc == 3);
    known_values();
    known_blocks();
    gazhdor_text file = file_of(argv[1], 1 << 20), blocks = GAZHDOR_NO_TEXT;
    WANT(gazhdor_messages(file.bytes, file.length, &blocks).status == GAZHDOR_GOOD);
    read_all(blocks);
    for (long rounds = atol(argv[2]); rounds > 0; rounds--)
        torn(blocks);
    gazhdor_free(blocks);
    free_file(file);
    return 0;
}
