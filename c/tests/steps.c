/* Tests of gazhdor_set_value: steps SCALE OFFSET .. <CASES. That what gazhdor_value gives of an item sets it again, of each item of one and
 * two bytes and many of four and eight, by each scale and offset; and that each of the cases of steps.py is answered as it says. */
#include "want.h"

#include <inttypes.h>

/* A message with one item; gives its field. */
static gazhdor_field message_of(gazhdor_blocks *to, uint8_t *room, size_t length, uint32_t type, uint32_t scale, uint32_t offset)
{
    gazhdor_field field = gazhdor_scaled(gazhdor_new_field(0, type, 1), scale, offset);
    *to = gazhdor_write(room, length, NULL, NULL);
    gazhdor_put_header(to, 0);
    gazhdor_put_definition(to, 0, 0, &field, 1);
    WANT(gazhdor_put_message(to, 0) == GAZHDOR_PUT);
    return field;
}

static uint64_t item(const gazhdor_blocks *to, gazhdor_field field)
{
    uint64_t raw;
    gazhdor_raw(field, gazhdor_block_at(to, to->message), 0, &raw);
    return raw;
}

/* Whether an item comes back by its value, which is NAN of one that stands for no value. */
static int comes_back(gazhdor_blocks *to, gazhdor_field field, uint64_t raw)
{
    if (gazhdor_set_number(to, field, 0, raw) != GAZHDOR_PUT)
        return 0;
    double value = gazhdor_value(field, gazhdor_block_at(to, to->message), 0);
    gazhdor_set_number(to, field, 0, 1);
    return gazhdor_set_value(to, field, 0, value) == GAZHDOR_PUT && item(to, field) == raw;
}

static void round_trips(uint32_t scale, uint32_t offset)
{
    static const uint8_t whole[] = { 0x00, 0x01, 0x02, 0x0A, 0x83, 0x84, 0x8B, 0x85, 0x86, 0x8C, 0x8E, 0x8F, 0x90 };
    uint8_t room[256];
    gazhdor_blocks to;
    for (size_t i = 0; i < sizeof whole; i++) {
        gazhdor_field field = message_of(&to, room, sizeof room, whole[i], scale, offset);
        uint64_t sign = field.kind == GAZHDOR_SIGNED;
        /* All items of two bytes, and a hundred thousand of four; of eight bytes as many of 52 bits. */
        uint64_t count = field.width == 8 ? UINT64_C(1) << 52 : UINT64_C(1) << 8 * field.width, step = count >> 17 | 1;
        for (uint64_t k = 0; k < count; k += step)
            WANT(comes_back(&to, field, k - sign * (count / 2)));
        WANT(comes_back(&to, field, count - 1 - sign * (count / 2)) && comes_back(&to, field, field.invalid));
    }
}

/* Each line has a base type, scale, offset, the bits of a value and the item that it sets; or `-` where there is none. */
static void cases(void)
{
    uint32_t type, scale, offset;
    uint64_t bits, count = 0;
    char wanted[24];
    for (; scanf("%" SCNu32 " %" SCNu32 " %" SCNu32 " %" SCNx64 " %23s", &type, &scale, &offset, &bits, wanted) == 5; count++) {
        uint8_t room[256];
        gazhdor_blocks to;
        gazhdor_field field = message_of(&to, room, sizeof room, type, scale, offset);
        double value;
        memcpy(&value, &bits, 8);
        uint32_t answer = gazhdor_set_value(&to, field, 0, value);
        uint64_t raw = item(&to, field), item_wanted = wanted[0] == '-' ? field.invalid : strtoull(wanted, NULL, 16);
        if (answer != (wanted[0] == '-' ? GAZHDOR_PUT_RANGE : GAZHDOR_PUT) || raw != item_wanted) {
            fprintf(stderr, "type %" PRIu32 ", scale %" PRIu32 ", offset %" PRIu32 ", %a: answer %" PRIu32 ", item %" PRIx64 ", wanted %s\n", type,
                scale, offset, value, answer, raw, wanted);
            exit(1);
        }
    }
    WANT(count > 50000 && feof(stdin));
}

int main(int argc, char **argv)
{
    WANT(argc > 2 && argc % 2 == 1);
    for (int i = 1; i < argc; i += 2)
        round_trips((uint32_t)atol(argv[i]), (uint32_t)atol(argv[i + 1]));
    cases();
    return 0;
}
