/* Tests of what gazhdor_value says of floating point numbers: of records with a float32 as speed and a float64 as altitude, in both byte
 * orders, and with whole numbers, which alone the profile scales. */
#include "want.h"

/* 5.0 is 40A00000 as a float32, 454.25 is 407C640000000000 as a float64; 5000 thousandths, and (454.2 + 500) * 5. All bits are no value. */
static const uint8_t records[] = {
    0x40, 0, 0, 20, 0, 2, 6, 4, 0x88, 2, 8, 0x89,
    0, 0, 0, 0xA0, 0x40, 0, 0, 0, 0, 0, 0x64, 0x7C, 0x40,
    0, 0xFF, 0xFF, 0xFF, 0xFF, 0xFF, 0xFF, 0xFF, 0xFF, 0xFF, 0xFF, 0xFF, 0xFF,
    0x41, 0, 1, 0, 20, 2, 6, 4, 0x88, 2, 8, 0x89,
    1, 0x40, 0xA0, 0, 0, 0x40, 0x7C, 0x64, 0, 0, 0, 0, 0,
    0x42, 0, 0, 20, 0, 2, 6, 2, 0x84, 2, 2, 0x84,
    2, 0x88, 0x13, 0xA3, 0x12,
};

static size_t make_file(uint8_t *bytes)
{
    const uint8_t head[] = { 14, 0x20, 0, 0, sizeof records, 0, 0, 0, '.', 'F', 'I', 'T' };
    memcpy(bytes, head, sizeof head);
    memcpy(bytes + with_checksum(bytes, sizeof head), records, sizeof records);
    return with_checksum(bytes, 14 + sizeof records);
}

/* What a message says of its speed and its altitude, and whether these are scaled. */
static void want(const gazhdor_reader *at, uint32_t speeds, uint32_t altitudes, double speed, double altitude)
{
    gazhdor_field first = gazhdor_named(at->definition, "speed"), second = gazhdor_named(at->definition, "altitude");
    double a = gazhdor_value(first, at->block, 0), b = gazhdor_value(second, at->block, 0);
    WANT(first.scale == speeds && first.offset == 0 && first.decimals == (speeds == 1 ? 0 : 3));
    WANT(second.scale == altitudes && second.offset == (altitudes == 1 ? 0 : 500) && second.decimals == (altitudes == 1 ? 0 : 1));
    WANT(strcmp(first.unit, "m/s") == 0 && strcmp(second.unit, "m") == 0);
    WANT(isnan(speed) ? isnan(a) && isnan(b) : a == speed && b == altitude);
}

int main(void)
{
    uint8_t bytes[256];
    gazhdor_text blocks = GAZHDOR_NO_TEXT;
    WANT(gazhdor_messages(bytes, make_file(bytes), &blocks).status == GAZHDOR_GOOD);
    gazhdor_reader at = gazhdor_read(blocks);
    int count = 0;
    while (gazhdor_next(&at)) {
        if (at.message == GAZHDOR_NO_MESSAGE)
            continue;
        int whole = gazhdor_named(at.definition, "speed").kind == GAZHDOR_UNSIGNED;
        want(&at, whole ? 1000 : 1, whole ? 5 : 1, count == 1 ? NAN : 5.0, whole ? 454.2 : 454.25);
        count++;
    }
    WANT(count == 4);
    gazhdor_free(blocks);
    return 0;
}
