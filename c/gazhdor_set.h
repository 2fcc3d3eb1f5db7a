/* What sets the values of the message that was written last: the other half of gazhdor_write.h. gazhdor.h includes it.
 *
 * Each takes a field of the message's definition: one of those that gazhdor_put_definition was given, or, for a message that
 * gazhdor_put_block has copied, a field of the definition that was read. It answers an enum gazhdor_put, and with all but GAZHDOR_PUT the
 * message is what it was. gazhdor_set_invalid, of gazhdor_write.h, says that a field has no value. */
#ifndef GAZHDOR_SET_H
#define GAZHDOR_SET_H

#include "gazhdor.h"

#ifdef __cplusplus
extern "C" {
#endif

/* Sets item k of a field, counted from 0, to what gazhdor_raw gives of it: of a signed field an int64_t, of a float its bits, of text and
 * bytes a byte. It may be the one that stands for no value. */
static inline uint32_t gazhdor_set_number(gazhdor_blocks *to, gazhdor_field field, size_t k, uint64_t raw)
{
    uint8_t *items = gazhdor_place_of(to, field);
    if (items == GAZHDOR_NULL || k >= field.count)
        return GAZHDOR_PUT_FIELD;
    uint64_t half = GAZHDOR_CAST(uint64_t, 1) << (8 * field.width - 1), most = half - 1 + half;
    if ((field.kind == GAZHDOR_SIGNED ? raw + half : raw) > most)
        return GAZHDOR_PUT_RANGE;
    gazhdor_store(items + k * field.width, raw, field.width);
    return GAZHDOR_PUT;
}

/* A whole number with a sign, or none where it has more than 64 bits. */
typedef struct gazhdor_whole {
    int there;
    int below; /* 1 where it is less than 0 */
    uint64_t size;
} gazhdor_whole;

/* size * scale / 2^shift as a whole part of at most 96 bits, `high` and `low`, and the first 64 bits after the point, of which the last
 * is 1 where any bit after them is. */
static inline void gazhdor_multiply(uint64_t size, uint32_t scale, uint32_t shift, uint64_t *high, uint64_t *low, uint64_t *part)
{
    uint64_t lower = (size & 0xFFFFFFFFu) * scale, upper = (size >> 32) * scale + (lower >> 32);
    *high = upper >> 32;
    *low = upper << 32 | (lower & 0xFFFFFFFFu);
    *part = 0;
    for (shift = shift > 128 ? 128 : shift; shift > 0;) {
        uint32_t step = shift > 32 ? 32 : shift;
        *part = *low << (64 - step) | *part >> step | (*part << (64 - step) != 0);
        *low = *high << (64 - step) | *low >> step;
        *high >>= step;
        shift -= step;
    }
}

/* (value + offset) * scale, worked out exactly, and then rounded to the nearest whole number, halves away from zero. */
static inline gazhdor_whole gazhdor_steps(double value, uint32_t scale, uint32_t offset)
{
    const uint64_t half = GAZHDOR_CAST(uint64_t, 1) << 63;
    gazhdor_whole steps = { 0, 0, 0 };
    uint64_t bits, high, low, part, more = GAZHDOR_CAST(uint64_t, offset) * scale;
    memcpy(&bits, &value, 8);
    uint32_t power = GAZHDOR_CAST(uint32_t, bits >> 52 & 0x7FF);
    /* This takes 0 and the smallest numbers for others below 2^-1021, which are no nearer to a half. */
    uint64_t size = (bits & ((half >> 11) - 1)) | half >> 11;
    if (power > 1075 + 11)
        return steps;
    gazhdor_multiply(power > 1075 ? size << (power - 1075) : size, scale, power > 1075 ? 0 : 1075 - power, &high, &low, &part);
    if (bits >= half && high == 0 && low < more) {
        steps.size = more - low - (part > half);
        steps.there = 1;
        return steps;
    }
    int minus = bits >= half;
    uint64_t sum = minus ? low - more : low + more;
    high += minus ? 0 - GAZHDOR_CAST(uint64_t, low < more) : sum < low;
    steps.size = sum + (part >= half);
    steps.there = high == 0 && steps.size >= sum;
    steps.below = minus && steps.size != 0;
    return steps;
}

/* Sets an item of a float; a float of 4 bytes to the nearest. */
static inline uint32_t gazhdor_set_float(gazhdor_blocks *to, gazhdor_field field, size_t k, double value)
{
    /* From here on a number is nearer to 2^128 than to the greatest float of 4 bytes. */
    const double limit = field.width == 4 ? 340282356779733661637539395458142568448.0 : HUGE_VAL;
    double number = (field.offset == 0 ? value : value + field.offset) * field.scale;
    int is_finite = value != HUGE_VAL && value != -HUGE_VAL;
    uint64_t bits = 0;
    if (field.width != 4 && field.width != 8)
        return GAZHDOR_PUT_KIND;
    if (is_finite && (number >= limit || number <= -limit))
        return GAZHDOR_PUT_RANGE;
    float few = GAZHDOR_CAST(float, field.width == 4 ? number : 0);
    if (field.width == 4)
        memcpy(&bits, &few, 4);
    else
        memcpy(&bits, &number, 8);
    return gazhdor_set_number(to, field, k, bits);
}

/* Sets item k of a field, counted from 0, to the one nearest to this number in the field's unit, by exact arithmetic; halfway between two
 * to the one away from zero; of NAN to the one that stands for no value. GAZHDOR_PUT_RANGE where that is too small or too large for an item, or stands for no value. What gazhdor_value
 * gives of an item sets it again, where item and item - offset * scale have at most 52 bits. */
static inline uint32_t gazhdor_set_value(gazhdor_blocks *to, gazhdor_field field, size_t k, double value)
{
    if (gazhdor_place_of(to, field) == GAZHDOR_NULL || k >= field.count)
        return GAZHDOR_PUT_FIELD;
    if (field.kind > GAZHDOR_FLOAT)
        return GAZHDOR_PUT_KIND;
    if (value != value)
        return gazhdor_set_number(to, field, k, field.invalid);
    if (field.scale == 0)
        return GAZHDOR_PUT_RANGE;
    if (field.kind == GAZHDOR_FLOAT)
        return gazhdor_set_float(to, field, k, value);
    gazhdor_whole steps = gazhdor_steps(value, field.scale, field.offset);
    uint64_t raw = steps.below ? 0 - steps.size : steps.size, sign = raw >> 63;
    int is_in = field.kind == GAZHDOR_SIGNED ? sign == GAZHDOR_CAST(uint64_t, steps.below) : !steps.below;
    if (!steps.there || !is_in || raw == field.invalid)
        return GAZHDOR_PUT_RANGE;
    return gazhdor_set_number(to, field, k, raw);
}

/* Sets a text, of UTF-8, which a zero ends; GAZHDOR_PUT_LENGTH where the field has no room for it and its zero. NULL is "". */
static inline uint32_t gazhdor_set_text(gazhdor_blocks *to, gazhdor_field field, const char *text)
{
    uint8_t *items = gazhdor_place_of(to, field);
    size_t length = text == GAZHDOR_NULL ? 0 : strlen(text), size = GAZHDOR_CAST(size_t, field.count) * field.width;
    if (items == GAZHDOR_NULL)
        return GAZHDOR_PUT_FIELD;
    if (field.kind != GAZHDOR_STRING)
        return GAZHDOR_PUT_KIND;
    if (length >= size)
        return GAZHDOR_PUT_LENGTH;
    memset(items, 0, size);
    if (length != 0)
        memcpy(items, text, length);
    return GAZHDOR_PUT;
}

/* Sets all items of a field to what gazhdor_items gives of them; GAZHDOR_PUT_LENGTH where they have another length. */
static inline uint32_t gazhdor_set_items(gazhdor_blocks *to, gazhdor_field field, const uint8_t *bytes, size_t length)
{
    uint8_t *items = gazhdor_place_of(to, field);
    if (items == GAZHDOR_NULL)
        return GAZHDOR_PUT_FIELD;
    if (length != GAZHDOR_CAST(size_t, field.count) * field.width)
        return GAZHDOR_PUT_LENGTH;
    if (length != 0)
        memmove(items, bytes, length);
    return GAZHDOR_PUT;
}

/* Gives the message a compressed header with this time offset, of 0 to 31 seconds, which local message types 0 to 3 may have; or with
 * GAZHDOR_NO_OFFSET a normal one, as each message that is made has. */
static inline uint32_t gazhdor_set_offset(gazhdor_blocks *to, uint32_t seconds)
{
    if (gazhdor_block_at(to, to->message).kind != GAZHDOR_MESSAGE)
        return GAZHDOR_PUT_ORDER;
    if (seconds > 31 && seconds != GAZHDOR_NO_OFFSET)
        return GAZHDOR_PUT_RANGE;
    if (to->bytes[to->message + GAZHDOR_AT_MESSAGE_LOCAL] > 3 && seconds != GAZHDOR_NO_OFFSET)
        return GAZHDOR_PUT_LOCAL;
    to->bytes[to->message + GAZHDOR_AT_MESSAGE_OFFSET] = GAZHDOR_CAST(uint8_t, seconds);
    return GAZHDOR_PUT;
}

/* Describes a developer field for gazhdor_from_messages: a definition of this local message type, and a field_description message with its
 * numbers, its base type, this name and this unit, of at most 254 bytes each. */
static inline uint32_t gazhdor_put_description(gazhdor_blocks *to, uint32_t local, gazhdor_field own, const char *name, const char *unit)
{
    gazhdor_field fields[5] = { gazhdor_new_field(0, GAZHDOR_TYPE_UINT8, 1), gazhdor_new_field(1, GAZHDOR_TYPE_UINT8, 1),
        gazhdor_new_field(2, GAZHDOR_TYPE_UINT8, 1), gazhdor_new_field(3, GAZHDOR_TYPE_STRING, name == GAZHDOR_NULL ? 1 : strlen(name) + 1),
        gazhdor_new_field(8, GAZHDOR_TYPE_STRING, unit == GAZHDOR_NULL ? 1 : strlen(unit) + 1) };
    gazhdor_blocks before = *to;
    if (!own.there || !own.developer)
        return gazhdor_missed(to, GAZHDOR_PUT_FIELD);
    uint32_t answer = gazhdor_put_definition(to, local, GAZHDOR_MESSAGE_FIELD_DESCRIPTION, fields, 5);
    if (answer == GAZHDOR_PUT)
        answer = gazhdor_put_message(to, local);
    if (answer != GAZHDOR_PUT) {
        to->length = before.length;
        to->definitions = before.definitions;
        memcpy(to->known, before.known, sizeof to->known);
        return answer;
    }
    gazhdor_set_number(to, fields[0], 0, own.index);
    gazhdor_set_number(to, fields[1], 0, own.number);
    gazhdor_set_number(to, fields[2], 0, own.base_type);
    gazhdor_set_text(to, fields[3], name);
    gazhdor_set_text(to, fields[4], unit);
    return GAZHDOR_PUT;
}

/* What an answer says, as "there is no room for the block"; "unknown" for other numbers. */
static inline const char *gazhdor_put_text(uint32_t answer)
{
    switch (answer) {
    case GAZHDOR_PUT: return "it was done";
    case GAZHDOR_PUT_FULL: return "there is no room for the block";
    case GAZHDOR_PUT_ORDER: return "such a block can't stand here, or the last one is no message";
    case GAZHDOR_PUT_LOCAL: return "no such local message type is defined, or it has no time offset";
    case GAZHDOR_PUT_COUNT: return "there are too many fields, or one comes after a developer field";
    case GAZHDOR_PUT_FIELD: return "there is no such field or item";
    case GAZHDOR_PUT_LENGTH: return "the length isn't that which has room there";
    case GAZHDOR_PUT_KIND: return "the field has values of another kind";
    case GAZHDOR_PUT_RANGE: return "the number is too small or too large, or stands for no value";
    case GAZHDOR_PUT_NAN: return "the value isn't a number";
    default: return "unknown";
    }
}

#ifdef __cplusplus
}
#endif

#endif
