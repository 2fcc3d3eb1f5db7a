/* What reads blocks: the functions that gazhdor_blocks.h declares. beside.h includes this, so each library has them, and a mistake here is
 * mended without compiling anew what calls them. */
#include "gazhdor.h"

gazhdor_block gazhdor_first(gazhdor_text blocks)
{
    gazhdor_block none = { NULL, 0, 0, 0, 0, 0 }, block = { blocks.bytes, blocks.length, 0, 0, 0, 0 };
    block.length = (size_t)gazhdor_load(block, GAZHDOR_AT_LENGTH, 4);
    if (block.length > blocks.length || block.length < GAZHDOR_LEAST_BLOCK || block.length % 8 != 0)
        return none;
    block.kind = block.bytes[GAZHDOR_AT_KIND];
    block.file = (uint32_t)gazhdor_load(block, GAZHDOR_AT_FILE, 4);
    block.place = gazhdor_load(block, GAZHDOR_AT_PLACE, 8);
    if (block.kind == GAZHDOR_DEFINITION || block.kind == GAZHDOR_MESSAGE) {
        block.number = gazhdor_load(block, GAZHDOR_AT_DEFINITION_NUMBER, 8);
        if (block.length < GAZHDOR_AT_DEFINITION_NAME)
            return none;
    }
    return block;
}

int gazhdor_next(gazhdor_reader *reader)
{
    gazhdor_block none = { NULL, 0, 0, 0, 0, 0 }, block = gazhdor_first(reader->left);
    reader->block = block;
    reader->definition = none;
    reader->message = GAZHDOR_NO_MESSAGE;
    if (block.bytes == NULL)
        return 0;
    reader->left.bytes += block.length;
    reader->left.length -= block.length;
    if (block.kind == GAZHDOR_DEFINITION)
        reader->definition = reader->known[block.bytes[GAZHDOR_AT_DEFINITION_LOCAL] & 15] = block;
    const gazhdor_block *known = &reader->known[block.bytes[GAZHDOR_AT_MESSAGE_LOCAL] & 15];
    if (block.kind == GAZHDOR_MESSAGE && known->number == block.number)
        reader->definition = *known;
    if (block.kind != GAZHDOR_MESSAGE)
        return 1;
    if (reader->definition.bytes == NULL)
        reader->unknown++;
    reader->message = reader->definition.bytes == NULL ? GAZHDOR_UNKNOWN_MESSAGE
        : (uint32_t)gazhdor_load(reader->definition, GAZHDOR_AT_DEFINITION_MESSAGE, 2);
    return 1;
}

int gazhdor_keep(gazhdor_reader *reader)
{
    int all = 1;
    while (gazhdor_next(reader))
        ;
    for (size_t i = 0; i < 16; i++) {
        gazhdor_block *known = &reader->known[i];
        if (known->bytes == reader->kept[i])
            continue;
        uint8_t *copy = malloc(known->length);
        all &= copy != NULL;
        if (copy != NULL)
            memcpy(copy, known->bytes, known->length);
        else
            memset(known, 0, sizeof *known);
        free(reader->kept[i]);
        known->bytes = reader->kept[i] = copy;
    }
    gazhdor_text none = GAZHDOR_NO_TEXT;
    reader->left = none;
    return all;
}

void gazhdor_forget(gazhdor_reader *reader)
{
    for (size_t i = 0; i < 16; i++)
        free(reader->kept[i]);
    memset(reader, 0, sizeof *reader);
    reader->message = GAZHDOR_NO_MESSAGE;
}

const char *gazhdor_name_at(gazhdor_block block, size_t at)
{
    return at < block.length && block.bytes[block.length - 1] == 0 ? (const char *)block.bytes + at : "";
}

const char *gazhdor_message_name(gazhdor_block definition)
{
    return definition.kind == GAZHDOR_DEFINITION ? gazhdor_name_at(definition, GAZHDOR_AT_DEFINITION_NAME) : "";
}

gazhdor_field gazhdor_field_at(gazhdor_block definition, size_t at)
{
    static const gazhdor_field none = { 0, "", "", GAZHDOR_NO_DEFINITION, 0, 0, 0, 0, 0, 0, 0, 0, 0, 0, 0, 0, 0 };
    size_t length = (size_t)gazhdor_load(definition, at + GAZHDOR_AT_ENTRY_LENGTH, 2);
    if (definition.kind != GAZHDOR_DEFINITION || length < GAZHDOR_LEAST_ENTRY || length > definition.length - at)
        return none;
    const uint8_t *own = definition.bytes + at;
    gazhdor_block entry = { own, length, 0, 0, 0, 0 };
    gazhdor_field field = { 1, gazhdor_name_at(entry, GAZHDOR_AT_ENTRY_NAME),
        gazhdor_name_at(entry, (size_t)gazhdor_load(entry, GAZHDOR_AT_ENTRY_UNIT, 2)), definition.number,
        gazhdor_load(entry, GAZHDOR_AT_ENTRY_INVALID, 8), (uint32_t)gazhdor_load(entry, GAZHDOR_AT_ENTRY_ITEMS, 4),
        (uint32_t)gazhdor_load(entry, GAZHDOR_AT_ENTRY_SCALE, 4), (uint32_t)gazhdor_load(entry, GAZHDOR_AT_ENTRY_OFFSET, 4), own[GAZHDOR_AT_ENTRY_NUMBER],
        own[GAZHDOR_AT_ENTRY_DEVELOPER], own[GAZHDOR_AT_ENTRY_INDEX], own[GAZHDOR_AT_ENTRY_BASE_TYPE], own[GAZHDOR_AT_ENTRY_KIND],
        own[GAZHDOR_AT_ENTRY_WIDTH], own[GAZHDOR_AT_ENTRY_COUNT], own[GAZHDOR_AT_ENTRY_DECIMALS], at + length };
    return field;
}

gazhdor_field gazhdor_first_field(gazhdor_block definition)
{
    return gazhdor_field_at(definition, GAZHDOR_AT_DEFINITION_NAME + 8 + strlen(gazhdor_message_name(definition)) / 8 * 8);
}

gazhdor_field gazhdor_next_field(gazhdor_block definition, gazhdor_field field)
{
    return gazhdor_field_at(definition, field.there && field.definition == definition.number ? field.end : definition.length);
}

gazhdor_field gazhdor_named(gazhdor_block definition, const char *name)
{
    gazhdor_field field = gazhdor_first_field(definition);
    while (field.there && (name == NULL || field.name[0] == 0 || strcmp(field.name, name) != 0))
        field = gazhdor_next_field(definition, field);
    return field;
}

gazhdor_field gazhdor_numbered(gazhdor_block definition, uint32_t number)
{
    gazhdor_field field = gazhdor_first_field(definition);
    while (field.there && (field.developer || field.number != number))
        field = gazhdor_next_field(definition, field);
    return field;
}

gazhdor_field gazhdor_developer(gazhdor_block definition, uint32_t index, uint32_t number)
{
    gazhdor_field field = gazhdor_first_field(definition);
    while (field.there && (!field.developer || field.index != index || field.number != number))
        field = gazhdor_next_field(definition, field);
    return field;
}

/* Where the items of a field begin in a message; NULL where the message isn't of the field's definition. */
static const uint8_t *items_of(const gazhdor_field *field, const gazhdor_block *message)
{
    size_t length = (size_t)field->count * field->width;
    if (!field->there || message->kind != GAZHDOR_MESSAGE || message->number != field->definition
        || field->at > message->length || length > message->length - field->at)
        return NULL;
    return message->bytes + field->at;
}

gazhdor_text gazhdor_items(gazhdor_field field, gazhdor_block message)
{
    gazhdor_text items = { items_of(&field, &message), 0 };
    items.length = items.bytes == NULL ? 0 : (size_t)field.count * field.width;
    return items;
}

/* What gazhdor_raw says, of what isn't copied once more. */
static int raw_of(const gazhdor_field *field, const gazhdor_block *message, size_t k, uint64_t *raw)
{
    const uint8_t *items = items_of(field, message);
    *raw = 0;
    if (items == NULL || k >= field->count)
        return 0;
    switch (field->width) {
    case 1: *raw = items[k]; break;
    case 2: *raw = gazhdor_number(items + 2 * k, 2); break;
    case 4: *raw = gazhdor_number(items + 4 * k, 4); break;
    case 8: *raw = gazhdor_number(items + 8 * k, 8); break;
    default: return 0;
    }
    uint64_t sign = field->kind == GAZHDOR_SIGNED ? (uint64_t)1 << (8 * field->width - 1) : 0;
    *raw = (*raw ^ sign) - sign;
    return field->kind == GAZHDOR_BYTES || *raw != field->invalid;
}

int gazhdor_raw(gazhdor_field field, gazhdor_block message, size_t k, uint64_t *raw)
{
    uint64_t unwanted;
    return raw_of(&field, &message, k, raw == NULL ? &unwanted : raw);
}

double gazhdor_float(uint64_t bits, uint32_t width)
{
    uint32_t few = (uint32_t)bits;
    float number;
    double wide;
    memcpy(&number, &few, 4);
    memcpy(&wide, &bits, 8);
    return width == 8 ? wide : width == 4 ? (double)number : NAN;
}

double gazhdor_value(gazhdor_field field, gazhdor_block message, size_t k)
{
    uint64_t raw;
    if (!raw_of(&field, &message, k, &raw) || field.kind > GAZHDOR_FLOAT || field.scale == 0)
        return NAN;
    double number = field.kind == GAZHDOR_UNSIGNED ? (double)raw
        : field.kind == GAZHDOR_SIGNED ? (double)(int64_t)raw : gazhdor_float(raw, field.width);
    return (number - (double)field.offset * field.scale) / field.scale;
}

gazhdor_text gazhdor_string(gazhdor_field field, gazhdor_block message)
{
    gazhdor_text none = { NULL, 0 }, text = gazhdor_items(field, message);
    const void *end = text.length == 0 ? NULL : memchr(text.bytes, 0, text.length);
    if (end != NULL)
        text.length = (size_t)((const uint8_t *)end - text.bytes);
    return field.kind == GAZHDOR_STRING ? text : none;
}

double gazhdor_amount(gazhdor_block message, uint32_t amount)
{
    static const double parts[4] = { 100, 16, 1, 1 };
    if (message.kind != GAZHDOR_MESSAGE || message.length < GAZHDOR_AT_MESSAGE_COUNTED_ITEMS || amount > GAZHDOR_POWER
        || (message.bytes[GAZHDOR_AT_MESSAGE_BITS] & (GAZHDOR_TOLD_SPEED << amount)) == 0)
        return NAN;
    return (double)(gazhdor_load(message, GAZHDOR_AT_MESSAGE_SPEED + 8 * amount, 8)) / parts[amount];
}
