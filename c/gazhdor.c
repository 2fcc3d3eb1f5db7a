/* What the library for C has beside the proved calls. Each of these, which release/link names proved_.., takes a pointer to bytes even
 * where there are none. */
#include "beside.h"

gazhdor_answer proved_gazhdor_check(const uint8_t *bytes, size_t length);
gazhdor_answer proved_gazhdor_table(const uint8_t *bytes, size_t length, gazhdor_text *text);
gazhdor_answer proved_gazhdor_to_csv(const uint8_t *bytes, size_t length, gazhdor_text *text);
gazhdor_answer proved_gazhdor_show(const uint8_t *bytes, size_t length, gazhdor_text *text);
gazhdor_answer proved_gazhdor_messages(const uint8_t *bytes, size_t length, gazhdor_text *blocks);
gazhdor_answer proved_gazhdor_from_csv(const uint8_t *text, size_t length, gazhdor_text *bytes);
gazhdor_answer proved_gazhdor_from_messages(const uint8_t *blocks, size_t length, gazhdor_text *bytes);
gazhdor_answer proved_gazhdor_open(gazhdor_stream *stream, uint32_t kind);
gazhdor_answer proved_gazhdor_feed(gazhdor_stream *stream, const uint8_t *bytes, size_t length, gazhdor_text *text);
gazhdor_answer proved_gazhdor_finish(gazhdor_stream *stream, gazhdor_text *text);
void proved_gazhdor_close(gazhdor_stream *stream);
gazhdor_answer proved_gazhdor_writer_open(gazhdor_writer *writer);
gazhdor_answer proved_gazhdor_writer_file(gazhdor_writer *writer, const uint8_t *block, size_t length);
gazhdor_answer proved_gazhdor_writer_definition(gazhdor_writer *writer, const uint8_t *block, size_t length);
gazhdor_answer proved_gazhdor_writer_messages(gazhdor_writer *writer, const uint8_t *definition, size_t definition_length,
    const uint8_t *blocks, size_t length);
gazhdor_answer proved_gazhdor_writer_finish(gazhdor_writer *writer, gazhdor_text *bytes);
void proved_gazhdor_writer_close(gazhdor_writer *writer);

static const uint8_t *some(const uint8_t *bytes)
{
    return bytes == NULL ? (const uint8_t *)"" : bytes;
}

gazhdor_answer gazhdor_check(const uint8_t *bytes, size_t length)
{
    return proved_gazhdor_check(some(bytes), length);
}

gazhdor_answer gazhdor_table(const uint8_t *bytes, size_t length, gazhdor_text *text)
{
    return proved_gazhdor_table(some(bytes), length, text);
}

gazhdor_answer gazhdor_to_csv(const uint8_t *bytes, size_t length, gazhdor_text *text)
{
    return proved_gazhdor_to_csv(some(bytes), length, text);
}

gazhdor_answer gazhdor_show(const uint8_t *bytes, size_t length, gazhdor_text *text)
{
    return proved_gazhdor_show(some(bytes), length, text);
}

gazhdor_answer gazhdor_messages(const uint8_t *bytes, size_t length, gazhdor_text *blocks)
{
    return proved_gazhdor_messages(some(bytes), length, blocks);
}

gazhdor_answer gazhdor_from_csv(const uint8_t *text, size_t length, gazhdor_text *bytes)
{
    return proved_gazhdor_from_csv(some(text), length, bytes);
}

gazhdor_answer gazhdor_from_messages(const uint8_t *blocks, size_t length, gazhdor_text *bytes)
{
    return proved_gazhdor_from_messages(some(blocks), length, bytes);
}

gazhdor_answer gazhdor_open(gazhdor_stream *stream, uint32_t kind)
{
    return proved_gazhdor_open(stream, kind);
}

gazhdor_answer gazhdor_feed(gazhdor_stream *stream, const uint8_t *bytes, size_t length, gazhdor_text *text)
{
    return proved_gazhdor_feed(stream, some(bytes), length, text);
}

gazhdor_answer gazhdor_finish(gazhdor_stream *stream, gazhdor_text *text)
{
    return proved_gazhdor_finish(stream, text);
}

void gazhdor_close(gazhdor_stream *stream)
{
    proved_gazhdor_close(stream);
}

gazhdor_answer gazhdor_writer_open(gazhdor_writer *writer)
{
    return proved_gazhdor_writer_open(writer);
}

gazhdor_answer gazhdor_writer_file(gazhdor_writer *writer, const uint8_t *block, size_t length)
{
    return proved_gazhdor_writer_file(writer, some(block), length);
}

gazhdor_answer gazhdor_writer_definition(gazhdor_writer *writer, const uint8_t *block, size_t length)
{
    return proved_gazhdor_writer_definition(writer, some(block), length);
}

gazhdor_answer gazhdor_writer_messages(gazhdor_writer *writer, const uint8_t *definition, size_t definition_length,
    const uint8_t *blocks, size_t length)
{
    return proved_gazhdor_writer_messages(writer, some(definition), definition_length, some(blocks), length);
}

gazhdor_answer gazhdor_writer_finish(gazhdor_writer *writer, gazhdor_text *bytes)
{
    return proved_gazhdor_writer_finish(writer, bytes);
}

void gazhdor_writer_close(gazhdor_writer *writer)
{
    proved_gazhdor_writer_close(writer);
}
