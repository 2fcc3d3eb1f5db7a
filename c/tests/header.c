/* Uses each kind of what the header has. It is only compiled, as C and as C++ of several standards. */
#include "gazhdor.h"
gazhdor_answer f(void) { return gazhdor_check(GAZHDOR_NULL, 0); }
void h(gazhdor_reader *reader)
{
    gazhdor_stream stream = GAZHDOR_CLOSED_STREAM;
    gazhdor_text text = GAZHDOR_NO_TEXT;
    if (gazhdor_open(&stream, GAZHDOR_STREAM_MESSAGES).status == GAZHDOR_GOOD)
        gazhdor_finish(&stream, &text);
    gazhdor_read_on(reader, text);
    gazhdor_keep(reader);
    gazhdor_free(text);
    gazhdor_close(&stream);
}
gazhdor_answer put(gazhdor_block header, gazhdor_block definition, gazhdor_block message, gazhdor_text *bytes)
{
    gazhdor_writer writer = GAZHDOR_CLOSED_WRITER;
    if (gazhdor_writer_open(&writer).status == GAZHDOR_GOOD)
        gazhdor_writer_file(&writer, header.bytes, header.length);
    gazhdor_writer_definition(&writer, definition.bytes, definition.length);
    gazhdor_writer_messages(&writer, definition.bytes, definition.length, message.bytes, message.length);
    gazhdor_answer answer = gazhdor_writer_finish(&writer, bytes);
    gazhdor_writer_close(&writer);
    return answer;
}
uint32_t w(gazhdor_blocks *to)
{
    gazhdor_field fields[2] = { gazhdor_scaled(gazhdor_new_field(2, GAZHDOR_TYPE_UINT16, 1), 5, 500), gazhdor_new_developer(0, 1, GAZHDOR_TYPE_STRING, 9) };
    *to = gazhdor_write(GAZHDOR_NULL, 0, gazhdor_by_realloc, GAZHDOR_NULL);
    gazhdor_put_header(to, 0);
    gazhdor_put_description(to, 0, fields[1], "own", "unit");
    gazhdor_put_definition(to, 0, GAZHDOR_MESSAGE_RECORD, fields, 2);
    gazhdor_put_message(to, 0);
    gazhdor_set_value(to, fields[0], 0, 408.2);
    gazhdor_set_text(to, fields[1], "text");
    gazhdor_set_invalid(to, fields[1]);
    gazhdor_set_offset(to, GAZHDOR_NO_OFFSET);
    gazhdor_put_end(to);
    return to->fault;
}
double g(gazhdor_text blocks)
{
    gazhdor_reader at = gazhdor_read(blocks);
    return gazhdor_next(&at) ? gazhdor_value(gazhdor_named(at.definition, "heart_rate"), at.block, 0) : NAN;
}
