/* Copies a FIT file without its places: edit FILE NEW
 *
 * Latitudes and longitudes, and texts of places, are set to no value, in all messages and developer fields; what else the file has keeps its
 * bytes. Python's `edit --drop position` has the same rule. Bytes of which nobody says what they are may tell a place too. */
#include "gazhdor.h"

#include <ctype.h>
#include <stdio.h>
#include <stdlib.h>

/* Whether one of some words, with blanks around each, is in a name, and no part of another word. */
static int has_word(const char *name, const char *words)
{
    char word[32];
    for (size_t length = 0;; name++) {
        if (isalpha((unsigned char)*name) && length < sizeof word - 3) {
            word[++length] = (char)tolower((unsigned char)*name);
        } else {
            word[0] = word[length + 1] = ' ';
            word[length + 2] = 0;
            if (length != 0 && strstr(words, word) != NULL)
                return 1;
            length = 0;
        }
        if (*name == 0)
            return 0;
    }
}

static int is_in_degrees(const char *unit)
{
    return has_word(unit, " semicircles semicircle deg degree degrees ") || strcmp(unit, "\xc2\xb0") == 0;
}

/* Whether a field of a message tells a place: a whole number of 32 bits with a sign, unless it has a unit of something else, also by the code
 * that some devices write, without its highest bit; what is named as latitude or longitude; a float in degrees that isn't named as an
 * angle; a float, a text or bytes that are named as a position; and the location of weather_conditions (128). */
static int is_place(uint32_t message, gazhdor_field field)
{
    if ((field.base_type & 0x1F) == (GAZHDOR_TYPE_SINT32 & 0x1F) && (field.unit[0] == 0 || is_in_degrees(field.unit)))
        return 1;
    if (field.kind <= GAZHDOR_FLOAT && field.width < 4)
        return 0;
    if (has_word(field.name, " lat latitude long lon lng longitude "))
        return 1;
    if (field.kind == GAZHDOR_FLOAT && is_in_degrees(field.unit))
        return !has_word(field.name, " heading course bearing azimuth yaw pitch roll tilt lean angle slope phase ");
    if (field.kind >= GAZHDOR_STRING && message == 128 && !field.developer && field.number == 8)
        return 1;
    return field.kind >= GAZHDOR_FLOAT && has_word(field.name, " position pos location place gps geo coordinate coordinates address city ");
}

/* The bytes of a file; NULL where it can't be read. */
static uint8_t *load(const char *path, size_t *length)
{
    FILE *file = fopen(path, "rb");
    uint8_t *bytes = NULL;
    *length = 0;
    if (file == NULL)
        return NULL;
    for (size_t room = 65536;; room *= 2) {
        uint8_t *more = (uint8_t *)realloc(bytes, room);
        if (more == NULL)
            break;
        bytes = more;
        *length += fread(bytes + *length, 1, room - *length, file);
        if (*length < room) {
            if (ferror(file))
                break;
            fclose(file);
            return bytes;
        }
    }
    free(bytes);
    fclose(file);
    return NULL;
}

/* Puts a message without its places, whose block is changed in `room`. */
static gazhdor_answer put_message(gazhdor_writer *writer, gazhdor_blocks *room, const gazhdor_reader *at)
{
    gazhdor_answer answer = { GAZHDOR_NO_MEMORY, 0, 0, 0, 0, 0 };
    gazhdor_begin_anew(room);
    if (gazhdor_put_copy(room, at->block) != GAZHDOR_PUT)
        return answer;
    for (gazhdor_field f = gazhdor_first_field(at->definition); f.there; f = gazhdor_next_field(at->definition, f))
        if (is_place(at->message, f))
            gazhdor_set_invalid(room, f);
    return gazhdor_writer_messages(writer, at->definition.bytes, at->definition.length, room->bytes, room->length);
}

/* Puts what the blocks say without places, and makes the bytes of it. */
static gazhdor_answer copy(gazhdor_writer *writer, gazhdor_text blocks, gazhdor_text *file)
{
    gazhdor_blocks room = gazhdor_write(NULL, 0, gazhdor_by_realloc, NULL);
    gazhdor_answer answer = gazhdor_writer_open(writer);
    for (gazhdor_reader at = gazhdor_read(blocks); answer.status == GAZHDOR_GOOD && gazhdor_next(&at);) {
        if (at.block.kind == GAZHDOR_FILE_HEADER)
            answer = gazhdor_writer_file(writer, at.block.bytes, at.block.length);
        else if (at.block.kind == GAZHDOR_DEFINITION)
            answer = gazhdor_writer_definition(writer, at.block.bytes, at.block.length);
        else if (at.block.kind == GAZHDOR_MESSAGE)
            answer = put_message(writer, &room, &at);
    }
    free(room.bytes);
    return answer.status == GAZHDOR_GOOD ? gazhdor_writer_finish(writer, file) : answer;
}

static int save(const char *path, gazhdor_text bytes)
{
    FILE *file = fopen(path, "wb");
    if (file == NULL)
        return 0;
    size_t written = fwrite(bytes.bytes, 1, bytes.length, file);
    return (fclose(file) == 0) & (written == bytes.length);
}

int main(int argc, char **argv)
{
    if (argc != 3) {
        fprintf(stderr, "usage: edit FILE NEW\n");
        return 2;
    }
    size_t length;
    uint8_t *bytes = load(argv[1], &length);
    if (bytes == NULL) {
        fprintf(stderr, "cannot read %s\n", argv[1]);
        return 4;
    }
    gazhdor_text blocks = GAZHDOR_NO_TEXT, file = GAZHDOR_NO_TEXT;
    gazhdor_writer writer = GAZHDOR_CLOSED_WRITER;
    gazhdor_answer answer = gazhdor_messages(bytes, length, &blocks);
    if (answer.status == GAZHDOR_GOOD)
        answer = copy(&writer, blocks, &file);
    int is_good = answer.status == GAZHDOR_GOOD;
    if (!is_good)
        fprintf(stderr, "%s\n", gazhdor_status_name(answer.status));
    int is_saved = is_good && save(argv[2], file);
    if (is_good && !is_saved)
        fprintf(stderr, "cannot write %s\n", argv[2]);
    gazhdor_free(file);
    gazhdor_free(blocks);
    gazhdor_writer_close(&writer);
    free(bytes);
    return is_saved ? 0 : is_good ? 4 : answer.status == GAZHDOR_NO_MEMORY ? 3 : 1;
}
