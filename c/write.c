/* Writes a ride, whose points stand here, as a FIT file that other programs take as an activity: write FILE */
#include "gazhdor.h"

#include <stdio.h>
#include <stdlib.h>

/* Seconds since 1970, degrees, metres, beats a minute. */
typedef struct point {
    double time, latitude, longitude, altitude, distance, heart_rate;
} point;

static const point ride[] = {
    { 1779003000, 47.3, 8.568, 408, 0, 101 },
    { 1779003005, 47.300719, 8.567983, 409.2, 80.04, 103 },
    { 1779003010, 47.3014, 8.5679, 410.4, 156.1, NAN }, /* The strap had lost contact. */
    { 1779003015, 47.302071, 8.567774, 411.2, 231.3, 108 },
};
enum { POINTS = sizeof ride / sizeof ride[0] };

enum { ENUM = GAZHDOR_TYPE_ENUM, UINT8 = GAZHDOR_TYPE_UINT8, UINT16 = GAZHDOR_TYPE_UINT16, SINT32 = GAZHDOR_TYPE_SINT32,
    UINT32 = GAZHDOR_TYPE_UINT32 };

/* A field with one value: its number, base type, scale and offset are those of Garmin's profile. */
typedef struct cell {
    uint32_t number, type, scale, offset;
    double value;
} cell;

/* What is written: blocks in the making, the writer of the file, and its first answer that isn't good. */
typedef struct output {
    gazhdor_blocks blocks;
    gazhdor_writer writer;
    gazhdor_answer answer;
} output;

static void note(output *to, gazhdor_answer answer)
{
    if (to->answer.status == GAZHDOR_GOOD)
        to->answer = answer;
}

/* Puts the messages whose blocks stand after that of their definition, which begins at this place, and lets the blocks go. */
static void put_from(output *to, size_t place)
{
    gazhdor_block definition = gazhdor_block_at(&to->blocks, place);
    size_t first = place + definition.length;
    note(to, gazhdor_writer_messages(&to->writer, definition.bytes, definition.length, to->blocks.bytes + first, to->blocks.length - first));
    to->blocks.length = place;
}

/* A message of these values. A value that can't be, as NAN, leaves its field without one. */
static void put(output *to, uint32_t message, const cell *cells, size_t count)
{
    size_t place = to->blocks.length;
    gazhdor_field fields[16];
    for (size_t i = 0; i < count; i++)
        fields[i] = gazhdor_scaled(gazhdor_new_field(cells[i].number, cells[i].type, 1), cells[i].scale, cells[i].offset);
    gazhdor_put_definition(&to->blocks, 0, message, fields, count);
    gazhdor_put_message(&to->blocks, 0);
    for (size_t i = 0; i < count; i++)
        gazhdor_set_value(&to->blocks, fields[i], 0, cells[i].value);
    put_from(to, place);
}

static void put_points(output *to)
{
    size_t place = to->blocks.length;
    gazhdor_field fields[] = {
        gazhdor_new_field(253, UINT32, 1),                       /* timestamp */
        gazhdor_new_field(0, SINT32, 1),                         /* position_lat, in semicircles */
        gazhdor_new_field(1, SINT32, 1),                         /* position_long */
        gazhdor_scaled(gazhdor_new_field(2, UINT16, 1), 5, 500), /* altitude */
        gazhdor_scaled(gazhdor_new_field(5, UINT32, 1), 100, 0), /* distance */
        gazhdor_new_field(3, UINT8, 1),                          /* heart_rate */
    };
    gazhdor_put_definition(&to->blocks, 1, GAZHDOR_MESSAGE_RECORD, fields, 6);
    for (size_t i = 0; i < POINTS; i++) {
        const double semicircles = 2147483648.0 / 180, values[6] = { ride[i].time - GAZHDOR_EPOCH, ride[i].latitude * semicircles,
            ride[i].longitude * semicircles, ride[i].altitude, ride[i].distance, ride[i].heart_rate };
        gazhdor_put_message(&to->blocks, 1);
        for (size_t k = 0; k < 6; k++)
            gazhdor_set_value(&to->blocks, fields[k], 0, values[k]);
    }
    put_from(to, place);
}

static void put_ride(output *to)
{
    const double start = ride[0].time - GAZHDOR_EPOCH, end = ride[POINTS - 1].time - GAZHDOR_EPOCH;
    const cell file[] = { { 0, ENUM, 1, 0, 4 /* activity */ }, { 1, UINT16, 1, 0, 255 /* development */ }, { 4, UINT32, 1, 0, start } };
    /* Time, event and its type, start, elapsed and moving time, distance; and of a session its sport, cycling, and its laps. */
    cell session[] = { { 253, UINT32, 1, 0, end }, { 0, ENUM, 1, 0, 9 /* lap */ }, { 1, ENUM, 1, 0, 1 }, { 2, UINT32, 1, 0, start },
        { 7, UINT32, 1000, 0, end - start }, { 8, UINT32, 1000, 0, end - start }, { 9, UINT32, 100, 0, ride[POINTS - 1].distance },
        { 5, ENUM, 1, 0, 2 }, { 25, UINT16, 1, 0, 0 }, { 26, UINT16, 1, 0, 1 } };
    const cell activity[] = { { 253, UINT32, 1, 0, end }, { 0, UINT32, 1000, 0, end - start }, { 1, UINT16, 1, 0, 1 }, { 2, ENUM, 1, 0, 0 },
        { 3, ENUM, 1, 0, 26 }, { 4, ENUM, 1, 0, 1 } };
    gazhdor_put_header(&to->blocks, 0);
    note(to, gazhdor_writer_file(&to->writer, to->blocks.bytes, to->blocks.length));
    put(to, GAZHDOR_MESSAGE_FILE_ID, file, 3);
    put_points(to);
    put(to, GAZHDOR_MESSAGE_LAP, session, 7);
    session[1].value = 8; /* session */
    put(to, GAZHDOR_MESSAGE_SESSION, session, 10);
    put(to, GAZHDOR_MESSAGE_ACTIVITY, activity, 6);
}

int main(int argc, char **argv)
{
    if (argc != 2) {
        fprintf(stderr, "usage: write FILE\n");
        return 2;
    }
    gazhdor_text bytes = GAZHDOR_NO_TEXT;
    output to = { gazhdor_write(NULL, 0, gazhdor_by_realloc, NULL), GAZHDOR_CLOSED_WRITER, { GAZHDOR_GOOD, 0, 0, 0, 0, 0 } };
    note(&to, gazhdor_writer_open(&to.writer));
    put_ride(&to);
    note(&to, gazhdor_writer_finish(&to.writer, &bytes));
    int is_made = to.blocks.fault == GAZHDOR_PUT, is_good = is_made && to.answer.status == GAZHDOR_GOOD;
    FILE *file = is_good ? fopen(argv[1], "wb") : NULL;
    int is_written = file != NULL && fwrite(bytes.bytes, 1, bytes.length, file) == bytes.length;
    if (file != NULL)
        is_written &= fclose(file) == 0;
    if (!is_good)
        fprintf(stderr, "%s\n", is_made ? gazhdor_status_name(to.answer.status) : gazhdor_put_text(to.blocks.fault));
    else if (!is_written)
        fprintf(stderr, "cannot write %s\n", argv[1]);
    gazhdor_free(bytes);
    gazhdor_writer_close(&to.writer);
    free(to.blocks.bytes);
    return is_written ? 0 : is_good ? 4 : 3;
}
