/* Gazhdor for C: checks and converts files of the FIT protocol, which watches and bicycle computers write.
 *
 * The first seven calls work on bytes in memory and keep nothing, so they may be made in as many threads at once as you like; the next
 * four take bytes that come in pieces, by a gazhdor_stream, and six more write messages, by a gazhdor_writer. No call reads or writes a
 * file, sets a global or ends the process; the only memory it takes is that of malloc. What these calls promise is proved: the contract of
 * each is that of the function of the same name in crates/fit_c.
 *
 * Not proved, since only C can keep it:
 *  - `bytes` can be read for `length` bytes, and nobody writes them while the call runs. With length 0 it may be NULL.
 *  - `text` points to a gazhdor_text that is GAZHDOR_NO_TEXT.
 *  - A gazhdor_text that a call has filled is given to gazhdor_free once, by whoever made the call.
 *  - malloc, realloc and free belong to one another, and no call is made in a signal handler.
 *  - The thread has room: a call takes less than 49,152 bytes of stack, so that 64 KiB suffice for a thread of its own.
 *  - What is said of a gazhdor_stream and a gazhdor_writer below.
 *
 *     gazhdor_text table = GAZHDOR_NO_TEXT;
 *     gazhdor_answer answer = gazhdor_table(bytes, length, &table);
 *     if (answer.status == GAZHDOR_GOOD) fwrite(table.bytes, 1, table.length, stdout);
 *     gazhdor_free(table);
 */
#ifndef GAZHDOR_H
#define GAZHDOR_H

#include <stddef.h>
#include <stdint.h>

/* The version of this header; gazhdor_version() has that of the library. */
#define GAZHDOR_VERSION "0.10.0"

/* Casts and null pointers as each language writes them, so that C++ has nothing to warn of. */
#ifdef __cplusplus
#define GAZHDOR_CAST(type, value) static_cast<type>(value)
#define GAZHDOR_BYTES_OF(text) reinterpret_cast<const uint8_t *>(text)
#else
#define GAZHDOR_CAST(type, value) ((type)(value))
#define GAZHDOR_BYTES_OF(text) ((const uint8_t *)(text))
#endif
#if defined __cplusplus && __cplusplus >= 201103L
#define GAZHDOR_NULL nullptr
#else
#define GAZHDOR_NULL NULL
#endif

#ifdef __cplusplus
extern "C" {
#endif

/* What a call found. */
enum gazhdor_status {
    /* The bytes are a FIT file, or several, one after another; or the text is that of such files. */
    GAZHDOR_GOOD = 0,
    /* The byte at `place` is the first that cannot belong to any such file: `reason` says why. */
    GAZHDOR_REFUSED = 1,
    /* The bytes begin such a file, and end too soon, at `place`. */
    GAZHDOR_TRUNCATED = 2,
    /* Memory was refused. This says nothing of the bytes or of the text. */
    GAZHDOR_NO_MEMORY = 3,
    /* Row `row` of the text isn't allowed where it is; where `column` isn't 0, because of that cell. */
    GAZHDOR_TEXT = 4,
    /* The rows of the text, or the blocks, are those of files that have no bytes: too long, or with zeros for a
     * checksum of 0. */
    GAZHDOR_UNWRITABLE = 5,
    /* The stream or the writer isn't open. */
    GAZHDOR_CLOSED = 6,
    /* There is no such kind of stream. */
    GAZHDOR_NO_KIND = 7,
    /* The block `row`, which begins at `place`, can't stand where it is, or can't be put: `reason` says why. */
    GAZHDOR_BLOCK = 8
};

/* Why a byte is refused. docs/USE.md, "Is an upload a FIT file?", says what each means. */
enum gazhdor_reason {
    GAZHDOR_HEADER_SIZE = 1,
    GAZHDOR_PROTOCOL = 2,
    GAZHDOR_NO_FIT = 3,
    GAZHDOR_SIGNATURE = 4,
    GAZHDOR_HEADER_SUM = 5,
    GAZHDOR_RESERVED_BIT = 6,
    GAZHDOR_UNDEFINED_LOCAL = 7,
    GAZHDOR_OVERRUN = 8,
    GAZHDOR_ARCHITECTURE = 9,
    GAZHDOR_FILE_SUM = 10,
    GAZHDOR_TOO_MANY_FILES = 11
};

/* Why a block can't stand where it is. docs/C.md, "Files from values", says what each means, as gazhdor_block_reason_text does. */
enum gazhdor_block_reason {
    GAZHDOR_BLOCK_CUT = 1,
    GAZHDOR_BLOCK_KIND = 2,
    GAZHDOR_BLOCK_HEADER = 3,
    GAZHDOR_BLOCK_LOCAL = 4,
    GAZHDOR_BLOCK_ARCHITECTURE = 5,
    GAZHDOR_BLOCK_ENTRIES = 6,
    GAZHDOR_BLOCK_SIZE = 7,
    GAZHDOR_BLOCK_OFFSET = 8,
    GAZHDOR_BLOCK_UNDEFINED = 9,
    GAZHDOR_BLOCK_ITEMS = 10,
    GAZHDOR_BLOCK_NO_FILE = 11,
    GAZHDOR_BLOCK_FILES = 12,
    GAZHDOR_BLOCK_FULL = 13,
    GAZHDOR_BLOCK_TIME = 14,
    GAZHDOR_BLOCK_DESCRIBED = 15,
    GAZHDOR_BLOCK_TOO_LONG = 16
};

/* What a call returns. A number that has no meaning for the status is 0. */
typedef struct gazhdor_answer {
    uint32_t status; /* an enum gazhdor_status */
    uint32_t reason; /* with GAZHDOR_REFUSED, an enum gazhdor_reason, and with GAZHDOR_BLOCK, an enum gazhdor_block_reason */
    uint64_t place;  /* with GAZHDOR_REFUSED, GAZHDOR_TRUNCATED and GAZHDOR_BLOCK, a place among the bytes, counted from 0 */
    uint64_t row;    /* with GAZHDOR_TEXT, counted from 1, the first line included; with GAZHDOR_BLOCK, a block, counted from 0; of
                      * gazhdor_writer_messages with each status how many messages were put */
    uint64_t column; /* with GAZHDOR_TEXT, counted from 1; 0 where the row as a whole is refused; see gazhdor_writer_messages */
    uint64_t files;  /* with GAZHDOR_GOOD, of gazhdor_check and gazhdor_finish how many files there are, of gazhdor_feed how many have ended;
                      * see gazhdor_writer_messages */
} gazhdor_answer;

/* Some bytes that a call has made: UTF-8 text, blocks, or a FIT file. No zero byte ends them. */
typedef struct gazhdor_text {
    const uint8_t *bytes;
    size_t length;
} gazhdor_text;

/* What a gazhdor_text is before a call; there is nothing to free. */
#define GAZHDOR_NO_TEXT { GAZHDOR_BYTES_OF(""), 0 }

/* Whether `length` bytes are a FIT file or several, one after another, and how many: GAZHDOR_GOOD for just these. */
gazhdor_answer gazhdor_check(const uint8_t *bytes, size_t length);

/* The table of the record messages as CSV text: a row each, with time, position, altitude, distance, speed, heart rate,
 * cadence, power and temperature.
 *
 * Of this call and the next three: where the bytes are refused or truncated, the text is that of all that comes before;
 * where memory is refused, it is that of some of it. In each case it is yours to free. */
gazhdor_answer gazhdor_table(const uint8_t *bytes, size_t length, gazhdor_text *text);

/* All of the bytes as CSV text, of which gazhdor_from_csv makes the same bytes again (docs/CSV.md). */
gazhdor_answer gazhdor_to_csv(const uint8_t *bytes, size_t length, gazhdor_text *text);

/* The messages with their names, units and times, a line each, as `fit show` writes them, without its last line. */
gazhdor_answer gazhdor_show(const uint8_t *bytes, size_t length, gazhdor_text *text);

/* The messages as blocks of bytes, one for each header, definition, message and end of a file. gazhdor_reader, of gazhdor_blocks.h,
 * reads them. */
gazhdor_answer gazhdor_messages(const uint8_t *bytes, size_t length, gazhdor_text *blocks);

/* The FIT file or files that a CSV text of `length` bytes describes. There are no bytes where the status isn't GAZHDOR_GOOD. */
gazhdor_answer gazhdor_from_csv(const uint8_t *text, size_t length, gazhdor_text *bytes);

/* The FIT file or files that blocks of `length` bytes are those of: the blocks that gazhdor_messages makes of a file give its bytes again, and
 * gazhdor_blocks, of gazhdor_write.h, makes others. There are no bytes where the status isn't GAZHDOR_GOOD. */
gazhdor_answer gazhdor_from_messages(const uint8_t *blocks, size_t length, gazhdor_text *bytes);

/* ---- Bytes that come in pieces
 *
 *     gazhdor_stream stream = GAZHDOR_CLOSED_STREAM;
 *     gazhdor_answer answer = gazhdor_open(&stream, GAZHDOR_STREAM_TABLE);
 *     while (answer.status == GAZHDOR_GOOD && (length = read(0, piece, sizeof piece)) > 0) {
 *         gazhdor_text text = GAZHDOR_NO_TEXT;
 *         answer = gazhdor_feed(&stream, piece, length, &text);
 *         fwrite(text.bytes, 1, text.length, stdout);
 *         gazhdor_free(text);
 *     }
 *     .. and gazhdor_finish, whose text is written and freed too
 *     gazhdor_close(&stream); */

/* What the pieces are made: nothing, or the text of gazhdor_show, gazhdor_table or gazhdor_to_csv, or the blocks of gazhdor_messages. */
enum gazhdor_stream_kind {
    GAZHDOR_STREAM_CHECK = 0,
    GAZHDOR_STREAM_SHOW = 1,
    GAZHDOR_STREAM_TABLE = 2,
    GAZHDOR_STREAM_TO_CSV = 3,
    GAZHDOR_STREAM_MESSAGES = 4
};

/* What is kept between the pieces: the definitions of the current file and the developer fields that it describes, what has come of a
 * record, the checksum, and room in which the next text is made (docs/C.md); so it needs no more memory for more messages. It begins as
 * GAZHDOR_CLOSED_STREAM. Only the four calls change it, one at a time. Each of them may be made in another thread: then a lock, a join or
 * the like comes between. It isn't copied, and in the end gazhdor_close gives its memory back. Other threads may use other streams
 * meanwhile. */
typedef struct gazhdor_stream {
    void *at;
} gazhdor_stream;

#define GAZHDOR_CLOSED_STREAM { GAZHDOR_NULL }

/* Opens a stream, of an enum gazhdor_stream_kind; what it was before is closed. Where the answer isn't GAZHDOR_GOOD, it is closed. */
gazhdor_answer gazhdor_open(gazhdor_stream *stream, uint32_t kind);

/* Takes the next bytes, of any length, and makes the text or the blocks of what they complete: whole lines or rows, and whole blocks.
 * GAZHDOR_GOOD: all bytes so far are good, or begin what is good; that they end too soon is what gazhdor_finish says. GAZHDOR_REFUSED is
 * that of the call above on all bytes so far, and the text is that before the fault; with GAZHDOR_NO_MEMORY it is that of some of it. From
 * then on each call returns the same again, and makes no text. The texts of all calls, one after another, are the text of the call above,
 * of all bytes. One byte may have 275,163 bytes of rows (docs/C.md). */
gazhdor_answer gazhdor_feed(gazhdor_stream *stream, const uint8_t *bytes, size_t length, gazhdor_text *text);

/* Where all bytes have come: returns what the call above does of them, and makes what is still to come of its text. This ends nothing:
 * of bytes that end too soon it says so, and more may follow. */
gazhdor_answer gazhdor_finish(gazhdor_stream *stream, gazhdor_text *text);

/* Closes a stream; one that is closed may be given too. */
void gazhdor_close(gazhdor_stream *stream);

/* ---- Messages that are put one after another
 *
 *     gazhdor_writer writer = GAZHDOR_CLOSED_WRITER;
 *     gazhdor_answer answer = gazhdor_writer_open(&writer);
 *     .. gazhdor_writer_file by the block of a header, and then, by those of a definition and of one message or several of it,
 *     answer = gazhdor_writer_messages(&writer, definition.bytes, definition.length, message.bytes, message.length);
 *     .. and in the end
 *     answer = gazhdor_writer_finish(&writer, &bytes);
 *     gazhdor_writer_close(&writer); */

/* The files of a chain in the making, and what a reader of them would know: of each message that is put it is told what its block says,
 * whatever file the blocks are of. It begins as GAZHDOR_CLOSED_WRITER. Only the six calls change it, one at a time, and each may be made in
 * another thread, as those of a gazhdor_stream. It isn't copied, and in the end gazhdor_writer_close gives its memory back. */
typedef struct gazhdor_writer {
    void *at;
} gazhdor_writer;

#define GAZHDOR_CLOSED_WRITER { GAZHDOR_NULL }

/* Opens a writer of no file; what it was before is closed. Where the answer isn't GAZHDOR_GOOD, it is closed. */
gazhdor_answer gazhdor_writer_open(gazhdor_writer *writer);

/* Begins a file with the header that a block says; the file before it ends.
 *
 * Of this call and the next two: GAZHDOR_BLOCK where a block can't be put, and then `reason` says why. After GAZHDOR_BLOCK and
 * GAZHDOR_NO_MEMORY the writer is what it was, and may go on; but where there was no more room or memory, some of what comes before a message
 * may have been put. */
gazhdor_answer gazhdor_writer_file(gazhdor_writer *writer, const uint8_t *block, size_t length);

/* Puts the definition message that a block says, as it is: for files that are copied. Before a message one is put where it is needed. */
gazhdor_answer gazhdor_writer_definition(gazhdor_writer *writer, const uint8_t *block, size_t length);

/* Puts the messages whose blocks stand one after another, by the block of their definition, up to the first that can't be put. Developer
 * fields that the file doesn't describe as that block does are described before. `row` is how many were put, so with GAZHDOR_BLOCK the number
 * of the one that wasn't, and `place` where that begins in `blocks`; `column` is 1 where it is the definition that can't stand, else 0.
 * `files` is how many were put before the first of which a reader is told another speed or distance, other cycles or another power than its
 * block says: as many as `row` where there is none. */
gazhdor_answer gazhdor_writer_messages(gazhdor_writer *writer, const uint8_t *definition, size_t definition_length, const uint8_t *blocks,
    size_t length);

/* Ends the file that has begun, and makes the bytes of the chain; none where the status isn't GAZHDOR_GOOD. The writer keeps the chain: it
 * may be finished again, and another file may begin. */
gazhdor_answer gazhdor_writer_finish(gazhdor_writer *writer, gazhdor_text *bytes);

/* Closes a writer; one that is closed may be given too. */
void gazhdor_writer_close(gazhdor_writer *writer);

/* Frees what a call has made. GAZHDOR_NO_TEXT, and a text of no bytes, may be given too. */
void gazhdor_free(gazhdor_text text);

/* The name of a status, as "truncated", and of a reason as the program prints it, as "FileSum"; "unknown" for other numbers.
 * gazhdor_reason_text, of gazhdor_reasons.h, says in words what a reason says of the byte. */
const char *gazhdor_status_name(uint32_t status);
const char *gazhdor_reason_name(uint32_t reason);

/* The version of the library, as "0.10.0". */
const char *gazhdor_version(void);

#ifdef __cplusplus
}
#endif

#include "gazhdor_numbers.h"
#include "gazhdor_blocks.h"
#include "gazhdor_write.h"
#include "gazhdor_set.h"
#include "gazhdor_reasons.h"

#endif
