/* The library for C on machines that have no released one: the calls of gazhdor.h over the WebAssembly module as C. gazhdor_module.c is written
 * by release/any/module_c.py of js/gazhdor.wasm. Build it with c/ and the folder of gazhdor_module.c among the folders of headers:
 *
 *     python3 release/any/module_c.py js/gazhdor.wasm >out/gazhdor_module.c
 *     cc -O2 -shared -fPIC -Ic -Iout release/any/everywhere.c -o libgazhdor.so
 *
 * Each call has a memory of its own, as each stream and each writer has, so calls may be made in as many threads at once as you like. Bytes are copied in and
 * texts out. There is no writable data, no handler of signals, and no name but those of gazhdor.h.
 *
 * Not proved. What can't be here is memory beyond 4 GiB: a call whose bytes and text don't fit into that answers GAZHDOR_NO_MEMORY. */
#include "beside.h"
#include "module.h"
#if defined __GNUC__ || defined __clang__
#pragma GCC diagnostic ignored "-Wtype-limits"
#pragma GCC diagnostic ignored "-Wunused-but-set-variable"
#pragma GCC diagnostic ignored "-Wunused-parameter"
#pragma GCC diagnostic ignored "-Wunused-function"
#endif
#include "gazhdor_module.c"

#define TEXT 40 /* after the 40 bytes of an answer stands its text: where it lies, and its length */
#define PLACE 56
#define MOST 65536u /* pages: 4 GiB */

/* ---- Memory */

/* Memory of so many pages, of which nothing is set; false where it is refused. */
static int memory_open(memory *m, u64 pages)
{
    m->base = pages > MOST || pages > SIZE_MAX >> 16 ? NULL : malloc((size_t)pages << 16);
    m->pages = m->held = (u32)pages;
    return m->base != NULL;
}

static int memory_hold(memory *m, u32 pages)
{
    unsigned char *base = (u64)pages << 16 > SIZE_MAX ? NULL : realloc(m->base, (size_t)pages << 16);
    if (base == NULL)
        return 0;
    m->base = base;
    m->held = pages;
    return 1;
}

/* What memory.grow answers: the size before, or 2^32 - 1 where more is refused. At least twice as much is held each time, so that what is
 * copied then is in all no more than what is there at last. The heap of the module doesn't ask for zeros. */
static u32 memory_grow(memory *m, u32 more)
{
    u32 before = m->pages;
    if (more > MOST - before)
        return UINT32_MAX;
    u32 pages = before + more, twice = m->held < MOST / 2 ? 2 * m->held : MOST;
    if (pages > m->held && !memory_hold(m, pages > twice ? pages : twice) && !memory_hold(m, pages))
        return UINT32_MAX;
    m->pages = pages;
    return before;
}

/* The module, with room for so many bytes; false where memory is refused. */
static int module_opened(memory *m, size_t length)
{
    if (!memory_open(m, MODULE_PAGES + 1 + ((u64)length >> 16)))
        return 0;
    module_begin(m);
    return 1;
}

/* ---- Bytes, answers and texts */

/* Some bytes in the memory; 0 where that is refused. */
static u64 put(memory *m, const uint8_t *bytes, size_t length)
{
    u64 at = module_alloc(m, length != 0 ? length : 1);
    if (at != 0 && length != 0)
        memcpy(m->base + (size_t)at, bytes, length);
    return at;
}

static gazhdor_answer only(uint32_t status)
{
    gazhdor_answer answer = { 0, 0, 0, 0, 0, 0 };
    answer.status = status;
    return answer;
}

static gazhdor_answer answer_at(const memory *m, u64 place)
{
    const unsigned char *p = m->base + (size_t)place;
    gazhdor_answer answer;
    answer.status = get32(p);
    answer.reason = get32(p + 4);
    answer.place = get64(p + 8);
    answer.row = get64(p + 16);
    answer.column = get64(p + 24);
    answer.files = get64(p + 32);
    return answer;
}

/* Before a call: there is no text. */
static void no_text(memory *m, u64 place)
{
    put64(m->base + (size_t)place + TEXT, place);
    put64(m->base + (size_t)place + TEXT + 8, 0);
}

/* The answer of a call, and a copy of its text, by malloc. */
static gazhdor_answer made(memory *m, u64 place, gazhdor_text *text)
{
    u64 at = get64(m->base + (size_t)place + TEXT), length = get64(m->base + (size_t)place + TEXT + 8);
    if (length == 0)
        return answer_at(m, place);
    uint8_t *bytes = malloc((size_t)length);
    if (bytes != NULL) {
        memcpy(bytes, m->base + (size_t)at, (size_t)length);
        text->bytes = bytes;
        text->length = (size_t)length;
    }
    module_free(m, at);
    return bytes != NULL ? answer_at(m, place) : only(GAZHDOR_NO_MEMORY);
}

/* ---- Calls on bytes in memory */

gazhdor_answer gazhdor_check(const uint8_t *bytes, size_t length)
{
    memory m;
    gazhdor_answer answer = only(GAZHDOR_NO_MEMORY);
    if (!module_opened(&m, length))
        return answer;
    u64 place = module_alloc(&m, PLACE), at = put(&m, bytes, length);
    if (place != 0 && at != 0) {
        module_check(&m, place, at, length);
        answer = answer_at(&m, place);
    }
    free(m.base);
    return answer;
}

typedef void module_call(memory *m, u64 answer, u64 bytes, u64 length, u64 text);

static gazhdor_answer make(module_call *call, const uint8_t *bytes, size_t length, gazhdor_text *text)
{
    memory m;
    gazhdor_answer answer = only(GAZHDOR_NO_MEMORY);
    if (!module_opened(&m, length))
        return answer;
    u64 place = module_alloc(&m, PLACE), at = put(&m, bytes, length);
    if (place != 0 && at != 0) {
        no_text(&m, place);
        call(&m, place, at, length, place + TEXT);
        answer = made(&m, place, text);
    }
    free(m.base);
    return answer;
}

#define MAKE(name) \
    gazhdor_answer gazhdor_##name(const uint8_t *bytes, size_t length, gazhdor_text *text) { return make(module_##name, bytes, length, text); }
MAKE(table)
MAKE(to_csv)
MAKE(show)
MAKE(messages)
MAKE(from_csv)
MAKE(from_messages)

/* ---- Streams and writers */

enum { KEPT = 65536 };

/* What a gazhdor_stream and a gazhdor_writer point to: a memory with the answers of its calls and with the module's own stream or writer, and
 * `held` bytes at `room` for what is given to a call; room is 0 where there are none. Once a piece or a text of a stream had no memory, each
 * later call says so too: bytes were lost. */
typedef struct opened {
    memory m;
    u64 place, inner, room, held;
    int lost;
} opened;

static void opened_free(opened *at)
{
    if (at != NULL)
        free(at->m.base);
    free(at);
}

/* One that is closed in the module; NULL where memory is refused. */
static opened *opened_new(void)
{
    static const uint8_t closed[8];
    opened *at = malloc(sizeof *at);
    if (at == NULL || !module_opened(&at->m, 0)) {
        free(at);
        return NULL;
    }
    at->lost = 0;
    at->room = at->held = 0;
    at->place = module_alloc(&at->m, PLACE);
    at->inner = put(&at->m, closed, sizeof closed);
    if (at->place != 0 && at->inner != 0)
        return at;
    opened_free(at);
    return NULL;
}

static void leave_room(opened *at)
{
    if (at->room != 0)
        module_free(&at->m, at->room);
    at->room = at->held = 0;
}

/* Lays what is given to a call, and behind it what else is, where that of the call before lay; 0 where memory is refused. */
static u64 laid(opened *at, const uint8_t *bytes, size_t length, const uint8_t *others, size_t count)
{
    u64 both = (u64)length + count;
    if (at->room == 0 || at->held < both) {
        leave_room(at);
        at->room = module_alloc(&at->m, both != 0 ? both : 1);
        at->held = at->room != 0 ? both : 0;
    }
    if (at->room != 0 && length != 0)
        memcpy(at->m.base + (size_t)at->room, bytes, length);
    if (at->room != 0 && count != 0)
        memcpy(at->m.base + (size_t)at->room + length, others, count);
    return at->room;
}

/* After a call: room for the next one stays, if it isn't much. */
static void used(opened *at)
{
    if (at->held > KEPT)
        leave_room(at);
}

void gazhdor_close(gazhdor_stream *stream)
{
    opened_free(stream->at);
    stream->at = NULL;
}

gazhdor_answer gazhdor_open(gazhdor_stream *stream, uint32_t kind)
{
    gazhdor_close(stream);
    opened *at = opened_new();
    if (at == NULL)
        return only(GAZHDOR_NO_MEMORY);
    module_open(&at->m, at->place, at->inner, kind);
    gazhdor_answer answer = answer_at(&at->m, at->place);
    stream->at = at;
    if (answer.status != GAZHDOR_GOOD)
        gazhdor_close(stream);
    return answer;
}

/* The answer of a call of a stream, and its text. */
static gazhdor_answer told(opened *at, gazhdor_text *text)
{
    gazhdor_answer answer = made(&at->m, at->place, text);
    at->lost = answer.status == GAZHDOR_NO_MEMORY;
    return answer;
}

gazhdor_answer gazhdor_feed(gazhdor_stream *stream, const uint8_t *bytes, size_t length, gazhdor_text *text)
{
    opened *at = stream->at;
    if (at == NULL)
        return only(GAZHDOR_CLOSED);
    u64 piece = at->lost ? 0 : laid(at, bytes, length, NULL, 0);
    at->lost = piece == 0;
    if (at->lost)
        return only(GAZHDOR_NO_MEMORY);
    no_text(&at->m, at->place);
    module_feed(&at->m, at->place, at->inner, piece, length, at->place + TEXT);
    gazhdor_answer answer = told(at, text);
    used(at);
    return answer;
}

gazhdor_answer gazhdor_finish(gazhdor_stream *stream, gazhdor_text *text)
{
    opened *at = stream->at;
    if (at == NULL)
        return only(GAZHDOR_CLOSED);
    if (at->lost)
        return only(GAZHDOR_NO_MEMORY);
    no_text(&at->m, at->place);
    module_finish(&at->m, at->place, at->inner, at->place + TEXT);
    return told(at, text);
}

void gazhdor_writer_close(gazhdor_writer *writer)
{
    opened_free(writer->at);
    writer->at = NULL;
}

gazhdor_answer gazhdor_writer_open(gazhdor_writer *writer)
{
    gazhdor_writer_close(writer);
    opened *at = opened_new();
    if (at == NULL)
        return only(GAZHDOR_NO_MEMORY);
    module_writer_open(&at->m, at->place, at->inner);
    gazhdor_answer answer = answer_at(&at->m, at->place);
    writer->at = at;
    if (answer.status != GAZHDOR_GOOD)
        gazhdor_writer_close(writer);
    return answer;
}

typedef void module_put(memory *m, u64 answer, u64 writer, u64 block, u64 length);

static gazhdor_answer put_block(module_put *call, gazhdor_writer *writer, const uint8_t *block, size_t length)
{
    opened *at = writer->at;
    if (at == NULL)
        return only(GAZHDOR_CLOSED);
    u64 copy = laid(at, block, length, NULL, 0);
    if (copy == 0)
        return only(GAZHDOR_NO_MEMORY);
    call(&at->m, at->place, at->inner, copy, length);
    used(at);
    return answer_at(&at->m, at->place);
}

gazhdor_answer gazhdor_writer_file(gazhdor_writer *writer, const uint8_t *block, size_t length)
{
    return put_block(module_writer_file, writer, block, length);
}

gazhdor_answer gazhdor_writer_definition(gazhdor_writer *writer, const uint8_t *block, size_t length)
{
    return put_block(module_writer_definition, writer, block, length);
}

gazhdor_answer gazhdor_writer_messages(gazhdor_writer *writer, const uint8_t *definition, size_t definition_length,
    const uint8_t *blocks, size_t length)
{
    opened *at = writer->at;
    if (at == NULL)
        return only(GAZHDOR_CLOSED);
    u64 copy = laid(at, definition, definition_length, blocks, length);
    if (copy == 0)
        return only(GAZHDOR_NO_MEMORY);
    module_writer_messages(&at->m, at->place, at->inner, copy, definition_length, copy + definition_length, length);
    used(at);
    return answer_at(&at->m, at->place);
}

gazhdor_answer gazhdor_writer_finish(gazhdor_writer *writer, gazhdor_text *bytes)
{
    opened *at = writer->at;
    if (at == NULL)
        return only(GAZHDOR_CLOSED);
    no_text(&at->m, at->place);
    module_writer_finish(&at->m, at->place, at->inner, at->place + TEXT);
    return made(&at->m, at->place, bytes);
}
