/* Tests how much memory gazhdor_from_messages takes at its most, and of which blocks it takes none: peak FILE.. Of the blocks of each FILE it
 * holds at most three times the bytes of the file, as a list that grows has the old one and the new one at once, and 64 KB more; a writer of
 * them at most three times, and at most seven times while it finishes, where data, chain and what is handed out are there at once. Of no blocks,
 * and of such as don't begin with a header that can stand and a block after it, it takes none at all: with all memory refused it says which
 * block is wrong. Bytes are counted, and all memory is refused at times: link with --wrap=malloc, realloc and free. */
#define COUNTED
#include "want.h"

/* The blocks of a file, back to its bytes. */
static void back(const char *name, const uint8_t *bytes, size_t length)
{
    gazhdor_text blocks = GAZHDOR_NO_TEXT, made = GAZHDOR_NO_TEXT;
    WANT_OF(gazhdor_messages(bytes, length, &blocks).status == GAZHDOR_GOOD, "%s\n", name);
    size_t before = memory.held;
    memory.most = memory.held;
    WANT_OF(gazhdor_from_messages(blocks.bytes, blocks.length, &made).status == GAZHDOR_GOOD, "%s\n", name);
    WANT_OF(made.length == length && memcmp(made.bytes, bytes, length) == 0, "%s: %zu bytes of %zu\n", name, made.length, length);
    WANT_OF(memory.most - before <= 3 * length + 65536, "%s: %zu bytes of memory for %zu\n", name, memory.most - before, length);
    gazhdor_free(made);
    WANT_OF(memory.held == before, "%s: %zu bytes left\n", name, memory.held - before);
    gazhdor_free(blocks);
}

static void put(gazhdor_writer *writer, gazhdor_reader *at)
{
    gazhdor_answer answer = { 0, 0, 0, 0, 0, 0 };
    if (at->block.kind == GAZHDOR_FILE_HEADER)
        answer = gazhdor_writer_file(writer, at->block.bytes, at->block.length);
    else if (at->block.kind == GAZHDOR_DEFINITION)
        answer = gazhdor_writer_definition(writer, at->block.bytes, at->block.length);
    else if (at->block.kind == GAZHDOR_MESSAGE)
        answer = gazhdor_writer_messages(writer, at->definition.bytes, at->definition.length, at->block.bytes, at->block.length);
    WANT(answer.status == GAZHDOR_GOOD);
}

/* The same by a writer, twice over. */
static void put_back(const char *name, const uint8_t *bytes, size_t length)
{
    gazhdor_text blocks = GAZHDOR_NO_TEXT;
    gazhdor_writer writer = GAZHDOR_CLOSED_WRITER;
    WANT_OF(gazhdor_messages(bytes, length, &blocks).status == GAZHDOR_GOOD && gazhdor_writer_open(&writer).status == GAZHDOR_GOOD, "%s\n", name);
    size_t before = memory.held;
    memory.most = memory.held;
    for (gazhdor_reader at = gazhdor_read(blocks); gazhdor_next(&at);)
        put(&writer, &at);
    WANT_OF(memory.most - before <= 3 * length + 65536, "%s: %zu bytes of memory for %zu\n", name, memory.most - before, length);
    for (int i = 0; i < 2; i++) {
        gazhdor_text made = GAZHDOR_NO_TEXT;
        WANT_OF(gazhdor_writer_finish(&writer, &made).status == GAZHDOR_GOOD && made.length == length, "%s\n", name);
        gazhdor_free(made);
    }
    WANT_OF(memory.most - before <= 7 * length + 65536, "%s: %zu bytes of memory for %zu\n", name, memory.most - before, length);
    gazhdor_writer_close(&writer);
    gazhdor_free(blocks);
}

/* The answer of some blocks while all memory is refused. */
static void refuses(const char *what, const uint8_t *blocks, size_t length, uint32_t reason, uint64_t row, uint64_t place)
{
    gazhdor_text made = GAZHDOR_NO_TEXT;
    memory.refuses = 1;
    gazhdor_answer answer = gazhdor_from_messages(blocks, length, &made);
    memory.refuses = 0;
    WANT_OF(answer.status == GAZHDOR_BLOCK && answer.reason == reason && answer.row == row && answer.place == place, "%s: status %u, reason %u\n", what,
        answer.status, answer.reason);
    WANT_OF(made.length == 0, "%s\n", what);
}

static void takes_none(const uint8_t *bytes, size_t length)
{
    gazhdor_text blocks = GAZHDOR_NO_TEXT;
    WANT_OF(gazhdor_messages(bytes, length, &blocks).status == GAZHDOR_GOOD, "the first file\n");
    uint32_t first;
    memcpy(&first, blocks.bytes, sizeof first);
    refuses("no blocks", blocks.bytes, 0, GAZHDOR_BLOCK_CUT, 0, 0);
    for (uint32_t cut = 1; cut < first; cut++)
        refuses("a header that is cut", blocks.bytes, cut, GAZHDOR_BLOCK_CUT, 0, 0);
    for (uint32_t more = 0; more < 24; more++)
        refuses("a header without a block after it", blocks.bytes, first + more, GAZHDOR_BLOCK_CUT, 1, first);
    refuses("blocks without a header", blocks.bytes + first, blocks.length - first, GAZHDOR_BLOCK_KIND, 0, 0);
    uint8_t *header = (uint8_t *)(uintptr_t)blocks.bytes;
    header[6] = 0x30;
    refuses("a header of protocol 3", header, blocks.length, GAZHDOR_BLOCK_HEADER, 0, 0);
    gazhdor_free(blocks);
}

int main(int count, char **words)
{
    for (int i = 1; i < count; i++) {
        gazhdor_text file = file_of(words[i], 1 << 20);
        memory.held = 0;
        back(words[i], file.bytes, file.length);
        put_back(words[i], file.bytes, file.length);
        if (i == 1)
            takes_none(file.bytes, file.length);
        free_file(file);
    }
    return 0;
}
