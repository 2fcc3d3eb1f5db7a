/* Whether an answer of gazhdor_from_messages is right, worked out from the blocks by docs/BLOCKS.md. mutants.c includes it after want.h and ask, which
 * makes the call. */

/* ---- what the blocks say */

static uint64_t number(const uint8_t *at, int width)
{
    uint64_t n = 0;
    while (width-- > 0)
        n = n << 8 | at[width];
    return n;
}

/* The length of the block there; 0 where none is whole. */
static size_t own_length(gazhdor_text blocks, size_t at)
{
    uint64_t length = blocks.length - at < GAZHDOR_LEAST_BLOCK ? 0 : number(blocks.bytes + at, 4);
    return length < GAZHDOR_LEAST_BLOCK || length % 8 != 0 || length > blocks.length - at ? 0 : (size_t)length;
}

/* Where the entries of a definition begin. */
static size_t first_entry(const uint8_t *definition, size_t length)
{
    size_t at = GAZHDOR_AT_DEFINITION_NAME;
    while (at < length && definition[at] != 0)
        at++;
    return at / 8 * 8 + 8;
}

/* Whether a definition of a file says which developer fields there are. */
static int says_developers(const uint8_t *definition)
{
    return (definition[GAZHDOR_AT_DEFINITION_BITS] & GAZHDOR_SAYS_DEVELOPERS) != 0;
}

/* How many bytes a definition of a file has, and how many each message of it. */
static uint64_t size_of_definition(const uint8_t *block)
{
    uint64_t developers = number(block + GAZHDOR_AT_DEFINITION_DEVELOPERS, 2);
    return 6 + 3 * number(block + GAZHDOR_AT_DEFINITION_FIELDS, 2) + (says_developers(block) ? 1 + 3 * developers : 0);
}

static uint64_t size_of_message(const uint8_t *block)
{
    uint64_t size = 1, length = number(block, 4);
    for (size_t at = first_entry(block, (size_t)length); at < length; at += (size_t)number(block + at, 2))
        size += (uint64_t)block[at + GAZHDOR_AT_ENTRY_WIDTH] * block[at + GAZHDOR_AT_ENTRY_COUNT];
    return size;
}

/* Whether the checksum of a header that begins so is 0. */
static int is_zero_sum(const uint8_t *block, uint64_t data)
{
    uint8_t bytes[12] = { block[GAZHDOR_AT_HEADER_SIZE], block[GAZHDOR_AT_HEADER_PROTOCOL], block[GAZHDOR_AT_HEADER_PROFILE],
        block[GAZHDOR_AT_HEADER_PROFILE + 1], (uint8_t)data, (uint8_t)(data >> 8), (uint8_t)(data >> 16),
        (uint8_t)(data >> 24), '.', 'F', 'I', 'T' };
    return checksum(bytes, sizeof bytes) == 0;
}

/* Whether blocks that can all stand where they are say a file that can't be written. None has too much data: a block of 24 bytes or more says
 * at most 1 + 510 * 255 bytes. So one has zeros for a checksum that is 0. */
static int are_unwritable(gazhdor_text blocks)
{
    uint64_t sizes[16] = { 0 }, data = 0;
    const uint8_t *header = NULL;
    int are = 0;
    for (size_t at = 0; at < blocks.length; at += own_length(blocks, at)) {
        const uint8_t *block = blocks.bytes + at;
        switch (block[GAZHDOR_AT_KIND]) {
        case GAZHDOR_FILE_HEADER: header = block, data = 0; break;
        case GAZHDOR_DEFINITION: data += size_of_definition(block), sizes[block[GAZHDOR_AT_DEFINITION_LOCAL]] = size_of_message(block); break;
        case GAZHDOR_MESSAGE: data += sizes[block[GAZHDOR_AT_MESSAGE_LOCAL]]; break;
        default: are = are || (header[GAZHDOR_AT_HEADER_SUM] == GAZHDOR_ZERO_SUM && is_zero_sum(header, data));
        }
    }
    return are;
}

/* ---- whether an answer is right */

/* What comes before the refused block: how many blocks, where the last file ends, whether one has begun, what it defines. */
typedef struct {
    uint64_t row;
    size_t whole;
    int within;
    int defined[256];
} before;

static before before_place(gazhdor_text blocks, uint64_t place)
{
    before b = { 0, 0, 0, { 0 } };
    size_t at = 0, length;
    for (; at < place; at += length, b.row++) {
        length = own_length(blocks, at);
        WANT(length != 0);
        uint8_t kind = blocks.bytes[at + GAZHDOR_AT_KIND];
        b.within = kind != GAZHDOR_FILE_END;
        b.whole = b.within ? b.whole : at + length;
        if (kind == GAZHDOR_FILE_HEADER)
            memset(b.defined, 0, sizeof b.defined);
        if (kind == GAZHDOR_DEFINITION)
            b.defined[blocks.bytes[at + GAZHDOR_AT_DEFINITION_LOCAL]] = 1;
    }
    WANT(at == place);
    return b;
}

/* Whether this reason can be said of a block, as far as its first bytes show. */
static int is_reason(uint32_t reason, const uint8_t *block, const before *b)
{
    int kind = block[GAZHDOR_AT_KIND], offset = block[GAZHDOR_AT_MESSAGE_OFFSET], is_offset = offset != GAZHDOR_NO_OFFSET;
    int is_definition = b->within && kind == GAZHDOR_DEFINITION, is_message = b->within && kind == GAZHDOR_MESSAGE;
    int local = block[kind == GAZHDOR_DEFINITION ? GAZHDOR_AT_DEFINITION_LOCAL : GAZHDOR_AT_MESSAGE_LOCAL];
    int architecture = block[GAZHDOR_AT_DEFINITION_ARCHITECTURE];
    switch (reason) {
    case GAZHDOR_BLOCK_KIND: return b->within ? kind < GAZHDOR_DEFINITION || kind > GAZHDOR_FILE_END : kind != GAZHDOR_FILE_HEADER;
    case GAZHDOR_BLOCK_HEADER: return kind == GAZHDOR_FILE_HEADER && !b->within;
    case GAZHDOR_BLOCK_LOCAL: return is_definition ? local > 15 : is_message && local > (is_offset ? 3 : 15);
    case GAZHDOR_BLOCK_ARCHITECTURE: return is_definition && architecture > GAZHDOR_BIG_ENDIAN;
    case GAZHDOR_BLOCK_ENTRIES:
    case GAZHDOR_BLOCK_SIZE: return is_definition && local < 16 && architecture <= GAZHDOR_BIG_ENDIAN;
    case GAZHDOR_BLOCK_OFFSET: return is_message && offset > 31 && is_offset;
    case GAZHDOR_BLOCK_UNDEFINED: return is_message && !b->defined[local];
    case GAZHDOR_BLOCK_ITEMS: return is_message && b->defined[local];
    default: return 0;
    }
}

/* The blocks before the refused one can stand where they are: alone they end too early, or are those of whole files; and those up to the last
 * end of a file are. */
static void see_refused(gazhdor_text blocks, gazhdor_answer a)
{
    WANT(a.place <= blocks.length);
    before b = before_place(blocks, a.place);
    WANT(a.row == b.row);
    if (a.reason == GAZHDOR_BLOCK_CUT)
        WANT(a.place == blocks.length ? b.within || a.row == 0 : own_length(blocks, (size_t)a.place) == 0);
    else
        WANT(a.place < blocks.length && own_length(blocks, (size_t)a.place) != 0 && is_reason(a.reason, blocks.bytes + a.place, &b));
    gazhdor_text front = { blocks.bytes, (size_t)a.place }, whole = { blocks.bytes, b.whole };
    gazhdor_text file = GAZHDOR_NO_TEXT, none = GAZHDOR_NO_TEXT;
    if (b.whole != 0)
        WANT(ask(whole, &file).status == (uint32_t)(are_unwritable(whole) ? GAZHDOR_UNWRITABLE : GAZHDOR_GOOD));
    if (b.whole != a.place || a.place == 0) {
        gazhdor_answer cut = ask(front, &none);
        WANT(cut.status == GAZHDOR_BLOCK && cut.reason == GAZHDOR_BLOCK_CUT && cut.row == a.row && cut.place == a.place);
    }
    gazhdor_free(file);
}

/* Whether two headers say the same, those of more than 12 bytes also in what comes after their checksum. */
static int same_headers(const uint8_t *x, const uint8_t *y)
{
    size_t rest = x[GAZHDOR_AT_HEADER_SUM] == GAZHDOR_NO_SUM ? 0 : x[GAZHDOR_AT_HEADER_SIZE] - 14u;
    return memcmp(x + GAZHDOR_AT_HEADER_SIZE, y + GAZHDOR_AT_HEADER_SIZE, 3) == 0
        && number(x + GAZHDOR_AT_HEADER_PROFILE, 8) == number(y + GAZHDOR_AT_HEADER_PROFILE, 8)
        && memcmp(x + GAZHDOR_AT_HEADER_REST, y + GAZHDOR_AT_HEADER_REST, rest) == 0;
}

/* Whether two definitions say the same fields. */
static int same_fields(const uint8_t *x, const uint8_t *y)
{
    size_t at = first_entry(x, number(x, 4)), other = first_entry(y, number(y, 4));
    int is = memcmp(x + GAZHDOR_AT_DEFINITION_LOCAL, y + GAZHDOR_AT_DEFINITION_LOCAL, 3) == 0
        && memcmp(x + GAZHDOR_AT_DEFINITION_MESSAGE, y + GAZHDOR_AT_DEFINITION_MESSAGE, 6) == 0 && says_developers(x) == says_developers(y);
    for (; at < number(x, 4) && other < number(y, 4); at += number(x + at, 2), other += number(y + other, 2)) {
        const uint8_t *e = x + at, *f = y + other;
        size_t meaning = e[GAZHDOR_AT_ENTRY_DEVELOPER] ? GAZHDOR_AT_ENTRY_INDEX : GAZHDOR_AT_ENTRY_BASE_TYPE;
        is = is && memcmp(e + GAZHDOR_AT_ENTRY_NUMBER, f + GAZHDOR_AT_ENTRY_NUMBER, 2) == 0 && e[meaning] == f[meaning]
            && memcmp(e + GAZHDOR_AT_ENTRY_WIDTH, f + GAZHDOR_AT_ENTRY_WIDTH, 2) == 0;
    }
    return is && at == number(x, 4) && other == number(y, 4);
}

/* Whether two messages of such definitions have the same items. */
static int same_items(const uint8_t *definition, const uint8_t *x, const uint8_t *others, const uint8_t *y)
{
    size_t at = first_entry(definition, number(definition, 4)), other = first_entry(others, number(others, 4));
    int is = x[GAZHDOR_AT_MESSAGE_LOCAL] == y[GAZHDOR_AT_MESSAGE_LOCAL] && x[GAZHDOR_AT_MESSAGE_OFFSET] == y[GAZHDOR_AT_MESSAGE_OFFSET];
    for (; at < number(definition, 4); at += number(definition + at, 2), other += number(others + other, 2)) {
        const uint8_t *e = definition + at, *f = others + other;
        size_t length = (size_t)e[GAZHDOR_AT_ENTRY_WIDTH] * e[GAZHDOR_AT_ENTRY_COUNT];
        is = is && memcmp(x + number(e + GAZHDOR_AT_ENTRY_ITEMS, 4), y + number(f + GAZHDOR_AT_ENTRY_ITEMS, 4), length) == 0;
    }
    return is;
}

/* Whether the blocks are as many as the others, of the same kinds, and say the same in each place. */
static int say_the_same(gazhdor_text blocks, gazhdor_text others)
{
    const uint8_t *definitions[16] = { NULL }, *other_definitions[16] = { NULL };
    size_t at = 0, other = 0;
    int is = 1;
    for (; is && at < blocks.length && other < others.length; at += own_length(blocks, at), other += own_length(others, other)) {
        const uint8_t *x = blocks.bytes + at, *y = others.bytes + other;
        uint8_t kind = x[GAZHDOR_AT_KIND];
        is = kind == y[GAZHDOR_AT_KIND];
        if (is && kind == GAZHDOR_FILE_HEADER)
            is = same_headers(x, y);
        if (is && kind == GAZHDOR_DEFINITION) {
            is = same_fields(x, y);
            definitions[x[GAZHDOR_AT_DEFINITION_LOCAL]] = x, other_definitions[x[GAZHDOR_AT_DEFINITION_LOCAL]] = y;
        }
        if (is && kind == GAZHDOR_MESSAGE)
            is = same_items(definitions[x[GAZHDOR_AT_MESSAGE_LOCAL]], x, other_definitions[x[GAZHDOR_AT_MESSAGE_LOCAL]], y);
    }
    return is && at == blocks.length && other == others.length;
}

/* The blocks of the file say the same as these, and are those of the same bytes. */
static void see_good(gazhdor_text blocks, gazhdor_text file)
{
    gazhdor_text others = GAZHDOR_NO_TEXT, again = GAZHDOR_NO_TEXT;
    uint64_t files = 0;
    for (size_t at = 0; at < blocks.length; at += own_length(blocks, at))
        files += blocks.bytes[at + GAZHDOR_AT_KIND] == GAZHDOR_FILE_END;
    gazhdor_answer checked = gazhdor_check(file.bytes, file.length);
    WANT(checked.status == GAZHDOR_GOOD && checked.files == files && !are_unwritable(blocks));
    WANT(gazhdor_messages(file.bytes, file.length, &others).status == GAZHDOR_GOOD && say_the_same(blocks, others));
    WANT(gazhdor_from_messages(others.bytes, others.length, &again).status == GAZHDOR_GOOD && same_text(again, file));
    gazhdor_free(others);
    gazhdor_free(again);
}
