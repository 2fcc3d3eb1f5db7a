/* The kinds of recording.c in which each record is followed by a message of another kind, as many devices write them: its record has 25
   fields, four of them lists of two numbers, and two of a developer; or it is small, with five. recording.c includes this file once. */

static const struct entry wide[] = {
    {253, 4, UINT32}, {0, 4, SINT32},  {1, 4, SINT32},  {5, 4, UINT32},  {2, 2, UINT16},  {78, 4, UINT32}, {6, 2, UINT16},
    {73, 4, UINT32},  {3, 1, UINT8},   {4, 1, UINT8},   {7, 2, UINT16},  {13, 1, SINT8},  {29, 4, UINT32}, {30, 1, UINT8},
    {39, 2, UINT16},  {40, 2, UINT16}, {41, 2, UINT16}, {42, 1, ENUM},   {43, 1, UINT8},  {45, 1, UINT8},  {53, 1, UINT8},
    {69, 2, UINT8},   {70, 2, UINT8},  {71, 2, UINT8},  {72, 2, UINT8}};
static const struct entry strains[] = {{1, 4, 0}, {3, 4, 0}};
static const struct entry small_record[] = {{253, 4, UINT32}, {0, 4, SINT32}, {1, 4, SINT32}, {3, 1, UINT8}, {6, 2, UINT16}};
static const struct entry hrv[] = {{0, 10, UINT16}};
enum { HRV = 78, AT_HRV = AT_PLAIN_RECORD, TURN = 1000 };

/* The entry that stands at a place of the nth definition of the record: the time first, and each time another one after it. */
static struct entry wide_entry(unsigned place, unsigned nth)
{
    return place == 0 ? wide[0] : wide[1 + (place - 1 + nth) % (LENGTH(wide) - 1)];
}

static void define_wide(unsigned nth)
{
    put(0x60 | AT_RECORD, 1);
    put(0, 2);
    put(RECORD, 2);
    struct entry turned[LENGTH(wide)];
    for (unsigned place = 0; place < LENGTH(wide); place++)
        turned[place] = wide_entry(place, nth);
    put_entries(turned, LENGTH(turned));
    put_entries(strains, LENGTH(strains));
}

/* A value of a field, in its bytes: near another one where it is a place, a distance or an altitude. */
static unsigned value_of(struct entry entry, unsigned k)
{
    switch (entry.first) {
    case 253: return now;
    case 0: return (unsigned)(latitude += (int32_t)any(120) - 40);
    case 1: return (unsigned)(longitude += (int32_t)any(160) - 60);
    case 5: return distance += 250 + any(500);
    case 2: case 78: return 2500 + any(1500);
    case 29: return 200 * k;
    case 3: return k % 97 == 0 ? 0xFF : 90 + any(80);
    case 7: return k % 61 == 0 ? 0xFFFF : 80 + any(300);
    case 69: case 70: case 71: case 72: return k % 53 == 0 ? 0xFFFF : any(65536);
    default: return entry.size == 1 ? any(120) : 2500 + any(5000);
    }
}

static void put_hrv(void)
{
    unsigned length = 2 + any(4);
    put(AT_HRV, 1);
    for (unsigned k = 0; k < 5; k++)
        put(k < length ? 400 + any(600) : 0xFFFF, 2);
}

static void put_wide_record(unsigned k)
{
    put(AT_RECORD, 1);
    for (unsigned place = 0; place < LENGTH(wide); place++) {
        struct entry entry = wide_entry(place, k / TURN);
        put(value_of(entry, k), entry.size);
    }
    for (unsigned own = 0; own < LENGTH(strains); own++) {
        union {
            float value;
            uint32_t bits;
        } strain = {.value = (float)any(10000) / 16};
        put(strain.bits, 4);
    }
}

static void put_small_record(unsigned k)
{
    put(AT_RECORD, 1);
    for (unsigned place = 0; place < LENGTH(small_record); place++)
        put(value_of(small_record[place], k), small_record[place].size);
}

/* A new definition comes every 2,000 messages, half of which are records. */
static void make_interleaved(size_t size, int is_small)
{
    if (is_small) {
        define(AT_RECORD, RECORD, small_record, LENGTH(small_record));
    } else {
        put_descriptions();
        describe(3, FLOAT32, "Leg spring", "kN/m");
    }
    define(AT_HRV, HRV, hrv, LENGTH(hrv));
    define(AT_LAP, LAP, lap, LENGTH(lap));
    for (unsigned k = 0; count + 600 < size; k++) {
        if (!is_small && k % TURN == 0)
            define_wide(k / TURN);
        is_small ? put_small_record(k) : put_wide_record(k);
        put_hrv();
        now++;
        if (k % 600 == 599)
            put_lap();
        if (k % 997 == 996)
            put_event(4);
    }
}
