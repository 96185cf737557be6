/* Tests of the entries over records: where the names lie, counts, spare records, and what is not looked at. */
#include "check.h"

/* A row as a start and a length; all of them exist. */
struct place {
    unsigned start, len;
};

/* Lends records of these places; at most 8. */
static void lend_places(const struct place *places, size_t count)
{
    struct luspemaro_record records[8] = {{0, 0, 0, 0}};
    for (size_t i = 0; i < count; i++) {
        records[i].flags = LUSPEMARO_FLAG_EXISTS;
        records[i].start = (uint16_t)places[i].start;
        records[i].len = (uint8_t)places[i].len;
        records[i].readers = LUSPEMARO_READERS_ALL;
    }
    lend_bytes(RECORD, records, count * sizeof records[0]);
}

/* Whether the first count of the lent records pass over the lent names, with a summary that is counted of them. */
static bool counted_pass(size_t count)
{
    lend_summary(count, lent_records_length());
    return lent_pass(count);
}

/* Names inside the area, in any order of their bytes, without overlap; the records ascend by name. */
static void layouts(void)
{
    static const struct {
        bool good;
        const char *area;
        size_t count;
        struct place places[3];
    } cases[] = {
        {true, "", 0, {{0, 0}}},
        {true, "%\r*", 0, {{0, 0}}},
        {true, "abc", 3, {{0, 1}, {1, 1}, {2, 1}}},
        {true, "cba", 3, {{2, 1}, {1, 1}, {0, 1}}},
        {true, "MooINBOX", 2, {{3, 5}, {0, 3}}},
        {true, "a%b", 2, {{0, 1}, {2, 1}}},
        {true, "aab", 2, {{1, 1}, {2, 1}}},
        {true, "FooFoo/BarFoo", 2, {{0, 3}, {3, 7}}},
        {false, "cba", 3, {{0, 1}, {1, 1}, {2, 1}}},
        {false, "aa", 2, {{0, 1}, {1, 1}}},
        {false, "abc", 2, {{0, 2}, {1, 2}}},
        {false, "bac", 2, {{1, 2}, {0, 2}}},
        {false, "bac", 2, {{1, 1}, {0, 3}}},
        {false, "abc", 2, {{0, 3}, {1, 1}}},
        {false, "abc", 2, {{0, 1}, {0, 3}}},
        {false, "abc", 2, {{0, 3}, {2, 1}}},
        {false, "adcb", 3, {{0, 2}, {3, 1}, {1, 1}}},
        {false, "Foo/BarFoo", 2, {{0, 3}, {0, 7}}},
        {false, "a", 1, {{0, 0}}},
        {false, "", 1, {{0, 0}}},
    };
    for (size_t i = 0; i < sizeof cases / sizeof cases[0]; i++) {
        lend_places(cases[i].places, cases[i].count);
        lend_bytes(NAMES, cases[i].area, strlen(cases[i].area));
        EXPECT(counted_pass(cases[i].count) == cases[i].good);
    }
}

/* Every start over an area of 300 bytes, with the shortest and the longest name, and every length where one may pass. A sum does not wrap
 * around. */
static void expect_place(unsigned start, unsigned len)
{
    const struct place place = {start, len};
    lend_places(&place, 1);
    EXPECT(counted_pass(1) == (1 <= len && len <= LUSPEMARO_MAX_NAME && start + len <= lent_length(NAMES)));
}

static void every_place(void)
{
    memset(lend(NAMES, 300), 'a', 300);
    for (unsigned start = 0; start <= 0xFFFF; start++) {
        expect_place(start, 1);
        expect_place(start, LUSPEMARO_MAX_NAME);
    }
    for (unsigned start = 0; start <= 301; start++)
        for (unsigned len = 0; len <= 0xFF; len++)
            expect_place(start, len);
}

/* An area of 32,768 bytes and one more, with rows at both ends and without; 512 rows and one more. */
static void limits(void)
{
    static const struct place ends[] = {{0, 1}, {LUSPEMARO_MAX_AREA - 2, 2}};
    for (size_t length = LUSPEMARO_MAX_AREA - 1; length <= LUSPEMARO_MAX_AREA + 1; length++) {
        memset(lend(NAMES, length), 'a', length);
        lend_places(ends, 2);
        EXPECT(counted_pass(2) == (length == LUSPEMARO_MAX_AREA));
        EXPECT(counted_pass(0) == (length <= LUSPEMARO_MAX_AREA));
    }
    enum { MANY = LUSPEMARO_MAX_ROWS + 1 };
    struct luspemaro_record *records = (struct luspemaro_record *)lend(RECORD, MANY * sizeof *records);
    uint8_t *area = lend(NAMES, 2 * MANY);
    for (size_t row = 0; row < MANY; row++) {
        area[2 * row] = (uint8_t)('A' + row / 26);
        area[2 * row + 1] = (uint8_t)('A' + row % 26);
        records[row].flags = LUSPEMARO_FLAG_EXISTS;
        records[row].start = (uint16_t)(2 * row);
        records[row].len = 2;
        records[row].readers = (uint8_t)row;
    }
    EXPECT(counted_pass(LUSPEMARO_MAX_ROWS) && !counted_pass(MANY));
}

/* Rows are the first records: those after them are not looked at, and no count above the records passes. */
static void counts(void)
{
    static const struct place places[] = {{0, 1}, {1, 1}, {0, 1}, {0xFFFF, 0xFF}};
    lend_bytes(NAMES, "ab", 2);
    for (size_t lent_count = 0; lent_count <= 4; lent_count++) {
        lend_places(places, lent_count);
        for (size_t count = 0; count <= 5; count++)
            EXPECT(counted_pass(count) == (count <= lent_count && count <= 2));
        for (unsigned bit = 3; bit < 64; bit++)
            EXPECT(!counted_pass((size_t)1 << bit) && !counted_pass(((size_t)1 << bit) + 2));
        EXPECT(!counted_pass(SIZE_MAX));
    }
}

/* ---- answers and walks */

enum { ROOM = 2000 };

static struct luspemaro_outcome answer_text(size_t count, const char *line)
{
    lend_summary(count, lent_records_length());
    return answer_lent(count, line, strlen(line), ROOM);
}

static struct luspemaro_outcome walk_of(size_t count, unsigned option)
{
    lend_summary(count, lent_records_length());
    return walk_lent(count, option, ROOM);
}

/* Whether 1 is given before every other refusal, and the lent memory is as it is after a refusal. */
static bool refuses_table(size_t count)
{
    static const char *const lines[] = {"a LIST \"\" *\r\n", "", "a SUBSCRIBE a\r\n", "a SUBSCRIBE \"\"\r\n", "a UNSUBSCRIBE x\r\n"};
    bool holds = true;
    lend_bytes(NAMESPACES, "\3\0/", 3);
    for (size_t i = 0; i < sizeof lines / sizeof lines[0]; i++)
        holds = holds && is_refusal_of_rows(answer_text(count, lines[i]), LUSPEMARO_REFUSAL_TABLE, count) && untouched(OUT)
                && rows_untouched();
    lend(NAMESPACES, 0);
    for (unsigned option = 0; option <= 0xFF; option += 51)
        holds = holds && is_refusal(walk_of(count, option), LUSPEMARO_REFUSAL_TABLE) && all_are(lent(SCRATCH), ROOM, 0)
                && all_are(lent(FOUND), ROOM, 0) && all_are(lent(PENDING), ROOM, 0);
    return holds;
}

static void refusals(void)
{
    static const struct place apart[] = {{0, 1}, {1, 1}}, overlapping[] = {{0, 1}, {0, 2}}, past[] = {{0, 1}, {1, 2}};
    lend_bytes(NAMES, "ab", 2);
    lend_places(apart, 2);
    EXPECT(refuses_table(3) && refuses_table(SIZE_MAX));
    lend_places(overlapping, 2);
    EXPECT(refuses_table(2));
    lend_places(past, 2);
    EXPECT(refuses_table(2));
    memset(lend(NAMES, LUSPEMARO_MAX_AREA + 1), 'a', LUSPEMARO_MAX_AREA + 1);
    EXPECT(refuses_table(0));
}

/* A count of rows, spare records after them, and unused bytes that hold a name too. */
static void count_of_an_answer(void)
{
    static const char line[] = "a LIST \"\" *\r\n", one[] = "* LIST () \"/\" \"Bar\"\r\na OK done\r\n";
    static const struct place places[] = {{3, 3}, {9, 3}, {3, 3}};
    lend_places(places, 3);
    lend_bytes(NAMES, "BarBarFooFoo", 12);
    struct luspemaro_outcome r = answer_text(1, line);
    EXPECT(r.number == LUSPEMARO_DONE && r.count == 1 && r.length == strlen(one) && memcmp(lent(OUT), one, strlen(one)) == 0);
    EXPECT(answer_text(2, line).length > r.length && answer_text(0, line).length == strlen("a OK done\r\n"));
    EXPECT(is_refusal_of_rows(answer_text(3, line), LUSPEMARO_REFUSAL_TABLE, 3));
    r = walk_of(2, 0);
    EXPECT(r.number == LUSPEMARO_DONE && r.count == 1 && r.length == 0);
}

/* The records of a packed table, over its own bytes, give what its records give over names that lie in another order, and are walked as
 * the packed table is. */
static void packed_in_place(void)
{
    static const char line[] = "a LIST (REMOTE) \"\" (% *) RETURN (CHILDREN SUBSCRIBED)\r\n";
    static uint8_t before[ROOM];
    const struct rows *table = table_e();
    size_t count = lend_records(table), at = 0;
    struct luspemaro_outcome turned = answer_text(count, line);
    memcpy(before, lent(OUT), ROOM);
    for (size_t row = 0; row < count; row++) {
        lent_records()[row].start = (uint16_t)(at + HEAD);
        at += (size_t)HEAD + lent_records()[row].len;
    }
    lend_bytes(NAMES, table->bytes, table->length);
    struct luspemaro_outcome r = answer_text(count, line);
    EXPECT(r.number == LUSPEMARO_DONE && r.length == turned.length && memcmp(lent(OUT), before, ROOM) == 0);
    form = PACKED;
    struct luspemaro_outcome packed = walk(table, 0, ROOM, ROOM, ROOM);
    memcpy(before, lent(FOUND), ROOM);
    r = walk_of(count, 0);
    EXPECT(r.number == LUSPEMARO_DONE && r.length == packed.length && r.count == packed.count);
    EXPECT(memcmp(lent(FOUND), before, ROOM) == 0);
}

/* The check, the walk and commands that are no edits write into no record and no byte of the area. */
static void lent_for_reading(void)
{
    size_t count = lend_records(table_e());
    EXPECT(answer_text(count, "a LIST \"\" *\r\n").number == LUSPEMARO_DONE && rows_untouched());
    EXPECT(answer_text(count, "a LSUB \"\" *\r\n").number == LUSPEMARO_DONE && rows_untouched());
    EXPECT(counted_pass(count) && rows_untouched());
    EXPECT(walk_of(count, 0).number == LUSPEMARO_DONE && walk_of(count, 9).number == LUSPEMARO_REFUSAL_OPTION && rows_untouched());
}

const struct test record_tests[] = {
    {"records: layouts", layouts},
    {"records: every start and length", every_place},
    {"records: limits", limits},
    {"records: counts and spare records", counts},
    {"records: 1 before every refusal", refusals},
    {"records: the count of an answer", count_of_an_answer},
    {"records: a packed table in its place", packed_in_place},
    {"records: lent for reading", lent_for_reading},
    {NULL, NULL},
};
