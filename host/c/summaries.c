/* Tests of the summary beside the table (document 02's W13): every number of the run, and whether a row changed. */
#include "check.h"

enum { ROOM = 2000, ROWS = 6, LENT = 8 };

/* A number from its four counts: subscribed local and remote, existing local and remote. */
#define NUMBER(a, b, c, d) (UINT64_C(a) | UINT64_C(b) << 16 | UINT64_C(c) << 32 | UINT64_C(d) << 48)

/* Foo exists; Foo x, Foo-x and Foo-x/y, which is remote, sort between it and its children; Foo/Bar does not exist, and Foo/Bar/far is
 * subscribed and remote. Two records are spare, and so are some bytes. Nobody but reader 3 sees a row. */
static void lend_tree(void)
{
    static const char names[] = "FooFoo xFoo-xFoo/BarFoo/Bar/farFoo-x/y................";
    static const struct luspemaro_record records[LENT] = {{1, 0, 3, 8},  {3, 3, 5, 8},   {1, 8, 5, 8},       {5, 31, 7, 8},
                                                          {2, 13, 7, 8}, {7, 20, 11, 8}, {0xFFFF, 9, 9, 9}, {0xFFFF, 9, 9, 9}};
    lend_bytes(NAMES, names, strlen(names));
    lend_bytes(RECORD, records, sizeof records);
    lend_summary(ROWS, LENT);
}

/* Whether the lent numbers are these. */
static bool numbers_are(const uint64_t *numbers, size_t count)
{
    return lent_numbers() == count && memcmp(lent(SUMMARY), numbers, count * sizeof *numbers) == 0 && front_untouched(SUMMARY);
}

static const uint64_t TREE[LENT] = {NUMBER(1, 1, 0, 1), 0, NUMBER(0, 0, 0, 1), 0, NUMBER(0, 1, 0, 1), 0, SPARE_NUMBER, SPARE_NUMBER};

static void counts_of_a_number(void)
{
    const uint64_t number = NUMBER(0xFFFF, 2, 300, 0x8000);
    EXPECT(LUSPEMARO_SUMMARY_SUBSCRIBED_LOCAL(number) == 0xFFFF && LUSPEMARO_SUMMARY_SUBSCRIBED_REMOTE(number) == 2);
    EXPECT(LUSPEMARO_SUMMARY_EXISTING_LOCAL(number) == 300 && LUSPEMARO_SUMMARY_EXISTING_REMOTE(number) == 0x8000);
    EXPECT(LUSPEMARO_SUMMARY_EXISTING_REMOTE(0) == 0 && LUSPEMARO_SUMMARY_SUBSCRIBED_LOCAL(1) == 1);
}

/* The numbers of the rows become what counting gives, whatever they held; those of spare records stay. */
static void summarizes(void)
{
    lend_tree();
    EXPECT(numbers_are(TREE, LENT) && lent_pass(ROWS));
    memset(lent(SUMMARY), FILLER, lent_length(SUMMARY));
    EXPECT(!lent_pass(ROWS) && summarize_lent(ROWS) == LUSPEMARO_DONE && numbers_are(TREE, LENT));
    EXPECT(summarize_lent(ROWS) == LUSPEMARO_DONE && rows_untouched());
    lend(SUMMARY, LENT * sizeof(uint64_t));
    EXPECT(summarize_lent(0) == LUSPEMARO_DONE && untouched(SUMMARY) && lent_pass(0));
}

/* 1 for what does not pass the rest of check 1, and then no number changes. */
static void summarize_refusals(void)
{
    for (size_t count = ROWS + 1; count <= LENT + 2; count++) {
        lend_tree();
        EXPECT(summarize_lent(count) == LUSPEMARO_REFUSAL_TABLE && rows_untouched());
    }
    EXPECT(summarize_lent(SIZE_MAX) == LUSPEMARO_REFUSAL_TABLE && rows_untouched());
    for (size_t numbers = 0; numbers < ROWS; numbers++) {
        lend_tree();
        lend(SUMMARY, numbers * sizeof(uint64_t));
        EXPECT(summarize_lent(ROWS) == LUSPEMARO_REFUSAL_TABLE && untouched(SUMMARY));
    }
    lend_tree();
    lend(SUMMARY, LENT * sizeof(uint64_t));
    lent(NAMES)[0] = '%';
    EXPECT(summarize_lent(ROWS) == LUSPEMARO_REFUSAL_TABLE && untouched(SUMMARY));
}

/* Every bit of every number: 1 for that of a row, from every entry and before 2 and 6, and nothing for that of a spare record. */
static void every_bit(void)
{
    static const char line[] = "a LIST \"\" *\r\n", edit[] = "a SUBSCRIBE \"\"\r\n";
    for (size_t at = 0; at < LENT; at++)
        for (unsigned bit = 0; bit < 64; bit++) {
            bool spare = at >= ROWS;
            lend_tree();
            lent_summary()[at] ^= UINT64_C(1) << bit;
            EXPECT(lent_pass(ROWS) == spare);
            EXPECT(answer_lent(ROWS, line, strlen(line), ROOM).number == (spare ? LUSPEMARO_DONE : LUSPEMARO_REFUSAL_TABLE));
            EXPECT(rows_untouched());
            EXPECT(answer_lent(ROWS, edit, strlen(edit), ROOM).number
                   == (spare ? LUSPEMARO_REFUSAL_UNLAWFUL_NAME : LUSPEMARO_REFUSAL_TABLE));
            EXPECT(rows_untouched());
            EXPECT(walk_lent(ROWS, 8, ROOM).number == (spare ? LUSPEMARO_REFUSAL_OPTION : LUSPEMARO_REFUSAL_TABLE) && rows_untouched());
            EXPECT(compact_lent(ROWS) == (spare ? LUSPEMARO_DONE : LUSPEMARO_REFUSAL_TABLE) && (spare || rows_untouched()));
            lend_bytes(NAMESPACES, "\3\0/", 3);
            EXPECT(answer_lent(ROWS, line, 0, 0).number == (spare ? LUSPEMARO_REFUSAL_NAMESPACES : LUSPEMARO_REFUSAL_TABLE));
            reader = LUSPEMARO_MAX_READER + 1;
            EXPECT(answer_lent(ROWS, line, 0, 0).number == LUSPEMARO_REFUSAL_READER);
            reader = 0;
            lend(NAMESPACES, 0);
        }
}

/* As many records are lent as there are numbers: 1 above that, 15 for an insertion beyond it. */
static void lengths(void)
{
    for (size_t numbers = 0; numbers <= LENT + 2; numbers++) {
        lend_tree();
        lend_summary(ROWS, numbers);
        EXPECT(lent_pass(ROWS) == (numbers >= ROWS));
        size_t count = ROWS;
        for (char name = '0'; numbers >= ROWS && name < '9'; name++) {
            char line[] = "a SUBSCRIBE 0\r\n";
            line[12] = name;
            struct luspemaro_outcome r = answer_lent(count, line, sizeof line - 1, ROOM);
            bool fits = count < numbers && count < LENT;
            EXPECT(fits ? r.number == LUSPEMARO_DONE && r.changed == 1 && r.count == count + 1
                        : is_refusal_of_rows(r, LUSPEMARO_REFUSAL_NO_ROOM, count) && rows_untouched());
            count = r.count;
        }
        for (size_t past = LENT; past < numbers; past++)
            EXPECT(lent_summary()[past] == SPARE_NUMBER);
    }
}

/* Edits, whether they change a row, and every number that they leave. */
static void edits(void)
{
    static const struct {
        const char *line;
        unsigned changed;
        uint64_t numbers[LENT];
    } cases[] = {
        {"SUBSCRIBE Foo", 1, {NUMBER(1, 1, 0, 1), 0, NUMBER(0, 0, 0, 1), 0, NUMBER(0, 1, 0, 1), 0, SPARE_NUMBER, SPARE_NUMBER}},
        {"UNSUBSCRIBE Foo/Bar/far", 1, {NUMBER(1, 0, 0, 1), 0, NUMBER(0, 0, 0, 1), 0, NUMBER(0, 0, 0, 1), 0, SPARE_NUMBER, SPARE_NUMBER}},
        {"SUBSCRIBE Foo-x/y", 1, {NUMBER(1, 1, 0, 1), 0, NUMBER(0, 1, 0, 1), 0, NUMBER(0, 1, 0, 1), 0, SPARE_NUMBER, SPARE_NUMBER}},
        {"SUBSCRIBE Foo/A", 1, {NUMBER(2, 1, 0, 1), 0, NUMBER(0, 0, 0, 1), 0, 0, NUMBER(0, 1, 0, 1), 0, SPARE_NUMBER}},
        {"SUBSCRIBE Foo-x/y/z", 1, {NUMBER(1, 1, 0, 1), 0, NUMBER(1, 0, 0, 1), NUMBER(1, 0, 0, 0), 0, NUMBER(0, 1, 0, 1), 0, SPARE_NUMBER}},
        {"SUBSCRIBE A", 1, {0, NUMBER(1, 1, 0, 1), 0, NUMBER(0, 0, 0, 1), 0, NUMBER(0, 1, 0, 1), 0, SPARE_NUMBER}},
        {"UNSUBSCRIBE Foo/Bar", 1, {NUMBER(0, 1, 0, 1), 0, NUMBER(0, 0, 0, 1), 0, 0, 0, SPARE_NUMBER, SPARE_NUMBER}},
        {"SUBSCRIBE Foo/Bar", 0, {NUMBER(1, 1, 0, 1), 0, NUMBER(0, 0, 0, 1), 0, NUMBER(0, 1, 0, 1), 0, SPARE_NUMBER, SPARE_NUMBER}},
        {"UNSUBSCRIBE nothing", 0, {NUMBER(1, 1, 0, 1), 0, NUMBER(0, 0, 0, 1), 0, NUMBER(0, 1, 0, 1), 0, SPARE_NUMBER, SPARE_NUMBER}},
        {"LSUB \"\" *", 0, {NUMBER(1, 1, 0, 1), 0, NUMBER(0, 0, 0, 1), 0, NUMBER(0, 1, 0, 1), 0, SPARE_NUMBER, SPARE_NUMBER}},
    };
    for (size_t i = 0; i < sizeof cases / sizeof cases[0]; i++) {
        char line[60] = "a ";
        strcat(strcat(line, cases[i].line), "\r\n");
        lend_tree();
        struct luspemaro_outcome r = answer_lent(ROWS, line, strlen(line), ROOM);
        EXPECT(r.number == LUSPEMARO_DONE && r.changed == cases[i].changed && numbers_are(cases[i].numbers, LENT));
        EXPECT(r.changed == 1 || rows_untouched());
        EXPECT(lent_pass(r.count));
    }
}

/* Whether the summary of the largest table with so many levels is right, and one more in the last number of it is refused. */
static bool counts_largest(size_t levels)
{
    size_t count = lend_records(largest_table(LUSPEMARO_MAX_ROWS, levels, LUSPEMARO_FLAG_EXISTS));
    bool holds = lent_pass(count) && summarize_lent(count) == LUSPEMARO_DONE && rows_untouched();
    lent_summary()[count - 1]++;
    return holds && !lent_pass(count);
}

/* Full tables: names of one level and of sixteen, and 511 rows below one. */
static void full_tables(void)
{
    enum { MANY = LUSPEMARO_MAX_ROWS };
    static struct rows rows;
    EXPECT(counts_largest(2) && counts_largest(LUSPEMARO_MAX_LEVELS));
    rows.length = 0;
    add_row(&rows, LUSPEMARO_FLAG_SUBSCRIBED, "a");
    for (unsigned row = 1; row < MANY; row++) {
        uint8_t name[4] = {'a', '/', (uint8_t)('A' + row / 26), (uint8_t)('A' + row % 26)};
        add_row_of(&rows, LUSPEMARO_FLAG_EXISTS | LUSPEMARO_FLAG_SUBSCRIBED | LUSPEMARO_FLAG_REMOTE, name, sizeof name);
    }
    EXPECT(lend_records(&rows) == MANY && lent_pass(MANY) && lent_summary()[0] == NUMBER(0, 511, 0, 511));
    static const char line[] = "a UNSUBSCRIBE a/AB\r\n";
    EXPECT(answer_lent(MANY, line, strlen(line), ROOM).changed == 1 && lent_summary()[0] == NUMBER(0, 510, 0, 511));
}

const struct test summary_tests[] = {
    {"summaries: the counts of a number", counts_of_a_number},
    {"summaries: counted afresh", summarizes},
    {"summaries: counted afresh, refused", summarize_refusals},
    {"summaries: every bit", every_bit},
    {"summaries: lengths of the run", lengths},
    {"summaries: edits", edits},
    {"summaries: full tables", full_tables},
    {NULL, NULL},
};
