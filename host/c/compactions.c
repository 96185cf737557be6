/* Tests of names moved together (document 02's W7): every record, every byte of the area, and what is answered after it. */
#include "check.h"

#include <stdio.h>

enum { ROOM = 2000, MANY = LUSPEMARO_MAX_ROWS };

/* Whether the names of the table are moved together so, and stay when it is done once more. */
static bool makes(const struct store *before, const struct store *after)
{
    lend_store(before);
    for (int turn = 0; turn < 2; turn++)
        if (compact_lent(before->count) != LUSPEMARO_DONE || !is_store(after))
            return false;
    return true;
}

/* Whether the table is refused with 1, and nothing changes. */
static bool refuses(size_t count)
{
    return compact_lent(count) == LUSPEMARO_REFUSAL_TABLE && rows_untouched();
}

/* Bar exists, Foo takes no inferiors, Moo does not exist; two spare records; runs of 1, 2, 1 and 3 free bytes. */
static const struct store TREE = {
    "-Moo--Foo-Bar...", 3, 5, {{0x7F2D, 10, 3, 0x05}, {0x53, 6, 3, 0x80}, {2, 1, 3, 0xFF}, {7, 8, 9, 10}, {10, 11, 12, 13}}};
static const struct store MOVED = {
    "MooFooBar???????", 3, 5, {{0x7F2D, 6, 3, 0x05}, {0x53, 3, 3, 0x80}, {2, 0, 3, 0xFF}, {7, 8, 9, 10}, {10, 11, 12, 13}}};

/* Names in the order of their starts; free bytes at the front, between names and at the end become zeros at the end. */
static void moves(void)
{
    static const struct {
        struct store before, after;
    } cases[] = {
        {{"", 0, 0, {{0, 0, 0, 0}}}, {"", 0, 0, {{0, 0, 0, 0}}}},
        {{"%*", 0, 1, {{7, 8, 9, 10}}}, {"??", 0, 1, {{7, 8, 9, 10}}}},
        {{"x", 1, 1, {{1, 0, 1, 0x05}}}, {"x", 1, 1, {{1, 0, 1, 0x05}}}},
        {{"..x", 1, 1, {{1, 2, 1, 0x05}}}, {"x??", 1, 1, {{1, 0, 1, 0x05}}}},
        {{"x..", 1, 1, {{1, 0, 1, 0x05}}}, {"x??", 1, 1, {{1, 0, 1, 0x05}}}},
        {{"x.y", 2, 2, {{1, 0, 1, 0x05}, {1, 2, 1, 0x05}}}, {"xy?", 2, 2, {{1, 0, 1, 0x05}, {1, 1, 1, 0x05}}}},
        {{"y.x", 2, 2, {{1, 2, 1, 0x05}, {1, 0, 1, 0x05}}}, {"yx?", 2, 2, {{1, 1, 1, 0x05}, {1, 0, 1, 0x05}}}},
        {{"yx", 2, 2, {{1, 1, 1, 0x05}, {1, 0, 1, 0x05}}}, {"yx", 2, 2, {{1, 1, 1, 0x05}, {1, 0, 1, 0x05}}}},
        {{"xxyy", 2, 2, {{1, 1, 1, 0x05}, {1, 2, 1, 0x05}}}, {"xy??", 2, 2, {{1, 0, 1, 0x05}, {1, 1, 1, 0x05}}}},
        {{"-c-a/b-a", 3, 3, {{1, 7, 1, 0x05}, {2, 3, 3, 0xFF}, {2, 1, 1, 0xFF}}},
         {"ca/ba???", 3, 3, {{1, 4, 1, 0x05}, {2, 1, 3, 0xFF}, {2, 0, 1, 0xFF}}}},
    };
    EXPECT(makes(&TREE, &MOVED));
    for (size_t i = 0; i < sizeof cases / sizeof cases[0]; i++)
        EXPECT(makes(&cases[i].before, &cases[i].after));
}

/* The rows are the first records; those after them stay, and their bytes are free. */
static void counts(void)
{
    static const struct store none = {
        "????????????????", 0, 5, {{0x7F2D, 10, 3, 0x05}, {0x53, 6, 3, 0x80}, {2, 1, 3, 0xFF}, {7, 8, 9, 10}, {10, 11, 12, 13}}};
    static const struct store one = {
        "Bar?????????????", 1, 5, {{0x7F2D, 0, 3, 0x05}, {0x53, 6, 3, 0x80}, {2, 1, 3, 0xFF}, {7, 8, 9, 10}, {10, 11, 12, 13}}};
    static const struct store *const after[] = {&none, &one};
    for (size_t count = 0; count < 2; count++) {
        lend_store(&TREE);
        lend_summary(count, TREE.records);
        EXPECT(compact_lent(count) == LUSPEMARO_DONE && is_store(after[count]));
    }
    lend_store(&TREE);
    for (size_t count = 4; count <= 6; count++)
        EXPECT(refuses(count));
    for (unsigned bit = 3; bit < 64; bit++)
        EXPECT(refuses((size_t)1 << bit) && refuses(((size_t)1 << bit) + 3));
    EXPECT(refuses(SIZE_MAX));
}

/* Tables that do not pass. */
static void refusals(void)
{
    static const struct store tables[] = {
        {"ba", 2, 2, {{1, 0, 1, 0x05}, {1, 1, 1, 0x05}}},
        {"aa", 2, 2, {{1, 0, 1, 0x05}, {1, 1, 1, 0x05}}},
        {"ab", 2, 2, {{1, 0, 1, 0x05}, {1, 0, 2, 0x05}}},
        {"ab", 1, 1, {{1, 1, 2, 0x05}}},
        {"ab", 1, 1, {{1, 0xFFFF, 2, 0x05}}},
        {"ab", 1, 1, {{1, 0, 0, 0x05}}},
        {"-%", 1, 1, {{1, 1, 1, 0x05}}},
        {"-a", 1, 1, {{0, 1, 1, 0x05}}},
        {"-a", 1, 1, {{0x8001, 1, 1, 0x05}}},
        {"-a-a/b", 2, 2, {{0x11, 1, 1, 0x80}, {1, 3, 3, 0x05}}},
    };
    for (size_t i = 0; i < sizeof tables / sizeof tables[0]; i++) {
        lend_store(&tables[i]);
        EXPECT(refuses(tables[i].count));
    }
    for (size_t length = LUSPEMARO_MAX_AREA; length <= LUSPEMARO_MAX_AREA + 1; length++) {
        memset(lend(NAMES, length), '-', length);
        lend(RECORD, 0);
        lend_summary(0, 0);
        if (length > LUSPEMARO_MAX_AREA)
            EXPECT(refuses(0));
        else
            EXPECT(compact_lent(0) == LUSPEMARO_DONE && all_are(lent(NAMES), length, 0) && front_untouched(NAMES));
    }
}

/* Every set of readers stays, of rows and of spare records. */
static void sets_of_readers(void)
{
    for (unsigned readers = 0; readers <= 0xFF; readers++) {
        struct store before = TREE, after = MOVED;
        for (size_t i = 0; i < before.records; i++)
            before.rows[i].readers = after.rows[i].readers = (readers + (unsigned)i) & 0xFF;
        EXPECT(makes(&before, &after));
    }
}

/* ---- the largest tables */

/* Lends so many rows of names of one length, with so many free bytes before each, in the area from its end on. */
static void lend_many(size_t rows, size_t length, size_t gap)
{
    struct luspemaro_record *records = (struct luspemaro_record *)lend(RECORD, rows * sizeof *records);
    lend(NAMES, rows * (length + gap));
    for (size_t row = 0; row < rows; row++) {
        size_t start = (rows - 1 - row) * (length + gap) + gap;
        char digits[8];
        snprintf(digits, sizeof digits, "%04zu", row % 10000);
        memset(lent(NAMES) + start, 'n', length);
        memcpy(lent(NAMES) + start, digits, 4);
        records[row].flags = LUSPEMARO_FLAG_EXISTS;
        records[row].start = (uint16_t)start;
        records[row].len = (uint8_t)length;
        records[row].readers = (uint8_t)row;
    }
    lend_summary(rows, rows);
}

/* Whether the names lie side by side, each before that of the row before it, and zeros after them. */
static bool are_together(size_t rows, size_t length)
{
    for (size_t row = 0; row < rows; row++) {
        const struct luspemaro_record *record = lent_records() + row;
        char digits[8];
        snprintf(digits, sizeof digits, "%04zu", row % 10000);
        if (record->flags != LUSPEMARO_FLAG_EXISTS || record->len != length || record->start != (rows - 1 - row) * length)
            return false;
        if (record->readers != (uint8_t)row)
            return false;
        if (memcmp(lent(NAMES) + record->start, digits, 4) != 0 || !all_are(lent(NAMES) + record->start + 4, length - 4, 'n'))
            return false;
    }
    return all_are(lent(NAMES) + rows * length, lent_length(NAMES) - rows * length, 0) && front_untouched(NAMES)
           && front_untouched(RECORD);
}

static void largest(void)
{
    static const struct {
        size_t rows, length, gap;
    } tables[] = {{MANY, 64, 0}, {MANY, 63, 1}, {MANY, 4, 60}, {163, 200, 1}, {MANY - 1, 5, 3}, {1, 200, 32568}};
    for (size_t i = 0; i < sizeof tables / sizeof tables[0]; i++) {
        lend_many(tables[i].rows, tables[i].length, tables[i].gap);
        EXPECT(lent_length(NAMES) <= LUSPEMARO_MAX_AREA);
        for (int turn = 0; turn < 2; turn++)
            EXPECT(compact_lent(tables[i].rows) == LUSPEMARO_DONE && are_together(tables[i].rows, tables[i].length));
    }
    lend_many(MANY + 1, 4, 1);
    EXPECT(refuses(MANY + 1));
    EXPECT(compact_lent(MANY) == LUSPEMARO_DONE && lent_records()[MANY - 1].start == 0);
}

/* ---- what is answered after it */

static struct luspemaro_outcome subscribe(size_t length)
{
    char line[300] = "a SUBSCRIBE ";
    memset(line + 12, 'n', length);
    memcpy(line + 12 + length, "\r\n", 2);
    return answer_lent(3, line, 14 + length, ROOM);
}

/* 15 by the longest run before it, and by all free bytes after it. */
static void room(void)
{
    for (size_t length = 1; length <= LUSPEMARO_MAX_NAME; length++) {
        lend_store(&TREE);
        EXPECT((subscribe(length).number == LUSPEMARO_REFUSAL_NO_ROOM) == (length > 3));
        lend_store(&TREE);
        compact_lent(3);
        EXPECT((subscribe(length).number == LUSPEMARO_REFUSAL_NO_ROOM) == (length > 7));
    }
    static const struct store after = {
        "MooFooBarnnnnnnn", 4, 5, {{0x7F2D, 6, 3, 0x05}, {0x53, 3, 3, 0x80}, {2, 0, 3, 0xFF}, {2, 9, 7, 0xFF}, {10, 11, 12, 13}}};
    lend_store(&TREE);
    EXPECT(is_refusal_of_rows(subscribe(7), LUSPEMARO_REFUSAL_NO_ROOM, 3) && compact_lent(3) == LUSPEMARO_DONE);
    struct luspemaro_outcome r = subscribe(7);
    EXPECT(r.number == LUSPEMARO_DONE && r.count == 4 && is_store(&after));
}

/* Commands and walks are answered as before. */
static void answers(void)
{
    static const char *const lines[] = {"a LIST \"\" *\r\n",
                                        "a LIST (SUBSCRIBED RECURSIVEMATCH) \"\" % RETURN (CHILDREN)\r\n",
                                        "a LSUB \"\" %\r\n",
                                        "a NAMESPACE\r\n",
                                        "a SUBSCRIBE Foo/x\r\n",
                                        "a SUBSCRIBE Bar\r\n",
                                        "a UNSUBSCRIBE Moo\r\n",
                                        "a NOOP\r\n"};
    static uint8_t out[ROOM];
    for (size_t i = 0; i < sizeof lines / sizeof lines[0]; i++) {
        lend_store(&TREE);
        struct luspemaro_outcome before = answer_lent(3, lines[i], strlen(lines[i]), ROOM);
        memcpy(out, lent(OUT), ROOM);
        lend_store(&TREE);
        compact_lent(3);
        struct luspemaro_outcome after = answer_lent(3, lines[i], strlen(lines[i]), ROOM);
        EXPECT(after.number == before.number && after.length == before.length && after.count == before.count);
        EXPECT(memcmp(out, lent(OUT), ROOM) == 0);
    }
}

static void walks(void)
{
    static uint8_t found[ROOM];
    for (unsigned option = 0; option <= 8; option++) {
        lend_store(&TREE);
        struct luspemaro_outcome before = walk_lent(3, option, ROOM);
        memcpy(found, lent(FOUND), ROOM);
        compact_lent(3);
        struct luspemaro_outcome after = walk_lent(3, option, ROOM);
        EXPECT(after.number == before.number && after.length == before.length && after.count == before.count);
        EXPECT(memcmp(found, lent(FOUND), ROOM) == 0);
    }
}

const struct test compaction_tests[] = {
    {"compactions: names and zeros", moves},
    {"compactions: counts and spare records", counts},
    {"compactions: tables that do not pass", refusals},
    {"compactions: sets of readers", sets_of_readers},
    {"compactions: the largest tables", largest},
    {"compactions: room by the free bytes in all", room},
    {"compactions: answers as before", answers},
    {"compactions: walks as before", walks},
    {NULL, NULL},
};
