/* Tests of SUBSCRIBE and UNSUBSCRIBE (document 02's W6): every record, every byte of the area and of the buffer. */
#include "check.h"

#include <stdio.h>

static const char OK[] = "a OK done\r\n";
enum { OK_LENGTH = sizeof OK - 1, ROOM = 100 };

static struct luspemaro_outcome edit(size_t count, const char *line, size_t room)
{
    return answer_lent(count, line, strlen(line), room);
}

/* Whether the edit is done with the OK line alone, gives this table, its count and whether it is another one, and leaves the bytes after
 * the line. */
static bool makes(const struct store *before, const char *line, const struct store *after)
{
    lend_store(before);
    struct luspemaro_outcome r = edit(before->count, line, ROOM);
    return r.number == LUSPEMARO_DONE && r.changed == (before != after) && r.length == OK_LENGTH && r.count == after->count
           && memcmp(lent(OUT), OK, OK_LENGTH) == 0 && all_are(lent(OUT) + OK_LENGTH, ROOM - OK_LENGTH, FILLER) && front_untouched(OUT)
           && is_store(after);
}

/* Whether the edit is refused so, with the count that was passed, and no byte changes. */
static bool refuses(const struct store *before, size_t count, const char *line, size_t room, unsigned number)
{
    lend_store(before);
    return is_refusal_of_rows(edit(count, line, room), number, count) && untouched(OUT) && rows_untouched();
}

/* Bar exists, Foo takes no inferiors, Moo does not exist; two spare records; runs of 2, 1 and 4 free bytes. */
static const struct store TREE = {
    "Moo--Foo-Bar....", 3, 5, {{1, 9, 3, 0x05}, {0x13, 5, 3, 0x80}, {2, 0, 3, 0xFF}, {7, 8, 9, 10}, {10, 11, 12, 13}}};

/* The flag is set and cleared, and nothing else changes; a flag that is as it should be stays. */
static void flags(void)
{
    static const struct store set = {
        "Moo--Foo-Bar....", 3, 5, {{3, 9, 3, 0x05}, {0x13, 5, 3, 0x80}, {2, 0, 3, 0xFF}, {7, 8, 9, 10}, {10, 11, 12, 13}}};
    static const struct store cleared = {
        "Moo--Foo-Bar....", 3, 5, {{1, 9, 3, 0x05}, {0x11, 5, 3, 0x80}, {2, 0, 3, 0xFF}, {7, 8, 9, 10}, {10, 11, 12, 13}}};
    EXPECT(makes(&TREE, "a SUBSCRIBE Bar\r\n", &set));
    EXPECT(makes(&TREE, "a subscribe \"Bar\"\r\n", &set));
    EXPECT(makes(&TREE, "a UNSUBSCRIBE {3}\r\nFoo\r\n", &cleared));
    EXPECT(makes(&set, "a UNSUBSCRIBE Bar\r\n", &TREE));
    EXPECT(makes(&TREE, "a SUBSCRIBE Foo\r\n", &TREE));
    EXPECT(makes(&TREE, "a SUBSCRIBE Moo\r\n", &TREE));
    EXPECT(makes(&TREE, "a UNSUBSCRIBE Bar\r\n", &TREE));
}

/* A row is inserted at its place, over the lowest run that is long enough; other spare records and free bytes stay. */
static void insertions(void)
{
    static const struct store first = {
        "Moo--Foo-BarBaa.", 4, 5, {{2, 12, 3, 0xFF}, {1, 9, 3, 0x05}, {0x13, 5, 3, 0x80}, {2, 0, 3, 0xFF}, {10, 11, 12, 13}}};
    static const struct store between = {
        "MooC-Foo-Bar....", 4, 5, {{1, 9, 3, 0x05}, {2, 3, 1, 0xFF}, {0x13, 5, 3, 0x80}, {2, 0, 3, 0xFF}, {10, 11, 12, 13}}};
    static const struct store last = {
        "MoozzFoo-Bar....", 4, 5, {{1, 9, 3, 0x05}, {0x13, 5, 3, 0x80}, {2, 0, 3, 0xFF}, {2, 3, 2, 0xFF}, {10, 11, 12, 13}}};
    static const struct store filled = {
        "Moo--Foo-BarFoo0", 4, 5, {{1, 9, 3, 0x05}, {0x13, 5, 3, 0x80}, {2, 12, 4, 0xFF}, {2, 0, 3, 0xFF}, {10, 11, 12, 13}}};
    static const struct store none = {".....", 0, 1, {{9, 9, 9, 9}}}, inbox = {"INBOX", 1, 1, {{2, 0, 5, 0xFF}}};
    EXPECT(makes(&TREE, "a SUBSCRIBE Baa\r\n", &first));
    EXPECT(makes(&TREE, "a SUBSCRIBE C\r\n", &between));
    EXPECT(makes(&TREE, "a SUBSCRIBE zz\r\n", &last));
    EXPECT(makes(&TREE, "a SUBSCRIBE Foo0\r\n", &filled));
    EXPECT(makes(&none, "a SUBSCRIBE iNbOx\r\n", &inbox));
}

/* A row with the flag alone is removed; the freed record and the freed bytes become zero. */
static void removals(void)
{
    static const struct store three = {"cc.a.bbb", 3, 4, {{2, 3, 1, 0xFF}, {2, 5, 3, 0xFF}, {2, 0, 2, 0xFF}, {7, 8, 9, 10}}};
    static const struct store no_a = {"cc.?.bbb", 2, 4, {{2, 5, 3, 0xFF}, {2, 0, 2, 0xFF}, {0, 0, 0, 0}, {7, 8, 9, 10}}};
    static const struct store no_b = {"cc.a.???", 2, 4, {{2, 3, 1, 0xFF}, {2, 0, 2, 0xFF}, {0, 0, 0, 0}, {7, 8, 9, 10}}};
    static const struct store no_c = {"??.a.bbb", 2, 4, {{2, 3, 1, 0xFF}, {2, 5, 3, 0xFF}, {0, 0, 0, 0}, {7, 8, 9, 10}}};
    EXPECT(makes(&three, "a UNSUBSCRIBE a\r\n", &no_a));
    EXPECT(makes(&three, "a UNSUBSCRIBE bbb\r\n", &no_b));
    EXPECT(makes(&three, "a UNSUBSCRIBE cc\r\n", &no_c));
}

/* UNSUBSCRIBE is done for any name without a subscription, an unlawful one too. */
static void no_subscription(void)
{
    static const char *const lines[] = {"a UNSUBSCRIBE x\r\n", "a UNSUBSCRIBE \"\"\r\n", "a UNSUBSCRIBE Foo/x\r\n",
                                        "a UNSUBSCRIBE \"a%\"\r\n", "a UNSUBSCRIBE foo\r\n", "a UNSUBSCRIBE {2}\r\n\r\n\r\n"};
    for (size_t i = 0; i < sizeof lines / sizeof lines[0]; i++)
        EXPECT(makes(&TREE, lines[i], &TREE));
}

/* Each refusal before those after it, and 9 with every buffer that is too short. */
static void refusals(void)
{
    static const struct {
        unsigned number;
        const char *line;
    } lines[] = {
        {3, "a SUBSCRIBE \"\""},
        {4, "+ SUBSCRIBE \"\"\r\n"},
        {5, "a SUBSCRIBED \"\" \r\n"},
        {5, "a UNSUBSCRIBES \"\"\r\n"},
        {4, "a SUBSCRIBE\r\n"},
        {4, "a SUBSCRIBE \"\" \r\n"},
        {4, "a SUBSCRIBE a%\r\n"},
        {4, "a UNSUBSCRIBE (a)\r\n"},
        {LUSPEMARO_REFUSAL_UNLAWFUL_NAME, "a SUBSCRIBE \"\"\r\n"},
        {LUSPEMARO_REFUSAL_UNLAWFUL_NAME, "a SUBSCRIBE \"a%\"\r\n"},
        {LUSPEMARO_REFUSAL_UNLAWFUL_NAME, "a SUBSCRIBE inbox/\r\n"},
        {LUSPEMARO_REFUSAL_UNLAWFUL_NAME, "a SUBSCRIBE Foo/x/y\r\n"},
        {LUSPEMARO_REFUSAL_NO_ROOM, "a SUBSCRIBE seven77\r\n"},
    };
    for (size_t i = 0; i < sizeof lines / sizeof lines[0]; i++)
        for (size_t room = 0; room <= OK_LENGTH; room++)
            EXPECT(refuses(&TREE, 3, lines[i].line, room, lines[i].number));
    static const char *const accepted[] = {"a SUBSCRIBE Bar\r\n", "a SUBSCRIBE new\r\n", "a UNSUBSCRIBE Moo\r\n", "a UNSUBSCRIBE x\r\n"};
    for (size_t i = 0; i < sizeof accepted / sizeof accepted[0]; i++)
        for (size_t room = 0; room < OK_LENGTH; room++)
            EXPECT(refuses(&TREE, 3, accepted[i], room, LUSPEMARO_REFUSAL_SHORT_BUFFER));
    EXPECT(refuses(&TREE, 6, "a SUBSCRIBE Bar\r\n", ROOM, LUSPEMARO_REFUSAL_TABLE));
    EXPECT(refuses(&TREE, SIZE_MAX, "a SUBSCRIBE Bar\r\n", ROOM, LUSPEMARO_REFUSAL_TABLE));
    lend_bytes(NAMESPACES, "\3\0/", 3);
    EXPECT(refuses(&TREE, 3, "a SUBSCRIBE Bar\r\n", ROOM, LUSPEMARO_REFUSAL_NAMESPACES));
}

/* No spare record, though the names have room; the rows that are there can be edited. */
static void no_spare_record(void)
{
    static const struct store full = {"a..", 1, 1, {{1, 0, 1, 0x05}}}, set = {"a..", 1, 1, {{3, 0, 1, 0x05}}};
    EXPECT(refuses(&full, 1, "a SUBSCRIBE b\r\n", ROOM, LUSPEMARO_REFUSAL_NO_ROOM));
    EXPECT(makes(&full, "a SUBSCRIBE a\r\n", &set));
}

/* Names of 200 bytes and one more, in the largest area. */
static void longest_name(void)
{
    static char line[300];
    for (size_t length = LUSPEMARO_MAX_NAME; length <= LUSPEMARO_MAX_NAME + 1; length++) {
        memset(lend(NAMES, LUSPEMARO_MAX_AREA), '-', LUSPEMARO_MAX_AREA);
        lend(RECORD, sizeof(struct luspemaro_record));
        lend_summary(0, 1);
        memset(line, 'n', sizeof line);
        memcpy(line, "a SUBSCRIBE ", 12);
        memcpy(line + 12 + length, "\r\n", 2);
        struct luspemaro_outcome r = answer_lent(0, line, 14 + length, ROOM);
        if (length > LUSPEMARO_MAX_NAME) {
            EXPECT(is_refusal_of_rows(r, LUSPEMARO_REFUSAL_UNLAWFUL_NAME, 0) && rows_untouched());
        } else {
            EXPECT(r.number == LUSPEMARO_DONE && r.count == 1 && lent_records()->flags == LUSPEMARO_FLAG_SUBSCRIBED);
            EXPECT(lent_records()->readers == LUSPEMARO_READERS_ALL);
            EXPECT(lent_records()->start == 0 && lent_records()->len == length && all_are(lent(NAMES), length, 'n'));
            EXPECT(all_are(lent(NAMES) + length, LUSPEMARO_MAX_AREA - length, '-'));
        }
    }
}

/* 512 rows take no more, however many records there are; what is removed makes room again, at its place. */
static void most_rows(void)
{
    enum { MANY = LUSPEMARO_MAX_ROWS, LENT = MANY + 9 };
    struct luspemaro_record *records = (struct luspemaro_record *)lend(RECORD, LENT * sizeof *records);
    lend(NAMES, 3 * MANY + 9);
    for (unsigned row = 0; row < MANY; row++) {
        char name[4];
        snprintf(name, sizeof name, "%03u", row);
        memcpy(lent(NAMES) + 3 * row, name, 3);
        records[row].flags = LUSPEMARO_FLAG_SUBSCRIBED;
        records[row].start = (uint16_t)(3 * row);
        records[row].len = 3;
        records[row].readers = (uint8_t)row;
    }
    lend_summary(MANY, LENT);
    EXPECT(is_refusal_of_rows(edit(MANY, "a SUBSCRIBE x\r\n", ROOM), LUSPEMARO_REFUSAL_NO_ROOM, MANY) && rows_untouched());
    EXPECT(edit(MANY, "a SUBSCRIBE 007\r\n", ROOM).count == MANY && rows_untouched());
    EXPECT(edit(MANY, "a UNSUBSCRIBE 007\r\n", ROOM).count == MANY - 1 && all_are(lent(NAMES) + 21, 3, 0));
    EXPECT(records[7].start == 24 && records[MANY - 1].flags == 0 && records[MANY - 1].start == 0 && records[MANY - 1].len == 0);
    EXPECT(records[6].readers == 6 && records[7].readers == 8 && records[MANY - 1].readers == 0);
    EXPECT(edit(MANY - 1, "a SUBSCRIBE 0070\r\n", ROOM).count == MANY && records[7].start == 3 * MANY && records[7].len == 4);
    EXPECT(records[6].readers == 6 && records[7].readers == LUSPEMARO_READERS_ALL && records[8].readers == 8);
    EXPECT(edit(MANY, "a UNSUBSCRIBE 0070\r\n", ROOM).count == MANY - 1);
    EXPECT(edit(MANY - 1, "a SUBSCRIBE xyz\r\n", ROOM).count == MANY && records[MANY - 1].start == 21);
    EXPECT(all_are(lent(SUMMARY), MANY * sizeof(uint64_t), 0));
    EXPECT(all_are(lent(SUMMARY) + MANY * sizeof(uint64_t), (LENT - MANY) * sizeof(uint64_t), FILLER) && front_untouched(SUMMARY));
}

const struct test edit_tests[] = {
    {"edits: flags", flags},
    {"edits: insertions", insertions},
    {"edits: removals", removals},
    {"edits: no subscription", no_subscription},
    {"edits: refusals", refusals},
    {"edits: no spare record", no_spare_record},
    {"edits: the longest name", longest_name},
    {"edits: the most rows", most_rows},
    {NULL, NULL},
};
