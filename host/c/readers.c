/* Tests of who may see which mailbox (document 02's W9): commands, walks and edits of every reader, and 16. */
#include "check.h"

enum { ROOM = 2000, READERS = LUSPEMARO_MAX_READER + 1 };

static struct luspemaro_outcome answer_text(const struct rows *rows, const char *line, size_t room)
{
    return answer_to(rows, line, strlen(line), room);
}

/* Whether this is the answer to the reader that is set, and the rows are as they were. */
static bool answers(const struct rows *rows, const char *line, const char *answer)
{
    struct luspemaro_outcome r = answer_text(rows, line, ROOM);
    return r.number == LUSPEMARO_DONE && r.changed == 0 && r.length == strlen(answer) && r.count == lent_records_length()
           && memcmp(lent(OUT), answer, r.length) == 0 && all_are(lent(OUT) + r.length, ROOM - r.length, FILLER) && rows_untouched();
}

/* Whether the walk of the reader that is set, over each form, sends so many commands and leaves this in found and pending. */
static bool walks(const struct rows *rows, size_t count, const char *found, const char *pending)
{
    bool holds = true;
    for (form = PACKED;; form = RECORDS) {
        struct luspemaro_outcome r = walk(rows, 0, ROOM, ROOM, ROOM);
        holds = holds && r.number == LUSPEMARO_DONE && r.count == count && r.length == strlen(found)
                && memcmp(lent(FOUND), found, r.length) == 0 && all_are(lent(FOUND) + r.length, ROOM - r.length, 0)
                && memcmp(lent(PENDING), pending, strlen(pending)) == 0
                && all_are(lent(PENDING) + strlen(pending), ROOM - strlen(pending), 0) && all_are(lent(SCRATCH), ROOM, 0);
        if (form == RECORDS)
            return holds;
    }
}

/* A row is listed, and found, exactly if the set has the reader's bit. */
static void every_set(void)
{
    static struct rows rows;
    for (unsigned readers = 0; readers <= 0xFF; readers++) {
        rows.length = 0;
        add_row_for(&rows, readers, LUSPEMARO_FLAG_EXISTS | LUSPEMARO_FLAG_SUBSCRIBED, "x");
        for (reader = 0; reader < READERS; reader++) {
            bool seen = (readers >> reader & 1) != 0;
            EXPECT(answers(&rows, "a LIST \"\" *\r\n", seen ? "* LIST () \"/\" \"x\"\r\na OK done\r\n" : "a OK done\r\n"));
            EXPECT(answers(&rows, "a LSUB \"\" *\r\n", seen ? "* LSUB () \"/\" \"x\"\r\na OK done\r\n" : "a OK done\r\n"));
            EXPECT(walks(&rows, 1, seen ? "\1x" : "", ""));
        }
    }
}

/* Reader 0 sees all but Sealed, reader 3 what lies below Customers/ABC and INBOX, reader 7 INBOX and the remote parent. */
static const struct rows *court(void)
{
    static struct rows rows;
    rows.length = 0;
    add_row_for(&rows, 0x01, 0x0023, "Customers");
    add_row_for(&rows, 0x09, 0x0003, "Customers/ABC/Letters");
    add_row_for(&rows, 0x01, 0x2003, "Customers/Sent");
    add_row_for(&rows, 0x81, 0x0005, "Far");
    add_row_for(&rows, 0x01, 0x0001, "Far/Near");
    add_row(&rows, 0x0011, "INBOX");
    add_row_for(&rows, 0x00, 0x0003, "Sealed");
    return &rows;
}

/* Hidden rows are no candidates, meet no criteria, are no children and give no CHILDINFO; a hidden parent is an implied name. */
static void hidden_rows(void)
{
    reader = 3;
    EXPECT(answers(court(), "a LIST \"\" % RETURN (CHILDREN)\r\n",
                   "* LIST (\\NonExistent \\HasChildren) \"/\" \"Customers\"\r\n* LIST (\\NoInferiors) \"/\" \"INBOX\"\r\na OK done\r\n"));
    EXPECT(answers(court(), "a LIST \"\" Customers\r\n", "a OK done\r\n"));
    EXPECT(answers(court(), "a LIST (SUBSCRIBED RECURSIVEMATCH) \"\" %\r\n",
                   "* LIST (\\NonExistent) \"/\" \"Customers\" (\"CHILDINFO\" (\"SUBSCRIBED\"))\r\na OK done\r\n"));
    EXPECT(answers(court(), "a LIST (RECURSIVEMATCH SPECIAL-USE) \"\" %\r\n", "a OK done\r\n"));
    EXPECT(answers(court(), "a LSUB \"\" %\r\n", "* LSUB (\\Noselect) \"/\" \"Customers\"\r\na OK done\r\n"));
    reader = 0;
    EXPECT(answers(court(), "a LIST \"\" Customers\r\n", "* LIST (\\Marked) \"/\" \"Customers\"\r\na OK done\r\n"));
    EXPECT(answers(court(), "a LIST \"\" Sealed\r\n", "a OK done\r\n"));
    reader = 7;
    EXPECT(answers(court(), "a LIST (REMOTE) \"\" * RETURN (CHILDREN)\r\n",
                   "* LIST (\\Remote \\HasNoChildren) \"/\" \"Far\"\r\n* LIST (\\NoInferiors) \"/\" \"INBOX\"\r\na OK done\r\n"));
}

static void hidden_finds(void)
{
    reader = 0;
    EXPECT(walks(court(), 3, "\11Customers\16Customers/Sent\25Customers/ABC/Letters", "\11Customers\15Customers/ABC"));
    reader = 3;
    EXPECT(walks(court(), 3, "\25Customers/ABC/Letters", "\11Customers\15Customers/ABC"));
    for (reader = 4; reader < READERS; reader++)
        EXPECT(walks(court(), 1, "", ""));
}

/* 16 for a reader above 7 comes before 1, whatever is sent. */
static void above_7(void)
{
    static const char *const lines[] = {"", "a NAMESPACE\r\n", "a LIST \"\" *\r\n", "+\r\n", "a SUBSCRIBE x\r\n", "\1\2\3"};
    static const struct rows half = {2, {0, 1}};
    const struct rows *const tables[] = {&NO_ROWS, court(), &half};
    lend_bytes(NAMESPACES, "\3\0/", 3);
    for (unsigned number = READERS; number <= 0xFF; number++) {
        reader = (uint8_t)number;
        for (size_t table = 0; table < 3; table++) {
            for (size_t i = 0; i < sizeof lines / sizeof lines[0]; i++) {
                struct luspemaro_outcome r = answer_text(tables[table], lines[i], 20);
                EXPECT(is_refusal_of_rows(r, LUSPEMARO_REFUSAL_READER, lent_records_length()) && untouched(OUT) && rows_untouched());
            }
            for (int turn = 0; turn < 4; turn++) {
                form = turn % 2 == 0 ? PACKED : RECORDS;
                EXPECT(is_refusal(walk(tables[table], turn < 2 ? 0 : 9, 20, 20, 20), LUSPEMARO_REFUSAL_READER));
                EXPECT(all_are(lent(SCRATCH), 20, 0) && all_are(lent(FOUND), 20, 0) && all_are(lent(PENDING), 20, 0));
            }
        }
    }
}

/* A lawful reader is refused as reader 0 is. */
static void lawful_readers(void)
{
    static const struct rows half = {2, {0, 1}};
    for (reader = 0; reader < READERS; reader++) {
        EXPECT(is_refusal_of_rows(answer_text(&half, "", 0), LUSPEMARO_REFUSAL_TABLE, 1));
        EXPECT(is_refusal(answer_text(&NO_ROWS, "", 0), LUSPEMARO_REFUSAL_LINE_SHAPE));
        EXPECT(answers(&NO_ROWS, "a NAMESPACE\r\n", "* NAMESPACE NIL NIL NIL\r\na OK done\r\n"));
        EXPECT(is_refusal(walk(&half, 9, 0, 0, 0), LUSPEMARO_REFUSAL_TABLE));
        EXPECT(is_refusal(walk(&NO_ROWS, 9, 0, 0, 0), LUSPEMARO_REFUSAL_OPTION));
    }
}

/* Bar exists, Foo takes no inferiors, Moo does not exist; reader 0 sees none of them; one spare record. */
static const struct store TREE = {"MooFooBar..", 3, 4, {{1, 6, 3, 0x06}, {0x11, 3, 3, 0x80}, {2, 0, 3, 0}, {7, 8, 9, 10}, {0, 0, 0, 0}}};

/* Edits of other readers: 16 after what is off the grammar, before 14, 15 and 9, and where nothing would change. */
static void edits_of_others(void)
{
    static const struct {
        unsigned number;
        const char *line;
    } lines[] = {
        {3, "a SUBSCRIBE \"\""},
        {4, "a SUBSCRIBE\r\n"},
        {4, "a SUBSCRIBE a%\r\n"},
        {5, "a SUBSCRIBED a\r\n"},
        {16, "a SUBSCRIBE \"\"\r\n"},
        {16, "a SUBSCRIBE Foo/x\r\n"},
        {16, "a SUBSCRIBE no-room\r\n"},
        {16, "a SUBSCRIBE Bar\r\n"},
        {16, "a SUBSCRIBE Moo\r\n"},
        {16, "a UNSUBSCRIBE Moo\r\n"},
        {16, "a UNSUBSCRIBE nothing\r\n"},
    };
    for (reader = 1; reader < READERS; reader++)
        for (size_t i = 0; i < sizeof lines / sizeof lines[0]; i++)
            for (size_t room = 0; room <= 20; room += 10) {
                lend_store(&TREE);
                struct luspemaro_outcome r = answer_lent(3, lines[i].line, strlen(lines[i].line), room);
                EXPECT(is_refusal_of_rows(r, lines[i].number, 3) && untouched(OUT) && rows_untouched());
            }
    lend_store(&TREE);
    lend_bytes(NAMESPACES, "\3\0/", 3);
    reader = 5;
    EXPECT(answer_lent(3, lines[7].line, strlen(lines[7].line), 20).number == LUSPEMARO_REFUSAL_NAMESPACES);
    EXPECT(answer_lent(9, lines[7].line, strlen(lines[7].line), 20).number == LUSPEMARO_REFUSAL_TABLE);
}

/* Whether an edit of reader 0 makes this of the table, or is refused so. */
static bool makes(const struct store *before, const char *line, const struct store *after)
{
    lend_store(before);
    struct luspemaro_outcome r = answer_lent(before->count, line, strlen(line), 20);
    return r.number == LUSPEMARO_DONE && r.changed == (before != after) && r.count == after->count && is_store(after);
}

static bool refuses(const char *line, unsigned number)
{
    lend_store(&TREE);
    return is_refusal_of_rows(answer_lent(3, line, strlen(line), 20), number, 3) && rows_untouched();
}

/* Edits look at all rows: the set of a hidden row stays, a new row is for all readers, and a freed record is zero. */
static void edits_of_hidden_rows(void)
{
    static const struct store set = {"MooFooBar..", 3, 4, {{3, 6, 3, 0x06}, {0x11, 3, 3, 0x80}, {2, 0, 3, 0}, {7, 8, 9, 10}, {0, 0, 0, 0}}};
    static const struct store removed = {
        "???FooBar..", 2, 4, {{1, 6, 3, 0x06}, {0x11, 3, 3, 0x80}, {0, 0, 0, 0}, {7, 8, 9, 10}, {0, 0, 0, 0}}};
    static const struct store lent_again = {
        "...FooBar..", 2, 4, {{1, 6, 3, 0x06}, {0x11, 3, 3, 0x80}, {0, 0, 0, 0}, {7, 8, 9, 10}, {0, 0, 0, 0}}};
    static const struct store again = {
        "MooFooBar..", 3, 4, {{1, 6, 3, 0x06}, {0x11, 3, 3, 0x80}, {2, 0, 3, 0xFF}, {7, 8, 9, 10}, {0, 0, 0, 0}}};
    static const struct store inserted = {
        "MooFooBarC.", 4, 4, {{1, 6, 3, 0x06}, {2, 9, 1, 0xFF}, {0x11, 3, 3, 0x80}, {2, 0, 3, 0}, {0, 0, 0, 0}}};
    EXPECT(makes(&TREE, "a SUBSCRIBE Bar\r\n", &set) && makes(&set, "a UNSUBSCRIBE Bar\r\n", &TREE));
    EXPECT(makes(&TREE, "a SUBSCRIBE Moo\r\n", &TREE));
    EXPECT(makes(&TREE, "a UNSUBSCRIBE Moo\r\n", &removed));
    EXPECT(makes(&lent_again, "a SUBSCRIBE Moo\r\n", &again));
    EXPECT(makes(&TREE, "a SUBSCRIBE C\r\n", &inserted));
    EXPECT(refuses("a SUBSCRIBE Foo/x\r\n", LUSPEMARO_REFUSAL_UNLAWFUL_NAME));
    EXPECT(refuses("a SUBSCRIBE abc\r\n", LUSPEMARO_REFUSAL_NO_ROOM));
}

/* Two tables of which reader 2 sees the same: what is hidden from it differs, and the other bits of what it sees. */
static const struct rows *twin(int which)
{
    static struct rows rows;
    rows.length = 0;
    if (which == 1) {
        add_row_for(&rows, 0x01, 0x0023, "Foo");
        add_row_for(&rows, 0x04, 0x0003, "Foo/Bar");
        add_row_for(&rows, 0xFB, 0x7F03, "Foo/Bar/x");
        add_row_for(&rows, 0x80, 0x0011, "INBOX");
        add_row_for(&rows, 0x84, 0x0001, "Moo");
        add_row_for(&rows, 0x00, 0x0002, "Moo/y");
    } else {
        add_row(&rows, 0x0003, "Foo/Bar");
        add_row(&rows, 0x0001, "Moo");
    }
    return &rows;
}

static void one_view(void)
{
    static const char *const lines[] = {"a LIST \"\" *\r\n",
                                        "a LIST \"\" % RETURN (CHILDREN SUBSCRIBED)\r\n",
                                        "a LIST \"\" * RETURN (CHILDREN)\r\n",
                                        "a LIST (SUBSCRIBED RECURSIVEMATCH) \"\" %\r\n",
                                        "a LIST (RECURSIVEMATCH SPECIAL-USE REMOTE) \"\" *\r\n",
                                        "a LSUB \"\" %\r\n",
                                        "a LSUB \"\" *\r\n"};
    static uint8_t first[ROOM];
    reader = 2;
    for (size_t i = 0; i < sizeof lines / sizeof lines[0]; i++)
        for (size_t room = 0; room < 200; room++) {
            struct luspemaro_outcome one = answer_text(twin(0), lines[i], room);
            memcpy(first, lent(OUT), room);
            struct luspemaro_outcome other = answer_text(twin(1), lines[i], room);
            EXPECT(one.number == other.number && one.length == other.length && memcmp(first, lent(OUT), room) == 0);
        }
    for (int turn = 0; turn < 2 * 200; turn++) {
        form = turn % 2 == 0 ? PACKED : RECORDS;
        size_t room = (size_t)turn / 2;
        struct luspemaro_outcome one = walk(twin(0), 0, room, room / 4, room / 8);
        memcpy(first, lent(FOUND), room / 4);
        struct luspemaro_outcome other = walk(twin(1), 0, room, room / 4, room / 8);
        EXPECT(one.number == other.number && one.length == other.length && one.count == other.count);
        EXPECT(memcmp(first, lent(FOUND), room / 4) == 0);
    }
}

const struct test reader_tests[] = {
    {"readers: every set", every_set},
    {"readers: hidden rows", hidden_rows},
    {"readers: hidden finds", hidden_finds},
    {"readers: 16 above 7", above_7},
    {"readers: refusals of lawful readers", lawful_readers},
    {"readers: edits of others than 0", edits_of_others},
    {"readers: edits of hidden rows", edits_of_hidden_rows},
    {"readers: two tables, one view", one_view},
    {NULL, NULL},
};
