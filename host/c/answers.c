/* Tests of luspemaro_answer and of the commands that change nothing: LIST, LSUB and NAMESPACE. */
#include "check.h"

#include <stdio.h>

static struct luspemaro_outcome answer_text(const struct rows *rows, const char *line, size_t room)
{
    return answer_to(rows, line, strlen(line), room);
}

/* Whether this is the answer, the bytes after it are as they were, and so are the rows. */
static bool answers(const struct rows *rows, const char *line, const char *answer)
{
    struct luspemaro_outcome r = answer_text(rows, line, 2000);
    return r.number == LUSPEMARO_DONE && r.changed == 0 && r.length == strlen(answer) && r.count == lent_records_length()
           && front_untouched(OUT) && memcmp(lent(OUT), answer, r.length) == 0
           && all_are(lent(OUT) + r.length, 2000 - r.length, FILLER) && rows_untouched();
}

/* Whether the answer is this refusal, with the count that was passed, and no byte has changed. */
static bool refused(struct luspemaro_outcome outcome, unsigned number)
{
    return is_refusal_of_rows(outcome, number, lent_records_length()) && untouched(OUT) && rows_untouched();
}

/* Whether this refusal is given, with any buffer. */
static bool refuses(const struct rows *rows, const void *line, size_t length, unsigned number)
{
    static const size_t rooms[] = {0, 1, 2000};
    for (size_t i = 0; i < sizeof rooms / sizeof rooms[0]; i++)
        if (!refused(answer_to(rows, line, length, rooms[i]), number))
            return false;
    return true;
}

static bool refuses_text(const struct rows *rows, const char *line, unsigned number)
{
    return refuses(rows, line, strlen(line), number);
}

/* The expert's sheet: E1 to E4 and E6, E3 with the line that document 02's W1 adds. */
static void expert_sheet(void)
{
    EXPECT(answers(table_e(), "C04 LIST (SUBSCRIBED RECURSIVEMATCH) \"\" \"%\"\r\n",
                   "* LIST (\\NonExistent) \"/\" \"Foo\" (\"CHILDINFO\" (\"SUBSCRIBED\"))\r\nC04 OK done\r\n"));
    EXPECT(answers(table_e(), "C04 LIST (SUBSCRIBED RECURSIVEMATCH) \"\" \"*\"\r\n",
                   "* LIST (\\Subscribed) \"/\" \"Foo/Baz\"\r\nC04 OK done\r\n"));
    EXPECT(answers(table_e(), "a LIST \"\" % RETURN (CHILDREN)\r\n",
                   "* LIST (\\NonExistent \\HasChildren) \"/\" \"Foo\"\r\n"
                   "* LIST (\\HasNoChildren) \"/\" \"Foo-x\"\r\n"
                   "* LIST (\\Marked \\NoInferiors) \"/\" \"INBOX\"\r\n"
                   "* LIST (\\HasNoChildren) \"/\" \"Moo\"\r\na OK done\r\n"));
    EXPECT(answers(table_e(), "a LIST \"\" in%\r\n", "* LIST (\\Marked \\NoInferiors) \"/\" \"INBOX\"\r\na OK done\r\n"));
    EXPECT(answers(table_e(), "a LIST \"\" moo\r\n", "a OK done\r\n"));
    EXPECT(answers(table_e(), "a LIST \"\" \"\"\r\n", "* LIST (\\Noselect) \"/\" \"\"\r\na OK done\r\n"));
    EXPECT(answers(table_e(), "a LIST () \"\" \"\"\r\n", "a OK done\r\n"));
}

/* Each flag shows its attribute. */
static void each_flag(void)
{
    static const struct {
        unsigned flag;
        const char *attribute;
    } flags[] = {
        {LUSPEMARO_FLAG_EXISTS, ""},
        {LUSPEMARO_FLAG_SUBSCRIBED, "\\Subscribed"},
        {LUSPEMARO_FLAG_REMOTE, "\\Remote"},
        {LUSPEMARO_FLAG_NO_SELECT, "\\Noselect"},
        {LUSPEMARO_FLAG_NO_INFERIORS, "\\NoInferiors"},
        {LUSPEMARO_FLAG_MARKED, "\\Marked"},
        {LUSPEMARO_FLAG_UNMARKED, "\\Unmarked"},
        {LUSPEMARO_FLAG_ALL, "\\All"},
        {LUSPEMARO_FLAG_ARCHIVE, "\\Archive"},
        {LUSPEMARO_FLAG_DRAFTS, "\\Drafts"},
        {LUSPEMARO_FLAG_FLAGGED, "\\Flagged"},
        {LUSPEMARO_FLAG_JUNK, "\\Junk"},
        {LUSPEMARO_FLAG_SENT, "\\Sent"},
        {LUSPEMARO_FLAG_TRASH, "\\Trash"},
    };
    static struct rows rows;
    for (size_t i = 0; i < sizeof flags / sizeof flags[0]; i++) {
        char answer[100];
        snprintf(answer, sizeof answer, "* LIST (%s) \"/\" \"x\"\r\na OK done\r\n", flags[i].attribute);
        rows.length = 0;
        add_row(&rows, LUSPEMARO_FLAG_EXISTS | flags[i].flag, "x");
        EXPECT(answers(&rows, "a LIST (REMOTE) \"\" x RETURN (SUBSCRIBED SPECIAL-USE)\r\n", answer));
    }
}

static void other_answers(void)
{
    EXPECT(answers(&NO_ROWS, "a LIST \"\" *\r\n", "a OK done\r\n"));
    EXPECT(answers(&NO_ROWS, "a NAMESPACE\r\n", "* NAMESPACE NIL NIL NIL\r\na OK done\r\n"));
    lend_bytes(NAMESPACES, "\0\0/\0\4#mh/\\\2\1\"\0", 14);
    EXPECT(answers(&NO_ROWS, "a NAMESPACE\r\n",
                   "* NAMESPACE ((\"\" \"/\")(\"#mh/\" \"\\\\\")) NIL ((\"\\\"\" NIL))\r\na OK done\r\n"));
    EXPECT(answers(table_e(), "a LIST {0}\r\n {3}\r\nMoo\r\n", "* LIST () \"/\" \"Moo\"\r\na OK done\r\n"));
}

/* LSUB (document 02's W5): what is subscribed, and the level above it under a pattern that ends in "%". */
static void lsub(void)
{
    EXPECT(answers(table_e(), "a LSUB \"\" *\r\n", "* LSUB () \"/\" \"Foo/Baz\"\r\na OK done\r\n"));
    EXPECT(answers(table_e(), "a lsub \"\" %\r\n", "* LSUB (\\Noselect) \"/\" \"Foo\"\r\na OK done\r\n"));
    EXPECT(answers(table_e(), "a LSUB {4}\r\nFoo/ {1}\r\n%\r\n", "* LSUB () \"/\" \"Foo/Baz\"\r\na OK done\r\n"));
    EXPECT(answers(table_e(), "a LSUB \"\" *%\r\n", "* LSUB () \"/\" \"Foo/Baz\"\r\na OK done\r\n"));
    EXPECT(answers(table_e(), "a LSUB Foo \"\"\r\n", "a OK done\r\n"));
}

static void bad_table(void)
{
    static const struct rows half = {2, {0, 1}};
    EXPECT(refuses_text(&half, "a LIST \"\" *\r\n", LUSPEMARO_REFUSAL_TABLE));
    lend_bytes(NAMESPACES, "\3\0/", 3);
    EXPECT(refuses_text(&half, "", LUSPEMARO_REFUSAL_TABLE));
}

static void bad_namespaces(void)
{
    lend_bytes(NAMESPACES, "\3\0/", 3);
    EXPECT(refuses_text(table_e(), "a LIST \"\" *\r\n", LUSPEMARO_REFUSAL_NAMESPACES));
    EXPECT(refuses_text(table_e(), "", LUSPEMARO_REFUSAL_NAMESPACES));
}

/* The refusals of a line, 3 to 8, each before those after it. */
static void bad_lines(void)
{
    static const struct {
        unsigned number;
        const char *line;
    } lines[] = {
        {3, ""},
        {3, "\r\n" "a"},
        {3, "a LIST \"\" *"},
        {3, "a LIST \"\" *\n"},
        {3, "+ BAD (\x80\r\n"},
        {3, "a LIST \"\" {3}\r\nab\r\n"},
        {3, "a LIST \"\" {1025}\r\n"},
        {3, "a LIST \"\" *\r\n\r\n"},
        {4, "\r\n"},
        {4, "+ BAD (\r\n"},
        {4, "a\r\n"},
        {5, "a \r\n"},
        {5, "a BAD (\r\n"},
        {5, "a LSUBS \"\" *\r\n"},
        {4, "a NAMESPACE \r\n"},
        {4, "a LSUB \"\" (*)\r\n"},
        {4, "a LSUB (SUBSCRIBED) \"\" *\r\n"},
        {4, "a LSUB \"\" * RETURN ()\r\n"},
        {4, "a LIST (FOO RECURSIVEMATCH) \"\" (a b c d e f g h i) x\r\n"},
        {6, "a LIST (FOO RECURSIVEMATCH) \"\" (a b c d e f g h i)\r\n"},
        {6, "a LIST (SUBSCRIBED (x)) \"\" *\r\n"},
        {6, "a LIST \"\" * RETURN (REMOTE)\r\n"},
        {7, "a LIST (RECURSIVEMATCH) \"\" (a b c d e f g h i)\r\n"},
        {7, "a LIST (RECURSIVEMATCH REMOTE) \"\" *\r\n"},
        {8, "a LIST \"\" (a b c d e f g h i)\r\n"},
    };
    for (size_t i = 0; i < sizeof lines / sizeof lines[0]; i++)
        EXPECT(refuses_text(table_e(), lines[i].line, lines[i].number));
    EXPECT(refuses(table_e(), "a LIST \"\" \0\r\n", 13, LUSPEMARO_REFUSAL_LINE_SHAPE));
}

/* A line with a pattern of so many bytes; a line of so many bytes, most of them its tag. The line's length. */
static size_t long_pattern(char *line, size_t length)
{
    memcpy(line, "a LIST \"\" ", 10);
    memset(line + 10, 'a', length);
    memcpy(line + 10 + length, "\r\n", 2);
    return 12 + length;
}

static size_t long_tag(char *line, size_t length)
{
    memset(line, 'a', length - 12);
    memcpy(line + length - 12, " LIST \"\" x\r\n", 12);
    return length;
}

static void limits_of_a_line(void)
{
    static char line[LUSPEMARO_MAX_COMMAND + 100];
    size_t length = long_pattern(line, LUSPEMARO_MAX_CANONICAL);
    EXPECT(answer_to(&NO_ROWS, line, length, 100).number == LUSPEMARO_DONE);
    length = long_pattern(line, LUSPEMARO_MAX_CANONICAL + 1);
    EXPECT(refuses(&NO_ROWS, line, length, LUSPEMARO_REFUSAL_PATTERNS));
    length = long_tag(line, LUSPEMARO_MAX_COMMAND);
    EXPECT(answer_to(&NO_ROWS, line, length, LUSPEMARO_MAX_COMMAND).number == LUSPEMARO_DONE);
    length = long_tag(line, LUSPEMARO_MAX_COMMAND + 1);
    EXPECT(refuses(&NO_ROWS, line, length, LUSPEMARO_REFUSAL_LINE_SHAPE));
}

/* 9 with every buffer that is shorter than the answer, and no byte changes; a buffer of the answer's length holds it. */
static void short_buffers(void)
{
    static const char *const lines[] = {"a LIST \"\" *\r\n", "a LIST \"\" \"\"\r\n", "a NAMESPACE\r\n", "a LIST \"\" x\r\n",
                                        "a LSUB \"\" %\r\n"};
    static uint8_t whole[2000];
    for (size_t i = 0; i < sizeof lines / sizeof lines[0]; i++) {
        size_t length = answer_text(table_e(), lines[i], sizeof whole).length;
        memcpy(whole, lent(OUT), length);
        EXPECT(length > 0);
        for (size_t room = 0; room < length; room++) {
            EXPECT(refused(answer_text(table_e(), lines[i], room), LUSPEMARO_REFUSAL_SHORT_BUFFER));
        }
        EXPECT(answer_text(table_e(), lines[i], length).length == length);
        EXPECT(memcmp(lent(OUT), whole, length) == 0 && front_untouched(OUT));
    }
}

/* Nothing at all is lent. */
static void nothing_lent(void)
{
    struct luspemaro_record none = {1, 2, 3, 4};
    uint64_t number = SPARE_NUMBER;
    uint8_t nothing = FILLER;
    struct luspemaro_outcome r = luspemaro_answer(&none, 0, 0, 0, &nothing, 0, &number, 0, &nothing, 0, &nothing, 0, &nothing, 0);
    EXPECT(is_refusal(r, LUSPEMARO_REFUSAL_LINE_SHAPE));
    EXPECT(nothing == FILLER && number == SPARE_NUMBER && none.flags == 1 && none.start == 2 && none.len == 3 && none.readers == 4);
}

/* The room that suffices for every answer: here 512 rows of 16 levels, of which the pattern matches every ancestor and no row, so that
 * each ancestor has a line with CHILDINFO; and the longest tag. */
static void room_of_an_answer(void)
{
    static const char rest[] = " LIST (SUBSCRIBED RECURSIVEMATCH SPECIAL-USE) \"\" \"*\\\"\" RETURN (CHILDREN)\r\n";
    static char line[LUSPEMARO_MAX_COMMAND];
    const struct rows *table = largest_table(LUSPEMARO_MAX_ROWS, LUSPEMARO_MAX_LEVELS, 0x7F03);
    memset(line, 't', sizeof line);
    memcpy(line + sizeof line - (sizeof rest - 1), rest, sizeof rest - 1);
    EXPECT(table_passes(table));
    EXPECT(table->length == LUSPEMARO_MAX_AREA + HEAD * LUSPEMARO_MAX_ROWS);
    struct luspemaro_outcome r = answer_to(table, line, sizeof line, LUSPEMARO_ROOM_ANSWER);
    EXPECT(r.number == LUSPEMARO_DONE);
    EXPECT(LUSPEMARO_ROOM_ANSWER / 5 * 4 < r.length && r.length <= 58 * table->length + sizeof line + 1666);
    EXPECT(refused(answer_to(table, line, sizeof line, r.length - 1), LUSPEMARO_REFUSAL_SHORT_BUFFER));
}

/* What suffices for a table of t bytes: 58 t + n + 1,666. Rows at the end of 16 levels of one byte, each level with a line. */
static void room_by_bytes(void)
{
    static const char *const lines[] = {
        "a LIST (SUBSCRIBED RECURSIVEMATCH SPECIAL-USE REMOTE) \"\" * RETURN (CHILDREN)\r\n",
        "a LIST (SUBSCRIBED RECURSIVEMATCH SPECIAL-USE REMOTE) \"\" (% %/% %/%/%) RETURN (CHILDREN)\r\n",
        "a LIST (REMOTE) \"\" *% RETURN (CHILDREN SUBSCRIBED SPECIAL-USE)\r\n",
    };
    static struct rows rows;
    rows.length = 0;
    for (unsigned byte = '"'; byte <= 'z'; byte++) {
        uint8_t name[2 * LUSPEMARO_MAX_LEVELS];
        if (byte == '%' || byte == '*' || byte == '/')
            continue;
        memset(name, '/', sizeof name);
        for (unsigned level = 0; level < LUSPEMARO_MAX_LEVELS; level++)
            name[2 * level] = (uint8_t)byte;
        add_row_of(&rows, 0x7F5F, name, 2 * LUSPEMARO_MAX_LEVELS - 1);
    }
    for (size_t i = 0; i < sizeof lines / sizeof lines[0]; i++)
        EXPECT(answer_text(&rows, lines[i], 58 * rows.length + strlen(lines[i]) + 1666).number == LUSPEMARO_DONE);
}

const struct test answer_tests[] = {
    {"answer: the expert's sheet", expert_sheet},
    {"answer: each flag", each_flag},
    {"answer: namespaces, literals, an empty table", other_answers},
    {"answer: LSUB", lsub},
    {"answer: 1", bad_table},
    {"answer: 2", bad_namespaces},
    {"answer: 3 to 8", bad_lines},
    {"answer: limits", limits_of_a_line},
    {"answer: short buffers", short_buffers},
    {"answer: nothing lent", nothing_lent},
    {"answer: the room that suffices", room_of_an_answer},
    {"answer: the room that suffices, by bytes", room_by_bytes},
    {NULL, NULL},
};
