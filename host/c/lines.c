/* Tests of luspemaro_write_line and luspemaro_read_line. */
#include "check.h"

static struct luspemaro_outcome write_line(unsigned attributes, const char *name, size_t length, unsigned criteria, size_t room)
{
    return luspemaro_write_line((uint16_t)attributes, lend_bytes(TABLE, name, length), length, (uint8_t)criteria, lend(OUT, room),
                                room);
}

static struct luspemaro_line read_line(const void *line, size_t length)
{
    return luspemaro_read_line(lend_bytes(LINE, line, length), length);
}

/* Whether the line has these parts, with zeros after the name. */
static bool has_parts(struct luspemaro_line line, unsigned attributes, const char *name, size_t length, unsigned criteria)
{
    return line.number == LUSPEMARO_DONE && line.attributes == attributes && line.criteria == criteria && line.length == length
           && memcmp(line.name, name, length) == 0 && all_are(line.name + length, sizeof line.name - length, 0);
}

static bool is_bad(struct luspemaro_line line)
{
    return line.number == LUSPEMARO_REFUSAL_NOT_SUCH_LINE && line.attributes == 0 && line.criteria == 0 && line.length == 0
           && all_are(line.name, sizeof line.name, 0);
}

/* Whether these parts are written so, and read back. */
static bool is_written(unsigned attributes, const char *name, unsigned criteria, const char *line)
{
    size_t length = strlen(line);
    struct luspemaro_outcome r = write_line(attributes, name, strlen(name), criteria, 700);
    return r.number == LUSPEMARO_DONE && r.length == length && r.count == 0 && memcmp(lent(OUT), line, length) == 0
           && all_are(lent(OUT) + length, 700 - length, FILLER) && front_untouched(OUT)
           && has_parts(read_line(line, length), attributes, name, strlen(name), criteria);
}

static void texts(void)
{
    EXPECT(is_written(0, "Moo", 0, "* LIST () \"/\" \"Moo\"\r\n"));
    EXPECT(is_written(LUSPEMARO_ATTRIBUTE_NOSELECT, "", 0, "* LIST (\\Noselect) \"/\" \"\"\r\n"));
    EXPECT(is_written(LUSPEMARO_ATTRIBUTE_NON_EXISTENT, "Foo", LUSPEMARO_CRITERIA_SUBSCRIBED,
                      "* LIST (\\NonExistent) \"/\" \"Foo\" (\"CHILDINFO\" (\"SUBSCRIBED\"))\r\n"));
    EXPECT(is_written(0, "a\"b\\c", LUSPEMARO_CRITERIA_SPECIAL_USE,
                      "* LIST () \"/\" \"a\\\"b\\\\c\" (\"CHILDINFO\" (\"SPECIAL-USE\"))\r\n"));
    EXPECT(is_written(0xFFFF, "a/b", LUSPEMARO_CRITERIA_SUBSCRIBED | LUSPEMARO_CRITERIA_SPECIAL_USE,
                      "* LIST (\\Marked \\Unmarked \\Noselect \\NoInferiors \\Remote \\Subscribed \\NonExistent \\All \\Archive "
                      "\\Drafts \\Flagged \\Junk \\Sent \\Trash \\HasChildren \\HasNoChildren) \"/\" \"a/b\" "
                      "(\"CHILDINFO\" (\"SUBSCRIBED\" \"SPECIAL-USE\"))\r\n"));
}

/* Each attribute alone, by its name in the header. */
static void each_attribute(void)
{
    static const struct {
        unsigned attribute;
        const char *line;
    } lines[] = {
        {LUSPEMARO_ATTRIBUTE_MARKED, "* LIST (\\Marked) \"/\" \"a\"\r\n"},
        {LUSPEMARO_ATTRIBUTE_UNMARKED, "* LIST (\\Unmarked) \"/\" \"a\"\r\n"},
        {LUSPEMARO_ATTRIBUTE_NOSELECT, "* LIST (\\Noselect) \"/\" \"a\"\r\n"},
        {LUSPEMARO_ATTRIBUTE_NO_INFERIORS, "* LIST (\\NoInferiors) \"/\" \"a\"\r\n"},
        {LUSPEMARO_ATTRIBUTE_REMOTE, "* LIST (\\Remote) \"/\" \"a\"\r\n"},
        {LUSPEMARO_ATTRIBUTE_SUBSCRIBED, "* LIST (\\Subscribed) \"/\" \"a\"\r\n"},
        {LUSPEMARO_ATTRIBUTE_NON_EXISTENT, "* LIST (\\NonExistent) \"/\" \"a\"\r\n"},
        {LUSPEMARO_ATTRIBUTE_ALL, "* LIST (\\All) \"/\" \"a\"\r\n"},
        {LUSPEMARO_ATTRIBUTE_ARCHIVE, "* LIST (\\Archive) \"/\" \"a\"\r\n"},
        {LUSPEMARO_ATTRIBUTE_DRAFTS, "* LIST (\\Drafts) \"/\" \"a\"\r\n"},
        {LUSPEMARO_ATTRIBUTE_FLAGGED, "* LIST (\\Flagged) \"/\" \"a\"\r\n"},
        {LUSPEMARO_ATTRIBUTE_JUNK, "* LIST (\\Junk) \"/\" \"a\"\r\n"},
        {LUSPEMARO_ATTRIBUTE_SENT, "* LIST (\\Sent) \"/\" \"a\"\r\n"},
        {LUSPEMARO_ATTRIBUTE_TRASH, "* LIST (\\Trash) \"/\" \"a\"\r\n"},
        {LUSPEMARO_ATTRIBUTE_HAS_CHILDREN, "* LIST (\\HasChildren) \"/\" \"a\"\r\n"},
        {LUSPEMARO_ATTRIBUTE_HAS_NO_CHILDREN, "* LIST (\\HasNoChildren) \"/\" \"a\"\r\n"},
    };
    for (size_t i = 0; i < sizeof lines / sizeof lines[0]; i++)
        EXPECT(is_written(lines[i].attribute, "a", 0, lines[i].line));
}

/* What is written from any attributes and lawful criteria is read back. */
static void every_set(void)
{
    for (unsigned attributes = 0; attributes <= 0xFFFF; attributes++)
        for (unsigned criteria = 0; criteria <= 3; criteria++) {
            struct luspemaro_outcome r = write_line(attributes, "a/b", 3, criteria, LUSPEMARO_ROOM_LIST_LINE);
            EXPECT(r.number == LUSPEMARO_DONE);
            EXPECT(has_parts(read_line(lent(OUT), r.length), attributes, "a/b", 3, criteria));
        }
}

/* Criteria above 3 are 12, before anything else, and no byte changes. */
static void every_criteria(void)
{
    for (unsigned criteria = 0; criteria <= 0xFF; criteria++) {
        if (criteria <= 3) {
            EXPECT(write_line(0, "a", 1, criteria, 100).number == LUSPEMARO_DONE);
            EXPECT(is_refusal(write_line(0, "a", 1, criteria, 0), LUSPEMARO_REFUSAL_SHORT_BUFFER));
        } else {
            EXPECT(is_refusal(write_line(0, "a", 1, criteria, 100), LUSPEMARO_REFUSAL_NOT_SUCH_LINE) && untouched(OUT));
            EXPECT(is_refusal(write_line(0, "a", 1, criteria, 0), LUSPEMARO_REFUSAL_NOT_SUCH_LINE));
            EXPECT(is_refusal(write_line(0, "a//", 3, criteria, 0), LUSPEMARO_REFUSAL_NOT_SUCH_LINE));
            EXPECT(is_refusal(write_line(LUSPEMARO_ATTRIBUTE_NOSELECT, "", 0, criteria, 100), LUSPEMARO_REFUSAL_NOT_SUCH_LINE));
        }
    }
}

/* Names that no line has, 12 before 9, and the other parts of an empty name. */
static void bad_parts(void)
{
    static const char *const names[] = {"/", "a/", "/a", "a//b", "inbox", "Inbox/x", "a%", "a*", "\x1F", "\x7F", "\x80"};
    for (size_t i = 0; i < sizeof names / sizeof names[0]; i++)
        for (size_t room = 0; room <= 100; room += 100) {
            EXPECT(is_refusal(write_line(0, names[i], strlen(names[i]), 0, room), LUSPEMARO_REFUSAL_NOT_SUCH_LINE));
            EXPECT(untouched(OUT));
        }
    for (unsigned attributes = 0; attributes <= 0xFFFF; attributes++)
        if (attributes != LUSPEMARO_ATTRIBUTE_NOSELECT)
            EXPECT(is_refusal(write_line(attributes, "", 0, 0, 100), LUSPEMARO_REFUSAL_NOT_SUCH_LINE) && untouched(OUT));
    for (unsigned criteria = 1; criteria <= 3; criteria++)
        EXPECT(is_refusal(write_line(LUSPEMARO_ATTRIBUTE_NOSELECT, "", 0, criteria, 100), LUSPEMARO_REFUSAL_NOT_SUCH_LINE));
}

/* 9 with every buffer that is shorter than the line, and no byte changes. The longest line has 612 bytes. */
static void short_buffers(void)
{
    static char name[LUSPEMARO_MAX_NAME + 1];
    memset(name, '"', sizeof name);
    for (size_t room = 0; room < LUSPEMARO_ROOM_LIST_LINE; room++)
        EXPECT(is_refusal(write_line(0xFFFF, name, LUSPEMARO_MAX_NAME, 3, room), LUSPEMARO_REFUSAL_SHORT_BUFFER) && untouched(OUT));
    struct luspemaro_outcome r = write_line(0xFFFF, name, LUSPEMARO_MAX_NAME, 3, LUSPEMARO_ROOM_LIST_LINE);
    EXPECT(r.number == LUSPEMARO_DONE && r.length == LUSPEMARO_ROOM_LIST_LINE && front_untouched(OUT));
    EXPECT(has_parts(read_line(lent(OUT), r.length), 0xFFFF, name, LUSPEMARO_MAX_NAME, 3));
    EXPECT(is_refusal(write_line(0xFFFF, name, LUSPEMARO_MAX_NAME + 1, 3, 0), LUSPEMARO_REFUSAL_NOT_SUCH_LINE));
}

static void every_length_of_a_name(void)
{
    static char name[LUSPEMARO_MAX_NAME];
    memset(name, 'a', sizeof name);
    for (size_t length = 1; length <= LUSPEMARO_MAX_NAME; length++) {
        struct luspemaro_outcome r = write_line(0, name, length, 0, LUSPEMARO_ROOM_LIST_LINE);
        EXPECT(has_parts(read_line(lent(OUT), r.length), 0, name, length, 0));
    }
}

/* No line is the front of another, nor has a byte too many; nor is a line with one byte changed to 00 or with its high bit set. */
static void bad_lines(void)
{
    static char line[] = "* LIST (\\Marked \\Trash) \"/\" \"a/b\" (\"CHILDINFO\" (\"SUBSCRIBED\" \"SPECIAL-USE\"))\r\n";
    size_t length = sizeof line - 1;
    EXPECT(has_parts(read_line(line, length), 0x2001, "a/b", 3, 3));
    for (size_t cut = 0; cut < length; cut++)
        EXPECT(is_bad(read_line(line, cut)));
    EXPECT(is_bad(read_line(line, length + 1)));
    for (size_t i = 0; i < length; i++) {
        char kept = line[i];
        line[i] = '\0';
        EXPECT(is_bad(read_line(line, length)));
        line[i] = (char)(kept ^ '\x80');
        EXPECT(is_bad(read_line(line, length)));
        line[i] = kept;
    }
    EXPECT(is_bad(read_line("* LIST (\\Trash \\Marked) \"/\" \"a\"\r\n", 34)));
    EXPECT(is_bad(read_line("* LIST () \"/\" \"\"\r\n", 18)));
}

const struct test line_tests[] = {
    {"write_line and read_line: texts", texts},
    {"write_line and read_line: each attribute", each_attribute},
    {"write_line and read_line: every set of attributes and criteria", every_set},
    {"write_line: every criteria byte", every_criteria},
    {"write_line: 12", bad_parts},
    {"write_line: short buffers", short_buffers},
    {"write_line and read_line: every length of a name", every_length_of_a_name},
    {"read_line: 12", bad_lines},
    {NULL, NULL},
};
