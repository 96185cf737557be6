/* Tests of check 1 in both forms of a table, luspemaro_check_namespaces, luspemaro_matches and its steps. */
#include "check.h"

/* ---- check 1 */

static struct rows rows;

/* Whether a table of these rows passes. Flags and a name for each, up to a row without a name. */
struct row {
    unsigned flags;
    const char *name;
};

static bool passes(const struct row *row)
{
    rows.length = 0;
    for (; row->name != NULL; row++)
        add_row(&rows, row->flags, row->name);
    return table_passes(&rows);
}

static void empty_table(void)
{
    EXPECT(table_passes(&NO_ROWS));
    EXPECT(untouched(TABLE) && untouched(RECORD) && untouched(NAMES));
}

static void table_e_passes(void)
{
    EXPECT(table_passes(table_e()));
}

/* A table passes up to the end of a row, and at no place between. */
static void table_cut_short(void)
{
    rows = *table_e();
    size_t whole = rows.length, end = 0;
    for (size_t length = 0; length <= whole; length++) {
        bool at_end = length == end;
        if (at_end && end < whole)
            end += row_length(&rows, end);
        rows.length = length;
        EXPECT(table_passes(&rows) == at_end);
    }
}

/* "A row that does not exist has flags exactly 0002; marked and unmarked are not both set", and bits 7 and 15 are 0. */
static bool lawful_flags(unsigned flags)
{
    const unsigned both = LUSPEMARO_FLAG_MARKED | LUSPEMARO_FLAG_UNMARKED;
    if ((flags & LUSPEMARO_FLAG_EXISTS) == 0)
        return flags == LUSPEMARO_FLAG_SUBSCRIBED;
    return (flags & 0x8080) == 0 && (flags & both) != both;
}

static void every_flags(void)
{
    for (unsigned flags = 0; flags <= 0xFFFF; flags++) {
        const struct row row[] = {{flags, "a"}, {0, NULL}};
        EXPECT(passes(row) == lawful_flags(flags));
    }
}

/* Any set of readers passes, the empty one too. */
static void every_set(void)
{
    for (unsigned readers = 0; readers <= 0xFF; readers++) {
        rows.length = 0;
        add_row_for(&rows, readers, LUSPEMARO_FLAG_EXISTS, "a");
        add_row_for(&rows, ~readers & 0xFF, LUSPEMARO_FLAG_SUBSCRIBED, "b");
        EXPECT(table_passes(&rows));
    }
}

/* What is hidden from all is checked as any other row. */
static void hidden_rows(void)
{
    static const struct row bad[][4] = {
        {{1, "b"}, {1, "a"}},
        {{0x11, "a"}, {1, "a/b"}},
        {{0x8001, "a"}},
        {{1, "inbox"}},
    };
    for (size_t i = 0; i < sizeof bad / sizeof bad[0]; i++)
        for (unsigned readers = 0; readers <= 0xFF; readers += 0x55) {
            rows.length = 0;
            for (const struct row *row = bad[i]; row->name != NULL; row++)
                add_row_for(&rows, readers, row->flags, row->name);
            EXPECT(!table_passes(&rows));
        }
}

static void every_name_byte(void)
{
    for (unsigned byte = 0; byte <= 0xFF; byte++) {
        uint8_t name = (uint8_t)byte;
        rows.length = 0;
        add_row_of(&rows, LUSPEMARO_FLAG_EXISTS, &name, 1);
        bool lawful = 0x20 <= byte && byte <= 0x7E && byte != '%' && byte != '*' && byte != '/';
        EXPECT(table_passes(&rows) == lawful);
    }
}

static void names_of_a_table(void)
{
    static const struct row good[][4] = {
        {{1, "INBOX"}},
        {{1, "INBOX/x"}},
        {{1, "inboxx"}},
        {{1, "x/inbox"}},
        {{1, "Foo"}, {1, "Foo-x"}, {1, "Foo/Bar"}},
        {{0x11, "a"}, {1, "a-b"}, {1, "b"}},
        {{2, "a"}, {0x7F01, "b"}},
        {{1, "a/b/c/d/e/f/g/h/i/j/k/l/m/n/o/p"}},
    };
    static const struct row bad[][4] = {
        {{1, "inbox"}},
        {{1, "Inbox/x"}},
        {{1, ""}},
        {{1, "/a"}},
        {{1, "a/"}},
        {{1, "a//b"}},
        {{1, "b"}, {1, "a"}},
        {{1, "a"}, {1, "a"}},
        {{1, "Foo/Bar"}, {1, "Foo-x"}, {1, "Foo"}},
        {{0x11, "a"}, {1, "a/b"}},
        {{0x11, "a"}, {1, "a-b"}, {1, "a/b/c"}},
        {{1, "a/b/c/d/e/f/g/h/i/j/k/l/m/n/o/p/q"}},
    };
    for (size_t i = 0; i < sizeof good / sizeof good[0]; i++)
        EXPECT(passes(good[i]));
    for (size_t i = 0; i < sizeof bad / sizeof bad[0]; i++)
        EXPECT(!passes(bad[i]));
}

/* Rows with names of this length, ascending. */
static void add_rows(size_t count, size_t length)
{
    uint8_t name[255];
    memset(name, 'a', sizeof name);
    for (size_t row = 0; row < count; row++) {
        name[0] = (uint8_t)('A' + row / 26);
        name[1] = (uint8_t)('A' + row % 26);
        add_row_of(&rows, LUSPEMARO_FLAG_EXISTS, name, length);
    }
}

static bool passes_with(size_t count, size_t length, size_t last_length)
{
    uint8_t name[255];
    memset(name, 'z', sizeof name);
    rows.length = 0;
    add_rows(count, length);
    if (last_length > 0)
        add_row_of(&rows, LUSPEMARO_FLAG_EXISTS, name, last_length);
    return table_passes(&rows);
}

static void limits_of_a_table(void)
{
    EXPECT(passes_with(0, 0, LUSPEMARO_MAX_NAME));
    EXPECT(!passes_with(0, 0, LUSPEMARO_MAX_NAME + 1));
    EXPECT(!passes_with(0, 0, 255));
    EXPECT(passes_with(LUSPEMARO_MAX_ROWS, 2, 0));
    EXPECT(!passes_with(LUSPEMARO_MAX_ROWS, 2, 1));
}

/* The bytes before a name count for a packed table, and not for the area of records. */
static void bytes_of_a_table(void)
{
    EXPECT(passes_with(160, 200, 124) && rows.length == LUSPEMARO_MAX_TABLE);
    EXPECT(passes_with(160, 200, 125) == (form == RECORDS) && rows.length == LUSPEMARO_MAX_TABLE + 1);
    EXPECT(passes_with(163, 200, 168) == (form == RECORDS) && rows.length == LUSPEMARO_MAX_AREA + 164 * HEAD);
    EXPECT(!passes_with(163, 200, 169));
}

/* ---- check 2 */

static bool list_passes(const void *list, size_t length)
{
    return luspemaro_check_namespaces(lend_bytes(NAMESPACES, list, length), length);
}

static void namespace_lists(void)
{
    static const struct {
        bool good;
        size_t length;
        const char *list;
    } lists[] = {
        {true, 0, ""},
        {true, 3, "\0\0\0"},
        {true, 3, "\2\0/"},
        {true, 4, "\0\1 ~"},
        {true, 12, "\0\0/\0\0/\0\0/\0\0/"},
        {true, 9, "\0\0/\1\0/\2\0/"},
        {true, 5, "\0\2%*!"},
        {false, 1, "\0"},
        {false, 2, "\0\0"},
        {false, 3, "\3\0/"},
        {false, 3, "\0\0 "},
        {false, 3, "\0\0\177"},
        {false, 4, "\0\1\37/"},
        {false, 4, "\0\1\177/"},
        {false, 4, "\0\0/\0"},
        {false, 3, "\0\1a"},
        {false, 6, "\1\0/\0\0/"},
        {false, 15, "\0\0/\0\0/\0\0/\0\0/\0\0/"},
    };
    for (size_t i = 0; i < sizeof lists / sizeof lists[0]; i++)
        EXPECT(list_passes(lists[i].list, lists[i].length) == lists[i].good);
}

/* Three classes of 4 entries, each with a prefix of this length. */
static size_t full_list(uint8_t *list, size_t prefix)
{
    size_t length = 0;
    for (unsigned entry = 0; entry < 3 * LUSPEMARO_MAX_ENTRIES; entry++) {
        list[length] = (uint8_t)(entry / LUSPEMARO_MAX_ENTRIES);
        list[length + 1] = (uint8_t)prefix;
        memset(list + length + 2, 'p', prefix);
        list[length + 2 + prefix] = '/';
        length += 3 + prefix;
    }
    return length;
}

static void limits_of_a_list(void)
{
    static uint8_t list[LUSPEMARO_MAX_NAMESPACES + 100];
    EXPECT(full_list(list, LUSPEMARO_MAX_PREFIX) == LUSPEMARO_MAX_NAMESPACES);
    EXPECT(list_passes(list, LUSPEMARO_MAX_NAMESPACES));
    EXPECT(!list_passes(list, LUSPEMARO_MAX_NAMESPACES - 1));
    EXPECT(!list_passes(list, full_list(list, LUSPEMARO_MAX_PREFIX + 1)));
}

/* ---- the pattern's match */

static bool match(const void *pattern, size_t pattern_length, const void *name, size_t name_length)
{
    return luspemaro_matches(lend_bytes(LINE, pattern, pattern_length), pattern_length, lend_bytes(TABLE, name, name_length),
                             name_length);
}

static void patterns(void)
{
    static const struct {
        const char *pattern, *name;
        bool match;
    } cases[] = {
        {"", "", true},           {"", "a", false},         {"*", "", true},
        {"%", "", true},          {"a", "", false},         {"*", "a/b/c", true},
        {"%", "a/b", false},      {"%/%", "a/b", true},     {"%/%", "a/b/c", false},
        {"a*c", "a/b/c", true},   {"a%c", "abbc", true},    {"a%c", "a/c", false},
        {"*%", "a/b", true},      {"%*%", "a/b", true},     {"Foo", "foo", false},
        {"inbox", "INBOX", true}, {"i%", "INBOX", true},    {"inbox/%", "INBOX/x", false},
        {"in%x", "INBOX", true},  {"INBOX", "inbox", false}, {"a?", "ab", false},
    };
    for (size_t i = 0; i < sizeof cases / sizeof cases[0]; i++)
        EXPECT(match(cases[i].pattern, strlen(cases[i].pattern), cases[i].name, strlen(cases[i].name)) == cases[i].match);
}

/* A name of 255 bytes is matched, and no longer one, whatever the pattern; a pattern may have any length. */
static void lengths_of_a_match(void)
{
    static uint8_t name[70000], stars[70000];
    memset(name, 'a', sizeof name);
    memset(stars, '*', sizeof stars);
    EXPECT(match("*", 1, name, 255) && match("%", 1, name, 255) && match(name, 255, name, 255));
    EXPECT(!match("*", 1, name, 256) && !match("%", 1, name, 256) && !match(name, 256, name, 256));
    EXPECT(!match("*", 1, name, sizeof name) && !match(stars, sizeof stars, name, sizeof name));
    EXPECT(match(stars, sizeof stars, name, 255) && match(stars, sizeof stars, name, 0));
    EXPECT(!match(name, sizeof name, name, 255));
}

/* Every byte stands for itself but the two wildcards, which stand for any byte. */
static void every_byte_of_a_match(void)
{
    for (unsigned p = 0; p <= 0xFF; p++)
        for (unsigned n = 0; n <= 0xFF; n++) {
            uint8_t pattern = (uint8_t)p, name = (uint8_t)n;
            EXPECT(match(&pattern, 1, &name, 1) == (p == n || p == '*' || (p == '%' && n != '/')));
        }
}

/* ---- its steps */

static size_t steps(const void *pattern, size_t pattern_length, const void *name, size_t name_length)
{
    return luspemaro_match_steps(lend_bytes(LINE, pattern, pattern_length), pattern_length, lend_bytes(TABLE, name, name_length),
                                 name_length);
}

/* At most (p + 1) (n + 1), and one at least where the name is looked at; few where a wildcard need not be tried again. */
static void steps_of_a_match(void)
{
    static const char *const patterns[] = {"", "*", "%", "a", "*a*a*a*b", "%a%a%a%b", "*%/%b", "%*/b", "*a%b*a%b", "a/b/*", "***%%%***"};
    static const char *const names[] = {"", "a", "b", "aaaaaaaa", "a/a/a/a/b", "aab/aab/aab", "////", "INBOX"};
    for (size_t i = 0; i < sizeof patterns / sizeof patterns[0]; i++)
        for (size_t j = 0; j < sizeof names / sizeof names[0]; j++) {
            size_t p = strlen(patterns[i]), n = strlen(names[j]), taken = steps(patterns[i], p, names[j], n);
            EXPECT(taken >= 1 && taken <= (p + 1) * (n + 1));
        }
    EXPECT(steps("*", 1, "a/b/c", 5) == 2);
    EXPECT(steps("a", 1, "b", 1) == 1);
    EXPECT(steps("abc", 3, "abc", 3) == 5);
    EXPECT(steps("*%/%b", 5, "a/b/c", 5) == 1);
}

static void steps_of_long_names(void)
{
    static uint8_t name[256], stars[70000];
    memset(name, 'a', sizeof name);
    memset(stars, '*', sizeof stars);
    EXPECT(steps(stars, sizeof stars, name, 256) == 0);
    EXPECT(steps(stars, sizeof stars, name, 255) == sizeof stars + 1);
}

const struct test table_tests[] = {
    {"check 1: an empty table", empty_table},
    {"check 1: table E", table_e_passes},
    {"check 1: a table cut short", table_cut_short},
    {"check 1: every flags", every_flags},
    {"check 1: every set of readers", every_set},
    {"check 1: hidden rows", hidden_rows},
    {"check 1: every byte as a name", every_name_byte},
    {"check 1: names", names_of_a_table},
    {"check 1: limits", limits_of_a_table},
    {"check 1: bytes", bytes_of_a_table},
    {NULL, NULL},
};

const struct test check_tests[] = {
    {"check_namespaces: lists", namespace_lists},
    {"check_namespaces: limits", limits_of_a_list},
    {"matches: patterns and names", patterns},
    {"matches: lengths", lengths_of_a_match},
    {"matches: every byte against every byte", every_byte_of_a_match},
    {"match_steps: the bound", steps_of_a_match},
    {"match_steps: lengths", steps_of_long_names},
    {NULL, NULL},
};
