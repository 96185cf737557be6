/* Tests of luspemaro_join. */
#include "check.h"

/* A string of the test, which may hold any bytes. */
struct string {
    const void *bytes;
    size_t length;
};
#define TEXT(literal) {literal, sizeof literal - 1}

/* More than any line. */
enum { ROOM = LUSPEMARO_MAX_COMMAND + 10 };

static struct luspemaro_outcome join(struct string tag, unsigned options, struct string reference, struct string patterns, size_t room)
{
    return luspemaro_join(lend_bytes(TAG, tag.bytes, tag.length), tag.length, (uint8_t)options,
                          lend_bytes(REFERENCE, reference.bytes, reference.length), reference.length,
                          lend_bytes(PATTERNS, patterns.bytes, patterns.length), patterns.length, lend(OUT, room), room);
}

/* Whether what is lent for reading is as it was lent. */
static bool parts_untouched(struct string tag, struct string reference, struct string patterns)
{
    return memcmp(lent(TAG), tag.bytes, tag.length) == 0 && memcmp(lent(REFERENCE), reference.bytes, reference.length) == 0
           && memcmp(lent(PATTERNS), patterns.bytes, patterns.length) == 0 && front_untouched(TAG) && front_untouched(REFERENCE)
           && front_untouched(PATTERNS);
}

/* Whether these parts are written as this line, in every buffer that has room for it, and refused with 9 in one that is a byte short. */
static bool is_joined(struct string tag, unsigned options, struct string reference, struct string patterns, struct string line)
{
    for (size_t more = 0; more <= 3; more++) {
        struct luspemaro_outcome r = join(tag, options, reference, patterns, line.length + more);
        if (r.number != LUSPEMARO_DONE || r.length != line.length || r.count != 0 || memcmp(lent(OUT), line.bytes, line.length) != 0
            || !all_are(lent(OUT) + line.length, more, FILLER) || !front_untouched(OUT) || !parts_untouched(tag, reference, patterns))
            return false;
    }
    return is_refusal(join(tag, options, reference, patterns, line.length - 1), LUSPEMARO_REFUSAL_SHORT_BUFFER) && untouched(OUT);
}

/* Whether these parts are refused with this number, whatever the buffer, and change no byte. */
static bool is_refused(struct string tag, unsigned options, struct string reference, struct string patterns, unsigned number)
{
    for (size_t room = 0; room <= ROOM; room += ROOM)
        if (!is_refusal(join(tag, options, reference, patterns, room), number) || !untouched(OUT)
            || !parts_untouched(tag, reference, patterns))
            return false;
    return true;
}

/* The same byte so many times, in one of a few rooms. */
static struct string times(unsigned room, int byte, size_t length)
{
    static uint8_t bytes[4][LUSPEMARO_MAX_COMMAND + 100];
    memset(bytes[room], byte, length);
    struct string string = {bytes[room], length};
    return string;
}

/* Bytes put one after the other. */
static struct string joined(const struct string *strings, size_t count)
{
    static uint8_t bytes[2 * LUSPEMARO_MAX_COMMAND];
    struct string all = {bytes, 0};
    for (size_t i = 0; i < count; i++) {
        memcpy(bytes + all.length, strings[i].bytes, strings[i].length);
        all.length += strings[i].length;
    }
    return all;
}

static const struct string a = TEXT("a"), none = TEXT(""), percent = TEXT("\x01%"), empty = TEXT("\0");

static void texts(void)
{
    static const struct {
        unsigned options;
        struct string reference, patterns, line;
    } cases[] = {
        {0, TEXT(""), TEXT("\x01%\x05" "Foo/*"), TEXT("a LIST () \"\" (\"%\" \"Foo/*\")\r\n")},
        {0, TEXT("Foo/"), TEXT("\x01%"), TEXT("a LIST () \"Foo/\" (\"%\")\r\n")},
        {0x7F, TEXT(""), TEXT("\x01%"),
         TEXT("a LIST (SUBSCRIBED RECURSIVEMATCH SPECIAL-USE REMOTE) \"\" (\"%\") RETURN (SUBSCRIBED CHILDREN SPECIAL-USE)\r\n")},
        {0, TEXT("a\"b"), TEXT("\x03" "c\\d"), TEXT("a LIST () \"a\\\"b\" (\"c\\\\d\")\r\n")},
        {0, TEXT("Caf\xC3\xA9"), TEXT("\x01%"), TEXT("a LIST () {5}\r\nCaf\xC3\xA9 (\"%\")\r\n")},
        {0, TEXT(""), TEXT("\x04" "a\r\nb\x01\xFF\x01%"), TEXT("a LIST () \"\" ({4}\r\na\r\nb {1}\r\n\xFF \"%\")\r\n")},
        {0x10, TEXT(""), TEXT("\x01\x80"), TEXT("a LIST () \"\" ({1}\r\n\x80) RETURN (SUBSCRIBED)\r\n")},
        {0, TEXT(""), TEXT("\0\x01x\0"), TEXT("a LIST () \"\" (\"\" \"x\" \"\")\r\n")},
        {0, TEXT("{3}"), TEXT("\x03{1}"), TEXT("a LIST () \"{3}\" (\"{1}\")\r\n")},
    };
    for (size_t i = 0; i < sizeof cases / sizeof cases[0]; i++)
        EXPECT(is_joined(a, cases[i].options, cases[i].reference, cases[i].patterns, cases[i].line));
    static const struct string tag = TEXT("]~0"), line = TEXT("]~0 LIST () \"\" (\"%\")\r\n");
    EXPECT(is_joined(tag, 0, none, percent, line));
}

/* Each option by its name in the header. */
static void each_option(void)
{
    static const struct {
        unsigned option;
        struct string line;
    } cases[] = {
        {LUSPEMARO_SELECT_SUBSCRIBED, TEXT("a LIST (SUBSCRIBED) \"\" (\"%\")\r\n")},
        {LUSPEMARO_SELECT_REMOTE, TEXT("a LIST (REMOTE) \"\" (\"%\")\r\n")},
        {LUSPEMARO_SELECT_RECURSIVEMATCH | LUSPEMARO_SELECT_SUBSCRIBED, TEXT("a LIST (SUBSCRIBED RECURSIVEMATCH) \"\" (\"%\")\r\n")},
        {LUSPEMARO_SELECT_SPECIAL_USE, TEXT("a LIST (SPECIAL-USE) \"\" (\"%\")\r\n")},
        {LUSPEMARO_RETURN_SUBSCRIBED, TEXT("a LIST () \"\" (\"%\") RETURN (SUBSCRIBED)\r\n")},
        {LUSPEMARO_RETURN_CHILDREN, TEXT("a LIST () \"\" (\"%\") RETURN (CHILDREN)\r\n")},
        {LUSPEMARO_RETURN_SPECIAL_USE, TEXT("a LIST () \"\" (\"%\") RETURN (SPECIAL-USE)\r\n")},
    };
    for (size_t i = 0; i < sizeof cases / sizeof cases[0]; i++)
        EXPECT(is_joined(a, cases[i].option, none, percent, cases[i].line));
}

/* 6 with another bit than the seven, 7 with RECURSIVEMATCH and no criterion beside it; else a line that is answered. */
static void every_option_number(void)
{
    for (unsigned options = 0; options <= 0xFF; options++) {
        bool has_criterion = (options & (LUSPEMARO_SELECT_SUBSCRIBED | LUSPEMARO_SELECT_SPECIAL_USE)) != 0;
        if (options > 0x7F) {
            EXPECT(is_refused(a, options, none, percent, LUSPEMARO_REFUSAL_OPTION));
        } else if ((options & LUSPEMARO_SELECT_RECURSIVEMATCH) != 0 && !has_criterion) {
            EXPECT(is_refused(a, options, none, percent, LUSPEMARO_REFUSAL_RECURSIVEMATCH_ALONE));
        } else {
            struct luspemaro_outcome r = join(a, options, none, percent, LUSPEMARO_ROOM_COMMAND);
            EXPECT(r.number == LUSPEMARO_DONE);
            uint8_t line[LUSPEMARO_ROOM_COMMAND];
            memcpy(line, lent(OUT), r.length);
            EXPECT(answer_to(table_e(), line, r.length, 1000).number == LUSPEMARO_DONE);
        }
    }
}

/* 3: a byte 00, a literal of over 1,024 bytes, and a line of over 2,048, by each part. */
static void not_writable(void)
{
    static const struct string zero = TEXT("\0"), zero_pattern = TEXT("\x01%\x02" "a\0"), end = TEXT("\"\")\r\n");
    EXPECT(is_refused(a, 0, zero, percent, LUSPEMARO_REFUSAL_LINE_SHAPE));
    EXPECT(is_refused(a, 0, none, zero_pattern, LUSPEMARO_REFUSAL_LINE_SHAPE));
    EXPECT(is_refused(a, 0, times(0, 0xFF, LUSPEMARO_MAX_LITERAL + 1), empty, LUSPEMARO_REFUSAL_LINE_SHAPE));
    const struct string literal[] = {TEXT("a LIST () {1024}\r\n"), times(0, 0xFF, LUSPEMARO_MAX_LITERAL), TEXT(" ("), end};
    EXPECT(is_joined(a, 0, times(1, 0xFF, LUSPEMARO_MAX_LITERAL), empty, joined(literal, 4)));
    const struct string by_reference[] = {TEXT("a LIST () \""), times(0, 'r', 2029), TEXT("\" ("), end};
    EXPECT(is_joined(a, 0, times(1, 'r', 2029), empty, joined(by_reference, 4)));
    EXPECT(is_refused(a, 0, times(1, 'r', 2030), empty, LUSPEMARO_REFUSAL_LINE_SHAPE));
    const struct string by_tag[] = {times(0, 't', 2030), TEXT(" LIST () \"\" ("), end};
    EXPECT(is_joined(times(1, 't', 2030), 0, none, empty, joined(by_tag, 3)));
    EXPECT(is_refused(times(1, 't', 2031), 0, none, empty, LUSPEMARO_REFUSAL_LINE_SHAPE));
    EXPECT(is_refused(a, 0, none, times(1, 1, 2 * 700), LUSPEMARO_REFUSAL_LINE_SHAPE));
}

/* 4: no tag, no pattern, and lists that their patterns do not fill. */
static void off_the_grammar(void)
{
    static const struct string tags[] = {TEXT(""), TEXT("+"), TEXT("a+"), TEXT("a b"), TEXT("a\0"), TEXT("\x80"), TEXT("a\r\n")};
    static const struct string lists[] = {TEXT(""), TEXT("\x01"), TEXT("\x01%\x03" "ab"), TEXT("\x01%\xFF"), TEXT("\x02%")};
    for (size_t i = 0; i < sizeof tags / sizeof tags[0]; i++)
        EXPECT(is_refused(tags[i], 0, none, percent, LUSPEMARO_REFUSAL_GRAMMAR));
    for (size_t i = 0; i < sizeof lists / sizeof lists[0]; i++)
        EXPECT(is_refused(a, 0, none, lists[i], LUSPEMARO_REFUSAL_GRAMMAR));
}

/* 8: nine patterns, empty ones counted, and a canonical pattern of 256 bytes, where an empty pattern has none. */
static void many_or_long_patterns(void)
{
    static const struct string of_56 = TEXT("\x38"), of_55 = TEXT("\x37"), of_255 = TEXT("\xFF");
    static const struct string eight = TEXT("a LIST () \"\" (\"\" \"\" \"\" \"\" \"\" \"\" \"\" \"\")\r\n");
    EXPECT(is_joined(a, 0, none, times(0, 0, LUSPEMARO_MAX_PATTERNS), eight));
    EXPECT(is_refused(a, 0, none, times(0, 0, LUSPEMARO_MAX_PATTERNS + 1), LUSPEMARO_REFUSAL_PATTERNS));
    const struct string too_long[] = {of_56, times(0, 'p', 56)};
    EXPECT(is_refused(a, 0, times(1, 'r', 200), joined(too_long, 2), LUSPEMARO_REFUSAL_PATTERNS));
    const struct string longest[] = {of_55, times(0, 'p', 55)};
    EXPECT(join(a, 0, times(1, 'r', 200), joined(longest, 2), ROOM).number == LUSPEMARO_DONE);
    const struct string alone[] = {of_255, times(0, 'p', 255)};
    EXPECT(join(a, 0, none, joined(alone, 2), ROOM).number == LUSPEMARO_DONE);
    EXPECT(is_refused(a, 0, a, joined(alone, 2), LUSPEMARO_REFUSAL_PATTERNS));
    EXPECT(join(a, 0, times(1, 'r', 256), empty, ROOM).number == LUSPEMARO_DONE);
}

/* Several faults: 3, 4, 6, 7, 8, then 9. */
static void order(void)
{
    static const struct string plus = TEXT("+"), zero = TEXT("\0");
    struct string nine = times(0, 0, LUSPEMARO_MAX_PATTERNS + 1);
    EXPECT(is_refused(plus, 0xFF, zero, nine, LUSPEMARO_REFUSAL_LINE_SHAPE));
    EXPECT(is_refused(plus, 0xFF, none, nine, LUSPEMARO_REFUSAL_GRAMMAR));
    EXPECT(is_refused(a, 0xFF, none, none, LUSPEMARO_REFUSAL_GRAMMAR));
    EXPECT(is_refused(a, 0x84, none, nine, LUSPEMARO_REFUSAL_OPTION));
    EXPECT(is_refused(a, 0x04, none, nine, LUSPEMARO_REFUSAL_RECURSIVEMATCH_ALONE));
    EXPECT(is_refused(a, 0x00, none, nine, LUSPEMARO_REFUSAL_PATTERNS));
    for (size_t room = 0; room < 20; room++)
        EXPECT(is_refusal(join(a, 0, none, percent, room), LUSPEMARO_REFUSAL_SHORT_BUFFER) && untouched(OUT));
    EXPECT(join(a, 0, none, percent, 20).length == 20);
}

/* The patterns of docs/LIBRARY.md, and the lines of the two commands that are joined. */
static void one_request_for_two(void)
{
    static const struct string patterns = TEXT("\1%\5Foo/%"), subscribed = TEXT("a LIST (SUBSCRIBED) \"\" (\"%\" \"Foo/%\")\r\n");
    static const char expected[] = "* LIST (\\NonExistent \\HasChildren) \"/\" \"Foo\"\r\n"
                                   "* LIST () \"/\" \"Foo-x\"\r\n"
                                   "* LIST () \"/\" \"Foo/Bar\"\r\n"
                                   "* LIST () \"/\" \"Foo/Baz\"\r\n"
                                   "* LIST (\\Marked \\NoInferiors) \"/\" \"INBOX\"\r\n"
                                   "* LIST () \"/\" \"Moo\"\r\n"
                                   "a OK done\r\n";
    uint8_t line[LUSPEMARO_ROOM_COMMAND];
    EXPECT(is_joined(a, LUSPEMARO_SELECT_SUBSCRIBED, none, patterns, subscribed));
    struct luspemaro_outcome r = join(a, 0, none, patterns, sizeof line);
    memcpy(line, lent(OUT), r.length);
    r = answer_to(table_e(), line, r.length, 1000);
    EXPECT(r.number == LUSPEMARO_DONE && r.length == sizeof expected - 1 && memcmp(lent(OUT), expected, r.length) == 0);
}

const struct test join_tests[] = {
    {"join: texts", texts},
    {"join: each option", each_option},
    {"join: every number of options, 6 and 7", every_option_number},
    {"join: 3", not_writable},
    {"join: 4", off_the_grammar},
    {"join: 8", many_or_long_patterns},
    {"join: the order of refusals", order},
    {"join: one request for two", one_request_for_two},
    {NULL, NULL},
};
