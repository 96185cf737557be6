/* Tests of luspemaro_feed and luspemaro_put_go_on. */
#include "check.h"

#include <stdio.h>

enum { TEXT, AFTER_CR, OPEN, DIGITS, CLOSED, ENDING, LITERAL, DROPPING };
enum { CR = 13, LF = 10 };

static const struct luspemaro_feeder FIRST = {0, 0, 0, 0};

static struct luspemaro_feeder state_of(unsigned place, unsigned cr, size_t value, size_t size)
{
    struct luspemaro_feeder state = {(uint8_t)place, (uint8_t)cr, value, size};
    return state;
}

static bool same_state(struct luspemaro_feeder a, struct luspemaro_feeder b)
{
    return a.place == b.place && a.cr == b.cr && a.value == b.value && a.size == b.size;
}

static struct luspemaro_fed fed(unsigned event, unsigned number, size_t length, size_t used, struct luspemaro_feeder state)
{
    struct luspemaro_fed r = {(uint8_t)event, (uint8_t)number, length, used, state};
    return r;
}

static bool same_answer(struct luspemaro_fed a, struct luspemaro_fed b)
{
    return a.event == b.event && a.number == b.number && a.length == b.length && a.used == b.used && same_state(a.state, b.state);
}

/* A state as it is given back: a number for each place, 0 or 1 for CR, and no value where the place has none. */
static struct luspemaro_feeder given_back(struct luspemaro_feeder state)
{
    unsigned place = state.place < DROPPING ? state.place : (unsigned)DROPPING;
    bool valued = place == DIGITS || place == CLOSED || place == ENDING || place == LITERAL;
    return state_of(place, state.cr != 0, valued ? state.value : 0, state.size);
}

/* ---- one byte, by document 02 */

/* "bytes are dropped through the next CR LF" */
static struct luspemaro_feeder dropped(bool cr, uint8_t byte)
{
    return cr && byte == LF ? FIRST : state_of(DROPPING, byte == CR, 0, 0);
}

/* The line goes on with this byte. */
static struct luspemaro_feeder line_goes_on(unsigned place, size_t value, uint8_t byte, size_t size)
{
    bool is_cr = byte == CR;
    if (byte == '{')
        return state_of(OPEN, is_cr, 0, size);
    if (is_cr)
        return place == CLOSED ? state_of(ENDING, is_cr, value, size) : state_of(AFTER_CR, is_cr, 0, size);
    if (byte == '}' && place == DIGITS)
        return state_of(CLOSED, is_cr, value, size);
    if ('0' <= byte && byte <= '9' && (place == OPEN || place == DIGITS)) {
        size_t sum = place == OPEN ? byte - '0' + (size_t)0 : value > 1024 ? 1025 : 10 * value + byte - '0';
        return state_of(DIGITS, is_cr, sum < 1025 ? sum : 1025, size);
    }
    return state_of(TEXT, is_cr, 0, size);
}

/* What comes of one byte, with room for it. */
static struct luspemaro_fed by_document(struct luspemaro_feeder s, uint8_t byte)
{
    size_t size = s.size + 1;
    if (s.place >= DROPPING)
        return fed(LUSPEMARO_EVENT_QUIET, 0, 0, 1, dropped(s.cr != 0, byte));
    if (s.size >= 2048 || byte == 0)
        return fed(LUSPEMARO_EVENT_REFUSED, 3, 0, 1, dropped(s.cr != 0, byte));
    if (s.place == LITERAL)
        return fed(LUSPEMARO_EVENT_QUIET, 0, 0, 1,
                   s.value <= 1 ? state_of(TEXT, byte == CR, 0, size) : state_of(LITERAL, byte == CR, s.value - 1, size));
    if (s.place == ENDING && byte == LF && s.value > 1024)
        return fed(LUSPEMARO_EVENT_REFUSED, 3, 0, 1, FIRST);
    if (s.place == ENDING && byte == LF)
        return fed(LUSPEMARO_EVENT_GO_ON, 0, 0, 1, state_of(s.value == 0 ? TEXT : LITERAL, 0, s.value, size));
    if (s.place == AFTER_CR && byte == LF)
        return fed(LUSPEMARO_EVENT_COMMAND, 0, size, 1, FIRST);
    return fed(LUSPEMARO_EVENT_QUIET, 0, 0, 1, line_goes_on(s.place, s.value, byte, size));
}

static bool stores(struct luspemaro_feeder s, uint8_t byte)
{
    return s.place < DROPPING && s.size < 2048 && byte != 0;
}

/* Whether this byte, to this state, is answered by the document, and stored at its place or nowhere. The memory is filler before and
 * after, whose other bytes the caller looks at. */
static bool byte_fed(struct luspemaro_feeder s, uint8_t byte)
{
    uint8_t *memory = lent(OUT);
    struct luspemaro_fed r = luspemaro_feed(s, memory, lent_length(OUT), lend_bytes(LINE, &byte, 1), 1);
    uint8_t stored = memory[s.size];
    memory[s.size] = FILLER;
    return same_answer(r, by_document(s, byte)) && stored == (stores(s, byte) ? byte : (uint8_t)FILLER);
}

static const size_t VALUES[] = {0, 1, 2, 102, 103, 1024, 1025, SIZE_MAX};
static const size_t SIZES[] = {0, 5, 2047, 2048};

static void every_place(void)
{
    static const unsigned crs[] = {0, 1, 2, 255};
    lend(OUT, 2049);
    for (unsigned place = 0; place <= 0xFF; place++)
        for (size_t value = 0; value < sizeof VALUES / sizeof VALUES[0]; value++)
            for (size_t size = 0; size < sizeof SIZES / sizeof SIZES[0]; size++)
                for (size_t cr = 0; cr < sizeof crs / sizeof crs[0]; cr++)
                    for (unsigned byte = 0; byte <= 0xFF; byte++)
                        EXPECT(byte_fed(state_of(place, crs[cr], VALUES[value], SIZES[size]), (uint8_t)byte));
    EXPECT(untouched(OUT));
}

static void every_cr(void)
{
    static const uint8_t bytes[] = {0, CR, LF, 'a', 0xFF};
    lend(OUT, 2049);
    for (unsigned cr = 0; cr <= 0xFF; cr++)
        for (unsigned place = 0; place <= 8; place++)
            for (size_t size = 0; size < sizeof SIZES / sizeof SIZES[0]; size++)
                for (size_t i = 0; i < sizeof bytes; i++)
                    EXPECT(byte_fed(state_of(place, cr, 3, SIZES[size]), bytes[i]));
    EXPECT(untouched(OUT));
}

/* An empty chunk, and memory or a state that does not fit: the state comes back, and no byte changes. */
static void nothing_done(void)
{
    static const size_t bad_sizes[] = {2049, 4096, SIZE_MAX};
    static const size_t small[] = {0, 1, 2047};
    uint8_t *chunk = lend_bytes(LINE, "a\r\n", 3);
    for (unsigned place = 0; place <= 0xFF; place++)
        for (unsigned cr = 0; cr <= 2; cr++) {
            struct luspemaro_feeder s = state_of(place, cr, 7, 5);
            struct luspemaro_fed quiet = fed(LUSPEMARO_EVENT_QUIET, 0, 0, 0, given_back(s));
            EXPECT(same_answer(luspemaro_feed(s, lend(OUT, 2048), 2048, chunk, 0), quiet) && untouched(OUT));
            for (size_t i = 0; i < sizeof small / sizeof small[0]; i++) {
                struct luspemaro_fed refused = fed(LUSPEMARO_EVENT_TOO_SMALL, 0, 0, 0, given_back(s));
                EXPECT(same_answer(luspemaro_feed(s, lend(OUT, small[i]), small[i], chunk, 3), refused) && untouched(OUT));
            }
            for (size_t i = 0; i < sizeof bad_sizes / sizeof bad_sizes[0]; i++) {
                s.size = bad_sizes[i];
                struct luspemaro_fed refused = fed(LUSPEMARO_EVENT_TOO_SMALL, 0, 0, 0, given_back(s));
                EXPECT(same_answer(luspemaro_feed(s, lend(OUT, 5000), 5000, chunk, 3), refused) && untouched(OUT));
            }
        }
}

/* ---- streams */

/* What comes of a stream that is given in chunks of this length, as text: + for the continuation line, ! for a refusal, = and a
 * command in its first three bytes and its length. */
static void feed_all(const char *stream, size_t length, size_t chunk, char *events, size_t room)
{
    struct luspemaro_feeder state = FIRST;
    size_t at = 0, written = 0;
    uint8_t *memory = lend(OUT, LUSPEMARO_ROOM_COMMAND);
    events[0] = '\0';
    while (at < length && written < room - 40) {
        size_t piece = chunk < length - at ? chunk : length - at;
        struct luspemaro_fed r = luspemaro_feed(state, memory, LUSPEMARO_ROOM_COMMAND, lend_bytes(LINE, stream + at, piece), piece);
        if (r.event == LUSPEMARO_EVENT_COMMAND)
            written += (size_t)snprintf(events + written, 40, "=%.3s%zu", (const char *)memory, r.length);
        if (r.event == LUSPEMARO_EVENT_GO_ON || r.event == LUSPEMARO_EVENT_REFUSED)
            written += (size_t)snprintf(events + written, 40, r.event == LUSPEMARO_EVENT_GO_ON ? "+" : "!%u", r.number);
        state = r.state;
        at += r.used;
    }
    if (!same_state(state, FIRST))
        snprintf(events + written, 40, " unfinished");
}

static bool feeds(const char *stream, size_t length, const char *expected)
{
    static char events[1000];
    for (size_t chunk = 1; chunk <= length; chunk = chunk < 40 ? chunk + 1 : 2 * chunk) {
        feed_all(stream, length, chunk, events, sizeof events);
        if (strcmp(events, expected) != 0)
            return false;
    }
    return true;
}

/* A stream, which may hold bytes 00, and its length. */
#define STREAM(text) (text), sizeof(text) - 1

static void streams(void)
{
    static const struct {
        const char *stream;
        size_t length;
        const char *events;
    } cases[] = {
        {STREAM("abc NAMESPACE\r\nxyz LIST \"\" *\r\n"), "=abc15=xyz15"},
        {STREAM("a LIST {3}\r\nab\r\n\r\nbcd\r\n"), "+=a L18=bcd5"},
        {STREAM("a LIST {0}\r\n x\r\n"), "+=a L16"},
        {STREAM("a {1025}\r\nxyz\r\n"), "!3=xyz5"},
        {STREAM("a {00000000000000000000000000000000000001}\r\nx\r\n"), "+=a {47"},
        {STREAM("a {99999999999999999999999999999999999999}\r\nxyz\r\n"), "!3=xyz5"},
        {STREAM("abc\0def\r\nxyz\r\n"), "!3=xyz5"},
        {STREAM("a {9}\r\nab\0cd\r\nxyz\r\n"), "+!3=xyz5"},
        {STREAM("abc\r\0\r\r\nxyz\r\n"), "!3=xyz5"},
        {STREAM("abc"), " unfinished"},
        {STREAM("abc {1}\r\n"), "+ unfinished"},
    };
    for (size_t i = 0; i < sizeof cases / sizeof cases[0]; i++)
        EXPECT(feeds(cases[i].stream, cases[i].length, cases[i].events));
}

/* A command of 2,048 bytes is handed over; of one more, it is refused at its last byte. */
static void longest_command(void)
{
    static char stream[3000];
    memset(stream, 'a', sizeof stream);
    memcpy(stream + 2046, "\r\nxyz\r\n", 7);
    EXPECT(feeds(stream, 2053, "=aaa2048=xyz5"));
    memset(stream, 'a', sizeof stream);
    memcpy(stream + 2047, "\r\nxyz\r\n", 7);
    EXPECT(feeds(stream, 2054, "!3=xyz5"));
}

/* ---- the continuation line */

static void go_on_inside(void)
{
    uint8_t *out = lend(OUT, 20);
    EXPECT(luspemaro_put_go_on(out, 20, 3) == 9);
    EXPECT(memcmp(out + 3, "+ go\r\n", 6) == 0 && all_are(out, 3, FILLER) && all_are(out + 9, 11, FILLER));
    out = lend(OUT, LUSPEMARO_ROOM_GO_ON);
    EXPECT(luspemaro_put_go_on(out, LUSPEMARO_ROOM_GO_ON, 0) == 6 && memcmp(out, "+ go\r\n", 6) == 0 && front_untouched(OUT));
}

/* From every place near the end, what lies inside is stored; from a place past the end, nothing. The place counts on. */
static void go_on_past_the_end(void)
{
    for (size_t at = 0; at <= 20; at++) {
        uint8_t *out = lend(OUT, 10);
        size_t inside = at < 10 ? 10 - at : 0;
        size_t stored = inside < 6 ? inside : 6;
        EXPECT(luspemaro_put_go_on(out, 10, at) == at + 6);
        EXPECT(front_untouched(OUT) && all_are(out, at < 10 ? at : 10, FILLER));
        EXPECT(stored == 0 || memcmp(out + at, "+ go\r\n", stored) == 0);
        EXPECT(stored == 0 || all_are(out + at + stored, 10 - at - stored, FILLER));
    }
    for (size_t less = 0; less <= 10; less++) {
        uint8_t *out = lend(OUT, 10);
        EXPECT(luspemaro_put_go_on(out, 10, SIZE_MAX - less) == SIZE_MAX - (less > 6 ? less - 6 : 0) && untouched(OUT));
    }
    EXPECT(luspemaro_put_go_on(lend(OUT, 0), 0, 0) == 6 && untouched(OUT));
}

const struct test feeder_tests[] = {
    {"feed: every place number with every byte", every_place},
    {"feed: every number of cr", every_cr},
    {"feed: an empty chunk, small memory, a large size", nothing_done},
    {"feed: streams, however they are cut", streams},
    {"feed: the longest command", longest_command},
    {"put_go_on: inside", go_on_inside},
    {"put_go_on: past the end", go_on_past_the_end},
    {NULL, NULL},
};
