/* The night that the tests of replays run, its log, and the calls of the two entries. */
#include "night_log.h"

/* Foo-x exists, Foo/Baz is subscribed and Moo does not exist; then with Foo, then without Moo. */
static const struct store TABLES[] = {
    {"Foo-xFoo/BazMoo----", 3, 5, {{1, 0, 5, 255}, {3, 5, 7, 255}, {2, 12, 3, 255}, {8, 8, 8, 8}, {9, 9, 9, 9}}},
    {"Foo-xFoo/BazMooFoo-", 4, 5, {{2, 15, 3, 255}, {1, 0, 5, 255}, {3, 5, 7, 255}, {2, 12, 3, 255}, {9, 9, 9, 9}}},
    {"Foo-xFoo/Baz???Foo-", 3, 5, {{2, 15, 3, 255}, {1, 0, 5, 255}, {3, 5, 7, 255}, {0, 0, 0, 0}, {9, 9, 9, 9}}},
};

const struct exchange NIGHT[EXCHANGES] = {
    {0, "a LSUB \"\" *\r\n", "* LSUB () \"/\" \"Foo/Baz\"\r\n* LSUB () \"/\" \"Moo\"\r\na OK done\r\n", 0},
    {0, "a SUBSCRIBE Foo\r\n", "a OK done\r\n", 0},
    {0, "a UNSUBSCRIBE Moo\r\n", "a OK done\r\n", 0},
    {3, "a UNSUBSCRIBE Foo\r\n", NULL, LUSPEMARO_REFUSAL_READER},
    {8, "", NULL, LUSPEMARO_REFUSAL_READER},
    {0, "a SUBSCRIBE \"\"\r\n", NULL, LUSPEMARO_REFUSAL_UNLAWFUL_NAME},
    {0, "a SUBSCRIBE Fourteen-bytes\r\n", NULL, LUSPEMARO_REFUSAL_NO_ROOM},
    {7, "a LSUB \"\" *\r\n", "* LSUB () \"/\" \"Foo\"\r\n* LSUB () \"/\" \"Foo/Baz\"\r\na OK done\r\n", 0},
};

const struct store *const BEFORE_NIGHT = TABLES;

const struct store *table_after(size_t commands)
{
    return &TABLES[commands < 2 ? 0 : commands == 2 ? 1 : 2];
}

/* ---- logs */

char frames[FRAMES][FRAME_ROOM], log_text[LOG_ROOM];
size_t log_length;

size_t put_hex(char *text, const void *bytes, size_t length)
{
    static const char digits[] = "0123456789ABCDEF";
    for (size_t i = 0; i < length; i++) {
        uint8_t byte = ((const uint8_t *)bytes)[i];
        text[2 * i] = digits[byte >> 4];
        text[2 * i + 1] = digits[byte & 0xF];
    }
    text[2 * length] = '\0';
    return 2 * length;
}

void put_night(void)
{
    for (size_t i = 0; i < EXCHANGES; i++) {
        uint8_t head[2] = {0x43, (uint8_t)NIGHT[i].reader};
        char *command = frames[2 * i], *answer = frames[2 * i + 1];
        put_hex(command + put_hex(command, head, 2), NIGHT[i].line, strlen(NIGHT[i].line));
        head[0] = NIGHT[i].answer != NULL ? 0x41 : 0x52;
        head[1] = (uint8_t)NIGHT[i].number;
        size_t length = put_hex(answer, head, NIGHT[i].answer != NULL ? 1 : 2);
        if (NIGHT[i].answer != NULL)
            put_hex(answer + length, NIGHT[i].answer, strlen(NIGHT[i].answer));
    }
    log_length = 0;
}

void add_text(const char *text, size_t length)
{
    memcpy(log_text + log_length, text, length);
    log_length += length;
}

void add_frame_of(const char *text, size_t length)
{
    add_text(text, length);
    add_text("\n", 1);
}

void add_frame(const char *text)
{
    add_frame_of(text, strlen(text));
}

void add_night(size_t from, size_t to)
{
    for (; from < to; from++)
        add_frame(frames[from]);
}

/* ---- replays */

struct luspemaro_replay state_of_replay(size_t ended, size_t first, size_t due, size_t gathered, unsigned stopped)
{
    struct luspemaro_replay state = {ended, first, due, gathered, (uint8_t)stopped};
    return state;
}

void lend_memory(size_t pending, size_t line)
{
    lend(PENDING, pending);
    lend(LINE, line);
}

struct luspemaro_replayed replay_lent(size_t count, const void *log, size_t length)
{
    lend_bytes(LOG, log, length);
    keep_rows();
    return luspemaro_replay(lent_records(), lent_records_length(), count, lent(NAMES), lent_length(NAMES), lent_summary(), lent_numbers(),
                            lent(NAMESPACES), lent_length(NAMESPACES), lent(LOG), length);
}

struct luspemaro_replay_fed feed_lent(size_t count, struct luspemaro_replay state, const void *piece, size_t length)
{
    lend_bytes(LOG, piece, length);
    keep_rows();
    return luspemaro_replay_feed(lent_records(), lent_records_length(), count, state, lent(NAMES), lent_length(NAMES), lent_summary(),
                                 lent_numbers(), lent(NAMESPACES), lent_length(NAMESPACES), lent(PENDING), lent_length(PENDING),
                                 lent(LINE), lent_length(LINE), lent(LOG), length);
}

struct luspemaro_replayed replay_pieces(size_t count, size_t first, size_t each)
{
    struct luspemaro_replay_fed fed = {0, 0, 0, count, state_of_replay(0, 0, 0, 0, 0)};
    size_t at = 0, piece = first;
    bool taken = true;
    lend_memory(LUSPEMARO_ROOM_REPLAY_PENDING, LUSPEMARO_ROOM_REPLAY_LINE);
    do {
        if (piece > log_length - at)
            piece = log_length - at;
        fed = feed_lent(fed.count, fed.state, log_text + at, piece);
        taken = taken && fed.taken == 1;
        at += piece;
        piece = each;
    } while (at < log_length);
    EXPECT(taken && front_untouched(PENDING) && front_untouched(LINE));
    struct luspemaro_replayed report = {fed.number, fed.frame, fed.count};
    return report;
}
