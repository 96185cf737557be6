/* Tests of logs that are replayed (document 02's W14), whole and in pieces: what agrees, what differs, and every stop. */
#include <stdio.h>

#include "night_log.h"

enum { BUFFER = 16384, COMMAND_DIGITS = 4102, ANSWER_DIGITS = 32770 };

/* Whether the log, whole and in pieces, reports this from the start of the night, and leaves this table. */
static bool reports(unsigned number, size_t frame, const struct store *left)
{
    static const size_t pieces[][2] = {{1, 1}, {0, 7}, {3000, 100}, {LOG_ROOM, 1}};
    lend_store(BEFORE_NIGHT);
    struct luspemaro_replayed r = replay_lent(BEFORE_NIGHT->count, log_text, log_length);
    bool holds = r.number == number && r.frame == frame && r.count == left->count && is_store(left);
    for (size_t i = 0; i < sizeof pieces / sizeof pieces[0]; i++) {
        lend_store(BEFORE_NIGHT);
        r = replay_pieces(BEFORE_NIGHT->count, pieces[i][0], pieces[i][1]);
        holds = holds && r.number == number && r.frame == frame && r.count == left->count && is_store(left);
    }
    return holds;
}

static void agrees(void)
{
    put_night();
    EXPECT(reports(DONE, 0, BEFORE_NIGHT));
    add_night(0, FRAMES);
    EXPECT(reports(DONE, 0, table_after(EXCHANGES)));
    for (size_t i = 0; i < log_length; i += 3)
        if ('A' <= log_text[i] && log_text[i] <= 'F')
            log_text[i] = (char)(log_text[i] + ('a' - 'A'));
    EXPECT(reports(DONE, 0, table_after(EXCHANGES)));
}

/* The first frame of 43 that differs, whatever differs after it: another answer, none, another number, or one in the place of the other. */
static void differs(void)
{
    static const char *const others[] = {"41", "4100", "41FF6F", "5200", "5211", "52FF"};
    for (size_t at = 0; at < EXCHANGES; at++)
        for (size_t other = 0; other < sizeof others / sizeof others[0]; other++) {
            put_night();
            add_night(0, 2 * at + 1);
            add_frame(others[other]);
            add_night(2 * at + 2, FRAMES);
            add_frame(frames[0]);
            add_frame(frames[1]);
            EXPECT(reports(DONE, 2 * at + 1, table_after(EXCHANGES)));
        }
    /* Without what differs, the last exchange is the first that does. */
    put_night();
    add_night(0, FRAMES);
    add_night(0, 2);
    EXPECT(reports(DONE, FRAMES + 1, table_after(EXCHANGES)));
}

/* 13 and the number of the frame, whatever differed before. */
static void stops(void)
{
    static const struct {
        const char *text;
        size_t length;
    } bad[] = {
        {"", 0},        {"4", 1},        {"43", 2},        {"52", 2},    {"520102", 6}, {"4300610", 7},       {"410", 3},
        {"52010", 5},   {"4300G1", 6},   {"41g0", 4},      {"43 00", 5}, {"4300\r", 5}, {"0x4300", 6},        {"42", 2},
        {"570000", 6},  {"4E00002F", 8}, {"4D0001FF0161", 12}, {"4\0", 2}, {"\0", 1},   {"\xFF\xC3\xA9", 3}, {"4100`0", 6},
    };
    for (size_t i = 0; i < sizeof bad / sizeof bad[0]; i++)
        for (size_t at = 0; at <= FRAMES; at++)
            for (size_t different = 0; different <= 1; different++) {
                put_night();
                if (different == 1)
                    memcpy(frames[1], "41", 3);
                add_night(0, at);
                add_frame_of(bad[i].text, bad[i].length);
                add_night(at, FRAMES);
                EXPECT(reports(STOPPED, at + 1, table_after(at / 2)));
            }
}

/* A frame twice, and a frame left out: a command whose answer is not read is not run. */
static void out_of_turn(void)
{
    for (size_t at = 0; at < FRAMES; at++) {
        put_night();
        add_night(0, at + 1);
        add_night(at, FRAMES);
        EXPECT(reports(STOPPED, at + 2, table_after((at + 1) / 2)));
        log_length = 0;
        add_night(0, at);
        add_night(at + 1, FRAMES);
        EXPECT(reports(STOPPED, at + 1 == FRAMES ? at : at + 1, table_after(at / 2)));
    }
}

/* Every beginning of a log: an end inside of a frame, after 43 and after an answer. */
static void beginnings(void)
{
    put_night();
    add_night(0, FRAMES);
    for (size_t length = 0, whole = log_length, ended = 0; length <= whole; length++) {
        bool cut = length > 0 && log_text[length - 1] != '\n';
        ended += length > 0 && !cut;
        log_length = length;
        if (cut)
            EXPECT(reports(STOPPED, ended + 1, table_after(ended / 2)));
        else
            EXPECT(reports(ended % 2 == 1 ? STOPPED : DONE, ended % 2 == 1 ? ended : 0, table_after(ended / 2)));
    }
}

/* A frame that begins with a byte in digits and goes on with zeros, of any length. */
static void add_long(const char *first, size_t length)
{
    memset(log_text + log_length, '0', length);
    memcpy(log_text + log_length, first, strlen(first));
    log_length += length;
    add_text("\n", 1);
}

/* The longest frames: 43 with 4,102 digits is a command, which is answered 3, and 41 with 32,770 an answer. */
static void limits(void)
{
    static const size_t longer[] = {ANSWER_DIGITS - 1, ANSWER_DIGITS + 1, ANSWER_DIGITS + 2, 40000, 65536 + 2};
    static const size_t lawful[] = {2, COMMAND_DIGITS, COMMAND_DIGITS + 2, ANSWER_DIGITS};
    for (size_t i = 0; i < 4; i++) {
        log_length = 0;
        add_long("4300", COMMAND_DIGITS);
        add_frame("5203");
        EXPECT(reports(DONE, 0, BEFORE_NIGHT));
        add_long("4300", COMMAND_DIGITS);
        add_long("41", lawful[i]);
        EXPECT(reports(DONE, 3, BEFORE_NIGHT));
        log_length = 0;
        add_long("4300", COMMAND_DIGITS + 1 + i);
        add_frame("5203");
        EXPECT(reports(STOPPED, 1, BEFORE_NIGHT));
    }
    for (size_t i = 0; i < sizeof longer / sizeof longer[0]; i++) {
        log_length = 0;
        add_long("4300", COMMAND_DIGITS);
        add_long("41", longer[i]);
        EXPECT(reports(STOPPED, 2, BEFORE_NIGHT));
    }
    log_length = 0;
    add_long("4300", 6);
    add_long("52", COMMAND_DIGITS);
    EXPECT(reports(STOPPED, 2, BEFORE_NIGHT));
}

/* A listing of this table whose answer has as many bytes as the buffer, by the length of its tag, as frames of a log; so many more are 9. */
static void add_listing(size_t count, size_t more)
{
    static char line[2100];
    static const char rest[] = " LIST \"\" *\r\n";
    size_t tag = 1;
    line[0] = 't';
    memcpy(line + tag, rest, sizeof rest);
    size_t length = answer_lent(count, line, tag + strlen(rest), LUSPEMARO_ROOM_ANSWER).length;
    tag += BUFFER - length + more;
    memset(line, 't', tag);
    memcpy(line + tag, rest, sizeof rest);
    length = answer_lent(count, line, tag + strlen(rest), LUSPEMARO_ROOM_ANSWER).length;
    EXPECT(length == BUFFER + more && tag < 2000);
    add_text("4300", 4);
    log_length += put_hex(log_text + log_length, line, tag + strlen(rest));
    add_text("\n41", 3);
    log_length += put_hex(log_text + log_length, lent(OUT), more == 0 ? BUFFER : 1);
    add_text("\n", 1);
}

static void at_the_buffer(void)
{
    static struct rows rows;
    rows.length = 0;
    for (unsigned row = 0; row < 230; row++) {
        char name[60];
        snprintf(name, sizeof name, "%050u", row);
        add_row(&rows, LUSPEMARO_FLAG_EXISTS, name);
    }
    size_t count = lend_records(&rows);
    log_length = 0;
    add_listing(count, 0);
    struct luspemaro_replayed r = replay_lent(count, log_text, log_length);
    EXPECT(r.number == DONE && r.frame == 0 && r.count == count && rows_untouched());
    r = replay_pieces(count, 5000, 1);
    EXPECT(r.number == DONE && r.frame == 0 && r.count == count && rows_untouched());
    log_text[log_length - 3] ^= 1;
    EXPECT(replay_lent(count, log_text, log_length).frame == 1);
    log_length = 0;
    add_listing(count, 1);
    EXPECT(replay_lent(count, log_text, log_length).frame == 1);
    log_length -= 5;
    add_frame("5209");
    EXPECT(replay_lent(count, log_text, log_length).frame == 0 && rows_untouched());
}

/* 1, 2 and 16 are answers, not refusals of the replay; 16 of a reader above 7 comes first. */
static void not_passing(void)
{
    static const char *const logs[] = {"4300\n5203\n43080D0A\n5210\n", "4300\n5202\n43080D0A\n5210\n", "4300\n5201\n43FF\n5210\n"};
    for (size_t i = 0; i < 3; i++)
        for (size_t number = 0; number < 3; number++) {
            lend_store(BEFORE_NIGHT);
            lend_bytes(NAMESPACES, "\3\0/", i == 0 ? 0 : 3);
            size_t count = i == 2 ? BEFORE_NIGHT->records + 1 : BEFORE_NIGHT->count;
            struct luspemaro_replayed r = replay_lent(count, logs[number], strlen(logs[number]));
            EXPECT(r.number == DONE && r.frame == (number != i) && r.count == count && rows_untouched());
        }
    lend_store(BEFORE_NIGHT);
    lend(NAMESPACES, 0);
    lent_summary()[1] ^= 1;
    struct luspemaro_replayed r = replay_lent(BEFORE_NIGHT->count, logs[2], strlen(logs[2]));
    EXPECT(r.number == DONE && r.frame == 0 && rows_untouched());
}

const struct test replay_tests[] = {
    {"replay: a night agrees", agrees},
    {"replay: every answer that differs", differs},
    {"replay: every stop at every place", stops},
    {"replay: frames out of turn", out_of_turn},
    {"replay: every beginning of a log", beginnings},
    {"replay: the longest frames", limits},
    {"replay: an answer as long as the buffer", at_the_buffer},
    {"replay: what does not pass", not_passing},
    {NULL, NULL},
};
