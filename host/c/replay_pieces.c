/* Tests of luspemaro_replay_feed (document 02's W14): the state between two pieces of a log, and what is not taken. */
#include "night_log.h"

static bool same_state(struct luspemaro_replay a, struct luspemaro_replay b)
{
    return a.frames == b.frames && a.first == b.first && a.due == b.due && a.gathered == b.gathered && a.stopped == b.stopped;
}

/* Two pieces, cut at every place, and an empty one between them. */
static void every_cut(void)
{
    put_night();
    add_night(0, FRAMES);
    for (size_t cut = 0; cut <= log_length; cut++) {
        lend_store(BEFORE_NIGHT);
        struct luspemaro_replayed r = replay_pieces(BEFORE_NIGHT->count, cut, log_length);
        EXPECT(r.number == DONE && r.frame == 0 && r.count == table_after(EXCHANGES)->count && is_store(table_after(EXCHANGES)));
    }
}

/* The state after each byte; the command whose answer is due and the frame so far lie where it says; and nothing past what is needed. */
static void states(void)
{
    struct luspemaro_replay_fed fed = {0, 0, 0, BEFORE_NIGHT->count, state_of_replay(0, 0, 0, 0, 0)};
    put_night();
    memcpy(frames[1], "5201", 5);
    add_night(0, FRAMES);
    lend_store(BEFORE_NIGHT);
    lend_memory(LUSPEMARO_ROOM_REPLAY_PENDING + 9, LUSPEMARO_ROOM_REPLAY_LINE + 9);
    for (size_t at = 0, ended = 0, begun = 0; at < log_length; at++) {
        fed = feed_lent(fed.count, fed.state, log_text + at, 1);
        ended += log_text[at] == '\n';
        begun = log_text[at] == '\n' ? at + 1 : begun;
        const char *line = ended % 2 == 1 ? NIGHT[ended / 2].line : NULL;
        size_t due = line != NULL ? 1 + strlen(line) : 0;
        EXPECT(fed.taken == 1 && same_state(fed.state, state_of_replay(ended, ended > 1, due, at + 1 - begun, 0)));
        EXPECT(line == NULL || (lent(PENDING)[0] == NIGHT[ended / 2].reader && memcmp(lent(PENDING) + 1, line, due - 1) == 0));
        EXPECT(memcmp(lent(LINE), log_text + begun, at + 1 - begun) == 0);
    }
    EXPECT(fed.number == DONE && fed.frame == 1 && is_store(table_after(EXCHANGES)));
    EXPECT(all_are(lent(PENDING) + LUSPEMARO_ROOM_REPLAY_PENDING, 9, FILLER) && front_untouched(PENDING));
    EXPECT(all_are(lent(LINE) + LUSPEMARO_ROOM_REPLAY_LINE, 9, FILLER) && front_untouched(LINE));
}

/* Whether a piece is taken from this state; where it is not, nothing changes and the state comes back. */
static bool taken(struct luspemaro_replay state, const char *piece)
{
    lend_store(BEFORE_NIGHT);
    struct luspemaro_replay_fed fed = feed_lent(BEFORE_NIGHT->count, state, piece, strlen(piece));
    if (fed.taken == 1)
        return true;
    state.stopped = state.stopped != 0;
    EXPECT(fed.taken == 0 && fed.number == 0 && fed.frame == 0 && fed.count == BEFORE_NIGHT->count && same_state(fed.state, state));
    EXPECT(rows_untouched() && untouched(PENDING) && untouched(LINE));
    return false;
}

static void short_memory(void)
{
    enum { PENDING_ROOM = LUSPEMARO_ROOM_REPLAY_PENDING, LINE_ROOM = LUSPEMARO_ROOM_REPLAY_LINE };
    static const size_t rooms[][2] = {{PENDING_ROOM, LINE_ROOM}, {PENDING_ROOM - 1, LINE_ROOM}, {PENDING_ROOM, LINE_ROOM - 1},
                                      {0, LINE_ROOM},            {PENDING_ROOM, 0},             {0, 0}};
    static const char *const pieces[] = {"", "4", "\n", "4300\n5203\n"};
    for (size_t i = 0; i < sizeof rooms / sizeof rooms[0]; i++)
        for (size_t piece = 0; piece < sizeof pieces / sizeof pieces[0]; piece++)
            for (unsigned stopped = 0; stopped <= 0xFF; stopped += 51) {
                lend_memory(rooms[i][0], rooms[i][1]);
                EXPECT(taken(state_of_replay(5, 3, 0, 0, stopped), pieces[piece]) == (i == 0));
            }
}

/* Each number of a state at both sides of what is valid, with any number for stopped. */
static void invalid_states(void)
{
    static const struct {
        size_t frames, due, gathered;
        bool valid;
    } cases[] = {
        {1, 2050, 0, true},         {1, 2051, 0, false},        {1, SIZE_MAX, 0, false},     {0, 1, 0, false},
        {0, 2050, 0, false},        {0, 0, 32771, true},        {0, 0, 32772, false},        {0, 0, SIZE_MAX, false},
        {SIZE_MAX, 0, 0, false},    {SIZE_MAX - 4, 0, 0, false}, {SIZE_MAX - 5, 0, 0, true}, {SIZE_MAX, 2051, 32772, false},
    };
    for (size_t i = 0; i < sizeof cases / sizeof cases[0]; i++)
        for (unsigned stopped = 0; stopped <= 0xFF; stopped++) {
            lend_memory(LUSPEMARO_ROOM_REPLAY_PENDING, LUSPEMARO_ROOM_REPLAY_LINE);
            EXPECT(taken(state_of_replay(cases[i].frames, 9, cases[i].due, cases[i].gathered, stopped), "430\n") == cases[i].valid);
        }
    lend_memory(LUSPEMARO_ROOM_REPLAY_PENDING, LUSPEMARO_ROOM_REPLAY_LINE);
    EXPECT(taken(state_of_replay(SIZE_MAX - 1, 0, 0, 0, 0), "") && !taken(state_of_replay(SIZE_MAX, 0, 0, 0, 0), ""));
}

/* A frame of any length between two calls: what is past the longest is not kept, and the frame stays unreadable. */
static void gathered_to_the_end(void)
{
    lend_store(BEFORE_NIGHT);
    lend_memory(LUSPEMARO_ROOM_REPLAY_PENDING, LUSPEMARO_ROOM_REPLAY_LINE);
    const struct luspemaro_replay full = state_of_replay(1, 0, 1, LUSPEMARO_ROOM_REPLAY_LINE, 0);
    struct luspemaro_replay_fed fed = feed_lent(3, full, "41", 2);
    EXPECT(fed.taken == 1 && fed.number == STOPPED && fed.frame == 2 && same_state(fed.state, full) && untouched(LINE));
    fed = feed_lent(3, full, "\n4300\n5203\n", 11);
    EXPECT(fed.number == STOPPED && fed.frame == 2 && same_state(fed.state, state_of_replay(2, 0, 0, 0, 1)) && rows_untouched());
}

/* After a stop bytes are ignored and nothing changes; any number but 0 says so, and 1 is given back. */
static void after_a_stop(void)
{
    put_night();
    add_night(0, FRAMES);
    for (unsigned stopped = 1; stopped <= 0xFF; stopped++) {
        lend_store(BEFORE_NIGHT);
        lend_memory(LUSPEMARO_ROOM_REPLAY_PENDING, LUSPEMARO_ROOM_REPLAY_LINE);
        struct luspemaro_replay_fed fed = feed_lent(3, state_of_replay(7, 3, 0, 0, stopped), log_text, log_length);
        EXPECT(fed.taken == 1 && fed.number == STOPPED && fed.frame == 7 && fed.count == 3);
        EXPECT(same_state(fed.state, state_of_replay(7, 3, 0, 0, 1)) && rows_untouched() && untouched(PENDING) && untouched(LINE));
    }
}

const struct test replay_piece_tests[] = {
    {"replay_feed: every cut", every_cut},
    {"replay_feed: the state after every byte", states},
    {"replay_feed: memory that is too short", short_memory},
    {"replay_feed: states that are invalid", invalid_states},
    {"replay_feed: a frame that is too long", gathered_to_the_end},
    {"replay_feed: after a stop", after_a_stop},
    {NULL, NULL},
};
