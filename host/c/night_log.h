/* The night that the tests of replays run (document 02's W14): its tables, its log in the making, and replays of what is in it. */
#ifndef NIGHT_LOG_H
#define NIGHT_LOG_H

#include "check.h"

enum { EXCHANGES = 8, FRAMES = 2 * EXCHANGES, FRAME_ROOM = 300, LOG_ROOM = 80000 };
enum { DONE = LUSPEMARO_DONE, STOPPED = LUSPEMARO_REFUSAL_BAD_FRAME };

/* A command with what is answered, or the number of the refusal. */
struct exchange {
    unsigned reader;
    const char *line, *answer;
    unsigned number;
};
extern const struct exchange NIGHT[EXCHANGES];

/* The table before the night, and after so many of its commands. */
extern const struct store *const BEFORE_NIGHT;
const struct store *table_after(size_t commands);

/* The frames of the night without their LF, which a test may change, and a log; put_night writes the frames afresh and empties the log. */
extern char frames[FRAMES][FRAME_ROOM], log_text[LOG_ROOM];
extern size_t log_length;
void put_night(void);

/* Bytes as digits, and the length of these. */
size_t put_hex(char *text, const void *bytes, size_t length);

/* Adds to the log: characters; a frame, which may hold a byte 00, and its LF; frames of the night, from one up to another. */
void add_text(const char *text, size_t length);
void add_frame_of(const char *text, size_t length);
void add_frame(const char *text);
void add_night(size_t from, size_t to);

/* A state by its numbers; all zero is the start of a log. */
struct luspemaro_replay state_of_replay(size_t ended, size_t first, size_t due, size_t gathered, unsigned stopped);

/* A whole log over the first count of the lent records; and a piece of one, with the lent PENDING and LINE. */
struct luspemaro_replayed replay_lent(size_t count, const void *log, size_t length);
struct luspemaro_replay_fed feed_lent(size_t count, struct luspemaro_replay state, const void *piece, size_t length);
void lend_memory(size_t pending, size_t line);

/* What the log reports in pieces: of one length after a first one. Each is taken. */
struct luspemaro_replayed replay_pieces(size_t count, size_t first, size_t each);

#endif
