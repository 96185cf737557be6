/* Runs each entry on a stack of the size that the header states, with the inputs that need most of it, and prints what they needed.
 *
 * The stack ends at a page that no one may touch, so that a call which needs more ends the program. The last line is 'N passed, M
 * failed'. */
#include <stdio.h>
#include <stdlib.h>
#include <string.h>

#include "stack_inputs.h"
#include "stack_run.h"

static unsigned passed, failed;

static void claim(bool holds, const char *entry, const char *input)
{
    if (holds) {
        passed++;
    } else {
        failed++;
        printf("failed: %s, %s\n", entry, input);
    }
}

/* ---- the calls, and what they answered */

static uint8_t scratch[LUSPEMARO_ROOM_SCRATCH], found[LUSPEMARO_ROOM_FOUND], pending[LUSPEMARO_ROOM_PENDING],
    command[LUSPEMARO_ROOM_COMMAND], gathered[LUSPEMARO_ROOM_REPLAY_LINE];
static struct luspemaro_outcome outcome;
static struct luspemaro_line parts;
static struct luspemaro_fed fed;
static struct luspemaro_replayed replayed;
static struct luspemaro_replay_fed piece;
static bool truth;
static size_t place;
static uint8_t option, number;

static void call_check_records(void)
{
    truth = luspemaro_check_records(records, LUSPEMARO_MAX_ROWS, LUSPEMARO_MAX_ROWS, area, sizeof area, summary, LUSPEMARO_MAX_ROWS);
}

static void call_check_table(void)
{
    truth = luspemaro_check_table(table, table_length);
}

static void call_check_namespaces(void)
{
    truth = luspemaro_check_namespaces(namespaces, namespaces_length);
}

static void call_matches(void)
{
    truth = luspemaro_matches(line, line_length, area, NAME);
}

static void call_match_steps(void)
{
    truth = luspemaro_match_steps(line, line_length, area, NAME) > 0;
}

static void call_answer(void)
{
    outcome = luspemaro_answer(records, LUSPEMARO_MAX_ROWS, count, reader, area, sizeof area, summary, LUSPEMARO_MAX_ROWS, namespaces,
                               namespaces_length, line, line_length, out, sizeof out);
}

static void call_compact(void)
{
    number = luspemaro_compact(records, LUSPEMARO_MAX_ROWS, count, area, sizeof area, summary, LUSPEMARO_MAX_ROWS);
}

static void call_summarize(void)
{
    number = luspemaro_summarize(records, LUSPEMARO_MAX_ROWS, count, area, sizeof area, summary, LUSPEMARO_MAX_ROWS);
}

static void call_collect(void)
{
    outcome = luspemaro_collect(records, LUSPEMARO_MAX_ROWS, LUSPEMARO_MAX_ROWS, reader, area, sizeof area, summary, LUSPEMARO_MAX_ROWS,
                                option, scratch, sizeof scratch, found, sizeof found, pending, sizeof pending);
}

static void call_collect_packed(void)
{
    outcome = luspemaro_collect_packed(table, table_length, reader, option, scratch, sizeof scratch, found, sizeof found, pending,
                                       sizeof pending);
}

static void call_write_line(void)
{
    outcome = luspemaro_write_line(0xFFFF, area, NAME, 3, out, sizeof out);
}

static void call_read_line(void)
{
    parts = luspemaro_read_line(out, line_length);
}

static void call_join(void)
{
    outcome = luspemaro_join(line, tag_length, option, line + tag_length, reference_length, line + tag_length + reference_length,
                             line_length - tag_length - reference_length, out, sizeof out);
}

static void call_feed(void)
{
    const struct luspemaro_feeder first = {0, 0, 0, 0};
    fed = luspemaro_feed(first, command, sizeof command, line, line_length);
}

static void call_put_go_on(void)
{
    place = luspemaro_put_go_on(out, sizeof out, 3);
}

static void call_replay(void)
{
    replayed = luspemaro_replay(records, LUSPEMARO_MAX_ROWS, count, area, sizeof area, summary, LUSPEMARO_MAX_ROWS, namespaces,
                                namespaces_length, log_text, log_length);
}

static void call_replay_feed(void)
{
    const struct luspemaro_replay start = {0, 0, 0, 0, 0};
    piece = luspemaro_replay_feed(records, LUSPEMARO_MAX_ROWS, count, start, area, sizeof area, summary, LUSPEMARO_MAX_ROWS, namespaces,
                                  namespaces_length, pending, sizeof pending, gathered, sizeof gathered, log_text, log_length);
}

static void call_nothing(void)
{
}

/* ---- the claims */

/* What a call costs that does nothing: the frames of this program below the top of the stack. What is measured beyond it has the frame
 * of the caller in it, which is above the bound by some bytes where that holds the answer. */
static size_t frames;

static void measure(const char *entry, const char *input, size_t stated, void (*call)(void))
{
    size_t need = run_on(stated, call) - frames;
    printf("%s, %s: %zu of %zu bytes\n", entry, input, need, stated);
}

/* An entry over a table in one of its forms. */
struct entry {
    const char *name;
    size_t stated;
    void (*call)(void);
};

static void measure_outcome(const struct entry *entry, const char *input, unsigned given)
{
    measure(entry->name, input, entry->stated, entry->call);
    claim(outcome.number == given, entry->name, input);
}

static void measure_answers(const struct entry *entry)
{
    set_long_line("a LIST (X (", '(', "\r\n");
    measure_outcome(entry, "the deepest value, never closed", LUSPEMARO_REFUSAL_GRAMMAR);
    claim(dies_on(entry->stated / 2 / PAGE * PAGE, entry->call), entry->name, "half of the stated stack, which must not do");
    set_long_line("a LIST \"\" * RETURN (X (", '(', "\r\n");
    measure_outcome(entry, "the deepest value after RETURN, never closed", LUSPEMARO_REFUSAL_GRAMMAR);
    set_long_line("a LIST (X (", '(', "{0}\r\n)\r\n");
    measure_outcome(entry, "the deepest value with a literal", LUSPEMARO_REFUSAL_GRAMMAR);
    set_closed_line(1014);
    measure_outcome(entry, "the deepest value, closed", LUSPEMARO_REFUSAL_OPTION);
    set_long_line("a LIST (SUBSCRIBED RECURSIVEMATCH) \"\" (% %/*%*/%", '%', ") RETURN (CHILDREN)\r\n");
    measure_outcome(entry, "the longest pattern", LUSPEMARO_REFUSAL_PATTERNS);
    set_line("a LIST (SUBSCRIBED RECURSIVEMATCH SPECIAL-USE REMOTE) \"\" (% %/% *%*%*%x a b c d *) RETURN (CHILDREN SUBSCRIBED)\r\n");
    measure_outcome(entry, "eight patterns over a full table", LUSPEMARO_DONE);
    set_line("a LIST \"\" *% RETURN (CHILDREN SUBSCRIBED SPECIAL-USE)\r\n");
    measure_outcome(entry, "every level of a full table", LUSPEMARO_DONE);
    set_line("a LIST \"\" \"\"\r\n");
    measure_outcome(entry, "the root line", LUSPEMARO_DONE);
    set_line("a NAMESPACE\r\n");
    measure_outcome(entry, "a full namespace list", LUSPEMARO_DONE);
    set_line("a LIST \"\" *% RETURN (CHILDREN SUBSCRIBED SPECIAL-USE)\r\n");
    for (unsigned row = 0; row < LUSPEMARO_MAX_ROWS; row += 2)
        records[row].readers = LUSPEMARO_READERS_ALL;
    reader = NOT_FOR;
    measure_outcome(entry, "every level of half of a full table, the rest hidden", LUSPEMARO_DONE);
    fill_tables();
    measure_outcome(entry, "a full table that is hidden", LUSPEMARO_DONE);
    claim(outcome.length == strlen("a OK done\r\n"), entry->name, "a full table that is hidden");
    reader = LUSPEMARO_MAX_READER + 1;
    measure_outcome(entry, "no such reader", LUSPEMARO_REFUSAL_READER);
    reader = 0;
}

/* An edit over a full table, which it changes and which is filled again. */
static void measure_edit(const struct entry *entry, const char *input, unsigned given, size_t given_back)
{
    measure_outcome(entry, input, given);
    claim(outcome.count == given_back, entry->name, "the count given back");
    fill_tables();
}

static void measure_edits(const struct entry *entry)
{
    enum { ALL = LUSPEMARO_MAX_ROWS };
    set_edit_line("UNSUBSCRIBE", &records[0]);
    measure_edit(entry, "a flag cleared", LUSPEMARO_DONE, ALL);
    set_edit_line("UNSUBSCRIBE", NULL);
    measure_edit(entry, "no subscription", LUSPEMARO_DONE, ALL);
    records[0].flags = LUSPEMARO_FLAG_SUBSCRIBED;
    set_edit_line("UNSUBSCRIBE", &records[0]);
    measure_edit(entry, "the first of 512 rows removed", LUSPEMARO_DONE, ALL - 1);
    count = ALL - 1;
    set_edit_line("SUBSCRIBE", NULL);
    measure_edit(entry, "a row inserted after 511", LUSPEMARO_DONE, ALL);
    /* The rows but the first, each one place further down: the first name is free, and is inserted before them all. */
    set_edit_line("SUBSCRIBE", &records[0]);
    memmove(records, records + 1, (ALL - 1) * sizeof records[0]);
    count = ALL - 1;
    measure_edit(entry, "a row inserted before 511", LUSPEMARO_DONE, ALL);
    set_edit_line("SUBSCRIBE", NULL);
    measure_edit(entry, "no room for a row", LUSPEMARO_REFUSAL_NO_ROOM, ALL);
    reader = 1;
    measure_edit(entry, "another reader than 0", LUSPEMARO_REFUSAL_READER, ALL);
    reader = 0;
    set_line("a SUBSCRIBE {0}\r\n\r\n");
    measure_edit(entry, "an unlawful name", LUSPEMARO_REFUSAL_UNLAWFUL_NAME, ALL);
    set_long_line("a SUBSCRIBE \"", 'n', "\"\r\n");
    measure_edit(entry, "the longest name", LUSPEMARO_REFUSAL_UNLAWFUL_NAME, ALL);
}

static void measure_compaction(const char *input, unsigned given)
{
    measure("compact", input, LUSPEMARO_STACK_COMPACT, call_compact);
    claim(number == given, "compact", input);
}

static void measure_compactions(void)
{
    measure_compaction("a full area", LUSPEMARO_DONE);
    for (unsigned row = 0; row < LUSPEMARO_MAX_ROWS / 2; row++)
        records[row] = records[2 * row];
    count = LUSPEMARO_MAX_ROWS / 2;
    measure_compaction("256 names, each with as many free bytes before it", LUSPEMARO_DONE);
    claim(records[count - 1].start == 0, "compact", "the first name at the front");
    fill_tables();
    records[LUSPEMARO_MAX_ROWS - 1].len++;
    measure_compaction("an overlap", LUSPEMARO_REFUSAL_TABLE);
    fill_tables();
}

static void measure_summary(const char *input, unsigned given)
{
    measure("summarize", input, LUSPEMARO_STACK_SUMMARIZE, call_summarize);
    claim(number == given, "summarize", input);
}

/* Rows below rows: every entry that looks at the summary. */
static void measure_nested(const struct entry *answer, const struct entry *walk)
{
    measure_summary("full records", LUSPEMARO_DONE);
    fill_nested();
    measure_summary("rows below rows", LUSPEMARO_DONE);
    claim(summary[0] == UINT64_C(0x0000000F0000000F), "summarize", "fifteen rows below the first");
    measure("check_records", "rows below rows", LUSPEMARO_STACK_CHECK_RECORDS, call_check_records);
    claim(truth, "check_records", "rows below rows");
    set_line("a LIST (SUBSCRIBED RECURSIVEMATCH) \"\" % RETURN (CHILDREN)\r\n");
    measure_outcome(answer, "rows below rows", LUSPEMARO_DONE);
    set_line("a UNSUBSCRIBE aa/x/x/x/x/x/x/x/x/x/x/x/x/x/x/x\r\n");
    measure_outcome(answer, "a flag cleared below fifteen rows", LUSPEMARO_DONE);
    claim(outcome.changed == 1 && summary[0] == UINT64_C(0x0000000F0000000E), "answer", "fourteen subscribed rows below the first");
    option = 0;
    measure_outcome(walk, "rows below rows", LUSPEMARO_DONE);
    measure_compaction("rows below rows", LUSPEMARO_DONE);
    count = LUSPEMARO_MAX_ROWS - 1;
    measure_summary("511 rows", LUSPEMARO_DONE);
    set_line("a SUBSCRIBE aa/x/x/x/x/x/x/x/x/x/x/x/x/x/x/y\r\n");
    measure_outcome(answer, "a row inserted below fourteen rows", LUSPEMARO_DONE);
    claim(outcome.count == LUSPEMARO_MAX_ROWS && summary[0] == UINT64_C(0x0000000F0000000F), "answer", "a row more below the first");
    records[1].flags ^= LUSPEMARO_FLAG_SUBSCRIBED;
    measure("check_records", "a summary that disagrees", LUSPEMARO_STACK_CHECK_RECORDS, call_check_records);
    claim(!truth, "check_records", "a summary that disagrees");
    records[1].len = 0;
    measure_summary("a name without bytes", LUSPEMARO_REFUSAL_TABLE);
    fill_tables();
}

static void measure_walks(const struct entry *entry)
{
    option = 3;
    measure_outcome(entry, "a full table", LUSPEMARO_DONE);
    claim(outcome.count == 1 + 512 * 15, entry->name, "the commands of a full table");
    reader = NOT_FOR;
    measure_outcome(entry, "a full table that is hidden", LUSPEMARO_DONE);
    claim(outcome.count == 1 && outcome.length == 0, entry->name, "a full table that is hidden");
    reader = LUSPEMARO_MAX_READER + 1;
    measure_outcome(entry, "no such reader", LUSPEMARO_REFUSAL_READER);
    reader = 0;
    option = 8;
    measure_outcome(entry, "an option byte that is not lawful", LUSPEMARO_REFUSAL_OPTION);
}

static void measure_lines(void)
{
    measure("write_line", "every attribute", LUSPEMARO_STACK_WRITE_LINE, call_write_line);
    claim(outcome.number == LUSPEMARO_DONE, "write_line", "every attribute");
    line_length = outcome.length;
    measure("read_line", "every attribute", LUSPEMARO_STACK_READ_LINE, call_read_line);
    claim(parts.number == LUSPEMARO_DONE && parts.length == NAME, "read_line", "every attribute");
    line_length = 0;
    measure("read_line", "nothing", LUSPEMARO_STACK_READ_LINE, call_read_line);
    claim(parts.number == LUSPEMARO_REFUSAL_NOT_SUCH_LINE, "read_line", "nothing");
}

static void measure_join(const char *input, unsigned given)
{
    static const struct entry join = {"join", LUSPEMARO_STACK_JOIN, call_join};
    measure_outcome(&join, input, given);
}

static void measure_joins(void)
{
    option = 0x7F;
    set_parts('t', 1, 'r', 0, 'p', 200);
    measure_join("eight long patterns", LUSPEMARO_DONE);
    set_parts('t', 1, '"', 90, '\\', 90);
    measure_join("every byte with a backslash", LUSPEMARO_DONE);
    set_parts('t', 1, '\xFF', 20, '\xFF', 200);
    measure_join("every string a literal", LUSPEMARO_DONE);
    set_parts('t', 1850, 'r', 0, 'p', 0);
    measure_join("a long tag", LUSPEMARO_DONE);
    set_parts('t', 1, 'r', 500, 'p', 1);
    measure_join("a long reference", LUSPEMARO_REFUSAL_PATTERNS);
    set_parts('t', 1, '\xFF', 1025, 'p', 1);
    measure_join("the longest literal and a byte", LUSPEMARO_REFUSAL_LINE_SHAPE);
    set_parts('+', 1, 'r', 0, 'p', 1);
    measure_join("no tag", LUSPEMARO_REFUSAL_GRAMMAR);
    option = 0x84;
    set_parts('t', 1, 'r', 0, 'p', 1);
    measure_join("no set of options", LUSPEMARO_REFUSAL_OPTION);
    option = LUSPEMARO_SELECT_RECURSIVEMATCH;
    measure_join("RECURSIVEMATCH alone", LUSPEMARO_REFUSAL_RECURSIVEMATCH_ALONE);
}

/* Both entries with the log of a command, from the table that it was answered over. */
static void measure_replay(const char *input)
{
    log_answer();
    fill_tables();
    measure("replay", input, LUSPEMARO_STACK_REPLAY, call_replay);
    claim(replayed.number == LUSPEMARO_DONE && replayed.frame == 0, "replay", input);
    fill_tables();
    measure("replay_feed", input, LUSPEMARO_STACK_REPLAY_FEED, call_replay_feed);
    claim(piece.taken == 1 && piece.number == LUSPEMARO_DONE && piece.frame == 0, "replay_feed", input);
    fill_tables();
}

static void measure_replays(void)
{
    set_long_line("a LIST (X (", '(', "\r\n");
    measure_replay("the deepest value, never closed");
    claim(dies_on(LUSPEMARO_STACK_REPLAY / 2 / PAGE * PAGE, call_replay), "replay", "half of the stated stack, which must not do");
    claim(dies_on(LUSPEMARO_STACK_REPLAY_FEED / 2 / PAGE * PAGE, call_replay_feed), "replay_feed", "half of the stated stack");
    set_closed_line(1014);
    measure_replay("the deepest value, closed");
    set_line("a LIST (SUBSCRIBED RECURSIVEMATCH SPECIAL-USE REMOTE) \"\" (% %/% *%*%*%x a b c d *) RETURN (CHILDREN SUBSCRIBED)\r\n");
    measure_replay("eight patterns over a full table");
    set_line("a NAMESPACE\r\n");
    measure_replay("a full namespace list");
    set_edit_line("UNSUBSCRIBE", &records[0]);
    measure_replay("a flag cleared");
    set_edit_line("SUBSCRIBE", NULL);
    measure_replay("no room for a row");
    log_length -= 2;
    call_replay();
    call_replay_feed();
    claim(replayed.number == LUSPEMARO_REFUSAL_BAD_FRAME && replayed.frame == 2, "replay", "a last frame that is cut");
    claim(piece.number == LUSPEMARO_REFUSAL_BAD_FRAME && piece.frame == 2, "replay_feed", "a last frame that is cut");
}

static void measure_others(void)
{
    measure("check_records", "full records", LUSPEMARO_STACK_CHECK_RECORDS, call_check_records);
    claim(truth, "check_records", "full records");
    measure("check_table", "a full table", LUSPEMARO_STACK_CHECK_TABLE, call_check_table);
    claim(truth, "check_table", "a full table");
    measure("check_namespaces", "a full list", LUSPEMARO_STACK_CHECK_NAMESPACES, call_check_namespaces);
    claim(truth, "check_namespaces", "a full list");
    set_long_line("*%", '*', "%");
    measure("matches", "2,048 wildcards", LUSPEMARO_STACK_MATCHES, call_matches);
    claim(truth, "matches", "2,048 wildcards");
    measure("match_steps", "2,048 wildcards", LUSPEMARO_STACK_MATCH_STEPS, call_match_steps);
    claim(truth, "match_steps", "2,048 wildcards");
    set_long_line("a {1024}\r\n", 'a', "\r\n");
    measure("feed", "a line with a header", LUSPEMARO_STACK_FEED, call_feed);
    claim(fed.event == LUSPEMARO_EVENT_GO_ON, "feed", "a line with a header");
    set_long_line("a", 'a', "\r\n");
    measure("feed", "the longest line", LUSPEMARO_STACK_FEED, call_feed);
    claim(fed.event == LUSPEMARO_EVENT_COMMAND, "feed", "the longest line");
    measure("put_go_on", "a place", LUSPEMARO_STACK_PUT_GO_ON, call_put_go_on);
    claim(place == 9, "put_go_on", "a place");
}

int main(void)
{
    static const struct entry answer = {"answer", LUSPEMARO_STACK_ANSWER, call_answer};
    static const struct entry walks[] = {
        {"collect", LUSPEMARO_STACK_COLLECT, call_collect},
        {"collect_packed", LUSPEMARO_STACK_COLLECT_PACKED, call_collect_packed},
    };
    fill_tables();
    fill_namespaces();
    frames = run_on(4 * PAGE, call_nothing);
    measure_answers(&answer);
    measure_edits(&answer);
    measure_compactions();
    measure_nested(&answer, &walks[0]);
    for (size_t form = 0; form < 2; form++)
        measure_walks(&walks[form]);
    measure_lines();
    measure_joins();
    measure_replays();
    measure_others();
    printf("%u passed, %u failed\n", passed, failed);
    return failed == 0 ? EXIT_SUCCESS : EXIT_FAILURE;
}
