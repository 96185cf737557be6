/* What the tests of the C entries share: claims, tests by name, lent memory, and tables of rows. */
#ifndef CHECK_H
#define CHECK_H

#include <string.h>

#include "luspemaro.h"

/* A claim of the test that runs. One that does not hold is told with its place, and the test fails. */
#define EXPECT(claim) expect((claim), #claim, __FILE__, __LINE__)
void expect(bool holds, const char *claim, const char *file, int line);

struct test {
    const char *name;
    void (*run)(void);
};

/* The tests of one topic, up to a row without a name. Those of tables and walks run once for each form of a table. */
extern const struct test table_tests[], answer_tests[], walk_tests[], record_tests[], edit_tests[], compaction_tests[], reader_tests[],
    summary_tests[], check_tests[], line_tests[], join_tests[], feeder_tests[], replay_tests[], replay_piece_tests[];

/* The form in which `struct rows` are lent. */
enum form { PACKED, RECORDS };
extern enum form form;

/* Of whom commands and walks come: reader 0 at the start of each test. */
extern uint8_t reader;

/* Memory to lend, filled with FILLER. An access past its end stops the program: a page that no one may touch begins there. One area
 * lends one run at a time, of at most AREA_ROOM bytes. */
enum { FILLER = 0xA5, AREA_ROOM = 1 << 21 };
enum area { TABLE, RECORD, NAMES, SUMMARY, NAMESPACES, LINE, OUT, SCRATCH, FOUND, PENDING, TAG, REFERENCE, PATTERNS, LOG, AREAS };
uint8_t *lend(enum area area, size_t length);

/* Lent memory with these bytes. */
uint8_t *lend_bytes(enum area area, const void *bytes, size_t length);

/* Whether every byte is the same. */
bool all_are(const uint8_t *at, size_t length, uint8_t byte);

/* Whether no byte of the area's lent memory has changed, nor one of those before it. */
bool untouched(enum area area);

/* Whether the bytes before the lent memory have not changed. */
bool front_untouched(enum area area);

/* A mailbox table in the making, in the packed form. */
enum { HEAD = 4 };
struct rows {
    size_t length;
    uint8_t bytes[LUSPEMARO_MAX_TABLE + (HEAD + 1) * LUSPEMARO_MAX_ROWS];
};
void add_row_of(struct rows *rows, unsigned flags, const uint8_t *name, size_t length);
void add_row(struct rows *rows, unsigned flags, const char *name);

/* The same for a set of readers; the others add rows that all see. */
void add_row_for(struct rows *rows, unsigned readers, unsigned flags, const char *name);

/* The length of the row at a place, by its length byte. */
size_t row_length(const struct rows *rows, size_t at);

extern const struct rows NO_ROWS;

/* Document 01's table E: Foo-x, Foo/Bar, Foo/Baz, INBOX, Moo. */
const struct rows *table_e(void);

/* A table that is as large as it may be in its form: so many rows, with names as long as may be, whose first levels all differ and
 * take what the other levels, of one byte each, leave. A quote and a backslash take two bytes in a line: the last level is a backslash,
 * the others between are quotes, and the first has both. */
const struct rows *largest_table(size_t count, size_t levels, unsigned flags);

/* Lends the rows as records over an area in which the names lie in the other order, with their summary, and gives the number of records.
 * What is left of a row that is cut short is a record whose name ends past the area. */
size_t lend_records(const struct rows *rows);
struct luspemaro_record *lent_records(void);
size_t lent_records_length(void);

/* What counting afresh gives for one of the first count of the lent records, over the lent names: the number of its summary. */
uint64_t counted(size_t count, size_t record);

/* Lends a run of so many numbers: for the first count of the lent records what counting afresh gives, SPARE_NUMBER after them. */
void lend_summary(size_t count, size_t numbers);
uint64_t *lent_summary(void);
size_t lent_numbers(void);

/* The number of a spare record that is lent so. */
#define SPARE_NUMBER UINT64_C(0xA5A5A5A5A5A5A5A5)

/* A record in digits. */
struct stored_row {
    unsigned flags, start, len, readers;
};

/* A table as it is lent, or as a call leaves it: records, of which count are rows, and names. A byte 0 of the names that a call leaves is
 * written as a question mark. Its summary is what counting afresh gives, then zero for each spare record that is zero, and SPARE_NUMBER
 * for the others. */
struct store {
    const char *names;
    size_t count, records;
    struct stored_row rows[5];
};
void lend_store(const struct store *store);

/* Whether what is lent is this. */
bool is_store(const struct store *store);

/* The answer to a line over the first count of the lent records, the lent names and the lent summary, in a buffer of this length; and
 * whether it left every record, every byte of the names, every number and what stands before them as they were. */
struct luspemaro_outcome answer_lent(size_t count, const void *line, size_t line_length, size_t room);
bool rows_untouched(void);

/* For another call over them: what rows_untouched compares with is what they are now. */
void keep_rows(void);

/* The names of the first count of the lent records moved together, in the lent names; rows_untouched says of it too. */
unsigned compact_lent(size_t count);

/* The walk over the first count of the lent records, in buffers of one length. */
struct luspemaro_outcome walk_lent(size_t count, unsigned option, size_t room);

/* Whether the first count of the lent records pass, with the lent summary; and the summary of them counted by the library. */
bool lent_pass(size_t count);
unsigned summarize_lent(size_t count);

/* Calls over lent memory, which ends at its last byte; those that take a table in either form, in the form that is set. */
bool table_passes(const struct rows *rows);
struct luspemaro_outcome answer_to(const struct rows *rows, const void *line, size_t line_length, size_t room);
struct luspemaro_outcome walk(const struct rows *rows, unsigned option, size_t scratch, size_t found, size_t pending);

/* The lent memory of an area, as it was lent last. */
uint8_t *lent(enum area area);
size_t lent_length(enum area area);

/* Whether the outcome is this refusal: nothing changed, length 0, and count 0 or, of an answer over so many rows, their count. */
bool is_refusal(struct luspemaro_outcome outcome, unsigned number);
bool is_refusal_of_rows(struct luspemaro_outcome outcome, unsigned number, size_t count);

#endif
