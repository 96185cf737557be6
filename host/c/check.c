/* Runs the tests of the C entries and prints the name of each that fails. The last line is 'N passed, M failed'. */
#define _DEFAULT_SOURCE
#include "check.h"

#include <stdio.h>
#include <stdlib.h>
#include <sys/mman.h>

/* The bytes before lent memory that are watched. */
enum { FRONT = 64, PAGE = 4096 };

enum form form;
uint8_t reader;

static bool test_holds;

void expect(bool holds, const char *claim, const char *file, int line)
{
    if (holds)
        return;
    if (test_holds)
        printf("%s:%d: %s\n", file, line, claim);
    test_holds = false;
}

/* ---- lent memory */

static struct {
    uint8_t *end;
    size_t length;
} areas[AREAS];

/* Room of AREA_ROOM bytes and a front, and a page after it that no one may touch. */
static uint8_t *area_end(void)
{
    size_t size = PAGE + AREA_ROOM;
    void *start = mmap(NULL, size + PAGE, PROT_READ | PROT_WRITE, MAP_PRIVATE | MAP_ANONYMOUS, -1, 0);
    if (start == MAP_FAILED || mprotect((uint8_t *)start + size, PAGE, PROT_NONE) != 0) {
        perror("lent memory");
        exit(2);
    }
    return (uint8_t *)start + size;
}

uint8_t *lend(enum area area, size_t length)
{
    if (length > AREA_ROOM) {
        fprintf(stderr, "no room to lend %zu bytes\n", length);
        exit(2);
    }
    if (areas[area].end == NULL)
        areas[area].end = area_end();
    areas[area].length = length;
    memset(lent(area) - FRONT, FILLER, FRONT + length);
    return lent(area);
}

uint8_t *lend_bytes(enum area area, const void *bytes, size_t length)
{
    lend(area, length);
    memcpy(lent(area), bytes, length);
    return lent(area);
}

uint8_t *lent(enum area area)
{
    return areas[area].end - areas[area].length;
}

size_t lent_length(enum area area)
{
    return areas[area].length;
}

bool all_are(const uint8_t *at, size_t length, uint8_t byte)
{
    for (size_t i = 0; i < length; i++)
        if (at[i] != byte)
            return false;
    return true;
}

bool front_untouched(enum area area)
{
    return all_are(lent(area) - FRONT, FRONT, FILLER);
}

bool untouched(enum area area)
{
    return all_are(lent(area) - FRONT, FRONT + lent_length(area), FILLER);
}

/* ---- tables */

const struct rows NO_ROWS = {0, {0}};

void add_row_of(struct rows *rows, unsigned flags, const uint8_t *name, size_t length)
{
    uint8_t *row = rows->bytes + rows->length;
    if (length > 255 || rows->length + HEAD + length > sizeof rows->bytes) {
        fprintf(stderr, "no room for a row\n");
        exit(2);
    }
    row[0] = (uint8_t)(flags >> 8);
    row[1] = (uint8_t)flags;
    row[2] = LUSPEMARO_READERS_ALL;
    row[3] = (uint8_t)length;
    memcpy(row + HEAD, name, length);
    rows->length += HEAD + length;
}

void add_row_for(struct rows *rows, unsigned readers, unsigned flags, const char *name)
{
    size_t at = rows->length;
    add_row(rows, flags, name);
    rows->bytes[at + 2] = (uint8_t)readers;
}

size_t row_length(const struct rows *rows, size_t at)
{
    return (size_t)HEAD + rows->bytes[at + HEAD - 1];
}

void add_row(struct rows *rows, unsigned flags, const char *name)
{
    add_row_of(rows, flags, (const uint8_t *)name, strlen(name));
}

const struct rows *table_e(void)
{
    static struct rows rows;
    rows.length = 0;
    add_row(&rows, 0x0001, "Foo-x");
    add_row(&rows, 0x0001, "Foo/Bar");
    add_row(&rows, 0x0003, "Foo/Baz");
    add_row(&rows, 0x0031, "INBOX");
    add_row(&rows, 0x0001, "Moo");
    return &rows;
}

const struct rows *largest_table(size_t count, size_t levels, unsigned flags)
{
    static struct rows rows;
    uint8_t name[LUSPEMARO_MAX_NAME];
    size_t length = LUSPEMARO_MAX_TABLE / count - (form == PACKED ? HEAD : 0);
    if (length > sizeof name)
        length = sizeof name;
    size_t first = length - 2 * (levels - 1);
    rows.length = 0;
    for (size_t row = 0; row < count; row++) {
        memset(name, '"', length);
        for (size_t slash = first; slash < length; slash += 2)
            name[slash] = '/';
        name[length - 1] = '\\';
        for (size_t bit = 0; bit < 9; bit++)
            name[first - 2 - bit] = (row >> bit & 1) != 0 ? '\\' : '"';
        add_row_of(&rows, flags, name, length);
    }
    return &rows;
}

/* ---- records */

struct luspemaro_record *lent_records(void)
{
    return (struct luspemaro_record *)lent(RECORD);
}

size_t lent_records_length(void)
{
    return lent_length(RECORD) / sizeof(struct luspemaro_record);
}

/* ---- the summary */

uint64_t *lent_summary(void)
{
    return (uint64_t *)lent(SUMMARY);
}

size_t lent_numbers(void)
{
    return lent_length(SUMMARY) / sizeof(uint64_t);
}

/* Whether the name of one record lies strictly below that of another. Names that do not lie in the area lie below none. */
static bool is_below(const struct luspemaro_record *record, const struct luspemaro_record *above)
{
    size_t length = lent_length(NAMES);
    if ((size_t)record->start + record->len > length || (size_t)above->start + above->len > length || record->len <= above->len)
        return false;
    const uint8_t *name = lent(NAMES) + record->start;
    return name[above->len] == '/' && memcmp(name, lent(NAMES) + above->start, above->len) == 0;
}

uint64_t counted(size_t count, size_t record)
{
    static const uint64_t one = 1;
    uint64_t number = 0;
    for (size_t i = 0; i < count; i++) {
        const struct luspemaro_record *below = lent_records() + i;
        unsigned place = (below->flags & LUSPEMARO_FLAG_REMOTE) != 0 ? 16 : 0;
        if (!is_below(below, lent_records() + record))
            continue;
        if ((below->flags & LUSPEMARO_FLAG_SUBSCRIBED) != 0)
            number += one << place;
        if ((below->flags & LUSPEMARO_FLAG_EXISTS) != 0)
            number += one << (32 + place);
    }
    return number;
}

void lend_summary(size_t count, size_t numbers)
{
    if (count > lent_records_length())
        count = lent_records_length();
    lend(SUMMARY, numbers * sizeof(uint64_t));
    for (size_t i = 0; i < count && i < numbers; i++)
        lent_summary()[i] = counted(count, i);
}

/* Whether a whole row begins at this place. */
static bool is_row(const struct rows *rows, size_t at)
{
    return rows->length - at >= HEAD && rows->length - at >= row_length(rows, at);
}

size_t lend_records(const struct rows *rows)
{
    size_t count = 0, names = 0, at = 0, row = 0;
    for (; at < rows->length && is_row(rows, at); at += row_length(rows, at)) {
        names += row_length(rows, at) - HEAD;
        count++;
    }
    bool is_cut = at < rows->length;
    struct luspemaro_record *records = (struct luspemaro_record *)lend(RECORD, (count + is_cut) * sizeof *records);
    uint8_t *area = lend(NAMES, names);
    size_t start = names;
    for (at = 0; row < count; row++) {
        const uint8_t *head = rows->bytes + at;
        start -= head[3];
        memcpy(area + start, head + HEAD, head[3]);
        records[row].flags = (uint16_t)(head[0] << 8 | head[1]);
        records[row].start = (uint16_t)start;
        records[row].len = head[3];
        records[row].readers = head[2];
        at += row_length(rows, at);
    }
    if (is_cut) {
        records[count].flags = LUSPEMARO_FLAG_EXISTS;
        records[count].start = (uint16_t)names;
        records[count].len = 1;
        records[count].readers = LUSPEMARO_READERS_ALL;
    }
    lend_summary(count + is_cut, count + is_cut);
    return count + is_cut;
}

/* The number of a spare record of a store. */
static uint64_t spare_number(const struct stored_row *row)
{
    return row->flags == 0 && row->start == 0 && row->len == 0 && row->readers == 0 ? 0 : SPARE_NUMBER;
}

void lend_store(const struct store *store)
{
    lend_bytes(NAMES, store->names, strlen(store->names));
    lend(RECORD, store->records * sizeof(struct luspemaro_record));
    for (size_t i = 0; i < store->records; i++) {
        lent_records()[i].flags = (uint16_t)store->rows[i].flags;
        lent_records()[i].start = (uint16_t)store->rows[i].start;
        lent_records()[i].len = (uint8_t)store->rows[i].len;
        lent_records()[i].readers = (uint8_t)store->rows[i].readers;
    }
    lend_summary(store->count, store->records);
    for (size_t i = store->count; i < store->records; i++)
        lent_summary()[i] = spare_number(store->rows + i);
}

bool is_store(const struct store *store)
{
    for (size_t i = 0; i < store->records; i++) {
        const struct luspemaro_record *record = lent_records() + i;
        const struct stored_row *row = store->rows + i;
        if (record->flags != row->flags || record->start != row->start || record->len != row->len || record->readers != row->readers)
            return false;
        if (lent_summary()[i] != (i < store->count ? counted(store->count, i) : spare_number(row)))
            return false;
    }
    for (size_t i = 0; i < lent_length(NAMES); i++)
        if (lent(NAMES)[i] != (store->names[i] == '?' ? 0 : (uint8_t)store->names[i]))
            return false;
    return lent_records_length() == store->records && front_untouched(RECORD) && front_untouched(NAMES) && front_untouched(SUMMARY);
}

/* ---- calls */

static const uint8_t *lend_packed(const struct rows *rows)
{
    return lend_bytes(TABLE, rows->bytes, rows->length);
}

bool table_passes(const struct rows *rows)
{
    if (form == PACKED)
        return luspemaro_check_table(lend_packed(rows), rows->length);
    return lent_pass(lend_records(rows));
}

bool lent_pass(size_t count)
{
    return luspemaro_check_records(lent_records(), lent_records_length(), count, lent(NAMES), lent_length(NAMES), lent_summary(),
                                   lent_numbers());
}

/* What the records, the names and the summary were before the last call that may change them. */
enum { KEPT = 3 };
static const enum area kept[KEPT] = {RECORD, NAMES, SUMMARY};
static uint8_t before[KEPT][AREA_ROOM];

void keep_rows(void)
{
    for (size_t i = 0; i < KEPT; i++)
        memcpy(before[i], lent(kept[i]), lent_length(kept[i]));
}

struct luspemaro_outcome answer_lent(size_t count, const void *line, size_t line_length, size_t room)
{
    lend_bytes(LINE, line, line_length);
    lend(OUT, room);
    keep_rows();
    return luspemaro_answer(lent_records(), lent_records_length(), count, reader, lent(NAMES), lent_length(NAMES), lent_summary(),
                            lent_numbers(), lent(NAMESPACES), lent_length(NAMESPACES), lent(LINE), line_length, lent(OUT), room);
}

unsigned compact_lent(size_t count)
{
    keep_rows();
    return luspemaro_compact(lent_records(), lent_records_length(), count, lent(NAMES), lent_length(NAMES), lent_summary(), lent_numbers());
}

unsigned summarize_lent(size_t count)
{
    keep_rows();
    return luspemaro_summarize(lent_records(), lent_records_length(), count, lent(NAMES), lent_length(NAMES), lent_summary(),
                               lent_numbers());
}

bool rows_untouched(void)
{
    for (size_t i = 0; i < KEPT; i++)
        if (memcmp(before[i], lent(kept[i]), lent_length(kept[i])) != 0 || !front_untouched(kept[i]))
            return false;
    return true;
}

struct luspemaro_outcome answer_to(const struct rows *rows, const void *line, size_t line_length, size_t room)
{
    return answer_lent(lend_records(rows), line, line_length, room);
}

/* The walk over the first count of the lent records, in the buffers that are lent. */
static struct luspemaro_outcome walk_records(size_t count, unsigned option)
{
    return luspemaro_collect(lent_records(), lent_records_length(), count, reader, lent(NAMES), lent_length(NAMES), lent_summary(),
                             lent_numbers(), (uint8_t)option, lent(SCRATCH), lent_length(SCRATCH), lent(FOUND), lent_length(FOUND),
                             lent(PENDING), lent_length(PENDING));
}

struct luspemaro_outcome walk(const struct rows *rows, unsigned option, size_t scratch, size_t found, size_t pending)
{
    lend(SCRATCH, scratch);
    lend(FOUND, found);
    lend(PENDING, pending);
    if (form == PACKED)
        return luspemaro_collect_packed(lend_packed(rows), rows->length, reader, (uint8_t)option, lent(SCRATCH), scratch, lent(FOUND),
                                        found, lent(PENDING), pending);
    return walk_records(lend_records(rows), option);
}

struct luspemaro_outcome walk_lent(size_t count, unsigned option, size_t room)
{
    lend(SCRATCH, room);
    lend(FOUND, room);
    lend(PENDING, room);
    return walk_records(count, option);
}

bool is_refusal(struct luspemaro_outcome outcome, unsigned number)
{
    return is_refusal_of_rows(outcome, number, 0);
}

bool is_refusal_of_rows(struct luspemaro_outcome outcome, unsigned number, size_t count)
{
    return outcome.number == number && outcome.changed == 0 && outcome.length == 0 && outcome.count == count;
}

/* ---- the tests */

static unsigned passed, failed;

static void run(const struct test *test, const char *note)
{
    for (; test->name != NULL; test++) {
        for (int area = 0; area < AREAS; area++)
            lend((enum area)area, 0);
        reader = 0;
        test_holds = true;
        test->run();
        if (test_holds) {
            passed++;
        } else {
            failed++;
            printf("failed: %s%s\n", test->name, note);
        }
    }
}

int main(void)
{
    static const struct test *const of_tables[] = {table_tests, walk_tests};
    static const struct test *const others[] = {answer_tests, record_tests, edit_tests, compaction_tests, reader_tests, summary_tests,
                                                check_tests,  line_tests,   join_tests, feeder_tests,     replay_tests, replay_piece_tests};
    for (size_t group = 0; group < sizeof of_tables / sizeof of_tables[0]; group++) {
        form = PACKED;
        run(of_tables[group], ", packed");
        form = RECORDS;
        run(of_tables[group], ", records");
    }
    for (size_t group = 0; group < sizeof others / sizeof others[0]; group++) {
        form = RECORDS;
        run(others[group], "");
    }
    printf("%u passed, %u failed\n", passed, failed);
    return failed == 0 ? EXIT_SUCCESS : EXIT_FAILURE;
}
