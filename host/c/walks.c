/* Tests of luspemaro_collect and luspemaro_collect_packed. */
#include "check.h"

enum { ROOM = 2000 };

/* Two finds under one level of two, a remote one, and one with a use alone. */
static const struct rows *night(void)
{
    static struct rows rows;
    rows.length = 0;
    add_row(&rows, LUSPEMARO_FLAG_EXISTS | LUSPEMARO_FLAG_SUBSCRIBED, "Customers/ABC");
    add_row(&rows, LUSPEMARO_FLAG_EXISTS | LUSPEMARO_FLAG_SENT, "Customers/Sent");
    add_row(&rows, LUSPEMARO_FLAG_SUBSCRIBED, "Customers/XYZ/Old");
    add_row(&rows, LUSPEMARO_FLAG_EXISTS | LUSPEMARO_FLAG_SUBSCRIBED | LUSPEMARO_FLAG_REMOTE | LUSPEMARO_FLAG_JUNK, "Far/Junk");
    add_row(&rows, LUSPEMARO_FLAG_EXISTS | LUSPEMARO_FLAG_SUBSCRIBED, "INBOX");
    return &rows;
}

/* Whether the area holds these bytes at its front, and zeros after them. */
static bool holds(enum area area, const void *bytes, size_t length)
{
    return length <= lent_length(area) && memcmp(lent(area), bytes, length) == 0
           && all_are(lent(area) + length, lent_length(area) - length, 0) && front_untouched(area);
}

static bool all_zero(void)
{
    return holds(SCRATCH, "", 0) && holds(FOUND, "", 0) && holds(PENDING, "", 0);
}

/* Whether the walk sends so many commands, and leaves this in found and pending. */
static bool walks(const struct rows *rows, unsigned option, size_t count, const char *found, const char *pending)
{
    struct luspemaro_outcome r = walk(rows, option, ROOM, ROOM, ROOM);
    return r.number == LUSPEMARO_DONE && r.changed == 0 && r.count == count && r.length == strlen(found) && holds(SCRATCH, "", 0)
           && holds(FOUND, found, strlen(found)) && holds(PENDING, pending, strlen(pending));
}

static void expert_sheet(void)
{
    EXPECT(walks(table_e(), 0, 2, "\7Foo/Baz", "\3Foo"));
    EXPECT(walks(&NO_ROWS, 0, 1, "", ""));
}

/* The names in walk order, fewer levels first, by option byte. */
static void every_lawful_byte(void)
{
    EXPECT(walks(night(), 0, 3, "\5INBOX\15Customers/ABC\21Customers/XYZ/Old", "\11Customers\15Customers/XYZ"));
    EXPECT(walks(night(), LUSPEMARO_OPTION_REMOTE, 4, "\5INBOX\15Customers/ABC\10Far/Junk\21Customers/XYZ/Old",
                 "\11Customers\3Far\15Customers/XYZ"));
    EXPECT(walks(night(), LUSPEMARO_OPTION_SPECIAL_USE, 1, "", ""));
    EXPECT(walks(night(), LUSPEMARO_OPTION_REMOTE | LUSPEMARO_OPTION_SPECIAL_USE, 2, "\10Far/Junk", "\3Far"));
    EXPECT(walks(night(), LUSPEMARO_OPTION_SPECIAL_USE | LUSPEMARO_OPTION_WITHOUT_SUBSCRIBED, 2, "\16Customers/Sent", "\11Customers"));
    EXPECT(walks(night(), 7, 3, "\16Customers/Sent\10Far/Junk", "\11Customers\3Far"));
}

static void every_option_byte(void)
{
    for (unsigned option = 0; option <= 0xFF; option++) {
        bool lawful = option <= 3 || option == 6 || option == 7;
        struct luspemaro_outcome r = walk(night(), option, ROOM, ROOM, ROOM);
        EXPECT(lawful ? r.number == LUSPEMARO_DONE : is_refusal(r, LUSPEMARO_REFUSAL_OPTION) && all_zero());
    }
}

/* 1 comes before 6, and both before anything is written or asked. */
static void bad_table(void)
{
    static const struct rows half = {2, {0, 1}};
    for (unsigned option = 0; option <= 0xFF; option++)
        EXPECT(is_refusal(walk(&half, option, ROOM, ROOM, ROOM), LUSPEMARO_REFUSAL_TABLE) && all_zero());
    EXPECT(is_refusal(walk(&half, 0, 0, 0, 0), LUSPEMARO_REFUSAL_TABLE));
    EXPECT(is_refusal(walk(night(), 4, 0, 0, 0), LUSPEMARO_REFUSAL_OPTION));
}

/* Each buffer one by one, from nothing to what it needs. */
static void short_buffers(void)
{
    size_t found = walk(night(), 1, ROOM, ROOM, ROOM).length, pending = 0, scratch = 0;
    while (lent(PENDING)[pending] != 0)
        pending += 1u + lent(PENDING)[pending];
    while (is_refusal(walk(night(), 1, scratch, ROOM, ROOM), LUSPEMARO_REFUSAL_SHORT_BUFFER)) {
        EXPECT(all_zero());
        scratch++;
    }
    EXPECT(found == 47 && pending == 28 && 100 < scratch && scratch < ROOM);
    for (size_t room = 0; room < found; room++)
        EXPECT(is_refusal(walk(night(), 1, scratch, room, ROOM), LUSPEMARO_REFUSAL_FOUND_FULL) && all_zero());
    for (size_t room = 0; room < pending; room++)
        EXPECT(is_refusal(walk(night(), 1, scratch, ROOM, room), LUSPEMARO_REFUSAL_PENDING_FULL) && all_zero());
    struct luspemaro_outcome r = walk(night(), 1, scratch, found, pending);
    EXPECT(r.number == LUSPEMARO_DONE && r.count == 4 && r.length == found && holds(SCRATCH, "", 0));
}

/* The first answer of a walk over no rows is `w OK done` CR LF. */
static void nothing_lent(void)
{
    EXPECT(is_refusal(walk(&NO_ROWS, 0, 10, 0, 0), LUSPEMARO_REFUSAL_SHORT_BUFFER));
    struct luspemaro_outcome r = walk(&NO_ROWS, 0, 11, 0, 0);
    EXPECT(r.number == LUSPEMARO_DONE && r.count == 1 && r.length == 0 && all_zero());
}

/* The rooms that suffice for every walk. found and pending: rows of 200 bytes in 16 levels. scratch: 512 rows of one level with every
 * attribute that a row may have. */
static void rooms_of_a_walk(void)
{
    const struct rows *table = largest_table(160, LUSPEMARO_MAX_LEVELS, 0x7F03);
    struct luspemaro_outcome r = walk(table, 0, LUSPEMARO_ROOM_SCRATCH, LUSPEMARO_ROOM_FOUND, LUSPEMARO_ROOM_PENDING);
    EXPECT(r.number == LUSPEMARO_DONE && r.count == 1 + 160 * 15 && r.length == 160 * 201);
    size_t names = 0, pending = 0;
    for (; lent(PENDING)[pending] != 0; names++)
        pending += 1u + lent(PENDING)[pending];
    EXPECT(names == r.count - 1 && LUSPEMARO_ROOM_PENDING / 5 * 4 < pending && pending <= 15 * table->length);
    EXPECT(LUSPEMARO_ROOM_FOUND / 5 * 4 < r.length && r.length <= table->length);

    table = largest_table(LUSPEMARO_MAX_ROWS, 1, 0x7F5F);
    size_t scratch = LUSPEMARO_ROOM_SCRATCH / 5 * 4;
    EXPECT(is_refusal(walk(table, 3, scratch, LUSPEMARO_ROOM_FOUND, 0), LUSPEMARO_REFUSAL_SHORT_BUFFER));
    r = walk(table, 3, LUSPEMARO_ROOM_SCRATCH, LUSPEMARO_ROOM_FOUND, 0);
    EXPECT(r.number == LUSPEMARO_DONE && r.count == 1 && r.length == table->length - 3 * LUSPEMARO_MAX_ROWS);
    EXPECT(r.length == (form == RECORDS ? LUSPEMARO_ROOM_FOUND : LUSPEMARO_MAX_ROWS * 61));
}

/* What suffices for a table of t bytes: 34 t + 11, t and 15 t. Rows of one byte with most attributes, and one at the end of 16 levels. */
static void rooms_by_bytes(void)
{
    static struct rows rows;
    for (unsigned levels = 1; levels <= LUSPEMARO_MAX_LEVELS; levels++) {
        uint8_t name[2 * LUSPEMARO_MAX_LEVELS];
        memset(name, '/', sizeof name);
        rows.length = 0;
        for (unsigned byte = '"'; byte <= 'z'; byte++) {
            if (byte == '%' || byte == '*' || byte == '/')
                continue;
            for (unsigned level = 0; level < levels; level++)
                name[2 * level] = (uint8_t)byte;
            add_row_of(&rows, 0x7F5F, name, 2 * levels - 1);
        }
        EXPECT(walk(&rows, 3, 34 * rows.length + 11, rows.length, 15 * rows.length).number == LUSPEMARO_DONE);
    }
}

/* Each number that a walk may be refused with, from a call with every cause that comes after it. Of the first level Customers is pending
 * and INBOX a find. */
static void six_refusals(void)
{
    static const struct rows half = {2, {0, 1}};
    reader = LUSPEMARO_MAX_READER + 1;
    EXPECT(is_refusal(walk(&half, 4, 0, 0, 0), LUSPEMARO_REFUSAL_READER));
    reader = LUSPEMARO_MAX_READER;
    EXPECT(is_refusal(walk(&half, 4, 0, 0, 0), LUSPEMARO_REFUSAL_TABLE));
    EXPECT(is_refusal(walk(night(), 4, 0, 0, 0), LUSPEMARO_REFUSAL_OPTION));
    EXPECT(is_refusal(walk(night(), 0, 0, 0, 0), LUSPEMARO_REFUSAL_SHORT_BUFFER));
    EXPECT(is_refusal(walk(night(), 0, ROOM, 0, ROOM), LUSPEMARO_REFUSAL_FOUND_FULL) && all_zero());
    EXPECT(is_refusal(walk(night(), 0, ROOM, 0, 0), LUSPEMARO_REFUSAL_PENDING_FULL) && all_zero());
}

/* The numbers that walks over a table give, as bits: of option bytes and readers on both sides of the last lawful one, and with buffers
 * from none to enough. */
static unsigned long numbers_of(const struct rows *rows)
{
    static const size_t rooms[] = {0, 1, 11, 100, 1000, 20000};
    static const uint8_t readers[] = {0, LUSPEMARO_MAX_READER, LUSPEMARO_MAX_READER + 1, 0xFF};
    static const uint8_t options[] = {0, 1, 2, 3, 4, 5, 6, 7, 8, 0x80, 0xFF};
    unsigned long numbers = 0;
    for (size_t r = 0; r < sizeof readers; r++)
        for (size_t o = 0; o < sizeof options; o++)
            for (size_t at = 0; at < sizeof rooms / sizeof rooms[0]; at++) {
                size_t room = rooms[at], most = 20000;
                unsigned option = options[o];
                reader = readers[r];
                numbers |= 1ul << walk(rows, option, room, most, most).number;
                numbers |= 1ul << walk(rows, option, most, room, most).number;
                numbers |= 1ul << walk(rows, option, most, most, room).number;
                numbers |= 1ul << walk(rows, option, room, room, room).number;
            }
    return numbers;
}

/* The last table has the longest names that a walk asks below, with a quote or a backslash in every level. */
static void no_other_refusal(void)
{
    static const struct rows half = {2, {0, 1}};
    const unsigned long before = 1ul << LUSPEMARO_REFUSAL_READER;
    const unsigned long lawful = before | 1ul << LUSPEMARO_DONE | 1ul << LUSPEMARO_REFUSAL_OPTION | 1ul << LUSPEMARO_REFUSAL_SHORT_BUFFER;
    const unsigned long all = lawful | 1ul << LUSPEMARO_REFUSAL_FOUND_FULL | 1ul << LUSPEMARO_REFUSAL_PENDING_FULL;
    EXPECT(numbers_of(&half) == (before | 1ul << LUSPEMARO_REFUSAL_TABLE));
    EXPECT(numbers_of(&NO_ROWS) == lawful);
    EXPECT(numbers_of(table_e()) == all);
    EXPECT(numbers_of(night()) == all);
    EXPECT(numbers_of(largest_table(3, LUSPEMARO_MAX_LEVELS, 0x7F03)) == all);
    EXPECT(numbers_of(largest_table(3, 2, 0x7F03)) == all);
}

const struct test walk_tests[] = {
    {"collect: the expert's sheet", expert_sheet},
    {"collect: every lawful option byte", every_lawful_byte},
    {"collect: every option byte", every_option_byte},
    {"collect: 1, and 1 before 6", bad_table},
    {"collect: short buffers, 9 to 11", short_buffers},
    {"collect: nothing lent", nothing_lent},
    {"collect: each of the six refusals", six_refusals},
    {"collect: no refusal but the six", no_other_refusal},
    {"collect: the rooms that suffice", rooms_of_a_walk},
    {"collect: the rooms that suffice, by bytes", rooms_by_bytes},
    {NULL, NULL},
};
