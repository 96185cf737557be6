/* Luspemaro's entries for C and C++, as `tools/kit archive` puts them into target/staticlib/libexports.a, for x86-64.
 *
 * Every entry takes any bytes and any numbers, and its result and every byte of lent memory are decided by a promise that is proved
 * (crates/exports). What the caller owes:
 *
 * - Lent memory passes as a pointer and a length, which of records and of numbers of a summary is how many they are. The pointer is never
 *   null, at length 0 too: lend any object of its type then.
 * - What an entry writes (a pointer without const) overlaps nothing else that the same call is lent.
 * - The stack has room for the entry: see LUSPEMARO_STACK_ .. below. Nothing checks it.
 *
 * An entry keeps no pointer and no memory between two calls, allocates nothing and makes no system call; so calls may run in several
 * threads at a time where none writes what another is lent.
 *
 * Documents 01 and 02 are the papers of the rules.
 */
#ifndef LUSPEMARO_H
#define LUSPEMARO_H

#ifndef __cplusplus
#include <stdbool.h>
#endif
#include <stddef.h>
#include <stdint.h>

#if SIZE_MAX != UINT64_MAX
#error "luspemaro.h: the archive is for x86-64, where a size_t has 64 bits"
#endif

#ifdef __cplusplus
extern "C" {
#endif

/* ---- The mailbox table: rows, each with flags, a set of readers and a name, ascending by name. A row that does not exist has flags
 * SUBSCRIBED alone; the bits without a name are 0. An empty table passes. It is lent in one of two forms; rows that pass in both are
 * walked alike.
 *
 * Each command and each walk comes from a reader, 0 to 7. A row that is hidden from the reader, whose bit its set lacks, counts as
 * absent: for LIST, LSUB and the walk the table is the rows that the reader sees. Check 1 and edits look at all rows, and edits are
 * allowed to reader 0 alone. Any set passes; nobody sees a row whose set is empty.
 *
 * Records: a struct for each row, over one area of name bytes. The names lie inside the area, in any order and without overlap; bytes
 * that are no name's are free and may hold anything. The first count records are the rows; those after them are spare and not looked at.
 * luspemaro_answer may change the rows: SUBSCRIBE may insert one, which takes the first spare record and the lowest run of free bytes
 * that is long enough, and UNSUBSCRIBE may remove one, whose bytes become zero and free, and the last record zero and spare. So may the
 * two entries of a replay, which answer the commands of a log. luspemaro_compact moves the names together, so that the free bytes are one
 * run.
 *
 * Summary: beside the records lies a run of numbers of 64 bits, one for each record, in the order of the records. The number of a row
 * holds four counts of 16 bits: how many rows lie strictly below its name, at any depth and whoever sees them, that are subscribed and
 * local, subscribed and remote, existing and local, existing and remote; local is what is not remote. A row that exists and is subscribed
 * counts twice; a row that does not exist is subscribed and local. A record counts as lent only if the run has a number for it, so the
 * records lent are as many as the shorter of the two runs. Check 1 includes it: a number of a row that is not what counting afresh
 * gives does not pass. The numbers of spare records are not looked at. luspemaro_summarize counts a caller's first summary;
 * luspemaro_answer and the two entries of a replay keep it up to date, and no other entry changes it.
 *
 * Packed, for the entries that say so: rows without a gap, for reading, without a summary. A row is its flags (2 bytes, high byte first),
 * the set of its readers (1 byte), the name's length (1 to 200), the name. */

#define LUSPEMARO_FLAG_EXISTS 0x0001
#define LUSPEMARO_FLAG_SUBSCRIBED 0x0002
#define LUSPEMARO_FLAG_REMOTE 0x0004
#define LUSPEMARO_FLAG_NO_SELECT 0x0008
#define LUSPEMARO_FLAG_NO_INFERIORS 0x0010
#define LUSPEMARO_FLAG_MARKED 0x0020
#define LUSPEMARO_FLAG_UNMARKED 0x0040
#define LUSPEMARO_FLAG_ALL 0x0100
#define LUSPEMARO_FLAG_ARCHIVE 0x0200
#define LUSPEMARO_FLAG_DRAFTS 0x0400
#define LUSPEMARO_FLAG_FLAGGED 0x0800
#define LUSPEMARO_FLAG_JUNK 0x1000
#define LUSPEMARO_FLAG_SENT 0x2000
#define LUSPEMARO_FLAG_TRASH 0x4000

/* A set of readers has bit r for reader r. */
#define LUSPEMARO_READERS_ALL 0xFF

/* The most that passes. */
#define LUSPEMARO_MAX_READER 7    /* above it, 16 */
#define LUSPEMARO_MAX_AREA 32768  /* bytes of an area of names */
#define LUSPEMARO_MAX_TABLE 32768 /* bytes of a packed table */
#define LUSPEMARO_MAX_ROWS 512
#define LUSPEMARO_MAX_NAME 200  /* bytes of a name */
#define LUSPEMARO_MAX_LEVELS 16 /* levels of a name, parted by "/" */

/* A record of 6 bytes. flags: of LUSPEMARO_FLAG_ .. start: the place of the name's first byte in the area. len: the name's length, 1 to
 * 200. readers: the set of those who see the row. */
struct luspemaro_record {
    uint16_t flags;
    uint16_t start;
    uint8_t len;
    uint8_t readers;
};

/* The four counts of a number of the summary. */
#define LUSPEMARO_SUMMARY_SUBSCRIBED_LOCAL(number) ((uint16_t)(number))
#define LUSPEMARO_SUMMARY_SUBSCRIBED_REMOTE(number) ((uint16_t)((uint64_t)(number) >> 16))
#define LUSPEMARO_SUMMARY_EXISTING_LOCAL(number) ((uint16_t)((uint64_t)(number) >> 32))
#define LUSPEMARO_SUMMARY_EXISTING_REMOTE(number) ((uint16_t)((uint64_t)(number) >> 48))

/* ---- The namespace list: entries without a gap. An entry is its class, the prefix's length (0 to 64), the prefix, the delimiter (0
 * for NIL, or 21 to 7E). Classes do not descend. An empty list passes. */

#define LUSPEMARO_CLASS_PERSONAL 0
#define LUSPEMARO_CLASS_OTHER_USERS 1
#define LUSPEMARO_CLASS_SHARED 2

/* The most that passes. */
#define LUSPEMARO_MAX_ENTRIES 4      /* of a class */
#define LUSPEMARO_MAX_PREFIX 64      /* bytes of a prefix */
#define LUSPEMARO_MAX_NAMESPACES 804 /* bytes of a list: three classes of 4 entries of 67 bytes */

/* ---- Command lines. */

#define LUSPEMARO_MAX_COMMAND 2048  /* bytes, literals and the last CR LF counted; more is 3 */
#define LUSPEMARO_MAX_LITERAL 1024  /* bytes of one literal; more is 3 */
#define LUSPEMARO_MAX_PATTERNS 8    /* more is 8 */
#define LUSPEMARO_MAX_CANONICAL 255 /* bytes of reference and pattern together; more is 8 */

/* ---- LIST lines: their attributes, in the order of a line, and the criteria that CHILDINFO names. */

#define LUSPEMARO_ATTRIBUTE_MARKED 0x0001
#define LUSPEMARO_ATTRIBUTE_UNMARKED 0x0002
#define LUSPEMARO_ATTRIBUTE_NOSELECT 0x0004
#define LUSPEMARO_ATTRIBUTE_NO_INFERIORS 0x0008
#define LUSPEMARO_ATTRIBUTE_REMOTE 0x0010
#define LUSPEMARO_ATTRIBUTE_SUBSCRIBED 0x0020
#define LUSPEMARO_ATTRIBUTE_NON_EXISTENT 0x0040
#define LUSPEMARO_ATTRIBUTE_ALL 0x0080
#define LUSPEMARO_ATTRIBUTE_ARCHIVE 0x0100
#define LUSPEMARO_ATTRIBUTE_DRAFTS 0x0200
#define LUSPEMARO_ATTRIBUTE_FLAGGED 0x0400
#define LUSPEMARO_ATTRIBUTE_JUNK 0x0800
#define LUSPEMARO_ATTRIBUTE_SENT 0x1000
#define LUSPEMARO_ATTRIBUTE_TRASH 0x2000
#define LUSPEMARO_ATTRIBUTE_HAS_CHILDREN 0x4000
#define LUSPEMARO_ATTRIBUTE_HAS_NO_CHILDREN 0x8000

#define LUSPEMARO_CRITERIA_NONE 0x00 /* a line without CHILDINFO */
#define LUSPEMARO_CRITERIA_SUBSCRIBED 0x01
#define LUSPEMARO_CRITERIA_SPECIAL_USE 0x02

/* ---- The walk's option byte: any of these together; WITHOUT_SUBSCRIBED only with SPECIAL_USE. So 0, 1, 2, 3, 6 and 7 are lawful,
 * and all others are refused with 6. */

#define LUSPEMARO_OPTION_REMOTE 0x01             /* remote mailboxes too */
#define LUSPEMARO_OPTION_SPECIAL_USE 0x02        /* only those with a special use */
#define LUSPEMARO_OPTION_WITHOUT_SUBSCRIBED 0x04 /* those that are not subscribed too */

/* ---- The options of a joined command, selection options and return options: any of these together, as one number, but that
 * SELECT_RECURSIVEMATCH stands beside SELECT_SUBSCRIBED, SELECT_SPECIAL_USE or both (else 7). */

#define LUSPEMARO_SELECT_SUBSCRIBED 0x01
#define LUSPEMARO_SELECT_REMOTE 0x02
#define LUSPEMARO_SELECT_RECURSIVEMATCH 0x04
#define LUSPEMARO_SELECT_SPECIAL_USE 0x08
#define LUSPEMARO_RETURN_SUBSCRIBED 0x10
#define LUSPEMARO_RETURN_CHILDREN 0x20
#define LUSPEMARO_RETURN_SPECIAL_USE 0x40

/* ---- The papers' numbers of refusal. Of several causes the first in the entry's order is told. */

#define LUSPEMARO_DONE 0 /* no refusal */

#define LUSPEMARO_REFUSAL_TABLE 1                /* the mailbox table or its summary does not pass, or count is above the records lent */
#define LUSPEMARO_REFUSAL_NAMESPACES 2           /* the namespace list does not pass */
#define LUSPEMARO_REFUSAL_LINE_SHAPE 3           /* too long, no CR LF at its end, a byte that no line has, a literal cut short or too long */
#define LUSPEMARO_REFUSAL_GRAMMAR 4              /* the tag, or the rest after a known word, is off the grammar */
#define LUSPEMARO_REFUSAL_WORD 5                 /* the word is none of LIST, LSUB, NAMESPACE, SUBSCRIBE, UNSUBSCRIBE */
#define LUSPEMARO_REFUSAL_OPTION 6               /* an unknown option, one with a value, or an unlawful option byte */
#define LUSPEMARO_REFUSAL_RECURSIVEMATCH_ALONE 7 /* RECURSIVEMATCH with neither SUBSCRIBED nor SPECIAL-USE beside it */
#define LUSPEMARO_REFUSAL_PATTERNS 8             /* over 8 patterns, or a canonical pattern of over 255 bytes */
#define LUSPEMARO_REFUSAL_SHORT_BUFFER 9         /* the answer, or the line, is longer than its buffer */
#define LUSPEMARO_REFUSAL_FOUND_FULL 10          /* a find does not fit */
#define LUSPEMARO_REFUSAL_PENDING_FULL 11        /* a pending name does not fit */
#define LUSPEMARO_REFUSAL_NOT_SUCH_LINE 12       /* not a LIST line, or not the parts of one */
#define LUSPEMARO_REFUSAL_BAD_FRAME 13           /* of a replay: a frame that is unreadable or out of turn, or no answer at the end */
#define LUSPEMARO_REFUSAL_UNLAWFUL_NAME 14       /* SUBSCRIBE: an unlawful name, or one below a row with no inferiors */
#define LUSPEMARO_REFUSAL_NO_ROOM 15             /* SUBSCRIBE would insert a row: 512 rows, no spare record, or no free run long enough */
#define LUSPEMARO_REFUSAL_READER 16              /* the reader is above 7, or an edit comes from another reader than 0 */

/* ---- Rooms: lengths of lent memory with which 9, 10 and 11 are never given, whatever the table and the command. Less suffices for a
 * table of t bytes, those of the names and 4 for each row: an answer to a line of n bytes has at most 58 t + n + 1,666 bytes; scratch
 * needs at most 34 t + 11, found t and pending 15 t. Rows that are hidden from the reader need not be counted. These are counted from
 * the rules and are no part of a promise. */

#define LUSPEMARO_ROOM_ANSWER 1572864
#define LUSPEMARO_ROOM_SCRATCH 147456
#define LUSPEMARO_ROOM_FOUND 33280
#define LUSPEMARO_ROOM_PENDING 491520
#define LUSPEMARO_ROOM_LIST_LINE 612 /* the longest LIST line */
#define LUSPEMARO_ROOM_COMMAND 2048  /* the feeder asks for this much, and refuses less; a joined command has at most so much */
#define LUSPEMARO_ROOM_GO_ON 6       /* the continuation line */

/* Of luspemaro_replay_feed, which does nothing with less. */
#define LUSPEMARO_ROOM_REPLAY_PENDING 2050 /* the longest command of a log, its reader first */
#define LUSPEMARO_ROOM_REPLAY_LINE 32771   /* one character more than the longest frame of a log */

/* ---- Stacks: bytes below the call that each entry needs at most, with a margin. They are computed from the archive's machine code and
 * measured (host/c/test), not proved. An answer needs so much since values of options nest as deep as the line allows: a line of 2,048
 * bytes may open some 2,000 parentheses; a replay needs that, and a buffer for the answer. Records take 36 KiB more than a packed table: a
 * mark for each byte of the area. */

#define LUSPEMARO_STACK_CHECK_RECORDS 53248
#define LUSPEMARO_STACK_CHECK_TABLE 16384
#define LUSPEMARO_STACK_CHECK_NAMESPACES 12288
#define LUSPEMARO_STACK_MATCHES 12288
#define LUSPEMARO_STACK_MATCH_STEPS 12288
#define LUSPEMARO_STACK_ANSWER 323584
#define LUSPEMARO_STACK_COMPACT 147456
#define LUSPEMARO_STACK_SUMMARIZE 53248
#define LUSPEMARO_STACK_COLLECT 98304
#define LUSPEMARO_STACK_COLLECT_PACKED 98304
#define LUSPEMARO_STACK_WRITE_LINE 12288
#define LUSPEMARO_STACK_READ_LINE 12288
#define LUSPEMARO_STACK_JOIN 12288
#define LUSPEMARO_STACK_FEED 12288
#define LUSPEMARO_STACK_PUT_GO_ON 12288
#define LUSPEMARO_STACK_REPLAY 372736
#define LUSPEMARO_STACK_REPLAY_FEED 335872

/* ---- What the entries answer. */

/* Of a call that writes into lent memory. number: LUSPEMARO_DONE or a refusal. changed: 1 exactly if the call changed a row, which is an
 * accepted SUBSCRIBE of a name that was not subscribed or an accepted UNSUBSCRIBE of one that was; else 0. length: bytes written at the
 * front of out, or of found; 0 with a refusal. count: of luspemaro_answer, how many of the records are rows now, which is the count passed
 * but for an edit that inserts or removes a row; of a walk, the commands sent, 0 with a refusal; else 0. */
struct luspemaro_outcome {
    uint8_t number;
    uint8_t changed;
    size_t length;
    size_t count;
};

/* A LIST line in its parts. number: LUSPEMARO_DONE or LUSPEMARO_REFUSAL_NOT_SUCH_LINE. criteria: what CHILDINFO names. The name is the
 * first length bytes of name, and the bytes after it are zero. The root line has attribute NOSELECT and an empty name. A refusal has
 * no attributes, no criteria and an empty name. */
struct luspemaro_line {
    uint8_t number;
    uint8_t criteria;
    uint16_t attributes;
    size_t length;
    uint8_t name[LUSPEMARO_MAX_NAME];
};

/* A feeder between two chunks. All zero is the first state: no byte of a command was read. size: the command's bytes so far, at the
 * front of the lent memory, where they have to be found again at the next call. The rest is only to be given back.
 *
 * Any numbers are taken. place: 0 in a line, 1 at a CR, 2 at "{", 3 at digits after it, 4 at "}" after those, 5 at the CR after that, 6
 * in a literal, 7 and all above bytes are dropped. value: of 3, 4 and 5 the number that the digits spell, up to 1,025: no digit makes it
 * larger, since all above 1,024 are refused alike ("{5000" gives 1025); of 6 the literal's bytes to come; given back as 0 with the other
 * places. cr: 0 the last byte is no CR, any other number it is one; given back as 0 or 1. */
struct luspemaro_feeder {
    uint8_t place;
    uint8_t cr;
    size_t value;
    size_t size;
};

#define LUSPEMARO_EVENT_QUIET 0     /* nothing yet */
#define LUSPEMARO_EVENT_COMMAND 1   /* a whole command: the first length bytes of the lent memory */
#define LUSPEMARO_EVENT_GO_ON 2     /* the continuation line is due */
#define LUSPEMARO_EVENT_REFUSED 3   /* with LINE_SHAPE: a literal of over 1,024 bytes, a byte 00, or a command of over 2,048 bytes */
#define LUSPEMARO_EVENT_TOO_SMALL 4 /* the lent memory has under 2,048 bytes, or the state's size is over 2,048: nothing is taken */

/* What comes of a chunk. number is 0 but with REFUSED, length is 0 but with COMMAND. used: bytes of the chunk that were taken. state:
 * for the next call. */
struct luspemaro_fed {
    uint8_t event;
    uint8_t number;
    size_t length;
    size_t used;
    struct luspemaro_feeder state;
};

/* The report of a replay. number: LUSPEMARO_DONE, or LUSPEMARO_REFUSAL_BAD_FRAME where the log was stopped. frame: with DONE the number
 * of the first frame of 43 whose recorded answer differs, 0 where all agree; with BAD_FRAME the number of the frame that stopped it, or of
 * the 43 after which the log ends. All frames count, from 1. count: how many of the records are rows at the end; at a stop as the commands
 * that were run before it left them. */
struct luspemaro_replayed {
    uint8_t number;
    size_t frame;
    size_t count;
};

/* A replay between two pieces of its log. All zero is the start. frames: the frames that have ended. first: the first frame of 43 that
 * differs, 0 for none. due: the bytes at the front of pending that are the command whose answer is due, its reader first, 0 for none.
 * gathered: the characters of the frame so far, at the front of line. Both have to be found there again at the next call. stopped: 0 no,
 * any other number yes; given back as 0 or 1. */
struct luspemaro_replay {
    size_t frames;
    size_t first;
    size_t due;
    size_t gathered;
    uint8_t stopped;
};

/* What comes of a piece. taken: 1; or 0 where nothing is done, since pending or line is too short or the state is invalid. Then number and
 * frame are 0, count is the count passed and state the state passed, stopped as 0 or 1. Else number, frame and count are the report if the
 * log ends with this piece, as in struct luspemaro_replayed, and state is for the next call, to which count is passed on too. */
struct luspemaro_replay_fed {
    uint8_t taken;
    uint8_t number;
    size_t frame;
    size_t count;
    struct luspemaro_replay state;
};

/* ---- The entries. */

/* Check 1: whether the records pass, with their summary. A count above records_length or above summary_length does not. */
bool luspemaro_check_records(const struct luspemaro_record *records, size_t records_length, size_t count, const uint8_t *area,
                             size_t area_length, const uint64_t *summary, size_t summary_length);

/* Check 1 of the packed form: whether the table passes. */
bool luspemaro_check_table(const uint8_t *table, size_t table_length);

/* Check 2: whether the namespace list passes. */
bool luspemaro_check_namespaces(const uint8_t *list, size_t list_length);

/* Whether the name matches the canonical pattern, of any length. False of every name of over 255 bytes. */
bool luspemaro_matches(const uint8_t *pattern, size_t pattern_length, const uint8_t *name, size_t name_length);

/* In how many steps luspemaro_matches decides that, each of which looks at one place of the pattern and one of the name: at most
 * (pattern_length + 1) * (name_length + 1), and 0 of a name of over 255 bytes. The number stays at SIZE_MAX, which only a pattern of over
 * 2^55 bytes could come to. */
size_t luspemaro_match_steps(const uint8_t *pattern, size_t pattern_length, const uint8_t *name, size_t name_length);

/* The answer to one command line of a reader, LIST, LSUB, NAMESPACE, SUBSCRIBE or UNSUBSCRIBE, its CR LF included, at the front of out.
 * Refusals, in this order: 16 for a reader above 7, 1, 2, 3, 4 for the tag, 5, 4 for the rest, 6, 7, 8, 16 for an edit from another
 * reader than 0, 14, 15, 9; 6 and 7 are of LIST, 8 of LIST and LSUB, 14 and 15 of SUBSCRIBE. The bytes after the answer stay; a refusal
 * changes no byte of out, no record, no byte of the area and no number of the summary.
 *
 * SUBSCRIBE and UNSUBSCRIBE edit the rows. A name whose first level is INBOX in any case of letters is spelled INBOX first. SUBSCRIBE
 * sets the flag SUBSCRIBED of the name's row, or inserts a row with that flag alone, which all readers see; UNSUBSCRIBE clears the flag,
 * removes a row that has no other flag, and is done where the name has no subscription. The row keeps its readers, whether reader 0 is
 * among them or not. The other rows keep flags, readers, name and order, and where the names lie; the records after the place move by
 * one, and so do their numbers of the summary. The numbers of the named row's ancestors and of an inserted row become what counting afresh
 * gives; that of a freed record becomes zero, and the numbers of other spare records stay, as do those past the last record. Other commands
 * change no record, no byte of the area and no number.
 *
 * Of two tables that pass and have the same names with the same flags visible to a reader, LIST and LSUB give that reader the same bytes
 * and numbers, and so does the walk, with the same count. */
struct luspemaro_outcome luspemaro_answer(struct luspemaro_record *records, size_t records_length, size_t count, uint8_t reader,
                                          uint8_t *area, size_t area_length, uint64_t *summary, size_t summary_length,
                                          const uint8_t *namespaces, size_t namespaces_length, const uint8_t *line,
                                          size_t line_length, uint8_t *out, size_t out_length);

/* Moves the names of the rows together, in the order of their starts, to the front of the area; the bytes after them, all that no row
 * uses, become zero. LUSPEMARO_DONE, or 1 for a table that does not pass: then no record and no byte of the area changes.
 *
 * Of the first count records the starts change and nothing else; those after them and the summary stay. Every command and every walk is
 * answered as before, but that a SUBSCRIBE which was refused with 15 may find room. Straight after it, no edit between, 15 for want of
 * bytes is given exactly if all free bytes together are fewer than the name's. */
uint8_t luspemaro_compact(struct luspemaro_record *records, size_t records_length, size_t count, uint8_t *area, size_t area_length,
                          const uint64_t *summary, size_t summary_length);

/* Counts the summary of the rows afresh, as a caller's first one. LUSPEMARO_DONE: the first count numbers are what counting gives, and
 * those after them stay. 1 where the rest of check 1 does not pass, a count above the records lent among it: then no number changes. What
 * the numbers hold before the call is not looked at. */
uint8_t luspemaro_summarize(const struct luspemaro_record *records, size_t records_length, size_t count, const uint8_t *area,
                            size_t area_length, uint64_t *summary, size_t summary_length);

/* The collector's walk for a reader. option: the sum of LUSPEMARO_OPTION_ .. Finds lie at the front of found, length bytes of them, and
 * the names that were asked below at the front of pending, count - 1 of them; each as a length byte (1 to 200) and the name, in walk
 * order. The bytes after them, and all of scratch, are zero.
 *
 * Refusals, LUSPEMARO_REFUSAL_ .., in this order: 16 (READER), 1 (TABLE), 6 (OPTION), then in the walk's own order 9 (SHORT_BUFFER, of
 * scratch), 10 (FOUND_FULL) and 11 (PENDING_FULL); no other number: none of the walk's own commands is refused for anything but scratch.
 * 16 is of a reader above 7. A refusal leaves all three buffers zero. */
struct luspemaro_outcome luspemaro_collect(const struct luspemaro_record *records, size_t records_length, size_t count, uint8_t reader,
                                           const uint8_t *area, size_t area_length, const uint64_t *summary,
                                           size_t summary_length, uint8_t option, uint8_t *scratch, size_t scratch_length,
                                           uint8_t *found, size_t found_length, uint8_t *pending, size_t pending_length);

/* luspemaro_collect over a packed table, with the same refusals: 16, 1, 6, 9, 10 and 11, and no other number. */
struct luspemaro_outcome luspemaro_collect_packed(const uint8_t *table, size_t table_length, uint8_t reader, uint8_t option,
                                                  uint8_t *scratch, size_t scratch_length, uint8_t *found, size_t found_length,
                                                  uint8_t *pending, size_t pending_length);

/* The LIST line of these parts at the front of out: any attributes, a name of the table's shape, and criteria 0 to 3; or the root line,
 * for NOSELECT, an empty name and no criteria. Refusals, in this order: 12 for criteria above 3, 12 for other parts, 9. The bytes after
 * the line stay; a refusal changes no byte. */
struct luspemaro_outcome luspemaro_write_line(uint16_t attributes, const uint8_t *name, size_t name_length, uint8_t criteria,
                                              uint8_t *out, size_t out_length);

/* The parts of a LIST line, its CR LF included. An LSUB line is none. */
struct luspemaro_line luspemaro_read_line(const uint8_t *line, size_t line_length);

/* One LIST command from its parts at the front of out, its CR LF included: one request for two that have one reference and the same
 * options, with the patterns of both. options: the sum of LUSPEMARO_SELECT_ .. and LUSPEMARO_RETURN_ .. patterns: packed, each as a
 * length byte and its bytes, without a gap. What is written is an extended command,
 *
 *     tag LIST (selection options) reference (patterns) RETURN (return options)
 *
 * without RETURN where no return option is asked. A string is written in quotes, or as a literal if it has CR, LF or a byte above 7F. So
 * the line may have several lines; a server asks for continuation after the header of each literal.
 *
 * Refusals, in this order: 3 for a line of over 2,048 bytes, a byte 00 in the reference or in a pattern, or a literal of over 1,024 bytes;
 * 4 for what is no tag, for no pattern, or for a list that its patterns do not fill; 6 for a number with another bit than the seven; 7; 8;
 * 9. In a list that is not filled, the last pattern ends with the list, for 3. The bytes after the line stay; a refusal changes no byte.
 *
 * luspemaro_answer refuses a line that was written here with none of 3 to 8. Without RECURSIVEMATCH, and if the two commands that it was
 * joined from are extended and all three are accepted, over the same rows and from the same reader, the LIST lines of its answer are those
 * of the two merged in name order with equal lines once. */
struct luspemaro_outcome luspemaro_join(const uint8_t *tag, size_t tag_length, uint8_t options, const uint8_t *reference,
                                        size_t reference_length, const uint8_t *patterns, size_t patterns_length, uint8_t *out,
                                        size_t out_length);

/* Takes the chunk through the first byte that something comes of, or all of it, and stores the command's bytes at the front of the
 * lent memory, LUSPEMARO_ROOM_COMMAND bytes or more. Call it again with the rest until nothing is left. A chunk may be empty. */
struct luspemaro_fed luspemaro_feed(struct luspemaro_feeder state, uint8_t *command, size_t command_length, const uint8_t *chunk,
                                    size_t chunk_length);

/* "+ go" CR LF from out[at] on, and the place after it: at + 6, but at most SIZE_MAX. Nothing is stored past the end of out, where
 * the place counts on: an answer above out_length says that the line is not there, or not whole. */
size_t luspemaro_put_go_on(uint8_t *out, size_t out_length, size_t at);

/* Runs a log again: its commands, edits included, over the table that it started with, each with an answer buffer of 16,384 bytes, and
 * compares what is answered now with what was answered then. A log is frames, each hexadecimal digits of either case and LF:
 *
 *     43, the reader's byte, a command line     a command, at most 4,102 digits
 *     41, an answer                             what was answered to the command before it, at most 32,770 digits
 *     52, a number                              or that it was refused, with exactly one byte
 *
 * A command is run once its answer is read. A table or a list that does not pass is no refusal of the replay: its commands are answered 1
 * or 2, those of a reader above 7 with 16, and that is compared. After a difference the replay goes on. A frame that is unreadable or out
 * of turn, a last frame without LF, or an end after 43 stops it with 13, whatever differed before; nothing after it is run, nor a command
 * whose answer is due then. The empty log agrees.
 *
 * Records, area and summary are afterwards as the commands that were run left them: what luspemaro_answer says of each holds here. */
struct luspemaro_replayed luspemaro_replay(struct luspemaro_record *records, size_t records_length, size_t count, uint8_t *area,
                                           size_t area_length, uint64_t *summary, size_t summary_length, const uint8_t *namespaces,
                                           size_t namespaces_length, const uint8_t *log, size_t log_length);

/* Runs a log that comes in pieces of any length, each of which is taken whole: however it is cut, the report after the last piece and the
 * table are those of luspemaro_replay. After a stop bytes are ignored. What is lent as table, pending and line is lent to the next call
 * as this one leaves it.
 *
 * Nothing is done, no byte of lent memory changes, and taken is 0: where pending has under LUSPEMARO_ROOM_REPLAY_PENDING bytes or line
 * under LUSPEMARO_ROOM_REPLAY_LINE; for a state with due over 2,050, with due but no frame, or with gathered over 32,771; and where frames
 * and piece_length together are SIZE_MAX or more, since each byte may end a frame. */
struct luspemaro_replay_fed luspemaro_replay_feed(struct luspemaro_record *records, size_t records_length, size_t count,
                                                  struct luspemaro_replay state, uint8_t *area, size_t area_length,
                                                  uint64_t *summary, size_t summary_length, const uint8_t *namespaces,
                                                  size_t namespaces_length, uint8_t *pending, size_t pending_length, uint8_t *line,
                                                  size_t line_length, const uint8_t *piece, size_t piece_length);

#ifdef __cplusplus
}
#endif

#endif
