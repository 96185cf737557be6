/* The inputs with which the entries need most of their stack. */
#ifndef STACK_INPUTS_H
#define STACK_INPUTS_H

#include "luspemaro.h"

/* The buffer of an answer in a log, and the longest log of one command: digits of both frames, and a LF for each. */
enum { LOGGED = 16384, LOG_ROOM = 2 * (2 + LUSPEMARO_MAX_COMMAND) + 1 + 2 * (1 + LOGGED) + 1 + 1 };

extern uint8_t table[LUSPEMARO_MAX_TABLE], area[LUSPEMARO_MAX_AREA], namespaces[LUSPEMARO_MAX_NAMESPACES], line[LUSPEMARO_MAX_COMMAND];
extern struct luspemaro_record records[LUSPEMARO_MAX_ROWS];
extern uint64_t summary[LUSPEMARO_MAX_ROWS];
extern size_t table_length, count, namespaces_length, line_length, tag_length, reference_length, log_length;
extern uint8_t reader, out[LUSPEMARO_ROOM_ANSWER], log_text[LOG_ROOM];

/* Tables in both forms that are as full as may be: 512 rows in 16 levels, all existing, subscribed and with a use, for all readers but one.
 * The names have all the bytes there are: 60 each in the packed form, 64 each in the area, where they lie in the other order. */
enum { NAME = 64, NOT_FOR = 6 };
void fill_tables(void);

/* 32 names of 16 levels, each with a row for every level: as many rows below rows as may be, and free bytes after them. */
void fill_nested(void);

void fill_namespaces(void);
void set_line(const char *text);

/* A line of 2,048 bytes: the first text, then this byte as often as it fits, then the last text. */
void set_long_line(const char *first, char byte, const char *last);

/* A line of at most 2,048 bytes: a value with so many parentheses around one item, all closed. */
void set_closed_line(size_t depth);

/* An edit, by its word, of the name of a row, or of a name that no row has: both have NAME bytes. */
void set_edit_line(const char *word, const struct luspemaro_record *row);

/* The parts of a joined command, in the place of a line: so many times each byte, as a tag, as a reference and as each of eight packed
 * patterns. */
void set_parts(char tag, size_t tags, char reference, size_t references, char pattern, size_t patterns);

/* The log of the line and of what it is answered, which an edit changes the table for. */
void log_answer(void);

#endif
