/* The inputs with which the entries need most of their stack. */
#include "stack_inputs.h"

#include <stdio.h>
#include <string.h>

uint8_t table[LUSPEMARO_MAX_TABLE], area[LUSPEMARO_MAX_AREA], namespaces[LUSPEMARO_MAX_NAMESPACES], line[LUSPEMARO_MAX_COMMAND];
struct luspemaro_record records[LUSPEMARO_MAX_ROWS];
uint64_t summary[LUSPEMARO_MAX_ROWS];
size_t table_length, count, namespaces_length, line_length, tag_length, reference_length, log_length;
uint8_t reader, out[LUSPEMARO_ROOM_ANSWER], log_text[LOG_ROOM];

enum { FLAGS = 0x0100 | LUSPEMARO_FLAG_EXISTS | LUSPEMARO_FLAG_SUBSCRIBED, PACKED_NAME = 60 };

static void fill_name(uint8_t *at, unsigned row, unsigned length)
{
    memset(at, '"', length);
    for (unsigned level = 1; level < LUSPEMARO_MAX_LEVELS; level++)
        at[length - 2 * level] = '/';
    for (unsigned bit = 0; bit < 9; bit++)
        at[bit] = (row >> (8 - bit) & 1) != 0 ? '\\' : '"';
}

void fill_tables(void)
{
    for (unsigned row = 0; row < LUSPEMARO_MAX_ROWS; row++) {
        uint8_t *at = table + 64 * row;
        at[0] = FLAGS >> 8;
        at[1] = FLAGS & 0xFF;
        at[2] = (uint8_t)~(1u << NOT_FOR);
        at[3] = PACKED_NAME;
        fill_name(at + 4, row, PACKED_NAME);
        unsigned start = NAME * (LUSPEMARO_MAX_ROWS - 1 - row);
        records[row].flags = FLAGS;
        records[row].start = (uint16_t)start;
        records[row].len = NAME;
        records[row].readers = (uint8_t)~(1u << NOT_FOR);
        fill_name(area + start, row, NAME);
    }
    table_length = sizeof table;
    count = LUSPEMARO_MAX_ROWS;
    /* No row lies below another. */
    memset(summary, 0, sizeof summary);
}

void fill_nested(void)
{
    size_t start = 0;
    memset(area, 0, sizeof area);
    for (unsigned row = 0; row < LUSPEMARO_MAX_ROWS; row++) {
        unsigned name = row / LUSPEMARO_MAX_LEVELS, level = row % LUSPEMARO_MAX_LEVELS;
        records[row].flags = FLAGS;
        records[row].start = (uint16_t)start;
        records[row].len = (uint8_t)(2 + 2 * level);
        records[row].readers = LUSPEMARO_READERS_ALL;
        area[start++] = (uint8_t)('a' + name / 8);
        area[start++] = (uint8_t)('a' + name % 8);
        for (; level > 0; level--) {
            area[start++] = '/';
            area[start++] = 'x';
        }
    }
    count = LUSPEMARO_MAX_ROWS;
}

void fill_namespaces(void)
{
    for (unsigned entry = 0; entry < 12; entry++) {
        uint8_t *at = namespaces + 67 * entry;
        at[0] = (uint8_t)(entry / 4);
        at[1] = LUSPEMARO_MAX_PREFIX;
        memset(at + 2, '"', 65);
    }
    namespaces_length = sizeof namespaces;
}

void set_line(const char *text)
{
    line_length = strlen(text);
    memcpy(line, text, line_length);
}

void set_long_line(const char *first, char byte, const char *last)
{
    size_t end = sizeof line - strlen(last);
    memset(line, byte, end);
    memcpy(line, first, strlen(first));
    memcpy(line + end, last, strlen(last));
    line_length = sizeof line;
}

void set_closed_line(size_t depth)
{
    memcpy(line, "a LIST (X ", 10);
    memset(line + 10, '(', depth);
    line[10 + depth] = 'a';
    memset(line + 11 + depth, ')', depth);
    memcpy(line + 11 + 2 * depth, ") \"\" *\r\n", 8);
    line_length = 19 + 2 * depth;
}

void set_edit_line(const char *word, const struct luspemaro_record *row)
{
    line_length = (size_t)snprintf((char *)line, sizeof line, "a %s {%d}\r\n", word, NAME);
    if (row != NULL)
        memcpy(line + line_length, area + row->start, NAME);
    else
        memset(line + line_length, 'z', NAME);
    memcpy(line + line_length + NAME, "\r\n", 2);
    line_length += NAME + 2;
}

void set_parts(char tag, size_t tags, char reference, size_t references, char pattern, size_t patterns)
{
    tag_length = tags;
    reference_length = references;
    memset(line, tag, tags);
    memset(line + tags, reference, references);
    line_length = tags + references;
    for (unsigned i = 0; i < LUSPEMARO_MAX_PATTERNS; i++) {
        line[line_length++] = (uint8_t)patterns;
        memset(line + line_length, pattern, patterns);
        line_length += patterns;
    }
}

static void add_hex(const uint8_t *bytes, size_t length)
{
    for (size_t i = 0; i < length; i++)
        log_length += (size_t)snprintf((char *)log_text + log_length, 3, "%02X", bytes[i]);
}

void log_answer(void)
{
    const uint8_t asked[2] = {0x43, reader};
    log_length = 0;
    add_hex(asked, 2);
    add_hex(line, line_length);
    log_text[log_length++] = '\n';
    struct luspemaro_outcome given = luspemaro_answer(records, LUSPEMARO_MAX_ROWS, count, reader, area, sizeof area, summary,
                                                      LUSPEMARO_MAX_ROWS, namespaces, namespaces_length, line, line_length, out, LOGGED);
    const uint8_t answered[2] = {given.number == LUSPEMARO_DONE ? 0x41 : 0x52, given.number};
    add_hex(answered, given.number == LUSPEMARO_DONE ? 1 : 2);
    add_hex(out, given.length);
    log_text[log_length++] = '\n';
}
