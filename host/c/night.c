#include <stdio.h>
#include "luspemaro.h"

/* One row: its flags, where its name lies, and who sees it. */
static uint8_t names[] = "Customers/ABC";
static struct luspemaro_record rows[] = {
    {LUSPEMARO_FLAG_EXISTS | LUSPEMARO_FLAG_SUBSCRIBED, 0, 13, LUSPEMARO_READERS_ALL}};
static uint64_t summary[1];
static const uint8_t line[] = "a LIST (SUBSCRIBED RECURSIVEMATCH) \"\" \"%\"\r\n";
static uint8_t out[16384], scratch[16384], found[8192], pending[8192];

int main(void)
{
    /* The summary is counted once. Reader 0 asks. */
    luspemaro_summarize(rows, 1, 1, names, sizeof names - 1, summary, 1);
    struct luspemaro_outcome r = luspemaro_answer(rows, 1, 1, 0, names, sizeof names - 1, summary, 1,
                                                  line, 0, line, sizeof line - 1, out, sizeof out);
    if (r.number == LUSPEMARO_DONE)
        fwrite(out, 1, r.length, stdout);
    r = luspemaro_collect(rows, 1, 1, 0, names, sizeof names - 1, summary, 1, 0, scratch,
                          sizeof scratch, found, sizeof found, pending, sizeof pending);
    printf("refusal %u, %zu commands\n", r.number, r.count);
    for (size_t at = 0; at < r.length; at += 1u + found[at])
        printf("found %.*s\n", found[at], (const char *)found + at + 1);
    return 0;
}
