/* An IMAP server on standard input and output, for the names of a small table. The library cuts the commands and answers them. */
#include <stdio.h>
#include <string.h>
#include <strings.h>
#include "luspemaro.h"

static uint8_t names[LUSPEMARO_MAX_AREA] = "Customers/ABC" "INBOX" "Sent";
static struct luspemaro_record rows[LUSPEMARO_MAX_ROWS] = {
    {LUSPEMARO_FLAG_EXISTS | LUSPEMARO_FLAG_SUBSCRIBED, 0, 13, LUSPEMARO_READERS_ALL},
    {LUSPEMARO_FLAG_EXISTS | LUSPEMARO_FLAG_MARKED, 13, 5, LUSPEMARO_READERS_ALL},
    {LUSPEMARO_FLAG_EXISTS | LUSPEMARO_FLAG_SENT, 18, 4, LUSPEMARO_READERS_ALL}};
static uint64_t summary[LUSPEMARO_MAX_ROWS];
static size_t count = 3;
static const uint8_t namespaces[] = {LUSPEMARO_CLASS_PERSONAL, 0, '/'};
static uint8_t command[LUSPEMARO_ROOM_COMMAND], out[LUSPEMARO_ROOM_ANSWER];

enum { LOGOUT, NOOP, CAPABILITY, OWN_WORDS }; /* the server's own, in any case of letters, and what is said before their OK */
static const char *const words[] = {" LOGOUT\r\n", " NOOP\r\n", " CAPABILITY\r\n"};
static const char *const said[] = {
    "* BYE\r\n", "", "* CAPABILITY IMAP4rev1 LIST-EXTENDED SPECIAL-USE CHILDREN NAMESPACE\r\n"};

/* Answers the command of so many bytes, of which the last are CR LF, and says whether it was LOGOUT. */
static bool answer(size_t length)
{
    const char *line = (const char *)command;
    const int tag = (int)strcspn(line, " \r\n");
    struct luspemaro_outcome r = luspemaro_answer(rows, LUSPEMARO_MAX_ROWS, count, 0, names, sizeof names, summary, LUSPEMARO_MAX_ROWS,
                                                  namespaces, sizeof namespaces, command, length, out, sizeof out);
    count = r.count;
    for (int word = 0; r.number == LUSPEMARO_REFUSAL_WORD && word < OWN_WORDS; word++)
        if (strncasecmp(line + tag, words[word], strlen(words[word])) == 0) {
            printf("%s%.*s OK done\r\n", said[word], tag, line);
            return word == LOGOUT;
        }
    if (r.number == LUSPEMARO_DONE)
        fwrite(out, 1, r.length, stdout);
    else
        printf("%.*s %s refusal %u\r\n", tag > 0 ? tag : 1, tag > 0 ? line : "*",
               r.number < LUSPEMARO_REFUSAL_SHORT_BUFFER ? "BAD" : "NO", r.number);
    return false;
}

int main(void)
{
    struct luspemaro_feeder feeder = {0};
    bool is_last = luspemaro_summarize(rows, LUSPEMARO_MAX_ROWS, count, names, sizeof names, summary, LUSPEMARO_MAX_ROWS) != LUSPEMARO_DONE;
    fputs("* PREAUTH for the names of mailboxes\r\n", stdout);
    for (int byte; !is_last && fflush(stdout) == 0 && (byte = getchar()) != EOF;) {
        const uint8_t chunk = (uint8_t)byte;
        struct luspemaro_fed fed = luspemaro_feed(feeder, command, sizeof command, &chunk, 1);
        feeder = fed.state;
        if (fed.event == LUSPEMARO_EVENT_COMMAND)
            is_last = answer(fed.length);
        else if (fed.event == LUSPEMARO_EVENT_GO_ON)
            fwrite(out, 1, luspemaro_put_go_on(out, sizeof out, 0), stdout);
        else if (fed.event == LUSPEMARO_EVENT_REFUSED)
            printf("* BAD refusal %u\r\n", fed.number);
    }
    return fflush(stdout) == 0 && ferror(stdout) == 0 ? 0 : 1;
}
