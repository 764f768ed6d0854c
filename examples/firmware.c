/* A relay module's service loop. The module counts its switchings; service tools read that count or write
 * it, each time with a token. Standard input stands for the module's lines here, one message to a line:
 *
 *   clock SECONDS                     the time, in seconds since 1970
 *   switch                            the relay has switched
 *   METHOD PATH TENANT BODY TOKEN     a service tool asks; BODY is the new count, or "-" for none
 *
 * Each service message is answered with one line: the count; "refused: " and the reason's name; or what is
 * wrong with the message. Before the clock is set none is served, since every expiry would still be to come.
 * `firmware < examples/firmware.in` prints examples/firmware.txt. The status is 0 at the end of the input, or
 * 2 where a line cannot be read or an answer cannot be written; the loop ends there. */
#include <stdio.h>
#include <string.h>

#include "bhinorpa.h"

/* The keys as they lie in the module's flash: two rows, by tenant, each with a name and 32 bytes. Real keys
 * are not made of one byte. */
static const char key_table[] = "\x37\0\1\0"
                                "\x0a" "contractor" "\x0b" "kid-2025-11"
                                "\3\3\3\3\3\3\3\3\3\3\3\3\3\3\3\3\3\3\3\3\3\3\3\3\3\3\3\3\3\3\3\3"
                                "\x35\0\1\0"
                                "\x08" "workshop" "\x0b" "kid-2025-10"
                                "\1\1\1\1\1\1\1\1\1\1\1\1\1\1\1\1\1\1\1\1\1\1\1\1\1\1\1\1\1\1\1\1";

/* What this module calls itself in an aud caveat, and where its count is. */
static const char audience[] = "relay-1";
static const char count_path[] = "/relay/1/count";

/* How far the module's clock may be off, in seconds: as far as a request may say. */
#define SKEW BHINORPA_SKEW_MAX

/* Room for any request, and for a line with the longest token. */
static uint8_t request[BHINORPA_REQUEST_MAX];
static char line[BHINORPA_TEXT_MAX + 2048];

static uint64_t now;
static int clock_is_set;
static uint64_t switchings;

/* How many words the longest message has. */
#define MOST_WORDS 5

struct message {
    const char *method;
    const char *path;
    const char *tenant;
    const char *body;
    const char *token;
};

/* Puts a number in `width` bytes, the lowest first; returns the place behind it. */
static size_t put_number(size_t at, uint64_t number, size_t width)
{
    while (width-- > 0) {
        request[at++] = (uint8_t)number;
        number >>= 8;
    }
    return at;
}

/* Puts a text behind its length. One that is too long for a request goes in as an empty one: that too makes
 * the request malformed, so that the library refuses, and the room is never passed. */
static size_t put_text(size_t at, const char *text, size_t longest)
{
    size_t length = strlen(text);
    if (length > longest)
        return put_number(at, 0, 2);
    at = put_number(at, length, 2);
    memcpy(request + at, text, length);
    return at + length;
}

/* Asks the library whether the token allows what the message asks for. The module states what it knows
 * itself: the time, its name, how long the body is. Only method, path and tenant are the tool's word, and
 * those are just what the token is held to. */
static uint32_t judge(const struct message *message)
{
    size_t at = put_number(0, now, 8);
    at = put_number(at, strcmp(message->body, "-") == 0 ? 0 : strlen(message->body), 8);
    at = put_number(at, SKEW, 2);
    at = put_number(at, BHINORPA_FLAG_AUDIENCE, 1);
    at = put_text(at, message->method, BHINORPA_METHOD_MAX);
    at = put_text(at, message->path, BHINORPA_PATH_MAX);
    at = put_text(at, message->tenant, BHINORPA_ID_MAX);
    at = put_text(at, audience, BHINORPA_AUDIENCE_MAX);
    return bhinorpa_verify((const uint8_t *)key_table, sizeof key_table - 1, request, at,
                           (const uint8_t *)message->token, strlen(message->token));
}

static int read_number(const char *text, uint64_t *number)
{
    size_t i;
    uint64_t value = 0;
    for (i = 0; text[i] >= '0' && text[i] <= '9' && i < 18; i++)
        value = value * 10 + (uint64_t)(text[i] - '0');
    if (i == 0 || text[i] != '\0')
        return 0;
    *number = value;
    return 1;
}

/* Does what was asked, once the token allows it; nothing before that. */
static void serve(const struct message *message)
{
    uint32_t answer;
    if (!clock_is_set) {
        puts("refused: the clock is not set");
        return;
    }
    answer = judge(message);
    if (answer != BHINORPA_ALLOW) {
        printf("refused: %s\n", bhinorpa_name(answer));
        return;
    }
    if (strcmp(message->path, count_path) != 0) {
        puts("there is nothing under this path");
        return;
    }
    if (strcmp(message->method, "PUT") == 0 && !read_number(message->body, &switchings)) {
        puts("the new count is no number");
        return;
    }
    if (strcmp(message->method, "PUT") != 0 && strcmp(message->method, "GET") != 0) {
        puts("there is no such method");
        return;
    }
    printf("count %llu\n", (unsigned long long)switchings);
}

/* How many words a message has that begins with this one. */
static size_t words_of(const char *first)
{
    return strcmp(first, "switch") == 0 ? 1 : strcmp(first, "clock") == 0 ? 2 : MOST_WORDS;
}

static void ask(const char *const *words)
{
    struct message message;
    message.method = words[0];
    message.path = words[1];
    message.tenant = words[2];
    message.body = words[3];
    message.token = words[4];
    serve(&message);
}

/* One message, its words parted by blanks. */
static void handle(char *text)
{
    const char *words[MOST_WORDS + 1];
    size_t count = 0;
    char *word;
    for (word = strtok(text, " \r"); word != NULL && count <= MOST_WORDS; word = strtok(NULL, " \r"))
        words[count++] = word;
    if (count == 0)
        return;
    if (count < words_of(words[0]))
        puts("the message is not whole");
    else if (count > words_of(words[0]))
        puts("the message has too many words");
    else if (count == 1)
        switchings++;
    else if (count == 2 && read_number(words[1], &now))
        clock_is_set = 1;
    else if (count == 2)
        puts("the time is no number");
    else
        ask(words);
}

/* Reads a line, its end left out. A length that the room does not have means that the line's rest is dropped,
 * so that it is not taken for a message of its own. A line in which the reading failed is none. */
static int read_line(size_t *length)
{
    int c;
    *length = 0;
    while ((c = getchar()) != EOF && c != '\n') {
        if (*length < sizeof line - 1)
            line[*length] = (char)c;
        ++*length;
    }
    line[*length < sizeof line ? *length : sizeof line - 1] = '\0';
    return !ferror(stdin) && (c == '\n' || *length > 0);
}

/* Sends the answer off, for which the service tool waits. */
static int sent(void)
{
    if (fflush(stdout) == 0 && !ferror(stdout))
        return 1;
    perror("firmware: standard output cannot be written");
    return 0;
}

int main(void)
{
    size_t length;
    while (read_line(&length)) {
        if (length >= sizeof line)
            puts("the message is too long");
        else if (strlen(line) != length)
            puts("the message is no text");
        else
            handle(line);
        if (!sent())
            return 2;
    }
    if (ferror(stdin)) {
        perror("firmware: standard input cannot be read");
        return 2;
    }
    if (fclose(stdout) != 0) {
        perror("firmware: standard output cannot be written");
        return 2;
    }
    return 0;
}
