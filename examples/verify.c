/* The gate in front of a relay's counter: `verify TABLE REQUEST TOKEN`, three files, prints "allow" or
 * "deny " and the reason's name. One line ending behind the token, as editors and tools leave it in a file,
 * is not taken for a part of it; a second one is. The status is 0 for allow, 1 for deny, 2 where a file
 * cannot be read or the answer cannot be written. */
#include <errno.h>
#include <stdio.h>
#include <string.h>

#include "bhinorpa.h"

/* Each holds one byte more than the longest that is good, so that one that is too long is seen as such; the
 * token's holds a line ending besides. */
static uint8_t table[BHINORPA_TABLE_MAX + 1];
static uint8_t request[BHINORPA_REQUEST_MAX + 1];
static uint8_t token[BHINORPA_TEXT_MAX + 1 + 2];

/* Reads a file, or as much of it as there is room for; where it cannot, says which one and why. */
static int read_file(const char *name, uint8_t *room, size_t size, size_t *length)
{
    FILE *file = fopen(name, "rb");
    int good = 0;
    if (file != NULL) {
        *length = fread(room, 1, size, file);
        good = !ferror(file);
    }
    if (!good)
        fprintf(stderr, "verify: %s cannot be read: %s\n", name, strerror(errno));
    if (file != NULL)
        fclose(file);
    return good;
}

/* How long a text is without one "\n" or "\r\n" at its end. */
static size_t without_line_ending(const uint8_t *text, size_t length)
{
    if (length == 0 || text[length - 1] != '\n')
        return length;
    length--;
    return length > 0 && text[length - 1] == '\r' ? length - 1 : length;
}

/* Ends the output: whether all of it has gone out. What was printed may have waited until now. */
static int written_out(void)
{
    int lost = ferror(stdout);
    if (fclose(stdout) == 0 && !lost)
        return 1;
    perror("verify: standard output cannot be written");
    return 0;
}

int main(int argc, char **argv)
{
    size_t table_length;
    size_t request_length;
    size_t token_length;
    uint32_t answer;
    if (argc != 4) {
        fputs("usage: verify TABLE REQUEST TOKEN, each a file; TOKEN may end in one newline\n", stderr);
        return 2;
    }
    if (!read_file(argv[1], table, sizeof table, &table_length)
        || !read_file(argv[2], request, sizeof request, &request_length)
        || !read_file(argv[3], token, sizeof token, &token_length))
        return 2;
    token_length = without_line_ending(token, token_length);
    answer = bhinorpa_verify(table, table_length, request, request_length, token, token_length);
    printf("%s%s\n", answer == BHINORPA_ALLOW ? "" : "deny ", bhinorpa_name(answer));
    if (!written_out())
        return 2;
    return answer == BHINORPA_ALLOW ? 0 : 1;
}
