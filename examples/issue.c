/* The workshop's tool for tokens: `issue TABLE TID KID EXP` prints two texts, each on a line of its own. The
 * first may GET what lies under /relay/7, with bodies of up to 512 bytes; the second is the first narrowed,
 * so that it expires at EXP, in seconds since 1970. The status is 0, 1 where the library refuses, or 2 where
 * an argument is wrong, the table cannot be read or a text cannot be written. */
#include <errno.h>
#include <stdio.h>
#include <stdlib.h>
#include <string.h>

#include "bhinorpa.h"

/* One byte more than the longest table has, so that one that is too long is seen as such. */
static uint8_t table[BHINORPA_TABLE_MAX + 1];

/* Always enough for a text, a fresh token's and a child's. */
static uint8_t fresh[BHINORPA_FRESH_TEXT_MAX];
static uint8_t narrowed[BHINORPA_TEXT_MAX];

/* A map of three keys. The strings are parted where a hex digit would follow an escape. */
static const char scope[] = "\xa3\x66prefix\x68/relay/7"
                            "\x67methods\x81\x63GET"
                            "\x69max_bytes\x19\x02\x00";

/* Reads a file, or as much of it as there is room for; where it cannot, says which one and why. */
static int read_file(const char *name, uint8_t *room, size_t size, size_t *length)
{
    FILE *file = fopen(name, "rb");
    int good = 0;
    if (file != NULL) {
        *length = fread(room, 1, size, file);
        good = !ferror(file);
    }
    if (!good)
        fprintf(stderr, "issue: %s cannot be read: %s\n", name, strerror(errno));
    if (file != NULL)
        fclose(file);
    return good;
}

static int read_number(const char *text, uint64_t *number)
{
    char *end;
    if (text[0] < '0' || text[0] > '9')
        return 0;
    errno = 0;
    *number = strtoull(text, &end, 10);
    return errno == 0 && *end == '\0';
}

/* The caveat that a token expires at this time; returns its length. The number's head must be the shortest
 * one: in the first byte up to 23, else behind it in 1, 2, 4 or 8 bytes, the highest first. */
static size_t put_exp(uint8_t *room, uint64_t exp)
{
    static const char front[] = "\xa2\x61t\x63" "exp" "\x61v";
    size_t length = sizeof front - 1;
    unsigned bytes = exp < 24 ? 0 : exp <= 0xff ? 1 : exp <= 0xffff ? 2 : exp <= 0xffffffff ? 4 : 8;
    memcpy(room, front, length);
    switch (bytes) {
    case 0: room[length++] = (uint8_t)exp; break;
    case 1: room[length++] = 24; break;
    case 2: room[length++] = 25; break;
    case 4: room[length++] = 26; break;
    default: room[length++] = 27; break;
    }
    while (bytes-- > 0)
        room[length++] = (uint8_t)(exp >> (8 * bytes));
    return length;
}

/* Prints the text that was written, or why there is none. */
static int told(struct bhinorpa_written written, const uint8_t *room)
{
    if (written.answer != BHINORPA_DONE) {
        fprintf(stderr, "issue: %s\n", bhinorpa_name(written.answer));
        return 0;
    }
    fwrite(room, 1, written.length, stdout);
    putchar('\n');
    return 1;
}

/* Ends the output: whether all of it has gone out. What was printed may have waited until now. */
static int written_out(void)
{
    int lost = ferror(stdout);
    if (fclose(stdout) == 0 && !lost)
        return 1;
    perror("issue: standard output cannot be written");
    return 0;
}

int main(int argc, char **argv)
{
    uint8_t caveat[32];
    size_t table_length;
    size_t caveat_length;
    uint64_t exp;
    struct bhinorpa_written written;
    int done;
    if (argc != 5 || !read_number(argv[4], &exp)) {
        fputs("usage: issue TABLE TID KID EXP, with TABLE a file and EXP a number\n", stderr);
        return 2;
    }
    if (!read_file(argv[1], table, sizeof table, &table_length))
        return 2;
    written = bhinorpa_issue(table, table_length, (const uint8_t *)argv[2], strlen(argv[2]),
                             (const uint8_t *)argv[3], strlen(argv[3]), (const uint8_t *)scope,
                             sizeof scope - 1, fresh, sizeof fresh);
    if (!told(written, fresh))
        return 1;
    caveat_length = put_exp(caveat, exp);
    written = bhinorpa_narrow(table, table_length, fresh, written.length, caveat, caveat_length, narrowed,
                              sizeof narrowed);
    done = told(written, narrowed);
    if (!written_out())
        return 2;
    return done ? 0 : 1;
}
