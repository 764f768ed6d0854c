/* The test bench's hash: `hash KEY < MESSAGE`, with the key as 64 hex digits, prints the keyed BLAKE3
 * of up to 8,192 bytes in hex, as `b3sum --keyed` would. The status is 0, 1 where the message is too long, or
 * 2 where the key is wrong, the message cannot be read or the hash cannot be written. */
#include <stdio.h>
#include <string.h>

#include "bhinorpa.h"

/* One byte more than is taken, so that a message that is too long is seen as such. */
static uint8_t message[BHINORPA_MESSAGE_MAX + 1];

static int digit(char c)
{
    if (c >= '0' && c <= '9')
        return c - '0';
    if (c >= 'a' && c <= 'f')
        return c - 'a' + 10;
    if (c >= 'A' && c <= 'F')
        return c - 'A' + 10;
    return -1;
}

static int read_key(const char *text, uint8_t key[BHINORPA_KEY_SIZE])
{
    size_t i;
    if (strlen(text) != 2 * BHINORPA_KEY_SIZE)
        return 0;
    for (i = 0; i < BHINORPA_KEY_SIZE; i++) {
        int high = digit(text[2 * i]);
        int low = digit(text[2 * i + 1]);
        if (high < 0 || low < 0)
            return 0;
        key[i] = (uint8_t)(high * 16 + low);
    }
    return 1;
}

/* Ends the output: whether all of it has gone out. What was printed may have waited until now. */
static int written_out(void)
{
    int lost = ferror(stdout);
    if (fclose(stdout) == 0 && !lost)
        return 1;
    perror("hash: standard output cannot be written");
    return 0;
}

int main(int argc, char **argv)
{
    uint8_t key[BHINORPA_KEY_SIZE];
    struct bhinorpa_hashed hashed;
    size_t length;
    size_t i;
    if (argc != 2 || !read_key(argv[1], key)) {
        fputs("usage: hash KEY < MESSAGE, with KEY as 64 hex digits\n", stderr);
        return 2;
    }
    length = fread(message, 1, sizeof message, stdin);
    if (ferror(stdin)) {
        perror("hash: standard input cannot be read");
        return 2;
    }
    hashed = bhinorpa_keyed_hash(key, sizeof key, message, length);
    if (hashed.answer != BHINORPA_DONE) {
        fprintf(stderr, "hash: answer %u, %s: the message is over 8,192 bytes\n", (unsigned)hashed.answer,
                bhinorpa_name(hashed.answer));
        return 1;
    }
    for (i = 0; i < sizeof hashed.bytes; i++)
        printf("%02x", hashed.bytes[i]);
    putchar('\n');
    return written_out() ? 0 : 2;
}
