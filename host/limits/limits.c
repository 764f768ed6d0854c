/* Whether the library takes what the header describes, and no more: `limits FOLDER`, with the files that
 * `samples` makes, and sample.bundle and sample.txt. A key table and a request are laid part by part as the
 * header's tables say, each part as long as it may be; one that is longer is refused, and each flag's part is
 * the one that its caveat is held to. The bundle is read record by record. What holds is printed, and the
 * status is 1 where something does not. */
#include <stdio.h>
#include <stdlib.h>
#include <string.h>

#include "../samples.h"
#include "bhinorpa.h"

static struct bytes table;
static struct bytes request;
static struct bytes scope;
static struct bytes token;

#define COUNT(list) (sizeof(list) / sizeof(list)[0])

static int held(int good, const char *what)
{
    printf("%s%s\n", good ? "" : "does not hold: ", what);
    return good;
}

static void put_number(struct bytes *to, uint64_t number, size_t width)
{
    for (; width > 0; width--, number >>= 8)
        to->at[to->length++] = (uint8_t)number;
}

static void put_run(struct bytes *to, char c, size_t count)
{
    memset(to->at + to->length, c, count);
    to->length += count;
}

static void put_text(struct bytes *to, const char *text)
{
    memcpy(to->at + to->length, text, strlen(text));
    to->length += strlen(text);
}

/* A record with the longest ids; the last byte of kid is all that tells it from the others. */
static void put_record(char last)
{
    put_number(&table, 34 + BHINORPA_ID_MAX + BHINORPA_ID_MAX, 2);
    put_number(&table, BHINORPA_KIND_KEY, 2);
    put_number(&table, BHINORPA_ID_MAX, 1);
    put_run(&table, 'T', BHINORPA_ID_MAX);
    put_number(&table, BHINORPA_ID_MAX, 1);
    put_run(&table, 'K', BHINORPA_ID_MAX - 1);
    put_run(&table, last, 1);
    put_run(&table, last, BHINORPA_KEY_SIZE);
}

/* Issues under the first record's ids, into the token. */
static uint32_t issued(size_t room)
{
    struct bhinorpa_written written =
        bhinorpa_issue(table.at, table.length, table.at + 5, BHINORPA_ID_MAX, table.at + 6 + BHINORPA_ID_MAX,
                       BHINORPA_ID_MAX, scope.at, scope.length, token.at, room);
    token.length = written.length;
    return written.answer;
}

/* Leaves the longest table, and the longest token without caveats. */
static int of_tables(void)
{
    static const char ascending[] = "-.0123456789ABCDEFGHIJKLMNOPQRSTUVWXYZ_abcdefghijklmnopqrstuvwxyz";
    size_t i;
    int good = 1;
    for (i = 0; i < 65; i++)
        put_record(ascending[i]);
    good &= held(issued(BHINORPA_FRESH_TEXT_MAX) == BHINORPA_TABLE_BAD, "a table of 65 records is bad");
    table.length = table.length / 65 * 64;
    good &= held(table.length == BHINORPA_TABLE_MAX, "the longest table has BHINORPA_TABLE_MAX bytes");
    good &= held(issued(BHINORPA_FRESH_TEXT_MAX - 1) == BHINORPA_OUT_SHORT
                     && issued(BHINORPA_FRESH_TEXT_MAX) == BHINORPA_DONE
                     && token.length == BHINORPA_FRESH_TEXT_MAX,
                 "the longest token without caveats has BHINORPA_FRESH_TEXT_MAX characters");
    return good;
}

#define ALL_FLAGS (BHINORPA_FLAG_AMNESIA | BHINORPA_FLAG_PEER | BHINORPA_FLAG_AUDIENCE \
                   | BHINORPA_FLAG_DIGEST | BHINORPA_FLAG_RATE)
#define DIGEST "0123456789abcdef0123456789abcdef0123456789abcdef0123456789abcdef"

/* A request's skew and flags, and how long its texts are. */
struct parts {
    unsigned skew;
    unsigned flags;
    size_t method;
    size_t path;
    size_t tenant;
    size_t audience;
};

static const struct parts longest = { BHINORPA_SKEW_MAX, ALL_FLAGS, BHINORPA_METHOD_MAX, BHINORPA_PATH_MAX,
                                      BHINORPA_ID_MAX, BHINORPA_AUDIENCE_MAX };

static void put_request(const struct parts *parts)
{
    request.length = 0;
    put_number(&request, 0, 8);
    put_number(&request, 0, 8);
    put_number(&request, parts->skew, 2);
    put_number(&request, parts->flags, 1);
    if (parts->flags & BHINORPA_FLAG_PEER)
        put_text(&request, "\x0a\x01\x02\x03");
    if (parts->flags & BHINORPA_FLAG_DIGEST)
        put_text(&request, DIGEST);
    if (parts->flags & BHINORPA_FLAG_RATE) {
        put_number(&request, 5, 4);
        put_number(&request, 9, 4);
    }
    put_number(&request, parts->method, 2);
    put_run(&request, 'M', parts->method);
    put_number(&request, parts->path, 2);
    /* Segments of one byte, as the prefix of scope.longest has them. */
    for (size_t i = 0; i < parts->path; i++)
        put_run(&request, i % 2 ? 'p' : '/', 1);
    put_number(&request, parts->tenant, 2);
    put_run(&request, 'T', parts->tenant);
    if (parts->flags & BHINORPA_FLAG_AUDIENCE) {
        put_number(&request, parts->audience, 2);
        put_run(&request, 'a', parts->audience);
    }
}

static uint32_t judged(struct parts parts, const uint8_t *text, size_t length)
{
    put_request(&parts);
    return bhinorpa_verify(table.at, table.length, request.at, request.length, text, length);
}

static int refused(struct parts parts, const char *what)
{
    return held(judged(parts, token.at, token.length) == BHINORPA_CTX_BAD, what);
}

static int of_requests(void)
{
    struct parts parts = longest;
    int good = held(judged(parts, token.at, token.length) == BHINORPA_ALLOW
                        && request.length == BHINORPA_REQUEST_MAX,
                    "the longest request has BHINORPA_REQUEST_MAX bytes");
    parts.flags = 0;
    good &= held(judged(parts, token.at, token.length) == BHINORPA_ALLOW, "a request needs no flag");
    parts = longest, parts.skew++;
    good &= refused(parts, "more skew than BHINORPA_SKEW_MAX is refused");
    parts = longest, parts.flags |= 32;
    good &= refused(parts, "a flag that is none is refused");
    parts = longest, parts.method++;
    good &= refused(parts, "a method longer than BHINORPA_METHOD_MAX is refused");
    parts = longest, parts.path++;
    good &= refused(parts, "a path longer than BHINORPA_PATH_MAX is refused");
    parts = longest, parts.tenant++;
    good &= refused(parts, "a tenant longer than BHINORPA_ID_MAX is refused");
    parts = longest, parts.audience++;
    good &= refused(parts, "an audience longer than BHINORPA_AUDIENCE_MAX is refused");
    return good;
}

#define A32 "aaaaaaaaaaaaaaaaaaaaaaaaaaaaaaaa"
#define BYTES(literal) (const uint8_t *)(literal), sizeof(literal) - 1

/* Each holds of the longest request, and of no request without the flag. */
static const struct {
    unsigned flag;
    uint32_t answer;
    const char *what;
    const uint8_t *caveat;
    size_t length;
} caveats[] = {
    { BHINORPA_FLAG_AMNESIA, BHINORPA_CAVEAT_AMNESIA, "BHINORPA_FLAG_AMNESIA is amnesia's",
      BYTES("\xa2\x61t\x67" "amnesia" "\x61v\xf5") },
    { BHINORPA_FLAG_PEER, BHINORPA_CAVEAT_IP, "BHINORPA_FLAG_PEER is the peer's",
      BYTES("\xa2\x61t\x67ip_cidr\x61v\x6b" "10.1.2.3/32") },
    { BHINORPA_FLAG_AUDIENCE, BHINORPA_CAVEAT_AUD, "BHINORPA_FLAG_AUDIENCE is the audience's",
      BYTES("\xa2\x61t\x63" "aud" "\x61v\x78\x80" A32 A32 A32 A32) },
    { BHINORPA_FLAG_DIGEST, BHINORPA_CAVEAT_POLICY_DIGEST, "BHINORPA_FLAG_DIGEST is the digest's",
      BYTES("\xa2\x61t\x71gov_policy_digest\x61v\x78\x40" DIGEST) },
    { BHINORPA_FLAG_RATE, BHINORPA_CAVEAT_RATE, "BHINORPA_FLAG_RATE is the rate's, per_s before burst",
      BYTES("\xa2\x61t\x64rate\x61v\xa2\x65" "burst" "\x09\x65per_s\x05") }
};

static int of_flags(void)
{
    static uint8_t child[BHINORPA_TEXT_MAX];
    struct bhinorpa_written written;
    struct parts without;
    size_t i;
    int good = 1;
    for (i = 0; i < COUNT(caveats); i++) {
        written = bhinorpa_narrow(table.at, table.length, token.at, token.length, caveats[i].caveat,
                                  caveats[i].length, child, sizeof child);
        without = longest;
        without.flags &= ~caveats[i].flag;
        good &= held(written.answer == BHINORPA_DONE
                         && judged(longest, child, written.length) == BHINORPA_ALLOW
                         && judged(without, child, written.length) == caveats[i].answer,
                     caveats[i].what);
    }
    return good;
}

static uint32_t hashed(size_t key_length, size_t message_length)
{
    static const uint8_t zeros[BHINORPA_MESSAGE_MAX + 1] = { 0 };
    return bhinorpa_keyed_hash(zeros, key_length, zeros, message_length).answer;
}

static int of_hashes(void)
{
    return held(hashed(BHINORPA_KEY_SIZE, BHINORPA_MESSAGE_MAX) == BHINORPA_DONE
                    && hashed(BHINORPA_KEY_SIZE, BHINORPA_MESSAGE_MAX + 1) == BHINORPA_HASH_BAD
                    && hashed(BHINORPA_KEY_SIZE + 1, BHINORPA_MESSAGE_MAX) == BHINORPA_HASH_BAD,
                "a key has BHINORPA_KEY_SIZE bytes, and a message BHINORPA_MESSAGE_MAX at most");
}

static int of_samples(const char *folder)
{
    static struct bytes sample;
    int good;
    load(&sample, folder, "token.longest");
    good = held(sample.length == BHINORPA_TEXT_MAX, "token.longest has BHINORPA_TEXT_MAX characters");
    load(&sample, folder, "request.longest");
    good &= held(sample.length <= BHINORPA_REQUEST_MAX, "request.longest is within BHINORPA_REQUEST_MAX");
    return good;
}

static unsigned number_at(const uint8_t *at)
{
    return at[0] + 256u * at[1];
}

static void put_line(struct bytes *lines, uint32_t answer)
{
    put_text(lines, answer == BHINORPA_ALLOW ? "" : "deny ");
    put_text(lines, bhinorpa_name(answer));
    put_text(lines, "\n");
}

static int of_bundles(const char *folder)
{
    static struct bytes bundle, wanted, lines;
    struct { const uint8_t *at; size_t length; } keys = { bundle.at, 0 }, asked = { bundle.at, 0 };
    size_t at = 0;
    load(&bundle, folder, "sample.bundle");
    load(&wanted, folder, "sample.txt");
    while (at < bundle.length) {
        size_t length = number_at(bundle.at + at);
        unsigned kind = number_at(bundle.at + at + 2);
        at += 4;
        if (kind == BHINORPA_KIND_TABLE)
            keys.at = bundle.at + at, keys.length = length;
        if (kind == BHINORPA_KIND_REQUEST)
            asked.at = bundle.at + at, asked.length = length;
        if (kind == BHINORPA_KIND_TOKEN)
            put_line(&lines, bhinorpa_verify(keys.at, keys.length, asked.at, asked.length, bundle.at + at,
                                             length));
        at += length;
    }
    return held(at == bundle.length && lines.length == wanted.length
                    && memcmp(lines.at, wanted.at, lines.length) == 0,
                "sample.bundle's records, by their kinds, give the lines of sample.txt");
}

int main(int argc, char **argv)
{
    int good;
    if (argc != 2) {
        fputs("usage: limits FOLDER\n", stderr);
        return 2;
    }
    load(&scope, argv[1], "scope.longest");
    good = of_tables();
    good &= of_requests();
    good &= of_flags();
    good &= of_hashes();
    good &= of_samples(argv[1]);
    good &= of_bundles(argv[1]);
    return good ? 0 : 1;
}
