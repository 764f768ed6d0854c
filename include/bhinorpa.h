/* Bhinorpa: capability tokens for relay modules. The proved library, called from C.
 *
 * A byte range is a pointer and then a length. What C must keep, since nothing can check it here:
 *   - a pointer is never null, also for a length of 0;
 *   - a range is readable in its whole length while the call runs, and a room is writable too;
 *   - a room shares no byte with another range of the same call;
 *   - no other thread writes to any of them meanwhile, and none reads the room.
 * Nothing else is asked: any bytes of any length may come in, and every call returns.
 *
 * Link libbhinorpa.a for bhinorpa_verify, bhinorpa_issue and bhinorpa_narrow, and libkeyed_hash.a for
 * bhinorpa_keyed_hash; either may be linked alone, or both together. tools/archives makes them in
 * target/staticlib; where tools/install has put them, pkg-config --cflags --libs bhinorpa says how to build.
 * Both need memcpy and memset of the C library and nothing else. No heap, no files, no clock and no state
 * from one call to the next: all the work room is on the stack.
 */
#ifndef BHINORPA_H
#define BHINORPA_H

#include <stddef.h>
#include <stdint.h>

#ifdef __cplusplus
extern "C" {
#endif

/* The answers that the functions below give, out of the one numbered list. Each comment begins with the
 * name that stands for the number in logs. */
enum bhinorpa_answer {
    BHINORPA_ALLOW = 0,                  /* allow: the token is good and everything in it holds */
    BHINORPA_DONE = 0,                   /* done, where nothing is judged: what was asked for is there */
    BHINORPA_TABLE_BAD = 1,              /* table.bad: the key table is malformed, in any of its rows */
    BHINORPA_CTX_BAD = 2,                /* ctx.bad: the request is malformed */
    BHINORPA_PARSE_B64 = 3,              /* parse.b64: the text is not Base64URL without padding */
    BHINORPA_PARSE_CBOR = 4,             /* parse.cbor: the token, or issue's scope, is malformed */
    BHINORPA_PARSE_BOUNDS = 5,           /* parse.bounds: text, or a part of token or scope, out of range */
    BHINORPA_SCHEMA_UNKNOWN_FIELD = 6,   /* schema.unknown_field: unknown key, kind of caveat or version */
    BHINORPA_KID_UNKNOWN = 7,            /* kid.unknown: the table has no key under this tid and kid */
    BHINORPA_MAC_MISMATCH = 8,           /* mac.mismatch: the tag is not that of this token under that key */
    BHINORPA_TENANT_MISMATCH = 9,        /* tenant.mismatch: the request is another tenant's */
    BHINORPA_CAVEAT_METHOD = 10,         /* caveat.method: scope or caveat does not list the method */
    BHINORPA_CAVEAT_PATH = 11,           /* caveat.path: the prefix of scope or caveat does not fit the path */
    BHINORPA_CAVEAT_BYTES = 12,          /* caveat.bytes: the body is larger than scope or caveat allows */
    BHINORPA_CAVEAT_EXP = 13,            /* caveat.exp: expired, the skew included */
    BHINORPA_CAVEAT_NBF = 14,            /* caveat.nbf: not valid yet, the skew included */
    BHINORPA_CAVEAT_AUD = 15,            /* caveat.aud: no audience, or another one */
    BHINORPA_CAVEAT_IP = 16,             /* caveat.ip: no peer address, or one outside the network */
    BHINORPA_CAVEAT_RATE = 17,           /* caveat.rate: no rate stated, or one above the caveat's */
    BHINORPA_CAVEAT_TENANT = 18,         /* caveat.tenant: not the token's own tenant */
    BHINORPA_CAVEAT_AMNESIA = 19,        /* caveat.amnesia: the host is not in amnesia mode */
    BHINORPA_CAVEAT_POLICY_DIGEST = 20,  /* caveat.policy_digest: no policy digest, or another one */
    BHINORPA_CAVEAT_CUSTOM_UNKNOWN = 21, /* caveat.custom.unknown: a custom caveat, which never holds */
    BHINORPA_CAV_CBOR = 31,              /* cav.cbor: narrow's caveat is malformed, or not one alone */
    BHINORPA_CAV_BOUNDS = 32,            /* cav.bounds: something in narrow's caveat is out of its range */
    BHINORPA_CAV_UNKNOWN = 33,           /* cav.unknown: an unknown key or kind of caveat */
    BHINORPA_CAV_FULL = 34,              /* cav.full: the token has 64 caveats already */
    BHINORPA_SIZE_FULL = 35,             /* size.full: the narrowed token would have over 4,096 bytes */
    BHINORPA_OUT_SHORT = 36,             /* out.short: the room is shorter than the text */
    BHINORPA_HASH_BAD = 37               /* hash.bad: a message over 8,192 bytes, or a key not of 32 */
};

/* The name that stands for an answer in logs, by its number; "?" for a number that no answer has. 0 has two
 * names, and "allow" is given. Where nothing calls this, it takes no room in the firmware. */
static inline const char *bhinorpa_name(uint32_t answer)
{
    switch (answer) {
    case BHINORPA_ALLOW: return "allow";
    case BHINORPA_TABLE_BAD: return "table.bad";
    case BHINORPA_CTX_BAD: return "ctx.bad";
    case BHINORPA_PARSE_B64: return "parse.b64";
    case BHINORPA_PARSE_CBOR: return "parse.cbor";
    case BHINORPA_PARSE_BOUNDS: return "parse.bounds";
    case BHINORPA_SCHEMA_UNKNOWN_FIELD: return "schema.unknown_field";
    case BHINORPA_KID_UNKNOWN: return "kid.unknown";
    case BHINORPA_MAC_MISMATCH: return "mac.mismatch";
    case BHINORPA_TENANT_MISMATCH: return "tenant.mismatch";
    case BHINORPA_CAVEAT_METHOD: return "caveat.method";
    case BHINORPA_CAVEAT_PATH: return "caveat.path";
    case BHINORPA_CAVEAT_BYTES: return "caveat.bytes";
    case BHINORPA_CAVEAT_EXP: return "caveat.exp";
    case BHINORPA_CAVEAT_NBF: return "caveat.nbf";
    case BHINORPA_CAVEAT_AUD: return "caveat.aud";
    case BHINORPA_CAVEAT_IP: return "caveat.ip";
    case BHINORPA_CAVEAT_RATE: return "caveat.rate";
    case BHINORPA_CAVEAT_TENANT: return "caveat.tenant";
    case BHINORPA_CAVEAT_AMNESIA: return "caveat.amnesia";
    case BHINORPA_CAVEAT_POLICY_DIGEST: return "caveat.policy_digest";
    case BHINORPA_CAVEAT_CUSTOM_UNKNOWN: return "caveat.custom.unknown";
    case BHINORPA_CAV_CBOR: return "cav.cbor";
    case BHINORPA_CAV_BOUNDS: return "cav.bounds";
    case BHINORPA_CAV_UNKNOWN: return "cav.unknown";
    case BHINORPA_CAV_FULL: return "cav.full";
    case BHINORPA_SIZE_FULL: return "size.full";
    case BHINORPA_OUT_SHORT: return "out.short";
    case BHINORPA_HASH_BAD: return "hash.bad";
    default: return "?";
    }
}

/* What goes in, byte by byte: a key table, a request body, a bundle. Parts stand one behind the other,
 * without gaps. A number is little-endian, its lowest byte first. A text is ASCII without an ending zero; an
 * id, which tid, kid and tenant are, is 1 to 64 letters of either case, digits, "-", "." and "_". */
#define BHINORPA_ID_MAX 64

/* A key table: 0 to 64 records and nothing else. A record, with t and k for the lengths of its ids:
 *
 *   at      width  what
 *   0       2      how many bytes follow the kind: 34 + t + k
 *   2       2      the kind: BHINORPA_KIND_KEY
 *   4       1      t, 1 to 64
 *   5       t      tid
 *   5+t     1      k, 1 to 64
 *   6+t     k      kid
 *   6+t+k   32     the key
 *
 * Records ascend by the bytes of tid, and where these are equal by those of kid; a text comes before any
 * longer one that begins with it. No two records have both ids in common. Anything else is
 * BHINORPA_TABLE_BAD, whichever record it is in and whichever one is asked for. */
#define BHINORPA_KIND_KEY 1
#define BHINORPA_KEY_SIZE 32
#define BHINORPA_TABLE_MAX (64 * (6 + 2 * BHINORPA_ID_MAX + BHINORPA_KEY_SIZE)) /* 10,624 bytes */

/* A request body. What is flagged comes in this order, which is not that of the flags' bits; what is not
 * flagged takes no bytes:
 *
 *   at      width  what                                                             only with the flag
 *   0       8      now: the time, in seconds since 1970
 *   8       8      how many bytes the body has that is sent along
 *   16      2      skew: how many seconds the clock may be off, 0 to 300
 *   18      1      flags: the sum of those that apply; bits 5 to 7 are zero
 *   19      4      the peer's IPv4 address, as written: 10.1.2.3 is 0a 01 02 03     BHINORPA_FLAG_PEER
 *   then    64     the policy digest: 64 digits, 0 to 9 and a to f                  BHINORPA_FLAG_DIGEST
 *   then    4      per_s of the rate, any number                                    BHINORPA_FLAG_RATE
 *   then    4      burst of the rate, any number                                    BHINORPA_FLAG_RATE
 *   then    2 + n  n, 1 to 16, and the method: letters A to Z
 *   then    2 + n  n, 1 to 1,024, and the path: bytes 0x21 to 0x7e, the first "/" (see below)
 *   then    2 + n  n, 1 to 64, and the tenant: an id
 *   then    2 + n  n, 1 to 128, and the audience: bytes 0x21 to 0x7e                BHINORPA_FLAG_AUDIENCE
 *
 * A path has no "%", no "//" and no segment "." or "..", which proxies would rewrite: one that has is
 * BHINORPA_CTX_BAD here, and as a prefix BHINORPA_PARSE_CBOR in a token or a scope and BHINORPA_CAV_CBOR in
 * narrow's caveat. /.a, /... and /a/ are fine. Hand over the path as it came, and mend nothing in it.
 *
 * Nothing follows. BHINORPA_FLAG_AMNESIA says that the host is in amnesia mode, and has no bytes of its own.
 * A caveat that asks for a part that is not there does not hold. Anything else than the above is
 * BHINORPA_CTX_BAD, also where no caveat asks for the part that is wrong. */
#define BHINORPA_FLAG_AMNESIA 1
#define BHINORPA_FLAG_PEER 2
#define BHINORPA_FLAG_AUDIENCE 4
#define BHINORPA_FLAG_DIGEST 8
#define BHINORPA_FLAG_RATE 16
#define BHINORPA_SKEW_MAX 300
#define BHINORPA_METHOD_MAX 16
#define BHINORPA_PATH_MAX 1024
#define BHINORPA_AUDIENCE_MAX 128
#define BHINORPA_REQUEST_MAX /* 1,335 bytes */ \
    (19 + 4 + 64 + 8 + (2 + BHINORPA_METHOD_MAX) + (2 + BHINORPA_PATH_MAX) + (2 + BHINORPA_ID_MAX) \
     + (2 + BHINORPA_AUDIENCE_MAX))

/* A bundle: records, of 65,536 bytes together at most. It is for the program that tools/judge builds, which
 * reads it from standard input; no function here takes one.
 *
 *   at      width  what
 *   0       2      n, how many bytes follow the kind
 *   2       2      the kind: BHINORPA_KIND_TABLE, BHINORPA_KIND_REQUEST or BHINORPA_KIND_TOKEN
 *   4       n      a key table, a request body or a token's text, just as bhinorpa_verify takes it
 *
 * Each token is judged by the last table and the last request before it and gives one line, "allow" or
 * "deny " and the reason's name. Before any table, the table is empty; before any request, the request is
 * taken as malformed. A record that is cut or of another kind gives the line "bundle.bad" and is the last
 * that is looked at; a bundle that is too long gives that line alone. */
#define BHINORPA_KIND_TABLE 16
#define BHINORPA_KIND_REQUEST 32
#define BHINORPA_KIND_TOKEN 48
#define BHINORPA_BUNDLE_MAX 65536

/* How many characters a token's text has at most, and that of a token without caveats: a room of as many
 * bytes is always enough. */
#define BHINORPA_TEXT_MAX 5462
#define BHINORPA_FRESH_TEXT_MAX 1003

/* How many bytes a message has at most that is to be hashed, and how many a hash has. */
#define BHINORPA_MESSAGE_MAX 8192
#define BHINORPA_HASH_SIZE 32

/* How many bytes of stack to have free for a call, its arguments and all that it calls included. These are
 * measured and rounded up, not proved: host/stack/stack.c, which tools/check-c runs, calls each function on
 * a stack filled with one byte, with the longest, the deepest and the most of everything, and looks how far
 * down that byte was overwritten. On x86-64 these were 7,144 bytes for verify, 1,784 for issue, 11,048 for
 * narrow and 2,280 for the hash. What is not the library's comes on top: an interrupt that runs on the same
 * stack, and a loader that looks for memcpy at its first call only. */
#define BHINORPA_VERIFY_STACK 8192
#define BHINORPA_ISSUE_STACK 3072
#define BHINORPA_NARROW_STACK 12288
#define BHINORPA_KEYED_HASH_STACK 3072

/* Whether a token allows a request: BHINORPA_ALLOW, or the first reason that it does not, BHINORPA_TABLE_BAD
 * to BHINORPA_CAVEAT_CUSTOM_UNKNOWN. Grant on 0 and on nothing else.
 *
 *   table    the key table: its records one behind the other, as they are stored. It may be empty.
 *   request  the request body, made by the firmware for the call at hand.
 *   token    the token's text as it came in, without an ending zero, newline or padding. Up to 5,462
 *            characters (BHINORPA_TEXT_MAX) are read; a longer text is BHINORPA_PARSE_BOUNDS, whatever it
 *            holds.
 *
 * Reasons are looked for in the order of their numbers up to 12, but for a text that is too long, which
 * comes before BHINORPA_PARSE_B64, and for the first defect of the token, which is 4, 5 or 6 by what it
 * is; then come the caveats in the token's order, each with its own number.
 *
 * A prefix, the scope's or that of a path_prefix caveat, fits the path that it is, and a path that begins
 * with it where a "/" is the prefix's last byte or the path's next one. So /relay/1 fits /relay/1 and
 * /relay/1/count, but not /relay/12; /relay/1/ does not fit /relay/1; / fits every path. Bytes are compared
 * as they are: to the library, ? and # are bytes of a path like others.
 *
 * The call keeps nothing from one time to the next and only reads the three ranges. It looks at no clock:
 * the time is what the request says, and a rate is compared with the one that the request states, not
 * counted. */
uint32_t bhinorpa_verify(const uint8_t *table, size_t table_length, const uint8_t *request,
                         size_t request_length, const uint8_t *token, size_t token_length);

struct bhinorpa_written {
    uint32_t answer; /* BHINORPA_DONE, or why nothing was written */
    uint32_t length; /* how many characters of text stand at the front of the room; 0 unless done */
};

/* Makes a token that has no caveats yet, and writes its text to the front of the room.
 *
 *   table    the key table, as for bhinorpa_verify.
 *   tid, kid the ids under which the table has the key that tags the token; they go into the token.
 *   scope    the bytes of one scope in deterministic CBOR: a map of prefix (may be absent), methods and
 *            max_bytes (may be absent), in that order, and nothing behind it. The prefix is a path as a
 *            request has it, of 1 to 256 bytes.
 *   room     where the text goes: Base64URL, without an ending zero or newline. 1,003 bytes are enough for
 *            every fresh token (BHINORPA_FRESH_TEXT_MAX), 5,462 for every text of this library
 *            (BHINORPA_TEXT_MAX); a room that is exactly as long as the text is enough, and one that is
 *            longer does no harm.
 *
 * Done: answer is BHINORPA_DONE, length the text's, and the bytes of the room behind the text are as they
 * were. Otherwise length is 0, the whole room is as it was, and answer is the first of: BHINORPA_TABLE_BAD;
 * the scope's first defect, 4, 5 or 6 by what it is, bytes left over being 4; BHINORPA_KID_UNKNOWN, also for
 * a tid or kid that no table may have; BHINORPA_OUT_SHORT.
 *
 * The same arguments give the same text each time. Whoever may call this with a table makes tokens for
 * every key in it, and the text is all that a caller of the module needs to show: hand it out with care. */
struct bhinorpa_written bhinorpa_issue(const uint8_t *table, size_t table_length, const uint8_t *tid,
                                       size_t tid_length, const uint8_t *kid, size_t kid_length,
                                       const uint8_t *scope, size_t scope_length, uint8_t *room,
                                       size_t room_length);

/* Makes a child of a token, with one caveat more behind those that it has, and writes the child's text to
 * the front of the room. The child allows exactly the requests that the token allows and for which the
 * caveat holds. That needs the key: a token's holder cannot narrow it without the table.
 *
 *   table    the key table, as for bhinorpa_verify.
 *   token    the text of the token to narrow, as for bhinorpa_verify. It stays good; nothing recalls it.
 *   caveat   the bytes of one caveat in deterministic CBOR: a map of t and v, in that order, and nothing
 *            behind it.
 *   room     where the child's text goes, as for bhinorpa_issue. 5,462 bytes are always enough. It must not
 *            be the bytes that the token lies in: no child is written over its parent.
 *
 * Done, and what is not written otherwise: as for bhinorpa_issue. The reasons, of which the first is the
 * answer: BHINORPA_TABLE_BAD; a text of over 5,462 characters, BHINORPA_PARSE_BOUNDS; BHINORPA_PARSE_B64;
 * the token's first defect, 4, 5 or 6 by what it is; BHINORPA_KID_UNKNOWN; BHINORPA_MAC_MISMATCH; the
 * caveat's first defect, BHINORPA_CAV_CBOR, BHINORPA_CAV_BOUNDS or BHINORPA_CAV_UNKNOWN by what it is, no
 * bytes and bytes left over being BHINORPA_CAV_CBOR; BHINORPA_CAV_FULL; BHINORPA_SIZE_FULL;
 * BHINORPA_OUT_SHORT. No request is asked for, so a token that has expired is narrowed like any other. */
struct bhinorpa_written bhinorpa_narrow(const uint8_t *table, size_t table_length, const uint8_t *token,
                                        size_t token_length, const uint8_t *caveat, size_t caveat_length,
                                        uint8_t *room, size_t room_length);

struct bhinorpa_hashed {
    uint32_t answer;                   /* BHINORPA_DONE or BHINORPA_HASH_BAD */
    uint8_t bytes[BHINORPA_HASH_SIZE]; /* the hash; 32 zero bytes where the answer is BHINORPA_HASH_BAD */
};

/* BLAKE3 in keyed mode, 32 bytes out, of a message of up to 8,192 bytes. */
struct bhinorpa_hashed bhinorpa_keyed_hash(const uint8_t *key, size_t key_length,
                                           const uint8_t *message, size_t message_length);

#ifdef __cplusplus
}
#endif

#endif
