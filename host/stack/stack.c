/* How much stack each function of the library takes: `stack FOLDER`, with the files that `samples` makes.
 * Each call runs on a stack of its own, filled with one byte beforehand; the lowest byte that has another
 * value afterwards, counted from the caller's frame, is how deep the call went. What is printed is the
 * deepest of all calls, and the status is 1 where that is more than the header says. */
#define _XOPEN_SOURCE 600
#include <stdint.h>
#include <stdio.h>
#include <stdlib.h>
#include <string.h>
#include <ucontext.h>

#include "../samples.h"
#include "bhinorpa.h"

/* What the functions are called with, set before each call. */
static struct bytes table;
static struct bytes request;
static struct bytes token;
static struct bytes part;
static uint8_t room[8200];

static uint8_t own_stack[1 << 18];
static uint8_t *top;
static ucontext_t caller;
static ucontext_t called;

/* Each notes where its frame ends and calls one function. What it takes itself, for arguments that go by the
 * stack, counts. */
static void call_verify(void)
{
    top = (uint8_t *)__builtin_frame_address(0);
    bhinorpa_verify(table.at, table.length, request.at, request.length, token.at, token.length);
}

static void call_issue(void)
{
    static const char tid[] = "tenant-1";
    static const char kid[] = "kid-2025-10";
    top = (uint8_t *)__builtin_frame_address(0);
    bhinorpa_issue(table.at, table.length, (const uint8_t *)tid, sizeof tid - 1, (const uint8_t *)kid,
                   sizeof kid - 1, part.at, part.length, room, sizeof room);
}

static void call_narrow(void)
{
    top = (uint8_t *)__builtin_frame_address(0);
    bhinorpa_narrow(table.at, table.length, token.at, token.length, part.at, part.length, room, sizeof room);
}

static void call_keyed_hash(void)
{
    top = (uint8_t *)__builtin_frame_address(0);
    bhinorpa_keyed_hash(token.at, 32, room, part.length);
}

static size_t depth_over(void (*call)(void), uint8_t filling)
{
    size_t low = 0;
    memset(own_stack, filling, sizeof own_stack);
    if (getcontext(&called) != 0)
        abort();
    called.uc_stack.ss_sp = own_stack;
    called.uc_stack.ss_size = sizeof own_stack;
    called.uc_link = &caller;
    makecontext(&called, call, 0);
    if (swapcontext(&caller, &called) != 0)
        abort();
    while (own_stack[low] == filling)
        low++;
    return (size_t)(top - (own_stack + low));
}

/* A byte that is written may be the one that was there, so two fillings are tried. */
static size_t depth(void (*call)(void))
{
    size_t first = depth_over(call, 0xa5);
    size_t second = depth_over(call, 0x3c);
    return first > second ? first : second;
}

static const char *const tables[] = { "table", "table.cut", "table.empty" };
static const char *const requests[] = { "request", "request.late", "request.cut", "request.longest" };
static const char *const tokens[] = { "token", "token.empty", "token.forged", "token.long", "token.longest",
                                      "token.many", "token.deep", "token.wide" };
static const char *const scopes[] = { "scope", "scope.longest", "caveat.deep" };
static const char *const caveats[] = { "caveat", "caveat.deep", "caveat.longest", "scope" };

#define COUNT(list) (sizeof(list) / sizeof(list)[0])

static size_t more(size_t deepest, void (*call)(void))
{
    size_t now = depth(call);
    return now > deepest ? now : deepest;
}

static size_t of_verify(const char *folder)
{
    size_t deepest = 0, t, r, k;
    for (t = 0; t < COUNT(tables); t++)
        for (r = 0; r < COUNT(requests); r++)
            for (k = 0; k < COUNT(tokens); k++) {
                load(&table, folder, tables[t]);
                load(&request, folder, requests[r]);
                load(&token, folder, tokens[k]);
                deepest = more(deepest, call_verify);
            }
    return deepest;
}

static size_t of_issue(const char *folder)
{
    size_t deepest = 0, t, s;
    for (t = 0; t < COUNT(tables); t++)
        for (s = 0; s < COUNT(scopes); s++) {
            load(&table, folder, tables[t]);
            load(&part, folder, scopes[s]);
            deepest = more(deepest, call_issue);
        }
    return deepest;
}

static size_t of_narrow(const char *folder)
{
    size_t deepest = 0, t, k, c;
    for (t = 0; t < COUNT(tables); t++)
        for (k = 0; k < COUNT(tokens); k++)
            for (c = 0; c < COUNT(caveats); c++) {
                load(&table, folder, tables[t]);
                load(&token, folder, tokens[k]);
                load(&part, folder, caveats[c]);
                deepest = more(deepest, call_narrow);
            }
    return deepest;
}

static size_t of_keyed_hash(const char *folder)
{
    static const size_t lengths[] = { 0, 1, 64, 1024, 1025, 2048, 3000, 4096, 5000, 7169, 8192, 8193 };
    size_t deepest = 0, i;
    load(&token, folder, "table");
    for (i = 0; i < COUNT(lengths); i++) {
        part.length = lengths[i];
        deepest = more(deepest, call_keyed_hash);
    }
    return deepest;
}

static int told(const char *name, size_t measured, size_t stated)
{
    printf("%s: %lu bytes of stack of %lu\n", name, (unsigned long)measured, (unsigned long)stated);
    return measured <= stated;
}

int main(int argc, char **argv)
{
    int within = 1;
    if (argc != 2) {
        fputs("usage: stack FOLDER\n", stderr);
        return 2;
    }
    within &= told("bhinorpa_verify", of_verify(argv[1]), BHINORPA_VERIFY_STACK);
    within &= told("bhinorpa_issue", of_issue(argv[1]), BHINORPA_ISSUE_STACK);
    within &= told("bhinorpa_narrow", of_narrow(argv[1]), BHINORPA_NARROW_STACK);
    within &= told("bhinorpa_keyed_hash", of_keyed_hash(argv[1]), BHINORPA_KEYED_HASH_STACK);
    return within ? 0 : 1;
}
