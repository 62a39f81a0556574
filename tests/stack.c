/* How much stack the C calls use. A measurement, not a test; the gate does not run it:
 *
 *     scripts/archive
 *     gcc -O2 -Iinclude tests/stack.c target/staticlib/libgozimpe.a -o target/stack && target/stack
 *
 * Each call runs on a stack of its own that is painted first; what it has overwritten when it is back, less what a call that does
 * nothing overwrites, is printed. Frames have one size whatever the numbers are, so the catalogues only choose the path. A first call
 * also has the loader's own frame, which looks up memcpy and memset.
 */
#define _XOPEN_SOURCE 700
#include <inttypes.h>
#include <stdio.h>
#include <stdlib.h>
#include <string.h>
#include <ucontext.h>

#include "gozimpe.h"

enum { STACK = 1 << 20, PAINT = 0xC7 };

static ucontext_t here, there;
static uint8_t *store, *answer, request[2048];
static const char *catalogue;
static size_t store_len, request_len, room, kept;
static int64_t result;

static void nothing(void) { result = 0; }
static void answering(void) {
    result = gozimpe_answer((const uint8_t *)catalogue, strlen(catalogue), 2026, 11, 16, 0, store, store_len, request, request_len, answer, room);
}
static void correcting(void) {
    result = gozimpe_correct((const uint8_t *)catalogue, strlen(catalogue), 0, store, store_len, request, request_len, answer, kept,
                             0, 0, 1, (uint8_t)(store[1] + 1));
}
static void correcting_answer(void) {
    result = gozimpe_correct_answer((const uint8_t *)catalogue, strlen(catalogue), 0, store, store_len, request, request_len, answer, kept,
                                    0, 0, 1, (uint8_t)(store[1] + 1));
}
static void longest(void) { result = gozimpe_longest_answer((const uint8_t *)catalogue, strlen(catalogue)); }

/* the bytes of a painted stack that the call has overwritten */
static size_t used(void (*call)(void)) {
    uint8_t *stack = malloc(STACK);
    size_t low = 0;
    memset(stack, PAINT, STACK);
    getcontext(&there);
    there.uc_stack.ss_sp = stack;
    there.uc_stack.ss_size = STACK;
    there.uc_link = &here;
    makecontext(&there, call, 0);
    swapcontext(&here, &there);
    while (low < STACK && stack[low] == PAINT) low++;
    free(stack);
    return STACK - low;
}

static void measure(const char *what, void (*call)(void)) {
    size_t none = used(nothing), first = used(call) - none, later = used(call) - none;
    call();
    printf("%-32s result %8" PRId64 "   stack: first call %5zu, later %5zu bytes\n", what, result, first, later);
}

/* both corrections, with an answer as long as the last call that was answered gave */
static void corrections(const char *code) {
    char what[64];
    answering();
    kept = result < 0 ? 0 : (size_t)result;
    snprintf(what, sizeof what, "correct, %s", code);
    measure(what, correcting);
    snprintf(what, sizeof what, "correct answer, %s", code);
    measure(what, correcting_answer);
}

int main(void) {
    store = calloc(1, 1 << 24), answer = calloc(1, 1 << 21), room = 1 << 21;
    catalogue = "code=short\nmirrors=16\npacks=32\npiece=4096\n", store_len = (size_t)32 * 15 * 4096, request_len = 32;
    request[0] = 1, request[1] = 15;
    measure("answer, short 16 32 4096", answering);
    measure("longest answer, short", longest);
    catalogue = "code=short\nmirrors=16\npacks=32\npiece=4096\nsum=add\n";
    measure("answer, short 16 32 4096 add", answering);
    corrections("short add");
    catalogue = "code=short\nmirrors=16\npacks=32\npiece=4096\nopen=2026-03-01\nclose=2027-03-01\n";
    measure("answer, short 16 32 4096 season", answering);
    corrections("short season");
    static char measured[1024] = "code=short\nmirrors=16\npacks=32\npiece=4096\n";
    for (int k = 0; k < 32; k++) strcat(measured, "length=61439\n");
    catalogue = measured;
    measure("answer, short 16 32 4096 lengths", answering);
    corrections("short lengths");
    catalogue = "code=turn\nmirrors=16\npacks=32\npiece=4096\n";
    measure("answer, turn 16 32 4096", answering);
    measure("longest answer, turn", longest);
    corrections("turn");
    catalogue = "code=even\nmirrors=2\npacks=8\npiece=4096\n", store_len = (size_t)8 * 256 * 4096, request_len = 1024;
    int next[8] = {0};
    size_t at = 0;
    for (int block = 1; block <= 8; block++)
        for (int set = 255; set > 0; set--)
            for (int p = 0; __builtin_popcount((unsigned)set) == block && p < 8; p++)
                if (set >> (7 - p) & 1) request[at++] = (uint8_t)next[p]++;
    measure("answer, even 2 8 4096", answering);
    measure("longest answer, even", longest);
    corrections("even");
    catalogue = "code=even\nmirrors=2\npacks=8\npiece=4096\nsum=add\n";
    measure("answer, even 2 8 4096 add", answering);
    corrections("even add");
    request[1023] = request[1022 - 8];
    measure("answer refused, even 2 8 4096", answering);
    catalogue = "code=round\nmirrors=2\npacks=7\npiece=4096\n", store_len = (size_t)7 * 64 * 4096, request_len = 448;
    for (int row = 0; row < 64; row++)
        for (int p = 0; p < 7; p++) request[row * 7 + p] = (uint8_t)(p < 6 ? row >> p & 1 : __builtin_popcount((unsigned)row) & 1);
    measure("answer, round 2 7 4096", answering);
    measure("longest answer, round", longest);
    corrections("round");
    catalogue = "code=round\nmirrors=2\npacks=7\npiece=4096\nsum=add\n";
    measure("answer, round 2 7 4096 add", answering);
    corrections("round add");
    free(store), free(answer);
    return 0;
}
