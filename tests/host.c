/* Runs the real archive from C: the bench cards B2 to B6, all codes in both sums against a plain reference, every refusal from both sides
 * of its condition, and buffers of exact, longer and shorter length. Every buffer lies between guard bytes; with the argument
 * `exact` each is an allocation of just its length instead, so that valgrind sees every byte outside. A call with buffers of
 * length 0 is made once for each choice of those whose pointer is NULL, none and all of them included. Catalogues without a season are
 * asked on days of every kind, real or not. Whatever a catalogue without lengths gives, it has to give with lengths of every kind, too.
 * host_round.c has what is the round code's alone, host_correct.c the calls that correct a byte.
 */
#define _DEFAULT_SOURCE
#include <inttypes.h>
#include <stdio.h>
#include <stdlib.h>
#include <string.h>
#include <time.h>

#include "gozimpe.h"
#include "host.h"

enum { GUARD = 64, FILL = 0xA5 };

static int exact, checks, failures;

struct day {
    uint32_t year, month, day;
};

/* the day of the calls; where `any_day` is set, another one of these for each */
static struct day today;
static int any_day = 1;
static const struct day days[] = {{0, 0, 0}, {2024, 2, 29}, {2023, 2, 29}, {1999, 12, 31}, {2400, 1, 1}, {UINT32_MAX, UINT32_MAX, UINT32_MAX}, {2024, 13, 1}, {20240, 1, 1}};

/* what a call is made with, where the words for it do not say so */
static const char *beside = "";

void expect(int ok, const char *what, long detail) {
    checks++;
    if (ok) return;
    failures++;
    printf("FAILED: %s%s (%ld)\n", what, beside, detail);
}

/* ---- guarded buffers */

struct buffer make(size_t length, const void *from) {
    struct buffer b;
    size_t guard = exact ? 0 : GUARD;
    b.base = malloc(length + 2 * guard + (exact && length == 0));
    if (b.base == NULL) exit(2);
    memset(b.base, FILL, length + 2 * guard);
    b.at = b.base + guard;
    b.length = length;
    if (from != NULL) memcpy(b.at, from, length);
    return b;
}

int guarded(const struct buffer *b) {
    if (exact) return 1;
    for (size_t i = 0; i < GUARD; i++)
        if (b->base[i] != FILL || b->at[b->length + i] != FILL) return 0;
    return 1;
}

/* ---- one call, with all buffers watched; the answer's expected bytes, or nothing written where `want` is a refusal or empty */

enum { CATALOGUE = 1, STORE = 2, REQUEST = 4, ANSWER = 8 };

static uint8_t *pointer(const struct buffer *b, unsigned nulls, unsigned which) {
    return nulls & which ? NULL : b->at;
}

static void once(const char *what, const char *catalogue, size_t catalogue_len, uint64_t mirror, const uint8_t *store, size_t store_len,
                 const uint8_t *request, size_t request_len, size_t room, int64_t want, const uint8_t *bytes, unsigned nulls) {
    struct buffer c = make(catalogue_len, catalogue), s = make(store_len, store), q = make(request_len, request), a = make(room, NULL);
    static size_t turn;
    struct day on = any_day ? days[turn++ % (sizeof days / sizeof *days)] : today;
    int64_t got = gozimpe_answer(pointer(&c, nulls, CATALOGUE), c.length, on.year, on.month, on.day, mirror, pointer(&s, nulls, STORE), s.length,
                                 pointer(&q, nulls, REQUEST), q.length, pointer(&a, nulls, ANSWER), a.length);
    size_t written = want > 0 ? (size_t)want : 0;
    expect(got == want, what, (long)got);
    if (got == want) {
        expect(written == 0 || memcmp(a.at, bytes, written) == 0, what, -100);
        size_t past = written;
        while (past < room && a.at[past] == FILL) past++;
        expect(past == room, what, -101);
    }
    expect(guarded(&c) && guarded(&s) && guarded(&q) && guarded(&a), what, -102);
    expect(memcmp(c.at, catalogue, catalogue_len) == 0 && (store_len == 0 || memcmp(s.at, store, store_len) == 0)
               && (request_len == 0 || memcmp(q.at, request, request_len) == 0), what, -103);
    free(c.base), free(s.base), free(q.base), free(a.base);
}

static void each(const char *what, const char *catalogue, size_t catalogue_len, uint64_t mirror, const uint8_t *store, size_t store_len,
                 const uint8_t *request, size_t request_len, size_t room, int64_t want, const uint8_t *bytes) {
    unsigned empty = (catalogue_len == 0 ? CATALOGUE : 0u) | (store_len == 0 ? STORE : 0u) | (request_len == 0 ? REQUEST : 0u)
                     | (room == 0 ? ANSWER : 0u);
    for (unsigned nulls = 0; nulls <= empty; nulls++)
        if ((nulls & ~empty) == 0)
            once(what, catalogue, catalogue_len, mirror, store, store_len, request, request_len, room, want, bytes, nulls);
}

/* ---- lines `length=`, one for each pack */

enum { MOST_LINES = 64, MOST_LENGTH = 9999999 };

/* lengths of K packs: all 1, all whole, all about the half, from 1 up to the whole; and the faults 0 and one above the whole */
enum kind { ONES, WHOLES, HALVES, RISING, KINDS, NOUGHTS = KINDS, ABOVE };

static long length_of(enum kind kind, int p, int k, long whole) {
    switch (kind) {
    case ONES: return 1;
    case WHOLES: return whole;
    case HALVES: return (whole + 1) / 2;
    case RISING: return k < 2 ? whole : 1 + (whole - 1) * p / (k - 1);
    case ABOVE: return whole + 1;
    default: return 0;
    }
}

/* the bytes of a pack, padding included: pieces x S; of numbers out of bounds, something that a line can hold, and one more, too */
static long whole_pack(const char *code, int n, int k, int s) {
    const int factors = code[0] == 'e' ? k : code[0] == 'r' ? k - 1 : 0;
    long whole = code[0] == 'e' ? 1 : n - 1;
    for (int i = 0; i < factors && whole < MOST_LENGTH; i++) whole *= n;
    whole *= s;
    return whole < 1 ? 1 : whole < MOST_LENGTH ? whole : MOST_LENGTH - 1;
}

/* writes the lines of the packs `from` to `to` - 1, and hands back the place behind them */
static char *put_lengths(char *at, enum kind kind, int from, int to, int k, long whole) {
    for (int p = from; p < to; p++) at += sprintf(at, "length=%ld\n", length_of(kind, p, k, whole));
    return at;
}

/* where this is set, every call is made once more with lengths behind the catalogue: the next kind of them each time, and nothing may change */
int lengths_too = 1;

/* the text with a line for each pack behind it, and its length; 0 if it does not say how many packs there are, or none, or too many */
size_t with_lengths(char *out, const char *catalogue, size_t length) {
    static unsigned turn;
    char code[6];
    int n, k, s;
    if (!lengths_too || sscanf(catalogue, "code=%5[a-z]\nmirrors=%d\npacks=%d\npiece=%d", code, &n, &k, &s) != 4) return 0;
    if (k < 1 || k > MOST_LINES) return 0;
    memcpy(out, catalogue, length);
    return (size_t)(put_lengths(out + length, (enum kind)(turn++ % KINDS), 0, k, k, whole_pack(code, n, k, s)) - out);
}

void call(const char *what, const char *catalogue, size_t catalogue_len, uint64_t mirror, const uint8_t *store, size_t store_len,
          const uint8_t *request, size_t request_len, size_t room, int64_t want, const uint8_t *bytes) {
    char lined[MOST_TEXT];
    size_t lined_len = with_lengths(lined, catalogue, catalogue_len);
    each(what, catalogue, catalogue_len, mirror, store, store_len, request, request_len, room, want, bytes);
    if (lined_len == 0) return;
    beside = ", with lengths";
    each(what, lined, lined_len, mirror, store, store_len, request, request_len, room, want, bytes);
    beside = "";
}

static void longest_once(const char *what, const char *catalogue, size_t length, int64_t want) {
    struct buffer c = make(length, catalogue);
    expect(gozimpe_longest_answer(c.at, length) == want, what, -104);
    if (length == 0) expect(gozimpe_longest_answer(NULL, 0) == want, what, -105);
    expect(guarded(&c) && memcmp(c.at, catalogue, length) == 0, what, -106);
    free(c.base);
}

void longest(const char *what, const char *catalogue, size_t length, int64_t want) {
    char lined[MOST_TEXT];
    size_t lined_len = with_lengths(lined, catalogue, length);
    longest_once(what, catalogue, length, want);
    if (lined_len == 0) return;
    beside = ", with lengths";
    longest_once(what, lined, lined_len, want);
    beside = "";
}

void text(char *out, const char *code, int n, int k, int s, int add) {
    sprintf(out, "code=%s\nmirrors=%d\npacks=%d\npiece=%d\n%s", code, n, k, s, add ? "sum=add\n" : "");
}

/* ---- the reference: the combined pieces of a request, by the rules */

static uint32_t state = 1;
unsigned draw(unsigned below) {
    state = state * 1664525u + 1013904223u;
    return (state >> 8) % below;
}

int power(int n, int k) {
    int r = 1;
    while (k-- > 0) r *= n;
    return r;
}

/* one piece more: by exclusive or, or as a long row of bytes to be added, whose carry is dropped behind every second byte */
void add_piece(uint8_t *to, const uint8_t *store, size_t number, int s, int add) {
    const uint8_t *piece = store + number * (size_t)s;
    unsigned carry = 0;
    for (int i = 0; i < s; i++) {
        unsigned sum = to[i] + piece[i] + (i % 2 == 1 ? carry : 0u);
        carry = sum >> 8;
        to[i] = add ? (uint8_t)sum : (uint8_t)(to[i] ^ piece[i]);
    }
}

struct walk {
    int n, k, s, add, rows, at;
    const uint8_t *store, *request;
    uint8_t *answer;
};

/* the sets of `left` packs from `from` on, lexicographically, `chosen` already in the list; each has (n-1)^(size-1) rows */
static void sets(struct walk *w, int *list, int chosen, int from, int left) {
    if (left == 0) {
        for (int r = power(w->n - 1, chosen - 1); r > 0; r--) {
            uint8_t *to = w->answer + (size_t)w->rows++ * (size_t)w->s;
            memset(to, 0, (size_t)w->s);
            for (int i = 0; i < chosen; i++) add_piece(to, w->store, (size_t)(list[i] * power(w->n, w->k)) + w->request[w->at++], w->s, w->add);
        }
        return;
    }
    for (int p = from; p + left <= w->k; p++) {
        list[chosen] = p;
        sets(w, list, chosen + 1, p + 1, left - 1);
    }
}

/* ---- the codes over rows of digits: short and turning */

/* whether a mirror admits a row with this sum: in the turning code every one does, in the short code the one of its remainder */
static int admits(const char *code, int n, uint64_t mirror, unsigned total) {
    return code[0] == 't' || mirror == total % (unsigned)n;
}

/* the answer to a row, from zeros; its sum */
static unsigned row_answer(uint8_t *answer, const uint8_t *store, const uint8_t *row, int n, int k, int s, int add) {
    unsigned total = 0;
    memset(answer, 0, (size_t)s);
    for (int p = 0; p < k; p++) {
        total += row[p];
        if (row[p] > 0) add_piece(answer, store, (size_t)(p * (n - 1) + row[p] - 1), s, add);
    }
    return total;
}

/* a row at each mirror, or of large pieces at the first, the last and one that admits it: answered with so many bytes, or refused 7 */
static void at_mirrors(const char *what, const char *code, const char *cat, int n, int s, const uint8_t *store, size_t store_len, const uint8_t *row, int k,
                       unsigned total, size_t room, int64_t want, const uint8_t *answer) {
    for (uint64_t m = 0; m < (uint64_t)n; m++) {
        if (s > 64 && m > 0 && m + 1 < (uint64_t)n && m != total % (unsigned)n) continue;
        call(what, cat, strlen(cat), m, store, store_len, row, (size_t)k, room, admits(code, n, m, total) ? want : -7, answer);
    }
}

static void rows(const char *code, int n, int k, int s, int add) {
    static const uint8_t zeros[32] = {0};
    size_t store_len = (size_t)(k * (n - 1) * s), room = (size_t)s;
    uint8_t *store = malloc(store_len), *answer = malloc(room), request[33];
    char cat[64];
    if (store == NULL || answer == NULL) exit(2);
    for (size_t i = 0; i < store_len; i++) store[i] = (uint8_t)draw(256);
    for (int p = 0; p < k; p++) request[p] = (uint8_t)draw((unsigned)n);
    unsigned total = row_answer(answer, store, request, n, k, s, add);
    int some = total > 0;
    uint64_t mirror = code[0] == 't' ? draw((unsigned)n) : total % (unsigned)n;
    text(cat, code, n, k, s, add);
    size_t cat_len = strlen(cat);
    int64_t len = some ? s : 0;
    longest("row: longest", cat, cat_len, s);
    at_mirrors("row: exact", code, cat, n, s, store, store_len, request, k, total, room, len, answer);
    at_mirrors("row: zeros", code, cat, n, s, store, store_len, zeros, k, 0, room, 0, NULL);
    at_mirrors("row: zeros, no room", code, cat, n, s, store, store_len, zeros, k, 0, 0, 0, NULL);
    call("row: longer", cat, cat_len, mirror, store, store_len, request, (size_t)k, room + 9, len, answer);
    call("row: room one short", cat, cat_len, mirror, store, store_len, request, (size_t)k, room - 1, some ? -9 : 0, answer);
    call("row: mirror N", cat, cat_len, (uint64_t)n, store, store_len, request, (size_t)k, room, -3, NULL);
    call("row: mirror 2^64-1", cat, cat_len, UINT64_MAX, store, store_len, request, (size_t)k, room, -3, NULL);
    call("row: request one short", cat, cat_len, mirror, store, store_len, request, (size_t)k - 1, room, -7, NULL);
    request[k] = 0;
    call("row: request one long", cat, cat_len, mirror, store, store_len, request, (size_t)k + 1, room, -7, NULL);
    call("row: store one short", cat, cat_len, mirror, store, store_len - 1, request, (size_t)k, room, -8, NULL);
    call("row: zeros, store one short", cat, cat_len, code[0] == 't' ? mirror : 0, store, store_len - 1, zeros, (size_t)k, room, -8, NULL);
    call("row: no store", cat, cat_len, mirror, NULL, 0, request, (size_t)k, room, -8, NULL);
    request[0] = (uint8_t)(request[0] + n);
    call("row: digit N or more", cat, cat_len, mirror, store, store_len, request, (size_t)k, room, -7, NULL);
    free(store), free(answer);
}

/* every row of K digits up to N at every mirror, N being one too large; without lengths, which are behind the rows above */
static void every_row(const char *code, int n, int k, int add) {
    const int s = 1 + add;
    uint8_t store[256], answer[2] = {0}, row[8];
    char cat[64];
    size_t store_len = (size_t)(k * (n - 1) * s);
    for (size_t i = 0; i < store_len; i++) store[i] = (uint8_t)draw(256);
    text(cat, code, n, k, s, add);
    lengths_too = 0;
    for (int number = 0; number < power(n + 1, k); number++) {
        int left = number, large = 0;
        for (int p = 0; p < k; p++, left /= n + 1) {
            row[p] = (uint8_t)(left % (n + 1));
            large |= row[p] == n;
        }
        unsigned total = large ? 0 : row_answer(answer, store, row, n, k, s, add);
        for (uint64_t m = 0; m < (uint64_t)n; m++)
            call("every row", cat, strlen(cat), m, store, store_len, row, (size_t)k, (size_t)s, large || !admits(code, n, m, total) ? -7 : total > 0 ? s : 0, answer);
    }
    lengths_too = 1;
}

/* ---- the even code */

/* a request of the even code, with the pack at each of its positions; its length */
int even_request(int n, int k, uint8_t *request, int *packs) {
    int m = power(n, k), cell = 0, next[8] = {0};
    uint8_t order[8][256];
    for (int p = 0; p < k; p++) {
        for (int i = 0; i < m; i++) order[p][i] = (uint8_t)i;
        for (int i = m - 1; i > 0; i--) {
            int j = (int)draw((unsigned)i + 1);
            uint8_t t = order[p][i];
            order[p][i] = order[p][j], order[p][j] = t;
        }
    }
    /* the pack at each position: a walk that only counts */
    for (int b = 1; b <= k; b++)
        for (int x = (1 << k) - 1; x >= 0; x--) { /* pack 0 as the highest bit, descending: lexicographic */
            if (__builtin_popcount((unsigned)x) != b) continue;
            for (int r = power(n - 1, b - 1); r > 0; r--)
                for (int p = 0; p < k; p++)
                    if (x >> (k - 1 - p) & 1) packs[cell++] = p;
        }
    for (int i = 0; i < cell; i++) request[i] = order[packs[i]][next[packs[i]]++];
    return cell;
}

static void even(int n, int k, int s, int add) {
    int m = power(n, k), query = k * power(n, k - 1), list[8], packs[1024];
    size_t store_len = (size_t)(k * m * s);
    uint8_t *store = malloc(store_len), *answer = malloc(256u * (size_t)s), request[1024 + 1];
    char cat[64];
    for (size_t i = 0; i < store_len; i++) store[i] = (uint8_t)draw(256);
    int cells = even_request(n, k, request, packs);
    expect(cells == query, "even: positions", cells);
    struct walk w = {n, k, s, add, 0, 0, store, request, answer};
    for (int b = 1; b <= k; b++) sets(&w, list, 0, 0, b);
    size_t len = (size_t)(w.rows * s);
    text(cat, "even", n, k, s, add);
    size_t cat_len = strlen(cat);
    longest("even: longest", cat, cat_len, (int64_t)len);
    call("even: exact", cat, cat_len, (uint64_t)draw((unsigned)n), store, store_len, request, (size_t)query, len, (int64_t)len, answer);
    call("even: longer", cat, cat_len, 0, store, store_len, request, (size_t)query, len + 7, (int64_t)len, answer);
    call("even: room one short", cat, cat_len, 0, store, store_len, request, (size_t)query, len - 1, -9, NULL);
    call("even: request one short", cat, cat_len, 0, store, store_len, request, (size_t)query - 1, len, -7, NULL);
    request[query] = 0;
    call("even: request one long", cat, cat_len, 0, store, store_len, request, (size_t)query + 1, len, -7, NULL);
    call("even: store one short", cat, cat_len, 0, store, store_len - 1, request, (size_t)query, len, -8, NULL);
    uint8_t kept = request[query - 1];
    if (m < 256) {
        request[query - 1] = (uint8_t)m;
        call("even: number N^K", cat, cat_len, 0, store, store_len, request, (size_t)query, len, -7, NULL);
    }
    for (int i = 0; i < query - 1; i++)
        if (packs[i] == packs[query - 1]) {
            request[query - 1] = request[i];
            call("even: a number twice", cat, cat_len, 0, store, store_len, request, (size_t)query, len, -7, NULL);
            break;
        }
    request[query - 1] = kept;
    free(store), free(answer);
}

void refused_text(const char *what, const char *cat, size_t len, int64_t want) {
    uint8_t digit = 1, room[1];
    call(what, cat, len, 0, &digit, 1, &digit, 1, sizeof room, want, NULL);
    longest(what, cat, len, want);
    correct_text(what, cat, len, want);
}

static void catalogues(void) {
    static const char good[] = "code=short\nmirrors=2\npacks=2\npiece=1\n";
    static const char *bad[] = {
        "", "code=short\n", "code=short\nmirrors=2\npacks=2\npiece=1", "code=short\nmirrors=2\npacks=2\npiece=1\n\n",
        "code=short\nmirrors=02\npacks=2\npiece=1\n", "code=short\nmirrors=2\npacks=000002\npiece=1\n",
        "code=short\nmirrors=2\npacks=100000\npiece=1\n", "code=other\nmirrors=2\npacks=2\npiece=1\n",
        "code=turns\nmirrors=2\npacks=2\npiece=1\n", "code=tur\nmirrors=2\npacks=2\npiece=1\n", "code=Turn\nmirrors=2\npacks=2\npiece=1\n",
        "code=turn \nmirrors=2\npacks=2\npiece=1\n", "code=TURN\nmirrors=2\npacks=2\npiece=1\n", "code=turning\nmirrors=2\npacks=2\npiece=1\n",
        "code=rounds\nmirrors=2\npacks=2\npiece=1\n", "code=roun\nmirrors=2\npacks=2\npiece=1\n", "code=Round\nmirrors=2\npacks=2\npiece=1\n",
        "code=round \nmirrors=2\npacks=2\npiece=1\n", "code=ROUND\nmirrors=2\npacks=2\npiece=1\n", "code=around\nmirrors=2\npacks=2\npiece=1\n",
        "code=round\nmirrors=2\npacks=2\npiece=1", "code=round\nmirrors=2\npacks=1\npiece=1\n\n", "code=turn\ncode=round\nmirrors=2\npacks=2\npiece=1\n",
        "code=turn\nmirrors=2\npacks=2\npiece=1", "code=turn\nmirrors=2\npacks=1\npiece=1\n\n", "code=short\ncode=turn\nmirrors=2\npacks=2\npiece=1\n",
        "code=short\npacks=2\nmirrors=2\npiece=1\n", "code=short\nmirrors=\npacks=2\npiece=1\n", "code=short \nmirrors=2\npacks=2\npiece=1\n",
        "code=short\nmirrors=2\npacks=2\npiece=2\nsum=xor\n", "code=short\nmirrors=2\npacks=2\npiece=2\nsum=\n", "code=short\nmirrors=2\npacks=2\npiece=2\nsum=add",
        "code=short\nmirrors=2\npacks=2\npiece=2\nsum=add\nsum=add\n", "code=short\nmirrors=2\npacks=2\nsum=add\npiece=2\n",
        "code=short\nmirrors=2\npacks=2\npiece=1\nopen=2024-02-29\n", "code=short\nmirrors=2\npacks=2\npiece=1\nclose=2024-02-29\n",
        "code=short\nmirrors=2\npacks=2\npiece=1\nclose=2024-03-01\nopen=2024-02-29\n", "code=short\nmirrors=2\npacks=2\npiece=1\nopen=2023-02-29\nclose=2024-03-01\n",
        "code=short\nmirrors=2\npacks=2\npiece=1\nopen=2024-02-29\nclose=2024-3-01\n", "code=short\nmirrors=2\npacks=2\npiece=1\nopen=2024-02-29\nclose=2400-01-01\n",
        "code=short\nmirrors=2\npacks=2\npiece=2\nsum=add\nopen=2024-02-29\nclose=2024-03-01\n", "code=short\nmirrors=2\npacks=2\npiece=1\nopen=2024-02-29\nclose=2024-03-01",
        "code=short\nmirrors=2\npacks=1\npiece=1", "code=even\nmirrors=2\npacks=1\npiece=1\n\n", "code=short\nmirrors=2\npacks=01\npiece=1\n",
    };
    static const char *out[] = {
        "code=short\nmirrors=1\npacks=2\npiece=1\n", "code=short\nmirrors=17\npacks=2\npiece=1\n", "code=short\nmirrors=2\npacks=0\npiece=1\n",
        "code=short\nmirrors=2\npacks=33\npiece=1\n", "code=short\nmirrors=2\npacks=2\npiece=0\n", "code=short\nmirrors=2\npacks=2\npiece=4097\n",
        "code=short\nmirrors=1\npacks=1\npiece=1\n", "code=short\nmirrors=17\npacks=1\npiece=1\n", "code=even\nmirrors=2\npacks=1\npiece=0\n",
        "code=even\nmirrors=2\npacks=1\npiece=4097\n",
        "code=short\nmirrors=99999\npacks=99999\npiece=99999\n", "code=even\nmirrors=2\npacks=9\npiece=1\n", "code=even\nmirrors=3\npacks=6\npiece=1\n",
        "code=short\nmirrors=2\npacks=2\npiece=1\nopen=2024-02-29\nclose=2024-02-29\n", "code=short\nmirrors=2\npacks=2\npiece=1\nopen=2024-03-01\nclose=2024-02-29\n",
        "code=short\nmirrors=2\npacks=1\npiece=1\nopen=2024-10-01\nclose=2024-09-30\n", "code=even\nmirrors=2\npacks=2\npiece=1\nopen=2399-12-31\nclose=2000-01-01\nsum=add\n",
        "code=turn\nmirrors=1\npacks=2\npiece=1\n", "code=turn\nmirrors=17\npacks=2\npiece=1\n", "code=turn\nmirrors=2\npacks=0\npiece=1\n",
        "code=turn\nmirrors=2\npacks=33\npiece=1\n", "code=turn\nmirrors=2\npacks=2\npiece=0\n", "code=turn\nmirrors=2\npacks=2\npiece=4097\n",
        "code=turn\nmirrors=17\npacks=1\npiece=1\n", "code=turn\nmirrors=2\npacks=2\npiece=1\nopen=2024-02-29\nclose=2024-02-29\nsum=add\n",
        "code=even\nmirrors=6\npacks=4\npiece=1\n", "code=even\nmirrors=7\npacks=3\npiece=1\n", "code=even\nmirrors=16\npacks=3\npiece=1\n", "code=even\nmirrors=2\npacks=0\npiece=1\n",
    };
    for (size_t i = 0; i < sizeof bad / sizeof *bad; i++) refused_text(bad[i], bad[i], strlen(bad[i]), -1);
    for (size_t i = 0; i < sizeof out / sizeof *out; i++) refused_text(out[i], out[i], strlen(out[i]), -2);
    /* a byte 0 after the last line, and the first of the list where several apply */
    refused_text("a byte after the last line", good, sizeof good, -1);
    refused_text("1 before 2", "code=short\nmirrors=1\npacks=2\npiece=1\nx", 38, -1);
    uint8_t request[] = {0, 1}, store[] = {0x5A, 0xC3};
    call("2 before 3, 7, 8, 9", out[0], strlen(out[0]), 99, NULL, 0, NULL, 0, 0, -2, NULL);
    call("3 before 7, 8, 9", good, strlen(good), 2, NULL, 0, NULL, 0, 0, -3, NULL);
    call("7 before 8, 9", good, strlen(good), 1, NULL, 0, NULL, 0, 0, -7, NULL);
    call("8 before 9", good, strlen(good), 1, NULL, 0, request, 2, 0, -8, NULL);
    call("9", good, strlen(good), 1, store, 2, request, 2, 0, -9, NULL);
    static const char turn[] = "code=turn\nmirrors=2\npacks=2\npiece=1\n";
    for (uint64_t m = 0; m < 2; m++) {
        call("turn: 3 before 7, 8, 9", turn, strlen(turn), m + 2, NULL, 0, NULL, 0, 0, -3, NULL);
        call("turn: 7 before 8, 9", turn, strlen(turn), m, NULL, 0, NULL, 0, 0, -7, NULL);
        call("turn: 8 before 9", turn, strlen(turn), m, NULL, 0, request, 2, 0, -8, NULL);
        call("turn: 9", turn, strlen(turn), m, store, 2, request, 2, 0, -9, NULL);
    }
    /* every buffer of length 0, and each of them alone */
    call("all empty", "", 0, 0, NULL, 0, NULL, 0, 0, -1, NULL);
    call("no catalogue", "", 0, 0, store, 2, request, 2, 1, -1, NULL);
    call("no store", good, strlen(good), 1, NULL, 0, request, 2, 1, -8, NULL);
    call("no request", good, strlen(good), 1, store, 2, NULL, 0, 1, -7, NULL);
}

/* near misses of a code's first line: each byte changed to every other or left out, something before the name or behind it, the line elsewhere; and
 * the text cut off at each byte */
static void first_line(const char *code) {
    static const char rest[] = "mirrors=2\npacks=2\npiece=1\n";
    static const char *behind[] = {"s", " ", "\t", "\r", "\n", "=", "0", "ing", ",short", " even"}, *before[] = {" ", "\n", "=", "a", "code="};
    char cat[64], line[16];
    sprintf(line, "code=%s\n", code);
    const size_t first = strlen(line), len = first + strlen(rest);
    sprintf(cat, "%s%s", line, rest);
    for (size_t at = 0; at < len; at++) refused_text("cut off", cat, at, -1);
    for (size_t at = 0; at < first; at++) {
        for (int move = 1; move <= 255; move++) {
            cat[at] = (char)(line[at] ^ move);
            refused_text("first line: a byte changed", cat, len, -1);
        }
        cat[at] = line[at];
    }
    for (size_t at = 0; at < first; at++) {
        sprintf(cat, "%.*s%s%s", (int)at, line, line + at + 1, rest);
        refused_text("first line: a byte left out", cat, len - 1, -1);
    }
    for (size_t i = 0; i < sizeof behind / sizeof *behind; i++) {
        sprintf(cat, "code=%s%s\n%s", code, behind[i], rest);
        refused_text("first line: more behind the name", cat, strlen(cat), -1);
    }
    for (size_t i = 0; i < sizeof before / sizeof *before; i++) {
        sprintf(cat, "code=%s%s\n%s", before[i], code, rest);
        refused_text("first line: more before the name", cat, strlen(cat), -1);
    }
    sprintf(cat, "%s%s%s", line, line, rest);
    refused_text("first line: twice", cat, strlen(cat), -1);
    sprintf(cat, "%s%s", rest, line);
    refused_text("first line: last", cat, strlen(cat), -1);
}

/* a single pack, with what would be right for one: its own number, and before every other but 1 and 2 */
static void one_pack(const char *code, int n, int s) {
    char one[64];
    size_t store_len = (size_t)((code[0] == 'e' ? n : n - 1) * s);
    uint8_t *store = calloc(1, store_len), last = (uint8_t)(n - 1), wrong = 255;
    text(one, code, n, 1, s, 0);
    size_t len = strlen(one), room = (size_t)s;
    longest("17: longest", one, len, -17);
    call("17", one, len, last, store, store_len, &last, 1, room, -17, NULL);
    call("17 before 3", one, len, (uint64_t)n, store, store_len, &last, 1, room, -17, NULL);
    call("17 before 7", one, len, last, store, store_len, &wrong, 1, room, -17, NULL);
    call("17 before 7, by length", one, len, last, store, store_len, NULL, 0, room, -17, NULL);
    call("17 before 8", one, len, last, store, store_len - 1, &last, 1, room, -17, NULL);
    call("17 before 9", one, len, last, store, store_len, &last, 1, room - 1, -17, NULL);
    call("17 before 3, 7, 8, 9", one, len, UINT64_MAX, NULL, 0, NULL, 0, 0, -17, NULL);
    call("1 before 17", one, len - 1, last, store, store_len, &last, 1, room, -1, NULL);
    text(one, code, n, 1, s, 1);
    call("17 before 15", one, strlen(one), last, store, store_len, &last, 1, room, -17, NULL);
    text(one, code, 17, 1, s, 0);
    call("2 before 17", one, strlen(one), last, store, store_len, &last, 1, room, -2, NULL);
    free(store);
}

/* an odd piece where words are added, with what would be right for it: its own number, and before every other but 1, 2 and 17 */
static void odd_piece(const char *code, int n, int s) {
    char odd[64];
    const int even_code = code[0] == 'e', round_code = code[0] == 'r', rows = even_code ? n + 1 : round_code ? n : 1;
    size_t store_len = 2 * (size_t)whole_pack(code, n, 2, s), len, room = (size_t)(rows * s), asked = even_code || round_code ? 2 * (size_t)n : 2;
    uint8_t *store = calloc(1, store_len), request[64] = {0};
    for (int i = 0; i < 2 * n; i++) request[i] = (uint8_t)(i / 2);
    if (!even_code) request[0] = 1;
    if (round_code) round_list(request, n, 2, 1);
    uint64_t mirror = 1;
    text(odd, code, n, 2, s, 0);
    len = strlen(odd);
    longest("no 15 by exclusive or: longest", odd, len, (int64_t)room);
    text(odd, code, n, 2, s, 1);
    len = strlen(odd);
    longest("15: longest", odd, len, -15);
    call("15", odd, len, mirror, store, store_len, request, asked, room, -15, NULL);
    call("15 before 3", odd, len, (uint64_t)n, store, store_len, request, asked, room, -15, NULL);
    call("15 before 7, by length", odd, len, mirror, store, store_len, NULL, 0, room, -15, NULL);
    call("15 before 8", odd, len, mirror, store, store_len - 1, request, asked, room, -15, NULL);
    call("15 before 9", odd, len, mirror, store, store_len, request, asked, room - 1, -15, NULL);
    request[0] = 255;
    call("15 before 7", odd, len, mirror, store, store_len, request, asked, room, -15, NULL);
    call("15 before 3, 7, 8, 9", odd, len, UINT64_MAX, NULL, 0, NULL, 0, 0, -15, NULL);
    call("1 before 15", odd, len - 1, mirror, store, store_len, request, asked, room, -1, NULL);
    text(odd, code, 17, 2, s, 1);
    call("2 before 15", odd, strlen(odd), mirror, store, store_len, request, asked, room, -2, NULL);
    free(store);
}

/* single words: a carry into the high byte, the wrap at 65,536, no carry into the next word */
static void words(void) {
    static const char cat[] = "code=short\nmirrors=2\npacks=2\npiece=4\nsum=add\n";
    static const uint8_t both[] = {1, 1}, stores[][8] = {{255, 0, 1, 0, 1, 0, 2, 0}, {255, 255, 0, 0, 1, 0, 0, 0}, {255, 255, 255, 255, 255, 255, 255, 255},
                                                       {0, 128, 52, 18, 0, 128, 205, 171}};
    static const uint8_t sums[][4] = {{0, 1, 3, 0}, {0, 0, 0, 0}, {254, 255, 254, 255}, {0, 0, 1, 190}};
    for (size_t i = 0; i < sizeof sums / sizeof *sums; i++) call("words", cat, strlen(cat), 0, stores[i], 8, both, 2, 4, 4, sums[i]);
}

/* ---- seasons: by the days that the C library counts */

/* the seconds at the start of a day, or -1 for a day that is not of the calendar, which the library would move on to another */
static int64_t start_of(struct day d) {
    if (d.year < 2000 || d.year > 2399 || d.month > 99 || d.day > 99) return -1;
    struct tm tm = {.tm_year = (int)d.year - 1900, .tm_mon = (int)d.month - 1, .tm_mday = (int)d.day};
    int64_t at = (int64_t)timegm(&tm);
    return tm.tm_year == (int)d.year - 1900 && tm.tm_mon == (int)d.month - 1 && tm.tm_mday == (int)d.day ? at : -1;
}

static struct day day_at(int64_t seconds) {
    time_t at = (time_t)seconds;
    struct tm tm;
    gmtime_r(&at, &tm);
    return (struct day){(uint32_t)tm.tm_year + 1900, (uint32_t)tm.tm_mon + 1, (uint32_t)tm.tm_mday};
}

static void dated(char *out, const char *code, int n, int k, int s, int add, struct day opening, struct day closing) {
    sprintf(out, "code=%s\nmirrors=%d\npacks=%d\npiece=%d\nopen=%04" PRIu32 "-%02" PRIu32 "-%02" PRIu32 "\nclose=%04" PRIu32 "-%02" PRIu32 "-%02" PRIu32 "\n%s", code, n, k, s,
            opening.year, opening.month, opening.day, closing.year, closing.month, closing.day, add ? "sum=add\n" : "");
}

/* one day: refused 13 or 14, or answered; and before what the number comes, where there is one */
static void one_day(struct day on, struct day opening, struct day closing) {
    static const uint8_t store[] = {1, 2, 3, 4}, blocks[] = {1, 2, 7, 7, 3, 4, 7, 7}, both[] = {1, 1}, list[] = {1, 1, 0, 0}, wrong[] = {9, 9, 0, 0};
    static const uint8_t sums[][2] = {{1 ^ 3, 2 ^ 4}, {4, 6}};
    static const struct { const char *code; const uint8_t *store, *request; size_t stored, asked, most; } codes[] = {
        {"short", store, both, 4, 2, 2}, {"turn", store, both, 4, 2, 2}, {"round", blocks, list, 8, 4, 4}};
    int64_t at = start_of(on), refusal = at < 0 ? -13 : at < start_of(opening) || at >= start_of(closing) ? -14 : 0;
    char cat[128];
    today = on;
    for (size_t i = 0; i < 2 * sizeof codes / sizeof *codes; i++) {
        const char *code = codes[i / 2].code;
        const uint8_t *kept = codes[i / 2].store, *request = codes[i / 2].request;
        const size_t add = i % 2, stored = codes[i / 2].stored, asked = codes[i / 2].asked;
        dated(cat, code, 2, 2, 2, (int)add, opening, closing);
        size_t len = strlen(cat);
        longest("season: longest", cat, len, (int64_t)codes[i / 2].most);
        call("season", cat, len, 0, kept, stored, request, asked, 2, refusal < 0 ? refusal : 2, sums[add]);
        call("season, mirror 1", cat, len, 1, kept, stored, request, asked, 2, refusal < 0 ? refusal : code[0] == 't' ? 2 : -7, sums[add]);
        call("season before 3", cat, len, 2, kept, stored, request, asked, 2, refusal < 0 ? refusal : -3, NULL);
        call("season before 7", cat, len, 0, kept, stored, wrong, asked, 2, refusal < 0 ? refusal : -7, NULL);
        call("season before 8", cat, len, 0, kept, stored - 1, request, asked, 2, refusal < 0 ? refusal : -8, NULL);
        call("season before 9", cat, len, 0, kept, stored, request, asked, 1, refusal < 0 ? refusal : -9, NULL);
        call("season before all", cat, len, UINT64_MAX, NULL, 0, NULL, 0, 0, refusal < 0 ? refusal : -3, NULL);
        call("1 before the season", cat, len - 1, 0, kept, stored, request, asked, 2, -1, NULL);
    }
    dated(cat, "round", 2, 1, 1, 1, opening, closing);
    call("17 before the season", cat, strlen(cat), 0, store, 4, both, 2, 2, -17, NULL);
    dated(cat, "round", 2, 2, 1, 1, opening, closing);
    call("15 before the season", cat, strlen(cat), 0, store, 4, both, 2, 2, -15, NULL);
    dated(cat, "round", 2, 8, 2, 0, opening, closing);
    call("2 before the season", cat, strlen(cat), 0, store, 4, both, 2, 2, -2, NULL);
    dated(cat, "turn", 2, 1, 1, 1, opening, closing);
    call("17 before the season", cat, strlen(cat), 0, store, 4, both, 2, 2, -17, NULL);
    dated(cat, "short", 17, 2, 2, 0, opening, closing);
    call("2 before the season", cat, strlen(cat), 0, store, 4, both, 2, 2, -2, NULL);
    dated(cat, "even", 2, 1, 1, 1, opening, closing);
    call("17 before the season", cat, strlen(cat), 0, store, 4, both, 2, 2, -17, NULL);
    dated(cat, "even", 2, 2, 1, 1, opening, closing);
    call("15 before the season", cat, strlen(cat), 0, store, 4, both, 2, 2, -15, NULL);
}

static void seasons(void) {
    static const struct day ends[][2] = {{{2024, 2, 28}, {2024, 3, 1}}, {{2023, 2, 28}, {2023, 3, 2}}, {{2096, 2, 29}, {2100, 3, 1}}, {{2024, 9, 30}, {2024, 10, 2}},
                                         {{2024, 12, 31}, {2025, 1, 1}}, {{2000, 1, 1}, {2399, 12, 31}}, {{2026, 3, 1}, {2027, 3, 1}}};
    static const struct day odd[] = {{0, 0, 0}, {1999, 12, 31}, {2400, 1, 1}, {2024, 0, 15}, {2024, 13, 15}, {2024, 9, 0}, {2024, 9, 31}, {2024, 1, 32}, {2023, 2, 29}, {2100, 2, 29},
                                     {2000, 2, 29}, {2396, 2, 29}, {2024, 2, 30}, {20240, 2, 29}, {UINT32_MAX, 1, 1}, {2024, UINT32_MAX, 1}, {2024, 1, UINT32_MAX}, {2024 + 65536, 9, 30}};
    any_day = 0;
    for (size_t i = 0; i < sizeof ends / sizeof *ends; i++) {
        struct day opening = ends[i][0], closing = ends[i][1];
        for (int side = 0; side <= 1; side++)
            for (int64_t move = -2; move <= 2; move++) one_day(day_at(start_of(ends[i][side]) + move * 86400), opening, closing);
        for (size_t j = 0; j < sizeof odd / sizeof *odd; j++) one_day(odd[j], opening, closing);
    }
    any_day = 1;
}

/* ---- lengths: a line for each pack behind all other lines, or none */

static const struct day opening_day = {2026, 3, 1}, closing_day = {2027, 3, 1}, unreal_day = {2026, 2, 29};

size_t head(char *out, struct shape c) {
    if (c.season == SEASON) dated(out, c.code, c.n, c.k, c.s, c.add, opening_day, closing_day);
    else if (c.season == CLOSES_FIRST) dated(out, c.code, c.n, c.k, c.s, c.add, closing_day, opening_day);
    else text(out, c.code, c.n, c.k, c.s, c.add);
    return strlen(out);
}

static long whole_of(struct shape c) {
    return whole_pack(c.code, c.n, c.k, c.s);
}

static void serve_row(struct shape c, struct served *v) {
    for (int p = 0; p < c.k; p++) v->request[p] = (uint8_t)(p == 0 ? 1 + draw((unsigned)c.n - 1) : draw((unsigned)c.n));
    unsigned total = row_answer(v->answer, v->store, v->request, c.n, c.k, c.s, c.add);
    v->mirror = (c.code[0] == 't' ? draw((unsigned)c.n) : total) % (unsigned)c.n;
    v->request_len = (size_t)c.k;
    v->answer_len = v->slot = (size_t)c.s;
}

static void serve_even(struct shape c, struct served *v) {
    int list[8], packs[1024];
    v->request_len = (size_t)even_request(c.n, c.k, v->request, packs);
    struct walk w = {c.n, c.k, c.s, c.add, 0, 0, v->store, v->request, v->answer};
    for (int b = 1; b <= c.k; b++) sets(&w, list, 0, 0, b);
    v->mirror = draw((unsigned)c.n);
    v->answer_len = v->slot = (size_t)(w.rows * c.s);
}

static void serve_round(struct shape c, struct served *v) {
    v->mirror = draw((unsigned)c.n);
    v->request_len = round_list(v->request, c.n, c.k, (int)v->mirror);
    v->answer_len = round_answer(v->answer, v->store, v->request, c.n, c.k, c.s, c.add);
    v->slot = (size_t)(power(c.n, c.k - 1) * c.s);
}

struct served serve(struct shape c) {
    struct served v;
    v.store_len = (size_t)c.k * (size_t)whole_of(c);
    v.store = malloc(v.store_len);
    v.answer = malloc(256u * (size_t)c.s);
    if (v.store == NULL || v.answer == NULL) exit(2);
    for (size_t i = 0; i < v.store_len; i++) v.store[i] = (uint8_t)draw(256);
    if (c.code[0] == 'e') serve_even(c, &v);
    else if (c.code[0] == 'r') serve_round(c, &v);
    else serve_row(c, &v);
    return v;
}

/* a text that the mirror serves by: the same answer, and the same numbers for what is wrong in the call */
static void goes_by(const char *what, const char *cat, size_t len, struct shape c, const struct served *v) {
    static const uint8_t zeros[1024] = {0};
    size_t room = v->answer_len, store = v->store_len, asked = v->request_len;
    const int of_rows = c.code[0] == 's' || c.code[0] == 't';
    longest(what, cat, len, (int64_t)v->slot);
    any_day = c.season == NEVER;
    today = opening_day;
    call(what, cat, len, v->mirror, v->store, store, v->request, asked, room, (int64_t)room, v->answer);
    call(what, cat, len, v->mirror, v->store, store, v->request, asked, room + 5, (int64_t)room, v->answer);
    if (c.code[0] == 'r') call(what, cat, len, v->mirror, v->store, store, zeros, asked, room, -7, NULL);
    for (uint64_t m = 0; of_rows && m < (uint64_t)c.n && admits(c.code, c.n, m, 0); m++) {
        call(what, cat, len, m, v->store, store, zeros, asked, 0, 0, NULL);
        call(what, cat, len, m, v->store, store, zeros, asked, room, 0, NULL);
    }
    call(what, cat, len, (uint64_t)c.n, v->store, store, v->request, asked, room, -3, NULL);
    call(what, cat, len, v->mirror, v->store, store, v->request, asked - 1, room, -7, NULL);
    call(what, cat, len, v->mirror, v->store, store - 1, v->request, asked, room, -8, NULL);
    call(what, cat, len, v->mirror, v->store, store - (size_t)c.k, v->request, asked, room, -8, NULL);
    call(what, cat, len, v->mirror, v->store, store, v->request, asked, room - 1, -9, NULL);
    for (int late = 0; c.season == SEASON && late <= 1; late++) {
        today = late ? closing_day : unreal_day;
        call(what, cat, len, v->mirror, v->store, store, v->request, asked, room, late ? -14 : -13, NULL);
        call(what, cat, len, UINT64_MAX, NULL, 0, NULL, 0, 0, late ? -14 : -13, NULL);
    }
    any_day = 1;
}

/* a text that is refused, all else being right */
static void is_refused(const char *what, const char *cat, size_t len, const struct served *v, int64_t want) {
    any_day = 0;
    today = opening_day;
    longest(what, cat, len, want);
    call(what, cat, len, v->mirror, v->store, v->store_len, v->request, v->request_len, v->answer_len, want, NULL);
    correct_text(what, cat, len, want);
    any_day = 1;
}

/* and before each other number that the call could give: 13, 14, 3, 7, 8, 9, and all of them */
static void comes_first(const char *what, const char *cat, size_t len, const struct served *v, int64_t want) {
    size_t room = v->answer_len, store = v->store_len, asked = v->request_len;
    is_refused(what, cat, len, v, want);
    any_day = 0;
    today = unreal_day;
    call(what, cat, len, v->mirror, v->store, store, v->request, asked, room, want, NULL);
    call(what, cat, len, UINT64_MAX, NULL, 0, NULL, 0, 0, want, NULL);
    today = closing_day;
    call(what, cat, len, v->mirror, v->store, store, v->request, asked, room, want, NULL);
    today = opening_day;
    call(what, cat, len, 17, v->store, store, v->request, asked, room, want, NULL);
    call(what, cat, len, v->mirror, v->store, store, v->request, asked - 1, room, want, NULL);
    call(what, cat, len, v->mirror, v->store, store - 1, v->request, asked, room, want, NULL);
    call(what, cat, len, v->mirror, v->store, store, v->request, asked, room - 1, want, NULL);
    any_day = 1;
}

/* so many lines: none, K of them, or refusal 1, whatever is in them */
static void counts(struct shape c, const struct served *v) {
    const int some[] = {0, 1, c.k - 1, c.k, c.k + 1, 2 * c.k, 31, 32, 33, MOST_LINES};
    char cat[MOST_TEXT];
    for (size_t i = 0; i < sizeof some / sizeof *some; i++)
        for (enum kind kind = 0; kind <= ABOVE; kind++) {
            size_t len = (size_t)(put_lengths(cat + head(cat, c), kind, 0, some[i], c.k, whole_of(c)) - cat);
            if (some[i] != 0 && some[i] != c.k) comes_first("lengths: another count", cat, len, v, -1);
            else if (some[i] != 0 && kind >= KINDS) comes_first("lengths: all out of bounds", cat, len, v, -2);
            else goes_by("lengths: none or K", cat, len, c, v);
        }
}

/* the text in which the line of one pack is another; its length */
static size_t one_other(char *cat, struct shape c, enum kind kind, int pack, const char *line) {
    char *at = put_lengths(cat + head(cat, c), kind, 0, pack, c.k, whole_of(c));
    at += sprintf(at, "%s", line);
    return (size_t)(put_lengths(at, kind, pack + 1, c.k, c.k, whole_of(c)) - cat);
}

/* one length out of bounds at the first pack, in the middle, at the last, the others in bounds; and at the bounds */
static void one_length(struct shape c, const struct served *v) {
    const long whole = whole_of(c), wrong[] = {0, whole + 1, whole + 256, whole + 65536, MOST_LENGTH - 1, MOST_LENGTH};
    const long right[] = {1, whole > 1 ? whole - 1 : 1, whole};
    char cat[MOST_TEXT], line[32];
    for (int third = 0; third <= 2; third++) {
        int pack = third * (c.k - 1) / 2;
        for (size_t i = 0; i < sizeof wrong / sizeof *wrong; i++) {
            sprintf(line, "length=%ld\n", wrong[i]);
            for (enum kind kind = 0; kind < KINDS; kind++)
                comes_first("lengths: one out of bounds", cat, one_other(cat, c, kind, pack, line), v, -2);
        }
        for (size_t i = 0; i < sizeof right / sizeof *right; i++) {
            sprintf(line, "length=%ld\n", right[i]);
            goes_by("lengths: one at a bound", cat, one_other(cat, c, HALVES, pack, line), c, v);
        }
    }
}

/* one line that is none, too many, or not in form: 1, also where the other lines are out of bounds */
static void one_form(struct shape c, const struct served *v) {
    static const char *bad[] = {
        "", "\n", "length=\n", "length=00\n", "length=01\n", "length=00000\n", "length=0000001\n", "length=00000001\n", "length=10000000\n",
        "length=99999999\n", "length=4294967297\n", "length=18446744073709551617\n", "length=-1\n", "length=+1\n", "length= 1\n", " length=1\n",
        "length =1\n", "length=1 \n", "length=1\t\n", "length=1\r\n", "length=1\r", "length=1", "length=1\n\n", "\nlength=1\n",
        "length=1\nlength=1\n", "length=1,1\n", "length=1 1\n", "length=1.0\n", "length=0x1\n", "length=1e0\n", "length=one\n", "length=/\n",
        "length=:\n", "Length=1\n", "LENGTH=1\n", "length:1\n", "length1\n", "lengt=1\n", "lengths=1\n", "ength=1\n", "llength=1\n", "length==1\n",
        "piece=1\n", "sum=add\n", "open=2026-03-01\n", "wanted=0\n", "length=1\nx", "length=1\nlength", "length=1\nlength=", "length=1\nlength=1",
    };
    char cat[MOST_TEXT];
    for (int third = 0; third <= 2; third++)
        for (size_t i = 0; i < sizeof bad / sizeof *bad; i++)
            for (enum kind kind = ONES; kind <= NOUGHTS; kind += NOUGHTS - ONES)
                is_refused(bad[i], cat, one_other(cat, c, kind, third * (c.k - 1) / 2, bad[i]), v, -1);
    comes_first("lengths: 1 before 2", cat, one_other(cat, c, NOUGHTS, c.k - 1, "length=\n"), v, -1);
}

/* lines before another line of the text, each that there is, and any number of them behind; of many packs, 1, K-1 or K before */
static void elsewhere(struct shape c, const struct served *v) {
    char first[MOST_TEXT], cat[2 * MOST_TEXT];
    size_t len = head(first, c);
    for (size_t at = 0; at < len; at++) {
        if (at > 0 && first[at - 1] != '\n') continue;
        memcpy(cat, first, at);
        for (int before = 1; before <= c.k; before++)
            for (int behind = 0; behind <= c.k; behind++) {
                if (c.k > 3 && before > 1 && before < c.k - 1) continue;
                char *to = put_lengths(cat + at, RISING, 0, before, c.k, whole_of(c));
                memcpy(to, first + at, len - at);
                to = put_lengths(to + len - at, RISING, c.k - behind, c.k, c.k, whole_of(c));
                is_refused("lengths: before another line", cat, (size_t)(to - cat), v, -1);
            }
    }
}

/* cut off at each byte, each byte changed, and a byte behind the last line */
static void each_byte(struct shape c, const struct served *v) {
    char cat[MOST_TEXT];
    size_t from = head(cat, c), len = (size_t)(put_lengths(cat + from, RISING, 0, c.k, c.k, whole_of(c)) - cat);
    goes_by("lengths: cut off before the first", cat, from, c, v);
    for (size_t at = from + 1; at < len; at++) is_refused("lengths: cut off", cat, at, v, -1);
    goes_by("lengths: not cut off", cat, len, c, v);
    for (size_t at = from; at < len; at++) {
        const char kept = cat[at], other[] = {(char)(kept ^ 0x40), 0, (char)(kept ^ 0x80), ' ', kept == '\n' ? '\r' : '\n'};
        for (size_t i = 0; i < sizeof other; i++) {
            cat[at] = other[i];
            is_refused("lengths: a byte changed", cat, len, v, -1);
        }
        cat[at] = kept;
    }
    for (int byte = 0; byte <= 255; byte++) {
        cat[len] = (char)byte;
        is_refused("lengths: a byte behind them", cat, len + 1, v, -1);
    }
}

/* a catalogue that is turned away by a number of its own: it stays so with K good lengths; one out of bounds is 2, and another count 1 */
static void turned_away(struct shape c, const struct served *v, int64_t own) {
    const int some[] = {0, 1, 2, 8, 31, 32, 33, c.k - 1, c.k, c.k + 1, c.k % 256, c.k % 65536};
    char *cat = malloc(128 + 16 * ((size_t)c.k + MOST_LINES));
    if (cat == NULL) exit(2);
    for (size_t i = 0; i < sizeof some / sizeof *some; i++)
        for (enum kind kind = 0; kind <= ABOVE; kind++) {
            int good = some[i] <= 0 || kind < KINDS, big = some[i] > 300;
            int64_t want = some[i] > 0 && some[i] != c.k ? -1 : good ? own : -2;
            if (big && kind != ONES) continue;
            size_t len = (size_t)(put_lengths(cat + head(cat, c), kind, 0, some[i], c.k, whole_of(c)) - cat);
            if (!big && (kind == ONES || kind == NOUGHTS)) comes_first("lengths: turned away", cat, len, v, want);
            else is_refused("lengths: turned away", cat, len, v, want);
        }
    free(cat);
}

/* each number that a catalogue can give by itself, with lengths */
static void own_numbers(int add, enum season season, const struct served *v) {
    const struct shape out[] = {
        {"short", 1, 2, 4, add, season}, {"short", 17, 2, 4, add, season}, {"short", 2, 2, 0, add, season}, {"short", 2, 2, 4097, add, season},
        {"short", 2, 0, 4, add, season}, {"short", 2, 33, 4, add, season}, {"short", 3, 34, 4, add, season}, {"short", 16, 40, 4096, add, season},
        {"short", 2, 64, 4, add, season}, {"short", 2, 258, 4, add, season}, {"even", 1, 2, 4, add, season}, {"even", 17, 2, 4, add, season},
        {"even", 2, 2, 0, add, season}, {"even", 2, 2, 4097, add, season}, {"even", 2, 0, 4, add, season}, {"even", 2, 9, 4, add, season},
        {"even", 6, 4, 4, add, season}, {"even", 16, 3, 4, add, season}, {"even", 2, 33, 4, add, season}, {"even", 2, 40, 4, add, season},
        {"turn", 1, 2, 4, add, season}, {"turn", 17, 2, 4, add, season}, {"turn", 2, 2, 0, add, season}, {"turn", 2, 2, 4097, add, season},
        {"turn", 2, 0, 4, add, season}, {"turn", 2, 33, 4, add, season}, {"turn", 16, 40, 4096, add, season},
        {"round", 1, 2, 4, add, season}, {"round", 17, 2, 4, add, season}, {"round", 2, 2, 0, add, season}, {"round", 2, 2, 4097, add, season},
        {"round", 2, 0, 4, add, season}, {"round", 2, 8, 4, add, season}, {"round", 3, 5, 4, add, season}, {"round", 8, 4, 4096, add, season},
        {"round", 9, 3, 4, add, season}, {"round", 16, 17, 4, add, season}, {"round", 2, 33, 4, add, season},
        {"short", 2, 2, 4, add, CLOSES_FIRST}, {"even", 2, 1, 3, add, CLOSES_FIRST}, {"short", 17, 1, 3, add, season}, {"turn", 3, 2, 4, add, CLOSES_FIRST},
        {"round", 3, 2, 4, add, CLOSES_FIRST},
    };
    const struct shape one[] = {{"short", 2, 1, 4, add, season}, {"short", 16, 1, 3, add, season}, {"turn", 2, 1, 4, add, season}, {"turn", 16, 1, 3, add, season},
                                {"even", 2, 1, 4, add, season}, {"even", 16, 1, 3, add, season},
                                {"round", 2, 1, 4, add, season}, {"round", 16, 1, 3, add, season}};
    const struct shape odd[] = {{"short", 2, 2, 3, 1, season}, {"short", 3, 32, 4095, 1, season}, {"turn", 2, 2, 3, 1, season}, {"turn", 3, 32, 4095, 1, season},
                                {"even", 2, 2, 1, 1, season}, {"even", 2, 8, 3, 1, season}, {"round", 2, 2, 1, 1, season},
                                {"round", 8, 3, 4095, 1, season}};
    for (size_t i = 0; i < sizeof out / sizeof *out; i++) turned_away(out[i], v, -2);
    for (size_t i = 0; i < sizeof one / sizeof *one; i++) turned_away(one[i], v, -17);
    for (size_t i = 0; i < sizeof odd / sizeof *odd; i++) turned_away(odd[i], v, -15);
}

/* more packs than a catalogue can have: a line behind the 32nd is looked at for its form, too */
static void many_packs(const struct served *v) {
    char cat[MOST_TEXT];
    static const char *codes[] = {"short", "even", "turn", "round"};
    for (int packs = 33; packs <= 40; packs++) {
        const struct shape c = {codes[packs % 4], 2, packs, 4, packs / 2 % 2, packs / 4 % 2 ? SEASON : NEVER};
        one_form(c, v);
        comes_first("lengths: 33rd, form", cat, one_other(cat, c, ONES, 32, "length=10000000\n"), v, -1);
        comes_first("lengths: 33rd, most", cat, one_other(cat, c, ONES, 32, "length=9999999\n"), v, -2);
        comes_first("lengths: 33rd, 0", cat, one_other(cat, c, ONES, 32, "length=0\n"), v, -2);
    }
    turned_away((struct shape){"short", 2, 99999, 1, 0, NEVER}, v, -2);
    turned_away((struct shape){"even", 2, 65568, 1, 0, NEVER}, v, -2);
    turned_away((struct shape){"round", 2, 65538, 1, 0, NEVER}, v, -2);
}

/* the largest length of a catalogue, and one more, at one pack of any */
static void largest(struct shape c) {
    int part = power(c.n, c.k - 1), rows = c.code[0] == 'e' ? part + (part - 1) / (c.n - 1) : c.code[0] == 'r' ? part : 1, pack = (int)draw((unsigned)c.k);
    char cat[MOST_TEXT], line[32];
    sprintf(line, "length=%ld\n", whole_of(c));
    longest_once("lengths: largest", cat, one_other(cat, c, ONES, pack, line), (int64_t)rows * c.s);
    sprintf(line, "length=%ld\n", whole_of(c) + 1);
    longest_once("lengths: above the largest", cat, one_other(cat, c, ONES, pack, line), -2);
}

static void largest_lengths(int n, int most_even) {
    for (int s = 1; s <= 4096; s = s < 8 ? s + 1 : s * 2) {
        const int add = s % 2 == 0 && n % 2;
        const enum season season = n % 3 ? SEASON : NEVER;
        for (int k = 2; k <= 32; k++) largest((struct shape){"short", n, k, s, add, season}), largest((struct shape){"turn", n, k, s, add, season});
        for (int k = 2; k <= most_even; k++) largest((struct shape){"even", n, k, s, add, season});
        for (int k = 2; power(n, k - 1) <= 64; k++) largest((struct shape){"round", n, k, s, add, season});
    }
}

/* the longest texts there are: of a catalogue that is admitted, of lines with seven digits, of lines in form */
static void longest_texts(void) {
    const struct shape most = {"short", 16, 32, 4096, 1, SEASON}, seven = {"even", 2, 8, 4096, 1, SEASON};
    char cat[MOST_TEXT];
    struct served v = serve(most);
    size_t len = (size_t)(put_lengths(cat + head(cat, most), WHOLES, 0, 32, 32, whole_of(most)) - cat);
    expect(len == 499, "lengths: longest text", (long)len);
    goes_by("lengths: longest text", cat, len, most, &v);
    len = (size_t)(put_lengths(cat + head(cat, most), WHOLES, 0, 32, 32, MOST_LENGTH) - cat);
    expect(len == 563, "lengths: longest text in form", (long)len);
    comes_first("lengths: longest text in form", cat, len, &v, -2);
    free(v.store), free(v.answer);
    v = serve(seven);
    len = (size_t)(put_lengths(cat + head(cat, seven), WHOLES, 0, 8, 8, whole_of(seven)) - cat);
    any_day = 0;
    today = opening_day;
    call("lengths: seven digits", cat, len, v.mirror, v.store, v.store_len, v.request, v.request_len, v.answer_len, (int64_t)v.answer_len, v.answer);
    any_day = 1;
    free(v.store), free(v.answer);
}

static void lengths(void) {
    static const struct { const char *code; int n, k, s; } some[] = {{"short", 2, 2, 2}, {"short", 3, 3, 4}, {"short", 16, 32, 6},
                                                                      {"even", 2, 2, 2}, {"even", 3, 3, 2}, {"even", 2, 8, 2},
                                                                      {"turn", 2, 2, 2}, {"turn", 3, 3, 4}, {"turn", 16, 32, 6},
                                                                      {"round", 3, 2, 2}, {"round", 2, 7, 2}};
    lengths_too = 0;
    for (int add = 0; add <= 1; add++)
        for (enum season season = NEVER; season <= SEASON; season++)
            for (size_t i = 0; i < sizeof some / sizeof *some; i++) {
                const struct shape c = {some[i].code, some[i].n, some[i].k, some[i].s - !add, add, season};
                struct served v = serve(c);
                counts(c, &v), one_length(c, &v), one_form(c, &v), elsewhere(c, &v), each_byte(c, &v);
                if (i == 0) own_numbers(add, season, &v);
                if (i == 0 && add == 0 && season == NEVER) many_packs(&v);
                free(v.store), free(v.answer);
            }
    longest_texts();
    lengths_too = 1;
}

static void cards(void) {
    static const char b2[] = "code=short\nmirrors=2\npacks=2\npiece=1\n", b4[] = "code=short\nmirrors=3\npacks=3\npiece=4\n";
    uint8_t store[] = {0x5A, 0xC3}, both[] = {1, 1}, second[] = {0, 1}, first[] = {1, 0}, none[] = {0, 0, 0}, odd[] = {0, 0, 1}, three[] = {0, 1, 3}, big[24] = {0};
    uint8_t x99 = 0x99, xc3 = 0xC3, x5a = 0x5A;
    call("B2, mirror 0", b2, strlen(b2), 0, store, 2, both, 2, 1, 1, &x99);
    call("B2, mirror 1", b2, strlen(b2), 1, store, 2, second, 2, 1, 1, &xc3);
    call("B3, mirror 0", b2, strlen(b2), 0, store, 2, none, 2, 1, 0, NULL);
    call("B3, mirror 0, no room", b2, strlen(b2), 0, store, 2, none, 2, 0, 0, NULL);
    call("B3, mirror 1", b2, strlen(b2), 1, store, 2, first, 2, 1, 1, &x5a);
    call("B4", b4, strlen(b4), 0, big, 24, odd, 3, 4, -7, NULL);
    call("B5", b4, strlen(b4), 0, big, 24, three, 3, 4, -7, NULL);
    call("B6", b4, strlen(b4), 0, big, 24, none, 3, 4, 0, NULL);
    call("B6, no room", b4, strlen(b4), 0, big, 24, none, 3, 0, 0, NULL);
    call("B6, wrong store", b4, strlen(b4), 0, big, 23, none, 3, 4, -8, NULL);
}

/* the fetch of B2 and B3 in the turning code: pack 0 of two mirrors for each key, the short code's digit and the turn; mirror n gets the row that mirror
 * n + turn gets in the short code */
static void turned(void) {
    static const char cat[] = "code=turn\nmirrors=2\npacks=2\npiece=1\n";
    static const uint8_t store[] = {0x5A, 0xC3}, rows_of[2][2][2] = {{{0, 0}, {1, 0}}, {{1, 1}, {0, 1}}}, sent[2][2] = {{0, 0x5A}, {0x99, 0xC3}};
    for (int digit = 0; digit <= 1; digit++)
        for (int turn = 0; turn <= 1; turn++)
            for (int m = 0; m <= 1; m++) {
                int part = (m + turn) % 2;
                call("turned B2 and B3", cat, strlen(cat), (uint64_t)m, store, 2, rows_of[digit][part], 2, 1, digit + part > 0, &sent[digit][part]);
            }
}

int main(int argc, char **argv) {
    static const int most[17] = {0, 0, 8, 5, 4, 3, 3, 2, 2, 2, 2, 2, 2, 2, 2, 2, 2}, sizes[] = {1, 2, 7, 64, 4096}, ks[] = {2, 3, 31, 32};
    static const char *row_codes[] = {"short", "turn"};
    exact = argc > 1 && strcmp(argv[1], "exact") == 0;
    cards();
    turned();
    catalogues();
    first_line("short"), first_line("even"), first_line("turn"), first_line("round");
    words();
    seasons();
    lengths();
    round_once();
    correct_once();
    for (int n = 2; n <= 16; n++) {
        one_pack("short", n, 3), one_pack("turn", n, 3), one_pack("even", n, 3), one_pack("round", n, 3);
        odd_piece("short", n, n % 2 ? 1 : 4095), odd_piece("turn", n, n % 2 ? 4095 : 1), odd_piece("even", n, 3), odd_piece("round", n, n % 2 ? 3 : 4095);
        rounds(n);
        corrections(n, most[n]);
        largest_lengths(n, most[n]);
        for (int k = 2; k <= most[n]; k++) even(n, k, n == 4 && k == 4 ? 64 : 3, 0), even(n, k, n == 4 && k == 4 ? 64 : 6, 1);
        for (size_t c = 0; c < sizeof row_codes / sizeof *row_codes; c++) {
            for (size_t i = 0; i < sizeof ks / sizeof *ks; i++)
                for (size_t j = 0; j < sizeof sizes / sizeof *sizes; j++)
                    for (int add = 0; add <= (sizes[j] % 2 == 0); add++) rows(row_codes[c], n, ks[i], sizes[j], add);
            for (int k = 2; power(n + 1, k) <= 300; k++) every_row(row_codes[c], n, k, 0), every_row(row_codes[c], n, k, 1);
        }
    }
    even(2, 8, 4096 / 64, 0);
    even(2, 8, 4096 / 64, 1);
    printf("host test%s: %d checks, %d failures\n", exact ? " (exact buffers)" : "", checks, failures);
    return failures == 0 ? 0 : 1;
}
