/* The round code from C (document 02, item 8): lists of every size against a plain reference, in some orders and spoiled in every way; of small catalogues
 * all lists there are; the bounds. The reference knows no keys: it counts a mirror's rows up and shuffles them.
 */
#include <stdio.h>
#include <stdlib.h>
#include <string.h>

#include "host.h"

enum { MOST_ROWS = 64, MOST_LIST = MOST_ROWS * 7, SPARE = 8 };

/* ---- the reference */

/* the digits of a number of K digits, the first the greatest; their sum */
static int digits(uint8_t *row, int number, int n, int k) {
    int total = 0;
    for (int p = k - 1; p >= 0; p--, number /= n) total += row[p] = (uint8_t)(number % n);
    return total;
}

/* a mirror's rows as they are counted up; the length of the list */
static size_t counted_up(uint8_t *request, int n, int k, int mirror) {
    size_t at = 0;
    for (int number = 0; number < power(n, k); number++)
        if (digits(request + at, number, n, k) % n == mirror) at += (size_t)k;
    return at;
}

static void exchange(uint8_t *request, int k, size_t i, size_t j) {
    uint8_t kept[8];
    memcpy(kept, request + i * (size_t)k, (size_t)k);
    memmove(request + i * (size_t)k, request + j * (size_t)k, (size_t)k);
    memcpy(request + j * (size_t)k, kept, (size_t)k);
}

size_t round_list(uint8_t *request, int n, int k, int mirror) {
    uint8_t all[MOST_LIST + SPARE];
    size_t length = counted_up(all, n, k, mirror);
    for (size_t i = length / (size_t)k - 1; i > 0; i--) exchange(all, k, i, draw((unsigned)i + 1));
    memcpy(request, all, length);
    return length;
}

size_t round_answer(uint8_t *answer, const uint8_t *store, const uint8_t *request, int n, int k, int s, int add) {
    const int blocks = power(n, k - 1), pack = blocks * (n - 1);
    size_t at = 0;
    for (int i = 0; i < blocks; i++) {
        const uint8_t *row = request + i * k;
        int some = 0;
        memset(answer + at, 0, (size_t)s);
        for (int p = 0; p < k; p++) {
            if (row[p] == 0) continue;
            some = 1;
            add_piece(answer + at, store, (size_t)(p * pack + i * (n - 1) + row[p] - 1), s, add);
        }
        if (some) at += (size_t)s;
    }
    return at;
}

/* whether a mirror admits a list of V rows: each is its own by its digits and their sum, and no two are the same */
static int admitted(const uint8_t *request, int n, int k, int mirror) {
    const int blocks = power(n, k - 1);
    for (int i = 0; i < blocks; i++) {
        int total = 0;
        for (int p = 0; p < k; p++) {
            if (request[i * k + p] >= n) return 0;
            total += request[i * k + p];
        }
        if (total % n != mirror) return 0;
        for (int j = 0; j < i; j++)
            if (memcmp(request + i * k, request + j * k, (size_t)k) == 0) return 0;
    }
    return 1;
}

/* ---- one catalogue with a store */

struct round {
    int n, k, s, add, blocks;
    size_t cat_len, store_len, asked, slot;
    char cat[64];
    uint8_t *store, *answer;
};

static struct round prepare(int n, int k, int s, int add) {
    struct round c = {.n = n, .k = k, .s = s, .add = add, .blocks = power(n, k - 1)};
    text(c.cat, "round", n, k, s, add);
    c.cat_len = strlen(c.cat);
    c.store_len = (size_t)k * (size_t)(c.blocks * (n - 1)) * (size_t)s;
    c.asked = (size_t)(c.blocks * k);
    c.slot = (size_t)c.blocks * (size_t)s;
    /* a piece of each pack more, for calls with too much; the answer of zeros is made and left out */
    c.store = malloc(c.store_len + (size_t)(k * s));
    c.answer = malloc(c.slot + (size_t)s);
    if (c.store == NULL || c.answer == NULL) exit(2);
    for (size_t i = 0; i < c.store_len + (size_t)(k * s); i++) c.store[i] = (uint8_t)draw(256);
    return c;
}

static void done(struct round *c) {
    free(c->store), free(c->answer);
}

static void ask(const char *what, const struct round *c, uint64_t mirror, const uint8_t *request, size_t asked, size_t room, int64_t want) {
    call(what, c->cat, c->cat_len, mirror, c->store, c->store_len, request, asked, room, want, c->answer);
}

/* an admitted list: into room for just its answer, for more, and for a byte less */
static void good_list(const char *what, struct round *c, int mirror, const uint8_t *request) {
    size_t length = round_answer(c->answer, c->store, request, c->n, c->k, c->s, c->add);
    expect(length == c->slot - (mirror == 0 ? (size_t)c->s : 0), what, (long)length);
    ask(what, c, (uint64_t)mirror, request, c->asked, length, (int64_t)length);
    if (c->s <= 64) ask(what, c, (uint64_t)mirror, request, c->asked, c->slot + 9, (int64_t)length);
    ask(what, c, (uint64_t)mirror, request, c->asked, length - 1, -9);
    ask(what, c, (uint64_t)mirror, request, c->asked, 0, -9);
}

/* a list at the mirrors beside its own, and at mirror 0 */
static void elsewhere(const struct round *c, int mirror, const uint8_t *request) {
    for (int other = 0; other < c->n; other++)
        if (other != mirror && (other == 0 || other == (mirror + 1) % c->n || mirror == (other + 1) % c->n))
            ask("round: another mirror's list", c, (uint64_t)other, request, c->asked, c->slot, -7);
}

/* what is wrong beside an admitted list: mirror, lengths of list and store, and the first of several numbers */
static void wrong_calls(struct round *c, int mirror, const uint8_t *request) {
    const uint64_t m = (uint64_t)mirror;
    const size_t piece = (size_t)c->s, stores[] = {c->store_len - 1, c->store_len + 1, c->store_len - piece, c->store_len + piece,
                                                   c->store_len - piece * (size_t)c->k, c->store_len + piece * (size_t)c->k, piece, 0};
    const size_t k = (size_t)c->k, lists[] = {c->asked - 1, c->asked + 1, c->asked - k, c->asked + k, k, 1, 0};
    ask("round: mirror N", c, (uint64_t)c->n, request, c->asked, c->slot, -3);
    ask("round: mirror 2^64-1", c, UINT64_MAX, request, c->asked, c->slot, -3);
    ask("round: 3 before 7 and 9", c, (uint64_t)c->n, request, 0, 0, -3);
    for (size_t i = 0; i < sizeof lists / sizeof *lists; i++) ask("round: length of the list", c, m, request, lists[i], c->slot, -7);
    for (size_t i = 0; i < sizeof stores / sizeof *stores; i++) {
        call("round: length of the store", c->cat, c->cat_len, m, c->store, stores[i], request, c->asked, c->slot, -8, NULL);
        call("round: 8 before 9", c->cat, c->cat_len, m, c->store, stores[i], request, c->asked, 0, -8, NULL);
        call("round: 7 before 8 and 9", c->cat, c->cat_len, m, c->store, stores[i], request, c->asked - k, 0, -7, NULL);
    }
}

/* ---- what spoils a list */

/* a list in which the rows i and j are others; refused, and then as it was */
static void spoiled(const char *what, const struct round *c, int mirror, uint8_t *request, const uint8_t *kept) {
    expect(!admitted(request, c->n, c->k, mirror), what, -200);
    ask(what, c, (uint64_t)mirror, request, c->asked, c->slot, -7);
    memcpy(request, kept, c->asked);
}

/* each at one of the list's rows: a row twice, rows of other mirrors, digits of N and more, zeros throughout */
static void spoil(const struct round *c, int mirror, const uint8_t *kept) {
    uint8_t request[MOST_LIST + SPARE];
    const size_t k = (size_t)c->k, i = draw((unsigned)c->blocks), j = (i + 1 + draw((unsigned)c->blocks - 1)) % (size_t)c->blocks, digit = draw((unsigned)k);
    uint8_t *row = request + i * k, *other = request + j * k;
    const uint8_t n = (uint8_t)c->n;
    memcpy(request, kept, c->asked);
    memcpy(row, other, k);
    spoiled("round: a row twice", c, mirror, request, kept);
    row[digit] = (uint8_t)((row[digit] + 1) % n);
    spoiled("round: a row of the next mirror", c, mirror, request, kept);
    row[digit] = (uint8_t)((row[digit] + n - 1) % n);
    spoiled("round: a row of the mirror before", c, mirror, request, kept);
    row[digit] = (uint8_t)((row[digit] + 1) % n), other[digit] = (uint8_t)((other[digit] + n - 1) % n);
    spoiled("round: rows of the next mirror and of the one before", c, mirror, request, kept);
    row[0] = (uint8_t)((row[0] + 1) % n), row[k - 1] = (uint8_t)((row[k - 1] + n - 1) % n);
    spoiled("round: another row of the mirror", c, mirror, request, kept);
    row[digit] = n;
    spoiled("round: digit N", c, mirror, request, kept);
    row[digit] = (uint8_t)(row[digit] + n);
    spoiled("round: a digit and N", c, mirror, request, kept);
    row[digit] = 255;
    spoiled("round: digit 255", c, mirror, request, kept);
    memset(request, 0, c->asked);
    spoiled("round: zeros", c, mirror, request, kept);
    for (size_t at = 0; at < c->asked; at += k) memcpy(request + at, kept, k);
    spoiled("round: one row throughout", c, mirror, request, kept);
}

/* every mirror, or of large pieces the first, the second and the last: its rows counted up, counted down, shuffled, two exchanged; and what is wrong */
static void one_round(int n, int k, int s, int add) {
    struct round c = prepare(n, k, s, add);
    uint8_t list[MOST_LIST + SPARE] = {0}, down[MOST_LIST + SPARE] = {0};
    longest("round: longest", c.cat, c.cat_len, (int64_t)c.slot);
    for (int m = 0; m < n; m++) {
        if (s > 64 && m > 1 && m + 1 < n) continue;
        expect(counted_up(list, n, k, m) == c.asked && admitted(list, n, k, m), "round: rows of a mirror", m);
        good_list("round: counted up", &c, m, list);
        for (size_t i = 0; i < (size_t)c.blocks; i++) memcpy(down + i * (size_t)k, list + (size_t)(c.blocks - 1) * (size_t)k - i * (size_t)k, (size_t)k);
        good_list("round: counted down", &c, m, down);
        round_list(list, n, k, m);
        good_list("round: shuffled", &c, m, list);
        exchange(list, k, 0, (size_t)c.blocks - 1);
        good_list("round: two rows exchanged", &c, m, list);
        elsewhere(&c, m, list);
        spoil(&c, m, list);
        if (m < 2) wrong_calls(&c, m, list);
    }
    done(&c);
}

/* the longest pieces, at mirror 0 and at the last */
static void large(int n, int k, int add) {
    struct round c = prepare(n, k, 4096, add);
    uint8_t list[MOST_LIST + SPARE];
    lengths_too = 0;
    for (int m = 0; m < n; m += n - 1) {
        round_list(list, n, k, m);
        size_t length = round_answer(c.answer, c.store, list, n, k, 4096, add);
        ask("round: 4,096", &c, (uint64_t)m, list, c.asked, length, (int64_t)length);
    }
    lengths_too = 1;
    done(&c);
}

/* every list of V rows with digits up to `most` at every mirror, without lengths */
static void every_list(int n, int k, int most) {
    struct round c = prepare(n, k, 2, 1);
    uint8_t list[MOST_LIST + SPARE];
    int good = 0;
    lengths_too = 0;
    for (int number = 0; number < power(most + 1, (int)c.asked); number++) {
        digits(list, number, most + 1, (int)c.asked);
        for (int m = 0; m < n; m++) {
            int64_t want = -7;
            if (admitted(list, n, k, m)) want = (int64_t)round_answer(c.answer, c.store, list, n, k, 2, 1), good++;
            ask("round: every list", &c, (uint64_t)m, list, c.asked, c.slot, want);
        }
    }
    lengths_too = 1;
    int orders = 1;
    for (int i = 2; i <= c.blocks; i++) orders *= i;
    expect(good == n * orders, "round: as many lists as orders of a mirror's rows", good);
    done(&c);
}

/* ---- once */

/* table IV of source 000, with a bit for each piece: the mirrors' answers by each key, wanted pack 0 and 1 */
static void table_4(void) {
    static const char cat[] = "code=round\nmirrors=2\npacks=2\npiece=1\n";
    static const uint8_t store[] = {1, 2, 4, 8};
    static const struct { uint64_t mirror; uint8_t list[4]; int64_t want; uint8_t answer[2]; } all[] = {
        {0, {0, 0, 1, 1}, 1, {2 ^ 8}}, {1, {1, 0, 0, 1}, 2, {1, 8}}, {1, {0, 1, 1, 0}, 2, {4, 2}}, {0, {1, 1, 0, 0}, 1, {1 ^ 4}},
        {0, {1, 1, 1, 1}, -7, {0}}, {0, {0, 0, 0, 0}, -7, {0}}, {1, {1, 0, 1, 0}, -7, {0}}, {1, {0, 1, 0, 1}, -7, {0}}, {1, {1, 1, 0, 0}, -7, {0}},
        {0, {1, 0, 0, 1}, -7, {0}}, {0, {1, 1, 0, 2}, -7, {0}}, {0, {2, 0, 0, 0}, -7, {0}}, {2, {1, 1, 0, 0}, -3, {0}},
    };
    for (size_t i = 0; i < sizeof all / sizeof *all; i++) {
        call("round: table IV", cat, strlen(cat), all[i].mirror, store, 4, all[i].list, 4, 2, all[i].want, all[i].answer);
        if (all[i].want > 0) call("round: table IV, no room", cat, strlen(cat), all[i].mirror, store, 4, all[i].list, 4, 0, -9, NULL);
    }
}

/* every N from 0 to 18 and K from 0 to 10, and a few larger ones: 2 but for N from 2 to 16 and at most 64 rows, 17 for a single pack */
static void bounds(void) {
    static const int ks[] = {0, 1, 2, 3, 4, 5, 6, 7, 8, 9, 10, 17, 18, 32, 33, 34, 64, 65, 129, 99999}, sizes[] = {0, 1, 4095, 4096, 4097};
    char cat[64];
    for (int n = 0; n <= 18; n++)
        for (size_t i = 0; i < sizeof ks / sizeof *ks; i++) {
            int k = ks[i], rows = 1, fits = n >= 2 && n <= 16 && k >= 1;
            for (int j = 1; j < k && rows <= 64; j++) rows *= n < 2 ? 1 : n;
            fits = fits && rows <= 64;
            for (size_t j = 0; j < sizeof sizes / sizeof *sizes; j++) {
                const int s = sizes[j], good = fits && s >= 1 && s <= 4096;
                text(cat, "round", n, k, s, 0);
                if (good && k > 1) longest("round: bounds", cat, strlen(cat), (int64_t)rows * s);
                else refused_text("round: bounds", cat, strlen(cat), good ? -17 : -2);
                text(cat, "round", n, k, s, 1);
                if (good && k > 1 && s % 2 == 0) longest("round: bounds", cat, strlen(cat), (int64_t)rows * s);
                else refused_text("round: bounds", cat, strlen(cat), !good ? -2 : k == 1 ? -17 : -15);
            }
        }
}

void round_once(void) {
    table_4();
    bounds();
    every_list(2, 2, 3);
    every_list(3, 2, 3);
    every_list(2, 3, 1);
    one_round(2, 2, 4096, 0), one_round(3, 2, 4096, 1), one_round(2, 3, 4096, 0), one_round(4, 2, 4096, 1);
}

void rounds(int n) {
    for (int k = 2; power(n, k - 1) <= MOST_ROWS; k++) {
        one_round(n, k, 1, 0);
        one_round(n, k, 2, 1);
        one_round(n, k, k == 2 ? 64 : 7 + n % 2, (k == 2 || n % 2) && (n + k) % 3 > 0);
        large(n, k, (n + k) % 2);
    }
}
