/* A byte corrected, from C (document 02, item 13): both calls, with every buffer watched, against two references. One finds the row by the code's rules
 * and moves a byte or a word of it; the other adds to the saved answer what gozimpe_answer gives with the new store less what it gives with the old.
 * Saved answers are right, wrong, and of the wrong length; every refusal from both sides, and every choice of refusals at once; several answers
 * brought up to date in every order, and then the store.
 */
#include <stdio.h>
#include <stdlib.h>
#include <string.h>

#include "gozimpe.h"
#include "host.h"

enum { SPARE = 64, MOST_REQUEST = 1024 + SPARE, SMALL_STORE = 1 << 14 };

struct edit {
    uint64_t pack, piece, byte;
    uint8_t value;
};

/* what a call is made with */
struct given {
    const char *cat;
    size_t cat_len, store_len, request_len, answer_len;
    uint64_t mirror;
    const uint8_t *store, *request, *answer;
    struct edit edit;
};

/* ---- the calls */

enum { CATALOGUE = 1, STORE = 2, REQUEST = 4, ANSWER = 8 };

static int same(const uint8_t *a, const uint8_t *b, size_t length) {
    return length == 0 || memcmp(a, b, length) == 0;
}

/* one call: with `set` that of store and answer, else that of the answer alone. Given 0, the answer is `after`, and the store is as it was but for the byte
 * at `place`, if it is set; given a refusal, all is as it was */
static void once(const char *what, const struct given *g, int set, int64_t want, const uint8_t *after, size_t place, unsigned nulls) {
    struct buffer c = make(g->cat_len, g->cat), s = make(g->store_len, g->store), q = make(g->request_len, g->request), a = make(g->answer_len, g->answer);
    uint8_t *cat = nulls & CATALOGUE ? NULL : c.at, *store = nulls & STORE ? NULL : s.at;
    uint8_t *request = nulls & REQUEST ? NULL : q.at, *answer = nulls & ANSWER ? NULL : a.at;
    const struct edit e = g->edit;
    int64_t got = set ? gozimpe_correct(cat, c.length, g->mirror, store, s.length, request, q.length, answer, a.length, e.pack, e.piece, e.byte, e.value)
                      : gozimpe_correct_answer(cat, c.length, g->mirror, store, s.length, request, q.length, answer, a.length,
                                               e.pack, e.piece, e.byte, e.value);
    expect(got == want, what, (long)got);
    expect(same(a.at, want == 0 ? after : g->answer, a.length), what, -300 - set);
    if (want == 0 && set) {
        expect(s.at[place] == e.value, what, -302);
        s.at[place] = g->store[place];
    }
    expect(same(s.at, g->store, s.length), what, -304 - set);
    expect(guarded(&c) && guarded(&s) && guarded(&q) && guarded(&a), what, -306 - set);
    expect(same(c.at, (const uint8_t *)g->cat, c.length) && same(q.at, g->request, q.length), what, -308 - set);
    free(c.base), free(s.base), free(q.base), free(a.base);
}

/* both calls, once for each choice of the empty buffers whose pointer is NULL */
static void both(const char *what, const struct given *g, int64_t want, const uint8_t *after, size_t place) {
    unsigned empty = (g->cat_len == 0 ? CATALOGUE : 0u) | (g->store_len == 0 ? STORE : 0u);
    empty |= (g->request_len == 0 ? REQUEST : 0u) | (g->answer_len == 0 ? ANSWER : 0u);
    for (unsigned nulls = 0; nulls <= empty; nulls++)
        if ((nulls & ~empty) == 0) once(what, g, 0, want, after, place, nulls), once(what, g, 1, want, after, place, nulls);
}

static void refused(const char *what, const struct given *g, int64_t want) {
    both(what, g, want, NULL, 0);
}

void correct_text(const char *what, const char *cat, size_t len, int64_t want) {
    static const uint8_t store[] = {7, 9}, digit = 1, kept = 3;
    struct given g = {cat, len, 2, 1, 1, 0, store, &digit, &kept, {0, 0, 0, 5}};
    refused(what, &g, want);
}

/* ---- the references */

static int pieces_of(struct shape c) {
    return c.code[0] == 'e' ? power(c.n, c.k) : c.code[0] == 'r' ? (c.n - 1) * power(c.n, c.k - 1) : c.n - 1;
}

static size_t place_of(struct shape c, struct edit e) {
    return (size_t)((e.pack * (uint64_t)pieces_of(c) + e.piece) * (uint64_t)c.s + e.byte);
}

/* whether a row of digits has a number other than 0 */
static int some_digit(const uint8_t *row, int k) {
    int some = 0;
    for (int p = 0; p < k; p++) some |= row[p];
    return some != 0;
}

static int round_row(struct shape c, const uint8_t *request, int pack, int piece) {
    const int block = piece / (c.n - 1);
    int row = 0;
    if (request[block * c.k + pack] != piece % (c.n - 1) + 1) return -1;
    for (int i = 0; i < block; i++) row += some_digit(request + i * c.k, c.k);
    return row;
}

/* pack 0 is the highest bit of a set, so that sets go down as their lists go up */
static int even_row(struct shape c, const uint8_t *request, int pack, int piece) {
    int at = 0, row = 0;
    for (int size = 1; size <= c.k; size++)
        for (int set = (1 << c.k) - 1; set > 0; set--) {
            if (__builtin_popcount((unsigned)set) != size) continue;
            for (int r = power(c.n - 1, size - 1); r > 0; r--, row++)
                for (int p = 0; p < c.k; p++)
                    if (set >> (c.k - 1 - p) & 1 && request[at++] == piece && p == pack) return row;
        }
    return -1;
}

/* the row of the answer that the piece is in, or -1 */
static int row_of(struct shape c, const uint8_t *request, struct edit e) {
    const int pack = (int)e.pack, piece = (int)e.piece;
    if (c.code[0] == 'e') return even_row(c, request, pack, piece);
    if (c.code[0] == 'r') return round_row(c, request, pack, piece);
    return request[pack] == piece + 1 ? 0 : -1;
}

/* by the rules: the row's byte, or the word that it is in, a step for each unit of the difference */
static void move(uint8_t *answer, struct shape c, int row, struct edit e, uint8_t old) {
    if (row < 0) return;
    uint8_t *low = answer + row * c.s + (int)e.byte;
    if (!c.add) {
        *low = (uint8_t)(*low ^ old ^ e.value);
        return;
    }
    const int high = e.byte % 2 == 1;
    for (int steps = abs(e.value - old); steps > 0; steps--) {
        const int up = e.value > old;
        *low = (uint8_t)(up ? *low + 1 : *low - 1);
        if (!high && *low == (up ? 0 : 255)) low[1] = (uint8_t)(up ? low[1] + 1 : low[1] - 1);
    }
}

/* what the archive answers with this store, in the season if there is one */
static int64_t afresh(uint8_t *answer, size_t room, const char *cat, size_t cat_len, uint64_t mirror, const uint8_t *store, size_t store_len,
                      const uint8_t *request, size_t asked) {
    return gozimpe_answer((const uint8_t *)cat, cat_len, 2026, 3, 1, mirror, store, store_len, request, asked, answer, room);
}

/* saved and new less old, in the catalogue's sum */
static void differ(uint8_t *saved, const uint8_t *new, const uint8_t *old, size_t length, int add) {
    for (size_t i = 0; !add && i < length; i++) saved[i] = (uint8_t)(saved[i] ^ new[i] ^ old[i]);
    for (size_t i = 0; add && i < length; i += 2) {
        int word = saved[i] + 256 * saved[i + 1] + new[i] + 256 * new[i + 1] - old[i] - 256 * old[i + 1] + 65536;
        saved[i] = (uint8_t)word, saved[i + 1] = (uint8_t)(word / 256);
    }
}

/* ---- one catalogue, with a store that has spare bytes behind it, and a request */

struct one {
    struct shape c;
    struct served v;
    char cat[MOST_TEXT];
    size_t cat_len;
    uint8_t *store, *saved, *after, *fresh;
};

static struct one prepare(struct shape c) {
    static unsigned turn;
    struct one o = {.c = c, .v = serve(c)};
    char bare[128];
    size_t len = head(bare, c), room = o.v.slot + 2 * (size_t)c.s + SPARE;
    o.cat_len = turn++ % 2 ? with_lengths(o.cat, bare, len) : 0;
    if (o.cat_len == 0) memcpy(o.cat, bare, o.cat_len = len);
    o.store = malloc(o.v.store_len + SPARE), o.saved = calloc(1, room), o.after = calloc(1, room), o.fresh = calloc(1, room);
    if (o.store == NULL || o.saved == NULL || o.after == NULL || o.fresh == NULL) exit(2);
    memset(o.store, 0, o.v.store_len + SPARE);
    memcpy(o.store, o.v.store, o.v.store_len);
    memcpy(o.saved, o.v.answer, o.v.answer_len);
    return o;
}

static void done(struct one *o) {
    free(o->v.store), free(o->v.answer), free(o->store), free(o->saved), free(o->after), free(o->fresh);
}

static struct given given(const struct one *o, struct edit e) {
    return (struct given){o->cat, o->cat_len, o->v.store_len, o->v.request_len, o->v.answer_len, o->v.mirror, o->store, o->v.request, o->saved, e};
}

/* ---- corrections that are made */

/* the saved answer as it is, right or not: by the rules, and by what the archive answers before and after */
static void corrected(const char *what, struct one *o, struct edit e) {
    const size_t place = place_of(o->c, e), length = o->v.answer_len;
    const struct given g = given(o, e);
    const uint8_t old = o->store[place];
    const int row = length == 0 ? -1 : row_of(o->c, o->v.request, e), right = same(o->saved, o->v.answer, length);
    memcpy(o->after, o->saved, length);
    move(o->after, o->c, row, e, old);
    int moved = 0;
    for (size_t i = 0; i < length; i++) moved += o->after[i] != o->saved[i];
    expect(moved <= 1 + o->c.add && (row >= 0 || moved == 0), what, -310);
    if (o->v.store_len <= SMALL_STORE || right) {
        o->store[place] = e.value;
        int64_t fresh = afresh(o->fresh, o->v.slot, o->cat, o->cat_len, o->v.mirror, o->store, o->v.store_len, o->v.request, o->v.request_len);
        o->store[place] = old;
        expect(fresh == (int64_t)length, what, (long)fresh);
        if (right) expect(same(o->after, o->fresh, length), what, -311);
        differ(o->fresh, o->saved, o->v.answer, length, o->c.add);
        expect(same(o->after, o->fresh, length), what, -312);
    }
    both(what, &g, 0, o->after, place);
}

/* the saved answer: right, zeros, all ones, random, or right but for a byte */
enum saved { RIGHT, ZEROS, ONES, RANDOM, ONE_OFF, SAVED };

static void save(struct one *o, enum saved kind) {
    const size_t length = o->v.answer_len;
    memcpy(o->saved, o->v.answer, length);
    if (kind == ZEROS || kind == ONES) memset(o->saved, kind == ZEROS ? 0 : 255, length);
    for (size_t i = 0; kind == RANDOM && i < length; i++) o->saved[i] = (uint8_t)draw(256);
    if (kind == ONE_OFF && length > 0) o->saved[draw((unsigned)length)] ^= (uint8_t)(1u << draw(8));
}

/* a new value beside the old: the same, one more, one less, a bit, the other bits, the ends, any */
static uint8_t value_beside(uint8_t old) {
    static unsigned turn;
    const uint8_t some[] = {old, (uint8_t)(old + 1), (uint8_t)(old - 1), (uint8_t)(old ^ 128), (uint8_t)~old, 0, 255, (uint8_t)draw(256)};
    return some[turn++ % sizeof some];
}

static void try_edit(const char *what, struct one *o, struct edit e, enum saved kind) {
    save(o, kind);
    e.value = value_beside(o->store[place_of(o->c, e)]);
    corrected(what, o, e);
    save(o, RIGHT);
}

/* a byte of a piece that the request names, or does not; of any if none is found */
static struct edit look_for(const struct one *o, int named) {
    struct edit e = {0, 0, draw((unsigned)o->c.s), 0};
    for (int tries = 0; tries < 300; tries++) {
        e.pack = draw((unsigned)o->c.k), e.piece = draw((unsigned)pieces_of(o->c));
        if (o->v.answer_len > 0 && (row_of(o->c, o->v.request, e) >= 0) == named) break;
    }
    return e;
}

/* the ends of every bound, and some bytes of pieces that are named and not; of few bytes all there are */
static void edits(struct one *o, int some) {
    const uint64_t k = (uint64_t)o->c.k, pieces = (uint64_t)pieces_of(o->c), s = (uint64_t)o->c.s;
    for (int i = 0; i < 8; i++)
        try_edit("correct: first and last", o, (struct edit){i & 1 ? k - 1 : 0, i & 2 ? pieces - 1 : 0, i & 4 ? s - 1 : 0, 0}, (enum saved)(i % SAVED));
    for (int i = 0; i < some; i++) {
        try_edit("correct: named", o, look_for(o, 1), (enum saved)(i % SAVED));
        if (i % 2 == 0) try_edit("correct: not named", o, look_for(o, 0), (enum saved)(i / 2 % SAVED));
    }
    for (size_t at = 0; o->v.store_len <= 64 && at < o->v.store_len; at++)
        try_edit("correct: every byte", o, (struct edit){at / s / pieces, at / s % pieces, at % s, 0}, (enum saved)(at % SAVED));
}

/* ---- corrections that are refused */

/* edits that there are none of, the first of each kind next to one there is; where numbers are cut to 32 or 8 bits, or multiplied past 64, they are in
 * bounds */
static void no_edits(const struct one *o) {
    const uint64_t k = (uint64_t)o->c.k, pieces = (uint64_t)pieces_of(o->c), s = (uint64_t)o->c.s;
    const uint64_t m = UINT64_MAX, half = (uint64_t)1 << 63, word = (uint64_t)1 << 32;
    const struct edit none[] = {
        {k, 0, 0, 1}, {k + 1, 0, 0, 1}, {256, 0, 0, 1}, {word, 0, 0, 1}, {word + k - 1, pieces - 1, s - 1, 1}, {half, 0, 0, 1},
        {m, 0, 0, 1}, {m, pieces - 1, s - 1, 1}, {0, pieces, 0, 1}, {k - 1, pieces, 0, 1}, {0, pieces + 1, 0, 1}, {0, 256 + pieces - 1, 0, 1},
        {0, word, 0, 1}, {k - 1, word + pieces - 1, s - 1, 1}, {0, half, 0, 1}, {0, m, 0, 1}, {1, m, 0, 1}, {0, 0, s, 1}, {k - 1, pieces - 1, s, 1},
        {0, 0, s + 1, 1}, {0, 0, 65536, 1}, {0, 0, word, 1}, {k - 1, pieces - 1, word + s - 1, 1}, {0, 0, half, 1}, {0, 0, m, 1},
        {0, 1, m, 1}, {k, pieces, s, 1}, {m, m, m, 1}, {0, m, s, 1}, {1, m - pieces + 1, 0, 1}, {m, pieces, 0, 1}, {1, m, s, 1},
    };
    for (size_t i = 0; i < sizeof none / sizeof *none; i++) {
        const struct given g = given(o, none[i]);
        refused("correct: 19", &g, -19);
    }
}

/* saved answers of other lengths: a byte, a piece more or less, the longest that there is, none, a single byte */
static void other_lengths(const struct one *o) {
    const size_t right = o->v.answer_len, s = (size_t)o->c.s, some[] = {right + 1, right - 1, right + s, right - s, o->v.slot, o->v.slot + s, 0, 1, right + 2};
    struct given g = given(o, (struct edit){0, 0, 0, 1});
    for (size_t i = 0; i < sizeof some / sizeof *some; i++) {
        if (some[i] == right || some[i] > o->v.slot + s + SPARE) continue;
        g.answer_len = some[i];
        refused("correct: 10", &g, -10);
    }
}

/* mirror, request and store */
static void other_calls(const struct one *o) {
    const struct shape c = o->c;
    const size_t stores[] = {o->v.store_len - 1, o->v.store_len + 1, o->v.store_len - (size_t)c.s, o->v.store_len + (size_t)c.k, 0};
    const uint64_t mirrors[] = {(uint64_t)c.n, (uint64_t)c.n + 1, 256 + o->v.mirror, ((uint64_t)1 << 32) + o->v.mirror, UINT64_MAX};
    const size_t asked = o->v.request_len, requests[] = {asked - 1, asked + 1, 0};
    const struct edit e = {0, 0, 0, 1};
    uint8_t request[MOST_REQUEST] = {0};
    for (size_t i = 0; i < sizeof stores / sizeof *stores; i++) {
        struct given g = given(o, e);
        if (stores[i] == o->v.store_len || stores[i] > o->v.store_len + SPARE) continue;
        g.store_len = stores[i];
        refused("correct: 8", &g, -8);
    }
    for (size_t i = 0; i < sizeof mirrors / sizeof *mirrors; i++) {
        struct given g = given(o, e);
        g.mirror = mirrors[i];
        refused("correct: 3", &g, -3);
    }
    memcpy(request, o->v.request, asked);
    for (size_t i = 0; i < sizeof requests / sizeof *requests; i++) {
        struct given g = given(o, e);
        g.request = request, g.request_len = requests[i];
        refused("correct: 7, by length", &g, -7);
    }
    struct given g = given(o, e);
    g.request = request;
    if (c.code[0] != 'e' || power(c.n, c.k) < 256) {
        request[asked - 1] = (uint8_t)(c.code[0] == 'e' ? power(c.n, c.k) : c.n);
        refused("correct: 7, a number too large", &g, -7);
        request[asked - 1] = o->v.request[asked - 1];
    }
    if (c.code[0] == 's' || c.code[0] == 'r') {
        g.mirror = (o->v.mirror + 1) % (uint64_t)c.n;
        refused("correct: 7, another mirror's", &g, -7);
        g.mirror = o->v.mirror;
    }
    if (c.code[0] == 'e' || c.code[0] == 'r') {
        memset(request, 0, asked);
        refused("correct: 7, zeros", &g, -7);
    }
}

/* every choice of the nine refusals at once: the first of them is given, whichever way each comes about */
static void every_choice(struct shape c) {
    static const int order[] = {1, 2, 17, 15, 3, 7, 8, 19, 10};
    struct one o = prepare(c);
    const uint64_t k = (uint64_t)c.k, pieces = (uint64_t)pieces_of(c), s = (uint64_t)c.s, m = UINT64_MAX;
    const uint64_t mirrors[] = {(uint64_t)c.n, m, ((uint64_t)1 << 32) + o.v.mirror};
    const struct edit none[] = {{k, 0, 0, 9}, {0, pieces, 0, 9}, {0, 0, s, 9}, {m, 0, 0, 9}, {0, m, 0, 9}, {0, 0, m, 9}, {m, m, m, 9}};
    const size_t stores[] = {o.v.store_len - 1, o.v.store_len + 1, 0}, requests[] = {o.v.request_len - 1, o.v.request_len + 1, 0},
                 answers[] = {o.v.answer_len + 1, o.v.answer_len - 1, 0, o.v.slot + (size_t)c.s};
    static const uint8_t zeros[MOST_REQUEST] = {0};
    uint8_t request[MOST_REQUEST] = {0};
    memcpy(request, o.v.request, o.v.request_len);
    for (unsigned mask = 0; mask < 512; mask++) {
        const unsigned t = mask + draw(64);
        struct shape text_of = {c.code, mask & 2 ? 17 : c.n, mask & 4 ? 1 : c.k, mask & 8 ? c.s | 1 : c.s, c.add || mask & 8, c.season};
        char bare[128], lined[MOST_TEXT];
        size_t len = head(bare, text_of), lined_len = t % 2 ? with_lengths(lined, bare, len) : 0;
        struct given g = given(&o, (struct edit){0, 0, 0, 9});
        g.cat = lined_len > 0 ? lined : bare, g.cat_len = (lined_len > 0 ? lined_len : len) - (mask & 1);
        if (mask & 16) g.mirror = mirrors[t % 3];
        if (mask & 32) g.request = request, g.request_len = requests[t % 3];
        if (mask & 32 && c.code[0] != 't' && t % 4 == 3) {
            g.request = zeros, g.request_len = o.v.request_len, g.mirror = mask & 16 ? g.mirror : (uint64_t)c.n - 1;
        }
        if (mask & 64) g.store_len = stores[t % 3];
        if (mask & 128) g.edit = none[t % 7];
        if (mask & 256) g.answer_len = answers[t % 4];
        if (mask == 0) continue;
        int first = 0;
        while (!(mask >> first & 1)) first++;
        refused("correct: several refusals", &g, -order[first]);
    }
    done(&o);
}

/* ---- several saved answers */

static void request_for(struct shape c, uint64_t mirror, uint8_t *request, size_t *asked) {
    int packs[1024], total = 0;
    if (c.code[0] == 'e') *asked = (size_t)even_request(c.n, c.k, request, packs);
    else if (c.code[0] == 'r') *asked = round_list(request, c.n, c.k, (int)mirror);
    else {
        for (int p = 0; p < c.k; p++) total += request[p] = (uint8_t)draw((unsigned)c.n);
        if (c.code[0] == 's') {
            total -= request[c.k - 1];
            request[c.k - 1] = (uint8_t)((mirror + (uint64_t)(c.n * c.k - total)) % (uint64_t)c.n);
        }
        *asked = (size_t)c.k;
    }
}

enum { KEPT = 3 };

/* three answers that a mirror keeps; of the codes over rows of digits, the empty one among them where there can be one */
struct kept {
    uint8_t request[MOST_REQUEST], *before, *now;
    size_t asked, length;
};

static int64_t correct_kept(const struct one *o, struct kept *a, uint8_t *bytes, struct edit e, uint8_t *store) {
    const uint8_t *cat = (const uint8_t *)o->cat;
    return store == NULL ? gozimpe_correct_answer(cat, o->cat_len, o->v.mirror, o->store, o->v.store_len, a->request, a->asked, bytes, a->length,
                                                  e.pack, e.piece, e.byte, e.value)
                         : gozimpe_correct(cat, o->cat_len, o->v.mirror, store, o->v.store_len, a->request, a->asked, bytes, a->length,
                                           e.pack, e.piece, e.byte, e.value);
}

/* in one order: the answers, then the store with the last of them or with a copy of the first; each is what is answered afresh, also after a second run */
static void in_order(struct one *o, struct kept *all, const int *order, struct edit e, int copied) {
    const size_t place = place_of(o->c, e);
    uint8_t *store = malloc(o->v.store_len), *scratch = malloc(o->v.slot + 1);
    if (store == NULL || scratch == NULL) exit(2);
    memcpy(store, o->store, o->v.store_len);
    for (int i = 0; i < KEPT; i++) memcpy(all[i].now, all[i].before, all[i].length);
    for (int i = 0; i < KEPT - !copied; i++) expect(correct_kept(o, &all[order[i]], all[order[i]].now, e, NULL) == 0, "correct: an answer of several", i);
    struct kept *with = &all[order[copied ? 0 : KEPT - 1]];
    memcpy(scratch, with->before, with->length);
    expect(correct_kept(o, with, copied ? scratch : with->now, e, store) == 0, "correct: the store after several", copied);
    if (copied) expect(same(scratch, with->now, with->length), "correct: a copy moves alike", copied);
    for (int second = 0; second <= 1; second++) {
        for (int i = 0; i < KEPT; i++) {
            int64_t fresh = afresh(o->fresh, o->v.slot, o->cat, o->cat_len, o->v.mirror, store, o->v.store_len, all[i].request, all[i].asked);
            expect(fresh == (int64_t)all[i].length && same(all[i].now, o->fresh, all[i].length), "correct: several are as answered afresh", i);
            if (!second) expect(correct_kept(o, &all[i], all[i].now, e, store) == 0, "correct: once more", i);
        }
        expect(store[place] == e.value, "correct: the store's byte", second);
    }
    store[place] = o->store[place];
    expect(same(store, o->store, o->v.store_len), "correct: the store's other bytes", copied);
    free(store), free(scratch);
}

static void several(struct shape c) {
    static const int orders[][KEPT] = {{0, 1, 2}, {0, 2, 1}, {1, 0, 2}, {1, 2, 0}, {2, 0, 1}, {2, 1, 0}};
    struct one o = prepare(c);
    struct kept all[KEPT];
    if (c.code[0] != 'e') o.v.mirror = 0;
    for (int i = 0; i < KEPT; i++) {
        all[i].before = malloc(o.v.slot + 1), all[i].now = malloc(o.v.slot + 1);
        if (all[i].before == NULL || all[i].now == NULL) exit(2);
        request_for(c, o.v.mirror, all[i].request, &all[i].asked);
        if (i == 1 && (c.code[0] == 's' || c.code[0] == 't')) memset(all[i].request, 0, all[i].asked);
        int64_t length = afresh(all[i].before, o.v.slot, o.cat, o.cat_len, o.v.mirror, o.store, o.v.store_len, all[i].request, all[i].asked);
        expect(length >= 0, "correct: an answer to keep", (long)length);
        all[i].length = length < 0 ? 0 : (size_t)length;
    }
    for (size_t i = 0; i < sizeof orders / sizeof *orders; i++)
        for (int copied = 0; copied <= 1; copied++) {
            memcpy(o.v.request, all[0].request, o.v.request_len = all[0].asked);
            struct edit e = look_for(&o, i % 3 > 0);
            e.value = value_beside(o.store[place_of(c, e)]);
            in_order(&o, all, orders[i], e, copied);
        }
    for (int i = 0; i < KEPT; i++) free(all[i].before), free(all[i].now);
    done(&o);
}

/* ---- carries */

/* each of some values after each, as the low and the high byte of the first word and the last, in saved answers of every kind: by the references, and of
 * the first by hand, too */
static void carries(const char *code) {
    static const uint8_t ends[] = {0, 1, 2, 127, 128, 254, 255};
    static const uint8_t words[][2] = {{0, 0}, {1, 0}, {255, 0}, {0, 1}, {255, 127}, {0, 128}, {0, 255}, {254, 255}, {255, 255}};
    const struct shape c = {code, 2, 2, 4, 1, NEVER};
    struct one o = prepare(c);
    struct edit e = look_for(&o, 1);
    for (size_t i = 0; i < sizeof ends * sizeof ends * (sizeof words / sizeof *words); i++) {
        const uint8_t old = ends[i % sizeof ends], *word = words[i / (sizeof ends * sizeof ends)];
        e.value = ends[i / sizeof ends % sizeof ends];
        for (e.byte = 0; e.byte < 4; e.byte++) {
            o.store[place_of(c, e)] = old;
            afresh(o.v.answer, o.v.slot, o.cat, o.cat_len, o.v.mirror, o.store, o.v.store_len, o.v.request, o.v.request_len);
            for (size_t at = 0; at < o.v.answer_len; at++) o.saved[at] = word[at % 2];
            corrected("correct: carries", &o, e);
        }
    }
    done(&o);
}

/* single corrections whose outcome is plain: a request for both packs of two bytes, or of one piece */
static void cards(void) {
    static const struct { const char *code, *sum; uint64_t pack, byte; uint8_t value, saved[2], after[2]; } all[] = {
        {"short", "", 0, 0, 0xFF, {0x99, 0x00}, {0x3C, 0x00}}, {"short", "", 1, 1, 0x01, {0x99, 0x00}, {0x99, 0x01}},
        {"turn", "", 0, 0, 0x5A, {0x99, 0x00}, {0x99, 0x00}},
        {"short", "sum=add\n", 0, 0, 0x5B, {0xFF, 0xFF}, {0x00, 0x00}}, {"short", "sum=add\n", 0, 0, 0x59, {0x00, 0x00}, {0xFF, 0xFF}},
        {"short", "sum=add\n", 0, 1, 0x01, {0xFF, 0xFF}, {0xFF, 0x00}}, {"turn", "sum=add\n", 1, 0, 0x00, {0xC2, 0x01}, {0xFF, 0x00}},
        {"turn", "sum=add\n", 1, 1, 0xFF, {0x00, 0x02}, {0x00, 0x01}}, {"turn", "sum=add\n", 0, 0, 0xFF, {0x1D, 0x01}, {0xC2, 0x01}},
    };
    static const uint8_t store[] = {0x5A, 0x00, 0xC3, 0x00}, row[] = {1, 1};
    char cat[96];
    for (size_t i = 0; i < sizeof all / sizeof *all; i++) {
        sprintf(cat, "code=%s\nmirrors=2\npacks=2\npiece=2\n%s", all[i].code, all[i].sum);
        struct given g = {cat, strlen(cat), 4, 2, 2, 0, store, row, all[i].saved, {all[i].pack, 0, all[i].byte, all[i].value}};
        both("correct: by hand", &g, 0, all[i].after, (size_t)(2 * all[i].pack + all[i].byte));
    }
}

/* ---- all */

/* the row of zeros: no answer is kept, the store is set, and an answer of any bytes is too long */
static void zeros(struct shape c) {
    struct one o = prepare(c);
    memset(o.v.request, 0, o.v.request_len);
    o.v.mirror = c.code[0] == 's' ? 0 : o.v.mirror, o.v.answer_len = 0;
    edits(&o, 2), no_edits(&o), other_lengths(&o);
    done(&o);
}

static void one_shape(struct shape c, int some) {
    struct one o = prepare(c);
    edits(&o, some);
    if (o.v.store_len <= SMALL_STORE) no_edits(&o), other_lengths(&o), other_calls(&o);
    done(&o);
    if (c.code[0] == 's' || c.code[0] == 't') zeros(c);
}

void correct_once(void) {
    static const char *codes[] = {"short", "even", "turn", "round"};
    static const struct shape large[] = {{"short", 16, 32, 4096, 1, NEVER}, {"turn", 9, 32, 4095, 0, SEASON}, {"even", 2, 8, 4096, 1, NEVER},
                                         {"even", 16, 2, 4096, 0, NEVER},
                                         {"round", 2, 7, 4096, 1, SEASON}, {"round", 8, 3, 4095, 0, NEVER}};
    cards();
    for (size_t i = 0; i < sizeof codes / sizeof *codes; i++) {
        carries(codes[i]);
        for (int add = 0; add <= 1; add++) {
            const enum season season = add ? NEVER : SEASON;
            every_choice((struct shape){codes[i], 2, 2, 2, add, season}), every_choice((struct shape){codes[i], 3, 3, 4, add, NEVER});
            several((struct shape){codes[i], 2, 2, 2, add, season}), several((struct shape){codes[i], 3, 3, 6, add, season});
        }
    }
    for (size_t i = 0; i < sizeof large / sizeof *large; i++) {
        struct one o = prepare(large[i]);
        const uint64_t k = (uint64_t)o.c.k, pieces = (uint64_t)pieces_of(o.c), s = (uint64_t)o.c.s;
        try_edit("correct: the last byte", &o, (struct edit){k - 1, pieces - 1, s - 1, 0}, RIGHT);
        struct edit e = look_for(&o, 1);
        e.byte = s - 1;
        try_edit("correct: large", &o, e, RIGHT);
        try_edit("correct: large", &o, look_for(&o, 1), RANDOM);
        done(&o);
    }
}

void corrections(int n, int most_even) {
    static const int ks[] = {2, 3, 32};
    for (int add = 0; add <= 1; add++) {
        const enum season season = (n + add) % 2 ? SEASON : NEVER;
        for (size_t i = 0; i < sizeof ks / sizeof *ks; i++) {
            one_shape((struct shape){"short", n, ks[i], add ? 2 : 1, add, season}, 4), one_shape((struct shape){"turn", n, ks[i], add ? 2 : 1, add, season}, 4);
            one_shape((struct shape){"short", n, ks[i], add ? 8 : 7, add, NEVER}, 4), one_shape((struct shape){"turn", n, ks[i], add ? 6 : 9, add, NEVER}, 4);
        }
        for (int k = 2; k <= most_even; k++) {
            one_shape((struct shape){"even", n, k, add ? 2 : 1, add, season}, 20), one_shape((struct shape){"even", n, k, add ? 4 : 3, add, NEVER}, 10);
        }
        for (int k = 2; power(n, k - 1) <= 64; k++) {
            one_shape((struct shape){"round", n, k, add ? 2 : 1, add, season}, 20), one_shape((struct shape){"round", n, k, add ? 4 : 3, add, NEVER}, 10);
        }
    }
}
