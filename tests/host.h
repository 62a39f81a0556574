/* What the files of the host test share: checks, calls with every buffer watched, texts of catalogues, and parts of the plain reference. */
#ifndef HOST_H
#define HOST_H

#include <stddef.h>
#include <stdint.h>

/* counts a check, and says which one failed */
void expect(int ok, const char *what, long detail);

/* memory between guard bytes, or just so long where valgrind watches; and whether the guard bytes are as they were */
struct buffer {
    uint8_t *base, *at;
    size_t length;
};

struct buffer make(size_t length, const void *from);
int guarded(const struct buffer *b);

/* where this is set, every call is made once more with lengths behind the catalogue */
extern int lengths_too;

/* the text of a catalogue without lengths with a line for each pack behind it, of another kind each time, and its length; 0 if there can be none */
enum { MOST_TEXT = 128 + 16 * 64 };
size_t with_lengths(char *out, const char *catalogue, size_t length);

/* one call of the archive: `want` is the answer's length, with its bytes, or the refusal with a minus sign */
void call(const char *what, const char *catalogue, size_t catalogue_len, uint64_t mirror, const uint8_t *store, size_t store_len,
          const uint8_t *request, size_t request_len, size_t room, int64_t want, const uint8_t *bytes);

/* what the archive gives for the longest answer */
void longest(const char *what, const char *catalogue, size_t length, int64_t want);

/* a text that both calls refuse */
void refused_text(const char *what, const char *cat, size_t len, int64_t want);

/* the text of a catalogue without a season and lengths */
void text(char *out, const char *code, int n, int k, int s, int add);

/* numbers that look random, powers, and a piece of the store combined into another */
unsigned draw(unsigned below);
int power(int n, int k);
void add_piece(uint8_t *to, const uint8_t *store, size_t number, int s, int add);

/* a catalogue, and its text without lengths, whose length is handed back */
enum season { NEVER, SEASON, CLOSES_FIRST };

struct shape {
    const char *code;
    int n, k, s, add;
    enum season season;
};

size_t head(char *out, struct shape c);

/* a store, a request that a mirror admits, the answer by the reference, and the longest that an answer can be */
struct served {
    size_t store_len, request_len, answer_len, slot;
    uint64_t mirror;
    uint8_t *store, *answer, request[1024 + 1];
};

struct served serve(struct shape c);

/* a request of the even code, with the pack at each of its positions; its length */
int even_request(int n, int k, uint8_t *request, int *packs);

/* ---- the round code, in host_round.c */

/* a list of rows that a mirror admits, in any order; its length */
size_t round_list(uint8_t *request, int n, int k, int mirror);

/* the answer to an admitted list; its length */
size_t round_answer(uint8_t *answer, const uint8_t *store, const uint8_t *request, int n, int k, int s, int add);

/* the tests that no other code has: once, and for each number of mirrors */
void round_once(void);
void rounds(int n);

/* ---- correcting a byte, in host_correct.c */

/* a text that both calls refuse */
void correct_text(const char *what, const char *cat, size_t len, int64_t want);

/* the tests of the two calls: once, and for each number of mirrors with the most packs of its even code */
void correct_once(void);
void corrections(int n, int most_even);

#endif
