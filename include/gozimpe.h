/* gozimpe: the answering end of private retrieval, for the host program of a mirror.
 *
 * A mirror holds a store: pack 0, pack 1, .., with nothing between. A lab sends it a request, a row of
 * small numbers, and gets back an answer. No single mirror can tell from its requests which pack a lab
 * wants, as long as the lab draws a key of its own for each fetch, evenly and independently of all else.
 * This header has the call that a mirror needs, request in, answer out, one that tells how long an answer
 * can be, and two that correct a byte of the store and bring saved answers up to date with it.
 *
 * Link with the archive libgozimpe.a (`scripts/archive` writes it to target/staticlib/).
 */
#ifndef GOZIMPE_H
#define GOZIMPE_H

#include <stddef.h>
#include <stdint.h>

#ifdef __cplusplus
extern "C" {
#endif

/* Why a call is refused. The result of the call is the number with a minus sign. Where several apply, the
 * first of this list is given. */
enum gozimpe_refusal {
    GOZIMPE_TEXT = 1,         /* the catalogue is not in its text form, or a byte follows its last line */
    GOZIMPE_BOUNDS = 2,       /* the catalogue's mirrors, packs, piece length or a pack's length are out of bounds, or it does
                               * not open before it closes */
    GOZIMPE_ONE_PACK = 17,    /* the catalogue has a single pack: no request could hide which pack is wanted */
    GOZIMPE_ODD_PIECE = 15,   /* the catalogue adds words (sum=add), and its piece length is odd */
    GOZIMPE_UNREAL_DAY = 13,  /* the catalogue has a season, and the given day is no real day of the years 2000 to 2399 */
    GOZIMPE_SEASON = 14,      /* the given day is outside the catalogue's season */
    GOZIMPE_MIRROR = 3,       /* the mirror number is not below the number of mirrors */
    GOZIMPE_REQUEST = 7,      /* the request is not one that this mirror admits */
    GOZIMPE_STORE_LENGTH = 8, /* the store is not packs x pieces x piece bytes long */
    GOZIMPE_EDIT = 19,        /* there is no such byte to correct: the pack is not below the number of packs, the piece not
                               * below the pieces of a pack, or the byte not below the piece length */
    GOZIMPE_ROOM = 9,         /* the answer buffer is too short for this answer */
    GOZIMPE_ANSWER_LENGTH = 10 /* the saved answer is not as long as the answer to this request is */
};

/* Answers one request.
 *
 * catalogue: the catalogue's text, four lines to seven and then one for each pack or none, each ended by a newline
 *            (byte 10), nothing after them:
 *                code=short          (or code=even, code=turn, code=round) which requests are admitted, and what is sent;
 *                                    see below
 *                mirrors=3           N, 2 to 16
 *                packs=3             K: short and turn, 2 to 32; even, 2 or more with N to the power of K at most 256;
 *                                    round, 2 or more with V, which is N to the power of K-1, at most 64;
 *                                    1 is refused by a number of its own (GOZIMPE_ONE_PACK)
 *                piece=4             S, 1 to 4096: the bytes of a piece
 *                open=2026-03-01     the season: its first day, and
 *                close=2027-03-01    the first day after it. Both lines or neither, each with four digits, hyphen,
 *                                    two, hyphen, two: a real day of the Gregorian calendar, years 2000 to 2399,
 *                                    or the text is out of form (GOZIMPE_TEXT). A catalogue without the lines
 *                                    is served on every day
 *                sum=add             (or no such line, and no other value) how pieces are combined into an
 *                                    answer. Without the line by exclusive or, byte by byte. With it they
 *                                    are added as rows of 16-bit words: the bytes 0 and 1 of a piece are its
 *                                    first word, the low byte first, 2 and 3 the next, and so on; each word
 *                                    wraps at 65536, and nothing is carried from one word into another. S
 *                                    must then be even (GOZIMPE_ODD_PIECE). Which requests are admitted, and
 *                                    how long the answers are, is the same with the line and without
 *                length=7            where a pack ends: K such lines, in the order of the packs, or none. As many
 *                                    as packs= says, be that in bounds or not, or the text is out of form
 *                                    (GOZIMPE_TEXT). A length has up to seven digits and is 1 to pieces x S (or
 *                                    GOZIMPE_BOUNDS): so many bytes are the pack, and the rest is padding. That
 *                                    is for the labs: store, requests and answers of a mirror are what they are
 *                                    without the lines
 * year, month, day: today's date, in the calendar and the time zone that the mirrors have agreed on. If the catalogue
 *            has a season, a request is answered on the days of it alone: 13 is given for a day that does not exist,
 *            14 for one outside. Without the two lines the three numbers are not looked at, whatever they are.
 * mirror:    which mirror this is, 0 to N-1.
 * store:     the packs. A pack has N-1 pieces in the short and the turning code, N to the power of K in the
 *            even code, and V x (N-1) in the round code, V blocks of N-1 one after another, each piece of S
 *            bytes: the store has K x pieces x S bytes, whatever the lengths are.
 * request:   the request's bytes as they came. Any bytes of any length are safe to pass.
 * answer:    where the answer is written, from its first byte on. As long as gozimpe_longest_answer says is
 *            always enough: S bytes in the short and the turning code; in the even code, rows x S, where rows
 *            is N^(K-1) + (N^(K-1) - 1)/(N - 1); in the round code V x S.
 *
 * What a code means for a mirror:
 *     code=short  It admits the rows of K numbers below N whose sum modulo N is its own number. The row of zeros,
 *                 which only mirror 0 can get, is answered with no bytes, every other row with S bytes.
 *     code=turn   It admits every row of K numbers below N, whichever mirror it is. The row of zeros, which any
 *                 mirror can get, is answered with no bytes, every other row with S bytes. A row that both codes
 *                 admit has the same answer in both; labs turn the mirrors round, so that the empty answer does
 *                 not always fall to mirror 0.
 *     code=even   It admits the lists of K x N^(K-1) numbers below N^K in which no number stands twice for the
 *                 same pack. Every answer has rows x S bytes, and none is empty.
 *     code=round  It admits the lists of V rows, one for each block of a pack, that hold each of the rows which it
 *                 admits in the short code once, in any order. Row i is answered from block i of each pack, as in
 *                 the short code, and the answers follow in the order of the rows; that to the row of zeros takes
 *                 no bytes. So mirror 0 always sends (V-1) x S bytes, and any other mirror V x S.
 *
 * Returns the length of the answer, 0 or more, or a refusal number with a minus sign. Where several
 * refusals apply, the first of 1, 2, 17, 15, 13, 14, 3, 7, 8, 9 is given.
 *
 * An answer of n bytes is written to answer[0] .. answer[n-1], and nothing else is written. 0 means an
 * empty answer, that to the row of zeros in the short and the turning code, and then no room is needed; in the
 * other two codes no answer is empty. A refusal writes nothing.
 *
 * Nothing outside the four buffers is read or written, no memory is allocated, no state is kept, and the
 * call always returns. Several threads may call it at once, with answer buffers of their own. The answer
 * buffer must lie apart from the other three, and nobody may write any of the four during the call; a
 * store that is a mapped file must not be written or made shorter meanwhile. The pointer of a buffer of
 * length 0 may be anything, NULL too.
 *
 * Have 16 KiB of stack left at each call. Measured: 5,320 bytes at the most, also in a process's first call, in
 * which the loader may look up memcpy.
 */
int64_t gozimpe_answer(const uint8_t *catalogue, size_t catalogue_len,
                       uint32_t year, uint32_t month, uint32_t day,
                       uint64_t mirror,
                       const uint8_t *store, size_t store_len,
                       const uint8_t *request, size_t request_len,
                       uint8_t *answer, size_t answer_len);

/* The length of the longest answer under a catalogue: an answer buffer of this many bytes is always enough.
 *
 * catalogue: the catalogue's text, as above. No season is tested, and lengths do not change the result, unless they
 * are refused. Returns the length, 1 or more, or -GOZIMPE_TEXT, -GOZIMPE_BOUNDS, -GOZIMPE_ONE_PACK or
 * -GOZIMPE_ODD_PIECE. Everything else is as for gozimpe_answer.
 */
int64_t gozimpe_longest_answer(const uint8_t *catalogue, size_t catalogue_len);

/* Corrects one byte of the store, and an answer that was saved with it.
 *
 * catalogue, mirror, request: as for gozimpe_answer. There is no day here: a catalogue's season is not tested, so
 *            that a store can be corrected before it opens and after it has closed.
 * store:     the packs as they are before the correction, as long as gozimpe_answer wants them.
 * answer:    the answer that is kept for this request, of just its length: the n bytes that gozimpe_answer has
 *            returned n for, none for the row of zeros. One byte more or less is GOZIMPE_ANSWER_LENGTH, a longer
 *            buffer too. Whether the bytes are right is not looked at.
 * pack, piece, byte: which byte. Packs are counted from 0 to K-1, the pieces of a pack from 0 as they lie in the
 *            store (in the round code block by block, N-1 pieces each), the bytes of a piece from 0 to S-1: it is
 *            byte (pack x pieces + piece) x S + byte of the store. Padding can be corrected like any other byte;
 *            lines length= make no difference.
 * value:     what that byte is from now on. It may be what it was; then nothing changes.
 *
 * If the request names the piece, the answer moves in the row that has it, by the new value less the old one:
 * by exclusive or, that byte of the row takes in both values; under sum=add, their difference is added to the
 * word that the byte is in, as its low byte or its high byte, and the word wraps at 65536 and leaves the next
 * one alone. So one byte of the answer changes at most, or two under sum=add. If the request does not name the
 * piece, the answer stays. Either way an answer that was right is what gozimpe_answer gives with the corrected
 * store, and one that was wrong is wrong by as much as before.
 *
 * Returns 0, or a refusal number with a minus sign: the first that applies of 1, 2, 17, 15, 3, 7, 8, 19, 10.
 * GOZIMPE_ROOM is never given here.
 *
 * Written are the one byte of the store and the bytes of the answer that move. A refusal writes nothing.
 *
 * The old value is read from the store, and is gone after the call. Who keeps several answers brings all of them
 * up to date by gozimpe_correct_answer first, in any order, while the store is as it was, and then calls this
 * one, with the last of them, or with a copy, made before, of one that has had its turn. Once the store is set,
 * the old value equals the new one, and an answer that was left out does not move any more: it has to be worked
 * out afresh. For the same reason an answer must not be corrected twice by gozimpe_correct_answer with one store:
 * it would move twice. A second call of gozimpe_correct, with the store that the first has set, moves nothing.
 *
 * Nothing outside the four buffers is read or written, no memory is allocated, no state is kept, and the call
 * always returns. Store and answer must lie apart from each other and from the other two. Nobody may write any
 * of the four during the call, nor read the store or the answer: while a store is being set, no other thread
 * may answer from it. The pointer of a buffer of length 0 may be anything, NULL too.
 *
 * Have 16 KiB of stack left at each call. Measured: 4,760 bytes at the most.
 */
int64_t gozimpe_correct(const uint8_t *catalogue, size_t catalogue_len,
                        uint64_t mirror,
                        uint8_t *store, size_t store_len,
                        const uint8_t *request, size_t request_len,
                        uint8_t *answer, size_t answer_len,
                        uint64_t pack, uint64_t piece, uint64_t byte, uint8_t value);

/* Corrects a saved answer alone, for a byte of the store that is going to be set.
 *
 * Parameters, result, refusals and what becomes of the answer are those of gozimpe_correct, but the store is only
 * read and stays as it is. It must still have the old value. Several threads may call this at once over one store,
 * each with an answer of its own, also beside gozimpe_answer; nobody may set the store meanwhile.
 */
int64_t gozimpe_correct_answer(const uint8_t *catalogue, size_t catalogue_len,
                               uint64_t mirror,
                               const uint8_t *store, size_t store_len,
                               const uint8_t *request, size_t request_len,
                               uint8_t *answer, size_t answer_len,
                               uint64_t pack, uint64_t piece, uint64_t byte, uint8_t value);

#ifdef __cplusplus
}
#endif

#endif
