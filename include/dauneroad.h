/* Dauneroad: coded heat sheets for console and printer firmware.
 *
 * A heat of n records (1 to 64) with s words each (1 to 16: say finish, split and reaction time) travels as coded frames: each frame
 * carries a multiplier for each record and s values. Value w, counted from 0, is the sum of the products of each record's word w and
 * its multiplier, modulo a prime p. A board is memory that the caller owns; take feeds it frames, show tells which records the frames
 * settle, a record always with all its words. Everything here is proved against documents 01 and 02; see docs/C.md for what that
 * means and what it rests on.
 *
 * Every function answers a number:
 *   0                     done; for take: the frame is new and now stands
 *   100                   take: a repeat of what stands already
 *   200 + k               done, with the result k that the function names
 *   1 to 12, 15, 17, 18   refused, by the first check that fails (DAUNEROAD_MODULUS and so on below)
 * A refusal leaves all lent memory as it was, except that 5 writes u and 9 writes the mix.
 *
 * A slice is a pointer and a length in elements. The pointer is aligned for its element and valid for that many elements;
 * where the length is 0 any non-null aligned pointer does. Two slices of one call do not overlap where one of them is written.
 * No function keeps a pointer or allocates; of the C library only memcpy and memset are called. At most 48 KiB (49,152 bytes)
 * of stack are used, by quasiinverse at most 72 KiB (73,728). A board may be moved or copied between calls. Calls on different
 * boards may run at the same time.
 *
 * Coming from the version with one word a record: the functions have kept their names, so recompile everything that includes this
 * header. With s = 1 a heat's frames have the same bytes as before. What changed:
 *   open, read, write, seal   take s, behind n; s outside 1 to 16 is the new refusal 12
 *   read, seal                are lent s values where one was stored through a pointer, and answer 200 + s where they answered 0
 *   write                     takes s values where it took one, and is lent 264 + 4 * s bytes where it was lent 268
 *   show                      is lent n * s numbers where it was lent n
 *   a board                   has 4 + n * (n + s) words, the fourth being s, where it had 3 + n * (n + 1); words that the version with
 *                             one word stored are no board: 11. Take the heat's frames again on a board that is opened anew
 *   the macros                DAUNEROAD_BOARD_WORDS, DAUNEROAD_FRAME_BYTES and DAUNEROAD_LONGEST_FRAME take s
 */
#ifndef DAUNEROAD_H
#define DAUNEROAD_H

#include <stddef.h>
#include <stdint.h>

#ifdef __cplusplus
extern "C" {
#endif

/* Refusals, by the numbers of documents 01 and 02. */
enum {
    DAUNEROAD_MODULUS = 1,         /* p is no prime from 2 to 2147483647 */
    DAUNEROAD_SIZE = 2,            /* m or n above 64; n of 0 for frames, logs and open */
    DAUNEROAD_LENGTH = 3,          /* a lent slice's length is not the one named */
    DAUNEROAD_NUMBER = 4,          /* a number or a low end not below p, or a record out of range */
    DAUNEROAD_INSOLUBLE = 5,       /* solve: no solution; u says why */
    DAUNEROAD_FRAME_LENGTH = 6,    /* the frame is shorter or longer than its map says */
    DAUNEROAD_PADDING = 7,         /* a bit of the map stands at n or above, in a frame as long as its map says */
    DAUNEROAD_ZERO_MULTIPLIER = 8, /* multiplier 0 under a standing bit */
    DAUNEROAD_CONFLICT = 9,        /* the frame contradicts the standing ones; mix says how */
    DAUNEROAD_WITHDRAWAL = 10,     /* more frames to withdraw than stand */
    DAUNEROAD_NOT_BOARD = 11,      /* the words are no board */
    DAUNEROAD_WORDS = 12,          /* s is not 1 to 16; in a board's words that is 11 */
    DAUNEROAD_NOT_IN_SPAN = 15,    /* relay: the wanted row is no combination of the standing rows */
    DAUNEROAD_NOT_INNER = 17,      /* check: ADA differs from A: D is no inner inverse of A */
    DAUNEROAD_NOT_OUTER = 18       /* check: DAD differs from D: D is no outer inverse of A */
};

/* Take's other answers, and what done answers begin with. */
enum { DAUNEROAD_NEW = 0, DAUNEROAD_REPEAT = 100, DAUNEROAD_DONE = 200 };

/* The words of a board of n records with s words each. */
#define DAUNEROAD_BOARD_WORDS(n, s) (4 + (size_t)(n) * ((size_t)(n) + (size_t)(s)))

/* The bytes of a number in a frame modulo p: the fewest that hold p - 1, from 1 to 4. The most significant comes first. */
#define DAUNEROAD_WIDTH(p) \
    ((size_t)((uint32_t)(p) <= 256 ? 1 : (uint32_t)(p) <= 65536 ? 2 : (uint32_t)(p) <= 16777216 ? 3 : 4))

/* The most bytes that a frame of n records with s words modulo p has: its bit map, a multiplier for each record, s values. A buffer of
 * this size holds every frame that is accepted; what is longer is refused by 6 or 7, and a receiver may drop it unread. */
#define DAUNEROAD_FRAME_BYTES(p, n, s) (((size_t)(n) + 7) / 8 + ((size_t)(n) + (size_t)(s)) * DAUNEROAD_WIDTH(p))

/* The most bytes that any frame with s values has: 64 records and numbers of four bytes. dauneroad_write and dauneroad_relay are lent
 * exactly so many, whichever p and n are given, and fill only the front. */
#define DAUNEROAD_LONGEST_FRAME(s) (264 + 4 * (size_t)(s))

/* A low end, from 0 to p - 1, says how far below 0 records go: with it they run from -low to p - 1 - low. Seal and show with the same
 * one; docs/C.md says how to choose it. This is the one of document 01, (p - 1)/2 rounded down, with which records run from
 * -(p - 1)/2 to p/2: code that passes it behaves as before there were others, and the sheet program prints with it. */
#define DAUNEROAD_LOW(p) (((uint32_t)(p) - 1) / 2)

/* ---- the board ---- */

/* Writes a fresh board for n records with s words modulo p; board_len is DAUNEROAD_BOARD_WORDS(n, s). 0 when done; refuses 1, 2, 12,
 * 3. Take, withdraw, show and relay have p, n and s from the board. */
uint32_t dauneroad_open(uint32_t p, uint32_t n, uint32_t s, uint32_t *board, size_t board_len);

/* Takes a frame. 0: new, it stands now, mix untouched. 100: repeat, and 9: conflict; both write to the mix (n words) the
 * combination of the standing frames that the frame's multipliers are. It is a repeat only if all s values are the same combination of
 * the standing frames' values; one that is not makes it a conflict. Refuses 11, 3, then the frame's 6, 6, 7, 8 or 4 (see
 * dauneroad_read), then 9. */
uint32_t dauneroad_take(uint32_t *board, size_t board_len, const uint8_t *frame, size_t frame_len, uint32_t *mix,
                        size_t mix_len);

/* Drops the last t frames that were taken as new. 200 + the count that still stands; refuses 11, 10. */
uint32_t dauneroad_withdraw(uint32_t *board, size_t board_len, uint32_t t);

/* Marks each record (n marks, 1 or 0) that the standing frames settle, and gives its s words as signed numbers, from -low to
 * p - 1 - low, record after record: word w of record j is numbers[j * s + w] (n * s numbers; s zeros where the mark is 0). 200 + the
 * frames still missing; refuses 11, 3, then 4, low of p or more. */
uint32_t dauneroad_show(const uint32_t *board, size_t board_len, uint32_t low, uint32_t *marks, size_t marks_len,
                        int32_t *numbers, size_t numbers_len);

/* The frame that a relay box sends for a wanted row of n multipliers: the one that the board's frames combine to. Its values are that
 * combination of theirs. Writes the frame to the front of bytes as dauneroad_write does, the bytes after it keep their contents, and the
 * combination to the mix (n words: the multiplier of each standing frame in the order they were taken, then zeros). The board is only
 * read. 200 + the frame's length; refuses 11, 3 (wanted_len is n, mix_len is n, bytes_len is 264 + 4 * s, DAUNEROAD_LONGEST_FRAME(s)), 4
 * (a wanted number of p or more), then 15, the wanted row is no combination of the standing rows. The row of zeros always is one.
 *
 * Every assignment of residues to the records that meets the standing frames meets this frame, and no other frame with the wanted row has
 * that. Taken on the same board it is a repeat, 100, with the same mix. An office board of the same p, n and s that takes only frames
 * relayed from one unchanged board refuses none of them by 9 and never shows a record that this board leaves open; what it shows, this
 * board shows with the same numbers. */
uint32_t dauneroad_relay(const uint32_t *board, size_t board_len, const uint32_t *wanted, size_t wanted_len, uint32_t *mix,
                         size_t mix_len, uint8_t *bytes, size_t bytes_len);

/* ---- frames ---- */

/* Reads a frame: n multipliers and s values are written. 200 + s; refuses 1, 2, 12, 3 (multipliers_len is n, values_len is s), then the
 * frame's 6, 6, 7, 8 or 4: fewer bytes than the map has, 6; not map + b * standing bits + b * s bytes, where b is DAUNEROAD_WIDTH(p)
 * and every bit of the map counts, those at n or above too, 6; a bit that stands at n or above, 7; then the numbers in byte order,
 * the multipliers and behind them the values, a multiplier of 0, 8, a number of p or more, 4. */
uint32_t dauneroad_read(uint32_t p, uint32_t n, uint32_t s, const uint8_t *frame, size_t frame_len, uint32_t *multipliers,
                        size_t multipliers_len, uint32_t *values, size_t values_len);

/* Writes the frame of n multipliers and s values to the front of bytes (bytes_len is 264 + 4 * s, DAUNEROAD_LONGEST_FRAME(s)); the
 * bytes after it keep their contents. 200 + the frame's length; refuses 1, 2, 12, 3, 4 (the multipliers first, then the values). */
uint32_t dauneroad_write(uint32_t p, uint32_t n, uint32_t s, const uint32_t *multipliers, size_t multipliers_len,
                         const uint32_t *values, size_t values_len, uint8_t *bytes, size_t bytes_len);

/* The s values of a frame, to values: values[w] is the sum of products of records[j * s + w], word w of record j, and multipliers[j]
 * modulo p, over the n records (n * s numbers, from -low to p - 1 - low, record after record). 200 + s; refuses 1, 2, 12, 3
 * (records_len is n * s, multipliers_len is n, values_len is s), 4 (the multipliers first, then low, then the records). */
uint32_t dauneroad_seal(uint32_t p, uint32_t n, uint32_t s, uint32_t low, const int32_t *records, size_t records_len,
                        const uint32_t *multipliers, size_t multipliers_len, uint32_t *values, size_t values_len);

/* ---- a log of frames ---- */

/* Which frames of a log clash. The log has m frames (0 to 64; 0 is a log), in the order in which they came: the n multipliers and s
 * values of frame i, counted from 0, as dauneroad_read gives them, begin at log[i * (n + s)]. An assignment gives each record s residues,
 * and meets a frame if the frame's values are those that it gives. Let y be the first frame for which no assignment meets all of frames
 * 0 to y. Marked by 1 are y and, of the earlier frames whose multipliers are no combination of those before them, the ones that y's
 * multipliers combine from; all other marks become 0. So no assignment meets all marked frames, and leaving out any one of them, some
 * assignment meets the others. Which of them is false this does not tell. A frame whose multipliers are all 0 and whose values are not
 * clashes alone. 200 + the number of marked frames: 200, with all marks 0, where some assignment meets the whole log. Refuses 1, 2
 * (m above 64, n of 0 or above 64), 12, 3 (log_len is m * (n + s), marks_len is m), 4 (a number of the log, in whichever frame). */
uint32_t dauneroad_clash(uint32_t p, uint32_t m, uint32_t n, uint32_t s, const uint32_t *log, size_t log_len, uint32_t *marks,
                         size_t marks_len);

/* ---- signed readings ---- */

/* The signed reading of the residue v, to *record: v where v < p - low, else v - p. 0; refuses 1, 4 (low first, then v). */
uint32_t dauneroad_signed(uint32_t p, uint32_t low, uint32_t v, int32_t *record);

/* The residue that a record, from -low to p - 1 - low, is read from, to *residue. 0; refuses 1, 4 (low first, then the record). */
uint32_t dauneroad_residue(uint32_t p, uint32_t low, int32_t record, uint32_t *residue);

/* ---- tables: m rows of n numbers, stored row by row ---- */

/* The quasiinverse D of A (n rows of m numbers), with 1 at the chosen columns and rows, else 0. 200 + the rank; refuses 1, 2,
 * 3, 4. */
uint32_t dauneroad_quasiinverse(uint32_t p, uint32_t m, uint32_t n, const uint32_t *a, size_t a_len, uint32_t *d, size_t d_len,
                                uint32_t *column_marks, size_t column_marks_len, uint32_t *row_marks, size_t row_marks_len);

/* A basis of the kernel of A: vectors of n numbers fill the front of basis (n * n numbers), the rest becomes 0. 200 + the
 * number of vectors; refuses 1, 2, 3, 4. */
uint32_t dauneroad_kernel(uint32_t p, uint32_t m, uint32_t n, const uint32_t *a, size_t a_len, uint32_t *basis,
                          size_t basis_len);

/* A solution z (n numbers) of A z = w (m numbers), and u becomes 0: 200 + the rank. 5: there is none, z is untouched and u
 * (m numbers) is a combination of rows with u A = 0 and u w not 0. Refuses 1, 2, 3, 4 (A first, then w). */
uint32_t dauneroad_solve(uint32_t p, uint32_t m, uint32_t n, const uint32_t *a, size_t a_len, const uint32_t *w, size_t w_len,
                         uint32_t *z, size_t z_len, uint32_t *u, size_t u_len);

/* The nearest fit z (n numbers), whether A z = w has a solution or not, and what it leaves over, rest = w - A z modulo p (m numbers):
 * 200 + the rank. rest is 0 in every row that quasiinverse marks, and z in every column that it does not mark; no other pair is so and
 * adds up to w. rest is all 0 exactly if solve finds a solution, and then z is that one. Refuses 1, 2, 3, 4 (A first, then w), never
 * 5. */
uint32_t dauneroad_fit(uint32_t p, uint32_t m, uint32_t n, const uint32_t *a, size_t a_len, const uint32_t *w, size_t w_len,
                       uint32_t *z, size_t z_len, uint32_t *rest, size_t rest_len);

/* Whether D (n rows of m numbers), wherever it comes from, is a quasiinverse of A: A D A = A and D A D = D. 200 + the rank of A. What
 * quasiinverse leaves is always accepted, and D may be one on other rows and columns. With each D that is accepted, w - A (D w) modulo p
 * is all 0 exactly if A z = w has a solution, and then D w is one. Nothing is written. Refuses 1, 2, 3 (a_len is m * n, d_len is
 * n * m), 4 (A first, then D), then 17, A D A differs from A, then 18, D A D differs from D. */
uint32_t dauneroad_check(uint32_t p, uint32_t m, uint32_t n, const uint32_t *a, size_t a_len, const uint32_t *d, size_t d_len);

#ifdef __cplusplus
}
#endif

#endif
