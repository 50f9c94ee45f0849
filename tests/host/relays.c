/* The relay box, document 02's #107, through the header alone: examples worked out by hand. One line per example group; ends with 0 only if
 * all of them hold. */
#include "dauneroad.h"
#include "expect.h"

#define BYTES(...) ((const uint8_t[]){__VA_ARGS__}), sizeof((const uint8_t[]){__VA_ARGS__})
#define ROW(...) ((const uint32_t[]){__VA_ARGS__})

enum { SLOTS = 65, ROOM = DAUNEROAD_LONGEST_FRAME(17) };
static uint32_t mix[SLOTS];
static uint8_t bytes[ROOM];

static void fill(void)
{
    memset(mix, 0xee, sizeof mix);
    memset(bytes, 0xee, sizeof bytes);
}

static int filled(const void *memory, size_t from, size_t to)
{
    for (size_t i = from; i < to; i++)
        if (((const uint8_t *)memory)[i] != 0xee)
            return 0;
    return 1;
}

static size_t words_of(const uint32_t *board) { return DAUNEROAD_BOARD_WORDS(board[1], board[3]); }

/* Relay gives this mix and this frame, the memory behind them stays, and so does the board; the board itself then answers the frame 100
 * with the same mix, and reading the frame gives the wanted row. */
static int relays(const uint32_t *board, const uint32_t *wanted, const uint32_t *want_mix, const uint8_t *frame, size_t length)
{
    uint32_t before[4 + 64 * 80], copy[4 + 64 * 80], again[64], row[64], values[16];
    const uint32_t p = board[0], n = board[1], s = board[3];
    const size_t words = words_of(board);
    fill();
    memcpy(before, board, words * sizeof *board);
    int holds = dauneroad_relay(board, words, wanted, n, mix, n, bytes, DAUNEROAD_LONGEST_FRAME(s)) == DAUNEROAD_DONE + length;
    holds = holds && memcmp(mix, want_mix, n * sizeof *mix) == 0 && filled(mix, n * sizeof *mix, sizeof mix);
    holds = holds && memcmp(bytes, frame, length) == 0 && filled(bytes, length, sizeof bytes);
    holds = holds && memcmp(board, before, words * sizeof *board) == 0;
    memcpy(copy, before, words * sizeof *copy);
    holds = holds && dauneroad_take(copy, words, bytes, length, again, n) == DAUNEROAD_REPEAT;
    holds = holds && memcmp(again, want_mix, n * sizeof *again) == 0 && memcmp(copy, before, words * sizeof *copy) == 0;
    holds = holds && dauneroad_read(p, n, s, bytes, length, row, n, values, s) == DAUNEROAD_DONE + s;
    return holds && memcmp(row, wanted, n * sizeof *row) == 0;
}

/* The answer is this number, and the mix and the bytes are as they were. */
static int refuses(const uint32_t *board, size_t words, const uint32_t *wanted, size_t wanted_len, size_t mix_len, size_t bytes_len,
                   uint32_t number)
{
    fill();
    return dauneroad_relay(board, words, wanted, wanted_len, mix, mix_len, bytes, bytes_len) == number &&
           filled(mix, 0, sizeof mix) && filled(bytes, 0, sizeof bytes);
}

static int not_in_span(const uint32_t *board, const uint32_t *wanted)
{
    const uint32_t n = board[1];
    return refuses(board, words_of(board), wanted, n, n, DAUNEROAD_LONGEST_FRAME(board[3]), DAUNEROAD_NOT_IN_SPAN);
}

/* p = 7, the records -2, 0 and -1: (1 2 0) 5 and (0 1 3) 4 stand, then (0 0 1) 6 too. */
static const uint32_t two[] = {7, 3, 2, 1, 1, 2, 0, 5, 0, 1, 3, 4, 0, 0, 0, 0};
static const uint32_t three[] = {7, 3, 3, 1, 1, 2, 0, 5, 0, 1, 3, 4, 0, 0, 1, 6};

static void sums(void)
{
    EXPECT(relays(two, ROW(1, 3, 3), ROW(1, 1, 0), BYTES(0x07, 1, 3, 3, 2)));
    EXPECT(relays(two, ROW(2, 4, 0), ROW(2, 0, 0), BYTES(0x03, 2, 4, 3)));
    EXPECT(relays(two, ROW(0, 1, 3), ROW(0, 1, 0), BYTES(0x06, 1, 3, 4)));
    /* (1 2 0) - 2 (0 1 3) is (1 0 -6), which is (1 0 1), with 5 - 8 = -3 = 4 */
    EXPECT(relays(two, ROW(1, 0, 1), ROW(1, 5, 0), BYTES(0x05, 1, 1, 4)));
    EXPECT(relays(two, ROW(0, 0, 0), ROW(0, 0, 0), BYTES(0x00, 0)));
    EXPECT(not_in_span(two, ROW(0, 0, 1)));
    EXPECT(not_in_span(two, ROW(1, 3, 4)));
    EXPECT(not_in_span(two, ROW(1, 0, 0)));
    group("relay, p = 7, sums of two frames, and rows that are none");
}

/* On a full board every row is a combination: the records by themselves, and all of them at once. */
static void full(void)
{
    /* (1 2 0) - 2 (0 1 3) + 6 (0 0 1) */
    EXPECT(relays(three, ROW(1, 0, 0), ROW(1, 5, 6), BYTES(0x01, 1, 5)));
    /* (0 1 3) - 3 (0 0 1), with 4 - 18 = 0 */
    EXPECT(relays(three, ROW(0, 1, 0), ROW(0, 1, 4), BYTES(0x02, 1, 0)));
    EXPECT(relays(three, ROW(0, 0, 1), ROW(0, 0, 1), BYTES(0x04, 1, 6)));
    EXPECT(relays(three, ROW(1, 3, 4), ROW(1, 1, 1), BYTES(0x07, 1, 3, 4, 1)));
    EXPECT(relays(three, ROW(0, 0, 0), ROW(0, 0, 0), BYTES(0x00, 0)));
    group("relay, p = 7, a full board: every row has a frame");
}

static void empty(void)
{
    static const uint32_t none[] = {7, 3, 0, 1, 0, 0, 0, 0, 0, 0, 0, 0, 0, 0, 0, 0}, one[] = {2, 1, 0, 1, 0, 0};
    EXPECT(relays(none, ROW(0, 0, 0), ROW(0, 0, 0), BYTES(0x00, 0)));
    EXPECT(not_in_span(none, ROW(0, 0, 1)));
    EXPECT(not_in_span(none, ROW(6, 0, 0)));
    EXPECT(relays(one, ROW(0), ROW(0), BYTES(0x00, 0)));
    EXPECT(not_in_span(one, ROW(1)));
    group("relay, an empty board: the row of zeros alone");
}

/* Finish, split and reaction modulo 5: (1 0) 1 2 3 and (0 1) 4 0 1; twice the one and three times the other are (2 3) 4 4 4. */
static void words(void)
{
    static const uint32_t board[] = {5, 2, 2, 3, 1, 0, 1, 2, 3, 0, 1, 4, 0, 1};
    EXPECT(relays(board, ROW(2, 3), ROW(2, 3), BYTES(0x03, 2, 3, 4, 4, 4)));
    EXPECT(relays(board, ROW(1, 1), ROW(1, 1), BYTES(0x03, 1, 1, 0, 2, 4)));
    EXPECT(relays(board, ROW(0, 4), ROW(0, 4), BYTES(0x02, 4, 1, 0, 4)));
    EXPECT(relays(board, ROW(0, 0), ROW(0, 0), BYTES(0x00, 0, 0, 0)));
    /* modulo 2 with two words: (1 1) 1 0 */
    static const uint32_t bits[] = {2, 2, 1, 2, 1, 1, 1, 0, 0, 0, 0, 0};
    EXPECT(relays(bits, ROW(1, 1), ROW(1, 0), BYTES(0x03, 1, 1, 1, 0)));
    EXPECT(not_in_span(bits, ROW(1, 0)));
    EXPECT(not_in_span(bits, ROW(0, 1)));
    group("relay, three words modulo 5, two modulo 2");
}

/* Numbers of two, three and four bytes. -1 times (1 0) 1 and 2 times (0 1) 1 are (-1 2) 1. */
static void widths(void)
{
    static const uint32_t w2[] = {257, 2, 2, 1, 1, 0, 1, 0, 1, 1}, w3[] = {65537, 2, 2, 1, 1, 0, 1, 0, 1, 1};
    static const uint32_t w4[] = {16777259, 2, 2, 1, 1, 0, 1, 0, 1, 1}, most[] = {2147483647, 2, 2, 1, 1, 0, 1, 0, 1, 1};
    EXPECT(relays(w2, ROW(256, 2), ROW(256, 2), BYTES(0x03, 1, 0, 0, 2, 0, 1)));
    EXPECT(relays(w3, ROW(65536, 2), ROW(65536, 2), BYTES(0x03, 1, 0, 0, 0, 0, 2, 0, 0, 1)));
    EXPECT(relays(w4, ROW(16777258, 2), ROW(16777258, 2), BYTES(0x03, 1, 0, 0, 0x2a, 0, 0, 0, 2, 0, 0, 0, 1)));
    EXPECT(relays(most, ROW(2147483646, 2), ROW(2147483646, 2), BYTES(0x03, 0x7f, 0xff, 0xff, 0xfe, 0, 0, 0, 2, 0, 0, 0, 1)));
    EXPECT(relays(most, ROW(0, 2147483646), ROW(0, 2147483646), BYTES(0x02, 0x7f, 0xff, 0xff, 0xfe, 0x7f, 0xff, 0xff, 0xfe)));
    group("relay, numbers of two, three and four bytes");
}

/* What is only read may overlap: the wanted row may be one of the board's own. */
static void within(void)
{
    EXPECT(relays(three, three + 4, ROW(1, 0, 0), BYTES(0x03, 1, 2, 5)));
    EXPECT(relays(three, three + 8, ROW(0, 1, 0), BYTES(0x06, 1, 3, 4)));
    EXPECT(relays(three, three + 12, ROW(0, 0, 1), BYTES(0x04, 1, 6)));
    /* (2 0 5), the end of a row and its value: 2 (1 2 0) - 4 (0 1 3) + 17 (0 0 1), with 10 - 16 + 102 = 96 = 5 */
    EXPECT(relays(three, three + 5, ROW(2, 3, 3), BYTES(0x05, 2, 5, 5)));
    EXPECT(relays(two, two + 13, ROW(0, 0, 0), BYTES(0x00, 0)));
    /* the header's words: 7 is no residue; (3 2 1) is no combination of two */
    EXPECT(refuses(two, LEN(two), two, 3, 3, 268, DAUNEROAD_NUMBER));
    EXPECT(not_in_span(two, two + 1));
    group("relay, the wanted row inside the board's words");
}

static void orders(void)
{
    static const uint32_t in[] = {1, 3, 3, 0}, bad[] = {1, 3, 10, 0}, outside[] = {0, 0, 1, 0};
    static const uint32_t dependent[] = {7, 3, 2, 1, 1, 2, 0, 5, 2, 4, 0, 3, 0, 0, 0, 0};
    static const size_t bytes_lens[] = {0, 264, 267, 268, 269, 272};
    for (size_t wanted_len = 2; wanted_len <= 4; wanted_len++)
        for (size_t mix_len = 2; mix_len <= 4; mix_len++)
            for (size_t i = 0; i < LEN(bytes_lens); i++) {
                const int right = wanted_len == 3 && mix_len == 3 && bytes_lens[i] == 268;
                EXPECT(right || refuses(two, LEN(two), in, wanted_len, mix_len, bytes_lens[i], DAUNEROAD_LENGTH));
                const uint32_t on_bad = right ? DAUNEROAD_NUMBER : DAUNEROAD_LENGTH;
                EXPECT(refuses(two, LEN(two), bad, wanted_len, mix_len, bytes_lens[i], on_bad));
                const uint32_t on_outside = right ? DAUNEROAD_NOT_IN_SPAN : DAUNEROAD_LENGTH;
                EXPECT(refuses(two, LEN(two), outside, wanted_len, mix_len, bytes_lens[i], on_outside));
                EXPECT(refuses(dependent, LEN(dependent), bad, wanted_len, mix_len, bytes_lens[i], DAUNEROAD_NOT_BOARD));
                EXPECT(refuses(two, LEN(two) - 1, in, wanted_len, mix_len, bytes_lens[i], DAUNEROAD_NOT_BOARD));
            }
    group("relay, 11, 3, 4, then 15, whichever length is wrong; nothing is written");
}

static void numbers(void)
{
    static const uint32_t large[] = {7, 8, 14, 2147483648, 4294967295};
    for (size_t j = 0; j < 3; j++)
        for (size_t i = 0; i < LEN(large); i++) {
            /* with the residue in its place the row would combine, then not */
            uint32_t row[] = {0, 0, 0}, other[] = {1, 1, 1};
            row[j] = large[i];
            other[j] = large[i];
            EXPECT(refuses(two, LEN(two), row, 3, 3, 268, DAUNEROAD_NUMBER));
            EXPECT(refuses(two, LEN(two), other, 3, 3, 268, DAUNEROAD_NUMBER));
            EXPECT(refuses(three, LEN(three), other, 3, 3, 268, DAUNEROAD_NUMBER));
        }
    /* sixteen words a record: 328 bytes, and not 268 */
    uint32_t board[4 + 17] = {7, 1, 1, 16, 1};
    EXPECT(refuses(board, LEN(board), ROW(1), 1, 1, 268, DAUNEROAD_LENGTH));
    EXPECT(relays(board, ROW(3), ROW(3), BYTES(0x01, 3, 0, 0, 0, 0, 0, 0, 0, 0, 0, 0, 0, 0, 0, 0, 0, 0)));
    group("relay, a number of p or more in each place; sixteen words");
}

static void no_board(void)
{
    for (size_t at = 0; at < LEN(two); at++) {
        uint32_t board[LEN(two)];
        memcpy(board, two, sizeof two);
        board[at] = 0xffffffff;
        EXPECT(refuses(board, LEN(board), ROW(0, 0, 0), 3, 3, 268, DAUNEROAD_NOT_BOARD));
    }
    for (size_t words = 0; words < LEN(two); words++)
        EXPECT(refuses(two, words, ROW(0, 0, 0), 3, 3, 268, DAUNEROAD_NOT_BOARD));
    group("relay, words that are no board");
}

static uint32_t office[DAUNEROAD_BOARD_WORDS(3, 1)];

/* Relays a row from the box to the office, and answers what its board says of the frame. */
static uint32_t send(const uint32_t *box, const uint32_t *wanted)
{
    uint32_t answer = dauneroad_relay(box, words_of(box), wanted, 3, mix, 3, bytes, 268);
    EXPECT(answer > DAUNEROAD_DONE);
    return dauneroad_take(office, LEN(office), bytes, answer - DAUNEROAD_DONE, mix, 3);
}

/* The office shows these numbers; 99 for a record that it leaves open. */
static int shows(uint32_t missing, const int32_t *want)
{
    uint32_t marks[3];
    int32_t shown[3];
    int holds = dauneroad_show(office, LEN(office), 3, marks, 3, shown, 3) == DAUNEROAD_DONE + missing;
    for (int j = 0; j < 3; j++)
        holds = holds && (want[j] == 99 ? marks[j] == 0 && shown[j] == 0 : marks[j] == 1 && shown[j] == want[j]);
    return holds;
}

#define SHOWN(...) ((const int32_t[]){__VA_ARGS__})

/* The box has (1 0 0) 5 and (0 1 1) 6: it shows the first record, -2, and leaves the two others open. So does the office with both. */
static void offices(void)
{
    static const uint32_t box[] = {7, 3, 2, 1, 1, 0, 0, 5, 0, 1, 1, 6, 0, 0, 0, 0};
    EXPECT(dauneroad_open(7, 3, 1, office, LEN(office)) == 0);
    EXPECT(send(box, ROW(0, 0, 0)) == DAUNEROAD_REPEAT && shows(3, SHOWN(99, 99, 99)));
    EXPECT(send(box, ROW(1, 1, 1)) == DAUNEROAD_NEW && shows(2, SHOWN(99, 99, 99)));
    EXPECT(send(box, ROW(3, 3, 3)) == DAUNEROAD_REPEAT && shows(2, SHOWN(99, 99, 99)));
    EXPECT(send(box, ROW(1, 2, 2)) == DAUNEROAD_NEW && shows(1, SHOWN(-2, 99, 99)));
    EXPECT(send(box, ROW(0, 1, 1)) == DAUNEROAD_REPEAT && shows(1, SHOWN(-2, 99, 99)));
    EXPECT(not_in_span(box, ROW(0, 1, 0)) && not_in_span(box, ROW(0, 1, 2)));
    EXPECT(dauneroad_withdraw(office, LEN(office), 1) == DAUNEROAD_DONE + 1 && shows(2, SHOWN(99, 99, 99)));
    EXPECT(send(box, ROW(4, 0, 0)) == DAUNEROAD_NEW && shows(1, SHOWN(-2, 99, 99)));
    group("relay, an office that is fed by a box shows what the box shows, and no more");
}

/* One state of the box and another: (1 1 0) 5 from the one and (0 1 0) 0 from the other settle what neither settles alone. A box with a
 * falsified frame relays what it has, and an office that knows better says 9. */
static void other_states(void)
{
    static const uint32_t before[] = {7, 3, 1, 1, 1, 1, 0, 5, 0, 0, 0, 0, 0, 0, 0, 0};
    static const uint32_t after[] = {7, 3, 1, 1, 0, 1, 0, 0, 0, 0, 0, 0, 0, 0, 0, 0};
    static const uint32_t falsified[] = {7, 3, 2, 1, 1, 0, 0, 4, 0, 1, 1, 6, 0, 0, 0, 0};
    EXPECT(dauneroad_open(7, 3, 1, office, LEN(office)) == 0);
    EXPECT(send(before, ROW(2, 2, 0)) == DAUNEROAD_NEW && shows(2, SHOWN(99, 99, 99)));
    EXPECT(send(after, ROW(0, 3, 0)) == DAUNEROAD_NEW && shows(1, SHOWN(-2, 0, 99)));
    EXPECT(send(falsified, ROW(1, 0, 0)) == DAUNEROAD_CONFLICT && shows(1, SHOWN(-2, 0, 99)));
    EXPECT(send(falsified, ROW(0, 1, 1)) == DAUNEROAD_NEW && shows(0, SHOWN(-2, 0, -1)));
    group("relay, frames of two states of a box, and of a box with a falsified frame");
}

int main(void)
{
    sums();
    full();
    empty();
    words();
    widths();
    within();
    orders();
    numbers();
    no_board();
    offices();
    other_states();
    printf("relays: done\n");
    return failures != 0;
}
