/* Several words a record, document 02's #103, through the header alone: examples worked out by hand. One line per example group; ends
 * with 0 only if all of them hold. */
#include "dauneroad.h"
#include "expect.h"

#define SAME_NUMBERS(got, ...) SAME_AS(got, ((const int32_t[])__VA_ARGS__))

static const uint32_t NO_S[] = {0, 17, 65536, 4294967295};

/* The macros are constants that can stand as an array's size. */
_Static_assert(DAUNEROAD_BOARD_WORDS(64, 16) == 5124 && DAUNEROAD_BOARD_WORDS(64, 1) == 4164, "4 + n * (n + s)");
_Static_assert(DAUNEROAD_LONGEST_FRAME(1) == 268 && DAUNEROAD_LONGEST_FRAME(16) == 328, "264 + 4 * s");
_Static_assert(DAUNEROAD_FRAME_BYTES(2147483647, 64, 16) == DAUNEROAD_LONGEST_FRAME(16), "64 multipliers and 16 values of four bytes");
_Static_assert(DAUNEROAD_FRAME_BYTES(251, 8, 3) == 12 && DAUNEROAD_FRAME_BYTES(257, 9, 3) == 26, "a map, n multipliers, s values");

/* Written to the front of what is lent, with the rest as it was, and read again. */
static void frame_of(uint32_t p, uint32_t n, uint32_t s, const uint32_t *row, const uint32_t *values, const uint8_t *want, size_t length)
{
    uint8_t bytes[DAUNEROAD_LONGEST_FRAME(16)];
    uint32_t multipliers[64], back[16];
    memset(bytes, 0xee, sizeof bytes);
    EXPECT(dauneroad_write(p, n, s, row, n, values, s, bytes, DAUNEROAD_LONGEST_FRAME(s)) == DAUNEROAD_DONE + length);
    EXPECT(memcmp(bytes, want, length) == 0);
    for (size_t i = length; i < sizeof bytes; i++)
        EXPECT(bytes[i] == 0xee);
    memset(multipliers, 0xee, sizeof multipliers);
    memset(back, 0xee, sizeof back);
    EXPECT(dauneroad_read(p, n, s, bytes, length, multipliers, n, back, s) == DAUNEROAD_DONE + s);
    EXPECT(memcmp(multipliers, row, n * sizeof *row) == 0 && memcmp(back, values, s * sizeof *values) == 0);
    for (uint32_t w = s; w < 16; w++)
        EXPECT(back[w] == 0xeeeeeeee);
}

static void frames(void)
{
    static const uint32_t row[] = {1, 2, 0}, values[] = {5, 0, 6};
    static const uint32_t wide[] = {0, 256}, two[] = {3, 256}, wider[] = {0, 65536}, three[] = {65536, 1};
    static const uint32_t widest[] = {0, 2147483646}, four[] = {16777216, 2147483646};
    frame_of(7, 3, 1, row, values, (const uint8_t[]){3, 1, 2, 5}, 4);
    frame_of(7, 3, 2, row, values, (const uint8_t[]){3, 1, 2, 5, 0}, 5);
    frame_of(7, 3, 3, row, values, (const uint8_t[]){3, 1, 2, 5, 0, 6}, 6);
    frame_of(257, 2, 2, wide, two, (const uint8_t[]){2, 1, 0, 0, 3, 1, 0}, 7);
    frame_of(65537, 2, 2, wider, three, (const uint8_t[]){2, 1, 0, 0, 1, 0, 0, 0, 0, 1}, 10);
    frame_of(2147483647, 2, 2, widest, four, (const uint8_t[]){2, 127, 255, 255, 254, 1, 0, 0, 0, 127, 255, 255, 254}, 13);
    group("frames of one, two and three values, numbers of one to four bytes");
}

/* A frame is as long as its map and s say, and its values are below p. A refusal leaves multipliers and values as they were. */
static void refused_frames(void)
{
    static const uint8_t frame[] = {3, 1, 2, 5, 0, 6, 1}, first[] = {3, 1, 2, 7, 0, 6}, last[] = {3, 1, 2, 5, 0, 7};
    static const uint8_t zero[] = {3, 1, 0, 5, 0, 7}, padded[] = {8, 1, 5, 0, 7};
    uint32_t multipliers[3] = {9, 9, 9}, values[3] = {9, 9, 9};
    for (size_t length = 0; length <= LEN(frame); length++)
        if (length != 6)
            EXPECT(dauneroad_read(7, 3, 3, frame, length, multipliers, 3, values, 3) == DAUNEROAD_FRAME_LENGTH);
    EXPECT(dauneroad_read(7, 3, 3, first, LEN(first), multipliers, 3, values, 3) == DAUNEROAD_NUMBER);
    EXPECT(dauneroad_read(7, 3, 3, last, LEN(last), multipliers, 3, values, 3) == DAUNEROAD_NUMBER);
    EXPECT(dauneroad_read(7, 3, 3, zero, LEN(zero), multipliers, 3, values, 3) == DAUNEROAD_ZERO_MULTIPLIER);
    EXPECT(dauneroad_read(7, 3, 3, padded, LEN(padded), multipliers, 3, values, 3) == DAUNEROAD_PADDING);
    SAME(multipliers, {9, 9, 9});
    SAME(values, {9, 9, 9});
    group("refused frames of three values");
}

/* What the refused calls are lent; they leave it as it was. */
static uint32_t lent_board[DAUNEROAD_BOARD_WORDS(3, 2)], lent_multipliers[3], lent_values[2];
static uint8_t lent_bytes[DAUNEROAD_LONGEST_FRAME(2)];

static void fill(void)
{
    memset(lent_board, 0xee, sizeof lent_board);
    memset(lent_multipliers, 0xee, sizeof lent_multipliers);
    memset(lent_values, 0xee, sizeof lent_values);
    memset(lent_bytes, 0xee, sizeof lent_bytes);
}

static int untouched(const void *memory, size_t length)
{
    const uint8_t *at = memory;
    while (length > 0 && at[length - 1] == 0xee)
        length--;
    return length == 0;
}

static void expect_untouched(void)
{
    EXPECT(untouched(lent_board, sizeof lent_board) && untouched(lent_multipliers, sizeof lent_multipliers));
    EXPECT(untouched(lent_values, sizeof lent_values) && untouched(lent_bytes, sizeof lent_bytes));
}

/* 1 and 2 come before 12, and 12 before 3, 4 and the frame's checks. */
static void refused_s(void)
{
    static const struct {
        uint32_t p, n, answer;
    } cases[] = {{7, 3, DAUNEROAD_WORDS}, {7, 65, DAUNEROAD_SIZE}, {7, 0, DAUNEROAD_SIZE}, {4, 3, DAUNEROAD_MODULUS}};
    static const uint32_t large[] = {7, 7, 7};
    static const int32_t records[6] = {0};
    static const uint8_t frame[] = {3};
    fill();
    for (size_t i = 0; i < LEN(NO_S) * LEN(cases); i++) {
        const uint32_t s = NO_S[i / LEN(cases)], p = cases[i % LEN(cases)].p, n = cases[i % LEN(cases)].n;
        const uint32_t answer = cases[i % LEN(cases)].answer;
        EXPECT(dauneroad_open(p, n, s, lent_board, LEN(lent_board)) == answer);
        EXPECT(dauneroad_read(p, n, s, frame, LEN(frame), lent_multipliers, 3, lent_values, 1) == answer);
        EXPECT(dauneroad_write(p, n, s, large, 3, large, 2, lent_bytes, sizeof lent_bytes) == answer);
        EXPECT(dauneroad_seal(p, n, s, 7, records, 5, large, 3, lent_values, 2) == answer);
    }
    expect_untouched();
    group("s of 0, 17, 65536 and 4294967295");
}

static void refused_lengths(void)
{
    static const uint32_t row[] = {1, 2, 0};
    static const int32_t records[6] = {0};
    static const uint8_t frame[] = {3, 1, 2, 5, 0};
    fill();
    EXPECT(dauneroad_open(7, 3, 2, lent_board, DAUNEROAD_BOARD_WORDS(3, 1)) == DAUNEROAD_LENGTH);
    EXPECT(dauneroad_read(7, 3, 2, frame, LEN(frame), lent_multipliers, 3, lent_values, 1) == DAUNEROAD_LENGTH);
    EXPECT(dauneroad_read(7, 3, 2, frame, LEN(frame), lent_multipliers, 2, lent_values, 2) == DAUNEROAD_LENGTH);
    EXPECT(dauneroad_write(7, 3, 2, row, 3, row, 3, lent_bytes, sizeof lent_bytes) == DAUNEROAD_LENGTH);
    EXPECT(dauneroad_write(7, 3, 2, row, 3, row, 2, lent_bytes, DAUNEROAD_LONGEST_FRAME(1)) == DAUNEROAD_LENGTH);
    EXPECT(dauneroad_seal(7, 3, 2, 3, records, 3, row, 3, lent_values, 2) == DAUNEROAD_LENGTH);
    EXPECT(dauneroad_seal(7, 3, 2, 3, records, 6, row, 3, lent_values, 1) == DAUNEROAD_LENGTH);
    EXPECT(dauneroad_write(7, 3, 2, row, 3, (const uint32_t[]){6, 7}, 2, lent_bytes, sizeof lent_bytes) == DAUNEROAD_NUMBER);
    EXPECT(dauneroad_seal(7, 3, 2, 3, (const int32_t[]){0, 0, 0, 0, 0, 4}, 6, row, 3, lent_values, 2) == DAUNEROAD_NUMBER);
    expect_untouched();
    group("lengths that are not those of two words, and a last value and a last word that are none");
}

/* Finish and split of three swimmers, modulo 7. */
static const int32_t RECORDS[] = {-2, 3, 0, 1, -1, 2};
static const uint32_t ROWS[][3] = {{1, 2, 0}, {0, 1, 3}, {0, 0, 1}}, VALUES[][2] = {{5, 5}, {4, 0}, {6, 2}};

static void sealing(void)
{
    uint32_t values[2];
    for (size_t i = 0; i < LEN(ROWS); i++) {
        EXPECT(dauneroad_seal(7, 3, 2, DAUNEROAD_LOW(7), RECORDS, 6, ROWS[i], 3, values, 2) == 202);
        EXPECT(memcmp(values, VALUES[i], sizeof values) == 0);
    }
    group("sealing three records of two words");
}

/* Writes the frame and takes it. */
static uint32_t take(uint32_t *board, const uint32_t *row, uint32_t first, uint32_t second, uint32_t *mix)
{
    const uint32_t values[] = {first, second};
    uint8_t bytes[DAUNEROAD_LONGEST_FRAME(2)];
    uint32_t answer = dauneroad_write(7, 3, 2, row, 3, values, 2, bytes, sizeof bytes);
    EXPECT(answer >= DAUNEROAD_DONE);
    return dauneroad_take(board, DAUNEROAD_BOARD_WORDS(3, 2), bytes, answer - DAUNEROAD_DONE, mix, 3);
}

static void sheet(void)
{
    static const uint32_t sum[] = {1, 3, 3};
    uint32_t board[DAUNEROAD_BOARD_WORDS(3, 2)], mix[3] = {9, 9, 9}, marks[3] = {9, 9, 9};
    int32_t numbers[6] = {9, 9, 9, 9, 9, 9};
    EXPECT(dauneroad_open(7, 3, 2, board, LEN(board)) == 0);
    SAME(board, {7, 3, 0, 2, 0, 0, 0, 0, 0, 0, 0, 0, 0, 0, 0, 0, 0, 0, 0});
    EXPECT(take(board, ROWS[0], 5, 5, mix) == DAUNEROAD_NEW);
    EXPECT(take(board, ROWS[1], 4, 0, mix) == DAUNEROAD_NEW);
    SAME(mix, {9, 9, 9});
    SAME(board, {7, 3, 2, 2, 1, 2, 0, 5, 5, 0, 1, 3, 4, 0, 0, 0, 0, 0, 0});
    /* the sum of both, and what differs from it in the first value, in the last or in both */
    EXPECT(take(board, sum, 2, 5, mix) == DAUNEROAD_REPEAT);
    SAME(mix, {1, 1, 0});
    EXPECT(take(board, sum, 3, 5, mix) == DAUNEROAD_CONFLICT);
    EXPECT(take(board, sum, 2, 6, mix) == DAUNEROAD_CONFLICT);
    EXPECT(take(board, sum, 5, 2, mix) == DAUNEROAD_CONFLICT);
    SAME(mix, {1, 1, 0});
    EXPECT(dauneroad_show(board, LEN(board), DAUNEROAD_LOW(7), marks, 3, numbers, 6) == 201);
    SAME(marks, {0, 0, 0});
    SAME_NUMBERS(numbers, {0, 0, 0, 0, 0, 0});
    EXPECT(take(board, ROWS[2], 6, 2, mix) == DAUNEROAD_NEW);
    EXPECT(dauneroad_show(board, LEN(board), DAUNEROAD_LOW(7), marks, 3, numbers, 6) == 200);
    SAME(marks, {1, 1, 1});
    SAME_AS(numbers, RECORDS);
    EXPECT(dauneroad_show(board, LEN(board), 0, marks, 3, numbers, 6) == 200);
    SAME_NUMBERS(numbers, {5, 3, 0, 1, 6, 2});
    EXPECT(dauneroad_show(board, LEN(board), 0, marks, 3, numbers, 3) == DAUNEROAD_LENGTH);
    EXPECT(dauneroad_withdraw(board, LEN(board), 2) == 201);
    SAME(board, {7, 3, 1, 2, 1, 2, 0, 5, 5, 0, 0, 0, 0, 0, 0, 0, 0, 0, 0});
    EXPECT(dauneroad_withdraw(board, LEN(board), 1) == 200);
    EXPECT(take(board, ROWS[2], 6, 2, mix) == DAUNEROAD_NEW);
    EXPECT(dauneroad_show(board, LEN(board), DAUNEROAD_LOW(7), marks, 3, numbers, 6) == 202);
    SAME(marks, {0, 0, 1});
    SAME_NUMBERS(numbers, {0, 0, 0, 0, -1, 2});
    group("the sheet of three records of two words");
}

/* Every call that is lent a board refuses these words, and writes nothing. */
static void no_board(const uint32_t *words, size_t length)
{
    static const uint8_t frame[] = {0, 0};
    uint32_t board[64], mix[3] = {9, 9, 9}, marks[3] = {9, 9, 9};
    int32_t numbers[3] = {9, 9, 9};
    memcpy(board, words, length * sizeof *words);
    EXPECT(dauneroad_take(board, length, frame, LEN(frame), mix, 3) == DAUNEROAD_NOT_BOARD);
    EXPECT(dauneroad_withdraw(board, length, 0) == DAUNEROAD_NOT_BOARD);
    EXPECT(dauneroad_show(board, length, DAUNEROAD_LOW(7), marks, 3, numbers, 3) == DAUNEROAD_NOT_BOARD);
    EXPECT(memcmp(board, words, length * sizeof *words) == 0);
    SAME(mix, {9, 9, 9});
    SAME(marks, {9, 9, 9});
    SAME_NUMBERS(numbers, {9, 9, 9});
}

static void no_boards(void)
{
    uint32_t words[64] = {7, 3, 0, 1};
    uint32_t marks[3];
    int32_t numbers[3];
    EXPECT(dauneroad_show(words, 16, 3, marks, 3, numbers, 3) == 203);
    for (size_t i = 0; i < LEN(NO_S); i++) {
        words[3] = NO_S[i];
        no_board(words, 16);
        no_board(words, 4 + 3 * 3);        /* the length of s = 0 */
        no_board(words, 4 + 3 * (3 + 17)); /* that of 17 */
        no_board(words, 4 + 3 * 2);        /* that of 2^32 - 1 in 32 bits */
    }
    words[3] = 2;
    no_board(words, 16);
    words[3] = 1;
    no_board(words, 19);
    no_board(words, 3);
    /* a board as it was before it had the word s: p, n, k, then rows of one value */
    no_board((const uint32_t[]){7, 3, 0, 0, 0, 0, 0, 0, 0, 0, 0, 0, 0, 0, 0}, 15);
    no_board((const uint32_t[]){7, 3, 1, 1, 2, 0, 5, 0, 0, 0, 0, 0, 0, 0, 0}, 15);
    no_board((const uint32_t[]){7, 1, 1, 1, 5}, 5);
    /* and with that word put behind the count */
    EXPECT(dauneroad_show((const uint32_t[]){7, 3, 1, 1, 1, 0, 0, 5, 0, 0, 0, 0, 0, 0, 0, 0}, 16, 3, marks, 3, numbers, 3) == 202);
    SAME(marks, {1, 0, 0});
    SAME_NUMBERS(numbers, {-2, 0, 0});
    group("words that are no board: another s, three words, those of a board without s");
}

/* The most words: one record of sixteen, modulo 251, its multiplier 3. */
static void sixteen_words(void)
{
    uint32_t board[DAUNEROAD_BOARD_WORDS(1, 16)], values[16], mix[1] = {9}, marks[1];
    int32_t records[16], numbers[16];
    uint8_t bytes[DAUNEROAD_LONGEST_FRAME(16)];
    const uint32_t row[] = {3};
    for (int w = 0; w < 16; w++)
        records[w] = 16 * w - 120;
    EXPECT(dauneroad_open(251, 1, 16, board, LEN(board)) == 0);
    EXPECT(dauneroad_seal(251, 1, 16, DAUNEROAD_LOW(251), records, 16, row, 1, values, 16) == 216);
    /* 3 * -120 is -360, which is 142 - 2 * 251, and so on */
    SAME(values, {142, 190, 238, 35, 83, 131, 179, 227, 24, 72, 120, 168, 216, 13, 61, 109});
    EXPECT(dauneroad_write(251, 1, 16, row, 1, values, 16, bytes, sizeof bytes) == 200 + 18);
    EXPECT(bytes[0] == 1 && bytes[1] == 3 && bytes[2] == 142 && bytes[17] == 109);
    EXPECT(dauneroad_take(board, LEN(board), bytes, 18, mix, 1) == DAUNEROAD_NEW);
    EXPECT(dauneroad_show(board, LEN(board), DAUNEROAD_LOW(251), marks, 1, numbers, 16) == 200);
    EXPECT(marks[0] == 1 && memcmp(numbers, records, sizeof records) == 0);
    EXPECT(dauneroad_take(board, LEN(board), bytes, 18, mix, 1) == DAUNEROAD_REPEAT);
    bytes[17] = 110;
    EXPECT(dauneroad_take(board, LEN(board), bytes, 18, mix, 1) == DAUNEROAD_CONFLICT);
    EXPECT(mix[0] == 1);
    group("one record of sixteen words");
}

int main(void)
{
    frames();
    refused_frames();
    refused_s();
    refused_lengths();
    sealing();
    sheet();
    no_boards();
    sixteen_words();
    printf("words: done\n");
    return failures != 0;
}
