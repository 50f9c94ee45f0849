/* Document 01's examples, with one word a record, frames with padding as document 02's #101 has them and with numbers as its #111 has
 * them, the nearest fits of its #102 and the checks of its #113, through the header alone; signed readings are in readings.c. One line
 * per example group; ends with 0 only if all of them hold. */
#include "dauneroad.h"
#include "expect.h"

static void first_table(void)
{
    const uint32_t a[] = {1, 2, 0, 0, 1, 3};
    uint32_t d[6], columns[3], rows[2], basis[9];
    EXPECT(dauneroad_quasiinverse(7, 2, 3, a, LEN(a), d, LEN(d), columns, LEN(columns), rows, LEN(rows)) == 202);
    SAME(d, {1, 5, 0, 1, 0, 0});
    SAME(columns, {1, 1, 0});
    SAME(rows, {1, 1});
    EXPECT(dauneroad_kernel(7, 2, 3, a, LEN(a), basis, LEN(basis)) == 201);
    SAME(basis, {6, 4, 1, 0, 0, 0, 0, 0, 0});
    group("p = 7, A = (1 2 0), (0 1 3)");
}

static void second_table(void)
{
    const uint32_t a[] = {0, 1, 1, 1};
    uint32_t d[4], columns[2], rows[2], basis[4] = {9, 9, 9, 9};
    EXPECT(dauneroad_quasiinverse(5, 2, 2, a, LEN(a), d, LEN(d), columns, LEN(columns), rows, LEN(rows)) == 202);
    SAME(d, {4, 1, 1, 0});
    EXPECT(dauneroad_kernel(5, 2, 2, a, LEN(a), basis, LEN(basis)) == 200);
    SAME(basis, {0, 0, 0, 0});
    group("p = 5, A = (0 1), (1 1)");
}

static void third_table(void)
{
    const uint32_t a[] = {1, 2, 2, 4}, good[] = {1, 2}, bad[] = {1, 3};
    uint32_t d[4], columns[2], rows[2], basis[4], z[2], u[2], rest[2];
    EXPECT(dauneroad_quasiinverse(5, 2, 2, a, LEN(a), d, LEN(d), columns, LEN(columns), rows, LEN(rows)) == 201);
    SAME(d, {1, 0, 0, 0});
    SAME(columns, {1, 0});
    SAME(rows, {1, 0});
    EXPECT(dauneroad_kernel(5, 2, 2, a, LEN(a), basis, LEN(basis)) == 201);
    SAME(basis, {3, 1, 0, 0});
    EXPECT(dauneroad_solve(5, 2, 2, a, LEN(a), good, LEN(good), z, LEN(z), u, LEN(u)) == 201);
    SAME(z, {1, 0});
    SAME(u, {0, 0});
    z[0] = z[1] = 77;
    EXPECT(dauneroad_solve(5, 2, 2, a, LEN(a), bad, LEN(bad), z, LEN(z), u, LEN(u)) == DAUNEROAD_INSOLUBLE);
    SAME(z, {77, 77});
    SAME(u, {3, 1});
    EXPECT(dauneroad_fit(5, 2, 2, a, LEN(a), good, LEN(good), z, LEN(z), rest, LEN(rest)) == 201);
    SAME(z, {1, 0});
    SAME(rest, {0, 0});
    z[0] = z[1] = 77;
    EXPECT(dauneroad_fit(5, 2, 2, a, LEN(a), bad, LEN(bad), z, LEN(z), rest, LEN(rest)) == 201);
    SAME(z, {1, 0});
    SAME(rest, {0, 1});
    group("p = 5, A = (1 2), (2 4), w = (1 2) and (1 3), solved and fitted");
}

static void small_tables(void)
{
    const uint32_t a[] = {0, 3}, zero[] = {0};
    uint32_t d[2], columns[2], rows[1], basis[4], none[1] = {0};
    EXPECT(dauneroad_quasiinverse(5, 1, 2, a, LEN(a), d, LEN(d), columns, LEN(columns), rows, LEN(rows)) == 201);
    SAME(d, {0, 2});
    EXPECT(dauneroad_kernel(5, 1, 2, a, LEN(a), basis, LEN(basis)) == 201);
    SAME(basis, {1, 0, 0, 0});
    EXPECT(dauneroad_quasiinverse(2, 1, 1, zero, 1, d, 1, columns, 1, rows, 1) == 200);
    EXPECT(d[0] == 0 && columns[0] == 0 && rows[0] == 0);
    EXPECT(dauneroad_kernel(2, 1, 1, zero, 1, basis, 1) == 201);
    EXPECT(basis[0] == 1);
    EXPECT(dauneroad_kernel(2, 0, 2, none, 0, basis, 4) == 202);
    SAME(basis, {1, 0, 0, 1});
    group("p = 5, A = (0 3); p = 2, A = (0); no rows");
}

/* A table with no rows fits nothing: z is 0. One with no columns leaves all of w over. */
static void empty_fits(void)
{
    const uint32_t w[] = {4, 0, 2};
    uint32_t z[2] = {77, 77}, rest[3] = {77, 77, 77}, none[1] = {77};
    EXPECT(dauneroad_fit(5, 0, 2, none, 0, none, 0, z, LEN(z), none, 0) == 200);
    SAME(z, {0, 0});
    EXPECT(dauneroad_fit(5, 3, 0, none, 0, w, LEN(w), none, 0, rest, LEN(rest)) == 200);
    SAME(rest, {4, 0, 2});
    EXPECT(dauneroad_fit(5, 0, 0, none, 0, none, 0, none, 0, none, 0) == 200);
    EXPECT(none[0] == 77);
    group("nearest fits with no rows, with no columns, with neither");
}

/* D of A = (1 0) has 1 for its first number and any second one; A is a quasiinverse of the same ones. */
static void checked_rows(void)
{
    const uint32_t a[] = {1, 0};
    for (uint32_t x = 0; x < 5; x++) {
        for (uint32_t y = 0; y < 5; y++) {
            const uint32_t d[] = {x, y};
            EXPECT(dauneroad_check(5, 1, 2, a, LEN(a), d, LEN(d)) == (x == 1 ? 201 : 17));
            EXPECT(dauneroad_check(5, 2, 1, d, LEN(d), a, LEN(a)) == (x == 1 ? 201 : x == 0 && y == 0 ? 18 : 17));
        }
    }
    group("check, p = 5, A = (1 0), every D, and each way round");
}

static void checked_tables(void)
{
    const uint32_t a[] = {1, 2, 2, 4}, ours[] = {1, 0, 0, 0}, last[] = {0, 0, 0, 4}, inner[] = {1, 1, 0, 2}, unit[] = {1, 0, 0, 1};
    const uint32_t zero[] = {0}, one[] = {1};
    EXPECT(dauneroad_check(5, 2, 2, a, LEN(a), ours, LEN(ours)) == 201);
    EXPECT(dauneroad_check(5, 2, 2, a, LEN(a), last, LEN(last)) == 201); /* on the last row and column */
    EXPECT(dauneroad_check(5, 2, 2, a, LEN(a), inner, LEN(inner)) == DAUNEROAD_NOT_OUTER);
    EXPECT(dauneroad_check(5, 2, 2, inner, LEN(inner), a, LEN(a)) == DAUNEROAD_NOT_INNER);
    EXPECT(dauneroad_check(5, 2, 2, a, LEN(a), unit, LEN(unit)) == DAUNEROAD_NOT_INNER); /* and DAD is not D */
    EXPECT(dauneroad_check(5, 2, 2, unit, LEN(unit), unit, LEN(unit)) == 202); /* one memory for both */
    EXPECT(dauneroad_check(2, 1, 1, zero, 1, one, 1) == DAUNEROAD_NOT_OUTER);
    EXPECT(dauneroad_check(2, 1, 1, one, 1, zero, 1) == DAUNEROAD_NOT_INNER);
    EXPECT(dauneroad_check(2, 1, 1, zero, 1, zero, 1) == 200);
    EXPECT(dauneroad_check(2, 0, 2, zero, 0, one, 0) == 200);
    EXPECT(dauneroad_check(2, 3, 0, zero, 0, one, 0) == 200);
    EXPECT(dauneroad_check(2, 0, 0, zero, 0, one, 0) == 200);
    EXPECT(DAUNEROAD_NOT_INNER == 17 && DAUNEROAD_NOT_OUTER == 18);
    group("check, p = 5, A = (1 2), (2 4); p = 2, A = (0) and (1); no rows, no columns, neither");
}

/* 6 is 1 modulo 5, and is refused all the same. */
static void check_order(void)
{
    static uint32_t large[65 * 65];
    const uint32_t a[] = {1, 0, 0}, d[] = {1, 3, 0}, bad_a[] = {6, 0, 0}, bad_d[] = {6, 3, 0};
    EXPECT(dauneroad_check(4, 65, 65, bad_a, 1, bad_d, 1) == DAUNEROAD_MODULUS);
    EXPECT(dauneroad_check(4, 1, 2, a, 2, d, 2) == DAUNEROAD_MODULUS);
    EXPECT(dauneroad_check(5, 65, 1, bad_a, 1, bad_d, 1) == DAUNEROAD_SIZE);
    EXPECT(dauneroad_check(5, 1, 65, bad_a, 1, bad_d, 1) == DAUNEROAD_SIZE);
    EXPECT(dauneroad_check(5, 65, 64, large, 4160, large, 4160) == DAUNEROAD_SIZE);
    EXPECT(dauneroad_check(5, 64, 64, large, 4096, large, 4096) == 200);
    for (size_t a_len = 1; a_len <= 3; a_len++) {
        for (size_t d_len = 1; d_len <= 3; d_len++) {
            int right = a_len == 2 && d_len == 2;
            EXPECT(dauneroad_check(5, 1, 2, a, a_len, d, d_len) == (right ? 201 : 3));
            EXPECT(dauneroad_check(5, 1, 2, bad_a, a_len, d, d_len) == (right ? 4 : 3));
            EXPECT(dauneroad_check(5, 1, 2, a, a_len, bad_d, d_len) == (right ? 4 : 3));
        }
    }
    group("check, the order of 1, 2, 3, 4, then 17 and 18");
}

static void moduli_and_sizes(void)
{
    static const uint32_t bad[] = {0, 1, 4, 2147117569, 2147483648, 4294967295};
    static uint32_t a[65 * 65], d[65 * 65], columns[65], rows[65], board[DAUNEROAD_BOARD_WORDS(65, 1)];
    int32_t record = 0;
    for (size_t i = 0; i < LEN(bad); i++) {
        EXPECT(dauneroad_signed(bad[i], 0, 0, &record) == DAUNEROAD_MODULUS);
        EXPECT(dauneroad_open(bad[i], 1, 1, board, DAUNEROAD_BOARD_WORDS(1, 1)) == DAUNEROAD_MODULUS);
        EXPECT(dauneroad_kernel(bad[i], 1, 1, a, 1, d, 1) == DAUNEROAD_MODULUS);
    }
    EXPECT(dauneroad_signed(2, 0, 0, &record) == 0);
    EXPECT(dauneroad_signed(2147483647, 0, 0, &record) == 0);
    EXPECT(dauneroad_quasiinverse(7, 64, 64, a, 4096, d, 4096, columns, 64, rows, 64) == 200);
    EXPECT(dauneroad_quasiinverse(7, 65, 64, a, 4160, d, 4160, columns, 64, rows, 65) == DAUNEROAD_SIZE);
    EXPECT(dauneroad_quasiinverse(7, 64, 65, a, 4160, d, 4160, columns, 65, rows, 64) == DAUNEROAD_SIZE);
    EXPECT(dauneroad_open(7, 64, 1, board, DAUNEROAD_BOARD_WORDS(64, 1)) == 0);
    EXPECT(dauneroad_open(7, 65, 1, board, DAUNEROAD_BOARD_WORDS(65, 1)) == DAUNEROAD_SIZE);
    EXPECT(dauneroad_open(7, 0, 1, board, DAUNEROAD_BOARD_WORDS(0, 1)) == DAUNEROAD_SIZE);
    EXPECT(dauneroad_open(7, 64, 1, board, DAUNEROAD_BOARD_WORDS(64, 1) - 1) == DAUNEROAD_LENGTH);
    EXPECT(DAUNEROAD_BOARD_WORDS(64, 1) == 4164);
    group("moduli and sizes");
}

static void frames(void)
{
    static const uint8_t frame[] = {3, 1, 2, 5}, padded[] = {8, 1, 1, 0}, zero[] = {1, 0, 1}, large[] = {1, 7, 1};
    static const uint8_t four_bytes[] = {3, 0, 0, 0, 1, 0, 0, 0, 2, 0, 0, 0, 5};
    uint32_t multipliers[3], eight[8], value = 0;
    uint8_t bytes[DAUNEROAD_LONGEST_FRAME(1)];
    EXPECT(dauneroad_read(7, 3, 1, frame, LEN(frame), multipliers, 3, &value, 1) == 201);
    SAME(multipliers, {1, 2, 0});
    EXPECT(value == 5);
    memset(bytes, 0xee, sizeof bytes);
    EXPECT(dauneroad_write(7, 3, 1, multipliers, 3, &value, 1, bytes, sizeof bytes) == 200 + LEN(frame));
    EXPECT(memcmp(bytes, frame, sizeof frame) == 0);
    for (size_t i = sizeof frame; i < sizeof bytes; i++)
        EXPECT(bytes[i] == 0xee);
    /* a bit at n or above: 7 in a frame as long as its map says, that bit counted; a shorter or longer one was cut or joined */
    for (uint32_t length = 0; length <= LEN(padded); length++) {
        uint32_t number = length == 3 ? DAUNEROAD_PADDING : DAUNEROAD_FRAME_LENGTH;
        EXPECT(dauneroad_read(7, 3, 1, padded, length, multipliers, 3, &value, 1) == number);
    }
    EXPECT(dauneroad_read(7, 3, 1, zero, LEN(zero), multipliers, 3, &value, 1) == DAUNEROAD_ZERO_MULTIPLIER);
    EXPECT(dauneroad_read(7, 3, 1, large, LEN(large), multipliers, 3, &value, 1) == DAUNEROAD_NUMBER);
    EXPECT(dauneroad_read(7, 3, 1, frame, LEN(frame) - 1, multipliers, 3, &value, 1) == DAUNEROAD_FRAME_LENGTH);
    EXPECT(dauneroad_read(7, 3, 1, frame, 0, multipliers, 3, &value, 1) == DAUNEROAD_FRAME_LENGTH);
    EXPECT(dauneroad_read(7, 3, 1, four_bytes, LEN(four_bytes), multipliers, 3, &value, 1) == DAUNEROAD_FRAME_LENGTH);
    SAME(multipliers, {1, 2, 0});
    EXPECT(value == 5);
    EXPECT(dauneroad_read(7, 8, 1, padded, 3, eight, 8, &value, 1) == 201);
    SAME(eight, {0, 0, 0, 1, 0, 0, 0, 0});
    EXPECT(value == 1);
    group("frames of n = 3 and n = 8, p = 7");
}

/* The macros are constants that can stand as an array's size, and the longest frame is one of the widest numbers. */
_Static_assert(DAUNEROAD_WIDTH(251) == 1 && DAUNEROAD_WIDTH(257) == 2, "251 needs one byte, 257 needs two");
_Static_assert(DAUNEROAD_FRAME_BYTES(2147483647, 64, 1) == DAUNEROAD_LONGEST_FRAME(1), "64 multipliers and a value of four bytes each");
static uint8_t room[DAUNEROAD_FRAME_BYTES(16777259, 64, 1) + 4]; /* a full frame and a number more */

/* The frame of n records with all multipliers x and the value y, each number in `width` bytes, to `room`; its length. */
static size_t lay(uint32_t n, uint32_t x, uint32_t y, size_t width)
{
    size_t length = (n + 7) / 8;
    memset(room, 0, length);
    for (uint32_t j = 0; j < n; j++)
        room[j / 8] |= (uint8_t)(1 << (j % 8));
    for (uint32_t j = 0; j <= n; j++)
        for (size_t i = width; i > 0; i--)
            room[length++] = (uint8_t)((j < n ? x : y) >> 8 * (i - 1));
    return length;
}

/* A frame of n multipliers that are all not 0: as long as the macro says; refused at other lengths and with numbers of another width. */
static void full_frame(uint32_t p, uint32_t n, size_t width)
{
    uint32_t row[64], multipliers[64], value = 0, last = p / 2;
    uint8_t bytes[DAUNEROAD_LONGEST_FRAME(1)];
    for (uint32_t j = 0; j < n; j++)
        row[j] = p - 1;
    memset(bytes, 0xee, sizeof bytes);
    uint32_t answer = dauneroad_write(p, n, 1, row, n, &last, 1, bytes, sizeof bytes);
    EXPECT(answer == DAUNEROAD_DONE + DAUNEROAD_FRAME_BYTES(p, n, 1));
    size_t length = lay(n, p - 1, p / 2, width);
    EXPECT(length == DAUNEROAD_FRAME_BYTES(p, n, 1) && memcmp(bytes, room, length) == 0);
    for (size_t i = length; i < sizeof bytes; i++)
        EXPECT(bytes[i] == 0xee);
    EXPECT(dauneroad_read(p, n, 1, room, length, multipliers, n, &value, 1) == 201);
    EXPECT(memcmp(multipliers, row, n * sizeof *row) == 0 && value == p / 2);
    const size_t lengths[] = {length - width, length - 1, length + 1, length + width};
    for (size_t i = 0; i < LEN(lengths); i++)
        EXPECT(dauneroad_read(p, n, 1, room, lengths[i], multipliers, n, &value, 1) == DAUNEROAD_FRAME_LENGTH);
    for (size_t other = 1; other <= 4; other++) {
        uint32_t number = other == width ? DAUNEROAD_DONE + 1 : DAUNEROAD_FRAME_LENGTH;
        length = lay(n, 1, 1, other);
        EXPECT(dauneroad_read(p, n, 1, room, length, multipliers, n, &value, 1) == number);
    }
    length = lay(n, 1, p, width);
    EXPECT(dauneroad_read(p, n, 1, room, length, multipliers, n, &value, 1) == DAUNEROAD_NUMBER);
    length = lay(n, 1, 0xffffffff, width);
    EXPECT(dauneroad_read(p, n, 1, room, length, multipliers, n, &value, 1) == DAUNEROAD_NUMBER);
}

static void widths(void)
{
    static const struct {
        uint32_t p;
        size_t width;
    } table[] = {{2, 1}, {7, 1}, {251, 1}, {257, 2}, {65521, 2}, {65537, 3}, {16777213, 3}, {16777259, 4}, {2147483647, 4}};
    for (size_t i = 0; i < LEN(table); i++) {
        EXPECT(DAUNEROAD_WIDTH(table[i].p) == table[i].width);
        for (uint32_t n = 1; n <= 64; n++)
            full_frame(table[i].p, n, table[i].width);
    }
    group("frames on both sides of each width's end");
}

static void fresh_board(void)
{
    static const uint8_t nothing[] = {0, 0}, lie[] = {0, 1}, four_bytes[] = {0, 0, 0, 0, 0};
    uint32_t board[DAUNEROAD_BOARD_WORDS(3, 1)], mix[3] = {9, 9, 9};
    EXPECT(dauneroad_open(7, 3, 1, board, LEN(board)) == 0);
    EXPECT(dauneroad_take(board, LEN(board), nothing, LEN(nothing), mix, LEN(mix)) == DAUNEROAD_REPEAT);
    SAME(mix, {0, 0, 0});
    mix[0] = mix[1] = mix[2] = 9;
    EXPECT(dauneroad_take(board, LEN(board), lie, LEN(lie), mix, LEN(mix)) == DAUNEROAD_CONFLICT);
    SAME(mix, {0, 0, 0});
    mix[0] = mix[1] = mix[2] = 9;
    EXPECT(dauneroad_take(board, LEN(board), four_bytes, LEN(four_bytes), mix, LEN(mix)) == DAUNEROAD_FRAME_LENGTH);
    SAME(mix, {9, 9, 9});
    SAME(board, {7, 3, 0, 1, 0, 0, 0, 0, 0, 0, 0, 0, 0, 0, 0, 0});
    EXPECT(dauneroad_withdraw(board, LEN(board), 0) == 200);
    EXPECT(dauneroad_withdraw(board, LEN(board), 1) == DAUNEROAD_WITHDRAWAL);
    board[15] = 1;
    EXPECT(dauneroad_withdraw(board, LEN(board), 0) == DAUNEROAD_NOT_BOARD);
    group("the empty frame on a fresh board");
}

/* Writes the frame and takes it. */
static uint32_t take(uint32_t *board, uint32_t a, uint32_t b, uint32_t c, uint32_t value, uint32_t *mix)
{
    const uint32_t multipliers[] = {a, b, c};
    uint8_t bytes[DAUNEROAD_LONGEST_FRAME(1)];
    uint32_t answer = dauneroad_write(7, 3, 1, multipliers, 3, &value, 1, bytes, sizeof bytes);
    EXPECT(answer >= DAUNEROAD_DONE);
    return dauneroad_take(board, DAUNEROAD_BOARD_WORDS(3, 1), bytes, answer - DAUNEROAD_DONE, mix, 3);
}

/* The records 5, 0 and 6 of a full board modulo 7, with each low end; with 7 and more nothing is written, and 3 comes first. */
static void shown_from_low_ends(const uint32_t *board)
{
    static const int32_t want[][3] = {{5, 0, 6}, {5, 0, -1}, {-2, 0, -1}, {-2, 0, -1}, {-2, 0, -1}, {-2, 0, -1}, {-2, 0, -1}};
    static const uint32_t none[] = {7, 8, 4294967295};
    uint32_t marks[3] = {9, 9, 9};
    int32_t numbers[3] = {9, 9, 9};
    for (uint32_t low = 0; low < 7; low++) {
        EXPECT(dauneroad_show(board, DAUNEROAD_BOARD_WORDS(3, 1), low, marks, 3, numbers, 3) == 200);
        SAME(marks, {1, 1, 1});
        EXPECT(memcmp(numbers, want[low], sizeof numbers) == 0);
    }
    for (size_t i = 0; i < LEN(none); i++) {
        marks[0] = marks[1] = marks[2] = 9;
        numbers[0] = numbers[1] = numbers[2] = 9;
        EXPECT(dauneroad_show(board, DAUNEROAD_BOARD_WORDS(3, 1), none[i], marks, 3, numbers, 3) == DAUNEROAD_NUMBER);
        EXPECT(dauneroad_show(board, DAUNEROAD_BOARD_WORDS(3, 1), none[i], marks, 3, numbers, 2) == DAUNEROAD_LENGTH);
        SAME(marks, {9, 9, 9});
        EXPECT(numbers[0] == 9 && numbers[1] == 9 && numbers[2] == 9);
    }
}

static void sheet(void)
{
    uint32_t board[DAUNEROAD_BOARD_WORDS(3, 1)], before[DAUNEROAD_BOARD_WORDS(3, 1)], mix[3] = {9, 9, 9}, marks[3];
    int32_t numbers[3] = {5, 5, 5};
    EXPECT(dauneroad_open(7, 3, 1, board, LEN(board)) == 0);
    EXPECT(take(board, 1, 2, 0, 5, mix) == DAUNEROAD_NEW);
    EXPECT(take(board, 0, 1, 3, 4, mix) == DAUNEROAD_NEW);
    SAME(mix, {9, 9, 9});
    /* columns 0 and 1 are independent, and yet no record is settled */
    EXPECT(dauneroad_show(board, LEN(board), DAUNEROAD_LOW(7), marks, 3, numbers, 3) == 201);
    SAME(marks, {0, 0, 0});
    EXPECT(numbers[0] == 0 && numbers[1] == 0 && numbers[2] == 0);
    EXPECT(take(board, 1, 3, 3, 2, mix) == DAUNEROAD_REPEAT);
    SAME(mix, {1, 1, 0});
    EXPECT(take(board, 1, 3, 3, 3, mix) == DAUNEROAD_CONFLICT);
    SAME(mix, {1, 1, 0});
    memcpy(before, board, sizeof board);
    EXPECT(take(board, 0, 0, 1, 6, mix) == DAUNEROAD_NEW);
    EXPECT(dauneroad_show(board, LEN(board), DAUNEROAD_LOW(7), marks, 3, numbers, 3) == 200);
    SAME(marks, {1, 1, 1});
    EXPECT(numbers[0] == -2 && numbers[1] == 0 && numbers[2] == -1);
    SAME(board, {7, 3, 3, 1, 1, 2, 0, 5, 0, 1, 3, 4, 0, 0, 1, 6});
    shown_from_low_ends(board);
    EXPECT(dauneroad_withdraw(board, LEN(board), 1) == 202);
    SAME_AS(board, before);
    EXPECT(dauneroad_show(board, LEN(board), DAUNEROAD_LOW(7), marks, 2, numbers, 3) == DAUNEROAD_LENGTH);
    group("the sheet of five frames: -2, 0, -1, missing 0");
}

static void sealing(void)
{
    const int32_t records[] = {-2, 0, -1}, below[] = {-2, -7, -1};
    const uint32_t rows[][3] = {{1, 2, 0}, {0, 1, 3}, {1, 3, 3}, {0, 0, 1}}, values[] = {5, 4, 2, 6};
    uint32_t value = 99;
    for (size_t i = 0; i < LEN(values); i++) {
        EXPECT(dauneroad_seal(7, 3, 1, DAUNEROAD_LOW(7), records, 3, rows[i], 3, &value, 1) == 201);
        EXPECT(value == values[i]);
        /* -2 is a record from the low end 2 on, and the low end is not in the value */
        EXPECT(dauneroad_seal(7, 3, 1, 6, records, 3, rows[i], 3, &value, 1) == 201);
        EXPECT(value == values[i]);
        EXPECT(dauneroad_seal(7, 3, 1, 1, records, 3, rows[i], 3, &value, 1) == DAUNEROAD_NUMBER);
        /* 7 is no low end; if it were one, the records would be -7 to -1 */
        EXPECT(dauneroad_seal(7, 3, 1, 7, below, 3, rows[i], 3, &value, 1) == DAUNEROAD_NUMBER);
        EXPECT(value == values[i]);
    }
    const int32_t outside[] = {-2, 4, -1};
    value = 99;
    EXPECT(dauneroad_seal(7, 3, 1, DAUNEROAD_LOW(7), outside, 3, rows[0], 3, &value, 1) == DAUNEROAD_NUMBER);
    EXPECT(value == 99);
    EXPECT(dauneroad_seal(7, 3, 1, 2, outside, 3, rows[0], 3, &value, 1) == 201);
    EXPECT(value == 6); /* -2 + 2 * 4 */
    group("sealing the sheet's frames");
}

int main(void)
{
    first_table();
    second_table();
    third_table();
    small_tables();
    empty_fits();
    checked_rows();
    checked_tables();
    check_order();
    moduli_and_sizes();
    frames();
    widths();
    fresh_board();
    sheet();
    sealing();
    printf("basic: done\n");
    return failures != 0;
}
