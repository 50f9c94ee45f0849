/* What stack.c knows beforehand: a heat of 64 records modulo P with its frames and boards, and tables, worked out without the library;
 * and the memory that its calls are lent. */
#ifndef KNOWN_H
#define KNOWN_H

#include "dauneroad.h"

#include <string.h>

#define P 2147483647u
#define N 64
#define S 16 /* the most words a record */
#define UNTOUCHED 0x5a5a5a5au

/* ---- what is known beforehand ---- */

static uint64_t seed = 2024;

static uint32_t draw(void)
{
    seed = seed * 6364136223846793005u + 1442695040888963407u;
    return (uint32_t)((seed >> 32) % P);
}

static uint32_t times(uint32_t x, uint32_t y) { return (uint32_t)((uint64_t)x * y % P); }
static uint32_t plus(uint32_t x, uint32_t y) { return (uint32_t)(((uint64_t)x + y) % P); }

static uint32_t s;              /* words a record, 1 to S, of the case under way */
static uint32_t rows[N][N];     /* powers of different numbers, so any of them are independent */
static uint32_t values[N][S];
static uint32_t residues[S][N]; /* word by word */
static int32_t records[N * S];  /* record after record, with s words each */
static uint32_t by[N];          /* the combination that the repeats are made of */
static uint32_t clue[N];        /* the product of (x - node) over the first 63 nodes: what their 63 frames leave open */
static uint32_t half[N * N];    /* a table of rank 32 on its first 32 rows and columns */
static uint32_t unit[N * N];

static uint32_t row_times(const uint32_t *row, const uint32_t *column, size_t step)
{
    uint32_t sum = 0;
    for (int i = 0; i < N; i++)
        sum = plus(sum, times(row[i], column[i * step]));
    return sum;
}

static void know(void)
{
    for (int j = 0; j < N; j++) {
        for (int w = 0; w < S; w++)
            residues[w][j] = j == 0 ? P / 2 : j == 1 ? P / 2 + 1 : draw();
        by[j] = draw();
        unit[j * N + j] = 1;
    }
    clue[0] = 1;
    for (uint32_t i = 0; i < N; i++) {
        uint32_t node = 1000000007u + 31 * i;
        rows[i][0] = 1;
        for (int j = 1; j < N; j++)
            rows[i][j] = times(rows[i][j - 1], node);
        for (int w = 0; w < S; w++)
            values[i][w] = row_times(rows[i], residues[w], 1);
        for (int j = (int)i + 1; i < N - 1 && j >= 0; j--)
            clue[j] = plus(j > 0 ? clue[j - 1] : 0, times(clue[j], P - node));
    }
    /* (lower; anything) times (upper, anything) with ones on both diagonals */
    static uint32_t left[N][32], right[32][N];
    for (int i = 0; i < N; i++) {
        for (int k = 0; k < 32; k++) {
            left[i][k] = i == k ? 1 : i < k ? 0 : draw();
            right[k][i] = i == k ? 1 : i < k ? 0 : draw();
        }
    }
    for (int i = 0; i < N; i++)
        for (int j = 0; j < N; j++)
            for (int k = 0; k < 32; k++)
                half[i * N + j] = plus(half[i * N + j], times(left[i][k], right[k][j]));
}

/* ---- what is lent ---- */

static uint32_t board[DAUNEROAD_BOARD_WORDS(N, S)], want[DAUNEROAD_BOARD_WORDS(N, S)];
static uint32_t table[N * N], out[N * N], product[N * N], columns[N], marks[N], mix[N], w[N], z[N], u[N], got[S], residue;
static int32_t numbers[N * S], record;
static uint8_t frame[DAUNEROAD_LONGEST_FRAME(S)], bytes[DAUNEROAD_LONGEST_FRAME(S)];
static size_t frame_len;

static void fill(void *memory, size_t len) { memset(memory, 0x5a, len); }

static void lay_records(void)
{
    for (uint32_t i = 0; i < N * s; i++) {
        uint32_t v = residues[i % s][i / s];
        records[i] = v <= P / 2 ? (int32_t)v : (int32_t)((int64_t)v - (int64_t)P);
    }
}

static void lay_board(uint32_t *to, uint32_t count)
{
    fill(to, sizeof board);
    memset(to, 0, DAUNEROAD_BOARD_WORDS(N, s) * sizeof *to);
    to[0] = P;
    to[1] = N;
    to[2] = count;
    to[3] = s;
    for (uint32_t i = 0; i < count; i++) {
        memcpy(to + 4 + i * (N + s), rows[i], sizeof rows[i]);
        memcpy(to + 4 + i * (N + s) + N, values[i], s * sizeof *values[i]);
    }
}

/* Numbers modulo P have four bytes in a frame. */
static void lay_number(uint32_t x)
{
    for (int shift = 24; shift >= 0; shift -= 8)
        frame[frame_len++] = (uint8_t)(x >> shift);
}

static void lay_frame(const uint32_t *multipliers, const uint32_t *last)
{
    fill(frame, sizeof frame);
    memset(frame, 0, N / 8);
    frame_len = N / 8;
    for (int j = 0; j < N; j++) {
        if (multipliers[j] != 0) {
            frame[j / 8] |= (uint8_t)(1 << (j % 8));
            lay_number(multipliers[j]);
        }
    }
    for (uint32_t i = 0; i < s; i++)
        lay_number(last[i]);
}

/* The combination of the first rows that `by` says, with this added to its last value. */
static void combine(uint32_t count, uint32_t more, uint32_t *sum, uint32_t *last)
{
    memset(sum, 0, N * sizeof *sum);
    memset(last, 0, s * sizeof *last);
    last[s - 1] = more;
    for (uint32_t i = 0; i < count; i++) {
        for (int j = 0; j < N; j++)
            sum[j] = plus(sum[j], times(by[i], rows[i][j]));
        for (uint32_t word = 0; word < s; word++)
            last[word] = plus(last[word], times(by[i], values[i][word]));
    }
}

static void lay_repeat(uint32_t count, uint32_t more)
{
    uint32_t sum[N], last[S];
    combine(count, more, sum, last);
    lay_frame(sum, last);
}

static int untouched(const uint32_t *memory, size_t len)
{
    for (size_t i = 0; i < len; i++)
        if (memory[i] != UNTOUCHED)
            return 0;
    return 1;
}

static int all(const uint32_t *memory, size_t len, uint32_t x)
{
    for (size_t i = 0; i < len; i++)
        if (memory[i] != x)
            return 0;
    return 1;
}

static int mix_is(uint32_t count) { return memcmp(mix, by, count * sizeof *by) == 0 && all(mix + count, N - count, 0); }

static int board_is(uint32_t count)
{
    lay_board(want, count);
    return memcmp(board, want, sizeof want) == 0;
}

static void multiply(const uint32_t *x, const uint32_t *y, uint32_t *to)
{
    for (int i = 0; i < N; i++)
        for (int j = 0; j < N; j++)
            to[i * N + j] = row_times(x + i * N, y + j, N);
}

#endif
