/* The cases of stack.c that are about tables: what is made ready, the call, and what must then hold. */
#ifndef KNOWN_TABLES_H
#define KNOWN_TABLES_H

#include "dauneroad.h"
#include "known.h"

#include <string.h>

static uint32_t call_quasiinverse(void)
{
    return dauneroad_quasiinverse(P, N, N, table, N * N, out, N * N, columns, N, marks, N);
}
static uint32_t call_kernel(void) { return dauneroad_kernel(P, N, N, table, N * N, out, N * N); }
static uint32_t call_solve(void) { return dauneroad_solve(P, N, N, table, N * N, w, N, z, N, u, N); }
static uint32_t call_fit(void) { return dauneroad_fit(P, N, N, table, N * N, w, N, z, N, u, N); }
static uint32_t call_check(void) { return dauneroad_check(P, N, N, table, N * N, out, N * N); }

static void ready_full(void)
{
    memcpy(table, rows, sizeof table);
    for (int i = 0; i < N; i++)
        w[i] = values[i][0];
}
static int after_quasiinverse_full(uint32_t answer)
{
    multiply(table, out, product);
    return answer == DAUNEROAD_DONE + 64 && memcmp(product, unit, sizeof unit) == 0 && all(columns, N, 1) && all(marks, N, 1);
}
static int after_kernel_full(uint32_t answer) { return answer == DAUNEROAD_DONE && all(out, N * N, 0); }
static int after_solve_full(uint32_t answer)
{
    return answer == DAUNEROAD_DONE + 64 && memcmp(z, residues[0], sizeof z) == 0 && all(u, N, 0);
}

static void ready_half(void)
{
    memcpy(table, half, sizeof table);
    for (int i = 0; i < N; i++)
        w[i] = row_times(table + i * N, residues[0], 1);
}
static void ready_insoluble(void)
{
    ready_half();
    w[40] = plus(w[40], 1);
    w[63] = plus(w[63], 1);
}
static int after_quasiinverse_half(uint32_t answer)
{
    static uint32_t again[N * N];
    multiply(table, out, product);
    multiply(product, table, again);
    int holds = memcmp(again, table, sizeof table) == 0;
    for (int i = 0; i < N; i++) /* nothing outside the first 32 rows and columns, where D then is the inverse */
        for (int j = 0; j < N; j++)
            holds = holds && (out[i * N + j] == 0 || (i < 32 && j < 32));
    return holds && answer == DAUNEROAD_DONE + 32 && all(columns, 32, 1) && all(columns + 32, 32, 0) && all(marks, 32, 1) &&
           all(marks + 32, 32, 0);
}
static int after_kernel_half(uint32_t answer)
{
    int holds = answer == DAUNEROAD_DONE + 32 && all(out + 32 * N, 32 * N, 0);
    for (int v = 0; v < 32; v++) {
        for (int j = 32; j < N; j++)
            holds = holds && out[v * N + j] == (j == v + 32);
        for (int i = 0; i < N; i++)
            holds = holds && row_times(table + i * N, out + v * N, 1) == 0;
    }
    return holds;
}
static int after_solve_half(uint32_t answer)
{
    int holds = answer == DAUNEROAD_DONE + 32 && all(u, N, 0) && all(z + 32, 32, 0);
    for (int i = 0; i < N; i++)
        holds = holds && row_times(table + i * N, z, 1) == w[i];
    return holds;
}
static int after_insoluble(uint32_t answer)
{
    int holds = answer == DAUNEROAD_INSOLUBLE && untouched(z, N) && row_times(u, w, 1) != 0;
    for (int i = 32; i < N; i++)
        holds = holds && u[i] == (i == 40);
    for (int j = 0; j < N; j++)
        holds = holds && row_times(u, table + j, N) == 0;
    return holds;
}

/* the two rows that were made to differ are outside J: all of that is left over, and nothing else */
static int after_left_over(uint32_t answer)
{
    int holds = answer == DAUNEROAD_DONE + 32 && all(z + 32, 32, 0);
    for (int i = 0; i < N; i++)
        holds = holds && u[i] == (i == 40 || i == 63) && plus(row_times(table + i * N, z, 1), u[i]) == w[i];
    return holds;
}

static void ready_zero(void) { memset(table, 0, sizeof table), memset(w, 0, sizeof w); }
static int after_kernel_zero(uint32_t answer) { return answer == DAUNEROAD_DONE + 64 && memcmp(out, unit, sizeof unit) == 0; }

/* D is what quasiinverse leaves, which our own products judge; both tables stay as they are */
static uint32_t lent[2][N * N];
static void lend(void) { memcpy(lent[0], table, sizeof table), memcpy(lent[1], out, sizeof out); }
static int as_lent(void) { return memcmp(lent[0], table, sizeof table) == 0 && memcmp(lent[1], out, sizeof out) == 0; }
static int accepted(uint32_t answer, uint32_t rank)
{
    static uint32_t again[N * N];
    multiply(table, out, product);
    multiply(product, table, again);
    int holds = memcmp(again, table, sizeof table) == 0;
    multiply(out, product, again);
    return holds && memcmp(again, out, sizeof out) == 0 && as_lent() && answer == DAUNEROAD_DONE + rank;
}
static void ready_check_full(void) { ready_full(), call_quasiinverse(), lend(); }
static int after_check_full(uint32_t answer) { return accepted(answer, 64); }
static void ready_check_half(void) { ready_half(), call_quasiinverse(), lend(); }
static int after_check_half(uint32_t answer) { return accepted(answer, 32); }

/* A is the unit table, and D too but for a 2 in the last place: ADA differs there alone */
static void ready_not_inner(void)
{
    memcpy(table, unit, sizeof table), memcpy(out, unit, sizeof out);
    out[N * N - 1] = 2;
    lend();
}
static int after_not_inner(uint32_t answer) { return answer == DAUNEROAD_NOT_INNER && as_lent(); }

/* D is the unit table, and A too but for a 0 in the last place: DAD differs there alone */
static void ready_not_outer(void)
{
    memcpy(table, unit, sizeof table), memcpy(out, unit, sizeof out);
    table[N * N - 1] = 0;
    lend();
}
static int after_not_outer(uint32_t answer) { return answer == DAUNEROAD_NOT_OUTER && as_lent(); }

#endif
