/* The cases of stack.c that are about logs of 64 frames: what is made ready, the call, and what must then hold. */
#ifndef KNOWN_LOGS_H
#define KNOWN_LOGS_H

#include "dauneroad.h"
#include "known.h"

#include <string.h>

static uint32_t logged[N * (N + S)], logged_before[N * (N + S)];

static uint32_t call_clash(void) { return dauneroad_clash(P, N, N, s, logged, N * (N + s), marks, N); }

static void lay_logged(uint32_t at, const uint32_t *multipliers, const uint32_t *last)
{
    memcpy(logged + at * (N + s), multipliers, N * sizeof *multipliers);
    memcpy(logged + at * (N + s) + N, last, s * sizeof *last);
    memcpy(logged_before, logged, sizeof logged);
}
static void ready_no_clash(void)
{
    for (uint32_t i = 0; i < N; i++)
        lay_logged(i, rows[i], values[i]);
}
static int clash_is(uint32_t answer, uint32_t chosen)
{
    return answer == DAUNEROAD_DONE + chosen && memcmp(logged, logged_before, sizeof logged) == 0;
}
static int after_no_clash(uint32_t answer) { return clash_is(answer, 0) && all(marks, N, 0); }

/* the last frame is a combination of all others, none by 0, but for its last value */
static void ready_clash_64(void)
{
    uint32_t sum[N], last[S];
    ready_no_clash();
    combine(N - 1, 1, sum, last);
    lay_logged(N - 1, sum, last);
}
static int after_clash_64(uint32_t answer) { return clash_is(answer, 64) && all(marks, N, 1); }

/* the last frame is frame 40 but for its last value */
static void ready_clash_2(void)
{
    uint32_t last[S];
    ready_no_clash();
    memcpy(last, values[40], sizeof last);
    last[s - 1] = plus(last[s - 1], 1);
    lay_logged(N - 1, rows[40], last);
}
static int after_clash_2(uint32_t answer)
{
    int holds = clash_is(answer, 2);
    for (int i = 0; i < N; i++)
        holds = holds && marks[i] == (i == 40 || i == N - 1);
    return holds;
}

#endif
