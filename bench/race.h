/* What the two programs of this folder share: moduli, random numbers, the clock and the race of several contenders. */
#ifndef RACE_H
#define RACE_H

#include <stdint.h>
#include <stdio.h>
#include <stdlib.h>
#include <string.h>
#include <time.h>

#define MOST 64
#define RACERS 4

static const uint32_t PRIMES[3] = {251, 65537, 2147483629};

static void must(int holds, const char *what) {
    if (!holds) {
        fflush(stdout);
        fprintf(stderr, "bench: the two sides differ, or a call failed: %s\n", what);
        exit(1);
    }
}

/* ---- random numbers, the same ones in every run (splitmix64) ---- */

static uint64_t state = 20281115;

static uint64_t draw(void) {
    uint64_t x = state += 0x9e3779b97f4a7c15u;
    x = (x ^ x >> 30) * 0xbf58476d1ce4e5b9u;
    x = (x ^ x >> 27) * 0x94d049bb133111ebu;
    return x ^ x >> 31;
}

static uint32_t below(uint32_t bound) { return (uint32_t)(draw() % bound); }

static uint32_t times(uint32_t x, uint32_t y, uint32_t p) { return (uint32_t)((uint64_t)x * y % p); }

/* ---- clock ---- */

static double now(void) { /* microseconds */
    struct timespec t;
    clock_gettime(CLOCK_MONOTONIC, &t);
    return (double)t.tv_sec * 1e6 + (double)t.tv_nsec * 1e-3;
}

static double clock_cost; /* what two readings of the clock cost by themselves */

static void weigh_clock(void) {
    clock_cost = 1e9;
    for (int i = 0; i < 2000; i++) {
        double start = now(), spent = now() - start;
        if (spent < clock_cost) clock_cost = spent;
    }
}

typedef void (*work)(void *);

static double sample(work w, void *data, long repeats) {
    double start = now();
    for (long i = 0; i < repeats; i++) w(data);
    double spent = now() - start - clock_cost;
    return spent > 0 ? spent : 0;
}

/* The fastest time of each contender, in microseconds for one run of its work. A sample lasts 50 microseconds at least; the
 * samples take turns, forwards and backwards, for about the given seconds in all, and for twenty rounds at least. */
static void race(int count, work *works, void *data, double seconds, double *fastest) {
    long repeats[RACERS];
    for (int c = 0; c < count; c++) {
        works[c](data);
        repeats[c] = 1;
        while (sample(works[c], data, repeats[c]) < 50 && repeats[c] < 1L << 20) repeats[c] *= 2;
        fastest[c] = 1e18;
    }
    double end = now() + seconds * 1e6;
    for (int round = 0; round < 20 || now() < end; round++)
        for (int i = 0; i < count; i++) {
            int c = round % 2 ? count - 1 - i : i;
            double spent = sample(works[c], data, repeats[c]) / (double)repeats[c];
            if (spent < fastest[c]) fastest[c] = spent;
        }
}

#endif
