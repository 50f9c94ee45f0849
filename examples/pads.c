/* A pad technician's test. Four touch pads have delays, in hundredths of a second, that can only be read together: in each of seven
 * readings some pads answer one signal after the other, and their delays add up. That is a table A of seven rows and four columns, 1
 * where a pad takes part, and a right side w, the readings. Where a reading is wrong no delays give them all, and solve answers 5; fit
 * gives the delays that the first independent readings tell, and what they leave over of each of the others.
 *
 *   pads
 *
 * Prints a line for each test: what is wrong with the readings, solve's answer, the delays, and what is left over. */
#include <stdint.h>
#include <stdio.h>
#include <stdlib.h>

#include "dauneroad.h"

/* The modulus: above twice all that can be read, so that what is left over can be read with a sign. */
#define P 8191
#define PADS 4
#define READINGS 7

/* The first four are independent, the rows of J: nothing is ever left over of them. The last three check them. */
static const uint32_t a[READINGS * PADS] = {
    1, 0, 0, 0, /* pad 0 alone */
    1, 1, 0, 0, /* pads 0 and 1 */
    0, 1, 1, 0, /* pads 1 and 2 */
    0, 0, 1, 1, /* pads 2 and 3 */
    1, 0, 0, 1, /* pads 0 and 3 */
    1, 1, 1, 1, /* all */
    0, 1, 0, 1, /* pads 1 and 3 */
};

static void refused(const char *call, uint32_t answer) {
    fprintf(stderr, "pads: %s answers %u\n", call, (unsigned)answer);
    exit(1);
}

static void test(const char *what, const uint32_t *w) {
    uint32_t delays[PADS], rest[READINGS], x[PADS], u[READINGS];
    uint32_t solved = dauneroad_solve(P, READINGS, PADS, a, READINGS * PADS, w, READINGS, x, PADS, u, READINGS);
    uint32_t answer = dauneroad_fit(P, READINGS, PADS, a, READINGS * PADS, w, READINGS, delays, PADS, rest, READINGS);
    if (answer != DAUNEROAD_DONE + PADS) refused("fit", answer); /* the rank is 4: every pad's delay is told */
    printf("%s: solve %u, delays", what, (unsigned)solved);
    for (int j = 0; j < PADS; j++) printf(" %u", (unsigned)delays[j]);
    printf(", left over");
    for (int i = 0; i < READINGS; i++) {
        int32_t signed_rest;
        if ((answer = dauneroad_signed(P, DAUNEROAD_LOW(P), rest[i], &signed_rest)) != 0) refused("signed", answer);
        printf(" %d", (int)signed_rest);
    }
    printf("\n");
}

int main(void) {
    test("all right", (uint32_t[READINGS]){3, 8, 9, 10, 9, 18, 11});
    test("the sixth 2 too high", (uint32_t[READINGS]){3, 8, 9, 10, 9, 20, 11});
    test("the third 1 too low", (uint32_t[READINGS]){3, 8, 8, 10, 9, 18, 11});
    return 0;
}
