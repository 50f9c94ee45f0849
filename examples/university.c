/* A club secretary's check. The club has a table A of four rows and four columns, of rank 3, and the university sends quasiinverses of it
 * from an algebra package. A table has many of them: ours is on the first independent rows and columns, the package's on the last ones.
 * Check tells which are right, and each one that is right tells as well as ours whether A z = w has a solution: exactly if w - A (D w) is
 * all 0.
 *
 *   university
 *
 * Prints a line for each D that was sent, and one for each of two right sides: what is left over of it, and solve's answer. */
#include <stdint.h>
#include <stdio.h>

#include "dauneroad.h"

#define P 101 /* 100 stands for -1, 99 for -2 */
#define ROWS 4
#define COLUMNS 4
#define SIZE (ROWS * COLUMNS)

/* The third row is the sum of the first two. */
static const uint32_t a[SIZE] = {1, 1, 0, 2, 0, 1, 1, 1, 1, 2, 1, 3, 1, 0, 0, 1};

static const uint32_t sent[SIZE] = {0, 0, 0, 0, 0, 100, 1, 99, 0, 2, 100, 1, 0, 0, 0, 1};
static const uint32_t mistyped[SIZE] = {0, 0, 0, 0, 0, 100, 1, 9, 0, 2, 100, 1, 0, 0, 0, 1}; /* 9 for 99 */
static const uint32_t inner[SIZE] = {100, 100, 1, 0, 100, 99, 2, 99, 0, 2, 100, 1, 1, 1, 100, 1}; /* of rank 4 */

static void check(const char *which, const uint32_t *d) {
    uint32_t answer = dauneroad_check(P, ROWS, COLUMNS, a, SIZE, d, SIZE);
    if (answer >= DAUNEROAD_DONE) printf("%s: rank %u\n", which, (unsigned)(answer - DAUNEROAD_DONE));
    else if (answer == DAUNEROAD_NOT_INNER) printf("%s: %u, ADA differs from A\n", which, (unsigned)answer);
    else if (answer == DAUNEROAD_NOT_OUTER) printf("%s: %u, DAD differs from D\n", which, (unsigned)answer);
    else printf("%s: refused by %u\n", which, (unsigned)answer);
}

/* The product of a table and x, modulo P, to y. */
static void multiply(const uint32_t *table, int rows, int columns, const uint32_t *x, uint32_t *y) {
    for (int i = 0; i < rows; i++) {
        uint64_t sum = 0;
        for (int j = 0; j < columns; j++) sum += (uint64_t)table[i * columns + j] * x[j];
        y[i] = (uint32_t)(sum % P);
    }
}

/* What the university's D leaves over of w, beside solve's answer. */
static void tell(const uint32_t *w) {
    uint32_t z[COLUMNS], az[ROWS], u[ROWS];
    multiply(sent, COLUMNS, ROWS, w, z);
    multiply(a, ROWS, COLUMNS, z, az);
    for (int i = 0; i < ROWS; i++) printf("%s%u", i > 0 ? " " : "", (unsigned)w[i]);
    printf(": left over");
    for (int i = 0; i < ROWS; i++) printf(" %u", (unsigned)((w[i] + P - az[i]) % P));
    printf(", solve %u\n", (unsigned)dauneroad_solve(P, ROWS, COLUMNS, a, SIZE, w, ROWS, z, COLUMNS, u, ROWS));
}

int main(void) {
    uint32_t ours[SIZE], columns[COLUMNS], rows[ROWS];
    uint32_t answer = dauneroad_quasiinverse(P, ROWS, COLUMNS, a, SIZE, ours, SIZE, columns, COLUMNS, rows, ROWS);
    if (answer < DAUNEROAD_DONE) {
        fprintf(stderr, "university: quasiinverse answers %u\n", (unsigned)answer);
        return 1;
    }
    check("ours", ours);
    check("the university's", sent);
    check("one number mistyped", mistyped);
    check("an inner inverse only", inner);
    tell((uint32_t[ROWS]){11, 9, 20, 5});
    tell((uint32_t[ROWS]){11, 9, 17, 5}); /* 17 is not 11 + 9 */
    return 0;
}
