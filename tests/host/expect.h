/* What the example programs share: expectations, counted, and a line for each group of them. */
#ifndef EXPECT_H
#define EXPECT_H

#include <stdint.h>
#include <stdio.h>
#include <string.h>

static int failures;
static int wrong;

static void expect(int holds, const char *what, const char *file, int line)
{
    if (!holds) {
        printf("%s:%d: %s does not hold\n", file, line, what);
        wrong++;
    }
}

#define EXPECT(what) expect((what), #what, __FILE__, __LINE__)
#define SAME(got, ...) SAME_AS(got, ((const uint32_t[])__VA_ARGS__))
#define SAME_AS(got, want) expect(memcmp((got), (want), sizeof(want)) == 0, #got " == " #want, __FILE__, __LINE__)

static void group(const char *name)
{
    printf("%s: example, %s\n", wrong ? "error" : "ok", name);
    failures += wrong != 0;
    wrong = 0;
}

#define LEN(array) (sizeof(array) / sizeof((array)[0]))

#endif
