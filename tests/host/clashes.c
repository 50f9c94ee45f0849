/* Logs of frames that clash, document 02's #109, through the header alone: examples worked out by hand. One line per example group; ends
 * with 0 only if all of them hold. */
#include "dauneroad.h"
#include "expect.h"

/* Clash of the first m frames of a log, with marks of 9 beforehand and one behind them that stays: the number of marked frames and the
 * marks are these. */
static int clash_is(uint32_t p, uint32_t m, uint32_t n, uint32_t s, const uint32_t *frames, uint32_t chosen, const uint32_t *want)
{
    uint32_t marks[65], before[64 * 80];
    size_t length = m * (n + s);
    for (size_t i = 0; i < LEN(marks); i++)
        marks[i] = 9;
    memcpy(before, frames, length * sizeof *frames);
    return dauneroad_clash(p, m, n, s, frames, length, marks, m) == DAUNEROAD_DONE + chosen &&
           memcmp(marks, want, m * sizeof *want) == 0 && marks[m] == 9 && memcmp(frames, before, length * sizeof *frames) == 0;
}

#define MARKS(...) ((const uint32_t[]){__VA_ARGS__})

/* The records -2, 0 and -1 modulo 7: (1 2 0) 5 and (0 1 3) 4, whose sum is (1 3 3) 2, and (0 0 1) 6. */
static void sums(void)
{
    static const uint32_t honest[] = {1, 2, 0, 5, 0, 1, 3, 4, 1, 3, 3, 2, 0, 0, 1, 6};
    EXPECT(clash_is(7, 4, 3, 1, honest, 0, MARKS(0, 0, 0, 0)));
    static const uint32_t falsified[] = {1, 2, 0, 5, 0, 1, 3, 4, 1, 3, 3, 3, 0, 0, 1, 6};
    EXPECT(clash_is(7, 2, 3, 1, falsified, 0, MARKS(0, 0)));
    EXPECT(clash_is(7, 3, 3, 1, falsified, 3, MARKS(1, 1, 1)));
    EXPECT(clash_is(7, 4, 3, 1, falsified, 3, MARKS(1, 1, 1, 0)));
    /* the honest fourth frame before the others: it is in J, and no part of the sum */
    static const uint32_t moved[] = {0, 0, 1, 6, 1, 2, 0, 5, 0, 1, 3, 4, 1, 3, 3, 3};
    EXPECT(clash_is(7, 4, 3, 1, moved, 3, MARKS(0, 1, 1, 1)));
    /* one of the two summed is falsified: the same three quarrel */
    static const uint32_t summand[] = {1, 2, 0, 6, 0, 1, 3, 4, 1, 3, 3, 2, 0, 0, 1, 6};
    EXPECT(clash_is(7, 4, 3, 1, summand, 3, MARKS(1, 1, 1, 0)));
    /* the sum comes first: then it is in J, and the second summand is the one that contradicts */
    static const uint32_t turned[] = {1, 3, 3, 3, 1, 2, 0, 5, 0, 1, 3, 4};
    EXPECT(clash_is(7, 3, 3, 1, turned, 3, MARKS(1, 1, 1)));
    /* document 01's five frames: the honest sum is a repeat and not chosen */
    static const uint32_t heat[] = {1, 2, 0, 5, 0, 1, 3, 4, 1, 3, 3, 2, 1, 3, 3, 3, 0, 0, 1, 6};
    EXPECT(clash_is(7, 5, 3, 1, heat, 3, MARKS(1, 1, 0, 1, 0)));
    group("clash, p = 7, the sum of two frames falsified");
}

/* Frames over one and the same sum: multiples of (1 2) 5 modulo 7. */
static void multiples(void)
{
    static const uint32_t honest[] = {1, 2, 5, 2, 4, 3, 3, 6, 1, 1, 2, 5};
    EXPECT(clash_is(7, 4, 2, 1, honest, 0, MARKS(0, 0, 0, 0)));
    static const uint32_t third[] = {1, 2, 5, 2, 4, 3, 3, 6, 2, 1, 2, 5};
    EXPECT(clash_is(7, 4, 2, 1, third, 2, MARKS(1, 0, 1, 0)));
    /* of a frame that came twice the first one is chosen */
    static const uint32_t doubled[] = {1, 2, 5, 1, 2, 5, 1, 2, 6, 1, 2, 6};
    EXPECT(clash_is(7, 4, 2, 1, doubled, 2, MARKS(1, 0, 1, 0)));
    /* all but the first agree with each other; the first is the one in J */
    static const uint32_t first[] = {1, 2, 6, 2, 4, 3, 3, 6, 1, 1, 2, 5};
    EXPECT(clash_is(7, 4, 2, 1, first, 2, MARKS(1, 1, 0, 0)));
    /* two clashes: that of the earlier frame is taken */
    static const uint32_t two[] = {1, 2, 5, 0, 1, 4, 1, 2, 6, 0, 1, 3};
    EXPECT(clash_is(7, 4, 2, 1, two, 2, MARKS(1, 0, 1, 0)));
    static const uint32_t other_way[] = {1, 2, 5, 0, 1, 4, 0, 1, 3, 1, 2, 6};
    EXPECT(clash_is(7, 4, 2, 1, other_way, 2, MARKS(0, 1, 1, 0)));
    group("clash, p = 7, multiples of a frame; the first of two clashes");
}

/* A frame of no record says that 0 is its values. */
static void zero_frames(void)
{
    static const uint32_t one[] = {0, 0, 1}, none[] = {0, 0, 0};
    EXPECT(clash_is(7, 1, 2, 1, one, 1, MARKS(1)));
    EXPECT(clash_is(7, 1, 2, 1, none, 0, MARKS(0)));
    static const uint32_t among[] = {1, 2, 5, 0, 0, 0, 0, 0, 6, 1, 2, 6, 0, 0, 1};
    EXPECT(clash_is(7, 5, 2, 1, among, 1, MARKS(0, 0, 1, 0, 0)));
    static const uint32_t behind[] = {1, 2, 5, 0, 0, 0, 1, 2, 6, 0, 0, 6};
    EXPECT(clash_is(7, 4, 2, 1, behind, 2, MARKS(1, 0, 1, 0)));
    static const uint32_t last_word[] = {0, 0, 0, 2};
    EXPECT(clash_is(3, 1, 1, 3, last_word, 1, MARKS(1)));
    static const uint32_t bits[] = {1, 1, 0, 0, 1, 0, 0, 1};
    EXPECT(clash_is(2, 4, 1, 1, bits, 2, MARKS(1, 0, 1, 0)));
    EXPECT(clash_is(2, 1, 1, 1, bits + 6, 1, MARKS(1)));
    group("clash, frames of no record, alone and among others, p = 7, 3 and 2");
}

/* Finish and split: (1 2 0) 5 5 and (0 1 3) 4 0, whose sum is (1 3 3) 2 5. */
static void two_words(void)
{
    static const uint32_t values[][2] = {{2, 5}, {3, 5}, {2, 6}, {5, 2}};
    for (size_t i = 0; i < LEN(values); i++) {
        const uint32_t frames[] = {1, 2, 0, 5, 5, 0, 0, 1, 6, 2, 0, 1, 3, 4, 0, 1, 3, 3, values[i][0], values[i][1]};
        EXPECT(clash_is(7, 4, 3, 2, frames, i > 0 ? 3 : 0, i > 0 ? MARKS(1, 0, 1, 1) : MARKS(0, 0, 0, 0)));
    }
    /* the frame that contradicts first is taken, whichever word it is in: here the second of frame 1, then the first of it */
    static const uint32_t last_first[] = {1, 0, 5, 5, 1, 0, 5, 6, 1, 0, 6, 5}, first_first[] = {1, 0, 5, 5, 1, 0, 6, 5, 1, 0, 5, 6};
    EXPECT(clash_is(7, 3, 2, 2, last_first, 2, MARKS(1, 1, 0)));
    EXPECT(clash_is(7, 3, 2, 2, first_first, 2, MARKS(1, 1, 0)));
    static const uint32_t last_later[] = {1, 0, 5, 5, 0, 1, 3, 3, 0, 1, 4, 3, 1, 0, 5, 6};
    static const uint32_t first_later[] = {1, 0, 5, 5, 0, 1, 3, 3, 0, 1, 3, 4, 1, 0, 6, 5};
    EXPECT(clash_is(7, 4, 2, 2, last_later, 2, MARKS(0, 1, 1, 0)));
    EXPECT(clash_is(7, 4, 2, 2, first_later, 2, MARKS(0, 1, 1, 0)));
    group("clash, two words: falsified in the first, in the last, in both");
}

/* Three words modulo 5: (1 0) 1 2 3 and (0 1) 4 0 1; twice the one and three times the other are (2 3) 4 4 4. */
static void three_words(void)
{
    for (uint32_t w = 0; w <= 3; w++) {
        uint32_t frames[] = {1, 0, 1, 2, 3, 0, 1, 4, 0, 1, 1, 1, 0, 2, 4, 2, 3, 4, 4, 4};
        if (w < 3)
            frames[17 + w] = 3;
        EXPECT(clash_is(5, 4, 2, 3, frames, w < 3 ? 3 : 0, w < 3 ? MARKS(1, 1, 0, 1) : MARKS(0, 0, 0, 0)));
    }
    group("clash, three words, each of them falsified alone");
}

/* p - 1 is -1: (-1) -1 and (1) 1 agree, (2) 3 does not. In the second log -1 times the first frame and 2 times the second is (-1 2) 3. */
static void large_numbers(void)
{
    enum { LAST = 2147483646 };
    static const uint32_t one[] = {LAST, LAST, 1, 1, 2, 3}, two[] = {1, 0, LAST, 0, 1, 1, LAST, 2, 3, LAST, 2, LAST};
    EXPECT(clash_is(2147483647, 2, 1, 1, one, 0, MARKS(0, 0)));
    EXPECT(clash_is(2147483647, 3, 1, 1, one, 2, MARKS(1, 0, 1)));
    EXPECT(clash_is(2147483647, 3, 2, 1, two, 0, MARKS(0, 0, 0)));
    EXPECT(clash_is(2147483647, 4, 2, 1, two, 3, MARKS(1, 1, 0, 1)));
    group("clash, p = 2147483647");
}

static uint32_t marks[65];
static uint32_t log_of_zeros[65 * 82];

/* The answer is this number, and the marks are as they were. */
static int kept(uint32_t answer, uint32_t number)
{
    for (size_t i = 0; i < LEN(marks); i++)
        if (marks[i] != 0xeeeeeeee)
            return 0;
    return answer == number;
}

/* (1 2) 5 5 and (1 2) 5 6 clash; 8 is 1 modulo 7, and is refused all the same. The last number is one too many. */
static const uint32_t good[] = {1, 2, 5, 5, 1, 2, 5, 6, 1, 2, 5, 5, 0}, bad[] = {1, 2, 5, 5, 1, 2, 5, 6, 8, 2, 5, 5, 0};

static void refusals(void)
{
    static const uint32_t no_s[] = {0, 17, 65536, 4294967295};
    memset(marks, 0xee, sizeof marks);
    EXPECT(kept(dauneroad_clash(8, 65, 0, 0, bad, 1, marks, 1), DAUNEROAD_MODULUS));
    EXPECT(kept(dauneroad_clash(8, 3, 2, 2, good, 12, marks, 3), DAUNEROAD_MODULUS));
    EXPECT(kept(dauneroad_clash(7, 65, 2, 0, bad, 1, marks, 1), DAUNEROAD_SIZE));
    EXPECT(kept(dauneroad_clash(7, 3, 0, 17, bad, 1, marks, 1), DAUNEROAD_SIZE));
    EXPECT(kept(dauneroad_clash(7, 3, 65, 17, bad, 1, marks, 1), DAUNEROAD_SIZE));
    EXPECT(kept(dauneroad_clash(7, 0, 0, 1, bad, 0, marks, 0), DAUNEROAD_SIZE));
    EXPECT(kept(dauneroad_clash(7, 65, 64, 16, log_of_zeros, 65 * 80, marks, 65), DAUNEROAD_SIZE));
    EXPECT(kept(dauneroad_clash(7, 64, 65, 16, log_of_zeros, 64 * 81, marks, 64), DAUNEROAD_SIZE));
    EXPECT(kept(dauneroad_clash(7, 64, 64, 17, log_of_zeros, 64 * 81, marks, 64), DAUNEROAD_WORDS));
    for (size_t i = 0; i < LEN(no_s); i++) {
        EXPECT(kept(dauneroad_clash(7, 3, 2, no_s[i], bad, 12, marks, 3), DAUNEROAD_WORDS));
        EXPECT(kept(dauneroad_clash(7, 3, 2, no_s[i], bad, 6, marks, 1), DAUNEROAD_WORDS));
    }
    group("clash, the order of 1, 2, 12, and marks that stay as they were");
}

static void lengths_and_numbers(void)
{
    memset(marks, 0xee, sizeof marks);
    for (size_t log_len = 11; log_len <= 13; log_len++)
        for (size_t marks_len = 2; marks_len <= 4; marks_len++) {
            int right = log_len == 12 && marks_len == 3;
            EXPECT(kept(dauneroad_clash(7, 3, 2, 2, bad, log_len, marks, marks_len), right ? DAUNEROAD_NUMBER : DAUNEROAD_LENGTH));
            EXPECT(right || kept(dauneroad_clash(7, 3, 2, 2, good, log_len, marks, marks_len), DAUNEROAD_LENGTH));
        }
    for (size_t i = 0; i < 12; i++) {
        uint32_t frames[12];
        memcpy(frames, good, sizeof frames);
        frames[i] = 7;
        EXPECT(kept(dauneroad_clash(7, 3, 2, 2, frames, 12, marks, 3), DAUNEROAD_NUMBER));
    }
    EXPECT(clash_is(7, 3, 2, 2, good, 2, MARKS(1, 1, 0)));
    group("clash, 3 before 4, whichever length is wrong, and a 7 in each place");
}

static void sizes(void)
{
    static const uint32_t zeros[64];
    memset(marks, 0xee, sizeof marks);
    EXPECT(kept(dauneroad_clash(7, 0, 1, 1, log_of_zeros, 0, marks, 0), DAUNEROAD_DONE));
    EXPECT(kept(dauneroad_clash(7, 0, 64, 16, log_of_zeros, 0, marks, 0), DAUNEROAD_DONE));
    EXPECT(clash_is(7, 64, 64, 16, log_of_zeros, 0, zeros));
    EXPECT(clash_is(7, 64, 1, 1, log_of_zeros, 0, zeros));
    group("clash, no frames, and 64 of zeros");
}

int main(void)
{
    sums();
    multiples();
    zero_frames();
    two_words();
    three_words();
    large_numbers();
    refusals();
    lengths_and_numbers();
    sizes();
    printf("clashes: done\n");
    return failures != 0;
}
