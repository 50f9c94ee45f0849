/* A 200 metres heat with three words a record: the finish, the split at 100 metres and the reaction time, in hundredths of a second; a
 * swimmer who left the block too early has a reaction time below 0. The words of a record travel together: a frame has one multiplier
 * for each record and three values, one for each word, so a record is shown with all its words or not at all.
 *
 *   splits
 *
 * Plays console and printer in one, over a line that loses every third frame. While four swimmers have touched the console sends
 * frames over their records, then over all. Prints for each frame its number and `new`, `lost`, `repeat` or `conflict`, and the board
 * when one frame is missing and again when none is: for each record its position and its three words or `unknown`, then `missing M`. */
#include <stdint.h>
#include <stdio.h>
#include <stdlib.h>

#include "dauneroad.h"

/* The modulus, the records and their words, which console and printer agree on. Times go to 654 seconds. */
#define P 65521
#define N 8
#define S 3

/* A start may be a second too early: words run from -100 to P - 1 - 100. */
static const uint32_t low = 100;

/* Finish, split and reaction time, swimmer after swimmer, in the order in which they touched. */
static const int32_t records[N * S] = {
    11562, 5521, 64, /* 0 */
    11608, 5547, 71, /* 1 */
    11633, 5502, 68, /* 2 */
    11701, 5590, 75, /* 3 */
    11745, 5583, -4, /* 4: started too early */
    11790, 5611, 80, /* 5 */
    11954, 5702, 66, /* 6 */
    12380, 5816, 73, /* 7 */
};

static uint32_t board[DAUNEROAD_BOARD_WORDS(N, S)];

static const size_t board_words = DAUNEROAD_BOARD_WORDS(N, S);

static uint32_t accepted(uint32_t answer, const char *call) {
    if (answer != 0 && answer < DAUNEROAD_DONE) {
        fprintf(stderr, "splits: %s refused %u\n", call, (unsigned)answer);
        exit(1);
    }
    return answer;
}

/* The console's frame of a number over the records of those who have touched: the multipliers are the powers of the number, so that as
 * many frames as records settle them. `error` is added to the value of the reaction times on the way. Answers the length. */
static size_t send(uint32_t number, int touched, uint32_t error, uint8_t bytes[DAUNEROAD_LONGEST_FRAME(S)]) {
    uint32_t multipliers[N] = {1}, values[S];
    for (int j = 1; j < touched; j++) multipliers[j] = (uint32_t)((uint64_t)multipliers[j - 1] * number % P);
    accepted(dauneroad_seal(P, N, S, low, records, N * S, multipliers, N, values, S), "seal");
    values[S - 1] = (values[S - 1] + error) % P;
    uint32_t answer = dauneroad_write(P, N, S, multipliers, N, values, S, bytes, DAUNEROAD_LONGEST_FRAME(S));
    return accepted(answer, "write") - DAUNEROAD_DONE;
}

/* The printer takes what the line does not lose. A frame has at most DAUNEROAD_FRAME_BYTES(P, N, S), 23 bytes. */
static void play(uint32_t number, int touched, uint32_t error) {
    uint8_t bytes[DAUNEROAD_LONGEST_FRAME(S)];
    uint32_t mix[N];
    size_t length = send(number, touched, error, bytes);
    const char *what = "lost";
    if (number % 3 != 2) {
        uint32_t answer = dauneroad_take(board, board_words, bytes, length, mix, N);
        if (answer == DAUNEROAD_REPEAT) {
            what = "repeat";
        } else if (answer == DAUNEROAD_CONFLICT) {
            what = "conflict";
        } else {
            accepted(answer, "take");
            what = "new";
        }
    }
    printf("frame %u %s\n", (unsigned)number, what);
}

/* Word w of record j is shown at j * S + w. */
static void show(void) {
    uint32_t marks[N];
    int32_t numbers[N * S];
    uint32_t missing = accepted(dauneroad_show(board, board_words, low, marks, N, numbers, N * S), "show") - DAUNEROAD_DONE;
    for (int j = 0; j < N; j++) {
        const int32_t *words = numbers + j * S;
        if (marks[j]) printf("%d %d %d %d\n", j, (int)words[0], (int)words[1], (int)words[2]);
        else printf("%d unknown\n", j);
    }
    printf("missing %u\n", (unsigned)missing);
}

int main(void) {
    accepted(dauneroad_open(P, N, S, board, board_words), "open");
    for (uint32_t number = 1; number <= 6; number++) play(number, 4, 0);
    for (uint32_t number = 7; number <= 11; number++) play(number, N, 0);
    show();
    play(12, N, 0);
    show();
    /* nothing is new from here on; the last frame differs from the one before in one of its three values only */
    play(13, N, 0);
    play(13, N, 1);
    return 0;
}
