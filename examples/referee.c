/* A referee's log. A console sends frames over the finishes and splits of four swimmers, and the second frame is changed on the air. The
 * office's board cannot know: it takes that frame as new, and answers 9 to an honest one that comes later. The referee keeps every frame
 * that came, and after a 9 has clash tell which of them quarrel. That says not which of these is false. So he leaves out each of them in
 * turn and asks again: without the changed frame all others agree, and without an honest one the changed frame quarrels with others still.
 *
 *   referee
 *
 * Prints for each frame its number and `new`, `repeat` or `conflict`, behind a conflict the frames that quarrel, and at the end the frames
 * that quarrel without each of these. */
#include <stdint.h>
#include <stdio.h>
#include <stdlib.h>
#include <string.h>

#include "dauneroad.h"

#define P 65521
#define N 4
#define S 2
#define FRAME (N + S) /* the numbers of a frame */
#define MOST 64       /* the most frames that clash takes */

/* Finish and split, swimmer after swimmer, in hundredths of a second. */
static const int32_t records[N * S] = {5804, 2790, 5837, 2815, 5861, 2802, 5923, 2844};

/* The fifth frame's multipliers are the sum of the first and the second, the sixth's of the second and the third. */
static const uint32_t sent[][N] = {{1, 1, 0, 0}, {0, 1, 1, 0}, {0, 0, 1, 1}, {0, 0, 1, 1}, {1, 2, 1, 0}, {0, 1, 2, 1}};
static const uint32_t changed = 2;

static uint32_t board[DAUNEROAD_BOARD_WORDS(N, S)];
static const size_t board_words = DAUNEROAD_BOARD_WORDS(N, S);

/* Every frame that came: its multipliers, then its values. */
static uint32_t kept[MOST * FRAME];
static uint32_t count;

static uint32_t accepted(uint32_t answer, const char *call) {
    if (answer != 0 && answer < DAUNEROAD_DONE) {
        fprintf(stderr, "referee: %s refused %u\n", call, (unsigned)answer);
        exit(1);
    }
    return answer;
}

/* The console's frame of a number, as it comes out of the air. Answers the length. */
static size_t send(uint32_t number, uint8_t bytes[DAUNEROAD_LONGEST_FRAME(S)]) {
    const uint32_t *multipliers = sent[number - 1];
    uint32_t values[S];
    accepted(dauneroad_seal(P, N, S, 0, records, N * S, multipliers, N, values, S), "seal");
    uint32_t answer = dauneroad_write(P, N, S, multipliers, N, values, S, bytes, DAUNEROAD_LONGEST_FRAME(S));
    size_t length = accepted(answer, "write") - DAUNEROAD_DONE;
    if (number == changed) bytes[length - 1] ^= 8; /* a bit of the split */
    return length;
}

/* The frames of the log that quarrel where frame `out` is left out, none where that is 0, to marks: marks[i] is that of frame i + 1.
 * Answers how many. */
static uint32_t quarrel(uint32_t out, uint32_t marks[MOST]) {
    uint32_t frames[MOST * FRAME] = {0}, numbers[MOST], found[MOST], m = 0;
    for (uint32_t number = 1; number <= count; number++) {
        if (number == out) continue;
        memcpy(frames + m * FRAME, kept + (number - 1) * FRAME, FRAME * sizeof *frames);
        numbers[m++] = number;
    }
    uint32_t answer = accepted(dauneroad_clash(P, m, N, S, frames, m * FRAME, found, m), "clash");
    memset(marks, 0, MOST * sizeof *marks);
    for (uint32_t i = 0; i < m; i++) marks[numbers[i] - 1] = found[i];
    return answer - DAUNEROAD_DONE;
}

static void tell(uint32_t chosen, const uint32_t marks[MOST]) {
    fputs(chosen > 0 ? "frames" : "no frames", stdout);
    for (uint32_t i = 0; i < count; i++)
        if (marks[i]) printf(" %u", (unsigned)(i + 1));
    printf(" quarrel\n");
}

/* The board takes a frame, and the referee keeps it, whatever the board says of it; after a conflict he asks. */
static void receive(const uint8_t *bytes, size_t length) {
    uint32_t mix[N], marks[MOST], *frame = kept + count * FRAME;
    uint32_t answer = dauneroad_take(board, board_words, bytes, length, mix, N);
    accepted(dauneroad_read(P, N, S, bytes, length, frame, N, frame + N, S), "read");
    count++;
    const char *what = answer == DAUNEROAD_NEW ? "new" : answer == DAUNEROAD_REPEAT ? "repeat" : "conflict";
    printf("frame %u %s\n", (unsigned)count, what);
    if (answer == DAUNEROAD_CONFLICT) tell(quarrel(0, marks), marks);
}

int main(void) {
    uint8_t bytes[DAUNEROAD_LONGEST_FRAME(S)];
    uint32_t suspects[MOST], marks[MOST];
    accepted(dauneroad_open(P, N, S, board, board_words), "open");
    for (uint32_t number = 1; number <= sizeof sent / sizeof *sent; number++) receive(bytes, send(number, bytes));
    quarrel(0, suspects);
    for (uint32_t number = 1; number <= count; number++) {
        if (!suspects[number - 1]) continue;
        printf("without frame %u: ", (unsigned)number);
        tell(quarrel(number, marks), marks);
    }
    return 0;
}
