/* A 1500 metres race at a small modulus. Records are hundredths of a second behind the pace line, below 0 where a swimmer is ahead of
 * it. Over so long a race some end more than p/2 behind, and the low end of document 01 shows them as far ahead; a low end that covers the
 * greatest lead and leaves room for the longest time shows them as they were.
 *
 *   race
 *
 * Plays console and printer in one: seals and writes a frame for each record, takes it, and shows the board twice. Prints a line for
 * each record: its position, the record, the number shown with DAUNEROAD_LOW(P), the number shown with the low end of the race. */
#include <stdint.h>
#include <stdio.h>
#include <stdlib.h>
#include <string.h>

#include "dauneroad.h"

/* The modulus and the records, which console and printer agree on. */
#define P 8191
#define N 8

/* A record is one word, its time. */
#define S 1

/* The greatest lead that the federation allows, 15 seconds, and the longest time, 66 seconds behind: 1,500 + 6,600 + 1 numbers, which
 * P has. */
static const uint32_t low = 1500;

static const int32_t records[N] = {-1237, -84, 0, 2916, 4095, 4096, 5178, 6593};

static uint32_t accepted(uint32_t answer, const char *call) {
    if (answer != 0 && answer < DAUNEROAD_DONE) {
        fprintf(stderr, "race: %s refused %u\n", call, (unsigned)answer);
        exit(1);
    }
    return answer;
}

/* What the printer receives a frame into: room for every frame of this heat, 19 bytes where those of any heat need 268. */
typedef struct {
    uint8_t bytes[DAUNEROAD_FRAME_BYTES(P, N, S)];
    size_t length;
} received;

/* The console: the frame of the powers of a number; those of different numbers are independent. Write is lent room for the longest
 * frame of all moduli, and only the front that it fills is sent. */
static received sent(uint32_t number) {
    uint32_t multipliers[N] = {1}, value[S];
    uint8_t bytes[DAUNEROAD_LONGEST_FRAME(S)];
    received frame;
    for (int j = 1; j < N; j++) multipliers[j] = (uint32_t)((uint64_t)multipliers[j - 1] * number % P);
    accepted(dauneroad_seal(P, N, S, low, records, N * S, multipliers, N, value, S), "seal");
    frame.length = accepted(dauneroad_write(P, N, S, multipliers, N, value, S, bytes, sizeof bytes), "write") - DAUNEROAD_DONE;
    if (frame.length > sizeof frame.bytes) {
        fprintf(stderr, "race: a frame of %u bytes\n", (unsigned)frame.length);
        exit(1);
    }
    memcpy(frame.bytes, bytes, frame.length);
    return frame;
}

int main(void) {
    uint32_t board[DAUNEROAD_BOARD_WORDS(N, S)], mix[N], marks[N];
    const size_t words = DAUNEROAD_BOARD_WORDS(N, S);
    int32_t old[N * S], shown[N * S];
    accepted(dauneroad_open(P, N, S, board, words), "open");
    for (uint32_t i = 1; i <= N; i++) {
        received frame = sent(i);
        accepted(dauneroad_take(board, words, frame.bytes, frame.length, mix, N), "take");
    }
    accepted(dauneroad_show(board, words, DAUNEROAD_LOW(P), marks, N, old, N * S), "show");
    accepted(dauneroad_show(board, words, low, marks, N, shown, N * S), "show");
    for (int j = 0; j < N; j++) {
        if (marks[j]) printf("%d %d %d %d\n", j, (int)records[j], (int)old[j], (int)shown[j]);
        else printf("%d %d unknown unknown\n", j, (int)records[j]);
    }
    return 0;
}
