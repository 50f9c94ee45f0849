/* A relay box between the pool and the office. The console's frames reach the box over one bad line, and the box's frames the office over
 * another. The box cannot hand on the frames that it lost, and need not hand on those that it has: it takes them on a board, and for whatever
 * row of multipliers it wants relay makes the one frame that its own frames combine to.
 *
 *   relay [--stream] SEED
 *
 * Prints the office's sheet as the sheet program does: a line for each frame that arrives, `new K` or `repeat K` with K frames standing, for
 * each record its position and the record or `unknown`, and `missing M`. With --stream writes instead the stream of these frames that the
 * sheet program reads, so that `relay --stream 1 | sheet` prints what `relay 1` prints. The same seed gives the same frames and losses. What
 * was lost is told on standard error. Ends with 1 if the office shows a record that is not the console's, or that the box leaves open. */
#include <stdint.h>
#include <stdio.h>
#include <stdlib.h>
#include <string.h>

#include "dauneroad.h"

/* The modulus and the records, which console, box and office agree on. A record is one word, its time, as on the sheet. */
#define P 65521
#define N 8
#define S 1
#define WORDS DAUNEROAD_BOARD_WORDS(N, S)

enum { TOUCHED = 4, SENT = 12, RELAYED = 8 };

/* Hundredths of a second, in the order in which the swimmers touched. */
static const int32_t records[N] = {11562, 11608, 11633, 11701, 11745, 11790, 11954, 12380};

static uint32_t box[WORDS], office[WORDS];
static uint32_t lost_before, lost_behind, refused; /* on the first line, on the second, and rows that the box does not have */
static int stream;

static uint32_t accepted(uint32_t answer, const char *call) {
    if (answer != DAUNEROAD_NEW && answer < DAUNEROAD_REPEAT) {
        fprintf(stderr, "relay: %s refused %u\n", call, (unsigned)answer);
        exit(1);
    }
    return answer;
}

/* ---- chance (splitmix64) ---- */

static uint64_t state;

static uint32_t below(uint32_t bound) {
    uint64_t x = state += 0x9e3779b97f4a7c15u;
    x = (x ^ x >> 30) * 0xbf58476d1ce4e5b9u;
    x = (x ^ x >> 27) * 0x94d049bb133111ebu;
    return (uint32_t)((x ^ x >> 31) % bound);
}

/* Both lines lose about every third frame. */
static int loses(uint32_t *lost) {
    int gone = below(3) == 0;
    *lost += (uint32_t)gone;
    return gone;
}

/* ---- the pool ---- */

/* The console sends a frame over the records of those who have touched, and the box takes it unless it is lost. */
static void console_sends(uint32_t touched) {
    uint32_t multipliers[N] = {0}, value[S], mix[N];
    uint8_t bytes[DAUNEROAD_LONGEST_FRAME(S)];
    for (uint32_t j = 0; j < touched; j++) multipliers[j] = below(P);
    accepted(dauneroad_seal(P, N, S, DAUNEROAD_LOW(P), records, N * S, multipliers, N, value, S), "seal");
    uint32_t length = accepted(dauneroad_write(P, N, S, multipliers, N, value, S, bytes, sizeof bytes), "write") - DAUNEROAD_DONE;
    if (!loses(&lost_before)) accepted(dauneroad_take(box, WORDS, bytes, length, mix, N), "the box's take");
}

/* ---- the box ---- */

/* A wanted row that the box has for certain: a random combination of the rows that stand on its board. In a board's words, behind four of
 * header, each standing frame has its N multipliers and then its S values. */
static void combine_rows(uint32_t wanted[N]) {
    uint32_t count = box[2];
    memset(wanted, 0, N * sizeof *wanted);
    for (uint32_t i = 0; i < count; i++) {
        const uint32_t *row = box + 4 + i * (N + S);
        uint64_t by = below(P);
        for (int j = 0; j < N; j++) wanted[j] = (uint32_t)((wanted[j] + by * row[j]) % P);
    }
}

/* ---- the office ---- */

static void put_byte(uint32_t byte) { putchar((int)(byte & 0xff)); }

static void arrives(const uint8_t *bytes, uint32_t length) {
    uint32_t mix[N];
    uint32_t answer = accepted(dauneroad_take(office, WORDS, bytes, length, mix, N), "the office's take");
    if (!stream) {
        printf("%s %u\n", answer == DAUNEROAD_NEW ? "new" : "repeat", (unsigned)office[2]);
        return;
    }
    put_byte(length >> 8);
    put_byte(length);
    fwrite(bytes, 1, length, stdout);
}

/* The box is asked for a row. Where its frames do not combine to it, it answers 15 and has nothing to send. */
static void relay(const uint32_t wanted[N]) {
    uint32_t mix[N]; /* which combination it is; the box itself has no use for it */
    uint8_t bytes[DAUNEROAD_LONGEST_FRAME(S)];
    uint32_t answer = dauneroad_relay(box, WORDS, wanted, N, mix, N, bytes, sizeof bytes);
    if (answer == DAUNEROAD_NOT_IN_SPAN) refused++;
    else if (accepted(answer, "relay") && !loses(&lost_behind)) arrives(bytes, answer - DAUNEROAD_DONE);
}

/* A record by itself is the row with a 1 at its position. The box has that row exactly if it shows the record. */
static void ask_for_unknown(void) {
    uint32_t marks[N];
    int32_t numbers[N * S];
    accepted(dauneroad_show(office, WORDS, DAUNEROAD_LOW(P), marks, N, numbers, N * S), "show");
    for (int j = 0; j < N; j++) {
        uint32_t wanted[N] = {0};
        wanted[j] = 1;
        if (!marks[j]) relay(wanted);
    }
}

/* Prints the sheet, and holds it to what the console and the box know. Answers how many of its records are wrong. */
static int sheet(void) {
    uint32_t marks[N], box_marks[N];
    int32_t numbers[N * S], box_numbers[N * S];
    uint32_t missing = accepted(dauneroad_show(office, WORDS, DAUNEROAD_LOW(P), marks, N, numbers, N * S), "show") - DAUNEROAD_DONE;
    accepted(dauneroad_show(box, WORDS, DAUNEROAD_LOW(P), box_marks, N, box_numbers, N * S), "show");
    int wrong = 0;
    for (int j = 0; j < N; j++) {
        wrong += marks[j] && (numbers[j] != records[j] || !box_marks[j]);
        if (!stream && marks[j]) printf("%d %d\n", j, (int)numbers[j]);
        else if (!stream) printf("%d unknown\n", j);
    }
    if (!stream) printf("missing %u\n", (unsigned)missing);
    return wrong;
}

int main(int argc, char **argv) {
    stream = argc == 3 && !strcmp(argv[1], "--stream");
    if (argc != 2 + stream) {
        fprintf(stderr, "usage: relay [--stream] SEED\n");
        return 2;
    }
    state = strtoull(argv[argc - 1], NULL, 10);
    accepted(dauneroad_open(P, N, S, box, WORDS), "open");
    accepted(dauneroad_open(P, N, S, office, WORDS), "open");
    for (uint32_t i = 0; i < SENT; i++) console_sends(i < SENT / 2 ? TOUCHED : N);
    if (stream) {
        for (int shift = 24; shift >= 0; shift -= 8) put_byte((uint32_t)P >> shift);
        put_byte(N);
    }
    /* from here on the box takes nothing: all its frames are made from the same ones */
    for (uint32_t i = 0; i < RELAYED; i++) {
        uint32_t wanted[N];
        combine_rows(wanted);
        relay(wanted);
    }
    ask_for_unknown();
    int wrong = sheet();
    fprintf(stderr, "relay: %u of %u frames lost before the box, which has %u; %u lost behind it; %u rows it does not have; %d wrong\n",
            (unsigned)lost_before, (unsigned)SENT, (unsigned)box[2], (unsigned)lost_behind, (unsigned)refused, wrong);
    return wrong > 0;
}
