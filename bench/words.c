/* Take, show and relay with sixteen words a record beside one word, in one process, on boards with the same multipliers, n = 64. FLINT has no
 * part in it: what more words cost is a ratio of the library to itself.
 *
 *   words race SECONDS TABLE    times each call at each of the moduli, a line each; appends a table to this file
 *   words count CALL            lays a board of sixteen words out, then makes one call of take, repeat, show or relay: for callgrind
 *
 * Before a call is timed its answer must be the known one, and the numbers that show writes the records. */
#include "dauneroad.h"
#include "race.h"

#define S 16
#define K 63 /* frames that stand when take is called; show is called with one more as well */
#define LOW(p) DAUNEROAD_LOW(p)

/* A board of s words and the frames for it. */
typedef struct {
    uint32_t s, k;
    uint32_t board[DAUNEROAD_BOARD_WORDS(MOST, S)];
    uint8_t fresh[DAUNEROAD_LONGEST_FRAME(S)], again[DAUNEROAD_LONGEST_FRAME(S)]; /* a new frame, and the sum of all that stand */
    size_t fresh_length, again_length;
    uint32_t wanted[MOST]; /* the multipliers of that sum */
    uint8_t relayed[DAUNEROAD_LONGEST_FRAME(S)];
    uint32_t mix[MOST], marks[MOST];
    int32_t numbers[MOST * S];
} hall;

static uint32_t p;
static uint32_t rows[MOST][MOST];  /* independent */
static uint32_t residues[MOST][S]; /* record by record */
static hall one, sixteen;

/* Word w of the records times a row. */
static uint32_t value(const uint32_t *row, uint32_t w) {
    uint64_t sum = 0;
    for (uint32_t j = 0; j < MOST; j++) sum += times(row[j], residues[j][w], p);
    return (uint32_t)(sum % p);
}

static void draw_heat(void) {
    static uint32_t d[MOST * MOST], columns[MOST], marks[MOST];
    do {
        for (uint32_t i = 0; i < MOST * MOST; i++) rows[i / MOST][i % MOST] = below(p);
    } while (dauneroad_quasiinverse(p, MOST, MOST, rows[0], MOST * MOST, d, MOST * MOST, columns, MOST, marks, MOST) !=
             DAUNEROAD_DONE + MOST);
    for (uint32_t i = 0; i < MOST * S; i++) residues[i / S][i % S] = below(p);
}

static size_t words_of(const hall *h) { return DAUNEROAD_BOARD_WORDS(MOST, h->s); }

/* Lays out k standing frames by hand, without a call: callgrind counts every call. */
static void lay_out(hall *h, uint32_t k) {
    memset(h->board, 0, sizeof h->board);
    h->board[0] = p;
    h->board[1] = MOST;
    h->board[2] = h->k = k;
    h->board[3] = h->s;
    for (uint32_t i = 0; i < k; i++) {
        uint32_t *row = h->board + 4 + i * (MOST + h->s);
        memcpy(row, rows[i], sizeof rows[i]);
        for (uint32_t w = 0; w < h->s; w++) row[MOST + w] = value(rows[i], w);
    }
}

static size_t write_frame(const hall *h, const uint32_t *row, uint8_t *bytes) {
    uint32_t values[S];
    for (uint32_t w = 0; w < h->s; w++) values[w] = value(row, w);
    uint32_t answer = dauneroad_write(p, MOST, h->s, row, MOST, values, h->s, bytes, DAUNEROAD_LONGEST_FRAME(h->s));
    must(answer > DAUNEROAD_DONE, "dauneroad_write");
    return answer - DAUNEROAD_DONE;
}

static void furnish(hall *h, uint32_t s) {
    uint32_t sum[MOST] = {0};
    h->s = s;
    for (uint32_t i = 0; i < K * MOST; i++) sum[i % MOST] = (uint32_t)(((uint64_t)sum[i % MOST] + rows[i / MOST][i % MOST]) % p);
    h->fresh_length = write_frame(h, rows[K], h->fresh);
    h->again_length = write_frame(h, sum, h->again);
    memcpy(h->wanted, sum, sizeof sum);
    lay_out(h, K);
}

static uint32_t take(hall *h, const uint8_t *frame, size_t length) {
    return dauneroad_take(h->board, words_of(h), frame, length, h->mix, MOST);
}

/* The board is put back behind it. */
static uint32_t take_new(hall *h) {
    uint32_t answer = take(h, h->fresh, h->fresh_length);
    h->board[2] = h->k;
    memset(h->board + 4 + h->k * (MOST + h->s), 0, (MOST + h->s) * sizeof *h->board);
    return answer;
}

static uint32_t take_again(hall *h) { return take(h, h->again, h->again_length); }

static uint32_t relay(hall *h) {
    return dauneroad_relay(h->board, words_of(h), h->wanted, MOST, h->mix, MOST, h->relayed, DAUNEROAD_LONGEST_FRAME(h->s));
}

static uint32_t show(hall *h) {
    return dauneroad_show(h->board, words_of(h), LOW(p), h->marks, MOST, h->numbers, MOST * h->s);
}

/* Whether every record is marked and shown as it was drawn. */
static int shown(const hall *h) {
    for (uint32_t i = 0; i < MOST * h->s; i++) {
        uint32_t v = residues[i / h->s][i % h->s];
        int64_t number = v < p - LOW(p) ? (int64_t)v : (int64_t)v - (int64_t)p;
        if (h->marks[i / h->s] != 1 || h->numbers[i] != number) return 0;
    }
    return 1;
}

static void check(hall *h) {
    must(take_new(h) == DAUNEROAD_NEW, "take of a new frame");
    must(take_again(h) == DAUNEROAD_REPEAT, "take of a repeat");
    for (uint32_t i = 0; i < MOST; i++) must(h->mix[i] == (i < K), "the mix of the sum of all that stand");
    memset(h->mix, 0xff, sizeof h->mix);
    must(relay(h) == DAUNEROAD_DONE + h->again_length && !memcmp(h->relayed, h->again, h->again_length), "relay of that sum");
    for (uint32_t i = 0; i < MOST; i++) must(h->mix[i] == (i < K), "relay's mix");
    must(show(h) == DAUNEROAD_DONE + MOST - K, "show's answer");
    lay_out(h, MOST);
    must(show(h) == DAUNEROAD_DONE && shown(h), "show of a settled heat");
    lay_out(h, K);
}

#define RUN(name, call)              \
    static void name(void *unused) { \
        (void)unused;                \
        call;                        \
    }
RUN(new_one, take_new(&one))
RUN(new_sixteen, take_new(&sixteen))
RUN(again_one, take_again(&one))
RUN(again_sixteen, take_again(&sixteen))
RUN(show_one, show(&one))
RUN(show_sixteen, show(&sixteen))
RUN(relay_one, relay(&one))
RUN(relay_sixteen, relay(&sixteen))

static const struct {
    const char *call;
    work one, sixteen;
    uint32_t k;
} CALLS[] = {{"take, new", new_one, new_sixteen, K},
             {"take, repeat", again_one, again_sixteen, K},
             {"show", show_one, show_sixteen, K},
             {"show, all settled", show_one, show_sixteen, MOST},
             {"relay", relay_one, relay_sixteen, K}};

#define COUNT (sizeof CALLS / sizeof *CALLS)

static double fastest[COUNT][3][2];

static void race_prime(int prime, double seconds) {
    p = PRIMES[prime];
    draw_heat();
    furnish(&one, 1);
    furnish(&sixteen, S);
    check(&one);
    check(&sixteen);
    for (size_t c = 0; c < COUNT; c++) {
        double *f = fastest[c][prime];
        lay_out(&one, CALLS[c].k);
        lay_out(&sixteen, CALLS[c].k);
        race(2, (work[]){CALLS[c].one, CALLS[c].sixteen}, NULL, seconds, f);
        printf("%-38s k = %-9u n %2u  p %10u  16 words   %8.2f us                       1 word %7.2f us  ratio %6.2f\n", CALLS[c].call,
               (unsigned)CALLS[c].k, MOST, (unsigned)p, f[1], f[0], f[1] / f[0]);
        fflush(stdout);
    }
}

static int race_all(double seconds, const char *path) {
    weigh_clock();
    for (int prime = 0; prime < 3; prime++) race_prime(prime, seconds);
    FILE *f = fopen(path, "a");
    must(f != NULL, "the table's file can be written");
    fprintf(f, "\nMicroseconds at n = %d, 16 words a record / 1 word = ratio.\n\n| Call | k | p = %u | p = %u | p = %u |\n|---|---|---|---|---|\n",
            MOST, PRIMES[0], PRIMES[1], PRIMES[2]);
    for (size_t c = 0; c < COUNT; c++) {
        fprintf(f, "| %s | %u |", CALLS[c].call, (unsigned)CALLS[c].k);
        for (int q = 0; q < 3; q++)
            fprintf(f, " %.1f / %.1f = %.2f |", fastest[c][q][1], fastest[c][q][0], fastest[c][q][1] / fastest[c][q][0]);
        fprintf(f, "\n");
    }
    must(fclose(f) == 0, "the table is written");
    return 0;
}

/* One call on what was prepared without it, for callgrind's --toggle-collect. */
static int count(const char *call) {
    p = PRIMES[2];
    draw_heat();
    furnish(&sixteen, S);
    if (!strcmp(call, "take")) must(take_new(&sixteen) == DAUNEROAD_NEW, call);
    else if (!strcmp(call, "repeat")) must(take_again(&sixteen) == DAUNEROAD_REPEAT, call);
    else if (!strcmp(call, "show")) must(show(&sixteen) == DAUNEROAD_DONE + MOST - K, call);
    else if (!strcmp(call, "relay")) must(relay(&sixteen) == DAUNEROAD_DONE + sixteen.again_length, call);
    else return 2;
    return 0;
}

int main(int argc, char **argv) {
    if (argc == 4 && !strcmp(argv[1], "race")) return race_all(atof(argv[2]), argv[3]);
    int status = argc == 3 && !strcmp(argv[1], "count") ? count(argv[2]) : 2;
    if (status == 2) fprintf(stderr, "usage: words race SECONDS TABLE | words count take|repeat|show|relay\n");
    return status;
}
