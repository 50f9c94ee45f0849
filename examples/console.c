/* The console of a heat, played: draws records, seals and writes coded frames with the library, sends them over a bad line,
 * and writes to standard output the stream that the sheet program reads (document 01, "The sheet program").
 *
 *   console [--p P] [--n N] [--frames F] [--falsify E] [--records FILE] SEED
 *
 *   SEED            the same seed and options give the same stream
 *   --p P           the modulus, a prime from 2 to 2147483647; 2147483647 where none is given
 *   --n N           records of the heat, 1 to 64; 8 where none is given
 *   --frames F      frames sent, lost ones included; 4 * N + 32 where none is given, which usually settles every record
 *   --falsify E     falsify the value of about one frame in E; 0, which is never, where none is given
 *   --records FILE  write the records that were drawn, a line `position number` each, as the sheet prints them
 *
 *   console 1 | sheet
 *
 * Records have one word each, as in the sheet program, and are sealed with the old low end, with which it shows them.
 * The line loses about a quarter of the frames. Some are doubled, and relays send sums of two frames that they have heard, also
 * of frames that the printer has not. What happened is told on standard error. */
#include <errno.h>
#include <stdint.h>
#include <stdio.h>
#include <stdlib.h>
#include <string.h>

#include "dauneroad.h"

#define MOST 64

/* ---- chance (splitmix64) ---- */

static uint64_t state;

static uint64_t draw(void) {
    uint64_t x = state += 0x9e3779b97f4a7c15u;
    x = (x ^ x >> 30) * 0xbf58476d1ce4e5b9u;
    x = (x ^ x >> 27) * 0x94d049bb133111ebu;
    return x ^ x >> 31;
}

static uint32_t below(uint32_t bound) { return (uint32_t)(draw() % bound); }

static int one_in(uint32_t odds) { return below(odds) == 0; }

/* ---- the heat ---- */

typedef struct {
    uint32_t multipliers[MOST], value;
} frame;

static uint32_t p = 2147483647, n = 8;
static int32_t records[MOST];

static void stop(const char *what) {
    fprintf(stderr, "console: %s\n", what);
    exit(1);
}

/* Every answer of the library is looked at: a refusal here is a fault of this program or of its options. */
static uint32_t accepted(uint32_t answer, const char *call) {
    if (answer != 0 && answer < DAUNEROAD_DONE) {
        fprintf(stderr, "console: %s refused %u\n", call, (unsigned)answer);
        exit(1);
    }
    return answer;
}

static void draw_records(void) {
    for (uint32_t j = 0; j < n; j++) {
        uint32_t v = below(p);
        if (one_in(8)) v = one_in(2) ? p / 2 : p / 2 + 1 < p ? p / 2 + 1 : 0; /* now and then an end of the range */
        accepted(dauneroad_signed(p, DAUNEROAD_LOW(p), v, &records[j]), "signed");
    }
}

/* A frame of the console's own: multipliers for all records, for about half of them or for a few, then the value. */
static void draw_frame(frame *f) {
    uint32_t spread = below(3), standing = 0;
    while (standing == 0)
        for (uint32_t j = 0; j < n; j++) {
            int stands = spread == 0 ? one_in((n + 1) / 2) : spread == 1 ? one_in(2) : 1;
            f->multipliers[j] = stands ? below(p) : 0;
            standing += f->multipliers[j] != 0;
        }
    accepted(dauneroad_seal(p, n, 1, DAUNEROAD_LOW(p), records, n, f->multipliers, n, &f->value, 1), "seal");
}

/* What a relay sends that has heard two frames. */
static void add_frames(frame *to, const frame *x, const frame *y) {
    for (uint32_t j = 0; j < n; j++) to->multipliers[j] = (uint32_t)(((uint64_t)x->multipliers[j] + y->multipliers[j]) % p);
    to->value = (uint32_t)(((uint64_t)x->value + y->value) % p);
}

/* ---- the stream ---- */

static void put_byte(uint32_t byte) { putchar((int)(byte & 0xff)); }

static void send_header(void) {
    for (int shift = 24; shift >= 0; shift -= 8) put_byte(p >> shift);
    put_byte(n);
}

/* Write is lent room for the longest frame of all moduli. What is sent is its front: at most DAUNEROAD_FRAME_BYTES(p, n, 1) bytes, by
 * which a receiver of this heat sizes its buffer, as examples/race.c does. */
static void send(const frame *f) {
    uint8_t bytes[DAUNEROAD_LONGEST_FRAME(1)];
    uint32_t answer = dauneroad_write(p, n, 1, f->multipliers, n, &f->value, 1, bytes, sizeof bytes);
    uint32_t length = accepted(answer, "write") - DAUNEROAD_DONE;
    put_byte(length >> 8);
    put_byte(length);
    fwrite(bytes, 1, length, stdout);
}

/* ---- options ---- */

static uint64_t number(const char *text, uint64_t most) {
    char *end;
    errno = 0;
    unsigned long long value = strtoull(text, &end, 10);
    if (errno || end == text || *end || text[0] == '-' || value > most) stop("a number is wrong; see the head of console.c");
    return value;
}

int main(int argc, char **argv) {
    uint32_t frames = 0, odds = 0;
    const char *path = NULL, *seed = NULL;
    for (int i = 1; i < argc; i++) {
        const char *value = i + 1 < argc ? argv[i + 1] : "";
        if (strncmp(argv[i], "--", 2)) {
            if (seed) stop("one seed only");
            seed = argv[i];
            continue;
        }
        if (!strcmp(argv[i], "--p")) p = (uint32_t)number(value, UINT32_MAX);
        else if (!strcmp(argv[i], "--n")) n = (uint32_t)number(value, MOST);
        else if (!strcmp(argv[i], "--frames")) frames = (uint32_t)number(value, 1000000);
        else if (!strcmp(argv[i], "--falsify")) odds = (uint32_t)number(value, UINT32_MAX);
        else if (!strcmp(argv[i], "--records")) path = value;
        else stop("usage: console [--p P] [--n N] [--frames F] [--falsify E] [--records FILE] SEED");
        i++;
    }
    if (!seed) stop("usage: console [--p P] [--n N] [--frames F] [--falsify E] [--records FILE] SEED");
    state = number(seed, UINT64_MAX);
    if (n == 0) stop("a heat has 1 to 64 records");
    if (frames == 0) frames = 4 * n + 32;
    int32_t zero;
    accepted(dauneroad_signed(p, 0, 0, &zero), "the modulus is");
    draw_records();

    if (path) {
        FILE *file = fopen(path, "w");
        if (!file) stop("the file of the records cannot be written");
        for (uint32_t j = 0; j < n; j++) fprintf(file, "%u %d\n", (unsigned)j, (int)records[j]);
        if (fclose(file)) stop("the file of the records cannot be written");
    }

    frame *heard = malloc(frames * sizeof *heard); /* all frames sent, lost ones too: a relay may have heard them */
    if (!heard) stop("no memory");
    uint32_t lost = 0, doubled = 0, summed = 0, falsified = 0;
    send_header();
    for (uint32_t i = 0; i < frames; i++) {
        frame *f = &heard[i];
        uint32_t chance = i == 0 ? 0 : below(8);
        if (chance < 5) {
            draw_frame(f);
        } else if (chance == 5) {
            *f = heard[below(i)];
            doubled++;
        } else {
            add_frames(f, &heard[below(i)], &heard[below(i)]);
            summed++;
        }
        if (one_in(4)) {
            lost++;
            continue;
        }
        frame sent = *f;
        if (odds > 0 && one_in(odds)) {
            sent.value = (uint32_t)(((uint64_t)sent.value + 1 + below(p - 1)) % p);
            falsified++;
        }
        send(&sent);
    }
    free(heard);
    if (fflush(stdout) || ferror(stdout)) stop("the stream cannot be written");
    fprintf(stderr, "console: p %u, n %u: %u frames, %u of them doubled, %u sums of two; %u lost, %u falsified\n", (unsigned)p,
            (unsigned)n, (unsigned)frames, (unsigned)doubled, (unsigned)summed, (unsigned)lost, (unsigned)falsified);
    return 0;
}
