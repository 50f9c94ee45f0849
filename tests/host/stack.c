/* Every call at its largest size, n = m = 64 and p = 2147483647 (read and write at p = 251 too, where numbers have one byte), with one
 * word a record and with sixteen, on a thread whose stack is the most that the call may take, as docs/C.md has it, and 8 KiB for the
 * thread itself; each answer and all memory written is compared with what is known of it.
 * Then once more on a stack of our own, to see how far down each call goes: no further than that. A call that leaves its stack
 * dies on the fence below it. The threads are small for some machines' libraries, not for x86-64, which the archive is for.
 * Ends with 0 only if all is well. */
#define _GNU_SOURCE
#include "dauneroad.h"
#include "known.h"
#include "known_logs.h"
#include "known_tables.h"

#include <pthread.h>
#include <signal.h>
#include <stdio.h>
#include <stdlib.h>
#include <string.h>
#include <sys/mman.h>
#include <unistd.h>

#define WORDS DAUNEROAD_BOARD_WORDS(N, s)
#define BOARD_STACK 49152        /* the most bytes that take, withdraw, show, relay, kernel, solve, fit, check and clash may take */
#define QUASIINVERSE_STACK 73728 /* the same for quasiinverse */
#define OTHER_STACK 8192         /* and for the others */
#define THREAD 8192              /* what the thread needs itself */
#define LARGE 262144
#define FENCE 1048576

/* ---- the cases: what is made ready, the call, and what must then hold; known_tables.h and known_logs.h have more ---- */

static uint32_t call_open(void) { return dauneroad_open(P, N, s, board, WORDS); }
static uint32_t call_take(void) { return dauneroad_take(board, WORDS, frame, frame_len, mix, N); }
static uint32_t call_show(void) { return dauneroad_show(board, WORDS, DAUNEROAD_LOW(P), marks, N, numbers, N * s); }
static uint32_t call_relay(void) { return dauneroad_relay(board, WORDS, w, N, mix, N, bytes, DAUNEROAD_LONGEST_FRAME(s)); }
static uint32_t call_withdraw_one(void) { return dauneroad_withdraw(board, WORDS, 1); }
static uint32_t call_withdraw_all(void) { return dauneroad_withdraw(board, WORDS, N); }
static uint32_t call_read(void) { return dauneroad_read(P, N, s, frame, frame_len, mix, N, got, s); }
static uint32_t call_write(void)
{
    return dauneroad_write(P, N, s, rows[63], N, values[63], s, bytes, DAUNEROAD_LONGEST_FRAME(s));
}
static uint32_t call_seal(void) { return dauneroad_seal(P, N, s, DAUNEROAD_LOW(P), records, N * s, rows[63], N, got, s); }
static uint32_t call_signed(void) { return dauneroad_signed(P, DAUNEROAD_LOW(P), P / 2 + 1, &record); }
static uint32_t call_residue(void) { return dauneroad_residue(P, DAUNEROAD_LOW(P), -(int32_t)(P / 2), &residue); }

static void ready_open(void) { fill(board, sizeof board); }
static int after_open(uint32_t answer) { return answer == 0 && board_is(0); }

static void ready_new(void) { lay_board(board, 63), lay_frame(rows[63], values[63]); }
static int after_new(uint32_t answer) { return answer == DAUNEROAD_NEW && board_is(64) && untouched(mix, N); }

static void ready_repeat_63(void) { lay_board(board, 63), lay_repeat(63, 0); }
static int after_repeat_63(uint32_t answer) { return answer == DAUNEROAD_REPEAT && board_is(63) && mix_is(63); }
static void ready_conflict_63(void) { lay_board(board, 63), lay_repeat(63, 1); }
static int after_conflict_63(uint32_t answer) { return answer == DAUNEROAD_CONFLICT && board_is(63) && mix_is(63); }
static void ready_repeat_64(void) { lay_board(board, 64), lay_repeat(64, 0); }
static int after_repeat_64(uint32_t answer) { return answer == DAUNEROAD_REPEAT && board_is(64) && mix_is(64); }
static void ready_conflict_64(void) { lay_board(board, 64), lay_repeat(64, 1); }
static int after_conflict_64(uint32_t answer) { return answer == DAUNEROAD_CONFLICT && board_is(64) && mix_is(64); }

/* the last row is the sum of the others */
static void ready_no_board(void)
{
    lay_board(board, 64);
    uint32_t *last = board + 4 + 63 * (N + s);
    memset(last, 0, N * sizeof *last);
    for (int i = 0; i < 63; i++)
        for (int j = 0; j < N; j++)
            last[j] = plus(last[j], rows[i][j]);
    lay_frame(rows[63], values[63]);
    memcpy(want, board, sizeof board);
}
static int after_no_board(uint32_t answer)
{
    return answer == DAUNEROAD_NOT_BOARD && memcmp(board, want, sizeof want) == 0 && untouched(mix, N);
}

static void ready_show_63(void) { lay_board(board, 63); }
static int after_show_63(uint32_t answer)
{
    for (uint32_t i = 0; i < N * s; i++)
        if (marks[i / s] != (clue[i / s] == 0) || numbers[i] != (clue[i / s] == 0 ? records[i] : 0))
            return 0;
    return answer == DAUNEROAD_DONE + 1 && board_is(63);
}
static void ready_show_64(void) { lay_board(board, 64); }
static int after_show_64(uint32_t answer)
{
    return answer == DAUNEROAD_DONE && board_is(64) && all(marks, N, 1) && memcmp(numbers, records, N * s * sizeof *records) == 0;
}

static void ready_withdraw(void) { lay_board(board, 64); }
static int after_withdraw_one(uint32_t answer) { return answer == DAUNEROAD_DONE + 63 && board_is(63); }
static int after_withdraw_all(uint32_t answer) { return answer == DAUNEROAD_DONE && board_is(0); }

/* wanted is a combination of all standing rows, none by 0, and the frame is the repeat */
static void ready_relay(uint32_t count)
{
    uint32_t last[S];
    lay_board(board, count), lay_repeat(count, 0), fill(bytes, sizeof bytes);
    combine(count, 0, w, last);
}
static void ready_relay_63(void) { ready_relay(63); }
static void ready_relay_64(void) { ready_relay(64); }
static int after_relay(uint32_t answer, uint32_t count)
{
    return answer == DAUNEROAD_DONE + frame_len && board_is(count) && mix_is(count) && memcmp(bytes, frame, sizeof frame) == 0;
}
static int after_relay_63(uint32_t answer) { return after_relay(answer, 63); }
static int after_relay_64(uint32_t answer) { return after_relay(answer, 64); }

/* the 64th row is no combination of the others */
static void ready_no_span(void) { ready_relay(63), memcpy(w, rows[63], sizeof w); }
static int bytes_untouched(void)
{
    for (size_t i = 0; i < sizeof bytes; i++)
        if (bytes[i] != 0x5a)
            return 0;
    return 1;
}
static int after_no_span(uint32_t answer)
{
    return answer == DAUNEROAD_NOT_IN_SPAN && board_is(63) && untouched(mix, N) && bytes_untouched();
}
static void ready_relay_no_board(void) { ready_no_board(), memcpy(w, rows[63], sizeof w), fill(bytes, sizeof bytes); }
static int after_relay_no_board(uint32_t answer) { return after_no_board(answer) && bytes_untouched(); }

static int got_is(const uint32_t *last) { return memcmp(got, last, s * sizeof *got) == 0 && untouched(got + s, S - s); }

static void ready_frame(void) { lay_frame(rows[63], values[63]), fill(bytes, sizeof bytes), fill(&residue, sizeof residue); }
static int after_read(uint32_t answer)
{
    return answer == DAUNEROAD_DONE + s && memcmp(mix, rows[63], sizeof mix) == 0 && got_is(values[63]) &&
           frame_len == DAUNEROAD_LONGEST_FRAME(s);
}
static int after_write(uint32_t answer)
{
    return answer == DAUNEROAD_DONE + DAUNEROAD_LONGEST_FRAME(s) && memcmp(bytes, frame, sizeof frame) == 0;
}
static int after_seal(uint32_t answer) { return answer == DAUNEROAD_DONE + s && got_is(values[63]); }
static int after_signed(uint32_t answer) { return answer == 0 && record == -(int32_t)(P / 2); }
static int after_residue(uint32_t answer) { return answer == 0 && residue == P / 2 + 1; }

/* numbers of one byte: 64 multipliers of 250 and values from 7 on, modulo 251 */
static const uint32_t narrow[S] = {7, 8, 9, 10, 11, 12, 13, 14, 15, 16, 17, 18, 19, 20, 21, 22};
static uint32_t call_read_narrow(void) { return dauneroad_read(251, N, s, frame, frame_len, mix, N, got, s); }
static uint32_t call_write_narrow(void)
{
    return dauneroad_write(251, N, s, w, N, narrow, s, bytes, DAUNEROAD_LONGEST_FRAME(s));
}
static void ready_narrow(void)
{
    frame_len = N / 8 + N + s;
    fill(frame, sizeof frame), fill(bytes, sizeof bytes);
    memset(frame, 0xff, N / 8);
    memset(frame + N / 8, 250, N);
    for (uint32_t i = 0; i < s; i++)
        frame[N / 8 + N + i] = (uint8_t)narrow[i];
    for (int j = 0; j < N; j++)
        w[j] = 250;
}
static int after_read_narrow(uint32_t answer) { return answer == DAUNEROAD_DONE + s && all(mix, N, 250) && got_is(narrow); }
static int after_write_narrow(uint32_t answer)
{
    return answer == DAUNEROAD_DONE + 72 + s && memcmp(bytes, frame, sizeof frame) == 0;
}

typedef struct {
    const char *name;
    void (*ready)(void);
    uint32_t (*call)(void);
    int (*after)(uint32_t answer);
    size_t most;
    int once; /* with one word a record only: it knows of no words */
} Case;

static const Case cases[] = {
    {"open", ready_open, call_open, after_open, OTHER_STACK, 0},
    {"take-new-at-63", ready_new, call_take, after_new, BOARD_STACK, 0},
    {"take-repeat-at-63", ready_repeat_63, call_take, after_repeat_63, BOARD_STACK, 0},
    {"take-conflict-at-63", ready_conflict_63, call_take, after_conflict_63, BOARD_STACK, 0},
    {"take-repeat-at-64", ready_repeat_64, call_take, after_repeat_64, BOARD_STACK, 0},
    {"take-conflict-at-64", ready_conflict_64, call_take, after_conflict_64, BOARD_STACK, 0},
    {"take-no-board", ready_no_board, call_take, after_no_board, BOARD_STACK, 0},
    {"show-no-board", ready_no_board, call_show, after_no_board, BOARD_STACK, 0},
    {"withdraw-no-board", ready_no_board, call_withdraw_one, after_no_board, BOARD_STACK, 0},
    {"show-at-63", ready_show_63, call_show, after_show_63, BOARD_STACK, 0},
    {"show-at-64", ready_show_64, call_show, after_show_64, BOARD_STACK, 0},
    {"relay-at-63", ready_relay_63, call_relay, after_relay_63, BOARD_STACK, 0},
    {"relay-at-64", ready_relay_64, call_relay, after_relay_64, BOARD_STACK, 0},
    {"relay-not-in-span", ready_no_span, call_relay, after_no_span, BOARD_STACK, 0},
    {"relay-no-board", ready_relay_no_board, call_relay, after_relay_no_board, BOARD_STACK, 0},
    {"withdraw-1-of-64", ready_withdraw, call_withdraw_one, after_withdraw_one, BOARD_STACK, 0},
    {"withdraw-64-of-64", ready_withdraw, call_withdraw_all, after_withdraw_all, BOARD_STACK, 0},
    {"read", ready_frame, call_read, after_read, OTHER_STACK, 0},
    {"write", ready_frame, call_write, after_write, OTHER_STACK, 0},
    {"read-narrow", ready_narrow, call_read_narrow, after_read_narrow, OTHER_STACK, 0},
    {"write-narrow", ready_narrow, call_write_narrow, after_write_narrow, OTHER_STACK, 0},
    {"seal", ready_frame, call_seal, after_seal, OTHER_STACK, 0},
    {"signed", ready_frame, call_signed, after_signed, OTHER_STACK, 1},
    {"residue", ready_frame, call_residue, after_residue, OTHER_STACK, 1},
    {"clash-of-64", ready_clash_64, call_clash, after_clash_64, BOARD_STACK, 0},
    {"clash-of-2", ready_clash_2, call_clash, after_clash_2, BOARD_STACK, 0},
    {"clash-none", ready_no_clash, call_clash, after_no_clash, BOARD_STACK, 0},
    {"quasiinverse-rank-64", ready_full, call_quasiinverse, after_quasiinverse_full, QUASIINVERSE_STACK, 1},
    {"quasiinverse-rank-32", ready_half, call_quasiinverse, after_quasiinverse_half, QUASIINVERSE_STACK, 1},
    {"kernel-rank-64", ready_full, call_kernel, after_kernel_full, BOARD_STACK, 1},
    {"kernel-rank-32", ready_half, call_kernel, after_kernel_half, BOARD_STACK, 1},
    {"kernel-rank-0", ready_zero, call_kernel, after_kernel_zero, BOARD_STACK, 1},
    {"solve-rank-64", ready_full, call_solve, after_solve_full, BOARD_STACK, 1},
    {"solve-rank-32", ready_half, call_solve, after_solve_half, BOARD_STACK, 1},
    {"solve-insoluble", ready_insoluble, call_solve, after_insoluble, BOARD_STACK, 1},
    {"fit-rank-64", ready_full, call_fit, after_solve_full, BOARD_STACK, 1},
    {"fit-rank-32", ready_half, call_fit, after_solve_half, BOARD_STACK, 1},
    {"fit-left-over", ready_insoluble, call_fit, after_left_over, BOARD_STACK, 1},
    {"check-rank-64", ready_check_full, call_check, after_check_full, BOARD_STACK, 1},
    {"check-rank-32", ready_check_half, call_check, after_check_half, BOARD_STACK, 1},
    {"check-not-inner", ready_not_inner, call_check, after_not_inner, BOARD_STACK, 1},
    {"check-not-outer", ready_not_outer, call_check, after_not_outer, BOARD_STACK, 1},
};

/* ---- the threads ---- */

static const Case *running;
static uint32_t running_answer;
static unsigned char *own_stack;
static size_t depth;
static char aside[65536];

static void died(int signal)
{
    (void)signal;
    static const char before[] = "error: beyond its stack: ";
    const char *after = s == 1 ? ", s 1\n" : ", s 16\n";
    if (write(1, before, sizeof before - 1) < 0 || write(1, running->name, strlen(running->name)) < 0 ||
        write(1, after, strlen(after)) < 0)
        _exit(3);
    _exit(2);
}

/* Signals of this thread are handled aside, as its own stack may be at its end. */
static void step_aside(void)
{
    stack_t place = {.ss_sp = aside, .ss_size = sizeof aside};
    sigaltstack(&place, NULL);
}

static void *on_thread(void *unused)
{
    step_aside();
    running_answer = running->call();
    return unused;
}

/* Paints the stack below the caller, but for the 256 bytes that are this function's own. */
__attribute__((noinline)) static unsigned char *paint(void)
{
    unsigned char *top = (unsigned char *)__builtin_frame_address(0);
    for (volatile unsigned char *at = own_stack; at < top - 256; at++)
        *at = 0xc3;
    return top;
}

__attribute__((noinline)) static unsigned char *deepest(void)
{
    volatile unsigned char *at = own_stack;
    while (*at == 0xc3)
        at++;
    return (unsigned char *)at;
}

static void *on_painted_thread(void *unused)
{
    step_aside();
    unsigned char *top = paint();
    running_answer = running->call();
    depth = (size_t)(top - deepest());
    return unused;
}

static void must(int error, const char *what)
{
    if (error) {
        printf("error: %s fails with %d\n", what, error);
        exit(1);
    }
}

static int run(const Case *it, void *(*body)(void *), pthread_attr_t *attributes)
{
    pthread_t thread;
    running = it;
    running_answer = 0;
    lay_records();
    fill(mix, sizeof mix), fill(marks, sizeof marks), fill(columns, sizeof columns), fill(numbers, sizeof numbers);
    fill(out, sizeof out), fill(z, sizeof z), fill(u, sizeof u), fill(got, sizeof got);
    it->ready();
    fflush(stdout);
    must(pthread_create(&thread, attributes, body, NULL), "pthread_create");
    must(pthread_join(thread, NULL), "pthread_join");
    return it->after(running_answer);
}

/* Each case on a stack of its own size. */
static int on_small_stacks(void)
{
    int failures = 0;
    for (size_t i = 0; i < sizeof cases / sizeof *cases; i++) {
        size_t stack = cases[i].most + THREAD;
        pthread_attr_t attributes;
        if (cases[i].once && s > 1)
            continue;
        pthread_attr_init(&attributes);
        must(pthread_attr_setstacksize(&attributes, stack), "pthread_attr_setstacksize");
        must(pthread_attr_setguardsize(&attributes, FENCE), "pthread_attr_setguardsize");
        int holds = run(&cases[i], on_thread, &attributes);
        printf("%s: on a stack of %zu bytes, %s, s %u, answers %u\n", holds ? "ok" : "error", stack, cases[i].name, (unsigned)s,
               (unsigned)running_answer);
        failures += !holds;
        pthread_attr_destroy(&attributes);
    }
    return failures;
}

/* Each case on the painted stack. */
static int measured(pthread_attr_t *attributes)
{
    int failures = 0;
    for (size_t i = 0; i < sizeof cases / sizeof *cases; i++) {
        if (cases[i].once && s > 1)
            continue;
        int holds = run(&cases[i], on_painted_thread, attributes) && depth <= cases[i].most;
        printf("%s: stack %s, s %u: %zu, at most %zu\n", holds ? "ok" : "error", cases[i].name, (unsigned)s, depth, cases[i].most);
        failures += !holds;
    }
    return failures;
}

int main(void)
{
    int failures = 0;
    struct sigaction action = {.sa_handler = died, .sa_flags = SA_ONSTACK};
    sigaction(SIGSEGV, &action, NULL);
    sigaction(SIGBUS, &action, NULL);
    know();
    for (s = 1; s <= S; s += S - 1)
        failures += on_small_stacks();

    pthread_attr_t attributes;
    unsigned char *area = mmap(NULL, FENCE + LARGE, PROT_NONE, MAP_PRIVATE | MAP_ANONYMOUS, -1, 0);
    must(area == MAP_FAILED, "mmap");
    own_stack = area + FENCE;
    must(mprotect(own_stack, LARGE, PROT_READ | PROT_WRITE), "mprotect");
    pthread_attr_init(&attributes);
    must(pthread_attr_setstack(&attributes, own_stack, LARGE), "pthread_attr_setstack");
    for (s = 1; s <= S; s += S - 1)
        failures += measured(&attributes);
    pthread_attr_destroy(&attributes);
    printf("stack: done\n");
    return failures != 0;
}
