/* The benchmark: the calls of libdauneroad.a beside FLINT, in one process, on the same tables.
 *
 *   bench race SECONDS TABLE AIMS    times everything, one line each, about SECONDS for a line; writes these two files
 *   bench count CALL           prepares, then makes one call of take, repeat, show, relay, outside (a relay that is refused by 15),
 *                              quasiinverse, solve, check, seal or prime: for callgrind
 *
 * Before a thing is timed both sides work it out and must agree, or the program ends with status 1. A time is the fastest of
 * many samples. The contenders' samples take turns, so that both sides see the same machine. The library's side is the whole
 * call, the checks of p, lengths and numbers included. FLINT's side is handed its tables in FLINT's own form and checks
 * nothing; what its functions allocate for themselves is counted. */
#include <flint/flint.h>
#include <flint/nmod_mat.h>
#include <flint/nmod_vec.h>
#include <flint/ulong_extras.h>

#include "dauneroad.h"
#include "race.h"

#define TABLES 16

static const uint32_t SIZES[4] = {8, 16, 32, 64};

/* ---- results: a line at once, the table at the end ---- */

typedef struct {
    char call[48], kind[24];
    uint32_t n;
    double ours[3], theirs[3];
} result;

static result results[128];
static int result_count;
static double modulus_cost[3]; /* the library's test of each of PRIMES, part of every call */

static result *result_of(const char *call, const char *kind, uint32_t n) {
    for (int i = 0; i < result_count; i++)
        if (!strcmp(results[i].call, call) && !strcmp(results[i].kind, kind) && results[i].n == n) return &results[i];
    must(result_count < 128, "room for results");
    result *r = &results[result_count++];
    snprintf(r->call, sizeof r->call, "%s", call);
    snprintf(r->kind, sizeof r->kind, "%s", kind);
    r->n = n;
    return r;
}

static void tell(const char *call, const char *kind, uint32_t n, int prime, double ours, double theirs) {
    result *r = result_of(call, kind, n);
    r->ours[prime] = ours;
    r->theirs[prime] = theirs;
    printf("%-38s %-13s n %2u  p %10u  dauneroad %8.2f us (test of p %5.2f)  FLINT %8.2f us  ratio %6.2f\n", call, kind, n,
           PRIMES[prime], ours, modulus_cost[prime], theirs, ours / theirs);
    fflush(stdout);
}

/* ---- the quasiinverse composed from FLINT's functions ---- */

/* The pivot columns of what nmod_mat_lu has left. */
static void pivots(slong *columns, const nmod_mat_t lu, slong rank) {
    slong c = 0;
    for (slong i = 0; i < rank; i++) {
        while (nmod_mat_entry(lu, i, c) == 0) c++;
        columns[i] = c++;
    }
}

/* Composed: LU of A for the columns, LU of its transpose for the rows, nmod_mat_inv between them, scattered into D. */
static slong composed(nmod_mat_t d, const nmod_mat_t a) {
    static slong rows[MOST], columns[MOST], order[MOST];
    slong rank;
    nmod_mat_t lu, turned, part, inverse;
    nmod_mat_init_set(lu, a);
    rank = nmod_mat_lu(order, lu, 0);
    pivots(columns, lu, rank);
    nmod_mat_init(turned, a->c, a->r, a->mod.n);
    nmod_mat_transpose(turned, a);
    nmod_mat_lu(order, turned, 0);
    pivots(rows, turned, rank);
    nmod_mat_init(part, rank, rank, a->mod.n);
    nmod_mat_init(inverse, rank, rank, a->mod.n);
    for (slong i = 0; i < rank; i++)
        for (slong j = 0; j < rank; j++) nmod_mat_entry(part, i, j) = nmod_mat_entry(a, rows[i], columns[j]);
    nmod_mat_inv(inverse, part);
    nmod_mat_zero(d);
    for (slong i = 0; i < rank; i++)
        for (slong j = 0; j < rank; j++) nmod_mat_entry(d, columns[i], rows[j]) = nmod_mat_entry(inverse, i, j);
    nmod_mat_clear(lu);
    nmod_mat_clear(turned);
    nmod_mat_clear(part);
    nmod_mat_clear(inverse);
    return rank;
}

/* From P T = L U, where T has `rank` independent rows and U its pivots at `columns`: the inverse of T at those columns. */
static void invert_factored(nmod_mat_t inverse, const nmod_mat_t lu, const slong *order, const slong *columns, slong rank) {
    nmod_mat_t lower, upper;
    nmod_mat_window_init(lower, lu, 0, 0, rank, rank);
    nmod_mat_init(upper, rank, rank, lu->mod.n);
    for (slong i = 0; i < rank; i++)
        for (slong j = i; j < rank; j++) nmod_mat_entry(upper, i, j) = nmod_mat_entry(lu, i, columns[j]);
    nmod_mat_zero(inverse);
    for (slong i = 0; i < rank; i++) nmod_mat_entry(inverse, i, order[i]) = 1;
    nmod_mat_solve_tril(inverse, lower, inverse, 1);
    nmod_mat_solve_triu(inverse, upper, inverse, 0);
    nmod_mat_clear(upper);
    nmod_mat_window_clear(lower);
}

/* Sparing, the least work we could find with FLINT's functions: LU of A; where rows are left over, LU of the chosen columns
 * turned, which gives the rows; the inverse from the last LU by two triangular solutions. */
static slong sparing(nmod_mat_t d, const nmod_mat_t a) {
    static slong rows[MOST], columns[MOST], order[MOST];
    slong rank;
    nmod_mat_t lu, inverse;
    nmod_mat_init_set(lu, a);
    rank = nmod_mat_lu(order, lu, 0);
    pivots(columns, lu, rank);
    nmod_mat_init(inverse, rank, rank, a->mod.n);
    nmod_mat_zero(d);
    if (rank == a->r) {
        invert_factored(inverse, lu, order, columns, rank);
        for (slong i = 0; i < rank; i++)
            for (slong j = 0; j < rank; j++) nmod_mat_entry(d, columns[i], j) = nmod_mat_entry(inverse, i, j);
    } else {
        nmod_mat_t turned;
        nmod_mat_init(turned, rank, a->r, a->mod.n);
        for (slong i = 0; i < rank; i++)
            for (slong j = 0; j < a->r; j++) nmod_mat_entry(turned, i, j) = nmod_mat_entry(a, j, columns[i]);
        nmod_mat_lu(order, turned, 0);
        pivots(rows, turned, rank);
        invert_factored(inverse, turned, order, rows, rank);
        for (slong i = 0; i < rank; i++)
            for (slong j = 0; j < rank; j++) nmod_mat_entry(d, columns[i], rows[j]) = nmod_mat_entry(inverse, j, i);
        nmod_mat_clear(turned);
    }
    nmod_mat_clear(inverse);
    nmod_mat_clear(lu);
    return rank;
}

/* ---- tables ---- */

/* A run goes over `tables` tables of one kind, so that no side learns one table's jumps by heart. */
typedef struct {
    uint32_t p, n, rank;
    int tables;
    uint32_t a[TABLES][MOST * MOST], w[TABLES][MOST];
    nmod_mat_t fa[TABLES], fw[TABLES];
    uint32_t d[MOST * MOST], columns[MOST], rows[MOST], basis[MOST * MOST], z[MOST], u[MOST], answer;
    nmod_mat_t fd, fbasis, fz;
    slong fanswer;
} setting;

static void fill(nmod_mat_t to, const uint32_t *from, slong m, slong n) {
    for (slong i = 0; i < m; i++)
        for (slong j = 0; j < n; j++) nmod_mat_entry(to, i, j) = from[i * n + j];
}

/* k places below n, rising. */
static void places(uint32_t *to, uint32_t k, uint32_t n) {
    for (uint32_t i = 0, left = k; i < n; i++)
        if (below(n - i) < left) to[k - left--] = i;
}

/* An n by n table of the given rank: random numbers for full rank; otherwise L times U in echelon form, with the chosen rows
 * and columns scattered. */
static void draw_table(uint32_t *a, uint32_t n, uint32_t rank, uint32_t p) {
    static uint32_t l[MOST][MOST], u[MOST][MOST];
    uint32_t rows[MOST], columns[MOST];
    if (rank == n) {
        for (uint32_t i = 0; i < n * n; i++) a[i] = below(p);
        return;
    }
    places(rows, rank, n);
    places(columns, rank, n);
    for (uint32_t r = 0; r < rank; r++)
        for (uint32_t i = 0; i < n; i++) {
            l[i][r] = i < rows[r] ? 0 : i == rows[r] ? 1 + below(p - 1) : below(p);
            u[r][i] = i < columns[r] ? 0 : i == columns[r] ? 1 + below(p - 1) : below(p);
        }
    for (uint32_t i = 0; i < n; i++)
        for (uint32_t j = 0; j < n; j++) {
            uint64_t sum = 0;
            for (uint32_t r = 0; r < rank; r++) sum += times(l[i][r], u[r][j], p);
            a[i * n + j] = (uint32_t)(sum % p);
        }
}

static void prepare(setting *s, uint32_t p, uint32_t n, uint32_t rank) {
    s->p = p;
    s->n = n;
    s->rank = rank;
    s->tables = (int)(128 / n); /* 16 tables of 8, down to 2 of 64 */
    for (int t = 0; t < s->tables; t++) {
        uint32_t x[MOST];
        nmod_mat_init(s->fa[t], n, n, p);
        nmod_mat_init(s->fw[t], n, 1, p);
        do {
            draw_table(s->a[t], n, rank, p);
            fill(s->fa[t], s->a[t], n, n);
        } while (nmod_mat_rank(s->fa[t]) != (slong)rank);
        for (uint32_t j = 0; j < n; j++) x[j] = below(p);
        for (uint32_t i = 0; i < n; i++) {
            uint64_t sum = 0;
            for (uint32_t j = 0; j < n; j++) sum += times(s->a[t][i * n + j], x[j], p);
            s->w[t][i] = (uint32_t)(sum % p);
        }
        fill(s->fw[t], s->w[t], n, 1);
    }
    nmod_mat_init(s->fd, n, n, p);
    nmod_mat_init(s->fbasis, n, n, p);
    nmod_mat_init(s->fz, n, 1, p);
}

static void release(setting *s) {
    for (int t = 0; t < s->tables; t++) {
        nmod_mat_clear(s->fa[t]);
        nmod_mat_clear(s->fw[t]);
    }
    nmod_mat_clear(s->fd);
    nmod_mat_clear(s->fbasis);
    nmod_mat_clear(s->fz);
}

static void our_quasiinverse(setting *s, int t) {
    uint32_t n = s->n;
    s->answer = dauneroad_quasiinverse(s->p, n, n, s->a[t], n * n, s->d, n * n, s->columns, n, s->rows, n);
}

static void our_kernel(setting *s, int t) {
    uint32_t n = s->n;
    s->answer = dauneroad_kernel(s->p, n, n, s->a[t], n * n, s->basis, n * n);
}

static void our_solve(setting *s, int t) {
    uint32_t n = s->n;
    s->answer = dauneroad_solve(s->p, n, n, s->a[t], n * n, s->w[t], n, s->z, n, s->u, n);
}

static void flint_solve(setting *s, int t) {
    if (s->rank == s->n)
        s->fanswer = nmod_mat_solve_vec(s->fz->entries, s->fa[t], s->fw[t]->entries);
    else
        s->fanswer = nmod_mat_can_solve(s->fz, s->fa[t], s->fw[t]);
}

#define RUN(name, body)                                       \
    static void name(void *data) {                            \
        setting *s = data;                                    \
        for (int t = 0; t < s->tables; t++) body;             \
    }
RUN(run_quasiinverse, our_quasiinverse(s, t))
RUN(run_composed, s->fanswer = composed(s->fd, s->fa[t]))
RUN(run_sparing, s->fanswer = sparing(s->fd, s->fa[t]))
RUN(run_rank, s->fanswer = nmod_mat_rank(s->fa[t]))
RUN(run_kernel, our_kernel(s, t))
RUN(run_nullspace, s->fanswer = nmod_mat_nullspace(s->fbasis, s->fa[t]))
RUN(run_solve, our_solve(s, t))
RUN(run_flint_solve, flint_solve(s, t))

static int same_table(const uint32_t *x, const nmod_mat_t y) {
    for (slong i = 0; i < y->r; i++)
        for (slong j = 0; j < y->c; j++)
            if (x[i * y->c + j] != nmod_mat_entry(y, i, j)) return 0;
    return 1;
}

/* Both sides answer the same on every table: rank, marks, D (and ADA = A, DAD = D), basis, solution. */
static void agree(setting *s) {
    uint32_t n = s->n;
    nmod_mat_t d, da, back;
    nmod_mat_init(d, n, n, s->p);
    nmod_mat_init(da, n, n, s->p);
    nmod_mat_init(back, n, n, s->p);
    for (int t = 0; t < s->tables; t++) {
        our_quasiinverse(s, t);
        must(s->answer == DAUNEROAD_DONE + s->rank, "the rank that quasiinverse answers");
        must(nmod_mat_rank(s->fa[t]) == (slong)s->rank, "nmod_mat_rank");
        fill(d, s->d, n, n);
        nmod_mat_mul(da, d, s->fa[t]);
        nmod_mat_mul(back, s->fa[t], da);
        must(nmod_mat_equal(back, s->fa[t]), "ADA = A");
        nmod_mat_mul(back, da, d);
        must(nmod_mat_equal(back, d), "DAD = D");
        must(composed(s->fd, s->fa[t]) == (slong)s->rank && same_table(s->d, s->fd), "D, composed");
        nmod_mat_zero(s->fd);
        must(sparing(s->fd, s->fa[t]) == (slong)s->rank && same_table(s->d, s->fd), "D, sparing");
        for (uint32_t i = 0; i < n; i++) {
            int row = 0, column = 0;
            for (uint32_t j = 0; j < n; j++) {
                row |= s->d[i * n + j] != 0;
                column |= s->d[j * n + i] != 0;
            }
            must(s->columns[i] == (uint32_t)row && s->rows[i] == (uint32_t)column, "marks");
        }
        our_kernel(s, t);
        s->fanswer = nmod_mat_nullspace(s->fbasis, s->fa[t]);
        must(s->answer == DAUNEROAD_DONE + n - s->rank && s->fanswer == (slong)(n - s->rank), "the kernel's size");
        nmod_mat_transpose(back, s->fbasis);
        must(same_table(s->basis, back), "the kernel's basis");
        our_solve(s, t);
        flint_solve(s, t);
        must(s->answer == DAUNEROAD_DONE + s->rank && s->fanswer == 1, "solve's answer");
        must(same_table(s->z, s->fz), "the solution");
    }
    nmod_mat_clear(d);
    nmod_mat_clear(da);
    nmod_mat_clear(back);
}

static void race_tables(int prime, uint32_t n, int half, double seconds) {
    static setting s;
    const char *kind = half ? "half rank" : "full rank";
    double f[RACERS];
    prepare(&s, PRIMES[prime], n, half ? n / 2 : n);
    agree(&s);
    double one = 1.0 / s.tables;
    race(4, (work[]){run_quasiinverse, run_composed, run_sparing, run_rank}, &s, 2 * seconds, f);
    tell("quasiinverse (composed)", kind, n, prime, f[0] * one, f[1] * one);
    tell("quasiinverse (composed, sparing)", kind, n, prime, f[0] * one, f[2] * one);
    tell("rank (nmod_mat_rank)", kind, n, prime, f[0] * one, f[3] * one);
    race(2, (work[]){run_kernel, run_nullspace}, &s, seconds, f);
    tell("kernel (nmod_mat_nullspace)", kind, n, prime, f[0] * one, f[1] * one);
    race(2, (work[]){run_solve, run_flint_solve}, &s, seconds, f);
    tell(half ? "solve (nmod_mat_can_solve)" : "solve (nmod_mat_solve_vec)", kind, n, prime, f[0] * one, f[1] * one);
    release(&s);
}

/* ---- the board ---- */

#define WORDS DAUNEROAD_BOARD_WORDS(MOST, 1) /* boards here have one word a record; words.c has sixteen */
#define LONGEST DAUNEROAD_LONGEST_FRAME(1)

typedef struct {
    uint32_t p, k;
    uint32_t board[WORDS];                                   /* k frames stand */
    uint32_t rows[MOST][MOST + 1];                           /* the frames to come: multipliers, value */
    uint8_t fresh[MOST][LONGEST], again[MOST][LONGEST];      /* by k: a new frame, a repeat */
    size_t fresh_length[MOST], again_length[MOST];
    uint32_t wanted[MOST][MOST]; /* by k: the repeat's multipliers */
    uint8_t relayed[LONGEST];
    uint32_t mix[MOST], marks[MOST];
    int32_t numbers[MOST];
    nmod_mat_t turned, values, fresh_row[MOST], again_row[MOST]; /* the rows as columns; their values; rows to take */
    nmod_mat_t sheet;                                            /* rows with values */
    mp_limb_t fresh_value[MOST], again_value[MOST];
    nmod_mat_t fmix;
    uint32_t fmarks[MOST];
    int32_t fnumbers[MOST];
} hall;

/* Lays out k standing frames by hand, without a call: callgrind counts every call. */
static void lay_out(hall *h, uint32_t k) {
    memset(h->board, 0, sizeof h->board);
    h->board[0] = h->p;
    h->board[1] = MOST;
    h->board[2] = h->k = k;
    h->board[3] = 1;
    memcpy(h->board + 4, h->rows, (size_t)k * (MOST + 1) * sizeof(uint32_t));
}

/* After a take that was new: the board as it was. */
static void put_back(hall *h) {
    h->board[2] = h->k;
    memset(h->board + 4 + h->k * (MOST + 1), 0, (MOST + 1) * sizeof(uint32_t));
}

static size_t write_frame(uint32_t p, const uint32_t *row, uint8_t *bytes) {
    uint32_t answer = dauneroad_write(p, MOST, 1, row, MOST, row + MOST, 1, bytes, LONGEST);
    must(answer > DAUNEROAD_DONE, "dauneroad_write");
    return answer - DAUNEROAD_DONE;
}

/* 64 independent rows, and for each k a repeat: a random mix of the first k. With `sparse`, every third row is all 0 but for
 * one multiplier, so that records are settled on the way. */
static void furnish(hall *h, uint32_t p, int sparse) {
    uint32_t a[MOST * MOST];
    nmod_mat_t all;
    h->p = p;
    nmod_mat_init(all, MOST, MOST, p);
    do {
        draw_table(a, MOST, MOST, p);
        if (sparse)
            for (uint32_t i = 0; i < MOST; i += 3)
                for (uint32_t j = 0; j < MOST; j++) a[i * MOST + j] = j == i ? 1 + below(p - 1) : 0;
        fill(all, a, MOST, MOST);
    } while (nmod_mat_rank(all) != MOST);
    nmod_mat_clear(all);
    nmod_mat_init(h->turned, MOST, MOST, p);
    nmod_mat_init(h->values, MOST, 1, p);
    nmod_mat_init(h->sheet, MOST, MOST + 1, p);
    nmod_mat_init(h->fmix, MOST, 1, p);
    for (uint32_t i = 0; i < MOST; i++) {
        memcpy(h->rows[i], a + i * MOST, MOST * sizeof(uint32_t));
        h->rows[i][MOST] = below(p);
        h->fresh_length[i] = write_frame(p, h->rows[i], h->fresh[i]);
        h->fresh_value[i] = h->rows[i][MOST];
        nmod_mat_init(h->fresh_row[i], MOST, 1, p);
        fill(h->fresh_row[i], h->rows[i], MOST, 1);
        for (uint32_t j = 0; j < MOST; j++) nmod_mat_entry(h->turned, j, i) = h->rows[i][j];
        nmod_mat_entry(h->values, i, 0) = h->rows[i][MOST];
    }
    fill(h->sheet, h->rows[0], MOST, MOST + 1);
    for (uint32_t k = 0; k < MOST; k++) {
        uint64_t sum[MOST + 1] = {0};
        uint32_t row[MOST + 1];
        for (uint32_t i = 0; i < k; i++)
            for (uint32_t j = 0, by = below(p); j <= MOST; j++) sum[j] += times(by, h->rows[i][j], p);
        for (uint32_t j = 0; j <= MOST; j++) row[j] = (uint32_t)(sum[j] % p);
        memcpy(h->wanted[k], row, sizeof h->wanted[k]);
        h->again_length[k] = write_frame(p, row, h->again[k]);
        h->again_value[k] = row[MOST];
        nmod_mat_init(h->again_row[k], MOST, 1, p);
        fill(h->again_row[k], row, MOST, 1);
    }
}

static void clear_hall(hall *h) {
    nmod_mat_clear(h->turned);
    nmod_mat_clear(h->values);
    nmod_mat_clear(h->sheet);
    nmod_mat_clear(h->fmix);
    for (int i = 0; i < MOST; i++) {
        nmod_mat_clear(h->fresh_row[i]);
        nmod_mat_clear(h->again_row[i]);
    }
}

static uint32_t take(hall *h, const uint8_t *frame, size_t length) {
    return dauneroad_take(h->board, WORDS, frame, length, h->mix, MOST);
}

static uint32_t show(hall *h) { return dauneroad_show(h->board, WORDS, DAUNEROAD_LOW(h->p), h->marks, MOST, h->numbers, MOST); }

static uint32_t relay(hall *h, const uint32_t *wanted) {
    return dauneroad_relay(h->board, WORDS, wanted, MOST, h->mix, MOST, h->relayed, LONGEST);
}

/* FLINT's take from scratch. Composed: nmod_mat_rank tests that the k standing rows are independent, nmod_mat_can_solve tells
 * whether the new row is a combination of them and which; then the same combination of the values. Sparing: one LU tells the
 * rank and the combination (nmod_mat_can_solve_inner). */
static uint32_t flint_take(hall *h, const nmod_mat_t row, mp_limb_t value, int spare) {
    slong k = (slong)h->k, rank;
    if (k == 0) return !nmod_mat_is_zero(row) ? DAUNEROAD_NEW : value == 0 ? DAUNEROAD_REPEAT : DAUNEROAD_CONFLICT;
    nmod_mat_t standing, mix;
    int soluble;
    nmod_mat_window_init(standing, h->turned, 0, 0, MOST, k);
    nmod_mat_window_init(mix, h->fmix, 0, 0, k, 1);
    if (spare) {
        soluble = nmod_mat_can_solve_inner(&rank, NULL, NULL, mix, standing, row);
    } else {
        rank = nmod_mat_rank(standing);
        soluble = nmod_mat_can_solve(mix, standing, row);
    }
    uint32_t answer = rank != k ? DAUNEROAD_NOT_BOARD : DAUNEROAD_NEW;
    if (answer == DAUNEROAD_NEW && soluble) {
        int limbs = _nmod_vec_dot_bound_limbs(k, row->mod);
        mp_limb_t sum = _nmod_vec_dot(h->fmix->entries, h->values->entries, k, row->mod, limbs);
        answer = sum == value ? DAUNEROAD_REPEAT : DAUNEROAD_CONFLICT;
    }
    nmod_mat_window_clear(standing);
    nmod_mat_window_clear(mix);
    return answer;
}

/* FLINT's show from scratch: the reduced echelon form of the k rows with their values; a record is settled where its column
 * has a pivot whose row holds nothing else. */
static uint32_t flint_show(hall *h) {
    slong k = (slong)h->k, c = 0;
    memset(h->fmarks, 0, sizeof h->fmarks);
    memset(h->fnumbers, 0, sizeof h->fnumbers);
    if (k == 0) return DAUNEROAD_DONE + MOST;
    nmod_mat_t standing, reduced;
    nmod_mat_window_init(standing, h->sheet, 0, 0, k, MOST + 1);
    nmod_mat_init_set(reduced, standing);
    slong rank = nmod_mat_rref(reduced);
    for (slong i = 0; i < rank; i++, c++) {
        while (nmod_mat_entry(reduced, i, c) == 0) c++;
        slong next = c + 1;
        while (next < MOST && nmod_mat_entry(reduced, i, next) == 0) next++;
        if (next == MOST) {
            mp_limb_t v = nmod_mat_entry(reduced, i, MOST);
            h->fmarks[c] = 1;
            h->fnumbers[c] = (int32_t)(2 * v <= h->p ? (int64_t)v : (int64_t)v - (int64_t)h->p);
        }
    }
    nmod_mat_clear(reduced);
    nmod_mat_window_clear(standing);
    return rank == k ? DAUNEROAD_DONE + MOST - (uint32_t)k : DAUNEROAD_NOT_BOARD;
}

static int same_mix(hall *h) {
    for (uint32_t i = 0; i < MOST; i++)
        if (h->mix[i] != (i < h->k ? nmod_mat_entry(h->fmix, i, 0) : 0)) return 0;
    return 1;
}

/* Both sides answer the same at every k: new, repeat, conflict and their mixes; the sheet. Relay writes the repeat, with its mix, and
 * refuses the new frame's row. */
static void agree_board(hall *h, int sparse) {
    uint32_t settled = 0;
    for (uint32_t k = 0; k < MOST; k++) {
        lay_out(h, k);
        must(show(h) == DAUNEROAD_DONE + MOST - k && flint_show(h) == DAUNEROAD_DONE + MOST - k, "show's answer");
        must(!memcmp(h->marks, h->fmarks, sizeof h->marks), "show's marks");
        must(!memcmp(h->numbers, h->fnumbers, sizeof h->numbers), "show's numbers");
        for (uint32_t j = 0; j < MOST; j++) settled += h->marks[j];
        uint8_t bent[LONGEST]; /* the repeat with another value */
        memcpy(bent, h->again[k], sizeof bent);
        uint32_t value = (uint32_t)((h->again_value[k] + 1) % h->p);
        for (size_t b = 0; b < DAUNEROAD_WIDTH(h->p); b++) bent[h->again_length[k] - 1 - b] = (uint8_t)(value >> 8 * b);
        for (int spare = 0; spare < 2; spare++) {
            memset(h->mix, 0xff, sizeof h->mix);
            must(take(h, h->again[k], h->again_length[k]) == DAUNEROAD_REPEAT, "take of a repeat");
            must(flint_take(h, h->again_row[k], h->again_value[k], spare) == DAUNEROAD_REPEAT, "FLINT's take of a repeat");
            must(same_mix(h), "the mix of a repeat");
            memset(h->mix, 0xff, sizeof h->mix);
            must(take(h, bent, h->again_length[k]) == DAUNEROAD_CONFLICT, "take of a contradiction");
            must(flint_take(h, h->again_row[k], value, spare) == DAUNEROAD_CONFLICT, "FLINT's take of a contradiction");
            must(same_mix(h), "the mix of a contradiction");
            memset(h->mix, 0xff, sizeof h->mix);
            must(relay(h, h->wanted[k]) == DAUNEROAD_DONE + h->again_length[k] && same_mix(h), "relay and its mix");
            must(!memcmp(h->relayed, h->again[k], h->again_length[k]), "the frame that is relayed");
            must(relay(h, h->rows[k]) == DAUNEROAD_NOT_IN_SPAN, "relay of a new row");
            must(flint_take(h, h->fresh_row[k], h->fresh_value[k], spare) == DAUNEROAD_NEW, "FLINT's take of a new frame");
        }
        must(take(h, h->fresh[k], h->fresh_length[k]) == DAUNEROAD_NEW, "take of a new frame");
        must(h->board[2] == k + 1 && !memcmp(h->board + 4 + k * (MOST + 1), h->rows[k], sizeof h->rows[k]), "the new row");
    }
    must((settled > 0) == sparse, "sparse frames settle records on the way, dense ones none before the last");
}

/* What is timed at one k; one call is one sample, and the board is put back between them. */
enum { NEW_OURS, NEW_COMPOSED, NEW_SPARING, AGAIN_OURS, AGAIN_COMPOSED, AGAIN_SPARING, SHOW_OURS, SHOW_FLINT, RELAY_OURS, TIMED };

static double timed(hall *h, int which) {
    uint32_t k = h->k, answer = 0;
    double start = now();
    switch (which) {
    case NEW_OURS: answer = take(h, h->fresh[k], h->fresh_length[k]); break;
    case NEW_COMPOSED: answer = flint_take(h, h->fresh_row[k], h->fresh_value[k], 0); break;
    case NEW_SPARING: answer = flint_take(h, h->fresh_row[k], h->fresh_value[k], 1); break;
    case AGAIN_OURS: answer = take(h, h->again[k], h->again_length[k]); break;
    case AGAIN_COMPOSED: answer = flint_take(h, h->again_row[k], h->again_value[k], 0); break;
    case AGAIN_SPARING: answer = flint_take(h, h->again_row[k], h->again_value[k], 1); break;
    case SHOW_OURS: answer = show(h); break;
    case SHOW_FLINT: answer = flint_show(h); break;
    case RELAY_OURS: answer = relay(h, h->wanted[k]); break;
    }
    double spent = now() - start - clock_cost;
    uint32_t wanted = which < AGAIN_OURS   ? DAUNEROAD_NEW
                      : which < SHOW_OURS  ? DAUNEROAD_REPEAT
                      : which < RELAY_OURS ? DAUNEROAD_DONE + MOST - k
                                           : DAUNEROAD_DONE + (uint32_t)h->again_length[k];
    must(answer == wanted, "an answer while timing");
    if (which == NEW_OURS) put_back(h);
    return spent;
}

/* The bytes of the dense frames, and what they would be with four bytes a number. */
static void tell_bytes(const hall *h) {
    size_t bytes = 0, map = MOST / 8, numbers = 0;
    for (int i = 0; i < MOST; i++) {
        bytes += h->fresh_length[i];
        numbers += (h->fresh_length[i] - map) / DAUNEROAD_WIDTH(h->p);
    }
    printf("%-38s %-13s n %2u  p %10u  dauneroad %8.2f bytes; with four bytes a number %8.2f\n", "a frame", "mean of 64", MOST, h->p,
           (double)bytes / MOST, (double)(map * MOST + 4 * numbers) / MOST);
    fflush(stdout);
}

static void race_board(int prime, double seconds) {
    static const struct {
        const char *call;
        int ours, theirs;
    } PAIRS[7] = {{"take, new (composed)", NEW_OURS, NEW_COMPOSED},
                  {"take, new (composed, sparing)", NEW_OURS, NEW_SPARING},
                  {"take, repeat (composed)", AGAIN_OURS, AGAIN_COMPOSED},
                  {"take, repeat (composed, sparing)", AGAIN_OURS, AGAIN_SPARING},
                  {"show (nmod_mat_rref)", SHOW_OURS, SHOW_FLINT},
                  {"relay (composed)", RELAY_OURS, AGAIN_COMPOSED}, /* FLINT's repeat finds the same combination and value */
                  {"relay (composed, sparing)", RELAY_OURS, AGAIN_SPARING}};
    static hall h;
    static double fastest[MOST][TIMED];
    double mean[TIMED] = {0};
    for (int sparse = 1; sparse >= 0; sparse--) {
        furnish(&h, PRIMES[prime], sparse);
        agree_board(&h, sparse);
        if (sparse) clear_hall(&h);
    }
    tell_bytes(&h);
    for (uint32_t k = 0; k < MOST; k++) {
        lay_out(&h, k);
        for (int c = 0; c < TIMED; c++) fastest[k][c] = 1e18;
        double end = now() + 10 * seconds / MOST * 1e6;
        for (int round = 0; round < 20 || now() < end; round++)
            for (int i = 0; i < TIMED; i++) {
                int c = round % 2 ? TIMED - 1 - i : i;
                double spent = timed(&h, c);
                if (spent < fastest[k][c]) fastest[k][c] = spent;
            }
        for (int c = 0; c < TIMED; c++) mean[c] += fastest[k][c] / MOST;
    }
    for (int pair = 0; pair < 7; pair++) {
        int ours = PAIRS[pair].ours, theirs = PAIRS[pair].theirs;
        for (uint32_t k = 0; k <= MOST; k += 16) {
            uint32_t at = k == 0 ? 1 : k < MOST ? k : MOST - 1; /* at 0 FLINT has nothing to do */
            char kind[24];
            snprintf(kind, sizeof kind, "k = %u", at);
            tell(PAIRS[pair].call, kind, MOST, prime, fastest[at][ours], fastest[at][theirs]);
        }
        tell(PAIRS[pair].call, "mean, 0..63", MOST, prime, mean[ours], mean[theirs]);
    }
    clear_hall(&h);
}

/* ---- the prime test: signed reading of 0, which is the test of p and little else ---- */

static const uint32_t TESTED[4] = {251, 65537, 2147483629, 2147483647};
static double tested[4][2];
static volatile int verdict;

static void run_signed(void *data) {
    int32_t record;
    verdict = dauneroad_signed(*(uint32_t *)data, 0, 0, &record) == 0;
}

static void run_is_prime(void *data) { verdict = n_is_prime(*(uint32_t *)data); }

static void race_primes(double seconds) {
    static const uint32_t EITHER[10] = {0, 1, 2, 3, 4, 251, 65535, 2147117569, 2147483629, 2147483647};
    for (int i = 0; i < 10; i++) {
        int32_t record;
        uint32_t p = EITHER[i];
        must((dauneroad_signed(p, 0, 0, &record) == 0) == n_is_prime(p), "the prime test");
    }
    for (int i = 0; i < 4; i++) {
        uint32_t p = TESTED[i];
        race(2, (work[]){run_signed, run_is_prime}, &p, seconds, tested[i]);
        if (i < 3) modulus_cost[i] = tested[i][0];
        printf("%-38s %-13s       p %10u  dauneroad %8.3f us                      FLINT %8.3f us  ratio %6.2f\n",
               "prime test (n_is_prime)", "", p, tested[i][0], tested[i][1], tested[i][0] / tested[i][1]);
        fflush(stdout);
    }
}

/* ---- the table ---- */

static void write_table(const char *path) {
    FILE *f = fopen(path, "w");
    must(f != NULL, "the table's file can be written");
    fprintf(f, "Microseconds, dauneroad / FLINT %s = ratio (below 1: dauneroad is ahead).\n\n", FLINT_VERSION);
    fprintf(f, "| Call (what FLINT does) | Rank or k | n | p = %u | p = %u | p = %u |\n|---|---|---|---|---|---|\n", PRIMES[0],
            PRIMES[1], PRIMES[2]);
    for (int i = 0; i < result_count; i++) {
        result *r = &results[i];
        fprintf(f, "| %s | %s | %u |", r->call, r->kind, r->n);
        for (int q = 0; q < 3; q++) fprintf(f, " %.1f / %.1f = %.2f |", r->ours[q], r->theirs[q], r->ours[q] / r->theirs[q]);
        fprintf(f, "\n");
    }
    fprintf(f, "\n| Prime test of p, part of every call (n_is_prime) | dauneroad / FLINT = ratio |\n|---|---|\n");
    for (int i = 0; i < 4; i++)
        fprintf(f, "| %u | %.2f / %.2f = %.1f |\n", TESTED[i], tested[i][0], tested[i][1], tested[i][0] / tested[i][1]);
    must(fclose(f) == 0, "the table is written");
}

/* What is aimed at, all at n = 64: a ratio to FLINT below 1. */
static const struct {
    const char *call, *kind;
} AIMS[] = {{"quasiinverse (composed)", "full rank"},
            {"quasiinverse (composed)", "half rank"},
            {"kernel (nmod_mat_nullspace)", "half rank"},
            {"solve (nmod_mat_solve_vec)", "full rank"},
            {"take, new (composed, sparing)", "mean, 0..63"},
            {"take, new (composed, sparing)", "k = 63"},
            {"take, repeat (composed, sparing)", "mean, 0..63"},
            {"take, repeat (composed, sparing)", "k = 63"}};

static void write_aims(const char *path) {
    FILE *f = fopen(path, "w");
    must(f != NULL, "the aims' file can be written");
    fprintf(f, "| Aim: a ratio to FLINT below 1, at n = %d | p = %u | p = %u | p = %u | |\n|---|---|---|---|---|\n", MOST, PRIMES[0],
            PRIMES[1], PRIMES[2]);
    for (size_t i = 0; i < sizeof AIMS / sizeof *AIMS; i++) {
        result *r = result_of(AIMS[i].call, AIMS[i].kind, MOST);
        double worst = 0;
        fprintf(f, "| %s, %s |", r->call, r->kind);
        for (int q = 0; q < 3; q++) {
            double ratio = r->ours[q] / r->theirs[q];
            fprintf(f, " %.2f |", ratio);
            if (ratio > worst) worst = ratio;
        }
        fprintf(f, " %s |\n", worst < 1 ? "met" : "missed");
    }
    must(fclose(f) == 0, "the aims are written");
}

static int race_all(double seconds, const char *table, const char *aims) {
    weigh_clock();
    race_primes(seconds);
    for (int half = 0; half < 2; half++)
        for (int size = 0; size < 4; size++)
            for (int prime = 0; prime < 3; prime++) race_tables(prime, SIZES[size], half, seconds);
    for (int prime = 0; prime < 3; prime++) race_board(prime, seconds);
    write_table(table);
    write_aims(aims);
    return 0;
}

/* One call on what was prepared without it, for callgrind's --toggle-collect. */
static int count(const char *call) {
    static hall h;
    static setting s;
    uint32_t p = 2147483629;
    if (!strcmp(call, "prime")) {
        p = 2147483647;
        run_signed(&p);
        must(verdict, "the prime test");
    } else if (!strcmp(call, "quasiinverse")) {
        prepare(&s, p, MOST, MOST);
        our_quasiinverse(&s, 0);
        must(s.answer == DAUNEROAD_DONE + MOST, "quasiinverse");
    } else if (!strcmp(call, "solve")) {
        prepare(&s, p, MOST, MOST);
        our_solve(&s, 0);
        must(s.answer == DAUNEROAD_DONE + MOST, call);
    } else if (!strcmp(call, "check")) {
        prepare(&s, p, MOST, MOST);
        our_quasiinverse(&s, 0);
        s.answer = dauneroad_check(p, MOST, MOST, s.a[0], MOST * MOST, s.d, MOST * MOST);
        must(s.answer == DAUNEROAD_DONE + MOST, call);
    } else if (!strcmp(call, "seal")) {
        uint32_t value;
        int32_t records[MOST];
        uint32_t multipliers[MOST];
        p = 251; /* whose test is next to nothing */
        for (int i = 0; i < MOST; i++) records[i] = i, multipliers[i] = below(p);
        must(dauneroad_seal(p, MOST, 1, DAUNEROAD_LOW(p), records, MOST, multipliers, MOST, &value, 1) == DAUNEROAD_DONE + 1, call);
    } else if (!strcmp(call, "take") || !strcmp(call, "repeat") || !strcmp(call, "show") || !strcmp(call, "relay") ||
               !strcmp(call, "outside")) {
        furnish(&h, p, 0);
        lay_out(&h, MOST - 1);
        if (!strcmp(call, "take")) must(take(&h, h.fresh[MOST - 1], h.fresh_length[MOST - 1]) == DAUNEROAD_NEW, call);
        if (!strcmp(call, "repeat")) must(take(&h, h.again[MOST - 1], h.again_length[MOST - 1]) == DAUNEROAD_REPEAT, call);
        if (!strcmp(call, "show")) must(show(&h) == DAUNEROAD_DONE + 1, call);
        if (!strcmp(call, "relay")) must(relay(&h, h.wanted[MOST - 1]) == DAUNEROAD_DONE + h.again_length[MOST - 1], call);
        if (!strcmp(call, "outside")) must(relay(&h, h.rows[MOST - 1]) == DAUNEROAD_NOT_IN_SPAN, call);
    } else {
        return 2;
    }
    return 0;
}

int main(int argc, char **argv) {
    if (argc == 5 && !strcmp(argv[1], "race")) return race_all(atof(argv[2]), argv[3], argv[4]);
    int status = argc == 3 && !strcmp(argv[1], "count") ? count(argv[2]) : 2;
    if (status == 2)
        fprintf(stderr, "usage: bench race SECONDS TABLE AIMS | bench count take|repeat|show|relay|outside|quasiinverse|solve|check|seal|prime\n");
    return status;
}
