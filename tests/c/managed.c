/*
 * Tests of the managed calls from C: the bench table, known results, what a
 * removal moves, any diagonal, empty factors, adopted storage, every refusal,
 * data that are not finite, factors that are not, pair steps and their counter,
 * a matrix that is kept beside its factors, and cards.
 * The last line counts the checks. The exit status is 1 where one failed.
 */
#include <math.h>
#include <stdio.h>
#include <stdlib.h>
#include <string.h>

#include "managed_calls.h"
#include "managed_cards.h"
#include "managed_counter.h"
#include "managed_data.h"
#include "managed_flags.h"
#include "managed_kept_matrix.h"
#include "managed_ready.h"
#include "managed_refusals.h"

/* Buffers just as long as is needed, and longer ones. */
static const size_t more_doubles[] = {0, 3};

static void lengths(void) {
    static const struct {
        size_t capacity;
        uint32_t number;
        size_t l, u;
    } rows[] = {
        {0, LUMOD_OK, 0, 0},
        {1, LUMOD_OK, 2, 1},
        {2, LUMOD_OK, 6, 3},
        {3, LUMOD_OK, 12, 6},
        {4, LUMOD_OK, 20, 10},
        {65536, LUMOD_OK, 4295032832, 2147516416},
        {4294967294, LUMOD_OK, 18446744060824649730u, 9223372030412324865},
        {4294967295, LUMOD_OK, 18446744069414584320u, 9223372034707292160},
        {4294967296, LUMOD_SIZE_OVERFLOW, UNREPORTED, UNREPORTED},
        {4294967297, LUMOD_SIZE_OVERFLOW, UNREPORTED, UNREPORTED},
        {SIZE_MAX / 2 + 1, LUMOD_SIZE_OVERFLOW, UNREPORTED, UNREPORTED},
        {SIZE_MAX - 1, LUMOD_SIZE_OVERFLOW, UNREPORTED, UNREPORTED},
        {SIZE_MAX, LUMOD_SIZE_OVERFLOW, UNREPORTED, UNREPORTED},
    };
    begin_group("lengths");
    for (size_t k = 0; k < COUNT(rows); k++) {
        size_t l = UNREPORTED, u = UNREPORTED;
        uint32_t number = lumod_storage_lengths(rows[k].capacity, &l, &u);
        check_number("returned", number, rows[k].number);
        check_number("*l", l, rows[k].l);
        check_number("*u", u, rows[k].u);
    }
    end_group();
}

/* Known results. */

static void check_known_update(const struct update *u) {
    struct memory m;
    for (size_t k = 0; k < COUNT(more_doubles); k++) {
        struct managed c = prepare_update(&m, u, more_doubles[k]);
        check_managed_update(u->what, &c, &m, u->steps, u->after.l, u->after.u);
    }
}

static void check_non_finite_update(const struct update *u, size_t place) {
    struct memory m;
    for (size_t k = 0; k < COUNT(more_doubles); k++) {
        struct managed c = prepare_update(&m, u, more_doubles[k]);
        check_non_finite(u->what, c, &m, place);
    }
}

static void put_identities(struct memory *m, size_t capacity, size_t n) {
    for (size_t i = 0; i < n; i++) {
        for (size_t j = 0; j < n; j++) {
            *l_at(m, capacity, i, j) = i == j;
        }
        for (size_t j = i; j < n; j++) {
            *u_at(m, capacity, i, j) = i == j;
        }
    }
}

/* A solve where the other factor is the identity. */
static void check_half_solve(const struct half_solve *h, int factor) {
    struct memory m;
    struct managed c = make_managed(h->transposed ? SOLVE_TRANSPOSE : SOLVE, h->n, h->capacity);
    for (size_t k = 0; k < COUNT(more_doubles); k++) {
        prepare_managed(&m, &c, more_doubles[k]);
        put_identities(&m, h->capacity, h->n);
        (factor == L ? put_l : put_u)(&m, h->capacity, h->n, h->factor);
        put(&m, RHS, h->n, h->vector);
        check_managed_solve(h->what, c, &m, h->result);
    }
}

static void check_known_product(const struct half_solve *h) { check_half_solve(h, L); }

static void check_known_substitution(const struct half_solve *h) { check_half_solve(h, U); }

/* The bench table's rows of several calls. */

static void solve_p(struct managed c, struct memory *m, size_t more) {
    c.function = SOLVE;
    prepare_next(m, &c, more);
    put(m, RHS, 2, (double[]){8, 5});
    check_managed_solve("P, solve (8,5)", c, m, (double[]){1, 1});
    c.function = SOLVE_TRANSPOSE;
    prepare_next(m, &c, more);
    put(m, RHS, 2, (double[]){6, 7});
    check_managed_solve("P, transpose solve (6,7)", c, m, (double[]){1, 1});
}

static void make_and_solve_p(size_t capacity, size_t more) {
    struct memory m;
    struct managed c = make_managed(PUSH, 0, capacity);
    prepare_managed(&m, &c, more);
    c.diagonal = 2;
    check_managed_update("empty, push d 2", &c, &m, 0, (double[]){1}, (double[]){2});
    prepare_next(&m, &c, more);
    put(&m, ROW, 1, (double[]){4});
    put(&m, COLUMN, 1, (double[]){6});
    c.diagonal = 1;
    check_managed_update("push row (4), column (6), d 1", &c, &m, 1, p_l, p_u);
    solve_p(c, &m, more);
}

static void push_negative_zero(size_t capacity, size_t more) {
    struct memory m;
    struct managed c = make_managed(PUSH, 0, capacity), after;
    prepare_managed(&m, &c, more);
    c.diagonal = -0.0;
    check_managed_update("empty, push d -0", &c, &m, 0, (double[]){1}, (double[]){-0.0});
    c.function = SOLVE;
    prepare_next(&m, &c, more);
    put(&m, RHS, 1, (double[]){5});
    after = c;
    after.index = 0;
    check_kept("empty, push d -0, solve (5)", c, &m, LUMOD_SINGULAR, after);
}

/* c = 3: U(1,1) at 3, U(1,2) at 4, U(2,2) at 5. */
static void places_of_u(void) {
    struct memory m;
    struct managed c = make_managed(SOLVE, 3, 3);
    prepare_managed(&m, &c, 0);
    put_identities(&m, 3, 3);
    put(&m, U, 6, (double[]){2, 3, 5, 7, 11, 13});
    put(&m, RHS, 3, (double[]){10, 18, 13});
    check_managed_solve("places of U", c, &m, (double[]){1, 1, 1});
}

static void bench_lists(void) {
    begin_group("bench table: lists of calls, places");
    for (size_t capacity = 2; capacity <= 5; capacity++) {
        for (size_t k = 0; k < COUNT(more_doubles); k++) {
            make_and_solve_p(capacity, more_doubles[k]);
            push_negative_zero(capacity - 1, more_doubles[k]);
        }
    }
    places_of_u();
    end_group();
}

static void moves(void) {
    struct memory m;
    begin_group("what a removal moves");
    for (size_t n = 1; n <= 4; n++) {
        for (size_t k = 0; k < n * n; k++) {
            struct managed c = make_managed(REMOVE, n, 5);
            c.row = k / n;
            c.column = k % n;
            prepare_managed(&m, &c, 1);
            put_identities(&m, 5, n);
            check_managed_update("remove", &c, &m, ANY_STEPS, NULL, NULL);
        }
    }
    end_group();
}

/* Diagonals. */

static const struct {
    uint64_t bits;
    uint32_t number;
} pivots[] = {
    {UINT64_C(0x4000000000000000), LUMOD_OK}, /* 2 */
    {UINT64_C(0x8000000000000001), LUMOD_OK}, /* the subnormal next to -0 */
    {UINT64_C(0x000fffffffffffff), LUMOD_OK}, /* the largest subnormal */
    {UINT64_C(0xffefffffffffffff), LUMOD_OK}, /* the least finite double */
    {UINT64_C(0x0000000000000000), LUMOD_SINGULAR},
    {UINT64_C(0x8000000000000000), LUMOD_SINGULAR},
    {UINT64_C(0x7ff0000000000000), LUMOD_NON_FINITE_DIAGONAL}, /* infinities */
    {UINT64_C(0xfff0000000000000), LUMOD_NON_FINITE_DIAGONAL},
    {UINT64_C(0x7ff8000000000000), LUMOD_NON_FINITE_DIAGONAL}, /* quiet NaNs */
    {UINT64_C(0xffffffffffffffff), LUMOD_NON_FINITE_DIAGONAL},
    {UINT64_C(0x7ff0000000000001), LUMOD_NON_FINITE_DIAGONAL}, /* a signalling NaN */
};

/* The right-hand side is the diagonal, so that a solution is all ones. */
static void put_diagonal(struct memory *m, const struct managed *c, const size_t *choice) {
    prepare_managed(m, c, 0);
    put_identities(m, c->c, c->n);
    for (size_t i = 0; i < c->n; i++) {
        memcpy(u_at(m, c->c, i, i), &pivots[choice[i]].bits, sizeof(double));
        memcpy(buffer_at(m, RHS, i), &pivots[choice[i]].bits, sizeof(double));
    }
}

static void check_diagonal(size_t n, const size_t *choice) {
    struct memory m;
    size_t first = 0;
    while (first < n && pivots[choice[first]].number == LUMOD_OK) {
        first++;
    }
    for (int function = SOLVE; function <= SOLVE_TRANSPOSE; function++) {
        struct managed c = make_managed(function, n, 4), after = c;
        put_diagonal(&m, &c, choice);
        if (first == n) {
            check_managed_solve("solve", c, &m, (double[]){1, 1, 1});
        } else {
            after.index = first;
            check_kept("solve", c, &m, pivots[choice[first]].number, after);
        }
    }
    struct managed c = make_managed(READY, n, 4);
    put_diagonal(&m, &c, choice);
    check_ready(c, &m, first == n);
}

/* An infinity and a NaN that are active, but not on U's diagonal. */
static void check_off_diagonal(int function, const double *solution) {
    struct memory m;
    struct managed c = make_managed(function, 2, 4);
    put_diagonal(&m, &c, (size_t[]){0, 0});
    *l_at(&m, 4, 0, 0) = INFINITY;
    *u_at(&m, 4, 0, 1) = NAN;
    if (function == READY) {
        check_ready(c, &m, 0);
    } else {
        check_managed_solve("infinity and NaN beside the diagonal", c, &m, solution);
    }
}

static void diagonals(void) {
    static const size_t some[] = {0, 5, 7};
    begin_group("diagonals: refused solves and their index, readiness");
    for (size_t k = 0; k < COUNT(pivots) * COUNT(pivots); k++) {
        check_diagonal(2, (size_t[]){k / COUNT(pivots), k % COUNT(pivots)});
    }
    for (size_t k = 0; k < 27; k++) {
        check_diagonal(3, (size_t[]){some[k / 9], some[k / 3 % 3], some[k % 3]});
    }
    check_off_diagonal(SOLVE, (double[]){NAN, 1});
    check_off_diagonal(SOLVE_TRANSPOSE, (double[]){NAN, NAN});
    check_off_diagonal(READY, NULL);
    end_group();
}

/* Dimension 0. */

static void check_empty(size_t capacity) {
    static const uint32_t numbers[FUNCTIONS] = {
        [REPLACE_COLUMN] = LUMOD_COLUMN_OUT_OF_BOUNDS,
        [REPLACE_ROW] = LUMOD_ROW_OUT_OF_BOUNDS,
        [REMOVE] = LUMOD_ROW_OUT_OF_BOUNDS,
    };
    struct memory m;
    for (int function = REPLACE_COLUMN; function < READY; function++) {
        struct managed c = make_managed(function, 0, capacity);
        prepare_managed(&m, &c, 0);
        check_kept("dimension 0", c, &m, numbers[function], c);
    }
    check_ready(make_managed(READY, 0, capacity), &m, 1);
}

static void empty(void) {
    struct memory m;
    struct managed push = make_managed(PUSH, 0, 0);
    begin_group("dimension 0 and capacity 0");
    check_empty(0);
    check_empty(1);
    check_empty(4);
    prepare_managed(&m, &push, 0);
    check_kept("capacity 0, push", push, &m, LUMOD_CAPACITY_EXCEEDED, push);
    end_group();
}

/* What the storage holds is not looked at. */
static void adoption(void) {
    struct memory m;
    begin_group("adopted storage");
    for (size_t capacity = 0; capacity <= 4; capacity++) {
        for (size_t n = 0; n <= capacity; n++) {
            struct managed c = make_managed(FROM_STORAGE, n, capacity);
            prepare_managed(&m, &c, 0);
            check_kept("adopt", c, &m, LUMOD_OK, c);
        }
    }
    struct managed c = make_managed(FROM_STORAGE, 2, 3);
    prepare_managed(&m, &c, 2);
    put_l(&m, 3, 2, p_l);
    put_u(&m, 3, 2, p_u);
    check_kept("adopt P", c, &m, LUMOD_OK, c);
    solve_p(c, &m, 2);
    end_group();
}

static double *block(size_t length) {
    double *start = malloc(length * sizeof *start);
    if (!start) {
        abort();
    }
    return start;
}

/* Heap blocks exactly as long as needed and never filled, for a memory
 * checker: no call may read what is not active, or beyond a block. */
static void bare_blocks(void) {
    double *l = block(12), *u = block(6), *y = block(2), *z = block(2), *w = block(2);
    double row[] = {4, 1}, column[] = {6, 8}, rhs[] = {8, 5};
    size_t n = 0, index, moved_row, moved_column, counter = 0, steps;
    uint8_t ready;
    begin_group("heap blocks that were never filled");
    check_number("push",
                 lumod_push(&n, 3, l, 12, u, 6, y, 1, z, 1, w, 1, row, 0, column, 0, 2,
                            &counter, &steps, &index),
                 LUMOD_OK);
    check_number("push",
                 lumod_push(&n, 3, l, 12, u, 6, y, 2, z, 2, w, 2, row, 1, column, 1, 1,
                            &counter, &steps, &index),
                 LUMOD_OK);
    check_number("solve", lumod_solve(n, 3, l, 12, u, 6, rhs, 2, &index), LUMOD_OK);
    check_number("solution is (1,1)", rhs[0] == 1 && rhs[1] == 1, 1);
    rhs[0] = 6, rhs[1] = 7;
    check_number("transpose solve", lumod_solve_transpose(n, 3, l, 12, u, 6, rhs, 2, &index),
                 LUMOD_OK);
    check_number("solution is (1,1)", rhs[0] == 1 && rhs[1] == 1, 1);
    check_number("replace row",
                 lumod_replace_row(n, 3, l, 12, u, 6, y, 2, z, 2, w, 2, 0, (double[]){1, 1}, 2,
                                   &counter, &steps, &index),
                 LUMOD_OK);
    check_number("U is 4,1,0.75", u[0] == 4 && u[1] == 1 && u[3] == 0.75, 1);
    check_number("replace column",
                 lumod_replace_column(n, 3, l, 12, u, 6, y, 2, z, 2, w, 2, 1, column, 2,
                                      &counter, &steps, &index),
                 LUMOD_OK);
    check_number("remove",
                 lumod_remove(&n, 3, l, 12, u, 6, y, 2, z, 2, w, 2, 0, 0, &moved_row,
                              &moved_column, &counter, &steps),
                 LUMOD_OK);
    check_number("ready", lumod_ready(n, 3, l, 12, u, 6, &ready), LUMOD_OK);
    check_number("it is ready, and L * 8 is U", ready == 1 && l[0] * 8 == u[0], 1);
    check_number("*counter: pushes 0 + 1, row 1, column 0, remove 1", counter, 3);
    free(l), free(u), free(y), free(z), free(w);
    end_group();
}

/* The same where data are refused, which are blocks exactly as long too. */
static void bare_refusals(void) {
    double *l = block(12), *u = block(6), *y = block(3), *z = block(3), *w = block(3);
    double *row = block(2), *column = block(2);
    size_t n = 2, index, counter = 0, steps;
    begin_group("heap blocks that were never filled: refused data");
    row[0] = 4, row[1] = 1, column[0] = 6, column[1] = INFINITY;
    check_number("push",
                 lumod_push(&n, 3, l, 12, u, 6, y, 3, z, 3, w, 3, row, 2, column, 2, 1,
                            &counter, &steps, &index),
                 LUMOD_NON_FINITE_DATA);
    check_number("*index", index, 3);
    check_number("replace column",
                 lumod_replace_column(n, 3, l, 12, u, 6, y, 2, z, 2, w, 2, 0, column, 2,
                                      &counter, &steps, &index),
                 LUMOD_NON_FINITE_DATA);
    check_number("*index", index, 1);
    row[0] = NAN;
    check_number("replace row",
                 lumod_replace_row(n, 3, l, 12, u, 6, y, 2, z, 2, w, 2, 1, row, 2, &counter,
                                   &steps, &index),
                 LUMOD_NON_FINITE_DATA);
    check_number("*index", index, 0);
    free(l), free(u), free(y), free(z), free(w), free(row), free(column);
    end_group();
}

/* The same for ready, where the active entries alone are filled. */

static void fill_active(double *l, double *u, size_t n, size_t c) {
    for (size_t k = 0; k < n * n; k++) {
        size_t i = k / n, j = k % n;
        l[i * c + j] = 1;
        if (i <= j) {
            u[i * c - i * (i - 1) / 2 + j - i] = 1;
        }
    }
}

static void check_bare_ready(size_t n, size_t c) {
    size_t l_length = c * (c + 1), u_length = c * (c + 1) / 2;
    double *l = block(l_length), *u = block(u_length);
    uint8_t ready;
    fill_active(l, u, n, c);
    check_number("ready", lumod_ready(n, c, l, l_length, u, u_length, &ready), LUMOD_OK);
    check_number("it is ready", ready, 1);
    free(l), free(u);
}

static void bare_ready(void) {
    begin_group("heap blocks that were never filled: ready");
    for (size_t c = 1; c <= 6; c++) {
        for (size_t n = 0; n <= c; n++) {
            check_bare_ready(n, c);
        }
    }
    end_group();
}

int main(void) {
    /* E is 2^-52. */
    static const struct family managed = {0x1p-52, check_known_update, check_non_finite_update,
                                          check_known_product, check_known_substitution};
    setvbuf(stdout, NULL, _IOLBF, BUFSIZ);
    lengths();
    check_known_results(&managed);
    bench_lists();
    moves();
    diagonals();
    empty();
    adoption();
    bare_blocks();
    bare_refusals();
    bare_ready();
    check_kept_matrix();
    check_counter();
    check_data();
    check_flags();
    check_readiness();
    check_managed_refusals();
    check_cards();
    check_bare_cards();
    check_large_card();
    check_card_bytes();
    check_card_damage();
    check_card_refusals();
    return end_checks();
}
