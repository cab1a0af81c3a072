/*
 * Tests of LUmod, Lprod and Usolve from C: known results, the modes that are
 * transposed, any diagonal, and every refusal. The last line counts the checks.
 * The exit status is 1 where one failed.
 */
#include <math.h>
#include <stdio.h>
#include <stdlib.h>

#include "known_results.h"
#include "zero_based_calls.h"
#include "zero_based_refusals.h"

/* Buffers just as long as is needed, and longer ones. */
static const size_t more_doubles[] = {0, 3};

static struct call call_of(const struct update *u) {
    struct call c = make_call(u->kind, (int32_t)u->capacity, (int32_t)u->n);
    c.n += u->kind == PUSH;
    c.krow = (int32_t)u->row;
    c.kcol = (int32_t)u->column;
    return c;
}

static void put_data(struct memory *m, const struct update *u) {
    if (u->row_data) {
        put(m, Y, u->n, u->row_data);
    }
    if (u->column_data) {
        put(m, Z, u->n, u->column_data);
    }
    if (u->kind == PUSH) {
        *buffer_at(m, Y, u->n) = u->diagonal;
    }
}

static void check_known_update(const struct update *u) {
    struct memory m;
    struct call c = call_of(u);
    for (size_t k = 0; k < COUNT(more_doubles); k++) {
        prepare(&m, c, more_doubles[k]);
        put_l(&m, u->capacity, u->n, u->before.l);
        put_u(&m, u->capacity, u->n, u->before.u);
        put_data(&m, u);
        check_update(u->what, c, &m, u->after.l, u->after.u);
    }
}

/* Data that are not finite are computed with, wherever they are. */
static void check_non_finite_update(const struct update *u, size_t place) {
    (void)place;
    check_known_update(u);
}

static void check_half_solve(const struct half_solve *h, int factor, int32_t mode) {
    struct memory m;
    struct call c = make_call(mode, (int32_t)h->capacity, (int32_t)h->n);
    for (size_t k = 0; k < COUNT(more_doubles); k++) {
        prepare(&m, c, more_doubles[k]);
        put(&m, Y, h->n, h->vector);
        if (factor == L) {
            put_l(&m, h->capacity, h->n, h->factor);
            check_product(h->what, c, &m, h->result);
        } else {
            put_u(&m, h->capacity, h->n, h->factor);
            check_solve(h->what, c, &m, h->result);
        }
    }
}

/* Mode 1 is plain, any other mode transposed. */
static void check_in_every_mode(const struct half_solve *h, int factor) {
    static const int32_t transposed[] = {2, 0, -1, 3, 257, INT32_MIN, INT32_MAX};
    if (!h->transposed) {
        check_half_solve(h, factor, 1);
        return;
    }
    for (size_t k = 0; k < COUNT(transposed); k++) {
        check_half_solve(h, factor, transposed[k]);
    }
}

static void check_known_product(const struct half_solve *h) { check_in_every_mode(h, L); }

static void check_known_substitution(const struct half_solve *h) { check_in_every_mode(h, U); }

static void bench_solves(void) {
    struct memory m;
    struct call plain = make_call(1, 3, 2), transposed = make_call(2, 3, 2);
    begin_group("bench table: solves");
    prepare(&m, plain, 1);
    put_l(&m, 3, 2, p_l);
    put_u(&m, 3, 2, p_u);
    put(&m, Y, 2, (double[]){8, 5});
    check_product("P, L product of (8,5)", plain, &m, (double[]){5, 5.5});
    put(&m, Y, 2, buffer_at(&m, Z, 0));
    check_solve("P, solve (8,5)", plain, &m, (double[]){1, 1});
    put(&m, Y, 2, (double[]){6, 7});
    check_solve("P, solve (6,7) with U transposed", transposed, &m, (double[]){1.5, 1});
    check_product("P, transpose solve (6,7)", transposed, &m, (double[]){1, 1});
    end_group();
}

static void diagonals(void) {
    static const double pivots[] = {0, -0.0, INFINITY, -INFINITY, 49};
    static const double rhs[] = {5, 5, 5, 5, 49};
    static const double solutions[] = {INFINITY, -INFINITY, 0, -0.0, 1};
    begin_group("a solve divides by any diagonal entry");
    for (size_t k = 0; k < COUNT(pivots); k++) {
        for (int32_t mode = 1; mode <= 2; mode++) {
            check_half_solve(&(struct half_solve){"solve", mode == 2, 2, 1, &pivots[k], &rhs[k],
                                                  &solutions[k]},
                             U, mode);
        }
    }
    end_group();
}

/* Heap blocks exactly as long as needed and never filled, for a memory
 * checker: no call may read what is not active, or beyond a block. */
static void bare_blocks(void) {
    double *l = malloc(9 * sizeof *l), *u = malloc(6 * sizeof *u);
    double *y = malloc(2 * sizeof *y), *z = malloc(2 * sizeof *z), *w = malloc(2 * sizeof *w);
    begin_group("heap blocks that were never filled");
    if (!l || !u || !y || !z || !w) {
        abort();
    }
    y[0] = 2;
    check_number("push", LUmod(1, 3, 1, 0, 0, l, 9, u, 6, y, 1, z, 1, w, 1), LUMOD_OK);
    y[0] = 4, y[1] = 1, z[0] = 6;
    check_number("push", LUmod(1, 3, 2, 0, 0, l, 9, u, 6, y, 2, z, 2, w, 2), LUMOD_OK);
    y[0] = 8, y[1] = 5;
    check_number("product", Lprod(1, 3, 2, l, 9, y, 2, z, 2), LUMOD_OK);
    check_number("solve", Usolve(1, 3, 2, u, 6, z, 2), LUMOD_OK);
    check_number("solution is (1,1)", z[0] == 1 && z[1] == 1, 1);
    z[0] = 1, z[1] = 8;
    check_number("replace column", LUmod(2, 3, 2, 0, 0, l, 9, u, 6, y, 2, z, 2, w, 2),
                 LUMOD_OK);
    check_number("U is 8,1,5.875", u[0] == 8 && u[1] == 1 && u[3] == 5.875, 1);
    y[0] = 3, y[1] = 1;
    check_number("replace row", LUmod(3, 3, 2, 1, 0, l, 9, u, 6, y, 2, z, 2, w, 2), LUMOD_OK);
    check_number("remove", LUmod(4, 3, 2, 0, 0, l, 9, u, 6, y, 2, z, 2, w, 2), LUMOD_OK);
    check_number("L * 1 is U", l[0] == u[0], 1);
    free(l), free(u), free(y), free(z), free(w);
    end_group();
}

int main(void) {
    static const struct family zero_based = {2.22e-16, check_known_update,
                                             check_non_finite_update, check_known_product,
                                             check_known_substitution};
    setvbuf(stdout, NULL, _IOLBF, BUFSIZ);
    check_known_results(&zero_based);
    bench_solves();
    diagonals();
    bare_blocks();
    check_zero_based_refusals();
    return end_checks();
}
