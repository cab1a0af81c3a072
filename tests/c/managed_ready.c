#include "managed_ready.h"

#include <float.h>
#include <math.h>

#include "managed_calls.h"
#include "managed_doubles.h"

/* Storage is longer than is needed by so many doubles. */
enum { MORE = 3 };

/* A finite number of its own at every place. None is zero. */
static struct managed prepare_ready(struct memory *m, size_t n, size_t c) {
    struct managed call = make_managed(READY, n, c);
    prepare_managed(m, &call, MORE);
    number_all(m);
    return call;
}

/* The places of the storage are counted through l, then u. */
static size_t lent_places(const struct memory *m) { return m->length[L] + m->length[U]; }

static double *storage_at(struct memory *m, size_t place) {
    size_t length = m->length[L];
    return place < length ? buffer_at(m, L, place) : buffer_at(m, U, place - length);
}

static int is_active(struct memory *m, const struct managed *c, const double *entry) {
    for (size_t k = 0; k < c->n * c->n; k++) {
        size_t i = k / c->n, j = k % c->n;
        if (entry == l_at(m, c->c, i, j) || (i <= j && entry == u_at(m, c->c, i, j))) {
            return 1;
        }
    }
    return 0;
}

static int is_diagonal(struct memory *m, const struct managed *c, const double *entry) {
    for (size_t i = 0; i < c->n; i++) {
        if (entry == u_at(m, c->c, i, i)) {
            return 1;
        }
    }
    return 0;
}

/* A call with another double in one place. */
static void check_with(struct managed c, struct memory *m, double *entry, uint64_t bits,
                       uint8_t ready) {
    double before = *entry;
    put_bits(entry, bits);
    check_ready(c, m, ready);
    *entry = before;
}

/* At every place so many infinities and NaNs, and from place to place other ones. */
static void check_non_finite_places(size_t n, size_t c, size_t values) {
    struct memory m;
    struct managed call = prepare_ready(&m, n, c);
    for (size_t k = 0; k < values * lent_places(&m); k++) {
        double *entry = storage_at(&m, k / values);
        uint64_t bits = non_finite_bits[k % COUNT(non_finite_bits)];
        check_with(call, &m, entry, bits, !is_active(&m, &call, entry));
    }
}

static void every_non_finite(size_t n, size_t c) {
    check_non_finite_places(n, c, COUNT(non_finite_bits));
}

static void every_finite(size_t n, size_t c) {
    struct memory m;
    struct managed call = prepare_ready(&m, n, c);
    for (size_t k = 0; k < COUNT(finite_bits) * lent_places(&m); k++) {
        double *entry = storage_at(&m, k / COUNT(finite_bits));
        size_t value = k % COUNT(finite_bits);
        int singular = value < ZEROS && is_diagonal(&m, &call, entry);
        check_with(call, &m, entry, finite_bits[value], !singular);
    }
}

static void put_active(struct memory *m, const struct managed *c, uint64_t bits) {
    for (size_t place = 0; place < lent_places(m); place++) {
        if (is_active(m, c, storage_at(m, place))) {
            put_bits(storage_at(m, place), bits);
        }
    }
}

/* The same finite value at every active entry. */
static void finite_alike(size_t n, size_t c) {
    struct memory m;
    struct managed call = prepare_ready(&m, n, c);
    for (size_t value = 0; value < COUNT(finite_bits); value++) {
        put_active(&m, &call, finite_bits[value]);
        check_ready(call, &m, n == 0 || value >= ZEROS);
    }
}

/* Every double is a NaN except the active entries, also beside the buffers. */
static void only_active_finite(size_t n, size_t c) {
    struct memory m, numbers;
    struct managed call = make_managed(READY, n, c);
    number_all(&numbers);
    for (size_t more = 0; more <= MORE; more++) {
        prepare_managed(&m, &call, more);
        copy_active(&m, &numbers, c, n);
        check_ready(call, &m, 1);
    }
}

/* The checks at one dimension and one capacity. */
typedef void check_of_storage(size_t n, size_t c);

/* Dimensions 0 to 5, each at three capacities. */
static void for_every_capacity(const char *name, check_of_storage *check) {
    begin_group(name);
    for (size_t k = 0; k < 6 * 3; k++) {
        size_t n = k / 3;
        check(n, n + k % 3);
    }
    end_group();
}

static void large_dimensions(void) {
    begin_group("ready: an infinity or a NaN, dimensions 11 to 17");
    check_non_finite_places(11, 13, 1);
    check_non_finite_places(12, 12, 1);
    check_non_finite_places(12, 13, 1);
    check_non_finite_places(16, 17, 1);
    check_non_finite_places(17, 17, 1);
    end_group();
}

/* Whether factors with this entry are not ready. */
static int makes_not_ready(struct memory *m, const struct managed *c, const double *entry) {
    if (isfinite(*entry)) {
        return *entry == 0 && is_diagonal(m, c, entry);
    }
    return is_active(m, c, entry);
}

/* Two of these values that follow one another, either of them first. */
static void check_two(size_t n, size_t first, size_t second) {
    static const double values[] = {INFINITY, -INFINITY, NAN, -0.0};
    struct memory m;
    struct managed c = prepare_ready(&m, n, n + 1);
    double *a = storage_at(&m, first), *b = storage_at(&m, second);
    for (size_t k = 0; k < 2 * (COUNT(values) - 1); k++) {
        *a = values[k / 2 + k % 2];
        *b = values[k / 2 + 1 - k % 2];
        check_ready(c, &m, !makes_not_ready(&m, &c, a) && !makes_not_ready(&m, &c, b));
    }
}

static void every_two_places(size_t n) {
    struct memory m;
    prepare_ready(&m, n, n + 1);
    for (size_t second = 1; second < lent_places(&m); second++) {
        for (size_t first = 0; first < second; first++) {
            check_two(n, first, second);
        }
    }
}

static void two_places(void) {
    begin_group("ready: infinities, NaNs or a zero at two places");
    every_two_places(1);
    every_two_places(2);
    every_two_places(4);
    end_group();
}

/* Storage that is refused, *ready being what it was. */

static const struct {
    size_t n, c, l_length, u_length;
    uint32_t number;
} refusals[] = {
    {4, 3, 12, 6, LUMOD_INVALID_DIMENSION},
    {SIZE_MAX, 3, 12, 6, LUMOD_INVALID_DIMENSION},
    {4, 3, 11, 5, LUMOD_INVALID_DIMENSION},
    {2, (size_t)1 << 32, 12, 6, LUMOD_SIZE_OVERFLOW},
    {2, SIZE_MAX, 12, 6, LUMOD_SIZE_OVERFLOW},
    {SIZE_MAX, SIZE_MAX, 0, 0, LUMOD_SIZE_OVERFLOW},
    {2, 3, 11, 6, LUMOD_INSUFFICIENT_L},
    {2, 3, 9, 6, LUMOD_INSUFFICIENT_L},
    {2, 3, 0, 0, LUMOD_INSUFFICIENT_L},
    {0, 3, 11, 5, LUMOD_INSUFFICIENT_L},
    {2, 3, 12, 5, LUMOD_INSUFFICIENT_U},
    {2, 3, 12, 3, LUMOD_INSUFFICIENT_U},
    {0, 3, 12, 0, LUMOD_INSUFFICIENT_U},
};

static void check_refused(struct memory *m) {
    static const uint8_t before[] = {0, 1, 7};
    for (size_t k = 0; k < COUNT(refusals) * COUNT(before); k++) {
        size_t row = k / COUNT(before);
        struct managed c = make_managed(READY, refusals[row].n, refusals[row].c);
        c.ready = before[k % COUNT(before)];
        m->length[L] = refusals[row].l_length;
        m->length[U] = refusals[row].u_length;
        check_kept("ready", c, m, refusals[row].number, c);
    }
}

static void refused_storage(void) {
    struct memory m;
    begin_group("ready: refused storage, whatever it holds");
    prepare_ready(&m, 2, 3);
    check_refused(&m);
    *u_at(&m, 3, 1, 1) = 0;
    check_refused(&m);
    *l_at(&m, 3, 0, 1) = INFINITY;
    check_refused(&m);
    mark_all(&m);
    check_refused(&m);
    end_group();
}

/* What the answer does not say of solves. */

static const double unit_l[] = {1, 0, 0, 1}, least_u[] = {1, 0, 0x1p-1074};

static const struct {
    const char *what;
    size_t n;
    const double *l, *u, *rhs, *solution, *transposed;
    uint8_t ready;
} solves[] = {
    {.what = "U(0,0) is 2^-1074",
     .n = 1,
     .l = unit_l,
     .u = (const double[]){0x1p-1074},
     .rhs = (const double[]){1},
     .solution = (const double[]){INFINITY},
     .transposed = (const double[]){INFINITY},
     .ready = 1},
    {.what = "U(0,0) is 2^-1074, and L(0,0) is 0",
     .n = 1,
     .l = (const double[]){0},
     .u = (const double[]){0x1p-1074},
     .rhs = (const double[]){1},
     .solution = (const double[]){0},
     .transposed = (const double[]){NAN},
     .ready = 1},
    {.what = "U(1,1) is 2^-1074",
     .n = 2,
     .l = unit_l,
     .u = least_u,
     .rhs = (const double[]){1, 1},
     .solution = (const double[]){NAN, INFINITY},
     .transposed = (const double[]){NAN, INFINITY},
     .ready = 1},
    {.what = "L(0,0) is the largest double, and L(0,1) its negative",
     .n = 2,
     .l = (const double[]){DBL_MAX, -DBL_MAX, 0, 1},
     .u = (const double[]){1, 0, 1},
     .rhs = (const double[]){2, 2},
     .solution = (const double[]){NAN, 2},
     .transposed = (const double[]){INFINITY, -INFINITY},
     .ready = 1},
    {.what = "L(2,0) is an infinity",
     .n = 3,
     .l = (const double[]){1, 0, 0, 0, 1, 0, INFINITY, 0, 1},
     .u = (const double[]){1, 1, 1, 1, 1, 1},
     .rhs = (const double[]){0, 1, 1},
     .solution = (const double[]){NAN, NAN, NAN},
     .transposed = (const double[]){NAN, 1, 0},
     .ready = 0},
    {.what = "U(0,2) is a NaN",
     .n = 3,
     .l = (const double[]){1, 0, 0, 0, 1, 0, 0, 0, 1},
     .u = (const double[]){1, 1, NAN, 1, 1, 1},
     .rhs = (const double[]){2, 2, 1},
     .solution = (const double[]){NAN, 1, 1},
     .transposed = (const double[]){NAN, NAN, NAN},
     .ready = 0},
};

static struct managed prepare_solve(struct memory *m, int function, size_t row, size_t c) {
    struct managed call = make_managed(function, solves[row].n, c);
    prepare_managed(m, &call, 0);
    put_l(m, c, call.n, solves[row].l);
    put_u(m, c, call.n, solves[row].u);
    put(m, RHS, call.n, solves[row].rhs);
    return call;
}

static void check_solves(size_t row, size_t c) {
    struct memory m;
    check_ready(prepare_solve(&m, READY, row, c), &m, solves[row].ready);
    check_managed_solve(solves[row].what, prepare_solve(&m, SOLVE, row, c), &m,
                        solves[row].solution);
    check_managed_solve(solves[row].what, prepare_solve(&m, SOLVE_TRANSPOSE, row, c), &m,
                        solves[row].transposed);
}

/* Finite pushes leave the identity and `least_u`. */
static void push_least(void) {
    struct memory m;
    struct managed c = make_managed(PUSH, 0, 2);
    prepare_managed(&m, &c, 0);
    c.diagonal = 1;
    check_managed_update("push d 1", &c, &m, 0, unit_l, least_u);
    prepare_next(&m, &c, 0);
    put(&m, ROW, 1, (double[]){0});
    put(&m, COLUMN, 1, (double[]){0});
    c.diagonal = 0x1p-1074;
    check_managed_update("push row (0), column (0), d 2^-1074", &c, &m, 0, unit_l, least_u);
}

static void not_promised(void) {
    begin_group("ready: solves that overflow, solves on other factors");
    for (size_t k = 0; k < COUNT(solves) * 2; k++) {
        check_solves(k / 2, solves[k / 2].n + k % 2);
    }
    push_least();
    end_group();
}

void check_readiness(void) {
    for_every_capacity("ready: an infinity or a NaN at every place", every_non_finite);
    large_dimensions();
    two_places();
    for_every_capacity("ready: a finite value of every size at every place", every_finite);
    for_every_capacity("ready: one finite value at all active entries", finite_alike);
    for_every_capacity("ready: NaNs at all other places", only_active_finite);
    refused_storage();
    not_promised();
}
