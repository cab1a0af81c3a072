#include "managed_data.h"

#include <math.h>

#include "managed_calls.h"
#include "managed_doubles.h"

/* Finite data, and a capacity of one more than n. The row or column that is replaced
 * or removed is k, counted round. */
static struct managed prepare_finite(struct memory *m, int function, size_t n, size_t k) {
    struct managed c = prepare_numbered(m, function, n, n + 1);
    c.row = c.column = n > 0 ? k % n : 0;
    return c;
}

/* The same, but every double is a NaN except the data at so many first places. */
static struct managed prepare_nans(struct memory *m, int function, size_t n, size_t places) {
    struct managed c = prepare_finite(m, function, n, places + 1);
    mark_all(m);
    c.diagonal = NAN;
    for (size_t place = 0; place < places; place++) {
        *lent_at(&c, m, place) = (double)place - 2;
    }
    return c;
}

/* The checks of one update at one dimension. */
typedef void check_of_update(int function, size_t n);

/* The updates that are lent data, at small dimensions and at larger ones. */
static void for_every_update(const char *name, check_of_update *check) {
    static const size_t dimensions[] = {1, 2, 3, 4, 7, 12};
    begin_group(name);
    check(PUSH, 0);
    for (size_t k = 0; k < COUNT(dimensions); k++) {
        check(PUSH, dimensions[k]);
        check(REPLACE_ROW, dimensions[k]);
        check(REPLACE_COLUMN, dimensions[k]);
    }
    end_group();
}

/* An accepted call, whatever it computes. */
static void check_accepted(struct managed c, struct memory *m) {
    if (c.function <= REMOVE) {
        check_managed_update(function_names[c.function], &c, m, ANY_STEPS, NULL, NULL);
    } else {
        check_managed_solve(function_names[c.function], c, m, NULL);
    }
}

/* One value that is not finite. */
static void every_place(int function, size_t n) {
    struct memory m;
    struct managed c = make_managed(function, n, n + 1);
    for (size_t k = 0; k < COUNT(non_finite_bits) * lent_values(&c); k++) {
        size_t place = k / COUNT(non_finite_bits);
        c = prepare_finite(&m, function, n, k);
        put_bits(lent_at(&c, &m, place), non_finite_bits[k % COUNT(non_finite_bits)]);
        check_non_finite(function_names[function], c, &m, place);
    }
}

/* Two values that are not finite, an infinity before a NaN and the other way round. */
static void check_two(int function, size_t n, size_t first, size_t second) {
    static const double values[] = {-INFINITY, NAN, INFINITY};
    struct memory m;
    for (size_t k = 0; k + 1 < COUNT(values); k++) {
        struct managed c = prepare_finite(&m, function, n, first + second);
        *lent_at(&c, &m, first) = values[k];
        *lent_at(&c, &m, second) = values[k + 1];
        check_non_finite(function_names[function], c, &m, first);
    }
}

static void every_two_places(int function, size_t n) {
    struct managed c = make_managed(function, n, n + 1);
    for (size_t second = 1; second < lent_values(&c); second++) {
        for (size_t first = 0; first < second; first++) {
            check_two(function, n, first, second);
        }
    }
}

static void nans_from_a_place_on(int function, size_t n) {
    struct memory m;
    struct managed c = make_managed(function, n, n + 1);
    size_t values = lent_values(&c);
    for (size_t place = 0; place < values; place++) {
        c = prepare_nans(&m, function, n, place);
        check_non_finite(function_names[function], c, &m, place);
    }
    check_accepted(prepare_nans(&m, function, n, values), &m);
}

/* One finite value beside ordinary ones. */
static void every_finite_value(int function, size_t n) {
    struct memory m;
    struct managed c = make_managed(function, n, n + 1);
    for (size_t k = 0; k < COUNT(finite_bits) * lent_values(&c); k++) {
        c = prepare_finite(&m, function, n, k);
        put_bits(lent_at(&c, &m, k / COUNT(finite_bits)), finite_bits[k % COUNT(finite_bits)]);
        check_accepted(c, &m);
    }
}

/* The same finite value at every place. */
static void check_alike(int function, size_t n, size_t k) {
    struct memory m;
    struct managed c = prepare_finite(&m, function, n, k);
    for (size_t place = 0; place < lent_values(&c); place++) {
        put_bits(lent_at(&c, &m, place), finite_bits[k]);
    }
    check_accepted(c, &m);
}

static void finite_values_alike(int function, size_t n) {
    for (size_t k = 0; k < COUNT(finite_bits); k++) {
        check_alike(function, n, k);
    }
}

/* The dimension and the capacity of the calls on factors that are not finite. */
enum { N = 3, C = N + 1 };

/* An entry of L, and from N * N on of U, or null where there is none or a solve would
 * divide by it. */
static double *factor_entry(struct memory *m, int function, size_t k) {
    size_t i = k % (N * N) / N, j = k % N;
    if (k < N * N) {
        return l_at(m, C, i, j);
    }
    return i < j || (i == j && function <= REMOVE) ? u_at(m, C, i, j) : NULL;
}

static void check_factor_entries(int function, uint64_t bits) {
    struct memory m;
    for (size_t k = 0; k < 2 * N * N; k++) {
        struct managed c = prepare_finite(&m, function, N, k);
        double *entry = factor_entry(&m, function, k);
        if (entry) {
            put_bits(entry, bits);
            check_accepted(c, &m);
        }
    }
}

static void check_right_hand_sides(int function, uint64_t bits) {
    struct memory m;
    for (size_t place = 0; place < N; place++) {
        struct managed c = prepare_finite(&m, function, N, 0);
        put_bits(buffer_at(&m, RHS, place), bits);
        check_accepted(c, &m);
    }
}

/* A removal is lent no data. */
static void check_removals(void) {
    struct memory m;
    for (size_t k = 0; k < N * N; k++) {
        struct managed c = prepare_nans(&m, REMOVE, N, 0);
        c.row = k / N;
        c.column = k % N;
        check_accepted(c, &m);
    }
}

static void elsewhere(void) {
    begin_group("infinities and NaNs in factors and right-hand sides");
    for (size_t k = 0; k < COUNT(non_finite_bits); k++) {
        for (int function = PUSH; function <= SOLVE_TRANSPOSE; function++) {
            check_factor_entries(function, non_finite_bits[k]);
        }
        check_right_hand_sides(SOLVE, non_finite_bits[k]);
        check_right_hand_sides(SOLVE_TRANSPOSE, non_finite_bits[k]);
    }
    check_removals();
    end_group();
}

void check_data(void) {
    for_every_update("data with an infinity or a NaN: its place", every_place);
    for_every_update("data with two of them: the first place", every_two_places);
    for_every_update("data with NaNs from a place on", nans_from_a_place_on);
    for_every_update("data with a finite value of every size", every_finite_value);
    for_every_update("data that are such a value throughout", finite_values_alike);
    elsewhere();
}
