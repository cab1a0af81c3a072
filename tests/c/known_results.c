#include "known_results.h"

#include <float.h>
#include <math.h>

#include "checked_memory.h"

const double p_l[4] = {0, 1, 1, -0.5}, p_u[3] = {4, 1, 5.5};
static const double unit[] = {1, 0, 0, 1};

/* The capacity is put in later. */
static const struct update bench_updates[] = {
    {.what = "empty, push d 2",
     .kind = PUSH,
     .diagonal = 2,
     .after = {unit, (const double[]){2}}},
    {.what = "push row (4), column (6), d 1",
     .kind = PUSH,
     .n = 1,
     .row_data = (const double[]){4},
     .column_data = (const double[]){6},
     .diagonal = 1,
     .steps = 1,
     .before = {unit, (const double[]){2}},
     .after = {p_l, p_u}},
    {.what = "P, replace column 0 by (1,8)",
     .kind = REPLACE_COLUMN,
     .n = 2,
     .column_data = (const double[]){1, 8},
     .steps = 1,
     .before = {p_l, p_u},
     .after = {(const double[]){0, 1, 1, -0.125}, (const double[]){8, 1, 5.875}}},
    {.what = "P, replace row 0 by (1,1)",
     .kind = REPLACE_ROW,
     .n = 2,
     .row_data = (const double[]){1, 1},
     .steps = 1,
     .before = {p_l, p_u},
     .after = {(const double[]){0, 1, 1, -0.25}, (const double[]){4, 1, 0.75}}},
    {.what = "P, remove 1, 1",
     .kind = REMOVE,
     .n = 2,
     .row = 1,
     .column = 1,
     .steps = 1,
     .before = {p_l, p_u},
     .after = {unit, (const double[]){2}}},
};

static void bench_table(const struct family *f) {
    static const size_t capacities[] = {2, 3, 5};
    begin_group("bench table: updates");
    for (size_t k = 0; k < COUNT(capacities); k++) {
        for (size_t j = 0; j < COUNT(bench_updates); j++) {
            struct update u = bench_updates[j];
            u.capacity = capacities[k];
            f->check_update(&u);
        }
    }
    end_group();
}

/* A push on factors of dimension 1 with L = 1 and U = pivot. */
static void push_on(const struct family *f, const char *what, double pivot, double row,
                    double column, double d, size_t steps, const double *l, const double *u) {
    f->check_update(&(struct update){.what = what,
                                     .kind = PUSH,
                                     .capacity = 3,
                                     .n = 1,
                                     .row_data = &row,
                                     .column_data = &column,
                                     .diagonal = d,
                                     .steps = steps,
                                     .before = {unit, &pivot},
                                     .after = {l, u}});
}

/* Row 0 of factors of dimension 2 replaced. */
static void replace_row(const struct family *f, const char *what, const double *before_l,
                        const double *before_u, const double *row, size_t steps,
                        const double *l, const double *u) {
    f->check_update(&(struct update){.what = what,
                                     .kind = REPLACE_ROW,
                                     .capacity = 3,
                                     .n = 2,
                                     .row_data = row,
                                     .steps = steps,
                                     .before = {before_l, before_u},
                                     .after = {l, u}});
}

static void pairs(const struct family *f) {
    begin_group("bench table: pair steps");
    push_on(f, "pair 4, 2", 4, 2, 0, 1, 1, (double[]){1, 0, -0.5, 1}, (double[]){4, 0, 1});
    push_on(f, "pair 1, -2", 1, -2, 3, 4, 1, (double[]){0, 1, 1, 0.5}, (double[]){-2, 4, 5});
    push_on(f, "pair 3, -3", 3, -3, 1, 1, 1, (double[]){1, 0, 1, 1}, (double[]){3, 1, 2});
    replace_row(f, "pair NaN, 0", (double[]){0, 1, NAN, 2}, (double[]){2, 3, 5},
                (double[]){4, 8}, 2, (double[]){1, 0, -0.5, 1}, (double[]){4, 8, -1});
    end_group();
}

static void guards_at_nan(const struct family *f) {
    begin_group("a NaN passes Forward untouched, not Backward");
    push_on(f, "pivot NaN", NAN, 4, 6, 1, 0, unit, (double[]){NAN, 6, 1});
    replace_row(f, "L(0,0) NaN", (double[]){NAN, 1, 1, 0}, (double[]){2, 3, 5},
                (double[]){7, 8}, 1, (double[]){NAN, NAN, 1, 0}, (double[]){NAN, NAN, 8});
    replace_row(f, "L(1,0) NaN", (double[]){1, 0, NAN, 1}, (double[]){2, 3, 5},
                (double[]){7, 8}, 1, (double[]){NAN, NAN, 1, 0}, (double[]){NAN, NAN, 8});
    end_group();
}

/* Finite data on factors of dimension 2 that hold infinities and NaNs. The
 * capacity is put in later. */
static const struct update updates_of_non_finite_factors[] = {
    {.what = "push, U(0,1) NaN, which makes the row NaN and passes Forward",
     .kind = PUSH,
     .row_data = (const double[]){1, 4},
     .column_data = (const double[]){6, 7},
     .diagonal = 5,
     .steps = 1,
     .before = {unit, (const double[]){1, NAN, 2}},
     .after = {(const double[]){1, 0, 0, 0, 1, 0, -1, 0, 1},
               (const double[]){1, NAN, 6, 2, 7, -1}}},
    {.what = "push, L(0,1) NaN, which makes U(0,2) NaN",
     .kind = PUSH,
     .row_data = (const double[]){1, 0},
     .column_data = (const double[]){6, 7},
     .diagonal = 5,
     .steps = 1,
     .before = {(const double[]){1, NAN, 0, 1}, (const double[]){1, 0, 2}},
     .after = {(const double[]){1, NAN, 0, 0, 1, 0, -1, NAN, 1},
               (const double[]){1, 0, NAN, 2, 7, NAN}}},
    {.what = "push, U(0,1) infinite, which makes the row infinite",
     .kind = PUSH,
     .row_data = (const double[]){1, 4},
     .column_data = (const double[]){6, 7},
     .diagonal = 5,
     .steps = 2,
     .before = {unit, (const double[]){1, INFINITY, 2}},
     .after = {(const double[]){1, 0, 0, -1, 0, 1, 0, 1, 0},
               (const double[]){1, INFINITY, 6, -INFINITY, -1, 7}}},
    {.what = "replace column 0, L(1,1) NaN, which passes Forward",
     .kind = REPLACE_COLUMN,
     .column_data = (const double[]){3, 4},
     .before = {(const double[]){1, 0, 0, NAN}, (const double[]){2, 3, 5}},
     .after = {(const double[]){1, 0, 0, NAN}, (const double[]){3, 3, 5}}},
    {.what = "replace column 0, L(1,1) infinite",
     .kind = REPLACE_COLUMN,
     .column_data = (const double[]){3, 4},
     .steps = 1,
     .before = {(const double[]){1, 0, 0, INFINITY}, (const double[]){2, 3, 5}},
     .after = {(const double[]){0, INFINITY, 1, 0}, (const double[]){INFINITY, 5, 3}}},
    {.what = "replace column 1, L(0,0) NaN",
     .kind = REPLACE_COLUMN,
     .column = 1,
     .column_data = (const double[]){3, 4},
     .before = {(const double[]){NAN, 1, 0, 1}, (const double[]){2, 3, 5}},
     .after = {(const double[]){NAN, 1, 0, 1}, (const double[]){2, NAN, 4}}},
    {.what = "replace column 1, L(0,0) infinite times 0",
     .kind = REPLACE_COLUMN,
     .column = 1,
     .column_data = (const double[]){0, 4},
     .before = {(const double[]){INFINITY, 1, 0, 1}, (const double[]){2, 3, 5}},
     .after = {(const double[]){INFINITY, 1, 0, 1}, (const double[]){2, NAN, 4}}},
    {.what = "remove 1, 1, L(1,0) NaN",
     .kind = REMOVE,
     .row = 1,
     .column = 1,
     .steps = 1,
     .before = {(const double[]){1, 2, NAN, 1}, (const double[]){2, 3, 5}},
     .after = {(const double[]){NAN}, (const double[]){-1}}},
    {.what = "remove 0, 0, U(0,1) NaN",
     .kind = REMOVE,
     .steps = 1,
     .before = {(const double[]){1, 0, 1, 1}, (const double[]){2, NAN, 5}},
     .after = {(const double[]){-1}, (const double[]){NAN}}},
    {.what = "remove 1, 1, U(0,0) infinite",
     .kind = REMOVE,
     .row = 1,
     .column = 1,
     .before = {unit, (const double[]){-INFINITY, 3, 5}},
     .after = {unit, (const double[]){-INFINITY}}},
};

static void non_finite_factors(const struct family *f) {
    begin_group("infinities and NaNs in the factors");
    for (size_t k = 0; k < COUNT(updates_of_non_finite_factors); k++) {
        struct update u = updates_of_non_finite_factors[k];
        u.capacity = 3;
        u.n = 2;
        f->check_update(&u);
    }
    end_group();
}

/* Data that are not finite, and the first place where they are not. The capacity
 * is put in later. */
static const struct {
    struct update update;
    size_t place;
} updates_by_non_finite_data[] = {
    {{.what = "empty, push d -infinity",
      .kind = PUSH,
      .diagonal = -INFINITY,
      .after = {unit, (const double[]){-INFINITY}}},
     0},
    {{.what = "push row (NaN), which passes Forward",
      .kind = PUSH,
      .n = 1,
      .row_data = (const double[]){NAN},
      .column_data = (const double[]){6},
      .diagonal = 1,
      .before = {unit, (const double[]){2}},
      .after = {unit, (const double[]){2, 6, 1}}},
     0},
    {{.what = "push row (infinity), d infinity, where m is -0 and not applied",
      .kind = PUSH,
      .n = 1,
      .row_data = (const double[]){INFINITY},
      .column_data = (const double[]){6},
      .diagonal = INFINITY,
      .before = {unit, (const double[]){2}},
      .after = {(const double[]){0, 1, 1, 0}, (const double[]){INFINITY, INFINITY, 6}}},
     0},
    {{.what = "push column (-infinity)",
      .kind = PUSH,
      .n = 1,
      .row_data = (const double[]){4},
      .column_data = (const double[]){-INFINITY},
      .diagonal = 1,
      .before = {unit, (const double[]){2}},
      .after = {p_l, (const double[]){4, 1, -INFINITY}}},
     1},
    {{.what = "push d NaN",
      .kind = PUSH,
      .n = 1,
      .row_data = (const double[]){4},
      .column_data = (const double[]){6},
      .diagonal = NAN,
      .before = {unit, (const double[]){2}},
      .after = {p_l, (const double[]){4, NAN, NAN}}},
     2},
    {{.what = "P, replace row 0 by (1,NaN)",
      .kind = REPLACE_ROW,
      .n = 2,
      .row_data = (const double[]){1, NAN},
      .before = {p_l, p_u},
      .after = {(const double[]){0, 1, 1, -0.25}, (const double[]){4, 1, NAN}}},
     1},
    {{.what = "P, replace row 0 by (infinity,1)",
      .kind = REPLACE_ROW,
      .n = 2,
      .row_data = (const double[]){INFINITY, 1},
      .before = {p_l, p_u},
      .after = {unit, (const double[]){INFINITY, 1, 1}}},
     0},
    {{.what = "P, replace column 0 by (infinity,8)",
      .kind = REPLACE_COLUMN,
      .n = 2,
      .column_data = (const double[]){INFINITY, 8},
      .before = {p_l, p_u},
      .after = {p_l, (const double[]){NAN, 1, 5.5}}},
     0},
    {{.what = "P, replace column 1 by (1,NaN)",
      .kind = REPLACE_COLUMN,
      .n = 2,
      .column = 1,
      .column_data = (const double[]){1, NAN},
      .before = {p_l, p_u},
      .after = {p_l, (const double[]){4, NAN, NAN}}},
     1},
};

static void non_finite_data(const struct family *f) {
    begin_group("infinities and NaNs in the data");
    for (size_t k = 0; k < COUNT(updates_by_non_finite_data); k++) {
        struct update u = updates_by_non_finite_data[k].update;
        u.capacity = 3;
        f->check_non_finite(&u, updates_by_non_finite_data[k].place);
    }
    end_group();
}

/* A step whose multiplier is zero is made too. */
static void forward_tolerances(const struct family *f) {
    double e = f->e, above_e = nextafter(e, 1);
    double t = e * 0.0001, above_t = nextafter(t, 1);
    begin_group("Forward at E and T");
    push_on(f, "row at E", 1, e, 0, 1, 0, unit, (double[]){1, 0, 1});
    push_on(f, "row above E", 1, above_e, 0, 1, 1, (double[]){1, 0, -above_e, 1},
            (double[]){1, 0, 1});
    push_on(f, "pivot at T", t, t / 2, 3, 1, 1, unit, (double[]){0, 3, 1});
    push_on(f, "pivot above T", above_t, above_t / 2, 3, 1, 1, (double[]){1, 0, -0.5, 1},
            (double[]){above_t, 3, -0.5});
    push_on(f, "pivot 0, row 2^-80", 0, 0x1p-80, 3, 1, 1, unit, (double[]){0, 3, 1});
    push_on(f, "pivot 0, row at T", 0, t, 3, 1, 1, unit, (double[]){0, 3, 1});
    push_on(f, "pivot T / 2, row at T", t / 2, t, 3, 1, 1, unit, (double[]){0, 3, 1});
    push_on(f, "pivot 0, row above T", 0, above_t, 3, 1, 1, (double[]){0, 1, 1, 0},
            (double[]){above_t, 1, 3});
    push_on(f, "pivot 0, row 1", 0, 1, 3, 1, 1, (double[]){0, 1, 1, 0}, (double[]){1, 1, 3});
    end_group();
}

static void backward_tolerances(const struct family *f) {
    double e = f->e, above_e = nextafter(e, 1);
    const double *u = (double[]){2, 0, 5}, *row = (double[]){0, 8};
    begin_group("Backward at E: the end that is trimmed, the row");
    replace_row(f, "end at E", (double[]){1, 0, e, 1}, u, row, 0, unit, (double[]){0, 8, 5});
    replace_row(f, "end above E", (double[]){1, 0, above_e, 1}, u, row, 1,
                (double[]){0, 1, 1, 0}, (double[]){-2 * above_e, 5, 8});
    replace_row(f, "row at E", (double[]){e, 0, 1, 1}, u, row, 0, (double[]){0, 0, 1, 0},
                (double[]){2, 0, 8});
    replace_row(f, "row above E", (double[]){above_e, 0, 1, 1}, u, row, 1,
                (double[]){0, -above_e, 1, 0}, (double[]){2, -5 * above_e, 8});
    end_group();
}

/* Finite data. The row overflows to infinities, which are computed with. */
static const struct update overflow = {
    .what = "overflow, where m is -0 and not applied",
    .kind = PUSH,
    .capacity = 3,
    .n = 2,
    .row_data = (const double[]){1, DBL_MAX},
    .column_data = (const double[]){-DBL_MAX, 6},
    .diagonal = DBL_MAX,
    .steps = 2,
    .before = {unit, (const double[]){1, -DBL_MAX, 2}},
    .after = {(const double[]){1, 0, 0, -1, 0, 1, 0, 1, 0},
              (const double[]){1, -DBL_MAX, -DBL_MAX, INFINITY, INFINITY, 6}},
};

static void rounding(const struct family *f) {
    begin_group("two roundings, zeros and infinities, large and small");
    push_on(f, "m * first is rounded", 3, 1, 3, 1, 1, (double[]){1, 0, -1.0 / 3, 1},
            (double[]){3, 3, 0});
    push_on(f, "pivot -0, row -0, d -0", -0.0, -0.0, 2, -0.0, 0, unit,
            (double[]){-0.0, 2, -0.0});
    push_on(f, "largest doubles", DBL_MAX, DBL_MAX, -DBL_MAX, -DBL_MAX, 1,
            (double[]){1, 0, -1, 1}, (double[]){DBL_MAX, -DBL_MAX, 0});
    push_on(f, "subnormals", 0x1p-1074, -0x1p-1074, 0x0.fffffffffffffp-1022, -0x1p-1074, 1,
            unit, (double[]){0, 0x0.fffffffffffffp-1022, -0x1p-1074});
    f->check_update(&overflow);
    end_group();
}

/* Small whole numbers whose results are small binary fractions. */
static const double m_l[] = {0, 2, 0, 0, -1, -1, 3, -2, 2};
static const double m_u[] = {2, -2, 1, 2, 2, 0};
static const double m_data[] = {-2, -2, 3};

static const struct update updates_of_three[] = {
    {.what = "replace row 1",
     .kind = REPLACE_ROW,
     .row = 1,
     .row_data = m_data,
     .steps = 4,
     .before = {m_l, m_u},
     .after = {(const double[]){3, 0, 2, 3, 1, 2, 0, 0.5, -1},
               (const double[]){2, -2, 1, -4, 4, 4}}},
    {.what = "replace column 0",
     .kind = REPLACE_COLUMN,
     .column_data = m_data,
     .steps = 3,
     .before = {m_l, m_u},
     .after = {(const double[]){0, 2, 0, 0.75, -1.5, -0.5, 3.75, -1.5, 1.5},
               (const double[]){-4, -2, 1, 2, 2, 3}}},
    {.what = "remove 0, 0",
     .kind = REMOVE,
     .steps = 1,
     .before = {m_l, m_u},
     .after = {(const double[]){-1, -1, 0.5, 2.5}, (const double[]){2, 2, -3}}},
    {.what = "remove 2, 1",
     .kind = REMOVE,
     .row = 2,
     .column = 1,
     .steps = 1,
     .before = {m_l, m_u},
     .after = {(const double[]){0, 2, 1.5, -2}, (const double[]){2, 1, 2}}},
    {.what = "remove 1, 2, where L's column 1 ends in a zero, which Backward does not trim",
     .kind = REMOVE,
     .row = 1,
     .column = 2,
     .steps = 1,
     .before = {(const double[]){1, 0, 0, 0, 1, 0, 0, 0, 1},
                (const double[]){2, 3, 5, 7, 11, 13}},
     .after = {unit, (const double[]){2, 3, 0}}},
    {.what = "replace row 1, where L's column 1 ends in a zero, which Backward trims",
     .kind = REPLACE_ROW,
     .row = 1,
     .row_data = (const double[]){4, 4, -4},
     .steps = 2,
     .before = {(const double[]){-2, -1, 0, 4, -2, -2, -1, 0, -1},
                (const double[]){-2, 2, 4, -1, -4, 1}},
     .after = {(const double[]){0, 1, 0, -4, 0.5, 1, -1, 0, -1},
               (const double[]){4, 4, -4, 4.5, 4, 1}}},
    {.what = "replace row 0, where Backward skips row 1 and dense(1) becomes +0",
     .kind = REPLACE_ROW,
     .row_data = (const double[]){0, 0, 7},
     .steps = 1,
     .before = {(const double[]){1, 2, 3, 0, 4, 5, 1, 6, 7},
                (const double[]){1, 2, 3, 4, 5, 6}},
     .after = {(const double[]){0, -4, -4, 0, 4, 5, 1, 0, 0},
               (const double[]){1, 2, -3, 4, 5, 7}}},
};

static void dimension_three(const struct family *f) {
    begin_group("dimension 3: exchanges, moves, trimming, a skipped row");
    for (size_t k = 0; k < COUNT(updates_of_three); k++) {
        struct update u = updates_of_three[k];
        u.capacity = 4;
        u.n = 3;
        f->check_update(&u);
    }
    end_group();
}

/* Dimension 5. The digits of a product by powers of ten are the entries of L. */
static const double digits[] = {1, 2, 3, 4, 5, 6, 7, 8, 9, 1, 2, 3, 4,
                                5, 6, 7, 8, 9, 1, 2, 3, 4, 5, 6, 7};
static const double triangle[] = {1, 2, 0, 1, 3, 1, 1, 2, 0, 2, 1, 1, 1, 2, 4};
static const double powers_of_ten[] = {1, 10, 100, 1000, 10000};
static const double triangle_solution[] = {1, -2, 3, 5, -1};

/* From 0 upward 1 + 1e16 - 1e16 is 0, the other way it is 1. */
static const double ones[] = {1, 1, 1, 1, 1, 1, 1, 1, 1, 1, 1, 1, 1, 1, 1, 1};
static const double ones_in_row[] = {1, 1, 1, 1, 1, 0, 0, 1, 0, 1};
static const double ones_in_column[] = {1, 0, 0, 1, 1, 0, 1, 1, 1, 1};
static const double terms[] = {1, 1e16, -1e16, 3};
static const double terms_after[] = {3, 1, 1e16, -1e16};
static const double threes[] = {3, 3, 3, 3}, zeros[] = {0, 0};
static const double negative_zeros[] = {-0.0, -0.0};
static const double two[] = {2}, one_and_two[] = {1, 2}, zero_and_two[] = {0, 2};
static const double positive_infinity[] = {INFINITY}, negative_infinity[] = {-INFINITY};
static const double not_a_number[] = {NAN};

static const struct half_solve products[] = {
    {"plain", 0, 6, 5, digits, powers_of_ten,
     (const double[]){54321, 19876, 65432, 21987, 76543}},
    {"transposed", 1, 6, 5, digits, powers_of_ten,
     (const double[]){37261, 48372, 59483, 61594, 72615}},
    {"plain, sums go upward", 0, 4, 4, ones, terms, threes},
    {"transposed, sums go upward", 1, 4, 4, ones, terms, threes},
    {"plain, sums start at +0", 0, 4, 2, unit, negative_zeros, zeros},
    {"transposed, sums start at +0", 1, 4, 2, unit, negative_zeros, zeros},
    {"plain, b infinite", 0, 3, 1, two, positive_infinity, positive_infinity},
    {"transposed, b infinite", 1, 3, 1, two, negative_infinity, negative_infinity},
    {"plain, b NaN", 0, 3, 1, two, not_a_number, not_a_number},
    {"transposed, b NaN", 1, 3, 1, two, not_a_number, not_a_number},
    {"plain, L(0,0) infinite", 0, 3, 2, (const double[]){INFINITY, 1, 1, 1}, one_and_two,
     (const double[]){INFINITY, 3}},
    {"transposed, L(0,0) NaN", 1, 3, 2, (const double[]){NAN, 1, 1, 1}, one_and_two,
     (const double[]){NAN, 3}},
    {"plain, L(0,0) infinite times 0", 0, 3, 2, (const double[]){INFINITY, 1, 1, 1},
     zero_and_two, (const double[]){NAN, 2}},
    {"transposed, L(0,0) infinite times 0", 1, 3, 2, (const double[]){-INFINITY, 1, 1, 1},
     zero_and_two, (const double[]){NAN, 2}},
    {"plain, 0 times b infinite", 0, 3, 1, zeros, positive_infinity, not_a_number},
    {"transposed, 0 times b infinite", 1, 3, 1, zeros, negative_infinity, not_a_number},
};

static const struct half_solve substitutions[] = {
    {"plain", 0, 6, 5, triangle, (const double[]){-1, 11, 10, 3, -4}, triangle_solution},
    {"transposed", 1, 6, 5, triangle, (const double[]){1, 0, 4, 5, 12}, triangle_solution},
    {"plain, sums go upward", 0, 4, 4, ones_in_row, terms_after, terms_after},
    {"transposed, sums go upward", 1, 4, 4, ones_in_column, terms, terms},
    {"plain, b infinite", 0, 3, 1, two, negative_infinity, negative_infinity},
    {"transposed, b infinite", 1, 3, 1, two, positive_infinity, positive_infinity},
    {"plain, b NaN", 0, 3, 1, two, not_a_number, not_a_number},
    {"transposed, b NaN", 1, 3, 1, two, not_a_number, not_a_number},
    {"plain, U(0,1) infinite", 0, 3, 2, (const double[]){1, INFINITY, 1}, one_and_two,
     (const double[]){-INFINITY, 2}},
    {"plain, U(0,1) NaN", 0, 3, 2, (const double[]){1, NAN, 1}, one_and_two,
     (const double[]){NAN, 2}},
    {"plain, U(0,1) infinite times 0", 0, 3, 2, (const double[]){1, INFINITY, 1},
     (const double[]){5, 0}, (const double[]){NAN, 0}},
};

static void half_solves(const struct family *f) {
    begin_group("products with L, and the order of their sums");
    for (size_t k = 0; k < COUNT(products); k++) {
        f->check_product(&products[k]);
    }
    end_group();
    begin_group("substitutions with U, and the order of their sums");
    for (size_t k = 0; k < COUNT(substitutions); k++) {
        f->check_substitution(&substitutions[k]);
    }
    end_group();
}

void check_known_results(const struct family *f) {
    bench_table(f);
    pairs(f);
    guards_at_nan(f);
    non_finite_factors(f);
    non_finite_data(f);
    forward_tolerances(f);
    backward_tolerances(f);
    rounding(f);
    dimension_three(f);
    half_solves(f);
}
