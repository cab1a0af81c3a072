#include "managed_counter.h"

#include <float.h>
#include <math.h>

#include "managed_calls.h"

static const double unit_l[] = {1, 0, 0, 0, 1, 0, 0, 0, 1}, unit_u[] = {1, 0, 0, 1, 0, 1};
static const double dense_l[] = {-3, 1, 2, -3, -2, 0, -3, 0, -3};
static const double dense_u[] = {1, -1, -2, 0, -3, -3};
static const double data[] = {1, 2, 3}, zeros[] = {0, 0, 0};

/* The capacity is put in later. */
static const struct update updates[] = {
    {.what = "push a first row and column", .kind = PUSH, .diagonal = 1},
    {.what = "replace the only row",
     .kind = REPLACE_ROW,
     .n = 1,
     .row_data = data,
     .before = {unit_l, unit_u}},
    {.what = "replace the only column",
     .kind = REPLACE_COLUMN,
     .n = 1,
     .column_data = data,
     .before = {unit_l, unit_u}},
    {.what = "remove the only row and column",
     .kind = REMOVE,
     .n = 1,
     .before = {unit_l, unit_u}},
    {.what = "identity, push a row of zeros",
     .kind = PUSH,
     .n = 3,
     .row_data = zeros,
     .column_data = data,
     .before = {unit_l, unit_u}},
    {.what = "push a row that becomes NaN by U(0,1), which passes Forward",
     .kind = PUSH,
     .n = 3,
     .row_data = (const double[]){1, 1, 1},
     .column_data = data,
     .steps = 2,
     .before = {unit_l, (const double[]){1, NAN, 0, 1, 0, 1}}},
    {.what = "identity, replace row 0, where Backward trims to row 0",
     .kind = REPLACE_ROW,
     .n = 3,
     .row_data = data,
     .before = {unit_l, unit_u}},
    {.what = "replace the last column",
     .kind = REPLACE_COLUMN,
     .n = 3,
     .column = 2,
     .column_data = data,
     .before = {dense_l, dense_u}},
    {.what = "replace column 0, NaN by L's column 1, which Backward eliminates",
     .kind = REPLACE_COLUMN,
     .n = 3,
     .column_data = data,
     .steps = 1,
     .before = {(const double[]){1, NAN, 0, 0, NAN, 0, 0, NAN, 1}, unit_u}},
    {.what = "replace column 0, NaN by sums that overflow, which Backward eliminates",
     .kind = REPLACE_COLUMN,
     .n = 3,
     .column_data = (const double[]){DBL_MAX, DBL_MAX, 1},
     .steps = 1,
     .before = {(const double[]){2, -2, 0, 2, -2, 0, 2, -2, 1}, unit_u}},
    {.what = "identity, replace column 0 by (1,1,0,1), where Backward skips row 2",
     .kind = REPLACE_COLUMN,
     .n = 4,
     .column_data = (const double[]){1, 1, 0, 1},
     .steps = 2,
     .before = {(const double[]){1, 0, 0, 0, 0, 1, 0, 0, 0, 0, 1, 0, 0, 0, 0, 1},
                (const double[]){1, 0, 0, 0, 1, 0, 0, 1, 0, 1}}},
    {.what = "identity, remove the last row and column",
     .kind = REMOVE,
     .n = 3,
     .row = 2,
     .column = 2,
     .before = {unit_l, unit_u}},
    /* The most that can be made at dimension 3. For a column and a removal that is one less
     * than the limit. */
    {.what = "push, no row is passed over",
     .kind = PUSH,
     .n = 3,
     .row_data = data,
     .column_data = data,
     .steps = 3,
     .before = {dense_l, dense_u}},
    {.what = "replace row 0, no row is passed over",
     .kind = REPLACE_ROW,
     .n = 3,
     .row_data = data,
     .steps = 4,
     .before = {dense_l, dense_u}},
    {.what = "replace column 0, no row is passed over",
     .kind = REPLACE_COLUMN,
     .n = 3,
     .column_data = data,
     .steps = 3,
     .before = {dense_l, dense_u}},
    {.what = "remove 0, 0, no row is passed over",
     .kind = REMOVE,
     .n = 3,
     .steps = 5,
     .before = {dense_l, dense_u}},
};

/* A counter, and what it becomes by 0 to 5 steps. */
static const struct {
    size_t before, after[6];
} counters[] = {
    {0, {0, 1, 2, 3, 4, 5}},
    {7, {7, 8, 9, 10, 11, 12}},
    {999994, {999994, 999995, 999996, 999997, 999998, 999999}},
    {999995, {999995, 999996, 999997, 999998, 999999, 999999}},
    {999998, {999998, 999999, 999999, 999999, 999999, 999999}},
    {999999, {999999, 999999, 999999, 999999, 999999, 999999}},
    {1000000, {999999, 999999, 999999, 999999, 999999, 999999}},
    {4294967296, {999999, 999999, 999999, 999999, 999999, 999999}},
    {SIZE_MAX - 2, {999999, 999999, 999999, 999999, 999999, 999999}},
    {SIZE_MAX, {999999, 999999, 999999, 999999, 999999, 999999}},
};

/* The update with every counter. */
static void check_steps(const struct update *u) {
    for (size_t k = 0; k < COUNT(counters); k++) {
        struct memory m;
        struct managed c = prepare_update(&m, u, 0);
        c.counter = counters[k].before;
        check_managed_update(u->what, &c, &m, u->steps, NULL, NULL);
        check_number(u->what, c.counter, counters[k].after[u->steps]);
    }
}

static void steps_and_counters(void) {
    begin_group("pair steps, and where the counter stops");
    for (size_t k = 0; k < COUNT(updates); k++) {
        struct update u = updates[k];
        u.capacity = 4;
        check_steps(&u);
    }
    end_group();
}

/* Updates one after another, from dimension 0 and back. */
static const struct update list[] = {
    {.what = "push d 2", .kind = PUSH, .diagonal = 2},
    {.what = "push row (4), column (6), d 1",
     .kind = PUSH,
     .row_data = (const double[]){4},
     .column_data = (const double[]){6},
     .diagonal = 1,
     .steps = 1},
    {.what = "push row (1,2), column (3,1), d 5",
     .kind = PUSH,
     .row_data = (const double[]){1, 2},
     .column_data = (const double[]){3, 1},
     .diagonal = 5,
     .steps = 2},
    {.what = "replace row 0 by (1,1,1)",
     .kind = REPLACE_ROW,
     .row_data = (const double[]){1, 1, 1},
     .steps = 3},
    {.what = "replace column 0 by (1,8,2)",
     .kind = REPLACE_COLUMN,
     .column_data = (const double[]){1, 8, 2},
     .steps = 2},
    {.what = "remove 1, 0", .kind = REMOVE, .row = 1, .steps = 5},
    {.what = "replace row 1 by (3,2)",
     .kind = REPLACE_ROW,
     .row = 1,
     .row_data = (const double[]){3, 2},
     .steps = 2},
    {.what = "replace column 1 by (5,5)",
     .kind = REPLACE_COLUMN,
     .column = 1,
     .column_data = (const double[]){5, 5}},
    {.what = "remove 0, 1", .kind = REMOVE, .column = 1},
    {.what = "remove 0, 0", .kind = REMOVE},
};

/* An update of the list, after one that is refused. */
static struct managed check_next(const struct update *u, size_t counter, struct memory *m) {
    struct managed c = call_of(u), refused = make_managed(REPLACE_ROW, u->n, u->capacity);
    refused.row = u->n;
    prepare_next(m, &refused, 0);
    check_kept("replace row n", refused, m, LUMOD_ROW_OUT_OF_BOUNDS, refused);
    c.counter = counter;
    prepare_next(m, &c, 0);
    put_data(m, u);
    check_managed_update(u->what, &c, m, u->steps, NULL, NULL);
    return c;
}

static void list_of_updates(void) {
    struct memory m;
    struct managed c = make_managed(PUSH, 0, 3);
    size_t sum = 0;
    begin_group("the counter over a list of updates");
    mark_all(&m);
    for (size_t k = 0; k < COUNT(list); k++) {
        struct update u = list[k];
        u.n = c.n;
        u.capacity = c.c;
        c = check_next(&u, c.counter, &m);
        sum += c.steps;
        check_number("*counter is the sum of all *steps", c.counter, sum);
    }
    check_number("*counter after the list", c.counter, 15);
    end_group();
}

void check_counter(void) {
    steps_and_counters();
    list_of_updates();
}
