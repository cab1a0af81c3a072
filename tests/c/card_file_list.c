#include "card_file_list.h"

#include <math.h>
#include <stdio.h>
#include <stdlib.h>
#include <string.h>

#include "checked_memory.h"
#include "lumod.h"

static void *heap_block(size_t bytes) {
    void *start = malloc(bytes > 0 ? bytes : 1);
    if (!start) {
        abort();
    }
    return start;
}

/* Doubles that are NaNs. */
static double *nans(size_t length) {
    double *start = heap_block(length * sizeof *start);
    for (size_t k = 0; k < length; k++) {
        start[k] = NAN;
    }
    return start;
}

struct state new_state(size_t c) {
    double *l = nans(c * (c + 1)), *u = nans(c * (c + 1) / 2);
    return (struct state){.c = c, .counter = FIRST_COUNTER, .l = l, .u = u};
}

void end_state(struct state *s) { free(s->l), free(s->u); }

/* The same numbers in every process: the k-th of the list's call. */
static uint64_t random_bits(size_t call, size_t k) {
    uint64_t x = (call * 1000 + k + 1) * UINT64_C(0x9e3779b97f4a7c15);
    x = (x ^ x >> 30) * UINT64_C(0xbf58476d1ce4e5b9);
    x = (x ^ x >> 27) * UINT64_C(0x94d049bb133111eb);
    return x ^ x >> 31;
}

/* From -1 to 1, and now and then a small integer. */
static double random_entry(size_t call, size_t k) {
    uint64_t bits = random_bits(call, k);
    if (bits % 8 == 0) {
        return (double)(bits >> 3 & 3) - 1;
    }
    return (double)(bits >> 11) / 4503599627370496.0 - 1;
}

static size_t random_index(size_t call, size_t k, size_t n) {
    return n > 0 ? random_bits(call, k) % n : 0;
}

/* The data and the workspaces of a call, each in a block of its own. */
struct lent {
    double *row, *column, *y, *z, *w;
    double diagonal;
    size_t row_index, column_index, length;
};

/* Now and then an index is n, and a call that takes it is refused. */
static struct lent lend(size_t call, size_t n) {
    struct lent d = {.row = nans(n), .column = nans(n), .length = n + 1};
    d.y = nans(d.length), d.z = nans(d.length), d.w = nans(d.length);
    for (size_t k = 0; k < n; k++) {
        d.row[k] = random_entry(call, 10 + k);
        d.column[k] = random_entry(call, 40 + k);
    }
    d.diagonal = random_entry(call, 1);
    d.row_index = call % 7 == 0 ? n : random_index(call, 2, n);
    d.column_index = call % 7 == 1 ? n : random_index(call, 3, n);
    return d;
}

static void end_lent(struct lent *d) {
    free(d->row), free(d->column), free(d->y), free(d->z), free(d->w);
}

/* Storage and workspaces as arguments. */
#define STORAGE(s) (s)->l, (s)->c * ((s)->c + 1), (s)->u, (s)->c * ((s)->c + 1) / 2
#define WORKSPACES(d) (d).y, (d).length, (d).z, (d).length, (d).w, (d).length

static uint32_t push(struct state *s, size_t k, struct answered *a) {
    struct lent d = lend(k, s->n);
    size_t index;
    uint32_t number =
        lumod_push(&s->n, s->c, STORAGE(s), WORKSPACES(d), d.row, d.length - 1, d.column,
                   d.length - 1, d.diagonal, &s->counter, &a->steps, &index);
    end_lent(&d);
    return number;
}

static uint32_t replace(struct state *s, size_t k, struct answered *a, int row) {
    struct lent d = lend(k, s->n);
    size_t index;
    uint32_t number =
        row ? lumod_replace_row(s->n, s->c, STORAGE(s), WORKSPACES(d), d.row_index, d.row, s->n,
                                &s->counter, &a->steps, &index)
            : lumod_replace_column(s->n, s->c, STORAGE(s), WORKSPACES(d), d.column_index,
                                   d.column, s->n, &s->counter, &a->steps, &index);
    end_lent(&d);
    return number;
}

static uint32_t remove_both(struct state *s, size_t k, struct answered *a) {
    struct lent d = lend(k, s->n);
    uint32_t number =
        lumod_remove(&s->n, s->c, STORAGE(s), WORKSPACES(d), d.row_index, d.column_index,
                     &a->moved_row, &a->moved_column, &s->counter, &a->steps);
    end_lent(&d);
    return number;
}

static uint32_t solve(struct state *s, size_t k, struct answered *a, int transposed) {
    double *rhs = nans(s->n);
    size_t index = 0;
    for (size_t i = 0; i < s->n; i++) {
        rhs[i] = random_entry(k, 70 + i);
    }
    uint32_t number = (transposed ? lumod_solve_transpose : lumod_solve)(s->n, s->c, STORAGE(s),
                                                                         rhs, s->n, &index);
    memcpy(a->solution, rhs, s->n * sizeof *rhs);
    free(rhs);
    return number;
}

struct answered make_call(struct state *s, size_t k) {
    struct answered a = {.steps = 0};
    size_t choice = random_bits(k, 0) % 12;
    if (s->n < LARGEST && (choice < 4 || s->n < 2 || k < LARGEST / 2)) {
        a.number = push(s, k, &a);
    } else if (choice < 6) {
        a.number = remove_both(s, k, &a);
    } else if (choice < 8) {
        a.number = replace(s, k, &a, 1);
    } else if (choice < 10) {
        a.number = replace(s, k, &a, 0);
    } else {
        a.number = solve(s, k, &a, choice == 11);
    }
    return a;
}

static uint64_t bits_of(double value) {
    uint64_t bits;
    memcpy(&bits, &value, sizeof bits);
    return isnan(value) ? 0 : bits;
}

static void check_double(size_t k, const char *what, double found, double expected) {
    char label[100];
    snprintf(label, sizeof label, "call %zu: %s", k, what);
    check_number(label, isnan(found) != 0, isnan(expected) != 0);
    check_number(label, bits_of(found), bits_of(expected));
}

static void check_size(size_t k, const char *what, size_t found, size_t expected) {
    char label[100];
    snprintf(label, sizeof label, "call %zu: %s", k, what);
    check_number(label, found, expected);
}

void check_same_answer(size_t k, const struct answered *found,
                       const struct answered *expected) {
    check_size(k, "returned", found->number, expected->number);
    check_size(k, "*steps", found->steps, expected->steps);
    check_size(k, "*moved_row", found->moved_row, expected->moved_row);
    check_size(k, "*moved_column", found->moved_column, expected->moved_column);
    for (size_t i = 0; i < LARGEST; i++) {
        check_double(k, "solution", found->solution[i], expected->solution[i]);
    }
}

static double u_entry(const struct state *s, size_t i, size_t j) {
    return s->u[i * s->c - i * (i - 1) / 2 + j - i];
}

void check_same_state(size_t k, const struct state *found, const struct state *expected) {
    size_t n = expected->n;
    check_size(k, "n", found->n, n);
    check_size(k, "*counter", found->counter, expected->counter);
    if (found->n != n) {
        return;
    }
    for (size_t place = 0; place < n * n; place++) {
        size_t i = place / n, j = place % n;
        check_double(k, "L", found->l[i * found->c + j], expected->l[i * expected->c + j]);
        if (i <= j) {
            check_double(k, "U", u_entry(found, i, j), u_entry(expected, i, j));
        }
    }
}
