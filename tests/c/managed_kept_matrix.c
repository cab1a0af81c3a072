#include "managed_kept_matrix.h"

#include <math.h>

#include "managed_calls.h"

enum { LARGEST = 13, UPDATES = 200 };

/* A matrix, the memory with its factors, the numbers of the next call, and the
 * pair steps of all calls. */
struct kept {
    double a[LARGEST][LARGEST];
    struct memory m;
    struct managed c;
    size_t steps;
};

/* The same sequence in every run, from -1 to 1. */
static double random_entry(void) {
    static uint64_t state = 1;
    state = state * UINT64_C(6364136223846793005) + UINT64_C(1442695040888963407);
    return (double)(state >> 11) / 4503599627370496.0 - 1;
}

static size_t random_below(size_t end) {
    return (size_t)((random_entry() + 1) / 2 * (double)end);
}

/* Whether found is expected but for rounding in terms that add up to size. */
static void check_close(const char *what, double found, double expected, double size) {
    check_number(what, fabs(found - expected) <= 1e-13 * size, 1);
}

static void prepare_call(struct kept *k, int function) {
    size_t counter = k->c.counter;
    k->c = make_managed(function, k->c.n, k->c.c);
    k->c.counter = counter;
    prepare_next(&k->m, &k->c, 2);
}

static void push(struct kept *k) {
    size_t n = k->c.n;
    prepare_call(k, PUSH);
    for (size_t j = 0; j < n; j++) {
        k->a[n][j] = *buffer_at(&k->m, ROW, j) = random_entry();
        k->a[j][n] = *buffer_at(&k->m, COLUMN, j) = random_entry();
    }
    k->a[n][n] = k->c.diagonal = random_entry();
    check_managed_update("push", &k->c, &k->m, ANY_STEPS, NULL, NULL);
}

static void replace_row(struct kept *k) {
    prepare_call(k, REPLACE_ROW);
    k->c.row = random_below(k->c.n);
    for (size_t j = 0; j < k->c.n; j++) {
        k->a[k->c.row][j] = *buffer_at(&k->m, ROW, j) = random_entry();
    }
    check_managed_update("replace row", &k->c, &k->m, ANY_STEPS, NULL, NULL);
}

static void replace_column(struct kept *k) {
    prepare_call(k, REPLACE_COLUMN);
    k->c.column = random_below(k->c.n);
    for (size_t i = 0; i < k->c.n; i++) {
        k->a[i][k->c.column] = *buffer_at(&k->m, COLUMN, i) = random_entry();
    }
    check_managed_update("replace column", &k->c, &k->m, ANY_STEPS, NULL, NULL);
}

/* The matrix follows what the call reports as moved. */
static void remove_both(struct kept *k) {
    size_t n = k->c.n;
    prepare_call(k, REMOVE);
    k->c.row = random_below(n);
    k->c.column = random_below(n);
    check_managed_update("remove", &k->c, &k->m, ANY_STEPS, NULL, NULL);
    for (size_t j = 0; k->c.moved_row < n && j < n; j++) {
        k->a[k->c.row][j] = k->a[k->c.moved_row][j];
    }
    for (size_t i = 0; k->c.moved_column < n && i < n; i++) {
        k->a[i][k->c.column] = k->a[i][k->c.moved_column];
    }
}

static void update(struct kept *k) {
    size_t choice = random_below(8);
    if (k->c.n == 0 || (choice < 3 && k->c.n < k->c.c)) {
        push(k);
    } else if (choice < 4) {
        remove_both(k);
    } else if (choice < 6) {
        replace_row(k);
    } else {
        replace_column(k);
    }
    k->steps += k->c.steps;
    check_number("*counter is the sum of all *steps", k->c.counter, k->steps);
}

/* L * A = U. */
static void check_factors(struct kept *k) {
    size_t n = k->c.n, c = k->c.c;
    for (size_t i = 0; i < n; i++) {
        for (size_t j = 0; j < n; j++) {
            double sum = 0, size = 0;
            for (size_t inner = 0; inner < n; inner++) {
                double term = *l_at(&k->m, c, i, inner) * k->a[inner][j];
                sum += term;
                size += fabs(term);
            }
            check_close("L * A = U", sum, i <= j ? *u_at(&k->m, c, i, j) : 0, size);
        }
    }
}

/* A * x = b, or A' * x = b. */
static void check_solution(struct kept *k, int function) {
    double b[LARGEST];
    struct managed c = make_managed(function, k->c.n, k->c.c);
    prepare_next(&k->m, &c, 2);
    for (size_t i = 0; i < c.n; i++) {
        b[i] = *buffer_at(&k->m, RHS, i) = random_entry();
    }
    check_managed_solve("solve", c, &k->m, NULL);
    for (size_t i = 0; i < c.n; i++) {
        double sum = 0, size = fabs(b[i]);
        for (size_t j = 0; j < c.n; j++) {
            double entry = function == SOLVE ? k->a[i][j] : k->a[j][i];
            double term = entry * *buffer_at(&k->m, RHS, j);
            sum += term;
            size += fabs(term);
        }
        check_close(function == SOLVE ? "A * x = b" : "A' * x = b", sum, b[i], size);
    }
}

void check_kept_matrix(void) {
    static struct kept k;
    begin_group("a matrix kept beside its factors");
    for (size_t capacity = 5; capacity <= LARGEST; capacity += 4) {
        k.c = make_managed(PUSH, 0, capacity);
        k.steps = 0;
        for (int count = 0; count < UPDATES; count++) {
            update(&k);
            check_factors(&k);
            check_solution(&k, SOLVE);
            check_solution(&k, SOLVE_TRANSPOSE);
        }
    }
    end_group();
}
