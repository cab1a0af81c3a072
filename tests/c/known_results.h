/*
 * Updates, products and substitutions whose results are known: the bench
 * table's, and what the bench table does not tell apart. Both families of
 * calls are checked by them.
 */
#ifndef KNOWN_RESULTS_H
#define KNOWN_RESULTS_H

#include <stddef.h>

/* Numbered as the modes of LUmod. */
enum update_kind { PUSH = 1, REPLACE_COLUMN, REPLACE_ROW, REMOVE };

/* Active entries by rows. */
struct factors {
    const double *l, *u;
};

/* n is the dimension before the update. A push takes row_data, column_data and
 * diagonal, a replacement row_data or column_data. The update makes so many pair
 * steps, which the managed calls report. */
struct update {
    const char *what;
    enum update_kind kind;
    size_t capacity, n, row, column;
    const double *row_data, *column_data;
    double diagonal;
    size_t steps;
    struct factors before, after;
};

/* The product of L and a vector, or the substitution with U on a vector. */
struct half_solve {
    const char *what;
    int transposed;
    size_t capacity, n;
    const double *factor, *vector, *result;
};

/* A family of calls: its tolerance E, and functions that make the call and
 * check all that it leaves. A NaN in a result stands for every NaN.
 * check_non_finite takes an update by data that are not finite, first at the place:
 * the zero-based calls make it, the managed calls refuse it. */
struct family {
    double e;
    void (*check_update)(const struct update *);
    void (*check_non_finite)(const struct update *, size_t place);
    void (*check_product)(const struct half_solve *);
    void (*check_substitution)(const struct half_solve *);
};

/* The bench table's factors P, of dimension 2. */
extern const double p_l[4], p_u[3];

void check_known_results(const struct family *f);

#endif
