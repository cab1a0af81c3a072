/* The managed calls on checked memory. */
#ifndef MANAGED_CALLS_H
#define MANAGED_CALLS_H

#include "checked_memory.h"
#include "known_results.h"
#include "lumod.h"

/* The functions on storage. An update goes by its enum update_kind. */
enum { SOLVE = REMOVE + 1, SOLVE_TRANSPOSE, FROM_STORAGE, READY, FUNCTIONS };
extern const char *const function_names[FUNCTIONS];

/* Where the counter stops. */
enum { MOST_COUNTED = 999999 };

/* The numbers that a call is given and those that it reports. A replaced row or
 * column is at row or column. */
struct managed {
    int function;
    size_t n, c, row, column;
    double diagonal;
    size_t index, moved_row, moved_column, counter, steps;
    uint8_t ready;
    uint8_t beside_ready[7];
};

/* What a number that a call reports holds before the call. */
#define UNREPORTED ((size_t)0xa5a5a5a5a5a5a5a5)

/* The counter is 0. */
struct managed make_managed(int function, size_t n, size_t c);
/* Marks, and for each buffer the length that the call needs. Storage and
 * workspaces are longer by `more` doubles. */
void prepare_managed(struct memory *m, const struct managed *c, size_t more);
/* The same for a next call on the factors that are there. */
void prepare_next(struct memory *m, const struct managed *c, size_t more);
/* A call with a finite number of its own at every place, and no lengths to spare. */
struct managed prepare_numbered(struct memory *m, int function, size_t n, size_t c);
/* The call that makes an update, and the data that it takes. */
struct managed call_of(const struct update *u);
void put_data(struct memory *m, const struct update *u);
/* The same call, with the factors and the data in memory. */
struct managed prepare_update(struct memory *m, const struct update *u, size_t more);

/* How many values a push or a replacement is lent, and the value at a place: they
 * are counted through the row, then the column, then the diagonal. */
size_t lent_values(const struct managed *c);
double *lent_at(struct managed *c, struct memory *m, size_t place);

/* A call that returns `number`, leaves the numbers `after`, and writes no buffer.
 * An update is refused with several counters. It leaves each, and 0 steps. */
void check_kept(const char *what, struct managed c, struct memory *m, uint32_t number,
                struct managed after);
/* The same for an update that is lent a value which is not finite, first at the place. */
void check_non_finite(const char *what, struct managed c, struct memory *m, size_t place);
/* A call of ready that is carried out and answers so. */
void check_ready(struct managed c, struct memory *m, uint8_t ready);
/* Stands for every number of pair steps up to the call's limit. */
#define ANY_STEPS SIZE_MAX
/* An accepted update that makes so many pair steps, and leaves the factors l and
 * u, or any factors where these are null. A NaN in them stands for every NaN. */
void check_managed_update(const char *what, struct managed *c, struct memory *m, size_t steps,
                          const double *l, const double *u);
/* An accepted solve that leaves the solution, or any where that is null. A NaN in
 * it stands for every NaN. */
void check_managed_solve(const char *what, struct managed c, struct memory *m,
                         const double *solution);

#endif
