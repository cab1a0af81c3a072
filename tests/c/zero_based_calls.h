/* LUmod, Lprod and Usolve on checked memory. */
#ifndef ZERO_BASED_CALLS_H
#define ZERO_BASED_CALLS_H

#include "checked_memory.h"
#include "lumod.h"

struct call {
    int32_t mode, maxmod, n, krow, kcol;
};

struct call make_call(int32_t mode, int32_t maxmod, int32_t n);
size_t stride_of(int32_t maxmod);

/* Marks, and for each buffer the length that the call needs and `more` doubles. */
void prepare(struct memory *m, struct call c, size_t more);

uint32_t call_lumod(struct call c, struct memory *m);
uint32_t call_lprod(struct call c, struct memory *m);
uint32_t call_usolve(struct call c, struct memory *m);

/* Accepted calls, and the factors, the product or the solution that they leave. A
 * NaN in these stands for every NaN. */
void check_update(const char *what, struct call c, struct memory *m, const double *l,
                  const double *u);
void check_product(const char *what, struct call c, struct memory *m, const double *product);
void check_solve(const char *what, struct call c, struct memory *m, const double *solution);

#endif
