#include "managed_flags.h"

#include <fenv.h>
#include <math.h>

#include "managed_calls.h"

enum { MOST = 4 };

/* Zeros, infinities and a quiet NaN: what a solve refuses on U's diagonal. The last three
 * an update refuses in its data. */
static const double values[] = {0.0, -0.0, INFINITY, -INFINITY, NAN};
enum { ZEROS = 2 };

/* No flag is set since they were cleared. Under valgrind none ever is. gcc knows no
 * FENV_ACCESS; it can't look into the calls between. */
static void check_no_flag(const char *what) {
    check_number(what, (uint64_t)fetestexcept(FE_ALL_EXCEPT), 0);
}

/* An update that is lent one value which is not finite, at every place. */
static void refused_data(int function, size_t n) {
    struct memory m;
    struct managed c = make_managed(function, n, n + 1);
    for (size_t place = 0; place < lent_values(&c); place++) {
        for (size_t k = ZEROS; k < COUNT(values); k++) {
            c = prepare_numbered(&m, function, n, n + 1);
            *lent_at(&c, &m, place) = values[k];
            feclearexcept(FE_ALL_EXCEPT);
            check_non_finite(function_names[function], c, &m, place);
            check_no_flag(function_names[function]);
        }
    }
}

/* A solve with one bad diagonal, at every place. */
static void refused_diagonals(int function, size_t n) {
    struct memory m;
    for (size_t i = 0; i < n; i++) {
        for (size_t k = 0; k < COUNT(values); k++) {
            struct managed c = prepare_numbered(&m, function, n, n + 1);
            struct managed after = c;
            *u_at(&m, n + 1, i, i) = values[k];
            after.index = i;
            feclearexcept(FE_ALL_EXCEPT);
            check_kept(function_names[function], c, &m,
                       k < ZEROS ? LUMOD_SINGULAR : LUMOD_NON_FINITE_DIAGONAL, after);
            check_no_flag(function_names[function]);
        }
    }
}

void check_flags(void) {
    begin_group("floating-point flags after refusals for a value");
    for (size_t n = 0; n <= MOST; n++) {
        refused_data(PUSH, n);
        if (n > 0) {
            refused_data(REPLACE_ROW, n);
            refused_data(REPLACE_COLUMN, n);
        }
        refused_diagonals(SOLVE, n);
        refused_diagonals(SOLVE_TRANSPOSE, n);
    }
    end_group();
}
