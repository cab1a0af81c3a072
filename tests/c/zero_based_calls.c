#include "zero_based_calls.h"

struct call make_call(int32_t mode, int32_t maxmod, int32_t n) {
    struct call c = {mode, maxmod, n, 0, 0};
    return c;
}

size_t stride_of(int32_t maxmod) { return maxmod > 1 ? (size_t)maxmod : 1; }

void prepare(struct memory *m, struct call c, size_t more) {
    size_t stride = stride_of(c.maxmod);
    mark_all(m);
    m->length[L] = stride * stride + more;
    m->length[U] = stride * (stride + 1) / 2 + more;
    set_workspace_lengths(m, (size_t)c.n + more);
    m->length[ROW] = m->length[COLUMN] = m->length[RHS] = 0;
}

uint32_t call_lumod(struct call c, struct memory *m) {
    return LUmod(c.mode, c.maxmod, c.n, c.krow, c.kcol, buffer_at(m, L, 0), m->length[L],
                 buffer_at(m, U, 0), m->length[U], buffer_at(m, Y, 0), m->length[Y],
                 buffer_at(m, Z, 0), m->length[Z], buffer_at(m, W, 0), m->length[W]);
}

uint32_t call_lprod(struct call c, struct memory *m) {
    return Lprod(c.mode, c.maxmod, c.n, buffer_at(m, L, 0), m->length[L], buffer_at(m, Y, 0),
                 m->length[Y], buffer_at(m, Z, 0), m->length[Z]);
}

uint32_t call_usolve(struct call c, struct memory *m) {
    return Usolve(c.mode, c.maxmod, c.n, buffer_at(m, U, 0), m->length[U], buffer_at(m, Y, 0),
                  m->length[Y]);
}

void check_update(const char *what, struct call c, struct memory *m, const double *l,
                  const double *u) {
    struct memory expected = *m;
    size_t n = (size_t)c.n, stride = stride_of(c.maxmod);
    size_t after = n - (c.mode == 4 ? 1 : 0);
    check_number(what, call_lumod(c, m), LUMOD_OK);
    put_l(&expected, stride, after, l);
    put_u(&expected, stride, after, u);
    allow_active_nans(&expected, m, stride, after);
    if (c.mode == 4) {
        allow_dropped(&expected, m, stride, n);
    }
    allow_workspaces(&expected, m, n);
    check_memory(what, m, &expected);
}

void check_product(const char *what, struct call c, struct memory *m, const double *product) {
    struct memory expected = *m;
    put(&expected, Z, (size_t)c.n, product);
    check_number(what, call_lprod(c, m), LUMOD_OK);
    allow_nans(&expected, m, Z, (size_t)c.n);
    check_memory(what, m, &expected);
}

void check_solve(const char *what, struct call c, struct memory *m, const double *solution) {
    struct memory expected = *m;
    put(&expected, Y, (size_t)c.n, solution);
    check_number(what, call_usolve(c, m), LUMOD_OK);
    allow_nans(&expected, m, Y, (size_t)c.n);
    check_memory(what, m, &expected);
}
