#include "managed_calls.h"

#include <stdio.h>
#include <string.h>

const char *const function_names[FUNCTIONS] = {
    [PUSH] = "push",
    [REPLACE_COLUMN] = "replace column",
    [REPLACE_ROW] = "replace row",
    [REMOVE] = "remove",
    [SOLVE] = "solve",
    [SOLVE_TRANSPOSE] = "transpose solve",
    [FROM_STORAGE] = "adopt",
    [READY] = "ready",
};

struct managed make_managed(int function, size_t n, size_t c) {
    struct managed call = {.function = function, .n = n, .c = c};
    call.index = call.moved_row = call.moved_column = call.steps = UNREPORTED;
    call.ready = (uint8_t)UNREPORTED;
    memset(call.beside_ready, call.ready, sizeof call.beside_ready);
    return call;
}

void prepare_managed(struct memory *m, const struct managed *c, size_t more) {
    mark_all(m);
    m->length[L] = c->c * (c->c + 1) + more;
    m->length[U] = c->c * (c->c + 1) / 2 + more;
    set_workspace_lengths(m, c->n + (c->function == PUSH) + more);
    m->length[ROW] = m->length[COLUMN] = m->length[RHS] = c->n;
}

void prepare_next(struct memory *m, const struct managed *c, size_t more) {
    struct memory before = *m;
    prepare_managed(m, c, more);
    copy_active(m, &before, c->c, c->n);
}

struct managed prepare_numbered(struct memory *m, int function, size_t n, size_t c) {
    struct managed call = make_managed(function, n, c);
    prepare_managed(m, &call, 0);
    number_all(m);
    return call;
}

struct managed call_of(const struct update *u) {
    struct managed c = make_managed(u->kind, u->n, u->capacity);
    c.row = u->row;
    c.column = u->column;
    c.diagonal = u->diagonal;
    return c;
}

void put_data(struct memory *m, const struct update *u) {
    if (u->row_data) {
        put(m, ROW, u->n, u->row_data);
    }
    if (u->column_data) {
        put(m, COLUMN, u->n, u->column_data);
    }
}

struct managed prepare_update(struct memory *m, const struct update *u, size_t more) {
    struct managed c = call_of(u);
    prepare_managed(m, &c, more);
    put_l(m, u->capacity, u->n, u->before.l);
    put_u(m, u->capacity, u->n, u->before.u);
    put_data(m, u);
    return c;
}

size_t lent_values(const struct managed *c) {
    return c->function == PUSH ? 2 * c->n + 1 : c->n;
}

double *lent_at(struct managed *c, struct memory *m, size_t place) {
    if (c->function == REPLACE_COLUMN) {
        return buffer_at(m, COLUMN, place);
    }
    if (c->function == REPLACE_ROW || place < c->n) {
        return buffer_at(m, ROW, place);
    }
    return place < 2 * c->n ? buffer_at(m, COLUMN, place - c->n) : &c->diagonal;
}

/* A buffer as two arguments. */
#define LEND(b) buffer_at(m, b, 0), m->length[b]

static uint32_t call_managed(struct managed *c, struct memory *m) {
    switch (c->function) {
    case PUSH:
        return lumod_push(&c->n, c->c, LEND(L), LEND(U), LEND(Y), LEND(Z), LEND(W), LEND(ROW),
                          LEND(COLUMN), c->diagonal, &c->counter, &c->steps, &c->index);
    case REPLACE_COLUMN:
        return lumod_replace_column(c->n, c->c, LEND(L), LEND(U), LEND(Y), LEND(Z), LEND(W),
                                    c->column, LEND(COLUMN), &c->counter, &c->steps, &c->index);
    case REPLACE_ROW:
        return lumod_replace_row(c->n, c->c, LEND(L), LEND(U), LEND(Y), LEND(Z), LEND(W),
                                 c->row, LEND(ROW), &c->counter, &c->steps, &c->index);
    case REMOVE:
        return lumod_remove(&c->n, c->c, LEND(L), LEND(U), LEND(Y), LEND(Z), LEND(W), c->row,
                            c->column, &c->moved_row, &c->moved_column, &c->counter, &c->steps);
    case SOLVE:
        return lumod_solve(c->n, c->c, LEND(L), LEND(U), LEND(RHS), &c->index);
    case SOLVE_TRANSPOSE:
        return lumod_solve_transpose(c->n, c->c, LEND(L), LEND(U), LEND(RHS), &c->index);
    case FROM_STORAGE:
        return lumod_from_storage(c->n, c->c, LEND(L), LEND(U));
    default:
        return lumod_ready(c->n, c->c, LEND(L), LEND(U), &c->ready);
    }
}

static void check_named(const char *what, const char *name, uint64_t found, uint64_t expected) {
    char label[200];
    snprintf(label, sizeof label, "%s: %s", what, name);
    check_number(label, found, expected);
}

/* What a call returned and reported. */
static void check_numbers(const char *what, uint32_t returned, const struct managed *c,
                          uint32_t number, const struct managed *after) {
    const struct {
        const char *name;
        uint64_t found, expected;
    } numbers[] = {
        {"returned", returned, number},
        {"n", c->n, after->n},
        {"*index", c->index, after->index},
        {"*moved_row", c->moved_row, after->moved_row},
        {"*moved_column", c->moved_column, after->moved_column},
        {"*counter", c->counter, after->counter},
        {"*steps", c->steps, after->steps},
        {"*ready", c->ready, after->ready},
    };
    for (size_t k = 0; k < COUNT(numbers); k++) {
        check_named(what, numbers[k].name, numbers[k].found, numbers[k].expected);
    }
    check_named(what, "bytes beside *ready were written",
                memcmp(c->beside_ready, after->beside_ready, sizeof c->beside_ready) != 0, 0);
}

void check_kept(const char *what, struct managed c, struct memory *m, uint32_t number,
                struct managed after) {
    static const size_t counters[] = {0, 7, MOST_COUNTED, MOST_COUNTED + 1, SIZE_MAX};
    struct memory before = *m;
    int is_update = c.function <= REMOVE;
    if (is_update) {
        after.steps = 0;
    }
    for (size_t k = 0; k < (is_update ? COUNT(counters) : 1); k++) {
        struct managed call = c;
        call.counter = after.counter = counters[k];
        uint32_t returned = call_managed(&call, m);
        check_numbers(what, returned, &call, number, &after);
    }
    check_memory(what, m, &before);
}

void check_non_finite(const char *what, struct managed c, struct memory *m, size_t place) {
    struct managed after = c;
    after.index = place;
    check_kept(what, c, m, LUMOD_NON_FINITE_DATA, after);
}

void check_ready(struct managed c, struct memory *m, uint8_t ready) {
    struct managed after = c;
    after.ready = ready;
    check_kept("ready", c, m, LUMOD_OK, after);
}

/* The limit of an update's pair steps. */
static size_t step_limit(const struct managed *c) {
    switch (c->function) {
    case PUSH:
        return c->n;
    case REPLACE_COLUMN:
        return 2 * (c->n - 1 - c->column);
    case REPLACE_ROW:
        return 2 * (c->n - 1);
    default:
        return 3 * (c->n - 1);
    }
}

/* The counter after so many more pair steps. */
static size_t add_steps(size_t counter, size_t steps) {
    if (counter > MOST_COUNTED || steps > MOST_COUNTED - counter) {
        return MOST_COUNTED;
    }
    return counter + steps;
}

static struct managed after_update(struct managed c, size_t steps) {
    if (c.function == REMOVE) {
        c.moved_row = c.row == c.n - 1 ? SIZE_MAX : c.n - 1;
        c.moved_column = c.column == c.n - 1 ? SIZE_MAX : c.n - 1;
    }
    c.n += (c.function == PUSH) - (c.function == REMOVE);
    c.counter = add_steps(c.counter, steps);
    c.steps = steps;
    return c;
}

void check_managed_update(const char *what, struct managed *c, struct memory *m, size_t steps,
                          const double *l, const double *u) {
    struct memory expected = *m;
    struct managed before = *c;
    uint32_t returned = call_managed(c, m);
    struct managed after = after_update(before, steps == ANY_STEPS ? c->steps : steps);
    size_t larger = before.n > after.n ? before.n : after.n;
    check_numbers(what, returned, c, LUMOD_OK, &after);
    check_named(what, "*steps is within its limit", c->steps <= step_limit(&before), 1);
    if (l && u) {
        put_l(&expected, c->c, after.n, l);
        put_u(&expected, c->c, after.n, u);
        allow_active_nans(&expected, m, c->c, after.n);
    } else {
        copy_active(&expected, m, c->c, after.n);
    }
    if (c->function == REMOVE) {
        allow_dropped(&expected, m, c->c, larger);
    }
    allow_workspaces(&expected, m, larger);
    check_memory(what, m, &expected);
}

void check_managed_solve(const char *what, struct managed c, struct memory *m,
                         const double *solution) {
    struct memory expected = *m;
    struct managed after = c;
    uint32_t returned = call_managed(&c, m);
    check_numbers(what, returned, &c, LUMOD_OK, &after);
    put(&expected, RHS, c.n, solution ? solution : buffer_at(m, RHS, 0));
    allow_nans(&expected, m, RHS, c.n);
    allow_scratch(&expected, m, L, c.c * c.c, c.n);
    check_memory(what, m, &expected);
}
