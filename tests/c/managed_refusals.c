#include "managed_refusals.h"

#include <math.h>
#include <stdio.h>
#include <stdlib.h>

#include "managed_calls.h"

/* Before a fault is applied, a call is right at dimension 2 and capacity 3. */
enum { N = 2, C = 3, L_LENGTH = C * (C + 1), U_LENGTH = C * (C + 1) / 2 };
#define TWO_TO_32 ((size_t)4294967296)

/* Sets of functions. */
enum {
    PUSHES = 1 << PUSH,
    TAKE_ROW = PUSHES | 1 << REPLACE_ROW,
    TAKE_COLUMN = PUSHES | 1 << REPLACE_COLUMN,
    TAKE_DATA = TAKE_ROW | TAKE_COLUMN,
    INDEX_ROW = 1 << REPLACE_ROW | 1 << REMOVE,
    INDEX_COLUMN = 1 << REPLACE_COLUMN | 1 << REMOVE,
    UPDATES = PUSHES | INDEX_ROW | INDEX_COLUMN,
    SOLVES = 1 << SOLVE | 1 << SOLVE_TRANSPOSE,
    ALL = UPDATES | SOLVES | 1 << FROM_STORAGE | 1 << READY
};

/* What a fault changes. */
enum {
    LENT_NAN,     /* what is lent becomes NaN at a place, which is the value */
    CAPACITY,     /* c becomes the value */
    DIMENSION,    /* n becomes c and the value */
    FULL,         /* n becomes c, and the lengths are right for a push */
    WORKSPACES,   /* y, z and w become as long as the value */
    UNEQUAL,      /* y, z or w becomes longer, by the value's bits 1, 2 and 4 */
    ROW_INDEX,    /* row becomes n and the value */
    COLUMN_INDEX, /* column becomes n and the value */
    ZERO,         /* U(i,i) becomes -0, i being the value */
    NAN_ENTRY,    /* U(i,i) becomes NaN, i being the value */
    LENGTH        /* and a buffer: it becomes as long as the value */
};

struct fault {
    const char *what;
    uint32_t number;
    int functions, change;
    size_t value;
};

/* In this order, two faults of different numbers can be applied one after the
 * other and both hold, unless a NaN is past the end of a row or column that
 * becomes shorter. Of two NaNs the first in this order has the first place. */
static const struct fault faults[] = {
    {"NaN at place 0", LUMOD_NON_FINITE_DATA, TAKE_DATA, LENT_NAN, 0},
    {"NaN at place 1", LUMOD_NON_FINITE_DATA, TAKE_DATA, LENT_NAN, 1},
    {"NaN at place 2", LUMOD_NON_FINITE_DATA, PUSHES, LENT_NAN, N},
    {"NaN at place 3", LUMOD_NON_FINITE_DATA, PUSHES, LENT_NAN, N + 1},
    {"NaN as diagonal", LUMOD_NON_FINITE_DATA, PUSHES, LENT_NAN, 2 * N},
    {"c = 2^32", LUMOD_SIZE_OVERFLOW, ALL, CAPACITY, TWO_TO_32},
    {"c = 2^32 + 3", LUMOD_SIZE_OVERFLOW, ALL, CAPACITY, TWO_TO_32 + C},
    {"c = 2^63", LUMOD_SIZE_OVERFLOW, ALL, CAPACITY, SIZE_MAX / 2 + 1},
    {"n = c + 1", LUMOD_INVALID_DIMENSION, ALL, DIMENSION, 1},
    {"n = c + 2^32", LUMOD_INVALID_DIMENSION, ALL, DIMENSION, TWO_TO_32},
    {"n = c", LUMOD_CAPACITY_EXCEEDED, PUSHES, FULL, 0},
    {"workspaces of 2", LUMOD_INSUFFICIENT_WORKSPACE, PUSHES, WORKSPACES, N},
    {"workspaces of 1", LUMOD_INSUFFICIENT_WORKSPACE, UPDATES, WORKSPACES, N - 1},
    {"workspaces of 0", LUMOD_INSUFFICIENT_WORKSPACE, UPDATES, WORKSPACES, 0},
    {"y longer", LUMOD_UNEQUAL_WORKSPACES, UPDATES, UNEQUAL, 1},
    {"z longer", LUMOD_UNEQUAL_WORKSPACES, UPDATES, UNEQUAL, 2},
    {"y and z longer", LUMOD_UNEQUAL_WORKSPACES, UPDATES, UNEQUAL, 1 | 2},
    {"w longer", LUMOD_UNEQUAL_WORKSPACES, UPDATES, UNEQUAL, 4},
    {"y and w longer", LUMOD_UNEQUAL_WORKSPACES, UPDATES, UNEQUAL, 1 | 4},
    {"z and w longer", LUMOD_UNEQUAL_WORKSPACES, UPDATES, UNEQUAL, 2 | 4},
    {"l a double short", LUMOD_INSUFFICIENT_L, ALL, LENGTH + L, L_LENGTH - 1},
    {"l without solve work", LUMOD_INSUFFICIENT_L, ALL, LENGTH + L, L_LENGTH - C},
    {"l of 0", LUMOD_INSUFFICIENT_L, ALL, LENGTH + L, 0},
    {"u a double short", LUMOD_INSUFFICIENT_U, ALL, LENGTH + U, U_LENGTH - 1},
    {"u of 0", LUMOD_INSUFFICIENT_U, ALL, LENGTH + U, 0},
    {"row n", LUMOD_ROW_OUT_OF_BOUNDS, INDEX_ROW, ROW_INDEX, 0},
    {"row n + 1", LUMOD_ROW_OUT_OF_BOUNDS, INDEX_ROW, ROW_INDEX, 1},
    {"row 2^32", LUMOD_ROW_OUT_OF_BOUNDS, INDEX_ROW, ROW_INDEX, TWO_TO_32 - N},
    {"row SIZE_MAX", LUMOD_ROW_OUT_OF_BOUNDS, INDEX_ROW, ROW_INDEX, SIZE_MAX - N},
    {"column n", LUMOD_COLUMN_OUT_OF_BOUNDS, INDEX_COLUMN, COLUMN_INDEX, 0},
    {"column n + 1", LUMOD_COLUMN_OUT_OF_BOUNDS, INDEX_COLUMN, COLUMN_INDEX, 1},
    {"column 2^32", LUMOD_COLUMN_OUT_OF_BOUNDS, INDEX_COLUMN, COLUMN_INDEX, TWO_TO_32 - N},
    {"column SIZE_MAX", LUMOD_COLUMN_OUT_OF_BOUNDS, INDEX_COLUMN, COLUMN_INDEX, SIZE_MAX - N},
    {"row of 1", LUMOD_LENGTH_MISMATCH, TAKE_ROW, LENGTH + ROW, N - 1},
    {"row of 3", LUMOD_LENGTH_MISMATCH, TAKE_ROW, LENGTH + ROW, N + 1},
    {"row of 0", LUMOD_LENGTH_MISMATCH, TAKE_ROW, LENGTH + ROW, 0},
    {"column of 1", LUMOD_LENGTH_MISMATCH, TAKE_COLUMN, LENGTH + COLUMN, N - 1},
    {"column of 3", LUMOD_LENGTH_MISMATCH, TAKE_COLUMN, LENGTH + COLUMN, N + 1},
    {"column of 0", LUMOD_LENGTH_MISMATCH, TAKE_COLUMN, LENGTH + COLUMN, 0},
    {"rhs of 1", LUMOD_LENGTH_MISMATCH, SOLVES, LENGTH + RHS, N - 1},
    {"rhs of 3", LUMOD_LENGTH_MISMATCH, SOLVES, LENGTH + RHS, N + 1},
    {"rhs of 0", LUMOD_LENGTH_MISMATCH, SOLVES, LENGTH + RHS, 0},
    {"U(0,0) is -0", LUMOD_SINGULAR, SOLVES, ZERO, 0},
    {"U(1,1) is NaN", LUMOD_NON_FINITE_DIAGONAL, SOLVES, NAN_ENTRY, 1},
};

static void apply(const struct fault *f, struct managed *c, struct memory *m) {
    switch (f->change) {
    case LENT_NAN:
        *lent_at(c, m, f->value) = NAN;
        break;
    case CAPACITY:
        c->c = f->value;
        break;
    case DIMENSION:
        c->n = c->c + f->value;
        break;
    case FULL:
        c->n = c->c;
        m->length[ROW] = m->length[COLUMN] = C;
        set_workspace_lengths(m, C + 1);
        break;
    case WORKSPACES:
        set_workspace_lengths(m, f->value);
        break;
    case UNEQUAL:
        m->length[Y] += f->value & 1;
        m->length[Z] += f->value >> 1 & 1;
        m->length[W] += f->value >> 2 & 1;
        break;
    case ROW_INDEX:
        c->row = c->n + f->value;
        break;
    case COLUMN_INDEX:
        c->column = c->n + f->value;
        break;
    case ZERO:
    case NAN_ENTRY:
        *u_at(m, C, f->value, f->value) = f->change == ZERO ? -0.0 : NAN;
        break;
    default:
        m->length[f->change - LENGTH] = f->value;
    }
}

static struct managed right_call(int function, struct memory *m) {
    return prepare_numbered(m, function, N, C);
}

/* With 9 and 10 the value of the fault is the index of the diagonal entry, with
 * 23 the place. */
static void expect_refused(const char *what, struct managed c, struct memory *m,
                           const struct fault *f) {
    struct managed after = c;
    if (f->number == LUMOD_SINGULAR || f->number == LUMOD_NON_FINITE_DIAGONAL ||
        f->number == LUMOD_NON_FINITE_DATA) {
        after.index = f->value;
    }
    check_kept(what, c, m, f->number, after);
}

/* The numbers in the order in which they are tested. */
static const uint32_t order[] = {
    LUMOD_INVALID_DIMENSION,
    LUMOD_SIZE_OVERFLOW,
    LUMOD_INSUFFICIENT_L,
    LUMOD_INSUFFICIENT_U,
    LUMOD_UNEQUAL_WORKSPACES,
    LUMOD_CAPACITY_EXCEEDED,
    LUMOD_ROW_OUT_OF_BOUNDS,
    LUMOD_COLUMN_OUT_OF_BOUNDS,
    LUMOD_LENGTH_MISMATCH,
    LUMOD_NON_FINITE_DATA,
    LUMOD_INSUFFICIENT_WORKSPACE,
    LUMOD_SINGULAR,
    LUMOD_NON_FINITE_DIAGONAL,
};

static const struct fault *tested_first(const struct fault *a, const struct fault *b) {
    for (size_t k = 0; k < COUNT(order); k++) {
        if (order[k] == a->number) {
            return a;
        }
        if (order[k] == b->number) {
            return b;
        }
    }
    abort();
}

/* Two changes of one thing are no two faults, and n is not both c and more. Two
 * places are two things. */
static int apart(const struct fault *a, const struct fault *b) {
    if (a == b || a->change == LENT_NAN) {
        return 1;
    }
    return a->change != b->change && !(a->change == DIMENSION && b->change == FULL);
}

static void check_faults(int function, const struct fault *a, const struct fault *b) {
    char what[100];
    struct memory m;
    struct managed c = right_call(function, &m);
    snprintf(what, sizeof what, "%s: %s%s%s", function_names[function], a->what,
             a == b ? "" : " and ", a == b ? "" : b->what);
    apply(a, &c, &m);
    if (a != b) {
        apply(b, &c, &m);
    }
    expect_refused(what, c, &m, tested_first(a, b));
}

static void one_and_two_faults(int function) {
    for (size_t j = 0; j < COUNT(faults); j++) {
        for (size_t k = j; k < COUNT(faults); k++) {
            if (faults[j].functions & faults[k].functions & 1 << function &&
                apart(&faults[j], &faults[k])) {
                check_faults(function, &faults[j], &faults[k]);
            }
        }
    }
}

/* Capacities and dimensions at the end of their range. */
static void extremes(int function) {
    static const struct {
        size_t c, n;
        uint32_t number;
    } rows[] = {
        {SIZE_MAX, N, LUMOD_SIZE_OVERFLOW},
        {SIZE_MAX, SIZE_MAX, LUMOD_SIZE_OVERFLOW},
        {SIZE_MAX - 1, SIZE_MAX - 1, LUMOD_SIZE_OVERFLOW},
        {SIZE_MAX - 1, SIZE_MAX, LUMOD_INVALID_DIMENSION},
        {C, SIZE_MAX, LUMOD_INVALID_DIMENSION},
        {0, 1, LUMOD_INVALID_DIMENSION},
        {TWO_TO_32 - 1, N, LUMOD_INSUFFICIENT_L},
        {TWO_TO_32 - 1, TWO_TO_32 - 1, LUMOD_INSUFFICIENT_L},
        {65536, N, LUMOD_INSUFFICIENT_L},
        {C + 1, N, LUMOD_INSUFFICIENT_L},
    };
    for (size_t k = 0; k < COUNT(rows); k++) {
        struct memory m;
        struct managed c = right_call(function, &m);
        c.c = rows[k].c;
        c.n = rows[k].n;
        check_kept(function_names[function], c, &m, rows[k].number, c);
    }
}

/* 65536 * 65537 is 65536 in 32 bits. */
static void long_buffers(void) {
    size_t length = 65536;
    double *l = calloc(length, sizeof *l), *u = calloc(length, sizeof *u);
    uint8_t ready = 7;
    if (!l || !u) {
        abort();
    }
    check_number("adopt", lumod_from_storage(0, length, l, length, u, length),
                 LUMOD_INSUFFICIENT_L);
    check_number("ready", lumod_ready(0, length, l, length, u, length, &ready),
                 LUMOD_INSUFFICIENT_L);
    check_number("*ready", ready, 7);
    free(l), free(u);
}

void check_managed_refusals(void) {
    for (int function = PUSH; function < FUNCTIONS; function++) {
        char name[60];
        snprintf(name, sizeof name, "%s: one fault, and two at once", function_names[function]);
        begin_group(name);
        one_and_two_faults(function);
        extremes(function);
        end_group();
    }
    begin_group("lengths beyond 32 bits");
    long_buffers();
    end_group();
}
