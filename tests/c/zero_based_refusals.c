#include "zero_based_refusals.h"

#include <stdio.h>
#include <stdlib.h>

#include "zero_based_calls.h"

enum { MAXMOD = 3, N = 2 };
enum function { LUMOD, LPROD, USOLVE };

static const char *const function_names[] = {"LUmod", "Lprod", "Usolve"};

static const int32_t no_dimension[] = {0, -1, -2, -65535, INT32_MIN};
static const int32_t no_mode[] = {0, -1, 5, 6, 257, 65537, INT32_MIN, INT32_MAX};
static const int32_t no_index[] = {-1, N, N + 1, 256, 65536, INT32_MIN, INT32_MAX};
/* 65537 is 1 in 16 bits. The square of 65536 is 0 in 32 bits. */
static const int32_t large_maxmod[] = {4, 257, 46341, 65536, 65537, INT32_MAX - 1, INT32_MAX};
static const int32_t large_dimension[] = {MAXMOD + 1, 257, 65537, INT32_MAX - 1, INT32_MAX};
static const int32_t small_maxmod[] = {1, 0, -1, -2, INT32_MIN};

static uint32_t invoke(enum function f, struct call c, struct memory *m) {
    return f == LUMOD ? call_lumod(c, m) : f == LPROD ? call_lprod(c, m) : call_usolve(c, m);
}

/* The lengths are those that MAXMOD and N need. */
static void fill(struct memory *m) {
    prepare(m, make_call(1, MAXMOD, N), 0);
    number_all(m);
}

static void expect(enum function f, struct call c, struct memory *m, uint32_t number) {
    char what[120];
    struct memory before = *m;
    snprintf(what, sizeof what, "%s mode %d maxmod %d n %d krow %d kcol %d", function_names[f],
             (int)c.mode, (int)c.maxmod, (int)c.n, (int)c.krow, (int)c.kcol);
    check_number(what, invoke(f, c, m), number);
    check_memory(what, m, &before);
}

/* The number is the same whatever else is wrong: a short buffer, no room at
 * all, or n beyond the stride. */
static void expect_passed_over(enum function f, struct call c) {
    struct memory m;
    fill(&m);
    expect(f, c, &m, LUMOD_PASSED_OVER);
    for (int b = 0; b <= W; b++) {
        fill(&m);
        m.length[b]--;
        expect(f, c, &m, LUMOD_PASSED_OVER);
    }
    for (int b = 0; b <= W; b++) {
        m.length[b] = 0;
    }
    expect(f, c, &m, LUMOD_PASSED_OVER);
    c.maxmod = 0;
    expect(f, c, &m, LUMOD_PASSED_OVER);
    c.maxmod = INT32_MAX;
    expect(f, c, &m, LUMOD_PASSED_OVER);
}

static void dimensions(enum function f) {
    for (int32_t mode = 1; mode <= 4; mode++) {
        for (size_t k = 0; k < COUNT(no_dimension); k++) {
            expect_passed_over(f, make_call(mode, MAXMOD, no_dimension[k]));
        }
    }
}

static void modes(void) {
    for (size_t k = 0; k < COUNT(no_mode); k++) {
        expect_passed_over(LUMOD, make_call(no_mode[k], MAXMOD, N));
    }
}

static void indices(void) {
    for (size_t k = 0; k < COUNT(no_index); k++) {
        struct call column = {2, MAXMOD, N, 0, no_index[k]};
        struct call row = {3, MAXMOD, N, no_index[k], 0};
        expect_passed_over(LUMOD, column);
        expect_passed_over(LUMOD, row);
        column.mode = 4;
        row.mode = 4;
        expect_passed_over(LUMOD, column);
        expect_passed_over(LUMOD, row);
        row.kcol = no_index[k];
        expect_passed_over(LUMOD, row);
    }
}

/* Which buffers a function is lent. */
static int is_lent(enum function f, int buffer) {
    return f == LUMOD || (f == LPROD && (buffer == L || buffer == Y || buffer == Z)) ||
           (f == USOLVE && (buffer == U || buffer == Y));
}

static void short_buffers(enum function f, struct call c) {
    struct memory m;
    for (int b = 0; b <= W; b++) {
        if (is_lent(f, b)) {
            fill(&m);
            m.length[b]--;
            expect(f, c, &m, LUMOD_TOO_SMALL);
            m.length[b] = 0;
            expect(f, c, &m, LUMOD_TOO_SMALL);
        }
    }
}

static void long_vectors(struct memory *m) {
    fill(m);
    set_workspace_lengths(m, ROOM);
}

static void beyond_stride(enum function f, struct call c) {
    struct memory m;
    for (size_t k = 0; k < COUNT(large_dimension); k++) {
        c.n = large_dimension[k];
        long_vectors(&m);
        expect(f, c, &m, LUMOD_TOO_SMALL);
        m.length[L] = m.length[U] = ROOM;
        expect(f, c, &m, LUMOD_TOO_SMALL);
        c.krow = c.kcol = c.n - 1;
        expect(f, c, &m, LUMOD_TOO_SMALL);
    }
}

static void strides(enum function f, struct call c) {
    struct memory m;
    for (size_t k = 0; k < COUNT(large_maxmod); k++) {
        c.maxmod = large_maxmod[k];
        long_vectors(&m);
        expect(f, c, &m, LUMOD_TOO_SMALL);
    }
    for (size_t k = 0; k < COUNT(small_maxmod); k++) {
        c.maxmod = small_maxmod[k];
        long_vectors(&m);
        expect(f, c, &m, LUMOD_TOO_SMALL);
    }
}

static void too_small(enum function f, int32_t mode) {
    struct call c = {mode, MAXMOD, N, N - 1, 0};
    short_buffers(f, c);
    beyond_stride(f, c);
    strides(f, c);
}

/* 65536 * 65537 / 2 is 32768 in 32 bits. */
static void long_triangle(void) {
    size_t length = 32768;
    double *u = calloc(length, sizeof *u), y = 1;
    if (!u) {
        abort();
    }
    check_number("u of 32768 doubles", Usolve(1, 65536, 1, u, length, &y, 1), LUMOD_TOO_SMALL);
    check_number("y is kept", y == 1, 1);
    free(u);
}

/* At a maxmod of 1 or less the stride is 1, and one double is enough. */
static void stride_one(void) {
    struct memory m;
    for (size_t k = 0; k < COUNT(small_maxmod); k++) {
        struct call c = make_call(1, small_maxmod[k], 1);
        prepare(&m, c, 0);
        put(&m, Y, 1, (double[]){8});
        check_update("push", c, &m, (double[]){1}, (double[]){8});
        c.mode = 2;
        put(&m, Z, 1, (double[]){-3});
        check_update("replace column", c, &m, (double[]){1}, (double[]){-3});
        c.mode = 3;
        put(&m, Y, 1, (double[]){4});
        check_update("replace row", c, &m, (double[]){1}, (double[]){4});
        put(&m, Y, 1, (double[]){6});
        check_product("product", c, &m, (double[]){6});
        check_solve("solve", c, &m, (double[]){1.5});
        c.mode = 4;
        check_update("remove", c, &m, NULL, NULL);
    }
}

/* An index that the mode does not use may be anything. */
static void unused_indices(void) {
    struct memory m;
    for (size_t k = 0; k < COUNT(no_index); k++) {
        struct call push = {1, MAXMOD, 1, no_index[k], no_index[k]};
        prepare(&m, push, 1);
        put(&m, Y, 1, (double[]){8});
        check_update("push", push, &m, (double[]){1}, (double[]){8});
        struct call column = {2, MAXMOD, 1, no_index[k], 0};
        put(&m, Z, 1, (double[]){5});
        check_update("replace column", column, &m, (double[]){1}, (double[]){5});
        struct call row = {3, MAXMOD, 1, 0, no_index[k]};
        put(&m, Y, 1, (double[]){7});
        check_update("replace row", row, &m, (double[]){1}, (double[]){7});
    }
}

void check_zero_based_refusals(void) {
    begin_group("LUmod passed over, before any other refusal");
    dimensions(LUMOD);
    modes();
    indices();
    end_group();
    begin_group("LUmod with a stride or buffer that is too small");
    for (int32_t mode = 1; mode <= 4; mode++) {
        too_small(LUMOD, mode);
    }
    end_group();
    for (enum function f = LPROD; f <= USOLVE; f++) {
        begin_group(f == LPROD ? "refusals of Lprod" : "refusals of Usolve");
        dimensions(f);
        too_small(f, 1);
        too_small(f, 2);
        end_group();
    }
    begin_group("lengths beyond 32 bits");
    long_triangle();
    end_group();
    begin_group("stride 1 where maxmod is 1 or less");
    stride_one();
    end_group();
    begin_group("indices that the mode does not use");
    unused_indices();
    end_group();
}
