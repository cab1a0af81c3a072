#include "checked_memory.h"

#include <inttypes.h>
#include <math.h>
#include <stdio.h>
#include <string.h>

static const char *const buffer_names[BUFFERS] = {"l", "u",   "y",      "z",
                                                  "w", "row", "column", "rhs"};

static const char *group;
static long checks, failures;
static long checks_before, failures_before;

void begin_group(const char *name) {
    group = name;
    checks_before = checks;
    failures_before = failures;
}

void end_group(void) {
    printf("%-54s %8ld checks, %ld failed\n", group, checks - checks_before,
           failures - failures_before);
}

int end_checks(void) {
    printf("%ld checks, %ld failed\n", checks, failures);
    return failures != 0;
}

double *buffer_at(struct memory *m, int buffer, size_t place) {
    return &m->cells[buffer][BESIDE + place];
}

double *l_at(struct memory *m, size_t capacity, size_t i, size_t j) {
    return buffer_at(m, L, i * capacity + j);
}

/* Row i of U starts after the rows above it, each a double shorter than the one before. */
double *u_at(struct memory *m, size_t capacity, size_t i, size_t j) {
    size_t start = 0;
    for (size_t row = 0; row < i; row++) {
        start += capacity - row;
    }
    return buffer_at(m, U, start + j - i);
}

void put(struct memory *m, int buffer, size_t count, const double *values) {
    memcpy(buffer_at(m, buffer, 0), values, count * sizeof *values);
}

void put_l(struct memory *m, size_t capacity, size_t n, const double *l) {
    for (size_t i = 0; i < n; i++) {
        for (size_t j = 0; j < n; j++) {
            *l_at(m, capacity, i, j) = *l++;
        }
    }
}

void put_u(struct memory *m, size_t capacity, size_t n, const double *u) {
    for (size_t i = 0; i < n; i++) {
        for (size_t j = i; j < n; j++) {
            *u_at(m, capacity, i, j) = *u++;
        }
    }
}

void copy_active(struct memory *to, struct memory *from, size_t capacity, size_t n) {
    for (size_t i = 0; i < n; i++) {
        for (size_t j = 0; j < n; j++) {
            *l_at(to, capacity, i, j) = *l_at(from, capacity, i, j);
        }
        for (size_t j = i; j < n; j++) {
            *u_at(to, capacity, i, j) = *u_at(from, capacity, i, j);
        }
    }
}

void mark_all(struct memory *m) {
    for (size_t b = 0; b < BUFFERS; b++) {
        for (size_t place = 0; place < CELLS; place++) {
            uint64_t pattern = UINT64_C(0x7ff8000000000001) + (b << 16) + place;
            memcpy(&m->cells[b][place], &pattern, sizeof pattern);
        }
    }
}

void number_all(struct memory *m) {
    for (int b = 0; b < BUFFERS; b++) {
        for (int place = 0; place < CELLS; place++) {
            m->cells[b][place] = CELLS * b + place + 0.25;
        }
    }
}

void set_workspace_lengths(struct memory *m, size_t length) {
    m->length[Y] = m->length[Z] = m->length[W] = length;
}

void check_number(const char *what, uint64_t found, uint64_t expected) {
    checks++;
    if (found != expected) {
        failures++;
        printf("%s: %s: %" PRIu64 ", expected %" PRIu64 "\n", group, what, found, expected);
    }
}

static void check_cell(const char *what, int buffer, int place, const double *found,
                       const double *expected) {
    uint64_t found_bits, expected_bits;
    memcpy(&found_bits, found, sizeof found_bits);
    memcpy(&expected_bits, expected, sizeof expected_bits);
    checks++;
    if (found_bits != expected_bits) {
        failures++;
        printf("%s: %s: %s[%d] is %016" PRIx64 " (%g), expected %016" PRIx64 " (%g)\n", group,
               what, buffer_names[buffer], place, found_bits, *found, expected_bits, *expected);
    }
}

/* Equal buffers are compared at once, as most are equal. */
static void check_buffer(const char *what, int buffer, const double *found,
                         const double *expected) {
    if (memcmp(found, expected, CELLS * sizeof *found) == 0) {
        checks += CELLS;
        return;
    }
    for (int place = 0; place < CELLS; place++) {
        check_cell(what, buffer, place - BESIDE, &found[place], &expected[place]);
    }
}

void check_memory(const char *what, const struct memory *found, const struct memory *expected) {
    for (int b = 0; b < BUFFERS; b++) {
        check_buffer(what, b, found->cells[b], expected->cells[b]);
    }
}

void allow_scratch(struct memory *expected, struct memory *found, int buffer, size_t place,
                   size_t count) {
    memcpy(buffer_at(expected, buffer, place), buffer_at(found, buffer, place),
           count * sizeof(double));
}

void allow_workspaces(struct memory *expected, struct memory *found, size_t count) {
    for (int b = Y; b <= W; b++) {
        allow_scratch(expected, found, b, 0, count);
    }
}

void allow_dropped(struct memory *expected, struct memory *found, size_t capacity, size_t n) {
    for (size_t k = 0; k < n; k++) {
        *l_at(expected, capacity, n - 1, k) = *l_at(found, capacity, n - 1, k);
        *l_at(expected, capacity, k, n - 1) = *l_at(found, capacity, k, n - 1);
        *u_at(expected, capacity, k, n - 1) = *u_at(found, capacity, k, n - 1);
    }
}

static void allow_nan(double *expected, const double *found) {
    if (isnan(*expected) && isnan(*found)) {
        *expected = *found;
    }
}

void allow_nans(struct memory *expected, struct memory *found, int buffer, size_t count) {
    for (size_t place = 0; place < count; place++) {
        allow_nan(buffer_at(expected, buffer, place), buffer_at(found, buffer, place));
    }
}

void allow_active_nans(struct memory *expected, struct memory *found, size_t capacity,
                       size_t n) {
    for (size_t i = 0; i < n; i++) {
        for (size_t j = 0; j < n; j++) {
            allow_nan(l_at(expected, capacity, i, j), l_at(found, capacity, i, j));
        }
        for (size_t j = i; j < n; j++) {
            allow_nan(u_at(expected, capacity, i, j), u_at(found, capacity, i, j));
        }
    }
}
