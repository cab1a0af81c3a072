/*
 * Buffers with marks in and beside them, and the checks of a call on them.
 * After each call every double of every buffer is compared bit for bit, and so
 * are the doubles beside the buffers. Scratch alone is left out.
 */
#ifndef CHECKED_MEMORY_H
#define CHECKED_MEMORY_H

#include <stddef.h>
#include <stdint.h>

#define COUNT(table) (sizeof(table) / sizeof *(table))

enum { BESIDE = 4, ROOM = 312, CELLS = BESIDE + ROOM + BESIDE };
/* ROW, COLUMN and RHS are lent to managed calls alone. */
enum { L, U, Y, Z, W, ROW, COLUMN, RHS, BUFFERS };

/* Buffer b starts at cells[b][BESIDE] and is length[b] long. */
struct memory {
    double cells[BUFFERS][CELLS];
    size_t length[BUFFERS];
};

/* Groups of checks. A group's line is printed at its end. */
void begin_group(const char *name);
void end_group(void);
/* Prints the sum of all groups. The result is the program's exit status. */
int end_checks(void);

double *buffer_at(struct memory *m, int buffer, size_t place);
double *l_at(struct memory *m, size_t capacity, size_t i, size_t j);
double *u_at(struct memory *m, size_t capacity, size_t i, size_t j);
void put(struct memory *m, int buffer, size_t count, const double *values);
/* Active entries at dimension n, by rows. */
void put_l(struct memory *m, size_t capacity, size_t n, const double *l);
void put_u(struct memory *m, size_t capacity, size_t n, const double *u);
void copy_active(struct memory *to, struct memory *from, size_t capacity, size_t n);

/* A NaN of its own at every place, so that reading one shows. */
void mark_all(struct memory *m);
/* A number of its own at every place, so that writing one shows. */
void number_all(struct memory *m);
void set_workspace_lengths(struct memory *m, size_t length);

void check_number(const char *what, uint64_t found, uint64_t expected);
void check_memory(const char *what, const struct memory *found, const struct memory *expected);

/* What was found becomes what is expected: where scratch may hold anything, and
 * where both are NaNs. */
void allow_scratch(struct memory *expected, struct memory *found, int buffer, size_t place,
                   size_t count);
void allow_workspaces(struct memory *expected, struct memory *found, size_t count);
/* The last row and column of dimension n, which a removal drops. */
void allow_dropped(struct memory *expected, struct memory *found, size_t capacity, size_t n);
void allow_nans(struct memory *expected, struct memory *found, int buffer, size_t count);
void allow_active_nans(struct memory *expected, struct memory *found, size_t capacity,
                       size_t n);

#endif
