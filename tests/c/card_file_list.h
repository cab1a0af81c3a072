/* A list of managed calls, the same in every process, and states that it is made on. */
#ifndef CARD_FILE_LIST_H
#define CARD_FILE_LIST_H

#include <stddef.h>
#include <stdint.h>

/* The counter stops at 999999 within the list. */
enum { CALLS = 64, LARGEST = 11, FIRST_COUNTER = 999700 };

/* A dimension, a capacity, a counter, and storage exactly as long as needed. */
struct state {
    size_t n, c, counter;
    double *l, *u;
};

/* What a call answered. The solution is that of a solve. */
struct answered {
    uint32_t number;
    size_t steps, moved_row, moved_column;
    double solution[LARGEST];
};

/* Of dimension 0, at a capacity of at least LARGEST. The storage holds NaNs. */
struct state new_state(size_t c);
void end_state(struct state *s);

/* Call k of the list, from 0 on. The workspaces hold NaNs. */
struct answered make_call(struct state *s, size_t k);

/* The checks that two states and answers are the same, NaNs alike. */
void check_same_answer(size_t k, const struct answered *found, const struct answered *expected);
void check_same_state(size_t k, const struct state *found, const struct state *expected);

#endif
