#ifndef MANAGED_COUNTER_H
#define MANAGED_COUNTER_H

/* The pair steps of an update, and the counter that adds them up. */
void check_counter(void);

#endif
