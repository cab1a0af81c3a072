#ifndef ZERO_BASED_REFUSALS_H
#define ZERO_BASED_REFUSALS_H

/* Every refusal of the three calls, by itself and in its order. */
void check_zero_based_refusals(void);

#endif
