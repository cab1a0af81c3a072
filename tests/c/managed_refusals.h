#ifndef MANAGED_REFUSALS_H
#define MANAGED_REFUSALS_H

/* Every refusal of the managed calls, by itself and with every other. */
void check_managed_refusals(void);

#endif
