#ifndef MANAGED_FLAGS_H
#define MANAGED_FLAGS_H

/* Calls that are refused for a value leave the processor's floating-point flags alone. */
void check_flags(void);

#endif
