#ifndef MANAGED_READY_H
#define MANAGED_READY_H

/* Readiness: what ready tells of every place of the storage, and what it does not promise. */
void check_readiness(void);

#endif
