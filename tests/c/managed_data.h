#ifndef MANAGED_DATA_H
#define MANAGED_DATA_H

/* Infinities and NaNs: refused in the data of an update, computed with elsewhere. */
void check_data(void);

#endif
