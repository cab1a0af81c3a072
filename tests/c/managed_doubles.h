/* Doubles of every kind and size, by their bits. */
#ifndef MANAGED_DOUBLES_H
#define MANAGED_DOUBLES_H

#include <stdint.h>

/* Infinities, and quiet and signalling NaNs, of both signs. */
extern const uint64_t non_finite_bits[10];
/* Zeros, which come first, subnormals and normal doubles, of both signs. */
extern const uint64_t finite_bits[12];
enum { ZEROS = 2 };

void put_bits(double *to, uint64_t bits);

#endif
