#include "managed_doubles.h"

#include <string.h>

const uint64_t non_finite_bits[] = {
    UINT64_C(0x7ff0000000000000), /* infinities */
    UINT64_C(0xfff0000000000000),
    UINT64_C(0x7ff8000000000000), /* quiet NaNs */
    UINT64_C(0xfff8000000000000),
    UINT64_C(0x7fffffffffffffff),
    UINT64_C(0xffffffffffffffff),
    UINT64_C(0x7ff0000000000001), /* signalling NaNs */
    UINT64_C(0xfff0000000000001),
    UINT64_C(0x7ff0000100000000),
    UINT64_C(0xfff7ffffffffffff),
};

const uint64_t finite_bits[] = {
    UINT64_C(0x0000000000000000), /* zeros */
    UINT64_C(0x8000000000000000),
    UINT64_C(0x0000000000000001), /* subnormals */
    UINT64_C(0x8000000000000001),
    UINT64_C(0x000fffffffffffff),
    UINT64_C(0x800fffffffffffff),
    UINT64_C(0x0010000000000000), /* the least normal doubles */
    UINT64_C(0x8010000000000000),
    UINT64_C(0x7fe0000000000000), /* the largest powers of two */
    UINT64_C(0xffe0000000000000),
    UINT64_C(0x7fefffffffffffff), /* the largest finite doubles */
    UINT64_C(0xffefffffffffffff),
};

void put_bits(double *to, uint64_t bits) { memcpy(to, &bits, sizeof bits); }
