#ifndef MANAGED_KEPT_MATRIX_H
#define MANAGED_KEPT_MATRIX_H

/* A long list of updates, with the matrix itself kept beside the factors. */
void check_kept_matrix(void);

#endif
