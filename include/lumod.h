/*
 * lumod.h: calls on the factors of a matrix that is being changed. Link with
 * liblumod.a. For C (C99 on) and C++, where size_t has 64 bits.
 *
 * The factors of an n by n matrix A are L and U with L * A = U. L is square,
 * U is upper triangular, and n is the dimension. Updates append, replace and
 * remove rows and columns of A and bring L and U up to date. A solve gives the
 * x with A * x = b, or with A' * x = b, where A' is the transpose. There are
 * two families of calls:
 *
 *     managed     lumod_push and all others whose names begin with lumod_. A
 *                 solve is one call, and tests U's diagonal. An update tests
 *                 whether its data are finite.
 *     zero-based  LUmod, which is every update by a mode, and Lprod and
 *                 Usolve, the two halves of a solve. No diagonal and no data
 *                 are tested.
 *
 * Storage. The caller owns every buffer. Rows and columns are numbered from 0.
 * The capacity c is the largest dimension that the storage can hold, and it
 * stays the same as long as the factors are kept. In the zero-based calls it
 * is the stride, which is the larger of maxmod and 1.
 *
 *     L(i,j)           is l[i * c + j]
 *     U(i,j), i <= j,  is u[i * c - i * (i - 1) / 2 + j - i]
 *     solve work       is l[c * c] to l[c * (c + 1) - 1], managed calls only
 *     l_len            is at least c * (c + 1), in zero-based calls c * c
 *     u_len            is at least c * (c + 1) / 2
 *
 * The active entries at dimension n are L(i,j) with i < n and j < n, and
 * U(i,j) with i <= j and j < n. Longer buffers are allowed. An empty matrix
 * has dimension 0 and no active entries: new storage may hold anything. Above
 * dimension 0 the active entries are those that an earlier call left at the
 * same capacity. This is not tested: whatever they hold is computed with.
 *
 * Buffers. A buffer is a pointer and then its length in doubles. The pointer
 * is aligned for double, and as many doubles as the length says can be read
 * there, and written unless it is a pointer to const. A card is a buffer of
 * bytes, with its length in bytes and at any address. Every other pointer
 * leads to one number that can be read and written. No pointer is null, also
 * where a length is 0. What the pointers of one call lead to does not overlap.
 * These points are not tested.
 *
 * Numbers. Every operation is IEEE 754 binary64, rounded once, in the default
 * floating-point environment: to nearest, with subnormals. Zeros, infinities
 * and NaNs are computed with, in factors, in right-hand sides and in all that
 * a zero-based call is handed. A managed update refuses infinities and NaNs in
 * the data that it is lent, and nowhere else. Finite means neither infinite
 * nor NaN. A computed NaN may have any sign and payload. The tolerances of the
 * updates are E, which is 2^-52 in the managed calls and the double nearest
 * 2.22e-16 in the zero-based ones, and T, which is E times the double nearest
 * 0.0001.
 *
 * State. The functions keep nothing between calls. The host keeps n, c and the
 * buffers, and for the managed calls a counter. Calls on different buffers and
 * counters may run at the same time.
 */
#ifndef LUMOD_H
#define LUMOD_H

#include <stddef.h>
#include <stdint.h>

/*
 * What the functions return. All but LUMOD_OK are refusals, and with a refusal
 * nothing is written anywhere, except that *index is written with 9, 10 and
 * 23, *block with 16, and *steps by every managed update. With every other
 * number, LUMOD_OK among them, *index and *block are unchanged. They need no
 * content before the call.
 */
#define LUMOD_OK 0u                     /* carried out */
#define LUMOD_INVALID_DIMENSION 1u      /* n is more than the capacity */
#define LUMOD_SIZE_OVERFLOW 2u          /* a length would exceed SIZE_MAX */
#define LUMOD_INSUFFICIENT_L 3u         /* l is too short */
#define LUMOD_CAPACITY_EXCEEDED 4u      /* a push where n is the capacity */
#define LUMOD_ROW_OUT_OF_BOUNDS 5u      /* the row index is n or more */
#define LUMOD_COLUMN_OUT_OF_BOUNDS 6u   /* the column index is n or more */
#define LUMOD_LENGTH_MISMATCH 7u        /* data that are not n long */
#define LUMOD_INSUFFICIENT_WORKSPACE 8u /* y, z and w too short for n */
#define LUMOD_SINGULAR 9u               /* a zero on U's diagonal */
#define LUMOD_NON_FINITE_DIAGONAL 10u   /* an infinity or NaN on it */
#define LUMOD_PASSED_OVER 11u           /* n, mode or index: nothing to do */
#define LUMOD_TOO_SMALL 12u             /* stride or buffer too small for n */
#define LUMOD_INSUFFICIENT_U 13u        /* u is too short */
#define LUMOD_UNEQUAL_WORKSPACES 14u    /* y, z and w of unequal length */
#define LUMOD_INVALID_CARD_LENGTH 15u   /* not whole blocks, or too short */
#define LUMOD_DAMAGED_BLOCK 16u         /* a block whose check word is wrong */
#define LUMOD_INVALID_CARD 17u          /* sound blocks that are no card */
#define LUMOD_NON_FINITE_DATA 23u       /* an infinity or NaN in lent data */

#ifdef __cplusplus
extern "C" {
#endif

/*
 * The managed calls.
 *
 * A call tests its refusals in the order in which its comment lists them, and
 * returns the first whose condition holds. Where none holds it is carried out
 * and returns LUMOD_OK. Two groups of tests are common to many calls. The
 * storage tests are
 *
 *     LUMOD_INVALID_DIMENSION   n is more than c.
 *     LUMOD_SIZE_OVERFLOW       c + 1 or c * (c + 1) is more than SIZE_MAX,
 *                               which means that c is 2^32 or more.
 *     LUMOD_INSUFFICIENT_L      l_len is less than c * (c + 1).
 *     LUMOD_INSUFFICIENT_U      u_len is less than c * (c + 1) / 2.
 *
 * and the workspace test is
 *
 *     LUMOD_UNEQUAL_WORKSPACES  y_len, z_len and w_len are not all equal.
 *
 * So each number names the buffer that is wrong. In the Rust the last three of
 * these five are one error, InsufficientStorage.
 *
 * Data. What lumod_push, lumod_replace_row and lumod_replace_column are lent
 * to put into A must be finite, or else they return LUMOD_NON_FINITE_DATA and
 * name the first place where it is not. The Rust has no such test. No other
 * call has it, and no update tests what the factors and the workspaces hold.
 *
 * The workspaces y, z and w need no content. In the comments on lumod_push and
 * lumod_remove, n is what *n holds before the call. A scratch entry may hold
 * anything after the call. Every entry that is not listed is unchanged.
 *
 * The counter. An update eliminates the entries of a row or a column one after
 * another. Each elimination is a pair step, also where its multiplier is zero.
 * An entry that is passed over, as one within the tolerance E is, takes none.
 * The counter adds up the pair steps of all updates. The host keeps it as it
 * keeps n, sets it to 0 when it adopts storage or gets it from a card, and
 * hands it to each update. Of the other calls lumod_write_card and
 * lumod_read_card alone take it. *steps needs no content before the call.
 *
 *     LUMOD_OK   *steps is the exact number of the update's pair steps.
 *                *counter grows by it, but stops at 999999. A larger figure
 *                handed in counts as 999999, also where *steps is 0.
 *     a refusal  *steps is 0. *counter is unchanged, whatever it holds.
 */

/*
 * lumod_storage_lengths gives the lengths of l and u for a capacity.
 *
 * Needs: nothing but the capacity, which is c here.
 *
 * Returns:
 *     LUMOD_OK             The lengths are in *l and *u.
 *     LUMOD_SIZE_OVERFLOW  As in the storage tests.
 *
 * Leaves, with LUMOD_OK:
 *     *l  c * (c + 1)
 *     *u  c * (c + 1) / 2
 */
uint32_t lumod_storage_lengths(size_t capacity, size_t *l, size_t *u);

/*
 * lumod_from_storage tells whether storage can be adopted at dimension n and
 * capacity c. No other call depends on it: each tests its storage itself.
 *
 * Needs: the lengths of l and u. What they hold is not looked at.
 *
 * Returns:
 *     LUMOD_OK  The storage can be adopted.
 *     the storage tests
 *
 * Leaves: l and u unchanged.
 */
uint32_t lumod_from_storage(size_t n, size_t c, const double *l, size_t l_len,
                            const double *u, size_t u_len);

/*
 * lumod_push appends a last row and a last column. Where A was the matrix, it
 * becomes
 *
 *     A    column
 *     row  diagonal
 *
 * Needs: factors of dimension n less than c; row and column exactly n long,
 * and all their values and diagonal finite; y, z and w at least n + 1 long.
 *
 * Returns:
 *     LUMOD_OK                      The row and the column were appended.
 *     the storage tests
 *     the workspace test
 *     LUMOD_CAPACITY_EXCEEDED       n is c.
 *     LUMOD_LENGTH_MISMATCH         row_len or column_len is not n.
 *     LUMOD_NON_FINITE_DATA         A value in row or in column, or diagonal,
 *                                   is infinite or NaN.
 *     LUMOD_INSUFFICIENT_WORKSPACE  y_len is less than n + 1.
 *
 * Leaves, with LUMOD_OK:
 *     *n       n + 1
 *     *steps   At most n.
 *     l        L(i,j), i <= n and j <= n.
 *     u        U(i,j), i <= j <= n.
 *     y, z, w  The first n + 1 entries are scratch.
 * With LUMOD_NON_FINITE_DATA:
 *     *index  The place of the first such value: i for row[i], n + i for
 *             column[i], 2 * n for diagonal.
 */
uint32_t lumod_push(size_t *n, size_t c, double *l, size_t l_len, double *u,
                    size_t u_len, double *y, size_t y_len, double *z,
                    size_t z_len, double *w, size_t w_len, const double *row,
                    size_t row_len, const double *column, size_t column_len,
                    double diagonal, size_t *counter, size_t *steps,
                    size_t *index);

/*
 * lumod_replace_row replaces a row by values.
 *
 * Needs: factors of dimension n; row less than n; values exactly n long, and
 * all of them finite; y, z and w at least n long.
 *
 * Returns:
 *     LUMOD_OK                      The row was replaced.
 *     the storage tests
 *     the workspace test
 *     LUMOD_ROW_OUT_OF_BOUNDS       row is n or more.
 *     LUMOD_LENGTH_MISMATCH         values_len is not n.
 *     LUMOD_NON_FINITE_DATA         One of the values is infinite or NaN.
 *     LUMOD_INSUFFICIENT_WORKSPACE  y_len is less than n.
 *
 * Leaves, with LUMOD_OK:
 *     *steps   At most 2 * (n - 1).
 *     l        L(i,j), i < n and j < n.
 *     u        U(i,j), i <= j < n.
 *     y, z, w  The first n entries are scratch.
 * With LUMOD_NON_FINITE_DATA:
 *     *index  The place of the first such value: i for values[i].
 */
uint32_t lumod_replace_row(size_t n, size_t c, double *l, size_t l_len,
                           double *u, size_t u_len, double *y, size_t y_len,
                           double *z, size_t z_len, double *w, size_t w_len,
                           size_t row, const double *values, size_t values_len,
                           size_t *counter, size_t *steps, size_t *index);

/*
 * lumod_replace_column replaces a column by values.
 *
 * Needs: factors of dimension n; column less than n; values exactly n long,
 * and all of them finite; y, z and w at least n long.
 *
 * Returns:
 *     LUMOD_OK                      The column was replaced.
 *     the storage tests
 *     the workspace test
 *     LUMOD_COLUMN_OUT_OF_BOUNDS    column is n or more.
 *     LUMOD_LENGTH_MISMATCH         values_len is not n.
 *     LUMOD_NON_FINITE_DATA         One of the values is infinite or NaN.
 *     LUMOD_INSUFFICIENT_WORKSPACE  y_len is less than n.
 *
 * Leaves what lumod_replace_row leaves, but with LUMOD_OK *steps is at most
 * 2 * (n - 1 - column).
 */
uint32_t lumod_replace_column(size_t n, size_t c, double *l, size_t l_len,
                              double *u, size_t u_len, double *y, size_t y_len,
                              double *z, size_t z_len, double *w, size_t w_len,
                              size_t column, const double *values,
                              size_t values_len, size_t *counter,
                              size_t *steps, size_t *index);

/*
 * lumod_remove removes a row and a column. The last row takes the place of the
 * row and the last column the place of the column, unless it is itself the one
 * that is removed.
 *
 * Needs: factors of dimension n; row and column less than n; y, z and w at
 * least n long.
 *
 * Returns:
 *     LUMOD_OK                      The row and the column were removed.
 *     the storage tests
 *     the workspace test
 *     LUMOD_ROW_OUT_OF_BOUNDS       row is n or more.
 *     LUMOD_COLUMN_OUT_OF_BOUNDS    column is n or more.
 *     LUMOD_INSUFFICIENT_WORKSPACE  y_len is less than n.
 *
 * Leaves, with LUMOD_OK:
 *     *n             n - 1
 *     *moved_row     Where a row moved, the index that it had: n - 1, which is
 *                    also the new dimension. SIZE_MAX where row was n - 1 and
 *                    nothing moved.
 *     *moved_column  The same for columns.
 *     *steps         At most 3 * (n - 1).
 *     l              L(i,j), i < n - 1 and j < n - 1. L(n - 1,j) and
 *                    L(j,n - 1) with j < n are scratch.
 *     u              U(i,j), i <= j < n - 1. U(i,n - 1) with i < n is scratch.
 *     y, z, w        The first n entries are scratch.
 */
uint32_t lumod_remove(size_t *n, size_t c, double *l, size_t l_len, double *u,
                      size_t u_len, double *y, size_t y_len, double *z,
                      size_t z_len, double *w, size_t w_len, size_t row,
                      size_t column, size_t *moved_row, size_t *moved_column,
                      size_t *counter, size_t *steps);

/*
 * lumod_solve solves A * x = b in place. rhs is b before the call and x after
 * it. First b becomes the product L * b, whose entry i is the sum of
 * L(i,j) * b(j), j from 0 upward. Then, for row from n - 1 down to 0, b(row)
 * becomes (b(row) - sum) / U(row,row), with the sum of U(row,j) * b(j), j from
 * row + 1 upward. Every sum starts at +0.
 *
 * Needs: factors of dimension n with no zero, infinity or NaN among the
 * U(i,i), i < n; rhs exactly n long. The solve work needs no content. Whether
 * the other active entries are finite is not tested: lumod_ready tells it.
 *
 * Returns:
 *     LUMOD_OK                   The solution is in rhs.
 *     the storage tests
 *     LUMOD_LENGTH_MISMATCH      rhs_len is not n.
 *     LUMOD_SINGULAR             Of the U(i,i), i < n, that are +0, -0,
 *                                infinite or NaN, the first is +0 or -0.
 *     LUMOD_NON_FINITE_DIAGONAL  The first is infinite or NaN.
 *
 * Leaves, with LUMOD_OK:
 *     rhs  The solution.
 *     l    The first n entries of the solve work are scratch.
 * With LUMOD_SINGULAR and LUMOD_NON_FINITE_DIAGONAL:
 *     *index  The i of that first U(i,i).
 */
uint32_t lumod_solve(size_t n, size_t c, double *l, size_t l_len,
                     const double *u, size_t u_len, double *rhs,
                     size_t rhs_len, size_t *index);

/*
 * lumod_solve_transpose solves A' * x = b in place. rhs is b before the call
 * and x after it. First, for row from 0 up to n - 1, b(row) becomes
 * (b(row) - sum) / U(row,row), with the sum of U(j,row) * b(j), j from 0 up to
 * row - 1. Then b becomes the product L' * b, whose entry i is the sum of
 * L(j,i) * b(j), j from 0 upward. Every sum starts at +0.
 *
 * Needs, returns and leaves what lumod_solve does.
 */
uint32_t lumod_solve_transpose(size_t n, size_t c, double *l, size_t l_len,
                               const double *u, size_t u_len, double *rhs,
                               size_t rhs_len, size_t *index);

/*
 * lumod_ready tells whether U's diagonal allows a solve and all active entries
 * are finite.
 *
 * Needs: factors of dimension n. Only their active entries are looked at.
 *
 * Returns:
 *     LUMOD_OK  The answer is in *ready.
 *     the storage tests
 *
 * Leaves, with LUMOD_OK:
 *     *ready  1 where no U(i,i), i < n, is zero and every L(i,j), i < n and
 *             j < n, and every U(i,j), i <= j < n, is finite, else 0. At
 *             dimension 0 it is 1.
 *     l, u    Unchanged.
 *
 * The Rust has no such call, and no other call depends on it. A solve tests
 * U's diagonal alone: with an infinity or a NaN elsewhere the factors are not
 * ready, and a solve is carried out all the same. On factors that are ready,
 * either solve of a finite b can still overflow:
 *
 *     n = 1  L(0,0) = 1 and U(0,0) = 2^-1074: b = (1) gives (infinity).
 *     n = 2  L the identity, U(0,0) = 1, U(0,1) = 0 and U(1,1) = 2^-1074:
 *            b = (1,1) gives (NaN,infinity).
 */
uint32_t lumod_ready(size_t n, size_t c, const double *l, size_t l_len,
                     const double *u, size_t u_len, uint8_t *ready);

/*
 * Cards. A card is a dimension, a counter and the active factors as bytes, to
 * be kept in a file and read later: by any program, at any capacity that is
 * not less than the dimension. Updates and solves then go on as they would
 * have gone on without it. The workspaces and the capacity are not on it.
 *
 * A card consists of blocks of 512 bytes, numbered from 0. A block is 64 words
 * of 64 bits, each with its least significant byte first. The last one is the
 * check word: the sum of the 63 words before it and of the block's number,
 * modulo 2^64. In bytes this is the block's number and each of the 504 bytes
 * before the check word times 256 to the power of its place in its word, added
 * up modulo 2^64.
 *
 *     block 0           Word 0 is n, word 1 the number of all blocks, block 0
 *                       included, and word 2 the counter, a larger figure than
 *                       999999 being written as 999999. Words 3 to 62 are 0.
 *     all other blocks  The active L(i,j) row by row, then the active U(i,j)
 *                       row by row, each row from its diagonal entry on: the
 *                       bits of the doubles, 63 in a block. A NaN is always
 *                       0x7FF8000000000000. The rest of the last block is 0.
 *
 * At dimension 0 there is block 0 alone. Equal dimensions, counters and active
 * entries, with all NaNs alike, always give the same bytes.
 *
 * A card that is read is, byte for byte, what lumod_write_card writes of the
 * state that was read. Damage within one word of a block is always found then.
 * Damage to several words of a block is not found where it leaves their sum as
 * it was.
 */

/*
 * lumod_card_length gives the length of a card in bytes.
 *
 * Needs: nothing but the dimension.
 *
 * Returns:
 *     LUMOD_OK             The length is in *bytes.
 *     LUMOD_SIZE_OVERFLOW  It is more than SIZE_MAX, which means that n is
 *                          1230125797 or more.
 *
 * Leaves, with LUMOD_OK:
 *     *bytes  512 * (1 + e / 63), with e / 63 rounded up. e is the number of
 *             active entries, which is n * n + n * (n + 1) / 2.
 */
uint32_t lumod_card_length(size_t n, size_t *bytes);

/*
 * lumod_write_card writes a dimension, a counter and the active factors to the
 * beginning of card.
 *
 * Needs: factors of dimension n; card at least as long as lumod_card_length
 * says. Of l and u only the active entries are looked at, and card needs no
 * content.
 *
 * Returns:
 *     LUMOD_OK                   The card was written.
 *     the storage tests
 *     LUMOD_INVALID_CARD_LENGTH  card_len is less than the card's length.
 *
 * Leaves, with LUMOD_OK:
 *     card      The card's bytes. Those beyond its length are unchanged.
 *     *written  Its length.
 *     l, u      Unchanged.
 */
uint32_t lumod_write_card(size_t n, size_t c, size_t counter, const double *l,
                          size_t l_len, const double *u, size_t u_len,
                          uint8_t *card, size_t card_len, size_t *written);

/*
 * lumod_read_card reads a card into storage of capacity c. It can have been
 * written at another capacity.
 *
 * Needs: a card of dimension c or less, and nothing behind it: card_len is the
 * card's length. What *n, *counter, l and u hold before is not looked at.
 *
 * Returns:
 *     LUMOD_OK                   The card was read.
 *     the storage tests, but LUMOD_INVALID_DIMENSION comes last
 *     LUMOD_INVALID_CARD_LENGTH  card_len is 0 or not a multiple of 512.
 *     LUMOD_DAMAGED_BLOCK        A block's check word is wrong.
 *     LUMOD_INVALID_CARD         card_len / 512 is not word 1 of block 0, or
 *                                not the number of blocks that its word 0
 *                                needs as a dimension; or word 2 is more than
 *                                999999; or a word that is to be 0 is not; or
 *                                an entry is a NaN of another pattern.
 *     LUMOD_INVALID_DIMENSION    The card's dimension is more than c.
 *
 * Leaves, with LUMOD_OK:
 *     *n        The card's dimension.
 *     *counter  The card's counter.
 *     l         L(i,j), i < *n and j < *n.
 *     u         U(i,j), i <= j < *n.
 *     card      Unchanged.
 * With LUMOD_DAMAGED_BLOCK:
 *     *block  The number of the first such block.
 */
uint32_t lumod_read_card(size_t *n, size_t c, size_t *counter, double *l,
                         size_t l_len, double *u, size_t u_len,
                         const uint8_t *card, size_t card_len, size_t *block);

/*
 * The zero-based calls. A solve is two of them:
 *
 *     A * x = b   Lprod with mode 1 from b to x, then Usolve with mode 1 on x.
 *     A' * x = b  Usolve with mode 2 on b, then Lprod with mode 2 from b to x.
 */

/*
 * LUmod changes one row, one column or both, and brings L and U up to date.
 *
 *     mode 1  Append a last row and a last column. n is the new dimension.
 *             The row is y[0] to y[n - 2], the column z[0] to z[n - 2], and
 *             the new diagonal entry y[n - 1].
 *     mode 2  Replace column kcol by z[0] to z[n - 1].
 *     mode 3  Replace row krow by y[0] to y[n - 1].
 *     mode 4  Remove row krow and column kcol. The last row takes the place
 *             of row krow and the last column the place of column kcol. n is
 *             the old dimension, n - 1 the new one.
 *
 * Needs: n from 1 to the stride; krow from 0 to n - 1 in modes 3 and 4, and
 * kcol from 0 to n - 1 in modes 2 and 4 (elsewhere they are not looked at);
 * l and u as long as the stride asks; y, z and w at least n long each, also
 * where the mode takes no data from them. Before the call the factors have
 * dimension n - 1 in mode 1, and dimension n in modes 2 to 4.
 *
 * Returns:
 *     LUMOD_OK           The update was carried out.
 *     LUMOD_PASSED_OVER  n is 0 or less, or mode is not 1 to 4, or krow
 *                        (modes 3, 4) or kcol (modes 2, 4) is not 0 to n - 1.
 *     LUMOD_TOO_SMALL    None of these, but n is more than the stride, or
 *                        l_len is less than stride * stride, or u_len is less
 *                        than stride * (stride + 1) / 2, or y_len, z_len or
 *                        w_len is less than n.
 *
 * Leaves, with LUMOD_OK:
 *     l        L(i,j), i < m and j < m, with m the dimension afterwards. After
 *              mode 4, L(n - 1,j) and L(j,n - 1) with j < n are scratch.
 *     u        U(i,j), i <= j < m. After mode 4, U(i,n - 1) with i < n is
 *              scratch.
 *     y, z, w  The first n entries are scratch.
 * A scratch entry may hold anything. Every other entry is unchanged.
 * With LUMOD_PASSED_OVER and LUMOD_TOO_SMALL every buffer is unchanged.
 */
uint32_t LUmod(int32_t mode, int32_t maxmod, int32_t n, int32_t krow,
               int32_t kcol, double *l, size_t l_len, double *u, size_t u_len,
               double *y, size_t y_len, double *z, size_t z_len, double *w,
               size_t w_len);

/*
 * Lprod multiplies a vector by L.
 *
 *     mode 1          z(i) is the sum of L(i,j) * y(j), j from 0 upward.
 *     any other mode  z(i) is the sum of L(j,i) * y(j), j from 0 upward.
 *
 * Every sum starts at +0, and i and j run below n.
 *
 * Needs: n from 1 to the stride, l as long as the stride asks, y and z at
 * least n long.
 *
 * Returns:
 *     LUMOD_OK           The product is in z.
 *     LUMOD_PASSED_OVER  n is 0 or less.
 *     LUMOD_TOO_SMALL    n is more than the stride, or l_len is less than
 *                        stride * stride, or y_len or z_len is less than n.
 *
 * Leaves, with LUMOD_OK:
 *     l, y  Unchanged.
 *     z     The first n entries hold the product, all others are unchanged.
 * With LUMOD_PASSED_OVER and LUMOD_TOO_SMALL every buffer is unchanged.
 */
uint32_t Lprod(int32_t mode, int32_t maxmod, int32_t n, double *l,
               size_t l_len, double *y, size_t y_len, double *z, size_t z_len);

/*
 * Usolve solves with U in place.
 *
 *     mode 1          For row from n - 1 down to 0, y(row) becomes
 *                     (y(row) - sum) / U(row,row), with the sum from +0 over
 *                     U(row,j) * y(j), j from row + 1 upward.
 *     any other mode  For row from 0 up to n - 1, y(row) becomes
 *                     (y(row) - sum) / U(row,row), with the sum from +0 over
 *                     U(j,row) * y(j), j from 0 up to row - 1.
 *
 * Needs: n from 1 to the stride, u as long as the stride asks, y at least n
 * long. A diagonal entry may be zero, infinite or NaN: it is divided by.
 *
 * Returns:
 *     LUMOD_OK           The solution is in y.
 *     LUMOD_PASSED_OVER  n is 0 or less.
 *     LUMOD_TOO_SMALL    n is more than the stride, or u_len is less than
 *                        stride * (stride + 1) / 2, or y_len is less than n.
 *
 * Leaves, with LUMOD_OK:
 *     u  Unchanged.
 *     y  The first n entries hold the solution, all others are unchanged.
 * With LUMOD_PASSED_OVER and LUMOD_TOO_SMALL every buffer is unchanged.
 */
uint32_t Usolve(int32_t mode, int32_t maxmod, int32_t n, double *u,
                size_t u_len, double *y, size_t y_len);

#ifdef __cplusplus
}
#endif

#endif
