// The header from C++: two pushes and a solve in each family of calls, and a card.
#include <cmath>
#include <cstdint>
#include <cstdio>

#include "lumod.h"

static bool zero_based() {
    double l[4], u[3], y[2] = {2, 0}, z[2], w[2];
    bool right = LUmod(1, 2, 1, 0, 0, l, 4, u, 3, y, 1, z, 1, w, 1) == LUMOD_OK;
    y[0] = 4, y[1] = 1, z[0] = 6;
    right = right && LUmod(1, 2, 2, 0, 0, l, 4, u, 3, y, 2, z, 2, w, 2) == LUMOD_OK;
    y[0] = 8, y[1] = 5;
    right = right && Lprod(1, 2, 2, l, 4, y, 2, z, 2) == LUMOD_OK;
    right = right && Usolve(1, 2, 2, u, 3, z, 2) == LUMOD_OK;
    right = right && z[0] == 1 && z[1] == 1;
    right = right && LUmod(5, 2, 2, 0, 0, l, 4, u, 3, y, 2, z, 2, w, 2) == LUMOD_PASSED_OVER;
    return right && Usolve(1, 2, 2, u, 2, z, 2) == LUMOD_TOO_SMALL;
}

static bool managed() {
    double l[6], u[3], y[2], z[2], w[2], rhs[2] = {8, 5};
    const double row[2] = {4, 1}, column[2] = {6, 1}, not_finite[2] = {NAN, 1};
    size_t n = 0, l_len, u_len, index, moved_row, moved_column, counter = 0, steps;
    uint8_t ready;
    const uint32_t numbers[] = {
        lumod_storage_lengths(2, &l_len, &u_len),
        lumod_from_storage(n, 2, l, 6, u, 3),
        lumod_push(&n, 2, l, 6, u, 3, y, 2, z, 2, w, 2, row, 0, column, 0, 2, &counter, &steps,
                   &index),
        lumod_push(&n, 2, l, 6, u, 3, y, 2, z, 2, w, 2, row, 1, column, 1, 1, &counter, &steps,
                   &index),
        lumod_solve(n, 2, l, 6, u, 3, rhs, 2, &index),
        lumod_replace_row(n, 2, l, 6, u, 3, y, 2, z, 2, w, 2, 0, row, 2, &counter, &steps,
                          &index),
        lumod_ready(n, 2, l, 6, u, 3, &ready),
    };
    bool right = l_len == 6 && u_len == 3 && rhs[0] == 1 && rhs[1] == 1;
    for (uint32_t number : numbers) {
        right = right && number == LUMOD_OK;
    }
    // The two rows are equal now, and the last entry of U is 0.
    right = right && ready == 0;
    right = right && lumod_solve_transpose(n, 2, l, 6, u, 3, rhs, 2, &index) == LUMOD_SINGULAR;
    right = right && index == 1;
    right = right && lumod_replace_row(n, 2, l, 6, u, 3, y, 2, z, 2, w, 2, 1, not_finite, 2,
                                       &counter, &steps, &index) == LUMOD_NON_FINITE_DATA;
    right = right && index == 0 && steps == 0;
    right = right && lumod_replace_column(n, 2, l, 6, u, 3, y, 2, z, 2, w, 2, 0, column, 2,
                                          &counter, &steps, &index) == LUMOD_OK;
    right = right && lumod_remove(&n, 2, l, 6, u, 3, y, 2, z, 2, w, 2, 1, 0, &moved_row,
                                  &moved_column, &counter, &steps) == LUMOD_OK;
    right = right && n == 1 && moved_row == SIZE_MAX && moved_column == 1;
    // Pair steps: pushes 0 and 1, row 1, column 1, remove 2.
    return right && counter == 5 && steps == 2;
}

// Factors of dimension 1, read from their card at another capacity.
static bool cards() {
    const double l[2] = {1, 0}, u[1] = {2};
    double other_l[6] = {0, 0, 0, 0, 0, 0}, other_u[3] = {0, 0, 0};
    std::uint8_t card[1024];
    size_t n = 0, bytes, written, counter = 0, block = 7;
    bool right = lumod_card_length(1, &bytes) == LUMOD_OK && bytes == sizeof card;
    right = right && lumod_write_card(1, 1, 3, l, 2, u, 1, card, bytes, &written) == LUMOD_OK;
    right = right && written == bytes && card[0] == 1 && card[8] == 2 && card[16] == 3;
    right = right && lumod_read_card(&n, 2, &counter, other_l, 6, other_u, 3, card, written,
                                     &block) == LUMOD_OK;
    right = right && n == 1 && counter == 3 && other_l[0] == 1 && other_u[0] == 2 && block == 7;
    right = right && lumod_read_card(&n, 2, &counter, other_l, 6, other_u, 3, card, 1023,
                                     &block) == LUMOD_INVALID_CARD_LENGTH;
    card[16] = 4;
    right = right && lumod_read_card(&n, 2, &counter, other_l, 6, other_u, 3, card, written,
                                     &block) == LUMOD_DAMAGED_BLOCK;
    right = right && block == 0;
    // Three blocks by word 1, with a right check word.
    card[16] = 3, card[8] = 3, card[504]++;
    return right && lumod_read_card(&n, 2, &counter, other_l, 6, other_u, 3, card, written,
                                    &block) == LUMOD_INVALID_CARD;
}

static int report(const char *family, bool right) {
    std::printf("%s from C++: 1 check, %d failed\n", family, right ? 0 : 1);
    return right ? 0 : 1;
}

int main() {
    return report("zero-based", zero_based()) + report("managed", managed()) +
           report("cards", cards());
}
