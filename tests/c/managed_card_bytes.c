#include <string.h>

#include "managed_card_calls.h"
#include "managed_cards.h"

/* A block's check in bytes: its number, and each byte before the check word times 256 to the
 * power of its place in its word, modulo 2^64. */

enum { N = 24, C = 26, BLOCKS = 15, BYTES = BLOCKS * BLOCK_BYTES, CHECK = BLOCK_BYTES - 8 };

static double l[C * (C + 1)], u[C * (C + 1) / 2];
static double read_l[N * (N + 1)], read_u[N * (N + 1) / 2];
static uint8_t card[BYTES];

/* 256 to the power of a byte's place in its word. */
static uint64_t weight(size_t byte) { return UINT64_C(1) << 8 * (byte % 8); }

static uint64_t sum_of_bytes(size_t block) {
    uint64_t sum = block;
    for (size_t byte = 0; byte < CHECK; byte++) {
        sum += card[block * BLOCK_BYTES + byte] * weight(byte);
    }
    return sum;
}

static uint64_t check_of(size_t block) {
    uint64_t check = 0;
    for (size_t byte = CHECK; byte < BLOCK_BYTES; byte++) {
        check += card[block * BLOCK_BYTES + byte] * weight(byte);
    }
    return check;
}

static void put_check(size_t block, uint64_t check) {
    for (size_t byte = CHECK; byte < BLOCK_BYTES; byte++) {
        card[block * BLOCK_BYTES + byte] = (uint8_t)(check / weight(byte));
    }
}

/* Bits in every byte, of which some are a NaN's and most words are so large that sums wrap. */
static double bits_number(uint64_t *bits) {
    double number;
    *bits = *bits * UINT64_C(6364136223846793005) + UINT64_C(1442695040888963407);
    memcpy(&number, bits, sizeof number);
    return number;
}

static void fill_factors(void) {
    uint64_t bits = 1;
    for (size_t k = 0; k < COUNT(l); k++) {
        l[k] = bits_number(&bits);
    }
    for (size_t k = 0; k < COUNT(u); k++) {
        u[k] = bits_number(&bits);
    }
}

static void check_every_block(size_t n) {
    size_t written, bytes;
    check_number("length", lumod_card_length(n, &bytes), LUMOD_OK);
    check_number("write",
                 lumod_write_card(n, C, 999999 - n, l, COUNT(l), u, COUNT(u), card, BYTES,
                                  &written),
                 LUMOD_OK);
    check_number("*written", written, bytes);
    for (size_t block = 0; block < bytes / BLOCK_BYTES; block++) {
        check_number("sum of a block's bytes", check_of(block), sum_of_bytes(block));
    }
}

static uint32_t read_card(size_t *block) {
    size_t n, counter;
    return lumod_read_card(&n, N, &counter, read_l, COUNT(read_l), read_u, COUNT(read_u), card,
                           BYTES, block);
}

/* Another byte is found where the check stays, and not where it takes the byte in. */
static void check_changed(size_t block, size_t byte, uint8_t other) {
    uint8_t *at = &card[block * BLOCK_BYTES + byte], before = *at;
    uint64_t check = check_of(block);
    size_t found = UNREPORTED_SIZE;
    *at = other;
    check_number("read", read_card(&found), LUMOD_DAMAGED_BLOCK);
    check_number("*block", found, block);
    put_check(block, check + (uint64_t)(other - before) * weight(byte));
    check_number("damaged", read_card(&found) == LUMOD_DAMAGED_BLOCK, 0);
    *at = before;
    put_check(block, check);
}

void check_card_bytes(void) {
    begin_group("cards: checks as sums of bytes");
    fill_factors();
    for (size_t n = 0; n <= N; n++) {
        check_every_block(n);
    }
    for (size_t block = 0; block < BLOCKS; block++) {
        for (size_t byte = 0; byte < CHECK; byte++) {
            check_changed(block, byte, (uint8_t)(card[block * BLOCK_BYTES + byte] + 1));
            check_changed(block, byte, (uint8_t)(card[block * BLOCK_BYTES + byte] ^ 0x80));
        }
    }
    end_group();
}
