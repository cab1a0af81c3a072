#include <stdlib.h>
#include <string.h>

#include "managed_card_calls.h"
#include "managed_cards.h"

/* Heap blocks exactly as long as needed and filled in the active entries alone, for a memory
 * checker: no call may read what is not active, or beyond a block. */

static void *heap_block(size_t bytes) {
    void *start = malloc(bytes > 0 ? bytes : 1);
    if (!start) {
        abort();
    }
    return start;
}

static void fill_active(double *l, double *u, size_t n, size_t c) {
    for (size_t k = 0; k < n * n; k++) {
        size_t i = k / n, j = k % n;
        l[i * c + j] = (double)k;
        if (i <= j) {
            u[i * c - i * (i - 1) / 2 + j - i] = (double)k + 0.5;
        }
    }
}

static void check_bare_card(size_t n, size_t c) {
    size_t l_length = c * (c + 1), u_length = l_length / 2, written, bytes;
    double *l = heap_block(l_length * sizeof *l), *u = heap_block(u_length * sizeof *u);
    double *other_l = heap_block(n * (n + 1) * sizeof *l);
    double *other_u = heap_block(n * (n + 1) / 2 * sizeof *u);
    size_t read_n, counter, block;
    uint8_t *card;
    fill_active(l, u, n, c);
    check_number("length", lumod_card_length(n, &bytes), LUMOD_OK);
    card = heap_block(bytes);
    check_number("write",
                 lumod_write_card(n, c, 7, l, l_length, u, u_length, card, bytes, &written),
                 LUMOD_OK);
    check_number("*written", written, bytes);
    check_number("read",
                 lumod_read_card(&read_n, n, &counter, other_l, n * (n + 1), other_u,
                                 n * (n + 1) / 2, card, bytes, &block),
                 LUMOD_OK);
    check_number("n", read_n, n);
    check_number("*counter", counter, 7);
    check_number("L's last entry", n == 0 || other_l[n * n - 1] == l[(n - 1) * (c + 1)], 1);
    check_number("U's first entry", n == 0 || other_u[0] == u[0], 1);
    free(l), free(u), free(other_l), free(other_u), free(card);
}

static void bare_cards(void) {
    begin_group("cards: heap blocks that were never filled");
    for (size_t n = 0; n <= 10; n++) {
        check_bare_card(n, n + 1);
        check_bare_card(n, n + 4);
    }
    end_group();
}

/* Refused calls on heap blocks exactly as long as the card that is lent. */

static const struct {
    size_t length;
    uint8_t dimension, blocks;
    uint32_t number;
} bare_rows[] = {
    {1, 0, 0, LUMOD_INVALID_CARD_LENGTH},   {8, 1, 0, LUMOD_INVALID_CARD_LENGTH},
    {511, 0, 1, LUMOD_INVALID_CARD_LENGTH}, {513, 0, 1, LUMOD_INVALID_CARD_LENGTH},
    {512, 1, 1, LUMOD_INVALID_CARD},        {512, 255, 1, LUMOD_INVALID_CARD},
    {512, 1, 2, LUMOD_INVALID_CARD},        {1024, 7, 2, LUMOD_INVALID_CARD},
    {1024, 7, 3, LUMOD_INVALID_CARD},       {1024, 0, 1, LUMOD_INVALID_CARD},
    {1024, 2, 2, LUMOD_INVALID_DIMENSION},
};

/* The first bytes of words 0 and 1 and, as no word is 256 or more, of the check words. */
static uint8_t *bare_card(size_t row) {
    size_t length = bare_rows[row].length;
    uint8_t *card = heap_block(length);
    memset(card, 0, length);
    card[0] = bare_rows[row].dimension;
    if (length >= BLOCK_BYTES) {
        card[8] = bare_rows[row].blocks;
        card[504] = (uint8_t)(card[0] + card[8]);
        card[505] = (card[0] + card[8]) >> 8;
    }
    if (length == 2 * BLOCK_BYTES) {
        card[BLOCK_BYTES + 504] = 1;
    }
    return card;
}

static void check_bare_refusal(size_t row) {
    double *l = heap_block(2 * sizeof *l), *u = heap_block(sizeof *u);
    uint8_t *card = bare_card(row);
    size_t length = bare_rows[row].length, n = 9, counter = 9, block = 9;
    check_number("read", lumod_read_card(&n, 1, &counter, l, 2, u, 1, card, length, &block),
                 bare_rows[row].number);
    check_number("n, *counter and *block are kept", n == 9 && counter == 9 && block == 9, 1);
    free(l), free(u), free(card);
}

/* A card a byte too short for dimension 1. */
static void check_bare_writing(void) {
    double *l = heap_block(2 * sizeof *l), *u = heap_block(sizeof *u);
    uint8_t *card = heap_block(1023);
    size_t written = 9;
    l[0] = u[0] = 1;
    check_number("write", lumod_write_card(1, 1, 0, l, 2, u, 1, card, 1023, &written),
                 LUMOD_INVALID_CARD_LENGTH);
    check_number("*written is kept", written, 9);
    free(l), free(u), free(card);
}

static void bare_card_refusals(void) {
    begin_group("cards: heap blocks that were never filled, refused");
    for (size_t row = 0; row < COUNT(bare_rows); row++) {
        check_bare_refusal(row);
    }
    check_bare_writing();
    end_group();
}

void check_bare_cards(void) {
    bare_cards();
    bare_card_refusals();
}
