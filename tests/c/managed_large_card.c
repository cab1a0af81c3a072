#include <stdlib.h>
#include <string.h>

#include "managed_card_calls.h"
#include "managed_cards.h"

/* A card whose blocks are more than a byte can count. */
enum { N = 120, C = 121, BLOCKS = 345, LAST = BLOCKS - 1, BYTES = BLOCKS * BLOCK_BYTES };

static double l[C * (C + 1)], u[C * (C + 1) / 2];
static double read_l[N * (N + 1)], read_u[N * (N + 1) / 2];

/* A number of its own for each entry. */
static double entry_value(size_t entry) { return (double)entry + 0.125; }

static void fill_factors(void) {
    size_t entry = 0;
    for (size_t place = 0; place < N * N; place++) {
        l[place / N * C + place % N] = entry_value(entry++);
    }
    for (size_t i = 0; i < N; i++) {
        for (size_t j = i; j < N; j++) {
            u[i * C - i * (i - 1) / 2 + j - i] = entry_value(entry++);
        }
    }
}

static uint64_t word_at(const uint8_t *card, size_t block, size_t word) {
    uint64_t bits = 0;
    for (size_t byte = 8; byte > 0; byte--) {
        bits = bits << 8 | card[block * BLOCK_BYTES + word * 8 + byte - 1];
    }
    return bits;
}

static void put_word_at(uint8_t *card, size_t block, size_t word, uint64_t bits) {
    for (size_t byte = 0; byte < 8; byte++) {
        card[block * BLOCK_BYTES + word * 8 + byte] = (uint8_t)(bits >> 8 * byte);
    }
}

static void check_entries(const uint8_t *card) {
    for (size_t entry = 0; entry < entries_at(N); entry++) {
        uint64_t bits = word_at(card, 1 + entry / BLOCK_WORDS, entry % BLOCK_WORDS);
        double found;
        memcpy(&found, &bits, sizeof found);
        check_number("entry", found == entry_value(entry), 1);
    }
}

static void check_check_words(const uint8_t *card) {
    for (size_t block = 0; block < BLOCKS; block++) {
        uint64_t sum = block;
        for (size_t word = 0; word < BLOCK_WORDS; word++) {
            sum += word_at(card, block, word);
        }
        check_number("check word", word_at(card, block, BLOCK_WORDS), sum);
    }
}

static void check_factors(void) {
    for (size_t k = 0; k < N * N; k++) {
        check_number("L", read_l[k] == l[k / N * C + k % N], 1);
    }
    for (size_t i = 0; i < N; i++) {
        size_t row = i * N - i * (i - 1) / 2, other = i * C - i * (i - 1) / 2;
        check_number("U", memcmp(&read_u[row], &u[other], (N - i) * sizeof *u) == 0, 1);
    }
}

static uint32_t read_card(const uint8_t *card, size_t *block) {
    size_t n, counter;
    return lumod_read_card(&n, N, &counter, read_l, COUNT(read_l), read_u, COUNT(read_u), card,
                           BYTES, block);
}

/* A word that is changed without its check word, and with it. */
static void check_changed(uint8_t *card, size_t block, size_t word) {
    size_t found = UNREPORTED_SIZE;
    uint64_t before = word_at(card, block, word), sum = word_at(card, block, BLOCK_WORDS);
    uint64_t other = CARD_NAN + 1;
    put_word_at(card, block, word, other);
    check_number("read", read_card(card, &found), LUMOD_DAMAGED_BLOCK);
    check_number("*block", found, block);
    put_word_at(card, block, BLOCK_WORDS, sum - before + other);
    check_number("read", read_card(card, &found), LUMOD_INVALID_CARD);
    put_word_at(card, block, word, before);
    put_word_at(card, block, BLOCK_WORDS, sum);
}

void check_large_card(void) {
    uint8_t *card = malloc(BYTES);
    size_t written = 0, block;
    begin_group("cards: one of more than 256 blocks");
    if (!card) {
        abort();
    }
    fill_factors();
    check_number("write",
                 lumod_write_card(N, C, 0, l, COUNT(l), u, COUNT(u), card, BYTES, &written),
                 LUMOD_OK);
    check_number("*written", written, BYTES);
    check_entries(card);
    check_check_words(card);
    check_number("read", read_card(card, &block), LUMOD_OK);
    check_factors();
    check_changed(card, 255, 0);
    check_changed(card, 256, BLOCK_WORDS - 1);
    check_changed(card, LAST, 0);
    check_changed(card, LAST, BLOCK_WORDS - 1);
    free(card);
    end_group();
}
