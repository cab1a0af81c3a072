#include "managed_card_calls.h"

#include <stdio.h>
#include <string.h>

#include "managed_doubles.h"

/* Where the counter stops. */
enum { MOST_WRITTEN = 999999 };

size_t entries_at(size_t n) { return n * n + n * (n + 1) / 2; }

size_t blocks_at(size_t n) { return 1 + (entries_at(n) + BLOCK_WORDS - 1) / BLOCK_WORDS; }

uint8_t *card_byte(struct card *k, size_t place) {
    return &k->cells[BYTES_BESIDE + k->shift + place];
}

void mark_card(struct card *k, size_t shift, size_t length) {
    for (size_t cell = 0; cell < CARD_CELLS; cell++) {
        k->cells[cell] = (uint8_t)(cell * 151 + cell / 256 + 7);
    }
    k->shift = shift;
    k->length = length;
}

/* The check word is word BLOCK_WORDS of its block. */
static uint8_t *word_bytes(struct card *k, size_t block, size_t word) {
    return card_byte(k, block * BLOCK_BYTES + word * 8);
}

static uint64_t get_word(struct card *k, size_t block, size_t word) {
    const uint8_t *bytes = word_bytes(k, block, word);
    uint64_t bits = 0;
    for (int byte = 0; byte < 8; byte++) {
        bits |= (uint64_t)bytes[byte] << 8 * byte;
    }
    return bits;
}

static void put_word(struct card *k, size_t block, size_t word, uint64_t bits) {
    uint8_t *bytes = word_bytes(k, block, word);
    for (int byte = 0; byte < 8; byte++) {
        bytes[byte] = (uint8_t)(bits >> 8 * byte);
    }
}

uint64_t card_word(struct card *k, size_t word) {
    return get_word(k, word / BLOCK_WORDS, word % BLOCK_WORDS);
}

void put_card_word(struct card *k, size_t word, uint64_t bits) {
    put_word(k, word / BLOCK_WORDS, word % BLOCK_WORDS, bits);
}

static void mend_block(struct card *k, size_t block) {
    uint64_t sum = block;
    for (size_t word = 0; word < BLOCK_WORDS; word++) {
        sum += get_word(k, block, word);
    }
    put_word(k, block, BLOCK_WORDS, sum);
}

void mend_card(struct card *k) {
    for (size_t block = 0; block < k->length / BLOCK_BYTES; block++) {
        mend_block(k, block);
    }
}

static int is_nan_bits(uint64_t bits) {
    return (bits & UINT64_C(0x7fffffffffffffff)) > UINT64_C(0x7ff0000000000000);
}

void put_card(struct card *k, const struct card_state *s) {
    size_t blocks = blocks_at(s->n), length = k->length;
    k->length = blocks * BLOCK_BYTES;
    memset(card_byte(k, 0), 0, k->length);
    put_card_word(k, WORD_DIMENSION, s->n);
    put_card_word(k, WORD_BLOCKS, blocks);
    put_card_word(k, WORD_COUNTER, s->counter > MOST_WRITTEN ? MOST_WRITTEN : s->counter);
    for (size_t entry = 0; entry < entries_at(s->n); entry++) {
        uint64_t bits = s->entries[entry];
        put_card_word(k, BLOCK_WORDS + entry, is_nan_bits(bits) ? CARD_NAN : bits);
    }
    mend_card(k);
    k->length = length;
}

struct card_state right_state(size_t n) {
    struct card_state s = {.n = n, .counter = 4321};
    for (size_t entry = 0; entry < entries_at(n); entry++) {
        s.entries[entry] = UINT64_C(0x3ff0000000000000) + (entry + 1) * UINT64_C(0x10000000001);
    }
    return s;
}

void put_right_card(struct card *k, size_t n, size_t shift) {
    struct card_state s = right_state(n);
    mark_card(k, shift, blocks_at(n) * BLOCK_BYTES);
    put_card(k, &s);
}

void put_entries(struct memory *m, size_t capacity, const struct card_state *s) {
    const uint64_t *entry = s->entries;
    for (size_t place = 0; place < s->n * s->n; place++) {
        put_bits(l_at(m, capacity, place / s->n, place % s->n), *entry++);
    }
    for (size_t i = 0; i < s->n; i++) {
        for (size_t j = i; j < s->n; j++) {
            put_bits(u_at(m, capacity, i, j), *entry++);
        }
    }
}

void prepare_storage(struct memory *m, size_t capacity, size_t more) {
    mark_all(m);
    m->length[L] = capacity * (capacity + 1) + more;
    m->length[U] = capacity * (capacity + 1) / 2 + more;
}

struct card_call make_write(const char *what, size_t n, size_t c, size_t counter) {
    return (struct card_call){what, n, c, counter, UNREPORTED_SIZE, UNREPORTED_SIZE};
}

struct card_call make_read(const char *what, size_t c) {
    return make_write(what, UNREPORTED_SIZE, c, UNREPORTED_SIZE);
}

/* A buffer as two arguments. */
#define LEND(b) buffer_at(m, b, 0), m->length[b]

static uint32_t call_write(struct card_call *c, struct memory *m, struct card *k) {
    return lumod_write_card(c->n, c->c, c->counter, LEND(L), LEND(U), card_byte(k, 0),
                            k->length, &c->written);
}

static uint32_t call_read(struct card_call *c, struct memory *m, struct card *k) {
    return lumod_read_card(&c->n, c->c, &c->counter, LEND(L), LEND(U), card_byte(k, 0),
                           k->length, &c->block);
}

static void check_named(const char *what, const char *name, uint64_t found, uint64_t expected) {
    char label[200];
    snprintf(label, sizeof label, "%s: %s", what, name);
    check_number(label, found, expected);
}

static void check_call(uint32_t returned, const struct card_call *c, uint32_t number,
                       const struct card_call *after) {
    check_named(c->what, "returned", returned, number);
    check_named(c->what, "n", c->n, after->n);
    check_named(c->what, "*counter", c->counter, after->counter);
    check_named(c->what, "*written", c->written, after->written);
    check_named(c->what, "*block", c->block, after->block);
}

/* Counted from the card's beginning. Equal cards are compared at once, as most are equal. */
static size_t first_difference(const struct card *found, const struct card *expected) {
    size_t cell = 0;
    if (memcmp(found->cells, expected->cells, CARD_CELLS) == 0) {
        return 0;
    }
    while (found->cells[cell] == expected->cells[cell]) {
        cell++;
    }
    return cell;
}

static void check_card(const char *what, const struct card *found,
                       const struct card *expected) {
    char label[200];
    size_t cell = first_difference(found, expected);
    snprintf(label, sizeof label, "%s: card[%ld]", what,
             (long)cell - BYTES_BESIDE - (long)found->shift);
    check_number(label, found->cells[cell], expected->cells[cell]);
}

void check_written(struct card_call c, struct memory *m, struct card *k,
                   const struct card *expected, size_t written) {
    struct memory before = *m;
    struct card_call after = c;
    uint32_t returned = call_write(&c, m, k);
    after.written = written;
    check_call(returned, &c, LUMOD_OK, &after);
    check_card(c.what, k, expected);
    check_memory(c.what, m, &before);
}

void check_not_written(struct card_call c, struct memory *m, struct card *k, uint32_t number) {
    struct memory before = *m;
    struct card card = *k;
    struct card_call after = c;
    uint32_t returned = call_write(&c, m, k);
    check_call(returned, &c, number, &after);
    check_card(c.what, k, &card);
    check_memory(c.what, m, &before);
}

void check_read(struct card_call c, struct memory *m, struct card *k,
                const struct card_state *s) {
    struct memory expected = *m;
    struct card card = *k;
    struct card_call after = c;
    uint32_t returned = call_read(&c, m, k);
    after.n = s->n;
    after.counter = s->counter > MOST_WRITTEN ? MOST_WRITTEN : s->counter;
    check_call(returned, &c, LUMOD_OK, &after);
    check_card(c.what, k, &card);
    put_entries(&expected, c.c, s);
    allow_active_nans(&expected, m, c.c, s->n);
    check_memory(c.what, m, &expected);
}

void check_not_read(struct card_call c, struct memory *m, struct card *k, uint32_t number,
                    size_t block) {
    struct memory before = *m;
    struct card card = *k;
    struct card_call after = c;
    uint32_t returned = call_read(&c, m, k);
    if (number == LUMOD_DAMAGED_BLOCK) {
        after.block = block;
    }
    check_call(returned, &c, number, &after);
    check_card(c.what, k, &card);
    check_memory(c.what, m, &before);
}
