#include "managed_cards.h"

#include <stdio.h>
#include <string.h>

#include "managed_card_calls.h"
#include "managed_doubles.h"

/* Lengths. */

static void lengths(void) {
    static const struct {
        size_t n;
        uint32_t number;
        size_t bytes;
    } rows[] = {
        {0, LUMOD_OK, 512},
        {1, LUMOD_OK, 1024},
        {6, LUMOD_OK, 1024},
        {7, LUMOD_OK, 1536},
        {9, LUMOD_OK, 1536}, /* 126 entries, which are two blocks */
        {10, LUMOD_OK, 2048},
        {17, LUMOD_OK, 4608},
        {1000, LUMOD_OK, 12195328},
        {65536, LUMOD_OK, 52357963776},
        {1230125796, LUMOD_OK, 18446744068811283456u},
        {1230125797, LUMOD_SIZE_OVERFLOW, UNREPORTED_SIZE},
        {(size_t)1 << 31, LUMOD_SIZE_OVERFLOW, UNREPORTED_SIZE},
        {(size_t)1 << 32, LUMOD_SIZE_OVERFLOW, UNREPORTED_SIZE},
        {((size_t)1 << 32) + 1, LUMOD_SIZE_OVERFLOW, UNREPORTED_SIZE},
        {SIZE_MAX / 2 + 1, LUMOD_SIZE_OVERFLOW, UNREPORTED_SIZE},
        {SIZE_MAX, LUMOD_SIZE_OVERFLOW, UNREPORTED_SIZE},
    };
    begin_group("cards: lengths");
    for (size_t k = 0; k < COUNT(rows); k++) {
        size_t bytes = UNREPORTED_SIZE;
        check_number("returned", lumod_card_length(rows[k].n, &bytes), rows[k].number);
        check_number("*bytes", bytes, rows[k].bytes);
    }
    end_group();
}

/* Known bytes. */

/* Eight bytes of a card, from a place on. */
struct eight_bytes {
    size_t place;
    uint8_t bytes[8];
};

/* Dimension 0, counter 0. */
static const struct eight_bytes empty[] = {
    {8, {1}},
    {504, {1}},
};

/* L is 1 and U is 2, with counter 300. */
static const struct eight_bytes one_and_two[] = {
    {0, {1}},
    {8, {2}},
    {16, {0x2c, 0x01}},
    {504, {0x2f, 0x01}},
    {512, {0, 0, 0, 0, 0, 0, 0xf0, 0x3f}},
    {520, {0, 0, 0, 0, 0, 0, 0x00, 0x40}},
    {1016, {1, 0, 0, 0, 0, 0, 0xf0, 0x7f}},
};

/* A signalling NaN and -0, with a counter beyond 999999. */
static const struct eight_bytes nan_and_zero[] = {
    {0, {1}},
    {8, {2}},
    {16, {0x3f, 0x42, 0x0f}},
    {504, {0x42, 0x42, 0x0f}},
    {512, {0, 0, 0, 0, 0, 0, 0xf8, 0x7f}},
    {520, {0, 0, 0, 0, 0, 0, 0x00, 0x80}},
    {1016, {1, 0, 0, 0, 0, 0, 0xf8, 0xff}},
};

/* The bench table's P: L is 0, 1, 1, -0.5 and U is 4, 1, 5.5. */
static const struct eight_bytes bench_table_p[] = {
    {0, {2}},
    {8, {2}},
    {16, {1}},
    {504, {5}},
    {520, {0, 0, 0, 0, 0, 0, 0xf0, 0x3f}},
    {528, {0, 0, 0, 0, 0, 0, 0xf0, 0x3f}},
    {536, {0, 0, 0, 0, 0, 0, 0xe0, 0xbf}},
    {544, {0, 0, 0, 0, 0, 0, 0x10, 0x40}},
    {552, {0, 0, 0, 0, 0, 0, 0xf0, 0x3f}},
    {560, {0, 0, 0, 0, 0, 0, 0x16, 0x40}},
    {1016, {1, 0, 0, 0, 0, 0, 0xd6, 0xff}},
};

/* All bytes that are not listed are zero. */
static const struct {
    const char *what;
    struct card_state state;
    size_t length, listed;
    const struct eight_bytes *bytes;
} known_cards[] = {
    {"dimension 0", {.n = 0}, 512, COUNT(empty), empty},
    {"1 and 2",
     {1, 300, {UINT64_C(0x3ff0000000000000), UINT64_C(0x4000000000000000)}},
     1024,
     COUNT(one_and_two),
     one_and_two},
    {"a NaN and -0",
     {1, SIZE_MAX, {UINT64_C(0x7ff0000000000001), UINT64_C(0x8000000000000000)}},
     1024,
     COUNT(nan_and_zero),
     nan_and_zero},
    {"P",
     {2,
      1,
      {0, UINT64_C(0x3ff0000000000000), UINT64_C(0x3ff0000000000000),
       UINT64_C(0xbfe0000000000000), UINT64_C(0x4010000000000000), UINT64_C(0x3ff0000000000000),
       UINT64_C(0x4016000000000000)}},
     1024,
     COUNT(bench_table_p),
     bench_table_p},
};

static void put_known_card(struct card *k, size_t row) {
    memset(card_byte(k, 0), 0, known_cards[row].length);
    for (size_t listed = 0; listed < known_cards[row].listed; listed++) {
        const struct eight_bytes *eight = &known_cards[row].bytes[listed];
        memcpy(card_byte(k, eight->place), eight->bytes, sizeof eight->bytes);
    }
}

/* The state is written at a capacity to a buffer with bytes beyond, which becomes what is
 * expected, and read at another. */
static void write_and_read(const char *what, const struct card_state *s, size_t capacity,
                           size_t other, struct card *card, const struct card *expected,
                           size_t beyond) {
    struct memory m;
    size_t length = card->length - beyond;
    prepare_storage(&m, capacity, beyond % 3);
    put_entries(&m, capacity, s);
    check_written(make_write(what, s->n, capacity, s->counter), &m, card, expected, length);
    card->length = length;
    prepare_storage(&m, other, beyond % 3);
    check_read(make_read(what, other), &m, card, s);
}

static void check_known_card(size_t row, size_t capacity, size_t beyond) {
    const struct card_state *s = &known_cards[row].state;
    struct card card, expected;
    mark_card(&card, beyond % 8, known_cards[row].length + beyond);
    expected = card;
    put_known_card(&expected, row);
    write_and_read(known_cards[row].what, s, capacity, capacity, &card, &expected, beyond);
}

static void known_bytes(void) {
    begin_group("cards: known bytes");
    for (size_t row = 0; row < COUNT(known_cards); row++) {
        for (size_t capacity = known_cards[row].state.n; capacity <= 4; capacity++) {
            check_known_card(row, capacity, 0);
            check_known_card(row, capacity, 1);
            check_known_card(row, capacity, 519);
        }
    }
    end_group();
}

/* Any entries: doubles of every kind, and of other bits. */
static void fill_state(struct card_state *s, size_t n, size_t first) {
    s->n = n;
    s->counter = first * 1009;
    for (size_t entry = 0; entry < entries_at(n); entry++) {
        size_t k = (entry * 7 + first) % (COUNT(finite_bits) + COUNT(non_finite_bits) + 9);
        if (k < COUNT(finite_bits)) {
            s->entries[entry] = finite_bits[k];
        } else if (k - COUNT(finite_bits) < COUNT(non_finite_bits)) {
            s->entries[entry] = non_finite_bits[k - COUNT(finite_bits)];
        } else {
            s->entries[entry] = (entry + 1) * (2 * first + 1) * UINT64_C(0x9e3779b97f4a7c15);
        }
    }
}

/* The state written at a capacity and read at another. */
static void check_state(const struct card_state *s, size_t capacity, size_t other,
                        size_t beyond) {
    char what[60];
    struct card card, expected;
    snprintf(what, sizeof what, "dimension %zu, capacities %zu and %zu", s->n, capacity, other);
    mark_card(&card, (capacity + other) % 8, blocks_at(s->n) * BLOCK_BYTES + beyond);
    expected = card;
    put_card(&expected, s);
    write_and_read(what, s, capacity, other, &card, &expected, beyond);
}

/* Dimensions 0 to 17, from capacities up to two beyond the dimension, where there are such,
 * to each. */
static void every_dimension(void) {
    static const size_t beyond[] = {0, 1, 511, 512, 600};
    struct card_state s;
    begin_group("cards: dimensions 0 to 17, other capacities");
    for (size_t k = 0; k < (LARGEST_CARD + 1) * 9; k++) {
        size_t n = k / 9, more = LARGEST_CARD - n;
        size_t capacity = n + (k % 3 < more ? k % 3 : more);
        size_t other = n + (k / 3 % 3 < more ? k / 3 % 3 : more);
        fill_state(&s, n, k);
        check_state(&s, capacity, other, beyond[k % COUNT(beyond)]);
    }
    end_group();
}

/* Every double at every entry of dimension 3, all others being 0. */
static void every_double(void) {
    size_t doubles = COUNT(finite_bits) + COUNT(non_finite_bits);
    begin_group("cards: a double of every kind at every entry");
    for (size_t k = 0; k < entries_at(3) * doubles; k++) {
        struct card_state s = {.n = 3};
        size_t choice = k % doubles;
        s.entries[k / doubles] = choice < COUNT(finite_bits)
                                     ? finite_bits[choice]
                                     : non_finite_bits[choice - COUNT(finite_bits)];
        check_state(&s, 3, 4, 0);
    }
    end_group();
}

static void every_counter(void) {
    static const size_t counters[] = {0,      1,       255,        256,        999998,
                                      999999, 1000000, 4294967295, 4294967296, SIZE_MAX};
    struct card_state s;
    begin_group("cards: counters");
    for (size_t k = 0; k < COUNT(counters); k++) {
        fill_state(&s, k % 4, k);
        s.counter = counters[k];
        check_state(&s, 4, 5, 1);
    }
    end_group();
}

void check_cards(void) {
    lengths();
    known_bytes();
    every_dimension();
    every_double();
    every_counter();
}
