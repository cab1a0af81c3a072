#include "managed_cards.h"

#include <stdio.h>

#include "managed_card_calls.h"

/* Before a fault is applied, a call is right at dimension 7, whose card has three blocks, and
 * at capacity 8. */
enum { N = 7, C = 8, BLOCKS = 3, LENGTH_OF_CARD = BLOCKS * BLOCK_BYTES };
#define TWO_TO_32 ((size_t)4294967296)

enum { WRITES = 1, READS = 2, BOTH = WRITES | READS };

/* What a fault changes. */
enum {
    CAPACITY,    /* c becomes the value */
    SMALLER,     /* c becomes the value, with storage for it */
    DIMENSION,   /* n becomes c and the value */
    WORD,        /* a word of the card becomes the bits, with a right check word */
    DAMAGE,      /* a byte of the card is changed */
    CARD_LENGTH, /* the card becomes as long as the value */
    STORAGE      /* and a buffer: it becomes as long as the value */
};

struct fault {
    const char *what;
    uint32_t number;
    int functions, change;
    size_t value;
    uint64_t bits;
};

/* In this order, two faults of different changes can be applied one after the other. */
static const struct fault faults[] = {
    {"c = 2^32", LUMOD_SIZE_OVERFLOW, BOTH, CAPACITY, TWO_TO_32, 0},
    {"c = 2^32 + 8", LUMOD_SIZE_OVERFLOW, BOTH, CAPACITY, TWO_TO_32 + C, 0},
    {"c = 2^63", LUMOD_SIZE_OVERFLOW, BOTH, CAPACITY, SIZE_MAX / 2 + 1, 0},
    {"c = 2^64 - 2^33", LUMOD_SIZE_OVERFLOW, BOTH, CAPACITY, SIZE_MAX - 2 * TWO_TO_32 + 1, 0},
    {"c = 6", LUMOD_INVALID_DIMENSION, READS, SMALLER, N - 1, 0},
    {"c = 3", LUMOD_INVALID_DIMENSION, READS, SMALLER, 3, 0},
    {"n = c + 1", LUMOD_INVALID_DIMENSION, WRITES, DIMENSION, 1, 0},
    {"n = c + 2^32", LUMOD_INVALID_DIMENSION, WRITES, DIMENSION, TWO_TO_32, 0},
    {"word 0 is 2^64 - 1", LUMOD_INVALID_CARD, READS, WORD, WORD_DIMENSION, UINT64_MAX},
    {"word 0 is 2^32", LUMOD_INVALID_CARD, READS, WORD, WORD_DIMENSION, TWO_TO_32},
    {"word 1 is 4", LUMOD_INVALID_CARD, READS, WORD, WORD_BLOCKS, 4},
    {"word 2 is 1000000", LUMOD_INVALID_CARD, READS, WORD, WORD_COUNTER, 1000000},
    {"word 62 is 1", LUMOD_INVALID_CARD, READS, WORD, BLOCK_WORDS - 1, 1},
    {"the first entry is -NaN", LUMOD_INVALID_CARD, READS, WORD, BLOCK_WORDS, UINT64_MAX},
    {"the last word is 1", LUMOD_INVALID_CARD, READS, WORD, BLOCKS * BLOCK_WORDS - 1, 1},
    {"block 0 damaged", LUMOD_DAMAGED_BLOCK, READS, DAMAGE, 30, 0},
    {"block 1 damaged", LUMOD_DAMAGED_BLOCK, READS, DAMAGE, 1023, 0},
    {"block 2 damaged", LUMOD_DAMAGED_BLOCK, READS, DAMAGE, 1300, 0},
    {"card of 0", LUMOD_INVALID_CARD_LENGTH, BOTH, CARD_LENGTH, 0, 0},
    {"card of 511", LUMOD_INVALID_CARD_LENGTH, BOTH, CARD_LENGTH, 511, 0},
    {"card a byte short", LUMOD_INVALID_CARD_LENGTH, BOTH, CARD_LENGTH, LENGTH_OF_CARD - 1, 0},
    {"card a block short", LUMOD_INVALID_CARD_LENGTH, WRITES, CARD_LENGTH, 1024, 0},
    {"card a byte long", LUMOD_INVALID_CARD_LENGTH, READS, CARD_LENGTH, LENGTH_OF_CARD + 1, 0},
    {"l a double short", LUMOD_INSUFFICIENT_L, BOTH, STORAGE + L, 1, 0},
    {"l of 0", LUMOD_INSUFFICIENT_L, BOTH, STORAGE + L, SIZE_MAX, 0},
    {"u a double short", LUMOD_INSUFFICIENT_U, BOTH, STORAGE + U, 1, 0},
    {"u of 0", LUMOD_INSUFFICIENT_U, BOTH, STORAGE + U, SIZE_MAX, 0},
};

/* The numbers in the order in which they are tested. */
static const uint32_t write_order[] = {
    LUMOD_INVALID_DIMENSION, LUMOD_SIZE_OVERFLOW,       LUMOD_INSUFFICIENT_L,
    LUMOD_INSUFFICIENT_U,    LUMOD_INVALID_CARD_LENGTH,
};
static const uint32_t read_order[] = {
    LUMOD_SIZE_OVERFLOW,       LUMOD_INSUFFICIENT_L, LUMOD_INSUFFICIENT_U,
    LUMOD_INVALID_CARD_LENGTH, LUMOD_DAMAGED_BLOCK,  LUMOD_INVALID_CARD,
    LUMOD_INVALID_DIMENSION,
};

struct changed_call {
    size_t n, c;
    struct memory m;
    struct card k;
};

/* Storage becomes shorter by the value. */
static void shorten(struct memory *m, int buffer, size_t value) {
    m->length[buffer] = value > m->length[buffer] ? 0 : m->length[buffer] - value;
}

static void apply(const struct fault *f, struct changed_call *c) {
    switch (f->change) {
    case CAPACITY:
        c->c = f->value;
        break;
    case SMALLER:
        c->c = f->value;
        prepare_storage(&c->m, c->c, 0);
        break;
    case DIMENSION:
        c->n = c->c + f->value;
        break;
    case WORD:
        put_card_word(&c->k, f->value, f->bits);
        mend_card(&c->k);
        break;
    case DAMAGE:
        *card_byte(&c->k, f->value) ^= 0x40;
        break;
    case CARD_LENGTH:
        c->k.length = f->value;
        break;
    default:
        shorten(&c->m, f->change - STORAGE, f->value);
    }
}

static const struct fault *tested_first(const uint32_t *order, const struct fault *a,
                                        const struct fault *b) {
    for (;; order++) {
        if (*order == a->number) {
            return a;
        }
        if (*order == b->number) {
            return b;
        }
    }
}

/* Two changes of one thing are no two faults. */
static int apart(const struct fault *a, const struct fault *b) {
    if (a == b) {
        return 1;
    }
    return a->change != b->change && !(a->change == CAPACITY && b->change == SMALLER);
}

static void check_faults(int functions, const struct fault *a, const struct fault *b) {
    static struct changed_call c;
    char what[100];
    int reads = functions == READS;
    const struct fault *first = tested_first(reads ? read_order : write_order, a, b);
    snprintf(what, sizeof what, "%s: %s%s%s", reads ? "read" : "write", a->what,
             a == b ? "" : " and ", a == b ? "" : b->what);
    c.n = N;
    c.c = C;
    prepare_storage(&c.m, C, 0);
    if (reads) {
        put_right_card(&c.k, N, 5);
    } else {
        mark_card(&c.k, 5, LENGTH_OF_CARD);
    }
    apply(a, &c);
    if (a != b) {
        apply(b, &c);
    }
    if (reads) {
        check_not_read(make_read(what, c.c), &c.m, &c.k, first->number,
                       first->value / BLOCK_BYTES);
    } else {
        check_not_written(make_write(what, c.n, c.c, 5), &c.m, &c.k, first->number);
    }
}

static void one_and_two_faults(int functions) {
    for (size_t j = 0; j < COUNT(faults); j++) {
        for (size_t k = j; k < COUNT(faults); k++) {
            if (faults[j].functions & faults[k].functions & functions &&
                apart(&faults[j], &faults[k])) {
                check_faults(functions, &faults[j], &faults[k]);
            }
        }
    }
}

static void refused_calls(void) {
    begin_group("cards: writing, one fault, and two at once");
    one_and_two_faults(WRITES);
    end_group();
    begin_group("cards: reading, one fault, and two at once");
    one_and_two_faults(READS);
    end_group();
}

/* Dimensions and capacities at the ends of their range. */
static void extremes(void) {
    static const struct {
        size_t n, c;
        uint32_t number;
    } rows[] = {
        {1, 0, LUMOD_INVALID_DIMENSION},
        {SIZE_MAX, C, LUMOD_INVALID_DIMENSION},
        {SIZE_MAX, SIZE_MAX - 1, LUMOD_INVALID_DIMENSION},
        {SIZE_MAX, SIZE_MAX, LUMOD_SIZE_OVERFLOW},
        {N, SIZE_MAX, LUMOD_SIZE_OVERFLOW},
        {N, TWO_TO_32 - 1, LUMOD_INSUFFICIENT_L},
        {TWO_TO_32 - 1, TWO_TO_32 - 1, LUMOD_INSUFFICIENT_L},
        {N, 65536, LUMOD_INSUFFICIENT_L},
    };
    begin_group("cards: dimensions and capacities at their ends");
    for (size_t row = 0; row < COUNT(rows); row++) {
        struct memory m;
        struct card k;
        prepare_storage(&m, C, 0);
        mark_card(&k, 0, LENGTH_OF_CARD);
        check_not_written(make_write("write", rows[row].n, rows[row].c, 5), &m, &k,
                          rows[row].number);
        put_right_card(&k, N, 0);
        if (rows[row].number != LUMOD_INVALID_DIMENSION) {
            check_not_read(make_read("read", rows[row].c), &m, &k, rows[row].number, 0);
        }
    }
    end_group();
}

void check_card_refusals(void) {
    refused_calls();
    extremes();
}
