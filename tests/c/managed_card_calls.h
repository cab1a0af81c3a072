/* The calls on cards, on checked memory, and cards that are put together word by word. */
#ifndef MANAGED_CARD_CALLS_H
#define MANAGED_CARD_CALLS_H

#include "checked_memory.h"
#include "lumod.h"

enum {
    BLOCK_BYTES = 512,
    /* Without the check word. */
    BLOCK_WORDS = 63,
    LARGEST_CARD = 17,
    LARGEST_ENTRIES = LARGEST_CARD * LARGEST_CARD + LARGEST_CARD * (LARGEST_CARD + 1) / 2,
    LARGEST_BLOCKS = 9,
    /* Blocks that a card can be longer by, and bytes beside it. */
    MORE_BLOCKS = 2,
    BYTES_BESIDE = 64,
    CARD_CELLS = BYTES_BESIDE + (LARGEST_BLOCKS + MORE_BLOCKS) * BLOCK_BYTES + BYTES_BESIDE
};

/* The words of block 0 that are not zero, and how every NaN is written. */
enum { WORD_DIMENSION, WORD_BLOCKS, WORD_COUNTER };
#define CARD_NAN UINT64_C(0x7ff8000000000000)

/* A lent card, which starts at cells[BYTES_BESIDE + shift] and is length long. */
struct card {
    uint8_t cells[CARD_CELLS];
    size_t shift, length;
};

/* What a card carries. The entries are the bits of L row by row, then of U row by row. */
struct card_state {
    size_t n, counter;
    uint64_t entries[LARGEST_ENTRIES];
};

/* The numbers that a call on a card is given and those that it reports. */
struct card_call {
    const char *what;
    size_t n, c, counter, written, block;
};

size_t entries_at(size_t n);
size_t blocks_at(size_t n);

uint8_t *card_byte(struct card *k, size_t place);
/* A byte of its own at every place. */
void mark_card(struct card *k, size_t shift, size_t length);
/* Words are counted through a block's 63 and go on in the next block. */
uint64_t card_word(struct card *k, size_t word);
void put_card_word(struct card *k, size_t word, uint64_t bits);
/* A right check word in every whole block. */
void mend_card(struct card *k);
/* The card of a state. Only its own bytes are changed, and the length is left. */
void put_card(struct card *k, const struct card_state *s);

/* A state with a finite number of its own at every entry, and its card, which is lent. */
struct card_state right_state(size_t n);
void put_right_card(struct card *k, size_t n, size_t shift);

/* The active entries of a state, with the bits that it has. */
void put_entries(struct memory *m, size_t capacity, const struct card_state *s);
/* Marks in all memory, and storage that is longer than needed by `more` doubles. */
void prepare_storage(struct memory *m, size_t capacity, size_t more);

/* What a call reports holds UNREPORTED_SIZE before it, and so do the dimension and the
 * counter that lumod_read_card reports. */
#define UNREPORTED_SIZE ((size_t)0xa5a5a5a5a5a5a5a5)
struct card_call make_write(const char *what, size_t n, size_t c, size_t counter);
struct card_call make_read(const char *what, size_t c);

/* A call that is carried out and leaves the card `expected`, of so many bytes. */
void check_written(struct card_call c, struct memory *m, struct card *k,
                   const struct card *expected, size_t written);
void check_not_written(struct card_call c, struct memory *m, struct card *k, uint32_t number);
/* A call that is carried out and leaves a state, in which all NaNs are alike. */
void check_read(struct card_call c, struct memory *m, struct card *k,
                const struct card_state *s);
/* A refused call. With LUMOD_DAMAGED_BLOCK it names a block. */
void check_not_read(struct card_call c, struct memory *m, struct card *k, uint32_t number,
                    size_t block);

#endif
