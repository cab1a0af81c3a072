#include "managed_cards.h"

#include <string.h>

#include "managed_card_calls.h"

/* Before it is changed, a card is right at dimension 7. It has three blocks. */
enum { N = 7, C = 8, BLOCKS = 3, LENGTH_OF_CARD = BLOCKS * BLOCK_BYTES, ENTRIES = 77 };

/* Damage. */

/* One byte other than it was. */
static void every_byte(void) {
    static const uint8_t changes[] = {0x01, 0x80, 0xff};
    struct memory m;
    struct card k;
    begin_group("cards: every byte changed");
    prepare_storage(&m, C, 0);
    put_right_card(&k, N, 0);
    for (size_t place = 0; place < LENGTH_OF_CARD * COUNT(changes); place++) {
        uint8_t *byte = card_byte(&k, place / COUNT(changes));
        *byte ^= changes[place % COUNT(changes)];
        check_not_read(make_read("a byte", C), &m, &k, LUMOD_DAMAGED_BLOCK,
                       place / COUNT(changes) / BLOCK_BYTES);
        *byte ^= changes[place % COUNT(changes)];
    }
    end_group();
}

/* A byte changed in each of some blocks: the lowest of them is named. */
static void several_blocks(void) {
    struct memory m;
    begin_group("cards: several damaged blocks");
    prepare_storage(&m, C, 0);
    for (unsigned set = 1; set < 1u << BLOCKS; set++) {
        struct card k;
        size_t lowest = set & 1 ? 0 : set & 2 ? 1 : 2;
        put_right_card(&k, N, set);
        for (unsigned block = 0; block < BLOCKS; block++) {
            *card_byte(&k, block * BLOCK_BYTES + 17 * block) ^= set >> block & 1;
        }
        check_not_read(make_read("blocks", C), &m, &k, LUMOD_DAMAGED_BLOCK, lowest);
    }
    end_group();
}

/* What a length is refused for where other bytes are behind the card. */
static uint32_t length_number(size_t length) {
    if (length == 0 || length % BLOCK_BYTES != 0) {
        return LUMOD_INVALID_CARD_LENGTH;
    }
    return length < LENGTH_OF_CARD ? LUMOD_INVALID_CARD : LUMOD_DAMAGED_BLOCK;
}

/* Every length but the right one. */
static void every_length(void) {
    struct memory m;
    struct card k;
    begin_group("cards: every length");
    prepare_storage(&m, C, 0);
    put_right_card(&k, N, 3);
    for (size_t length = 0; length <= LENGTH_OF_CARD + MORE_BLOCKS * BLOCK_BYTES; length++) {
        k.length = length;
        if (length != LENGTH_OF_CARD) {
            check_not_read(make_read("length", C), &m, &k, length_number(length), BLOCKS);
        }
    }
    end_group();
}

/* Blocks with right check words that are no card. */

/* A word with other bits. */
struct other_word {
    const char *what;
    size_t word;
    uint64_t bits;
};

static const struct other_word no_card[] = {
    {"dimension 0", WORD_DIMENSION, 0},
    {"dimension 6", WORD_DIMENSION, 6},
    {"dimension 10", WORD_DIMENSION, 10},
    {"dimension 2^31", WORD_DIMENSION, UINT64_C(1) << 31},
    {"dimension 2^32", WORD_DIMENSION, UINT64_C(1) << 32},
    {"dimension 2^32 + 7", WORD_DIMENSION, (UINT64_C(1) << 32) + N},
    {"dimension 2^63", WORD_DIMENSION, UINT64_C(1) << 63},
    {"dimension 2^63 + 7", WORD_DIMENSION, (UINT64_C(1) << 63) + N},
    {"dimension 2^64 - 1", WORD_DIMENSION, UINT64_MAX},
    /* n * n + n * (n + 1) / 2 is 77 where every step is modulo 2^64. */
    {"dimension with 77 entries", WORD_DIMENSION, UINT64_C(6148914691236517198)},
    /* It is 64 modulo 2^64, which are two blocks too. */
    {"dimension with 64 entries", WORD_DIMENSION, UINT64_C(6137467230844490965)},
    {"0 blocks", WORD_BLOCKS, 0},
    {"2 blocks", WORD_BLOCKS, 2},
    {"4 blocks", WORD_BLOCKS, 4},
    {"2^32 + 3 blocks", WORD_BLOCKS, (UINT64_C(1) << 32) + BLOCKS},
    {"2^63 + 3 blocks", WORD_BLOCKS, (UINT64_C(1) << 63) + BLOCKS},
    {"counter 1000000", WORD_COUNTER, 1000000},
    {"counter 2^32", WORD_COUNTER, UINT64_C(1) << 32},
    {"counter 2^64 - 1", WORD_COUNTER, UINT64_MAX},
};

static void check_word(const struct other_word *w, size_t capacity, uint32_t number) {
    struct memory m;
    struct card k;
    prepare_storage(&m, capacity, 0);
    put_right_card(&k, N, 0);
    put_card_word(&k, w->word, w->bits);
    mend_card(&k);
    check_not_read(make_read(w->what, capacity), &m, &k, number, 0);
}

static void first_words(void) {
    begin_group("cards: dimension, blocks and counter that do not fit");
    for (size_t row = 0; row < COUNT(no_card); row++) {
        check_word(&no_card[row], C, LUMOD_INVALID_CARD);
        check_word(&no_card[row], N, LUMOD_INVALID_CARD);
        check_word(&no_card[row], N - 1, LUMOD_INVALID_CARD);
        check_word(&no_card[row], 0, LUMOD_INVALID_CARD);
    }
    end_group();
}

/* A word of block 0 from word 3 on, and a word behind the entries. */
static void filling_words(void) {
    static const uint64_t bits[] = {1, UINT64_C(1) << 63, CARD_NAN, UINT64_MAX};
    begin_group("cards: words that are not zero");
    for (size_t k = 0; k < BLOCKS * BLOCK_WORDS * COUNT(bits); k++) {
        struct other_word w = {"filling", k / COUNT(bits), bits[k % COUNT(bits)]};
        int first = w.word > WORD_COUNTER && w.word < BLOCK_WORDS;
        if (first || w.word >= BLOCK_WORDS + ENTRIES) {
            check_word(&w, C, LUMOD_INVALID_CARD);
            check_word(&w, N - 1, LUMOD_INVALID_CARD);
        }
    }
    end_group();
}

static void other_nans(void) {
    static const uint64_t bits[] = {
        CARD_NAN + 1,
        CARD_NAN | UINT64_C(1) << 63,
        CARD_NAN | UINT64_C(1) << 50,
        UINT64_C(0x7ff0000000000001),
        UINT64_C(0xfff4000000000000),
        UINT64_C(0x7fffffffffffffff),
        UINT64_MAX,
    };
    begin_group("cards: NaNs of other patterns");
    for (size_t k = 0; k < ENTRIES * COUNT(bits); k++) {
        struct other_word w = {"NaN", BLOCK_WORDS + k / COUNT(bits), bits[k % COUNT(bits)]};
        check_word(&w, C, LUMOD_INVALID_CARD);
        check_word(&w, N - 1, LUMOD_INVALID_CARD);
    }
    end_group();
}

/* Two entries in one block, one larger by what the other is smaller: the sum is the same, and
 * the blocks are the card of another state. */
static void same_sum(void) {
    struct memory m;
    struct card k;
    begin_group("cards: other entries with the same check word");
    for (size_t entry = 1; entry < BLOCK_WORDS; entry++) {
        struct card_state s = right_state(N);
        prepare_storage(&m, C, 0);
        put_right_card(&k, N, 0);
        s.entries[entry - 1] += 1000;
        s.entries[entry] -= 1000;
        put_card_word(&k, BLOCK_WORDS + entry - 1, s.entries[entry - 1]);
        put_card_word(&k, BLOCK_WORDS + entry, s.entries[entry]);
        check_read(make_read("same sum", C), &m, &k, &s);
    }
    end_group();
}

/* A block left out, put in twice, or exchanged with the next, with right check words. */

static void copy_block(struct card *k, size_t to, size_t from) {
    memmove(card_byte(k, to * BLOCK_BYTES), card_byte(k, from * BLOCK_BYTES), BLOCK_BYTES);
}

static void check_moved(struct card *k, const char *what, size_t blocks, uint32_t number,
                        size_t block) {
    struct memory m;
    prepare_storage(&m, C, 0);
    k->length = blocks * BLOCK_BYTES;
    check_not_read(make_read(what, C), &m, k, number, block);
}

static void moved_blocks(void) {
    struct card k, right;
    begin_group("cards: blocks that are moved");
    put_right_card(&right, N, 0);
    k = right;
    copy_block(&k, 3, 2);
    check_moved(&k, "last block twice", 4, LUMOD_DAMAGED_BLOCK, 3);
    mend_card(&k);
    check_moved(&k, "last block twice, mended", 4, LUMOD_INVALID_CARD, 0);
    k = right;
    copy_block(&k, 3, 1);
    copy_block(&k, 1, 2);
    copy_block(&k, 2, 3);
    check_moved(&k, "blocks 1 and 2 exchanged", 3, LUMOD_DAMAGED_BLOCK, 1);
    k = right;
    copy_block(&k, 1, 2);
    check_moved(&k, "block 1 left out", 2, LUMOD_DAMAGED_BLOCK, 1);
    k = right;
    copy_block(&k, 0, 1);
    copy_block(&k, 1, 2);
    check_moved(&k, "block 0 left out", 2, LUMOD_DAMAGED_BLOCK, 0);
    mend_card(&k);
    check_moved(&k, "block 0 left out, mended", 2, LUMOD_INVALID_CARD, 0);
    k = right;
    k.length += BLOCK_BYTES;
    memset(card_byte(&k, LENGTH_OF_CARD), 0, BLOCK_BYTES);
    put_card_word(&k, WORD_BLOCKS, 4);
    mend_card(&k);
    check_moved(&k, "a block of zeros added", 4, LUMOD_INVALID_CARD, 0);
    end_group();
}

void check_card_damage(void) {
    every_byte();
    several_blocks();
    every_length();
    first_words();
    filling_words();
    other_nans();
    same_sum();
    moved_blocks();
}
