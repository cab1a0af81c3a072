/*
 * Cards in files, written by one process and read by another.
 *
 *     card_file write FOLDER  Makes a list of managed calls, and writes a card before
 *                             the first call and after each, all to files of their own.
 *     card_file read FOLDER   Makes the same list, and beside it goes on from each card
 *                             at another capacity. Both must give the same, bit for
 *                             bit, NaNs alike.
 *
 * The last line counts the checks. The exit status is 1 where one failed, and 2 where a
 * file could not be written or read.
 */
#include <stdio.h>
#include <stdlib.h>
#include <string.h>

#include "card_file_list.h"
#include "checked_memory.h"
#include "lumod.h"

enum { LARGEST_BYTES = 8192 };

/* Where the card after k calls is kept. */
static FILE *open_card(const char *folder, size_t k, const char *mode) {
    char path[4096];
    FILE *file;
    snprintf(path, sizeof path, "%s/card_%zu", folder, k);
    file = fopen(path, mode);
    if (!file) {
        perror(path);
        exit(2);
    }
    return file;
}

static uint8_t *heap_block(size_t bytes) {
    uint8_t *start = malloc(bytes > 0 ? bytes : 1);
    if (!start) {
        abort();
    }
    return start;
}

/* In a block exactly as long as the card. */
static uint8_t *card_of(const struct state *s, size_t *length) {
    size_t l_length = s->c * (s->c + 1), written = 0;
    uint8_t *card;
    check_number("length", lumod_card_length(s->n, length), LUMOD_OK);
    card = heap_block(*length);
    check_number("write",
                 lumod_write_card(s->n, s->c, s->counter, s->l, l_length, s->u, l_length / 2,
                                  card, *length, &written),
                 LUMOD_OK);
    check_number("*written", written, *length);
    return card;
}

static void keep_card(const char *folder, size_t k, const struct state *s) {
    size_t length;
    uint8_t *card = card_of(s, &length);
    FILE *file = open_card(folder, k, "wb");
    size_t kept = fwrite(card, 1, length, file);
    if (fclose(file) != 0 || kept != length) {
        perror("card");
        exit(2);
    }
    free(card);
}

static void write_cards(const char *folder) {
    struct state s = new_state(LARGEST + 2);
    begin_group("cards written to files");
    keep_card(folder, 0, &s);
    for (size_t k = 0; k < CALLS; k++) {
        make_call(&s, k);
        keep_card(folder, k + 1, &s);
    }
    end_state(&s);
    end_group();
}

/* A card from a file, in a block of memory exactly as long. */
static uint8_t *kept_card(const char *folder, size_t k, size_t *length) {
    static uint8_t bytes[LARGEST_BYTES];
    FILE *file = open_card(folder, k, "rb");
    uint8_t *card;
    *length = fread(bytes, 1, sizeof bytes, file);
    fclose(file);
    card = heap_block(*length);
    memcpy(card, bytes, *length);
    return card;
}

/* The state of the card after k calls. Its own card is the same again. */
static struct state state_from(const char *folder, size_t k, size_t c) {
    struct state s = new_state(c);
    size_t length, length_again, block;
    uint8_t *card = kept_card(folder, k, &length), *again;
    check_number("read",
                 lumod_read_card(&s.n, c, &s.counter, s.l, c * (c + 1), s.u, c * (c + 1) / 2,
                                 card, length, &block),
                 LUMOD_OK);
    again = card_of(&s, &length_again);
    check_number("the card's length again", length_again, length);
    check_number("the card again", memcmp(again, card, length) == 0, 1);
    free(card), free(again);
    return s;
}

/* The list without a card, and from the card after k calls on. */
static void go_on(const char *folder, size_t k) {
    struct state unbroken = new_state(LARGEST), resumed;
    for (size_t call = 0; call < k; call++) {
        make_call(&unbroken, call);
    }
    resumed = state_from(folder, k, LARGEST + k % 4);
    check_same_state(k, &resumed, &unbroken);
    for (size_t call = k; call < CALLS; call++) {
        struct answered expected = make_call(&unbroken, call);
        struct answered found = make_call(&resumed, call);
        check_same_answer(call, &found, &expected);
        check_same_state(call, &resumed, &unbroken);
    }
    end_state(&unbroken), end_state(&resumed);
}

static void read_cards(const char *folder) {
    begin_group("lists that go on from cards in files");
    for (size_t k = 0; k <= CALLS; k++) {
        go_on(folder, k);
    }
    end_group();
}

int main(int count, char **words) {
    setvbuf(stdout, NULL, _IOLBF, BUFSIZ);
    if (count == 3 && strcmp(words[1], "write") == 0) {
        write_cards(words[2]);
    } else if (count == 3 && strcmp(words[1], "read") == 0) {
        read_cards(words[2]);
    } else {
        fputs("usage: card_file write|read FOLDER\n", stderr);
        return 2;
    }
    return end_checks();
}
