#ifndef MANAGED_CARDS_H
#define MANAGED_CARDS_H

/* Cards: their bytes, and what reading them leaves. */
void check_cards(void);
/* Cards in heap blocks exactly as long as needed. */
void check_bare_cards(void);
/* A card whose blocks are more than a byte can count. */
void check_large_card(void);
/* The check of each block, and other bytes, by sums of bytes. */
void check_card_bytes(void);
/* Cards with other bytes, lengths, blocks and words. */
void check_card_damage(void);
/* Every refusal of the calls on cards, and their order. */
void check_card_refusals(void);

#endif
