/* Random inputs for the tests: choices from one state, and shelves that are good, altered or damaged. Made with the second implementation alone. */
#ifndef INPUTS_H
#define INPUTS_H

#include "second.h"

#define COUNT(list) (sizeof(list) / sizeof(list)[0])
#define SHELF_ROOM 131072u /* bytes that the writer of a shelf may need, damage included */

/* ---- Random choices ---- */

/* What follows depends on the seed and the case's number alone. */
void start_case(uint64_t seed, uint64_t case_number);
uint64_t any(void);
unsigned below(unsigned n);
int one_in(unsigned n);
void fill(uint8_t *to, size_t len);
void flip(uint8_t *bytes, size_t len); /* one bit, unless there is none */
void put_two(uint8_t *to, unsigned value);
void put_four(uint8_t *to, uint32_t value);

/* A shelf number: 0, small, large or any; and one that differs from it, often in one byte or bit only. */
uint32_t some_number(void);
uint32_t another_number(uint32_t number);

/* What may stand as the version: below FIXED_LABELS one of a list, the versions that there are among them; above it any. */
#define FIXED_LABELS 14u
unsigned label(unsigned which);

/* Another of the versions that a sheet has. */
unsigned another_sheet_version(unsigned version);

/* One of the sizes that there are, and one that has room for so many cards. */
const struct family *any_family(void);
const struct family *any_family_for(unsigned cards);

/* A number that may stand as the size code where that family's belongs: near it, far above it or equal to it in the low bytes. A few are codes. */
uint64_t near_code(const struct family *f);

/* ---- A shelf of cards ---- */

/* A shelf as its cards, numbered from 1, before it is laid out as a file. */
struct draft {
    const struct family *family;
    unsigned version, count;
    uint32_t number; /* 0 in version 1 */
    unsigned len[MOST_CARDS + 2];
    uint8_t card[MOST_CARDS + 2][1025];
};

/* Lays the cards out as a file; returns its length. */
size_t write_shelf(const struct draft *d, uint8_t *to);

/* Bytes in front of the cards. */
size_t head_len(const struct draft *d);

/* Where the length of a card stands in the file. */
size_t place_of(const struct draft *d, unsigned number);

/* The length of a filled card; styles 0 to 2 are short, 5 is the longest. */
unsigned some_length(unsigned style);

/* Chooses version and number. */
void choose_number(struct draft *d);

/* Now and then lays number 0 out in the other version: the shelf is the same. */
void choose_version(struct draft *d);

/* Gives the shelf another number, which may take another version. */
void renumber(struct draft *d);

/* Takes the last card away or adds a short one. */
void change_count(struct draft *d);

/* Gives each card of a good shelf its length and bytes; family, version, number and count have been set. None, a few, half or all of the places are
 * vacant. */
void make_cards(struct draft *d, unsigned style);

/* Puts a short card into a place, vacant or not. */
void fill_place(struct draft *d, unsigned number);

/* A good shelf of any family, version, number and count. */
void make_shelf(struct draft *d);

/* Changes so many of the cards: plainly, by withdrawing and adding them, by changing places, or so that rows of a sheet of that version cancel. */
void alter_cards(struct draft *d, const uint8_t keys[48], unsigned sheet_version, unsigned changed);
unsigned how_many(const struct draft *d);

/* Changes so many of the cards, plainly; or cards of one row, so that it cancels; or one card into another with the same code, at a vacant place
 * of a sheet of version 3 one whose code is zero. */
void change_cards(struct draft *d, unsigned changed);
void cancel_row(struct draft *d, const uint8_t keys[48], unsigned sheet_version, unsigned changed);
void hide_card(struct draft *d, const uint8_t keys[48], unsigned sheet_version, unsigned number);

/* Every card of the shelf once, in any order. */
void shuffle(const struct draft *d, unsigned order[MOST_CARDS]);

/* Damages the file of a shelf in one of many ways; returns its new length. The cards may change with it. */
size_t damage_shelf(struct draft *d, uint8_t *file, size_t len);

#endif
