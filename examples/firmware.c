/* An example firmware main: a shelf of seven recipe cards in memory is tagged, damaged, reported and repaired. A card is
 * changed, one withdrawn and one added, and the sheet is held against the shelf of another season. */
#include "gtm.h"

#include <stdio.h>
#include <stdlib.h>
#include <string.h>

#define CARDS 7
#define SHEET 92 /* bytes of a sheet of size 1 */

enum { SPRING = 1, AUTUMN = 2 }; /* the shelves' numbers */

static const uint8_t keys[48] = "card key 16 bytetag key, 16 byteseal key 16 byt";

/* Place 4 is vacant. */
static const char *cards[CARDS] = {"amber 40 smoke 2", "barley 25 malt 8", "cocoa 12 salt 1", "", "elder 7", "fig 30 rum 5", "ginger 3"};

/* Lays the cards out as a shelf: letters, version 2, the shelf's number, count, then each card behind its length.
 * Returns the shelf's length. */
static size_t build(uint8_t *shelf, uint32_t number)
{
    size_t at = 11;
    memcpy(shelf, "TBS\0\2", 5);
    for (unsigned i = 0; i < 4; i++)
        shelf[5 + i] = (uint8_t)(number >> (24 - 8 * i));
    shelf[9] = 0;
    shelf[10] = CARDS;
    for (unsigned j = 0; j < CARDS; j++) {
        size_t len = strlen(cards[j]);
        shelf[at] = (uint8_t)(len >> 8);
        shelf[at + 1] = (uint8_t)len;
        memcpy(shelf + at + 2, cards[j], len);
        at += 2 + len;
    }
    return at;
}

/* Stops at a refusal, else passes the result on. */
static uint64_t must(const char *call, uint64_t result)
{
    if (gtm_number(result) != 0) {
        printf("%s: refused %u place %u\n", call, gtm_number(result), (unsigned)gtm_place(result));
        exit(1);
    }
    return result;
}

/* Says what a report finds, and which cards to load again. */
static void report(const char *when, const uint8_t *shelf, size_t len, const uint8_t *sheet)
{
    static const char *const answers[] = {"intact", "named", "beyond"};
    uint8_t marks[CARDS];
    uint64_t r = must("report", gtm_report(keys, sizeof keys, shelf, len, sheet, SHEET, marks, sizeof marks));
    printf("%s: %s, %u named, %u rows disagree\n", when, answers[gtm_answer(r)], gtm_named(r), gtm_rows(r));
    for (unsigned j = 0; j < CARDS; j++)
        if (marks[j])
            printf("reload card %u\n", j + 1);
}

static void verify(const char *what, const uint8_t *shelf, size_t len, const uint8_t *sheet)
{
    uint64_t r = must("verify", gtm_verify(keys, sizeof keys, shelf, len, sheet, SHEET));
    printf("%s: %s\n", what, gtm_yes(r) ? "yes" : "no");
}

/* Puts another card in a place, and makes the sheet that goes with it from the old sheet: no other card is read for it. */
static void replace(unsigned number, const char *new_card, const uint8_t *old_sheet, uint8_t *new_sheet)
{
    const char *old_card = cards[number - 1];
    must("replace", gtm_replace(keys, sizeof keys, old_sheet, SHEET, number, (const uint8_t *)old_card, strlen(old_card),
                                (const uint8_t *)new_card, strlen(new_card), new_sheet, SHEET));
    cards[number - 1] = new_card;
}

int main(void)
{
    static uint8_t shelf[256], sheet[SHEET], changed[SHEET], withdrawn[SHEET], added[SHEET], marks[CARDS];
    uint64_t r;

    /* Tag the shelf once and keep the sheet beside it. */
    size_t len = build(shelf, SPRING);
    must("tag", gtm_tag(keys, sizeof keys, 1, shelf, len, sheet, sizeof sheet));
    printf("tagged %d cards, %zu bytes of shelf, %d of sheet\n", CARDS, len, SHEET);

    /* A bit of card 2 flips in storage: the report names the card. Then it is loaded again. */
    shelf[11 + 2 + strlen(cards[0]) + 2] ^= 1;
    report("after damage", shelf, len, sheet);
    len = build(shelf, SPRING);
    report("after reload", shelf, len, sheet);

    /* Card 5 is changed on purpose. */
    replace(5, "elder 9 honey 4", sheet, changed);
    len = build(shelf, SPRING);
    verify("new shelf, old sheet", shelf, len, sheet);
    verify("new shelf, new sheet", shelf, len, changed);

    /* The blend of card 6 is dropped, and its place stands vacant; a new blend takes place 4. */
    replace(6, "", changed, withdrawn);
    len = build(shelf, SPRING);
    verify("card 6 withdrawn, new sheet", shelf, len, withdrawn);
    replace(4, "dill 6 mint 2", withdrawn, added);
    len = build(shelf, SPRING);
    verify("card 4 added, new sheet", shelf, len, added);

    /* A sheet cut short is refused, and the refusal has a number. */
    r = gtm_verify(keys, sizeof keys, shelf, len, added, SHEET - 1);
    printf("sheet cut short: refused %u place %u\n", gtm_number(r), (unsigned)gtm_place(r));

    /* So is the sheet of another shelf, though keys and cards are the same. */
    len = build(shelf, AUTUMN);
    r = gtm_report(keys, sizeof keys, shelf, len, added, SHEET, marks, sizeof marks);
    printf("autumn shelf, spring sheet: refused %u place %u\n", gtm_number(r), (unsigned)gtm_place(r));
    return 0;
}
