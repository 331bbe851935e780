/* Tags for a recipe shelf: what the hopper firmware calls.
 *
 * A shelf (message file) is tagged once; the sheet (tag file) is kept beside it. Later the shelf is verified against
 * its sheet, or a report says which cards were altered, and a single card's share of the tags is replaced without
 * reading the others.
 *
 * A shelf has a number, 0 to 4,294,967,295, which its sheet repeats: a sheet of another shelf is told by it and
 * refused, even where keys and count are the same. Both files carry it from version 2 on. Version 1 is still read and
 * counts as number 0, so the two files may be of different versions.
 *
 * A card of length 0 is a vacant place, and a sheet of version 3 counts it as no card: it adds nothing to the tags. To
 * a sheet of version 1 or 2 it is a card like any other. The sheet's version decides; a shelf has no version 3. To
 * every report a place that was filled or emptied is an altered card. gtm_replace withdraws a card (new length 0) or
 * adds one at a vacant place (old length 0).
 *
 * gtm_tag writes sheets of version 3, which are laid out as those of version 2; gtm_replace keeps the version and the
 * number of the sheet that it is given.
 *
 * Any pointer that a length of 0 goes with may be null. Otherwise a pointer has to be valid for its length; nothing
 * else is asked of a caller: any bytes, lengths and numbers may be handed over. The buffer that a call writes must not
 * overlap another; those that it only reads may lie in one another. The functions keep nothing between calls, allocate
 * nothing and do not block.
 *
 * Each returns one number. gtm_number() of it is 0 when the call did its work, else the number of a refusal:
 *
 *   1  keys not 48 bytes (card key, tag key and seal key, 16 each)                  all calls
 *   2  size not 1 to 4, 35 to 37 or 51 to 57                                        gtm_tag
 *   3  shelf under 7 bytes (version 2: 11) or over 65,536, or wrong letters,
 *      or a version that is not 1 or 2                                              gtm_tag, gtm_verify, gtm_report
 *   4  count 0 or above the cards of the size, by the table below                   gtm_tag
 *   5  a card too long or running past the end, or bytes left over
 *      (place: the first such card, or count + 1)                                   gtm_tag, gtm_verify, gtm_report
 *   6  not a sheet: letters, a version that is not 1, 2 or 3, a size as in 2,
 *      a count as in 4, or another length than version and size ask for             gtm_verify, gtm_report, gtm_replace
 *   7  the buffer lent is shorter than the output: a sheet of version 3, a byte
 *      for each card, or a sheet as long as the one given                           gtm_tag, gtm_report, gtm_replace
 *   8  card number 0 or above the sheet's count                                     gtm_replace
 *   9  handed card over 1,024 bytes (place: 1 old, 2 new)                           gtm_replace
 *  20  the sheet's seal differs: another key, or altered                            gtm_verify, gtm_report, gtm_replace
 *  21  shelf and sheet have different counts                                        gtm_verify, gtm_report
 *  25  shelf and sheet have different shelf numbers: the sheet of another shelf     gtm_verify, gtm_report
 *
 * The first that applies is returned, in this order: gtm_tag 1 2 3 4 5 7; gtm_verify 1 3 5 6 20 21 25; gtm_report the
 * same, then 7; gtm_replace 1 6 20 8 9 7. A refused call writes nothing. One that is done writes its output to the
 * front of the buffer, and the bytes behind stay.
 *
 *   size   cards up to   tags   sheet, bytes (version 1)   altered cards named exactly, up to
 *   1      7             4      92     (88)                2
 *   2      21            10     188    (184)               4
 *   3      73            28     476    (472)               8
 *   4      273           82     1,340  (1,336)             16
 *
 *   for fewer tags, where few altered cards are feared:
 *   35     18            8      156    (152)               1
 *   36     19            9      172    (168)               2
 *   37     20            9      172    (168)               3
 *   51     66            19     332    (328)               1
 *   52     67            23     396    (392)               2
 *   53     68            24     412    (408)               3
 *   54     69            25     428    (424)               4
 *   55     70            26     444    (440)               5
 *   56     71            27     460    (456)               6
 *   57     72            27     460    (456)               7
 */
#ifndef GTM_H
#define GTM_H

#include <stddef.h>
#include <stdint.h>

#ifdef __cplusplus
extern "C" {
#endif

/* The longest sheet and the most marks, for buffers that serve every size. */
#define GTM_SHEET_MAX 1340
#define GTM_CARDS_MAX 273

/* Writes the sheet of a shelf, in version 3. */
uint64_t gtm_tag(const uint8_t *keys, size_t keys_len, uint64_t size, const uint8_t *shelf, size_t shelf_len, uint8_t *sheet,
                 size_t sheet_len);

/* Whether the shelf is as its sheet says: gtm_yes() of the result. */
uint64_t gtm_verify(const uint8_t *keys, size_t keys_len, const uint8_t *shelf, size_t shelf_len, const uint8_t *sheet,
                    size_t sheet_len);

/* Which cards were altered: writes a byte for each card of the shelf, 1 named and 0 cleared. gtm_answer(), gtm_named() and gtm_rows() of the
 * result are the answer, the number of cards named and the number of rows that disagree.
 *
 * What follows is against an unaltered sheet, and d is the last number of the size's line above. Unless the changes of a row cancel out, a card
 * is named exactly when every row through it holds an altered card: all altered cards are named and, where more than d were altered, perhaps
 * others. With the same exception, once every card named is reloaded from a good copy the next report is intact. And at sizes 1 to 4 the rows
 * tell how many cards were altered: with that exception d + 1 disagree exactly when one was, and 2 d + 1 exactly when two were; whatever
 * cancels out, more than k d + 1 disagree only when more than k were.
 *
 * Two reports with the same keys against the same sheet, whatever it holds, neither of them refused: the numbers of rows are apart by at most
 * the rows that hold a card in which the two shelves differ, whatever cancels out. At sizes 1 to 4 that is at most d + 1 for one card, and
 * k d + 1 for k. */
uint64_t gtm_report(const uint8_t *keys, size_t keys_len, const uint8_t *shelf, size_t shelf_len, const uint8_t *sheet,
                    size_t sheet_len, uint8_t *marks, size_t marks_len);

/* Writes the sheet for the shelf with one card replaced, as long as the one given and of its version. The old card has
 * to be the one that was tagged: another goes unnoticed. With new_len 0 the card is withdrawn, with old_len 0 one is
 * added where there was none: the place is vacant to a sheet of version 3, and an empty card to an older one. That it
 * was empty is not checked. */
uint64_t gtm_replace(const uint8_t *keys, size_t keys_len, const uint8_t *sheet, size_t sheet_len, uint64_t number, const uint8_t *old_card,
                     size_t old_len, const uint8_t *new_card, size_t new_len, uint8_t *out, size_t out_len);

/* What a result says. */
enum gtm_answer { GTM_INTACT = 0, GTM_NAMED = 1, GTM_BEYOND = 2 };

/* The refusal's number, 0 when the call did its work. */
static inline unsigned gtm_number(uint64_t result) { return (unsigned)(result & 0xff); }

/* Refused: its place, 0 unless the list names one. */
static inline uint32_t gtm_place(uint64_t result) { return (uint32_t)(result >> 8 & 0xffffff); }

/* gtm_verify, done: 1 for yes and 0 for no. */
static inline int gtm_yes(uint64_t result) { return (int)(result >> 8 & 1); }

/* gtm_report, done. */
static inline enum gtm_answer gtm_answer(uint64_t result) { return (enum gtm_answer)(result >> 8 & 0xff); }
static inline unsigned gtm_named(uint64_t result) { return (unsigned)(result >> 16 & 0xffff); }
static inline unsigned gtm_rows(uint64_t result) { return (unsigned)(result >> 32 & 0xffff); }

#ifdef __cplusplus
}
#endif

/* An example:
 *
 *     uint8_t marks[GTM_CARDS_MAX];
 *     uint64_t r = gtm_report(keys, 48, shelf, shelf_len, sheet, sheet_len, marks, sizeof marks);
 *     if (gtm_number(r) != 0) stop("refused", gtm_number(r), gtm_place(r));
 *     else if (gtm_answer(r) != GTM_INTACT) for (unsigned j = 0; j < count; j++) if (marks[j]) reload(j + 1);
 */

#endif
