/* A second implementation of the recipe shelf's tags, for tests.
 *
 * It is written from the requirements alone and shares no code with the library, and no constants but the four difference lists and the two
 * polynomials. Plain byte operations, no care for speed or timing. Which rows carry tags, and which of them another row is the XOR of, is found by
 * elimination, for the planes and the affine family alike. */
#ifndef SECOND_H
#define SECOND_H

#include <stddef.h>
#include <stdint.h>

#define MOST_CARDS 273
#define MOST_ROWS 273
#define MOST_TAGS 82

/* How many versions the two files have, from 1. Version 3 of a sheet is laid out as version 2. */
#define SHELF_VERSIONS 2u
#define SHEET_VERSIONS 3u

/* A family of rows: what a size code stands for. Cards, rows and tags are numbered from 1. */
struct family {
    unsigned code, cards, rows, tags, limit;
    uint8_t on[MOST_ROWS + 1][MOST_CARDS + 1];   /* by row and card: whether the row holds it */
    unsigned row_of[MOST_TAGS + 1];              /* the row of a tag, rising */
    uint8_t parts[MOST_ROWS + 1][MOST_TAGS + 1]; /* by row and tag: whether the tag's row is one of those whose XOR is the row */
};

/* All that there are, by their codes rising: the planes, then the affine family for s = 2 and s = 3. */
#define PLANES 4u
#define SIZES (PLANES + 3u + 7u)
extern struct family families[SIZES];

/* The family of a size code, NULL if it is none. */
const struct family *second_family(uint64_t code);

/* How many tags the affine family of s and l has by the formula of 000, section 6.5, for any s and l. */
unsigned second_affine_tags(unsigned s, unsigned l);

struct result {
    unsigned number;      /* 0 when done, else the refusal */
    unsigned place;       /* refused: its place */
    int yes;              /* verify */
    int answer;           /* report: 0 intact, 1 named, 2 beyond */
    unsigned named, rows; /* report */
};

/* Works out the tables and the families; to be called once, before all else. Returns 0, or 1 if there is no room for them. */
int second_start(void);

/* The published vectors of the cipher and of CMAC, the bench cards of the requirements, the numbers of every size, and worked cases of versions,
 * vacant places and size 35. Returns how many fail, naming each. */
int second_check(void);

/* The four calls, on files of every version. Output is written when the call is done, and not a byte when it refuses. */
struct result second_tag(const uint8_t *keys, size_t keys_len, uint64_t size, const uint8_t *shelf, size_t shelf_len, uint8_t *out,
                         size_t out_len);
struct result second_verify(const uint8_t *keys, size_t keys_len, const uint8_t *shelf, size_t shelf_len, const uint8_t *sheet,
                            size_t sheet_len);
struct result second_report(const uint8_t *keys, size_t keys_len, const uint8_t *shelf, size_t shelf_len, const uint8_t *sheet,
                            size_t sheet_len, uint8_t *marks, size_t marks_len);
struct result second_replace(const uint8_t *keys, size_t keys_len, const uint8_t *sheet, size_t sheet_len, uint64_t number,
                             const uint8_t *old_card, size_t old_len, const uint8_t *new_card, size_t new_len, uint8_t *out,
                             size_t out_len);

/* As second_tag, which writes version 3, but a sheet of that version, 1 to 3. Version 1 has no number: its codes are under number 0. */
struct result second_tag_in(unsigned version, const uint8_t *keys, size_t keys_len, uint64_t size, const uint8_t *shelf, size_t shelf_len,
                            uint8_t *out, size_t out_len);

/* Bytes of a sheet of that version and family, and of the longest one. */
size_t second_sheet_len(unsigned version, const struct family *f);
#define MOST_SHEET (28 + 16 * MOST_TAGS)

/* The shelf number that a file with a whole head says, shelf or sheet: 0 in version 1. */
uint32_t second_number(const uint8_t *file);

/* The count that a shelf with a whole head says. */
unsigned second_count(const uint8_t *shelf);

/* What the report program prints for an input, to the last byte; returns its length. The text ends in a zero byte that is not counted. */
#define MOST_PRINTED 4096
size_t second_print(const uint8_t *input, size_t len, char out[MOST_PRINTED]);

/* The parts that the tests use to make inputs. */
void second_encipher(const uint8_t key[16], const uint8_t in[16], uint8_t out[16]);
void second_decipher(const uint8_t key[16], const uint8_t in[16], uint8_t out[16]);
void second_double(uint8_t block[16]);
void second_cmac(const uint8_t key[16], const uint8_t *bytes, size_t len, uint8_t out[16]);

/* The code of a card in a sheet of that version; in version 3 a card of length 0 is a vacant place, and its code is 16 zero bytes. */
void second_code(const uint8_t keys[48], unsigned version, uint32_t shelf_number, unsigned card_number, const uint8_t *card, size_t len,
                 uint8_t out[16]);

#endif
