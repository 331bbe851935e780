#include "second.h"

#include <stdio.h>
#include <string.h>

static void xor16(uint8_t *to, const uint8_t *from)
{
    for (int i = 0; i < 16; i++)
        to[i] ^= from[i];
}

/* ---- The cipher ---- */

static uint8_t sbox[256], unsbox[256];
static uint8_t times[16][256]; /* products with the small factors of the column step */

/* Product in the field of 256 elements, modulo x^8 + x^4 + x^3 + x + 1. */
static uint8_t product(uint8_t a, uint8_t b)
{
    uint8_t sum = 0;
    for (; b != 0; b >>= 1) {
        if (b & 1)
            sum ^= a;
        a = (uint8_t)(a << 1 ^ (a & 0x80 ? 0x1b : 0));
    }
    return sum;
}

static void make_cipher_tables(void)
{
    for (unsigned a = 0; a < 256; a++) {
        unsigned inverse = 0; /* of 0 it is 0 */
        for (unsigned b = 1; b < 256; b++)
            if (product((uint8_t)a, (uint8_t)b) == 1)
                inverse = b;
        unsigned image = 0;
        for (unsigned bit = 0; bit < 8; bit++) {
            unsigned sum = 0x63u >> bit;
            for (unsigned k = 0; k < 5; k++)
                sum ^= inverse >> (bit + (k ? k + 3 : 0)) % 8; /* bits i, i+4, i+5, i+6, i+7 */
            image |= (sum & 1) << bit;
        }
        sbox[a] = (uint8_t)image;
        unsbox[image] = (uint8_t)a;
        for (unsigned f = 0; f < 16; f++)
            times[f][a] = product((uint8_t)a, (uint8_t)f);
    }
}

/* The 11 round keys, 16 bytes each. */
static void expand(const uint8_t key[16], uint8_t w[176])
{
    uint8_t constant = 1;
    memcpy(w, key, 16);
    for (unsigned i = 16; i < 176; i += 4) {
        uint8_t word[4];
        memcpy(word, w + i - 4, 4);
        if (i % 16 == 0) {
            uint8_t first = word[0];
            for (unsigned k = 0; k < 3; k++)
                word[k] = sbox[word[k + 1]];
            word[3] = sbox[first];
            word[0] ^= constant;
            constant = product(constant, 2);
        }
        for (unsigned k = 0; k < 4; k++)
            w[i + k] = w[i + k - 16] ^ word[k];
    }
}

/* Each column, byte r of 4, becomes the sum of factor[(c - r) mod 4] times byte c. */
static void mix(uint8_t s[16], const uint8_t factor[4])
{
    for (unsigned column = 0; column < 16; column += 4) {
        uint8_t old[4];
        memcpy(old, s + column, 4);
        for (unsigned r = 0; r < 4; r++) {
            uint8_t sum = 0;
            for (unsigned c = 0; c < 4; c++)
                sum ^= times[factor[(c + 4 - r) % 4]][old[c]];
            s[column + r] = sum;
        }
    }
}

static void encipher(const uint8_t w[176], const uint8_t in[16], uint8_t out[16])
{
    static const uint8_t factor[4] = {2, 3, 1, 1};
    uint8_t s[16], moved[16];
    memcpy(s, in, 16);
    xor16(s, w);
    for (unsigned round = 1; round <= 10; round++) {
        for (unsigned i = 0; i < 16; i++) /* row i mod 4 moves left by i mod 4 columns */
            moved[i] = sbox[s[(i + 4 * (i % 4)) % 16]];
        memcpy(s, moved, 16);
        if (round < 10)
            mix(s, factor);
        xor16(s, w + 16 * round);
    }
    memcpy(out, s, 16);
}

static void decipher(const uint8_t w[176], const uint8_t in[16], uint8_t out[16])
{
    static const uint8_t factor[4] = {14, 11, 13, 9};
    uint8_t s[16], moved[16];
    memcpy(s, in, 16);
    for (unsigned round = 10; round >= 1; round--) {
        xor16(s, w + 16 * round);
        if (round < 10)
            mix(s, factor);
        for (unsigned i = 0; i < 16; i++)
            moved[(i + 4 * (i % 4)) % 16] = unsbox[s[i]];
        memcpy(s, moved, 16);
    }
    xor16(s, w);
    memcpy(out, s, 16);
}

void second_encipher(const uint8_t key[16], const uint8_t in[16], uint8_t out[16])
{
    uint8_t w[176];
    expand(key, w);
    encipher(w, in, out);
}

void second_decipher(const uint8_t key[16], const uint8_t in[16], uint8_t out[16])
{
    uint8_t w[176];
    expand(key, w);
    decipher(w, in, out);
}

/* ---- CMAC ---- */

void second_double(uint8_t block[16])
{
    unsigned carry = 0;
    for (int i = 15; i >= 0; i--) {
        unsigned wide = block[i] * 2u + carry;
        block[i] = (uint8_t)wide;
        carry = wide >> 8;
    }
    if (carry)
        block[15] ^= 0x87;
}

/* CMAC of a front part (may be empty) followed by the bytes. */
static void cmac(const uint8_t w[176], const uint8_t *front, size_t front_len, const uint8_t *bytes, size_t len, uint8_t out[16])
{
    uint8_t key[16] = {0}, state[16] = {0}, block[16] = {0};
    size_t total = front_len + len, filled = 0;
    for (size_t i = 0; i < total; i++) {
        if (filled == 16) { /* more follows, so this block is not the last */
            xor16(state, block);
            encipher(w, state, state);
            memset(block, 0, 16);
            filled = 0;
        }
        block[filled++] = i < front_len ? front[i] : bytes[i - front_len];
    }
    encipher(w, key, key);
    second_double(key);
    if (filled < 16) {
        block[filled] = 0x80;
        second_double(key);
    }
    xor16(state, block);
    xor16(state, key);
    encipher(w, state, out);
}

void second_cmac(const uint8_t key[16], const uint8_t *bytes, size_t len, uint8_t out[16])
{
    uint8_t w[176];
    expand(key, w);
    cmac(w, NULL, 0, bytes, len, out);
}

/* Shelf number and card number, 4 bytes each, then the card. In a sheet of version 3 a card of length 0 has zero bytes in place of a code. */
static void code(const uint8_t w[176], unsigned version, uint32_t shelf_number, unsigned card_number, const uint8_t *card, size_t len,
                 uint8_t out[16])
{
    uint8_t front[8];
    if (version == 3 && len == 0) {
        memset(out, 0, 16);
        return;
    }
    for (int i = 0; i < 4; i++) {
        front[3 - i] = (uint8_t)(shelf_number >> 8 * i);
        front[7 - i] = (uint8_t)(card_number >> 8 * i);
    }
    cmac(w, front, 8, card, len, out);
}

void second_code(const uint8_t keys[48], unsigned version, uint32_t shelf_number, unsigned card_number, const uint8_t *card, size_t len,
                 uint8_t out[16])
{
    uint8_t w[176];
    expand(keys, w);
    code(w, version, shelf_number, card_number, card, len, out);
}

/* ---- Families of rows ---- */

struct family families[SIZES];

const struct family *second_family(uint64_t code)
{
    for (unsigned i = 0; i < SIZES; i++)
        if (families[i].code == code)
            return &families[i];
    return NULL;
}

static void add(uint8_t *to, const uint8_t *from, unsigned last)
{
    for (unsigned i = 1; i <= last; i++)
        to[i] ^= from[i];
}

/* Elimination, in row order: a row that is no sum of earlier rows carries the next tag, and any other is a sum of rows with tags. Returns 1 if
 * there is no room for the tags. */
static int eliminate(struct family *f)
{
    static uint8_t basis[MOST_TAGS + 1][MOST_CARDS + 1], made[MOST_TAGS + 1][MOST_TAGS + 1];
    unsigned lead[MOST_TAGS + 1];
    f->tags = 0;
    for (unsigned i = 1; i <= f->rows; i++) {
        uint8_t row[MOST_CARDS + 1], sum[MOST_TAGS + 1] = {0};
        unsigned j = 1;
        memcpy(row, f->on[i], sizeof row);
        for (unsigned k = 1; k <= f->tags; k++)
            if (row[lead[k]]) {
                add(row, basis[k], f->cards);
                add(sum, made[k], f->tags);
            }
        while (j <= f->cards && !row[j])
            j++;
        if (j > f->cards) { /* nothing is left of it */
            memcpy(f->parts[i], sum, sizeof sum);
            continue;
        }
        if (f->tags == MOST_TAGS)
            return 1;
        unsigned tag = ++f->tags;
        sum[tag] = 1;
        lead[tag] = j;
        memcpy(basis[tag], row, sizeof row);
        memcpy(made[tag], sum, sizeof sum);
        f->row_of[tag] = i;
        f->parts[i][tag] = 1;
    }
    return 0;
}

/* The planes by size code, from 1: limit + 1 differences each. */
static const struct {
    unsigned cards, limit, list[17];
} planes[PLANES] = {
    {7, 2, {1, 2, 4}},
    {21, 4, {3, 6, 7, 12, 14}},
    {73, 8, {1, 2, 4, 8, 16, 32, 37, 55, 64}},
    {273, 16, {1, 2, 4, 8, 16, 32, 64, 91, 117, 128, 137, 182, 195, 205, 234, 239, 256}},
};

static int make_plane(struct family *f, unsigned code)
{
    unsigned m = planes[code - 1].cards;
    f->code = code;
    f->cards = f->rows = m;
    f->limit = planes[code - 1].limit;
    for (unsigned i = 1; i <= m; i++)
        for (unsigned j = 1; j <= m; j++)
            for (unsigned k = 0; k <= f->limit; k++)
                if ((j + m - i) % m == planes[code - 1].list[k])
                    f->on[i][j] = 1;
    return eliminate(f);
}

/* Product in the field of 2^s elements, modulo x^2 + x + 1 or x^3 + x + 1. */
static unsigned field_product(unsigned s, unsigned a, unsigned b)
{
    unsigned polynomial = s == 2 ? 7 : 11, sum = 0;
    for (; b != 0; b >>= 1) {
        if (b & 1)
            sum ^= a;
        a <<= 1;
        if (a >> s & 1)
            a ^= polynomial;
    }
    return sum;
}

/* The line ax + by = c. */
struct line {
    unsigned a, b, c;
};

static int on_line(unsigned s, struct line l, unsigned x, unsigned y)
{
    return (field_product(s, l.a, x) ^ field_product(s, l.b, y)) == l.c;
}

/* The cards' lines, from 1: the chosen ones, y = kx for k rising and then x = 0, and behind them ax + by = 1. Returns how many there are. In
 * the field y = kx is kx + y = 0. */
static unsigned make_lines(unsigned s, unsigned chosen, struct line lines[MOST_CARDS + 1])
{
    unsigned q = 1u << s, n = 0;
    for (unsigned k = 0; k < chosen; k++)
        lines[++n] = k < q ? (struct line){k, 1, 0} : (struct line){1, 0, 0};
    for (unsigned a = 0; a < q; a++)
        for (unsigned b = 0; b < q; b++)
            if (a != 0 || b != 0)
                lines[++n] = (struct line){a, b, 1};
    return n;
}

/* Whether the point is on a chosen line. */
static int is_row(unsigned s, unsigned chosen, const struct line lines[], unsigned x, unsigned y)
{
    for (unsigned j = 1; j <= chosen; j++)
        if (on_line(s, lines[j], x, y))
            return 1;
    return 0;
}

/* The affine family of so many chosen lines over the field of 2^s elements: a row is a point of them. */
static int make_affine(struct family *f, unsigned s, unsigned chosen)
{
    struct line lines[MOST_CARDS + 1];
    unsigned q = 1u << s;
    f->code = 16 * s + chosen;
    f->cards = make_lines(s, chosen, lines);
    f->rows = 0;
    f->limit = chosen - 2;
    for (unsigned y = 0; y < q; y++)
        for (unsigned x = 0; x < q; x++) {
            if (!is_row(s, chosen, lines, x, y))
                continue;
            f->rows++;
            for (unsigned j = 1; j <= f->cards; j++)
                f->on[f->rows][j] = (uint8_t)on_line(s, lines[j], x, y);
        }
    return eliminate(f);
}

int second_start(void)
{
    struct family *f = families;
    int bad = 0;
    make_cipher_tables();
    for (unsigned code = 1; code <= PLANES; code++)
        bad |= make_plane(f++, code);
    for (unsigned s = 2; s <= 3; s++)
        for (unsigned chosen = 3; chosen <= (1u << s) + 1; chosen++)
            bad |= make_affine(f++, s, chosen);
    return bad || f != families + SIZES;
}

/* ---- Tags ---- */

struct keys {
    uint8_t card[176], tag[176], seal[176];
};

static struct keys expand_all(const uint8_t *keys)
{
    struct keys k;
    expand(keys, k.card);
    expand(keys + 16, k.tag);
    expand(keys + 32, k.seal);
    return k;
}

static void mask(const struct keys *k, unsigned number, uint8_t out[16])
{
    memset(out, 0, 16);
    encipher(k->tag, out, out);
    for (unsigned i = 0; i < number; i++)
        second_double(out);
}

static void tag_of_sum(const struct keys *k, unsigned number, const uint8_t sum[16], uint8_t out[16])
{
    uint8_t m[16], s[16];
    mask(k, number, m);
    memcpy(s, sum, 16);
    xor16(s, m);
    encipher(k->tag, s, out);
    xor16(out, m);
}

static void sum_of_tag(const struct keys *k, unsigned number, const uint8_t tag[16], uint8_t out[16])
{
    uint8_t m[16], s[16];
    mask(k, number, m);
    memcpy(s, tag, 16);
    xor16(s, m);
    decipher(k->tag, s, out);
    xor16(out, m);
}

/* ---- Reading the two files ---- */

static unsigned two(const uint8_t *b)
{
    return b[0] * 256u + b[1];
}

static struct result refuse(unsigned number, unsigned place)
{
    struct result r = {number, place, 0, 0, 0, 0};
    return r;
}

static struct result done(void)
{
    return refuse(0, 0);
}

/* What stands in front of the cards or the tags. */
struct head {
    unsigned version, count;
    uint32_t number;             /* 0 in version 1, which has none */
    size_t len;                  /* its own bytes */
    const struct family *family; /* of a sheet alone */
};

uint32_t second_number(const uint8_t *file)
{
    return two(file + 3) == 1 ? 0 : (uint32_t)two(file + 5) << 16 | two(file + 7);
}

/* Letters and version are read first, for how long the head is depends on them. Returns 1 if these are no letters or no version that there
 * is, or if the file ends within the head. */
static int bad_front(const char *letters, unsigned versions, size_t shortest, const uint8_t *file, size_t len, struct head *h)
{
    if (len < 5 || memcmp(file, letters, 3) != 0)
        return 1;
    h->version = two(file + 3);
    if (h->version < 1 || h->version > versions)
        return 1;
    h->len = h->version == 1 ? shortest : shortest + 4;
    if (len < h->len)
        return 1;
    h->number = second_number(file);
    h->count = two(file + h->len - 2); /* last in the head of either file */
    return 0;
}

static int bad_head(const uint8_t *shelf, size_t len, struct head *h)
{
    return len > 65536 || bad_front("TBS", SHELF_VERSIONS, 7, shelf, len, h);
}

/* Place of the first bad card, count + 1 for bytes left over, 0 if all is well. The head has been read. */
static unsigned bad_card(const uint8_t *shelf, size_t len, const struct head *h)
{
    size_t at = h->len;
    for (unsigned j = 1; j <= h->count; j++) {
        if (len - at < 2)
            return j;
        size_t card = two(shelf + at);
        at += 2;
        if (card > 1024 || card > len - at)
            return j;
        at += card;
    }
    return at < len ? h->count + 1 : 0;
}

/* Sums of all rows of a shelf that has been read, its codes by the version and the number of the sheet. */
static void shelf_sums(const struct keys *k, const uint8_t *shelf, const struct head *h, const struct head *sheet, uint8_t sums[][16])
{
    const struct family *f = sheet->family;
    const uint8_t *at = shelf + h->len;
    memset(sums, 0, (f->rows + 1) * 16);
    for (unsigned j = 1; j <= h->count; j++) {
        uint8_t c[16];
        unsigned len = two(at);
        code(k->card, sheet->version, sheet->number, j, at + 2, len, c);
        at += 2 + len;
        for (unsigned i = 1; i <= f->rows; i++)
            if (f->on[i][j])
                xor16(sums[i], c);
    }
}

size_t second_sheet_len(unsigned version, const struct family *f)
{
    return (version == 1 ? 24 : 28) + 16 * f->tags;
}

static int bad_sheet(const uint8_t *sheet, size_t len, struct head *h)
{
    if (bad_front("TBT", SHEET_VERSIONS, 8, sheet, len, h))
        return 1;
    h->family = second_family(sheet[h->len - 3]);
    if (h->family == NULL)
        return 1;
    return h->count < 1 || h->count > h->family->cards || len != second_sheet_len(h->version, h->family);
}

unsigned second_count(const uint8_t *shelf)
{
    return two(shelf + (two(shelf + 3) == 1 ? 5 : 9));
}

static int bad_seal(const struct keys *k, const uint8_t *sheet, size_t len)
{
    uint8_t seal[16];
    cmac(k->seal, NULL, 0, sheet, len - 16, seal);
    return memcmp(seal, sheet + len - 16, 16) != 0;
}

/* ---- The four calls ---- */

struct result second_tag_in(unsigned version, const uint8_t *keys, size_t keys_len, uint64_t size, const uint8_t *shelf, size_t shelf_len,
                            uint8_t *out, size_t out_len)
{
    uint8_t sums[MOST_ROWS + 1][16];
    struct head h;
    const struct family *f = second_family(size);
    if (keys_len != 48)
        return refuse(1, 0);
    if (f == NULL)
        return refuse(2, 0);
    if (bad_head(shelf, shelf_len, &h))
        return refuse(3, 0);
    if (h.count < 1 || h.count > f->cards)
        return refuse(4, 0);
    unsigned place = bad_card(shelf, shelf_len, &h);
    if (place)
        return refuse(5, place);
    size_t len = second_sheet_len(version, f);
    if (out_len < len)
        return refuse(7, 0);
    struct keys k = expand_all(keys);
    struct head s = {.version = version, .number = version == 1 ? 0 : h.number, .family = f};
    shelf_sums(&k, shelf, &h, &s, sums);
    uint8_t *at = out;
    memcpy(at, "TBT\0", 4);
    at[4] = (uint8_t)version;
    at += 5;
    for (int i = 3; i >= 0 && version != 1; i--)
        *at++ = (uint8_t)(s.number >> 8 * i);
    at[0] = (uint8_t)f->code;
    at[1] = (uint8_t)(h.count >> 8);
    at[2] = (uint8_t)h.count;
    at += 3;
    for (unsigned i = 1; i <= f->tags; i++, at += 16)
        tag_of_sum(&k, i, sums[f->row_of[i]], at);
    cmac(k.seal, NULL, 0, out, len - 16, at);
    return done();
}

struct result second_tag(const uint8_t *keys, size_t keys_len, uint64_t size, const uint8_t *shelf, size_t shelf_len, uint8_t *out,
                         size_t out_len)
{
    return second_tag_in(3, keys, keys_len, size, shelf, shelf_len, out, out_len);
}

/* The checks that verify and report share; gives the two heads. */
static struct result check_both(const uint8_t *keys, size_t keys_len, const uint8_t *shelf, size_t shelf_len, const uint8_t *sheet,
                                size_t sheet_len, struct head *h, struct head *s)
{
    if (keys_len != 48)
        return refuse(1, 0);
    if (bad_head(shelf, shelf_len, h))
        return refuse(3, 0);
    unsigned place = bad_card(shelf, shelf_len, h);
    if (place)
        return refuse(5, place);
    if (bad_sheet(sheet, sheet_len, s))
        return refuse(6, 0);
    struct keys k = expand_all(keys);
    if (bad_seal(&k, sheet, sheet_len))
        return refuse(20, 0);
    if (h->count != s->count)
        return refuse(21, 0);
    if (h->number != s->number)
        return refuse(25, 0);
    return done();
}

struct result second_verify(const uint8_t *keys, size_t keys_len, const uint8_t *shelf, size_t shelf_len, const uint8_t *sheet,
                            size_t sheet_len)
{
    uint8_t sums[MOST_ROWS + 1][16], tag[16];
    struct head h, s;
    struct result r = check_both(keys, keys_len, shelf, shelf_len, sheet, sheet_len, &h, &s);
    if (r.number)
        return r;
    struct keys k = expand_all(keys);
    shelf_sums(&k, shelf, &h, &s, sums);
    r.yes = 1;
    for (unsigned i = 1; i <= s.family->tags; i++) {
        tag_of_sum(&k, i, sums[s.family->row_of[i]], tag);
        if (memcmp(tag, sheet + s.len + 16 * (i - 1), 16) != 0)
            r.yes = 0;
    }
    return r;
}

struct result second_report(const uint8_t *keys, size_t keys_len, const uint8_t *shelf, size_t shelf_len, const uint8_t *sheet,
                            size_t sheet_len, uint8_t *marks, size_t marks_len)
{
    uint8_t sums[MOST_ROWS + 1][16], tagged[MOST_TAGS + 1][16], differs[MOST_ROWS + 1];
    struct head h, s;
    struct result r = check_both(keys, keys_len, shelf, shelf_len, sheet, sheet_len, &h, &s);
    if (r.number)
        return r;
    unsigned count = h.count;
    const struct family *f = s.family;
    if (marks_len < count)
        return refuse(7, 0);
    struct keys k = expand_all(keys);
    shelf_sums(&k, shelf, &h, &s, sums);
    for (unsigned i = 1; i <= f->tags; i++)
        sum_of_tag(&k, i, sheet + s.len + 16 * (i - 1), tagged[i]);
    memset(marks, 1, count);
    for (unsigned i = 1; i <= f->rows; i++) {
        uint8_t sum[16] = {0};
        for (unsigned l = 1; l <= f->tags; l++)
            if (f->parts[i][l])
                xor16(sum, tagged[l]);
        differs[i] = memcmp(sum, sums[i], 16) != 0;
        r.rows += differs[i];
        for (unsigned j = 1; j <= count; j++)
            if (!differs[i] && f->on[i][j])
                marks[j - 1] = 0;
    }
    int explained = 1; /* every row that disagrees holds a named card */
    for (unsigned i = 1; i <= f->rows; i++) {
        int holds = 0;
        for (unsigned j = 1; j <= count; j++)
            holds |= f->on[i][j] & marks[j - 1];
        if (differs[i] && !holds)
            explained = 0;
    }
    for (unsigned j = 0; j < count; j++)
        r.named += marks[j];
    if (r.rows == 0)
        r.answer = 0;
    else if (r.named >= 1 && r.named <= f->limit && explained)
        r.answer = 1;
    else
        r.answer = 2;
    return r;
}

struct result second_replace(const uint8_t *keys, size_t keys_len, const uint8_t *sheet, size_t sheet_len, uint64_t number,
                             const uint8_t *old_card, size_t old_len, const uint8_t *new_card, size_t new_len, uint8_t *out,
                             size_t out_len)
{
    struct head s;
    if (keys_len != 48)
        return refuse(1, 0);
    if (bad_sheet(sheet, sheet_len, &s))
        return refuse(6, 0);
    struct keys k = expand_all(keys);
    if (bad_seal(&k, sheet, sheet_len))
        return refuse(20, 0);
    if (number < 1 || number > s.count)
        return refuse(8, 0);
    if (old_len > 1024)
        return refuse(9, 1);
    if (new_len > 1024)
        return refuse(9, 2);
    if (out_len < sheet_len)
        return refuse(7, 0);
    uint8_t change[16], new_code[16];
    unsigned j = (unsigned)number;
    code(k.card, s.version, s.number, j, old_card, old_len, change);
    code(k.card, s.version, s.number, j, new_card, new_len, new_code);
    xor16(change, new_code);
    memcpy(out, sheet, sheet_len); /* version and number among the rest */
    for (unsigned i = 1; i <= s.family->tags; i++) {
        uint8_t sum[16];
        if (!s.family->on[s.family->row_of[i]][j])
            continue;
        sum_of_tag(&k, i, sheet + s.len + 16 * (i - 1), sum);
        xor16(sum, change);
        tag_of_sum(&k, i, sum, out + s.len + 16 * (i - 1));
    }
    cmac(k.seal, NULL, 0, out, sheet_len - 16, out + sheet_len - 16);
    return done();
}

/* ---- The report program ---- */

/* Keys, a size code and a length stand in front of the two shelves. */
#define FRONT (48 + 1 + 2)

size_t second_print(const uint8_t *input, size_t len, char out[MOST_PRINTED])
{
    static const char *const answers[] = {"intact", "named", "beyond"};
    uint8_t sheet[MOST_SHEET], marks[MOST_CARDS];
    if (len < FRONT || len > 65536 || two(input + 49) > len - FRONT)
        return (size_t)sprintf(out, "unreadable\n");
    size_t first_len = two(input + 49), second_len = len - FRONT - first_len;
    const uint8_t *first = input + FRONT, *second = first + first_len;
    const struct family *f = second_family(input[48]);
    struct result r = second_tag(input, 48, input[48], first, first_len, sheet, sizeof sheet);
    if (r.number == 0)
        r = second_report(input, 48, second, second_len, sheet, second_sheet_len(3, f), marks, sizeof marks);
    if (r.number != 0)
        return (size_t)sprintf(out, "refused %u place %u\n", r.number, r.place);
    unsigned count = second_count(first);
    int at = sprintf(out, "cards %u tags %u limit %u\n", count, f->tags, f->limit);
    at += sprintf(out + at, "%s %u rows %u\n", answers[r.answer], r.named, r.rows);
    for (unsigned j = 1; j <= count; j++)
        if (marks[j - 1])
            at += sprintf(out + at, "card %u\n", j);
    return (size_t)at;
}

/* ---- Vectors and bench cards ---- */

static int failed;

static void expect(int holds, const char *what)
{
    if (!holds) {
        printf("self-check: %s\n", what);
        failed++;
    }
}

static size_t from_hex(const char *hex, uint8_t *out)
{
    size_t len = strlen(hex) / 2;
    for (size_t i = 0; i < len; i++) {
        unsigned byte = 0;
        sscanf(hex + 2 * i, "%2x", &byte);
        out[i] = (uint8_t)byte;
    }
    return len;
}

static void check_cipher(const char *key, const char *plain, const char *secret, const char *what)
{
    uint8_t k[16], p[16], c[16], got[16];
    from_hex(key, k);
    from_hex(plain, p);
    from_hex(secret, c);
    second_encipher(k, p, got);
    expect(memcmp(got, c, 16) == 0, what);
    second_decipher(k, c, got);
    expect(memcmp(got, p, 16) == 0, what);
}

static void check_cmac(size_t len, const char *mac, const char *what)
{
    uint8_t k[16], bytes[64], want[16], got[16];
    from_hex("2b7e151628aed2a6abf7158809cf4f3c", k);
    from_hex("6bc1bee22e409f96e93d7e117393172aae2d8a571e03ac9c9eb76fac45af8e51"
             "30c81c46a35ce411e5fbc1191a0a52eff69f2445df4f9b17ad2b417be66c3710", bytes);
    from_hex(mac, want);
    second_cmac(k, bytes, len, got);
    expect(memcmp(got, want, 16) == 0, what);
}

/* Lays out a shelf, a card a letter: a digit is a card of that one byte, the letters behind 9 go on from it, and a dash is a vacant place. Returns
 * its length. */
#define BENCH 80
static size_t bench_shelf(unsigned version, uint8_t number, const char *cards, uint8_t shelf[BENCH])
{
    uint8_t *at = shelf + (version == 1 ? 7 : 11);
    memcpy(shelf, version == 1 ? "TBS\0\1\0" : "TBS\0\2\0\0\0\0\0", (size_t)(at - shelf - 1));
    at[-1] = (uint8_t)strlen(cards);
    if (version == 2)
        shelf[8] = number;
    for (; *cards != 0; cards++) {
        *at++ = 0;
        *at++ = *cards != '-';
        if (*cards != '-')
            *at++ = (uint8_t)(*cards - '0');
    }
    return (size_t)(at - shelf);
}

/* That shelf in the version that goes with a sheet's: 1 with 1, else 2. */
static size_t bench_shelf_for(unsigned sheet_version, uint8_t number, const char *cards, uint8_t shelf[BENCH])
{
    return bench_shelf(sheet_version == 1 ? 1 : 2, number, cards, shelf);
}

/* Its sheet of that size and version, zero keys; returns its length. */
#define BENCH_SHEET 156
static const uint8_t zero_keys[48] = {0};
static size_t bench_sheet(unsigned size, unsigned version, uint8_t number, const char *cards, uint8_t sheet[BENCH_SHEET])
{
    uint8_t shelf[BENCH];
    size_t len = bench_shelf_for(version, number, cards, shelf);
    expect(second_tag_in(version, zero_keys, 48, size, shelf, len, sheet, BENCH_SHEET).number == 0, "a sheet of the bench");
    return second_sheet_len(version, second_family(size));
}

/* One shelf tagged in some version and another reported: the answer, the number of rows that disagree, and the cards named, a letter each. */
struct bench {
    unsigned size;
    const char *old, *new;
    int answer;
    unsigned rows;
    const char *named, *what;
};

static void check_report(unsigned version, uint8_t number, const struct bench *b)
{
    uint8_t shelf[BENCH], sheet[BENCH_SHEET], marks[18] = {0}, want[18] = {0};
    size_t sheet_len = bench_sheet(b->size, version, number, b->old, sheet), len = bench_shelf_for(version, number, b->new, shelf);
    struct result r = second_report(zero_keys, 48, shelf, len, sheet, sheet_len, marks, sizeof marks);
    for (const char *at = b->named; *at != 0; at++)
        want[*at - '1'] = 1;
    expect(r.number == 0 && r.answer == b->answer && r.rows == b->rows && r.named == strlen(b->named) && memcmp(marks, want, 18) == 0, b->what);
}

/* Which cards a report names depends on which changed, and not on how: filled against vacant is a change like any other. */
static void check_reports(unsigned version, uint8_t number)
{
    static const struct bench all[] = {
        {1, "1234567", "1234567", 0, 0, "", "no card changed"},
        {1, "1234567", "1934567", 1, 3, "2", "card 2 changed"},
        {1, "1234567", "9934567", 1, 5, "12", "cards 1 2 changed"},
        {1, "1234567", "9994567", 2, 6, "1236", "cards 1 2 3 changed"},
        {1, "1-34567", "1-34567", 0, 0, "", "place 2 vacant as it was"},
        {1, "1234567", "1-34567", 1, 3, "2", "card 2 withdrawn"},
        {1, "1-34567", "1234567", 1, 3, "2", "card 2 added"},
        {1, "1-34567", "-134567", 1, 5, "12", "card 1 moved to place 2"},
        {1, "1234567", "---4567", 2, 6, "1236", "cards 1 2 3 withdrawn"},
        {1, "---4567", "1234567", 2, 6, "1236", "cards 1 2 3 added"},
        {1, "-------", "-------", 0, 0, "", "no card at all"},
        {1, "-------", "-2-----", 1, 3, "2", "card 2 added to none"},
        {35, "123456789:;<=>?@AB", "123456789:;<=>?@AB", 0, 0, "", "size 35, no card changed"},
        {35, "123456789:;<=>?@AB", "923456789:;<=>?@AB", 1, 4, "1", "size 35, card 1 changed, on rows 1 2 3 4"},
        {35, "123456789:;<=>?@AB", "123956789:;<=>?@AB", 1, 2, "4", "size 35, card 4 changed, on rows 5 6"},
        {35, "123456789:;<=>?@AB", "123456-89:;<=>?@AB", 1, 3, "7", "size 35, card 7 withdrawn, on rows 2 5 7"},
        {35, "123-56789:;<=>?@AB", "123456989:;<=>?@AB", 2, 4, "47", "size 35, card 4 added and card 7 changed"},
        {35, "123456789:;<=>?@AB", "---456789:;<=>?@AB", 2, 10, "123456789:;<=>?@AB", "size 35, the chosen lines withdrawn"},
        {35, "1234567", "1934567", 1, 4, "2", "size 35, card 2 of seven changed, on rows 1 5 8 10"},
        {35, "1234567", "9934567", 2, 7, "12", "size 35, cards 1 2 of seven changed"},
    };
    for (size_t i = 0; i < sizeof all / sizeof all[0]; i++)
        check_report(version, number, &all[i]);
}

/* A card of length 0 is coded as any other in versions 1 and 2. A card of one byte has the same code in all versions. */
static void check_codes(void)
{
    const uint8_t coded[9] = {0, 0, 0, 5, 0, 0, 0, 2, 9}, zero[16] = {0};
    uint8_t empty[16], one[16], got[16];
    second_cmac(zero_keys, coded, 8, empty);
    second_cmac(zero_keys, coded, 9, one);
    for (unsigned version = 1; version <= SHEET_VERSIONS; version++) {
        second_code(zero_keys, version, 5, 2, NULL, 0, got);
        expect(memcmp(got, version == 3 ? zero : empty, 16) == 0, "the code of a card of length 0");
        second_code(zero_keys, version, 5, 2, coded + 8, 1, got);
        expect(memcmp(got, one, 16) == 0, "the code of a card of one byte");
    }
}

/* Whether the sheets of two shelves, of size 1, have the same tags from one to the other. Their versions have numbers. */
static int same_tags(unsigned first, unsigned last, unsigned a_version, const char *a_cards, unsigned b_version, const char *b_cards)
{
    uint8_t a[BENCH_SHEET], b[BENCH_SHEET];
    size_t at = 12 + 16 * (first - 1);
    bench_sheet(1, a_version, 5, a_cards, a);
    bench_sheet(1, b_version, 5, b_cards, b);
    return memcmp(a + at, b + at, 16 * (last - first + 1)) == 0;
}

/* Of the rows with tags card 2 is on row 1 alone. */
static void check_vacancies(void)
{
    expect(same_tags(1, 4, 3, "1234567", 2, "1234567"), "version 3 without a vacancy has the tags of version 2");
    expect(same_tags(1, 4, 3, "12345--", 3, "12345"), "vacant places at the end change no tag");
    expect(!same_tags(1, 4, 2, "12345--", 2, "12345"), "cards of length 0 at the end do in version 2");
    expect(!same_tags(1, 1, 3, "1-34567", 2, "1-34567"), "a vacancy changes the tag of its row");
    expect(same_tags(2, 4, 3, "1-34567", 2, "1-34567"), "a vacancy changes no other tag");
    expect(same_tags(2, 4, 3, "1-34567", 3, "1234567"), "a card withdrawn changes no other tag");
}

/* Sheets of a shelf of number 5, with a vacancy and of size 35, worked out with OpenSSL's cipher and CMAC; and the tags of zero sums where all is
 * vacant. */
static void check_stored(void)
{
    uint8_t stored[BENCH_SHEET], sheet[BENCH_SHEET], mask[16] = {0}, tag[16];
    from_hex("544254000300000005010007"
             "3b018fcebd15fc99e776e925351d8153581b144b656da1a9d629d3a5e484440c"
             "ac3a3e122893405ef34d90b358a4bb253be6e8a1ec1824a1df083cc51a2e24d4"
             "d00d15528c16433661ec1d3dfcafe8fb", stored);
    bench_sheet(1, 3, 5, "1-34567", sheet);
    expect(memcmp(sheet, stored, 92) == 0, "the stored sheet with a vacancy");
    from_hex("544254000300000005230007"
             "9fae78b456be36420d02e1a308b63deef7fb0785283f2255c2f7dab302325954"
             "4a2b86be84c2271c92ea3570e1e5cd6ed7b8acd26d7a734931581cf373c89c3c"
             "34bfe4c8ddb737c1a79421e1db4df784e9d7d6ce969eb4b52471c1cb61e8bebc"
             "04c467e61d891a5398a45b3d93e324d032055e0c8907d1c42a8bd059bce2969f"
             "b800e14a436d3e4b63a907efc35a5696", stored);
    bench_sheet(35, 3, 5, "1234567", sheet);
    expect(memcmp(sheet, stored, 156) == 0, "the stored sheet of size 35");
    bench_sheet(1, 3, 5, "-------", sheet);
    second_encipher(zero_keys, mask, mask);
    for (unsigned i = 0; i < 4; i++) {
        second_double(mask);
        second_encipher(zero_keys, mask, tag);
        xor16(tag, mask);
        expect(memcmp(sheet + 12 + 16 * i, tag, 16) == 0, "a tag of vacant places alone");
    }
}

/* A card withdrawn and added again in a sheet of that size and version: the sheet of the shelf without it, and the old bytes. */
static void check_withdrawn(unsigned size, unsigned version)
{
    uint8_t full[BENCH_SHEET], less[BENCH_SHEET], got[BENCH_SHEET], back[BENCH_SHEET];
    const uint8_t card = 2;
    size_t len = bench_sheet(size, version, 5, "1234567", full);
    bench_sheet(size, version, 5, "1-34567", less);
    second_replace(zero_keys, 48, full, len, 2, &card, 1, NULL, 0, got, sizeof got);
    expect(memcmp(got, less, len) == 0, "card 2 withdrawn is tagging afresh, in the same version");
    second_replace(zero_keys, 48, got, len, 2, NULL, 0, &card, 1, back, sizeof back);
    expect(memcmp(back, full, len) == 0, "card 2 added again gives the old bytes");
    second_replace(zero_keys, 48, less, len, 2, NULL, 0, NULL, 0, back, sizeof back);
    expect(memcmp(back, less, len) == 0, "a place that stays vacant changes nothing");
}

/* The sheet of the bench shelf in version 1, as it was before there were numbers; and that of number 0, which differs in its head and its
 * seal alone, and holds for either shelf, as the other does. */
static void check_versions(void)
{
    const uint8_t *keys = zero_keys;
    uint8_t stored[88], shelf[BENCH], numbered[BENCH], old[88], new[92];
    from_hex("5442540001010007"
             "4bdf0e9c64a496fbbd40888cea13db6819465b138e64e5a3991216b2d984ad03"
             "c8e3b27d8969805e09b431d2a67d7a2c6958adadb3c0b104f7dbe56c164c2cac"
             "68bf1d14ea9b7f8d61a47e825488af6a", stored);
    size_t len = bench_shelf(1, 0, "1234567", shelf), numbered_len = bench_shelf(2, 0, "1234567", numbered);
    expect(second_tag_in(1, keys, 48, 1, shelf, len, old, 88).number == 0 && memcmp(old, stored, 88) == 0, "the stored sheet");
    expect(second_tag(keys, 48, 1, shelf, len, new, 91).number == 7, "no room for version 3");
    expect(second_tag(keys, 48, 1, shelf, len, new, 92).number == 0, "room for version 3");
    expect(memcmp(new, "TBT\0\3\0\0\0\0\1\0\7", 12) == 0 && memcmp(new + 12, stored + 8, 64) == 0, "number 0 has the same tags");
    expect(second_verify(keys, 48, shelf, len, old, 88).yes && second_verify(keys, 48, shelf, len, new, 92).yes
               && second_verify(keys, 48, numbered, numbered_len, old, 88).yes
               && second_verify(keys, 48, numbered, numbered_len, new, 92).yes, "number 0 in either version");
    numbered[5] = 1;
    expect(second_verify(keys, 48, numbered, numbered_len, old, 88).number == 25, "another number than the sheet of version 1");
    expect(second_verify(keys, 48, numbered, numbered_len, new, 92).number == 25, "another number than the sheet of version 3");
    numbered[4] = 3;
    expect(second_verify(keys, 48, numbered, numbered_len, new, 92).number == 3, "a shelf has no version 3");
    new[4] = 4;
    expect(second_verify(keys, 48, shelf, len, new, 92).number == 6, "a sheet has no version 4");
    new[4] = 0;
    expect(second_verify(keys, 48, shelf, len, new, 92).number == 6, "a sheet has no version 0");
}

/* A shelf of one empty card, one byte fewer and one more. */
static void check_one_empty(const uint8_t *shelf, size_t len)
{
    uint8_t keys[48] = {0}, sheet[92];
    expect(second_tag(keys, 48, 1, shelf, len, sheet, 92).number == 0, "a shelf of one empty card");
    struct result r = second_tag(keys, 48, 1, shelf, len - 1, sheet, 92);
    expect(r.number == 5 && r.place == 1, "one byte fewer");
    r = second_tag(keys, 48, 1, shelf, len + 1, sheet, 92);
    expect(r.number == 5 && r.place == 2, "one byte more");
    expect(second_tag(keys, 48, 1, shelf, len - 2, sheet, 92).number == 5, "the head alone");
    expect(second_tag(keys, 48, 1, shelf, len - 3, sheet, 92).number == 3, "less than the head");
}

/* The same as an input of the report program, of which `len` bytes are given and the first shelf is said to have `said`. The second shelf
 * has that number, or none. */
static void check_print(size_t len, uint8_t said, unsigned version, uint8_t number, const char *want, const char *what)
{
    uint8_t input[FRONT + 28 + BENCH] = {0};
    char printed[MOST_PRINTED];
    input[48] = 1;
    input[50] = said;
    bench_shelf(1, 0, "1234567", input + FRONT);
    bench_shelf(version, number, "1934567", input + FRONT + 28);
    expect(second_print(input, len, printed) == strlen(want) && strcmp(printed, want) == 0, what);
}

/* Whether a row holds just these cards, a letter each. */
static int holds(unsigned size, unsigned row, const char *cards)
{
    const struct family *f = second_family(size);
    for (unsigned j = 1; j <= f->cards; j++)
        if (f->on[row][j] != (strchr(cards, (int)('0' + j)) != NULL))
            return 0;
    return 1;
}

/* The rows of the bench cards, and rows of size 35: points (0, 0), (1, 0), (1, 1) and (3, 1). */
static void check_rows(void)
{
    const struct family *f = second_family(1);
    expect(holds(1, 1, "235"), "size 1, row 1 holds 2 3 5");
    expect(holds(1, 4, "156"), "size 1, row 4 holds 1 5 6");
    expect(f->on[4][1] && f->on[6][1] && f->on[7][1], "size 1, card 1 is on rows 4 6 7");
    expect(holds(2, 1, "478=?"), "size 2, row 1 holds 4 7 8 13 15");
    expect(memcmp(f->parts[5] + 1, "\1\1\1\0", 4) == 0, "size 1, row 5 is rows 1, 2, 3");
    expect(holds(35, 1, "123"), "size 35, row 1 holds 1 2 3");
    expect(holds(35, 2, "1789:"), "size 35, row 2 holds 1 7 8 9 10");
    expect(holds(35, 5, "247>A"), "size 35, row 5 holds 2 4 7 14 17");
    expect(holds(35, 6, "349;B"), "size 35, row 6 holds 3 4 9 11 18");
    expect(second_family(35)->row_of[8] == 9, "size 35, tag 8 is of row 9");
}

/* 000, sections 6.4 and 6.5: a card is on more rows than the limit, and two cards share at most one. So some row of a card holds none of any
 * other cards up to the limit. */
static int disjunct(const struct family *f)
{
    for (unsigned j = 1; j <= f->cards; j++)
        for (unsigned k = 1; k <= j; k++) {
            unsigned shared = 0;
            for (unsigned i = 1; i <= f->rows; i++)
                shared += f->on[i][j] & f->on[i][k];
            if (k == j ? shared <= f->limit : shared > 1)
                return 0;
        }
    return 1;
}

/* Every row is the XOR of its parts. */
static int made_of_parts(const struct family *f)
{
    for (unsigned i = 1; i <= f->rows; i++) {
        uint8_t sum[MOST_CARDS + 1] = {0};
        for (unsigned tag = 1; tag <= f->tags; tag++)
            if (f->parts[i][tag])
                add(sum, f->on[f->row_of[tag]], f->cards);
        if (memcmp(sum + 1, f->on[i] + 1, f->cards) != 0)
            return 0;
    }
    return 1;
}

unsigned second_affine_tags(unsigned s, unsigned l)
{
    unsigned ways = 1, sum = 0; /* ways to take i of s */
    for (unsigned i = 0; i <= s; i++) {
        sum += ways * (1u << i < l ? 1u << i : l);
        ways = ways * (s - i) / (i + 1);
    }
    return sum;
}

/* The numbers of document 01 for the planes, and for the others those of 000, section 6.5, and of document 02. */
static void check_families(void)
{
    static const unsigned tags[SIZES] = {4, 10, 28, 82, 8, 9, 9, 19, 23, 24, 25, 26, 27, 27};
    for (unsigned i = 0; i < SIZES; i++) {
        const struct family *f = &families[i];
        unsigned s = f->code / 16, l = f->code % 16, q = 1u << s;
        expect(f->tags == tags[i], "the number of tags");
        expect(disjunct(f), "a card is on more rows than the limit, and shares one at most with another");
        expect(made_of_parts(f), "a row is the XOR of its parts");
        if (i < PLANES)
            expect(f->row_of[f->tags] == f->tags, "a plane's first rows carry the tags");
        else
            expect(f->cards == q * q - 1 + l && f->rows == l * (q - 1) + 1 && f->tags == second_affine_tags(s, l), "an affine size");
    }
}

/* The published vectors, and what the bench cards say of the S-box and of doubling. */
static void check_parts(void)
{
    uint8_t block[16] = {0x80}, doubled[16] = {0};
    check_cipher("2b7e151628aed2a6abf7158809cf4f3c", "3243f6a8885a308d313198a2e0370734", "3925841d02dc09fbdc118597196a0b32",
                 "FIPS 197, appendix B");
    check_cipher("000102030405060708090a0b0c0d0e0f", "00112233445566778899aabbccddeeff", "69c4e0d86a7b0430d8cdb78070b4c55a",
                 "FIPS 197, appendix C.1");
    check_cmac(0, "bb1d6929e95937287fa37d129b756746", "RFC 4493, example 1");
    check_cmac(16, "070a16b46b4d4144f79bdd9dd04a287c", "RFC 4493, example 2");
    check_cmac(40, "dfa66747de9ae63030ca32611497c827", "RFC 4493, example 3");
    check_cmac(64, "51f0bebf7e3b9d92fc49741779363cfe", "RFC 4493, example 4");
    expect(sbox[0x53] == 0xed, "S-box of 53");
    doubled[15] = 0x87;
    second_double(block);
    expect(memcmp(block, doubled, 16) == 0, "doubling of 80 and fifteen 00");
}

int second_check(void)
{
    failed = 0;
    check_parts();
    check_rows();
    check_families();
    for (unsigned version = 1; version <= SHEET_VERSIONS; version++) {
        check_reports(version, 0);
        check_withdrawn(1, version);
        check_withdrawn(35, version);
    }
    check_reports(2, 5);
    check_reports(3, 5);
    check_versions();
    check_codes();
    check_vacancies();
    check_stored();
    check_one_empty((const uint8_t *)"TBS\0\1\0\1\0\0", 9);
    check_one_empty((const uint8_t *)"TBS\0\2\0\0\0\5\0\1\0\0", 13);
    check_print(107, 28, 1, 0, "cards 7 tags 4 limit 2\nnamed 1 rows 3\ncard 2\n", "the report program's example");
    check_print(111, 28, 2, 0, "cards 7 tags 4 limit 2\nnamed 1 rows 3\ncard 2\n", "the same, number 0 said");
    check_print(111, 28, 2, 5, "refused 25 place 0\n", "the same, number 5");
    check_print(107, 57, 1, 0, "unreadable\n", "a first shelf past the end");
    check_print(107, 56, 1, 0, "refused 5 place 8\n", "both shelves as the first");
    check_print(79, 28, 1, 0, "refused 3 place 0\n", "no second shelf");
    check_print(51, 0, 1, 0, "refused 3 place 0\n", "no shelf at all");
    check_print(50, 0, 1, 0, "unreadable\n", "fewer bytes than stand in front");
    return failed;
}
