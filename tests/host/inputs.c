#include "inputs.h"

#include <stdio.h>
#include <stdlib.h>
#include <string.h>

/* ---- Random choices ---- */

static uint64_t state;

void start_case(uint64_t seed, uint64_t case_number)
{
    state = seed;
    state = any() + case_number;
    state = any();
}

uint64_t any(void)
{
    uint64_t z = state += 0x9e3779b97f4a7c15u;
    z = (z ^ z >> 30) * 0xbf58476d1ce4e5b9u;
    z = (z ^ z >> 27) * 0x94d049bb133111ebu;
    return z ^ z >> 31;
}

unsigned below(unsigned n)
{
    return (unsigned)(any() % n);
}

int one_in(unsigned n)
{
    return below(n) == 0;
}

void fill(uint8_t *to, size_t len)
{
    for (size_t i = 0; i < len; i++)
        to[i] = (uint8_t)any();
}

void flip(uint8_t *bytes, size_t len)
{
    if (len)
        bytes[below((unsigned)len)] ^= (uint8_t)(1u << below(8));
}

void put_two(uint8_t *to, unsigned value)
{
    to[0] = (uint8_t)(value >> 8);
    to[1] = (uint8_t)value;
}

void put_four(uint8_t *to, uint32_t value)
{
    put_two(to, value >> 16);
    put_two(to + 2, value & 0xffff);
}

uint32_t some_number(void)
{
    static const uint32_t usual[] = {0, 0, 0, 1, 2, 5, 255, 256, 0x10000, 0x1000000, 0x7fffffff, 0x80000000, 0xfffffffe, 0xffffffff};
    return one_in(3) ? (uint32_t)any() : usual[below(COUNT(usual))];
}

uint32_t another_number(uint32_t number)
{
    uint32_t other = number;
    while (other == number)
        switch (below(7)) {
        case 0: other ^= (uint32_t)1 << below(32); break;
        case 1: other ^= (uint32_t)(1 + below(255)) << 8 * below(4); break;
        case 2: other = number >> 24 | (number >> 8 & 0xff00) | (number << 8 & 0xff0000) | number << 24; break; /* the bytes turned round */
        case 3: other = one_in(2) ? number + 1 : number - 1; break;
        case 4: other = 0; break;
        case 5: other = 0xffffffff; break;
        default: other = some_number(); break;
        }
    return other;
}

unsigned label(unsigned which)
{
    static const unsigned fixed[FIXED_LABELS] = {0, 1, 2, 3, 4, 0x0100, 0x0200, 0x0300, 0xffff, 0x0101, 0x0102, 0x0103, 0x0201, 0x8002};
    return which < FIXED_LABELS ? fixed[which] : below(65536);
}

unsigned another_sheet_version(unsigned version)
{
    return 1 + (version + below(SHEET_VERSIONS - 1)) % SHEET_VERSIONS;
}

const struct family *any_family(void)
{
    return &families[below(SIZES)];
}

const struct family *any_family_for(unsigned cards)
{
    const struct family *f = any_family();
    while (f->cards < cards)
        f = any_family();
    return f;
}

uint64_t near_code(const struct family *f)
{
    const uint64_t code = f->code;
    const uint64_t codes[] = {0, code - 1, code + 1, code - 16, code + 16, code ^ 1u << below(8), 256 + code, 65536 + code,
                              (UINT64_C(1) << 32) + code, (UINT64_C(1) << 63) + code, 0 - code, UINT64_MAX, below(256), any()};
    return codes[below(COUNT(codes))];
}

/* ---- A shelf of cards ---- */

size_t head_len(const struct draft *d)
{
    return d->version == 1 ? 7 : 11;
}

size_t write_shelf(const struct draft *d, uint8_t *to)
{
    uint8_t *at = to + head_len(d);
    memcpy(to, "TBS", 3);
    put_two(to + 3, d->version);
    if (d->version == 2)
        put_four(to + 5, d->number);
    put_two(at - 2, d->count);
    for (unsigned j = 1; j <= d->count; j++) {
        put_two(at, d->len[j]);
        memcpy(at + 2, d->card[j], d->len[j]);
        at += 2 + d->len[j];
    }
    return (size_t)(at - to);
}

size_t place_of(const struct draft *d, unsigned number)
{
    size_t at = head_len(d);
    for (unsigned j = 1; j < number; j++)
        at += 2 + d->len[j];
    return at;
}

unsigned some_length(unsigned style)
{
    static const unsigned edges[] = {1, 7, 8, 9, 15, 16, 23, 24, 25, 39, 40, 41, 1022, 1023, 1024};
    switch (style) {
    case 0: return 1 + below(3);
    case 1: return 1 + below(40);
    case 2: return edges[below(COUNT(edges) - (one_in(8) ? 0 : 3))];
    case 3: return 1 + below(299);
    case 4: return one_in(3) ? 1 : 1024;
    default: return 1024; /* 64 cards and more fill a shelf to the last byte */
    }
}

void choose_number(struct draft *d)
{
    d->version = 1 + below(2);
    d->number = d->version == 1 ? 0 : some_number();
}

void choose_version(struct draft *d)
{
    if (d->number == 0 && one_in(2))
        d->version = 3 - d->version;
}

void renumber(struct draft *d)
{
    d->number = another_number(d->number);
    d->version = d->number == 0 && one_in(2) ? 1 : 2;
}

void change_count(struct draft *d)
{
    if (one_in(2)) {
        d->count--;
    } else {
        d->count++;
        d->len[d->count] = below(4);
        fill(d->card[d->count], d->len[d->count]);
    }
}

void make_cards(struct draft *d, unsigned style)
{
    static const uint8_t shares[] = {0, 0, 0, 1, 2, 8, 8, 16}; /* places of 16 that are vacant */
    unsigned room = 65536 - (unsigned)head_len(d) - 2 * d->count, share = shares[below(COUNT(shares))];
    for (unsigned j = 1; j <= d->count; j++) {
        unsigned len = below(16) < share ? 0 : some_length(style);
        d->len[j] = len < room ? len : room;
        room -= d->len[j];
        fill(d->card[j], d->len[j]);
    }
}

void make_shelf(struct draft *d)
{
    static const uint8_t styles[] = {0, 0, 0, 0, 0, 0, 0, 1, 1, 1, 1, 2, 2, 2};
    choose_number(d);
    do
        d->family = any_family();
    while (d->family->cards > 21 && one_in(2)); /* the others take longer, and are drawn half as often */
    unsigned style = styles[below(COUNT(styles))], m = d->family->cards;
    if (one_in(40))
        style = 3 + below(3);
    d->count = one_in(3) ? m : one_in(8) ? 1 : 1 + below(m);
    make_cards(d, style);
}

/* ---- Changed cards ---- */

/* The cards of a shelf that are to be changed, against a sheet of that version made with those keys. */
struct change {
    struct draft *d;
    const uint8_t *keys;
    unsigned version, count;
    unsigned order[MOST_CARDS]; /* the first `count` of them */
};

/* Adds the code that card j has now. */
static void add_code(const struct change *c, unsigned j, uint8_t sum[16])
{
    uint8_t code[16];
    second_code(c->keys, c->version, c->d->number, j, c->d->card[j], c->d->len[j], code);
    for (int i = 0; i < 16; i++)
        sum[i] ^= code[i];
}

/* Gives card j 24 bytes whose code is the one wanted: the card key is known, so the last block can be had by deciphering. */
static void forge(const struct change *c, unsigned j, const uint8_t want[16])
{
    uint8_t first[16] = {0}, subkey[16] = {0}, last[16], sum[16], *card = c->d->card[j];
    fill(card, 8);
    put_four(first, c->d->number);
    put_four(first + 4, j);
    memcpy(first + 8, card, 8);
    second_encipher(c->keys, first, first);
    second_encipher(c->keys, subkey, subkey);
    second_double(subkey);
    second_decipher(c->keys, want, last);
    for (int i = 0; i < 16; i++)
        card[8 + i] = last[i] ^ first[i] ^ subkey[i];
    c->d->len[j] = 24;
    memcpy(sum, want, 16);
    add_code(c, j, sum);
    if (memcmp(sum, (const uint8_t[16]){0}, 16) != 0) {
        printf("a forged card has another code than was wanted\n");
        exit(1);
    }
}

/* Adds a difference to the code of card j. */
static void move_code(const struct change *c, unsigned j, const uint8_t difference[16])
{
    uint8_t want[16];
    memcpy(want, difference, 16);
    add_code(c, j, want);
    forge(c, j, want);
}

void fill_place(struct draft *d, unsigned number)
{
    d->len[number] = 1 + below(8);
    fill(d->card[number], d->len[number]);
}

/* Withdraws the card, or adds one where the place is vacant. */
static void turn_over(struct draft *d, unsigned j)
{
    if (d->len[j])
        d->len[j] = 0;
    else
        fill_place(d, j);
}

static void change_card(struct draft *d, unsigned j)
{
    if (d->len[j] == 0 || one_in(5)) {
        turn_over(d, j);
    } else if (!one_in(4)) {
        flip(d->card[j], d->len[j]);
    } else {
        d->len[j] = below(d->len[j]);
        fill(d->card[j], d->len[j]);
    }
}

static void swap_cards(struct draft *d, unsigned a, unsigned b)
{
    uint8_t bytes[1025];
    unsigned len = d->len[a];
    memcpy(bytes, d->card[a], 1025);
    memcpy(d->card[a], d->card[b], 1025);
    memcpy(d->card[b], bytes, 1025);
    d->len[a] = d->len[b];
    d->len[b] = len;
}

static void change_each(const struct change *c)
{
    for (unsigned i = 0; i < c->count; i++)
        change_card(c->d, c->order[i]);
}

static void turn_each(const struct change *c)
{
    for (unsigned i = 0; i < c->count; i++)
        turn_over(c->d, c->order[i]);
}

/* They change places by twos; one that is left over is changed plainly. */
static void swap_twos(const struct change *c)
{
    unsigned i = 0;
    for (; i + 1 < c->count; i += 2)
        swap_cards(c->d, c->order[i], c->order[i + 1]);
    if (i < c->count)
        change_card(c->d, c->order[i]);
}

/* One difference for all codes, or for some of them. */
static void move_each(const struct change *c)
{
    uint8_t common[16];
    int all = one_in(2);
    fill(common, 16);
    for (unsigned i = 0; i < c->count; i++)
        if (all || one_in(2))
            move_code(c, c->order[i], common);
        else
            change_card(c->d, c->order[i]);
}

/* Each becomes another card with the same code, which no row shows: at a vacant place, in version 3, a card whose code is zero. */
static void keep_codes(const struct change *c)
{
    static const uint8_t none[16] = {0};
    for (unsigned i = 0; i < c->count; i++)
        move_code(c, c->order[i], none);
}

/* Each but the last is changed, and the last is forged so that all of them cancel. */
static void cancel(const struct change *c)
{
    uint8_t sum[16] = {0};
    for (unsigned i = 0; i + 1 < c->count; i++) {
        add_code(c, c->order[i], sum);
        change_card(c->d, c->order[i]);
        add_code(c, c->order[i], sum);
    }
    if (c->count)
        move_code(c, c->order[c->count - 1], sum);
}

unsigned how_many(const struct draft *d)
{
    unsigned limit = d->family->limit;
    const unsigned usual[] = {0, 1, 2, limit, limit + 1, d->count, below(limit + 2), below(d->count + 1)};
    return usual[below(COUNT(usual))];
}

void shuffle(const struct draft *d, unsigned order[MOST_CARDS])
{
    for (unsigned i = 0; i < d->count; i++) {
        unsigned k = below(i + 1);
        order[i] = order[k];
        order[k] = i + 1;
    }
}

/* Moves the cards of one row to the front. */
static void row_first(const struct draft *d, unsigned order[MOST_CARDS])
{
    unsigned row = 1 + below(d->family->rows), front = 0;
    for (unsigned i = 0; i < d->count; i++)
        if (d->family->on[row][order[i]]) {
            unsigned j = order[i];
            order[i] = order[front];
            order[front++] = j;
        }
}

static struct change some_cards(struct draft *d, const uint8_t keys[48], unsigned sheet_version, unsigned changed)
{
    struct change c = {d, keys, sheet_version, changed < d->count ? changed : d->count, {0}};
    shuffle(d, c.order);
    return c;
}

void alter_cards(struct draft *d, const uint8_t keys[48], unsigned sheet_version, unsigned changed)
{
    static void (*const ways[])(const struct change *) = {change_each, change_each, change_each, turn_each, swap_twos, move_each, keep_codes, cancel};
    struct change c = some_cards(d, keys, sheet_version, changed);
    if (one_in(4))
        row_first(d, c.order);
    ways[below(COUNT(ways))](&c);
}

void change_cards(struct draft *d, unsigned changed)
{
    struct change c = some_cards(d, NULL, 0, changed);
    change_each(&c);
}

void cancel_row(struct draft *d, const uint8_t keys[48], unsigned sheet_version, unsigned changed)
{
    struct change c = some_cards(d, keys, sheet_version, changed);
    row_first(d, c.order);
    cancel(&c);
}

void hide_card(struct draft *d, const uint8_t keys[48], unsigned sheet_version, unsigned number)
{
    struct change c = {d, keys, sheet_version, 1, {number}};
    keep_codes(&c);
}

/* ---- Damage ---- */

/* The other version said in front of the same bytes. Or, where the shelf is not long, it gets a number by which its bytes are a good shelf in
 * both versions, of one card in version 1; and either is said. */
static size_t relabel(struct draft *d, uint8_t *file, size_t len)
{
    if (one_in(2) && len < 1024) {
        d->version = 2;
        len = write_shelf(d, file); /* from byte 9 on: count and cards, or all of the one card */
        d->number = 0x10000 + (uint32_t)len - 9;
        write_shelf(d, file);
        put_two(file + 3, 1 + below(2));
    } else {
        put_two(file + 3, 3 - d->version);
    }
    return len;
}

size_t damage_shelf(struct draft *d, uint8_t *file, size_t len)
{
    unsigned m = d->family->cards, count = d->count, j = 1 + below(count), head = (unsigned)head_len(d);
    const unsigned counts[] = {0, count - 1, count + 1, m, m + 1, 65535, below(65536), count + 256};
    const unsigned lengths[] = {1024, 1025, 65535, d->len[j] + 1, d->len[j] - 1, below(65536), below(2048)};
    const unsigned cuts[] = {1, 2, below(8), below((unsigned)len), (unsigned)len - below(13)};
    switch (below(17)) {
    case 0: flip(file, len); break;
    case 1: file[below(3)] = (uint8_t)any(); break;
    case 2: memcpy(file, "TBT", 3); break;
    case 3: put_two(file + 3, label(below(2 * FIXED_LABELS))); break;
    case 4: put_two(file + head - 2, counts[below(COUNT(counts))]); break;
    case 5: put_two(file + place_of(d, j), lengths[below(COUNT(lengths))] & 0xffff); break;
    case 6: /* cut off */
        if (cuts[j = below(COUNT(cuts))] <= len)
            len -= cuts[j];
        break;
    case 7: /* bytes left over, of any kind or zero */
        j = 1 + below(one_in(2) ? 2 : 40);
        memset(file + len, 0, j);
        if (one_in(2))
            fill(file + len, j);
        len += j;
        break;
    case 8: /* noise, with or without a head */
        len = below(80);
        fill(file, len);
        if (one_in(2) && len >= 7)
            memcpy(file, one_in(2) ? "TBS\0\1\0" : "TBS\0\2\0", 6);
        break;
    case 9: /* a good shelf of one card more or fewer */
        change_count(d);
        len = write_shelf(d, file);
        break;
    case 10: /* the same cards and one that is a byte too long */
        if (len + 1026 <= 65536) {
            d->len[j] = 1025;
            len = write_shelf(d, file);
        }
        break;
    case 11: /* empty cards, as many as a shelf holds */
        if (one_in(4)) {
            unsigned most = (65536 - head) / 2, cards = one_in(2) ? most : below(most + 1), said = one_in(2) ? cards : cards + 1;
            len = head + 2 * cards;
            memset(file + head, 0, 2 * cards);
            put_two(file + head - 2, one_in(4) ? 65535 : said);
        }
        break;
    case 12: /* too long by a little, whatever it says */
        if (one_in(4)) {
            size_t more = 65536 + below(3);
            if (more > len) {
                memset(file + len, 0, more - len);
                len = more;
            }
        }
        break;
    case 13: /* ends within the head, or a little behind it */
        j = below(head + 5);
        if (j < len)
            len = j;
        break;
    case 14: len = relabel(d, file, len); break;
    case 15: /* a good shelf of another number */
        renumber(d);
        len = write_shelf(d, file);
        break;
    default: len = 0; break;
    }
    return len;
}
