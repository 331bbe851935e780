/* Differential test: calls through the C interface, answered by the library and by the second implementation.
 *
 *     differential [count [seed [case]]]
 *
 * The first cases are listed ones, about versions, heads, the room for a sheet, size codes, counts and the number of
 * changed cards, whose cards are random; the others are random altogether. Every buffer handed over lies against a page
 * that may not be touched, in front of it or behind it. Compared are the result, every byte of the lent buffer, the
 * bytes around it, and that no input was changed. What both give is held against the requirements too: a card replaced is
 * the shelf tagged afresh, a report names the cards that demand 3 and request 2.13 say and counts as many rows as request
 * 2.2 says, and once these cards are reloaded the next report is intact; and against any sheet that is not refused, the
 * number of rows moves no further than request 2.14 says as cards are altered one by one. A case depends on the seed and
 * its own number alone, so that a third argument runs a single case again. */
#define _DEFAULT_SOURCE
#include "gtm.h"
#include "inputs.h"

#include <signal.h>
#include <stdio.h>
#include <stdlib.h>
#include <string.h>
#include <sys/mman.h>
#include <time.h>
#include <unistd.h>

static uint64_t seed, case_number;
static char where[120]; /* what is being done, for a message */
static size_t where_len;

static void differs(const char *what, unsigned long long library, unsigned long long second)
{
    printf("DIFFERENCE %s: %s: library %llu, second %llu\n", where, what, library, second);
    exit(1);
}

static void crashed(int signal_number)
{
    static const char text[] = "CRASH (a guard page was touched, or worse): ";
    ssize_t ignored = write(1, text, sizeof text - 1);
    ignored += write(1, where, where_len);
    ignored += write(1, "\n", 1);
    (void)ignored;
    (void)signal_number;
    _exit(1);
}

/* ---- Buffers between guard pages ---- */

#define ROOM SHELF_ROOM /* a multiple of every usual page */
#define RIM 64u         /* bytes watched on the open side */

struct part {
    const char *name;
    size_t len;
    uint8_t bytes[ROOM]; /* what is handed over; for the output, what is expected afterwards */
    uint8_t *region;     /* ROOM bytes with a guard page on either side */
    uint8_t *lent, *rim;
};

static struct part keys = {.name = "keys"}, shelf = {.name = "shelf"}, sheet = {.name = "sheet"}, old_card = {.name = "old card"},
                   new_card = {.name = "new card"}, out = {.name = "lent buffer"};
static struct part *const all_parts[] = {&keys, &shelf, &sheet, &old_card, &new_card, &out};

static void map(struct part *p)
{
    size_t page = (size_t)sysconf(_SC_PAGESIZE);
    uint8_t *start = mmap(NULL, ROOM + 2 * page, PROT_NONE, MAP_PRIVATE | MAP_ANONYMOUS, -1, 0);
    if (start == MAP_FAILED || mprotect(start + page, ROOM, PROT_READ | PROT_WRITE) != 0) {
        perror("guard pages");
        exit(1);
    }
    p->region = start + page;
}

/* Copies the bytes to one end of the region. A buffer of no bytes may be null. */
static void lend(struct part *p)
{
    int front = one_in(2);
    p->lent = front ? p->region : p->region + ROOM - p->len;
    p->rim = front ? p->region + p->len : p->lent - RIM;
    memset(p->rim, 0xa5, RIM);
    memcpy(p->lent, p->bytes, p->len);
    if (p->len == 0 && one_in(2))
        p->lent = NULL;
}

static void check_part(const struct part *p)
{
    char what[60];
    for (size_t i = 0; i < p->len; i++)
        if (p->lent[i] != p->bytes[i]) {
            snprintf(what, sizeof what, "%s, byte %zu of %zu", p->name, i, p->len);
            differs(what, p->lent[i], p->bytes[i]);
        }
    for (size_t i = 0; i < RIM; i++)
        if (p->rim[i] != 0xa5) {
            snprintf(what, sizeof what, "bytes beside the %s", p->name);
            differs(what, p->rim[i], 0xa5);
        }
}

static struct draft cards, tagged; /* what the shelf was made of, and for a report the one that its sheet was made of */
static unsigned sheet_version;     /* of the sheet, before damage */

static size_t sheet_head(void)
{
    return sheet_version == 1 ? 8 : 12;
}

/* ---- Damage ---- */

static void reseal(void)
{
    if (sheet.len >= 16)
        second_cmac(keys.bytes + 32, sheet.bytes, sheet.len - 16, sheet.bytes + sheet.len - 16);
}

/* The same sheet laid out in a version with a number, or in the one without; its codes stay what they were. */
static void change_layout(uint32_t number)
{
    uint8_t *b = sheet.bytes;
    if (sheet_version == 1) {
        memmove(b + 9, b + 5, sheet.len - 5);
        put_four(b + 5, number);
        sheet.len += 4;
        put_two(b + 3, 2 + below(2));
    } else {
        memmove(b + 5, b + 9, sheet.len - 9);
        sheet.len -= 4;
        put_two(b + 3, 1);
    }
}

static void damage_sheet(void)
{
    const struct family *f = cards.family, *other = any_family();
    size_t head = sheet_head();
    uint8_t *b = sheet.bytes, *tags = b + head, tag[16];
    unsigned count = cards.count, x = below(f->tags), y = below(f->tags);
    const unsigned counts[] = {0, f->cards, f->cards + 1, count - 1, count + 1, count + 256, below(65536), 65535};
    const unsigned lengths[] = {0, 1, 7, 15, 16, 23, 24, 27, 28, 40, (unsigned)sheet.len - 1, (unsigned)sheet.len - 4, (unsigned)sheet.len - 16,
                                below((unsigned)head + 5), below((unsigned)sheet.len)};
    const uint32_t numbers[] = {cards.number, another_number(cards.number), some_number()};
    int seal = !one_in(5);
    switch (below(18)) {
    case 0: flip(b, sheet.len); return;
    case 1: flip(b + sheet.len - 16, 16); return;
    case 2: fill(b + head, sheet.len - head); return;
    case 3: flip(tags, 16 * f->tags); break;
    case 4: fill(tags, 16 * f->tags); break;
    case 5:
        memcpy(tag, tags + 16 * x, 16);
        memmove(tags + 16 * x, tags + 16 * y, 16);
        memcpy(tags + 16 * y, tag, 16);
        break;
    case 6: b[below(5)] ^= (uint8_t)(1 + below(255)); break;
    case 7: b[head - 3] = (uint8_t)(one_in(4) ? other->code : near_code(f)); break;
    case 8: put_two(b + head - 2, counts[below(COUNT(counts))]); break;
    case 9: sheet.len = lengths[below(COUNT(lengths))]; break;
    case 10:
        x = one_in(3) ? 4 : one_in(2) ? 1 + below(40) : 16 * (1 + below(100));
        fill(b + sheet.len, x);
        sheet.len += x;
        break;
    case 11: /* a sheet of another size, of this shelf or of none */
        sheet.len = second_sheet_len(sheet_version, other);
        if (second_tag_in(sheet_version, keys.bytes, 48, other->code, shelf.bytes, shelf.len, b, sheet.len).number != 0) {
            memcpy(b, "TBT", 3);
            put_two(b + 3, sheet_version);
            if (sheet_version != 1)
                put_four(b + 5, cards.number);
            b[head - 3] = (uint8_t)other->code;
            put_two(b + head - 2, count);
            fill(tags, sheet.len - head);
        }
        break;
    case 12: /* sealed with another of the keys */
        second_cmac(keys.bytes + 16 * below(2), b, sheet.len - 16, b + sheet.len - 16);
        return;
    case 13: put_two(b + 3, label(below(2 * FIXED_LABELS))); break;
    case 14: put_two(b + 3, another_sheet_version(sheet_version)); break;
    case 15: change_layout(numbers[below(COUNT(numbers))]); break;
    case 16: /* another number; in version 1 its bytes are others */
        put_four(b + 5, numbers[below(COUNT(numbers))]);
        break;
    default: sheet.len = 0; return;
    }
    if (seal)
        reseal();
}

static void damage_keys(void)
{
    static const uint8_t lengths[] = {0, 1, 16, 32, 47, 49, 64, 96, 255};
    if (one_in(2)) {
        flip(keys.bytes, 48);
    } else {
        keys.len = lengths[below(COUNT(lengths))];
        fill(keys.bytes + 48, 255 - 48);
    }
}

/* A lent buffer for an output of that length: exact, longer or too short. */
static void lend_output(size_t len)
{
    size_t less = len ? len - 1 : 0;
    const size_t lengths[] = {len, len, len, len, len, len + 1, len + below(100), len + below(3000), less, below((unsigned)less + 1), 0,
                              len + below(9) - (len < 4 ? 0 : 4)}; /* a sheet with a number has 4 bytes more */
    out.len = lengths[below(COUNT(lengths))];
    fill(out.bytes, out.len);
}

/* ---- The calls ---- */

enum call { TAG, VERIFY, REPORT, REPLACE };
static const char *const call_names[] = {"tag", "verify", "report", "replace"};
static unsigned long seen[4][256], answers[3], verdicts[2], left_over, bad_cards, long_old, long_new;
static unsigned long mixes[4][3][4], refused_mixes[3][4]; /* done, and refused by 25: by the versions of shelf and sheet, 0 where there is none */
static unsigned long one_byte, sealed_first, counted_first; /* 25 for one byte; 20 and 21 where the numbers differ too */
static unsigned long no_shelf[4], no_sheet[5];              /* refused, by versions that there are not */
static unsigned long said_other[4];                         /* done: sheets of version 2 that say 3 and the reverse, by what they say */
static unsigned long shares[3];                             /* shelves tagged: no place vacant, some, all */
static unsigned long replaced[4][4];                        /* by the sheet's version: a card by a card, added, withdrawn, vacant by vacant */
static unsigned long turned[4][4];                          /* and cards of reports: added, named of them; withdrawn, named of them */
static unsigned long premises[4][2];                        /* and reports in which no row cancels, and in which one does */
static unsigned long wrong_codes[SHEET_VERSIONS + 1][256];  /* refused: bytes that are no code, said to Tag, and by sheets of each version */
static unsigned long recoded;                               /* done: the code of another size with as many tags */
static unsigned long moves[3];                              /* of the number of rows, as a card was altered: down, none, up */
static unsigned long unseen[2];                             /* added and withdrawn under version 3 with a code of zero: no row shows them */

/* What was seen of each size. The first four are the calls that were done. */
enum { NO = 4, YES, AFRESH, CANCELS, OTHERS_NAMED, RELOADED, DRIFTED, DRIFTED_STRANGE, NO_CARD, FULL, ONE_ABOVE, FAR_ABOVE, FAR_CODE, OF_SIZE };
static const char *const of_size_names[OF_SIZE] = {"tagged", "verified", "reported", "replaced", "no", "yes", "replaced as tagged afresh",
                                                   "a row cancels", "others named too", "reloaded", "drifted", "drifted against other tags",
                                                   "count 0", "full",
                                                   "one card too many", "far too many", "code far above"};
static unsigned long of_size[SIZES][OF_SIZE];

/* Reports in which no row cancels, by size and by how many cards changed; the last number for more than one above the limit. */
#define MOST_LIMIT 16
static unsigned long changed[SIZES][MOST_LIMIT + 3];

static unsigned long *of(const struct family *f)
{
    return of_size[f - families];
}

static uint64_t some_size_code(void)
{
    return one_in(6) ? near_code(cards.family) : one_in(8) ? any_family()->code : cards.family->code;
}

static uint64_t some_card_number(unsigned number)
{
    unsigned count = cards.count;
    const uint64_t others[] = {0, count, count + 1, 256 + number, 65536 + number, (UINT64_C(1) << 32) + 1, (UINT64_C(1) << 32) + number,
                               (UINT64_C(1) << 63) + number, UINT64_MAX, any()};
    return one_in(4) ? others[below(COUNT(others))] : number;
}

static void some_card(struct part *p)
{
    const unsigned too_long[] = {1025, 1025, 1025, 1026, 2048, 65536, 65536 + 16, 70000};
    p->len = one_in(8) ? too_long[below(COUNT(too_long))] : one_in(4) ? 0 : some_length(one_in(20) ? 4 : below(3));
    fill(p->bytes, p->len);
}

/* Counts a refused file with the right letters that says version 0, or the first above those that there are. */
static void count_no_version(const struct part *p, const char *letters, unsigned versions, unsigned long by[])
{
    unsigned version = p->len < 28 ? 1 : p->bytes[3] * 256u + p->bytes[4];
    if (memcmp(p->bytes, letters, 3) == 0 && (version == 0 || version == versions + 1))
        by[version]++;
}

/* Counts what the versions and numbers of the files had to do with the outcome. */
static void count_versions(enum call call, unsigned number)
{
    if (number == 0 && call != TAG && sheet_version != 1 && sheet.bytes[4] != sheet_version)
        said_other[sheet.bytes[4]]++;
    if (number == 3)
        count_no_version(&shelf, "TBS", SHELF_VERSIONS, no_shelf);
    if (number == 6)
        count_no_version(&sheet, "TBT", SHEET_VERSIONS, no_sheet);
    if (number == 0 && call == REPLACE) {
        mixes[call][0][sheet.bytes[4]]++;
    } else if (number == 0) {
        mixes[call][shelf.bytes[4]][call == TAG ? 0 : sheet.bytes[4]]++;
    } else if (number == 25) {
        uint32_t difference = second_number(shelf.bytes) ^ second_number(sheet.bytes), byte = 255;
        refused_mixes[shelf.bytes[4]][sheet.bytes[4]]++;
        for (; byte != 0; byte <<= 8)
            one_byte += (difference & ~byte) == 0;
    } else if ((number == 20 || number == 21) && call != REPLACE) {
        if (second_number(shelf.bytes) != second_number(sheet.bytes))
            *(number == 20 ? &sealed_first : &counted_first) += 1;
    }
}

static void compare(enum call call, uint64_t library, struct result second)
{
    seen[call][second.number & 255]++;
    count_versions(call, second.number);
    if (gtm_number(library) != second.number)
        differs("number", gtm_number(library), second.number);
    if (second.number != 0) {
        if (gtm_place(library) != second.place)
            differs("place", gtm_place(library), second.place);
    } else if (call == VERIFY) {
        if (gtm_yes(library) != second.yes)
            differs("yes", (unsigned)gtm_yes(library), (unsigned)second.yes);
        verdicts[second.yes]++;
    } else if (call == REPORT) {
        if ((int)gtm_answer(library) != second.answer)
            differs("answer", gtm_answer(library), (unsigned)second.answer);
        if (gtm_named(library) != second.named)
            differs("named", gtm_named(library), second.named);
        if (gtm_rows(library) != second.rows)
            differs("rows", gtm_rows(library), second.rows);
        answers[second.answer]++;
    }
    for (size_t i = 0; i < COUNT(all_parts); i++)
        check_part(all_parts[i]);
}

/* ---- What both give against the requirements ---- */

/* A card replaced is the shelf tagged afresh, in the sheet's version. */
static void check_replaced(unsigned number)
{
    static uint8_t fresh[GTM_SHEET_MAX];
    cards.len[number] = (unsigned)new_card.len;
    memcpy(cards.card[number], new_card.bytes, new_card.len);
    shelf.len = write_shelf(&cards, shelf.bytes);
    if (shelf.len > 65536)
        return;
    second_tag_in(sheet_version, keys.bytes, 48, cards.family->code, shelf.bytes, shelf.len, fresh, sizeof fresh);
    if (memcmp(fresh, out.bytes, sheet.len) != 0)
        differs("replaced and tagged afresh", 0, 0);
    of(cards.family)[AFRESH]++;
}

/* Which cards differ between the shelves tagged and reported, filled against vacant among the rest, and the XOR of their old and new codes. */
static uint8_t differ[MOST_CARDS + 1], moved[MOST_CARDS + 1][16];

static void compare_cards(void)
{
    memset(differ, 0, sizeof differ);
    for (unsigned j = 1; j <= cards.count; j++) {
        uint8_t code[16];
        differ[j] = tagged.len[j] != cards.len[j] || memcmp(tagged.card[j], cards.card[j], cards.len[j]) != 0;
        second_code(keys.bytes, sheet_version, tagged.number, j, tagged.card[j], tagged.len[j], moved[j]);
        second_code(keys.bytes, sheet_version, cards.number, j, cards.card[j], cards.len[j], code);
        for (int k = 0; k < 16; k++)
            moved[j][k] ^= code[k];
    }
}

static const uint8_t zero[16] = {0};

/* Whether a row holds a changed card and its old and new codes have equal XORs. */
static int cancels(unsigned row)
{
    uint8_t sum[16] = {0};
    int holds = 0;
    for (unsigned j = 1; j <= cards.count; j++) {
        if (!differ[j] || !cards.family->on[row][j])
            continue;
        holds = 1;
        for (int k = 0; k < 16; k++)
            sum[k] ^= moved[j][k];
    }
    return holds && memcmp(sum, zero, 16) == 0;
}

static int some_row_cancels(void)
{
    for (unsigned row = 1; row <= cards.family->rows; row++)
        if (cancels(row))
            return 1;
    return 0;
}

/* Counts the cards that were added and withdrawn. */
static void count_turned(void)
{
    unsigned long *by = turned[sheet_version];
    for (unsigned j = 1; j <= cards.count; j++) {
        int was_vacant = tagged.len[j] == 0, is_vacant = cards.len[j] == 0;
        if (was_vacant == is_vacant)
            continue;
        by[was_vacant ? 0 : 2]++;
        by[was_vacant ? 1 : 3] += out.bytes[j - 1];
        unseen[was_vacant ? 0 : 1] += sheet_version == 3 && memcmp(moved[j], zero, 16) == 0;
    }
}

/* Document 02, 2.2, of a plane and its unaltered sheet: k changed cards give at most k d + 1 disagreeing rows, and none where k is 0; where
 * no row cancels, they give at least k (d + 1) - k (k - 1) / 2, so that one gives d + 1 and two give 2 d + 1. */
static void check_row_count(long rows, unsigned changes, int premise)
{
    long d = cards.family->limit, k = changes;
    long most = k == 0 ? 0 : k * d + 1, least = premise ? k * (d + 1) - k * (k - 1) / 2 : 0;
    if (rows > most || rows < least)
        differs("the rows where so many changed", (unsigned long)rows, changes);
}

/* Whether a row holds one of a set of cards. */
static int holds_one(const struct family *f, const uint8_t set[MOST_CARDS + 1], unsigned row)
{
    for (unsigned j = 1; j <= f->cards; j++)
        if (set[j] && f->on[row][j])
            return 1;
    return 0;
}

static unsigned rows_holding(const struct family *f, const uint8_t set[MOST_CARDS + 1])
{
    unsigned rows = 0;
    for (unsigned row = 1; row <= f->rows; row++)
        rows += (unsigned)holds_one(f, set, row);
    return rows;
}

/* Document 02, 2.13, against the unaltered sheet: each row through a named card holds a changed one; where no row cancels, every card of which
 * that is true is named. */
static void check_list(int premise)
{
    static uint8_t covered[MOST_CARDS + 1];
    unsigned others = 0;
    memset(covered, 1, sizeof covered);
    for (unsigned row = 1; row <= cards.family->rows; row++)
        if (!holds_one(cards.family, differ, row))
            for (unsigned j = 1; j <= cards.count; j++)
                covered[j] &= !cards.family->on[row][j];
    for (unsigned j = 1; j <= cards.count; j++) {
        int named = out.bytes[j - 1];
        if (premise ? named != covered[j] : named && !covered[j])
            differs("a card named, and whether each row through it holds a changed one", (unsigned)named, covered[j]);
        others += named && !differ[j];
    }
    of(cards.family)[OTHERS_NAMED] += premise && others != 0;
}

/* Each named card gets the bytes that were tagged: where no row cancelled, the library's next report is intact. Laid out in the other version,
 * the shelf may have become too long. */
static void check_reload(void)
{
    for (unsigned j = 1; j <= cards.count; j++)
        if (out.bytes[j - 1]) {
            cards.len[j] = tagged.len[j];
            memcpy(cards.card[j], tagged.card[j], tagged.len[j]);
        }
    shelf.len = write_shelf(&cards, shelf.bytes);
    if (shelf.len > 65536)
        return;
    out.len = cards.count;
    fill(out.bytes, out.len);
    lend(&shelf);
    lend(&out);
    memset(out.bytes, 0, out.len);
    uint64_t r = gtm_report(keys.lent, keys.len, shelf.lent, shelf.len, sheet.lent, sheet.len, out.lent, out.len);
    if (r != 0)
        differs("the report after a reload", gtm_number(r), gtm_answer(r));
    check_part(&shelf);
    check_part(&out);
    of(cards.family)[RELOADED]++;
}

/* Demand 3: a report against the unaltered sheet names no unchanged card while at most d changed; and where no row cancels, it names every
 * changed card and gives the answer that goes with their number. */
static void check_detection(struct result r)
{
    unsigned limit = cards.family->limit, changes = 0, missed = 0, wrong = 0;
    compare_cards();
    int premise = !some_row_cancels();
    for (unsigned j = 1; j <= cards.count; j++) {
        changes += differ[j];
        missed += differ[j] && !out.bytes[j - 1];
        wrong += !differ[j] && out.bytes[j - 1];
    }
    if (changes <= limit && wrong != 0)
        differs("unchanged cards named", wrong, 0);
    if (premise && missed != 0)
        differs("changed cards not named", missed, 0);
    if (premise && r.answer != (changes == 0 ? 0 : changes <= limit ? 1 : 2))
        differs("the answer where so many changed", (unsigned)r.answer, changes);
    if (cards.family < families + PLANES)
        check_row_count(r.rows, changes, premise);
    check_list(premise);
    premises[sheet_version][premise ? 0 : 1]++;
    if (premise)
        changed[cards.family - families][changes < limit + 2 ? changes : limit + 2]++;
    else
        of(cards.family)[CANCELS] += changes <= limit;
    count_turned();
    if (premise && changes != 0)
        check_reload();
}

/* Alters card j where it stands in the shelf: a bit of it, or it is withdrawn, or at a vacant place added. Returns 0 where there is no room. */
static int alter_in_shelf(unsigned j)
{
    uint8_t *at = shelf.bytes + (shelf.bytes[4] == 1 ? 7 : 11);
    for (; j > 1; j--)
        at += 2 + at[0] * 256u + at[1];
    size_t len = at[0] * 256u + at[1], after = len == 0 ? 1 + below(40) : one_in(4) ? 0 : len;
    uint8_t *card = at + 2, *end = shelf.bytes + shelf.len;
    if (after == len) {
        flip(card, len);
        return 1;
    }
    if (shelf.len - len + after > 65536)
        return 0;
    memmove(card + after, card + len, (size_t)(end - card) - len);
    fill(card, after);
    put_two(at, (unsigned)after);
    shelf.len = shelf.len - len + after;
    return 1;
}

/* The rows that the library counts for the shelf as it is by now; nothing but the cards moved, so that it is not refused. */
static unsigned rows_by_now(void)
{
    lend(&shelf);
    lend(&out);
    uint64_t r = gtm_report(keys.lent, keys.len, shelf.lent, shelf.len, sheet.lent, sheet.len, out.lent, out.len);
    if (gtm_number(r) != 0)
        differs("the report of a shelf with a card altered", gtm_number(r), 0);
    check_part(&shelf);
    return gtm_rows(r);
}

/* The number of rows by now, which is at most so many away from what it was. */
static unsigned check_apart(const char *what, unsigned before, unsigned most)
{
    unsigned rows = rows_by_now();
    if (before > rows + most || rows > before + most)
        differs(what, before, rows);
    moves[rows < before ? 0 : rows == before ? 1 : 2]++;
    return rows;
}

/* Document 02, 2.14, of any sheet: as cards are altered one by one, the number of rows moves each time by at most the rows through that card,
 * d + 1 on a plane; and altogether by at most the rows that hold one of them, on a plane k d + 1 for k of them. Some cards are put back. */
static void check_drift(const struct family *f, unsigned first, unsigned long *drifted)
{
    static uint8_t altered[MOST_CARDS + 1], alone[MOST_CARDS + 1], kept[ROOM];
    unsigned rows = first, k = 0;
    memset(altered, 0, sizeof altered);
    for (unsigned steps = 1 + below(4); steps != 0; steps--) {
        unsigned j = 1 + below(second_count(shelf.bytes)), before = rows;
        uint8_t again = altered[j];
        size_t len = shelf.len;
        memcpy(kept, shelf.bytes, len);
        if (!alter_in_shelf(j))
            continue;
        k += !again;
        memset(alone, 0, sizeof alone);
        altered[j] = alone[j] = 1;
        unsigned through = rows_holding(f, alone), holding = rows_holding(f, altered);
        if (f < families + PLANES && (through != f->limit + 1 || holding > k * f->limit + 1))
            differs("the rows of a plane that hold a card", through, holding);
        rows = check_apart("the rows before and after a card was altered", rows, through);
        if (first > rows + holding || rows > first + holding)
            differs("the rows before and after some cards were altered", first, rows);
        if (one_in(2)) {
            memcpy(shelf.bytes, kept, len);
            shelf.len = len;
            altered[j] = again;
            k -= !again;
            rows = check_apart("the rows before and after a card was put back", rows, through);
            if (rows != before)
                differs("the rows of the same shelf", before, rows);
        }
        *drifted += 1;
    }
}

/* ---- The listed cases ---- */

enum about { SHELF_CUT, SHELF_LABEL, SHEET_CUT, SHEET_LABEL, SHEET_LENGTH, LENT, TAG_CODE, SHEET_CODE, COUNTED, CHANGED, CANCELLED, HIDDEN,
             STRANGE, NUMBERS, NUMBERS_AND_SEAL, NUMBERS_AND_COUNT, NUMBERS_AND_ROOM };

/* A call on files of those versions, and what it is about. Sizes, numbers and cards that are not given are random. */
struct plan {
    enum call call;
    unsigned shelf_version, sheet_version;
    enum about about;
    uint64_t value;              /* a length, the version, code or count said, the number of changed cards, for HIDDEN whether it is withdrawn;
                                    for SHEET_LENGTH and LENT how many bytes are too many, plus 100 */
    const struct family *family; /* NULL for any */
    unsigned tags;               /* for SHEET_CODE: for how many there is room; 0 for those of the family */
    uint32_t numbers[2];         /* of shelf and sheet */
};

static struct plan plans[5000];
static size_t plan_count;

static void list(struct plan plan)
{
    if (plan_count == COUNT(plans)) {
        printf("more cases are listed than there is room for\n");
        exit(1);
    }
    plans[plan_count++] = plan;
}

/* The same for every call that is handed such a file, in every mix of versions. */
static void list_calls(struct plan plan)
{
    int of_shelf = plan.about == SHELF_CUT || plan.about == SHELF_LABEL;
    for (int call = TAG; call <= REPLACE; call++)
        for (unsigned a = 1; a <= SHELF_VERSIONS; a++)
            for (unsigned b = 1; b <= SHEET_VERSIONS; b++) {
                if ((call == TAG && (!of_shelf || b == 1)) || (call == REPLACE && (of_shelf || a == 1)))
                    continue;
                plan.call = (enum call)call;
                plan.shelf_version = a;
                plan.sheet_version = b;
                list(plan);
            }
}

/* Numbers of shelf and sheet, in the versions that can say them. */
static void list_numbers(uint32_t a, uint32_t b)
{
    for (int call = VERIFY; call <= REPORT; call++)
        for (int about = NUMBERS; about <= NUMBERS_AND_ROOM; about++)
            for (unsigned first = a == 0 ? 1 : 2; first <= SHELF_VERSIONS; first++)
                for (unsigned second = b == 0 ? 1 : 2; second <= SHEET_VERSIONS; second++)
                    list((struct plan){(enum call)call, first, second, (enum about)about, .numbers = {a, b}});
}

/* The family whose code is the nearest to a number that is none. */
static const struct family *nearest(unsigned code)
{
    for (unsigned away = 1;; away++)
        for (const struct family *f = families; f < families + SIZES; f++)
            if (f->code == code - away || f->code == code + away)
                return f;
}

/* A byte that is no code, said to Tag and by a sheet of each version, laid out as one of the nearest size. */
static void list_wrong_code(unsigned code)
{
    const struct family *f = nearest(code);
    list((struct plan){TAG, 1 + code % 2, SHEET_VERSIONS, TAG_CODE, code, .family = f});
    for (unsigned version = 1; version <= SHEET_VERSIONS; version++)
        list((struct plan){(enum call)(VERIFY + (code + version) % 3), SHELF_VERSIONS, version, SHEET_CODE, code, .family = f});
}

/* 16s + l for an s that has no sizes, said by sheets as long as the affine family of s and l would need. */
static void list_wrong_field(unsigned s)
{
    for (unsigned l = 3; l <= (1u << s) + 1; l++)
        for (unsigned version = 1; version <= SHEET_VERSIONS; version++)
            list((struct plan){(enum call)(VERIFY + (l + version) % 3), SHELF_VERSIONS, version, SHEET_CODE, 16 * s + l,
                               .family = nearest(16 * s + l), .tags = second_affine_tags(s, l)});
}

/* Numbers above a byte, of which some end in the code; and the codes of other sizes with as many tags. */
static void list_other_codes(const struct family *f)
{
    const uint64_t code = f->code;
    const uint64_t far[] = {256 + code, 65536 + code, (UINT64_C(1) << 32) + code, (UINT64_C(1) << 63) + code, 0 - code, UINT64_MAX};
    for (size_t i = 0; i < COUNT(far); i++)
        list((struct plan){TAG, SHELF_VERSIONS, SHEET_VERSIONS, TAG_CODE, far[i], .family = f});
    for (const struct family *other = families; other < families + SIZES; other++)
        if (other != f && other->tags == f->tags)
            list_calls((struct plan){.about = SHEET_CODE, .value = other->code, .family = f});
}

/* As many cards as there are places, none, one more and far more: in the shelf that is tagged, and in a shelf and its sheet. */
static void list_counts(const struct family *f)
{
    const unsigned counts[] = {0, f->cards, f->cards + 1, f->cards + 256, 65535};
    for (unsigned i = 0; i < COUNT(counts); i++) {
        for (unsigned version = 1; version <= SHELF_VERSIONS; version++)
            list((struct plan){TAG, version, SHEET_VERSIONS, COUNTED, counts[i], .family = f});
        for (unsigned version = 1; version <= SHEET_VERSIONS; version++)
            list((struct plan){(enum call)(VERIFY + (i + version) % 3), SHELF_VERSIONS, version, COUNTED, counts[i], .family = f});
    }
}

/* Up to two cards more than the limit changed, many more (40 at size 4), all but one, or all; as many as the limit, so that a row cancels;
 * one that no row shows; and a sealed sheet some of whose tags are of no shelf. */
static void list_changed(const struct family *f, unsigned version)
{
    const unsigned many[] = {5 * f->limit / 2, f->cards - 1, f->cards};
    for (unsigned n = 0; n <= f->limit + 2; n++)
        list((struct plan){REPORT, SHELF_VERSIONS, version, CHANGED, n, .family = f});
    for (unsigned i = 0; i < COUNT(many); i++)
        list((struct plan){REPORT, SHELF_VERSIONS, version, CHANGED, many[i], .family = f});
    list((struct plan){REPORT, SHELF_VERSIONS, version, CANCELLED, f->limit, .family = f});
    for (unsigned n = 0; n < 2; n++) {
        list((struct plan){VERIFY, SHELF_VERSIONS, version, CHANGED, n, .family = f});
        list((struct plan){REPORT, SHELF_VERSIONS, version, HIDDEN, n, .family = f});
    }
    list((struct plan){REPORT, SHELF_VERSIONS, version, STRANGE, 0, .family = f});
}

/* The room for a sheet. */
static void list_lent(const struct family *f)
{
    for (unsigned more = 94; more <= 103; more++) {
        for (unsigned version = 1; version <= SHELF_VERSIONS; version++)
            list((struct plan){TAG, version, SHEET_VERSIONS, LENT, more, .family = f});
        for (unsigned version = 1; version <= SHEET_VERSIONS; version++)
            list((struct plan){REPLACE, SHELF_VERSIONS, version, LENT, more, .family = f});
    }
}

static void list_sizes(void)
{
    for (unsigned code = 0; code < 256; code++)
        if (second_family(code) == NULL)
            list_wrong_code(code);
    list_wrong_field(1);
    list_wrong_field(4);
    for (const struct family *f = families; f < families + SIZES; f++) {
        list_lent(f);
        list_other_codes(f);
        list_counts(f);
        for (unsigned version = 1; version <= SHEET_VERSIONS; version++)
            list_changed(f, version);
    }
}

static void list_all(void)
{
    static const uint32_t pairs[][2] = {{0, 0}, {5, 5}, {0xffffffff, 0xffffffff}, {0, 1}, {1, 0}, {5, 0}, {0, 0xffffffff}, {0xffffffff, 0},
                                        {5, 6}, {0x05000000, 5}, {0x01020304, 0x04030201}, {0x01020304, 0x01020305}, {0x01020304, 0x01020404},
                                        {0x01020304, 0x01030304}, {0x01020304, 0x02020304}, {0xffffffff, 0x7fffffff}};
    static const unsigned lengths[] = {84, 96, 99, 101, 104, 116};
    for (unsigned len = 0; len <= 16; len++) { /* each head and four bytes more */
        list_calls((struct plan){.about = SHELF_CUT, .value = len});
        list_calls((struct plan){.about = SHEET_CUT, .value = len});
    }
    for (unsigned which = 0; which < FIXED_LABELS; which++) {
        list_calls((struct plan){.about = SHELF_LABEL, .value = label(which)});
        list_calls((struct plan){.about = SHEET_LABEL, .value = label(which)});
    }
    for (size_t i = 0; i < COUNT(lengths); i++)
        list_calls((struct plan){.about = SHEET_LENGTH, .value = lengths[i]});
    for (size_t i = 0; i < COUNT(pairs); i++)
        list_numbers(pairs[i][0], pairs[i][1]);
    list_sizes();
}

/* ---- A case ---- */

/* What a call is handed beside its buffers, and what is expected of it. */
struct chosen {
    enum call call;
    uint64_t said;   /* size code or card number */
    unsigned number; /* the card replaced */
    const uint8_t *new_lent;
    size_t new_len;  /* of the new card as it is handed over, which may be a part of the old one */
    int honest;      /* a replacement that should equal tagging afresh, or a report against the unaltered sheet */
};

static void make_keys(void)
{
    keys.len = 48;
    fill(keys.bytes, 48);
    if (one_in(20))
        memset(keys.bytes, one_in(2) ? 0 : keys.bytes[0], 48);
}

static void lay_out(void)
{
    shelf.len = write_shelf(&cards, shelf.bytes);
}

static void make_sheet(void)
{
    sheet.len = second_sheet_len(sheet_version, cards.family);
    unsigned number = second_tag_in(sheet_version, keys.bytes, 48, cards.family->code, shelf.bytes, shelf.len, sheet.bytes, sheet.len).number;
    if (number != 0)
        differs("making a sheet", 0, number);
}

/* A card of the shelf as the old one. */
static void choose_card(struct chosen *c)
{
    c->number = 1 + below(cards.count);
    c->said = c->number;
    c->honest = 1;
    old_card.len = cards.len[c->number];
    memcpy(old_card.bytes, cards.card[c->number], old_card.len);
}

/* Another size code in the sheet, which has room for so many tags or for its own. */
static void say_code(unsigned code, unsigned tags)
{
    sheet.bytes[sheet_head() - 3] = (uint8_t)code;
    if (tags) {
        fill(sheet.bytes + sheet_head(), 16 * tags);
        sheet.len = sheet_head() + 16 * tags + 16;
    }
    reseal();
}

/* Another count: a shelf of as many cards, if there is room for them here, and a sheet that says it. Else a shelf that is tagged says it too. */
static void say_count(enum call call, unsigned count)
{
    if (count <= MOST_CARDS + 1) {
        while (cards.count < count)
            fill_place(&cards, ++cards.count);
        cards.count = count;
        lay_out();
    } else if (call == TAG) {
        put_two(shelf.bytes + head_len(&cards) - 2, count);
    }
    put_two(sheet.bytes + sheet_head() - 2, count);
    reseal();
}

/* Changes the two shelves round: the altered one is tagged. It may be too long for that. */
static void turn_round(void)
{
    static struct draft altered;
    size_t len = write_shelf(&cards, shelf.bytes);
    if (len > 65536)
        return;
    altered = cards;
    cards = tagged;
    tagged = altered;
    shelf.len = len;
    make_sheet();
}

/* A card of code zero is added where there was none, or withdrawn. */
static void turn_unseen(int withdrawn)
{
    unsigned number = 1 + below(cards.count);
    cards.len[number] = 0;
    lay_out();
    make_sheet();
    tagged = cards;
    hide_card(&cards, keys.bytes, sheet_version, number);
    if (withdrawn)
        turn_round();
    lay_out();
}

/* Changes cards behind the sheet. */
static void change_behind(const struct plan *p)
{
    tagged = cards;
    if (p->about == CHANGED)
        change_cards(&cards, (unsigned)p->value);
    else
        cancel_row(&cards, keys.bytes, sheet_version, (unsigned)p->value);
    lay_out();
}

/* What a listed case is about. */
static void spoil(const struct plan *p, struct chosen *c)
{
    switch (p->about) {
    case SHELF_CUT:
        if (p->value < shelf.len)
            shelf.len = p->value;
        break;
    case SHELF_LABEL: put_two(shelf.bytes + 3, (unsigned)p->value); break;
    case SHEET_CUT:
        sheet.len = p->value;
        c->honest = 0;
        break;
    case SHEET_LABEL:
        put_two(sheet.bytes + 3, (unsigned)p->value);
        reseal();
        c->honest = 0;
        break;
    case SHEET_LENGTH:
        fill(sheet.bytes + sheet.len, 16);
        sheet.len = sheet.len + p->value - 100;
        reseal();
        c->honest = 0;
        break;
    case LENT: out.len = second_sheet_len(SHEET_VERSIONS, cards.family) + p->value - 100; break;
    case TAG_CODE: c->said = p->value; break;
    case SHEET_CODE:
        say_code((unsigned)p->value, p->tags);
        c->honest = 0;
        break;
    case COUNTED: say_count(p->call, (unsigned)p->value); break;
    case CHANGED:
    case CANCELLED:
        change_behind(p);
        c->honest = 1;
        break;
    case HIDDEN:
        turn_unseen(p->value != 0);
        c->honest = 1;
        break;
    case STRANGE:
        for (unsigned tag = 0; tag < cards.family->tags; tag++)
            if (tag == 0 || one_in(4))
                fill(sheet.bytes + sheet_head() + 16 * tag, 16);
        reseal();
        break;
    default: /* the sheet is that of the second number */
        cards.version = p->shelf_version;
        cards.number = p->numbers[0];
        if (p->about == NUMBERS_AND_COUNT)
            change_count(&cards);
        else if (p->about == NUMBERS_AND_SEAL)
            flip(sheet.bytes + sheet.len - 16, 16);
        else if (p->about == NUMBERS_AND_ROOM && out.len)
            out.len--;
        lay_out();
        break;
    }
}

static struct chosen listed_case(const struct plan *p)
{
    struct chosen c = {.call = p->call};
    cards.family = p->family ? p->family : any_family();
    cards.count = p->about >= COUNTED && p->about < NUMBERS ? cards.family->cards : 1 + below(cards.family->cards);
    cards.version = p->shelf_version;
    cards.number = p->about >= NUMBERS ? p->numbers[1] : p->shelf_version != 1 && p->sheet_version != 1 ? some_number() : 0;
    if (cards.number != 0)
        cards.version = 2;
    sheet_version = p->sheet_version;
    make_cards(&cards, below(3));
    lay_out();
    c.said = cards.family->code;
    if (c.call != TAG)
        make_sheet();
    if (c.call == REPLACE) {
        choose_card(&c);
        new_card.len = one_in(3) ? 0 : some_length(below(3));
        fill(new_card.bytes, new_card.len);
    }
    out.len = c.call == VERIFY ? 0 : c.call == REPORT ? cards.count : second_sheet_len(sheet_version, cards.family);
    spoil(p, &c);
    fill(out.bytes, out.len);
    return c;
}

/* Replace: often an old card that is not the one tagged, or another number. */
static void choose_replacement(struct chosen *c)
{
    choose_card(c);
    c->said = some_card_number(c->number);
    c->honest = c->said == c->number;
    some_card(&new_card);
    if (one_in(3)) {
        some_card(&old_card);
        c->honest = 0;
    }
}

/* Verify and Report: the shelf is altered behind its sheet; now and then it is another shelf, by its number and perhaps its count. Returns
 * whether the count is another. */
static int alter_shelf(struct chosen *c)
{
    int recounted = 0;
    c->honest = 1;
    tagged = cards;
    alter_cards(&cards, keys.bytes, sheet_version, how_many(&cards));
    if (one_in(2))
        turn_round();
    choose_version(&cards);
    if (one_in(8)) {
        c->honest = 0;
        renumber(&cards);
        recounted = one_in(4);
        if (sheet_version != 1 && one_in(4)) { /* the sheet says that number too, but its codes are of the first */
            put_four(sheet.bytes + 5, cards.number);
            reseal();
        }
    }
    if (recounted)
        change_count(&cards);
    lay_out();
    return recounted;
}

static struct chosen random_case(void)
{
    struct chosen c = {.call = (enum call)below(4)};
    int recounted = 0;
    make_shelf(&cards);
    lay_out();
    sheet_version = cards.number != 0 && !one_in(8) ? 2 + below(2) : 1 + below(SHEET_VERSIONS); /* one of version 1 is for number 0 alone */
    if (c.call == TAG)
        c.said = some_size_code();
    else
        make_sheet();
    if (c.call == REPLACE)
        choose_replacement(&c);
    else if (c.call != TAG)
        recounted = alter_shelf(&c);
    if (c.call != TAG && one_in(5)) {
        damage_sheet();
        c.honest = 0;
    }
    if (c.call != REPLACE && !recounted && one_in(5)) {
        shelf.len = damage_shelf(&cards, shelf.bytes, shelf.len);
        c.honest = 0;
    }
    if (c.call != VERIFY)
        lend_output(c.call == REPORT ? cards.count : second_sheet_len(c.call == TAG ? SHEET_VERSIONS : sheet_version, cards.family));
    if (one_in(12)) {
        damage_keys();
        c.honest = 0;
    }
    return c;
}

/* Buffers that are only read may overlap: now and then the new card lies in the old one's memory. */
static void lend_all(struct chosen *c)
{
    for (size_t i = 0; i < COUNT(all_parts); i++)
        lend(all_parts[i]);
    c->new_lent = new_card.lent;
    c->new_len = new_card.len;
    if (c->call == REPLACE && one_in(8)) {
        c->new_len = old_card.len ? below((unsigned)old_card.len + 1) : 0;
        c->new_lent = old_card.lent + (old_card.len - c->new_len);
        c->honest = 0;
    }
}

/* The second implementation reads the same guarded inputs, first; its output is what is expected. Returns what the library says. */
static uint64_t call_both(const struct chosen *c, struct result *second)
{
    switch (c->call) {
    case TAG:
        *second = second_tag(keys.lent, keys.len, c->said, shelf.lent, shelf.len, out.bytes, out.len);
        return gtm_tag(keys.lent, keys.len, c->said, shelf.lent, shelf.len, out.lent, out.len);
    case VERIFY:
        *second = second_verify(keys.lent, keys.len, shelf.lent, shelf.len, sheet.lent, sheet.len);
        return gtm_verify(keys.lent, keys.len, shelf.lent, shelf.len, sheet.lent, sheet.len);
    case REPORT:
        *second = second_report(keys.lent, keys.len, shelf.lent, shelf.len, sheet.lent, sheet.len, out.bytes, out.len);
        return gtm_report(keys.lent, keys.len, shelf.lent, shelf.len, sheet.lent, sheet.len, out.lent, out.len);
    default:
        *second = second_replace(keys.lent, keys.len, sheet.lent, sheet.len, c->said, old_card.lent, old_card.len, c->new_lent, c->new_len,
                                 out.bytes, out.len);
        return gtm_replace(keys.lent, keys.len, sheet.lent, sheet.len, c->said, old_card.lent, old_card.len, c->new_lent, c->new_len,
                           out.lent, out.len);
    }
}

/* Counts a shelf that was tagged by how many of its places are vacant. */
static void count_share(void)
{
    const uint8_t *at = shelf.bytes + (shelf.bytes[4] == 1 ? 7 : 11);
    unsigned count = second_count(shelf.bytes), vacant = 0;
    for (unsigned j = 0; j < count; j++) {
        vacant += at[0] == 0 && at[1] == 0;
        at += 2 + at[0] * 256u + at[1];
    }
    shares[vacant == 0 ? 0 : vacant < count ? 1 : 2]++;
}

static void count_places(const struct chosen *c, struct result r)
{
    if (r.number == 5)
        *(r.place == second_count(shelf.bytes) + 1 ? &left_over : &bad_cards) += 1;
    if (r.number == 9)
        *(r.place == 1 ? &long_old : &long_new) += 1;
    if (r.number == 0 && c->call == TAG)
        count_share();
    if (r.number == 0 && c->call == REPLACE)
        replaced[sheet.bytes[4]][(old_card.len == 0) + 2 * (c->new_len == 0)]++;
}

/* The size of a sheet that was accepted. */
static const struct family *size_of_sheet(void)
{
    return second_family(sheet.bytes[sheet.bytes[4] == 1 ? 5 : 9]);
}

/* Counts a call that was done by its size, the code told to Tag or in the sheet. */
static void count_done(const struct chosen *c, struct result r)
{
    const struct family *f = c->call == TAG ? second_family(c->said) : size_of_sheet();
    of(f)[c->call]++;
    if (c->call == VERIFY)
        of(f)[r.yes ? YES : NO]++;
}

/* Counts what became of a listed case about a size code or a count. */
static void count_listed(const struct plan *p, unsigned number)
{
    unsigned long *by = of(cards.family);
    if (p->about == TAG_CODE && number == 2)
        *(p->value < 256 ? &wrong_codes[0][p->value] : &by[FAR_CODE]) += 1;
    if (p->about == SHEET_CODE && number == 6)
        wrong_codes[p->sheet_version][p->value]++;
    if (p->about == SHEET_CODE && number == 0)
        recoded++;
    if (p->about == COUNTED && number == (p->value == p->family->cards ? 0 : p->call == TAG ? 4 : 6))
        by[p->value == 0 ? NO_CARD : p->value == p->family->cards ? FULL : p->value == p->family->cards + 1 ? ONE_ABOVE : FAR_ABOVE]++;
}

static void run_case(void)
{
    struct result second;
    where_len = (size_t)snprintf(where, sizeof where, "seed %llu case %llu", (unsigned long long)seed, (unsigned long long)case_number);
    for (size_t i = 0; i < COUNT(all_parts); i++)
        all_parts[i]->len = 0;
    make_keys();
    const struct plan *plan = case_number <= plan_count ? &plans[case_number - 1] : NULL;
    struct chosen c = plan != NULL ? listed_case(plan) : random_case();
    where_len += (size_t)snprintf(where + where_len, sizeof where - where_len, " call %s", call_names[c.call]);
    if (c.call == REPLACE) /* it sees no shelf */
        shelf.len = 0;
    lend_all(&c);
    uint64_t library = call_both(&c, &second);
    compare(c.call, library, second);
    count_places(&c, second);
    if (second.number == 0)
        count_done(&c, second);
    if (plan != NULL)
        count_listed(plan, second.number);
    if (c.honest && second.number == 0 && c.call == REPLACE)
        check_replaced(c.number);
    if (second.number == 0 && c.call == REPORT)
        check_drift(size_of_sheet(), second.rows, of(size_of_sheet()) + (plan != NULL && plan->about == STRANGE ? DRIFTED_STRANGE : DRIFTED));
    if (c.honest && second.number == 0 && c.call == REPORT)
        check_detection(second);
}

/* Prints the counts of some pairs of versions, two digits each; returns how many are 0. */
static int print_mixes(const char *name, unsigned long by[3][4], const char *pairs)
{
    int missing = 0;
    printf("  %s:", name);
    for (; *pairs != 0; pairs += 2) {
        unsigned long n = by[pairs[0] - '0'][pairs[1] - '0'];
        printf(" %c-%c %lu", pairs[0], pairs[1], n);
        missing += n == 0;
    }
    printf("\n");
    return missing;
}

/* Prints counts by their names; returns how many are 0. */
static int print_counts(const char *name, unsigned version, size_t n, const unsigned long counts[], const char *const names[])
{
    int missing = 0;
    printf("  %s %u:", name, version);
    for (size_t i = 0; i < n; i++) {
        printf("%s %s %lu", i == 0 ? "" : ",", names[i], counts[i]);
        missing += counts[i] == 0;
    }
    printf("\n");
    return missing;
}

/* Prints what became of vacant places, and of demand 3; returns how many kinds of it were not seen. */
static int print_vacancies(void)
{
    static const char *const kinds[] = {"card by card", "added", "withdrawn", "vacant by vacant"};
    static const char *const cards_named[] = {"added", "named", "withdrawn", "named"};
    static const char *const rows[] = {"no row cancels", "one cancels"};
    int missing = 0;
    printf("vacant places, by the version of the sheet:\n");
    for (unsigned version = 1; version <= SHEET_VERSIONS; version++)
        missing += print_counts("replace", version, COUNT(kinds), replaced[version], kinds);
    for (unsigned version = 1; version <= SHEET_VERSIONS; version++)
        missing += print_counts("cards reported", version, COUNT(cards_named), turned[version], cards_named);
    for (unsigned version = 1; version <= SHEET_VERSIONS; version++)
        missing += print_counts("reports", version, COUNT(rows), premises[version], rows);
    printf("code zero in version 3, so not seen: added %lu, withdrawn %lu\n", unseen[0], unseen[1]);
    printf("tagged: no place vacant %lu, some %lu, all %lu\n", shares[0], shares[1], shares[2]);
    printf("rows as a card was altered: fewer %lu, as many %lu, more %lu\n", moves[0], moves[1], moves[2]);
    printf("versions that there are not: shelf 0 %lu, 3 %lu; sheet 0 %lu, 4 %lu; done: 2 said as 3 %lu, 3 as 2 %lu\n", no_shelf[0], no_shelf[3],
           no_sheet[0], no_sheet[4], said_other[3], said_other[2]);
    const unsigned long others[] = {unseen[0], unseen[1], shares[0], shares[1], shares[2], moves[0], moves[1], moves[2], no_shelf[0],
                                    no_shelf[3], no_sheet[0], no_sheet[4], said_other[2], said_other[3]};
    for (size_t i = 0; i < COUNT(others); i++)
        missing += others[i] == 0;
    return missing;
}

/* Prints how many reports there were of so many changed cards; returns how many numbers of them there were none of. */
static int print_changed(const struct family *f)
{
    int missing = 0;
    printf("  size %u, changed:", f->code);
    for (unsigned n = 0; n <= f->limit + 2; n++) {
        unsigned long reports = changed[f - families][n];
        printf(n < f->limit + 2 ? " %u in %lu," : " %u or more in %lu\n", n, reports);
        missing += reports == 0;
    }
    return missing;
}

/* Prints how many bytes that are no code were refused, of all that there are; returns how many were not. */
static int print_wrong_codes(const char *name, const unsigned long seen_of[256])
{
    unsigned all = 0, refused = 0;
    for (unsigned code = 0; code < 256; code++)
        if (second_family(code) == NULL) {
            all++;
            refused += seen_of[code] != 0;
        }
    printf(" %s %u of %u;", name, refused, all);
    return (int)(all - refused);
}

/* Prints what was seen of each size, and of the codes that are none; returns how many kinds of it were not. */
static int print_sizes(void)
{
    static const char *const names[] = {"tag", "sheet of version 1", "2", "3"};
    int missing = recoded == 0;
    printf("sizes:\n");
    for (const struct family *f = families; f < families + SIZES; f++) {
        missing += print_counts("size", f->code, OF_SIZE, of(f), of_size_names);
        missing += print_changed(f);
    }
    printf("bytes that are no code, refused:");
    for (unsigned version = 0; version <= SHEET_VERSIONS; version++)
        missing += print_wrong_codes(names[version], wrong_codes[version]);
    printf(" done: code of another size with as many tags %lu\n", recoded);
    return missing;
}

/* Prints how often each outcome was seen; returns how many that a call can give were not. */
static int print_table(void)
{
    static const uint8_t numbers[] = {0, 1, 2, 3, 4, 5, 6, 7, 8, 9, 20, 21, 25};
    static const char *const possible[] = {"\1\2\3\4\5\7", "\1\3\5\6\24\25\31", "\1\3\5\6\24\25\31\7", "\1\6\24\10\11\7"};
    int missing = 0;
    printf("%-8s%7s", "call", "done");
    for (size_t i = 1; i < COUNT(numbers); i++)
        printf("%7u", numbers[i]);
    printf("\n");
    for (int call = TAG; call <= REPLACE; call++) {
        printf("%-8s", call_names[call]);
        for (size_t i = 0; i < COUNT(numbers); i++) {
            int can = numbers[i] == 0 || strchr(possible[call], numbers[i]) != NULL;
            if (can)
                printf("%7lu", seen[call][numbers[i]]);
            else
                printf("%7s", "-");
            missing += can && seen[call][numbers[i]] == 0;
        }
        printf("\n");
    }
    printf("report: intact %lu, named %lu, beyond %lu; verify: yes %lu, no %lu\n", answers[0], answers[1], answers[2], verdicts[1],
           verdicts[0]);
    printf("5: at a card %lu, left over %lu; 9: old %lu, new %lu\n", bad_cards, left_over, long_old, long_new);
    printf("done, by the versions of shelf and sheet, 0 where there is none:\n");
    missing += print_mixes("tag", mixes[TAG], "1020");
    missing += print_mixes("verify", mixes[VERIFY], "111213212223");
    missing += print_mixes("report", mixes[REPORT], "111213212223");
    missing += print_mixes("replace", mixes[REPLACE], "010203");
    missing += print_mixes("refused 25", refused_mixes, "1213212223");
    printf("25 for one byte %lu; numbers differ too: 20 %lu, 21 %lu\n", one_byte, sealed_first, counted_first);
    const unsigned long others[] = {answers[0], answers[1], answers[2], verdicts[0], verdicts[1], bad_cards, left_over, long_old, long_new,
                                    one_byte, sealed_first, counted_first};
    for (size_t i = 0; i < COUNT(others); i++)
        missing += others[i] == 0;
    return missing;
}

int main(int argc, char **argv)
{
    uint64_t cases = argc > 1 ? strtoull(argv[1], NULL, 10) : 20000, first = 1;
    seed = argc > 2 ? strtoull(argv[2], NULL, 10) : (uint64_t)time(NULL);
    if (argc > 3)
        first = cases = strtoull(argv[3], NULL, 10);
    setvbuf(stdout, NULL, _IOLBF, 0);
    if (second_start() != 0 || second_check() != 0) {
        printf("the second implementation fails its own check\n");
        return 1;
    }
    list_all();
    printf("seed %llu, %llu cases\n", (unsigned long long)seed, (unsigned long long)(cases - first + 1));
    signal(SIGSEGV, crashed);
    signal(SIGBUS, crashed);
    for (size_t i = 0; i < COUNT(all_parts); i++)
        map(all_parts[i]);
    for (case_number = first; case_number <= cases; case_number++) {
        start_case(seed, case_number);
        run_case();
    }
    if (argc > 3) {
        printf("no difference\n");
        return 0;
    }
    int missing = print_table();
    missing += print_vacancies();
    missing += print_sizes();
    if (missing) {
        printf("%d outcomes were never seen\n", missing);
        return 1;
    }
    printf("no difference\n");
    return 0;
}
