/* Tag, Verify, Report and Replace on planes and on affine sizes.
 *
 * calls-bench rows: a line for each size, count, length and call, with its best time in this process beside one CMAC of the same bytes by
 * libtomcrypt's portable C, one by this library's cipher (the source paper's own measure) and the second implementation's same call, in
 * microseconds. bench/calls runs it in several processes and makes the ratios. It fails where the two implementations differ.
 *
 * calls-bench rest: how the time goes with the number of cards, and the bytes of stack that a call uses, at the largest plane and the
 * largest affine size, as tables. */
#include "../include/gtm.h"
#include "../tests/host/second.h"

#include <stdio.h>
#include <stdlib.h>
#include <string.h>
#include <time.h>
#include <tomcrypt.h>
#include <ucontext.h>

uint64_t bench_cmac(const uint8_t *key, size_t key_len, const uint8_t *message, size_t message_len, uint8_t *out, size_t out_len);

enum { ROUNDS = 60, FEW = 5 };

/* A shelf, the same with some of its cards changed, and the shelf's sheet. */
struct setting {
    const struct family *family;
    unsigned cards;
    size_t card_len, shelf_len, sheet_len;
    uint8_t shelf[65536], altered[65536], sheet[GTM_SHEET_MAX];
};

static struct setting settings[FEW], *now; /* what the calls below work on */
static uint8_t keys[48], other[GTM_SHEET_MAX], marks[GTM_CARDS_MAX], second[GTM_CARDS_MAX];
static int rijndael;

static void need(int ok, const char *what)
{
    if (!ok) {
        fprintf(stderr, "%s: not as it should be\n", what);
        exit(1);
    }
}

/* At most so many cards of one length, as many as fit, and the same with the first of them changed. */
static void lay_out(struct setting *s, const struct family *f, unsigned cards, size_t len, unsigned changed)
{
    while (7 + cards * (2 + len) > sizeof s->shelf) cards--;
    s->family = f;
    s->cards = cards;
    s->card_len = len;
    memcpy(s->shelf, "TBS\0\1", 5);
    s->shelf[5] = (uint8_t)(cards >> 8);
    s->shelf[6] = (uint8_t)cards;
    s->shelf_len = 7;
    for (unsigned j = 0; j < cards; j++) {
        s->shelf[s->shelf_len] = (uint8_t)(len >> 8);
        s->shelf[s->shelf_len + 1] = (uint8_t)len;
        for (size_t k = 0; k < len; k++) s->shelf[s->shelf_len + 2 + k] = (uint8_t)rand();
        s->shelf_len += 2 + len;
    }
    s->sheet_len = second_sheet_len(3, f);
    memcpy(s->altered, s->shelf, s->shelf_len);
    for (unsigned j = 0; j < changed && j < cards; j++) s->altered[7 + j * (2 + len) + 2] ^= 1;
}

static void our_cmac(void) { uint8_t mac[16]; need(bench_cmac(keys, 16, now->shelf, now->shelf_len, mac, 16) == 1, "cmac"); }

static void their_cmac(void)
{
    uint8_t mac[16];
    unsigned long len = 16;
    need(omac_memory(rijndael, keys, 16, now->shelf, now->shelf_len, mac, &len) == CRYPT_OK, "libtomcrypt's cmac");
}

static void tag(void) { need(gtm_tag(keys, 48, now->family->code, now->shelf, now->shelf_len, now->sheet, now->sheet_len) == 0, "tag"); }
static void tag_d(void) { need(gtm_tag(keys, 48, now->family->code, now->altered, now->shelf_len, other, now->sheet_len) == 0, "tag"); }
static void verify(void) { need(gtm_verify(keys, 48, now->shelf, now->shelf_len, now->sheet, now->sheet_len) == 256, "verify"); }
static void verify_d(void) { need(gtm_verify(keys, 48, now->altered, now->shelf_len, now->sheet, now->sheet_len) == 0, "verify"); }
static void report(void)
{
    need(gtm_report(keys, 48, now->shelf, now->shelf_len, now->sheet, now->sheet_len, marks, sizeof marks) == 0, "report");
}
static void report_d(void)
{
    need(gtm_number(gtm_report(keys, 48, now->altered, now->shelf_len, now->sheet, now->sheet_len, marks, sizeof marks)) == 0, "report");
}
static void replace(void)
{
    const struct setting *s = now;
    need(gtm_replace(keys, 48, s->sheet, s->sheet_len, 1, s->shelf + 9, s->card_len, s->altered + 9, s->card_len, other, s->sheet_len) == 0, "replace");
}

/* Another old card than the one tagged. */
static void replace_d(void)
{
    const struct setting *s = now;
    need(gtm_replace(keys, 48, s->sheet, s->sheet_len, 1, s->altered + 9, s->card_len, s->shelf + 9, s->card_len, other, s->sheet_len) == 0, "replace");
}

static void second_tags(void)
{
    need(second_tag(keys, 48, now->family->code, now->shelf, now->shelf_len, now->sheet, now->sheet_len).number == 0, "second tag");
}
static void second_verifies(void) { need(second_verify(keys, 48, now->shelf, now->shelf_len, now->sheet, now->sheet_len).yes, "second verify"); }
static void second_reports(void)
{
    need(second_report(keys, 48, now->shelf, now->shelf_len, now->sheet, now->sheet_len, second, sizeof second).number == 0, "second report");
}
static void second_reports_d(void)
{
    need(second_report(keys, 48, now->altered, now->shelf_len, now->sheet, now->sheet_len, second, sizeof second).number == 0, "second report");
}
static void second_replaces(void)
{
    const struct setting *s = now;
    struct result r = second_replace(keys, 48, s->sheet, s->sheet_len, 1, s->shelf + 9, s->card_len, s->altered + 9, s->card_len, other, s->sheet_len);
    need(r.number == 0, "second replace");
}

/* A fixed number of steps, each of which waits for the one before it: its time is the clock's alone. */
static void spin(void)
{
    static volatile uint64_t last = 1;
    uint64_t x = last;
    for (int i = 0; i < 20000; i++) x = x * 6364136223846793005u + 1442695040888963407u;
    last = x;
}

/* Seconds that one call takes. */
static double once(void (*f)(void), int calls)
{
    struct timespec from, to;
    clock_gettime(CLOCK_MONOTONIC, &from);
    for (int k = 0; k < calls; k++) f();
    clock_gettime(CLOCK_MONOTONIC, &to);
    return ((double)(to.tv_sec - from.tv_sec) + (double)(to.tv_nsec - from.tv_nsec) * 1e-9) / calls;
}

/* Makes the sheet; fails unless both implementations write the same. */
static void agree(void)
{
    static uint8_t ours[GTM_SHEET_MAX];
    tag();
    memcpy(ours, now->sheet, now->sheet_len);
    second_tags();
    need(memcmp(ours, now->sheet, now->sheet_len) == 0, "the two sheets");
    report_d();
    second_reports_d();
    need(memcmp(marks, second, now->cards) == 0, "the two reports");
    replace();
    memcpy(ours, other, now->sheet_len);
    second_replaces();
    need(memcmp(ours, other, now->sheet_len) == 0, "the two replacements");
}

static const struct { const char *name; void (*ours)(void), (*theirs)(void); } calls[5] = {
    {"Tag", tag, second_tags}, {"Verify", verify, second_verifies}, {"Report, 0 changed", report, second_reports},
    {"Report, d changed", report_d, second_reports_d}, {"Replace", replace, second_replaces}};

/* The best of many of each, taken in turns, so that a slow spell of the machine falls on all alike: 0 is our CMAC, 1 libtomcrypt's, then
 * ours and the second implementation's of each call, and last the clock's. */
enum { TIMES = 13, CLOCK = TIMES - 1 };
static void measure(int count, double least[][TIMES])
{
    for (int q = 0; q < count; q++) {
        now = &settings[q];
        agree();
        for (int k = 0; k < TIMES; k++) least[q][k] = 1e9;
    }
    for (int i = 0; i < ROUNDS; i++)
        for (int q = 0; q < count; q++)
            for (int k = 0; k < TIMES; k++) {
                void (*f)(void) = k == 0 ? our_cmac : k == 1 ? their_cmac : k == CLOCK ? spin : k % 2 == 0 ? calls[k / 2 - 1].ours : calls[k / 2 - 1].theirs;
                now = &settings[q];
                double t = once(f, now->shelf_len > 8192 ? 1 : 16);
                if (t < least[q][k]) least[q][k] = t;
            }
}

/* size, cards, bytes a card, bytes in all, call; the call's time, libtomcrypt's CMAC, our CMAC, the second implementation's call, the clock's */
static void print_size(const struct family *f)
{
    static const size_t lengths[3] = {16, 232, 1024};
    double t[FEW][TIMES];
    for (int q = 0; q < 3; q++) {
        lay_out(&settings[0], f, f->cards, lengths[q], f->limit);
        measure(1, t);
        for (int i = 0; i < 5; i++)
            printf("%u\t%u\t%zu\t%zu\t%s\t%.3f\t%.3f\t%.3f\t%.3f\t%.3f\n", f->code, settings[0].cards, lengths[q], settings[0].shelf_len, calls[i].name,
                   t[0][2 + 2 * i] * 1e6, t[0][1] * 1e6, t[0][0] * 1e6, t[0][3 + 2 * i] * 1e6, t[0][CLOCK] * 1e6);
    }
}

/* The planes, then of either field the affine sizes with the lowest and the highest limit. */
static void print_rows(void)
{
    static const unsigned codes[] = {1, 2, 3, 4, 35, 37, 51, 57};
    for (size_t i = 0; i < sizeof codes / sizeof codes[0]; i++) print_size(second_family(codes[i]));
}

/* ---- Growth with the number of cards ---- */

static void print_growth(void)
{
    static const unsigned cards[FEW] = {1, 17, 68, 136, 273};
    static const int shown[4] = {2, 4, 6, 10}; /* Tag, Verify, Report with nothing changed, Replace */
    const int last = FEW - 1;
    double t[FEW][TIMES];
    for (int q = 0; q < FEW; q++) lay_out(&settings[q], second_family(4), cards[q], 232, second_family(4)->limit);
    measure(FEW, t);
    puts("\nGrowth, size 4, cards of 232 bytes. A call's time over one CMAC of the same bytes by our cipher, and its time a card over that with 273\n"
         "cards; for Replace, which is handed one card whatever their number, its time a call over that with 273.\n\n"
         "| cards | Tag | Tag, a card | Verify | Verify, a card | Report, 0 changed | Report, a card | Replace | Replace, a call |\n"
         "|---|---|---|---|---|---|---|---|---|");
    for (int q = 0; q < FEW; q++) {
        printf("| %u |", cards[q]);
        for (int i = 0; i < 4; i++) {
            double a = t[q][shown[i]], b = t[last][shown[i]];
            printf(" %.2f | %.2f |", a / t[q][0], i < 3 ? a / cards[q] / (b / cards[last]) : a / b);
        }
        puts("");
    }
    printf("\nWhat a call costs whatever the number of cards, as that of so many of these cards:");
    for (int i = 0; i < 3; i++) {
        double a = t[0][shown[i]], card = (t[last][shown[i]] - a) / (cards[last] - cards[0]);
        printf(" %s %.0f%s", calls[shown[i] / 2 - 1].name, a / card - 1, i < 2 ? ";" : "\n");
    }
}

/* ---- Stack ---- */

static uint8_t stack[1 << 18] __attribute__((aligned(64))); /* far more than a call uses */
static ucontext_t outside, inside;
static void (*called)(void);
static uint8_t *top;

static void enter(void)
{
    top = __builtin_frame_address(0);
    called();
}

/* Runs a call on a stack of its own that is filled with one byte; returns how far below its start another byte was found. */
static size_t depth(void (*f)(void), uint8_t pattern)
{
    size_t k = 0;
    memset(stack, pattern, sizeof stack);
    need(getcontext(&inside) == 0, "getcontext");
    inside.uc_stack.ss_sp = stack;
    inside.uc_stack.ss_size = sizeof stack;
    inside.uc_link = &outside;
    called = f;
    makecontext(&inside, enter, 0);
    need(swapcontext(&outside, &inside) == 0, "swapcontext");
    while (stack[k] == pattern) k++;
    need(k > 0, "stack");
    return (size_t)(top - (stack + k));
}

/* With two patterns, for a byte that the call leaves may be the pattern's. */
static size_t used(void (*f)(void))
{
    size_t a = depth(f, 0xa5), b = depth(f, 0x5a);
    return a > b ? a : b;
}

/* Returns the largest that one call uses. */
static size_t print_stack(const struct family *f)
{
    static const struct { const char *name; void (*intact)(void), (*altered)(void); } rows[4] = {
        {"Tag", tag, tag_d}, {"Verify", verify, verify_d}, {"Report", report, report_d}, {"Replace", replace, replace_d}};
    size_t largest = 0;
    for (int q = 0; q < 2; q++) {
        now = &settings[q];
        lay_out(now, f, f->cards, 238, q == 0 ? f->limit : f->cards);
        tag();
    }
    printf("\nStack, bytes, size %u, a shelf of %zu. From where the bench calls down to the deepest byte written: the arguments handed\n"
           "over there and a few words of the bench itself are included.\n\n"
           "| call | intact | %u cards altered | all altered |\n|---|---|---|---|\n", f->code, now->shelf_len, f->limit);
    for (int i = 0; i < 4; i++) {
        size_t bytes[3];
        for (int k = 0; k < 3; k++) {
            now = &settings[k == 2];
            bytes[k] = used(k == 0 ? rows[i].intact : rows[i].altered);
            if (bytes[k] > largest) largest = bytes[k];
        }
        printf("| %s | %zu | %zu | %zu |\n", rows[i].name, bytes[0], bytes[1], bytes[2]);
    }
    return largest;
}

int main(int argc, char **argv)
{
    rijndael = register_cipher(&rijndael_desc);
    need(second_start() == 0 && second_check() == 0 && rijndael >= 0, "start");
    srand(1);
    for (size_t i = 0; i < sizeof keys; i++) keys[i] = (uint8_t)rand();
    if (argc == 2 && strcmp(argv[1], "rows") == 0) {
        print_rows();
        return 0;
    }
    need(argc == 2 && strcmp(argv[1], "rest") == 0, "calls-bench rows, or rest");
    print_growth();
    size_t plane = print_stack(second_family(4)), affine = print_stack(second_family(57));
    printf("\nThe largest stack that one call uses: %zu bytes\n", plane > affine ? plane : affine);
    return 0;
}
