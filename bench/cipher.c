/* The speed of both engines, crates/tables and crates/plain, beside libtomcrypt's portable AES: a line for each kind of work, with the best
 * time of either in this process. bench/run runs it in several processes and makes the ratios. CMAC runs on the tables alone. Both sides get
 * the same input, and the run fails where they give different bytes.
 *
 * libtomcrypt's side is rijndael_desc, its table-driven C in every version; aes_desc may turn to AES-NI in versions after 1.18. Its setup
 * makes the schedule for deciphering too. */
#include <stdint.h>
#include <stdio.h>
#include <stdlib.h>
#include <string.h>
#include <time.h>
#include <tomcrypt.h>

/* crates/bench/src/lib.rt: a slice is a pointer and a length. */
uint64_t bench_cmac(const uint8_t *key, size_t key_len, const uint8_t *message, size_t message_len, uint8_t *out, size_t out_len);
uint64_t bench_encipher(const uint8_t *key, size_t key_len, const uint8_t *input, size_t input_len, uint8_t *out, size_t out_len);
uint64_t bench_decipher(const uint8_t *key, size_t key_len, const uint8_t *input, size_t input_len, uint8_t *out, size_t out_len);
uint64_t bench_setup(const uint8_t *key, size_t key_len, uint8_t *out, size_t out_len);
uint64_t bench_plain_encipher(const uint8_t *key, size_t key_len, const uint8_t *input, size_t input_len, uint8_t *out, size_t out_len);
uint64_t bench_plain_decipher(const uint8_t *key, size_t key_len, const uint8_t *input, size_t input_len, uint8_t *out, size_t out_len);
uint64_t bench_plain_setup(const uint8_t *key, size_t key_len, uint8_t *out, size_t out_len);

enum { LONG = 65536, SHORT = 40, TIMES = 300 };

static uint8_t key[16], input[LONG];
static int rijndael;

static void need(int ok, const char *what, const char *why)
{
    if (!ok) {
        fprintf(stderr, "%s: %s\n", what, why);
        exit(1);
    }
}

static void our_cmac(size_t n, uint8_t *out) { need(bench_cmac(key, 16, input, n, out, 16) == 1, "bench_cmac", "refused"); }

static void our_encipher(size_t n, uint8_t *out) { need(bench_encipher(key, 16, input, n, out, n) == 1, "bench_encipher", "refused"); }

static void our_decipher(size_t n, uint8_t *out) { need(bench_decipher(key, 16, input, n, out, n) == 1, "bench_decipher", "refused"); }

static void plain_encipher(size_t n, uint8_t *out)
{
    need(bench_plain_encipher(key, 16, input, n, out, n) == 1, "bench_plain_encipher", "refused");
}

static void plain_decipher(size_t n, uint8_t *out)
{
    need(bench_plain_decipher(key, 16, input, n, out, n) == 1, "bench_plain_decipher", "refused");
}

/* One block, n = 16: it is enciphered in its place. */
static void our_setup(size_t n, uint8_t *out)
{
    memcpy(out, input, n);
    need(bench_setup(key, 16, out, n) == 1, "bench_setup", "refused");
}

static void plain_setup(size_t n, uint8_t *out)
{
    memcpy(out, input, n);
    need(bench_plain_setup(key, 16, out, n) == 1, "bench_plain_setup", "refused");
}

static void their_cmac(size_t n, uint8_t *out)
{
    unsigned long len = 16;
    need(omac_memory(rijndael, key, 16, input, n, out, &len) == CRYPT_OK, "omac_memory", "refused");
}

static void their_encipher(size_t n, uint8_t *out)
{
    symmetric_key schedule;
    need(rijndael_setup(key, 16, 0, &schedule) == CRYPT_OK, "rijndael_setup", "refused");
    for (size_t i = 0; i < n; i += 16) rijndael_ecb_encrypt(input + i, out + i, &schedule);
    rijndael_done(&schedule);
}

static void their_decipher(size_t n, uint8_t *out)
{
    symmetric_key schedule;
    need(rijndael_setup(key, 16, 0, &schedule) == CRYPT_OK, "rijndael_setup", "refused");
    for (size_t i = 0; i < n; i += 16) rijndael_ecb_decrypt(input + i, out + i, &schedule);
    rijndael_done(&schedule);
}

typedef void work(size_t n, uint8_t *out);

/* Microseconds that one call takes, over `calls` of them. */
static double once(work *f, size_t n, int calls, uint8_t *out)
{
    struct timespec from, to;
    clock_gettime(CLOCK_MONOTONIC, &from);
    for (int i = 0; i < calls; i++) f(n, out);
    clock_gettime(CLOCK_MONOTONIC, &to);
    return ((to.tv_sec - from.tv_sec) * 1e6 + (to.tv_nsec - from.tv_nsec) / 1e3) / calls;
}

/* Fails unless both sides make the same of n bytes. */
static void agree(const char *name, work *ours, work *theirs, size_t n, size_t out_len)
{
    static uint8_t a[LONG], b[LONG];
    memset(a, 0, LONG);
    memset(b, 1, LONG);
    ours(n, a);
    theirs(n, b);
    need(memcmp(a, b, out_len) == 0, name, "not the same bytes");
}

/* Compares both sides on n bytes, then measures them in turn and prints a line: its name, and microseconds by both. */
static void row(const char *name, work *ours, work *theirs, size_t n, size_t out_len, int calls)
{
    static uint8_t out[LONG];
    double our_best = 1e9, their_best = 1e9;
    agree(name, ours, theirs, n, out_len);
    for (int i = 0; i < TIMES; i++) {
        double our = once(ours, n, calls, out), their = once(theirs, n, calls, out);
        if (our < our_best) our_best = our;
        if (their < their_best) their_best = their;
    }
    printf("%s\t%.4f\t%.4f\n", name, our_best, their_best);
}

int main(void)
{
    rijndael = register_cipher(&rijndael_desc);
    need(rijndael >= 0, "register_cipher", "refused");
    for (int i = 0; i < 16; i++) key[i] = (uint8_t)(i * 29 + 7);
    for (int i = 0; i < LONG; i++) input[i] = (uint8_t)(i * 131 + i / 256);
    for (size_t n = 0; n <= 100; n++) agree("CMAC, 0 to 100 bytes", our_cmac, their_cmac, n, 16);
    row("CMAC, 64 KiB", our_cmac, their_cmac, LONG, 16, 1);
    row("CMAC, 40 bytes", our_cmac, their_cmac, SHORT, 16, 200);
    row("encipher, 4096 blocks, tables", our_encipher, their_encipher, LONG, LONG, 1);
    row("encipher, 4096 blocks, plain", plain_encipher, their_encipher, LONG, LONG, 1);
    row("decipher, 4096 blocks, tables", our_decipher, their_decipher, LONG, LONG, 1);
    row("decipher, 4096 blocks, plain", plain_decipher, their_decipher, LONG, LONG, 1);
    row("key and one block, tables", our_setup, their_encipher, 16, 16, 200);
    row("key and one block, plain", plain_setup, their_encipher, 16, 16, 200);
    /* The two engines side by side: here "theirs" is the plain one. */
    row("key and one block, tables/plain", our_setup, plain_setup, 16, 16, 200);
    return 0;
}
