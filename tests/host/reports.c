/* The report program against the second implementation: what it writes is compared byte for byte with what it should.
 *
 *     reports program [count [seed [case]]]
 *
 * First come the listed inputs: the edges of the format, every size and count, cards withdrawn and added, versions and
 * numbers, every refusal; then `count` random ones. A case depends on the seed and its own number alone, so that a
 * fourth argument runs a single case again. Input is handed over as a file or through a pipe, in pieces of several
 * lengths. Any difference, a status other than 0, a signal, or no end within some seconds fails; the input is then kept
 * in a file. */
#define _GNU_SOURCE
#include "inputs.h"

#include <errno.h>
#include <fcntl.h>
#include <poll.h>
#include <signal.h>
#include <spawn.h>
#include <stdio.h>
#include <stdlib.h>
#include <string.h>
#include <sys/wait.h>
#include <unistd.h>

#define FRONT 51u    /* keys, size code and length */
#define PATIENCE 20u /* seconds that a run may take */

extern char **environ;

static const char *program;
static uint64_t seed, case_number;
static uint8_t input[FRONT + 2 * SHELF_ROOM];
static size_t input_len;
static char expected[MOST_PRINTED], printed[4 * MOST_PRINTED]; /* room to see that it prints too much */
static size_t expected_len, printed_len;

static void stop(const char *what)
{
    printf("%s: %s\n", what, strerror(errno));
    exit(1);
}

/* ---- The two shelves of an input ---- */

static struct draft cards[2];
static uint8_t file[2][SHELF_ROOM];
static size_t file_len[2];

static void make_keys(void)
{
    fill(input, 48);
    if (one_in(20))
        memset(input, one_in(2) ? 0 : input[0], 48);
}

/* Keys, and two equal shelves of that version and number; those of number 0 may be laid out in two versions. */
static void start_numbered(unsigned version, uint32_t number, const struct family *family, unsigned count)
{
    make_keys();
    cards[0].version = version;
    cards[0].number = number;
    cards[0].family = family;
    cards[0].count = count;
    make_cards(&cards[0], below(3));
    cards[1] = cards[0];
    choose_version(&cards[1]);
}

static void start(const struct family *family, unsigned count)
{
    choose_number(&cards[0]);
    start_numbered(cards[0].version, cards[0].number, family, count);
}

static void start_any(void)
{
    const struct family *family = any_family();
    start(family, 1 + below(family->cards));
}

/* Two equal shelves, of which one is of that version. */
static void start_in(unsigned which, unsigned version)
{
    start_any();
    cards[which].version = version;
    if (version == 1)
        cards[0].number = cards[1].number = 0;
}

static void lay_out(void)
{
    for (int which = 0; which < 2; which++)
        file_len[which] = write_shelf(&cards[which], file[which]);
}

static void join(void)
{
    input[48] = (uint8_t)cards[0].family->code;
    put_two(input + 49, (unsigned)file_len[0]);
    memcpy(input + FRONT, file[0], file_len[0]);
    memcpy(input + FRONT + file_len[0], file[1], file_len[1]);
    input_len = FRONT + file_len[0] + file_len[1];
}

/* ---- The kinds of input ---- */

/* A kind of input, and those of the numbers that it goes by. */
struct plan {
    const char *name;
    void (*make)(const struct plan *);
    const struct family *family; /* of good shelves, and the next two */
    unsigned count, changed;
    unsigned len, said;          /* bytes, of the input or of a shelf; what stands as the first shelf's length, or as a version or size code */
    unsigned which, where, how;  /* which shelf is wrong, where and how */
    unsigned version[2];         /* of both shelves, or the first of the one that is wrong */
    uint32_t number[2];
    unsigned way;                /* how the input is handed over; 4 for any */
};

/* Two good shelves, so many cards of the second changed. The sheet between them is of the newest version. */
static void good(const struct plan *p)
{
    start(p->family, p->count);
    alter_cards(&cards[1], input, SHEET_VERSIONS, p->changed);
    lay_out();
    join();
}

/* The same, any number of them changed. */
static void good_any(const struct plan *p)
{
    start(p->family, p->count);
    alter_cards(&cards[1], input, SHEET_VERSIONS, how_many(&cards[1]));
    lay_out();
    join();
}

/* Two good shelves, so many places of one of them vacant: cards that were added if it is the first, and withdrawn if it is the second. The
 * other places are filled in both, or for `how` 1 vacant in both. */
static void vacated(const struct plan *p)
{
    unsigned order[MOST_CARDS] = {0};
    start(p->family, p->count);
    shuffle(&cards[0], order);
    for (unsigned i = 0; i < p->count; i++) {
        fill_place(&cards[0], order[i]);
        if (i >= p->changed && p->how == 1)
            cards[0].len[order[i]] = 0;
    }
    cards[1] = cards[0];
    choose_version(&cards[1]);
    for (unsigned i = 0; i < p->changed; i++)
        cards[p->which].len[order[i]] = 0;
    lay_out();
    join();
}

/* Gives the cards lengths that fill a shelf of that length; they hold their bytes already. */
static void fit(struct draft *d, size_t len)
{
    size_t room = len - head_len(d) - 2 * d->count;
    for (unsigned j = 1; j <= d->count; j++) {
        d->len[j] = room < 1024 ? (unsigned)room : 1024;
        room -= d->len[j];
    }
}

static void make_long(unsigned count)
{
    start(any_family_for(count), count);
    for (unsigned j = 1; j <= count; j++)
        fill(cards[0].card[j], 1024);
    cards[1] = cards[0];
}

/* Two good shelves that make an input of exactly that length, from 60,000 to 120,000, some bits of the second flipped. */
static void exact(const struct plan *p)
{
    unsigned half = (p->len - FRONT) / 2;
    make_long(60 + below(14));
    fit(&cards[0], half);
    fit(&cards[1], p->len - FRONT - half);
    for (unsigned i = 0; i < p->changed; i++)
        flip(cards[1].card[1 + below(20)], 1024);
    lay_out();
    join();
}

/* A good first shelf that fills the input to its last byte. */
static void filled(const struct plan *p)
{
    make_long(64 + below(210));
    fit(&cards[0], 65536 - FRONT);
    lay_out();
    file_len[1] = 0;
    join();
    put_two(input + 49, p->said);
}

/* The front of a good input. */
static void cut(const struct plan *p)
{
    start_any();
    lay_out();
    join();
    put_two(input + 49, p->said);
    input_len = p->len;
}

/* Noise; half of the time its size code and length could be good ones. */
static void noise(const struct plan *p)
{
    fill(input, p->len);
    if (one_in(2)) {
        input[48] = (uint8_t)any_family()->code;
        put_two(input + 49, p->len > FRONT ? below(p->len - FRONT + 2) : below(2));
    }
    input_len = p->len;
}

/* A good first shelf and none behind it. Its length is said as it is for 100, a byte more for 101. */
static void alone(const struct plan *p)
{
    start_any();
    lay_out();
    file_len[1] = 0;
    join();
    put_two(input + 49, (unsigned)file_len[0] + p->said - 100);
}

static void wrong_size(const struct plan *p)
{
    start_any();
    lay_out();
    join();
    input[48] = (uint8_t)p->said;
}

/* A well made shelf of another count than the other's, which has 7 cards. */
static void wrong_count(const struct plan *p)
{
    start(p->family, 7);
    for (unsigned j = 8; j <= p->count; j++) {
        cards[p->which].len[j] = below(4);
        fill(cards[p->which].card[j], 4);
    }
    cards[p->which].count = p->count;
    lay_out();
    join();
}

/* A shelf cut short in its head or a little behind it. */
static void cut_head(const struct plan *p)
{
    start_in(p->which, p->version[0]);
    lay_out();
    if (p->len < file_len[p->which])
        file_len[p->which] = p->len;
    join();
}

/* One of a shelf's first 5 bytes changed. */
static void wrong_head(const struct plan *p)
{
    start_in(p->which, p->version[0]);
    lay_out();
    file[p->which][p->where] ^= (uint8_t)(1 + below(255));
    join();
}

/* Another version said by a shelf. */
static void wrong_version(const struct plan *p)
{
    start_in(p->which, p->version[0]);
    lay_out();
    put_two(file[p->which] + 3, p->said);
    join();
}

/* Two good shelves of given versions and numbers; for `how` 1 the second has another count too, for 2 it is damaged. */
static void numbered(const struct plan *p)
{
    const struct family *family = any_family();
    start_numbered(p->version[0], p->number[0], family, 1 + below(family->cards));
    alter_cards(&cards[1], input, SHEET_VERSIONS, p->changed);
    cards[1].version = p->version[1];
    cards[1].number = p->number[1];
    if (p->how == 1)
        change_count(&cards[1]);
    lay_out();
    if (p->how == 2)
        file_len[1] = damage_shelf(&cards[1], file[1], file_len[1]);
    join();
}

/* Two shelves of the same bytes but for the version, good in both: one card of 4 bytes in version 1, and a number with
 * one empty card in version 2. */
static void either_version(const struct plan *p)
{
    make_keys();
    cards[0].family = any_family();
    for (int which = 0; which < 2; which++) {
        memcpy(file[which], "TBS\0\0\0\1\0\4\0\1\0\0", 13);
        put_two(file[which] + 3, p->version[which]);
        file_len[which] = 13;
    }
    join();
}

/* A card that is refused: the first, the last or any. */
static void wrong_card(const struct plan *p)
{
    start_any();
    struct draft *d = &cards[p->which];
    const unsigned places[] = {1, d->count, 1 + below(d->count)};
    unsigned j = places[p->where];
    if (p->how == 0) {
        d->len[j] = 1025;
        fill(d->card[j], 1025);
    }
    lay_out();
    size_t at = place_of(d, j);
    if (p->how == 1) /* the shelf ends in the card, or in its length if it is empty */
        file_len[p->which] = at + (d->len[j] ? 2 + below(d->len[j]) : 1);
    else if (p->how == 2) /* it ends in the card's length */
        file_len[p->which] = at + below(2);
    else if (p->how == 3)
        put_two(file[p->which] + at, 1025 + below(65536 - 1025));
    join();
}

static void left_over(const struct plan *p)
{
    start_any();
    lay_out();
    fill(file[p->which] + file_len[p->which], p->len);
    file_len[p->which] += p->len;
    join();
}

/* Both shelves refused, or the size code and the second: what is printed is the refusal of Tag. */
static void both_wrong(const struct plan *p)
{
    start_any();
    lay_out();
    switch (p->how) {
    case 2: break; /* the size code, below */
    case 3: file[0][0] = 't'; break;
    case 4: put_two(file[0] + head_len(&cards[0]) - 2, 0); break;
    default: file_len[0]--; break;
    }
    if (p->where == 0)
        file[1][0] = 't';
    else
        file_len[1]--;
    join();
    if (p->how == 2)
        input[48] = 0;
}

/* A second shelf of as many empty cards as fit. Their number is said as it is for 10, one more for 11. A place may have five digits. */
static void empty_cards(const struct plan *p)
{
    start(any_family(), 1 + below(7));
    lay_out();
    size_t head = head_len(&cards[1]);
    unsigned fitting = (65536 - FRONT - (unsigned)file_len[0] - (unsigned)head) / 2;
    put_two(file[1] + head - 2, fitting + p->said - 10);
    memset(file[1] + head, 0, 2 * fitting);
    file_len[1] = head + 2 * fitting;
    join();
}

/* Anything of all that, either shelf damaged or not. */
static void anything(const struct plan *p)
{
    (void)p;
    make_keys();
    make_shelf(&cards[0]);
    cards[1] = cards[0];
    alter_cards(&cards[1], input, SHEET_VERSIONS, how_many(&cards[1]));
    choose_version(&cards[1]);
    if (one_in(8))
        renumber(&cards[1]);
    lay_out();
    for (int which = 0; which < 2; which++)
        if (one_in(5))
            file_len[which] = damage_shelf(&cards[which], file[which], file_len[which]);
    join();
    if (one_in(20))
        input[48] = (uint8_t)near_code(cards[0].family);
    if (one_in(20))
        put_two(input + 49, (unsigned)file_len[0] + below(5) - 2);
    if (one_in(40))
        input_len = below((unsigned)input_len + 1);
}

/* ---- The listed inputs ---- */

static struct plan plans[3000];
static size_t plan_count;

static void list(struct plan plan)
{
    if (plan_count == COUNT(plans)) {
        printf("more inputs are listed than there is room for\n");
        exit(1);
    }
    plans[plan_count++] = plan;
}

/* Each of them is handed over in each way. */
static void list_lengths(unsigned way)
{
    static const unsigned edges[] = {0, 1, 48, 49, 50, 51, 52, 65535, 65536, 65537, 65538, 100000};
    static const unsigned shelves[] = {65534, 65535, 65536, 65537, 65538, 66000, 100000};
    for (size_t i = 0; i < COUNT(edges); i++)
        list((struct plan){"noise", noise, .len = edges[i], .way = way});
    for (size_t i = 0; i < COUNT(shelves); i++)
        list((struct plan){"two shelves of an exact length", exact, .len = shelves[i], .changed = way, .way = way});
    for (unsigned len = 49; len < 54; len++)
        for (unsigned said = 0; said < 3; said++)
            list((struct plan){"front of a good input", cut, .len = len, .said = said, .way = way});
    for (unsigned said = 98; said < 103; said++)
        list((struct plan){"one shelf", alone, .said = said, .way = way});
    list((struct plan){"one shelf, said to be far longer", alone, .said = 100 + 30000, .way = way});
    for (unsigned said = 65536 - FRONT - 1; said <= 65536 - FRONT + 1; said++)
        list((struct plan){"a first shelf that fills the input", filled, .said = said, .way = way});
    list((struct plan){"a first shelf that fills the input", filled, .said = 65535, .way = way});
}

static void list_good(const struct family *f)
{
    unsigned m = f->cards, d = f->limit;
    const unsigned counts[] = {1, m / 2 + 1, m - 1, m}, changed[] = {0, 1, d, d + 1, m};
    for (size_t i = 0; i < COUNT(counts); i++)
        for (size_t k = 0; k < COUNT(changed); k++)
            list((struct plan){"two good shelves", good, f, counts[i], changed[k], .way = 4});
    for (unsigned n = 2; n < d; n++)
        list((struct plan){"two good shelves", good, f, m, n, .way = 4});
    for (unsigned count = 1; count <= m; count++)
        list((struct plan){"two good shelves, every count", good_any, f, count, .way = 4});
}

static void list_vacated(const struct family *f)
{
    unsigned m = f->cards, d = f->limit;
    const unsigned changed[] = {0, 1, d, d + 1, m};
    for (size_t i = 0; i < COUNT(changed); i++)
        for (unsigned which = 0; which < 2; which++)
            for (unsigned how = 0; how < 2; how++)
                list((struct plan){"vacant places", vacated, f, m, changed[i], .which = which, .how = how, .way = 4});
}

static void list_refusals(unsigned which)
{
    for (const struct family *f = families; f < families + SIZES; f++) {
        const unsigned counts[] = {0, 6, 8, f->cards + 1};
        for (size_t i = 0; i < COUNT(counts); i++)
            list((struct plan){"another count", wrong_count, f, counts[i], .which = which, .way = 4});
    }
    for (unsigned version = 1; version <= 2; version++) {
        for (unsigned len = 0; len < 15; len++)
            list((struct plan){"head cut short", cut_head, .which = which, .len = len, .version = {version}, .way = 4});
        for (unsigned where = 0; where < 5; where++)
            list((struct plan){"head changed", wrong_head, .which = which, .where = where, .version = {version}, .way = 4});
        for (unsigned i = 0; i < FIXED_LABELS; i++)
            list((struct plan){"version changed", wrong_version, .which = which, .said = label(i), .version = {version}, .way = 4});
    }
    for (unsigned how = 0; how < 4; how++)
        for (unsigned where = 0; where < 9; where++)
            list((struct plan){"wrong card", wrong_card, .which = which, .where = where % 3, .how = how, .way = 4});
    for (unsigned len = 1; len < 2000; len = 2 * len + 1)
        list((struct plan){"bytes left over", left_over, .which = which, .len = len, .way = 4});
}

/* Numbers of the first shelf and the second, in every version that can say them. */
static void list_numbers(uint32_t a, uint32_t b)
{
    for (unsigned first = a == 0 ? 1 : 2; first <= 2; first++)
        for (unsigned second = b == 0 ? 1 : 2; second <= 2; second++)
            for (unsigned how = 0; how < 3; how++)
                for (unsigned changed = 0; changed < 2; changed++)
                    list((struct plan){"numbered shelves", numbered, .changed = changed, .how = how, .version = {first, second},
                                       .number = {a, b}, .way = 4});
}

static void list_versions(void)
{
    static const uint32_t pairs[][2] = {{0, 0}, {5, 5}, {0xffffffff, 0xffffffff}, {0, 1}, {1, 0}, {0, 0xffffffff}, {0xffffffff, 0},
                                        {5, 0x05000000}, {0x01020304, 0x01020305}, {0x01020304, 0x01020404}, {0x01020304, 0x01030304},
                                        {0x01020304, 0x02020304}};
    for (size_t i = 0; i < COUNT(pairs); i++)
        list_numbers(pairs[i][0], pairs[i][1]);
    for (unsigned first = 1; first <= 2; first++)
        for (unsigned second = 1; second <= 2; second++)
            list((struct plan){"shelves good in either version", either_version, .version = {first, second}, .way = 4});
}

static void list_all(void)
{
    for (unsigned way = 0; way < 4; way++)
        list_lengths(way);
    for (const struct family *f = families; f < families + SIZES; f++) {
        list_good(f);
        list_vacated(f);
    }
    for (unsigned code = 0; code < 256; code++)
        if (second_family(code) == NULL)
            list((struct plan){"wrong size code", wrong_size, .said = code, .way = 4});
    list_versions();
    list_refusals(0);
    list_refusals(1);
    for (unsigned how = 2; how < 6; how++)
        for (unsigned where = 0; where < 2; where++)
            list((struct plan){"both shelves refused", both_wrong, .how = how, .where = where, .way = 4});
    for (unsigned said = 8; said < 13; said++)
        list((struct plan){"as many empty cards as fit", empty_cards, .said = said, .way = 4});
}

/* ---- Running the program ---- */

static volatile pid_t child;
static volatile sig_atomic_t late;

static void too_late(int signal_number)
{
    (void)signal_number;
    late = 1;
    if (child > 0)
        kill(child, SIGKILL);
}

static void spawn(int in, int out)
{
    posix_spawn_file_actions_t files;
    posix_spawnattr_t attributes;
    sigset_t usual;
    pid_t pid;
    char *const words[] = {(char *)program, NULL};
    sigemptyset(&usual);
    sigaddset(&usual, SIGPIPE);
    posix_spawn_file_actions_init(&files);
    posix_spawn_file_actions_adddup2(&files, in, 0);
    posix_spawn_file_actions_adddup2(&files, out, 1);
    posix_spawn_file_actions_adddup2(&files, out, 2);
    posix_spawnattr_init(&attributes);
    posix_spawnattr_setsigdefault(&attributes, &usual);
    posix_spawnattr_setflags(&attributes, POSIX_SPAWN_SETSIGDEF);
    errno = posix_spawn(&pid, program, &files, &attributes, words, environ);
    if (errno != 0)
        stop(program);
    child = pid;
    posix_spawnattr_destroy(&attributes);
    posix_spawn_file_actions_destroy(&files);
}

/* Gives the input in pieces of at most that length, where it goes through a pipe, and takes what is printed on either output. */
static void talk(int to, int from, unsigned most)
{
    size_t given = 0;
    while (printed_len < sizeof printed) {
        struct pollfd ends[2] = {{from, POLLIN, 0}, {to, POLLOUT, 0}}; /* an end of -1 is passed over */
        if (poll(ends, 2, -1) < 0) {
            if (late)
                break;
            stop("poll");
        }
        if (ends[1].revents) {
            size_t piece = 1 + below(most), left = input_len - given;
            ssize_t n = write(to, input + given, piece < left ? piece : left);
            if (n >= 0)
                given += (size_t)n;
            else if (errno == EPIPE) /* it reads no more, which is its right */
                given = input_len;
            if (given == input_len) {
                close(to);
                to = -1;
            }
        }
        if (ends[0].revents) {
            ssize_t n = read(from, printed + printed_len, sizeof printed - printed_len);
            if (n == 0)
                break;
            if (n > 0)
                printed_len += (size_t)n;
        }
    }
    if (to >= 0)
        close(to);
}

/* The input as a file. */
static int input_file(void)
{
    static int file = -1;
    FILE *f = file < 0 ? tmpfile() : NULL;
    if (f != NULL)
        file = fileno(f);
    if (file < 0 || ftruncate(file, 0) != 0 || pwrite(file, input, input_len, 0) != (ssize_t)input_len || lseek(file, 0, SEEK_SET) != 0)
        stop("the file of the input");
    return file;
}

/* Runs the program on the input; returns NULL, or what is wrong with how it went. Ways: a file, a pipe, a pipe in pieces, in small pieces. A pipe of
 * one page takes no piece before the last was read, so the program sees each by itself. */
static const char *run(unsigned way)
{
    const unsigned pieces[] = {0, 65536, 4096, input_len > 2000 ? 700 : 3};
    int in[2] = {-1, -1}, out[2], status = 0;
    if (pipe2(out, O_CLOEXEC) != 0 || (way != 0 && (pipe2(in, O_CLOEXEC) != 0 || fcntl(in[1], F_SETFL, O_NONBLOCK) != 0)))
        stop("pipe");
    if (way >= 2)
        fcntl(in[1], F_SETPIPE_SZ, 4096);
    late = 0;
    printed_len = 0;
    spawn(way == 0 ? input_file() : in[0], out[1]);
    alarm(PATIENCE);
    close(out[1]);
    if (way != 0)
        close(in[0]);
    talk(in[1], out[0], pieces[way]);
    close(out[0]);
    if (printed_len == sizeof printed)
        kill(child, SIGKILL);
    while (waitpid(child, &status, 0) < 0)
        if (errno != EINTR)
            stop("waitpid");
    child = 0;
    alarm(0);
    if (late)
        return "was still running and was stopped";
    if (printed_len == sizeof printed)
        return "printed too much and was stopped";
    if (WIFSIGNALED(status))
        return "ended by a signal";
    return WEXITSTATUS(status) == 0 ? NULL : "ended with a status other than 0";
}

/* ---- Comparing ---- */

static void show(const char *who, const char *text, size_t len)
{
    printf("%s, %zu bytes:\n", who, len);
    for (size_t i = 0; i < len && i < MOST_PRINTED; i++)
        if (text[i] == '\n' || (text[i] >= ' ' && text[i] <= '~'))
            putchar(text[i]);
        else
            printf("\\x%02x", (unsigned char)text[i]);
    if (len == 0 || text[len - 1] != '\n')
        printf("(no newline)\n");
}

static void differs(const struct plan *plan, unsigned way, const char *what)
{
    static const char *const ways[] = {"a file", "a pipe", "a pipe, in pieces", "a pipe, in small pieces"};
    char name[4096];
    printf("DIFFERENCE seed %llu case %llu (%s; %s): %s\n", (unsigned long long)seed, (unsigned long long)case_number, plan->name, ways[way],
           what);
    show("expected", expected, expected_len);
    show("printed", printed, printed_len);
    snprintf(name, sizeof name, "%s.case-%llu", program, (unsigned long long)case_number);
    FILE *f = fopen(name, "wb");
    if (f == NULL || fwrite(input, 1, input_len, f) != input_len || fclose(f) != 0)
        stop(name);
    printf("the input, %zu bytes: %s\n", input_len, name);
    exit(1);
}

enum { SHORT, LONG, PAST, TAG_2, TAG_3, TAG_4, TAG_5, TAG_LEFT, REPORT_3, REPORT_5, REPORT_LEFT, REPORT_21, REPORT_25,
       INTACT, NAMED, BEYOND, KINDS };
static const char *const kinds[KINDS] = {
    "unreadable, too short", "unreadable, too long", "unreadable, length past the end", "first shelf: 2", "first shelf: 3", "first shelf: 4",
    "first shelf: 5 at a card", "first shelf: 5, left over", "second shelf: 3", "second shelf: 5 at a card", "second shelf: 5, left over",
    "second shelf: 21", "second shelf: 25", "intact", "named", "beyond"};
static unsigned long seen[KINDS];
static unsigned long of_size[SIZES][KINDS - INTACT]; /* the answers, by size */

/* Which of those the expected text is, for a refusal by looking at the shelves; KINDS if none. */
static unsigned kind(void)
{
    uint8_t sheet[MOST_SHEET];
    unsigned number, place;
    if (strcmp(expected, "unreadable\n") == 0)
        return input_len < FRONT ? SHORT : input_len > 65536 ? LONG : PAST;
    if (sscanf(expected, "refused %u place %u", &number, &place) != 2)
        return strstr(expected, "\nintact ") ? INTACT : strstr(expected, "\nnamed ") ? NAMED : strstr(expected, "\nbeyond ") ? BEYOND : KINDS;
    size_t first_len = input[49] * 256u + input[50];
    int second = second_tag(input, 48, input[48], input + FRONT, first_len, sheet, sizeof sheet).number == 0;
    const uint8_t *shelf = input + FRONT + (second ? first_len : 0);
    if (number == 5 && place == second_count(shelf) + 1)
        return second ? REPORT_LEFT : TAG_LEFT;
    if (second)
        return number == 3 ? REPORT_3 : number == 5 ? REPORT_5 : number == 21 ? REPORT_21 : number == 25 ? REPORT_25 : KINDS;
    return number >= 2 && number <= 5 ? TAG_2 + number - 2 : KINDS;
}

/* Cards that were added, and withdrawn, from the first shelf to the second; and how many of them are named. */
static unsigned long turned[2], turned_named[2];

static int is_named(unsigned j)
{
    char line[24];
    snprintf(line, sizeof line, "\ncard %u\n", j);
    return strstr(expected, line) != NULL;
}

static size_t length_at(const uint8_t *at)
{
    return at[0] * 256u + at[1];
}

static void count_turned(void)
{
    const uint8_t *first = input + FRONT, *second = first + length_at(input + 49);
    unsigned count = second_count(first);
    first += first[4] == 1 ? 7 : 11;
    second += second[4] == 1 ? 7 : 11;
    for (unsigned j = 1; j <= count; j++) {
        int withdrawn = length_at(second) == 0;
        if (withdrawn != (length_at(first) == 0)) {
            turned[withdrawn]++;
            turned_named[withdrawn] += (unsigned)is_named(j);
        }
        first += 2 + length_at(first);
        second += 2 + length_at(second);
    }
}

static void run_case(void)
{
    static const struct plan random_plan = {"anything", anything, .way = 4};
    start_case(seed, case_number);
    const struct plan *plan = &random_plan;
    if (case_number <= plan_count)
        plan = &plans[case_number - 1];
    else if (one_in(4))
        plan = &plans[below((unsigned)plan_count)];
    plan->make(plan);
    expected_len = second_print(input, input_len, expected);
    unsigned way = plan->way < 4 ? plan->way : below(4), k = kind();
    const char *fault = run(way);
    if (fault != NULL)
        differs(plan, way, fault);
    if (printed_len != expected_len || memcmp(printed, expected, expected_len) != 0)
        differs(plan, way, "printed something else than expected");
    if (k == KINDS)
        differs(plan, way, "no kind of output that the program can print");
    seen[k]++;
    if (k >= INTACT) {
        of_size[second_family(input[48]) - families][k - INTACT]++;
        count_turned();
    }
}

/* Prints how often each answer was seen of each size; returns how many were not. */
static int print_sizes(void)
{
    int missing = 0;
    for (unsigned i = 0; i < SIZES; i++) {
        printf("size %u:", families[i].code);
        for (unsigned k = INTACT; k < KINDS; k++) {
            printf(" %s %lu%s", kinds[k], of_size[i][k - INTACT], k + 1 < KINDS ? "," : i % 2 == 0 ? "; " : "\n");
            missing += of_size[i][k - INTACT] == 0;
        }
    }
    return missing;
}

/* Prints how often each kind of output was seen; returns how many were not. */
static int print_table(void)
{
    int missing = print_sizes();
    for (unsigned k = 0; k < KINDS; k++) {
        printf("%s %lu%s", kinds[k], seen[k], k == PAST || k == TAG_LEFT || k == REPORT_25 || k + 1 == KINDS ? "\n" : "; ");
        missing += seen[k] == 0;
    }
    printf("cards added %lu, named %lu; withdrawn %lu, named %lu\n", turned[0], turned_named[0], turned[1], turned_named[1]);
    return missing + (turned_named[0] == 0) + (turned_named[1] == 0);
}

int main(int argc, char **argv)
{
    if (argc < 2) {
        printf("usage: reports program [count [seed [case]]]\n");
        return 2;
    }
    program = argv[1];
    seed = argc > 3 ? strtoull(argv[3], NULL, 10) : 1;
    setvbuf(stdout, NULL, _IOLBF, 0);
    if (second_start() != 0 || second_check() != 0) {
        printf("the second implementation fails its own check\n");
        return 1;
    }
    list_all();
    uint64_t first = 1, last = plan_count + (argc > 2 ? strtoull(argv[2], NULL, 10) : 400);
    if (argc > 4)
        first = last = strtoull(argv[4], NULL, 10);
    printf("seed %llu, %llu inputs, %zu of them listed\n", (unsigned long long)seed, (unsigned long long)(last - first + 1), plan_count);
    struct sigaction action = {.sa_handler = too_late};
    sigaction(SIGALRM, &action, NULL);
    signal(SIGPIPE, SIG_IGN);
    for (case_number = first; case_number <= last; case_number++)
        run_case();
    int missing = argc > 4 ? 0 : print_table();
    if (missing)
        printf("%d kinds of output were never seen\n", missing);
    else
        printf("no difference\n");
    return missing != 0;
}
