#define _DEFAULT_SOURCE

#include <setjmp.h>
#include <signal.h>
#include <stdio.h>
#include <stdlib.h>
#include <string.h>
#include <sys/mman.h>
#include <time.h>
#include <unistd.h>
#include "harness.h"

/* ---- checks */

#define REPORTS 5

static unsigned long checks, failures;
static const char *running;

void check_that(bool fact, const char *text, const char *file, int line)
{
    checks++;
    if (fact)
        return;
    failures++;
    if (failures <= REPORTS)
        printf("%s:%d: in %s: not so: %s\n", file, line, running, text);
    if (failures == REPORTS)
        printf("%s: no more of this test is shown\n", running);
}

/* ---- random bytes: splitmix64 */

static uint64_t seed = 20240229, drawn;

uint64_t random_bits(void)
{
    uint64_t z = drawn += 0x9e3779b97f4a7c15u;

    z = (z ^ z >> 30) * 0xbf58476d1ce4e5b9u;
    z = (z ^ z >> 27) * 0x94d049bb133111ebu;
    return z ^ z >> 31;
}

uint32_t random_below(uint32_t limit)
{
    return (uint32_t)((random_bits() >> 32) * limit >> 32);
}

void random_bytes(uint8_t *bytes, size_t len)
{
    for (size_t i = 0; i < len; i += 8) {
        uint64_t bits = random_bits();

        for (size_t j = i; j < len && j < i + 8; j++, bits >>= 8)
            bytes[j] = (uint8_t)bits;
    }
}

void flip_a_bit(uint8_t *bytes, size_t len)
{
    uint32_t bit = random_below((uint32_t)(8 * len));

    bytes[bit / 8] ^= (uint8_t)(1 << bit % 8);
}

/* ---- rooms: [inaccessible page] [bytes] [inaccessible page] */

#define ROOMS   8
#define NEAR    1024    /* how many bytes around a lent buffer are looked at */
#define FILLING 0xd3

static struct {
    uint8_t *first, *lent;
    size_t len;
} rooms[ROOMS];

static uint8_t filling[NEAR];
static size_t room_bytes;
static int placed = BEFORE_PAGE;

static void make_rooms(void)
{
    size_t page = (size_t)sysconf(_SC_PAGESIZE);

    memset(filling, FILLING, NEAR);
    room_bytes = (ROOM + page - 1) / page * page;
    for (int r = 0; r < ROOMS; r++) {
        uint8_t *whole = mmap(NULL, room_bytes + 2 * page, PROT_NONE, MAP_PRIVATE | MAP_ANONYMOUS, -1, 0);

        if (whole == MAP_FAILED || mprotect(whole + page, room_bytes, PROT_READ | PROT_WRITE) != 0) {
            perror("cannot make the rooms of lent buffers");
            exit(2);
        }
        rooms[r].first = rooms[r].lent = whole + page;
        rooms[r].len = 0;
        memset(rooms[r].first, FILLING, room_bytes);
    }
}

void place(int where)
{
    placed = where;
}

uint8_t *lend(unsigned room, const uint8_t *contents, size_t len)
{
    if (room >= ROOMS || len > ROOM) {
        printf("%s: no room for %zu bytes\n", running, len);
        exit(2);
    }
    memset(rooms[room].lent, FILLING, rooms[room].len);
    rooms[room].lent = rooms[room].first + (placed == BEFORE_PAGE ? room_bytes - len : 0);
    rooms[room].len = len;
    if (len > 0)
        memcpy(rooms[room].lent, contents, len);
    return rooms[room].lent;
}

/* are the bytes from `from` up to `to`, at most NEAR, as make_rooms left them? */
static bool filled(const uint8_t *from, const uint8_t *to)
{
    return memcmp(from, filling, (size_t)(to - from)) == 0;
}

bool holds(unsigned room, const uint8_t *contents)
{
    const uint8_t *first = rooms[room].first, *end = first + room_bytes;
    const uint8_t *lent = rooms[room].lent, *after = lent + rooms[room].len;
    bool same = rooms[room].len == 0 || memcmp(lent, contents, rooms[room].len) == 0;
    bool around = filled(lent - first > NEAR ? lent - NEAR : first, lent)
               && filled(after, end - after > NEAR ? after + NEAR : end);

    if (!around)        /* one stray write is one failure */
        memset(rooms[room].first, FILLING, room_bytes);
    return same && around;
}

uint8_t *vast(size_t len)
{
    uint8_t *bytes = mmap(NULL, len, PROT_READ | PROT_WRITE, MAP_PRIVATE | MAP_ANONYMOUS | MAP_NORESERVE, -1, 0);

    return bytes == MAP_FAILED ? NULL : bytes;
}

void give_back_vast(uint8_t *bytes, size_t len)
{
    if (bytes != NULL)
        munmap(bytes, len);
}

/* ---- running */

static sigjmp_buf out_of_test;

static void touched(int number)
{
    siglongjmp(out_of_test, number);
}

static bool run_test(const test *one)
{
    unsigned long before = checks;
    int caught;

    running = one->name;
    failures = 0;
    drawn = seed;
    place(BEFORE_PAGE);
    caught = sigsetjmp(out_of_test, 1);
    if (caught == 0)
        one->run();
    else
        printf("%s: stopped by signal %d: a byte outside the lent buffers was touched\n", one->name, caught);
    if (caught == 0 && checks == before)
        printf("%s: checks nothing\n", one->name);
    return caught == 0 && checks > before && failures == 0;
}

int run_groups(const group *groups, size_t count, int argc, char **argv)
{
    unsigned long passed = 0, failed = 0;
    bool naming = false;
    struct sigaction act;

    for (int i = 1; i < argc; i++) {
        char *end = argv[i];

        if (strcmp(argv[i], "-v") == 0) {
            naming = true;
            continue;
        }
        seed = strtoull(argv[i], &end, 10);
        if (end == argv[i] || *end != 0) {
            fprintf(stderr, "usage: %s [-v] [seed]\n", argv[0]);
            return 2;
        }
    }
    memset(&act, 0, sizeof act);
    act.sa_handler = touched;
    sigaction(SIGSEGV, &act, NULL);
    sigaction(SIGBUS, &act, NULL);
    make_rooms();
    printf("seed %llu\n", (unsigned long long)seed);
    for (size_t g = 0; g < count; g++) {
        unsigned long before = checks, wrong = 0;

        for (size_t i = 0; i < groups[g].count; i++) {
            clock_t start = clock();
            bool right = run_test(&groups[g].tests[i]);

            wrong += !right;
            if (naming || !right)
                printf("  %s %6.2f s  %s\n", right ? "passed" : "FAILED",
                       (double)(clock() - start) / CLOCKS_PER_SEC, groups[g].tests[i].name);
        }
        printf("%-12s %3zu tests %9lu checks  %s\n", groups[g].name, groups[g].count, checks - before,
               wrong == 0 ? "passed" : "FAILED");
        fflush(stdout);
        passed += (unsigned long)groups[g].count - wrong;
        failed += wrong;
    }
    printf("%lu passed, %lu failed\n", passed, failed);
    return failed > 0;
}
