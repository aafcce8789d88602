#define _DEFAULT_SOURCE

#include <stdio.h>
#include <stdlib.h>
#include <string.h>
#include <sys/mman.h>
#include <unistd.h>
#include "fuzz.h"

/* ---- numbers and bytes from the input; zeros when it is used up */

static const uint8_t *at;
static size_t left;
static bool at_end;             /* where lent buffers stand in this input */

void begin_drawing(const uint8_t *input, size_t len)
{
    at = input;
    left = len;
    at_end = len % 2 == 0;
}

bool more(void)
{
    return left > 0;
}

uint8_t draw_byte(void)
{
    if (left == 0)
        return 0;
    left--;
    return *at++;
}

uint32_t random_below(uint32_t limit)
{
    uint32_t drawn = draw_byte();

    if (limit > 256)
        drawn = drawn << 8 | draw_byte();
    if (limit > 65536)
        drawn = drawn << 16 | (uint32_t)draw_byte() << 8 | draw_byte();
    return limit == 0 ? 0 : drawn % limit;
}

/* The first sixteen are the input's, the others follow from them. */
void random_bytes(uint8_t *bytes, size_t len)
{
    uint32_t sum = 1;

    for (size_t i = 0; i < len; i++) {
        bytes[i] = i < 16 ? draw_byte() : (uint8_t)(sum >> 16);
        sum = (sum + bytes[i]) * 1664525u + 1013904223u;
    }
}

size_t draw_rest(uint8_t *bytes, size_t most)
{
    size_t len = left < most ? left : most;

    if (len > 0)
        memcpy(bytes, at, len);
    at += len;
    left -= len;
    return len;
}

uint32_t draw_number(void)
{
    static const uint32_t limits[] = {
        0, 1, 2, 3, 4, 7, 32, 64, 65, 128, 255, 256, 1431655766, 2863311531, 16384, 16385, 16388, 16389, 65535, 65536,
        65537, 0x7fffffff, 0x80000000, 0xfffffffc, 0xffffffff
    };
    uint32_t drawn = draw_byte();

    return drawn < 200 ? limits[drawn % (sizeof limits / sizeof *limits)] : random_below(0xffffffff);
}

size_t draw_length(size_t right)
{
    uint8_t drawn = draw_byte();

    if (drawn < 200)
        return right;
    if (drawn < 220)
        return right + drawn % 20;
    return right == 0 ? 0 : right - 1 - (drawn < 250 ? 0 : random_below((uint32_t)right));
}

ref_table draw_good_table(void)
{
    ref_table b;
    uint8_t drawn = draw_byte();

    b.n = drawn < 240 ? 1 + drawn % 13u : 1 + drawn % 16u * 63 / 15;
    b.t = random_below((b.n - 1) / 3 + 1);
    b.sender = 1 + random_below(b.n);
    b.longest = drawn % 8 == 7 ? random_below(600) : random_below(40);
    return b;
}

ref_table draw_table(void)
{
    ref_table b = draw_good_table();
    uint32_t *const numbers[4] = { &b.n, &b.t, &b.sender, &b.longest };

    if (draw_byte() > 220)
        *numbers[draw_byte() % 4] = draw_number();
    return b;
}

/* Mostly nothing. Answers the new length, at most `most`. */
size_t damage(uint8_t *bytes, size_t len, size_t most)
{
    uint8_t drawn = draw_byte();

    if (drawn < 160)
        return len;
    if (len > 0 && drawn % 4 == 1)
        bytes[random_below((uint32_t)len)] = draw_byte();
    if (len > 0 && drawn % 4 == 2)
        return random_below((uint32_t)len);
    if (drawn % 4 == 3)
        for (uint8_t extra = draw_byte() % 40; extra > 0 && len < most; extra--)
            bytes[len++] = draw_byte();
    return len;
}

/* ---- rooms: [inaccessible page] [bytes] [inaccessible page] */

#define ROOMS   8
#define FILLING 0xd3
#define NEAR    256             /* how many bytes around a lent buffer are looked at */

static struct {
    uint8_t *first, *lent;
    size_t len;
} rooms[ROOMS];

static size_t room_bytes;

static void make_room(unsigned r)
{
    size_t page = (size_t)sysconf(_SC_PAGESIZE);
    uint8_t *whole;

    room_bytes = (ROOM + page - 1) / page * page;
    whole = mmap(NULL, room_bytes + 2 * page, PROT_NONE, MAP_PRIVATE | MAP_ANONYMOUS, -1, 0);
    if (whole == MAP_FAILED || mprotect(whole + page, room_bytes, PROT_READ | PROT_WRITE) != 0) {
        perror("cannot make the rooms of lent buffers");
        exit(2);
    }
    rooms[r].first = rooms[r].lent = whole + page;
    memset(rooms[r].first, FILLING, room_bytes);
}

uint8_t *lend(unsigned r, const uint8_t *contents, size_t len)
{
    if (rooms[r].first == NULL)
        make_room(r);
    if (len > room_bytes) {
        fprintf(stderr, "no room for %zu bytes\n", len);
        exit(2);
    }
    memset(rooms[r].lent, FILLING, rooms[r].len);
    rooms[r].lent = rooms[r].first + (at_end ? room_bytes - len : 0);
    rooms[r].len = len;
    if (len > 0)
        memcpy(rooms[r].lent, contents, len);
    return rooms[r].lent;
}

static bool filled(const uint8_t *from, const uint8_t *to)
{
    while (from < to && *from == FILLING)
        from++;
    return from == to;
}

bool holds(unsigned r, const uint8_t *contents)
{
    const uint8_t *first = rooms[r].first, *end = first + room_bytes;
    const uint8_t *lent = rooms[r].lent, *after = lent + rooms[r].len;

    return (rooms[r].len == 0 || memcmp(lent, contents, rooms[r].len) == 0)
        && filled(lent - first > NEAR ? lent - NEAR : first, lent)
        && filled(after, end - after > NEAR ? after + NEAR : end);
}
