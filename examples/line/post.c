/*
 * Records on their way. A board puts out its records one after the other;
 * each takes its own time, so they are handed over in any order. The random
 * numbers are the same for the same seed, whatever the file.
 */

#include <stdio.h>
#include <stdlib.h>
#include <string.h>
#include "line.h"

#define WHOLE_ROUND 7000        /* one record for each board, put out one after the other */
#define QUICKEST    9000
#define SLOWEST     26000

letter *post;
size_t posted;
uint64_t now;

static size_t room, *heap, waiting;     /* the letters on their way, the next one first */

uint32_t random_below(uint32_t limit)
{
    static uint64_t drawn;
    uint64_t z = drawn += 0x9e3779b97f4a7c15u;

    z += play.seed * 0xd1342543de82ef95u;
    z = (z ^ z >> 30) * 0xbf58476d1ce4e5b9u;
    z = (z ^ z >> 27) * 0x94d049bb133111ebu;
    return (uint32_t)((z >> 32) * limit >> 32);
}

static void *or_stop(void *memory)
{
    if (memory == NULL) {
        fprintf(stderr, "line: no memory\n");
        exit(2);
    }
    return memory;
}

void *room_for(size_t bytes)
{
    return or_stop(malloc(bytes > 0 ? bytes : 1));
}

/* A copy that stays to the end. */
const uint8_t *kept(const uint8_t *bytes, size_t len)
{
    return memcpy(room_for(len), bytes, len);
}

static bool sooner(size_t a, size_t b)
{
    return post[a].due != post[b].due ? post[a].due < post[b].due : a < b;
}

static void enter(size_t which)
{
    size_t at = waiting++;

    for (; at > 0 && sooner(which, heap[(at - 1) / 2]); at = (at - 1) / 2)
        heap[at] = heap[(at - 1) / 2];
    heap[at] = which;
}

static size_t leave(void)
{
    size_t first = heap[0], last = heap[--waiting], at = 0;

    for (;;) {
        size_t down = 2 * at + 1;

        if (down + 1 < waiting && sooner(heap[down + 1], heap[down]))
            down++;
        if (down >= waiting || !sooner(heap[down], last))
            break;
        heap[at] = heap[down];
        at = down;
    }
    heap[at] = last;
    return first;
}

static void add(letter one)
{
    if (posted == room) {
        room = room == 0 ? 1000 : 2 * room;
        post = or_stop(realloc(post, room * sizeof *post));
        heap = or_stop(realloc(heap, room * sizeof *heap));
    }
    one.fate = ON_ITS_WAY;
    post[posted] = one;
    enter(posted++);
}

uint64_t put_out_gap(void)
{
    return WHOLE_ROUND / play.n;
}

/* The bytes must stay to the end. */
void put_out_one(uint32_t from, uint32_t to, const uint8_t *bytes, size_t len, bool genuine, uint64_t when)
{
    letter one = { from, to, bytes, len, genuine, false, when, 0, ON_ITS_WAY, 0 };
    uint32_t takes = QUICKEST + random_below(SLOWEST - QUICKEST);

    one.due = when + (from == to ? takes / 4 : takes);
    if (keeps(from)) {
        seen.records++;
        seen.bytes += len;
    } else {
        seen.other_records++;
        seen.other_bytes += len;
    }
    add(one);
}

/* The same record once more: no new one is put out. */
void put_again(const letter *one, uint64_t when)
{
    letter more = *one;

    more.again = true;
    more.put_out = when;
    more.due = when + QUICKEST + random_below(SLOWEST - QUICKEST);
    add(more);
}

uint64_t next_due(void)
{
    return waiting == 0 ? NEVER : post[heap[0]].due;
}

/* The next record to arrive, or NULL. It stays in place until the next call that adds one. */
letter *next_letter(void)
{
    letter *one;

    if (waiting == 0)
        return NULL;
    one = &post[leave()];
    now = one->due;
    return one;
}
