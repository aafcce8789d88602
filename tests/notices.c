#include <string.h>
#include "notices.h"

workplace work;
uint8_t record[ROOM];

/* ---- tables, notices, records */

ref_table random_table(uint32_t most)
{
    ref_table b = { 1 + random_below(most), 0, 0, 0 };

    b.t = random_below(2) ? (b.n - 1) / 3 : random_below((b.n - 1) / 3 + 1);
    b.sender = 1 + random_below(b.n);
    return b;
}

notice random_notice(uint32_t length)
{
    notice one = { length, { 0 } };

    random_bytes(one.bytes, length);
    return one;
}

bool same_notice(notice a, notice b)
{
    return a.length == b.length && memcmp(a.bytes, b.bytes, a.length) == 0;
}

size_t notice_record(uint32_t kind, notice one, uint8_t *to)
{
    to[KIND_AT] = (uint8_t)kind;
    to[COUNT_AT] = 0;
    to[COUNT_AT + 1] = (uint8_t)one.length;
    memcpy(to + NOTICE_AT, one.bytes, one.length);
    return NOTICE_AT + one.length;
}

/* ---- a state's bytes */

void fresh(uint8_t *state, ref_table b, uint32_t own)
{
    memset(state, 0, STATE);
    state[0] = (uint8_t)b.n;
    state[1] = (uint8_t)b.t;
    state[2] = (uint8_t)b.sender;
    state[3] = (uint8_t)own;
}

uint8_t *place_of(uint8_t *state, uint32_t kind, uint32_t from)
{
    return state + (kind == ECHO ? ECHO_PLACES : VOTE_PLACES) + PLACE * (from - 1);
}

static void put_set(uint8_t *at, const ref_word words[REF_BOARDS])
{
    memset(at, 0, 8);
    for (uint32_t i = 0; i < REF_BOARDS; i++)
        if (words[i].heard)
            at[7 - i / 8] |= (uint8_t)(1 << i % 8);
}

void put_step(uint8_t *state, const ref_notice_board *after, uint32_t kind, uint32_t i)
{
    const ref_word *word = kind == ECHO ? &after->echo[i] : &after->vote[i];

    state[ACQUIRED] = after->acquired;
    state[VOTED] = after->voted;
    state[DONE] = after->done;
    put_set(state + ECHOES, after->echo);
    put_set(state + VOTES, after->vote);
    if (kind != SEND) {
        uint8_t *place = place_of(state, kind, i + 1);

        place[0] = (uint8_t)word->length;
        memcpy(place + 1, word->bytes, word->length);
    }
}

/* ---- the board in `work` */

void begin(uint32_t n, uint32_t t, uint32_t sender, uint32_t own)
{
    ref_table b = { n, t, sender, 0 };
    uint32_t length = random_below(3) ? random_below(REF_NOTICE + 1) : REF_NOTICE * random_below(2);

    work.b = b;
    work.own = own;
    fresh(work.state, b, own);
    work.said[0] = random_notice(length);
    work.said[1] = work.said[0];
    work.said[1].length = length > 0 ? random_below(length) : 1;
    work.said[2] = work.said[0];
    if (length > 0)
        flip_a_bit(work.said[2].bytes, length);
    else
        work.said[2] = random_notice(1 + random_below(REF_NOTICE));
    work.said[3] = random_notice(0);
}

void begin_random(uint32_t most)
{
    ref_table b = random_table(most);

    begin(b.n, b.t, b.sender, 1 + random_below(b.n));
}

/* ---- a state put together by hand */

void set_flags(uint8_t acquired, uint8_t voted, uint8_t done)
{
    work.state[ACQUIRED] = acquired;
    work.state[VOTED] = voted;
    work.state[DONE] = done;
}

void add(size_t set, uint32_t from)
{
    work.state[set + 7 - (from - 1) / 8] |= (uint8_t)(1 << (from - 1) % 8);
}

/* As if the echo or the vote of `from` for this notice had been heard. */
void heard(uint32_t kind, uint32_t from, notice one)
{
    uint8_t *place = place_of(work.state, kind, from);

    add(kind == ECHO ? ECHOES : VOTES, from);
    place[0] = (uint8_t)one.length;
    memcpy(place + 1, one.bytes, one.length);
}

bool sound_now(void)
{
    static ref_notice_board board;

    ref_notice_decode(work.state, &board);
    return ref_notice_sound(&board);
}

void fill_free_bytes(void)
{
    random_bytes(work.state + SPARE, ECHO_PLACES - SPARE);
    for (uint32_t kind = ECHO; kind <= VOTE; kind++)
        for (uint32_t from = 1; from <= REF_BOARDS; from++) {
            uint8_t *place = place_of(work.state, kind, from);

            if (place[0] <= REF_NOTICE)
                random_bytes(place + 1 + place[0], (size_t)REF_NOTICE - place[0]);
        }
}

static uint8_t some_flag(bool set)
{
    return (uint8_t)(set ? 1 + random_below(255) : 0);
}

void random_sound_state(int stage)
{
    static uint8_t before[STATE];
    uint32_t n = work.b.n, chance = 1 + random_below(10);

    fresh(work.state, work.b, work.own);
    set_flags(some_flag(random_below(2)), some_flag(stage >= AFTER_VOTE), some_flag(stage == AFTER_DONE));
    for (uint32_t i = 0, first = random_below(n); i < 2 * n; i++) {
        notice one = work.said[random_below(10) < 7 ? 0 : random_below(SAID)];

        if (random_below(10) >= chance)
            continue;
        memcpy(before, work.state, STATE);
        heard(i < n ? ECHO : VOTE, 1 + (first + i) % n, one);
        if (!sound_now())
            memcpy(work.state, before, STATE);
    }
    fill_free_bytes();
}

/* ---- states that are not sound */

static void all_say(uint32_t kind, uint32_t first, uint32_t last)
{
    for (uint32_t from = first; from <= last; from++)
        heard(kind, from, work.said[0]);
}

void make_unsound(int way)
{
    uint8_t *state = work.state;
    notice longest = random_notice(REF_NOTICE);

    switch (way) {
    case 0: state[0] = 0; break;                        /* the table and the own number */
    case 1: state[0] = 65; break;
    case 2: state[0] = 255; break;
    case 3: state[0] = 3; break;                        /* 3t is n */
    case 4: state[1] = 2; break;
    case 5: state[1] = 86; break;                       /* 3t is 2 modulo 256 */
    case 6: state[2] = 0; break;
    case 7: state[2] = 5; break;
    case 8: state[2] = 255; break;
    case 9: state[3] = 0; break;
    case 10: state[3] = 5; break;
    case 11: state[3] = 255; break;
    case 12: add(ECHOES, 5); break;                     /* the sets */
    case 13: add(ECHOES, 64); break;
    case 14: add(VOTES, 5); break;
    case 15: add(VOTES, 64); break;
    case 16: set_flags(0, 0, 1); break;                 /* done without a vote */
    case 17: set_flags(1, 0, 255); break;
    case 18: *place_of(state, ECHO, 4) = 1; break;      /* lengths of boards not heard */
    case 19: *place_of(state, ECHO, 5) = 1; break;
    case 20: *place_of(state, ECHO, 64) = 64; break;
    case 21: *place_of(state, VOTE, 4) = 1; break;
    case 22: *place_of(state, VOTE, 5) = 65; break;
    case 23: *place_of(state, VOTE, 64) = 255; break;
    case 24: heard(ECHO, 4, longest), *place_of(state, ECHO, 4) = 65; break;        /* lengths above 64 */
    case 25: heard(ECHO, 1, longest), *place_of(state, ECHO, 1) = 255; break;
    case 26: heard(VOTE, 4, longest), *place_of(state, VOTE, 4) = 65; break;
    case 27: heard(VOTE, 1, longest), *place_of(state, VOTE, 1) = 128; break;
    case 28: set_flags(0, 0, 0), all_say(ECHO, 1, 3); break;        /* overdue: n-t echoes, */
    case 29: set_flags(1, 0, 0), all_say(ECHO, 2, 4); break;
    case 30: set_flags(0, 0, 0), all_say(VOTE, 3, 4); break;        /* t+1 votes, */
    case 31: set_flags(0, 1, 0), all_say(VOTE, 1, 3); break;        /* n-t votes */
    case 32: set_flags(0, 9, 0), all_say(VOTE, 1, 4); break;
    }
}

/* ---- what may come in */

size_t random_record(uint32_t from)
{
    notice one = work.said[random_below(4) ? 0 : random_below(SAID)];
    uint32_t kind = from == work.b.sender && random_below(4) == 0 ? SEND : ECHO + random_below(2);
    size_t len;

    if (random_below(30) == 0)
        kind = SEND;
    len = notice_record(kind, one, record);
    switch (random_below(24)) {
    case 0:
        flip_a_bit(record, len);
        break;
    case 1:
        len = random_below((uint32_t)len);
        break;
    case 2:
        record[len++] = (uint8_t)random_below(256);
        break;
    case 3:                                     /* longer than a notice may be */
        random_bytes(record + NOTICE_AT, 100);
        record[COUNT_AT + 1] = (uint8_t)(REF_NOTICE + 1 + random_below(36));
        len = NOTICE_AT + record[COUNT_AT + 1];
        break;
    case 4:                                     /* another kind or count */
        record[random_below(3)] = (uint8_t)random_below(random_below(2) ? 10 : 256);
        break;
    case 5:                                     /* the other broadcast's kind */
        record[KIND_AT] = (uint8_t)(kind - 3);
        break;
    }
    return len;
}
