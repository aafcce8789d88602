#include <string.h>
#include "harness.h"
#include "states.h"

workplace work;
uint8_t record[ROOM];

static uint8_t data[ROOM];

/* ---- tables */

table make_table(uint32_t n, uint32_t t, uint32_t sender, uint32_t longest)
{
    table b = { n, t, sender, longest };

    return b;
}

table random_table(uint32_t most, uint32_t longest)
{
    table b;

    b.n = 1 + random_below(most);
    b.t = random_below(2) ? (b.n - 1) / 3 : random_below((b.n - 1) / 3 + 1);
    b.sender = 1 + random_below(b.n);
    b.longest = random_below(longest + 1);
    return b;
}

size_t state_bytes(table b)
{
    return HEAD + (size_t)b.n * ref_s_max(b);
}

/* ---- a state's bytes */

void fresh(uint8_t *state, table b, uint32_t own)
{
    memset(state, 0, HEAD);
    state[0] = (uint8_t)b.n;
    state[1] = (uint8_t)b.t;
    state[2] = (uint8_t)b.sender;
    state[3] = (uint8_t)own;
    state[4] = (uint8_t)(b.longest >> 8);
    state[5] = (uint8_t)b.longest;
}

static void put_set(uint8_t *at, uint64_t set)
{
    for (int j = 0; j < 8; j++)
        at[j] = (uint8_t)(set >> (56 - 8 * j));
}

void put_length(uint8_t *state, uint32_t i, uint32_t length)
{
    state[LENGTHS + 2 * i] = (uint8_t)(length >> 8);
    state[LENGTHS + 2 * i + 1] = (uint8_t)length;
}

void put_step(uint8_t *state, const ref_board *after, uint32_t kind, uint32_t i, const uint8_t *got)
{
    const bool flags[4] = { after->acquired, after->voted, after->output, after->done };

    for (int f = 0; f < 4; f++)
        state[ACQUIRED + f] = (got[ACQUIRED + f] != 0) == flags[f] ? got[ACQUIRED + f] : flags[f];
    put_set(state + ECHOES, after->echoes);
    put_set(state + USABLE, after->usable);
    put_set(state + VOTES, after->votes);
    if (kind == ECHO) {
        put_length(state, i, after->kept[i]);
        memcpy(state + ECHO_ROOTS + 32 * i, after->echo_root[i], 32);
        memcpy(state + HEAD + i * ref_s_max(after->table), after->fragment[i], after->kept[i]);
    }
    if (kind == VOTE)
        memcpy(state + VOTE_ROOTS + 32 * i, after->vote_root[i], 32);
}

/* ---- the board in `work` */

void begin(table b, uint32_t own, size_t message_len)
{
    work.b = b;
    work.own = own;
    work.s_max = ref_s_max(b);
    work.k = ref_k(b);
    work.len = state_bytes(b);
    work.favourite = 0;
    work.message_len = message_len;
    random_bytes(work.message, message_len);
    random_bytes(work.state, work.len);
    fresh(work.state, b, own);
    grow_tree(&work.trees[0], b, MESSAGE_TREE, work.message, message_len);
}

void begin_random(uint32_t most, uint32_t longest)
{
    table b = random_table(most, longest);
    uint32_t own = 1 + random_below(b.n);

    begin(b, own, random_below(b.longest + 1));
    for (int i = 1; i < GROVE; i++) {
        uint8_t other[64];
        size_t len = random_below((b.longest < 64 ? b.longest : 64) + 1);

        random_bytes(other, len);
        grow_tree(&work.trees[i], b, (int)random_below(TREE_MANNERS), other, len);
    }
}

/* ---- a state put together by hand */

void add(size_t set, uint32_t from)
{
    work.state[set + 7 - (from - 1) / 8] |= (uint8_t)(1 << (from - 1) % 8);
}

void set_flags(uint8_t acquired, uint8_t voted, uint8_t output, uint8_t done)
{
    work.state[ACQUIRED] = acquired;
    work.state[VOTED] = voted;
    work.state[OUTPUT] = output;
    work.state[DONE] = done;
}

/* As if the echo of `from` with this root and that fragment had been heard. */
void heard_echo(uint32_t from, const uint8_t *root, const uint8_t *fragment, uint32_t length, bool usable)
{
    add(ECHOES, from);
    if (usable)
        add(USABLE, from);
    put_length(work.state, from - 1, length);
    memcpy(work.state + ECHO_ROOTS + 32 * (from - 1), root, 32);
    memcpy(work.state + HEAD + (from - 1) * work.s_max, fragment, length);
}

void heard_echo_of(const tree *one, uint32_t from, bool usable)
{
    heard_echo(from, one->root, one->area + (from - 1) * one->s_max, one->lengths[from - 1], usable);
}

void heard_vote(uint32_t from, const uint8_t *root)
{
    add(VOTES, from);
    memcpy(work.state + VOTE_ROOTS + 32 * (from - 1), root, 32);
}

bool sound_now(void)
{
    static ref_board board;

    ref_decode(work.state, work.len, &board);
    return ref_sound(&board);
}

static uint8_t some_flag(bool set)
{
    return (uint8_t)(set ? 1 + random_below(255) : 0);
}

void random_sound_state(int stage)
{
    static uint8_t before[HEAD];
    uint32_t n = work.b.n, chance = 1 + random_below(10), favourite = random_below(GROVE);

    work.favourite = favourite;
    random_bytes(work.state, work.len);
    memcpy(before, work.state, HEAD);
    fresh(work.state, work.b, work.own);
    memcpy(work.state + 34, before + 34, 6);                    /* spare */
    memcpy(work.state + 168, before + 168, HEAD - 168);         /* spare, and roots */
    work.state[ACQUIRED] = some_flag(random_below(2));
    work.state[VOTED] = some_flag(stage >= AFTER_VOTE);
    work.state[OUTPUT] = some_flag(stage >= OUTPUT_STAGE);
    work.state[DONE] = some_flag(stage == AFTER_DONE);
    if (stage == OUTPUT_STAGE)
        for (uint32_t i = 0, first = random_below(n); i < n - work.b.t; i++)
            heard_vote(1 + (first + i) % n, work.trees[favourite].root);
    for (uint32_t i = 0, first = random_below(n); i < 2 * n; i++) {
        uint32_t from = 1 + (first + i) % n, which = random_below(10) < 7 ? favourite : random_below(GROVE);
        const tree *one = &work.trees[which], *other = random_below(6) ? one : &work.trees[random_below(GROVE)];

        if (random_below(10) >= chance)
            continue;
        memcpy(before, work.state, HEAD);
        if (i < n)
            heard_echo(from, one->root, other->area + (from - 1) * other->s_max, other->lengths[from - 1],
                       random_below(6) != 0);
        else if (!(work.state[VOTES + 7 - (from - 1) / 8] >> (from - 1) % 8 & 1))
            heard_vote(from, one->root);
        if (!sound_now())
            memcpy(work.state, before, HEAD);
    }
}

size_t random_record(uint32_t from)
{
    const tree *one = &work.trees[random_below(4) ? work.favourite : random_below(GROVE)];
    uint32_t kind = from == work.b.sender && random_below(4) == 0 ? SEND : ECHO + random_below(2), at = from;
    size_t len;

    if (random_below(30) == 0)
        kind = SEND;
    if (kind == SEND)
        at = work.own;
    if (random_below(15) == 0)
        at = 1 + random_below(work.b.n);
    if (from < 1 || from > work.b.n)
        at = 1;
    len = tree_record(one, kind, at, record);
    switch (random_below(24)) {
    case 0:
        flip_a_bit(record, len);
        break;
    case 1:
        len = random_below((uint32_t)len);
        break;
    case 2:
        record[len++] = (uint8_t)random_below(256);
        break;
    case 3:                                     /* longer than s_max */
        random_bytes(data, work.s_max + 20);
        if (kind != VOTE && work.s_max + 20 <= REF_FRAGMENT)
            len = ref_write_record(kind, one->root, 32, one->paths, 32 * one->nodes[0], data,
                                   work.s_max + 1 + random_below(20), record, REF_OUT).length;
        break;
    case 4:                                     /* a path of another count */
        random_bytes(data, 192);
        if (kind != VOTE)
            len = ref_write_record(kind, one->root, 32, data, 32 * random_below(7),
                                   one->area + (at - 1) * one->s_max, one->lengths[at - 1], record, REF_OUT).length;
        break;
    case 5:                                     /* another kind or count */
        change_a_number(record, len);
        break;
    }
    return len;
}

void open_output_stage(const uint8_t *root)
{
    set_flags(1, 1, 1, 0);
    for (uint32_t from = 1; from <= work.b.n; from++)
        heard_vote(from, root);
    CHECK(sound_now());
}

/* ---- states that are not sound */

void make_unsound(int way)
{
    uint8_t *state = work.state;
    const uint8_t *root = work.trees[0].root;

    switch (way) {
    case 0: state[0] = 0; break;                        /* the table and the own number */
    case 1: state[0] = 65; break;
    case 2: state[1] = 2; break;
    case 3: state[1] = 86; break;
    case 4: state[2] = 0; break;
    case 5: state[2] = 5; break;
    case 6: state[3] = 0; break;
    case 7: state[3] = 5; break;
    case 8: state[4] = 0x40, state[5] = 1; break;
    case 9: state[4] = 0xff; break;
    case 10: add(VOTES, 5); break;                      /* the sets */
    case 11: add(VOTES, 64); break;
    case 12: add(ECHOES, 5), put_length(state, 4, 1); break;
    case 13: add(ECHOES, 64), put_length(state, 63, 1); break;
    case 14: add(USABLE, 64), add(ECHOES, 64), put_length(state, 63, 1); break;
    case 15: add(USABLE, 1); break;
    case 16: add(USABLE, 4), heard_echo_of(&work.trees[0], 3, true); break;
    case 17: set_flags(1, 0, 1, 0); break;              /* the flags */
    case 18: set_flags(0, 0, 1, 1); break;
    case 19: set_flags(0, 1, 0, 1); break;
    case 20: set_flags(0, 0, 0, 1); break;
    case 21: put_length(state, 3, 1); break;            /* the lengths */
    case 22: put_length(state, 4, 1); break;
    case 23: put_length(state, 63, 256); break;
    case 24: heard_echo_of(&work.trees[0], 4, false), put_length(state, 3, 0); break;
    case 25: heard_echo_of(&work.trees[0], 4, true), put_length(state, 3, work.s_max + 1); break;
    case 26:                                            /* overdue: n-t echoes */
        set_flags(0, 0, 0, 0);
        for (uint32_t from = 1; from <= 3; from++)
            heard_echo_of(&work.trees[0], from, false);
        break;
    case 27:                                            /* t+1 votes */
        set_flags(0, 0, 0, 0);
        heard_vote(1, root);
        heard_vote(4, root);
        break;
    case 28:                                            /* n-t votes */
        set_flags(0, 1, 0, 0);
        for (uint32_t from = 1; from <= 3; from++)
            heard_vote(from, root);
        break;
    case 29:                                            /* no root with n-t votes */
        set_flags(0, 1, 1, 0);
        memset(state + VOTES, 0, 8);
        heard_vote(1, root);
        heard_vote(2, root);
        break;
    case 30:                                            /* k usable echoes */
        set_flags(0, 1, 1, 0);
        for (uint32_t from = 1; from <= 3; from++)
            heard_vote(from, root);
        heard_echo_of(&work.trees[0], 1, true);
        heard_echo_of(&work.trees[0], 4, true);
        break;
    }
}

/* ---- boards side by side */

bool same_board(const ref_board *a, const ref_board *b)
{
    bool same = memcmp(&a->table, &b->table, sizeof a->table) == 0 && a->own == b->own && a->acquired == b->acquired
                && a->voted == b->voted && a->output == b->output && a->done == b->done && a->echoes == b->echoes
                && a->usable == b->usable && a->votes == b->votes;

    for (uint32_t i = 0; i < REF_BOARDS; i++) {
        same = same && a->kept[i] == b->kept[i];
        if (a->echoes >> i & 1)
            same = same && memcmp(a->echo_root[i], b->echo_root[i], 32) == 0
                   && memcmp(a->fragment[i], b->fragment[i], a->kept[i]) == 0;
        if (a->votes >> i & 1)
            same = same && memcmp(a->vote_root[i], b->vote_root[i], 32) == 0;
    }
    return same;
}
