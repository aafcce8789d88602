/* The calls of the board: records, start, send, and runs of steps and of mailboxes. */

#include <string.h>
#include "fuzz.h"
#include "mail.h"
#include "trees.h"
#ifdef WITH_LIBRARY
#include "tumbeliko.h"
#endif

enum { SEND = 1, ECHO = 2, VOTE = 3 };

#define GROVE   2
#define STEPS   150

static uint8_t record[ROOM], old_out[ROOM], new_out[ROOM], old_delivery[ROOM], new_delivery[ROOM];
static tree trees[GROVE];

/* ---- records */

static void read_both(size_t len)
{
    ref_parts right = ref_read_record(record, len);

    note(right.number);
    SAME(ref_form_fault(right.number) ? right.offset <= len : right.offset == 0);
#ifdef WITH_LIBRARY
    tumbeliko_parts got = tumbeliko_read_record(lend(0, record, len), len);

    SAME(got.number == right.number && got.offset == right.offset && got.kind == right.kind);
    SAME(got.nodes == right.nodes && got.fragment_length == right.fragment_length);
    SAME(holds(0, record));
#endif
}

void try_read_record(void)
{
    read_both(draw_rest(record, 1024));
}

/* A record of the form, if the drawn counts allow one. */
static size_t draw_record(void)
{
    uint8_t root[32], path[192 + 32], fragment[600];
    size_t path_len = 32 * (size_t)random_below(8), fragment_len = random_below(sizeof fragment);
    uint32_t kind = draw_byte() % 4;

    random_bytes(root, sizeof root);
    random_bytes(path, path_len);
    random_bytes(fragment, fragment_len);
    if (kind == VOTE)
        path_len = fragment_len = 0;
    return ref_write_record(kind, root, 32, path, path_len, fragment, fragment_len, record, REF_OUT).length;
}

void try_damaged_record(void)
{
    size_t len = draw_record();

    len = damage(record, len, REF_OUT + 100);
    if (draw_byte() > 127)
        change_a_number(record, len);
    read_both(damage(record, len, REF_OUT + 100));
}

void try_write_record(void)
{
    static uint8_t root[64], path[400], fragment[20000];
    uint32_t kind = draw_byte() < 240 ? draw_byte() % 5u : draw_number();
    size_t root_len = draw_length(32), path_len = draw_length(32 * (size_t)(draw_byte() % 8));
    size_t fragment_len = draw_byte() < 220 ? random_below(500) : 16380 + draw_byte() % 12u, out_len = draw_length(REF_OUT);
    ref_written right;

    random_bytes(root, root_len);
    random_bytes(path, path_len);
    random_bytes(fragment, fragment_len);
    random_bytes(old_out, out_len);
    memcpy(new_out, old_out, out_len);
    right = ref_write_record(kind, root, root_len, path, path_len, fragment, fragment_len, new_out, out_len);
    note(right.number);
    SAME(ref_form_fault(right.number) || right.offset == 0);
#ifdef WITH_LIBRARY
    tumbeliko_written got = tumbeliko_write_record(kind, lend(0, root, root_len), root_len, lend(1, path, path_len), path_len,
                                                   lend(2, fragment, fragment_len), fragment_len,
                                                   lend(3, old_out, out_len), out_len);

    SAME(got.number == right.number && got.offset == right.offset && got.length == right.length);
    SAME(holds(0, root) && holds(1, path) && holds(2, fragment) && holds(3, new_out));
#endif
}

/* ---- sender */

void try_send(void)
{
    static uint8_t message[1024];
    ref_table b = draw_table();
    uint32_t to = draw_byte() < 220 ? 1 + random_below(b.n) : draw_number();
    size_t len = random_below(b.longest < 600 ? b.longest + 3 : 600), out_len = draw_length(REF_OUT);
    ref_sized right;

    random_bytes(message, len);
    random_bytes(old_out, out_len);
    memcpy(new_out, old_out, out_len);
    right = ref_send(b.n, b.t, b.sender, b.longest, message, len, to, new_out, out_len);
    note(right.number);
#ifdef WITH_LIBRARY
    tumbeliko_sized got = tumbeliko_send(b.n, b.t, b.sender, b.longest, lend(0, message, len), len, to,
                                         lend(1, old_out, out_len), out_len);

    SAME(got.number == right.number && got.length == right.length);
    SAME(holds(0, message) && holds(1, new_out));
#endif
}

/* ---- a board */

static uint8_t state[ROOM];             /* the library's; without it, the bytes that a test makes up */
static size_t state_len;
static ref_board board;                 /* the reference's */

static size_t state_bytes(ref_table b)
{
    return REF_STATE_HEAD + (size_t)b.n * ref_s_max(b);
}

#ifdef WITH_LIBRARY
/* Do the library's bytes stand for the reference's board? */
static bool same_board(const uint8_t *bytes)
{
    static ref_board read;

    ref_decode(bytes, state_len, &read);
    if (memcmp(&read.table, &board.table, sizeof read.table) != 0 || read.own != board.own
        || read.acquired != board.acquired || read.voted != board.voted || read.output != board.output
        || read.done != board.done || read.echoes != board.echoes || read.usable != board.usable
        || read.votes != board.votes || memcmp(read.kept, board.kept, sizeof read.kept) != 0)
        return false;
    for (uint32_t i = 0; i < board.table.n; i++)
        if ((board.echoes >> i & 1 && (memcmp(read.echo_root[i], board.echo_root[i], 32) != 0
                                       || memcmp(read.fragment[i], board.fragment[i], board.kept[i]) != 0))
            || (board.votes >> i & 1 && memcmp(read.vote_root[i], board.vote_root[i], 32) != 0))
            return false;
    return true;
}
#endif

static uint32_t start_both(ref_table b, uint32_t own)
{
    uint32_t right = ref_start(b.n, b.t, b.sender, b.longest, own, &board, state_len);

    note(right);
#ifdef WITH_LIBRARY
    uint8_t *lent = lend(0, state, state_len);

    SAME(tumbeliko_start(b.n, b.t, b.sender, b.longest, own, lent, state_len) == right);
    SAME(right == 0 ? same_board(lent) && memcmp(lent + REF_STATE_HEAD, state + REF_STATE_HEAD,
                                                 state_len - REF_STATE_HEAD) == 0
         : holds(0, state));
    memcpy(state, lent, state_len);
#endif
    return right;
}

void try_start(void)
{
    ref_table good = draw_good_table(), b = good;
    uint32_t *const numbers[4] = { &b.n, &b.t, &b.sender, &b.longest };
    uint32_t own = draw_byte() < 230 ? 1 + random_below(good.n) : draw_number();

    state_len = draw_length(state_bytes(good));
    if (draw_byte() > 220)
        *numbers[draw_byte() % 4] = draw_number();
    random_bytes(state, state_len);
    start_both(b, own);
}

/* What stands in a buffer that a call may write: one draw, as a run has many calls. */
static void fill(uint8_t *old, uint8_t *new, size_t len)
{
    uint8_t drawn = draw_byte();

    for (size_t i = 0; i < len; i++)
        old[i] = (uint8_t)(drawn + i * i);
    memcpy(new, old, len);
}

/* Lengths of the buffers beside the state are mostly right. */
static void step_both(uint32_t from, size_t len)
{
    size_t out_len = draw_length(REF_OUT), delivery_len = draw_length(board.table.longest % 65536);
    ref_stepped right;

    fill(old_out, new_out, out_len);
    fill(old_delivery, new_delivery, delivery_len);
    right = ref_step(&board, state_len, from, record, len, new_out, out_len, new_delivery, delivery_len);
    note(right.number);
    note_delivery(right.delivery);
    SAME(right.number != 0 || ref_sound(&board));
    SAME(ref_form_fault(right.number) || right.offset == 0);
#ifdef WITH_LIBRARY
    uint8_t *lent = lend(0, state, state_len);
    tumbeliko_stepped got = tumbeliko_step(lent, state_len, from, lend(1, record, len), len,
                                           lend(2, old_out, out_len), out_len,
                                           lend(3, old_delivery, delivery_len), delivery_len);

    SAME(got.number == right.number && got.offset == right.offset && got.record_length == right.record_length);
    SAME(got.delivery == right.delivery && got.message_length == right.message_length);
    SAME(right.number == 0 ? same_board(lent) : holds(0, state));
    SAME(holds(1, record) && holds(2, new_out) && holds(3, new_delivery));
    memcpy(state, lent, state_len);
#endif
}

/* A record of the form whose fragment is longer than s_max. */
static size_t too_long(uint32_t kind, const tree *one)
{
    size_t len = one->s_max + 1 + draw_byte() % 4u;

    return ref_write_record(kind == VOTE ? ECHO : kind, one->root, 32, one->paths, 32 * one->nodes[0], one->area, len,
                            record, REF_OUT).length;
}

/* A record in one of the trees, at the right place or not, damaged or not. */
static size_t draw_tree_record(uint32_t from)
{
    const tree *one = &trees[draw_byte() % 8 == 0];
    uint8_t drawn = draw_byte();
    uint32_t kind = 1 + drawn % 3u, place = kind == SEND ? board.own : from;    /* of a damaged state, perhaps */
    size_t len;

    if (drawn > 240 || place < 1 || place > one->table.n)
        place = 1 + random_below(one->table.n);
    if (drawn > 252)
        return draw_rest(record, 60);
    if (drawn > 249)
        return too_long(kind, one);
    len = tree_record(one, kind, place, record);
    if (drawn > 225 && drawn < 235)
        change_a_number(record, len);
    return drawn > 225 ? damage(record, len, REF_OUT + 100) : len;
}

/* The next record to hand over: mostly from the next board in turn, so that short inputs reach the quorums. */
static size_t draw_next(uint32_t turn, uint32_t *from)
{
    uint8_t drawn = draw_byte();
    size_t len;

    *from = 1 + turn % board.table.n;
    if (drawn > 128)
        *from = drawn < 240 ? 1 + drawn % board.table.n : draw_number();
    len = draw_tree_record(*from);
    if (record[0] == SEND && drawn < 200)
        *from = board.table.sender;
    return len;
}

static void one_step(uint32_t turn)
{
    uint32_t from;
    size_t len = draw_next(turn, &from);

    step_both(from, len);
}

static bool start_drawn(void)
{
    ref_table b = draw_good_table();
    uint32_t own = 1 + random_below(b.n);
    uint8_t message[600];

    state_len = state_bytes(b) + draw_byte() % 3u;
    for (int i = 0; i < GROVE; i++) {
        size_t len = random_below((b.longest < sizeof message ? b.longest : 0) + 1);

        random_bytes(message, len);
        grow_tree(&trees[i], b, (int)random_below(TREE_MANNERS), message, len);
    }
    memset(state, 0, state_len);
    return start_both(b, own) == 0;
}

void try_steps(void)
{
    if (!start_drawn())
        return;
    for (uint32_t turn = 0; turn < STEPS && more(); turn++)
        one_step(turn);
}

/* ---- mailboxes */

#define ANSWERS 300

static uint8_t box[ROOM], old_answers[ANSWERS], new_answers[ANSWERS], old_vote[100], new_vote[100];
static size_t box_len, posted;

/* Lengths of the buffers beside the state are mostly right. */
static void mail_both(void)
{
    size_t answers_len = draw_length(posted), echo_len = draw_length(REF_OUT), vote_len = draw_length(REF_VOTE);
    size_t delivery_len = draw_length(board.table.longest % 65536);
    ref_mailed right;

    fill(old_answers, new_answers, answers_len);
    fill(old_out, new_out, echo_len);
    fill(old_vote, new_vote, vote_len);
    fill(old_delivery, new_delivery, delivery_len);
    right = ref_mailbox(&board, state_len, box, box_len, new_answers, answers_len, new_out, echo_len,
                        new_vote, vote_len, new_delivery, delivery_len);
    note(right.number);
    note_delivery(right.delivery);
    SAME(right.number != 0 || ref_sound(&board));
#ifdef WITH_LIBRARY
    uint8_t *lent = lend(0, state, state_len);
    tumbeliko_mailed got = tumbeliko_mailbox(lent, state_len, lend(1, box, box_len), box_len,
                                             lend(2, old_answers, answers_len), answers_len,
                                             lend(3, old_out, echo_len), echo_len, lend(4, old_vote, vote_len), vote_len,
                                             lend(5, old_delivery, delivery_len), delivery_len);

    SAME(got.number == right.number && got.echo_length == right.echo_length && got.vote_length == right.vote_length);
    SAME(got.delivery == right.delivery && got.message_length == right.message_length);
    SAME(right.number == 0 ? same_board(lent) : holds(0, state));
    SAME(holds(1, box) && holds(2, new_answers) && holds(3, new_out) && holds(4, new_vote) && holds(5, new_delivery));
    memcpy(state, lent, state_len);
#endif
}

static void post(uint32_t from, size_t len)
{
    if (box_len + 3 + len > ROOM || posted > REF_ITEMS)
        return;
    box_len = add_item(box, box_len, (uint8_t)from, record, len);
    posted++;
}

/* A mailbox of up to so many records, at times filled up with empty ones to its most or above, at times damaged.
 * Answers how many it was meant to have. */
static uint32_t one_mailbox(uint32_t turn, uint32_t most)
{
    uint32_t wanted = random_below(most + 1), filled = draw_byte();

    box_len = empty_mailbox(box);
    posted = 0;
    for (uint32_t i = 0; i < wanted; i++) {
        uint32_t from;
        size_t len = draw_next(turn + i, &from);

        post(from, len);
    }
    for (uint32_t i = 0; filled > 250 && i <= REF_ITEMS && posted < REF_ITEMS - 253 + filled; i++)
        post(i, 0);
    box_len = damage(box, box_len, ROOM);
    mail_both();
    return wanted;
}

void try_mailboxes(void)
{
    uint32_t turn = 0;

    if (!start_drawn())
        return;
    for (int calls = 0; calls < 30 && more(); calls++)
        turn += one_mailbox(turn, 24);
}

/* ---- states that no run reaches */

/* The reference's board as the library's bytes: what ref_decode reads. */
static void write_state(void)
{
    const uint64_t sets[3] = { board.echoes, board.usable, board.votes };
    size_t s_max = ref_s_max(board.table);

    memset(state, 0, state_len);
    state[0] = (uint8_t)board.table.n;
    state[1] = (uint8_t)board.table.t;
    state[2] = (uint8_t)board.table.sender;
    state[3] = (uint8_t)board.own;
    state[4] = (uint8_t)(board.table.longest >> 8);
    state[5] = (uint8_t)board.table.longest;
    state[6] = board.acquired;
    state[7] = board.voted;
    state[8] = board.output;
    state[9] = board.done;
    for (int i = 0; i < 24; i++)
        state[10 + i] = (uint8_t)(sets[i / 8] >> (56 - 8 * (i % 8)));
    for (size_t i = 0; i < REF_BOARDS; i++) {
        state[40 + 2 * i] = (uint8_t)(board.kept[i] >> 8);
        state[41 + 2 * i] = (uint8_t)board.kept[i];
        memcpy(state + 256 + 32 * i, board.echo_root[i], 32);
        memcpy(state + 2304 + 32 * i, board.vote_root[i], 32);
        if (i < board.table.n)
            memcpy(state + REF_STATE_HEAD + i * s_max, board.fragment[i], s_max);
    }
}

/* A byte of the state's head: often a flag, the table, or where the sets have the lowest boards. */
static size_t draw_place(void)
{
    switch (draw_byte() % 5) {
    case 0:     return random_below(10);
    case 1:     return 17 + 8 * (size_t)random_below(3);
    case 2:     return 10 + (size_t)random_below(24);
    case 3:     return 40 + (size_t)random_below(128);
    default:    return random_below(REF_STATE_HEAD);
    }
}

/* Changes a few bits or bytes of a state of some run, then takes steps and mailboxes over it. */
void try_damaged_state(void)
{
    if (!start_drawn())
        return;
    for (uint32_t turn = draw_byte() % 24; turn > 0; turn--)
        one_step(turn);
    write_state();
    for (uint8_t changes = 1 + draw_byte() % 3; changes > 0; changes--) {
        uint8_t drawn = draw_byte(), *byte = &state[draw_place()];

        *byte = (uint8_t)(drawn < 160 ? *byte ^ 1 << drawn % 8 : draw_byte());
    }
    state_len = draw_length(state_len);
    if (state_len >= REF_STATE_HEAD)
        ref_decode(state, state_len, &board);
    for (uint32_t turn = 0; turn < 4; turn++) {
        uint32_t from = 1 + random_below(board.table.n);

        if (draw_byte() % 4 == 1 && board.table.n > 0)
            one_mailbox(from, 4);
        else
            step_both(from, draw_tree_record(from));
    }
}
