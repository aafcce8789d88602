/* The calls of notices: records, start, send, and runs of steps. */

#include <string.h>
#include "fuzz.h"
#ifdef WITH_LIBRARY
#include "tumbeliko.h"
#endif

enum { SEND = 4, ECHO = 5, VOTE = 6 };

#define TALES   3
#define STEPS   150

static uint8_t record[ROOM], old_out[200], new_out[200], old_delivery[200], new_delivery[200];

/* ---- records */

void try_read_notice(void)
{
    size_t len = draw_rest(record, 200);
    ref_notice right = ref_read_notice(record, len);

    note(right.number);
    SAME(ref_form_fault(right.number) ? right.offset <= len : right.offset == 0);
#ifdef WITH_LIBRARY
    tumbeliko_notice got = tumbeliko_read_notice(lend(0, record, len), len);

    SAME(got.number == right.number && got.offset == right.offset && got.kind == right.kind && got.length == right.length);
    SAME(holds(0, record));
#endif
}

/* Mostly one that a call takes, often one at a limit. */
static size_t draw_notice(uint8_t *notice, size_t most)
{
    uint8_t drawn = draw_byte();
    size_t len = drawn < 160 ? drawn % (REF_NOTICE + 1u) : drawn < 190 ? 0 : drawn < 250 ? REF_NOTICE + drawn % 3u
                 : random_below((uint32_t)most);

    random_bytes(notice, len);
    return len;
}

void try_write_notice(void)
{
    static uint8_t notice[1000];
    uint32_t kind = draw_byte() < 240 ? 3 + draw_byte() % 5u : draw_number();
    size_t len = draw_notice(notice, sizeof notice), out_len = draw_length(REF_NOTICE_OUT);
    ref_written right;

    random_bytes(old_out, out_len);
    memcpy(new_out, old_out, out_len);
    right = ref_write_notice(kind, notice, len, new_out, out_len);
    note(right.number);
    SAME(ref_form_fault(right.number) || right.offset == 0);
#ifdef WITH_LIBRARY
    tumbeliko_written got = tumbeliko_write_notice(kind, lend(0, notice, len), len, lend(1, old_out, out_len), out_len);

    SAME(got.number == right.number && got.offset == right.offset && got.length == right.length);
    SAME(holds(0, notice) && holds(1, new_out));
#endif
}

void try_notice_send(void)
{
    static uint8_t notice[1000];
    ref_table b = draw_table();
    uint32_t to = draw_byte() < 160 ? 1 + random_below(b.n) : draw_number();
    size_t len = draw_notice(notice, sizeof notice), out_len = draw_length(REF_NOTICE_OUT);
    ref_sized right;

    random_bytes(old_out, out_len);
    memcpy(new_out, old_out, out_len);
    right = ref_notice_send(b.n, b.t, b.sender, notice, len, to, new_out, out_len);
    note(right.number);
#ifdef WITH_LIBRARY
    tumbeliko_sized got = tumbeliko_notice_send(b.n, b.t, b.sender, lend(0, notice, len), len, to,
                                                lend(1, old_out, out_len), out_len);

    SAME(got.number == right.number && got.length == right.length);
    SAME(holds(0, notice) && holds(1, new_out));
#endif
}

/* ---- a board */

static uint8_t state[REF_NOTICE_STATE + 300];   /* the library's; without it, the bytes that a test makes up */
static size_t state_len;
static ref_notice_board board;                  /* the reference's */

static struct {
    uint8_t bytes[REF_NOTICE];
    size_t len;
} tales[TALES];                 /* the second begins the first, or differs in a byte */

#ifdef WITH_LIBRARY
static bool same_words(const ref_word *a, const ref_word *b)
{
    for (int i = 0; i < REF_BOARDS; i++)
        if (a[i].heard != b[i].heard || a[i].length != b[i].length
            || (a[i].heard && memcmp(a[i].bytes, b[i].bytes, a[i].length) != 0))
            return false;
    return true;
}

/* Do the library's bytes stand for the reference's board? */
static bool same_board(const uint8_t *bytes)
{
    static ref_notice_board read;

    ref_notice_decode(bytes, &read);
    return memcmp(&read.table, &board.table, sizeof read.table) == 0 && read.own == board.own
        && read.acquired == board.acquired && read.voted == board.voted && read.done == board.done
        && same_words(read.echo, board.echo) && same_words(read.vote, board.vote);
}
#endif

static uint32_t start_both(ref_table b, uint32_t own)
{
    uint32_t right = ref_notice_start(b.n, b.t, b.sender, own, &board, state_len);

    note(right);
#ifdef WITH_LIBRARY
    uint8_t *lent = lend(0, state, state_len);

    SAME(tumbeliko_notice_start(b.n, b.t, b.sender, own, lent, state_len) == right);
    SAME(right == 0 ? same_board(lent) && memcmp(lent + REF_NOTICE_STATE, state + REF_NOTICE_STATE,
                                                 state_len - REF_NOTICE_STATE) == 0
         : holds(0, state));
    memcpy(state, lent, state_len);
#endif
    return right;
}

void try_notice_start(void)
{
    ref_table b = draw_table();
    uint32_t own = draw_byte() < 230 ? 1 + random_below(b.n) : draw_number();

    state_len = draw_length(REF_NOTICE_STATE);
    random_bytes(state, state_len);
    start_both(b, own);
}

/* Lengths of the buffers beside the state are mostly right. */
static void step_both(uint32_t from, size_t len)
{
    size_t out_len = draw_length(REF_NOTICE_OUT), delivery_len = draw_length(REF_NOTICE);
    ref_stepped right;

    memset(old_out, draw_byte(), sizeof old_out);
    memcpy(new_out, old_out, sizeof new_out);
    memcpy(old_delivery, old_out, sizeof old_delivery);
    memcpy(new_delivery, old_out, sizeof new_delivery);
    right = ref_notice_step(&board, state_len, from, record, len, new_out, out_len, new_delivery, delivery_len);
    note(right.number);
    note_delivery(right.delivery);
    SAME(right.number != 0 || ref_notice_sound(&board));
    SAME(ref_form_fault(right.number) || right.offset == 0);
#ifdef WITH_LIBRARY
    uint8_t *lent = lend(0, state, state_len);
    tumbeliko_stepped got = tumbeliko_notice_step(lent, state_len, from, lend(1, record, len), len,
                                                  lend(2, old_out, out_len), out_len,
                                                  lend(3, old_delivery, delivery_len), delivery_len);

    SAME(got.number == right.number && got.offset == right.offset && got.record_length == right.record_length);
    SAME(got.delivery == right.delivery && got.message_length == right.message_length);
    SAME(right.number == 0 ? same_board(lent) : holds(0, state));
    SAME(holds(1, record) && holds(2, new_out) && holds(3, new_delivery));
    memcpy(state, lent, state_len);
#endif
}

/* A record of one of the tales, damaged or not. */
static size_t draw_told(void)
{
    uint8_t drawn = draw_byte();
    uint32_t tale = draw_byte() % 8 < 6 ? 0 : 1 + drawn % 2u;
    size_t len;

    if (drawn > 252)
        return draw_rest(record, 80);
    len = ref_write_notice(SEND + drawn % 3u, tales[tale].bytes, tales[tale].len, record, REF_NOTICE_OUT).length;
    if (drawn > 225 && drawn < 235)
        record[random_below(3)] = draw_byte();
    if (drawn > 245) {                  /* a notice of 64 to 67 bytes */
        record[2] = (uint8_t)(REF_NOTICE + draw_byte() % 4);
        memset(record + len, draw_byte(), 100);
        return 3 + (size_t)record[2];
    }
    return drawn > 225 ? damage(record, len, 200) : len;
}

/* Mostly from the next board in turn, so that short inputs reach the quorums. */
static void one_step(uint32_t turn)
{
    uint8_t drawn = draw_byte();
    uint32_t n = board.table.n > 0 ? board.table.n : 1, from = 1 + turn % n;
    size_t len;

    if (drawn > 128)
        from = drawn < 240 ? 1 + drawn % n : draw_number();
    len = draw_told();
    if (record[0] == SEND && drawn < 200)
        from = board.table.sender;
    step_both(from, len);
}

static bool start_drawn(void)
{
    static uint8_t room[100];
    ref_table b = draw_good_table();
    uint32_t own = 1 + random_below(b.n);

    b.longest = 0;
    state_len = REF_NOTICE_STATE + draw_byte() % 3u;
    for (int i = 0; i < TALES; i++) {
        tales[i].len = draw_notice(room, sizeof room) % (REF_NOTICE + 1);
        memcpy(tales[i].bytes, room, REF_NOTICE);
    }
    memcpy(tales[1].bytes, tales[0].bytes, REF_NOTICE);
    if (draw_byte() % 2) {
        tales[1].len = tales[0].len;
        tales[1].bytes[random_below(REF_NOTICE)] ^= 1;
    }
    memset(state, 0, sizeof state);
    return start_both(b, own) == 0;
}

void try_notice_steps(void)
{
    if (!start_drawn())
        return;
    for (uint32_t turn = 0; turn < STEPS && more(); turn++)
        one_step(turn);
}

/* ---- states that no run reaches */

/* The reference's words as the library's bytes: what ref_notice_decode reads. */
static void write_words(size_t set, size_t places, const ref_word *words)
{
    for (size_t i = 0; i < REF_BOARDS; i++) {
        if (words[i].heard)
            state[set + 7 - i / 8] |= (uint8_t)(1 << i % 8);
        state[places + 65 * i] = (uint8_t)words[i].length;
        memcpy(state + places + 65 * i + 1, words[i].bytes, REF_NOTICE);
    }
}

static void write_state(void)
{
    memset(state, 0, state_len);
    state[0] = (uint8_t)board.table.n;
    state[1] = (uint8_t)board.table.t;
    state[2] = (uint8_t)board.table.sender;
    state[3] = (uint8_t)board.own;
    state[4] = board.acquired;
    state[5] = board.voted;
    state[6] = board.done;
    write_words(7, 32, board.echo);
    write_words(15, 4192, board.vote);
}

/* Often a flag, the table, where the sets have the lowest boards, a length, or a byte of the lowest boards' rooms. */
static size_t draw_place(void)
{
    size_t low = 65 * (size_t)random_below(8) + 32 + (draw_byte() % 2 ? 4160 : 0);

    switch (draw_byte() % 8) {
    case 0:     return random_below(4);
    case 1:
    case 2:     return 4 + (size_t)random_below(3);
    case 3:     return 14 + 8 * (size_t)random_below(2);
    case 4:     return 7 + (size_t)random_below(16);
    case 5:     return draw_byte() % 2 ? low : 32 + 65 * (size_t)random_below(128);
    case 6:     return low + 1 + random_below(64);
    default:    return random_below(REF_NOTICE_STATE);
    }
}

/* Changes a few bits or bytes of a state of some run, then takes steps over it. */
void try_damaged_notice_state(void)
{
    if (!start_drawn())
        return;
    for (uint32_t turn = draw_byte() % 24; turn > 0; turn--)
        one_step(turn);
    write_state();
    for (uint8_t changes = 1 + draw_byte() % 3; changes > 0; changes--) {
        uint8_t drawn = draw_byte(), *byte = &state[draw_place()];

        *byte = (uint8_t)(drawn < 160 ? *byte ^ 1 << drawn % 8 : draw_byte());
    }
    state_len = draw_length(state_len);
    if (state_len >= REF_NOTICE_STATE)
        ref_notice_decode(state, &board);
    for (uint32_t turn = 0; turn < 4; turn++)
        one_step(turn);
}
