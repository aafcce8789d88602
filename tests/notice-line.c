/*
 * Whole lines of boards that spread a notice: tests/lines.h says what a run
 * is. What liars tell beside the notice begins it or goes on after it, or
 * differs in one bit, or is empty.
 *
 * Arguments: the number of runs, a seed; -v to name each test.
 */

#include <stdio.h>
#include <string.h>
#include "lines.h"

enum { SEND = 4, ECHO = 5, VOTE = 6 };
enum { DONE = 6 };              /* where a state has this flag */

/* ---- the calls, and what they work on */

static struct {
    uint8_t bytes[REF_NOTICE];
    size_t len;
} tales[TALES];                 /* the notice first, then others */

static unsigned long begun, empty, longest;     /* runs with a notice that begins another; with an empty one, with one of 64 bytes */

static void draw_message(void)
{
    b.longest = REF_NOTICE;
    message_len = random_below(3) ? random_below(REF_NOTICE + 1) : REF_NOTICE * (size_t)random_below(2);
    random_bytes(message, message_len);
    empty += message_len == 0;
    longest += message_len == REF_NOTICE;
}

static void draw_tales(void)
{
    for (int i = 0; i < TALES; i++) {
        memcpy(tales[i].bytes, message, message_len);
        tales[i].len = message_len;
    }
    if (message_len > 0 && random_below(2)) {
        tales[1].len = random_below((uint32_t)message_len);
        begun++;
    } else if (message_len < REF_NOTICE) {
        random_bytes(tales[1].bytes + message_len, REF_NOTICE - message_len);
        tales[1].len = message_len + 1 + random_below((uint32_t)(REF_NOTICE - message_len));
        begun++;
    }
    if (message_len > 0)
        flip_a_bit(tales[2].bytes, message_len);
    tales[3].len = random_below(2) ? 0 : random_below(REF_NOTICE + 1);
    random_bytes(tales[3].bytes, tales[3].len);
}

static size_t state_bytes(void)
{
    return TUMBELIKO_NOTICE_STATE_BYTES;
}

static uint32_t start(uint32_t own, uint8_t *state, size_t state_len)
{
    return tumbeliko_notice_start(b.n, b.t, b.sender, own, state, state_len);
}

static tumbeliko_sized send_to(uint32_t to, uint8_t *out)
{
    return tumbeliko_notice_send(b.n, b.t, b.sender, message, message_len, to, out, REF_NOTICE_OUT);
}

static fault read_notice(const uint8_t *record, size_t record_len)
{
    ref_notice read = ref_read_notice(record, record_len);

    return (fault){ read.number, read.offset };
}

static bool sound(const uint8_t *state, size_t needed)
{
    static ref_notice_board board;

    (void)needed;
    ref_notice_decode(state, &board);
    return ref_notice_sound(&board);
}

static bool late(const uint8_t *state, uint32_t kind)
{
    (void)kind;
    return state[DONE] != 0;
}

static size_t tell(uint32_t which, uint32_t kind, uint32_t place_of, uint8_t *record)
{
    (void)place_of;
    return ref_write_notice(kind, tales[which].bytes, tales[which].len, record, REF_NOTICE_OUT).length;
}

/* More than 64 bytes. */
static size_t too_long(uint32_t which, uint8_t *record)
{
    size_t len = REF_NOTICE + 1 + random_below(20);

    random_bytes(record, 3 + len);
    memcpy(record + 3, tales[which].bytes, tales[which].len);
    record[0] = (uint8_t)(SEND + random_below(3));
    record[1] = 0;
    record[2] = (uint8_t)len;
    return 3 + len;
}

static void change_a_number(uint8_t *record, size_t len)
{
    size_t at = random_below(3);

    if (at < len)
        record[at] = (uint8_t)random_below(random_below(2) ? 10 : 256);
}

/* ---- all runs */

static const uint32_t numbers[] = { 20, 21, 24, 25, 6, 8, 9 };
#define NUMBERS (sizeof numbers / sizeof *numbers)

static void notices_of_all_lengths_and_every_refusal_of_a_record_were_seen(void)
{
    show_figures();
    printf("accepted %lu sends, %lu echoes, %lu votes\n", accepted[1], accepted[2], accepted[3]);
    printf("%lu runs with an empty notice, %lu with one of 64 bytes, %lu with one that begins another\n", empty, longest, begun);
    CHECK(messages > 0 && voids == 0);
    if (runs_wanted < RUNS / 10)
        return;
    CHECK(silent > 0 && empty > 0 && longest > 0 && begun > 0);
    for (size_t i = 0; i < NUMBERS; i++)
        CHECK(refusals[numbers[i]] > 0);
}

int main(int argc, char **argv)
{
    static const test seen[] = { TEST(notices_of_all_lengths_and_every_refusal_of_a_record_were_seen) };
    static const broadcast notices = {
        .deliveries = "notices", .send = SEND, .echo = ECHO, .vote = VOTE, .out_bytes = REF_NOTICE_OUT,
        .numbers = numbers, .number_count = NUMBERS, .voids = false, .both_at_n_1 = true,
        .draw_message = draw_message, .draw_tales = draw_tales, .state_bytes = state_bytes, .start = start,
        .send_to = send_to, .step = tumbeliko_notice_step, .read = read_notice, .sound = sound, .late = late,
        .tell = tell, .too_long = too_long, .change_a_number = change_a_number, .take_with_others = NULL,
    };

    return run_lines(&notices, (group)GROUP("what was seen", seen), argc, argv);
}
