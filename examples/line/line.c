/* The boards that keep the rules, and the run. */

#include <stdio.h>
#include <stdlib.h>
#include <string.h>
#include "line.h"

#define WAIT_AFTER_LOSS 12000   /* until a lost record is put out again */
#define REPEATED_ONE_IN 14

scenario play;
board line[BOARDS];
figures seen;

bool keeps(uint32_t number)
{
    return play.behaves[number - 1] == KEEPS;
}

static bool runs_steps(uint32_t number)
{
    return keeps(number) || play.behaves[number - 1] == FAILS;
}

bool same_as_file(const board *one)
{
    return one->delivery == TUMBELIKO_DELIVERY_MESSAGE && one->length == play.file_len
        && memcmp(one->delivered, play.file, play.file_len) == 0;
}

void must_not_be_refused(const char *what, uint32_t number)
{
    if (number != TUMBELIKO_OK) {
        fprintf(stderr, "line: %s was refused with %u\n", what, number);
        exit(1);
    }
}

/* ---- start and send */

/* A sender that fails does so when it has put out from half to nearly all of its sends. */
static uint64_t drawn_stop(uint32_t number)
{
    uint32_t half = (play.n + 1) / 2;

    if (number == SENDER)
        return (half + random_below(play.n - half)) * put_out_gap();
    return 15000 + random_below(40000);
}

static void start_all(void)
{
    for (uint32_t own = 1; own <= play.n; own++) {
        board *one = &line[own - 1];

        one->state_len = state_bytes();
        one->state = room_for(one->state_len);
        must_not_be_refused("the start", start_board(own, one->state, one->state_len));
        one->echoed_at = one->voted_at = one->delivered_at = one->stops_at = NEVER;
        if (play.behaves[own - 1] == FAILS)
            one->stops_at = drawn_stop(own);
    }
}

static void send_all(void)
{
    static uint8_t out[TUMBELIKO_OUT_BYTES];
    uint32_t first = random_below(play.n);

    for (uint32_t i = 0; i < play.n && i * put_out_gap() < line[SENDER - 1].stops_at; i++) {
        uint32_t to = 1 + (first + i) % play.n;
        tumbeliko_sized sent = send_record(play.file, play.file_len, to, out, sizeof out);

        must_not_be_refused("the sender's record", sent.number);
        put_out_one(SENDER, to, kept(out, sent.length), sent.length, true, i * put_out_gap());
    }
}

/* ---- what handing over leaves */

/* The number that a record got from its receiver. */
void note_answer(letter *which, uint32_t number)
{
    board *receiver = &line[which->to - 1];

    which->answer = number;
    which->fate = number == TUMBELIKO_OK ? TAKEN : REFUSED;
    which->due = now;
    seen.handed++;
    seen.answers[number % TUMBELIKO_NUMBERS]++;
    receiver->steps++;
    if (number == TUMBELIKO_OK) {
        receiver->heard[sort_of(which->bytes, which->len)]++;
        receiver->taken_step = seen.handed;
    } else {
        receiver->refused++;
    }
}

/* A record that a board puts out, to all boards, this one too. */
void put_out_to_all(uint32_t from, const uint8_t *out, size_t len)
{
    const uint8_t *bytes = kept(out, len);
    uint32_t first = random_below(play.n);
    uint64_t when = now;

    for (uint32_t i = 0; i < play.n; i++, when += put_out_gap())
        if (when < line[from - 1].stops_at)
            put_out_one(from, 1 + (first + i) % play.n, bytes, len, true, when);
    if (sort_of(out, len) == TUMBELIKO_ECHO)
        line[from - 1].echoed_at = now;
    else
        line[from - 1].voted_at = now;
}

/* No record is taken after a delivery, so the last one taken brought it. */
void deliver(board *one, uint32_t delivery, size_t length, const uint8_t *bytes)
{
    one->delivery = delivery;
    one->delivered_at = now;
    one->delivered_step = one->taken_step;
    one->length = length;
    one->delivered = memcpy(room_for(length), bytes, length);
}

/* Hands one record over, by a step. */
static void hand_over(letter *which)
{
    static uint8_t out[TUMBELIKO_OUT_BYTES], delivery[LONGEST];
    uint32_t own = which->to;
    board *receiver = &line[own - 1];
    tumbeliko_stepped did = step_board(receiver, which, out, sizeof out, delivery, sizeof delivery);

    seen.calls++;
    note_answer(which, did.number);
    if (did.delivery != TUMBELIKO_DELIVERY_NONE)
        deliver(receiver, did.delivery, did.message_length, delivery);
    if (did.record_length > 0)
        put_out_to_all(own, out, did.record_length);
}

/* ---- the run */

/* A record of a board that keeps the rules is put out again until it gets through. */
static void lose(letter *which)
{
    letter one = *which;
    uint64_t later = now + WAIT_AFTER_LOSS;

    which->fate = LOST;
    seen.lost++;
    if (one.genuine && later < line[one.from - 1].stops_at)
        put_again(&one, later);
}

static void arrive(letter *which)
{
    letter one = *which;

    if (one.from != one.to && random_below(100) < play.loss) {
        lose(which);
        return;
    }
    if (!runs_steps(one.to) || now >= line[one.to - 1].stops_at) {
        which->fate = UNHEARD;
        hears_and_lies(&one);
        return;
    }
    if (play.poll > 0)
        drop_into_mailbox(which);
    else
        hand_over(which);
    if (!one.again && random_below(REPEATED_ONE_IN) == 0 && now < line[one.from - 1].stops_at) {
        put_again(&one, now);
        seen.repeated++;
    }
}

void run_line(void)
{
    start_all();
    if (runs_steps(SENDER))
        send_all();
    else
        send_lies();
    while (next_due() != NEVER || next_poll() != NEVER)
        if (next_poll() <= next_due())
            empty_next_mailbox();
        else
            arrive(next_letter());
}
