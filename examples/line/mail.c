/*
 * The boards' mailboxes. A record that arrives waits in its receiver's
 * mailbox; at each of its polls a board hands over all that wait there, by
 * one call. Firmware does the same with what its bus has gathered.
 */

#include <stdlib.h>
#include <string.h>
#include "line.h"

/* Which letters wait, by their places in post[], and when the board looks for them. */
static struct {
    size_t letters[TUMBELIKO_ITEMS_MAX], count;
    uint64_t due;
} boxes[BOARDS];

/* The boards look one after the other, each from a time of its own on. */
static uint64_t poll_after(uint32_t own, uint64_t when)
{
    uint64_t first = (own - 1) * play.poll / play.n;

    return when < first ? first : first + ((when - first) / play.poll + 1) * play.poll;
}

/* ---- a mailbox as the call takes it */

static uint8_t *put_two(uint8_t *to, size_t number)
{
    to[0] = (uint8_t)(number >> 8);
    to[1] = (uint8_t)number;
    return to + 2;
}

static size_t bytes_of_mailbox(uint32_t own)
{
    size_t record_bytes = 0;

    for (size_t i = 0; i < boxes[own - 1].count; i++)
        record_bytes += post[boxes[own - 1].letters[i]].len;
    return TUMBELIKO_MAILBOX_BYTES(boxes[own - 1].count, record_bytes);
}

/* The count, then for each item its board, its length and its record. */
static void write_mailbox(uint32_t own, uint8_t *to)
{
    to = put_two(to, boxes[own - 1].count);
    for (size_t i = 0; i < boxes[own - 1].count; i++) {
        const letter *one = &post[boxes[own - 1].letters[i]];

        *to++ = (uint8_t)one->from;
        to = put_two(to, one->len);
        memcpy(to, one->bytes, one->len);
        to += one->len;
    }
}

/* ---- emptying it */

static void hand_all_over(uint32_t own)
{
    static uint8_t answers[TUMBELIKO_ITEMS_MAX], echo[TUMBELIKO_OUT_BYTES], vote[TUMBELIKO_VOTE_BYTES], delivery[LONGEST];
    board *receiver = &line[own - 1];
    size_t len = bytes_of_mailbox(own);
    uint8_t *mailbox = room_for(len);
    tumbeliko_mailed did;

    write_mailbox(own, mailbox);
    did = tumbeliko_mailbox(receiver->state, receiver->state_len, mailbox, len, answers, sizeof answers,
                            echo, sizeof echo, vote, sizeof vote, delivery, sizeof delivery);
    free(mailbox);
    must_not_be_refused("a mailbox", did.number);
    seen.calls++;
    for (size_t i = 0; i < boxes[own - 1].count; i++)
        note_answer(&post[boxes[own - 1].letters[i]], answers[i]);
    if (did.delivery != TUMBELIKO_DELIVERY_NONE)
        deliver(receiver, did.delivery, did.message_length, delivery);
    if (did.echo_length > 0)
        put_out_to_all(own, echo, did.echo_length);
    if (did.vote_length > 0)
        put_out_to_all(own, vote, did.vote_length);
}

/* What waits at a board that has stopped meanwhile is not heard. */
static void empty_mailbox(uint32_t own)
{
    if (now < line[own - 1].stops_at)
        hand_all_over(own);
    else
        for (size_t i = 0; i < boxes[own - 1].count; i++)
            post[boxes[own - 1].letters[i]].fate = UNHEARD;
    boxes[own - 1].count = 0;
}

/* A mailbox that is full is emptied before the poll. */
void drop_into_mailbox(const letter *which)
{
    uint32_t own = which->to;
    size_t place = (size_t)(which - post);

    if (boxes[own - 1].count == TUMBELIKO_ITEMS_MAX)
        empty_mailbox(own);
    if (boxes[own - 1].count == 0)
        boxes[own - 1].due = poll_after(own, now);
    boxes[own - 1].letters[boxes[own - 1].count++] = place;
}

/* The board that finds something next, 0 if none does. */
static uint32_t next_board(void)
{
    uint32_t next = 0;

    for (uint32_t own = 1; own <= play.n; own++)
        if (boxes[own - 1].count > 0 && (next == 0 || boxes[own - 1].due < boxes[next - 1].due))
            next = own;
    return next;
}

uint64_t next_poll(void)
{
    uint32_t own = next_board();

    return own == 0 ? NEVER : boxes[own - 1].due;
}

void empty_next_mailbox(void)
{
    uint32_t own = next_board();

    now = boxes[own - 1].due;
    empty_mailbox(own);
}
