/*
 * Whole lines of boards that spread a message by fragments: tests/lines.h
 * says what a run is. Lies go under trees of the liars' own making. Records
 * are handed over one by one by a step, and in a third of the runs now and
 * then several at once by a mailbox, which must leave what steps would
 * leave.
 *
 * Arguments: the number of runs, a seed; -v to name each test.
 */

#include <stdio.h>
#include <string.h>
#include "lines.h"
#include "mail.h"
#include "trees.h"

enum { SEND = 1, ECHO = 2, VOTE = 3 };
enum { OUTPUT = 8, DONE = 9 };  /* where a state has these flags */

#define MOST_MAIL   40          /* items of a mailbox; none has more than LONGEST + 400 bytes, so all have room */

static unsigned long mailboxes, mailed, with_both, with_delivery;       /* mailboxes, their items, what came of them */

/* ---- the calls, and what they work on */

static tree trees[TALES];       /* the message's first, then others */

static void draw_message(void)
{
    b.longest = random_below(10) ? random_below(40) : random_below(8) ? 0 : random_below(LONGEST + 1);
    message_len = random_below(b.longest + 1);
    random_bytes(message, message_len);
}

static void grow_trees(void)
{
    grow_tree(&trees[0], b, MESSAGE_TREE, message, message_len);
    for (int i = 1; i < TALES && b.t > 0; i++) {
        uint8_t other[40];
        size_t len = random_below((b.longest < 40 ? b.longest : 40) + 1);

        random_bytes(other, len);
        grow_tree(&trees[i], b, (int)random_below(TREE_MANNERS), other, len);
    }
}

static size_t state_bytes(void)
{
    return REF_STATE_HEAD + (size_t)b.n * ref_s_max(b);
}

static uint32_t start(uint32_t own, uint8_t *state, size_t state_len)
{
    return tumbeliko_start(b.n, b.t, b.sender, b.longest, own, state, state_len);
}

static tumbeliko_sized send_to(uint32_t to, uint8_t *out)
{
    return tumbeliko_send(b.n, b.t, b.sender, b.longest, message, message_len, to, out, REF_OUT);
}

static fault read_record(const uint8_t *record, size_t record_len)
{
    ref_parts read = ref_read_record(record, record_len);

    return (fault){ read.number, read.offset };
}

static bool sound(const uint8_t *state, size_t needed)
{
    static ref_board board;

    ref_decode(state, needed, &board);
    return ref_sound(&board);
}

static bool late(const uint8_t *state, uint32_t kind)
{
    return state[DONE] != 0 || (kind == SEND && state[OUTPUT] != 0);
}

static size_t tell(uint32_t which, uint32_t kind, uint32_t place_of, uint8_t *record)
{
    return tree_record(&trees[which], kind, place_of, record);
}

/* A fragment above s_max. */
static size_t too_long(uint32_t which, uint8_t *record)
{
    static uint8_t other[REF_OUT];
    size_t len = 1 + ref_s_max(b) + random_below(20);

    random_bytes(other, 32 + len);
    return ref_write_record(random_below(2) ? ECHO : SEND, trees[which].root, 32, other, 32, other + 32, len,
                            record, REF_OUT).length;
}

/* ---- the same by a mailbox */

/* What a mailbox left in the buffers lent to it. */
typedef struct {
    const uint8_t *answers, *echo, *vote, *delivery;
} left_in;

/* Takes the same records one by one, from the state before the mailbox:
 * what comes of each must be what the mailbox said and left. */
static void compare_with_steps(const letter *mail, size_t count, uint8_t *state, tumbeliko_mailed did, left_in left)
{
    static uint8_t out[REF_OUT], delivery[LONGEST];
    const member *m = &line[mail[0].to - 1];
    tumbeliko_mailed sum = { 0, 0, 0, 0, 0 };

    for (size_t i = 0; i < count; i++) {
        tumbeliko_stepped alone;

        note_answer(mail[i], state, left.answers[i]);
        alone = tumbeliko_step(state, m->len, mail[i].from, mail[i].bytes, mail[i].len, out, REF_OUT,
                               delivery, b.longest);
        note_offset(mail[i], alone);
        CHECK(held(alone.number == left.answers[i]));
        if (alone.record_length > 0 && out[0] == ECHO) {
            sum.echo_length = alone.record_length;
            CHECK(held(memcmp(out, left.echo, alone.record_length) == 0));
        } else if (alone.record_length > 0) {
            sum.vote_length = alone.record_length;
            CHECK(held(memcmp(out, left.vote, REF_VOTE) == 0));
        }
        sum.delivery += alone.delivery;
        sum.message_length += alone.message_length;
    }
    CHECK(held(memcmp(&sum, &did, sizeof sum) == 0));
    CHECK(held(memcmp(delivery, left.delivery, did.message_length) == 0));
    CHECK(held(memcmp(state, m->state, m->needed) == 0));
}

/* Hands records over to one board, all at once. */
static void take_mailbox(const letter *mail, size_t count)
{
    static uint8_t before[STATE + BEYOND], box[ROOM], was_vote[REF_VOTE], was_answers[MOST_MAIL];
    uint32_t own = mail[0].to;
    member *m = &line[own - 1];
    tumbeliko_mailed did;
    uint8_t *mailbox, *answers, *echo, *vote, *delivery;
    size_t len = empty_mailbox(box);

    memcpy(was_vote, was_out, sizeof was_vote);
    memcpy(was_answers, was_out, sizeof was_answers);
    for (size_t i = 0; i < count; i++)
        len = add_item(box, len, (uint8_t)mail[i].from, mail[i].bytes, mail[i].len);
    memcpy(before, m->state, m->needed + BEYOND);
    mailbox = lend(0, box, len);
    answers = lend(1, was_answers, count);
    echo = lend(2, was_out, REF_OUT);
    vote = lend(3, was_vote, REF_VOTE);
    delivery = lend(4, was_delivery, b.longest);
    did = tumbeliko_mailbox(m->state, m->len, mailbox, len, answers, count, echo, REF_OUT, vote, REF_VOTE,
                            delivery, b.longest);
    steps += count;
    mailboxes++;
    mailed += count;
    CHECK(held(did.number == 0));
    CHECK(held(holds(0, box)));
    CHECK(held(did.echo_length <= REF_OUT && did.message_length <= b.longest));
    CHECK(held(did.vote_length == 0 || did.vote_length == REF_VOTE));
    if (did.number != 0 || did.echo_length > REF_OUT || did.vote_length > REF_VOTE || did.message_length > b.longest)
        return;
    CHECK(held(stays(echo, was_out, did.echo_length, REF_OUT) && stays(vote, was_vote, did.vote_length, REF_VOTE)));
    CHECK(held(stays(delivery, was_delivery, did.message_length, b.longest)));
    note_state(m, before);
    compare_with_steps(mail, count, before, did, (left_in){ answers, echo, vote, delivery });
    with_both += did.echo_length > 0 && did.vote_length > 0;
    with_delivery += did.delivery != NONE;
    if (did.echo_length > 0)
        note_record(own, echo, did.echo_length);
    if (did.vote_length > 0)
        note_record(own, vote, did.vote_length);
    if (did.delivery != NONE)
        note_delivery(own, did.delivery, did.message_length, delivery);
}

/* Hands the record over in one mailbox with others to the same board. */
static void take_with_others(letter one)
{
    static letter mail[MOST_MAIL];
    uint32_t wanted = random_below(2) ? random_below(5) : random_below(MOST_MAIL);
    size_t count = 0;

    mail[count++] = one;
    for (; wanted > 0 && count < MOST_MAIL - 1; wanted--) {
        size_t pick = on_its_way_to(one.to);
        letter other;

        if (pick == waiting)
            break;
        if (arrives(pick, &other))
            mail[count++] = other;
        if (once_more(one.to, &other))
            mail[count++] = other;
    }
    take_mailbox(mail, count);
}

/* ---- all runs */

static const uint32_t numbers[] = { 20, 21, 22, 23, 24, 25, 6, 7, 8, 9 };
#define NUMBERS (sizeof numbers / sizeof *numbers)

static void messages_voids_mailboxes_and_every_refusal_of_a_record_were_seen(void)
{
    show_figures();
    printf("accepted %lu sends, %lu echoes, %lu votes\n", accepted[SEND], accepted[ECHO], accepted[VOTE]);
    printf("%lu records in %lu mailboxes; an echo and a vote came out of %lu of these, a delivery out of %lu\n", mailed,
           mailboxes, with_both, with_delivery);
    CHECK(messages > 0);
    if (runs_wanted < RUNS / 10)
        return;
    CHECK(voids > 0 && silent > 0);
    CHECK(mailed > mailboxes + mailboxes / 2 && with_both > 0 && with_delivery > 0);
    for (size_t i = 0; i < NUMBERS; i++)
        CHECK(refusals[numbers[i]] > 0);
}

int main(int argc, char **argv)
{
    static const test seen[] = { TEST(messages_voids_mailboxes_and_every_refusal_of_a_record_were_seen) };
    static const broadcast fragments = {
        .deliveries = "messages", .send = SEND, .echo = ECHO, .vote = VOTE, .out_bytes = REF_OUT,
        .numbers = numbers, .number_count = NUMBERS, .voids = true, .both_at_n_1 = false,
        .draw_message = draw_message, .draw_tales = grow_trees, .state_bytes = state_bytes, .start = start,
        .send_to = send_to, .step = tumbeliko_step, .read = read_record, .sound = sound, .late = late, .tell = tell,
        .too_long = too_long, .change_a_number = change_a_number, .take_with_others = take_with_others,
    };

    return run_lines(&fragments, (group)GROUP("what was seen", seen), argc, argv);
}
