/*
 * The call that takes a whole mailbox, against the reference, against single
 * steps of the library, and against the sentences of requests 1 and 2 of
 * document 02.
 *
 * Every call is made with each buffer before an inaccessible page and again
 * with each buffer after one. The reference makes the same call on copies;
 * then answers and all bytes of all buffers must be the same, but that a
 * state's flags are held to their meaning alone. If the call is not refused,
 * the library also takes the items one by one from the same state: there a
 * state's flags, too, must be the same to the byte.
 */

#include <string.h>
#include "harness.h"
#include "mail.h"
#include "states.h"
#include "tumbeliko.h"

/* ---- what is lent to a call beside the mailbox */

#define MOST_ANSWERS 1000

typedef struct {
    uint8_t state[ROOM], answers[MOST_ANSWERS], echo[ROOM], vote[ROOM], delivery[ROOM];
} lent_bytes;

typedef struct {
    size_t state, answers, echo, vote, delivery;
} lent_lengths;

static lent_bytes old, new;
static ref_board board;

static void copy_lent(lent_bytes *to, const lent_bytes *from, lent_lengths len)
{
    memcpy(to->state, from->state, len.state);
    memcpy(to->answers, from->answers, len.answers);
    memcpy(to->echo, from->echo, len.echo);
    memcpy(to->vote, from->vote, len.vote);
    memcpy(to->delivery, from->delivery, len.delivery);
}

static void draw_lent(const uint8_t *state, lent_lengths len)
{
    memcpy(old.state, state, len.state);
    random_bytes(old.answers, len.answers);
    random_bytes(old.echo, len.echo);
    random_bytes(old.vote, len.vote);
    random_bytes(old.delivery, len.delivery);
    copy_lent(&new, &old, len);
}

static size_t count_of(const uint8_t *mailbox)
{
    return (size_t)mailbox[0] << 8 | mailbox[1];
}

/* ---- the same call by the library and by the reference */

/* how often each number, answer, record and delivery was seen in a test */
static unsigned long refusals[REF_NUMBERS], answered[REF_NUMBERS], echoes, votes, both, deliveries[3], all_three;

static void forget_what_was_seen(void)
{
    memset(refusals, 0, sizeof refusals);
    memset(answered, 0, sizeof answered);
    memset(deliveries, 0, sizeof deliveries);
    echoes = votes = both = all_three = 0;
}

static void note_what_was_seen(ref_mailed did, size_t count)
{
    bool echo = did.echo_length > 0, vote = did.vote_length > 0;

    refusals[did.number]++;
    for (size_t i = 0; did.number == 0 && i < count; i++)
        answered[new.answers[i]]++;
    echoes += echo;
    votes += vote;
    both += echo && vote;
    deliveries[did.delivery]++;
    all_three += echo && vote && did.delivery != NONE;
}

/* Puts into new.state what the accepted items leave. */
static void put_items(const uint8_t *mailbox, const uint8_t *got)
{
    const uint8_t *at = mailbox + 2;

    for (size_t i = 0; i < count_of(mailbox); i++) {
        uint8_t from;
        size_t len;
        const uint8_t *bytes = read_item(at, &from, &len);

        if (new.answers[i] == 0)
            put_step(new.state, &board, bytes[0], from - 1u, got);
        at = bytes + len;
    }
}

/* Takes the items one by one from the bytes of `old`: that must leave what
 * the mailbox left, in `state` and in `new`. */
static void check_single_steps(const uint8_t *mailbox, lent_lengths len, const uint8_t *state, ref_mailed right)
{
    static lent_bytes single;
    static uint8_t out[REF_OUT];
    ref_mailed sum = { 0, 0, 0, 0, 0 };
    const uint8_t *at = mailbox + 2;

    copy_lent(&single, &old, len);
    for (size_t i = 0; i < count_of(mailbox); i++) {
        uint8_t from;
        size_t record_len;
        const uint8_t *bytes = read_item(at, &from, &record_len);
        tumbeliko_stepped did = tumbeliko_step(single.state, len.state, from, bytes, record_len, out, REF_OUT,
                                               single.delivery, len.delivery);

        single.answers[i] = (uint8_t)did.number;
        if (did.record_length > 0 && out[0] == ECHO)
            memcpy(single.echo, out, sum.echo_length = did.record_length);
        else if (did.record_length > 0)
            memcpy(single.vote, out, sum.vote_length = did.record_length);
        sum.delivery += did.delivery;
        sum.message_length += did.message_length;
        at = bytes + record_len;
    }
    CHECK(sum.echo_length == right.echo_length && sum.vote_length == right.vote_length);
    CHECK(sum.delivery == right.delivery && sum.message_length == right.message_length);
    CHECK(memcmp(single.state, state, len.state) == 0);
    CHECK(memcmp(single.answers, new.answers, len.answers) == 0);
    CHECK(memcmp(single.echo, new.echo, len.echo) == 0 && memcmp(single.vote, new.vote, len.vote) == 0);
    CHECK(memcmp(single.delivery, new.delivery, len.delivery) == 0);
}

/* One call. The bytes of `state` are then those that it left, and in `new`
 * is what it left in every buffer. */
static ref_mailed check_mailbox_with(uint8_t *state, lent_lengths len, const uint8_t *mailbox, size_t mailbox_len)
{
    ref_mailed right;

    draw_lent(state, len);
    if (len.state >= HEAD)
        ref_decode(state, len.state, &board);
    right = ref_mailbox(&board, len.state, mailbox, mailbox_len, new.answers, len.answers, new.echo, len.echo,
                        new.vote, len.vote, new.delivery, len.delivery);
    for (int p = 0; p < PLACES; p++) {
        tumbeliko_mailed got;
        uint8_t *lent[6];

        place(p);
        lent[0] = lend(0, old.state, len.state);
        lent[1] = lend(1, mailbox, mailbox_len);
        lent[2] = lend(2, old.answers, len.answers);
        lent[3] = lend(3, old.echo, len.echo);
        lent[4] = lend(4, old.vote, len.vote);
        lent[5] = lend(5, old.delivery, len.delivery);
        got = tumbeliko_mailbox(lent[0], len.state, lent[1], mailbox_len, lent[2], len.answers, lent[3], len.echo,
                                lent[4], len.vote, lent[5], len.delivery);
        CHECK(got.number == right.number);
        CHECK(got.echo_length == right.echo_length && got.vote_length == right.vote_length);
        CHECK(got.delivery == right.delivery && got.message_length == right.message_length);
        memcpy(new.state, old.state, len.state);
        if (right.number == 0)
            put_items(mailbox, lent[0]);
        CHECK(holds(0, new.state));
        CHECK(holds(1, mailbox));
        CHECK(holds(2, new.answers));
        CHECK(holds(3, new.echo));
        CHECK(holds(4, new.vote));
        CHECK(holds(5, new.delivery));
        if (right.number == 0 && p == 0)
            check_single_steps(mailbox, len, lent[0], right);
    }
    if (right.number == 0)
        CHECK(ref_sound(&board));
    memcpy(state, new.state, len.state);
    note_what_was_seen(right, right.number == 0 ? count_of(mailbox) : 0);
    return right;
}

/* ---- the mailbox of the board in `work` */

static uint8_t box[ROOM];
static size_t box_len;

static size_t items(void)
{
    return count_of(box);
}

static void empty_box(void)
{
    box_len = empty_mailbox(box);
}

static void post(uint32_t from, const uint8_t *bytes, size_t len)
{
    if (box_len + 3 + len <= sizeof box)
        box_len = add_item(box, box_len, (uint8_t)from, bytes, len);
}

/* The record of that kind that stands in the tree at `from`, a send's at the
 * own place. */
static void post_record(const tree *one, uint32_t kind, uint32_t from)
{
    post(from, record, tree_record(one, kind, kind == SEND ? work.own : from, record));
}

static void post_records(const tree *one, uint32_t kind, uint32_t first, uint32_t last)
{
    for (uint32_t from = first; from <= last; from++)
        post_record(one, kind, from);
}

/* All records of a broadcast to this board: the send, the echoes, the votes. */
static void post_broadcast(const tree *one)
{
    empty_box();
    post_record(one, SEND, work.b.sender);
    post_records(one, ECHO, 1, work.b.n);
    post_records(one, VOTE, 1, work.b.n);
}

/* Items of any board, and of none, as many as drawn. */
static void post_any(size_t count)
{
    empty_box();
    for (size_t i = 0; i < count; i++) {
        uint32_t from = random_below(30) ? 1 + random_below(work.b.n) : random_below(256);

        post(from, record, random_record(from));
    }
}

static lent_lengths needed(void)
{
    lent_lengths len = { work.len, items() < MOST_ANSWERS ? items() : MOST_ANSWERS, REF_OUT, REF_VOTE, work.b.longest };

    return len;
}

static ref_mailed mail(void)
{
    return check_mailbox_with(work.state, needed(), box, box_len);
}

/* The same bytes as a mailbox, cut or grown to another length. */
static uint32_t mail_of_length(size_t len)
{
    return check_mailbox_with(work.state, needed(), box, len).number;
}

static uint32_t mail_with_answers(size_t answers)
{
    lent_lengths len = needed();

    len.answers = answers;
    return check_mailbox_with(work.state, len, box, box_len).number;
}

/* ---- framing */

static void a_mailbox_of_no_items_changes_nothing(void)
{
    static uint8_t before[ROOM];

    for (int i = 0; i < 100; i++) {
        ref_mailed did;

        begin_random(i % 10 ? 13 : 64, 40);
        random_sound_state(i % STAGES);
        memcpy(before, work.state, work.len);
        empty_box();
        did = mail();
        CHECK(did.number == 0 && did.echo_length == 0 && did.vote_length == 0);
        CHECK(did.delivery == NONE && did.message_length == 0);
        CHECK(mail_with_answers(random_below(300)) == 0);
        CHECK(memcmp(before, work.state, work.len) == 0);
    }
}

static void mailboxes_of_0_to_255_items_are_taken(void)
{
    for (uint32_t count = 0; count <= 255; count++) {
        begin_random(13, 20);
        if (count % 2)
            random_sound_state((int)random_below(STAGES));
        post_any(count);
        CHECK(items() == count);
        CHECK(mail().number == 0);
    }
}

static void a_count_of_255_is_taken_and_of_256_or_more_refused_with_16(void)
{
    begin(make_table(4, 1, 2, 16), 1, 9);
    empty_box();
    while (items() <= 600) {
        uint32_t from = (uint32_t)items();

        CHECK(mail().number == (items() <= 255 ? 0 : 16));
        if (from % 5 == 0)
            post_record(&work.trees[0], VOTE, 1 + from % 4);
        else
            post(from, record, from % 3);
    }
}

static void the_answers_need_one_byte_an_item_and_the_bytes_beyond_stay(void)
{
    for (uint32_t count = 0; count <= 255; count++) {
        begin(make_table(13, 4, 2, 16), 1, 9);
        empty_box();
        for (uint32_t i = 0; i < count; i++)
            post_record(&work.trees[0], VOTE, 1 + i % 13);
        for (size_t less = 1; less <= count; less = less < 3 ? less + 1 : 3 * less)
            CHECK(mail_with_answers(count - less) == 16);
        CHECK(mail_with_answers(0) == (count == 0 ? 0 : 16));
        CHECK(mail_with_answers(count) == 0);
        CHECK(mail_with_answers(count + 1 + random_below(300)) == 0);
    }
}

/* Mailboxes of a few items: some of no bytes, some records, some not. */
static void post_few(uint32_t count)
{
    begin_random(7, 20);
    empty_box();
    for (uint32_t i = 0; i < count; i++)
        switch (random_below(4)) {
        case 0:
            post(random_below(9), record, 0);
            break;
        case 1:
            random_bytes(record, 300);
            post(random_below(256), record, random_below(random_below(4) ? 6 : 300));
            break;
        default:
            post_record(&work.trees[0], ECHO + random_below(2), 1 + random_below(work.b.n));
        }
}

static void a_mailbox_cut_anywhere_or_with_bytes_after_it_is_refused_with_16(void)
{
    for (uint32_t i = 0; i < 24; i++) {
        post_few(i / 3);
        for (size_t len = 0; len < box_len; len++)
            CHECK(mail_of_length(len) == 16);
        for (int zeros = 0; zeros < 2; zeros++) {
            random_bytes(box + box_len, 30);
            for (size_t more = 0; zeros && more < 30; more++)
                box[box_len + more] = 0;
            for (size_t more = 1; more <= 30; more++)
                CHECK(mail_of_length(box_len + more) == 16);
        }
        CHECK(mail().number == 0);
    }
}

/* The number that the mailbox gets with this count instead of its own. */
static uint32_t mail_with_count(uint32_t count)
{
    lent_lengths len = needed();

    len.answers = MOST_ANSWERS;
    box[0] = (uint8_t)(count >> 8);
    box[1] = (uint8_t)count;
    return check_mailbox_with(work.state, len, box, box_len).number;
}

static void a_count_other_than_that_of_the_items_is_refused_with_16(void)
{
    for (uint32_t i = 0; i < 12; i++) {
        uint32_t count;

        post_few(i < 9 ? i : 200 + i);
        count = (uint32_t)items();
        for (uint32_t other = 0; other < 300; other++)
            if (other != count)
                CHECK(mail_with_count(other) == 16);
        for (uint32_t high = 1; high < 256; high++) {           /* the same low byte, or any */
            CHECK(mail_with_count(256 * high + count) == 16);
            CHECK(mail_with_count(256 * high + random_below(256)) == 16);
        }
        CHECK(mail_with_count(count) == 0);
    }
}

static void another_length_of_the_last_item_is_refused_with_16(void)
{
    for (uint32_t i = 0; i < 30; i++) {
        size_t last, was;

        post_few(i % 6);
        last = box_len;
        was = random_below(2) ? 39 : random_below(3) ? random_below(300) : 0;
        random_bytes(record, 300);
        post(1, record, was);
        for (uint32_t other = 0; other < 65536; other += other < 320 ? 1 : 1 + random_below(1500)) {
            box[last + 1] = (uint8_t)(other >> 8);
            box[last + 2] = (uint8_t)other;
            if (other != was)
                CHECK(mail().number == 16);
        }
    }
}

static void every_damage_of_one_byte_is_judged_as_the_reference_judges_it(void)
{
    static uint8_t sound[ROOM];

    forget_what_was_seen();
    begin(make_table(4, 1, 2, 16), 1, 9);
    memcpy(sound, work.state, work.len);
    empty_box();
    post(3, record, 0);
    post_record(&work.trees[0], VOTE, 1);
    post(9, (const uint8_t *)"\x00\x01\x00\x00", 4);            /* as if it were a mailbox's end */
    post(0, record, 0);
    post_record(&work.trees[0], VOTE, 4);
    for (size_t at = 0; at < box_len; at++) {
        uint8_t was = box[at];

        for (uint32_t other = 0; other < 256; other++) {
            box[at] = (uint8_t)other;
            memcpy(work.state, sound, work.len);
            check_mailbox_with(work.state, (lent_lengths){ work.len, 255, REF_OUT, REF_VOTE, 16 }, box, box_len);
        }
        box[at] = was;
    }
    CHECK(refusals[0] > 1000 && refusals[16] > 1000);
}

static void random_strings_are_judged_as_the_reference_judges_them(void)
{
    forget_what_was_seen();
    for (int i = 0; i < 8000; i++) {
        lent_lengths len;

        if (i % 100 == 0)
            begin_random(7, 20);
        empty_box();
        random_bytes(record, 8);
        for (uint32_t count = random_below(7); count > 0; count--)
            post(random_below(9), record, random_below(5));
        if (random_below(3) == 0)
            box[random_below((uint32_t)box_len)] = (uint8_t)random_below(5);
        if (random_below(4) == 0)
            box_len = random_below((uint32_t)box_len + 4);
        len = needed();
        len.answers = 3 + random_below(5);
        check_mailbox_with(work.state, len, box, box_len);
    }
    CHECK(refusals[0] > 2000 && refusals[16] > 2000);
}

static void no_item_of_a_refused_mailbox_is_taken(void)
{
    for (uint32_t n = 1; n <= 13; n++) {
        uint8_t was;

        begin(make_table(n, (n - 1) / 3, n, 16), 1, 9);
        post_broadcast(&work.trees[0]);
        CHECK(mail_of_length(box_len - 1) == 16);
        CHECK(mail_of_length(box_len + 1) == 16);
        CHECK(mail_with_answers(items() - 1) == 16);
        was = box[1]++;
        CHECK(mail().number == 16);
        box[1] = was;
        box[0] = 1;
        CHECK(mail().number == 16);
        box[0] = 0;
        CHECK(mail().delivery == MESSAGE);
    }
}

/* ---- refusals of the whole call */

/* The faults of a call in the order in which it looks. Each may be there in
 * several ways. */
enum { TINY, NOT_SOUND, SHORT, BROKEN, FAULTS };
static const uint32_t fault_number[FAULTS] = { 2, 3, 2, 16 };
static const int fault_ways[FAULTS] = { 3, UNSOUND, 8, 10 };

static void shorten(lent_lengths *len, int way)
{
    switch (way) {
    case 0: len->state--; break;
    case 1: len->state = HEAD; break;
    case 2: len->echo--; break;
    case 3: len->vote--; break;
    case 4: len->delivery--; break;
    case 5: len->echo = 39; break;
    case 6: len->vote = 0; break;
    case 7: len->echo = len->vote = len->delivery = 0; break;
    }
}

static void break_box(lent_lengths *len, int way)
{
    switch (way) {
    case 0: box_len = 0; break;
    case 1: box_len = 1; break;
    case 2: box_len = 2; break;
    case 3: box[1]++; break;
    case 4: box[1]--; break;
    case 5: box[0] = 1; break;
    case 6: box_len--; break;
    case 7: box[box_len++] = 0; break;
    case 8: len->answers--; break;
    case 9: len->answers = 0; break;
    }
}

/* Tries a mailbox with these faults, fault f in the way ways[f] unless that
 * is negative, and says if the refusal is that of the first. */
static void try_faults(const int *ways)
{
    lent_lengths len;
    uint32_t number = 0;

    begin(make_table(4, 1, 2, 16), 1, 9);
    empty_box();
    post_record(&work.trees[0], SEND, 2);
    post(5, record, 7);
    post_records(&work.trees[0], VOTE, 1, 2);
    len = needed();
    for (int f = FAULTS - 1; f >= 0; f--)
        if (ways[f] >= 0)
            number = fault_number[f];
    if (ways[NOT_SOUND] >= 0)
        make_unsound(ways[NOT_SOUND]);
    shorten(&len, ways[SHORT]);
    if (ways[TINY] >= 0)
        len.state = (const size_t[]){ HEAD - 1, 34, 0 }[ways[TINY]];
    break_box(&len, ways[BROKEN]);
    CHECK(check_mailbox_with(work.state, len, box, box_len).number == number);
}

/* So each fault alone, and every pair, too. */
static void of_all_faults_together_a_mailbox_answers_the_first_in_the_order_3_2_16(void)
{
    int ways[FAULTS];

    for (ways[0] = -1; ways[0] < fault_ways[0]; ways[0]++)
        for (ways[1] = -1; ways[1] < fault_ways[1]; ways[1]++)
            for (ways[2] = -1; ways[2] < fault_ways[2]; ways[2]++)
                for (ways[3] = -1; ways[3] < fault_ways[3]; ways[3]++)
                    try_faults(ways);
}

static void a_mailbox_of_no_items_has_3_and_2_looked_at(void)
{
    for (int way = 0; way < UNSOUND; way++) {
        begin(make_table(4, 1, 2, 16), 1, 9);
        make_unsound(way);
        empty_box();
        CHECK(mail().number == 3);
    }
    begin(make_table(4, 1, 2, 16), 1, 9);
    for (int way = 0; way < fault_ways[SHORT]; way++) {
        lent_lengths len = needed();

        shorten(&len, way);
        CHECK(check_mailbox_with(work.state, len, box, box_len).number == 2);
    }
    for (size_t state = 0; state < HEAD; state += 1 + random_below(60)) {
        lent_lengths len = { state, 0, REF_OUT, REF_VOTE, 16 };

        CHECK(check_mailbox_with(work.state, len, box, box_len).number == 2);
    }
    CHECK(mail().number == 0);
}

static void a_mailbox_needs_its_buffers_and_leaves_the_bytes_beyond(void)
{
    for (int i = 0; i < 200; i++) {
        lent_lengths len, more;

        begin_random(13, 40);
        post_broadcast(&work.trees[0]);
        more = len = needed();
        for (int way = 0; way < 4; way++) {
            len = needed();
            shorten(&len, way);
            CHECK(check_mailbox_with(work.state, len, box, box_len).number == 2);
        }
        if (work.b.longest > 0) {
            len = needed();
            len.delivery--;
            CHECK(check_mailbox_with(work.state, len, box, box_len).number == 2);
        }
        random_bytes(work.state + work.len, 300);
        more.state += random_below(300);
        more.answers += random_below(300);
        more.echo += random_below(300);
        more.vote += random_below(300);
        more.delivery += random_below(300);
        CHECK(check_mailbox_with(work.state, more, box, box_len).delivery == MESSAGE);
    }
}

static void random_bytes_as_a_state_are_judged_as_the_reference_judges_them(void)
{
    forget_what_was_seen();
    for (int i = 0; i < 2000; i++) {
        begin_random(i % 50 ? 7 : 64, 20);
        random_bytes(work.state, work.len);
        if (i % 4 > 0)
            memcpy(work.state, (const uint8_t[]){ (uint8_t)work.b.n, (uint8_t)work.b.t, (uint8_t)work.b.sender,
                                                  (uint8_t)work.own, 0, (uint8_t)work.b.longest }, 6);
        if (i % 4 > 1)
            memset(work.state + ECHOES, 0, LENGTHS + 128 - ECHOES);
        post_any(random_below(4));
        mail();
    }
    CHECK(refusals[3] > 500 && refusals[0] > 100);
}

static void single_flipped_bits_of_sound_states_are_judged_as_the_reference_judges_them(void)
{
    static uint8_t sound[ROOM];

    forget_what_was_seen();
    for (int stage = 0; stage < STAGES; stage++) {
        begin_random(stage % 2 ? 13 : 5, 30);
        random_sound_state(stage);
        memcpy(sound, work.state, work.len);
        for (size_t bit = 0; bit < 8 * work.len; bit += bit < 8 * 168 ? 1 : 1 + random_below(120)) {
            post_any(random_below(4));
            memcpy(work.state, sound, work.len);
            work.state[bit / 8] ^= (uint8_t)(1 << bit % 8);
            mail();
        }
    }
    CHECK(refusals[3] > 500);
}

/* ---- lengths that no room has */

static void lengths_above_2_to_the_32_are_no_shorter_for_it(void)
{
    size_t more = (size_t)1 << 32;
    uint8_t *vast_bytes = vast(more + 70000);
    lent_lengths len;

    CHECK(vast_bytes != NULL);
    if (vast_bytes == NULL)
        return;
    begin(make_table(13, 4, 2, 16), 1, 9);
    CHECK(tumbeliko_mailbox(work.state, work.len, vast_bytes, more, old.answers, MOST_ANSWERS, old.echo, REF_OUT,
                            old.vote, REF_VOTE, old.delivery, 16).number == 16);
    for (uint32_t from = 1; from <= 6; from++) {
        uint8_t *lent[6] = { work.state, box, old.answers, old.echo, old.vote, old.delivery };
        tumbeliko_mailed got;

        empty_box();
        post_record(&work.trees[0], VOTE, from);
        len = needed();
        memcpy(vast_bytes, from == 1 ? work.state : from == 2 ? box : old.echo, from == 1 ? work.len : box_len);
        lent[from - 1] = vast_bytes;
        got = tumbeliko_mailbox(lent[0], from == 1 ? more : len.state, lent[1], from == 2 ? more + box_len : box_len,
                                lent[2], from == 3 ? more : 1, lent[3], from == 4 ? more : REF_OUT,
                                lent[4], from == 5 ? more : REF_VOTE, lent[5], from == 6 ? more + 3 : 16);
        CHECK(got.number == (from == 2 ? 16 : 0));
        CHECK(from == 2 || lent[2][0] == 0);
        if (from == 1)
            memcpy(work.state, vast_bytes, work.len);
    }
    ref_decode(work.state, work.len, &board);
    CHECK(board.votes == 0x3d);                                 /* all but board 2 */
    give_back_vast(vast_bytes, more + 70000);
}

static void the_longest_mailbox_is_taken(void)
{
    size_t whole = 2 + 255 * (size_t)(3 + 65535), len;
    uint8_t *bytes = vast(whole + 3), answers[256];
    static uint8_t longest[65535];

    CHECK(bytes != NULL);
    if (bytes == NULL)
        return;
    begin(make_table(13, 4, 2, 16), 1, 9);
    random_bytes(longest, sizeof longest);
    len = empty_mailbox(bytes);
    for (uint32_t i = 0; i < 255; i++) {
        tree_record(&work.trees[0], VOTE, 1, longest);          /* a vote, and what makes it none */
        len = add_item(bytes, len, (uint8_t)(1 + i % 16), longest, sizeof longest);
    }
    CHECK(len == whole);
    memset(answers, 77, sizeof answers);
    for (size_t other = whole - 1; other <= whole + 1; other++) {
        tumbeliko_mailed got = tumbeliko_mailbox(work.state, work.len, bytes, other, answers, 255, old.echo, REF_OUT,
                                                 old.vote, REF_VOTE, old.delivery, 16);

        CHECK(got.number == (other == whole ? 0 : 16));
        CHECK(answers[0] == (other < whole ? 77 : 25) && answers[255] == 77);
    }
    for (uint32_t i = 0; i < 255; i++)
        CHECK(answers[i] == (1 + i % 16 > 13 ? 4 : 25));
    give_back_vast(bytes, whole + 3);
}

static void a_count_of_65535_with_all_its_items_is_refused_with_16(void)
{
    size_t len = 0;
    uint8_t *bytes = vast(2 + 3 * 65535), *answers = vast(65535);

    CHECK(bytes != NULL && answers != NULL);
    if (bytes == NULL || answers == NULL)
        return;
    begin(make_table(4, 1, 2, 16), 1, 9);
    len = empty_mailbox(bytes);
    for (uint32_t i = 0; i < 65535; i++)
        len = add_item(bytes, len, 1, record, 0);
    CHECK(tumbeliko_mailbox(work.state, work.len, bytes, len, answers, 65535, old.echo, REF_OUT,
                            old.vote, REF_VOTE, old.delivery, 16).number == 16);
    CHECK(answers[0] == 0);
    give_back_vast(bytes, 2 + 3 * 65535);
    give_back_vast(answers, 65535);
}

/* ---- items */

static void a_board_byte_0_or_above_n_is_that_item_s_4(void)
{
    static const uint32_t lines[] = { 1, 2, 4, 7, 13, 63, 64 };

    for (int l = 0; l < 7; l++)
        for (uint32_t first = 0; first <= 1; first++) {
            uint32_t n = lines[l];

            begin(make_table(n, (n - 1) / 3, 1, 16), n, 9);
            empty_box();
            for (uint32_t from = first; from < first + 255; from++)
                post(from, record, tree_record(&work.trees[0], VOTE, 1, record));
            CHECK(mail().number == 0);
            for (uint32_t i = 0; i < 255; i++)
                CHECK(new.answers[i] == (first + i >= 1 && first + i <= n ? 0 : 4));
        }
}

static void a_malformed_record_is_that_item_s_20_to_25_and_the_others_go_on(void)
{
    static const uint8_t right[5] = { 20, 20, 0, 25, 21 };

    for (uint32_t n = 1; n <= 13; n++) {
        begin(make_table(n, (n - 1) / 3, 1, 16), n, 9);
        empty_box();
        for (uint32_t from = 1; from <= n; from++) {
            size_t len = tree_record(&work.trees[0], from % 2 ? ECHO : VOTE, from, record);

            post(from, record, 0);
            post(from, record, len - 1);
            post(from, record, len);
            post(from, record, len + 1);
            record[KIND_AT] = 4;
            post(from, record, len);
        }
        CHECK(mail().number == 0);
        for (uint32_t i = 0; i < 5 * n; i++)
            CHECK(new.answers[i] == right[i % 5]);
    }
}

/* The answers to all that was posted, none of which changes the board, are
 * the reader's numbers. Empties the box. */
static void check_answers_of_reader(void)
{
    const uint8_t *at = box + 2;

    CHECK(mail().number == 0);
    for (size_t i = 0; i < items(); i++) {
        uint8_t from;
        size_t len;
        const uint8_t *bytes = read_item(at, &from, &len);

        CHECK(new.answers[i] == ref_read_record(bytes, len).number);
        at = bytes + len;
    }
    empty_box();
}

static void every_cut_is_20_and_another_kind_or_count_is_what_the_reader_says(void)
{
    forget_what_was_seen();
    for (uint32_t kind = SEND; kind <= VOTE; kind++) {
        size_t len, nodes;

        begin(make_table(4, 1, 2, 16), 1, 9);
        empty_box();
        len = tree_record(&work.trees[0], kind, 1, record);
        nodes = record[PATH_COUNT_AT + 1];
        for (size_t cut = 0; cut < len; cut++)
            post(2, record, cut);
        CHECK(items() == len);
        CHECK(mail().number == 0);
        for (size_t i = 0; i < len; i++)
            CHECK(new.answers[i] == 20);
        for (size_t more = 1; more <= 9; more++)
            post(2, record, len + more);
        check_answers_of_reader();
        for (uint32_t which = 0; which < NUMBER_BYTES; which++) {
            uint8_t *byte = record + number_byte(nodes, which), was = *byte;

            for (uint32_t other = 0; other < 256; other++) {
                *byte = (uint8_t)other;
                if (ref_read_record(record, len).number != 0)
                    post(2, record, len);
            }
            *byte = was;
            check_answers_of_reader();
        }
    }
    for (uint32_t number = REF_FORM_FIRST; number <= REF_FORM_LAST; number++)
        CHECK(answered[number] > 10);
    CHECK(answered[0] == 0);
}

/* The numbers that an item can get from a board in any stage. */
static const uint8_t refused_numbers[] = { 4, 20, 21, 22, 23, 24, 25, 6, 7 };
enum { REFUSED = sizeof refused_numbers };

static void post_refused(uint32_t number)
{
    const tree *one = &work.trees[0];
    size_t len = tree_record(one, VOTE, 1, record);

    switch (number) {
    case 4:
        post(work.b.n + 1, record, len);
        return;
    case 6:
        post(1 + work.b.sender % work.b.n, record, tree_record(one, SEND, work.own, record));
        return;
    case 7:
        post(1, record, ref_write_record(ECHO, one->root, 32, one->paths, 64, work.message, work.s_max + 1,
                                         record, REF_OUT).length);
        return;
    case 20:
        len = random_below(39);
        break;
    case 21:
        record[KIND_AT] = 0;
        break;
    case 22:
        record[ROOT_COUNT_AT + 1] = 31;
        break;
    case 23:
        record[PATH_COUNT_AT + 1] = 1;
        break;
    case 24:
        record[FRAGMENT_COUNT_AT(0) + 1] = 1;
        break;
    default:
        len++;
    }
    post(1, record, len);
}

/* A refused item before, between and after the items of a whole broadcast. */
static void a_refused_item_anywhere_leaves_the_others_as_they_are(void)
{
    for (int which = 0; which < REFUSED; which++)
        for (size_t where = 0; where <= 9; where++) {
            uint32_t number = refused_numbers[which];
            ref_mailed did;
            size_t at = 0;

            begin(make_table(4, 1, 2, 16), 1, 15);
            empty_box();
            for (uint32_t i = 0; i < 9; i++) {
                if (i == where)
                    post_refused(number);
                if (i == 0)
                    post_record(&work.trees[0], SEND, 2);
                else
                    post_record(&work.trees[0], i <= 4 ? ECHO : VOTE, 1 + (i - 1) % 4);
            }
            if (where == 9)
                post_refused(number);
            did = mail();
            CHECK(did.number == 0 && did.echo_length > 39 && did.vote_length == 39 && did.delivery == MESSAGE);
            CHECK(new.answers[where] == number);
            for (uint32_t i = 0; i < 9; i++, at++) {            /* the last vote comes after the delivery */
                at += at == where;
                CHECK(new.answers[at] == (i == 8 ? 8 : 0));
            }
        }
}

static void an_echo_a_vote_and_the_delivery_come_out_of_one_call(void)
{
    static const uint32_t tables[][3] = { { 1, 0, 16384 }, { 1, 0, 0 }, { 2, 0, 33 }, { 3, 0, 20 }, { 4, 1, 7000 },
        { 4, 0, 7000 }, { 5, 1, 0 }, { 7, 2, 1000 }, { 13, 4, 77 }, { 13, 0, 77 }, { 64, 21, 16384 }, { 64, 0, 16384 },
        { 64, 21, 0 } };

    for (size_t i = 0; i < sizeof tables / sizeof *tables; i++) {
        uint32_t n = tables[i][0], t = tables[i][1];
        ref_mailed did;
        size_t len;

        begin(make_table(n, t, n, tables[i][2]), 1, tables[i][2]);
        post_broadcast(&work.trees[0]);
        CHECK(items() == 1 + 2 * n);
        did = mail();
        len = tree_record(&work.trees[0], ECHO, 1, record);
        CHECK(did.number == 0 && did.echo_length == len && memcmp(new.echo, record, len) == 0);
        tree_record(&work.trees[0], VOTE, 1, record);
        CHECK(did.vote_length == 39 && memcmp(new.vote, record, 39) == 0);
        CHECK(did.delivery == MESSAGE && did.message_length == work.message_len);
        CHECK(memcmp(new.delivery, work.message, work.message_len) == 0);
        for (uint32_t j = 0; j < 1 + 2 * n; j++)
            CHECK(new.answers[j] == (j >= 1 + 2 * n - t ? 8 : 0));
        did = mail();                                           /* and once more: the board is done */
        CHECK(did.number == 0 && did.echo_length == 0 && did.vote_length == 0 && did.delivery == NONE);
        for (uint32_t j = 0; j < 1 + 2 * n; j++)
            CHECK(new.answers[j] == 8);
    }
}

static void each_of_echo_vote_and_delivery_comes_alone_too(void)
{
    for (uint32_t n = 2; n <= 13; n++) {
        const tree *one = &work.trees[0];
        uint32_t t = (n - 1) / 3;
        ref_mailed did;

        begin(make_table(n, t, n, 30), 1, 21);
        empty_box();
        post_record(one, SEND, n);
        did = mail();
        CHECK(did.echo_length > 39 && did.vote_length == 0 && did.delivery == NONE);
        empty_box();
        post_records(one, ECHO, 1, n - t);
        did = mail();
        CHECK(did.echo_length == 0 && did.vote_length == 39 && did.delivery == NONE && did.message_length == 0);
        empty_box();
        post_records(one, VOTE, 1, n - t);
        did = mail();
        CHECK(did.echo_length == 0 && did.vote_length == 0);
        CHECK(did.delivery == MESSAGE && did.message_length == 21 && memcmp(new.delivery, work.message, 21) == 0);
    }
}

static void a_vote_put_out_before_the_echo_stands_in_its_own_buffer(void)
{
    for (uint32_t n = 2; n <= 13; n++) {
        const tree *one = &work.trees[0];
        uint32_t t = (n - 1) / 3;
        ref_mailed did;
        size_t len;

        begin(make_table(n, t, n, 30), 1, 21);
        empty_box();
        post_records(one, VOTE, 1, t + 1);
        post_record(one, SEND, n);
        did = mail();
        len = tree_record(one, ECHO, 1, record);
        CHECK(did.number == 0 && did.echo_length == len && memcmp(new.echo, record, len) == 0);
        tree_record(one, VOTE, 1, record);
        CHECK(did.vote_length == 39 && memcmp(new.vote, record, 39) == 0 && did.delivery == NONE);
    }
}

static void void_and_an_empty_message_are_told_apart(void)
{
    unsigned voids = 0;

    for (int i = 0; i < 200; i++) {
        ref_mailed did;

        begin_random(13, 60);
        grow_tree(&work.trees[1], work.b, i % TREE_MANNERS, work.message, i % 2 ? work.message_len : 0);
        post_broadcast(&work.trees[1]);
        did = mail();
        CHECK(did.number == 0 && did.delivery != NONE);
        if (i % TREE_MANNERS == MESSAGE_TREE)
            CHECK(did.delivery == MESSAGE && did.message_length == (i % 2 ? work.message_len : 0));
        CHECK(did.delivery == MESSAGE || did.message_length == 0);
        voids += did.delivery == VOID;
    }
    CHECK(voids > 40);
}

static void a_second_send_echo_or_vote_is_refused_with_9_within_a_mailbox_and_after_it(void)
{
    for (uint32_t kind = SEND; kind <= VOTE; kind++)
        for (uint32_t n = 4; n <= 13; n++) {
            uint32_t from = kind == SEND ? 2 : n;

            begin(make_table(n, (n - 1) / 3, 2, 16), 1, 9);
            grow_tree(&work.trees[1], work.b, MESSAGE_TREE, work.message, 4);
            empty_box();
            for (uint32_t i = 0; i < 255; i++)
                post_record(&work.trees[i % 2], kind, from);
            CHECK(mail().number == 0 && new.answers[0] == 0);
            for (uint32_t i = 1; i < 255; i++)
                CHECK(new.answers[i] == 9);
            CHECK(mail().number == 0 && new.answers[0] == 9 && new.answers[254] == 9);
        }
}

static void every_item_refused_is_no_refusal_of_the_call(void)
{
    begin(make_table(4, 1, 2, 16), 1, 15);
    empty_box();
    for (uint32_t i = 0; i < 200; i++)
        post_refused(refused_numbers[i % REFUSED]);
    CHECK(mail().number == 0);
    for (uint32_t i = 0; i < 200; i++)
        CHECK(new.answers[i] == refused_numbers[i % REFUSED]);
    set_flags(1, 1, 1, 1);
    empty_box();
    post_records(&work.trees[0], ECHO, 1, 4);
    CHECK(mail().number == 0);
    CHECK(memcmp(new.answers, "\x8\x8\x8\x8", 4) == 0);
}

/* ---- any traffic */

static void sound_states_of_every_stage_take_any_mailbox_as_single_steps_do(void)
{
    forget_what_was_seen();
    for (int i = 0; i < 3000; i++) {
        begin_random(i % 200 == 0 ? 64 : i % 4 ? 7 : 13, 40);
        random_sound_state(i % 8 == 7 ? AFTER_DONE : i % 3);
        for (int turn = 0; turn < 2; turn++) {
            post_any(random_below(i % 10 ? 24 : 160));
            CHECK(mail().number == 0);
        }
    }
    for (uint32_t number = 4; number < REF_NUMBERS; number++)
        if (number == 4 || (number >= 6 && number <= 9) || ref_form_fault(number))
            CHECK(answered[number] > 100);
    CHECK(answered[0] > 3000 && echoes > 50 && votes > 50 && both > 20 && all_three > 5);
    CHECK(deliveries[MESSAGE] > 50 && deliveries[VOID] > 50);
}

/* A board from its start on, beside one that the reference keeps. */
static void hostile_traffic_by_mailboxes_goes_as_the_reference_s(void)
{
    static ref_board twin;
    static lent_bytes beside;

    forget_what_was_seen();
    for (int i = 0; i < 400; i++) {
        uint32_t most = 1 + random_below(i % 3 ? 12 : 80);

        begin_random(i % 100 == 0 ? 64 : 13, 40);
        work.favourite = random_below(GROVE);
        CHECK(ref_start(work.b.n, work.b.t, work.b.sender, work.b.longest, work.own, &twin, work.len) == 0);
        for (int turn = 0; turn < 8; turn++) {
            ref_mailed did, right;

            post_any(random_below(most + 1));
            did = mail();
            right = ref_mailbox(&twin, work.len, box, box_len, beside.answers, items(), beside.echo, REF_OUT,
                                beside.vote, REF_VOTE, beside.delivery, work.b.longest);
            CHECK(memcmp(&did, &right, sizeof did) == 0);
            CHECK(memcmp(new.answers, beside.answers, items()) == 0);
            CHECK(memcmp(new.echo, beside.echo, did.echo_length) == 0);
            CHECK(memcmp(new.vote, beside.vote, did.vote_length) == 0);
            CHECK(memcmp(new.delivery, beside.delivery, did.message_length) == 0);
            ref_decode(work.state, work.len, &board);
            CHECK(same_board(&twin, &board));
        }
    }
    CHECK(echoes > 100 && votes > 100 && deliveries[MESSAGE] > 30 && deliveries[VOID] > 10);
}

/* A part of the mailbox in `whole`, from its item `first` on, into `box`. */
static void post_part(const uint8_t *whole, size_t first, size_t last)
{
    const uint8_t *at = whole + 2;

    empty_box();
    for (size_t i = 0; i < last; i++) {
        uint8_t from;
        size_t len;
        const uint8_t *bytes = read_item(at, &from, &len);

        if (i >= first)
            post(from, bytes, len);
        at = bytes + len;
    }
}

static void a_mailbox_in_two_parts_leaves_what_the_whole_leaves(void)
{
    static uint8_t whole[ROOM], before[ROOM], after[ROOM], answers[255];

    for (int i = 0; i < 60; i++) {
        ref_mailed did, part[2];
        size_t count;

        begin_random(13, 40);
        random_sound_state(i % 3);
        memcpy(before, work.state, work.len);
        post_any(1 + random_below(30));
        count = items();
        memcpy(whole, box, box_len);
        did = mail();
        memcpy(answers, new.answers, count);
        memcpy(after, work.state, work.len);
        for (size_t cut = 0; cut <= count; cut++) {
            memcpy(work.state, before, work.len);
            post_part(whole, 0, cut);
            part[0] = mail();
            CHECK(memcmp(new.answers, answers, cut) == 0);
            post_part(whole, cut, count);
            part[1] = mail();
            CHECK(memcmp(new.answers, answers + cut, count - cut) == 0);
            CHECK(memcmp(work.state, after, work.len) == 0);
            CHECK(part[0].echo_length + part[1].echo_length == did.echo_length);
            CHECK(part[0].vote_length + part[1].vote_length == did.vote_length);
            CHECK(part[0].delivery + part[1].delivery == did.delivery);
        }
    }
}

static const test framing_tests[] = {
    TEST(a_mailbox_of_no_items_changes_nothing),
    TEST(mailboxes_of_0_to_255_items_are_taken),
    TEST(a_count_of_255_is_taken_and_of_256_or_more_refused_with_16),
    TEST(the_answers_need_one_byte_an_item_and_the_bytes_beyond_stay),
    TEST(a_mailbox_cut_anywhere_or_with_bytes_after_it_is_refused_with_16),
    TEST(a_count_other_than_that_of_the_items_is_refused_with_16),
    TEST(another_length_of_the_last_item_is_refused_with_16),
    TEST(every_damage_of_one_byte_is_judged_as_the_reference_judges_it),
    TEST(random_strings_are_judged_as_the_reference_judges_them),
    TEST(no_item_of_a_refused_mailbox_is_taken),
};

static const test refusal_tests[] = {
    TEST(of_all_faults_together_a_mailbox_answers_the_first_in_the_order_3_2_16),
    TEST(a_mailbox_of_no_items_has_3_and_2_looked_at),
    TEST(a_mailbox_needs_its_buffers_and_leaves_the_bytes_beyond),
    TEST(random_bytes_as_a_state_are_judged_as_the_reference_judges_them),
    TEST(single_flipped_bits_of_sound_states_are_judged_as_the_reference_judges_them),
};

static const test large_tests[] = {
    TEST(lengths_above_2_to_the_32_are_no_shorter_for_it),
    TEST(the_longest_mailbox_is_taken),
    TEST(a_count_of_65535_with_all_its_items_is_refused_with_16),
};

static const test item_tests[] = {
    TEST(a_board_byte_0_or_above_n_is_that_item_s_4),
    TEST(a_malformed_record_is_that_item_s_20_to_25_and_the_others_go_on),
    TEST(every_cut_is_20_and_another_kind_or_count_is_what_the_reader_says),
    TEST(a_refused_item_anywhere_leaves_the_others_as_they_are),
    TEST(an_echo_a_vote_and_the_delivery_come_out_of_one_call),
    TEST(each_of_echo_vote_and_delivery_comes_alone_too),
    TEST(a_vote_put_out_before_the_echo_stands_in_its_own_buffer),
    TEST(void_and_an_empty_message_are_told_apart),
    TEST(a_second_send_echo_or_vote_is_refused_with_9_within_a_mailbox_and_after_it),
    TEST(every_item_refused_is_no_refusal_of_the_call),
};

static const test traffic_tests[] = {
    TEST(sound_states_of_every_stage_take_any_mailbox_as_single_steps_do),
    TEST(hostile_traffic_by_mailboxes_goes_as_the_reference_s),
    TEST(a_mailbox_in_two_parts_leaves_what_the_whole_leaves),
};

int main(int argc, char **argv)
{
    static const group groups[] = {
        GROUP("framing", framing_tests), GROUP("refusals", refusal_tests), GROUP("large", large_tests),
        GROUP("items", item_tests), GROUP("traffic", traffic_tests),
    };

    return run_groups(groups, sizeof groups / sizeof *groups, argc, argv);
}
