#include <stdio.h>
#include <stdlib.h>
#include <string.h>
#include "lines.h"

#define PROGRESS    2500

/* ---- what is counted */

unsigned long runs_wanted = RUNS, steps, messages, voids, silent, refusals[REF_NUMBERS], accepted[4];
static unsigned long runs;

/* ---- one run */

ref_table b;
uint8_t message[LONGEST];
size_t message_len;
member line[BOARDS];

static const broadcast *cast;
static uint64_t liars;
static bool polls;              /* boards take several records at once now and then */
static bool wrong;              /* something in this run was not as it must be */

/* The first `waiting` of the records posted are on their way. */
static letter post[60000];
static uint8_t written[4000000];
static size_t posted, written_len;
size_t waiting;

static bool lies(uint32_t board)
{
    return liars >> (board - 1) & 1;
}

bool held(bool fact)
{
    wrong = wrong || !fact;
    return fact;
}

/* Keeps the bytes of a record for this run; NULL if there is no more room. */
static const uint8_t *keep(const uint8_t *bytes, size_t len)
{
    uint8_t *to = written + written_len;

    if (len > sizeof written - written_len)
        return NULL;
    if (len > 0)
        memcpy(to, bytes, len);
    written_len += len;
    return to;
}

static void hand_in(uint32_t from, uint32_t to, const uint8_t *bytes, size_t len, bool genuine)
{
    letter one = { from, to, bytes, len, genuine, false };

    if (bytes == NULL || posted == sizeof post / sizeof *post || lies(to))
        return;
    post[posted++] = post[waiting];
    post[waiting++] = one;
}

/* ---- what a call must leave */

uint8_t was_out[REF_OUT], was_delivery[LONGEST];

/* Boards' numbers are right, buffers long enough, states sound. */
static bool may_be_refused_with(uint32_t number)
{
    for (size_t i = 0; i < cast->number_count; i++)
        if (cast->numbers[i] == number)
            return true;
    return false;
}

/* The number that a record got from a board in the state `before`. */
void note_answer(letter one, const uint8_t *before, uint32_t number)
{
    CHECK(held(number == 0 || may_be_refused_with(number)));
    refusals[number % REF_NUMBERS]++;
    if (one.genuine) {
        bool late = cast->late(before, one.bytes[0]);

        CHECK(held(number == (late ? 8u : one.handed ? 9u : 0u)));
    }
    if (number == 0)
        accepted[(one.bytes[0] - cast->send + 1) & 3]++;
}

/* A record that cannot be read is refused as the reader refuses it, and no
 * other answer has an offset. */
void note_offset(letter one, tumbeliko_stepped did)
{
    fault read = cast->read(one.bytes, one.len);

    if (read.number != 0)
        CHECK(held(did.number == read.number && did.offset == read.offset));
    else
        CHECK(held(!ref_form_fault(did.number) && did.offset == 0));
}

void note_state(const member *m, const uint8_t *before)
{
    CHECK(held(memcmp(m->state + m->needed, before + m->needed, BEYOND) == 0));
    CHECK(held(cast->sound(m->state, m->needed)));
}

/* Hands in a record that a board has put out. */
void note_record(uint32_t own, const uint8_t *out, size_t len)
{
    member *m = &line[own - 1];
    const uint8_t *bytes = keep(out, len);

    CHECK(held(cast->read(out, len).number == 0 && (out[0] == cast->echo || out[0] == cast->vote)));
    CHECK(held(!(m->put_out >> (out[0] & 7) & 1)));     /* one echo and one vote at most */
    if (!(m->put_out >> (out[0] & 7) & 1))
        for (uint32_t to = 1; to <= b.n; to++)
            hand_in(own, to, bytes, len, true);
    m->put_out |= 1u << (out[0] & 7);
}

void note_delivery(uint32_t own, uint32_t delivery, uint32_t length, const uint8_t *bytes)
{
    member *m = &line[own - 1];

    CHECK(held(m->outcome == NONE));                    /* a board delivers once */
    m->outcome = delivery;
    m->length = length <= b.longest ? length : 0;
    memcpy(m->delivered, bytes, m->length);
    if (delivery == MESSAGE)
        messages++;
    else
        voids++;
    CHECK(held(delivery == MESSAGE || (cast->voids && delivery == VOID)));
    CHECK(held(length <= b.longest && (delivery == MESSAGE || length == 0)));
    for (uint32_t i = 1; i <= b.n; i++)                 /* agreement */
        if (!lies(i) && line[i - 1].outcome != NONE)
            CHECK(held(line[i - 1].outcome == m->outcome && line[i - 1].length == m->length
                       && memcmp(line[i - 1].delivered, m->delivered, m->length) == 0));
    if (!lies(b.sender))                                /* validity */
        CHECK(held(m->outcome == MESSAGE && m->length == message_len
                   && memcmp(m->delivered, message, message_len) == 0));
}

/* Are the bytes of a buffer beyond the first `used` as they were? */
bool stays(const uint8_t *bytes, const uint8_t *was, size_t used, size_t len)
{
    return memcmp(bytes + used, was + used, len - used) == 0;
}

/* Hands the record over, and hands in what the receiver puts out. */
static void take(letter one)
{
    static uint8_t before[STATE + BEYOND];
    member *m = &line[one.to - 1];
    tumbeliko_stepped did;
    uint8_t *record, *out, *delivery;

    memcpy(before, m->state, m->needed + BEYOND);
    record = lend(0, one.bytes, one.len);
    out = lend(1, was_out, cast->out_bytes);
    delivery = lend(2, was_delivery, b.longest);
    did = cast->step(m->state, m->len, one.from, record, one.len, out, cast->out_bytes, delivery, b.longest);
    steps++;
    CHECK(held(holds(0, one.bytes)));
    CHECK(held(did.record_length <= cast->out_bytes && did.message_length <= b.longest));
    if (did.record_length > cast->out_bytes || did.message_length > b.longest)
        return;
    CHECK(held(stays(out, was_out, did.record_length, cast->out_bytes)));
    CHECK(held(stays(delivery, was_delivery, did.message_length, b.longest)));
    note_state(m, before);
    note_answer(one, before, did.number);
    note_offset(one, did);
    if (did.number != 0) {
        CHECK(held(did.record_length == 0 && did.delivery == NONE && did.message_length == 0));
        CHECK(held(memcmp(m->state, before, m->needed) == 0));
        return;
    }
    CHECK(held(did.record_length == 0 || did.delivery == NONE || (cast->both_at_n_1 && b.n == 1)));
    if (did.record_length > 0)
        note_record(one.to, out, did.record_length);
    if (did.delivery != NONE)
        note_delivery(one.to, did.delivery, did.message_length, delivery);
}

/* ---- those who break the rules */

static uint32_t told[BOARDS];   /* which tale a board is told, mostly */

static void lie(uint32_t from)
{
    static uint8_t record[REF_OUT + 50];
    uint32_t to = 1 + random_below(b.n), tale = random_below(8) ? told[to - 1] : random_below(TALES);
    const letter *old = &post[posted == 0 ? 0 : random_below((uint32_t)posted)];
    size_t len = 0;

    switch (random_below(posted == 0 ? 7 : 12)) {
    case 0:
    case 1:
        len = cast->tell(tale, cast->vote, from, record);
        break;
    case 2:
        len = cast->tell(tale, cast->echo, from, record);
        break;
    case 3:                                     /* an echo of other bytes than were told */
        len = cast->tell(tale, cast->echo, random_below(2) ? from : 1 + random_below(b.n), record);
        record[len - 1] ^= 0x11;
        break;
    case 4:
        len = cast->tell(tale, cast->send, to, record);
        break;
    case 5:
        len = random_below(90);
        random_bytes(record, len);
        break;
    case 6:
        len = cast->too_long(tale, record);
        break;
    case 7:
    case 8:                                     /* what some board said, in its own name */
        len = old->len;
        memcpy(record, old->bytes, len);
        break;
    case 9:                                     /* the same, damaged */
        len = old->len;
        memcpy(record, old->bytes, len);
        if (len > 0)
            flip_a_bit(record, len);
        break;
    case 10:                                    /* the same, cut or grown */
        len = old->len;
        memcpy(record, old->bytes, len);
        if (random_below(2))
            len = random_below((uint32_t)len + 1);
        else
            random_bytes(record + len, 40), len += random_below(40);
        break;
    case 11:                                    /* the same, with another kind or count */
        len = old->len;
        memcpy(record, old->bytes, len);
        cast->change_a_number(record, len);
        break;
    }
    hand_in(from, to, keep(record, len), len, false);
}

static uint32_t some_liar(void)
{
    uint32_t board;

    do
        board = 1 + random_below(b.n);
    while (!lies(board));
    return board;
}

/* What the sender puts out. One that breaks the rules tells all the same
 * lie, or tells each board what told[] says, or leaves boards out. */
static void send_all(void)
{
    static uint8_t record[REF_OUT];
    uint32_t all = 1 + random_below(TALES - 1), manner = random_below(6);

    for (uint32_t to = 1; to <= b.n; to++) {
        size_t len;

        if (!lies(b.sender)) {
            tumbeliko_sized sent = cast->send_to(to, record);

            CHECK(held(sent.number == 0 && sent.length <= cast->out_bytes));
            len = sent.length <= cast->out_bytes ? sent.length : 0;
        } else {
            if (manner < 3)
                told[to - 1] = all;
            if (manner == 5 && random_below(3) == 0)
                continue;
            len = cast->tell(told[to - 1], cast->send, to, record);
        }
        hand_in(b.sender, to, keep(record, len), len, !lies(b.sender));
    }
}

static void draw_who_is_told_what(bool two)
{
    for (uint32_t i = 0; i < b.n; i++)
        told[i] = random_below(3) ? 0 : random_below(two ? 2 : TALES);
}

/* ---- the run */

/* How records are lost: those of a kind and to a board more often. */
static struct {
    bool losing;
    uint32_t kind, starved, loss;
} weather;

/* Takes a record from those on their way. Is it handed over, or lost? */
bool arrives(size_t pick, letter *one)
{
    bool often, lost;

    *one = post[pick];
    often = weather.losing && (one->to == weather.starved || (one->len > 0 && one->bytes[0] == weather.kind));
    lost = random_below(100) < (often ? 80 : weather.loss);
    waiting--;
    post[pick] = post[waiting];
    post[waiting] = *one;
    if (!lost)
        post[waiting].handed = true;
    return !lost;
}

/* Some record that was handed over before, to this board or to any (0). */
bool once_more(uint32_t to, letter *one)
{
    if (random_below(8) != 0 || posted == waiting)
        return false;
    *one = post[waiting + random_below((uint32_t)(posted - waiting))];
    return one->handed && (to == 0 || one->to == to);
}

size_t on_its_way_to(uint32_t to)
{
    size_t first = waiting == 0 ? 0 : random_below((uint32_t)waiting), i = 0;

    while (i < waiting && post[(first + i) % waiting].to != to)
        i++;
    return i < waiting ? (first + i) % waiting : waiting;
}

/* Hands over what is waiting, in any order, until nothing waits. */
static void hand_over(bool losing, uint32_t chatter)
{
    weather.losing = losing;
    weather.kind = random_below(6) + cast->send - 1;
    weather.starved = random_below(2 * b.n);
    weather.loss = losing ? random_below(40) : 0;
    while (waiting > 0) {
        letter one;

        if (arrives(random_below((uint32_t)waiting), &one)) {
            if (polls && random_below(2))
                cast->take_with_others(one);
            else
                take(one);
        }
        if (once_more(0, &one))
            take(one);
        if (liars != 0 && chatter > 0 && random_below(3) == 0) {
            lie(some_liar());
            chatter--;
        }
    }
}

/* Puts the genuine records that were lost on their way again. */
static void send_lost_again(void)
{
    for (size_t i = waiting; i < posted; i++)
        if (post[i].genuine && !post[i].handed) {
            letter one = post[i];

            post[i] = post[waiting];
            post[waiting++] = one;
        }
}

static void start_all(void)
{
    for (uint32_t i = 1; i <= b.n; i++) {
        uint8_t beyond[BEYOND];
        member *m = &line[i - 1];

        m->needed = cast->state_bytes();
        m->len = m->needed + (random_below(2) ? random_below(BEYOND + 1) : 0);
        m->put_out = m->outcome = m->length = 0;
        if (steps % 8 == 0)
            random_bytes(m->state, m->needed + BEYOND);         /* else over what the last run left */
        memcpy(beyond, m->state + m->needed, BEYOND);
        CHECK(held(cast->start(i, m->state, m->len) == 0));
        CHECK(held(memcmp(beyond, m->state + m->needed, BEYOND) == 0));
    }
}

static void draw_liars(void)
{
    uint32_t count = random_below(8) ? b.t : random_below(b.t + 1);

    liars = 0;
    if (count > 0 && random_below(2))
        liars = (uint64_t)1 << (b.sender - 1), count--;
    while (count > 0) {
        uint64_t bit = (uint64_t)1 << random_below(b.n);

        count -= (liars & bit) == 0;
        liars |= bit;
    }
}

static void one_run(uint32_t n, uint32_t t)
{
    uint32_t first = 0;
    bool two;

    wrong = false;
    posted = waiting = written_len = 0;
    b.n = n;
    b.t = t;
    b.sender = 1 + random_below(n);
    cast->draw_message();
    polls = cast->take_with_others != NULL && random_below(3) == 0;
    draw_liars();
    two = random_below(2);
    cast->draw_tales();
    draw_who_is_told_what(two);
    start_all();
    send_all();
    for (uint32_t i = 1; i <= n; i++)
        for (uint32_t j = 0; lies(i) && j < n; j++)
            lie(i);
    hand_over(true, t * 6 + random_below(t * n + 1));
    send_lost_again();
    hand_over(false, t * 4);
    for (uint32_t i = n; i > 0; i--)
        if (!lies(i) && line[i - 1].outcome != NONE)
            first = i;
    silent += first == 0;
    for (uint32_t i = 1; i <= n; i++)                           /* totality */
        if (!lies(i) && (first != 0 || !lies(b.sender)))
            CHECK(held(line[i - 1].outcome != NONE));
    runs++;
}

/* What was seen so far, in one line. tests/soak.sh adds these up. */
void show_figures(void)
{
    printf("%8lu runs, %lu steps, %lu %s, ", runs, steps, messages, cast->deliveries);
    if (cast->voids)
        printf("%lu voids, ", voids);
    printf("%lu runs in which nobody delivered; refused", silent);
    for (size_t i = 0; i < cast->number_count; i++)
        printf(" %u: %lu%s", cast->numbers[i], refusals[cast->numbers[i]], i + 1 < cast->number_count ? "," : "\n");
    fflush(stdout);
}

/* So many in 10,000 of all runs with this table, one at least. */
static void runs_of(uint32_t n, uint32_t t, unsigned long share)
{
    unsigned long count = runs_wanted * share / 10000, shown = 0;

    random_bytes(was_out, sizeof was_out);
    random_bytes(was_delivery, sizeof was_delivery);
    for (unsigned long i = 0; i < count || i == 0; i++) {
        place(i % 2 ? BEFORE_PAGE : AFTER_PAGE);
        one_run(n, t);
        if (wrong && shown++ < 3)
            printf("run %lu of n %u, t %u: sender %u, longest %u, message of %zu bytes, liars %016llx\n",
                   i, n, t, b.sender, b.longest, message_len, (unsigned long long)liars);
        if (runs % PROGRESS == 0)
            show_figures();
    }
}

#define LINE(n, t, share) static void a_line_of_##n##_boards_with_##t##_that_lie(void) { runs_of(n, t, share); }

LINE(1, 0, 300)
LINE(2, 0, 300)
LINE(3, 0, 300)
LINE(4, 0, 300)
LINE(4, 1, 4000)
LINE(5, 1, 1500)
LINE(6, 1, 700)
LINE(7, 1, 300)
LINE(7, 2, 1200)
LINE(8, 2, 400)
LINE(9, 2, 200)
LINE(10, 3, 250)
LINE(11, 3, 80)
LINE(12, 3, 70)
LINE(13, 0, 20)
LINE(13, 4, 80)
LINE(64, 0, 1)
LINE(64, 21, 2)

static const test small_tests[] = {
    TEST(a_line_of_1_boards_with_0_that_lie), TEST(a_line_of_2_boards_with_0_that_lie),
    TEST(a_line_of_3_boards_with_0_that_lie), TEST(a_line_of_4_boards_with_0_that_lie),
    TEST(a_line_of_4_boards_with_1_that_lie),
};

static const test middle_tests[] = {
    TEST(a_line_of_5_boards_with_1_that_lie), TEST(a_line_of_6_boards_with_1_that_lie),
    TEST(a_line_of_7_boards_with_1_that_lie), TEST(a_line_of_7_boards_with_2_that_lie),
};

static const test large_tests[] = {
    TEST(a_line_of_8_boards_with_2_that_lie), TEST(a_line_of_9_boards_with_2_that_lie),
    TEST(a_line_of_10_boards_with_3_that_lie), TEST(a_line_of_11_boards_with_3_that_lie),
    TEST(a_line_of_12_boards_with_3_that_lie), TEST(a_line_of_13_boards_with_0_that_lie),
    TEST(a_line_of_13_boards_with_4_that_lie),
};

static const test full_tests[] = {
    TEST(a_line_of_64_boards_with_0_that_lie), TEST(a_line_of_64_boards_with_21_that_lie),
};

int run_lines(const broadcast *kind, group seen, int argc, char **argv)
{
    const group groups[] = {
        GROUP("n 1 to 4", small_tests), GROUP("n 5 to 7", middle_tests), GROUP("n 8 to 13", large_tests),
        GROUP("n 64", full_tests), seen,
    };
    char *kept[8];
    int count = 0;
    bool taken = false;

    cast = kind;
    for (int i = 0; i < argc && count < 8; i++)
        if (i > 0 && !taken && argv[i][0] != '-') {     /* the first number is that of the runs */
            char *end;

            runs_wanted = strtoul(argv[i], &end, 10);
            taken = true;
            if (end == argv[i] || *end != 0 || runs_wanted == 0) {
                fprintf(stderr, "usage: %s [-v] [runs [seed]]\n", argv[0]);
                return 2;
            }
        } else {
            kept[count++] = argv[i];
        }
    return run_groups(groups, sizeof groups / sizeof *groups, count, kept);
}
