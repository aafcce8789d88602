/*
 * The calls of notices (read notice, write notice, start, send, step)
 * against the reference and against the sentences of request 3 of document
 * 02.
 *
 * Every call is made with each buffer before an inaccessible page and again
 * with each buffer after one. The reference makes the same call on copies;
 * then answers and all bytes of all buffers must be the same.
 */

#include <stdlib.h>
#include <string.h>
#include "harness.h"
#include "notices.h"
#include "tumbeliko.h"

#define OUT         REF_NOTICE_OUT
#define LONGEST     REF_NOTICE

static uint8_t old_out[ROOM], new_out[ROOM], old_delivery[ROOM], new_delivery[ROOM], old_state[ROOM], new_state[ROOM];
static uint8_t data[ROOM];

/* ---- the same call by the library and by the reference */

/* The number and the offset of every answer that has both. */
static void check_fault(uint32_t number, uint32_t offset, uint32_t right_number, uint32_t right_offset)
{
    CHECK(number == right_number);
    CHECK(offset == right_offset);
    CHECK(ref_form_fault(number) || offset == 0);
}

static ref_notice check_reader(const uint8_t *bytes, size_t len)
{
    ref_notice right = ref_read_notice(bytes, len);

    for (int p = 0; p < PLACES; p++) {
        tumbeliko_notice got;

        place(p);
        got = tumbeliko_read_notice(lend(0, bytes, len), len);
        check_fault(got.number, got.offset, right.number, right.offset);
        CHECK(got.kind == right.kind && got.length == right.length);
        CHECK(holds(0, bytes));
    }
    return right;
}

/* Writes into new_out what the writer leaves there. */
static ref_written check_writer(uint32_t kind, const uint8_t *bytes, size_t len, size_t out_len)
{
    ref_written right;

    random_bytes(old_out, out_len);
    memcpy(new_out, old_out, out_len);
    right = ref_write_notice(kind, bytes, len, new_out, out_len);
    for (int p = 0; p < PLACES; p++) {
        tumbeliko_written got;
        uint8_t *lent[2];

        place(p);
        lent[0] = lend(0, bytes, len);
        lent[1] = lend(1, old_out, out_len);
        got = tumbeliko_write_notice(kind, lent[0], len, lent[1], out_len);
        check_fault(got.number, got.offset, right.number, right.offset);
        CHECK(got.length == right.length);
        CHECK(holds(0, bytes));
        CHECK(holds(1, new_out));
    }
    return right;
}

/* Writes into new_out what the sender's call leaves there. */
static ref_sized check_send(ref_table b, const uint8_t *bytes, size_t len, uint32_t to, size_t out_len)
{
    ref_sized right;

    random_bytes(old_out, out_len);
    memcpy(new_out, old_out, out_len);
    right = ref_notice_send(b.n, b.t, b.sender, bytes, len, to, new_out, out_len);
    for (int p = 0; p < PLACES; p++) {
        tumbeliko_sized got;
        uint8_t *lent[2];

        place(p);
        lent[0] = lend(0, bytes, len);
        lent[1] = lend(1, old_out, out_len);
        got = tumbeliko_notice_send(b.n, b.t, b.sender, lent[0], len, to, lent[1], out_len);
        CHECK(got.number == right.number);
        CHECK(got.length == right.length);
        CHECK(holds(0, bytes));
        CHECK(holds(1, new_out));
    }
    return right;
}

static ref_notice_board board;

/* Starts over the bytes of old_state; writes into new_state what is left. */
static uint32_t check_start_over(ref_table b, uint32_t own, size_t state_len)
{
    uint32_t right = ref_notice_start(b.n, b.t, b.sender, own, &board, state_len);

    memcpy(new_state, old_state, state_len);
    if (right == 0)
        fresh(new_state, b, own);
    for (int p = 0; p < PLACES; p++) {
        uint8_t *lent;

        place(p);
        lent = lend(0, old_state, state_len);
        CHECK(tumbeliko_notice_start(b.n, b.t, b.sender, own, lent, state_len) == right);
        CHECK(holds(0, new_state));
    }
    return right;
}

static uint32_t check_start(ref_table b, uint32_t own, size_t state_len)
{
    random_bytes(old_state, state_len);
    return check_start_over(b, own, state_len);
}

/* how often each answer, record and delivery was seen in a test */
static unsigned long refusals[REF_NUMBERS], put_out[VOTE + 1], deliveries[2], both;

static void forget_what_was_seen(void)
{
    memset(refusals, 0, sizeof refusals);
    memset(put_out, 0, sizeof put_out);
    memset(deliveries, 0, sizeof deliveries);
    both = 0;
}

/* One step. The bytes of `state` are then those that it left. Writes into
 * new_out and new_delivery what it leaves there. */
static ref_stepped check_step_with(uint8_t *state, size_t state_len, uint32_t from, const uint8_t *bytes, size_t len,
                                   size_t out_len, size_t delivery_len)
{
    ref_stepped right;

    random_bytes(old_out, out_len);
    random_bytes(old_delivery, delivery_len);
    memcpy(old_state, state, state_len);
    memcpy(new_state, state, state_len);
    memcpy(new_out, old_out, out_len);
    memcpy(new_delivery, old_delivery, delivery_len);
    if (state_len >= STATE)
        ref_notice_decode(state, &board);
    right = ref_notice_step(&board, state_len, from, bytes, len, new_out, out_len, new_delivery, delivery_len);
    if (right.number == 0)
        put_step(new_state, &board, bytes[0], from - 1);
    for (int p = 0; p < PLACES; p++) {
        tumbeliko_stepped got;
        uint8_t *lent[4];

        place(p);
        lent[0] = lend(0, old_state, state_len);
        lent[1] = lend(1, bytes, len);
        lent[2] = lend(2, old_out, out_len);
        lent[3] = lend(3, old_delivery, delivery_len);
        got = tumbeliko_notice_step(lent[0], state_len, from, lent[1], len, lent[2], out_len, lent[3], delivery_len);
        check_fault(got.number, got.offset, right.number, right.offset);
        CHECK(got.record_length == right.record_length);
        CHECK(got.delivery == right.delivery);
        CHECK(got.message_length == right.message_length);
        CHECK(holds(0, new_state));
        CHECK(holds(1, bytes));
        CHECK(holds(2, new_out));
        CHECK(holds(3, new_delivery));
    }
    if (right.number == 0)
        CHECK(ref_notice_sound(&board));
    memcpy(state, new_state, state_len);
    refusals[right.number]++;
    put_out[right.record_length > 0 ? new_out[0] : 0]++;
    deliveries[right.delivery]++;
    both += right.record_length > 0 && right.delivery != NONE;
    return right;
}

/* ---- tables, and steps of the board in `work` */

/* Tables outside their limits, each with one number at fault. */
static const ref_table bad_tables[] = {
    { 0, 0, 1, 0 }, { 65, 2, 1, 0 }, { 256 + 7, 2, 1, 0 }, { 0xffffffff, 2, 1, 0 }, { 0x80000000, 2, 1, 0 },
    { 7, 3, 1, 0 }, { 6, 2, 1, 0 }, { 3, 1, 1, 0 }, { 1, 1, 1, 0 }, { 7, 256 + 2, 1, 0 },
    { 4, 1431655766, 1, 0 }, { 7, 1431655766, 1, 0 }, { 64, 1431655766, 1, 0 }, { 4, 2863311531, 1, 0 },
    { 64, 2863311531, 1, 0 }, { 7, 0x80000000, 1, 0 }, { 7, 0xffffffff, 1, 0 },
    { 7, 2, 0, 0 }, { 7, 2, 8, 0 }, { 7, 2, 256 + 1, 0 }, { 7, 2, 0xffffffff, 0 }, { 64, 21, 65, 0 },
};
#define BAD_TABLES (sizeof bad_tables / sizeof *bad_tables)

static ref_table make_table(uint32_t n, uint32_t t, uint32_t sender)
{
    ref_table b = { n, t, sender, 0 };

    return b;
}

static ref_stepped check_step(uint32_t from, const uint8_t *bytes, size_t len)
{
    return check_step_with(work.state, STATE, from, bytes, len, OUT, LONGEST);
}

static ref_stepped hand(uint32_t kind, uint32_t from, notice one)
{
    return check_step(from, record, notice_record(kind, one, record));
}

/* Did the step put out the record of this kind, or none (0), and deliver
 * nothing? */
static bool puts_out(ref_stepped did, uint32_t kind, notice one)
{
    uint8_t right[OUT];
    size_t len = kind == 0 ? 0 : notice_record(kind, one, right);

    return did.number == 0 && did.delivery == NONE && did.message_length == 0 && did.record_length == len
        && memcmp(new_out, right, len) == 0;
}

static bool delivers(ref_stepped did, notice one)
{
    return did.number == 0 && did.delivery == MESSAGE && did.message_length == one.length
        && memcmp(new_delivery, one.bytes, one.length) == 0;
}

/* ---- records: what the tests themselves say of them */

/* A number and its offset. */
typedef struct {
    uint32_t number;
    size_t offset;
} fault;

static bool reads(ref_notice got, fault right)
{
    return got.number == right.number && got.offset == right.offset;
}

/* What the first `len` bytes of a record that asks for so many notice bytes
 * get, with a wrong kind or not, with a wrong count or not. */
static fault first_fault(size_t notice_len, bool no_kind, bool wrong_count, size_t len)
{
    if (len < 1)
        return (fault){ 20, KIND_AT };
    if (no_kind)
        return (fault){ 21, KIND_AT };
    if (len < 3)
        return (fault){ 20, COUNT_AT };
    if (wrong_count)
        return (fault){ 24, COUNT_AT };
    if (len < NOTICE_AT + notice_len)
        return (fault){ 20, NOTICE_AT };
    return len > NOTICE_AT + notice_len ? (fault){ 25, NOTICE_AT + notice_len } : (fault){ 0, 0 };
}

static void put_count(uint8_t *at, size_t count)
{
    at[0] = (uint8_t)(count >> 8);
    at[1] = (uint8_t)count;
}

/* Random bytes, and before them a kind and a count. */
static void draw_bytes(uint32_t kind, size_t count, size_t len)
{
    random_bytes(record, len + 10);
    record[KIND_AT] = (uint8_t)kind;
    put_count(record + COUNT_AT, count);
}

static bool is_kind(uint32_t kind)
{
    return kind >= SEND && kind <= VOTE;
}

/* ---- read notice */

static void the_header_names_the_numbers_the_places_and_the_sizes(void)
{
    CHECK(TUMBELIKO_NOTICE_SEND == 4 && TUMBELIKO_NOTICE_ECHO == 5 && TUMBELIKO_NOTICE_VOTE == 6);
    CHECK(TUMBELIKO_NOTICE_MAX == 64 && TUMBELIKO_NOTICE_OUT_BYTES == 67 && TUMBELIKO_NOTICE_STATE_BYTES == 8352);
    CHECK(TUMBELIKO_RECORD_NOTICE_COUNT == 1 && TUMBELIKO_RECORD_NOTICE == 3);
    CHECK(TUMBELIKO_BAD_NOTICE_COUNT == 24 && TUMBELIKO_LONG_MESSAGE == 13);
    CHECK(sizeof(tumbeliko_notice) == 16);
}

static void every_cut_is_20_at_the_field_of_the_first_missing_byte_and_more_bytes_are_25(void)
{
    for (uint32_t kind = SEND; kind <= VOTE; kind++)
        for (size_t count = 0; count <= LONGEST; count++) {
            draw_bytes(kind, count, 150);
            for (size_t cut = 0; cut <= NOTICE_AT + count + 40; cut++) {
                ref_notice got = check_reader(record, cut);

                CHECK(reads(got, first_fault(count, false, false, cut)));
                CHECK(got.kind == (got.number == 0 ? kind : 0) && got.length == (got.number == 0 ? count : 0));
            }
        }
}

static void cuts_stated_one_by_one(void)
{
    draw_bytes(ECHO, 5, 100);
    CHECK(reads(check_reader(record, 0), (fault){ 20, 0 }) && reads(check_reader(record, 1), (fault){ 20, 1 }));
    CHECK(reads(check_reader(record, 2), (fault){ 20, 1 }) && reads(check_reader(record, 3), (fault){ 20, 3 }));
    CHECK(reads(check_reader(record, 7), (fault){ 20, 3 }) && reads(check_reader(record, 8), (fault){ 0, 0 }));
    CHECK(reads(check_reader(record, 9), (fault){ 25, 8 }) && reads(check_reader(record, 100), (fault){ 25, 8 }));
    draw_bytes(SEND, 65, 100);                                  /* 04 0041 and no more */
    CHECK(reads(check_reader(record, 3), (fault){ 24, 1 }) && reads(check_reader(record, 2), (fault){ 20, 1 }));
    CHECK(reads(check_reader(record, 68), (fault){ 24, 1 }));
    draw_bytes(3, 0, 100);
    CHECK(reads(check_reader(record, 1), (fault){ 21, 0 }) && reads(check_reader(record, 3), (fault){ 21, 0 }));
}

/* The byte at `at` of the record changed to every other value. */
static void check_changes(size_t count, size_t at)
{
    uint8_t was = record[at];

    for (uint32_t other = 0; other < 256; other++) {
        size_t now = at == COUNT_AT ? other << 8 | count : at == COUNT_AT + 1 ? other : count;

        record[at] = (uint8_t)other;
        CHECK(reads(check_reader(record, NOTICE_AT + count),
                    first_fault(now, !is_kind(record[KIND_AT]), now > LONGEST, NOTICE_AT + count)));
    }
    record[at] = was;
}

static void every_change_of_one_byte_is_judged_left_to_right(void)
{
    static const size_t counts[] = { 0, 1, 2, 3, 31, 63, 64 };

    for (uint32_t kind = SEND; kind <= VOTE; kind++)
        for (size_t c = 0; c < sizeof counts / sizeof *counts; c++) {
            draw_bytes(kind, counts[c], 100);
            for (size_t at = 0; at < NOTICE_AT + counts[c]; at++)
                check_changes(counts[c], at);
            CHECK(check_reader(record, NOTICE_AT + counts[c]).kind == kind);
        }
}

static void every_kind_and_every_count_is_judged_high_byte_first(void)
{
    for (uint32_t kind = 0; kind < 256; kind++)
        for (size_t count = 0; count < 65536; count += is_kind(kind) && count < 700 ? 1 : 1 + random_below(9000)) {
            size_t there = count <= 300 ? count : random_below(300);

            draw_bytes(kind, count, 320);
            CHECK(reads(check_reader(record, NOTICE_AT + there),
                        first_fault(count, !is_kind(kind), count > LONGEST, NOTICE_AT + there)));
            CHECK(reads(check_reader(record, NOTICE_AT), first_fault(count, !is_kind(kind), count > LONGEST, NOTICE_AT)));
        }
    for (size_t count = 0; count < 65536; count++) {
        tumbeliko_notice got;

        put_count(data + COUNT_AT, count);
        data[KIND_AT] = VOTE;
        got = tumbeliko_read_notice(data, NOTICE_AT);
        CHECK(got.number == (count == 0 ? 0 : count <= LONGEST ? 20 : 24));
        CHECK(got.offset == (count == 0 ? 0 : count <= LONGEST ? 3 : 1));
    }
}

static void of_several_faults_the_first_field_counts(void)
{
    static const size_t wrong_counts[] = { 65, 256 + 5, 5 << 8, 65535 };
    static const uint8_t wrong_kinds[] = { 0, 1, 3, 7, 255 };

    for (uint32_t kind = 0; kind < sizeof wrong_kinds; kind++)
        for (size_t count = 0; count < sizeof wrong_counts / sizeof *wrong_counts; count++)
            for (unsigned wrong = 0; wrong < 4; wrong++) {
                draw_bytes(wrong & 1 ? wrong_kinds[kind] : SEND + random_below(3), wrong & 2 ? wrong_counts[count] : 5, 90);
                for (size_t cut = 0; cut <= 80; cut++)
                    CHECK(reads(check_reader(record, cut), first_fault(5, wrong & 1, wrong & 2, cut)));
            }
}

static void random_strings_are_judged_as_the_reference_judges_them(void)
{
    unsigned long seen[REF_NUMBERS] = { 0 };

    for (int i = 0; i < 20000; i++) {
        uint32_t count = random_below(70);
        size_t len = random_below(4) ? NOTICE_AT + count : random_below(100);

        draw_bytes(3 + random_below(5), random_below(8) ? count : random_below(65536), 100);
        if (random_below(20) == 0)
            random_bytes(record, 3);
        seen[check_reader(record, len).number]++;
    }
    CHECK(seen[0] > 1000 && seen[0] < 15000);
    CHECK(seen[20] > 200 && seen[21] > 200 && seen[24] > 200 && seen[25] > 200);
    CHECK(seen[22] == 0 && seen[23] == 0);
}

static void a_record_above_2_to_the_32_bytes_is_refused_with_25(void)
{
    size_t more = (size_t)1 << 32, len = more + 4096;
    uint8_t *bytes = vast(len);

    CHECK(bytes != NULL);
    for (uint32_t kind = SEND; bytes != NULL && kind <= VOTE; kind++) {
        size_t own = notice_record(kind, random_notice(30), bytes);
        tumbeliko_notice got;

        CHECK(tumbeliko_read_notice(bytes, own).number == 0);
        got = tumbeliko_read_notice(bytes, more + own);
        CHECK(got.number == 25 && got.offset == own && got.kind == 0 && got.length == 0);
        got = tumbeliko_read_notice(bytes, more);
        CHECK(got.number == 25 && got.offset == own);
        got = tumbeliko_read_notice(bytes, more + 2);
        CHECK(got.number == 25 && got.offset == own);
    }
    give_back_vast(bytes, len);
}

/* ---- one kind of broadcast and the other */

static void no_reader_and_no_writer_takes_the_other_s_kinds(void)
{
    uint8_t out[REF_OUT];

    random_bytes(data, 200);
    for (uint32_t kind = 1; kind <= 3; kind++) {
        size_t len = tumbeliko_write_record(kind, data, 32, data, 0, data, kind == 3 ? 0 : 5, out, REF_OUT).length;
        tumbeliko_written got;

        CHECK(len == (kind == 3 ? 39 : 44));
        for (size_t cut = 1; cut <= len; cut++)
            CHECK(reads(check_reader(out, cut), (fault){ 21, 0 }));
        CHECK(check_writer(kind, data, 5, OUT).number == 21);
        got = tumbeliko_write_record(kind + 3, data, 32, data, 0, data, 5, out, REF_OUT);
        CHECK(got.number == 21 && got.offset == 0 && got.length == 0);
    }
    for (uint32_t kind = SEND; kind <= VOTE; kind++)
        for (uint32_t length = 0; length <= LONGEST; length++) {
            size_t len = notice_record(kind, random_notice(length), record);
            tumbeliko_parts got = tumbeliko_read_record(record, len);

            CHECK(got.number == 21 && got.offset == 0 && got.kind == 0 && got.nodes == 0 && got.fragment_length == 0);
        }
}

/* A fragment board at every stage of the other kind's records, and a notice
 * board; both say 21 at 0 and change nothing. */
static void a_board_of_one_kind_refuses_the_other_s_kinds_with_21_at_0(void)
{
    static uint8_t state[TUMBELIKO_STATE_BYTES(4, 10)], was[sizeof state], out[REF_OUT], delivery[16], parts[64];
    tumbeliko_stepped did;

    CHECK(tumbeliko_start(4, 1, 2, 16, 1, state, sizeof state) == 0);
    memcpy(was, state, sizeof state);
    for (uint32_t kind = SEND; kind <= VOTE; kind++)
        for (uint32_t from = 1; from <= 4; from++)
            for (uint32_t length = 0; length <= LONGEST; length += 8) {
                size_t len = notice_record(kind, random_notice(length), record);

                did = tumbeliko_step(state, sizeof state, from, record, len, out, sizeof out, delivery, sizeof delivery);
                CHECK(did.number == 21 && did.offset == 0 && did.record_length == 0 && did.delivery == NONE);
                CHECK(did.message_length == 0 && memcmp(state, was, sizeof state) == 0);
                did = tumbeliko_step(state, sizeof state, 5, record, len, out, sizeof out, delivery, sizeof delivery);
                CHECK(did.number == 4);
            }
    random_bytes(parts, sizeof parts);
    for (int stage = 0; stage < STAGES; stage++)
        for (uint32_t kind = 1; kind <= 3; kind++)
            for (uint32_t from = 1; from <= 4; from++) {
                size_t len = ref_write_record(kind, parts, 32, parts, 0, parts, kind == 3 ? 0 : 9, out, REF_OUT).length;
                ref_stepped got;

                begin(4, 1, 2, 1);
                random_sound_state(stage);
                got = check_step(from, out, len);
                CHECK(got.number == 21 && got.offset == 0);
                got = check_step(5, out, len);
                CHECK(got.number == 4 && got.offset == 0);
                record[0] = (uint8_t)kind;                      /* the other's kind, and this one's form */
                memcpy(record + 1, "\0\2go", 4);
                got = check_step(from, record, 5);
                CHECK(got.number == 21 && got.offset == 0);
            }
}

/* ---- write notice */

static void what_is_written_is_read_back(void)
{
    for (uint32_t kind = SEND; kind <= VOTE; kind++)
        for (uint32_t length = 0; length <= LONGEST; length++) {
            notice one = random_notice(length);
            ref_written written = check_writer(kind, one.bytes, length, OUT);
            ref_notice read;

            CHECK(written.number == 0 && written.offset == 0 && written.length == length + 3);
            CHECK(notice_record(kind, one, record) == written.length && memcmp(new_out, record, written.length) == 0);
            read = check_reader(new_out, written.length);
            CHECK(read.number == 0 && read.kind == kind && read.length == length);
        }
}

static void what_is_read_is_what_would_be_written(void)
{
    unsigned read = 0;

    for (int i = 0; i < 4000; i++) {
        size_t len = notice_record(SEND + random_below(3), random_notice(random_below(LONGEST + 1)), record);
        ref_notice got;

        flip_a_bit(record, len);
        got = check_reader(record, len);
        if (got.number != 0)
            continue;
        read++;
        CHECK(check_writer(got.kind, record + NOTICE_AT, got.length, OUT).length == len);
        CHECK(memcmp(new_out, record, len) == 0);
    }
    CHECK(read > 500);
}

/* Every combination of faults, so every pair too. */
static void the_writer_looks_in_the_order_2_21_24(void)
{
    static const uint32_t kinds[] = { 4, 5, 6, 0, 1, 2, 3, 7, 255, 256, 256 + 4, 256 + 6, 65536 + 5, 0x80000004, 0xffffffff };
    static const size_t lengths[] = { 0, 1, 63, 64, 65, 66, 127, 128, 255, 256, 256 + 5, 65535, 65536, 65536 + 5 };
    static const size_t outs[] = { OUT, OUT + 1, REF_OUT, OUT - 1, 64, 8, 3, 0 };

    random_bytes(data, sizeof data);
    for (size_t k = 0; k < sizeof kinds / sizeof *kinds; k++)
        for (size_t l = 0; l < sizeof lengths / sizeof *lengths; l++)
            for (size_t o = 0; o < sizeof outs / sizeof *outs; o++) {
                ref_written got = check_writer(kinds[k], data, lengths[l], outs[o]);
                fault right = outs[o] < 67 ? (fault){ 2, 0 } : k >= 3 ? (fault){ 21, 0 }
                              : lengths[l] > 64 ? (fault){ 24, 1 } : (fault){ 0, 0 };

                CHECK(got.number == right.number && got.offset == right.offset);
                CHECK(got.length == (right.number == 0 ? lengths[l] + 3 : 0));
            }
}

static void lengths_above_2_to_the_32_are_refused_by_the_writer_with_24(void)
{
    size_t more = (size_t)1 << 32, len = more + 65536;
    uint8_t *bytes = vast(len), out[OUT], was[OUT];
    tumbeliko_written got;

    CHECK(bytes != NULL);
    if (bytes == NULL)
        return;
    random_bytes(out, sizeof out);
    memcpy(was, out, sizeof out);
    for (size_t extra = 0; extra <= 70; extra++) {
        got = tumbeliko_write_notice(ECHO, bytes, more + extra, out, OUT);
        CHECK(got.number == 24 && got.offset == 1 && got.length == 0);
    }
    CHECK(memcmp(out, was, sizeof out) == 0);
    CHECK(tumbeliko_write_notice(VOTE, data, 9, bytes, more).length == 12);
    CHECK(tumbeliko_write_notice(VOTE, data, 9, bytes, more + 5).length == 12);
    CHECK(tumbeliko_read_notice(bytes, 12).kind == VOTE);
    give_back_vast(bytes, len);
}

/* ---- start */

static void a_start_writes_the_first_8352_bytes_and_leaves_the_rest(void)
{
    for (int i = 0; i < 300; i++) {
        ref_table b = random_table(64);
        uint32_t own = 1 + random_below(b.n);

        CHECK(check_start(b, own, STATE) == 0);
        CHECK(ref_notice_sound(&board));
        CHECK(check_start(b, own, STATE + 1 + random_below(3000)) == 0);
        CHECK(check_start(b, own, STATE - 1) == 2);
        CHECK(check_start(b, own, random_below(STATE)) == 2);
    }
    CHECK(check_start(make_table(64, 21, 64), 64, 8352) == 0);
    CHECK(check_start(make_table(64, 21, 64), 64, 8351) == 2);
    CHECK(check_start(make_table(1, 0, 1), 1, 8352) == 0);
    CHECK(check_start(make_table(1, 0, 1), 1, 8351) == 2);
    CHECK(check_start(make_table(1, 0, 1), 1, 4608) == 2);
    CHECK(check_start(make_table(1, 0, 1), 1, 0) == 2);
}

static void every_table_near_its_limits_is_judged_at_a_start(void)
{
    uint8_t none = 0;

    for (uint32_t n = 0; n <= 66; n++)
        for (uint32_t t = 0; t <= 23; t++)
            for (uint32_t s = 0; s < 5; s++)
                for (uint32_t o = 0; o < 5; o++) {
                    uint32_t sender = (const uint32_t[]){ 0, 1, n / 2, n, n + 1 }[s];
                    uint32_t own = (const uint32_t[]){ 0, 1, n / 2, n, n + 1 }[o];
                    bool within = n >= 1 && n <= 64 && 3 * t < n && sender >= 1 && sender <= n && own >= 1 && own <= n;

                    /* with no buffer, 2 says that the numbers were taken */
                    CHECK(tumbeliko_notice_start(n, t, sender, own, &none, 0) == (within ? 2 : 1));
                }
}

static void numbers_near_2_to_the_32_are_refused_with_1_at_a_start(void)
{
    static const uint32_t owns[] = { 0, 8, 64, 65, 256, 257, 65537, 0x80000001, 0xfffffffe, 0xffffffff };

    for (size_t i = 0; i < BAD_TABLES; i++) {
        CHECK(check_start(bad_tables[i], 1, STATE + 100) == 1);
        CHECK(check_start(bad_tables[i], 1, 0) == 1);
    }
    for (size_t i = 0; i < sizeof owns / sizeof *owns; i++) {
        CHECK(check_start(make_table(7, 2, 1), owns[i], STATE) == 1);
        CHECK(check_start(make_table(7, 2, 1), owns[i], 100) == 1);
    }
    for (uint32_t n = 1; n <= 64; n++)
        for (uint32_t t = 1431655765; t <= 1431655765 + 22; t++) {
            CHECK(tumbeliko_notice_start(n, t, 1, 1, data, sizeof data) == 1);
            CHECK(tumbeliko_notice_start(n, t + 1431655765, 1, 1, data, sizeof data) == 1);
        }
}

static void a_start_over_a_used_state_is_not_refused(void)
{
    for (int i = 0; i < 60; i++) {
        begin_random(13);
        random_sound_state(i % STAGES);
        memcpy(old_state, work.state, STATE);
        CHECK(check_start_over(work.b, work.own, STATE) == 0);
        CHECK(check_start_over(random_table(4), 1, STATE) == 0);
    }
}

/* ---- send */

static void the_sender_s_record_is_the_same_for_every_board(void)
{
    for (int i = 0; i < 60; i++) {
        ref_table b = random_table(64);
        notice one = random_notice(i < 20 ? LONGEST * (uint32_t)(i % 2) : random_below(LONGEST + 1));

        for (uint32_t to = 1; to <= b.n; to++) {
            ref_sized sent = check_send(b, one.bytes, one.length, to, OUT + random_below(40));

            CHECK(sent.number == 0 && sent.length == notice_record(SEND, one, record));
            CHECK(memcmp(new_out, record, sent.length) == 0);
        }
    }
}

static void a_notice_of_64_bytes_is_taken_and_of_65_refused_with_13(void)
{
    random_bytes(data, sizeof data);
    for (size_t len = 0; len <= 300; len++)
        CHECK(check_send(make_table(7, 2, 3), data, len, 1 + (uint32_t)len % 7, OUT).number == (len <= 64 ? 0 : 13));
    for (size_t len = 65536; len <= 65536 + 70; len++)
        CHECK(check_send(make_table(7, 2, 3), data, len, 1, OUT).number == 13);
}

static void a_notice_above_2_to_the_32_bytes_is_refused_with_13(void)
{
    size_t more = (size_t)1 << 32;
    uint8_t *bytes = vast(more + 100);

    CHECK(bytes != NULL);
    if (bytes == NULL)
        return;
    for (size_t extra = 0; extra <= 70; extra++)
        CHECK(tumbeliko_notice_send(4, 1, 1, bytes, more + extra, 1, data, OUT).number == 13);
    CHECK(tumbeliko_notice_send(4, 1, 1, data, 5, 1, bytes, more + 5).length == 8);
    CHECK(tumbeliko_notice_send(4, 1, 1, data, 5, 1, bytes, more).length == 8);
    give_back_vast(bytes, more + 100);
}

/* Every combination of faults, so every pair too. */
static void the_sender_looks_in_the_order_1_2_4_13(void)
{
    static const uint32_t tos[] = { 3, 7, 0, 8, 64, 256 + 3, 0x80000001, 0xffffffff };
    static const size_t outs[] = { OUT, OUT - 1, 64, 0 }, lengths[] = { 64, 0, 65, 90 };
    ref_table good = make_table(7, 2, 2);

    random_bytes(data, 100);
    for (size_t bad = 0; bad <= BAD_TABLES; bad++)
        for (size_t small = 0; small < 4; small++)
            for (size_t to = 0; to < sizeof tos / sizeof *tos; to++)
                for (size_t len = 0; len < 4; len++) {
                    uint32_t number = bad ? 1 : small ? 2 : to >= 2 ? 4 : len >= 2 ? 13 : 0;

                    CHECK(check_send(bad == 0 ? good : bad_tables[bad - 1], data, lengths[len], tos[to],
                                     outs[small]).number == number);
                }
}

/* ---- step: refusals */

/* The faults of a step in the order in which it looks: a state under 8,352
 * bytes first. Each may be there in several ways. The number of a record that
 * is not of the form goes by the way. */
enum { TINY, NOT_SOUND, SHORT, NO_BOARD, BAD_FORM, NO_SENDER, LATE, SECOND, FAULTS };
static const uint32_t fault_number[FAULTS] = { 2, 3, 2, 4, 0, 6, 8, 9 };
static const int fault_ways[FAULTS] = { 4, UNSOUND, 3, 5, 9, 2, 2, 1 };

/* Spoils the record's form in that way. Answers what it is refused with. */
static fault spoil_form(int way, uint32_t kind, size_t *len)
{
    size_t whole = *len;

    switch (way) {
    case 0:
        record[(*len)++] = 0;
        return (fault){ 25, whole };
    case 1:
        (*len)--;
        return (fault){ 20, whole == NOTICE_AT ? COUNT_AT : NOTICE_AT };
    case 2:
        record[KIND_AT] = 0;
        return (fault){ 21, KIND_AT };
    case 3:
        record[KIND_AT] = (uint8_t)(kind - 3);
        return (fault){ 21, KIND_AT };
    case 4:
        record[KIND_AT] = (uint8_t)(kind + 3);
        return (fault){ 21, KIND_AT };
    case 5:
        *len = 0;
        return (fault){ 20, KIND_AT };
    case 6:
        put_count(record + COUNT_AT, 65);
        return (fault){ 24, COUNT_AT };
    case 7:
        record[COUNT_AT] = 1;
        return (fault){ 24, COUNT_AT };
    default:
        *len = 2;
        return (fault){ 20, COUNT_AT };
    }
}

/* Tries a record of that kind with these faults, fault f in the way ways[f]
 * where bit f is set, and says if the refusal is that of the first. */
static void try_faults(uint32_t kind, unsigned faults, const int *ways)
{
    uint32_t from = 2;
    fault right = { 0, 0 };
    size_t out = OUT, delivery = LONGEST, len, state = STATE;
    ref_stepped did;

    begin(4, 1, 2, 1);
    if (faults >> NO_SENDER & 1)
        from = ways[NO_SENDER] ? 1 : 4;
    len = notice_record(kind, work.said[0], record);
    if (faults >> LATE & 1)
        set_flags(0, 1, ways[LATE] ? 200 : 1);
    if (faults >> SECOND & 1) {
        if (kind == SEND)
            work.state[ACQUIRED] = 1;
        else
            heard(kind, from, work.said[0]);
    }
    for (int f = FAULTS - 1; f >= 0; f--)
        if (faults >> f & 1)
            right = f == BAD_FORM ? spoil_form(ways[f], kind, &len) : (fault){ fault_number[f], 0 };
    if (faults >> NO_BOARD & 1)
        from = (const uint32_t[]){ 0, 5, 256 + 2, 0xffffffff, 0x80000002 }[ways[NO_BOARD]];
    if (faults >> NOT_SOUND & 1)
        make_unsound(ways[NOT_SOUND]);
    if (faults >> SHORT & 1)
        switch (ways[SHORT]) {
        case 0: out--; break;
        case 1: delivery--; break;
        case 2: out = delivery = 0; break;
        }
    if (faults >> TINY & 1)
        state = (const size_t[]){ STATE - 1, 4608, 23, 0 }[ways[TINY]];
    did = check_step_with(work.state, state, from, record, len, out, delivery);
    CHECK(did.number == right.number && did.offset == right.offset);
}

/* Which faults a record of a kind may have. */
static bool may_have(uint32_t kind, int fault)
{
    return kind == SEND || fault != NO_SENDER;
}

static void each_fault_of_a_step_is_refused_with_its_number(void)
{
    for (uint32_t kind = SEND; kind <= VOTE; kind++) {
        int ways[FAULTS] = { 0 };

        try_faults(kind, 0, ways);
        for (int f = 0; f < FAULTS; f++)
            for (ways[f] = 0; may_have(kind, f) && ways[f] < fault_ways[f]; ways[f]++)
                try_faults(kind, 1u << f, ways);
    }
}

static void of_every_pair_of_faults_a_step_answers_the_first_in_the_order_3_2_4_form_6_8_9(void)
{
    for (uint32_t kind = SEND; kind <= VOTE; kind++)
        for (int f = 0; f < FAULTS; f++)
            for (int g = f + 1; g < FAULTS; g++) {
                int ways[FAULTS] = { 0 };

                if (!may_have(kind, f) || !may_have(kind, g))
                    continue;
                for (ways[f] = 0; ways[f] < fault_ways[f]; ways[f]++)
                    for (ways[g] = 0; ways[g] < fault_ways[g]; ways[g]++)
                        try_faults(kind, 1u << f | 1u << g, ways);
            }
}

static void of_all_faults_together_a_step_answers_the_first(void)
{
    for (uint32_t kind = SEND; kind <= VOTE; kind++)
        for (unsigned faults = 0; faults < 1u << FAULTS; faults++)
            for (int turn = 0; turn < 4; turn++) {
                int ways[FAULTS];
                bool may = true;

                for (int f = 0; f < FAULTS; f++) {
                    ways[f] = (int)random_below((uint32_t)fault_ways[f]);
                    may = may && (!(faults >> f & 1) || may_have(kind, f));
                }
                if (may)
                    try_faults(kind, faults, ways);
            }
}

/* Cuts of a record, and every other kind and count in it, to a board of each
 * stage: a record that cannot be read is refused as the reader refuses it. */
static void a_step_names_the_field_at_fault_as_the_reader_does(void)
{
    static uint8_t sound[STATE];

    forget_what_was_seen();
    for (int stage = 0; stage < STAGES; stage++)
        for (uint32_t kind = SEND; kind <= VOTE; kind++)
            for (uint32_t length = 0; length <= LONGEST; length += 32) {
                uint32_t from = kind == SEND ? 1 : 3;
                size_t len;

                begin(7, 2, 1, 7);
                random_sound_state(stage);
                memcpy(sound, work.state, STATE);
                len = notice_record(kind, random_notice(length), record);
                for (size_t i = 0; i < len + 4 + 3 * 256; i++) {
                    size_t cut = i < len + 4 ? i : len, at = i < len + 4 ? 0 : (i - len - 4) / 256;
                    uint8_t was = record[at];
                    ref_notice read;
                    ref_stepped did;

                    if (i >= len + 4)
                        record[at] = (uint8_t)(i - len - 4);
                    memcpy(work.state, sound, STATE);
                    read = ref_read_notice(record, cut);
                    did = check_step(from, record, cut);
                    CHECK(read.number == 0 ? !ref_form_fault(did.number) && did.offset == 0
                                           : did.number == read.number && did.offset == read.offset);
                    record[at] = was;
                }
            }
    CHECK(refusals[20] > 100 && refusals[21] > 100 && refusals[24] > 100 && refusals[25] > 20);
}

static void a_state_under_8352_bytes_gives_2_at_once(void)
{
    size_t len;

    begin(4, 1, 2, 1);
    len = notice_record(VOTE, work.said[0], record);
    for (size_t state = 0; state < STATE; state += 1 + random_below(60)) {
        CHECK(check_step_with(work.state, state, 1, record, len, OUT, LONGEST).number == 2);
        random_bytes(data, STATE);
        CHECK(check_step_with(data, state, 0, record, 2, 0, 0).number == 2);
    }
    CHECK(check_step_with(work.state, STATE - 1, 1, record, len, OUT, LONGEST).number == 2);
    random_bytes(data, STATE);
    CHECK(check_step_with(data, STATE, 0, record, 2, 0, 0).number == 3);
}

static void a_step_needs_its_buffers_and_leaves_the_bytes_beyond(void)
{
    for (int i = 0; i < 200; i++) {
        size_t len, more;

        begin_random(13);
        len = notice_record(ECHO, work.said[0], record);
        CHECK(check_step_with(work.state, STATE - 1, 1, record, len, OUT, LONGEST).number == 2);
        CHECK(check_step_with(work.state, STATE, 1, record, len, OUT - 1, LONGEST).number == 2);
        CHECK(check_step_with(work.state, STATE, 1, record, len, OUT, LONGEST - 1).number == 2);
        CHECK(check_step_with(work.state, STATE, 1, record, len, OUT, 0).number == 2);
        CHECK(check_step_with(work.state, STATE, 1, record, len, 0, LONGEST).number == 2);
        random_bytes(work.state + STATE, 400);
        more = random_below(400);
        CHECK(check_step_with(work.state, STATE + more, 1, record, len, OUT + random_below(300),
                              LONGEST + random_below(300)).number == 0);
    }
}

static void lengths_above_2_to_the_32_are_no_shorter_for_it(void)
{
    size_t more = (size_t)1 << 32, len;
    uint8_t *bytes = vast(more + 70000);
    tumbeliko_stepped did;

    CHECK(bytes != NULL);
    if (bytes == NULL)
        return;
    begin(4, 1, 2, 1);
    len = notice_record(ECHO, work.said[0], bytes);
    did = tumbeliko_notice_step(work.state, STATE, 1, bytes, more + len, old_out, OUT, old_delivery, LONGEST);
    CHECK(did.number == 25 && did.offset == len);
    notice_record(ECHO, work.said[0], record);
    memcpy(bytes, work.state, STATE);
    CHECK(tumbeliko_notice_step(bytes, more, 1, record, len, old_out, OUT, old_delivery, LONGEST).number == 0);
    CHECK(tumbeliko_notice_step(bytes, STATE, 1, record, len, old_out, OUT, old_delivery, LONGEST).number == 9);
    CHECK(tumbeliko_notice_step(work.state, STATE, 1, record, len, bytes, more, old_delivery, LONGEST).number == 0);
    CHECK(tumbeliko_notice_step(work.state, STATE, 3, record, len, old_out, OUT, bytes, more + 3).number == 0);
    CHECK(tumbeliko_notice_start(4, 1, 2, 1, bytes, more + 5) == 0);
    give_back_vast(bytes, more + 70000);
}

/* ---- step: soundness */

/* The board of n 4, t 1 with one clause broken and all else free: fresh, or
 * with a word heard that plays no part. */
static void every_clause_of_soundness_broken_alone_is_refused_with_3(void)
{
    for (int way = 0; way < UNSOUND; way++)
        for (int turn = 0; turn < 20; turn++) {
            uint32_t kind = SEND + random_below(3);

            begin(4, 1, 2, 1);
            if (turn % 2)
                heard(way < 24 ? ECHO : VOTE, 2, work.said[1]);
            CHECK(sound_now());
            make_unsound(way);
            fill_free_bytes();
            CHECK(!sound_now());
            CHECK(hand(kind, 2, work.said[0]).number == 3);
            CHECK(check_step(0, record, 2).number == 3);
        }
}

/* Each clause at its limit, and on the sound side of it. */
static void states_at_the_limits_of_soundness_are_taken(void)
{
    begin(64, 21, 64, 64);
    for (uint32_t from = 1; from <= 64; from++) {       /* every place of the sets, and empty ones */
        begin(64, 21, 64, 64);
        heard(ECHO, from, work.said[0]);
        heard(VOTE, 65 - from, random_notice(LONGEST));
        CHECK(hand(ECHO, from % 64 + 1, work.said[3]).number == 0);
        CHECK(hand(ECHO, from, work.said[0]).number == 9);
        CHECK(hand(VOTE, 65 - from, work.said[0]).number == 9);
    }
    for (uint32_t n = 1; n <= 64; n++)
        for (uint32_t t = 0; 3 * t < n; t++) {          /* one echo, one vote fewer than would be overdue */
            begin(n, t, n, 1);
            for (uint32_t from = 2; from <= n - t; from++)
                heard(ECHO, from, work.said[0]);
            for (uint32_t from = n - t + 1; from <= n; from++)
                heard(ECHO, from, work.said[from % 2 ? 1 : 2]);
            for (uint32_t from = n - t + 1; from <= n; from++)
                heard(VOTE, from, work.said[0]);
            CHECK(sound_now());
            CHECK(puts_out(hand(SEND, n, work.said[0]), ECHO, work.said[0]));
            if (t > 0)                                  /* one more is one too many */
                heard(VOTE, 1, work.said[0]);
            else
                heard(ECHO, 1, work.said[0]);
            CHECK(hand(VOTE, n, work.said[0]).number == 3);
            work.state[VOTED] = 1;                      /* and not once voted */
            memset(work.state + VOTES, 0, 8);
            for (uint32_t from = 1; from <= n; from++)
                *place_of(work.state, VOTE, from) = 0;
            for (uint32_t from = 1; from < n - t; from++)
                heard(VOTE, from, work.said[0]);
            CHECK(sound_now());
            CHECK(hand(SEND, n, work.said[0]).number == 9);
            heard(VOTE, n, work.said[0]);
            CHECK(hand(SEND, n, work.said[0]).number == 3);
            work.state[DONE] = 1;
            CHECK(hand(SEND, n, work.said[0]).number == 8);
        }
}

static void a_done_board_that_heard_nothing_is_sound_and_refuses_with_8(void)
{
    for (uint32_t n = 1; n <= 64; n += 9) {
        begin(n, (n - 1) / 3, n, 1);
        set_flags(0, 1, 1);
        for (uint32_t kind = SEND; kind <= VOTE; kind++)
            CHECK(hand(kind, n, work.said[0]).number == 8);
        for (uint32_t from = 1; from <= n; from++)      /* nor is anything overdue */
            heard(VOTE, from, work.said[0]), heard(ECHO, from, work.said[0]);
        CHECK(hand(VOTE, n, work.said[0]).number == 8);
    }
}

static void a_board_that_voted_and_heard_nothing_is_sound_and_votes_no_more(void)
{
    for (uint32_t n = 1; n <= 13; n++) {
        begin(n, (n - 1) / 3, n, 1);
        set_flags(0, 1, 0);
        CHECK(puts_out(hand(SEND, n, work.said[0]), ECHO, work.said[0]));
        for (uint32_t from = 1; from <= n; from++)
            CHECK(puts_out(hand(ECHO, from, work.said[0]), 0, work.said[0]));
        for (uint32_t from = 1; from < n - work.b.t; from++)
            CHECK(puts_out(hand(VOTE, from, work.said[0]), 0, work.said[0]));
        CHECK(delivers(hand(VOTE, n, work.said[0]), work.said[0]));
    }
}

static void a_flag_byte_other_than_0_is_true_and_a_step_writes_0_or_1(void)
{
    for (uint32_t value = 1; value < 256; value++) {
        begin(4, 1, 2, 1);
        set_flags((uint8_t)value, (uint8_t)value, 0);
        CHECK(hand(SEND, 2, work.said[0]).number == 9);
        CHECK(work.state[ACQUIRED] == value && work.state[VOTED] == value);
        CHECK(puts_out(hand(VOTE, 2, work.said[0]), 0, work.said[0]));
        CHECK(work.state[ACQUIRED] == 1 && work.state[VOTED] == 1 && work.state[DONE] == 0);
        CHECK(puts_out(hand(VOTE, 3, work.said[0]), 0, work.said[0]));
        set_flags(0, (uint8_t)value, (uint8_t)value);
        CHECK(hand(VOTE, 4, work.said[0]).number == 8);
        set_flags(0, 0, (uint8_t)value);
        CHECK(hand(VOTE, 4, work.said[0]).number == 3);
    }
}

/* The same records to two boards that differ in free bytes alone. */
static void spare_bytes_and_what_stands_after_a_notice_are_not_looked_at_and_stay(void)
{
    static uint8_t twin[STATE];

    for (int i = 0; i < 200; i++) {
        notice one;
        uint32_t need;

        begin_random(i % 10 ? 13 : 64);
        one = work.said[i % SAID];
        need = work.b.n - work.b.t;
        random_sound_state(BEFORE_VOTE);
        memcpy(twin, work.state, STATE);
        for (int turn = 0; turn < 10; turn++) {
            uint32_t from = 1 + random_below(work.b.n);
            size_t len = random_record(from);
            uint8_t mine[OUT], my_notice[LONGEST];
            ref_stepped did, other;

            fill_free_bytes();
            did = check_step(from, record, len);
            memcpy(mine, new_out, did.record_length);
            memcpy(my_notice, new_delivery, did.message_length);
            other = check_step_with(twin, STATE, from, record, len, OUT, LONGEST);
            CHECK(memcmp(&did, &other, sizeof did) == 0);
            CHECK(memcmp(mine, new_out, did.record_length) == 0);
            CHECK(memcmp(my_notice, new_delivery, did.message_length) == 0);
        }
        begin(work.b.n, work.b.t, work.b.sender, work.own);
        for (uint32_t kind = ECHO; i % 2 && kind <= VOTE; kind++)       /* bytes that would be a quorum if they counted */
            for (uint32_t from = 1; from <= 64; from++)
                memcpy(place_of(work.state, kind, from) + 1, one.bytes, one.length);
        for (uint32_t from = 1; from <= need; from++)
            CHECK(puts_out(hand(ECHO, from, one), from == need ? VOTE : 0, one));
        for (uint32_t from = 1; from < need; from++)
            CHECK(puts_out(hand(VOTE, from, one), 0, one));
        CHECK(delivers(hand(VOTE, need, one), one));
    }
}

static void random_bytes_as_a_state_are_judged_as_the_reference_judges_them(void)
{
    unsigned taken = 0;

    for (int i = 0; i < 2000; i++) {
        uint32_t from;

        begin_random(i % 50 ? 7 : 64);
        random_bytes(work.state, STATE);
        if (i % 10 > 0)
            memcpy(work.state, (const uint8_t[]){ (uint8_t)work.b.n, (uint8_t)work.b.t, (uint8_t)work.b.sender,
                                                  (uint8_t)work.own }, 4);
        if (i % 10 > 2)
            for (uint32_t kind = ECHO; kind <= VOTE; kind++)
                for (uint32_t j = 1; j <= 64; j++) {
                    uint8_t *set = work.state + (kind == ECHO ? ECHOES : VOTES) + 7 - (j - 1) / 8;

                    if (j > work.b.n)
                        *set &= (uint8_t)~(1 << (j - 1) % 8);
                    *place_of(work.state, kind, j) = (uint8_t)(*set >> (j - 1) % 8 & 1 ? random_below(i % 10 > 3 ? 65 : 67) : 0);
                }
        for (int f = ACQUIRED; i % 10 > 4 && f <= DONE; f++)
            work.state[f] = (uint8_t)(random_below(3) ? work.state[f] : 0);
        from = 1 + random_below(work.b.n);
        taken += check_step(from, record, random_record(from)).number != 3;
    }
    CHECK(taken > 200 && taken < 1800);
}

static void single_flipped_bits_of_sound_states_are_judged_as_the_reference_judges_them(void)
{
    static uint8_t sound[STATE];

    forget_what_was_seen();
    for (int stage = 0; stage < STAGES; stage++)
        for (int turn = 0; turn < 3; turn++) {
            begin_random(turn ? 13 : 5);
            random_sound_state(stage);
            memcpy(sound, work.state, STATE);
            for (size_t bit = 0; bit < 8 * STATE; bit++) {
                uint32_t from = 1 + random_below(work.b.n);
                size_t at = bit / 8, len;

                /* all bits of the head, of the lengths and of the first places; of the others now and then */
                if (at >= ECHO_PLACES && (at - ECHO_PLACES) % PLACE > 2 && random_below(60) != 0)
                    continue;
                len = notice_record(ECHO + (uint32_t)bit % 2, work.said[0], record);
                memcpy(work.state, sound, STATE);
                work.state[at] ^= (uint8_t)(1 << bit % 8);
                check_step(from, record, len);
            }
        }
    CHECK(refusals[3] > 1000);
}

/* ---- step: what an accepted record does */

static void the_first_send_is_echoed_whole(void)
{
    for (uint32_t length = 0; length <= LONGEST; length++)
        for (int stage = BEFORE_VOTE; stage <= AFTER_VOTE; stage++) {
            notice one = random_notice(length);
            uint64_t echoes;

            begin_random(length % 8 ? 13 : 64);
            random_sound_state(stage);
            work.state[ACQUIRED] = 0;
            memcpy(&echoes, work.state + ECHOES, 8);
            CHECK(puts_out(hand(SEND, work.b.sender, one), ECHO, one));
            CHECK(work.state[ACQUIRED] == 1);
            CHECK(memcmp(&echoes, work.state + ECHOES, 8) == 0);        /* it counts only when handed over */
            CHECK(hand(SEND, work.b.sender, one).number == 9);
            CHECK(hand(SEND, work.b.sender, random_notice(length)).number == 9);
        }
}

static void a_send_is_late_only_once_the_board_is_done(void)
{
    for (uint32_t n = 1; n <= 13; n++) {
        notice one;

        begin(n, (n - 1) / 3, n, 1);
        one = work.said[0];
        for (uint32_t from = 1; from <= n; from++)              /* voted, and one vote short of the delivery */
            hand(ECHO, from, one);
        CHECK(work.state[VOTED] == 1);
        for (uint32_t from = 1; from < n - work.b.t; from++)
            CHECK(puts_out(hand(VOTE, from, one), 0, one));
        CHECK(puts_out(hand(SEND, n, work.said[2]), ECHO, work.said[2]));
        CHECK(hand(SEND, n, one).number == 9);
        CHECK(delivers(hand(VOTE, n, one), one));
        CHECK(hand(SEND, n, one).number == 8);
        CHECK(hand(SEND, 1, one).number == (n == 1 ? 8 : 6));
        begin(n, (n - 1) / 3, n, 1);
        for (uint32_t from = 1; from <= n - work.b.t; from++)   /* delivered without a send */
            hand(VOTE, from, work.said[0]);
        CHECK(work.state[DONE] == 1 && work.state[ACQUIRED] == 0);
        CHECK(hand(SEND, n, work.said[0]).number == 8);
    }
}

static void a_refused_send_is_not_used_up(void)
{
    begin(4, 1, 2, 1);
    for (int way = 0; way < fault_ways[BAD_FORM]; way++) {
        size_t len = notice_record(SEND, work.said[0], record);
        fault right = spoil_form(way, SEND, &len);

        CHECK(check_step(2, record, len).number == right.number);
    }
    CHECK(hand(SEND, 3, work.said[0]).number == 6);
    CHECK(hand(SEND, 5, work.said[0]).number == 4);
    CHECK(work.state[ACQUIRED] == 0);
    CHECK(puts_out(hand(SEND, 2, work.said[0]), ECHO, work.said[0]));
    CHECK(hand(SEND, 2, work.said[0]).number == 9);
}

/* From the highest board down, and from the lowest up. */
static void n_minus_t_echoes_or_t_plus_1_votes_for_one_notice_bring_a_vote(void)
{
    for (uint32_t n = 1; n <= 64; n++)
        for (uint32_t t = 0; 3 * t < n; t++)
            for (uint32_t kind = ECHO; kind <= VOTE; kind++) {
                uint32_t need = kind == ECHO ? n - t : t + 1;

                if (n == 1 && kind == VOTE)             /* delivers at once */
                    continue;
                begin(n, t, 1, n);
                for (uint32_t i = 1; i <= need; i++) {
                    uint32_t from = t % 2 ? i : n + 1 - i;

                    CHECK(puts_out(hand(kind, from, work.said[0]), i == need ? VOTE : 0, work.said[0]));
                }
                CHECK(work.state[VOTED] == 1 && work.state[DONE] == 0);
            }
}

static void n_minus_t_votes_deliver_the_notice_once(void)
{
    for (uint32_t n = 2; n <= 64; n++)
        for (uint32_t t = 0; 3 * t < n; t++)
            for (int echoed = 0; echoed < 2; echoed++) {
                notice one;

                begin(n, t, 1, n);
                one = work.said[n % SAID];
                for (uint32_t from = 1; echoed && from <= n - t; from++)
                    CHECK(puts_out(hand(ECHO, from, one), from == n - t ? VOTE : 0, one));
                for (uint32_t i = 1; i < n - t; i++)
                    CHECK(puts_out(hand(VOTE, n + 1 - i, one), !echoed && i == t + 1 ? VOTE : 0, one));
                CHECK(delivers(hand(VOTE, 1, one), one) && board.done && work.state[DONE] == 1);
                for (uint32_t kind = SEND; kind <= VOTE; kind++)
                    CHECK(hand(kind, 1, one).number == 8);
            }
}

/* n 1: the vote first brings a vote and the delivery in one step. */
static void one_board_puts_out_a_vote_and_delivers_at_once(void)
{
    for (uint32_t length = 0; length <= LONGEST; length++)
        for (int sent = 0; sent < 2; sent++) {
            notice one = random_notice(length);
            ref_stepped did;

            begin(1, 0, 1, 1);
            if (sent)
                CHECK(puts_out(hand(SEND, 1, one), ECHO, one));
            did = hand(VOTE, 1, one);
            CHECK(did.record_length == length + 3 && delivers(did, one));
            CHECK(new_out[0] == VOTE && new_out[1] == 0 && new_out[2] == length && memcmp(new_out + 3, one.bytes, length) == 0);
            CHECK(work.state[VOTED] == 1 && work.state[DONE] == 1);
            CHECK(hand(SEND, 1, one).number == 8 && hand(ECHO, 1, one).number == 8);
            begin(1, 0, 1, 1);
            CHECK(puts_out(hand(ECHO, 1, one), VOTE, one));
            CHECK(puts_out(hand(SEND, 1, work.said[0]), ECHO, work.said[0]));
            did = hand(VOTE, 1, one);
            CHECK(did.record_length == 0 && delivers(did, one));
        }
}

/* What is no notice's double: bytes that begin it, bytes after it, one bit
 * anywhere, the empty one. */
static void notices_are_one_only_if_lengths_and_bytes_are(void)
{
    for (uint32_t kind = ECHO; kind <= VOTE; kind++)
        for (uint32_t length = 0; length <= LONGEST; length++)
            for (int way = 0; way < 4; way++) {
                notice one = random_notice(length), other = one;

                switch (way) {
                case 0: other.length = length == 0 ? 1 : length - 1; break;
                case 1: other.length = length == LONGEST ? 0 : length + 1; break;
                case 2: if (length > 0) other.bytes[length - 1] ^= 0x80; else other.length = LONGEST; break;
                case 3: if (length > 0) flip_a_bit(other.bytes, length); else other.length = 2; break;
                }
                begin(4, 1, 1, 1);
                if (kind == ECHO) {
                    CHECK(puts_out(hand(ECHO, 1, one), 0, one) && puts_out(hand(ECHO, 2, other), 0, one));
                    CHECK(puts_out(hand(ECHO, 3, one), 0, one) && puts_out(hand(ECHO, 4, one), VOTE, one));
                } else {
                    CHECK(puts_out(hand(VOTE, 4, one), 0, one) && puts_out(hand(VOTE, 3, other), 0, one));
                    CHECK(puts_out(hand(VOTE, 2, one), VOTE, one) && delivers(hand(VOTE, 1, one), one));
                }
            }
}

static void a_second_echo_or_vote_from_a_board_is_refused_with_9_and_does_not_count(void)
{
    for (int i = 0; i < 20; i++) {
        notice one, other;

        begin(7, 2, 2, 1);
        one = work.said[0];
        other = work.said[1 + i % 2];
        CHECK(puts_out(hand(VOTE, 3, one), 0, one) && puts_out(hand(ECHO, 3, one), 0, one));
        CHECK(puts_out(hand(VOTE, 7, one), 0, one));
        for (int j = 0; j < 6; j++) {
            CHECK(hand(VOTE, 3, j % 2 ? one : other).number == 9);
            CHECK(hand(ECHO, 3, j % 2 ? one : other).number == 9);
            CHECK(hand(VOTE, 7, j % 2 ? one : other).number == 9);
        }
        CHECK(puts_out(hand(ECHO, 7, one), 0, one));            /* an echo beside a vote of the same board */
        CHECK(puts_out(hand(VOTE, 1, other), 0, one));
        CHECK(puts_out(hand(VOTE, 4, one), VOTE, one));
        CHECK(hand(VOTE, 4, one).number == 9);
    }
}

static void echoes_and_votes_are_kept_after_voting_until_the_board_is_done(void)
{
    for (int i = 0; i < 60; i++) {
        notice one, other;
        uint32_t n, t;

        begin_random(13);
        n = work.b.n;
        t = work.b.t;
        one = work.said[0];
        other = work.said[2];
        if (n < 4)
            continue;
        for (uint32_t from = 1; from <= n - t; from++)          /* votes for the one, and delivers the other */
            CHECK(puts_out(hand(ECHO, from, one), from == n - t ? VOTE : 0, one));
        for (uint32_t from = n - t + 1; from <= n; from++)
            CHECK(puts_out(hand(ECHO, from, other), 0, one));
        for (uint32_t from = 1; from < n - t; from++)
            CHECK(puts_out(hand(VOTE, from, other), 0, one));
        for (uint32_t from = n - t + 1; from <= n; from++)
            CHECK(puts_out(hand(VOTE, from, one), 0, one));
        CHECK(delivers(hand(VOTE, n - t, other), other));
        CHECK(hand(ECHO, 1, one).number == 8 && hand(VOTE, 1, one).number == 8 && hand(SEND, work.b.sender, one).number == 8);
    }
}

/* Echoes for one notice and votes for another do not add up. */
static void echoes_and_votes_are_counted_apart(void)
{
    for (uint32_t n = 4; n <= 13; n++) {
        uint32_t t = (n - 1) / 3;
        notice one;

        begin(n, t, 1, 1);
        one = work.said[0];
        for (uint32_t from = 1; from < n - t; from++)
            CHECK(puts_out(hand(ECHO, from, one), 0, one));
        for (uint32_t from = n; from > n - t; from--)
            CHECK(puts_out(hand(VOTE, from, one), 0, one));
        for (uint32_t from = n - t; from < n; from++)
            CHECK(puts_out(hand(ECHO, from, work.said[1]), 0, one));
        CHECK(puts_out(hand(ECHO, n, one), VOTE, one));
    }
}

static void sound_states_of_every_stage_take_any_record_as_the_reference_does(void)
{
    forget_what_was_seen();
    for (int i = 0; i < 6000; i++) {
        begin_random(i % 100 == 0 ? 64 : i % 4 ? 7 : 13);
        random_sound_state(i % 8 == 7 ? AFTER_DONE : i % 2);
        for (int turn = 0; turn < 6; turn++) {
            uint32_t from = random_below(40) ? 1 + random_below(work.b.n) : random_below(70);

            check_step(from, record, random_record(from));
        }
    }
    CHECK(refusals[4] > 50 && refusals[6] > 50 && refusals[8] > 50 && refusals[9] > 50);
    CHECK(refusals[20] > 50 && refusals[21] > 50 && refusals[24] > 50 && refusals[25] > 50);
    CHECK(refusals[0] > 1000 && put_out[ECHO] > 50 && put_out[VOTE] > 50 && deliveries[MESSAGE] > 50 && both > 20);
}

/* ---- whole runs, every board beside one that the reference keeps from its start on */

#define MOST 13
static ref_notice_board twins[MOST];
static uint8_t states[MOST][STATE], twin_out[OUT], twin_delivery[LONGEST];

typedef struct {
    uint32_t from, to;
    size_t len;
    uint8_t bytes[110];
} letter;

static letter post[4000];
static size_t posted;

static void hand_in(uint32_t from, uint32_t to, const uint8_t *bytes, size_t len)
{
    if (posted == sizeof post / sizeof *post || len > sizeof post->bytes)
        return;
    post[posted].from = from;
    post[posted].to = to;
    post[posted].len = len;
    memcpy(post[posted++].bytes, bytes, len);
}

static bool same_words(const ref_word *a, const ref_word *b)
{
    for (int i = 0; i < REF_BOARDS; i++)
        if (a[i].heard != b[i].heard || a[i].length != b[i].length
            || (a[i].heard && memcmp(a[i].bytes, b[i].bytes, a[i].length) != 0))
            return false;
    return true;
}

static bool same_board(const ref_notice_board *a, const ref_notice_board *b)
{
    return memcmp(&a->table, &b->table, sizeof a->table) == 0 && a->own == b->own && a->acquired == b->acquired
        && a->voted == b->voted && a->done == b->done && same_words(a->echo, b->echo) && same_words(a->vote, b->vote);
}

/* The same step by the library's state and by the twin. */
static ref_stepped step_beside(uint8_t *state, ref_notice_board *twin, uint32_t from, const uint8_t *bytes, size_t len)
{
    ref_stepped did = check_step_with(state, STATE, from, bytes, len, OUT, LONGEST), right;

    right = ref_notice_step(twin, STATE, from, bytes, len, twin_out, OUT, twin_delivery, LONGEST);
    CHECK(memcmp(&did, &right, sizeof did) == 0);
    CHECK(memcmp(new_out, twin_out, right.record_length) == 0);
    CHECK(memcmp(new_delivery, twin_delivery, right.message_length) == 0);
    ref_notice_decode(state, &board);
    CHECK(same_board(twin, &board));
    CHECK(ref_notice_sound(&board));
    return did;
}

static void whole_run(bool lying)
{
    uint32_t n;

    begin_random(random_below(4) ? 5 : MOST);
    n = work.b.n;
    posted = 0;
    for (uint32_t i = 1; i <= n; i++) {
        random_bytes(states[i - 1], STATE);
        CHECK(tumbeliko_notice_start(n, work.b.t, work.b.sender, i, states[i - 1], STATE) == 0);
        CHECK(ref_notice_start(n, work.b.t, work.b.sender, i, &twins[i - 1], STATE) == 0);
        hand_in(work.b.sender, i, record, notice_record(SEND, work.said[lying ? random_below(SAID) : 0], record));
    }
    for (uint32_t j = 0; j < 4 * work.b.t; j++) {       /* what rule-breakers might say, in any board's name */
        uint32_t from = 1 + random_below(n);

        hand_in(from, 1 + random_below(n), record, random_record(from));
    }
    for (size_t taken = 0; taken < posted; taken++) {
        size_t pick = taken + random_below((uint32_t)(posted - taken));
        letter one = post[pick];
        ref_stepped did;

        post[pick] = post[taken];
        post[taken] = one;
        did = step_beside(states[one.to - 1], &twins[one.to - 1], one.from, one.bytes, one.len);
        for (uint32_t to = 1; did.record_length > 0 && to <= n; to++)
            hand_in(one.to, to, new_out, did.record_length);
        if (random_below(10) == 0)
            step_beside(states[one.to - 1], &twins[one.to - 1], one.from, one.bytes, one.len);
    }
}

static void whole_runs_go_record_by_record_as_the_reference_s(void)
{
    forget_what_was_seen();
    for (int i = 0; i < 60; i++)
        whole_run(i % 2);
    CHECK(deliveries[MESSAGE] > 50 && put_out[ECHO] > 100 && put_out[VOTE] > 100);
}

static void sixty_four_boards_go_record_by_record_as_the_reference_s(void)
{
    static const uint32_t faulty[] = { 21, 0, 10 };

    for (int i = 0; i < 3; i++) {
        uint32_t order[128], n = 64;
        bool delivered = false;

        begin(n, faulty[i], 7, 64);
        CHECK(ref_notice_start(n, faulty[i], 7, 64, &twins[0], STATE) == 0);
        for (uint32_t j = 0; j < 128; j++)
            order[j] = j;
        for (uint32_t j = 127; j > 0; j--) {
            uint32_t other = random_below(j + 1), was = order[j];

            order[j] = order[other];
            order[other] = was;
        }
        for (uint32_t j = 0; j < 128; j++) {
            uint32_t from = 1 + order[j] / 2, kind = ECHO + order[j] % 2;
            ref_stepped did = step_beside(work.state, &twins[0], from, record, notice_record(kind, work.said[0], record));

            CHECK(did.number == (delivered ? 8 : 0));
            if (did.delivery != NONE) {
                CHECK(delivers(did, work.said[0]));
                delivered = true;
            }
        }
        CHECK(delivered);
    }
}

static const test reader_tests[] = {
    TEST(the_header_names_the_numbers_the_places_and_the_sizes),
    TEST(every_cut_is_20_at_the_field_of_the_first_missing_byte_and_more_bytes_are_25),
    TEST(cuts_stated_one_by_one),
    TEST(every_change_of_one_byte_is_judged_left_to_right),
    TEST(every_kind_and_every_count_is_judged_high_byte_first),
    TEST(of_several_faults_the_first_field_counts),
    TEST(random_strings_are_judged_as_the_reference_judges_them),
    TEST(a_record_above_2_to_the_32_bytes_is_refused_with_25),
};

static const test writer_tests[] = {
    TEST(what_is_written_is_read_back),
    TEST(what_is_read_is_what_would_be_written),
    TEST(the_writer_looks_in_the_order_2_21_24),
    TEST(lengths_above_2_to_the_32_are_refused_by_the_writer_with_24),
};

static const test other_tests[] = {
    TEST(no_reader_and_no_writer_takes_the_other_s_kinds),
    TEST(a_board_of_one_kind_refuses_the_other_s_kinds_with_21_at_0),
};

static const test start_tests[] = {
    TEST(a_start_writes_the_first_8352_bytes_and_leaves_the_rest),
    TEST(every_table_near_its_limits_is_judged_at_a_start),
    TEST(numbers_near_2_to_the_32_are_refused_with_1_at_a_start),
    TEST(a_start_over_a_used_state_is_not_refused),
};

static const test send_tests[] = {
    TEST(the_sender_s_record_is_the_same_for_every_board),
    TEST(a_notice_of_64_bytes_is_taken_and_of_65_refused_with_13),
    TEST(a_notice_above_2_to_the_32_bytes_is_refused_with_13),
    TEST(the_sender_looks_in_the_order_1_2_4_13),
};

static const test refusal_tests[] = {
    TEST(each_fault_of_a_step_is_refused_with_its_number),
    TEST(of_every_pair_of_faults_a_step_answers_the_first_in_the_order_3_2_4_form_6_8_9),
    TEST(of_all_faults_together_a_step_answers_the_first),
    TEST(a_step_names_the_field_at_fault_as_the_reader_does),
    TEST(a_state_under_8352_bytes_gives_2_at_once),
    TEST(a_step_needs_its_buffers_and_leaves_the_bytes_beyond),
    TEST(lengths_above_2_to_the_32_are_no_shorter_for_it),
};

static const test soundness_tests[] = {
    TEST(every_clause_of_soundness_broken_alone_is_refused_with_3),
    TEST(states_at_the_limits_of_soundness_are_taken),
    TEST(a_done_board_that_heard_nothing_is_sound_and_refuses_with_8),
    TEST(a_board_that_voted_and_heard_nothing_is_sound_and_votes_no_more),
    TEST(a_flag_byte_other_than_0_is_true_and_a_step_writes_0_or_1),
    TEST(spare_bytes_and_what_stands_after_a_notice_are_not_looked_at_and_stay),
    TEST(random_bytes_as_a_state_are_judged_as_the_reference_judges_them),
    TEST(single_flipped_bits_of_sound_states_are_judged_as_the_reference_judges_them),
};

static const test step_tests[] = {
    TEST(the_first_send_is_echoed_whole),
    TEST(a_send_is_late_only_once_the_board_is_done),
    TEST(a_refused_send_is_not_used_up),
    TEST(n_minus_t_echoes_or_t_plus_1_votes_for_one_notice_bring_a_vote),
    TEST(n_minus_t_votes_deliver_the_notice_once),
    TEST(one_board_puts_out_a_vote_and_delivers_at_once),
    TEST(notices_are_one_only_if_lengths_and_bytes_are),
    TEST(a_second_echo_or_vote_from_a_board_is_refused_with_9_and_does_not_count),
    TEST(echoes_and_votes_are_kept_after_voting_until_the_board_is_done),
    TEST(echoes_and_votes_are_counted_apart),
    TEST(sound_states_of_every_stage_take_any_record_as_the_reference_does),
};

static const test run_tests[] = {
    TEST(whole_runs_go_record_by_record_as_the_reference_s),
    TEST(sixty_four_boards_go_record_by_record_as_the_reference_s),
};

int main(int argc, char **argv)
{
    static const group groups[] = {
        GROUP("read notice", reader_tests), GROUP("write notice", writer_tests), GROUP("other kinds", other_tests),
        GROUP("start", start_tests), GROUP("send", send_tests), GROUP("refusals", refusal_tests),
        GROUP("soundness", soundness_tests), GROUP("step", step_tests), GROUP("whole runs", run_tests),
    };

    return run_groups(groups, sizeof groups / sizeof *groups, argc, argv);
}
