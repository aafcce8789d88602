/*
 * The calls of records and boards (read record, write record, start, send,
 * step) against the reference and against the sentences of document 01 and
 * of request 2 of document 02.
 *
 * Every call is made with each buffer before an inaccessible page and again
 * with each buffer after one. The reference makes the same call on copies;
 * then answers and all bytes of all buffers must be the same. Of a state's
 * bytes a flag's are held to their meaning alone: 0, or not 0.
 */

#include <stdlib.h>
#include <string.h>
#include "harness.h"
#include "states.h"
#include "tumbeliko.h"

static uint8_t old_out[ROOM], new_out[ROOM], old_delivery[ROOM], new_delivery[ROOM], old_state[ROOM], new_state[ROOM];
static uint8_t data[ROOM];

/* ---- the same call by the library and by the reference */

/* The number and the offset of every answer that has both. */
static void check_fault(uint32_t number, uint32_t offset, uint32_t right_number, uint32_t right_offset)
{
    CHECK(number == right_number);
    CHECK(offset == right_offset);
    CHECK(ref_form_fault(number) || offset == 0);
}

static ref_parts check_reader(const uint8_t *bytes, size_t len)
{
    ref_parts right = ref_read_record(bytes, len);

    for (int p = 0; p < PLACES; p++) {
        tumbeliko_parts got;

        place(p);
        got = tumbeliko_read_record(lend(0, bytes, len), len);
        check_fault(got.number, got.offset, right.number, right.offset);
        CHECK(got.kind == right.kind && got.nodes == right.nodes && got.fragment_length == right.fragment_length);
        CHECK(holds(0, bytes));
    }
    return right;
}

/* Writes into new_out what the writer leaves there. */
static ref_written check_writer(uint32_t kind, const uint8_t *root, size_t root_len, const uint8_t *path,
                                size_t path_len, const uint8_t *fragment, size_t fragment_len, size_t out_len)
{
    ref_written right;

    random_bytes(old_out, out_len);
    memcpy(new_out, old_out, out_len);
    right = ref_write_record(kind, root, root_len, path, path_len, fragment, fragment_len, new_out, out_len);
    for (int p = 0; p < PLACES; p++) {
        tumbeliko_written got;
        uint8_t *lent[4];

        place(p);
        lent[0] = lend(0, root, root_len);
        lent[1] = lend(1, path, path_len);
        lent[2] = lend(2, fragment, fragment_len);
        lent[3] = lend(3, old_out, out_len);
        got = tumbeliko_write_record(kind, lent[0], root_len, lent[1], path_len, lent[2], fragment_len,
                                     lent[3], out_len);
        check_fault(got.number, got.offset, right.number, right.offset);
        CHECK(got.length == right.length);
        CHECK(holds(0, root));
        CHECK(holds(1, path));
        CHECK(holds(2, fragment));
        CHECK(holds(3, new_out));
    }
    return right;
}

/* Writes into new_out what the sender's call leaves there. */
static ref_sized check_send(table b, const uint8_t *message, size_t message_len, uint32_t to, size_t out_len)
{
    ref_sized right;

    random_bytes(old_out, out_len);
    memcpy(new_out, old_out, out_len);
    right = ref_send(b.n, b.t, b.sender, b.longest, message, message_len, to, new_out, out_len);
    for (int p = 0; p < PLACES; p++) {
        tumbeliko_sized got;
        uint8_t *lent[2];

        place(p);
        lent[0] = lend(0, message, message_len);
        lent[1] = lend(1, old_out, out_len);
        got = tumbeliko_send(b.n, b.t, b.sender, b.longest, lent[0], message_len, to, lent[1], out_len);
        CHECK(got.number == right.number);
        CHECK(got.length == right.length);
        CHECK(holds(0, message));
        CHECK(holds(1, new_out));
    }
    return right;
}

static ref_board board;

/* Starts over the bytes of old_state; writes into new_state what is left. */
static uint32_t check_start_over(table b, uint32_t own, size_t state_len)
{
    uint32_t right = ref_start(b.n, b.t, b.sender, b.longest, own, &board, state_len);

    memcpy(new_state, old_state, state_len);
    if (right == 0)
        fresh(new_state, b, own);
    for (int p = 0; p < PLACES; p++) {
        uint8_t *lent;

        place(p);
        lent = lend(0, old_state, state_len);
        CHECK(tumbeliko_start(b.n, b.t, b.sender, b.longest, own, lent, state_len) == right);
        CHECK(holds(0, new_state));
    }
    return right;
}

static uint32_t check_start(table b, uint32_t own, size_t state_len)
{
    random_bytes(old_state, state_len);
    return check_start_over(b, own, state_len);
}

/* how often each answer, record and delivery was seen in a test */
static unsigned long refusals[REF_NUMBERS], put_out[4], deliveries[3];

static void forget_what_was_seen(void)
{
    memset(refusals, 0, sizeof refusals);
    memset(put_out, 0, sizeof put_out);
    memset(deliveries, 0, sizeof deliveries);
}

/* One step. The bytes of `state` are then those that it left. Writes into
 * new_out and new_delivery what it leaves there. */
static ref_stepped check_step_with(uint8_t *state, size_t state_len, uint32_t from, const uint8_t *bytes, size_t len,
                                   size_t out_len, size_t delivery_len)
{
    ref_stepped right;

    random_bytes(old_out, out_len);
    random_bytes(old_delivery, delivery_len);
    memcpy(old_state, state, state_len);
    memcpy(new_out, old_out, out_len);
    memcpy(new_delivery, old_delivery, delivery_len);
    if (state_len >= HEAD)
        ref_decode(state, state_len, &board);
    right = ref_step(&board, state_len, from, bytes, len, new_out, out_len, new_delivery, delivery_len);
    for (int p = 0; p < PLACES; p++) {
        tumbeliko_stepped got;
        uint8_t *lent[4];

        place(p);
        lent[0] = lend(0, old_state, state_len);
        lent[1] = lend(1, bytes, len);
        lent[2] = lend(2, old_out, out_len);
        lent[3] = lend(3, old_delivery, delivery_len);
        got = tumbeliko_step(lent[0], state_len, from, lent[1], len, lent[2], out_len, lent[3], delivery_len);
        check_fault(got.number, got.offset, right.number, right.offset);
        CHECK(got.record_length == right.record_length);
        CHECK(got.delivery == right.delivery);
        CHECK(got.message_length == right.message_length);
        memcpy(new_state, old_state, state_len);
        if (right.number == 0)
            put_step(new_state, &board, bytes[0], from - 1, lent[0]);
        CHECK(holds(0, new_state));
        CHECK(holds(1, bytes));
        CHECK(holds(2, new_out));
        CHECK(holds(3, new_delivery));
    }
    if (right.number == 0)
        CHECK(ref_sound(&board));
    memcpy(state, new_state, state_len);
    refusals[right.number]++;
    put_out[right.record_length > 0 ? new_out[0] : 0]++;
    deliveries[right.delivery]++;
    return right;
}

/* ---- tables, and steps of the board in `work` */

/* Tables outside their limits, each with one number at fault. */
static const table bad_tables[] = {
    { 0, 0, 1, 16 }, { 65, 2, 1, 16 }, { 256 + 7, 2, 1, 16 }, { 0xffffffff, 2, 1, 16 }, { 0x80000000, 2, 1, 16 },
    { 7, 3, 1, 16 }, { 6, 2, 1, 16 }, { 3, 1, 1, 16 }, { 1, 1, 1, 16 }, { 7, 256 + 2, 1, 16 },
    { 4, 1431655766, 1, 16 }, { 7, 1431655766, 1, 16 }, { 64, 1431655766, 1, 16 }, { 4, 2863311531, 1, 16 },
    { 64, 2863311531, 1, 16 }, { 7, 0x80000000, 1, 16 }, { 7, 0xffffffff, 1, 16 },
    { 7, 2, 0, 16 }, { 7, 2, 8, 16 }, { 7, 2, 256 + 1, 16 }, { 7, 2, 0xffffffff, 16 }, { 64, 21, 65, 16 },
    { 7, 2, 1, 16385 }, { 7, 2, 1, 32768 }, { 7, 2, 1, 65536 }, { 7, 2, 1, 65536 + 16 }, { 7, 2, 1, 0xffffffff },
    { 7, 2, 1, 0xfffffffc }, { 7, 2, 1, 0xfffffffd }, { 7, 2, 1, 0x80000000 },
};
#define BAD_TABLES (sizeof bad_tables / sizeof *bad_tables)

static ref_stepped check_step(uint32_t from, const uint8_t *bytes, size_t len)
{
    return check_step_with(work.state, work.len, from, bytes, len, REF_OUT, work.b.longest);
}

/* Hands over the record of that kind that stands in the tree at `from`, a
 * send's at the own place. */
static ref_stepped hand(const tree *one, uint32_t kind, uint32_t from)
{
    size_t len = tree_record(one, kind, kind == SEND ? work.own : from, record);

    return check_step(from, record, len);
}

/* ---- records: what the tests themselves say of them */

/* A number and its offset. */
typedef struct {
    uint32_t number;
    size_t offset;
} fault;

static bool reads(ref_parts got, fault right)
{
    return got.number == right.number && got.offset == right.offset;
}

/* What the first `len` bytes of a record with these sections get if the
 * fields of the set `wrong` are wrong: its fields one after the other, each
 * with the number that it is refused with. */
enum { FIELDS = 7 };

static fault first_fault(size_t nodes, size_t fragment_len, unsigned wrong, size_t len)
{
    const size_t end = FRAGMENT_AT(nodes) + fragment_len;
    const struct { size_t at, bytes; uint32_t number; } fields[FIELDS] = {
        { KIND_AT, 1, 21 },
        { ROOT_COUNT_AT, 2, 22 },
        { ROOT_AT, 32, 0 },
        { PATH_COUNT_AT, 2, 23 },
        { PATH_AT, 32 * nodes, 0 },
        { FRAGMENT_COUNT_AT(nodes), 2, 24 },
        { FRAGMENT_AT(nodes), fragment_len, 0 },
    };

    for (int f = 0; f < FIELDS; f++) {
        if (len < fields[f].at + fields[f].bytes)
            return (fault){ 20, fields[f].at };
        if (wrong >> f & 1)
            return (fault){ fields[f].number, fields[f].at };
    }
    return len > end ? (fault){ 25, end } : (fault){ 0, 0 };
}

static void put_count(uint8_t *at, size_t count)
{
    at[0] = (uint8_t)(count >> 8);
    at[1] = (uint8_t)count;
}

/* Random bytes, and among them a kind and the counts of a record. Answers
 * the length that the counts ask for. */
static size_t draw_bytes(uint32_t kind, size_t root, size_t nodes, size_t fragment_len)
{
    random_bytes(record, FRAGMENT_AT(nodes) + fragment_len + 100);
    record[KIND_AT] = (uint8_t)kind;
    put_count(record + ROOT_COUNT_AT, root);
    put_count(record + PATH_COUNT_AT, nodes);
    put_count(record + FRAGMENT_COUNT_AT(nodes), fragment_len);
    return FRAGMENT_AT(nodes) + fragment_len;
}

/* A well-formed record of that kind with random bytes; a vote has neither
 * nodes nor a fragment. */
static size_t draw_record(uint32_t kind, uint32_t nodes, uint32_t fragment_len)
{
    return kind == VOTE ? draw_bytes(VOTE, 32, 0, 0) : draw_bytes(kind, 32, nodes, fragment_len);
}

/* ---- read record */

static void the_header_names_the_numbers_and_the_places(void)
{
    CHECK(TUMBELIKO_CUT_OFF == 20 && TUMBELIKO_BAD_KIND == 21 && TUMBELIKO_BAD_ROOT_COUNT == 22);
    CHECK(TUMBELIKO_BAD_PATH_COUNT == 23 && TUMBELIKO_BAD_FRAGMENT_COUNT == 24 && TUMBELIKO_LEFT_OVER == 25);
    CHECK(TUMBELIKO_NUMBERS == REF_NUMBERS);
    CHECK(TUMBELIKO_RECORD_KIND == KIND_AT && TUMBELIKO_RECORD_ROOT_COUNT == ROOT_COUNT_AT);
    CHECK(TUMBELIKO_RECORD_ROOT == ROOT_AT && TUMBELIKO_RECORD_PATH_COUNT == PATH_COUNT_AT);
    CHECK(TUMBELIKO_RECORD_PATH == PATH_AT);
    for (uint32_t nodes = 0; nodes <= 6; nodes++) {
        CHECK(TUMBELIKO_RECORD_FRAGMENT_COUNT(nodes) == 37 + 32 * nodes);
        CHECK(TUMBELIKO_RECORD_FRAGMENT(nodes) == 39 + 32 * nodes);
    }
}

static const uint32_t some_lengths[] = { 1, 2, 3, 31, 32, 33, 40, 255, 256, 700 };
#define SOME_LENGTHS (sizeof some_lengths / sizeof *some_lengths)

/* All cuts of the record that was drawn, and up to `more` bytes after it. */
static void check_cuts(uint32_t nodes, uint32_t fragment_len, size_t more)
{
    size_t len = FRAGMENT_AT(nodes) + fragment_len;

    for (size_t cut = 0; cut <= len + more; cut++)
        CHECK(reads(check_reader(record, cut), first_fault(nodes, fragment_len, 0, cut)));
}

static void every_cut_is_20_at_the_field_of_the_first_missing_byte_and_more_bytes_are_25(void)
{
    for (uint32_t kind = SEND; kind <= ECHO; kind++)
        for (uint32_t nodes = 0; nodes <= 6; nodes++)
            for (size_t l = 0; l < SOME_LENGTHS; l++) {
                draw_record(kind, nodes, some_lengths[l]);
                check_cuts(nodes, some_lengths[l], 40);
            }
    draw_record(VOTE, 0, 0);
    check_cuts(0, 0, 100);
}

static void every_cut_of_the_longest_record_and_cuts_of_other_long_ones_are_20_too(void)
{
    draw_record(ECHO, 6, 16388);
    check_cuts(6, 16388, 40);
    for (uint32_t kind = SEND; kind <= ECHO; kind++)
        for (uint32_t nodes = 0; nodes <= 6; nodes++) {
            size_t len = draw_record(kind, nodes, 16388), cut = 0;

            while (cut <= len + 40) {
                CHECK(reads(check_reader(record, cut), first_fault(nodes, 16388, 0, cut)));
                cut += cut < 300 || cut > len - 40 ? 1 : 1 + random_below(200);
            }
        }
}

/* The cases of request 2, byte for byte. */
static void cuts_stated_one_by_one(void)
{
    size_t len = draw_record(ECHO, 2, 5);
    static const struct { size_t len, offset; } cuts[] = {
        { 0, 0 }, { 1, 1 }, { 2, 1 }, { 3, 3 }, { 34, 3 }, { 35, 35 }, { 36, 35 }, { 37, 37 }, { 100, 37 }, { 101, 101 },
        { 102, 101 }, { 103, 103 }, { 107, 103 },
    };

    CHECK(len == 108 && reads(check_reader(record, len), (fault){ 0, 0 }));
    for (size_t c = 0; c < sizeof cuts / sizeof *cuts; c++)
        CHECK(reads(check_reader(record, cuts[c].len), (fault){ 20, cuts[c].offset }));
    CHECK(reads(check_reader(record, 109), (fault){ 25, 108 }));
    CHECK(reads(check_reader(record, 200), (fault){ 25, 108 }));
    draw_bytes(ECHO, 32, 7, 5);
    CHECK(reads(check_reader(record, 37), (fault){ 23, 35 }));          /* 02 0020 root 0007 and no more */
    CHECK(reads(check_reader(record, 36), (fault){ 20, 35 }));
    record[0] = 4;
    CHECK(reads(check_reader(record, 1), (fault){ 21, 0 }));
}

/* What a well-formed record gets with the byte at `at` changed to `value`.
 * Says no where that hangs on bytes that are only then read as a count. */
static bool said_of_change(uint32_t kind, uint32_t nodes, uint32_t fragment_len, size_t at, uint8_t value, fault *right)
{
    size_t len = FRAGMENT_AT(nodes) + fragment_len, low = at, count;

    *right = (fault){ 0, 0 };
    if (at == KIND_AT) {
        bool vote = value == VOTE;

        if (value < SEND || value > VOTE)
            *right = (fault){ 21, KIND_AT };
        else if (vote != (kind == VOTE))
            *right = nodes > 0 ? (fault){ 23, PATH_COUNT_AT } : (fault){ 24, FRAGMENT_COUNT_AT(0) };
        return true;
    }
    if (at == ROOT_COUNT_AT || at == PATH_COUNT_AT || at == FRAGMENT_COUNT_AT(nodes))
        low = at + 1;
    count = low > at ? (size_t)value << 8 | record[low] : (size_t)record[at - 1] << 8 | value;
    if (low == ROOT_COUNT_AT + 1) {
        if (count != 32)
            *right = (fault){ 22, ROOT_COUNT_AT };
    } else if (low == PATH_COUNT_AT + 1) {
        if (count > (kind == VOTE ? 0 : 6))
            *right = (fault){ 23, PATH_COUNT_AT };
        else if (PATH_AT + 32 * count > len)
            *right = (fault){ 20, PATH_AT };
        else
            return count == nodes;
    } else if (low == FRAGMENT_COUNT_AT(nodes) + 1) {
        if (kind == VOTE ? count > 0 : count < 1 || count > 16388)
            *right = (fault){ 24, FRAGMENT_COUNT_AT(nodes) };
        else if (count > fragment_len)
            *right = (fault){ 20, FRAGMENT_AT(nodes) };
        else if (count < fragment_len)
            *right = (fault){ 25, FRAGMENT_AT(nodes) + count };
    }
    return true;
}

/* The byte at `at` of the record that was drawn, changed to every other
 * value. Counts what the test could say by itself. */
static unsigned long said;

static void check_changes(uint32_t kind, uint32_t nodes, uint32_t fragment_len, size_t at)
{
    size_t len = FRAGMENT_AT(nodes) + fragment_len;
    uint8_t was = record[at];

    for (uint32_t other = 0; other < 256; other++) {
        fault right;
        bool says;
        ref_parts got;

        record[at] = was;
        says = said_of_change(kind, nodes, fragment_len, at, (uint8_t)other, &right);
        record[at] = (uint8_t)other;
        got = check_reader(record, len);
        if (says)
            CHECK(reads(got, right));
        said += says;
    }
    record[at] = was;
}

static void every_change_of_one_byte_is_judged_as_the_reference_judges_it(void)
{
    unsigned long changes = 0;

    said = 0;
    for (uint32_t kind = SEND; kind <= VOTE; kind++)
        for (uint32_t nodes = 0; nodes <= (kind == VOTE ? 0 : 6); nodes++)
            for (uint32_t l = 0; l < (kind == VOTE ? 1 : 2); l++) {
                uint32_t fragment_len = kind == VOTE ? 0 : l == 0 ? 1 : 5;
                size_t len = draw_record(kind, nodes, fragment_len);

                for (size_t at = 0; at < len; at++, changes += 256)
                    check_changes(kind, nodes, fragment_len, at);
                CHECK(check_reader(record, len).kind == kind);
            }
    CHECK(said > changes / 20 * 19);
}

static void changes_of_one_byte_of_long_records_are_judged_as_the_reference_judges_them(void)
{
    static const uint32_t lengths[] = { 255, 256, 257, 700, 16387, 16388 };

    for (uint32_t kind = SEND; kind <= ECHO; kind++)
        for (uint32_t nodes = 0; nodes <= 6; nodes++)
            for (size_t l = 0; l < sizeof lengths / sizeof *lengths; l++) {
                size_t len = draw_record(kind, nodes, lengths[l]);

                for (uint32_t which = 0; which < NUMBER_BYTES; which++)
                    if (lengths[l] < 1000 || nodes % 3 == 0)
                        check_changes(kind, nodes, lengths[l], number_byte(nodes, which));
                check_changes(kind, nodes, lengths[l], random_below((uint32_t)len));
                CHECK(check_reader(record, len).fragment_length == lengths[l]);
            }
}

/* Every set of wrong fields, and every cut of it. */
static void of_several_faults_the_first_field_counts(void)
{
    enum { KIND = 1 << 0, ROOT = 1 << 1, PATH = 1 << 3, FRAGMENT = 1 << 5 };

    for (uint32_t kind = SEND; kind <= VOTE; kind++)
        for (unsigned wrong = 0; wrong < 1u << FIELDS; wrong++) {
            uint32_t nodes = kind == VOTE ? 0 : 2, bytes = kind == VOTE ? 0 : 5;

            if (wrong & ~(unsigned)(KIND | ROOT | PATH | FRAGMENT))
                continue;
            for (int turn = 0; turn < 3; turn++) {
                size_t len = draw_record(kind, nodes, bytes);

                if (wrong & KIND)
                    record[KIND_AT] = (uint8_t)(turn == 0 ? 0 : 4 + random_below(252));
                if (wrong & ROOT)
                    put_count(record + ROOT_COUNT_AT, (const size_t[]){ 31, 33, 256 + 32 }[turn]);
                if (wrong & PATH)
                    put_count(record + PATH_COUNT_AT, (const size_t[]){ 7, 256 + nodes, 65535 }[turn]);
                if (wrong & FRAGMENT)
                    put_count(record + FRAGMENT_COUNT_AT(nodes),
                              (const size_t[]){ 16389, 65535, kind == VOTE ? 1 : 0 }[turn]);
                for (size_t cut = 0; cut <= len + 3; cut++)
                    CHECK(reads(check_reader(record, cut), first_fault(nodes, bytes, wrong, cut)));
            }
        }
}

static void kinds_0_and_4_to_255_are_refused_with_21_whatever_follows(void)
{
    for (uint32_t of = SEND; of <= VOTE; of++) {
        size_t len = draw_record(of, 3, 20);

        for (uint32_t kind = 0; kind < 256; kind++) {
            record[KIND_AT] = (uint8_t)kind;
            if (kind == 0 || kind >= 4)
                for (size_t cut = 1; cut <= len + 1; cut++)
                    CHECK(reads(check_reader(record, cut), (fault){ 21, KIND_AT }));
            else
                CHECK((check_reader(record, len).number == 0) == ((kind == VOTE) == (of == VOTE)));
        }
    }
}

static void path_count_6_is_read_and_7_refused_with_23(void)
{
    for (uint32_t kind = SEND; kind <= ECHO; kind++)
        for (uint32_t nodes = 0; nodes <= 8; nodes++) {
            size_t len = draw_bytes(kind, 32, nodes, 1 + random_below(9));

            CHECK(reads(check_reader(record, len), nodes <= 6 ? (fault){ 0, 0 } : (fault){ 23, PATH_COUNT_AT }));
            record[PATH_COUNT_AT] = 1;          /* 256 more are named than are there */
            CHECK(reads(check_reader(record, len), (fault){ 23, PATH_COUNT_AT }));
            CHECK(reads(check_reader(record, PATH_AT), (fault){ 23, PATH_COUNT_AT }));
        }
}

static void fragments_of_1_to_16388_bytes_are_read_and_others_refused_with_24(void)
{
    static const uint32_t lengths[] = { 0, 1, 2, 255, 256, 257, 16384, 16387, 16388, 16389, 16390, 32768, 65535 };

    for (uint32_t kind = SEND; kind <= ECHO; kind++)
        for (size_t l = 0; l < sizeof lengths / sizeof *lengths; l++)
            for (uint32_t nodes = 0; nodes <= 6; nodes += 6) {
                bool good = lengths[l] >= 1 && lengths[l] <= 16388;
                size_t len = draw_bytes(kind, 32, nodes, lengths[l]), count = FRAGMENT_COUNT_AT(nodes);

                CHECK(reads(check_reader(record, len), good ? (fault){ 0, 0 } : (fault){ 24, count }));
                CHECK(reads(check_reader(record, len + 1), good ? (fault){ 25, len } : (fault){ 24, count }));
                if (lengths[l] > 0)
                    CHECK(reads(check_reader(record, len - 1), good ? (fault){ 20, count + 2 } : (fault){ 24, count }));
                CHECK(reads(check_reader(record, count + 2), good ? (fault){ 20, count + 2 } : (fault){ 24, count }));
                CHECK(reads(check_reader(record, count + 1), (fault){ 20, count }));
            }
}

static void a_vote_with_a_path_is_refused_with_23_and_with_a_fragment_alone_with_24(void)
{
    for (uint32_t nodes = 0; nodes <= 6; nodes++)
        for (uint32_t bytes = 1; bytes <= 3; bytes++) {
            size_t len = draw_bytes(VOTE, 32, nodes, bytes);

            CHECK(reads(check_reader(record, len),
                        nodes > 0 ? (fault){ 23, PATH_COUNT_AT } : (fault){ 24, FRAGMENT_COUNT_AT(0) }));
            len = draw_bytes(VOTE, 32, nodes, 0);               /* a path alone */
            CHECK(reads(check_reader(record, len), nodes > 0 ? (fault){ 23, PATH_COUNT_AT } : (fault){ 0, 0 }));
        }
    CHECK(draw_record(VOTE, 0, 0) == 39);
    CHECK(check_reader(record, 39).number == 0);
}

static void a_root_count_other_than_32_is_refused_with_22(void)
{
    for (uint32_t count = 0; count <= 70; count++) {
        random_bytes(record, 200);
        record[KIND_AT] = VOTE;
        put_count(record + ROOT_COUNT_AT, count);
        memset(record + ROOT_AT + count, 0, 4);
        CHECK(reads(check_reader(record, 7 + count), count == 32 ? (fault){ 0, 0 } : (fault){ 22, ROOT_COUNT_AT }));
        CHECK(reads(check_reader(record, 3), count == 32 ? (fault){ 20, ROOT_AT } : (fault){ 22, ROOT_COUNT_AT }));
        record[ROOT_COUNT_AT] = 1;
        CHECK(reads(check_reader(record, 7 + count), (fault){ 22, ROOT_COUNT_AT }));
    }
}

static void random_strings_are_judged_as_the_reference_judges_them(void)
{
    unsigned long seen[REF_NUMBERS] = { 0 };

    for (int i = 0; i < 20000; i++) {
        uint32_t nodes = random_below(9), bytes = random_below(12);
        size_t len = random_below(4) ? FRAGMENT_AT(nodes) + bytes : random_below(400);

        random_bytes(record, 400);
        if (random_below(20))
            record[KIND_AT] = (uint8_t)random_below(5);
        if (random_below(20))
            put_count(record + ROOT_COUNT_AT, 32);
        if (random_below(20))
            put_count(record + PATH_COUNT_AT, nodes);
        if (random_below(20))
            put_count(record + FRAGMENT_COUNT_AT(nodes), bytes);
        seen[check_reader(record, len).number]++;
    }
    CHECK(seen[0] > 1000 && seen[0] < 15000);
    for (uint32_t number = REF_FORM_FIRST; number <= REF_FORM_LAST; number++)
        CHECK(seen[number] > 200);
}

static void a_record_above_2_to_the_32_bytes_is_refused_with_25(void)
{
    size_t more = (size_t)1 << 32, len = more + 4096;
    uint8_t *bytes = vast(len);

    CHECK(bytes != NULL);
    for (uint32_t kind = SEND; bytes != NULL && kind <= VOTE; kind++) {
        size_t own = draw_record(kind, 2, 30);
        tumbeliko_parts got;

        memcpy(bytes, record, own);
        CHECK(tumbeliko_read_record(bytes, own).number == 0);
        got = tumbeliko_read_record(bytes, more + own);
        CHECK(got.number == 25 && got.offset == own && got.kind == 0 && got.nodes == 0 && got.fragment_length == 0);
        got = tumbeliko_read_record(bytes, more);
        CHECK(got.number == 25 && got.offset == own);
    }
    give_back_vast(bytes, len);
}

/* ---- write record */

static void what_is_written_is_read_back(void)
{
    for (int i = 0; i < 600; i++) {
        uint32_t kind = 1 + random_below(3), nodes = kind == VOTE ? 0 : random_below(7);
        uint32_t len = kind == VOTE ? 0 : 1 + random_below(i % 20 ? 80 : 16388);
        ref_written written;
        ref_parts read;

        random_bytes(data, 224 + len);
        written = check_writer(kind, data, 32, data + 32, 32 * nodes, data + 224, len, REF_OUT);
        CHECK(written.number == 0 && written.length == FRAGMENT_AT(nodes) + len);
        read = check_reader(new_out, written.length);
        CHECK(read.number == 0 && read.kind == kind && read.nodes == nodes && read.fragment_length == len);
        CHECK(memcmp(new_out + ROOT_AT, data, 32) == 0);
        CHECK(memcmp(new_out + PATH_AT, data + 32, 32 * nodes) == 0);
        CHECK(memcmp(new_out + FRAGMENT_AT(nodes), data + 224, len) == 0);
    }
}

static void what_is_read_is_what_would_be_written(void)
{
    unsigned read = 0;

    for (int i = 0; i < 4000; i++) {
        uint32_t kind = 1 + random_below(3), nodes = random_below(7);
        size_t len = draw_record(kind, nodes, 1 + random_below(30));
        ref_parts parts;
        ref_written written;

        flip_a_bit(record, len);
        parts = check_reader(record, len);
        if (parts.number != 0)
            continue;
        read++;
        written = check_writer(parts.kind, record + ROOT_AT, 32, record + PATH_AT, 32 * parts.nodes,
                               record + FRAGMENT_AT(parts.nodes), parts.fragment_length, REF_OUT);
        CHECK(written.number == 0 && written.length == len);
        CHECK(memcmp(new_out, record, len) == 0);
    }
    CHECK(read > 500);
}

/* What parts of these lengths get from the writer, with an `out` that is
 * long enough: each fault at the place that its field would have. */
static fault said_of_parts(uint32_t kind, size_t root, size_t path, size_t fragment)
{
    if (kind < SEND || kind > VOTE)
        return (fault){ 21, KIND_AT };
    if (root != 32)
        return (fault){ 22, ROOT_COUNT_AT };
    if (kind == VOTE ? path > 0 : path % 32 != 0 || path > 192)
        return (fault){ 23, PATH_COUNT_AT };
    if (kind == VOTE ? fragment > 0 : fragment < 1 || fragment > 16388)
        return (fault){ 24, PATH_AT + path };
    return (fault){ 0, 0 };
}

static bool writes(ref_written got, fault right)
{
    return got.number == right.number && got.offset == right.offset;
}

static void parts_that_no_record_has_are_refused_with_21_to_24(void)
{
    static const uint32_t kinds[] = { 0, 1, 2, 3, 4, 5, 255, 256, 257, 258, 259, 0x80000002, 0xffffffff };
    static const size_t roots[] = { 0, 1, 31, 32, 33, 64 }, paths[] = { 0, 1, 31, 32, 33, 63, 64, 96, 128, 160, 191,
        192, 193, 223, 224, 256, 32 * 256 }, fragments[] = { 0, 1, 2, 16388, 16389, 65535, 65536, 65537 };

    random_bytes(data, sizeof data);
    for (size_t k = 0; k < sizeof kinds / sizeof *kinds; k++)
        for (size_t r = 0; r < sizeof roots / sizeof *roots; r++)
            for (size_t p = 0; p < sizeof paths / sizeof *paths; p++)
                for (size_t f = 0; f < sizeof fragments / sizeof *fragments; f++) {
                    size_t root = roots[r], path = paths[p], fragment = fragments[f];
                    fault right = said_of_parts(kinds[k], root, path, fragment);

                    if (right.number != 0 && random_below(8) != 0 && root != 32)
                        continue;
                    if (fragment > 100 && random_below(4) != 0)
                        continue;
                    CHECK(writes(check_writer(kinds[k], data, root, data, path, data, fragment, REF_OUT), right));
                }
}

/* The faults of the writer in the order in which it looks, each in several
 * ways; way 0 is none. The lengths of a vote's path and fragment are its own. */
enum { SHORT_OUT, NO_KIND, BAD_ROOT, BAD_PATH, BAD_FRAGMENT, WRITER_FAULTS };
enum { WAYS = 4 };

/* Every combination of faults, so every pair too. */
static void the_writer_looks_in_the_order_2_21_22_23_24(void)
{
    static const size_t outs[WAYS] = { REF_OUT, REF_OUT - 1, 39, 0 }, roots[WAYS] = { 32, 31, 33, 0 };
    static const size_t paths[2][WAYS] = { { 64, 33, 224, 1 }, { 0, 32, 33, 1 } };
    static const size_t fragments[2][WAYS] = { { 7, 0, 16389, 65536 }, { 0, 1, 16388, 16389 } };
    static const uint32_t wrong_kinds[WAYS] = { 0, 4, 256 + ECHO, 0x80000000 + VOTE };

    random_bytes(data, sizeof data);
    for (uint32_t kind = SEND; kind <= VOTE; kind++)
        for (int set = 0; set < WAYS * WAYS * WAYS * WAYS * WAYS; set++) {
            int ways[WRITER_FAULTS], left = set, vote = kind == VOTE;
            fault right = { 0, 0 };

            for (int f = 0; f < WRITER_FAULTS; f++, left /= WAYS)
                ways[f] = left % WAYS;
            if (ways[SHORT_OUT])
                right = (fault){ 2, 0 };
            else if (ways[NO_KIND])
                right = (fault){ 21, KIND_AT };
            else if (ways[BAD_ROOT])
                right = (fault){ 22, ROOT_COUNT_AT };
            else if (ways[BAD_PATH])
                right = (fault){ 23, PATH_COUNT_AT };
            else if (ways[BAD_FRAGMENT])
                right = (fault){ 24, PATH_AT + paths[vote][0] };
            CHECK(writes(check_writer(ways[NO_KIND] ? wrong_kinds[ways[NO_KIND]] : kind, data, roots[ways[BAD_ROOT]],
                                      data, paths[vote][ways[BAD_PATH]], data, fragments[vote][ways[BAD_FRAGMENT]],
                                      outs[ways[SHORT_OUT]]), right));
        }
}

static void a_refused_fragment_is_named_after_the_path_that_would_stand_before_it(void)
{
    random_bytes(data, sizeof data);
    for (uint32_t kind = SEND; kind <= ECHO; kind++)
        for (size_t nodes = 0; nodes <= 6; nodes++) {
            CHECK(writes(check_writer(kind, data, 32, data, 32 * nodes, data, 0, REF_OUT), (fault){ 24, 37 + 32 * nodes }));
            CHECK(writes(check_writer(kind, data, 32, data, 32 * nodes, data, 16389, REF_OUT), (fault){ 24, 37 + 32 * nodes }));
            CHECK(writes(check_writer(kind, data, 32, data, 32 * nodes + 1, data, 0, REF_OUT), (fault){ 23, 35 }));
        }
}

static void the_writer_leaves_the_bytes_beyond_the_record(void)
{
    random_bytes(data, sizeof data);
    for (uint32_t kind = SEND; kind <= VOTE; kind++)
        CHECK(check_writer(kind, data, 32, data, 0, data, kind == VOTE ? 0 : 3, REF_OUT + 500).number == 0);
    CHECK(check_writer(ECHO, data, 32, data, 192, data, 16388, REF_OUT).length == REF_OUT);
    CHECK(check_writer(ECHO, data, 32, data, 192, data, 16388, REF_OUT - 1).number == 2);
    CHECK(check_writer(VOTE, data, 32, data, 0, data, 0, REF_OUT).length == 39);
    CHECK(check_writer(VOTE, data, 32, data, 0, data, 0, REF_OUT - 1).number == 2);
}

static void parts_above_2_to_the_32_bytes_are_refused_with_22_to_24(void)
{
    size_t more = (size_t)1 << 32, len = more + 65536;
    uint8_t *bytes = vast(len), out[REF_OUT], was[REF_OUT];
    const struct { uint32_t kind; size_t root, path, fragment; fault right; } cases[] = {
        { ECHO, more + 32, 32, 5, { 22, ROOT_COUNT_AT } },
        { ECHO, 32, more + 32, 5, { 23, PATH_COUNT_AT } }, { ECHO, 32, more, 5, { 23, PATH_COUNT_AT } },
        { ECHO, 32, 32, more + 5, { 24, FRAGMENT_COUNT_AT(1) } }, { VOTE, 32, 0, more, { 24, FRAGMENT_COUNT_AT(0) } },
        { VOTE, 32, more, 0, { 23, PATH_COUNT_AT } },
    };

    CHECK(bytes != NULL);
    if (bytes == NULL)
        return;
    random_bytes(out, sizeof out);
    memcpy(was, out, sizeof out);
    for (size_t c = 0; c < sizeof cases / sizeof *cases; c++) {
        tumbeliko_written got = tumbeliko_write_record(cases[c].kind, bytes, cases[c].root, bytes, cases[c].path,
                                                       bytes, cases[c].fragment, out, REF_OUT);

        CHECK(got.number == cases[c].right.number && got.offset == cases[c].right.offset && got.length == 0);
    }
    CHECK(memcmp(out, was, sizeof out) == 0);
    CHECK(tumbeliko_write_record(VOTE, data, 32, data, 0, data, 0, bytes, more + 100).length == 39);
    CHECK(tumbeliko_read_record(bytes, 39).kind == VOTE);
    give_back_vast(bytes, len);
}

/* ---- start */

static void a_start_writes_the_first_4608_bytes_and_leaves_the_rest(void)
{
    for (int i = 0; i < 300; i++) {
        table b = random_table(64, random_below(4) ? 300 : 16384);
        size_t len = state_bytes(b);
        uint32_t own = 1 + random_below(b.n);

        CHECK(check_start(b, own, len) == 0);
        CHECK(ref_sound(&board));
        CHECK(check_start(b, own, len + 1 + random_below(300)) == 0);
        CHECK(check_start(b, own, len - 1) == 2);
        CHECK(check_start(b, own, random_below((uint32_t)len)) == 2);
    }
    CHECK(check_start(make_table(64, 21, 64, 16384), 64, 4608 + 64 * 745) == 0);
    CHECK(check_start(make_table(64, 21, 64, 16384), 64, 4608 + 64 * 745 - 1) == 2);
    CHECK(check_start(make_table(1, 0, 1, 0), 1, 4612) == 0);
    CHECK(check_start(make_table(1, 0, 1, 0), 1, 4611) == 2);
    CHECK(check_start(make_table(1, 0, 1, 0), 1, 0) == 2);
}

static void every_table_near_its_limits_is_judged_at_a_start(void)
{
    static const uint32_t lengths[] = { 0, 1, 16383, 16384, 16385, 65536 };
    uint8_t none = 0;

    for (uint32_t n = 0; n <= 66; n++)
        for (uint32_t t = 0; t <= 23; t++)
            for (uint32_t s = 0; s < 5; s++)
                for (uint32_t o = 0; o < 5; o++)
                    for (size_t l = 0; l < 6; l++) {
                        uint32_t sender = (const uint32_t[]){ 0, 1, n / 2, n, n + 1 }[s], longest = lengths[l];
                        uint32_t own = (const uint32_t[]){ 0, 1, n / 2, n, n + 1 }[o];
                        bool within = n >= 1 && n <= 64 && 3 * t < n && sender >= 1 && sender <= n
                                      && longest <= 16384 && own >= 1 && own <= n;

                        /* with no buffer, 2 says that the numbers were taken */
                        CHECK(tumbeliko_start(n, t, sender, longest, own, &none, 0) == (within ? 2 : 1));
                    }
}

static void numbers_near_2_to_the_32_are_refused_with_1_at_a_start(void)
{
    static const uint32_t owns[] = { 0, 8, 64, 65, 256, 257, 65537, 0x80000001, 0xfffffffe, 0xffffffff };

    for (size_t i = 0; i < BAD_TABLES; i++) {
        CHECK(check_start(bad_tables[i], 1, ROOM) == 1);
        CHECK(check_start(bad_tables[i], 1, 0) == 1);
    }
    for (size_t i = 0; i < sizeof owns / sizeof *owns; i++) {
        CHECK(check_start(make_table(7, 2, 1, 16), owns[i], 9000) == 1);
        CHECK(check_start(make_table(7, 2, 1, 16), owns[i], 100) == 1);
    }
    for (uint32_t n = 1; n <= 64; n++)
        for (uint32_t t = 1431655765; t <= 1431655765 + 22; t++) {
            CHECK(tumbeliko_start(n, t, 1, 0, 1, data, sizeof data) == 1);
            CHECK(tumbeliko_start(n, t + 1431655765, 1, 0, 1, data, sizeof data) == 1);
        }
}

static void a_start_over_a_used_state_is_not_refused(void)
{
    for (int i = 0; i < 60; i++) {
        begin_random(13, 40);
        random_sound_state((int)random_below(STAGES));
        memcpy(old_state, work.state, work.len);
        CHECK(check_start_over(work.b, work.own, work.len) == 0);
        CHECK(check_start_over(random_table(4, 5), 1, work.len) <= 2);
    }
}

/* ---- send */

static void every_board_s_record_is_the_sender_s(void)
{
    for (int i = 0; i < 60; i++) {
        table b = random_table(64, i % 10 ? 200 : 16384);
        size_t len = random_below(b.longest + 1);

        random_bytes(data, len);
        for (uint32_t to = 1; to <= b.n; to += i % 10 ? 1 : 1 + b.n / 3) {
            ref_sized sent = check_send(b, data, len, to, REF_OUT);

            CHECK(sent.number == 0);
            CHECK(ref_read_record(new_out, sent.length).kind == SEND);
            CHECK(ref_path_correct(b.n, to, new_out + 3, 32, new_out + 37, 32 * new_out[36],
                                   new_out + 39 + 32 * new_out[36], sent.length - 39 - 32 * new_out[36]));
        }
    }
}

static void an_empty_message_is_sent(void)
{
    for (uint32_t n = 1; n <= 64; n += 3)
        for (uint32_t to = 1; to <= n; to += 5) {
            CHECK(check_send(make_table(n, (n - 1) / 3, to, 0), data, 0, to, REF_OUT).number == 0);
            CHECK(check_send(make_table(n, 0, 1, 16384), data, 0, to, REF_OUT + 100).number == 0);
        }
}

static void sixty_four_boards_are_sent_their_records(void)
{
    static const uint32_t lengths[] = { 0, 1, 83, 84, 85, 16383, 16384 };

    random_bytes(data, sizeof data);
    for (int l = 0; l < 7; l++)
        for (uint32_t to = 1; to <= 64; to += l < 5 ? 3 : 31) {
            CHECK(check_send(make_table(64, 21, 7, 16384), data, lengths[l], to, REF_OUT).number == 0);
            CHECK(check_send(make_table(64, 0, 64, lengths[l]), data, lengths[l], to, REF_OUT).number == 0);
        }
    CHECK(check_send(make_table(1, 0, 1, 16384), data, 16384, 1, REF_OUT).length == 39 + 16388);
    CHECK(check_send(make_table(3, 0, 1, 16384), data, 16384, 3, REF_OUT).number == 0);
}

static void a_message_of_l_bytes_is_taken_and_of_l_plus_1_refused_with_13(void)
{
    random_bytes(data, sizeof data);
    for (int i = 0; i < 200; i++) {
        table b = random_table(13, i % 20 ? 100 : 16384);
        uint32_t to = 1 + random_below(b.n);

        CHECK(check_send(b, data, b.longest, to, REF_OUT).number == 0);
        CHECK(check_send(b, data, b.longest + 1, to, REF_OUT).number == 13);
        CHECK(check_send(b, data, b.longest + 1 + random_below(30000), to, REF_OUT).number == 13);
    }
    CHECK(check_send(make_table(4, 1, 1, 16384), data, 16385, 1, REF_OUT).number == 13);
}

static void a_message_above_2_to_the_32_bytes_is_refused_with_13(void)
{
    size_t more = (size_t)1 << 32;
    uint8_t *bytes = vast(more + 100);

    CHECK(bytes != NULL);
    if (bytes != NULL)
        CHECK(tumbeliko_send(4, 1, 1, 16, bytes, more + 5, 1, data, REF_OUT).number == 13);
    give_back_vast(bytes, more + 100);
}

/* Every combination of faults, so every pair too. */
static void the_sender_looks_in_the_order_1_2_4_13(void)
{
    static const uint32_t tos[] = { 3, 0, 8, 64, 257, 0x80000001, 0xffffffff };
    table good = make_table(7, 2, 2, 16);

    random_bytes(data, 100);
    for (size_t bad = 0; bad <= BAD_TABLES; bad++)
        for (size_t small = 0; small < 4; small++)
            for (size_t to = 0; to < sizeof tos / sizeof *tos; to++)
                for (size_t len = 0; len < 3; len++) {
                    uint32_t number = bad ? 1 : small ? 2 : to ? 4 : len ? 13 : 0;

                    CHECK(check_send(bad == 0 ? good : bad_tables[bad - 1], data, (const size_t[]){ 16, 17, 90 }[len],
                                     tos[to], (const size_t[]){ REF_OUT, REF_OUT - 1, 60, 0 }[small]).number == number);
                }
}

/* ---- step: refusals */

/* The faults of a step in the order in which it looks: a state under 4,608
 * bytes first. Each may be there in several ways. The number of a record that
 * is not of the form goes by the way. */
enum { TINY, NOT_SOUND, SHORT, NO_BOARD, BAD_FORM, NO_SENDER, LONG, LATE, SECOND, FAULTS };
static const uint32_t fault_number[FAULTS] = { 2, 3, 2, 4, 0, 6, 7, 8, 9 };
static const int fault_ways[FAULTS] = { 3, UNSOUND, 5, 5, 9, 2, 2, 2, 1 };

/* Spoils the record's form in that way. Answers what it is refused with. */
static fault spoil_form(int way, uint32_t kind, size_t *len)
{
    size_t nodes = record[PATH_COUNT_AT + 1], whole = *len;

    switch (way) {
    case 0:
        record[(*len)++] = 0;
        return (fault){ 25, whole };
    case 1:
        (*len)--;
        return (fault){ 20, kind == VOTE ? FRAGMENT_COUNT_AT(0) : FRAGMENT_AT(nodes) };
    case 2:
        record[KIND_AT] = 0;
        return (fault){ 21, KIND_AT };
    case 3:
        record[KIND_AT] = (uint8_t)(kind + 3);
        return (fault){ 21, KIND_AT };
    case 4:
        *len = 0;
        return (fault){ 20, KIND_AT };
    case 5:
        put_count(record + ROOT_COUNT_AT, 31);
        return (fault){ 22, ROOT_COUNT_AT };
    case 6:
        put_count(record + PATH_COUNT_AT, 7);
        return (fault){ 23, PATH_COUNT_AT };
    case 7:
        put_count(record + FRAGMENT_COUNT_AT(nodes), 16389);
        return (fault){ 24, FRAGMENT_COUNT_AT(nodes) };
    default:
        *len = PATH_AT - 1;
        return (fault){ 20, PATH_COUNT_AT };
    }
}

/* Tries a record of that kind with these faults, fault f in the way ways[f]
 * where bit f is set, and says if the refusal is that of the first. */
static void try_faults(uint32_t kind, unsigned faults, const int *ways)
{
    table b = make_table(4, 1, 2, 16);
    uint32_t from = 2;
    fault right = { 0, 0 };
    size_t out = REF_OUT, delivery = 16, len, state;
    const tree *one = &work.trees[0];
    ref_stepped did;

    begin(b, 1, 9);
    state = work.len;
    if (faults >> NO_SENDER & 1)
        from = ways[NO_SENDER] ? 1 : 4;
    len = tree_record(one, kind, kind == SEND ? 1 : from, record);
    if (faults >> LONG & 1) {
        random_bytes(data, REF_FRAGMENT);
        len = ref_write_record(kind, one->root, 32, one->paths, 64, data, ways[LONG] ? 16388 : work.s_max + 1,
                               record, REF_OUT).length;
    }
    if (faults >> SECOND & 1) {
        if (kind == SEND)
            set_flags(1, 0, 0, 0);
        else if (kind == ECHO)
            heard_echo_of(one, from, true);
        else
            heard_vote(from, one->root);
    }
    if (faults >> LATE & 1) {
        if (kind == SEND && ways[LATE]) {               /* the output stage alone */
            set_flags(work.state[ACQUIRED], 1, 1, 0);
            for (uint32_t i = 1; i <= 3; i++)
                heard_vote(i, one->root);
        } else {
            set_flags(work.state[ACQUIRED], 1, 1, 1);
        }
    }
    for (int f = FAULTS - 1; f >= 0; f--)
        if (faults >> f & 1)
            right = f == BAD_FORM ? spoil_form(ways[f], kind, &len) : (fault){ fault_number[f], 0 };
    if (faults >> NO_BOARD & 1)
        from = (const uint32_t[]){ 0, 5, 256 + 2, 0xffffffff, 0x80000002 }[ways[NO_BOARD]];
    if (faults >> NOT_SOUND & 1)
        make_unsound(ways[NOT_SOUND]);
    if (faults >> SHORT & 1)
        switch (ways[SHORT]) {
        case 0: state--; break;
        case 1: state = HEAD; break;
        case 2: out--; break;
        case 3: delivery--; break;
        case 4: out = delivery = 0; break;
        }
    if (faults >> TINY & 1)
        state = (const size_t[]){ HEAD - 1, 34, 0 }[ways[TINY]];
    did = check_step_with(work.state, state, from, record, len, out, delivery);
    CHECK(did.number == right.number && did.offset == right.offset);
}

/* Which faults a record of a kind may have. */
static bool may_have(uint32_t kind, int fault)
{
    return (kind == SEND || fault != NO_SENDER) && (kind != VOTE || fault != LONG);
}

static void each_fault_of_a_step_is_refused_with_its_number(void)
{
    for (uint32_t kind = SEND; kind <= VOTE; kind++) {
        int ways[FAULTS] = { 0 };

        try_faults(kind, 0, ways);
        for (int f = 0; f < FAULTS; f++)
            for (ways[f] = 0; may_have(kind, f) && ways[f] < fault_ways[f]; ways[f]++)
                try_faults(kind, 1u << f, ways);
    }
}

static void of_every_pair_of_faults_a_step_answers_the_first_in_the_order_3_2_4_20_to_25_6_7_8_9(void)
{
    for (uint32_t kind = SEND; kind <= VOTE; kind++)
        for (int f = 0; f < FAULTS; f++)
            for (int g = f + 1; g < FAULTS; g++) {
                int ways[FAULTS] = { 0 };

                if (!may_have(kind, f) || !may_have(kind, g))
                    continue;
                for (ways[f] = 0; ways[f] < fault_ways[f]; ways[f]++)
                    for (ways[g] = 0; ways[g] < fault_ways[g]; ways[g]++)
                        try_faults(kind, 1u << f | 1u << g, ways);
            }
}

static void of_all_faults_together_a_step_answers_the_first(void)
{
    for (uint32_t kind = SEND; kind <= VOTE; kind++)
        for (unsigned faults = 0; faults < 1u << FAULTS; faults++) {
            int ways[FAULTS];
            bool may = true;

            for (int f = 0; f < FAULTS; f++) {
                ways[f] = (int)random_below((uint32_t)fault_ways[f]);
                may = may && (!(faults >> f & 1) || may_have(kind, f));
            }
            if (may)
                try_faults(kind, faults, ways);
        }
}

/* Hands over the first `len` bytes in `record`, again and again to the same
 * board: a record that cannot be read is refused as the reader refuses it. */
static void check_read_by_step(const uint8_t *sound, uint32_t from, size_t len)
{
    ref_parts read = check_reader(record, len);
    ref_stepped did;

    memcpy(work.state, sound, work.len);
    did = check_step(from, record, len);
    if (read.number != 0)
        CHECK(did.number == read.number && did.offset == read.offset);
    else
        CHECK(!ref_form_fault(did.number) && did.offset == 0);
}

/* Cuts of a record, and other kinds and counts in it. */
static void a_step_names_the_field_at_fault_as_the_reader_does(void)
{
    static uint8_t sound[ROOM];

    forget_what_was_seen();
    for (uint32_t n = 1; n <= 33; n += 16)
        for (uint32_t kind = SEND; kind <= VOTE; kind++) {
            uint32_t from = kind == SEND ? 1 : n;
            size_t len, nodes;

            begin(make_table(n, (n - 1) / 3, 1, 30), n, 21);
            memcpy(sound, work.state, work.len);
            len = tree_record(&work.trees[0], kind, kind == SEND ? n : from, record);
            nodes = record[PATH_COUNT_AT + 1];
            for (size_t cut = 0; cut <= len + 3; cut++)
                check_read_by_step(sound, from, cut);
            for (uint32_t which = 0; which < NUMBER_BYTES; which++) {
                uint8_t *byte = record + number_byte(nodes, which), was = *byte;

                for (uint32_t other = 0; other < 256; other++) {
                    *byte = (uint8_t)other;
                    check_read_by_step(sound, from, len);
                }
                *byte = was;
            }
        }
    for (uint32_t number = REF_FORM_FIRST; number <= REF_FORM_LAST; number++)
        CHECK(refusals[number] > 20);
}

static void a_state_under_4608_bytes_gives_2_at_once(void)
{
    size_t len;

    begin(make_table(4, 1, 2, 16), 1, 9);
    len = tree_record(&work.trees[0], VOTE, 1, record);
    for (size_t state = 0; state < HEAD; state += 1 + random_below(60)) {
        CHECK(check_step_with(work.state, state, 1, record, len, REF_OUT, 16).number == 2);
        random_bytes(data, HEAD);
        CHECK(check_step_with(data, state, 0, record, 3, 0, 0).number == 2);
    }
    CHECK(check_step_with(work.state, HEAD - 1, 1, record, len, REF_OUT, 16).number == 2);
    random_bytes(data, HEAD);
    CHECK(check_step_with(data, HEAD, 0, record, 3, 0, 0).number == 3);
}

static void a_step_needs_its_buffers_and_leaves_the_bytes_beyond(void)
{
    for (int i = 0; i < 200; i++) {
        size_t len, more[2];

        begin_random(13, 40);
        len = tree_record(&work.trees[0], ECHO, 1, record);
        CHECK(check_step_with(work.state, work.len - 1, 1, record, len, REF_OUT, work.b.longest).number == 2);
        CHECK(check_step_with(work.state, HEAD, 1, record, len, REF_OUT, work.b.longest).number == 2);
        CHECK(check_step_with(work.state, work.len, 1, record, len, REF_OUT - 1, work.b.longest).number == 2);
        if (work.b.longest > 0)
            CHECK(check_step_with(work.state, work.len, 1, record, len, REF_OUT, work.b.longest - 1).number == 2);
        random_bytes(work.state + work.len, 300);
        more[0] = random_below(300);
        more[1] = random_below(300);
        CHECK(check_step_with(work.state, work.len + more[0], 1, record, len, REF_OUT + more[1],
                              work.b.longest + random_below(300)).number == 0);
    }
}

static void lengths_above_2_to_the_32_are_no_shorter_for_it(void)
{
    size_t more = (size_t)1 << 32, len;
    uint8_t *bytes = vast(more + 70000);
    tumbeliko_stepped did;

    CHECK(bytes != NULL);
    if (bytes == NULL)
        return;
    begin(make_table(4, 1, 2, 16), 1, 9);
    len = tree_record(&work.trees[0], ECHO, 1, bytes);
    did = tumbeliko_step(work.state, work.len, 1, bytes, more + len, old_out, REF_OUT, old_delivery, 16);
    CHECK(did.number == 25 && did.offset == len);
    tree_record(&work.trees[0], ECHO, 1, record);
    memcpy(bytes, work.state, work.len);
    CHECK(tumbeliko_step(bytes, more, 1, record, len, old_out, REF_OUT, old_delivery, 16).number == 0);
    CHECK(tumbeliko_step(bytes, work.len, 1, record, len, old_out, REF_OUT, old_delivery, 16).number == 9);
    CHECK(tumbeliko_step(work.state, work.len, 1, record, len, bytes, more, old_delivery, 16).number == 0);
    CHECK(tumbeliko_step(work.state, work.len, 4, record, tree_record(&work.trees[0], VOTE, 4, record),
                         old_out, REF_OUT, bytes, more + 3).number == 0);
    give_back_vast(bytes, more + 70000);
}

static void random_bytes_as_a_state_are_judged_as_the_reference_judges_them(void)
{
    unsigned taken = 0;

    for (int i = 0; i < 4000; i++) {
        uint32_t from;
        size_t len;

        begin_random(i % 50 ? 7 : 64, 20);
        random_bytes(work.state, work.len);
        if (i % 10 > 0)
            memcpy(work.state, (const uint8_t[]){ (uint8_t)work.b.n, (uint8_t)work.b.t, (uint8_t)work.b.sender,
                                                  (uint8_t)work.own, 0, (uint8_t)work.b.longest }, 6);
        if (i % 10 > 2) {
            memset(work.state + ECHOES, 0, 16);
            memset(work.state + LENGTHS, 0, 128);
        }
        if (i % 10 > 3)
            for (int j = 0; j < 8; j++)
                work.state[VOTES + 7 - j] &= (uint8_t)(work.b.n >= 8u * (uint32_t)(j + 1) ? 0xff
                    : work.b.n <= 8u * (uint32_t)j ? 0 : (1 << (work.b.n - 8u * (uint32_t)j)) - 1);
        for (int f = ACQUIRED; i % 10 > 4 && f <= DONE; f++)
            work.state[f] = (uint8_t)(random_below(3) ? work.state[f] : 0);
        from = 1 + random_below(work.b.n);
        len = random_record(from);
        taken += check_step(from, record, len).number != 3;
    }
    CHECK(taken > 400 && taken < 3600);
}

static void single_flipped_bits_of_sound_states_are_judged_as_the_reference_judges_them(void)
{
    static uint8_t sound[ROOM];

    forget_what_was_seen();
    for (int stage = 0; stage < STAGES; stage++)
        for (int turn = 0; turn < 2; turn++) {
            begin_random(turn ? 13 : 5, 30);
            random_sound_state(stage);
            memcpy(sound, work.state, work.len);
            for (size_t bit = 0; bit < 8 * work.len; bit += bit < 8 * 168 ? 1 : 1 + random_below(120)) {
                uint32_t from = 1 + random_below(work.b.n);
                size_t len = tree_record(&work.trees[0], ECHO + (uint32_t)bit % 2, from, record);

                memcpy(work.state, sound, work.len);
                work.state[bit / 8] ^= (uint8_t)(1 << bit % 8);
                check_step(from, record, len);
            }
        }
    CHECK(refusals[3] > 1000);
}

/* ---- step: what an accepted record does */

static void a_send_with_a_correct_path_is_echoed(void)
{
    for (int i = 0; i < 300; i++) {
        ref_stepped did;

        begin_random(i % 20 ? 13 : 64, 60);
        did = hand(&work.trees[i % GROVE], SEND, work.b.sender);
        CHECK(did.number == 0 && did.delivery == NONE && did.message_length == 0);
        CHECK(did.record_length == tree_record(&work.trees[i % GROVE], ECHO, work.own, record));
        CHECK(memcmp(new_out, record, did.record_length) == 0);
        CHECK(work.state[ACQUIRED] != 0);
    }
}

static void a_send_with_a_wrong_path_is_used_up_and_puts_out_nothing(void)
{
    for (int i = 0; i < 300; i++) {
        const tree *one = &work.trees[0];
        ref_stepped did;
        size_t len;

        begin_random(i % 20 ? 13 : 64, 60);
        len = tree_record(one, SEND, work.own, record);
        switch (i % 3) {
        case 0:
            record[3 + random_below(32)] ^= 0x10;
            break;
        case 1:
            record[len - 1 - random_below(one->lengths[work.own - 1])] ^= 0x04;
            break;
        case 2:
            if (one->nodes[work.own - 1] > 0)
                record[37 + random_below(32)] ^= 0x80;
            else
                record[34] ^= 1;
            break;
        }
        did = check_step(work.b.sender, record, len);
        CHECK(did.number == 0 && did.record_length == 0 && work.state[ACQUIRED] != 0);
        CHECK(hand(one, SEND, work.b.sender).number == 9);
    }
}

static void a_path_count_wrong_for_n_uses_a_send_up_and_leaves_an_echo_unusable(void)
{
    for (int i = 0; i < 60; i++)
        for (uint32_t nodes = 0; nodes <= 6; nodes++)
            for (uint32_t kind = SEND; kind <= ECHO; kind++) {
                const tree *one = &work.trees[0];
                uint32_t from, at;
                ref_stepped did;
                size_t len;

                begin_random(i % 10 ? 13 : 64, 30);
                if (work.b.n == 1)
                    continue;
                from = kind == SEND ? work.b.sender : 1 + random_below(work.b.n);
                at = (kind == SEND ? work.own : from) - 1;
                random_bytes(data, 192);
                memcpy(data, one->paths + 192 * at, 32 * one->nodes[at]);
                len = ref_write_record(kind, one->root, 32, data, 32 * nodes, one->area + at * one->s_max,
                                       one->lengths[at], record, REF_OUT).length;
                did = check_step(from, record, len);
                CHECK(did.number == 0);
                CHECK(kind == ECHO || (did.record_length > 0) == (nodes == one->nodes[at]));
                CHECK(kind == SEND || board.echoes == (uint64_t)1 << at);
                CHECK(kind == SEND || board.usable == (nodes == one->nodes[at] ? (uint64_t)1 << at : 0));
            }
}

static void a_refused_send_is_not_used_up(void)
{
    begin(make_table(4, 1, 2, 16), 1, 9);
    random_bytes(data, 300);
    for (int way = 0; way < fault_ways[BAD_FORM]; way++) {
        size_t len = tree_record(&work.trees[0], SEND, 1, record);
        fault right = spoil_form(way, SEND, &len);

        CHECK(check_step(2, record, len).number == right.number);
    }
    ref_write_record(SEND, data, 32, data, 64, data, work.s_max + 1, record, REF_OUT);
    CHECK(check_step(2, record, 39 + 64 + work.s_max + 1).number == 7);
    CHECK(hand(&work.trees[0], SEND, 3).number == 6);
    CHECK(work.state[ACQUIRED] == 0);
    CHECK(hand(&work.trees[0], SEND, 2).record_length > 0);
    CHECK(hand(&work.trees[0], SEND, 2).number == 9);
}

static void n_minus_t_echoes_or_t_plus_1_votes_for_one_root_bring_a_vote(void)
{
    for (uint32_t n = 1; n <= 64; n += n < 13 ? 1 : 17)
        for (uint32_t t = 0; 3 * t < n; t += n < 13 ? 1 : 7)
            for (uint32_t kind = ECHO; kind <= VOTE; kind++) {
                uint32_t need = kind == ECHO ? n - t : t + 1;

                begin(make_table(n, t, 1, 8), n, 5);
                for (uint32_t from = n; from > n - need; from--) {
                    ref_stepped did = hand(&work.trees[0], kind, from);

                    CHECK(did.number == 0);
                    CHECK((did.record_length == 39) == (from == n - need + 1));
                }
                CHECK(new_out[0] == VOTE && memcmp(new_out + 3, work.trees[0].root, 32) == 0);
                CHECK(work.state[VOTED] != 0);
            }
}

static void an_unusable_echo_still_counts_as_an_echo(void)
{
    begin(make_table(4, 1, 2, 16), 1, 9);
    for (uint32_t from = 1; from <= 3; from++) {
        size_t len = tree_record(&work.trees[0], ECHO, from, record);

        record[40] ^= 1;                                /* a node of the path */
        CHECK(check_step(from, record, len).record_length == (from == 3 ? 39 : 0));
    }
    CHECK(board.usable == 0 && board.echoes == 7 && board.voted);
}

static void echoes_or_votes_for_different_roots_bring_no_vote(void)
{
    begin(make_table(7, 2, 2, 16), 1, 9);
    grow_tree(&work.trees[1], work.b, MESSAGE_TREE, work.message, 4);
    for (uint32_t from = 1; from <= 7; from++)
        CHECK(hand(&work.trees[from % 2], ECHO, from).record_length == 0);
    for (uint32_t from = 1; from <= 4; from++)
        CHECK(hand(&work.trees[from % 2], VOTE, from).record_length == 0);
    CHECK(hand(&work.trees[0], VOTE, 6).record_length == 39);
}

static void a_second_echo_or_vote_from_a_board_is_refused_with_9_and_does_not_count(void)
{
    begin(make_table(4, 1, 2, 16), 1, 9);
    grow_tree(&work.trees[1], work.b, MESSAGE_TREE, work.message, 4);
    CHECK(hand(&work.trees[0], VOTE, 3).number == 0);
    CHECK(hand(&work.trees[0], ECHO, 3).number == 0);
    for (int i = 0; i < 10; i++) {
        CHECK(hand(&work.trees[i % 2], VOTE, 3).number == 9);
        CHECK(hand(&work.trees[i % 2], ECHO, 3).number == 9);
    }
    CHECK(hand(&work.trees[1], VOTE, 1).record_length == 0);
    CHECK(hand(&work.trees[0], VOTE, 4).record_length == 39);
    CHECK(hand(&work.trees[0], VOTE, 4).number == 9);
}

static void echoes_and_votes_are_kept_after_voting_and_in_the_output_stage(void)
{
    for (int i = 0; i < 100; i++) {
        uint32_t n;

        begin_random(13, 30);
        if (work.b.n < 4 || work.b.t == 0)
            continue;
        n = work.b.n;
        for (uint32_t from = 1; from <= n - work.b.t; from++)   /* votes alone open the output stage */
            CHECK(hand(&work.trees[0], VOTE, from).record_length == (from == work.b.t + 1 ? 39 : 0));
        CHECK(work.state[OUTPUT] != 0 && work.state[DONE] == 0);
        CHECK(hand(&work.trees[0], SEND, work.b.sender).number == 8);
        for (uint32_t from = n - work.b.t + 1; from <= n; from++)
            CHECK(hand(&work.trees[1], VOTE, from).number == 0);
        for (uint32_t from = 1; from <= work.k; from++) {
            ref_stepped did = hand(&work.trees[0], ECHO, n + 1 - from);

            CHECK(did.number == 0 && did.record_length == 0);
            CHECK(did.delivery == (from == work.k ? MESSAGE : NONE));
        }
        CHECK(memcmp(new_delivery, work.message, work.message_len) == 0);
        CHECK(hand(&work.trees[0], ECHO, 1).number == 8);
        CHECK(hand(&work.trees[0], VOTE, 1).number == 8);
        CHECK(hand(&work.trees[0], SEND, work.b.sender).number == 8);
    }
}

/* ---- step: delivery */

static void the_message_is_delivered_once_k_usable_echoes_name_the_root(void)
{
    static const uint32_t tables[][3] = { { 1, 0, 16384 }, { 2, 0, 33 }, { 4, 1, 16384 }, { 5, 1, 0 }, { 7, 2, 1000 },
        { 13, 4, 77 }, { 13, 0, 77 }, { 64, 21, 16384 }, { 64, 0, 16384 }, { 64, 21, 0 } };

    for (size_t i = 0; i < sizeof tables / sizeof *tables; i++)
        for (uint32_t less = 0; less < 3 && less <= tables[i][2]; less++) {
            uint32_t n = tables[i][0], first;

            begin(make_table(n, tables[i][1], n, tables[i][2]), 1, tables[i][2] - less);
            open_output_stage(work.trees[0].root);
            first = random_below(n);
            for (uint32_t j = 0; j < work.k; j++) {
                ref_stepped did = hand(&work.trees[0], ECHO, 1 + (first + j) % n);

                CHECK(did.number == 0 && did.record_length == 0);
                CHECK(did.delivery == (j + 1 == work.k ? MESSAGE : NONE));
                CHECK(did.message_length == (j + 1 == work.k ? work.message_len : 0));
            }
            CHECK(memcmp(new_delivery, work.message, work.message_len) == 0);
            CHECK(work.state[DONE] != 0);
        }
}

static void an_empty_message_is_delivered_as_a_message(void)
{
    for (uint32_t n = 1; n <= 13; n++) {
        ref_stepped did = { 0, 0, 0, 0, 0 };

        begin(make_table(n, (n - 1) / 3, 1, n % 2 ? 0 : 30), 1, 0);
        open_output_stage(work.trees[0].root);
        for (uint32_t from = 1; from <= work.k; from++)
            did = hand(&work.trees[0], ECHO, from);
        CHECK(did.number == 0 && did.delivery == MESSAGE && did.message_length == 0);
    }
}

/* Lying senders' trees of that manner, at a board in the output stage: void,
 * unless the lie happens to be the tree of some message. */
static void lies_of_manner(int manner, int times)
{
    unsigned voids = 0;

    for (int i = 0; i < times; i++) {
        ref_stepped did = { 0, 0, 0, 0, 0 };
        uint32_t first;

        begin_random(13, 60);
        grow_tree(&work.trees[1], work.b, manner, work.message, work.message_len);
        open_output_stage(work.trees[1].root);
        first = random_below(work.b.n);
        for (uint32_t j = 0; j < work.b.n && did.delivery == NONE; j++)
            did = hand(&work.trees[1], ECHO, 1 + (first + j) % work.b.n);
        CHECK(did.delivery != NONE);
        CHECK(did.delivery == MESSAGE || did.message_length == 0);
        voids += did.delivery == VOID;
    }
    CHECK(voids > (unsigned)times / 4);
}

static void other_bytes_than_zeros_after_the_message_are_void(void)     { lies_of_manner(PADDED_TREE, 200); }
static void an_unreadable_block_is_void(void)                           { lies_of_manner(UNREADABLE_TREE, 200); }
static void fragments_of_no_block_are_void(void)                        { lies_of_manner(NO_BLOCK_TREE, 200); }
static void unequal_lengths_are_void(void)                              { lies_of_manner(UNEVEN_TREE, 200); }

static void other_bytes_after_the_message_are_not_looked_at_if_the_fresh_root_is_the_same(void)
{
    unsigned padded = 0;

    for (int i = 0; i < 200; i++) {
        ref_stepped did = { 0, 0, 0, 0, 0 };

        begin_random(13, 60);
        grow_tree(&work.trees[1], work.b, PADDED_TREE, work.message, work.message_len);
        padded += memcmp(work.trees[1].root, work.trees[0].root, 32) != 0;
        set_flags(1, 1, 0, 0);
        for (uint32_t from = 1; from <= work.k; from++)         /* kept under the message's root, marked usable */
            heard_echo(from, work.trees[0].root, work.trees[1].area + (from - 1) * work.s_max,
                       work.trees[1].lengths[from - 1], true);
        for (uint32_t from = 1; from <= work.b.n - work.b.t; from++)
            did = hand(&work.trees[0], VOTE, from);
        CHECK(did.number == 0 && did.delivery == MESSAGE && did.message_length == work.message_len);
        CHECK(memcmp(new_delivery, work.message, work.message_len) == 0);
    }
    CHECK(padded > 50);
}

/* One fragment of the k lowest decides; one of the others does not. */
static void only_the_k_lowest_usable_echoes_are_rebuilt_from(void)
{
    unsigned voids = 0, messages = 0;

    for (int i = 0; i < 400; i++) {
        uint32_t n, spoilt;
        ref_stepped did = { 0, 0, 0, 0, 0 };

        begin_random(13, 60);
        n = work.b.n;
        if (work.k == n)
            continue;
        set_flags(1, 1, 0, 0);
        spoilt = 1 + random_below(n);
        for (uint32_t from = 1; from <= n; from++) {
            heard_echo_of(&work.trees[0], from, true);
            if (from == spoilt && i % 2)
                work.state[HEAD + (from - 1) * work.s_max] ^= 0x40;
            else if (from == spoilt)            /* a length of its own */
                put_length(work.state, from - 1, work.trees[0].lengths[from - 1] > 1 ? 1 : work.s_max);
        }
        for (uint32_t from = 1; from <= n - work.b.t; from++)
            did = hand(&work.trees[0], VOTE, from);
        CHECK(did.number == 0 && did.delivery != NONE);
        if (spoilt > work.k)
            CHECK(did.delivery == MESSAGE);
        else if (i % 2)
            CHECK(did.delivery == VOID);
        voids += did.delivery == VOID;
        messages += did.delivery == MESSAGE;
    }
    CHECK(voids > 50 && messages > 20);
}

static void unusable_echoes_are_not_rebuilt_from(void)
{
    for (int i = 0; i < 100; i++) {
        ref_stepped did = { 0, 0, 0, 0, 0 };

        begin_random(13, 60);
        if (work.b.t == 0)
            continue;
        open_output_stage(work.trees[0].root);
        for (uint32_t from = 1; from <= work.b.t; from++) {     /* the lowest, and spoilt */
            size_t len = tree_record(&work.trees[0], ECHO, from, record);

            record[len - 1] ^= 1;
            CHECK(check_step(from, record, len).delivery == NONE);
        }
        for (uint32_t from = work.b.t + 1; did.delivery == NONE && from <= work.b.n; from++)
            did = hand(&work.trees[0], ECHO, from);
        CHECK(did.delivery == MESSAGE && did.message_length == work.message_len);
        CHECK(memcmp(new_delivery, work.message, work.message_len) == 0);
    }
}

/* ---- step: sound states that no run reaches */

static void a_done_board_that_heard_nothing_is_sound_and_refuses_with_8(void)
{
    for (uint32_t n = 1; n <= 64; n += 9) {
        begin(make_table(n, (n - 1) / 3, n, 20), 1, 11);
        set_flags(0, 1, 1, 1);
        for (uint32_t kind = SEND; kind <= VOTE; kind++)
            CHECK(hand(&work.trees[0], kind, n).number == 8);
    }
}

static void a_board_that_voted_and_heard_nothing_is_sound_and_votes_no_more(void)
{
    for (uint32_t n = 1; n <= 13; n++) {
        begin(make_table(n, (n - 1) / 3, n, 20), 1, 11);
        set_flags(0, 1, 0, 0);
        CHECK(hand(&work.trees[0], SEND, n).record_length > 39);
        for (uint32_t from = 1; from <= n; from++)
            CHECK(hand(&work.trees[0], ECHO, from).record_length == 0);
        for (uint32_t from = 1; from <= n - work.b.t; from++) {
            ref_stepped did = hand(&work.trees[0], VOTE, from);

            CHECK(did.record_length == 0 && did.delivery == (from == n - work.b.t ? MESSAGE : NONE));
        }
    }
}

static void usable_echoes_under_roots_that_nobody_voted_for_stay_unused(void)
{
    for (int i = 0; i < 60; i++) {
        begin_random(13, 40);
        if (work.b.t == 0)
            continue;
        grow_tree(&work.trees[1], work.b, MESSAGE_TREE, work.message, 0);
        if (memcmp(work.trees[0].root, work.trees[1].root, 32) == 0)
            continue;
        open_output_stage(work.trees[0].root);
        for (uint32_t from = 1; from <= work.b.n; from++)
            heard_echo_of(&work.trees[1], from, true);
        CHECK(sound_now());
        for (uint32_t from = 1; from <= work.b.n; from++)
            CHECK(hand(&work.trees[0], ECHO, from).number == 9);
        CHECK(hand(&work.trees[0], SEND, work.b.sender).number == 8);
    }
}

static void a_flag_byte_other_than_0_is_true(void)
{
    for (uint32_t value = 1; value < 256; value++) {
        begin(make_table(4, 1, 2, 16), 1, 9);
        set_flags((uint8_t)value, (uint8_t)value, 0, 0);
        CHECK(hand(&work.trees[0], SEND, 2).number == 9);
        CHECK(hand(&work.trees[0], VOTE, 2).number == 0);
        CHECK(hand(&work.trees[0], VOTE, 3).record_length == 0);
        set_flags(0, (uint8_t)value, (uint8_t)value, (uint8_t)value);
        CHECK(hand(&work.trees[0], VOTE, 4).number == 8);
        set_flags(0, 0, 0, (uint8_t)value);
        CHECK(hand(&work.trees[0], VOTE, 4).number == 3);
    }
}

static void spare_bytes_and_roots_of_boards_not_heard_are_not_looked_at_and_stay(void)
{
    for (int i = 0; i < 200; i++) {
        uint32_t n, need;

        begin_random(13, 40);
        n = work.b.n;
        random_bytes(work.state + 34, 6);
        random_bytes(work.state + 168, HEAD - 168);
        for (uint32_t j = 0; i % 2 && j < 64; j++) {    /* roots that would make a quorum if they counted */
            memcpy(work.state + ECHO_ROOTS + 32 * j, work.trees[0].root, 32);
            memcpy(work.state + VOTE_ROOTS + 32 * j, work.trees[0].root, 32);
        }
        need = n - work.b.t;
        for (uint32_t from = 1; from <= need; from++)
            CHECK(hand(&work.trees[0], ECHO, from).record_length == (from == need ? 39 : 0));
        for (uint32_t from = 1; from <= need; from++)
            CHECK(hand(&work.trees[0], VOTE, from).delivery == (from == need ? MESSAGE : NONE));
    }
}

static void sound_states_of_every_stage_take_any_record_as_the_reference_does(void)
{
    forget_what_was_seen();
    for (int i = 0; i < 4000; i++) {
        int stage = i % 8 == 7 ? AFTER_DONE : i % 3;

        begin_random(i % 200 == 0 ? 64 : i % 4 ? 7 : 13, 40);
        random_sound_state(stage);
        for (int turn = 0; turn < 6; turn++) {
            uint32_t from = random_below(40) ? 1 + random_below(work.b.n) : random_below(70);
            size_t len = random_record(from);

            check_step(from, record, len);
        }
    }
    for (uint32_t number = 4; number < REF_NUMBERS; number++)
        if (number == 4 || (number >= 6 && number <= 9) || ref_form_fault(number))
            CHECK(refusals[number] > 50);
    CHECK(refusals[0] > 1000 && put_out[ECHO] > 50 && put_out[VOTE] > 50);
    CHECK(deliveries[MESSAGE] > 50 && deliveries[VOID] > 50);
}

/* ---- whole runs, every board beside one that the reference keeps from its start on */

#define MOST 13
static ref_board twins[MOST];
static uint8_t states[MOST][6000], twin_out[REF_OUT], twin_delivery[REF_LONGEST];

typedef struct {
    uint32_t from, to;
    size_t len;
    uint8_t bytes[400];
} letter;

static letter post[4000];
static size_t posted;

static void hand_in(uint32_t from, uint32_t to, const uint8_t *bytes, size_t len)
{
    if (posted == sizeof post / sizeof *post || len > sizeof post->bytes)
        return;
    post[posted].from = from;
    post[posted].to = to;
    post[posted].len = len;
    memcpy(post[posted++].bytes, bytes, len);
}

/* The same step by the library's state and by the twin. */
static ref_stepped step_beside(uint8_t *state, ref_board *twin, uint32_t from, const uint8_t *bytes, size_t len)
{
    size_t state_len = state_bytes(twin->table);
    ref_stepped did = check_step_with(state, state_len, from, bytes, len, REF_OUT, twin->table.longest), right;

    right = ref_step(twin, state_len, from, bytes, len, twin_out, REF_OUT, twin_delivery, sizeof twin_delivery);
    CHECK(did.number == right.number && did.offset == right.offset && did.record_length == right.record_length);
    CHECK(did.delivery == right.delivery && did.message_length == right.message_length);
    CHECK(memcmp(new_out, twin_out, right.record_length) == 0);
    CHECK(memcmp(new_delivery, twin_delivery, right.message_length) == 0);
    ref_decode(state, state_len, &board);
    CHECK(same_board(twin, &board));
    CHECK(ref_sound(&board));
    return did;
}

static void whole_run(bool lying)
{
    uint32_t n;

    begin_random(random_below(4) ? 5 : MOST, 40);
    n = work.b.n;
    posted = 0;
    for (uint32_t i = 1; i <= n; i++) {
        random_bytes(states[i - 1], work.len);
        CHECK(tumbeliko_start(n, work.b.t, work.b.sender, work.b.longest, i, states[i - 1], work.len) == 0);
        CHECK(ref_start(n, work.b.t, work.b.sender, work.b.longest, i, &twins[i - 1], work.len) == 0);
        hand_in(work.b.sender, i, record, tree_record(&work.trees[lying ? random_below(GROVE) : 0], SEND, i, record));
    }
    for (uint32_t j = 0; j < 4 * work.b.t; j++) {       /* what rule-breakers might say, in any board's name */
        uint32_t from = 1 + random_below(n);

        work.own = 1 + random_below(n);
        hand_in(from, work.own, record, random_record(from));
    }
    for (size_t taken = 0; taken < posted; taken++) {
        size_t pick = taken + random_below((uint32_t)(posted - taken));
        letter one = post[pick];
        ref_stepped did;

        post[pick] = post[taken];
        post[taken] = one;
        did = step_beside(states[one.to - 1], &twins[one.to - 1], one.from, one.bytes, one.len);
        for (uint32_t to = 1; did.record_length > 0 && to <= n; to++)
            hand_in(one.to, to, new_out, did.record_length);
        if (random_below(10) == 0)
            step_beside(states[one.to - 1], &twins[one.to - 1], one.from, one.bytes, one.len);
    }
}

static void whole_runs_go_record_by_record_as_the_reference_s(void)
{
    forget_what_was_seen();
    for (int i = 0; i < 60; i++)
        whole_run(i % 2);
    CHECK(deliveries[MESSAGE] > 50 && put_out[ECHO] > 100 && put_out[VOTE] > 100);
}

static void sixty_four_boards_go_record_by_record_as_the_reference_s(void)
{
    static const uint32_t faulty[] = { 21, 0, 10 };

    for (int i = 0; i < 3; i++) {
        uint32_t order[128], n = 64;
        bool delivered = false;

        begin(make_table(n, faulty[i], 7, i == 2 ? 100 : 16384), 64, i == 2 ? 33 : 16384);
        CHECK(ref_start(n, faulty[i], 7, work.b.longest, 64, &twins[0], work.len) == 0);
        for (uint32_t j = 0; j < 128; j++)
            order[j] = j;
        for (uint32_t j = 127; j > 0; j--) {
            uint32_t other = random_below(j + 1), was = order[j];

            order[j] = order[other];
            order[other] = was;
        }
        CHECK(step_beside(work.state, &twins[0], 7, record, tree_record(&work.trees[0], SEND, 64, record)).number == 0);
        for (uint32_t j = 0; j < 128; j++) {
            uint32_t from = 1 + order[j] / 2, kind = ECHO + order[j] % 2;
            ref_stepped did = step_beside(work.state, &twins[0], from, record,
                                          tree_record(&work.trees[0], kind, from, record));

            CHECK(did.number == (delivered ? 8 : 0));
            if (did.delivery != NONE) {
                CHECK(did.delivery == MESSAGE && did.message_length == work.message_len);
                CHECK(memcmp(new_delivery, work.message, work.message_len) == 0);
                delivered = true;
            }
        }
        CHECK(delivered);
    }
}

static const test reader_tests[] = {
    TEST(the_header_names_the_numbers_and_the_places),
    TEST(every_cut_is_20_at_the_field_of_the_first_missing_byte_and_more_bytes_are_25),
    TEST(every_cut_of_the_longest_record_and_cuts_of_other_long_ones_are_20_too),
    TEST(cuts_stated_one_by_one),
    TEST(every_change_of_one_byte_is_judged_as_the_reference_judges_it),
    TEST(changes_of_one_byte_of_long_records_are_judged_as_the_reference_judges_them),
    TEST(of_several_faults_the_first_field_counts),
    TEST(kinds_0_and_4_to_255_are_refused_with_21_whatever_follows),
    TEST(path_count_6_is_read_and_7_refused_with_23),
    TEST(fragments_of_1_to_16388_bytes_are_read_and_others_refused_with_24),
    TEST(a_vote_with_a_path_is_refused_with_23_and_with_a_fragment_alone_with_24),
    TEST(a_root_count_other_than_32_is_refused_with_22),
    TEST(random_strings_are_judged_as_the_reference_judges_them),
    TEST(a_record_above_2_to_the_32_bytes_is_refused_with_25),
};

static const test writer_tests[] = {
    TEST(what_is_written_is_read_back),
    TEST(what_is_read_is_what_would_be_written),
    TEST(parts_that_no_record_has_are_refused_with_21_to_24),
    TEST(the_writer_looks_in_the_order_2_21_22_23_24),
    TEST(a_refused_fragment_is_named_after_the_path_that_would_stand_before_it),
    TEST(the_writer_leaves_the_bytes_beyond_the_record),
    TEST(parts_above_2_to_the_32_bytes_are_refused_with_22_to_24),
};

static const test start_tests[] = {
    TEST(a_start_writes_the_first_4608_bytes_and_leaves_the_rest),
    TEST(every_table_near_its_limits_is_judged_at_a_start),
    TEST(numbers_near_2_to_the_32_are_refused_with_1_at_a_start),
    TEST(a_start_over_a_used_state_is_not_refused),
};

static const test send_tests[] = {
    TEST(every_board_s_record_is_the_sender_s),
    TEST(an_empty_message_is_sent),
    TEST(sixty_four_boards_are_sent_their_records),
    TEST(a_message_of_l_bytes_is_taken_and_of_l_plus_1_refused_with_13),
    TEST(a_message_above_2_to_the_32_bytes_is_refused_with_13),
    TEST(the_sender_looks_in_the_order_1_2_4_13),
};

static const test refusal_tests[] = {
    TEST(each_fault_of_a_step_is_refused_with_its_number),
    TEST(of_every_pair_of_faults_a_step_answers_the_first_in_the_order_3_2_4_20_to_25_6_7_8_9),
    TEST(of_all_faults_together_a_step_answers_the_first),
    TEST(a_step_names_the_field_at_fault_as_the_reader_does),
    TEST(a_state_under_4608_bytes_gives_2_at_once),
    TEST(a_step_needs_its_buffers_and_leaves_the_bytes_beyond),
    TEST(lengths_above_2_to_the_32_are_no_shorter_for_it),
    TEST(random_bytes_as_a_state_are_judged_as_the_reference_judges_them),
    TEST(single_flipped_bits_of_sound_states_are_judged_as_the_reference_judges_them),
};

static const test step_tests[] = {
    TEST(a_send_with_a_correct_path_is_echoed),
    TEST(a_send_with_a_wrong_path_is_used_up_and_puts_out_nothing),
    TEST(a_path_count_wrong_for_n_uses_a_send_up_and_leaves_an_echo_unusable),
    TEST(a_refused_send_is_not_used_up),
    TEST(n_minus_t_echoes_or_t_plus_1_votes_for_one_root_bring_a_vote),
    TEST(an_unusable_echo_still_counts_as_an_echo),
    TEST(echoes_or_votes_for_different_roots_bring_no_vote),
    TEST(a_second_echo_or_vote_from_a_board_is_refused_with_9_and_does_not_count),
    TEST(echoes_and_votes_are_kept_after_voting_and_in_the_output_stage),
};

static const test delivery_tests[] = {
    TEST(the_message_is_delivered_once_k_usable_echoes_name_the_root),
    TEST(an_empty_message_is_delivered_as_a_message),
    TEST(other_bytes_than_zeros_after_the_message_are_void),
    TEST(other_bytes_after_the_message_are_not_looked_at_if_the_fresh_root_is_the_same),
    TEST(an_unreadable_block_is_void),
    TEST(fragments_of_no_block_are_void),
    TEST(unequal_lengths_are_void),
    TEST(only_the_k_lowest_usable_echoes_are_rebuilt_from),
    TEST(unusable_echoes_are_not_rebuilt_from),
};

static const test unreached_tests[] = {
    TEST(a_done_board_that_heard_nothing_is_sound_and_refuses_with_8),
    TEST(a_board_that_voted_and_heard_nothing_is_sound_and_votes_no_more),
    TEST(usable_echoes_under_roots_that_nobody_voted_for_stay_unused),
    TEST(a_flag_byte_other_than_0_is_true),
    TEST(spare_bytes_and_roots_of_boards_not_heard_are_not_looked_at_and_stay),
    TEST(sound_states_of_every_stage_take_any_record_as_the_reference_does),
};

static const test run_tests[] = {
    TEST(whole_runs_go_record_by_record_as_the_reference_s),
    TEST(sixty_four_boards_go_record_by_record_as_the_reference_s),
};

int main(int argc, char **argv)
{
    static const group groups[] = {
        GROUP("read record", reader_tests), GROUP("write record", writer_tests), GROUP("start", start_tests),
        GROUP("send", send_tests), GROUP("refusals", refusal_tests), GROUP("step", step_tests),
        GROUP("delivery", delivery_tests), GROUP("unreached", unreached_tests), GROUP("whole runs", run_tests),
    };

    return run_groups(groups, sizeof groups / sizeof *groups, argc, argv);
}
