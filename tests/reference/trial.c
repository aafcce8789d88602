/*
 * The reference itself, tried on the sentences of document 01 and of requests
 * 1 to 3 of document 02: what the library is held against must be right
 * first.
 */

#include <stdlib.h>
#include <string.h>
#include "harness.h"
#include "mail.h"
#include "reference.h"

enum { SEND = 1, ECHO = 2, VOTE = 3 };
enum { NONE = 0, MESSAGE = 1, VOID = 2 };

static uint8_t out[REF_OUT], delivery[REF_LONGEST], record[20000], bytes[70000];

/* ---- worked out by hand */

static void products_worked_out_by_hand(void)
{
    uint8_t power = 1;
    bool seen[256] = { false };

    CHECK(ref_mul(2, 128) == 29);
    CHECK(ref_mul(2, 142) == 1);
    CHECK(ref_mul(3, 3) == 5);
    CHECK(ref_mul(0, 200) == 0);
    for (int i = 0; i < 255; i++) {     /* 2 is a generator */
        CHECK(!seen[power]);
        seen[power] = true;
        power = ref_mul(power, 2);
    }
    CHECK(power == 1);
}

static void quorums_worked_out_by_hand(void)
{
    static const uint32_t rows[][5] = { { 1, 0, 1, 1, 1 }, { 4, 1, 3, 2, 2 }, { 64, 21, 43, 22, 22 } };
    ref_table bad = { 3, 1, 1, 0 };

    for (int i = 0; i < 3; i++) {
        ref_table table = { rows[i][0], rows[i][1], 1, 0 };

        CHECK(ref_table_within_limits(table));
        CHECK(table.n - table.t == rows[i][2]);
        CHECK(table.t + 1 == rows[i][3]);
        CHECK(ref_k(table) == rows[i][4]);
    }
    CHECK(!ref_table_within_limits(bad));
}

static void a_vote_record_has_39_bytes(void)
{
    static const uint8_t root[32] = { 9 };

    CHECK(ref_write_record(VOTE, root, 32, root, 0, root, 0, out, sizeof out).length == 39);
    CHECK(ref_read_record(out, 39).kind == VOTE);
    CHECK(memcmp(out, "\x03\x00\x20\x09", 4) == 0);
}

/* ---- records */

static bool refused_at(ref_parts got, uint32_t number, size_t offset)
{
    return got.number == number && got.offset == offset && got.kind == 0 && got.nodes == 0 && got.fragment_length == 0;
}

static bool not_written_at(ref_written got, uint32_t number, size_t offset)
{
    return got.number == number && got.offset == offset && got.length == 0;
}

/* The fields of some records, written down by hand: kind, root count, path
 * count and fragment count as they stand there, the first in one byte and
 * the others in two; so many bytes of it; and what the reader says. */
static void faults_worked_out_by_hand(void)
{
    static const struct {
        uint32_t kind, root, nodes, bytes;
        size_t len;
        uint32_t number, offset;
    } cases[] = {
        { VOTE, 32, 0, 0, 39, 0, 0 }, { SEND, 32, 0, 1, 40, 0, 0 }, { ECHO, 32, 2, 5, 108, 0, 0 },
        { ECHO, 32, 6, 16388, 16619, 0, 0 },

        /* cut off: before or inside a count, a root, a path, a fragment */
        { VOTE, 32, 0, 0, 0, 20, 0 }, { VOTE, 32, 0, 0, 1, 20, 1 }, { VOTE, 32, 0, 0, 2, 20, 1 },
        { VOTE, 32, 0, 0, 3, 20, 3 }, { VOTE, 32, 0, 0, 34, 20, 3 }, { VOTE, 32, 0, 0, 35, 20, 35 },
        { VOTE, 32, 0, 0, 36, 20, 35 }, { VOTE, 32, 0, 0, 37, 20, 37 }, { VOTE, 32, 0, 0, 38, 20, 37 },
        { ECHO, 32, 2, 5, 37, 20, 37 }, { ECHO, 32, 2, 5, 100, 20, 37 }, { ECHO, 32, 2, 5, 101, 20, 101 },
        { ECHO, 32, 2, 5, 102, 20, 101 }, { ECHO, 32, 2, 5, 103, 20, 103 }, { ECHO, 32, 2, 5, 107, 20, 103 },
        { SEND, 32, 6, 16388, 16618, 20, 231 },

        /* the kind, whatever follows: one byte alone, and wrong counts */
        { 0, 32, 0, 0, 1, 21, 0 }, { 4, 32, 0, 0, 39, 21, 0 }, { 255, 31, 7, 0, 39, 21, 0 }, { 4, 32, 2, 5, 37, 21, 0 },

        /* the root count, before its section and after the kind */
        { VOTE, 31, 0, 0, 39, 22, 1 }, { VOTE, 33, 7, 0, 39, 22, 1 }, { SEND, 0, 0, 1, 3, 22, 1 },
        { ECHO, 256 + 32, 0, 1, 40, 22, 1 },

        /* the path count, before its section and after the root */
        { ECHO, 32, 7, 1, 37, 23, 35 }, { ECHO, 32, 7, 1, 36, 20, 35 }, { SEND, 32, 7, 1, 264, 23, 35 },
        { SEND, 32, 256, 1, 40, 23, 35 }, { VOTE, 32, 1, 0, 71, 23, 35 }, { VOTE, 32, 1, 9, 37, 23, 35 },

        /* the fragment count, before its section and after the path */
        { ECHO, 32, 0, 0, 39, 24, 37 }, { SEND, 32, 0, 0, 40, 24, 37 }, { ECHO, 32, 3, 0, 135, 24, 133 },
        { ECHO, 32, 1, 16389, 71, 24, 69 }, { ECHO, 32, 1, 16388, 71, 20, 71 }, { VOTE, 32, 0, 1, 40, 24, 37 },
        { VOTE, 32, 0, 1, 38, 20, 37 },

        /* bytes left over: the first of them */
        { VOTE, 32, 0, 0, 40, 25, 39 }, { VOTE, 32, 0, 0, 400, 25, 39 }, { SEND, 32, 0, 1, 41, 25, 40 },
        { ECHO, 32, 2, 5, 109, 25, 108 }, { ECHO, 32, 6, 16388, 16620, 25, 16619 },
    };

    for (size_t c = 0; c < sizeof cases / sizeof *cases; c++) {
        uint32_t counts[] = { cases[c].root, cases[c].nodes, cases[c].bytes };
        size_t places[] = { 1, 35, 37 + 32 * (size_t)cases[c].nodes };

        random_bytes(record, sizeof record);
        record[0] = (uint8_t)cases[c].kind;
        for (int i = 0; i < 3; i++) {
            record[places[i]] = (uint8_t)(counts[i] >> 8);
            record[places[i] + 1] = (uint8_t)counts[i];
        }
        if (cases[c].number != 0) {
            CHECK(refused_at(ref_read_record(record, cases[c].len), cases[c].number, cases[c].offset));
        } else {
            ref_parts read = ref_read_record(record, cases[c].len);

            CHECK(read.number == 0 && read.offset == 0 && read.kind == cases[c].kind && read.nodes == cases[c].nodes);
            CHECK(read.fragment_length == cases[c].bytes);
        }
    }
}

static void path_count_6_is_read_and_7_refused_with_23(void)
{
    memset(record, 0, sizeof record);
    record[0] = SEND;
    record[2] = 32;
    for (uint8_t nodes = 0; nodes <= 8; nodes++) {
        size_t at = 37 + 32 * (size_t)nodes;

        record[36] = nodes;
        record[at + 1] = 1;
        if (nodes <= 6)
            CHECK(ref_read_record(record, at + 3).number == 0);
        else
            CHECK(refused_at(ref_read_record(record, at + 3), 23, 35));
        record[at + 1] = 0;
    }
}

static void kinds_0_and_4_to_255_are_refused_with_21(void)
{
    static const uint8_t parts[192];

    for (uint32_t kind = 0; kind <= 600; kind++) {
        bool good = kind >= 1 && kind <= 3;
        size_t len = kind == VOTE ? 0 : 5;
        ref_written written = ref_write_record(kind, parts, 32, parts, 0, parts, len, out, sizeof out);

        CHECK(good ? written.number == 0 : not_written_at(written, 21, 0));
        memset(record, 0, 100);
        record[0] = (uint8_t)kind;
        record[2] = 32;
        record[38] = (uint8_t)len;
        for (size_t cut = 1; kind < 256 && cut <= 39 + len; cut++)
            CHECK(good ? (ref_read_record(record, cut).number == 0) == (cut == 39 + len)
                       : refused_at(ref_read_record(record, cut), 21, 0));
    }
}

static void what_is_written_is_read_and_no_other_length_is(void)
{
    for (int i = 0; i < 200; i++) {
        uint32_t kind = 1 + random_below(3), nodes = kind == VOTE ? 0 : random_below(7);
        uint32_t len = kind == VOTE ? 0 : 1 + random_below(i < 5 ? 16388 : 60);
        ref_written written;
        ref_parts read;

        random_bytes(bytes, sizeof bytes);
        written = ref_write_record(kind, bytes, 32, bytes + 100, 32 * nodes, bytes + 400, len, out, sizeof out);
        CHECK(written.number == 0 && written.offset == 0 && written.length == 39 + 32 * nodes + len);
        read = ref_read_record(out, written.length);
        CHECK(read.number == 0 && read.kind == kind && read.nodes == nodes && read.fragment_length == len);
        CHECK(memcmp(out + 3, bytes, 32) == 0);
        CHECK(memcmp(out + 37, bytes + 100, 32 * nodes) == 0);
        CHECK(memcmp(out + 39 + 32 * nodes, bytes + 400, len) == 0);
        for (size_t other = 0; other < written.length; other++)
            CHECK(ref_read_record(out, other).number == 20);
        for (size_t other = written.length + 1; other <= written.length + 3 && other < sizeof out; other++)
            CHECK(refused_at(ref_read_record(out, other), 25, written.length));
    }
}

/* Each of the writer's faults alone, and with one that comes later. */
static void the_writer_s_faults_worked_out_by_hand(void)
{
    static const struct {
        uint32_t kind;
        size_t root, path, fragment, out;
        uint32_t number, offset;
    } cases[] = {
        { ECHO, 32, 192, 16388, REF_OUT, 0, 0 }, { VOTE, 32, 0, 0, REF_OUT, 0, 0 },
        { ECHO, 32, 192, 1, REF_OUT - 1, 2, 0 }, { 0, 31, 0, 1, REF_OUT - 1, 2, 0 }, { VOTE, 32, 33, 1, 0, 2, 0 },
        { 0, 32, 0, 1, REF_OUT, 21, 0 }, { 4, 31, 33, 0, REF_OUT, 21, 0 }, { 256 + ECHO, 32, 0, 1, REF_OUT, 21, 0 },
        { ECHO, 31, 192, 1, REF_OUT, 22, 1 }, { VOTE, 33, 32, 1, REF_OUT, 22, 1 }, { SEND, 0, 224, 0, REF_OUT, 22, 1 },
        { ECHO, 32, 224, 1, REF_OUT, 23, 35 }, { ECHO, 32, 33, 1, REF_OUT, 23, 35 }, { SEND, 32, 31, 0, REF_OUT, 23, 35 },
        { VOTE, 32, 32, 0, REF_OUT, 23, 35 }, { VOTE, 32, 1, 1, REF_OUT, 23, 35 },
        { ECHO, 32, 192, 16389, REF_OUT, 24, 229 }, { ECHO, 32, 192, 0, REF_OUT, 24, 229 },
        { SEND, 32, 0, 0, REF_OUT, 24, 37 }, { SEND, 32, 64, 20000, REF_OUT, 24, 101 }, { VOTE, 32, 0, 1, REF_OUT, 24, 37 },
    };

    for (size_t c = 0; c < sizeof cases / sizeof *cases; c++) {
        ref_written got = ref_write_record(cases[c].kind, bytes, cases[c].root, bytes, cases[c].path,
                                           bytes, cases[c].fragment, out, cases[c].out);

        if (cases[c].number != 0)
            CHECK(not_written_at(got, cases[c].number, cases[c].offset));
        else
            CHECK(got.number == 0 && got.offset == 0 && got.length == 39 + cases[c].path + cases[c].fragment);
    }
}

/* ---- boards */

#define MOST 10         /* boards of a run */
static ref_board boards[MOST], before;

static size_t state_len(ref_table table)
{
    return REF_STATE_HEAD + (size_t)table.n * ref_s_max(table);
}

static ref_stepped step(ref_board *board, uint32_t from, const uint8_t *bytes_of, size_t len)
{
    return ref_step(board, state_len(board->table), from, bytes_of, len, out, sizeof out, delivery, sizeof delivery);
}

static void one_board_delivers_its_own_message(void)
{
    ref_board *b = &boards[0];
    ref_sized sent;
    ref_stepped did;

    CHECK(ref_start(1, 0, 1, 16, 1, b, 4628) == 0);
    sent = ref_send(1, 0, 1, 16, (const uint8_t *)"A", 1, 1, record, REF_OUT);
    did = step(b, 1, record, sent.length);
    CHECK(did.number == 0 && out[0] == ECHO && did.record_length == sent.length && did.delivery == NONE);
    memcpy(record, out, did.record_length);
    did = step(b, 1, record, did.record_length);
    CHECK(did.number == 0 && out[0] == VOTE && did.record_length == 39 && did.delivery == NONE);
    memcpy(record, out, 39);
    did = step(b, 1, record, 39);
    CHECK(did.number == 0 && did.record_length == 0 && did.delivery == MESSAGE);
    CHECK(did.message_length == 1 && delivery[0] == 'A');
    CHECK(step(b, 1, record, 39).number == 8);
}

/* Every combination of the faults of a step that can stand together. */
static void a_step_looks_in_the_order_3_2_4_20_to_25_6_7_8_9(void)
{
    ref_table table = { 4, 1, 2, 16 };

    for (unsigned faults = 0; faults < 512; faults++) {
        static const uint32_t order[] = { 2, 3, 2, 4, 25, 6, 7, 8, 9 };
        ref_board *b = &boards[0];
        size_t state = state_len(table), len = 40;
        uint32_t from = 2, number = 0;
        ref_stepped did;

        CHECK(ref_start(table.n, table.t, table.sender, table.longest, 1, b, state) == 0);
        memset(record, 0, sizeof record);
        record[0] = SEND;
        record[2] = 32;
        record[38] = 1;
        if (faults & 1)
            state = 4607;
        if (faults & 2)
            b->usable = 1;
        if (faults & 4 && !(faults & 1))
            state--;
        if (faults & 64) {      /* one byte above s_max */
            record[38] = 11;
            len = 50;
        }
        if (faults & 8)
            from = 5;
        if (faults & 16)
            len++;
        if (faults & 32 && !(faults & 8))
            from = 3;
        if (faults & 128)
            b->voted = b->output = b->done = true;
        if (faults & 256)
            b->acquired = true;
        for (int f = 8; f >= 0; f--)
            if (faults >> f & 1)
                number = order[f];
        before = *b;
        did = ref_step(b, state, from, record, len, out, sizeof out, delivery, sizeof delivery);
        CHECK(did.number == number);
        CHECK(did.offset == (number == 25 ? len - 1 : 0));
        if (number != 0) {
            CHECK(did.record_length == 0 && did.delivery == NONE && did.message_length == 0);
            CHECK(memcmp(&before, b, sizeof before) == 0);
        }
    }
}

/* A vote with each of the faults of the form, at a board that has heard one. */
static void a_step_names_the_field_at_fault(void)
{
    static const struct {
        uint8_t at, value;
        size_t len;
        uint32_t number, offset;
    } cases[] = {
        { 0, VOTE, 0, 20, 0 }, { 0, VOTE, 2, 20, 1 }, { 0, VOTE, 38, 20, 37 }, { 0, 0, 39, 21, 0 }, { 0, 7, 1, 21, 0 },
        { 1, 1, 39, 22, 1 }, { 36, 1, 39, 23, 35 }, { 38, 1, 39, 24, 37 }, { 0, SEND, 39, 24, 37 },
        { 0, VOTE, 40, 25, 39 }, { 0, VOTE, 39, 9, 0 },
    };
    ref_table table = { 4, 1, 2, 16 };

    CHECK(ref_start(4, 1, 2, 16, 1, &boards[0], state_len(table)) == 0);
    memset(record, 0, 40);
    record[0] = VOTE;
    record[2] = 32;
    CHECK(step(&boards[0], 3, record, 39).number == 0);
    for (size_t c = 0; c < sizeof cases / sizeof *cases; c++) {
        uint8_t was = record[cases[c].at];
        ref_stepped did;

        record[cases[c].at] = cases[c].value;
        did = step(&boards[0], 3, record, cases[c].len);
        CHECK(did.number == cases[c].number && did.offset == cases[c].offset);
        CHECK(did.record_length == 0 && did.delivery == NONE && did.message_length == 0);
        did = step(&boards[0], 5, record, cases[c].len);        /* no such board */
        CHECK(did.number == 4 && did.offset == 0);
        record[cases[c].at] = was;
    }
}

static void out_and_delivery_are_needed_in_every_step(void)
{
    ref_table table = { 4, 1, 2, 16 };
    size_t state = state_len(table);

    CHECK(ref_start(4, 1, 2, 16, 1, &boards[0], state) == 0);
    memset(record, 0, 39);
    record[0] = VOTE;
    record[2] = 32;
    CHECK(ref_step(&boards[0], state, 1, record, 39, out, REF_OUT - 1, delivery, 16).number == 2);
    CHECK(ref_step(&boards[0], state, 1, record, 39, out, REF_OUT, delivery, 15).number == 2);
    CHECK(ref_step(&boards[0], state, 1, record, 39, out, REF_OUT, delivery, 16).number == 0);
    CHECK(ref_step(&boards[0], state, 1, record, 39, out, REF_OUT, delivery, 16).number == 9);
}

/* ---- mailboxes */

static uint8_t mailbox[70000], answers[300], echo[REF_OUT], vote[REF_VOTE];

static ref_mailed mail(ref_board *board, const uint8_t *box, size_t len, size_t answers_len)
{
    return ref_mailbox(board, state_len(board->table), box, len, answers, answers_len, echo, sizeof echo,
                       vote, sizeof vote, delivery, sizeof delivery);
}

/* The one board of n 1 gets its send, its echo and its vote in one mailbox:
 * 2 + 47 + 47 + 42 bytes. */
static void an_echo_a_vote_and_the_delivery_worked_out_by_hand(void)
{
    static const uint8_t leaf[6] = { 0, 0, 0, 0, 1, 'A' };      /* 0, then the block of the message A */
    ref_digest root = ref_hash(leaf, 6);
    ref_mailed did;

    memcpy(mailbox, (const uint8_t[]){ 0, 3, 1, 0, 44, SEND, 0, 32 }, 8);
    memcpy(mailbox + 8, root.bytes, 32);
    memcpy(mailbox + 40, (const uint8_t[]){ 0, 0, 0, 5, 0, 0, 0, 1, 'A' }, 9);
    memcpy(mailbox + 49, mailbox + 2, 47);
    mailbox[52] = ECHO;
    memcpy(mailbox + 96, (const uint8_t[]){ 1, 0, 39, VOTE, 0, 32 }, 6);
    memcpy(mailbox + 102, root.bytes, 32);
    memset(mailbox + 134, 0, 4);
    CHECK(ref_start(1, 0, 1, 16, 1, &boards[0], 4628) == 0);
    memset(answers, 77, sizeof answers);
    did = mail(&boards[0], mailbox, 138, 3);
    CHECK(did.number == 0 && did.echo_length == 44 && did.vote_length == 39);
    CHECK(did.delivery == MESSAGE && did.message_length == 1 && delivery[0] == 'A');
    CHECK(memcmp(answers, "\0\0\0\x4d", 4) == 0);
    CHECK(memcmp(echo, mailbox + 52, 44) == 0);
    CHECK(memcmp(vote, mailbox + 99, 39) == 0);
    CHECK(boards[0].done && ref_sound(&boards[0]));
    did = mail(&boards[0], mailbox, 138, 300);
    CHECK(did.number == 0 && did.echo_length == 0 && did.vote_length == 0 && did.delivery == NONE);
    CHECK(did.message_length == 0 && memcmp(answers, "\x8\x8\x8\x4d", 4) == 0);
}

/* To a board of n 4: what is framed, and the answer of each item. */
static void framings_worked_out_by_hand(void)
{
    static const struct {
        size_t len;
        uint8_t bytes[12];
        uint32_t number;
        const char *answers;
    } cases[] = {
        { 0, { 0 }, 16, "" }, { 1, { 0 }, 16, "" }, { 2, { 0, 0 }, 0, "" }, { 3, { 0, 0, 0 }, 16, "" },
        { 2, { 0, 1 }, 16, "" }, { 3, { 0, 1, 4 }, 16, "" }, { 4, { 0, 1, 4, 0 }, 16, "" },
        { 5, { 0, 1, 4, 0, 0 }, 0, "\x14" }, { 5, { 0, 1, 5, 0, 0 }, 0, "\4" }, { 5, { 0, 1, 0, 0, 0 }, 0, "\4" },
        { 5, { 0, 1, 255, 0, 0 }, 0, "\4" }, { 5, { 0, 0, 4, 0, 0 }, 16, "" }, { 5, { 0, 2, 4, 0, 0 }, 16, "" },
        { 5, { 1, 1, 4, 0, 0 }, 16, "" }, { 5, { 0, 1, 4, 0, 1 }, 16, "" }, { 6, { 0, 1, 4, 0, 1, 3 }, 0, "\x14" },
        { 6, { 0, 1, 4, 0, 0, 3 }, 16, "" }, { 6, { 0, 1, 4, 1, 0, 3 }, 16, "" }, { 6, { 0, 1, 4, 0, 2, 3 }, 16, "" },
        { 8, { 0, 2, 4, 0, 0, 9, 0, 0 }, 0, "\x14\4" }, { 8, { 0, 1, 4, 0, 0, 9, 0, 0 }, 16, "" },
        { 8, { 0, 1, 4, 0, 3, 9, 0, 0 }, 0, "\x15" }, { 8, { 0, 3, 4, 0, 0, 9, 0, 0 }, 16, "" },
        { 7, { 0, 2, 4, 0, 0, 9, 0 }, 16, "" }, { 9, { 0, 2, 4, 0, 0, 9, 0, 0, 0 }, 16, "" },
    };

    for (size_t c = 0; c < sizeof cases / sizeof *cases; c++) {
        size_t count = strlen(cases[c].answers);
        ref_mailed did;

        CHECK(ref_start(4, 1, 2, 16, 1, &boards[0], 4608 + 4 * 10) == 0);
        before = boards[0];
        memset(answers, 77, sizeof answers);
        did = mail(&boards[0], cases[c].bytes, cases[c].len, sizeof answers);
        CHECK(did.number == cases[c].number);
        CHECK(did.echo_length == 0 && did.vote_length == 0 && did.delivery == NONE && did.message_length == 0);
        CHECK(memcmp(answers, cases[c].answers, count) == 0 && answers[count] == 77);
        CHECK(memcmp(&before, &boards[0], sizeof before) == 0);
        if (count > 0)
            CHECK(mail(&boards[0], cases[c].bytes, cases[c].len, count - 1).number == 16);
    }
}

static void counts_0_to_255_are_taken_and_256_refused_with_16(void)
{
    size_t len = empty_mailbox(mailbox);

    CHECK(ref_start(4, 1, 2, 16, 1, &boards[0], 4608 + 4 * 10) == 0);
    for (size_t count = 0; count <= 256; count++) {
        memset(answers, 77, sizeof answers);
        CHECK(mail(&boards[0], mailbox, len, count).number == (count <= 255 ? 0 : 16));
        for (size_t i = 0; i < sizeof answers; i++)
            CHECK(answers[i] == (i >= count || count > 255 ? 77 : i % 5 == 0 ? 4 : i % 3 == 0 ? 20 : 21));
        if (count > 0)
            CHECK(mail(&boards[0], mailbox, len, count - 1).number == 16);
        len = add_item(mailbox, len, (uint8_t)(count % 5), mailbox, count % 3);
    }
}

/* One mailbox with an item for each answer; n 4, t 1, the sender is board 2. */
static void every_answer_of_an_item_stands_in_its_place_and_the_others_go_on(void)
{
    static const uint8_t right[] = { 4, 4, 20, 21, 22, 23, 24, 25, 6, 0, 9, 7, 0, 0, 9, 0, 8, 0, 0, 8, 8 };
    static uint8_t sends[5][REF_OUT];
    ref_table table = { 4, 1, 2, 16 };
    size_t len = empty_mailbox(mailbox), sent[5], above;
    ref_mailed did;

    for (uint32_t to = 1; to <= 4; to++)
        sent[to] = ref_send(4, 1, 2, 16, (const uint8_t *)"a sheet", 7, to, sends[to], REF_OUT).length;
    ref_write_record(VOTE, sends[1] + 3, 32, NULL, 0, NULL, 0, record, sizeof record);
    above = ref_write_record(ECHO, record, 32, record, 0, bytes + 100, 11, bytes, REF_OUT).length;  /* s_max is 10 */
    len = add_item(mailbox, len, 0, record, 39);
    len = add_item(mailbox, len, 5, record, 39);
    len = add_item(mailbox, len, 1, record, 38);
    for (size_t i = 0; i < 4; i++) {                            /* kind, root count, path count, fragment count */
        static const uint8_t places[] = { 0, 2, 36, 38 };
        uint8_t was = record[places[i]];

        record[places[i]] = 9;
        len = add_item(mailbox, len, 1, record, 39);
        record[places[i]] = was;
    }
    len = add_item(mailbox, len, 1, record, 40);
    len = add_item(mailbox, len, 3, sends[1], sent[1]);         /* a send, and not from the sender */
    len = add_item(mailbox, len, 2, sends[1], sent[1]);         /* echoed */
    len = add_item(mailbox, len, 2, sends[1], sent[1]);
    len = add_item(mailbox, len, 2, bytes, above);
    len = add_item(mailbox, len, 1, record, 39);
    len = add_item(mailbox, len, 2, record, 39);                /* t + 1 votes: voted */
    len = add_item(mailbox, len, 2, record, 39);
    len = add_item(mailbox, len, 4, record, 39);                /* n - t votes: the output stage */
    len = add_item(mailbox, len, 2, sends[1], sent[1]);
    for (uint32_t from = 3; from <= 4; from++) {                /* k = 2 echoes: delivered */
        sends[from][0] = ECHO;
        len = add_item(mailbox, len, (uint8_t)from, sends[from], sent[from]);
    }
    len = add_item(mailbox, len, 4, sends[4], sent[4]);
    len = add_item(mailbox, len, 3, record, 39);
    CHECK(ref_start(4, 1, 2, 16, 1, &boards[0], state_len(table)) == 0);
    did = mail(&boards[0], mailbox, len, sizeof right);
    CHECK(did.number == 0 && memcmp(answers, right, sizeof right) == 0);
    CHECK(did.echo_length == sent[1] && echo[0] == ECHO && memcmp(echo + 1, sends[1] + 1, sent[1] - 1) == 0);
    CHECK(did.vote_length == 39 && memcmp(vote, record, 39) == 0);
    CHECK(did.delivery == MESSAGE && did.message_length == 7 && memcmp(delivery, "a sheet", 7) == 0);
}

/* Every combination of the faults of a mailbox. */
static void a_mailbox_is_looked_at_in_the_order_3_2_16(void)
{
    ref_table table = { 4, 1, 2, 16 };

    for (unsigned faults = 0; faults < 256; faults++) {
        static const uint32_t order[] = { 2, 3, 2, 2, 2, 2, 16, 16 };
        size_t state = state_len(table), len = add_item(mailbox, empty_mailbox(mailbox), 9, record, 4);
        uint32_t number = 0;
        ref_mailed did;

        CHECK(ref_start(table.n, table.t, table.sender, table.longest, 1, &boards[0], state) == 0);
        if (faults & 2)
            boards[0].usable = 1;
        for (int f = 7; f >= 0; f--)
            if (faults >> f & 1)
                number = order[f];
        before = boards[0];
        did = ref_mailbox(&boards[0], faults & 1 ? 4607 : faults & 4 ? state - 1 : state,
                          mailbox, faults & 64 ? len - 1 : len, answers, faults & 128 ? 0 : 1,
                          echo, faults & 8 ? REF_OUT - 1 : REF_OUT, vote, faults & 16 ? 38 : 39,
                          delivery, faults & 32 ? 15 : 16);
        CHECK(did.number == number);
        CHECK(did.echo_length == 0 && did.vote_length == 0 && did.delivery == NONE && did.message_length == 0);
        CHECK(memcmp(&before, &boards[0], sizeof before) == 0);
    }
}

/* ---- whole runs: all that is put out is handed over, in random order */

typedef struct {
    uint32_t from, to;
    size_t len;
    uint8_t *bytes;
} letter;

static letter post[20000];
static size_t posted;

static void hand_in(uint32_t from, uint32_t to, const uint8_t *what, size_t len)
{
    letter *one = &post[posted];

    if (posted == sizeof post / sizeof *post)
        return;
    one->bytes = malloc(len + 1);
    if (one->bytes == NULL)
        return;
    memcpy(one->bytes, what, len);
    one->from = from;
    one->to = to;
    one->len = len;
    posted++;
}

/* What a sender does in a run. */
enum { KEEPS_RULES, TWO_MESSAGES, NO_POLYNOMIAL, UNREADABLE, HALF_SENT, SENDERS };

static void send_all(ref_table table, int manner, const uint8_t *message, size_t len)
{
    static uint8_t area[4 * REF_FRAGMENT], root[32], paths[MOST * 192];
    uint32_t s_max = ref_s_max(table), length;
    size_t nodes[REF_BOARDS];

    length = ref_encode(table.n, table.t, table.sender, table.longest, message, len, area, sizeof area,
                        root, 32, paths, sizeof paths).length;
    if (manner == NO_POLYNOMIAL)
        random_bytes(area, table.n * s_max);
    if (manner == UNREADABLE)           /* the same constant polynomial in row 1: length far above L */
        for (uint32_t i = 0; i < table.n; i++)
            area[i * s_max] = 0x55;
    ref_tree(area, s_max, length, table.n, root, paths, nodes);
    for (uint32_t to = 1; to <= table.n; to++) {
        uint32_t sent;

        if (manner == HALF_SENT && to > table.n / 2)
            continue;
        if (manner == TWO_MESSAGES && to % 2 && len > 0)
            sent = ref_send(table.n, table.t, table.sender, table.longest, message, len - 1, to, record, REF_OUT).length;
        else
            sent = ref_write_record(SEND, root, 32, paths + (to - 1) * 192, 32 * nodes[to - 1],
                                    area + (to - 1) * s_max, length, record, REF_OUT).length;
        CHECK(sent > 0);
        hand_in(table.sender, to, record, sent);
    }
}

/* Something a rule-breaker might say: an old record, changed or not. */
static void say_something(ref_table table, uint32_t from)
{
    const letter *old = posted == 0 ? NULL : &post[random_below((uint32_t)posted)];
    size_t len = old == NULL ? random_below(60) : old->len;

    random_bytes(record, 60);
    if (old != NULL)
        memcpy(record, old->bytes, len);
    if (len > 0 && random_below(2))
        record[0] = (uint8_t)(1 + random_below(3));
    if (len > 0 && random_below(3) == 0)
        record[random_below((uint32_t)len)] ^= (uint8_t)(1 << random_below(8));
    if (random_below(8) == 0 && len > 0)
        len--;
    hand_in(from, 1 + random_below(table.n), record, len);
}

/* how many runs ended in each way */
static unsigned outcomes[3];

/* One run. Boards that break the rules are the set `bad`. */
static void run(ref_table table, uint64_t bad, int manner)
{
    uint32_t outcome[MOST] = { NONE }, first = 0, over = 0, good = 0;
    static uint8_t message[REF_LONGEST], delivered[MOST][REF_LONGEST];
    uint32_t delivered_len[MOST] = { 0 };
    size_t len = random_below(table.longest + 1);

    posted = 0;
    random_bytes(message, len);
    for (uint32_t i = 1; i <= table.n; i++)
        CHECK(ref_start(table.n, table.t, table.sender, table.longest, i, &boards[i - 1], state_len(table)) == 0);
    send_all(table, manner, message, len);
    for (uint32_t i = 1; i <= table.n; i++)
        for (int j = 0; bad >> (i - 1) & 1 && j < 20; j++)
            say_something(table, i);
    for (size_t taken = 0; taken < posted; taken++) {
        size_t pick = taken + random_below((uint32_t)(posted - taken));
        letter one = post[pick];
        ref_board *b = &boards[one.to - 1];
        ref_stepped did;

        post[pick] = post[taken];
        post[taken] = one;
        if (bad >> (one.to - 1) & 1)
            continue;
        did = step(b, one.from, one.bytes, one.len);
        CHECK(ref_sound(b));
        CHECK(did.record_length == 0 || did.delivery == NONE);
        for (uint32_t to = 1; did.record_length > 0 && to <= table.n; to++)
            hand_in(one.to, to, out, did.record_length);
        if (did.delivery != NONE) {
            CHECK(outcome[one.to - 1] == NONE);
            CHECK(b->done);
            outcome[one.to - 1] = did.delivery;
            delivered_len[one.to - 1] = did.message_length;
            memcpy(delivered[one.to - 1], delivery, did.message_length);
        }
    }
    for (size_t i = 0; i < posted; i++)
        free(post[i].bytes);
    for (uint32_t i = 0; i < table.n; i++) {
        if (bad >> i & 1)
            continue;
        good++;
        over += outcome[i] != NONE;
        if (outcome[i] != NONE && first == 0)
            first = i + 1;
        if (first != 0) {       /* agreement */
            CHECK(outcome[i] == NONE || outcome[i] == outcome[first - 1]);
            CHECK(outcome[i] == NONE || (delivered_len[i] == delivered_len[first - 1]
                  && memcmp(delivered[i], delivered[first - 1], delivered_len[i]) == 0));
        }
    }
    CHECK(over == 0 || over == good);           /* all or none */
    if (manner == KEEPS_RULES) {
        CHECK(over == good);
        CHECK(first != 0 && outcome[first - 1] == MESSAGE && delivered_len[first - 1] == len
              && memcmp(delivered[first - 1], message, len) == 0);
    }
    if (manner == UNREADABLE || manner == NO_POLYNOMIAL)
        CHECK(over == 0 || outcome[first - 1] == VOID);
    if (over > 0)
        outcomes[outcome[first - 1]]++;
    else
        outcomes[NONE]++;
}

static ref_table run_table(void)
{
    ref_table table;

    table.n = 1 + random_below(MOST);
    table.t = random_below((table.n - 1) / 3 + 1);
    table.sender = 1 + random_below(table.n);
    table.longest = random_below(100);
    return table;
}

static void a_rule_keeping_sender_s_message_is_delivered_by_all(void)
{
    for (int i = 0; i < 300; i++)
        run(run_table(), 0, KEEPS_RULES);
}

static void rule_breaking_boards_do_not_keep_the_others_apart(void)
{
    for (int i = 0; i < 1500; i++) {
        ref_table table = run_table();
        uint64_t bad = 0;
        int manner = i % SENDERS;

        for (uint32_t left = table.t; left > 0; left--)
            bad |= (uint64_t)1 << random_below(table.n);
        if (manner == KEEPS_RULES)
            bad &= ~((uint64_t)1 << (table.sender - 1));
        else if (table.t == 0)
            continue;
        else
            bad = (bad & (bad - 1)) | (uint64_t)1 << (table.sender - 1);
        run(table, bad, manner);
    }
    CHECK(outcomes[NONE] > 0 && outcomes[MESSAGE] > 0 && outcomes[VOID] > 0);
}

/* ---- the library's bytes of a state */

static void put_two(uint8_t *to, uint64_t value)
{
    to[0] = (uint8_t)(value >> 8);
    to[1] = (uint8_t)value;
}

static void a_state_s_bytes_are_decoded_field_by_field(void)
{
    static uint8_t state[REF_STATE_HEAD + 4 * REF_FRAGMENT];

    for (int i = 0; i < 50; i++) {
        ref_board *b = &boards[0], *decoded = &boards[1];
        ref_table table = run_table();
        uint32_t s_max = ref_s_max(table);
        const uint64_t *sets[3] = { &b->echoes, &b->usable, &b->votes };

        random_bytes((uint8_t *)&b->echoes, sizeof b->echoes);
        random_bytes((uint8_t *)&b->usable, sizeof b->usable);
        random_bytes((uint8_t *)&b->votes, sizeof b->votes);
        random_bytes(&b->echo_root[0][0], sizeof b->echo_root);
        random_bytes(&b->vote_root[0][0], sizeof b->vote_root);
        random_bytes(state, sizeof state);
        state[0] = (uint8_t)table.n;
        state[1] = (uint8_t)table.t;
        state[2] = (uint8_t)table.sender;
        state[3] = (uint8_t)random_below(256);
        put_two(state + 4, table.longest);
        for (int f = 0; f < 4; f++)
            state[6 + f] = (uint8_t)(random_below(2) ? random_below(256) : 0);
        for (int s = 0; s < 3; s++)
            for (int j = 0; j < 4; j++)
                put_two(state + 10 + 8 * s + 2 * j, *sets[s] >> (48 - 16 * j));
        memcpy(state + 256, b->echo_root, 2048);
        memcpy(state + 2304, b->vote_root, 2048);
        ref_decode(state, sizeof state, decoded);
        CHECK(decoded->table.n == table.n && decoded->table.t == table.t && decoded->table.sender == table.sender);
        CHECK(decoded->table.longest == table.longest && decoded->own == state[3]);
        CHECK(decoded->acquired == (state[6] != 0) && decoded->voted == (state[7] != 0));
        CHECK(decoded->output == (state[8] != 0) && decoded->done == (state[9] != 0));
        CHECK(decoded->echoes == b->echoes && decoded->usable == b->usable && decoded->votes == b->votes);
        CHECK(memcmp(decoded->echo_root, b->echo_root, 2048) == 0);
        CHECK(memcmp(decoded->vote_root, b->vote_root, 2048) == 0);
        for (uint32_t j = 0; j < 64; j++)
            CHECK(decoded->kept[j] == state[40 + 2 * j] * 256u + state[41 + 2 * j]);
        for (uint32_t j = 0; j < table.n; j++)
            CHECK(memcmp(decoded->fragment[j], state + REF_STATE_HEAD + j * s_max, s_max) == 0);
    }
}

/* ---- notices */

enum { NOTICE_SEND = 4, NOTICE_ECHO = 5, NOTICE_VOTE = 6 };

static ref_notice_board noticed[MOST], noticed_before;

/* The first bytes of some records, written down by hand, the others 'x'; so
 * many bytes of it; and what the reader says. */
static void notices_read_by_hand(void)
{
    static const struct {
        uint8_t bytes[3];
        size_t len;
        uint32_t number, offset, kind, length;
    } cases[] = {
        { { 4, 0, 0 }, 3, 0, 0, 4, 0 }, { { 5, 0, 1 }, 4, 0, 0, 5, 1 }, { { 6, 0, 64 }, 67, 0, 0, 6, 64 },
        { { 4, 0, 63 }, 66, 0, 0, 4, 63 },

        /* cut off: before the kind, before or inside the count, before or inside the notice */
        { { 4, 0, 0 }, 0, 20, 0, 0, 0 }, { { 4, 0, 0 }, 1, 20, 1, 0, 0 }, { { 5, 0, 9 }, 2, 20, 1, 0, 0 },
        { { 5, 255, 9 }, 2, 20, 1, 0, 0 }, { { 6, 0, 9 }, 3, 20, 3, 0, 0 }, { { 6, 0, 9 }, 11, 20, 3, 0, 0 },
        { { 6, 0, 64 }, 66, 20, 3, 0, 0 },

        /* the kind, whatever follows: the kinds of the other broadcast, too */
        { { 0, 0, 0 }, 3, 21, 0, 0, 0 }, { { 1, 0, 0 }, 3, 21, 0, 0, 0 }, { { 2, 0, 65 }, 3, 21, 0, 0, 0 },
        { { 3, 0, 0 }, 1, 21, 0, 0, 0 }, { { 7, 0, 0 }, 3, 21, 0, 0, 0 }, { { 255, 255, 255 }, 2, 21, 0, 0, 0 },

        /* the count, before its section: 04 0041 and no more */
        { { 4, 0, 65 }, 3, 24, 1, 0, 0 }, { { 4, 0, 65 }, 68, 24, 1, 0, 0 }, { { 5, 1, 0 }, 3, 24, 1, 0, 0 },
        { { 6, 1, 5 }, 8, 24, 1, 0, 0 }, { { 6, 255, 255 }, 67, 24, 1, 0, 0 }, { { 6, 64, 0 }, 3, 24, 1, 0, 0 },

        /* bytes left over: the first of them */
        { { 4, 0, 0 }, 4, 25, 3, 0, 0 }, { { 5, 0, 2 }, 6, 25, 5, 0, 0 }, { { 6, 0, 64 }, 68, 25, 67, 0, 0 },
        { { 6, 0, 64 }, 400, 25, 67, 0, 0 },
    };

    for (size_t c = 0; c < sizeof cases / sizeof *cases; c++) {
        ref_notice read;

        memset(record, 'x', 400);
        memcpy(record, cases[c].bytes, 3);
        read = ref_read_notice(record, cases[c].len);
        CHECK(read.number == cases[c].number && read.offset == cases[c].offset);
        CHECK(read.kind == cases[c].kind && read.length == cases[c].length);
    }
}

/* Each fault of the writer and of the sender alone, and with one that comes later. */
static void notices_written_by_hand(void)
{
    static const struct {
        uint32_t kind;
        size_t notice, out;
        uint32_t number, offset;
    } cases[] = {
        { 4, 0, 67, 0, 0 }, { 5, 64, 67, 0, 0 }, { 6, 1, 68, 0, 0 },
        { 4, 0, 66, 2, 0 }, { 3, 65, 66, 2, 0 }, { 4, 65, 0, 2, 0 },
        { 3, 0, 67, 21, 0 }, { 7, 65, 67, 21, 0 }, { 256 + 4, 1, 67, 21, 0 }, { 0, 0, 67, 21, 0 },
        { 4, 65, 67, 24, 1 }, { 6, 256, 67, 24, 1 }, { 5, 65536, 67, 24, 1 },
    };
    static const struct {
        uint32_t n, t, sender, to;
        size_t notice, out;
        uint32_t number;
    } sends[] = {
        { 4, 1, 2, 4, 64, 67, 0 }, { 1, 0, 1, 1, 0, 67, 0 }, { 64, 21, 64, 64, 5, 67, 0 },
        { 3, 1, 1, 1, 5, 67, 1 }, { 0, 0, 1, 1, 5, 67, 1 }, { 65, 1, 1, 1, 5, 67, 1 }, { 4, 1, 5, 9, 65, 0, 1 },
        { 4, 1, 0, 1, 5, 67, 1 }, { 4, 1431655766, 1, 1, 5, 67, 1 },
        { 4, 1, 2, 9, 65, 66, 2 }, { 4, 1, 2, 0, 65, 67, 4 }, { 4, 1, 2, 5, 0, 67, 4 }, { 4, 1, 2, 1, 65, 67, 13 },
    };

    for (size_t i = 0; i < sizeof bytes; i++)
        bytes[i] = (uint8_t)(i + 7);
    for (size_t c = 0; c < sizeof cases / sizeof *cases; c++) {
        ref_written got;

        memset(out, 77, 100);
        got = ref_write_notice(cases[c].kind, bytes, cases[c].notice, out, cases[c].out);
        CHECK(got.number == cases[c].number && got.offset == cases[c].offset);
        CHECK(got.length == (got.number == 0 ? cases[c].notice + 3 : 0) && out[got.length] == 77);
        if (got.number == 0)
            CHECK(out[0] == cases[c].kind && out[1] == 0 && out[2] == cases[c].notice
                  && memcmp(out + 3, bytes, cases[c].notice) == 0);
    }
    for (size_t c = 0; c < sizeof sends / sizeof *sends; c++) {
        ref_sized got;

        memset(out, 77, 100);
        got = ref_notice_send(sends[c].n, sends[c].t, sends[c].sender, bytes, sends[c].notice, sends[c].to,
                              out, sends[c].out);
        CHECK(got.number == sends[c].number);
        CHECK(got.length == (got.number == 0 ? sends[c].notice + 3 : 0) && out[got.length] == 77);
        CHECK(got.number != 0 || (out[0] == 4 && memcmp(out + 3, bytes, sends[c].notice) == 0));
    }
}

/* A record of that kind with a short text, from a board to one that the
 * reference keeps. What it puts out is left in `out`. */
static ref_stepped notice_step(ref_notice_board *board, uint32_t from, uint32_t kind, const char *text)
{
    uint8_t bytes_of[REF_NOTICE_OUT];
    size_t len = ref_write_notice(kind, (const uint8_t *)text, strlen(text), bytes_of, sizeof bytes_of).length;

    return ref_notice_step(board, REF_NOTICE_STATE, from, bytes_of, len, out, REF_NOTICE_OUT, delivery, REF_NOTICE);
}

/* number, length of the record put out with its kind, delivery and its length */
static bool did_so(ref_stepped did, uint32_t number, uint32_t record_length, uint32_t kind, uint32_t delivered, uint32_t length)
{
    return did.number == number && did.offset == 0 && did.record_length == record_length && did.delivery == delivered
        && did.message_length == length && (record_length == 0 || out[0] == kind);
}

/* n 1: three records, or a vote first, which brings a vote and the delivery at once. */
static void one_board_s_notices_worked_out_by_hand(void)
{
    ref_notice_board *b = &noticed[0];

    CHECK(ref_notice_start(1, 0, 1, 1, b, REF_NOTICE_STATE) == 0);
    CHECK(did_so(notice_step(b, 1, NOTICE_SEND, "door"), 0, 7, NOTICE_ECHO, NONE, 0) && memcmp(out + 3, "door", 4) == 0);
    CHECK(did_so(notice_step(b, 1, NOTICE_SEND, "door"), 9, 0, 0, NONE, 0));
    CHECK(did_so(notice_step(b, 1, NOTICE_ECHO, "door"), 0, 7, NOTICE_VOTE, NONE, 0) && memcmp(out + 3, "door", 4) == 0);
    CHECK(did_so(notice_step(b, 1, NOTICE_ECHO, "door"), 9, 0, 0, NONE, 0));
    CHECK(did_so(notice_step(b, 1, NOTICE_VOTE, "door"), 0, 0, 0, MESSAGE, 4) && memcmp(delivery, "door", 4) == 0);
    CHECK(did_so(notice_step(b, 1, NOTICE_VOTE, "door"), 8, 0, 0, NONE, 0));
    CHECK(did_so(notice_step(b, 1, NOTICE_SEND, "door"), 8, 0, 0, NONE, 0));
    CHECK(ref_notice_start(1, 0, 1, 1, b, REF_NOTICE_STATE) == 0);
    CHECK(did_so(notice_step(b, 1, NOTICE_VOTE, ""), 0, 3, NOTICE_VOTE, MESSAGE, 0));
    CHECK(b->voted && b->done && !b->acquired);
    CHECK(did_so(notice_step(b, 1, NOTICE_SEND, ""), 8, 0, 0, NONE, 0));
}

/* n 4, t 1, the sender is board 2: three echoes or two votes bring a vote,
 * three votes deliver, and a send is echoed until then. */
static void four_boards_notices_worked_out_by_hand(void)
{
    ref_notice_board *b = &noticed[0];

    CHECK(ref_notice_start(4, 1, 2, 1, b, REF_NOTICE_STATE) == 0);
    CHECK(did_so(notice_step(b, 1, NOTICE_ECHO, "ab"), 0, 0, 0, NONE, 0));
    CHECK(did_so(notice_step(b, 2, NOTICE_ECHO, "a"), 0, 0, 0, NONE, 0));       /* begins as the first, and is another */
    CHECK(did_so(notice_step(b, 3, NOTICE_ECHO, "ab"), 0, 0, 0, NONE, 0));
    CHECK(did_so(notice_step(b, 2, NOTICE_ECHO, "ab"), 9, 0, 0, NONE, 0));      /* one echo of a board */
    CHECK(did_so(notice_step(b, 4, NOTICE_VOTE, "ab"), 0, 0, 0, NONE, 0));      /* an echo is no vote */
    CHECK(did_so(notice_step(b, 5, NOTICE_ECHO, "ab"), 4, 0, 0, NONE, 0));
    CHECK(did_so(notice_step(b, 0, NOTICE_ECHO, "ab"), 4, 0, 0, NONE, 0));
    CHECK(did_so(notice_step(b, 4, NOTICE_ECHO, "ab"), 0, 5, NOTICE_VOTE, NONE, 0) && memcmp(out + 3, "ab", 2) == 0);
    CHECK(did_so(notice_step(b, 3, NOTICE_SEND, "a"), 6, 0, 0, NONE, 0));
    CHECK(did_so(notice_step(b, 2, NOTICE_SEND, "a"), 0, 4, NOTICE_ECHO, NONE, 0));     /* voted, and echoed all the same */
    CHECK(did_so(notice_step(b, 2, NOTICE_SEND, "a"), 9, 0, 0, NONE, 0));
    CHECK(did_so(notice_step(b, 3, NOTICE_VOTE, "a"), 0, 0, 0, NONE, 0));
    CHECK(did_so(notice_step(b, 2, NOTICE_VOTE, "a"), 0, 0, 0, NONE, 0));
    CHECK(did_so(notice_step(b, 1, NOTICE_VOTE, "a"), 0, 0, 0, MESSAGE, 1) && delivery[0] == 'a');  /* not what it voted for */
    CHECK(did_so(notice_step(b, 3, NOTICE_SEND, "a"), 6, 0, 0, NONE, 0));
    CHECK(did_so(notice_step(b, 3, NOTICE_ECHO, "a"), 8, 0, 0, NONE, 0));
    CHECK(ref_notice_start(4, 1, 2, 1, b, REF_NOTICE_STATE) == 0);
    CHECK(did_so(notice_step(b, 4, NOTICE_VOTE, ""), 0, 0, 0, NONE, 0));
    CHECK(did_so(notice_step(b, 3, NOTICE_VOTE, ""), 0, 3, NOTICE_VOTE, NONE, 0));
    CHECK(did_so(notice_step(b, 1, NOTICE_VOTE, ""), 0, 0, 0, MESSAGE, 0));
}

/* Every combination of the faults of a step that can stand together. */
static void a_notice_step_looks_in_the_order_3_2_4_form_6_8_9(void)
{
    for (unsigned faults = 0; faults < 256; faults++) {
        static const uint32_t order[] = { 2, 3, 2, 4, 25, 6, 8, 9 };
        ref_notice_board *b = &noticed[0];
        size_t state = REF_NOTICE_STATE, out_len = REF_NOTICE_OUT, delivery_len = REF_NOTICE, len = 5;
        uint32_t from = 2, number = 0;
        ref_stepped did;

        CHECK(ref_notice_start(4, 1, 2, 1, b, state) == 0);
        memcpy(record, "\4\0\2go!", 6);
        if (faults & 1)
            state--;
        if (faults & 2)
            b->vote[3].length = 1;
        if (faults & 4)
            faults & 8 ? out_len-- : delivery_len--;
        if (faults & 8)
            from = 5;
        if (faults & 16)
            len++;
        if (faults & 32 && !(faults & 8))
            from = 3;
        if (faults & 64)
            b->voted = b->done = true;
        if (faults & 128)
            b->acquired = true;
        for (int f = 7; f >= 0; f--)
            if (faults >> f & 1)
                number = order[f];
        noticed_before = *b;
        did = ref_notice_step(b, state, from, record, len, out, out_len, delivery, delivery_len);
        CHECK(did.number == number && did.offset == (number == 25 ? 5 : 0));
        if (number != 0) {
            CHECK(did.record_length == 0 && did.delivery == NONE && did.message_length == 0);
            CHECK(memcmp(&noticed_before, b, sizeof noticed_before) == 0);
        }
    }
}

/* One clause broken at a time, in a state of n 4, t 1; and what is free. */
static void notice_states_worked_out_by_hand(void)
{
    static const ref_word said = { true, 2, "ab" }, other = { true, 1, "a" };
    ref_notice_board *b = &noticed[0], fresh;

    CHECK(ref_notice_start(4, 1, 2, 4, &fresh, REF_NOTICE_STATE) == 0 && ref_notice_sound(&fresh));
#define SOUND(sound, change) do { *b = fresh; change; CHECK(ref_notice_sound(b) == (sound)); } while (0)
    SOUND(false, b->table.n = 0);
    SOUND(false, b->table.n = 3);
    SOUND(false, b->table.n = 65);
    SOUND(false, b->table.t = 2);
    SOUND(true, b->table.t = 0);
    SOUND(false, b->table.sender = 0);
    SOUND(false, b->table.sender = 5);
    SOUND(false, b->own = 0);
    SOUND(false, b->own = 5);
    SOUND(true, b->acquired = true);
    SOUND(true, b->voted = true);
    SOUND(false, b->done = true);
    SOUND(true, b->done = b->voted = true);
    SOUND(false, b->echo[4].heard = true);
    SOUND(false, b->vote[63].heard = true);
    SOUND(true, b->echo[3].heard = true);               /* the empty notice */
    SOUND(true, (b->vote[3].heard = true, b->vote[3].length = 64));
    SOUND(false, (b->vote[3].heard = true, b->vote[3].length = 65));
    SOUND(false, (b->echo[0].heard = true, b->echo[0].length = 255));
    SOUND(false, b->echo[0].length = 1);
    SOUND(false, b->vote[63].length = 1);
    SOUND(true, b->vote[63].bytes[5] = 1);
    SOUND(true, b->echo[0] = b->echo[1] = said);        /* fewer than n - t echoes */
    SOUND(false, b->echo[0] = b->echo[1] = b->echo[3] = said);
    SOUND(true, (b->echo[0] = b->echo[1] = b->echo[3] = said, b->voted = true));
    SOUND(true, (b->echo[0] = b->echo[1] = said, b->echo[2] = b->echo[3] = other));
    SOUND(true, (b->vote[0] = said, b->vote[2] = other));       /* fewer than t + 1 votes */
    SOUND(false, (b->vote[0] = said, b->vote[2] = other, b->vote[3] = said));
    SOUND(true, (b->vote[0] = said, b->vote[2] = other, b->vote[3] = said, b->voted = true));
    SOUND(false, (b->vote[0] = b->vote[2] = b->vote[3] = said, b->voted = true));
    SOUND(true, (b->vote[0] = b->vote[2] = b->vote[3] = said, b->voted = b->done = true));
    SOUND(true, (b->vote[0] = b->vote[2] = said, b->vote[1] = b->vote[3] = other, b->voted = true));
#undef SOUND
}

/* Bytes put down one by one, each place with a number of its own. */
static void a_notice_state_s_bytes_are_decoded_field_by_field(void)
{
    static uint8_t state[REF_NOTICE_STATE];
    ref_notice_board *b = &noticed[0];

    for (uint32_t turn = 0; turn < 64; turn++) {
        memset(state, 0, sizeof state);
        memcpy(state, (const uint8_t[]){ 11, 12, 13, 14, 0, 200, 0 }, 7);
        state[14 - turn / 8] = (uint8_t)(1 << turn % 8);        /* board turn + 1 alone */
        state[22 - turn / 8] = (uint8_t)~(1 << turn % 8);
        state[32 + 65 * turn] = 33;
        state[32 + 65 * turn + 1] = 34;
        state[32 + 65 * turn + 64] = 35;
        state[4192 + 65 * turn] = 255;
        state[4192 + 65 * turn + 1] = 36;
        state[4192 + 65 * turn + 64] = 37;
        ref_notice_decode(state, b);
        CHECK(b->table.n == 11 && b->table.t == 12 && b->table.sender == 13 && b->own == 14);
        CHECK(!b->acquired && b->voted && !b->done);
        for (uint32_t i = 0; i < 64; i++) {
            bool here = i == turn;

            CHECK(b->echo[i].heard == here && b->echo[i].length == (here ? 33 : 0));
            CHECK(b->echo[i].bytes[0] == (here ? 34 : 0) && b->echo[i].bytes[63] == (here ? 35 : 0));
            CHECK(b->vote[i].heard == (i / 8 == turn / 8 && !here) && b->vote[i].length == (here ? 255 : 0));
            CHECK(b->vote[i].bytes[0] == (here ? 36 : 0) && b->vote[i].bytes[63] == (here ? 37 : 0));
        }
    }
}

/* All records of a rule-keeping sender's notice, in any order: all deliver it. */
static void a_rule_keeping_sender_s_notice_is_delivered_by_all(void)
{
    static struct { uint32_t from, to, kind; } post[MOST + 2 * MOST * MOST];

    for (int run = 0; run < 300; run++) {
        uint32_t n = 1 + random_below(MOST), t = random_below((n - 1) / 3 + 1), sender = 1 + random_below(n), delivered = 0;
        size_t posted = 0;

        for (uint32_t own = 1; own <= n; own++) {
            CHECK(ref_notice_start(n, t, sender, own, &noticed[own - 1], REF_NOTICE_STATE) == 0);
            post[posted].from = sender, post[posted].to = own, post[posted++].kind = NOTICE_SEND;
        }
        for (size_t taken = 0; taken < posted; taken++) {
            size_t pick = taken + random_below((uint32_t)(posted - taken));
            uint32_t from = post[pick].from, own = post[pick].to, kind = post[pick].kind;
            ref_stepped did = notice_step(&noticed[own - 1], from, kind, "shelf door open");

            post[pick] = post[taken];
            CHECK(did.number == 0 || did.number == 8);
            CHECK(ref_notice_sound(&noticed[own - 1]));
            delivered += did.delivery == MESSAGE && did.message_length == 15 && memcmp(delivery, "shelf door open", 15) == 0;
            for (uint32_t to = 1; did.record_length > 0 && to <= n; to++)
                post[posted].from = own, post[posted].to = to, post[posted++].kind = out[0];
        }
        CHECK(delivered == n);
    }
}

static const test hand_tests[] = {
    TEST(products_worked_out_by_hand),
    TEST(quorums_worked_out_by_hand),
    TEST(a_vote_record_has_39_bytes),
};

static const test record_tests[] = {
    TEST(faults_worked_out_by_hand),
    TEST(path_count_6_is_read_and_7_refused_with_23),
    TEST(kinds_0_and_4_to_255_are_refused_with_21),
    TEST(what_is_written_is_read_and_no_other_length_is),
    TEST(the_writer_s_faults_worked_out_by_hand),
};

static const test board_tests[] = {
    TEST(one_board_delivers_its_own_message),
    TEST(a_step_looks_in_the_order_3_2_4_20_to_25_6_7_8_9),
    TEST(a_step_names_the_field_at_fault),
    TEST(out_and_delivery_are_needed_in_every_step),
    TEST(a_state_s_bytes_are_decoded_field_by_field),
};

static const test mailbox_tests[] = {
    TEST(an_echo_a_vote_and_the_delivery_worked_out_by_hand),
    TEST(framings_worked_out_by_hand),
    TEST(counts_0_to_255_are_taken_and_256_refused_with_16),
    TEST(every_answer_of_an_item_stands_in_its_place_and_the_others_go_on),
    TEST(a_mailbox_is_looked_at_in_the_order_3_2_16),
};

static const test notice_tests[] = {
    TEST(notices_read_by_hand),
    TEST(notices_written_by_hand),
    TEST(one_board_s_notices_worked_out_by_hand),
    TEST(four_boards_notices_worked_out_by_hand),
    TEST(a_notice_step_looks_in_the_order_3_2_4_form_6_8_9),
    TEST(notice_states_worked_out_by_hand),
    TEST(a_notice_state_s_bytes_are_decoded_field_by_field),
    TEST(a_rule_keeping_sender_s_notice_is_delivered_by_all),
};

static const test run_tests[] = {
    TEST(a_rule_keeping_sender_s_message_is_delivered_by_all),
    TEST(rule_breaking_boards_do_not_keep_the_others_apart),
};

int main(int argc, char **argv)
{
    static const group groups[] = {
        GROUP("by hand", hand_tests), GROUP("records", record_tests), GROUP("boards", board_tests),
        GROUP("mailboxes", mailbox_tests), GROUP("notices", notice_tests), GROUP("runs", run_tests),
    };

    return run_groups(groups, sizeof groups / sizeof *groups, argc, argv);
}
