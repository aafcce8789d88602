/*
 * The speed of each call, beside plain C and known libraries on the same
 * input in the same run, and of the calls of records, boards and notices
 * beside the reference of the tests; of a mailbox beside single steps, too.
 * Prints Markdown tables; each time is the best of many. Answers are compared
 * before anything is timed.
 *
 * Libraries are used as far as they were found: HAVE_OPENSSL, HAVE_BEARSSL
 * and HAVE_ISAL are set by the Makefile.
 */

#define _DEFAULT_SOURCE

#include <stdio.h>
#include <stdlib.h>
#include <string.h>
#include <unistd.h>
#include "clock.h"
#include "mail.h"
#include "plain.h"
#include "reference/reference.h"
#include "tumbeliko.h"

#ifdef HAVE_OPENSSL
#include <openssl/sha.h>
#endif
#ifdef HAVE_BEARSSL
#include <bearssl.h>
#endif
#ifdef HAVE_ISAL
#include <isa-l/erasure_code.h>
#endif

#define LONGEST 16384

/* ---- what the calls work on */

static uint8_t message[LONGEST], data[65536];
static uint8_t area[60000], root[32], paths[64 * 192], block[17000], back[LONGEST], lengths[128];
static uint8_t other_area[60000], other_root[32], other_paths[64 * 192], other_block[17000], other_back[LONGEST];
static uint8_t digest[32];
static uint8_t who[64];
static size_t data_len, who_count, s_max, k, fragment_len, block_len, fragment_stands;
static uint32_t n, t;
static uint64_t marked;
static volatile uint32_t kept;

static void set_table(uint32_t boards, uint32_t faulty)
{
    n = boards;
    t = faulty;
    k = TUMBELIKO_K(n, t);
    s_max = TUMBELIKO_S_MAX(n, t, LONGEST);
}

/* Marks the `count` highest boards. */
static void mark(size_t count)
{
    who_count = count;
    marked = 0;
    for (size_t i = 0; i < count; i++) {
        who[i] = (uint8_t)(n - count + i + 1);
        marked |= (uint64_t)1 << (who[i] - 1);
    }
}

/* ---- the library and plain C */

static void our_hash(void)      { kept = tumbeliko_hash(data, data_len).bytes[0]; }
static void simple_hash(void)   { plain_hash(data, data_len, digest); }

static void our_path(void)
{
    kept = tumbeliko_path_correct(64, 28, root, 32, paths + 27 * 192, 192, area + fragment_stands, fragment_len);
}

static void simple_path(void)
{
    kept = plain_path_correct(plain_hash, 64, 28, root, paths + 27 * 192, 6, area + fragment_stands, fragment_len);
}

static void our_encode(void)
{
    kept = tumbeliko_encode(n, t, 1, LONGEST, message, LONGEST, area, sizeof area, root, 32,
                            paths, sizeof paths).length;
}

static void simple_encode(void)
{
    size_t length = plain_fragments(message, LONGEST, n, k, s_max, other_area);

    plain_tree(plain_hash, other_area, s_max, length, n, other_root, other_paths);
}

/* The fragments alone have no call of their own: what encoding takes less what a tree over the same fragments takes, made with the
 * library's hash. */
static void our_one(const uint8_t *bytes, size_t len, uint8_t *to)
{
    memcpy(to, tumbeliko_hash(bytes, len).bytes, 32);
}

static void our_tree(void)
{
    plain_tree(our_one, area, s_max, fragment_len, n, other_root, other_paths);
}

static void simple_fragments(void)
{
    kept = (uint32_t)plain_fragments(message, LONGEST, n, k, s_max, other_area);
}

static void our_rebuild(void)
{
    kept = tumbeliko_rebuild(n, t, 1, LONGEST, marked, lengths, sizeof lengths, area, sizeof area,
                             block, sizeof block).length;
}

static void simple_rebuild(void)
{
    kept = plain_rebuild(who, who_count, k, fragment_len, s_max, area, other_block);
}

static void our_read(void)
{
    kept = tumbeliko_read_block(n, t, 1, LONGEST, block, block_len, back, sizeof back).length;
}

static void simple_read(void)
{
    kept = (uint32_t)plain_read_block(block, block_len, k, LONGEST, other_back);
}

/* ---- known libraries */

#ifdef HAVE_OPENSSL
static void openssl_one(const uint8_t *bytes, size_t len, uint8_t *to) { SHA256(bytes, len, to); }
static void openssl_hash(void) { openssl_one(data, data_len, digest); }

static void openssl_path(void)
{
    kept = plain_path_correct(openssl_one, 64, 28, root, paths + 27 * 192, 6, area + fragment_stands, fragment_len);
}
#define BEST_HASH openssl_one
#define BEST_NAME "ISA-L, OpenSSL"
#else
#define BEST_HASH plain_hash
#define BEST_NAME "ISA-L, plain C hash"
#endif

#ifdef HAVE_BEARSSL
static void bearssl_hash(void)
{
    br_sha256_context c;

    br_sha256_init(&c);
    br_sha256_update(&c, data, data_len);
    br_sha256_out(&c, digest);
}
#endif

#ifdef HAVE_ISAL
static uint8_t matrix[64 * 64], inverted[64 * 64], tables[64 * 64 * 32], columns[64][16388];

static void powers_of(const uint8_t *elements, size_t count)
{
    for (size_t i = 0; i < count; i++) {
        uint8_t power = 1;

        for (size_t j = 0; j < k; j++) {
            matrix[i * k + j] = power;
            power = gf_mul(power, elements[i]);
        }
    }
}

static size_t isal_rows(void)
{
    size_t rows = plain_block(message, LONGEST, k, other_block);
    uint8_t *from[64], *to[64], elements[64];

    for (size_t j = 0; j < k; j++) {
        from[j] = columns[j];
        for (size_t c = 0; c < rows; c++)
            columns[j][c] = other_block[c * k + j];
    }
    for (size_t i = 0; i < n; i++) {
        elements[i] = (uint8_t)(i + 1);
        to[i] = other_area + i * s_max;
    }
    powers_of(elements, n);
    ec_init_tables((int)k, (int)n, matrix, tables);
    ec_encode_data((int)rows, (int)k, (int)n, tables, from, to);
    return rows;
}

static void isal_fragments(void)
{
    kept = (uint32_t)isal_rows();
}

static void isal_encode(void)
{
    plain_tree(BEST_HASH, other_area, s_max, isal_rows(), n, other_root, other_paths);
}

/* From the k lowest of the marked; the others must be what these give. */
static void isal_rebuild(void)
{
    static uint8_t again[64][16388];
    uint8_t *from[64], *to[64];

    for (size_t i = 0; i < k; i++) {
        from[i] = area + (who[i] - 1u) * s_max;
        to[i] = columns[i];
    }
    powers_of(who, k);
    gf_invert_matrix(matrix, inverted, (int)k);
    ec_init_tables((int)k, (int)k, inverted, tables);
    ec_encode_data((int)fragment_len, (int)k, (int)k, tables, from, to);
    if (who_count > k) {
        uint8_t *rest[64];

        for (size_t i = 0; i < who_count - k; i++)
            rest[i] = again[i];
        powers_of(who + k, who_count - k);
        ec_init_tables((int)k, (int)(who_count - k), matrix, tables);
        ec_encode_data((int)fragment_len, (int)k, (int)(who_count - k), tables, to, rest);
        for (size_t i = 0; i < who_count - k; i++)
            if (memcmp(again[i], area + (who[k + i] - 1u) * s_max, fragment_len) != 0)
                return;
    }
    for (size_t j = 0; j < k; j++)
        for (size_t c = 0; c < fragment_len; c++)
            other_block[c * k + j] = columns[j][c];
}
#endif

/* ---- times, or instructions where an emulator counts them */

#define TURN_US 3000

static int turns = 25;

/* The best time of each of three calls, in turns, in microseconds; or the thousands of instructions that each executes. */
static void best(void (*const calls[3])(void), double us[3])
{
    long reps[3] = { 0, 0, 0 };

    for (int c = 0; c < 3 && clock_counts(); c++)
        if (calls[c] != NULL) {                 /* what a first call makes, and keeps, doesn't count */
            us[c] = clock_count(calls[c], 1);
            us[c] = clock_count(calls[c], us[c] < 100 ? 100 : 1);
        }
    for (int turn = 0; turn < turns && !clock_counts(); turn++)
        for (int c = 0; c < 3; c++) {
            double start, spent;

            if (calls[c] == NULL)
                continue;
            if (reps[c] == 0) {                 /* how many fill a turn */
                start = clock_time();
                do {
                    calls[c]();
                    reps[c]++;
                } while (clock_time() - start < TURN_US);
                us[c] = (clock_time() - start) / (double)reps[c];
            }
            start = clock_time();
            for (long r = 0; r < reps[c]; r++)
                calls[c]();
            spent = (clock_time() - start) / (double)reps[c];
            if (spent < us[c])
                us[c] = spent;
        }
}

static void row(const char *call, const char *input, void (*ours)(void), void (*simple)(void),
                void (*library)(void), const char *name)
{
    void (*const calls[3])(void) = { ours, simple, library };
    double us[3] = { 0, 0, 0 };

    best(calls, us);
    printf("| %s | %s | %.2f | %.2f | %.2f |", call, input, us[0], us[1], us[0] / us[1]);
    if (library == NULL)
        printf(" - | - |\n");
    else
        printf(" %.2f (%s) | %.2f |\n", us[2], name, us[0] / us[2]);
    fflush(stdout);
}

static void fragments_row(const char *input, void (*library)(void), const char *name)
{
    void (*const encoding[3])(void) = { our_encode, our_tree, NULL };
    void (*const others[3])(void) = { simple_fragments, library, NULL };
    double whole[3] = { 0, 0, 0 }, us[3] = { 0, 0, 0 }, ours;

    best(encoding, whole);
    best(others, us);
    ours = whole[0] - whole[1];
    printf("| fragments: encode less a tree by its hash | %s | %.2f | %.2f | %.2f |", input, ours, us[0], ours / us[0]);
    if (library != NULL)
        printf(" %.2f (%s) | %.2f |\n", us[1], name, ours / us[1]);
    else
        printf(" - | - |\n");
}

static void must(bool fact, const char *what)
{
    if (!fact) {
        fprintf(stderr, "bench: answers differ: %s\n", what);
        exit(1);
    }
}

/* ---- rows */

static void hash_rows(const char *openssl_name, bool bearssl_too)
{
    static const size_t sizes[] = { 65, 65536 };
    static const char *const names[] = { "65 B", "64 KiB" };

    for (int i = 0; i < 2; i++) {
        tumbeliko_digest ours;
        void (*openssl)(void) = NULL;

        data_len = sizes[i];
        ours = tumbeliko_hash(data, data_len);
        simple_hash();
        must(ours.number == 0 && memcmp(ours.bytes, digest, 32) == 0, "hash, plain C");
#ifdef HAVE_OPENSSL
        openssl_hash();
        must(memcmp(ours.bytes, digest, 32) == 0, "hash, OpenSSL");
        openssl = openssl_hash;
#endif
        row("hash", names[i], our_hash, simple_hash, openssl, openssl_name);
#ifdef HAVE_BEARSSL
        if (bearssl_too) {
            bearssl_hash();
            must(memcmp(ours.bytes, digest, 32) == 0, "hash, BearSSL");
            row("hash", names[i], our_hash, simple_hash, bearssl_hash, "BearSSL");
        }
#else
        (void)bearssl_too;
#endif
    }
}

static void path_row(void)
{
    void (*library)(void) = NULL;

    set_table(64, 21);
    our_encode();
    fragment_len = kept;
    fragment_stands = 27 * s_max;
    our_path();
    must(kept == 1, "path check");
    simple_path();
    must(kept == 1, "path check, plain C");
#ifdef HAVE_OPENSSL
    openssl_path();
    must(kept == 1, "path check, OpenSSL");
    library = openssl_path;
#endif
    row("path check", "n 64, fragment 745 B", our_path, simple_path, library, "OpenSSL");
}

static void code_rows(void)
{
    static const uint32_t tables_of[][2] = { { 4, 1 }, { 7, 2 }, { 64, 21 } };
    char input[60];

    for (int i = 0; i < 3; i++) {
        void (*library)(void) = NULL;

        set_table(tables_of[i][0], tables_of[i][1]);
        memset(area, 0, sizeof area);
        memset(other_area, 0, sizeof other_area);
        memset(paths, 0, sizeof paths);
        memset(other_paths, 0, sizeof other_paths);
        our_encode();
        simple_encode();
        must(memcmp(area, other_area, sizeof area) == 0 && memcmp(root, other_root, 32) == 0
             && memcmp(paths, other_paths, sizeof paths) == 0, "encode, plain C");
#ifdef HAVE_ISAL
        memset(other_area, 0, sizeof other_area);
        memset(other_paths, 0, sizeof other_paths);
        isal_encode();
        must(memcmp(area, other_area, sizeof area) == 0 && memcmp(root, other_root, 32) == 0
             && memcmp(paths, other_paths, sizeof paths) == 0, "encode, ISA-L");
        library = isal_encode;
#endif
        snprintf(input, sizeof input, "16,384 B, n %u, t %u", n, t);
        row("encode", input, our_encode, simple_encode, library, BEST_NAME);
        our_encode();
        fragment_len = kept;
#ifdef HAVE_ISAL
        library = isal_fragments;
#endif
        fragments_row(input, library, "ISA-L");
    }
    for (int i = 0; i < 6; i++) {
        void (*library)(void) = NULL;

        set_table(tables_of[i / 2][0], tables_of[i / 2][1]);
        our_encode();
        fragment_len = kept;
        for (size_t b = 0; b < n; b++) {
            lengths[2 * b] = (uint8_t)(fragment_len >> 8);
            lengths[2 * b + 1] = (uint8_t)fragment_len;
        }
        mark(i % 2 ? n : k);
        memset(block, 0, sizeof block);
        memset(other_block, 0, sizeof other_block);
        our_rebuild();
        block_len = kept;
        must(block_len == k * fragment_len, "rebuild");
        simple_rebuild();
        must(memcmp(block, other_block, sizeof block) == 0, "rebuild, plain C");
#ifdef HAVE_ISAL
        memset(other_block, 0, sizeof other_block);
        isal_rebuild();
        must(memcmp(block, other_block, sizeof block) == 0, "rebuild, ISA-L");
        library = isal_rebuild;
#endif
        snprintf(input, sizeof input, "16,384 B, n %u, t %u, from %zu", n, t, who_count);
        row("rebuild", input, our_rebuild, simple_rebuild, library, "ISA-L");
    }
    our_read();
    must(kept == LONGEST && memcmp(back, message, LONGEST) == 0, "read block");
    simple_read();
    must(kept == LONGEST && memcmp(other_back, message, LONGEST) == 0, "read block, plain C");
    row("read block", "16,384 B", our_read, simple_read, NULL, NULL);
}

/* ---- records and boards, beside the reference */

#define RECORD 16619
#define STATE  (TUMBELIKO_STATE_BYTES(1, 3 * (LONGEST + 4) + 64))

static uint8_t record[RECORD], out[RECORD], other_out[RECORD];
static size_t record_len;
static uint32_t from;
static uint8_t (*states)[STATE], base[STATE];
static ref_board *boards, *other_base;

static void our_reader(void)    { kept = tumbeliko_read_record(record, record_len).fragment_length; }
static void other_reader(void)  { kept = ref_read_record(record, record_len).fragment_length; }

static void our_writer(void)
{
    kept = tumbeliko_write_record(2, root, 32, paths, 96, area, fragment_len, out, sizeof out).length;
}

static void other_writer(void)
{
    kept = ref_write_record(2, root, 32, paths, 96, area, fragment_len, other_out, sizeof other_out).length;
}

static void our_send(void)
{
    kept = tumbeliko_send(n, t, 1, LONGEST, message, LONGEST, n, out, sizeof out).length;
}

static void other_send(void)
{
    kept = ref_send(n, t, 1, LONGEST, message, LONGEST, n, other_out, sizeof other_out).length;
}

static size_t state_len(void)
{
    return TUMBELIKO_STATE_BYTES(n, s_max);
}

static void our_start(void)
{
    kept = tumbeliko_start(n, t, 1, LONGEST, 1, states[0], state_len());
}

/* One step of board i + 1 by each. */
static tumbeliko_stepped our_step_of(uint32_t i, uint32_t by, const uint8_t *bytes, size_t len)
{
    return tumbeliko_step(states[i], state_len(), by, bytes, len, out, sizeof out, back, sizeof back);
}

static ref_stepped other_step_of(uint32_t i, uint32_t by, const uint8_t *bytes, size_t len)
{
    return ref_step(&boards[i], state_len(), by, bytes, len, other_out, sizeof other_out,
                    other_back, sizeof other_back);
}

/* The same step again and again: what a step changes outside the fragments
 * is put back before it. */
static void our_step(void)
{
    memcpy(states[0], base, 4608);
    kept = our_step_of(0, from, record, record_len).number;
}

static void other_step(void)
{
    memcpy(&boards[0], other_base, offsetof(ref_board, fragment));
    kept = other_step_of(0, from, record, record_len).number;
}

/* The record of that kind that belongs to a board's place. */
static void make_record(uint32_t kind, uint32_t board)
{
    record_len = tumbeliko_send(n, t, 1, LONGEST, message, LONGEST, board, record, sizeof record).length;
    if (kind == 3)
        record_len = tumbeliko_write_record(3, root, 32, root, 0, root, 0, record, sizeof record).length;
    record[0] = (uint8_t)kind;
    from = kind == 1 ? 1 : board;
}

/* Hands a record of that kind to board 1 from each of the boards. */
static void hear(uint32_t kind, uint32_t first, uint32_t last)
{
    for (uint32_t board = first; board <= last; board++) {
        make_record(kind, board);
        must(our_step_of(0, from, record, record_len).number == other_step_of(0, from, record, record_len).number,
             "step, reference");
    }
}

static void begin_board(void)
{
    our_encode();
    fragment_len = kept;
    our_start();
    ref_start(n, t, 1, LONGEST, 1, &boards[0], state_len());
}

static void pair_row(const char *call, const char *input, void (*ours)(void), void (*other)(void))
{
    void (*const calls[3])(void) = { ours, other, NULL };
    double us[3] = { 0, 0, 0 };

    best(calls, us);
    printf("| %s | %s | %.2f |", call, input, us[0]);
    if (other == NULL)
        printf(" - | - |\n");
    else
        printf(" %.2f | %.2f |\n", us[1], us[0] / us[1]);
    fflush(stdout);
}

/* Times the step of `record` on the board as it stands. */
static void step_row(const char *what, uint32_t number, uint32_t delivery)
{
    char input[60];
    tumbeliko_stepped ours;
    ref_stepped other;

    memcpy(base, states[0], 4608);
    memcpy(other_base, &boards[0], offsetof(ref_board, fragment));
    ours = our_step_of(0, from, record, record_len);
    other = other_step_of(0, from, record, record_len);
    must(ours.number == number && other.number == number && ours.offset == other.offset
         && ours.delivery == delivery && other.delivery == delivery
         && ours.record_length == other.record_length && memcmp(out, other_out, ours.record_length) == 0
         && ours.message_length == other.message_length && memcmp(back, other_back, ours.message_length) == 0, what);
    snprintf(input, sizeof input, "%s, n %u, 16,384 B", what, n);
    pair_row("step", input, our_step, other_step);
    memcpy(states[0], base, 4608);
    memcpy(&boards[0], other_base, offsetof(ref_board, fragment));
}

static void step_rows(void)
{
    begin_board();
    make_record(1, 1);
    step_row("send", 0, 0);
    hear(2, 2, n / 2);
    make_record(2, n);
    step_row("echo", 0, 0);
    hear(3, 1, t);
    make_record(3, n);
    step_row("vote, put out", 0, 0);
    hear(3, n, n);
    make_record(3, n - 1);
    step_row("vote", 0, 0);
    make_record(3, n);
    step_row("refused 9", 9, 0);
    record_len--;
    step_row("refused 20", TUMBELIKO_CUT_OFF, 0);
    begin_board();
    hear(2, 1, (uint32_t)k - 1);
    hear(3, 1, n - t);
    make_record(2, n);
    step_row("delivering", 0, 1);
}

/* ---- a whole broadcast: every record to every board, in turn */

static uint8_t sent[64][6000], echoed[64][6000], voted[64][39];
static size_t sent_len[64], echoed_len[64];

/* A record to board i + 1; keeps what it puts out, counts what it delivers. */
static uint32_t broadcast_step(bool ours, uint32_t i, uint32_t by, const uint8_t *bytes, size_t len)
{
    const uint8_t *put_out = ours ? out : other_out;
    uint32_t length, delivery;

    if (ours) {
        tumbeliko_stepped did = our_step_of(i, by, bytes, len);

        length = did.record_length;
        delivery = did.delivery;
    } else {
        ref_stepped did = other_step_of(i, by, bytes, len);

        length = did.record_length;
        delivery = did.delivery;
    }
    if (length == 39)
        memcpy(voted[i], put_out, 39);
    else if (length > 0)
        memcpy(echoed[i], put_out, echoed_len[i] = length);
    return delivery == 1;
}

static void broadcast(bool ours)
{
    uint32_t delivered = 0;

    for (uint32_t i = 0; i < n; i++) {
        if (ours) {
            tumbeliko_start(n, t, 1, LONGEST, i + 1, states[i], state_len());
            sent_len[i] = tumbeliko_send(n, t, 1, LONGEST, message, LONGEST, i + 1, out, sizeof out).length;
            memcpy(sent[i], out, sent_len[i]);
        } else {
            ref_start(n, t, 1, LONGEST, i + 1, &boards[i], state_len());
            sent_len[i] = ref_send(n, t, 1, LONGEST, message, LONGEST, i + 1, other_out, sizeof other_out).length;
            memcpy(sent[i], other_out, sent_len[i]);
        }
    }
    for (uint32_t i = 0; i < n; i++)
        broadcast_step(ours, i, 1, sent[i], sent_len[i]);
    for (uint32_t i = 0; i < n; i++)
        for (uint32_t j = 0; j < n; j++)
            broadcast_step(ours, i, j + 1, echoed[j], echoed_len[j]);
    for (uint32_t i = 0; i < n; i++)
        for (uint32_t j = 0; j < n; j++)
            delivered += broadcast_step(ours, i, j + 1, voted[j], 39);
    kept = delivered;
}

static void our_broadcast(void)     { broadcast(true); }
static void other_broadcast(void)   { broadcast(false); }

/* ---- a mailbox, beside single steps of its items and beside the reference */

#define SHORT 60                /* bytes of a short message */

static uint8_t box[20000], answers[255], other_answers[255], vote[39], other_vote[39], after[STATE];
static size_t box_len, items;
static uint32_t put_out;        /* bytes of echo and vote, and the message's */

static void our_mailbox(void)
{
    tumbeliko_mailed did;

    memcpy(states[0], base, 4608);
    did = tumbeliko_mailbox(states[0], state_len(), box, box_len, answers, sizeof answers, out, sizeof out,
                            vote, sizeof vote, back, sizeof back);
    kept = did.number;
    put_out = did.echo_length + did.vote_length + did.message_length;
}

static void our_single_steps(void)
{
    const uint8_t *at = box + 2;

    memcpy(states[0], base, 4608);
    put_out = 0;
    for (size_t i = 0; i < items; i++) {
        uint8_t by;
        size_t len;
        const uint8_t *bytes = read_item(at, &by, &len);
        tumbeliko_stepped did = our_step_of(0, by, bytes, len);

        other_answers[i] = (uint8_t)did.number;
        put_out += did.record_length + did.message_length;
        at = bytes + len;
    }
}

static void other_mailbox(void)
{
    ref_mailed did;

    memcpy(&boards[0], other_base, offsetof(ref_board, fragment));
    did = ref_mailbox(&boards[0], state_len(), box, box_len, other_answers, sizeof other_answers,
                      other_out, sizeof other_out, other_vote, sizeof other_vote, other_back, sizeof other_back);
    kept = did.number;
    put_out = did.echo_length + did.vote_length + did.message_length;
}

/* All three must have done the same: answers, state, lengths. */
static void compare_mailboxes(const char *what)
{
    uint32_t ours;

    our_mailbox();
    ours = put_out;
    must(kept == 0, what);
    memcpy(after, states[0], state_len());
    our_single_steps();
    must(put_out == ours && memcmp(answers, other_answers, items) == 0 && memcmp(after, states[0], state_len()) == 0, what);
    other_mailbox();
    must(kept == 0 && put_out == ours && memcmp(answers, other_answers, items) == 0
         && memcmp(vote, other_vote, sizeof vote) == 0 && memcmp(back, other_back, SHORT) == 0, what);
}

/* Times the mailbox in `box` at a fresh board. `wanted` is the most that it may take of what single steps take. */
static void mailbox_row(const char *what, const char *wanted)
{
    void (*const calls[3])(void) = { our_mailbox, our_single_steps, other_mailbox };
    double us[3] = { 0, 0, 0 };

    items = (size_t)box[0] << 8 | box[1];
    our_start();
    ref_start(n, t, 1, LONGEST, 1, &boards[0], state_len());
    memcpy(base, states[0], 4608);
    memcpy(other_base, &boards[0], offsetof(ref_board, fragment));
    compare_mailboxes(what);
    best(calls, us);
    printf("| %s, n %u | %zu | %.2f | %.2f | %.2f | %s | %.2f | %.2f |\n", what, n, items, us[0], us[1], us[0] / us[1],
           wanted, us[2], us[0] / us[2]);
    fflush(stdout);
    box_len = empty_mailbox(box);
}

/* Puts a record of a short message into the mailbox. */
static void post_one(uint32_t kind, uint32_t board)
{
    size_t len = tumbeliko_send(n, t, 1, LONGEST, message, SHORT, board, record, sizeof record).length;
    const uint8_t *bytes = record;

    record[0] = (uint8_t)kind;
    if (kind == 3) {
        len = tumbeliko_write_record(3, record + 3, 32, root, 0, root, 0, out, sizeof out).length;
        bytes = out;
    }
    box_len = add_item(box, box_len, (uint8_t)board, bytes, len);
}

static void post_all(uint32_t kind)
{
    for (uint32_t board = 1; board <= n; board++)
        post_one(kind, board);
}

static void mailbox_rows(void)
{
    printf("\n| mailbox | items | tumbeliko %s | single steps %s | ratio | wanted | reference %s | ratio |\n", clock_unit(),
           clock_unit(), clock_unit());
    printf("|---|---:|---:|---:|---:|---:|---:|---:|\n");
    turns = 25;
    box_len = empty_mailbox(box);
    set_table(64, 21);
    post_all(3);
    mailbox_row("a vote of each board", "0.70");
    set_table(7, 2);
    post_all(3);
    post_all(3);
    mailbox_row("a vote of each board, and once more", "0.50");
    post_all(2);
    post_all(3);
    mailbox_row("echo and vote of each board, 60 B, delivering", "-");
}

/* ---- notices, beside the reference */

#define NOTICE TUMBELIKO_NOTICE_MAX

static uint8_t (*notice_states)[TUMBELIKO_NOTICE_STATE_BYTES], notice_base[TUMBELIKO_NOTICE_STATE_BYTES];
static ref_notice_board *notice_boards, other_notice_base;

static void our_notice_reader(void)     { kept = tumbeliko_read_notice(record, record_len).length; }
static void other_notice_reader(void)   { kept = ref_read_notice(record, record_len).length; }
static void our_notice_writer(void)     { kept = tumbeliko_write_notice(5, message, NOTICE, out, sizeof out).length; }
static void other_notice_writer(void)   { kept = ref_write_notice(5, message, NOTICE, other_out, sizeof other_out).length; }

static void our_notice_send(void)
{
    kept = tumbeliko_notice_send(n, t, 1, message, NOTICE, n, out, sizeof out).length;
}

static void other_notice_send(void)
{
    kept = ref_notice_send(n, t, 1, message, NOTICE, n, other_out, sizeof other_out).length;
}

static void our_notice_start(void)
{
    kept = tumbeliko_notice_start(n, t, 1, 1, notice_states[0], sizeof *notice_states);
}

static void other_notice_start(void)
{
    kept = ref_notice_start(n, t, 1, 1, &notice_boards[0], sizeof *notice_states);
}

/* One step of board i + 1 by each. */
static tumbeliko_stepped our_notice_step_of(uint32_t i, uint32_t by, const uint8_t *bytes, size_t len)
{
    return tumbeliko_notice_step(notice_states[i], sizeof *notice_states, by, bytes, len, out, sizeof out, back, sizeof back);
}

static ref_stepped other_notice_step_of(uint32_t i, uint32_t by, const uint8_t *bytes, size_t len)
{
    return ref_notice_step(&notice_boards[i], sizeof *notice_states, by, bytes, len, other_out, sizeof other_out,
                           other_back, sizeof other_back);
}

/* The same step again and again: what it may change, flags, sets and what is
 * kept of one board, is put back before it. */
static void our_notice_step(void)
{
    size_t echo = 32 + 65 * (from - 1), vote = echo + 64 * 65;  /* docs/STATE.md */

    memcpy(notice_states[0], notice_base, 32);
    memcpy(notice_states[0] + echo, notice_base + echo, 65);
    memcpy(notice_states[0] + vote, notice_base + vote, 65);
    kept = our_notice_step_of(0, from, record, record_len).number;
}

static void other_notice_step(void)
{
    memcpy(&notice_boards[0], &other_notice_base, offsetof(ref_notice_board, echo));
    notice_boards[0].echo[from - 1] = other_notice_base.echo[from - 1];
    notice_boards[0].vote[from - 1] = other_notice_base.vote[from - 1];
    kept = other_notice_step_of(0, from, record, record_len).number;
}

/* Notices of 64 bytes that may differ in their last byte. */
static void make_notice(uint32_t kind, uint32_t board, uint8_t last)
{
    uint8_t notice[NOTICE];

    memcpy(notice, message, NOTICE);
    notice[NOTICE - 1] = last;
    record_len = tumbeliko_write_notice(kind, notice, NOTICE, record, sizeof record).length;
    from = kind == TUMBELIKO_NOTICE_SEND ? 1 : board;
}

static void hear_notice(uint32_t kind, uint32_t first, uint32_t last, bool apart)
{
    for (uint32_t board = first; board <= last; board++) {
        make_notice(kind, board, apart ? (uint8_t)board : 0);
        must(our_notice_step_of(0, from, record, record_len).number
             == other_notice_step_of(0, from, record, record_len).number, "notice step, reference");
    }
}

/* Times the step of `record` on the board as it stands. */
static void notice_step_row(const char *what, uint32_t number, uint32_t delivery)
{
    char input[60];
    tumbeliko_stepped ours;
    ref_stepped other;

    memcpy(notice_base, notice_states[0], sizeof notice_base);
    other_notice_base = notice_boards[0];
    ours = our_notice_step_of(0, from, record, record_len);
    other = other_notice_step_of(0, from, record, record_len);
    must(ours.number == number && other.number == number && ours.offset == other.offset
         && ours.delivery == delivery && other.delivery == delivery
         && ours.record_length == other.record_length && memcmp(out, other_out, ours.record_length) == 0
         && ours.message_length == other.message_length && memcmp(back, other_back, ours.message_length) == 0, what);
    snprintf(input, sizeof input, "%s, n %u, 64 B", what, n);
    pair_row("notice step", input, our_notice_step, other_notice_step);
    memcpy(notice_states[0], notice_base, sizeof notice_base);
    notice_boards[0] = other_notice_base;
}

static void notice_step_rows(void)
{
    our_notice_start();
    other_notice_start();
    make_notice(TUMBELIKO_NOTICE_SEND, 1, 0);
    notice_step_row("send", 0, 0);
    hear_notice(TUMBELIKO_NOTICE_ECHO, 1, n - t - 1, false);
    make_notice(TUMBELIKO_NOTICE_ECHO, n, 0);
    notice_step_row("echo, a vote put out", 0, 0);
    hear_notice(TUMBELIKO_NOTICE_ECHO, n, n, false);
    hear_notice(TUMBELIKO_NOTICE_VOTE, 1, n - t - 1, false);
    make_notice(TUMBELIKO_NOTICE_VOTE, 1, 0);
    notice_step_row("refused 9", TUMBELIKO_SECOND, 0);
    record_len--;
    notice_step_row("refused 20", TUMBELIKO_CUT_OFF, 0);
    make_notice(TUMBELIKO_NOTICE_VOTE, n, 0);
    notice_step_row("vote, delivering", 0, 1);
    our_notice_start();
    other_notice_start();
    hear_notice(TUMBELIKO_NOTICE_ECHO, 1, n - 1, true);
    hear_notice(TUMBELIKO_NOTICE_VOTE, 1, n - 1, true);
    make_notice(TUMBELIKO_NOTICE_VOTE, n, (uint8_t)n);
    notice_step_row("vote, all notices differ", 0, 0);
}

/* A whole broadcast: every record to every board, in turn. */
static void notice_broadcast(bool ours)
{
    uint8_t *put = ours ? out : other_out;
    uint32_t delivered = 0, length = 0;

    for (uint32_t i = 0; i < n; i++)
        if (ours)
            tumbeliko_notice_start(n, t, 1, i + 1, notice_states[i], sizeof *notice_states);
        else
            ref_notice_start(n, t, 1, i + 1, &notice_boards[i], sizeof *notice_states);
    for (uint32_t kind = TUMBELIKO_NOTICE_SEND; kind <= TUMBELIKO_NOTICE_VOTE; kind++)
        for (uint32_t i = 0; i < n; i++)
            for (uint32_t by = 1; by <= (kind == TUMBELIKO_NOTICE_SEND ? 1 : n); by++) {
                length = ours ? tumbeliko_write_notice(kind, message, NOTICE, record, sizeof record).length
                              : ref_write_notice(kind, message, NOTICE, record, sizeof record).length;
                delivered += ours ? our_notice_step_of(i, by, record, length).delivery
                                  : other_notice_step_of(i, by, record, length).delivery;
            }
    must(length > 0 && put[0] == TUMBELIKO_NOTICE_VOTE, "whole broadcast of a notice");
    kept = delivered;
}

static void our_notice_broadcast(void)      { notice_broadcast(true); }
static void other_notice_broadcast(void)    { notice_broadcast(false); }

static void notice_rows(void)
{
    static const uint32_t tables_of[][2] = { { 7, 2 }, { 64, 21 } };
    char input[60];

    notice_states = calloc(64, sizeof *notice_states);
    notice_boards = calloc(64, sizeof *notice_boards);
    if (notice_states == NULL || notice_boards == NULL) {
        fprintf(stderr, "bench: no memory for the notice boards\n");
        return;
    }
    printf("\n| call | input | tumbeliko %s | reference %s | ratio |\n|---|---|---:|---:|---:|\n", clock_unit(), clock_unit());
    turns = 25;
    make_notice(TUMBELIKO_NOTICE_ECHO, 1, 0);
    our_notice_reader();
    must(kept == NOTICE, "read notice");
    pair_row("read notice", "echo, 64 B", our_notice_reader, other_notice_reader);
    our_notice_writer();
    other_notice_writer();
    must(kept == NOTICE + 3 && memcmp(out, other_out, kept) == 0, "write notice, reference");
    pair_row("write notice", "echo, 64 B", our_notice_writer, other_notice_writer);
    for (int i = 0; i < 2; i++) {
        set_table(tables_of[i][0], tables_of[i][1]);
        snprintf(input, sizeof input, "n %u", n);
        pair_row("notice start", input, our_notice_start, other_notice_start);
        our_notice_send();
        other_notice_send();
        must(kept == NOTICE + 3 && memcmp(out, other_out, kept) == 0, "notice send, reference");
        snprintf(input, sizeof input, "n %u, 64 B", n);
        pair_row("notice send", input, our_notice_send, other_notice_send);
        notice_step_rows();
        our_notice_broadcast();
        must(kept == n, "whole broadcast of a notice");
        other_notice_broadcast();
        must(kept == n, "whole broadcast of a notice, reference");
        turns = n > 10 ? 2 : turns;
        snprintf(input, sizeof input, "n %u, 64 B, %u steps", n, n + 2 * n * n);
        pair_row("whole notice", input, our_notice_broadcast, other_notice_broadcast);
    }
}

static void board_rows(void)
{
    static const uint32_t tables_of[][2] = { { 7, 2 }, { 64, 21 } };
    char input[60];

    states = calloc(64, sizeof *states);
    boards = calloc(64, sizeof *boards);
    other_base = calloc(1, sizeof *other_base);
    if (states == NULL || boards == NULL || other_base == NULL) {
        fprintf(stderr, "bench: no memory for the boards\n");
        return;
    }
    printf("\n| call | input | tumbeliko %s | reference %s | ratio |\n|---|---|---:|---:|---:|\n", clock_unit(), clock_unit());
    for (int i = 0; i < 2; i++) {
        set_table(tables_of[i][0], tables_of[i][1]);
        begin_board();
        make_record(2, n);
        snprintf(input, sizeof input, "echo, fragment %zu B", fragment_len);
        must(tumbeliko_read_record(record, record_len).fragment_length == fragment_len, "read record");
        pair_row("read record", input, our_reader, other_reader);
        our_writer();
        other_writer();
        must(memcmp(out, other_out, kept) == 0, "write record, reference");
        pair_row("write record", input, our_writer, other_writer);
        snprintf(input, sizeof input, "n %u", n);
        pair_row("start", input, our_start, NULL);
        our_send();
        other_send();
        must(memcmp(out, other_out, kept) == 0, "send, reference");
        snprintf(input, sizeof input, "n %u, 16,384 B", n);
        pair_row("send", input, our_send, other_send);
        step_rows();
        our_broadcast();
        must(kept == n, "whole broadcast");
        other_broadcast();
        must(kept == n, "whole broadcast, reference");
        turns = n > 10 ? 2 : turns;
        snprintf(input, sizeof input, "n %u, 16,384 B, %u steps", n, n + 2 * n * n);
        pair_row("whole broadcast", input, our_broadcast, other_broadcast);
    }
    mailbox_rows();
    notice_rows();
}

int main(int argc, char **argv)
{
    bool switched_off = argc > 1 && strcmp(argv[1], "--openssl-without-sha-instructions") == 0;

    for (size_t i = 0; i < sizeof data; i++)
        data[i] = (uint8_t)(i * 7 + i / 251);
    for (size_t i = 0; i < sizeof message; i++)
        message[i] = (uint8_t)(i * 13 + i / 239);
    plain_begin();
    clock_begin();
    if (switched_off) {
        hash_rows("OpenSSL, no SHA instructions", false);
        board_rows();
        return 0;
    }
    printf("| call | input | tumbeliko %s | plain C %s | ratio | library %s | ratio |\n", clock_unit(), clock_unit(), clock_unit());
    printf("|---|---|---:|---:|---:|---:|---:|\n");
    hash_rows("OpenSSL", true);
    path_row();
    code_rows();
#ifdef HAVE_OPENSSL
    if (clock_counts()) {                       /* the emulator has no SHA instructions to switch off */
        board_rows();
        return 0;
    }
    /* OpenSSL looks at these once, when it starts */
    setenv("OPENSSL_ia32cap", ":~0x20000000", 1);
    setenv("OPENSSL_armcap", "1", 1);
    execv("/proc/self/exe", (char *[]){ argv[0], "--openssl-without-sha-instructions", NULL });
    perror("bench: OpenSSL without SHA instructions is not timed");
#endif
    board_rows();
    return 0;
}
