/*
 * The stack that each call takes: the call runs on a stack of its own,
 * painted before it, and the deepest byte that lost its paint tells. What
 * the way to the call takes itself is measured by a call of nothing and
 * subtracted. Bytes that a call reserves and never writes do not show.
 *
 * Each line of the table is a test: it fails above the limit. The program
 * is linked statically, so that no loader works on the painted stack.
 */

#define _DEFAULT_SOURCE

#include <stdio.h>
#include <stdlib.h>
#include <string.h>
#include <sys/mman.h>
#include <ucontext.h>
#include "mail.h"
#include "trees.h"
#include "tumbeliko.h"

#define STACK   (256 * 1024)
#define PAINT   0xa5
#define LONGEST 16384

/* Bytes beyond the lent buffers. Why two calls may take more than the others
 * stands in docs/DECISIONS.md; theirs are 32 above what was measured, since
 * another C library's memset may take a little more. A mailbox may take 64
 * more than the step: than its limit, and than what the delivering one was
 * measured to take, 1,512. */
#define LIMIT                    768
#define LIMIT_SEND               1112
#define LIMIT_DELIVERING         1560
#define LIMIT_MAILBOX            (LIMIT + 64)
#define LIMIT_MAILBOX_DELIVERING 1576
#define LIMIT_NOTICE             512    /* what older boards have for a call */

static uint8_t *stack;
static ucontext_t here, there;
static void (*job)(void);

static void entry(void)
{
    job();
}

/* How many bytes of the stack lose their paint while `what` runs on it. */
static size_t painted(void (*what)(void))
{
    size_t clean = 0;

    job = what;
    job();                      /* once before: what is bound late is bound now */
    memset(stack, PAINT, STACK);
    getcontext(&there);
    there.uc_stack.ss_sp = stack;
    there.uc_stack.ss_size = STACK;
    there.uc_link = &here;
    makecontext(&there, entry, 0);
    swapcontext(&here, &there);
    while (clean < STACK && stack[clean] == PAINT)
        clean++;
    return STACK - clean;
}

/* ---- the calls, each through a pointer that may point to nothing's call */

static uint8_t data[65536], message[LONGEST], area[60000], root[32], paths[64 * 192], block[17000], back[LONGEST];
static uint8_t lengths[128];
static size_t len, nodes, fragment_len, block_len;
static uint32_t n, t;
static uint64_t marked;
static volatile uint32_t kept;

static tumbeliko_digest no_hash(const uint8_t *d, size_t dl)
{
    static const tumbeliko_digest nothing;

    (void)d, (void)dl;
    return nothing;
}

static bool no_path(uint32_t a, uint32_t b, const uint8_t *r, size_t rl, const uint8_t *p, size_t pl,
                    const uint8_t *f, size_t fl)
{
    (void)a, (void)b, (void)r, (void)rl, (void)p, (void)pl, (void)f, (void)fl;
    return false;
}

static tumbeliko_sized no_encode(uint32_t a, uint32_t b, uint32_t c, uint32_t d, const uint8_t *m, size_t ml,
                                 uint8_t *e, size_t el, uint8_t *r, size_t rl, uint8_t *p, size_t pl)
{
    static const tumbeliko_sized nothing;

    (void)a, (void)b, (void)c, (void)d, (void)m, (void)ml, (void)e, (void)el, (void)r, (void)rl, (void)p, (void)pl;
    return nothing;
}

static tumbeliko_sized no_rebuild(uint32_t a, uint32_t b, uint32_t c, uint32_t d, uint64_t s, const uint8_t *l,
                                  size_t ll, const uint8_t *e, size_t el, uint8_t *k, size_t kl)
{
    static const tumbeliko_sized nothing;

    (void)a, (void)b, (void)c, (void)d, (void)s, (void)l, (void)ll, (void)e, (void)el, (void)k, (void)kl;
    return nothing;
}

static tumbeliko_sized no_read(uint32_t a, uint32_t b, uint32_t c, uint32_t d, const uint8_t *k, size_t kl,
                               uint8_t *m, size_t ml)
{
    static const tumbeliko_sized nothing;

    (void)a, (void)b, (void)c, (void)d, (void)k, (void)kl, (void)m, (void)ml;
    return nothing;
}

static tumbeliko_parts no_reader(const uint8_t *r, size_t rl)
{
    static const tumbeliko_parts nothing;

    (void)r, (void)rl;
    return nothing;
}

static tumbeliko_written no_writer(uint32_t a, const uint8_t *r, size_t rl, const uint8_t *p, size_t pl,
                                   const uint8_t *f, size_t fl, uint8_t *o, size_t ol)
{
    static const tumbeliko_written nothing;

    (void)a, (void)r, (void)rl, (void)p, (void)pl, (void)f, (void)fl, (void)o, (void)ol;
    return nothing;
}

static uint32_t no_start(uint32_t a, uint32_t b, uint32_t c, uint32_t d, uint32_t e, uint8_t *s, size_t sl)
{
    (void)a, (void)b, (void)c, (void)d, (void)e, (void)s, (void)sl;
    return 0;
}

static tumbeliko_stepped no_step(uint8_t *s, size_t sl, uint32_t a, const uint8_t *r, size_t rl,
                                 uint8_t *o, size_t ol, uint8_t *d, size_t dl)
{
    static const tumbeliko_stepped nothing;

    (void)s, (void)sl, (void)a, (void)r, (void)rl, (void)o, (void)ol, (void)d, (void)dl;
    return nothing;
}

static tumbeliko_mailed no_mailbox(uint8_t *s, size_t sl, const uint8_t *m, size_t ml, uint8_t *a, size_t al,
                                   uint8_t *e, size_t el, uint8_t *v, size_t vl, uint8_t *d, size_t dl)
{
    static const tumbeliko_mailed nothing;

    (void)s, (void)sl, (void)m, (void)ml, (void)a, (void)al, (void)e, (void)el, (void)v, (void)vl, (void)d, (void)dl;
    return nothing;
}

static tumbeliko_sized no_send(uint32_t a, uint32_t b, uint32_t c, uint32_t d, const uint8_t *m, size_t ml,
                               uint32_t e, uint8_t *o, size_t ol)
{
    static const tumbeliko_sized nothing;

    (void)a, (void)b, (void)c, (void)d, (void)m, (void)ml, (void)e, (void)o, (void)ol;
    return nothing;
}

static tumbeliko_notice no_notice_reader(const uint8_t *r, size_t rl)
{
    static const tumbeliko_notice nothing;

    (void)r, (void)rl;
    return nothing;
}

static tumbeliko_written no_notice_writer(uint32_t a, const uint8_t *v, size_t vl, uint8_t *o, size_t ol)
{
    static const tumbeliko_written nothing;

    (void)a, (void)v, (void)vl, (void)o, (void)ol;
    return nothing;
}

static uint32_t no_notice_start(uint32_t a, uint32_t b, uint32_t c, uint32_t d, uint8_t *s, size_t sl)
{
    (void)a, (void)b, (void)c, (void)d, (void)s, (void)sl;
    return 0;
}

static tumbeliko_sized no_notice_send(uint32_t a, uint32_t b, uint32_t c, const uint8_t *v, size_t vl, uint32_t d,
                                      uint8_t *o, size_t ol)
{
    static const tumbeliko_sized nothing;

    (void)a, (void)b, (void)c, (void)v, (void)vl, (void)d, (void)o, (void)ol;
    return nothing;
}

static tumbeliko_digest (*volatile hash)(const uint8_t *, size_t);
static bool (*volatile path_correct)(uint32_t, uint32_t, const uint8_t *, size_t, const uint8_t *, size_t,
                                     const uint8_t *, size_t);
static tumbeliko_sized (*volatile encode)(uint32_t, uint32_t, uint32_t, uint32_t, const uint8_t *, size_t,
                                          uint8_t *, size_t, uint8_t *, size_t, uint8_t *, size_t);
static tumbeliko_sized (*volatile rebuild)(uint32_t, uint32_t, uint32_t, uint32_t, uint64_t, const uint8_t *, size_t,
                                           const uint8_t *, size_t, uint8_t *, size_t);
static tumbeliko_sized (*volatile read_block)(uint32_t, uint32_t, uint32_t, uint32_t, const uint8_t *, size_t,
                                              uint8_t *, size_t);
static tumbeliko_parts (*volatile reader)(const uint8_t *, size_t);
static tumbeliko_written (*volatile writer)(uint32_t, const uint8_t *, size_t, const uint8_t *, size_t,
                                            const uint8_t *, size_t, uint8_t *, size_t);
static uint32_t (*volatile start)(uint32_t, uint32_t, uint32_t, uint32_t, uint32_t, uint8_t *, size_t);
static tumbeliko_stepped (*volatile step)(uint8_t *, size_t, uint32_t, const uint8_t *, size_t,
                                          uint8_t *, size_t, uint8_t *, size_t);
static tumbeliko_mailed (*volatile mailbox)(uint8_t *, size_t, const uint8_t *, size_t, uint8_t *, size_t,
                                            uint8_t *, size_t, uint8_t *, size_t, uint8_t *, size_t);
static tumbeliko_sized (*volatile send)(uint32_t, uint32_t, uint32_t, uint32_t, const uint8_t *, size_t, uint32_t,
                                        uint8_t *, size_t);

static tumbeliko_notice (*volatile notice_reader)(const uint8_t *, size_t);
static tumbeliko_written (*volatile notice_writer)(uint32_t, const uint8_t *, size_t, uint8_t *, size_t);
static uint32_t (*volatile notice_start)(uint32_t, uint32_t, uint32_t, uint32_t, uint8_t *, size_t);
static tumbeliko_stepped (*volatile notice_step)(uint8_t *, size_t, uint32_t, const uint8_t *, size_t,
                                                 uint8_t *, size_t, uint8_t *, size_t);
static tumbeliko_sized (*volatile notice_send)(uint32_t, uint32_t, uint32_t, const uint8_t *, size_t, uint32_t,
                                               uint8_t *, size_t);

static void all_real(void)
{
    notice_reader = tumbeliko_read_notice;
    notice_writer = tumbeliko_write_notice;
    notice_start = tumbeliko_notice_start;
    notice_step = tumbeliko_notice_step;
    notice_send = tumbeliko_notice_send;
    reader = tumbeliko_read_record;
    writer = tumbeliko_write_record;
    start = tumbeliko_start;
    step = tumbeliko_step;
    mailbox = tumbeliko_mailbox;
    send = tumbeliko_send;
    hash = tumbeliko_hash;
    path_correct = tumbeliko_path_correct;
    encode = tumbeliko_encode;
    rebuild = tumbeliko_rebuild;
    read_block = tumbeliko_read_block;
}

static void all_empty(void)
{
    notice_reader = no_notice_reader;
    notice_writer = no_notice_writer;
    notice_start = no_notice_start;
    notice_step = no_step;
    notice_send = no_notice_send;
    reader = no_reader;
    writer = no_writer;
    start = no_start;
    step = no_step;
    mailbox = no_mailbox;
    send = no_send;
    hash = no_hash;
    path_correct = no_path;
    encode = no_encode;
    rebuild = no_rebuild;
    read_block = no_read;
}

static void run_hash(void)
{
    kept = hash(data, len).number;
}

static void run_path(void)
{
    kept = path_correct(n, 1, root, 32, paths, 32 * nodes, area, fragment_len);
}

static void run_encode(void)
{
    kept = encode(n, t, 1, LONGEST, message, len, area, sizeof area, root, 32, paths, sizeof paths).length;
}

static void run_rebuild(void)
{
    kept = rebuild(n, t, 1, LONGEST, marked, lengths, sizeof lengths, area, sizeof area, block, sizeof block).length;
}

static void run_read(void)
{
    kept = read_block(n, t, 1, LONGEST, block, block_len, back, sizeof back).length;
}

static uint8_t record[TUMBELIKO_OUT_BYTES], out[TUMBELIKO_OUT_BYTES], state[60000], base[60000];
static size_t record_len;
static uint32_t from;

static size_t state_len(void)
{
    return TUMBELIKO_STATE_BYTES(n, TUMBELIKO_S_MAX(n, t, LONGEST));
}

static void run_reader(void)
{
    kept = reader(record, record_len).fragment_length;
}

static void run_writer(void)
{
    kept = writer(2, root, 32, paths, 32 * nodes, area, fragment_len, out, sizeof out).length;
}

static void run_start(void)
{
    kept = start(n, t, 1, LONGEST, 1, state, sizeof state);
}

static void run_send(void)
{
    kept = send(n, t, 1, LONGEST, message, LONGEST, n, out, sizeof out).length;
}

/* A step from the same state each time. */
static void run_step(void)
{
    memcpy(state, base, sizeof state);
    kept = step(state, sizeof state, from, record, record_len, out, sizeof out, back, sizeof back).delivery;
}

static uint8_t box[70000], answers[TUMBELIKO_ITEMS_MAX], echo[TUMBELIKO_OUT_BYTES], vote[TUMBELIKO_VOTE_BYTES];
static size_t box_len;

/* A mailbox from the same state each time. */
static void run_mailbox(void)
{
    memcpy(state, base, sizeof state);
    kept = mailbox(state, sizeof state, box, box_len, answers, sizeof answers, echo, sizeof echo, vote, sizeof vote,
                   back, sizeof back).delivery;
}

/* The call's own bytes: its return address and all below it. */
static size_t used(void (*run)(void))
{
    size_t empty, whole;

    all_empty();
    empty = painted(run);
    all_real();
    whole = painted(run);
    return whole >= empty ? whole - empty + sizeof(void *) : 0;
}

static size_t worst;
static int passed, failed;

/* A test that is no measurement: what is measured next must be the case meant. */
static void expect(const char *what, int fact)
{
    if (fact) {
        passed++;
    } else {
        failed++;
        printf("not so: %s (n %u, t %u)\n", what, n, t);
    }
}

static void line(const char *call, const char *input, void (*run)(void), size_t limit)
{
    size_t bytes = used(run);

    if (bytes > worst)
        worst = bytes;
    if (bytes > 0 && bytes <= limit)
        passed++;
    else
        failed++;
    printf("| %s | %s | %zu | %zu |%s\n", call, input, bytes, limit, bytes > limit ? " over" : "");
}

/* The record of that kind that belongs to a board's place. */
static void make_record(uint32_t kind, uint32_t board)
{
    record_len = tumbeliko_send(n, t, 1, LONGEST, message, LONGEST, board, record, sizeof record).length;
    if (kind == 3)
        record_len = tumbeliko_write_record(3, root, 32, root, 0, root, 0, record, sizeof record).length;
    record[0] = (uint8_t)kind;
    from = kind == 1 ? 1 : board;
}

/* Hands `base` a record of that kind from each of the boards. */
static void hear(uint32_t kind, uint32_t first, uint32_t last)
{
    for (uint32_t board = first; board <= last; board++) {
        make_record(kind, board);
        tumbeliko_step(base, sizeof base, from, record, record_len, out, sizeof out, back, sizeof back);
    }
}

static void step_line(const char *what, size_t limit)
{
    char input[60];

    snprintf(input, sizeof input, "%s, 16,384 B, n %u, t %u", what, n, t);
    line("step", input, run_step, limit);
}

static tree lie;

/* The same from the tree of a lying sender. */
static void hear_lie(uint32_t kind, uint32_t first, uint32_t last)
{
    for (uint32_t board = first; board <= last; board++) {
        record_len = tree_record(&lie, kind, board, record);
        from = board;
        if (board < last)
            tumbeliko_step(base, sizeof base, from, record, record_len, out, sizeof out, back, sizeof back);
    }
}

/* A block with other bytes than zeros after its message: it is read, encoded
 * afresh and found to have another root. The last vote needed is the step. */
static void void_line(void)
{
    const ref_table table = { n, t, 1, LONGEST };

    /* one byte less, where the longest message fills its block */
    grow_tree(&lie, table, PADDED_TREE, message, LONGEST - ((LONGEST + 4) % ref_k(table) == 0));
    tumbeliko_start(n, t, 1, LONGEST, 1, base, state_len());
    hear_lie(2, 1, n - 2 * t + 1);
    hear_lie(3, 1, n - t);
    run_step();
    expect("the vote delivers void", kept == TUMBELIKO_DELIVERY_VOID);
    step_line("delivering void", LIMIT_DELIVERING);
}

/* The two steps that deliver: the last echo needed, after the votes, and the
 * last vote needed, after the echoes. */
static void delivering_lines(void)
{
    tumbeliko_start(n, t, 1, LONGEST, 1, base, state_len());
    hear(2, 1, n - 2 * t - 1);
    hear(3, 1, n - t);
    make_record(2, n);
    run_step();
    expect("the echo delivers the message", kept == TUMBELIKO_DELIVERY_MESSAGE);
    step_line("delivering by an echo", LIMIT_DELIVERING);
    tumbeliko_start(n, t, 1, LONGEST, 1, base, state_len());
    hear(2, 1, n - 2 * t);
    hear(3, 1, n - t - 1);
    make_record(3, n - t);
    run_step();
    expect("the vote delivers the message", kept == TUMBELIKO_DELIVERY_MESSAGE);
    step_line("delivering by a vote", LIMIT_DELIVERING);
    if (n > 1)
        void_line();
}

/* ---- mailboxes */

/* Posts a record of that kind from each of the boards. */
static void post(uint32_t kind, uint32_t first, uint32_t last)
{
    for (uint32_t board = first; board <= last; board++) {
        make_record(kind, board);
        box_len = add_item(box, box_len, (uint8_t)from, record, record_len);
    }
}

/* The same from the tree of a lying sender. */
static void post_lie(uint32_t kind, uint32_t first, uint32_t last)
{
    for (uint32_t board = first; board <= last; board++) {
        record_len = tree_record(&lie, kind, board, record);
        box_len = add_item(box, box_len, (uint8_t)board, record, record_len);
    }
}

/* The mailbox as posted, at a fresh board. Each of its items must be taken
 * as meant, so that what is measured is the case meant. */
static void mailbox_line(const char *what, uint32_t answer, uint32_t delivery, size_t limit)
{
    size_t count = (size_t)box[0] << 8 | box[1];
    int meant = 1;
    char input[60];

    tumbeliko_start(n, t, 1, LONGEST, 1, base, state_len());
    run_mailbox();
    for (size_t i = 0; i < count; i++)
        meant = meant && answers[i] == answer;
    expect(what, meant && kept == delivery);
    snprintf(input, sizeof input, "%s, %zu items, 16,384 B, n %u, t %u", what, count, n, t);
    line("mailbox", input, run_mailbox, limit);
    box_len = empty_mailbox(box);
}

static void mailbox_lines(void)
{
    box_len = empty_mailbox(box);
    mailbox_line("nothing", 0, TUMBELIKO_DELIVERY_NONE, LIMIT_MAILBOX);
    while (box[1] < TUMBELIKO_ITEMS_MAX)
        box_len = add_item(box, box_len, 1, record, 38);
    mailbox_line("refused 20", TUMBELIKO_CUT_OFF, TUMBELIKO_DELIVERY_NONE, LIMIT_MAILBOX);
    post(3, 1, n);
    mailbox_line("votes", 0, TUMBELIKO_DELIVERY_NONE, LIMIT_MAILBOX);
    post(1, 1, 1);
    post(2, 1, n);
    mailbox_line("send and echoes", 0, TUMBELIKO_DELIVERY_NONE, LIMIT_MAILBOX);
    post(1, 1, 1);
    post(3, 1, n - t);
    post(2, 2 * t + 1, n);
    mailbox_line("delivering by an echo", 0, TUMBELIKO_DELIVERY_MESSAGE, LIMIT_MAILBOX_DELIVERING);
    post(1, 1, 1);
    post(2, 1, n);
    post(3, 1, n - t);
    mailbox_line("delivering by a vote", 0, TUMBELIKO_DELIVERY_MESSAGE, LIMIT_MAILBOX_DELIVERING);
    if (n > 1) {                                /* the tree is that of void_line */
        post_lie(2, 1, n - 2 * t);
        post_lie(3, 1, n - t);
        mailbox_line("delivering void", 0, TUMBELIKO_DELIVERY_VOID, LIMIT_MAILBOX_DELIVERING);
    }
}

/* ---- notices */

#define NOTICE TUMBELIKO_NOTICE_MAX

static void run_notice_reader(void)
{
    kept = notice_reader(record, record_len).length;
}

static void run_notice_writer(void)
{
    kept = notice_writer(TUMBELIKO_NOTICE_ECHO, message, NOTICE, out, sizeof out).length;
}

static void run_notice_start(void)
{
    kept = notice_start(n, t, 1, n, state, sizeof state);
}

static void run_notice_send(void)
{
    kept = notice_send(n, t, 1, message, NOTICE, n, out, sizeof out).length;
}

/* A step from the same state each time. */
static void run_notice_step(void)
{
    tumbeliko_stepped did;

    memcpy(state, base, TUMBELIKO_NOTICE_STATE_BYTES);
    did = notice_step(state, sizeof state, from, record, record_len, out, sizeof out, back, sizeof back);
    kept = did.number != 0 ? 100 + did.number : did.delivery != 0 ? 2 : did.record_length != 0;
}

/* Notices of 64 bytes, alike but for the last byte. */
static void make_notice(uint32_t kind, uint32_t board, uint8_t last)
{
    uint8_t notice[NOTICE];

    memcpy(notice, message, NOTICE);
    notice[NOTICE - 1] = last;
    record_len = tumbeliko_write_notice(kind, notice, NOTICE, record, sizeof record).length;
    from = kind == TUMBELIKO_NOTICE_SEND ? 1 : board;
}

static void hear_notice(uint32_t kind, uint32_t first, uint32_t last, bool apart)
{
    for (uint32_t board = first; board <= last; board++) {
        make_notice(kind, board, apart ? (uint8_t)board : 0);
        tumbeliko_notice_step(base, sizeof base, from, record, record_len, out, sizeof out, back, sizeof back);
    }
}

/* `outcome`: 0 nothing, 1 a record put out, 2 a delivery, 100 + a number refused. */
static void notice_line(const char *what, uint32_t outcome)
{
    char input[60];

    run_notice_step();
    expect(what, kept == outcome);
    snprintf(input, sizeof input, "%s, 64 B, n %u, t %u", what, n, t);
    line("notice step", input, run_notice_step, LIMIT_NOTICE);
}

/* A step has the most to compare in a state full of notices that differ in their last byte. */
static void notice_lines(void)
{
    char input[60];

    make_notice(TUMBELIKO_NOTICE_ECHO, n, 0);
    line("read notice", "64 B", run_notice_reader, LIMIT_NOTICE);
    line("write notice", "64 B", run_notice_writer, LIMIT_NOTICE);
    snprintf(input, sizeof input, "n %u, t %u", n, t);
    line("notice start", input, run_notice_start, LIMIT_NOTICE);
    snprintf(input, sizeof input, "64 B, n %u, t %u", n, t);
    line("notice send", input, run_notice_send, LIMIT_NOTICE);
    tumbeliko_notice_start(n, t, 1, n, base, sizeof base);
    make_notice(TUMBELIKO_NOTICE_SEND, 1, 0);
    notice_line("send", 1);
    record_len--;
    notice_line("refused 20", 100 + TUMBELIKO_CUT_OFF);
    if (n > 1) {
        hear_notice(TUMBELIKO_NOTICE_ECHO, 1, n - 1, true);
        hear_notice(TUMBELIKO_NOTICE_VOTE, 1, n - 1, true);
        make_notice(TUMBELIKO_NOTICE_ECHO, n, (uint8_t)n);
        notice_line("echo, all differ", 0);
        make_notice(TUMBELIKO_NOTICE_VOTE, n - 1, 0);
        notice_line("refused 9", 100 + TUMBELIKO_SECOND);
    }
    tumbeliko_notice_start(n, t, 1, n, base, sizeof base);
    hear_notice(TUMBELIKO_NOTICE_ECHO, 1, n - t - 1, false);
    make_notice(TUMBELIKO_NOTICE_ECHO, n, 0);
    notice_line("echo, voting", 1);
    tumbeliko_notice_start(n, t, 1, n, base, sizeof base);
    hear_notice(TUMBELIKO_NOTICE_ECHO, 1, n, false);
    hear_notice(TUMBELIKO_NOTICE_VOTE, 1, n - t - 1, false);
    make_notice(TUMBELIKO_NOTICE_VOTE, n, 0);
    notice_line("vote, delivering", 2);
    hear_notice(TUMBELIKO_NOTICE_VOTE, n, n, false);
    notice_line("refused 8", 100 + TUMBELIKO_LATE);
}

static void board_lines(void)
{
    char input[60];

    make_record(2, n);
    snprintf(input, sizeof input, "echo, %zu B", fragment_len);
    line("read record", input, run_reader, LIMIT);
    line("write record", input, run_writer, LIMIT);
    snprintf(input, sizeof input, "n %u, t %u", n, t);
    line("start", input, run_start, LIMIT);
    snprintf(input, sizeof input, "16,384 B, n %u, t %u", n, t);
    line("send", input, run_send, LIMIT_SEND);
    tumbeliko_start(n, t, 1, LONGEST, 1, base, state_len());
    make_record(1, 1);
    step_line("send", LIMIT);
    make_record(2, n);
    step_line("echo", LIMIT);
    make_record(3, n);
    step_line("vote", LIMIT);
    record_len = 38;
    step_line("refused 20", LIMIT);
    delivering_lines();
    mailbox_lines();
    notice_lines();
}

int main(void)
{
    static const size_t lengths_to_hash[] = { 0, 55, 56, 64, 65, 1000, 65536 };
    static const uint32_t tables[][2] = { { 1, 0 }, { 4, 1 }, { 7, 2 }, { 64, 0 }, { 64, 21 } };
    char input[60];

    stack = mmap(NULL, STACK, PROT_READ | PROT_WRITE, MAP_PRIVATE | MAP_ANONYMOUS, -1, 0);
    if (stack == MAP_FAILED) {
        perror("stack: cannot make a stack");
        return 1;
    }
    for (size_t i = 0; i < sizeof message; i++)
        message[i] = (uint8_t)(i * 11 + i / 253);
    printf("| call | input | stack, bytes | limit |\n|---|---|---:|---:|\n");
    for (int i = 0; i < 7; i++) {
        len = lengths_to_hash[i];
        snprintf(input, sizeof input, "%zu B", len);
        line("hash", input, run_hash, LIMIT);
    }
    for (int i = 0; i < 5; i++) {
        n = tables[i][0];
        t = tables[i][1];
        len = LONGEST;
        snprintf(input, sizeof input, "16,384 B, n %u, t %u", n, t);
        line("encode", input, run_encode, LIMIT);
        run_encode();
        fragment_len = kept;
        for (size_t b = 0; b < n; b++) {
            lengths[2 * b] = (uint8_t)(fragment_len >> 8);
            lengths[2 * b + 1] = (uint8_t)fragment_len;
        }
        for (nodes = 0; (uint32_t)1 << nodes < n; nodes++)
            continue;
        run_path();
        expect("the path of board 1 is correct", kept == 1);
        snprintf(input, sizeof input, "%zu B, n %u", fragment_len, n);
        line("path check", input, run_path, LIMIT);
        marked = ((uint64_t)1 << (n - 2 * t - 1) << 1) - 1;
        snprintf(input, sizeof input, "16,384 B, n %u, t %u, from %u", n, t, n - 2 * t);
        line("rebuild", input, run_rebuild, LIMIT);
        marked = ((uint64_t)1 << (n - 1) << 1) - 1;
        snprintf(input, sizeof input, "16,384 B, n %u, t %u, from %u", n, t, n);
        if (t > 0)
            line("rebuild", input, run_rebuild, LIMIT);
        run_rebuild();
        block_len = kept;
        snprintf(input, sizeof input, "16,384 B, n %u, t %u", n, t);
        line("read block", input, run_read, LIMIT);
        board_lines();
    }
    printf("\nThe most: %zu bytes.\n", worst);
    printf("%d passed, %d failed\n", passed, failed);
    return failed != 0;
}
