/*
 * The boards that break the rules. They put out what they like; only that a
 * record comes from the board named beside it is beyond them.
 */

#include <string.h>
#include "line.h"

/* k is above n / 3, so n * s_max stays below this for every table. */
#define AREA    (3 * (LONGEST + 4) + BOARDS)

#define NODE    TUMBELIKO_NODE_BYTES

static uint8_t area[AREA], paths[TUMBELIKO_PATHS_BYTES(BOARDS)], root[TUMBELIKO_ROOT_BYTES];
static uint32_t nodes[BOARDS];          /* of each path, as far as it has grown */

/* ---- a sender that lies */

static void hash_two(const uint8_t *left, const uint8_t *right, uint8_t *to)
{
    uint8_t both[1 + 2 * NODE] = { 1 };

    memcpy(both + 1, left, NODE);
    memcpy(both + 1 + NODE, right, NODE);
    memcpy(to, tumbeliko_hash(both, sizeof both).bytes, NODE);
}

static void hash_leaf(const uint8_t *fragment, size_t len, uint8_t *to)
{
    static uint8_t leaf[1 + LONGEST + 4];

    memcpy(leaf + 1, fragment, len);
    memcpy(to, tumbeliko_hash(leaf, 1 + len).bytes, NODE);
}

static void grow_paths(uint32_t first, uint32_t count, const uint8_t *node)
{
    for (uint32_t i = first; i < first + count; i++)
        memcpy(paths + i * TUMBELIKO_PATH_BYTES + NODE * nodes[i]++, node, NODE);
}

/* The tree of RFC 6962 over any fragments: tumbeliko_encode makes it over those of a message alone. */
static void grow_tree(uint32_t first, uint32_t count, size_t s_max, size_t len, uint8_t *top)
{
    uint8_t left[NODE], right[NODE];
    uint32_t half = 1;

    if (count == 1) {
        nodes[first] = 0;
        hash_leaf(area + first * s_max, len, top);
        return;
    }
    while (2 * half < count)
        half *= 2;
    grow_tree(first, half, s_max, len, left);
    grow_tree(first + half, count - half, s_max, len, right);
    grow_paths(first, half, right);
    grow_paths(first + half, count - half, left);
    hash_two(left, right, top);
}

/* Fragments of one length that are those of no block, each with a correct path to one root: all boards echo them. */
static void send_garbled(void)
{
    static uint8_t out[TUMBELIKO_OUT_BYTES];
    size_t s_max = TUMBELIKO_S_MAX(play.n, play.t, LONGEST);
    size_t len = tumbeliko_encode(play.n, play.t, SENDER, LONGEST, play.file, play.file_len, area, sizeof area,
                                  root, sizeof root, paths, sizeof paths).length;
    uint32_t first = random_below(play.n);

    for (uint32_t i = 0; i < play.t; i++)
        area[((first + i) % play.n) * s_max + len / 2] ^= 0x5a;
    grow_tree(0, play.n, s_max, len, root);
    for (uint32_t i = 0; i < play.n; i++) {
        uint32_t to = 1 + (first + i) % play.n;
        size_t sent = tumbeliko_write_record(TUMBELIKO_SEND, root, sizeof root,
                                             paths + (to - 1) * TUMBELIKO_PATH_BYTES, NODE * nodes[to - 1],
                                             area + (to - 1) * s_max, len, out, sizeof out).length;

        put_out_one(SENDER, to, kept(out, sent), sent, false, i * put_out_gap());
    }
}

/* The file or notice to some boards, and to the others the same with one byte changed. */
static void send_split(void)
{
    static uint8_t out[TUMBELIKO_OUT_BYTES], other[LONGEST];
    size_t other_len = play.file_len > 0 ? play.file_len : 1;
    uint32_t first = random_below(play.n), part = play.n / 2 + random_below(play.n - play.n / 2);

    memcpy(other, play.file, play.file_len);
    other[other_len - 1] ^= 1;
    for (uint32_t i = 0; i < play.n; i++) {
        uint32_t to = 1 + (first + i) % play.n;
        size_t sent = send_record(i < part ? play.file : other, i < part ? play.file_len : other_len, to,
                                  out, sizeof out).length;

        put_out_one(SENDER, to, kept(out, sent), sent, false, i * put_out_gap());
    }
}

/* What a sender that does not run the step puts out. `lies` is one of the two, by the seed; a notice has no fragments. */
void send_lies(void)
{
    behaviour how = play.behaves[SENDER - 1];

    if (how == LIES)
        how = random_below(2) && !play.notice ? GARBLES : SPLITS;
    if (how == GARBLES)
        send_garbled();
    if (how == SPLITS)
        send_split();
}

/* ---- any board that lies */

static unsigned told[BOARDS];           /* lies that a board has told */
static letter own_send[BOARDS];         /* the send that it got */

/* A vote for what the record names, a root or a notice, or for something of its own making. */
static size_t untimely_vote(const letter *one, bool own_making, uint8_t *record)
{
    static const uint8_t made_up[TUMBELIKO_ROOT_BYTES] = { 0xee };

    if (play.notice)
        return tumbeliko_write_notice(TUMBELIKO_NOTICE_VOTE, own_making ? made_up : one->bytes + TUMBELIKO_RECORD_NOTICE,
                                      own_making ? sizeof made_up : one->len - TUMBELIKO_RECORD_NOTICE,
                                      record, TUMBELIKO_OUT_BYTES).length;
    return tumbeliko_write_record(TUMBELIKO_VOTE, own_making ? made_up : one->bytes + TUMBELIKO_RECORD_ROOT,
                                  TUMBELIKO_ROOT_BYTES, root, 0, root, 0, record, TUMBELIKO_OUT_BYTES).length;
}

/* Something untrue, made from a record that came in. Answers its length. */
static size_t twisted(const letter *one, uint8_t *record)
{
    uint32_t lie = random_below(6);

    memcpy(record, one->bytes, one->len);
    switch (lie) {
    case 0:
    case 1:
        return untimely_vote(one, lie == 0, record);
    case 2:                                             /* what another board said, in its own name */
        if (sort_of(record, one->len) == TUMBELIKO_SEND)
            record[0] = kind_of(TUMBELIKO_ECHO);
        return one->len;
    case 3:                                             /* the same, damaged: the root, or the notice's last byte */
        record[play.notice ? one->len - 1 : TUMBELIKO_RECORD_ROOT] ^= 1;
        return one->len;
    case 4:                                             /* as if it were the sender */
        record[0] = kind_of(TUMBELIKO_SEND);
        return one->len;
    default:                                            /* cut short */
        return one->len - 1;
    }
}

/* What its send asks for: the worst lie is the truth, told to some boards only. */
static size_t true_echo(const letter *sent, uint8_t *record)
{
    memcpy(record, sent->bytes, sent->len);
    record[0] = kind_of(TUMBELIKO_ECHO);
    return sent->len;
}

/* A record has come to a board that runs no step; if it lies, it tells one board something. */
void hears_and_lies(const letter *one)
{
    static uint8_t record[TUMBELIKO_OUT_BYTES];
    uint32_t liar = one->to, to = 1 + random_below(play.n);
    letter *sent = &own_send[liar - 1];
    bool truth = random_below(2);
    size_t len;

    if (play.behaves[liar - 1] < LIES || one->from == liar || !one->genuine)
        return;
    if (sort_of(one->bytes, one->len) == TUMBELIKO_SEND)
        *sent = *one;
    if (told[liar - 1] == 2 * play.n || to == liar)
        return;
    told[liar - 1]++;
    len = truth && sent->len > 0 ? true_echo(sent, record) : twisted(one, record);
    put_out_one(liar, to, kept(record, len), len, false, now + put_out_gap());
}
