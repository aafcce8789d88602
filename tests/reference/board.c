/* Records, the sender, and a board's state, step and mailbox. */

#include <string.h>
#include "fields.h"
#include "reference.h"

enum { SEND = 1, ECHO = 2, VOTE = 3 };
enum { NONE = 0, MESSAGE = 1, VOID = 2 };

/* ---- records */

static bool is_kind(uint32_t kind)
{
    return kind == SEND || kind == ECHO || kind == VOTE;
}

/* May a record of this kind have a path of so many nodes, or a fragment of
 * so many bytes? */
static bool path_fits(uint32_t kind, size_t nodes)
{
    return kind == VOTE ? nodes == 0 : nodes <= 6;
}

static bool fragment_fits(uint32_t kind, size_t fragment_len)
{
    return kind == VOTE ? fragment_len == 0 : fragment_len >= 1 && fragment_len <= REF_FRAGMENT;
}

/* Field by field: the first fault, or 0 and what the record has. */
static uint32_t read_fields(reading *in, ref_parts *parts)
{
    uint32_t root;

    if (!take_number(in, 1, &parts->kind))
        return CUT_OFF;
    if (!is_kind(parts->kind))
        return NO_KIND;
    if (!take_number(in, 2, &root))
        return CUT_OFF;
    if (root != 32)
        return ROOT_COUNT;
    if (!take(in, root) || !take_number(in, 2, &parts->nodes))
        return CUT_OFF;
    if (!path_fits(parts->kind, parts->nodes))
        return PATH_COUNT;
    if (!take(in, 32 * (size_t)parts->nodes) || !take_number(in, 2, &parts->fragment_length))
        return CUT_OFF;
    if (!fragment_fits(parts->kind, parts->fragment_length))
        return FRAGMENT_COUNT;
    if (!take(in, parts->fragment_length))
        return CUT_OFF;
    return at_the_end(in) ? 0 : LEFT_OVER;
}

ref_parts ref_read_record(const uint8_t *record, size_t record_len)
{
    ref_parts refused = { 0, 0, 0, 0, 0 }, parts = refused;
    reading in = { record, record, record, record_len };

    refused.number = read_fields(&in, &parts);
    if (refused.number == 0)
        return parts;
    refused.offset = offset_of(&in);
    return refused;
}

static uint8_t *put_section(uint8_t *to, size_t count, const uint8_t *bytes, size_t len)
{
    to[0] = (uint8_t)(count >> 8);
    to[1] = (uint8_t)count;
    if (len > 0)
        memcpy(to + 2, bytes, len);
    return to + 2 + len;
}

static ref_written not_written(uint32_t number, size_t offset)
{
    ref_written answer = { number, (uint32_t)offset, 0 };

    return answer;
}

ref_written ref_write_record(uint32_t kind, const uint8_t *root, size_t root_len, const uint8_t *path, size_t path_len,
                             const uint8_t *fragment, size_t fragment_len, uint8_t *out, size_t out_len)
{
    ref_written answer = { 0, 0, 0 };
    uint8_t *to = out;

    if (out_len < REF_OUT)
        return not_written(2, 0);
    if (!is_kind(kind))
        return not_written(NO_KIND, 0);
    if (root_len != 32)
        return not_written(ROOT_COUNT, 1);
    if (path_len % 32 != 0 || !path_fits(kind, path_len / 32))
        return not_written(PATH_COUNT, 1 + 2 + 32);
    if (!fragment_fits(kind, fragment_len))
        return not_written(FRAGMENT_COUNT, 1 + 2 + 32 + 2 + path_len);
    *to++ = (uint8_t)kind;
    to = put_section(to, 32, root, 32);
    to = put_section(to, path_len / 32, path, path_len);
    to = put_section(to, fragment_len, fragment, fragment_len);
    answer.length = (uint32_t)(to - out);
    return answer;
}

/* ---- the sender */

static uint8_t fresh_area[4 * REF_FRAGMENT], fresh_root[32], fresh_paths[REF_BOARDS * 192];

/* Encodes afresh into the three buffers above; n * s_max stays below
 * 3 * 16,388 + 64 since k is above n / 3. Answers the fragments' length. */
static uint32_t encode_afresh(ref_table table, const uint8_t *message, size_t message_len)
{
    return ref_encode(table.n, table.t, table.sender, table.longest, message, message_len,
                      fresh_area, sizeof fresh_area, fresh_root, 32, fresh_paths, sizeof fresh_paths).length;
}

ref_sized ref_send(uint32_t n, uint32_t t, uint32_t sender, uint32_t longest,
                   const uint8_t *message, size_t message_len, uint32_t to, uint8_t *out, size_t out_len)
{
    ref_table table = { n, t, sender, longest };
    ref_sized answer = { 0, 0 };
    size_t nodes[REF_BOARDS], s_max;
    uint32_t length;

    if (!ref_table_within_limits(table))
        answer.number = 1;
    else if (out_len < REF_OUT)
        answer.number = 2;
    else if (to < 1 || to > n)
        answer.number = 4;
    else if (message_len > longest)
        answer.number = 13;
    if (answer.number != 0)
        return answer;
    s_max = ref_s_max(table);
    length = encode_afresh(table, message, message_len);
    ref_tree(fresh_area, s_max, length, n, fresh_root, fresh_paths, nodes);     /* for the counts of nodes */
    answer.length = ref_write_record(SEND, fresh_root, 32, fresh_paths + (to - 1) * 192, 32 * nodes[to - 1],
                                     fresh_area + (to - 1) * s_max, length, out, out_len).length;
    return answer;
}

/* ---- state */

static uint32_t ones(uint64_t set)
{
    uint32_t count = 0;

    for (; set != 0; set >>= 1)
        count += (uint32_t)(set & 1);
    return count;
}

/* the boards of `set` whose root is `root` */
static uint64_t naming(uint64_t set, const uint8_t roots[REF_BOARDS][32], const uint8_t *root)
{
    uint64_t same = 0;

    for (int i = 0; i < REF_BOARDS; i++)
        if (set >> i & 1 && memcmp(roots[i], root, 32) == 0)
            same |= (uint64_t)1 << i;
    return same;
}

/* some root that `need` boards of the set name, or NULL */
static const uint8_t *quorum(uint64_t set, const uint8_t roots[REF_BOARDS][32], uint32_t need)
{
    for (int i = 0; i < REF_BOARDS; i++)
        if (set >> i & 1 && ones(naming(set, roots, roots[i])) >= need)
            return roots[i];
    return NULL;
}

static const uint8_t *due_vote(const ref_board *b)
{
    const uint8_t *root = quorum(b->echoes, b->echo_root, b->table.n - b->table.t);

    return root != NULL ? root : quorum(b->votes, b->vote_root, b->table.t + 1);
}

static const uint8_t *output_root(const ref_board *b)
{
    return quorum(b->votes, b->vote_root, b->table.n - b->table.t);
}

static uint64_t usable_for(const ref_board *b, const uint8_t *root)
{
    return naming(b->usable, b->echo_root, root);
}

bool ref_sound(const ref_board *b)
{
    uint64_t above;

    if (!ref_table_within_limits(b->table) || b->own < 1 || b->own > b->table.n)
        return false;
    above = b->table.n == 64 ? 0 : ~(uint64_t)0 << b->table.n;
    if ((b->echoes | b->usable | b->votes) & above || b->usable & ~b->echoes)
        return false;
    if ((b->output && !b->voted) || (b->done && !b->output))
        return false;
    for (int i = 0; i < REF_BOARDS; i++) {
        bool heard = b->echoes >> i & 1;

        if (heard ? b->kept[i] < 1 || b->kept[i] > ref_s_max(b->table) : b->kept[i] != 0)
            return false;
    }
    if (!b->voted)
        return due_vote(b) == NULL;
    if (!b->output)
        return output_root(b) == NULL;
    if (!b->done) {
        const uint8_t *root = output_root(b);

        return root != NULL && ones(usable_for(b, root)) < ref_k(b->table);
    }
    return true;
}

void ref_decode(const uint8_t *state, size_t state_len, ref_board *b)
{
    uint64_t *sets[3] = { &b->echoes, &b->usable, &b->votes };
    size_t s_max;

    b->table.n = state[0];
    b->table.t = state[1];
    b->table.sender = state[2];
    b->own = state[3];
    b->table.longest = (uint32_t)state[4] << 8 | state[5];
    b->acquired = state[6] != 0;
    b->voted = state[7] != 0;
    b->output = state[8] != 0;
    b->done = state[9] != 0;
    for (int s = 0; s < 3; s++) {
        *sets[s] = 0;
        for (int j = 0; j < 8; j++)
            *sets[s] = *sets[s] << 8 | state[10 + 8 * s + j];
    }
    for (int i = 0; i < REF_BOARDS; i++) {
        b->kept[i] = (uint32_t)state[40 + 2 * i] << 8 | state[41 + 2 * i];
        memcpy(b->echo_root[i], state + 256 + 32 * i, 32);
        memcpy(b->vote_root[i], state + 2304 + 32 * i, 32);
    }
    if (!ref_table_within_limits(b->table))
        return;
    s_max = ref_s_max(b->table);
    for (size_t i = 0; i < b->table.n; i++)
        if (REF_STATE_HEAD + (i + 1) * s_max <= state_len)
            memcpy(b->fragment[i], state + REF_STATE_HEAD + i * s_max, s_max);
        else
            memset(b->fragment[i], 0, s_max);
}

static size_t state_bytes(ref_table table)
{
    return REF_STATE_HEAD + (size_t)table.n * ref_s_max(table);
}

uint32_t ref_start(uint32_t n, uint32_t t, uint32_t sender, uint32_t longest, uint32_t own,
                   ref_board *b, size_t state_len)
{
    ref_table table = { n, t, sender, longest };

    if (!ref_table_within_limits(table) || own < 1 || own > n)
        return 1;
    if (state_len < state_bytes(table))
        return 2;
    memset(b, 0, sizeof *b);
    b->table = table;
    b->own = own;
    return 0;
}

/* ---- the step */

/* The refusal that what is lent to a board gets, whatever is handed over, or 0. */
static uint32_t unfit(const ref_board *b, size_t state_len, size_t out_len, size_t delivery_len)
{
    if (state_len < REF_STATE_HEAD)
        return 2;
    if (!ref_sound(b))
        return 3;
    if (state_len < state_bytes(b->table) || out_len < REF_OUT || delivery_len < b->table.longest)
        return 2;
    return 0;
}

/* The refusal that a record gets from a board, or 0. `parts` is what the
 * reader says of it. */
static uint32_t refusal(const ref_board *b, size_t state_len, uint32_t from, ref_parts parts,
                        size_t out_len, size_t delivery_len)
{
    uint32_t lent = unfit(b, state_len, out_len, delivery_len);
    uint64_t bit;

    if (lent != 0)
        return lent;
    if (from < 1 || from > b->table.n)
        return 4;
    if (parts.number != 0)
        return parts.number;
    if (parts.kind == SEND && from != b->table.sender)
        return 6;
    if (parts.fragment_length > ref_s_max(b->table))
        return 7;
    if (b->done || (parts.kind == SEND && b->output))
        return 8;
    bit = (uint64_t)1 << (from - 1);
    if ((parts.kind == SEND && b->acquired) || (parts.kind == ECHO && b->echoes & bit)
        || (parts.kind == VOTE && b->votes & bit))
        return 9;
    return 0;
}

/* The output stage's work, once k usable echoes name the root. Answers
 * void, or message and its length. */
static uint32_t deliver(const ref_board *b, const uint8_t *root, uint64_t usable, uint8_t *delivery, uint32_t *length)
{
    static uint8_t area[4 * REF_FRAGMENT], block[REF_FRAGMENT + REF_BOARDS], message[REF_LONGEST];
    uint8_t lengths[2 * REF_BOARDS];
    ref_table table = b->table;
    uint32_t s_max = ref_s_max(table), k = ref_k(table), taken = 0;
    uint64_t lowest = 0;
    ref_sized rebuilt, read;

    for (uint32_t i = 0; i < table.n; i++) {
        lengths[2 * i] = (uint8_t)(b->kept[i] >> 8);
        lengths[2 * i + 1] = (uint8_t)b->kept[i];
        memcpy(area + i * s_max, b->fragment[i], s_max);
        if (usable >> i & 1 && taken < k) {
            lowest |= (uint64_t)1 << i;
            taken++;
        }
    }
    rebuilt = ref_rebuild(table.n, table.t, table.sender, table.longest, lowest,
                          lengths, sizeof lengths, area, sizeof area, block, sizeof block);
    if (rebuilt.number != 0)
        return VOID;
    read = ref_read_block(table.n, table.t, table.sender, table.longest,
                          block, rebuilt.length, message, sizeof message);
    if (read.number != 0)
        return VOID;
    encode_afresh(table, message, read.length);
    if (memcmp(fresh_root, root, 32) != 0)
        return VOID;
    if (read.length > 0)
        memcpy(delivery, message, read.length);
    *length = read.length;
    return MESSAGE;
}

ref_stepped ref_step(ref_board *b, size_t state_len, uint32_t from, const uint8_t *record, size_t record_len,
                     uint8_t *out, size_t out_len, uint8_t *delivery, size_t delivery_len)
{
    ref_stepped answer = { 0, 0, 0, 0, 0 };
    ref_parts parts = ref_read_record(record, record_len);
    const uint8_t *root, *path, *fragment, *due;
    uint64_t bit;

    answer.number = refusal(b, state_len, from, parts, out_len, delivery_len);
    if (ref_form_fault(answer.number))
        answer.offset = parts.offset;
    if (answer.number != 0)
        return answer;
    root = record + 3;
    path = record + 37;
    fragment = record + 39 + 32 * parts.nodes;
    bit = (uint64_t)1 << (from - 1);
    if (parts.kind == SEND) {
        b->acquired = true;
        if (ref_path_correct(b->table.n, b->own, root, 32, path, 32 * (size_t)parts.nodes,
                             fragment, parts.fragment_length))
            answer.record_length = ref_write_record(ECHO, root, 32, path, 32 * (size_t)parts.nodes,
                                                    fragment, parts.fragment_length, out, out_len).length;
    } else if (parts.kind == ECHO) {
        b->echoes |= bit;
        b->kept[from - 1] = parts.fragment_length;
        memcpy(b->echo_root[from - 1], root, 32);
        memcpy(b->fragment[from - 1], fragment, parts.fragment_length);
        if (ref_path_correct(b->table.n, from, root, 32, path, 32 * (size_t)parts.nodes,
                             fragment, parts.fragment_length))
            b->usable |= bit;
    } else {
        b->votes |= bit;
        memcpy(b->vote_root[from - 1], root, 32);
    }
    due = due_vote(b);
    if (!b->voted && due != NULL) {
        b->voted = true;
        answer.record_length = ref_write_record(VOTE, due, 32, NULL, 0, NULL, 0, out, out_len).length;
    }
    due = output_root(b);
    if (b->voted && due != NULL)
        b->output = true;
    if (b->output && due != NULL) {
        uint64_t usable = usable_for(b, due);

        if (ones(usable) >= ref_k(b->table)) {
            answer.delivery = deliver(b, due, usable, delivery, &answer.message_length);
            b->done = true;
        }
    }
    return answer;
}

/* ---- the mailbox */

/* Takes a two-byte number from the front of what is left. */
static bool two_bytes(const uint8_t **at, size_t *left, size_t *number)
{
    if (*left < 2)
        return false;
    *number = (size_t)(*at)[0] * 256 + (*at)[1];
    *at += 2;
    *left -= 2;
    return true;
}

/* Takes an item: the sending board, a length and the record. */
static bool take_item(const uint8_t **at, size_t *left, uint32_t *from, const uint8_t **record, size_t *record_len)
{
    if (*left < 1)
        return false;
    *from = **at;
    *at += 1;
    *left -= 1;
    if (!two_bytes(at, left, record_len) || *left < *record_len)
        return false;
    *record = *at;
    *at += *record_len;
    *left -= *record_len;
    return true;
}

/* Is the mailbox a count and so many items, and nothing else? */
static bool framed(const uint8_t *mailbox, size_t mailbox_len, size_t *count)
{
    const uint8_t *at = mailbox, *record;
    size_t left = mailbox_len, record_len;
    uint32_t from;

    if (!two_bytes(&at, &left, count) || *count > REF_ITEMS)
        return false;
    for (size_t i = 0; i < *count; i++)
        if (!take_item(&at, &left, &from, &record, &record_len))
            return false;
    return left == 0;
}

ref_mailed ref_mailbox(ref_board *b, size_t state_len, const uint8_t *mailbox, size_t mailbox_len,
                       uint8_t *answers, size_t answers_len, uint8_t *echo, size_t echo_len,
                       uint8_t *vote, size_t vote_len, uint8_t *delivery, size_t delivery_len)
{
    static uint8_t out[REF_OUT];
    ref_mailed answer = { 0, 0, 0, 0, 0 };
    const uint8_t *at, *record;
    size_t left, count, record_len;
    uint32_t from;

    answer.number = unfit(b, state_len, echo_len, delivery_len);
    if (answer.number == 0 && vote_len < REF_VOTE)
        answer.number = 2;
    if (answer.number == 0 && (!framed(mailbox, mailbox_len, &count) || answers_len < count))
        answer.number = 16;
    if (answer.number != 0)
        return answer;
    at = mailbox + 2;
    left = mailbox_len - 2;
    for (size_t i = 0; i < count && take_item(&at, &left, &from, &record, &record_len); i++) {
        ref_stepped did = ref_step(b, state_len, from, record, record_len, out, sizeof out, delivery, delivery_len);

        answers[i] = (uint8_t)did.number;
        if (did.record_length > 0 && out[0] == ECHO)
            memcpy(echo, out, answer.echo_length = did.record_length);
        if (did.record_length > 0 && out[0] == VOTE)
            memcpy(vote, out, answer.vote_length = did.record_length);
        if (did.delivery != NONE) {
            answer.delivery = did.delivery;
            answer.message_length = did.message_length;
        }
    }
    return answer;
}
