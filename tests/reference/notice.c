/* Notices: records, the sender, and a board's state and step. */

#include <string.h>
#include "fields.h"
#include "reference.h"

enum { SEND = 4, ECHO = 5, VOTE = 6 };
enum { NONE = 0, MESSAGE = 1 };

/* ---- records */

static bool is_kind(uint32_t kind)
{
    return kind == SEND || kind == ECHO || kind == VOTE;
}

/* Field by field: the first fault, or 0 and what the record has. */
static uint32_t read_fields(reading *in, ref_notice *read)
{
    if (!take_number(in, 1, &read->kind))
        return CUT_OFF;
    if (!is_kind(read->kind))
        return NO_KIND;
    if (!take_number(in, 2, &read->length))
        return CUT_OFF;
    if (read->length > REF_NOTICE)
        return NOTICE_COUNT;
    if (!take(in, read->length))
        return CUT_OFF;
    return at_the_end(in) ? 0 : LEFT_OVER;
}

ref_notice ref_read_notice(const uint8_t *record, size_t record_len)
{
    ref_notice refused = { 0, 0, 0, 0 }, read = refused;
    reading in = { record, record, record, record_len };

    refused.number = read_fields(&in, &read);
    if (refused.number == 0)
        return read;
    refused.offset = offset_of(&in);
    return refused;
}

/* Answers the length. */
static uint32_t put_record(uint32_t kind, const uint8_t *notice, size_t notice_len, uint8_t *out)
{
    *out++ = (uint8_t)kind;
    *out++ = 0;                         /* a count of at most 64 has no high byte */
    *out++ = (uint8_t)notice_len;
    for (size_t i = 0; i < notice_len; i++)
        *out++ = notice[i];
    return (uint32_t)notice_len + 3;
}

ref_written ref_write_notice(uint32_t kind, const uint8_t *notice, size_t notice_len, uint8_t *out, size_t out_len)
{
    ref_written answer = { 0, 0, 0 };

    if (out_len < REF_NOTICE_OUT) {
        answer.number = 2;
    } else if (!is_kind(kind)) {
        answer.number = NO_KIND;
    } else if (notice_len > REF_NOTICE) {
        answer.number = NOTICE_COUNT;
        answer.offset = 1;
    } else {
        answer.length = put_record(kind, notice, notice_len, out);
    }
    return answer;
}

/* ---- the sender */

static bool is_board(ref_table table, uint32_t board)
{
    return board >= 1 && board <= table.n;
}

ref_sized ref_notice_send(uint32_t n, uint32_t t, uint32_t sender, const uint8_t *notice, size_t notice_len,
                          uint32_t to, uint8_t *out, size_t out_len)
{
    ref_table table = { n, t, sender, 0 };
    ref_sized answer = { 0, 0 };

    if (!ref_table_within_limits(table))
        answer.number = 1;
    else if (out_len < REF_NOTICE_OUT)
        answer.number = 2;
    else if (!is_board(table, to))
        answer.number = 4;
    else if (notice_len > REF_NOTICE)
        answer.number = 13;
    else
        answer.length = put_record(SEND, notice, notice_len, out);
    return answer;
}

/* ---- state */

static bool same(const ref_word *a, const ref_word *b)
{
    return a->length == b->length && memcmp(a->bytes, b->bytes, a->length) == 0;
}

/* How many boards were heard with this notice? */
static uint32_t heard_with(const ref_word words[REF_BOARDS], const ref_word *notice)
{
    uint32_t count = 0;

    for (int i = 0; i < REF_BOARDS; i++)
        count += words[i].heard && same(&words[i], notice);
    return count;
}

/* Some notice that at least `need` boards were heard with, or NULL. Words
 * may be compared only where no length is above 64. */
static const ref_word *backed_by(const ref_word words[REF_BOARDS], uint32_t need)
{
    for (int i = 0; i < REF_BOARDS; i++)
        if (words[i].heard && heard_with(words, &words[i]) >= need)
            return &words[i];
    return NULL;
}

static const ref_word *to_vote_for(const ref_notice_board *b)
{
    const ref_word *echoed = backed_by(b->echo, b->table.n - b->table.t);

    return echoed != NULL ? echoed : backed_by(b->vote, b->table.t + 1);
}

static const ref_word *to_deliver(const ref_notice_board *b)
{
    return backed_by(b->vote, b->table.n - b->table.t);
}

static bool word_fits(const ref_word *word, bool is_board)
{
    if (word->heard && !is_board)
        return false;
    return word->length <= (word->heard ? REF_NOTICE : 0);
}

bool ref_notice_sound(const ref_notice_board *b)
{
    if (!ref_table_within_limits(b->table) || !is_board(b->table, b->own))
        return false;
    for (uint32_t i = 0; i < REF_BOARDS; i++)
        if (!word_fits(&b->echo[i], i < b->table.n) || !word_fits(&b->vote[i], i < b->table.n))
            return false;
    if (b->done)
        return b->voted;
    return b->voted ? to_deliver(b) == NULL : to_vote_for(b) == NULL;
}

/* Where the words begin: 65 bytes for each board, a length and 64 bytes. In
 * a set of eight bytes, high byte first, board 1 is the lowest bit. */
static void decode_words(const uint8_t *set, const uint8_t *places, ref_word words[REF_BOARDS])
{
    for (int i = 0; i < REF_BOARDS; i++) {
        words[i].heard = set[7 - i / 8] >> i % 8 & 1;
        words[i].length = places[65 * i];
        memcpy(words[i].bytes, places + 65 * i + 1, REF_NOTICE);
    }
}

void ref_notice_decode(const uint8_t *state, ref_notice_board *b)
{
    b->table.n = state[0];
    b->table.t = state[1];
    b->table.sender = state[2];
    b->table.longest = 0;
    b->own = state[3];
    b->acquired = state[4] != 0;
    b->voted = state[5] != 0;
    b->done = state[6] != 0;
    decode_words(state + 7, state + 32, b->echo);
    decode_words(state + 15, state + 4192, b->vote);
}

uint32_t ref_notice_start(uint32_t n, uint32_t t, uint32_t sender, uint32_t own, ref_notice_board *b, size_t state_len)
{
    ref_table table = { n, t, sender, 0 };

    if (!ref_table_within_limits(table) || !is_board(table, own))
        return 1;
    if (state_len < REF_NOTICE_STATE)
        return 2;
    memset(b, 0, sizeof *b);
    b->table = table;
    b->own = own;
    return 0;
}

/* ---- the step */

static bool heard_before(const ref_notice_board *b, uint32_t kind, uint32_t from)
{
    if (kind == SEND)
        return b->acquired;
    return kind == ECHO ? b->echo[from - 1].heard : b->vote[from - 1].heard;
}

static uint32_t refusal(const ref_notice_board *b, size_t state_len, uint32_t from, ref_notice read,
                        size_t out_len, size_t delivery_len)
{
    if (state_len < REF_NOTICE_STATE)
        return 2;
    if (!ref_notice_sound(b))
        return 3;
    if (out_len < REF_NOTICE_OUT || delivery_len < REF_NOTICE)
        return 2;
    if (!is_board(b->table, from))
        return 4;
    if (read.number != 0)
        return read.number;
    if (read.kind == SEND && from != b->table.sender)
        return 6;
    if (b->done)
        return 8;
    return heard_before(b, read.kind, from) ? 9 : 0;
}

static void hear(ref_word *word, const uint8_t *notice, uint32_t length)
{
    word->heard = true;
    word->length = length;
    memcpy(word->bytes, notice, length);
}

ref_stepped ref_notice_step(ref_notice_board *b, size_t state_len, uint32_t from, const uint8_t *record, size_t record_len,
                            uint8_t *out, size_t out_len, uint8_t *delivery, size_t delivery_len)
{
    ref_stepped answer = { 0, 0, 0, 0, 0 };
    ref_notice read = ref_read_notice(record, record_len);
    const uint8_t *notice = record + 3;
    const ref_word *due;

    answer.number = refusal(b, state_len, from, read, out_len, delivery_len);
    if (ref_form_fault(answer.number))
        answer.offset = read.offset;
    if (answer.number != 0)
        return answer;
    if (read.kind == SEND) {
        b->acquired = true;
        answer.record_length = put_record(ECHO, notice, read.length, out);
    } else {
        hear(read.kind == ECHO ? &b->echo[from - 1] : &b->vote[from - 1], notice, read.length);
    }
    due = to_vote_for(b);
    if (!b->voted && due != NULL) {
        b->voted = true;
        answer.record_length = put_record(VOTE, due->bytes, due->length, out);
    }
    due = to_deliver(b);
    if (b->voted && due != NULL) {
        b->done = true;
        answer.delivery = MESSAGE;
        answer.message_length = due->length;
        memcpy(delivery, due->bytes, due->length);
    }
    return answer;
}
