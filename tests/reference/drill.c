/* The drill of document 01, over the reference's own boards. */

#include <stdio.h>
#include <string.h>
#include "reference.h"

#define BOARDS  7
#define STATE   8192    /* more than a state of 7 boards needs */

typedef struct {
    const char *at;     /* the next byte of the input */
    size_t left;
    unsigned number;    /* of the line read last */
} source;

typedef struct {
    const char *start[6];
    size_t length[6];
    size_t count;       /* 6 stands for more than five */
} sentence;

static ref_board boards[BOARDS + 1];
static uint8_t echo[BOARDS + 1][REF_OUT], vote[BOARDS + 1][REF_OUT];
static size_t echo_len[BOARDS + 1], vote_len[BOARDS + 1];

/* Cuts the next line into its words. Says no for a line that is not there
 * or too long. */
static bool read_line(source *in, sentence *words)
{
    const char *end = memchr(in->at, '\n', in->left), *at = in->at;
    size_t length = end != NULL ? (size_t)(end - at) : in->left;

    in->number++;
    if (in->left == 0 || length > 1024)
        return false;
    in->left -= length + (end != NULL);
    in->at += length + (end != NULL);
    words->count = 0;
    for (;;) {
        const char *space = memchr(at, ' ', length);
        size_t word = space != NULL ? (size_t)(space - at) : length;

        if (words->count == 6)
            return true;
        words->start[words->count] = at;
        words->length[words->count++] = word;
        if (space == NULL)
            return true;
        at += word + 1;
        length -= word + 1;
    }
}

/* A number from `low` to `high`, strictly written. */
static bool number(const sentence *words, size_t i, uint32_t low, uint32_t high, uint32_t *value)
{
    uint64_t sum = 0;

    if (i >= words->count || words->length[i] == 0 || (words->length[i] > 1 && words->start[i][0] == '0'))
        return false;
    for (size_t j = 0; j < words->length[i]; j++) {
        if (words->start[i][j] < '0' || words->start[i][j] > '9')
            return false;
        sum = 10 * sum + (uint64_t)(words->start[i][j] - '0');
        if (sum > high)
            return false;
    }
    *value = (uint32_t)sum;
    return sum >= low;
}

/* The bytes of a word of hex; their count, or -1. */
static long hex(const sentence *words, size_t i, uint8_t *bytes)
{
    static const char digits[] = "0123456789abcdef";
    size_t length = words->length[i];

    if (length % 2 != 0)
        return -1;
    for (size_t j = 0; j < length; j++) {
        const char *digit = words->start[i][j] == '\0' ? NULL : strchr(digits, words->start[i][j]);

        if (digit == NULL)
            return -1;
        bytes[j / 2] = (uint8_t)(j % 2 == 0 ? (digit - digits) << 4 : bytes[j / 2] | (digit - digits));
    }
    return (long)(length / 2);
}

static bool read_table(source *in, ref_table *table)
{
    sentence words;

    return read_line(in, &words) && words.count == 4 && number(&words, 0, 1, BOARDS, &table->n)
        && number(&words, 1, 0, 2, &table->t) && number(&words, 2, 1, table->n, &table->sender)
        && number(&words, 3, 0, 64, &table->longest) && 3 * table->t < table->n;
}

static bool read_breakers(source *in, ref_table table, bool *breaks)
{
    sentence words;
    uint32_t count, board;

    if (!read_line(in, &words) || !number(&words, 0, 0, table.t, &count) || words.count != count + 1)
        return false;
    for (size_t i = 1; i <= count; i++) {
        if (!number(&words, i, 1, table.n, &board) || breaks[board])
            return false;
        breaks[board] = true;
    }
    return true;
}

static bool read_message(source *in, ref_table table, uint8_t *message, uint32_t *length)
{
    static uint8_t bytes[1024];
    sentence words;

    if (!read_line(in, &words) || !number(&words, 0, 0, table.longest, length))
        return false;
    if (*length == 0)
        return words.count == 1;
    if (words.count != 2 || hex(&words, 1, bytes) != (long)*length)
        return false;
    memcpy(message, bytes, *length);
    return true;
}

/* One step and its line. Says no for a bad line, and then prints nothing. */
static bool step(source *in, unsigned k, ref_table table, const bool *breaks, const uint8_t *message, size_t message_len,
                 char **text)
{
    static uint8_t raw[1024], sent[REF_OUT], out[REF_OUT], delivery[64];
    const uint8_t *record = NULL;
    ref_stepped answer = { 14, 0, 0, 0, 0 };
    size_t length = 0;
    sentence words;
    uint32_t from, to;
    char kind;

    if (!read_line(in, &words) || words.count < 3 || words.length[0] != 1)
        return false;
    kind = words.start[0][0];
    if (!number(&words, 1, 1, table.n, &from) || !number(&words, 2, 1, table.n, &to) || breaks[to])
        return false;
    if (kind == 'r') {
        long bytes = words.count == 3 ? 0 : hex(&words, 3, raw);

        if (!breaks[from] || words.count > 4 || bytes < 0 || (words.count == 4 && bytes == 0))
            return false;
        record = raw;
        length = (size_t)bytes;
    } else {
        if (breaks[from] || words.count != 3 || (kind != 's' && kind != 'e' && kind != 'v'))
            return false;
        if (kind == 's' && from == table.sender) {
            length = ref_send(table.n, table.t, table.sender, table.longest, message, message_len, to, sent, REF_OUT).length;
            record = sent;
        } else if (kind == 'e' && echo_len[from] > 0) {
            length = echo_len[from];
            record = echo[from];
        } else if (kind == 'v' && vote_len[from] > 0) {
            length = vote_len[from];
            record = vote[from];
        }
    }
    if (record != NULL)
        answer = ref_step(&boards[to], STATE, from, record, length, out, REF_OUT, delivery, 64);
    if (answer.record_length > 0 && out[0] == 2) {
        memcpy(echo[to], out, answer.record_length);
        echo_len[to] = answer.record_length;
    } else if (answer.record_length > 0) {
        memcpy(vote[to], out, answer.record_length);
        vote_len[to] = answer.record_length;
    }
    *text += sprintf(*text, "%u %c %u %u %u %c ", k, kind, (unsigned)from, (unsigned)to, (unsigned)answer.number,
                     answer.record_length == 0 ? '-' : out[0] == 2 ? 'e' : 'v');
    *text += sprintf(*text, "%s", answer.delivery == 0 ? "-" : answer.delivery == 1 ? "m" : "void");
    for (size_t i = 0; i < answer.message_length; i++)
        *text += sprintf(*text, "%02x", delivery[i]);
    *text += sprintf(*text, "\n");
    return true;
}

/* The lines up to the last right one. Says no at the first bad one. */
static bool lines(source *in, char **text)
{
    bool breaks[BOARDS + 1] = { false };
    uint8_t message[64];
    uint32_t message_len, count;
    ref_table table;
    sentence words;

    if (!read_table(in, &table) || !read_breakers(in, table, breaks) || !read_message(in, table, message, &message_len))
        return false;
    if (!read_line(in, &words) || words.count != 1 || !number(&words, 0, 0, 1000, &count))
        return false;
    for (uint32_t i = 1; i <= table.n; i++) {
        ref_start(table.n, table.t, table.sender, table.longest, i, &boards[i], STATE);
        echo_len[i] = vote_len[i] = 0;
    }
    for (unsigned k = 1; k <= count; k++)
        if (!step(in, k, table, breaks, message, message_len, text))
            return false;
    in->number++;
    return in->left == 0;
}

size_t ref_drill(const char *input, size_t input_len, char *text)
{
    source in = { input, input_len, 0 };
    char *at = text + sprintf(text, "step kind from to answer act outcome\n");

    if (!lines(&in, &at))
        at += sprintf(at, "bad line %u\n", in.number);
    return (size_t)(at - text);
}
