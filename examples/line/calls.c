/*
 * The calls of the broadcast that the line runs: a file's by fragments, or a
 * notice's. Both have a start, a sender's record and a step, with the same
 * answers; only a file has mailboxes, and only a file can end as void.
 */

#include "line.h"

uint32_t sort_of(const uint8_t *bytes, size_t len)
{
    uint32_t first = play.notice ? TUMBELIKO_NOTICE_SEND : TUMBELIKO_SEND;

    return len > 0 && bytes[0] >= first && bytes[0] < first + 3u ? bytes[0] - first + 1 : 0;
}

uint8_t kind_of(uint32_t sort)
{
    return (uint8_t)(play.notice ? sort - TUMBELIKO_SEND + TUMBELIKO_NOTICE_SEND : sort);
}

const char *what_is_spread(void)
{
    return play.notice ? "notice" : "file";
}

size_t state_bytes(void)
{
    if (play.notice)
        return TUMBELIKO_NOTICE_STATE_BYTES;
    return TUMBELIKO_STATE_BYTES(play.n, TUMBELIKO_S_MAX(play.n, play.t, LONGEST));
}

uint32_t start_board(uint32_t own, uint8_t *state, size_t state_len)
{
    if (play.notice)
        return tumbeliko_notice_start(play.n, play.t, SENDER, own, state, state_len);
    return tumbeliko_start(play.n, play.t, SENDER, LONGEST, own, state, state_len);
}

tumbeliko_sized send_record(const uint8_t *bytes, size_t len, uint32_t to, uint8_t *out, size_t out_len)
{
    if (play.notice)
        return tumbeliko_notice_send(play.n, play.t, SENDER, bytes, len, to, out, out_len);
    return tumbeliko_send(play.n, play.t, SENDER, LONGEST, bytes, len, to, out, out_len);
}

tumbeliko_stepped step_board(board *one, const letter *which, uint8_t *out, size_t out_len,
                             uint8_t *delivery, size_t delivery_len)
{
    if (play.notice)
        return tumbeliko_notice_step(one->state, one->state_len, which->from, which->bytes, which->len,
                                     out, out_len, delivery, delivery_len);
    return tumbeliko_step(one->state, one->state_len, which->from, which->bytes, which->len,
                          out, out_len, delivery, delivery_len);
}
