#include <string.h>
#include "mail.h"

static uint8_t *put_two(uint8_t *to, size_t number)
{
    to[0] = (uint8_t)(number >> 8);
    to[1] = (uint8_t)number;
    return to + 2;
}

size_t empty_mailbox(uint8_t *mailbox)
{
    put_two(mailbox, 0);
    return 2;
}

size_t add_item(uint8_t *mailbox, size_t len, uint8_t from, const uint8_t *record, size_t record_len)
{
    uint8_t *to = mailbox + len;

    put_two(mailbox, ((size_t)mailbox[0] << 8 | mailbox[1]) + 1);
    *to++ = from;
    to = put_two(to, record_len);
    if (record_len > 0)
        memcpy(to, record, record_len);
    return len + 3 + record_len;
}

const uint8_t *read_item(const uint8_t *at, uint8_t *from, size_t *record_len)
{
    *from = at[0];
    *record_len = (size_t)at[1] << 8 | at[2];
    return at + 3;
}
