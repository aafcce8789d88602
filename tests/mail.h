/* Mailboxes, put together and read item by item. */

#ifndef MAIL_H
#define MAIL_H

#include <stddef.h>
#include <stdint.h>

/* A mailbox of no items. Answers its length. */
size_t empty_mailbox(uint8_t *mailbox);

/* One item more at the end of a mailbox of that length. Answers the new
 * length. The count goes on above 255, which a mailbox may not have. */
size_t add_item(uint8_t *mailbox, size_t len, uint8_t from, const uint8_t *record, size_t record_len);

/* The item at `at` of a mailbox that is framed: from whom, how long. Answers
 * its record; the next item stands right after it. */
const uint8_t *read_item(const uint8_t *at, uint8_t *from, size_t *record_len);

#endif
