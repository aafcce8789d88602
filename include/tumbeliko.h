/*
 * tumbeliko: reliable broadcast between the boards of one machine.
 *
 * A sender's message of at most 16,384 bytes is cut into one fragment for
 * each of n boards, so that any k = n - 2t of them give it back. Each
 * fragment travels with a path to the root of a hash tree over all of
 * them, by which a board sees that a fragment belongs to that root.
 *
 * A notice of at most 64 bytes, such as "shelf door open", travels whole
 * and without a tree: see "Notices" at the end.
 *
 * How to use this header
 * ----------------------
 *
 * Link with libtumbeliko.a. The archive is built for x86-64 Linux today.
 * It keeps no memory between calls, takes nothing from a heap and opens no
 * file: all that a call knows it is handed, and all that it leaves is in
 * its result and in the buffers lent to it.
 *
 * Numbers. Every 32-bit number may be handed to every call, also one
 * outside its limits: such a call is refused, it never goes wrong.
 *
 * Buffers. A buffer is a pointer and, right after it, its length in bytes.
 * - The caller owns every buffer, before, during and after a call. No call
 *   keeps a pointer.
 * - The pointer must point to at least that many bytes, and must not be
 *   null even if the length is 0. It needs no alignment.
 * - A buffer may be longer than needed. The bytes beyond those that a call
 *   writes, as told beside each call, stay as they were.
 * - The buffers lent to one call must not overlap.
 * - A `const` buffer is only read. Nobody may change it during the call.
 * - A call may run at the same time as another in a second thread if no
 *   buffer that either of them writes is lent to both. A board's state
 *   takes one call at a time.
 *
 * Refusals. Each call that can refuse answers a number: 0 if it did its
 * work, else the number of the refusal. The faults are looked for in the
 * order given beside the call, and the first one found is answered. With a
 * refusal
 * - every other field of the result is 0, but for the offset beside the
 *   numbers 20 to 25 (see "Faults of a record"), and
 * - nothing is written: all lent buffers are as they were before the call.
 */

#ifndef TUMBELIKO_H
#define TUMBELIKO_H

#include <stdbool.h>
#include <stddef.h>
#include <stdint.h>

#ifdef __cplusplus
extern "C" {
#endif

/* ====================================================================
 * The table of boards
 *
 * Four numbers, the same at all boards of a broadcast, and handed to most
 * calls in this order:
 *
 *   n         number of boards, 1 to 64; the boards have numbers 1 to n
 *   t         how many of them may break the rules, with 3t < n
 *   sender    the number of the board whose message it is, 1 to n
 *   longest   L, the longest message in bytes, 0 to 16,384
 *
 * A call that takes the table refuses it with 1 if any of the four is
 * outside its limits, `sender` too where it plays no part in the work. The
 * calls for notices take the first three alone: `longest` plays no part.
 */

#define TUMBELIKO_BOARDS_MAX    64
#define TUMBELIKO_LONGEST_MAX   16384

/* k, how many fragments give the message back. */
#define TUMBELIKO_K(n, t)   ((size_t)(n) - 2 * (size_t)(t))

/* s_max, the length of a fragment of the longest message. */
#define TUMBELIKO_S_MAX(n, t, longest) \
    (((size_t)(longest) + 4 + TUMBELIKO_K(n, t) - 1) / TUMBELIKO_K(n, t))

/* ====================================================================
 * Sizes of buffers, in bytes
 *
 * The macros take a table within its limits and are constant expressions
 * if their arguments are: `uint8_t area[TUMBELIKO_AREA_BYTES(7, 5463)];`.
 */

/* A root, a node of a path, a digest. */
#define TUMBELIKO_ROOT_BYTES    32
#define TUMBELIKO_NODE_BYTES    32

/* The most nodes of a path, and the room that each path has. */
#define TUMBELIKO_NODES_MAX     6
#define TUMBELIKO_PATH_BYTES    192

/* The most bytes to hash, and the longest fragment of a path check. */
#define TUMBELIKO_HASH_MAX      65536
#define TUMBELIKO_FRAGMENT_MAX  65535

/* A fragment area: the fragment of board i starts at (i - 1) * s_max. */
#define TUMBELIKO_AREA_BYTES(n, s_max)  ((size_t)(n) * (size_t)(s_max))

/* All paths: the path of board i starts at (i - 1) * 192. */
#define TUMBELIKO_PATHS_BYTES(n)        ((size_t)(n) * TUMBELIKO_PATH_BYTES)

/* A list of fragment lengths: that of board i at 2 * (i - 1), two bytes,
 * high byte first. */
#define TUMBELIKO_LENGTHS_BYTES(n)      ((size_t)(n) * 2)

/* A block: length of the message in 4 bytes, high byte first, then the
 * message, then zeros up to a multiple of k. */
#define TUMBELIKO_BLOCK_BYTES(n, t, s_max)  (TUMBELIKO_K(n, t) * (size_t)(s_max))

/* A board's state. */
#define TUMBELIKO_STATE_BYTES(n, s_max) (4608 + (size_t)(n) * (size_t)(s_max))

/* An outgoing record. Every call that has one buffer for it needs all of
 * this, also for a vote. */
#define TUMBELIKO_OUT_BYTES     16619

/* A vote, where it has a buffer of its own. */
#define TUMBELIKO_VOTE_BYTES    39

/* The most items of a mailbox, and a mailbox of so many whose records have
 * so many bytes in all. */
#define TUMBELIKO_ITEMS_MAX     255
#define TUMBELIKO_MAILBOX_BYTES(items, record_bytes) \
    (2 + 3 * (size_t)(items) + (size_t)(record_bytes))

/* A buffer for a message or a delivery needs `longest` bytes. */

/* The longest notice; a buffer for the delivery of one needs this, too. */
#define TUMBELIKO_NOTICE_MAX            64

/* An outgoing record of a notice. Every call that has a buffer for it needs
 * all of this, also for a shorter notice. */
#define TUMBELIKO_NOTICE_OUT_BYTES      67

/* A notice board's state, for every n. */
#define TUMBELIKO_NOTICE_STATE_BYTES    8352

/* ====================================================================
 * Refusal numbers
 */

#define TUMBELIKO_OK              0   /* not refused */
#define TUMBELIKO_BAD_TABLE       1   /* table outside its limits */
#define TUMBELIKO_SHORT_BUFFER    2   /* a lent buffer shorter than needed */
#define TUMBELIKO_NOT_SOUND       3   /* state not sound */
#define TUMBELIKO_NO_SUCH_BOARD   4   /* board number (from, to, or marked) not in 1..n */
#define TUMBELIKO_NOT_THE_SENDER  6   /* send from a board other than the sender */
#define TUMBELIKO_BAD_FRAGMENT    7   /* fragment longer than s_max
                                         (rebuilding: a marked one, or a marked length 0) */
#define TUMBELIKO_LATE            8   /* board done, or a send in the output stage
                                         (a notice board has no such stage) */
#define TUMBELIKO_SECOND          9   /* second send, echo or vote from that board */
#define TUMBELIKO_TOO_FEW         10  /* fewer than k fragments marked */
#define TUMBELIKO_NO_BLOCK        11  /* marked lengths differ, or no block agrees */
#define TUMBELIKO_UNREADABLE      12  /* block cannot be read */
#define TUMBELIKO_LONG_MESSAGE    13  /* message longer than L, notice longer than 64 bytes */
/* 14 is a number of the drill program; no call of this header answers it. */
#define TUMBELIKO_LONG_HASH       15  /* more than 65,536 bytes to hash */
#define TUMBELIKO_BAD_MAILBOX     16  /* mailbox not of the form of a mailbox, or
                                         fewer answer bytes than items */
/* Record not of the form of a record; an offset says where. */
#define TUMBELIKO_CUT_OFF             20  /* the bytes end inside or before a field */
#define TUMBELIKO_BAD_KIND            21  /* kind other than 1, 2 and 3; of a notice's
                                             record: other than 4, 5 and 6 */
#define TUMBELIKO_BAD_ROOT_COUNT      22  /* root count other than 32 */
#define TUMBELIKO_BAD_PATH_COUNT      23  /* path count above 6, or a vote's above 0 */
#define TUMBELIKO_BAD_FRAGMENT_COUNT  24  /* fragment count 0 or above 16,388, or a vote's above 0 */
#define TUMBELIKO_BAD_NOTICE_COUNT    24  /* the same number of a notice's record: notice
                                             count above 64 */
#define TUMBELIKO_LEFT_OVER           25  /* bytes after the last field */

/* Every number above is below this. */
#define TUMBELIKO_NUMBERS         26

/* ====================================================================
 * Kinds of record, deliveries
 */

/* Kinds of record. */
#define TUMBELIKO_SEND              1
#define TUMBELIKO_ECHO              2
#define TUMBELIKO_VOTE              3

/* Kinds of a notice's record. No board takes records of both: each refuses
 * the kinds of the other with 21. */
#define TUMBELIKO_NOTICE_SEND       4
#define TUMBELIKO_NOTICE_ECHO       5
#define TUMBELIKO_NOTICE_VOTE       6

/* Deliveries. An empty message is delivered as MESSAGE with length 0; so is
 * an empty notice. No notice is delivered as VOID. */
#define TUMBELIKO_DELIVERY_NONE     0
#define TUMBELIKO_DELIVERY_MESSAGE  1
#define TUMBELIKO_DELIVERY_VOID     2

/* ====================================================================
 * A record
 *
 * A kind byte, then three sections, root, path and fragment, each after
 * its two-byte count (high byte first). Nothing follows.
 *
 *   offset       bytes   field            send, echo    vote   else
 *   0            1       kind             1, 2          3      21
 *   1            2       root count       32            32     22
 *   3            32      root
 *   35           2       path count       0 to 6        0      23
 *   37           p       path
 *   37 + p       2       fragment count   1 to 16,388   0      24
 *   39 + p       f       fragment
 *   39 + p + f   0       the end                               25
 *
 * The path count counts nodes of 32 bytes, and p is 32 times that count; f
 * is the fragment count. A vote has 39 bytes, the longest record 16,619.
 * The records of notices, kinds 4 to 6, have a form of their own and are
 * none of these: see "Notices".
 *
 * Faults of a record. The fields are read left to right, and the first
 * fault counts. A result with a field `offset` names in it the first byte
 * of the field at fault, counted from 0:
 *
 *   20   the field that the bytes end inside or before. A count is a field
 *        of two bytes: one byte of it and no more is 20 at the count. A
 *        section's bytes are a field of their own, after its count
 *   21   the kind, so 0, whatever follows
 *   22   the root count
 *   23   the path count
 *   24   the fragment count
 *   25   the first byte left over
 *
 * A count is judged as soon as it is read, before its section: a record of
 * 37 bytes whose path count is 7 is 23 at 35. A good record that lost its
 * end on the way is always 20. Beside every other number the offset is 0.
 */
#define TUMBELIKO_RECORD_KIND                       0
#define TUMBELIKO_RECORD_ROOT_COUNT                 1
#define TUMBELIKO_RECORD_ROOT                       3
#define TUMBELIKO_RECORD_PATH_COUNT                 35
#define TUMBELIKO_RECORD_PATH                       37
#define TUMBELIKO_RECORD_FRAGMENT_COUNT(nodes)      (37 + 32 * (size_t)(nodes))
#define TUMBELIKO_RECORD_FRAGMENT(nodes)            (39 + 32 * (size_t)(nodes))

/* ====================================================================
 * Results, returned by value
 */

/* A refusal number, or 0 and a length. */
typedef struct {
    uint32_t number, length;
} tumbeliko_sized;

/* A refusal number, or 0 and a digest. */
typedef struct {
    uint32_t number;
    uint8_t bytes[32];
} tumbeliko_digest;

/* A refusal number and its offset, or 0 and what a record is: its kind, the
 * number of nodes of its path and the length of its fragment. */
typedef struct {
    uint32_t number, offset, kind, nodes, fragment_length;
} tumbeliko_parts;

/* A refusal number and its offset, or 0 and what a notice's record is: its
 * kind and the length of the notice. */
typedef struct {
    uint32_t number, offset, kind, length;
} tumbeliko_notice;

/* A refusal number and its offset, or 0 and the length of the record
 * written. */
typedef struct {
    uint32_t number, offset, length;
} tumbeliko_written;

/* A refusal number and its offset, or 0 and what a step leaves: the length
 * of the record put out (0 for none), the delivery and the length of the
 * message. */
typedef struct {
    uint32_t number, offset, record_length, delivery, message_length;
} tumbeliko_stepped;

/* A refusal number, or 0 and what a whole mailbox leaves: the lengths of
 * the echo and of the vote put out (0 for none), the delivery and the
 * length of the message. */
typedef struct {
    uint32_t number, echo_length, vote_length, delivery, message_length;
} tumbeliko_mailed;

/* ====================================================================
 * Hash
 *
 * SHA-256 (FIPS 180-4) of the bytes data[0 .. data_len).
 *
 *   data    0 to 65,536 bytes; read
 *
 * Refusals: 15 (data_len above 65,536; the bytes of the result are 0 then,
 * and data is not looked at).
 * Result: number 0 and the digest.
 */
tumbeliko_digest tumbeliko_hash(const uint8_t *data, size_t data_len);

/* ====================================================================
 * Path check
 *
 * Does `fragment` stand at place `board` of the tree (RFC 6962, section
 * 2.1) over n fragments whose root is `root`? `path` lists the nodes from
 * the leaf upward, 32 bytes each, one after the other.
 *
 *   root        32 bytes; read
 *   path        32 bytes for each node; read
 *   fragment    0 to 65,535 bytes; read
 *
 * Never refuses. The answer is false, too, if n is not in 1..64, board not
 * in 1..n, root_len not 32, path_len not 32 times the number of nodes that
 * a path at that place has, or fragment_len above 65,535. Nothing is
 * written.
 *
 * The number of nodes depends on n and board: 0 for n = 1; 3, 3, 3, 3 and
 * 1 for the boards of n = 5; 6 for each board of n = 64.
 */
bool tumbeliko_path_correct(uint32_t n, uint32_t board,
                            const uint8_t *root, size_t root_len,
                            const uint8_t *path, size_t path_len,
                            const uint8_t *fragment, size_t fragment_len);

/* ====================================================================
 * Encode
 *
 * Cuts `message` into n fragments, and works out the root over them and
 * the path of each. All fragments have the same length, (message_len + 4)
 * / k rounded up, which is at most s_max.
 *
 *   message   0 to longest bytes; read
 *   area      TUMBELIKO_AREA_BYTES(n, s_max); written
 *   root      TUMBELIKO_ROOT_BYTES; written
 *   paths     TUMBELIKO_PATHS_BYTES(n); written
 *
 * Refusals, in this order:
 *   1    table outside its limits
 *   2    area, root or paths shorter than above
 *   13   message_len above longest
 * Result: number 0 and the length of each fragment.
 *
 * Afterwards, for each board i:
 *   area    the fragment from (i - 1) * s_max on, `length` bytes; the rest
 *           of its s_max bytes stays
 *   paths   the path from (i - 1) * 192 on, 32 bytes for each node; the
 *           rest of its 192 bytes stays
 * and the first 32 bytes of root are the root. Bytes beyond these stay.
 *
 * s_max comes from `longest`, not from the message: see TUMBELIKO_S_MAX.
 */
tumbeliko_sized tumbeliko_encode(uint32_t n, uint32_t t, uint32_t sender, uint32_t longest,
                                 const uint8_t *message, size_t message_len,
                                 uint8_t *area, size_t area_len,
                                 uint8_t *root, size_t root_len,
                                 uint8_t *paths, size_t paths_len);

/* ====================================================================
 * Rebuild
 *
 * From the fragments of the marked boards, the one block whose fragments
 * are all those marked. More than k may be marked: then all of them must
 * agree. Whether the block can be read as a message is no question here.
 *
 *   marked    board i is bit i - 1
 *   lengths   TUMBELIKO_LENGTHS_BYTES(n); read. Those of boards that are
 *             not marked are not looked at
 *   area      TUMBELIKO_AREA_BYTES(n, s_max); read. Bytes of boards that
 *             are not marked, and those after a fragment, are not looked at
 *   block     TUMBELIKO_BLOCK_BYTES(n, t, s_max); written
 *
 * Refusals, in this order:
 *   1    table outside its limits
 *   2    lengths, area or block shorter than above
 *   4    a board above n is marked
 *   7    the length of a marked fragment is 0 or above s_max
 *   10   fewer than k fragments marked
 *   11   marked lengths differ, or no block agrees with all marked ones
 * Result: number 0 and the length of the block, k times that of a fragment.
 *
 * Afterwards the first `length` bytes of block are the block; bytes beyond
 * these stay.
 */
tumbeliko_sized tumbeliko_rebuild(uint32_t n, uint32_t t, uint32_t sender, uint32_t longest,
                                  uint64_t marked,
                                  const uint8_t *lengths, size_t lengths_len,
                                  const uint8_t *area, size_t area_len,
                                  uint8_t *block, size_t block_len);

/* ====================================================================
 * Read block
 *
 * The message of a block. `block_len` is the length of the block itself,
 * as tumbeliko_rebuild answers it, not that of a longer buffer around it.
 *
 *   block     block_len bytes; read
 *   message   longest bytes; written
 *
 * Refusals, in this order:
 *   1    table outside its limits
 *   2    message_len below longest
 *   12   block_len below 4 or no multiple of k; or the length that the
 *        block names is above longest; or that length + 4, divided by k
 *        and rounded up, is not block_len / k
 * Result: number 0 and the length of the message.
 *
 * Afterwards the first `length` bytes of message are the message; bytes
 * beyond these stay. The bytes of the block after the message are not
 * looked at.
 */
tumbeliko_sized tumbeliko_read_block(uint32_t n, uint32_t t, uint32_t sender, uint32_t longest,
                                     const uint8_t *block, size_t block_len,
                                     uint8_t *message, size_t message_len);

/* ====================================================================
 * Read record
 *
 * Is this a record, and where are its parts? If it is none, what is wrong,
 * and where? See "A record" above.
 *
 *   record    record_len bytes; read
 *
 * Refusals, with the offset of the field at fault; the fields left to
 * right, so that of several faults the first in the record counts:
 *   20   cut off
 *   21   kind not 1, 2 or 3; a notice's record, too
 *   22   root count not 32
 *   23   path count above 6; for a vote: above 0
 *   24   fragment count 0 or above 16,388; for a vote: above 0
 *   25   bytes left over
 * Result: number 0, offset 0, kind, nodes and fragment_length. The root is
 * at byte 3 of the record, the path at 37, the fragment at 39 + 32 * nodes.
 */
tumbeliko_parts tumbeliko_read_record(const uint8_t *record, size_t record_len);

/* ====================================================================
 * Write record
 *
 * Puts a record together from its parts.
 *
 *   root, path, fragment    read
 *   out                     TUMBELIKO_OUT_BYTES; written
 *
 * Refusals, in this order; 21 to 24 with the offset that the field would
 * have in the record:
 *   2    out shorter than above
 *   21   kind not 1, 2 or 3 (256 and above too); offset 0
 *   22   root_len not 32; offset 1
 *   23   path_len no multiple of 32, or above 192; for a vote: above 0;
 *        offset 35
 *   24   fragment_len 0 or above 16,388; for a vote: above 0; offset 37 +
 *        path_len
 * Result: number 0, offset 0 and the length of the record.
 *
 * Afterwards the first `length` bytes of out are the record; bytes beyond
 * these stay.
 */
tumbeliko_written tumbeliko_write_record(uint32_t kind,
                                         const uint8_t *root, size_t root_len,
                                         const uint8_t *path, size_t path_len,
                                         const uint8_t *fragment, size_t fragment_len,
                                         uint8_t *out, size_t out_len);

/* ====================================================================
 * Start
 *
 * Makes a board's state for one broadcast: nothing heard, nothing put out.
 *
 *   own       the board's own number, 1 to n
 *   state     TUMBELIKO_STATE_BYTES(n, s_max); written
 *
 * Refusals, in this order:
 *   1    table outside its limits, or own not in 1..n
 *   2    state shorter than above
 * Result: 0 or the refusal number.
 *
 * Afterwards the first 4,608 bytes of state are those of the fresh board;
 * bytes beyond these stay. A start over a used state is not refused. What
 * the bytes of a state mean is the library's own: keep them untouched
 * between steps, do not read them, and copy them only as a whole.
 */
uint32_t tumbeliko_start(uint32_t n, uint32_t t, uint32_t sender, uint32_t longest, uint32_t own,
                         uint8_t *state, size_t state_len);

/* ====================================================================
 * Step
 *
 * Hands one record from board `from` to the board whose state is lent.
 * That the record really comes from that board is for the caller to know.
 *
 *   state       TUMBELIKO_STATE_BYTES(n, s_max); read and written
 *   record      record_len bytes; read
 *   out         TUMBELIKO_OUT_BYTES; written if a record is put out
 *   delivery    longest bytes; written if a message is delivered
 *
 * n, s_max and longest are those of the state's start. out and delivery
 * are needed in every step, also in one that puts out or delivers nothing.
 *
 * Refusals, in this order:
 *   2    state below 4,608 bytes
 *   3    state not sound (never after a start, steps and mailboxes alone)
 *   2    state, out or delivery shorter than above
 *   4    from not in 1..n
 *   20 to 25, record not of the form: the number and the offset that
 *        tumbeliko_read_record answers
 *   6    a send, and from is not the sender
 *   7    a send or an echo whose fragment is longer than s_max
 *   8    board done; or a send in the output stage
 *   9    second send; second echo or second vote from that board
 * A refused record is not used up: the state is as it was.
 *
 * Result: number 0, offset 0, and
 *   record_length    length of the record put out, 0 for none; at most one
 *                    in a step, meant for all n boards, this one too
 *   delivery         0 none, 1 message, 2 void (the sender broke the
 *                    rules: nothing can be delivered, and nothing will be)
 *   message_length   of the message delivered; 0 with none and void
 *
 * Afterwards state is the board's new state, the first record_length bytes
 * of out are the record, and the first message_length bytes of delivery
 * are the message; bytes of out and delivery beyond these stay. A board
 * delivers once; it is done then, and refuses every later record.
 */
tumbeliko_stepped tumbeliko_step(uint8_t *state, size_t state_len, uint32_t from,
                                 const uint8_t *record, size_t record_len,
                                 uint8_t *out, size_t out_len,
                                 uint8_t *delivery, size_t delivery_len);

/* ====================================================================
 * Mailbox
 *
 * Hands over all the records that a poll found, in one call: the same as a
 * step for each, in the order in which they stand, and cheaper, since the
 * state and the buffers are looked at once and not for each record.
 *
 * A mailbox is a count of items (two bytes, high byte first; 0 to 255) and
 * then, for each item, the number of the board that it comes from (one
 * byte), the length of its record (two bytes, high byte first) and the
 * record. Nothing follows. So these 89 bytes are a vote from board 3, a
 * record of no bytes from board 9 and a vote from board 7:
 *
 *   00 03
 *   03  00 27  03 00 20 ..(39 bytes in all)
 *   09  00 00
 *   07  00 27  03 00 20 ..(39 bytes in all)
 *
 *   state       TUMBELIKO_STATE_BYTES(n, s_max); read and written
 *   mailbox     TUMBELIKO_MAILBOX_BYTES(items, record_bytes): mailbox_len
 *               is the length of the mailbox itself, not that of a longer
 *               buffer around it; read
 *   answers     one byte for each item; written
 *   echo        TUMBELIKO_OUT_BYTES; written if an echo is put out
 *   vote        TUMBELIKO_VOTE_BYTES; written if a vote is put out
 *   delivery    longest bytes; written if a message is delivered
 *
 * n, s_max and longest are those of the state's start. echo, vote and
 * delivery are needed in every call, also for a mailbox of no items.
 *
 * Refusals of the whole call, in this order:
 *   2    state below 4,608 bytes
 *   3    state not sound (never after a start, steps and mailboxes alone)
 *   2    state, echo, vote or delivery shorter than above
 *   16   mailbox below 2 bytes, its count above 255, an item that is not
 *        whole, bytes after the last item; or answers_len below the count
 * 16 is decided before any item is looked at: no item of a refused mailbox
 * has been taken.
 *
 * An item that is refused is no refusal of the call. Its number is its
 * answer, the others go on, and the call's number is 0 even if each item
 * was refused. An item's answer is the number that tumbeliko_step would
 * answer in its turn, 0, 4, 20 to 25 or 6 to 9: 4 for a board byte that is
 * 0 or above n, 20 for a record that is cut off (as the second item above,
 * of no bytes), and so on. It is a bare number: tumbeliko_read_record says
 * at which offset a record is at fault.
 *
 * Result: number 0, and
 *   echo_length      length of the echo put out, 0 for none
 *   vote_length      length of the vote put out, 39, or 0 for none
 *   delivery         0 none, 1 message, 2 void, as in a step
 *   message_length   of the message delivered; 0 with none and void
 * A board puts out at most one echo and one vote in all, and delivers
 * once, so one call has room for all of it. Echo and vote are meant for
 * all n boards, this one too.
 *
 * Afterwards state is the board's new state, answer byte i is that of item
 * i (both from 0), the first echo_length bytes of echo are the echo, the
 * first vote_length bytes of vote are the vote, and the first
 * message_length bytes of delivery are the message; bytes of these four
 * buffers beyond these stay.
 */
tumbeliko_mailed tumbeliko_mailbox(uint8_t *state, size_t state_len,
                                   const uint8_t *mailbox, size_t mailbox_len,
                                   uint8_t *answers, size_t answers_len,
                                   uint8_t *echo, size_t echo_len,
                                   uint8_t *vote, size_t vote_len,
                                   uint8_t *delivery, size_t delivery_len);

/* ====================================================================
 * Send
 *
 * The sender's record for board `to`: works everything out afresh from
 * table and message, for that one board. A sender that wants all n records
 * at less cost calls tumbeliko_encode once and tumbeliko_write_record n
 * times.
 *
 *   message   0 to longest bytes; read
 *   out       TUMBELIKO_OUT_BYTES; written
 *
 * Refusals, in this order:
 *   1    table outside its limits
 *   2    out shorter than above
 *   4    to not in 1..n
 *   13   message_len above longest
 * Result: number 0 and the length of the record.
 *
 * Afterwards the first `length` bytes of out are the record; bytes beyond
 * these stay.
 */
tumbeliko_sized tumbeliko_send(uint32_t n, uint32_t t, uint32_t sender, uint32_t longest,
                               const uint8_t *message, size_t message_len, uint32_t to,
                               uint8_t *out, size_t out_len);

/* ====================================================================
 * Notices
 *
 * A second kind of broadcast, for notices of 0 to 64 bytes: no tree, no
 * fragments, the notice stands whole in every record. It promises what the
 * other does, and a notice is never delivered as void.
 *
 * It has its own records, boards and calls, and shares nothing with the
 * other: a line that has both runs two boards side by side, each with its
 * own state. A notice board takes kinds 4, 5 and 6 and refuses all others
 * with 21; a board of the other kind takes 1, 2 and 3 and refuses these.
 *
 * The table is n, t and sender, within the same limits as above; a call
 * refuses it with 1 if one of the three is outside. All boards of a notice
 * have the same three.
 *
 * Its records. A kind byte and one section, the notice, after its two-byte
 * count (high byte first). Nothing follows.
 *
 *   offset   bytes   field          send, echo, vote   else
 *   0        1       kind           4, 5, 6            21
 *   1        2       notice count   0 to 64            24
 *   3        f       notice
 *   3 + f    0       the end                           25
 *
 * f is the notice count. The shortest record has 3 bytes, the longest 67.
 * These 5 bytes are an echo of the notice "go":
 *
 *   05  00 02  67 6f
 *
 * Faults are named as in "Faults of a record": left to right, the first
 * counts, with the offset of its field; a field that the bytes end inside
 * or before is 20 at that field's start, 0, 1 or 3. The count is judged as
 * soon as it is read: `04 00 41` and no more is 24 at 1.
 *
 * How a notice is spread. The sender makes one record for each board
 * (tumbeliko_notice_send). A board is started once (tumbeliko_notice_start)
 * and takes every record that comes in through its step
 * (tumbeliko_notice_step):
 * - the first send from the sender is echoed whole, also by a board that
 *   has voted, as long as it has not delivered;
 * - the first echo and the first vote of each board count;
 * - n - t echoes or t + 1 votes for one notice bring a vote for it;
 * - n - t votes for one notice, once the board has voted, deliver it.
 * Two notices are one only if lengths and bytes are the same. There is no
 * mailbox for notices: their records are taken one by one.
 */
#define TUMBELIKO_RECORD_NOTICE_COUNT   1
#define TUMBELIKO_RECORD_NOTICE         3

/* ====================================================================
 * Read notice
 *
 * Is this a notice's record, and where is the notice? If it is none, what
 * is wrong, and where?
 *
 *   record    record_len bytes; read
 *
 * Refusals, with the offset of the field at fault; the fields left to
 * right, so that of several faults the first in the record counts:
 *   20   cut off
 *   21   kind not 4, 5 or 6; offset 0
 *   24   notice count above 64; offset 1
 *   25   bytes left over
 * Result: number 0, offset 0, kind and the length of the notice, which is
 * at byte 3 of the record. Nothing is written.
 */
tumbeliko_notice tumbeliko_read_notice(const uint8_t *record, size_t record_len);

/* ====================================================================
 * Write notice
 *
 * Puts a notice's record together.
 *
 *   notice    0 to 64 bytes; read
 *   out       TUMBELIKO_NOTICE_OUT_BYTES; written
 *
 * Refusals, in this order; 21 and 24 with the offset that the field would
 * have in the record:
 *   2    out shorter than above
 *   21   kind not 4, 5 or 6 (256 and above too); offset 0
 *   24   notice_len above 64; offset 1
 * Result: number 0, offset 0 and the length of the record, notice_len + 3.
 *
 * Afterwards the first `length` bytes of out are the record; bytes beyond
 * these stay.
 */
tumbeliko_written tumbeliko_write_notice(uint32_t kind, const uint8_t *notice, size_t notice_len,
                                         uint8_t *out, size_t out_len);

/* ====================================================================
 * Notice start
 *
 * Makes a notice board's state for one notice: nothing heard, nothing put
 * out.
 *
 *   own       the board's own number, 1 to n
 *   state     TUMBELIKO_NOTICE_STATE_BYTES; written
 *
 * Refusals, in this order:
 *   1    table outside its limits, or own not in 1..n
 *   2    state shorter than above
 * Result: 0 or the refusal number.
 *
 * Afterwards the first 8,352 bytes of state are those of the fresh board;
 * bytes beyond these stay. A start over a used state is not refused. What
 * the bytes of a state mean is the library's own: keep them untouched
 * between steps, do not read them, and copy them only as a whole.
 */
uint32_t tumbeliko_notice_start(uint32_t n, uint32_t t, uint32_t sender, uint32_t own,
                                uint8_t *state, size_t state_len);

/* ====================================================================
 * Notice step
 *
 * Hands one record from board `from` to the notice board whose state is
 * lent. That the record really comes from that board is for the caller to
 * know.
 *
 *   state       TUMBELIKO_NOTICE_STATE_BYTES; read and written
 *   record      record_len bytes; read
 *   out         TUMBELIKO_NOTICE_OUT_BYTES; written if a record is put out
 *   delivery    TUMBELIKO_NOTICE_MAX; written if a notice is delivered
 *
 * out and delivery are needed in every step, also in one that puts out or
 * delivers nothing.
 *
 * Refusals, in this order:
 *   2    state below 8,352 bytes
 *   3    state not sound (never after a start and steps alone)
 *   2    out or delivery shorter than above
 *   4    from not in 1..n
 *   20, 21, 24, 25, record not of the form: the number and the offset that
 *        tumbeliko_read_notice answers
 *   6    a send, and from is not the sender
 *   8    board done
 *   9    second send; second echo or second vote from that board
 * A refused record is not used up: the state is as it was. A send is never
 * late before the delivery.
 *
 * Result: number 0, offset 0, and
 *   record_length    length of the record put out, 0 for none; at most one
 *                    in a step, meant for all n boards, this one too
 *   delivery         0 none, 1 the notice; never 2
 *   message_length   length of the notice delivered; 0 with none
 * One step may put out a vote and deliver: at n 1 the first vote does, if
 * it comes before the echo.
 *
 * Afterwards state is the board's new state (bytes beyond 8,352 stay), the
 * first record_length bytes of out are the record, and the first
 * message_length bytes of delivery are the notice; bytes of out and
 * delivery beyond these stay. A board delivers once; it is done then, and
 * refuses every later record.
 */
tumbeliko_stepped tumbeliko_notice_step(uint8_t *state, size_t state_len, uint32_t from,
                                        const uint8_t *record, size_t record_len,
                                        uint8_t *out, size_t out_len,
                                        uint8_t *delivery, size_t delivery_len);

/* ====================================================================
 * Notice send
 *
 * The sender's record for board `to`. It is the same for every board.
 *
 *   notice    0 to 64 bytes; read
 *   out       TUMBELIKO_NOTICE_OUT_BYTES; written
 *
 * Refusals, in this order:
 *   1    table outside its limits
 *   2    out shorter than above
 *   4    to not in 1..n
 *   13   notice_len above 64
 * Result: number 0 and the length of the record, notice_len + 3.
 *
 * Afterwards the first `length` bytes of out are the record; bytes beyond
 * these stay.
 */
tumbeliko_sized tumbeliko_notice_send(uint32_t n, uint32_t t, uint32_t sender,
                                      const uint8_t *notice, size_t notice_len, uint32_t to,
                                      uint8_t *out, size_t out_len);

#ifdef __cplusplus
}
#endif

#endif
