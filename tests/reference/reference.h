/*
 * A second implementation of the whole of document 01 and of requests 1 to
 * 3 of document 02, in plain C, to hold the library's answers against.
 * Nothing of it comes from the library: the field multiplies by shift and
 * add, rebuilding solves linear equations by elimination, the tree is cut by
 * recursion, a record is taken field by field from its front, a board is a C
 * struct.
 *
 * Each call has the arguments and the meaning of its namesake in
 * include/tumbeliko.h, so that a test can hand the same to both.
 */

#ifndef REFERENCE_H
#define REFERENCE_H

#include <stdbool.h>
#include <stddef.h>
#include <stdint.h>

#define REF_BOARDS      64
#define REF_LONGEST     16384
#define REF_FRAGMENT    16388
#define REF_OUT         16619
#define REF_VOTE        39
#define REF_STATE_HEAD  4608
#define REF_ITEMS       255

#define REF_NOTICE          64
#define REF_NOTICE_OUT      67
#define REF_NOTICE_STATE    8352

/* Every refusal number is below this. */
#define REF_NUMBERS     26

/* The numbers of a record that is not of the form. Only these come with an
 * offset; beside every other number it is 0. */
#define REF_FORM_FIRST  20
#define REF_FORM_LAST   25

static inline bool ref_form_fault(uint32_t number)
{
    return number >= REF_FORM_FIRST && number <= REF_FORM_LAST;
}

typedef struct { uint32_t number, length; } ref_sized;
typedef struct { uint32_t number; uint8_t bytes[32]; } ref_digest;
typedef struct { uint32_t number, offset, kind, nodes, fragment_length; } ref_parts;
typedef struct { uint32_t number, offset, kind, length; } ref_notice;
typedef struct { uint32_t number, offset, length; } ref_written;
typedef struct { uint32_t number, offset, record_length, delivery, message_length; } ref_stepped;
typedef struct { uint32_t number, echo_length, vote_length, delivery, message_length; } ref_mailed;

/* The table of boards, and what follows from it. */
typedef struct { uint32_t n, t, sender, longest; } ref_table;

bool ref_table_within_limits(ref_table table);
uint32_t ref_k(ref_table table);
uint32_t ref_s_max(ref_table table);

/* hash.c: SHA-256 and the tree of RFC 6962 */

ref_digest ref_hash(const uint8_t *data, size_t data_len);

bool ref_path_correct(uint32_t n, uint32_t board, const uint8_t *root, size_t root_len,
                      const uint8_t *path, size_t path_len, const uint8_t *fragment, size_t fragment_len);

/* The tree over `count` fragments of `length` bytes, `stride` apart: its
 * root, and for fragment i (from 0) the count of nodes of its path, which
 * goes to paths from i * 192 on. */
void ref_tree(const uint8_t *fragments, size_t stride, size_t length, size_t count,
              uint8_t root[32], uint8_t *paths, size_t *nodes);

/* The same over fragments of unequal lengths. */
void ref_uneven_tree(const uint8_t *fragments, size_t stride, const uint32_t *lengths, size_t count,
                     uint8_t root[32], uint8_t *paths, size_t *nodes);

/* code.c: field, fragments, blocks */

uint8_t ref_mul(uint8_t a, uint8_t b);

ref_sized ref_encode(uint32_t n, uint32_t t, uint32_t sender, uint32_t longest,
                     const uint8_t *message, size_t message_len, uint8_t *area, size_t area_len,
                     uint8_t *root, size_t root_len, uint8_t *paths, size_t paths_len);

ref_sized ref_rebuild(uint32_t n, uint32_t t, uint32_t sender, uint32_t longest, uint64_t marked,
                      const uint8_t *lengths, size_t lengths_len, const uint8_t *area, size_t area_len,
                      uint8_t *block, size_t block_len);

ref_sized ref_read_block(uint32_t n, uint32_t t, uint32_t sender, uint32_t longest,
                         const uint8_t *block, size_t block_len, uint8_t *message, size_t message_len);

/* board.c: records, state, start, step, mailbox, send */

ref_parts ref_read_record(const uint8_t *record, size_t record_len);

ref_written ref_write_record(uint32_t kind, const uint8_t *root, size_t root_len, const uint8_t *path, size_t path_len,
                             const uint8_t *fragment, size_t fragment_len, uint8_t *out, size_t out_len);

ref_sized ref_send(uint32_t n, uint32_t t, uint32_t sender, uint32_t longest,
                   const uint8_t *message, size_t message_len, uint32_t to, uint8_t *out, size_t out_len);

/* A board's state. Index i is board i + 1; in a set it is bit i. */
typedef struct {
    ref_table table;
    uint32_t own;
    bool acquired, voted, output, done;
    uint64_t echoes, usable, votes;
    uint8_t echo_root[REF_BOARDS][32];
    uint8_t vote_root[REF_BOARDS][32];
    uint32_t kept[REF_BOARDS];
    uint8_t fragment[REF_BOARDS][REF_FRAGMENT];
} ref_board;

/* `state_len` is the length that the library's state buffer has beside it. */
uint32_t ref_start(uint32_t n, uint32_t t, uint32_t sender, uint32_t longest, uint32_t own,
                   ref_board *board, size_t state_len);

ref_stepped ref_step(ref_board *board, size_t state_len, uint32_t from, const uint8_t *record, size_t record_len,
                     uint8_t *out, size_t out_len, uint8_t *delivery, size_t delivery_len);

ref_mailed ref_mailbox(ref_board *board, size_t state_len, const uint8_t *mailbox, size_t mailbox_len,
                       uint8_t *answers, size_t answers_len, uint8_t *echo, size_t echo_len,
                       uint8_t *vote, size_t vote_len, uint8_t *delivery, size_t delivery_len);

bool ref_sound(const ref_board *board);

/* The board that the library's state bytes stand for. Every 4,608 bytes are
 * some board, sound or not. With a table within limits, s_max bytes of each
 * fragment are read as far as state_len goes; those beyond are 0. */
void ref_decode(const uint8_t *state, size_t state_len, ref_board *board);

/* notice.c: notices */

ref_notice ref_read_notice(const uint8_t *record, size_t record_len);

ref_written ref_write_notice(uint32_t kind, const uint8_t *notice, size_t notice_len, uint8_t *out, size_t out_len);

ref_sized ref_notice_send(uint32_t n, uint32_t t, uint32_t sender, const uint8_t *notice, size_t notice_len,
                          uint32_t to, uint8_t *out, size_t out_len);

/* What was heard from a board, or not heard: a length and so many bytes. A
 * damaged state may say a length for which there is no room. */
typedef struct {
    bool heard;
    uint32_t length;
    uint8_t bytes[REF_NOTICE];
} ref_word;

/* A notice board's state. Index i is board i + 1. */
typedef struct {
    ref_table table;                    /* with 0 for L */
    uint32_t own;
    bool acquired, voted, done;
    ref_word echo[REF_BOARDS], vote[REF_BOARDS];
} ref_notice_board;

uint32_t ref_notice_start(uint32_t n, uint32_t t, uint32_t sender, uint32_t own, ref_notice_board *board, size_t state_len);

ref_stepped ref_notice_step(ref_notice_board *board, size_t state_len, uint32_t from,
                            const uint8_t *record, size_t record_len, uint8_t *out, size_t out_len,
                            uint8_t *delivery, size_t delivery_len);

bool ref_notice_sound(const ref_notice_board *board);

/* The board that 8,352 bytes of the library's stand for: all are some board,
 * sound or not. */
void ref_notice_decode(const uint8_t *state, ref_notice_board *board);

/* drill.c: what the drill prints for this input, into `text`; its length */

#define REF_TEXT 160000

size_t ref_drill(const char *input, size_t input_len, char *text);

#endif
