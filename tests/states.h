/*
 * States to try the calls of a board on: fresh ones, ones put together by
 * hand, sound ones that no run need lead to, ones that are not sound; and
 * records that may come to such a board.
 */

#ifndef STATES_H
#define STATES_H

#include "harness.h"
#include "reference/reference.h"
#include "trees.h"

typedef ref_table table;

enum { SEND = 1, ECHO = 2, VOTE = 3 };
enum { NONE = 0, MESSAGE = 1, VOID = 2 };

/* Where a state's bytes stand. */
enum { ACQUIRED = 6, VOTED = 7, OUTPUT = 8, DONE = 9, ECHOES = 10, USABLE = 18, VOTES = 26, LENGTHS = 40,
       ECHO_ROOTS = 256, VOTE_ROOTS = 2304, HEAD = 4608 };

table make_table(uint32_t n, uint32_t t, uint32_t sender, uint32_t longest);
table random_table(uint32_t most, uint32_t longest);
size_t state_bytes(table b);

/* The first 4,608 bytes of a state that nothing has happened to: table and
 * own number, all else zero. */
void fresh(uint8_t *state, table b, uint32_t own);

void put_length(uint8_t *state, uint32_t i, uint32_t length);

/* Puts into `state` what the step of a record of this kind from board i + 1
 * leaves, by the board that the reference has then, or after later records.
 * A flag byte of `got` that means the right thing is right. */
void put_step(uint8_t *state, const ref_board *after, uint32_t kind, uint32_t i, const uint8_t *got);

/* The board that the tests work on, and what its sender may have built:
 * trees[0] is that of the message, trees[favourite] the one that most of
 * its neighbours go by. */
#define GROVE 4
typedef struct {
    table b;
    uint32_t own, s_max, k, favourite;
    size_t len;
    uint8_t state[ROOM], message[REF_LONGEST + 1];
    size_t message_len;
    tree trees[GROVE];
} workplace;

extern workplace work;

/* A fresh board, garbage in its fragment area. */
void begin(table b, uint32_t own, size_t message_len);
void begin_random(uint32_t most, uint32_t longest);

/* The state of `work` put together by hand. */
void add(size_t set, uint32_t from);
void set_flags(uint8_t acquired, uint8_t voted, uint8_t output, uint8_t done);
void heard_echo(uint32_t from, const uint8_t *root, const uint8_t *fragment, uint32_t length, bool usable);
void heard_echo_of(const tree *one, uint32_t from, bool usable);
void heard_vote(uint32_t from, const uint8_t *root);
bool sound_now(void);

/* The output stage on the root of a tree, with all votes and no echo. */
void open_output_stage(const uint8_t *root);

/* A sound state of that stage, as full as drawn, with garbage in every byte
 * that is free. No run need lead there. */
enum { BEFORE_VOTE, AFTER_VOTE, OUTPUT_STAGE, AFTER_DONE, STAGES };
void random_sound_state(int stage);

/* The ways in which a state of the board in `work`, n 4, t 1, is not sound. */
enum { UNSOUND = 31 };
void make_unsound(int way);

/* Something that board `from` might say, into `record`: mostly a record of a
 * tree, at times spoilt, so that each fault of the form comes too. Answers
 * its length. */
extern uint8_t record[ROOM];
size_t random_record(uint32_t from);

/* Have both boards kept the same? */
bool same_board(const ref_board *a, const ref_board *b);

#endif
