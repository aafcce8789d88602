/*
 * Notice boards to try the calls on: fresh states, ones put together by
 * hand, sound ones that no run need lead to, ones that are not sound; and
 * records that may come to such a board.
 */

#ifndef NOTICES_H
#define NOTICES_H

#include "harness.h"
#include "reference/reference.h"

enum { SEND = 4, ECHO = 5, VOTE = 6 };
enum { NONE = 0, MESSAGE = 1 };

/* Where the fields of a record stand. */
enum { KIND_AT = 0, COUNT_AT = 1, NOTICE_AT = 3 };

/* Where a state's bytes stand: docs/STATE.md. */
enum { ACQUIRED = 4, VOTED = 5, DONE = 6, ECHOES = 7, VOTES = 15, SPARE = 23, ECHO_PLACES = 32, VOTE_PLACES = 4192,
       STATE = REF_NOTICE_STATE, PLACE = 65 };

/* n, t, sender; L plays no part. */
ref_table random_table(uint32_t most);

/* Up to 64 bytes that a board may send, echo or vote for. */
typedef struct {
    uint32_t length;
    uint8_t bytes[REF_NOTICE];
} notice;

notice random_notice(uint32_t length);
bool same_notice(notice a, notice b);

/* The record of this kind. Answers its length. */
size_t notice_record(uint32_t kind, notice one, uint8_t *record);

/* The 8,352 bytes of a state that nothing has happened to: table and own
 * number, all else zero. */
void fresh(uint8_t *state, ref_table b, uint32_t own);

/* Puts into `state` what the step of a record of this kind from board i + 1
 * leaves, by the board that the reference has then. */
void put_step(uint8_t *state, const ref_notice_board *after, uint32_t kind, uint32_t i);

/* Where board `from`'s echo or vote stands. */
uint8_t *place_of(uint8_t *state, uint32_t kind, uint32_t from);

/* The board that the tests work on. What its neighbours may say: said[0] is
 * the favourite, said[1] begins it or goes on after it, said[2] is as long
 * and differs in one bit, said[3] is empty. */
enum { SAID = 4 };
typedef struct {
    ref_table b;
    uint32_t own;
    uint8_t state[STATE + 400];
    notice said[SAID];
} workplace;

extern workplace work;

/* A fresh board. */
void begin(uint32_t n, uint32_t t, uint32_t sender, uint32_t own);
void begin_random(uint32_t most);

/* The state of `work` put together by hand. */
void set_flags(uint8_t acquired, uint8_t voted, uint8_t done);
void add(size_t set, uint32_t from);
void heard(uint32_t kind, uint32_t from, notice one);
bool sound_now(void);

/* Garbage in every byte that is free: spare ones, those of boards not heard,
 * those after a notice. */
void fill_free_bytes(void);

/* A sound state of that stage, as full as drawn, garbage in its free bytes.
 * No run need lead there. */
enum { BEFORE_VOTE, AFTER_VOTE, AFTER_DONE, STAGES };
void random_sound_state(int stage);

/* The ways in which a state of the board in `work`, n 4, t 1, is not sound,
 * each by one clause of the list alone. */
enum { UNSOUND = 33 };
void make_unsound(int way);

/* Something that board `from` might say, into `record`: mostly a record, at
 * times spoilt, so that each fault of the form comes too. Answers its
 * length. */
extern uint8_t record[ROOM];
size_t random_record(uint32_t from);

#endif
