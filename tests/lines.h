/*
 * Random runs of whole lines of boards through the C interface: what both
 * kinds of broadcast share.
 *
 * Up to t boards break the rules: they send well-formed lies, different ones
 * to different boards, other boards' records, cut, grown and damaged ones,
 * and random bytes. Records are lost, repeated and handed over in any order.
 * After every call the receiver's state must be sound, by the reference's
 * check of its bytes, and nothing but what the call may write may be
 * written. The boards that keep the rules must agree; deliver nothing but
 * the message of a sender that keeps them; and once all records between them
 * have been handed over, all have delivered if one of them has or if the
 * sender keeps the rules.
 *
 * tests/line.c has fragments, tests/notice-line.c notices.
 */

#ifndef LINES_H
#define LINES_H

#include "harness.h"
#include "reference/reference.h"
#include "tumbeliko.h"

enum { NONE = 0, MESSAGE = 1, VOID = 2 };

#define BOARDS      64
#define LONGEST     1000
#define STATE       8400        /* the most bytes of a state */
#define BEYOND      64          /* bytes after a state that must stay */
#define TALES       4           /* what is told on a line: the message first, then others */
#define RUNS        20000

/* A number and its offset. */
typedef struct {
    uint32_t number, offset;
} fault;

/* A record. It is genuine if a board that keeps the rules put it out for
 * that receiver. */
typedef struct {
    uint32_t from, to;
    const uint8_t *bytes;
    size_t len;
    bool genuine, handed;
} letter;

typedef struct {
    uint8_t state[STATE + BEYOND];
    size_t needed, len;                 /* bytes of the state, and those lent */
    uint32_t put_out, outcome, length;
    uint8_t delivered[LONGEST];
} member;

/* A kind of broadcast. The table `b`, the message and what else is told are
 * those of the run. */
typedef struct {
    const char *deliveries;             /* their name in the figures */
    uint32_t send, echo, vote;          /* kinds of record */
    size_t out_bytes;
    const uint32_t *numbers;            /* that a record may be refused with here, in a step's order */
    size_t number_count;
    bool voids;                         /* may void be delivered, */
    bool both_at_n_1;                   /* a record be put out and a delivery made in one step, at n 1? */
    void (*draw_message)(void);         /* L, and a message of at most L bytes */
    void (*draw_tales)(void);           /* what is told beside it */
    size_t (*state_bytes)(void);
    uint32_t (*start)(uint32_t own, uint8_t *state, size_t state_len);
    tumbeliko_sized (*send_to)(uint32_t to, uint8_t *out);
    tumbeliko_stepped (*step)(uint8_t *state, size_t state_len, uint32_t from, const uint8_t *record, size_t record_len,
                              uint8_t *out, size_t out_len, uint8_t *delivery, size_t delivery_len);
    fault (*read)(const uint8_t *record, size_t record_len);
    bool (*sound)(const uint8_t *state, size_t needed);
    bool (*late)(const uint8_t *state, uint32_t kind);
    size_t (*tell)(uint32_t tale, uint32_t kind, uint32_t place, uint8_t *record);  /* the tale's record, for a board's place */
    size_t (*too_long)(uint32_t tale, uint8_t *record);         /* a record that is refused for its length */
    void (*change_a_number)(uint8_t *record, size_t len);       /* another kind or count */
    void (*take_with_others)(letter one);                       /* several records at once; NULL if there is no such call */
} broadcast;

/* The run. */
extern ref_table b;
extern uint8_t message[LONGEST];
extern size_t message_len;
extern member line[BOARDS];
extern size_t waiting;          /* records on their way */

/* What was seen in all runs. */
extern unsigned long runs_wanted, steps, messages, voids, silent, refusals[REF_NUMBERS], accepted[4];

/* A fact about this run. */
bool held(bool fact);

/* What a call must leave. */
extern uint8_t was_out[REF_OUT], was_delivery[LONGEST];
bool stays(const uint8_t *bytes, const uint8_t *was, size_t used, size_t len);
void note_answer(letter one, const uint8_t *before, uint32_t number);
void note_offset(letter one, tumbeliko_stepped did);
void note_state(const member *m, const uint8_t *before);
void note_record(uint32_t own, const uint8_t *out, size_t len);
void note_delivery(uint32_t own, uint32_t delivery, uint32_t length, const uint8_t *bytes);

/* Taking records from those on their way: some one to this board (`waiting`
 * if there is none), if it arrives, and some one that was handed over before. */
size_t on_its_way_to(uint32_t to);
bool arrives(size_t pick, letter *one);
bool once_more(uint32_t to, letter *one);

/* All runs, then what was seen in them. Arguments: the number of runs, a
 * seed; -v to name each test. Answers the exit status. */
int run_lines(const broadcast *kind, group seen, int argc, char **argv);
void show_figures(void);

#endif
