/*
 * A line of boards that spreads a file or a notice, shown as a table and as
 * a picture.
 *
 *   main.c      options
 *   line.c      the boards that keep the rules, and the run
 *   calls.c     the calls of the one broadcast or the other
 *   post.c      records on their way: when each is put out and handed over
 *   mail.c      mailboxes, if the boards have them: all that a poll finds in one call
 *   lies.c      the boards that break the rules
 *   table.c     what is printed
 *   picture.c   what is drawn; marks.c its arrows and marks
 *
 * Everything a board does is done through the calls of tumbeliko.h. A file
 * to begin with is examples/seven.c, and for notices examples/notice.c.
 */

#ifndef LINE_H
#define LINE_H

#include <stdbool.h>
#include <stddef.h>
#include <stdint.h>
#include "tumbeliko.h"

#define BOARDS  TUMBELIKO_BOARDS_MAX
#define LONGEST TUMBELIKO_LONGEST_MAX
#define SENDER  1
#define NEVER   UINT64_MAX

/* How a board behaves. The last two are for the sender alone. */
typedef enum {
    KEEPS,      /* the rules */
    FAILS,      /* keeps them until it stops for good, perhaps halfway through what it puts out */
    SILENT,     /* puts out nothing at all */
    LIES,       /* tells each board something else: damaged, borrowed and made-up records */
    GARBLES,    /* sends fragments that are those of no block, under one tree */
    SPLITS      /* sends the file or notice to some boards and another one to the others */
} behaviour;

typedef struct {
    uint32_t n, t, loss;                /* loss: how many records in 100 */
    uint64_t poll;                      /* from one look into a mailbox to the next; 0 without mailboxes */
    uint64_t seed;
    const char *name, *picture;
    bool notice;                        /* what is spread is a notice; else a file */
    uint8_t file[LONGEST + 1];
    size_t file_len;
    behaviour behaves[BOARDS];
} scenario;

/* Times are in microseconds since the first send. */
typedef struct {
    uint8_t *state, *delivered;
    size_t state_len, length;
    unsigned heard[4], refused;         /* accepted records by sort, and refused ones */
    unsigned steps;                     /* records handed over to this board, */
    unsigned taken_step, delivered_step;        /* and on the line until it last took one, and until it delivered */
    uint32_t delivery;
    uint64_t echoed_at, voted_at, delivered_at, stops_at;
} board;

/* A record on its way from one board to another. */
typedef enum { ON_ITS_WAY, TAKEN, REFUSED, LOST, UNHEARD } fate;

typedef struct {
    uint32_t from, to;
    const uint8_t *bytes;
    size_t len;
    bool genuine;                       /* put out as the rules say, not a lie */
    bool again;                         /* the same record once more: after a loss, or a repetition */
    uint64_t put_out, due;              /* due: when it arrives; once it was handed over, when that was */
    fate fate;
    uint32_t answer;                    /* the step's number, if it was handed over */
} letter;

typedef struct {
    unsigned handed, calls, lost, repeated;     /* records handed over, and by how many calls */
    unsigned answers[TUMBELIKO_NUMBERS];        /* how often each number was their answer */
    unsigned long records, bytes;               /* put out by boards that keep the rules, one for each receiver */
    unsigned long other_records, other_bytes;   /* by the others */
} figures;

extern scenario play;
extern board line[BOARDS];
extern figures seen;

/* line.c */
bool keeps(uint32_t number);
bool same_as_file(const board *one);
void run_line(void);

void must_not_be_refused(const char *what, uint32_t number);
void note_answer(letter *which, uint32_t number);
void deliver(board *one, uint32_t delivery, size_t length, const uint8_t *bytes);
void put_out_to_all(uint32_t from, const uint8_t *out, size_t len);

/* calls.c; a sort is TUMBELIKO_SEND, _ECHO or _VOTE, whatever the broadcast's kinds are, 0 for no record of it */
uint32_t sort_of(const uint8_t *bytes, size_t len);
uint8_t kind_of(uint32_t sort);
const char *what_is_spread(void);
size_t state_bytes(void);
uint32_t start_board(uint32_t own, uint8_t *state, size_t state_len);
tumbeliko_sized send_record(const uint8_t *bytes, size_t len, uint32_t to, uint8_t *out, size_t out_len);
tumbeliko_stepped step_board(board *one, const letter *which, uint8_t *out, size_t out_len,
                             uint8_t *delivery, size_t delivery_len);

/* mail.c */
void drop_into_mailbox(const letter *which);
uint64_t next_poll(void);               /* the time of the next look that finds something, or NEVER */
void empty_next_mailbox(void);

/* post.c: all records ever put out, in post[0 .. posted) */
extern letter *post;
extern size_t posted;
extern uint64_t now;                    /* the time at which the last record arrived, or a board looked for mail */

uint32_t random_below(uint32_t limit);
void *room_for(size_t bytes);
const uint8_t *kept(const uint8_t *bytes, size_t len);
void put_out_one(uint32_t from, uint32_t to, const uint8_t *bytes, size_t len, bool genuine, uint64_t when);
uint64_t put_out_gap(void);
void put_again(const letter *one, uint64_t when);
uint64_t next_due(void);                /* when the next record arrives, or NEVER */
letter *next_letter(void);

/* lies.c */
void send_lies(void);
void hears_and_lies(const letter *one);

/* table.c */
typedef struct { bool agreement, validity, totality; } promises;

promises judged(void);
const char *behaviour_name(behaviour which);
void show_table(void);
bool show_promises(void);

/* picture.c */
bool draw_picture(void);

#endif
