/*
 * Fuzzing of the C interface. An input's bytes choose a call and its
 * arguments; the reference (tests/reference) makes the call, and where the
 * library is linked (WITH_LIBRARY) so does it, and answers and all bytes of
 * all buffers must be the same.
 *
 *   fuzz.c      which call an input stands for; what is counted
 *   drawn.c     arguments drawn from the input's bytes; buffers between inaccessible pages
 *   ground.c    hash, path check, encode, rebuild, read block
 *   board.c     records, start, send, step, mailbox
 *   notice.c    the same of notices
 *   drill.c     the drill
 *   find.c      libFuzzer's entry: finds inputs, guided by the reference's coverage
 *   replay.c    hands found inputs, and changed ones, to both
 */

#ifndef FUZZ_H
#define FUZZ_H

#include <stdbool.h>
#include <stddef.h>
#include <stdint.h>
#include "reference/reference.h"

/* One input, whole. */
void fuzz_one(const uint8_t *input, size_t len);

/* A fact that must hold. If it does not, found() is told, which need not
 * return; find.c and replay.c have one each. */
#define SAME(fact) do { if (!(fact)) differs(#fact); } while (0)
void differs(const char *fact);
void found(const char *call, const char *fact);

/* A call was made, and answered with this number. */
void note(uint32_t number);
void note_delivery(uint32_t delivery);
void show_counts(void);

/* ---- drawn.c; random_below and random_bytes are those of tests/harness.h, drawn from the input */

void begin_drawing(const uint8_t *input, size_t len);
bool more(void);
uint8_t draw_byte(void);
uint32_t draw_number(void);             /* any, often one at a limit */
uint32_t random_below(uint32_t limit);
void random_bytes(uint8_t *bytes, size_t len);
size_t draw_rest(uint8_t *bytes, size_t most);
size_t draw_length(size_t right);       /* of a buffer: mostly the right one */
ref_table draw_table(void);             /* mostly one within the limits */
ref_table draw_good_table(void);
size_t damage(uint8_t *bytes, size_t len, size_t most);

/* Puts a copy into one of eight rooms that end, or begin, at an inaccessible page. */
#define ROOM 70000
uint8_t *lend(unsigned room, const uint8_t *contents, size_t len);
bool holds(unsigned room, const uint8_t *contents);

/* ---- ground.c, board.c and notice.c: one call each, or a run of them */

void try_hash(void);
void try_path(void);
void try_encode(void);
void try_rebuild(void);
void try_read_block(void);
void try_read_record(void);
void try_damaged_record(void);
void try_write_record(void);
void try_send(void);
void try_start(void);
void try_steps(void);
void try_damaged_state(void);
void try_mailboxes(void);
void try_read_notice(void);
void try_write_notice(void);
void try_notice_send(void);
void try_notice_start(void);
void try_notice_steps(void);
void try_damaged_notice_state(void);

/* ---- drill.c: a whole drill */

void try_drill(void);

#endif
