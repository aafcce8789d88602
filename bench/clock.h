/* What the bench measures by: time, or, where an emulator counts them, instructions. */

#ifndef BENCH_CLOCK_H
#define BENCH_CLOCK_H

#include <stdbool.h>

/* Reads COUNT_FILE, the file that bench/count.c writes; without it the measure is time. */
void clock_begin(void);

bool clock_counts(void);

/* "µs", or "k instructions" */
const char *clock_unit(void);

/* Microseconds of processor time so far. */
double clock_time(void);

/* Thousands of instructions that a call executes, of `times` calls in a row. */
double clock_count(void (*call)(void), int times);

/* Of one call: its best time of many, or its instructions. */
double clock_of(void (*call)(void));

#endif
