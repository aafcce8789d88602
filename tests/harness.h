/*
 * What the tests share: counted checks, a seeded source of bytes, and
 * buffers between inaccessible pages.
 */

#ifndef HARNESS_H
#define HARNESS_H

#include <stdbool.h>
#include <stddef.h>
#include <stdint.h>

/* Counts one check, and reports it if it is false. */
#define CHECK(fact) check_that((fact), #fact, __FILE__, __LINE__)
void check_that(bool fact, const char *text, const char *file, int line);

/* The same bytes for the same seed. */
uint64_t random_bits(void);
uint32_t random_below(uint32_t limit);
void random_bytes(uint8_t *bytes, size_t len);
void flip_a_bit(uint8_t *bytes, size_t len);

/* The most bytes that lend() takes. */
#define ROOM 70000

/* Where lent buffers stand: they end right before an inaccessible page, or
 * start right after one. */
enum { BEFORE_PAGE, AFTER_PAGE, PLACES };
void place(int where);

/* Puts `contents` where the place says, in one of eight rooms. */
uint8_t *lend(unsigned room, const uint8_t *contents, size_t len);

/* Has the buffer lent in that room these contents, and are the bytes around
 * it as they were? */
bool holds(unsigned room, const uint8_t *contents);

/* More than 2^32 zero bytes, of which only those touched take memory. They
 * are zero again after give_back_vast. NULL if the system has no such room. */
uint8_t *vast(size_t len);
void give_back_vast(uint8_t *bytes, size_t len);

typedef struct {
    const char *name;
    void (*run)(void);
} test;

typedef struct {
    const char *name;
    const test *tests;
    size_t count;
} group;

#define TEST(function)      { #function, function }
#define GROUP(name, tests)  { name, tests, sizeof tests / sizeof *tests }

/* Runs all, prints a line for each group and the sum, and answers the exit
 * status. Arguments: a seed; -v to name each test. A test without a check
 * has failed. */
int run_groups(const group *groups, size_t count, int argc, char **argv);

#endif
