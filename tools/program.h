/*
 * What the subcommands of the program `tumbeliko` share. Whatever is judged
 * is judged by the library; the program reads files and prints.
 */

#ifndef PROGRAM_H
#define PROGRAM_H

#include <stdbool.h>
#include <stddef.h>
#include <stdint.h>
#include <stdio.h>

/* Exit statuses; of several the highest counts. */
enum { FINE = 0, REFUSED = 1, TROUBLE = 2 };

/* An option without a value: its word, and what it sets. */
typedef struct {
    const char *word;
    bool *given;
} option;

/* A subcommand. main.c finds it, sets its options, and hands the other
 * words, at least one, to `run`, which answers an exit status. */
typedef struct {
    const char *name;
    const char *words;      /* what may follow the name */
    const char *summary;    /* one line for the list */
    const char *help;       /* the rest, whole lines */
    const option *options;
    size_t option_count;
    int (*run)(char **files, int count);
} subcommand;

extern const subcommand record_subcommand;

/* ---- words: main.c */

/* `tumbeliko: SUBCOMMAND: WHICH: what` on standard error; WHICH is a file or
 * a word. Always false. */
bool complain(const char *which, const char *what);

/* Prints a file's name or another word as it was given, but for control
 * characters: these become \xNN, so that no name drives a terminal. */
void print_name(FILE *to, const char *name);

/* ---- files: input.c */

/* The most bytes of a file that are read. */
#define INPUT_MAX 1048576

/* The byte more shows that a file is too long. */
typedef struct {
    uint8_t bytes[INPUT_MAX + 1];
    size_t length;
} input;

/* Reads a file whole; "-" is standard input, once. With `hex` the file is
 * text, and what it spells is left in `in`. False after a complaint. */
bool read_file(input *in, const char *file, bool hex);

#endif
