/* What the two files of the picture share. */

#ifndef PICTURE_H
#define PICTURE_H

#include <stdio.h>
#include "line.h"

extern FILE *to;                        /* where the picture goes */
extern double row;                      /* between two boards */

double x_of(uint64_t when);
double y_of(uint32_t number);
bool roomy(void);                       /* is there room for words at the marks? */
void write_text(const uint8_t *bytes, size_t len);
const char *outcome_name(const board *one);     /* what a board delivered, if it did */

/* marks.c */
void draw_record(const letter *one);
void draw_marks(uint32_t own);
void draw_legend(double y);

#endif
