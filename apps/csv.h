/* A point's value as a cell of a CSV file, and the points of a live table as lines of one. */
#ifndef CSV_H
#define CSV_H

#include <stddef.h>
#include <stdint.h>
#include <stdio.h>

#include "windrow_points.h"

/* A value of any kind. */
struct value {
    enum windrow_kind kind;
    int32_t number;      /* flag, 16-bit, 32-bit */
    float real;          /* float */
    const uint8_t *text; /* text: length bytes */
    size_t length;
};

/* The longest cell: a text of 16 bytes, each written as \xHH, in quotes, and the closing zero. */
#define CELL_BYTES 67

/*
 * Writes the value's cell, without a comma. Numbers are decimals; a float has 9 digits, which give its pattern back, and an
 * exponent where it is large or small (infinities are `inf`, NaNs `nan`). A text stands in quotes without the zeros that fill it
 * up; a quote is doubled, and a backslash or a byte that is not printable ASCII is \xHH. Nothing is cleaned here: gateways before
 * 2.2 have such bytes in records and in replies.
 */
void cell_of(char cell[CELL_BYTES], struct value value);

/* The cell of a point, from a live table's bytes by their kind; an empty one where there is no such point. */
void point_cell(char cell[CELL_BYTES], const uint8_t *table, uint32_t point);

/* A kind in a word. */
const char *kind_word(enum windrow_kind kind);

/* Points of a live table from `first` on, a line each: the point, its kind and its cell. The heading is for the caller. */
#define POINT_HEADINGS "point,kind,value"
void write_points(FILE *out, const uint8_t *table, uint32_t first, uint32_t count);

#endif
