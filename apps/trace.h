/*
 * A trace: what a gateway scanned, one record a scan without a header, each a stamp (month, day, year, hour, minute, second) and
 * the live table, its texts as they were put, clean or not.
 */
#ifndef TRACE_H
#define TRACE_H

#include <stdbool.h>
#include <stdint.h>
#include <stdio.h>

#include "windrow_limits.h"
#include "windrow_stamp.h"

#define TRACE_BYTES (WINDROW_STAMP_BYTES + WINDROW_TABLE_BYTES)

/* Opens a trace; where it can't be read or its size is not that of whole records, says so and ends the program. */
FILE *trace_open(const char *path);

/* The next record; false at the end. Ends the program where reading fails. */
bool trace_next(FILE *trace, struct windrow_stamp *stamp, uint8_t table[WINDROW_TABLE_BYTES]);

/* Appends a record; false where it can't be written. */
bool trace_append(FILE *trace, struct windrow_stamp stamp, const uint8_t table[WINDROW_TABLE_BYTES]);

#endif
