/* Why a state is Foreign. */
#ifndef FOREIGN_H
#define FOREIGN_H

#include <stddef.h>
#include <stdio.h>

#include "windrow_gateway.h"

/*
 * Writes a line for each clause of the card's row 2 that a state breaks, and answers their number. The library itself tells
 * them: each part of the state is put alone into one that is good, and it says whether that one is Foreign then.
 */
int tell_clauses(FILE *out, const struct windrow_state *state, const uint8_t *archive, size_t archive_length);

#endif
