/*
 * A simulated yard: two windrows over a season. North is turned when its probe says so (too hot, or short of air), south by the
 * calendar; one fan is moved between the two. Who turned is typed on an old handheld, with bytes that are no ASCII. The same steps
 * give the same season every time.
 */
#ifndef YARD_H
#define YARD_H

#include <stdbool.h>
#include <stdint.h>

#include "windrow_limits.h"

/* How long something has lasted, and whether it is an alarm by now. */
struct trouble {
    int64_t since; /* seconds; when the probe came to say so, INT64_MAX while it does not */
    bool alarm;
};

/* What it puts into the live table, a line or two for each sort of point; windrow-gateway prints it with --help. */
extern const char yard_help[];

struct pile {
    double core, edge;       /* degrees Celsius */
    double oxygen, moisture; /* percent */
    double food;             /* what is left to rot, 1 at the start */
    double exposed;          /* the part of it that is not inside clumps */
    struct trouble heat, air;
    int64_t turned_at; /* seconds, when it was turned last */
    int64_t turning_until, watering_until;
    int32_t passes;
    const char *reason, *driver; /* of the last turning */
};

struct yard {
    int64_t now; /* seconds from the start of 2000 */
    int64_t began;
    struct pile north, south;
    double litres;
    double cloud, wind; /* the weather's whims, each about -2 to 2 */
    uint32_t noise;
};

/* The yard on the morning that the piles were set up; `now` as calendar_seconds has it. */
void yard_begin(struct yard *yard, int64_t now);

/* Some seconds later. */
void yard_pass(struct yard *yard, uint32_t seconds);

/* What the probes read now. */
void yard_fill(const struct yard *yard, uint8_t table[WINDROW_TABLE_BYTES]);

#endif
