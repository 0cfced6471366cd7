/* The chart of a season as SVG: two windrows above each other over one time axis. Times are seconds, as calendar.h has them. */
#ifndef CHART_H
#define CHART_H

#include <stddef.h>
#include <stdint.h>
#include <stdio.h>

/* Degrees Celsius; NaN where the probe gave none. */
struct reading {
    int64_t at;
    double core, edge, air;
};

/* The times during which an alarm was raised, the oldest first. */
struct spells {
    struct spell {
        int64_t from, to;
    } *list;
    size_t count;
};

struct windrow {
    const char *name, *manner; /* as "North", "turned when its probe said so" */
    struct reading *readings;
    size_t reading_count;
    int64_t *turnings;
    size_t turning_count;
    struct spells hot, airless;
};

#define WINDROWS 2

/* Draws what was from one time to another, which must be later. */
void chart_draw(FILE *page, const struct windrow windrows[WINDROWS], int64_t from, int64_t to);

/* A time as people write it: 1 May, or 1 May 2026, 06:00. */
#define DATE_TEXT 24
#define LONG_DATE_TEXT 48
void date_text(char text[DATE_TEXT], int64_t at);
void date_and_time_text(char text[LONG_DATE_TEXT], int64_t at);

/* The limit that is marked in the chart. */
#define TOO_HOT 70

#endif
