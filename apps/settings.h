/* The settings file: what a gateway is set up with, and what a reader has to know of it. `settings_help` has its form. */
#ifndef SETTINGS_H
#define SETTINGS_H

#include <stdbool.h>
#include <stddef.h>
#include <stdint.h>

#include "windrow_limits.h"
#include "windrow_stamp.h"

/* A trigger or an alarm slot to be set, at once or at a date. The library judges the numbers. */
struct change {
    enum { SET_TRIGGER, SET_ALARM } what;
    bool timed;
    struct windrow_stamp at;
    uint32_t index; /* file or slot */
    uint32_t point;
    uint32_t type;       /* alarm only */
    uint32_t transducer; /* alarm only */
    int line;            /* of the settings file, for messages */
};

#define MOST_CHANGES 256

enum parity { PARITY_EVEN, PARITY_ODD, PARITY_NONE };

struct settings {
    const char *path;
    uint32_t unit;
    uint32_t firmware;
    bool has_firmware_option; /* --firmware, which holds instead of what the file says */
    const char *firmware_by;  /* what says so, for messages: the path, or the option */
    bool day_first;
    size_t archive_length;
    uint16_t groups[WINDROW_FILES][WINDROW_GROUP_NUMBERS]; /* file f has index f - 1 */
    uint16_t limits[WINDROW_FILES];
    int lines[WINDROW_FILES]; /* where each file is defined, 0 where it is not */
    struct change changes[MOST_CHANGES]; /* those at once and those at a date, each sort in the order of the file */
    size_t change_count;
    struct windrow_stamp begin; /* when the clock of a simulated yard starts */
    uint32_t scan_seconds;      /* between two scans of it */
    uint32_t baud;              /* of a serial line */
    enum parity parity;
    uint32_t gap_ms;            /* of silence end a frame */
};

/* What a settings file may say, a line each; programs print it with --help. */
extern const char settings_help[];

/*
 * Reads a settings file; where it can't be read or taken, says so with file and line and ends the program. `firmware` is the value
 * of the program's option --firmware, which holds instead of what the file says, or null; that it is no number is told first.
 */
void settings_read(struct settings *settings, const char *path, const char *firmware);

#endif
