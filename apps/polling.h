/*
 * Polls of a gateway: its registers, its records as rows of CSV, and its live points. What answers the polls is a line with a
 * gateway at its other end, or a state and an archive in this program; the library makes the replies and takes them apart, both
 * ways.
 */
#ifndef POLLING_H
#define POLLING_H

#include <stdbool.h>
#include <stddef.h>
#include <stdint.h>
#include <stdio.h>

#include "windrow_reader.h"

/* Files 1-11. */
#define ALL_FILES WINDROW_ALARM_FILE

/* What answers polls. */
struct source {
    /* Sends a request and takes what comes back, at most WINDROW_LONGEST_FRAME bytes; answers its length, 0 for none. */
    size_t (*exchange)(void *self, const uint8_t request[WINDROW_REQUEST_BYTES], uint8_t reply[WINDROW_LONGEST_FRAME]);
    /* Waits until the line is silent, or longer, until no late answer can come any more; null where there is no line. */
    void (*settle)(void *self, bool for_late_answer);
    void *self;
    uint8_t unit;
    bool day_first;
    bool quiet; /* a poll that fails is not told */
    int tries;  /* before a poll is given up */
};

/* What the registers say of a file. */
struct registers {
    uint16_t limit, pointer, requested;
};

/* A file as it is read: its number, and for 1-10 its groups. */
struct file {
    uint32_t number;
    const uint16_t *groups;
};

/* A record as a row of CSV, from its stamp on. */
#define ROW_BYTES 8192
struct row {
    uint32_t card; /* WINDROW_DONE, WINDROW_EMPTY, or why the record can't be taken */
    bool undated; /* it can't for its stamp alone, which is a date and time in neither order */
    uint32_t bytes; /* of the record, stamp included */
    struct windrow_stamp stamp;
    char text[ROW_BYTES]; /* the row; of a record that can't be taken, why */
};

/* Asks for every file's three registers; false, and it is told, where no right answer comes. */
bool poll_registers(struct source *source, struct registers files[ALL_FILES]);

/*
 * Asks for a record by its number; false, and it is told, where no right answer comes. A record that is empty is an answer, and so
 * is one that is undated: a gateway before 1.1 may have filed it, and the others of its file are good. It is for the caller to tell.
 */
bool poll_record(struct source *source, struct file file, uint16_t number, struct row *row);

/*
 * Asks for live points, `count` of them from `first` on, which are in one row, by as few polls as they take, and puts them into a
 * table; false, and it is told, where no right answer comes.
 */
bool poll_points(struct source *source, uint32_t first, uint32_t count, uint8_t table[WINDROW_TABLE_BYTES]);

/* Says why a record is left out. */
void tell_left_out(struct file file, uint16_t number, const char *why);

/* Takes the record out of a reply. */
void take_reply(struct row *row, struct file file, bool day_first, const uint8_t *frame, size_t length);

/* The headings of a file's columns, from the stamp on, without a newline. */
void write_headings(FILE *out, struct file file);

/* The number `steps` further on in a file of `limit` records, 1 after the last. After pointer 0 comes 1. */
uint16_t number_after(uint16_t number, uint32_t steps, uint16_t limit);

#endif
