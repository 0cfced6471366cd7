/*
 * The store: a gateway's state and archive in one file, as of the same moment. A new one is written beside it, synced and
 * renamed over it, so that whenever the program or the machine dies the file is whole: the old one or the new one.
 *
 * Its bytes: "WINDROW" and a zero, then high byte first the state's format, the state's length and the archive's (4 bytes each)
 * and the scans done so far (4 bytes); state; archive; the CRC of all before (2 bytes, low byte first, as in a frame). One with a
 * state of format 1, as releases 1 and 2 left it, is taken too; what is put is of this release's format.
 */
#ifndef STORE_H
#define STORE_H

#include <stdbool.h>
#include <stddef.h>
#include <stdint.h>

#include "windrow_gateway.h"

struct store {
    struct windrow_state state;
    uint8_t *archive;
    size_t archive_length;
    uint32_t scans; /* of the yard or the trace, so that a gateway that comes back goes on where it was */
};

/* Takes a store from a file; false where there is no such file. Ends the program, and says why, where it is no whole store. */
bool store_load(struct store *store, const char *path);

/* Puts a store into a file. Ends the program where it can't; what was stored before is then still there. */
void store_save(const struct store *store, const char *path);

/*
 * Keeps other programs from this store until this one ends, however it does; ends it where another has it. The lock is on a file
 * of its own beside it, FILE.lock, which stays there.
 */
void store_lock(const char *path);

/* A file's bytes, in memory of their own; ends the program where it can't be read or has more than `most` bytes. */
uint8_t *file_bytes(const char *path, size_t most, size_t *length);

#endif
