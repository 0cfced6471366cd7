/* A gateway set up as its settings say. Every refusal of the library is told with the setting's line and ends the program. */
#ifndef SETUP_H
#define SETUP_H

#include <stdbool.h>
#include <stddef.h>

#include "settings.h"
#include "store.h"

/* Ends the program where the library does not take a firmware, which `by` has said: a path, or an option. */
void setup_judge_firmware(uint32_t firmware, const char *by);

/* A new gateway: memory, definitions, triggers and alarms, and started. */
void setup_fresh(struct store *store, const struct settings *settings);

/*
 * A gateway out of a store: its unit, firmware, date order and memory must be the settings'. Triggers and alarms become those of
 * the settings alone, which empties nothing. Where the settings define other files than it has, it is laid out anew only if
 * `redefine`, since that empties every file.
 */
void setup_again(struct store *store, const struct settings *settings, const char *path, bool redefine);

/*
 * Makes the timed changes from number `next` on that are due at a stamp, none where it is no date and time; answers the number
 * of the first that is not due.
 */
size_t setup_timed(struct store *store, const struct settings *settings, size_t next, struct windrow_stamp now);

/* Ends the program: a call was refused that a good state and good memory can't be refused. */
_Noreturn void setup_refused(const char *what, uint32_t number);

#endif
