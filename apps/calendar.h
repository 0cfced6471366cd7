/* Dates for the hosts: a clock that can run fast has to add seconds to a date. The library only ever judges a date. */
#ifndef CALENDAR_H
#define CALENDAR_H

#include <stdbool.h>
#include <stdint.h>

#include "windrow_limits.h"
#include "windrow_stamp.h"

/* Whether there is such a date, from 2000 to 2099, and such a time: what windrow_stamp.h says of a stamp. */
bool calendar_has(struct windrow_stamp stamp);

/* Seconds from the start of 2000 to a stamp that the calendar has, and back. */
int64_t calendar_seconds(struct windrow_stamp stamp);
struct windrow_stamp calendar_stamp(int64_t seconds);

/* A stamp as 2007-08-29T11:36:52, with its closing zero. */
#define CALENDAR_TEXT 20
void calendar_text(char text[CALENDAR_TEXT], struct windrow_stamp stamp);

/* Reads such a text; false where it is no date of 2000 to 2099. */
bool calendar_parse(const char *text, struct windrow_stamp *stamp);

#endif
