/*
 * windrow_stamp.h: a date and a time, as a scan is given them and as the reading end answers them. windrow_reader.h and
 * windrow_gateway.h include it.
 */
#ifndef WINDROW_STAMP_H
#define WINDROW_STAMP_H

#include <stdint.h>

/*
 * Month 1-12 (tm_mon + 1), a day that exists in its month, year 0-99 (of 2000 to 2099: tm_year - 100), hour 0-23, minute and
 * second 0-59. February has 29 days when the year divides by four. A leap second's tm_sec of 60 is refused with WINDROW_CLOCK
 * (4), so hand in 59. The fields stand in this order whatever the date order of the site.
 */
struct windrow_stamp {
    uint8_t month;
    uint8_t day;
    uint8_t year;
    uint8_t hour;
    uint8_t minute;
    uint8_t second;
};

#endif
