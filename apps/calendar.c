#include "calendar.h"

#include <stdio.h>
#include <string.h>

#define DAY_SECONDS 86400
#define YEARS 100

static bool is_leap(int year)
{
    return year % 4 == 0; /* 2000 is one, and 2100 is not reached */
}

static int month_days(int year, int month)
{
    static const int days[] = {31, 28, 31, 30, 31, 30, 31, 31, 30, 31, 30, 31};
    return days[month - 1] + (month == 2 && is_leap(year));
}

bool calendar_has(struct windrow_stamp stamp)
{
    return stamp.year < YEARS && stamp.month >= 1 && stamp.month <= 12 && stamp.day >= 1
           && stamp.day <= month_days(stamp.year, stamp.month) && stamp.hour <= 23 && stamp.minute <= 59 && stamp.second <= 59;
}

int64_t calendar_seconds(struct windrow_stamp stamp)
{
    int64_t days = stamp.day - 1;
    for (int year = 0; year < stamp.year; year++)
        days += is_leap(year) ? 366 : 365;
    for (int month = 1; month < stamp.month; month++)
        days += month_days(stamp.year, month);
    return days * DAY_SECONDS + stamp.hour * 3600 + stamp.minute * 60 + stamp.second;
}

struct windrow_stamp calendar_stamp(int64_t seconds)
{
    int64_t days = seconds / DAY_SECONDS, rest = seconds % DAY_SECONDS;
    int year = 0, month = 1;
    while (days >= (is_leap(year) ? 366 : 365))
        days -= is_leap(year++) ? 366 : 365;
    while (days >= month_days(year, month))
        days -= month_days(year, month++);
    struct windrow_stamp stamp = {(uint8_t)month,         (uint8_t)(days + 1),      (uint8_t)year,
                                  (uint8_t)(rest / 3600), (uint8_t)(rest / 60 % 60), (uint8_t)(rest % 60)};
    return stamp;
}

void calendar_text(char text[CALENDAR_TEXT], struct windrow_stamp stamp)
{
    snprintf(text, CALENDAR_TEXT, "%04u-%02u-%02uT%02u:%02u:%02u", (WINDROW_CENTURY + stamp.year) % 10000u, stamp.month % 100u,
             stamp.day % 100u, stamp.hour % 100u, stamp.minute % 100u, stamp.second % 100u);
}

bool calendar_parse(const char *text, struct windrow_stamp *stamp)
{
    unsigned year, month, day, hour, minute, second;
    int length = 0;
    if (sscanf(text, "%4u-%2u-%2uT%2u:%2u:%2u%n", &year, &month, &day, &hour, &minute, &second, &length) != 6
        || length != CALENDAR_TEXT - 1 || text[length] != 0 || strpbrk(text, "+ ") != NULL)
        return false;
    if (year < WINDROW_CENTURY || year >= WINDROW_CENTURY + YEARS)
        return false;
    /* two characters make 0 to 99 or, with a minus sign, 247 and more once cut to a byte, which no field may be */
    struct windrow_stamp read = {(uint8_t)month, (uint8_t)day,    (uint8_t)(year - WINDROW_CENTURY),
                                 (uint8_t)hour,  (uint8_t)minute, (uint8_t)second};
    if (!calendar_has(read))
        return false;
    *stamp = read;
    return true;
}
