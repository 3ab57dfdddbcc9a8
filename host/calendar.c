#include "calendar.h"

#include <inttypes.h>
#include <stdbool.h>
#include <stdio.h>

enum { FIRST_YEAR = 1601, CYCLE_YEARS = 400, CYCLE_DAYS = 400 * 365 + 97, DAY_SECONDS = 24 * 60 * 60 };

struct date {
    uint64_t year;
    unsigned month, day;
};

static bool is_leap_year(uint64_t year)
{
    return year % 4 == 0 && (year % 100 != 0 || year % 400 == 0);
}

static unsigned days_of_year(uint64_t year)
{
    return is_leap_year(year) ? 366 : 365;
}

static unsigned days_of_month(uint64_t year, unsigned month)
{
    static const unsigned days[] = {31, 28, 31, 30, 31, 30, 31, 31, 30, 31, 30, 31};
    return month == 2 && is_leap_year(year) ? 29 : days[month - 1];
}

/* The date that is `days` after the first. Cycles of 400 years have equal lengths, so they are taken at once. */
static struct date date_after(uint64_t days)
{
    struct date date = {FIRST_YEAR + days / CYCLE_DAYS * CYCLE_YEARS, 1, 1};
    unsigned left = (unsigned)(days % CYCLE_DAYS);
    for (; left >= days_of_year(date.year); date.year++)
        left -= days_of_year(date.year);
    for (; left >= days_of_month(date.year, date.month); date.month++)
        left -= days_of_month(date.year, date.month);
    date.day += left;
    return date;
}

void put_utc(uint64_t seconds, uint64_t ticks, char text[UTC_ROOM])
{
    struct date date = date_after(seconds / DAY_SECONDS);
    unsigned second = (unsigned)(seconds % DAY_SECONDS);
    snprintf(text, UTC_ROOM, "%04" PRIu64 "-%02u-%02u %02u:%02u:%02u.%07" PRIu64 " UTC", date.year, date.month, date.day,
             second / 3600, second / 60 % 60, second % 60, ticks);
}
