/* Dates of the Gregorian calendar from 1601 on, by a count of our own: the system's may end before the year 30828. */
#ifndef CALENDAR_H
#define CALENDAR_H

#include <stdint.h>

enum { UTC_ROOM = 64 };

/* The moment that is `seconds` and `ticks` of 100 ns after the start of 1601, as 1970-01-01 00:00:00.0000000 UTC. */
void put_utc(uint64_t seconds, uint64_t ticks, char text[UTC_ROOM]);

#endif
