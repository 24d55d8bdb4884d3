/* The current time, for C, by clock_gettime of POSIX. For C++ there are ZonedDateTime::now and the
 * like. This header is tested and not proved: unlike the library it reads a clock. With -std=c99 or
 * later, define _POSIX_C_SOURCE as 199309L or more before the first #include. */
#ifndef FOTSEVINDRE_CLOCK_H
#define FOTSEVINDRE_CLOCK_H

#include <time.h>

#include "fotsevindre.h"

/* Returns the Unix time, with the nanoseconds of the clock of the system; {INT64_MIN, 0} if there is
 * no clock, which the functions below make FOTS_RESULT_OUT_OF_RANGE. */
static inline fots_duration fots_unix_time_now(void)
{
    struct timespec now;
    fots_duration time = {INT64_MIN, 0, 0};
    if (clock_gettime(CLOCK_REALTIME, &now) == 0) {
        /* From 0 to 999999999, so below 0 the second of its whole part is one later. */
        time.seconds = now.tv_sec < 0 && now.tv_nsec > 0 ? now.tv_sec + 1 : now.tv_sec;
        time.nanoseconds = (int32_t)(time.seconds == now.tv_sec ? now.tv_nsec : now.tv_nsec - 1000000000);
    }
    return time;
}

/* Returns the moment now, at offset 0. Its date and its time are in UTC. */
static inline fots_moment_result fots_moment_now(void)
{
    return fots_moment_from_unix_time(fots_unix_time_now());
}

/* Returns the moment now in a zone, whose date and time are what the clocks show; FOTS_INVALID_ZONE. */
static inline fots_moment_result fots_zoned_now(const fots_zone *zone)
{
    return fots_zoned_at(zone, fots_unix_time_now());
}

#endif
