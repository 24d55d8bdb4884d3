/* Checks that the current time is between two readings of another clock of the system. */
#define _POSIX_C_SOURCE 199309L
#include <string.h>

#include "fotsevindre_clock.h"
#include "testing.h"

int main(void)
{
    const char *const text = "CET-1CEST,M3.5.0,M10.5.0/3";
    const fots_zone berlin = fots_zone_from_posix(text, strlen(text)).zone;
    const time_t before = time(NULL);
    const fots_duration now = fots_unix_time_now();
    const fots_moment_result utc = fots_moment_now(), here = fots_zoned_now(&berlin);
    const time_t after = time(NULL);
    const struct tm *const parts = gmtime(&before);
    /* time() may return a coarser reading, a second before. */
    check(now.seconds >= before - 1 && now.seconds <= after && now.nanoseconds >= 0 && now.nanoseconds <= 999999999, "the Unix time", now.seconds, now.nanoseconds);
    check(utc.status == FOTS_OK && utc.moment.offset.seconds == 0 && fots_moment_unix_timestamp(utc.moment).number >= now.seconds, "the moment", utc.status, 0);
    check(fots_date_year(utc.moment.date).number == parts->tm_year + 1900 || after != before, "the year", parts->tm_year, 0);
    check(here.status == FOTS_OK && (here.moment.offset.seconds == 3600 || here.moment.offset.seconds == 7200), "the offset", here.moment.offset.seconds, 0);
    check(fots_moment_duration_since(here.moment, utc.moment).duration.seconds < 60, "the same instant", 0, 0);
    return ended("clock");
}
