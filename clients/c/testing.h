/* Counts checks and failures. */
#ifndef TESTING_H
#define TESTING_H

#include <stdio.h>

#include "fotsevindre.h"

static unsigned long long passed, failed;

/* Counts a check, and prints it if it fails. */
static int check(int holds, const char *what, long long first, long long second)
{
    if (holds) {
        passed++;
    } else if (++failed <= 20) {
        printf("failed: %s at %lld %lld\n", what, first, second);
    }
    return holds;
}

static inline fots_date date_at(int32_t julian_day)
{
    fots_date date = {julian_day};
    return date;
}

static inline fots_offset offset_at(int32_t seconds)
{
    fots_offset offset = {seconds};
    return offset;
}

/* Prints the number of checks, and returns whether all passed. */
static int ended(const char *name)
{
    printf("%s: %llu facts, %llu failed\n", name, passed + failed, failed);
    return failed != 0;
}

#endif
