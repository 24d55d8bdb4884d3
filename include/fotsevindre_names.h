/* Names of policies, units, rounding modes, day counts and conventions, for C: from a name to its
 * number and back, such as "following" and FOTS_FOLLOWING. Configuration files and databases have such
 * names. This header is tested and not proved. */
#ifndef FOTSEVINDRE_NAMES_H
#define FOTSEVINDRE_NAMES_H

#include <stddef.h>
#include <stdint.h>
#include <string.h>

#include "fotsevindre.h"

/* The names of the numbers from `first` on, and the words of an error that lists them. */
typedef struct fots_names {
    const char *what;
    const char *expected;
    uint32_t first;
    uint32_t length;
    const char *names[20]; /* in lower case */
} fots_names;

/* A name that isn't in a table. */
#define FOTS_NO_NUMBER UINT32_MAX

/* Return the names of a fots_policy, a fots_calendar_unit of rounding and of periods, a
 * fots_rounding_mode, a fots_day_count, a fots_convention and a fots_calendar. */
static inline const fots_names *fots_policy_names(void)
{
    static const fots_names names
        = {"policy", "compatible, earlier, later or reject", FOTS_COMPATIBLE, 4, {"compatible", "earlier", "later", "reject", 0}};
    return &names;
}

static inline const fots_names *fots_unit_names(void)
{
    static const fots_names names = {"unit", "day, week, month, quarter or year", FOTS_DAY, 5, {"day", "week", "month", "quarter", "year"}};
    return &names;
}

static inline const fots_names *fots_rounding_mode_names(void)
{
    static const fots_names names = {
        "rounding mode", "floor, ceil, trunc, half ceil or half even", FOTS_FLOOR, 5, {"floor", "ceil", "trunc", "half ceil", "half even"}};
    return &names;
}

static inline const fots_names *fots_day_count_names(void)
{
    static const fots_names names = {"day count", "act/360, act/365, 30/360, 30e/360 or act/act", FOTS_ACTUAL_360, 5,
        {"act/360", "act/365", "30/360", "30e/360", "act/act"}};
    return &names;
}

static inline const fots_names *fots_convention_names(void)
{
    static const fots_names names = {"convention", "unadjusted, following, modified following, preceding or modified preceding",
        FOTS_UNADJUSTED, 5, {"unadjusted", "following", "modified following", "preceding", "modified preceding"}};
    return &names;
}

static inline const fots_names *fots_calendar_names(void)
{
    static const fots_names names = {"calendar",
        "target, us-federal, nyse, england-and-wales, de-bw, de-by, de-be, de-bb, de-hb, de-hh, de-he, de-mv, de-ni, de-nw, de-rp, de-sl, de-sn, "
        "de-st, de-sh or de-th",
        FOTS_TARGET, 20,
        {"target", "us-federal", "nyse", "england-and-wales", "de-bw", "de-by", "de-be", "de-bb", "de-hb", "de-hh", "de-he", "de-mv", "de-ni",
            "de-nw", "de-rp", "de-sl", "de-sn", "de-st", "de-sh", "de-th"}};
    return &names;
}

/* Returns the number of a name in lower case, or FOTS_NO_NUMBER. The text need not end with a zero
 * byte. */
static inline uint32_t fots_number_named(const fots_names *names, const char *text, size_t length)
{
    uint32_t index;
    for (index = 0; index < names->length; index++) {
        if (strlen(names->names[index]) == length && memcmp(names->names[index], text, length) == 0) {
            return names->first + index;
        }
    }
    return FOTS_NO_NUMBER;
}

/* Returns the name of a number, or NULL. */
static inline const char *fots_name_of(const fots_names *names, uint32_t number)
{
    return number >= names->first && number - names->first < names->length ? names->names[number - names->first] : NULL;
}

#endif
