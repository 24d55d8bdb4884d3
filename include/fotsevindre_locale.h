/* The names of a locale of the system, for C, by nl_langinfo_l of POSIX. This header is tested and not
 * proved: unlike the library it reads the system's locales. With -std=c99 or later, define
 * _POSIX_C_SOURCE as 200809L or more before the first #include; with _GNU_SOURCE there are also the
 * months without a day. */
#ifndef FOTSEVINDRE_LOCALE_H
#define FOTSEVINDRE_LOCALE_H

#include <langinfo.h>
#include <locale.h>
#include <string.h>

#include "fotsevindre.h"

/* Returns a name of a locale, without the spaces around it. */
static inline fots_name fots_name_of_locale(locale_t locale, nl_item item)
{
    fots_name name;
    name.text = nl_langinfo_l(item, locale);
    name.text += strspn(name.text, " ");
    name.text_length = strlen(name.text);
    while (name.text_length > 0 && name.text[name.text_length - 1] == ' ') {
        name.text_length--;
    }
    return name;
}

/* Writes the names of a locale, such as newlocale(LC_TIME_MASK, "fr_FR.UTF-8", (locale_t)0).
 * They stay valid until freelocale. The names of halves of the day are also those in lower case, which
 * the C library doesn't have. */
static inline void fots_names_of_locale(locale_t locale, fots_language_names *names)
{
    for (int month = 0; month < 12; month++) {
        names->months[month] = fots_name_of_locale(locale, MON_1 + month);
#ifdef ALTMON_1
        names->months_alone[month] = fots_name_of_locale(locale, ALTMON_1 + month);
#else
        names->months_alone[month] = names->months[month];
#endif
        names->short_months[month] = fots_name_of_locale(locale, ABMON_1 + month);
    }
    for (int weekday = 0; weekday < 7; weekday++) {
        /* The system's tables begin with Sunday. */
        names->weekdays[weekday] = fots_name_of_locale(locale, DAY_1 + (weekday + 1) % 7);
        names->short_weekdays[weekday] = fots_name_of_locale(locale, ABDAY_1 + (weekday + 1) % 7);
    }
    for (int half = 0; half < 2; half++) {
        names->periods[half] = fots_name_of_locale(locale, AM_STR + half);
        names->lower_periods[half] = names->periods[half];
    }
}

#endif
