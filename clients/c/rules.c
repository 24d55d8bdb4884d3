/* Times the days of recurrences beside libical, if HAS_LIBICAL is defined. */
#include "fotsevindre.h"

#ifdef HAS_LIBICAL
#include <libical/ical.h>
#endif

#define VALUES 200
#include "bench.h"

static const char *rule;
static fots_date start, days[VALUES];

static void list_days(void)
{
    keep((int64_t)fots_recurrence_days(rule, strlen(rule), start, start, days, VALUES).length);
}

#ifdef HAS_LIBICAL
static struct icaltimetype peers[VALUES];

static void list_days_by_libical(void)
{
    icalrecur_iterator *iterator = icalrecur_iterator_new(icalrecurrencetype_from_string(rule), icaltime_from_string("19970902"));
    for (int k = 0; k < VALUES; k++) {
        peers[k] = icalrecur_iterator_next(iterator);
    }
    icalrecur_iterator_free(iterator);
    keep(peers[0].day);
}

static int agrees(void)
{
    list_days();
    list_days_by_libical();
    for (int k = 0; k < VALUES; k++) {
        const fots_calendar_date_result day = fots_date_to_calendar_date(days[k]);
        if (day.year != peers[k].year || (int)day.month != peers[k].month || (int)day.day != peers[k].day) {
            fprintf(stderr, "other days by libical: %s\n", rule);
            return 0;
        }
    }
    return 1;
}
#else
#define list_days_by_libical NULL

static int agrees(void)
{
    return 0;
}
#endif

int main(int argc, char **argv)
{
    static char text[256];
    start = fots_date_from_calendar_date(1997, 9, 2).date;
    while (fgets(text, sizeof text, stdin)) {
        text[strcspn(text, "\n")] = '\0';
        rule = text;
        const struct timed loops[MAX_LOOPS] = {{"here", list_days}, {"libical", agrees() ? list_days_by_libical : NULL}, {NULL, NULL}};
        compare("rules", "recurrences, C", rule, loops, rounds_of(argc, argv));
    }
    return 0;
}
