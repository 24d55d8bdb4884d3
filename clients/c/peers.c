/* Times formats and zones beside glibc. */
#include "fotsevindre_zones.h"

#include "bench.h"

#define ROOM 64

static fots_date dates[VALUES];
static fots_time times[VALUES];
static struct tm peers[VALUES];
static int64_t instants[VALUES], readings[VALUES], found_instants[VALUES];
static int32_t found_offsets[VALUES];
static uint8_t statuses[VALUES];
static char texts[VALUES][ROOM];
static size_t lengths[VALUES];
static fots_format_result format;
static const char *format_text;
static const fots_zone *zone;

/* Fills in dates of the years 1000 to 9999 and times of day in whole seconds, also as a struct tm. */
static void draw_dates(void)
{
    for (int k = 0; k < VALUES; k++) {
        dates[k].julian_day = (int32_t)(2086303 + drawn() % 3287181);
        times[k] = (fots_time)(drawn() % 86400) * 1000000000U;
        const fots_calendar_date_result date = fots_date_to_calendar_date(dates[k]);
        const fots_time second = times[k] / 1000000000U;
        peers[k].tm_year = date.year - 1900;
        peers[k].tm_mon = (int)date.month - 1;
        peers[k].tm_mday = (int)date.day;
        peers[k].tm_hour = (int)(second / 3600);
        peers[k].tm_min = (int)(second / 60 % 60);
        peers[k].tm_sec = (int)(second % 60);
        peers[k].tm_wday = (int)fots_date_weekday(dates[k]).number % 7;
        peers[k].tm_yday = (int)fots_date_ordinal(dates[k]).number - 1;
    }
}

static int compare_instants(const void *one, const void *other)
{
    const int64_t first = *(const int64_t *)one, second = *(const int64_t *)other;
    return (first > second) - (first < second);
}

/* Fills in instants from one day on up to another, counted from 1970, and local times. */
static void draw_instants(int32_t first, int32_t last, int is_in_order)
{
    for (int k = 0; k < VALUES; k++) {
        instants[k] = (int64_t)(first + (int32_t)(drawn() % (uint32_t)(last - first))) * 86400 + drawn() % 86400;
    }
    if (is_in_order) {
        qsort(instants, VALUES, sizeof *instants, compare_instants);
    }
    for (int k = 0; k < VALUES; k++) {
        const fots_pair_result local = fots_unix_pair((fots_duration){instants[k], 0, 0}, (fots_offset){3600});
        dates[k] = local.date;
        times[k] = local.time;
        readings[k] = instants[k] + 3600;
    }
}

static void print_dates(void)
{
    char bytes[ROOM];
    for (int k = 0; k < VALUES; k++) {
        keep((int64_t)fots_date_format(dates[k], &format.format, bytes, sizeof bytes).length);
    }
}

static void print_times(void)
{
    char bytes[ROOM];
    for (int k = 0; k < VALUES; k++) {
        keep((int64_t)fots_time_format(times[k], &format.format, bytes, sizeof bytes).length);
    }
}

static void print_pairs(void)
{
    char bytes[ROOM];
    for (int k = 0; k < VALUES; k++) {
        keep((int64_t)fots_pair_format(dates[k], times[k], &format.format, bytes, sizeof bytes).length);
    }
}

static void print_by_glibc(void)
{
    char bytes[ROOM];
    for (int k = 0; k < VALUES; k++) {
        keep((int64_t)strftime(bytes, sizeof bytes, format_text, &peers[k]));
    }
}

static void parse_dates(void)
{
    for (int k = 0; k < VALUES; k++) {
        keep(fots_date_parse_format(texts[k], lengths[k], &format.format).date.julian_day);
    }
}

static void parse_times(void)
{
    for (int k = 0; k < VALUES; k++) {
        keep((int64_t)fots_time_parse_format(texts[k], lengths[k], &format.format).time);
    }
}

static void parse_pairs(void)
{
    for (int k = 0; k < VALUES; k++) {
        keep((int64_t)fots_pair_parse_format(texts[k], lengths[k], &format.format).time);
    }
}

static void parse_by_glibc(void)
{
    struct tm found = {0};
    for (int k = 0; k < VALUES; k++) {
        keep(strptime(texts[k], format_text, &found) != NULL);
    }
}

static void offsets(void)
{
    for (int k = 0; k < VALUES; k++) {
        keep(fots_zone_offset(zone, instants[k]).offset.seconds);
    }
}

static void local_times(void)
{
    for (int k = 0; k < VALUES; k++) {
        keep(fots_zone_resolve(zone, dates[k], times[k]).earlier);
    }
}

static void column_of_offsets(void)
{
    keep((int64_t)fots_zone_offsets(zone, instants, VALUES, found_offsets, VALUES, statuses, VALUES));
}

static void column_of_local_times(void)
{
    keep((int64_t)fots_zone_instants(zone, readings, VALUES, FOTS_COMPATIBLE, found_instants, VALUES, statuses, VALUES));
}

static void local_times_by_glibc(void)
{
    struct tm found;
    for (int k = 0; k < VALUES; k++) {
        const time_t instant = (time_t)instants[k];
        keep(localtime_r(&instant, &found)->tm_hour);
    }
}

static void beside(const char *group, const char *task, void (*ours)(void), void (*theirs)(void), int rounds)
{
    const struct timed loops[MAX_LOOPS] = {{"here", ours}, {"glibc", theirs}, {NULL, NULL}};
    compare("c", group, task, loops, rounds);
}

/* Compares a format: printed, and parsed from the texts that glibc prints. */
static void compare_format(const char *text, void (*print)(void), void (*parse)(void), int rounds)
{
    char name[ROOM];
    format_text = text;
    format = fots_format_new(text, strlen(text));
    for (int k = 0; k < VALUES; k++) {
        lengths[k] = strftime(texts[k], ROOM, text, &peers[k]);
    }
    snprintf(name, sizeof name, "%s printed", text);
    beside("a format printed, C", name, print, print_by_glibc, rounds);
    snprintf(name, sizeof name, "%s parsed", text);
    beside("a format parsed, C", name, parse, parse_by_glibc, rounds);
}

/* Compares functions of a zone with localtime_r. */
static void compare_zones(const char *years, int rounds)
{
    static const struct timed ours[] = {
        {"fots_zone_offset", offsets},
        {"fots_zone_resolve", local_times},
        {"fots_zone_offsets", column_of_offsets},
        {"fots_zone_instants", column_of_local_times},
    };
    char task[ROOM];
    for (size_t k = 0; k < sizeof ours / sizeof *ours; k++) {
        snprintf(task, sizeof task, "%s, %s", ours[k].name, years);
        beside("zones, C", task, ours[k].run, local_times_by_glibc, rounds);
    }
}

int main(int argc, char **argv)
{
    static const char *const of_dates[] = {"%Y-%m-%d", "%Y-%j", "%G-W%V-%u", "%d %b %Y", "%d/%m/%Y", "%a, %d %b %Y"};
    static const char *const of_times[] = {"%H:%M:%S", "%-I:%M %p"};
    const int rounds = rounds_of(argc, argv);
    draw_dates();
    for (size_t k = 0; k < sizeof of_dates / sizeof *of_dates; k++) {
        compare_format(of_dates[k], print_dates, parse_dates, rounds);
    }
    compare_format("%Y-%m-%d %H:%M:%S", print_pairs, parse_pairs, rounds);
    for (size_t k = 0; k < sizeof of_times / sizeof *of_times; k++) {
        compare_format(of_times[k], print_times, parse_times, rounds);
    }
    setenv("TZ", "Europe/Berlin", 1);
    tzset();
    zone = fots_zone_named("Europe/Berlin").zone;
    if (zone == NULL) {
        fputs("no zone files\n", stderr);
        return 0;
    }
    draw_instants(3652, 24107, 0);
    compare_zones("1980 to 2035", rounds);
    draw_instants(-25567, 24837, 1);
    compare_zones("1900 to 2037 in order", rounds);
    draw_instants(25567, 157054, 0);
    compare_zones("2040 to 2399", rounds);
    return 0;
}
