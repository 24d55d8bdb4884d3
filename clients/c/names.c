/* Checks formats with the names of languages. The texts are from GNU date by the locales of glibc
 * 2.36, such as LC_ALL=fr_FR.UTF-8 date -u -d '2024-02-29 19:30' '+%A, %-d %B %Y'. */
#define _GNU_SOURCE
#include <string.h>

#include "fotsevindre_locale.h"
#include "testing.h"

#define COUNT(rows) (sizeof(rows) / sizeof(rows)[0])
#define ROOM (FOTS_MAX_ITEMS * FOTS_MAX_NAME_LENGTH)

/* A language, and what date prints: %A %a %B %b %OB %p. */
typedef struct Row {
    const char *code, *weekday, *short_weekday, *month, *short_month, *month_alone, *period;
} Row;

static const Row ROWS[] = {
    {"ar", "الخميس", "خ", "فبراير", "فبر", "فبراير", "م"},
    {"de", "Donnerstag", "Do", "Februar", "Feb", "Februar", ""},
    {"en", "Thursday", "Thu", "February", "Feb", "February", "PM"},
    {"es", "jueves", "jue", "febrero", "feb", "febrero", ""},
    {"fr", "jeudi", "jeu.", "février", "févr.", "février", ""},
    {"it", "giovedì", "gio", "febbraio", "feb", "febbraio", ""},
    {"ja", "木曜日", "木", "2月", "2月", "2月", "午後"},
    {"pl", "czwartek", "czw", "lutego", "lut", "luty", ""},
    {"pt", "quinta", "qui", "fevereiro", "fev", "fevereiro", ""},
    {"ru", "Четверг", "Чт", "февраля", "фев", "Февраль", ""},
    {"tr", "Perşembe", "Prş", "Şubat", "Şub", "Şubat", "ÖS"},
    {"zh", "星期四", "四", "二月", "2月", "二月", "下午"},
};

/* A format, and the text of 2024-02-29 19:30 +01:00 with the names of French. */
static const char *const FRENCH[][2] = {
    {"%A, %-d %B %Y %R %z", "jeudi, 29 février 2024 19:30 +0100"}, {"%a %e %b %Y %R %z", "jeu. 29 févr. 2024 19:30 +0100"},
    {"%Y%B%d%A%T%:z", "2024février29jeudi19:30:00+01:00"},
};

static char buffer[ROOM];

static fots_format format_of(const char *text)
{
    const fots_format_result made = fots_format_new(text, strlen(text));
    check(made.status == FOTS_OK, text, made.status, 0);
    return made.format;
}

static fots_language_names names_of(const char *code)
{
    fots_language_names names;
    const int32_t status = fots_names_of_language(code, strlen(code), &names);
    check(status == FOTS_OK, code, status, 0);
    return names;
}

static fots_date a_date(void) { return fots_date_from_calendar_date(2024, 2, 29).date; }
static fots_time a_time(void) { return fots_time_from_hms(19, 30, 0).time; }

static fots_moment a_moment(void)
{
    const fots_moment moment = {a_date(), {3600}, a_time()};
    return moment;
}

static void is_text(fots_length_result result, const char *text)
{
    check(result.status == FOTS_OK && result.length == strlen(text) && memcmp(buffer, text, result.length) == 0, text, result.status, (long long)result.length);
}

static void languages(void)
{
    for (size_t row = 0; row < COUNT(ROWS); row++) {
        const Row *const its = &ROWS[row];
        const fots_language_names names = names_of(its->code);
        const fots_format weekday = format_of("%A"), short_weekday = format_of("%a"), month = format_of("%B"), month_alone = format_of("%OB"), short_month = format_of("%b"), period = format_of("%p");
        is_text(fots_date_format_names(a_date(), &weekday, &names, buffer, ROOM), its->weekday);
        is_text(fots_date_format_names(a_date(), &short_weekday, &names, buffer, ROOM), its->short_weekday);
        is_text(fots_date_format_names(a_date(), &month, &names, buffer, ROOM), its->month);
        is_text(fots_date_format_names(a_date(), &short_month, &names, buffer, ROOM), its->short_month);
        is_text(fots_date_format_names(a_date(), &month_alone, &names, buffer, ROOM), its->month_alone);
        is_text(fots_time_format_names(a_time(), &period, &names, buffer, ROOM), its->period);
    }
    fots_language_names none;
    memset(&none, 0x5A, sizeof none);
    check(fots_names_of_language("xx", 2, &none) == FOTS_UNKNOWN_LANGUAGE && none.months[11].text_length == 0 && none.lower_periods[1].text_length == 0, "no language", 0, 0);
    check(fots_names_of_language("frr", 3, &none) == FOTS_UNKNOWN_LANGUAGE && fots_names_of_language("", 0, &none) == FOTS_UNKNOWN_LANGUAGE, "no code", 0, 0);
}

static void days_in_each_language(void)
{
    const fots_format format = format_of("%A, %-d %B %Y, %a %b %R%z");
    for (size_t row = 0; row < COUNT(ROWS); row++) {
        const fots_language_names names = names_of(ROWS[row].code);
        for (int32_t day = 0; day < 366; day++) {
            const fots_moment moment = {{a_date().julian_day + day}, {3600}, a_time()};
            const fots_length_result text = fots_moment_format_names(moment, &format, &names, buffer, ROOM);
            const fots_parse_moment_result parsed = fots_moment_parse_names(buffer, text.length, &format, &names);
            check(parsed.status == FOTS_OK && parsed.date.julian_day == moment.date.julian_day && parsed.time == moment.time && parsed.offset.seconds == 3600, ROWS[row].code, day, parsed.status);
        }
    }
}

static void french(void)
{
    const fots_language_names names = names_of("fr");
    for (size_t row = 0; row < COUNT(FRENCH); row++) {
        const fots_format format = format_of(FRENCH[row][0]);
        const char *const text = FRENCH[row][1];
        is_text(fots_moment_format_names(a_moment(), &format, &names, buffer, ROOM), text);
        const fots_parse_moment_result parsed = fots_moment_parse_names(text, strlen(text), &format, &names);
        check(parsed.status == FOTS_OK && parsed.date.julian_day == 2460370 && parsed.time == a_time() && parsed.offset.seconds == 3600, text, parsed.status, (long long)parsed.position);
    }
    const fots_format date = format_of("%-d %B %Y"), pair = format_of("%-d %B %Y, %R");
    is_text(fots_date_format_names(a_date(), &date, &names, buffer, ROOM), "29 février 2024");
    is_text(fots_pair_format_names(a_date(), a_time(), &pair, &names, buffer, ROOM), "29 février 2024, 19:30");
    check(fots_date_parse_names("29 février 2024", 16, &date, &names).date.julian_day == 2460370, "a date", 0, 0);
    const fots_parse_moment_result parsed = fots_pair_parse_names("29 février 2024, 19:30", 23, &pair, &names);
    check(parsed.status == FOTS_OK && parsed.date.julian_day == 2460370 && parsed.time == a_time() && parsed.offset.seconds == 0, "a pair", parsed.status, 0);
    const fots_parse_date_result wrong = fots_date_parse_names("29 fevrier 2024", 15, &date, &names), end = fots_date_parse_names("29 févr", 8, &date, &names);
    check(wrong.status == FOTS_UNEXPECTED_BYTE && wrong.position == 4 && wrong.date.julian_day == FOTS_NO_VALUE, "no accent", wrong.status, (long long)wrong.position);
    check(end.status == FOTS_UNEXPECTED_END && end.position == 8, "the front of a name", end.status, (long long)end.position);
    const fots_parse_date_result none = fots_date_parse_names("30 février 2024", 16, &date, &names);
    check(none.status == FOTS_DAY_OUT_OF_RANGE && none.position == SIZE_MAX, "no day", none.status, 0);
    const fots_format weekday = format_of("%A %F");
    const fots_parse_date_result other = fots_date_parse_names("mardi 2024-02-29", 16, &weekday, &names);
    check(other.status == FOTS_CONTRADICTION && other.position == FOTS_WEEKDAY_OUT_OF_RANGE, "another weekday", other.status, (long long)other.position);
    const fots_format period = format_of("%p%-I:%M");
    const fots_language_names japanese = names_of("ja");
    check(fots_time_parse_names("午後7:30", 10, &period, &japanese).time == a_time(), "a time", 0, 0);
}

static void is_check(const char *code, const char *format, int32_t status, uint32_t byte, size_t item, size_t name, size_t other)
{
    const fots_language_names names = names_of(code);
    const fots_format held = format_of(format);
    const fots_names_check_result found = fots_names_check(&held, &names);
    check(found.status == status && found.byte == byte && found.item == item && found.name == name && found.other == other, format, found.status, (long long)found.item);
}

/* By hand: which names begin others, and which begin with a digit. */
static void checks(void)
{
    is_check("fr", "%A, %-d %B %Y", FOTS_OK, 0, SIZE_MAX, SIZE_MAX, SIZE_MAX);
    is_check("tr", "%Atesi %F", FOTS_AMBIGUOUS_NAMES, 0, 0, 6, 0);
    is_check("tr", "%F %Artesi", FOTS_AMBIGUOUS_NAMES, 0, 6, 4, 5);
    is_check("ja", "%-d%B %Y", FOTS_AMBIGUOUS_NUMBER, '1', 0, SIZE_MAX, SIZE_MAX);
    is_check("fr", "%I:%M %p", FOTS_AMBIGUOUS_NAMES, 0, 4, 0, 1);
    is_check("en", "%I:%M %p", FOTS_OK, 0, SIZE_MAX, SIZE_MAX, SIZE_MAX);
    const fots_language_names turkish = names_of("tr");
    const fots_format format = format_of("%Atesi %F");
    const fots_parse_date_result parsed = fots_date_parse_names("Pazartesi 2024-02-25", 20, &format, &turkish);
    check(parsed.status == FOTS_AMBIGUOUS_NAMES && parsed.position == 0 && parsed.date.julian_day == FOTS_NO_VALUE, "ambiguous names", parsed.status, (long long)parsed.position);
}

static void errors(void)
{
    const fots_language_names english = names_of("en");
    const fots_format month = format_of("%B"), hour = format_of("%H"), date = format_of("%-d %B %Y");
    fots_format other = month;
    other.items[0].value = 6;
    fots_language_names names = english;
    static char long_name[FOTS_MAX_NAME_LENGTH + 1];
    memset(long_name, 'a', sizeof long_name);
    names.months[1] = (fots_name){long_name, FOTS_MAX_NAME_LENGTH};
    check(fots_date_format_names(a_date(), &month, &names, buffer, ROOM).length == FOTS_MAX_NAME_LENGTH, "the longest name", 0, 0);
    names.months[1].text_length++;
    check(fots_date_format_names(a_date(), &month, &names, buffer, ROOM).status == FOTS_INVALID_NAMES, "too long", 0, 0);
    check(fots_names_check(&month, &names).status == FOTS_INVALID_NAMES && fots_names_check(&other, &names).status == FOTS_INVALID_FORMAT, "invalid arguments", 0, 0);
    names = english;
    names.lower_periods[1] = (fots_name){"\xff", 1};
    const fots_parse_date_result invalid = fots_date_parse_names("1", 1, &month, &names);
    check(invalid.status == FOTS_INVALID_NAMES && invalid.position == SIZE_MAX, "no UTF-8", invalid.status, 0);
    check(fots_date_parse_names("1", 1, &other, &names).status == FOTS_INVALID_FORMAT, "no format", 0, 0);
    check(fots_date_parse_names("1", 1, &month, &english).status == FOTS_INSUFFICIENT_FORMAT, "a month only", 0, 0);
    check(fots_date_format_names(a_date(), &hour, &english, buffer, ROOM).status == FOTS_UNSUPPORTED_ITEM, "the hour of a date", 0, 0);
    check(fots_date_format_names(date_at(FOTS_NO_VALUE), &month, &names, buffer, ROOM).status == FOTS_INVALID_DATE, "no date", 0, 0);
    check(fots_time_format_names(FOTS_NO_TIME, &hour, &names, buffer, ROOM).status == FOTS_INVALID_TIME, "no time", 0, 0);
    strcpy(buffer, "unchanged");
    const fots_length_result text = fots_date_format_names(a_date(), &date, &english, buffer, 15);
    check(text.status == FOTS_BUFFER_TOO_SHORT && text.length == 16 && strcmp(buffer, "unchanged") == 0, "a short buffer", text.status, (long long)text.length);
    is_text(fots_date_format_names(a_date(), &date, &english, buffer, 16), "29 February 2024");
    char items[FOTS_MAX_ITEMS * 2 + 1] = "";
    for (int item = 0; item < FOTS_MAX_ITEMS; item++) {
        strcat(items, "%B");
    }
    const fots_format many = format_of(items);
    names = english;
    names.months[1] = (fots_name){long_name, FOTS_MAX_NAME_LENGTH};
    check(fots_date_format_names(a_date(), &many, &names, buffer, ROOM).length == ROOM, "the longest text", 0, 0);
}

static int is_same(fots_name name, fots_name other)
{
    return name.text_length == other.text_length && memcmp(name.text, other.text, name.text_length) == 0;
}

/* Checks that the locale C has the English names, and that others, where the system has them, have those
 * of their language. */
static void locales(void)
{
    static const char *const others[][2] = {{"C", "en"}, {"de_DE.UTF-8", "de"}, {"fr_FR.UTF-8", "fr"}, {"ja_JP.UTF-8", "ja"}, {"pl_PL.UTF-8", "pl"}};
    for (size_t row = 0; row < COUNT(others); row++) {
        const locale_t locale = newlocale(LC_TIME_MASK, others[row][0], (locale_t)0);
        if (locale == (locale_t)0) {
            check(row > 0, "the locale C", 0, 0);
            continue;
        }
        const fots_language_names own = names_of(others[row][1]);
        fots_language_names names;
        fots_names_of_locale(locale, &names);
        for (int month = 0; month < 12; month++) {
            check(is_same(names.months[month], own.months[month]) && is_same(names.months_alone[month], own.months_alone[month]) && is_same(names.short_months[month], own.short_months[month]), others[row][0], month, 0);
        }
        for (int weekday = 0; weekday < 7; weekday++) {
            check(is_same(names.weekdays[weekday], own.weekdays[weekday]) && is_same(names.short_weekdays[weekday], own.short_weekdays[weekday]), others[row][0], weekday, 0);
        }
        check(is_same(names.periods[1], own.periods[1]) && is_same(names.lower_periods[1], names.periods[1]), others[row][0], 0, 1);
        freelocale(locale);
    }
}

int main(void)
{
    languages();
    locales();
    days_in_each_language();
    french();
    checks();
    errors();
    return ended("names");
}
