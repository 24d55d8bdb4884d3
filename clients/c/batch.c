/* Compares column calls with single calls on random rows and limits, and tries different
 * lengths. */
#include <string.h>

#include "fotsevindre.h"
#include "testing.h"

#define ROWS 20000

static int32_t dates[ROWS], others[ROWS], years[ROWS], numbers[ROWS];
static int64_t days[ROWS];
static uint8_t months[ROWS], month_days[ROWS], weeks[ROWS], weekdays[ROWS];
static uint16_t ordinals[ROWS];

/* The output columns. */
static int32_t found[ROWS];
static uint8_t firsts[ROWS], seconds[ROWS], statuses[ROWS];
static uint16_t found_ordinals[ROWS];

/* Bytes of texts, their bounds, and the rest of moments. */
static char bytes[ROWS * FOTS_MAX_MOMENT_LENGTH + 1];
static int32_t bounds[ROWS + 1], offsets[ROWS], found_offsets[ROWS];
static uint64_t times[ROWS], found_times[ROWS];

static uint64_t drawn(void)
{
    static uint64_t state = 88172645463325252ULL;
    state ^= state << 13;
    state ^= state >> 7;
    state ^= state << 17;
    return state;
}

/* Returns random bits, cut to a random length. */
static int64_t drawn_bits(void)
{
    uint64_t bits = drawn();
    return (int64_t)bits >> (drawn() & 63);
}

/* Returns a number from 0 to `most`, or any bits. */
static uint16_t part(int value, uint16_t max)
{
    return (uint16_t)(value ? drawn() % (max + 1u) : drawn());
}

/* Moves both ends of the range past them and to them. */
static void ends(void)
{
    static const int32_t moves[] = {0, 1, -1, 23999987, -23999987, 23999988, -23999988, 521774738, -521774738, INT32_MAX, INT32_MIN};
    const int count = (int)(sizeof(moves) / sizeof(moves)[0]);
    for (int k = 0; k < 2 * count; k++) {
        dates[6 + k] = k < count ? FOTS_MIN_JULIAN_DAY : FOTS_MAX_JULIAN_DAY;
        others[6 + k] = k % 2 == 0 ? FOTS_MIN_JULIAN_DAY : FOTS_MAX_JULIAN_DAY;
        numbers[6 + k] = moves[k % count];
    }
}

/* Fills half of the rows mostly with valid values, the others with any bits. */
static void draw(void)
{
    for (int k = 0; k < ROWS; k++) {
        int value = drawn() % 2 == 0;
        dates[k] = value ? (int32_t)(drawn() % 730484634) + FOTS_MIN_JULIAN_DAY : (int32_t)(uint32_t)drawn();
        years[k] = value ? (int32_t)(drawn() % 1999999) + FOTS_MIN_YEAR : (int32_t)drawn_bits();
        others[k] = value ? dates[k] + (int32_t)(drawn() % 2001) - 1000 : (int32_t)(uint32_t)drawn();
        days[k] = value ? (int64_t)(drawn() % 800000) - 400000 : drawn_bits();
        numbers[k] = value ? (int32_t)(drawn() % 4801) - 2400 : (int32_t)drawn_bits();
        months[k] = (uint8_t)part(value, 13);
        month_days[k] = (uint8_t)part(value, 32);
        ordinals[k] = part(value, 367);
        weeks[k] = (uint8_t)part(value, 54);
        weekdays[k] = (uint8_t)part(value, 8);
    }
    dates[0] = FOTS_MIN_JULIAN_DAY;
    dates[1] = FOTS_MAX_JULIAN_DAY;
    dates[2] = FOTS_MIN_JULIAN_DAY - 1;
    dates[3] = FOTS_MAX_JULIAN_DAY + 1;
    dates[4] = INT32_MIN;
    dates[5] = INT32_MAX;
    days[0] = INT64_MIN;
    days[1] = INT64_MAX;
    ends();
}

/* Checks that row k has the status and the parts of the single call. */
#define SAME(call, status_of_one, parts) \
    do { \
        check(statuses[k] == (status_of_one), call, (long long)k, statuses[k]); \
        check(parts, call, (long long)k, statuses[k]); \
        errors += statuses[k] == FOTS_OK ? 0 : 1; \
    } while (0)

/* Checks each row against the single call, and the number of rows without a result. */
#define COLUMN(call, one, parts) \
    do { \
        size_t errors = 0, counted = call; \
        for (size_t k = 0; k < n; k++) { \
            one; \
            SAME(#call, single.status, parts); \
        } \
        check(counted == errors, "the rows without a result", (long long)counted, (long long)errors); \
    } while (0)

#define DATES_FOUND found[k] == single.date.julian_day

static void columns(size_t n)
{
    COLUMN(fots_dates_from_julian_days(days, n, found, n, statuses, n), fots_date_result single = fots_date_from_julian_day(days[k]),
        DATES_FOUND);
    COLUMN(fots_dates_from_calendar_dates(years, n, months, n, month_days, n, found, n, statuses, n),
        fots_date_result single = fots_date_from_calendar_date(years[k], months[k], month_days[k]), DATES_FOUND);
    COLUMN(fots_dates_from_ordinal_dates(years, n, ordinals, n, found, n, statuses, n),
        fots_date_result single = fots_date_from_ordinal_date(years[k], ordinals[k]), DATES_FOUND);
    COLUMN(fots_dates_from_iso_week_dates(years, n, weeks, n, weekdays, n, found, n, statuses, n),
        fots_date_result single = fots_date_from_iso_week_date(years[k], weeks[k], weekdays[k]), DATES_FOUND);
    COLUMN(fots_dates_to_calendar_dates(dates, n, found, n, firsts, n, seconds, n, statuses, n),
        fots_calendar_date_result single = fots_date_to_calendar_date(date_at(dates[k])),
        found[k] == single.year && firsts[k] == single.month && seconds[k] == single.day);
    COLUMN(fots_dates_to_ordinal_dates(dates, n, found, n, found_ordinals, n, statuses, n),
        fots_ordinal_date_result single = fots_date_to_ordinal_date(date_at(dates[k])),
        found[k] == single.year && found_ordinals[k] == single.ordinal);
    COLUMN(fots_dates_to_iso_week_dates(dates, n, found, n, firsts, n, seconds, n, statuses, n),
        fots_iso_week_date_result single = fots_date_to_iso_week_date(date_at(dates[k])),
        found[k] == single.year && firsts[k] == single.week && seconds[k] == single.weekday);
    COLUMN(fots_dates_weekdays(dates, n, firsts, n, statuses, n), fots_component_result single = fots_date_weekday(date_at(dates[k])),
        firsts[k] == (single.status == FOTS_OK ? single.number : 0));
    COLUMN(fots_dates_add_days(dates, n, days, n, found, n, statuses, n),
        fots_date_result single = fots_date_add_days(date_at(dates[k]), days[k]), DATES_FOUND);
    COLUMN(fots_dates_add_months(dates, n, numbers, n, found, n, statuses, n),
        fots_date_result single = fots_date_add_months(date_at(dates[k]), numbers[k]), DATES_FOUND);
}

/* Compares columns over working days with single functions: of a struct, and of a view with more
 * holidays, which is valid in the first turn only. */
static void workdays_columns(size_t n)
{
    enum { MANY = 3 * FOTS_MAX_HOLIDAYS };
    static fots_date holidays[MANY];
    static uint32_t marked_before[MANY + 1];
    for (int k = 0; k < MANY; k++) {
        holidays[k] = date_at(2400000 + 30 * k);
    }
    const fots_workdays_result few = fots_workdays_new(FOTS_MONDAY_TO_FRIDAY, holidays, FOTS_MAX_HOLIDAYS);
    COLUMN(fots_workdays_add_dates(&few.workdays, dates, n, numbers, n, found, n, statuses, n),
        fots_date_result single = fots_workdays_add(&few.workdays, date_at(dates[k]), numbers[k]), DATES_FOUND);
    COLUMN(fots_workdays_between_dates(&few.workdays, dates, n, others, n, found, n, statuses, n),
        fots_number_result single = fots_workdays_between(&few.workdays, date_at(dates[k]), date_at(others[k])), found[k] == single.number);
    fots_workdays_view_count(FOTS_MONDAY_TO_FRIDAY, holidays, MANY, marked_before, MANY + 1);
    for (size_t turn = 0; turn < 3; turn++) {
        const fots_workdays_view view = {turn == 1 ? 128 : FOTS_MONDAY_TO_FRIDAY, 0, holidays, MANY, marked_before, turn == 2 ? MANY : MANY + 1};
        COLUMN(fots_workdays_view_add_dates(&view, dates, n, numbers, n, found, n, statuses, n),
            fots_date_result single = fots_workdays_view_add(&view, date_at(dates[k]), numbers[k]), DATES_FOUND);
        check(turn == 0 || statuses[0] == (turn == 1 ? FOTS_INVALID_WEEKMASK : FOTS_INVALID_HOLIDAYS), "a wrong view", statuses[0], 0);
        COLUMN(fots_workdays_view_between_dates(&view, dates, n, others, n, found, n, statuses, n),
            fots_number_result single = fots_workdays_view_between(&view, date_at(dates[k]), date_at(others[k])), found[k] == single.number);
    }
}

/* Checks that a function can write its numbers onto the column that it reads, `column`. */
#define IN_PLACE(input, call) \
    do { \
        static int32_t wanted[ROWS]; \
        const int32_t *column = input; \
        (void)call; \
        memcpy(wanted, found, sizeof wanted); \
        memcpy(found, input, sizeof found); \
        column = found; \
        (void)call; \
        check(memcmp(wanted, found, sizeof wanted) == 0, "in place: " #call, 0, 0); \
    } while (0)

static void columns_in_place(void)
{
    const size_t n = ROWS;
    const fots_date holiday = date_at(2460370);
    const uint32_t marked_before[] = {0, 1};
    const fots_workdays_result made = fots_workdays_new(FOTS_MONDAY_TO_FRIDAY, &holiday, 1);
    const fots_workdays_view view = {FOTS_MONDAY_TO_FRIDAY, 0, &holiday, 1, marked_before, 2};
    IN_PLACE(years, fots_dates_from_calendar_dates(column, n, months, n, month_days, n, found, n, statuses, n));
    IN_PLACE(years, fots_dates_from_ordinal_dates(column, n, ordinals, n, found, n, statuses, n));
    IN_PLACE(years, fots_dates_from_iso_week_dates(column, n, weeks, n, weekdays, n, found, n, statuses, n));
    IN_PLACE(years, fots_calendar_dates_to_iso_week_dates(column, n, months, n, month_days, n, found, n, firsts, n, seconds, n, statuses, n));
    IN_PLACE(dates, fots_dates_to_calendar_dates(column, n, found, n, firsts, n, seconds, n, statuses, n));
    IN_PLACE(dates, fots_dates_to_ordinal_dates(column, n, found, n, found_ordinals, n, statuses, n));
    IN_PLACE(dates, fots_dates_to_iso_week_dates(column, n, found, n, firsts, n, seconds, n, statuses, n));
    IN_PLACE(dates, fots_dates_add_days(column, n, days, n, found, n, statuses, n));
    IN_PLACE(dates, fots_dates_add_months(column, n, numbers, n, found, n, statuses, n));
    IN_PLACE(dates, fots_workdays_add_dates(&made.workdays, column, n, numbers, n, found, n, statuses, n));
    IN_PLACE(dates, fots_workdays_between_dates(&made.workdays, column, n, others, n, found, n, statuses, n));
    IN_PLACE(dates, fots_workdays_view_add_dates(&view, column, n, numbers, n, found, n, statuses, n));
    IN_PLACE(dates, fots_workdays_view_between_dates(&view, column, n, others, n, found, n, statuses, n));
}

/* Compares the conversion to ISO week dates at once with the one by dates. */
static void chained(size_t n)
{
    static int32_t iso_years[ROWS];
    static uint8_t first_statuses[ROWS], chained_weeks[ROWS], chained_weekdays[ROWS];
    size_t made = fots_dates_from_calendar_dates(years, n, months, n, month_days, n, found, n, first_statuses, n);
    size_t errors = fots_dates_to_iso_week_dates(found, n, iso_years, n, firsts, n, seconds, n, statuses, n);
    size_t at_once = fots_calendar_dates_to_iso_week_dates(years, n, months, n, month_days, n, found, n, chained_weeks, n,
        chained_weekdays, n, statuses, n);
    check(made == errors && errors == at_once, "the rows without a result", (long long)made, (long long)at_once);
    for (size_t k = 0; k < n; k++) {
        check(statuses[k] == first_statuses[k], "the status of a chained row", (long long)k, statuses[k]);
        check(found[k] == iso_years[k] && chained_weeks[k] == firsts[k] && chained_weekdays[k] == seconds[k], "a chained row",
            (long long)k, found[k]);
    }
}

/* Checks that different lengths write nothing. */
static void different_lengths(void)
{
    found[0] = 77;
    statuses[0] = 77;
    check(fots_dates_from_julian_days(days, 2, found, 1, statuses, 1) == FOTS_LENGTH_MISMATCH, "two Julian days and one date", 0, 0);
    check(fots_dates_from_julian_days(days, 1, found, 1, statuses, 2) == FOTS_LENGTH_MISMATCH, "a status too many", 0, 0);
    check(fots_dates_from_calendar_dates(years, 1, months, 0, month_days, 1, found, 1, statuses, 1) == FOTS_LENGTH_MISMATCH, "a month too few", 0, 0);
    check(fots_dates_from_iso_week_dates(years, 1, weeks, 1, weekdays, 2, found, 1, statuses, 1) == FOTS_LENGTH_MISMATCH, "a weekday too many", 0, 0);
    check(fots_dates_to_iso_week_dates(dates, 1, found, 1, firsts, 1, seconds, 0, statuses, 1) == FOTS_LENGTH_MISMATCH, "no weekday", 0, 0);
    check(fots_dates_add_days(dates, 1, days, 1, found, 0, statuses, 1) == FOTS_LENGTH_MISMATCH, "no date", 0, 0);
    check(fots_dates_add_months(dates, 1, numbers, 2, found, 1, statuses, 1) == FOTS_LENGTH_MISMATCH, "two months", 0, 0);
    const fots_workdays_result made = fots_workdays_new(128, NULL, 0);
    check(fots_workdays_add_dates(&made.workdays, dates, 2, numbers, 2, found, 2, statuses, 1) == FOTS_LENGTH_MISMATCH, "a status too few", 0, 0);
    check(fots_workdays_between_dates(&made.workdays, dates, 1, others, 0, found, 1, statuses, 1) == FOTS_LENGTH_MISMATCH, "no other date", 0, 0);
    const fots_date holiday = date_at(2460370);
    const uint32_t marked_before = 0;
    const fots_workdays_view wrong = {128, 0, &holiday, 0, &marked_before, 0};
    check(fots_workdays_view_add_dates(&wrong, dates, 1, numbers, 2, found, 1, statuses, 1) == FOTS_LENGTH_MISMATCH, "a number too many", 0, 0);
    check(fots_workdays_view_between_dates(&wrong, dates, 1, others, 1, found, 0, statuses, 1) == FOTS_LENGTH_MISMATCH, "no number", 0, 0);
    check(fots_dates_from_julian_days(days, 0, found, 0, statuses, 0) == 0, "no rows", 0, 0);
    check(found[0] == 77 && statuses[0] == 77, "what stood there", found[0], statuses[0]);
}

/* Checks that row k of the texts has the status and the bytes of the single call. */
static size_t same_text(size_t k, fots_text_result single)
{
    size_t text_length = (size_t)(bounds[k + 1] - bounds[k]);
    check(statuses[k] == single.status, "the status of a text", (long long)k, statuses[k]);
    check(text_length == single.length && memcmp(bytes + bounds[k], single.bytes, text_length) == 0, "a text", (long long)k, bounds[k]);
    return single.status == FOTS_OK ? 0 : 1;
}

/* Parses texts one after another and at once. */
static void read_back(size_t n, size_t bytes_length)
{
    size_t errors = 0, counted = fots_dates_parse(bytes, bytes_length, bounds, n + 1, found, n, statuses, n);
    for (size_t k = 0; k < n; k++) {
        fots_parse_date_result single = fots_date_parse(bytes + bounds[k], (size_t)(bounds[k + 1] - bounds[k]));
        check(statuses[k] == single.status && found[k] == single.date.julian_day, "a date that is read", (long long)k, statuses[k]);
        errors += single.status == FOTS_OK ? 0 : 1;
    }
    check(counted == errors, "the texts of no date", (long long)counted, (long long)errors);
    errors = 0;
    counted = fots_moments_parse(bytes, bytes_length, bounds, n + 1, found, n, found_times, n, found_offsets, n, statuses, n);
    for (size_t k = 0; k < n; k++) {
        fots_parse_moment_result single = fots_moment_parse(bytes + bounds[k], (size_t)(bounds[k + 1] - bounds[k]));
        check(statuses[k] == single.status && found[k] == single.date.julian_day && found_times[k] == single.time
            && found_offsets[k] == single.offset.seconds, "a moment that is read", (long long)k, statuses[k]);
        errors += single.status == FOTS_OK ? 0 : 1;
    }
    check(counted == errors, "the texts of no moment", (long long)counted, (long long)errors);
    errors = 0;
    counted = fots_dates_parse_iso(bytes, bytes_length, bounds, n + 1, found, n, statuses, n);
    for (size_t k = 0; k < n; k++) {
        fots_parse_date_result single = fots_date_parse_iso(bytes + bounds[k], (size_t)(bounds[k + 1] - bounds[k]));
        check(statuses[k] == single.status && found[k] == single.date.julian_day, "a date in ISO 8601", (long long)k, statuses[k]);
        errors += single.status == FOTS_OK ? 0 : 1;
    }
    check(counted == errors, "the texts of no date in ISO 8601", (long long)counted, (long long)errors);
    errors = 0;
    counted = fots_moments_parse_iso(bytes, bytes_length, bounds, n + 1, found, n, found_times, n, found_offsets, n, statuses, n);
    for (size_t k = 0; k < n; k++) {
        fots_parse_moment_result single = fots_moment_parse_iso(bytes + bounds[k], (size_t)(bounds[k + 1] - bounds[k]));
        check(statuses[k] == single.status && found[k] == single.date.julian_day && found_times[k] == single.time
            && found_offsets[k] == single.offset.seconds, "a moment in ISO 8601", (long long)k, statuses[k]);
        errors += single.status == FOTS_OK ? 0 : 1;
    }
    check(counted == errors, "the texts of no moment in ISO 8601", (long long)counted, (long long)errors);
}

/* Changes a byte in some texts. */
static void spoil(size_t bytes_length)
{
    static const char others_of_forms[] = "0129-+:TtzZW. \xff";
    for (size_t k = 0; k < ROWS / 10; k++) {
        bytes[drawn() % bytes_length] = others_of_forms[drawn() % sizeof(others_of_forms)];
    }
}

/* Prints and parses dates and moments, also with changed bytes. */
static void texts(size_t n)
{
    bytes[n * FOTS_MAX_DATE_LENGTH] = 77;
    size_t errors = 0, counted = fots_dates_calendar_texts(dates, n, bytes, n * FOTS_MAX_DATE_LENGTH, bounds, n + 1, statuses, n);
    for (size_t k = 0; k < n; k++) {
        errors += same_text(k, fots_date_calendar_text(date_at(dates[k])));
    }
    check(bounds[0] == 0 && counted == errors, "dates with no text", (long long)counted, (long long)errors);
    check(bytes[n * FOTS_MAX_DATE_LENGTH] == 77, "the byte after the texts", 0, 0);
    read_back(n, (size_t)bounds[n]);
    for (size_t k = 0; k < n; k++) {
        dates[k] = drawn() % 4 == 0 ? dates[k] : 1721060 + (int32_t)(drawn() % 3652425);
        times[k] = drawn() % 64 == 0 ? drawn() : drawn() % (FOTS_MAX_TIME + 1);
        times[k] -= drawn() % 2 == 0 ? 0 : times[k] % 1000000000;
        offsets[k] = drawn() % 8 == 0 ? (int32_t)drawn_bits() : 60 * ((int32_t)(drawn() % 2879) - 1439);
    }
    errors = 0;
    counted = fots_moments_texts(dates, n, times, n, offsets, n, bytes, n * FOTS_MAX_MOMENT_LENGTH, bounds, n + 1, statuses, n);
    for (size_t k = 0; k < n; k++) {
        errors += same_text(k, fots_moment_text(date_at(dates[k]), times[k], offset_at(offsets[k])));
    }
    check(bounds[0] == 0 && counted == errors, "moments with no text", (long long)counted, (long long)errors);
    read_back(n, (size_t)bounds[n]);
    spoil((size_t)bounds[n]);
    read_back(n, (size_t)bounds[n]);
}

/* Takes bounds out of range, descending bounds, and columns without room. */
static void invalid_texts(void)
{
    static const char text[] = "2024-02-292024-02-30";
    const int32_t wrong[] = {0, 10, 20, 10, 21, -1, 10, INT32_MIN, INT32_MAX, 0, 0};
    const uint8_t expected[] = {FOTS_OK, FOTS_DAY_OUT_OF_RANGE, FOTS_INVALID_BOUNDS, FOTS_INVALID_BOUNDS, FOTS_INVALID_BOUNDS, FOTS_INVALID_BOUNDS, FOTS_INVALID_BOUNDS,
        FOTS_INVALID_BOUNDS, FOTS_INVALID_BOUNDS, FOTS_UNEXPECTED_END};
    check(fots_dates_parse(text, 20, wrong, 11, found, 10, statuses, 10) == 9, "texts that are none", 0, 0);
    for (size_t k = 0; k < 10; k++) {
        check(statuses[k] == expected[k] && found[k] == (k == 0 ? 2460370 : FOTS_NO_VALUE), "a text that is none", (long long)k, statuses[k]);
    }
    check(fots_moments_parse(text, 20, wrong, 11, found, 10, found_times, 10, found_offsets, 10, statuses, 10) == 10, "no moments", 0, 0);
    for (size_t k = 0; k < 10; k++) {
        check(statuses[k] == (k == 0 || k == 1 || k == 9 ? FOTS_UNEXPECTED_END : FOTS_INVALID_BOUNDS) && found_times[k] == FOTS_NO_TIME,
            "a moment that is none", (long long)k, statuses[k]);
    }
    check(fots_dates_parse_iso(text, 20, wrong, 11, found, 10, statuses, 10) == 9, "texts that are none in ISO 8601", 0, 0);
    for (size_t k = 0; k < 10; k++) {
        check(statuses[k] == expected[k], "a text that is none in ISO 8601", (long long)k, statuses[k]);
    }
    static const char forms[] = "2024-02-29 22:59:59.25+0020240229T225959,25Z2024-02-29T22:59";
    const int32_t between[] = {0, 25, 44, 60};
    check(fots_moments_parse_iso(forms, 60, between, 4, found, 3, found_times, 3, found_offsets, 3, statuses, 3) == 1, "a moment without its offset", 0, 0);
    check(found[0] == 2460370 && found[1] == 2460370 && found_times[0] == 82799250000000 && found_times[1] == 82799250000000 && found_offsets[1] == 0,
        "moments in ISO 8601", found[0], (long long)found_times[1]);
    check(statuses[2] == FOTS_UNEXPECTED_END && found[2] == FOTS_NO_VALUE, "the end of a moment", statuses[2], found[2]);
    statuses[0] = 77;
    bounds[0] = 77;
    bytes[0] = 77;
    check(fots_dates_parse_iso(text, 20, wrong, 1, found, 1, statuses, 1) == FOTS_LENGTH_MISMATCH, "a bound too few in ISO 8601", 0, 0);
    check(fots_moments_parse_iso(text, 20, wrong, 2, found, 1, found_times, 1, found_offsets, 2, statuses, 1) == FOTS_LENGTH_MISMATCH, "two offsets in ISO 8601", 0, 0);
    check(fots_dates_parse(text, 20, wrong, 1, found, 1, statuses, 1) == FOTS_LENGTH_MISMATCH, "a bound too few", 0, 0);
    check(fots_dates_parse(text, 20, wrong, 0, found, 0, statuses, 0) == FOTS_LENGTH_MISMATCH, "no bound", 0, 0);
    check(fots_moments_parse(text, 20, wrong, 2, found, 1, found_times, 1, found_offsets, 2, statuses, 1) == FOTS_LENGTH_MISMATCH, "two offsets", 0, 0);
    check(fots_dates_calendar_texts(dates, 1, bytes, 12, bounds, 2, statuses, 1) == FOTS_LENGTH_MISMATCH, "a byte too few", 0, 0);
    check(fots_dates_calendar_texts(dates, 1, bytes, 13, bounds, 1, statuses, 1) == FOTS_LENGTH_MISMATCH, "no second bound", 0, 0);
    check(fots_moments_texts(dates, 1, times, 1, offsets, 1, bytes, 37, bounds, 2, statuses, 1) == FOTS_LENGTH_MISMATCH, "less room", 0, 0);
    check(statuses[0] == 77 && bounds[0] == 77 && bytes[0] == 77, "what stood there", statuses[0], bounds[0]);
    check(fots_dates_calendar_texts(dates, 0, bytes, 0, bounds, 1, statuses, 0) == 0 && bounds[0] == 0, "no texts", bounds[0], 0);
}

int main(void)
{
    draw();
    columns(ROWS);
    workdays_columns(ROWS);
    columns_in_place();
    columns(1);
    chained(ROWS);
    different_lengths();
    texts(ROWS);
    texts(1);
    invalid_texts();
    return ended("columns");
}
