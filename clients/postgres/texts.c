/* Functions of texts: strict parsing, and formats both ways. */
#include "values.h"

#include "utils/builtins.h"
#include "utils/memutils.h"

/* The format of a call site, made again only for another text. */
typedef struct kept_format {
    fots_format format;
    size_t length;
    char *text; /* or NULL */
} kept_format;

static const fots_format *format_of(FunctionCallInfo fcinfo, int argument)
{
    const text *const value = PG_GETARG_TEXT_PP(argument);
    const size_t length = VARSIZE_ANY_EXHDR(value);
    kept_format *const kept = kept_for(fcinfo, sizeof(kept_format));
    if (kept->text == NULL || kept->length != length || memcmp(kept->text, VARDATA_ANY(value), length) != 0) {
        const fots_format_result made = fots_format_new(VARDATA_ANY(value), length);
        char *copy;
        if (made.status != FOTS_OK) {
            fail_text("format", value, made.status, made.position);
        }
        copy = MemoryContextAlloc(fcinfo->flinfo->fn_mcxt, length + 1);
        memcpy(copy, VARDATA_ANY(value), length);
        if (kept->text != NULL) {
            pfree(kept->text);
        }
        kept->text = copy;
        kept->length = length;
        kept->format = made.format;
    }
    return &kept->format;
}

/* Writes the names of the language in an argument. */
static void read_language(FunctionCallInfo fcinfo, int argument, fots_language_names *names)
{
    const text *const code = PG_GETARG_TEXT_PP(argument);
    succeed("language", fots_names_of_language(VARDATA_ANY(code), VARSIZE_ANY_EXHDR(code), names));
}

/* What a text is parsed to. */
enum form { DATE, LOCAL, INSTANT };

static fots_parse_moment_result of_date(fots_parse_date_result parsed)
{
    const fots_parse_moment_result found = {parsed.status, parsed.date, 0, {0}, 0, parsed.position};
    return found;
}

static fots_parse_moment_result by_format(const char *bytes, size_t length, const fots_format *format, enum form form)
{
    if (form == DATE) {
        return of_date(fots_date_parse_format(bytes, length, format));
    }
    return form == LOCAL ? fots_pair_parse_format(bytes, length, format) : fots_moment_parse_format(bytes, length, format);
}

static fots_parse_moment_result in_language(const char *bytes, size_t length, const fots_format *format, const fots_language_names *names, enum form form)
{
    if (form == DATE) {
        return of_date(fots_date_parse_names(bytes, length, format, names));
    }
    return form == LOCAL ? fots_pair_parse_names(bytes, length, format, names) : fots_moment_parse_names(bytes, length, format, names);
}

/* The format in argument 1, or NULL without it or with a language, as sentences have English names. */
static const fots_format *format_if_any(FunctionCallInfo fcinfo)
{
    return PG_NARGS() == 2 ? format_of(fcinfo, 1) : NULL;
}

/* Parses argument 0, by the format in argument 1 and with the names of the language in argument 2, if there are any. */
static fots_parse_moment_result parse(FunctionCallInfo fcinfo, enum form form)
{
    const text *const value = PG_GETARG_TEXT_PP(0);
    const char *const bytes = VARDATA_ANY(value);
    const size_t length = VARSIZE_ANY_EXHDR(value);
    fots_parse_moment_result found;
    if (PG_NARGS() == 1) {
        return form == LOCAL ? fots_pair_parse(bytes, length) : fots_moment_parse(bytes, length);
    }
    if (PG_NARGS() == 2) {
        found = by_format(bytes, length, format_of(fcinfo, 1), form);
    } else {
        fots_language_names names;
        read_language(fcinfo, 2, &names);
        found = in_language(bytes, length, format_of(fcinfo, 1), &names, form);
    }
    if (found.status == FOTS_INSUFFICIENT_FORMAT || found.status == FOTS_AMBIGUOUS_NAMES || found.status == FOTS_AMBIGUOUS_NUMBER) {
        fail("format", found.status);
    }
    return found;
}

static fots_parse_moment_result parse_or_fail(FunctionCallInfo fcinfo, enum form form)
{
    static const char *const names[] = {"date", "local time", "instant"};
    const fots_parse_moment_result parsed = parse(fcinfo, form);
    if (parsed.status != FOTS_OK) {
        fail_format(names[form], PG_GETARG_TEXT_PP(0), parsed.status, parsed.position, format_if_any(fcinfo));
    }
    return parsed;
}

static Datum is_valid(FunctionCallInfo fcinfo, enum form form)
{
    return BoolGetDatum(parse(fcinfo, form).status == FOTS_OK);
}

PG_FUNCTION_INFO_V1(cal_valid);
Datum cal_valid(PG_FUNCTION_ARGS)
{
    return is_valid(fcinfo, DATE);
}

PG_FUNCTION_INFO_V1(cal_valid_local);
Datum cal_valid_local(PG_FUNCTION_ARGS)
{
    return is_valid(fcinfo, LOCAL);
}

PG_FUNCTION_INFO_V1(cal_valid_instant);
Datum cal_valid_instant(PG_FUNCTION_ARGS)
{
    return is_valid(fcinfo, INSTANT);
}

/* Returns why a string isn't valid, or NULL for a valid one. */
static Datum error_of(FunctionCallInfo fcinfo, enum form form)
{
    const fots_parse_moment_result parsed = parse(fcinfo, form);
    char reason[SQL_REASON_BYTES];
    if (parsed.status == FOTS_OK) {
        PG_RETURN_NULL();
    }
    reason_of(reason, PG_GETARG_TEXT_PP(0), parsed.status, parsed.position, format_if_any(fcinfo));
    PG_RETURN_TEXT_P(text_of(reason, strlen(reason)));
}

PG_FUNCTION_INFO_V1(cal_error);
Datum cal_error(PG_FUNCTION_ARGS)
{
    return error_of(fcinfo, DATE);
}

PG_FUNCTION_INFO_V1(cal_error_local);
Datum cal_error_local(PG_FUNCTION_ARGS)
{
    return error_of(fcinfo, LOCAL);
}

PG_FUNCTION_INFO_V1(cal_error_instant);
Datum cal_error_instant(PG_FUNCTION_ARGS)
{
    return error_of(fcinfo, INSTANT);
}

PG_FUNCTION_INFO_V1(cal_parse);
Datum cal_parse(PG_FUNCTION_ARGS)
{
    const fots_parse_moment_result parsed = parse_or_fail(fcinfo, DATE);
    const fots_date_result found = {parsed.status, parsed.date};
    PG_RETURN_DATEADT(from_date("date", found));
}

PG_FUNCTION_INFO_V1(cal_parse_local);
Datum cal_parse_local(PG_FUNCTION_ARGS)
{
    const fots_parse_moment_result parsed = parse_or_fail(fcinfo, LOCAL);
    PG_RETURN_TIMESTAMP(from_local("local time", FOTS_OK, parsed.date, parsed.time));
}

PG_FUNCTION_INFO_V1(cal_parse_instant);
Datum cal_parse_instant(PG_FUNCTION_ARGS)
{
    const fots_parse_moment_result parsed = parse_or_fail(fcinfo, INSTANT);
    PG_RETURN_TIMESTAMPTZ(from_moment("instant", fots_moment_new(parsed.date, parsed.time, parsed.offset)));
}

#define FORMAT_BYTES (FOTS_MAX_ITEMS * FOTS_MAX_ITEM_LENGTH)

static Datum printed(const char *bytes, fots_length_result found)
{
    succeed("format", found.status);
    return PointerGetDatum(text_of(bytes, found.length));
}

PG_FUNCTION_INFO_V1(cal_format);
Datum cal_format(PG_FUNCTION_ARGS)
{
    char bytes[FORMAT_BYTES];
    return printed(bytes, fots_date_format(GET_DATE(0), format_of(fcinfo, 1), bytes, sizeof bytes));
}

#define NAMED_BYTES (FOTS_MAX_ITEMS * FOTS_MAX_NAME_LENGTH)

/* The same with the names of a language. */
PG_FUNCTION_INFO_V1(cal_format_language);
Datum cal_format_language(PG_FUNCTION_ARGS)
{
    char bytes[NAMED_BYTES];
    fots_language_names names;
    read_language(fcinfo, 2, &names);
    return printed(bytes, fots_date_format_names(GET_DATE(0), format_of(fcinfo, 1), &names, bytes, sizeof bytes));
}

PG_FUNCTION_INFO_V1(cal_format_local_language);
Datum cal_format_local_language(PG_FUNCTION_ARGS)
{
    char bytes[NAMED_BYTES];
    const fots_moment moment = moment_of(PG_GETARG_TIMESTAMP(0));
    fots_language_names names;
    read_language(fcinfo, 2, &names);
    return printed(bytes, fots_pair_format_names(moment.date, moment.time, format_of(fcinfo, 1), &names, bytes, sizeof bytes));
}

PG_FUNCTION_INFO_V1(cal_format_local);
Datum cal_format_local(PG_FUNCTION_ARGS)
{
    char bytes[FORMAT_BYTES];
    const fots_moment moment = moment_of(PG_GETARG_TIMESTAMP(0));
    return printed(bytes, fots_pair_format(moment.date, moment.time, format_of(fcinfo, 1), bytes, sizeof bytes));
}

PG_FUNCTION_INFO_V1(cal_format_zoned);
Datum cal_format_zoned(PG_FUNCTION_ARGS)
{
    char bytes[FORMAT_BYTES];
    const fots_moment moment = moment_of(PG_GETARG_TIMESTAMPTZ(0));
    const fots_zone *const zone = zone_named(PG_GETARG_TEXT_PP(1));
    return printed(bytes, fots_moment_format_in_zone(moment, zone, format_of(fcinfo, 2), bytes, sizeof bytes));
}

PG_FUNCTION_INFO_V1(cal_recurrence_text);
Datum cal_recurrence_text(PG_FUNCTION_ARGS)
{
    const text *const value = PG_GETARG_TEXT_PP(0);
    const fots_recurrence_text_result found = fots_recurrence_text(VARDATA_ANY(value), VARSIZE_ANY_EXHDR(value));
    if (found.status != FOTS_OK) {
        fail_text("recurrence", value, found.status, found.position);
    }
    PG_RETURN_TEXT_P(text_of(found.bytes, found.length));
}

PG_FUNCTION_INFO_V1(cal_recurrence_lines);
Datum cal_recurrence_lines(PG_FUNCTION_ARGS)
{
    const text *const lines = PG_GETARG_TEXT_PP(0);
    const size_t length = VARSIZE_ANY_EXHDR(lines);
    size_t room = length + 512;
    char *bytes = palloc(room);
    fots_event_set_result found = fots_event_recurrence_lines(VARDATA_ANY(lines), length, bytes, room);
    while (found.status == FOTS_BUFFER_TOO_SHORT) {
        room *= 2;
        bytes = repalloc(bytes, room);
        found = fots_event_recurrence_lines(VARDATA_ANY(lines), length, bytes, room);
    }
    if (found.status != FOTS_OK) {
        fail_text("recurrence", lines, found.status, found.position);
    }
    PG_RETURN_TEXT_P(text_of(bytes, found.length));
}

/* A fold can be within a character, so the result is bytes. */
PG_FUNCTION_INFO_V1(cal_fold);
Datum cal_fold(PG_FUNCTION_ARGS)
{
    const text *const value = PG_GETARG_TEXT_PP(0);
    const size_t length = VARSIZE_ANY_EXHDR(value), room = length + length / 24;
    bytea *const folded = palloc(VARHDRSZ + room);
    SET_VARSIZE(folded, VARHDRSZ + fots_fold(VARDATA_ANY(value), length, VARDATA(folded), room).length);
    PG_RETURN_BYTEA_P(folded);
}
