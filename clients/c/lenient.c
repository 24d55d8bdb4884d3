/* Prints what lenient formats read, for tests/lenient. Standard input has records of four strings, each
 * with a zero byte at its end: date or date_time, a format, a pivot or nothing, and a text. Each line
 * is the date, the date and the time of day in nanoseconds, "-" for a text that is rejected, or
 * "no format" for a format that can't be read so. */
#include <inttypes.h>
#include <stdlib.h>
#include <stdio.h>
#include <string.h>

#include "fotsevindre.h"

#define ROOM 256

static void need(int holds, const char *what)
{
    if (!holds) {
        fprintf(stderr, "lenient: %s\n", what);
        exit(1);
    }
}

/* Reads a string up to a zero byte, and returns 0 at the end of the input. */
static int read_string(char *bytes, size_t *length)
{
    int byte;
    *length = 0;
    while ((byte = getchar()) != EOF && byte != 0) {
        need(*length + 1 < ROOM, "a string is too long");
        bytes[(*length)++] = (char)byte;
    }
    bytes[*length] = 0;
    return byte != EOF;
}

static void print_date(fots_date date)
{
    const fots_calendar_date_result parts = fots_date_to_calendar_date(date);
    printf("%04" PRId32 "-%02u-%02u", parts.year, (unsigned)parts.month, (unsigned)parts.day);
}

static void print_error(int32_t status)
{
    puts(status == FOTS_INSUFFICIENT_FORMAT ? "no format" : "-");
}

int main(void)
{
    char kind[ROOM], spelling[ROOM], number[ROOM], text[ROOM];
    size_t length, spelling_length, text_length;
    while (read_string(kind, &length)) {
        need(read_string(spelling, &spelling_length) && read_string(number, &length) && read_string(text, &text_length), "a record has four strings");
        const int32_t pivot = number[0] ? (int32_t)strtol(number, NULL, 10) : FOTS_NO_PIVOT;
        const fots_format_result format = fots_format_new(spelling, spelling_length);
        need(format.status == FOTS_OK, "no format");
        if (strcmp(kind, "date") == 0) {
            const fots_parse_date_result parsed = fots_date_parse_leniently(text, text_length, &format.format, pivot);
            if (parsed.status != FOTS_OK) {
                print_error(parsed.status);
                continue;
            }
            print_date(parsed.date);
            putchar('\n');
        } else {
            const fots_parse_moment_result parsed = fots_pair_parse_leniently(text, text_length, &format.format, pivot);
            if (parsed.status != FOTS_OK) {
                print_error(parsed.status);
                continue;
            }
            print_date(parsed.date);
            printf(" %" PRIu64 "\n", parsed.time);
        }
    }
    return 0;
}
