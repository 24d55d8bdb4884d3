/* Arguments and results of SQLite as values of the library, and back, and the errors of the functions.
 * Each get_ and each check returns 1, or 0 after it has set an error. */
#ifndef FOTSEVINDRE_SQLITE_VALUES_H
#define FOTSEVINDRE_SQLITE_VALUES_H

#include <sqlite3ext.h>
#include <stddef.h>
#include <stdint.h>

#include "../sql/names.h"

typedef struct sql_function sql_function;
typedef struct sql_shared sql_shared;

/* A function, and its pointer to a function of the library. */
typedef struct sql_call {
    const char *name;
    int least, most; /* the numbers of arguments */
    void (*call)(const sql_function *function, sqlite3_context *context, int count, sqlite3_value **values);
    fots_date_result (*date)(fots_date date, int32_t number);
    fots_component_result (*component)(fots_date date);
    fots_number_result (*number)(fots_date date, fots_date other);
    int form; /* 0, 1 or 2 for a date, a local time or an instant */
    int has_zone;
} sql_call;

/* A function of a connection. */
struct sql_function {
    const sql_call *call;
    sql_shared *shared;
};

#define SQL_CALENDARS 8

/* The memory that the functions of a connection share. The last one frees it. */
struct sql_shared {
    int uses;
    fots_format date_format; /* "%Y-%m-%d" */
    uint32_t no_holidays; /* counts of `weekdays`: 0 */
    fots_workdays_view weekdays; /* without holidays */
    unsigned next; /* to be replaced */
    struct {
        int length; /* of the blob */
        fots_date *blob; /* the weekmask and the holidays, then their counts; or NULL */
        fots_workdays_view workdays; /* of the blob */
    } calendars[SQL_CALENDARS];
};

extern const sql_call sql_date_calls[], sql_text_calls[], sql_workday_calls[], sql_zone_calls[];

/* The last entry of each list. */
#define SQL_NO_CALL {NULL, 0, 0, NULL, NULL, NULL, NULL, 0, 0}

enum sql_form { SQL_DATE, SQL_LOCAL, SQL_INSTANT };

/* A string of SQLite, which need not end with a zero byte. */
typedef struct sql_text {
    const char *bytes;
    size_t length;
} sql_text;

sql_text sql_text_of(sqlite3_value *value);

/* Writes why a string isn't valid, by a format or NULL, with the position of its first wrong character. */
void sql_text_reason(char bytes[SQL_REASON_BYTES], sql_text text, int32_t status, size_t position, const fots_format *format);

/* Return a message in memory of SQLite. */
char *sql_message(const char *what, int32_t status);
char *sql_text_message(const char *what, sql_text text, int32_t status, size_t position);
char *sql_format_message(const char *what, sql_text text, int32_t status, size_t position, const fots_format *format);

int sql_check(sqlite3_context *context, const char *what, int32_t status);
int sql_check_text(sqlite3_context *context, const char *what, sql_text text, int32_t status, size_t position);
void sql_fail(sqlite3_context *context, char *message);

int get_date(sqlite3_context *context, sqlite3_value *value, fots_date *date);
int get_local(sqlite3_context *context, sqlite3_value *value, fots_moment *local);
int get_instant(sqlite3_context *context, sqlite3_value *value, fots_moment *instant);
int get_seconds(sqlite3_context *context, sqlite3_value *value, fots_duration *duration);
int get_period(sqlite3_context *context, sqlite3_value *value, fots_period *period);
int get_number(sqlite3_context *context, sqlite3_value *value, int32_t *number);
int get_zone(sqlite3_context *context, sqlite3_value *value, const fots_zone **zone);
/* The number of a name, or of the default without the argument. */
int get_name(sqlite3_context *context, const fots_names *names, int count, sqlite3_value **values, int index, uint32_t otherwise, uint32_t *number);

/* Parse without an error: a status and a position. */
fots_parse_moment_result sql_parse_date(sqlite3_value *value);
fots_parse_moment_result sql_parse_instant(sqlite3_value *value);

void set_date(sqlite3_context *context, const char *what, fots_date_result found);
void set_local(sqlite3_context *context, const char *what, int32_t status, fots_date date, fots_time time);
void set_instant(sqlite3_context *context, const char *what, fots_moment_result found);
void set_seconds(sqlite3_context *context, const char *what, fots_duration_result found);
void set_period(sqlite3_context *context, const char *what, int32_t status, fots_period period);
void set_number(sqlite3_context *context, const char *what, int32_t status, int64_t number);
void set_text(sqlite3_context *context, const char *bytes, size_t length);

/* Registers the functions that return rows. */
int sql_add_rows(sqlite3 *database);

/* Registers the aggregate cal_calendar. */
int sql_add_calendar(sqlite3 *database);

#endif
