/* Calendar functions for SQLite, as a loadable extension, or with SQLITE_CORE as a part of a program.
 * NULL in any argument gives NULL, and an invalid argument an error. */
#include "values.h"
SQLITE_EXTENSION_INIT1

#include <string.h>

static void call(sqlite3_context *context, int count, sqlite3_value **values)
{
    const sql_function *const function = sqlite3_user_data(context);
    int at;
    for (at = 0; at < count; at++) {
        if (sqlite3_value_type(values[at]) == SQLITE_NULL) {
            return;
        }
    }
    function->call->call(function, context, count, values);
}

static void release_shared(sql_shared *shared)
{
    int at;
    shared->uses -= 1;
    if (shared->uses == 0) {
        for (at = 0; at < SQL_CALENDARS; at++) {
            sqlite3_free(shared->calendars[at].blob);
        }
        sqlite3_free(shared);
    }
}

static void release(void *pointer)
{
    sql_function *const function = pointer;
    release_shared(function->shared);
    sqlite3_free(function);
}

/* Registers a function, which SQLite releases, also if that fails. */
static int add_call(sqlite3 *database, sql_shared *shared, const sql_call *one, int count)
{
    const int pure = one->has_zone ? 0 : SQLITE_DETERMINISTIC | SQLITE_INNOCUOUS;
    sql_function *const function = sqlite3_malloc(sizeof *function);
    if (!function) {
        return SQLITE_NOMEM;
    }
    function->call = one;
    function->shared = shared;
    shared->uses += 1;
    return sqlite3_create_function_v2(database, one->name, count, SQLITE_UTF8 | pure, function, call, NULL, NULL, release);
}

static int add_calls(sqlite3 *database, sql_shared *shared, const sql_call *calls)
{
    int status = SQLITE_OK, count;
    for (; calls->name; calls++) {
        for (count = calls->least; status == SQLITE_OK && count <= calls->most; count++) {
            status = add_call(database, shared, calls, count);
        }
    }
    return status;
}

static int add_functions(sqlite3 *database)
{
    static const fots_date none = {0};
    sql_shared *const shared = sqlite3_malloc(sizeof *shared);
    int status;
    if (!shared) {
        return SQLITE_NOMEM;
    }
    memset(shared, 0, sizeof *shared);
    shared->uses = 1;
    shared->date_format = fots_format_new("%Y-%m-%d", 8).format;
    shared->weekdays = (fots_workdays_view){FOTS_MONDAY_TO_FRIDAY, 0, &none, 0, &shared->no_holidays, 1};
    status = add_calls(database, shared, sql_date_calls);
    status = status == SQLITE_OK ? add_calls(database, shared, sql_text_calls) : status;
    status = status == SQLITE_OK ? add_calls(database, shared, sql_workday_calls) : status;
    status = status == SQLITE_OK ? add_calls(database, shared, sql_zone_calls) : status;
    release_shared(shared);
    return status;
}

#ifdef _WIN32
__declspec(dllexport)
#else
__attribute__((visibility("default")))
#endif
int sqlite3_fotsevindre_init(sqlite3 *database, char **error, const sqlite3_api_routines *routines)
{
    int status;
    (void)error, (void)routines;
    SQLITE_EXTENSION_INIT2(routines);
    status = add_functions(database);
    status = status == SQLITE_OK ? sql_add_calendar(database) : status;
    status = status == SQLITE_OK ? sql_add_rows(database) : status;
#ifdef SQLITE_CORE
    return status;
#else
    /* The zones that were read stay for other connections. */
    return status == SQLITE_OK ? SQLITE_OK_LOAD_PERMANENTLY : status;
#endif
}
