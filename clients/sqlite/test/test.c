/* Runs the rows of standard input by SQLite with the extension: test [EXTENSION] <ROWS. Without an
 * argument, the extension is a part of the program.
 *
 *   STATEMENT                   must succeed
 *   SELECT .. => RESULT         columns with | between them, rows with a comma and a space
 *   SELECT .. => error: TEXT    must fail with this message
 *   ~ SELECT ..                 must end within a second, if it is interrupted after half of one
 *   # TEXT                      a comment */
#include <sqlite3.h>
#include <stdio.h>
#include <stdlib.h>
#include <string.h>
#include <time.h>

#define LINE 8192

extern int sqlite3_fotsevindre_init(sqlite3 *database, char **error, const sqlite3_api_routines *routines);

static double now(void)
{
    struct timespec time;
    clock_gettime(CLOCK_MONOTONIC, &time);
    return (double)time.tv_sec + (double)time.tv_nsec * 1e-9;
}

static int is_late(void *start)
{
    return now() - *(const double *)start > 0.5;
}

/* Writes the result of a query, or its error. */
static int run(sqlite3 *database, const char *query, char *result)
{
    sqlite3_stmt *statement = NULL;
    int at, status = sqlite3_prepare_v2(database, query, -1, &statement, NULL);
    size_t length = 0;
    result[0] = 0;
    while (status == SQLITE_OK || status == SQLITE_ROW) {
        status = sqlite3_step(statement);
        for (at = 0; status == SQLITE_ROW && at < sqlite3_column_count(statement) && length < LINE - 2; at++) {
            const char *const text = (const char *)sqlite3_column_text(statement, at);
            snprintf(result + length, LINE - length, "%s%s", at > 0 ? "|" : length > 0 ? ", " : "", text ? text : "NULL");
            length = strlen(result);
        }
    }
    if (status != SQLITE_DONE) {
        snprintf(result, LINE, "error: %s", sqlite3_errmsg(database));
    }
    sqlite3_finalize(statement);
    return status;
}

static int check(sqlite3 *database, char *line)
{
    static char result[LINE];
    char *const expected = strstr(line, " => ");
    double start = now(), taken;
    int status;
    if (line[0] == '~') {
        sqlite3_progress_handler(database, 1000, is_late, &start);
        status = run(database, line + 1, result);
        sqlite3_progress_handler(database, 0, NULL, NULL);
        taken = now() - start;
        if (status != SQLITE_INTERRUPT || taken > 1) {
            printf("%s\n    ended after %.2f seconds: %s\n", line, taken, result);
            return 0;
        }
        return 1;
    }
    if (expected) {
        *expected = 0;
    }
    status = run(database, line, result);
    if (expected ? strcmp(result, expected + 4) != 0 : status != SQLITE_DONE) {
        printf("%s\n    is %s\n", line, result);
        return 0;
    }
    return 1;
}

int main(int count, char **words)
{
    static char line[LINE];
    sqlite3 *database = NULL, *other = NULL;
    char *error = NULL;
    int passed = 0, failed = 0;
#ifdef SQLITE_CORE
    sqlite3_auto_extension((void (*)(void))sqlite3_fotsevindre_init);
    (void)count, (void)words;
#endif
    if (sqlite3_open(":memory:", &database) != SQLITE_OK || sqlite3_open(":memory:", &other) != SQLITE_OK) {
        return 1;
    }
#ifndef SQLITE_CORE
    sqlite3_enable_load_extension(database, 1);
    sqlite3_enable_load_extension(other, 1);
    /* Twice in one connection, and once in another one that ends first. */
    if (count != 2 || sqlite3_load_extension(database, words[1], NULL, &error) != SQLITE_OK
        || sqlite3_load_extension(database, words[1], NULL, &error) != SQLITE_OK
        || sqlite3_load_extension(other, words[1], NULL, &error) != SQLITE_OK) {
        printf("cannot load the extension: %s\n", error ? error : "");
        return 1;
    }
#endif
    check(other, strcpy(line, "SELECT cal_local(0, 'UTC') => 1970-01-01 00:00:00")) ? passed++ : failed++;
    sqlite3_close(other);
    while (fgets(line, sizeof line, stdin)) {
        line[strcspn(line, "\n")] = 0;
        if (line[0] != 0 && line[0] != '#') {
            check(database, line) ? passed++ : failed++;
        }
    }
    sqlite3_free(error);
    sqlite3_close(database);
    printf("%d rows passed, %d failed\n", passed, failed);
    return failed != 0;
}
