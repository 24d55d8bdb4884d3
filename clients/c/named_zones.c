/* Checks zones by name, in a folder of files that the first argument names. */
#define _POSIX_C_SOURCE 200809L
#include <pthread.h>
#include <stdlib.h>
#include <string.h>
#include <sys/stat.h>

#include "fotsevindre_zones.h"
#include "testing.h"

#define THREADS 8

static void is_not_named(const char *name, int32_t error, int32_t status)
{
    const fots_named_zone found = fots_zone_named(name);
    check(!found.zone && found.error == error && found.status == status, name, found.error, found.status);
}

static void write_file(const char *folder, const char *name, size_t length)
{
    char path[4096];
    FILE *file;
    snprintf(path, sizeof path, "%s/%s", folder, name);
    file = fopen(path, "wb");
    while (file && length--) {
        putc('T', file);
    }
    if (file) {
        fclose(file);
    }
}

/* Reads the same zones as the other threads. */
/* Puts each byte at each place of a name. Only letters, digits, _, -, + and / make a name, and no
 * other file is there. */
static void every_byte(void)
{
    static const char allowed[] = "ABCDEFGHIJKLMNOPQRSTUVWXYZabcdefghijklmnopqrstuvwxyz0123456789_-+/";
    for (size_t place = 0; place < 6; place++) {
        for (int byte = 0; byte < 256; byte++) {
            char name[] = "Berlin";
            name[place] = (char)byte;
            const fots_named_zone found = fots_zone_named_by(name, 6);
            const int is_allowed = byte != 0 && strchr(allowed, byte) && (place > 0 || (byte >= 'A' && byte != '_'));
            check((found.error == FOTS_ZONE_NAMED) == (found.zone != NULL), "a zone or an error", byte, found.error);
            check(is_allowed || found.error == FOTS_ZONE_NAME, "no name", byte, found.error);
            check(!found.zone || strcmp(name, "Berlin") == 0, "another name", byte, found.error);
        }
    }
}

static void *named(void *result)
{
    const char *const names[] = {"Berlin", "Copy", "Berlin"};
    const fots_zone **const zones = (const fots_zone **)result;
    for (int k = 0; k < 3; k++) {
        zones[k] = fots_zone_named(names[k]).zone;
    }
    return NULL;
}

int main(int count, char **arguments)
{
    static const char *const invalid[] = {"", "/etc/passwd", "../Berlin", "Berlin ", "B\xe9rlin", "+1", "1", "_", "Berl.in", "Berlin\n", "Europe//Berlin"};
    char longest[FOTS_MAX_ZONE_NAME + 2];
    for (size_t k = 0; k < sizeof invalid / sizeof invalid[0]; k++) {
        is_not_named(invalid[k], FOTS_ZONE_NAME, FOTS_OK);
        check(fots_zone_named_by(invalid[k], strlen(invalid[k])).error == FOTS_ZONE_NAME, "by its length", (long long)k, 0);
    }
    memset(longest, 'a', sizeof longest);
    check(fots_zone_named_by("Berlin\0x", 8).error == FOTS_ZONE_NAME, "a zero byte", 0, 0);
    check(fots_zone_named_by(longest, FOTS_MAX_ZONE_NAME + 1).error == FOTS_ZONE_NAME, "a byte too many", 0, 0);
    check(fots_zone_named_by(longest, FOTS_MAX_ZONE_NAME).error == FOTS_ZONE_FILE, "the longest name", 0, 0);
    check(strcmp(fots_named_zone_reason(fots_zone_named_by("", 0)), "expected letters, digits, _, -, + and /, from a letter on") == 0, "a reason", 0, 0);
    if (count > 1) {
        const char *const folder = arguments[1];
        char path[4096];
        pthread_t threads[THREADS];
        const fots_zone *zones[THREADS][3];
        setenv("TZDIR", folder, 1);
        snprintf(path, sizeof path, "%s/pipe", folder);
        mkfifo(path, 0600);
        snprintf(path, sizeof path, "%s/folder", folder);
        mkdir(path, 0700);
        write_file(folder, "empty", 0);
        write_file(folder, "longest", FOTS_MAX_ZONE_BYTES);
        write_file(folder, "long", FOTS_MAX_ZONE_BYTES + 1);
        is_not_named("nowhere", FOTS_ZONE_FILE, FOTS_OK);
        is_not_named("pipe", FOTS_ZONE_NOT_REGULAR, FOTS_OK);
        is_not_named("folder", FOTS_ZONE_NOT_REGULAR, FOTS_OK);
        is_not_named("empty", FOTS_ZONE_INVALID, FOTS_UNEXPECTED_END);
        is_not_named("longest", FOTS_ZONE_INVALID, FOTS_NOT_A_ZONE_FILE);
        is_not_named("long", FOTS_ZONE_TOO_LONG, FOTS_OK);
        for (int k = 0; k < THREADS; k++) {
            check(pthread_create(&threads[k], NULL, named, zones[k]) == 0, "a thread", k, 0);
        }
        for (int k = 0; k < THREADS; k++) {
            pthread_join(threads[k], NULL);
            check(zones[k][0] && zones[k][0] == zones[0][0] && zones[k][1] == zones[0][1] && zones[k][2] == zones[0][0], "one zone for all", k, 0);
        }
        check(fots_zone_offset(zones[0][0], 1711846800).offset.seconds == 7200 && zones[0][0] != zones[0][1], "Berlin", 0, 0);
        write_file(folder, "Berlin", 0);
        check(fots_zone_named("Berlin").zone == zones[0][0], "read once", 0, 0);
        every_byte();
        check(fots_zone_named_by("Berlin and more", 6).zone == zones[0][0], "by its first bytes", 0, 0);
    }
    return ended("named zones");
}
