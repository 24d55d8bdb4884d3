/* Time zones by name, such as Europe/Berlin, from the files of the system, for C. For C++ there is
 * Zone::named. This header is tested and not proved: unlike the library it opens files, allocates
 * memory and keeps state. It needs POSIX, and GCC or Clang.
 *
 * The file of a zone is in the folder that the variable TZDIR names, or else in
 * /usr/share/zoneinfo. If it can't be read, FOTSEVINDRE_ZONE_DATA takes the zone from the program, as
 * fotsevindre_zone_data.h says. Each source file that includes this header reads a file once, and
 * keeps the zone until the program ends. Any thread can make any call. */
#ifndef FOTSEVINDRE_ZONES_H
#define FOTSEVINDRE_ZONES_H

#include <stdint.h>
#include <stdio.h>
#include <stdlib.h>
#include <string.h>
#include <sys/stat.h>

#include "fotsevindre.h"
#ifdef FOTSEVINDRE_ZONE_DATA
#include "fotsevindre_zone_data.h"
#endif

/* The maximum size of a file, in bytes. The files of the time zone database have below 4000. */
#define FOTS_MAX_ZONE_BYTES 65536

/* The maximum length of a name. The names of the time zone database have at most 32 bytes. */
#define FOTS_MAX_ZONE_NAME 127

/* Why no zone has a name. */
enum fots_named_zone_error {
    FOTS_ZONE_NAMED = 0,
    FOTS_ZONE_NAME = 1, /* expected letters, digits, `_`, `-`, `+` and `/`, from a letter on */
    FOTS_ZONE_FILE = 2, /* the file can't be read */
    FOTS_ZONE_NOT_REGULAR = 3, /* the file isn't a regular file, such as a folder */
    FOTS_ZONE_TOO_LONG = 4, /* the file has more than FOTS_MAX_ZONE_BYTES */
    FOTS_ZONE_INVALID = 5, /* the file isn't a zone, for the reason of the status */
    FOTS_ZONE_MEMORY = 6 /* there is no memory */
};

typedef struct fots_named_zone {
    const fots_zone *zone; /* or NULL */
    int32_t error; /* a fots_named_zone_error */
    int32_t status; /* of fots_zone_from_file for FOTS_ZONE_INVALID, else FOTS_OK */
} fots_named_zone;

/* A zone that was read, with its name and the bytes of its file after it. */
typedef struct fots_kept_zone {
    struct fots_kept_zone *next;
    fots_zone zone;
    char name_and_bytes[];
} fots_kept_zone;

/* Returns 1 if the file of a zone with this name is in the folder of the zones, else 0. A file has only
 * one such name, so that no more zones are kept than there are files. */
static inline int fots_is_zone_name(const char *name)
{
    const char *const letters = "ABCDEFGHIJKLMNOPQRSTUVWXYZabcdefghijklmnopqrstuvwxyz0123456789_-+/";
    const size_t length = strlen(name);
    return name[0] && (size_t)(strchr(letters, name[0]) - letters) < 52 && strspn(name, letters) == length && length <= FOTS_MAX_ZONE_NAME
        && !strstr(name, "//");
}

/* Reads a regular file of at most FOTS_MAX_ZONE_BYTES. Nothing else is opened, since a pipe would
 * wait. Returns a fots_named_zone_error. */
static inline int32_t fots_read_zone_file(const char *path, uint8_t *bytes, size_t *length)
{
    struct stat found;
    FILE *file;
    int is_read;
    if (stat(path, &found) != 0) {
        return FOTS_ZONE_FILE;
    }
    if (!S_ISREG(found.st_mode)) {
        return FOTS_ZONE_NOT_REGULAR;
    }
    file = fopen(path, "rb");
    if (!file) {
        return FOTS_ZONE_FILE;
    }
    *length = fread(bytes, 1, FOTS_MAX_ZONE_BYTES + 1, file);
    is_read = !ferror(file);
    fclose(file);
    return !is_read ? FOTS_ZONE_FILE : *length > FOTS_MAX_ZONE_BYTES ? FOTS_ZONE_TOO_LONG : FOTS_ZONE_NAMED;
}

/* Copies the bytes of a zone in the program, if its file can't be read. */
static inline void fots_read_bundled_zone(const char *name, uint8_t *bytes, size_t *length, int32_t *error)
{
#ifdef FOTSEVINDRE_ZONE_DATA
    const fots_bundled_zone *const zone = *error == FOTS_ZONE_FILE ? fots_bundled_zone_named(name) : NULL;
    if (zone && zone->length <= FOTS_MAX_ZONE_BYTES) {
        *length = zone->length;
        memcpy(bytes, zone->bytes, *length);
        *error = FOTS_ZONE_NAMED;
    }
#else
    (void)name, (void)bytes, (void)length, (void)error;
#endif
}

/* Returns a zone of the list with this name, or NULL. */
static inline const fots_zone *fots_kept_zone_named(const fots_kept_zone *kept, const char *name)
{
    for (; kept; kept = kept->next) {
        if (strcmp(kept->name_and_bytes, name) == 0) {
            return &kept->zone;
        }
    }
    return NULL;
}

/* Reads a zone, which the caller owns, or sets the error. */
static inline fots_kept_zone *fots_read_named_zone(const char *name, fots_named_zone *result)
{
    const char *const folder = getenv("TZDIR");
    const char *const zones = folder && folder[0] ? folder : "/usr/share/zoneinfo";
    const size_t name_size = strlen(name) + 1, path_size = strlen(zones) + 1 + name_size;
    char *const path = (char *)malloc(path_size + FOTS_MAX_ZONE_BYTES + 1);
    fots_kept_zone *kept = NULL;
    uint8_t *bytes;
    size_t length = 0;
    result->error = FOTS_ZONE_MEMORY;
    if (!path) {
        return NULL;
    }
    bytes = (uint8_t *)path + path_size;
    snprintf(path, path_size, "%s/%s", zones, name);
    result->error = fots_read_zone_file(path, bytes, &length);
    fots_read_bundled_zone(name, bytes, &length, &result->error);
    if (result->error == FOTS_ZONE_NAMED) {
        result->status = fots_zone_from_file(bytes, length).status;
        result->error = result->status == FOTS_OK ? FOTS_ZONE_MEMORY : FOTS_ZONE_INVALID;
        kept = result->status == FOTS_OK ? (fots_kept_zone *)malloc(sizeof(fots_kept_zone) + name_size + length) : NULL;
    }
    if (kept) {
        uint8_t *const copy = (uint8_t *)kept->name_and_bytes + name_size;
        memcpy(kept->name_and_bytes, name, name_size);
        memcpy(copy, bytes, length);
        kept->zone = fots_zone_from_file(copy, length).zone;
        result->error = FOTS_ZONE_NAMED;
    }
    free(path);
    return kept;
}

/* Returns the zone with a name. */
static inline fots_named_zone fots_zone_named(const char *name)
{
    static fots_kept_zone *zones = NULL;
    fots_named_zone result = {NULL, FOTS_ZONE_NAME, FOTS_OK};
    fots_kept_zone *first = __atomic_load_n(&zones, __ATOMIC_ACQUIRE), *kept;
    if (!fots_is_zone_name(name)) {
        return result;
    }
    result.error = FOTS_ZONE_NAMED;
    result.zone = fots_kept_zone_named(first, name);
    if (result.zone) {
        return result;
    }
    kept = fots_read_named_zone(name, &result);
    if (!kept) {
        return result;
    }
    /* Another thread may have read it in the meantime. */
    do {
        result.zone = fots_kept_zone_named(first, name);
        if (result.zone) {
            free(kept);
            return result;
        }
        kept->next = first;
    } while (!__atomic_compare_exchange_n(&zones, &first, kept, 0, __ATOMIC_ACQ_REL, __ATOMIC_ACQUIRE));
    result.zone = &kept->zone;
    return result;
}

/* Returns the zone with a name in memory that need not end with a zero byte, such as a string of a
 * database. */
static inline fots_named_zone fots_zone_named_by(const char *text, size_t length)
{
    char name[FOTS_MAX_ZONE_NAME + 1];
    const fots_named_zone none = {NULL, FOTS_ZONE_NAME, FOTS_OK};
    if (length > FOTS_MAX_ZONE_NAME || memchr(text, 0, length)) {
        return none;
    }
    memcpy(name, text, length);
    name[length] = 0;
    return fots_zone_named(name);
}

/* Returns the reason why no zone has a name, in words. */
static inline const char *fots_named_zone_reason(fots_named_zone found)
{
    switch (found.error) {
    case FOTS_ZONE_NAMED: return "done";
    case FOTS_ZONE_NAME: return "expected letters, digits, _, -, + and /, from a letter on";
    case FOTS_ZONE_FILE: return "no such file in the folder of the zones";
    case FOTS_ZONE_NOT_REGULAR: return "not a regular file";
    case FOTS_ZONE_TOO_LONG: return "the file is too long";
    case FOTS_ZONE_MEMORY: return "out of memory";
    default: return fots_status_name(found.status);
    }
}

#endif
