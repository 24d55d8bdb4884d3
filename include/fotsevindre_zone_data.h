/* The time zones in a program, for machines without files of zones: those of the machine on which
 * clients/packaging/zone_data wrote zone_data.c. With FOTSEVINDRE_ZONE_DATA, fots_zone_named and
 * Zone::named of C++ take one if its file can't be read; the program is linked with zone_data.c. */
#ifndef FOTSEVINDRE_ZONE_DATA_H
#define FOTSEVINDRE_ZONE_DATA_H

#include <stddef.h>
#include <stdint.h>
#include <string.h>

#ifdef __cplusplus
extern "C" {
#endif

typedef struct fots_bundled_zone {
    const char *name;
    const uint8_t *bytes; /* of its file */
    size_t length;
} fots_bundled_zone;

/* The version of the database, such as 2025b, or unknown. */
extern const char fots_bundled_version[];
/* The zones, in the order of strcmp. */
extern const fots_bundled_zone fots_bundled_zones[];
extern const size_t fots_bundled_zone_count;

/* Returns the zone with a name, or NULL. */
static inline const fots_bundled_zone *fots_bundled_zone_named(const char *name)
{
    size_t low = 0, high = fots_bundled_zone_count;
    while (low < high) {
        const size_t middle = low + (high - low) / 2;
        const int order = strcmp(name, fots_bundled_zones[middle].name);
        if (order == 0) {
            return &fots_bundled_zones[middle];
        }
        if (order < 0) {
            high = middle;
        } else {
            low = middle + 1;
        }
    }
    return NULL;
}

#ifdef __cplusplus
}
#endif

#endif
