/* Checks the zones in a program: the first argument is a folder with only Zulu, a file of Berlin, and
 * the second one the folder of the files from which they were made. */
#define _POSIX_C_SOURCE 200809L
#include "fotsevindre_zones.h"
#include "testing.h"

int main(int count, char **arguments)
{
    char path[4096], version[256] = "";
    FILE *file;
    if (count != 3) {
        return 1;
    }
    setenv("TZDIR", arguments[1], 1);
    for (size_t k = 0; k < fots_bundled_zone_count; k++) {
        static uint8_t bytes[FOTS_MAX_ZONE_BYTES + 1];
        const fots_bundled_zone *const zone = &fots_bundled_zones[k];
        size_t length = 0;
        snprintf(path, sizeof path, "%s/%s", arguments[2], zone->name);
        check(fots_read_zone_file(path, bytes, &length) == FOTS_ZONE_NAMED, zone->name, 0, 0);
        check(length == zone->length && memcmp(bytes, zone->bytes, length) == 0, zone->name, (long long)length, 0);
        check(k == 0 || strcmp(zone[-1].name, zone->name) < 0, "order of names", (long long)k, 0);
        check(fots_zone_named(zone->name).zone != NULL, zone->name, 0, 0);
    }
    check(fots_zone_named("Berlin").error == FOTS_ZONE_FILE && fots_zone_named("Europe").error == FOTS_ZONE_FILE, "no zone", 0, 0);
    check(fots_zone_offset(fots_zone_named("Europe/Berlin").zone, 1711846800).offset.seconds == 7200, "Berlin", 0, 0);
    check(fots_zone_offset(fots_zone_named("Zulu").zone, 1711846800).offset.seconds == 7200, "a file comes first", 0, 0);
    snprintf(path, sizeof path, "%s/tzdata.zi", arguments[2]);
    file = fopen(path, "r");
    if (file) {
        check(fscanf(file, "# version %255s", version) == 1 && strcmp(version, fots_bundled_version) == 0, "the version", 0, 0);
        fclose(file);
    }
    return ended("bundled zones");
}
