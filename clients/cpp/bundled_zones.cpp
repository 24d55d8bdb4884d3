// Checks the zones in a program, where TZDIR is a folder with only Zulu, a file of Berlin.
#include <cstdio>

#include "fotsevindre.hpp"

using namespace fotsevindre;

int main()
{
    const Zone &berlin = Zone::named("Europe/Berlin");
    bool holds = berlin.abbreviation_at(1711846799) == "CET" && berlin.abbreviation_at(1711846800) == "CEST" && &berlin == &Zone::named("Europe/Berlin");
    holds = holds && Zone::named("Zulu").abbreviation_at(1711846800) == "CEST";
    for (std::size_t k = 0; k < fots_bundled_zone_count; k++) {
        Zone::named(fots_bundled_zones[k].name);
    }
    for (const char *const name : {"Berlin", "Europe", "localtime"}) {
        try {
            Zone::named(name);
            holds = false;
        } catch (const std::system_error &) {
        }
    }
    std::printf("bundled zones: %s\n", holds ? "all hold" : "failed");
    return !holds;
}
