/* Prints drawn instants, or their texts by formats, for tests/formats. The instants lie in the years
 * 1000 to 9999. The first argument is the number of lines, the second an offset in seconds, and the
 * third the start of the draw. Further arguments are formats, whose texts a bar separates. Without
 * them each line is an instant as GNU date reads it, such as @1700000000.250000000. */
#include <inttypes.h>
#include <stdlib.h>
#include <stdio.h>
#include <string.h>

#include "fotsevindre.h"

#define MAX_FORMATS 8
#define FIRST INT64_C(-30610224000) /* 1000-01-01 */
#define SECONDS UINT64_C(284012524800) /* up to 9999-12-31 */
#define SECOND UINT64_C(1000000000)

static uint64_t state;

static void need(int holds, const char *what)
{
    if (!holds) {
        fprintf(stderr, "drawn: %s\n", what);
        exit(1);
    }
}

static uint64_t draw(void)
{
    state ^= state << 13;
    state ^= state >> 7;
    state ^= state << 17;
    return state;
}

static void print_instant(int64_t seconds, uint64_t nanoseconds)
{
    if (seconds < 0 && nanoseconds > 0) {
        printf("@-%" PRId64 ".%09" PRIu64 "\n", -(seconds + 1), SECOND - nanoseconds);
    } else {
        printf("@%" PRId64 ".%09" PRIu64 "\n", seconds, nanoseconds);
    }
}

static fots_moment moment_at(int64_t seconds, uint64_t nanoseconds, int32_t offset)
{
    fots_moment moment = fots_moment_from_unix_timestamp(seconds + offset).moment;
    moment.offset.seconds = offset;
    moment.time += nanoseconds;
    return moment;
}

static void print_texts(fots_moment moment, const fots_format *formats, int count)
{
    char bytes[FOTS_MAX_ITEMS * FOTS_MAX_ITEM_LENGTH];
    for (int k = 0; k < count; k++) {
        const fots_length_result text = fots_moment_format(moment, &formats[k], bytes, sizeof(bytes));
        need(text.status == FOTS_OK, "no text");
        fwrite(bytes, 1, text.length, stdout);
        putchar(k + 1 < count ? '|' : '\n');
    }
}

int main(int argc, char **argv)
{
    fots_format formats[MAX_FORMATS];
    const int count = argc - 4;
    if (count < 0 || count > MAX_FORMATS) {
        return 2;
    }
    for (int k = 0; k < count; k++) {
        const fots_format_result made = fots_format_new(argv[k + 4], strlen(argv[k + 4]));
        need(made.status == FOTS_OK, argv[k + 4]);
        formats[k] = made.format;
    }
    const int32_t offset = atoi(argv[2]);
    state = strtoull(argv[3], NULL, 10);
    for (int lines = atoi(argv[1]); lines > 0; lines--) {
        const int64_t seconds = FIRST + (int64_t)(draw() % SECONDS);
        const uint64_t nanoseconds = draw() % SECOND;
        if (count == 0) {
            print_instant(seconds, nanoseconds);
        } else {
            print_texts(moment_at(seconds, nanoseconds, offset), formats, count);
        }
    }
    return 0;
}
