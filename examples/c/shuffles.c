/* When the first shuffles of a station with the default settings are due, and each way to an empty range; it stops with 1 at the
 * first end that is not the one stated. */
#include "shuffle_times.h"

#include <inttypes.h>
#include <stdio.h>
#include <stdlib.h>

#define LAST_START SHUFFLE_TIMES_LATEST_START

static const struct hyparview_config settings = HYPARVIEW_DEFAULTS;

static void expect(uint64_t from, uint64_t to, struct hyparview_config config, uint32_t k, uint64_t earliest, uint64_t latest)
{
    struct hyparview_shuffle_range r = hyparview_shuffle_times(from, to, config, k);
    if (r.earliest != earliest || r.latest != latest) {
        fprintf(stderr, "start %" PRIu64 " to %" PRIu64 ", shuffle %" PRIu32 ": %" PRIu64 " to %" PRIu64 "\n", from, to, k,
                r.earliest, r.latest);
        exit(1);
    }
}

int main(void)
{
    struct hyparview_config no_interval = settings;
    no_interval.shuffle_interval = 0;
    /* document 02's case, and its neighbours */
    expect(0, 0, settings, 1, 750, 1249);
    expect(0, 0, settings, 2, 2250, 3748);
    expect(0, 0, settings, 3, 5250, 8747);
    expect(0, 5000, settings, 3, 5250, 13747);
    expect(LAST_START, LAST_START, settings, 1, LAST_START + 750, LAST_START + 1249);
    /* empty */
    expect(1, 0, settings, 3, 0, 0);
    expect(0, LAST_START + 1, settings, 3, 0, 0);
    expect(0, 0, settings, 0, 0, 0);
    expect(0, 0, settings, SHUFFLE_TIMES_MOST + 1, 0, 0);
    expect(0, 0, no_interval, 3, 0, 0);
    struct hyparview_shuffle_range r = hyparview_shuffle_times(0, 5000, settings, 3);
    printf("shuffles: from a start of 0 to 5000 ms the third is due from %" PRIu64 " to %" PRIu64 " ms\n", r.earliest, r.latest);
    return 0;
}
