/* When the shuffles of a station are due: the function of target/staticlib/libshuffle_times.a (`tools/staticlib shuffle_times`),
 * for x86-64. It has no state, needs no memory and takes no pointer. */
#ifndef SHUFFLE_TIMES_H
#define SHUFFLE_TIMES_H

#include <stdint.h>

#include "hyparview.h"

#ifdef __cplusplus
extern "C" {
#define SHUFFLE_TIMES_ASSERT(test, name) static_assert(test, name)
#else
#define SHUFFLE_TIMES_ASSERT(test, name) _Static_assert(test, name)
#endif

/* The most shuffles ahead, and the latest start, in ms. */
#define SHUFFLE_TIMES_MOST 1000
#define SHUFFLE_TIMES_LATEST_START 9223372036854775808u /* 2^63 */

/* Both ends, in ms; both 0 where there is no such time. */
struct hyparview_shuffle_range {
    uint64_t earliest;
    uint64_t latest;
};

/* The earliest and the latest due time of the k-th shuffle of a station whose first accepted event of kinds 0 to 8 comes from
 * `earliest` to `latest`, in ms, if each timer fires when due. Both ends are 0, and only then, where `earliest` is above `latest`,
 * `latest` is above SHUFFLE_TIMES_LATEST_START, k is not from 1 to SHUFFLE_TIMES_MOST, or a setting is out of range. */
struct hyparview_shuffle_range hyparview_shuffle_times(uint64_t earliest, uint64_t latest, struct hyparview_config config,
                                                       uint32_t k);

/* ---- What the library was compiled with */

SHUFFLE_TIMES_ASSERT(sizeof(struct hyparview_shuffle_range) == 16 && offsetof(struct hyparview_shuffle_range, latest) == 8,
                     "hyparview_shuffle_range");
#undef SHUFFLE_TIMES_ASSERT

#ifdef __cplusplus
}
#endif

#endif
