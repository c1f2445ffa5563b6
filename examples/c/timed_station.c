/* A station over a simulated clock, with no timers of the caller's own: what hyparview_handle starts goes into the queue of
 * timer_map.h, and what is due there comes out as the next event. It runs two minutes and stops with 1 where something is
 * refused, comes out before its time or out of order, is left in the lent bytes, or where maintenance is not done each
 * 5,000 ms. */
#include "hyparview.h"
#include "timer_map.h"

#include <stdio.h>
#include <stdlib.h>
#include <string.h>

#define END 120000

static uint64_t state[HYPARVIEW_WORDS];
static struct hyparview_tally tally;
static uint64_t queue[TIMER_MAP_WORDS];
static uint8_t out[HYPARVIEW_OUTPUT];
static uint64_t clock_ms;
static unsigned fired[TIMER_MAP_LAST_KIND + 1];

static void stop(const char *what, uint32_t code)
{
    fprintf(stderr, "timed station: %s at %llu ms: %u\n", what, (unsigned long long)clock_ms, code);
    exit(1);
}

/* The draws of a call: any 32-bit numbers will do. */
static const uint32_t *draws(void)
{
    static uint32_t list[HYPARVIEW_DRAWS];
    static uint32_t last = 1;
    for (size_t i = 0; i < HYPARVIEW_DRAWS; i++)
        list[i] = last = last * 1664525 + 1013904223;
    return list;
}

/* One event now: its timers are started. */
static void handle(const uint8_t *event, size_t len)
{
    struct hyparview_done done =
        hyparview_handle(state, HYPARVIEW_WORDS, &tally, false, event, len, draws(), HYPARVIEW_DRAWS, out, sizeof out);
    if (done.code != HYPARVIEW_ACCEPTED)
        stop("an event is refused", done.code);
    uint32_t code = timer_map_insert_records(queue, TIMER_MAP_WORDS, clock_ms, out, sizeof out);
    if (code != 0)
        stop("its timers are refused", code);
}

/* Every timer that is due now. */
static void fire(void)
{
    static const uint8_t no_event[TIMER_MAP_EVENT_BYTES];
    uint8_t event[TIMER_MAP_EVENT_BYTES];
    for (;;) {
        struct timer_map_popped_event p = timer_map_pop_event(queue, TIMER_MAP_WORDS, clock_ms, event, sizeof event);
        if (p.code != 0)
            stop("the queue refuses", p.code);
        if (!p.found) {
            if (memcmp(event, no_event, sizeof event) != 0)
                stop("bytes are left where no event is due", event[0]);
            return;
        }
        if (p.time != clock_ms)
            stop("a timer comes out at another time than its own", event[0]);
        fired[event[0]]++;
        if (event[0] == HYPARVIEW_KIND_DO_MAINTENANCE && clock_ms % HYPARVIEW_MAINTENANCE_INTERVAL != 0)
            stop("maintenance at another time than each 5,000 ms", event[0]);
        handle(event, sizeof event);
    }
}

int main(void)
{
    const struct hyparview_config settings = HYPARVIEW_DEFAULTS;
    const struct hyparview_header join = {.kind = HYPARVIEW_KIND_REQUEST_JOIN, .peer = 7, .size = HYPARVIEW_HEADER};
    uint8_t first[HYPARVIEW_HEADER];
    hyparview_write_header(first, join);
    if (hyparview_new(state, HYPARVIEW_WORDS, &tally, 1, 0, NULL, 0, settings) != HYPARVIEW_ACCEPTED)
        stop("new is refused", HYPARVIEW_CODE_SETTINGS);
    if (timer_map_new(queue, TIMER_MAP_WORDS) != TIMER_MAP_DONE)
        stop("a new queue is refused", TIMER_MAP_BROKEN);
    handle(first, sizeof first);
    for (;;) {
        struct timer_map_first next = timer_map_first(queue, TIMER_MAP_WORDS);
        if (next.code != 0 || !next.found)
            stop("no timer is left", next.code);
        if (next.time > END)
            break;
        if (next.time < clock_ms)
            stop("the clock goes back", 0);
        clock_ms = next.time;
        fire();
    }
    struct timer_map_len held = timer_map_len(queue, TIMER_MAP_WORDS);
    if (fired[HYPARVIEW_KIND_DO_MAINTENANCE] != END / HYPARVIEW_MAINTENANCE_INTERVAL)
        stop("maintenance was done another number of times", fired[HYPARVIEW_KIND_DO_MAINTENANCE]);
    printf("timed station: %d ms, %u shuffles, %u maintenances, %u requests, %u joins, %llu timers held\n", END,
           fired[HYPARVIEW_KIND_DO_SHUFFLE], fired[HYPARVIEW_KIND_DO_MAINTENANCE],
           fired[HYPARVIEW_KIND_PENDING_NEIGHBOR_REQUEST], fired[HYPARVIEW_KIND_RETRY_JOIN], (unsigned long long)held.count);
    return 0;
}
