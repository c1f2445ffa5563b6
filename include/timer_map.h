/* The timer queue for a controller without timers of its own (document 02, S-1), for x86-64: the first five functions are
 * in target/staticlib/libtimer_map.a (`tools/staticlib timer_map`), the last two in target/staticlib/libtimer_events.a
 * (`tools/staticlib timer_events`). They link beside libcontroller.a.
 *
 * The caller owns all memory: a queue is TIMER_MAP_WORDS words. Whatever the words are, each call answers: words that break
 * the queue's own rules, and any other number of words, are refused with code 2. A refusal changes no word.
 *
 * What a caller owes. Each pointer is aligned and points to as many elements as the length beside it says; where that is 0
 * it may be NULL, since nothing is read or written there. tests/timers.c makes every such call. What `q` and `out` point to
 * overlaps nothing else of the same call. crates/timer_map/src/lib.rt and crates/timer_events/src/lib.rt have the contracts. */
#ifndef TIMER_MAP_H
#define TIMER_MAP_H

#include <stdbool.h>
#include <stddef.h>
#include <stdint.h>

#ifdef __cplusplus
extern "C" {
#define TIMER_MAP_ASSERT(test, name) static_assert(test, name)
#else
#define TIMER_MAP_ASSERT(test, name) _Static_assert(test, name)
#endif

/* The words of a queue, and how many timers it holds at most. */
#define TIMER_MAP_WORDS 513
#define TIMER_MAP_CAPACITY 64

/* The words: the count, then a row for each place, unused rows zero. A row is due time, kind, peer, number and 4 words of
 * id; rows stand in the order put in. */
#define TIMER_MAP_COUNT 0
#define TIMER_MAP_ROWS 1
#define TIMER_MAP_ROW 8

/* The kinds of a timer: DoShuffle, DoMaintenance, PendingNeighborRequest, RetryJoin. None has an id, and the first two have
 * neither peer nor number. */
#define TIMER_MAP_FIRST_KIND 1
#define TIMER_MAP_LAST_KIND 4

/* The bytes of a timer's event. */
#define TIMER_MAP_EVENT_BYTES 32

/* The codes. */
#define TIMER_MAP_DONE 0
#define TIMER_MAP_BROKEN 2     /* the queue breaks its own rules, or has another number of words */
#define TIMER_MAP_MALFORMED 3  /* what is to be put in is no timer, which an event record can say */
#define TIMER_MAP_NO_ROOM 9    /* the event does not fit into the lent bytes */
#define TIMER_MAP_FULL 11      /* 64 timers are held */
#define TIMER_MAP_TOO_LATE 12  /* the due time passes 2^64 - 1 */

/* What a timer is; the id is zero for kinds 1 to 4, peer and number for kinds 1 and 2. */
struct timer_map_timer {
    uint64_t kind;
    uint64_t peer;
    uint64_t number;
    uint64_t id[4];
};

struct timer_map_entry {
    uint64_t time;
    struct timer_map_timer item;
};

/* Where `found` is false, the entry is zero. */
struct timer_map_popped {
    uint32_t code;
    bool found;
    struct timer_map_entry entry;
};

struct timer_map_first {
    uint32_t code;
    bool found;
    uint64_t time;
};

struct timer_map_len {
    uint32_t code;
    uint64_t count;
};

/* Where `found` is false, the time is 0, and so is every byte that was lent for the event. */
struct timer_map_popped_event {
    uint32_t code;
    bool found;
    uint64_t time;
};

/* The words become the empty queue, whatever they were: 0, or 2 where there are not TIMER_MAP_WORDS of them. */
uint32_t timer_map_new(uint64_t *q, size_t q_len);

/* A timer is put in, due at time + delay (ms): 0, or in this order 2, 3, 12, 11. */
uint32_t timer_map_insert(uint64_t *q, size_t q_len, uint64_t time, uint64_t delay, struct timer_map_timer item);

/* Takes out the first of the entries with the smallest due time, where that is at most the limit; equal times come out in
 * the order put in. Code 0, also where none is due, or 2. */
struct timer_map_popped timer_map_pop_before(uint64_t *q, size_t q_len, uint64_t limit);

/* The next due time: when to wake. Code 0, also where the queue is empty, or 2. */
struct timer_map_first timer_map_first(const uint64_t *q, size_t q_len);

/* How many timers are held. */
struct timer_map_len timer_map_len(const uint64_t *q, size_t q_len);

/* Puts in every timer record of an output of hyparview_handle, in order, each by its delay from this time: all of them and
 * 0, or none and 2 or the first refusal (3, never for the output of an accepted call, 12, 11). Records are taken by their
 * whole length until that is 0. */
uint32_t timer_map_insert_records(uint64_t *q, size_t q_len, uint64_t time, const uint8_t *output, size_t output_len);

/* As timer_map_pop_before, and the entry's event, which hyparview_handle reads, stands in the first TIMER_MAP_EVENT_BYTES of
 * `out`; its due time is handed back. Code 0, also where none is due; 2; 9, where `out` is too short. Where none is handed
 * out, every byte of `out` becomes 0: no earlier event is left there. */
struct timer_map_popped_event timer_map_pop_event(uint64_t *q, size_t q_len, uint64_t limit, uint8_t *out, size_t out_len);

/* ---- What the library was compiled with */

TIMER_MAP_ASSERT(sizeof(size_t) == 8 && sizeof(void *) == 8, "a 64-bit machine");
TIMER_MAP_ASSERT(sizeof(bool) == 1, "bool");
TIMER_MAP_ASSERT(sizeof(struct timer_map_timer) == 56, "timer_map_timer");
TIMER_MAP_ASSERT(sizeof(struct timer_map_entry) == 64 && offsetof(struct timer_map_entry, item) == 8, "timer_map_entry");
TIMER_MAP_ASSERT(sizeof(struct timer_map_popped) == 72 && offsetof(struct timer_map_popped, found) == 4 &&
                     offsetof(struct timer_map_popped, entry) == 8,
                 "timer_map_popped");
TIMER_MAP_ASSERT(sizeof(struct timer_map_first) == 16 && offsetof(struct timer_map_first, found) == 4 &&
                     offsetof(struct timer_map_first, time) == 8,
                 "timer_map_first");
TIMER_MAP_ASSERT(sizeof(struct timer_map_len) == 16 && offsetof(struct timer_map_len, count) == 8, "timer_map_len");
TIMER_MAP_ASSERT(sizeof(struct timer_map_popped_event) == 16 && offsetof(struct timer_map_popped_event, found) == 4 &&
                     offsetof(struct timer_map_popped_event, time) == 8,
                 "timer_map_popped_event");
TIMER_MAP_ASSERT(TIMER_MAP_WORDS == TIMER_MAP_ROWS + TIMER_MAP_ROW * TIMER_MAP_CAPACITY, "the words");
#undef TIMER_MAP_ASSERT

#ifdef __cplusplus
}
#endif

#endif
