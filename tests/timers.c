/* The stored calls of the Rust's TimerMap over the exported queue: each call of crates/test_timer/stdin, of six 64-bit numbers
 * (what, time or limit, delay, kind, peer, number), prints the line that crates/test_timer/stdout has for it, which is the
 * Rust's answer (tools/make/timers). Before them every function is called with NULL at length 0. It stops with 1 where there is
 * no call, or where an answer to NULL is another. */
#include "timer_map.h"

#include <stdio.h>
#include <stdlib.h>
#include <string.h>

enum { INSERT, POP, FIRST, LEN, EVENT };

static uint64_t q[TIMER_MAP_WORDS];

#define CHECK(test) check(test, #test, __LINE__)

static void check(bool test, const char *words, int line)
{
    if (!test) {
        fprintf(stderr, "timers: line %d: not so: %s\n", line, words);
        exit(1);
    }
}

/* ---- NULL with length 0 */

static void nulls(void)
{
    const struct timer_map_timer maintenance = {2, 0, 0, {0, 0, 0, 0}};
    uint8_t event[TIMER_MAP_EVENT_BYTES];
    CHECK(timer_map_new(NULL, 0) == TIMER_MAP_BROKEN);
    CHECK(timer_map_insert(NULL, 0, 0, 0, maintenance) == TIMER_MAP_BROKEN);
    struct timer_map_popped p = timer_map_pop_before(NULL, 0, UINT64_MAX);
    CHECK(p.code == TIMER_MAP_BROKEN && !p.found && p.entry.time == 0 && p.entry.item.kind == 0);
    struct timer_map_first f = timer_map_first(NULL, 0);
    CHECK(f.code == TIMER_MAP_BROKEN && !f.found && f.time == 0);
    struct timer_map_len n = timer_map_len(NULL, 0);
    CHECK(n.code == TIMER_MAP_BROKEN && n.count == 0);
    CHECK(timer_map_insert_records(NULL, 0, 0, NULL, 0) == TIMER_MAP_BROKEN);
    CHECK(timer_map_pop_event(NULL, 0, UINT64_MAX, NULL, 0).code == TIMER_MAP_BROKEN);
    CHECK(timer_map_new(q, TIMER_MAP_WORDS) == TIMER_MAP_DONE);
    CHECK(timer_map_insert_records(q, TIMER_MAP_WORDS, 7, NULL, 0) == TIMER_MAP_DONE && q[TIMER_MAP_COUNT] == 0);
    struct timer_map_popped_event e = timer_map_pop_event(q, TIMER_MAP_WORDS, UINT64_MAX, NULL, 0);
    CHECK(e.code == TIMER_MAP_DONE && !e.found && e.time == 0);
    CHECK(timer_map_insert(q, TIMER_MAP_WORDS, 7, 5000, maintenance) == TIMER_MAP_DONE);
    e = timer_map_pop_event(q, TIMER_MAP_WORDS, UINT64_MAX, NULL, 0);
    CHECK(e.code == TIMER_MAP_NO_ROOM && !e.found && q[TIMER_MAP_COUNT] == 1);
    e = timer_map_pop_event(q, TIMER_MAP_WORDS, UINT64_MAX, event, sizeof event);
    CHECK(e.code == TIMER_MAP_DONE && e.found && e.time == 5007 && event[0] == 2);
    CHECK(timer_map_new(q, TIMER_MAP_WORDS) == TIMER_MAP_DONE);
}

/* ---- the stored calls */

static void show(const uint64_t *numbers, size_t n)
{
    for (size_t i = 0; i < n; i++)
        printf("%llu ", (unsigned long long)numbers[i]);
    printf("\n");
}

#define SHOW(...)                                             \
    do {                                                      \
        const uint64_t told[] = {__VA_ARGS__};                \
        show(told, sizeof told / sizeof told[0]);             \
    } while (0)

static void show_event(uint64_t limit)
{
    uint8_t bytes[TIMER_MAP_EVENT_BYTES];
    uint64_t words[4] = {0};
    memset(bytes, 255, sizeof bytes); // so that a zero is one that the call wrote
    struct timer_map_popped_event p = timer_map_pop_event(q, TIMER_MAP_WORDS, limit, bytes, sizeof bytes);
    for (size_t i = 0; i < sizeof bytes; i++)
        words[i / 8] |= (uint64_t)bytes[i] << 8 * (i % 8);
    SHOW(EVENT, p.code, p.found, p.time, words[0], words[1], words[2], words[3]);
}

static void show_pop(uint64_t limit)
{
    struct timer_map_popped p = timer_map_pop_before(q, TIMER_MAP_WORDS, limit);
    const struct timer_map_timer *x = &p.entry.item;
    SHOW(POP, p.code, p.found, p.entry.time, x->kind, x->peer, x->number, x->id[0], x->id[1], x->id[2], x->id[3]);
}

static void call(const uint64_t *n)
{
    const struct timer_map_timer item = {n[3], n[4], n[5], {0, 0, 0, 0}};
    struct timer_map_first first;
    struct timer_map_len len;
    switch (n[0]) {
    case INSERT:
        SHOW(INSERT, timer_map_insert(q, TIMER_MAP_WORDS, n[1], n[2], item));
        break;
    case POP:
        show_pop(n[1]);
        break;
    case FIRST:
        first = timer_map_first(q, TIMER_MAP_WORDS);
        SHOW(FIRST, first.code, first.found, first.time);
        break;
    case LEN:
        len = timer_map_len(q, TIMER_MAP_WORDS);
        SHOW(LEN, len.code, len.count);
        break;
    case EVENT:
        show_event(n[1]);
        break;
    default:
        SHOW(n[0], timer_map_new(q, TIMER_MAP_WORDS));
    }
}

int main(void)
{
    uint8_t bytes[48];
    long calls = 0;
    nulls();
    while (fread(bytes, 1, sizeof bytes, stdin) == sizeof bytes) {
        uint64_t numbers[6] = {0};
        for (size_t i = 0; i < sizeof bytes; i++)
            numbers[i / 8] |= (uint64_t)bytes[i] << 8 * (i % 8);
        call(numbers);
        calls++;
    }
    return calls == 0;
}
