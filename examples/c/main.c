/* A station to copy: it waits for an event, hands it to the library, and does what the records that come back say.
 *
 * The five functions up to `tell` are a controller's own. Here they read the events from standard input, record after
 * record, and print. A timer's record is to be kept and handed to `handle` when it is due, with `second` 0; a message's is
 * to be sent, and its receiver hands it to its own `handle` with the sender as `peer`. */
#include "hyparview.h"

#include <inttypes.h>
#include <stdio.h>
#include <stdlib.h>

#define TRIES 3    /* with new draws, before an event counts as refused for want of them */
#define AGAIN 1000 /* ms until a timer that was refused is brought again */

static uint64_t state[HYPARVIEW_WORDS];
static struct hyparview_tally tally;
static uint32_t draws[HYPARVIEW_DRAWS];
static uint8_t event[HYPARVIEW_RECORD], out[HYPARVIEW_OUTPUT];

/* The next event: a message, an expired timer, a closed connection, a wish of the application. Its length, 0 at the end. */
static size_t wait_for_event(void)
{
    size_t n = fread(event, 1, HYPARVIEW_HEADER, stdin);
    size_t size = n < HYPARVIEW_HEADER ? n : hyparview_record_size(event);
    return size > n && size <= sizeof event ? n + fread(event + n, 1, size - n, stdin) : n;
}

/* Any random numbers; better ones than these where a controller has them. */
static void draw(size_t n)
{
    static uint32_t last = 1;
    for (size_t i = 0; i < n; i++)
        draws[i] = last = last * 1664525 + 1013904223;
}

static void send_message(uint64_t to, const uint8_t *record, size_t len)
{
    printf("send message %u to %" PRIu64 ": %zu bytes\n", record[1], to, len);
}

static void start_timer(const struct hyparview_header *h)
{
    printf("start timer %u for %" PRIu64 ", number %" PRIu64 ", in %" PRIu64 " ms\n", h->kind, h->peer, h->number, h->second);
}

static void tell(const struct hyparview_header *h)
{
    printf("tell kind %u of %" PRIu64 "\n", h->kind, h->peer);
}

/* The library's answer. Where the draws did not suffice the event did not happen, and others may. */
static uint32_t answer(size_t len)
{
    struct hyparview_done done = {HYPARVIEW_CODE_DRAWS, 0};
    for (int i = 0; i < TRIES && done.code == HYPARVIEW_CODE_DRAWS; i++) {
        done = hyparview_handle(state, HYPARVIEW_WORDS, &tally, false, event, len, draws, HYPARVIEW_DRAWS, out,
                                sizeof out);
        draw(done.code == HYPARVIEW_CODE_DRAWS ? HYPARVIEW_DRAWS : done.draws);
    }
    return done.code;
}

/* A refused event. A message counts as lost; a timer comes again, since only its event starts it anew. */
static void refused(size_t len)
{
    struct hyparview_reading r = hyparview_read(event, len);
    if (r.ok && r.header.kind >= HYPARVIEW_FIRST_TIMER && r.header.kind <= HYPARVIEW_LAST_TIMER) {
        r.header.second = AGAIN;
        start_timer(&r.header);
    }
}

/* What an accepted event brings about. */
static void do_records(void)
{
    for (size_t at = 0; at + HYPARVIEW_HEADER <= sizeof out;) {
        size_t size = hyparview_record_size(out + at);
        struct hyparview_reading r = hyparview_read(out + at, size);
        if (size == 0 || !r.ok)
            break; /* the records end; each of them is well-formed */
        if (r.header.kind == HYPARVIEW_KIND_MESSAGE)
            send_message(r.header.peer, out + at, size);
        else if (r.header.kind <= HYPARVIEW_LAST_TIMER)
            start_timer(&r.header);
        else
            tell(&r.header);
        at += size;
    }
}

/* One event. */
static void handle(size_t len)
{
    uint32_t code = answer(len);
    printf("event of %zu bytes: code %u\n", len, code);
    if (code == HYPARVIEW_CODE_STATE)
        exit(1); /* the memory is damaged: begin anew with hyparview_new */
    if (code == HYPARVIEW_ACCEPTED)
        do_records();
    else
        refused(len);
}

int main(void)
{
    const struct hyparview_config config = HYPARVIEW_DEFAULTS;
    size_t len;
    if (hyparview_version() != HYPARVIEW_VERSION)
        return 1; /* the library is another than this header's */
    if (hyparview_new(state, HYPARVIEW_WORDS, &tally, 1, 0, NULL, 0, config) != HYPARVIEW_ACCEPTED)
        return 1;
    draw(HYPARVIEW_DRAWS);
    while ((len = wait_for_event()) > 0)
        handle(len);
    printf("%zu neighbours, %zu spare addresses\n", hyparview_neighbor_count(state, HYPARVIEW_WORDS),
           hyparview_spare_addresses(state, HYPARVIEW_WORDS));
    return 0;
}
