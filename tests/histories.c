/* Stored histories of the Rust (oracle/sample) over the exported functions: their records, codes, draws and states are met
 * byte for byte, or the program stops with 1 at the first difference. Every kind of output record is to be met, and every
 * code but 2, which is damaged.c's, and 8, which no call is answered (02, S-5). Each file is run with tallies that start at 0,
 * of which messages and twice the neighbours are never above the allowance and somewhere all of it, and with tallies one
 * below their top, where they are to stay.
 *
 * usage: histories FILE...   (the form of the files: oracle/sample/README.md) */
#include "hyparview.h"

#include <stdio.h>
#include <stdlib.h>
#include <string.h>

#define SECTION(name) HYPARVIEW_WORD_##name, HYPARVIEW_WORD_##name##_PLACES, HYPARVIEW_WORD_##name##_COUNT

static uint64_t state[HYPARVIEW_WORDS];
static struct hyparview_tally tally;
static uint8_t out[HYPARVIEW_OUTPUT];

static const char *name;
static FILE *stored;
static long number;
static char line[140000];
static char text[20000];
static size_t used;
static uint64_t first_count;
static long kinds[HYPARVIEW_KIND_EVICTED + 1], messages[HYPARVIEW_MESSAGE_DISCONNECT + 1];
static long codes[HYPARVIEW_CODE_PIN_LIMIT + 1];
static long used_up;

static int next_line(void)
{
    if (fgets(line, sizeof line, stored) == NULL)
        return 0;
    line[strcspn(line, "\n")] = 0;
    number++;
    return 1;
}

static void stop(const char *what)
{
    fprintf(stderr, "%s:%ld: %s\n", name, number, what);
    exit(1);
}

/* The text so far is to be the next line. */
static void meet(void)
{
    if (!next_line())
        line[0] = 0;
    if (strcmp(line, text) != 0) {
        fprintf(stderr, "%s:%ld: stored\n%s\nand got\n%s\n", name, number, line, text);
        exit(1);
    }
    used = 0;
    text[0] = 0;
}

static void put(const char *s)
{
    used += (size_t)snprintf(text + used, sizeof text - used, "%s", s);
}

static void put_field(const char *field, uint64_t n)
{
    used += (size_t)snprintf(text + used, sizeof text - used, "%s%llu", field, (unsigned long long)n);
}

static void put_hex(const uint8_t *b, size_t n)
{
    for (size_t i = 0; i < n; i++)
        used += (size_t)snprintf(text + used, sizeof text - used, "%02x", b[i]);
}

/* Bytes of data in two words, the first lowest. */
static void put_data(uint64_t len, uint64_t low, uint64_t high)
{
    uint8_t b[HYPARVIEW_DATA];
    for (size_t i = 0; i < 8; i++) {
        b[i] = (uint8_t)(low >> 8 * i);
        b[8 + i] = (uint8_t)(high >> 8 * i);
    }
    put_hex(b, len);
}

static void put_set(const char *field, size_t at, size_t places, size_t count)
{
    (void)places;
    put(field);
    for (size_t i = 0; i < state[count]; i++)
        put_field(i ? "," : "", state[at + i]);
    put("]");
}

static void put_numbers(const char *field, size_t at, size_t places, size_t count)
{
    put(field);
    for (size_t i = 0; i < state[count]; i++) {
        put_field(i ? "," : "", state[at + i]);
        put_field(":", state[at + places + i]);
    }
    put("]");
}

static void put_map(const char *field, size_t at, size_t places, size_t count)
{
    put(field);
    for (size_t i = 0; i < state[count]; i++) {
        put_field(i ? "," : "", state[at + i]);
        put(":");
        put_data(state[at + places + i], state[at + 2 * places + i], state[at + 3 * places + i]);
    }
    put("]");
}

/* The state that the words hold, in the trace form. */
static void put_state(void)
{
    put(state[HYPARVIEW_WORD_OWN_PRESENT] ? "state me=x" : "state me=-");
    put_data(state[HYPARVIEW_WORD_OWN_LEN], state[HYPARVIEW_WORD_OWN_LOW], state[HYPARVIEW_WORD_OWN_HIGH]);
    put_set(" active=[", SECTION(ACTIVE));
    put_set(" passive=[", SECTION(PASSIVE));
    put_set(" bootstrap=[", SECTION(BOOTSTRAP));
    put_set(" recent=[", SECTION(RECENT));
    put_numbers(" requests=[", SECTION(REQUESTS));
    put_field(" next_request=", state[HYPARVIEW_WORD_NEXT_NEIGHBOR_REQUEST]);
    put_numbers(" joins=[", SECTION(JOINS));
    put_field(" next_join=", state[HYPARVIEW_WORD_NEXT_JOIN]);
    put_map(" data=[", SECTION(PEER_DATA));
    put_set(" alive=[", SECTION(ALIVE));
    put_set(" refused=[", SECTION(REFUSED));
    uint64_t refill = state[HYPARVIEW_WORD_REFILL_KIND];
    put(refill == 0 ? " refill=A" : refill == 1 ? " refill=R" : " refill=V");
    if (refill == 1)
        put_field("", state[HYPARVIEW_WORD_REFILL_REQUESTS]);
    put_field(" timers=", state[HYPARVIEW_WORD_TIMERS_SCHEDULED]);
    put_field(" interval=", state[HYPARVIEW_WORD_NEXT_SHUFFLE_INTERVAL]);
    put_field(" alone=", state[HYPARVIEW_WORD_PASSES_ALONE]);
    put_field(" short=", state[HYPARVIEW_WORD_PASSES_SHORT]);
    put_set(" pins=[", SECTION(PINS));
}

/* A record read back: its header and each of its nodes, written again, are its bytes, and no node is after them. */
static void check_record(const uint8_t *record, size_t size, uint64_t *sent)
{
    struct hyparview_reading r = hyparview_read(record, size);
    uint8_t again[HYPARVIEW_HEADER];
    hyparview_write_header(again, r.header);
    if (!r.ok || r.header.size != size || memcmp(again, record, HYPARVIEW_HEADER) != 0)
        stop("the next record is read as another");
    for (size_t i = 0; i < r.header.nodes; i++) {
        struct hyparview_node_reading n = hyparview_node(record, size, i);
        hyparview_write_node(again, n.node);
        if (!n.ok || memcmp(again, record + HYPARVIEW_HEADER + HYPARVIEW_NODE * i, HYPARVIEW_NODE) != 0)
            stop("a node of the next record is read as another");
    }
    if (hyparview_node(record, size, r.header.nodes).ok)
        stop("the next record has a node too many");
    kinds[r.header.kind]++;
    if (r.header.kind == HYPARVIEW_KIND_MESSAGE) {
        messages[r.header.message]++;
        if (sent[r.header.message] < UINT64_MAX)
            sent[r.header.message]++;
    }
}

/* The records of an output, each on a line, and zeroes after them. */
static void meet_records(size_t room, uint64_t *sent)
{
    size_t at = 0;
    while (at + HYPARVIEW_HEADER <= room) {
        size_t size = hyparview_record_size(out + at);
        if (size == 0)
            break;
        check_record(out + at, size, sent);
        put_hex(out + at, size);
        meet();
        at += size;
    }
    for (; at < room; at++)
        if (out[at] != 0)
            stop("no zeroes after the records");
}

/* Whether the query holds of each peer of a section. */
static bool all(bool (*query)(const uint64_t *, size_t, uint64_t), size_t at, size_t places, size_t count)
{
    (void)places;
    for (size_t i = 0; i < state[count]; i++)
        if (!query(state, HYPARVIEW_WORDS, state[at + i]))
            return false;
    return true;
}

/* The tally and the queries say what the records and the state say. */
static void agree(const uint64_t *sent)
{
    size_t n = hyparview_neighbor_count(state, HYPARVIEW_WORDS);
    bool same = memcmp(&tally, sent, sizeof tally) == 0 && n == state[HYPARVIEW_WORD_ACTIVE_COUNT] &&
                hyparview_neighbor(state, HYPARVIEW_WORDS, n) == 0 &&
                hyparview_spare_addresses(state, HYPARVIEW_WORDS) == state[HYPARVIEW_WORD_PASSIVE_COUNT] &&
                all(hyparview_is_neighbor, SECTION(ACTIVE)) && all(hyparview_wants_connection, SECTION(ACTIVE)) &&
                all(hyparview_wants_connection, SECTION(REQUESTS)) && all(hyparview_wants_connection, SECTION(JOINS));
    for (size_t i = 0; i < n; i++)
        same = same && hyparview_neighbor(state, HYPARVIEW_WORDS, i) == state[HYPARVIEW_WORD_ACTIVE + i];
    for (size_t i = 0; i < state[HYPARVIEW_WORD_PASSIVE_COUNT]; i++)
        same = same && !hyparview_is_neighbor(state, HYPARVIEW_WORDS, state[HYPARVIEW_WORD_PASSIVE + i]);
    if (!same)
        stop("tally or queries differ");
}

static uint8_t input[65537];
static uint32_t draws[16384];

static uint32_t word(size_t at)
{
    return input[at] | (uint32_t)input[at + 1] << 8 | (uint32_t)input[at + 2] << 16 | (uint32_t)input[at + 3] << 24;
}

/* The input's numbers: self in two halves, the settings, and these. */
#define SETTING(i) word(8 + 4 * (i))
#define EVENT_COUNT word(44)
#define EVENT_OFFSET word(48)
#define DRAW_COUNT word(52)
#define DRAW_OFFSET word(56)
#define HEAD 60

/* Whether the events, cut by their whole lengths, and the draws exactly fill the input. */
static int is_filled(size_t n)
{
    if (n < HEAD || n > 65536 || EVENT_OFFSET != HEAD)
        return 0;
    size_t at = HEAD;
    for (uint32_t i = 0; i < EVENT_COUNT; i++) {
        if (at + HYPARVIEW_HEADER > n || hyparview_record_size(input + at) < HYPARVIEW_HEADER)
            return 0;
        at += hyparview_record_size(input + at);
    }
    return at == DRAW_OFFSET && at <= n && (n - at) % 4 == 0 && DRAW_COUNT == (n - at) / 4;
}

/* A new station by the input's first numbers; its counters are put at other places where a history says so. */
static uint32_t begin(const char *counters)
{
    struct hyparview_config settings = {SETTING(0), SETTING(1), SETTING(2), SETTING(3), SETTING(4),
                                        SETTING(5), SETTING(6), SETTING(7), SETTING(8)};
    uint64_t me = word(0) | (uint64_t)word(4) << 32;
    memset(state, 0xff, sizeof state);
    memset(&tally, 0xff, sizeof tally);
    uint32_t code = hyparview_new(state, HYPARVIEW_WORDS, &tally, me, 0, NULL, 0, settings);
    if (code == HYPARVIEW_ACCEPTED && counters != NULL) {
        unsigned long long n[4];
        if (sscanf(counters, "%llu,%llu,%llu,%llu", &n[0], &n[1], &n[2], &n[3]) != 4)
            stop("no counters");
        state[HYPARVIEW_WORD_NEXT_NEIGHBOR_REQUEST] = n[0];
        state[HYPARVIEW_WORD_NEXT_JOIN] = n[1];
        state[HYPARVIEW_WORD_PASSES_ALONE] = n[2];
        state[HYPARVIEW_WORD_PASSES_SHORT] = n[3];
    }
    return code;
}

/* Messages sent so far and twice the neighbours are at most the allowance (demand 3); it is used up where they are as much. */
static void within(uint64_t allowance)
{
    uint64_t spent = tally.join + tally.forward_join + tally.shuffle + tally.shuffle_reply + tally.neighbor +
                     tally.disconnect + 2 * hyparview_neighbor_count(state, HYPARVIEW_WORDS);
    if (spent > allowance)
        stop("the allowance is passed");
    used_up += spent == allowance;
}

/* The line that ends an event's records. */
static void meet_code(uint32_t code, size_t draws_used)
{
    if (code <= HYPARVIEW_CODE_PIN_LIMIT)
        codes[code]++;
    put_field("= ", code);
    put_field(" ", draws_used);
    meet();
}

/* One history: its input and the answers that follow it. Returns how many events it has. */
static long run_history(size_t n, size_t room, const char *counters)
{
    uint64_t sent[] = {first_count, first_count, first_count, first_count, first_count, first_count};
    uint32_t code = is_filled(n) ? begin(counters) : HYPARVIEW_CODE_EVENT;
    if (code != HYPARVIEW_ACCEPTED) {
        meet_code(code, 0);
        return 0;
    }
    const struct hyparview_tally none = {0, 0, 0, 0, 0, 0};
    if (memcmp(&tally, &none, sizeof tally) != 0)
        stop("a new station has a tally of messages");
    memcpy(&tally, sent, sizeof tally);
    size_t left = DRAW_COUNT, at = HEAD;
    uint64_t allowance = 0;
    for (size_t i = 0; i < left; i++)
        draws[i] = word(DRAW_OFFSET + 4 * i);
    const uint32_t *draw = draws;
    for (uint32_t i = 0; i < EVENT_COUNT; i++) {
        size_t size = hyparview_record_size(input + at);
        memset(out, 0xff, sizeof out);
        struct hyparview_done done =
            hyparview_handle(state, HYPARVIEW_WORDS, &tally, false, input + at, size, draw, left, out, room);
        meet_records(room, sent);
        meet_code(done.code, done.draws);
        put_state();
        meet();
        agree(sent);
        if (done.code == HYPARVIEW_ACCEPTED)
            allowance += hyparview_allowance(input + at, SETTING(0));
        if (first_count == 0)
            within(allowance);
        draw += done.draws;
        left -= done.draws;
        at += size;
    }
    return EVENT_COUNT;
}

static size_t read_hex(const char *hex)
{
    size_t n = 0;
    unsigned byte;
    while (n < sizeof input && sscanf(hex + 2 * n, "%2x", &byte) == 1)
        input[n++] = (uint8_t)byte;
    return n;
}

/* All histories of a file, with tallies that start at this count; returns how many events they have. */
static long run_file(uint64_t count)
{
    char counters[200] = "";
    size_t room = sizeof out;
    long events = 0;
    first_count = count;
    number = 0;
    rewind(stored);
    while (next_line()) {
        if (strncmp(line, "history ", 8) == 0) {
            counters[0] = 0;
            room = sizeof out;
        } else if (strncmp(line, "room ", 5) == 0) {
            room = strtoul(line + 5, NULL, 10);
        } else if (strncmp(line, "counters ", 9) == 0) {
            snprintf(counters, sizeof counters, "%.199s", line + 9);
        } else if (strncmp(line, "input ", 6) == 0) {
            events += run_history(read_hex(line + 6), room, counters[0] ? counters : NULL);
        } else if (line[0] != 0) {
            stop("a line beyond what was got");
        }
    }
    return events;
}

static void met(const char *what, size_t i, long times)
{
    if (times > 0)
        return;
    fprintf(stderr, "histories: no %s %zu was met\n", what, i);
    exit(1);
}

int main(int argc, char **argv)
{
    long events = 0;
    for (int i = 1; i < argc; i++) {
        name = argv[i];
        stored = fopen(name, "r");
        if (stored == NULL) {
            perror(name);
            return 1;
        }
        long more = run_file(0);
        if (more == 0 || run_file(UINT64_MAX - 1) != more)
            stop("no events");
        events += more;
        fclose(stored);
    }
    for (size_t i = 0; i <= HYPARVIEW_KIND_EVICTED; i++)
        if (i <= HYPARVIEW_LAST_TIMER || i >= HYPARVIEW_KIND_NEIGHBOR_UP)
            met("record of kind", i, kinds[i]);
    for (size_t i = 0; i <= HYPARVIEW_MESSAGE_DISCONNECT; i++)
        met("message", i, messages[i]);
    for (size_t i = 0; i <= HYPARVIEW_CODE_COUNTER; i++)
        if (i != HYPARVIEW_CODE_STATE && i != HYPARVIEW_CODE_DATA)
            met("code", i, codes[i]);
    met("code", HYPARVIEW_CODE_PIN_STRANGER, codes[HYPARVIEW_CODE_PIN_STRANGER]);
    met("code", HYPARVIEW_CODE_PIN_LIMIT, codes[HYPARVIEW_CODE_PIN_LIMIT]);
    met("allowance used up by more events than", 0, used_up);
    printf("histories: %ld events, every kind of record, every code but 2 and 8, same as stored\n", events);
    return 0;
}
