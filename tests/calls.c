/* The exported functions one by one, in C and in C++: hyparview_new with own data and with settings about their ranges,
 * lengths that are none, numbers that agree in a half, pins, both sides, NULL with length 0, outputs and draws that are too
 * short, and that nothing else is written. It stops with 1 at the first fault.
 *
 * usage: calls FILE    rows of four words by tools/make/record_vectors.py: whether own data is present, its bytes after an x, the
 *                      code of hyparview_new, and after an x the output of RequestJoin 7 at self 1 with a draw of 0 */
#include "hyparview.h"

#include <stdio.h>
#include <stdlib.h>
#include <string.h>

#define GUARD 64
#define FILLER 0xa5

/* What is lent stands between guards. */
static struct {
    uint8_t g0[GUARD];
    uint64_t state[HYPARVIEW_WORDS + 1];
    uint8_t g1[GUARD];
    struct hyparview_tally tally;
    uint8_t g2[GUARD];
    uint8_t out[HYPARVIEW_OUTPUT];
    uint8_t g3[GUARD];
} lent, kept;

static const struct hyparview_config defaults = HYPARVIEW_DEFAULTS;
static const uint32_t zeroes[HYPARVIEW_DRAWS] = {0};
static const uint8_t *const none = NULL;
static long checks;

#define CHECK(test) check(test, #test, __LINE__)

static void check(bool test, const char *words, int line)
{
    checks++;
    if (!test) {
        fprintf(stderr, "calls: line %d: not so: %s\n", line, words);
        exit(1);
    }
}

static bool all(const void *p, size_t n, uint8_t value)
{
    const uint8_t *b = (const uint8_t *)p;
    for (size_t i = 0; i < n; i++)
        if (b[i] != value)
            return false;
    return true;
}

static void fill(void)
{
    memset(&lent, FILLER, sizeof lent);
}

/* No word past the state's, and no guard, was written. */
static bool guarded(void)
{
    return all(lent.g0, GUARD, FILLER) && all(lent.g1, GUARD, FILLER) && all(lent.g2, GUARD, FILLER) &&
           all(lent.g3, GUARD, FILLER) && all(&lent.state[HYPARVIEW_WORDS], sizeof lent.state[0], FILLER);
}

/* The state and the tally are as they were kept. */
static bool left(void)
{
    return memcmp(lent.state, kept.state, sizeof lent.state) == 0 && memcmp(&lent.tally, &kept.tally, sizeof lent.tally) == 0;
}

static uint32_t make(uint8_t present, const uint8_t *own, size_t len, struct hyparview_config config)
{
    return hyparview_new(lent.state, HYPARVIEW_WORDS, &lent.tally, 1, present, own, len, config);
}

/* A new station with a full guard, kept beside. */
static void begin(void)
{
    fill();
    CHECK(make(0, none, 0, defaults) == HYPARVIEW_ACCEPTED);
    memcpy(&kept, &lent, sizeof kept);
}

/* An event without nodes. */
struct event {
    uint8_t bytes[HYPARVIEW_HEADER];
};

static struct hyparview_done handle(const struct event *e, size_t draws, size_t room)
{
    struct event copy = *e;
    memset(lent.out, FILLER, sizeof lent.out);
    struct hyparview_done done = hyparview_handle(lent.state, HYPARVIEW_WORDS, &lent.tally, false, copy.bytes,
                                                  sizeof copy.bytes, zeroes, draws, lent.out, room);
    CHECK(guarded() && memcmp(&copy, e, sizeof copy) == 0 && all(lent.out + room, sizeof lent.out - room, FILLER));
    if (done.code != HYPARVIEW_ACCEPTED)
        CHECK(left() && done.draws == 0 && all(lent.out, room, 0));
    return done;
}

static struct event event(uint8_t kind, uint64_t peer)
{
    struct hyparview_header h;
    struct event e;
    memset(&h, 0, sizeof h);
    h.kind = kind;
    h.peer = peer;
    h.size = HYPARVIEW_HEADER;
    hyparview_write_header(e.bytes, h);
    return e;
}

/* ---- a new station */

static uint64_t little(const uint8_t *b, size_t len)
{
    uint64_t n = 0;
    for (size_t i = 0; i < 8 && i < len; i++)
        n |= (uint64_t)b[i] << 8 * i;
    return n;
}

/* Every word of a station that has met no event. */
static bool is_new(bool present, const uint8_t *own, size_t len)
{
    uint64_t due[HYPARVIEW_WORDS] = {0};
    const uint64_t settings[] = {5, 30, 6, 3, 6, 3, 4, 60000, 3000};
    due[HYPARVIEW_WORD_ME] = 1;
    memcpy(due + HYPARVIEW_WORD_ACTIVE_VIEW_CAPACITY, settings, sizeof settings);
    due[HYPARVIEW_WORD_NEXT_SHUFFLE_INTERVAL] = HYPARVIEW_INITIAL_SHUFFLE_INTERVAL;
    if (present) {
        due[HYPARVIEW_WORD_OWN_PRESENT] = 1;
        due[HYPARVIEW_WORD_OWN_LEN] = len;
        due[HYPARVIEW_WORD_OWN_LOW] = little(own, len);
        due[HYPARVIEW_WORD_OWN_HIGH] = len > 8 ? little(own + 8, len - 8) : 0;
    }
    return memcmp(lent.state, due, sizeof due) == 0;
}

static size_t read_hex(const char *hex, uint8_t *bytes, size_t room)
{
    size_t n = 0;
    unsigned byte;
    while (n < room && sscanf(hex + 2 * n, "%2x", &byte) == 1)
        bytes[n++] = (uint8_t)byte;
    return n;
}

/* Own data, absent and of every length, in the words and in the first message. */
static void own_data(const char *name)
{
    FILE *rows = fopen(name, "r");
    char own_text[600], due_text[1000];
    unsigned present, code;
    int accepted = 0, refused = 0;
    if (rows == NULL) {
        perror(name);
        exit(1);
    }
    while (fscanf(rows, "%u %599s %u %999s", &present, own_text, &code, due_text) == 4) {
        uint8_t own[256], due[HYPARVIEW_OUTPUT] = {0};
        size_t len = read_hex(own_text + 1, own, sizeof own);
        read_hex(due_text + 1, due, sizeof due);
        fill();
        CHECK(make((uint8_t)present, own, len, defaults) == code && guarded() && all(lent.out, sizeof lent.out, FILLER));
        CHECK(all(&lent.tally, sizeof lent.tally, 0));
        memcpy(&kept, &lent, sizeof kept);
        struct event join = event(HYPARVIEW_KIND_REQUEST_JOIN, 7);
        if (code == HYPARVIEW_ACCEPTED) {
            CHECK(is_new(present != 0, own, len));
            struct hyparview_done done = handle(&join, 1, sizeof lent.out);
            CHECK(done.code == HYPARVIEW_ACCEPTED && done.draws == 1 && lent.tally.join == 1);
            CHECK(memcmp(lent.out, due, sizeof due) == 0);
            accepted++;
        } else {
            CHECK(all(lent.state, HYPARVIEW_WORDS * sizeof lent.state[0], 0));
            CHECK(handle(&join, 1, sizeof lent.out).code == HYPARVIEW_CODE_STATE);
            refused++;
        }
    }
    CHECK(feof(rows) && accepted > 0 && refused > 0);
    fclose(rows);
}

/* Each setting at the ends of its range, and one past them. */
static void settings(void)
{
    static const uint32_t ranges[9][2] = {{1, 8}, {1, 32}, {0, 65535}, {0, 65535}, {0, 65535},
                                          {0, 8}, {0, 23}, {1, 3600000}, {1, 3600000}};
    for (size_t i = 0; i < 9; i++) {
        const uint32_t tried[] = {ranges[i][0], ranges[i][1], ranges[i][0] - 1, ranges[i][1] + 1, UINT32_MAX, 1u << 31};
        for (size_t k = 0; k < sizeof tried / sizeof tried[0]; k++) {
            struct hyparview_config config = defaults;
            bool in_range = ranges[i][0] <= tried[k] && tried[k] <= ranges[i][1];
            memcpy((uint8_t *)&config + 4 * i, &tried[k], 4);
            fill();
            CHECK(make(0, none, 0, config) == (uint32_t)(in_range ? HYPARVIEW_ACCEPTED : HYPARVIEW_CODE_SETTINGS));
            CHECK(guarded() && all(&lent.tally, sizeof lent.tally, 0));
            if (in_range)
                CHECK(lent.state[HYPARVIEW_WORD_ACTIVE_VIEW_CAPACITY + i] == tried[k]);
            else
                CHECK(all(lent.state, HYPARVIEW_WORDS * sizeof lent.state[0], 0));
        }
    }
}

/* ---- lengths */

/* A number of words that is none touches nothing but the output. */
static void lengths(void)
{
    const struct event join = event(HYPARVIEW_KIND_REQUEST_JOIN, 7);
    const size_t wrong[] = {0, 1, HYPARVIEW_WORDS - 1, HYPARVIEW_WORDS + 1};
    for (size_t i = 0; i < sizeof wrong / sizeof wrong[0]; i++) {
        begin();
        CHECK(hyparview_new(lent.state, wrong[i], &lent.tally, 2, 0, none, 0, defaults) == HYPARVIEW_CODE_STATE && left());
        lent.tally.join = kept.tally.join = 5;
        struct hyparview_done done = hyparview_handle(lent.state, wrong[i], &lent.tally, false, join.bytes,
                                                      sizeof join.bytes, zeroes, HYPARVIEW_DRAWS, lent.out, sizeof lent.out);
        CHECK(done.code == HYPARVIEW_CODE_STATE && done.draws == 0 && left() && guarded());
        CHECK(all(lent.out, sizeof lent.out, 0));
        CHECK(!hyparview_is_neighbor(lent.state, wrong[i], 0) && !hyparview_wants_connection(lent.state, wrong[i], 0));
        CHECK(hyparview_neighbor_count(lent.state, wrong[i]) == 0 && hyparview_neighbor(lent.state, wrong[i], 0) == 0);
        CHECK(hyparview_spare_addresses(lent.state, wrong[i]) == 0);
    }
}

/* The first event writes a Join of one node and three timers: every shorter output is refused, and so are no draws. */
static void shortness(void)
{
    const struct event join = event(HYPARVIEW_KIND_REQUEST_JOIN, 7);
    const size_t whole = 4 * HYPARVIEW_HEADER + HYPARVIEW_NODE;
    begin();
    for (size_t room = 0; room < whole; room++)
        CHECK(handle(&join, 1, room).code == HYPARVIEW_CODE_OUTPUT);
    CHECK(handle(&join, 0, sizeof lent.out).code == HYPARVIEW_CODE_DRAWS);
    struct hyparview_done done = handle(&join, 1, whole);
    CHECK(done.code == HYPARVIEW_ACCEPTED && done.draws == 1 && lent.tally.join == 1);
}

/* A Neighbor of high priority from the peer, without data. */
static uint32_t arrive(uint64_t peer)
{
    uint8_t neighbor[HYPARVIEW_HEADER + HYPARVIEW_NODE];
    struct hyparview_header h;
    struct hyparview_entry absent;
    memset(&h, 0, sizeof h);
    memset(&absent, 0, sizeof absent);
    h.message = HYPARVIEW_MESSAGE_NEIGHBOR;
    h.flags = HYPARVIEW_FLAG_HIGH;
    h.nodes = 1;
    h.peer = peer;
    h.size = sizeof neighbor;
    hyparview_write_header(neighbor, h);
    hyparview_write_node(neighbor + HYPARVIEW_HEADER, absent);
    return hyparview_handle(lent.state, HYPARVIEW_WORDS, &lent.tally, false, neighbor, sizeof neighbor, zeroes,
                            HYPARVIEW_DRAWS, lent.out, sizeof lent.out).code;
}

/* ---- numbers of 64 bits (02, S-8) */

/* Self and peers that agree in their lower half are others: each is a neighbour of its own. */
static void numbers(void)
{
    static const uint64_t peers[] = {7, (UINT64_C(1) << 32) + 7, (UINT64_C(1) << 63) + 7, UINT64_MAX};
    const uint64_t me = (UINT64_C(1) << 40) + 7;
    fill();
    CHECK(hyparview_new(lent.state, HYPARVIEW_WORDS, &lent.tally, me, 0, none, 0, defaults) == HYPARVIEW_ACCEPTED);
    CHECK(lent.state[HYPARVIEW_WORD_ME] == me);
    for (size_t i = 0; i < sizeof peers / sizeof peers[0]; i++) {
        CHECK(!hyparview_is_neighbor(lent.state, HYPARVIEW_WORDS, peers[i]));
        CHECK(arrive(peers[i]) == HYPARVIEW_ACCEPTED && guarded());
        CHECK(hyparview_neighbor_count(lent.state, HYPARVIEW_WORDS) == i + 1);
        CHECK(hyparview_neighbor(lent.state, HYPARVIEW_WORDS, i) == peers[i]);
        struct hyparview_reading up = hyparview_read(lent.out, hyparview_record_size(lent.out));
        CHECK(up.ok && up.header.kind == HYPARVIEW_KIND_NEIGHBOR_UP && up.header.peer == peers[i]);
    }
    CHECK(!hyparview_is_neighbor(lent.state, HYPARVIEW_WORDS, me) && !hyparview_is_neighbor(lent.state, HYPARVIEW_WORDS, 0));
}

/* ---- pins (02, S-14) */

static uint32_t pin(uint64_t peer)
{
    const struct event e = event(HYPARVIEW_KIND_PIN, peer);
    memcpy(&kept, &lent, sizeof kept);
    struct hyparview_done done = handle(&e, 0, 0);
    CHECK(done.draws == 0 && memcmp(&kept.tally, &lent.tally, sizeof kept.tally) == 0);
    return done.code;
}

/* Two neighbours of three are pinned, without draws and output; the third goes for an arrival, and with it no pin. */
static void pins(void)
{
    struct hyparview_config few = defaults;
    const struct event closed = event(HYPARVIEW_KIND_PEER_DISCONNECTED, 9);
    few.active_view_capacity = 3;
    fill();
    CHECK(make(0, none, 0, few) == HYPARVIEW_ACCEPTED);
    CHECK(pin(7) == HYPARVIEW_CODE_PIN_STRANGER);
    CHECK(arrive(9) == HYPARVIEW_ACCEPTED && arrive(7) == HYPARVIEW_ACCEPTED && arrive(8) == HYPARVIEW_ACCEPTED);
    CHECK(pin(9) == HYPARVIEW_ACCEPTED && pin(7) == HYPARVIEW_ACCEPTED);
    CHECK(lent.state[HYPARVIEW_WORD_PINS_COUNT] == 2 && lent.state[HYPARVIEW_WORD_PINS] == 7 &&
          lent.state[HYPARVIEW_WORD_PINS + 1] == 9);
    CHECK(pin(8) == HYPARVIEW_CODE_PIN_LIMIT && pin(6) == HYPARVIEW_CODE_PIN_STRANGER);
    CHECK(pin(9) == HYPARVIEW_ACCEPTED && left());
    for (uint64_t peer = 10; peer < 20; peer++)
        CHECK(arrive(peer) == HYPARVIEW_ACCEPTED && hyparview_is_neighbor(lent.state, HYPARVIEW_WORDS, 7) &&
              hyparview_is_neighbor(lent.state, HYPARVIEW_WORDS, 9) && hyparview_is_neighbor(lent.state, HYPARVIEW_WORDS, peer));
    CHECK(handle(&closed, HYPARVIEW_DRAWS, sizeof lent.out).code == HYPARVIEW_ACCEPTED);
    CHECK(lent.state[HYPARVIEW_WORD_PINS_COUNT] == 1 && lent.state[HYPARVIEW_WORD_PINS] == 7 &&
          lent.state[HYPARVIEW_WORD_PINS + 1] == 0);
    CHECK(pin(19) == HYPARVIEW_ACCEPTED && pin(9) == HYPARVIEW_CODE_PIN_STRANGER);
}

/* ---- the two sides (02, S-12) */

static uint8_t bytes[HYPARVIEW_RECORD];

/* A message from the peer 50 with as many nodes without data, from 10 on; its length. */
static size_t message(uint8_t name, uint8_t ttl, uint8_t nodes)
{
    struct hyparview_header h;
    struct hyparview_entry absent;
    memset(&h, 0, sizeof h);
    memset(&absent, 0, sizeof absent);
    h.message = name;
    h.nodes = nodes;
    h.peer = 50;
    h.second = name == HYPARVIEW_MESSAGE_SHUFFLE ? 51 : 0;
    h.ttl = ttl;
    h.size = (uint32_t)(HYPARVIEW_HEADER + HYPARVIEW_NODE * nodes);
    hyparview_write_header(bytes, h);
    for (uint8_t i = 0; i < nodes; i++) {
        absent.id = 10u + i;
        hyparview_write_node(bytes + HYPARVIEW_HEADER + HYPARVIEW_NODE * i, absent);
    }
    return h.size;
}

/* A call from a side at the state that is kept. */
static struct hyparview_done from(bool radio, const uint8_t *e, size_t len, const uint32_t *draws, size_t count)
{
    memcpy(&lent, &kept, sizeof lent);
    struct hyparview_done done = hyparview_handle(lent.state, HYPARVIEW_WORDS, &lent.tally, radio, e, len, draws, count,
                                                  lent.out, sizeof lent.out);
    CHECK(guarded());
    if (done.code != HYPARVIEW_ACCEPTED)
        CHECK(left() && done.draws == 0 && all(lent.out, sizeof lent.out, 0));
    return done;
}

/* From either side the same code, draws, words, counts and bytes. */
static uint32_t alike(const uint8_t *e, size_t len, const uint32_t *draws, size_t count)
{
    static uint8_t wired[sizeof lent];
    struct hyparview_done one = from(false, e, len, draws, count);
    memcpy(wired, &lent, sizeof lent);
    struct hyparview_done two = from(true, e, len, draws, count);
    CHECK(one.code == two.code && one.draws == two.draws && memcmp(wired, &lent, sizeof lent) == 0);
    return one.code;
}

/* Byte 3 decides, whatever the kind is and whatever else is wrong, but for words that are no station and for 31 bytes. */
static void nodes_from_radio(void)
{
    uint8_t e[HYPARVIEW_HEADER] = {0};
    for (unsigned kind = 0; kind < 256; kind++)
        for (unsigned n = 0; n < 256; n++) {
            e[0] = (uint8_t)kind;
            e[3] = (uint8_t)n;
            if (n <= HYPARVIEW_RADIO_NODES) {
                alike(e, sizeof e, zeroes, HYPARVIEW_DRAWS);
                continue;
            }
            CHECK(from(true, e, sizeof e, zeroes, HYPARVIEW_DRAWS).code ==
                  (n <= 32 ? HYPARVIEW_CODE_RADIO_NODES : HYPARVIEW_CODE_NODES));
            CHECK(from(false, e, sizeof e, zeroes, HYPARVIEW_DRAWS).code ==
                  (n <= 32 ? HYPARVIEW_CODE_EVENT : HYPARVIEW_CODE_NODES));
        }
    e[3] = 9;
    CHECK(from(true, e, sizeof e - 1, zeroes, HYPARVIEW_DRAWS).code == HYPARVIEW_CODE_EVENT);
    kept.state[HYPARVIEW_WORD_ACTIVE_VIEW_CAPACITY] = 0;
    CHECK(from(true, e, sizeof e, zeroes, HYPARVIEW_DRAWS).code == HYPARVIEW_CODE_STATE);
    kept.state[HYPARVIEW_WORD_ACTIVE_VIEW_CAPACITY] = defaults.active_view_capacity;
}

/* A Shuffle that goes on to one of three neighbours passes over 2^32 - 1: with 63 of them before a 0 the choice takes 64 draws,
 * with 64 of them the 65th, which is not read from the radio side. */
static void draws_from_radio(void)
{
    uint32_t draws[HYPARVIEW_DRAWS];
    size_t len = message(HYPARVIEW_MESSAGE_SHUFFLE, 3, HYPARVIEW_RADIO_NODES);
    memset(draws, 0, sizeof draws);
    memset(draws, 0xff, 63 * sizeof draws[0]);
    CHECK(from(false, bytes, len, draws, HYPARVIEW_DRAWS).draws == HYPARVIEW_RADIO_DRAWS);
    CHECK(alike(bytes, len, draws, HYPARVIEW_RADIO_DRAWS) == HYPARVIEW_ACCEPTED);
    CHECK(alike(bytes, len, draws, HYPARVIEW_DRAWS) == HYPARVIEW_ACCEPTED);
    CHECK(alike(bytes, len, draws, 63) == HYPARVIEW_CODE_DRAWS);
    memset(draws, 0xff, 64 * sizeof draws[0]);
    CHECK(from(false, bytes, len, draws, HYPARVIEW_DRAWS).draws == 65);
    for (size_t count = 64; count <= HYPARVIEW_DRAWS; count++)
        CHECK(from(true, bytes, len, draws, count).code == HYPARVIEW_CODE_DRAWS);
}

/* With three neighbours and 30 spare addresses a Quit takes 87 draws, which the radio side does not read; with two it is
 * answered from either side, as is every other event. */
static void sides(void)
{
    const struct event quit = event(HYPARVIEW_KIND_QUIT, 0);
    const struct event closed = event(HYPARVIEW_KIND_PEER_DISCONNECTED, 3);
    begin();
    CHECK(arrive(3) == HYPARVIEW_ACCEPTED && arrive(4) == HYPARVIEW_ACCEPTED && arrive(5) == HYPARVIEW_ACCEPTED);
    memcpy(&kept, &lent, sizeof kept);
    nodes_from_radio();
    draws_from_radio();
    size_t len = message(HYPARVIEW_MESSAGE_SHUFFLE_REPLY, 0, 30);
    CHECK(from(true, bytes, len, zeroes, HYPARVIEW_DRAWS).code == HYPARVIEW_CODE_RADIO_NODES);
    CHECK(from(false, bytes, len, zeroes, HYPARVIEW_DRAWS).code == HYPARVIEW_ACCEPTED);
    CHECK(hyparview_spare_addresses(lent.state, HYPARVIEW_WORDS) == 30);
    memcpy(&kept, &lent, sizeof kept);
    for (uint8_t name = 0; name <= HYPARVIEW_MESSAGE_DISCONNECT; name++)
        for (uint8_t nodes = 0; nodes <= HYPARVIEW_RADIO_NODES; nodes++)
            for (uint8_t ttl = 0; ttl < 8; ttl++)
                alike(bytes, message(name, ttl, nodes), zeroes, HYPARVIEW_DRAWS);
    for (uint8_t kind = HYPARVIEW_KIND_DO_SHUFFLE; kind < HYPARVIEW_KIND_QUIT; kind++)
        alike(event(kind, kind < 3 ? 0 : 4).bytes, HYPARVIEW_HEADER, zeroes, HYPARVIEW_DRAWS);
    CHECK(from(true, quit.bytes, sizeof quit.bytes, zeroes, HYPARVIEW_DRAWS).code == HYPARVIEW_CODE_DRAWS);
    CHECK(from(false, quit.bytes, sizeof quit.bytes, zeroes, 86).code == HYPARVIEW_CODE_DRAWS);
    CHECK(from(false, quit.bytes, sizeof quit.bytes, zeroes, HYPARVIEW_DRAWS).draws == 87);
    CHECK(from(false, closed.bytes, sizeof closed.bytes, zeroes, HYPARVIEW_DRAWS).code == HYPARVIEW_ACCEPTED);
    memcpy(&kept, &lent, sizeof kept);
    CHECK(alike(quit.bytes, sizeof quit.bytes, zeroes, HYPARVIEW_DRAWS) == HYPARVIEW_ACCEPTED);
}

/* ---- the version and the allowance */

static void allowances(void)
{
    /* kind, message and what they add at capacity 5, by the mission's demand 3 */
    static const uint8_t due[][3] = {{0, 0, 7}, {0, 1, 1}, {0, 2, 1}, {0, 3, 1}, {0, 4, 3}, {0, 5, 1}, {1, 0, 1},
                                     {2, 0, 9}, {3, 0, 1}, {4, 0, 1}, {5, 0, 1}, {6, 0, 1}, {7, 0, 0}, {8, 0, 0},
                                     {13, 0, 0}};
    CHECK(hyparview_version() == HYPARVIEW_VERSION);
    for (size_t i = 0; i < sizeof due / sizeof due[0]; i++)
        CHECK(hyparview_allowance(due[i], 5) == due[i][2]);
    for (uint32_t capacity = 1; capacity <= 8; capacity++)
        CHECK(hyparview_allowance(due[0], capacity) == capacity + 2);
}

/* ---- NULL with length 0 */

static void nulls(void)
{
    const struct event join = event(HYPARVIEW_KIND_REQUEST_JOIN, 7);
    const struct event closed = event(HYPARVIEW_KIND_PEER_DISCONNECTED, 9);
    const uint8_t *e = closed.bytes;
    begin();
    CHECK(hyparview_new(NULL, 0, &lent.tally, 1, 0, NULL, 0, defaults) == HYPARVIEW_CODE_STATE && left());
    CHECK(hyparview_handle(NULL, 0, &lent.tally, false, NULL, 0, NULL, 0, NULL, 0).code == HYPARVIEW_CODE_STATE && left());
    CHECK(hyparview_handle(lent.state, HYPARVIEW_WORDS, &lent.tally, false, NULL, 0, NULL, 0, NULL, 0).code ==
          HYPARVIEW_CODE_EVENT);
    CHECK(hyparview_handle(lent.state, HYPARVIEW_WORDS, &lent.tally, false, e, sizeof closed.bytes, NULL, 0, lent.out, 8)
                  .code == HYPARVIEW_CODE_DRAWS && left());
    CHECK(hyparview_handle(lent.state, HYPARVIEW_WORDS, &lent.tally, false, e, sizeof closed.bytes, zeroes, 1, NULL, 0)
                  .code == HYPARVIEW_CODE_OUTPUT && left());
    CHECK(handle(&join, 1, sizeof lent.out).code == HYPARVIEW_ACCEPTED);
    CHECK(hyparview_handle(lent.state, HYPARVIEW_WORDS, &lent.tally, false, e, sizeof closed.bytes, NULL, 0, NULL, 0).code ==
          HYPARVIEW_ACCEPTED);
    CHECK(make(1, NULL, 0, defaults) == HYPARVIEW_ACCEPTED && is_new(true, NULL, 0) && guarded());
    CHECK(!hyparview_wants_connection(NULL, 0, 0) && !hyparview_is_neighbor(NULL, 0, 0));
    CHECK(hyparview_neighbor_count(NULL, 0) == 0 && hyparview_neighbor(NULL, 0, 0) == 0);
    CHECK(hyparview_spare_addresses(NULL, 0) == 0);
    struct hyparview_reading r = hyparview_read(NULL, 0);
    struct hyparview_node_reading n = hyparview_node(NULL, 0, 0);
    CHECK(!r.ok && r.header.size == 0 && !n.ok && n.node.id == 0);
}

int main(int argc, char **argv)
{
    if (argc != 2) {
        fprintf(stderr, "usage: calls FILE\n");
        return 1;
    }
    own_data(argv[1]);
    settings();
    lengths();
    shortness();
    numbers();
    pins();
    sides();
    allowances();
    nulls();
    printf("calls: %ld checks: new with own data, settings, lengths, 64-bit numbers, pins, two sides, the allowance, NULL, "
           "short outputs\n", checks);
    return 0;
}
