/* HyParView for a controller: which of some hundreds of other stations this one keeps in touch with.
 *
 * This header is all that a caller needs; the code behind it is proved, and its contracts are in crates/controller.
 *
 *     tools/staticlib controller       proves the library and writes target/staticlib/libcontroller.a, for x86-64
 *     cc -std=c11 -Iinclude -o station station.c target/staticlib/libcontroller.a
 *
 * HOW IT IS USED. Once: hyparview_new. Then, whatever happens, one event at a time: put it into a record (below) and call
 * hyparview_handle. It answers at once with records in `out`: messages to send, timers to start, news for the application.
 * Do them in their order. examples/c/main.c is such a station, to copy. The library sends nothing, waits for nothing and
 * reads no clock.
 *
 * MEMORY. The caller owns all of it. The library has no variables, asks for no memory, and needs memcpy, memmove and
 * memset alone. Of the caller's memory it writes only what a function's own lines below say. Stations with memory of their
 * own may be called at the same time; the same station may not, nor may its words be read during a call, by an interrupt
 * for example: hyparview_handle changes them where they lie, and an event refused with 5 or more puts them back.
 *
 * STACK. A call needs at most HYPARVIEW_STACK bytes: tools/gate/stack reads off the machine code how many of them each function
 * takes on its deepest path, and there is no recursion. What the C library's three functions take is not counted, nor what
 * an interrupt takes that runs on the same stack. The code is made for the System V ABI of x86-64: it may hold values in the
 * red zone, the 128 bytes below the stack pointer. An interrupt must leave these alone: give it a stack of its own.
 *
 * WHAT A CALLER OWES. Each pointer is aligned and points to as many elements as the length beside it says; where that is 0
 * it may be NULL, since nothing is read or written there. tests/calls.c makes every such call. `tally` is never NULL. What
 * `state`, `tally` and `out` point to overlaps nothing else of the same call. Nothing else is asked: whatever the words and
 * bytes hold, each call answers.
 *
 * DAMAGE. Words that are no station which keeps the station rules (docs/FORMAT.md) are refused with HYPARVIEW_CODE_STATE,
 * and the queries say no of them; words after a hyparview_new that was accepted, and any events, keep the rules. So words
 * that were kept over a reset may be tried as they are, and made anew by hyparview_new where they are refused. Keep the
 * timers that run beside them: only the first accepted event of a new station starts DoShuffle and DoMaintenance.
 *
 * WORDS OF VERSION 1. It had no pins and HYPARVIEW_WORD_PINS words, all at the places that they have now; the pins stand
 * after them. Lent as they are they are refused with HYPARVIEW_CODE_STATE, as any other number of words. So a station that was
 * sealed into flash by version 1 is carried over by zeroes after its words, which are no pins; its tally stays as it is:
 *
 *     memcpy(state, flash, HYPARVIEW_WORD_PINS * sizeof *state);
 *     memset(state + HYPARVIEW_WORD_PINS, 0, (HYPARVIEW_WORDS - HYPARVIEW_WORD_PINS) * sizeof *state);
 *
 * tests/carried.c does so with words of version 1. */
#ifndef HYPARVIEW_H
#define HYPARVIEW_H

#include <stdbool.h>
#include <stddef.h>
#include <stdint.h>

#ifdef __cplusplus
extern "C" {
#define HYPARVIEW_ASSERT(test, name) static_assert(test, name)
#else
#define HYPARVIEW_ASSERT(test, name) _Static_assert(test, name)
#endif

/* ---- The version: raised where records, words, codes or functions become others. A station that is linked apart from this
 * header compares it with what hyparview_version answers. */

#define HYPARVIEW_VERSION 3 /* 1 had no pins, 1 and 2 named no side */

/* ---- Sizes */

/* The words of a state, by tools/make/layout.py */
#define HYPARVIEW_WORDS 559 /* uint64_t state[HYPARVIEW_WORDS], 4,472 bytes */
/* end */
#define HYPARVIEW_OUTPUT 8192 /* bytes of output that suffice for every event, which is proved */
#define HYPARVIEW_DRAWS 512   /* draws that suffice from the wired side if they are below 2^32 - 32, which is proved */
#define HYPARVIEW_RADIO_NODES 8  /* nodes that an event from the radio side may have */
#define HYPARVIEW_RADIO_DRAWS 64 /* draws that are read for it, of those lent the first */
#define HYPARVIEW_STACK 16384 /* bytes of stack that suffice for a call, the red zone included, interrupts not */

/* ---- Refusals
 *
 * Every event is accepted, code 0, or refused for one reason. A refusal leaves the state and the tally as they were, every
 * byte of them, fills the output with zeroes and uses no draw: the event did not happen. Treat a message that is refused as
 * one that was lost. Hand in a timer that is refused again some time later, since only its event starts it anew. */

#define HYPARVIEW_ACCEPTED 0
#define HYPARVIEW_CODE_SETTINGS 1  /* hyparview_new alone: a setting is out of range, or own data has over 16 bytes */
#define HYPARVIEW_CODE_STATE 2     /* the words are not HYPARVIEW_WORDS, or break a station rule */
#define HYPARVIEW_CODE_EVENT 3     /* the event record is malformed */
#define HYPARVIEW_CODE_NODES 4     /* the event has more than 32 nodes */
#define HYPARVIEW_CODE_DRAWS 5     /* a draw is needed and none that may be read is left: lend HYPARVIEW_DRAWS, or others */
#define HYPARVIEW_CODE_REQUESTS 6  /* a 33rd request to a peer would be open */
#define HYPARVIEW_CODE_REFUSERS 7  /* a 33rd peer that refused would be noted */
#define HYPARVIEW_CODE_DATA 8      /* data of an 81st peer would be held: never answered, as such words are met with 2 */
#define HYPARVIEW_CODE_OUTPUT 9    /* a record does not fit into the output: lend HYPARVIEW_OUTPUT */
#define HYPARVIEW_CODE_COUNTER 10  /* a counter is at its top */
#define HYPARVIEW_CODE_RADIO_NODES 16  /* the event is from the radio side and has 9 to 32 nodes */
#define HYPARVIEW_CODE_PIN_STRANGER 17 /* the peer to be pinned is no neighbour */
#define HYPARVIEW_CODE_PIN_LIMIT 18    /* active_view_capacity - 1 neighbours are pinned, and the peer is none of them */

/* ---- Records
 *
 * Events and output have one form: a header of 32 bytes, 12 bytes for each node, then the data of the nodes. Numbers are
 * little-endian and stand without gaps, so the bytes are not those of `struct hyparview_header` and `struct hyparview_entry`,
 * which hyparview_read and hyparview_node hand back. An event without nodes can be written as
 *
 *     struct hyparview_header join = {0};
 *     uint8_t event[HYPARVIEW_HEADER];
 *     join.kind = HYPARVIEW_KIND_REQUEST_JOIN;
 *     join.peer = 7;
 *     join.size = HYPARVIEW_HEADER;
 *     hyparview_write_header(event, join);
 *     hyparview_handle(state, HYPARVIEW_WORDS, &tally, false, event, sizeof event, ...)
 *
 *     bytes   field    what it is
 *     0       kind     below
 *     1       message  of kind 0, else 0
 *     2       flags    of Neighbor and Disconnect, else 0
 *     3       nodes    1 for Join, ForwardJoin, Neighbor and kinds 7 and 11, 0 to 32 for both shuffles, else 0
 *     4-11    peer     in an event the sender or the peer meant, in output the receiver or the peer meant;
 *                      0 in kinds 1, 2, 7 and 8
 *     12-19   second   the origin of a Shuffle; in output the delay of a timer, in ms; else 0
 *     20-21   ttl      the hops that are left to a ForwardJoin or a Shuffle, else 0
 *     22-23   size     of the whole record, which is the length lent; at most HYPARVIEW_RECORD
 *     24-31   number   which request or join a timer of kind 3 or 4 is for, else 0
 *
 *     bytes of a node
 *     0-7     id       the peer; 0 in Join, Neighbor and kinds 7 and 11
 *     8-9     offset   where its data stands, from the record's start; 0 where data is absent
 *     10      len      of its data, at most 16; 0 where data is absent
 *     11      present  1, or 0 where data is absent; always 1 in kinds 7 and 11
 *
 * Data is what a peer wishes others to know of it, such as its address: absent, or 0 to 16 bytes; empty is not absent. It
 * stands after the last node in the order of the nodes, without gaps, to the end of the record; the offset of empty data
 * is the place that the data before it has reached. Anything else is malformed. So an UpdatePeerData of 4 bytes has 48: a
 * header of kind 7 with nodes 1 and size 48, the node with offset 44, length 4 and present 1, and the bytes.
 *
 * A message goes over the air as its record. Its receiver is handed the same bytes, but for the field `peer`, which is then
 * the sender: put it in from what the connection says. A timer that expires is handed back as its record, but for the field
 * `second`, which is then 0. No timer needs to be stopped: one that is out of date is told by its number and does nothing.
 * include/timer_map.h is a timer queue that does this by itself. */

#define HYPARVIEW_HEADER 32
#define HYPARVIEW_NODE 12
#define HYPARVIEW_NODES 32   /* the most nodes of a record */
#define HYPARVIEW_DATA 16    /* the most bytes of data */
#define HYPARVIEW_RECORD 928 /* the longest record: 32 nodes with 16 bytes of data each */

/* Kinds, byte 0. Kinds 0 to 8 and 13 are events; kinds 0 to 4 and 9 to 12 come in output. */
#define HYPARVIEW_KIND_MESSAGE 0                  /* event: received. Output: to be sent to `peer` */
#define HYPARVIEW_KIND_DO_SHUFFLE 1               /* a timer. Output: to be started. Event: expired */
#define HYPARVIEW_KIND_DO_MAINTENANCE 2           /* a timer */
#define HYPARVIEW_KIND_PENDING_NEIGHBOR_REQUEST 3 /* a timer, with peer and number */
#define HYPARVIEW_KIND_RETRY_JOIN 4               /* a timer, with peer and number */
#define HYPARVIEW_KIND_PEER_DISCONNECTED 5        /* event: the connection to `peer` is closed */
#define HYPARVIEW_KIND_REQUEST_JOIN 6             /* event: the application wishes to join through `peer` */
#define HYPARVIEW_KIND_UPDATE_PEER_DATA 7         /* event: other own data, in one node with id 0 */
#define HYPARVIEW_KIND_QUIT 8                     /* event: the station leaves; its neighbours are told */
#define HYPARVIEW_KIND_NEIGHBOR_UP 9              /* output: `peer` became a neighbour */
#define HYPARVIEW_KIND_NEIGHBOR_DOWN 10           /* output: `peer` is a neighbour no more */
#define HYPARVIEW_KIND_PEER_DATA 11               /* output: data of `peer`, not empty, in one node */
#define HYPARVIEW_KIND_EVICTED 12                 /* output: `peer` left the full list of spare addresses, for another to enter */
#define HYPARVIEW_KIND_PIN 13                     /* event: `peer`, a neighbour, is not to be dropped for another's arrival */

/* A pin writes nothing and needs no draw. A full station drops for a neighbour of high priority only one without a pin, of
 * whom there always is one, since at most active_view_capacity - 1 are pinned. A pin ends where its peer is a neighbour no
 * more: by its own Disconnect, by its closed connection, or by Quit, and by nothing else. There is no event that takes a pin
 * back; pinning twice changes nothing. */

/* The timers are kinds 1 to 4. The first accepted event starts DoShuffle and DoMaintenance, and each of their events
 * starts them again. */
#define HYPARVIEW_FIRST_TIMER HYPARVIEW_KIND_DO_SHUFFLE
#define HYPARVIEW_LAST_TIMER HYPARVIEW_KIND_RETRY_JOIN
#define HYPARVIEW_INITIAL_SHUFFLE_INTERVAL 1000 /* ms; it doubles up to the setting, and each delay is that by 3/4 to 5/4 */
#define HYPARVIEW_MAINTENANCE_INTERVAL 5000     /* ms */
#define HYPARVIEW_JOIN_RETRY_DELAY 10000        /* ms */

/* Messages, byte 1 of kind 0. */
#define HYPARVIEW_MESSAGE_JOIN 0
#define HYPARVIEW_MESSAGE_FORWARD_JOIN 1
#define HYPARVIEW_MESSAGE_SHUFFLE 2
#define HYPARVIEW_MESSAGE_SHUFFLE_REPLY 3
#define HYPARVIEW_MESSAGE_NEIGHBOR 4
#define HYPARVIEW_MESSAGE_DISCONNECT 5

/* Flags, byte 2. */
#define HYPARVIEW_FLAG_HIGH 1    /* Neighbor: of high priority */
#define HYPARVIEW_FLAG_ALIVE 1   /* Disconnect: the sender stays alive */
#define HYPARVIEW_FLAG_RESPOND 2 /* Disconnect: may be set, and is not looked at */

/* A record's header. */
struct hyparview_header {
    uint8_t kind;
    uint8_t message;
    uint8_t flags;
    uint8_t nodes;
    uint64_t peer;
    uint64_t second;
    uint16_t ttl;
    uint16_t size;
    uint64_t number;
};

/* A record's node. */
struct hyparview_entry {
    uint64_t id;
    uint16_t offset;
    uint8_t len;
    uint8_t present;
};

/* The header; not ok and zeroes where the bytes are malformed. */
struct hyparview_reading {
    bool ok;
    struct hyparview_header header;
};

/* The node; not ok and zeroes where there is none. */
struct hyparview_node_reading {
    bool ok;
    struct hyparview_entry node;
};

/* The whole length of the record that begins at `record`, of which HYPARVIEW_HEADER bytes are looked at. */
static inline size_t hyparview_record_size(const uint8_t *record)
{
    return (size_t)(record[22] | record[23] << 8);
}

/* The header in the first HYPARVIEW_HEADER bytes of `record`. */
static inline void hyparview_write_header(uint8_t *record, struct hyparview_header header)
{
    record[0] = header.kind;
    record[1] = header.message;
    record[2] = header.flags;
    record[3] = header.nodes;
    for (int i = 0; i < 8; i++) {
        record[4 + i] = (uint8_t)(header.peer >> 8 * i);
        record[12 + i] = (uint8_t)(header.second >> 8 * i);
        record[24 + i] = (uint8_t)(header.number >> 8 * i);
    }
    for (int i = 0; i < 2; i++) {
        record[20 + i] = (uint8_t)(header.ttl >> 8 * i);
        record[22 + i] = (uint8_t)(header.size >> 8 * i);
    }
}

/* A node in the HYPARVIEW_NODE bytes at `place` in a record; its data is the caller's to put at record + node.offset. */
static inline void hyparview_write_node(uint8_t *place, struct hyparview_entry node)
{
    for (int i = 0; i < 8; i++)
        place[i] = (uint8_t)(node.id >> 8 * i);
    for (int i = 0; i < 2; i++)
        place[8 + i] = (uint8_t)(node.offset >> 8 * i);
    place[10] = node.len;
    place[11] = node.present;
}

/* ---- Settings */

struct hyparview_config {
    uint32_t active_view_capacity;       /* 1 to 8: most neighbours */
    uint32_t passive_view_capacity;      /* 1 to 32: most spare addresses */
    uint32_t active_random_walk_length;  /* 0 to 65535: hops of a ForwardJoin */
    uint32_t passive_random_walk_length; /* 0 to 65535: hops left where a ForwardJoin leaves a spare address */
    uint32_t shuffle_random_walk_length; /* 0 to 65535: hops of a Shuffle */
    uint32_t shuffle_active_view_count;  /* 0 to 8: neighbours named in a Shuffle */
    uint32_t shuffle_passive_view_count; /* 0 to 23: spare addresses named in a Shuffle */
    uint32_t shuffle_interval;           /* 1 to 3600000: ms from one shuffle to the next, in the end */
    uint32_t neighbor_request_timeout;   /* 1 to 3600000: ms that a request to a peer stays open */
};

/* struct hyparview_config config = HYPARVIEW_DEFAULTS; */
#define HYPARVIEW_DEFAULTS {5, 30, 6, 3, 6, 3, 4, 60000, 3000}

/* ---- The tally: the messages that accepted events had sent, by message. A count at 2^64 - 1 stays there. */

struct hyparview_tally {
    uint64_t join;
    uint64_t forward_join;
    uint64_t shuffle;
    uint64_t shuffle_reply;
    uint64_t neighbor;
    uint64_t disconnect;
};

/* How much an accepted event adds to the allowance of a station with this active_view_capacity; of the event's record two
 * bytes are looked at. A refused event adds 0.
 *
 * After any events, the messages sent so far, which are the sum of the tally, and twice the neighbours now held are together
 * at most the sum of what the events added, which is proved. */
static inline uint32_t hyparview_allowance(const uint8_t *event, uint32_t active_view_capacity)
{
    if (event[0] == HYPARVIEW_KIND_MESSAGE && event[1] == HYPARVIEW_MESSAGE_JOIN)
        return active_view_capacity + 2;
    if (event[0] == HYPARVIEW_KIND_MESSAGE && event[1] == HYPARVIEW_MESSAGE_NEIGHBOR)
        return 3;
    if (event[0] == HYPARVIEW_KIND_DO_MAINTENANCE)
        return 9;
    if (event[0] == HYPARVIEW_KIND_UPDATE_PEER_DATA || event[0] == HYPARVIEW_KIND_QUIT || event[0] == HYPARVIEW_KIND_PIN)
        return 0;
    return 1;
}

/* ---- The words of a state, for those who look into them: a supervisor, a test. To run a station, the functions below are
 * enough.
 *
 * A number is one word. A list of peers is its places and then its count, from NAME up to NAME_END, where the first of
 * NAME_PLACES stands at NAME and the count at NAME_COUNT. Lists with more columns have as many places again for each,
 * before the count: column k of place i is at NAME + k * NAME_PLACES + i. REQUESTS and JOINS have a number in column 1;
 * PEER_DATA has the length of the data in column 1 and its bytes in columns 2 and 3, 8 in a word, the first lowest. Places past
 * a count are 0, and so are bytes past a length.
 *
 * OWN_PRESENT is 1 where the station has own data, of OWN_LEN bytes in OWN_LOW and OWN_HIGH. REFILL_KIND is 0 where refills
 * are automatic, 1 where REFILL_REQUESTS are left (0 to 3), 2 in recovery. ACTIVE are the neighbours, PASSIVE the spare
 * addresses, ALIVE those of them that said they stay alive, REFUSED the peers that refused a request, REQUESTS the open
 * requests, BOOTSTRAP the peers last asked to join through, RECENT the last neighbours, JOINS the joins to be sent once
 * more, PEER_DATA what is known of other peers, PINS the pinned neighbours. docs/FORMAT.md has the rules of each. */

/* The places, by tools/make/layout.py */
#define HYPARVIEW_WORD_ME 0
#define HYPARVIEW_WORD_OWN_PRESENT 1
#define HYPARVIEW_WORD_OWN_LEN 2
#define HYPARVIEW_WORD_ACTIVE_VIEW_CAPACITY 3
#define HYPARVIEW_WORD_PASSIVE_VIEW_CAPACITY 4
#define HYPARVIEW_WORD_ACTIVE_RANDOM_WALK_LENGTH 5
#define HYPARVIEW_WORD_PASSIVE_RANDOM_WALK_LENGTH 6
#define HYPARVIEW_WORD_SHUFFLE_RANDOM_WALK_LENGTH 7
#define HYPARVIEW_WORD_SHUFFLE_ACTIVE_VIEW_COUNT 8
#define HYPARVIEW_WORD_SHUFFLE_PASSIVE_VIEW_COUNT 9
#define HYPARVIEW_WORD_SHUFFLE_INTERVAL 10
#define HYPARVIEW_WORD_NEIGHBOR_REQUEST_TIMEOUT 11
#define HYPARVIEW_WORD_TIMERS_SCHEDULED 12
#define HYPARVIEW_WORD_NEXT_SHUFFLE_INTERVAL 13
#define HYPARVIEW_WORD_PASSES_ALONE 14
#define HYPARVIEW_WORD_PASSES_SHORT 15
#define HYPARVIEW_WORD_REFILL_KIND 16
#define HYPARVIEW_WORD_REFILL_REQUESTS 17
#define HYPARVIEW_WORD_NEXT_NEIGHBOR_REQUEST 18
#define HYPARVIEW_WORD_NEXT_JOIN 19
#define HYPARVIEW_WORD_OWN_LOW 20
#define HYPARVIEW_WORD_OWN_HIGH 21
#define HYPARVIEW_WORD_ACTIVE 22
#define HYPARVIEW_WORD_ACTIVE_PLACES 8
#define HYPARVIEW_WORD_ACTIVE_COUNT 30
#define HYPARVIEW_WORD_ACTIVE_END 31
#define HYPARVIEW_WORD_PASSIVE 31
#define HYPARVIEW_WORD_PASSIVE_PLACES 32
#define HYPARVIEW_WORD_PASSIVE_COUNT 63
#define HYPARVIEW_WORD_PASSIVE_END 64
#define HYPARVIEW_WORD_ALIVE 64
#define HYPARVIEW_WORD_ALIVE_PLACES 32
#define HYPARVIEW_WORD_ALIVE_COUNT 96
#define HYPARVIEW_WORD_ALIVE_END 97
#define HYPARVIEW_WORD_REFUSED 97
#define HYPARVIEW_WORD_REFUSED_PLACES 32
#define HYPARVIEW_WORD_REFUSED_COUNT 129
#define HYPARVIEW_WORD_REFUSED_END 130
#define HYPARVIEW_WORD_REQUESTS 130
#define HYPARVIEW_WORD_REQUESTS_PLACES 32
#define HYPARVIEW_WORD_REQUESTS_COUNT 194
#define HYPARVIEW_WORD_REQUESTS_END 195
#define HYPARVIEW_WORD_BOOTSTRAP 195
#define HYPARVIEW_WORD_BOOTSTRAP_PLACES 8
#define HYPARVIEW_WORD_BOOTSTRAP_COUNT 203
#define HYPARVIEW_WORD_BOOTSTRAP_END 204
#define HYPARVIEW_WORD_RECENT 204
#define HYPARVIEW_WORD_RECENT_PLACES 8
#define HYPARVIEW_WORD_RECENT_COUNT 212
#define HYPARVIEW_WORD_RECENT_END 213
#define HYPARVIEW_WORD_JOINS 213
#define HYPARVIEW_WORD_JOINS_PLACES 8
#define HYPARVIEW_WORD_JOINS_COUNT 229
#define HYPARVIEW_WORD_JOINS_END 230
#define HYPARVIEW_WORD_PEER_DATA 230
#define HYPARVIEW_WORD_PEER_DATA_PLACES 80
#define HYPARVIEW_WORD_PEER_DATA_COUNT 550
#define HYPARVIEW_WORD_PEER_DATA_END 551
#define HYPARVIEW_WORD_PINS 551
#define HYPARVIEW_WORD_PINS_PLACES 7
#define HYPARVIEW_WORD_PINS_COUNT 558
#define HYPARVIEW_WORD_PINS_END 559
HYPARVIEW_ASSERT(HYPARVIEW_WORDS == HYPARVIEW_WORD_PINS_END, "the words");
/* end */

/* ---- Functions
 *
 * `words` is the length of `state`; for any other than HYPARVIEW_WORDS the answer is HYPARVIEW_CODE_STATE, or that of no
 * station. */

/* The version of the library: HYPARVIEW_VERSION of the header that it goes with. */
uint32_t hyparview_version(void);

/* What an event hands back: the code, and how many draws are used, from the first on. */
struct hyparview_done {
    uint32_t code;
    size_t draws;
};

/* The words become a new station with the number `me`, and the tally zeroes: HYPARVIEW_ACCEPTED. Own data is `own`, or
 * absent where `present` is 0, and then `own` is not looked at.
 *
 * HYPARVIEW_CODE_SETTINGS: words and tally are zeroes, which is no station. HYPARVIEW_CODE_STATE, for another number of
 * words: both are as they were. Writes `state` and `tally`. */
uint32_t hyparview_new(uint64_t *state, size_t words, struct hyparview_tally *tally, uint64_t me, uint8_t present,
                       const uint8_t *own, size_t own_len, struct hyparview_config config);

/* One event.
 *
 * HYPARVIEW_ACCEPTED: the words are the station after it, its messages are counted in the tally, and `out` has the records
 * one after the other, then zeroes: take them by hyparview_record_size until that is 0 or no header fits. Any other code: see
 * Refusals. Writes `state`, `tally` and all of `out`, whatever it held.
 *
 * `draws` are the station's random choices: any numbers do, but stations that draw the same choose the same, and peers who
 * can foresee the draws can foresee the choices. The first `done.draws` of them are used up. A choice passes over draws near
 * 2^32, so that all items have equal chances; of HYPARVIEW_DRAWS even draws too many are passed over with a chance below
 * 2^-5000 (docs/FORMAT.md works it out): then the code is HYPARVIEW_CODE_DRAWS, and the same event may be brought again
 * with others. Of several reasons to refuse the first holds: 2; 3 for under 32 bytes; 4; 16; 3; then of 5 to 10 what the
 * steps meet first, and of a pin 17 and then 18.
 *
 * `radio` names the side that the event comes from: false for the wired one. From the radio side an event of 9 to 32 nodes is
 * answered HYPARVIEW_CODE_RADIO_NODES, and only the first HYPARVIEW_RADIO_DRAWS draws are read, however many are lent. An
 * event of at most 8 nodes that takes at most 64 draws is answered alike from either side, every byte of it; 64 draws below
 * 2^32 - 32 suffice for each event of at most 8 nodes but a Quit with three neighbours or more: both are proved. What is
 * answered HYPARVIEW_CODE_DRAWS with 64 draws lent is to be brought again with others, or from the wired side. */
struct hyparview_done hyparview_handle(uint64_t *state, size_t words, struct hyparview_tally *tally, bool radio,
                                       const uint8_t *event, size_t event_len, const uint32_t *draws, size_t draws_len,
                                       uint8_t *out, size_t out_len);

/* Whether a connection to the peer is wanted: it is a neighbour, or its reply to a Neighbor or a Join is awaited. Ask it
 * before an idle connection is closed. This and the four below write nothing, and say no, 0, of words that are no station. */
bool hyparview_wants_connection(const uint64_t *state, size_t words, uint64_t peer);

/* Whether the peer is a neighbour. */
bool hyparview_is_neighbor(const uint64_t *state, size_t words, uint64_t peer);

/* How many neighbours there are, 0 to 8. */
size_t hyparview_neighbor_count(const uint64_t *state, size_t words);

/* The i-th neighbour from 0 on, the oldest first unless one has left; 0, which may be a peer's number too, past the last. */
uint64_t hyparview_neighbor(const uint64_t *state, size_t words, size_t i);

/* How many spare addresses there are, 0 to 32. */
size_t hyparview_spare_addresses(const uint64_t *state, size_t words);

/* The header of a record of any kind, which is all `len` bytes; a well-formed one only. Writes nothing. */
struct hyparview_reading hyparview_read(const uint8_t *record, size_t len);

/* The i-th node of such a record, from 0 on; its data is `node.len` bytes at record + node.offset. Writes nothing. */
struct hyparview_node_reading hyparview_node(const uint8_t *record, size_t len, size_t i);

/* ---- What the library was compiled with */

HYPARVIEW_ASSERT(sizeof(size_t) == 8 && sizeof(void *) == 8, "a 64-bit machine");
HYPARVIEW_ASSERT(sizeof(bool) == 1, "bool");
HYPARVIEW_ASSERT(sizeof(struct hyparview_config) == 36, "hyparview_config");
HYPARVIEW_ASSERT(sizeof(struct hyparview_tally) == 48, "hyparview_tally");
HYPARVIEW_ASSERT(sizeof(struct hyparview_done) == 16 && offsetof(struct hyparview_done, draws) == 8, "hyparview_done");
HYPARVIEW_ASSERT(sizeof(struct hyparview_header) == 40, "hyparview_header");
HYPARVIEW_ASSERT(offsetof(struct hyparview_header, peer) == 8 && offsetof(struct hyparview_header, second) == 16 &&
                     offsetof(struct hyparview_header, ttl) == 24 && offsetof(struct hyparview_header, size) == 26 &&
                     offsetof(struct hyparview_header, number) == 32,
                 "hyparview_header");
HYPARVIEW_ASSERT(sizeof(struct hyparview_entry) == 16 && offsetof(struct hyparview_entry, present) == 11,
                 "hyparview_entry");
HYPARVIEW_ASSERT(sizeof(struct hyparview_reading) == 48 && offsetof(struct hyparview_reading, header) == 8,
                 "hyparview_reading");
HYPARVIEW_ASSERT(sizeof(struct hyparview_node_reading) == 24 && offsetof(struct hyparview_node_reading, node) == 8,
                 "hyparview_node_reading");
HYPARVIEW_ASSERT(HYPARVIEW_RECORD == HYPARVIEW_HEADER + HYPARVIEW_NODES * (HYPARVIEW_NODE + HYPARVIEW_DATA), "a record");
#undef HYPARVIEW_ASSERT

#ifdef __cplusplus
}
#endif

#endif
