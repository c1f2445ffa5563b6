/* Stations of version 1, sealed before there were pins: their words alone are refused, and with zeroes after them they go on.
 * Each is then lent words of which one past them is not zero, an event of no bytes, a DoMaintenance, and pins of all its
 * neighbours and of a stranger. The program stops with 1 at the first fault.
 *
 * usage: carried FILE    a line for each station: place:value of each of its words that is not 0, separated by commas;
 *                        tests/sealed.txt has states of the Rust as version 1 held them, and is never made again */
#include "hyparview.h"

#include <stdio.h>
#include <stdlib.h>
#include <string.h>

#define BEFORE HYPARVIEW_WORD_PINS

static uint64_t flash[BEFORE], state[HYPARVIEW_WORDS], kept[HYPARVIEW_WORDS];
static struct hyparview_tally tally, counted;
static uint8_t out[HYPARVIEW_OUTPUT];
static const uint32_t draws[HYPARVIEW_DRAWS];
static long stations, pinned;

#define CHECK(test) check(test, #test, __LINE__)

static void check(bool test, const char *words, int line)
{
    if (!test) {
        fprintf(stderr, "carried: station %ld: line %d: not so: %s\n", stations, line, words);
        exit(1);
    }
}

/* The words of the next line; false at the end of the file. */
static bool read_words(FILE *file)
{
    unsigned long long place, value;
    char end;
    memset(flash, 0, sizeof flash);
    do {
        if (fscanf(file, "%llu:%llu%c", &place, &value, &end) != 3)
            return false;
        CHECK(place < BEFORE);
        flash[place] = value;
    } while (end == ',');
    return end == '\n';
}

/* A call with an event that has no fields but these; a refusal leaves words and tally. */
static uint32_t call(size_t words, uint8_t kind, uint64_t peer, size_t size)
{
    struct hyparview_header header = {0};
    uint8_t event[HYPARVIEW_HEADER];
    header.kind = kind;
    header.peer = peer;
    header.size = HYPARVIEW_HEADER;
    hyparview_write_header(event, header);
    memcpy(kept, state, sizeof state);
    counted = tally;
    struct hyparview_done done =
        hyparview_handle(state, words, &tally, false, event, size, draws, HYPARVIEW_DRAWS, out, HYPARVIEW_OUTPUT);
    if (done.code != HYPARVIEW_ACCEPTED)
        CHECK(memcmp(kept, state, sizeof state) == 0 && memcmp(&counted, &tally, sizeof tally) == 0 && done.draws == 0);
    return done.code;
}

static uint32_t pin(uint64_t peer)
{
    return call(HYPARVIEW_WORDS, HYPARVIEW_KIND_PIN, peer, HYPARVIEW_HEADER);
}

/* As the header says: the words of before, and zeroes. */
static void carry_over(void)
{
    memcpy(state, flash, BEFORE * sizeof *state);
    memset(state + BEFORE, 0, (HYPARVIEW_WORDS - BEFORE) * sizeof *state);
}

/* The neighbours one by one: so many as may be pinned are, and the pins stand in rising order. */
static void pin_all(void)
{
    size_t count = hyparview_neighbor_count(state, HYPARVIEW_WORDS);
    size_t most = state[HYPARVIEW_WORD_ACTIVE_VIEW_CAPACITY] - 1;
    uint64_t stranger = state[HYPARVIEW_WORD_ME];
    CHECK(pin(stranger) == HYPARVIEW_CODE_PIN_STRANGER);
    for (size_t i = 0; i < count; i++) {
        uint64_t peer = hyparview_neighbor(state, HYPARVIEW_WORDS, i);
        CHECK(pin(peer) == (i < most ? HYPARVIEW_ACCEPTED : HYPARVIEW_CODE_PIN_LIMIT));
        CHECK(state[HYPARVIEW_WORD_PINS_COUNT] == (i < most ? i + 1 : most));
        CHECK(pin(peer) == (i < most ? HYPARVIEW_ACCEPTED : HYPARVIEW_CODE_PIN_LIMIT));
        CHECK(memcmp(kept, state, sizeof state) == 0);
        pinned += i < most;
    }
    for (size_t i = 1; i < state[HYPARVIEW_WORD_PINS_COUNT]; i++)
        CHECK(state[HYPARVIEW_WORD_PINS + i - 1] < state[HYPARVIEW_WORD_PINS + i]);
    CHECK(pin(stranger) == HYPARVIEW_CODE_PIN_STRANGER);
}

static void try_station(void)
{
    carry_over();
    CHECK(call(BEFORE, HYPARVIEW_KIND_DO_MAINTENANCE, 0, HYPARVIEW_HEADER) == HYPARVIEW_CODE_STATE);
    CHECK(hyparview_neighbor_count(state, BEFORE) == 0);
    for (size_t i = BEFORE; i < HYPARVIEW_WORDS; i++) {
        state[i] = UINT64_MAX;
        CHECK(call(HYPARVIEW_WORDS, 0, 0, 0) == HYPARVIEW_CODE_STATE);
        state[i] = 0;
    }
    CHECK(call(HYPARVIEW_WORDS, 0, 0, 0) == HYPARVIEW_CODE_EVENT);
    CHECK(hyparview_neighbor_count(state, HYPARVIEW_WORDS) == flash[HYPARVIEW_WORD_ACTIVE_COUNT]);
    CHECK(call(HYPARVIEW_WORDS, HYPARVIEW_KIND_DO_MAINTENANCE, 0, HYPARVIEW_HEADER) != HYPARVIEW_CODE_STATE);
    CHECK(state[HYPARVIEW_WORD_PINS_COUNT] == 0);
    pin_all();
}

int main(int count, char **words)
{
    FILE *file = count == 2 ? fopen(words[1], "r") : NULL;
    if (file == NULL) {
        fprintf(stderr, "carried: a file of words is needed\n");
        return 1;
    }
    while (read_words(file)) {
        stations++;
        try_station();
    }
    CHECK(feof(file) && stations > 0 && pinned > 0);
    fclose(file);
    printf("carried: %ld stations of version 1 go on, %ld of their neighbours are pinned\n", stations, pinned);
    return 0;
}
