/* Damaged states over the exported functions. tools/gate/damaged.py makes what this reads from standard input, says which
 * answer is due to each case and describes the form; the program writes a character for each case, and a line for each
 * base. It stops with 1 where the input has no case, or is cut off.
 *
 * A case is lent to hyparview_handle three times: with an event of no bytes, with DoMaintenance, with the first again. */
#include "hyparview.h"

#include <stdio.h>
#include <stdlib.h>
#include <string.h>

#define ROOM (HYPARVIEW_WORDS + 9)
#define BASE 65535

static uint64_t base[ROOM], words[ROOM], before[ROOM];
static struct hyparview_tally tally, tally_before;
static uint8_t out[HYPARVIEW_OUTPUT];
static const uint32_t draws[HYPARVIEW_DRAWS];

/* A number of so many bytes, little-endian. */
static uint64_t read_number(size_t bytes)
{
    uint64_t n = 0;
    for (size_t i = 0; i < bytes; i++) {
        int c = getchar();
        if (c == EOF) {
            fprintf(stderr, "damaged: the input is cut off\n");
            exit(1);
        }
        n |= (uint64_t)c << 8 * i;
    }
    return n;
}

static bool at_end(void)
{
    return ungetc(getchar(), stdin) == EOF;
}

/* One call, whose output is not zero before it. Returns the code; refusals leave every byte, use no draw and clear the
 * output, or else it is 99. */
static uint32_t call(size_t lent, const uint8_t *event, size_t len)
{
    memcpy(before, words, sizeof before);
    memcpy(&tally_before, &tally, sizeof tally);
    memset(out, 0xa5, sizeof out);
    struct hyparview_done done =
        hyparview_handle(words, lent, &tally, false, event, len, draws, HYPARVIEW_DRAWS, out, sizeof out);
    if (done.code == HYPARVIEW_ACCEPTED)
        return memcmp(before + lent, words + lent, (ROOM - lent) * sizeof words[0]) == 0 ? 0 : 99;
    bool left = memcmp(before, words, sizeof words) == 0 && memcmp(&tally_before, &tally, sizeof tally) == 0;
    for (size_t i = 0; i < sizeof out; i++)
        left = left && out[i] == 0;
    return left && done.draws == 0 ? done.code : 99;
}

static bool has(uint64_t peer, size_t at, size_t count)
{
    for (size_t i = 0; i < words[count]; i++)
        if (words[at + i] == peer)
            return true;
    return false;
}

/* What the queries are to say of this peer, by the words of a station; no of any other words. */
static bool peer_agrees(size_t lent, uint64_t peer, bool station)
{
    bool neighbor = station && has(peer, HYPARVIEW_WORD_ACTIVE, HYPARVIEW_WORD_ACTIVE_COUNT);
    bool awaited = station && (has(peer, HYPARVIEW_WORD_REQUESTS, HYPARVIEW_WORD_REQUESTS_COUNT) ||
                               has(peer, HYPARVIEW_WORD_JOINS, HYPARVIEW_WORD_JOINS_COUNT));
    return hyparview_is_neighbor(words, lent, peer) == neighbor &&
           hyparview_wants_connection(words, lent, peer) == (neighbor || awaited);
}

/* The queries about some peers of the words, and the counts. They write nothing. */
static bool queries_agree(size_t lent, bool station)
{
    memcpy(before, words, sizeof before);
    size_t count = station ? words[HYPARVIEW_WORD_ACTIVE_COUNT] : 0;
    size_t spare = station ? words[HYPARVIEW_WORD_PASSIVE_COUNT] : 0;
    bool same = hyparview_neighbor_count(words, lent) == count && hyparview_spare_addresses(words, lent) == spare;
    for (size_t i = 0; i <= HYPARVIEW_WORD_ACTIVE_PLACES; i++)
        same = same && hyparview_neighbor(words, lent, i) == (i < count ? words[HYPARVIEW_WORD_ACTIVE + i] : 0);
    for (size_t i = 0; i < HYPARVIEW_WORD_ACTIVE_PLACES; i++)
        same = same && peer_agrees(lent, words[HYPARVIEW_WORD_ACTIVE + i], station) &&
               peer_agrees(lent, words[HYPARVIEW_WORD_PASSIVE + i], station) &&
               peer_agrees(lent, words[HYPARVIEW_WORD_REQUESTS + i], station) &&
               peer_agrees(lent, words[HYPARVIEW_WORD_JOINS + i], station);
    same = same && peer_agrees(lent, words[HYPARVIEW_WORD_ME], station);
    return same && memcmp(before, words, sizeof words) == 0;
}

static int answer(size_t lent)
{
    const struct hyparview_header due = {.kind = HYPARVIEW_KIND_DO_MAINTENANCE, .size = HYPARVIEW_HEADER};
    uint8_t maintenance[HYPARVIEW_HEADER];
    hyparview_write_header(maintenance, due);
    uint32_t first = call(lent, NULL, 0);
    bool station = first == HYPARVIEW_CODE_EVENT;
    bool agreed = queries_agree(lent, station);
    uint32_t second = call(lent, maintenance, sizeof maintenance);
    uint32_t third = call(lent, NULL, 0);
    if (!agreed || second == 99 || third != first)
        return '!';
    if (first == HYPARVIEW_CODE_STATE && second == HYPARVIEW_CODE_STATE)
        return '2';
    return station && second != HYPARVIEW_CODE_STATE && second != HYPARVIEW_CODE_EVENT ? '3' : '!';
}

int main(void)
{
    long cases = 0;
    bool begun = false;
    while (!at_end()) {
        uint64_t lent = read_number(2), count = read_number(2);
        uint64_t *patched = lent == BASE ? base : words;
        if (lent == BASE)
            memset(base, 0, sizeof base);
        else
            memcpy(words, base, sizeof words);
        for (uint64_t i = 0; i < count; i++) {
            uint64_t place = read_number(2), value = read_number(8);
            if (place < ROOM)
                patched[place] = value;
        }
        if (lent != BASE) {
            memset(&tally, 0x5a, sizeof tally);
            putchar(lent <= ROOM ? answer(lent) : '!');
            cases++;
        } else if (begun) {
            putchar('\n');
        }
        begun = lent != BASE;
    }
    if (cases == 0) {
        fprintf(stderr, "damaged: no case\n");
        return 1;
    }
    putchar('\n');
    return 0;
}
