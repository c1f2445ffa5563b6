/* Between examples/c/main.c, which is built with refusing_handle in place of hyparview_handle, and the library: some calls
 * are lent too little, so that the library refuses them. tests/refused.in and tests/refused.out, by tools/make/record_vectors.py,
 * say what the station does then. */
#include "hyparview.h"

/* By the number of the call: d lends no draws, o no output, and any other what the station lends; as the last ever after. */
static const char lent[] = "d.o.ddd.";

struct hyparview_done refusing_handle(uint64_t *state, size_t words, struct hyparview_tally *tally, bool radio,
                                      const uint8_t *event, size_t event_len, const uint32_t *draws, size_t draws_len,
                                      uint8_t *out, size_t out_len);

struct hyparview_done refusing_handle(uint64_t *state, size_t words, struct hyparview_tally *tally, bool radio,
                                      const uint8_t *event, size_t event_len, const uint32_t *draws, size_t draws_len,
                                      uint8_t *out, size_t out_len)
{
    static size_t calls;
    char now = lent[calls];
    calls += calls + 2 < sizeof lent;
    return hyparview_handle(state, words, tally, radio, event, event_len, draws, now == 'd' ? 0 : draws_len, out,
                            now == 'o' ? 0 : out_len);
}
