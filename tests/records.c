/* Records, sound and damaged, over the exported reader: each from standard input, with two bytes for its length in front,
 * prints the line that tools/make/record_vectors.py says (crates/test_record/stdin, crates/test_record/stdout). The code is that
 * of the record as the first event of a station, which has no neighbour: a pin that is read must be answered 17, and 0 is
 * printed for it. It stops with 1 where there is no record, or a pin has another answer. */
#include "hyparview.h"

#include <stdio.h>

static uint8_t record[65536], out[HYPARVIEW_OUTPUT];
static uint64_t state[HYPARVIEW_WORDS];
static struct hyparview_tally tally;
static const uint32_t draws[HYPARVIEW_DRAWS];
static const struct hyparview_config config = HYPARVIEW_DEFAULTS;

static void print_node(size_t len, size_t i)
{
    struct hyparview_node_reading n = hyparview_node(record, len, i);
    if (!n.ok) {
        printf(" no node");
        return;
    }
    printf(" node %llu %u %u", (unsigned long long)n.node.id, n.node.present, n.node.len);
    for (size_t k = 0; k < n.node.len; k++)
        printf(" %u", record[n.node.offset + k]);
}

int main(void)
{
    long records = 0;
    int low, high;
    while ((low = getchar()) != EOF && (high = getchar()) != EOF) {
        size_t len = (size_t)(low | high << 8);
        if (fread(record, 1, len, stdin) != len)
            return 1;
        struct hyparview_reading r = hyparview_read(record, len);
        const struct hyparview_header *h = &r.header;
        if (r.ok)
            printf("record %u %u %u %u %llu %llu %u %u %llu", h->kind, h->message, h->flags, h->nodes,
                   (unsigned long long)h->peer, (unsigned long long)h->second, h->ttl, h->size,
                   (unsigned long long)h->number);
        else
            printf("malformed");
        for (size_t i = 0; i < h->nodes; i++)
            print_node(len, i);
        if (hyparview_node(record, len, h->nodes).ok)
            printf(" a node too many");
        if (hyparview_new(state, HYPARVIEW_WORDS, &tally, 1000, 0, NULL, 0, config) != HYPARVIEW_ACCEPTED)
            return 1;
        uint32_t code = hyparview_handle(state, HYPARVIEW_WORDS, &tally, false, record, len, draws, HYPARVIEW_DRAWS,
                                         out, sizeof out).code;
        if (r.ok && h->kind == HYPARVIEW_KIND_PIN) {
            if (code != HYPARVIEW_CODE_PIN_STRANGER)
                return 1;
            code = HYPARVIEW_ACCEPTED;
        }
        printf(" code %u\n", code);
        records++;
    }
    return records == 0;
}
