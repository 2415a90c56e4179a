/* The network of pipes.max in arrays, and a flow that somebody found by hand. As long as the flow isn't maximum, the
 * library hands out a better one; in the end it hands out the nodes of a cut that shows it. */
#include "dimacs.h"
#include <stdio.h>

enum { NODES = 5, ARCS = 7 };

static const uint32_t tails[ARCS] = {1, 1, 2, 2, 3, 4, 4}, heads[ARCS] = {2, 3, 3, 4, 5, 3, 5};
static const int64_t caps[ARCS] = {10, 6, 3, 4, 8, 5, 7};
static const dimacs_max pipes = {NODES, 1, NODES, {tails, ARCS}, {heads, ARCS}, {caps, ARCS}};

int main(void) {
    int64_t flows[ARCS] = {4, 6, 0, 4, 6, 0, 4}, better[ARCS];
    uint8_t line[100], inside[NODES];
    size_t line_length, inside_length, better_length;
    uint32_t status;
    do {
        status = dimacs_certify_max_arrays(&pipes, flows, ARCS, line, sizeof line, &line_length, inside, NODES,
                                           &inside_length, better, ARCS, &better_length);
        fwrite(line, 1, line_length, stdout);
        for (size_t k = 0; k < better_length; k++) {
            flows[k] = better[k];
        }
    } while (better_length > 0);
    for (size_t k = 0; k < inside_length; k++) {
        if (inside[k]) {
            printf("node %zu is inside\n", k + 1);
        }
    }
    return (int)status;
}
