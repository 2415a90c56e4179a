// Reads an instance by igraph, and prints how many nodes and arcs it has, or solves it, and prints the value:
//
//   igraph read max FILE
//   igraph solve max FILE
//   igraph solve gr FILE SOURCE..
//
// igraph has a reader of maximum flow; for graphs there is the loop that its users write. It makes no flows of least
// cost.
#include <igraph/igraph.h>
#include <math.h>
#include <stdio.h>
#include <stdlib.h>
#include <string.h>

static int solve_max(const char *task, FILE *text) {
    igraph_t graph;
    igraph_vector_t capacity, flow;
    igraph_integer_t source, sink;
    igraph_real_t value;
    igraph_vector_init(&capacity, 0);
    igraph_vector_init(&flow, 0);
    if (igraph_read_graph_dimacs_flow(&graph, text, NULL, NULL, &source, &sink, &capacity, IGRAPH_DIRECTED)) return 1;
    if (strcmp(task, "read") == 0) {
        printf("%ld %ld\n", (long)igraph_vcount(&graph), (long)igraph_ecount(&graph));
        return 0;
    }
    if (igraph_maxflow(&graph, &value, &flow, NULL, NULL, NULL, source, sink, &capacity, NULL)) return 1;
    printf("v max %.0f\n", value);
    return 0;
}

static void read_graph(FILE *text, igraph_t *graph, igraph_vector_t *weights) {
    char line[256];
    long nodes = 0, arcs, tail, head, weight;
    igraph_vector_int_t ends;
    igraph_vector_int_init(&ends, 0);
    while (fgets(line, sizeof line, text)) {
        if (sscanf(line, "a %ld %ld %ld", &tail, &head, &weight) == 3) {
            igraph_vector_int_push_back(&ends, tail - 1);
            igraph_vector_int_push_back(&ends, head - 1);
            igraph_vector_push_back(weights, weight);
        } else if (sscanf(line, "p sp %ld %ld", &nodes, &arcs) == 2) {
            igraph_vector_int_reserve(&ends, 2 * arcs);
            igraph_vector_reserve(weights, arcs);
        }
    }
    igraph_create(graph, &ends, nodes, IGRAPH_DIRECTED);
    igraph_vector_int_destroy(&ends);
}

static int solve_paths(FILE *text, char **sources) {
    igraph_t graph;
    igraph_vector_t weights;
    igraph_matrix_t distances;
    long long reached = 0, sum = 0;
    igraph_vector_init(&weights, 0);
    igraph_matrix_init(&distances, 0, 0);
    read_graph(text, &graph, &weights);
    for (; *sources; sources++) {
        igraph_vs_t source = igraph_vss_1(atol(*sources) - 1);
        if (igraph_distances_dijkstra(&graph, &distances, source, igraph_vss_all(), &weights, IGRAPH_OUT)) return 1;
        for (igraph_integer_t v = 0; v < igraph_vcount(&graph); v++)
            if (isfinite(MATRIX(distances, 0, v))) reached++, sum += (long long)MATRIX(distances, 0, v);
    }
    printf("v sp %lld %lld\n", reached, sum);
    return 0;
}

int main(int count, char **words) {
    FILE *text = count > 3 ? fopen(words[3], "r") : NULL;
    if (!text) {
        fprintf(stderr, "igraph read|solve max|gr FILE [SOURCE..]\n");
        return 2;
    }
    return strcmp(words[2], "max") == 0 ? solve_max(words[1], text) : solve_paths(text, words + 4);
}
