// Reads an instance by GLPK, and prints how many nodes and arcs it has: glpk read max|min FILE
#include <glpk.h>
#include <stddef.h>
#include <stdio.h>
#include <string.h>

typedef struct {
    double supply;
} Node;

typedef struct {
    double low, capacity, cost;
} Arc;

int main(int count, char **words) {
    if (count != 4) {
        fprintf(stderr, "glpk read max|min FILE\n");
        return 2;
    }
    glp_term_out(GLP_OFF);
    glp_graph *graph = glp_create_graph(sizeof(Node), sizeof(Arc));
    int source, sink, refused;
    if (strcmp(words[2], "max") == 0)
        refused = glp_read_maxflow(graph, &source, &sink, offsetof(Arc, capacity), words[3]);
    else
        refused = glp_read_mincost(graph, offsetof(Node, supply), offsetof(Arc, low), offsetof(Arc, capacity),
                                   offsetof(Arc, cost), words[3]);
    if (refused) return 1;
    printf("%d %d\n", graph->nv, graph->na);
    return 0;
}
