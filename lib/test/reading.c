/* The calls that read texts into arrays and write arrays as texts, beside what the tests of dimacs.hpp and of the crate
 * show: what they hand out without enough room, and the ends of 64 bits. What they refuse is in contracts. */
#include "check.h"
#include "dimacs.h"

#define LAST INT64_MAX
#define MOST 20

static uint8_t out[400];
static size_t needed;
#define OUT out, sizeof out, &needed
#define TEXT(s) (const uint8_t *)(s), strlen(s)

/* What a call reads. All is marked before it, and no text here has the number of the marks. */
enum { MARK = 77 };
static uint32_t nodes, source, sink, pairs, tails[MOST], heads[MOST];
static int64_t value, radius, lows[MOST], caps[MOST], costs[MOST], supplies[MOST];
static uint8_t inside[MOST];
static size_t arcs, by_node;

static void mark(void) {
    nodes = source = sink = pairs = value = radius = needed = arcs = by_node = MARK;
    for (int k = 0; k < MOST; k++) {
        tails[k] = heads[k] = lows[k] = caps[k] = costs[k] = supplies[k] = inside[k] = MARK;
    }
}

static char shown[400];

static void show(int64_t number) { sprintf(shown + strlen(shown), " %lld", (long long)number); }

#define SHOW_ITEMS(array)                                                       \
    do {                                                                        \
        if (array[0] != MARK) strcat(shown, " |");                              \
        for (int k = 0; k < MOST && array[k] != MARK; k++) show(array[k]);      \
    } while (0)

/* What was written: the numbers, and the first items of each array, up to one that has its mark. */
static void show_all(void) {
    const int64_t numbers[] = {nodes, source, sink, pairs, value, radius, arcs, by_node};
    shown[0] = 0;
    for (int k = 0; k < 8; k++) {
        if (numbers[k] != MARK) show(numbers[k]);
    }
    SHOW_ITEMS(tails);
    SHOW_ITEMS(heads);
    SHOW_ITEMS(lows);
    SHOW_ITEMS(caps);
    SHOW_ITEMS(costs);
    SHOW_ITEMS(supplies);
    SHOW_ITEMS(inside);
}

/* A case that reads, and all that it writes. */
#define READ(name, call, wanted, line, wanted_shown)                            \
    do {                                                                        \
        mark();                                                                 \
        CHECK(name, call, wanted, line);                                        \
        show_all();                                                             \
        check(name, wanted, TEXT(shown), wanted, wanted_shown);                \
    } while (0)

/* ---- reading ---- */

#define READ_MAX(text, room) \
    dimacs_read_max(TEXT(text), OUT, &nodes, &source, &sink, tails, room, heads, room, caps, room, &arcs)
#define READ_MIN(text, room, nodes_room) \
    dimacs_read_min(TEXT(text), OUT, &nodes, tails, room, heads, room, lows, room, caps, room, costs, room, &arcs, \
                    supplies, nodes_room, &by_node)
#define READ_GRAPH(text) dimacs_read_graph(TEXT(text), OUT, &nodes, tails, MOST, heads, MOST, costs, MOST, &arcs)
#define READ_SOLUTION(text, head_count, room) \
    dimacs_read_solution(3, some_tails, 3, some_heads, head_count, TEXT(text), OUT, &value, costs, room, &arcs)
#define READ_CUT(text, room) dimacs_read_cut(TEXT(text), OUT, inside, room, &by_node)
#define READ_POTENTIALS(text, room) dimacs_read_potentials(TEXT(text), OUT, costs, room, &by_node)
#define READ_QUERIES(text, room) dimacs_read_queries(TEXT(text), OUT, &pairs, tails, room, heads, room, &arcs)
#define READ_DISTANCES(text, from, room) dimacs_read_distances(TEXT(text), from, OUT, costs, room, &by_node)
#define READ_LABELS(text, from, room) \
    dimacs_read_labels(TEXT(text), from, OUT, &radius, costs, room, &by_node, tails, room, &arcs)

#define END "9223372036854775807"
#define MAX_TEXT "c a comment\np max 4 3\nn 4 t\nn 1 s\na 1 2 " END "\n\na 2 4 +05\na 1 4 0\n"
#define MIN_ARCS "a 1 2 0 " END " -9223372036854775808\na 2 3 1 5 7\n"
#define MIN_TEXT "p min 3 2\nn 3 -4\nn 1 4\n" MIN_ARCS
#define GRAPH_TEXT "p sp 3 2\na 1 2 -9223372036854775808\na 3 3 " END "\n"

/* In the second block the distance of node 1 fits, and those of the others don't. */
#define BLOCKS "p distances 4 3\nt 2 2\nd 4 -7\nd 1 9223372036854775806\nt 3 3\n" \
    "d 1 -9223372036854775808\nd 4 " END "\nd 2 -9223372036854775809\nt 4 0\n"
#define LABELS "p dist 4 3\nt 2 2\nd 4 -7 2\nd 1 9223372036854775806 4\nt 3 1 9223372036854775806\nd 2 5 3\n" \
    "t 4 1 " END "\nd 2 -9223372036854775809 4\n"

/* Two parallel arcs from 1 to 2, and one from 2 to 3. */
static const uint32_t some_tails[] = {1, 2, 1}, some_heads[] = {2, 3, 2};

static void reads_instances(void) {
    READ("room for two arcs", READ_MAX(MAX_TEXT, 2), 0, "", " 4 1 4 3 | 1 2 | 2 4 | " END " 5");
    READ("room for an arc and two nodes", READ_MIN(MIN_TEXT, 1, 2), 0, "",
         " 3 2 3 | 1 | 2 | 0 | " END " | -9223372036854775808 | 4 0");
    READ("a graph", READ_GRAPH(GRAPH_TEXT), 0, "", " 3 2 | 1 3 | 2 3 | -9223372036854775808 " END);
    READ("the word of another kind", READ_GRAPH("p max 4 5\n"), 1, "x instance 1 2 BadWord\n", " 0 0");
    uint32_t status = dimacs_read_max(TEXT(MAX_TEXT), NULL, 0, &needed, &nodes, &source, &sink, NULL, 0, NULL, 0,
                                      NULL, 0, &arcs);
    check_that("no room", status == 0 && needed == 0 && arcs == 3 && nodes == 4);
}

static void reads_claims(void) {
    READ("in another order", READ_SOLUTION("f 2 3 -7\nf 1 2 3\ns -9223372036854775808\n", 3, 2), 0, "",
         " -9223372036854775808 3 | 3 -7");
    READ("an arc that isn't there", READ_SOLUTION("s 0\nf 1 2 1\nf 2 1 1\nf 1 2 1\nf 1 2 1\n", 3, MOST), 1,
         "x solution 3 0 UnknownArc\n", " 0 0");
    READ("room for two bytes", READ_CUT("p cut 5 2\nu 4\nu 1\n", 2), 0, "", " 5 | 1 0");
    READ("room for two", READ_POTENTIALS("p pot 4 2\ny 4 -9223372036854775808\ny 2 " END "\n", 2), 0, "",
         " 4 | 0 " END);
    READ("sources", READ_QUERIES("p aux sp ss 2\ns 3\ns 1\n", MOST), 0, "", " 0 2 | 3 1");
    READ("room for one pair", READ_QUERIES("p aux sp p2p 2\nq 3 1\nq 2 2\n", 1), 0, "", " 1 2 | 3 | 1");
    READ("distances", READ_DISTANCES(BLOCKS, 2, MOST), 0, "", " 4 | 9223372036854775806 0 " END " -7");
    READ("many nodes without a line", READ_DISTANCES("p distances 134217728 1\nt 134217728 0\n", 134217728, 2), 0, "",
         " 134217728 | " END " " END);
    READ("labels", READ_LABELS(LABELS, 2, MOST), 0, "",
         " " END " 4 4 | 4 0 0 2 | 9223372036854775806 0 " END " -7");
    READ("a radius, and room for three", READ_LABELS(LABELS, 3, 3), 0, "",
         " 9223372036854775806 4 4 | 0 3 0 | " END " 5 0");
}

/* ---- writing ---- */

#define NODES(...) ((const uint32_t[]){__VA_ARGS__})
#define NUMBERS(...) ((const int64_t[]){__VA_ARGS__})

/* Each instance read, and written again. */
static void writes_instances(void) {
    READ_MAX(MAX_TEXT, MOST);
    dimacs_max max = {nodes, source, sink, {tails, 3}, {heads, 3}, {caps, 3}};
    CHECK("a maximum flow instance", dimacs_write_max(&max, OUT), 0,
          "p max 4 3\nn 1 s\nn 4 t\na 1 2 " END "\na 2 4 5\na 1 4 0\n");
    memset(out, '?', sizeof out);
    check_that("room for 5 bytes",
               dimacs_write_max(&max, out, 5, &needed) == 0 && needed == 64 && !memcmp(out, "p max?", 6));
    max.sink = 1;
    CHECK("source and sink are one", dimacs_write_max(&max, OUT), 2, "x node 1 NodeTwice\n");
    READ_MIN(MIN_TEXT, MOST, MOST);
    dimacs_min min = {nodes, {tails, 2}, {heads, 2}, {lows, 2}, {caps, 2}, {costs, 2}, {supplies, 3}};
    CHECK("a minimum cost flow instance", dimacs_write_min(&min, OUT), 0, "p min 3 2\nn 1 4\nn 3 -4\n" MIN_ARCS);
    READ_GRAPH(GRAPH_TEXT);
    dimacs_graph graph = {nodes, {tails, 2}, {heads, 2}, {costs, 2}};
    CHECK("a graph", dimacs_write_graph(&graph, OUT), 0, GRAPH_TEXT);
}

static uint32_t write_solution(int64_t claimed, size_t count) {
    return dimacs_write_solution(claimed, 3, some_tails, 3, some_heads, 3, NUMBERS(3, INT64_MIN, 0, 1), count, OUT);
}

static void writes_claims(void) {
    CHECK("a solution", write_solution(-5, 3), 0, "s -5\nf 1 2 3\nf 2 3 -9223372036854775808\nf 1 2 0\n");
    CHECK("no arcs", dimacs_write_solution(LAST, 0, NULL, 0, NULL, 0, NULL, 0, OUT), 0, "s " END "\n");
    CHECK("any byte but 0 is inside", dimacs_write_cut((const uint8_t *)"\0\377\1\0", 4, OUT), 0,
          "p cut 4 2\nu 2\nu 3\n");
    CHECK("no nodes", dimacs_write_cut(NULL, 0, OUT), 0, "p cut 0 0\n");
    CHECK("potentials", dimacs_write_potentials(NUMBERS(0, INT64_MIN, 3), 3, OUT), 0,
          "p pot 3 2\ny 2 -9223372036854775808\ny 3 3\n");
    CHECK("pairs", dimacs_write_queries(7, NODES(3, 2), 2, NODES(134217728, 2), 2, OUT), 0,
          "p aux sp p2p 2\nq 3 134217728\nq 2 2\n");
    CHECK("no pairs", dimacs_write_queries(1, NULL, 0, NULL, 0, OUT), 0, "p aux sp p2p 0\n");
    CHECK("distances", dimacs_write_distances(2, NUMBERS(LAST - 1, 0, LAST, INT64_MIN), 4, OUT), 0,
          "p distances 4 1\nt 2 2\nd 1 9223372036854775806\nd 4 -9223372036854775808\n");
    CHECK("the source isn't at 0", dimacs_write_distances(2, NUMBERS(0, 1), 2, OUT), 1, "x node 2 NotShortest\n");
    CHECK("labels", dimacs_write_labels(2, NUMBERS(5, 0, LAST, -7), 4, NODES(4, 0, 0, 2), 4, OUT), 0,
          "p dist 4 1\nt 2 2\nd 4 -7 2\nd 1 5 4\n");
    CHECK("a cycle", dimacs_write_labels(1, NUMBERS(0, 1, 1), 3, NODES(0, 3, 2), 3, OUT), 1, "x node 2 PredUnknown\n");
}

int main(void) {
    reads_instances();
    reads_claims();
    writes_instances();
    writes_claims();
    return count();
}
