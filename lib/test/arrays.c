/* The calls over arrays: that each reads and writes what is its own, also of arrays that are empty, and rooms. What
 * they answer is in contracts. */
#include "check.h"
#include "dimacs.h"

#define NONE DIMACS_UNREACHED

/* ---- arrays in memory that is exactly theirs, so that a read beyond them would be seen; none for none ---- */

static void *kept[99];
static int kept_count;

static void *exact(const void *at, size_t bytes) { return kept[kept_count++] = memcpy(malloc(bytes), at, bytes); }

static void let_go(void) {
    while (kept_count > 0) {
        free(kept[--kept_count]);
    }
}

typedef struct {
    const uint8_t *at;
    size_t length;
} Marks;

#define BYTES(type, ...) sizeof((const type[]){__VA_ARGS__})
#define EXACT(type, ...) \
    {exact((const type[]){__VA_ARGS__}, BYTES(type, __VA_ARGS__)), BYTES(type, __VA_ARGS__) / sizeof(type)}
#define IDS(...) ((dimacs_nodes)EXACT(uint32_t, __VA_ARGS__))
#define NUMBERS(...) ((dimacs_numbers)EXACT(int64_t, __VA_ARGS__))
#define MARKS(...) ((Marks)EXACT(uint8_t, __VA_ARGS__))
#define EMPTY {NULL, 0}
#define NO_NUMBERS ((dimacs_numbers)EMPTY)
#define NO_MARKS ((Marks)EMPTY)
#define MAX(...) ((dimacs_max){__VA_ARGS__})
#define MIN(...) ((dimacs_min){__VA_ARGS__})
#define GRAPH(...) ((dimacs_graph){__VA_ARGS__})

/* ---- the calls, and what they hand out: a line, and up to three arrays ---- */

static uint8_t out[100], set[9];
static int64_t amounts[9], prices[9];
static uint32_t predecessors[9];
static size_t needed, counts[3];

#define ARRAY(it) it.at, it.length
#define OUT out, 100, &needed
#define SET(place) set, 9, &counts[place]
#define AMOUNTS(place) amounts, 9, &counts[place]
#define PRICES(place) prices, 9, &counts[place]
#define BEFORE(place) predecessors, 9, &counts[place]

static uint32_t judge_max(dimacs_max it, dimacs_numbers flows, Marks inside) {
    return dimacs_judge_max_arrays(&it, ARRAY(flows), ARRAY(inside), OUT);
}

static uint32_t judge_min(dimacs_min it, dimacs_numbers flows, dimacs_numbers potentials) {
    return dimacs_judge_min_arrays(&it, ARRAY(flows), ARRAY(potentials), OUT);
}

static uint32_t judge_infeasible(dimacs_min it, Marks inside) {
    return dimacs_judge_infeasible_arrays(&it, ARRAY(inside), OUT);
}

static uint32_t judge_paths(dimacs_graph it, uint32_t source, dimacs_numbers distances, dimacs_nodes before) {
    return dimacs_judge_paths_arrays(&it, source, ARRAY(distances), ARRAY(before), OUT);
}

static uint32_t certify_max(dimacs_max it, dimacs_numbers flows) {
    return dimacs_certify_max_arrays(&it, ARRAY(flows), OUT, SET(0), AMOUNTS(1));
}

static uint32_t certify_min(dimacs_min it, dimacs_numbers flows) {
    return dimacs_certify_min_arrays(&it, ARRAY(flows), OUT, PRICES(0), AMOUNTS(1));
}

static uint32_t certify_infeasible(dimacs_min it) {
    return dimacs_certify_infeasible_arrays(&it, OUT, SET(0), AMOUNTS(1));
}

static uint32_t certify_paths(dimacs_graph it, uint32_t source, dimacs_numbers distances) {
    return dimacs_certify_paths_arrays(&it, source, ARRAY(distances), OUT, BEFORE(0));
}

static uint32_t solve_max(dimacs_max it) { return dimacs_solve_max_arrays(&it, 9, OUT, AMOUNTS(0), SET(1)); }
static uint32_t solve_min(dimacs_min it) { return dimacs_solve_min_arrays(&it, 9, OUT, AMOUNTS(0), PRICES(1), SET(2)); }
static uint32_t solve_paths(dimacs_graph it) { return dimacs_solve_paths_arrays(&it, 1, OUT, AMOUNTS(0), BEFORE(1)); }

/* A case: the call, its status, its line, and how many items it hands out to each of its arrays. */
#define CASE(name, call, wanted, line, ...)                                     \
    do {                                                                        \
        const size_t wanted_counts[3] = {__VA_ARGS__};                          \
        needed = 99, memset(counts, 0, sizeof counts);                          \
        CHECK(name, call, wanted, line);                                        \
        check_that(name, !memcmp(counts, wanted_counts, sizeof counts));        \
        let_go();                                                               \
    } while (0)

/* ---- maximum flows ---- */

/* 1 to 4; a maximum flow has the value 6. */
#define TAILS IDS(1, 1, 2, 2, 3)
#define HEADS IDS(2, 3, 3, 4, 4)
#define CAPS NUMBERS(4, 2, 2, 3, 5)
#define NETWORK MAX(4, 1, 4, TAILS, HEADS, CAPS)
#define FLOW NUMBERS(4, 2, 1, 3, 3)
#define CUT MARKS(1, 0, 0, 0)

static void maximum_flows(void) {
    CASE("any byte but 0 is inside", judge_max(NETWORK, FLOW, MARKS(255, 0, 0, 0)), 0, "v max 6\n", 0);
    CASE("solved", solve_max(NETWORK), 0, "v max 6\n", 5, 4);
    CASE("no arcs", judge_max(MAX(2, 1, 2, EMPTY, EMPTY, EMPTY), NO_NUMBERS, MARKS(1, 0)), 0, "v max 0\n", 0);
    CASE("no arcs", solve_max(MAX(3, 1, 3, EMPTY, EMPTY, EMPTY)), 0, "v max 0\n", 0, 3);
    CASE("fewer heads", judge_max(MAX(4, 1, 4, TAILS, IDS(2, 3, 3, 4), CAPS), FLOW, CUT), 2, "", 0);
    CASE("fewer flows", certify_max(NETWORK, NUMBERS(4, 2, 2, 3)), 2, "", 0);
    CASE("the greatest number as the sink", judge_max(MAX(4, 1, UINT32_MAX, TAILS, HEADS, CAPS), FLOW, CUT), 2,
         "x node 4294967295 NodeRange\n", 0);
}

/* ---- flows of least cost ---- */

/* Four units from 1 to 4 cost 14 at least. */
#define LOWS NUMBERS(0, 0, 0, 0, 0)
#define COSTS NUMBERS(2, 2, 1, 3, 1)
#define SUPPLIES NUMBERS(4, 0, 0, -4)
#define SHIPPING MIN(4, TAILS, HEADS, LOWS, CAPS, COSTS, SUPPLIES)
#define LEAST NUMBERS(2, 2, 2, 0, 4)
#define NOTHING MIN(0, EMPTY, EMPTY, EMPTY, EMPTY, EMPTY, EMPTY)

static void least_costs(void) {
    CASE("judged", judge_min(SHIPPING, LEAST, NUMBERS(4, 2, 1, 0)), 0, "v min 14\n", 0);
    CASE("certified", certify_min(SHIPPING, LEAST), 0, "v min 14\n", 4);
    CASE("solved", solve_min(SHIPPING), 0, "v min 14\n", 5, 4);
    CASE("no nodes to judge", judge_min(NOTHING, NO_NUMBERS, NO_NUMBERS), 0, "v min 0\n", 0);
    CASE("no nodes to certify", certify_min(NOTHING, NO_NUMBERS), 0, "v min 0\n", 0);
    CASE("no nodes to solve", solve_min(NOTHING), 0, "v min 0\n", 0);
}

/* Node 1 supplies more than its arc carries. */
#define NARROW MIN(2, IDS(1), IDS(2), NUMBERS(0), NUMBERS(5), NUMBERS(1), NUMBERS(6, -6))

static void infeasible(void) {
    CASE("a set", judge_infeasible(NARROW, MARKS(1, 0)), 0, "v infeasible\n", 0);
    CASE("certified", certify_infeasible(NARROW), 0, "v infeasible\n", 2);
    CASE("solved", solve_min(NARROW), 0, "v infeasible\n", 0, 0, 2);
    CASE("a feasible flow", certify_infeasible(SHIPPING), 1, "x instance 0 0 Feasible\n", 0, 5);
    CASE("nothing", judge_infeasible(NOTHING, NO_MARKS), 1, "x certificate 0 0 NotViolated\n", 0);
    CASE("no node", certify_infeasible(NOTHING), 1, "x instance 0 0 Feasible\n", 0);
}

/* ---- distances ---- */

/* A circle of weight 0 beside an arc from 1 to 2. */
#define ROAD GRAPH(4, IDS(1, 3, 4), IDS(2, 4, 3), NUMBERS(5, 0, 0))
#define ALONE GRAPH(1, EMPTY, EMPTY, EMPTY)
#define FAR NUMBERS(0, 5, NONE, NONE)
#define PREDECESSORS IDS(0, 1, 0, 0)

static void distances(void) {
    CASE("judged", judge_paths(ROAD, 1, FAR, PREDECESSORS), 0, "v sp ss 1\n", 0);
    CASE("certified", certify_paths(ROAD, 1, FAR), 0, "v sp ss 1\n", 4);
    CASE("solved", solve_paths(ROAD), 0, "v sp ss 1\n", 4, 4);
    CASE("a node alone", judge_paths(ALONE, 1, NUMBERS(0), IDS(0)), 0, "v sp ss 1\n", 0);
    CASE("a node alone", certify_paths(ALONE, 1, NUMBERS(0)), 0, "v sp ss 1\n", 1);
    CASE("a node alone", solve_paths(ALONE), 0, "v sp ss 1\n", 1, 1);
}

/* ---- rooms, and counts that are too great ---- */

static uint32_t certify_in(size_t room, dimacs_numbers flows, uint8_t *line, uint8_t *inside, int64_t *better) {
    dimacs_max network = NETWORK;
    return dimacs_certify_max_arrays(&network, ARRAY(flows), line, room, &needed, inside, room, &counts[0], better,
                                     room, &counts[1]);
}

/* Rooms of all lengths up to more than is needed: the front is written, and nothing after it. */
static void keeps_to_the_room(void) {
    dimacs_numbers claim = FLOW, none = NUMBERS(0, 0, 0, 0, 0);
    int64_t whole[5];
    certify_in(5, none, out, set, whole);
    for (size_t room = 0; room <= 9; room++) {
        uint8_t *line = malloc(room + 1), *inside = malloc(room + 1);
        int64_t *better = malloc(8 * room + 8);
        memset(line, '#', room + 1), memset(inside, '#', room + 1), memset(better, '#', 8 * room + 8);
        uint32_t status = certify_in(room, claim, line, inside, better);
        check_that("a yes and its cut", status == 0 && needed == 8 && counts[0] == 4 && counts[1] == 0);
        size_t front = room < 8 ? room : 8, marks = room < 4 ? room : 4, items = room < 5 ? room : 5;
        check_that("the front of the line", !memcmp(line, "v max 6\n", front) && line[front] == '#');
        check_that("the front of the cut", !memcmp(inside, "\1\0\0\0", marks) && inside[marks] == '#');
        status = certify_in(room, none, line, inside, better);
        check_that("a better flow", status == 1 && needed == 26 && counts[0] == 0 && counts[1] == 5);
        check_that("its front", !memcmp(better, whole, 8 * items) && *(uint8_t *)&better[items] == '#');
        free(line), free(inside), free(better);
    }
    uint32_t status = certify_in(0, claim, NULL, NULL, NULL);
    check_that("no room, and null", status == 0 && needed == 8 && counts[0] == 4 && counts[1] == 0);
    let_go();
}

/* Nothing is read of arrays that are longer than arcs may be many, and none is taken for so many nodes. */
static void refuses_great_counts(void) {
    CASE("a node too many", certify_max(MAX(134217729, 1, 4, TAILS, HEADS, CAPS), FLOW), 2,
         "x node 134217729 NumberRange\n", 0);
    static const uint32_t ids[] = {1};
    static const int64_t ones[] = {1};
    dimacs_nodes ends = {ids, 268435457};
    dimacs_numbers many = {ones, 268435457};
    CASE("an arc too many", certify_max(MAX(4, 1, 4, ends, ends, many), many), 2, "x arc 268435457 NumberRange\n", 0);
}

int main(void) {
    maximum_flows();
    least_costs();
    infeasible();
    distances();
    keeps_to_the_room();
    refuses_great_counts();
    return count();
}
