/* Each call of dimacs.h that takes memory, over small texts and arrays, in each of its outcomes. */
#ifndef CALLS_H
#define CALLS_H

#include "texts.h"
#include "check.h"
#include "dimacs.h"

/* The same in arrays, but for the graph; and supplies that can't be met. */
static const uint32_t tails[] = {1, 1, 2, 2, 3}, heads[] = {2, 3, 3, 4, 4};
static const int64_t caps[] = {4, 2, 2, 3, 5}, lows[5], costs[] = {2, 2, 1, 3, 1}, supplies[] = {4, 0, 0, -4};
static const int64_t flows[] = {4, 2, 1, 3, 3}, slow_flows[] = {3, 2, 0, 3, 2};
static const int64_t least_flows[] = {2, 2, 2, 0, 4}, dear_flows[] = {2, 2, 1, 1, 3}, potentials[] = {4, 2, 1, 0};
static const uint8_t inside[] = {1, 0, 0, 0};
static const int64_t weights[] = {5, 1, 0, 2, 3}, distances[] = {0, 5, 1, 4};
static const uint32_t predecessors[] = {0, 1, 1, 3};
#define BY_ARC(at) {at, 5}
static const dimacs_max max_arrays = {4, 1, 4, BY_ARC(tails), BY_ARC(heads), BY_ARC(caps)};
static const dimacs_min min_arrays = {4, BY_ARC(tails), BY_ARC(heads), BY_ARC(lows), BY_ARC(caps), BY_ARC(costs), {supplies, 4}};
static const dimacs_min unmet = {4, BY_ARC(tails), BY_ARC(heads), BY_ARC(lows), BY_ARC(caps), BY_ARC(costs), {potentials, 4}};
static const dimacs_graph graph_arrays = {4, BY_ARC(tails), BY_ARC(heads), BY_ARC(weights)};

/* What calls hand out; a room that a call hasn't is needed as 99. */
typedef struct {
    uint8_t out[400];
    int64_t shown[50], better[50], marks[50];
    size_t needed, shown_needed, better_needed, marks_needed;
} Handed;

/* Whatever was handed out before is gone. */
static void clear(Handed *it) {
    memset(it, '#', sizeof *it);
    it->needed = it->shown_needed = it->better_needed = it->marks_needed = 99;
}

#define TEXT(s) (const uint8_t *)(s), strlen(s)
#define OUT to->out, 400, &to->needed
#define SHOWN (uint8_t *)to->shown, 400, &to->shown_needed
#define BETTER to->better, 50, &to->better_needed
#define BETTER_TEXT (uint8_t *)to->better, 400, &to->better_needed
#define PRICES to->shown, 50, &to->shown_needed
#define BEFORE (uint32_t *)to->shown, 100, &to->shown_needed
#define MARKS (uint8_t *)to->marks, 400, &to->marks_needed
#define SOLVE(kind, instance, limit) dimacs_solve(kind, TEXT(instance), TEXT(pairs), limit, OUT, BETTER_TEXT, SHOWN)
#define EXPLAIN(claim) \
    dimacs_command(DIMACS_FILES, WORDS("explain\0judge-max\0I\0S\0C"), 0, TEXT(max), TEXT(claim), TEXT(cut), OUT, BETTER_TEXT, SHOWN)

/* A name, the status, and the call. */
#define CALLS(X) \
    X("judge max", 0, dimacs_judge(DIMACS_MAX, TEXT(max), TEXT(flow), TEXT(cut), OUT)) \
    X("judge min", 0, dimacs_judge(DIMACS_MIN, TEXT(min), TEXT(least), TEXT(pot), OUT)) \
    X("judge paths", 0, dimacs_judge(DIMACS_PATHS, TEXT(graph), TEXT(pairs), TEXT(dist), OUT)) \
    X("certify max", 0, dimacs_certify(DIMACS_MAX, TEXT(max), TEXT(flow), OUT, SHOWN)) \
    X("certify a slow flow", 1, dimacs_certify(DIMACS_MAX, TEXT(max), TEXT(slow), OUT, SHOWN)) \
    X("certify min", 0, dimacs_certify(DIMACS_MIN, TEXT(min), TEXT(least), OUT, SHOWN)) \
    X("certify a dear flow", 1, dimacs_certify(DIMACS_MIN, TEXT(min), TEXT(dear), OUT, SHOWN)) \
    X("certify that no flow is feasible", 0, dimacs_certify(DIMACS_INFEASIBLE, TEXT(surplus), NULL, 0, OUT, SHOWN)) \
    X("certify it of an instance with a flow", 1, dimacs_certify(DIMACS_INFEASIBLE, TEXT(min), NULL, 0, OUT, SHOWN)) \
    X("certify paths", 0, dimacs_certify(DIMACS_PATHS, TEXT(graph), TEXT(near), OUT, SHOWN)) \
    X("spread a flow", 0, dimacs_spread(DIMACS_MAX, TEXT(max), TEXT(flow), OUT, SHOWN)) \
    X("solve max", 0, SOLVE(DIMACS_MAX, max, 9)) \
    X("solve min", 0, SOLVE(DIMACS_MIN, min, 9)) \
    X("solve min without a flow", 0, SOLVE(DIMACS_MIN, surplus, 9)) \
    X("solve paths", 0, SOLVE(DIMACS_PATHS, graph, 9)) \
    X("give up", 5, SOLVE(DIMACS_MAX, max, 1)) \
    X("convert", 0, dimacs_convert(DIMACS_TEXT_MIN, TEXT(min), OUT)) \
    X("show", 0, dimacs_show(DIMACS_TEXT_POT, TEXT(pot), OUT)) \
    X("explain a yes", 0, EXPLAIN(flow)) \
    X("explain a no", 1, EXPLAIN(slow)) \
    X("judge max in arrays", 0, dimacs_judge_max_arrays(&max_arrays, flows, 5, inside, 4, OUT)) \
    X("judge min in arrays", 0, dimacs_judge_min_arrays(&min_arrays, least_flows, 5, potentials, 4, OUT)) \
    X("judge a set in arrays", 1, dimacs_judge_infeasible_arrays(&min_arrays, inside, 4, OUT)) \
    X("judge paths in arrays", 0, dimacs_judge_paths_arrays(&graph_arrays, 1, distances, 4, predecessors, 4, OUT)) \
    X("no source", 2, dimacs_judge_paths_arrays(&graph_arrays, 5, distances, 4, predecessors, 4, OUT)) \
    X("certify max in arrays", 0, dimacs_certify_max_arrays(&max_arrays, flows, 5, OUT, SHOWN, BETTER)) \
    X("certify a slow flow in arrays", 1, dimacs_certify_max_arrays(&max_arrays, slow_flows, 5, OUT, SHOWN, BETTER)) \
    X("certify min in arrays", 0, dimacs_certify_min_arrays(&min_arrays, least_flows, 5, OUT, PRICES, BETTER)) \
    X("certify a dear flow in arrays", 1, dimacs_certify_min_arrays(&min_arrays, dear_flows, 5, OUT, PRICES, BETTER)) \
    X("certify in arrays that no flow is feasible", 0, dimacs_certify_infeasible_arrays(&unmet, OUT, MARKS, BETTER)) \
    X("certify it where one is", 1, dimacs_certify_infeasible_arrays(&min_arrays, OUT, MARKS, BETTER)) \
    X("certify paths in arrays", 0, dimacs_certify_paths_arrays(&graph_arrays, 1, distances, 4, OUT, BEFORE)) \
    X("solve max in arrays", 0, dimacs_solve_max_arrays(&max_arrays, 9, OUT, BETTER, MARKS)) \
    X("solve min in arrays", 0, dimacs_solve_min_arrays(&min_arrays, 9, OUT, BETTER, PRICES, MARKS)) \
    X("solve min in arrays without a flow", 0, dimacs_solve_min_arrays(&unmet, 9, OUT, BETTER, PRICES, MARKS)) \
    X("solve paths in arrays", 0, dimacs_solve_paths_arrays(&graph_arrays, 1, OUT, BETTER, BEFORE))

#define NAME(name, wanted, call) name,
#define WANTED(name, wanted, call) wanted,
#define MADE(name, wanted, call) if (k-- == 0) return call;
static const char *const names[] = {CALLS(NAME)};
static const uint32_t statuses[] = {CALLS(WANTED)};
enum { COUNT = sizeof statuses / sizeof *statuses };

/* Makes the k-th call. */
static uint32_t make(int k, Handed *to) {
    CALLS(MADE)
    return 99;
}

#endif
