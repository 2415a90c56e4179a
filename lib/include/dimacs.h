/* dimacs.h: claims about flows and distances judged, certified and made in memory, by functions that are proved.
 *
 * Link with libdimacs.a or libdimacs.so; both stand alone. There is nothing to set up and nothing to free. A call
 * keeps nothing, opens no file, prints nothing and starts no thread. It takes memory by malloc and realloc, and
 * frees all of it before it returns.
 *
 * A call returns the exit status of the command, and hands out what the command prints and writes to files. It
 * follows snprintf: as much as fits into `room` bytes goes to `out`, without a 0 at its end, and the length of the
 * whole to *needed. If *needed is greater than room, call again with so much room. If room is 0, `out` may be null.
 *
 * These are the premises: if the caller breaks one of them, the behaviour of the call is undefined. The layers for other
 * languages keep the first four, and leave the rest to their callers.
 *   - A pointer with a length beside it points to memory of that length, and may be null if that is 0. Lengths of arrays
 *     and rooms for items count items. The same holds for each array of an instance.
 *   - A pointer without a length (to an instance, or to a number that is handed out, as `needed`, `nodes` or `radius`)
 *     points to one item, and is never null.
 *   - A pointer is aligned for its type: to 8 bytes for int64_t, size_t or an instance, to 4 for uint32_t.
 *   - What a call writes overlaps neither what it reads nor what else it writes: no two of its numbers are one variable.
 *   - During a call no other thread writes what it reads, or reads or writes what it writes. Otherwise calls may run in
 *     several threads at once, even over the same texts and arrays.
 *   - No call is made in a signal handler, or in the forked child of a process with threads. In Python a call that Ctrl-C
 *     left goes on in a thread until it ends.
 *   - The calling thread has 64 KB of stack left.
 */
#ifndef DIMACS_H
#define DIMACS_H

#include <stddef.h>
#include <stdint.h>

#ifdef __cplusplus
extern "C" {
#endif

/* The version of this header, also as one number: 10000 times the first, 100 times the second, and the third. */
#define DIMACS_VERSION "0.2.0-dev"
#define DIMACS_VERSION_MAJOR 0
#define DIMACS_VERSION_MINOR 2
#define DIMACS_VERSION_PATCH 0
#define DIMACS_VERSION_NUMBER (DIMACS_VERSION_MAJOR * 10000 + DIMACS_VERSION_MINOR * 100 + DIMACS_VERSION_PATCH)

/* The version of the library that was linked or loaded, as such a number. */
uint32_t dimacs_version(void);

/* 1 if that library is proved: the kit that built it had proved that each function meets its contract. 0 if it was
 * built without proofs, as by `make quick`. */
uint32_t dimacs_proved(void);

/* Hands out the version with what proved the library, as `dimacs --version` prints it: `0.2.0-dev (proved by ..)`, with
 * the logic of the kit, or `0.2.0-dev (not proved)`. Returns DIMACS_DONE. */
uint32_t dimacs_version_text(uint8_t *out, size_t room, size_t *needed);

/* What a call returns. */
enum {
    DIMACS_DONE = 0,      /* done, or a yes; also if a solver finds that no flow is feasible */
    DIMACS_REFUSED = 1,   /* a no: a text has a fault, or a test fails */
    DIMACS_MISUSED = 2,   /* nothing was judged. If a number names no kind, or an array has a wrong length, nothing is
                             handed out. If a number of an instance in arrays is past its limit, the line names it */
    DIMACS_DEVICE = 3,    /* the caller can't read a text that a command comes to. Nothing is handed out */
    DIMACS_NO_MEMORY = 4, /* out of memory: the claim is undecided. Nothing is handed out */
    DIMACS_GAVE_UP = 5,   /* a limit was reached, the least cost is out of range, or an answer doesn't fit an array: a
                             distance is 2^63 - 1 or more, or two potentials are 2^64 or more apart (others may fit).
                             Only `g limit` is handed out */
    DIMACS_RUN = 6        /* the words of a command ask for a run, whose plan is handed out */
};

/* Kinds of claim. All are judged and certified, the first two are spread, and all but DIMACS_INFEASIBLE are solved. */
enum { DIMACS_MAX = 0, DIMACS_MIN = 1, DIMACS_INFEASIBLE = 2, DIMACS_PATHS = 3 };

/* The command's default limit. */
#define DIMACS_LIMIT 1000000

/* The distance of a node that isn't reached, in arrays. */
#define DIMACS_UNREACHED INT64_MAX

/* Kinds of text. */
enum {
    DIMACS_TEXT_MAX = 0,
    DIMACS_TEXT_MIN = 1,
    DIMACS_TEXT_GR = 2,
    DIMACS_TEXT_QUERY = 3,
    DIMACS_TEXT_SOLUTION = 4,
    DIMACS_TEXT_CUT = 5,
    DIMACS_TEXT_POT = 6,
    DIMACS_TEXT_DIST = 7,
    DIMACS_TEXT_DISTANCES = 8
};

/* ---- Texts in memory ---- */

/* Judges a claim by its certificate: a solution by a cut (DIMACS_MAX) or by potentials (DIMACS_MIN), queries by
 * labels (DIMACS_PATHS), or that no flow is feasible by a set of nodes (DIMACS_INFEASIBLE, whose claim isn't read).
 * A yes hands out `v max VALUE`, `v min COST`, `v sp ss COUNT`, a line for each pair, or `v infeasible`. A no hands
 * out one line: the fault of the first text that has one, otherwise the first test that fails.
 * Only the lines of pairs may have more than 100 bytes. */
uint32_t dimacs_judge(uint32_t kind, const uint8_t *instance, size_t instance_length, const uint8_t *claim,
                      size_t claim_length, const uint8_t *certificate, size_t certificate_length, uint8_t *out,
                      size_t room, size_t *needed);

/* Certifies a claim that has no certificate: a solution (DIMACS_MAX or DIMACS_MIN), distances (DIMACS_PATHS), or
 * that no flow is feasible (DIMACS_INFEASIBLE, whose claim isn't read). Hands out the line of the verdict or of the
 * refusal to `out` (for distances `v sp distances COUNT`), and a text to `certificate`:
 *   - with a yes the cut, potentials, set or labels that show it;
 *   - with `x solution LINE 2 NotMaximum` or `NotLeast` a better solution: the claimed one has a feasible flow and
 *     its value;
 *   - with `x instance 0 0 Feasible` a solution with a feasible flow;
 *   - otherwise nothing, nor if the cost of that solution is out of range.
 * The length of the texts doesn't bound the time, except for paths. */
uint32_t dimacs_certify(uint32_t kind, const uint8_t *instance, size_t instance_length, const uint8_t *claim,
                        size_t claim_length, uint8_t *out, size_t room, size_t *needed, uint8_t *certificate,
                        size_t certificate_room, size_t *certificate_needed);

/* Deals a claimed flow out to parallel arcs: DIMACS_MAX or DIMACS_MIN. Adds up the entries with the same tail and
 * head, in any order. Each sum goes to the arcs with these ends: within their bounds if possible, and for DIMACS_MIN
 * at the least cost. Hands out no line, and to `solution` a solution with the claimed value and an entry for every
 * arc, in the order of the instance. If the bounds can't hold a sum, the first arc with these ends gets what is too
 * much or too little. Or it hands out no solution, and a line: a text's fault, `x solution LINE 0 UnknownArc`, or, if
 * the amount of that first arc K doesn't fit in 64 bits, `x arc K AboveCap` or `x arc K BelowLow`. */
uint32_t dimacs_spread(uint32_t kind, const uint8_t *instance, size_t instance_length, const uint8_t *claim,
                       size_t claim_length, uint8_t *out, size_t room, size_t *needed, uint8_t *solution,
                       size_t solution_room, size_t *solution_needed);

/* Solves an instance: DIMACS_MAX, DIMACS_MIN or DIMACS_PATHS. Hands out the line of the verdict to `out`, and to
 * `solution` and `certificate` texts by which dimacs_judge answers yes: a solution, and a cut or potentials. If no
 * flow is feasible, it hands out `v infeasible`, and only a set. Only for paths it reads the queries. Then it hands
 * out the lines that answer them, and only labels. If a text has a fault or a weight is negative, it hands out only
 * the line. It gives up after `limit` flows that aren't maximum (DIMACS_MAX), after `limit` steps to better flows
 * (DIMACS_MIN), or if the least cost is out of range. Paths have no limit; labels of more than 10^12 lines would be
 * more than a text may have. The length of the texts doesn't bound the time, except for paths. */
uint32_t dimacs_solve(uint32_t kind, const uint8_t *instance, size_t instance_length, const uint8_t *queries,
                      size_t queries_length, uint64_t limit, uint8_t *out, size_t room, size_t *needed,
                      uint8_t *solution, size_t solution_room, size_t *solution_needed, uint8_t *certificate,
                      size_t certificate_room, size_t *certificate_needed);

/* Hands out the canonical form of a text of this kind (DIMACS_TEXT_ ..) with DIMACS_DONE, or the line of its fault
 * with DIMACS_REFUSED. A call makes the whole form before it hands any of it out. If the room is too small, the next
 * call does all of the work again. Room as long as the text is often enough. */
uint32_t dimacs_convert(uint32_t kind, const uint8_t *text, size_t length, uint8_t *out, size_t room, size_t *needed);

/* Hands out a line that describes a text of this kind, or the line of its fault. */
uint32_t dimacs_show(uint32_t kind, const uint8_t *text, size_t length, uint8_t *out, size_t room, size_t *needed);

/* What the texts of a command are. */
enum {
    DIMACS_FILES = 0,
    DIMACS_TEXTS = 1, /* in no file: no line says what a run does with files */
    DIMACS_ARRAYS = 2 /* made of arrays: no line quotes one either, the flow on line K + 1 is that of arc K, and the
                         number of an arc follows a byte 1, the ID of a node a byte 2, a capacity a byte 3 */
};

/* Hands out what the words of a command ask for. They come without `dimacs`, and each ends with a byte 0. `same` has for
 * each word the place, from 0, of the first that names the same regular file, or its own, as for one that isn't there
 * yet: a run that would replace what it reads is misused. DIMACS_DONE: the text to print, of help or the version.
 * DIMACS_MISUSED: what to tell on the standard error. DIMACS_RUN: a line with a mark for each word, `-` if it names no
 * file, `r` if the run reads the file, `c` if it creates or empties the file before it reads, `w` if it writes the file
 * once it has a text for it; then a line for each file with its name as messages have it; then what to tell on the
 * standard error after the run. */
uint32_t dimacs_request(const uint8_t *words, size_t words_length, const uint32_t *same, size_t same_length, uint8_t *out,
                        size_t room, size_t *needed);

/* Runs a command over texts, and hands out what it prints, and the one or two texts that it writes to files. Its words
 * come as above, such as "explain\0judge-max\0instance\0solution\0cut" with the 0 of C. Those that name files are names
 * of `first`, `second` and `third`, in order: lines that explain an answer quote them. A command with fewer files
 * doesn't read the other texts. Text number `unread`, from 1, can't be read; 0 if all can: the call returns
 * DIMACS_DEVICE if the run comes to it. Returns what the command would, but runs in spite of a slip, which
 * dimacs_request tells; or DIMACS_MISUSED if the words ask for no run.
 * If memory runs out after the command's own lines, some or all of the lines after them are missing. */
uint32_t dimacs_command(uint32_t form, const uint8_t *words, size_t words_length, uint32_t unread, const uint8_t *first,
                        size_t first_length, const uint8_t *second, size_t second_length, const uint8_t *third,
                        size_t third_length, uint8_t *out, size_t room, size_t *needed, uint8_t *made, size_t made_room,
                        size_t *made_needed, uint8_t *more, size_t more_room, size_t *more_needed);

/* ---- Arrays in memory ----
 *
 * Nodes and arcs are numbered from 1. The k-th items of the arrays by arc describe the k-th arc, and the k-th item
 * of an array by node belongs to node k. There are as many arcs as tails. Each other array must have as many items
 * as there are arcs, or nodes. Otherwise a call returns DIMACS_MISUSED and hands out nothing. If a number is past
 * its limit, a call returns DIMACS_MISUSED too, and hands out the line `x node ID REASON` or `x arc K REASON` of the
 * first one. There are at most 2^27 nodes (`x node 134217729 NumberRange`) and 2^28 arcs; the ends are nodes
 * (NodeRange); the sink isn't the source (NodeTwice); a lower bound is at least 0 and at most the capacity
 * (BoundOrder).
 *
 * No line has more than 100 bytes. With a no it is that of the first test that fails, `x arc K REASON` or
 * `x node ID REASON`. A room for items works as `out` does, but counts items. If a call hands out no items, their
 * number is 0. */

/* The address of an array, and the number of its items. */
typedef struct {
    const uint32_t *at;
    size_t length;
} dimacs_nodes;

typedef struct {
    const int64_t *at;
    size_t length;
} dimacs_numbers;

/* A maximum flow instance: an arc goes from its tail to its head, and carries from 0 to its capacity. */
typedef struct {
    uint32_t nodes, source, sink;
    dimacs_nodes tails, heads;
    dimacs_numbers caps;
} dimacs_max;

/* A minimum cost flow instance: an arc carries from its lower bound to its capacity, at a cost for each unit. A
 * node's supply is its outflow minus its inflow. A demand is a negative supply. */
typedef struct {
    uint32_t nodes;
    dimacs_nodes tails, heads;
    dimacs_numbers lows, caps, costs, supplies;
} dimacs_min;

/* A graph: an arc goes from its tail to its head, and has a weight, which may be negative. */
typedef struct {
    uint32_t nodes;
    dimacs_nodes tails, heads;
    dimacs_numbers weights;
} dimacs_graph;

/* Judges that a flow, by arc, is maximum, by the cut of the nodes whose byte in `inside` isn't 0. Hands out
 * `v max VALUE`, or the first test that fails: each arc, BelowLow or AboveCap; each node but the source and the
 * sink, Balance; the source, SourceOutside; the sink, SinkInside; each arc, NotSaturated or BackFlow. If one of the
 * last four fails, the flow may still be maximum, by another cut. */
uint32_t dimacs_judge_max_arrays(const dimacs_max *instance, const int64_t *flows, size_t flows_length,
                                 const uint8_t *inside, size_t inside_length, uint8_t *out, size_t room,
                                 size_t *needed);

/* Judges that a flow, by arc, costs least, by potentials of the nodes. The reduced cost of an arc is its cost, minus
 * the potential of its tail, plus that of its head. Hands out `v min COST`, or the first test that fails: each arc,
 * BelowLow or AboveCap; each node, Balance; each arc, CostRange if the sum up to it is below -10^30 or above 10^30;
 * each arc, NotTight if its reduced cost is above 0 and it carries more than its lower bound, or below 0 and it
 * carries less than its capacity. With NotTight the flow may still cost least, by other potentials. */
uint32_t dimacs_judge_min_arrays(const dimacs_min *instance, const int64_t *flows, size_t flows_length,
                                 const int64_t *potentials, size_t potentials_length, uint8_t *out, size_t room,
                                 size_t *needed);

/* Judges that an instance has no feasible flow, by the set of the nodes whose byte in `inside` isn't 0: their
 * supplies sum to more than can flow out of the set, or to less than must. Hands out `v infeasible`, or
 * `x certificate 0 0 NotViolated`. Then there may still be no feasible flow, by another set. */
uint32_t dimacs_judge_infeasible_arrays(const dimacs_min *instance, const uint8_t *inside, size_t inside_length,
                                        uint8_t *out, size_t room, size_t *needed);

/* Judges that the distances from the source, by node, are the least weights of walks, by the predecessors of the
 * nodes. A node that isn't reached has the distance DIMACS_UNREACHED, and predecessor 0, as the source has. Hands
 * out `v sp ss 1`, or the first test that fails: the source, NotShortest; each node, NodeRange of its predecessor;
 * each node, PredUnknown if its predecessors don't lead back to the source; each node, NoTightArc if no arc from its
 * predecessor gives its distance; each arc, Escapes if its head isn't reached, or NotShortest. */
uint32_t dimacs_judge_paths_arrays(const dimacs_graph *graph, uint32_t source, const int64_t *distances,
                                   size_t distances_length, const uint32_t *predecessors, size_t predecessors_length,
                                   uint8_t *out, size_t room, size_t *needed);

/* Certifies a flow, by arc, that has no certificate. Makes the tests of dimacs_judge_max_arrays except those of the
 * cut, and hands out the same lines. With a yes `inside` gets a byte for each node: 1 inside a cut by which that
 * judge answers yes, 0 outside. If the flow is feasible but not maximum, the line is `x solution 0 0 NotMaximum`,
 * and `better` gets a feasible flow of greater value, an amount for each arc. The number of arcs doesn't bound the
 * time. */
uint32_t dimacs_certify_max_arrays(const dimacs_max *instance, const int64_t *flows, size_t flows_length, uint8_t *out,
                                   size_t room, size_t *needed, uint8_t *inside, size_t inside_room,
                                   size_t *inside_needed, int64_t *better, size_t better_room, size_t *better_needed);

/* The same for a flow of least cost. Makes the tests of dimacs_judge_min_arrays except the last, and hands out the
 * same lines. With a yes it hands out potentials, by node, by which that judge answers yes; or it returns
 * DIMACS_GAVE_UP. If the flow is feasible but another costs less, the line is `x solution 0 0 NotLeast`, and
 * `better` gets such a flow. */
uint32_t dimacs_certify_min_arrays(const dimacs_min *instance, const int64_t *flows, size_t flows_length, uint8_t *out,
                                   size_t room, size_t *needed, int64_t *potentials, size_t potentials_room,
                                   size_t *potentials_needed, int64_t *better, size_t better_room,
                                   size_t *better_needed);

/* Certifies that an instance has no feasible flow, without a set. Exactly if no flow is feasible, it hands out
 * `v infeasible`, and to `inside` a byte for each node: 1 in a set that dimacs_judge_infeasible_arrays accepts, 0
 * outside. Otherwise it hands out `x instance 0 0 Feasible`, and a feasible flow to `flows`, an amount for each arc.
 * The number of arcs doesn't bound the time. */
uint32_t dimacs_certify_infeasible_arrays(const dimacs_min *instance, uint8_t *out, size_t room, size_t *needed,
                                          uint8_t *inside, size_t inside_room, size_t *inside_needed, int64_t *flows,
                                          size_t flows_room, size_t *flows_needed);

/* Certifies distances from the source, by node, that have no predecessors. The number of arcs and nodes bounds the
 * time. Exactly if they are the least weights of walks, it hands out `v sp ss 1`, and predecessors, by node, that
 * dimacs_judge_paths_arrays accepts. Otherwise it hands out the first test that fails: the source, NotShortest; each
 * arc whose tail is reached, Escapes if its head isn't, or NotShortest; each node that is reached, NoTightArc if no
 * walk of arcs that give the distances leads to it. */
uint32_t dimacs_certify_paths_arrays(const dimacs_graph *graph, uint32_t source, const int64_t *distances,
                                     size_t distances_length, uint8_t *out, size_t room, size_t *needed,
                                     uint32_t *predecessors, size_t predecessors_room, size_t *predecessors_needed);

/* Solves maximum flow, beginning with the flow of zeros; gives up after `limit` flows that aren't maximum. Hands out
 * `v max VALUE`, an amount for each arc to `flows`, and a byte for each node to `inside`: dimacs_judge_max_arrays
 * accepts them. */
uint32_t dimacs_solve_max_arrays(const dimacs_max *instance, uint64_t limit, uint8_t *out, size_t room, size_t *needed,
                                 int64_t *flows, size_t flows_room, size_t *flows_needed, uint8_t *inside,
                                 size_t inside_room, size_t *inside_needed);

/* Solves least cost; gives up after `limit` steps, each to a better flow, or if the least cost is out of range.
 * Hands out `v min COST`, an amount for each arc to `flows`, and a potential for each node: dimacs_judge_min_arrays
 * accepts them. If no flow is feasible, it hands out only `v infeasible`, and a byte for each node to `inside`:
 * dimacs_judge_infeasible_arrays accepts them. */
uint32_t dimacs_solve_min_arrays(const dimacs_min *instance, uint64_t limit, uint8_t *out, size_t room, size_t *needed,
                                 int64_t *flows, size_t flows_room, size_t *flows_needed, int64_t *potentials,
                                 size_t potentials_room, size_t *potentials_needed, uint8_t *inside, size_t inside_room,
                                 size_t *inside_needed);

/* Solves shortest paths from the source. Hands out `v sp ss 1`, and a distance and a predecessor for each node:
 * dimacs_judge_paths_arrays accepts them. Refuses the first arc of negative weight by `x arc K NegativeWeight`. */
uint32_t dimacs_solve_paths_arrays(const dimacs_graph *graph, uint32_t source, uint8_t *out, size_t room,
                                   size_t *needed, int64_t *distances, size_t distances_room, size_t *distances_needed,
                                   uint32_t *predecessors, size_t predecessors_room, size_t *predecessors_needed);

/* ---- From texts to arrays, and back ----
 *
 * A call that reads hands out what a text spells as the arrays and numbers that the calls above take, and no line.
 * Arrays by arc that share a length *arcs (or *count) may have different rooms. If the text has a fault, it returns
 * DIMACS_REFUSED and hands out its line, as dimacs_show does. Unless it returns DIMACS_DONE, it sets numbers and lengths
 * to 0, and leaves the arrays as they were; but those of an instance may hold anything then. An arc takes 8 bytes
 * of a text at least (of a Min text 12), its line end included: room for (length + 1) / 8 arcs is always enough. No call
 * takes memory for arcs that a text declares and doesn't have.
 *
 * A call that writes hands out the canonical text to `out`, which read again gives the same arrays, but 1 for each byte
 * of a set, and for `pairs`, that isn't 0. If a number in them is past its limit, it returns DIMACS_MISUSED and hands out
 * the line that names it, as the calls above do. */

/* Reads a maximum flow instance: the items of dimacs_max. */
uint32_t dimacs_read_max(const uint8_t *text, size_t length, uint8_t *out, size_t room, size_t *needed, uint32_t *nodes,
                         uint32_t *source, uint32_t *sink, uint32_t *tails, size_t tails_room, uint32_t *heads,
                         size_t heads_room, int64_t *caps, size_t caps_room, size_t *arcs);

/* Reads a minimum cost flow instance: the items of dimacs_min. There is a supply for each of *nodes nodes. */
uint32_t dimacs_read_min(const uint8_t *text, size_t length, uint8_t *out, size_t room, size_t *needed, uint32_t *nodes,
                         uint32_t *tails, size_t tails_room, uint32_t *heads, size_t heads_room, int64_t *lows,
                         size_t lows_room, int64_t *caps, size_t caps_room, int64_t *costs, size_t costs_room,
                         size_t *arcs, int64_t *supplies, size_t supplies_room, size_t *supplies_needed);

/* Reads a graph: the items of dimacs_graph. */
uint32_t dimacs_read_graph(const uint8_t *text, size_t length, uint8_t *out, size_t room, size_t *needed,
                           uint32_t *nodes, uint32_t *tails, size_t tails_room, uint32_t *heads, size_t heads_room,
                           int64_t *weights, size_t weights_room, size_t *arcs);

/* Writes a maximum flow instance. */
uint32_t dimacs_write_max(const dimacs_max *instance, uint8_t *out, size_t room, size_t *needed);

/* Writes a minimum cost flow instance. */
uint32_t dimacs_write_min(const dimacs_min *instance, uint8_t *out, size_t room, size_t *needed);

/* Writes a graph. */
uint32_t dimacs_write_graph(const dimacs_graph *graph, uint8_t *out, size_t room, size_t *needed);

/* Reads a solution over an instance with these arcs, of which only the nodes and ends matter: the claimed value, and an
 * amount for each arc. The k-th entry with given ends belongs to the k-th arc with them; an arc without one carries 0.
 * After a fault of the text it refuses the first entry that belongs to no arc, by `x solution LINE 0 UnknownArc`, or
 * ArcTwice if as many earlier entries as arcs have its ends; then a value that doesn't fit in 64 bits, by
 * `x solution LINE 2 NumberRange`. Tests the arcs first, as the calls above do. */
uint32_t dimacs_read_solution(uint32_t nodes, const uint32_t *tails, size_t tails_length, const uint32_t *heads,
                              size_t heads_length, const uint8_t *text, size_t length, uint8_t *out, size_t room,
                              size_t *needed, int64_t *value, int64_t *flows, size_t flows_room, size_t *flows_needed);

/* Writes a solution that claims this value, with an entry for each arc, in their order, even if it carries 0. */
uint32_t dimacs_write_solution(int64_t value, uint32_t nodes, const uint32_t *tails, size_t tails_length,
                               const uint32_t *heads, size_t heads_length, const int64_t *flows, size_t flows_length,
                               uint8_t *out, size_t room, size_t *needed);

/* Reads a cut or a set: a byte for each node, 1 inside, 0 outside. */
uint32_t dimacs_read_cut(const uint8_t *text, size_t length, uint8_t *out, size_t room, size_t *needed, uint8_t *inside,
                         size_t inside_room, size_t *inside_needed);

/* Writes the set of the nodes whose byte isn't 0. There are as many nodes as bytes. */
uint32_t dimacs_write_cut(const uint8_t *inside, size_t inside_length, uint8_t *out, size_t room, size_t *needed);

/* Reads potentials: one for each node. Refuses the first node whose potential doesn't fit in 64 bits, by
 * `x node ID NumberRange`. */
uint32_t dimacs_read_potentials(const uint8_t *text, size_t length, uint8_t *out, size_t room, size_t *needed,
                                int64_t *potentials, size_t potentials_room, size_t *potentials_needed);

/* Writes potentials. There are as many nodes as numbers. */
uint32_t dimacs_write_potentials(const int64_t *potentials, size_t potentials_length, uint8_t *out, size_t room,
                                 size_t *needed);

/* Reads queries. *pairs is 0 if they ask for the distances from the nodes `froms` to all nodes; `tos` gets nothing then.
 * It is 1 if they ask for the distance from each node of `froms` to that of `tos`. *count is the number of queries. */
uint32_t dimacs_read_queries(const uint8_t *text, size_t length, uint8_t *out, size_t room, size_t *needed,
                             uint32_t *pairs, uint32_t *froms, size_t froms_room, uint32_t *tos, size_t tos_room,
                             size_t *count);

/* Writes queries: if `pairs` is 0, for the distances from the nodes `froms` to all nodes, and `tos` has no item then;
 * otherwise for the distance from each node of `froms` to that of `tos`, which has as many items. There are at most 2^28
 * queries, otherwise `froms` has a wrong length. The first ID that isn't from 1 to 2^27, of a query FROM before TO, is
 * past its limit: `x node ID NumberRange`. */
uint32_t dimacs_write_queries(uint32_t pairs, const uint32_t *froms, size_t froms_length, const uint32_t *tos,
                              size_t tos_length, uint8_t *out, size_t room, size_t *needed);

/* Reads the block of this source from distances: a distance for each node, 0 at the source, DIMACS_UNREACHED at a node
 * without a line. After a fault of the text it refuses a source that has no block, by `x node ID BlockMissing`; then the
 * first line of the block whose distance is 2^63 - 1 or doesn't fit in 64 bits, by `x node ID NumberRange`. */
uint32_t dimacs_read_distances(const uint8_t *text, size_t length, uint32_t source, uint8_t *out, size_t room,
                               size_t *needed, int64_t *distances, size_t distances_room, size_t *distances_needed);

/* Writes distances: one block, of this source, with a line for each other node that is reached, by ID. There are as many
 * nodes as distances. Tests the number of nodes and the source first, as the calls above do, then refuses a distance of
 * the source that isn't 0, with DIMACS_REFUSED and `x node ID NotShortest`. */
uint32_t dimacs_write_distances(uint32_t source, const int64_t *distances, size_t distances_length, uint8_t *out,
                                size_t room, size_t *needed);

/* Reads the block of this source from labels, as dimacs_read_distances, and a predecessor for each node: 0 at the source
 * and at a node without a label. *radius is the radius of the block, DIMACS_UNREACHED if it has none. With a radius the
 * nodes without a label are farther, and may be reached: the calls above take distances without one. Refuses a radius
 * that is 2^63 - 1 or doesn't fit in 64 bits before the labels, by `x node ID NumberRange` of the source. */
uint32_t dimacs_read_labels(const uint8_t *text, size_t length, uint32_t source, uint8_t *out, size_t room,
                            size_t *needed, int64_t *radius, int64_t *distances, size_t distances_room,
                            size_t *distances_needed, uint32_t *predecessors, size_t predecessors_room,
                            size_t *predecessors_needed);

/* Writes labels: one block, of this source, without a radius. Each label comes after that of its predecessor, otherwise
 * they are ordered by ID. There are as many nodes as distances. Tests as dimacs_write_distances, then makes the tests of
 * dimacs_judge_paths_arrays up to PredUnknown, and hands out the same lines with DIMACS_REFUSED. */
uint32_t dimacs_write_labels(uint32_t source, const int64_t *distances, size_t distances_length,
                             const uint32_t *predecessors, size_t predecessors_length, uint8_t *out, size_t room,
                             size_t *needed);

#ifdef __cplusplus
}
#endif

#endif
