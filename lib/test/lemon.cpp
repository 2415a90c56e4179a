/* What LEMON's solvers answer, judged and certified over LEMON's own graphs and maps, and spoiled. */
#include "check.hpp"
#include "dimacs/lemon.hpp"
#include <lemon/adaptors.h>
#include <lemon/bellman_ford.h>
#include <lemon/bfs.h>
#include <lemon/dijkstra.h>
#include <lemon/list_graph.h>
#include <lemon/maps.h>
#include <lemon/network_simplex.h>
#include <lemon/preflow.h>
#include <lemon/smart_graph.h>
#include <random>

namespace ours = dimacs::lemon;
using Graph = lemon::SmartDigraph;
using Node = Graph::Node;
using Arc = Graph::Arc;
using Numbers = Graph::ArcMap<long long>;
using Supplies = Graph::NodeMap<long long>;
using Better = dimacs::NotOptimal<ours::Map<Graph, Arc, std::int64_t>>;
using Refused = dimacs::RefusedAt<Node, Arc>;
static_assert(!std::is_reference_v<decltype(std::declval<Refused>().message())>);
static_assert(!std::is_reference_v<decltype(std::declval<dimacs::PastLimitAt<Node, Arc>>().at())>);
static_assert(!std::is_reference_v<decltype(std::declval<dimacs::OutOfRangeAt<Node, Arc>>().at())>);

enum { NODES = 2000, ARCS = 20000 };

static std::string arc_line(const Graph &graph, Arc arc, const char *reason) {
    return "x arc " + std::to_string(graph.id(arc)) + " " + reason;
}

static std::string node_line(const Graph &graph, Node node, const char *reason) {
    return "x node " + std::to_string(graph.id(node)) + " " + reason;
}

/* Random arcs, and a ring along which any supply can flow. */
static void make(Graph &graph, Numbers &capacity, Numbers &cost) {
    std::mt19937 chance(7);
    for (int node = 0; node < NODES; node++) graph.addNode();
    for (int k = 0; k < ARCS; k++) {
        int tail = k < NODES ? k : int(chance() % NODES);
        int head = k < NODES ? (k + 1) % NODES : int(chance() % NODES);
        Arc arc = graph.addArc(graph.nodeFromId(tail), graph.nodeFromId(head));
        capacity[arc] = k < NODES ? 1000000 : chance() % 1000;
        cost[arc] = k < NODES ? 1000 : chance() % 100;
    }
}

static void maximum_flow(const Graph &graph, const Numbers &capacity) {
    Node source = graph.nodeFromId(0), sink = graph.nodeFromId(NODES / 2);
    lemon::Preflow<Graph, Numbers> solver(graph, capacity, source, sink);
    solver.run();
    Graph::NodeMap<bool> cut(graph);
    solver.minCutMap(cut);
    const auto judged = ours::judge_max(graph, capacity, source, sink, solver.flowMap(), cut);
    check_that("Preflow's flow and cut", judged && judged->value == solver.flowValue());
    const auto yes = ours::certify_max(graph, capacity, source, sink, solver.flowMap());
    check_that("Preflow's flow", yes && yes->value == solver.flowValue());
    check_that("by the cut that was handed out",
               ours::judge_max(graph, capacity, source, sink, solver.flowMap(), yes->inside).has_value());
    check_that("which has the source", yes->inside[source] && !yes->inside[sink]);

    Numbers flow(graph, 0);
    const auto no = ours::certify_max(graph, capacity, source, sink, flow);
    const auto *better = no.get_if<Better>();
    check_that("no flow", better && no.message() == "x solution 0 0 NotMaximum");
    lemon::mapCopy(graph, better->better, flow);
    const auto next = ours::certify_max(graph, capacity, source, sink, flow);
    check_that("a better one is feasible", next || next.get_if<Better>());

    lemon::mapCopy(graph, solver.flowMap(), flow);
    Arc full = graph.arcFromId(0);
    while (flow[full] == 0) full = graph.arcFromId(graph.id(full) + 1);
    flow[full] = capacity[full] + 1;
    const auto refused = ours::judge_max(graph, capacity, source, sink, flow, cut);
    check_that("too much on an arc", refused.get_if<Refused>() && refused.get_if<Refused>()->arc == full &&
                                         refused.message() == arc_line(graph, full, "AboveCap"));
    flow[full] = 0;
    const auto lost = ours::certify_max(graph, capacity, source, sink, flow);
    check_that("a node that loses some",
               lost.get_if<Refused>() && lost.get_if<Refused>()->node &&
                   lost.message() == node_line(graph, *lost.get_if<Refused>()->node, "Balance"));
}

static void least_cost(const Graph &graph, const Numbers &capacity, const Numbers &cost) {
    Supplies supply(graph, 0);
    supply[graph.nodeFromId(3)] = 5000;
    supply[graph.nodeFromId(9)] = 700;
    supply[graph.nodeFromId(NODES / 2)] = -5700;
    lemon::ConstMap<Arc, long long> lower(0);
    lemon::NetworkSimplex<Graph, long long> solver(graph);
    solver.upperMap(capacity).costMap(cost).supplyMap(supply);
    check_that("LEMON finds a flow", solver.run() == lemon::NetworkSimplex<Graph, long long>::OPTIMAL);
    Numbers flow(graph);
    Supplies potential(graph);
    solver.flowMap(flow);
    solver.potentialMap(potential);
    const auto total = solver.totalCost<long long>();
    const auto judged = ours::judge_min(graph, lower, capacity, cost, supply, flow, potential);
    check_that("NetworkSimplex's flow and potentials", judged && judged->value == total);
    const auto yes = ours::certify_min(graph, lower, capacity, cost, supply, flow);
    check_that("NetworkSimplex's flow", yes && yes->value == total);
    check_that("by the potentials that were handed out",
               ours::judge_min(graph, lower, capacity, cost, supply, flow, yes->potentials).has_value());

    for (int id = 0; id < NODES; id++) flow[graph.arcFromId(id)] += 1;  // round the ring
    const auto no = ours::certify_min(graph, lower, capacity, cost, supply, flow);
    check_that("a unit more round the ring", no.get_if<Better>() && no.message() == "x solution 0 0 NotLeast");
    lemon::mapCopy(graph, no.get_if<Better>()->better, flow);
    check_that("a flow that costs less",
               !ours::certify_min(graph, lower, capacity, cost, supply, flow).holds<Refused>());
    const auto some = ours::certify_infeasible(graph, lower, capacity, supply);
    check_that("a feasible flow", some.get_if<dimacs::Feasible<ours::Map<Graph, Arc, std::int64_t>>>() != nullptr);
    supply[graph.nodeFromId(3)] += 1;
    const auto none = ours::certify_infeasible(graph, lower, capacity, supply);
    check_that("supplies of 1 in all", none && none->inside[graph.nodeFromId(0)]);
    const auto refused = ours::certify_min(graph, lower, capacity, cost, supply, flow);
    check_that("another supply", refused.get_if<Refused>() && refused.get_if<Refused>()->node == graph.nodeFromId(3));

    Numbers below(graph, 0);
    below[graph.arcFromId(7)] = -1;
    throws<dimacs::PastLimitAt<Node, Arc>>(
        "a capacity below 0", [&] { return ours::certify_min(graph, lower, below, cost, supply, flow); },
        "x arc 7 BoundOrder",
        [&](const auto &it) {
            check_that("its arc", it.at().arc == graph.arcFromId(7) && it.at().reason == "BoundOrder");
        });
}

/* A search that answers what it was made with: less than 0 for a node that isn't reached. */
struct Made {
    std::vector<long long> distances;

    bool reached(Node node) const { return dist(node) >= 0; }
    long long dist(Node node) const { return distances[static_cast<std::size_t>(Graph::id(node))]; }
};

/* The numbers that end what 64 bits hold, in maps of 64 and more; boost.cpp has those of all types. */
static void limits() {
    Graph graph;
    const Node from = graph.addNode(), to = graph.addNode(), alone = graph.addNode();
    const Arc arc = graph.addArc(from, to);
    Numbers length(graph, INT64_MAX), zero(graph, 0), five(graph, 5);
    lemon::Dijkstra<Graph, Numbers> solver(graph, length);
    solver.run(from);
    const auto is_out = [](const char *name, const std::string &line, const auto &call) {
        throws<std::out_of_range>(name, call, line + " NumberRange");
    };
    is_out("the distance 2^63 - 1", "x node 1", [&] { return ours::certify_paths(graph, length, from, solver); });
    length[arc] -= 1;
    solver.run(from);
    check_that("the distance 2^63 - 2", ours::certify_paths(graph, length, from, solver).has_value());

    Graph::ArcMap<Wide> wide(graph, Wide(1) << 64);
    lemon::Preflow<Graph, Graph::ArcMap<Wide>> preflow(graph, wide, from, to);
    preflow.run();
    is_out("a capacity of 2^64", "x arc 0",
           [&] { return ours::certify_max(graph, wide, from, to, preflow.flowMap()); });

    Supplies potential(graph, 0), supply(graph, 0);
    supply[from] = 5, supply[to] = -5;
    potential[from] = INT64_MIN, potential[to] = INT64_MAX;
    is("potentials of -2^63 and 2^63 - 1",
       ours::judge_min(graph, zero, five, five, supply, five, potential).value().value.str(), "25");
    potential[alone] = 1;
    std::swap(potential[from], potential[to]);
    is("exchanged", ours::judge_min(graph, zero, five, five, supply, five, potential).message(), "x arc 0 NotTight");
}

/* Nodes that a graph doesn't have: none at all, and one that is hidden. */
static void missing_nodes() {
    using dimacs::PastLimitAt;
    Graph graph;
    const Node from = graph.addNode(), to = graph.addNode(), hidden = graph.addNode();
    graph.addArc(from, to);
    graph.addArc(to, hidden);
    const Numbers three(graph, 3);
    const Node none = lemon::INVALID;
    const auto is_missing = [&](const char *name, const auto &call) {
        throws<PastLimitAt<Node, Arc>>(name, call, "x node -1 NodeRange",
                                       [&](const auto &it) { check_that("its node", it.at().node == none && !it.at().arc); });
    };
    is_missing("no source", [&] { return ours::certify_max(graph, three, none, to, three); });
    is_missing("no sink", [&] { return ours::certify_max(graph, three, from, none, three); });
    const Graph::NodeMap<bool> cut(graph, false);
    is_missing("to be judged", [&] { return ours::judge_max(graph, three, none, to, three, cut); });
    const Made made{{0, 3, 6}};
    is_missing("of paths", [&] { return ours::certify_paths(graph, three, none, made); });
    is_missing("of written distances", [&] { return ours::write_distances(graph, none, made); });

    Graph::NodeMap<bool> is_seen(graph, true);
    is_seen[hidden] = false;
    const lemon::FilterNodes<const Graph, Graph::NodeMap<bool>> part(graph, is_seen);
    throws<PastLimitAt<Node, Arc>>(
        "a hidden source", [&] { return ours::certify_max(part, three, hidden, to, three); },
        "x node 2 NodeRange");
    const auto yes = ours::certify_max(part, three, from, to, three);
    check_that("a part of a graph", yes && yes->value == 3 && yes->inside[from] && !yes->inside[to]);
    throws<std::out_of_range>("no node's mark", [&] { return yes->inside[none]; });
}

static void distances(const Graph &graph, const Numbers &cost) {
    const Node source = graph.nodeFromId(5);
    lemon::Dijkstra<Graph, Numbers> solver(graph, cost);
    solver.run(source);
    check_that("Dijkstra's distances", ours::certify_paths(graph, cost, source, solver).has_value());
    lemon::BellmanFord<Graph, Numbers> other(graph, cost);
    other.run(source);
    check_that("BellmanFord's distances", ours::certify_paths(graph, cost, source, other).has_value());
    lemon::Bfs<Graph> steps(graph);
    steps.run(source);
    check_that("Bfs' distances", ours::certify_paths(graph, lemon::ConstMap<Arc, int>(1), source, steps).has_value());
    Made spoiled;
    for (int id = 0; id < NODES; id++) spoiled.distances.push_back(solver.dist(graph.nodeFromId(id)));
    spoiled.distances[8] -= 1;
    const auto no = ours::certify_paths(graph, cost, source, spoiled);
    check_that("a distance less 1", no.get_if<Refused>() && (no.get_if<Refused>()->arc || no.get_if<Refused>()->node));
}

/* A graph whose IDs have gaps, and one whose edges go both ways. */
static void other_graphs() {
    lemon::ListDigraph gaps;
    lemon::ListDigraph::Node gone = gaps.addNode(), from = gaps.addNode(), to = gaps.addNode();
    gaps.addArc(gone, to);
    lemon::ListDigraph::Arc arc = gaps.addArc(from, to);
    gaps.erase(gone);
    lemon::ListDigraph::ArcMap<int> three(gaps, 3), none(gaps, 0);
    const auto no = ours::certify_max(gaps, three, from, to, none);
    using Found = dimacs::NotOptimal<ours::Map<lemon::ListDigraph, lemon::ListDigraph::Arc, std::int64_t>>;
    check_that("a graph of which a node was erased", no.get_if<Found>() && no.get_if<Found>()->better[arc] == 3);
    check_that("certified", ours::certify_max(gaps, three, from, to, three).value().value == 3);

    lemon::ListGraph edges;
    lemon::ListGraph::Node one = edges.addNode(), other = edges.addNode(), alone = edges.addNode();
    edges.addEdge(other, one);
    lemon::ListGraph::ArcMap<int> length(edges, 4);
    lemon::Dijkstra<lemon::ListGraph, lemon::ListGraph::ArcMap<int>> solver(edges, length);
    solver.run(one);
    check_that("an edge goes both ways", solver.reached(other) && !solver.reached(alone) &&
                                             ours::certify_paths(edges, length, one, solver));
    lemon::Preflow<lemon::ListGraph, lemon::ListGraph::ArcMap<int>> flow(edges, length, one, other);
    flow.run();
    check_that("for flows too", ours::certify_max(edges, length, one, other, flow.flowMap()).value().value == 4);
}

/* Texts as graphs, and back. Parallel arcs keep their order. */
static void texts() {
    const std::string max = "p max 3 4\nn 1 s\nn 3 t\na 1 2 7\na 2 3 9\na 1 2 1\na 2 2 0\n";
    const std::string flow = "s 8\nf 1 2 7\nf 2 3 8\nf 1 2 1\nf 2 2 0\n";
    Graph graph;
    Numbers capacity(graph), cost(graph), low(graph);
    Supplies supply(graph), potential(graph);
    Node source = graph.addNode(), target;
    const auto arcs = ours::read_max(max, graph, capacity, source, target);
    check_that("the arcs of a text", arcs && arcs->size() == 4 && graph.id((*arcs)[3]) == 3 &&
                                         capacity[(*arcs)[1]] == 9 && countNodes(graph) == 3 && graph.id(source) == 0 &&
                                         graph.id(target) == 2);
    is("written", ours::write_max(graph, capacity, source, target), max);
    lemon::Preflow<Graph, Numbers> solver(graph, capacity, source, target);
    solver.run();
    is("a solution", ours::write_solution(graph, solver.flowValue(), solver.flowMap()), flow);
    const auto claim = ours::read_solution(flow, graph);
    check_that("read", claim && claim->value == 8 && claim->flows[(*arcs)[2]] == 1);
    is("of another graph", ours::read_solution("s 8\nf 1 3 8\n", graph).message(), "x solution 2 0 UnknownArc");
    const auto yes = ours::certify_max(graph, capacity, source, target, claim->flows);
    is("a cut", ours::write_cut(graph, yes->inside), "p cut 3 1\nu 1\n");

    lemon::SmartDigraph::ArcMap<signed char> byte(graph, 1);
    is("a capacity that doesn't fit",
       ours::read_max("p max 2 1\nn 1 s\nn 2 t\na 1 2 128\n", graph, byte, source, target).message(),
       "x arc 1 NumberRange");
    is("a length", ours::read_graph("p sp 2 2\na 1 2 7\na 1 2 -129\n", graph, byte).message(), "x arc 2 NumberRange");
    const std::string wide_min = "p min 2 1\nn 1 300\nn 2 -300\na 1 2 300 300 300\n";
    lemon::SmartDigraph::NodeMap<signed char> node_byte(graph, 1);
    const auto reads = [&](auto &lows, auto &caps, auto &costs, auto &supplies) {
        return ours::read_min(wide_min, graph, lows, caps, costs, supplies).message();
    };
    is("a bound", reads(byte, capacity, cost, supply), "x arc 1 NumberRange");
    is("an upper one", reads(low, byte, cost, supply), "x arc 1 NumberRange");
    is("a cost", reads(low, capacity, byte, supply), "x arc 1 NumberRange");
    is("a supply", reads(low, capacity, cost, node_byte), "x node 1 NumberRange");
    check_that("all as it was", byte[(*arcs)[3]] == 1 && countArcs(graph) == 4);
    is("a fault", ours::read_graph("p sp 2 1\na 1 3 7\n", graph, cost).message(), "x instance 2 3 NodeRange");

    const std::string min = "p min 3 2\nn 1 4\nn 3 -4\na 1 2 1 5 2\na 2 3 0 9 -3\n";
    check_that("an instance of least cost", ours::read_min(min, graph, low, capacity, cost, supply).has_value());
    is("written", ours::write_min(graph, low, capacity, cost, supply), min);
    for (int id = 0; id < 3; id++) potential[graph.nodeFromId(id)] = id;
    is("potentials", ours::write_potentials(graph, potential), "p pot 3 2\ny 2 -1\ny 3 -2\n");
    const std::string roads = "p sp 3 2\na 3 2 7\na 1 2 -7\n";
    check_that("a graph", ours::read_graph(roads, graph, cost).value().size() == 2);
    is("written", ours::write_graph(graph, cost), roads);
    const Made found{{3, -1, 0}};
    is("distances", ours::write_distances(graph, graph.nodeFromId(2), found).value(),
       "p distances 3 1\nt 3 1\nd 1 3\n");
    is("of another source", ours::write_distances(graph, graph.nodeFromId(0), found).message(), "x node 1 NotShortest");
    lemon::ConstMap<Arc, Wide> wide(Wide(1) << 64);
    throws<std::out_of_range>(
        "a number that texts don't hold", [&] { return ours::write_graph(graph, wide); }, "x arc 0 NumberRange");
}

/* Exceptions that were moved from have what they had. */
static void moved_exceptions() {
    const dimacs::RefusedAt<Node, Arc> at{"x node 7 NumberRange", "NumberRange", Node(lemon::INVALID), std::nullopt};
    dimacs::OutOfRangeAt<Node, Arc> one(at);
    const dimacs::OutOfRangeAt<Node, Arc> other(std::move(one));
    is("moved", one.at().printed + other.at().printed, at.printed + at.printed);
    dimacs::PastLimitAt<Node, Arc> limit(dimacs::detail::refused("x node 0 NodeRange"), at);
    const dimacs::PastLimitAt<Node, Arc> another(std::move(limit));
    is("and past a limit", limit.at().printed + another.refused().printed, at.printed + "x node 0 NodeRange");
}

int main() {
    Graph graph;
    Numbers capacity(graph), cost(graph);
    make(graph, capacity, cost);
    maximum_flow(graph, capacity);
    least_cost(graph, capacity, cost);
    distances(graph, cost);
    other_graphs();
    limits();
    missing_nodes();
    texts();
    moved_exceptions();
    return count();
}
