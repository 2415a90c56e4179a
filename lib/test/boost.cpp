/* What Boost's searches leave in property maps, certified over Boost's own graphs, and spoiled. */
#include "check.hpp"
#include "dimacs/boost.hpp"
#include <boost/graph/adjacency_list.hpp>
#include <boost/graph/bellman_ford_shortest_paths.hpp>
#include <boost/graph/boykov_kolmogorov_max_flow.hpp>
#include <boost/graph/compressed_sparse_row_graph.hpp>
#include <boost/graph/cycle_canceling.hpp>
#include <boost/graph/dijkstra_shortest_paths.hpp>
#include <boost/graph/edmonds_karp_max_flow.hpp>
#include <boost/graph/filtered_graph.hpp>
#include <boost/graph/push_relabel_max_flow.hpp>
#include <boost/graph/successive_shortest_path_nonnegative_weights.hpp>
#include <boost/property_map/transform_value_property_map.hpp>
#include <climits>
#include <random>

using Traits = boost::adjacency_list_traits<boost::vecS, boost::vecS, boost::directedS>;
struct Street {
    long capacity = 0, residual = 0, weight = 0;
    Traits::edge_descriptor reverse;
};
struct Place {
    long far = 0, other = 0;
    int color = 0;
    Traits::edge_descriptor before;
};
using Graph = boost::adjacency_list<boost::vecS, boost::vecS, boost::directedS, Place, Street>;
using Vertex = Graph::vertex_descriptor;
using Edge = Graph::edge_descriptor;
using Better = dimacs::NotOptimal<std::vector<std::pair<Edge, std::int64_t>>>;
using Refused = dimacs::RefusedAt<Vertex, Edge>;

enum { NODES = 300, EDGES = 3000, FEW_NODES = 30, FEW_EDGES = 150 };

static std::string line_of(const Graph &graph, Edge edge, const char *reason) {
    return "x arc (" + std::to_string(source(edge, graph)) + "," + std::to_string(target(edge, graph)) + ") " + reason;
}

/* An edge and its reverse, which carries nothing by itself. */
static Edge add(Graph &graph, Vertex from, Vertex to, long capacity, long weight) {
    const Edge edge = boost::add_edge(from, to, graph).first, back = boost::add_edge(to, from, graph).first;
    graph[edge].capacity = capacity;
    graph[edge].weight = weight;
    graph[back].weight = -weight;
    graph[edge].reverse = back;
    graph[back].reverse = edge;
    return edge;
}

/* A copy of a graph would have the reverse edges of the one that was copied. */
static void make(Graph &graph, int edges) {
    std::mt19937 chance(7);
    for (int k = 0; k < edges; k++) {
        const Vertex from = chance() % num_vertices(graph), to = chance() % num_vertices(graph);
        if (from != to) add(graph, from, to, long(chance() % 1000), long(chance() % 100));
    }
}

static auto certify_max(const Graph &graph, Vertex from, Vertex to) {
    return dimacs::boost::certify_max(graph, from, to, get(&Street::capacity, graph), get(&Street::residual, graph));
}

static long send_by_augmenting(Graph &graph, Vertex from, Vertex to) {
    return boost::boykov_kolmogorov_max_flow(graph, get(&Street::capacity, graph), get(&Street::residual, graph),
                                             get(&Street::reverse, graph), get(boost::vertex_index, graph), from, to);
}

/* The property maps that Boost's other searches take, each of which takes some. */
static auto maps(Graph &graph) {
    return boost::capacity_map(get(&Street::capacity, graph))
        .residual_capacity_map(get(&Street::residual, graph))
        .reverse_edge_map(get(&Street::reverse, graph))
        .weight_map(get(&Street::weight, graph))
        .color_map(get(&Place::color, graph))
        .predecessor_map(get(&Place::before, graph))
        .distance_map(get(&Place::far, graph))
        .distance_map2(get(&Place::other, graph));
}

static void maximum_flow(Graph &graph) {
    const Vertex from = 0, to = NODES / 2;
    const long value = boost::push_relabel_max_flow(graph, from, to, maps(graph));
    const auto yes = certify_max(graph, from, to);
    check_that("push_relabel_max_flow's flow", yes && yes->value == value && value > 0);
    check_that("by a cut", yes->inside[from] && !get(yes->inside, to));
    const long again = send_by_augmenting(graph, from, to);
    check_that("boykov_kolmogorov_max_flow's flow", certify_max(graph, from, to).value().value == again && again == value);
    boost::edmonds_karp_max_flow(graph, from, to, maps(graph));
    check_that("edmonds_karp_max_flow's flow", certify_max(graph, from, to).value().value == value);

    Edge full = *edges(graph).first;
    for (auto range = edges(graph); range.first != range.second; ++range.first) {
        if (graph[*range.first].capacity > graph[*range.first].residual) full = *range.first;
    }
    graph[full].residual = -1;
    const auto refused = certify_max(graph, from, to);
    check_that("too much on an edge",
               refused.message() == line_of(graph, full, "AboveCap") && refused.get_if<Refused>()->arc == full);
    graph[full].residual = graph[full].capacity;
    const auto kept = certify_max(graph, from, to);
    check_that("a vertex that keeps some", kept.get_if<Refused>() && kept.get_if<Refused>()->node);
    is("by its number", kept.message(), "x node " + std::to_string(*kept.get_if<Refused>()->node) + " Balance");
    graph[full].residual = LONG_MIN;
    throws<std::out_of_range>(
        "an amount past 64 bits", [&] { return certify_max(graph, from, to); }, line_of(graph, full, "NumberRange"));
    graph[full].capacity = -1;
    graph[full].residual = -1;
    throws<dimacs::PastLimitAt<Vertex, Edge>>(
        "a capacity below 0", [&] { return certify_max(graph, from, to); }, line_of(graph, full, "BoundOrder"),
        [&](const auto &it) { check_that("its edge", it.at().arc == full && it.at().reason == "BoundOrder"); });
    graph[full].capacity = 5;

    for (auto range = edges(graph); range.first != range.second; ++range.first) {
        graph[*range.first].residual = graph[*range.first].capacity;
    }
    const auto no = certify_max(graph, from, to);
    const auto *better = no.get_if<Better>();
    check_that("no flow", better && better->better.size() == num_edges(graph));
    for (const auto &[edge, amount] : better->better) {
        graph[edge].residual -= amount;
        graph[graph[edge].reverse].residual += amount;
    }
    const auto next = certify_max(graph, from, to);
    check_that("a better one is feasible", next || next.get_if<Better>());
}

static void edges_both_ways() {
    Graph graph(2);
    const Edge edge = add(graph, 0, 1, 5, 0);
    graph[graph[edge].reverse].capacity = 3;  // an edge of its own too
    const long value = send_by_augmenting(graph, 1, 0);
    check_that("a flow along a reverse edge", value == 3 && certify_max(graph, 1, 0).value().value == 3);
    check_that("the other way it isn't maximum", certify_max(graph, 0, 1).holds<Better>());
}

static auto certify_min(const Graph &graph, Vertex from, Vertex to) {
    return dimacs::boost::certify_min(graph, from, to, get(&Street::capacity, graph), get(&Street::residual, graph),
                                      get(&Street::weight, graph));
}

static void least_cost(Graph &graph) {
    const Vertex from = 0, to = FEW_NODES / 2;
    boost::successive_shortest_path_nonnegative_weights(graph, from, to, maps(graph));
    const auto yes = certify_min(graph, from, to);
    check_that("successive_shortest_path's flow", yes && yes->value != 0);
    check_that("which is maximum too", certify_max(graph, from, to).has_value());

    boost::push_relabel_max_flow(graph, from, to, maps(graph));
    const auto no = certify_min(graph, from, to);
    const auto *better = no.get_if<Better>();
    check_that("a flow that costs more", better && no.message() == "x solution 0 0 NotLeast");
    boost::cycle_canceling(graph, maps(graph));
    const auto canceled = certify_min(graph, from, to);
    check_that("cycle_canceling's flow", canceled && canceled->value == yes->value);
}

static void distances(const Graph &graph) {
    using Csr = boost::compressed_sparse_row_graph<boost::directedS, boost::no_property, Street>;
    std::vector<std::pair<int, int>> ends;
    std::vector<Street> streets;
    for (auto range = edges(graph); range.first != range.second; ++range.first) {
        ends.emplace_back(source(*range.first, graph), target(*range.first, graph));
        streets.push_back(graph[*range.first]);
        streets.back().weight = std::abs(streets.back().weight);
    }
    const Csr roads(boost::edges_are_unsorted_multi_pass, ends.begin(), ends.end(), streets.begin(), NODES + 1);
    std::vector<long> far(NODES + 1);
    const auto by_vertex = boost::make_iterator_property_map(far.begin(), get(boost::vertex_index, roads));
    boost::dijkstra_shortest_paths(roads, Csr::vertex_descriptor(7),
                                   boost::weight_map(get(&Street::weight, roads)).distance_map(by_vertex));
    const auto certify = [&] { return dimacs::boost::certify_paths(roads, 7, get(&Street::weight, roads), by_vertex); };
    check_that("dijkstra_shortest_paths' distances, of a vertex without any too", certify().has_value());
    check_that("a pointer as a map",
               dimacs::boost::certify_paths(roads, 7, get(&Street::weight, roads), far.data()).has_value());
    boost::bellman_ford_shortest_paths(
        roads, NODES + 1,
        boost::weight_map(get(&Street::weight, roads)).distance_map(by_vertex).root_vertex(Csr::vertex_descriptor(7)));
    check_that("bellman_ford_shortest_paths' distances", certify().has_value());
    far[8] -= 1;
    check_that("a distance less 1", !certify());
}

/* Vertices that are no numbers, and edges without a direction. */
static void other_graphs() {
    using Listed =
        boost::adjacency_list<boost::listS, boost::listS, boost::undirectedS,
                              boost::property<boost::vertex_index_t, int>, boost::property<boost::edge_weight_t, int>>;
    Listed graph;
    const auto one = add_vertex(0, graph), other = add_vertex(1, graph), third = add_vertex(2, graph);
    add_edge(other, one, 4, graph);
    add_edge(other, third, 5, graph);
    std::map<Listed::vertex_descriptor, int> far;
    boost::dijkstra_shortest_paths(graph, one, boost::distance_map(boost::make_assoc_property_map(far)));
    const auto weight = get(boost::edge_weight, graph);
    check_that(
        "edges without a direction",
        far[third] == 9 && dimacs::boost::certify_paths(graph, one, weight, boost::make_assoc_property_map(far)));
    far[third] = 10;
    const auto no = dimacs::boost::certify_paths(graph, one, weight, boost::make_assoc_property_map(far));
    is("refused at an edge", no.message(), "x arc (1,2) NotShortest");
}

/* Flows of least cost whose values don't fit in 64 bits, with the sign that one of their ends needs. */
static void values_past_64_bits() {
    const auto flow_between = [](long most, long other, long weight) {
        Graph graph(3);
        for (const long capacity : {most, other}) graph[add(graph, 1, 0, capacity, weight)].residual = 0;
        add(graph, 2, 1, 0, 0);
        return graph;
    };
    const Graph least = flow_between(LONG_MAX, 1, 1);
    is("the value -2^63", certify_min(least, 0, 1).value().value.str(), "9223372036854775808");
    is("2^63", certify_min(least, 1, 0).value().value.str(), "9223372036854775808");
    const Graph wide = flow_between(LONG_MAX, LONG_MAX, 1);
    is("-2^64 + 2", certify_min(wide, 0, 1).value().value.str(), "18446744073709551614");
    is("2^64 - 2", certify_min(wide, 1, 0).value().value.str(), "18446744073709551614");

    Graph dear = flow_between(LONG_MAX, LONG_MAX, 1);
    const Edge cheap = add(dear, 1, 0, 3, 0);
    dear[cheap].residual = 3;
    const auto no = certify_min(dear, 0, 1);
    is("a flow that costs more", no.message(), "x solution 0 0 NotLeast");
    const auto &better = no.get_if<Better>()->better;
    check_that("a better one has the edges alone", better.size() == num_edges(dear));
    check_that("and what is cheap",
               better[num_edges(dear) - 2].first == cheap && better[num_edges(dear) - 2].second == 3);
    is("a sink that isn't the other end", certify_min(least, 0, 2).message(), "x node 1 Balance");
}

/* A graph of which a vertex is hidden, and what is asked of that vertex. */
struct IsSeen {
    Vertex hidden = 0;
    bool operator()(Vertex vertex) const { return vertex != hidden; }
};

static void hidden_vertices() {
    Graph graph(3);
    add(graph, 0, 1, 5, 0);
    add(graph, 1, 2, 5, 0);
    using Part = boost::filtered_graph<Graph, boost::keep_all, IsSeen>;
    const Part part(graph, boost::keep_all(), IsSeen{2});
    const auto capacity = get(&Street::capacity, graph), left = get(&Street::residual, graph);
    const auto weight = get(&Street::weight, graph);
    using Past = dimacs::PastLimitAt<Vertex, Edge>;
    for (const Vertex none : {Vertex(2), Vertex(3), Vertex(-1)}) {
        const auto is_missing = [&](const char *name, const auto &call) {
            throws<Past>(name, call, "x node " + std::to_string(none) + " NodeRange",
                         [&](const auto &it) { check_that("its vertex", it.at().node == none); });
        };
        using dimacs::boost::certify_max, dimacs::boost::certify_min, dimacs::boost::certify_paths;
        is_missing("a hidden source", [&] { return certify_max(part, none, 1, capacity, left); });
        is_missing("of least cost", [&] { return certify_min(part, none, 1, capacity, left, weight); });
        is_missing("a hidden sink", [&] { return certify_min(part, 0, none, capacity, left, weight); });
        is_missing("of paths", [&] { return certify_paths(part, none, weight, get(&Place::far, graph)); });
        is_missing("of text", [&] { return dimacs::boost::write_distances(part, none, get(&Place::far, graph)); });
    }
    const auto cut = dimacs::boost::certify_max(part, 0, 1, capacity, left);
    const auto least = dimacs::boost::certify_min(part, 0, 1, capacity, left, weight);
    check_that("a part of a graph", cut && cut->inside[0] && !cut->inside[1] && least && least->value == 0);
    for (const Vertex none : {Vertex(2), Vertex(3)}) {
        throws<std::out_of_range>("its mark", [&] { return cut->inside[none]; });
        throws<std::out_of_range>("its potential", [&] { return get(least->potentials, none); });
    }
    using Marked = std::decay_t<decltype(cut->inside)>;
    BOOST_CONCEPT_ASSERT((boost::ReadablePropertyMapConcept<Marked, Vertex>));
    const auto outside = boost::make_transform_value_property_map([](bool it) { return !it; }, cut->inside);
    check_that("a property map over another", !get(outside, Vertex(0)) && get(outside, Vertex(1)));
}

/* Which numbers of a type 64 bits hold, and which of those that 64 bits hold it holds. */
template <class Number>
static void narrows(const char *name) {
    const bool has_sign = Number(-1) < Number(1);
    const Wide most = (Wide(1) << std::min(70, int(sizeof(Number)) * 8 - has_sign)) - 1, least = has_sign ? -most - 1 : 0;
    for (const Wide it : {least, least + 1, Wide(0), Wide(7), most - 1, most, Wide(INT64_MAX), Wide(INT64_MIN)}) {
        const auto found = dimacs::detail::narrow(Number(it));
        const bool fits = INT64_MIN <= it && it <= INT64_MAX, is_one = least <= it && it <= most;
        if (is_one) check_that(name, fits ? found == std::int64_t(it) : !found);
    }
    for (const Wide it : {least - 1, least, most, most + 1, Wide(INT64_MIN), Wide(INT64_MAX)}) {
        const std::vector<std::int64_t> number{std::int64_t(it)};
        const bool is_wrong = dimacs::detail::unfit<Number>("arc", number).has_value();
        if (INT64_MIN <= it && it <= INT64_MAX) check_that(name, is_wrong == (it < least || it > most));
    }
}

/* The numbers that end what 64 bits hold, in types of 8 to 128. */
template <class Number>
static void distances_in(const char *name, Number one, Number most) {
    narrows<Number>(name);
    Graph graph(3);
    graph[add(graph, 0, 1, 0, 0)].weight = long(one);
    const auto certify = [&](Number other, Number alone) {
        const std::vector<Number> far{0, other, alone};
        return dimacs::boost::certify_paths(graph, 0, get(&Street::weight, graph), far.data());
    };
    check_that(name, certify(one, most).has_value());
    is(name, certify(Number(one - 1), most).message(), "x node 1 NoTightArc");
    if constexpr (sizeof(Number) == 16 || Number(-1) > 0) {
        if (sizeof(Number) < 8) return;
        throws<std::out_of_range>(name, [&] { return certify(one, Number(INT64_MAX)); }, "x node 2 NumberRange");
        throws<std::out_of_range>(name, [&] { return certify(Number(most - 1), most); }, "x node 1 NumberRange");
    }
}

static void limits() {
    distances_in<signed char>("8 bits", 126, 127);
    distances_in<unsigned char>("8 bits without a sign", 254, 255);
    distances_in<short>("16 bits", 32766, 32767);
    distances_in<int>("32 bits", INT32_MAX - 1, INT32_MAX);
    distances_in<unsigned>("32 bits without a sign", UINT32_MAX - 1, UINT32_MAX);
    distances_in<long>("64 bits", INT64_MAX - 1, INT64_MAX);
    distances_in<unsigned long>("64 bits without a sign", INT64_MAX - 1, UINT64_MAX);
    distances_in<Wide>("128 bits", INT64_MAX - 1, Wide(~UnsignedWide(0) >> 1));
    distances_in<UnsignedWide>("128 bits without a sign", INT64_MAX - 1, ~UnsignedWide(0));

    Graph graph(2);
    const Edge edge = add(graph, 0, 1, 0, 0);
    const auto certify = [&](Wide capacity, Wide residual) {
        const std::map<Edge, Wide> caps{{edge, capacity}, {graph[edge].reverse, 0}};
        const std::map<Edge, Wide> left{{edge, residual}, {graph[edge].reverse, 0}};
        return dimacs::boost::certify_max(graph, 0, 1, boost::make_assoc_property_map(caps),
                                          boost::make_assoc_property_map(left));
    };
    const Wide bits = Wide(1) << 64;
    throws<std::out_of_range>("a capacity of 2^64", [&] { return certify(bits, 0); }, "x arc (0,1) NumberRange");
    throws<std::out_of_range>("a residual one", [&] { return certify(5, bits); }, "x arc (0,1) NumberRange");
    throws<std::out_of_range>("below", [&] { return certify(5, -bits); }, "x arc (0,1) NumberRange");
    throws<std::out_of_range>("a flow of 2^63", [&] { return certify(INT64_MAX, -1); }, "x arc (0,1) NumberRange");
    is("2^63 - 1", certify(INT64_MAX, 0).value().value.str(), "9223372036854775807");
    is("an edge that carries nothing", certify(0, INT64_MAX).value().value.str(), "0");
}

/* Texts as graphs, and back. */
static void texts() {
    namespace ours = dimacs::boost;
    const std::string max = "p max 3 4\nn 1 s\nn 3 t\na 2 1 5\na 1 2 7\na 2 3 9\na 1 2 1\n";
    Graph graph;
    const auto capacity = get(&Street::capacity, graph), left = get(&Street::residual, graph);
    const auto reverse = get(&Street::reverse, graph);
    Vertex from = 7, to = 7;
    const auto arcs = ours::read_max(max, graph, capacity, reverse, from, to);
    check_that("the edges of a text", arcs && arcs->size() == 4 && num_vertices(graph) == 3 && num_edges(graph) == 8 &&
                                          graph[(*arcs)[2]].capacity == 9 && from == 0 && to == 2);
    is("written", ours::write_max(graph, *arcs, from, to, capacity), max);
    const long value = boost::push_relabel_max_flow(graph, from, to, maps(graph));
    check_that("certified", ours::certify_max(graph, from, to, capacity, left).value().value == value);
    const std::string flow = ours::write_solution(graph, *arcs, value, capacity, left);
    is("a solution", flow, "s 8\nf 2 1 0\nf 1 2 7\nf 2 3 8\nf 1 2 1\n");
    Graph other;
    is("a fault", ours::read_max("p max 2 1\nn 1 s\n", other, capacity, reverse, from, to).message(),
       "x instance 3 0 EndMissing");

    using Narrow = boost::adjacency_list<boost::setS, boost::vecS, boost::directedS, boost::no_property,
                                         boost::property<boost::edge_weight_t, short>>;
    Narrow narrow;
    const auto weight = get(boost::edge_weight, narrow);
    is("a weight that doesn't fit", ours::read_graph("p sp 2 2\na 1 2 7\na 2 1 32768\n", narrow, weight).message(),
       "x arc 2 NumberRange");
    check_that("all as it was", num_vertices(narrow) == 0);
    const std::string roads = "p sp 3 2\na 1 2 -7\na 3 2 7\n";
    check_that("a graph", ours::read_graph(roads, narrow, weight).value().size() == 2);
    is("written", ours::write_graph(narrow, boost::make_iterator_range(edges(narrow)), weight), roads);
    const std::vector<int> far{3, INT_MAX, 0};
    is("distances", ours::write_distances(narrow, 2, far.data()).value(), "p distances 3 1\nt 3 1\nd 1 3\n");
    throws<std::invalid_argument>(
        "two edges in place of one", [&] { return ours::read_graph("p sp 2 2\na 1 2 7\na 1 2 8\n", narrow, weight); },
        "the graph doesn't keep several edges with the same ends");
}

int main() {
    Graph graph(NODES);
    make(graph, EDGES);
    maximum_flow(graph);
    edges_both_ways();
    Graph small(FEW_NODES);
    make(small, FEW_EDGES);
    least_cost(small);
    distances(graph);
    other_graphs();
    values_past_64_bits();
    hidden_vertices();
    limits();
    texts();
    return count();
}
