// Reads an instance by dimacs.hpp, and prints how many nodes and arcs it has:
//
//   reading vectors|lemon max|min|gr FILE
//   reading boost max|gr FILE
#include "dimacs/boost.hpp"
#include "dimacs/lemon.hpp"

#include <boost/graph/adjacency_list.hpp>
#include <fstream>
#include <iostream>
#include <lemon/smart_graph.h>
#include <memory>
#include <string>
#include <string_view>

using std::size_t;
using std::string;
using std::string_view;

static void print(size_t nodes, size_t arcs) { std::cout << nodes << ' ' << arcs << '\n'; }

static void into_vectors(const string &kind, string_view text) {
    const auto shown = [](const auto &answer) { print(answer.value().nodes, answer->tails.size()); };
    if (kind == "max") shown(dimacs::read_max(text));
    else if (kind == "min") shown(dimacs::read_min(text));
    else shown(dimacs::read_graph(text));
}

static void into_lemon(const string &kind, string_view text) {
    lemon::SmartDigraph graph;
    lemon::SmartDigraph::ArcMap<long long> low(graph), capacity(graph), number(graph);
    lemon::SmartDigraph::NodeMap<long long> supply(graph);
    lemon::SmartDigraph::Node source, sink;
    const auto arcs = kind == "max"   ? dimacs::lemon::read_max(text, graph, capacity, source, sink)
                      : kind == "min" ? dimacs::lemon::read_min(text, graph, low, capacity, number, supply)
                                      : dimacs::lemon::read_graph(text, graph, number);
    print(graph.nodeNum(), arcs.value().size());
}

static void into_boost(const string &kind, string_view text) {
    using namespace boost;
    using Edge = adjacency_list_traits<vecS, vecS, directedS>::edge_descriptor;
    using Room = property<edge_capacity_t, long long, property<edge_reverse_t, Edge>>;
    if (kind == "max") {
        using Network = adjacency_list<vecS, vecS, directedS, no_property, Room>;
        Network graph;
        Network::vertex_descriptor source, sink;
        const auto capacity = get(edge_capacity, graph);
        const auto reverse = get(edge_reverse, graph);
        const auto arcs = dimacs::boost::read_max(text, graph, capacity, reverse, source, sink);
        print(num_vertices(graph), arcs.value().size());
    } else {
        adjacency_list<vecS, vecS, directedS, no_property, property<edge_weight_t, long long>> graph;
        const auto arcs = dimacs::boost::read_graph(text, graph, get(edge_weight, graph));
        print(num_vertices(graph), arcs.value().size());
    }
}

int main(int count, char **words) {
    if (count != 4) return std::cerr << "reading vectors|lemon|boost max|min|gr FILE\n", 2;
    std::ifstream file(words[3], std::ios::binary | std::ios::ate);
    const std::streamsize size = file.tellg();
    const std::unique_ptr<char[]> text(new char[static_cast<size_t>(size)]);
    file.seekg(0).read(text.get(), size);
    const string form = words[1];
    const auto read = form == "vectors" ? into_vectors : form == "lemon" ? into_lemon : into_boost;
    read(words[2], {text.get(), static_cast<size_t>(size)});
}
