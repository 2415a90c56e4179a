// Distances by LEMON (Dijkstra), certified: lemon_paths GRAPH QUERY DISTANCES
//
// Reads GRAPH (.gr, no negative weights) and QUERY (.ss or .p2p), writes DISTANCES with a block for each source in
// QUERY, and runs `dimacs certify-paths`, which needs no predecessors. The variable DIMACS names the judge. In the
// folder above this one:
//
//     g++ -O2 -std=c++17 -Ilib/include -o lemon_paths recipes/lemon_paths.cpp build/libdimacs.a
#include "command.hpp"

#include <dimacs/lemon.hpp>
#include <lemon/dijkstra.h>
#include <lemon/smart_graph.h>

#include <set>

using Graph = lemon::SmartDigraph;
using Weights = Graph::ArcMap<long long>;

int main(int count, char** words) {
    if (count != 4) return std::cerr << "lemon_paths GRAPH QUERY DISTANCES\n", 2;
    Graph graph;
    Weights weight(graph);
    if (!dimacs::lemon::read_graph(read(words[1]), graph, weight)) return explain("gr", words[1]);
    const auto queries = dimacs::read_queries(read(words[2]));
    if (!queries) return explain("query", words[2]);
    const std::set<int> sources(queries->froms.begin(), queries->froms.end());
    for (const int source : sources)
        if (source > graph.nodeNum()) return std::cerr << "node " << source << " isn't in " << words[1] << '\n', 1;

    std::string blocks;
    for (const int source : sources) {
        lemon::Dijkstra<Graph, Weights> dijkstra(graph, weight);
        dijkstra.run(graph.nodeFromId(source - 1));
        const std::string block = dimacs::lemon::write_distances(graph, graph.nodeFromId(source - 1), dijkstra).value();
        blocks += block.substr(block.find('\n') + 1);  // without its first line
    }
    const std::string sizes = std::to_string(graph.nodeNum()) + ' ' + std::to_string(sources.size());
    write(words[3], "p distances " + sizes + '\n' + blocks);
    return run({"certify-paths", words[1], words[3]});
}
