// A maximum flow and a minimum cut by LEMON, judged: lemon_max INSTANCE SOLUTION CUT
//
// Reads INSTANCE, writes SOLUTION and CUT, and runs `dimacs judge-max` on the three; DIMACS names the judge. In the
// folder above this one:
//
//     g++ -O2 -std=c++17 -Ilib/include -o lemon_max recipes/lemon_max.cpp build/libdimacs.a
#include "command.hpp"

#include <dimacs/lemon.hpp>
#include <lemon/preflow.h>
#include <lemon/smart_graph.h>

using Graph = lemon::SmartDigraph;
using Numbers = Graph::ArcMap<long long>;

int main(int count, char** words) {
    if (count != 4) return std::cerr << "lemon_max INSTANCE SOLUTION CUT\n", 2;
    Graph graph;
    Numbers capacity(graph);
    Graph::Node source, sink;
    if (!dimacs::lemon::read_max(read(words[1]), graph, capacity, source, sink)) return explain("max", words[1]);

    lemon::Preflow<Graph, Numbers> preflow(graph, capacity, source, sink);
    preflow.run();  // both phases: the first alone gives a cut, but no flow
    Graph::NodeMap<bool> cut(graph);
    preflow.minCutMap(cut);
    write(words[2], dimacs::lemon::write_solution(graph, preflow.flowValue(), preflow.flowMap()));
    write(words[3], dimacs::lemon::write_cut(graph, cut));
    return run({"judge-max", words[1], words[2], words[3]});
}
