// A flow of least cost of LEMON, written by LEMON alone: plain_lemon INSTANCE SOLUTION
//
//     g++ -O2 -std=c++17 -o plain_lemon recipes/plain_lemon.cpp
#include <lemon/network_simplex.h>
#include <lemon/smart_graph.h>

#include <fstream>

int main(int, char** words) {
    lemon::SmartDigraph graph;  // its nodes are numbered from 0, and those of a text from 1
    lemon::SmartDigraph::ArcMap<long long> capacity(graph), cost(graph);
    lemon::SmartDigraph::NodeMap<long long> supply(graph, 0);
    for (int node = 0; node < 4; ++node) graph.addNode();
    const int arcs[][4] = {{0, 1, 4, 2}, {0, 2, 2, 2}, {1, 2, 2, 1}, {1, 3, 3, 3}, {2, 3, 5, 1}};
    for (auto it : arcs) {
        auto arc = graph.addArc(graph.nodeFromId(it[0]), graph.nodeFromId(it[1]));
        capacity[arc] = it[2], cost[arc] = it[3];
    }
    supply[graph.nodeFromId(0)] = 4, supply[graph.nodeFromId(3)] = -4;

    lemon::NetworkSimplex<lemon::SmartDigraph, long long> solver(graph);
    if (solver.upperMap(capacity).costMap(cost).supplyMap(supply).run() != solver.OPTIMAL) return 1;

    std::ofstream instance(words[1]), solution(words[2]);
    instance << "p min " << graph.nodeNum() << " " << graph.arcNum() << "\n";
    solution << "s " << solver.totalCost() << "\n";
    for (int node = 0; node < graph.nodeNum(); ++node)
        instance << "n " << node + 1 << " " << supply[graph.nodeFromId(node)] << "\n";
    for (int k = 0; k < graph.arcNum(); ++k) {
        auto arc = graph.arcFromId(k);
        const int tail = graph.id(graph.source(arc)) + 1, head = graph.id(graph.target(arc)) + 1;
        instance << "a " << tail << " " << head << " 0 " << capacity[arc] << " " << cost[arc] << "\n";
        solution << "f " << tail << " " << head << " " << solver.flow(arc) << "\n";
    }
}
