// Reads an instance by LEMON, and prints how many nodes and arcs it has, or solves it, and prints the value:
//
//   lemon read max|min|gr FILE
//   lemon solve max|min|scaling FILE      scaling: of least cost too, by cost scaling
//   lemon solve gr FILE SOURCE..
#include <lemon/cost_scaling.h>
#include <lemon/dijkstra.h>
#include <lemon/dimacs.h>
#include <lemon/network_simplex.h>
#include <lemon/preflow.h>
#include <lemon/smart_graph.h>

#include <cstdlib>
#include <fstream>
#include <iostream>
#include <string>

using lemon::SmartDigraph;
using Numbers = SmartDigraph::ArcMap<long long>;
using Node = SmartDigraph::Node;
using Simplex = lemon::NetworkSimplex<SmartDigraph, long long, long long>;
using Scaling = lemon::CostScaling<SmartDigraph, long long, long long>;

struct Instance {
    SmartDigraph graph;
    Numbers low{graph}, capacity{graph}, number{graph};  // number: the cost or the weight
    SmartDigraph::NodeMap<long long> supply{graph};
    Node source, sink;
};

static void read(const std::string &kind, std::ifstream text, Instance &it) {
    if (kind == "max") readDimacsMax(text, it.graph, it.capacity, it.source, it.sink);
    else if (kind == "gr") readDimacsSp(text, it.graph, it.number, it.source);
    else readDimacsMin(text, it.graph, it.low, it.capacity, it.number, it.supply);
}

static void solve_max(const Instance &it) {
    lemon::Preflow<SmartDigraph, Numbers> preflow(it.graph, it.capacity, it.source, it.sink);
    preflow.run();
    std::cout << "v max " << preflow.flowValue() << '\n';
}

template <class Solver> static void solve_min(const Instance &it) {
    Solver solver(it.graph);
    solver.lowerMap(it.low).upperMap(it.capacity).costMap(it.number).supplyMap(it.supply);
    if (solver.run() == Solver::OPTIMAL) std::cout << "v min " << solver.template totalCost<long long>() << '\n';
    else std::cout << "v infeasible\n";
}

static void solve_paths(const Instance &it, char **sources) {
    long long reached = 0, sum = 0;
    lemon::Dijkstra<SmartDigraph, Numbers> dijkstra(it.graph, it.number);
    for (; *sources; sources++) {
        dijkstra.run(it.graph.nodeFromId(atoi(*sources) - 1));
        for (SmartDigraph::NodeIt node(it.graph); node != lemon::INVALID; ++node)
            if (dijkstra.reached(node)) reached++, sum += dijkstra.dist(node);
    }
    std::cout << "v sp " << reached << ' ' << sum << '\n';
}

int main(int count, char **words) {
    if (count < 4) return std::cerr << "lemon read|solve max|min|scaling|gr FILE [SOURCE..]\n", 2;
    const std::string task = words[1], kind = words[2];
    Instance it;
    read(kind, std::ifstream(words[3]), it);
    if (task == "read") std::cout << countNodes(it.graph) << ' ' << countArcs(it.graph) << '\n';
    else if (kind == "max") solve_max(it);
    else if (kind == "min") solve_min<Simplex>(it);
    else if (kind == "scaling") solve_min<Scaling>(it);
    else solve_paths(it, words + 4);
}
