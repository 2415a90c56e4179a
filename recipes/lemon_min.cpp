// A flow of least cost and its potentials by LEMON, judged: lemon_min INSTANCE SOLUTION POTENTIALS
//
// Reads INSTANCE, writes SOLUTION and POTENTIALS, and runs `dimacs judge-min` on the three; DIMACS names the judge. If
// LEMON finds no flow, SOLUTION is `s infeasible`, and `dimacs certify-infeasible` decides whether there is none, and
// writes a set in place of POTENTIALS, which shows it. In the folder above this one:
//
//     g++ -O2 -std=c++17 -Ilib/include -o lemon_min recipes/lemon_min.cpp build/libdimacs.a
#include "command.hpp"

#include <dimacs/lemon.hpp>
#include <lemon/cost_scaling.h>
#include <lemon/network_simplex.h>
#include <lemon/smart_graph.h>

using Graph = lemon::SmartDigraph;
using Arcs = Graph::ArcMap<long long>;
using Nodes = Graph::NodeMap<long long>;
using Solver = lemon::NetworkSimplex<Graph, long long, long long>;  // lemon::CostScaling goes as well

int main(int count, char** words) {
    if (count != 4) return std::cerr << "lemon_min INSTANCE SOLUTION POTENTIALS\n", 2;
    Graph graph;
    Arcs low(graph), capacity(graph), cost(graph), flow(graph);
    Nodes supply(graph), potential(graph);
    if (!dimacs::lemon::read_min(read(words[1]), graph, low, capacity, cost, supply)) return explain("min", words[1]);

    long long supplies = 0;
    for (Graph::NodeIt node(graph); node != lemon::INVALID; ++node) supplies += supply[node];
    Solver solver(graph);
    solver.lowerMap(low).upperMap(capacity).costMap(cost).supplyMap(supply);
    // LEMON takes supplies as what leaves a node at least, so a total below 0 wouldn't stop it.
    if (supplies != 0 || solver.run() != Solver::OPTIMAL)
        return write(words[2], "s infeasible\n"), run({"certify-infeasible", words[1], words[3]});
    solver.flowMap(flow);
    solver.potentialMap(potential);

    __int128 total = 0;  // LEMON's own may wrap at 64 bits
    for (Graph::ArcIt arc(graph); arc != lemon::INVALID; ++arc) total += __int128(cost[arc]) * flow[arc];
    const std::string entries = dimacs::lemon::write_solution(graph, 0, flow);  // with another value
    write(words[2], "s " + dimacs::Value(total).str() + entries.substr(entries.find('\n')));
    write(words[3], dimacs::lemon::write_potentials(graph, potential));
    return run({"judge-min", words[1], words[2], words[3]});
}
