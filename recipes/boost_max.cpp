// A maximum flow by Boost, certified: boost_max INSTANCE SOLUTION CUT
//
// Reads INSTANCE, writes SOLUTION, and runs `dimacs certify-max` on the two, which writes CUT; DIMACS names the judge.
// In the folder above this one:
//
//     g++ -O2 -std=c++17 -Ilib/include -o boost_max recipes/boost_max.cpp build/libdimacs.a
#include "command.hpp"

#include <boost/graph/adjacency_list.hpp>
#include <boost/graph/push_relabel_max_flow.hpp>
#include <dimacs/boost.hpp>

using Traits = boost::adjacency_list_traits<boost::vecS, boost::vecS, boost::directedS>;
struct Arc {
    long long capacity, left;  // left: what the residual network has of it
    Traits::edge_descriptor reverse;
};
using Graph = boost::adjacency_list<boost::vecS, boost::vecS, boost::directedS, boost::no_property, Arc>;

int main(int count, char** words) {
    if (count != 4) return std::cerr << "boost_max INSTANCE SOLUTION CUT\n", 2;
    Graph graph;
    Graph::vertex_descriptor source, sink;
    const auto capacity = get(&Arc::capacity, graph), left = get(&Arc::left, graph);
    const auto reverse = get(&Arc::reverse, graph);
    const auto arcs = dimacs::boost::read_max(read(words[1]), graph, capacity, reverse, source, sink);
    if (!arcs) return explain("max", words[1]);

    const long long value =
        push_relabel_max_flow(graph, source, sink, capacity, left, reverse, get(boost::vertex_index, graph));
    write(words[2], dimacs::boost::write_solution(graph, *arcs, value, capacity, left));
    return run({"certify-max", words[1], words[2], words[3]});
}
