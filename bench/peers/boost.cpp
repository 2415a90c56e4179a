// Reads an instance by Boost, and prints how many nodes and arcs it has, or solves it, and prints the value:
//
//   boost read max FILE
//   boost solve max|min FILE
//   boost solve gr FILE SOURCE..
//
// Boost has a reader of maximum flow; for the other kinds there is the loop that its users write. Its minimum cost flow
// goes from one source to one sink and knows neither lower bounds nor, in the method that is used, negative costs: an
// arc carries its lower bound, or its capacity where its cost is negative, and what is left of the supplies is moved.
#include <boost/graph/adjacency_list.hpp>
#include <boost/graph/dijkstra_shortest_paths.hpp>
#include <boost/graph/find_flow_cost.hpp>
#include <boost/graph/push_relabel_max_flow.hpp>
#include <boost/graph/read_dimacs.hpp>
#include <boost/graph/successive_shortest_path_nonnegative_weights.hpp>
#include <cstdlib>
#include <fstream>
#include <iostream>
#include <limits>
#include <string>
#include <vector>

using namespace boost;
using std::string;

using Traits = adjacency_list_traits<vecS, vecS, directedS>;
using Edge = Traits::edge_descriptor;
using Back = property<edge_reverse_t, Edge>;
using Room = property<edge_capacity_t, long long, property<edge_residual_capacity_t, long long, Back>>;
using Network = adjacency_list<vecS, vecS, directedS, no_property, Room>;
using CostNetwork = adjacency_list<vecS, vecS, directedS, no_property, property<edge_weight_t, long long, Room>>;
using Roads = adjacency_list<vecS, vecS, directedS, no_property, property<edge_weight_t, long long>>;

static int maximum_flow(const string &task, const char *path) {
    std::ifstream text(path);
    Network graph;
    Traits::vertex_descriptor source, sink;
    auto capacity = get(edge_capacity, graph);
    auto reverse = get(edge_reverse, graph);
    if (read_dimacs_max_flow(graph, capacity, reverse, source, sink, text) != 0) return 1;
    if (task == "read") std::cout << num_vertices(graph) << ' ' << num_edges(graph) / 2 << '\n';  // an arc has one back
    else std::cout << "v max " << push_relabel_max_flow(graph, source, sink) << '\n';
    return 0;
}

// Calls a function with the letter and the numbers of each line.
template <class Take> static void each_line(const char *path, Take take) {
    std::ifstream text(path);
    string letter, kind;
    long long numbers[5];
    while (text >> letter) {
        if (letter == "p") text >> kind;
        int wanted = letter == "c" ? 0 : letter != "a" ? 2 : kind == "sp" ? 3 : 5;
        for (int i = 0; i < wanted; i++) text >> numbers[i];
        if (wanted) take(letter[0], numbers);
        std::getline(text, letter);
    }
}

static void add(CostNetwork &graph, long long tail, long long head, long long capacity, long long cost) {
    Edge arc = add_edge(tail, head, graph).first, back = add_edge(head, tail, graph).first;
    put(edge_capacity, graph, arc, capacity);
    put(edge_capacity, graph, back, 0);
    put(edge_weight, graph, arc, cost);
    put(edge_weight, graph, back, -cost);
    put(edge_reverse, graph, arc, back);
    put(edge_reverse, graph, back, arc);
}

static void solve_min(const char *path) {
    CostNetwork graph;
    std::vector<long long> supplies;
    long long cost = 0;
    each_line(path, [&](char letter, const long long *numbers) {
        auto [tail, head, low, most, price] = std::tie(numbers[0], numbers[1], numbers[2], numbers[3], numbers[4]);
        if (letter == 'p') graph = CostNetwork(tail + 2), supplies.resize(tail + 2);  // a source 0, a sink after all
        if (letter == 'n') supplies[tail] += head;
        if (letter != 'a') return;
        long long first = price < 0 ? most : low;
        supplies[tail] -= first;
        supplies[head] += first;
        cost += first * price;
        if (price < 0) add(graph, head, tail, most - low, -price);
        else add(graph, tail, head, most - low, price);
    });
    long long source = 0, sink = supplies.size() - 1, all = 0, carried = 0;
    for (long long v = 1; v < sink; v++) {
        if (supplies[v] > 0) add(graph, source, v, supplies[v], 0), all += supplies[v];
        if (supplies[v] < 0) add(graph, v, sink, -supplies[v], 0);
    }
    successive_shortest_path_nonnegative_weights(graph, source, sink);
    for (auto [arc, end] = out_edges(source, graph); arc != end; ++arc)
        carried += get(edge_capacity, graph, *arc) - get(edge_residual_capacity, graph, *arc);
    if (carried < all) std::cout << "v infeasible\n";
    else std::cout << "v min " << cost + find_flow_cost(graph) << '\n';
}

static void solve_paths(const char *path, char **sources) {
    Roads graph;
    each_line(path, [&](char letter, const long long *numbers) {
        if (letter == 'p') graph = Roads(numbers[0] + 1);  // its vertex 0 stays alone
        if (letter == 'a') add_edge(numbers[0], numbers[1], numbers[2], graph);
    });
    long long reached = 0, sum = 0;
    std::vector<long long> distances(num_vertices(graph));
    for (; *sources; sources++) {
        dijkstra_shortest_paths(graph, atoi(*sources), distance_map(distances.data()));
        for (long long distance : distances)
            if (distance != std::numeric_limits<long long>::max()) reached++, sum += distance;
    }
    std::cout << "v sp " << reached << ' ' << sum << '\n';
}

int main(int count, char **words) {
    if (count < 4) return std::cerr << "boost read|solve max|min|gr FILE [SOURCE..]\n", 2;
    const string task = words[1], kind = words[2];
    if (kind == "max") return maximum_flow(task, words[3]);
    if (kind == "min") solve_min(words[3]);
    else solve_paths(words[3], words + 4);
}
