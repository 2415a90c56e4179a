// The town of a text, such as road.gr, in vectors: distances are found by a loop over all arcs, certified, and then
// judged by the predecessors that were handed out; and a wrong distance is refused.
#include "dimacs.hpp"
#include <algorithm>
#include <fstream>
#include <iostream>
#include <iterator>
#include <vector>

static std::vector<std::int64_t> distances_from(const dimacs::GraphVectors &town, std::uint32_t source) {
    std::vector<std::int64_t> distances(town.nodes, dimacs::unreached);
    distances[source - 1] = 0;
    for (std::uint32_t turn = 1; turn < town.nodes; turn++) {
        for (std::size_t arc = 0; arc < town.tails.size(); arc++) {
            std::int64_t from = distances[town.tails[arc] - 1], &to = distances[town.heads[arc] - 1];
            if (from != dimacs::unreached) to = std::min(to, from + town.weights[arc]);
        }
    }
    return distances;
}

int main(int count, char **words) {
    if (count != 2) return 2;
    std::ifstream file(words[1]);
    const std::string text{std::istreambuf_iterator<char>(file), {}};
    const dimacs::GraphVectors town = dimacs::read_graph(text).value();
    std::vector<std::int64_t> distances = distances_from(town, 1);
    const auto predecessors = dimacs::certify_paths(town, 1, distances).value().predecessors;
    for (std::uint32_t node = 5; node != 0; node = predecessors[node - 1]) {
        std::cout << "node " << node << " at " << distances[node - 1] << '\n';
    }
    std::cout << std::boolalpha << dimacs::judge_paths(town, 1, distances, predecessors).has_value() << '\n';
    distances[4] = 1300;
    std::cout << dimacs::certify_paths(town, 1, distances).message() << '\n';
}
