// Certifies distances over arrays:
//
//   certify_paths GRAPH LABELS
//
// LABELS has all distances from some sources. Reads both texts into arrays, has the distances of each source certified,
// without their predecessors, and prints what the peers print that make them: how many there are, and their sum.
#include "dimacs.hpp"

#include <cstdio>
#include <cstdlib>
#include <cstring>
#include <fstream>
#include <string>
#include <vector>

static std::string read_text(const char *name) {
    std::ifstream file(name, std::ios::binary | std::ios::ate);
    if (!file) exit(3);
    std::string text(static_cast<size_t>(file.tellg()), '\0');
    file.seekg(0).read(text.data(), static_cast<std::streamsize>(text.size()));
    return text;
}

// The next number of a line, which may stand after words.
static int64_t number(const char *&at) {
    at += strcspn(at, "-0123456789\n");
    bool negative = *at == '-';
    int64_t found = 0;
    for (at += negative; *at >= '0' && *at <= '9'; ++at) found = 10 * found + (*at - '0');
    return negative ? -found : found;
}

int main(int count, char **words) {
    if (count != 3) return 2;
    const dimacs::GraphVectors graph = dimacs::read_graph(read_text(words[1])).value();
    const std::string labels = read_text(words[2]);
    uint32_t source = 0;
    std::vector<int64_t> distances;
    const auto certify = [&] {
        if (source && !dimacs::certify_paths(graph, source, distances)) exit(1);
    };
    int64_t reached = 0, sum = 0;
    for (const char *at = labels.data(); *at; at += strcspn(at, "\n") + 1) {  // it has several blocks
        if (*at == 't') {
            certify();
            distances.assign(graph.nodes, dimacs::unreached);
            distances[(source = number(at)) - 1] = 0;
            reached++;
        } else if (*at == 'd') {
            int64_t node = number(at);
            sum += distances[node - 1] = number(at);
            reached++;
        }
    }
    certify();
    printf("v sp %lld %lld\n", (long long)reached, (long long)sum);
}
