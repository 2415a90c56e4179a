// Writes the texts that are measured. The same words give the same texts.
//
//   gen road N DEGREE OUT.gr     a road-like planar graph: N nodes, about DEGREE arcs for each
//   gen max N M PREFIX           PREFIX.max, .solution and .cut: a maximum flow and its tight cut
//   gen mixed N M PREFIX         the same with the arcs in a random order, and the entries in another
//   gen min N M PREFIX           PREFIX.min, .solution and .pot: a minimum cost flow and its potentials
//   gen parallel N M PREFIX      the same with one arc more, which has the ends of the first
//
// The flows and their certificates are made first and the instance around them, so that any size takes linear time.
// No two arcs of a flow instance have the same ends, but for `parallel`: node v has arcs to the nodes v + step, for
// distinct steps.
#include <algorithm>
#include <cmath>
#include <cstdint>
#include <cstdio>
#include <cstdlib>
#include <fstream>
#include <string>
#include <vector>

using std::string;
using std::vector;

// A text, which ends the program if it can't be written whole.
struct Output : std::ofstream {
    explicit Output(const string &path) : std::ofstream(path, std::ios::binary) { exceptions(failbit | badbit); }
    ~Output() { close(); }
};

// Numbers that look random, the same each time.
class Random {
public:
    uint64_t next() {
        uint64_t z = (state += STEP);
        z = (z ^ (z >> 30)) * 0xBF58476D1CE4E5B9;
        z = (z ^ (z >> 27)) * 0x94D049BB133111EB;
        return z ^ (z >> 31);
    }
    // from 0, below n
    uint64_t below(uint64_t n) { return (uint64_t)(((unsigned __int128)next() * n) >> 64); }
    int64_t between(int64_t low, int64_t high) { return low + (int64_t)below((uint64_t)(high - low + 1)); }
    // from 0, below 1
    double unit() { return (next() >> 11) * 0x1p-53; }

private:
    static const uint64_t STEP = 0x9E3779B97F4A7C15;
    uint64_t state = STEP + 1;
};

// ---- roads

struct Street {
    uint32_t from, to, length;
};

// Junctions lie on a grid. Their numbers run through bands of 64 rows, column by column, so that neighbours have near
// numbers, as in road data.
class Junctions {
public:
    explicit Junctions(int64_t count)
        : count(count), columns((int64_t)sqrt((double)count)), rows((count + columns - 1) / columns) {}

    const int64_t count, columns, rows;

    bool exist(int64_t row, int64_t column) const { return row * columns + column < count; }

    uint32_t number(int64_t row, int64_t column) const {
        int64_t band = row / BAND * BAND;
        int64_t height = std::min(BAND, rows - band);
        bool last_band = band + height == rows; // its last row may be short
        if (last_band) return (uint32_t)(row * columns + column + 1);
        return (uint32_t)(band * columns + column * height + (row - band) + 1);
    }

private:
    static constexpr int64_t BAND = 64;
};

static uint32_t street_length(Random &random) {
    double stretch = -log(1 - random.unit());
    uint32_t length = (uint32_t)(30 + 1800 * stretch);
    return random.below(50) == 0 ? length * 6 : length;
}

static vector<Street> streets(const Junctions &junctions, double degree, Random &random) {
    vector<Street> all;
    all.reserve((size_t)(junctions.count * degree / 2) + 16);
    // One street of each junction belongs to a tree over all of them; the other one is there with this chance.
    double chance = degree / 2 - 1;
    auto build = [&](uint32_t a, uint32_t b) {
        uint32_t length = street_length(random);
        if (random.next() & 1) std::swap(a, b);
        all.push_back({a, b, length});
    };
    for (int64_t row = 0; row < junctions.rows; row++) {
        for (int64_t column = 0; column < junctions.columns && junctions.exist(row, column); column++) {
            bool has_upper = row > 0, has_left = column > 0;
            bool tree_up = has_upper && (!has_left || (random.next() & 1));
            bool tree_left = has_left && !tree_up;
            bool up = has_upper && (tree_up || random.unit() < chance);
            bool left = has_left && (tree_left || random.unit() < chance);
            uint32_t here = junctions.number(row, column);
            if (up) build(here, junctions.number(row - 1, column));
            if (left) build(here, junctions.number(row, column - 1));
        }
    }
    return all;
}

// Mixes the members of each piece among themselves.
template <class T> static void shuffle_pieces(vector<T> &all, size_t piece, Random &random) {
    for (size_t start = 0; start < all.size(); start += piece) {
        size_t length = std::min(all.size() - start, piece);
        for (size_t left = length; left > 1; left--) std::swap(all[start + left - 1], all[start + random.below(left)]);
    }
}

static void road(int64_t nodes, double degree, const string &path) {
    Random random;
    Junctions junctions(nodes);
    vector<Street> all = streets(junctions, degree, random);
    shuffle_pieces(all, 4096, random);
    Output out(path);
    out << "c road-like planar graph, generated\n";
    out << "p sp " << nodes << ' ' << all.size() * 2 << '\n';
    for (const Street &s : all) {
        out << "a " << s.from << ' ' << s.to << ' ' << s.length << '\n';
        out << "a " << s.to << ' ' << s.from << ' ' << s.length << '\n';
    }
}

// ---- flows

struct Arc {
    uint32_t tail, head;
    int64_t low, cap, cost, flow;
};

// Moves each arc by a few thousand places at most, so that the order isn't that of the tails.
static void shuffle_nearby(vector<Arc> &arcs, Random &random) {
    for (size_t left = arcs.size(); left > 1; left--) {
        size_t other = left - 1 - random.below(std::min<uint64_t>(left, 5000));
        std::swap(arcs[left - 1], arcs[other]);
    }
}

static void add_distinct_steps(vector<uint32_t> &steps, uint64_t count, uint32_t nodes, Random &random) {
    while (steps.size() < count) {
        uint32_t step = 1 + (uint32_t)random.below(nodes - 1);
        if (std::find(steps.begin(), steps.end(), step) == steps.end()) steps.push_back(step);
    }
}

static void write_cut(const string &path, uint32_t nodes, uint32_t inside) {
    Output out(path);
    out << "p cut " << nodes << ' ' << inside << '\n';
    for (uint32_t v = 1; v <= inside; v++) out << "u " << v << '\n';
}

static void write_max(const string &prefix, uint32_t nodes, const vector<Arc> &arcs, const vector<Arc> &entries,
                      int64_t value) {
    Output instance(prefix + ".max");
    instance << "p max " << nodes << ' ' << arcs.size() << '\n';
    instance << "n 1 s\n";
    instance << "n " << nodes << " t\n";
    for (const Arc &a : arcs) instance << "a " << a.tail << ' ' << a.head << ' ' << a.cap << '\n';
    Output solution(prefix + ".solution");
    solution << "s " << value << '\n';
    for (const Arc &a : entries) solution << "f " << a.tail << ' ' << a.head << ' ' << a.flow << '\n';
}

// The flow runs along the ring 1, 2, .., N; shortcuts carry a few units past a piece of it. No arc that goes back, from
// a node to a lower one, carries anything. The cut is the lower half of the nodes: the arcs that leave it get what
// they carry as their capacity, all others get more.
static void planted_max(uint32_t nodes, uint64_t arc_count, const string &prefix, bool mixed) {
    Random random;
    vector<uint32_t> steps = {1};
    add_distinct_steps(steps, std::max<uint64_t>(2, arc_count / nodes), nodes, random);

    vector<Arc> arcs;
    vector<int64_t> change(nodes + 1, 0); // of what the ring carries, from one node to the next
    for (uint32_t v = 0; v < nodes; v++) {
        for (uint32_t step : steps) {
            uint32_t head = (uint32_t)(((uint64_t)v + step) % nodes);
            arcs.push_back({v + 1, head + 1, 0, 0, 0, 0});
        }
    }
    for (uint32_t v = 0; v + 1 < nodes; v++) {
        for (size_t k = 1; k < steps.size(); k++) {
            bool goes_back = (uint64_t)v + steps[k] >= nodes;
            if (goes_back || random.below(3)) continue;
            int64_t units = random.between(1, 3);
            arcs[v * steps.size() + k].flow = units;
            change[v] -= units;
            change[v + steps[k]] += units;
        }
    }

    int64_t level = 0, least = 0;
    for (uint32_t v = 0; v + 1 < nodes; v++) least = std::min(least, level += change[v]);
    int64_t value = 10 - least; // the ring carries 10 at least
    level = value;
    for (uint32_t v = 0; v + 1 < nodes; v++) arcs[v * steps.size()].flow = level += change[v];

    uint32_t inside = nodes / 2;
    for (Arc &a : arcs) {
        bool leaves = a.tail <= inside && a.head > inside;
        a.cap = leaves ? a.flow : a.flow + random.between(0, 50);
    }
    shuffle_nearby(arcs, random);
    if (mixed) shuffle_pieces(arcs, arcs.size(), random);
    vector<Arc> entries = arcs;
    if (mixed) shuffle_pieces(entries, entries.size(), random);
    write_max(prefix, nodes, arcs, entries, value);
    write_cut(prefix + ".cut", nodes, inside);
}

static void write_min(const string &prefix, uint32_t nodes, const vector<int64_t> &supplies, const vector<Arc> &arcs) {
    Output instance(prefix + ".min");
    instance << "p min " << nodes << ' ' << arcs.size() << '\n';
    for (uint32_t v = 1; v <= nodes; v++) {
        if (supplies[v]) instance << "n " << v << ' ' << supplies[v] << '\n';
    }
    for (const Arc &a : arcs) {
        instance << "a " << a.tail << ' ' << a.head << ' ' << a.low << ' ' << a.cap << ' ' << a.cost << '\n';
    }
    int64_t cost = 0;
    for (const Arc &a : arcs) cost += a.cost * a.flow;
    Output solution(prefix + ".solution");
    solution << "s " << cost << '\n';
    for (const Arc &a : arcs) {
        if (a.flow) solution << "f " << a.tail << ' ' << a.head << ' ' << a.flow << '\n';
    }
}

static void write_potentials(const string &path, const vector<int64_t> &potentials) {
    size_t nodes = potentials.size() - 1;
    size_t named = nodes - std::count(potentials.begin() + 1, potentials.end(), 0);
    Output out(path);
    out << "p pot " << nodes << ' ' << named << '\n';
    for (size_t v = 1; v <= nodes; v++) {
        if (potentials[v]) out << "y " << v << ' ' << potentials[v] << '\n';
    }
}

// The potentials come first. An arc then carries its least and has a reduced cost that isn't negative, or its most and
// one that isn't positive, or anything between and 0. The supplies are what the arcs leave at each node.
static void planted_min(uint32_t nodes, uint64_t arc_count, const string &prefix, bool has_parallels) {
    Random random;
    vector<int64_t> potentials(nodes + 1), supplies(nodes + 1, 0);
    for (uint32_t v = 1; v <= nodes; v++) potentials[v] = random.between(-20000, 20000);
    vector<uint32_t> steps;
    add_distinct_steps(steps, std::max<uint64_t>(1, arc_count / nodes), nodes, random);

    vector<Arc> arcs;
    for (uint32_t tail = 1; tail <= nodes; tail++) {
        for (uint32_t step : steps) {
            uint32_t head = (uint32_t)(((uint64_t)tail - 1 + step) % nodes) + 1;
            int64_t low = random.below(8) ? 0 : random.between(0, 9);
            int64_t cap = low + random.between(0, 1000);
            int64_t flow, reduced_cost = 0;
            uint64_t chance = random.below(8);
            if (chance < 5) {
                flow = low;
                reduced_cost = random.between(0, 5000);
            } else if (chance < 6) {
                flow = cap;
                reduced_cost = -random.between(0, 5000);
            } else {
                flow = random.between(low, cap);
            }
            int64_t cost = reduced_cost + potentials[tail] - potentials[head];
            arcs.push_back({tail, head, low, cap, cost, flow});
            supplies[tail] += flow;
            supplies[head] -= flow;
        }
    }
    shuffle_nearby(arcs, random);
    if (has_parallels) arcs.push_back({arcs[0].tail, arcs[0].head, 0, 0, 0, 0});
    write_min(prefix, nodes, supplies, arcs);
    write_potentials(prefix + ".pot", potentials);
}

int main(int count, char **words) {
    string kind = count > 1 ? words[1] : "";
    if (count != 5) kind = "";
    auto whole = [&](int i) { return strtoll(words[i], nullptr, 10); };
    if (kind == "road") road(whole(2), atof(words[3]), words[4]);
    else if (kind == "max" || kind == "mixed") planted_max(whole(2), whole(3), words[4], kind == "mixed");
    else if (kind == "min" || kind == "parallel") planted_min(whole(2), whole(3), words[4], kind == "parallel");
    else {
        fprintf(stderr, "gen road|max|mixed|min|parallel N NUMBER OUT\n");
        return 2;
    }
    return 0;
}
