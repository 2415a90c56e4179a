// dimacs/lemon.hpp: flows, cuts, potentials and distances over the graphs and maps of LEMON, read, judged and
// certified.
//
//     const auto arcs = dimacs::lemon::read_max(text, graph, capacity, source, target);
//     if (!arcs) std::cerr << arcs.message();      // x instance 4 2 NumberRange
//     lemon::Preflow<Graph, Map> preflow(graph, capacity, source, target);
//     preflow.run();
//     auto answer = dimacs::lemon::certify_max(graph, capacity, source, target, preflow.flowMap());
//     if (!answer) std::cerr << answer.message();  // x arc 17 AboveCap: the arc has LEMON's ID 17
//
// Flows, bounds, costs and lengths are maps by arc, supplies and potentials maps by node, of any type that LEMON reads.
// Their values have to be integers, of any type; dimacs/graphs.hpp has what is thrown if one doesn't fit in 64 bits. An
// edge of an undirected graph is two arcs, as in LEMON. What is handed out are maps too, which refer to the graph.
#ifndef DIMACS_LEMON_HPP
#define DIMACS_LEMON_HPP

#include "graphs.hpp"

#include <lemon/core.h>

namespace dimacs {

inline namespace DIMACS_SPAN {

namespace lemon {

// Numbers by node or by arc, by the graph's IDs, that LEMON reads as a map.
template <class Graph, class Item, class Number>
class Map {
  public:
    using Key = Item;
    using Value = Number;

    explicit Map(const Graph &graph, std::size_t size) : graph_(&graph), numbers_(size) {}

    // Throws std::out_of_range for INVALID.
    Value operator[](const Key &item) const { return numbers_.at(static_cast<std::size_t>(graph_->id(item))); }
    void set(const Key &item, Value number) { numbers_.at(static_cast<std::size_t>(graph_->id(item))) = number; }

  private:
    const Graph *graph_;
    std::vector<Number> numbers_;
};

// The arcs and nodes of a graph, by their IDs. LEMON's INVALID may have to be linked, so it isn't named here.
template <class G>
class Index {
  public:
    using Node = typename G::Node;
    using Arc = typename G::Arc;
    using Marked = Map<G, Node, bool>;
    using Potential = Map<G, Node, std::int64_t>;
    using Flow = Map<G, Arc, std::int64_t>;

    explicit Index(const G &graph) : graph_(&graph), numbers_(static_cast<std::size_t>(graph.maxNodeId() + 1)) {
        add_all(nodes_);
        for (std::size_t k = 0; k < nodes_.size(); k++) {
            numbers_[static_cast<std::size_t>(graph.id(nodes_[k]))] = static_cast<std::uint32_t>(k + 1);
        }
        add_all(arcs_);
        for (const Arc &arc : arcs_) {
            tails_.push_back(number(graph.source(arc)));
            heads_.push_back(number(graph.target(arc)));
        }
    }

    std::uint32_t size() const { return detail::node_count(nodes_.size()); }
    const std::vector<Node> &nodes() const { return nodes_; }
    const std::vector<Arc> &arcs() const { return arcs_; }
    const std::vector<std::uint32_t> &tails() const { return tails_; }
    const std::vector<std::uint32_t> &heads() const { return heads_; }
    std::string node_name(std::size_t node) const { return std::to_string(graph_->id(nodes_[node])); }
    std::string arc_name(std::size_t arc) const { return std::to_string(graph_->id(arcs_[arc])); }

    // The number of a node, from 1. Throws PastLimitAt if the graph doesn't have it.
    std::uint32_t number(const Node &node) const {
        const auto id = graph_->id(node);
        const auto place = static_cast<std::size_t>(id);
        const std::uint32_t number = id < 0 || place >= numbers_.size() ? 0 : numbers_[place];
        if (number == 0) detail::throw_no_node<Node, Arc>(node, std::to_string(id));
        return number;
    }

    // The numbers of a map, in the order of the arcs or the nodes.
    template <class Values>
    std::vector<std::int64_t> by_arc(const Values &map) const {
        return detail::by_arc(*this, [&](auto k) { return detail::narrow(map[arcs_[k]]); });
    }
    template <class Values>
    std::vector<std::int64_t> by_node(const Values &map) const {
        return detail::by_node(*this, [&](auto k) { return detail::narrow(map[nodes_[k]]); });
    }

    // The distances that a search found.
    template <class Search>
    std::vector<std::int64_t> distances(const Search &search) const {
        return detail::by_node(*this, [&](auto k) {
            const auto &node = nodes_[k];
            if (!search.reached(node)) return std::optional(unreached);
            return detail::array_distance(search.dist(node));
        });
    }

    // A byte for each node, from a map of truth values.
    template <class Values>
    std::vector<std::uint8_t> marks(const Values &map) const {
        std::vector<std::uint8_t> marks;
        for (const Node &it : nodes_) marks.push_back(map[it] ? 1 : 0);
        return marks;
    }

    // LEMON adds the potential of the tail to a cost; here it is subtracted. All potentials may be moved by one number.
    static std::vector<std::int64_t> turned(std::vector<std::int64_t> potentials) {
        const auto least = std::numeric_limits<std::int64_t>::min();
        const bool has_least = std::find(potentials.begin(), potentials.end(), least) != potentials.end();
        for (std::int64_t &it : potentials) it = has_least ? -1 - it : -it;
        return potentials;
    }

    Flow flow(const std::vector<std::int64_t> &numbers) const {
        Flow map(*graph_, static_cast<std::size_t>(graph_->maxArcId() + 1));
        for (std::size_t k = 0; k < arcs_.size(); k++) map.set(arcs_[k], numbers[k]);
        return map;
    }

    Marked marked(const std::vector<std::uint8_t> &marks) const {
        Marked map(*graph_, numbers_.size());
        for (std::size_t k = 0; k < nodes_.size(); k++) map.set(nodes_[k], marks[k] != 0);
        return map;
    }

    Potential potential(const std::vector<std::int64_t> &found) const {
        const auto numbers = turned(found);
        Potential map(*graph_, numbers_.size());
        for (std::size_t k = 0; k < nodes_.size(); k++) map.set(nodes_[k], numbers[k]);
        return map;
    }

  private:
    // LEMON goes over most graphs from the last ID to the first.
    template <class Item>
    void add_all(std::vector<Item> &items) {
        Item item;
        for (graph_->first(item); item != ::lemon::Invalid(); graph_->next(item)) items.push_back(item);
        std::reverse(items.begin(), items.end());
        const auto is_before = [this](const Item &it, const Item &other) { return graph_->id(it) < graph_->id(other); };
        if (!std::is_sorted(items.begin(), items.end(), is_before)) std::sort(items.begin(), items.end(), is_before);
    }

    const G *graph_;
    std::vector<std::uint32_t> numbers_, tails_, heads_;
    std::vector<Node> nodes_;
    std::vector<Arc> arcs_;
};

// A minimum cost flow instance over the arcs of a graph.
template <class G>
struct IndexedMin {
    template <class Lower, class Upper, class Cost, class Supply>
    IndexedMin(const G &graph, const Lower &lower, const Upper &upper, const Cost &cost, const Supply &supply)
        : index(graph),
          lows(index.by_arc(lower)),
          caps(index.by_arc(upper)),
          costs(index.by_arc(cost)),
          supplies(index.by_node(supply)) {}

    MinInstance instance() const { return {index.size(), index.tails(), index.heads(), lows, caps, costs, supplies}; }

    Index<G> index;
    std::vector<std::int64_t> lows, caps, costs, supplies;
};

// Decides whether a flow, for example Preflow's flowMap(), is maximum. A yes has a cut, as minCutMap fills one in.
// NotOptimal has a better flow. RefusedAt has the arc that carries too much or less than 0, or the node out of balance.
template <class G, class Capacity, class Flow>
auto certify_max(const G &graph, const Capacity &capacity, typename G::Node source, typename G::Node target,
                 const Flow &flow) {
    const Index<G> index(graph);
    const auto caps = index.by_arc(capacity), flows = index.by_arc(flow);
    const auto instance = detail::max_over(index, index.number(source), index.number(target), caps);
    return detail::answer_over(index, [&] { return dimacs::certify_max(instance, flows); });
}

// Judges that a flow is maximum, by a cut: a map by node that is true on the source's side.
template <class G, class Capacity, class Flow, class Cut>
auto judge_max(const G &graph, const Capacity &capacity, typename G::Node source, typename G::Node target,
               const Flow &flow, const Cut &cut) {
    const Index<G> index(graph);
    const auto caps = index.by_arc(capacity), flows = index.by_arc(flow);
    const auto instance = detail::max_over(index, index.number(source), index.number(target), caps);
    return detail::answer_over(index, [&] { return dimacs::judge_max(instance, flows, index.marks(cut)); });
}

// Decides whether a flow, as NetworkSimplex' flowMap fills one in, costs least. A yes has potentials, as its
// potentialMap fills them in. NotOptimal has a cheaper flow. RefusedAt as in certify_max. A node's outflow minus its
// inflow has to be its supply, so the supplies sum to 0.
template <class G, class Lower, class Upper, class Cost, class Supply, class Flow>
auto certify_min(const G &graph, const Lower &lower, const Upper &upper, const Cost &cost, const Supply &supply,
                 const Flow &flow) {
    const IndexedMin<G> arrays(graph, lower, upper, cost, supply);
    const auto flows = arrays.index.by_arc(flow);
    return detail::answer_over(arrays.index, [&] { return dimacs::certify_min(arrays.instance(), flows); });
}

// Decides whether no flow is feasible, as after INFEASIBLE of NetworkSimplex. A yes has a map that is true in a set of
// nodes whose supply can't be met. Feasible has a feasible flow.
template <class G, class Lower, class Upper, class Supply>
auto certify_infeasible(const G &graph, const Lower &lower, const Upper &upper, const Supply &supply) {
    const Index<G> index(graph);
    const auto lows = index.by_arc(lower), caps = index.by_arc(upper);
    const auto supplies = index.by_node(supply);
    const std::vector<std::int64_t> costs(index.arcs().size());
    const MinInstance instance{index.size(), index.tails(), index.heads(), lows, caps, costs, supplies};
    return detail::answer_over(index, [&] { return dimacs::certify_infeasible(instance); });
}

// Judges that a flow costs least, by LEMON's potentials: an arc's reduced cost is its cost, plus the potential of its
// source, minus that of its target.
template <class G, class Lower, class Upper, class Cost, class Supply, class Flow, class Potential>
auto judge_min(const G &graph, const Lower &lower, const Upper &upper, const Cost &cost, const Supply &supply,
               const Flow &flow, const Potential &potential) {
    const IndexedMin<G> arrays(graph, lower, upper, cost, supply);
    const Index<G> &index = arrays.index;
    const auto flows = index.by_arc(flow), potentials = index.turned(index.by_node(potential));
    return detail::answer_over(index, [&] { return dimacs::judge_min(arrays.instance(), flows, potentials); });
}

// Decides whether the distances that a search found, as Dijkstra, BellmanFord or Bfs with the lengths 1, are right:
// reached(v) is whether there is a walk to v, and dist(v) the least length of one. RefusedAt has the arc or the node at
// which they are wrong. A dist(v) of 2^63 - 1 is out of range.
template <class G, class Length, class Search>
auto certify_paths(const G &graph, const Length &length, typename G::Node source, const Search &search) {
    const Index<G> index(graph);
    const auto distances = index.distances(search), weights = index.by_arc(length);
    const auto from = index.number(source);
    const auto arcs = detail::graph_over(index, weights);
    return detail::answer_over(index, [&] { return dimacs::certify_paths(arcs, from, distances); });
}

// ---- Texts as graphs, and back ----

// The nodes and arcs of a graph that is made anew, in the order of a text.
template <class G>
struct Made {
    Made(G &graph, std::uint32_t count, Nodes tails, Nodes heads) {
        graph.clear();
        graph.reserveNode(static_cast<int>(count));
        graph.reserveArc(static_cast<int>(tails.size()));
        nodes.reserve(count);
        arcs.reserve(tails.size());
        for (std::uint32_t k = 0; k < count; k++) nodes.push_back(graph.addNode());
        for (std::size_t k = 0; k < tails.size(); k++) {
            arcs.push_back(graph.addArc(nodes[tails[k] - 1], nodes[heads[k] - 1]));
        }
    }

    // Numbers by node or by arc, set in a map.
    template <class Item, class Values>
    static void set(const std::vector<Item> &items, Numbers numbers, Values &map) {
        for (std::size_t k = 0; k < items.size(); k++) map.set(items[k], typename Values::Value(numbers[k]));
    }

    std::vector<typename G::Node> nodes;
    std::vector<typename G::Arc> arcs;
};

// Reads a maximum flow instance into a graph and its map, in place of what they had, as readDimacsMax does. Nodes and
// arcs have the order of their IDs, which begin with 0. A yes has the arcs. Refused for the fault of the text, or for
// the first number that doesn't fit the values of the map, by `x arc 3 NumberRange`: its third arc. Then all is as it
// was; after std::bad_alloc the graph may have a part.
template <class G, class Capacity>
Answer<std::vector<typename G::Arc>, Refused> read_max(std::string_view text, G &graph, Capacity &capacity,
                                                       typename G::Node &source, typename G::Node &target) {
    const auto it = dimacs::read_max(text);
    if (!it) return *it.template get_if<Refused>();
    if (auto no = detail::unfit<typename Capacity::Value>("arc", it->caps)) return *no;
    Made<G> made(graph, it->nodes, it->tails, it->heads);
    made.set(made.arcs, it->caps, capacity);
    source = made.nodes[it->source - 1];
    target = made.nodes[it->sink - 1];
    return std::move(made.arcs);
}

// The same for a minimum cost flow instance, as readDimacsMin.
template <class G, class Lower, class Upper, class Cost, class Supply>
Answer<std::vector<typename G::Arc>, Refused> read_min(std::string_view text, G &graph, Lower &lower, Upper &upper,
                                                       Cost &cost, Supply &supply) {
    const auto it = dimacs::read_min(text);
    if (!it) return *it.template get_if<Refused>();
    if (auto no = detail::unfit<typename Lower::Value>("arc", it->lows)) return *no;
    if (auto no = detail::unfit<typename Upper::Value>("arc", it->caps)) return *no;
    if (auto no = detail::unfit<typename Cost::Value>("arc", it->costs)) return *no;
    if (auto no = detail::unfit<typename Supply::Value>("node", it->supplies)) return *no;
    Made<G> made(graph, it->nodes, it->tails, it->heads);
    made.set(made.arcs, it->lows, lower);
    made.set(made.arcs, it->caps, upper);
    made.set(made.arcs, it->costs, cost);
    made.set(made.nodes, it->supplies, supply);
    return std::move(made.arcs);
}

// The same for a graph with lengths, as readDimacsSp.
template <class G, class Length>
Answer<std::vector<typename G::Arc>, Refused> read_graph(std::string_view text, G &graph, Length &length) {
    const auto it = dimacs::read_graph(text);
    if (!it) return *it.template get_if<Refused>();
    if (auto no = detail::unfit<typename Length::Value>("arc", it->weights)) return *no;
    Made<G> made(graph, it->nodes, it->tails, it->heads);
    made.set(made.arcs, it->weights, length);
    return std::move(made.arcs);
}

// Reads a solution over the arcs of a graph, in the order of their IDs. A yes has the claimed value, and a map of
// flows. Refused as dimacs::read_solution.
template <class G>
Answer<Solution<typename Index<G>::Flow>, Refused> read_solution(std::string_view text, const G &graph) {
    const Index<G> index(graph);
    const auto it = detail::over(index, [&] { return dimacs::read_solution(text, detail::arcs_of(index)); });
    if (!it) return *it.template get_if<Refused>();
    return Solution<typename Index<G>::Flow>{it->value, index.flow(it->flows)};
}

// The text of an instance. Its nodes and arcs have the order of their IDs, as in all texts that are written here.
template <class G, class Capacity>
std::string write_max(const G &graph, const Capacity &capacity, typename G::Node source, typename G::Node target) {
    const Index<G> index(graph);
    const auto caps = index.by_arc(capacity);
    const auto instance = detail::max_over(index, index.number(source), index.number(target), caps);
    return detail::over(index, [&] { return dimacs::write_max(instance); });
}

template <class G, class Lower, class Upper, class Cost, class Supply>
std::string write_min(const G &graph, const Lower &lower, const Upper &upper, const Cost &cost, const Supply &supply) {
    const IndexedMin<G> arrays(graph, lower, upper, cost, supply);
    return detail::over(arrays.index, [&] { return dimacs::write_min(arrays.instance()); });
}

template <class G, class Length>
std::string write_graph(const G &graph, const Length &length) {
    const Index<G> index(graph);
    const auto weights = index.by_arc(length);
    return detail::over(index, [&] { return dimacs::write_graph(detail::graph_over(index, weights)); });
}

// The text of a solution with this value and an entry for each arc.
template <class G, class Flow>
std::string write_solution(const G &graph, std::int64_t value, const Flow &flow) {
    const Index<G> index(graph);
    const auto flows = index.by_arc(flow);
    return detail::over(index, [&] { return dimacs::write_solution(value, detail::arcs_of(index), flows); });
}

// The text of a cut or a set: a map by node that is true inside.
template <class G, class Cut>
std::string write_cut(const G &graph, const Cut &cut) {
    return dimacs::write_cut(Index<G>(graph).marks(cut));
}

// The text of LEMON's potentials, with the sign that texts have.
template <class G, class Potential>
std::string write_potentials(const G &graph, const Potential &potential) {
    const Index<G> index(graph);
    return dimacs::write_potentials(index.turned(index.by_node(potential)));
}

// The text of the distances from a source that a search found, with reached(v) and dist(v) as in certify_paths. Refused
// if that of the source isn't 0.
template <class G, class Search>
Answer<std::string, Refused> write_distances(const G &graph, typename G::Node source, const Search &search) {
    const Index<G> index(graph);
    const auto distances = index.distances(search);
    const auto from = index.number(source);
    return detail::over(index, [&] { return dimacs::write_distances(from, distances); });
}

}  // namespace lemon

}  // namespace DIMACS_SPAN

}  // namespace dimacs

#endif
