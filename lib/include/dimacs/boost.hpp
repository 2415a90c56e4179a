// dimacs/boost.hpp: flows and distances over the graphs and property maps of Boost, read and certified.
//
//     const auto edges = dimacs::boost::read_max(text, graph, capacity, reverse, source, target);
//     if (!edges) std::cerr << edges.message();    // x instance 4 2 NumberRange
//     boost::push_relabel_max_flow(graph, source, target, capacity, residual, reverse, index);
//     auto answer = dimacs::boost::certify_max(graph, source, target, capacity, residual);
//     if (!answer) std::cerr << answer.message();  // x arc (0,3) AboveCap
//
// For graphs with edges(). The values of property maps have to be integers, of any type; dimacs/graphs.hpp has what is
// thrown if one doesn't fit in 64 bits. What is handed out doesn't refer to the graph. Messages have vertices that are
// numbers, and of others the place in the order of vertices(), from 0.
#ifndef DIMACS_BOOST_HPP
#define DIMACS_BOOST_HPP

#include "graphs.hpp"

#include <boost/graph/graph_traits.hpp>
#include <boost/property_map/property_map.hpp>
#include <boost/range/iterator_range.hpp>

#include <map>

namespace dimacs {

inline namespace DIMACS_SPAN {

namespace boost {

namespace detail {

// The number of each vertex, by the vertex itself if it is a number, else by a map.
template <class Vertex>
class Numbering {
  public:
    void add(const Vertex &vertex, std::uint32_t number) {
        if constexpr (std::is_integral_v<Vertex>) {
            if (static_cast<std::size_t>(vertex) >= numbers_.size())
                numbers_.resize(static_cast<std::size_t>(vertex) + 1);
            numbers_[static_cast<std::size_t>(vertex)] = number;
        } else {
            numbers_[vertex] = number;
        }
    }

    // From 1; 0 for a vertex that the graph doesn't have.
    std::uint32_t operator[](const Vertex &vertex) const {
        if constexpr (std::is_integral_v<Vertex>) {
            const auto place = static_cast<std::size_t>(vertex);
            return place < numbers_.size() ? numbers_[place] : 0;
        } else {
            const auto it = numbers_.find(vertex);
            return it != numbers_.end() ? it->second : 0;
        }
    }

  private:
    std::conditional_t<std::is_integral_v<Vertex>, std::vector<std::uint32_t>, std::map<Vertex, std::uint32_t>>
        numbers_;
};

// The value of a property map, which may be a pointer.
template <class Values, class Key>
auto value_at(const Values &map, const Key &key) {
    using ::boost::get;
    return get(map, key);
}

// The greatest number of a type, by which Boost says that a vertex isn't reached.
template <class Number>
constexpr Number most() noexcept {
    static_assert(dimacs::detail::is_integer<Number>, "whole numbers are judged: distances have to be integers");
    constexpr auto bits = sizeof(Number) * 8 - (dimacs::detail::is_signed<Number> ? 1 : 0);
    return static_cast<Number>(~dimacs::detail::UInt128(0) >> (128 - bits));
}

}  // namespace detail

// Numbers by vertex, that Boost reads as a property map.
template <class Vertex, class Number>
class VertexMap {
  public:
    using key_type = Vertex;
    using value_type = Number;
    using reference = Number;
    using category = ::boost::readable_property_map_tag;

    VertexMap(std::shared_ptr<const detail::Numbering<Vertex>> numbering, std::vector<Number> numbers)
        : numbering_(std::move(numbering)), numbers_(std::move(numbers)) {}

    // Throws std::out_of_range for a vertex that the graph didn't have.
    Number operator[](const Vertex &vertex) const { return numbers_.at(std::size_t((*numbering_)[vertex]) - 1); }
    friend Number get(const VertexMap &map, const Vertex &vertex) { return map[vertex]; }

  private:
    std::shared_ptr<const detail::Numbering<Vertex>> numbering_;
    std::vector<Number> numbers_;
};

// The edges and vertices of a graph, in the order in which Boost goes over them. An edge of an undirected graph is an
// arc from its source to its target, and then one back.
template <class G>
class Index {
  public:
    using Node = typename ::boost::graph_traits<G>::vertex_descriptor;
    using Arc = typename ::boost::graph_traits<G>::edge_descriptor;
    using Marked = VertexMap<Node, bool>;
    using Potential = VertexMap<Node, std::int64_t>;
    using Flow = std::vector<std::pair<Arc, std::int64_t>>;

    explicit Index(const G &graph) : Index(graph, ::boost::make_iterator_range(edges(graph))) {}

    // The same of these edges alone.
    template <class Edges>
    Index(const G &graph, const Edges &some_edges) {
        auto numbering = std::make_shared<detail::Numbering<Node>>();
        for (auto range = vertices(graph); range.first != range.second; ++range.first) {
            nodes_.push_back(*range.first);
            numbering->add(*range.first, size());
        }
        numbering_ = std::move(numbering);
        for (const Arc &arc : some_edges) {
            add(arc, source(arc, graph), target(arc, graph));
            if (!is_directed(graph)) add(arc, target(arc, graph), source(arc, graph));
        }
    }

    std::uint32_t size() const { return dimacs::detail::node_count(nodes_.size()); }
    const std::vector<Node> &nodes() const { return nodes_; }
    const std::vector<Arc> &arcs() const { return arcs_; }
    const std::vector<std::uint32_t> &tails() const { return tails_; }
    const std::vector<std::uint32_t> &heads() const { return heads_; }
    std::string node_name(std::size_t node) const { return name(nodes_[node]); }
    std::string arc_name(std::size_t arc) const {
        return "(" + node_name(tails_[arc] - 1) + "," + node_name(heads_[arc] - 1) + ")";
    }

    // The number of a vertex, from 1. Throws PastLimitAt if the graph doesn't have it.
    std::uint32_t number(const Node &node) const {
        const std::uint32_t number = (*numbering_)[node];
        if (number == 0) dimacs::detail::throw_no_node<Node, Arc>(node, name(node));
        return number;
    }

    // The numbers of a property map, in the order of the arcs.
    template <class Values>
    std::vector<std::int64_t> by_arc(const Values &map) const {
        const auto read = [&](auto k) { return dimacs::detail::narrow(detail::value_at(map, arcs_[k])); };
        return dimacs::detail::by_arc(*this, read);
    }

    Flow flow(const std::vector<std::int64_t> &numbers) const {
        Flow flow;
        for (std::size_t k = 0; k < arcs_.size(); k++) flow.emplace_back(arcs_[k], numbers[k]);
        return flow;
    }

    Marked marked(const std::vector<std::uint8_t> &marks) const { return {numbering_, {marks.begin(), marks.end()}}; }
    Potential potential(const std::vector<std::int64_t> &found) const { return {numbering_, found}; }

  private:
    void add(const Arc &arc, const Node &tail, const Node &head) {
        arcs_.push_back(arc);
        tails_.push_back(number(tail));
        heads_.push_back(number(head));
    }

    std::string name(const Node &node) const {
        if constexpr (std::is_integral_v<Node>) {
            return dimacs::detail::decimal(node);
        } else {
            const std::uint32_t number = (*numbering_)[node];
            return number == 0 ? "?" : std::to_string(number - 1);
        }
    }

    std::shared_ptr<const detail::Numbering<Node>> numbering_;
    std::vector<std::uint32_t> tails_, heads_;
    std::vector<Node> nodes_;
    std::vector<Arc> arcs_;
};

namespace detail {

using Wide = dimacs::detail::Int128;

// What each edge carries: its capacity minus its residual capacity, or nothing if that is below 0, as on the reverse of
// an edge with flow. The residual capacities of an edge and its reverse aren't compared: some of Boost's searches don't
// update that of the reverse.
template <class G, class Residual>
std::vector<std::int64_t> flows_of(const Index<G> &index, const std::vector<std::int64_t> &caps,
                                   const Residual &residual) {
    const auto left = index.by_arc(residual);
    const auto read = [&](auto k) { return dimacs::detail::narrow(std::max<Wide>(0, Wide(caps[k]) - left[k])); };
    return dimacs::detail::by_arc(index, read);
}

// The distances of a map, whose greatest number says that there is none.
template <class G, class Distance>
std::vector<std::int64_t> distances_of(const Index<G> &index, const Distance &distance) {
    return dimacs::detail::by_node(index, [&](auto k) {
        const auto found = value_at(distance, index.nodes()[k]);
        if (found == most<std::decay_t<decltype(found)>>()) return std::optional(unreached);
        return dimacs::detail::array_distance(found);
    });
}

// The arcs of an instance of least cost in which all flows have one value: without supplies, and with arcs on which the
// value returns, whose bounds leave no choice.
struct FixedValue {
    template <class G>
    FixedValue(const Index<G> &index, std::vector<std::int64_t> all_caps, std::vector<std::int64_t> all_costs,
               std::vector<std::int64_t> all_flows)
        : nodes(index.size()),
          tails(index.tails()),
          heads(index.heads()),
          lows(all_flows.size()),
          caps(std::move(all_caps)),
          costs(std::move(all_costs)),
          flows(std::move(all_flows)),
          supplies(nodes) {}

    // Lets all that flows out of a node return to it from another one, on as many arcs as it takes.
    void return_to(std::uint32_t from, std::uint32_t to) {
        Wide value = 0;
        for (std::size_t k = 0; k < flows.size(); k++) {
            value += tails[k] == from ? Wide(flows[k]) : 0;
            value -= heads[k] == from ? Wide(flows[k]) : 0;
        }
        for (; value > 0; value -= flows.back()) add(to, from, value);
        for (; value < 0; value += flows.back()) add(from, to, -value);
    }

    MinInstance instance() const { return {nodes, tails, heads, lows, caps, costs, supplies}; }

    std::uint32_t nodes;
    std::vector<std::uint32_t> tails, heads;
    std::vector<std::int64_t> lows, caps, costs, flows, supplies;

  private:
    void add(std::uint32_t tail, std::uint32_t head, Wide most) {
        const Wide amount = std::min<Wide>(most, std::numeric_limits<std::int64_t>::max());
        tails.push_back(tail);
        heads.push_back(head);
        for (auto *numbers : {&lows, &caps, &flows}) numbers->push_back(static_cast<std::int64_t>(amount));
        costs.push_back(0);
    }
};

}  // namespace detail

// Decides whether the flow that push_relabel_max_flow or another search left in `residual` is maximum. The maps are
// those of the search: an edge carries its capacity minus its residual capacity, or nothing if that is below 0. A yes
// has a cut. NotOptimal has a better flow, by edge. RefusedAt has an edge that carries more than its capacity, or a
// vertex out of balance. An edge that would carry more than 64 bits is out of range.
template <class G, class Capacity, class Residual>
auto certify_max(const G &graph, const typename Index<G>::Node &source_vertex,
                 const typename Index<G>::Node &target_vertex, const Capacity &capacity, const Residual &residual) {
    const Index<G> index(graph);
    const auto caps = index.by_arc(capacity), flows = detail::flows_of(index, caps, residual);
    const auto from = index.number(source_vertex), to = index.number(target_vertex);
    const auto instance = dimacs::detail::max_over(index, from, to, caps);
    return dimacs::detail::answer_over(index, [&] { return dimacs::certify_max(instance, flows); });
}

// Decides whether that flow costs least of all flows of its value, as successive_shortest_path_nonnegative_weights and
// cycle_canceling make one. A yes has potentials: the reduced cost of an edge is its weight, minus the potential of its
// source, plus that of its target. The noes are those of certify_max.
template <class G, class Capacity, class Residual, class Weight>
auto certify_min(const G &graph, const typename Index<G>::Node &source_vertex,
                 const typename Index<G>::Node &target_vertex, const Capacity &capacity, const Residual &residual,
                 const Weight &weight) {
    const Index<G> index(graph);
    const auto caps = index.by_arc(capacity), flows = detail::flows_of(index, caps, residual);
    detail::FixedValue fixed(index, caps, index.by_arc(weight), flows);
    fixed.return_to(index.number(source_vertex), index.number(target_vertex));
    return dimacs::detail::answer_over(index, [&] { return dimacs::certify_min(fixed.instance(), fixed.flows); });
}

// Decides whether distances, as dijkstra_shortest_paths and bellman_ford_shortest_paths leave them in a map, are right.
// The greatest number of its type is the distance of a vertex that isn't reached. In a type of more than 64 bits, or
// without a sign, 2^63 - 1 is a distance, and out of range. RefusedAt has the edge or the vertex at which they are
// wrong.
template <class G, class Weight, class Distance>
auto certify_paths(const G &graph, const typename Index<G>::Node &source_vertex, const Weight &weight,
                   const Distance &distance) {
    const Index<G> index(graph);
    const auto distances = detail::distances_of(index, distance), weights = index.by_arc(weight);
    const auto source = index.number(source_vertex);
    const auto arcs = dimacs::detail::graph_over(index, weights);
    return dimacs::detail::answer_over(index, [&] { return dimacs::certify_paths(arcs, source, distances); });
}

// ---- Texts as graphs, and back ----

namespace detail {

// Vertices that are added to a graph, and edges between them, by their numbers from 1.
template <class G>
class Made {
  public:
    using Node = typename Index<G>::Node;
    using Arc = typename Index<G>::Arc;

    Made(G &graph, std::uint32_t count) : graph_(&graph) {
        for (std::uint32_t k = 0; k < count; k++) vertices_.push_back(add_vertex(graph));
    }

    Node vertex(std::uint32_t number) const { return vertices_[number - 1]; }
    Arc edge(std::uint32_t tail, std::uint32_t head) const {
        const auto [edge, is_added] = add_edge(vertex(tail), vertex(head), *graph_);
        if (!is_added) throw std::invalid_argument("the graph doesn't keep several edges with the same ends");
        return edge;
    }

  private:
    G *graph_;
    std::vector<Node> vertices_;
};

template <class Values>
using value_of = typename ::boost::property_traits<Values>::value_type;

}  // namespace detail

// Reads a maximum flow instance into a graph without vertices, and adds an edge back of capacity 0 for each arc, as
// read_dimacs_max_flow does. A yes has the edges of the arcs, in the text's order. Refused for the fault of the text,
// or for the first number that doesn't fit the values of the map, by `x arc 3 NumberRange`: its third arc. Then all is
// as it was; after std::bad_alloc the graph may have a part. Throws std::invalid_argument if the graph doesn't keep
// several edges with the same ends, and the text has such arcs.
template <class G, class Capacity, class Reverse>
Answer<std::vector<typename Index<G>::Arc>, Refused> read_max(std::string_view text, G &graph, Capacity capacity,
                                                              Reverse reverse, typename Index<G>::Node &source_vertex,
                                                              typename Index<G>::Node &target_vertex) {
    const auto it = dimacs::read_max(text);
    if (!it) return *it.template get_if<Refused>();
    if (auto no = dimacs::detail::unfit<detail::value_of<Capacity>>("arc", it->caps)) return *no;
    const detail::Made<G> made(graph, it->nodes);
    std::vector<typename Index<G>::Arc> arcs;
    for (std::size_t k = 0; k < it->caps.size(); k++) {
        const auto arc = made.edge(it->tails[k], it->heads[k]), back = made.edge(it->heads[k], it->tails[k]);
        put(capacity, arc, detail::value_of<Capacity>(it->caps[k]));
        put(capacity, back, 0);
        put(reverse, arc, back);
        put(reverse, back, arc);
        arcs.push_back(arc);
    }
    source_vertex = made.vertex(it->source);
    target_vertex = made.vertex(it->sink);
    return {std::move(arcs)};
}

// The same for a graph with weights, without edges back.
template <class G, class Weight>
Answer<std::vector<typename Index<G>::Arc>, Refused> read_graph(std::string_view text, G &graph, Weight weight) {
    const auto it = dimacs::read_graph(text);
    if (!it) return *it.template get_if<Refused>();
    if (auto no = dimacs::detail::unfit<detail::value_of<Weight>>("arc", it->weights)) return *no;
    const detail::Made<G> made(graph, it->nodes);
    std::vector<typename Index<G>::Arc> arcs;
    for (std::size_t k = 0; k < it->weights.size(); k++) {
        arcs.push_back(made.edge(it->tails[k], it->heads[k]));
        put(weight, arcs.back(), detail::value_of<Weight>(it->weights[k]));
    }
    return {std::move(arcs)};
}

// The text of an instance that has these edges as its arcs, such as those that read_max gave, and all vertices.
template <class G, class Edges, class Capacity>
std::string write_max(const G &graph, const Edges &arcs, const typename Index<G>::Node &source_vertex,
                      const typename Index<G>::Node &target_vertex, const Capacity &capacity) {
    const Index<G> index(graph, arcs);
    const auto caps = index.by_arc(capacity);
    const auto from = index.number(source_vertex), to = index.number(target_vertex);
    return dimacs::detail::over(index,
                                [&] { return dimacs::write_max(dimacs::detail::max_over(index, from, to, caps)); });
}

// The same for a graph with weights.
template <class G, class Edges, class Weight>
std::string write_graph(const G &graph, const Edges &arcs, const Weight &weight) {
    const Index<G> index(graph, arcs);
    const auto weights = index.by_arc(weight);
    return dimacs::detail::over(index, [&] { return dimacs::write_graph(dimacs::detail::graph_over(index, weights)); });
}

// The text of a solution with this value over such an instance: what each edge carries by certify_max.
template <class G, class Edges, class Capacity, class Residual>
std::string write_solution(const G &graph, const Edges &arcs, std::int64_t value, const Capacity &capacity,
                           const Residual &residual) {
    const Index<G> index(graph, arcs);
    const auto flows = detail::flows_of(index, index.by_arc(capacity), residual);
    return dimacs::detail::over(index,
                                [&] { return dimacs::write_solution(value, dimacs::detail::arcs_of(index), flows); });
}

// The text of the distances from a vertex, in a map as that of certify_paths. Refused if that of the vertex isn't 0.
template <class G, class Distance>
Answer<std::string, Refused> write_distances(const G &graph, const typename Index<G>::Node &source_vertex,
                                             const Distance &distance) {
    const Index<G> index(graph);
    const auto distances = detail::distances_of(index, distance);
    const auto from = index.number(source_vertex);
    return dimacs::detail::over(index, [&] { return dimacs::write_distances(from, distances); });
}

}  // namespace boost

}  // namespace DIMACS_SPAN

}  // namespace dimacs

#endif
