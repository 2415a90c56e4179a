// dimacs/graphs.hpp: what dimacs/lemon.hpp and dimacs/boost.hpp share. Include one of these.
//
// What is handed out and thrown has the graph's own nodes and arcs. A call throws, beside what dimacs.hpp lists,
//
//     PastLimitAt   if a number of the instance is past its limit, or a source or a target isn't in the graph;
//     OutOfRangeAt  if a number of a map takes more than 64 bits, or a distance is 2^63 - 1, which arrays don't hold.
//
// Both have the node or the arc, and are a PastLimit and a std::out_of_range.
#ifndef DIMACS_GRAPHS_HPP
#define DIMACS_GRAPHS_HPP

#include "../dimacs.hpp"

#include <limits>

namespace dimacs {

inline namespace DIMACS_SPAN {

// The first test that fails, over a graph of another library.
template <class Node, class Arc>
struct RefusedAt {
    std::string printed;  // as the command prints it, but with the graph's own name of the item: "x arc 17 AboveCap"
    std::string reason;
    std::optional<Node> node;
    std::optional<Arc> arc;

    std::string message() const { return printed; }
};

// The first number of an instance that is past its limit. Nothing was judged.
template <class Node, class Arc>
class PastLimitAt : public PastLimit {
  public:
    PastLimitAt(const Refused &refused, RefusedAt<Node, Arc> at)
        : PastLimit(refused, at.printed), at_(std::make_shared<const RefusedAt<Node, Arc>>(std::move(at))) {}

    PastLimitAt(const PastLimitAt &) = default;
    PastLimitAt &operator=(const PastLimitAt &) = default;

    RefusedAt<Node, Arc> at() const { return *at_; }

  private:
    std::shared_ptr<const RefusedAt<Node, Arc>> at_;
};

// The first number of a map that the arrays of dimacs.hpp don't hold. Nothing was judged.
template <class Node, class Arc>
class OutOfRangeAt : public std::out_of_range {
  public:
    explicit OutOfRangeAt(RefusedAt<Node, Arc> at)
        : std::out_of_range(at.printed), at_(std::make_shared<const RefusedAt<Node, Arc>>(std::move(at))) {}

    OutOfRangeAt(const OutOfRangeAt &) = default;
    OutOfRangeAt &operator=(const OutOfRangeAt &) = default;

    RefusedAt<Node, Arc> at() const { return *at_; }

  private:
    std::shared_ptr<const RefusedAt<Node, Arc>> at_;
};

namespace detail {

// An index of a graph has its arcs as arrays, and for each arc and node, from 0, the library's own and its name.

// A number of nodes. One of more than 32 bits is past its limit too.
inline std::uint32_t node_count(std::size_t count) noexcept {
    return static_cast<std::uint32_t>(std::min<std::size_t>(count, std::numeric_limits<std::uint32_t>::max()));
}

template <class Index>
using RefusedOver = RefusedAt<typename Index::Node, typename Index::Arc>;

template <class Index>
RefusedOver<Index> refused_arc(const Index &index, std::size_t arc, const std::string &reason) {
    return {"x arc " + index.arc_name(arc) + " " + reason, reason, std::nullopt, index.arcs()[arc]};
}

template <class Index>
RefusedOver<Index> refused_node(const Index &index, std::size_t node, const std::string &reason) {
    return {"x node " + index.node_name(node) + " " + reason, reason, index.nodes()[node], std::nullopt};
}

// What a call answers, over the graph: a yes without arcs and nodes is the same.
template <class Index, class It>
It of_graph(const Index &, const It &it) {
    return it;
}

template <class Index>
RefusedOver<Index> of_graph(const Index &index, const Refused &no) {
    if (no.arc && *no.arc - 1 < index.arcs().size()) return refused_arc(index, *no.arc - 1, no.reason);
    if (no.node && *no.node - 1 < index.nodes().size()) return refused_node(index, *no.node - 1, no.reason);
    return {no.printed, no.reason, std::nullopt, std::nullopt};
}

template <class Index>
NotOptimal<typename Index::Flow> of_graph(const Index &index, const NotOptimal<Flows> &no) {
    return {no.printed, index.flow(no.better)};
}

template <class Index>
Feasible<typename Index::Flow> of_graph(const Index &index, const Feasible<Flows> &no) {
    return {index.flow(no.flow)};
}

template <class Index>
CertifiedMax<typename Index::Marked> of_graph(const Index &index, const CertifiedMax<Inside> &yes) {
    return {yes.value, index.marked(yes.inside)};
}

template <class Index>
CertifiedMin<typename Index::Potential> of_graph(const Index &index, const CertifiedMin<Potentials> &yes) {
    return {yes.value, index.potential(yes.potentials)};
}

template <class Index>
CertifiedInfeasible<typename Index::Marked> of_graph(const Index &index, const CertifiedInfeasible<Inside> &yes) {
    return {index.marked(yes.inside)};
}

template <class Index>
Judged of_graph(const Index &, const CertifiedPaths<Predecessors> &) {
    return {};
}

// Throws for a node that the graph doesn't have.
template <class Node, class Arc>
[[noreturn]] void throw_no_node(const Node &node, const std::string &name) {
    RefusedAt<Node, Arc> at{"x node " + name + " NodeRange", "NodeRange", node, std::nullopt};
    throw PastLimitAt<Node, Arc>(refused("x node 0 NodeRange"), std::move(at));
}

// A number of a map in 64 bits, if it fits. Types that aren't integers don't compile.
template <class Number>
std::optional<std::int64_t> narrow(Number number) noexcept {
    static_assert(is_integer<Number>, "whole numbers are judged: the values of the map have to be integers");
    const auto narrowed = static_cast<std::int64_t>(number);
    const bool fits = static_cast<Number>(narrowed) == number && (narrowed < 0) == is_negative(number);
    return fits ? std::optional(narrowed) : std::nullopt;
}

// Refuses the first number of arcs or nodes that a type doesn't hold, if there is one.
template <class Number>
std::optional<Refused> unfit(const std::string &item, Numbers numbers) {
    static_assert(is_integer<Number>, "whole numbers are read: the values of the map have to be integers");
    for (std::size_t k = 0; k < numbers.size(); k++) {
        const auto narrowed = static_cast<Number>(numbers[k]);
        if (narrow(narrowed) != numbers[k]) return refused("x " + item + " " + std::to_string(k + 1) + " NumberRange");
    }
    return std::nullopt;
}

// So many numbers. `read` has the k-th, if it fits in 64 bits, and `refused` makes a refusal of it.
template <class Read, class At>
std::vector<std::int64_t> numbers_of(std::size_t count, const Read &read, const At &refused) {
    std::vector<std::int64_t> numbers;
    numbers.reserve(count);
    for (std::size_t k = 0; k < count; k++) {
        const std::optional<std::int64_t> number = read(k);
        if (!number) throw OutOfRangeAt(refused(k));
        numbers.push_back(*number);
    }
    return numbers;
}

template <class Index, class Read>
std::vector<std::int64_t> by_arc(const Index &index, const Read &read) {
    return numbers_of(index.arcs().size(), read, [&](auto k) { return refused_arc(index, k, "NumberRange"); });
}

template <class Index, class Read>
std::vector<std::int64_t> by_node(const Index &index, const Read &read) {
    return numbers_of(index.nodes().size(), read, [&](auto k) { return refused_node(index, k, "NumberRange"); });
}

// A distance as arrays have it, whose greatest number says that there is none.
template <class Number>
std::optional<std::int64_t> array_distance(Number distance) noexcept {
    const auto it = narrow(distance);
    return it == unreached ? std::nullopt : it;
}

// Makes a call over arrays. What it throws names the graph's own arc or node.
template <class Index, class Call>
auto over(const Index &index, const Call &call) {
    try {
        return call();
    } catch (const PastLimit &it) {
        throw PastLimitAt<typename Index::Node, typename Index::Arc>(it.refused(), of_graph(index, it.refused()));
    }
}

template <class Index, class... Its>
auto answer_of(const Index &index, const Answer<Its...> &answer) {
    using Found = Answer<decltype(of_graph(index, std::declval<const Its &>()))...>;
    return std::visit([&](const auto &it) -> Found { return of_graph(index, it); }, answer.variant());
}

// The same of a call that judges or certifies, whose answer has the graph's own nodes and arcs too.
template <class Index, class Call>
auto answer_over(const Index &index, const Call &call) {
    return answer_of(index, over(index, call));
}

// The arcs of a graph, by the numbers of their ends.
struct Arcs {
    std::uint32_t nodes;
    Nodes tails, heads;
};

template <class Index>
Arcs arcs_of(const Index &index) {
    return {index.size(), index.tails(), index.heads()};
}

template <class Index>
Graph graph_over(const Index &index, Numbers weights) {
    return {index.size(), index.tails(), index.heads(), weights};
}

template <class Index>
MaxInstance max_over(const Index &index, std::uint32_t source, std::uint32_t sink, Numbers caps) {
    return {index.size(), source, sink, index.tails(), index.heads(), caps};
}

}  // namespace detail

}  // namespace DIMACS_SPAN

}  // namespace dimacs

#endif
