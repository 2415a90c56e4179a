// dimacs.hpp: the calls of dimacs.h for C++17 and later: spans and string views in, values out.
//
// Each call returns an Answer: a yes, or one of the noes that its type lists. A text is read, solved by any solver, and
// its flow certified by
//
//     const auto network = dimacs::read_max(text).value();
//     const std::vector<std::int64_t> flows = your_solver(network);
//     if (auto answer = dimacs::certify_max(network, flows)) {
//         use(answer->inside);                                              // a yes: the cut that shows it
//     } else if (auto *no = answer.get_if<dimacs::NotOptimal<dimacs::Flows>>()) {
//         use(no->better);                                                  // a better flow
//     } else {
//         std::cerr << answer.message();                                    // x arc 3 AboveCap
//     }
//
// If the claim stays undecided, a call throws: std::bad_alloc if it is out of memory, WrongLength if an array has a
// wrong length, PastLimit, which has the arc or the node, if a number of the instance is past its limit, Unread if a text
// of a command can't be read, and UnknownAnswer if the library is of another version. All calls have the strong
// guarantee, keep nothing, and may run in several threads at once.
//
// The graphs of LEMON and Boost are judged by dimacs/lemon.hpp and dimacs/boost.hpp.
//
// The caller answers for the memory of a span, which exists during the call, and for the premises of dimacs.h on threads,
// signals, fork and the stack. Nothing here is proved: it is a layer over calls that are. See docs/LIBRARY.md.
#ifndef DIMACS_HPP
#define DIMACS_HPP

#include "dimacs.h"

#include <algorithm>
#include <charconv>
#include <cstddef>
#include <cstdint>
#include <initializer_list>
#include <iterator>
#include <memory>
#include <new>
#include <optional>
#include <ostream>
#include <stdexcept>
#include <string>
#include <string_view>
#include <tuple>
#include <type_traits>
#include <utility>
#include <variant>
#include <vector>
#if __has_include(<version>)
#include <version>
#endif
#ifdef __cpp_lib_span
#include <span>
#endif

// Parts of a program with std::span and parts without it get different names, and can be linked together.
#ifdef __cpp_lib_span
#define DIMACS_SPAN with_std_span
#else
#define DIMACS_SPAN with_own_span
#endif

namespace dimacs {

inline namespace DIMACS_SPAN {

#ifdef __cpp_lib_span
using std::span;
#else
// The address and number of items: std::span for C++17.
template <class T>
class span {
    template <class Items>
    using item_of = std::remove_pointer_t<decltype(std::data(std::declval<Items &>()))>;

  public:
    constexpr span() noexcept = default;
    constexpr span(T *at, std::size_t size) noexcept : at_(at), size_(size) {}

    // From a vector, an array, or anything else with contiguous items. It has to outlive the span.
    template <class Items, class = std::enable_if_t<std::is_convertible_v<item_of<Items> (*)[], T (*)[]>>>
    constexpr span(Items &&items) noexcept : at_(std::data(items)), size_(std::size(items)) {}

    constexpr T *data() const noexcept { return at_; }
    constexpr std::size_t size() const noexcept { return size_; }
    constexpr bool empty() const noexcept { return size_ == 0; }
    constexpr T &operator[](std::size_t place) const { return at_[place]; }
    constexpr T *begin() const noexcept { return at_; }
    constexpr T *end() const noexcept { return at_ + size_; }

  private:
    T *at_ = nullptr;
    std::size_t size_ = 0;
};
#endif

// ---- What is handed in ----

// Nodes and arcs are numbered from 1. The k-th items of the spans by arc describe the k-th arc, and the k-th item of a
// span by node belongs to node k.
using Nodes = span<const std::uint32_t>;
using Numbers = span<const std::int64_t>;

// A byte for each node, not 0 for each node that is inside.
using Marks = span<const std::uint8_t>;

// A maximum flow instance: an arc goes from its tail to its head, and carries from 0 to its capacity.
struct MaxInstance {
    std::uint32_t nodes = 0, source = 0, sink = 0;
    Nodes tails, heads;
    Numbers caps;
};

// A minimum cost flow instance: an arc carries from its lower bound to its capacity, at a cost for each unit. A node's
// supply is its outflow minus its inflow. A demand is a negative supply.
struct MinInstance {
    std::uint32_t nodes = 0;
    Nodes tails, heads;
    Numbers lows, caps, costs, supplies;
};

// A graph: an arc goes from its tail to its head, and has a weight, which may be negative.
struct Graph {
    std::uint32_t nodes = 0;
    Nodes tails, heads;
    Numbers weights;
};

// The same with arrays of their own, as they are read from texts. Calls take them as the instances above, which refer
// to them: so they have to stand in a variable, and one that is gone at once doesn't convert.
struct MaxVectors {
    std::uint32_t nodes = 0, source = 0, sink = 0;
    std::vector<std::uint32_t> tails, heads;
    std::vector<std::int64_t> caps;

    operator MaxInstance() const & noexcept { return {nodes, source, sink, tails, heads, caps}; }
    operator MaxInstance() const && = delete;
};

struct MinVectors {
    std::uint32_t nodes = 0;
    std::vector<std::uint32_t> tails, heads;
    std::vector<std::int64_t> lows, caps, costs, supplies;

    operator MinInstance() const & noexcept { return {nodes, tails, heads, lows, caps, costs, supplies}; }
    operator MinInstance() const && = delete;
};

struct GraphVectors {
    std::uint32_t nodes = 0;
    std::vector<std::uint32_t> tails, heads;
    std::vector<std::int64_t> weights;

    operator Graph() const & noexcept { return {nodes, tails, heads, weights}; }
    operator Graph() const && = delete;
};

// The distance of a node that isn't reached. Its predecessor is 0, as that of the source.
inline constexpr std::int64_t unreached = DIMACS_UNREACHED;

// The command's default limit.
inline constexpr std::uint64_t default_limit = DIMACS_LIMIT;

// Kinds of text.
enum class Text : std::uint32_t {
    max = DIMACS_TEXT_MAX,
    min = DIMACS_TEXT_MIN,
    gr = DIMACS_TEXT_GR,
    query = DIMACS_TEXT_QUERY,
    solution = DIMACS_TEXT_SOLUTION,
    cut = DIMACS_TEXT_CUT,
    pot = DIMACS_TEXT_POT,
    dist = DIMACS_TEXT_DIST,
    distances = DIMACS_TEXT_DISTANCES
};

// What the texts of a command are: of files, in no file, or made of arrays. It decides how lines that explain an answer
// refer to them; dimacs.h has how.
enum class Form : std::uint32_t { files = DIMACS_FILES, texts = DIMACS_TEXTS, arrays = DIMACS_ARRAYS };

// ---- What is answered: a yes ----

namespace detail {

// Whether a type is one of integers. Compilers have them of 128 bits that aren't, by -std=c++17.
template <class Number>
inline constexpr bool is_integer = std::is_integral_v<Number>;
template <class Number>
inline constexpr bool is_signed = std::is_signed_v<Number>;
#ifdef __SIZEOF_INT128__
__extension__ typedef __int128 Int128;
__extension__ typedef unsigned __int128 UInt128;
template <>
inline constexpr bool is_integer<Int128> = true;
template <>
inline constexpr bool is_integer<UInt128> = true;
template <>
inline constexpr bool is_signed<Int128> = true;
template <>
inline constexpr bool is_signed<UInt128> = false;
#endif

template <class Number>
constexpr bool is_negative(Number number) noexcept {
    if constexpr (is_signed<Number>) {
        return number < 0;
    } else {
        return false;
    }
}

// An integer in decimal digits.
template <class Number>
std::string decimal(Number number) {
    const bool has_sign = is_negative(number);
    std::string digits;
    do {
        const int last = static_cast<int>(number % 10);
        digits += static_cast<char>('0' + (last < 0 ? -last : last));
        number = static_cast<Number>(number / 10);
    } while (number != 0);
    if (has_sign) digits += '-';
    std::reverse(digits.begin(), digits.end());
    return digits;
}

}  // namespace detail

// A whole number that may have more than 64 bits: the value of a flow, a cost, or a distance in a text.
class Value {
  public:
    // From any type of integers. Nothing else converts.
    template <class Number, class = std::enable_if_t<detail::is_integer<Number>>>
    Value(Number number) : digits_(detail::decimal(number)) {}

    // From a number as the library writes it.
    static Value of(std::string_view digits) {
        Value value(0);
        value.digits_ = digits;
        return value;
    }

    std::string str() const { return digits_; }

    // The number, if it has 64 bits.
    std::optional<std::int64_t> to_int64() const noexcept {
        std::int64_t number = 0;
        const char *end = digits_.data() + digits_.size();
        const auto read = std::from_chars(digits_.data(), end, number);
        return read.ec == std::errc() && read.ptr == end ? std::optional(number) : std::nullopt;
    }

    friend bool operator==(const Value &one, const Value &other) noexcept { return one.digits_ == other.digits_; }
    friend bool operator!=(const Value &one, const Value &other) noexcept { return !(one == other); }
    friend std::ostream &operator<<(std::ostream &out, const Value &it) { return out << it.digits_; }

  private:
    std::string digits_;
};

using Flows = std::vector<std::int64_t>;          // an amount for each arc
using Inside = std::vector<std::uint8_t>;         // a byte for each node, 1 inside and else 0
using Potentials = std::vector<std::int64_t>;     // a number for each node
using Predecessors = std::vector<std::uint32_t>;  // a node for each node, or 0

// The claim is true.
struct Judged {};

// The same of a flow; value is that of the flow, or its cost.
struct JudgedFlow {
    Value value;
};

// The flow is maximum, as the cut shows.
template <class Inside>
struct CertifiedMax {
    Value value;
    Inside inside;
};

// The flow costs least, as the potentials show.
template <class Potentials>
struct CertifiedMin {
    Value value;  // the cost
    Potentials potentials;
};

// No flow is feasible, as the set shows: nodes, or the text of a set.
template <class Set>
struct CertifiedInfeasible {
    Set inside;
};

// The distances are right, as the predecessors show.
template <class Predecessors>
struct CertifiedPaths {
    Predecessors predecessors;
};

// A maximum flow, with the cut that shows it.
template <class Flow, class Inside>
struct SolvedMax {
    Value value;
    Flow flows;
    Inside inside;
};

// A flow of least cost, with the potentials that show it.
template <class Flow, class Potentials>
struct SolvedMin {
    Value value;  // the cost
    Flow flows;
    Potentials potentials;
};

// Distances by node, with the predecessors that show them.
struct SolvedPaths {
    std::vector<std::int64_t> distances;
    Predecessors predecessors;
};

// A solution is right, as the text of a cut or of potentials shows; value is that of the flow, or its cost.
struct CertifiedText {
    Value value;
    std::string certificate;
};

// This many blocks of distances are right, as the text of labels shows.
struct CertifiedPathsText {
    std::uint64_t sources = 0;
    std::string labels;
};

// The texts of a solution and of its certificate.
struct SolvedText {
    Value value;
    std::string solution, certificate;
};

// The answer to a query from one node to another: a distance, or no walk, or none within a radius.
struct Pair {
    enum class Kind { distance, unreachable, beyond };

    std::uint32_t source = 0, target = 0;
    Kind kind = Kind::unreachable;
    Value number = 0;  // the distance, or the radius that it is beyond
};

// The queries were judged: for all distances from so many sources, or for pairs.
struct JudgedPaths {
    std::uint64_t sources = 0;
    std::vector<Pair> pairs;
};

// The same, with the text of the labels that were made.
struct SolvedPathsText {
    std::uint64_t sources = 0;
    std::vector<Pair> pairs;
    std::string labels;
};

// A solution over an instance: the value that it claims, and a flow.
template <class Flow>
struct Solution {
    std::int64_t value = 0;
    Flow flows;
};

// Queries for the distances from these nodes to all nodes, or from each of them to the one at its place in `tos`.
struct Queries {
    std::vector<std::uint32_t> froms;
    std::optional<std::vector<std::uint32_t>> tos;
};

// The block of a source in labels: distances and predecessors, by node. With a radius the nodes without a label are
// farther than that, and may be reached.
struct Labels {
    std::vector<std::int64_t> distances;
    Predecessors predecessors;
    std::optional<std::int64_t> radius;
};

// A file that a word names. A run reads it, creates or empties it before it reads others, or writes it once it has a
// text for it.
struct File {
    enum class Access : char { read = 'r', create = 'c', write = 'w' };

    Access access = Access::read;
    std::string shown;  // its name as messages have it: without control characters
};

// The words of a command ask for a run.
struct Run {
    std::vector<std::optional<File>> plan;  // for each word the file that it names, if it names one
    std::string told;                       // for the standard error after the run; mostly empty
};

// How a command ended. As a number it is the exit status.
enum class Status : std::uint32_t { done = DIMACS_DONE, refused = DIMACS_REFUSED, gave_up = DIMACS_GAVE_UP };

// What a command prints, and the texts that it makes for files, in order, also if its words name none for them. A text
// that it doesn't make is empty.
struct Ran {
    Status status = Status::done;
    std::string report, made, more;
};

// ---- What is answered: a no ----

// The place of a fault: the text's name ("instance", "query", "solution", "distances", "certificate"), and its line and
// field from 1. The field 0 is the whole line, and the line 0 the whole text.
struct InText {
    std::string text;
    std::uint64_t line = 0, field = 0;
};

// The first fault of a text, or the first test that fails. What doesn't apply is empty.
struct Refused {
    std::string printed;  // as the command prints it, without the end of its line: "x arc 3 AboveCap"
    std::string reason;   // its word: "AboveCap"
    std::optional<InText> text;
    std::optional<std::uint64_t> arc, node;  // from 1

    std::string message() const { return printed; }
};

// The flow is feasible and has the claimed value, but there is a better one.
template <class Flow>
struct NotOptimal {
    std::string printed;  // as the command prints it, without the end of its line: "x solution 0 0 NotMaximum"
    Flow better;

    std::string message() const { return printed; }
};

// The same with the text of a solution. It is missing if its cost is out of the range of such texts.
using NotOptimalText = NotOptimal<std::optional<std::string>>;

// No flow is feasible, as the set shows: nodes, or the text of a set.
template <class Set>
struct Infeasible {
    Set inside;

    std::string message() const { return "v infeasible"; }
};

// The instance that was claimed to have no feasible flow has this one.
template <class Flow>
struct Feasible {
    Flow flow;

    std::string message() const { return "x instance 0 0 Feasible"; }
};

// The same as the text of a solution; none if its cost is out of the range of such texts.
using FeasibleText = Feasible<std::optional<std::string>>;

// A limit was reached, the least cost is out of range, or what was found doesn't fit in 64 bits.
struct GaveUp {
    std::string message() const { return "g limit"; }
};

// The words of a command ask for help or the version.
struct Help {
    std::string text;  // for the standard output

    std::string message() const { return text; }
};

// The words of a command ask for nothing, or for what is likely a slip, as to replace what the run reads.
struct Complaint {
    std::string told;  // for the standard error: what is wrong, and the usage

    std::string message() const { return told; }
};

// ---- What is thrown ----

// An array has a wrong length, or a number names no kind.
class WrongLength : public std::invalid_argument {
  public:
    WrongLength() : std::invalid_argument("an array has another length than it has to have") {}

    // "flows has 3 items, and there are 2 arcs".
    WrongLength(std::string_view array, std::size_t items, std::size_t wanted, std::string_view each)
        : std::invalid_argument(std::string(array) + " has " + std::to_string(items) + " items, and there are " +
                                std::to_string(wanted) + " " + std::string(each)) {}
};

// The first number of an instance that is past its limit. Nothing was judged.
class PastLimit : public std::invalid_argument {
  public:
    explicit PastLimit(const Refused &refused) : PastLimit(refused, refused.printed) {}

    // Copied, and not moved: what was moved from would have nothing to refer to.
    PastLimit(const PastLimit &) = default;
    PastLimit &operator=(const PastLimit &) = default;

    // The arc or the node, and the reason.
    Refused refused() const { return *refused_; }

  protected:
    PastLimit(const Refused &refused, const std::string &line)
        : std::invalid_argument(line), refused_(std::make_shared<const Refused>(refused)) {}

  private:
    std::shared_ptr<const Refused> refused_;
};

// A command comes to its text at this place, from 1, which can't be read.
class Unread : public std::runtime_error {
  public:
    explicit Unread(std::uint32_t place)
        : std::runtime_error("text " + std::to_string(place) + " of the command can't be read") {}
};

// The library answers what this header doesn't know: it is of another version. The claim is undecided.
class UnknownAnswer : public std::logic_error {
  public:
    explicit UnknownAnswer(std::string_view answer)
        : std::logic_error("libdimacs answers what dimacs.hpp doesn't know: " + std::string(answer)) {}
};

// Answer::value() was called on a no.
class BadAnswer : public std::runtime_error {
  public:
    using std::runtime_error::runtime_error;
};

// A yes, or one of several noes.
template <class Yes, class... No>
class [[nodiscard]] Answer {
  public:
    // Of the yes, or of one of the noes.
    template <class It, class = std::enable_if_t<(std::is_same_v<It, Yes> || ... || std::is_same_v<It, No>)>>
    Answer(It it) : it_(std::move(it)) {}

    bool has_value() const noexcept { return it_.index() == 0; }
    explicit operator bool() const noexcept { return has_value(); }

    // The yes. If it is a no, the behaviour is undefined, as for std::optional. What refers into an answer needs one that
    // stands in a variable; `*` of any other returns its yes by value.
    const Yes &operator*() const & noexcept { return *std::get_if<0>(&it_); }
    Yes operator*() && { return std::move(*std::get_if<0>(&it_)); }
    const Yes &operator*() const && = delete;
    const Yes *operator->() const & noexcept { return std::get_if<0>(&it_); }
    const Yes *operator->() const && = delete;

    // The yes. Throws BadAnswer with the message of a no.
    const Yes &value() const & {
        if (!has_value()) throw BadAnswer(message());
        return **this;
    }
    Yes value() && {
        if (!has_value()) throw BadAnswer(message());
        return std::move(*std::get_if<0>(&it_));
    }
    const Yes &value() const && = delete;

    // The yes or the no of this type, or null if the answer is another one.
    template <class It>
    const It *get_if() const & noexcept {
        return std::get_if<It>(&it_);
    }
    template <class It>
    const It *get_if() const && = delete;

    // Whether it is the yes or the no of this type.
    template <class It>
    bool holds() const noexcept {
        return std::holds_alternative<It>(it_);
    }

    // The message of a no; empty for a yes.
    std::string message() const {
        return std::visit(
            [](const auto &it) -> std::string {
                if constexpr (std::is_same_v<std::decay_t<decltype(it)>, Yes>) {
                    return {};
                } else {
                    return it.message();
                }
            },
            it_);
    }

    // All of them, for std::visit.
    const std::variant<Yes, No...> &variant() const & noexcept { return it_; }
    std::variant<Yes, No...> variant() && { return std::move(it_); }
    const std::variant<Yes, No...> &variant() const && = delete;

  private:
    std::variant<Yes, No...> it_;
};

// ---- How a call is made ----

namespace detail {

inline constexpr std::size_t line_room = 256;

// The words of a line. A line ends with the first end of a line.
inline std::vector<std::string_view> words_of(std::string_view line) {
    std::vector<std::string_view> words;
    line = line.substr(0, line.find('\n'));
    while (!line.empty()) {
        const std::size_t length = std::min(line.find(' '), line.size());
        words.push_back(line.substr(0, length));
        line.remove_prefix(std::min(length + 1, line.size()));
    }
    return words;
}

// The words of a line that has so many, and begins with these.
inline std::vector<std::string_view> words_of(std::string_view line, std::size_t count,
                                              std::initializer_list<std::string_view> first) {
    auto words = words_of(line);
    if (words.size() != count || !std::equal(first.begin(), first.end(), words.begin())) throw UnknownAnswer(line);
    return words;
}

// The number of a word of a line.
template <class Number = std::uint64_t>
Number number_of(std::string_view word, std::string_view line) {
    Number number = 0;
    const char *end = word.data() + word.size();
    const auto read = std::from_chars(word.data(), end, number);
    if (read.ec != std::errc() || read.ptr != end) throw UnknownAnswer(line);
    return number;
}

// The same of any length.
inline Value wide_number_of(std::string_view word, std::string_view line) {
    const std::string_view digits = word.substr(word.substr(0, 1) == "-" ? 1 : 0);
    if (digits.empty() || digits.find_first_not_of("0123456789") != std::string_view::npos) throw UnknownAnswer(line);
    return Value::of(word);
}

// The fields of a line that begins with x.
inline Refused refused(std::string_view line) {
    const auto words = words_of(line);
    const std::string_view place = words.size() < 2 ? "" : words[1];
    const bool is_item = place == "arc" || place == "node";
    const auto fields = words_of(line, is_item ? 4 : 5, {"x"});
    Refused it;
    it.printed = line.substr(0, line.find('\n'));
    it.reason = fields.back();
    if (is_item) {
        (place == "arc" ? it.arc : it.node) = number_of(fields[2], line);
    } else {
        it.text = InText{std::string(place), number_of(fields[2], line), number_of(fields[3], line)};
    }
    return it;
}

// The number of `v max VALUE` or `v min COST`.
inline Value value_of(std::string_view line) { return wide_number_of(words_of(line, 3, {"v"})[2], line); }

// The number of `v sp ss COUNT` or `v sp distances COUNT`.
inline std::uint64_t sources_of(std::string_view line) { return number_of(words_of(line, 4, {"v", "sp"})[3], line); }

inline bool is_infeasible(std::string_view line) { return line == "v infeasible\n"; }

// One line of the answers to queries for pairs.
inline Pair pair_of(std::string_view line) {
    const bool is_beyond = words_of(line).size() == 5;
    const auto words = words_of(line, is_beyond ? 5 : 4, {"v"});
    Pair it;
    it.source = number_of<std::uint32_t>(words[1], line);
    it.target = number_of<std::uint32_t>(words[2], line);
    if (is_beyond && words[3] != "more") throw UnknownAnswer(line);
    if (words[3] == "unreachable") return it;
    it.kind = is_beyond ? Pair::Kind::beyond : Pair::Kind::distance;
    it.number = wide_number_of(words.back(), line);
    return it;
}

// The first of these lines, without its end. What is left are the others.
inline std::string_view take_line(std::string_view &lines) {
    const std::string_view line = lines.substr(0, lines.find('\n'));
    lines.remove_prefix(std::min(line.size() + 1, lines.size()));
    return line;
}

// The fields of the lines of `judge-paths`.
inline JudgedPaths paths_of(std::string_view lines) {
    JudgedPaths it;
    if (lines.substr(0, 5) == "v sp ") {
        it.sources = sources_of(lines);
        return it;
    }
    while (!lines.empty()) it.pairs.push_back(pair_of(take_line(lines)));
    return it;
}

// The plan of so many words: a mark for each, a line for each file, and what is told after the run.
inline Run run_of(std::string_view lines, std::size_t words) {
    Run it;
    const std::string_view marks = take_line(lines);
    if (marks.size() != words || marks.find_first_not_of("-rcw") != marks.npos) throw UnknownAnswer(marks);
    for (const char mark : marks) {
        if (mark != '-' && lines.empty()) throw UnknownAnswer(marks);
        it.plan.emplace_back();
        if (mark != '-') it.plan.back() = File{static_cast<File::Access>(mark), std::string(take_line(lines))};
    }
    it.told = lines;
    return it;
}

// Room for a text that a call hands out.
class TextRoom {
  public:
    explicit TextRoom(std::size_t room = line_room) : bytes_(room, '\0') {}

    std::uint8_t *at() noexcept { return reinterpret_cast<std::uint8_t *>(bytes_.data()); }
    std::size_t room() const noexcept { return bytes_.size(); }
    bool fits() const noexcept { return needed <= bytes_.size(); }
    void grow() { bytes_.resize(needed); }
    std::string_view text() const noexcept { return std::string_view(bytes_).substr(0, needed); }

    std::string take() {
        bytes_.resize(needed);
        return std::move(bytes_);
    }

    std::size_t needed = 0;

  private:
    std::string bytes_;
};

// Room for items. It isn't touched before a call fills it: a text may have far fewer than it has room for.
template <class T>
class Room {
  public:
    explicit Room(std::size_t room) : items_(new T[room]), room_(room) {}

    T *at() noexcept { return items_.get(); }
    std::size_t room() const noexcept { return room_; }
    bool fits() const noexcept { return needed <= room_; }
    void grow() { *this = Room(needed); }

    std::vector<T> take(std::size_t count) {
        const auto items = std::move(items_);
        return {items.get(), items.get() + count};
    }
    std::vector<T> take() { return take(needed); }

    std::size_t needed = 0;

  private:
    std::unique_ptr<T[]> items_;
    std::size_t room_;
};

template <class>
inline constexpr bool is_room = false;
template <>
inline constexpr bool is_room<TextRoom> = true;
template <class T>
inline constexpr bool is_room<Room<T>> = true;

inline const std::uint8_t *bytes(std::string_view text) noexcept {
    return reinterpret_cast<const std::uint8_t *>(text.data());
}

// What stands for an argument in C: of a text or a span its address and length, of a room the place for what is needed
// too, and else the argument itself.
inline auto in_c(std::string_view it) noexcept { return std::make_tuple(bytes(it), it.size()); }
template <class T>
auto in_c(span<T> it) noexcept {
    return std::make_tuple(it.data(), it.size());
}
template <class It>
auto in_c(It &it) noexcept {
    if constexpr (is_room<It>) {
        return std::make_tuple(it.at(), it.room(), &it.needed);
    } else {
        return std::make_tuple(it);
    }
}

// Makes a room larger if it was too small. How many rooms it made so.
template <class It>
int grow(It &it) {
    if constexpr (is_room<It>) {
        if (!it.fits()) {
            it.grow();
            return 1;
        }
    }
    return 0;
}

// The room for the line of a call, which comes before its other rooms.
template <class First, class... Others>
const TextRoom &line_room_of(const First &first, const Others &...others) noexcept {
    if constexpr (std::is_same_v<First, TextRoom>) {
        return first;
    } else {
        return line_room_of(others...);
    }
}

// Throws for a status that leaves the claim undecided.
inline void throw_for(std::uint32_t status, std::string_view line) {
    if (status == DIMACS_NO_MEMORY) throw std::bad_alloc();
    if (status == DIMACS_MISUSED && line.empty()) throw WrongLength();
    if (status == DIMACS_MISUSED) throw PastLimit(refused(line));
    if (status != DIMACS_DONE && status != DIMACS_REFUSED && status != DIMACS_GAVE_UP) {
        throw UnknownAnswer("the status " + std::to_string(status));
    }
}

// Makes a call, and again if a room was too small. Returns any status.
template <class Function, class... Arguments>
std::uint32_t status_of(Function function, Arguments &&...arguments) {
    for (;;) {
        const std::uint32_t status = std::apply(function, std::tuple_cat(in_c(arguments)...));
        if ((grow(arguments) + ...) == 0) return status;
    }
}

// The same of a call about a claim. Throws for a status that leaves it undecided.
template <class Function, class... Arguments>
std::uint32_t call(Function function, Arguments &&...arguments) {
    const std::uint32_t status = status_of(function, arguments...);
    throw_for(status, line_room_of(arguments...).text());
    return status;
}

// Makes a call that hands out lines alone, for which there is so much room at first.
template <class Function, class... Arguments>
Answer<std::string, Refused> lines_of(std::size_t room, Function function, const Arguments &...arguments) {
    TextRoom lines(room);
    if (call(function, arguments..., lines) == DIMACS_REFUSED) return refused(lines.text());
    return lines.take();
}

// What a call judges by its arguments.
template <class Function, class... Arguments>
Answer<Judged, Refused> judge(Function function, const Arguments &...arguments) {
    const auto lines = lines_of(line_room, function, arguments...);
    if (lines) return Judged{};
    return *lines.template get_if<Refused>();
}

// The same of a flow.
template <class Function, class... Arguments>
Answer<JudgedFlow, Refused> judge_flow(Function function, const Arguments &...arguments) {
    const auto lines = lines_of(line_room, function, arguments...);
    if (lines) return JudgedFlow{value_of(*lines)};
    return *lines.template get_if<Refused>();
}

// The room for an item of each node. An instance with too many nodes is refused, and needs none.
inline std::size_t room_for(std::uint32_t nodes) noexcept { return nodes <= (std::uint32_t(1) << 27) ? nodes : 0; }

inline dimacs_nodes array(Nodes it) noexcept { return {it.data(), it.size()}; }
inline dimacs_numbers array(Numbers it) noexcept { return {it.data(), it.size()}; }

// The library tests lengths too, but doesn't report which one is wrong.
template <class Instance, class Array>
void test_by_arc(const Instance &instance, std::string_view name, const Array &it) {
    if (it.size() != instance.tails.size()) throw WrongLength(name, it.size(), instance.tails.size(), "arcs");
}

template <class Instance, class Array>
void test_by_node(const Instance &instance, std::string_view name, const Array &it) {
    if (it.size() != instance.nodes) throw WrongLength(name, it.size(), instance.nodes, "nodes");
}

inline dimacs_max arrays(const MaxInstance &it) {
    test_by_arc(it, "heads", it.heads);
    test_by_arc(it, "caps", it.caps);
    return {it.nodes, it.source, it.sink, array(it.tails), array(it.heads), array(it.caps)};
}

inline dimacs_min arrays(const MinInstance &it) {
    test_by_arc(it, "heads", it.heads);
    test_by_arc(it, "lows", it.lows);
    test_by_arc(it, "caps", it.caps);
    test_by_arc(it, "costs", it.costs);
    test_by_node(it, "supplies", it.supplies);
    return {it.nodes,       array(it.tails), array(it.heads),   array(it.lows),
            array(it.caps), array(it.costs), array(it.supplies)};
}

inline dimacs_graph arrays(const Graph &it) {
    test_by_arc(it, "heads", it.heads);
    test_by_arc(it, "weights", it.weights);
    return {it.nodes, array(it.tails), array(it.heads), array(it.weights)};
}

inline bool is_not_optimal(const Refused &it) noexcept { return it.reason == "NotMaximum" || it.reason == "NotLeast"; }

}  // namespace detail

// The version of the library that was linked or loaded, as DIMACS_VERSION_NUMBER is that of the header.
inline std::uint32_t version() noexcept { return dimacs_version(); }

// Whether that library is proved: the kit that built it had proved that each function meets its contract.
inline bool proved() noexcept { return dimacs_proved() != 0; }

// The version with what proved the library, as `dimacs --version` prints it, or that it isn't proved.
inline std::string version_text() {
    detail::TextRoom text;
    detail::call(dimacs_version_text, text);
    return text.take();
}

// ---- Texts in memory ----

namespace detail {

// What dimacs_certify hands out: the line, and the certificate or the better solution.
struct CertifyAnswer {
    bool is_yes;
    std::string line, shown;
};

inline CertifyAnswer certify(std::uint32_t kind, std::string_view instance, std::string_view claim) {
    TextRoom line, shown(line_room + instance.size() + claim.size());
    const bool is_yes = call(dimacs_certify, kind, instance, claim, line, shown) == DIMACS_DONE;
    return {is_yes, line.take(), shown.take()};
}

inline Answer<std::string, Refused> spread(std::uint32_t kind, std::string_view instance, std::string_view solution) {
    TextRoom line, spread(line_room + instance.size() + solution.size());
    if (call(dimacs_spread, kind, instance, solution, line, spread) == DIMACS_REFUSED) return refused(line.text());
    return spread.take();
}

inline Answer<CertifiedText, NotOptimalText, Refused> certify_flow(std::uint32_t kind, std::string_view instance,
                                                                   std::string_view solution) {
    auto [is_yes, line, shown] = certify(kind, instance, solution);
    if (is_yes) return CertifiedText{value_of(line), std::move(shown)};
    Refused no = refused(line);
    if (!is_not_optimal(no)) return no;
    return NotOptimalText{no.printed, shown.empty() ? std::nullopt : std::optional(std::move(shown))};
}

// What dimacs_solve hands out: the lines, and the two texts.
struct SolveAnswer {
    std::uint32_t status;
    std::string lines, solution, certificate;
};

// An answer to a query is a longer line than the query, and a potential or a label may be one than an arc.
inline SolveAnswer solve(std::uint32_t kind, std::string_view instance, std::string_view queries, std::uint64_t limit) {
    TextRoom lines(line_room + 4 * queries.size()), solution(line_room + instance.size());
    TextRoom certificate(line_room + 2 * instance.size());
    const auto status = call(dimacs_solve, kind, instance, queries, limit, lines, solution, certificate);
    return {status, lines.take(), solution.take(), certificate.take()};
}

}  // namespace detail

// Judges that a solution's flow is maximum, as the cut shows. Refused for the fault of the first text that has one,
// else for the first test that fails.
inline Answer<JudgedFlow, Refused> judge_max(std::string_view instance, std::string_view solution,
                                             std::string_view cut) {
    return detail::judge_flow(dimacs_judge, DIMACS_MAX, instance, solution, cut);
}

// Judges that a solution's flow costs least, as the potentials show. Refused as judge_max.
inline Answer<JudgedFlow, Refused> judge_min(std::string_view instance, std::string_view solution,
                                             std::string_view potentials) {
    return detail::judge_flow(dimacs_judge, DIMACS_MIN, instance, solution, potentials);
}

// Judges that an instance has no feasible flow, as the set shows. Refused as judge_max.
inline Answer<Judged, Refused> judge_infeasible(std::string_view instance, std::string_view set) {
    return detail::judge(dimacs_judge, DIMACS_INFEASIBLE, instance, std::string_view(), set);
}

// Judges labels, and answers queries by them. Refused as judge_max.
inline Answer<JudgedPaths, Refused> judge_paths(std::string_view graph, std::string_view queries,
                                                std::string_view labels) {
    const std::size_t room = detail::line_room + 4 * queries.size();
    const auto lines = detail::lines_of(room, dimacs_judge, DIMACS_PATHS, graph, queries, labels);
    if (!lines) return *lines.get_if<Refused>();
    return detail::paths_of(*lines);
}

// Decides whether a solution's flow is maximum. A yes has the text of a cut. NotOptimalText, with a better solution, if
// the flow is feasible and has the claimed value. Refused if a text has a fault, or if the flow isn't feasible or has
// another value.
inline Answer<CertifiedText, NotOptimalText, Refused> certify_max(std::string_view instance,
                                                                  std::string_view solution) {
    return detail::certify_flow(DIMACS_MAX, instance, solution);
}

// Decides whether a solution's flow costs least. A yes has the text of potentials. The noes are those of certify_max.
inline Answer<CertifiedText, NotOptimalText, Refused> certify_min(std::string_view instance,
                                                                  std::string_view solution) {
    return detail::certify_flow(DIMACS_MIN, instance, solution);
}

// Decides whether an instance has no feasible flow. A yes has the text of a set. FeasibleText, with a solution, if
// there is a feasible flow. Refused if the text has a fault.
inline Answer<CertifiedInfeasible<std::string>, FeasibleText, Refused> certify_infeasible(std::string_view instance) {
    auto [is_yes, line, shown] = detail::certify(DIMACS_INFEASIBLE, instance, {});
    if (is_yes) return CertifiedInfeasible<std::string>{std::move(shown)};
    Refused no = detail::refused(line);
    if (no.reason != "Feasible") return no;
    return FeasibleText{shown.empty() ? std::nullopt : std::optional(std::move(shown))};
}

// Decides, block by block, whether distances are right and nodes without one unreachable. A yes has the text of labels.
// Refused if a text has a fault, or for the first test that fails.
inline Answer<CertifiedPathsText, Refused> certify_paths(std::string_view graph, std::string_view distances) {
    auto [is_yes, line, shown] = detail::certify(DIMACS_PATHS, graph, distances);
    if (!is_yes) return detail::refused(line);
    return CertifiedPathsText{detail::sources_of(line), std::move(shown)};
}

// Deals a solution out to parallel arcs: adds up the entries with the same ends, and gives each arc with these ends its
// share, within its bounds if possible. A yes is the text of a solution with the claimed value and an entry for every
// arc. Refused if a text has a fault, for an entry without an arc, or if the first arc with the same ends, which gets
// what is too much or too little, would carry more than 64 bits.
inline Answer<std::string, Refused> spread_max(std::string_view instance, std::string_view solution) {
    return detail::spread(DIMACS_MAX, instance, solution);
}

// The same for least cost: of all such flows within the bounds, one that costs least.
inline Answer<std::string, Refused> spread_min(std::string_view instance, std::string_view solution) {
    return detail::spread(DIMACS_MIN, instance, solution);
}

// Makes a maximum flow: the texts of a solution and of a cut. GaveUp after `limit` flows that aren't maximum. Refused
// if the text has a fault.
inline Answer<SolvedText, GaveUp, Refused> solve_max(std::string_view instance, std::uint64_t limit = default_limit) {
    auto it = detail::solve(DIMACS_MAX, instance, {}, limit);
    if (it.status == DIMACS_GAVE_UP) return GaveUp{};
    if (it.status == DIMACS_REFUSED) return detail::refused(it.lines);
    return SolvedText{detail::value_of(it.lines), std::move(it.solution), std::move(it.certificate)};
}

// Makes a flow of least cost: the texts of a solution and of potentials. Infeasible, with the text of a set, if no flow
// is feasible. GaveUp after `limit` steps to better flows, or if the least cost is out of range. Refused if the text
// has a fault.
inline Answer<SolvedText, Infeasible<std::string>, GaveUp, Refused> solve_min(std::string_view instance,
                                                                              std::uint64_t limit = default_limit) {
    auto it = detail::solve(DIMACS_MIN, instance, {}, limit);
    if (it.status == DIMACS_GAVE_UP) return GaveUp{};
    if (it.status == DIMACS_REFUSED) return detail::refused(it.lines);
    if (detail::is_infeasible(it.lines)) return Infeasible<std::string>{std::move(it.certificate)};
    return SolvedText{detail::value_of(it.lines), std::move(it.solution), std::move(it.certificate)};
}

// Makes labels, and answers queries by them. Refused if a text has a fault, a query names no node, or a weight is
// negative.
inline Answer<SolvedPathsText, Refused> solve_paths(std::string_view graph, std::string_view queries) {
    auto it = detail::solve(DIMACS_PATHS, graph, queries, default_limit);
    if (it.status != DIMACS_DONE) return detail::refused(it.lines);
    JudgedPaths found = detail::paths_of(it.lines);
    return SolvedPathsText{found.sources, std::move(found.pairs), std::move(it.certificate)};
}

// The canonical form of a text. Refused if it has a fault.
inline Answer<std::string, Refused> convert(Text kind, std::string_view text) {
    const auto kind_number = static_cast<std::uint32_t>(kind);
    return detail::lines_of(detail::line_room + text.size(), dimacs_convert, kind_number, text);
}

// A line that describes a text, as "i max 4 5 1 4\n". Refused if it has a fault.
inline Answer<std::string, Refused> show(Text kind, std::string_view text) {
    const auto kind_number = static_cast<std::uint32_t>(kind);
    return detail::lines_of(detail::line_room + text.size(), dimacs_show, kind_number, text);
}

// ---- Commands over texts in memory, by their words ----

namespace detail {

// Room for a usage, or for lines that explain an answer.
inline constexpr std::size_t page_room = 16 * line_room;

// The words of a command as the library takes them.
inline std::string ended(const std::vector<std::string_view> &words) {
    std::string ended;
    for (const std::string_view it : words) {
        if (it.find('\0') != it.npos) throw std::invalid_argument("a word of a command has a byte 0");
        ended.append(it).append(1, '\0');
    }
    return ended;
}

// Room for what a command prints, and for what it makes of texts of these lengths, as by the calls above.
struct Rooms {
    TextRoom report, made, more;

    Rooms(const std::vector<std::string_view> &words, std::size_t first, std::size_t second)
        : report(page_room), made(0), more(0) {
        const std::string_view verb = words.empty() ? "" : words[words.size() > 1 && words[0] == "explain"];
        const auto begins = [verb](std::string_view with) { return verb.substr(0, with.size()) == with; };
        if (begins("convert")) report = TextRoom(page_room + first);
        if (begins("judge-paths") || begins("solve-paths")) report = TextRoom(page_room + 4 * second);
        if (begins("certify") || begins("spread")) made = TextRoom(line_room + first + second);
        if (begins("solve")) made = TextRoom(line_room + 2 * first);
        if (begins("solve-m")) more = TextRoom(line_room + 2 * first);
    }
};

}  // namespace detail

// What the words of a command ask for, as {"judge-max", "my pipes.max", "flow", "cut"}: a run, with what it does with
// its files. Help if it is no run; a Complaint also if a word isn't UTF-8. `same` has for each word the place, from 0, of
// the first that names the same regular file, or its own; if it is empty, each word names another file. Throws
// WrongLength if `same` has another length, and std::invalid_argument if a word has a byte 0.
inline Answer<Run, Help, Complaint> request(const std::vector<std::string_view> &words,
                                            span<const std::uint32_t> same = {}) {
    const std::string ended = detail::ended(words);
    if (!same.empty() && same.size() != words.size()) throw WrongLength("same", same.size(), words.size(), "words");
    detail::TextRoom text(detail::page_room);
    const std::uint32_t status = detail::status_of(dimacs_request, std::string_view(ended), same, text);
    if (status == DIMACS_RUN) return detail::run_of(text.text(), words.size());
    if (status == DIMACS_MISUSED) return Complaint{text.take()};
    detail::throw_for(status, {});
    return Help{text.take()};
}

// Runs a command over the texts of the files that its words name, in order; std::nullopt for one that can't be read.
// Opens no file, and runs in spite of a slip, of which request complains. Throws Unread if it comes to a text that can't
// be read, and std::invalid_argument if the words ask for no run, or one isn't UTF-8 or has a byte 0.
inline Ran command(const std::vector<std::string_view> &words, std::optional<std::string_view> first,
                   std::optional<std::string_view> second = std::nullopt,
                   std::optional<std::string_view> third = std::nullopt, Form form = Form::texts) {
    const std::string ended = detail::ended(words);
    const std::string_view one = first.value_or(""), two = second.value_or(""), three = third.value_or("");
    const std::uint32_t unread = !first ? 1 : !second ? 2 : !third ? 3 : 0;
    detail::Rooms rooms(words, one.size(), two.size());
    const std::uint32_t status =
        detail::status_of(dimacs_command, static_cast<std::uint32_t>(form), std::string_view(ended), unread, one, two,
                          three, rooms.report, rooms.made, rooms.more);
    if (status == DIMACS_DEVICE) throw Unread(unread);
    if (status == DIMACS_MISUSED) {
        std::string no_command("no command with its files:");
        for (const std::string_view it : words) no_command.append(1, ' ').append(it);
        throw std::invalid_argument(no_command);
    }
    detail::throw_for(status, {});
    return {static_cast<Status>(status), rooms.report.take(), rooms.made.take(), rooms.more.take()};
}

// The lines that `dimacs explain` prints for a command over texts, which its words name in order: its own, then what
// explains them. Throws as command.
inline std::string explain(std::vector<std::string_view> words, std::string_view first, std::string_view second = {},
                           std::string_view third = {}) {
    words.insert(words.begin(), "explain");
    return command(words, first, second, third).report;
}

// ---- Arrays in memory ----

// Judges that a flow, by arc, is maximum, by the cut of the nodes whose byte in `inside` isn't 0. Refused for the
// first test that fails; dimacs.h lists them. Each call over arrays throws WrongLength and PastLimit.
inline Answer<JudgedFlow, Refused> judge_max(const MaxInstance &instance, Numbers flows, Marks inside) {
    const dimacs_max arrays = detail::arrays(instance);
    detail::test_by_arc(instance, "flows", flows);
    detail::test_by_node(instance, "inside", inside);
    return detail::judge_flow(dimacs_judge_max_arrays, &arrays, flows, inside);
}

// Judges that a flow, by arc, costs least, by potentials of the nodes. The reduced cost of an arc is its cost, minus
// the potential of its tail, plus that of its head. Refused for the first test that fails.
inline Answer<JudgedFlow, Refused> judge_min(const MinInstance &instance, Numbers flows, Numbers potentials) {
    const dimacs_min arrays = detail::arrays(instance);
    detail::test_by_arc(instance, "flows", flows);
    detail::test_by_node(instance, "potentials", potentials);
    return detail::judge_flow(dimacs_judge_min_arrays, &arrays, flows, potentials);
}

// Judges that an instance has no feasible flow, by the set of the nodes whose byte in `inside` isn't 0. If it is
// refused by `x certificate 0 0 NotViolated`, there may be no feasible flow all the same, by another set.
inline Answer<Judged, Refused> judge_infeasible(const MinInstance &instance, Marks inside) {
    const dimacs_min arrays = detail::arrays(instance);
    detail::test_by_node(instance, "inside", inside);
    return detail::judge(dimacs_judge_infeasible_arrays, &arrays, inside);
}

// Judges that the distances from the source, by node, are the least weights of walks, by the predecessors of the
// nodes. Refused for the first test that fails.
inline Answer<Judged, Refused> judge_paths(const Graph &graph, std::uint32_t source, Numbers distances,
                                           Nodes predecessors) {
    const dimacs_graph arrays = detail::arrays(graph);
    detail::test_by_node(graph, "distances", distances);
    detail::test_by_node(graph, "predecessors", predecessors);
    return detail::judge(dimacs_judge_paths_arrays, &arrays, source, distances, predecessors);
}

// Decides whether a flow, by arc, is maximum. A yes has a cut that judge_max accepts. NotOptimal, with a feasible flow
// of greater value, if the flow is feasible but not maximum. Refused if it isn't feasible. The number of arcs doesn't
// bound the time.
inline Answer<CertifiedMax<Inside>, NotOptimal<Flows>, Refused> certify_max(const MaxInstance &instance,
                                                                            Numbers flows) {
    const dimacs_max arrays = detail::arrays(instance);
    detail::test_by_arc(instance, "flows", flows);
    detail::TextRoom line;
    detail::Room<std::uint8_t> inside(detail::room_for(instance.nodes));
    detail::Room<std::int64_t> better(flows.size());
    const std::uint32_t status = detail::call(dimacs_certify_max_arrays, &arrays, flows, line, inside, better);
    if (status == DIMACS_DONE) return CertifiedMax<Inside>{detail::value_of(line.text()), inside.take()};
    Refused no = detail::refused(line.text());
    if (detail::is_not_optimal(no)) return NotOptimal<Flows>{no.printed, better.take()};
    return no;
}

// Decides whether a flow, by arc, costs least. A yes has potentials that judge_min accepts. GaveUp if the flow costs
// least, but the potentials found don't fit in 64 bits. NotOptimal, with a cheaper feasible flow, if the flow is
// feasible but doesn't cost least. Refused if it isn't feasible.
inline Answer<CertifiedMin<Potentials>, NotOptimal<Flows>, GaveUp, Refused> certify_min(const MinInstance &instance,
                                                                                        Numbers flows) {
    const dimacs_min arrays = detail::arrays(instance);
    detail::test_by_arc(instance, "flows", flows);
    detail::TextRoom line;
    detail::Room<std::int64_t> potentials(detail::room_for(instance.nodes)), better(flows.size());
    const std::uint32_t status = detail::call(dimacs_certify_min_arrays, &arrays, flows, line, potentials, better);
    if (status == DIMACS_DONE) return CertifiedMin<Potentials>{detail::value_of(line.text()), potentials.take()};
    if (status == DIMACS_GAVE_UP) return GaveUp{};
    Refused no = detail::refused(line.text());
    if (detail::is_not_optimal(no)) return NotOptimal<Flows>{no.printed, better.take()};
    return no;
}

// Decides whether an instance has no feasible flow. A yes has a set that judge_infeasible accepts. Feasible, with a
// feasible flow, if there is one. The number of arcs doesn't bound the time.
inline Answer<CertifiedInfeasible<Inside>, Feasible<Flows>> certify_infeasible(const MinInstance &instance) {
    const dimacs_min arrays = detail::arrays(instance);
    detail::TextRoom line;
    detail::Room<std::uint8_t> inside(detail::room_for(instance.nodes));
    detail::Room<std::int64_t> flows(instance.tails.size());
    const std::uint32_t status = detail::call(dimacs_certify_infeasible_arrays, &arrays, line, inside, flows);
    if (status == DIMACS_DONE) return CertifiedInfeasible<Inside>{inside.take()};
    return Feasible<Flows>{flows.take()};
}

// Decides whether the distances from the source, by node, are the least weights of walks. A yes has predecessors that
// judge_paths accepts. Refused for the first test that fails. The number of arcs and nodes bounds the time.
inline Answer<CertifiedPaths<Predecessors>, Refused> certify_paths(const Graph &graph, std::uint32_t source,
                                                                   Numbers distances) {
    const dimacs_graph arrays = detail::arrays(graph);
    detail::test_by_node(graph, "distances", distances);
    detail::TextRoom line;
    detail::Room<std::uint32_t> predecessors(detail::room_for(graph.nodes));
    const auto status = detail::call(dimacs_certify_paths_arrays, &arrays, source, distances, line, predecessors);
    if (status == DIMACS_REFUSED) return detail::refused(line.text());
    return CertifiedPaths<Predecessors>{predecessors.take()};
}

// Makes a maximum flow, and a cut that judge_max accepts. GaveUp after `limit` flows that aren't maximum.
inline Answer<SolvedMax<Flows, Inside>, GaveUp> solve_max(const MaxInstance &instance,
                                                          std::uint64_t limit = default_limit) {
    const dimacs_max arrays = detail::arrays(instance);
    detail::TextRoom line;
    detail::Room<std::int64_t> flows(instance.tails.size());
    detail::Room<std::uint8_t> inside(detail::room_for(instance.nodes));
    const std::uint32_t status = detail::call(dimacs_solve_max_arrays, &arrays, limit, line, flows, inside);
    if (status == DIMACS_GAVE_UP) return GaveUp{};
    return SolvedMax<Flows, Inside>{detail::value_of(line.text()), flows.take(), inside.take()};
}

// Makes a flow of least cost, and potentials that judge_min accepts. Infeasible, with a set that judge_infeasible
// accepts, if no flow is feasible. GaveUp after `limit` steps to better flows, or if the least cost or the potentials
// are out of range.
inline Answer<SolvedMin<Flows, Potentials>, Infeasible<Inside>, GaveUp> solve_min(const MinInstance &instance,
                                                                                  std::uint64_t limit = default_limit) {
    const dimacs_min arrays = detail::arrays(instance);
    detail::TextRoom line;
    detail::Room<std::int64_t> flows(instance.tails.size()), potentials(detail::room_for(instance.nodes));
    detail::Room<std::uint8_t> inside(detail::room_for(instance.nodes));
    const std::uint32_t status = detail::call(dimacs_solve_min_arrays, &arrays, limit, line, flows, potentials, inside);
    if (status == DIMACS_GAVE_UP) return GaveUp{};
    if (detail::is_infeasible(line.text())) return Infeasible<Inside>{inside.take()};
    return SolvedMin<Flows, Potentials>{detail::value_of(line.text()), flows.take(), potentials.take()};
}

// Makes distances from the source, and predecessors that judge_paths accepts. Refused for the first arc of negative
// weight. GaveUp if a distance is 2^63 - 1 or more.
inline Answer<SolvedPaths, GaveUp, Refused> solve_paths(const Graph &graph, std::uint32_t source) {
    const dimacs_graph arrays = detail::arrays(graph);
    detail::TextRoom line;
    detail::Room<std::int64_t> distances(detail::room_for(graph.nodes));
    detail::Room<std::uint32_t> predecessors(detail::room_for(graph.nodes));
    const auto status = detail::call(dimacs_solve_paths_arrays, &arrays, source, line, distances, predecessors);
    if (status == DIMACS_GAVE_UP) return GaveUp{};
    if (status == DIMACS_REFUSED) return detail::refused(line.text());
    return SolvedPaths{distances.take(), predecessors.take()};
}

// ---- Texts as arrays, and back ----

namespace detail {

// As many items as a text of this length has at most, each of which takes so many bytes.
inline std::size_t most_items(std::string_view text, std::size_t bytes) noexcept { return (text.size() + 1) / bytes; }

// Reads an array by node.
template <class T, class Function, class... Arguments>
Answer<std::vector<T>, Refused> read_by_node(Function function, std::string_view text, const Arguments &...arguments) {
    TextRoom line;
    Room<T> items(most_items(text, sizeof(T)));
    if (call(function, text, arguments..., line, items) == DIMACS_REFUSED) return refused(line.text());
    return items.take();
}

// Writes about so many lines.
template <class Function, class... Arguments>
Answer<std::string, Refused> write(std::size_t lines, Function function, const Arguments &...arguments) {
    return lines_of(line_room + 32 * lines, function, arguments...);
}

}  // namespace detail

// Reads a maximum flow instance. Refused, as by each call that reads, for the text's fault.
inline Answer<MaxVectors, Refused> read_max(std::string_view text) {
    const std::size_t most = detail::most_items(text, 8);
    detail::TextRoom line;
    detail::Room<std::uint32_t> tails(most), heads(most);
    detail::Room<std::int64_t> caps(most);
    MaxVectors it;
    std::size_t arcs = 0;
    const auto status = detail::call(dimacs_read_max, text, line, &it.nodes, &it.source, &it.sink, tails.at(), most,
                                     heads.at(), most, caps.at(), most, &arcs);
    if (status == DIMACS_REFUSED) return detail::refused(line.text());
    it.tails = tails.take(arcs);
    it.heads = heads.take(arcs);
    it.caps = caps.take(arcs);
    return {std::move(it)};
}

// Reads a minimum cost flow instance.
inline Answer<MinVectors, Refused> read_min(std::string_view text) {
    const std::size_t most = detail::most_items(text, 12);
    detail::TextRoom line;
    detail::Room<std::uint32_t> tails(most), heads(most);
    detail::Room<std::int64_t> lows(most), caps(most), costs(most), supplies(most);
    MinVectors it;
    std::size_t arcs = 0;
    const auto status = detail::call(dimacs_read_min, text, line, &it.nodes, tails.at(), most, heads.at(), most,
                                     lows.at(), most, caps.at(), most, costs.at(), most, &arcs, supplies);
    if (status == DIMACS_REFUSED) return detail::refused(line.text());
    it.tails = tails.take(arcs);
    it.heads = heads.take(arcs);
    it.lows = lows.take(arcs);
    it.caps = caps.take(arcs);
    it.costs = costs.take(arcs);
    it.supplies = supplies.take();
    return {std::move(it)};
}

// Reads a graph.
inline Answer<GraphVectors, Refused> read_graph(std::string_view text) {
    const std::size_t most = detail::most_items(text, 8);
    detail::TextRoom line;
    detail::Room<std::uint32_t> tails(most), heads(most);
    detail::Room<std::int64_t> weights(most);
    GraphVectors it;
    std::size_t arcs = 0;
    const auto status = detail::call(dimacs_read_graph, text, line, &it.nodes, tails.at(), most, heads.at(), most,
                                     weights.at(), most, &arcs);
    if (status == DIMACS_REFUSED) return detail::refused(line.text());
    it.tails = tails.take(arcs);
    it.heads = heads.take(arcs);
    it.weights = weights.take(arcs);
    return {std::move(it)};
}

// Reads queries.
inline Answer<Queries, Refused> read_queries(std::string_view text) {
    const std::size_t most = detail::most_items(text, 4);
    detail::TextRoom line;
    detail::Room<std::uint32_t> froms(most), tos(most);
    std::uint32_t pairs = 0;
    std::size_t count = 0;
    const auto status =
        detail::call(dimacs_read_queries, text, line, &pairs, froms.at(), most, tos.at(), most, &count);
    if (status == DIMACS_REFUSED) return detail::refused(line.text());
    return Queries{froms.take(count), pairs != 0 ? std::optional(tos.take(count)) : std::nullopt};
}

// Reads a solution over an instance of any kind, of which only the nodes and the ends of arcs matter. The k-th entry
// with given ends belongs to the k-th arc with them; an arc without one carries 0. Refused also for an entry that
// belongs to no arc, and for a value of more than 64 bits. Throws WrongLength and PastLimit.
template <class Instance>
Answer<Solution<Flows>, Refused> read_solution(std::string_view text, const Instance &instance) {
    const Nodes tails = instance.tails, heads = instance.heads;
    detail::test_by_arc(instance, "heads", heads);
    detail::TextRoom line;
    detail::Room<std::int64_t> flows(tails.size());
    std::int64_t value = 0;
    const auto status =
        detail::call(dimacs_read_solution, instance.nodes, tails, heads, text, line, &value, flows);
    if (status == DIMACS_REFUSED) return detail::refused(line.text());
    return Solution<Flows>{value, flows.take()};
}

// Reads a cut or a set: a byte for each node.
inline Answer<Inside, Refused> read_cut(std::string_view text) {
    return detail::read_by_node<std::uint8_t>(dimacs_read_cut, text);
}

// Reads potentials. Refused also for the first one of more than 64 bits.
inline Answer<Potentials, Refused> read_potentials(std::string_view text) {
    return detail::read_by_node<std::int64_t>(dimacs_read_potentials, text);
}

// Reads the block of a source from distances: one for each node, `unreached` for a node without a line. Refused also if
// the source has no block, or if a distance is 2^63 - 1 or more.
inline Answer<std::vector<std::int64_t>, Refused> read_distances(std::string_view text, std::uint32_t source) {
    return detail::read_by_node<std::int64_t>(dimacs_read_distances, text, source);
}

// Reads the block of a source from labels. Refused as read_distances.
inline Answer<Labels, Refused> read_labels(std::string_view text, std::uint32_t source) {
    detail::TextRoom line;
    detail::Room<std::int64_t> distances(detail::most_items(text, 8));
    detail::Room<std::uint32_t> predecessors(distances.room());
    std::int64_t radius = 0;
    const auto status = detail::call(dimacs_read_labels, text, source, line, &radius, distances, predecessors);
    if (status == DIMACS_REFUSED) return detail::refused(line.text());
    return Labels{distances.take(), predecessors.take(), radius == unreached ? std::nullopt : std::optional(radius)};
}

// The canonical text of a maximum flow instance, which read again is the same. Throws, as each call that writes,
// WrongLength and PastLimit.
inline std::string write_max(const MaxInstance &instance) {
    const dimacs_max arrays = detail::arrays(instance);
    return detail::write(instance.tails.size(), dimacs_write_max, &arrays).value();
}

// The same of a minimum cost flow instance.
inline std::string write_min(const MinInstance &instance) {
    const dimacs_min arrays = detail::arrays(instance);
    return detail::write(instance.tails.size() + instance.nodes, dimacs_write_min, &arrays).value();
}

// The same of a graph.
inline std::string write_graph(const Graph &graph) {
    const dimacs_graph arrays = detail::arrays(graph);
    return detail::write(graph.tails.size(), dimacs_write_graph, &arrays).value();
}

// A solution that claims a value, with an entry for each arc of an instance of any kind, in their order.
template <class Instance>
std::string write_solution(std::int64_t value, const Instance &instance, Numbers flows) {
    const Nodes tails = instance.tails, heads = instance.heads;
    detail::test_by_arc(instance, "heads", heads);
    detail::test_by_arc(instance, "flows", flows);
    return detail::write(flows.size(), dimacs_write_solution, value, instance.nodes, tails, heads, flows).value();
}

// The set of the nodes whose byte isn't 0, as a cut.
inline std::string write_cut(Marks inside) {
    return detail::write(inside.size() / 4, dimacs_write_cut, inside).value();
}

// Potentials, by node.
inline std::string write_potentials(Numbers potentials) {
    return detail::write(potentials.size(), dimacs_write_potentials, potentials).value();
}

// Queries.
inline std::string write_queries(const Queries &queries) {
    const Nodes froms = queries.froms, tos = queries.tos ? Nodes(*queries.tos) : Nodes();
    if (queries.tos && tos.size() != froms.size()) throw WrongLength("tos", tos.size(), froms.size(), "froms");
    return detail::write(froms.size(), dimacs_write_queries, queries.tos ? 1 : 0, froms, tos).value();
}

// Distances from a source, by node: one block, with a line for each other node that is reached. Refused if the distance
// of the source isn't 0.
inline Answer<std::string, Refused> write_distances(std::uint32_t source, Numbers distances) {
    return detail::write(distances.size(), dimacs_write_distances, source, distances);
}

// The same as labels, with predecessors that lead back to the source. Refused as judge_paths, up to PredUnknown.
inline Answer<std::string, Refused> write_labels(std::uint32_t source, Numbers distances, Nodes predecessors) {
    if (predecessors.size() != distances.size()) {
        throw WrongLength("predecessors", predecessors.size(), distances.size(), "distances");
    }
    return detail::write(distances.size(), dimacs_write_labels, source, distances, predecessors);
}

}  // namespace DIMACS_SPAN

}  // namespace dimacs

#endif
