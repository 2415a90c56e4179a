/* dimacs.hpp over texts and arrays: each answer and each exception of each call. */
#include "check.hpp"
#include "dimacs.hpp"
#include "texts.h"
#include <array>
#include <functional>
#include <sstream>
#include <sys/resource.h>

/* Whoever includes dimacs.hpp alone sees neither LEMON's part nor Boost's: their names are free in it. */
namespace dimacs {
static const bool lemon = true, boost = true;
}

using namespace dimacs;
using Ids = std::vector<std::uint32_t>;
using Amounts = std::vector<std::int64_t>;

template <class Call>
static void throws_limit(const char *name, const Call &call, const std::string &line) {
    throws<PastLimit>(name, call, line, [&](const auto &it) { is(name, it.refused().printed, line); });
}

/* The words of commands, what they do with their files, texts, and what is made of these, as in tests/rows/commands. */
static constexpr std::nullopt_t none = std::nullopt;
static const char one_arc[] = "p max 2 1\nn 1 s\nn 2 t\na 1 2 3\n";
static const struct {
    const char *words, *marks;
    std::optional<std::string_view> first, second, third;
    Status status;
    std::string report, made, more;
} runs[] = {
    {"convert gr G", "--r", "c x\n p sp 1 1\r\na 1 1 +07", none, none, Status::done, "p sp 1 1\na 1 1 7\n", "", ""},
    {"convert gr G", "--r", "", none, none, Status::refused, "x instance 1 0 ProblemMissing\n", "", ""},
    {"show max I", "--r", max, none, none, Status::done, "i max 4 5 1 4\n", "", ""},
    {"judge-max I S C", "-rrr", max, flow, cut, Status::done, "v max 6\n", "", ""},
    {"judge-max I S C", "-rrr", max, cut, none, Status::refused, "x solution 1 1 UnknownLine\n", "", ""},
    {"judge-min I S P", "-rrr", min, least, pot, Status::done, "v min 14\n", "", ""},
    {"judge-infeasible I C", "-rr", surplus, both, none, Status::done, "v infeasible\n", "", ""},
    {"judge-paths G Q L", "-rrr", graph, pairs, dist, Status::done, "v 1 2 5\nv 1 4 unreachable\n", "", ""},
    {"certify-max I S C", "-rrw", max, flow, none, Status::done, "v max 6\n", cut, ""},
    {"certify-max I S", "-rr", one_arc, "s 0\n", none, Status::refused, "x solution 1 2 NotMaximum\n",
     "s 3\nf 1 2 3\n", ""},
    {"certify-min I S P", "-rrw", min, least, none, Status::done, "v min 14\n",
     "p pot 4 3\ny 1 3\ny 2 1\ny 4 -1\n", ""},
    {"certify-infeasible I C", "-rw", surplus, none, none, Status::done, "v infeasible\n", both, ""},
    {"certify-paths G D L", "-rrw", graph, near, none, Status::done, "v sp distances 1\n", dist, ""},
    {"spread-max I S O", "-rrw", one_arc, "s 3\nf 1 2 1\nf 1 2 2\n", none, Status::done, "", "s 3\nf 1 2 3\n", ""},
    {"solve-max I S C --limit 10", "-rcc--", one_arc, none, none, Status::done, "v max 3\n", "s 3\nf 1 2 3\n",
     "p cut 2 1\nu 1\n"},
    {"solve-max I S C --limit 0", "-rcc--", one_arc, none, none, Status::gave_up, "g limit\n", "", ""},
    {"solve-min I S C", "-rcc", surplus, none, none, Status::done, "v infeasible\n", "", both},
    {"solve-paths G Q L", "-rrc", graph, source, none, Status::done, "v sp ss 1\n", dist, ""},
    {"explain show cut C", "---r", cut, none, none, Status::done, "i cut 4 1\n", "", ""},
};

static void runs_commands() {
    for (const auto &it : runs) {
        const auto words = detail::words_of(it.words);
        const auto asked = request(words);
        std::string marks;
        for (const auto &file : asked.value().plan) marks += file ? static_cast<char>(file->access) : '-';
        is(it.words, marks, it.marks);
        const Ran ran = command(words, it.first, it.second, it.third);
        check_that(it.words, ran.status == it.status);
        is(it.words, ran.report, it.report);
        is(it.words, ran.made, it.made);
        is(it.words, ran.more, it.more);
    }
    const Ran of_arrays = command({"explain", "judge-max", "I", "S", "C"}, max, "s 4\nf 1 2 4\n", cut, Form::arrays);
    is("texts made of arrays", of_arrays.report,
       "x node 2 Balance\n0 leaves node \0022, 4 enters it: 4 too little leaves\nflows out of it: 0\n"
       "flows into it: 1\n  arc \0011: \0021 -> \0022, FLOW 4\n");
    throws<Unread>("the second text", [] { return command({"judge-max", "I", "S", "C"}, max, none, cut); },
                   "text 2 of the command can't be read");
    throws<Unread>("it explained", [] { return command({"explain", "show", "max", "I"}, none); },
                   "text 1 of the command can't be read");
    throws<std::invalid_argument>("a text", [] { return command({"help"}, max); }, "no command with its files: help");
    throws<std::invalid_argument>("no UTF-8", [] { return command({"show", "max", "\xff"}, max); },
                                  "no command with its files: show max \xff");
    throws<std::invalid_argument>("no words", [] { return command({}, max); }, "no command with its files:");
}

static bool begins(const std::string &text, const std::string &with) { return text.rfind(with, 0) == 0; }

static void asks_for_no_run() {
    is("the version", request({"--version"}).message(), "dimacs " + version_text() + "\n");
    const auto help = request({"help", "judge-max"});
    check_that("help", help.get_if<Help>()->text.find("Usage: dimacs judge-max INSTANCE") != std::string::npos);
    const auto guess = request({"judgemax"}), odd = request({"show", "max", "\xff"});
    check_that("a guess", begins(guess.message(), "dimacs: usage\nno command judgemax: judge-max?\n"));
    check_that("no UTF-8", begins(odd.get_if<Complaint>()->told, "dimacs: usage\nan argument isn't UTF-8\n"));
    check_that("no words", request({}).holds<Complaint>());
    const auto twice = request({"solve-max", "an\nI", "S", "S"});
    is("a name without control characters", twice->plan[1]->shown, "an\\x0aI");
    is("told after the run", twice->told, "dimacs: S: written twice\n");
    const std::vector<std::string_view> slip{"certify-max", "I", "S", "S"};
    const auto replaces = request(slip, Ids{0, 1, 2, 2});
    check_that("a slip", begins(replaces.message(),
                                "dimacs: usage\nSOLUTION and CERTIFICATE are the same file: S\n"));
    check_that("which may be two files", request(slip).has_value());
    is("and runs all the same", command(slip, max, flow).made, cut);
    throws<WrongLength>("another length", [&] { return request(slip, Ids{0}); },
                        "same has 1 items, and there are 4 words");
    throws<std::invalid_argument>("a byte 0", [] { return request({std::string_view("show\0max", 8), "I"}); },
                                  "a word of a command has a byte 0");
}

static void explains_texts() {
    const std::string no = explain({"judge-max", "I", "S", "C"}, max, "s 4\nf 1 2 4\n", cut);
    check_that("a refusal explained", no.rfind("x node 2 Balance\n0 leaves node 2, 4 enters it", 0) == 0);
    const std::string yes = explain({"judge-max", "I", "S", "C"}, max, flow, cut);
    check_that("a yes explained", yes.rfind("v max 6\non the source's side of the cut, 1 of the 4 nodes: 1\n", 0) == 0);
    const std::string quoted = explain({"judge-max", "two words", "S", "C"}, "p max 1 x\n", flow, cut);
    check_that("a name with a blank", quoted.rfind("x instance 1 4 BadNumber\ntwo words:1: p max 1 x\n", 0) == 0);
    const std::string both_named = explain({"judge-max", "I", "I", "C"}, "p max 1 x\n", flow, cut);
    is("a name of two texts", both_named,
       "x instance 1 4 BadNumber\nI: is the name of two texts, so its lines are left out\n");
    is("a single text", explain({"show", "cut", "C"}, cut), "i cut 4 1\n");
    const std::string empty = explain({"judge-max", "I", "S", "C"}, max, "", cut);
    check_that("a text in no file", empty.find("a solve run") == empty.npos);
    throws<std::invalid_argument>(
        "no command", [] { explain({"judge-max", "I", "S"}, max, flow, cut); },
        "no command with its files: explain judge-max I S");
    throws<std::invalid_argument>(
        "a byte 0", [] { explain({std::string_view("judge-max\0I", 11), "S", "C"}, max, flow, cut); },
        "a word of a command has a byte 0");
}

static void judges_texts() {
    is("maximum", judge_max(max, flow, cut).value().value.str(), "6");
    is("least", judge_min(min, least, pot).value().value.str(), "14");
    check_that("no flow", judge_infeasible(surplus, both).has_value());
    check_that("all distances", judge_paths(graph, source, dist).value().sources == 1);
    const auto answer = judge_paths(graph, pairs, dist);
    check_that("two pairs", answer && answer->sources == 0 && answer->pairs.size() == 2);
    const Pair &near = answer->pairs[0], &far = answer->pairs[1];
    check_that("a distance",
               near.source == 1 && near.target == 2 && near.kind == Pair::Kind::distance && near.number == 5);
    check_that("no walk", far.target == 4 && far.kind == Pair::Kind::unreachable);
    const auto beyond = judge_paths(graph, "p aux sp p2p 1\nq 1 2\n", "p dist 4 1\nt 1 0 4\n");
    check_that("beyond a radius",
               beyond && beyond->pairs[0].kind == Pair::Kind::beyond && beyond->pairs[0].number == 4);
    const auto none = judge_max("", "", "");
    is("an empty text", none.message(), "x instance 1 0 ProblemMissing");
    const auto fault = judge_max(max, "s six\n", cut);
    const Refused &no = *fault.get_if<Refused>();
    check_that("a fault's place", no.text && no.text->text == "solution" && no.text->line == 1 && no.text->field == 2 &&
                                      no.reason == "BadNumber" && !no.arc && !no.node);
    const auto arc = judge_max(max, slow, cut);
    check_that("a test's arc", !arc && arc.get_if<Refused>()->arc == 1U && !arc.get_if<Refused>()->text);
    const auto node = judge_max(max, flow, "p cut 4 0\n");
    check_that("a test's node", node.get_if<Refused>()->node == 1U);
    throws<BadAnswer>("the value of a no", [] { return judge_max(max, slow, cut).value(); }, "x arc 1 NotSaturated");
}

static void certifies_texts() {
    const auto yes = certify_max(max, flow);
    check_that("certified maximum", yes && yes->value == 6 && yes->certificate == cut && yes.message().empty());
    const auto no = certify_max(max, slow);
    const auto *better = no.get_if<NotOptimalText>();
    check_that("not maximum", !no && better && better->printed == "x solution 1 2 NotMaximum" && better->better);
    check_that("the better one is maximum", certify_max(max, *better->better).has_value());
    const auto cheap = certify_min(min, least);
    check_that("certified least", cheap && cheap->value == 14);
    check_that("by potentials", judge_min(min, least, cheap->certificate).has_value());
    is("not least", certify_min(min, dear).message(), "x solution 1 2 NotLeast");
}

static void certifies_whole_claims() {
    const auto none = certify_infeasible(surplus);
    check_that("no feasible flow in a text", none && none->inside == both && judge_infeasible(surplus, none->inside));
    const auto one = certify_infeasible(min);
    const auto *flow_of = one.get_if<FeasibleText>();
    check_that("a feasible flow in a text", flow_of && flow_of->flow && one.message() == "x instance 0 0 Feasible");
    check_that("which is feasible", !certify_min(min, *flow_of->flow).holds<Refused>());
    const auto far = certify_paths(graph, "p distances 4 1\nt 1 1\nd 2 5\n");
    check_that("distances in a text", far && far->sources == 1 && far->labels == dist);
}

static void solves_texts() {
    const auto most = solve_max(max);
    check_that("a maximum flow", most && most->value == 6 && judge_max(max, most->solution, most->certificate));
    check_that("no flow is asked about", solve_max(max, 0).holds<GaveUp>());
    const auto cheap = solve_min(min);
    check_that("least cost", cheap && cheap->value == 14 && judge_min(min, cheap->solution, cheap->certificate));
    const auto none = solve_min(surplus);
    const auto *set = none.get_if<Infeasible<std::string>>();
    check_that("no feasible flow", set && set->inside == both && none.message() == "v infeasible");
    check_that("no step", solve_min(min, 0).holds<GaveUp>());
    const auto found = solve_paths(graph, pairs);
    check_that("paths", found && found->labels == dist && found->pairs.size() == 2 && found->pairs[0].number == 5);
    check_that("all paths", solve_paths(graph, source).value().sources == 1);
}

static void makes_texts() {
    is("converted", convert(Text::max, std::string("c\n") + max).value(), max);
    is("shown", show(Text::max, max).value(), "i max 4 5 1 4\n");
    is("of another kind", show(Text::min, max).message(), "x instance 1 2 BadWord");
    const std::string parallel = "p max 2 2\nn 1 s\nn 2 t\na 1 2 3\na 1 2 5\n";
    is("spread", spread_max(parallel, "s 6\nf 1 2 4\nf 1 2 2\n").value(), "s 6\nf 1 2 3\nf 1 2 3\n");
    is("spread by costs", spread_min("p min 2 2\na 1 2 0 3 9\na 1 2 0 5 1\n", "s 0\nf 1 2 6\n").value(),
       "s 0\nf 1 2 1\nf 1 2 5\n");
    std::string queries = "p aux sp p2p 900\n";
    for (int k = 0; k < 900; k++) queries += "q 1 4\n";
    const auto many = judge_paths(graph, queries, dist);
    check_that("more than the first room", many && many->pairs.size() == 900);
    std::string long_form = "p cut 4 0";
    for (int k = 0; k < 9; k++) long_form += "\n";
    is("lines", convert(Text::cut, long_form + "\n").value(), "p cut 4 0\n");
}

static const Ids tails{1, 1, 2, 2, 3}, heads{2, 3, 3, 4, 4};
static const Amounts caps{4, 2, 2, 3, 5}, lows(5), costs{2, 2, 1, 3, 1}, supplies{4, 0, 0, -4};
static const MaxInstance network{4, 1, 4, tails, heads, caps};
static const MinInstance shipping{4, tails, heads, lows, caps, costs, supplies};
static const Amounts last(3, INT64_MAX);

static void maximum_flows() {
    const Amounts flows{4, 2, 1, 3, 3}, few{3, 2, 0, 3, 2}, lost{4, 2, 2, 3, 3};
    const auto yes = certify_max(network, flows);
    check_that("a maximum flow in arrays", yes && yes->value == 6 && yes->inside == Inside({1, 0, 0, 0}));
    is("judged by its cut", judge_max(network, flows, yes->inside).value().value.str(), "6");
    const auto no = certify_max(network, few);
    const auto *better = no.get_if<NotOptimal<Flows>>();
    check_that("a better flow", better && better->better.size() == 5 && no.message() == "x solution 0 0 NotMaximum");
    check_that("which is maximum", certify_max(network, better->better).has_value());
    const auto refused = certify_max(network, lost);
    check_that("a node that keeps some", refused.get_if<Refused>() && refused.get_if<Refused>()->node == 2U);
    is("at no cut", judge_max(network, few, yes->inside).message(), "x arc 1 NotSaturated");
    const auto made = solve_max(network);
    check_that("made", made && made->value == 6 && judge_max(network, made->flows, made->inside));
    check_that("given up", solve_max(network, 0).message() == "g limit");
    const auto most = certify_max({2, 1, 2, Ids{1, 1, 1}, Ids{2, 2, 2}, last}, last);
    check_that("a value past 64 bits", most->value.str() == "27670116110564327421" && !most->value.to_int64());
    check_that("one of 64 bits", yes->value.to_int64() == 6 && yes->value != most->value);
    const auto empty = certify_max({2, 1, 2, {}, {}, {}}, {});
    check_that("no arcs", empty && empty->value == 0 && empty->inside == Inside({1, 0}));
}

static void misuses() {
    const Amounts flows{4, 2, 1, 3, 3};
    throws<WrongLength>("fewer flows", [&] { return certify_max(network, Amounts{1}); },
                        "flows has 1 items, and there are 5 arcs");
    throws<WrongLength>("fewer heads", [&] { return solve_max({4, 1, 4, tails, Ids{2}, caps}); },
                        "heads has 1 items, and there are 5 arcs");
    throws<WrongLength>("no kind", [&] { return convert(static_cast<Text>(99), max); },
                        "an array has another length than it has to have");
    throws_limit("the sink", [&] { return certify_max({4, 1, 1, tails, heads, caps}, flows); }, "x node 1 NodeTwice");
    throws_limit("too many nodes", [&] { return solve_max({UINT32_MAX, 1, 2, {}, {}, {}}); },
                 "x node 134217729 NumberRange");
    throws_limit("no source", [&] { return solve_paths({4, tails, heads, caps}, 5); }, "x node 5 NodeRange");
}

static void least_costs() {
    const Amounts flows{2, 2, 2, 0, 4}, much{2, 2, 1, 1, 3};
    const auto yes = certify_min(shipping, flows);
    check_that("least cost in arrays", yes && yes->value == 14 && judge_min(shipping, flows, yes->potentials));
    const auto no = certify_min(shipping, much);
    check_that("a cheaper flow", no.get_if<NotOptimal<Flows>>() && no.get_if<NotOptimal<Flows>>()->better.size() == 5);
    const auto unmet = certify_min(shipping, lows);
    check_that("no flow", unmet.get_if<Refused>()->node == 1U);
    const auto made = solve_min(shipping);
    check_that("made", made && made->value == 14 && judge_min(shipping, made->flows, made->potentials));
    const Amounts more{9, 0, 0, -9};
    const MinInstance short_of{4, tails, heads, lows, caps, costs, more};
    const auto none = solve_min(short_of);
    const auto *set = none.get_if<Infeasible<Inside>>();
    check_that("no feasible flow", set && judge_infeasible(short_of, set->inside));
    const auto certified = certify_infeasible(short_of);
    check_that("certified to have none", certified && judge_infeasible(short_of, certified->inside));
    const auto other = certify_infeasible(shipping);
    const auto *feasible = other.get_if<Feasible<Flows>>();
    check_that("a feasible flow", feasible && !certify_min(shipping, feasible->flow).holds<Refused>());
    is("there is one", judge_infeasible(shipping, Inside{1, 0, 0, 0}).message(), "x certificate 0 0 NotViolated");
    check_that("given up", solve_min(shipping, 0).holds<GaveUp>());
}

static void distances() {
    const Graph roads{4, tails, heads, costs};
    const Amounts right{0, 2, 2, 3};
    const auto yes = certify_paths(roads, 1, right);
    check_that("distances in arrays", yes && judge_paths(roads, 1, right, yes->predecessors));
    const auto no = certify_paths(roads, 1, Amounts{0, 2, 1, 3});
    check_that("one less 1", no.get_if<Refused>() != nullptr);
    const auto made = solve_paths(roads, 1);
    check_that("made", made && made->distances == right && made->predecessors[0] == 0);
    const auto alone = solve_paths(roads, 4);
    check_that("none is reached", alone->distances[0] == unreached);
    is("a weight below 0", solve_paths({2, Ids{1}, Ids{2}, Amounts{-1}}, 1).message(), "x arc 1 NegativeWeight");
    check_that(
        "a distance that doesn't fit",
        solve_paths({3, Ids{1, 2}, Ids{2, 3}, Amounts{INT64_MAX, 1}}, 1).holds<GaveUp>());
}

/* Texts in their canonical form, read and written again. */
static void reads_and_writes() {
    const auto network_of = read_max(max).value();
    check_that("a maximum flow instance", network_of.nodes == 4 && network_of.source == 1 && network_of.sink == 4 &&
                                              network_of.tails == tails && network_of.heads == heads &&
                                              network_of.caps == caps);
    is("written", write_max(network_of), max);
    const auto made = solve_max(network_of).value();
    check_that("read, solved and certified", certify_max(network_of, made.flows).has_value());
    const auto shipping_of = read_min(min).value();
    check_that("an instance of least cost", shipping_of.nodes == 4 && shipping_of.tails == tails &&
                                                shipping_of.heads == heads && shipping_of.lows == lows &&
                                                shipping_of.caps == caps && shipping_of.costs == costs &&
                                                shipping_of.supplies == supplies);
    is("written", write_min(shipping_of), min);
    check_that("solved", solve_min(shipping_of).value().value == 14);
    const auto roads = read_graph(graph).value();
    check_that("a graph", roads.nodes == 4 && roads.tails == Ids({1, 3, 4}) && roads.heads == Ids({2, 4, 3}) &&
                              roads.weights == Amounts({5, 0, 0}));
    is("written", write_graph(roads), graph);
    check_that("solved", solve_paths(roads, 1).value().distances[1] == 5);
    const auto claim = read_solution(flow, network_of).value();
    check_that("a solution", claim.value == 6 && claim.flows == Flows({4, 2, 1, 3, 3}));
    is("written", write_solution(claim.value, network, claim.flows), flow);
    check_that("one without some entries", read_solution(least, shipping).value().flows == Flows({2, 2, 2, 0, 4}));
    is("a cut", write_cut(read_cut(cut).value()), cut);
    is("one of more nodes than bytes", write_cut(read_cut("p cut 99 0\n").value()), "p cut 99 0\n");
    is("potentials", write_potentials(read_potentials(pot).value()), pot);
    const auto far = read_min("p min 99 0\nn 98 7\nn 99 -7\n");
    check_that("more nodes than lines", far && far->supplies.size() == 99 && far->supplies[98] == -7);
    const auto asked = read_queries(pairs).value(), all = read_queries(source).value();
    check_that("queries for pairs", asked.froms == Ids({1, 1}) && asked.tos == Ids({2, 4}));
    check_that("queries for all distances", all.froms == Ids({1}) && !all.tos);
}

/* Distances, labels and queries. */
static void reads_and_writes_paths() {
    const std::string far = "p distances 4 1\nt 1 1\nd 2 5\n", two = "p dist 99 2\nt 2 0\nt 1 1 7\nd 98 6 1\n";
    const auto distances = read_distances(far, 1).value();
    check_that("distances", distances == Amounts({0, 5, unreached, unreached}));
    is("written", write_distances(1, distances).value(), far);
    const auto labels = read_labels(dist, 1).value();
    check_that("labels", labels.distances == distances && labels.predecessors == Ids({0, 1, 0, 0}) && !labels.radius);
    is("written", write_labels(1, labels.distances, labels.predecessors).value(), dist);
    const auto block = read_labels(two, 1).value();
    check_that("the second block, of more nodes than lines", block.radius == 7 && block.distances.size() == 99 &&
                                                                 block.distances[97] == 6 &&
                                                                 block.predecessors[97] == 1);
    is("no block", read_distances(far, 2).message(), "x node 2 BlockMissing");
    is("the source's isn't 0", write_distances(2, distances).message(), "x node 2 NotShortest");
    is("no way back", write_labels(1, distances, Ids{0, 2, 0, 0}).message(), "x node 2 PredUnknown");
    throws<WrongLength>("fewer predecessors", [&] { return write_labels(1, distances, Ids(1)); },
                        "predecessors has 1 items, and there are 4 distances");
    throws_limit("no source", [&] { return write_distances(5, distances); }, "x node 5 NodeRange");
    is("queries for pairs", write_queries(read_queries(pairs).value()), pairs);
    is("for all distances", write_queries(read_queries(source).value()), source);
    throws<WrongLength>("a query without an end", [] { return write_queries({{1, 2}, Ids{3}}); },
                        "tos has 1 items, and there are 2 froms");
    throws_limit("node 0", [] { return write_queries({{0}, std::nullopt}); }, "x node 0 NumberRange");
}

/* What isn't read, and by which line. */
static void refuses_texts() {
    const std::string most = "9223372036854775808";
    rusage before, after;
    getrusage(RUSAGE_SELF, &before);
    is("arcs that aren't there", read_max("p max 2 268435456\nn 1 s\nn 2 t\n").message(), "x instance 4 0 TooFew");
    is("of least cost", read_min("p min 2 268435456\n").message(), "x instance 2 0 TooFew");
    is("of a graph", read_graph("p sp 2 268435456\n").message(), "x instance 2 0 TooFew");
    getrusage(RUSAGE_SELF, &after);
    check_that("which take no memory", after.ru_maxrss - before.ru_maxrss < 1 << 14);  // in kilobytes
    is("a byte 0", read_graph(std::string("p sp 2 1\na 1 2 7\0\n", 18)).message(), "x instance 2 4 BadNumber");
    is("no arc", read_solution("s 6\nf 4 1 6\n", network).message(), "x solution 2 0 UnknownArc");
    is("a potential past 64 bits", read_potentials("p pot 2 1\ny 2 " + most + "\n").message(), "x node 2 NumberRange");
    throws<WrongLength>("fewer flows", [] { return write_solution(6, network, Amounts(1)); },
                        "flows has 1 items, and there are 5 arcs");
    throws<WrongLength>("fewer heads", [] { return read_solution("s 0\n", Graph{4, tails, {}, caps}); },
                        "heads has 0 items, and there are 5 arcs");
    throws_limit("a node too high", [] { return write_graph({3, tails, heads, caps}); }, "x arc 4 NodeRange");
    throws_limit("of a solution", [] { return read_solution("s 0\n", Graph{3, tails, heads, caps}); },
                 "x arc 4 NodeRange");
}

/* What converts to a value, and is the same number. */
template <class Number>
static constexpr bool converts =
    std::is_constructible_v<Value, Number> || std::is_convertible_v<Number, Value>;

/* A view of vectors that are gone at once doesn't compile. */
template <class View, class Vectors, class Answered = decltype(*std::declval<Answer<Vectors, Refused>>())>
static constexpr bool is_safe = std::is_convertible_v<const Vectors &, View> && !std::is_convertible_v<Vectors, View> &&
                                !std::is_convertible_v<const Vectors, View> && !std::is_convertible_v<Answered, View>;
static_assert(is_safe<MaxInstance, MaxVectors> && is_safe<MinInstance, MinVectors> && is_safe<Graph, GraphVectors>);

/* What is gone at once lends nothing: a use of it doesn't compile, or gives a value. */
#define USE(use) \
    [](auto &&it) -> decltype(static_cast<decltype(it)>(it) use) { return static_cast<decltype(it)>(it) use; }
template <class It, class Use>
static constexpr bool lends(Use) {
    if constexpr (std::is_invocable_v<Use, It>) {
        using Used = std::invoke_result_t<Use, It>;
        return std::is_reference_v<Used> || std::is_pointer_v<Used>;
    } else {
        return false;
    }
}
template <class Use, class It = Answer<MaxVectors, Refused>>
static constexpr bool lends_while_it_stands(Use use) {
    return lends<It &>(use) && lends<const It &>(use) && !lends<It>(use) && !lends<const It>(use);
}
static_assert(lends_while_it_stands(USE(.operator->())) && lends_while_it_stands(USE(.template get_if<Refused>())));
static_assert(lends_while_it_stands(USE(.operator*())) && lends_while_it_stands(USE(.value())));
static_assert(lends_while_it_stands(USE(.variant())));
static_assert(!lends<Refused>(USE(.message())) && !lends<NotOptimalText>(USE(.message())));
static_assert(!lends<Value>(USE(.str())) && !lends<PastLimit>(USE(.refused())));

static void values() {
    static_assert(!converts<double> && !converts<float> && !converts<const char *> && !converts<std::nullptr_t>);
    static_assert(!std::is_invocable_v<std::equal_to<>, Value, double>);
    check_that("a sign isn't lost", Value(-1) != ~0ULL && Value(-1) == -1LL);
    is("the least of 64 bits", Value(INT64_MIN).str(), "-9223372036854775808");
    is("the greatest", Value(UINT64_MAX).str(), "18446744073709551615");
    is("of 8 bits", Value(static_cast<signed char>(-128)).str(), "-128");
    is("the least of 128 bits", Value(Wide(1) << 127).str(), "-170141183460469231731687303715884105728");
    is("the greatest of 128", Value(~UnsignedWide(0)).str(), "340282366920938463463374607431768211455");
    check_that("2^64 isn't 0", Value(Wide(1) << 64) != 0 && Value(Wide(1) << 64) == (UnsignedWide(1) << 64));
    std::ostringstream out;
    out << judge_max(max, flow, cut).value().value << ' ' << certify_min(min, least).value().value << ' '
        << solve_paths(graph, pairs).value().pairs[0].number;
    is("printed", out.str(), "6 14 5");
}

/* What no library of this version answers. */
static void unknown_answers() {
    using namespace detail;
    const std::string known = "libdimacs answers what dimacs.hpp doesn't know: ";
    for (const char *line : {"", "x", "x arc 3", "x arc three AboveCap", "x arc 3 Above Cap", "y arc 3 AboveCap",
                             "x arc -3 AboveCap", "x arc 18446744073709551616 AboveCap", "x node  Balance",
                             "x solution 2 NotMaximum", "x solution 2 two NotMaximum", "v max 3"}) {
        throws<UnknownAnswer>(line, [&] { return refused(line); }, known + line);
    }
    for (const char *line : {"", "v max", "v max six", "v max 6.0", "v max -", "v max 6 7", "x max 6"}) {
        throws<UnknownAnswer>(line, [&] { return value_of(line); }, known + line);
    }
    for (const char *line :
         {"v 1 2", "v 1 2 far", "v 1 2 more", "v 1 2 less 3", "v 1 x 3", "v sp ss", "v sp ss x", "v 1 4294967297 3"}) {
        throws<UnknownAnswer>(line, [&] { return paths_of(line); }, known + line);
    }
    throws<UnknownAnswer>("an empty line", [] { return paths_of("v 1 2 3\n\nv 1 3 4\n"); }, known);
    throws<UnknownAnswer>("a status", [] { return throw_for(9, ""), 0; }, known + "the status 9");
    for (const char *lines : {"-r", "-rr\na\n", "-x\na\n", "-rr\na\nb\n"}) {
        throws<UnknownAnswer>(lines, [&] { return run_of(lines, std::string_view(lines) == "-rr\na\n" ? 3 : 2); });
    }
    check_that("its own lines are known", refused("x query 1 0 ProblemMissing\n").text->text == "query" &&
                                              value_of("v min -1000000000000000000000000000000\n") != 0 &&
                                              paths_of("v sp ss 18446744073709551615\n").sources == UINT64_MAX);
}

/* An exception that was moved from has what it had. */
static void moved_exceptions() {
    PastLimit one(detail::refused("x arc 4 NodeRange"));
    const PastLimit other(std::move(one));
    is("moved", other.refused().printed, "x arc 4 NodeRange");
    is("moved from", one.refused().printed, "x arc 4 NodeRange");
    one = PastLimit(detail::refused("x node 1 NodeTwice"));
    is("assigned", one.refused().printed + one.what(), "x node 1 NodeTwicex node 1 NodeTwice");
}

static void takes_what_has_items() {
    const std::array<std::uint32_t, 1> tail{1};
    const std::uint32_t head[] = {2};
    std::vector<std::int64_t> cap{7};
    const MaxInstance arc{2, 1, 2, tail, head, {cap.data(), cap.size()}};
    check_that("an array, a C array, and a pointer with a size", solve_max(arc).value().value == 7);
    const std::int64_t sum = std::visit(
        [](const auto &it) -> std::int64_t {
            if constexpr (std::is_same_v<std::decay_t<decltype(it)>, GaveUp>) {
                return 0;
            } else {
                return it.flows[0];
            }
        },
        solve_max(arc).variant());
    check_that("visited", sum == 7);
    check_that("the version", version() == DIMACS_VERSION_NUMBER);
    const std::string text = version_text();
    check_that("its text begins with the header's", text.rfind(DIMACS_VERSION " (", 0) == 0 && text.back() == ')');
    check_that("and says whether it is proved", proved() == (text.find("(proved by ") != std::string::npos));
    check_that("or not", proved() != (text.find("(not proved)") != std::string::npos));
}

int main() {
    runs_commands();
    asks_for_no_run();
    explains_texts();
    judges_texts();
    certifies_texts();
    certifies_whole_claims();
    solves_texts();
    makes_texts();
    maximum_flows();
    misuses();
    least_costs();
    distances();
    reads_and_writes();
    reads_and_writes_paths();
    refuses_texts();
    takes_what_has_items();
    values();
    unknown_answers();
    moved_exceptions();
    check_that("LEMON's part and Boost's aren't seen", dimacs::lemon && dimacs::boost);
    return count();
}
