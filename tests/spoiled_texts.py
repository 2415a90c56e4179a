"""Random texts for a judge: small instances with right answers and their certificates, edited, and laid out in all ways.

A text is a list of lines, and a line a list of fields, until it is laid out.
"""
import collections
import os
import random
import re
import sys

sys.path.insert(0, os.path.join(os.path.dirname(os.path.abspath(__file__)), "../referee"))

from referee import JUDGES, KINDS, RANGE  # noqa: E402

NODE_FIELDS = ["ID", "TAIL", "HEAD", "FROM", "TO", "SOURCE", "PRED"]

# How much numbers are multiplied by.
SCALES = [1, 1, 1, 1, 2**31, 10**15, 2**60]


def rows(*lines):
    return [line.split() for line in lines]


def mixed(rng, items):
    return rng.sample(items, len(items))


def some_nodes(rng, least):
    """A number of nodes: mostly few."""
    return rng.randint(least, rng.choice([7] * 30 + [80]))


# ---- right answers


def flow_rows(rng, value, arcs, flow):
    """A solution. Parallel arcs have their lines in their order; some arcs without flow have none."""
    amounts = collections.defaultdict(list)
    for arc, amount in zip(arcs, flow):
        amounts[arc[:2]].append(amount)
    named = [ends for ends in amounts if any(amounts[ends]) or rng.random() < 0.5]
    order = [ends for ends in named for _ in amounts[ends]]
    if rng.random() < 0.5:
        rng.shuffle(order)
    lines = rows(*(f"f {tail} {head} {amounts[tail, head].pop(0)}" for tail, head in order))
    lines.insert(rng.choice([0, 0, len(lines)]), ["s", str(value)])
    return lines


def cut_rows(rng, nodes, inside):
    return rows(f"p cut {nodes} {len(inside)}", *(f"u {v}" for v in mixed(rng, inside)))


def crossing_flow(rng, inside, outside):
    """Paths that cross the cut once, and arcs without flow; now and then a cycle, which enters the cut too."""
    scale, arcs, flow, value = rng.choice(SCALES), [], [], 0
    for _ in range(rng.randint(0, 3 + len(inside) // 4)):
        path = inside[:1] + rng.sample(inside[1:], rng.randint(0, len(inside) - 1))
        path += rng.sample(outside[:-1], rng.randint(0, len(outside) - 1)) + outside[-1:]
        amount = rng.randint(0, 2) * scale
        value += amount
        arcs += zip(path, path[1:])
        flow += [amount] * (len(path) - 1)
    for _ in range(rng.randint(0, 4 + len(inside))):
        arcs.append((rng.choice(inside + outside), rng.choice(inside + outside)))
        flow.append(rng.randint(0, 2) if arcs[-1][0] == arcs[-1][1] else 0)
    if rng.random() < 0.1:
        cycle = mixed(rng, inside + outside)
        arcs += zip(cycle, cycle[1:] + cycle[:1])
        flow += [scale] * len(cycle)
    order = mixed(rng, range(len(arcs)))
    return [arcs[k] for k in order], [flow[k] for k in order], value


def max_texts(rng):
    nodes = some_nodes(rng, 2)
    order, split = mixed(rng, range(1, nodes + 1)), rng.randint(1, nodes - 1)
    inside, outside = order[:split], order[split:]
    arcs, flow, value = crossing_flow(rng, inside, outside)
    lines = [f"p max {nodes} {len(arcs)}", *mixed(rng, [f"n {order[0]} s", f"n {order[-1]} t"])]
    for (tail, head), amount in zip(arcs, flow):
        full = tail in inside and head in outside
        lines.append(f"a {tail} {head} {amount + (0 if full else rng.choice([0, 0, 1, 5]))}")
    return [rows(*lines), flow_rows(rng, value, arcs, flow), cut_rows(rng, nodes, inside)]


def min_rows(rng, nodes, supplies, arcs):
    named = [f"n {v} {supplies[v]}" for v in range(1, nodes + 1) if supplies[v] or rng.random() < 0.2]
    arc_lines = ("a " + " ".join(map(str, arc)) for arc in arcs)
    return rows(f"p min {nodes} {len(arcs)}", *mixed(rng, named), *arc_lines)


def min_texts(rng):
    """Bounds about a flow, so that complementary slackness holds; but for a few, with a potential that is off by 1."""
    nodes, scale = some_nodes(rng, 1), rng.choice(SCALES)
    most_cost, most_y = rng.choice([3, 3, 10**15, 2**63 - 1]), rng.choice([3, 3, 2**63, 10**30])
    y = [rng.choice([0, rng.randint(-most_y, most_y)]) for _ in range(nodes + 1)]
    arcs, flow, supplies = [], [], [0] * (nodes + 1)
    for _ in range(rng.randint(0, 6 if nodes < 8 else 4 * nodes)):
        tail, head = rng.randint(1, nodes), rng.randint(1, nodes)
        costs = [y[tail] - y[head] + rng.randint(-1, 1), most_cost, -most_cost, rng.randint(-most_cost, most_cost)]
        cost = rng.choice([cost for cost in costs if abs(cost) < 2**63])
        amount, reduced = rng.randint(0, 2) * scale, cost - y[tail] + y[head]
        low = amount if reduced > 0 else rng.choice([0, rng.randint(0, amount)])
        cap = amount if reduced < 0 else amount + rng.choice([0, 0, 1, 5])
        arcs.append((tail, head, low, cap, cost))
        flow.append(amount)
        supplies[tail] += amount
        supplies[head] -= amount
    y[rng.randint(1, nodes)] += rng.choice([0] * 8 + [-1, 1])
    named = [v for v in range(1, nodes + 1) if y[v] or rng.random() < 0.2]
    potentials = rows(f"p pot {nodes} {len(named)}", *(f"y {v} {y[v]}" for v in mixed(rng, named)))
    cost = sum(arc[4] * amount for arc, amount in zip(arcs, flow))
    value = cost if abs(cost) <= 10**30 else 0
    return [min_rows(rng, nodes, supplies, arcs), flow_rows(rng, value, arcs, flow), potentials]


def infeasible_texts(rng):
    """A set whose supply is at a bound of what can flow out of it, or one past it."""
    nodes, scale, arcs, least, most = some_nodes(rng, 1), rng.choice(SCALES), [], 0, 0
    inside = [v for v in range(1, nodes + 1) if rng.random() < 0.5]
    supplies = [rng.randint(-3, 3) * rng.choice([0, scale]) for _ in range(nodes + 1)]
    for _ in range(rng.randint(0, 5 if nodes < 8 else 4 * nodes)):
        tail, head, low = rng.randint(1, nodes), rng.randint(1, nodes), rng.randint(0, 2) * rng.choice([0, scale])
        cap = low + rng.randint(0, 3)
        arcs.append((tail, head, low, cap, rng.randint(-2, 2)))
        if tail in inside and head not in inside:
            least, most = least + low, most + cap
        if head in inside and tail not in inside:
            least, most = least - cap, most - low
    if inside:
        supply = rng.choice([most + 1, most + 1, least - 1, least - 1, most, least])
        supplies[rng.choice(inside)] += supply - sum(supplies[v] for v in inside)
    return [min_rows(rng, nodes, supplies, arcs), cut_rows(rng, nodes, inside)]


def block_rows(rng, arcs, source, radius):
    """The labels from a source, by as many rounds over the arcs as it takes."""
    label, pred, better = {source: 0}, {}, True
    while better:
        better = False
        for tail, head, weight in arcs:
            if tail in label and label[tail] + weight < label.get(head, label[tail] + weight + 1):
                label[head], pred[head], better = label[tail] + weight, tail, True
    order = [source]
    for v in order:
        order += [head for head in mixed(rng, sorted(pred)) if pred[head] == v]
    named = [v for v in order[1:] if radius is None or label[v] <= radius]
    first = f"t {source} {len(named)}" + ("" if radius is None else f" {radius}")
    return rows(first, *(f"d {v} {label[v]} {pred[v]}" for v in named))


def query_rows(rng, nodes, sources):
    """Of sources that have a block, but for a few."""
    count = rng.choice([0, 1, 2, 3, 3]) if sources else rng.choice([0, 0, 0, 1])
    asked = [rng.choice(sources) if sources and rng.random() < 0.97 else rng.randint(1, nodes) for _ in range(count)]
    if rng.random() < 0.3:
        return rows(f"p aux sp ss {count}", *(f"s {v}" for v in asked))
    return rows(f"p aux sp p2p {count}", *(f"q {v} {rng.randint(1, nodes)}" for v in asked))


def paths_texts(rng):
    """No cycle has a negative weight; no arc, if a block has a radius, but for a few."""
    nodes, scale = some_nodes(rng, 1), rng.choice([1, 1, 1, 2**31, 2**58])
    radius = rng.random() < 0.5
    heights = [0 if radius and rng.random() < 0.9 else rng.choice([0, rng.randint(0, 3)]) for _ in range(nodes + 1)]
    arcs = []
    for _ in range(rng.randint(0, 10 if nodes < 8 else 4 * nodes)):
        tail, head = rng.randint(1, nodes), rng.randint(1, nodes)
        arcs.append((tail, head, (rng.randint(0, 4) + heights[tail] - heights[head]) * scale))
    sources = rng.sample(range(1, nodes + 1), rng.randint(0, min(3, nodes)))
    radii = [rng.choice([None, 0, rng.randint(0, 8) * scale, 10**30]) if radius else None for _ in sources]
    blocks = [block_rows(rng, arcs, source, radius) for source, radius in zip(sources, radii)]
    graph = rows(f"p sp {nodes} {len(arcs)}", *("a " + " ".join(map(str, arc)) for arc in arcs))
    labels = rows(f"p dist {nodes} {len(blocks)}", *(" ".join(line) for block in blocks for line in block))
    return [graph, query_rows(rng, nodes, sources), labels]


def renumber(rng, kinds, texts):
    """Gives the nodes IDs in any order and far apart, some of them near each other. A judge of flows tests each node."""
    most, ids = rng.choice([2**12] * 30 + [2**18] * 8 + [2**27]), {}
    bases = [rng.randint(0, most - 64) for _ in range(3)]
    for kind, lines in zip(kinds, texts):
        for line in lines:
            form = next(it.split() for it in KINDS[kind][1] if (it[0], len(it.split())) == (line[0], len(line)))
            for place, name in enumerate(form):
                if name == "NODES":
                    line[place] = str(most)
                if name in NODE_FIELDS:
                    free = [most, rng.randint(1, most), rng.choice(bases) + rng.randint(1, 64), *range(1, 99)]
                    free = [v for v in free[rng.randrange(3) :] if v not in ids.values()]
                    line[place] = str(ids.setdefault(line[place], free[0]))


MAKERS = {"max": max_texts, "min": min_texts, "infeasible": infeasible_texts, "paths": paths_texts}


# ---- edits of a text, most of which spoil it

NO_NUMBERS = ["+", "-", "--1", "+-1", "1.0", "1e3", "0x7", "1_0", "x", "\xb2", "1\xa0", "\x0c1", "1\x00", "\x0b", "1-"]
WORDS = [*"max min sp gr aux ss p2p cut pot dist s t S MAX maxx st sink p".split(), "ss\x00"]
LETTERS = [*"anpsqftduyexvAPN", "aa", "pp", "\x00a", "a\x0c", "\xefp", "\x0b"]
NO_FIELD = ["", "x"], 1
is_number = re.compile("-?[0-9]+").fullmatch


def any_field(rng, lines):
    """A line and a place in it after the letter. The problem line is taken more often than others."""
    long = [line for line in lines if len(line) > 1]
    if not long:
        return NO_FIELD
    line = long[0] if rng.random() < 0.2 else rng.choice(long)
    return line, rng.randrange(1, len(line))


def near(rng, _, lines):
    """Changes a number by 1, or to one that stands elsewhere in the text."""
    places = [(line, place) for line in lines for place, field in enumerate(line) if is_number(field)]
    if places:
        (line, place), (other, elsewhere) = rng.choice(places), rng.choice(places)
        line[place] = rng.choice([str(int(line[place]) + rng.choice([-1, 1])), other[elsewhere]])


def end_of_range(rng, kind, lines):
    """Changes a number to an end of its field's range, or one past it, or to an end of another range."""
    line, place = any_field(rng, lines)
    names = [form.split()[place] for form in KINDS[kind][1] if form[0] == line[0] and len(form.split()) > place]
    ranges = [RANGE[name] for name in names if name in RANGE]
    if ranges:
        (least, greatest), other = rng.choice(ranges), rng.choice(rng.choice(list(RANGE.values())))
        line[place] = str(rng.choice([least, least - 1, greatest, greatest + 1, other + rng.randint(-1, 1)]))


def no_number(rng, _, lines):
    line, place = any_field(rng, lines)
    line[place] = rng.choice(NO_NUMBERS)


def other_word(rng, _, lines):
    places = [(line, place) for line in lines for place in range(1, len(line)) if not is_number(line[place])]
    line, place = rng.choice(places or [any_field(rng, lines)])
    line[place] = rng.choice(WORDS)


def other_letter(rng, _, lines):
    rng.choice(lines or [["", "x"]])[0] = rng.choice(LETTERS)


def other_length(rng, _, lines):
    line = rng.choice(lines or [["", "x"]])
    if len(line) > 1 and rng.random() < 0.5:
        del line[rng.randrange(1, len(line))]
    else:
        line.insert(rng.randint(1, len(line)), rng.choice(["0", "1", "x"]))


def repeated(rng, _, lines):
    if lines:
        lines.insert(rng.randint(0, len(lines)), list(rng.choice(lines)))


def inserted(rng, kind, lines):
    """Puts in a line of a form of the kind, with small numbers."""
    fields = rng.choice(KINDS[kind][1]).split()
    line = [str(rng.randint(0, 4)) if field.isupper() else rng.choice(field.split("|")) for field in fields]
    lines.insert(rng.randint(0, len(lines)), line)


def removed(rng, _, lines):
    if lines:
        del lines[rng.randrange(len(lines))]


def moved(rng, _, lines):
    if lines:
        line = lines.pop(rng.randrange(len(lines)))
        lines.insert(rng.randint(0, len(lines)), line)


def cut_off(rng, _, lines):
    del lines[rng.randint(0, len(lines)) :]


def count_again(lines):
    """Makes the counts of a text fit its lines, so that later tests are reached."""
    block = None
    for line in lines:
        if line[0] == "p" and len(line) > 3:
            line[-1] = str(sum(other[0] in [*"asquyt"] for other in lines))
        if line[0] == "t" and len(line) > 2:
            block = line
            block[2] = "0"
        if line[0] == "d" and block:
            block[2] = str(int(block[2]) + 1)


SLIPS = {near: 12, repeated: 1, inserted: 1, removed: 1, moved: 1}
FAULTS = {near: 4, end_of_range: 9, no_number: 7, other_word: 1, other_letter: 1, other_length: 3, repeated: 3}
FAULTS.update({inserted: 4, removed: 2, moved: 2, cut_off: 1})


# ---- layouts of a text

SKIPPED = ["", " ", "\t", "\r", "c", "c a comment", "cut 4", "  cp sp 2 1", "\tc\xff", "c\x00", " \r"]
BLANKS = [" ", " ", " ", "  ", "\t", " \t ", "\r"]


def otherwise(rng, field):
    """A number written in another way."""
    if not is_number(field):
        return field
    digits = field.lstrip("-")
    signs = ["", "+", "-"] if set(digits) == {"0"} else ["-"] if field != digits else ["", "+"]
    return rng.choice(signs) + "0" * rng.choice([0, 0, 1, 3, 30, rng.choice([0, 5000])]) + digits


def plain(_, lines):
    return "".join(" ".join(line) + "\n" for line in lines)


def wild(rng, lines):
    """With other blanks, skipped lines, line ends and ways to write numbers."""
    laid_out = []
    for line in lines:
        while rng.random() < 0.15:
            laid_out.append(rng.choice(SKIPPED))
        fields = line if rng.random() < 0.5 else [otherwise(rng, field) for field in line]
        begin, end = rng.choice(["", "", "", "\t "]), rng.choice(["", "", "\r", " "])
        laid_out.append(begin + "".join(field + rng.choice(BLANKS) for field in fields[:-1]) + fields[-1] + end)
    return "\n".join(laid_out) + rng.choice(["\n", "\n", "\n", "", "\n\n", "\nc", "\r\n", "\n "])


def long_line(rng, lines):
    """With a line of the most bytes, or of one more: by blanks, by leading zeros, or a comment."""
    laid_out = [" ".join(line) for line in lines] or [""]
    place, most = rng.randrange(len(laid_out)), 2**20 + rng.choice([0, 1, 1])
    missing = most - len(laid_out[place])
    head, blank, last = laid_out[place].rpartition(" ")
    ways = [head + blank + filler * missing + last for filler in "0 \t\r"]
    laid_out[place : place + 1] = rng.choice([[way] for way in ways] + [["c" * most, laid_out[place]]])
    return "\n".join(laid_out) + "\n"


# A text with a long line takes the judge in Coq a hundred times as long as others.
LAYOUTS = {plain: 60, wild: 39.6, long_line: 0.4}


def chosen(rng, weights):
    return rng.choices(list(weights), weights.values())[0]


def judged_texts(command, seed):
    """The texts of a case, each a str with a character for each byte."""
    rng = random.Random(seed)
    texts = MAKERS[command](rng)
    if rng.random() < 0.1:
        renumber(rng, JUDGES[command][1], texts)
    edits, recounted = rng.choice([(SLIPS, 0.9), (FAULTS, 0.3)])
    for _ in range(rng.choice([0, 1, 1, 1, 1, 1, 1, 2, 2, 3])):
        at = rng.choice([0, 1, 2]) % len(texts)
        chosen(rng, edits)(rng, JUDGES[command][1][at], texts[at])
        if rng.random() < recounted:
            count_again(texts[at])
    if rng.random() < 0.01:
        rng.shuffle(texts)
    return [chosen(rng, LAYOUTS)(rng, lines) for lines in texts]
