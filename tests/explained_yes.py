"""A second reader of texts that writes the lines which explain a yes.

It knows the forms of the lines. It computes each number anew by its definition, from the texts alone.
"""
import random

from instances import graph_text, max_text, min_text, network, text

SHOWN = 6
BOUND = (
    "with potentials y (0 without a line) and r = COST - y(TAIL) + y(HEAD), a feasible flow costs the sum of "
    "y * SUPPLY over the nodes plus that of r * FLOW over the arcs"
)
SAME = "y * SUPPLY, the same for each flow; nodes where it isn't 0"
LEAST = "r * FLOW, at least r * LOW if r is above 0, else r * CAP; arcs where that isn't 0"
PAST = "each arc from a node with a label to one without leads past it"
SHORTEST = "no walk is shorter: from the source, whose label is 0, each arc raises the label by its WEIGHT at most"


def numbers(line):
    return [int(word) for word in line.split()[1:] if word.lstrip("-").isdigit()]


def lines_of(text, letter):
    return [numbers(line) for line in text.splitlines() if line.startswith(letter + " ")]


def sum_of(terms):
    """A sum as it is written: after six terms the rest is one."""
    terms = list(terms)
    total = sum(terms)
    if len(terms) < 2:
        return str(total)
    if len(terms) > SHOWN:
        terms = [*terms[:SHOWN], sum(terms[SHOWN:])]
    signed = [f" - {-term}" if term < 0 else f" + {term}" for term in terms[1:]]
    return f"{terms[0]}{''.join(signed)} = {total}"


def listed(name, all_of_it, terms):
    """A list's lines: its name and number, the first six, and the sum of the other terms."""
    others = [f"  all others: {sum(terms[SHOWN:])}"] * (len(all_of_it) > SHOWN)
    return [f"{name}: {len(all_of_it)}", *all_of_it[:SHOWN], *others]


def operand(number):
    return f"({number})" if number < 0 else str(number)


def in_set(what, nodes, of):
    first = "".join(f" {node}" for node in sorted(nodes)[:SHOWN])
    return f"{what}, {len(nodes)} of the {of} nodes:{first}{' ..' * (len(nodes) > SHOWN)}"


def across(arcs, nodes, leaving, entering):
    """The arcs out of a set, and those into it, each with one of its numbers."""
    out, into = [], []
    for k, arc in enumerate(arcs, 1):
        ends = arc[0] in nodes, arc[1] in nodes
        if ends == (True, False):
            out.append((k, arc, leaving(k, arc)))
        if ends == (False, True):
            into.append((k, arc, entering(k, arc)))
    return out, into


def arc_lines(found, word):
    return [f"  arc {k}: {arc[0]} -> {arc[1]}, {word} {number}" for k, arc, number in found]


def flow_of(arcs, solution):
    """The flow of each arc, by the order of the entries with its ends."""
    entries = lines_of(solution, "f")
    flow = []
    for tail, head, *_ in arcs:
        place = next((k for k, entry in enumerate(entries) if entry and entry[:2] == [tail, head]), None)
        flow.append(0 if place is None else entries[place][2])
        if place is not None:
            entries[place] = None
    return flow


def maximum(instance, solution, cut):
    """The explanation of a maximum flow, by the definition of a tight cut."""
    nodes = {line[0] for line in lines_of(cut, "u")}
    arcs = lines_of(instance, "a")
    flow = flow_of(arcs, solution)
    out, into = across(arcs, nodes, lambda k, arc: arc[2], lambda k, arc: flow[k - 1])
    assert all(flow[k - 1] == cap for k, _, cap in out) and all(amount == 0 for *_, amount in into)
    yield in_set("on the source's side of the cut", nodes, lines_of(instance, "p")[0][0])
    yield from listed("arcs into it, all empty", arc_lines(into, "FLOW"), [0] * len(into))
    caps = [cap for *_, cap in out]
    yield from listed("arcs out of it, all full", arc_lines(out, "CAP"), caps)
    if caps:
        yield f"{sum_of(caps)}, the value of the flow: all flow to the sink has to cross these arcs, so none has a greater value"
    else:
        yield "no flow reaches the sink, so none has a value above 0"
    assert lines_of(solution, "s") == [[sum(cap for *_, cap in out)]]


def infeasible(instance, cut):
    """The explanation that no flow is feasible, by the definition of a violated set."""
    nodes = {line[0] for line in lines_of(cut, "u")}
    arcs = lines_of(instance, "a")
    supplies = [supply for node, supply in sorted(lines_of(instance, "n")) if node in nodes and supply]
    supply = sum(supplies)
    low, cap = (lambda k, arc: arc[2]), (lambda k, arc: arc[3])
    limit, words = "at most", ("CAP", "LOW")
    out, into = across(arcs, nodes, cap, low)
    if supply <= sum(n for *_, n in out) - sum(n for *_, n in into):
        limit, words = "at least", ("LOW", "CAP")
        out, into = across(arcs, nodes, low, cap)
    leaves, enters = [n for *_, n in out], [n for *_, n in into]
    net = sum(leaves) - sum(enters)
    assert supply > net if limit == "at most" else supply < net
    yield in_set("in the set", nodes, lines_of(instance, "p")[0][0])
    yield f"its supply: {sum_of(supplies)}"
    if len(nodes) == lines_of(instance, "p")[0][0]:
        yield "so the supplies of all nodes don't add up to 0, and no arc leads out of them: no flow is feasible"
        return
    yield from listed("arcs out of it", arc_lines(out, words[0]), leaves)
    yield from listed("arcs into it", arc_lines(into, words[1]), enters)
    yield f"these bounds add up to {sum_of(leaves)} out of it, and {sum_of(enters)} into it"
    net = f"{sum(leaves)} - {sum(enters)} = {net}"
    yield f"so what leaves it, less what enters it, is {limit} {net}, but has to be its supply, {supply}: no flow is feasible"


def least(instance, solution, potentials):
    """The explanation of a flow of least cost, by the definitions of its cost and of reduced costs."""
    arcs = lines_of(instance, "a")
    flow = flow_of(arcs, solution)
    y = dict(lines_of(potentials, "y"))
    paid = [(flow[k] * arc[4], k) for k, arc in enumerate(arcs) if flow[k] * arc[4]]
    greatest = sorted(paid, key=lambda each: (-abs(each[0]), each[1]))
    if paid:
        yield "FLOW * COST of the arcs, the greatest in size first:"
        for cost, k in greatest[:SHOWN]:
            yield f"  arc {k + 1}: {arcs[k][0]} -> {arcs[k][1]}, {flow[k]} * {operand(arcs[k][4])} = {cost}"
        if len(paid) > SHOWN:
            yield f"  all others: {sum(cost for cost, _ in greatest[SHOWN:])}"
        yield sum_of(cost for cost, _ in greatest) + ", the cost"
    else:
        yield "no arc with flow has a COST: the cost is 0"
    yield BOUND
    supplied = [(node, y.get(node, 0), supply) for node, supply in sorted(lines_of(instance, "n"))]
    supplied = [each for each in supplied if each[1] * each[2]]
    fixed = [potential * supply for _, potential, supply in supplied]
    yield from listed(SAME, [f"  node {node}: {y} * {operand(supply)}" for node, y, supply in supplied], fixed)
    yield sum_of(fixed)
    reduced = [arc[4] - y.get(arc[0], 0) + y.get(arc[1], 0) for arc in arcs]
    lines, bounds = [], []
    for k, arc in enumerate(arcs):
        word, bound = ("LOW", arc[2]) if reduced[k] > 0 else ("CAP", arc[3])
        if reduced[k] * bound:
            ends = y.get(arc[0], 0), y.get(arc[1], 0)
            r = f"{arc[4]} - {operand(ends[0])} + {operand(ends[1])} = {reduced[k]}"
            lines.append(f"  arc {k + 1}: {arc[0]} -> {arc[1]}, r = {r}, {word} {bound}")
            bounds.append(reduced[k] * bound)
    yield from listed(LEAST, lines, bounds)
    yield sum_of(bounds)
    yield f"{sum_of([sum(fixed), sum(bounds)])}: no flow costs less"
    assert sum(fixed) + sum(bounds) == sum(cost for cost, _ in paid)
    tight = [k for k, each in enumerate(reduced, 1) if each == 0]
    first = "".join(f" {k}" for k in tight[:SHOWN]) + " .." * (len(tight) > SHOWN)
    if tight:
        yield f"another flow of this cost can differ only on arcs with r = 0, {len(tight)} of {len(arcs)}:{first}"
    else:
        yield "no arc has r = 0: no other flow costs as little"


def blocks_of(labels):
    """Each block's source, radius and labels: distance and predecessor by node."""
    blocks = []
    for line in labels.splitlines():
        if line.startswith("t "):
            source, _, *radius = numbers(line)
            blocks.append((source, radius[0] if radius else None, {}))
        if line.startswith("d "):
            node, dist, pred = numbers(line)
            blocks[-1][2][node] = (dist, pred)
    return blocks


def distances_text(labels):
    """The claim that labels make, without radii and predecessors."""
    lines = []
    for line in labels.splitlines():
        words = line.split()
        words = words[:3] if words[0] in "td" else ["p", "distances", *words[2:]]
        lines.append(" ".join(words) + "\n")
    return "".join(lines)


def late_block(nodes, order):
    """A path with its arcs in this order, and after it a cycle without weight; distances from 200 sources, of which the
    last has the cycle too near.
    """
    arcs = [*order([(node, node + 1, 1) for node in range(1, nodes)]), (nodes, nodes + 1, 0), (nodes + 1, nodes, 0)]
    blocks = []
    for source in range(1, 201):
        last = nodes - source - (source == 200)
        dists = [*range(1, nodes - source), last, last]
        blocks += [f"t {source} {len(dists)}", *(f"d {node} {dist}" for node, dist in enumerate(dists, source + 1))]
    return [graph_text(nodes + 1, arcs), text(f"p distances {nodes + 1} 200", *blocks)]


def route(arcs, source, labels, to):
    """A route by predecessors, each step by an arc of the weight that is written."""
    steps = []
    while to != source:
        dist, pred = labels[to]
        weight = dist - (0 if pred == source else labels[pred][0])
        assert [pred, to, weight] in arcs
        steps.append((to, weight))
        to = pred
    steps.reverse()
    nodes = [f" -> {node}" for node, _ in steps]
    if len(nodes) > SHOWN + 1:
        nodes = [*nodes[:SHOWN], " -> ..", nodes[-1]]
    return f"{source}{''.join(nodes)}: {sum_of(weight for _, weight in steps)}"


def shortest(arcs, source, nodes):
    """All distances from a node, by as many rounds as there are nodes."""
    dist = {source: 0}
    for _ in range(nodes):
        for tail, head, weight in arcs:
            if tail in dist:
                dist[head] = min(dist.get(head, dist[tail] + weight), dist[tail] + weight)
    return dist


def distances(graph, queries, labels):
    """The explanation of distances, by walks in the graph."""
    arcs = lines_of(graph, "a")
    blocks = {source: (radius, by_node) for source, radius, by_node in blocks_of(labels)}
    for source, (radius, by_node) in blocks.items():
        right = shortest(arcs, source, lines_of(graph, "p")[0][0])
        del right[source]
        assert {node: dist for node, (dist, _) in by_node.items()} == {
            node: dist for node, dist in right.items() if radius is None or dist <= radius
        }
    nodes = lines_of(graph, "p")[0][0]
    sources = [line[0] for line in lines_of(queries, "s")]
    pairs = lines_of(queries, "q")
    has_route = False
    for source, to in pairs[:10]:
        radius, by_node = blocks[source]
        has_route |= to == source or to in by_node
        if to == source:
            yield f"{to} to itself, without an arc: 0"
        elif to in by_node:
            yield route(arcs, source, by_node, to)
        elif radius is None:
            reached = [source, *by_node]
            first = "".join(f" {node}" for node in reached[:SHOWN]) + " .." * (len(reached) > SHOWN)
            yield f"no walk from {source} to {to}: no arc leads out of the nodes that {source} reaches, {len(reached)}:{first}"
        else:
            yield f"no walk from {source} to {to} weighs at most {radius}, the RADIUS: {PAST}, and no WEIGHT is negative"
    for source in sources[:10] if sources or pairs else list(blocks)[:10]:
        has_route |= bool(blocks[source][1])
        yield from farthest(arcs, nodes, source, *blocks[source])
    if not (sources or pairs or blocks):
        yield "no distance is claimed: there is no block"
    if len(sources or pairs or blocks) > 10:
        yield ".."
    if has_route:
        yield SHORTEST


def farthest(arcs, nodes, source, radius, by_node):
    """The explanation of a block, by its greatest distance."""
    within = " that it reaches" if radius is None else f" within {radius}, the RADIUS"
    if by_node:
        most = max(dist for dist, _ in by_node.values())
        far = next(node for node, (dist, _) in by_node.items() if dist == most)
        yield f"the farthest node from {source}, of {len(by_node)}{within}: {route(arcs, source, by_node, far)}"
        if radius is None and len(by_node) + 1 < nodes:
            yield "the other nodes can't be reached: no arc leads to them from these"
    elif radius is None:
        yield f"{source} reaches no other node: no arc leads from it to another"
    else:
        yield f"no other node is within {radius}, the RADIUS, of {source}: each arc from it to another leads past it"


READERS = {"max": maximum, "min": least, "infeasible": infeasible, "paths": distances}


def lines(words, read):
    """What explains the yes of a command over texts, which `read` reads by their names."""
    command, *names = words.split()
    kind = command.partition("-")[2]
    texts = [*map(read, names)]
    if command == "solve-min" and texts[-1].startswith("p cut"):
        kind, texts = "infeasible", [texts[0], texts[-1]]
    if command == "certify-paths":
        texts[1] = ""
    return "".join(f"{it}\n" for it in READERS[kind](*texts))


def random_texts(rng):
    """Texts of a random instance of each kind: a name for each, with the kind of its solver."""
    nodes, arcs = network(rng, 2, 10, rng.choice([6, 24]))
    source, sink = rng.sample(range(1, nodes + 1), 2)
    yield "max", max_text(nodes, source, sink, arcs), ""
    supplies = [0] * (nodes + 1)
    for _ in range(rng.randint(0, 5)):
        amount = rng.randint(0, 3)
        supplies[rng.randint(1, nodes)] += amount
        supplies[rng.randint(1, nodes)] -= amount
    if rng.random() < 0.1:
        supplies[1] += 1
    yield "min", min_text(nodes, supplies, arcs), ""
    graph = graph_text(nodes, [(tail, head, abs(cost)) for tail, head, _, _, cost in arcs])
    if rng.random() < 0.5:
        ids = rng.sample(range(1, nodes + 1), rng.randint(0, min(3, nodes)))
        yield "paths", graph, f"p aux sp ss {len(ids)}\n" + "".join(f"s {id}\n" for id in ids)
    else:
        pairs = [(rng.randint(1, nodes), rng.randint(1, nodes)) for _ in range(rng.choice([0, 2, 12]))]
        yield "paths", graph, f"p aux sp p2p {len(pairs)}\n" + "".join(f"q {a} {b}\n" for a, b in pairs)


def seeded(count, seed):
    """Random texts of `count` instances."""
    rng = random.Random(seed)
    for _ in range(count):
        yield from random_texts(rng)
