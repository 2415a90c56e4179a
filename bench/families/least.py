"""Families of minimum cost flow. Their costs are the weights of graphs, too."""

from math import isqrt, log

from families.instance import Instance, Random


def netgen(nodes, arcs, sources, sinks, supply):
    """Random arcs, and a ring with room for the whole supply."""
    random, it = Random(), Instance(nodes)
    for _ in range(supply):
        it.supplies[1 + random.below(sources)] += 1
    for _ in range(supply):
        it.supplies[nodes - random.below(sinks)] -= 1
    ring = list(range(1, nodes + 1))
    random.shuffle(ring)
    for tail, head in zip(ring, ring[1:] + ring[:1]):
        it.add(tail, head, supply, random.between(5000, 10000))
    while len(it.arcs) < arcs:
        tail = 1 + random.below(nodes - sinks)
        head = sources + 1 + random.below(nodes - sources)
        if tail != head:
            it.add(tail, head, random.between(1, 1000), random.between(1, 10000))
    return it.without_parallel()


def torus(width, height, supply):
    """Short arcs on a torus and some long ones, one source, one sink."""
    random, it = Random(), Instance(width * height)
    it.move(1, it.nodes, supply)
    for v in range(1, it.nodes):
        it.add(v, v + 1, supply, random.between(8000, 20000))
    for v in range(it.nodes):
        y, x = divmod(v, width)
        for there in (y * width + (x + 1) % width, (y + 1) % height * width + x):
            it.add(v + 1, there + 1, random.between(1, supply), random.between(1, 1000))
            it.add(there + 1, v + 1, random.between(1, supply // 2 + 1), random.between(1, 1000))
        for _ in range(4):
            step = 1 << random.below(20)
            far = (v + step) % it.nodes
            if far != v:
                cap = random.between(1, supply // 4 + 1)
                it.add(v + 1, far + 1, cap, random.between(1, 100) * (1 + isqrt(step)))
    return it.without_parallel()


def goto(nodes, degree, most_cap, most_cost):
    """Layers on a torus, one source and one sink, tight capacities."""
    random, width = Random(), max(8, int(nodes ** (1 / 3)) * 2)
    length = nodes // width
    it = Instance(width * length)

    def node(layer, y):
        return layer % length * width + y % width + 1

    for i in range(it.nodes):
        it.add(i + 1, (i + 1) % it.nodes + 1, most_cap * width * degree, most_cost * 8)
    for layer in range(length):
        for y in range(width):
            for k in range(1, degree):
                head = node(layer, y + 1)
                if k > 1:
                    ahead = 1 + random.below(3)
                    head = node(layer + ahead, y + random.below(width))
                cap = random.between(1, most_cap // 8 if random.below(4) else most_cap)
                it.add(node(layer, y), head, cap, random.between(1, most_cost))
    source, sink = node(0, 0), node(length // 2, 0)
    for y in range(1, width):
        it.add(source, node(0, y), most_cap * degree, 0)
        it.add(node(length // 2, y), sink, most_cap * degree, 0)
    it.move(source, sink, width * most_cap * degree // 8)
    return it.without_parallel()


def add_streets(it, random, width, length):
    """Joins the nodes of a grid by a planar graph, by arcs both ways."""

    def build(a, b):
        cost = 30 + int(1800 * -log(1 - random.unit()))
        cap = (40, 60, 80, 100)[random.below(4)]
        cost *= 6 if random.below(50) == 0 else 1
        it.add(a, b, cap, cost)
        it.add(b, a, cap, cost)

    for v in range(1, width * length + 1):
        has_upper, has_left = v > width, (v - 1) % width > 0
        tree_up = has_upper and (not has_left or random.next() & 1)
        if has_upper and (tree_up or random.below(100) < 25):
            build(v, v - width)
        if has_left and (not tree_up or random.below(100) < 25):
            build(v, v - 1)


def road(nodes, pairs, units):
    """Planar, arcs both ways, supplies and demands at random nodes."""
    random, width = Random(), isqrt(nodes)
    it = Instance(nodes // width * width)
    add_streets(it, random, width, nodes // width)
    for _ in range(pairs):
        source = random.between(1, it.nodes)
        it.move(source, random.between(1, it.nodes), units)
    return it


def transport(sources, sinks, most_cost):
    """An arc from each source to each sink."""
    random, it = Random(), Instance(sources + sinks)
    for _ in range(sources * 50):
        it.supplies[1 + random.below(sources)] += 1
        it.supplies[sources + 1 + random.below(sinks)] -= 1
    for source in range(1, sources + 1):
        for k in range(1, sinks + 1):
            it.add(source, sources + k, 1000000, random.between(1, most_cost))
    return it


def assign(count, degree, most_cost):
    """One unit from each node to one of as many others, with some of which it is joined."""
    random, it = Random(), Instance(2 * count)
    mates = list(range(1, count + 1))
    random.shuffle(mates)
    for i in range(1, count + 1):
        it.move(i, count + i, 1)
        for k in range(degree):
            mate = random.between(1, count) if k else mates[i - 1]
            it.add(i, count + mate, 1, random.between(1, most_cost))
    return it.without_parallel()


def grid(width, length, most_cap, most_cost):
    """A grid, from its first column to its last, and an arc past it."""
    random, it = Random(), Instance(width * length + 2)
    source, sink = it.nodes - 1, it.nodes

    def add(tail, head):
        cap = random.between(1, most_cap)
        it.add(tail, head, cap, random.between(1, most_cost))
        return cap

    through = 0
    for y in range(1, width + 1):
        through += add(source, y)
        it.add((length - 1) * width + y, sink, most_cap * width, random.between(1, most_cost))
    for here in range(1, width * length + 1):
        if here + width <= width * length:
            add(here, here + width)
        if here % width:
            add(here, here + 1)
            add(here + 1, here)
    it.add(source, sink, through, most_cost * (width + length) * 4)
    it.move(source, sink, through // 2)
    return it


def dense(nodes, arcs, most_cap, most_cost, ends):
    """Few nodes, many arcs, some of them loops or of negative cost."""
    random, it = Random(), Instance(nodes)
    units = most_cap * 20
    for k in range(ends):
        it.move(1 + k, nodes - k, units)
    for i in range(nodes):
        it.add(i + 1, (i + 1) % nodes + 1, units * ends, most_cost)
    while len(it.arcs) < arcs:
        tail, head = random.between(1, nodes), random.between(1, nodes)
        low = 0 if random.below(10) else random.between(0, 3)
        it.add(tail, head, random.between(4, most_cap), random.between(-(most_cost // 20), most_cost), low)
    return it
