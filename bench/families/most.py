"""Families of maximum flow."""

from collections import Counter
from math import isqrt, sin

from families import least
from families.instance import Between, Instance, Random


def dense_acyclic(nodes, most_cap):
    """An arc from each node to each later one."""
    random, it = Random(), Instance(nodes)
    for tail in range(1, nodes):
        for head in range(tail + 1, nodes + 1):
            it.add(tail, head, random.between(1, most_cap), 0)
    it.move(1, nodes, 1)
    return it


def frames(side, count, most_cap):
    """Square grids of much room, each joined to the next at random, as Goldfarb and Grigoriadis' genrmf makes them."""
    random, size = Random(), side * side
    it = Instance(size * count)
    mates = list(range(1, size + 1))
    for frame in range(count):
        random.shuffle(mates)
        for i in range(size):
            here = frame * size + i + 1
            others = [here + 1] * ((i + 1) % side > 0) + [here + side] * (i + side < size)
            for other in others:
                it.add(here, other, most_cap * size, 0)
                it.add(other, here, most_cap * size, 0)
            if frame + 1 < count:
                it.add(here, (frame + 1) * size + mates[i], random.between(1, most_cap), 0)
    it.move(1, it.nodes, 1)
    return it


def image(width, height, most_cap):
    """Pixels joined to their neighbours, and each to the source or the sink."""
    random, square = Random(), 32
    it = Between(width * height)
    for pixel in range(width * height):
        y, x = divmod(pixel, width)
        here = pixel + 1
        for other in [here + 1] * (x + 1 < width) + [here + width] * (y + 1 < height):
            cap = random.between(1, most_cap)
            it.add(here, other, cap, 0)
            it.add(other, here, cap, 0)
        noise = random.below(4) == 0
        ends = (it.source, here) if (x // square + y // square) % 2 != noise else (here, it.sink)
        it.add(*ends, random.between(1, most_cap), 0)
    return it


def layers(width, length, most_cap):
    """Three arcs from each node to nodes of the next layer: a random level graph."""
    random, it = Random(), Between(width * length)
    for i in range(1, width + 1):
        it.add(it.source, i, 3 * most_cap, 0)
    for tail in range(1, (length - 1) * width + 1):
        for _ in range(3):
            head = ((tail - 1) // width + 1) * width + 1 + random.below(width)
            it.add(tail, head, random.between(1, most_cap), 0)
    for i in range(1, width + 1):
        it.add((length - 1) * width + i, it.sink, 3 * most_cap, 0)
    return it.without_parallel()


def matching(count, degree):
    """Nodes to be matched with as many others, each with some of them at random."""
    random, it = Random(), Between(2 * count)
    for i in range(1, count + 1):
        it.add(it.source, i, 1, 0)
        for _ in range(degree):
            it.add(i, count + 1 + random.below(count), 1, 0)
        it.add(count + i, it.sink, 1, 0)
    return it.without_parallel()


def power_law(levels, arcs, ends, most_cap):
    """An R-MAT graph; of the nodes with most arcs, half are joined to the source and half to the sink."""
    random, count = Random(), 1 << levels
    it = Between(count)
    order = list(range(1, count + 1))
    random.shuffle(order)
    for _ in range(arcs):
        tail = head = 0
        for _ in range(levels):
            hundredth = random.below(100)
            tail = 2 * tail + (hundredth >= 76)
            head = 2 * head + (57 <= hundredth < 76 or hundredth >= 95)
        if tail != head:
            it.add(order[tail], order[head], random.between(1, most_cap), 0)
    degrees = Counter(end for arc in it.without_parallel().arcs for end in arc[:2])
    hubs = [node for node, _ in degrees.most_common(2 * ends)]
    for one, other in zip(hubs[::2], hubs[1::2]):
        it.add(it.source, one, most_cap * count, 0)
        it.add(other, it.sink, most_cap * count, 0)
    return it


def road(nodes, ends):
    """Planar, arcs both ways, source and sink joined to random nodes of two towns far apart."""
    random, width = Random(), isqrt(nodes)
    length = nodes // width
    it = Between(width * length)
    least.add_streets(it, random, width, length)

    def near(quarter):
        x, y = (quarter * side // 4 + random.between(-side // 8, side // 8) for side in (width, length))
        return y * width + x + 1

    for _ in range(ends):
        it.add(it.source, near(1), 1000, 0)
        it.add(near(3), it.sink, 1000, 0)
    return it.without_parallel()


def vision(side, most_cap):
    """Voxels joined to their six neighbours, by more capacity if alike, and each to the source or the sink."""
    random, wave = Random(), [sin(i / 4) for i in range(side)]
    it = Between(side**3)
    places = [(i // side // side, i // side % side, i % side) for i in range(side**3)]
    shades = [int(100 * wave[z] * wave[y] * wave[x]) + random.between(-40, 40) for z, y, x in places]
    for i, (place, shade) in enumerate(zip(places, shades)):
        for step, at in zip((side * side, side, 1), place):
            if at + 1 < side:
                cap = 1 + most_cap * 400 // (400 + (shade - shades[i + step]) ** 2)
                it.add(i + 1, i + step + 1, cap, 0)
                it.add(i + step + 1, i + 1, cap, 0)
        certain = abs(shade) > 100  # has more capacity to its end than to all neighbours
        ends = (it.source, i + 1) if shade > 0 else (i + 1, it.sink)
        it.add(*ends, 7 * most_cap if certain else 1 + abs(shade) * most_cap // 50, 0)
    return it
