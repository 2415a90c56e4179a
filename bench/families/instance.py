"""Instances of all three kinds, and numbers that look random, the same each time."""

MASK = 2**64 - 1
STEP = 0x9E3779B97F4A7C15


class Random:
    """As in gen.cpp."""

    def __init__(self):
        self.state = STEP + 1

    def next(self):
        self.state = z = self.state + STEP & MASK
        z = (z ^ z >> 30) * 0xBF58476D1CE4E5B9 & MASK
        z = (z ^ z >> 27) * 0x94D049BB133111EB & MASK
        return z ^ z >> 31

    def below(self, n):
        """From 0, below n."""
        return self.next() * n >> 64

    def between(self, low, high):
        return low + self.below(high - low + 1)

    def unit(self):
        """From 0, below 1."""
        return (self.next() >> 11) * 2.0**-53

    def shuffle(self, items):
        for left in range(len(items), 1, -1):
            other = self.below(left)
            items[left - 1], items[other] = items[other], items[left - 1]


class Instance:
    """Arcs are tail, head, low, cap and cost; supplies are by node, from 1."""

    def __init__(self, nodes):
        self.nodes, self.arcs, self.supplies = nodes, [], [0] * (nodes + 1)

    def add(self, tail, head, cap, cost, low=0):
        self.arcs.append((tail, head, low, cap, cost))

    def move(self, source, sink, units):
        self.supplies[source] += units
        self.supplies[sink] -= units

    def without_parallel(self):
        """Keeps the first of several arcs with the same ends."""
        first = {}
        for arc in self.arcs:
            first.setdefault(arc[:2], arc)
        self.arcs = list(first.values())
        return self

    def write(self, path):
        """Writes a text of the kind that the ending names: .min, .max (from what has a supply to what has a demand), or
        .gr (the costs are the weights)."""
        kind = path.rsplit(".", 1)[1]
        fields = {"min": (0, 1, 2, 3, 4), "max": (0, 1, 3), "gr": (0, 1, 4)}[kind]
        with open(path, "w") as out:
            out.write(f"p {'sp' if kind == 'gr' else kind} {self.nodes} {len(self.arcs)}\n")
            for node, supply in enumerate(self.supplies):
                if node and supply and kind != "gr":
                    out.write(f"n {node} {supply if kind == 'min' else 's' if supply > 0 else 't'}\n")
            form = "a" + " %d" * len(fields) + "\n"
            out.writelines(form % tuple(arc[field] for field in fields) for arc in self.arcs)


class Between(Instance):
    """Nodes, and after them a source and a sink."""

    def __init__(self, inner):
        super().__init__(inner + 2)
        self.source, self.sink = self.nodes - 1, self.nodes
        self.move(self.source, self.sink, 1)
