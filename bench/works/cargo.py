"""what the program takes as cargo builds it, next to the proved one

That of build/rust is measured, or what CARGO_BUILT names.
"""

import os

from measure import HERE, head, measure_in_turn, row, spread, wants
from texts import declared, flow_texts, road_texts
from works.baseline import TEXTS

SIZES, ROUNDS, PROGRAMS = "1,20", 9, []


def works(binary, megabytes):
    """Yields the words of each run."""
    size = TEXTS[megabytes]
    most = flow_texts(f"max-{megabytes}", "max", size.max, "max")
    least = flow_texts(f"min-{megabytes}", "min", size.min, "min")
    road = road_texts(f"road-{megabytes}", binary, size.junctions, size.degree, size.sources)
    yield from (["judge-max", *most], ["judge-min", *least], ["judge-paths", *road])
    yield from (["convert", "max", most[0]], ["convert", "gr", road[0]], ["show", "gr", road[0]])
    yield from (["certify-max", *most[:2], "made.cut"], ["certify-min", *least[:2], "made.pot"])
    yield from (["solve-max", most[0], "made.solution", "made.cut"], ["solve-min", least[0], "made.solution", "made.pot"])
    yield ["solve-paths", *road[:2], "made.dist"]


def measure(asked):
    by_cargo = os.path.abspath(os.environ.get("CARGO_BUILT", f"{os.path.dirname(HERE)}/build/rust/dimacs"))
    if not os.access(by_cargo, os.X_OK):
        raise SystemExit(f"{by_cargo} isn't there: make rust")
    head("Built by cargo", "Work", "MB", "proved, ns an arc", "by cargo, ns an arc", "CPU ratio", "Its middle half")
    for megabytes in asked.sizes:
        ratios = []
        for words in works(asked.binary, megabytes):
            name, files = " ".join(it for it in words[:2] if "/" not in it), [it for it in words if "/" in it]
            if wants(name):
                took = measure_in_turn({it: [it, *words] for it in (asked.binary, by_cargo)}, asked.rounds)
                each = [f"{took[it].cpu() * 1e9 / declared(files[0])[1]:.1f}" for it in (asked.binary, by_cargo)]
                ratio = took[by_cargo].ratio(took[asked.binary])
                ratios.append(ratio[0])
                row(name, megabytes, *each, *spread(ratio))
        row("in the mean", megabytes, "", "", f"{sum(ratios) / max(len(ratios), 1):.2f}", "")
