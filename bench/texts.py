"""Generates the texts that are measured. They are kept in the folder where a work runs, for the next time."""

import os
import shutil
import subprocess

from families import least, most
from families.instance import Random

# The families of instances, by kind, and what makes one of a size in MB: a function and its numbers, or gen's words.
FAMILIES = {
    "max": {
        "dense acyclic": {1: (most.dense_acyclic, 340, 1000000), 20: (most.dense_acyclic, 1400, 1000000)},
        "frames": {1: (most.frames, 14, 65, 1000), 20: (most.frames, 30, 240, 1000)},
        "grid": {1: (least.grid, 130, 150, 1000, 1), 20: (least.grid, 560, 620, 1000, 1)},
        "image": {1: (most.image, 110, 110, 200), 20: (most.image, 458, 458, 200)},
        "layers": {1: (most.layers, 100, 200, 10000), 20: (most.layers, 500, 650, 10000)},
        "matching": {1: (most.matching, 7500, 6), 20: (most.matching, 131000, 6)},
        "planted": {1: ("max", 10000, 60000), 20: ("max", 175000, 1050000)},
        "power law": {1: (most.power_law, 13, 66000, 100, 1000), 20: (most.power_law, 17, 1200000, 1500, 1000)},
        "rlg long": {1: (most.layers, 64, 310, 10000), 20: (most.layers, 64, 5000, 10000)},
        "rlg wide": {1: (most.layers, 310, 64, 10000), 20: (most.layers, 5000, 64, 10000)},
        "rmf long": {1: (most.frames, 10, 115, 1000), 20: (most.frames, 21, 460, 1000)},
        "rmf wide": {1: (most.frames, 40, 7, 1000), 20: (most.frames, 126, 11, 1000)},
        "road": {1: (most.road, 23500, 500), 20: (most.road, 430000, 5000)},
        "vision": {1: (most.vision, 20, 200), 20: (most.vision, 53, 200)},
    },
    "min": {
        "assign": {1: (least.assign, 6000, 8, 10000), 20: (least.assign, 110000, 8, 10000)},
        "dense": {1: (least.dense, 400, 45000, 1000, 10000, 10), 20: (least.dense, 5000, 800000, 1000, 10000, 50)},
        "goto": {1: (least.goto, 5000, 8, 1000, 4096), 20: (least.goto, 90000, 8, 1000, 4096)},
        "long grid": {1: (least.grid, 32, 400, 1000, 10000), 20: (least.grid, 128, 1800, 1000, 10000)},
        "netgen": {
            1: (least.netgen, 8000, 48000, 400, 400, 100000),
            20: (least.netgen, 150000, 900000, 7500, 7500, 1900000),
        },
        "planted": {1: ("min", 4625, 37000), 20: ("min", 81250, 650000)},
        "road": {1: (least.road, 20000, 20, 5), 20: (least.road, 350000, 60, 5)},
        "square grid": {1: (least.grid, 113, 113, 1000, 10000), 20: (least.grid, 480, 480, 1000, 10000)},
        "torus": {1: (least.torus, 70, 70, 1000), 20: (least.torus, 300, 300, 1000)},
        "transport": {1: (least.transport, 230, 230, 10000), 20: (least.transport, 950, 950, 10000)},
    },
    "gr": {
        "long grid": {1: (least.grid, 32, 500, 1, 10000), 20: (least.grid, 128, 2300, 1, 10000)},
        "netgen": {1: (least.netgen, 9000, 54000, 1, 1, 1), 20: (least.netgen, 170000, 1020000, 1, 1, 1)},
        "road": {1: ("road", 20000, 2.44), 20: ("road", 380000, 2.44)},
        "square grid": {1: (least.grid, 125, 125, 1, 10000), 20: (least.grid, 540, 540, 1, 10000)},
        "torus": {1: (least.torus, 80, 80, 1), 20: (least.torus, 340, 340, 1)},
    },
}

# The arcs for each node of a flow that gen makes, and its certificate.
ARCS_PER_NODE = {"max": 6, "min": 8}
CERTIFICATES = {"max": "cut", "min": "pot"}

SOURCES = {1: 8, 20: 4}  # of a graph, by the size of the texts in MB


def generate(folder, *commands):
    """Runs commands, or functions of the folder, in a new one, once. It gets its name when it is whole."""
    if os.path.isdir(folder):
        return
    part = folder + ".part"
    shutil.rmtree(part, ignore_errors=True)
    os.mkdir(part)
    for command in commands:
        if callable(command):
            command(part)
            continue
        words = [os.path.abspath(command[0]), *map(str, command[1:])]
        subprocess.run(words, cwd=part, check=True, stdout=subprocess.DEVNULL)
    os.rename(part, folder)


def write_queries(path, nodes, count):
    """For all distances from so many nodes, one in each of as many equal parts of all nodes."""
    random, part = Random(), max(1, nodes // count)
    with open(path, "w") as text:
        text.write(f"p aux sp ss {count}\n")
        text.writelines(f"s {1 + k * nodes // count + random.below(part)}\n" for k in range(count))


def declared(file):
    """The nodes and arcs of the problem line."""
    with open(file) as text:
        problem = next(line for line in text if line.startswith("p "))
    return [int(number) for number in problem.split()[2:]]


def instance(kind, family, megabytes):
    """The file of an instance of a family."""
    make, *numbers = FAMILIES[kind][family][megabytes]
    folder = f"{kind}-{family.replace(' ', '-')}-{megabytes}"
    if callable(make):
        generate(folder, lambda part: make(*numbers).write(f"{part}/instance.{kind}"))
    else:
        generate(folder, ["gen", make, *numbers, "instance.gr" if kind == "gr" else "instance"])
    return f"{folder}/instance.{kind}"


def flow_texts(folder, kind, arcs, generator):
    """The files of an instance with its claim and its certificate, as gen makes them by one of its words."""
    generate(folder, ["gen", generator, arcs // ARCS_PER_NODE[kind], arcs, "flow"])
    return [f"{folder}/flow.{end}" for end in (kind, "solution", CERTIFICATES[kind])]


def road_texts(folder, binary, junctions, degree, count):
    """The files of a graph, of queries from so many sources, and of the labels that dimacs makes."""
    files = ["road.gr", "road.query", "road.dist"]
    generate(
        folder,
        ["gen", "road", junctions, degree, files[0]],
        lambda part: write_queries(f"{part}/{files[1]}", junctions, count),
        [binary, "solve-paths", *files],
    )
    return [f"{folder}/{file}" for file in files]


def beside(file, name, command):
    """The folder beside an instance in which a command was run, or a function of the folder."""
    folder = f"{os.path.dirname(file)}-{name}"
    generate(folder, command)
    return folder


def claimed(binary, file):
    """The file of a claim of an instance of a flow: the one that was made with it, or else one that dimacs makes."""
    stem, _, kind = file.rpartition(".")
    if os.path.exists(f"{stem}.solution"):
        return f"{stem}.solution"
    words = [binary, f"solve-{kind}", os.path.abspath(file), "solution", "certificate"]
    return beside(file, "solved", words) + "/solution"


def queries(file, megabytes):
    """The file of the queries to a graph: for all distances from a few sources."""
    nodes, _ = declared(file)
    name = "sources.query"
    return beside(file, "sources", lambda part: write_queries(f"{part}/{name}", nodes, SOURCES[megabytes])) + f"/{name}"


def labelled(binary, file, megabytes):
    """The file of the labels that dimacs makes of a graph for its queries."""
    words = [os.path.abspath(it) for it in (file, queries(file, megabytes))]
    return beside(file, "labelled", [binary, "solve-paths", *words, "labels"]) + "/labels"


def sources(query):
    """The nodes from which the queries ask for distances."""
    with open(query) as text:
        return [line.split()[1] for line in text if line.startswith("s ")]
