"""Solvers compared: what each solved, how long it took next to the best, and a performance profile."""
import html
import math
import statistics

from dimacs_batch.race import LIMITS
from dimacs_batch.runs import FAULTY, INCOMPLETE, NO, NO_ANSWER, NOTHING, UNTESTED, YES

# What comes of the runs of a solver on an instance, the worst first. Only what is certified is solved.
WRONG, OTHER, NONE, LIMIT, SOLVED = OUTCOMES = ["wrong", "not judged", "no answer", "limit", "solved"]
OF_CLASS = {YES: SOLVED, NO_ANSWER: NONE, **dict.fromkeys((NO, FAULTY, INCOMPLETE, NOTHING, UNTESTED), WRONG)}

PENALTY, LEAST = 2, 0.01  # limits that an instance counts which isn't solved (PAR2), and the least seconds in a ratio

ABOUT = (
    "Solved: each round's answer is certified. Seconds are the processor's, of the median round (least to"
    " greatest), and of the whole process: its start (0.01 s more in a box), reading, solving, writing. An instance"
    " of one arc shows what a start takes, and counts for nothing else. An instance that isn't solved counts as"
    " twice the limit, in the mean of all seconds (PAR2, as the SAT competitions have it) and in the geometric mean"
    " of the ratios to the best solver, which is over instances that some solver solved. To find the best, and in"
    f" ratios, less than {LEAST} s counts as {LEAST} s. Not measured: what else the machine did meanwhile, since"
    " solvers are not pinned to cores; work that they have done elsewhere, as by a service, or by many short"
    " processes that nobody waits for; files in memory; and what they keep from round to round."
)
APART = "Not comparable, since the runs are of several machines"
NOT_BOXED = "Run in no box, so that they could change what the others are asked and what is kept of them"
COLORS = ["#0072b2", "#d55e00", "#009e73", "#cc79a7", "#e69f00", "#56b4e9", "#888888"]  # of Okabe and Ito
WIDTH, HEIGHT, LEFT, RIGHT = 750, 256, 46, 560  # of the picture, and of the profile in it


def outcome_of(row):
    """What came of a run."""
    is_half = row["class"] == FAULTY and row["end"] != "ended"  # it ended by a status that says so
    return LIMIT if row["end"] in LIMITS else NONE if is_half else OF_CLASS.get(row["run_cpu"] and row["class"], OTHER)


class Race:
    """The runs on instances of a kind: by instance and solver the worst outcome, and the median of the seconds."""

    def __init__(self, kind, rows):
        runs, self.kind, self.all_solvers = {}, kind, sorted({row["solver"] for row in rows})
        for row in rows:
            if row["round"] and row["kind"] == kind:
                runs.setdefault((row["instance"], row["solver"]), []).append(row)
        outcomes = {key: min(map(outcome_of, its), key=OUTCOMES.index) for key, its in runs.items()}
        solved = [key for key, outcome in outcomes.items() if outcome == SOLVED]
        seconds = {key: statistics.median(float(it["run_cpu"]) for it in runs[key]) for key in solved}
        small = {row["instance"] for row in rows if row["arcs"] == "1"}
        small = small if {it for it, _ in runs} - small else {}
        self.starts = {solver: f"{its:.3f}" for (it, solver), its in seconds.items() if it in small}
        self.runs, self.outcomes, self.seconds = (
            {key: its for key, its in all_of.items() if key[0] not in small} for all_of in (runs, outcomes, seconds)
        )
        self.limit = max(float(row["run_limits"].split(" ")[0] or 0) for its in runs.values() for row in its)
        self.solvers = sorted({solver for _, solver in self.runs})
        self.instances = sorted({instance for instance, _ in self.runs})

    def best(self, instance):
        """The least seconds that count in a ratio, if any solver solved it."""
        its = [self.seconds[instance, it] for it in self.solvers if (instance, it) in self.seconds]
        return max(LEAST, min(its)) if its else None

    def ratios(self, solver, unsolved=math.inf):
        """The ratios to the best on instances that some solver solved; what this one didn't counts as `unsolved`."""
        its = [it for it in self.instances if (it, solver) in self.outcomes and self.best(it) is not None]
        return [max(self.seconds.get((it, solver), unsolved), LEAST) / self.best(it) for it in its]

    def sums(self):
        """Yields a row for each solver."""
        late = PENALTY * self.limit
        for solver in self.solvers:
            its = [it for it in self.instances if (it, solver) in self.outcomes]
            found = [self.outcomes[it, solver] for it in its]
            taken, ratios = [self.seconds.get((it, solver), late) for it in its], self.ratios(solver, late)
            counts = {it: found.count(it) for it in reversed(OUTCOMES) if it != OTHER or it in self.outcomes.values()}
            row = {"kind": self.kind, "solver": solver, "instances": len(its), **counts}
            row["PAR2, s"] = f"{statistics.mean(taken):.3f}"
            row["ratio to best"] = f"{statistics.geometric_mean(ratios):.2f}" if ratios else ""
            row["best"] = sum(it == 1 for it in self.ratios(solver))
            most = max(float(row["run_memory"] or 0) for it in its for row in self.runs[it, solver])
            row["most MB"] = f"{most / 1024:.0f}"
            row.update({"start, s": self.starts.get(solver, "")} if self.starts else {})
            yield {name: str(it) for name, it in row.items()}

    def by_instance(self):
        """Yields a row for each instance: the seconds of each solver, or what came of it; * is the best."""
        timed = {key: f"{its:.3f}" + " *" * (its <= self.best(key[0])) for key, its in self.seconds.items()}
        for key in timed:
            seconds = [float(it["run_cpu"]) for it in self.runs[key]]
            timed[key] += f" ({min(seconds):.3f} to {max(seconds):.3f})" if seconds[1:] else ""
        shown = {**self.outcomes, **timed}
        for it in self.instances:
            yield {"instance": it, **{solver: shown.get((it, solver), "") for solver in self.solvers}}


def races(rows):
    """Those of each kind whose solvers were run."""
    return [Race(kind, rows) for kind in sorted({row["kind"] for row in rows if row["round"]})]


def path_of(ratios, most):
    """The steps of a profile: of how many instances the ratio is at most so much, up to the greatest one drawn."""
    line = f"M{LEFT},{HEIGHT}"
    for count, ratio in enumerate(sorted(it for it in ratios if it <= most), 1):
        line += f"H{place_of(ratio, most):.1f}V{HEIGHT * (1 - count / len(ratios)):.1f}"
    return line + f"H{RIGHT}"


def place_of(ratio, most):
    return LEFT + (RIGHT - LEFT) * math.log(ratio) / math.log(most)


def profile(race):
    """The performance profile (Dolan and More 2002) as SVG: how often a solver is within a factor of the best."""
    ratios = {it: race.ratios(it) for it in race.solvers}
    most = max([2, *(it for its in ratios.values() for it in its if it < math.inf)]) * 1.1
    out = [f'<svg viewBox="0 -8 {WIDTH} {HEIGHT + 52}" width="{WIDTH}" role="img" font-size="13" fill="currentColor">']
    out.append("<title>Performance profile</title>")
    for part in (0, 25, 50, 75, 100):
        y = HEIGHT * (1 - part / 100)
        out.append(f'<path d="M{LEFT},{y:.1f}H{RIGHT}" stroke="currentColor" stroke-opacity=".2"/>')
        out.append(f'<text x="{LEFT - 6}" y="{y + 4:.1f}" text-anchor="end">{part} %</text>')
    for power in range(0, int(math.log2(most)) + 1, math.ceil(math.log2(most) / 8)):
        x = place_of(2**power, most)
        out.append(f'<text x="{x:.1f}" y="{HEIGHT + 18}" text-anchor="middle">{2**power}</text>')
    out.append(f'<text x="{LEFT}" y="{HEIGHT + 38}">solved, within so many times the seconds of the best solver</text>')
    for number, (solver, its) in enumerate(ratios.items()):
        turn, color = divmod(race.all_solvers.index(solver), len(COLORS))
        how = f'stroke="{COLORS[color]}" stroke-width="2"' + (f' stroke-dasharray="{3 * turn} 3"' if turn else "")
        y = 8 + 20 * number
        out.append(f'<path d="{path_of(its, most)}" fill="none" {how}/><path d="M{RIGHT + 14},{y - 4}h20" {how}/>')
        out.append(f'<text x="{RIGHT + 40}" y="{y}">{html.escape(solver)}</text>')
    return "\n".join([*out, "</svg>"])
