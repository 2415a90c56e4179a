#!/bin/sh
# A flow of least cost and its potentials by GLPK's glpsol, judged: glpsol_min.sh INSTANCE SOLUTION POTENTIALS
#
# Reads INSTANCE, writes SOLUTION and POTENTIALS, and runs `dimacs judge-min` on the three; DIMACS names the judge.
# glpsol computes in floating point and prints 15 digits: greater numbers come out wrong, and are refused. If it finds no
# feasible flow, SOLUTION says so, and `dimacs certify-infeasible` decides, and writes a set in place of POTENTIALS.
set -eu
[ $# = 3 ] || { echo "glpsol_min.sh INSTANCE SOLUTION POTENTIALS" >&2; exit 2; }
DIMACS=${DIMACS:-dimacs}
command -v "$DIMACS" >/dev/null || { echo "can't run $DIMACS. Put dimacs on the path, or name it by DIMACS" >&2; exit 3; }
"$DIMACS" show min "$1" >/dev/null 2>&1 || exec "$DIMACS" explain show min "$1"
dir=$(mktemp -d)
trap 'rm -rf "$dir"' EXIT
glpsol --mincost "$1" --write "$dir/raw" >"$dir/log" || { cat "$dir/log" >&2; exit 3; }

# First the instance is read, then the result: 'i NODE STATUS VALUE DUAL' for each node, 'j COLUMN STATUS VALUE DUAL'
# for each arc. The columns go by tail, and among the arcs of a tail from the last to the first. A node's row is what
# leaves it minus what enters it, so the dual is a potential with the sign that the judge wants.
awk -v solution="$2" -v potentials="$3" '
    NR == FNR && $1 == "p" { nodes = $3 }
    NR == FNR && $1 == "a" { arcs++; tail[arcs] = $2; head[arcs] = $3; cost[arcs] = $6; of[$2] = arcs " " of[$2] }
    NR == FNR { next }
    FNR == 1 { for (node = 1; node <= nodes; node++) all = all of[node]; split(all, arc, " ") }
    $1 == "s" && $5 != "f" { failed = 1; exit }
    $1 == "i" { dual[$2] = $5 }
    $1 == "j" { flow[arc[$2]] = $4; total += cost[arc[$2]] * $4 }
    END {
        if (failed) exit 1
        printf "s %.0f\n", total >solution
        for (k = 1; k <= arcs; k++) printf "f %d %d %.0f\n", tail[k], head[k], flow[k] >solution
        printf "p pot %d %d\n", nodes, nodes >potentials
        for (node = 1; node <= nodes; node++) printf "y %d %.0f\n", node, dual[node] >potentials
    }' "$1" "$dir/raw" || { echo "s infeasible" >"$2"; "$DIMACS" certify-infeasible "$1" "$3"; exit; }
"$DIMACS" judge-min "$1" "$2" "$3"
