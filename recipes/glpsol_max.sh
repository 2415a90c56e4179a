#!/bin/sh
# A maximum flow and a minimum cut by GLPK's glpsol, judged: glpsol_max.sh INSTANCE SOLUTION CUT
#
# Reads INSTANCE, writes SOLUTION and CUT, and runs `dimacs judge-max` on the three; DIMACS names the judge.
# glpsol computes in floating point and prints 15 digits: greater numbers come out wrong, and are refused.
set -eu
[ $# = 3 ] || { echo "glpsol_max.sh INSTANCE SOLUTION CUT" >&2; exit 2; }
DIMACS=${DIMACS:-dimacs}
command -v "$DIMACS" >/dev/null || { echo "can't run $DIMACS. Put dimacs on the path, or name it by DIMACS" >&2; exit 3; }
"$DIMACS" show max "$1" >/dev/null 2>&1 || exec "$DIMACS" explain show max "$1"
dir=$(mktemp -d)
trap 'rm -rf "$dir"' EXIT
glpsol --maxflow "$1" --write "$dir/raw" >"$dir/log" || { cat "$dir/log" >&2; exit 3; }

# First the instance is read, then the result: 'i NODE STATUS VALUE DUAL' for each node, 'j COLUMN STATUS VALUE DUAL'
# for each arc. The columns go by tail, and among the arcs of a tail from the last to the first. On the source's side of
# the cut the dual is less by 1 than at the source itself, whose outflow is maximised, and than on the other side.
awk -v solution="$2" -v cut="$3" '
    NR == FNR && $1 == "p" { nodes = $3 }
    NR == FNR && $1 == "n" && $3 == "s" { source = $2 }
    NR == FNR && $1 == "a" { arcs++; tail[arcs] = $2; head[arcs] = $3; of[$2] = arcs " " of[$2] }
    NR == FNR { next }
    FNR == 1 { for (node = 1; node <= nodes; node++) all = all of[node]; split(all, arc, " ") }
    $1 == "i" { dual[$2] = $5 }
    $1 == "j" { flow[arc[$2]] = $4; value += $4 * ((tail[arc[$2]] == source) - (head[arc[$2]] == source)) }
    END {
        printf "s %.0f\n", value >solution
        for (k = 1; k <= arcs; k++) printf "f %d %d %.0f\n", tail[k], head[k], flow[k] >solution
        for (node = 1; node <= nodes; node++)
            if (node == source || dual[node] < dual[source] - 0.5) { size++; side = side "u " node "\n" }
        printf "p cut %d %d\n%s", nodes, size, side >cut
    }' "$1" "$dir/raw"
"$DIMACS" judge-max "$1" "$2" "$3"
