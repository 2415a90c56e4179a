#!/bin/sh
# The end of slurm.sh and of parallel.sh, joins the tables that are there: join.sh DIMACS_BATCH PARTS TABLE
batch=$1 parts=$2 table=$3
set --
for part in $(seq "$parts"); do
    [ ! -e "$table.$part" ] || set -- "$@" "$table.$part"
done
if [ $# = 0 ]; then
    echo "$table: no part has written a table" >&2
    exit 2
fi
exec "$batch" --join --output "$table" "$@"
