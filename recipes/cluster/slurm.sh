#!/bin/sh
# Judges many answers on a cluster with Slurm: slurm.sh PARTS TABLE WORDS..
#
# WORDS are those of dimacs-batch. An array of PARTS tasks is submitted, each of which judges its part of the list and
# writes TABLE.I; and a job that joins them to TABLE once all have ended, and names what is missing in TABLE.log. A
# task that is killed is queued again, and continues its table. Submit it again to judge what is missing still. All
# nodes have to see the same files. Options of sbatch, such as the partition and --cpus-per-task, are taken from
# SBATCH_OPTIONS. The numbers of the array and of the last job are printed.
set -eu
if [ $# -lt 3 ]; then
    echo "usage: slurm.sh PARTS TABLE WORDS.." >&2
    exit 2
fi
here=$(cd "$(dirname "$0")" && pwd)
batch=${DIMACS_BATCH:-dimacs-batch}
parts=$1 table=$2
shift 2

# shellcheck disable=SC2086 # the options are several words
array=$(sbatch --parsable --job-name=dimacs --array="1-$parts" ${SBATCH_OPTIONS:-} --output="$table.%a.log" \
    "$here/slurm_task.sh" "$batch" "$parts" "$table" "$@")
echo "array $array"
last=$(sbatch --parsable --job-name=dimacs-join --dependency="afterany:${array%;*}" --output="$table.log" \
    "$here/join.sh" "$batch" "$parts" "$table")
echo "join $last"
