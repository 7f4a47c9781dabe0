#!/usr/bin/env bash
# Judges the traces of a list with Slurm: an array of tasks, each with many traces.
#   slurm/run.sh [--complete] [--dat] CONFIG LIST OUT [TASKS]
#                      LIST has the path of a trace in each line, and after a tab its configuration, if it is not
#                      CONFIG; by default a task for 100 traces
# All paths must be the same on each node. With --complete each request of a legal trace must have a reply. With --dat
# the coverage of each legal trace is in OUT/dat. Writes OUT/table.tsv (docs/FARM.md). Traces without an answer, for
# example after a node died, are submitted again: in all at most ROUNDS (3) times. HUP, INT and TERM cancel the tasks.
# Called again, it waits for tasks that an earlier call left in the queue, and judges only the traces without an answer;
# another list, configuration, program or option is refused. The exit status is 3 if a trace has no answer, else 2 if
# one is refused, else 1 if one gets a no, else 0. From the environment: SCORE, LIMIT and TRIES, as judge_one.sh says;
# POLL, the seconds between two looks at the queue (2); and what sbatch reads, such as SBATCH_PARTITION.
set -uo pipefail
here=$(cd "$(dirname "$0")" && pwd) || exit 64
# shellcheck source-path=SCRIPTDIR source=../common.sh
. "$here/../common.sh"

# Waits until no task of this folder is in the queue. A controller that does not answer is asked again.
wait_for_tasks() {
  local tasks
  while ! tasks=$(squeue --noheader --user="$user" --name="$name" --format=%i 2>/dev/null) || [ -n "$tasks" ]; do
    [ ! -t 2 ] || printf '\r%s of %s ' "$(find "$out/rows" -name '*[0-9]' | wc -l)" "$(wc -l <"$out/list")" >&2
    sleep "${POLL:-2}" 9>&- # which may outlive this script, and must not keep its lock then
  done
  [ ! -t 2 ] || echo >&2
}

take_options "$@"
set -- "${rest[@]}"
[ $# -ge 3 ] || die "usage: run.sh [--complete] [--dat] CONFIG LIST OUT [TASKS]"
command -v sbatch >/dev/null || die "Slurm is not installed"
begin "$1" "$2" "$3"
mkdir -p "$out/log" || exit 64 # a task whose log has no folder fails without a message
user=$(id -un)
name=judge.$(sha256sum <<<"$out" | head -c 16) # by which also a later call finds the tasks of this folder
trap 'scancel --user="$user" --name="$name"; exit 130' HUP INT TERM
wait_for_tasks
export SCORE COMPLETE=$complete DAT=$dat ROWS=$out/rows JUDGE=${here%/*}/judge_one.sh TODO STRIDE
for ((round = 0; round < ${ROUNDS:-3}; round++)); do
  TODO=$out/todo.$round
  todo >"$TODO"
  count=$(wc -l <"$TODO")
  [ "$count" -gt 0 ] || break
  STRIDE=${4:-$(((count + 99) / 100))}
  STRIDE=$((STRIDE < count ? STRIDE : count))
  sbatch --parsable --export=ALL --job-name="$name" --array="1-$STRIDE" --output="$out/log/%A.%a" \
    "$here/judge.sbatch" >/dev/null || die "sbatch refused the array"
  wait_for_tasks
done
gather
