#!/usr/bin/env bash
# One task of the array that run.sh submits: judges each STRIDE-th trace of the file TODO, from its own number on.
#SBATCH --ntasks=1 --cpus-per-task=1 --no-requeue
set -uo pipefail
awk -v own="$SLURM_ARRAY_TASK_ID" -v stride="$STRIDE" 'NR % stride == own % stride' "$TODO" |
  while IFS=$'\t' read -r number trace config; do
    "$JUDGE" ${COMPLETE:+"$COMPLETE"} ${DAT:+--dat "$DAT/$number.dat"} "$config" "$trace" "$ROWS/$number"
  done
exit 0 # the rows say what came of it
