#!/usr/bin/env bash
# Judges the traces of a list on this machine, with GNU parallel.
#   parallel.sh [--complete] [--dat] CONFIG LIST OUT [JOBS]
#                      LIST has the path of a trace in each line, and after a tab its configuration, if it is not
#                      CONFIG; JOBS run at once, by default one for each processor
# With --complete each request of a legal trace must have a reply. With --dat the coverage of each legal trace is in
# OUT/dat. Writes OUT/table.tsv (docs/FARM.md). Called again, it judges only the traces without an answer; another list,
# configuration, program or option is refused. The exit status is 3 if a trace has no answer, else 2 if one is refused,
# else 1 if one gets a no, else 0. From the environment: SCORE, LIMIT and TRIES, as judge_one.sh says.
set -uo pipefail
here=$(cd "$(dirname "$0")" && pwd) || exit 64
# shellcheck source-path=SCRIPTDIR source=common.sh
. "$here/common.sh"

take_options "$@"
set -- "${rest[@]}"
[ $# -ge 3 ] || die "usage: parallel.sh [--complete] [--dat] CONFIG LIST OUT [JOBS]"
[[ $(parallel --version 2>/dev/null) == "GNU parallel"* ]] || die "GNU parallel is not installed"
begin "$1" "$2" "$3"
export SCORE
progress=()
[ ! -t 2 ] || progress=(--bar)
todo | parallel --will-cite --quote --colsep '\t' --jobs "${4:-100%}" "${progress[@]}" --joblog "$out/joblog" \
  "$here/judge_one.sh" ${complete:+"$complete"} ${dat:+--dat "$dat/{1}.dat"} '{3}' '{2}' "$out/rows/{1}"
gather
