#!/usr/bin/env bash
# Judges one trace, and prints its row of the table: status, microseconds, trace, line, host, restarts, configuration
# (docs/FARM.md).
#   judge_one.sh [--complete] [--dat FILE] CONFIG TRACE [ROW]
#                      with ROW the row is written to that file, completely or not at all
# A TRACE whose name ends in .gz or .zst is unpacked on the way. With --complete each request of a legal trace must have
# a reply. With --dat the same judging writes the coverage of a legal trace to FILE; both together take two judgings.
# From the environment: SCORE, the program (score); LIMIT, the seconds that it may take (600); TRIES, how often it is
# run if it gives no answer (3). How often its judging began is kept in ROW.begun until there is an answer.
# The exit status is 0 if the row is an answer, and 3 if the trace must be judged again.
set -uo pipefail
export LC_ALL=C
exec 9>&- # the lock of a run: only the scripts that hand out traces hold it

usage() {
  echo "usage: judge_one.sh [--complete] [--dat FILE] CONFIG TRACE [ROW]" >&2
  exit 64
}

complete='' dat=''
while [[ ${1-} == --* ]]; do
  case $1 in
    --complete) complete=$1 ;;
    --dat) dat=${2-} && shift ;;
    *) usage ;;
  esac
  shift
done
[ $# -ge 2 ] || usage
config=$1 trace=$2 row=${3-}
limit=(timeout --kill-after=5 "${LIMIT:-600}")
score=("${limit[@]}" "${SCORE:-score}")

is_answer() { # STATUS LINE
  case $1:$2 in
    *:"refused memory" | *:"refused write") false ;;
    0:"yes "* | 1:"no "* | 2:"refused "*) true ;;
    *) false ;;
  esac
}

# Runs the program on the trace. Sets status, and line to the last line that it printed.
ask() { # COMMAND [OPTION] ..
  local unpack='' unpacked told
  case $trace in
    *.gz) unpack=gzip ;;
    *.zst) unpack=zstd ;;
  esac
  told=$(
    if [ -n "$unpack" ]; then
      # the program may end before it has read all: then a closed pipe ends the unpacking, and is no fault
      "${limit[@]}" env --default-signal=PIPE "$unpack" -dc -- "$trace" | "${score[@]}" "$@" "$config" -
      printf '\n%d %d' "${PIPESTATUS[@]}"
    else
      "${score[@]}" "$@" "$config" "$trace" </dev/null
      printf '\n0 %d' $?
    fi
  )
  read -r unpacked status <<<"${told##*$'\n'}"
  told=${told%$'\n'*}
  told=${told%$'\n'}
  line=${told##*$'\n'}
  case $unpacked in
    0 | 141) ;;
    1 | 2) status=2 line='refused read trace' ;;
    *) status=3 line=unanswered ;;
  esac
}

judge() {
  if [ -z "$dat" ] || [ -n "$complete" ]; then
    ask check ${complete:+"$complete"}
    [ -n "$dat" ] && is_answer "$status" "$line" && [ "$status" = 0 ] || return 0
  fi
  ask cover --dat "$dat"
  [ "$status" != 0 ] || line="yes $line"
}

restarts=0
[[ -z $row || ! -e $row.begun ]] || restarts=$(wc -c <"$row.begun")
for ((try = 1; ; restarts++, try++)); do
  [ -z "$row" ] || printf . >>"$row.begun"
  start=${EPOCHREALTIME/./}
  judge
  took=$((${EPOCHREALTIME/./} - start))
  if is_answer "$status" "$line" || ((try >= ${TRIES:-3})); then
    break
  fi
  sleep "$try" # memory may be free when other programs have ended
done

answered=0
if ! is_answer "$status" "$line"; then
  answered=3
  [[ $status:$line =~ ^2:refused\ (memory|write)$ ]] || status=3 line=unanswered
fi
host=${SLURMD_NODENAME:-$(uname -n)}
text=$(printf '%d\t%d\t%s\t%s\t%s\t%d\t%s' "$status" "$took" "$trace" "$line" "$host" "$restarts" "$config")
if [ -n "$row" ]; then
  part=$row.part.$host.$$
  printf '%s\n' "$text" >"$part" && mv -f "$part" "$row" || exit 3
  [ "$answered" -ne 0 ] || rm -f "$row.begun"
else
  printf '%s\n' "$text"
fi
exit "$answered"
