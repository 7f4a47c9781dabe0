#!/usr/bin/env bash
# Writes the coverage of traces in the form of lcov, with a line for each point of each bank and each port.
#   points.sh OUT [DAT] ..      DAT is a file of `score cover --dat`, or one that verilator_coverage made of such files;
#                               without one, many of them come from standard input, one after the other
# OUT/bank0, OUT/port0 and so on have a line for each point that the configuration can reach. OUT/points.info has the
# counts of all DAT together. `genhtml --output-directory PAGE OUT/points.info` makes a page of them. Prints how many
# points were reached. The exit status is 0 if all were, 1 if not, and 64 if there is none.
set -euo pipefail
export LC_ALL=C
here=$(cd "$(dirname "$0")" && pwd)

if [ $# -lt 1 ]; then
  echo "usage: points.sh OUT [DAT] .." >&2
  exit 64
fi
mkdir -p "$1"
out=$(realpath -e -- "$1")
shift

# Place, line of coverage/points.txt, point and count. A key is 'NAME=VALUE..', with the characters 1 and 2 as marks.
counts() {
  awk -F '\001' -v OFS='\t' '/\001page\002v_user\/lockup_free\001/ {
    for (i = 2; i <= NF; i++) { split($i, part, /[\002\047]/); value[part[1]] = part[2] }
    sub(/.*\047 /, "")
    count[value["h"] OFS value["l"] OFS value["o"]] += $0
  } END { for (key in count) printf "%s\t%.0f\n", key, count[key] }' "$@" | sort -t $'\t' -k 1,1V -k 2,2n -k 3,3V
}

counts "$@" | awk -F '\t' -v out="$out" -v info="$out/points.info" '
  NR == FNR { sub(/^[^ ]+ +/, ""); text[NR] = $0; next }
  $1 != place {
    if (place) print "end_of_record" >info
    place = $1; line = 0
    print "SF:" out "/" place >info
  }
  {
    printf "%-25s %s\n", $3, text[$2] >(out "/" place)
    print "DA:" ++line "," $4 >info
    all++; reached += $4 > 0
  }
  END {
    if (!all) { print "points.sh: there is no point in it" >"/dev/stderr"; exit 64 }
    print "end_of_record" >info
    printf "covered %d of %d\n", reached, all
    exit reached < all
  }' "$here/../coverage/points.txt" -
