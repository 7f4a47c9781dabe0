#!/usr/bin/env bash
# Compares two runs of farm/parallel.sh or farm/slurm/run.sh, for example of two nights.
#   compare.sh OLD NEW      the folders of the runs
# Prints, with tabs between the fields,
#   new GROUP COUNT TRACE       a group of faults that OLD does not have, and its trace in NEW (groups.py makes them)
#   gone GROUP COUNT TRACE      a group that NEW does not have
#   worse TRACE CONFIGURATION OLD-LINE NEW-LINE       a trace that was legal in OLD and has another answer in NEW
#   better, other ..            a trace that is legal now; a trace with another rule or refusal than before
# and a line with the counts. A trace is compared if both runs have it, under the same configuration. The exit status is
# 1 if something is new or worse, else 0.
set -uo pipefail
export LC_ALL=C
tab=$'\t'

die() {
  printf 'compare.sh: %s\n' "$*" >&2
  exit 64
}

groups() { # OUT
  awk -F '\t' -v OFS='\t' '{ print $2, $1, $4 }' "$1/groups.tsv" | sort -t "$tab" -k 1,1
}

# The kind of each answer is `yes`, a rule, or two words such as `refused format`: numbers and places are left out.
answers() { # OUT
  awk -F '\t' -v OFS='\t' '{
    split($4, word, " "); kind = word[1] == "yes" ? "yes" : word[1] " " word[2]
    if (match($4, / rule=[A-Za-z]+/)) kind = substr($4, RSTART + 6, RLENGTH - 6)
    print $3 "\001" $7, kind, $4
  }' "$1/table.tsv" | sort -t "$tab" -k 1,1
}

[ $# -eq 2 ] || die "usage: compare.sh OLD NEW"
for out; do
  [ -e "$out/table.tsv" ] || die "$out has no table.tsv"
  [ -e "$out/groups.tsv" ] || die "$out has no groups.tsv: call groups.py first"
done
{
  join -t "$tab" -v 2 <(groups "$1") <(groups "$2") | sed "s/^/new$tab/"
  join -t "$tab" -v 1 <(groups "$1") <(groups "$2") | sed "s/^/gone$tab/"
  join -t "$tab" <(answers "$1") <(answers "$2") | awk -F '\t' -v OFS='\t' '$2 != $4 {
    sub("\001", OFS, $1)
    print $2 == "yes" ? "worse" : $4 == "yes" ? "better" : "other", $1, $3, $5
  }'
} | awk -F '\t' '{ print; count[$1]++ } END {
  printf "%d new, %d gone; %d worse, %d better, %d other\n",
    count["new"], count["gone"], count["worse"], count["better"], count["other"]
  exit count["new"] + count["worse"] > 0
}'
