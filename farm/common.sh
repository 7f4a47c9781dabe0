# shellcheck shell=bash
# Shared by parallel.sh and slurm/run.sh: the folder of a run, and its table. The folder has
#   of          the checksums of the configurations, of the list and of the program, and what was asked
#   list        the traces, one in each line, each with its configuration
#   rows/N      the row of the trace in line N, when it was judged
#   rows/N.begun    a dot for each time that its judging began, until it has an answer
#   dat/N.dat   with --dat, the coverage of that trace, if it is legal
#   table.tsv   the rows of all traces, in the order of the list

die() {
  printf '%s: %s\n' "${0##*/}" "$*" >&2
  exit 64
}

# take_options WORD ..: sets complete and dat to the options that are there, and rest to the words after them.
take_options() {
  complete='' dat=''
  while [[ ${1-} == --* ]]; do
    case $1 in
      --complete) complete=$1 ;;
      --dat) dat=$1 ;;
      *) die "there is no option $1" ;;
    esac
    shift
  done
  rest=("$@")
}

# The lines of LIST that are not blank, each with its configuration: its own, or else CONFIG.
list_of() { # CONFIG LIST
  CONFIG=$1 awk -F '\t' -v OFS='\t' '/[^[:space:]]/ { print $1, $2 == "" ? ENVIRON["CONFIG"] : $2 }' "$2"
}

# begin CONFIG LIST OUT, after take_options: makes the folder, or continues the run in it. Sets SCORE and out, and dat
# to the folder of the coverage, if it was asked for.
begin() {
  local of other configurations
  SCORE=$(command -v "${SCORE:-score}") || die "there is no program score: name it by SCORE"
  out=$(realpath -m -- "$3")
  grep -qs '[^[:space:]]' -- "$2" || die "$2 names no trace"
  ! grep -q $'\t.*\t' -- "$2" || die "$2 has a line with two tabs: it has a trace and its configuration"
  mkdir -p "$out/rows" || exit 64
  exec 9>"$out/lock"
  flock -n 9 || die "another run is at work in $out"
  list_of "$1" "$2" >"$out/list.part" || exit 64
  configurations=$(cut -f 2 "$out/list.part" | sort -u | xargs -d '\n' sha256sum --) || exit 64
  of=$(printf '%s\n' "configuration $(sha256sum <<<"$configurations")" "list $(sha256sum <"$out/list.part")" \
    "program $(sha256sum <"$SCORE")" "question $complete $dat")
  if [ -e "$out/of" ]; then
    other=$(diff <(printf '%s\n' "$of") "$out/of" | sed -n 's/^> \([a-z]*\).*/\1/p' | paste -sd ' ')
    [ -z "$other" ] || die "$out has answers for another $other: take another folder"
  else
    mv -- "$out/list.part" "$out/list" && printf '%s\n' "$of" >"$out/of" || exit 64
  fi
  rm -f "$out/list.part"
  dat=${dat:+$out/dat}
  [ -z "$dat" ] || mkdir -p "$dat" || exit 64
}

# The traces that have no answer yet: the line in the list, the trace, its configuration.
todo() {
  awk -v OFS='\t' -v rows="$out/rows/" '{
    row = ""; file = rows NR; getline row < file; close(file)
    split(row, cell, "\t")
    if (row == "" || cell[1] == 3 || cell[4] ~ /^refused (memory|write)$/) print NR, $0
  }' "$out/list"
}

# Writes the table. The status is the greatest of the rows: 0 yes, 1 no, 2 refused, 3 no answer.
gather() {
  awk -F '\t' -v OFS='\t' -v rows="$out/rows/" '{
    begun = ""; file = rows NR ".begun"; getline begun < file; close(file)
    row = 3 OFS 0 OFS $1 OFS "unanswered" OFS "-" OFS length(begun) OFS $2
    file = rows NR; getline row < file; close(file)
    print row
  }' "$out/list" >"$out/table.tsv.part" && mv -f "$out/table.tsv.part" "$out/table.tsv" || exit 64
  awk -F'\t' '{ count[$1]++; if ($1 > worst) worst = $1 } END {
    printf "%d yes, %d no, %d refused, %d unanswered\n", count[0], count[1], count[2], count[3]
    exit worst
  }' "$out/table.tsv"
}
