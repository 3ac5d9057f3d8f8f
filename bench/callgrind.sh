# Sourced by the benchmarks that count instructions by callgrind, which a busy machine doesn't change. They have set `program`, and
# `made`, a folder of their own. What fails within a substitution ends them too.
shopt -s inherit_errexit

# counted SCRIPT: the instructions of a run of the script on a copy of the device that is set up.
counted() {
  cp --sparse=always "$made/disk" "$made/work"
  valgrind --tool=callgrind --callgrind-out-file="$made/counts" "$program" step "$made/work" --seed 1 "$1" >"$made/output" 2>"$made/said" ||
    { tail -n 2 "$made/output" "$made/said" >&2; exit 1; }
  awk '$1 == "summary:" || $1 == "totals:" { n = $2 } END { print n }' "$made/counts"
}

# set_up HALF UNITS: a store after the commands on standard input, by scripts of at most 16384 each.
set_up() {
  local part
  "$program" mkfs "$made/disk" --half "$1" --units "$2" >/dev/null
  rm -f "$made"/part.*
  split -l 16000 - "$made/part."
  for part in "$made"/part.*; do
    "$program" step "$made/disk" --seed 1 "$part" >"$made/output" || { tail -n 2 "$made/output" >&2; exit 1; }
  done
}

# count_of COUNT: the instructions of one line, of a script of so many from standard input and of one of half as many. Behind each that
# changes an object stands a `wait`, whose line is in it.
count_of() {
  local once twice
  cat >"$made/lines"
  sed -E '/^(write|zero|omapset)/a wait' "$made/lines" >"$made/all"
  head -n $(($1 / 2)) "$made/lines" | sed -E '/^(write|zero|omapset)/a wait' >"$made/half"
  once=$(counted "$made/half")
  twice=$(counted "$made/all")
  echo $(((twice - once) / ($1 - $1 / 2)))
}
