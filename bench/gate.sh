#!/usr/bin/env bash
# Measures what the gate costs from nothing, in processor seconds, crate by crate: the proof, the tests, the must-fail edits, and
# what a program's two builds and runs take. It works in a fresh clone of what is committed, and prints the table of docs/gate.md.
# A time is what the commands of rt and all that they start spend, in user and in kernel mode, each with one job. Beside other work
# a processor does less in a second, so a table for keeping is made on a machine that does nothing else.
# With names of crates it measures those alone; the crates below them are proved first, and not counted.
# The clone goes into TMPDIR (or /tmp), with what is built in it. Usage: bench/gate.sh [CRATE ..]
set -euo pipefail
here=$(cd "$(dirname "${BASH_SOURCE[0]}")" && pwd)
made=$(mktemp -d "${TMPDIR:-/tmp}/gate.XXXXXX")
trap 'rm -rf "$made"' EXIT
git clone -q --no-local "$here/.." "$made/clone"
crates=$made/clone/crates

# The tenths of a second that all runs of `timed` took since this was set to 0.
tenths=0

fail() {
  printf 'gate: %s; the last lines of what it wrote and of what it said:\n' "$1" >&2
  tail -q -n 20 "$made/wrote" "$made/said" >&2
  exit 1
}

# timed COMMAND ..: runs it, with its output in `wrote`, and adds what it took. Counted is each process that was waited for, and rt
# waits for all that it starts but for one, which does nothing until rt has ended.
timed() {
  local TIMEFORMAT='%U %S' status=0
  { time "$@" >"$made/wrote" 2>"$made/said" || status=$?; } 2>"$made/times"
  tenths=$((tenths + $(awk '{ printf "%.0f", 10 * ($1 + $2) }' "$made/times")))
  return "$status"
}

# Each crate with the crates right below it, one pair a line, and with itself.
pairs() {
  awk '
    /^[a-z]/ {
      split($0, half, ":"); split(half[1], head, " "); name[++n] = head[1]; is_crate[head[1]] = 1; below[n] = half[2]
    }
    END {
      for (i = 1; i <= n; i++) {
        print name[i], name[i]
        count = split(below[i], dep, " ")
        for (j = 1; j <= count; j++) if (dep[j] in is_crate) print dep[j], name[i]
      }
    }' "$made/clone/crates.txt"
}

# The named crates with all below them, or all crates; the lowest first.
wanted() {
  pairs | tsort | awk -v names="$*" '
    BEGIN { asked = split(names, name, " "); for (i = 1; i <= asked; i++) is_asked[name[i]] = 1 }
    NR == FNR { above[$1] = above[$1] " " $2; next }
    { order[++n] = $1 }
    END {
      for (i = n; i >= 1; i--) {
        count = split(above[order[i]], it, " ")
        for (j = 1; j <= count; j++) if (it[j] in is_asked) is_asked[order[i]] = 1
      }
      for (i = 1; i <= n; i++) if (asked == 0 || order[i] in is_asked) print order[i]
    }' <(pairs) -
}

has_tests() { grep -rqE '#\[test\]' src; }
is_program() { [ -e src/main.rt ]; }

# The proof from nothing. Of a library it makes what the crates above load, too.
proves() {
  local verb=lib
  if is_program; then verb=check; fi
  timed rt "$verb" --jobs 1 </dev/null || fail "rt $verb in $1"
}

# Builds a proved program by one compiler and runs it, where its data lies, and compares what it writes and its status.
runs() {
  local words=() input=/dev/null output=/dev/null wanted=0 status=0
  if [ -e args ]; then mapfile -t words <args; fi
  if [ -e stdin ]; then input=stdin; fi
  if [ -e stdout ]; then output=stdout; fi
  if [ -e status ]; then wanted=$(tr -dc 0-9 <status); fi
  if [ -d data ]; then cp -r data/. .; fi
  timed rt run --jobs 1 --backend "$2" -- ${words[@]+"${words[@]}"} <"$input" || status=$?
  [ "$status" = "$wanted" ] || fail "rt run --backend $2 in $1: status $status"
  cmp -s "$made/wrote" "$output" || fail "rt run --backend $2 in $1: another output"
}

# measure CRATE: its four times, into `row`.
measure() {
  row=()
  tenths=0; proves "$1"; row+=("$tenths")
  tenths=0
  if is_program; then
    runs "$1" llvm
    runs "$1" rattle
  fi
  local programs=$tenths
  # (what the proof left would spare the tests their own)
  rm -rf out/incremental
  tenths=0
  if has_tests; then timed rt test --jobs 1 </dev/null || fail "rt test in $1"; fi
  row+=("$tenths")
  rm -rf out/incremental
  tenths=0
  edits=$(find must-fail -name '*.edit' 2>/dev/null | wc -l) || true
  if [ "$edits" -gt 0 ]; then
    cd "$made/clone"
    timed rt must-fail "$1" </dev/null || fail "rt must-fail $1"
    cd "crates/$1"
  fi
  row+=("$tenths" "$programs")
}

# line NAME EDITS TIME ..: a line of the table, from tenths of seconds, with their sum.
line() {
  local name=$1 edits=$2 sum=0 it
  shift 2
  printf '| %s ' "$name"
  for it in "$@"; do
    sum=$((sum + it))
    printf '| %d.%d ' $((it / 10)) $((it % 10))
  done
  printf '| %d.%d | %d |\n' $((sum / 10)) $((sum % 10)) "$edits"
}

asked=" $* "
for name in "$@"; do [ -d "$crates/$name" ] || { echo "gate: no crate $name" >&2; exit 2; }; done
order=$(wanted "$@")
all=(0 0 0 0)
all_edits=0
printf '| Crate | Proof | Tests | Edits | Programs | All | Number of edits |\n|---|--:|--:|--:|--:|--:|--:|\n'
for crate in $order; do
  cd "$crates/$crate"
  if [ $# -gt 0 ] && [ "${asked#* "$crate" }" = "$asked" ]; then
    if ! is_program; then proves "$crate"; fi
    rm -rf out/incremental
    continue
  fi
  measure "$crate"
  line "\`$crate\`" "$edits" "${row[@]}"
  for i in 0 1 2 3; do all[i]=$((all[i] + row[i])); done
  all_edits=$((all_edits + edits))
done
line 'all' "$all_edits" "${all[@]}"
sum=$((all[0] + all[1] + all[2] + all[3]))
printf '\nTogether %d.%d processor minutes.\n' $((sum / 600)) $((sum % 600 / 60))
