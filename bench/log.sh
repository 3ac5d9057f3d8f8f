#!/usr/bin/env bash
# Times reading a full half of the log, with one row a record and with 31, and applying rows to an empty table, in the order of their
# keys and in another one. Each stands beside memcpy of the same bytes in C (gcc -O2) in the same run, the best of three turns taken in
# alternation: milliseconds of each, and how many times as long as the copy it took. Usage: bench/log.sh [UNITS] [ROWS]
set -eu
here=$(cd "$(dirname "${BASH_SOURCE[0]}")" && pwd)
. "$here/about.sh"
units=${1:-65536}
rows=${2:-100000}
made=$(mktemp -d)
trap 'rm -rf "$made"' EXIT
about
gcc -O2 -o "$made/copy" "$here/log.c"
(cd "$here/../crates/bench_parts" && rt run >"$made/log" 2>&1) || { tail -20 "$made/log"; exit 1; }
ours=$here/../crates/bench_parts/out/bench_parts

# Times one call: its name, what it must say that was done, and the program's arguments.
measure() {
  local name=$1 wanted=$2 best_ours=0 best_peer=0 time_ours time_peer did bytes
  shift 2
  for _ in 1 2 3; do
    read -r time_ours did bytes < <("$ours" "$@")
    [ "$did" = "$wanted" ] || { echo "$name: $did in place of $wanted"; exit 1; }
    time_peer=$("$made/copy" "$bytes")
    if [ "$best_ours" = 0 ] || [ "$time_ours" -lt "$best_ours" ]; then best_ours=$time_ours; fi
    if [ "$best_peer" = 0 ] || [ "$time_peer" -lt "$best_peer" ]; then best_peer=$time_peer; fi
  done
  awk -v name="$name" -v a="$best_ours" -v b="$best_peer" -v n="$bytes" 'BEGIN {
    printf "%-24s %10.1f ms   copy of %.1f MiB %8.1f ms   ratio %.1f\n", name, a / 1e6, n / 1048576, b / 1e6, a / b
  }'
}

measure "scan, 1 row a record" "$units" scan "$units" 1
measure "scan, 31 rows a record" "$units" scan "$units" 31
measure "apply, ascending" true apply "$rows" ascending
measure "apply, scrambled" true apply "$rows" scrambled
