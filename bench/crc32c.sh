#!/usr/bin/env bash
# Compares the proved checksum with two in C (gcc -O2), in one run: sixteen tables, sixteen bytes a step, and the
# processor's own instruction (SSE4.2). Prints GB/s of each and our ratio to both, the best of seven turns taken in
# alternation. Usage: bench/crc32c.sh [BYTES A ROUND] [ROUNDS]
set -eu
here=$(cd "$(dirname "${BASH_SOURCE[0]}")" && pwd)
. "$here/about.sh"
bytes=${1:-4096}
rounds=${2:-100000}
made=$(mktemp -d)
trap 'rm -rf "$made"' EXIT
about
gcc -O2 -o "$made/crc32c" "$here/crc32c.c"
(cd "$here/../crates/bench_parts" && rt run >"$made/log" 2>&1) || { tail -20 "$made/log"; exit 1; }
ours=$here/../crates/bench_parts/out/bench_parts

best_ours=0 best_tables=0 best_instruction=0
# Keeps the least time of a peer: least NAME NANOSECONDS
least() {
  local -n best=best_$1
  if [ "$best" = 0 ] || [ "$2" -lt "$best" ]; then best=$2; fi
}
for _ in 1 2 3 4 5 6 7; do
  read -r time sum < <("$ours" csum "$bytes" "$rounds")
  least ours "$time"
  for peer in tables instruction; do
    read -r time sum_peer < <("$made/crc32c" "$bytes" "$rounds" "$peer")
    [ "$sum" = "$sum_peer" ] || { echo "the checksums differ: $sum and $sum_peer"; exit 1; }
    least "$peer" "$time"
  done
done
awk -v n="$bytes" -v r="$rounds" -v a="$best_ours" -v b="$best_tables" -v c="$best_instruction" 'BEGIN {
  printf "crc32c_csum        %.2f GB/s\n16 tables, C       %.2f GB/s, ratio %.2f\ninstruction, C     %.2f GB/s, ratio %.2f\n", n * r / a, n * r / b, b / a, n * r / c, c / a
}'
