#!/usr/bin/env bash
# Times transactions of many operations by one client of `bstore step`, each waited for, in one run of several turns:
# - on a real file, 256 small operations in one transaction (a quarter each makes an object, sets an attribute of it, sets a pair, and writes
#   512 bytes) against the same ones each alone, by the middle one of the turns' times. What scripts of as many lines take that are refused
#   is taken off.
# - on a file in memory, the processor time of 256 writes of a page each to an object of 1024 pages in one transaction, against one write of
#   these 256 pages. What opening the store takes is taken off.
# - on that file, the peak memory of a transaction whose payload is the most bytes that there may be, of pages and of pairs.
# It says what is wanted of each, and ends with status 1 where one is beyond that.
# Usage: bench/transactions.sh [ROUNDS OF 256 OPERATIONS, at most 60] [FOLDER ON THE DISK] [TURNS] [FOLDER IN MEMORY] [PROGRAM]
set -eu
here=$(cd "$(dirname "${BASH_SOURCE[0]}")" && pwd)
. "$here/about.sh"
rounds=${1:-20}
made=$(mktemp -d "${2:-$here}/transactions.XXXXXX")
turns=${3:-5}
fast=$(mktemp -d "${4:-/dev/shm}/transactions.XXXXXX")
program=$(program_of "${5:-}")
trap 'rm -rf "$made" "$fast"' EXIT
: >"$fast/empty"
about

# ---- small operations, on the disk

operations=$((256 * rounds))
half=$((operations + 16))
units=$((2 * half + 2 + 64 * rounds + 20))
dd if=/dev/zero of="$made/disk" bs=1M count=$((units / 256 + 1)) conv=fsync status=none

# small COLLECTION FIRST LAST EACH: the rounds, with a line before each and one behind each, and one behind each operation. They may be empty.
small() {
  awk -v coll="$1" -v first="$2" -v last="$3" -v each="$4" -v rounds="$rounds" 'BEGIN {
    for (round = 0; round < rounds; round++) {
      if (first) print first
      for (at = 0; at < 64; at++) {
        it = coll " o" round "." at
        printf "touch %s\n%s", it, each
        printf "setattr %s n fill:6e:20\n%s", it, each
        printf "omapset %s k fill:6b:20\n%s", it, each
        printf "write %s 0 fill:61:512\n%s", it, each
      }
      if (last) printf last
    }
  }'
}

echo 'mkcoll 1.0_head' >"$made/collection"
small 1.0_head begin 'end\nwait\n' '' >"$made/together"
small 2.0_head begin 'end\nwait\n' '' >"$made/together-refused"
small 1.0_head '' '' 'wait\n' >"$made/alone"
small 2.0_head '' '' 'wait\n' >"$made/alone-refused"

# timed NAME ACCEPTED: runs the script on a new store with a collection, and adds its nanoseconds to the file of times.
timed() {
  local began
  "$program" mkfs "$made/disk" --half "$half" --units "$units" >/dev/null
  "$program" step "$made/disk" --seed 1 "$made/collection" >/dev/null
  began=$(date +%s%N)
  "$program" step "$made/disk" --seed "$turn" "$made/$1" >"$made/output" || { tail -n 2 "$made/output"; exit 1; }
  echo "$1 $(($(date +%s%N) - began))" >>"$made/times"
  ended "$made/output" "done accepted=$2 "
}

for ((turn = 1; turn <= turns; turn++)); do
  timed together "$rounds"
  timed together-refused 0
  timed alone "$operations"
  timed alone-refused 0
done
together=$(($(middle together) - $(middle together-refused)))
alone=$(($(middle alone) - $(middle alone-refused)))
awk -v n="$operations" -v together="$together" -v alone="$alone" 'BEGIN {
  printf "small operations: %.0f a second 256 to a transaction, %.0f a second each alone\n", n * 1e9 / together, n * 1e9 / alone
}'
wanted '256 small operations to a transaction, against each alone' "$(ratio "$alone" "$together")" 'at least' 20

# ---- pages, on the file in memory

# An object of 1024 pages. There is room for 60 transactions of 256 pages each, of which each releases as many as it takes.
"$program" mkfs "$fast/disk" --half 1024 --units 4096 >/dev/null
{ echo 'mkcoll 1.0_head'; for at in 0 1 2 3; do echo "write 1.0_head a $((1048576 * at)) fill:61:1048576"; done; } >"$fast/object"
"$program" step "$fast/disk" --seed 1 "$fast/object" >"$fast/output"
ended "$fast/output" 'done accepted=5 '
# Each byte of a line stands twice, once with the pages in one write and once with them in 256.
for ((at = 0; at < 60; at++)); do printf 'write 1.0_head a %d fill:%02x:1048576\nwait\n' $((1048576 * (at % 4))) "$at"; done >"$fast/whole"
awk 'BEGIN {
  for (at = 0; at < 60; at++) {
    print "begin"
    for (page = 0; page < 256; page++) printf "write 1.0_head a %d fill:%02x:4096\n", 1048576 * (at % 4) + 4096 * page, at
    print "end\nwait"
  }
}' >"$fast/pages"

# took SCRIPT: the least processor time of so many runs of a script on a copy of the device, in milliseconds, and the device that is left.
took() {
  local TIMEFORMAT='%3U %3S' turn
  rm -f "$fast/times"
  for ((turn = 1; turn <= 2 * turns + 1; turn++)); do
    cp --sparse=always "$fast/disk" "$fast/work"
    { time "$program" step "$fast/work" --seed "$turn" "$1" >"$fast/output"; } 2>>"$fast/times" || { tail -n 2 "$fast/output" >&2; exit 1; }
    grep -q ' refused=0 ' "$fast/output" || { tail -n 2 "$fast/output" >&2; exit 1; }
  done
  awk '{ t = 1000 * ($1 + $2); if (NR == 1 || t < least) least = t } END { printf "%d", least }' "$fast/times"
}

opening=$(took "$fast/empty")
whole=$(($(took "$fast/whole") - opening))
"$program" dump "$fast/work" >"$fast/dumped"
pages=$(($(took "$fast/pages") - opening))
"$program" dump "$fast/work" | cmp - "$fast/dumped"
awk -v pages="$pages" -v whole="$whole" 'BEGIN { printf "256 pages: %.2f ms in 256 writes, %.2f ms in one\n", pages / 60, whole / 60 }'
wanted '256 writes of a page in a transaction, against one write' "$(ratio "$pages" "$whole")" 'at most' 1.5

# ---- memory

# peak SCRIPT: the peak memory of a run of it, in KiB.
peak() {
  cp --sparse=always "$fast/disk" "$fast/work"
  /usr/bin/env time -f %M -o "$fast/memory" "$program" step "$fast/work" --seed 1 "$1" >"$fast/output" || { tail -n 2 "$fast/output" >&2; exit 1; }
  grep -q ' accepted=[01] refused=0 ' "$fast/output" || { tail -n 2 "$fast/output" >&2; exit 1; }
  tail -n 1 "$fast/memory"
}

sed '/wait/q' "$fast/pages" >"$fast/most-pages"
{ echo begin; for ((at = 0; at < 256; at++)); do printf 'omapset 1.0_head a k%03d fill:6b:4092\n' "$at"; done; echo end; } >"$fast/most-pairs"
opened=$(peak "$fast/empty")
for kind in pages pairs; do
  more=$(($(peak "$fast/most-$kind") - opened))
  wanted "peak memory of 1 MiB of $kind in 256 operations, MiB more" "$(ratio "$more" 1024)" 'at most' 10
done
! grep -q BEYOND "$made/told"
