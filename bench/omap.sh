#!/usr/bin/env bash
# Times omaps, in one run, each beside its peer:
# - a transaction of one pair of 100 bytes by one client, each waited for, on a real file, beside a plain loop in C of write and fdatasync
#   of a record of as many bytes (wanted: 0.7 of the loop's rate or more). What the loop has none of is taken off: what a script of as many
#   lines takes that are refused;
# - on a file in memory, the processor time of such a transaction beside an object of 100,000 pairs, and beside 60,000 objects of a pair,
#   each against one over 1000 (wanted: at most 1.5 times);
# - opening a store whose log has 16,000 records of pairs, against one whose records of pages have as many bytes (wanted: at most 1.2 times);
# - the peak memory of `dump` of 200 MB of pairs in 40 objects, against that of opening the store (wanted: at most 10 MiB more).
# Turns are taken in an order drawn anew. It says of each whether it is as wanted, and ends with status 1 where one is beyond that.
# Usage: bench/omap.sh [TRANSACTIONS] [FOLDER ON THE DISK] [TURNS] [FOLDER IN MEMORY] [A PROGRAM]
set -eu
here=$(cd "$(dirname "${BASH_SOURCE[0]}")" && pwd)
. "$here/about.sh"
count=${1:-2000}
made=$(mktemp -d "${2:-$here}/omap.XXXXXX")
turns=${3:-4}
fast=$(mktemp -d "${4:-/dev/shm}/omap.XXXXXX")
trap 'rm -rf "$made" "$fast"' EXIT
gcc -O2 -o "$made/loop" "$here/step.c"
program=$(program_of "${5:-}")
: >"$fast/empty"
value=fill:5a:100

now() { date +%s%N; }

# ---- transactions on the disk

half=$((count + 8))
units=$((2 * half + 50))
dd if=/dev/zero of="$made/disk" bs=1M count=$((units / 256 + 1)) conv=fsync status=none

# pairs COLLECTION: so many transactions of a pair, with a `wait` behind each
pairs() { for ((i = 0; i < count; i++)); do printf 'omapset %s_head o k%06d %s\nwait\n' "$1" "$i" "$value"; done; }
{ printf 'mkcoll 1.0_head\ntouch 1.0_head o\n'; pairs 1.0; } >"$made/script"
{ printf 'mkcoll 1.0_head\ntouch 1.0_head o\n'; pairs 2.0; } >"$made/refused"

# timed KIND SCRIPT ACCEPTED
timed() {
  local began
  "$program" mkfs "$made/disk" --half "$half" --units "$units" >/dev/null
  began=$(now)
  "${ahead[@]}" "$program" step "$made/disk" --seed "$turn" "$made/$2" >"$made/output" || { tail -n 2 "$made/output"; exit 1; }
  echo "$1 $(($(now) - began))" >>"$made/times"
  ended "$made/output" "done accepted=$3 "
}

# turn_of WHO: its part of a turn
turn_of() {
  case $1 in
    ours) timed ours script $((count + 2)) ;;
    refused) timed refused refused 2 ;;
    peer) echo "peer $("${ahead[@]}" "$made/loop" "$made/file" "$count" 4096 0)" >>"$made/times" ;;
  esac
}

about
for ((turn = 1; turn <= turns; turn++)); do
  for who in $(shuf -e ours refused peer); do turn_of "$who"; done
done
ours=$(longer ours refused)
is_time 'transactions of a pair' "$ours"
sort -k1,1 -k2,2n "$made/times" | awk -v n="$count" -v turns="$turns" -v middle="$ours" '
  { time[$1, ++seen[$1]] = $2 }
  function half_of(who) { return (time[who, int((turns + 1) / 2)] + time[who, int(turns / 2) + 1]) / 2 }
  END {
    least = time["ours", 1] - time["refused", 1]
    rounds = least > 0 ? 1 / least : 0
    printf "transactions of a pair, %d in a turn, %d turns\n", n, turns
    printf "bstore step   %.0f a second, ratio %.2f; p50 %.0f a second, %.0f us each, ratio %.2f\n",
      n * 1e9 * rounds, time["peer", 1] * rounds, n * 1e9 / middle, middle / n / 1e3, half_of("peer") / middle
    printf "plain loop, C %.0f a second; p50 %.0f a second, %.0f us each\n", n * 1e9 / time["peer", 1], n * 1e9 / half_of("peer"), half_of("peer") / n / 1e3
  }'

wanted 'transactions of a pair against rounds of the plain loop' "$(ratio "$(middle peer)" "$ours")" 'at least' 0.7
"$program" mkfs "$made/disk" --half "$half" --units "$units" >/dev/null
flushes_of 'flushes in a transaction' 1 $((count + 2)) "$made/disk" "$made/script"

# ---- transactions over many pairs and over many objects

# took SCRIPT: the least processor time of 21 runs of a script on a copy of the device, in milliseconds.
took() {
  local TIMEFORMAT='%3U %3S' turn
  rm -f "$fast/times"
  for ((turn = 1; turn <= 21; turn++)); do
    cp --sparse=always "$fast/disk" "$fast/work"
    { time "${ahead[@]}" "$program" step "$fast/work" --seed "$turn" "$1" >"$fast/output"; } 2>>"$fast/times" || { tail -n 2 "$fast/output" >&2; exit 1; }
    ended "$fast/output" 'done accepted='
  done
  awk '{ t = 1000 * ($1 + $2); if (NR == 1 || t < least) least = t } END { printf "%d", least }' "$fast/times"
}

# set_up LINES: a store that the lines made, which come from the input: a script has at most 16384 commands, so that there may be several.
set_up() {
  local part
  rm -f "$fast"/part.* "$fast/disk"
  "$program" mkfs "$fast/disk" --half 65536 --units 262144 >/dev/null
  split -l 16000 - "$fast/part."
  for part in "$fast"/part.*; do
    "$program" step "$fast/disk" --seed 1 "$part" >"$fast/output" || { tail -n 2 "$fast/output" >&2; exit 1; }
    grep -q ' refused=0 ' "$fast/output" || { tail -n 2 "$fast/output" >&2; exit 1; }
  done
}

# in_one PAIRS: the lines that make an object of so many pairs, a hundred a transaction
in_one() {
  printf 'mkcoll 1.0_head\ntouch 1.0_head o\n'
  awk -v n="$1" -v value="$value" 'BEGIN {
    for (i = 0; i < n; i += 100) {
      printf "omapset 1.0_head o"
      for (j = i; j < i + 100 && j < n; j++) printf " k%06d %s", 10 * ((j * 7919) % n), value
      printf "\n"
    }
  }'
}

# in_many OBJECTS: the lines that make so many objects of a pair
in_many() {
  echo 'mkcoll 1.0_head'
  awk -v n="$1" -v value="$value" 'BEGIN {
    for (i = 0; i < n; i++) printf "touch 1.0_head o%06d\n", 10 * ((i * 7919) % n)
    for (i = 0; i < n && i < 1000; i++) printf "omapset 1.0_head o%06d k %s\n", 10 * ((i * 7907) % n), value
  }'
}

# costs NAME: the microseconds of a transaction of the script, without what opening the store takes
costs() {
  local opening all
  opening=$(took "$fast/empty")
  all=$(took "$fast/script")
  awk -v a="$all" -v b="$opening" -v n="$(grep -c -v wait "$fast/script")" 'BEGIN { printf "%.1f", (a - b) * 1000 / n }'
}

# compares NAME FEW MANY
compares() {
  is_time "$1" "$2"
  awk -v name="$1" -v few="$2" -v many="$3" 'BEGIN { printf "%-34s %8.1f us   over 1000 %8.1f us   ratio %.2f\n", name, many, few, many / few }'
  wanted "$1, against 1000" "$(ratio "$3" "$2")" 'at most' 1.5
}

for count in 1000 100000; do
  in_one "$count" | set_up
  for ((i = 0; i < 8000; i++)); do printf 'omapset 1.0_head o k%06d %s\nwait\n' $((i * 7907 % count * 10 + 1 + i / count)) "$value"; done >"$fast/script"
  told=$(costs)
  [ "$count" = 1000 ] && few=$told
done
compares 'a pair, object of 100000 pairs' "$few" "$told"
for count in 1000 60000; do
  in_many "$count" | set_up
  for ((i = 0; i < 4000; i++)); do printf 'omapset 1.0_head o%06d k%d %s\nwait\n' $((i * 7907 % count * 10)) $((i / 1000)) "$value"; done >"$fast/script"
  told=$(costs)
  [ "$count" = 1000 ] && few=$told
done
compares 'a pair, 60000 objects' "$few" "$told"

# ---- opening

records=16000
{ printf 'mkcoll 1.0_head\n'; for ((i = 1; i < records; i++)); do printf 'write 1.0_head o%d 0 fill:%02x:4096\n' $((i % 4000)) $((i % 256)); done; } | set_up
of_pages=$(took "$fast/empty")
{
  printf 'mkcoll 1.0_head\ntouch 1.0_head o\n'
  for ((i = 2; i < records; i++)); do printf 'omapset 1.0_head o k%06d %s\n' $(((i * 7919) % records)) "$value"; done
} | set_up
of_pairs=$(took "$fast/empty")
awk -v n="$records" -v a="$of_pairs" -v b="$of_pages" 'BEGIN { printf "opening, %d records of pairs      %8d ms   of pages  %8d ms   ratio %.2f\n", n, a, b, a / b }'
wanted 'opening records of pairs, against those of pages' "$(ratio "$of_pairs" "$of_pages")" 'at most' 1.2

# ---- dump

# 40 objects of 5 MB each, in pairs of 60,000 bytes, four a transaction, whose records take 59 units each of the 65536 of a half. A dump
# has one object's values in memory at a time, so the size of the largest object counts.
awk 'BEGIN {
  printf "mkcoll 1.0_head\n"
  for (o = 0; o < 40; o++) {
    printf "touch 1.0_head o%02d\n", o
    for (i = 0; i < 84; i += 4) {
      printf "omapset 1.0_head o%02d", o
      for (j = i; j < i + 4; j++) printf " k%03d fill:%02x:60000", j, j % 256
      printf "\n"
    }
  }
}' | set_up

# peak WORDS..: the peak memory of the program with these words, in KiB
peak() {
  /usr/bin/env time -f %M -o "$fast/memory" "$program" "$@" >"$fast/output" || { tail -n 2 "$fast/output" >&2; exit 1; }
  tail -n 1 "$fast/memory"
}
opened=$(peak step "$fast/disk" --seed 1 "$fast/empty")
dumped=$(peak dump "$fast/disk")
awk -v a="$dumped" -v b="$opened" -v size="$(stat -c %s "$fast/output")" 'BEGIN {
  printf "dump of %.0f MB of pairs          %8.1f MiB   opened  %8.1f MiB   %.1f MiB more\n", size / 2e6, a / 1024, b / 1024, (a - b) / 1024
}'
wanted 'peak memory of a dump of pairs beside that of the store, in MiB' "$(ratio $((dumped - opened)) 1024)" 'at most' 10
! grep -q BEYOND "$made/told"
