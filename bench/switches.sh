#!/usr/bin/env bash
# Tells what it costs that the halves of the log change places, on a file in memory:
# - the processor time of 100,000 transactions of a page, by seven clients that wait for each, through a half of 64 units, where rows of some
#   ten thousand bytes go into the other half about every sixty transactions, against a half of 65536. What opening the store takes is
#   taken off. Turns are taken in an order drawn anew, the middle one of the times.
# - the instructions of a switch for a row of 100 bytes, by callgrind: what a transaction behind a switch takes more where there are
#   2000 rows more.
# - with 200 MiB of rows in values of 65535 bytes, the peak memory of a run with a switch against one with a transaction less, and the longest
#   pause between two calls of the device in it, which no step there can be longer than: the least of the turns, since the machine may
#   do something else meanwhile.
# What opening a store takes, both halves of which are read, bench/instructions.sh and bench/mount.sh tell.
# It says what is wanted of each, and ends with status 1 where one is beyond that.
# Usage: bench/switches.sh [TRANSACTIONS] [TURNS] [FOLDER IN MEMORY] [PROGRAM]
set -eu
here=$(cd "$(dirname "${BASH_SOURCE[0]}")" && pwd)
. "$here/about.sh"
. "$here/callgrind.sh"
count=${1:-100000}
turns=${2:-3}
made=$(mktemp -d "${3:-/dev/shm}/switches.XXXXXX")
trap 'rm -rf "$made"' EXIT
program=$(program_of "${4:-}")
: >"$made/empty"

# epoch DEVICE: the greatest one of its slots.
epoch() { { od -An -tu8 -j 24 -N 8 "$1"; od -An -tu8 -j 4120 -N 8 "$1"; } | sort -n | tail -n 1 | tr -d ' '; }

# switched DEVICE LEAST: ends the benchmark where the halves changed places less often.
switched() {
  [ "$(epoch "$1")" -ge "$2" ] || {
    echo "the halves of $1 changed places $(epoch "$1") times, and not $2" >&2
    exit 1
  }
}

about

# ---- transactions of a page

each=$((count / 7))
for ((client = 0; client < 7; client++)); do
  awk -v n="$each" -v client="$client" 'BEGIN {
    for (at = 0; at < n; at++) printf "write 1.0_head o%d 0 fill:%02x:4096\nwait\n", 7 * (at % 14) + client, at % 256
  }' >"$made/client$client"
done
clients=("$made"/client?)

# spent NAME SCRIPT ..: adds the processor time of a run on the device, in milliseconds.
spent() {
  local TIMEFORMAT='%3U %3S' name=$1
  shift
  { time "${ahead[@]}" "$program" step "$made/disk" --seed "$turn" "$@" >"$made/output"; } 2>"$made/used" || { tail -n 2 "$made/output" >&2; exit 1; }
  awk -v name="$name" '{ print name, int(1000 * ($1 + $2)) }' "$made/used" >>"$made/times"
}

# pages HALF: a turn of all transactions on a new store with this half.
pages() {
  set_up "$1" $((2 * $1 + 302)) <<<'mkcoll 1.0_head'
  spent "opening-$1" "$made/empty"
  spent "pages-$1" "${clients[@]}"
  ended "$made/output" "done accepted=$((7 * each)) refused=0 "
  switched "$made/disk" $((7 * each / $1))
}

for ((turn = 1; turn <= turns; turn++)); do
  for half in $(shuf -e 64 65536); do pages "$half"; done
done
short=$(longer pages-64 opening-64)
long=$(longer pages-65536 opening-65536)
is_time 'transactions through a half of 64' "$short"
is_time 'transactions through a half of 65536' "$long"
awk -v n=$((7 * each)) -v a="$short" -v b="$long" 'BEGIN {
  printf "a transaction of a page: %.1f us through a half of 64, %.1f us through one of 65536\n", 1e3 * a / n, 1e3 * b / n
}'
wanted 'transactions through a half of 64, against one of 65536' "$(ratio "$short" "$long")" 'at most' 1.25

# ---- a row of 100 bytes

# rows COUNT: a store of so many rows of 100 bytes, whose half of 256 units is full. Records of 250 rows have seven units each.
rows() {
  {
    printf 'mkcoll 1.0_head\ntouch 1.0_head o\nwait\n'
    for ((at = 0; at < $1; at++)); do
      ((at % 250)) || echo begin
      printf 'omapset 1.0_head o k%06d fill:5a:80\n' "$at"
      ((at % 250 != 249)) || printf 'end\nwait\n'
    done
    for ((at = 2 + 7 * $1 / 250; at < 256; at++)); do printf 'touch 1.0_head o\nwait\n'; done
  } >"$made/lines"
  "$program" mkfs "$made/disk" --half 256 --units 600 >/dev/null
  "$program" step "$made/disk" --seed 1 "$made/lines" >"$made/output"
  ended "$made/output" "done accepted=$((2 + $1 / 250 + 254 - 7 * $1 / 250)) refused=0 "
}

# behind_switch COUNT: the instructions of a transaction behind a switch of so many rows, beside those of a refused one.
behind_switch() {
  local with without
  rows "$1"
  without=$(counted "$made/refused")
  with=$(counted "$made/one")
  switched "$made/work" 1
  echo $((with - without))
}

printf 'touch 1.0_head o\nwait\n' >"$made/one"
printf 'touch 2.0_head o\nwait\n' >"$made/refused"
few=$(behind_switch 2000)
many=$(behind_switch 4000)
wanted 'instructions of a switch for a row of 100 bytes' $(((many - few) / 2000)) 'at most' 1500

# ---- 200 MiB of rows

# Records of 15 values have 241 units each. 214 of them are the rows; 57 more put other bytes in some; records of a unit leave a last one.
{
  printf 'mkcoll 1.0_head\ntouch 1.0_head o\nwait\n'
  for ((at = 0; at < 271; at++)); do
    echo begin
    for ((value = 0; value < 15; value++)); do printf 'omapset 1.0_head o k%06d fill:%02x:65535\n' $((at % 214 * 15 + value)) $((at % 256)); done
    printf 'end\nwait\n'
  done
  for ((at = 2 + 241 * 271; at < 65535; at++)); do printf 'touch 1.0_head o\nwait\n'; done
} >"$made/lines"
"$program" mkfs "$made/disk" --half 65536 --units 131100 >/dev/null
"$program" step "$made/disk" --seed 1 "$made/lines" >"$made/output"
grep -q ' refused=0 ' "$made/output" || { tail -n 1 "$made/output" >&2; exit 1; }
cat "$made/one" "$made/one" >"$made/two"

# peak SCRIPT: the peak memory of a run of it on a copy, in KiB.
peak() {
  cp --sparse=always "$made/disk" "$made/work"
  /usr/bin/env time -f %M -o "$made/memory" "$program" step "$made/work" --seed 1 "$1" >"$made/output" || { tail -n 2 "$made/output" >&2; exit 1; }
  tail -n 1 "$made/memory"
}

without=$(peak "$made/one")
with=$(peak "$made/two")
switched "$made/work" 1
wanted 'a switch of 200 MiB of rows: peak memory, MiB more' "$(ratio $((with - without)) 1024)" 'at most' 4

# pause: the longest one between the end of a call of the device and the begin of the next, in milliseconds.
pause() {
  cp --sparse=always "$made/disk" "$made/work"
  "${ahead[@]}" strace -qq -ttt -T -o "$made/trace" -e trace=pwrite64,fdatasync "$program" step "$made/work" --seed 1 "$made/two" >"$made/output"
  switched "$made/work" 1
  awk '{
    took = $NF; gsub(/[<>]/, "", took)
    if (NR > 2 && $1 - last > longest) longest = $1 - last
    last = $1 + took
  } END { printf "%.3f\n", 1000 * longest }' "$made/trace"
}
for ((turn = 1; turn <= turns; turn++)); do pause; done >"$made/pauses"
wanted 'a switch of 200 MiB of rows: the longest pause, in ms' "$(sort -n "$made/pauses" | head -n 1)" 'at most' 5
! grep -q BEYOND "$made/told"
