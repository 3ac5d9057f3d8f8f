#!/usr/bin/env bash
# Times reads of 4096 bytes and of 1 MiB through `bstore step` on a real file, beside a plain loop in C that reads as many bytes of the same units of
# the same file, in one run: reads a second of each, the ratio, and the program's peak memory. What opening the store takes is taken off (a step
# without a command). Each byte that is read is checked, kept in the book, and printed as two digits. Then `bstore dump` of a full store of 40000
# units, beside dd of the same file. Several turns, each in an order drawn anew, the middle one of the times. It says what is wanted of each, and
# ends with status 1 where one is beyond that. Usage: bench/read.sh [FOLDER ON THE DISK] [TURNS]
set -eu
here=$(cd "$(dirname "${BASH_SOURCE[0]}")" && pwd)
. "$here/about.sh"
made=$(mktemp -d "${1:-$here}/read.XXXXXX")
turns=${2:-5}
trap 'rm -rf "$made"' EXIT
gcc -O2 -o "$made/loop" "$here/read.c"
program=$(program_of)
about
: >"$made/empty"
peak=0

now() { date +%s%N; }

# takes NAME WORD..: runs the program, adds its nanoseconds to the times under this name, and leaves its peak memory in `peak`
takes() {
  local began memory name=$1
  shift
  began=$(now)
  "${ahead[@]}" /usr/bin/env time -f %M -o "$made/memory" "$program" "$@" >"$made/output" || { tail -n 2 "$made/output"; exit 1; }
  echo "$name $(($(now) - began))" >>"$made/times"
  memory=$(tail -n 1 "$made/memory")
  if [ "$memory" -gt "$peak" ]; then peak=$memory; fi
}

# An object of 4 MiB, whose pages stand on units 130 to 1153.
"$program" mkfs "$made/disk" --half 64 --units 2000 >/dev/null
{
  echo 'mkcoll 1.0_head'
  for i in 0 1 2 3; do echo "write 1.0_head a $((1048576 * i)) fill:a$i:1048576"; done
} >"$made/script"
takes set-up step "$made/disk" --seed 1 "$made/script"

# turn_of WHO BYTES COUNT: its part of a turn
turn_of() {
  case $1 in
    opening) takes opening step "$made/disk" --seed "$turn" "$made/empty" ;;
    peer) echo "peer $("${ahead[@]}" "$made/loop" "$made/disk" $((4096 * 130)) 4194304 "$2" "$3")" >>"$made/times" ;;
    ours)
      takes ours step "$made/disk" --seed "$turn" "$made/script"
      ended "$made/output" "done accepted=0 refused=0 reads=$3 "
      ;;
  esac
}

# reads BYTES COUNT BOUND: so many reads of so many bytes each
reads() {
  local bytes=$1 count=$2 ours peer turn who
  for ((i = 0; i < count; i++)); do echo "read 1.0_head a $((i * bytes % 4194304)) $bytes"; done >"$made/script"
  rm -f "$made/times"
  peak=0
  for ((turn = 1; turn <= turns; turn++)); do
    for who in $(shuf -e opening ours peer); do turn_of "$who" "$bytes" "$count"; done
  done
  ours=$(longer ours opening)
  peer=$(middle peer)
  is_time "reads of $bytes bytes" "$ours"
  awk -v n="$count" -v s="$bytes" -v a="$ours" -v b="$peer" -v m="$peak" 'BEGIN {
    printf "reads of %7d bytes: %.0f a second (%.0f MB/s), plain loop %.0f (%.0f MB/s), ratio %.3f, peak memory %.0f MiB\n",
      s, n * 1e9 / a, n * s * 1e3 / a, n * 1e9 / b, n * s * 1e3 / b, b / a, m / 1024
  }'
  wanted "reads of $bytes bytes against the plain loop" "$(ratio "$peer" "$ours")" 'at least' "$3"
}
reads 4096 10000 0.035
reads 1048576 48 0.05

# A full store of 40000 units: 31 objects of 1024 pages, four writes each, on 31806 data units.
"$program" mkfs "$made/full" --half 4096 --units 40000 >/dev/null
{
  echo 'mkcoll 1.0_head'
  for ((o = 0; o < 31; o++)); do
    for i in 0 1 2 3; do printf 'write 1.0_head o%d %d fill:%02x:1048576\n' "$o" $((1048576 * i)) $((4 * o + i)); done
  done
} >"$made/script"
takes set-up step "$made/full" --seed 1 "$made/script"
tail -n 1 "$made/output"
rm -f "$made/times"
peak=0
for ((turn = 1; turn <= turns; turn++)); do
  for who in $(shuf -e ours peer); do
    if [ "$who" = ours ]; then
      takes ours dump "$made/full"
      ended "$made/output" end
    else
      began=$(now)
      "${ahead[@]}" dd if="$made/full" of=/dev/null bs=256K status=none
      echo "peer $(($(now) - began))" >>"$made/times"
    fi
  done
done
ours=$(middle ours)
peer=$(middle peer)
awk -v a="$ours" -v b="$peer" -v m="$peak" 'BEGIN {
  s = 4096 * 40000
  printf "dump of 40000 units: %.3f s (%.0f MB/s), dd %.3f s (%.0f MB/s), ratio %.1f, peak memory %.0f MiB\n",
    a / 1e9, s * 1e3 / a, b / 1e9, s * 1e3 / b, a / b, m / 1024
}'
wanted 'dump of a full store against dd' "$(ratio "$ours" "$peer")" 'at most' 2.7
wanted 'peak memory of a dump, in MiB' "$(ratio "$peak" 1024)" 'at most' 4
! grep -q BEYOND "$made/told"
