#!/usr/bin/env bash
# Times opening a store, beside reading both halves of its log with dd, in one run: the seconds of each, the ratio, and the program's peak memory.
# First a store of the most units, 1048576, with halves of 65536 units, on a sparse file: mkfs, and a step without a command. Then a store whose log has
# as many records as are asked for. Five turns, each in an order drawn anew, the middle one of the times. It says what is wanted of each, and
# ends with status 1 where one is beyond that. Usage: bench/mount.sh [RECORDS] [FOLDER ON THE DISK]
set -eu
here=$(cd "$(dirname "${BASH_SOURCE[0]}")" && pwd)
. "$here/about.sh"
count=${1:-16000}
made=$(mktemp -d "${2:-$here}/mount.XXXXXX")
trap 'rm -rf "$made"' EXIT
program=$(program_of)
about
: >"$made/empty"

now() { date +%s%N; }

# turn_of WHO: an empty script on the device, or dd of both halves
turn_of() {
  local began
  began=$(now)
  if [ "$1" = peer ]; then
    "${ahead[@]}" dd if="$disk" of=/dev/null bs=256K skip=8192 iflag=skip_bytes count=$((half / 32)) status=none
  else
    "${ahead[@]}" /usr/bin/env time -f %M -o "$made/memory" "$program" step "$disk" --seed "$turn" "$made/empty" >"$made/output" ||
      { cat "$made/output"; exit 1; }
    tail -n 1 "$made/memory" >>"$made/peaks"
  fi
  echo "$1 $(($(now) - began))" >>"$made/times"
}

# opens NAME DEVICE HALF
opens() {
  local disk=$2 half=$3 turn who ours peer peak
  rm -f "$made/times" "$made/peaks"
  for turn in 1 2 3 4 5; do
    for who in $(shuf -e ours peer); do turn_of "$who"; done
  done
  ours=$(middle ours)
  peer=$(middle peer)
  peak=$(sort -n "$made/peaks" | tail -n 1)
  awk -v name="$1" -v a="$ours" -v b="$peer" -v m="$peak" 'BEGIN {
    printf "%-24s %.3f s, dd of both halves %.3f s, ratio %.1f, peak memory %.0f MiB\n", name, a / 1e9, b / 1e9, a / b, m / 1024
  }'
  tail -n 1 "$made/output"
  wanted "$1: opening against dd of both halves" "$(ratio "$ours" "$peer")" 'at most' 2.5
  wanted "$1: peak memory, in MiB" "$(ratio "$peak" 1024)" 'at most' 8
}

began=$(now)
/usr/bin/env time -f %M -o "$made/memory" "$program" mkfs "$made/large" --half 65536 --units 1048576
printf 'mkfs of 1048576 units    %.3f s, peak memory %.0f MiB\n' "$(echo "$(($(now) - began)) 1000000000" | awk '{ print $1 / $2 }')" "$(awk '{ print $1 / 1024 }' <"$made/memory")"
opens 'an empty log' "$made/large" 65536

"$program" mkfs "$made/disk" --half 65536 --units 200000 >/dev/null
{
  echo 'mkcoll 1.0_head'
  for ((i = 1; i < count; i++)); do printf 'write 1.0_head o%d 0 fill:%02x:4096\n' $((i % 4000)) $((i % 256)); done
} >"$made/script"
"$program" step "$made/disk" --seed 1 "$made/script" >"$made/output"
[ "$(tail -n 1 "$made/output" | cut -d' ' -f1-2)" = "done accepted=$count" ] || { tail -n 1 "$made/output"; exit 1; }
opens "$count records" "$made/disk" 65536
! grep -q BEYOND "$made/told"
