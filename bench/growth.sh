#!/usr/bin/env bash
# Tells what grows: the processor time of one operation, on a file in memory, beside stores of more and more objects whose names came
# in falling, rising and scrambled order, and beside an object of more and more pages, one behind the other or scattered, with how many units of
# the log a page over one of these takes; and what opening each store takes. What opening takes is taken off from the operations, each of which
# is waited for. The least of three runs. It says what is wanted of each, and ends with status 1 where one is beyond that.
# Usage: bench/growth.sh [MOST OBJECTS] [FOLDER] [ANOTHER PROGRAM]
set -eu
here=$(cd "$(dirname "${BASH_SOURCE[0]}")" && pwd)
. "$here/about.sh"
most=${1:-60000}
made=$(mktemp -d "${2:-/dev/shm}/growth.XXXXXX")
trap 'rm -rf "$made"' EXIT
program=$(program_of "${3:-}")
: >"$made/empty"

# took SCRIPT: the least processor time of three runs of a script on a copy of the device, in milliseconds, and the peak memory in KiB.
took() {
  local TIMEFORMAT='%3U %3S' turn
  for turn in 1 2 3; do
    cp --sparse=always "$made/disk" "$made/work"
    { time "${ahead[@]}" /usr/bin/env time -f %M -o "$made/memory" "$program" step "$made/work" --seed "$turn" "$1" >"$made/output"; } 2>>"$made/times" ||
      { tail -n 2 "$made/output" >&2; exit 1; }
  done
  awk '{ t = 1000 * ($1 + $2); if (NR == 1 || t < least) least = t } END { printf "%d", least }' "$made/times"
  rm "$made/times"
}

# names ORDER COUNT: the numbers of so many objects in this order.
names() {
  awk -v order="$1" -v n="$2" 'BEGIN {
    for (i = 0; i < n; i++) printf "%06d\n", 10 * (order == "rising" ? i : order == "falling" ? n - 1 - i : (i * 7919) % n)
  }'
}

# scattered PAGES: the lines that make an object of so many pages, none of which is on the unit behind that of the page before. They are blocks of
# 250 lines, so that no part of 16000 lines ends in one.
scattered() {
  awk -v n="$1" 'BEGIN {
    print "begin\nmkcoll 1.0_head"
    for (i = 0; i < n; i++) {
      if (i && (i + 1) % 248 == 0) print "end\nbegin"
      printf "write 1.0_head a %d fill:%02x:4096\n", i * 7919 % n * 4096, i % 256
    }
    print "end"
  }'
}

# log_units: how many units the records take of the first half of the device that the last run left.
log_units() {
  python3 - "$made/work" <<'END'
import struct, sys

with open(sys.argv[1], "rb") as it:
    it.seek(8192)
    units = 0
    while (head := it.read(4096))[:4] == b"BREC":
        more = (struct.unpack("<I", head[4:8])[0] + 24 - 1) // 4096
        it.seek(4096 * more, 1)
        units += 1 + more
    print(units)
END
}

# A script has at most 16384 commands, so a store of more objects is made by several.
set_up() {
  local part
  "$program" mkfs "$made/disk" --half 65536 --units 262144 >/dev/null
  rm -f "$made"/part.*
  split -l 16000 - "$made/part."
  for part in "$made"/part.*; do
    "$program" step "$made/disk" --seed 1 "$part" >"$made/output" || { tail -n 2 "$made/output" >&2; exit 1; }
  done
}

about
printf '%-34s %12s %14s\n' 'objects of a page' 'opening, ms' 'a new one, us'
for order in rising falling scrambled; do
  for count in 1000 40000 "$most"; do
    [ "$count" -le "$most" ] || continue
    { echo 'mkcoll 1.0_head'; names "$order" "$count" | sed 's/.*/write 1.0_head o& 0 fill:5a:4096/'; } | set_up
    for ((i = 0; i < 4000; i++)); do printf 'write 1.0_head o%06d 0 fill:5b:4096\nwait\n' $((i * 7907 % count * 10 + 1 + i / count)); done >"$made/script"
    opening=$(took "$made/empty")
    all=$(took "$made/script")
    is_time "a new object, $count $order" $((all - opening))
    awk -v o="$order" -v n="$count" -v a="$all" -v b="$opening" 'BEGIN { printf "%-34s %12d %14.1f\n", n " " o, b, (a - b) / 4 }'
    [ "$count" != 1000 ] || few=$((all - opening)) first=$opening
  done
  # the largest store that there was
  wanted "a new object among $count against 1000, $order" "$(ratio $((all - opening)) "$few")" 'at most' 2.5
  [ "$count" = 1000 ] || wanted "opening, $order, in us an object beyond the first 1000" "$(ratio $((1000 * (opening - first))) $((count - 1000)))" 'at most' 6
done
printf '%-34s %12s %14s %12s\n' 'pages of an object' 'opening, ms' 'a page, us' 'a read, us'
for pages in 1 16 512 4096 32768; do
  {
    echo 'mkcoll 1.0_head'
    for ((i = 0; i < pages; i += 128)); do
      printf 'write 1.0_head a %d fill:5a:%d\n' $((i * 4096)) $(((pages - i < 128 ? pages - i : 128) * 4096))
    done
  } | set_up
  opening=$(took "$made/empty")
  # A page of a large one takes longer, since its map is read whole.
  writes=$((pages > 512 ? 500 : 4000))
  for ((i = 0; i < writes; i++)); do printf 'write 1.0_head a %d fill:5b:4096\nwait\n' $((i * 7919 % pages * 4096)); done >"$made/script"
  write=$(ratio $((1000 * ($(took "$made/script") - opening))) "$writes")
  for ((i = 0; i < 8000; i++)); do printf 'read 1.0_head a %d 4096\n' $((i * 7919 % pages * 4096)); done >"$made/script"
  read=$(ratio $((1000 * ($(took "$made/script") - opening))) 8000)
  is_time "a page, of $pages" "$write"
  is_time "a read, of $pages" "$read"
  awk -v n="$pages" -v o="$opening" -v w="$write" -v r="$read" 'BEGIN { printf "%-34s %12d %14.1f %12.1f\n", n, o, w, r }'
  case $pages in
    1) one_page=$write one_read=$read ;;
    512) wanted 'a page over one of an object of 512, against 1' "$(ratio "$write" "$one_page")" 'at most' 4 ;;
    32768)
      wanted 'a page over one of an object of 32768, against 1' "$(ratio "$write" "$one_page")" 'at most' 60
      wanted 'a read of an object of 32768 pages, against 1' "$(ratio "$read" "$one_read")" 'at most' 1.6
      ;;
  esac
done
printf '%-34s %12s %14s %12s\n' 'scattered pages of an object' 'opening, ms' 'a page, us' 'log, units'
for pages in 64 1024 32768; do
  scattered "$pages" | set_up
  opening=$(took "$made/empty")
  before=$(log_units)
  for ((i = 0; i < 500; i++)); do printf 'write 1.0_head a %d fill:5b:4096\nwait\n' $((i * 131 % pages * 4096)); done >"$made/script"
  write=$(ratio $((1000 * ($(took "$made/script") - opening))) 500)
  units=$(ratio $(($(log_units) - before)) 500)
  is_time "a page, of $pages scattered ones" "$write"
  awk -v n="$pages" -v o="$opening" -v w="$write" -v u="$units" 'BEGIN { printf "%-34s %12d %14.1f %12.2f\n", n, o, w, u }'
  wanted "units of the log for a page over one of $pages scattered ones" "$units" 'at most' 1
  [ "$pages" != 64 ] || few=$write
done
wanted 'a page over one of 32768 scattered ones, against 64' "$(ratio "$write" "$few")" 'at most' 200
! grep -q BEYOND "$made/told"
