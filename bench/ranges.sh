#!/usr/bin/env bash
# Times and counts what changes pages in part, by one client of `bstore step` with a `wait` behind each line:
# - on a real file, overwrites of 512 bytes in an object of 16 pages and in one of 1024, beside a plain loop in C of pread, pwrite,
#   fdatasync, pwrite, fdatasync on the same disk, in one run of several turns: the ratio by the middle ones of the times. What the loop
#   has none of is taken off: what a script of as many lines takes whose writes are refused.
# - by callgrind, the instructions of such an overwrite beside those of a page written over another, and in the object of 1024 pages beside
#   the one of 16; those of zeros over 128 MiB with ten pages in them, beside zeros over ten pages.
# - the peak memory of a write of 1 MiB at an odd offset, beside that of opening the store.
# It says what is wanted of each, and ends with status 1 where one is beyond that.
# Usage: bench/ranges.sh [OVERWRITES, at most 16000] [FOLDER ON THE DISK] [TURNS] [PROGRAM]
set -eu
here=$(cd "$(dirname "${BASH_SOURCE[0]}")" && pwd)
. "$here/about.sh"
. "$here/callgrind.sh"
count=${1:-2000}
made=$(mktemp -d "${2:-$here}/ranges.XXXXXX")
turns=${3:-5}
program=$(program_of "${4:-}")
trap 'rm -rf "$made"' EXIT
gcc -O2 -o "$made/loop" "$here/ranges.c"
about

# made_of PAGES: the lines that make an object of so many pages.
made_of() {
  local left at=0
  for ((left = $1; left > 0; left -= 256)); do
    printf 'write 1.0_head a %d fill:61:%d\n' $((at * 4096)) $(((left < 256 ? left : 256) * 4096))
    at=$((at + 256))
  done
}

# overwrites PAGES COUNT BYTES [COLLECTION]: so many lines that write so many bytes each into one page or another of so many.
overwrites() {
  awk -v pages="$1" -v count="$2" -v bytes="$3" -v coll="${4:-1.0_head}" 'BEGIN {
    for (i = 0; i < count; i++) printf "write %s a %d fill:%02x:%d\n", coll, i * 7 % pages * 4096 + (bytes < 4096 ? i % 8 * bytes : 0), i % 256, bytes
  }'
}

# ---- times on a real file

half=$((4 * count + 64))
units=$((2 * half + 2 + 1024 + 100))
dd if=/dev/zero of="$made/disk" bs=1M count=$((units / 256 + 1)) conv=fsync status=none
for pages in 16 1024; do
  { echo 'mkcoll 1.0_head'; made_of "$pages"; } >"$made/object-$pages"
  overwrites "$pages" "$count" 512 | sed 'a wait' >"$made/script-$pages"
  overwrites "$pages" "$count" 512 2.0_head | sed 'a wait' >"$made/refused-$pages"
done

# steps PAGES NAME ACCEPTED: on a new store with that object runs the script of this name, and adds its nanoseconds to the file of times.
steps() {
  local began
  "$program" mkfs "$made/disk" --half "$half" --units "$units" >/dev/null
  "$program" step "$made/disk" --seed 1 "$made/object-$1" >/dev/null
  began=$(date +%s%N)
  "$program" step "$made/disk" --seed "$turn" "$made/$2-$1" >"$made/output" || { tail -n 2 "$made/output"; exit 1; }
  echo "$2-$1 $(($(date +%s%N) - began))" >>"$made/times"
  [[ $(tail -n 1 "$made/output") == "done accepted=$3 "* ]] || { tail -n 1 "$made/output"; exit 1; }
}

for ((turn = 1; turn <= turns; turn++)); do
  for pages in 16 1024; do
    steps "$pages" script "$count"
    steps "$pages" refused 0
    echo "loop-$pages $("$made/loop" "$made/file" "$count" "$pages")" >>"$made/times"
  done
done

for pages in 16 1024; do
  ours=$(($(middle "script-$pages") - $(middle "refused-$pages")))
  loop=$(middle "loop-$pages")
  awk -v pages="$pages" -v n="$count" -v ours="$ours" -v loop="$loop" 'BEGIN {
    printf "512 bytes in an object of %4d pages: %.0f a second, plain loop, C %.0f, ratio %.2f\n", pages, n * 1e9 / ours, n * 1e9 / loop, loop / ours
  }'
  [ "$pages" = 1024 ] || wanted "512 bytes in $pages pages, against the plain loop" "$(ratio "$loop" "$ours")" 'at least' 0.7
done

# ---- instructions

# one_of PAGES COUNT BYTES: the instructions of an overwrite of so many bytes in an object of so many pages, of so many of them.
one_of() {
  { echo 'mkcoll 1.0_head'; made_of "$1"; } | set_up 4096 12000
  overwrites "$1" "$2" "$3" | count_of "$2"
}

# zeros PAGES-APART BYTES: the instructions of zeros over the first so many bytes of an object with ten pages, each so many behind the last.
zeros() {
  {
    echo 'mkcoll 1.0_head'
    for ((i = 0; i < 40; i++)); do
      for ((page = 0; page < 10; page++)); do printf 'write 1.0_head o%d %d fill:61:4096\n' "$i" $((page * $1 * 4096)); done
    done
  } | set_up 4096 12000
  for ((i = 0; i < 40; i++)); do printf 'zero 1.0_head o%d 0 %d\n' "$i" "$2"; done | count_of 40
}

whole=$(one_of 16 200 4096)
part=$(one_of 16 200 512)
many=$(one_of 1024 100 512)
ten=$(zeros 1 40960)
all=$(zeros 3276 134217728)
printf 'instructions: a page over a page of 16 %d, 512 bytes of one %d, of one of 1024 %d, zeros over ten pages %d, over 128 MiB with ten %d\n' \
  "$whole" "$part" "$many" "$ten" "$all"
wanted '512 bytes against a page, in 16 pages, instructions' "$(ratio "$part" "$whole")" 'at most' 1.5
wanted '512 bytes in 1024 pages against 16, instructions' "$(ratio "$many" "$part")" 'at most' 5
wanted 'zeros over 128 MiB with ten pages against ten, instructions' "$(ratio "$all" "$ten")" 'at most' 2

# ---- memory

# peak SCRIPT: the peak memory of a run of it, in KiB, on the store that is set up.
peak() {
  cp --sparse=always "$made/disk" "$made/work"
  /usr/bin/env time -f %M -o "$made/peak" "$program" step "$made/work" --seed 1 "$1" >"$made/output" || { tail -n 2 "$made/output" >&2; exit 1; }
  tail -n 1 "$made/peak"
}

{ echo 'mkcoll 1.0_head'; made_of 512; } | set_up 64 2000
: >"$made/empty"
echo 'write 1.0_head a 4097 fill:62:1048576' >"$made/odd"
echo 'write 1.0_head a 4096 fill:62:1048576' >"$made/even"
opened=$(peak "$made/empty")
odd=$(peak "$made/odd")
even=$(peak "$made/even")
awk -v opened="$opened" -v odd="$odd" -v even="$even" 'BEGIN {
  printf "peak memory: %.1f MiB without a line, %.1f MiB with a write of 1 MiB at an odd offset, %.1f MiB of whole pages\n", opened / 1024, odd / 1024, even / 1024
}'
wanted 'peak memory of a write of 1 MiB at an odd offset, MiB more' "$(ratio $((odd - opened)) 1024)" 'at most' 6
! grep -q BEYOND "$made/told"
