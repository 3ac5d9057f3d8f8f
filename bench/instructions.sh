#!/usr/bin/env bash
# Counts the instructions of one operation of each kind by callgrind, which a busy machine doesn't change: what a script with twice as
# many of them takes more, so that starting, opening the store and what is done once are off. Reading and printing its line is in it,
# and is told by itself as the count of a refused line. Each count has a bound here: a change that passes one says so, and why.
# Usage: bench/instructions.sh [ANOTHER PROGRAM]
set -eu
here=$(cd "$(dirname "${BASH_SOURCE[0]}")" && pwd)
. "$here/about.sh"
. "$here/callgrind.sh"
made=$(mktemp -d "${TMPDIR:-/tmp}/instructions.XXXXXX")
trap 'rm -rf "$made"' EXIT
program=$(program_of "${1:-}")

# told NAME BOUND COUNT
told() {
  local verdict=within
  [ "$3" -le "$2" ] || verdict=BEYOND
  printf '%-52s %11d  %s %d\n' "$1" "$3" "$verdict" "$2" | tee -a "$made/told"
}

# beside PART NAME MORE COUNT: what one of so many lines takes, of those in the variable `script`, on pages on slots of shared blobs: at most so many
# hundredths of what it takes on pages of the objects' own, and so many instructions more.
beside() {
  local own
  own=$(count_of "$4" <<<"$script")
  python3 "$here/shared_pages.py" "$made/disk"
  told "$2" $((own * $1 / 100 + $3)) "$(count_of "$4" <<<"$script")"
}

# each NAME BOUND COUNT: the instructions of one of so many lines from standard input.
each() {
  local found
  found=$(count_of "$3")
  told "$1" "$2" "$found"
}

about
set_up 4096 12000 <<<'mkcoll 1.0_head'
for ((i = 0; i < 400; i++)); do echo 'mkcoll 1.0_head'; done | each 'a line that is refused' 4800 400

{
  echo 'mkcoll 1.0_head'
  for ((i = 0; i < 100; i++)); do printf 'write 1.0_head o%d 0 fill:%02x:4096\n' "$i" "$i"; done
} | set_up 4096 12000
for ((i = 0; i < 400; i++)); do printf 'write 1.0_head o%d 0 fill:%02x:4096\n' $((i % 100)) $((i % 256)); done |
  each 'a page over a page, 100 objects' 41900 400

for many in 2000 40000; do
  {
    echo 'mkcoll 1.0_head'
    for ((i = 0; i < many; i++)); do printf 'write 1.0_head o%06d 0 fill:%02x:4096\n' $((i * 37 % many * 10)) $((i % 256)); done
  } | set_up 65536 200000
  for ((i = 0; i < 200; i++)); do printf 'write 1.0_head o%06d 0 fill:%02x:4096\n' $((i * 97 * many / 2000 % many * 10 + 5)) "$i"; done |
    each "a page of a new object, among $many" 47100 200
done

{
  echo 'mkcoll 1.0_head'
  for ((i = 0; i < 512; i++)); do printf 'write 1.0_head a %d fill:%02x:4096\n' $((i * 211 % 512 * 4096)) $((i % 256)); done
} | set_up 4096 12000
for ((i = 0; i < 100; i++)); do printf 'write 1.0_head a %d fill:%02x:4096\n' $((i * 131 % 512 * 4096)) "$i"; done |
  each 'a page over a page of 512 scattered ones' 120000 100 # beyond since places may be on slots: docs/speed.md says why

{ echo 'mkcoll 1.0_head'; echo 'touch 1.0_head o'; } | set_up 4096 12000
for ((i = 0; i < 40; i++)); do
  printf 'omapset 1.0_head o'
  for ((k = 0; k < 100; k++)); do printf ' k%06d fill:5a:20' $((100 * i + k)); done
  echo
done | each 'an omapset of 100 pairs' 800000 40

set_up 4096 24000 <<<'mkcoll 1.0_head'
for ((i = 0; i < 12; i++)); do printf 'write 1.0_head o%d 0 fill:%02x:1044480\n' "$i" "$i"; done |
  each 'a write of 255 pages' 2880000 12

{
  echo 'mkcoll 1.0_head'
  for ((i = 0; i < 16; i++)); do printf 'write 1.0_head a %d fill:%02x:4096\n' $((i * 4096)) "$i"; done
  for ((i = 0; i < 128; i++)); do printf 'write 1.0_head b %d fill:%02x:1048576\n' $((i * 1048576)) "$i"; done
} | sed 's/1048576$/1044480/' | set_up 4096 60000
for ((i = 0; i < 200; i++)); do printf 'read 1.0_head a %d 4096\n' $((i % 16 * 4096)); done | each 'a read of 4 KiB of 16 pages' 40000 200
for ((i = 0; i < 200; i++)); do printf 'read 1.0_head b %d 4096\n' $((i * 131 % 128 * 1048576)); done |
  each 'a read of 4 KiB of an object of 128 MiB' 40000 200
for ((i = 0; i < 12; i++)); do printf 'read 1.0_head b %d 1044480\n' $((i * 1048576)); done | each 'a read of 255 pages' 8930000 12
printf 'sum 1.0_head b\nsum 1.0_head b\n' | each 'a sum of 128 MiB' 231000000 2

: >"$made/empty"
"$program" mkfs "$made/disk" --half 65536 --units 200000 >/dev/null
# Both halves of the log are read: of the store of 8000 objects the other one's 8192 units take 5.3 million.
told 'opening two empty halves of 65536 units' 87000000 "$(counted "$made/empty")"
{
  echo 'mkcoll 1.0_head'
  for ((i = 0; i < 8000; i++)); do printf 'write 1.0_head o%05d 0 fill:%02x:4096\n' $((i * 2477 % 8000)) $((i % 256)); done
} | set_up 8192 30000
told 'opening 8000 objects of a record each, scrambled' 67900000 "$(counted "$made/empty")"

# Pages on slots of shared blobs, beside the same on units of the objects' own.
{
  echo 'mkcoll 1.0_head'
  for ((i = 0; i < 200; i++)); do printf 'write 1.0_head o%d 0 fill:%02x:4096\n' "$i" "$i"; done
} | set_up 4096 12000
script=$(for ((i = 0; i < 200; i++)); do printf 'write 1.0_head o%d 0 fill:%02x:4096\n' "$i" $((i + 1)); done)
beside 140 'a page over one on a blob of one slot' 200 200
{
  echo 'mkcoll 1.0_head'
  for ((i = 0; i < 8; i++)); do printf 'write 1.0_head o%d 0 fill:%02x:1044480\n' "$i" "$i"; done
} | set_up 4096 12000
script=$(for ((i = 0; i < 200; i++)); do printf 'write 1.0_head o%d %d fill:%02x:4096\n' $((i % 8)) $((i / 8 * 40960)) "$i"; done)
beside 140 'a page over one on a blob of 255 slots' 51000 200
{
  echo 'mkcoll 1.0_head'
  printf 'write 1.0_head a 0 fill:61:262144\n'
} | set_up 4096 12000
script=$(for ((i = 0; i < 40; i++)); do printf 'read 1.0_head a 0 262144\n'; done)
beside 110 'a read of 64 pages on slots' 0 40
{
  echo 'mkcoll 1.0_head'
  for ((i = 0; i < 157; i++)); do printf 'write 1.0_head o%d 0 fill:%02x:1044480\n' "$i" "$i"; done
} | set_up 4096 60000
own=$(counted "$made/empty")
python3 "$here/shared_pages.py" "$made/disk"
told 'opening 40035 pages on slots' $((own * 3 / 2)) "$(counted "$made/empty")"
! grep -q BEYOND "$made/told"
