#!/usr/bin/env bash
# Times fsck, in one run: of a store of 40000 units that is full, beside reading it with dd; of 60000 objects, by the processor time and the
# peak memory of dump; and of 60000 bad rows, beside opening a store that has as many good ones. Five turns, each in an order drawn anew,
# the middle one of the times. It says what is wanted of each, and ends with status 1 where one is beyond that. It needs python3.
# Usage: bench/fsck.sh [FOLDER ON THE DISK]
set -eu
here=$(cd "$(dirname "${BASH_SOURCE[0]}")" && pwd)
. "$here/about.sh"
made=$(mktemp -d "${1:-$here}/fsck.XXXXXX")
trap 'rm -rf "$made"' EXIT
program=$(program_of)
about
: >"$made/empty"

now() { date +%s%N; }

# timed NAME WORD..: runs this, and notes how long it took, its processor time in hundredths of a second, and its peak memory in KiB.
timed() {
  local name=$1 began
  shift
  began=$(now)
  "${ahead[@]}" /usr/bin/env time -f '%U %S %M' -o "$made/used" "$@" >"$made/output" || [ "$(tail -n 1 "$made/used" | wc -w)" = 3 ]
  echo "$name $(($(now) - began))" >>"$made/times"
  tail -n 1 "$made/used" | awk -v name="$name" '{ printf "%s.cpu %d\n%s.kib %d\n", name, ($1 + $2) * 100, name, $3 }' >>"$made/times"
}

# ---- a full store

"$program" mkfs "$made/full" --half 4096 --units 40000 >"$made/output"
{
  echo 'mkcoll 1.0_head'
  for ((i = 0; i < 124; i++)); do printf 'write 1.0_head o%d 0 fill:%02x:1048576\n' "$i" "$i"; done
} >"$made/script"
"$program" step "$made/full" --seed 1 "$made/script" >"$made/output"
ended "$made/output" 'done accepted=125 '
for turn in 1 2 3 4 5; do
  for who in $(shuf -e fsck dd); do
    if [ "$who" = fsck ]; then
      timed full "$program" fsck "$made/full"
      ended "$made/output" 'findings 0'
    else
      timed dd dd if="$made/full" of=/dev/null bs=256K status=none
    fi
  done
done
wanted 'a full store of 40000 units: fsck against dd' "$(ratio "$(middle full)" "$(middle dd)")" 'at most' 2.5

# ---- many objects

"$program" mkfs "$made/objects" --half 8192 --units 20000 >"$made/output"
{
  echo 'mkcoll 1.0_head'
  for ((i = 0; i < 60000; i += 250)); do
    echo begin
    for ((k = i; k < i + 250; k++)); do echo "touch 1.0_head o$k"; done
    echo end
  done
} >"$made/script"
"$program" step "$made/objects" --seed 1 "$made/script" >"$made/output"
ended "$made/output" 'done accepted=241 '
for turn in 1 2 3 4 5; do
  for who in $(shuf -e fsck dump); do timed "$who" "$program" "$who" "$made/objects"; done
done
wanted '60000 objects: processor time of fsck against dump' "$(ratio "$(middle fsck.cpu)" "$(middle dump.cpu)")" 'at most' 1.2
wanted '60000 objects: peak memory of fsck over dump, in MiB' "$(ratio "$(($(middle fsck.kib) - $(middle dump.kib)))" 1024)" 'at most' 8

# ---- bad rows

# rows_on DISK GOOD|BAD: puts a record of 60000 attributes of an object behind the slots of a new store, and the object's rows where they are
# to be good.
rows_on() {
  PYTHONPATH="$here/../tests" python3 -B - "$1" "$2" <<'END'
import sys

from log_record import record_units, set_op

rows = [set_op(b"A1.0_head\0a\0n%05d" % number, b"v") for number in range(60000)]
if sys.argv[2] == "GOOD":
    rows += [set_op(b"C1.0_head", b""), set_op(b"O1.0_head\0a\0o", bytes(8))]
with open(sys.argv[1], "r+b") as disk:
    disk.seek(2 * 4096)
    disk.write(record_units(0, rows))
END
}

for kind in GOOD BAD; do
  "$program" mkfs "$made/$kind" --half 1024 --units 4096 >"$made/output"
  rows_on "$made/$kind" "$kind"
done
for turn in 1 2 3 4 5; do
  for who in $(shuf -e bad opening); do
    if [ "$who" = bad ]; then
      timed bad "$program" fsck "$made/BAD"
      ended "$made/output" 'findings 60000'
    else
      timed opening "$program" step "$made/GOOD" --seed "$turn" "$made/empty"
      ended "$made/output" 'done '
    fi
  done
done
wanted '60000 bad rows: fsck against opening as many good ones' "$(ratio "$(middle bad)" "$(middle opening)")" 'at most' 3

! grep -q 'BEYOND$' "$made/told"
