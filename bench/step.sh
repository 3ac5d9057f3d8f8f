#!/usr/bin/env bash
# Times transactions of one write by one client through `bstore step` on a real file, beside a plain loop in C of write, fdatasync,
# write, fdatasync on the same disk, in one run of several turns, each in an order drawn anew: transactions a second of each, the ratio, by
# the least times and by the middle ones (p50), the program's peak memory, and how many flushes a transaction calls. Both files are filled
# before. What the loop has none of is taken off: what a script of as many lines takes whose writes are refused, which starts, opens the
# store, reads the lines and prints their replies. With another build of the program it times that one too, in the same turns.
# It says what is wanted of each, and ends with status 1 where one is beyond that.
# Usage: bench/step.sh [TRANSACTIONS] [FOLDER ON THE DISK] [TURNS] [ANOTHER PROGRAM] [BYTES OF A WRITE, at most 1044480]
set -eu
here=$(cd "$(dirname "${BASH_SOURCE[0]}")" && pwd)
. "$here/about.sh"
count=${1:-2000}
made=$(mktemp -d "${2:-$here}/step.XXXXXX")
turns=${3:-4}
other=${4:-}
bytes=${5:-4096}
pages=$((bytes / 4096))
objects=$((pages > 1 ? 10 : 100))
trap 'rm -rf "$made"' EXIT
gcc -O2 -o "$made/loop" "$here/step.c"
program=$(program_of)
half=$((count + 8))
units=$((2 * half + 2 + (objects + 2) * pages + 500))
dd if=/dev/zero of="$made/disk" bs=1M count=$((units / 256 + 1)) conv=fsync status=none

# Each transaction is waited for, as the loop waits for each of its writes, and writes the first pages of one of some objects.
writes() {
  for ((i = 0; i < count; i++)); do printf 'write %s_head o%d 0 fill:%02x:%d\nwait\n' "$1" $((i % objects)) $((i % 256)) $((pages * 4096)); done
}
{ echo 'mkcoll 1.0_head'; writes 1.0; } >"$made/script"
{ echo 'mkcoll 1.0_head'; writes 2.0; } >"$made/refused"

now() { date +%s%N; }

# Runs a script by the program of the first word, and adds its nanoseconds and its peak memory to the times under the name of the second.
steps() {
  local began
  "$1" mkfs "$made/disk" --half "$half" --units "$units" >/dev/null
  began=$(now)
  "${ahead[@]}" /usr/bin/env time -f %M -o "$made/memory" "$1" step "$made/disk" --seed "$turn" "$made/$3" >"$made/output" ||
    { tail -n 2 "$made/output"; exit 1; }
  echo "$2 $(($(now) - began)) $(tail -n 1 "$made/memory")" >>"$made/times"
  ended "$made/output" "done accepted=$4 "
}

# turn_of WHO: its part of a turn.
turn_of() {
  case $1 in
    peer) echo "peer $("${ahead[@]}" "$made/loop" "$made/file" "$count" $((pages * 4096))) 0" >>"$made/times" ;;
    ours) steps "$program" ours script $((count + 1)) && steps "$program" ours-refused refused 1 ;;
    other) steps "$other" other script $((count + 1)) && steps "$other" other-refused refused 1 ;;
  esac
}

about
for ((turn = 1; turn <= turns; turn++)); do
  for who in $(shuf -e ours peer ${other:+other}); do turn_of "$who"; done
done

# tell NAME WHO NANOSECONDS: its rate by the least times, and by the middle ones, which are given.
tell() {
  sort -k1,1 -k2,2n "$made/times" | awk -v name="$1" -v who="$2" -v middle="$3" -v peer="$(middle peer)" -v n="$count" '
    !($1 in least) { least[$1] = $2 }
    END {
      time = least[who] - least[who "-refused"]
      rounds = time > 0 ? 1 / time : 0
      printf "%-13s %.0f a second, ratio %.2f; p50 %.0f a second, %.0f us each, ratio %.2f\n",
        name, n * 1e9 * rounds, least["peer"] * rounds, n * 1e9 / middle, middle / n / 1e3, peer / middle
    }'
}

printf 'writes of %d bytes, %d in a turn, %d turns\n' $((pages * 4096)) "$count" "$turns"
ours=$(longer ours ours-refused)
is_time 'bstore step' "$ours"
tell 'bstore step' ours "$ours"
if [ -n "$other" ]; then
  others=$(longer other other-refused)
  is_time 'other program' "$others"
  tell 'other program' other "$others"
fi
tell 'plain loop, C' peer "$(middle peer)"
peak=$(awk '$1 == "ours" && $3 > peak { peak = $3 } END { print peak }' "$made/times")
printf 'peak memory   %.1f MiB\n' "$(ratio "$peak" 1024)"
wanted 'transactions against rounds of the plain loop' "$(ratio "$(middle peer)" "$ours")" 'at least' "$([ "$pages" -gt 1 ] && echo 0.45 || echo 0.65)"
[ "$pages" -gt 1 ] || wanted 'peak memory, in KiB a transaction, 4 MiB aside' "$(ratio $((peak - 4096)) "$count")" 'at most' 12
"$program" mkfs "$made/disk" --half "$half" --units "$units" >/dev/null
flushes_of 'flushes in a transaction' 2 $((count + 1)) "$made/disk" "$made/script"
! grep -q BEYOND "$made/told"
