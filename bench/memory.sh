#!/usr/bin/env bash
# Tells what a run keeps in memory of what it has written, on a file in memory, with a `wait` behind each write:
# - the peak memory of a gibibyte in writes of 1 MiB to 16 objects, and of 2000 writes of 64 KiB;
# - the peak memory of 64 transactions of 1 MiB of pairs each, by 64 clients, most of which one batch takes, beside the same one by one;
# - the minor page faults of a MiB that is written, and the memory of a refused command, each as a difference of two runs;
# - the peak memory of 8000 reads of 4096 bytes, beside another program, where the second word names one;
# - then also the processor time of both kinds of writes, in alternation with that program, by the middle one of nine turns.
# It says what is wanted of each, and ends with status 1 where one is beyond that.
# Usage: bench/memory.sh [PROGRAM] [PROGRAM TO COMPARE WITH] [TURNS]
set -eu
here=$(cd "$(dirname "${BASH_SOURCE[0]}")" && pwd)
. "$here/about.sh"
program=$(program_of "${1:-}")
other=${2:-}
turns=${3:-9}
made=$(mktemp -d /dev/shm/memory.XXXXXX)
trap 'rm -rf "$made"' EXIT
: >"$made/told"

# writes COUNT BYTES OBJECTS: a script of so many writes, each over the one before it on its object.
writes() {
  awk -v count="$1" -v bytes="$2" -v objects="$3" 'BEGIN {
    print "mkcoll 1.0_head"
    for (at = 0; at < count; at++) printf "write 1.0_head o%d 0 fill:%02x:%d\nwait\n", at % objects, at % 256, bytes
  }'
}

# touches COUNT: so many lines that are refused, since there is no such collection.
touches() { awk -v count="$1" 'BEGIN { for (at = 0; at < count; at++) print "touch 9.0_head o\nwait" }'; }

# reads COUNT: an object of 1 MiB, and so many reads of its pages.
reads() {
  printf 'mkcoll 1.0_head\nwrite 1.0_head o0 0 fill:5a:1048576\nwait\n'
  awk -v count="$1" 'BEGIN { for (at = 0; at < count; at++) printf "read 1.0_head o0 %d 4096\n", at % 256 * 4096 }'
}

# omaps CLIENT: a script that sets fifteen pairs of 65535 bytes, with an object and a collection of its own.
omaps() {
  awk -v at="$1" 'BEGIN {
    printf "mkcoll %d.0_head\nwait\ntouch %d.0_head o\nwait\nomapset %d.0_head o", at, at, at
    for (pair = 0; pair < 15; pair++) printf " k%d fill:%02x:65535", pair, (16 * at + pair) % 256
    print "\nwait"
  }'
}

mkdir "$made/each" "$made/all"
for ((client = 1; client <= 64; client++)); do
  omaps "$client" >"$made/each/$client"
  omaps "$client" >>"$made/all/1"
done
writes 1024 1048576 16 >"$made/gibibyte"
writes 100 1048576 16 >"$made/large-100"
writes 200 1048576 16 >"$made/large-200"
writes 2000 65536 16 >"$made/small"
touches 4000 >"$made/touch-4000"
touches 8000 >"$made/touch-8000"
reads 8000 >"$made/reads"

# ran PROGRAM SCRIPTS LAST-LINE: runs a script on a new store, or those of a folder. Leaves `peak` (KiB), `faults` (minor ones) and `used`
# (seconds).
ran() {
  rm -f "$made/disk"
  "$1" mkfs "$made/disk" --half 32768 --units 340000 >/dev/null
  /usr/bin/env time -f '%M %R %U %S' -o "$made/used" "$1" step "$made/disk" --seed 1 $(find "$made/$2" -type f | sort) >"$made/output" || true
  ended "$made/output" "$3"
  read -r peak faults used < <(awk 'END { print $1, $2, $3 + $4 }' "$made/used")
}

# of KIND: how large the writes of a kind are.
of() { [ "$1" = small ] && echo '64 KiB' || echo '1 MiB'; }

about
ran "$program" gibibyte 'done accepted=1025 '
wanted 'peak memory of a gibibyte in writes of 1 MiB, in MiB' "$(ratio "$peak" 1024)" 'at most' 16
ran "$program" small 'done accepted=2001 '
wanted 'peak memory of 2000 writes of 64 KiB, in MiB' "$(ratio "$peak" 1024)" 'at most' 12
ran "$program" all 'done accepted=192 '
less=$peak
ran "$program" each 'done accepted=192 '
# They wait beside each other, which takes what they have.
wanted '64 transactions of 1 MiB in batches, beside one by one, in MiB' "$(ratio $((peak - less)) 1024)" 'at most' 72
ran "$program" large-100 'done accepted=101 '
less=$faults
ran "$program" large-200 'done accepted=201 '
wanted 'minor page faults in a MiB that is written' "$(ratio $((faults - less)) 100)" 'at most' 32
ran "$program" touch-4000 'done accepted=0 refused=4000 '
less=$peak
ran "$program" touch-8000 'done accepted=0 refused=8000 '
wanted 'memory of a refused command, in bytes' "$(ratio $(((peak - less) * 1024)) 4000)" 'at most' 650
ran "$program" reads 'done accepted=2 refused=0 reads=8000 '
echo "peak memory of 8000 reads of 4096 bytes: $peak KiB"
if [ -n "$other" ]; then
  now=$peak
  ran "$other" reads 'done accepted=2 refused=0 reads=8000 '
  wanted 'reads: peak memory against the other program' "$(ratio "$now" "$peak")" 'at most' 1.02
  for ((turn = 1; turn <= turns; turn++)); do
    for kind in large-200 small; do
      for which in now before; do
        [ "$which" = now ] && ran "$program" "$kind" 'done accepted=' || ran "$other" "$kind" 'done accepted='
        echo "$kind-$which $(awk -v s="$used" 'BEGIN { print s * 1000 }')" >>"$made/times"
      done
    done
  done
  for kind in large-200 small; do
    wanted "writes of $(of "$kind"): processor time against the other program" "$(ratio "$(middle "$kind-now")" "$(middle "$kind-before")")" 'at most' 0.8
  done
fi
! grep -q BEYOND "$made/told"
