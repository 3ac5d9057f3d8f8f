#!/usr/bin/env bash
# Times transactions of one fresh page by several clients of `bstore step` beside each other, each in a collection of its own and with a
# `wait` behind each, in one run of several turns:
# - on a real file, by 1, 16 and 64 clients, beside a plain loop in C of write, fdatasync, write, fdatasync on the same disk, and that
#   loop with 64 pages before its first fdatasync: transactions a second, by the middle one of the turns' times, since a disk has good and
#   bad moments. What the loops have none of is taken off: what scripts of as many lines take whose writes are refused.
# - on a file in memory, three times a turn, the processor time of a transaction with 64 clients and with one.
# - on that file, the time of one client's writes without a `wait`, beside the same with one behind each; and the peak memory of a
#   transaction while all of them wait.
# - how many flushes a transaction calls, by 1, 16 and 64 clients, and by 64 that don't wait: the most of three seeds, by a tracer, which no
#   load changes; and the rate of 64 clients beside one where the tracer makes each flush take 5 ms more.
# It says what is wanted of each ratio, and ends with status 1 where one is beyond that.
# Usage: bench/clients.sh [TRANSACTIONS, a multiple of 64] [FOLDER ON THE DISK] [TURNS] [PROGRAM] [WRITES WITHOUT A WAIT, at most 16383]
set -eu
here=$(cd "$(dirname "${BASH_SOURCE[0]}")" && pwd)
. "$here/about.sh"
count=${1:-12800}
made=$(mktemp -d "${2:-$here}/clients.XXXXXX")
memory=$(mktemp -d /dev/shm/clients.XXXXXX)
turns=${3:-3}
program=$(program_of "${4:-}")
many=${5:-16000}
trap 'rm -rf "$made" "$memory"' EXIT
gcc -O2 -o "$made/loop" "$here/step.c"
most=$((count > many ? count : many))
most=$((most > 6400 ? most : 6400))
half=$((most + 100))
units=$((2 * half + 2 + most + 100))
dd if=/dev/zero of="$made/disk" bs=1M count=$((units / 256 + 1)) conv=fsync status=none
cp "$made/disk" "$memory/disk"

# scripts NAME CLIENTS TRANSACTIONS FIRST-LINE BEHIND-EACH: scripts of so many clients, one a file, in a folder of that name. The first line
# and what comes behind each write may be empty.
scripts() {
  mkdir "$made/$1"
  awk -v folder="$made/$1" -v clients="$2" -v count="$3" -v first="$4" -v behind="$5" 'BEGIN {
    for (client = 1; client <= clients; client++) {
      file = sprintf("%s/%02d", folder, client)
      if (first) printf "%s %d.0_head\n", first, client > file
      for (at = 0; at < count / clients; at++) printf "write %d.0_head o%d 0 fill:%02x:4096\n%s", client, at, at % 256, behind > file
      close(file)
    }
  }'
}

for clients in 1 16 64; do
  scripts "$clients" "$clients" "$count" mkcoll 'wait\n'
  scripts "$clients-refused" "$clients" "$count" '' 'wait\n'
done
scripts each 1 "$many" mkcoll 'wait\n'
scripts all 1 "$many" mkcoll ''
scripts few-1 1 320 mkcoll 'wait\n'
scripts few-16 16 1600 mkcoll 'wait\n'
scripts few-64 64 6400 mkcoll 'wait\n'
scripts few-64-free 64 6400 mkcoll ''

# steps WHERE NAME ACCEPTED: runs the scripts of this name on a new store in this folder, and adds a line of times: where and which, its
# nanoseconds, its processor time in seconds, and its peak memory in KiB.
TIMEFORMAT='%3U %3S'
steps() {
  local began took
  "$program" mkfs "$1/disk" --half "$half" --units "$units" >/dev/null
  began=$(date +%s%N)
  { time /usr/bin/env time -f %M -o "$made/peak" "$program" step "$1/disk" --seed "$turn" "$made/$2"/* >"$made/output"; } 2>"$made/used" ||
    { tail -n 2 "$made/output"; exit 1; }
  took=$(($(date +%s%N) - began))
  echo "${1##*/} $2 $took $(awk '{ print $1 + $2 }' "$made/used") $(tail -n 1 "$made/peak")" >>"$made/times"
  [[ $(tail -n 1 "$made/output") == "done accepted=$3 "* ]] || { tail -n 1 "$made/output"; exit 1; }
}

# traced OUTPUT NAME ACCEPTED WORDS: runs the scripts of this name under a tracer with these words, and tells the nanoseconds.
traced() {
  local began
  "$program" mkfs "$memory/disk" --half "$half" --units "$units" >/dev/null
  began=$(date +%s%N)
  strace -qq -o "$1" -e trace=fdatasync "${@:4}" "$program" step "$memory/disk" --seed "$turn" "$made/$2"/* >"$made/output" || return
  ended "$made/output" "done accepted=$3 "
  echo $(($(date +%s%N) - began))
}

# flushes NAME BOUND TRANSACTIONS SCRIPTS: the most flushes that a transaction of these scripts calls.
flushes() {
  local most=0 found
  for turn in 1 2 3; do
    traced "$made/trace" "$4" "$3" >/dev/null
    found=$(wc -l <"$made/trace")
    most=$((found > most ? found : most))
  done
  wanted "flushes of a transaction, $1" "$(ratio "$most" "$3")" 'at most' "$2"
}

about
for ((turn = 1; turn <= turns; turn++)); do
  for clients in 1 16 64; do
    steps "$made" "$clients" $((count + clients))
    steps "$made" "$clients-refused" 0
  done
  echo "loop 1 $("$made/loop" "$made/file" "$count" 4096 1) 0 0" >>"$made/times"
  echo "loop 64 $("$made/loop" "$made/file" $((count / 64)) 4096 64) 0 0" >>"$made/times"
  for again in 1 2 3; do
    for clients in 1 64; do
      steps "$memory" "$clients" $((count + clients))
    done
    steps "$memory" each $((many + 1))
    steps "$memory" all $((many + 1))
  done
done

awk -v n="$count" -v many="$many" -v turns="$turns" -v disk="${made##*/}" -v memory="${memory##*/}" '
  # puts a value among those that there are, in ascending order
  function keep(all, many, at, value, i) {
    for (i = many[at]++; i > 0 && all[at, i - 1] > value; i--) all[at, i] = all[at, i - 1]
    all[at, i] = value
  }
  function middle(all, many, at) { return (all[at, int((many[at] - 1) / 2)] + all[at, int(many[at] / 2)]) / 2 }
  { at = $1 " " $2; keep(times, runs, at, $3); keep(used, uses, at, $4); if ($5 > peak[at]) peak[at] = $5 }
  function time_of(at) { return middle(times, runs, at) }
  function rate(clients) { return n * 1e9 / (time_of(disk " " clients) - time_of(disk " " clients "-refused")) }
  function wanted(what, value, bound, is_most) {
    good = is_most ? value <= bound : value >= bound
    printf "%-58s %.2f, %s %s: %s\n", what, value, is_most ? "at most" : "at least", bound, good ? "within" : "BEYOND"
    if (!good) beyond = 1
  }
  END {
    printf "%d transactions of a fresh page of 4096 bytes, %d turns\n", n, turns
    for (clients = 1; clients <= 64; clients *= clients == 1 ? 16 : 4)
      printf "%2d clients                  %6.0f a second\n", clients, rate(clients)
    plain = n * 1e9 / time_of("loop 1")
    printf "plain loop, C               %6.0f a second\n", plain
    printf "64 pages a round, C         %6.0f a second\n", n * 1e9 / time_of("loop 64")
    one = middle(used, uses, memory " 1") * 1e6 / n
    more = middle(used, uses, memory " 64") * 1e6 / n
    printf "processor time              %6.1f us with one client, %.1f us with 64\n", one, more
    each = time_of(memory " each") / 1e9
    without = time_of(memory " all") / 1e9
    printf "%d writes of one client  %6.3f s with a wait behind each, %.3f s without, peak memory %.1f MiB\n", many, each, without, peak[memory " all"] / 1024
    wanted("64 clients against one", rate(64) / rate(1), 2.5, 0)
    wanted("64 clients against the plain loop", rate(64) / plain, 1.75, 0)
    wanted("processor time, 64 clients against one", more / one, 1.25, 1)
    # Without a wait each write takes memory of its own; with one, that of the write before.
    wanted("time without a wait against with one", without / each, 1.6, 1)
    wanted("peak memory of a transaction without a wait, in KiB", peak[memory " all"] / many, 12, 1)
    exit beyond
  }' "$made/times" || echo BEYOND >"$made/beyond"

: >"$made/told"
if turn=1 traced "$made/trace" few-1 321 2>"$made/complaints" >/dev/null; then
  flushes 'one client' 2 321 few-1
  flushes '16 clients' 0.33 1616 few-16
  flushes '64 clients' 0.13 6464 few-64
  flushes '64 that do not wait' 0.08 6464 few-64-free
  slow=(-e inject=fdatasync:delay_exit=5000)
  one=$(turn=1 traced /dev/null few-1 321 "${slow[@]}")
  all=$(turn=1 traced /dev/null few-64 6464 "${slow[@]}")
  wanted '64 clients against one, flushes of 5 ms more' "$(ratio $((one * 6464)) $((all * 321)))" 'at least' 13
else
  echo "flushes aren't counted: $(head -n 1 "$made/complaints")"
fi
[ ! -e "$made/beyond" ] && ! grep -q BEYOND "$made/told"
