#!/usr/bin/env bash
# Times a transaction of one page while many others wait, beside one while ten wait: submitting it, its data write and the end of that,
# taking it into the log, and committing and acknowledging it, on a device in memory. What making the store and submitting those that
# wait takes is measured by itself and taken off. The least of some turns; the ratio is to be at most 1.5. The program is that which runs
# the cases, as `rt run` builds it in crates/store_cases.
# Usage: bench/waiting.sh [HOW MANY WAIT] [TRANSACTIONS] [TURNS] [ANOTHER PROGRAM]
set -eu
here=$(cd "$(dirname "${BASH_SOURCE[0]}")" && pwd)
. "$here/about.sh"
many=${1:-10000}
count=${2:-10000}
turns=${3:-5}
program=${4:-$here/../crates/store_cases/out/store_cases}
[ -x "$program" ] || { echo "no program $program: rt run in crates/store_cases builds it" >&2; exit 1; }
made=$(mktemp -d "${TMPDIR:-/tmp}/waiting.XXXXXX")
trap 'rm -rf "$made"' EXIT
mkdir "$made/kernel"

# The store is the same for all: room for a record of each, and for a page of each that waits beside those of a hundred objects.
half=$((many + count + 16))
units=$((2 * half + 2 + many + 200))

# case_of WAITING TRANSACTIONS: the file of a case in which so many are committed while so many wait.
case_of() {
  local file=$made/kernel/$1-$2
  cat >"$file" <<END
case waiting
store dev $half $units 0
mount dev
submit 1.0_head mkcoll
submit 2.0_head mkcoll
submit 3.0_head mkcoll
submit 4.0_head mkcoll
settle
waiting $1 $2
END
  echo "$file"
}

# took WAITING TRANSACTIONS: adds the nanoseconds of a run.
took() {
  local file began ended
  file=$(case_of "$1" "$2")
  began=$(date +%s%N)
  "$program" "$file" >"$made/output"
  ended=$(date +%s%N)
  [ "$(tail -n 1 "$made/output")" = "$2 committed, $1 wait" ] || { tail -n 2 "$made/output" >&2; exit 1; }
  echo "$1 $2 $((ended - began))" >>"$made/times"
}

about
for ((turn = 1; turn <= turns; turn++)); do
  took 10 0
  took 10 "$count"
  took "$many" 0
  took "$many" "$count"
done

awk -v many="$many" -v n="$count" '
  { at = $1 " " $2; if (!(at in least) || $3 < least[at]) least[at] = $3 }
  function each(waiting) { return (least[waiting " " n] - least[waiting " " 0]) / n / 1e3 }
  END {
    few = each(10)
    more = each(many)
    if (few <= 0 || more <= 0) { print "too few transactions, or too busy a machine, to tell"; exit 1 }
    printf "%d transactions, each in microseconds: %.2f while 10 wait, %.2f while %d wait, ratio %.2f, %s 1.5\n",
      n, few, more, many, more / few, more <= 1.5 * few ? "within" : "BEYOND"
    exit more > 1.5 * few
  }' "$made/times"
