# Sourced by the benchmarks: what they ran on, the program that they time, what runs first, and what is wanted.
# about: the first line of a benchmark's output: machine, load, commit and date.
about() {
  local model commit
  model=$(awk -F': ' '$1 ~ /^model name/ { print $2; exit }' /proc/cpuinfo)
  commit=$(git -C "$here" rev-parse --short HEAD 2>/dev/null || echo 'no commit')
  [ -z "$(git -C "$here" status --porcelain -- ../crates 2>/dev/null)" ] || commit="$commit and changes"
  printf '# %s, %d processors, load %s, %s, %s\n' "${model:-$(uname -m)}" "$(nproc)" "$(cut -d' ' -f1 /proc/loadavg)" "$commit" "$(date -u +%F)"
}

# The built program, or that of the words.
program_of() {
  if [ $# -gt 0 ] && [ -n "$1" ]; then
    echo "$1"
    return
  fi
  "$here/../bstore" >/dev/null || [ $? = 1 ]
  echo "$here/../crates/bstore/out/bstore"
}

# What puts a program before all other work of the machine, where this user may: beside provers a plain loop made 160 rounds a second, and
# 7,500 so.
ahead=()
! chrt -r 1 true 2>/dev/null || ahead=(chrt -r 1)

# wanted NAME VALUE 'at least'|'at most' BOUND: says whether the value is within, into $made/told too.
wanted() {
  awk -v name="$1" -v value="$2" -v how="$3" -v bound="$4" 'BEGIN {
    good = how == "at most" ? value <= bound : value >= bound
    printf "%-62s %.3g, %s %s: %s\n", name, value, how, bound, good ? "within" : "BEYOND"
  }' | tee -a "$made/told"
}

ratio() { awk -v a="$1" -v b="$2" 'BEGIN { print a / b }'; }

# ended OUTPUT WANTED: the last line of what a run printed begins so.
ended() { [[ "$(tail -n 1 "$1")" == "$2"* ]] || { tail -n 2 "$1" >&2; exit 1; }; }

# The middle one of the numbers on standard input.
middle_one() { sort -n | awk '{ all[NR] = $1 } END { printf "%d\n", (all[int((NR + 1) / 2)] + all[int(NR / 2) + 1]) / 2 }'; }

# middle NAME: the middle one of its times.
middle() { awk -v name="$1" '$1 == name { print $2 }' "$made/times" | middle_one; }

# longer NAME OTHER: how much longer the one took than the other in the same turn, the middle one of all turns.
longer() {
  awk -v name="$1" -v other="$2" '
    $1 == name { time[++turns] = $2 }
    $1 == other { off[++others] = $2 }
    END { for (turn = 1; turn <= turns; turn++) print time[turn] - off[turn] }' "$made/times" | middle_one
}

# is_time NAME VALUE: ends the benchmark where a time from which another one was taken off is none.
is_time() {
  awk -v value="$2" 'BEGIN { exit !(value > 0) }' || {
    echo "$1: this machine is too unsteady to tell" >&2
    exit 1
  }
}

# flushes_of NAME BOUND TRANSACTIONS DEVICE SCRIPT: the flushes that a transaction of the script calls, which no load changes.
flushes_of() {
  strace -qq -o "$made/trace" -e trace=fdatasync "$program" step "$4" --seed 1 "$5" >"$made/output" 2>"$made/complaints" || {
    echo "$1: not counted, $(head -n 1 "$made/complaints")"
    return
  }
  wanted "$1" "$(ratio "$(wc -l <"$made/trace")" "$3")" 'at most' "$2"
}
