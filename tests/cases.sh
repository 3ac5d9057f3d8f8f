# What the tests of the built program share; it is read by them, and not run. It finds the program that the gate or ./bstore
# left, and has ./bstore build one where there is none; it changes to a new folder, which is removed at the end; and it counts
# the cases.

set -u
top=$(cd -- "$(dirname -- "${BASH_SOURCE[0]}")/.." && pwd -P)
program=$top/crates/bstore/out/bstore
[ -x "$program" ] || "$top/bstore" >/dev/null
[ -x "$program" ] || exit 1
room=$(cd -- "$(mktemp -d)" && pwd -P)
passed=0
failed=0
skipped=0

# The last thing that a test does, however it ends. A test that needs more of it has a function clean_up of its own.
clean_up() { :; }
trap 'clean_up; cd /; rm -rf "$room"' EXIT
cd "$room" || exit 1

# says NAME TEST..: runs the test, and says how the case came out.
says() {
    local name=$1
    shift
    if "$@"; then
        echo "ok      $name"
        passed=$((passed + 1))
    else
        echo "FAILED  $name"
        failed=$((failed + 1))
    fi
}

# skips NAME WHY: what has this name can't be had on this machine, be it one case or several.
skips() {
    echo "skipped $1: $2"
    skipped=$((skipped + 1))
}

# Ends the test with the number of cases.
counts() {
    echo "$passed passed, $failed failed, $skipped skipped"
    [ "$failed" = 0 ]
}

# Runs the program with these words: its output, what it wrote to standard error, and its status. A run that hasn't ended after
# a minute is ended, with status 124.
run() {
    timeout 60 "$program" "$@" >output 2>complaints </dev/null
    status=$?
}

# ended STATUS LINE..: the last run ended so, with these lines as its output, and wrote nothing to standard error.
ended() {
    local wanted=$1
    shift
    printf '%s\n' "$@" >wanted
    [ "$status" = "$wanted" ] && cmp -s output wanted && [ ! -s complaints ]
}

# is_one_of STATUS..: the last run ended with one of these.
is_one_of() {
    case " $* " in
        *" $status "*) ;;
        *) false ;;
    esac
}

# fill BYTES FILE: so many bytes FF.
fill() {
    head -c "$1" /dev/zero | tr '\0' '\377' >"$2"
}

# Whether a file has so many bytes.
is_long() {
    [ "$(stat -c %s "$1")" = "$2" ]
}

# The words of a command line that makes a store of 64 units, and its line.
small=(--half 8 --units 64)
made='mkfs units=64 half=8 data=46'
