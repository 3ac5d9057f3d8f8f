#!/usr/bin/env bash
# Runs the built program as a user would, and says of each case whether it came as wanted. Ends with status 1 where one
# didn't. It needs python3.

. "$(dirname -- "$0")/cases.sh"

# killed_after SECONDS WORDS: begins a step with these words, and kills it then.
killed_after() {
    "$program" step "${@:2}" >long_output 2>&1 </dev/null &
    local victim=$!
    sleep "$1"
    kill -9 "$victim" 2>/dev/null
    wait "$victim" 2>/dev/null
}

run mkfs FRESH "${small[@]}"
says 'a new file: its line' ended 0 "$made"
says 'a new file: 64 units' is_long FRESH 262144

fill 1000 SHORTER
run mkfs SHORTER "${small[@]}"
says 'a shorter file: its line' ended 0 "$made"
says 'a shorter file: as a new one' cmp -s SHORTER FRESH

# Two superblock slots and the eight units of half 0 come first; what lies behind them is kept.
fill 500000 LONGER
run mkfs LONGER "${small[@]}"
says 'a longer file: its line' ended 0 "$made"
says 'a longer file: 64 units' is_long LONGER 262144
says 'a longer file: the slots and half 0 as in a new one' cmp -s -n 40960 LONGER FRESH
fill 221184 rest
says 'a longer file: what lies behind them is kept' cmp -s -i 40960:0 LONGER rest

run mkfs FRESH "${small[@]}"
says 'made again' ended 0 "$made"
says 'made again: the same bytes' cmp -s FRESH SHORTER

run mkfs absent/DEV "${small[@]}"
says 'a name in a folder that is not there' ended 7 'stopped 7'
run mkfs . "${small[@]}"
says 'a folder' ended 7 'stopped 7'

run mkfs SMALL --half 8 --units 18
says 'too few units' ended 4 'mkfs TooSmall units=18 need=19' 'stopped 4'
says 'too few units: no device is made' test ! -e SMALL
cp FRESH KEPT
run mkfs KEPT --half 40 --units 20
says 'too few units over a good store' ended 4 'mkfs TooSmall units=20 need=83' 'stopped 4'
says 'too few units over a good store: it is as it was' cmp -s KEPT FRESH
run mkfs LEAST --half 8 --units 19
says 'just enough units' ended 0 'mkfs units=19 half=8 data=1'

"$program" mkfs FULL "${small[@]}" >/dev/full 2>complaints </dev/null
status=$?
says 'a full output' is_one_of 6
says 'a full output: no other text' test ! -s complaints
says 'a full output: the same store' cmp -s FULL FRESH

# Descriptors that are closed at the start: no device stands under one, so no text is written into the store.
"$program" mkfs CLOSED "${small[@]}" >&- 2>complaints </dev/null
status=$?
says 'a closed output' is_one_of 0 6
says 'a closed output: the same store' cmp -s CLOSED FRESH
"$program" mkfs ALONE "${small[@]}" >output 2>&- <&-
status=$?
: >complaints
says 'closed input and error' ended 0 "$made"
says 'closed input and error: the same store' cmp -s ALONE FRESH
"$program" mkfs NONE "${small[@]}" >&- 2>&- <&-
status=$?
says 'all three closed' is_one_of 0 6
says 'all three closed: the same store' cmp -s NONE FRESH

# is_refused WORD..: the words aren't a command line. There is a text, without a line that begins with stopped, and no
# device is made.
is_refused() {
    run "$@"
    [ "$status" = 1 ] && [ -s output ] && ! grep -q '^stopped' output && [ ! -s complaints ] && [ ! -e DEV ]
}

says 'no words' is_refused
says 'a command alone' is_refused mkfs
says 'no numbers' is_refused mkfs DEV
says 'a missing word' is_refused mkfs DEV --half 8 --units
says 'an extra word' is_refused mkfs DEV --half 8 --units 64 more
says 'another command' is_refused mkfz DEV --half 8 --units 64
says 'help' is_refused --help
says 'an empty name' is_refused mkfs '' --half 8 --units 64
says 'a name that begins with a dash' is_refused mkfs -DEV --half 8 --units 64
says 'a name that is not text' is_refused mkfs $'DEV\xff' --half 8 --units 64
for half in 7 65537 -8 ' 8' '8 ' 8.0 0x8 '' 4294967304; do
    says "half '$half'" is_refused mkfs DEV --half "$half" --units 64
done
for units in 0 1048577 -64 64k '' 4294967360 18446744073709551680; do
    says "units '$units'" is_refused mkfs DEV --half 8 --units "$units"
done
says 'prefer beyond the most' is_refused mkfs DEV --half 8 --units 64 --prefer 1048577

# Options stand anywhere, in any order, and numbers may have zeros or a plus in front.
for words in '--half 8 --units 64 ORDER' 'ORDER --units 64 --half 8' '--units=064 ORDER --half +8' '--half 08 --units +64 -- ORDER'; do
    # shellcheck disable=SC2086
    run mkfs $words
    says "mkfs $words" ended 0 "$made"
    says "mkfs $words: the same store" cmp -s ORDER FRESH
    rm -f ORDER
done

# ---- step

# unit K FILE: unit K of a file.
unit() {
    tail -c +$((4096 * $1 + 1)) "$2" | head -c 4096
}

# add_record FILE NUMBER OP..: a record behind so many of one unit each, in half 0 of a store.
add_record() {
    local file=$1 number=$2
    shift 2
    python3 "$top/tests/log_record.py" "$number" "$@" | dd of="$file" bs=4096 seek=$((2 + number)) conv=notrunc status=none
}

# has_record FILE NUMBER OP..: that record stands there.
has_record() {
    local file=$1 number=$2
    shift 2
    python3 "$top/tests/log_record.py" "$number" "$@" >wanted_record
    unit $((2 + number)) "$file" | cmp -s - wanted_record
}

# turn UNIT: the operation that turns a unit's bit in the bitmap.
turn() {
    local mask='' byte
    for byte in {0..15}; do
        mask+=$(printf %02x $(($1 % 128 / 8 == byte ? 1 << $1 % 8 : 0)))
    done
    printf '03050062%08x10000000%s' $(($1 / 128)) "$mask"
}

# onode NAME [BYTES]: the operation that sets the onode of an object of so many bytes, or of a page. The name is two hexadecimal digits, the
# collection 1.0_head.
onode() {
    local size=${2:-4096} at
    printf '010d004f312e305f6865616400%s006f08000000' "$1"
    for at in {0..7}; do printf %02x $((size >> 8 * at & 255)); done
}

# shard NAME UNIT: the operation that sets its shard. The page, 4096 times Z, stands on a unit below 256.
shard() {
    printf '0112004f312e305f6865616400%s006f00000000780f00000000000000010000%02x000000498cf137' "$1" "$2"
}

run mkfs T "${small[@]}"
printf 'mkcoll 1.0_head\nwait\nwrite 1.0_head a 0 fill:5a:4096\nwait\n' >script
run step T --seed 1 script
says 'step: a collection and a page' ended 0 '0:1 ok' '0:3 ok' 'done accepted=2 refused=0 reads=0 commits=2 free=45'
head -c 4096 /dev/zero | tr '\0' '\132' >page
unit 18 T >found
says 'step: the page stands on unit 18' cmp -s found page
says 'step: the record of the collection stands in unit 2' test "$(unit 2 T | head -c 4)" = BREC
says 'step: 64 units still' is_long T 262144

# A page whose bytes differ, in digits.
run mkfs DIGITS "${small[@]}"
seq 1 2000 | head -c 4096 >page
{ echo 'mkcoll 1.0_head'; printf 'write 1.0_head a%%20b 0 hex:'; od -An -v -tx1 page | tr -d ' \n'; echo; } >digits
run step DIGITS --seed 1 digits
says 'step: a page in digits' ended 0 '0:1 ok' '0:2 ok' 'done accepted=2 refused=0 reads=0 commits=2 free=45'
unit 18 DIGITS >found
says 'step: each of its bytes stands on unit 18' cmp -s found page

cp T BEFORE
: >empty
run step T --seed 1 empty
says 'step: a store is opened again' ended 0 'done accepted=0 refused=0 reads=0 commits=0 free=45'
says 'step: it is left as it was' cmp -s T BEFORE
cp T AGAIN
printf 'mkcoll 1.0_head\nwrite 1.0_head b 0 fill:5b:4096\nwrite 1.0_head a 0 fill:5c:4096\n' >more
run step AGAIN --seed 2 more
says 'step: its objects are there' ended 0 '0:1 E2 CollectionExists' '0:2 ok' '0:3 ok' 'done accepted=2 refused=1 reads=0 commits=2 free=44'
run step AGAIN --seed 3 empty
says 'step: and again' ended 0 'done accepted=0 refused=0 reads=0 commits=0 free=44'

# An object without bytes, and objects of many pages.
printf 'touch 1.0_head c\nwrite 1.0_head b 4096 fill:5d:81920\nwrite 1.0_head b 0 fill:5e:102400\n' >pages
run step AGAIN --seed 3 pages
says 'step: many pages' ended 0 '0:1 ok' '0:2 ok' '0:3 E9 NoSpace need=25 free=24' 'done accepted=2 refused=1 reads=0 commits=2 free=24'

# An object of 1024 pages, whose last page is replaced by a write of two. The pages of a new store stand on units one behind the other.
run mkfs PAGES --half 24 --units 1160
{
    echo 'mkcoll 1.0_head'
    for i in 0 1 2 3; do echo "write 1.0_head a $((1048576 * i)) fill:0$i:1048576"; done
    echo 'write 1.0_head a 4190208 fill:05:8192'
    echo 'write 1.0_head a 0 fill:05:1052672'
    echo 'write 1.0_head a 134217728 fill:05:4096'
} >pages
run step PAGES --seed 1 pages
says 'step: an object of 1025 pages' ended 0 '0:1 ok' '0:2 ok' '0:3 ok' '0:4 ok' '0:5 ok' '0:6 ok' '0:7 E8 TooBig' '0:8 E8 TooBig' \
    'done accepted=6 refused=2 reads=0 commits=6 free=85'
head -c 1048576 /dev/zero | tr '\0' '\3' >found
tail -c +$((4096 * (50 + 768) + 1)) PAGES | head -c 1044480 | cmp -s - <(head -c 1044480 found)
says 'step: its fourth quarter but for the last page' test "$?" = 0
{ head -c 8192 /dev/zero | tr '\0' '\5'; } >found
tail -c +$((4096 * (50 + 1024) + 1)) PAGES | head -c 8192 >last
says 'step: its last two pages, on new units' cmp -s found last
run step PAGES --seed 1 empty
says 'step: it is opened again' ended 0 'done accepted=0 refused=0 reads=0 commits=0 free=85'

# ---- the bitmap of the units that are taken

# A store of one data unit, which a second object finds taken.
run mkfs ONE --half 8 --units 19
printf 'mkcoll 1.0_head\nwrite 1.0_head a 0 fill:41:4096\nwrite 1.0_head b 0 fill:42:4096\n' >two
run step ONE --seed 1 two
says 'bitmap: one data unit' ended 0 '0:1 ok' '0:2 ok' '0:3 E9 NoSpace need=1 free=0' 'done accepted=2 refused=1 reads=0 commits=2 free=0'
cp ONE ONE_BEFORE
run step ONE --seed 1 two
says 'bitmap: one data unit, opened again' ended 0 '0:1 E2 CollectionExists' '0:2 E9 NoSpace need=1 free=0' '0:3 E9 NoSpace need=1 free=0' \
    'done accepted=0 refused=3 reads=0 commits=0 free=0'
says 'bitmap: it is left as it was' cmp -s ONE ONE_BEFORE

# The record of a first page, on unit 130: the object's onode and its shard are set, and bit 2 of row 1 is turned.
run mkfs BITS --half 64 --units 256
printf 'mkcoll 1.0_head\nwait\nwrite 1.0_head a 0 fill:5a:4096\n' >first
run step BITS --seed 1 first
says 'bitmap: a page on unit 130' ended 0 '0:1 ok' '0:3 ok' 'done accepted=2 refused=0 reads=0 commits=2 free=125'
zeros15=$(printf '00%.0s' {1..15})
says 'bitmap: its record' has_record BITS 1 "$(onode 61)" "$(shard 61 130)" "03050062000000011000000004$zeros15"

# An overwrite goes to unit 131 and gives unit 130 back: one operation turns both bits. The next one turns them again.
printf 'write 1.0_head a 0 fill:5a:4096\nwait\nwrite 1.0_head a 0 fill:5a:4096\n' >twice
run step BITS --seed 1 twice
says 'bitmap: two overwrites' ended 0 '0:1 ok' '0:3 ok' 'done accepted=2 refused=0 reads=0 commits=2 free=125'
says 'bitmap: the record of the first' has_record BITS 2 "$(shard 61 131)" "0305006200000001100000000c$zeros15"
says 'bitmap: the record of the second' has_record BITS 3 "$(shard 61 130)" "0305006200000001100000000c$zeros15"

# with_record FILE OP..: FILE is T with these operations behind its two records, and FILE_BEFORE is the same.
with_record() {
    local file=$1
    shift
    cp T "$file"
    add_record "$file" 2 "$@"
    cp "$file" "${file}_BEFORE"
}

# is_refused_as LINE OP..: with these operations behind its two records T is refused by this line, and left as it is.
is_refused_as() {
    local line=$1 same=yes
    shift
    with_record INEXACT "$@"
    run step INEXACT --seed 1 script
    ended 4 "$line" 'stopped 4' || same=no
    run dump INEXACT
    ended 4 "$line" 'stopped 4' && cmp -s INEXACT INEXACT_BEFORE && [ "$same" = yes ]
}

# is_leaked FREE OP..: with these operations behind its two records T has so many free units and its object, and is left as it is.
is_leaked() {
    local free=$1 same=yes
    shift
    with_record LEAKED "$@"
    run step LEAKED --seed 1 empty
    ended 0 "done accepted=0 refused=0 reads=0 commits=0 free=$free" || same=no
    run dump LEAKED
    ended 0 'coll 1.0_head' 'object a size 4096 crc 37f18c49' 'end' && cmp -s LEAKED LEAKED_BEFORE && [ "$same" = yes ]
}

# By this seed both transactions are ready when the batch is opened: its record has the operations of both.
run mkfs TOGETHER "${small[@]}"
printf 'mkcoll 1.0_head\nwrite 1.0_head a 0 fill:5a:4096\n' >together
run step TOGETHER --seed 2 together
says 'step: two transactions in one batch' ended 0 '0:1 ok' '0:2 ok' 'done accepted=2 refused=0 reads=0 commits=2 free=45'
says 'step: two transactions in one batch: the record' has_record TOGETHER 0 01090043312e305f6865616400000000 "$(onode 61)" "$(shard 61 18)" "$(turn 18)"
unit 3 TOGETHER >found
says 'step: two transactions in one batch: nothing is behind it' cmp -s found <(head -c 4096 /dev/zero)
run dump TOGETHER
says 'step: two transactions in one batch: what is there' ended 0 'coll 1.0_head' 'object a size 4096 crc 37f18c49' 'end'

# The object of T stands on unit 18.
says 'bitmap: the second record of T' has_record T 1 "$(onode 61)" "$(shard 61 18)" "$(turn 18)"
says 'bitmap: an object without its bit' is_refused_as 'mount NotExact unit=18' "$(turn 18)"
says 'bitmap: a unit with two owners' is_refused_as 'mount NotExact unit=18' "$(onode 62)" "$(shard 62 18)"
says 'bitmap: a second object without its bit' is_refused_as 'mount NotExact unit=19' "$(onode 62)" "$(shard 62 19)"
says 'bitmap: the least of two' is_refused_as 'mount NotExact unit=18' "$(onode 62)" "$(shard 62 19)" "$(turn 18)"
says 'bitmap: a unit of the log is marked' is_refused_as 'mount BadRow 6200000000' "$(turn 17)"
says 'bitmap: one beyond the last is marked' is_refused_as 'mount BadRow 6200000000' "$(turn 64)" "$(turn 18)"
says 'bitmap: a leaked unit' is_leaked 44 "$(turn 20)"
says 'bitmap: two leaked units' is_leaked 43 "$(turn 63)" "$(turn 19)"
says 'bitmap: a bit that is turned twice' is_leaked 45 "$(turn 18)" "$(turn 18)"

# With unit 20 leaked 44 are free, and it is none of them.
with_record FILLED "$(turn 20)"
printf 'write 1.0_head b 0 fill:62:184320\nwrite 1.0_head b 0 fill:62:180224\nwrite 1.0_head a 0 fill:61:4096\n' >fills
run step FILLED --seed 1 fills
says 'bitmap: all units but the leaked one' ended 0 '0:1 E9 NoSpace need=45 free=44' '0:2 ok' '0:3 E9 NoSpace need=1 free=0' \
    'done accepted=1 refused=2 reads=0 commits=1 free=0'
unit 20 FILLED >found
says 'bitmap: nothing stands on the leaked one' cmp -s found <(head -c 4096 /dev/zero)
run step FILLED --seed 1 empty
says 'bitmap: and so it stays' ended 0 'done accepted=0 refused=0 reads=0 commits=0 free=0'

# ---- ranges of bytes. The checksums were made apart, bit by bit.

# pieces BYTE:COUNT ..: prints each byte so many times. It is two hexadecimal digits.
pieces() {
    local piece
    for piece; do
        head -c "${piece#*:}" /dev/zero | tr '\0' "\\$(printf %03o "0x${piece%:*}")"
    done
}

# holds UNIT BYTE:COUNT ..: the unit holds these bytes.
holds() {
    local at=$1
    shift
    unit "$at" RANGES | cmp -s - <(pieces "$@")
}

# lines LINE ..: the script 'ranges' makes the collection and has these lines; the script 'waiting' has a wait behind each, and one behind a
# block, so that each transaction has a record of its own.
lines() {
    printf '%s\n' 'mkcoll 1.0_head' "$@" >ranges
    with_waits
}

with_waits() {
    awk '{ print } /^begin$/ { inside = 1 } /^end$/ { inside = 0 } !inside { print "wait" }' ranges >waiting
}

# on_new SCRIPT HALF UNITS: runs it on a new store, whose data units hold zeros.
on_new() {
    rm -f RANGES
    run mkfs RANGES --half "$2" --units "$3"
    run step RANGES --seed 1 "$1"
}

# has_object SIZE CHECKSUM: the object `a` is all that the store has in its collection.
has_object() {
    run dump RANGES
    ended 0 'coll 1.0_head' "object a size $1 crc $2" 'end'
}

# The key of the object's onode and that of its shard at page 0, each behind its length.
onode_key=0d004f312e305f686561640061006f
shard_key=12004f312e305f686561640061006f0000000078

lines 'write 1.0_head a 0 hex:313233343536373839' 'sum 1.0_head a'
on_new ranges 8 64
says 'ranges: nine bytes' ended 0 '0:1 ok' '0:2 ok' '0:3 sum 9 e3069283' 'done accepted=2 refused=0 reads=1 commits=2 free=45'
says 'ranges: nine bytes, and zeros behind them' holds 18 31:1 32:1 33:1 34:1 35:1 36:1 37:1 38:1 39:1 00:4087
lines 'write 1.0_head a 10 hex:' 'stat 1.0_head a'
on_new waiting 64 256
says 'ranges: no bytes' ended 0 '0:1 ok' '0:3 ok' '0:5 size 0' 'done accepted=2 refused=0 reads=1 commits=2 free=126'
says 'ranges: no bytes: its record' has_record RANGES 1 "$(onode 61 0)"

# The page of the first byte is on unit 130. Two bytes over it and behind it take the two units behind that one.
lines 'write 1.0_head a 4095 hex:41' 'write 1.0_head a 4095 hex:4243' 'read 1.0_head a 4094 4'
on_new waiting 64 256
says 'ranges: over two pages' ended 0 '0:1 ok' '0:3 ok' '0:5 ok' '0:7 data 004243' 'done accepted=3 refused=0 reads=1 commits=3 free=124'
says 'ranges: over two pages: the first' holds 131 00:4095 42:1
says 'ranges: over two pages: the second' holds 132 43:1 00:4095
says 'ranges: over two pages: the record' has_record RANGES 2 "$(onode 61 4097)" \
    "01${shard_key}130000000000000002000083000000c22cb9382acbdf90" "0305006200000001100000001c$zeros15"
says 'ranges: over two pages: the object' has_object 4097 22d85206

# The pages are on units 130 and 131. The first one's unit is 132 once it is cut.
lines 'write 1.0_head a 0 fill:5a:5000' 'truncate 1.0_head a 100' 'truncate 1.0_head a 5000' 'read 1.0_head a 99 3' 'stat 1.0_head a'
on_new waiting 64 256
says 'ranges: cut and made longer' ended 0 '0:1 ok' '0:3 ok' '0:5 ok' '0:7 ok' '0:9 data 5a0000' '0:11 size 5000' \
    'done accepted=4 refused=0 reads=2 commits=4 free=125'
says 'ranges: cut and made longer: its page' holds 132 5a:100 00:3996
says 'ranges: cut and made longer: the record of the cut' has_record RANGES 2 "$(onode 61 100)" \
    "01${shard_key}0f00000000000000010000840000007940a4a1" "0305006200000001100000001c$zeros15"
says 'ranges: cut and made longer: the last record' has_record RANGES 3 "$(onode 61 5000)"
says 'ranges: cut and made longer: the object' has_object 5000 79ae77ca

# Three pages on units 130 to 132. Of the zeros in them the first and the last page are on units 133 and 134, and the one between is a hole.
# The page that is left at the end is on the lowest unit that is free then.
lines 'write 1.0_head a 0 fill:61:12288' 'zero 1.0_head a 1000 10000' 'read 1.0_head a 998 3' 'read 1.0_head a 10999 2' 'sum 1.0_head a' \
    'truncate 1.0_head a 4096' 'sum 1.0_head a' 'truncate 1.0_head a 4095'
on_new ranges 64 256
says 'ranges: zeros over three pages' ended 0 '0:1 ok' '0:2 ok' '0:3 ok' '0:4 data 616100' '0:5 data 0061' '0:6 sum 12288 30050003' '0:7 ok' \
    '0:8 sum 4096 2c7f47f5' '0:9 ok' 'done accepted=5 refused=0 reads=4 commits=5 free=125'
says 'ranges: zeros over three pages: the first' holds 133 61:1000 00:3096
says 'ranges: zeros over three pages: the last' holds 134 00:2808 61:1288
says 'ranges: zeros over three pages: what is left' holds 135 61:1000 00:3096
says 'ranges: zeros over three pages: the first unit is as it was' holds 130 61:4096
says 'ranges: zeros over three pages: the object' has_object 4095 aca65e2f
on_new waiting 64 256
says 'ranges: zeros, with waits' ended 0 '0:1 ok' '0:3 ok' '0:5 ok' '0:7 data 616100' '0:9 data 0061' '0:11 sum 12288 30050003' '0:13 ok' \
    '0:15 sum 4096 2c7f47f5' '0:17 ok' 'done accepted=5 refused=0 reads=4 commits=5 free=125'
says 'ranges: zeros, with waits: the first' holds 133 61:1000 00:3096
says 'ranges: zeros, with waits: the last' holds 134 00:2808 61:1288
says 'ranges: zeros, with waits: what is left' holds 130 61:1000 00:3096
says 'ranges: zeros, with waits: no other unit was taken' holds 135 00:4096
says 'ranges: zeros, with waits: the record of the zeros' has_record RANGES 2 \
    "01${shard_key}1e0000000000000001000085000000f5477f2c0200000001000086000000de63465e" "0305006200000001100000007c$zeros15"
says 'ranges: zeros, with waits: the record of the first cut' has_record RANGES 3 "$(onode 61)" \
    "01${shard_key}0f0000000000000001000085000000f5477f2c" "03050062000000011000000040$zeros15"
says 'ranges: zeros, with waits: the object' has_object 4095 aca65e2f

# A store of one data unit: a page that stands on it can't be changed in part, but its object can go.
lines 'write 1.0_head a 0 fill:61:4096' 'write 1.0_head a 0 hex:62' 'truncate 1.0_head a 5' 'remove 1.0_head a' 'write 1.0_head a 0 hex:63'
on_new waiting 8 19
says 'ranges: one data unit' ended 0 '0:1 ok' '0:3 ok' '0:5 E9 NoSpace need=1 free=0' '0:7 E9 NoSpace need=1 free=0' '0:9 ok' '0:11 ok' \
    'done accepted=4 refused=2 reads=0 commits=4 free=0'
says 'ranges: one data unit: the record of the removal' has_record RANGES 2 "02$onode_key" "02$shard_key" "$(turn 18)"
says 'ranges: one data unit: the page' holds 18 63:1 00:4095
says 'ranges: one data unit: the object' has_object 1 20eb33c7

# What ends behind an object's most bytes is refused. What changes nothing has a record without operations.
lines 'zero 1.0_head a 134217728 1' 'truncate 1.0_head q 134217729' 'write 1.0_head a 134217728 hex:41' 'truncate 1.0_head q 134217728' \
    'remove 1.0_head q' 'stat 1.0_head q' 'zero 1.0_head a 134217728 0' 'stat 1.0_head a' 'zero 1.0_head a 134217727 1' 'stat 1.0_head a'
on_new waiting 8 64
says 'ranges: the most bytes' ended 0 '0:1 ok' '0:3 E8 TooBig' '0:5 E8 TooBig' '0:7 E8 TooBig' '0:9 ok' '0:11 ok' '0:13 E4 NoObject' '0:15 ok' \
    '0:17 size 0' '0:19 ok' '0:21 size 134217728' 'done accepted=5 refused=4 reads=2 commits=5 free=46'
says 'ranges: the record of a truncate that changes nothing' has_record RANGES 1
says 'ranges: the record of a removal that changes nothing' has_record RANGES 2
says 'ranges: the record of no zeros' has_record RANGES 3 "$(onode 61 0)"
says 'ranges: the record of a zero in a hole' has_record RANGES 4 "$(onode 61 134217728)"

# One byte of a page is changed: byte 7 of unit 18. What keeps some of the page's bytes is refused, and what covers it wholly is not.
lines 'write 1.0_head a 0 fill:61:4096'
on_new ranges 8 64
printf 'X' | dd of=RANGES bs=1 seek=$((4096 * 18 + 7)) conv=notrunc status=none
bad='E14 Csum unit=18 kept=26c74ca2 found=35140c63'
printf '%s\n' 'write 1.0_head a 0 hex:62' 'zero 1.0_head a 5 6' 'truncate 1.0_head a 7' 'write 1.0_head a 0 fill:62:4096' \
    'write 1.0_head a 1 hex:63' >over
run step RANGES --seed 1 over
says 'ranges: a changed byte' ended 4 "0:1 $bad" "0:2 $bad" "0:3 $bad" '0:4 ok' '0:5 ok' 'done accepted=2 refused=3 reads=0 commits=2 free=45'
says 'ranges: a changed byte: it is gone' has_object 4096 6174a978

# ---- transactions of several operations. The checksums were made apart, bit by bit.

# Page 0 stands on unit 130. What was put on unit 131 is cleared, and its page is put again, on unit 132.
lines begin 'write 1.0_head a 0 fill:61:8192' 'write 1.0_head a 4095 hex:7a7a' 'zero 1.0_head a 4096 4096' 'write 1.0_head a 8191 hex:62' end \
    'read 1.0_head a 4094 4' 'read 1.0_head a 8190 2'
on_new waiting 64 256
says 'blocks: writes of the same pages' ended 0 '0:1 ok' '0:3 ok' '0:10 data 617a0000' '0:12 data 0062' \
    'done accepted=2 refused=0 reads=2 commits=2 free=124'
says 'blocks: writes of the same pages: the first' holds 130 61:4095 7a:1
says 'blocks: writes of the same pages: the one that was cleared' holds 131 00:4096
says 'blocks: writes of the same pages: the last' holds 132 00:4095 62:1
says 'blocks: writes of the same pages: the record' has_record RANGES 1 "$(onode 61 8192)" \
    "01${shard_key}1e0000000000000001000082000000f62010af01000000010000840000001ca20418" "03050062000000011000000014$zeros15"
says 'blocks: writes of the same pages: the object' has_object 8192 bfdf6233

# What an object had goes with it, and nothing of it is written.
lines begin 'write 1.0_head b 0 fill:63:4096' 'remove 1.0_head b' end 'write 1.0_head a 0 hex:64' 'list 1.0_head'
on_new waiting 64 256
says 'blocks: an object that comes and goes' ended 0 '0:1 ok' '0:3 ok' '0:8 ok' '0:10 objects a' \
    'done accepted=3 refused=0 reads=1 commits=3 free=125'
says 'blocks: an object that comes and goes: the record' has_record RANGES 1
says 'blocks: an object that comes and goes: its unit has another page' holds 130 64:1 00:4095

# A page that is cleared and put again takes two units, and one that is changed takes one.
lines begin 'write 1.0_head a 0 fill:61:4096' 'zero 1.0_head a 0 4096' 'write 1.0_head a 0 hex:62' end
on_new ranges 8 19
says 'blocks: a unit for each taking' ended 0 '0:1 ok' '0:2 E9 NoSpace need=2 free=1' 'done accepted=1 refused=1 reads=0 commits=1 free=1'
lines begin 'write 1.0_head a 0 fill:61:4096' 'write 1.0_head a 0 hex:62' end 'read 1.0_head a 0 2'
on_new ranges 8 19
says 'blocks: a page that is changed' ended 0 '0:1 ok' '0:2 ok' '0:6 data 6261' 'done accepted=2 refused=0 reads=1 commits=2 free=0'
says 'blocks: a page that is changed: its unit' holds 18 62:1 61:4095

# The first refusal is that of the whole, and nothing of it is left.
lines begin 'touch 1.0_head q' 'setattr 1.0_head missing n hex:01' 'setattr 1.0_head q n fill:00:65536' end 'stat 1.0_head q' 'list 1.0_head'
on_new ranges 8 64
says 'blocks: nothing of one that is refused' ended 0 '0:1 ok' '0:2 E4 NoObject' '0:7 E4 NoObject' '0:8 objects' \
    'done accepted=1 refused=2 reads=1 commits=1 free=46'

# touches COLLECTION COUNT: a block of so many.
touches() {
    local n
    echo begin
    for ((n = 1; n <= $2; n++)); do echo "touch $1 o$n"; done
    echo end
}

# A block with too many operations is refused before its collection is looked for.
{ touches 1.0_head 257; echo 'mkcoll 1.0_head'; touches 1.0_head 257; touches 1.0_head 256; } >ranges
on_new ranges 8 64
says 'blocks: the most operations' ended 0 '0:1 E8 TooBig' '0:260 ok' '0:261 E8 TooBig' '0:520 ok' \
    'done accepted=2 refused=2 reads=0 commits=2 free=46'
lines 'write 1.0_head a 0 fill:61:1048576' 'write 1.0_head a 0 fill:61:1048577' begin 'write 1.0_head a 0 fill:61:1048575' \
    'write 1.0_head b 0 hex:61' end begin 'write 1.0_head a 0 fill:61:1048575' 'write 1.0_head b 0 hex:6161' end
on_new ranges 64 256
says 'blocks: the most bytes' ended 0 '0:1 ok' '0:2 E9 NoSpace need=256 free=126' '0:3 E8 TooBig' '0:4 E9 NoSpace need=257 free=126' \
    '0:8 E8 TooBig' 'done accepted=1 refused=4 reads=0 commits=1 free=126'

# Of the values only how they differ at the end is in the record. The keys of object `o`.
header_key=0d004d312e305f68656164006f002d
pair_key=0e004d312e305f68656164006f002e6b
third_key=0f004d312e305f68656164006f002e6b33
lines begin 'touch 1.0_head o' 'omapheader 1.0_head o hex:77' 'omapset 1.0_head o k hex:01' end \
    begin 'omapset 1.0_head o k2 hex:02' 'omapclear 1.0_head o' 'omapset 1.0_head o k3 hex:03 k3 hex:04' end
on_new waiting 8 64
says 'blocks: values' ended 0 '0:1 ok' '0:3 ok' '0:9 ok' 'done accepted=3 refused=0 reads=0 commits=3 free=46'
says 'blocks: values: the record' has_record RANGES 2 "02$header_key" "02$pair_key" "01${third_key}0100000004"
run dump RANGES
says 'blocks: values: what is left' ended 0 'coll 1.0_head' 'object o size 0 crc 00000000' 'omap k3 04' 'end'

# A collection that goes and comes in a block stays.
printf '%s\n' begin 'mkcoll 1.0_head' 'touch 1.0_head a' end begin 'remove 1.0_head a' 'rmcoll 1.0_head' 'mkcoll 1.0_head' end \
    'rmcoll 1.0_head' 'touch 1.0_head a' >ranges
with_waits
on_new waiting 8 64
says 'blocks: a collection that goes and comes' ended 0 '0:1 ok' '0:6 ok' '0:12 ok' '0:14 E1 NoCollection' \
    'done accepted=3 refused=1 reads=0 commits=3 free=46'
says 'blocks: a collection that goes and comes: the first record' has_record RANGES 0 01090043312e305f6865616400000000 "$(onode 61 0)"
says 'blocks: a collection that goes and comes: the second record' has_record RANGES 1 "02$onode_key"
says 'blocks: a collection that goes and comes: the third record' has_record RANGES 2 02090043312e305f68656164

# is_bad LINE TEXT: this is the first bad line of the script, also where its last line has no end.
is_bad() {
    local same=yes
    printf '%s\n' "$2" >bad
    run step ABSENT --seed 1 bad
    ended 2 "script 0 line $1" 'stopped 2' || same=no
    printf '%s' "$2" >bad
    run step ABSENT --seed 1 bad
    ended 2 "script 0 line $1" 'stopped 2' && [ "$same" = yes ]
}

touch_a='touch 1.0_head a'
says 'a bad block: no operation' is_bad 3 $'mkcoll 1.0_head\nbegin\nend'
says 'a bad block: no operation, but a note' is_bad 4 $'begin\n\n# a note\nend\ntouch'
says 'a bad block: an end alone' is_bad 2 "$touch_a"$'\nend'
says 'a bad block: a second end' is_bad 4 $'begin\n'"$touch_a"$'\nend\nend'
says 'a bad block: a begin inside' is_bad 3 $'begin\n'"$touch_a"$'\nbegin'
says 'a bad block: a read inside' is_bad 3 $'begin\n'"$touch_a"$'\nstat 1.0_head a\nend'
says 'a bad block: a wait inside' is_bad 2 $'begin\nwait\n'"$touch_a"$'\nend'
says 'a bad block: another collection' is_bad 4 $'begin\n'"$touch_a"$'\n\ntouch 1.1_head a\nend'
says 'a bad block: a line of no command' is_bad 3 $'begin\n'"$touch_a"$'\ntuoch 1.0_head b\nend'
says 'a bad block: a word behind its begin' is_bad 2 $'#\nbegin 1.0_head\n'"$touch_a"$'\nend'
says 'a bad block: a word behind its end' is_bad 3 $'begin\n'"$touch_a"$'\nend 1.0_head'
says 'a bad block: a space behind its begin' is_bad 1 $'begin \n'"$touch_a"$'\nend'
says 'a bad block: a space behind its end' is_bad 3 $'begin\n'"$touch_a"$'\nend '
says 'a bad block: no end' is_bad 3 $'begin\n'"$touch_a"
says 'a bad block: no end behind a begin' is_bad 2 begin
says 'a bad block: no end of the second' is_bad 6 $'begin\n'"$touch_a"$'\nend\nbegin\n'"$touch_a"
printf 'begin\n%s\n\n' "$touch_a" >bad
run step ABSENT --seed 1 bad
says 'a bad block: no end behind an empty line' ended 2 'script 0 line 4' 'stopped 2'
printf 'mkcoll 1.0_head\nbegin\n\n%s\n# a note\n%s\n\nend\nlist 1.0_head' "$touch_a" "$touch_a" >ranges
on_new ranges 8 64
says 'blocks: lines that are passed over' ended 0 '0:1 ok' '0:2 ok' '0:9 objects a' 'done accepted=2 refused=0 reads=1 commits=2 free=46'

# Runs that are killed amid many blocks, each of which puts its number on two objects, in their bytes and in their values. Whatever moment it
# was, both have the same one, or none of them is there.
run mkfs BLOCKS --half 16384 --units 36000
{
    echo 'mkcoll 1.0_head'
    for ((i = 0; i < 2000; i++)); do
        printf -v n %02x $((i % 256))
        printf '%s\n' begin "write 1.0_head a 0 fill:$n:4096" "setattr 1.0_head a n hex:$n" "write 1.0_head b 0 fill:$n:4096" \
            "omapset 1.0_head b n hex:$n" end
    done
} >blocks
whole=yes
cut=no
for ((i = 1; i <= 20; i++)); do
    killed_after "0.$(printf %02d $((3 * i)))" BLOCKS --seed "$i" blocks
    run dump BLOCKS
    [ "$status" = 0 ] || whole=no
    sed '/^coll/d; /^end/d; s/^object [ab]/object/; s/^attr/value/; s/^omap/value/' output | sort | uniq -c | sed 's/^ *//; s/ [^ ]*$//' >counted
    [ ! -s counted ] || cmp -s counted <(printf '%s\n' '2 object size 4096 crc' '2 value n') || whole=no
    [ ! -s counted ] || cut=yes
done
says 'blocks: runs that were killed' test "$whole" = yes
says 'blocks: they had begun' test "$cut" = yes

# ---- reads and dump. The checksums were made apart, bit by bit.

cp T BEFORE_READS
printf 'stat 1.0_head a\nread 1.0_head a 4094 9\nread 1.0_head a 0 0\nsum 1.0_head a\nlist 1.0_head\nread 1.0_head b 0 1\nlist 2.0_head\nread 1.0_head a 1 134217728\n' >look
run step T --seed 1 look
says 'reads: each of them, and refusals' ended 0 '0:1 size 4096' '0:2 data 5a5a' '0:3 data -' '0:4 sum 4096 37f18c49' '0:5 objects a' '0:6 E4 NoObject' \
    '0:7 E1 NoCollection' '0:8 E7 BadRange' 'done accepted=0 refused=3 reads=5 commits=0 free=45'
says 'reads: the store is as it was' cmp -s T BEFORE_READS
run dump T
says 'dump: a collection and an object' ended 0 'coll 1.0_head' 'object a size 4096 crc 37f18c49' 'end'
says 'dump: the store is as it was' cmp -s T BEFORE_READS
run dump FRESH
says 'dump: an empty store' ended 0 'end'
run dump ZEROS_ALONE
says 'dump: no device' ended 7 'stopped 7'
head -c 262144 /dev/zero >ZEROS_ALONE
run dump ZEROS_ALONE
says 'dump: no store' ended 4 'mount NoSuper' 'stopped 4'
run dump DIGITS
says 'dump: a name that is escaped' ended 0 'coll 1.0_head' 'object a%20b size 4096 crc 17b6b518' 'end'
run dump PAGES
says 'dump: an object of 1025 pages' ended 0 'coll 1.0_head' 'object a size 4198400 crc 57fc1af0' 'end'

# The run that the README shows of an object with a hole.
run mkfs HOLE "${small[@]}"
printf 'mkcoll 1.0_head\ntouch 1.0_head a\nwrite 1.0_head b 4096 fill:5a:4096\nstat 1.0_head b\nread 1.0_head b 4095 2\nlist 1.0_head\nsum 1.0_head a\n' >hole
run step HOLE --seed 1 hole
says 'reads: a page behind a hole' ended 0 '0:1 ok' '0:2 ok' '0:3 ok' '0:4 size 8192' '0:5 data 005a' '0:6 objects a b' '0:7 sum 0 00000000' \
    'done accepted=3 refused=0 reads=4 commits=3 free=45'
printf 'read 1.0_head b 8191 9\n' >end
run step HOLE --seed 1 end
says 'reads: cut at the size' ended 0 '0:1 data 5a' 'done accepted=0 refused=0 reads=1 commits=0 free=45'
run dump HOLE
says 'dump: an object with a hole' ended 0 'coll 1.0_head' 'object a size 0 crc 00000000' 'object b size 8192 crc 3f4c8be3' 'end'

# The session of the README.
run mkfs SESSION "${small[@]}"
printf 'mkcoll 1.0_head\nwrite 1.0_head a 0 fill:5a:4096\nwait\n' >begin
run step SESSION --seed 1 begin
says 'the README: a collection and a page' ended 0 '0:1 ok' '0:2 ok' 'done accepted=2 refused=0 reads=0 commits=2 free=45'
printf 'read 1.0_head a 4094 9\nsum 1.0_head a\nlist 1.0_head\nstat 1.0_head b\n' >look
run step SESSION --seed 2 look
says 'the session: a look' ended 0 '0:1 data 5a5a' '0:2 sum 4096 37f18c49' '0:3 objects a' '0:4 E4 NoObject' \
    'done accepted=0 refused=1 reads=3 commits=0 free=45'
printf 'mkcoll 1.0_head\nwrite 1.0_head b 4096 fill:5b:4096\ntouch 1.0_head c\nwrite 1.0_head d 0 fill:5d:184320\n' >later
run step SESSION --seed 3 later
says 'the session: more objects' ended 0 '0:1 E2 CollectionExists' '0:2 ok' '0:3 ok' '0:4 E9 NoSpace need=45 free=44' \
    'done accepted=2 refused=2 reads=0 commits=2 free=44'
run dump SESSION
says 'the session: all objects' ended 0 'coll 1.0_head' 'object a size 4096 crc 37f18c49' 'object b size 8192 crc e5ada115' \
    'object c size 0 crc 00000000' 'end'
printf 'write 1.0_head b 8190 hex:58595a\nzero 1.0_head b 4096 4094\ntruncate 1.0_head c 2\nremove 1.0_head a\nwait\nread 1.0_head b 8188 9\n' >parts
run step SESSION --seed 4 parts
says 'the session: parts of pages' ended 0 '0:1 ok' '0:2 ok' '0:3 ok' '0:4 ok' '0:6 data 000058595a' \
    'done accepted=4 refused=0 reads=1 commits=4 free=44'
run dump SESSION
says 'the session: what is left' ended 0 'coll 1.0_head' 'object b size 8193 crc 9a35370a' 'object c size 2 crc f16177d2' 'end'

printf 'mkcoll 2.0_head\nwrite 2.0_head a 0 fill:41:4096\nwait\nread 2.0_head a 0 2\n' >first
printf 'touch 2.0_head b\nlist 2.0_head\n' >second
run mkfs SESSION "${small[@]}"
run step SESSION --seed 1 first second
says 'the session: two clients' ended 0 '0:1 ok' '0:2 ok' '0:4 data 4141' '1:1 ok' '1:2 objects a b' \
    'done accepted=3 refused=0 reads=2 commits=3 free=45'
run mkfs SESSION "${small[@]}"
run step SESSION --seed 3 first second
says 'the session: the second client comes too early' ended 0 '0:1 ok' '0:2 ok' '0:4 data 4141' '1:1 E1 NoCollection' '1:2 E1 NoCollection' \
    'done accepted=2 refused=2 reads=1 commits=2 free=45'

# One byte of a page is changed: byte 100 of unit 18.
cp T CHANGED
printf 'X' | dd of=CHANGED bs=1 seek=$((4096 * 18 + 100)) conv=notrunc status=none
bad='E14 Csum unit=18 kept=37f18c49 found=23508045'
printf 'read 1.0_head a 4095 1\nsum 1.0_head a\nstat 1.0_head a\nread 1.0_head a 7 0\n' >look
run step CHANGED --seed 1 look
says 'a changed byte: reads' ended 4 "0:1 $bad" "0:2 $bad" '0:3 size 4096' '0:4 data -' 'done accepted=0 refused=2 reads=2 commits=0 free=45'
run dump CHANGED
says 'a changed byte: dump' ended 4 'coll 1.0_head' "object a size 4096 $bad" 'end'

"$program" dump T >/dev/full 2>complaints </dev/null
status=$?
says 'dump: a full output' is_one_of 6
says 'dump: no device named' is_refused dump
says 'dump: two devices' is_refused dump T HOLE
says 'dump: a name that begins with a dash' is_refused dump -T

# What is wrong with a store is told, and nothing is changed, also where a mount would clear what stands behind the records.
run fsck T
says 'fsck: a good store' ended 0 'findings 0'
with_record WRONG "$(turn 21)" "$(turn 30)"
printf 'stale' | dd of=WRONG bs=1 seek=$((4096 * 9)) conv=notrunc status=none
cp WRONG WRONG_BEFORE
run fsck WRONG
says 'fsck: two units that nobody owns' ended 4 'Leaked unit=21' 'Leaked unit=30' 'findings 2'
says 'fsck: the store is as it was' cmp -s WRONG WRONG_BEFORE
run fsck /dev/null
says 'fsck: no device' ended 7 'stopped 7'
says 'fsck: no device named' is_refused fsck

# What stands behind the records, in units 4 and 9, is zeros once the store was opened, and nothing else has changed.
cp T STALE
printf 'stale' | dd of=STALE bs=1 seek=$((4096 * 4)) conv=notrunc status=none
printf 'stale' | dd of=STALE bs=1 seek=$((4096 * 9 + 4091)) conv=notrunc status=none
run step STALE --seed 1 empty
says 'step: stale bytes behind the records' ended 0 'done accepted=0 refused=0 reads=0 commits=0 free=45'
says 'step: they are cleared' cmp -s STALE BEFORE

# A run is killed at some moment; the store is opened again, and a run is done on it, twenty times.
run mkfs KILLED --half 16384 --units 36000
{ echo 'mkcoll 1.0_head'; for ((i = 0; i < 3000; i++)); do printf 'write 1.0_head o%d 0 fill:%02x:4096\nwait\n' $((i % 50)) $((i % 256)); done; } >long
killed=yes
for ((i = 1; i <= 20; i++)); do
    killed_after "0.0$((i % 10))" KILLED --seed "$i" long
    run step KILLED --seed "$i" more
    [ "$status" = 0 ] && [ "$(tail -n 1 output | cut -d' ' -f1-2)" = 'done accepted=2' ] || [ "$i" = 1 ] || killed=no
    run dump KILLED
    [ "$status" = 0 ] && [ "$(tail -n 1 output)" = end ] && ! grep -q E14 output || killed=no
done
says 'step: runs that were killed' test "$killed" = yes

# The same commands whole: a reply for each, and one page of each of the 50 objects, of 36000 - 2 - 2 * 16384 data units.
run mkfs WHOLE --half 16384 --units 36000
run step WHOLE --seed 1 long
{ echo '0:1 ok'; for ((i = 0; i < 3000; i++)); do echo "0:$((2 * i + 2)) ok"; done; } >replies
echo "done accepted=3001 refused=0 reads=0 commits=3001 free=$((36000 - 2 - 2 * 16384 - 50))" >>replies
says 'step: 3001 replies' cmp -s output replies

head -c 262144 /dev/zero >ZEROS
run step ZEROS --seed 1 script
says 'step: no store' ended 4 'mount NoSuper' 'stopped 4'

# The same replies for each seed, and the same store, since one client runs alone and waits for each of its transactions.
same=yes
for seed in 0 2 3 7 50 4294967295; do
    run mkfs SEED "${small[@]}"
    run step SEED --seed "$seed" script
    ended 0 '0:1 ok' '0:3 ok' 'done accepted=2 refused=0 reads=0 commits=2 free=45' && cmp -s SEED BEFORE || same=no
done
says 'step: other seeds' test "$same" = yes

# Scripts of three clients. The third one's collection isn't there yet, but for one of these seeds.
printf 'mkcoll 1.0_head\nwrite 1.0_head a 0 fill:41:4096\nwait\nread 1.0_head a 0 1\n' >client0
printf 'mkcoll 2.1_head\nwrite 2.1_head a 0 fill:42:4096\nwait\nread 2.1_head a 0 1\n' >client1
echo 'touch 1.0_head z' >client2
clients=('0:1 ok' '0:2 ok' '0:4 data 41' '1:1 ok' '1:2 ok' '1:4 data 42')
same=yes
for seed in 0 1 2 3 4 5 6 7; do
    run mkfs CLIENTS "${small[@]}"
    run step CLIENTS --seed "$seed" client0 client1 client2
    ended 0 "${clients[@]}" '2:1 E1 NoCollection' 'done accepted=4 refused=1 reads=2 commits=4 free=44' || same=no
done
says 'step: three clients' test "$same" = yes
run mkfs CLIENTS "${small[@]}"
run step CLIENTS --seed 8 client0 client1 client2
says 'step: three clients, by another seed' ended 0 "${clients[@]}" '2:1 ok' 'done accepted=5 refused=0 reads=2 commits=5 free=44'
run step CLIENTS --seed 1 $(printf 'empty %.0s' {1..64})
says 'step: 64 clients' ended 0 'done accepted=0 refused=0 reads=0 commits=0 free=44'

# Each refusal: a full store, and a log that is full of what isn't committed. By this seed none is committed before
# the ninth comes.
run mkfs SMALL --half 8 --units 19
printf '# a store with one data unit\nmkcoll 1.0_head\nmkcoll 1.0_head\nwrite 2.0_head a 0 fill:41:4096\nwrite 1.0_head a 0 fill:41:4096\n\nwrite 1.0_head b 0 fill:42:4096\n' >full
run step SMALL --seed 5 full
says 'step: refusals' ended 0 '0:2 ok' '0:3 E2 CollectionExists' '0:4 E1 NoCollection' '0:5 ok' '0:7 E9 NoSpace need=1 free=0' \
    'done accepted=2 refused=3 reads=0 commits=2 free=0'
run mkfs LOG "${small[@]}"
{ echo 'mkcoll 1.0_head'; for n in 1 2 3 4 5 6 7 8; do echo "write 1.0_head o$n 0 fill:0$n:4096"; done; } >many
run step LOG --seed 9 many
says 'step: the log is full' ended 0 '0:1 ok' '0:2 ok' '0:3 ok' '0:4 ok' '0:5 ok' '0:6 ok' '0:7 ok' '0:8 ok' '0:9 E10 MetaFull need=1 room=0' \
    'done accepted=8 refused=1 reads=0 commits=8 free=39'

# A bad line: the device isn't opened, so none is made or looked for.
printf 'mkcoll 1.0_head\n\n#\n\n\n\nwriet 1.0_head a 0 fill:41:4096\n' >bad
run step ABSENT --seed 1 bad
says 'step: a bad line' ended 2 'script 0 line 7' 'stopped 2'
says 'step: no device was made' test ! -e ABSENT
printf 'mkcoll 1.0_head\n\nwrite 1.0_head a 0 hex:4\n' >bad
run step ABSENT --seed 1 script bad
says 'step: a bad line of the second script' ended 2 'script 1 line 3' 'stopped 2'
run step ABSENT --seed 1 script
says 'step: no device' ended 7 'stopped 7'
run step T --seed 1 nowhere
says 'step: no script' ended 7 'stopped 7'
run step T --seed 1 script nowhere
says 'step: no second script' ended 7 'stopped 7'

run mkfs OUT "${small[@]}"
"$program" step OUT --seed 1 script >/dev/full 2>complaints </dev/null
status=$?
says 'step: a full output' is_one_of 6
says 'step: a full output: the same store' cmp -s OUT BEFORE

# What a run has written and been acknowledged isn't in memory any more: the address space has room for less than half of it.
"$program" mkfs LARGE --half 128 --units 1024 >/dev/null
{ echo 'mkcoll 1.0_head'; for n in $(seq 65); do printf 'write 1.0_head a 0 fill:%02x:1048576\nwait\n' "$n"; done; } >large
(ulimit -v 30000 && exec "$program" step LARGE --seed 1 large) >output 2>complaints </dev/null
status=$?
says 'step: 65 MiB in an address space of 29 MiB' is_one_of 0
says 'step: its last line' test "$(tail -n 1 output)" = 'done accepted=66 refused=0 reads=0 commits=66 free=510'

# ---- the halves of the log change places

# slots FILE: the epoch and the first number of slots 0 and 1.
slots() {
    echo $(od -An -tu8 -j 24 -N 16 "$1") $(od -An -tu8 -j 4120 -N 16 "$1")
}

# pages FIRST LAST: a script of so many pages of `a`, each waited for. It makes the collection, where the first is number 1.
pages() {
    [ "$1" != 1 ] || printf 'mkcoll 1.0_head\nwait\n'
    seq -f 'write 1.0_head a 0 fill:%02.0f:4096' "$1" "$2" | sed 's/fill:[0-9]*\([0-9][0-9]\):/fill:\1:/; a wait'
}

# Eight transactions go into the first half, and seven behind the rows of each later one. So 72 take ten switches, and each 70 more ten more.
run mkfs SWITCHED "${small[@]}"
switched=yes
for ((i = 1; i <= 10; i++)); do
    pages $((i == 1 ? 1 : 70 * i - 68)) $((70 * i + 1)) >seventy
    run step SWITCHED --seed "$i" seventy
    accepted=$((i == 1 ? 72 : 70))
    [ "$status" = 0 ] && [ "$(tail -n 1 output)" = "done accepted=$accepted refused=0 reads=0 commits=$accepted free=45" ] || switched=no
    [ "$(slots SWITCHED)" = "$((10 * i)) $((80 * i)) $((10 * i - 1)) $((80 * i - 8))" ] || switched=no
done
says 'switches: a hundred, and a mount behind each tenth' test "$switched" = yes
run fsck SWITCHED
says 'switches: nothing is found' ended 0 'findings 0'
run dump SWITCHED
says 'switches: the last page is there' ended 0 'coll 1.0_head' 'object a size 4096 crc 42186b7f' 'end'

# Rows that fill a half leave no room for any change, also once the store is opened again, and are read. The record of the second value has
# 4096 bytes, and the rows have 28692 as one record then: eight units.
printf '%s\n' 'mkcoll 1.0_head' 'touch 1.0_head o' wait 'omapset 1.0_head o k fill:5a:24531' wait 'omapset 1.0_head o l fill:5b:4051' wait \
    'omapclear 1.0_head o' 'remove 1.0_head o' >rows
run mkfs ROWS "${small[@]}"
run step ROWS --seed 1 rows
says 'switches: rows that fill a half' ended 0 '0:1 ok' '0:2 ok' '0:4 ok' '0:6 ok' '0:8 E10 MetaFull need=1 room=0' \
    '0:9 E10 MetaFull need=1 room=0' 'done accepted=4 refused=2 reads=0 commits=4 free=46'
printf 'touch 1.0_head o\nstat 1.0_head o\n' >rows
run step ROWS --seed 1 rows
says 'switches: they still do' ended 0 '0:1 E10 MetaFull need=1 room=0' '0:2 size 0' 'done accepted=0 refused=1 reads=1 commits=0 free=46'

# Forged stores. Slot 1 has the parity of the other one; it is of a half without records; it is noise, and the half too; slot 0 has the
# first epoch that is worn out.
# forge NAME UNIT EPOCH FIRST: T with another slot.
forge() {
    cp T "$1"
    python3 "$top/tests/log_record.py" slot 64 8 "$3" "$4" | dd of="$1" bs=4096 seek="$2" conv=notrunc status=none
}

forge FORGED 1 2 40
run dump FORGED
says 'forged: two slots of one parity' ended 0 'coll 1.0_head' 'object a size 4096 crc 37f18c49' 'end'
forge FORGED 1 1 40
run dump FORGED
says 'forged: a slot whose half has no record' ended 0 'end'
run step FORGED --seed 1 script
says 'forged: a slot whose half has no record: it is written' ended 0 '0:1 ok' '0:3 ok' 'done accepted=2 refused=0 reads=0 commits=2 free=45'
python3 "$top/tests/log_record.py" 40 01090043312e305f6865616400000000 >wanted_record
unit 10 FORGED >found
says 'forged: a slot whose half has no record: its number' cmp -s found wanted_record
forge FORGED 0 2305843009213693952 40
cp FORGED WORN
run step FORGED --seed 1 script
says 'forged: a worn out epoch' ended 4 'mount WornOut' 'stopped 4'
says 'forged: a worn out epoch: it is left as it was' cmp -s FORGED WORN
cp T FORGED
python3 -c 'import random, sys; sys.stdout.buffer.write(random.Random(1).randbytes(9 * 4096))' >noise
dd if=noise of=FORGED bs=4096 seek=1 count=1 conv=notrunc status=none
dd if=noise of=FORGED bs=4096 skip=1 seek=10 conv=notrunc status=none
run dump FORGED
says 'forged: noise' ended 0 'coll 1.0_head' 'object a size 4096 crc 37f18c49' 'end'
pages 2 8 >seven
run step FORGED --seed 1 seven
says 'forged: noise: a switch' test "$status:$(slots FORGED)" = '0:0 0 1 8'
run fsck FORGED
says 'forged: noise: nothing is found' ended 0 'findings 0'

# A store whose rows are seven units of eight, so that each transaction comes behind a switch, is killed 200 times. Each transaction puts its
# number into the page and into an attribute of an object; no number comes twice. Each time the store has both of one number: that which it
# had, or one of the run. The moments are drawn from the time that such a run takes as a whole. Says how many numbers it had.
cat >kills.py <<'END'
import random
import subprocess
import sys
import time

program, tests = sys.argv[1:]
sys.path.insert(0, tests)
sys.dont_write_bytecode = True
from log_record import crc32c

EACH = 20


def block(number):
    return f"begin\nwrite 1.0_head o 0 fill:{number % 251:02x}:4096\nsetattr 1.0_head o n hex:{number:06x}\nend\nwait\n"


def found():
    dumped = subprocess.run([program, "dump", "SEVEN"], capture_output=True, check=True).stdout.decode()
    number = int(dumped.split("attr n ")[1][:6], 16)
    page = crc32c(bytes([number % 251]) * 4096)
    assert dumped == f"coll 1.0_head\nobject o size 4096 crc {page:08x}\nattr n {number:06x}\nomap k {'5a' * 24531}\nend\n", dumped[:200]
    return number


def begun(turn):
    with open("turn", "w", encoding="ascii") as script:
        script.writelines(block(EACH * turn + at) for at in range(EACH))
    return subprocess.Popen([program, "step", "SEVEN", "--seed", str(turn), "turn"], stdin=subprocess.DEVNULL, stdout=subprocess.DEVNULL)


began = time.monotonic()
assert begun(1).wait() == 0
whole = time.monotonic() - began
last = found()
assert last == 2 * EACH - 1
draws = random.Random(7)
seen = set()
for turn in range(2, 202):
    ran = begun(turn)
    time.sleep(draws.uniform(0, whole))
    ran.kill()
    ran.wait()
    number = found()
    assert number == last or EACH * turn <= number < EACH * (turn + 1), (turn, last, number)
    last = number
    seen.add(number)
print(len(seen))
END
run mkfs SEVEN --half 8 --units 24
printf '%s\n' 'mkcoll 1.0_head' 'touch 1.0_head o' wait 'omapset 1.0_head o k fill:5a:24531' wait begin 'write 1.0_head o 0 fill:00:4096' \
    'setattr 1.0_head o n hex:000000' end >seven
run step SEVEN --seed 1 seven
python3 kills.py "$program" "$top/tests" >seen 2>complaints
status=$?
says 'switches: 200 runs that were killed' test "$status" = 0
says 'switches: many had begun' test "$(cat seen)" -ge 20
run fsck SEVEN
says 'switches: nothing is found once they were killed' ended 0 'findings 0'

# ---- an output that doesn't block

# Runs a program whose output is a pipe that doesn't block, and copies what comes of it, slowly, so that the pipe is often full. Ends with
# the status of the program.
cat >slow.py <<'END'
import os
import subprocess
import sys
import time

taking, giving = os.pipe()
os.set_blocking(giving, False)
ran = subprocess.Popen(sys.argv[1:], stdin=subprocess.DEVNULL, stdout=giving)
os.close(giving)
time.sleep(0.2)
while piece := os.read(taking, 8192):
    sys.stdout.buffer.write(piece)
    time.sleep(0.001)
sys.exit(ran.wait())
END

# 400,000 digits, where a pipe has room for 65,536 bytes.
printf 'read 1.0_head a 0 200000\nstat 1.0_head a\n' >digits
run step PAGES --seed 1 digits
says 'an output that does not block: a long one' test "$status:$(wc -c <output)" = 0:400079
cp output whole
timeout 60 python3 slow.py "$program" step PAGES --seed 1 digits >output 2>complaints </dev/null
status=$?
says 'an output that does not block: the run ends well' is_one_of 0
says 'an output that does not block: nothing is lost' cmp -s output whole

# ---- memory

# is_limited PROGRAM: it may have no more memory than the machine has.
is_limited() {
    awk -v total="$(awk '$1 == "MemTotal:" { printf "%.0f", 1024 * $2 }' /proc/meminfo)" '
        /^Max address space/ { found = $4 != "unlimited" && $4 + 0 <= total + 0 }
        END { exit !found }' "/proc/$1/limits"
}

# Whether ./bstore limits the program: the run is looked at while it waits for its script.
limits_memory() {
    local it turn limited=no
    mkfifo WAITING
    "$top/bstore" step T --seed 1 WAITING >output 2>complaints </dev/null &
    it=$!
    for ((turn = 0; turn < 200; turn++)); do
        [ "$(readlink "/proc/$it/exe")" != "$program" ] || break
        sleep 0.1
    done
    is_limited "$it" && limited=yes
    : >WAITING
    wait "$it"
    status=$?
    [ "$limited:$status" = yes:0 ]
}
says 'memory: ./bstore limits the program to what there is' limits_memory

# The bytes of the read, and their digits, take 384 MiB. The limit is of 128 MiB.
printf '%s\n' 'mkcoll 1.0_head' 'touch 1.0_head a' 'truncate 1.0_head a 134217728' wait 'stat 1.0_head a' 'read 1.0_head a 0 134217728' \
    'stat 1.0_head a' >wide
run mkfs WIDE "${small[@]}"
(ulimit -v 131072; timeout 60 "$top/bstore" step WIDE --seed 1 wide >output 2>complaints </dev/null)
status=$?
says 'memory: a run that wants more than its limit' ended 5 '0:1 ok' '0:2 ok' '0:3 ok' '0:5 size 134217728' 'stopped 5'
run dump WIDE
says 'memory: what was acknowledged is there' grep -q '^object a size 134217728 crc ' output

says 'step: no script named' is_refused step DEV --seed 1
says 'step: 65 scripts' is_refused step DEV --seed 1 $(printf 'script %.0s' {1..65})
says 'step: no seed' is_refused step DEV script
for seed in 4294967296 -1 '' x; do
    says "step: seed '$seed'" is_refused step DEV --seed "$seed" script
done

counts
