#!/usr/bin/env bash
# Runs the built program on files, block devices, and what is neither, and looks at the calls that it makes of the system: that
# a device is locked and settled before anything else, which flushes come and when, and what is said where a call fails. What
# this machine can't do, as tracing a program or making a block device, is skipped, with the reason. Ends with status 1 where a
# case didn't come as wanted. It needs python3.

. "$(dirname -- "$0")/cases.sh"

# Takes away what the tests made outside the folder: stopped programs, mounts, loop devices.
clean_up() {
    local it
    for it in "${stopped[@]}"; do kill -KILL "$it" 2>/dev/null; done
    for it in "${mounts[@]}"; do umount "$it" 2>/dev/null; done
    for it in "${loops[@]}"; do losetup -d "$it" 2>/dev/null; done
}
stopped=()
mounts=()
loops=()

# Prints the calls on a device in a trace as words, in order: 'lock', 'cut' (its length is set), 'flush', 'read', and 'slot',
# 'log' or 'data' for a write, by its place in a store whose halves have eight units; 'folder' is a flush of anything else. One
# that failed has 'bad-' in front. Neighbours of one kind are one word, but for flushes. 'early' stands where more replies said
# ok than records were flushed before; a third word says how many transactions a record may have, where it isn't one.
cat >calls.py <<'END'
import re
import sys

KINDS = {"flock": "lock", "ftruncate": "cut", "pread64": "read", "fsync": "flush", "fdatasync": "flush"}
device, words, waiting, stable, told = sys.argv[1], [], [], 0, 0
most = int(sys.argv[3]) if len(sys.argv) > 3 else 1
for line in open(sys.argv[2]):
    call = re.match(r"(\w+)\((\d+)<([^>]*)>(.*)\) += (-?\d+)", line)
    if not call:
        continue
    name, number, path, given, result = call.groups()
    is_device = path.split("/")[-1] == device
    if name == "write":
        if number == "1":
            told += len(re.findall(r"0:\d+ ok\\n", given))
            if told > most * stable:
                words.append("early")
        continue
    if name == "pwrite64":
        unit = int(given.split(", ")[-1]) // 4096
        word = "slot" if unit < 2 else "log" if unit < 18 else "data"
    else:
        word = KINDS[name]
    if not is_device and word != "flush":
        continue
    word = word if is_device else "folder"
    if int(result) < 0:
        word = "bad-" + word
    elif word in ("log", "data"):
        waiting.append(word)
    elif word == "flush":
        stable += waiting.count("log") > 0
        waiting = []
    if word in ("flush", "bad-flush") or words[-1:] != [word]:
        words.append(word)
print(" ".join(words))
END

# Runs the program with these words under a trace, as run does, with the calls in the file 'trace'. What is in 'inject' goes to
# the tracer.
inject=()
trace() {
    # The braces keep back what the shell says of a program that a signal ended.
    {
        timeout 60 strace -qq -y -s 1000000 -o trace -e trace=flock,ftruncate,fsync,fdatasync,pread64,pwrite64,write \
            "${inject[@]}" "$program" "$@" >output 2>complaints </dev/null
    } 2>shell_words
    status=$?
}

# made_calls DEV WORD..: the last traced run made these calls, and ended with status 0.
made_calls() {
    local device=$1
    shift
    [ "$status" = 0 ] && [ "$(python3 calls.py "$device" trace)" = "$*" ]
}

can_trace=no
strace -qq -o probe -e inject=getuid:error=EPERM true 2>probe_complaints && can_trace=yes

run mkfs NEW "${small[@]}"
# The client waits for its collection, so that the page's calls come behind those of the collection.
printf 'mkcoll 1.0_head\nwait\nwrite 1.0_head a 0 fill:5a:4096\n' >script
: >empty
cp NEW TWO
run step TWO --seed 1 script
says 'two transactions' ended 0 '0:1 ok' '0:3 ok' 'done accepted=2 refused=0 reads=0 commits=2 free=45'

# Each other case begins with these two stores.
[ "$failed" = 0 ] || {
    counts
    exit
}

# ---- the calls of good runs: one flush at the opening, before anything is read or written; then two for each batch with data,
# between data and record and behind the record, and one for each without

calls_of_good_runs() {
    local settled='lock flush' flushed='log flush' with_data='data flush log flush'
    trace mkfs CALLS "${small[@]}"
    says 'calls: a store is made' made_calls CALLS lock cut flush folder read slot flush slot flush
    printf '%s\nwait\n' 'mkcoll 1.0_head' 'touch 1.0_head a' 'write 1.0_head a 0 fill:5a:4096' 'write 1.0_head b 4096 fill:5b:81920' >calls
    trace step CALLS --seed 1 calls
    says 'calls: transactions without data and with' made_calls CALLS $settled read $flushed $flushed $with_data $with_data
    printf 'write 1.0_head a 0 fill:5c:4096\nmkcoll 1.0_head\nwait\nread 1.0_head b 4096 1\nwrite 1.0_head a 0 fill:5d:4096\n' >calls
    trace step CALLS --seed 2 calls
    says 'calls: a refusal and a read flush nothing' made_calls CALLS $settled read $with_data read $with_data
    cp TWO PART
    printf 'touch 1.0_head c\nwait\nwrite 1.0_head a 5 hex:41\nwait\nzero 1.0_head a 0 4096\n' >calls
    trace step PART --seed 2 calls
    says 'calls: a page that is changed in part is read' made_calls PART $settled read $flushed read $with_data $flushed
    cp NEW BATCH
    printf 'mkcoll 1.0_head\nwrite 1.0_head a 0 fill:5a:4096\n' >calls
    trace step BATCH --seed 2 calls
    says 'calls: two transactions of one batch' test "$status:$(python3 calls.py BATCH trace 2)" = "0:$settled read $with_data"
    trace step CALLS --seed 3 empty
    says 'calls: a run without transactions' made_calls CALLS $settled read
    trace dump CALLS
    says 'calls: dump' made_calls CALLS $settled read
    printf 'stale' | dd of=CALLS bs=1 seek=$((4096 * 9)) conv=notrunc status=none
    trace dump CALLS
    says 'calls: stale bytes behind the records are cleared' made_calls CALLS $settled read $flushed read
    mkdir folder
    ln -s folder/TARGET LINK
    trace mkfs LINK "${small[@]}"
    says 'calls: the folder that a link leads to is flushed' grep -Eq '^fsync\([0-9]+<[^>]*/folder>\) += 0$' trace
}

# Seeds give other orders of steps, and the same calls, since one client runs alone and waits for each of its transactions.
calls_of_seeds() {
    local seed same=yes
    for seed in 0 7 4294967295; do
        cp NEW SEED
        trace step SEED --seed "$seed" script
        made_calls SEED lock flush read log flush data flush log flush || same=no
    done
    says 'calls: other seeds' test "$same" = yes
}

# The script bstore has the system write what it holds of a device, and drop its pages, before the program runs.
script_drops_pages() {
    cp TWO PAGES
    timeout 60 strace -f -qq -y -o trace -e trace=fadvise64,fsync,fdatasync,pread64 "$top/bstore" dump PAGES >output 2>complaints </dev/null
    status=$?
    says 'the script: the dump' ended 0 'coll 1.0_head' 'object a size 4096 crc 37f18c49' 'end'
    says 'the script: written, dropped, and then flushed and read' test "$(grep '/PAGES>' trace |
        sed -E 's/^[0-9]+ +//; s/.*DONTNEED.*/drop/; s/\(.*//' | uniq | tr '\n' ' ')" = 'fdatasync drop fsync pread64 '
}

# It finds the device behind options, be their numbers in the same word or in the next.
script_finds_device() {
    local words
    cp TWO PAGES
    for words in 'step --seed 1 PAGES empty' 'step --seed=1 -- PAGES empty' 'dump -- PAGES'; do
        # shellcheck disable=SC2086
        timeout 60 strace -f -qq -y -o trace -e trace=fadvise64 "$top/bstore" $words >output 2>complaints </dev/null
        status=$?
        says "the script: $words" is_one_of 0
        says "the script: $words: the pages are dropped" grep -q '/PAGES>.*DONTNEED' trace
    done
}

# dump_to FILE: dumps the store MANY into this file, with its reads of the device in the file 'trace', and counts them in 'reads'.
dump_to() {
    timeout 60 strace -qq -o trace -e trace=pread64 "$program" dump MANY >"$1" 2>complaints </dev/null
    status=$?
    reads=$(grep -c '^pread64' trace)
}

# A dump whose output has failed reads no object more: each of 300 has a page, and the text of its pair alone has 2000 bytes.
full_output() {
    local it reads whole
    run mkfs MANY --half 1024 --units 2400
    {
        echo 'mkcoll 1.0_head'
        for it in {1..300}; do
            printf 'write 1.0_head o%d 0 fill:5a:4096\nomapset 1.0_head o%d k fill:5b:1000\n' "$it" "$it"
        done
    } >many
    run step MANY --seed 1 many
    says 'a full output: a store of 300 objects' is_one_of 0
    dump_to output
    says 'a full output: the whole dump' test "$status:$(grep -c '^object ' output)" = 0:300
    whole=$reads
    dump_to /dev/full
    says 'a full output: the status of a dump' is_one_of 6
    says 'a full output: it reads far fewer objects' test $((whole - reads)) -gt 250
}

# ---- calls that fail

# stops STATUS: the last run ended with this status and said so in its last line, and no reply came early.
stops() {
    [ "$status" = "$1" ] && [ "$(tail -n 1 output)" = "stopped $1" ] && [ ! -s complaints ] &&
        ! python3 calls.py "$2" trace | grep -q early
}

# keeps_acknowledged FILE: what the last run acknowledged is in the store: the collection, and the object.
keeps_acknowledged() {
    cp output replies
    run dump "$1"
    [ "$status" = 0 ] || return 1
    ! grep -q '^0:1 ok' replies || grep -q '^coll 1.0_head' output || return 1
    ! grep -q '^0:3 ok' replies || grep -q '^object a size 4096 crc 37f18c49' output
}

# Each of the three writes and of the three flushes of a run of two transactions.
failing_writes_and_flushes() {
    local call number
    for call in pwrite64 fdatasync; do
        for number in 1 2 3; do
            cp NEW FAILS
            inject=(-e "inject=$call:error=EIO:when=$number")
            trace step FAILS --seed 1 script
            says "$call $number fails: the run stops" stops 3 FAILS
            says "$call $number fails: so many replies" test "$(grep -c ok output)" = $((number > 1))
            says "$call $number fails: what was acknowledged is there" keeps_acknowledged FAILS
        done
    done
    inject=(-P "$room/FAILS" -e inject=pread64:error=EIO:when=1)
    cp TWO FAILS
    trace dump FAILS
    says 'a read fails' stops 3 FAILS
    # Three reads are those of the opening.
    inject=(-P "$room/FAILS" -e inject=pread64:error=EIO:when=4)
    echo 'write 1.0_head a 5 hex:41' >part
    trace step FAILS --seed 1 part
    says 'a read of old bytes fails' ended 3 'stopped 3'
    says 'a read of old bytes fails: the store is as it was' cmp -s FAILS TWO
    inject=()
}

# Each call of the opening that fails: a run that opens a store stops before it has changed anything.
failing_openings() {
    local failing command
    for failing in flock:error=ENOLCK fsync:error=EIO; do
        inject=(-e "inject=$failing:when=1")
        for command in step dump; do
            cp TWO OPENING
            [ "$command" = dump ] && trace dump OPENING || trace step OPENING --seed 1 script
            says "$command: ${failing%%:*} fails at the opening" ended 7 'stopped 7'
            says "$command: ${failing%%:*} fails: the store is as it was" cmp -s OPENING TWO
        done
        trace mkfs OPENING "${small[@]}"
        says "mkfs: ${failing%%:*} fails at the opening" ended 7 'stopped 7'
        says "mkfs: ${failing%%:*} fails: nothing was written" cmp -s OPENING TWO
    done
    inject=(-e inject=fsync:error=EIO:when=2)
    trace mkfs UNNAMED "${small[@]}"
    says 'mkfs: the flush of the folder fails' ended 7 'stopped 7'
    inject=()
}

# A run that is killed at each of its flushes leaves writes that nobody flushed. The next run flushes them before it reads and
# before it writes.
killed_runs() {
    local number=1 first
    while [ "$number" -le 3 ]; do
        cp NEW KILLED
        inject=(-e "inject=fdatasync:signal=KILL:when=$number")
        trace step KILLED --seed 1 script
        inject=()
        says "killed at flush $number" is_one_of 137
        trace step KILLED --seed 2 script
        first=$(python3 calls.py KILLED trace | cut -d' ' -f1-3)
        says "killed at flush $number: the next run flushes first" test "$first" = 'lock flush read'
        says "killed at flush $number: the next run ends well" is_one_of 0
        number=$((number + 1))
    done
}

# ---- two programs at once

# Whether the traced program is held up: the trace says so within twenty seconds.
is_held_up() {
    local turn
    for ((turn = 0; turn < 200; turn++)); do
        grep -qs 'stopped by SIGSTOP' trace && return
        sleep 0.1
    done
    return 1
}

# refuses_others DEV: while it is locked each command stops, and changes nothing; so for mkfs with another length.
refuses_others() {
    local device=$1 good=yes
    cp "$device" "${device}_BEFORE"
    run step "$device" --seed 1 script
    ended 7 'stopped 7' || good=no
    run dump "$device"
    ended 7 'stopped 7' || good=no
    run fsck "$device"
    ended 7 'stopped 7' || good=no
    run mkfs "$device" --half 8 --units 19
    ended 7 'stopped 7' || good=no
    cmp -s "$device" "${device}_BEFORE" && [ "$good" = yes ]
}

# held_up NAME CALL WORD..: the program is held up by a signal at its first such call; its device is the second word.
held_up() {
    local name=$1 call=$2 tracer victim
    shift 2
    rm -f trace
    timeout 60 strace -f -y -o trace -P "$room/$2" -e trace=flock,fdatasync,pread64 -e "inject=$call:signal=STOP:when=1" \
        "$program" "$@" >held_output 2>&1 </dev/null &
    tracer=$!
    if ! is_held_up; then
        says "$name: it is held up" false
        wait "$tracer"
        return
    fi
    victim=$(awk '/stopped by SIGSTOP/ { print $1 }' trace)
    stopped+=("$victim")
    says "$name: others stop, and change nothing" refuses_others "$2"
    kill -CONT "$victim"
    wait "$tracer"
    status=$?
    says "$name: it goes on, and ends well" is_one_of 0
    run dump "$2"
    says "$name: the lock is gone with it" is_one_of 0
}

two_programs() {
    cp NEW FIRST
    held_up 'a step at its first flush' fdatasync step FIRST --seed 1 script
    cp TWO FIRST
    held_up 'a dump at its first read' pread64 dump FIRST
}

for it in calls_of_good_runs calls_of_seeds script_drops_pages script_finds_device full_output failing_writes_and_flushes failing_openings killed_runs two_programs; do
    if [ "$can_trace" = yes ]; then
        "$it"
    else
        skips "${it//_/ }" "strace can't trace a program here: $(head -n 1 probe_complaints)"
    fi
done

# ---- a lock that is held for a moment, as by a watcher of the system that looks at a device which was closed behind a write

# lock_for SECONDS FILE: another process has a shared lock of the file from now on for so long, by the descriptor that it inherits.
lock_for() {
    local holder
    exec {holder}<"$2"
    flock -s "$holder"
    sleep "$1" &
    stopped+=("$!")
    exec {holder}<&-
}

cp TWO MOMENT
lock_for 0.05 MOMENT
run step MOMENT --seed 1 empty
says 'a lock of a moment: step' ended 0 'done accepted=0 refused=0 reads=0 commits=0 free=45'
lock_for 0.3 MOMENT
run dump MOMENT
says 'a lock of a moment: dump' ended 0 'coll 1.0_head' 'object a size 4096 crc 37f18c49' 'end'
lock_for 0.3 MOMENT
run mkfs MOMENT "${small[@]}"
says 'a lock of a moment: mkfs' ended 0 "$made"
cp TWO MOMENT
lock_for 3 MOMENT
began=$(date +%s%N)
run mkfs MOMENT --half 8 --units 19
waited=$((($(date +%s%N) - began) / 1000000))
says 'a lock of three seconds' ended 7 'stopped 7'
says 'a lock of three seconds: nothing was changed' cmp -s MOMENT TWO
says 'a lock of three seconds: it was asked for again for a second' test "$waited" -ge 900

# This shell's own lock, without a trace.
exec {holder}<TWO
flock -n "$holder"
says 'a lock of another program' refuses_others TWO
exec {holder}<&-
run dump TWO
says 'a lock of another program: it is gone' is_one_of 0

# ---- a file that can't grow

# A limit of file sizes, behind the log: the page can't be written.
"$top/bstore" dump TWO >output 2>complaints
cp NEW LIMITED
(ulimit -f 72; timeout 60 "$top/bstore" step LIMITED --seed 1 script 2>complaints </dev/null | cat >output; exit "${PIPESTATUS[0]}")
status=$?
says 'a limit of file sizes' ended 3 '0:1 ok' '0:3 sent' 'stopped 3'
run dump LIMITED
says 'a limit of file sizes: what was acknowledged is there' ended 0 'coll 1.0_head' 'end'

# A file system of six pages that gets full: a new store takes two of them, the first two records and the first object one each,
# and the second object needs two. The file is copied, since opening a store may write too.
full_file_system() {
    mkdir full
    mount -t tmpfs -o size=24k tmpfs full 2>/dev/null || {
        skips 'a small file system' 'none can be mounted here'
        return
    }
    mounts+=("$room/full")
    run mkfs full/DEV "${small[@]}"
    says 'a small file system: a store' ended 0 "$made"
    { cat script; printf 'wait\nwrite 1.0_head b 0 fill:5b:8192\n'; } >fuller
    run step full/DEV --seed 1 fuller
    says 'a small file system: it is full' ended 3 '0:1 ok' '0:3 ok' '0:5 sent' 'stopped 3'
    cp full/DEV FULLER
    run dump FULLER
    says 'a small file system: what was acknowledged is there' ended 0 'coll 1.0_head' 'object a size 4096 crc 37f18c49' 'end'
}
full_file_system

# ---- block devices

# loop_device BYTES: a block device of so many bytes FF, its name in 'device' and its file 'DISK_BYTES'.
loop_device() {
    fill "$1" "DISK_$1"
    device=$(losetup -f --show "DISK_$1" 2>/dev/null) && loops+=("$device")
}

# is_refused_whole BYTES: a store of 64 units isn't made on a block device of so many bytes, which stays as it is.
is_refused_whole() {
    loop_device "$1" || return 1
    run mkfs "$device" "${small[@]}"
    ended 7 'stopped 7' && fill "$1" wanted_bytes && cmp -s "$device" wanted_bytes && cmp -s "DISK_$1" wanted_bytes
}

# The system has the pages of the device in memory, and the disk below has another byte in the object's page: byte 100 of unit
# 18. The script bstore has the pages dropped, so that the program reads what the disk has.
reads_what_the_disk_has() {
    exec {keeper}<"$device"
    cat "$device" >pages
    printf 'X' | dd of=DISK_262144 bs=1 seek=$((4096 * 18 + 100)) conv=notrunc,fsync status=none
    says 'a block device: the system has its pages' cmp -s "$device" pages
    timeout 60 "$top/bstore" dump "$device" >output 2>complaints </dev/null
    status=$?
    says 'a block device: what the disk has is read' ended 4 'coll 1.0_head' \
        'object a size 4096 E14 Csum unit=18 kept=37f18c49 found=23508045' 'end'
    exec {keeper}<&-
}

block_devices() {
    loop_device 262144 || {
        skips 'block devices' 'no loop device can be had here'
        return
    }
    run mkfs "$device" "${small[@]}"
    says 'a block device: a store' ended 0 "$made"
    fill 262144 FILE
    run mkfs FILE "${small[@]}"
    says 'a block device: the same bytes as in a file' cmp -s "$device" FILE
    run step "$device" --seed 1 script
    says 'a block device: step' ended 0 '0:1 ok' '0:3 ok' 'done accepted=2 refused=0 reads=0 commits=2 free=45'
    run dump "$device"
    says 'a block device: dump' ended 0 'coll 1.0_head' 'object a size 4096 crc 37f18c49' 'end'
    run step FILE --seed 1 script
    says 'a block device: the same bytes as in a file again' cmp -s "DISK_262144" FILE
    reads_what_the_disk_has
    says 'a block device of 63 units' is_refused_whole 258048
    says 'a block device of 100 units' is_refused_whole 409600
    loop_device 262656
    run mkfs "$device" "${small[@]}"
    says 'a block device of 64 units and a rest' ended 0 "$made"
    says 'a block device: the rest is left alone' cmp -s -i 262144:0 "$device" <(head -c 512 /dev/zero | tr '\0' '\377')
}
block_devices

# is_kept_mounted NAME: by this name each command of ./bstore is refused, and the disk is as it was.
is_kept_mounted() {
    local command good=yes
    for command in "mkfs $1 --half 8 --units 4096" "mkfs --units=4096 --half 8 $1" "step --seed 1 $1 empty" "dump $1" "fsck -- $1"; do
        # shellcheck disable=SC2086
        timeout 60 "$top/bstore" $command >output 2>complaints </dev/null
        [ $? = 125 ] && [ ! -s output ] && grep -q 'is mounted at .*/mounted' complaints || good=no
    done
    [ "$good" = yes ] && cmp -s DISK_16777216 mounted_before
}

# A file system on a block device of 4096 units, and a second node of that.
mounted_device() {
    mkdir mounted
    loop_device 16777216 && mkfs.ext4 -q "$device" 2>/dev/null && mount -o ro "$device" mounted 2>/dev/null || {
        skips 'a mounted device' 'no file system can be made and mounted here'
        return
    }
    mounts+=("$room/mounted")
    cp DISK_16777216 mounted_before
    says 'a mounted device: it is refused' is_kept_mounted "$device"
    mknod NODE b $((0x$(stat -c %t "$device"))) $((0x$(stat -c %T "$device")))
    says 'a mounted device: it is refused by another node' is_kept_mounted NODE
    umount "$room/mounted"
    timeout 60 "$top/bstore" mkfs NODE --half 8 --units 4096 >output 2>complaints </dev/null
    status=$?
    says 'a mounted device: it is taken once it is not mounted' ended 0 'mkfs units=4096 half=8 data=4078'
}
mounted_device

# ---- names that stand for no device

# is_no_device NAME: each command stops, at once.
is_no_device() {
    local good=yes
    run mkfs "$1" "${small[@]}"
    ended 7 'stopped 7' || good=no
    run step "$1" --seed 1 script
    ended 7 'stopped 7' || good=no
    run fsck "$1"
    ended 7 'stopped 7' || good=no
    run dump "$1"
    ended 7 'stopped 7' && [ "$good" = yes ]
}

mkfifo FIFO
python3 -c 'import socket; socket.socket(socket.AF_UNIX).bind("SOCKET")'
says 'a folder' is_no_device .
says 'a FIFO' is_no_device FIFO
says 'a socket' is_no_device SOCKET
for it in null zero full tty; do
    says "the character device $it" is_no_device "/dev/$it"
done
ln -s . FOLDER
says 'a link to a folder' is_no_device FOLDER

# ---- a bare folder as the root: it has the program, its libraries, and no /dev

bare_root() {
    local it
    mkdir bare
    cp "$program" script NEW bare/
    ldd "$program" | grep -o '/[^ ]*' | while read -r it; do cp --parents "$it" bare/; done
    chroot bare /bstore >output 2>complaints
    [ $? = 1 ] || {
        skips 'a bare root' "none can be set here: $(head -n 1 complaints)"
        return
    }
    timeout 60 chroot bare /bstore mkfs /DEV "${small[@]}" >output 2>complaints </dev/null
    status=$?
    says 'a bare root: a store' ended 0 "$made"
    timeout 60 chroot bare /bstore step /DEV --seed 1 /script >output 2>complaints </dev/null
    status=$?
    says 'a bare root: step' ended 0 '0:1 ok' '0:3 ok' 'done accepted=2 refused=0 reads=0 commits=2 free=45'
    timeout 60 chroot bare /bstore mkfs /CLOSED "${small[@]}" >&- 2>&- <&-
    status=$?
    says 'a bare root: all three descriptors closed' is_one_of 6
    says 'a bare root: the same store' cmp -s bare/CLOSED NEW
}
bare_root

counts
