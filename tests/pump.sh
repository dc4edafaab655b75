#!/usr/bin/env bash
# Tries the built pump where it is hard: limits, failing ends, signals, sizes, and what it reports.
#
#     tests/pump.sh [PROGRAM]
#
# PROGRAM is crates/piper_pump/out/piper_pump if it is left out, which `rt run < stdin` builds in crates/piper_pump. It needs
# bash, python3, the coreutils and util-linux's prlimit (and setpriv where root runs it). BYTES is how many bytes go through
# the greater capacities, 4 GiB if it is not set. Each case runs under a time limit. The last line is `N passed, M failed`.
set -u
here=$(cd "$(dirname "$0")" && pwd)
room=$(mktemp -d)
trap 'rm -rf "$room"' EXIT
cp "${1:-$here/../crates/piper_pump/out/piper_pump}" "$room/piper_pump" || exit 2
chmod 755 "$room" "$room/piper_pump"
cd "$room" || exit 2
pump=./piper_pump
bytes=${BYTES:-4294967296}
. "$here/trying.bash"
export pump

alone=''
if [ "$(id -u)" -eq 0 ]; then
    alone='setpriv --reuid=65533 --regid=65533 --clear-groups'
fi
export alone
lines 5000000 > file

# One thread.
try_silent 'where the memory for a thread is refused' 20 0 'prlimit --as=8192000 $pump < file | cmp - file && exit ${PIPESTATUS[0]}'
try_silent 'where a second thread is refused' 20 0 '$alone prlimit --nproc=1 $pump < file | cmp - file && exit ${PIPESTATUS[0]}'
try 'a full output on one thread' 20 4 'writing the output failed' '$alone prlimit --nproc=1 $pump < file > /dev/full'
try 'a failing input on one thread' 20 3 'reading the input failed' '$alone prlimit --nproc=1 $pump < /'
try_silent 'a closed output on one thread' 20 141 '$alone prlimit --nproc=1 $pump < file | head -c 10 > /dev/null; exit ${PIPESTATUS[0]}'
try 'lines of progress on one thread' 20 0 '; 100%' '$alone prlimit --nproc=1 $pump --progress --rate 3m < file > /dev/null'
count=$(wc -l < told)
note "in a second and a half $count lines on one thread" test "$count" -ge 3 -a "$count" -le 9

# Ends that fail.
try 'a failing input, with progress' 10 3 'reading the input failed' '$pump --progress < /'
try 'what came before a failing input goes out' 10 3 'reading the input failed' 'python3 -c "
import pty, os, subprocess, sys
near, far = pty.openpty()
child = subprocess.Popen([os.environ[\"pump\"]], stdin=far, stdout=subprocess.PIPE)
os.close(far)
os.write(near, b\"a line\\n\")
import time
time.sleep(0.3)
os.close(near)
assert child.stdout.read() == b\"a line\\n\"
sys.exit(child.wait())"'

# Words.
try 'a word that is no text' 10 2 'UTF-8' '$pump $'"'\\xff'"
try_silent 'the help' 10 0 '$pump --help'
note 'the help tells each status' test "$(grep -cE '^  (0|2|3|4|6|7|141) +' out)" -eq 7
try 'a help that can not be printed' 10 4 'writing the output failed' '$pump --help > /dev/full'

# Files and what is done with the bytes.
try_silent 'from a file to a file' 10 0 '$pump -i file -o copy && cmp file copy'
try_silent 'two files more' 10 0 '$pump --tee one --tee two < file | cmp - file && cmp file one && cmp file two'
try_silent 'units' 10 0 'for size in 4096 64k 1m 64KiB 1MiB 64K 1M; do $pump --capacity $size < file | cmp - file || exit 1; done'
begun=$(date +%s%N)
try_silent 'a rate' 20 0 'lines 100000 | $pump --rate 100k > /dev/null'
took=$((($(date +%s%N) - begun) / 1000000))
note "100,000 bytes at 100 KiB a second took $took ms" test "$took" -ge 900 -a "$took" -le 5000

try_silent 'a part of a file, in each size' 30 0 'for skip in 0 1 999 65536 65537 5000000; do for most in 0 1 65536 999999 9999999; do $pump --skip $skip --stop-after $most < file | cmp - <(tail -c +$((skip + 1)) file | head -c $most) || exit 1; done; done'
try 'how much is done of a part' 20 0 '; 100%; ' '$pump --progress --skip 1000 --stop-after 3m -i file > /dev/null'
try_silent 'a part on one thread' 20 0 '$alone prlimit --nproc=1 $pump --skip 1000 --stop-after 100000 < file | cmp - <(tail -c +1001 file | head -c 100000) && exit ${PIPESTATUS[0]}'

# The input without its option.
try_silent 'a file without an option' 10 0 '$pump file | cmp - file && exit ${PIPESTATUS[0]}'
try_silent 'standard input by its dash' 10 0 '$pump - < file | cmp - file && exit ${PIPESTATUS[0]}'
try_silent 'a file whose name begins with a dash' 10 0 'cp file ./-n; $pump -- -n | cmp - file && exit ${PIPESTATUS[0]}'
try 'a second file' 10 2 "unexpected argument 'file'" 'echo old > h; $pump --force -o h file file'
try 'a file with and without its option' 10 2 "the argument '.FILE.' cannot be used with '--input <FILE>'" '$pump --force -o h file -i file'
note 'what the file held stays' test "$(cat h)" = old
try 'a file without an option that is not there' 10 3 '^piper_pump: no/such/file: No such' '$pump --force -o h no/such/file'
try 'an input without an option that is the output' 10 4 'it is also the input, another output' '$pump --force h -o h'
note 'what the file held stays' test "$(cat h)" = old

# What is reported.
try_silent 'nothing is told unasked' 10 0 '(lines 1000; sleep 1; lines 1000) | $pump > /dev/null'
try_silent 'nothing is told quietly' 10 0 '(lines 1000; sleep 1; lines 1000) | $pump --progress --quiet > /dev/null'
try 'four lines a second' 20 0 '^1.9 KiB' '(lines 1000; sleep 2; lines 1000) | $pump --progress > /dev/null'
count=$(wc -l < told)
note "in two seconds $count lines" test "$count" -ge 6 -a "$count" -le 12
try 'an output that is slow' 20 0 '100% full; full [1-9]' 'lines 300000 | $pump --progress --capacity 64K | (sleep 2; cat > /dev/null)'
try 'its input waits, though the wait is under way' 20 0 'empty 0\.[0-9] s' 'lines 300000 | $pump --progress --capacity 64K | (sleep 2; cat > /dev/null)'
try 'an input that is slow' 20 0 '0% full; full 0.0 s, empty [1-9]' '(sleep 2; lines 1000) | $pump --progress > /dev/null'
try 'how much is done' 20 0 '; [1-9][0-9]%' '$pump --progress -i file --rate 3m > /dev/null'
try 'how much is done of a size' 20 0 '; [45][0-9]%' '(lines 1000; sleep 1) | $pump --progress --size 2000 > /dev/null'

try 'how long it took' 20 0 '^1.9 KiB in [23]\.[0-9] s, ' '(lines 1000; sleep 2; lines 1000) | $pump --progress > /dev/null'
try 'how long the rest takes' 20 0 '; [1-9][0-9]%, [0-9.]* s left; ' '$pump --progress -i file --rate 3m > /dev/null'
try 'a name in progress' 10 0 '^to the shelf: 4.7 MiB in ' '$pump --progress -N "to the shelf" file > /dev/null'
try 'a name in progress that controls a terminal' 10 0 "^\$'a.033b': 4.7 MiB" "\$pump --progress --name \$'a\\033b' file > /dev/null"
try 'progress in percent' 20 0 '^100$' '$pump -n --rate 3m file > /dev/null'
note 'each of its lines is a number of percent that grows' awk '!/^[0-9]+$/ || $1 < last || $1 > 100 { bad = 1 } { last = $1 } END { exit bad || NR < 3 }' told
try 'progress in bytes' 20 0 '^5000000$' 'lines 5000000 | $pump --numeric > /dev/null'
try_silent 'a number that is told quietly' 10 0 '$pump -n --quiet file > /dev/null'
try 'an interval' 20 0 '^1.9 KiB' '(lines 1000; sleep 2.5; lines 1000) | $pump --progress --interval 1 > /dev/null'
count=$(wc -l < told)
note "in two seconds and a half $count lines" test "$count" -eq 3
for seconds in 0 3601 0.5 x ''; do
    try "an interval of '$seconds'" 10 2 "for '--interval <N>': an interval is a number of seconds" "echo old > h; \$pump --force --progress --interval '$seconds' -i file -o h"
    note 'what the file held stays' test "$(cat h)" = old
done

# Progress that nobody reads: all bytes pass, and it does not hold up the end.
cat > unread.py <<'PYTHON'
import os, subprocess, sys, threading, time
near, far = os.pipe()
os.set_blocking(far, False)
try:
    while True:
        os.write(far, b"x" * 4096)
except BlockingIOError:
    pass
os.set_blocking(far, True)
child = subprocess.Popen([os.environ["pump"]] + sys.argv[1:], stdin=subprocess.PIPE, stdout=subprocess.PIPE, stderr=far)
os.close(far)
def give():
    for _ in range(4):
        child.stdin.write(b"22 letters and an end..\n" * 20000)
        child.stdin.flush()
        time.sleep(0.4)
    child.stdin.close()
threading.Thread(target=give, daemon=True).start()
begun = time.monotonic()
got = len(child.stdout.read(4 * 20000 * 24))
took = time.monotonic() - begun
assert got == 4 * 20000 * 24 and took < 4, (got, took)
sys.exit(child.wait(2))
PYTHON
try_silent 'progress that nobody reads' 10 0 'python3 unread.py --progress'
try_silent 'a number that nobody reads' 10 0 'python3 unread.py -n --interval 1'
try 'a failed copy is told of at once' 10 7 '' '(lines 1000; sleep 1; test -s told1 && lines 1000) | $pump --tee /dev/full 2> told1 | cmp - <(lines 1000; lines 1000) && exit ${PIPESTATUS[1]}'
note 'it is told of once' test "$(grep -c 'it gets no more$' told1)" -eq 1
try 'a failed copy on one thread' 10 7 '^piper_pump: /dev/full: No space.*; it gets no more$' '$alone prlimit --nproc=1 $pump --tee /dev/full < file > /dev/null'

# A file that the run made is taken away again, if another can't be made, unless it got bytes or lost its name meanwhile: there
# is a second between the two, in which somebody else does this with the first.
if command -v strace > /dev/null; then
    meanwhile() { # COMMAND
        (until test -e made; do sleep 0.05; done; eval "$1") &
        strace -f -o calls -P /proc/new -e trace=openat -e inject=openat:delay_enter=1000000 $pump --force -i file -o made --tee /proc/new
        local status=$?
        wait
        return $status
    }
    export -f meanwhile
    try 'a file that the run made, and a copy that can not be made' 10 4 '^piper_pump: /proc/new: ' 'meanwhile true'
    note 'it is taken away' test ! -e made
    try 'a file that got bytes of another' 10 4 '^piper_pump: /proc/new: ' 'meanwhile "echo bytes >> made"'
    note 'it stays, with these bytes' test "$(cat made)" = bytes
    rm -f made
    try 'a file whose name an empty file of another has' 10 4 '^piper_pump: /proc/new: ' 'meanwhile "mv made moved; : > made"'
    note 'both stay' test -e made -a -e moved
    rm -f made moved
else
    echo 'left out, for want of strace: files that are taken away'
fi

# A terminal that is too narrow, and one of whose lines nobody reads any more.
cat > terminal.py <<'PYTHON'
import os, pty, subprocess, sys
near, far = pty.openpty()
child = subprocess.Popen([os.environ["pump"], "--progress"], stdin=subprocess.PIPE, stdout=subprocess.DEVNULL, stderr=far)
os.close(far)
child.stdin.write(b"a line\n")
child.stdin.flush()
drawn = os.read(near, 1000)
assert drawn.startswith(b"\r\x1b[?7l0:00:00 7 B ") and drawn.endswith(b"\x1b[?7h"), drawn
child.stdin.close()
assert child.wait() == 0
PYTHON
try_silent 'a line is cut off by a terminal that is too narrow' 10 0 'python3 terminal.py'
if command -v strace > /dev/null; then
    # What comes first: the input, the memory, the first read; then files that are there; then new ones; then a cut.
    try_silent 'the order of the calls' 20 0 'echo old > there; strace -f -o calls -e trace=openat,mmap,read,ftruncate,write $pump --capacity 77M --force -i file -o new --tee there
        awk "/openat.*\"file\"/ && !input { input = NR } /mmap.NULL, 8074[0-9]*, / && !memory { memory = NR } /read\(3, \"22/ && !first { first = NR }
            /openat.*\"there\"/ { there = NR; kept = !/TRUNC|CREAT/ } /openat.*\"new\"/ { made = NR; own = /O_EXCL/ } /ftruncate/ { cut = NR }
            END { exit !(input && input < first && memory && memory < first && first < there && there < made && made < cut && kept && own) }" calls'
    try 'progress that nobody reads ends' 20 0 '' '(for i in 1 2 3 4 5 6 7 8; do lines 5000; sleep 0.3; done) | strace -f -o calls -e trace=write $pump --progress 2> >(exec head -n 1 > first) > /dev/null; test "$(grep -c "write(2, .*EPIPE" calls)" -le 1'
else
    echo 'left out, for want of strace: the order of the calls'
fi

# Ends that would block, a line that passes at once, and a level.
cat > ends.py <<'PYTHON'
import os, subprocess, sys, threading, time

def run(words, feed, first_pause, pause):
    """What comes out, the status, and when the first byte came, where neither end of the pump blocks."""
    inner, mine = os.pipe()
    theirs, outer = os.pipe()
    os.set_blocking(inner, False)
    os.set_blocking(outer, False)
    child = subprocess.Popen([os.environ["pump"]] + words, stdin=inner, stdout=outer)
    os.close(inner)
    os.close(outer)
    begun = time.monotonic()
    def give():
        for wait, piece in feed:
            time.sleep(wait)
            while piece:
                piece = piece[os.write(mine, piece):]
        os.close(mine)
    giver = threading.Thread(target=give)
    giver.start()
    time.sleep(first_pause)
    got, first = [], None
    while True:
        piece = os.read(theirs, 65536)
        if first is None:
            first = time.monotonic() - begun
        if not piece:
            break
        got.append(piece)
        time.sleep(pause)
    giver.join()
    return b"".join(got), child.wait(), first

data = os.urandom(1_000_000)
what = sys.argv[1]
if what == "slow-input":
    got, status, _ = run([], [(0.05, data[at:at + 50_000]) for at in range(0, len(data), 50_000)], 0, 0)
    assert got == data and status == 0, (len(got), status)
elif what == "slow-output":
    got, status, _ = run(["--capacity", "64K"], [(0, data)], 0.5, 0.02)
    assert got == data and status == 0, (len(got), status)
elif what == "line":
    got, status, first = run([], [(0.5, b"a line\n"), (1, b"")], 0, 0)
    assert got == b"a line\n" and status == 0 and first - 0.5 < 0.1, (got, status, first)
elif what == "level":
    got, status, first = run(["--capacity", "1000", "--start-at", "50"], [(0, data[:400]), (1, data[400:900])], 0, 0)
    assert got == data[:900] and status == 0 and first > 0.9, (len(got), status, first)
PYTHON
for what in slow-input slow-output line level; do
    try_silent "ends that would block: $what" 30 0 "python3 ends.py $what"
done

# Names that lead to a standard stream that is closed: refused, and nothing is lost.
lines 100000 > src
for name in /dev/stdout /dev/fd/1 /proc/self/fd/1; do
    try "a closed standard output by the name $name" 10 4 "^piper_pump: $name: it is a folder, or a standard stream that is closed" "\$pump -i src -o $name >&-"
done
for name in /dev/stdin /dev/fd/0; do
    try "a closed standard input by the name $name" 10 3 "^piper_pump: $name: it is a folder, or" "echo old > h; \$pump --force -i $name -o h <&-"
    note 'what the file held stays' test "$(cat h)" = old
done
try 'a closed standard output that is read' 10 3 'it is a folder, or' 'echo old > h; $pump --force -i /dev/fd/1 -o h >&-'
note 'what the file held stays' test "$(cat h)" = old
try 'a closed standard output as a copy' 10 4 '^piper_pump: /dev/stdout: it is a folder, or' '$pump -i src -o tee1 --tee /dev/stdout >&-'
try_silent 'a closed standard error as a copy' 10 4 '$pump -i src -o tee2 --tee /dev/stderr 2>&-'
note 'nothing was made' test ! -e tee1 -a ! -e tee2

# Reports that would go into the bytes: standard error counts as a file that is written.
for redirection in '2>x' '2>>x'; do
    timeout 10 bash -c "\$pump -i src -o x --force --sha256 $redirection"
    note "the output is standard error, too, by $redirection" test $? -eq 4
    rm -f x
    timeout 10 bash -c "\$pump -i src -o y --force --tee x --progress $redirection"
    note "a copy is standard error, too, by $redirection" test $? -eq 4 -a ! -e y
    rm -f x
done
cp src x
timeout 10 bash -c '$pump -i x -o y --progress 2>>x'
note 'the input is standard error, too' test $? -eq 4 -a ! -e y
try_silent 'reports into the pipe that the bytes go into' 10 0 '$pump -i src --sha256 2>&1 | grep -qa "  -$"'

# Devices and FIFOs.
mkfifo fifo1
cat fifo1 > /dev/null &
try 'two copies to one FIFO' 10 4 '^piper_pump: fifo1: it is also the input, another output' '$pump -i src -o tee3 --tee fifo1 --tee fifo1'
kill $! 2> /dev/null
truncate -s 1M image
loop=$(losetup -f --show image 2> /dev/null)
if [ -n "$loop" ]; then
    try 'a block device' 10 4 "^piper_pump: $loop: it holds bytes" "\$pump -i src -o $loop"
    try 'a block device as the input and the output' 10 4 'it is also the input, another output' "\$pump --force -i $loop -o $loop"
    mknod node b "$((0x$(stat -c %t "$loop")))" "$((0x$(stat -c %T "$loop")))" 2> /dev/null &&
        try 'a block device by two names' 10 4 'it is also the input, another output' "\$pump --force -i src -o $loop --tee node"
    try_silent 'a block device that is overwritten' 10 0 "\$pump --force -i src -o $loop && cmp -n 100000 src $loop"
    for words in --append '--append --force'; do
        try "a block device that is appended to, by $words" 10 4 "^piper_pump: $loop: it is a block device, which has no room" "echo other | \$pump $words -o $loop"
        try "a copy to a block device that is appended to, by $words" 10 4 "^piper_pump: $loop: it is a block device, which has no room" "echo other | \$pump $words --tee $loop > /dev/null"
    done
    note 'it stays as it was' cmp -n 100000 src "$loop"
    losetup -d "$loop"
else
    echo 'left out, for want of a loop device: block devices'
fi

# Without /proc it can't be told which files the standard streams are. Two of them alone are taken, since none is opened or cut.
if unshare -m sh -c 'umount -l /proc' 2> /dev/null; then
    try 'an input that is the output, without /proc' 10 4 "it can't be told from the other files without /proc" 'cp src s; unshare -m sh -c "umount -l /proc; \$pump -o s --force < s 2>&1" | cat >&2; exit ${PIPESTATUS[0]}'
    note 'it stays' cmp -s src s
    try 'a file that is appended to, without /proc' 10 4 "it can't be told from the other files without /proc" 'unshare -m sh -c "umount -l /proc; \$pump -i s >> s" 2>&1 | cat >&2; exit ${PIPESTATUS[0]}'
    note 'it stays, too' cmp -s src s
    try_silent 'pipe to pipe, without /proc' 10 0 'cat src | unshare -m sh -c "umount -l /proc; \$pump" | cmp - src && exit ${PIPESTATUS[1]}'
    try_silent 'a file into a pipe, without /proc' 10 0 'unshare -m sh -c "umount -l /proc; \$pump < src" | cmp - src && exit ${PIPESTATUS[0]}'
    try 'pipe to pipe and a sum, without /proc' 10 4 "it can't be told from the other files without /proc" '(cat src | unshare -m sh -c "umount -l /proc; \$pump --sha256" 2>&1 >&3 | cat >&2; exit ${PIPESTATUS[1]}) 3>&1 | cat > piped; exit ${PIPESTATUS[0]}'
else
    echo 'left out, for want of unshare: no /proc'
fi

# The side that waits for bytes, a level or room is woken: it does not look for them by the clock, and does not yield.
try_silent 'a level, through a pipe that runs dry' 60 0 'lines 8000000 | $pump --capacity 4K --start-at 100 | cmp - <(lines 8000000) && exit ${PIPESTATUS[1]}'
if command -v strace > /dev/null; then
    try_silent 'who waits sleeps, and does not yield' 20 0 'lines 2000000 | strace -f -o calls -e trace=sched_yield $pump --capacity 4K | cmp - <(lines 2000000) && ! grep -q sched_yield calls'
    try_silent 'who waits for a level sleeps till it is woken' 20 0 '(lines 30; sleep 0.3; lines 4000; sleep 0.3; lines 9000) | strace -f -o calls -e trace=clock_nanosleep,nanosleep $pump --capacity 4K --start-at 100 > level; cmp level <(lines 30; lines 4000; lines 9000) && ! grep -q nanosleep calls'
fi

# What is told, and how.
timeout 10 bash -c '$pump -i src --sha256 > /dev/null 2>/dev/full'
note 'a sum that can not be told' test $? -eq 7
timeout 10 bash -c '$pump -i src --sha256 > /dev/null 2>&-'
note 'a sum that nobody hears' test $? -eq 7
try 'memory for the words is refused' 10 6 'out of memory' 'for kib in 3000 3200 3400 3600 3800 4000; do (ulimit -v $kib; $pump --help > /dev/null 2> told1); [ $? -eq 2 ] && exit 2; done; (ulimit -v 8192; $pump --capacity 64M < src)'
try 'one new file under two names' 10 4 '^piper_pump: ./q: it is also another output' '$pump -i src -o q --tee ./q'
note 'it is not made' test ! -e q
ln -s nowhere dangling
try 'a link to no file' 10 4 '^piper_pump: dangling: it is a link to a file that is not there' '$pump --force -i src -o dangling'
try 'a full file by its name' 10 4 '^piper_pump: /dev/full: writing the output failed' '$pump -i src -o /dev/full'
try 'a failing input by its name' 10 3 '^piper_pump: /proc/self/mem: reading the input failed' '$pump -i /proc/self/mem'
try 'a name that is empty' 10 3 "^piper_pump: '': No such" '$pump -i ""'
try 'a name that controls a terminal' 10 3 "^piper_pump: \$'a.033b': No such" "\$pump -i \$'a\\033b'"
try 'a word that controls a terminal' 10 2 "unexpected argument '--.033b'" "\$pump \$'--\\033b'"
try_silent 'a reader that left, silently' 10 141 '$pump < file | head -c 1 > /dev/null; exit ${PIPESTATUS[0]}'

# The last line of progress is that of the whole, and ends the line on a terminal.
cat > whole.py <<'PYTHON'
import os, pty, subprocess, threading, time
near, far = pty.openpty()
child = subprocess.Popen([os.environ["pump"], "--progress"], stdin=subprocess.PIPE, stdout=subprocess.DEVNULL, stderr=far, env={"TERM": "xterm"})
os.close(far)
told = []
def read():
    try:
        while True:
            told.append(os.read(near, 1000))
    except OSError:
        pass
reader = threading.Thread(target=read)
reader.start()
child.stdin.write(b"x" * 1024 * 1024)
child.stdin.flush()
time.sleep(1.1)
child.stdin.close()
assert child.wait() == 0
reader.join()
lines = b"".join(told).split(b"\r\x1b[?7l")
assert lines[-1].endswith(b"\x1b[?7h\r\n") and all(b"\n" not in line for line in lines[:-1]), lines
assert b" 0 B/s" in lines[-2] and b" 0 B/s" not in lines[-1], lines
PYTHON
try_silent 'the last line is that of the whole' 10 0 'python3 whole.py'

# Files on their devices.
try_silent 'files on their devices' 10 0 '$pump --fsync -i src -o synced1 --tee synced2 && cmp src synced1 && cmp src synced2'
try 'a copy that has no device' 10 7 '^piper_pump: fifo2: Invalid argument' 'mkfifo fifo2; cat fifo2 > synced4 & $pump --fsync -i src -o synced3 --tee fifo2; status=$?; wait; cmp src synced3 && cmp src synced4 && exit $status'
if command -v strace > /dev/null; then
    try 'an output that can not be brought to its device' 10 4 '^piper_pump: synced5: writing the output failed: Input/output error' 'strace -f -o calls -e trace=fsync -e inject=fsync:error=EIO $pump --fsync -i src -o synced5'
    # A close tells last what could not be kept.
    for name in closed1 closed2 closed3; do : > $name; done
    export closing='strace -f -o calls -e trace=close -e inject=close:error=EDQUOT'
    try 'a close that fails' 10 4 '^piper_pump: closed1: writing the output failed: Disk quota' '$closing -P closed1 $pump -i src -o closed1'
    try 'a close of standard output that fails' 10 4 '^piper_pump: writing the output failed: Disk quota' '$closing -P closed2 $pump src > closed2'
    try 'a close of a copy that fails' 10 7 '^piper_pump: closed3: Disk quota' '$closing -P closed3 $pump -i src --tee closed3 | cmp - src && exit ${PIPESTATUS[0]}'
    try_silent 'files that are not waited for' 10 0 'strace -f -o calls -e trace=fsync $pump -i src -o synced6 && ! grep -q fsync calls'
fi

# With each descriptor in use: none more is wanted at the end.
try_silent 'no descriptor to spare' 10 0 '(ulimit -n 5; exec $pump -i src -o spare1) && cmp src spare1'
try 'too few descriptors' 10 4 '^piper_pump: spare2: Too many open files' '(ulimit -n 5; exec $pump -i src --tee spare2 > spare3)'
note 'nothing was written' test ! -e spare2 -a ! -s spare3

# Memory.
cat > held.py <<'PYTHON'
import os, resource, subprocess, sys
most = int(sys.argv[1])
status = subprocess.call([os.environ["pump"]] + sys.argv[2:], stdout=subprocess.DEVNULL)
held = resource.getrusage(resource.RUSAGE_CHILDREN).ru_maxrss
if status or held > most:
    sys.exit(f"status {status}, {held} KiB held, not {most}")
PYTHON
try_silent 'a capacity of 16M holds 20 MiB' 60 0 'lines 200000000 | python3 held.py 20480 --capacity 16M --chunk 16M'
try_silent 'a capacity of 2G holds what passes' 60 0 'lines 67108864 | python3 held.py 139264 --capacity 2G --chunk 2G'

# Packets, of which a read that has less room would lose the rest.
cat > packets.py <<'PYTHON'
import os, socket, subprocess, sys, threading
kind, size, words = sys.argv[1], int(sys.argv[2]), sys.argv[3:]
if kind == "pipe":
    near, far = os.pipe2(os.O_DIRECT)
else:
    ours, theirs = socket.socketpair(socket.AF_UNIX, socket.SOCK_SEQPACKET)
    near, far = theirs.detach(), ours.detach()
data = os.urandom(3_000_000 // size * size)
child = subprocess.Popen([os.environ["pump"]] + words, stdin=near, stdout=subprocess.PIPE)
os.close(near)
def give():
    for at in range(0, len(data), size):
        os.write(far, data[at:at + size])
    os.close(far)
threading.Thread(target=give).start()
got = child.stdout.read()
left = data[int(words[1]):] if words[:1] == ["--skip"] else data
assert got == left, (len(got), len(left))
sys.exit(child.wait())
PYTHON
for case in 'pipe 3000' 'pipe 1000 --capacity 4K' 'pipe 100 --capacity 64' 'pipe 4096 --chunk 1000' 'pipe 3000 --skip 10' \
    'socket 3000' 'socket 1000 --capacity 4K' 'socket 150000' 'socket 3000 --skip 10'; do
    try_silent "packets: $case" 20 0 "python3 packets.py $case"
done

# Files of the system, which give bytes to their first read alone, and an end that is typed once.
try_silent 'what is left out of a file of the system' 10 0 '$pump --skip 3 /proc/sys/kernel/pid_max | cmp - <(cat /proc/sys/kernel/pid_max | tail -c +4) && exit ${PIPESTATUS[0]}'
export ports=/proc/sys/net/ipv4/ip_local_reserved_ports
if unshare -n test -w $ports 2> /dev/null; then
    try_silent 'a file of the system of 11,000 bytes' 10 0 'unshare -n bash -c "seq -s, 1 2 5000 | dd bs=64K iflag=fullblock of=\$ports status=none; \$pump \$ports | cmp - <(cat \$ports) && test \$(cat \$ports | wc -c) -gt 10000"'
else
    echo 'left out, for want of unshare: a long file of the system'
fi
cat > typed.py <<'PYTHON'
import os, pty, subprocess, time
near, far = pty.openpty()
child = subprocess.Popen([os.environ["pump"]], stdin=far, stdout=subprocess.DEVNULL)
os.close(far)
time.sleep(0.3)
os.write(near, b"\x04")
assert child.wait(5) == 0
PYTHON
try_silent 'an end that is typed once' 10 0 'python3 typed.py'

# Bytes that come between the look at a file and its cut, and files that can't be cut.
: > late
mkfifo fifo3
try 'a file that got bytes before it was cut' 10 4 '^piper_pump: late: it holds bytes' '(sleep 0.5; echo precious > late; cat fifo3 > /dev/null) & $pump -i src -o late --tee fifo3; status=$?; wait; exit $status'
note 'it keeps them' test "$(cat late)" = precious
try_silent 'two pumps that write one file, which was empty' 10 0 ': > both; (echo second; sleep 1) | $pump --start-at 100 -o both & sleep 0.4; echo first | $pump -o both && wait $! && cmp both <(echo first; echo second)'
if command -v strace > /dev/null; then
    echo old > old1
    echo old > old2
    try 'a copy that can not be cut' 10 4 '^piper_pump: old2: Operation not permitted' 'strace -f -o calls -P old2 -e trace=ftruncate -e inject=ftruncate:error=EPERM $pump --force -i src -o old1 --tee old2'
    note 'the output is not cut' test "$(cat old1)" = old
fi

# Writes that take a part, the last of all that there are.
head -c 5000 file > five
try 'a file that is cut short by a limit' 10 4 '^piper_pump: limited: writing the output failed: File too large' 'trap "" XFSZ; prlimit --fsize=3000 $pump -i five -o limited'
try 'a copy that is cut short by a limit' 10 7 '^piper_pump: limited2: File too large' 'trap "" XFSZ; prlimit --fsize=3000 $pump -i five --tee limited2 | cmp - five && exit ${PIPESTATUS[0]}'

# A pause is made up for by no burst: what comes after it takes its time from its first byte on.
cat > burst.py <<'PYTHON'
import os, subprocess, threading, time
child = subprocess.Popen([os.environ["pump"], "--rate", "100000"], stdin=subprocess.PIPE, stdout=subprocess.PIPE)
def give():
    child.stdin.write(b"x" * 20_000)
    child.stdin.flush()
    time.sleep(1.5)
    child.stdin.write(b"x" * 50_000)
    child.stdin.close()
threading.Thread(target=give).start()
got, first = 0, None
while piece := os.read(child.stdout.fileno(), 65536):
    got += len(piece)
    if got > 20_000 and first is None:
        first = time.monotonic()
    if got == 70_000:
        took = time.monotonic() - first
assert child.wait() == 0 and took > 0.36, took
PYTHON
try_silent 'a rate after a pause' 10 0 'python3 burst.py'

# As a user of a shell expects.
try 'errors that go where the bytes go' 10 0 '' '$pump src > log 2>&1 && cmp log src'
try 'an output that is standard error, if a sum is told' 10 4 '' '$pump --sha256 src > log 2>&1; status=$?; cat log >&2; exit $status'
try 'a help whose reader left' 10 141 '' '(sleep 0.5; exec $pump --help) | true; exit ${PIPESTATUS[0]}'
note 'it is silent' test ! -s told
try 'a FIFO as the input and the output' 5 4 'it is also the input, another output' 'mkfifo fifo4; $pump -i fifo4 -o fifo4'
for words in '--skip 00' '--skip 0K' '--stop-after 0K' '--size 0K' '--size 00'; do
    try_silent "no bytes as $words" 10 0 "\$pump $words < /dev/null"
done
for size in 0 0K 00 +1 -1 ' 1' 1KB 1iB iB KiB 1Ki 1KiBiB 1KK 1P 1.5M K1 8589934592G 9223372036854775808 99999999999999999999G; do
    try "a size that is none: '$size'" 10 2 "for '--capacity <N>': a size is a number of bytes from 1 to 9223372036854775807" "\$pump '--capacity=$size' < /dev/null"
done
try_silent 'sizes' 10 0 'for size in 1 0064 64kiB 16MiB 1g 1GiB; do $pump --capacity $size --rate 3T --size 8589934591G --skip 2KiB < five > /dev/null || exit 1; done'
try 'how much is done of nothing' 10 0 '^100$' ': > nothing; $pump -n nothing'
try_silent 'what is left out of a file is not read' 5 0 'truncate -s 6G sparse && echo the end >> sparse && $pump --skip 6G sparse | cmp - <(echo the end) && exit ${PIPESTATUS[0]}'
try 'a name with a quote' 10 3 "^piper_pump: \$'it.'s': No such" "\$pump \"it's\""
try 'a word with a quote' 10 2 "invalid value \$'a.'b' for '--rate <N>'" "\$pump --rate \"a'b\""
if command -v strace > /dev/null; then
    try 'a closed standard stream, and no folder in its place' 10 4 '^piper_pump: standard input: Permission denied' 'strace -f -o calls -P / -e trace=openat -e inject=openat:error=EACCES $pump src <&-'
fi

# A line at a terminal: with a bar, in 79 columns at most. In the background none is drawn, since the terminal would stop who
# writes there.
cat > drawn.py <<'PYTHON'
import os, pty, re, subprocess, sys
near, far = pty.openpty()
child = subprocess.Popen([os.environ["pump"], "--progress", "--rate", "3m", "file"], stdout=subprocess.DEVNULL, stderr=far)
os.close(far)
drawn = b""
try:
    while piece := os.read(near, 4096):
        drawn += piece
except OSError:
    pass
lines = [re.sub(rb"\x1b\[[?0-9a-zK]*", b"", line).strip() for line in drawn.split(b"\r\x1b[?7l") if line.strip()]
wanted = rb"\d+:\d\d:\d\d [0-9.]+ [KM]iB [0-9.]+ [KM]?i?B/s \d+% \[=*>? *\]( \d+:\d\d:\d\d left)?, \d+% full"
assert len(lines) > 2 and all(re.fullmatch(wanted, line) and len(line) <= 79 for line in lines), lines
assert b" 100% [============]," in lines[-1], lines
sys.exit(child.wait())
PYTHON
try_silent 'a line at a terminal has a bar' 20 0 'python3 drawn.py'
cat > behind.py <<'PYTHON'
import os, pty, subprocess, sys, termios, time
pid, near = pty.fork()
if pid == 0:
    mode = termios.tcgetattr(0)
    mode[3] |= termios.TOSTOP
    termios.tcsetattr(0, termios.TCSANOW, mode)
    child = subprocess.Popen([os.environ["pump"], "--progress"], stdin=subprocess.PIPE, stdout=subprocess.DEVNULL, preexec_fn=lambda: os.setpgid(0, 0))
    for _ in range(4):
        child.stdin.write(b"x" * 500_000)
        child.stdin.flush()
        time.sleep(0.3)
    child.stdin.close()
    try:
        os._exit(child.wait(3))
    except subprocess.TimeoutExpired:
        child.kill()
        os._exit(99)
sys.exit(os.waitstatus_to_exitcode(os.waitpid(pid, 0)[1]))
PYTHON
try_silent 'progress in the background of a terminal that stops who writes' 20 0 'python3 behind.py'
cat > failed.py <<'PYTHON'
import os, pty, signal, subprocess, sys, termios, threading, time
pid, near = pty.fork()
if pid == 0:
    mode = termios.tcgetattr(0)
    mode[3] |= termios.TOSTOP
    termios.tcsetattr(0, termios.TCSANOW, mode)
    child = subprocess.Popen([os.environ["pump"], "--tee", "/dev/full"], stdin=subprocess.PIPE, stdout=subprocess.PIPE, preexec_fn=lambda: os.setpgid(0, 0))
    def give():
        for _ in range(4):
            child.stdin.write(b"x" * 500_000)
            child.stdin.flush()
            time.sleep(0.2)
        child.stdin.close()
    threading.Thread(target=give, daemon=True).start()
    got = []
    taker = threading.Thread(target=lambda: got.append(child.stdout.read(2_000_000)), daemon=True)
    taker.start()
    taker.join(5)
    if not got:
        child.kill()
        os._exit(99)
    # It may be stopped now, as it tells of the copy.
    os.tcsetpgrp(0, child.pid)
    os.kill(child.pid, signal.SIGCONT)
    os._exit(child.wait())
told = os.read(near, 1000)
status = os.waitstatus_to_exitcode(os.waitpid(pid, 0)[1])
assert b"piper_pump: /dev/full: No space left" in told, told
sys.exit(status)
PYTHON
try_silent 'a copy that fails in the background of such a terminal' 20 7 'python3 failed.py'

# Signals.
try 'SIGTERM' 10 143 '' 'sleep 5 | (exec $pump) & sleep 0.5; kill -TERM $(pgrep -P $$ -x piper_pump); wait $!'
try_silent 'SIGSTOP and SIGCONT' 30 0 'mkfifo fifo; (lines 3000000; sleep 1; lines 2000000) > fifo & $pump < fifo > copy & child=$!; sleep 0.3; kill -STOP $child; sleep 1.5; kill -CONT $child; wait $child || exit 1; cmp copy <(lines 3000000; lines 2000000)'

# Many bytes. Each byte that passes alone costs two calls of the system and mostly two changes of thread, so the
# least capacities get fewer.
for case in "1 300000" "64 20000000" "4K $((bytes / 16))" "64K $bytes" "1M $bytes" "16M $bytes"; do
    read -r capacity count <<< "$case"
    export capacity count
    try_silent "$count bytes through $capacity" 300 0 'lines $count | $pump --capacity $capacity | cmp - <(lines $count) && exit ${PIPESTATUS[1]}'
done

count
