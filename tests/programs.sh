#!/usr/bin/env bash
# Tries the built programs where a user may lose bytes by them, or not hear of it, in under two minutes.
#
#     tests/programs.sh [FOLDER]
#
# FOLDER has the built programs; if it is left out, each is taken from out/ of its crate, where `rt run` builds it. It needs
# bash, the coreutils, cc and util-linux's prlimit (and setpriv where root runs it). Each case runs under a time limit, and what
# would hang fails so. The last line is `N passed, M failed`.
set -u
here=$(cd "$(dirname "$0")" && pwd)
. "$here/trying.bash"
room=$(mktemp -d)
trap 'rm -rf "$room"' EXIT
programs='piper_pump piper_compare duplex_echo example_order'
for program in $programs piper_replay; do
    cp "${1:-$here/../crates/$program/out}/$program" "$room/" || exit 2
    chmod 755 "$room/$program"
done
chmod 755 "$room"
cd "$room" || exit 2
export pump=./piper_pump
lines 5000000 > file
lines 20000 > short

# Closed standard streams: no file that is opened takes their numbers.
try 'a closed standard error, and a file' 10 7 '' '$pump --sha256 -o sent < short 2>&-; status=$?; cmp sent short && exit $status'
try 'a closed standard output' 10 4 'standard output' '$pump --tee copy < file >&-'
note 'a closed standard output, before a file is made' test ! -e copy
try 'a closed standard input' 10 3 'standard input' '$pump -o none <&-'
note 'a closed standard input, before a file is made' test ! -e none
try 'a closed standard output by a name' 10 4 '^piper_pump: /dev/stdout: it is a folder, or' '$pump -i file -o /dev/stdout >&-'
try 'a closed standard input by a name' 10 3 '^piper_pump: /dev/stdin: it is a folder, or' '$pump -i /dev/stdin -o none <&-'
note 'a closed standard input by a name, before a file is made' test ! -e none
try 'all closed, and files' 10 0 '' '$pump -i file -o moved <&- >&- 2>&-; status=$?; cmp moved file && exit $status'

# An input that is an output, too.
echo kept > kept
cp file twice
ln twice link
ln -s twice symlink
try 'one file as the input and the output' 10 4 '^piper_pump: twice: ' '$pump --force -i twice -o twice'
try 'one file under two names' 10 4 '^piper_pump: link: ' '$pump --force -i twice -o link'
try 'one file by a symbolic link' 10 4 '^piper_pump: symlink: ' '$pump --force -o symlink < twice'
try 'one file as the input and a copy' 10 4 '^piper_pump: twice: ' '$pump --force -i twice --tee twice'
try 'one file that is appended to' 10 4 '^piper_pump: standard output: ' '$pump -i twice >> twice'
try 'the same, by the shell alone' 10 4 '^piper_pump: standard output: ' '$pump < twice >> twice'
try 'one file that is written twice' 10 4 '^piper_pump: twice: ' '$pump --force -o link --tee twice < file'
note 'it keeps its bytes' cmp twice file
timeout 10 bash -c '$pump -i short -o reports --sha256 2>reports'
note 'an output that reports go into' test $? -eq 4
mkfifo fifo
try 'one FIFO that is written twice' 10 4 '^piper_pump: fifo: ' '$pump -i short -o none --tee fifo --tee fifo'
try_silent 'a device as the input and the output' 10 0 '$pump -i /dev/null -o /dev/null --tee /dev/null'

# Files that hold bytes, and a start that fails.
try 'a file that holds bytes' 10 4 '^piper_pump: kept: .*--force' '$pump -o kept < file'
try 'a copy that holds bytes' 10 4 '^piper_pump: kept: .*--force' '$pump --tee kept < file'
try 'a copy that can not be made' 10 4 '^piper_pump: no/such/file: ' '$pump --force -o kept --tee no/such/file < file'
try 'an input that is not there' 10 3 '^piper_pump: no/such/file: ' '$pump --force -o kept -i no/such/file'
try 'memory that is refused' 10 6 'out of memory' 'prlimit --as=8192000 $pump --capacity 64M --force -o kept < file'
try 'a folder as the input, and a file' 10 3 '^piper_pump: .: it is a folder' '$pump --force -i . -o kept'
try 'an input that fails at its first read' 10 3 '^piper_pump: /proc/self/mem: reading the input failed: Input/output' '$pump --force -i /proc/self/mem -o kept --tee new'
try 'a folder as the input by the shell' 10 3 'Is a directory' '$pump --force -o new --tee kept < .'
note 'what a file held stays where the pump does not begin' test "$(cat kept)" = kept
try 'a new file, and a copy in no folder' 10 4 '^piper_pump: no/such/file: ' '$pump -o new --tee no/such/file < file'
try 'a new file, and a copy that can not be made' 10 4 '^piper_pump: /proc/new: ' '$pump -o new --tee /proc/new < file'
echo held > held
try 'a file that is there, and a copy that can not be made' 10 4 '^piper_pump: /proc/new: ' '$pump --force -o held --tee /proc/new < file'
note 'a file that was there is not taken away' test "$(cat held)" = held
try 'a new file, and a copy that can not be opened' 10 4 '^piper_pump: ./piper_pump: Text file busy' '$pump --force -o new --tee $pump < file'
try 'a new file, and a copy that is a folder' 10 4 '^piper_pump: /: it is a folder' '$pump -o new --tee / < file'
try 'a new file, and memory that is refused' 10 6 'out of memory' 'prlimit --as=8192000 $pump --capacity 64M -o new < file'
try 'a new file, and words that are refused' 10 2 "^piper_pump: invalid value '-' for '--tee <FILE>'" '$pump -o new --tee - < file'
note 'a run that is refused makes no file' test ! -e new -a ! -e ./-
try 'a copy that can not be opened, and an idle input' 5 4 '^piper_pump: /proc/new: ' '$pump --tee /proc/new < <(echo a line; exec sleep 30)'
: > empty
try_silent 'a file that is empty' 10 0 '$pump -o empty < file && cmp empty file'
cp file long
lines 100 >> long
try_silent 'a file that is overwritten' 10 0 '$pump --force -o long --tee kept < file && cmp long file && cmp kept file'
try_silent 'a file that is overwritten by nothing' 10 0 '$pump --force -o long < /dev/null && test ! -s long'
try_silent 'a new file and a copy of nothing' 10 0 '$pump -o none --tee nothing < /dev/null && test -e none -a -e nothing && rm none nothing'

# Files that are appended to.
echo old > log
try_silent 'a file and a copy that are appended to' 10 0 'cp log more; $pump --append -o log --tee more < short && cat <(echo old) short | cmp - log && cmp log more; status=$?; rm more; exit $status'
try_silent 'a run that goes on where another ended' 10 0 '$pump -o whole --stop-after 1000 < file && $pump --append -o whole --skip 1000 < file && cmp whole file; status=$?; rm whole; exit $status'
try_silent 'a new file that is appended to' 10 0 '$pump --append -o fresh < short && cmp fresh short; status=$?; rm fresh; exit $status'
try_silent 'appended to, with --force, too' 10 0 'echo old > log; $pump --append --force -o log < short && cat <(echo old) short | cmp - log'
try_silent 'nothing is appended' 10 0 'echo old > log; $pump --append -o log < /dev/null && test "$(cat log)" = old'
try_silent 'two pumps that append to one file' 10 0 'echo old > log; $pump --append -o log < short & $pump --append -o log < short; wait && test "$(stat -c %s log)" -eq 40004 && head -c 4 log | cmp - <(echo old)'
try_silent 'two pumps that append to one new file' 10 0 'rm log; { echo first; sleep 1; echo third; } | $pump --append -o log & sleep 0.5; echo second | $pump --append -o log && wait && cat log | cmp - <(echo first; echo second; echo third)'
try 'an input that is appended to' 10 4 '^piper_pump: log: it is also the input' 'echo old > log; $pump --append -i log -o log'
try 'a copy that can not be made, and a file that is appended to' 10 4 '^piper_pump: /proc/new: ' '$pump --append -o log --tee /proc/new < short'
note 'what a file holds stays' test "$(cat log)" = old
rm -f log

# A part of the input.
try_silent 'what is left out, and how much is read' 10 0 '$pump --skip 1000 --stop-after 300K < file | cmp - <(tail -c +1001 file | head -c 307200) && exit ${PIPESTATUS[0]}'
try_silent 'what is left out of a file by its name' 10 0 '$pump --skip 4700k --chunk 999 -i file -o part && cmp part <(tail -c +4812801 file); status=$?; rm part; exit $status'
try_silent 'no more is read than is asked for' 10 0 '{ $pump --stop-after 3000 > part && cat > rest; } < file; cat part rest | cmp - file && test "$(stat -c %s part)" -eq 3000'
try_silent 'an input that is shorter than what is left out' 10 0 '$pump --skip 1G < short | cmp - /dev/null && exit ${PIPESTATUS[0]}'
try_silent 'the end of a part, and an idle input' 5 0 '$pump --skip 2 --stop-after 5 < <(echo a line; exec sleep 30) | cmp - <(echo line) && exit ${PIPESTATUS[0]}'
try_silent 'a part of no byte, and an idle input' 5 0 '$pump --stop-after 0 < <(exec sleep 30) | cmp - /dev/null && exit ${PIPESTATUS[0]}'
try 'the sum of a part' 10 0 "^$(tail -c +11 short | head -c 50 | sha256sum)" '$pump --sha256 --skip 10 --stop-after 50 < short > /dev/null'
try 'a part that is none' 10 2 "invalid value 'x' for '--skip <N>': .* from 0 to " '$pump --skip x < file'
try 'an end of a part that is none' 10 2 "invalid value '-5' for '--stop-after <N>'" '$pump --stop-after=-5 < file'
rm -f part rest

# Copies that fail: the output and the other copies get all bytes, and the file is named.
try 'a copy that is full' 20 7 '^piper_pump: /dev/full: No space' '$pump --tee /dev/full --tee second < file > first; status=$?; cmp first file && cmp second file && exit $status'
try 'a copy whose reader left' 20 7 '^piper_pump: /dev/fd/[0-9]*: Broken pipe' '$pump --tee >(exec true) --tee third < file > first; status=$?; cmp first file && cmp third file && exit $status'
note 'it is told once' test "$(wc -l < told)" -eq 1
try 'a full copy, and a full output' 20 4 'writing the output failed' '$pump --tee /dev/full < file > /dev/full'

# Ends that fail while the input is idle.
export feed='sleep 0.5; echo a line; exec sleep 30'
try 'a full output, and an idle input' 5 4 'writing the output failed' '$pump < <(eval "$feed") > /dev/full'
try 'a full file, and an idle input' 5 4 'writing the output failed' '$pump -o /dev/full < <(eval "$feed")'
try 'a full output with progress, and an idle input' 5 4 'writing the output failed' '$pump --progress < <(eval "$feed") > /dev/full'
try 'a reader that left, and an idle input' 5 141 '' '$pump < <(eval "$feed") | true; exit ${PIPESTATUS[0]}'

# Threads that are refused, or begin late.
alone=''
if [ "$(id -u)" -eq 0 ]; then
    alone='setpriv --reuid=65533 --regid=65533 --clear-groups'
fi
export alone
try 'progress on one thread' 20 0 'KiB' '(for i in 1 2 3 4 5; do lines 5000; sleep 0.4; done) | $alone prlimit --nproc=1 $pump --progress > /dev/null'
note 'it is told more than once' test "$(wc -l < told)" -ge 4
try_silent 'the level on one thread' 20 0 '(lines 400; sleep 1; lines 200; sleep 1) | $alone prlimit --nproc=1 $pump --capacity 1000 --start-at 50 | (sleep 0.5; timeout 0.3 head -c 1 > early; sleep 0.7; timeout 0.5 head -c 600 > late); test ! -s early && cmp late <(lines 400; lines 200)'
cat > late.sh <<'LATE'
# Stops a pump as it begins, and goes on later: it is to have its threads for the run and for the input.
has_threads() { test "$(ls "/proc/$child/task" | wc -l)" -ge 3; }
for turn in {1..20}; do
    { echo a line; exec sleep 20; } | $pump > /dev/null &
    child=$!
    sleep "0.00$((RANDOM % 10))"
    kill -STOP $child
    sleep 0.3
    kill -CONT $child
    for wait in {1..50}; do
        if has_threads; then break; fi
        sleep 0.1
    done
    sleep 0.1
    has_threads || exit 1
    kill $child
done
LATE
try_silent 'threads that begin late' 60 0 '. ./late.sh'

# Words.
try 'a rate that is none' 10 2 "invalid value 'x' for '--rate <N>': .* from 1 to " '$pump --rate x < file'
try 'a size that is none' 10 2 "invalid value 'x' for '--size <N>': .* from 0 to " '$pump --size x < file'
try 'a level that is none' 10 2 "invalid value '101' for '--start-at <N>': .* from 0 to 100" '$pump --start-at 101 < file'
try_silent 'a size of none' 10 0 '$pump --size 0 < /dev/null'
try 'a word that is none' 10 2 "^piper_pump: unexpected argument '--speed'" '$pump --speed'
try 'a size that is none, of the pipe' 10 2 "^piper_pump: invalid value 'x' for '--capacity <N>'" '$pump --capacity x'
try_silent 'names of the standard streams' 10 0 '$pump -i - -o - < file | cmp - file && test ! -e ./-'
try 'the sum, quietly' 20 0 "$(sha256sum < short | cut -c1-64)" '$pump --quiet --progress --sha256 < short > /dev/null'
note 'it is told alone' test "$(wc -l < told)" -eq 1
note 'it is told as sha256sum does' eval 'sha256sum -c told < short > /dev/null 2>&1'
try 'the sum of a file' 20 0 '  summed$' '$pump --sha256 -o summed < short'
note 'it is told as sha256sum does, by its name' eval 'sha256sum -c told > /dev/null 2>&1'
try 'the sum of a file with an odd name' 20 0 '' '$pump --sha256 -o $'"'a\\\\b\\nc\\rd'"' < short'
note 'it is told in one line, as sha256sum does' test "$(cat told)" = "\\$(sha256sum < short | cut -c1-64)  "'a\\b\nc\rd'
try_silent 'the help' 10 0 '$pump --help'
note 'the help tells what a signal costs' grep -q 'A signal that ends it loses what it holds' out

# A small stack, and a rate of single bytes.
try 'a small stack' 20 0 "$(sha256sum < short | cut -c1-64)" 'ulimit -s 16; $pump --sha256 < short > /dev/null'
begun=$(date +%s%N)
try_silent 'a rate of single bytes' 20 0 'head -c 100000 file | $pump --rate 100000 --chunk 1 > /dev/null'
took=$((($(date +%s%N) - begun) / 1000000))
note "100,000 bytes at 100,000 a second, one by one, took $took ms" test "$took" -ge 800 -a "$took" -le 1500

# Progress.
try 'progress that knows the size by the shell' 20 0 '; [0-9]*%, [0-9.]* [a-z]* left' '$pump --progress --rate 3m < file > /dev/null'
try 'a part of a file' 20 0 '; 100%; ' '(head -c 4000000 > /dev/null; $pump --progress) < file > /dev/null'
try 'a size that is too small' 20 0 'KiB' '(lines 5000; sleep 0.6) | $pump --progress --size 2 > /dev/null'
note 'it tells no percent of it' eval '! grep -q "[0-9]%$\|left" told'
try_silent 'a reader of the progress that left' 20 0 '(lines 300000; sleep 1; lines 300000) | $pump --progress 2> >(exec head -n 1 > first) | cmp - <(lines 300000; lines 300000)'
try 'progress at its longest' 20 0 '; 0%, 2[0-9] h left' '(lines 2000000; sleep 1) | $pump --progress --capacity 1m --size 99000000000 --rate 1m > /dev/null'
note 'no line has more than 79 columns' awk 'length($0) > 79 { exit 1 }' told

# Each block that a program asks the heap for is given back, and where any one is refused all others are: of pipes whose sides
# are dropped in each order, and of those that a client makes, also across threads.
if cc -O2 -shared -fPIC -o blocks.so "$here/blocks.c" -ldl; then
    gives_all_back() { # COMMAND [NUMBER OF A BLOCK]
        : > blocks
        BLOCKS=blocks REFUSE=${2:-0} timeout 20 env LD_PRELOAD=./blocks.so $1 < script > out 2> told
        awk 'NF == 2 && $1 == $2 { all = 1 } END { exit !all }' blocks
    }
    try_blocks() { # NAME COMMAND
        note "all blocks are given back: $1" gives_all_back "$2"
        local most block kept=
        most=$(cut -d ' ' -f 1 blocks)
        for ((block = 1; block <= most; block++)); do
            gives_all_back "$2" "$block" || kept="$kept $block"
        done
        note "all others, where one of $most is refused: $1$kept" test "$most" -gt 0 -a -z "$kept"
    }
    for order in 'drop r/drop w' 'drop w/drop r' 'drop r' 'drop w' 'fill 1..8/drop r/drop w' 'poll r 1/drop w/drop r' 'drop w/poll r 1/drop r' \
        'fill 1..9/poll w 1/drop r/drop w' 'close/drop w/drop r' 'len r'; do
        printf 'pipe 8\n%s\n' "$order" | tr / '\n' > script
        try_blocks "$order" './piper_compare handles'
    done
    try_blocks 'a client' ./example_order
else
    echo 'left out, for want of a C compiler: the blocks of a pipe'
fi

# The help, the version and an unknown word of each program.
for program in $programs; do
    try_silent "the help of $program" 10 0 "./$program --help"
    note "the help of $program, by name and with each status" awk -v name="$program" 'tolower($0) ~ "^usage: " name { named = 1 } /^Exit status:/ { told = 1 } END { exit !(named && told) }' out
    try_silent "the version of $program" 10 0 "./$program --version"
    note "the version of $program, in one line" grep -qx "$program [0-9.]*" out
    refused=2
    [ $program != duplex_echo ] || refused=1
    try "an unknown word, to $program" 10 $refused '' "./$program --speed"
    note "an unknown word, to $program: nothing is printed" test ! -s out
done

# Each way in which they fail has its status and its words.
try 'an echo' 10 0 '' './duplex_echo < short | cmp - short'
try_silent 'an echo of a word: as promised, nothing is told' 10 1 './duplex_echo x < short'
try 'an echo without a thread' 10 2 'no thread is granted' '$alone prlimit --nproc=1 ./duplex_echo < short'
try 'an echo to a full output' 10 2 'write failed' './duplex_echo < short > /dev/full'
try 'a word that is no text, to a comparison' 10 2 '^usage' './piper_compare $'"'\\xff'"
try 'a word that is no text, to a replay' 10 1 '^usage' './piper_replay $'"'\\xff'"
export steps='pipe 2\nbegin lend 2\ngo w\n' both='pipe 4\nfill 1\nbegin len r\nbegin len w\n'
for words in '' run all; do
    try "a replay that can't read ($words)" 10 2 '^read failed$' "./piper_replay $words < /"
    note "a replay that can't read ($words): nothing is printed" test ! -s out
done
try 'a replay to a full output' 10 2 '^write failed$' 'echo pipe 1 | ./piper_replay > /dev/full'
try 'a run to a full output' 10 2 '^write failed$' 'printf "$steps" | ./piper_replay run > /dev/full'
try 'all orders to a full output' 10 2 '^write failed$' 'printf "$both" | ./piper_replay all > /dev/full'
export unread='pipe 1048576\nfill 1*1048000\nbegin polldrain 1 5\nbegin pollfill 2 1,2,3\n'
try 'all orders over a million unread bytes' 10 0 '' 'printf "$unread" | ./piper_replay all'
note 'their one outcome has all of them' test "$(tr -cd , < out | wc -c) $(cut -c 1-27 out) $(tail -c 10 out)" = '1047997 r=ready:5 w=ready:3 woken=- 1,1,1,2,3'
try 'all orders of a script with a line that is too long' 10 1 '' '{ echo pipe 4; head -c 65537 /dev/zero | tr "\\0" x; } | ./piper_replay all'
note 'it is past its limit' test "$(cat out)" = 'line 2: Limit'
for words in 'twin 1' 'twin x 1' 'twin 1 x' 'twin 1 2 3' 'twin 1 1048577' 'vectors 1' 'handles 1 1' ''; do
    try "words that are none, to a comparison: $words" 10 2 '^usage' "./piper_compare $words < /dev/null"
    note 'nothing is printed' test ! -s out
done
for words in handles twin; do
    try "a comparison that can't read: $words" 10 2 '^read failed$' "./piper_compare $words < /"
    try "a comparison to a full output: $words" 10 2 '^write failed$' "echo pipe 1 | ./piper_compare $words > /dev/full"
done
try 'drawn scripts to a full output' 10 2 '^write failed$' './piper_compare twin 1 1 > /dev/full'

# The scripts that are there to be read, each with what is written beside it.
for script in "$here"/../examples/*.script; do
    export script
    try_silent "the replay of $(basename "$script")" 10 0 './piper_replay < "$script" > replayed && cmp replayed "${script%script}output"'
done

# An answer that is not the one that is stored, and has its length.
cp -r "$here/../crates/piper_compare/data" stored
sed -i '3s/"ok/"no/' stored/lines.jsonl
try 'a stored answer that is another' 10 1 '' 'cd stored && ../piper_compare vectors'
note 'it is named by its line and file' grep -q '^  in line 3 of lines.jsonl' out
note 'what is given is told beside what is stored' grep -qx 'output line 1: ok in place of no' out
cp "$here/../crates/piper_compare/data/lines.jsonl" stored
sed -i '1s/"ok/"no/' stored/upstream-play.jsonl
try 'an answer of the crate that is another' 10 1 '' 'cd stored && ../piper_compare vectors'
note 'it is counted' grep -qx '399 of 400 scripts are answered as by the crate' out
cp "$here/../crates/piper_compare/data/upstream-play.jsonl" stored
try 'stored answers that nobody can print' 10 2 '^piper_compare: write failed$' 'cd stored && ../piper_compare vectors > /dev/full'
mv stored/steps.jsonl steps.jsonl
try 'a stored file that is missing' 10 2 '^piper_compare: steps.jsonl: No such' 'cd stored && ../piper_compare vectors'
: > stored/steps.jsonl
try 'a stored file of no script' 10 2 '^piper_compare: steps.jsonl: it has no script$' 'cd stored && ../piper_compare vectors'
for line in 'no JSON' '{"script": "pipe 1\\n", "status": 0}' '{"script": "", "output": "", "status": 0, "arguments": 1}'; do
    { head -n 1 steps.jsonl; echo "$line"; } > stored/steps.jsonl
    try "a stored line that is broken: $line" 10 2 '^piper_compare: line 2 of steps.jsonl: ' 'cd stored && ../piper_compare vectors'
done
mv steps.jsonl stored
try 'a hundred thousand drawn scripts, on handles and machine' 120 0 '' \
    './piper_compare twin 1 100000 | grep -q "^100000 scripts, .*: no difference\$"'

count
