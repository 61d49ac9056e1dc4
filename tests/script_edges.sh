#!/usr/bin/env bash
# The script program at the edges of its input and output: pieces, blocks, waits, failures and limits, with every answer, the exit
# status and the sentence on standard error compared. tests/edges.c makes the pipes and sockets.
set -euo pipefail
cd "$(dirname "${BASH_SOURCE[0]}")/.."
root=$PWD
for tool in rt cc awk; do
    if ! command -v "$tool" > /dev/null; then
        echo "The test of the script program's edges needs '$tool', which is not on the PATH." >&2
        exit 1
    fi
done
if [[ $# -gt 0 ]]; then
    program=$(realpath "$1")
else
    source tests/script_program.bash
    program=$script_program
fi
work=$(mktemp -d)
trap 'rm -rf "$work"' EXIT
edges=$work/edges
cc -std=c11 -O1 -Wall -Wextra -Werror tests/edges.c -o "$edges"
cd "$work"
cases=0

# runs a command and keeps what it prints. The limit of time only guards against hanging.
run() {
    status=0
    timeout 120 "$@" > output 2> errors || status=$?
}

# what the last run must have come to: its exit status, its answers in the file `expected`, and its sentence on standard error, if any
came_to() {
    local title=$1 wanted=$2 sentence=${3-}
    if [[ $status -ne $wanted ]]; then
        echo "$title: exit status $status, and not $wanted" >&2
        cat errors >&2
        exit 1
    fi
    if ! cmp output expected; then
        echo "$title: other answers than expected:" >&2
        diff output expected | head -n 5 >&2
        exit 1
    fi
    if ! cmp errors <(if [[ -n $sentence ]]; then printf '%s\n' "$sentence"; fi); then
        echo "$title: another sentence than '$sentence':" >&2
        cat errors >&2
        exit 1
    fi
    cases=$((cases + 1))
}

# the lines given are what is expected
expect() {
    if [[ $# -gt 0 ]]; then printf '%s\n' "$@" > expected; else : > expected; fi
}

# so many times the same text
times() {
    printf "%0.s$2" $(seq "$1")
}

# so many bytes of the same line again and again
bytes_of() {
    yes "$2" | head -c "$1" || true
}

LEFT=17X100A100R0000L
RIGHT=17X100A100R0001J
NAME=NER_${LEFT}_${RIGHT}_20210121_13120.csv
LOAD=L,$LEFT,13120,20210121,100$(times 48 ,7)
: > x

# ---- the edges of blocks

# Writes a script to `rounds` and its answers to `expected`: the lines of `start`, and so many times those of `round`. Each of their
# lines is a line of the script, | and its answer. A line of x stands before them all, which shifts them.
make_rounds() {
    awk -F '|' -v rounds="$1" '
        BEGIN { printf "" > "rounds"; print ++n ",no,11,0" > "expected" }
        FNR == NR { print $1 > "rounds"; print ++n "," $2 > "expected"; next }
        { line[++lines] = $1; answer[lines] = $2 }
        END {
            for (; rounds > 0; rounds--) {
                for (i = 1; i <= lines; i++) { print line[i] > "rounds"; print ++n "," answer[i] > "expected" }
            }
        }
    ' start round
}

# the script, behind a first line of so many x
shifted() {
    printf '%*s\n' "$1" '' | tr ' ' x
    cat rounds
}

cat > start << END
T,20210120,600|ok
A,$LEFT,20210101,20211231|ok,1
A,$RIGHT,20210101,20211231|ok,2
C,13120|ok,1
$LOAD|ok,1
END
cat > round << END
T,20210120,600|ok
E,$RIGHT,13120,20210121,0|ok,0
C,13120|no,37,0
Z|no,11,0
R,$LEFT,1|no,40,0
T,20210120,599|no,38,0
|no,11,0
$LOAD|no,37,0
F,$LEFT,x|no,1,0
END
make_rounds 800
period=$(cut -d '|' -f 1 round | wc -c)
for ((shift = 0; shift < period; shift++)); do
    shifted "$shift" > input
    run "$program" < input
    came_to "a file whose lines are shifted by $shift bytes" 0
    run "$program" < <(cat input)
    came_to "a pipe whose lines are shifted by $shift bytes" 0
done

cat > round << END
C,$(times 510 x)|no,9,0
C,$(times 511 x)|no,11,0
C,13120|no,37,0
$(times 1000 y)|no,11,0
E,$RIGHT,13120,20210121,0|ok,0
$(times 70000 z)|no,11,0
END
make_rounds 3
for ((shift = 0; shift < 2100; shift += 13)); do
    shifted "$shift" > input
    run "$program" < input
    came_to "long lines, shifted by $shift bytes" 0
done

for size in 32767 32768 32769 65535 65536 65537; do
    for line in Z ZZ; do
        bytes_of "$size" "$line" > input
        lines=$(((size + ${#line}) / (${#line} + 1)))
        seq -f '%.0f,no,11,0' "$lines" > expected
        run "$program" < input
        came_to "$size bytes of lines $line" 0
    done
    head -c "$size" /dev/zero | tr '\0' x > input
    expect 1,no,11,0
    run "$program" < input
    came_to "a line of $size bytes" 0
done

# ---- pieces

printf 'T,20210120,600\nA,%s,20210101,20211231\nF,%s,x\n\nC,13120' "$LEFT" "$LEFT" > input
expect 1,ok 2,ok,1 3,no,1,0 4,no,11,0 5,ok,1
run "$program" < <("$edges" feed input 1 1)
came_to "a byte at a time" 0
length=$(wc -c < input)
for ((cut = 1; cut < length; cut++)); do
    run "$program" < <("$edges" feed input "$cut" "$length")
    came_to "two pieces, cut at $cut" 0
done

sed -n 1,10p "$root/examples/guide-4.4.1/script" > input
head -n 10 "$root/examples/guide-4.4.1/expected" > expected
line=$(tail -n 1 input)
fifo=${line##*,}
mkfifo "$fifo"
for piece in 1 7 100; do
    "$edges" feed "$root/examples/guide-4.4.1/bodies/10" "$piece" "$piece" > "$fifo" &
    run "$program" < input
    wait
    came_to "a body in pieces of $piece" 0
done
rm "$fifo"

printf 'T,20210120,600\nA,%s,20210101,20211231\nA,%s,20210101,20211231\nC,13120\nF,%s,%s\nC,13121\n' "$LEFT" "$RIGHT" "$LEFT" "$NAME" > input
head -c 5000 /dev/zero | tr '\0' '\n' > long
expect 1,ok 2,ok,1 3,ok,2 4,ok,1 5,no,2,0 6,ok,2
mkfifo "$NAME"
"$edges" feed long 1000 1000 > "$NAME" &
run "$program" < input
wait
came_to "a body that is too long, in pieces" 0
rm "$NAME"

# ---- descriptors

mkdir folder
for ((i = 0; i < 1000; i++)); do printf 'F,%s,x\nF,%s,folder\n' "$LEFT" "$LEFT"; done > input
for ((i = 1; i < 2000; i += 2)); do printf '%d,no,1,0\n%d,no,11,0\n' "$i" $((i + 1)); done > expected
run bash -c 'ulimit -n 32 && exec "$0"' "$program" < input
came_to "2,000 files with 32 descriptors" 0

# ---- answers before it waits

# writes to the program that waits, and reads one line of its answers
say() {
    printf '%b' "$1" >&"$into"
    if ! IFS= read -r -t 60 answer <&"$from"; then
        echo "no answer to '$1' before more input" >&2
        exit 1
    fi
    printf '%s\n' "$answer" >> output
}

# starts the program, which waits for what is said
start_talk() {
    : > output
    coproc REGISTER { exec "$program" 2> errors; }
    from=${REGISTER[0]} into=${REGISTER[1]} register=$REGISTER_PID
}

# ends the input, and reads what is left of the answers
end_talk() {
    exec {into}>&-
    cat <&"$from" >> output
    status=0
    wait "$register" || status=$?
}

start_talk
say 'T,20210120,600\n'
say 'Z\nC,131'
say '20\n'
printf 'C,13121' >&"$into"
end_talk
expect 1,ok 2,no,11,0 3,ok,1 4,ok,2
came_to "an answer to each line before the next is written" 0

start_talk
say 'T,20210120,600\nC,1'
kill -STOP "$register"
printf '31' >&"$into"
kill -CONT "$register"
say '20\n'
end_talk
expect 1,ok 2,ok,1
came_to "stopped and continued in the middle of a line" 0

# ---- input that fails

printf 'T,20210120,600\nC,13120\nZ\nC,13121' > input
expect 1,ok 2,ok,1 3,no,11,0
run "$edges" reset input "$program"
came_to "a connection that is reset in the middle of a line" 2 "The script can't be read: Connection reset by peer"
run "$edges" hangup input "$program"
came_to "a terminal that hangs up in the middle of a line" 2 "The script can't be read: Input/output error"
run bash -c 'exec "$@" 2>&-' bash "$edges" reset input "$program"
came_to "a connection that is reset, with standard error closed" 2
printf '\n' >> input
expect 1,ok 2,ok,1 3,no,11,0 4,ok,2
run "$edges" reset input "$program"
came_to "a connection that is reset behind a line" 2 "The script can't be read: Connection reset by peer"
{ bytes_of 140000 Z && printf 'C,13120'; } > input
seq -f '%.0f,no,11,0' 70000 > expected
run "$edges" reset input "$program"
came_to "a connection that is reset after two blocks" 2 "The script can't be read: Connection reset by peer"
expect
run "$program" < folder
came_to "a directory as the input" 2 "The script can't be read: Is a directory"
run "$program" <&-
came_to "no input" 2 "The script can't be read: Bad file descriptor"

# ---- input that comes late

printf 'T,20210120,600\nC,13120\nC,13121' > input
expect 1,ok 2,ok,1 3,ok,2
for cut in 15 20 28; do
    run "$edges" late input "$cut" "$program"
    came_to "input that doesn't block and comes late at $cut" 0
done

# ---- answers that can't be written

# as `run`, with another standard output
run_to() {
    : > output
    status=0
    timeout 120 "${@:2}" > "$1" 2> errors || status=$?
}

expect
printf 'C,13120\n' > input
run_to /dev/full "$program" < input
came_to "a full device" 1 "The answers can't be written: No space left on device"
run "$edges" gone "$program" < input
came_to "a pipe that has no reader" 1 "The answers can't be written: Broken pipe"
run bash -c 'exec "$0" >&-' "$program" < input
came_to "no output" 1 "The answers can't be written: Bad file descriptor"
run bash -c 'exec "$0" >&-' "$program" < /dev/null
came_to "no output, and no answers" 0
run_to /dev/full "$program" < /dev/null
came_to "a full device, and no answers" 0

bytes_of 200000 Z > input
{
    run_to /dev/full "$program"
    left=$(wc -c)
} < input
came_to "a full device and a long script" 1 "The answers can't be written: No space left on device"
if [[ $left -lt $((200000 - 32768)) ]]; then
    echo "after the answers couldn't be written, more than the first block was read: $left bytes were left" >&2
    exit 1
fi
seq -f '%.0f,no,11,0' 100000 > expected
run "$edges" slow input "$program"
came_to "output that doesn't block, and a slow reader" 0
head -c 20480 expected > first && mv first expected
run bash -c 'ulimit -f 20 && exec "$0"' "$program" < input
came_to "a limit on a file's size" 1 "The answers can't be written: File too large"

echo "$cases cases at the edges: as expected"
