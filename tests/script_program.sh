#!/usr/bin/env bash
# The built script program: the examples, and input at the edge, each answer compared byte by byte.
set -euo pipefail
cd "$(dirname "${BASH_SOURCE[0]}")/.."
root=$PWD
for tool in rt cc valgrind; do
    if ! command -v "$tool" > /dev/null; then
        echo "The test of the script program needs '$tool', which is not on the PATH." >&2
        exit 1
    fi
done
source tests/script_program.bash
program=$script_program
for example in examples/*/ tests/stored_run/; do
    if ! cmp <(./run "$example") "$example/expected"; then
        echo "$example: other answers than expected" >&2
        exit 1
    fi
    echo "$example: as expected"
done

work=$(mktemp -d)
trap 'rm -rf "$work"' EXIT
cd "$work"
cases=0

# compares the answers to the file `input` with the lines given
answers() {
    local title=$1
    shift
    if [[ $# -gt 0 ]]; then printf '%s\n' "$@" > expected; else : > expected; fi
    "$program" < input > output
    if ! cmp output expected; then
        echo "$title: other answers than expected:" >&2
        head -c 2000 output >&2
        exit 1
    fi
    cases=$((cases + 1))
}

# so many times the same text
times() {
    printf "%0.s$2" $(seq "$1")
}

printf 'T,20210120,600\nA,17X100A100R0000L,20210101,20211231\nA,17X100A100R0001J,20210101,20211231\nC,13120\nT,20210120,599\nE,17X100A100R0001J,13120,20210121,0\nZ\n' > input
answers "the sample of document 01" 1,ok 2,ok,1 3,ok,2 4,ok,1 5,no,38,0 6,ok,0 7,no,11,0

# the first actor's name in a file of its own exchange, and a body that says the same
NAME=NER_17X100A100R0000L_17X100A100R0001J_20210121_13120.csv

: > input
answers "empty input"
printf '\n' > input
answers "an empty line" 1,no,11,0
printf '\n\nC,13120\n\n' > input
answers "empty lines" 1,no,11,0 2,no,11,0 3,ok,1 4,no,11,0
printf 'C,13120' > input
answers "a last line without LF" 1,ok,1
printf 'C,13120\nT,20210120,600' > input
answers "a last line without LF after another" 1,ok,1 2,ok
{ printf 'C,' && times 510 x && printf '\nC,13120\n'; } > input
answers "a line of 512 bytes" 1,no,9,0 2,ok,1
{ printf 'C,' && times 511 x && printf '\nC,13120\n'; } > input
answers "a line of 513 bytes" 1,no,11,0 2,ok,1
{ head -c 1000000 /dev/zero | tr '\0' x && printf '\nC,13120\n'; } > input
answers "a line of a million bytes" 1,no,11,0 2,ok,1
{ printf 'C,' && head -c 1000000 /dev/zero | tr '\0' 1; } > input
answers "a last line of a million bytes without LF" 1,no,11,0
head -c 200000 /dev/zero | tr '\0' '\n' > input
"$program" < input > output
if [[ $(wc -l < output) -ne 200000 || $(tail -n 1 output) != 200000,no,11,0 ]]; then
    echo "200,000 empty lines: other answers than expected" >&2
    exit 1
fi
cases=$((cases + 1))

printf 'C,131\00020\n\000\nC,13120\n' > input
if [[ $(od -An -v -t x1 -N 11 input) != " 43 2c 31 33 31 00 32 30 0a 00 0a" ]]; then
    echo "NUL: there is no byte of 0 in the input" >&2
    exit 1
fi
answers "NUL" 1,no,9,0 2,no,11,0 3,ok,1
printf 'C,\377\200\n\377\nA,\351,20210101,20211231\n' > input
answers "bytes above 127" 1,no,9,0 2,no,11,0 3,no,9,0
printf 'C,13120\r\nT,20210120,600\r\n\r\n' > input
answers "CR is a byte like any other" 1,no,9,0 2,no,11,0 3,no,11,0
printf 'Z\nZ,1\nt,20210120,600\nTT,20210120,600\n,\n,20210120,600\nT\nA\nC\nL\nF\nE\nR\n' > input
answers "an unknown letter, or a letter alone" {1..13}",no,11,0"
printf 'T,20210120\nT,20210120,600,\nT,20210120,600,1\nA,17X100A100R0000L,20210101\nA,17X100A100R0000L,20210101,20211231,\nC,13120,\nL,17X100A100R0000L,13120,20210121\nL,17X100A100R0000L,13120,20210121,9\nF,17X100A100R0000L\nF,17X100A100R0000L,a,b\nE,17X100A100R0000L,13120,20210121\nE,17X100A100R0000L,13120,20210121,0,0\nR,17X100A100R0000L\nR,17X100A100R0000L,1,\n' > input
answers "a missing or an extra field" {1..14}",no,11,0"
printf 'T,20210120,00\nT,20210120,0600\nT,20210120,\nT,20210120,+1\nT,20210120,-1\nT,20210120, 1\nT,20210120,1x\nT,20210120,100000\nT,20210120,99999\nT,20210120,0\nR,,1\nR,x,01\n' > input
answers "a needless zero, a sign, a blank, six digits" {1..8}",no,11,0" 9,no,10,0 10,ok 11,no,22,0 12,no,11,0
printf 'T,20210230,0\nT,20211301,0\nT,20210100,0\nT,19991231,0\nT,21000101,0\nT,2021012,0\nT,202101200,0\nT,2021-1-1,0\nT,20991231,0\nT,20000101,0\n' > input
answers "dates that there aren't" {1..8}",no,11,0" 9,ok 10,no,38,0
printf 'C,\nC,1312\nC,13120c\nC,13120C\nC,13120\nC,13121\nC,13122\nC,13123\nC,13120\n' > input
answers "categories" 1,no,9,0 2,no,9,0 3,no,9,0 4,ok,1 5,ok,2 6,ok,3 7,ok,4 8,no,36,0 9,no,37,0

START='T,20210120,600\nA,17X100A100R0000L,20210101,20211231\nA,17X100A100R0001J,20210101,20211231\nC,13120\n'
LOAD='L,17X100A100R0000L,13120,20210121,100'
{ printf "$START$LOAD" && times 51 ,7 && printf "\n$LOAD" && times 47 ,7 && printf "\n$LOAD" && times 48 ,7 && printf ",\n$LOAD" && times 48 ,101 && printf "\n$LOAD" && times 48 ,7 && printf '\n'; } > input
answers "51 powers, 47 powers, a trailing comma, a power above the approved one" 1,ok 2,ok,1 3,ok,2 4,ok,1 5,no,10,0 6,no,10,0 7,no,11,0 8,no,10,0 9,ok,1
{ printf "$START$LOAD" && times 200 ,7 && printf "\n$LOAD" && times 240 ,7 && printf '\n'; } > input
answers "a line full of powers, and one that is too long" 1,ok 2,ok,1 3,ok,2 4,ok,1 5,no,10,0 6,no,11,0

file_answers() {
    printf "$START"'F,17X100A100R0000L,%s\nE,17X100A100R0000L,13120,20210121,0\n' "$2" > input
    answers "$1" 1,ok 2,ok,1 3,ok,2 4,ok,1 "5,$3" 6,ok,0
}
file_answers "a file that is missing" "$NAME" no,11,0
printf "${START}F,nobody,missing\nF,,\n" > input
answers "11 comes before all others" 1,ok 2,ok,1 3,ok,2 4,ok,1 5,no,11,0 6,no,11,0
mkdir "$NAME"
file_answers "a directory" "$NAME" no,11,0
rmdir "$NAME"
: > "$NAME"
file_answers "an empty file" "$NAME" no,2,0
head -c 4096 /dev/zero | tr '\0' '\n' > "$NAME"
file_answers "a file of 4,096 bytes" "$NAME" no,3,1
head -c 4097 /dev/zero | tr '\0' '\n' > "$NAME"
file_answers "a file of 4,097 bytes" "$NAME" no,2,0
head -c 1000000 /dev/zero | tr '\0' '\n' > "$NAME"
file_answers "a file of a million bytes" "$NAME" no,2,0
mkdir sub
printf 'x\n' > sub/x
file_answers "a name with a slash" sub/x no,1,0
file_answers "a name with a slash, missing" sub/y no,11,0
file_answers "a device" /dev/null no,1,0
printf 'x\n' > $'caf\351'
file_answers "a name that isn't UTF-8" $'caf\351' no,1,0
file_answers "the same name in UTF-8, missing" $'caf\303\251' no,11,0
mv $'caf\351' $'caf\303\251'
file_answers "a name in UTF-8" $'caf\303\251' no,1,0
file_answers "the same name not in UTF-8, missing" $'caf\351' no,11,0
mkdir $'\200\377'
printf 'x\n' > $'\200\377/\300\301\337\340'
file_answers "names that are bytes of UTF-8 in disorder" $'\200\377/\300\301\337\340' no,1,0
printf 'F,x,sub\0/x\n' > input
answers "a name with NUL" 1,no,11,0

# A body through a pipe: the file is opened once, and need not be a regular one.
body=$root/examples/guide-4.4.1/bodies/10
line=$(sed -n 10p "$root/examples/guide-4.4.1/script")
rm -f "$NAME"
pipe=${line##*,}
mkfifo "$pipe"
cat "$body" > "$pipe" &
sed -n 1,10p "$root/examples/guide-4.4.1/script" > input
mapfile -t first < <(head -n 10 "$root/examples/guide-4.4.1/expected")
answers "a body through a pipe" "${first[@]}"
wait

echo "$cases cases: as expected"

# The same filings under valgrind, with files, and the largest of the inputs above.
cp "$body" "$pipe.csv"
rm "$pipe"
mv "$pipe.csv" "$pipe"
valgrind --error-exitcode=1 --leak-check=full -q "$program" < input > output
cmp output <(printf '%s\n' "${first[@]}")
head -c 1000000 /dev/zero | tr '\0' x > input
valgrind --error-exitcode=1 --leak-check=full -q "$program" < input > output
cmp output <(printf '1,no,11,0\n')
echo "the program is clean under valgrind"
