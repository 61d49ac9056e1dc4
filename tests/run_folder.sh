#!/usr/bin/env bash
# ./run at the edge: where bodies are laid, wrong uses, calls by a link, and answers that can't be written. Output is compared byte by byte,
# and nothing may be written outside.
set -euo pipefail
cd "$(dirname "${BASH_SOURCE[0]}")/.."
source tests/script_program.bash
source tests/run_cases.bash
mkdir -p links/deep

# All that there is around the folder in which ./run works, with its bytes; and /6, where a body for line 6 would come to be.
around() {
    find "$work/outer" "$work/folders" "$work/links" -printf '%p %y %s\n' -type f -exec cksum {} \; | sort
    stat -c '%n %z' /6 2> /dev/null || true
}

# ---- Where a body is laid: 1 says that the file is there and its name wrong, 11 that there is none. ----

long=$(printf '%0255d' 0)
names=(plain -n 'with blank' ../laid ../../laid /.. ../.. . .. '' sub/laid "$work/outer/laid" "$long" "${long}0" $'\377' a,b)
printf 'F,x,%s\n' "${names[@]}" | folder names
for number in $(seq "${#names[@]}"); do body names "$number"; done
printf 'F,x,nul\0name\nC,13120\nF,x,13120\nF,x,nulname' >> folders/names/script
body names 17
body names 18
around > before
ends "bodies" 0 "$root/run" folders/names <<< "1,no,1,0
2,no,1,0
3,no,1,0
4,no,11,0
5,no,11,0
6,no,11,0
7,no,11,0
8,no,11,0
9,no,11,0
10,no,11,0
11,no,11,0
12,no,11,0
13,no,1,0
14,no,11,0
15,no,1,0
16,no,11,0
17,no,11,0
18,ok,1
19,no,11,0
20,no,11,0"
if ! cmp before <(around); then fail "bodies" "something was written outside"; fi

printf 'F,x,n\nF,x,n\nF,x,n\n' | folder again
body again 1
body again 3
chmod 444 folders/again/bodies/*
ends "a name twice, read-only bodies" 0 "$root/run" folders/again <<< $'1,no,1,0\n2,no,1,0\n3,no,1,0'
printf 'F,x,file\nF,x,script\nF,x,expected\n' | folder files
printf 'x\n' | tee folders/files/file > folders/files/expected
ends "the folder's other files" 0 "$root/run" folders/files <<< $'1,no,1,0\n2,no,11,0\n3,no,11,0'
printf 'C,131\00020\n\000\n\n\377\nF,x,\000dev\000null\nC,13120' > input
for kind in plain bodies; do
    folder "bytes_$kind" < input
    if [[ $kind == bodies ]]; then body bytes_bodies 9; fi
    ends "NUL, an empty line, no last LF, $kind" 0 "$root/run" "folders/bytes_$kind" \
        <<< $'1,no,9,0\n2,no,11,0\n3,no,11,0\n4,no,11,0\n5,no,11,0\n6,ok,1'
    folder "empty_$kind" < /dev/null
    if [[ $kind == bodies ]]; then body empty_bodies 1; fi
    ends "an empty script, $kind" 0 "$root/run" "folders/empty_$kind" < /dev/null
done

# ---- Wrong uses, and calls by a link or with CDPATH: the same everywhere. ----

ln -s "$root/run" links/absolute
ln -s ../absolute links/deep/relative
ln -s deep/relative links/twice
mkdir -p elsewhere/folders/good folders/none folders/directory/script
printf 'Z\n' > elsewhere/folders/good/script
printf 'C,13120\nF,x,n\nF,x,file\n' | folder good
printf 'x\n' > folders/good/file
body good 2
ln -s folders/good linked
cp -r folders/good ./-n
cp -r folders/good ./--help
sentence="./run FOLDER answers the script in the file FOLDER/script, a line for each line, as in ./run examples/winter."

wrong() { # TITLE COMMAND...
    local title=$1
    shift
    ends "$title" 2 "$@" < /dev/null
    if ! cmp errors <(echo "$sentence"); then fail "$title" "another sentence"; fi
}

for call in "$root/run" "$work/links/absolute" links/deep/relative links/twice "bash $root/run" "env CDPATH=$work/elsewhere $root/run" \
    "env CDPATH=$work/elsewhere:. links/twice"; do
    wrong "no argument: $call" $call
    wrong "two arguments: $call" $call folders/good folders/good
    wrong "--help: $call" $call --help
    wrong "an empty argument: $call" $call ""
    wrong "no such folder: $call" $call folders/nowhere
    wrong "a file: $call" $call folders/good/script
    wrong "no script: $call" $call folders/none
    wrong "a script that is a folder: $call" $call folders/directory
    for place in folders/good "$work/folders/good/" linked -n; do
        ends "$place: $call" 0 $call "$place" <<< $'1,ok,1\n2,no,1,0\n3,no,1,0'
    done
done
(cd links/deep && "$root/tests/../run" ../../folders/good) | cmp - <(printf '1,ok,1\n2,no,1,0\n3,no,1,0\n')
cases=$((cases + 1))

# ---- Answers that can't be written: the status is 1. ----

mkfifo closed full
exec 7<> closed 8> closed 7<&-
lost() { # TITLE COMMAND, whose own output is the one that can't be written
    local found=0
    eval "$2" < /dev/null 2> errors || found=$?
    if [[ $found -ne 1 ]]; then fail "$1" "status $found and not 1"; fi
    cases=$((cases + 1))
}
printf 'C,13120\nF,x,file\nF,x,file\n' | folder plain
printf 'x\n' > folders/plain/file
for name in good plain; do
    lost "a full disk, $name" "'$root/run' folders/$name > /dev/full"
    head -c 1024 /dev/zero > limit
    lost "a file at its limit, $name" "(ulimit -f 1 && '$root/run' folders/$name >> limit)"
    lost "a pipe that nobody reads, $name" "'$root/run' folders/$name >&8"
    lost "a closed output, $name" "'$root/run' folders/$name >&-"
    if ! cmp errors <(echo "./run can't write answers: its standard output is closed."); then fail "a closed output" "another sentence"; fi
    lost "an output that is open for reading, $name" "'$root/run' folders/$name 1< input"
done
exec 8>&-

# A full pipe that doesn't wait and is read only later: the status is 1, or all answers are there.
for name in good plain; do
    exec 7<> full 8< full 9> full 7<&-
    dd if=/dev/zero bs=4096 count=10000 oflag=nonblock status=none >&9 2> errors || true
    { sleep 0.2 && cat <&8 > drained; } 9>&- &
    found=0
    "$root/run" "folders/$name" >&9 8<&- 2> errors < /dev/null || found=$?
    exec 8<&- 9>&-
    wait
    tr -d '\000' < drained > output
    if [[ $found -ne 1 ]] && { [[ $found -ne 0 ]] || ! cmp output <(printf '1,ok,1\n2,no,1,0\n3,no,1,0\n'); }; then
        fail "a full pipe that doesn't wait, $name" "status $found, and answers are missing"
    fi
    cases=$((cases + 1))
done

printf '1,ok,1\n2,no,1,0\n3,no,1,0\n' > expected
if ! "$root/run" folders/plain 2>&- <&- | cmp - expected; then fail "no input and no errors" "other answers than expected"; fi
cases=$((cases + 1))

all_as_expected
