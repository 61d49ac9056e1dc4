#!/usr/bin/env bash
# ./run and its program, in a root of their own: programs that end early, which are a few words of bash here, and when the program is
# built.
set -euo pipefail
cd "$(dirname "${BASH_SOURCE[0]}")/.."
source tests/run_cases.bash
printf 'C,13120\nF,x,n\nF,x,file\n' | folder good
body good 2
printf 'C,13120\nF,x,file\nF,x,file\n' | folder plain

mkdir -p root/tests root/crates/one root/crates/register_script/out root/c root/target/bin tools
cp "$root/run" root
cp "$root/tests/script_program.bash" root/tests
touch root/crates.txt root/crates/one/file root/c/register_script.c
touch -d '1 hour ago' root/crates.txt root/crates root/crates/* root/crates/one/file root/c/register_script.c
program=root/target/bin/register_script
stand_in() { # WORDS
    printf '#!/usr/bin/env bash\n%s\n' "$1" > "$program"
    chmod +x "$program"
}
for status in 0 1 2; do
    stand_in "exit $status"
    ends "ends at once with $status" $((status == 0 ? 1 : status)) root/run folders/good < /dev/null
    stand_in "read -r line; echo 1,ok; exit $status"
    ends "ends with $status after one answer" $((status == 0 ? 1 : status)) root/run folders/good <<< 1,ok
    stand_in "read -r line; echo 1,ok; read -r line; printf 2,o; exit $status"
    ends "ends with $status in an answer" $((status == 0 ? 1 : status)) root/run folders/good < <(printf '1,ok\n2,o')
    stand_in "read -r line; printf '1,ok\n2,ok\n3,o'; exit $status"
    ends "ends with $status, three answers at once" $((status == 0 ? 1 : status)) root/run folders/good < <(printf '1,ok\n2,ok\n3,o')
    stand_in "while read -r line; do echo \$line; done; exit $status"
    ends "ends with $status after all answers" "$status" root/run folders/good <<< $'C,13120\nF,x,n\nF,x,file'
    ends "ends with $status after all answers, no bodies" "$status" root/run folders/plain <<< $'C,13120\nF,x,file\nF,x,file'
done
stand_in 'read -r line; echo 1,ok; kill -9 $$'
ends "is ended by a signal" 137 root/run folders/good <<< 1,ok

# ---- When the program is built. The tools are stand-ins that say how they are called. ----

IFS=: read -r -a places <<< "$PATH"
for place in "${places[@]}"; do ln -s "$place"/* tools 2> /dev/null || true; done
rm -f tools/rt tools/cc
mkdir kit kit/bin
printf '#!/usr/bin/env bash\necho "$PWD: rt $*" >> "%s/calls"\nexit "${RT_STATUS:-0}"\n' "$work" > kit/bin/rt
printf '#!/usr/bin/env bash\necho "cc $*" >> "%s/calls"\nprintf "#!/usr/bin/env bash\\necho built\\n" > "${@: -1}"\nchmod +x "${@: -1}"\n' \
    "$work" > kit/bin/cc
chmod +x kit/bin/rt kit/bin/cc
with_tools() { env PATH="$work/tools" "$@"; }
built() { # TITLE: rt and cc were called, and what cc made answers
    : > calls
    ends "$1" 0 with_tools root/run folders/plain <<< built
    {
        echo "$work/root/crates/register_script: rt run"
        echo "cc -std=c11 -O2 -Wall -Wextra -Werror -Wl,--wrap=main,--wrap=open c/register_script.c" \
            "crates/register_script/out/register_script.o $work/kit/bin/../c/libos_c.a $work/kit/bin/../c/liblibc_c.a" \
            "-o $work/root/target/bin/register_script"
    } > expected
    if ! cmp calls expected; then fail "$1" "other calls than expected"; fi
}
ends "a program that is new needs no tool" 137 with_tools root/run folders/good <<< 1,ok
for missing in rt cc; do
    ln -sf "$work/kit/bin/rt" "$work/kit/bin/cc" tools
    rm "tools/$missing"
    touch -d "1 hour" root/crates.txt
    ends "$missing is missing" 1 with_tools root/run folders/plain < /dev/null
    echo "The script program is built with rt and cc: the command '$missing' is not on the PATH." > expected
    if ! cmp errors expected; then fail "$missing is missing" "another sentence"; fi
done
ln -sf "$work/kit/bin/rt" "$work/kit/bin/cc" tools
ends "what can't be built" 1 env RT_STATUS=2 PATH="$work/tools" root/run folders/plain < /dev/null
for source in crates.txt crates/one/file c/register_script.c; do
    touch -d '1 hour' "root/$source"
    built "$source is newer"
    touch -d '1 hour ago' "root/$source"
done
touch root/crates/register_script/out/made
touch -d '1 hour' root/crates/register_script/out/made
: > calls
ends "what rt made is newer" 0 with_tools root/run folders/plain <<< built
if [[ -s calls ]]; then fail "what rt made is newer" "something was built"; fi
touch -d '1 hour' root/crates.txt
ends "built with no standard error" 0 with_tools bash -c 'exec root/run folders/plain 2>&-' <<< built
rm -r root/target
ends "a wrong use builds nothing" 2 with_tools root/run --help < /dev/null
built "a program that is missing"

all_as_expected
