# To be sourced from the repository's root: builds the script program, unless it is newer than every crate's files and its C file.
script_program=$PWD/target/bin/register_script
if [[ ! -x $script_program
    || -n $(find crates.txt crates c/register_script.c -name out -prune -o -newer "$script_program" -print -quit) ]]; then
    for tool in rt cc; do
        if ! command -v "$tool" > /dev/null; then
            echo "The script program is built with rt and cc: the command '$tool' is not on the PATH." >&2
            exit 1
        fi
    done
    # It also runs what it built, which has nothing to read.
    (cd crates/register_script && rt run) < /dev/null >&2 || exit 1
    kit=$(dirname "$(readlink -f "$(command -v rt)")")/../c
    mkdir -p target/bin
    cc -std=c11 -O2 -Wall -Wextra -Werror -Wl,--wrap=main,--wrap=open c/register_script.c crates/register_script/out/register_script.o \
        "$kit/libos_c.a" "$kit/liblibc_c.a" -o "$script_program" >&2 || exit 1
fi
