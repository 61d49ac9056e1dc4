# To be sourced from the repository's root by the tests of ./run: a temporary folder to work in, the folders that ./run is given, and how a
# case is compared.
root=$PWD
work=$(readlink -f "$(mktemp -d)")
trap 'rm -rf "$work"' EXIT
mkdir -p "$work/outer/inner/tmp" "$work/folders"
export TMPDIR=$work/outer/inner/tmp
cd "$work"
cases=0

fail() { # TITLE WORDS
    echo "$1: $2" >&2
    head -c 1000 output errors >&2
    exit 1
}

# Runs a command, whose status must be the one given, and whose output the lines given on standard input.
ends() { # TITLE STATUS COMMAND...
    local title=$1 status=$2 found=0
    shift 2
    cat > expected
    "$@" > output 2> errors < /dev/null || found=$?
    if [[ $found -ne $status ]]; then fail "$title" "status $found and not $status"; fi
    if ! cmp output expected; then fail "$title" "other answers than expected"; fi
    cases=$((cases + 1))
}

# A folder of this name with the script given on standard input.
folder() { # NAME
    mkdir -p "folders/$1"
    cat > "folders/$1/script"
}

# A body for a line of a folder.
body() { # NAME LINE
    mkdir -p "folders/$1/bodies"
    printf 'a body\n' > "folders/$1/bodies/$2"
}

# Nothing may be left where ./run works; then the count of cases is printed.
all_as_expected() {
    if [[ -n $(find "$TMPDIR" -mindepth 1 -print -quit) ]]; then fail "all" "a temporary folder is left"; fi
    echo "$cases cases of ./run: as expected"
}
