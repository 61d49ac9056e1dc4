#!/usr/bin/env bash
# The gate with a tool missing: one sentence names it, and no proof is begun. The gate runs with a PATH of links to all commands and with a
# stand-in for rt that notes each call and fails, so that it never comes past `rt ci`.
set -euo pipefail
cd "$(dirname "${BASH_SOURCE[0]}")/.."
work=$(mktemp -d)
trap 'rm -rf "$work"' EXIT
tools=$work/tools
mkdir "$tools"
IFS=: read -r -a places <<< "$PATH"
for place in "${places[@]}"; do
    ln -s "$place"/* "$tools" 2> /dev/null || true # the first of a name is the one that is found
done
rm -f "$tools/rt"
printf '#!/usr/bin/env bash\necho "rt $*" >> "%s/begun"\nexit 1\n' "$work" > "$tools/rt"
chmod +x "$tools/rt"
cases=0

# Runs the gate: its status must be 1, and its output, its errors and the calls of rt the texts given.
gate() { # TITLE OUTPUT ERRORS CALLS
    local found=0
    : > "$work/begun"
    env PATH="$tools" .ci/run > "$work/output" 2> "$work/errors" < /dev/null || found=$?
    if [[ $found -ne 1 ]] || ! cmp "$work/output" <(printf "$2") || ! cmp "$work/errors" <(printf "$3") \
        || ! cmp "$work/begun" <(printf "$4"); then
        echo "$1: not as expected, status $found" >&2
        cat "$work/output" "$work/errors" "$work/begun" >&2
        exit 1
    fi
    cases=$((cases + 1))
}

needed=(rt cargo cc valgrind awk cmp diff find grep sed)
gate "nothing is missing" '0 passed, 1 failed\n' 'failed: rt ci\n' 'rt ci\n'
for tool in "${needed[@]}"; do
    mv "$tools/$tool" "$work/away"
    gate "$tool is missing" '' "The gate needs commands that are not on the PATH: $tool.\n" ''
    mv "$work/away" "$tools/$tool"
done
rm "${needed[@]/#/$tools/}"
gate "all are missing" '' "The gate needs commands that are not on the PATH: ${needed[*]}.\n" ''
echo "$cases cases of missing tools: as expected"
