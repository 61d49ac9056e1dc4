#!/usr/bin/env bash
# Every must-fail edit was refused for what it says. A refusal shows nothing where the edit can't be applied or read, where it names what its
# file doesn't import, where all that fails is a proof that names what the edit took away, or where the prover met a bound of its own:
# `rt must-fail` says so of none. It tells what `rt ci` and earlier runs of it found, and tries the edits that nobody tried.
set -euo pipefail
cd "$(dirname "${BASH_SOURCE[0]}")/.."

said=$(mktemp)
trap 'rm -f "$said"' EXIT
status=0
rt must-fail < /dev/null > "$said" 2>&1 || status=$?

edits=0 wrong=0
for edit in crates/*/must-fail/*.edit; do
    name=${edit#crates/}
    name=${name/must-fail\//}
    edits=$((edits + 1))
    line=$(awk -v start="rt: must-fail $name: " 'index($0, start) == 1' "$said")
    case $line in
        *"is not in scope"* | *"can be named from here"* | *"met a bound of its own"*) ;;
        "rt: must-fail $name: refused, as it must be: "*) continue ;;
    esac
    echo "$edit was not refused for the mistake: ${line:-nothing is said of it}" >&2
    wrong=$((wrong + 1))
done
if [[ $status -ne 0 ]]; then tail -n 20 "$said" >&2; fi
echo "$edits must-fail edits, $wrong not refused for the mistake"
[[ $edits -gt 0 && $wrong -eq 0 && $status -eq 0 ]]
