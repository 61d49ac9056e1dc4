#!/usr/bin/env bash
# docs/READING.md, "What must be believed", speaks of every file of definitions, once: docs/count finds those of its table, and each other
# file in a crate's specs/ is among those that the text below the table calls internal, by its name or by its crate's. No count is asserted.
set -euo pipefail
cd "$(dirname "${BASH_SOURCE[0]}")/.."

counts=$(docs/count)
echo "$counts"

# The names between backquotes, from "The definitions of" to "say what internal functions do".
text=$(awk '/^The definitions of `/ { inside = 1 } inside { print } /say what internal functions do/ { exit }' docs/READING.md)
text=${text%%say what internal functions do*}
internal=" "
while [[ $text =~ \`([^\`]+)\` ]]; do
    name=${BASH_REMATCH[1]}
    text=${text#*"\`$name\`"}
    if [[ ! -f crates/$name && ! -d crates/$name/specs ]]; then
        echo "docs/READING.md calls $name internal, which is not there." >&2
        exit 1
    fi
    internal+="$name "
done

files=0 wrong=0
for file in crates/*/specs/*.antt; do
    name=${file#crates/}
    crate=${name%%/*}
    named=0
    if [[ $counts == *" $file "* || ($file == */Lib.antt && $counts == *" crates/$crate/specs/"*) ]]; then named=$((named + 1)); fi
    if [[ $internal == *" $crate "* || $internal == *" $name "* ]]; then named=$((named + 1)); fi
    if [[ $named -ne 1 ]]; then
        echo "docs/READING.md must name $file once, in the table or as internal; it does so $named times." >&2
        wrong=$((wrong + 1))
    fi
    files=$((files + 1))
done
echo "$files files of definitions, $wrong left out or named twice"
[[ $files -gt 0 && $wrong -eq 0 ]]
