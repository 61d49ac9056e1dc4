#!/usr/bin/env bash
# Every open function asks nothing of its caller and says what comes of it: no `requires`, and an `ensures`. The theorems show it of the
# register's calls and of the file's reader and writer; here it is read off the source of every crate but the register's inside (tables,
# judging, recording), what the readers and the writers of file and object share, and the programs.
set -euo pipefail
cd "$(dirname "${BASH_SOURCE[0]}")/.."

sources=()
for source in crates/*/src/*.rt; do
    case $source in
        crates/tables/* | crates/judging/* | crates/recording/*) ;;
        crates/reader/src/tally.rt | crates/reader/src/marks.rt | crates/request/src/labels.rt) ;;
        crates/writer/src/placing.rt | crates/writer/src/step_line.rt) ;;
        *) if [[ ! -e ${source%/*}/main.rt ]]; then sources+=("$source"); fi ;;
    esac
done

awk '
    /^ *pub (extern "C" )?fn / { open = 1; asks = 0; ensures = 0; place = FILENAME ":" FNR; line = $0 }
    open && /(^| )requires\*?( [a-z0-9_]+)? \{/ { asks = 1 }
    open && /(^| )ensures\*?( [a-z0-9_]+)? \{/ { ensures = 1 }
    open && (/^ *\{$/ || (!asks && !ensures && /\{$/)) {
        count++
        if (asks || !ensures) { print place ":" line; bad++ }
        open = 0
    }
    END {
        print count " open functions, " bad + 0 " with a requires or without an ensures"
        exit bad > 0 || count == 0
    }
' "${sources[@]}"
