#!/usr/bin/env bash
# The proved register held against the peer, an implementation in Rust that was written apart from it: random lists of calls, every
# answer and every state compared, and the test of the test, in which faulty copies of the peer must be told apart. Then a few lists
# again under valgrind, and the examples in the Rust package's documentation. LISTS and SEED choose other lists.
set -euo pipefail
cd "$(dirname "${BASH_SOURCE[0]}")/.."
for tool in rt cargo valgrind; do
    if ! command -v "$tool" > /dev/null; then
        echo "The differential test needs '$tool', which is not on the PATH." >&2
        exit 1
    fi
done
source tests/static_library.bash
cargo() {
    command cargo "$@" --offline --quiet --profile differential --manifest-path rust/Cargo.toml
}
cargo test --package peer --package register
cargo build --package differential
program=rust/target/differential/differential
"$program"
LISTS=40 valgrind --error-exitcode=1 --leak-check=full -q "$program" > /dev/null
echo "40 lists under valgrind: clean"
