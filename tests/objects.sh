#!/usr/bin/env bash
# The object of a request over the compiled library: tests/objects.c has the objects and what each must come to.
set -euo pipefail
cd "$(dirname "${BASH_SOURCE[0]}")/.."
for tool in rt cc; do
    if ! command -v "$tool" > /dev/null; then
        echo "The test of objects needs '$tool', which is not on the PATH." >&2
        exit 1
    fi
done
source tests/static_library.bash
folder=$(mktemp -d)
trap 'rm -rf "$folder"' EXIT
cc -std=c11 -O1 -Wall -Wextra -Werror -I c tests/objects.c "$library" -o "$folder/objects"
"$folder/objects"
