#!/usr/bin/env bash
# The C programs over the static library, compiled with every warning an error: the example, its output compared with the stored one, then
# run under valgrind; and the longest name and body, which must have the lengths that the header gives.
set -euo pipefail
cd "$(dirname "${BASH_SOURCE[0]}")/.."
for tool in rt cc valgrind; do
    if ! command -v "$tool" > /dev/null; then
        echo "The C example needs '$tool', which is not on the PATH." >&2
        exit 1
    fi
done
source tests/static_library.bash
folder=$(mktemp -d)
trap 'rm -rf "$folder"' EXIT
cc -std=c11 -Wall -Wextra -Werror -I c c/example.c "$library" -o "$folder/example"
"$folder/example" > "$folder/stdout"
diff c/example.stdout "$folder/stdout"
valgrind --error-exitcode=1 --leak-check=full -q "$folder/example" > /dev/null
cc -std=c11 -Wall -Wextra -Werror -I c c/longest.c "$library" -o "$folder/longest"
"$folder/longest"
echo "the C example prints what it must, and is clean under valgrind"
