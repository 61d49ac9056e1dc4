# To be sourced from the repository's root: writes the static library register_c, unless it is newer than every crate's files. What rt keeps
# in a crate's out/ is none of these.
library=target/staticlib/libregister_c.a
if [[ ! -e $library || -n $(find crates.txt crates/*/* -name out -prune -o -newer "$library" -print -quit) ]]; then
    (cd crates/register_c && rt lib) || exit 1
    mkdir -p target/staticlib
    cp crates/register_c/out/libregister_c.a "$library"
fi
