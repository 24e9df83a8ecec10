# What the scripts here share, which source it in the repository's folder: the program `bench`, the one that BENCH names or else the
# crate's, proved and built anew if it changed.
work=target/measure
mkdir -p "$work"
if [ -z "${BENCH:-}" ]; then
    compare/built bench
    BENCH=crates/bench/out/bench
fi
