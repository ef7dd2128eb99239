#!/bin/sh
# Builds every side of the comparison that this machine can build, into out/. Nothing is installed.
cd "$(dirname "$0")" || exit 1
mkdir -p out
rm -f out/store out/plain out/leveldb out/lmdb

missing() {
    echo "bench: $1; goes on without it"
}

has() {
    command -v "$1" >/dev/null 2>&1
}

# Whether a C or C++ compiler finds a header.
header() {
    echo "#include <$2>" | "$1" -E -x "$3" - >/dev/null 2>&1
}

if has rt; then
    echo "bench: proves and builds the store's side"
    if (cd ../crates/bench_store && rt run) >/dev/null 2>out/store.log; then
        cp ../crates/bench_store/out/bench_store out/store
    else
        missing "the store's side is not built (bench/out/store.log says why)"
    fi
else
    missing "rt is missing, so there is no store"
fi

if has rustc; then
    echo "bench: builds the plain Rust"
    # Unused code is no warning: the plain store has all eleven calls and their refusals, and no workload drops an edit or ends a proof.
    rustc --edition 2021 -C opt-level=3 -C codegen-units=1 -C target-cpu=x86-64-v2 -A dead_code -o out/plain plain/main.rs ||
        missing "the plain Rust is not built"
else
    missing "rustc is missing, so there is no plain Rust"
fi

if ! has c++; then
    missing "c++ is missing, so there is no LevelDB"
elif header c++ leveldb/db.h c++; then
    echo "bench: builds the side of LevelDB"
    c++ -std=c++17 -O2 -Wall -Wextra -o out/leveldb leveldb/main.cc -lleveldb ||
        missing "the side of LevelDB is not built"
else
    missing "the headers of LevelDB are missing (Debian has them as libleveldb-dev)"
fi

if ! has cc; then
    missing "cc is missing, so there is no LMDB"
elif header cc lmdb.h c; then
    echo "bench: builds the side of LMDB"
    cc -std=c11 -D_GNU_SOURCE -O2 -Wall -Wextra -o out/lmdb lmdb/main.c -llmdb ||
        missing "the side of LMDB is not built"
else
    missing "the header of LMDB is missing (Debian has it in liblmdb-dev)"
fi
exit 0
