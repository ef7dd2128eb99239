#!/bin/sh
# Tries the misuses, crates/NAME/misuses/*.edit, on a copy of what is committed: the compiler has to refuse each, and the first thing that
# it says must be the line `says:` of the misuse. There they stand in the place of the must-fail edits, and `rt must-fail` calls each a BAD EDIT.
set -eu
cd "$(dirname "$0")/.."
copy=$(mktemp -d)
trap 'rm -rf "$copy"' EXIT
git clone -q . "$copy/repo"
cd "$copy/repo"
for folder in crates/*/misuses; do
    crate=$(basename "$(dirname "$folder")")
    rm -rf "crates/$crate/must-fail"
    mkdir "crates/$crate/must-fail"
    for misuse in "$folder"/*.edit; do
        grep -v '^says: ' "$misuse" > "crates/$crate/must-fail/$(basename "$misuse")"
    done
    rt must-fail "$crate" > "$copy/log" 2>&1 || true
    for misuse in "$folder"/*.edit; do
        name=$(basename "$misuse")
        if ! grep -A 1 "$crate/$name: BAD EDIT" "$copy/log" | grep -qF "$(sed -n 's/^says: //p' "$misuse")"; then
            echo "not refused as it says: $crate/$name"
            exit 1
        fi
        echo "refused: $crate/$name"
    done
done
