#!/bin/sh
# Runs every side that is built, one after the other and all on one core, and prints the table of what they took. TURNS says how often (3
# where it is not set): each line of the table is the best of all turns. CORE says which core, by its number.
cd "$(dirname "$0")" || exit 1
turns=${TURNS:-3}
lines=out/lines

# The databases stand in memory, where the machine has a folder that does.
if [ -d /dev/shm ] && [ -w /dev/shm ]; then
    base=/dev/shm
else
    base=${TMPDIR:-/tmp}
    echo "bench: no /dev/shm, so the databases stand in $base"
fi
folder=$(mktemp -d "$base/nalzeiku-bench.XXXXXX") || exit 1
trap 'rm -rf "$folder"' EXIT
trap 'exit 1' HUP INT TERM
mkdir "$folder/leveldb" "$folder/lmdb"

if command -v taskset >/dev/null 2>&1; then
    core=${CORE:-$(($(nproc 2>/dev/null || echo 1) - 1))}
    pin="taskset -c $core"
    echo "bench: every program runs on core $core"
else
    pin=
    echo "bench: taskset is missing, so the programs run where they like"
fi

once() {
    program=out/$1
    shift
    [ -x "$program" ] || return 0
    $pin "$program" "$@" >>"$lines" || echo "bench: $program failed"
}

: >"$lines"
turn=1
while [ "$turn" -le "$turns" ]; do
    echo "bench: turn $turn of $turns, load $(cut -d' ' -f1-3 /proc/loadavg 2>/dev/null)"
    once store workloads
    once plain
    once leveldb "$folder/leveldb"
    once lmdb "$folder/lmdb"
    turn=$((turn + 1))
done
awk -f table.awk "$lines"
