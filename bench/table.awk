# Of the lines 'WHO WHAT ENTRIES VERSIONS OPERATIONS SUM NANOSECONDS' makes the table: the best time of each, in nanoseconds an operation,
# and how many times as long as each keeper's each other side takes. Where a side's reads or saves answer otherwise than the store's, it is
# told.

function key(who, what, entries, versions) {
    return who SUBSEP what SUBSEP entries SUBSEP versions
}

NF == 7 {
    what = $2 SUBSEP $3 SUBSEP $4
    if (!(what in seen)) {
        seen[what] = 1
        order[++workloads] = what
    }
    k = $1 SUBSEP what
    each = $7 / $5
    if (!(k in best) || each < best[k])
        best[k] = each
    # Not of collects, whose number depends on the time, and not of a database's saves, which answer nothing.
    if ($2 ~ /^read/ || ($2 ~ /^save/ && $1 ~ /^(store|rust)-/)) {
        if (k in average && average[k] != $6 / $5)
            uneven[k] = 1
        average[k] = $6 / $5
    }
}

function shown(who, what) {
    k = who SUBSEP what
    if (!(k in best))
        return sprintf("%10s", "-")
    return sprintf("%10.1f", best[k])
}

# How many times as long another takes as one of the store's keepers.
function ratio(keeper, who, what) {
    a = keeper SUBSEP what
    b = who SUBSEP what
    if (!(a in best) || !(b in best))
        return sprintf("%8s", "-")
    return sprintf("%8.2f", best[b] / best[a])
}

function name(what) {
    split(what, part, SUBSEP)
    return sprintf("%-13s%8d%9d", part[1], part[2], part[3])
}

function rule(n) {
    line = ""
    while (n-- > 0)
        line = line "-"
    return line
}

END {
    if (workloads == 0) {
        print "bench: nothing was measured"
        exit 1
    }
    print ""
    print "Nanoseconds an operation, the best of all rounds."
    print ""
    printf "%-13s%8s%9s%10s%10s%10s%10s%10s%10s%10s\n", "", "", "", "store", "store", "rust", "rust", "", "", "lmdb"
    printf "%-13s%8s%9s%10s%10s%10s%10s%10s%10s%10s\n", "workload", "entries", "versions", "linked", "roll", "linked", "roll", "leveldb", "lmdb", "writemap"
    print rule(100)
    for (i = 1; i <= workloads; i++) {
        w = order[i]
        print name(w) shown("store-linked", w) shown("store-roll", w) shown("rust-linked", w) shown("rust-roll", w) shown("leveldb", w) shown("lmdb", w) shown("lmdb-map", w)
    }
    print ""
    print "How many times as long the others take: the plain Rust over the same keeper, each database over the linked and over the roll keeper."
    print ""
    printf "%-13s%8s%9s%8s%8s%10s%8s%10s%8s%10s%8s\n", "", "", "", "rust", "rust", "leveldb/", "", "lmdb/", "", "map/", ""
    printf "%-13s%8s%9s%8s%8s%10s%8s%10s%8s%10s%8s\n", "workload", "entries", "versions", "linked", "roll", "linked", "roll", "linked", "roll", "linked", "roll"
    print rule(108)
    for (i = 1; i <= workloads; i++) {
        w = order[i]
        line = name(w) ratio("store-linked", "rust-linked", w) ratio("store-roll", "rust-roll", w)
        line = line "  " ratio("store-linked", "leveldb", w) ratio("store-roll", "leveldb", w)
        line = line "  " ratio("store-linked", "lmdb", w) ratio("store-roll", "lmdb", w)
        line = line "  " ratio("store-linked", "lmdb-map", w) ratio("store-roll", "lmdb-map", w)
        print line
    }
    for (k in average) {
        split(k, part, SUBSEP)
        own = key("store-linked", part[2], part[3], part[4])
        if (k in uneven || (own in average && average[own] != average[k]))
            print "bench: " part[1] " answers otherwise than the store, in " part[2] " of " part[3] " entries and " part[4] " versions"
    }
}
