// The reads in a read transaction and the saves of crates/bench_store, over LMDB. The folder, which is there, is the first argument.
//
// An entry is a key of two bytes, a card the three bytes of its packed form: its map, and its advance. What a proof is there is a read
// transaction that stays open here, and a save is a write transaction with one put and its commit, which waits for no disk. Saves are
// timed a second time with the memory map written to directly, which spares LMDB a system call for each page.
#include <stdint.h>
#include <stdio.h>
#include <stdlib.h>
#include <time.h>

#include <lmdb.h>

enum { ROUNDS = 40, LOOKS = 64, WISHES = 128 };
static const uint64_t LEAST = 5000000;

struct round {
    uint64_t nanos, operations, sum;
};

struct wish {
    uint16_t entry;
    int16_t advance;
};

static void check(int status) {
    if (status != 0) {
        fprintf(stderr, "lmdb: %s\n", mdb_strerror(status));
        exit(1);
    }
}

static uint64_t now(void) {
    struct timespec t;
    clock_gettime(CLOCK_MONOTONIC, &t);
    return (uint64_t)t.tv_sec * 1000000000u + (uint64_t)t.tv_nsec;
}

static void tell(const char *who, const char *what, int entries, int versions, struct round best) {
    printf("%s %s %d %d %llu %llu %llu\n", who, what, entries, versions,
           (unsigned long long)best.operations, (unsigned long long)best.sum,
           (unsigned long long)best.nanos);
    fflush(stdout);
}

static void remove_files(const char *folder) {
    char name[4096];
    snprintf(name, sizeof name, "%s/data.mdb", folder);
    remove(name);
    snprintf(name, sizeof name, "%s/lock.mdb", folder);
    remove(name);
}

static MDB_env *opened(const char *folder, unsigned flags, MDB_dbi *dbi) {
    MDB_env *env;
    MDB_txn *txn;
    remove_files(folder);
    check(mdb_env_create(&env));
    check(mdb_env_set_mapsize(env, (size_t)256 << 20));
    check(mdb_env_open(env, folder, MDB_NOSYNC | MDB_NOTLS | flags, 0600));
    check(mdb_txn_begin(env, NULL, 0, &txn));
    check(mdb_dbi_open(txn, NULL, 0, dbi));
    check(mdb_txn_commit(txn));
    return env;
}

static MDB_val key_of(uint16_t entry, unsigned char key[2]) {
    key[0] = (unsigned char)(entry >> 8);
    key[1] = (unsigned char)entry;
    return (MDB_val){.mv_size = 2, .mv_data = key};
}

static void save(MDB_env *env, MDB_dbi dbi, struct wish wish) {
    unsigned char key[2];
    unsigned char card[3] = {1, (unsigned char)(wish.advance >> 8), (unsigned char)wish.advance};
    MDB_val k = key_of(wish.entry, key);
    MDB_val v = {.mv_size = 3, .mv_data = card};
    MDB_txn *txn;
    check(mdb_txn_begin(env, NULL, 0, &txn));
    check(mdb_put(txn, dbi, &k, &v, 0));
    check(mdb_txn_commit(txn));
}

static void save_some(MDB_env *env, MDB_dbi dbi, int entry, int first, int versions) {
    for (int number = first; number < first + versions; number++) {
        save(env, dbi, (struct wish){(uint16_t)entry, (int16_t)(number % 1001)});
    }
}

// A database with a version of each entry.
static MDB_env *filled(const char *folder, unsigned flags, int entries, MDB_dbi *dbi) {
    MDB_env *env = opened(folder, flags, dbi);
    for (int entry = 0; entry < entries; entry++) {
        save_some(env, *dbi, entry, 1, 1);
    }
    return env;
}

static struct round read_all(MDB_txn *txn, MDB_dbi dbi, const uint16_t *looks, uint64_t passes) {
    struct round round = {0, passes * LOOKS, 0};
    const uint64_t start = now();
    for (uint64_t pass = 0; pass < passes; pass++) {
        for (int at = 0; at < LOOKS; at++) {
            unsigned char key[2];
            MDB_val k = key_of(looks[at], key);
            MDB_val v;
            check(mdb_get(txn, dbi, &k, &v));
            const unsigned char *card = v.mv_data;
            round.sum += (uint64_t)card[1] << 8 | card[2];
        }
    }
    round.nanos = now() - start;
    return round;
}

static struct round better(struct round a, struct round b) {
    return (double)b.nanos * (double)a.operations < (double)a.nanos * (double)b.operations ? b : a;
}

static struct round best_reads(MDB_txn *txn, MDB_dbi dbi, int entry) {
    uint16_t looks[LOOKS];
    for (int at = 0; at < LOOKS; at++) {
        looks[at] = (uint16_t)entry;
    }
    uint64_t passes = 1;
    struct round best = read_all(txn, dbi, looks, passes);
    while (best.nanos < LEAST) {
        passes *= 2;
        best = read_all(txn, dbi, looks, passes);
    }
    for (int round = 1; round < ROUNDS; round++) {
        best = better(best, read_all(txn, dbi, looks, passes));
    }
    return best;
}

static void reading(const char *folder, int entries, int versions) {
    const int entry = entries / 2;
    MDB_dbi dbi;
    MDB_txn *old_one, *new_one;
    MDB_env *env = filled(folder, 0, entries, &dbi);
    check(mdb_txn_begin(env, NULL, MDB_RDONLY, &old_one));
    save_some(env, dbi, entry, 2, versions - 1);
    check(mdb_txn_begin(env, NULL, MDB_RDONLY, &new_one));
    // A few more saves, so that the file goes on behind the pages that are read: at its very end the comparing of two keys takes some 130
    // nanoseconds more, since it looks past it.
    save_some(env, dbi, entry, versions + 1, 4);
    tell("lmdb", "read-old", entries, versions, best_reads(old_one, dbi, entry));
    tell("lmdb", "read-new", entries, versions, best_reads(new_one, dbi, entry));
    mdb_txn_abort(old_one);
    mdb_txn_abort(new_one);
    mdb_env_close(env);
}

// A round of saves on a new database.
static struct round round_of_saves(const char *folder, unsigned flags, int entries) {
    struct wish wishes[WISHES];
    for (int at = 0; at < WISHES; at++) {
        wishes[at] = (struct wish){(uint16_t)(entries / 2), 620};
    }
    MDB_dbi dbi;
    MDB_env *env = filled(folder, flags, entries, &dbi);
    struct round round = {0, 0, 0};
    const uint64_t start = now();
    while (round.nanos < LEAST) {
        for (int at = 0; at < WISHES; at++) {
            save(env, dbi, wishes[at]);
        }
        round.operations += WISHES;
        round.nanos = now() - start;
    }
    mdb_env_close(env);
    return round;
}

static void saving(const char *folder, const char *who, unsigned flags, int entries) {
    struct round best = round_of_saves(folder, flags, entries);
    for (int round = 1; round < ROUNDS; round++) {
        best = better(best, round_of_saves(folder, flags, entries));
    }
    tell(who, "save", entries, 1, best);
}

int main(int argc, char **argv) {
    static const int entries[] = {1, 1024};
    static const int versions[] = {1, 10, 1000};
    if (argc < 2) {
        fprintf(stderr, "lmdb: no folder is named\n");
        return 1;
    }
    for (int n = 0; n < 2; n++) {
        for (int at = 0; at < 3; at++) {
            reading(argv[1], entries[n], versions[at]);
        }
        saving(argv[1], "lmdb", 0, entries[n]);
        saving(argv[1], "lmdb-map", MDB_WRITEMAP, entries[n]);
    }
    remove_files(argv[1]);
    return 0;
}
