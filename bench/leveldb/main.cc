// The reads at a snapshot and the saves of crates/bench_store, over LevelDB by its C++ interface. The folder is the first argument.
//
// An entry is a key of two bytes, a card the three bytes of its packed form: its map, and its advance. What a proof is there is a
// snapshot here, and a save is one Put that waits for no disk.
#include <chrono>
#include <cstdint>
#include <cstdio>
#include <cstdlib>
#include <string>
#include <vector>

#include <leveldb/db.h>
#include <leveldb/options.h>

namespace {

constexpr int kRounds = 40;
constexpr uint64_t kLeast = 5000000;
constexpr int kLooks = 64;

struct Round {
  uint64_t nanos = 0;
  uint64_t operations = 0;
  uint64_t sum = 0;
};

void check(const leveldb::Status& status) {
  if (!status.ok()) {
    std::fprintf(stderr, "leveldb: %s\n", status.ToString().c_str());
    std::exit(1);
  }
}

uint64_t now() {
  using namespace std::chrono;
  return duration_cast<nanoseconds>(steady_clock::now().time_since_epoch()).count();
}

void tell(const char* what, int entries, int versions, const Round& best) {
  std::printf("leveldb %s %d %d %llu %llu %llu\n", what, entries, versions,
              (unsigned long long)best.operations, (unsigned long long)best.sum,
              (unsigned long long)best.nanos);
  std::fflush(stdout);
}

// Which entry is read or written, and its card.
struct Wish {
  uint16_t entry;
  int16_t advance;
};

leveldb::Slice key_of(uint16_t entry, char key[2]) {
  key[0] = (char)(entry >> 8);
  key[1] = (char)entry;
  return leveldb::Slice(key, 2);
}

leveldb::Slice card_of(int16_t advance, char card[3]) {
  card[0] = 1;
  card[1] = (char)(advance >> 8);
  card[2] = (char)advance;
  return leveldb::Slice(card, 3);
}

leveldb::DB* opened(const std::string& folder) {
  leveldb::Options options;
  check(leveldb::DestroyDB(folder, options));
  options.create_if_missing = true;
  options.compression = leveldb::kNoCompression;
  // Room for all that is written here, so that nothing is moved while it is timed.
  options.write_buffer_size = 256u << 20;
  leveldb::DB* db = nullptr;
  check(leveldb::DB::Open(options, folder, &db));
  return db;
}

void save(leveldb::DB* db, const Wish& wish) {
  char key[2], card[3];
  check(db->Put(leveldb::WriteOptions(), key_of(wish.entry, key), card_of(wish.advance, card)));
}

void save_some(leveldb::DB* db, int entry, int first, int versions) {
  for (int number = first; number < first + versions; number++) {
    save(db, Wish{(uint16_t)entry, (int16_t)(number % 1001)});
  }
}

// A database with a version of each entry.
leveldb::DB* filled(const std::string& folder, int entries) {
  leveldb::DB* db = opened(folder);
  for (int entry = 0; entry < entries; entry++) {
    save_some(db, entry, 1, 1);
  }
  return db;
}

// The answers go into one string, as a reader's would that asks again and again.
Round read_all(leveldb::DB* db, const leveldb::Snapshot* snapshot,
               const std::vector<uint16_t>& looks, uint64_t passes) {
  leveldb::ReadOptions options;
  options.snapshot = snapshot;
  Round round;
  std::string value;
  const uint64_t start = now();
  for (uint64_t pass = 0; pass < passes; pass++) {
    for (uint16_t entry : looks) {
      char key[2];
      check(db->Get(options, key_of(entry, key), &value));
      round.sum += (uint64_t)(((uint8_t)value[1] << 8) | (uint8_t)value[2]);
    }
  }
  round.nanos = now() - start;
  round.operations = passes * looks.size();
  return round;
}

Round better(const Round& a, const Round& b) {
  return (double)b.nanos * (double)a.operations < (double)a.nanos * (double)b.operations ? b : a;
}

Round best_reads(leveldb::DB* db, const leveldb::Snapshot* snapshot, int entry) {
  const std::vector<uint16_t> looks(kLooks, (uint16_t)entry);
  uint64_t passes = 1;
  Round best = read_all(db, snapshot, looks, passes);
  while (best.nanos < kLeast) {
    passes *= 2;
    best = read_all(db, snapshot, looks, passes);
  }
  for (int round = 1; round < kRounds; round++) {
    best = better(best, read_all(db, snapshot, looks, passes));
  }
  return best;
}

void reading(const std::string& folder, int entries, int versions) {
  leveldb::DB* db = filled(folder, entries);
  const int entry = entries / 2;
  const leveldb::Snapshot* old_one = db->GetSnapshot();
  save_some(db, entry, 2, versions - 1);
  const leveldb::Snapshot* new_one = db->GetSnapshot();
  tell("read-old", entries, versions, best_reads(db, old_one, entry));
  tell("read-new", entries, versions, best_reads(db, new_one, entry));
  db->ReleaseSnapshot(old_one);
  db->ReleaseSnapshot(new_one);
  delete db;
}

// A round of saves on a new database.
Round round_of_saves(const std::string& folder, int entries) {
  leveldb::DB* db = filled(folder, entries);
  const std::vector<Wish> wishes(128, Wish{(uint16_t)(entries / 2), 620});
  Round round;
  const uint64_t start = now();
  while (round.nanos < kLeast) {
    for (const Wish& wish : wishes) {
      save(db, wish);
    }
    round.operations += wishes.size();
    round.nanos = now() - start;
  }
  delete db;
  return round;
}

void saving(const std::string& folder, int entries) {
  Round best = round_of_saves(folder, entries);
  for (int round = 1; round < kRounds; round++) {
    best = better(best, round_of_saves(folder, entries));
  }
  tell("save", entries, 1, best);
}

}  // namespace

int main(int argc, char** argv) {
  if (argc < 2) {
    std::fprintf(stderr, "leveldb: no folder is named\n");
    return 1;
  }
  const std::string folder = argv[1];
  for (int entries : {1, 1024}) {
    for (int versions : {1, 10, 1000}) {
      reading(folder, entries, versions);
    }
    saving(folder, entries);
  }
  check(leveldb::DestroyDB(folder, leveldb::Options()));
  return 0;
}
