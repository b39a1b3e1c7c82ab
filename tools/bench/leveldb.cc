// The entries of `bk_bench folder` in LevelDB (kv_store.h).

#include "kv_store.h"

#include <leveldb/db.h>
#include <leveldb/write_batch.h>

#include <memory>

static void check(const leveldb::Status& status) {
  if (!status.ok()) stop(status.ToString());
}

class Store {
 public:
  explicit Store(const std::string& path) {
    leveldb::Options options;
    options.create_if_missing = true;
    // The payloads are zeros, which no real ones are.
    options.compression = leveldb::kNoCompression;
    leveldb::DB* opened = nullptr;
    check(leveldb::DB::Open(options, path, &opened));
    db_.reset(opened);
  }

  void put(uint64_t first, uint64_t count, const std::string& value) {
    leveldb::WriteBatch entries;
    for (uint64_t i = 0; i < count; i++) entries.Put(key_at(first + i), value);
    leveldb::WriteOptions synced;
    synced.sync = true;
    check(db_->Write(synced, &entries));
  }

  void get(const std::string& key) { check(db_->Get({}, key, &found_)); }

  uint64_t scan() {
    uint64_t count = 0;
    std::unique_ptr<leveldb::Iterator> at(db_->NewIterator({}));
    for (at->SeekToFirst(); at->Valid(); at->Next()) count += is_value(at->value().data(), at->value().size());
    check(at->status());
    return count;
  }

  void remove(uint64_t ledger) {
    leveldb::WriteBatch keys;
    std::unique_ptr<leveldb::Iterator> at(db_->NewIterator({}));
    const std::string end = key_of(ledger + 1, 0);
    for (at->Seek(key_of(ledger, 0)); at->Valid() && at->key().compare(end) < 0; at->Next()) keys.Delete(at->key());
    check(at->status());
    check(db_->Write({}, &keys));
  }

 private:
  std::unique_ptr<leveldb::DB> db_;
  std::string found_;
};

int main(int count, char** words) { return run<Store>(count, words); }
