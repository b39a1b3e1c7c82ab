// The entries of `bk_bench folder` in RocksDB (kv_store.h). A ledger is deleted by its range,
// without a visit of its keys.

#include "kv_store.h"

#include <rocksdb/db.h>
#include <rocksdb/write_batch.h>

#include <memory>

static void check(const rocksdb::Status& status) {
  if (!status.ok()) stop(status.ToString());
}

class Store {
 public:
  explicit Store(const std::string& path) {
    rocksdb::Options options;
    options.create_if_missing = true;
    // The payloads are zeros, which no real ones are.
    options.compression = rocksdb::kNoCompression;
    rocksdb::DB* opened = nullptr;
    check(rocksdb::DB::Open(options, path, &opened));
    db_.reset(opened);
  }

  void put(uint64_t first, uint64_t count, const std::string& value) {
    rocksdb::WriteBatch entries;
    for (uint64_t i = 0; i < count; i++) check(entries.Put(key_at(first + i), value));
    rocksdb::WriteOptions synced;
    synced.sync = true;
    check(db_->Write(synced, &entries));
  }

  void get(const std::string& key) { check(db_->Get({}, key, &found_)); }

  uint64_t scan() {
    uint64_t count = 0;
    std::unique_ptr<rocksdb::Iterator> at(db_->NewIterator({}));
    for (at->SeekToFirst(); at->Valid(); at->Next()) count += is_value(at->value().data(), at->value().size());
    check(at->status());
    return count;
  }

  void remove(uint64_t ledger) {
    check(db_->DeleteRange({}, db_->DefaultColumnFamily(), key_of(ledger, 0), key_of(ledger + 1, 0)));
  }

 private:
  std::unique_ptr<rocksdb::DB> db_;
  std::string found_;
};

int main(int count, char** words) { return run<Store>(count, words); }
