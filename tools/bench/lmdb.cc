// The entries of `bk_bench folder` in LMDB (kv_store.h). A batch is one transaction.

#include "kv_store.h"

#include <lmdb.h>

// The address space of the map, which the file grows into.
constexpr size_t kMap = size_t{1} << 36;

static void check(int status) {
  if (status != MDB_SUCCESS) stop(mdb_strerror(status));
}

static MDB_val value_of(const std::string& bytes) { return {bytes.size(), const_cast<char*>(bytes.data())}; }

class Store {
 public:
  explicit Store(const std::string& path) {
    check(mdb_env_create(&env_));
    check(mdb_env_set_mapsize(env_, kMap));
    check(mdb_env_open(env_, path.c_str(), 0, 0644));
    within(0, [&](MDB_txn* txn) { check(mdb_dbi_open(txn, nullptr, 0, &dbi_)); });
  }
  Store(const Store&) = delete;
  Store(Store&& other) : env_(other.env_), dbi_(other.dbi_) { other.env_ = nullptr; }
  ~Store() {
    if (env_) mdb_env_close(env_);
  }

  void put(uint64_t first, uint64_t count, const std::string& value) {
    within(0, [&](MDB_txn* txn) {
      MDB_val data = value_of(value);
      for (uint64_t i = 0; i < count; i++) {
        const std::string key = key_at(first + i);
        MDB_val place = value_of(key);
        check(mdb_put(txn, dbi_, &place, &data, 0));
      }
    });
  }

  void get(const std::string& key) {
    within(MDB_RDONLY, [&](MDB_txn* txn) {
      MDB_val place = value_of(key), found;
      check(mdb_get(txn, dbi_, &place, &found));
      found_.assign(static_cast<char*>(found.mv_data), found.mv_size);
    });
  }

  uint64_t scan() {
    uint64_t count = 0;
    within(MDB_RDONLY, [&](MDB_txn* txn) {
      each(txn, key_of(0, 0), [&](MDB_cursor*, const MDB_val&, const MDB_val& value) {
        count += is_value(static_cast<char*>(value.mv_data), value.mv_size);
        return true;
      });
    });
    return count;
  }

  void remove(uint64_t ledger) {
    check(mdb_env_set_flags(env_, MDB_NOSYNC, 1));
    const std::string end = key_of(ledger + 1, 0);
    within(0, [&](MDB_txn* txn) {
      each(txn, key_of(ledger, 0), [&](MDB_cursor* at, const MDB_val& key, const MDB_val&) {
        if (end.compare(0, kIds, static_cast<char*>(key.mv_data), key.mv_size) <= 0) return false;
        check(mdb_cursor_del(at, 0));
        return true;
      });
    });
  }

 private:
  template <class Work>
  void within(unsigned flags, Work work) {
    MDB_txn* txn = nullptr;
    check(mdb_txn_begin(env_, nullptr, flags, &txn));
    work(txn);
    check(mdb_txn_commit(txn));
  }

  // Visits the keys from one on, until the work wants no more.
  template <class Work>
  void each(MDB_txn* txn, const std::string& from, Work work) {
    MDB_cursor* at = nullptr;
    check(mdb_cursor_open(txn, dbi_, &at));
    MDB_val key = value_of(from), value;
    int status = mdb_cursor_get(at, &key, &value, MDB_SET_RANGE);
    while (status == MDB_SUCCESS && work(at, key, value)) status = mdb_cursor_get(at, &key, &value, MDB_NEXT);
    if (status != MDB_SUCCESS && status != MDB_NOTFOUND) check(status);
    mdb_cursor_close(at);
  }

  MDB_env* env_ = nullptr;
  MDB_dbi dbi_ = 0;
  std::string found_;
};

int main(int count, char** words) { return run<Store>(count, words); }
