// The work of the programs leveldb.cc, rocksdb.cc and lmdb.cc: the entries of `bk_bench folder` in
// another store.
//
// Words: `fill DIR LENGTH BATCH PUBLISHES`, `load` with the same words, `open DIR KEYS` or `reopen
// DIR KEYS`. A key is an entry's two ids, its value the payload behind them. Lines tell a stage,
// for how many entries it did its work, and the nanoseconds that it took: `publish` all batches,
// each written as one and synced; `fetch` reads in the order of the writes; `scan` all values in
// key order; `open` the opening of the filled directory; `delete` every tenth ledger, not synced.
// `load` only publishes, in the order of the keys, which makes less work behind. `reopen` opens,
// and reads an entry, `get`.
//
// A Store is made of a path and opens or creates the store there. It has `put(first, count,
// value)`, which writes the entries of these numbers as one synced batch, `get(key)`, `scan()`,
// which returns how many values it met, and `remove(ledger)`.

#ifndef KV_STORE_H
#define KV_STORE_H

#include <chrono>
#include <cstdint>
#include <cstdlib>
#include <iostream>
#include <string>
#include <vector>

constexpr uint64_t kLedgers = 100;
constexpr uint64_t kIds = 16;

[[noreturn]] inline void stop(const std::string& why) {
  std::cerr << why << "\n";
  std::exit(1);
}

inline std::string key_of(uint64_t ledger, uint64_t entry) {
  std::string key(kIds, '\0');
  for (int i = 0; i < 8; i++) {
    key[i] = static_cast<char>(ledger >> (56 - 8 * i));
    key[8 + i] = static_cast<char>(entry >> (56 - 8 * i));
  }
  return key;
}

// How many entries of a ledger come one after another; if this is 0, one entry of each ledger comes
// after another.
inline uint64_t kept_together = 0;

inline std::string key_at(uint64_t number) {
  if (kept_together) return key_of(number / kept_together, number % kept_together);
  return key_of(number % kLedgers, number / kLedgers);
}

// Does the work and tells its time.
template <class Work>
void timed(const char* stage, uint64_t count, Work work) {
  const auto begun = std::chrono::steady_clock::now();
  work();
  const std::chrono::nanoseconds time = std::chrono::steady_clock::now() - begun;
  std::cout << stage << " " << count << " " << time.count() << "\n";
}

// Looks at the last byte of a value, which is zero as all its bytes are.
inline bool is_value(const char* bytes, size_t size) { return size > 0 && bytes[size - 1] == 0; }

inline void must_be(uint64_t found, uint64_t wanted) {
  if (found != wanted) stop("it has another number of entries");
}

template <class Store>
void fill(const std::string& path, uint64_t length, uint64_t batch, uint64_t publishes) {
  Store store(path);
  const uint64_t count = batch * publishes;
  const std::string value(length - kIds, '\0');
  timed("publish", count, [&] {
    for (uint64_t publish = 0; publish < publishes; publish++) store.put(publish * batch, batch, value);
  });
  timed("fetch", count, [&] {
    for (uint64_t number = 0; number < count; number++) store.get(key_at(number));
  });
  timed("scan", count, [&] { must_be(store.scan(), count); });
}

template <class Store>
void load(const std::string& path, uint64_t length, uint64_t batch, uint64_t publishes) {
  Store store(path);
  kept_together = batch * publishes / kLedgers;
  const std::string value(length - kIds, '\0');
  timed("publish", batch * publishes, [&] {
    for (uint64_t publish = 0; publish < publishes; publish++) store.put(publish * batch, batch, value);
  });
}

template <class Store>
void reopen(const std::string& path, uint64_t keys) {
  std::vector<Store> opened;
  opened.reserve(1);
  timed("open", keys, [&] { opened.emplace_back(path); });
  timed("get", 1, [&] { opened.front().get(key_at(keys - 1)); });
}

template <class Store>
void open(const std::string& path, uint64_t keys) {
  std::vector<Store> opened;
  opened.reserve(1);
  timed("open", keys, [&] { opened.emplace_back(path); });
  Store& store = opened.front();
  timed("delete", keys / 10, [&] {
    for (uint64_t tenth = 0; tenth < kLedgers / 10; tenth++) store.remove(10 * tenth);
  });
  must_be(store.scan(), keys - keys / 10);
}

template <class Store>
int run(int count, char** words) {
  const std::string word = count > 1 ? words[1] : "";
  if (word == "fill" && count == 6) {
    fill<Store>(words[2], std::stoull(words[3]), std::stoull(words[4]), std::stoull(words[5]));
  } else if (word == "load" && count == 6) {
    load<Store>(words[2], std::stoull(words[3]), std::stoull(words[4]), std::stoull(words[5]));
  } else if (word == "open" && count == 4) {
    open<Store>(words[2], std::stoull(words[3]));
  } else if (word == "reopen" && count == 4) {
    reopen<Store>(words[2], std::stoull(words[3]));
  } else {
    std::cerr << "fill or load DIR LENGTH BATCH PUBLISHES, open or reopen DIR KEYS\n";
    return 2;
  }
  return 0;
}

#endif
