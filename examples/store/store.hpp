// A store of keys and values with serializable transactions, over LMDB and a conflict set.
//
// A transaction reads a snapshot and keeps its writes to itself. To commit, it hands the ranges
// that it has read, and its writes, to one committer thread. The committer takes all transactions
// that wait as one batch, asks the conflict set which of them commit, writes these to LMDB together
// with the version of the batch, and then answers. Transactions take no locks and never wait for
// each other; one that conflicts is run again on a newer snapshot.
#ifndef STORE_STORE_HPP
#define STORE_STORE_HPP

#include <chrono>
#include <condition_variable>
#include <deque>
#include <future>
#include <mutex>
#include <thread>
#include <vector>

#include "archcaraway.hpp"
#include "database.hpp"

namespace store {

// What the conflict set is asked. The last two are controls: they lose what the first promises.
enum class Isolation {
    serializable,
    snapshot, // only writes of one key conflict
    none
};

struct Options {
    bool sync = true;
    // How far back a snapshot may be. Versions count microseconds.
    Version window = 1'000'000;
    // How many boundaries the conflict set keeps at most.
    std::uint64_t limit = ARCHCARAWAY_LIMIT;
    Isolation isolation = Isolation::serializable;
    // Whether a set that replaces another knows where it starts. False is a control.
    bool startsAtVersion = true;
};

using Outcome = archcaraway::Verdict;

struct Counts {
    std::uint64_t batches = 0;
    std::map<Outcome, std::uint64_t> outcomes;
    std::uint64_t sets = 0; // opened, the first one included
};

// The keys from `begin` on and before `end`, or the key `begin` alone.
struct Range {
    std::string begin, end;
    bool isKey = false;
};

// A transaction that waits for its outcome.
struct Request {
    Version snapshot = 0;
    std::vector<Range> reads;
    Changes changes;
    std::promise<Outcome> outcome;
};

class Store {
public:
    Store(const std::string& folder, const Options& options);
    // Commits what waits. No transaction of the store may be left.
    ~Store();
    Counts counts() const {
        std::lock_guard<std::mutex> lock(mutex_);
        return counts_;
    }

private:
    friend class Transaction;
    using Each = std::vector<Request>::iterator;

    void open();
    void run();
    std::vector<Request> take();
    void commit(Each first, Each last);
    std::optional<std::vector<Outcome>> judge(Version version, Each first, Each last);
    void add(const Request& request);
    Version nextVersion();
    std::future<Outcome> submit(Request request);

    const Options options_;
    Database database_;
    // The committer's own.
    std::optional<archcaraway::Set> set_;
    archcaraway::BatchWriter writer_;
    std::vector<std::uint8_t> reply_;
    Version version_ = 0; // of the last batch
    Version startVersion_ = 0;
    std::chrono::steady_clock::time_point start_;
    // Shared by all threads.
    mutable std::mutex mutex_;
    std::condition_variable arrival_;
    std::deque<Request> waiting_;
    bool ends_ = false;
    Counts counts_;
    std::thread committer_; // the last member: it uses the others
};

// Used by one thread, once.
class Transaction {
public:
    explicit Transaction(Store& store)
      : store_(store), snapshot_(store.database_), version_(snapshot_.version()) {}

    Version snapshot() const { return version_; }
    // Both include the transaction's own writes.
    std::optional<std::string> get(const std::string& key);
    Rows get(const std::string& begin, const std::string& end);
    void put(const std::string& key, std::string value) { change(key, std::move(value)); }
    void erase(const std::string& key) { change(key, std::nullopt); }
    // Waits for the outcome. What only reads is committed without asking: its snapshot is a state
    // that the store was in.
    Outcome commit();

private:
    void change(const std::string& key, std::optional<std::string> value);

    Store& store_;
    Snapshot snapshot_;
    Version version_;
    std::vector<Range> reads_;
    Changes changes_;
};

// Runs a transaction until it commits. `body` is called with a new one each time.
template <typename Body>
void transact(Store& store, Body body) {
    for (;;) {
        Transaction transaction(store);
        body(transaction);
        if (transaction.commit() == Outcome::committed) return;
    }
}

} // namespace store

#endif
