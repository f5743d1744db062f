#include "store.hpp"

#include <algorithm>

namespace store {

namespace {
using archcaraway::Error;
using archcaraway::Set;

constexpr std::size_t headBytes = 64;

// How many bytes of a frame a transaction takes at most. Isolation::snapshot has each changed key
// twice.
std::size_t frameBytes(const Request& request) {
    std::size_t bytes = 13;
    for (const Range& range : request.reads) bytes += 5 + range.begin.size() + range.end.size();
    for (const auto& change : request.changes) bytes += 2 * (3 + change.first.size());
    return bytes;
}

bool fits(const Request& request) {
    return request.reads.size() <= ARCHCARAWAY_MAX_RANGES &&
           request.changes.size() <= ARCHCARAWAY_MAX_RANGES &&
           headBytes + frameBytes(request) <= ARCHCARAWAY_MAX_FRAME;
}

} // namespace

Store::Store(const std::string& folder, const Options& options)
  : options_(options), database_(folder, options.sync) {
    version_ = startVersion_ = Snapshot(database_).version();
    start_ = std::chrono::steady_clock::now();
    open();
    committer_ = std::thread([this] { run(); });
}

Store::~Store() {
    {
        std::lock_guard<std::mutex> lock(mutex_);
        ends_ = true;
    }
    arrival_.notify_one();
    committer_.join();
}

// Opens the first set, or one instead of a set that has met its limit. It knows nothing of the
// history up to the version of the last batch. So it must not commit a read whose snapshot is
// below: a write that it never saw may have come since.
void Store::open() {
    if (options_.startsAtVersion) {
        set_.emplace(Set::at(version_, options_.window, options_.limit));
    } else {
        set_.emplace(options_.window, options_.limit);
    }
    std::lock_guard<std::mutex> lock(mutex_);
    counts_.sets++;
}

void Store::run() {
    for (;;) {
        std::vector<Request> requests = take();
        if (requests.empty()) return;
        commit(requests.begin(), requests.end());
    }
}

// Waits for transactions, and takes as many as fit into one batch. None is left at the end.
std::vector<Request> Store::take() {
    std::unique_lock<std::mutex> lock(mutex_);
    arrival_.wait(lock, [this] { return ends_ || !waiting_.empty(); });
    std::vector<Request> requests;
    std::size_t bytes = headBytes;
    while (!waiting_.empty() && requests.size() < ARCHCARAWAY_MAX_TRANSACTIONS) {
        bytes += frameBytes(waiting_.front());
        if (bytes > ARCHCARAWAY_MAX_FRAME) break;
        requests.push_back(std::move(waiting_.front()));
        waiting_.pop_front();
    }
    return requests;
}

// Versions are microseconds of running time, so that the window is a time too.
Version Store::nextVersion() {
    const auto since = std::chrono::steady_clock::now() - start_;
    const auto passed = std::chrono::duration_cast<std::chrono::microseconds>(since).count();
    return std::max(version_ + 1, startVersion_ + static_cast<Version>(passed));
}

// Decides on transactions, writes those that commit, and answers all.
void Store::commit(Each first, Each last) try {
    const Version version = nextVersion();
    const auto outcomes = judge(version, first, last);
    if (!outcomes) {
        if (last - first == 1) throw Error(ARCHCARAWAY_ARENA_FULL);
        // The limit is too small even for a new set. Two smaller batches may fit.
        const Each middle = first + (last - first) / 2;
        commit(first, middle);
        commit(middle, last);
        return;
    }
    version_ = version;
    std::vector<Changes> committed;
    for (Each each = first; each != last; ++each) {
        if ((*outcomes)[static_cast<std::size_t>(each - first)] != Outcome::committed) continue;
        committed.push_back(std::move(each->changes));
    }
    // If this fails, the set remembers writes that were never made: then some transactions conflict
    // for nothing, and no more.
    database_.write(version, committed.begin(), committed.end());
    {
        std::lock_guard<std::mutex> lock(mutex_);
        counts_.batches++;
        for (const Outcome outcome : *outcomes) counts_.outcomes[outcome]++;
    }
    for (const Outcome outcome : *outcomes) (first++)->outcome.set_value(outcome);
} catch (...) {
    for (; first != last; ++first) first->outcome.set_exception(std::current_exception());
}

// Returns the verdicts, or none if the batch needs more boundaries than a new set has.
std::optional<std::vector<Outcome>> Store::judge(Version version, Each first, Each last) {
    writer_.begin(version_, version, -1);
    for (; first != last; ++first) add(*first);
    const archcaraway::View frame = writer_.end();
    for (int tries = 0; tries < 2; tries++) {
        try {
            std::vector<Outcome> outcomes;
            for (const archcaraway::Entry entry : set_->resolve(frame, reply_)) {
                outcomes.push_back(entry.verdict());
            }
            return outcomes;
        } catch (const Error& error) {
            if (error.status() != ARCHCARAWAY_ARENA_FULL) throw;
            // The writes of the window exceed the limit. A set that forgets them all starts at the
            // version of the last batch: transactions with older snapshots are run again.
            open();
        }
    }
    return std::nullopt;
}

// Adds a transaction to the batch.
void Store::add(const Request& request) {
    writer_.transaction(request.snapshot);
    if (options_.isolation == Isolation::serializable) {
        for (const Range& range : request.reads) {
            range.isKey ? writer_.read(range.begin) : writer_.read(range.begin, range.end);
        }
    }
    if (options_.isolation == Isolation::snapshot) {
        for (const auto& change : request.changes) writer_.read(change.first);
    }
    for (const auto& change : request.changes) writer_.write(change.first);
}

std::future<Outcome> Store::submit(Request request) {
    std::future<Outcome> outcome = request.outcome.get_future();
    {
        std::lock_guard<std::mutex> lock(mutex_);
        waiting_.push_back(std::move(request));
    }
    arrival_.notify_one();
    return outcome;
}

std::optional<std::string> Transaction::get(const std::string& key) {
    const auto own = changes_.find(key);
    if (own != changes_.end()) return own->second;
    reads_.push_back({key, "", true});
    return snapshot_.get(key);
}

Rows Transaction::get(const std::string& begin, const std::string& end) {
    if (begin < end) reads_.push_back({begin, end, false});
    Rows rows = snapshot_.get(begin, end);
    for (auto own = changes_.lower_bound(begin); own != changes_.end() && own->first < end; ++own) {
        if (own->second) {
            rows[own->first] = *own->second;
        } else {
            rows.erase(own->first);
        }
    }
    return rows;
}

void Transaction::change(const std::string& key, std::optional<std::string> value) {
    // One key that LMDB refuses would be an error of its entire batch.
    if (key.empty() || key.size() > 511) throw std::length_error("a key has 1 to 511 bytes");
    changes_[key] = std::move(value);
}

Outcome Transaction::commit() {
    if (changes_.empty()) return Outcome::committed;
    Request request{version_, std::move(reads_), std::move(changes_), {}};
    if (!fits(request)) throw std::length_error("a transaction exceeds the limits of a batch");
    return store_.submit(std::move(request)).get();
}

} // namespace store
