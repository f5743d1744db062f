// SPDX-License-Identifier: Apache-2.0. Copyright 2026 Archcaraway maintainers.
//
// archcaraway.hpp: the library for C++17 and later. Header only, over archcaraway.h and
// archcaraway_frames.hpp.
//
// Set and Core each own a handle and free it. They can be moved and not copied. A moved-from object
// has no handle: calls on it are refused as ARCHCARAWAY_ARGUMENT. A call that is refused, and a
// stop, throw archcaraway::Error. Without exceptions (-fno-exceptions) such a call prints the text
// of its status and aborts; a program that expects refusals calls the C functions on `handle()`.
// What archcaraway.h asks of the caller, also of threads, holds here too.
//
// archcaraway_frames.hpp says how bytes are given.
//
// ConflictSet and ConflictBatch have the shape of those of FoundationDB 7.1's ConflictSet.h. Their
// code is our own. What differs:
//  - The window and the edge go by versions: a batch is judged at `now`, and what was written at
//    `now - window` or before is forgotten. detectConflicts has no argument `newOldestVersion`: the
//    window is that of the set. No call clears a set: make a new one.
//  - `now` is above that of every batch before. A transaction with reads whose snapshot is below
//    `now - window` is too old.
//  - A transaction that asks for a report gets one: the indices of its conflicting read ranges.
//    They are all that conflict with earlier batches, or else the first that conflicts with an
//    earlier transaction of its batch.
//  - A batch has at most 4,096 transactions, a transaction at most 1,024 read ranges and 1,024
//    write ranges, and a key at most 10,000 bytes, or 10,001 if it ends a range. The frame of a
//    batch has at most 4 MiB.
//  - Write ranges that overlap or touch are kept as one. Empty ranges never conflict.
#ifndef ARCHCARAWAY_HPP
#define ARCHCARAWAY_HPP

#include <cstddef>
#include <cstdint>
#include <map>
#include <optional>
#include <string_view>
#include <utility>
#include <vector>

#include "archcaraway.h"
#include "archcaraway_frames.hpp"

namespace archcaraway {

// A conflict set over frames.
class Set {
public:
    explicit Set(std::int64_t window = ARCHCARAWAY_WINDOW,
                 std::uint64_t limit = ARCHCARAWAY_LIMIT) {
        check(archcaraway_set_new(window, limit, &set_));
    }
    // A set that starts at `version`: what was written up to it isn't known.
    static Set at(std::int64_t version, std::int64_t window = ARCHCARAWAY_WINDOW,
                  std::uint64_t limit = ARCHCARAWAY_LIMIT) {
        Set set{None()};
        check(archcaraway_set_new_at(window, limit, version, &set.set_));
        return set;
    }
    ~Set() { archcaraway_set_free(&set_); }
    Set(const Set&) = delete;
    Set& operator=(const Set&) = delete;
    Set(Set&& other) noexcept : set_(std::exchange(other.set_, ARCHCARAWAY_NONE)) {}
    Set& operator=(Set&& other) noexcept {
        std::swap(set_, other.set_);
        return *this;
    }

    // Resolves the batch of a frame. Writes the reply to `reply`, which grows as needed.
    Reply resolve(View frame, std::vector<std::uint8_t>& reply) {
        std::size_t length = 0;
        check(resolveBy(archcaraway_set_resolve, frame, reply, length));
        return Reply(View(reply.data(), length));
    }
    // The same, but a batch that doesn't fit the limit is refused: then there is no reply, and the
    // set is as before. A set that has stopped before with ARENA_FULL gives no reply, either.
    std::optional<Reply> tryResolve(View frame, std::vector<std::uint8_t>& reply) {
        std::size_t length = 0;
        const int status = resolveBy(archcaraway_set_try_resolve, frame, reply, length);
        if (status == ARCHCARAWAY_ARENA_FULL) return std::nullopt;
        check(status);
        return Reply(View(reply.data(), length));
    }
    std::uint64_t boundaries() const { return archcaraway_set_boundaries(&set_); }
    archcaraway_stats stats() const {
        archcaraway_stats stats{};
        check(archcaraway_set_stats(&set_, &stats));
        return stats;
    }
    // About how many bytes of memory the set has used for its boundaries and its filter.
    std::uint64_t bytesHeld() const { return archcaraway_set_bytes_held(&set_); }
    // Frees memory that the set doesn't need for its boundaries. The set stays as it is.
    void trim() { check(archcaraway_set_trim(&set_)); }
    // The handle, for the C functions. It stays this object's.
    archcaraway_set* handle() { return &set_; }

private:
    struct None {};
    explicit Set(None) {}
    int resolveBy(decltype(archcaraway_set_resolve) call, View frame,
                  std::vector<std::uint8_t>& reply, std::size_t& length) {
        const int status = call(&set_, frame.data, frame.size, reply.data(), reply.size(), &length);
        if (status != ARCHCARAWAY_BUFFER) return status;
        reply.resize(length);
        return call(&set_, frame.data, frame.size, reply.data(), reply.size(), &length);
    }
    archcaraway_set set_ = ARCHCARAWAY_NONE;
};

// What a core gives a proxy.
struct Answer {
    int kind = ARCHCARAWAY_NOTHING; // one of archcaraway_kind
    std::int64_t version = -1;
    View reply; // the frame, if the kind is ARCHCARAWAY_REPLY
};

// A resolver over values.
class Core {
public:
    explicit Core(std::uint32_t proxies, std::int64_t window = ARCHCARAWAY_WINDOW,
                  std::uint64_t limit = ARCHCARAWAY_LIMIT) {
        check(archcaraway_core_new(proxies, window, limit, &core_));
    }
    // A core that starts at `version`: its first batch follows that version, and what was written
    // up to it isn't known.
    static Core at(std::int64_t version, std::uint32_t proxies,
                   std::int64_t window = ARCHCARAWAY_WINDOW,
                   std::uint64_t limit = ARCHCARAWAY_LIMIT) {
        Core core{None()};
        check(archcaraway_core_new_at(proxies, window, limit, version, &core.core_));
        return core;
    }
    ~Core() { archcaraway_core_free(&core_); }
    Core(const Core&) = delete;
    Core& operator=(const Core&) = delete;
    Core(Core&& other) noexcept : core_(std::exchange(other.core_, ARCHCARAWAY_NONE)) {}
    Core& operator=(Core&& other) noexcept {
        std::swap(core_, other.core_);
        return *this;
    }

    void admit(std::uint32_t proxy, View frame) {
        check(archcaraway_core_admit(&core_, proxy, frame.data, frame.size));
    }
    void finish() { check(archcaraway_core_finish(&core_)); }
    // The oldest answer owed to the proxy. Writes the frame of a reply to `bytes`, which grows as
    // needed.
    Answer give(std::uint32_t proxy, std::vector<std::uint8_t>& bytes) {
        Answer answer;
        std::size_t length = 0;
        int status = archcaraway_core_give(&core_, proxy, bytes.data(), bytes.size(), &length,
                                           &answer.kind, &answer.version);
        if (status == ARCHCARAWAY_BUFFER) {
            bytes.resize(length);
            status = archcaraway_core_give(&core_, proxy, bytes.data(), bytes.size(), &length,
                                           &answer.kind, &answer.version);
        }
        check(status);
        answer.reply = View(bytes.data(), length);
        return answer;
    }
    std::uint64_t owed() const { return archcaraway_core_owed(&core_); }
    // The lowest proxy that is owed an answer, if any is.
    std::optional<std::uint32_t> next() const {
        std::uint32_t proxy = 0;
        if (archcaraway_core_next(&core_, &proxy) == 0) return std::nullopt;
        return proxy;
    }
    archcaraway_stats stats() const {
        archcaraway_stats stats{};
        check(archcaraway_core_stats(&core_, &stats));
        return stats;
    }
    // About how many bytes of memory the core's set has used, as those of a Set.
    std::uint64_t bytesHeld() const { return archcaraway_core_bytes_held(&core_); }
    // The stop that was met, 1 to 3, or 0.
    int stop() const { return archcaraway_core_stop(&core_); }
    // The handle, for the C functions. It stays this object's.
    archcaraway_core* handle() { return &core_; }

private:
    struct None {};
    explicit Core(None) {}
    archcaraway_core core_ = ARCHCARAWAY_NONE;
};

using Version = std::int64_t;
using KeyRef = std::string_view;

// The range [begin, end), or a single key. It looks at keys that the caller keeps.
struct KeyRangeRef {
    KeyRef begin, end;
    KeyRangeRef(View first, View last) : begin(first.text()), end(last.text()) {}
    // The range that holds `key` and no other key. `end` is `key` too.
    static KeyRangeRef single(View key) { return KeyRangeRef(key); }
    bool isSingle() const { return single_; }

private:
    explicit KeyRangeRef(View key) : begin(key.text()), end(key.text()), single_(true) {}
    bool single_ = false;
};

// A transaction to be judged. It looks at keys that the caller keeps until the transaction was
// added to a batch.
struct CommitTransactionRef {
    std::vector<KeyRangeRef> read_conflict_ranges;
    std::vector<KeyRangeRef> write_conflict_ranges;
    Version read_snapshot = 0;
    bool report_conflicting_keys = false;
};

// Transactions that sets and cores take without a frame. They have copies of the keys. A refused
// call leaves the batch as it was, so a transaction that is bad or doesn't fit spoils nothing.
class Batch {
public:
    Batch() { check(archcaraway_batch_new(&batch_)); }
    ~Batch() { archcaraway_batch_free(&batch_); }
    Batch(const Batch&) = delete;
    Batch& operator=(const Batch&) = delete;
    Batch(Batch&& other) noexcept
      : batch_(std::exchange(other.batch_, ARCHCARAWAY_NONE)), ranges_(std::move(other.ranges_)) {}
    Batch& operator=(Batch&& other) noexcept {
        std::swap(batch_, other.batch_);
        std::swap(ranges_, other.ranges_);
        return *this;
    }

    void add(const CommitTransactionRef& transaction) {
        ranges_.clear();
        for (const KeyRangeRef& range : transaction.read_conflict_ranges) push(range);
        for (const KeyRangeRef& range : transaction.write_conflict_ranges) push(range);
        archcaraway_txn txn{};
        txn.snapshot = transaction.read_snapshot;
        txn.report = transaction.report_conflicting_keys;
        txn.read_count = transaction.read_conflict_ranges.size();
        txn.write_count = transaction.write_conflict_ranges.size();
        txn.reads = ranges_.data();
        txn.writes = ranges_.data() + txn.read_count;
        check(archcaraway_batch_add(&batch_, &txn));
    }
    // Appends what another batch has, which keeps it.
    void append(Batch& other) { check(archcaraway_batch_append(&batch_, &other.batch_)); }
    void dropLast() { archcaraway_batch_drop_last(&batch_); }
    void clear() { archcaraway_batch_clear(&batch_); }
    std::size_t room() const { return archcaraway_batch_room(&batch_); }
    std::size_t size() const {
        return batch_.at == nullptr ? 0 : ARCHCARAWAY_MAX_TRANSACTIONS - room();
    }

    // Judges the transactions by a set, and returns their verdicts. The batch may be used again.
    std::vector<Verdict> judge(Set& set, Version version) {
        std::vector<std::uint8_t> numbers(size());
        check(archcaraway_set_judge_batch(set.handle(), version, &batch_, numbers.data(),
                                          numbers.size()));
        return verdictsOf(numbers);
    }
    // The same, but what doesn't fit the limit is refused: then there are no verdicts, and the set
    // is as before.
    std::optional<std::vector<Verdict>> tryJudge(Set& set, Version version) {
        std::vector<std::uint8_t> numbers(size());
        const int status = archcaraway_set_try_judge_batch(set.handle(), version, &batch_,
                                                           numbers.data(), numbers.size());
        if (status == ARCHCARAWAY_ARENA_FULL) return std::nullopt;
        check(status);
        return verdictsOf(numbers);
    }
    // Gives the transactions to a core, as a batch of a proxy. The batch may be used again.
    void admit(Core& core, std::uint32_t proxy, Version previous, Version version,
               Version received) {
        check(archcaraway_core_admit_batch(core.handle(), proxy, &batch_, previous, version,
                                           received));
    }
    // The handle, for the C functions. It stays this object's.
    archcaraway_batch* handle() { return &batch_; }

private:
    static std::vector<Verdict> verdictsOf(const std::vector<std::uint8_t>& numbers) {
        std::vector<Verdict> verdicts;
        verdicts.reserve(numbers.size());
        for (std::uint8_t number : numbers) verdicts.push_back(static_cast<Verdict>(number));
        return verdicts;
    }
    void push(const KeyRangeRef& range) {
        archcaraway_range pushed{};
        pushed.begin = bytesOf(range.begin);
        pushed.end = bytesOf(range.end);
        pushed.single = range.isSingle();
        ranges_.push_back(pushed);
    }
    static archcaraway_bytes bytesOf(KeyRef key) {
        return {reinterpret_cast<const std::uint8_t*>(key.data()), key.size()};
    }

    archcaraway_batch batch_ = ARCHCARAWAY_NONE;
    std::vector<archcaraway_range> ranges_;
};

// The committed writes of the batches so far, as far back as the window.
class ConflictSet {
public:
    explicit ConflictSet(Version window = ARCHCARAWAY_WINDOW,
                         std::uint64_t limit = ARCHCARAWAY_LIMIT)
      : set_(window, limit) {}
    // A set that starts at `version`: what was written up to it isn't known.
    static ConflictSet at(Version version, Version window = ARCHCARAWAY_WINDOW,
                          std::uint64_t limit = ARCHCARAWAY_LIMIT) {
        return ConflictSet(Set::at(version, window, limit));
    }

private:
    explicit ConflictSet(Set set) : set_(std::move(set)) {}
    friend class ConflictBatch;
    Set set_;
    BatchWriter writer_;
    std::vector<std::uint8_t> reply_;
};

// A batch of transactions for a set. A set has one batch at a time.
class ConflictBatch {
public:
    enum TransactionCommitResult {
        TransactionConflict = ARCHCARAWAY_CONFLICT,
        TransactionTooOld = ARCHCARAWAY_TOO_OLD,
        TransactionCommitted = ARCHCARAWAY_COMMITTED
    };

    // `conflictingKeyRangeMap` receives the indices of the conflicting read ranges, by the index of
    // their transaction, of each transaction that asks for them and has some.
    explicit ConflictBatch(ConflictSet* set,
                           std::map<int, std::vector<int>>* conflictingKeyRangeMap = nullptr)
      : set_(*set), ranges_(conflictingKeyRangeMap) {
        set_.writer_.begin(-1, 0, -1);
    }
    ConflictBatch(const ConflictBatch&) = delete;
    ConflictBatch& operator=(const ConflictBatch&) = delete;

    void addTransaction(const CommitTransactionRef& transaction) {
        BatchWriter& writer = set_.writer_;
        writer.transaction(transaction.read_snapshot, transaction.report_conflicting_keys);
        for (const KeyRangeRef& range : transaction.read_conflict_ranges) {
            if (range.isSingle()) {
                writer.read(range.begin);
            } else {
                writer.read(range.begin, range.end);
            }
        }
        for (const KeyRangeRef& range : transaction.write_conflict_ranges) {
            if (range.isSingle()) {
                writer.write(range.begin);
            } else {
                writer.write(range.begin, range.end);
            }
        }
    }

    // Judges the batch at the version `now`, once. Appends the indices of the transactions that are
    // committed, and of those that are too old.
    void detectConflicts(Version now, std::vector<int>& nonConflicting,
                         std::vector<int>* tooOldTransactions = nullptr) {
        set_.writer_.versions(-1, now, -1);
        results_.clear();
        for (Entry entry : set_.set_.resolve(set_.writer_.end(), set_.reply_)) {
            add(entry, nonConflicting, tooOldTransactions);
        }
    }

    // The results of detectConflicts, one per transaction.
    const std::vector<TransactionCommitResult>& results() const { return results_; }

private:
    void add(const Entry& entry, std::vector<int>& nonConflicting,
             std::vector<int>* tooOldTransactions) {
        const int index = static_cast<int>(results_.size());
        results_.push_back(static_cast<TransactionCommitResult>(entry.verdict()));
        if (entry.verdict() == Verdict::committed) nonConflicting.push_back(index);
        if (entry.verdict() == Verdict::tooOld && tooOldTransactions != nullptr) {
            tooOldTransactions->push_back(index);
        }
        for (std::size_t i = 0; ranges_ != nullptr && i < entry.places(); i++) {
            (*ranges_)[index].push_back(static_cast<int>(entry.place(i)));
        }
    }

    ConflictSet& set_;
    std::map<int, std::vector<int>>* ranges_;
    std::vector<TransactionCommitResult> results_;
};

} // namespace archcaraway

#endif
