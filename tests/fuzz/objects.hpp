// Sets and cores of the library, each beside plain.hpp.
#ifndef FUZZ_OBJECTS_HPP
#define FUZZ_OBJECTS_HPP

#include <cstdio>
#include <cstdlib>

#include "archcaraway.h"
#include "archcaraway_frames.h"
#include "plain.hpp"

namespace {

using plain::Batch;
using plain::Key;
using plain::Range;
using plain::Version;
using Bytes = std::vector<std::uint8_t>;

#define DEMAND(holds)                                                                              \
    do {                                                                                           \
        if (!(holds)) {                                                                            \
            std::fprintf(stderr, "%s:%d: not so: %s\n", __FILE__, __LINE__, #holds);               \
            std::abort();                                                                          \
        }                                                                                          \
    } while (0)

plain::Reply readReply(const Bytes& bytes, std::size_t length) {
    archcaraway_reply reply;
    DEMAND(archcaraway_reply_read(&reply, bytes.data(), length) == ARCHCARAWAY_OK);
    DEMAND(reply.length == length);
    plain::Reply read{reply.version, {}};
    archcaraway_entry entry;
    while (archcaraway_reply_next(&reply, &entry)) {
        read.entries.push_back({static_cast<plain::Verdict>(entry.verdict), {}});
        for (unsigned i = 0; i < entry.count; i++) {
            read.entries.back().places.push_back(archcaraway_entry_place(&entry, i));
        }
    }
    return read;
}

// The buffer that archcaraway.h asks for.
std::size_t mostReply(const Batch& batch) {
    std::size_t length = 15 + 3 * batch.transactions.size();
    for (const auto& each : batch.transactions) length += each.report ? 2 * each.reads.size() : 0;
    return length;
}

archcaraway_bytes bytesOf(const Key& key) {
    return {reinterpret_cast<const std::uint8_t*>(key.data()), key.size()};
}

// The transactions of a batch, without a frame.
class Transactions {
public:
    explicit Transactions(const Batch& batch) {
        DEMAND(archcaraway_batch_new(&batch_) == ARCHCARAWAY_OK);
        for (const plain::Transaction& each : batch.transactions) add(each);
    }
    ~Transactions() { archcaraway_batch_free(&batch_); }
    Transactions(const Transactions&) = delete;
    Transactions& operator=(const Transactions&) = delete;
    archcaraway_batch* batch() { return &batch_; }

private:
    void add(const plain::Transaction& each) {
        std::vector<archcaraway_range> ranges;
        for (const auto* list : {&each.reads, &each.writes}) {
            for (const Range& range : *list) {
                archcaraway_range pushed{};
                pushed.begin = bytesOf(range.begin);
                // A single key is given in both ways.
                pushed.single = range.isSingle() && range.begin.size() % 2 == 0;
                if (!pushed.single) pushed.end = bytesOf(range.end);
                ranges.push_back(pushed);
            }
        }
        archcaraway_txn txn{};
        txn.snapshot = each.snapshot;
        txn.report = each.report;
        txn.read_count = each.reads.size();
        txn.write_count = each.writes.size();
        txn.reads = ranges.data();
        txn.writes = ranges.data() + txn.read_count;
        DEMAND(archcaraway_batch_add(&batch_, &txn) == ARCHCARAWAY_OK);
    }

    archcaraway_batch batch_ = ARCHCARAWAY_NONE;
};

// A set beside a scan, and a second one that takes the same batches without frames.
class Set {
public:
    Set(Version window, std::uint64_t limit, Version start)
      : limit_(limit), scan_(window, start), version_(start) {
        DEMAND(archcaraway_set_new_at(window, limit, start, &set_) == ARCHCARAWAY_OK);
        DEMAND(archcaraway_set_new_at(window, limit, start, &second_) == ARCHCARAWAY_OK);
    }
    ~Set() {
        archcaraway_set_free(&set_);
        archcaraway_set_free(&second_);
    }
    Set(const Set&) = delete;
    Set& operator=(const Set&) = delete;

    // A frame that is refused with this status, once no stop was met.
    void refuse(const std::uint8_t* frame, std::size_t length, int status) {
        Bytes reply(64);
        std::size_t needed = 1;
        const int found =
            archcaraway_set_resolve(&set_, frame, length, reply.data(), reply.size(), &needed);
        DEMAND(found == (stop_ != 0 ? stop_ : status) && needed == 0);
    }

    void resolve(const Bytes& frame, const Batch& batch) {
        const int refusal = stop_ != 0                ? stop_
                            : batch.version <= version_ ? int{ARCHCARAWAY_VERSION_LATE}
                                                        : int{ARCHCARAWAY_OK};
        if (refusal != 0) {
            judge(batch, refusal, {});
            return refuse(frame.data(), frame.size(), refusal);
        }
        Bytes reply(mostReply(batch));
        std::size_t length = 0;
        int status = archcaraway_set_resolve(&set_, frame.data(), frame.size(), reply.data(),
                                             reply.size() - 1, &length);
        DEMAND(status == ARCHCARAWAY_BUFFER && length == reply.size());
        status = archcaraway_set_resolve(&set_, frame.data(), frame.size(), reply.data(),
                                         reply.size(), &length);
        DEMAND(archcaraway_set_boundaries(&set_) <= limit_);
        if (status == ARCHCARAWAY_ARENA_FULL && limit_ < ARCHCARAWAY_LIMIT) {
            judge(batch, status, {});
            stop_ = status;
            return;
        }
        DEMAND(status == ARCHCARAWAY_OK);
        const plain::Reply expected = scan_.resolve(batch);
        DEMAND(readReply(reply, length) == expected);
        judge(batch, status, expected);
        version_ = batch.version;
    }

private:
    // Gives the transactions to the second set, which answers the same.
    void judge(const Batch& batch, int status, const plain::Reply& expected) {
        Transactions transactions(batch);
        const std::size_t count = batch.transactions.size();
        Bytes verdicts(count, 9);
        const auto judged = [&](std::size_t room) {
            return archcaraway_set_judge_batch(&second_, batch.version, transactions.batch(),
                                               verdicts.data(), room);
        };
        if (status == ARCHCARAWAY_OK && count > 0) DEMAND(judged(count - 1) == ARCHCARAWAY_BUFFER);
        DEMAND(judged(count) == status);
        DEMAND(archcaraway_set_boundaries(&second_) == archcaraway_set_boundaries(&set_));
        for (std::size_t i = 0; i < count; i++) {
            const bool isJudged = status == ARCHCARAWAY_OK;
            DEMAND(verdicts[i] == (isJudged ? static_cast<int>(expected.entries[i].verdict) : 9));
        }
    }

    archcaraway_set set_ = ARCHCARAWAY_NONE;
    archcaraway_set second_ = ARCHCARAWAY_NONE;
    std::uint64_t limit_;
    plain::Scan scan_;
    Version version_; // of the last batch
    int stop_ = 0;
};

// A core beside the rules.
class Core {
public:
    Core(unsigned proxies, Version window, std::uint64_t limit, Version start)
      : limit_(limit), proxies_(proxies), rules_(proxies, window, start) {
        const int status = archcaraway_core_new_at(proxies, window, limit, start, &core_);
        DEMAND(status == ARCHCARAWAY_OK);
    }
    ~Core() { archcaraway_core_free(&core_); }
    Core(const Core&) = delete;
    Core& operator=(const Core&) = delete;

    void refuse(const std::uint8_t* frame, std::size_t length, int status) {
        DEMAND(archcaraway_core_admit(&core_, 0, frame, length) == (stop_ != 0 ? stop_ : status));
    }

    // Takes the batch as a frame, or without one if its version is even.
    void admit(unsigned proxy, const Bytes& frame, const Batch& batch) {
        const int status =
            batch.version % 2 == 0
                ? archcaraway_core_admit_batch(&core_, proxy, Transactions(batch).batch(),
                                               batch.previous, batch.version, batch.received)
                : archcaraway_core_admit(&core_, proxy, frame.data(), frame.size());
        if (stop_ != 0) {
            DEMAND(status == stop_);
            return;
        }
        const bool mayStop = status == ARCHCARAWAY_ARENA_FULL && limit_ < ARCHCARAWAY_LIMIT;
        DEMAND(status == ARCHCARAWAY_OK || mayStop);
        stop_ = status;
        rules_.take(proxy, batch);
        DEMAND(archcaraway_core_stop(&core_) == stop_);
    }

    // Takes all answers, at the end. After a stop they begin those of the rules.
    void finish() {
        DEMAND(archcaraway_core_finish(&core_) == stop_);
        if (stop_ == 0) rules_.finish();
        for (unsigned proxy = 0; proxy < proxies_; proxy++) {
            const auto& expected = rules_.answers[proxy];
            std::size_t count = 0;
            while (give(proxy, count < expected.size() ? &expected[count] : nullptr)) count++;
            DEMAND(count == expected.size() || stop_ != 0);
        }
        DEMAND(archcaraway_core_owed(&core_) == 0);
    }

private:
    // Takes an answer, if there is one, and compares it.
    bool give(unsigned proxy, const plain::Answer* expected) {
        Bytes bytes(1);
        std::size_t length = 0;
        int kind = 0;
        Version version = 0;
        const auto next = [&] {
            return archcaraway_core_give(&core_, proxy, bytes.data(), bytes.size(), &length, &kind,
                                         &version);
        };
        int status = next();
        if (status == ARCHCARAWAY_BUFFER) {
            DEMAND(kind == ARCHCARAWAY_NOTHING && version == -1);
            bytes.resize(length);
            status = next();
        }
        DEMAND(status == ARCHCARAWAY_OK);
        if (kind == ARCHCARAWAY_NOTHING) return false;
        DEMAND(expected != nullptr && kind == expected->kind && version == expected->version);
        if (kind == ARCHCARAWAY_REPLY) {
            DEMAND(readReply(bytes, length) == expected->reply);
        }
        return true;
    }

    archcaraway_core core_ = ARCHCARAWAY_NONE;
    std::uint64_t limit_;
    unsigned proxies_;
    plain::Resolver rules_;
    int stop_ = 0;
};

} // namespace

#endif
