// The rules of docs/FOUNDATIONDB.md by a scan over all committed writes, and the tables of
// docs/WIRE.md read field by field: what the fuzzers compare the library with.
#ifndef FUZZ_PLAIN_HPP
#define FUZZ_PLAIN_HPP

#include <algorithm>
#include <cstdint>
#include <map>
#include <optional>
#include <string>
#include <utility>
#include <vector>

namespace plain {

using Version = std::int64_t;
using Key = std::string; // which compares bytes without a sign

// The keys from `begin` on and before `end`.
struct Range {
    Key begin, end;

    bool isSingle() const { return end == begin + '\0'; }
    // Whether a string of bytes is in both: the later begin is, if it is before both ends.
    bool meets(const Range& other) const {
        const Key& later = std::max(begin, other.begin);
        return later < end && later < other.end;
    }
};

struct Transaction {
    Version snapshot = 0;
    bool report = false;
    std::vector<Range> reads, writes;
};

struct Batch {
    Version previous = -1, version = 0, received = -1;
    std::vector<Transaction> transactions;
};

enum Verdict { conflict, tooOld, committed };

struct Entry {
    Verdict verdict = committed;
    std::vector<unsigned> places;

    bool operator==(const Entry& other) const {
        return verdict == other.verdict && places == other.places;
    }
};

struct Reply {
    Version version = 0;
    std::vector<Entry> entries;

    bool operator==(const Reply& other) const {
        return version == other.version && entries == other.entries;
    }
};

// All committed writes with the versions of their batches. What was written up to the version
// `start` isn't known, unless that is -1: as if all keys were written then.
class Scan {
public:
    Scan(Version window, Version start) : window_(window) {
        if (start >= 0) writes_.emplace_back(start, Range{"", Key(10'001, '\xff')});
    }

    // Judges a batch whose version is above those before, and keeps what it commits.
    Reply resolve(const Batch& batch) {
        Reply reply{batch.version, {}};
        std::vector<Range> earlier;
        const Version edge = std::max<Version>(0, batch.version - window_);
        for (const Transaction& each : batch.transactions) {
            reply.entries.push_back(judge(edge, earlier, each));
            if (reply.entries.back().verdict != committed) continue;
            earlier.insert(earlier.end(), each.writes.begin(), each.writes.end());
        }
        for (Range& write : earlier) writes_.emplace_back(batch.version, std::move(write));
        return reply;
    }

private:
    Entry judge(Version edge, const std::vector<Range>& earlier, const Transaction& each) const {
        if (!each.reads.empty() && each.snapshot < edge) return {tooOld, {}};
        std::vector<unsigned> history, batch;
        for (unsigned place = 0; place < each.reads.size(); place++) {
            const Range& read = each.reads[place];
            if (isWritten(read, each.snapshot)) history.push_back(place);
            for (const Range& write : earlier) {
                if (!write.meets(read)) continue;
                batch.push_back(place);
                break;
            }
        }
        if (history.empty() && batch.empty()) return {committed, {}};
        if (!each.report) return {conflict, {}};
        return {conflict, history.empty() ? std::vector<unsigned>{batch.front()} : history};
    }

    // Whether the range was written above the version.
    bool isWritten(const Range& range, Version version) const {
        for (auto write = writes_.rbegin(); write != writes_.rend(); ++write) {
            if (write->first <= version) return false;
            if (write->second.meets(range)) return true;
        }
        return false;
    }

    Version window_;
    std::vector<std::pair<Version, Range>> writes_;
};

// The kinds of answers, as the library numbers them.
enum Kind { isReply = 1, isNever = 2, isHeld = 3 };

struct Answer {
    Kind kind = isNever;
    Version version = -1;
    Reply reply;
};

// A resolver that keeps everything and looks through it. Its first batch follows `start`.
class Resolver {
public:
    Resolver(std::size_t proxies, Version window, Version start)
      : answers(proxies), scan_(window, start), version_(start) {}

    void take(std::size_t proxy, const Batch& batch) {
        if (batch.previous > version_) {
            held_.emplace_back(proxy, batch);
            return;
        }
        answer(proxy, batch);
        for (auto due = nextDue(); due != held_.end(); due = nextDue()) {
            const auto [other, next] = *due;
            held_.erase(due);
            answer(other, next);
        }
    }

    void finish() {
        for (const auto& [proxy, batch] : held_) {
            answers[proxy].push_back({isHeld, batch.version, {}});
        }
        held_.clear();
    }

    // The answers to each proxy, in order.
    std::vector<std::vector<Answer>> answers;

private:
    using Held = std::vector<std::pair<std::size_t, Batch>>;

    // The least previous version leaves first, among equals the earliest arrival.
    Held::iterator nextDue() {
        auto least = std::min_element(held_.begin(), held_.end(), [](auto& one, auto& other) {
            return one.second.previous < other.second.previous;
        });
        const bool isDue = least != held_.end() && least->second.previous <= version_;
        return isDue ? least : held_.end();
    }

    void answer(std::size_t proxy, const Batch& batch) {
        const std::pair place(proxy, batch.version);
        if (batch.previous == version_) {
            const Reply reply = scan_.resolve(batch);
            version_ = batch.version;
            kept_.erase(kept_.lower_bound({proxy, -1}), kept_.upper_bound({proxy, batch.received}));
            kept_.emplace(place, reply);
            answers[proxy].push_back({isReply, batch.version, reply});
            return;
        }
        const auto kept = kept_.find(place);
        if (kept == kept_.end()) {
            answers[proxy].push_back({isNever, batch.version, {}});
        } else {
            answers[proxy].push_back({isReply, batch.version, kept->second});
        }
    }

    Scan scan_;
    Version version_;
    Held held_;
    std::map<std::pair<std::size_t, Version>, Reply> kept_;
};

// The faults of a frame, as docs/WIRE.md numbers them.
enum Fault {
    isShort = 1,
    isLong = 2,
    badKind = 3,
    isTrailing = 4,
    badVersion = 5,
    badMarks = 6,
    badCount = 7,
    badKeyLength = 8,
    isInverted = 9,
    isCut = 10,
    badForm = 13,
    badSpelling = 14
};

// Reads the body of a batch, and throws the first fault.
class Body {
public:
    Body(const unsigned char* bytes, std::size_t length) : at_(bytes), left_(length) {}

    Batch batch() {
        const auto kind = number(1);
        if (kind != 1 && kind != 3) throw badKind;
        const bool hasForms = kind == 3;
        Batch batch;
        batch.previous = version([](Version v) { return v >= -1; });
        batch.version = version([&](Version v) { return v >= 0 && v > batch.previous; });
        batch.received = version([&](Version v) { return v >= -1 && v < batch.version; });
        const auto transactions = count(4096);
        for (unsigned i = 0; i < transactions; i++) batch.transactions.push_back(one(hasForms));
        if (left_ != 0) throw isTrailing;
        return batch;
    }

private:
    std::uint64_t number(std::size_t size) {
        if (left_ < size) throw isCut;
        std::uint64_t number = 0;
        for (std::size_t i = 0; i < size; i++) number = number << 8 | at_[i];
        at_ += size, left_ -= size;
        return number;
    }

    template <typename Holds>
    Version version(Holds holds) {
        const auto version = static_cast<Version>(number(8));
        if (!holds(version)) throw badVersion;
        return version;
    }

    unsigned count(unsigned most) {
        const auto count = static_cast<unsigned>(number(2));
        if (count > most) throw badCount;
        return count;
    }

    Key key(std::size_t most) {
        const auto length = static_cast<std::size_t>(number(2));
        if (length > most) throw badKeyLength;
        if (left_ < length) throw isCut;
        Key key(reinterpret_cast<const char*>(at_), length);
        at_ += length, left_ -= length;
        return key;
    }

    Range range(bool hasForms) {
        const auto form = hasForms ? number(1) : 0;
        if (form > 1) throw badForm;
        Range range;
        range.begin = key(form == 1 ? 10'000 : 10'001);
        if (form == 1) {
            range.end = range.begin + '\0';
            return range;
        }
        range.end = key(10'001);
        if (range.end < range.begin) throw isInverted;
        if (hasForms && range.isSingle()) throw badSpelling;
        return range;
    }

    Transaction one(bool hasForms) {
        Transaction one;
        one.snapshot = version([](Version v) { return v >= 0; });
        const auto marks = number(1);
        if (marks > 1) throw badMarks;
        one.report = marks == 1;
        const unsigned reads = count(1024), writes = count(1024);
        for (unsigned i = 0; i < reads; i++) one.reads.push_back(range(hasForms));
        for (unsigned i = 0; i < writes; i++) one.writes.push_back(range(hasForms));
        return one;
    }

    const unsigned char* at_;
    std::size_t left_;
};

// Returns the length of the frame at the front of the bytes, or throws.
inline std::size_t frameLength(const unsigned char* bytes, std::size_t length) {
    if (length < 4) throw isShort;
    std::size_t body = 0;
    for (std::size_t i = 0; i < 4; i++) body = body << 8 | bytes[i];
    if (body > 4'194'304) throw isLong;
    if (length - 4 < body) throw isShort;
    return 4 + body;
}

// Returns the batch of the frame at the front of the bytes, or throws its first fault.
inline Batch readBatch(const unsigned char* bytes, std::size_t length) {
    const std::size_t frame = frameLength(bytes, length);
    return Body(bytes + 4, frame - 4).batch();
}

} // namespace plain

#endif
