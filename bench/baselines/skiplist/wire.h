// SPDX-License-Identifier: Apache-2.0
// Batches of wire version 1, decoded in memory. Keys are not copied.
#pragma once
#include <cstdint>
#include <cstring>
#include <vector>

struct Bytes {
    const uint8_t* at = nullptr;
    uint32_t size = 0;
};

inline int compare(Bytes a, Bytes b) {
    uint32_t n = a.size < b.size ? a.size : b.size;
    int c = n ? memcmp(a.at, b.at, n) : 0;
    return c ? c : (a.size > b.size) - (a.size < b.size);
}

struct Range {
    Bytes begin, end;
};

struct Txn {
    int64_t snapshot;
    uint32_t first; // the index of its first read; its writes follow the reads
    uint16_t reads, writes;
};

struct Batch {
    int64_t previous, version, received;
    std::vector<Txn> txns;
    std::vector<Range> ranges;
};

class Reader {
public:
    Reader(const uint8_t* from, size_t size) : at_(from), stop_(from + size) {}

    bool done() const { return at_ == stop_; }

    // Decodes the next frame into b. Returns the name of the fault or nullptr.
    const char* next(Batch& b) {
        uint32_t size;
        if (!number(stop_, size)) return "Short";
        if (size > 4194304) return "Long";
        if (size_t(stop_ - at_) < size) return "Short";
        const uint8_t* stop = at_ + size;
        b.txns.clear();
        b.ranges.clear();
        uint8_t kind;
        uint16_t count;
        if (!number(stop, kind)) return "Cut";
        if (kind != 1) return "Kind";
        if (!number(stop, b.previous)) return "Cut";
        if (b.previous < -1) return "Version";
        if (!number(stop, b.version)) return "Cut";
        if (b.version < 0 || b.version <= b.previous) return "Version";
        if (!number(stop, b.received)) return "Cut";
        if (b.received < -1 || b.received >= b.version) return "Version";
        if (!number(stop, count)) return "Cut";
        if (count > 4096) return "Count";
        for (unsigned t = 0; t < count; t++) {
            Txn txn;
            uint8_t marks;
            if (!number(stop, txn.snapshot)) return "Cut";
            if (txn.snapshot < 0) return "Version";
            if (!number(stop, marks)) return "Cut";
            if (marks > 1) return "Marks";
            if (!number(stop, txn.reads)) return "Cut";
            if (txn.reads > 1024) return "Count";
            if (!number(stop, txn.writes)) return "Cut";
            if (txn.writes > 1024) return "Count";
            txn.first = uint32_t(b.ranges.size());
            for (unsigned i = 0; i < unsigned(txn.reads) + txn.writes; i++) {
                Range r;
                if (const char* fault = key(stop, r.begin)) return fault;
                if (const char* fault = key(stop, r.end)) return fault;
                if (compare(r.begin, r.end) > 0) return "Inverted";
                b.ranges.push_back(r);
            }
            b.txns.push_back(txn);
        }
        if (at_ != stop) return "Trailing";
        return nullptr;
    }

private:
    template <class T> bool number(const uint8_t* stop, T& out) {
        if (size_t(stop - at_) < sizeof(T)) return false;
        uint64_t v = 0;
        for (size_t i = 0; i < sizeof(T); i++) v = v << 8 | at_[i];
        at_ += sizeof(T);
        out = T(v);
        return true;
    }

    const char* key(const uint8_t* stop, Bytes& out) {
        uint16_t size;
        if (!number(stop, size)) return "Cut";
        if (size > 10001) return "KeyLength";
        if (stop - at_ < size) return "Cut";
        out.at = at_;
        out.size = size;
        at_ += size;
        return nullptr;
    }

    const uint8_t* at_;
    const uint8_t* stop_;
};
