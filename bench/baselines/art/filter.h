// SPDX-License-Identifier: Apache-2.0
// Single keys by hash: most need neither a search in the tree nor a sort.
#pragma once
#include "art.h"

inline uint64_t mixed(uint64_t a, uint64_t b) {
    unsigned __int128 p = static_cast<unsigned __int128>(a) * b;
    return uint64_t(p) ^ uint64_t(p >> 64);
}

inline uint64_t hash(Ptr k, uint32_t n) {
    static const uint8_t keep[64] = {
        255, 255, 255, 255, 255, 255, 255, 255, 255, 255, 255, 255, 255, 255, 255, 255,
        255, 255, 255, 255, 255, 255, 255, 255, 255, 255, 255, 255, 255, 255, 255, 255};
    const uint64_t a = 0x9E3779B97F4A7C15, b = 0xD6E8FEB86659FD93, c = 0xA0761D6478BD642F;
    uint64_t h = n * a, g = b;
    for (; n > 32; n -= 32, k += 32) {
        h = mixed(h ^ load64(k), a ^ load64(k + 8));
        g = mixed(g ^ load64(k + 16), c ^ load64(k + 24));
    }
    Ptr m = keep + 32 - n; // the last bytes, without those after them
    h = mixed(h ^ (load64(k) & load64(m)), a ^ (load64(k + 8) & load64(m + 8)));
    g = mixed(g ^ (load64(k + 16) & load64(m + 16)), c ^ (load64(k + 24) & load64(m + 24)));
    return mixed(h ^ g, b) * c;
}

// The greatest version of all writes of single keys per cell. A key whose cell
// is not newer than the snapshot was not written since. Cells are never
// cleared: they age.
class Filter {
public:
    void prefetch(uint64_t h) const {
        _mm_prefetch(reinterpret_cast<const char*>(&cells_[h >> shift_]), _MM_HINT_T0);
    }
    Ver newest(uint64_t h) const { return cells_[h >> shift_]; }
    void put(uint64_t h, Ver v) { cells_[h >> shift_] = v; }

    // Grows to that many keys of the window.
    void grow(size_t keys) {
        while (keys * Load > size()) {
            Ver* more = room(size() * 2);
            for (size_t i = 0; i < size(); i++) more[2 * i] = more[2 * i + 1] = cells_[i];
            munmap(cells_, bytes(size()));
            cells_ = more;
            shift_--;
        }
    }
    void rebase(Ver by) {
        for (size_t i = 0; i < size(); i++) cells_[i] = cells_[i] > by ? cells_[i] - by : 0;
    }

private:
    static constexpr size_t Load = 4;
    size_t size() const { return size_t(1) << (64 - shift_); }
    static size_t bytes(size_t cells) {
        return cells * sizeof(Ver) < 4096 ? 4096 : cells * sizeof(Ver);
    }
    static Ver* room(size_t cells) {
        void* p =
            mmap(nullptr, bytes(cells), PROT_READ | PROT_WRITE, MAP_PRIVATE | MAP_ANONYMOUS, -1, 0);
        if (p == MAP_FAILED) throw std::bad_alloc();
        madvise(p, bytes(cells), MADV_HUGEPAGE);
        return static_cast<Ver*>(p);
    }
    unsigned shift_ = 64 - 10;
    Ver* cells_ = room(1 << 10);
};

// The single keys written by a batch so far.
class Keys {
public:
    void clear(size_t most) {
        bits_ = 4;
        while (size_t(1) << bits_ < 2 * most) bits_++;
        cells_.assign(size_t(1) << bits_, Cell{nullptr, 0, 0});
    }
    bool has(uint64_t h, Ptr k, uint32_t n) const {
        for (size_t i = h >> (64 - bits_);; i = (i + 1) & (cells_.size() - 1)) {
            const Cell& c = cells_[i];
            if (!c.key) return false;
            if (c.hash == uint32_t(h) && c.length == n && same(c.key, k, n) == n) return true;
        }
    }
    // Returns false if the key was present.
    bool add(uint64_t h, Ptr k, uint32_t n) {
        for (size_t i = h >> (64 - bits_);; i = (i + 1) & (cells_.size() - 1)) {
            Cell& c = cells_[i];
            if (!c.key) {
                c = Cell{k, uint32_t(h), n};
                return true;
            }
            if (c.hash == uint32_t(h) && c.length == n && same(c.key, k, n) == n) return false;
        }
    }

private:
    struct Cell {
        Ptr key;
        uint32_t hash, length;
    };
    unsigned bits_ = 4;
    std::vector<Cell> cells_;
};
