// SPDX-License-Identifier: Apache-2.0
// The committed writes of the window as a versioned radix tree (ART).
//
// The tree contains entries: keys at which a write begins or ends. An entry has
// two versions: `point` is that of the key itself, `gap` that of all keys
// between the previous entry and this one. A write of a single key is one entry
// with that point. A write [a, b) is the entry a with its point and the entry b
// with its gap, and no entry between them. A write that ends directly after the
// key k (its end is k and a zero byte) ends at k's point instead, so the tree
// never needs both a key and its successor.
//
// Every child of a node is in a slot of 12 bytes:
//   gap    the gap of the first entry below (a copy, so that a search that
//          misses does not visit the neighbour),
//   most   the greatest version of all entries below; of a leaf, its point,
//   child  a leaf (the rest of the key) or a node, as a tagged 32-bit handle.
// The versions are read one memory access before the child. A search stops if
// nothing below is newer than the snapshot. A leaf's memory is read only to
// compare keys.
//
// Versions are 32-bit offsets from a base that batch.h moves. A version before
// the edge may be inexact anywhere in the tree, because no read depends on it.
#pragma once
#include <cstddef>
#include <cstdint>
#include <cstdlib>
#include <cstring>
#include <emmintrin.h>
#include <new>
#include <string>
#include <sys/mman.h>
#include <vector>

typedef uint32_t Ver;
typedef const uint8_t* Ptr;

// All keys are in memory of which 32 more bytes are readable.
inline uint64_t load64(Ptr p) {
    uint64_t v;
    memcpy(&v, p, 8);
    return v;
}
inline uint32_t load32(Ptr p) {
    uint32_t v;
    memcpy(&v, p, 4);
    return v;
}

// Returns a bit for each of the next 32 bytes that differs.
inline uint32_t differ(Ptr x, Ptr y) {
    auto load = [](Ptr p) { return _mm_loadu_si128(reinterpret_cast<const __m128i*>(p)); };
    uint32_t low = uint32_t(_mm_movemask_epi8(_mm_cmpeq_epi8(load(x), load(y))));
    uint32_t high = uint32_t(_mm_movemask_epi8(_mm_cmpeq_epi8(load(x + 16), load(y + 16))));
    return ~(low | high << 16);
}
// Returns the length of the common prefix of n bytes.
inline uint32_t same(Ptr x, Ptr y, uint32_t n) {
    uint32_t i = 0;
    for (; n - i > 31; i += 32)
        if (uint32_t d = differ(x + i, y + i)) return i + uint32_t(__builtin_ctz(d));
    return i + uint32_t(__builtin_ctz(differ(x + i, y + i) | 1u << (n - i)));
}

struct Slot {
    Ver gap, most;
    uint32_t child;
    Ver top() const { return gap > most ? gap : most; }
};

// A handle: 28 bits of address in units of 16 bytes, 4 bits of tag.
enum Tag : uint32_t {
    LeafNone, // a leaf with no bytes left
    Leaf16,   // a length byte and up to 15 bytes
    Leaf32,   // up to 31
    LeafLong, // two length bytes
    Inner = 8, // and a node's kind: 4, 8, 16, 32, 64 or 256 children
    FullMore = 13, // 256, after a prefix
    Full = 14      // 256, no prefix: the slot can be read before the node
};
constexpr uint32_t TagBits = 4, TagMask = 15;
constexpr uint32_t None = ~0u;

inline bool inner(uint32_t h) { return h & Inner; }

// Followed by 4 .. 64 sorted key bytes, or by a bitmap of 256 bits; then by the slots.
struct Node {
    uint16_t kind : 4;
    uint16_t count : 12;
    uint16_t length : 15; // of the prefix
    uint16_t own : 1;     // the key up to here is an entry; its gap is that of the slot above
    Ver point;            // the entry's
    union {
        uint8_t bytes[4]; // the prefix
        uint32_t more;    // or the address of a longer one
    };

    static constexpr unsigned Kinds = 6, All = 5;
    static unsigned capacity(unsigned kind) { return 4u << kind; } // of kinds below All
    bool all() const { return kind == All; }
    uint8_t* keys() { return reinterpret_cast<uint8_t*>(this + 1); }
    const uint8_t* keys() const { return reinterpret_cast<Ptr>(this + 1); }
    uint64_t word(unsigned i) const { return load64(keys() + 8 * i); }
    void put(unsigned c) { keys()[c >> 3] |= uint8_t(1 << (c & 7)); }
    void drop(unsigned c) { keys()[c >> 3] &= uint8_t(~(1 << (c & 7))); }
    Slot* slots() { return reinterpret_cast<Slot*>(keys() + (all() ? 32 : capacity(kind))); }
    const Slot* slots() const { return const_cast<Node*>(this)->slots(); }

    // A place is the index among the children, or the byte in a node of 256.
    unsigned end() const { return all() ? 256 : count; }
    unsigned byte(unsigned at) const { return all() ? at : keys()[at]; }
    // Returns the place of the first child from byte c.
    unsigned seek(unsigned c) const {
        if (all()) return nextAll(c);
        if (kind <= 2) {
            uint32_t m = reach(keys(), uint8_t(c)) | ~0u << count;
            return unsigned(__builtin_ctz(m));
        }
        uint64_t m = count < 64 ? ~0ull << count : 0;
        for (unsigned i = 0; i < capacity(kind); i += 16)
            m |= uint64_t(reach(keys() + i, uint8_t(c))) << i;
        return m ? unsigned(__builtin_ctzll(m)) : 64;
    }
    unsigned nextAll(unsigned c) const {
        if (c > 255) return 256;
        unsigned w = c >> 6;
        uint64_t m = word(w) & ~0ull << (c & 63);
        while (!m) {
            if (++w == 4) return 256;
            m = word(w);
        }
        return w * 64 + unsigned(__builtin_ctzll(m));
    }
    unsigned first() const { return all() ? nextAll(0) : 0; }
    unsigned after(unsigned at) const { return all() ? nextAll(at + 1) : at + 1; }
    bool at(unsigned place, unsigned c) const { return place < end() && byte(place) == c; }

private:
    // Returns a bit for each of 16 bytes that is c or more.
    static unsigned reach(Ptr p, uint8_t c) {
        __m128i k = _mm_loadu_si128(reinterpret_cast<const __m128i*>(p));
        return unsigned(
            _mm_movemask_epi8(_mm_cmpeq_epi8(_mm_max_epu8(k, _mm_set1_epi8(char(c))), k)));
    }
};
static_assert(sizeof(Node) == 12 && sizeof(Slot) == 12, "layout");

// Memory by size class, in huge pages if the kernel grants them. Freed blocks
// are not accessed until they are reused.
class Arena {
public:
    Arena() {
        void* p = mmap(nullptr, Size, PROT_READ | PROT_WRITE,
                       MAP_PRIVATE | MAP_ANONYMOUS | MAP_NORESERVE, -1, 0);
        if (p == MAP_FAILED) throw std::bad_alloc();
        base_ = static_cast<uint8_t*>(p);
        uint8_t* even = reinterpret_cast<uint8_t*>((reinterpret_cast<uintptr_t>(p) + Huge - 1) &
                                                   ~uintptr_t(Huge - 1));
        used_ = size_t(even - base_);
        madvise(p, Size, MADV_HUGEPAGE); // may fail
    }
    uint8_t* at(uint32_t unit) const { return base_ + (size_t(unit) << 4); }
    uint8_t* of(uint32_t handle) const { return base_ + (size_t(handle >> TagBits) << 4); }

    // Leaves of 16 and 32 bytes, the node kinds, then powers of two from 64.
    static constexpr unsigned L16 = 0, L32 = 1, Nodes = 2, Long = Nodes + Node::Kinds,
                              Classes = Long + 9;
    static size_t size(unsigned c) {
        static const uint16_t sizes[] = {16, 32, 64, 128, 224, 448, 896, 3136};
        return c < Long ? sizes[c] : size_t(64) << (c - Long);
    }
    static unsigned longer(size_t bytes) {
        unsigned c = Long;
        while (size(c) < bytes) c++;
        return c;
    }
    uint32_t take(unsigned c) {
        std::vector<uint32_t>& free = free_[c];
        if (free.empty()) refill(c);
        uint32_t u = free.back();
        free.pop_back();
        if (c <= L32 && free.size() > 8) __builtin_prefetch(at(free[free.size() - 8]), 1);
        return u;
    }
    void give(unsigned c, uint32_t unit) { free_[c].push_back(unit); }

private:
    static constexpr size_t Size = size_t(4) << 30, Huge = 2 << 20, Slab = 1 << 16;
    void refill(unsigned c) {
        if (used_ + Slab > Size) throw std::bad_alloc();
        size_t s = size(c), n = Slab / s;
        for (size_t i = n; i-- > 0;) free_[c].push_back(uint32_t((used_ + i * s) >> 4));
        used_ += Slab;
    }
    uint8_t* base_;
    size_t used_;
    std::vector<uint32_t> free_[Classes];
};

class Tree {
public:
    enum Kind : uint8_t { Empty, Point, Before, Upto }; // Upto: up to b and b itself

    struct Range {
        Ptr a, b;
        uint32_t alen, blen, common; // of a point `common` is alen
        Kind kind;
    };

    Tree() { root_ = Slot{0, 0, None}; }
    Tree(const Tree&) = delete;
    Tree& operator=(const Tree&) = delete;

    size_t entries() const { return entries_; }
    // Whether a range of more than one key was written since.
    bool ranges(Ver since) const { return ranges_ > since; }

    // Looks many ranges up. `more(range, snapshot, number)` supplies the next
    // one; `hit(number)` is called for each that has a version above its snapshot.
    // Several searches advance in turn by one node, so that the memory of one
    // arrives while the others work.
    template <class More, class Hit> void ask(More more, Hit hit) {
        Probe probes[Ways];
        unsigned n = 0;
        while (n < Ways && more(probes[n].r, probes[n].snapshot, probes[n].number))
            start(probes[n++]);
        bool open = n == Ways;
        while (n) {
            for (unsigned i = 0; i < n;) {
                Probe& p = probes[i];
                int got = p.snapshot < ranges_ ? step<true>(p) : step<false>(p);
                if (got == Go) {
                    i++;
                    continue;
                }
                if (got == Yes) hit(p.number);
                if (open && more(p.r, p.snapshot, p.number)) {
                    start(p);
                    i++;
                } else {
                    open = false;
                    if (i != --n) p = probes[n];
                }
            }
        }
    }

    // Writes ranges at version v. They neither overlap nor touch; those of more
    // than one key are in key order. A group of them descends in turn, each to
    // the slot below which more than greatest versions changes. Then they are
    // settled one by one. A descent whose slot an earlier one moved starts again.
    void write(const std::vector<Range>& all, Ver v) {
        now_ = v;
        Way ways[Group];
        for (const Range& r : all)
            if (r.kind != Point) ranges_ = v;
        for (size_t at = 0; at < all.size(); at += Group) {
            unsigned many = unsigned(all.size() - at < Group ? all.size() - at : Group);
            uint8_t live[Group];
            for (unsigned i = 0; i < many; i++) {
                ways[i] = Way{&root_, None, 0};
                live[i] = uint8_t(i);
            }
            unsigned left = many;
            while (left) {
                unsigned keep = 0;
                for (unsigned i = 0; i < left; i++) {
                    live[keep] = live[i];
                    keep += down(ways[live[i]], all[at + live[i]]);
                }
                left = keep;
            }
            moved_.clear();
            for (unsigned i = 0; i < many; i++) {
                Way& w = ways[i];
                for (uint32_t m : moved_) {
                    if (m != w.parent >> TagBits) continue;
                    w = Way{&root_, None, 0};
                    while (down(w, all[at + i])) {
                    }
                    break;
                }
                settle(w, all[at + i]);
            }
        }
    }

    // Visits `count` entries from `resume` and removes those that change no version from the edge.
    void sweep(Ver edge, std::string& resume, size_t count) {
        if (root_.child == None) return;
        Sweep s{edge, long(count), false, std::string()};
        resume.append(48, '\0');
        Ptr from = reinterpret_cast<Ptr>(resume.data());
        if (clean(&root_, 0, s, resume.size() == 48 ? nullptr : from, uint32_t(resume.size() - 48),
                  0))
            root_ = Slot{0, 0, None};
        resume.assign(s.stopped ? s.path : std::string());
    }

    // Subtracts `by` from all versions, down to 0.
    void rebase(Ver by) {
        lower(root_, by);
        ranges_ = ranges_ > by ? ranges_ - by : 0;
    }

private:
    static constexpr unsigned Ways = 16, Group = 16;
    enum Step { No, Yes, Go };

    struct Probe {
        Range r;
        Ver snapshot;
        uint32_t number;
        Slot s;         // the slot that the search has reached
        uint32_t d;     // bytes of the key above
        const Node* up; // the node that contains it
        uint32_t place;
    };

    // Returns the gap after all entries below the slot of key bytes [0, d).
    Ver behind(const Node* up, uint32_t place, Ptr k, uint32_t d) const {
        if (!up || !ranges_) return 0;
        unsigned after = up->after(place);
        if (after < up->end()) return up->slots()[after].gap;
        Ver next = 0;
        const Slot* s = &root_;
        for (uint32_t i = 0; i < d; i++) {
            const Node* n = node(s->child);
            i += n->length;
            unsigned at = n->seek(k[i]);
            next = nextOf(n, at, next);
            s = n->slots() + at;
        }
        return next;
    }
    Ver behind(const Probe& p) const { return behind(p.up, p.place, p.r.a, p.d); }

    Node* node(uint32_t h) const { return reinterpret_cast<Node*>(arena_.of(h)); }
    Ptr prefix(const Node* n) const { return n->length <= 4 ? n->bytes : arena_.at(n->more); }
    Ptr leaf(uint32_t h, uint32_t& length) const {
        if (h == LeafNone) {
            length = 0;
            static const uint8_t nothing[48] = {};
            return nothing;
        }
        Ptr p = arena_.of(h);
        if ((h & TagMask) == LeafLong) {
            length = p[0] | p[1] << 8;
            return p + 2;
        }
        length = p[0];
        return p + 1;
    }
    // -1, 0, 1: the leaf is below, at or above the rest of the key.
    int compareLeaf(uint32_t h, Ptr k, uint32_t n) const {
        uint32_t length;
        Ptr p = leaf(h, length);
        uint32_t m = length < n ? length : n, c = same(p, k, m);
        if (c < m) return p[c] < k[c] ? -1 : 1;
        return length == n ? 0 : length < n ? -1 : 1;
    }
    // Returns how many bytes of the prefix the key has.
    uint32_t match(const Node* n, Ptr k, uint32_t rest) const {
        uint32_t m = n->length;
        if (m <= 4) {
            uint64_t x = uint64_t(load32(k) ^ load32(n->bytes)) | 1ull << 8 * m;
            m = uint32_t(__builtin_ctzll(x)) >> 3;
            return m < rest ? m : rest;
        }
        if (rest < m) m = rest;
        return same(arena_.at(n->more), k, m);
    }
    // -1: the key is below all keys with the prefix; 0: it has the prefix; 1: it is above.
    int side(const Node* n, Ptr k, uint32_t rest) const {
        uint32_t m = match(n, k, rest);
        if (m == n->length) return 0;
        if (m == rest) return -1;
        return k[m] < prefix(n)[m] ? -1 : 1;
    }

    static void fetch(const void* p) { _mm_prefetch(static_cast<const char*>(p), _MM_HINT_T0); }
    // k: the remaining bytes of the key
    template <bool Writes> void fetch(uint32_t h, Ptr k) const {
        const uint8_t* p = arena_.of(h);
        switch (h & TagMask) {
        case LeafNone: return;
        case Inner + 1:
            fetch(p);
            fetch(p + 64);
            return;
        case Inner + 2:
            fetch(p);
            fetch(p + 64);
            fetch(p + 128);
            fetch(p + 192);
            return;
        case Inner + 3:
        case Inner + 4:
            fetch(p);
            fetch(p + 64);
            return;
        case Full:
            if (Writes) fetch(p);
            fetch(p + 44 + 12 * k[0]);
            return;
        default: fetch(p);
        }
    }

    // ---- searches ----

    void start(Probe& p) const {
        p.s = root_;
        p.d = 0;
        p.up = nullptr;
        p.place = 0;
    }

    // Descends by one node. Begin and end of a range descend together while their
    // bytes are equal. Without Gaps, only points can be newer than the snapshot.
    template <bool Gaps> inline __attribute__((always_inline)) int step(Probe& p) const {
        const uint32_t h = p.s.child;
        const Ver snap = p.snapshot;
        if (!inner(h)) return last<Gaps>(p);
        if (h == None) return No;
        const Node* n = node(h);
        const uint32_t tag = h & TagMask;
        const uint32_t length = tag == Full ? 0 : n->length;
        if (p.d + length >= p.r.common) return last<Gaps>(p);
        Ptr k = p.r.a + p.d;
        if (length) {
            uint32_t m = match(n, k, length);
            if (m != length)
                return Gaps ? (k[m] < prefix(n)[m] ? p.s.gap : behind(p)) > snap : false;
        }
        unsigned c = k[length], at = c;
        const Slot* s;
        if (tag >= FullMore) {
            s = reinterpret_cast<const Slot*>(n->keys() + 32) + c;
            if (s->child == None) {
                if (!Gaps) return No;
                unsigned next = n->nextAll(c + 1);
                return (next < 256 ? n->slots()[next].gap : behind(p)) > snap;
            }
        } else {
            at = n->seek(c);
            s = n->slots() + at;
            if (at == n->count) return Gaps ? behind(p) > snap : false;
            if (n->keys()[at] != c) return Gaps ? s->gap > snap : false;
        }
        if (s->most <= snap) {
            if (!Gaps) return No;
            if (s->gap <= snap) {
                unsigned next = n->after(at);
                if ((next < n->end() ? n->slots()[next].gap : behind(p)) <= snap) return No;
            }
        }
        p.s = *s;
        p.up = n;
        p.place = at;
        p.d += length + 1;
        fetch<false>(p.s.child, p.r.a + p.d);
        return Go;
    }

    // Ends the search, or separates begin and end.
    template <bool Gaps> int last(const Probe& p) const {
        const Range& r = p.r;
        const Slot& s = p.s;
        const Ver snap = p.snapshot;
        if (r.kind != Point) {
            int got = near(p);
            return got != Go
                       ? got
                       : between(s, r.a, r.alen, r.b, r.blen, r.kind == Upto, p.d, snap, behind(p));
        }
        Ptr k = r.a + p.d;
        uint32_t rest = r.alen - p.d;
        if (!inner(s.child)) {
            int c = compareLeaf(s.child, k, rest);
            if (!Gaps) return c == 0 && s.most > snap;
            return (c == 0 ? s.most : c < 0 ? behind(p) : s.gap) > snap;
        }
        if (s.child == None) return No;
        const Node* n = node(s.child);
        int c = side(n, k, rest);
        if (c) return Gaps ? (c < 0 ? s.gap : behind(p)) > snap : false;
        return (n->own ? n->point : s.gap) > snap; // the key has no more bytes
    }

    // The usual case of a short range: begin and end differ in their last byte, in a node of sorted
    // children.
    int near(const Probe& p) const {
        const Range& r = p.r;
        const uint32_t h = p.s.child;
        if (r.kind != Before || !inner(h) || (h & TagMask) >= FullMore || r.alen != r.blen ||
            r.common + 1 != r.alen)
            return Go;
        const Node* n = node(h);
        const uint32_t length = n->length;
        if (p.d + length != r.common) return Go;
        if (length && match(n, r.a + p.d, length) != length) return Go;
        const uint8_t a = r.a[r.common], b = r.b[r.common];
        unsigned at = n->seek(a), to = n->seek(b);
        const Slot* s = n->slots();
        if (at < n->count && n->keys()[at] == a) {
            if (s[at].child != LeafNone) return Go;
            if (s[at].most > p.snapshot) return Yes;
            at++;
        }
        for (; at < to; at++)
            if (s[at].top() > p.snapshot) return Yes;
        if (to == n->count) return behind(p) > p.snapshot;
        return s[to].gap > p.snapshot; // nothing below that slot is before b
    }

    static Ver nextOf(const Node* n, unsigned at, Ver next) {
        unsigned after = n->after(at);
        return after < n->end() ? n->slots()[after].gap : next;
    }
    // Whether a child from place `from` on and before `to` has a newer version.
    static bool any(const Node* n, unsigned from, unsigned to, Ver snap) {
        const Slot* s = n->slots();
        if (n->all()) {
            for (unsigned i = n->nextAll(from); i < to; i = n->nextAll(i + 1))
                if (s[i].top() > snap) return true;
            return false;
        }
        for (unsigned i = from; i < to; i++)
            if (s[i].top() > snap) return true;
        return false;
    }

    // The keys from a to the last of the child.
    bool from(const Slot& s, Ptr a, uint32_t alen, uint32_t d, Ver snap, Ver next) const {
        if (next > snap) return true;
        if (s.top() <= snap) return false;
        if (!inner(s.child)) {
            int c = compareLeaf(s.child, a + d, alen - d);
            return c < 0 ? false : c == 0 ? s.most > snap : true;
        }
        const Node* n = node(s.child);
        int c = side(n, a + d, alen - d);
        if (c) return c < 0;
        d += n->length;
        if (d == alen) return (n->own ? n->point : s.gap) > snap || any(n, 0, n->end(), snap);
        unsigned at = n->seek(a[d]);
        if (n->at(at, a[d])) {
            if (from(n->slots()[at], a, alen, d + 1, snap, nextOf(n, at, next))) return true;
            at = n->after(at);
        }
        return any(n, at, n->end(), snap);
    }

    // The keys before b (or up to b) that are after all previous slots.
    bool upto(const Slot& s, Ptr b, uint32_t blen, bool whole, uint32_t d, Ver snap,
              Ver next) const {
        if (s.gap > snap) return true;
        if (s.most <= snap && next <= snap) return false;
        if (!inner(s.child)) {
            int c = compareLeaf(s.child, b + d, blen - d);
            return c > 0 ? false : c == 0 ? whole && s.most > snap : true;
        }
        const Node* n = node(s.child);
        int c = side(n, b + d, blen - d);
        if (c) return c > 0;
        d += n->length;
        if (d == blen) return whole && n->own && n->point > snap;
        if (n->own && n->point > snap) return true;
        unsigned at = n->seek(b[d]);
        if (any(n, 0, at, snap)) return true;
        if (n->at(at, b[d]))
            return upto(n->slots()[at], b, blen, whole, d + 1, snap, nextOf(n, at, next));
        return (at < n->end() ? n->slots()[at].gap : next) > snap;
    }

    bool between(Slot s, Ptr a, uint32_t alen, Ptr b, uint32_t blen, bool whole, uint32_t d,
                 Ver snap, Ver next) const {
        for (;;) {
            if (s.child == None) return false;
            if (!inner(s.child)) {
                int ca = compareLeaf(s.child, a + d, alen - d);
                if (ca < 0) return next > snap;
                int cb = compareLeaf(s.child, b + d, blen - d);
                if (cb > 0 || (cb == 0 && !whole)) return s.gap > snap;
                return s.most > snap || (ca > 0 && s.gap > snap) || (cb < 0 && next > snap);
            }
            if (s.top() <= snap && next <= snap) return false;
            const Node* n = node(s.child);
            int ca = side(n, a + d, alen - d);
            if (ca > 0) return next > snap;
            int cb = side(n, b + d, blen - d);
            if (cb < 0) return s.gap > snap;
            if (ca < 0) return cb > 0 || upto(s, b, blen, whole, d, snap, next);
            if (cb > 0) return from(s, a, alen, d, snap, next);
            d += n->length;
            if (d == blen) return (n->own ? n->point : s.gap) > snap;
            unsigned to = n->seek(b[d]), at;
            const Slot* slots = n->slots();
            if (d == alen) {
                if ((n->own ? n->point : s.gap) > snap) return true;
                at = n->first();
            } else {
                at = n->seek(a[d]);
                bool is = n->at(at, a[d]);
                if (a[d] == b[d]) {
                    if (!is) return (at < n->end() ? slots[at].gap : next) > snap;
                    next = nextOf(n, at, next);
                    s = slots[at];
                    d++;
                    continue;
                }
                if (is) {
                    if (from(slots[at], a, alen, d + 1, snap, nextOf(n, at, next))) return true;
                    at = n->after(at);
                }
            }
            if (any(n, at, to, snap)) return true;
            if (n->at(to, b[d]))
                return upto(slots[to], b, blen, whole, d + 1, snap, nextOf(n, to, next));
            return (to < n->end() ? slots[to].gap : next) > snap;
        }
    }

    // ---- writes ----

    // The progress of a write: `s` is the slot below which it changes entries.
    struct Way {
        Slot* s;
        uint32_t parent; // the node that contains s
        uint32_t d;
    };
    Ver behind(const Way& w, const Range& r) const {
        if (w.parent == None || !ranges_) return 0;
        const Node* n = node(w.parent);
        return behind(n, uint32_t(w.s - n->slots()), r.a, w.d);
    }

    // Descends to the next node while only greatest versions change.
    inline bool down(Way& w, const Range& r) {
        uint32_t h = w.s->child;
        if (!inner(h) || h == None) return false;
        Node* n = node(h);
        uint32_t length = (h & TagMask) == Full ? 0 : n->length;
        if (w.d + length >= r.common) return false;
        Ptr k = r.a + w.d;
        if (length && match(n, k, length) != length) return false;
        unsigned c = k[length], at = c;
        if ((h & TagMask) >= FullMore) {
            if (n->slots()[c].child == None) return false;
        } else {
            at = n->seek(c);
            if (!n->at(at, c)) return false;
        }
        w.s->most = now_;
        w.s = n->slots() + at;
        w.parent = h;
        w.d += length + 1;
        fetch<true>(w.s->child, r.a + w.d);
        return true;
    }

    enum Role { First, Last, Behind }; // first or last key of a write, or the key directly after

    struct Made {
        Ver point, gap;
    };
    Made made(Role role, Ver gap) const {
        return role == First ? Made{now_, gap} : role == Last ? Made{now_, now_} : Made{gap, now_};
    }
    void change(Role role, Ver& point, Ver& gap) const {
        if (role != Behind) point = now_;
        if (role != First) gap = now_;
    }

    void settle(const Way& w, const Range& r) {
        if (r.kind == Point) {
            const uint32_t h = w.s->child;
            // the usual case of a new key among many
            if ((h & TagMask) == Full && h != None && !ranges_ && r.alen > w.d) {
                Node* n = node(h);
                const unsigned c = r.a[w.d];
                if (n->slots()[c].child == None) {
                    w.s->most = now_;
                    n->put(c);
                    n->count++;
                    n->slots()[c] = Slot{0, now_, makeLeaf(r.a + w.d + 1, r.alen - w.d - 1)};
                    entries_++;
                    return;
                }
            }
            enter(w.s, r.a, r.alen, w.d, First, behind(w, r));
            return;
        }
        if (inNode(w, r)) return;
        const Ver next = behind(w, r);
        enter(w.s, r.a, r.alen, w.d, First, next);
        enter(w.s, r.b, r.blen, w.d, r.kind == Upto ? Last : Behind, next);
        cut(w.s, r.a, r.alen, r.b, r.blen, w.d);
    }

    // The usual case of a short range: both keys end in one node of sorted
    // children, at leaves or at free places. Returns false otherwise.
    bool inNode(const Way& w, const Range& r) {
        uint32_t h = w.s->child;
        if (r.kind != Before || r.alen != r.blen || !inner(h) || h == None) return false;
        Node* n = node(h);
        uint32_t length = n->length;
        if (n->all() || w.d + length + 1 != r.alen || r.common != w.d + length) return false;
        if (length && match(n, r.a + w.d, length) != length) return false;
        unsigned a = r.a[r.alen - 1], b = r.b[r.blen - 1];
        unsigned at = n->seek(a), to = n->seek(b);
        Slot* s = n->slots();
        bool isA = n->at(at, a), isB = n->at(to, b);
        if ((isA && s[at].child != LeafNone) || (isB && s[to].child != LeafNone)) return false;
        unsigned inside = to - at - isA;           // go
        unsigned more = unsigned(!isA) + !isB;     // come
        if (n->count - inside + more > Node::capacity(n->kind)) return false;
        const Ver next = to == n->count ? behind(w, r) : 0;
        Ver gapA = at < n->count ? s[at].gap : next;
        Made end = isB ? Made{s[to].most, now_} : Made{to < n->count ? s[to].gap : next, now_};
        for (unsigned i = at + isA; i < to; i++) dropAll(s[i].child);
        // a at `at`, b at at + 1, then the slots from to + isB
        unsigned rest = n->count - to - isB;
        if (at + 2 != to + isB) shift(n, at + 2, to + isB, rest);
        if (at + 2 != to + isB) moved_.push_back(h >> TagBits);
        n->keys()[at] = uint8_t(a);
        n->keys()[at + 1] = uint8_t(b);
        s[at] = Slot{gapA, now_, LeafNone};
        s[at + 1] = Slot{end.gap, end.point, LeafNone};
        n->count = (at + 2 + rest) & 4095;
        entries_ += more;
        w.s->most = now_;
        return true;
    }

    // Inserts the entry of a key if needed and sets its versions. `next`: the gap after all entries
    // below s.
    void enter(Slot* s, Ptr k, uint32_t len, uint32_t d, Role role, Ver next) {
        for (;;) {
            uint32_t h = s->child, rest = len - d;
            if (h == None) {
                Made m = made(role, next);
                *s = Slot{m.gap, m.point, makeLeaf(k + d, rest)};
                entries_++;
                return;
            }
            if (!inner(h)) {
                uint32_t length;
                Ptr p = leaf(h, length);
                uint32_t least = length < rest ? length : rest, c = same(p, k + d, least);
                if (c == length && c == rest) {
                    change(role, s->most, s->gap);
                    return;
                }
                bool first = c == rest || (c < length && k[d + c] < p[c]);
                Made m = made(role, first ? s->gap : next);
                uint32_t more = makeNode(0, k + d, c);
                Node* n = node(more);
                if (c == length) n->own = 1, n->point = s->most;
                else append(n, p[c], Slot{s->gap, s->most, makeLeaf(p + c + 1, length - c - 1)});
                fork(s, n, more, k + d, rest, c, first, m);
                freeLeaf(h);
                return;
            }
            Node* n = node(h);
            uint32_t c = match(n, k + d, rest);
            if (c < n->length) {
                uint8_t pb = prefix(n)[c];
                bool first = c == rest || k[d + c] < pb;
                Made m = made(role, first ? s->gap : next);
                uint32_t more = makeNode(0, k + d, c);
                Node* f = node(more);
                setPrefix(n, prefix(n) + c + 1, n->length - c - 1);
                append(f, pb, Slot{s->gap, s->most, handle(h >> TagBits, n)});
                fork(s, f, more, k + d, rest, c, first, m);
                return;
            }
            d += n->length;
            if (d == len) {
                if (n->own) {
                    Ver point = n->point;
                    change(role, point, s->gap);
                    n->point = point;
                } else {
                    Made m = made(role, s->gap);
                    n->own = 1;
                    n->point = m.point;
                    s->gap = m.gap;
                    entries_++;
                }
                s->most = now_;
                return;
            }
            unsigned at = n->seek(k[d]);
            if (n->at(at, k[d])) {
                if (ranges_) next = nextOf(n, at, next);
                s->most = now_;
                s = n->slots() + at;
                d++;
                continue;
            }
            Made m = made(role, !ranges_ ? 0 : at < n->end() ? n->slots()[at].gap : next);
            if (role != First && !n->own && at == n->first()) s->gap = m.gap;
            s->most = now_;
            insert(s, n, at, k[d], Slot{m.gap, m.point, makeLeaf(k + d + 1, len - d - 1)});
            entries_++;
            return;
        }
    }

    // Adds the branch of the new key to a fork that has one branch.
    void fork(Slot* s, Node* n, uint32_t h, Ptr k, uint32_t rest, uint32_t c, bool first, Made m) {
        if (c == rest) {
            n->own = 1;
            n->point = m.point;
        } else {
            Slot x{m.gap, m.point, makeLeaf(k + c + 1, rest - c - 1)};
            if (n->count && first) {
                n->keys()[1] = n->keys()[0];
                n->slots()[1] = n->slots()[0];
                n->keys()[0] = k[c];
                n->slots()[0] = x;
                n->count = 2;
            } else {
                append(n, k[c], x);
            }
        }
        if (first) s->gap = m.gap;
        s->most = now_;
        s->child = h;
        entries_++;
    }

    // Moves `many` children.
    static void shift(Node* n, unsigned to, unsigned from, unsigned many) {
        uint8_t* k = n->keys();
        Slot* s = n->slots();
        if (many > 16) {
            memmove(k + to, k + from, many);
            memmove(s + to, s + from, many * sizeof(Slot));
        } else if (to > from) {
            for (unsigned i = many; i-- > 0;) {
                k[to + i] = k[from + i];
                s[to + i] = s[from + i];
            }
        } else {
            for (unsigned i = 0; i < many; i++) {
                k[to + i] = k[from + i];
                s[to + i] = s[from + i];
            }
        }
    }

    static void append(Node* n, uint8_t byte, Slot x) {
        n->keys()[n->count] = byte;
        n->slots()[n->count++] = x;
    }

    void insert(Slot* s, Node* n, unsigned at, uint8_t byte, Slot x) {
        if (!n->all() && n->count == Node::capacity(n->kind)) {
            n = resize(s, n, n->kind + 1u);
            if (n->all()) at = byte;
        }
        if (n->all()) {
            n->put(byte);
            n->slots()[byte] = x;
            n->count++;
            return;
        }
        moved_.push_back(s->child >> TagBits);
        shift(n, at + 1, at, n->count - at);
        n->keys()[at] = byte;
        n->slots()[at] = x;
        n->count++;
    }

    // Removes all entries strictly between a and b (or from the first, or to the
    // last, of the slot). Without a, b becomes the first.
    void cut(Slot* s, Ptr a, uint32_t alen, Ptr b, uint32_t blen, uint32_t d) {
        if (!a) s->gap = now_;
        if (!inner(s->child)) return;
        Node* n = node(s->child);
        d += n->length;
        if (b && d == blen) return; // no entry below is before b
        unsigned from, to = b ? n->seek(b[d]) : n->end();
        if (!a) {
            if (n->own) {
                n->own = 0;
                entries_--;
            }
            from = n->first();
        } else if (d == alen) {
            from = n->first();
        } else {
            from = n->seek(a[d]);
            if (from == to) {
                cut(n->slots() + from, a, alen, b, blen, d + 1);
                return;
            }
            cut(n->slots() + from, a, alen, nullptr, 0, d + 1);
            from = n->after(from);
        }
        if (b) cut(n->slots() + to, nullptr, 0, b, blen, d + 1);
        if (from < to) {
            Slot* slots = n->slots();
            if (n->all()) {
                for (unsigned i = from; i < to; i = n->nextAll(i + 1)) {
                    dropAll(slots[i].child);
                    remove(n, i);
                }
            } else {
                for (unsigned i = from; i < to; i++) dropAll(slots[i].child);
                moved_.push_back(s->child >> TagBits);
                shift(n, from, to, n->count - to);
                n->count = (n->count - (to - from)) & 4095;
            }
        }
        tidy(s);
    }

    static void remove(Node* n, unsigned c) {
        n->drop(c);
        n->slots()[c].child = None;
        n->count--;
    }

    // Frees all entries below and returns their number.
    size_t dropAll(uint32_t h) {
        if (!inner(h)) {
            freeLeaf(h);
            entries_--;
            return 1;
        }
        Node* n = node(h);
        size_t seen = n->own;
        entries_ -= n->own;
        for (unsigned i = n->first(); i < n->end(); i = n->after(i))
            seen += dropAll(n->slots()[i].child);
        freeNode(h, n);
        return seen;
    }

    // After removals: replaces the node by a smaller one, or removes it. It isn't inlined, so that
    // its locals are out of the frames of the recursion.
    __attribute__((noinline)) void tidy(Slot* s) {
        Node* n = node(s->child);
        unsigned many = n->count;
        if (many == 0) {
            uint32_t h = s->child;
            s->most = n->point;
            s->child = makeLeaf(prefix(n), n->length);
            freeNode(h, n);
            return;
        }
        if (many == 1 && !n->own) {
            uint32_t h = s->child, length = n->length;
            unsigned at = n->first();
            Slot x = n->slots()[at];
            uint8_t room[10100 + 48];
            memcpy(room, prefix(n), length);
            room[length++] = uint8_t(n->byte(at));
            if (inner(x.child)) {
                Node* m = node(x.child);
                memcpy(room + length, prefix(m), m->length);
                setPrefix(m, room, length + m->length);
                x.child = handle(x.child >> TagBits, m);
            } else {
                uint32_t more;
                Ptr p = leaf(x.child, more);
                memcpy(room + length, p, more);
                freeLeaf(x.child);
                x.child = makeLeaf(room, length + more);
            }
            freeNode(h, n);
            *s = x;
            return;
        }
        unsigned kind = n->kind;
        while (kind && many <= Node::capacity(kind - 1) * 3 / 4) kind--;
        if (kind != n->kind) resize(s, n, kind);
    }

    // ---- nodes and leaves ----

    static uint32_t handle(uint32_t unit, const Node* n) {
        return unit << TagBits | (n->all() ? n->length ? FullMore : Full : Inner + n->kind);
    }

    uint32_t makeNode(unsigned kind, Ptr p, uint32_t length) {
        uint32_t unit = arena_.take(Arena::Nodes + kind);
        Node* n = reinterpret_cast<Node*>(arena_.at(unit));
        n->kind = uint16_t(kind & 15);
        n->count = 0;
        n->own = 0;
        n->length = 0;
        n->point = 0;
        n->more = 0;
        setPrefix(n, p, length);
        return handle(unit, n);
    }

    // The new bytes may overlap the old prefix.
    void setPrefix(Node* n, Ptr p, uint32_t length) {
        uint32_t before = n->length, at = n->more;
        if (length <= 4) {
            uint8_t bytes[4] = {};
            memcpy(bytes, p, length);
            memcpy(n->bytes, bytes, 4);
        } else {
            uint32_t unit = arena_.take(Arena::longer(length + 16));
            memcpy(arena_.at(unit), p, length);
            n->more = unit;
        }
        n->length = uint16_t(length & 0x7fff);
        if (before > 4) arena_.give(Arena::longer(before + 16), at);
    }

    void freeNode(uint32_t h, Node* n) {
        moved_.push_back(h >> TagBits);
        if (n->length > 4) arena_.give(Arena::longer(n->length + 16u), n->more);
        arena_.give(Arena::Nodes + n->kind, h >> TagBits);
    }

    Node* resize(Slot* s, Node* n, unsigned kind) {
        uint32_t unit = arena_.take(Arena::Nodes + kind);
        Node* m = reinterpret_cast<Node*>(arena_.at(unit));
        *m = *n;
        m->kind = uint16_t(kind & 15);
        if (m->all()) {
            memset(m->keys(), 0, 32);
            for (unsigned i = 0; i < 256; i++) m->slots()[i].child = None;
            for (unsigned i = 0; i < n->count; i++) {
                m->put(n->keys()[i]);
                m->slots()[n->keys()[i]] = n->slots()[i];
            }
        } else if (n->all()) {
            m->count = 0;
            for (unsigned i = n->first(); i < 256; i = n->after(i))
                append(m, uint8_t(i), n->slots()[i]);
        } else {
            memcpy(m->keys(), n->keys(), n->count);
            memcpy(m->slots(), n->slots(), n->count * sizeof(Slot));
        }
        moved_.push_back(s->child >> TagBits);
        arena_.give(Arena::Nodes + n->kind, s->child >> TagBits);
        s->child = handle(unit, m);
        return m;
    }

    uint32_t makeLeaf(Ptr p, uint32_t length) {
        if (!length) return LeafNone;
        if (length <= 15) {
            uint32_t unit = arena_.take(Arena::L16);
            uint8_t* to = arena_.at(unit);
            to[0] = uint8_t(length);
            memcpy(to + 1, p, 15); // the bytes after are ignored
            return unit << TagBits | Leaf16;
        }
        if (length <= 31) {
            uint32_t unit = arena_.take(Arena::L32);
            uint8_t* to = arena_.at(unit);
            to[0] = uint8_t(length);
            memcpy(to + 1, p, length);
            return unit << TagBits | Leaf32;
        }
        uint32_t unit = arena_.take(Arena::longer(length + 18));
        uint8_t* to = arena_.at(unit);
        to[0] = uint8_t(length);
        to[1] = uint8_t(length >> 8);
        memcpy(to + 2, p, length);
        return unit << TagBits | LeafLong;
    }

    void freeLeaf(uint32_t h) {
        switch (h & TagMask) {
        case Leaf16: arena_.give(Arena::L16, h >> TagBits); return;
        case Leaf32: arena_.give(Arena::L32, h >> TagBits); return;
        case LeafLong: {
            Ptr p = arena_.of(h);
            arena_.give(Arena::longer((p[0] | p[1] << 8) + 18u), h >> TagBits);
            return;
        }
        default: return;
        }
    }

    // ---- sweep ----

    struct Sweep {
        Ver edge;
        long left;
        bool stopped;
        std::string path;
    };

    // Returns true if no entry remains below. Skips entries below `from`.
    bool clean(Slot* s, Ver next, Sweep& w, Ptr from, uint32_t flen, uint32_t d) {
        if (!inner(s->child)) {
            w.left--;
            if (s->top() >= w.edge || next >= w.edge) return false;
            freeLeaf(s->child);
            entries_--;
            return true;
        }
        if (!from && s->top() < w.edge && next < w.edge) {
            w.left -= long(dropAll(s->child));
            return true;
        }
        Node* n = node(s->child);
        size_t depth = w.path.size();
        bool gone = false;
        unsigned at = n->first();
        if (from) {
            int c = side(n, from + d, flen - d);
            if (c > 0) return false;
            d += n->length;
            if (c < 0 || d == flen) from = nullptr;
            else at = n->seek(from[d]);
        }
        if (!from && n->own) {
            w.left--;
            if (n->point < w.edge && s->gap < w.edge &&
                (at >= n->end() || n->slots()[at].gap < w.edge)) {
                n->own = 0;
                entries_--;
                gone = true;
            }
        }
        w.path.append(reinterpret_cast<const char*>(prefix(n)), n->length);
        Slot* slots = n->slots();
        if (n->all()) {
            unsigned after;
            for (; at < 256; at = after) {
                if (w.left <= 0) {
                    stop(w, at);
                    break;
                }
                after = n->nextAll(at + 1);
                const Ver behind = after < 256 ? slots[after].gap : next;
                if (!inner(slots[at].child)) {
                    w.left--;
                    if (slots[at].top() >= w.edge || behind >= w.edge) continue;
                    freeLeaf(slots[at].child);
                    entries_--;
                    remove(n, at);
                    gone = true;
                    continue;
                }
                if (after < 253) { // the next nodes
                    if (slots[after + 2].child != None && inner(slots[after + 2].child))
                        ahead(slots[after + 2].child);
                    if (slots[after].child != None && inner(slots[after].child))
                        ahead(slots[after].child);
                }
                bool same = from && from[d] == at;
                w.path.push_back(char(at));
                bool empty = clean(slots + at, behind, w, same ? from : nullptr, flen, d + 1);
                if (w.stopped && !empty) break;
                w.path.pop_back();
                if (empty) {
                    remove(n, at);
                    gone = true;
                }
                if (w.stopped) break;
            }
        } else {
            unsigned to = at, end = n->count;
            for (unsigned i = at; i < end && i < at + 2; i++)
                if (inner(slots[i].child)) fetch(arena_.of(slots[i].child));
            for (; at < end; at++) {
                if (w.left <= 0) {
                    stop(w, n->keys()[at]);
                    break;
                }
                if (at + 2 < end && inner(slots[at + 2].child))
                    fetch(arena_.of(slots[at + 2].child));
                bool same = from && from[d] == n->keys()[at];
                bool empty;
                if (!inner(slots[at].child)) {
                    w.left--;
                    empty = slots[at].top() < w.edge &&
                            (at + 1 < end ? slots[at + 1].gap : next) < w.edge;
                    if (empty) {
                        freeLeaf(slots[at].child);
                        entries_--;
                    }
                } else {
                    w.path.push_back(char(n->keys()[at]));
                    empty = clean(slots + at, at + 1 < end ? slots[at + 1].gap : next, w,
                                  same ? from : nullptr, flen, d + 1);
                    if (!w.stopped) w.path.pop_back();
                }
                if (!empty) {
                    if (to != at) {
                        slots[to] = slots[at];
                        n->keys()[to] = n->keys()[at];
                    }
                    to++;
                }
                if (w.stopped) {
                    at++;
                    break;
                }
            }
            if (to != at) {
                gone = true;
                shift(n, to, at, end - at);
                n->count = (end - (at - to)) & 4095;
            }
        }
        if (!w.stopped) w.path.resize(depth);
        if (!gone) return false;
        if (!unsigned(n->count) && !n->own) {
            freeNode(s->child, n);
            moved_.clear();
            return true;
        }
        tidy(s);
        moved_.clear();
        return false;
    }
    void ahead(uint32_t h) const {
        fetch(arena_.of(h));
        fetch(arena_.of(h) + 64);
    }
    static void stop(Sweep& w, unsigned byte) {
        w.path.push_back(char(byte));
        w.stopped = true;
    }

    void lower(Slot& s, Ver by) {
        s.gap = s.gap > by ? s.gap - by : 0;
        s.most = s.most > by ? s.most - by : 0;
        if (!inner(s.child) || s.child == None) return;
        Node* n = node(s.child);
        n->point = n->point > by ? n->point - by : 0;
        for (unsigned i = n->first(); i < n->end(); i = n->after(i)) lower(n->slots()[i], by);
    }

    Arena arena_;
    Slot root_;
    Ver now_ = 0;
    Ver ranges_ = 0; // the newest write of more than one key
    size_t entries_ = 0;
    std::vector<uint32_t> moved_; // nodes whose slots moved
};
