// SPDX-License-Identifier: Apache-2.0
// The committed writes of the window as a skip list that remembers versions.
//
// The nodes are the boundaries of a step function from keys to versions. At
// level 0 a node's version holds from its key up to the next node's key; at a
// higher level it is the greatest version of the level-0 nodes from the node
// up to its next one at that level. The head node has no key and comes before
// all others.
#pragma once
#include "wire.h"
#include <cstddef>
#include <cstdlib>
#include <new>
#include <string>
#include <vector>

// This source makes two programs. The tuned one prefetches in one more place and
// skips common prefixes when it sorts.
#ifdef TUNED
constexpr bool Tuned = true;
#define NAME "skiplist-tuned"
#else
constexpr bool Tuned = false;
#define NAME "skiplist"
#endif

// Blocks of one size, aligned to it, in a free list.
template <size_t Size> class Blocks {
public:
    void* take() {
        if (!free_) refill();
        Free* f = free_;
        free_ = f->next;
        return f;
    }
    void give(void* p) {
        Free* f = static_cast<Free*>(p);
        f->next = free_;
        free_ = f;
    }

private:
    struct Free {
        Free* next;
    };
    void refill() {
        const size_t chunk = 128 * 1024;
        char* p = static_cast<char*>(aligned_alloc(Size, chunk));
        if (!p) throw std::bad_alloc();
        for (size_t i = chunk; i >= Size; i -= Size) give(p + i - Size);
    }
    Free* free_ = nullptr;
};

class History {
public:
    static constexpr int Top = 26;
    typedef int64_t Version;

    struct Node {
        uint32_t levels;
        uint32_t size;

        // After the fields: next nodes, versions, key bytes.
        Node** nexts() { return reinterpret_cast<Node**>(this + 1); }
        Version* versions() { return reinterpret_cast<Version*>(nexts() + levels); }
        uint8_t* key() { return reinterpret_cast<uint8_t*>(versions() + levels); }

        Node* next(int l) { return nexts()[l]; }
        void next(int l, Node* n) { nexts()[l] = n; }
        Version greatest(int l) { return versions()[l]; }
        void greatest(int l, Version v) { versions()[l] = v; }
        size_t bytes() const {
            return sizeof(Node) + levels * (sizeof(Node*) + sizeof(Version)) + size;
        }
        bool below(Bytes k) {
            int c = memcmp(key(), k.at, size < k.size ? size : k.size);
            return c ? c < 0 : size < k.size;
        }
        bool is(Bytes k) { return size == k.size && !memcmp(key(), k.at, size); }
    };

    // A descent: at[l] is the last node of level l below the key.
    struct Finger {
        Node* at[Top]; // valid from `level` upwards
        int level;
        Node* x;
        Node* known; // a node known not to be below the key
        Bytes key;

        void start(Bytes k, Node* head) {
            key = k;
            x = head;
            known = nullptr;
            level = Top;
        }
        bool finished() const { return level == 0; }
        // Compares once: advances by a node, or descends by a level and returns true.
        inline __attribute__((always_inline)) bool step() {
            Node* n = x->next(level - 1);
            if (n == known || !n->below(key)) {
                known = n;
                at[--level] = x;
                return true;
            }
            x = n;
            return false;
        }
        void drop() {
            while (!step()) {
            }
        }
        inline __attribute__((always_inline)) void prefetch() {
            const char* n = reinterpret_cast<const char*>(x->next(level - 1));
            __builtin_prefetch(n);
            if (!(reinterpret_cast<uintptr_t>(n) & 64)) __builtin_prefetch(n + 64);
        }
        // After the descent: returns the node with exactly this key, or nullptr.
        Node* found() const {
            Node* n = at[0]->next(0);
            return n && n->is(key) ? n : nullptr;
        }
    };

    struct Question {
        Bytes begin, end;
        Version snapshot;
        uint32_t txn;
    };

    explicit History(Version first) {
        head_ = create(Bytes(), Top);
        for (int l = 0; l < Top; l++) {
            head_->next(l, nullptr);
            head_->greatest(l, first);
        }
    }
    History(const History&) = delete;
    History& operator=(const History&) = delete;

    // Sets hit[q.txn] for each question whose range has a version above its
    // snapshot. Several searches advance in turn by one step, so that the memory
    // of one arrives while the others work.
    void ask(const Question* questions, int count, uint8_t* hit) {
        constexpr int Ways = 16;
        if (!count) return;
        Probe* probes = probes_;
        int after[Ways];
        int started = count < Ways ? count : Ways;
        for (int i = 0; i < started; i++) {
            probes[i].start(questions[i], head_, hit);
            after[i] = i + 1;
        }
        after[started - 1] = 0;
        int before = started - 1, now = 0;
        for (;;) {
            if (probes[now].go()) {
                if (started < count) {
                    probes[now].start(questions[started++], head_, hit);
                } else {
                    if (before == now) return;
                    after[before] = after[now];
                    now = before;
                }
            }
            before = now;
            now = after[now];
        }
    }

    // The ranges are in key order and do not touch. They are written from the
    // last to the first, in strips whose searches advance together.
    void write(const std::vector<Range>& ranges, Version version) {
        constexpr int Strip = 16;
        Finger* fingers = fingers_;
        Bytes keys[Strip];
        size_t left = ranges.size();
        while (left) {
            size_t n = left % (Strip / 2);
            if (!n) n = Strip / 2;
            left -= n;
            for (size_t i = 0; i < n; i++) {
                keys[2 * i] = ranges[left + i].begin;
                keys[2 * i + 1] = ranges[left + i].end;
            }
            find(keys, fingers, int(2 * n));
            for (size_t i = n; i-- > 0;) {
                const Finger& begin = fingers[2 * i];
                const Finger& end = fingers[2 * i + 1];
                if (!end.found()) insert(end, end.at[0]->greatest(0));
                remove(begin, end);
                insert(begin, version);
            }
        }
    }

    // Visits `count` nodes from `resume` and removes those whose version
    // and whose predecessor's version are below the edge.
    void sweep(Version edge, std::string& resume, size_t count) {
        Finger f;
        Bytes key;
        key.at = reinterpret_cast<const uint8_t*>(resume.data());
        key.size = uint32_t(resume.size());
        find(&key, &f, 1);
        bool kept = true; // of the node before nothing is known here
        while (count--) {
            Node* x = f.at[0]->next(0);
            if (!x) break;
            __builtin_prefetch(x->next(0));
            if (x->levels > 1) __builtin_prefetch(x->next(1));
            bool young = x->greatest(0) >= edge;
            int levels = int(x->levels);
            if (young || kept) {
                for (int l = 0; l < levels; l++) f.at[l] = x;
            } else {
                for (int l = 0; l < levels; l++) f.at[l]->next(l, x->next(l));
                for (int l = 1; l < levels; l++)
                    if (f.at[l]->greatest(l) < x->greatest(l)) f.at[l]->greatest(l, x->greatest(l));
                destroy(x);
            }
            kept = young;
        }
        Node* x = f.at[0]->next(0);
        if (x) resume.assign(reinterpret_cast<char*>(x->key()), x->size);
        else resume.clear();
    }

    // Slow: stops the program if the list isn't what it should be.
private:
    // The search for one read range: two fingers that descend together until they
    // separate.
    struct Probe {
        Finger lo, hi;
        Version snapshot;
        uint8_t* hit;

        void start(const Question& q, Node* head, uint8_t* hits) {
            lo.start(q.begin, head);
            hi.start(q.end, head);
            snapshot = q.snapshot;
            hit = hits + q.txn;
        }
        bool yes() {
            *hit = 1;
            return true;
        }

        // True when the answer is known.
        bool go() {
            for (;;) {
                if (!lo.step()) {
                    lo.prefetch();
                    return false;
                }
                hi.x = lo.x;
                hi.drop();
                if (hi.x != lo.x) break;
                // begin and end lie in one span of this level
                if (lo.x->greatest(lo.level) <= snapshot) return true;
                if (lo.finished()) return yes();
                if (Tuned && lo.x->next(lo.level - 1) != lo.known) {
                    lo.prefetch();
                    return false;
                }
            }
            // the spans of this level that lie wholly inside
            Node* inner = lo.x->next(lo.level);
            for (Node* n = inner; n != hi.x; n = n->next(lo.level))
                if (n->greatest(lo.level) > snapshot) return yes();
            // down towards the end
            Node* e = hi.x;
            while (e->greatest(hi.level) > snapshot) {
                if (hi.finished()) return yes();
                hi.drop();
                for (; e != hi.x; e = e->next(hi.level))
                    if (e->greatest(hi.level) > snapshot) return yes();
            }
            // down towards the begin
            while (lo.x->greatest(lo.level) > snapshot) {
                if (lo.finished()) {
                    // the span before the begin counts only if it reaches past it
                    return inner->is(lo.key) ? true : yes();
                }
                lo.drop();
                Node* first = lo.x->next(lo.level);
                for (Node* n = first; n != inner; n = n->next(lo.level))
                    if (n->greatest(lo.level) > snapshot) return yes();
                inner = first;
            }
            return true;
        }
    };

    // Fingers for keys in rising order. The first descends alone while all
    // keys lie in one span; from there all go down in turn.
    void find(const Bytes* keys, Finger* fingers, int count) {
        Finger& first = fingers[0];
        first.start(keys[0], head_);
        Bytes last = keys[count - 1];
        while (first.level > 1) {
            first.drop();
            if (first.known && first.known->below(last)) break;
        }
        int from = first.level + 1;
        Node* x = from < Top ? first.at[from] : head_;
        for (int i = 1; i < count; i++) {
            Finger& f = fingers[i];
            f.level = from;
            f.x = x;
            f.known = nullptr;
            f.key = keys[i];
            for (int l = from; l < Top; l++) f.at[l] = first.at[l];
        }
        int after[16];
        for (int i = 0; i < count; i++) after[i] = i + 1;
        after[count - 1] = 0;
        int before = count - 1, now = 0;
        for (;;) {
            Finger& f = fingers[now];
            f.step();
            if (f.finished()) {
                if (before == now) return;
                after[before] = after[now];
            } else {
                f.prefetch();
                before = now;
            }
            now = after[now];
        }
    }

    void insert(const Finger& f, Version version) {
        int levels = 1;
        for (uint32_t bits = random() >> (32 - (Top - 1)); bits & 1; bits >>= 1) levels++;
        Node* x = create(f.key, levels);
        x->greatest(0, version);
        for (int l = 0; l < levels; l++) {
            x->next(l, f.at[l]->next(l));
            f.at[l]->next(l, x);
        }
        for (int l = 1; l < levels; l++) {
            recount(f.at[l], l);
            recount(x, l);
        }
        for (int l = levels; l < Top; l++) {
            if (f.at[l]->greatest(l) >= version) break;
            f.at[l]->greatest(l, version);
        }
    }

    // Removes the nodes from begin that are below end. The insertion that follows
    // corrects the greatest versions.
    void remove(const Finger& begin, const Finger& end) {
        if (begin.at[0] == end.at[0]) return;
        Node* x = begin.at[0]->next(0);
        for (int l = 0; l < Top && begin.at[l] != end.at[l]; l++)
            begin.at[l]->next(l, end.at[l]->next(l));
        for (;;) {
            Node* n = x->next(0);
            bool last = x == end.at[0];
            destroy(x);
            if (last) return;
            x = n;
        }
    }

    static void recount(Node* n, int l) {
        Version v = n->greatest(l - 1);
        Node* stop = n->next(l);
        for (Node* m = n->next(l - 1); m != stop; m = m->next(l - 1))
            if (m->greatest(l - 1) > v) v = m->greatest(l - 1);
        n->greatest(l, v);
    }

    Node* create(Bytes key, int levels) {
        Node plain{uint32_t(levels), key.size};
        size_t bytes = plain.bytes();
        void* p = bytes <= 64 ? small_.take() : bytes <= 128 ? middle_.take() : malloc(bytes);
        if (!p) throw std::bad_alloc();
        Node* n = new (p) Node(plain);
        if (key.size) memcpy(n->key(), key.at, key.size);
        return n;
    }
    void destroy(Node* n) {
        size_t bytes = n->bytes();
        if (bytes <= 64) small_.give(n);
        else if (bytes <= 128) middle_.give(n);
        else free(n);
    }

    uint32_t random() {
        seed_ = seed_ * 1664525u + 1013904223u;
        return seed_;
    }

    Blocks<64> small_;
    Blocks<128> middle_;
    Node* head_;
    uint32_t seed_ = 1;
    Probe probes_[16];
    Finger fingers_[16];
};
