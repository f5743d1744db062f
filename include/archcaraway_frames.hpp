// SPDX-License-Identifier: Apache-2.0. Copyright 2026 Archcaraway maintainers.
//
// archcaraway_frames.hpp: batches and replies as frames, for C++17 and later. Header only, over
// archcaraway_frames.h; archcaraway.hpp includes it.
//
// A call that is refused throws archcaraway::Error. Without exceptions (-fno-exceptions) such a
// call prints the text of its status and aborts; a program that expects refusals calls the C
// functions.
//
// Bytes are given as a View: a std::string, a std::string_view, a std::vector<std::uint8_t> or a
// literal. A literal has all of its bytes, zeros too: "k\0" has two. A `const char*` and a `char[]`
// that isn't const are C strings and end before the first zero.
#ifndef ARCHCARAWAY_FRAMES_HPP
#define ARCHCARAWAY_FRAMES_HPP

#include <cstddef>
#include <cstdint>
#include <cstdio>
#include <cstdlib>
#include <exception>
#include <iterator>
#include <string>
#include <string_view>
#include <type_traits>
#include <utility>
#include <vector>

#include "archcaraway.h"
#include "archcaraway_frames.h"

namespace archcaraway {

// A status that isn't ok. `what` is its text, a constant.
class Error : public std::exception {
public:
    explicit Error(int status) noexcept : status_(status) {}
    int status() const noexcept { return status_; }
    // Whether the object has stopped for good.
    bool isStop() const noexcept {
        return status_ >= ARCHCARAWAY_MEMORY && status_ <= ARCHCARAWAY_ARENA_FULL;
    }
    const char* what() const noexcept override { return archcaraway_status_text(status_); }

private:
    int status_;
};

[[noreturn]] inline void fail(int status) {
#if defined(__cpp_exceptions)
    throw Error(status);
#else
    std::fprintf(stderr, "archcaraway: %s\n", archcaraway_status_text(status));
    std::abort();
#endif
}

inline void check(int status) {
    if (status != ARCHCARAWAY_OK) fail(status);
}

// Bytes that someone else keeps.
struct View {
    const std::uint8_t* data = nullptr;
    std::size_t size = 0;

    View() = default;
    View(const std::uint8_t* bytes, std::size_t length) : data(bytes), size(length) {}
    View(std::string_view bytes)
      : data(reinterpret_cast<const std::uint8_t*>(bytes.data())), size(bytes.size()) {}
    View(const std::string& bytes) : View(std::string_view(bytes)) {}
    View(const std::vector<std::uint8_t>& bytes) : data(bytes.data()), size(bytes.size()) {}
    // A literal: its bytes without the last zero.
    template <std::size_t length>
    View(const char (&literal)[length]) : View(std::string_view(literal, length - 1)) {}
    // C strings: the bytes before the first zero.
    template <std::size_t length>
    View(char (&string)[length]) : View(static_cast<const char*>(string)) {}
    template <typename Pointer,
              typename = std::enable_if_t<std::is_same_v<Pointer, const char*> ||
                                          std::is_same_v<Pointer, char*>>>
    View(Pointer string) : View(std::string_view(string)) {}

    std::string_view text() const {
        return std::string_view(reinterpret_cast<const char*>(data), size);
    }
};

enum class Verdict {
    conflict = ARCHCARAWAY_CONFLICT,
    tooOld = ARCHCARAWAY_TOO_OLD,
    committed = ARCHCARAWAY_COMMITTED
};

// The verdict on a transaction, and the indices of its report. It looks into the bytes of its
// reply.
class Entry {
public:
    explicit Entry(const archcaraway_entry& entry) : entry_(entry) {}
    Verdict verdict() const { return static_cast<Verdict>(entry_.verdict); }
    std::size_t places() const { return entry_.count; }
    // The index of a conflicting read range in its transaction; `index` is below `places()`.
    unsigned place(std::size_t index) const {
        return archcaraway_entry_place(&entry_, static_cast<unsigned>(index));
    }

private:
    archcaraway_entry entry_;
};

// Looks at a reply, without copying it: `for (Entry entry : reply)`. Fails if
// archcaraway_reply_read refuses the bytes.
class Reply {
public:
    explicit Reply(View bytes) { check(archcaraway_reply_read(&reply_, bytes.data, bytes.size)); }
    std::int64_t version() const { return reply_.version; }
    std::size_t size() const { return reply_.count; }
    bool empty() const { return reply_.count == 0; }

    class Iterator {
    public:
        using iterator_category = std::input_iterator_tag;
        using value_type = Entry;
        using difference_type = std::ptrdiff_t;
        using pointer = const Entry*;
        using reference = Entry;

        Iterator() = default;
        explicit Iterator(const archcaraway_reply& reply) : reply_(reply) { ++*this; }
        Entry operator*() const { return Entry(entry_); }
        Iterator& operator++() {
            left_ = archcaraway_reply_next(&reply_, &entry_) ? reply_.left + 1 : 0;
            return *this;
        }
        Iterator operator++(int) {
            Iterator before = *this;
            ++*this;
            return before;
        }
        // Of iterators over one reply.
        bool operator==(const Iterator& other) const { return left_ == other.left_; }
        bool operator!=(const Iterator& other) const { return !(*this == other); }

    private:
        archcaraway_reply reply_{};
        archcaraway_entry entry_{};
        unsigned left_ = 0; // entries from this one on
    };
    using iterator = Iterator;
    using const_iterator = Iterator;

    Iterator begin() const { return Iterator(reply_); }
    Iterator end() const { return Iterator(); }

private:
    archcaraway_reply reply_{};
};

// Divides a stream of frames: the length of the frame at its front. Fails if
// archcaraway_frame_length refuses the bytes.
inline std::size_t frameLength(View bytes) {
    std::size_t length = 0;
    check(archcaraway_frame_length(bytes.data, bytes.size, &length));
    return length;
}

// Writes the frame of a batch. Fails if a call is refused; the next `begin` starts anew.
class BatchWriter {
public:
    BatchWriter() : writer_(archcaraway_writer_new(archcaraway_grow_malloc, nullptr)) {}
    ~BatchWriter() { archcaraway_writer_free(&writer_); }
    BatchWriter(const BatchWriter&) = delete;
    BatchWriter& operator=(const BatchWriter&) = delete;
    BatchWriter(BatchWriter&& other) noexcept : writer_(other.writer_) {
        other.writer_ = archcaraway_writer_new(archcaraway_grow_malloc, nullptr);
    }
    BatchWriter& operator=(BatchWriter&& other) noexcept {
        std::swap(writer_, other.writer_);
        return *this;
    }

    void begin(std::int64_t previous, std::int64_t version, std::int64_t received) {
        check(archcaraway_batch_begin(&writer_, previous, version, received));
    }
    void transaction(std::int64_t snapshot, bool report = false) {
        check(archcaraway_batch_transaction(&writer_, snapshot, report));
    }
    // The range [first, last), which is empty if they are equal.
    void read(View first, View last) {
        check(archcaraway_batch_read(&writer_, first.data, first.size, last.data, last.size));
    }
    void write(View first, View last) {
        check(archcaraway_batch_write(&writer_, first.data, first.size, last.data, last.size));
    }
    // A single key.
    void read(View key) { check(archcaraway_batch_read_key(&writer_, key.data, key.size)); }
    void write(View key) { check(archcaraway_batch_write_key(&writer_, key.data, key.size)); }
    // Gives the batch these versions instead of those it was begun with.
    void versions(std::int64_t previous, std::int64_t version, std::int64_t received) {
        check(archcaraway_batch_versions(&writer_, previous, version, received));
    }
    // The frame, until the next call.
    View end() {
        check(archcaraway_batch_end(&writer_));
        return View(writer_.bytes, writer_.length);
    }

private:
    archcaraway_writer writer_;
};

} // namespace archcaraway

#endif
