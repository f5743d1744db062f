// SPDX-License-Identifier: Apache-2.0
// art [--latency] FILE: prints the verdicts of each batch, or the nanoseconds that each batch took.
#include "batch.h"
#include <chrono>
#include <cstdio>
#include <fcntl.h>
#include <unistd.h>

static int fail(const char* what) {
    fprintf(stderr, "art: %s\n", what);
    return 1;
}

// Reads the frames of a file through a buffer.
class Frames {
public:
    explicit Frames(int file) : file_(file), buffer_((256 << 10) + Slack) {}

    // Returns 1 for a frame, 0 at the end of the file, -1 for an incomplete or too long frame.
    int next(Ptr& frame, size_t& size) {
        int got = ensure(4);
        if (got <= 0) return got;
        size = uint32_t(big64(buffer_.data() + at_) >> 32);
        if (size > 4194304 || ensure(4 + size) <= 0) return -1;
        frame = buffer_.data() + at_ + 4;
        at_ += 4 + size;
        return 1;
    }

private:
    static constexpr size_t Slack = 64; // bytes after a key that a vector load may read

    // Returns 1 if that many bytes are in the buffer, 0 if none are, -1 if fewer are.
    int ensure(size_t bytes) {
        while (to_ - at_ < bytes) {
            if (at_) {
                memmove(buffer_.data(), buffer_.data() + at_, to_ - at_);
                to_ -= at_;
                at_ = 0;
            }
            if (buffer_.size() < bytes + Slack) buffer_.resize(bytes + Slack);
            size_t before = to_;
            for (ssize_t n;
                 to_ < buffer_.size() - Slack &&
                 (n = read(file_, buffer_.data() + to_, buffer_.size() - Slack - to_)) > 0;)
                to_ += size_t(n);
            if (to_ == before) return to_ == at_ ? 0 : -1;
        }
        return 1;
    }

    int file_;
    std::vector<uint8_t> buffer_;
    size_t at_ = 0, to_ = 0;
};

// Collects lines and writes them to standard output.
class Output {
public:
    Output() : buffer_(Full + 4096 * 10 + 64), to_(buffer_.data()) {}

    void verdicts(int64_t version, const std::vector<uint8_t>& verdicts) {
        // Each word is copied as 16 bytes, of which the next copy overwrites the spaces.
        static const char words[3][17] = {" conflict       ", " tooold         ",
                                          " committed      "};
        static const uint8_t sizes[] = {9, 7, 10};
        to_ += sprintf(to_, "0 %lld", static_cast<long long>(version));
        if (verdicts.empty()) to_ += sprintf(to_, " empty");
        for (uint8_t v : verdicts) {
            memcpy(to_, words[v], 16);
            to_ += sizes[v];
        }
        *to_++ = '\n';
    }

    void number(long long nanoseconds) { to_ += sprintf(to_, "%lld\n", nanoseconds); }

    bool full() const { return to_ - buffer_.data() >= Full; }

    bool flush() {
        const char* from = buffer_.data();
        while (from < to_) {
            ssize_t n = write(1, from, size_t(to_ - from));
            if (n <= 0) return false;
            from += n;
        }
        to_ = buffer_.data();
        return true;
    }

private:
    static constexpr ptrdiff_t Full = 1 << 16;
    std::vector<char> buffer_;
    char* to_;
};

int main(int argc, char** argv) {
    typedef std::chrono::steady_clock Clock;
    const bool latency = argc == 3 && std::string(argv[1]) == "--latency";
    if (argc != 2 && !latency) {
        fail("usage: art [--latency] FILE");
        return 2;
    }
    int file = open(argv[argc - 1], O_RDONLY);
    if (file < 0) return fail("cannot read");
    Frames frames(file);

    static ConflictSet set;
    std::vector<uint8_t> verdicts;
    int64_t version = -1;
    Batch batch;
    Output out;
    Ptr frame;
    size_t size;
    int got;
    const char* fault = nullptr;
    while ((got = frames.next(frame, size)) > 0) {
        const Clock::time_point start = Clock::now();
        if ((fault = decode(frame, size, batch))) break;
        if (batch.previous != version) {
            fault = "not one chain";
            break;
        }
        version = batch.version;
        set.resolve(batch, verdicts);
        if (latency)
            out.number(
                std::chrono::duration_cast<std::chrono::nanoseconds>(Clock::now() - start).count());
        else
            out.verdicts(version, verdicts);
        if (out.full() && !out.flush()) return fail("cannot write");
    }
    if (got < 0) fault = "incomplete or too long frame";
    if (!out.flush()) return fail("cannot write");
    if (fault) fail(fault);
    _exit(fault != nullptr); // skips freeing the tree
}
