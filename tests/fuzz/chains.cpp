// A fuzz target for libFuzzer: chains of batches, each verdict, answer and status beside plain.hpp.
//
// If the first byte is 0, the bytes are a stream of frames, as the files of examples/ are. Else
// they are choices, from which batches are made whose keys and versions often meet.
#include "objects.hpp"

namespace {

// A stream of frames, each given alone, and with all bytes after it.
void runFrames(const std::uint8_t* bytes, std::size_t length) {
    Set set(ARCHCARAWAY_WINDOW, ARCHCARAWAY_LIMIT, -1);
    Core core(1, ARCHCARAWAY_WINDOW, ARCHCARAWAY_LIMIT, -1);
    while (length > 0) {
        std::size_t frame = 0, found = 1;
        int fault = 0;
        try {
            frame = plain::frameLength(bytes, length);
        } catch (plain::Fault thrown) {
            fault = 100 + thrown;
        }
        DEMAND(archcaraway_frame_length(bytes, length, &found) == fault && found == frame);
        if (fault != 0) {
            set.refuse(bytes, length, fault);
            core.refuse(bytes, length, fault);
            break;
        }
        try {
            const Batch batch = plain::readBatch(bytes, frame);
            if (frame < length) {
                set.refuse(bytes, length, ARCHCARAWAY_BEHIND);
                core.refuse(bytes, length, ARCHCARAWAY_BEHIND);
            }
            const Bytes alone(bytes, bytes + frame);
            set.resolve(alone, batch);
            core.admit(0, alone, batch);
        } catch (plain::Fault thrown) {
            set.refuse(bytes, frame, 100 + thrown);
            core.refuse(bytes, frame, 100 + thrown);
        }
        bytes += frame, length -= frame;
    }
    core.finish();
}

// Numbers that the fuzzer has chosen, and 0 after the last.
class Choices {
public:
    Choices(const std::uint8_t* bytes, std::size_t length) : at_(bytes), left_(length) {}
    bool more() const { return left_ > 0; }
    unsigned next(unsigned limit) {
        if (left_ == 0) return 0;
        left_--;
        return *at_++ % limit;
    }

private:
    const std::uint8_t* at_;
    std::size_t left_;
};

Key chosenKey(Choices& choices) {
    static const std::size_t prefixes[] = {0, 0, 0, 0, 0, 0, 0, 0, 7, 8, 31, 32, 33, 300, 4000};
    Key key(prefixes[choices.next(15)], 'p');
    const unsigned letters = choices.next(4);
    for (unsigned i = 0; i < letters; i++) key += "\0ab\xff"[choices.next(4)];
    return key;
}

Range chosenRange(Choices& choices) {
    const unsigned kind = choices.next(8);
    Range range;
    range.begin = chosenKey(choices);
    if (kind < 4) {
        range.end = range.begin + '\0';
    } else if (kind == 4) {
        range.end = range.begin;
    } else {
        range.end = chosenKey(choices);
        if (range.end < range.begin) std::swap(range.begin, range.end);
    }
    return range;
}

Batch chosenBatch(Choices& choices, Version previous) {
    Batch batch;
    batch.previous = previous;
    batch.version = previous + 1 + choices.next(20);
    batch.received = choices.next(6) == 0 ? previous : -1;
    batch.transactions.resize(choices.next(5));
    for (plain::Transaction& each : batch.transactions) {
        each.snapshot = std::max<Version>(0, batch.version + 3 - choices.next(64));
        each.report = choices.next(2) == 1;
        each.reads.resize(choices.next(4));
        for (Range& read : each.reads) read = chosenRange(choices);
        each.writes.resize(choices.next(4));
        for (Range& write : each.writes) write = chosenRange(choices);
    }
    return batch;
}

Bytes frameOf(const Batch& batch) {
    archcaraway_writer writer = archcaraway_writer_new(archcaraway_grow_malloc, nullptr);
    archcaraway_batch_begin(&writer, batch.previous, batch.version, batch.received);
    for (const plain::Transaction& each : batch.transactions) {
        archcaraway_batch_transaction(&writer, each.snapshot, each.report);
        for (const Range& read : each.reads) {
            const archcaraway_bytes begin = bytesOf(read.begin), end = bytesOf(read.end);
            archcaraway_batch_read(&writer, begin.bytes, begin.length, end.bytes, end.length);
        }
        for (const Range& write : each.writes) {
            const archcaraway_bytes begin = bytesOf(write.begin), end = bytesOf(write.end);
            archcaraway_batch_write(&writer, begin.bytes, begin.length, end.bytes, end.length);
        }
    }
    DEMAND(archcaraway_batch_end(&writer) == ARCHCARAWAY_OK);
    const Bytes frame(writer.bytes, writer.bytes + writer.length);
    archcaraway_writer_free(&writer);
    return frame;
}

// A chain: a set takes it in order, a core out of order, with repeats, from several proxies.
void runChoices(Choices choices) {
    static const Version windows[] = {1, 7, 40, 300, ARCHCARAWAY_WINDOW, ARCHCARAWAY_MAX_WINDOW};
    static const std::uint64_t limits[] = {1, 3, 5, 9, 20, 60};
    const Version window = windows[choices.next(6)];
    const unsigned limited = choices.next(12);
    const std::uint64_t limit = limited < 6 ? limits[limited] : ARCHCARAWAY_LIMIT;
    const unsigned proxies = 1 + choices.next(3);
    // Two boundaries of three are taken by a start.
    Version start = -1;
    if (limit >= 3 && choices.next(3) == 0) start = 10 * Version(choices.next(200));
    Set set(window, limit, start);
    Core core(proxies, window, limit, start);
    std::vector<Batch> chain;
    std::vector<std::size_t> late;
    const auto admit = [&](std::size_t index, unsigned proxy) {
        core.admit(proxy, frameOf(chain[index]), chain[index]);
    };
    for (Version previous = start; choices.more() && chain.size() < 100;) {
        chain.push_back(chosenBatch(choices, previous));
        previous = chain.back().version;
        set.resolve(frameOf(chain.back()), chain.back());
        const unsigned what = choices.next(8), index = choices.next(255), proxy = choices.next(3);
        if (what == 0) {
            late.push_back(chain.size() - 1);
        } else {
            admit(chain.size() - 1, proxy % proxies);
        }
        if (what == 1) admit(index % chain.size(), proxy % proxies);
        if (what == 2 && !late.empty()) {
            admit(late.back(), proxy % proxies);
            late.pop_back();
        }
    }
    core.finish();
}

} // namespace

extern "C" int LLVMFuzzerTestOneInput(const std::uint8_t* bytes, std::size_t length) {
    if (length == 0) return 0;
    if (bytes[0] == 0) {
        runFrames(bytes, length);
    } else {
        runChoices(Choices(bytes + 1, length - 1));
    }
    return 0;
}
