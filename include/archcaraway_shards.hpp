// SPDX-License-Identifier: Apache-2.0. Copyright 2026 Archcaraway maintainers.
//
// archcaraway_shards.hpp: several resolvers by key range, for C++17 and later. Header only, over
// archcaraway_shards.h. What archcaraway_frames.hpp says of bytes and refusals holds here too.
#ifndef ARCHCARAWAY_SHARDS_HPP
#define ARCHCARAWAY_SHARDS_HPP

#include <cstddef>
#include <cstdint>
#include <string>
#include <utility>
#include <vector>

#include "archcaraway_frames.hpp"
#include "archcaraway_shards.h"

namespace archcaraway {

// Split points, which split all keys into shards with a resolver each. A proxy clips a batch to
// every shard, and combines the replies of their resolvers.
class SplitPoints {
public:
    // The keys rise strictly, the first from the empty key on. Fails if a key is at fault.
    explicit SplitPoints(const std::vector<std::string>& keys) {
        std::vector<archcaraway_bytes> bytes;
        for (const std::string& key : keys) bytes.push_back({View(key).data, key.size()});
        check(archcaraway_split_points_new(bytes.data(), bytes.size(), &points_, nullptr));
    }
    ~SplitPoints() { archcaraway_split_points_free(&points_); }
    SplitPoints(const SplitPoints&) = delete;
    SplitPoints& operator=(const SplitPoints&) = delete;
    SplitPoints(SplitPoints&& other) noexcept
      : points_(std::exchange(other.points_, ARCHCARAWAY_NONE)) {}
    SplitPoints& operator=(SplitPoints&& other) noexcept {
        std::swap(points_, other.points_);
        return *this;
    }

    std::size_t shards() const { return archcaraway_split_points_shards(&points_); }
    // Writes the frame of the batch of a shard to `clip`, which grows as needed.
    View clip(std::size_t shard, View frame, std::vector<std::uint8_t>& clip) const {
        std::size_t length = 0;
        int status = archcaraway_clip(&points_, shard, frame.data, frame.size, clip.data(),
                                      clip.size(), &length);
        if (status == ARCHCARAWAY_BUFFER) {
            clip.resize(length);
            status = archcaraway_clip(&points_, shard, frame.data, frame.size, clip.data(),
                                      clip.size(), &length);
        }
        check(status);
        return View(clip.data(), length);
    }
    // Combines the replies of all shards, which are one by one in `replies`. Writes the combined
    // reply to `reply`, which grows as needed.
    Reply combine(View frame, View replies, std::vector<std::uint8_t>& reply) const {
        std::size_t length = 0;
        int status = archcaraway_combine(&points_, frame.data, frame.size, replies.data,
                                         replies.size, reply.data(), reply.size(), &length,
                                         nullptr);
        if (status == ARCHCARAWAY_BUFFER) {
            reply.resize(length);
            status = archcaraway_combine(&points_, frame.data, frame.size, replies.data,
                                         replies.size, reply.data(), reply.size(), &length,
                                         nullptr);
        }
        check(status);
        return Reply(View(reply.data(), length));
    }
    // The handle, for the C functions. It stays this object's.
    archcaraway_split_points* handle() { return &points_; }

private:
    archcaraway_split_points points_ = ARCHCARAWAY_NONE;
};

} // namespace archcaraway

#endif
