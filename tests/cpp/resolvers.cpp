// Replays recorded files with a resolver per shard, and prints what `replay --resolvers` prints.
//
//     resolvers POINTS WINDOW LIMIT FILE..
//
// POINTS has the split points as hexadecimal digits, with commas between them.
#include <algorithm>
#include <cinttypes>
#include <cstdio>
#include <deque>
#include <fstream>
#include <map>
#include <set>
#include <sstream>
#include <tuple>

#include "archcaraway.hpp"
#include "archcaraway_shards.hpp"

using archcaraway::Core;
using archcaraway::Entry;
using archcaraway::SplitPoints;
using archcaraway::View;

namespace {

using Bytes = std::vector<std::uint8_t>;

struct Batch {
    std::uint32_t proxy;
    std::int64_t version;
    Bytes frame;
};

// An answer, with its own copy of the frame of a reply.
struct Answer {
    int kind;
    Bytes reply;
};

// The answers of a shard by proxy and version.
using Answers = std::map<std::pair<std::uint32_t, std::int64_t>, std::deque<Answer>>;

Bytes copied(View view) { return Bytes(view.data, view.data + view.size); }

std::vector<std::string> keysOf(const std::string& text) {
    std::vector<std::string> keys;
    std::istringstream stream(text);
    for (std::string digits; std::getline(stream, digits, ',');) {
        std::string& key = keys.emplace_back();
        for (std::size_t i = 0; i < digits.size(); i += 2) {
            key += static_cast<char>(std::stoi(digits.substr(i, 2), nullptr, 16));
        }
    }
    return keys;
}

std::vector<Batch> batchesOf(std::uint32_t proxy, const char* path) {
    std::ifstream file(path, std::ios::binary);
    const Bytes bytes{std::istreambuf_iterator<char>(file), {}};
    std::vector<Batch> batches;
    for (View rest(bytes); rest.size > 0;) {
        const std::size_t length = archcaraway::frameLength(rest);
        std::uint64_t version = 0;
        for (std::size_t i = 13; i < 21; i++) version = version << 8 | rest.data[i];
        batches.push_back({proxy, static_cast<std::int64_t>(version), copied({rest.data, length})});
        rest = View(rest.data + length, rest.size - length);
    }
    return batches;
}

// Gives each core its clips of all batches. A core that has stopped takes no more.
void send(const SplitPoints& points, std::vector<Core>& cores, const std::vector<Batch>& batches) {
    Bytes clip;
    for (const Batch& batch : batches) {
        for (std::size_t shard = 0; shard < cores.size(); shard++) {
            const View clipped = points.clip(shard, batch.frame, clip);
            if (cores[shard].stop() != ARCHCARAWAY_OK) continue;
            try {
                cores[shard].admit(batch.proxy, clipped);
            } catch (const archcaraway::Error& error) {
                if (!error.isStop()) throw;
            }
        }
    }
    for (Core& core : cores) {
        if (core.stop() == ARCHCARAWAY_OK) core.finish();
    }
}

Answers answersOf(Core& core, std::uint32_t proxies) {
    Answers answers;
    Bytes bytes;
    for (std::uint32_t proxy = 0; proxy < proxies;) {
        const archcaraway::Answer answer = core.give(proxy, bytes);
        if (answer.kind == ARCHCARAWAY_NOTHING) {
            proxy++;
        } else {
            answers[{proxy, answer.version}].push_back({answer.kind, copied(answer.reply)});
        }
    }
    return answers;
}

std::string text(const Entry& entry) {
    static const char* const words[] = {" conflict", " tooold", " committed"};
    std::string said = words[static_cast<int>(entry.verdict())];
    for (std::size_t i = 0; i < entry.places(); i++) {
        said += (i == 0 ? ":" : ",") + std::to_string(entry.place(i));
    }
    return said;
}

std::string text(const SplitPoints& points, const Batch& batch, const std::vector<Answer>& each) {
    std::set<int> kinds;
    Bytes replies, reply;
    for (const Answer& answer : each) {
        kinds.insert(answer.kind);
        replies.insert(replies.end(), answer.reply.begin(), answer.reply.end());
    }
    if (kinds.count(ARCHCARAWAY_NEVER) != 0) return " never";
    if (kinds.count(ARCHCARAWAY_HELD) != 0) return " held";
    std::string said;
    for (const Entry& entry : points.combine(batch.frame, replies, reply)) said += text(entry);
    return said.empty() ? " empty" : said;
}

// Prints the lines of the batches that all shards have answered.
void print(const SplitPoints& points, const std::vector<Batch>& batches,
           std::vector<Answers>& shards) {
    for (const Batch& batch : batches) {
        std::vector<Answer> each;
        for (Answers& shard : shards) {
            std::deque<Answer>& own = shard[{batch.proxy, batch.version}];
            if (own.empty()) break;
            each.push_back(std::move(own.front()));
            own.pop_front();
        }
        if (each.size() < shards.size()) continue;
        const std::string said = text(points, batch, each);
        std::printf("%" PRIu32 " %" PRId64 "%s\n", batch.proxy, batch.version, said.c_str());
    }
}

// Prints the stop of the first shard that has one, and returns the status of the program.
int printStop(const std::vector<Core>& cores) {
    for (std::size_t shard = 0; shard < cores.size(); shard++) {
        if (cores[shard].stop() == ARCHCARAWAY_OK) continue;
        std::string said = archcaraway_status_text(cores[shard].stop());
        said.resize(said.find(':'));
        std::fprintf(stderr, "replay: %s\nreplay: shard %zu\n", said.c_str(), shard);
        return 1;
    }
    return 0;
}

} // namespace

int main(int, char** words) {
    const SplitPoints points(keysOf(words[1]));
    std::vector<Batch> batches;
    std::uint32_t proxies = 0;
    for (; words[4 + proxies] != nullptr; proxies++) {
        for (Batch& batch : batchesOf(proxies, words[4 + proxies])) {
            batches.push_back(std::move(batch));
        }
    }
    std::vector<Core> cores;
    for (std::size_t shard = 0; shard < points.shards(); shard++) {
        cores.emplace_back(proxies, std::stoll(words[2]), std::stoull(words[3]));
    }
    send(points, cores, batches);
    std::vector<Answers> shards;
    for (Core& core : cores) shards.push_back(answersOf(core, proxies));
    std::stable_sort(batches.begin(), batches.end(), [](const Batch& a, const Batch& b) {
        return std::tie(a.proxy, a.version) < std::tie(b.proxy, b.version);
    });
    print(points, batches, shards);
    return printStop(cores);
}
