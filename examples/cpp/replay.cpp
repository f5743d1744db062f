// Replays recorded files, and prints what the program `replay` prints.
//
//     replay FILE..
//
// The file at index p, counted from 0, has the batches of proxy p.
#include <algorithm>
#include <cinttypes>
#include <cstdio>
#include <fstream>
#include <optional>
#include <stdexcept>

#include "archcaraway.hpp"

using archcaraway::Answer;
using archcaraway::Core;
using archcaraway::Entry;
using archcaraway::Error;
using archcaraway::Reply;
using archcaraway::View;

namespace {

// A file, and how far it was given to the core.
struct Input {
    std::vector<std::uint8_t> bytes;
    std::size_t at = 0;
    std::optional<Error> fault;

    explicit Input(const char* path) {
        std::ifstream file(path, std::ios::binary);
        if (!file) throw std::runtime_error(std::string(path) + " can't be read");
        bytes.assign(std::istreambuf_iterator<char>(file), {});
    }
    bool hasMore() const { return !fault && at < bytes.size(); }
    // The next frame of the file.
    View next() {
        const View rest(bytes.data() + at, bytes.size() - at);
        const std::size_t length = archcaraway::frameLength(rest);
        at += length;
        return View(rest.data, length);
    }
};

struct Line {
    std::uint32_t proxy;
    std::int64_t version;
    std::string text;
};

std::string text(const Entry& entry) {
    static const char* const words[] = {" conflict", " tooold", " committed"};
    std::string said = words[static_cast<int>(entry.verdict())];
    for (std::size_t i = 0; i < entry.places(); i++) {
        said += (i == 0 ? ":" : ",") + std::to_string(entry.place(i));
    }
    return said;
}

std::string text(const Answer& answer) {
    if (answer.kind == ARCHCARAWAY_NEVER) return " never";
    if (answer.kind == ARCHCARAWAY_HELD) return " held";
    std::string said;
    for (const Entry& entry : Reply(answer.reply)) said += text(entry);
    return said.empty() ? " empty" : said;
}

// Takes one batch of each file in turn, to the end of all files or to their faults. A stop ends it.
void admitAll(Core& core, std::vector<Input>& inputs) {
    for (bool more = true; more;) {
        more = false;
        for (std::uint32_t proxy = 0; proxy < inputs.size(); proxy++) {
            Input& input = inputs[proxy];
            if (!input.hasMore()) continue;
            more = true;
            try {
                core.admit(proxy, input.next());
            } catch (const Error& error) {
                if (error.isStop()) throw;
                input.fault = error;
            }
        }
    }
    core.finish();
}

std::vector<Line> takeAnswers(Core& core, std::uint32_t proxies) {
    std::vector<Line> lines;
    std::vector<std::uint8_t> bytes;
    for (std::uint32_t proxy = 0; proxy < proxies; proxy++) {
        for (;;) {
            const Answer answer = core.give(proxy, bytes);
            if (answer.kind == ARCHCARAWAY_NOTHING) break;
            lines.push_back({proxy, answer.version, text(answer)});
        }
    }
    std::stable_sort(lines.begin(), lines.end(), [](const Line& a, const Line& b) {
        return std::pair(a.proxy, a.version) < std::pair(b.proxy, b.version);
    });
    return lines;
}

// Prints the part of an error that `replay` prints.
void printError(const std::string& before, const Error& error) {
    const std::string said = error.what();
    std::fprintf(stderr, "replay: %s%s\n", before.c_str(), said.substr(0, said.find(':')).c_str());
}

int run(std::vector<Input>& inputs) {
    const auto proxies = static_cast<std::uint32_t>(inputs.size());
    Core core(proxies);
    std::optional<Error> stop;
    try {
        admitAll(core, inputs);
    } catch (const Error& error) {
        stop = error;
    }
    for (const Line& line : takeAnswers(core, proxies)) {
        std::printf("%" PRIu32 " %" PRId64 "%s\n", line.proxy, line.version, line.text.c_str());
    }
    bool failed = stop.has_value();
    for (std::uint32_t proxy = 0; proxy < proxies; proxy++) {
        if (!inputs[proxy].fault) continue;
        printError("proxy " + std::to_string(proxy) + ": ", *inputs[proxy].fault);
        failed = true;
    }
    if (stop) printError("", *stop);
    return failed ? 1 : 0;
}

} // namespace

int main(int count, char** words) {
    if (count < 2) {
        std::fprintf(stderr, "usage: replay FILE..\n");
        return 2;
    }
    try {
        std::vector<Input> inputs;
        for (int i = 1; i < count; i++) inputs.emplace_back(words[i]);
        return run(inputs);
    } catch (const std::exception& error) {
        std::fprintf(stderr, "replay: %s\n", error.what());
        return 1;
    }
}
