// SPDX-License-Identifier: Apache-2.0
// skiplist [--latency] FILE: prints the verdicts of each batch, or the nanoseconds that each batch
// took.
#include "conflict.h"
#include <chrono>
#include <cstdio>
#include <string>
#include <vector>

static bool read_file(const char* path, std::vector<uint8_t>& out) {
    FILE* f = fopen(path, "rb");
    if (!f) return false;
    if (fseek(f, 0, SEEK_END) == 0) {
        long size = ftell(f);
        if (size > 0) out.resize(size_t(size));
        rewind(f);
    }
    size_t n = fread(out.data(), 1, out.size(), f);
    bool complete = n == out.size() && !ferror(f);
    fclose(f);
    return complete;
}

static int fail(const char* what) {
    fprintf(stderr, NAME ": %s\n", what);
    return 1;
}

static void append_verdicts(std::string& out, int64_t version,
                            const std::vector<uint8_t>& verdicts) {
    static const char* const words[] = {" conflict", " tooold", " committed"};
    static const size_t sizes[] = {9, 7, 10};
    out += "0 ";
    out += std::to_string(version);
    if (verdicts.empty()) out += " empty";
    for (uint8_t v : verdicts) out.append(words[v], sizes[v]);
    out += '\n';
}

int main(int argc, char** argv) {
    typedef std::chrono::steady_clock Clock;
    const bool latency = argc == 3 && std::string(argv[1]) == "--latency";
    if (argc != 2 && !latency) {
        fail("usage: " NAME " [--latency] FILE");
        return 2;
    }
    std::vector<uint8_t> bytes;
    if (!read_file(argv[argc - 1], bytes)) return fail("cannot read");
    Reader reader(bytes.data(), bytes.size());

    static ConflictSet set;
    std::vector<uint8_t> verdicts;
    std::string out;
    Batch batch;
    int64_t version = -1;
    const char* fault = nullptr;
    while (!fault && !reader.done()) {
        const Clock::time_point start = Clock::now();
        if ((fault = reader.next(batch))) break;
        if (batch.previous != version) {
            fault = "not one chain";
            break;
        }
        version = batch.version;
        set.resolve(batch, verdicts);
        if (latency) {
            out += std::to_string(
                std::chrono::duration_cast<std::chrono::nanoseconds>(Clock::now() - start).count());
            out += '\n';
        } else {
            append_verdicts(out, version, verdicts);
        }
        if (out.size() < 1 << 20) continue;
        if (fwrite(out.data(), 1, out.size(), stdout) != out.size()) return fail("cannot write");
        out.clear();
    }
    if (fwrite(out.data(), 1, out.size(), stdout) != out.size() || fflush(stdout))
        return fail("cannot write");
    return fault ? fail(fault) : 0;
}
