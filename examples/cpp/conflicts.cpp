// archcaraway::ConflictSet: a write, a read that was overwritten since, a read of a key that the
// same batch writes, and a snapshot that is too old.
#include <cstdio>

#include "archcaraway.hpp"

using archcaraway::CommitTransactionRef;
using archcaraway::ConflictBatch;
using archcaraway::ConflictSet;
using archcaraway::KeyRangeRef;

static CommitTransactionRef transaction(archcaraway::Version snapshot,
                                        std::vector<KeyRangeRef> reads,
                                        std::vector<KeyRangeRef> writes, bool report = false) {
    CommitTransactionRef made;
    made.read_snapshot = snapshot;
    made.read_conflict_ranges = std::move(reads);
    made.write_conflict_ranges = std::move(writes);
    made.report_conflicting_keys = report;
    return made;
}

static void judge(ConflictSet& set, archcaraway::Version now,
                  const std::vector<CommitTransactionRef>& transactions) {
    std::map<int, std::vector<int>> ranges;
    ConflictBatch batch(&set, &ranges);
    for (const CommitTransactionRef& t : transactions) batch.addTransaction(t);
    std::vector<int> committed, tooOld;
    batch.detectConflicts(now, committed, &tooOld);
    std::printf("%lld committed:", static_cast<long long>(now));
    for (int index : committed) std::printf(" %d", index);
    std::printf(" too old:");
    for (int index : tooOld) std::printf(" %d", index);
    for (const auto& [index, places] : ranges) {
        for (int place : places) std::printf(" [%d: read range %d]", index, place);
    }
    std::printf("\n");
}

int main() {
    try {
        ConflictSet set;
        judge(set, 100, {transaction(0, {}, {{"a", "c"}})});
        const KeyRangeRef key = KeyRangeRef::single("k");
        judge(set, 200,
              {transaction(50, {{"a", "b"}, {"x", "y"}, {"b", "d"}}, {}, true),
               transaction(150, {}, {key}), transaction(150, {key}, {{"m", "n"}}),
               transaction(150, {{"m", "n"}}, {})});
        judge(set, 5000300,
              {transaction(299, {{"q", "r"}}, {}), transaction(300, {{"q", "r"}}, {{"q", "r"}})});
    } catch (const std::exception& error) {
        std::fprintf(stderr, "conflicts: %s\n", error.what());
        return 1;
    }
}
