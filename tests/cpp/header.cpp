// The C++ headers: views, single keys, iterators, moves and refusals. Also compiled with
// -fno-exceptions, where refusals are left out.
#include <algorithm>
#include <cstdio>
#include <cstdlib>
#include <string>
#include <type_traits>

#include "archcaraway.hpp"
#include "archcaraway_shards.hpp"

#define DEMAND(holds)                                                                              \
    do {                                                                                           \
        if (!(holds)) {                                                                            \
            std::fprintf(stderr, "%s:%d: not so: %s\n", __FILE__, __LINE__, #holds);               \
            std::exit(1);                                                                          \
        }                                                                                          \
    } while (0)

using namespace archcaraway;
using namespace std::string_literals;
using namespace std::string_view_literals;

static_assert(!std::is_copy_constructible_v<Set> && std::is_nothrow_move_constructible_v<Set>);
static_assert(!std::is_copy_constructible_v<Core> && std::is_nothrow_move_constructible_v<Core>);
static_assert(!std::is_copy_constructible_v<BatchWriter> &&
              std::is_nothrow_move_constructible_v<BatchWriter>);
static_assert(std::is_same_v<std::iterator_traits<Reply::Iterator>::value_type, Entry>);
static_assert(std::is_base_of_v<std::input_iterator_tag,
                                std::iterator_traits<Reply::Iterator>::iterator_category>);
static_assert(std::is_convertible_v<std::string, View> &&
              std::is_convertible_v<std::string_view, View>);
static_assert(std::is_convertible_v<std::vector<std::uint8_t>, View> &&
              std::is_convertible_v<const char*, View>);

static void views() {
    const char* pointer = "k\0z";
    char array[8] = "ab";
    const std::string string = "k\0"s;
    const std::vector<std::uint8_t> bytes = {0, 1, 2};
    const auto length = [](View view) { return view.size; };
    DEMAND(length("") == 0 && length("k") == 1 && length("k\0") == 2 && length("k\0z") == 3);
    DEMAND(length(pointer) == 1 && length(array) == 2);
    DEMAND(length(string) == 2 && length("k\0z"sv) == 3 && length(bytes) == 3 &&
           length(View()) == 0);
    DEMAND(View(string).text() == "k\0"sv && View(bytes).data == bytes.data());
    const KeyRangeRef range = {"k", "k\0"};
    DEMAND(range.begin.size() == 1 && range.end.size() == 2 && !range.isSingle());
    const KeyRangeRef strings(string, string), single = KeyRangeRef::single(string);
    DEMAND(strings.begin == strings.end && !strings.isSingle());
    DEMAND(single.begin == "k\0"sv && single.isSingle());
}

static CommitTransactionRef transaction(Version snapshot, std::vector<KeyRangeRef> reads,
                                        std::vector<KeyRangeRef> writes) {
    CommitTransactionRef made;
    made.read_snapshot = snapshot;
    made.read_conflict_ranges = std::move(reads);
    made.write_conflict_ranges = std::move(writes);
    return made;
}

// Reads of a key that was written after the snapshot, as each form of the key.
static void single_keys() {
    ConflictSet set;
    const std::string key = "k";
    std::vector<int> committed;
    ConflictBatch first(&set);
    first.addTransaction(transaction(0, {}, {KeyRangeRef::single(key)}));
    first.detectConflicts(100, committed);
    DEMAND(committed.size() == 1);
    ConflictBatch second(&set);
    second.addTransaction(transaction(50, {KeyRangeRef::single("k")}, {}));
    second.addTransaction(transaction(50, {{"k", "k\0"}}, {}));
    second.addTransaction(transaction(50, {{"k"sv, "k\0"sv}}, {}));
    second.addTransaction(transaction(50, {{"a", "z"}}, {}));
    second.addTransaction(transaction(50, {{key, key}}, {}));
    second.addTransaction(transaction(50, {KeyRangeRef::single("k\0")}, {}));
    committed.clear();
    second.detectConflicts(200, committed);
    DEMAND(committed == (std::vector<int>{4, 5}));
}

static void iterators() {
    BatchWriter writer;
    Set set;
    std::vector<std::uint8_t> bytes;
    writer.begin(-1, 0, -1);
    for (int i = 0; i < 5; i++) writer.transaction(0);
    Reply reply = set.resolve(writer.end(), bytes);
    DEMAND(reply.size() == 5 && !reply.empty() && reply.version() == 0);
    DEMAND(std::distance(reply.begin(), reply.end()) == 5);
    DEMAND(std::all_of(reply.begin(), reply.end(),
                       [](const Entry& entry) { return entry.verdict() == Verdict::committed; }));
    const std::vector<Entry> entries(reply.begin(), reply.end());
    DEMAND(entries.size() == 5 && entries[0].places() == 0);
    Reply::Iterator at = reply.begin();
    DEMAND(at == reply.begin() && at++ == reply.begin() && at != reply.begin() &&
           at != reply.end());
    DEMAND(frameLength(View(bytes)) == 15 + 5 * 3);
    writer.begin(0, 1, -1);
    Reply none = set.resolve(writer.end(), bytes);
    DEMAND(none.empty() && none.begin() == none.end());
}

static void moves() {
    Set set, other = std::move(set);
    DEMAND(set.handle()->at == nullptr && set.boundaries() == 0 && other.boundaries() == 1);
    set = std::move(other);
    DEMAND(set.boundaries() == 1);
    Core core(2), taken = std::move(core);
    DEMAND(core.owed() == 0 && core.stop() == ARCHCARAWAY_ARGUMENT &&
           taken.stop() == ARCHCARAWAY_OK);
    BatchWriter writer;
    writer.begin(-1, 0, -1);
    BatchWriter last = std::move(writer);
    taken.admit(1, last.end());
    taken.finish();
    std::vector<std::uint8_t> bytes;
    DEMAND(taken.owed() == 1 && taken.give(0, bytes).kind == ARCHCARAWAY_NOTHING);
    DEMAND(taken.give(1, bytes).kind == ARCHCARAWAY_REPLY && Reply(View(bytes.data(), 15)).empty());
}

static void batches() {
    Set set;
    Core core(1);
    CommitTransactionRef write, late;
    write.write_conflict_ranges = {KeyRangeRef::single("k"), {"x", "z"}};
    late.read_conflict_ranges = {{"a", "b"}, KeyRangeRef("j", "l")};
    Batch batch, other;
    batch.add(write);
    batch.add(late);
    batch.dropLast();
    DEMAND(batch.size() == 1 && batch.room() == ARCHCARAWAY_MAX_TRANSACTIONS - 1);
    DEMAND(batch.judge(set, 10) == std::vector<Verdict>{Verdict::committed});
    other.add(late);
    batch.append(other);
    DEMAND((batch.judge(set, 20) == std::vector<Verdict>{Verdict::committed, Verdict::conflict}));
    batch.admit(core, 0, -1, 10, -1);
    std::vector<std::uint8_t> bytes;
    const Answer answer = core.give(0, bytes);
    DEMAND(answer.kind == ARCHCARAWAY_REPLY && Reply(answer.reply).size() == 2);
    Batch moved = std::move(batch);
    DEMAND(batch.size() == 0 && moved.size() == 2);
    moved.clear();
    DEMAND(moved.size() == 0 && moved.judge(set, 30).empty());
}

static void shards() {
    SplitPoints none(std::vector<std::string>{}), points(std::vector<std::string>{"m"});
    DEMAND(none.shards() == 1 && points.shards() == 2);
    BatchWriter writer;
    writer.begin(-1, 0, -1);
    writer.transaction(0, true);
    writer.read("a", "z");
    writer.write("x");
    const View frame = writer.end();
    std::vector<std::uint8_t> clip, reply, combined;
    std::string replies;
    Set sets[2];
    for (std::size_t shard = 0; shard < points.shards(); shard++) {
        const Reply own = sets[shard].resolve(points.clip(shard, frame, clip), reply);
        DEMAND(own.size() == 1);
        replies += View(reply.data(), frameLength(View(reply))).text();
    }
    DEMAND(points.combine(frame, replies, combined).size() == 1);
    DEMAND((*points.combine(frame, replies, combined).begin()).verdict() == Verdict::committed);
    SplitPoints moved = std::move(points);
    DEMAND(points.shards() == 0 && moved.shards() == 2 && points.handle()->at == nullptr);
}

static void starts() {
    std::vector<int> committed;
    ConflictSet set = ConflictSet::at(1000);
    ConflictBatch batch(&set);
    batch.addTransaction(transaction(900, {KeyRangeRef::single("k")}, {}));
    batch.addTransaction(transaction(1000, {KeyRangeRef::single("k")}, {}));
    batch.detectConflicts(1001, committed);
    DEMAND(committed == std::vector<int>{1});
    DEMAND(Set::at(7).stats().version == 7 && Set().stats().version == -1);
    Core core = Core::at(1000, 2);
    BatchWriter writer;
    writer.begin(1000, 1001, -1);
    DEMAND(core.next() == std::nullopt);
    core.admit(1, writer.end());
    DEMAND(core.next() == 1u && core.stats().version == 1001 && core.stats().owed == 1);
    DEMAND(core.bytesHeld() > 0 && core.bytesHeld() == Set::at(1000).bytesHeld());
}

// A set that is trimmed answers what it answered before.
static void trims() {
    Set set;
    Batch batch;
    for (int i = 0; i < 1000; i++) {
        const std::string key(100, static_cast<char>('a' + i % 26));
        batch.add(transaction(0, {}, {KeyRangeRef::single(key + std::to_string(i))}));
    }
    batch.judge(set, 1);
    batch.clear();
    batch.add(transaction(0, {}, {KeyRangeRef::single("k")}));
    Version version = 2 + ARCHCARAWAY_WINDOW;
    for (; set.boundaries() > 3; version++) batch.judge(set, version);
    const std::uint64_t bytes = set.bytesHeld();
    set.trim();
    DEMAND(set.boundaries() == 3 && set.stats().version == version - 1);
    DEMAND(set.bytesHeld() > 0 && set.bytesHeld() < bytes / 2);
    batch.clear();
    batch.add(transaction(version - 1, {KeyRangeRef::single("k")}, {}));
    batch.add(transaction(version - 2, {KeyRangeRef::single("k")}, {}));
    const std::vector<Verdict> wanted{Verdict::committed, Verdict::conflict};
    DEMAND(batch.judge(set, version) == wanted);
}

// What doesn't fit the limit is refused, and the set continues.
static void tries() {
    Set set(ARCHCARAWAY_WINDOW, 3);
    std::vector<std::uint8_t> bytes;
    BatchWriter writer;
    writer.begin(-1, 100, -1);
    writer.transaction(0);
    writer.write("a");
    DEMAND(set.tryResolve(writer.end(), bytes)->size() == 1);
    Batch batch;
    batch.add(transaction(0, {}, {KeyRangeRef::single("b")}));
    DEMAND(batch.tryJudge(set, 200) == std::nullopt && set.stats().version == 100);
    writer.begin(-1, 200, -1);
    writer.transaction(0);
    writer.write("b");
    DEMAND(!set.tryResolve(writer.end(), bytes) && set.boundaries() == 3);
    DEMAND(batch.tryJudge(set, 101 + ARCHCARAWAY_WINDOW)->size() == 1 && set.boundaries() == 3);
}

#if defined(__cpp_exceptions)
template <typename Call>
static int refusal(Call call) {
    try {
        call();
    } catch (const Error& error) {
        DEMAND(error.what() == archcaraway_status_text(error.status()));
        return error.status();
    }
    return ARCHCARAWAY_OK;
}

static void refusals() {
    BatchWriter writer;
    Set set;
    std::vector<std::uint8_t> bytes;
    DEMAND(refusal([] { Set none(0); }) == ARCHCARAWAY_ARGUMENT);
    DEMAND(refusal([] { Core none(65); }) == ARCHCARAWAY_ARGUMENT);
    DEMAND(refusal([] { Set::at(-2); }) == ARCHCARAWAY_ARGUMENT);
    DEMAND(refusal([] { Set::at(0, 1, 2); }) == ARCHCARAWAY_ARENA_FULL);
    DEMAND(refusal([&] { writer.begin(0, 0, -1); }) == ARCHCARAWAY_FRAME_VERSION);
    DEMAND(refusal([&] { writer.end(); }) == ARCHCARAWAY_FRAME_VERSION);
    DEMAND(refusal([&] { set.resolve("", bytes); }) == ARCHCARAWAY_FRAME_SHORT);
    DEMAND(refusal([&] {
               Set taken = std::move(set);
               set.resolve("", bytes);
           }) == ARCHCARAWAY_ARGUMENT);
    DEMAND(refusal([] { Reply none(View("abc")); }) == ARCHCARAWAY_FRAME_SHORT);
    Batch batch;
    CommitTransactionRef inverted;
    inverted.read_conflict_ranges = {{"b", "a"}};
    DEMAND(refusal([&] { batch.add(inverted); }) == ARCHCARAWAY_FRAME_INVERTED &&
           batch.size() == 0);
    DEMAND(refusal([] {
               SplitPoints points(std::vector<std::string>{"b", "a"});
           }) == ARCHCARAWAY_POINTS_NOT_RISING);
    SplitPoints points(std::vector<std::string>{"m"});
    DEMAND(refusal([&] { points.clip(0, "", bytes); }) == ARCHCARAWAY_FRAME_SHORT);
    DEMAND(refusal([&] { points.clip(2, "", bytes); }) == ARCHCARAWAY_ARGUMENT);
    DEMAND(Error(ARCHCARAWAY_ARENA_FULL).isStop() && !Error(ARCHCARAWAY_BUFFER).isStop());
}
#else
static void refusals() {}
#endif

int main() {
    views();
    single_keys();
    iterators();
    moves();
    batches();
    shards();
    starts();
    tries();
    trims();
    refusals();
    std::puts("header: views, single keys, iterators, moves, batches, shards and refusals are as "
              "the header says");
}
