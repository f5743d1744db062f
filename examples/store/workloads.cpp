// Runs clients on a store, and records what each of their transactions read, wrote and received.
//
//     workloads WORKLOAD FOLDER HISTORY [--clients N] [--seconds S] [--life L] [--window V]
//               [--limit B] [--isolation serializable|snapshot|none] [--start version|empty]
//
// WORKLOAD is transfers, skew or appends. HISTORY grows by one line of JSON before each commit, and
// by one after it, so that a process that is killed leaves no committed transaction out. The number
// of a life distinguishes the processes on one folder. With 0 seconds all is read once, at the end.
#include <fcntl.h>
#include <unistd.h>

#include <atomic>
#include <functional>
#include <iostream>
#include <random>

#include "store.hpp"

using store::Outcome;
using store::Rows;
using store::Store;
using store::Transaction;

namespace {

struct Arguments {
    std::string workload, folder, history;
    int clients = 16;
    double seconds = 10;
    int life = 0;
    store::Options options;
};

// Nanoseconds that all processes of the machine count in the same way.
std::int64_t now() {
    const auto since = std::chrono::steady_clock::now().time_since_epoch();
    return std::chrono::duration_cast<std::chrono::nanoseconds>(since).count();
}

// Writes a line at the end of a file at once: it is there even if the process is killed next. What
// a killed process left of a line stays a line for itself.
void addLine(int file, const std::string& line) {
    const std::string bytes = "\n" + line + "\n";
    if (::write(file, bytes.data(), bytes.size()) != static_cast<ssize_t>(bytes.size())) {
        throw std::runtime_error("the history can't be written");
    }
}

std::string quoted(const std::string& text) { return '"' + text + '"'; }

// Members of a JSON object, from pieces of JSON.
std::string object(const std::map<std::string, std::string>& members) {
    std::string text;
    for (const auto& [name, json] : members) {
        text += (text.empty() ? "" : ",") + quoted(name) + ":" + json;
    }
    return "{" + text + "}";
}

std::string object(const Rows& rows, const std::function<std::string(const std::string&)>& json) {
    std::map<std::string, std::string> members;
    for (const auto& [key, value] : rows) members[key] = json(value);
    return object(members);
}

std::string number(const std::string& digits) { return digits; }
std::string list(const std::string& values) { return "[" + values + "]"; }

// A key whose number has always as many digits, so that keys are in the order of their numbers.
std::string key(const std::string& table, std::uint64_t number) {
    std::string digits = std::to_string(number);
    return table + "/" + std::string(digits.size() < 8 ? 8 - digits.size() : 0, '0') + digits;
}

// All keys of a table, or of a part of one.
Rows all(Transaction& transaction, const std::string& table) {
    return transaction.get(table + "/", table + "0");
}

class Client {
public:
    Client(Store& store, int history, const Arguments& arguments, int number)
      : store_(store), history_(history), arguments_(arguments), number_(number),
        random_(static_cast<std::uint64_t>(1000 * arguments.life + number)) {}

    void setUp();
    void step();
    void readAll();

private:
    using Members = std::map<std::string, std::string>;

    void transfer();
    void audit();
    void skew();
    void append();
    std::uint64_t below(std::uint64_t limit) { return random_() % limit; }

    // Records what a transaction is about to commit, commits it, and records the outcome.
    void commit(Transaction& transaction, std::int64_t begin, Members members) {
        const std::string id = quoted(std::to_string(arguments_.life) + "." +
                                      std::to_string(number_) + "." + std::to_string(++last_));
        members["id"] = id;
        members["begin"] = std::to_string(begin);
        addLine(history_, object(members));
        rest();
        static const char* const words[] = {"conflict", "too old", "committed"};
        const Outcome outcome = transaction.commit();
        addLine(history_, object({{"id", id},
                                  {"end", std::to_string(now())},
                                  {"outcome", quoted(words[static_cast<int>(outcome)])}}));
    }

    // The time that a client thinks, so that transactions overlap. Some think too long.
    void rest() {
        std::int64_t time = static_cast<std::int64_t>(below(300));
        if (below(3000) == 0) time += arguments_.options.window + 100'000;
        std::this_thread::sleep_for(std::chrono::microseconds(time));
    }

    Store& store_;
    const int history_; // a file
    const Arguments& arguments_;
    const int number_;
    std::mt19937_64 random_;
    std::uint64_t last_ = 0;
};

constexpr std::uint64_t accounts = 64, balance = 100, pairs = 16, lists = 8;

// How many lists were appended to, for all clients.
std::atomic<std::uint64_t> appended{0};

void Client::setUp() {
    const auto put = [this](const std::string& name, const std::string& value) {
        store::transact(store_, [&](Transaction& transaction) {
            if (!transaction.get(name)) transaction.put(name, value);
        });
    };
    for (std::uint64_t i = 0; i < accounts; i++) put(key("account", i), std::to_string(balance));
    for (std::uint64_t i = 0; i < pairs; i++) put(key("pair", i) + "/x", "on");
    for (std::uint64_t i = 0; i < pairs; i++) put(key("pair", i) + "/y", "on");
}

void Client::step() {
    if (arguments_.workload == "transfers") return below(20) == 0 ? audit() : transfer();
    if (arguments_.workload == "skew") return skew();
    append();
}

// Moves an amount between two accounts, and counts the transfers of this client.
void Client::transfer() {
    const std::int64_t begin = now();
    const std::string from = key("account", below(accounts));
    const std::string to = key("account", below(accounts));
    const int amount = 1 + static_cast<int>(below(10));
    if (from == to) return;
    Transaction transaction(store_);
    const int left = std::stoi(*transaction.get(from)) - amount;
    if (left < 0) return;
    const std::string me = std::to_string(arguments_.life) + "." + std::to_string(number_);
    transaction.put(from, std::to_string(left));
    transaction.put(to, std::to_string(std::stoi(*transaction.get(to)) + amount));
    transaction.put("client/" + me, std::to_string(last_ + 1));
    commit(transaction, begin,
           {{"from", quoted(from)}, {"to", quoted(to)}, {"amount", std::to_string(amount)}});
}

void Client::audit() {
    const std::int64_t begin = now();
    Transaction transaction(store_);
    const std::string read = object(all(transaction, "account"), number);
    commit(transaction, begin, {{"accounts", read}});
}

// Of two switches at most one may be off: turns one off if both are on, or else all on. It reads
// both and changes one.
void Client::skew() {
    const std::int64_t begin = now();
    const std::string pair = key("pair", below(pairs));
    Transaction transaction(store_);
    const Rows read = all(transaction, pair);
    std::string off;
    for (const auto& [name, state] : read) {
        if (state == "off") off = name;
    }
    if (off.empty()) {
        transaction.put(pair + (below(2) == 0 ? "/x" : "/y"), "off");
    } else {
        transaction.put(off, "on");
    }
    commit(transaction, begin, {{"switches", object(read, quoted)}});
}

// Reads some lists, and appends to some. All clients use the same lists, and later others.
void Client::append() {
    const std::int64_t begin = now();
    const std::uint64_t first = appended.load() / 400 * lists;
    Transaction transaction(store_);
    Rows read, written;
    if (below(8) == 0) {
        read = transaction.get(key("list", first), key("list", first + lists));
        for (std::uint64_t i = 0; i < lists; i++) read[key("list", first + i)];
    }
    for (std::uint64_t i = 0; i < 3; i++) {
        const std::string name = key("list", first + below(lists));
        read[name] = transaction.get(name).value_or("");
        if (below(2) != 0 || written.count(name) != 0) continue;
        // No value is appended twice.
        written[name] = std::to_string((arguments_.life * 1000 + number_) * 10'000'000LL +
                                       static_cast<std::int64_t>(++appended));
    }
    for (const auto& [name, value] : written) {
        transaction.put(name, read[name].empty() ? value : read[name] + "," + value);
    }
    commit(transaction, begin,
           {{"read", object(read, list)}, {"append", object(written, number)}});
}

// Everything at the end.
void Client::readAll() {
    const std::int64_t begin = now();
    Transaction transaction(store_);
    Members members{{"final", "true"}};
    if (arguments_.workload == "transfers") {
        members["clients"] = object(all(transaction, "client"), number);
        members["accounts"] = object(all(transaction, "account"), number);
    } else if (arguments_.workload == "skew") {
        members["switches"] = object(all(transaction, "pair"), quoted);
    } else {
        members["read"] = object(all(transaction, "list"), list);
        members["append"] = "{}";
    }
    commit(transaction, begin, members);
}

Arguments arguments(int count, char** words) {
    Arguments read;
    store::Options& options = read.options;
    const std::map<std::string, std::function<void(const std::string&)>> set{
        {"--clients", [&](auto& word) { read.clients = std::stoi(word); }},
        {"--seconds", [&](auto& word) { read.seconds = std::stod(word); }},
        {"--life", [&](auto& word) { read.life = std::stoi(word); }},
        {"--window", [&](auto& word) { options.window = std::stoll(word); }},
        {"--limit", [&](auto& word) { options.limit = std::stoull(word); }},
        {"--start", [&](auto& word) { options.startsAtVersion = word == "version"; }},
        {"--isolation", [&](auto& word) {
             options.isolation = word == "none"       ? store::Isolation::none
                                 : word == "snapshot" ? store::Isolation::snapshot
                                                      : store::Isolation::serializable;
         }}};
    if (count < 4 || count % 2 != 0) throw std::invalid_argument("WORKLOAD FOLDER HISTORY ..");
    read.workload = words[1], read.folder = words[2], read.history = words[3];
    for (int i = 4; i < count; i += 2) set.at(words[i])(words[i + 1]);
    return read;
}

void run(Arguments& arguments) {
    // A process that is killed loses nothing that it gave to the system.
    arguments.options.sync = false;
    Store store(arguments.folder, arguments.options);
    const int history =
        ::open(arguments.history.c_str(), O_WRONLY | O_CREAT | O_APPEND | O_CLOEXEC, 0644);
    Client first(store, history, arguments, arguments.clients);
    if (arguments.seconds == 0) return first.readAll();
    first.setUp();
    const std::int64_t end = now() + static_cast<std::int64_t>(1e9 * arguments.seconds);
    std::vector<std::thread> threads;
    for (int number = 0; number < arguments.clients; number++) {
        threads.emplace_back([&, number] {
            Client client(store, history, arguments, number);
            while (now() < end) client.step();
        });
    }
    for (std::thread& thread : threads) thread.join();
    store::Counts counts = store.counts();
    std::cout << arguments.workload << ": " << counts.outcomes[Outcome::committed]
              << " committed, " << counts.outcomes[Outcome::conflict] << " conflicts, "
              << counts.outcomes[Outcome::tooOld] << " too old, " << counts.batches << " batches, "
              << counts.sets << " sets" << std::endl;
}

} // namespace

int main(int count, char** words) {
    try {
        Arguments read = arguments(count, words);
        run(read);
    } catch (const std::exception& error) {
        std::cerr << "workloads: " << error.what() << "\n";
        return 1;
    }
}
