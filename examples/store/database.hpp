// LMDB in a few C++ classes: one table of keys and values, and the version that they are of.
#ifndef STORE_DATABASE_HPP
#define STORE_DATABASE_HPP

#include <lmdb.h>

#include <cstdint>
#include <map>
#include <optional>
#include <stdexcept>
#include <string>

namespace store {

using Version = std::int64_t;
using Rows = std::map<std::string, std::string>;

// What a transaction writes, by key: a value, or nothing for an erased key.
using Changes = std::map<std::string, std::optional<std::string>>;

inline void check(int status) {
    if (status != MDB_SUCCESS) throw std::runtime_error(mdb_strerror(status));
}

inline MDB_val value(const std::string& bytes) {
    return {bytes.size(), const_cast<char*>(bytes.data())};
}

inline std::string text(const MDB_val& value) {
    return std::string(static_cast<const char*>(value.mv_data), value.mv_size);
}

// The key of the version, in a separate table.
inline const std::string versionKey = "version";

// A database in a folder, which has to exist. One process opens it at a time.
class Database {
public:
    Database(const std::string& folder, bool sync);
    ~Database() { mdb_env_close(env_); }
    Database(const Database&) = delete;
    Database& operator=(const Database&) = delete;

    // Writes the changes of several transactions, in their order, and the version, all or nothing.
    template <typename Iterator>
    void write(Version version, Iterator first, Iterator last);

private:
    friend class Snapshot;
    MDB_env* env_ = nullptr;
    MDB_dbi rows_ = 0;
    MDB_dbi state_ = 0;
};

// The rows as of one version. It stays the same while others write. A thread may have several.
class Snapshot {
public:
    explicit Snapshot(Database& database) : database_(database) {
        check(mdb_txn_begin(database.env_, nullptr, MDB_RDONLY, &txn_));
    }
    ~Snapshot() { mdb_txn_abort(txn_); }
    Snapshot(const Snapshot&) = delete;
    Snapshot& operator=(const Snapshot&) = delete;

    // The version of the last write, or 0 if there was none.
    Version version() const;
    std::optional<std::string> get(const std::string& key) const;
    // The rows whose keys are from `begin` on and before `end`.
    Rows get(const std::string& begin, const std::string& end) const;

private:
    Database& database_;
    MDB_txn* txn_ = nullptr;
};

inline Database::Database(const std::string& folder, bool sync) {
    check(mdb_env_create(&env_));
    check(mdb_env_set_maxdbs(env_, 2));
    check(mdb_env_set_maxreaders(env_, 512));
    check(mdb_env_set_mapsize(env_, std::size_t(1) << 32));
    check(mdb_env_open(env_, folder.c_str(), MDB_NOTLS | (sync ? 0 : MDB_NOSYNC), 0644));
    // A process that was killed leaves its readers behind, and their pages could not be reused.
    int dead = 0;
    check(mdb_reader_check(env_, &dead));
    MDB_txn* txn = nullptr;
    check(mdb_txn_begin(env_, nullptr, 0, &txn));
    check(mdb_dbi_open(txn, "rows", MDB_CREATE, &rows_));
    check(mdb_dbi_open(txn, "state", MDB_CREATE, &state_));
    check(mdb_txn_commit(txn));
}

template <typename Iterator>
void Database::write(Version version, Iterator first, Iterator last) {
    MDB_txn* txn = nullptr;
    check(mdb_txn_begin(env_, nullptr, 0, &txn));
    try {
        for (; first != last; ++first) {
            for (const auto& [key, changed] : *first) {
                MDB_val k = value(key);
                if (changed) {
                    MDB_val v = value(*changed);
                    check(mdb_put(txn, rows_, &k, &v, 0));
                } else {
                    const int status = mdb_del(txn, rows_, &k, nullptr);
                    if (status != MDB_NOTFOUND) check(status);
                }
            }
        }
        const std::string digits = std::to_string(version);
        MDB_val k = value(versionKey), v = value(digits);
        check(mdb_put(txn, state_, &k, &v, 0));
    } catch (...) {
        mdb_txn_abort(txn);
        throw;
    }
    check(mdb_txn_commit(txn));
}

inline Version Snapshot::version() const {
    MDB_val k = value(versionKey), v;
    const int status = mdb_get(txn_, database_.state_, &k, &v);
    if (status == MDB_NOTFOUND) return 0;
    check(status);
    return std::stoll(text(v));
}

inline std::optional<std::string> Snapshot::get(const std::string& key) const {
    MDB_val k = value(key), v;
    const int status = mdb_get(txn_, database_.rows_, &k, &v);
    if (status == MDB_NOTFOUND) return std::nullopt;
    check(status);
    return text(v);
}

inline Rows Snapshot::get(const std::string& begin, const std::string& end) const {
    Rows found;
    MDB_cursor* cursor = nullptr;
    check(mdb_cursor_open(txn_, database_.rows_, &cursor));
    MDB_val k = value(begin), v;
    int status = mdb_cursor_get(cursor, &k, &v, MDB_SET_RANGE);
    while (status == MDB_SUCCESS && text(k) < end) {
        found.emplace(text(k), text(v));
        status = mdb_cursor_get(cursor, &k, &v, MDB_NEXT);
    }
    mdb_cursor_close(cursor);
    if (status != MDB_NOTFOUND) check(status);
    return found;
}

} // namespace store

#endif
