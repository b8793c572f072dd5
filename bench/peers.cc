// The work of crates/store_trial on the stores that one would take else, and on bare arrays and files.
//
//   peers SYSTEM FOLDER graph VERTICES EDGES READS    loads the graph, reads edges, reads all lists, and waits
//   peers SYSTEM FOLDER open                          opens what a killed `graph` left, and reads one list
//   peers SYSTEM FOLDER own THREADS COMMITS           commits of one put, each thread on a vertex of its own
//   peers SYSTEM FOLDER hub EDGES MILLIS              reads a hub's list alone, and beside a writer of it
//
// SYSTEM is one of:
//   c         arrays of entries with stamps, a hash map, and a bare loop of two writes and two syncs
//   lmdb      keys of vertex, label and age for the lists, and an index by destination
//   lmdb-dup  the same, where a list is the sorted duplicates of one key
//   rocksdb   the keys of `lmdb` in a TransactionDB, each commit synced
//   sqlite    a table with a covering index by age, a WAL journal, synchronous=FULL
//
// In each of them a list is read newest first, a put to a destination that is there takes its edge's place, and a
// commit is durable before it returns. Each phase prints a line on standard error as store_trial does.
#include <fcntl.h>
#include <lmdb.h>
#include <rocksdb/cache.h>
#include <rocksdb/filter_policy.h>
#include <rocksdb/slice_transform.h>
#include <rocksdb/table.h>
#include <rocksdb/utilities/transaction.h>
#include <rocksdb/utilities/transaction_db.h>
#include <sqlite3.h>
#include <sys/stat.h>
#include <unistd.h>

#include <algorithm>
#include <atomic>
#include <chrono>
#include <condition_variable>
#include <cstdint>
#include <cstdio>
#include <cstdlib>
#include <cstring>
#include <functional>
#include <memory>
#include <mutex>
#include <string>
#include <thread>
#include <vector>

using u64 = uint64_t;
using u32 = uint32_t;

static const int PUTS = 1000;   // puts of a transaction of a load
static const int READS = 1000;  // reads of a transaction of reads

[[noreturn]] static void fail(const std::string &what) {
    fprintf(stderr, "peers: %s\n", what.c_str());
    exit(1);
}

// ---- the graph, as crates/store_trial generates it

struct Edge {
    u64 from, to, word;
};

static u64 drawn(u64 number) {
    u64 z = number * 0x9E3779B97F4A7C15u;
    z = (z ^ (z >> 30)) * 0xBF58476D1CE4E5B9u;
    z = (z ^ (z >> 27)) * 0x94D049BB133111EBu;
    return z ^ (z >> 31);
}

static Edge edge_of(u64 vertices, u64 number) {
    u64 u = drawn(3 * number + 1) >> 32, cube = (u * u >> 32) * u >> 32;
    return {(cube * (vertices / 8) >> 32) * 8 + number % 8 + 1, 1 + drawn(3 * number + 2) % vertices, drawn(3 * number + 3)};
}

static Edge edge_from(u64 from, u64 number) { return {from, 1 + number, drawn(number)}; }

// ---- a phase's line

struct Tally {
    u64 edges = 0, sum = 0, transactions = 0;
    void see(u64 to, u64 word) {
        edges++;
        sum += to ^ word;
    }
};

static u64 now() {
    using namespace std::chrono;
    return duration_cast<nanoseconds>(steady_clock::now().time_since_epoch()).count();
}

static void tell(const char *name, u64 nanos, u64 read, const Tally &t) {
    fprintf(stderr, "%s nanos %lu read %lu transactions %lu edges %lu sum %lu\n", name, nanos, read, t.transactions, t.edges,
            t.sum);
}

// Runs so many threads side by side. The time from when all stand ready to the last one's end.
static u64 together(int threads, const std::function<void(int)> &work) {
    std::atomic<int> ready{0};
    std::atomic<bool> go{false};
    std::vector<std::thread> all;
    for (int i = 0; i < threads; i++)
        all.emplace_back([&, i] {
            ready++;
            while (!go) std::this_thread::yield();
            work(i);
        });
    while (ready < threads) std::this_thread::yield();
    u64 start = now();
    go = true;
    for (auto &t : all) t.join();
    return now() - start;
}

// ---- what a store is asked

struct Session {
    virtual ~Session() {}
    virtual void begin(bool writes) = 0;
    virtual void put(const Edge &e) = 0;
    virtual bool read(u64 from, u64 to, u64 &word) = 0;
    virtual void scan(u64 from, Tally &t) = 0;
    virtual bool commit() = 0;  // false: it met a conflict, and is to be run again
};

struct Store {
    virtual ~Store() {}
    virtual void open(const std::string &folder) = 0;
    virtual std::unique_ptr<Session> session() = 0;
};

static const uint16_t LABEL = 1;

static void put64(char *at, u64 x) {
    x = __builtin_bswap64(x);
    memcpy(at, &x, 8);
}

static u64 get64(const void *at) {
    u64 x;
    memcpy(&x, at, 8);
    return x;
}

// A vertex and its label, and with them an age or a destination.
struct Key {
    char bytes[18];
    Key(u64 from, u64 last) {
        put64(bytes, from);
        bytes[8] = LABEL >> 8, bytes[9] = LABEL & 255;
        put64(bytes + 10, last);
    }
};

struct Two {
    char bytes[16];
    Two(u64 a, u64 b) {
        memcpy(bytes, &a, 8);
        memcpy(bytes + 8, &b, 8);
    }
};

// ---- LMDB

static void lmdb_ok(int code, const char *what) {
    if (code) fail(std::string("lmdb: ") + what + ": " + mdb_strerror(code));
}

struct Lmdb : Store {
    bool duplicates;
    MDB_env *env = nullptr;
    MDB_dbi lists = 0, index = 0;
    u64 age = 1;  // under the writer's lock
    explicit Lmdb(bool d) : duplicates(d) {}

    void open(const std::string &folder) override {
        MDB_txn *t;
        lmdb_ok(mdb_env_create(&env), "create");
        lmdb_ok(mdb_env_set_mapsize(env, size_t(16) << 30), "map size");
        lmdb_ok(mdb_env_set_maxdbs(env, 2), "databases");
        lmdb_ok(mdb_env_open(env, folder.c_str(), MDB_NOTLS, 0644), "open");
        lmdb_ok(mdb_txn_begin(env, nullptr, 0, &t), "begin");
        lmdb_ok(mdb_dbi_open(t, "lists", MDB_CREATE | (duplicates ? MDB_DUPSORT | MDB_DUPFIXED : 0), &lists), "lists");
        lmdb_ok(mdb_dbi_open(t, "index", MDB_CREATE, &index), "index");
        lmdb_ok(mdb_txn_commit(t), "commit");
    }

    struct S : Session {
        Lmdb &store;
        MDB_txn *reader = nullptr, *writer = nullptr;
        MDB_cursor *reader_lists = nullptr, *reader_index = nullptr, *lists = nullptr, *index = nullptr;
        explicit S(Lmdb &s) : store(s) {}

        void begin(bool writes) override {
            if (writes) {
                lmdb_ok(mdb_txn_begin(store.env, nullptr, 0, &writer), "begin");
                lmdb_ok(mdb_cursor_open(writer, store.lists, &lists), "cursor");
                lmdb_ok(mdb_cursor_open(writer, store.index, &index), "cursor");
            } else if (!reader) {
                lmdb_ok(mdb_txn_begin(store.env, nullptr, MDB_RDONLY, &reader), "begin");
                lmdb_ok(mdb_cursor_open(reader, store.lists, &reader_lists), "cursor");
                lmdb_ok(mdb_cursor_open(reader, store.index, &reader_index), "cursor");
            } else {
                lmdb_ok(mdb_txn_renew(reader), "renew");
                lmdb_ok(mdb_cursor_renew(reader, reader_lists), "renew");
                lmdb_ok(mdb_cursor_renew(reader, reader_index), "renew");
            }
        }

        static void item(char *at, u64 age, u64 to, u64 word) {
            put64(at, ~age);
            memcpy(at + 8, &to, 8);
            memcpy(at + 16, &word, 8);
        }

        void put(const Edge &e) override {
            u64 age = store.age++, old_age = 0, old_word = 0;
            Key key(e.from, e.to);
            Two fresh(age, e.word);
            MDB_val k{18, key.bytes}, v{16, fresh.bytes};
            int code = mdb_cursor_put(index, &k, &v, MDB_NOOVERWRITE);
            if (code == MDB_KEYEXIST) {
                old_age = get64(v.mv_data), old_word = get64((char *)v.mv_data + 8);
                v = {16, fresh.bytes};
                code = mdb_cursor_put(index, &k, &v, MDB_CURRENT);
            }
            lmdb_ok(code, "put");
            if (store.duplicates) {
                char one[24];
                MDB_val list{10, key.bytes}, entry{24, one};
                if (old_age) {
                    item(one, old_age, e.to, old_word);
                    lmdb_ok(mdb_del(writer, store.lists, &list, &entry), "del");
                }
                item(one, age, e.to, e.word);
                list = {10, key.bytes}, entry = {24, one};
                lmdb_ok(mdb_cursor_put(lists, &list, &entry, 0), "put");
            } else {
                if (old_age) {
                    Key old(e.from, ~old_age);
                    MDB_val at{18, old.bytes};
                    lmdb_ok(mdb_del(writer, store.lists, &at, nullptr), "del");
                }
                Key at(e.from, ~age);
                Two edge(e.to, e.word);
                MDB_val list{18, at.bytes}, entry{16, edge.bytes};
                lmdb_ok(mdb_cursor_put(lists, &list, &entry, 0), "put");
            }
        }

        bool read(u64 from, u64 to, u64 &word) override {
            Key key(from, to);
            MDB_val k{18, key.bytes}, v;
            int code = mdb_cursor_get(reader_index, &k, &v, MDB_SET);
            if (code == MDB_NOTFOUND) return false;
            lmdb_ok(code, "get");
            word = get64((char *)v.mv_data + 8);
            return true;
        }

        void scan(u64 from, Tally &t) override {
            Key key(from, 0);
            MDB_val k{store.duplicates ? size_t(10) : size_t(18), key.bytes}, v;
            int code;
            if (store.duplicates) {
                code = mdb_cursor_get(reader_lists, &k, &v, MDB_SET);
                if (!code) code = mdb_cursor_get(reader_lists, &k, &v, MDB_GET_MULTIPLE);
                for (; !code; code = mdb_cursor_get(reader_lists, &k, &v, MDB_NEXT_MULTIPLE))
                    for (size_t i = 0; i + 24 <= v.mv_size; i += 24)
                        t.see(get64((char *)v.mv_data + i + 8), get64((char *)v.mv_data + i + 16));
            } else {
                code = mdb_cursor_get(reader_lists, &k, &v, MDB_SET_RANGE);
                for (; !code && !memcmp(k.mv_data, key.bytes, 10); code = mdb_cursor_get(reader_lists, &k, &v, MDB_NEXT))
                    t.see(get64(v.mv_data), get64((char *)v.mv_data + 8));
            }
            if (code && code != MDB_NOTFOUND) lmdb_ok(code, "scan");
        }

        bool commit() override {
            if (writer) {
                mdb_cursor_close(lists);
                mdb_cursor_close(index);
                lmdb_ok(mdb_txn_commit(writer), "commit");
                writer = nullptr;
            } else
                mdb_txn_reset(reader);
            return true;
        }
    };

    std::unique_ptr<Session> session() override { return std::make_unique<S>(*this); }
};

// ---- RocksDB

namespace rdb = ROCKSDB_NAMESPACE;

static void rocks_ok(const rdb::Status &s) {
    if (!s.ok()) fail("rocksdb: " + s.ToString());
}

struct Rocks : Store {
    rdb::TransactionDB *db = nullptr;
    std::vector<rdb::ColumnFamilyHandle *> families;  // the default one, the lists, the index
    std::atomic<u64> age{1};

    void open(const std::string &folder) override {
        rdb::DBOptions options;
        options.create_if_missing = options.create_missing_column_families = true;
        options.IncreaseParallelism(4);
        rdb::BlockBasedTableOptions table;
        table.block_cache = rdb::NewLRUCache(256 << 20);
        table.filter_policy.reset(rdb::NewBloomFilterPolicy(10));
        rdb::ColumnFamilyOptions index, lists;
        index.table_factory.reset(rdb::NewBlockBasedTableFactory(table));
        table.whole_key_filtering = false;
        lists.prefix_extractor.reset(rdb::NewFixedPrefixTransform(10));
        lists.table_factory.reset(rdb::NewBlockBasedTableFactory(table));
        rocks_ok(rdb::TransactionDB::Open(
            options, rdb::TransactionDBOptions(), folder,
            {{rdb::kDefaultColumnFamilyName, rdb::ColumnFamilyOptions()}, {"lists", lists}, {"index", index}}, &families, &db));
    }

    struct S : Session {
        Rocks &store;
        rdb::Transaction *t = nullptr;
        const rdb::Snapshot *snapshot = nullptr;
        rdb::WriteOptions durable;
        rdb::TransactionOptions options;
        rdb::PinnableSlice found;
        bool writes = false, conflict = false;
        explicit S(Rocks &s) : store(s) {
            durable.sync = true;
            options.set_snapshot = true;
        }

        static rdb::Slice slice(const Key &k) { return {k.bytes, 18}; }

        void begin(bool w) override {
            writes = w, conflict = false;
            if (writes)
                t = store.db->BeginTransaction(durable, options, t);
            else
                snapshot = store.db->GetSnapshot();
        }

        void put(const Edge &e) override {
            if (conflict) return;
            Key key(e.from, e.to);
            std::string old;
            rdb::ReadOptions at;
            at.snapshot = t->GetSnapshot();
            rdb::Status s = t->GetForUpdate(at, store.families[2], slice(key), &old);
            conflict = s.IsBusy() || s.IsTimedOut() || s.IsTryAgain() || s.IsDeadlock();
            if (conflict) return;
            if (!s.IsNotFound()) {
                rocks_ok(s);
                rocks_ok(t->SingleDeleteUntracked(store.families[1], slice(Key(e.from, ~get64(old.data())))));
            }
            u64 age = store.age++;
            Two edge(e.to, e.word), entry(age, e.word);
            rocks_ok(t->PutUntracked(store.families[1], slice(Key(e.from, ~age)), rdb::Slice(edge.bytes, 16)));
            rocks_ok(t->Put(store.families[2], slice(key), rdb::Slice(entry.bytes, 16), true));
        }

        bool read(u64 from, u64 to, u64 &word) override {
            rdb::ReadOptions at;
            at.snapshot = snapshot;
            found.Reset();
            rdb::Status s = store.db->Get(at, store.families[2], slice(Key(from, to)), &found);
            if (s.IsNotFound()) return false;
            rocks_ok(s);
            word = get64(found.data() + 8);
            return true;
        }

        void scan(u64 from, Tally &t) override {
            Key low(from, 0);
            rdb::ReadOptions at;
            at.snapshot = snapshot;
            at.prefix_same_as_start = true;
            std::unique_ptr<rdb::Iterator> it(store.db->NewIterator(at, store.families[1]));
            for (it->Seek(rdb::Slice(low.bytes, 10)); it->Valid() && !memcmp(it->key().data(), low.bytes, 10); it->Next())
                t.see(get64(it->value().data()), get64(it->value().data() + 8));
            rocks_ok(it->status());
        }

        bool commit() override {
            if (!writes)
                store.db->ReleaseSnapshot(snapshot);
            else if (conflict)
                rocks_ok(t->Rollback());
            else
                rocks_ok(t->Commit());
            return !conflict;
        }
    };

    std::unique_ptr<Session> session() override { return std::make_unique<S>(*this); }
};

// ---- SQLite

struct Lite : Store {
    std::string file;
    std::mutex writer;  // to wait here is kinder than its own wait, which sleeps and tries again
    u64 age = 1;

    static void run(sqlite3 *db, const char *sql) {
        char *error = nullptr;
        if (sqlite3_exec(db, sql, nullptr, nullptr, &error) != SQLITE_OK) fail(std::string("sqlite: ") + sql + ": " + error);
    }

    sqlite3 *connection() {
        sqlite3 *db;
        if (sqlite3_open_v2(file.c_str(), &db, SQLITE_OPEN_READWRITE | SQLITE_OPEN_CREATE | SQLITE_OPEN_NOMUTEX, nullptr))
            fail("sqlite: open");
        sqlite3_busy_timeout(db, 20000);
        run(db, "PRAGMA journal_mode=WAL");
        run(db, "PRAGMA synchronous=FULL");
        run(db, "PRAGMA cache_size=-262144");
        run(db, "PRAGMA mmap_size=4294967296");
        return db;
    }

    void open(const std::string &folder) override {
        sqlite3_config(SQLITE_CONFIG_MEMSTATUS, 0);
        file = folder + "/graph.db";
        run(connection(),
            "CREATE TABLE IF NOT EXISTS edge(v INTEGER, l INTEGER, d INTEGER, age INTEGER, p BLOB NOT NULL, PRIMARY KEY(v, l, d)) "
            "WITHOUT ROWID; CREATE INDEX IF NOT EXISTS newest ON edge(v, l, age DESC, d, p)");
    }

    struct S : Session {
        Lite &store;
        sqlite3 *db;
        sqlite3_stmt *upsert, *get, *list, *begin_write, *begin_read, *end;
        bool writes = false;

        sqlite3_stmt *prepared(const char *sql) {
            sqlite3_stmt *s;
            if (sqlite3_prepare_v3(db, sql, -1, SQLITE_PREPARE_PERSISTENT, &s, nullptr))
                fail(std::string("sqlite: ") + sqlite3_errmsg(db));
            return s;
        }

        explicit S(Lite &s) : store(s), db(s.connection()) {
            upsert = prepared("INSERT INTO edge VALUES(?1, 1, ?2, ?3, ?4) ON CONFLICT(v, l, d) DO UPDATE SET age=?3, p=?4");
            get = prepared("SELECT p FROM edge WHERE v=?1 AND l=1 AND d=?2");
            list = prepared("SELECT d, p FROM edge WHERE v=?1 AND l=1 ORDER BY age DESC");
            begin_write = prepared("BEGIN IMMEDIATE");
            begin_read = prepared("BEGIN");
            end = prepared("COMMIT");
        }

        ~S() {
            for (auto *s : {upsert, get, list, begin_write, begin_read, end}) sqlite3_finalize(s);
            sqlite3_close_v2(db);
        }

        void done(sqlite3_stmt *s, int code) {
            if (code != SQLITE_DONE) fail(std::string("sqlite: ") + sqlite3_errmsg(db));
            sqlite3_reset(s);
        }

        void begin(bool w) override {
            writes = w;
            if (writes) store.writer.lock();
            sqlite3_stmt *s = writes ? begin_write : begin_read;
            done(s, sqlite3_step(s));
        }

        void put(const Edge &e) override {
            sqlite3_bind_int64(upsert, 1, e.from);
            sqlite3_bind_int64(upsert, 2, e.to);
            sqlite3_bind_int64(upsert, 3, store.age++);
            sqlite3_bind_blob(upsert, 4, &e.word, 8, SQLITE_TRANSIENT);
            done(upsert, sqlite3_step(upsert));
        }

        bool read(u64 from, u64 to, u64 &word) override {
            sqlite3_bind_int64(get, 1, from);
            sqlite3_bind_int64(get, 2, to);
            int code = sqlite3_step(get);
            bool found = code == SQLITE_ROW;
            if (found) {
                word = get64(sqlite3_column_blob(get, 0));
                code = sqlite3_step(get);
            }
            done(get, code);
            return found;
        }

        void scan(u64 from, Tally &t) override {
            sqlite3_bind_int64(list, 1, from);
            int code;
            while ((code = sqlite3_step(list)) == SQLITE_ROW)
                t.see(sqlite3_column_int64(list, 0), get64(sqlite3_column_blob(list, 1)));
            done(list, code);
        }

        bool commit() override {
            done(end, sqlite3_step(end));
            if (writes) store.writer.unlock();
            return true;
        }
    };

    std::unique_ptr<Session> session() override { return std::make_unique<S>(*this); }
};

// ---- the phases of a store

static void carried_out(Session &s, const std::function<void()> &puts) {
    do {
        s.begin(true);
        puts();
    } while (!s.commit());
}

static void load(Session &s, u64 count, const std::function<Edge(u64)> &edge) {
    for (u64 first = 0; first < count; first += PUTS)
        carried_out(s, [&] {
            for (u64 i = first; i < std::min(first + PUTS, count); i++) s.put(edge(i));
        });
}

static void store_graph(Store &store, u64 vertices, u64 edges, u64 reads) {
    auto s = store.session();
    u64 start = now();
    load(*s, edges, [&](u64 i) { return edge_of(vertices, i); });
    tell("load", now() - start, 0, {});
    Tally t;
    start = now();
    for (u64 first = 0; first < reads; first += READS) {
        s->begin(false);
        for (u64 i = first; i < std::min(first + READS, reads); i++) {
            Edge e = edge_of(vertices, drawn(i) % edges);
            u64 word;
            if (s->read(e.from, e.to, word)) t.see(e.to, word);
        }
        s->commit();
    }
    tell("read", now() - start, now() - start, t);
    Tally all;
    start = now();
    for (u64 v = 1; v <= vertices; v++) {
        s->begin(false);
        s->scan(v, all);
        s->commit();
    }
    tell("scan", now() - start, now() - start, all);
    pause();  // until it is killed
}

static void store_open(Store &store) {
    Tally t;
    auto s = store.session();
    s->begin(false);
    s->scan(1, t);
    s->commit();
    tell("open", 0, 0, t);
    _exit(0);
}

static void store_own(Store &store, int threads, u64 commits) {
    std::vector<std::unique_ptr<Session>> sessions;
    for (int i = 0; i < threads; i++) sessions.push_back(store.session());
    Tally t;
    t.transactions = threads * commits;
    tell("own", together(threads, [&](int place) {
        for (u64 i = 0; i < commits; i++) carried_out(*sessions[place], [&] { sessions[place]->put(edge_from(place + 1, i)); });
    }), 0, t);
}

// One thread reads a list of so many edges, again and again, beside one that puts edges on it, or alone.
static void hub(const char *name, u64 edges, u64 millis, bool beside, const std::function<void(Tally &)> &read,
                const std::function<void(u64)> &write) {
    Tally t;
    u64 reading = 0;
    std::atomic<u64> written{0};
    u64 end = now() + millis * 1000000;
    u64 nanos = together(beside ? 2 : 1, [&](int place) {
        if (place)
            for (u64 i = 0; now() < end; i++, written++) write(i);
        else {
            u64 start = now(), scans = 0;
            for (; now() < end; scans++) read(t);
            reading = now() - start;
            if (t.edges != scans * edges) fail("a reader saw a list that never was");
        }
    });
    t.transactions = written;
    tell(name, nanos, reading, t);
}

static void store_hub(Store &store, u64 edges, u64 millis) {
    auto reader = store.session(), writer = store.session();
    load(*writer, edges, [&](u64 i) { return edge_from(1, i); });
    for (bool beside : {false, true})
        hub(beside ? "beside" : "alone", edges, millis, beside,
            [&](Tally &t) {
                reader->begin(false);
                reader->scan(1, t);
                reader->commit();
            },
            [&](u64 i) { carried_out(*writer, [&] { writer->put(edge_from(1, drawn(i) % edges)); }); });
}

// ---- bare arrays and files

struct Entry {
    u64 to, born, died, word;
};

// Places by vertex and destination.
struct Map {
    struct Slot {
        u64 from, to;
        u32 place, used;
    };
    std::vector<Slot> slots{16};
    u64 len = 0;
    Slot &at(u64 from, u64 to) {
        u64 mask = slots.size() - 1, i = drawn(from * 0xC2B2AE3D27D4EB4Fu ^ to) & mask;
        while (slots[i].used && (slots[i].from != from || slots[i].to != to)) i = (i + 1) & mask;
        return slots[i];
    }
    void set(u64 from, u64 to, u32 place) {
        if (2 * (len + 1) > slots.size()) {
            std::vector<Slot> old(2 * slots.size());
            old.swap(slots);
            for (auto &s : old)
                if (s.used) at(s.from, s.to) = s;
        }
        Slot &s = at(from, to);
        len += !s.used;
        s = {from, to, place, 1};
    }
};

// A log of groups, as the store's: a write and a sync of the group, and then of the gate before it.
struct Log {
    int file;
    off_t place = 9;
    explicit Log(const std::string &name) {
        file = open(name.c_str(), O_RDWR | O_CREAT | O_TRUNC, 0644);
        if (file < 0 || pwrite(file, "TELLOG1\n", 9, 0) != 9 || fsync(file)) fail("a log");
    }
    void append(const char *bytes, size_t n) {
        if (pwrite(file, bytes, n, place) != ssize_t(n) || fdatasync(file)) fail("a write");
        if (pwrite(file, "\1", 1, place - 1) != 1 || fdatasync(file)) fail("a write");
        place += n;
    }
};

// What a put, a record and a group take in the store's log.
static const size_t PUT_BYTES = 29, RECORD_BYTES = 20, GROUP_BYTES = 17;

static void scan_entries(const Entry *list, u64 len, u64 epoch, Tally &t) {
    for (u64 i = len; i-- > 0;)
        if (list[i].born <= epoch && epoch < list[i].died) t.see(list[i].to, list[i].word);
}

struct Bare {
    std::vector<std::vector<Entry>> lists;
    Map map;
    void put(const Edge &e, u64 epoch) {
        if (lists.size() <= e.from) lists.resize(e.from + 1);
        auto &list = lists[e.from];
        auto &old = map.at(e.from, e.to);
        if (old.used) list[old.place].died = epoch;
        map.set(e.from, e.to, list.size());
        list.push_back({e.to, epoch, ~u64(0), e.word});
    }
};

static void bare_graph(const std::string &folder, u64 vertices, u64 edges, u64 reads) {
    Bare bare;
    Log log(folder + "/bare.log");
    std::vector<char> group(GROUP_BYTES + RECORD_BYTES + PUTS * PUT_BYTES);
    u64 start = now(), epoch = 0;
    for (u64 first = 0; first < edges; first += PUTS) {
        char *at = group.data() + GROUP_BYTES + RECORD_BYTES;
        epoch++;
        for (u64 i = first; i < std::min(first + PUTS, edges); i++, at += PUT_BYTES) {
            Edge e = edge_of(vertices, i);
            bare.put(e, epoch);
            memcpy(at, &e, sizeof e);
        }
        log.append(group.data(), at - group.data());
    }
    tell("load", now() - start, 0, {});
    auto read = [&](Tally &t, u64 number) {
        Edge e = edge_of(vertices, number);
        auto &s = bare.map.at(e.from, e.to);
        if (!s.used) return;
        Entry &found = bare.lists[e.from][s.place];
        if (found.born <= epoch && epoch < found.died) t.see(e.to, found.word);
    };
    Tally t;
    start = now();
    for (u64 i = 0; i < reads; i++) read(t, drawn(i) % edges);
    tell("read", now() - start, now() - start, t);
    Tally all;
    start = now();
    for (auto &list : bare.lists) scan_entries(list.data(), list.size(), epoch, all);
    tell("scan", now() - start, now() - start, all);
    for (int threads : {1, 8}) {
        std::vector<Tally> each(threads);
        u64 nanos = together(threads, [&](int place) {
            Tally own;
            for (u64 i = 0; i < reads; i++) read(own, drawn(i) % (edges / 8) * 8 + place);
            each[place] = own;
        });
        Tally sum;
        for (auto &own : each) sum.edges += own.edges, sum.sum += own.sum;
        tell("eighth", nanos, nanos, sum);
    }
    pause();
}

// Reads the log of `graph` into lists again, and judges nothing.
static void bare_open(const std::string &folder) {
    Bare bare;
    Tally t;
    int file = open((folder + "/bare.log").c_str(), O_RDONLY);
    struct stat st;
    if (file < 0 || fstat(file, &st)) fail("no log");
    std::vector<char> bytes(st.st_size);
    if (read(file, bytes.data(), bytes.size()) != st.st_size) fail("a read");
    const size_t whole = GROUP_BYTES + RECORD_BYTES + PUTS * PUT_BYTES;
    u64 epoch = 0;
    for (size_t group = 9; group + whole <= bytes.size(); group += whole) {
        epoch++;
        for (int i = 0; i < PUTS; i++) {
            Edge e;
            memcpy(&e, &bytes[group + GROUP_BYTES + RECORD_BYTES + i * PUT_BYTES], sizeof e);
            bare.put(e, epoch);
        }
    }
    scan_entries(bare.lists[1].data(), bare.lists[1].size(), epoch, t);
    tell("open", 0, 0, t);
    _exit(0);
}

// Threads that write to one log in groups: one of those that wait writes for all that came before it began.
struct Groups {
    Log log;
    int threads;   // how many it waits for, before it writes, and not longer than a moment; 0: for none
    std::mutex lock;
    std::condition_variable written;
    u64 asked = 0, done = 0;
    bool busy = false;
    Groups(const std::string &name, int t) : log(name), threads(t) {}
    void commit() {
        std::unique_lock<std::mutex> hold(lock);
        u64 own = ++asked;
        written.wait(hold, [&] { return done >= own || !busy; });
        if (done >= own) return;
        busy = true;
        for (u64 end = now() + 20000; threads && asked - done < u64(threads) && now() < end;) {
            hold.unlock();
            std::this_thread::yield();
            hold.lock();
        }
        u64 upto = asked, records = upto - done;
        hold.unlock();
        std::vector<char> group(GROUP_BYTES + records * (RECORD_BYTES + PUT_BYTES));
        log.append(group.data(), group.size());
        hold.lock();
        done = upto;
        busy = false;
        written.notify_all();
    }
};

static void bare_own(const std::string &folder, int threads, u64 commits) {
    for (int waits : {0, threads}) {
        Groups groups(folder + "/bare.log", waits);
        Tally t;
        t.transactions = threads * commits;
        tell("own", together(threads, [&](int) {
            for (u64 i = 0; i < commits; i++) groups.commit();
        }), 0, t);
    }
}

static void bare_hub(const std::string &folder, u64 edges, u64 millis) {
    Groups groups(folder + "/bare.log", 0);
    const u64 room = 4000000;
    std::vector<Entry> list(edges + room);
    std::vector<u32> places(edges);
    for (u64 i = 0; i < edges; i++) {
        Edge e = edge_from(1, i);
        list[i] = {e.to, 1, ~u64(0), e.word};
        places[i] = i;
    }
    std::atomic<u64> len{edges}, epoch{1};
    for (bool beside : {false, true})
        hub(beside ? "beside" : "alone", edges, millis, beside,
            [&](Tally &t) {
                u64 now = epoch;  // what has this epoch stands below the length
                scan_entries(list.data(), len, now, t);
            },
            [&](u64 i) {
                if (len >= list.size()) fail("no room");
                u64 number = drawn(i) % edges, next = epoch + 1;
                Edge e = edge_from(1, number);
                groups.commit();
                list[len] = {e.to, next, ~u64(0), e.word};
                __atomic_store_n(&list[places[number]].died, next, __ATOMIC_RELEASE);
                places[number] = len++;
                epoch = next;
            });
}

int main(int argc, char **argv) {
    std::vector<std::string> words(argv + 1, argv + argc);
    auto number = [&](size_t i) { return i < words.size() ? strtoull(words[i].c_str(), nullptr, 10) : 0; };
    if (words.size() < 3) fail("usage: peers SYSTEM FOLDER WORK ..");
    const std::string &system = words[0], &folder = words[1], &work = words[2];
    if (system == "c") {
        if (work == "graph") bare_graph(folder, number(3), number(4), number(5));
        if (work == "open") bare_open(folder);
        if (work == "own") bare_own(folder, number(3), number(4));
        if (work == "hub") bare_hub(folder, number(3), number(4));
        return 0;
    }
    std::unique_ptr<Store> store;
    if (system == "lmdb") store = std::make_unique<Lmdb>(false);
    if (system == "lmdb-dup") store = std::make_unique<Lmdb>(true);
    if (system == "rocksdb") store = std::make_unique<Rocks>();
    if (system == "sqlite") store = std::make_unique<Lite>();
    if (!store) fail("no such system");
    store->open(folder);
    if (work == "graph") store_graph(*store, number(3), number(4), number(5));
    if (work == "open") store_open(*store);
    if (work == "own") store_own(*store, number(3), number(4));
    if (work == "hub") store_hub(*store, number(3), number(4));
    fflush(stderr);
    _exit(0);
}
