/* The three engines of the benches. LMDB and SQLite are given their fastest form that does the same work: LMDB on tmpfs, never synced, its read
 * transaction renewed; SQLite in memory with prepared statements, for one thread, without memory statistics and, while nothing aborts,
 * without a journal. Both have one number as key, the table above the row's key. */
#include <lmdb.h>
#include <sqlite3.h>
#include <string.h>
#include <unistd.h>
#include "bench.h"
#include "vodzanu.h"

static uint64_t number_of(const struct row *row) { return (uint64_t)row->table << 32 | row->key; }

/* ---- our store */
enum { TRANSACTION = 1 };
static uint8_t image[16 * 512], memory[128 * CAPACITY_LIMIT + 1024];
static size_t memory_len;

static void our_start(void) {
    memory_len = 128 * (size_t)shape.capacity + 1024;
    must(vodzanu_make(image, sizeof image, memory, memory_len, shape.capacity) == 0, "make");
}
static void our_begin(enum kind kind) {
    (void)kind;
    must(vodzanu_open(memory, memory_len, TRANSACTION) == 0, "open");
}
static void our_call(enum kind kind, struct row *row) {
    int64_t answer = 0;
    if (kind == INSERT) answer = vodzanu_insert(memory, memory_len, TRANSACTION, row->table, row->key, row->payload, shape.payload_len);
    if (kind == REPLACE) answer = vodzanu_replace(memory, memory_len, TRANSACTION, row->table, row->key, row->payload, shape.payload_len);
    if (kind == DELETE) answer = vodzanu_delete(memory, memory_len, TRANSACTION, row->table, row->key);
    must(answer == 0, "insert, replace or delete");
    if (kind != READ) return;
    answer = vodzanu_read(memory, memory_len, TRANSACTION, row->table, row->key, row->reply, sizeof row->reply);
    must(answer >= 0 || answer == -14, "read");
    row->reply_len = answer < 0 ? -1 : (int)answer;
}
static void our_commit(void) { must(vodzanu_commit(memory, memory_len, TRANSACTION) == 0, "commit"); }
static void our_abort(void) { must(vodzanu_abort(memory, memory_len, TRANSACTION) == 0, "abort"); }

/* ---- LMDB */
static MDB_env *env;
static MDB_dbi dbi;
static MDB_txn *txn, *reader, *writer; /* the one that runs is the reader or the writer */

static void lmdb_start(void) {
    char path[64], lock[80];
    if (env) mdb_txn_abort(reader), mdb_env_close(env);
    snprintf(path, sizeof path, "/dev/shm/vodzanu-bench-%ld", (long)getpid());
    snprintf(lock, sizeof lock, "%s-lock", path);
    must(mdb_env_create(&env) == 0 && mdb_env_set_mapsize(env, 16 << 20) == 0, "LMDB create");
    must(mdb_env_open(env, path, MDB_NOSUBDIR | MDB_NOSYNC | MDB_WRITEMAP, 0600) == 0, "LMDB open");
    must(unlink(path) == 0 && unlink(lock) == 0, "LMDB unlink"); /* the files live as long as they are mapped */
    must(mdb_txn_begin(env, 0, 0, &writer) == 0 && mdb_dbi_open(writer, 0, MDB_INTEGERKEY, &dbi) == 0, "LMDB table");
    must(mdb_txn_commit(writer) == 0 && mdb_txn_begin(env, 0, MDB_RDONLY, &reader) == 0, "LMDB reader");
    mdb_txn_reset(reader);
}
static void lmdb_begin(enum kind kind) {
    must((kind == READ ? mdb_txn_renew(reader) : mdb_txn_begin(env, 0, 0, &writer)) == 0, "LMDB begin");
    txn = kind == READ ? reader : writer;
}
static void lmdb_call(enum kind kind, struct row *row) {
    uint64_t number = number_of(row);
    MDB_val key = {sizeof number, &number}, data = {shape.payload_len, row->payload};
    int answer = kind == READ ? mdb_get(txn, dbi, &key, &data) : kind == DELETE ? mdb_del(txn, dbi, &key, 0)
                                                               : mdb_put(txn, dbi, &key, &data, kind == INSERT ? MDB_NOOVERWRITE : 0);
    must(answer == 0 || (kind == READ && answer == MDB_NOTFOUND), "LMDB call");
    if (kind != READ) return;
    row->reply_len = answer == 0 ? (int)data.mv_size : -1;
    if (answer == 0) memcpy(row->reply, data.mv_data, data.mv_size);
}
static void lmdb_commit(void) {
    if (txn == reader) mdb_txn_reset(reader);
    else must(mdb_txn_commit(txn) == 0, "LMDB commit");
}
static void lmdb_abort(void) { mdb_txn_abort(txn); }

/* ---- SQLite */
enum { BEGIN = CALLS, COMMIT, ROLLBACK, STATEMENTS };
sqlite3 *db;
int page_size = 4096;
static sqlite3_stmt *statements[STATEMENTS];

static void sql(const char *text) { must(sqlite3_exec(db, text, 0, 0, 0) == SQLITE_OK, text); }
static void sqlite_undo(int wanted) { sql(wanted ? "pragma journal_mode=memory" : "pragma journal_mode=off"); }

sqlite3 *new_database(void) {
    sqlite3 *made;
    char pragma[40];
    snprintf(pragma, sizeof pragma, "pragma page_size=%d", page_size);
    must(sqlite3_open(":memory:", &made) == SQLITE_OK && sqlite3_exec(made, pragma, 0, 0, 0) == SQLITE_OK, "SQLite open");
    return made;
}
static void sqlite_start(void) {
    static const char *const texts[STATEMENTS] = {
        [INSERT] = "insert into t values(?1, ?2)", [READ] = "select payload from t where id = ?1",
        [REPLACE] = "update t set payload = ?2 where id = ?1", [DELETE] = "delete from t where id = ?1",
        [BEGIN] = "begin", [COMMIT] = "commit", [ROLLBACK] = "rollback"};
    if (!db) must(sqlite3_config(SQLITE_CONFIG_SINGLETHREAD) == 0 && sqlite3_config(SQLITE_CONFIG_MEMSTATUS, 0) == 0, "SQLite configuration");
    for (int i = 0; i < STATEMENTS; i++) sqlite3_finalize(statements[i]);
    sqlite3_close(db);
    db = new_database();
    sqlite_undo(0);
    sql("create table t(id integer primary key, payload blob)");
    for (int i = 0; i < STATEMENTS; i++) must(sqlite3_prepare_v2(db, texts[i], -1, &statements[i], 0) == SQLITE_OK, texts[i]);
}
static void sqlite_run(int which) {
    must(sqlite3_step(statements[which]) == SQLITE_DONE && sqlite3_reset(statements[which]) == SQLITE_OK, "SQLite step");
}
static void sqlite_read(sqlite3_stmt *select, struct row *row) {
    int answer = sqlite3_step(select);
    must(answer == SQLITE_ROW || answer == SQLITE_DONE, "SQLite read");
    row->reply_len = answer == SQLITE_ROW ? sqlite3_column_bytes(select, 0) : -1;
    if (answer == SQLITE_ROW) memcpy(row->reply, sqlite3_column_blob(select, 0), (size_t)row->reply_len);
    must(sqlite3_reset(select) == SQLITE_OK, "SQLite reset");
}
static void sqlite_call(enum kind kind, struct row *row) {
    sqlite3_stmt *st = statements[kind];
    sqlite3_bind_int64(st, 1, (sqlite3_int64)number_of(row));
    if (kind == READ) { sqlite_read(st, row); return; }
    if (kind != DELETE) sqlite3_bind_blob(st, 2, row->payload, (int)shape.payload_len, SQLITE_STATIC);
    sqlite_run(kind);
    must(sqlite3_changes(db) == 1, "SQLite change");
}
static void sqlite_begin(enum kind kind) { (void)kind; sqlite_run(BEGIN); }
static void sqlite_commit(void) { sqlite_run(COMMIT); }
static void sqlite_abort(void) { sqlite_run(ROLLBACK); }

const struct engine engines[ENGINES] = {{our_start, our_begin, our_call, our_commit, our_abort, 0},
                                        {lmdb_start, lmdb_begin, lmdb_call, lmdb_commit, lmdb_abort, 0},
                                        {sqlite_start, sqlite_begin, sqlite_call, sqlite_commit, sqlite_abort, sqlite_undo}};
