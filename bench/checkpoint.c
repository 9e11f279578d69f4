/* Checkpoints against SQLite's backup of the same rows from memory to memory, and recovery against copying the image's bytes. */
#include <sqlite3.h>
#include <string.h>
#include "bench.h"
#include "vodzanu.h"

enum { ROUNDS = 100, BLOCKS = 512 };
static uint8_t image[BLOCKS * 512], memory[128 * CAPACITY_LIMIT + 1024];
static uint8_t dirty[sizeof memory]; /* the memory that every checkpoint measured begins with */
static size_t memory_len;

/* The first backup has pages of 4,096 bytes, all in one step; the second pages of 512, one a step. */
struct figures { double begin, whole, recover, copy, sixteen, backup[2]; };
static const struct figures none = {NEVER, NEVER, NEVER, NEVER, NEVER, {NEVER, NEVER}};

/* A full store, whose first rows are of transaction 1, still open, and the others committed. */
static void fill(unsigned open_rows) {
    struct row row;
    memory_len = 128 * (size_t)shape.capacity + 1024;
    must(vodzanu_make(image, sizeof image, memory, memory_len, shape.capacity) == 0, "make");
    for (uint64_t t = 0; t < 2; t++) must(vodzanu_open(memory, memory_len, t) == 0, "open");
    for (unsigned i = 0; i < shape.capacity; i++) {
        spell(&row, i, 0);
        must(vodzanu_insert(memory, memory_len, i < open_rows, row.table, row.key, row.payload, shape.payload_len) == 0, "insert");
    }
    must(vodzanu_commit(memory, memory_len, 0) == 0, "commit");
    memcpy(dirty, memory, memory_len);
}

static void fill_sqlite(int size) {
    struct row row;
    page_size = size;
    engines[SQLITE].start();
    engines[SQLITE].begin(INSERT);
    for (unsigned i = 0; i < shape.capacity; i++) spell(&row, i, 0), engines[SQLITE].call(INSERT, &row);
    engines[SQLITE].commit();
}

/* Begin and every step. Answers how many stores were made. */
static int64_t checkpoint(struct figures *f) {
    memcpy(memory, dirty, memory_len);
    double start = now();
    int64_t stores = vodzanu_begin(memory, memory_len), left = stores;
    double begun = now();
    while (left > 0) left = vodzanu_step(image, sizeof image, memory, memory_len);
    double stop = now();
    f->begin = least(f->begin, elapsed(start, begun));
    f->whole = least(f->whole, elapsed(start, begun) + elapsed(begun, stop));
    must(stores > 0 && left == 0, "checkpoint");
    return stores;
}

static void recover(struct figures *f) {
    double start = now();
    must(vodzanu_recover(image, sizeof image, memory, memory_len) == 0, "recover");
    f->recover = least(f->recover, elapsed(start, now()));
}

/* Transaction 1, which may be open again, sees every row. */
static void check_recovered(void) {
    struct row row;
    int64_t opened = vodzanu_open(memory, memory_len, 1);
    must(opened == 0 || opened == -8, "open");
    for (unsigned i = 0; i < shape.capacity; i++) {
        spell(&row, i, 0);
        row.reply_len = (int)vodzanu_read(memory, memory_len, 1, row.table, row.key, row.reply, sizeof row.reply);
        check_reply(&row);
    }
}

/* Of the image, and of 512 bytes 16 times; the compiler is told that the copies are read. */
static void copies(struct figures *f) {
    static uint8_t copy[sizeof image];
    double start = now();
    memcpy(copy, image, sizeof image);
    __asm__ volatile("" ::"r"(copy) : "memory");
    f->copy = least(f->copy, elapsed(start, now()));
    start = now();
    for (int i = 0; i < 16; i++) {
        memcpy(copy + 512 * i, image + 512 * i, 512);
        __asm__ volatile("" ::"r"(copy) : "memory");
    }
    f->sixteen = least(f->sixteen, elapsed(start, now()));
}

/* Into a new database, with so many pages a step; -1 is all of them. */
static double backup(int pages) {
    sqlite3 *to = new_database();
    int answer;
    double start = now();
    sqlite3_backup *b = sqlite3_backup_init(to, "main", db, "main");
    while ((answer = sqlite3_backup_step(b, pages)) == SQLITE_OK) {}
    must(sqlite3_backup_finish(b) == SQLITE_OK && answer == SQLITE_DONE, "SQLite backup");
    double time = elapsed(start, now());
    sqlite3_close(to);
    return time;
}

static void full(void) {
    struct figures f = none, open = none;
    int64_t stores = 0;
    fill(0);
    for (int b = 0; b < 2; b++) {
        fill_sqlite(b ? 512 : 4096);
        for (int round = 0; round < ROUNDS; round++) {
            stores = checkpoint(&f), recover(&f), copies(&f);
            f.backup[b] = least(f.backup[b], backup(b ? 1 : -1));
        }
    }
    check_recovered();
    fill(shape.capacity);
    for (int round = 0; round < ROUNDS; round++) checkpoint(&open), recover(&open);
    check_recovered();
    double step = (f.whole - f.begin) / (double)stores;
    printf("| %u | %u | %u | %ld |", shape.capacity, shape.payload_len, shape.tables, (long)stores);
    printf(" %.0f | %.0f | %.2f |", f.begin, step, step / f.sixteen);
    printf(" %.0f | %.0f | %.2f | %.0f | %.2f |", f.whole, f.backup[0], f.whole / f.backup[0], f.backup[1], f.whole / f.backup[1]);
    printf(" %.0f | %.0f | %.2f | %.0f |\n", f.recover, f.copy, f.recover / f.copy, open.recover);
}

/* A full store whose pages are clean but for those of the first rows, committed since the last checkpoint. */
static void changed(unsigned rows) {
    struct figures f = none;
    int64_t stores = 0;
    fill(rows);
    checkpoint(&f);
    must(vodzanu_commit(memory, memory_len, 1) == 0, "commit");
    memcpy(dirty, memory, memory_len);
    f = none;
    for (int round = 0; round < ROUNDS; round++) stores = checkpoint(&f), f.backup[0] = least(f.backup[0], backup(-1));
    recover(&f);
    check_recovered();
    printf("| %u | %ld | %.0f | %.0f | %.2f |\n", rows, (long)stores, f.whole, f.backup[0], f.whole / f.backup[0]);
}

void checkpoint_tables(void) {
    printf("\n## Checkpoint and recovery\n\nNanoseconds; a full store, all pages dirty, all rows committed; an image of %d blocks. SQLite's backup\n", BLOCKS);
    printf("goes from memory to memory: pages of 4,096 bytes at once, and pages of 512 one a step. In the last column all rows are of\n");
    printf("one open transaction.\n\n");
    printf("| N | Payload | Tables | Stores | Begin | Step | / 16 copies of 512 bytes | Checkpoint | Backup at once | ratio |");
    printf(" Backup by pages | ratio | Recovery | Copy of the image | ratio | Recovery, open |\n");
    printf("|---|---|---|---|---|---|---|---|---|---|---|---|---|---|---|---|\n");
    for_each_shape(64, full);
    shape = (struct shape){CAPACITY_LIMIT, 20, 8};
    fill_sqlite(4096);
    printf("\nN = 1,024, payloads of 20, eight tables; only the pages of some rows have changed since the last checkpoint:\n\n");
    printf("| Rows changed | Stores | Checkpoint | Backup at once | ratio |\n|---|---|---|---|---|\n");
    for (unsigned rows = 1; rows <= 64; rows *= 2) changed(rows);
}
