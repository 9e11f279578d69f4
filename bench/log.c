/* The redo log: logged inserts beside plain ones, and roll-forward beside reading the log's bytes once. A figure is the least of the rounds. */
#include <string.h>
#include "bench.h"
#include "vodzanu.h"

enum { ROUNDS = 200, FORWARD_ROUNDS = 20, TRANSACTIONS = 40, FIVE = 5, THREE = 3, ROOM = 10, WRITER = 1, BLOCKS = 512, MOST_RECORDS = 10000 };
static uint8_t image[BLOCKS * VODZANU_BLOCK], memory[VODZANU_MEMORY(CAPACITY_LIMIT)], second[VODZANU_MEMORY(CAPACITY_LIMIT)];
static uint8_t redo[MOST_RECORDS * VODZANU_RECORD_LIMIT]; /* more than any log measured has */
static size_t memory_len;
static uint64_t end;

static void make(unsigned capacity) {
    memory_len = VODZANU_MEMORY(capacity), end = 0;
    shape = (struct shape){capacity, PAYLOAD_LIMIT, 1};
    memset(redo, 0, sizeof redo);
    must(vodzanu_make(image, sizeof image, memory, memory_len, capacity) == 0, "make");
}

/* ---- calls, logged or plain */

static void open(int logged) {
    if (logged) must(vodzanu_logged_open(memory, memory_len, redo, sizeof redo, &end, WRITER) == 0, "logged open");
    else must(vodzanu_open(memory, memory_len, WRITER) == 0, "open");
}
static void commit(int logged) {
    if (logged) must(vodzanu_logged_commit(memory, memory_len, redo, sizeof redo, &end, WRITER) == 0, "logged commit");
    else must(vodzanu_commit(memory, memory_len, WRITER) == 0, "commit");
}
static int64_t insert(int logged, const struct row *r) {
    if (!logged) return vodzanu_insert(memory, memory_len, WRITER, r->table, r->key, r->payload, PAYLOAD_LIMIT);
    return vodzanu_logged_insert(memory, memory_len, redo, sizeof redo, &end, WRITER, r->table, r->key, r->payload, PAYLOAD_LIMIT);
}
static int64_t delete(int logged, const struct row *r) {
    if (!logged) return vodzanu_delete(memory, memory_len, WRITER, r->table, r->key);
    return vodzanu_logged_delete(memory, memory_len, redo, sizeof redo, &end, WRITER, r->table, r->key);
}

/* Rows `from` to `to` - 1, committed. */
static void fill(int logged, unsigned from, unsigned to) {
    struct row row;
    open(logged);
    for (unsigned i = from; i < to; i++) spell(&row, i, 0), must(insert(logged, &row) == 0, "insert");
    commit(logged);
}
static void empty(int logged, unsigned from, unsigned to) {
    struct row row;
    open(logged);
    for (unsigned i = from; i < to; i++) spell(&row, i, 0), must(delete(logged, &row) == 0, "delete");
    commit(logged);
}

/* ---- logged inserts */

/* A transaction of five inserts, of rows `first` on: its nanoseconds. A second one takes them out again. */
static double five(int logged, unsigned first) {
    struct row rows[FIVE];
    for (unsigned k = 0; k < FIVE; k++) spell(&rows[k], first + k, 0);
    double start = now();
    open(logged);
    for (unsigned k = 0; k < FIVE; k++) must(insert(logged, &rows[k]) == 0, "insert");
    commit(logged);
    double stop = now();
    empty(0, first, first + FIVE);
    return elapsed(start, stop);
}

static void inserts(unsigned capacity) {
    double figure[] = {NEVER, NEVER};
    unsigned first = capacity - ROOM;
    make(capacity), fill(0, 0, first);
    for (int round = 0; round < ROUNDS; round++)
        for (int logged = 0; logged < 2; logged++) {
            double mean = 0;
            end = 0; /* the log of the round before is written over */
            for (unsigned t = 0; t < TRANSACTIONS; t++) mean += five(logged, first + FIVE * t) / FIVE / TRANSACTIONS;
            figure[logged] = least(figure[logged], mean);
        }
    printf("| %u | %.0f | %.0f | %.2f |\n", capacity, figure[0], figure[1], figure[1] / figure[0]);
}

/* ---- roll-forward */

/* A checkpoint of a store that is half full, and behind its mark so many records: ten for three inserts, and for taking them out again. */
static void write_log(unsigned capacity, unsigned records) {
    make(capacity), fill(1, 0, capacity / 2);
    int64_t stores = vodzanu_logged_begin(memory, memory_len, redo, sizeof redo, &end);
    must(vodzanu_run(image, sizeof image, memory, memory_len, VODZANU_MOST_BLOCKS) == stores, "checkpoint");
    for (unsigned i = 0; i < records / 10; i++) {
        unsigned first = capacity / 2 + THREE * i;
        fill(1, first, first + THREE);
        empty(1, first, first + THREE);
    }
}

/* The sum of the log's bytes, each read once. */
static uint64_t sum_bytes(size_t from, size_t to) {
    uint64_t sum = 0;
    for (size_t i = from; i < to; i++) sum += redo[i];
    return sum;
}

static void forward(unsigned capacity, unsigned records) {
    double rolled = NEVER, read = NEVER;
    write_log(capacity, 0);
    size_t behind_mark = end;
    write_log(capacity, records);
    uint64_t whole = end, sum = sum_bytes(behind_mark, end);
    for (int round = 0; round < FORWARD_ROUNDS; round++) {
        double start = now();
        int64_t answer = vodzanu_roll_forward(image, sizeof image, memory, memory_len, second, memory_len, redo, whole, &end);
        double stop = now();
        uint64_t got = sum_bytes(behind_mark, whole);
        double summed = now();
        must(answer == 0 && end == whole && got == sum, "roll-forward");
        rolled = least(rolled, elapsed(start, stop)), read = least(read, elapsed(stop, summed));
    }
    printf("| %u | %u | %u | %.0f | %.0f | %.1f | %.0f |\n", capacity, records, (unsigned)(whole - behind_mark), rolled / 1000, rolled / records, read / 1000, rolled / read);
}

void log_tables(void) {
    printf("\n## Redo log\n\nNanoseconds an insert, as under 'Calls': one table, payloads of 40 bytes. A logged one's transaction opens and commits by logged calls.\n\n");
    printf("| N | Plain | Logged | Logged / plain |\n|---|---|---|---|\n");
    for (unsigned capacity = 64; capacity <= CAPACITY_LIMIT; capacity *= 4) inserts(capacity);
    printf("\nMicroseconds of a roll-forward, of a store half full and the records behind its checkpoint's mark: transactions of three inserts with payloads\n");
    printf("of 40 bytes, and of three deletes. Beside it, reading those bytes once: their sum, in C.\n\n");
    printf("| N | Records | Bytes | Roll-forward | ns a record | Reading | Roll-forward / reading |\n|---|---|---|---|---|---|---|\n");
    for (unsigned capacity = 64; capacity <= CAPACITY_LIMIT; capacity *= 4)
        for (unsigned records = MOST_RECORDS / 4; records <= MOST_RECORDS; records *= 2) forward(capacity, records);
}
