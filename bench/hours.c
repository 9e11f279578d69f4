/* Checked inserts: what the tests of the opening hours cost, beside a walk over every minute of the booking, and inserts that are accepted,
 * beside plain ones. In both the week is open throughout. A figure is the least of the rounds. */
#include <string.h>
#include "bench.h"
#include "vodzanu.h"

enum { ROUNDS = 200, TIMES = 64, WALK_ROUNDS = 5, TRANSACTIONS = 40, FIVE = 5, ROOM = 10, WRITER = 1, SHORT = 30, LONG = 65535 };
static uint8_t image[16 * 512], memory[VODZANU_MEMORY(CAPACITY_LIMIT)], hours[VODZANU_MOST_HOURS * VODZANU_HOURS_ROW];
static size_t memory_len, hours_len;
static struct row row; /* its payload is what is booked */

static void make(unsigned capacity) {
    memory_len = VODZANU_MEMORY(capacity);
    shape = (struct shape){capacity, PAYLOAD_LIMIT, 1};
    must(vodzanu_make(image, sizeof image, memory, memory_len, capacity) == 0, "make");
}

/* Two bytes, high byte first. */
static void put_two(uint8_t *to, unsigned n) { to[0] = (uint8_t)(n / 256), to[1] = (uint8_t)(n % 256); }
static unsigned two(const uint8_t *at) { return 256u * at[0] + at[1]; }

/* So many rows of so many minutes; they start all over the week, at equal distances. */
static void put_hours(unsigned rows, unsigned minutes, int falling) {
    hours_len = rows * VODZANU_HOURS_ROW;
    for (unsigned i = 0; i < rows; i++) {
        put_two(hours + i * VODZANU_HOURS_ROW, VODZANU_WEEK / rows * (falling ? rows - 1 - i : i));
        put_two(hours + i * VODZANU_HOURS_ROW + 2, minutes);
    }
}

/* ---- the tests alone: calls of a transaction that no store has. Each answers that, or that the dish is closed. */

static int64_t plain(uint32_t key) { return vodzanu_insert(memory, memory_len, VODZANU_MOST_TRANSACTION + 1, 0, key, row.payload, PAYLOAD_LIMIT); }
static int64_t checked(uint32_t key) {
    return vodzanu_insert_checked(memory, memory_len, VODZANU_MOST_TRANSACTION + 1, 0, key, row.payload, PAYLOAD_LIMIT, hours, hours_len);
}

static int covered(uint64_t minute) {
    for (const uint8_t *r = hours; r < hours + hours_len; r += VODZANU_HOURS_ROW)
        if ((minute % VODZANU_WEEK + VODZANU_WEEK - two(r)) % VODZANU_WEEK < two(r + 2)) return 1;
    return 0;
}
static int64_t walk(uint32_t key) {
    uint64_t end = (uint64_t)key + two(row.payload);
    for (uint64_t minute = key; minute < end; minute++)
        if (!covered(minute)) return -VODZANU_CLOSED;
    return -VODZANU_TRANSACTION_RANGE;
}

/* Bookings that start all over the week. */
static uint32_t start_of(int i) { return (uint32_t)i * 7919; }

/* The call and the walk give the same answers. Answers how many bookings are refused since the dish is closed. */
static int check(void) {
    int closed = 0;
    for (int i = 0; i < TIMES; i++) {
        int64_t answer = checked(start_of(i));
        must(answer == walk(start_of(i)), "checked insert");
        closed += answer == -VODZANU_CLOSED;
    }
    return closed;
}

static double time_calls(int64_t (*call)(uint32_t), int rounds) {
    double figure = NEVER;
    for (int round = 0; round < rounds; round++) {
        int64_t got = 0;
        double start = now();
        for (int i = 0; i < TIMES; i++) got += call(start_of(i));
        double stop = now();
        must(got == -VODZANU_TRANSACTION_RANGE * TIMES, "insert or walk");
        figure = least(figure, elapsed(start, stop) / TIMES);
    }
    return figure;
}

static void measure(const char *rows, unsigned minutes) {
    put_two(row.payload, minutes);
    must(check() == 0, "an open dish");
    double with = time_calls(checked, ROUNDS), without = time_calls(plain, ROUNDS), each = time_calls(walk, WALK_ROUNDS);
    printf("| %s | %u | %.0f | %.0f | %.0f | %.0f | %.1f |\n", rows, minutes, with, without, with - without, each, each / (with - without));
}

static void measure_both(const char *rows) {
    measure(rows, SHORT);
    measure(rows, LONG);
}

static void decisions(void) {
    make(1);
    spell(&row, 0, 0);
    put_hours(7, 960, 0), put_two(row.payload, SHORT); /* sixteen hours a day: some bookings are refused */
    must(check() > 0 && check() < TIMES, "a dish that is closed at night");
    put_hours(32, VODZANU_WEEK / 32, 0), measure_both("32 of 315 minutes");
    put_hours(32, VODZANU_WEEK / 32, 1), measure_both("the same, falling");
    put_hours(32, VODZANU_WEEK, 0), measure_both("32 of a week");
    put_hours(1, VODZANU_WEEK, 0), measure_both("one of a week");
}

/* ---- inserts that are accepted */

static void open(void) { must(vodzanu_open(memory, memory_len, WRITER) == 0, "open"); }
static void commit(void) { must(vodzanu_commit(memory, memory_len, WRITER) == 0, "commit"); }

static int64_t insert(const struct row *r) {
    if (hours_len == 0) return vodzanu_insert(memory, memory_len, WRITER, r->table, r->key, r->payload, PAYLOAD_LIMIT);
    return vodzanu_insert_checked(memory, memory_len, WRITER, r->table, r->key, r->payload, PAYLOAD_LIMIT, hours, hours_len);
}

/* A transaction of five inserts, of rows `first` on: its nanoseconds. A second one takes them out again. */
static double five(unsigned first) {
    struct row rows[FIVE];
    for (unsigned k = 0; k < FIVE; k++) spell(&rows[k], first + k, 0), put_two(rows[k].payload, SHORT);
    double start = now();
    open();
    for (unsigned k = 0; k < FIVE; k++) must(insert(&rows[k]) == 0, "insert");
    commit();
    double stop = now();
    open();
    for (unsigned k = 0; k < FIVE; k++) must(vodzanu_delete(memory, memory_len, WRITER, rows[k].table, rows[k].key) == 0, "delete");
    commit();
    return elapsed(start, stop);
}

/* By how many rows the hours have; 0 is the plain insert. All insert the same keys. */
static void inserts(unsigned capacity) {
    static const unsigned counts[] = {0, 1, 5, 32};
    double figure[] = {NEVER, NEVER, NEVER, NEVER};
    unsigned first = capacity - ROOM;
    make(capacity), open(), hours_len = 0;
    for (unsigned i = 0; i < first; i++) spell(&row, i, 0), must(insert(&row) == 0, "insert");
    commit();
    for (int round = 0; round < ROUNDS; round++)
        for (int c = 0; c < 4; c++) {
            double mean = 0;
            if (counts[c] == 0) hours_len = 0;
            else put_hours(counts[c], VODZANU_WEEK / counts[c], 0);
            for (unsigned t = 0; t < TRANSACTIONS; t++) mean += five(first + FIVE * t) / FIVE / TRANSACTIONS;
            figure[c] = least(figure[c], mean);
        }
    printf("| %u | %.0f | %.0f | %.0f | %.0f |\n", capacity, figure[0], figure[1], figure[2], figure[3]);
}

void hours_tables(void) {
    printf("\n## Opening hours\n\nNanoseconds; a dish that is open throughout. Checked and plain inserts of a transaction above 4,095, on a store of N = 1: refused with 6,\n");
    printf("a checked one behind the tests of the hours, which are the difference. The last columns: every minute tried with the rows in turn, in C.\n\n");
    printf("| Rows | Minutes booked | Checked | Plain | Difference | Each minute | Each minute / difference |\n|---|---|---|---|---|---|---|\n");
    decisions();
    printf("\nNanoseconds an insert, as under 'Calls': one table, payloads of 40 bytes, bookings of 30 minutes.\n\n");
    printf("| N | Plain | Checked, one row | 5 rows | 32 rows |\n|---|---|---|---|---|\n");
    for (unsigned capacity = 64; capacity <= CAPACITY_LIMIT; capacity *= 4) inserts(capacity);
}
