/* Bookings that cross an interval: our call against our read of an absent key, and against SQLite in memory with the same rows, their keys
 * as primary key and their lengths in a column. A figure is a mean over places all over the rows, the least of the rounds. */
#include <sqlite3.h>
#include <string.h>
#include "bench.h"
#include "vodzanu.h"

enum { ROUNDS = 200, PLACES = 64, WRITER = 1, READER = 2, DAY = 1440, GAP = 30, LENGTH = 10, TIMETABLE = GAP * CAPACITY_LIMIT };
static uint8_t image[16 * 512], memory[128 * CAPACITY_LIMIT + 1024], reply[4 * CAPACITY_LIMIT];
static struct row rows[CAPACITY_LIMIT]; /* in the order in which they are inserted */
static sqlite3 *bookings;
static sqlite3_stmt *query;
static uint32_t found[CAPACITY_LIMIT]; /* by SQLite */

/* Where the calls are made: an interval, and a key that no row has. */
static struct place {
    uint64_t first, end;
    uint32_t absent;
} places[PLACES];

static sqlite3_stmt *prepared(const char *text) {
    sqlite3_stmt *st;
    must(sqlite3_prepare_v2(bookings, text, -1, &st, 0) == SQLITE_OK, text);
    return st;
}
static void sql(const char *text) { must(sqlite3_exec(bookings, text, 0, 0, 0) == SQLITE_OK, text); }

/* ---- the rows, in both stores */

static void fill_sqlite(void) {
    bookings = new_database();
    sql("create table b(key integer primary key, minutes integer, payload blob)");
    sqlite3_stmt *insert = prepared("insert into b values(?1, ?2, ?3)");
    for (unsigned i = 0; i < CAPACITY_LIMIT; i++) {
        sqlite3_bind_int64(insert, 1, rows[i].key);
        sqlite3_bind_int(insert, 2, 256 * rows[i].payload[0] + rows[i].payload[1]);
        sqlite3_bind_blob(insert, 3, rows[i].payload, PAYLOAD_LIMIT, SQLITE_STATIC);
        must(sqlite3_step(insert) == SQLITE_DONE && sqlite3_reset(insert) == SQLITE_OK, "SQLite insert");
    }
    sqlite3_finalize(insert);
    /* no length is above 65,535, so the primary key bounds the search on both sides */
    query = prepared("select key from b where key < ?2 and key > ?1 - 65536 and minutes > 0 and key + minutes > ?1 order by key");
    sql("begin"); /* one transaction for all queries, as in our store */
}

static void fill(void) {
    must(vodzanu_make(image, sizeof image, memory, sizeof memory, CAPACITY_LIMIT) == 0, "make");
    must(vodzanu_open(memory, sizeof memory, WRITER) == 0, "open");
    for (unsigned i = 0; i < CAPACITY_LIMIT; i++)
        must(vodzanu_insert(memory, sizeof memory, WRITER, 0, rows[i].key, rows[i].payload, PAYLOAD_LIMIT) == 0, "insert");
    must(vodzanu_commit(memory, sizeof memory, WRITER) == 0 && vodzanu_open(memory, sizeof memory, READER) == 0, "commit");
    fill_sqlite();
}

static void drop(void) {
    sqlite3_finalize(query);
    sqlite3_close(bookings);
}

/* ---- the calls */

static int64_t ours(const struct place *p) {
    return vodzanu_crossing(memory, sizeof memory, READER, 0, p->first, p->end, reply, sizeof reply);
}
static int64_t absent(const struct place *p) {
    return vodzanu_read(memory, sizeof memory, READER, 0, p->absent, reply, sizeof reply);
}
static int64_t theirs(const struct place *p) {
    int64_t n = 0;
    int answer;
    sqlite3_bind_int64(query, 1, (sqlite3_int64)p->first);
    sqlite3_bind_int64(query, 2, (sqlite3_int64)p->end);
    while ((answer = sqlite3_step(query)) == SQLITE_ROW) found[n++] = (uint32_t)sqlite3_column_int64(query, 0);
    must(answer == SQLITE_DONE && sqlite3_reset(query) == SQLITE_OK, "SQLite query");
    return n;
}

/* Both give the same keys in the same order, at every place. Answers how many they are together. */
static int64_t check(void) {
    int64_t all = 0;
    for (const struct place *p = places; p < places + PLACES; p++) {
        int64_t n = ours(p);
        must(n >= 0 && n == theirs(p), "how many bookings cross");
        for (int64_t i = 0; i < n; i++) {
            const uint8_t *b = reply + 4 * i;
            must(((uint32_t)b[0] << 24 | (uint32_t)b[1] << 16 | (uint32_t)b[2] << 8 | b[3]) == found[i], "a booking that crosses");
        }
        must(absent(p) == -VODZANU_NOT_FOUND, "a key that should be absent");
        all += n;
    }
    return all;
}

static void time_calls(int64_t (*call)(const struct place *), int64_t sum, double *figure) {
    int64_t got = 0;
    double start = now();
    for (int i = 0; i < PLACES; i++) got += call(&places[i]);
    double stop = now();
    must(got == sum, "crossing, read or query");
    *figure = least(*figure, elapsed(start, stop) / PLACES);
}

static void measure(const char *what) {
    double crossing = NEVER, read = NEVER, sqlite = NEVER;
    int64_t all = check();
    for (int round = 0; round < ROUNDS; round++) {
        time_calls(ours, all, &crossing);
        time_calls(absent, -VODZANU_NOT_FOUND * PLACES, &read);
        time_calls(theirs, all, &sqlite);
    }
    printf("| %s | %.1f | %.0f | %.0f | %.0f | %.2f | %.2f |\n", what, (double)all / PLACES, crossing, read, sqlite, crossing / read, crossing / sqlite);
}

/* ---- what is asked for */

/* Keys all over 32 bits; a length is what the payload begins with. A day around the start of every sixteenth booking. */
static void scattered(void) {
    shape = (struct shape){CAPACITY_LIMIT, PAYLOAD_LIMIT, 1};
    for (unsigned i = 0; i < CAPACITY_LIMIT; i++) spell(&rows[i], i, 0);
    fill();
    for (unsigned p = 0; p < PLACES; p++) {
        uint32_t key = rows[CAPACITY_LIMIT / PLACES * p].key;
        places[p].first = key < DAY / 2 ? 0 : key - DAY / 2;
        places[p].end = places[p].first + DAY;
        places[p].absent = key + 1;
    }
    measure("scattered, a day");
    drop();
}

/* Intervals of so many minutes that start in the timetable's bookings, from minute `from` on up to its end, in scattered order. */
static void ask(unsigned from, unsigned minutes) {
    unsigned bookings_left = (TIMETABLE - from) / GAP;
    for (unsigned p = 0; p < PLACES; p++) {
        places[p].first = from + GAP * (p * 37 % PLACES * bookings_left / PLACES) + LENGTH / 2;
        places[p].end = places[p].first + minutes;
        places[p].absent = (uint32_t)places[p].first;
    }
}

/* A booking every half hour, for 21 days. All that start before an interval are candidates: no engine knows that none is longer than ten
 * minutes, and a length may be up to 65,535. */
static void timetable(void) {
    for (unsigned i = 0; i < CAPACITY_LIMIT; i++) {
        spell(&rows[i], i, 0);
        rows[i].key = GAP * (387 * i % CAPACITY_LIMIT);
        rows[i].payload[0] = 0, rows[i].payload[1] = LENGTH;
    }
    fill();
    ask(0, LENGTH), measure("timetable, ten minutes");
    ask(TIMETABLE - DAY, LENGTH), measure("timetable, ten minutes of its last day");
    ask(0, DAY), measure("timetable, a day");
    for (unsigned p = 0; p < PLACES; p++) places[p].first = 0, places[p].end = TIMETABLE;
    measure("timetable, all of it");
    drop();
}

void crossing_table(void) {
    printf("\n## Crossing\n\nNanoseconds; a full store of N = 1,024, one table, payloads of 40, all rows committed. Scattered: keys all over 32 bits,\n");
    printf("lengths of any size. Timetable: a booking of ten minutes every half hour. SQLite has the same rows, by key, and a column of lengths.\n\n");
    printf("| Rows, interval | Bookings found | Ours | Read of an absent key | SQLite | / read | / SQLite |\n|---|---|---|---|---|---|---|\n");
    scattered();
    timetable();
}
