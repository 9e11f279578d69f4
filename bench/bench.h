/* What the benches of the calls share: the clock, checked answers, rows, and the three engines that are measured side by side. */
#ifndef BENCH_H
#define BENCH_H

#include <stddef.h>
#include <stdint.h>
#include <stdio.h>
#include <stdlib.h>
#include <time.h>

enum { PAYLOAD_LIMIT = 40, CAPACITY_LIMIT = 1024 };
#define NEVER 1e18 /* longer than any time measured */

static inline double least(double a, double b) { return b < a ? b : a; }

/* An answer is right, or the program ends. */
static inline void must(int right, const char *what) {
    if (right) return;
    fprintf(stderr, "bench: wrong answer: %s\n", what);
    exit(1);
}

/* Nanoseconds. */
static inline double now(void) {
    struct timespec t;
    clock_gettime(CLOCK_MONOTONIC, &t);
    return (double)t.tv_sec * 1e9 + (double)t.tv_nsec;
}
double elapsed(double start, double stop); /* less the time that reading the clock takes */

/* The store that is measured now: N, the length of payloads, and how many tables have rows. */
struct shape {
    unsigned capacity, payload_len, tables;
};
extern struct shape shape;
void for_each_shape(unsigned from_capacity, void (*measure)(void));

/* A row as every engine stores it, and what a read of it gave: a length, or -1 where the row is absent. */
struct row {
    uint32_t table, key;
    uint8_t payload[PAYLOAD_LIMIT], reply[PAYLOAD_LIMIT];
    int reply_len;
};
void spell(struct row *row, unsigned i, unsigned generation); /* keys are scattered, and differ by `i` */
void check_reply(const struct row *row);                      /* the payload was read */

/* The calls of an engine. An abort is measured with inserts; to rebook is a delete and an insert of the same key. */
enum kind { INSERT, READ, REPLACE, DELETE, CALLS, ABORT = CALLS, REBOOK, KINDS };

/* A store behind the same few functions. Each does its work, or ends the program. */
struct engine {
    void (*start)(void);      /* an empty store */
    void (*begin)(enum kind); /* a transaction of such calls */
    void (*call)(enum kind, struct row *);
    void (*commit)(void);
    void (*abort)(void);
    void (*undo)(int wanted); /* where it is needed: from now on transactions may abort, or none does; not measured */
};
enum { OURS, LMDB, SQLITE, ENGINES };
extern const struct engine engines[ENGINES];

/* SQLite's database; an empty one in memory, with pages of so many bytes, as the next start makes it too. */
extern struct sqlite3 *db;
extern int page_size;
struct sqlite3 *new_database(void);

void crossing_table(void);
void list_table(void);
void split_table(void);
void hours_tables(void);
void log_tables(void);
void checkpoint_tables(void);

#endif
