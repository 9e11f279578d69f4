/* What a user does, on our store, LMDB and SQLite in turn in one process: transactions of five calls, aborts, commits of many rows, then
 * bookings that cross an interval (crossing.c), listings (list.c), pages that split (split.c), checked inserts (hours.c), the redo log (log.c),
 * checkpoints and recovery (checkpoint.c). Prints markdown. `bench/run.sh` builds and runs it. A figure is the least of the rounds' means, in nanoseconds,
 * less the time of reading the clock. Every answer is checked. */
#include <string.h>
#include "bench.h"

enum { FIVE = 5, ROOM = 10, HALF = CAPACITY_LIMIT / 2, ROUNDS = 200, TRANSACTIONS = 40 };

struct shape shape;

void for_each_shape(unsigned from_capacity, void (*measure)(void)) {
    for (shape.capacity = from_capacity; shape.capacity <= CAPACITY_LIMIT; shape.capacity *= 4)
        for (shape.payload_len = 20; shape.payload_len <= PAYLOAD_LIMIT; shape.payload_len += 20)
            for (shape.tables = 1; shape.tables <= 8; shape.tables += 7) measure();
}

double elapsed(double start, double stop) {
    static double clock_cost;
    if (clock_cost == 0) {
        clock_cost = NEVER;
        for (int i = 0; i < 10000; i++) { double t = now(); clock_cost = least(clock_cost, now() - t); }
    }
    return stop - start - clock_cost;
}

void spell(struct row *row, unsigned i, unsigned generation) {
    uint32_t key = i; /* mixed by steps that can be undone, so that keys differ */
    key = (key ^ key >> 16) * 0x7feb352du;
    key = (key ^ key >> 15) * 0x846ca68bu;
    row->table = i % shape.tables;
    row->key = key ^ key >> 16;
    for (unsigned k = 0; k < PAYLOAD_LIMIT; k++) row->payload[k] = (uint8_t)((row->key >> 8 * (k % 4)) + 31 * k + generation);
}

void check_reply(const struct row *row) {
    must(row->reply_len == (int)shape.payload_len && memcmp(row->reply, row->payload, shape.payload_len) == 0, "payload read");
}

static void print_figures(const double f[ENGINES]) {
    printf(" %.0f | %.0f | %.0f | %.2f | %.2f |\n", f[OURS], f[LMDB], f[SQLITE], f[OURS] / f[LMDB], f[OURS] / f[SQLITE]);
}

/* ---- what an engine should hold: rows `first` to `next` - 1, each in its newest generation */
struct state {
    const struct engine *engine;
    unsigned first, next, turn;
    uint8_t generation[2 * CAPACITY_LIMIT]; /* by row, modulo its length */
};

static uint8_t *generation(struct state *s, unsigned i) { return &s->generation[i % sizeof s->generation]; }

/* the next row to read, replace or rebook: every seventh of those held, all over the store */
static unsigned next_held(struct state *s) { return s->first + s->turn++ * 7 % (s->next - s->first); }

static void choose(struct state *s, enum kind kind, struct row *rows, unsigned count) {
    for (unsigned k = 0; k < count; k++) {
        unsigned i = kind == DELETE ? s->first + k : kind == INSERT || kind == ABORT ? s->next + k : next_held(s);
        if (kind == INSERT || kind == ABORT) *generation(s, i) = 0;
        if (kind == REPLACE || kind == REBOOK) ++*generation(s, i);
        spell(&rows[k], i, *generation(s, i));
    }
    if (kind == INSERT) s->next += count;
    if (kind == DELETE) s->first += count;
}

static void call(const struct engine *e, enum kind kind, struct row *row) {
    if (kind == REBOOK) e->call(DELETE, row);
    e->call(kind == ABORT || kind == REBOOK ? INSERT : kind, row);
}

/* One transaction of `count` calls: its nanoseconds, and in `ending` those of its commit or abort alone, if asked for. */
static double transaction(struct state *s, enum kind kind, unsigned count, double *ending) {
    static struct row rows[HALF];
    const struct engine *e = s->engine;
    choose(s, kind, rows, count);
    double start = now();
    e->begin(kind);
    for (unsigned k = 0; k < count; k++) call(e, kind, &rows[k]);
    double end = ending ? now() : 0;
    if (kind == ABORT) e->abort();
    else e->commit();
    double stop = now();
    if (kind == READ) for (unsigned k = 0; k < count; k++) check_reply(&rows[k]);
    if (!ending) return elapsed(start, stop);
    *ending = elapsed(end, stop);
    return elapsed(start, end) + *ending;
}

static void fill(struct state *s, const struct engine *e, unsigned rows) {
    memset(s, 0, sizeof *s);
    s->engine = e;
    e->start();
    while (s->next < rows) transaction(s, INSERT, 1, 0);
}

/* the engine holds exactly these rows: all are read, and those around them are absent */
static void check_held(struct state *s) {
    struct row row;
    s->engine->begin(READ);
    for (unsigned i = s->first < FIVE ? 0 : s->first - FIVE; i < s->next + FIVE; i++) {
        spell(&row, i, *generation(s, i));
        s->engine->call(READ, &row);
        if (i < s->first || s->next <= i) must(row.reply_len == -1, "a row that should be absent");
        else check_reply(&row);
    }
    s->engine->commit();
}

/* ---- five calls a transaction */
static double five(struct state *s, enum kind kind) { return transaction(s, kind, FIVE, 0) / FIVE / TRANSACTIONS; }

/* Inserts and deletes take turns, so that the store stays as full as it is: the oldest rows go. */
static void five_round(struct state *s, double figures[KINDS][ENGINES], int engine) {
    double mean[KINDS] = {0};
    for (int t = 0; t < TRANSACTIONS; t++) mean[INSERT] += five(s, INSERT), mean[DELETE] += five(s, DELETE);
    for (int t = 0; t < TRANSACTIONS; t++) mean[READ] += five(s, READ);
    for (int t = 0; t < TRANSACTIONS; t++) mean[REPLACE] += five(s, REPLACE);
    for (int t = 0; t < TRANSACTIONS; t++) mean[REBOOK] += five(s, REBOOK);
    if (s->engine->undo) s->engine->undo(1);
    for (int t = 0; t < TRANSACTIONS; t++) mean[ABORT] += five(s, ABORT);
    if (s->engine->undo) s->engine->undo(0);
    for (int k = 0; k < KINDS; k++) figures[k][engine] = least(figures[k][engine], mean[k]);
}

static void calls(void) {
    static const char *const names[KINDS] = {"insert", "read", "replace", "delete", "insert, aborted", "delete and insert again"};
    static struct state states[ENGINES];
    double figures[KINDS][ENGINES];
    for (int e = 0; e < ENGINES; e++) {
        fill(&states[e], &engines[e], shape.capacity - ROOM);
        for (int k = 0; k < KINDS; k++) figures[k][e] = NEVER;
    }
    for (int round = 0; round < ROUNDS; round++)
        for (int e = 0; e < ENGINES; e++) five_round(&states[e], figures, e);
    for (int e = 0; e < ENGINES; e++) check_held(&states[e]);
    for (int k = 0; k < KINDS; k++) {
        printf("| %u | %u | %u | %s |", shape.capacity, shape.payload_len, shape.tables, names[k]);
        print_figures(figures[k]);
    }
}

/* ---- a commit of many replaced rows, in a store that is half full */
static void commits(void) {
    static const unsigned counts[] = {1, 8, 64, HALF};
    static struct state states[ENGINES];
    double ending[4][ENGINES], whole[4][ENGINES], ratio[ENGINES];
    for (int e = 0; e < ENGINES; e++) fill(&states[e], &engines[e], HALF);
    for (int c = 0; c < 4; c++) {
        for (int e = 0; e < ENGINES; e++) ending[c][e] = whole[c][e] = NEVER;
        for (int round = 0; round < ROUNDS; round++)
            for (int e = 0; e < ENGINES; e++) {
                double end, all = transaction(&states[e], REPLACE, counts[c], &end);
                ending[c][e] = least(ending[c][e], end), whole[c][e] = least(whole[c][e], all);
            }
        printf("| %u | %u | commit of %u rows |", shape.payload_len, shape.tables, counts[c]);
        print_figures(ending[c]);
        printf("| %u | %u | the same, with open and replaces |", shape.payload_len, shape.tables);
        print_figures(whole[c]);
    }
    for (int e = 0; e < ENGINES; e++) check_held(&states[e]), ratio[e] = ending[3][e] / ending[2][e];
    printf("| %u | %u | commit of 512 / commit of 64 |", shape.payload_len, shape.tables);
    printf(" %.1f | %.1f | %.1f | | |\n", ratio[OURS], ratio[LMDB], ratio[SQLITE]);
}

int main(void) {
    printf("## Calls\n\nNanoseconds a call: a transaction of five with its open and its commit or abort, divided by five, on a store with %d tuples\n", ROOM);
    printf("less than N, and five more for deletes. A delete and the insert after it count as one call.\n\n");
    printf("| N | Payload | Tables | Call | Ours | LMDB | SQLite | / LMDB | / SQLite |\n|---|---|---|---|---|---|---|---|---|\n");
    for_each_shape(64, calls);
    printf("\n## Commits\n\nNanoseconds; a store of N = 1,024 with 512 rows, some of them replaced in one transaction.\n\n");
    printf("| Payload | Tables | | Ours | LMDB | SQLite | / LMDB | / SQLite |\n|---|---|---|---|---|---|---|---|\n");
    for_each_shape(CAPACITY_LIMIT, commits);
    crossing_table();
    list_table();
    split_table();
    hours_tables();
    log_tables();
    checkpoint_tables();
    return 0;
}
