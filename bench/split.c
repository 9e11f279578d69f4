/* Pages that split: inserts that split their page beside inserts that do not, and a step that thaws a page into three.
 * A figure is the least of the rounds; in each the call is made on several stores that are equal. */
#include <string.h>
#include "bench.h"
#include "vodzanu.h"

enum { ROUNDS = 2000, STORES = 8, CAPACITY = 64, WRITER = 1, FREE = 81, GAP = 20, RECORD_SPACE = 504 };
static uint8_t image[16 * 512], prepared[128 * CAPACITY + 1024], memories[STORES][sizeof prepared], payload[PAYLOAD_LIMIT];
static unsigned payload_len, rows;

/* ---- a page, in the store that is prepared */

static void make(unsigned len) {
    payload_len = len, rows = 0;
    must(vodzanu_make(image, sizeof image, prepared, sizeof prepared, CAPACITY) == 0, "make");
    must(vodzanu_open(prepared, sizeof prepared, WRITER) == 0, "open");
}

/* Keys rise with gaps, so that one among them is free. */
static void insert(unsigned count) {
    for (; count > 0; count--) must(vodzanu_insert(prepared, sizeof prepared, WRITER, 0, GAP * rows++, payload, payload_len) == 0, "insert");
}

static void commit(void) {
    must(vodzanu_commit(prepared, sizeof prepared, WRITER) == 0, "commit");
    must(vodzanu_open(prepared, sizeof prepared, WRITER) == 0, "open");
}

static void begin(void) { must(vodzanu_begin(prepared, sizeof prepared) == 3, "begin with one page"); }

/* Tuples of 9 bytes, committed without payload. An insert takes 13, so the last two come while the page is frozen. */
static void page_of_nines(unsigned count) {
    make(0);
    for (unsigned fit; rows + 2 < count; commit()) fit = (RECORD_SPACE - 9 * rows) / 13, insert(fit < count - 2 - rows ? fit : count - 2 - rows);
    begin();
    insert(2);
    commit();
    while (vodzanu_step(image, sizeof image, prepared, sizeof prepared) > 0) continue;
}

/* Tuples of 53 bytes, not committed. */
static void page_of_largest(unsigned count) {
    make(PAYLOAD_LIMIT);
    insert(count);
}

/* A frozen page of nine such tuples, with ten more to be added: 1,007 bytes. */
static void frozen_page(void) {
    page_of_largest(9);
    begin();
    insert(10);
}

/* ---- what is timed */

static int64_t add(uint8_t *memory) { return vodzanu_insert(memory, sizeof prepared, WRITER, 0, FREE, payload, payload_len); }
static int64_t step(uint8_t *memory) { return vodzanu_step(image, sizeof image, memory, sizeof prepared); }

/* The store then has so many pages that its next checkpoint has to write. */
static void check(uint8_t *memory, int64_t pages) {
    int64_t left;
    do left = step(memory);
    while (left > 0);
    must(left == 0 || left == -VODZANU_NO_CHECKPOINT, "step");
    must(vodzanu_begin(memory, sizeof prepared) == pages + 2, "how many pages");
}

static double time_calls(int64_t (*call)(uint8_t *), int64_t answer, int64_t pages) {
    double figure = NEVER;
    for (int round = 0; round < ROUNDS; round++) {
        int64_t got = 0;
        for (int i = 0; i < STORES; i++) memcpy(memories[i], prepared, sizeof prepared);
        double start = now();
        for (int i = 0; i < STORES; i++) got += call(memories[i]);
        double stop = now();
        must(got == answer * STORES, "insert or step");
        figure = least(figure, elapsed(start, stop) / STORES);
    }
    check(memories[0], pages);
    return figure;
}

static void inserts(const char *page, int64_t pages) {
    printf("| %s | one more is inserted | %lld | %.0f |\n", page, (long long)pages, time_calls(add, 0, pages));
}

void split_table(void) {
    printf("\n## Splits\n\nNanoseconds a call; a store of N = %d with one page, which the call leaves as one page or splits.\n\n", CAPACITY);
    printf("| Page | Call | Pages then | ns |\n|---|---|---|---|\n");
    page_of_nines(54), inserts("54 tuples of 9 bytes", 1);
    page_of_nines(56), inserts("56 tuples of 9 bytes", 2);
    page_of_largest(8), inserts("8 tuples of 53 bytes", 1);
    page_of_largest(9), inserts("9 tuples of 53 bytes", 2);
    frozen_page();
    printf("| 9 tuples of 53 bytes, 10 more pending | a step stores and thaws it | 3 | %.0f |\n", time_calls(step, 2, 3));
}
