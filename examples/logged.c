/* A mission's client that keeps a redo log: image and log in a file each, and every change logged. Power fails between two commits, while the
 * record of the second is being written; the restart brings the first back, and the same log goes on. What it prints is examples/logged.out; how
 * it is built: README.md. */
#define _POSIX_C_SOURCE 200809L /* pwrite, fdatasync */
#include <fcntl.h>
#include <stdio.h>
#include <stdlib.h>
#include <string.h>
#include <unistd.h>
#include "vodzanu.h"

enum { BLOCKS = 64, CAPACITY = 128, LOG = 4096, DISH = 3, READER = 0, MISSION = 7, OTHER_MISSION = 8, THIRD_MISSION = 9 };

static uint8_t image[BLOCKS * VODZANU_BLOCK];   /* lent to the calls */
static uint8_t on_disk[BLOCKS * VODZANU_BLOCK]; /* what the image's file has, to find the blocks that changed */
static uint8_t memory[VODZANU_MEMORY(CAPACITY)], second[VODZANU_MEMORY(CAPACITY)];
static uint8_t redo[LOG];
static uint64_t end, end_on_disk; /* of the log, and of what its file has */
static int image_file, log_file;

/* What a logged call is lent before its own arguments. */
#define LENT memory, sizeof memory, redo, sizeof redo, &end

/* ---- the files */

static void must_file(const char *what, int right) {
    if (right) return;
    perror(what);
    exit(1);
}

static void put(int file, const uint8_t *bytes, size_t len, size_t at) {
    must_file("write", pwrite(file, bytes, len, (off_t)at) == (ssize_t)len);
    must_file("fdatasync", fdatasync(file) == 0);
}

/* The blocks that changed, and no other: a header on disk may name those. */
static void put_changed(void) {
    size_t at;
    for (at = 0; at < sizeof image; at += VODZANU_BLOCK) {
        if (memcmp(image + at, on_disk + at, VODZANU_BLOCK) == 0) continue;
        put(image_file, image + at, VODZANU_BLOCK, at);
        memcpy(on_disk + at, image + at, VODZANU_BLOCK);
    }
}

/* The bytes of the record last appended but its first: the log in the file still ends before it. */
static void put_rest(void) { put(log_file, redo + end_on_disk + 1, (size_t)(end - end_on_disk - 1), (size_t)end_on_disk + 1); }

/* The record last appended, its first byte last. */
static void put_record(void) {
    if (end == end_on_disk) return;
    put_rest();
    put(log_file, redo + end_on_disk, 1, (size_t)end_on_disk);
    end_on_disk = end;
}

/* The folder that names a file: a new name is on disk only after this. */
static void put_name(const char *path) {
    char folder[4096];
    const char *slash = strrchr(path, '/');
    int file, len = slash == NULL ? 0 : (int)(slash - path) + 1;
    must_file(path, snprintf(folder, sizeof folder, "%.*s.", len, path) < (int)sizeof folder);
    file = open(folder, O_RDONLY);
    must_file(folder, file >= 0 && fsync(file) == 0 && close(file) == 0);
}

/* The whole log, in a new file that takes the old one's name: a power cut leaves the old log or the new one. */
static void put_log(const char *path) {
    char new_path[4096];
    must_file(path, snprintf(new_path, sizeof new_path, "%s.new", path) < (int)sizeof new_path);
    log_file = open(new_path, O_RDWR | O_CREAT | O_TRUNC, 0666);
    must_file(new_path, log_file >= 0);
    put(log_file, redo, sizeof redo, 0);
    must_file(path, rename(new_path, path) == 0);
    put_name(path);
    end_on_disk = end;
}

static int get(const char *path, uint8_t *bytes, size_t len) {
    int file = open(path, O_RDWR);
    must_file(path, file >= 0 && fsync(file) == 0 && read(file, bytes, len) == (ssize_t)len);
    return file;
}

/* ---- calls */

/* The answer of a call that must be accepted. Its record, if it has one, is on disk before anything is done with it. */
static int64_t must(const char *call, int64_t answer) {
    if (answer < 0) {
        fprintf(stderr, "%s: refused %d\n", call, (int)-answer);
        exit(1);
    }
    put_record();
    return answer;
}

/* A window's key is its start minute; its payload is its length in minutes, two bytes, high byte first. */
static void book(unsigned mission, uint32_t window, unsigned minutes) {
    uint8_t payload[2];
    payload[0] = (uint8_t)(minutes / 256);
    payload[1] = (uint8_t)(minutes % 256);
    must("open", vodzanu_logged_open(LENT, mission));
    must("insert", vodzanu_logged_insert(LENT, mission, DISH, window, payload, sizeof payload));
    printf("mission %u books window %u\n", mission, (unsigned)window);
}

static void commit(unsigned mission) {
    must("commit", vodzanu_logged_commit(LENT, mission));
    printf("mission %u commits\n", mission);
}

/* A checkpoint. Its mark is on disk before its first store, every other block before the header. */
static void checkpoint(void) {
    int64_t left = must("begin", vodzanu_logged_begin(LENT));
    must("run", vodzanu_run(image, sizeof image, memory, sizeof memory, (uint64_t)(left - 1)));
    put_changed();
    must("step", vodzanu_step(image, sizeof image, memory, sizeof memory));
    put_changed();
    printf("checkpoint: %d block stores\n", (int)left);
}

static uint32_t key_of(const uint8_t *b) { return (uint32_t)b[0] << 24 | (uint32_t)b[1] << 16 | (uint32_t)b[2] << 8 | b[3]; }

/* What is committed. A transaction that only reads is logged too: whether it is open is part of the store. */
static void show_booked(void) {
    uint8_t reply[4 * CAPACITY];
    int64_t i, n;
    must("open", vodzanu_logged_open(LENT, READER));
    n = must("crossing", vodzanu_crossing(memory, sizeof memory, READER, DISH, 0, UINT32_MAX, reply, sizeof reply));
    must("abort", vodzanu_logged_abort(LENT, READER));
    printf("booked:");
    for (i = 0; i < n; i++) printf(" %u", (unsigned)key_of(reply + 4 * i));
    printf("\n");
}

/* ---- the story */

static void start(const char *image_path, const char *log_path) {
    must("make", vodzanu_make(image, sizeof image, memory, sizeof memory, CAPACITY));
    image_file = open(image_path, O_RDWR | O_CREAT | O_TRUNC, 0666);
    must_file(image_path, image_file >= 0 && ftruncate(image_file, sizeof image) == 0);
    put_changed();
    must_file("fsync", fsync(image_file) == 0);
    put_name(image_path);
    put_log(log_path); /* zeros, and end is 0 */
}

/* Power fails inside a commit: of its record only what stands behind the first byte reaches the file. */
static void lose_power(unsigned mission) {
    int64_t answer = vodzanu_logged_commit(LENT, mission);
    must_file("commit", answer == 0);
    put_rest();
    must_file("close", close(image_file) == 0 && close(log_file) == 0);
    memset(image, 0xAA, sizeof image);
    memset(memory, 0xAA, sizeof memory);
    memset(redo, 0xAA, sizeof redo);
    end = end_on_disk = 0;
    printf("mission %u commits: power fails\n", mission);
}

static void restart(const char *image_path, const char *log_path) {
    int old_log = get(log_path, redo, sizeof redo);
    int64_t answer;
    image_file = get(image_path, image, sizeof image);
    memcpy(on_disk, image, sizeof image);
    answer = vodzanu_roll_forward(image, sizeof image, memory, sizeof memory, second, sizeof second, redo, sizeof redo, &end);
    put_log(log_path); /* with the aborts of what was left open; as it was, if the restart is refused */
    must("roll_forward", answer);
    must_file("close", close(old_log) == 0);
    printf("restart: the log ends at byte %u\n", (unsigned)end);
}

int main(int argc, char **argv) {
    const char *image_path = argc > 1 ? argv[1] : "logged.img", *log_path = argc > 2 ? argv[2] : "logged.log";
    start(image_path, log_path);
    book(MISSION, 100, 20);
    checkpoint(); /* while the mission's change is open */
    book(OTHER_MISSION, 130, 15);
    commit(MISSION);
    lose_power(OTHER_MISSION);

    restart(image_path, log_path);
    show_booked(); /* committed after the last checkpoint; of the second mission nothing is left */

    book(THIRD_MISSION, 130, 30);
    commit(THIRD_MISSION);
    show_booked();
    must_file("close", close(image_file) == 0 && close(log_file) == 0);
    return 0;
}
