/* A mission's client: makes a store in a file, books windows of a dish, checkpoints to the file while booking goes on, asks which windows
 * touch a stretch of time, loses power inside a block store of the next checkpoint, recovers from the file, and books windows of a dish
 * that has opening hours. What it prints is examples/client.out; how it is built: README.md. */
#define _POSIX_C_SOURCE 200809L /* pwrite, fdatasync */
#include <fcntl.h>
#include <stdio.h>
#include <stdlib.h>
#include <string.h>
#include <unistd.h>
#include "vodzanu.h"

enum { BLOCKS = 64, CAPACITY = 128, DISH = 3, DAY_DISH = 4, MISSION = 7, OTHER_MISSION = 8 };
enum { HOUR = 60, DAY = 24 * HOUR, WEDNESDAY = 2 * DAY, FRIDAY = 4 * DAY, SUNDAY = 6 * DAY, WEEKDAYS = 5 }; /* minutes; minute 0 is a Monday's */

static uint8_t image[BLOCKS * VODZANU_BLOCK];   /* lent to the calls */
static uint8_t on_disk[BLOCKS * VODZANU_BLOCK]; /* what the file has, to find the blocks that changed */
static uint8_t memory[VODZANU_MEMORY(CAPACITY)];
static int file;

/* ---- calls */

/* The answer of a call that must be accepted. */
static int64_t must(const char *call, int64_t answer) {
    if (answer < 0) {
        fprintf(stderr, "%s: refused %d\n", call, (int)-answer);
        exit(1);
    }
    return answer;
}

/* Two bytes, high byte first. */
static void put_two(uint8_t *to, unsigned n) {
    to[0] = (uint8_t)(n / 256);
    to[1] = (uint8_t)(n % 256);
}

/* A window's payload: its length in minutes, two bytes, and a text, cut if it is too long. Answers how many bytes it has. */
static size_t put_payload(uint8_t *payload, unsigned minutes, const char *text) {
    size_t len = strlen(text);
    if (len > VODZANU_PAYLOAD_LIMIT - 2) len = VODZANU_PAYLOAD_LIMIT - 2;
    put_two(payload, minutes);
    memcpy(payload + 2, text, len);
    return 2 + len;
}

/* A window's key is its start minute. */
static void book(unsigned mission, uint32_t window, unsigned minutes, const char *text) {
    uint8_t payload[VODZANU_PAYLOAD_LIMIT];
    size_t len = put_payload(payload, minutes, text);
    int64_t answer = vodzanu_insert(memory, sizeof memory, mission, DISH, window, payload, len);
    if (answer == -VODZANU_CONFLICT || answer == -VODZANU_KEY_EXISTS) {
        printf("mission %u: window %u is taken\n", mission, (unsigned)window);
        return;
    }
    must("insert", answer);
}

/* Books a window of the dish that is open on weekdays from 06:00 to 22:00: a row a day, its first minute and how many it has. */
static void book_in_hours(uint32_t window, unsigned minutes, const char *text) {
    uint8_t payload[VODZANU_PAYLOAD_LIMIT], hours[WEEKDAYS * VODZANU_HOURS_ROW];
    size_t len = put_payload(payload, minutes, text);
    int64_t answer;
    unsigned day;
    for (day = 0; day < WEEKDAYS; day++) {
        put_two(hours + day * VODZANU_HOURS_ROW, day * DAY + 6 * HOUR);
        put_two(hours + day * VODZANU_HOURS_ROW + 2, 16 * HOUR);
    }
    answer = vodzanu_insert_checked(memory, sizeof memory, MISSION, DAY_DISH, window, payload, len, hours, sizeof hours);
    if (answer != -VODZANU_CLOSED) must("insert_checked", answer);
    printf("dish %d, window %u, %u minutes: %s\n", DAY_DISH, (unsigned)window, minutes, answer == 0 ? "booked" : "closed");
}

static void show(uint32_t window) {
    uint8_t reply[VODZANU_PAYLOAD_LIMIT];
    int64_t n = vodzanu_read(memory, sizeof memory, MISSION, DISH, window, reply, sizeof reply);
    if (n == -VODZANU_NOT_FOUND) {
        printf("window %u: not booked\n", (unsigned)window);
        return;
    }
    must("read", n);
    printf("window %u, %d minutes: %.*s\n", (unsigned)window, 256 * reply[0] + reply[1], (int)n - 2, (const char *)reply + 2);
}

static uint32_t key_of(const uint8_t *b) { return (uint32_t)b[0] << 24 | (uint32_t)b[1] << 16 | (uint32_t)b[2] << 8 | b[3]; }

/* The windows that share a minute with the time from minute `first` up to, not including, minute `end`. */
static void show_crossing(unsigned first, unsigned end) {
    uint8_t reply[4 * CAPACITY]; /* room for all */
    int64_t i, n = must("crossing", vodzanu_crossing(memory, sizeof memory, MISSION, DISH, first, end, reply, sizeof reply));
    printf("minute %u up to %u: %s", first, end, n > 0 ? "windows" : "free");
    for (i = 0; i < n; i++) printf(" %u", (unsigned)key_of(reply + 4 * i));
    printf("\n");
}

static void show_open(void) {
    uint8_t reply[2 * VODZANU_OPEN_LIMIT];
    int64_t i, n = must("list", vodzanu_list(memory, sizeof memory, reply, sizeof reply));
    printf("open:");
    for (i = 0; i < n; i++) printf(" %d", 256 * reply[2 * i] + reply[2 * i + 1]);
    printf("\n");
}

/* ---- the file */

static void must_file(const char *what, int right) {
    if (right) return;
    perror(what);
    exit(1);
}

/* Brings the first `len` bytes of a block to the file: all of them, or fewer where power fails. */
static void write_block(size_t block, size_t len) {
    size_t at = block * VODZANU_BLOCK;
    must_file("write", pwrite(file, image + at, len, (off_t)at) == (ssize_t)len);
    memcpy(on_disk + at, image + at, len);
}

/* Writes the blocks that changed, and no other: a header on disk may name those. */
static void write_changed(size_t len) {
    size_t block;
    for (block = 0; block < BLOCKS; block++) {
        if (memcmp(image + block * VODZANU_BLOCK, on_disk + block * VODZANU_BLOCK, VODZANU_BLOCK) != 0) write_block(block, len);
    }
}

static void sync_file(void) { must_file("fdatasync", fdatasync(file) == 0); }

/* Makes the stores that are left of a checkpoint: the header, which comes last, is written when all others are on disk, and is on disk
 * before anything else is written. */
static void finish_checkpoint(int64_t left) {
    must("run", vodzanu_run(image, sizeof image, memory, sizeof memory, (uint64_t)(left - 1)));
    write_changed(VODZANU_BLOCK);
    sync_file();
    must("step", vodzanu_step(image, sizeof image, memory, sizeof memory));
    write_changed(VODZANU_BLOCK);
    sync_file();
}

/* Makes one more store, of which only the first half reaches the file; image and memory are lost. */
static void lose_power(void) {
    must("step", vodzanu_step(image, sizeof image, memory, sizeof memory));
    write_changed(VODZANU_BLOCK / 2);
    must_file("close", close(file) == 0);
    memset(image, 0xAA, sizeof image);
    memset(memory, 0xAA, sizeof memory);
}

/* ---- the story */

int main(int argc, char **argv) {
    const char *path = argc > 1 ? argv[1] : "client.img";
    int64_t left;

    must("make", vodzanu_make(image, sizeof image, memory, sizeof memory, CAPACITY));
    file = open(path, O_RDWR | O_CREAT | O_TRUNC, 0666);
    must_file(path, file >= 0 && ftruncate(file, sizeof image) == 0);
    write_changed(VODZANU_BLOCK);
    must_file("fsync", fsync(file) == 0); /* and its folder, if the file is new: examples/logged.c does it */

    must("open", vodzanu_open(memory, sizeof memory, MISSION));
    must("open", vodzanu_open(memory, sizeof memory, OTHER_MISSION));
    book(MISSION, 100, 20, "pass 1, antenna north");
    book(OTHER_MISSION, 100, 20, "the same pass");

    left = must("begin", vodzanu_begin(memory, sizeof memory));
    printf("checkpoint: %d block stores\n", (int)left);
    left = must("step", vodzanu_step(image, sizeof image, memory, sizeof memory));
    book(MISSION, 130, 15, "pass 2, booked during the checkpoint");
    finish_checkpoint(left);
    show(100);
    show(130);
    show_crossing(119, 131); /* the last minute of one window, the first of the other */
    show_crossing(120, 130); /* what is between them */

    must("begin", vodzanu_begin(memory, sizeof memory));
    lose_power();
    printf("power fails\n");

    file = open(path, O_RDWR);
    must_file(path, file >= 0 && fsync(file) == 0 && read(file, image, sizeof image) == (ssize_t)sizeof image);
    must("recover", vodzanu_recover(image, sizeof image, memory, sizeof memory));
    show_open(); /* the mission that had written; the other one has to open again */
    show(100);   /* written before the checkpoint that landed began */
    show(130);   /* written after it began */
    show_crossing(119, 131);

    must("delete", vodzanu_delete(memory, sizeof memory, MISSION, DISH, 100));
    show(100);
    book(MISSION, 100, 25, "pass 1, antenna south"); /* withdrawn and booked again in one change */
    must("commit", vodzanu_commit(memory, sizeof memory, MISSION));
    must("open", vodzanu_open(memory, sizeof memory, MISSION));
    show(100);

    book_in_hours(WEDNESDAY + 9 * HOUR, 45, "pass 3");
    book_in_hours(FRIDAY + 21 * HOUR, 90, "pass 4, past 22:00");
    book_in_hours(SUNDAY + 9 * HOUR, 45, "pass 5, on a Sunday");
    must_file("close", close(file) == 0);
    return 0;
}
