/* Vodzanu: a booking store. Rows live in memory that the caller lends and change inside transactions; a checkpoint copies them, block
 * by block, to an image that the caller lends, and after a power cut the image is recovered. With a redo log, which the caller lends too,
 * what was committed since the last checkpoint comes back as well. The rules: docs/RULES.md. The bytes of image, memory and log:
 * docs/LAYOUT.md.
 *
 * WHAT A CALLER MUST SEE TO
 *
 * - Every pointer is valid for the length that follows it, and is not null, also where that length is 0. No alignment is asked.
 * - The buffers of one call (image, memory, second memory, log, payload, hours, reply) and the numbers behind its pointers do not overlap.
 * - Image, memory, log and the log's end go from call to call as the last call left them; between calls they may be moved as a whole.
 *   Payload, hours, reply and the second memory are needed only until the call returns.
 * - The library has no state of its own, allocates nothing and makes no system call, so calls on different stores may run in parallel.
 *   On one store only vodzanu_read, vodzanu_crossing and vodzanu_list may, with each other.
 *
 * Nothing else is asked: any bytes, numbers and lengths may be passed, and every call ends.
 *
 * WHAT A CALL ANSWERS
 *
 * A number of 0 or more: the call was accepted; the number is the call's answer, and 0 where it has none. A negative number: the call
 * was refused; it is minus one of `enum vodzanu_refusal`, and whatever was lent (image, memory, log, end, reply) is as it was found, but for
 * the second memory of vodzanu_roll_forward. Tests are made in the order that stands with each call, and the first one that holds is
 * answered.
 *
 * KEEPING THE IMAGE IN A FILE
 *
 * The image is a buffer; bringing it to disk is the caller's part. vodzanu_make writes block 0, vodzanu_step exactly one block, and no
 * other call but vodzanu_run writes any. Recovery is proved for block stores that hold in order: some are whole, the next may be torn,
 * none after it has begun, and no other block changes. A file behaves so, as far as recovery can tell, if the caller does this:
 *
 *   1. After vodzanu_make: write the whole image to the file, and fsync it, with the folder that names it if the file is new.
 *   2. In a checkpoint: make all stores but the last (vodzanu_begin and vodzanu_step answer how many are left), and write each block
 *      that changed to its place in the file. Find it by comparing the image with a copy of what the file has.
 *   3. fdatasync. Every block that the header will name must be on disk before it, or a cut could leave a header whose blocks have
 *      old bytes.
 *   4. Make the last store, which is the header's, and write block 0 in one write.
 *   5. fdatasync, before the next vodzanu_begin. The blocks that the new header no longer names are free from now on, and the next
 *      checkpoint writes over them: if the disk still had the old header, that one would name them.
 *   6. After a restart: fsync the file before it is read and recovered. Otherwise a header that only the system's cache has could be
 *      built upon, against point 5.
 *
 * The blocks of point 2 may reach the disk in any order, since a checkpoint writes only blocks that the header on disk does not name,
 * and recovery reads block 0 and the blocks named from there alone. Write no block that did not change: it may be torn as well, and the
 * header on disk may name it. For the same reason do not lend a shared mapping of the file as the image: the system may write its pages
 * at any time and in any order, a header half changed among them. Lend a private buffer.
 *
 * The write of block 0 is assumed to be atomic: after a power cut it is the old header or the new one, as disks promise for a sector of
 * 512 bytes. Any other block may be torn into any bytes. Where a sector is larger than a block, writing a block writes its neighbours in
 * the sector too, and the write of every sector has to be atomic. If a write or a sync fails, make no further store: what the disk has is
 * not known until the image is read back and recovered.
 *
 * KEEPING A LOG
 *
 * The log is one more buffer. The calls vodzanu_logged_ do what the calls without that word do, and append a record of it; after a power cut
 * vodzanu_roll_forward recovers the image and repeats what the log has since. It brings back exactly the rows that the whole records
 * committed, if the caller does this:
 *
 *   1. With vodzanu_make: the log is zeroed, all of it, and its end is 0. Its file is on disk, with the folder that names it, before the first
 *      logged call.
 *   2. Every open, insert, checked insert, replace, delete, commit, abort and begin is a logged one, and gets log and end as last left.
 *      Reading, crossing, listing, steps and runs have no record.
 *   3. A logged call's record is on disk before its answer is acted upon. It is the bytes from the end before the call up to the end after
 *      it, and nothing else of the log changes: write those behind the first, fdatasync, write the first, fdatasync. The first byte is never
 *      zero, and a byte of zero ends the log, so that a record that was cut reads as none. A write that is cut may leave each of its bytes
 *      old or new. A begin's record is on disk before any store of that checkpoint.
 *   4. Every restart is a vodzanu_roll_forward, with the whole log; fsync its file before it is read. Roll-forward zeroes the log behind the last
 *      whole record and appends aborts of the transactions that were left open: bring the zeros to disk, then each abort's record as in point
 *      3, before the next logged call; or write the whole log to a new file, fsync it, give it the old one's name, and fsync the folder.
 *      A cut in between is no harm: the next restart does it again.
 *
 * The log is never shortened: it goes from make to the last restart. A logged call for whose record there is no room is refused with 29 and
 * nothing has happened, so that a commit that has no room can be made once there is more: zeros behind the area's end change no record, and a
 * longer copy of the area, zeroed behind the old one, may be lent from then on. The same helps a restart that is refused with 29, since its
 * aborts take room too: two bytes for each transaction that was left open. */
#ifndef VODZANU_H
#define VODZANU_H

#include <stddef.h>
#include <stdint.h>

#ifdef __cplusplus
extern "C" {
#endif

/* ---- limits */

#define VODZANU_BLOCK 512             /* bytes of a block; an image is whole blocks */
#define VODZANU_LEAST_BLOCKS 2        /* blocks of the shortest image */
#define VODZANU_MOST_BLOCKS 4096      /* blocks of the longest image */
#define VODZANU_MOST_CAPACITY 1024    /* tuples that a store can hold; the least capacity is 1 */
#define VODZANU_PAYLOAD_LIMIT 40      /* bytes of a payload; a reply of so many is long enough for every read */
#define VODZANU_TABLES 8              /* tables of a store, numbered from 0 */
#define VODZANU_WEEK 10080            /* minutes of a week; minute 0 of the keys is a Monday's 00:00 UTC */
#define VODZANU_HOURS_ROW 4           /* bytes of a row of opening hours */
#define VODZANU_MOST_HOURS 32         /* rows of a dish's opening hours */
#define VODZANU_OPEN_LIMIT 64         /* open transactions; a reply of twice so many bytes is long enough for every list */
#define VODZANU_MOST_TRANSACTION 4095 /* the largest number of a transaction; the least is 0 */
#define VODZANU_RECORD_LIMIT 102      /* bytes of the longest record of a log, the mark of a begin with 64 transactions; others have at most 48 */

/* The bytes of memory that a store of capacity n needs; more are accepted. Its content before make or recover does not matter. */
#define VODZANU_MEMORY(n) ((size_t)128 * (size_t)(n) + 1024)

/* ---- refusals */

/* A call that is refused answers minus one of these numbers. */
enum vodzanu_refusal {
    VODZANU_IMAGE_LENGTH = 1,        /* the image is not 2 to 4,096 whole blocks */
    VODZANU_CAPACITY_RANGE = 2,      /* the capacity is not 1 to 1,024 */
    VODZANU_MEMORY_SHORT = 3,        /* the memory has fewer than VODZANU_MEMORY(capacity) bytes */
    VODZANU_NO_STORE = 4,            /* the memory holds no store; never after an accepted make, recover or roll-forward */
    VODZANU_IMAGE_MISMATCH = 5,      /* the image is not as long as the one that the store was made or recovered with */
    VODZANU_TRANSACTION_RANGE = 6,   /* the transaction is above 4,095 */
    VODZANU_NOT_OPEN = 7,            /* the transaction is not open */
    VODZANU_ALREADY_OPEN = 8,        /* the transaction is open already */
    VODZANU_TOO_MANY_OPEN = 9,       /* 64 transactions are open */
    VODZANU_TABLE_RANGE = 10,        /* the table is above 7 */
    VODZANU_PAYLOAD_LONG = 11,       /* the payload has more than 40 bytes */
    VODZANU_CONFLICT = 12,           /* another open transaction has written this key */
    VODZANU_KEY_EXISTS = 13,         /* the transaction sees the key already */
    VODZANU_NOT_FOUND = 14,          /* the transaction does not see the key */
    VODZANU_FULL = 15,               /* as many tuples as the capacity are held; those that a checkpoint keeps for its store count */
    VODZANU_NUMBERS_EXHAUSTED = 16,  /* the store's counter of tuples is at its end, 4,294,967,295 */
    VODZANU_CHECKPOINT_RUNNING = 17, /* a checkpoint is running */
    VODZANU_NO_CHECKPOINT = 18,      /* no checkpoint is running */
    VODZANU_LEVELS_EXHAUSTED = 19,   /* the store's counter of checkpoints is at its end, 4,294,967,295 */
    VODZANU_IMAGE_FULL = 20,         /* the image has fewer free blocks than the checkpoint takes */
    VODZANU_REPLY_SHORT = 21,        /* the reply is too short */
    VODZANU_BAD_HEADER = 22,         /* block 0 is not a header of this image */
    VODZANU_BAD_DIRECTORY = 23,      /* a block that the header names is not its directory */
    VODZANU_BAD_PAGE = 24,           /* a block that the directory names is not a page, or the pages do not fit together */
    VODZANU_INTERVAL_EMPTY = 25,     /* the interval's end is not above its start */
    VODZANU_BAD_HOURS = 26,          /* the opening hours have more than 32 rows, a row out of range, or a last row of fewer than four bytes */
    VODZANU_BOOKING_EMPTY = 27,      /* the payload has fewer than two bytes, or they give length 0 */
    VODZANU_CLOSED = 28,             /* some minute of the booking is in no row of the opening hours */
    VODZANU_LOG_FULL = 29,           /* the record, or the aborts of a roll-forward, do not fit the log */
    VODZANU_NO_MARK = 30,            /* the log has no mark of the checkpoint whose header is in block 0 */
    VODZANU_BAD_LOG = 31             /* a record of the log is malformed, or what it says to repeat is refused */
};

/* ---- make and recover */

/* Makes an empty store of `capacity` tuples. Of the image only block 0 is written; the memory holds the store from then on.
 * Answers 0. Refuses: 1, 2, 3. */
int64_t vodzanu_make(uint8_t *image, size_t image_len, uint8_t *memory, size_t memory_len, uint64_t capacity);

/* Lays out in the memory what the image holds: the store as it was just before the vodzanu_begin of the checkpoint whose header is in
 * block 0, or the empty one that vodzanu_make wrote. Open are the transactions that had written by then; no other is, and no checkpoint
 * runs. The image is only read, and all tests are made before the memory is touched. An image that was kept in a file as said above is
 * never refused, with memory enough.
 * Answers 0. Refuses: 1, 22, 3, 23, 24. */
int64_t vodzanu_recover(const uint8_t *image, size_t image_len, uint8_t *memory, size_t memory_len);

/* ---- transactions */

/* Opens a transaction, by a number that the caller chooses. Until it writes, a power cut forgets it.
 * Answers 0. Refuses: 4, 6, 8, 9. */
int64_t vodzanu_open(uint8_t *memory, size_t memory_len, uint64_t transaction);

/* Adds a tuple of a key that the transaction does not see: one that has no tuple, or one that the transaction itself has deleted, also
 * before its commit. The transaction sees it at once, others when it is committed; until then others that write the key are refused
 * with 12.
 * Answers 0. Refuses: 4, 6, 7, 10, 11, 12, 13, 15, 16. */
int64_t vodzanu_insert(uint8_t *memory, size_t memory_len, uint64_t transaction, uint64_t table, uint32_t key,
                       const uint8_t *payload, size_t payload_len);

/* Adds a booking only if the dish is open at every minute of it; it is then a vodzanu_insert like any other. A table is one dish. The
 * booking runs from minute `key` up to, not including, key + length, where the first two bytes of the payload, high byte first, are the
 * length in minutes; its end may pass 32 bits. `hours` is the dish's week, four bytes a row: the row's first minute, 0 to 10,079 from Monday
 * 00:00 UTC, and how many minutes it has, 1 to 10,080, two bytes each, high byte first. A row may run past Sunday into Monday; rows may
 * stand in any order and overlap. At most 32 rows; a dish without rows is closed. The hours are read for this call alone: they are not
 * kept, and no other call minds them.
 * Answers 0. Refuses: 4, 10, 26, 27, 28, 6, 7, 11, 12, 13, 15, 16. */
int64_t vodzanu_insert_checked(uint8_t *memory, size_t memory_len, uint64_t transaction, uint64_t table, uint32_t key,
                               const uint8_t *payload, size_t payload_len, const uint8_t *hours, size_t hours_len);

/* Adds a newer version of a key that the transaction sees; the older ones go when it is committed. Each version takes the room of a
 * tuple until then, and so does the mark of a delete: keep some of the capacity for changes.
 * Answers 0. Refuses: 4, 6, 7, 10, 11, 12, 14, 15, 16. */
int64_t vodzanu_replace(uint8_t *memory, size_t memory_len, uint64_t transaction, uint64_t table, uint32_t key,
                        const uint8_t *payload, size_t payload_len);

/* Adds a delete mark for a key that the transaction sees: the key is gone for this transaction now and, unless the transaction inserts
 * it again, for others when it is committed.
 * Answers 0. Refuses: 4, 6, 7, 10, 12, 14, 15, 16. */
int64_t vodzanu_delete(uint8_t *memory, size_t memory_len, uint64_t transaction, uint64_t table, uint32_t key);

/* Makes what the transaction has written the committed state of its keys, for all others to see, and closes the transaction. It is in
 * the memory only: a power cut undoes it unless a checkpoint that began afterwards has landed, or it was a vodzanu_logged_commit.
 * Answers 0. Refuses: 4, 6, 7. */
int64_t vodzanu_commit(uint8_t *memory, size_t memory_len, uint64_t transaction);

/* Takes back all that the transaction has written, and closes it.
 * Answers 0. Refuses: 4, 6, 7. */
int64_t vodzanu_abort(uint8_t *memory, size_t memory_len, uint64_t transaction);

/* Puts the payload of the version of the key that the transaction sees over the first bytes of the reply; the reply's other bytes stay.
 * A transaction sees its own newest version, else the committed one.
 * Answers the payload's length, 0 to 40. Refuses: 4, 6, 7, 10, 14, 21. */
int64_t vodzanu_read(const uint8_t *memory, size_t memory_len, uint64_t transaction, uint64_t table, uint32_t key,
                     uint8_t *reply, size_t reply_len);

/* Puts the keys of the bookings that share a minute with an interval over the first bytes of the reply, four bytes each, high byte first,
 * rising; the reply's other bytes stay. The interval goes from minute `first` up to, not including, minute `end`. A booking is a tuple of
 * the table, in the version that the transaction sees: its key is its start minute, the first two bytes of its payload, high byte first,
 * are its length in minutes, and it runs up to, not including, key + length, which may pass 32 bits. A shorter payload, or length 0,
 * crosses nothing.
 * Answers how many keys there are. A reply of 4 * capacity bytes is always long enough. Refuses: 4, 6, 7, 10, 25, 21. */
int64_t vodzanu_crossing(const uint8_t *memory, size_t memory_len, uint64_t transaction, uint64_t table, uint64_t first, uint64_t end,
                         uint8_t *reply, size_t reply_len);

/* Puts the numbers of the open transactions over the first bytes of the reply, two bytes each, high byte first, by rising
 * number, each once; the reply's other bytes stay.
 * Answers how many are open, 0 to 64. Refuses: 4, 21. */
int64_t vodzanu_list(const uint8_t *memory, size_t memory_len, uint8_t *reply, size_t reply_len);

/* ---- checkpoint */

/* Begins a checkpoint of the store as it is now, open transactions included. It writes nothing to the image; the stores are made by
 * vodzanu_step and vodzanu_run, and all other calls may be made between them. There is no call that gives a checkpoint up.
 * Answers how many block stores it takes, the header's included: 1 to 1,029. Refuses: 4, 17, 19, 20. */
int64_t vodzanu_begin(uint8_t *memory, size_t memory_len);

/* Makes the next block store of the running checkpoint: writes exactly one block of the image. The last store is the header's, to block
 * 0, and ends the checkpoint; no other store writes block 0.
 * Answers how many stores are left, 0 when the header was written. Refuses: 4, 5, 18. */
int64_t vodzanu_step(uint8_t *image, size_t image_len, uint8_t *memory, size_t memory_len);

/* Makes `limit` steps, or as many as are left if that is less, and does nothing else: with the number left less one as its limit it
 * stops just before the header.
 * Answers how many stores it made. Refuses: 4, 5, 18, also with a limit of 0. */
int64_t vodzanu_run(uint8_t *image, size_t image_len, uint8_t *memory, size_t memory_len, uint64_t limit);

/* ---- logged calls */

/* Each does what the call without `logged` does, with its answer and its refusals, and appends a record of it to the log from byte `*end` on;
 * `*end` is then the byte behind the record. Behind all other tests comes 29: the record does not fit between `*end` and the log's end, for
 * any number that `*end` may be. A call that is refused leaves memory, log and `*end` as they were. */

/* Answers 0. Refuses: 4, 6, 8, 9, 29. The record has 2 bytes. */
int64_t vodzanu_logged_open(uint8_t *memory, size_t memory_len, uint8_t *log, size_t log_len, uint64_t *end, uint64_t transaction);

/* Answers 0. Refuses: 4, 6, 7, 10, 11, 12, 13, 15, 16, 29. The record has 8 bytes and the payload's. */
int64_t vodzanu_logged_insert(uint8_t *memory, size_t memory_len, uint8_t *log, size_t log_len, uint64_t *end, uint64_t transaction,
                              uint64_t table, uint32_t key, const uint8_t *payload, size_t payload_len);

/* Its record is that of an insert: what was accepted is not held to opening hours again.
 * Answers 0. Refuses: 4, 10, 26, 27, 28, 6, 7, 11, 12, 13, 15, 16, 29. The record has 8 bytes and the payload's. */
int64_t vodzanu_logged_insert_checked(uint8_t *memory, size_t memory_len, uint8_t *log, size_t log_len, uint64_t *end, uint64_t transaction,
                                      uint64_t table, uint32_t key, const uint8_t *payload, size_t payload_len,
                                      const uint8_t *hours, size_t hours_len);

/* Answers 0. Refuses: 4, 6, 7, 10, 11, 12, 14, 15, 16, 29. The record has 8 bytes and the payload's. */
int64_t vodzanu_logged_replace(uint8_t *memory, size_t memory_len, uint8_t *log, size_t log_len, uint64_t *end, uint64_t transaction,
                               uint64_t table, uint32_t key, const uint8_t *payload, size_t payload_len);

/* Answers 0. Refuses: 4, 6, 7, 10, 12, 14, 15, 16, 29. The record has 8 bytes. */
int64_t vodzanu_logged_delete(uint8_t *memory, size_t memory_len, uint8_t *log, size_t log_len, uint64_t *end, uint64_t transaction,
                              uint64_t table, uint32_t key);

/* When its record is on disk, a power cut does not undo the commit.
 * Answers 0. Refuses: 4, 6, 7, 29. The record has 2 bytes. */
int64_t vodzanu_logged_commit(uint8_t *memory, size_t memory_len, uint8_t *log, size_t log_len, uint64_t *end, uint64_t transaction);

/* Answers 0. Refuses: 4, 6, 7, 29. The record has 2 bytes. */
int64_t vodzanu_logged_abort(uint8_t *memory, size_t memory_len, uint8_t *log, size_t log_len, uint64_t *end, uint64_t transaction);

/* Its record is a mark: the level that the checkpoint's header will have, and the transactions that are open and have not written, which the
 * image does not tell.
 * Answers as vodzanu_begin. Refuses: 4, 17, 19, 20, 29. The record has 6 bytes and one and a half for each such transaction, rounded up. */
int64_t vodzanu_logged_begin(uint8_t *memory, size_t memory_len, uint8_t *log, size_t log_len, uint64_t *end);

/* Restarts with a log: recovers the image as vodzanu_recover does, goes to the last mark of the header's level, or to the log's start if no
 * checkpoint has landed, opens the transactions that the mark names, repeats the calls recorded behind it, and aborts what is then left open.
 * Behind the last whole record the log is zeroed, and the records of those aborts are appended; `*end`, which is only written, is the byte
 * behind them. No transaction is open afterwards, and no checkpoint runs.
 * It works in the second memory, of VODZANU_MEMORY(capacity) bytes or more, whose bytes afterwards may be any, also where it is refused; a
 * refusal leaves memory, log and `*end` as they were. With image and log kept as said above it is refused with 29 alone, memory enough.
 * Answers 0. Refuses: 1, 22, 3 (either memory is too short), 23, 24; 31 if a record of the whole log is malformed; 30; 31 if an open of the mark
 * or a repeated call is refused; 29. */
int64_t vodzanu_roll_forward(const uint8_t *image, size_t image_len, uint8_t *memory, size_t memory_len, uint8_t *second, size_t second_len,
                             uint8_t *log, size_t log_len, uint64_t *end);

#ifdef __cplusplus
}
#endif

#endif
