/* A byte pipe for one reader and one writer, for C and what calls C.
 *
 * Nothing here waits or starts a thread. A side that has nothing to do leaves a waker in the pipe, and
 * goes to sleep by whatever means it likes. Who changes something that it waits for calls that waker.
 *
 * What a caller owes, in every call:
 * - A pointer is not null, and the memory at it is the caller's for as long as the call runs. That
 *   of a pointer and a length (`to`, `from`) is at least that long. It may lie in a pipe, even in
 *   the same one: the bytes that `peek` gave are the reader's to read, and room that is lent is the
 *   writer's to write.
 * - A handle that a call takes was filled by `piper_open`. It may be moved, and then its old place is
 *   not used again. A handle that was dropped can only be dropped: any other call ends the program.
 * - A handle is used by one thread at a time, but calls that take it as const may be made by several.
 *   The two handles of a pipe may be used by two threads at the same time. A handle may go to another
 *   thread, by anything that has what the one thread did happen before what the other does: a lock, a
 *   start or join of a thread, a release and an acquire.
 * - No call is made from a signal handler, nor in the forked child of a process with threads.
 *
 * Memory comes from `malloc` and goes back by `free`. If it is refused, the program ends, unless a call
 * says otherwise.
 */
#ifndef PIPER_H
#define PIPER_H

#include <stdbool.h>
#include <stddef.h>
#include <stdint.h>

#ifdef __cplusplus
extern "C" {
#endif

/* The side that reads. `at` is null if the handle isn't open. */
typedef struct {
    void *at;
} piper_reader;

/* The side that writes. */
typedef struct {
    void *at;
} piper_writer;

/* What is done with the datum of a waker. Any thread may call these, at any time, until `drop` was
 * called for each datum that `clone` returned. They don't call the handle whose call they are made
 * by, and they return: no longjmp, no exception of C++. */
typedef struct {
    /* Returns a datum that wakes the same task, and lives until it is dropped. */
    void *(*clone)(void *datum);
    /* Wakes the task, which then looks again. It may come late, or though there is nothing. */
    void (*wake)(void *datum);
    /* Lets a datum go that `clone` returned. */
    void (*drop)(void *datum);
} piper_calls;

/* A waker. It is lent for a call: what a pipe keeps is a clone. */
typedef struct {
    void *datum;
    /* It stays where it is for as long as the program runs. */
    const piper_calls *calls;
} piper_waker;

/* What a poll found. */
enum {
    /* Nothing to do yet. A clone of the waker was left, in place of one that was left before. It is
     * called once there may be something, and dropped with its side at the latest. */
    PIPER_PENDING = 0,
    /* Of a reader: `peek` shows a byte. Of a writer: there is room. No waker is left. */
    PIPER_READY = 1,
    /* Of a reader: the pipe is closed, and all that was ever published was consumed. Of a writer:
     * the pipe is closed. It is final, and no waker is left. */
    PIPER_END = 2
};

/* The version of the package, which is that of the `piper` whose calls the Rust crate has. */
#define PIPER_VERSION "0.2.5"

/* The version of these declarations. A pipe is opened under a name that has it: a program
 * that was compiled with others does not link. */
#define PIPER_ABI 3
#define PIPER_NAME_OF(abi) piper_open_abi_##abi
#define PIPER_NAME(abi) PIPER_NAME_OF(abi)
#define piper_open PIPER_NAME(PIPER_ABI)

/* The largest capacity that there can be. */
#define PIPER_MAX_CAPACITY (SIZE_MAX / 2)

/* What an open came to. */
enum {
    /* Both handles are open. */
    PIPER_OPENED = 0,
    /* The capacity is 0 or more than PIPER_MAX_CAPACITY. Both handles are null. */
    PIPER_BAD_CAPACITY = 1,
    /* There is no memory for so many bytes. Both handles are null. */
    PIPER_NO_MEMORY = 2
};

/* Opens a pipe that holds `capacity` bytes. `*reader` and `*writer` are overwritten, whatever they
 * held. Returns one of the three above. */
uint32_t piper_open(size_t capacity, piper_reader *reader, piper_writer *writer);

/* ---- The side that reads ---- */

/* Looks for a byte, or for the end, and leaves a waker if there is neither. */
uint32_t piper_reader_poll(piper_reader *reader, piper_waker waker);

/* The known bytes that lie in one piece, the next one first: puts their address into `*at` and
 * returns how many they are, at least one after a poll that was ready. It looks for no more. The
 * bytes stay there, unchanged, until this reader's next `consume`, `read` or `drop`. */
size_t piper_reader_peek(const piper_reader *reader, const uint8_t **at);

/* Takes the first `n` bytes of what `peek` gives, and wakes the writer. If `n` is more than that, it
 * does nothing and returns false. */
bool piper_reader_consume(piper_reader *reader, size_t n);

/* Copies bytes to `to`, at most `len`, takes them, and wakes the writer. It never waits: it returns 0
 * if `len` is 0 or no byte was there. It may return less than `len` though more bytes are there: call
 * again until it is 0. */
size_t piper_reader_read(piper_reader *reader, uint8_t *to, size_t len);

/* How many bytes are unread now. The writer may publish more at any time. */
size_t piper_reader_len(const piper_reader *reader);

/* How many bytes the pipe can hold. */
size_t piper_reader_capacity(const piper_reader *reader);

/* Whether the pipe is closed now: a side was dropped. Once it is true it stays so. Bytes may still be
 * unread. */
bool piper_reader_is_closed(const piper_reader *reader);

/* Closes the pipe, wakes the writer, and drops this side with its waker; `reader->at` is null then.
 * What is unread is lost. The memory is freed with the second of the two sides. */
void piper_reader_drop(piper_reader *reader);

/* ---- The side that writes ---- */

/* Looks for room, or for the end, and leaves a waker if there is neither. */
uint32_t piper_writer_poll(piper_writer *writer, piper_waker waker);

/* Lends room to be written to, at most `max` bytes in one piece: puts its address into `*at` and
 * returns how many bytes it is. It is at least one after a poll that was ready, if `max` isn't 0; it
 * may be less than `max` though more room is there. What is in the bytes is not said.
 *
 * The room is the caller's to read and write until it is published, or until this writer's next
 * `lend`, `write` or `drop`, by which what is left of it goes back. */
size_t piper_writer_lend(piper_writer *writer, size_t max, uint8_t **at);

/* Publishes the first `n` bytes of what is left of the room that was lent last, as the caller wrote
 * them, and wakes the reader, even if `n` is 0. If `n` is more than that, it does nothing and returns
 * false. A write leaves nothing of the room. */
bool piper_writer_publish(piper_writer *writer, size_t n);

/* Copies bytes from `from`, at most `len`, into the pipe, publishes them, and wakes the reader. It
 * never waits: it returns 0 if `len` is 0, the pipe is closed or there was no room. It may return
 * less than `len` though more room is there: call again until it is 0. */
size_t piper_writer_write(piper_writer *writer, const uint8_t *from, size_t len);

/* How many bytes are unread now. The reader may consume some at any time. */
size_t piper_writer_len(const piper_writer *writer);

/* How many bytes the pipe can hold. */
size_t piper_writer_capacity(const piper_writer *writer);

/* Whether the pipe is closed now: the reader was dropped. Once it is true it stays so. */
bool piper_writer_is_closed(const piper_writer *writer);

/* Closes the pipe, wakes the reader, which can still read what is unread, and drops this side with
 * its waker; `writer->at` is null then. The memory is freed with the second of the two sides. */
void piper_writer_drop(piper_writer *writer);

#ifdef __cplusplus
}
#endif

#endif
