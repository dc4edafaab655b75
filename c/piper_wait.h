/* Reads and writes that wait, over piper.h, for programs whose sides are on threads of POSIX. Whoever
 * waits sleeps on a condition variable; compile with POSIX, as -std=gnu11 has it, and link with -lpthread.
 *
 *     piper_waiter *w = piper_waiter_new();
 *     while ((n = piper_reader_read_wait(&reader, w, place, sizeof place, NULL)) > 0)
 *         use(place, n);
 *     piper_reader_drop(&reader);
 *     piper_waiter_free(w);
 *
 * `piper_writer_write_wait` does the same for a writer. A waiter belongs to one side. Its memory is
 * counted: a pipe that has its waker keeps it. A time limit is a point of CLOCK_MONOTONIC, or NULL for
 * none. macOS and Windows have no condition variable with this clock: there a program brings a waker of
 * its own.
 */
#ifndef PIPER_WAIT_H
#define PIPER_WAIT_H

#include <errno.h>
#include <pthread.h>
#include <stdlib.h>
#include <time.h>

#include "piper.h"

/* What a read returns if nothing came in time. */
#define PIPER_TOO_LATE SIZE_MAX

/* What one side sleeps on. */
typedef struct {
    pthread_mutex_t lock;
    pthread_cond_t rung;
    bool is_rung;
    /* How many hold it: its owner, and each clone of its waker. */
    size_t holders;
} piper_waiter;

/* A new waiter, or null if memory was refused. */
static inline piper_waiter *piper_waiter_new(void) {
    piper_waiter *made = (piper_waiter *)malloc(sizeof *made);
    if (made != NULL) {
        pthread_condattr_t by;
        pthread_condattr_init(&by);
        pthread_condattr_setclock(&by, CLOCK_MONOTONIC);
        pthread_mutex_init(&made->lock, NULL);
        pthread_cond_init(&made->rung, &by);
        pthread_condattr_destroy(&by);
        made->is_rung = false;
        made->holders = 1;
    }
    return made;
}

static inline void *piper_waiter_clone(void *datum) {
    __atomic_add_fetch(&((piper_waiter *)datum)->holders, 1, __ATOMIC_RELAXED);
    return datum;
}

static inline void piper_waiter_wake(void *datum) {
    piper_waiter *waiter = (piper_waiter *)datum;
    pthread_mutex_lock(&waiter->lock);
    waiter->is_rung = true;
    pthread_cond_signal(&waiter->rung);
    pthread_mutex_unlock(&waiter->lock);
}

/* Lets a waiter go. */
static inline void piper_waiter_free(void *datum) {
    piper_waiter *waiter = (piper_waiter *)datum;
    if (__atomic_sub_fetch(&waiter->holders, 1, __ATOMIC_ACQ_REL) == 0) {
        pthread_cond_destroy(&waiter->rung);
        pthread_mutex_destroy(&waiter->lock);
        free(waiter);
    }
}

/* A waker of this waiter. */
static inline piper_waker piper_waiter_waker(piper_waiter *waiter) {
    static const piper_calls calls = {piper_waiter_clone, piper_waiter_wake, piper_waiter_free};
    piper_waker waker = {waiter, &calls};
    return waker;
}

/* Sleeps until the waiter's waker was called, or until a point of time. Returns false if that came
 * first. A wake may be one of an earlier poll: whoever called looks again. */
static inline bool piper_waiter_sleep(piper_waiter *mine, const struct timespec *until) {
    int failed = 0;
    pthread_mutex_lock(&mine->lock);
    while (!mine->is_rung && failed != ETIMEDOUT)
        failed = until == NULL ? pthread_cond_wait(&mine->rung, &mine->lock)
                               : pthread_cond_timedwait(&mine->rung, &mine->lock, until);
    bool is_rung = mine->is_rung;
    mine->is_rung = false;
    pthread_mutex_unlock(&mine->lock);
    return is_rung;
}

/* Reads at least one byte and at most `len`, and waits for it. Returns how many: 0 if `len` is 0, or
 * if the pipe is closed and all was read, and PIPER_TOO_LATE if no byte came in time. */
static inline size_t piper_reader_read_wait(piper_reader *reader, piper_waiter *mine, uint8_t *to, size_t len,
                                            const struct timespec *until) {
    for (;;) {
        size_t count = piper_reader_read(reader, to, len);
        if (count > 0 || len == 0)
            return count;
        uint32_t found = piper_reader_poll(reader, piper_waiter_waker(mine));
        if (found == PIPER_END)
            return 0;
        if (found == PIPER_PENDING && !piper_waiter_sleep(mine, until))
            return PIPER_TOO_LATE;
    }
}

/* Writes all `len` bytes, and waits for room. Returns how many were written: fewer if the pipe was
 * closed before, which `piper_writer_is_closed` says, or the time was over. */
static inline size_t piper_writer_write_wait(piper_writer *writer, piper_waiter *mine, const uint8_t *from, size_t len,
                                             const struct timespec *until) {
    size_t written = 0;
    while (written < len) {
        size_t count = piper_writer_write(writer, from + written, len - written);
        written += count;
        if (count > 0)
            continue;
        uint32_t found = piper_writer_poll(writer, piper_waiter_waker(mine));
        if (found == PIPER_END || (found == PIPER_PENDING && !piper_waiter_sleep(mine, until)))
            break;
    }
    return written;
}

#endif
