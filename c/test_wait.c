/* Tests of piper_wait.h, on two threads: bytes come in order by copies and in place, a time limit ends a
 * wait, and a wake that comes once its side has gone finds its waiter. Under valgrind no byte is used
 * after it was freed, and none leaks. */
#include <stdio.h>
#include <string.h>

#include "piper_wait.h"

#define CHECK(it)                                                    \
    do {                                                             \
        if (!(it)) {                                                 \
            fprintf(stderr, "%s:%d: %s\n", __FILE__, __LINE__, #it); \
            exit(1);                                                 \
        }                                                            \
    } while (0)

enum { COUNT = 100000 };

static uint8_t byte_at(size_t i) {
    return (uint8_t)(i * 31 + i / 251);
}

static void *write_copies(void *at) {
    piper_writer writer = *(piper_writer *)at;
    piper_waiter *mine = piper_waiter_new();
    uint8_t bytes[37];
    CHECK(mine != NULL);
    for (size_t sent = 0; sent < COUNT;) {
        size_t n = COUNT - sent < sizeof bytes ? COUNT - sent : sizeof bytes;
        for (size_t i = 0; i < n; i++)
            bytes[i] = byte_at(sent + i);
        CHECK(piper_writer_write_wait(&writer, mine, bytes, n, NULL) == n);
        sent += n;
    }
    piper_writer_drop(&writer);
    piper_waiter_free(mine);
    return NULL;
}

static void *write_in_place(void *at) {
    piper_writer writer = *(piper_writer *)at;
    piper_waiter *mine = piper_waiter_new();
    CHECK(mine != NULL);
    for (size_t sent = 0; sent < COUNT;) {
        uint8_t *room;
        size_t len = piper_writer_lend(&writer, COUNT - sent, &room);
        for (size_t i = 0; i < len; i++)
            room[i] = byte_at(sent + i);
        CHECK(piper_writer_publish(&writer, len));
        sent += len;
        if (len == 0 && piper_writer_poll(&writer, piper_waiter_waker(mine)) == PIPER_PENDING)
            piper_waiter_sleep(mine, NULL);
    }
    piper_writer_drop(&writer);
    piper_waiter_free(mine);
    return NULL;
}

static size_t read_copies(piper_reader *reader, piper_waiter *mine) {
    uint8_t place[50];
    size_t came = 0, n;
    while ((n = piper_reader_read_wait(reader, mine, place, sizeof place, NULL)) > 0) {
        for (size_t i = 0; i < n; i++)
            CHECK(place[i] == byte_at(came + i));
        came += n;
    }
    return came;
}

static size_t read_in_place(piper_reader *reader, piper_waiter *mine) {
    size_t came = 0;
    uint32_t found;
    while ((found = piper_reader_poll(reader, piper_waiter_waker(mine))) != PIPER_END) {
        const uint8_t *bytes;
        size_t len = piper_reader_peek(reader, &bytes);
        for (size_t i = 0; i < len; i++)
            CHECK(bytes[i] == byte_at(came + i));
        CHECK(piper_reader_consume(reader, len));
        came += len;
        if (found == PIPER_PENDING)
            piper_waiter_sleep(mine, NULL);
    }
    return came;
}

static void two_threads(size_t capacity, void *(*writes)(void *), size_t (*reads)(piper_reader *, piper_waiter *)) {
    piper_reader reader;
    piper_writer writer;
    pthread_t thread;
    piper_waiter *mine = piper_waiter_new();
    CHECK(mine != NULL && piper_open(capacity, &reader, &writer) == PIPER_OPENED);
    CHECK(pthread_create(&thread, NULL, writes, &writer) == 0);
    CHECK(reads(&reader, mine) == COUNT);
    piper_reader_drop(&reader);
    piper_waiter_free(mine);
    pthread_join(thread, NULL);
}

/* A side that was woken reads, is dropped, and lets its waiter go before the wake is done. */
static void a_late_wake(void) {
    piper_reader reader;
    piper_writer writer;
    piper_waiter *mine = piper_waiter_new();
    uint8_t byte = 7;
    CHECK(mine != NULL && piper_open(4, &reader, &writer) == PIPER_OPENED);
    piper_waker waker = piper_waiter_waker(mine);
    void *held = waker.calls->clone(waker.datum);
    CHECK(piper_reader_poll(&reader, waker) == PIPER_PENDING && mine->holders == 3);
    CHECK(piper_writer_write(&writer, &byte, 1) == 1 && mine->holders == 2 && mine->is_rung);
    piper_reader_drop(&reader);
    piper_waiter_free(mine);
    waker.calls->wake(held);
    waker.calls->drop(held);
    piper_writer_drop(&writer);
}

/* A side that goes while the other waits wakes it. */
static void *drop_reader(void *at) {
    piper_reader_drop((piper_reader *)at);
    return NULL;
}

static void a_closed_pipe(void) {
    piper_reader reader;
    piper_writer writer;
    pthread_t thread;
    piper_waiter *mine = piper_waiter_new();
    CHECK(mine != NULL && piper_open(4, &reader, &writer) == PIPER_OPENED);
    CHECK(pthread_create(&thread, NULL, drop_reader, &reader) == 0);
    CHECK(piper_writer_write_wait(&writer, mine, (const uint8_t *)"abcdef", 6, NULL) <= 4);
    CHECK(piper_writer_write_wait(&writer, mine, (const uint8_t *)"a", 1, NULL) == 0);
    pthread_join(thread, NULL);
    piper_writer_drop(&writer);
    piper_waiter_free(mine);
}

/* The point of time in so many milliseconds. */
static struct timespec in(long milliseconds) {
    struct timespec at;
    clock_gettime(CLOCK_MONOTONIC, &at);
    at.tv_nsec += milliseconds * 1000000;
    at.tv_sec += at.tv_nsec / 1000000000;
    at.tv_nsec %= 1000000000;
    return at;
}

static bool is_past(const struct timespec *limit) {
    struct timespec now = in(0);
    return now.tv_sec > limit->tv_sec || (now.tv_sec == limit->tv_sec && now.tv_nsec >= limit->tv_nsec);
}

static void a_time_limit(void) {
    piper_reader reader;
    piper_writer writer;
    piper_waiter *mine = piper_waiter_new(), *other = piper_waiter_new();
    uint8_t place[8];
    CHECK(mine != NULL && other != NULL && piper_open(4, &reader, &writer) == PIPER_OPENED);
    struct timespec limit = in(20);
    CHECK(piper_reader_read_wait(&reader, mine, place, 8, &limit) == PIPER_TOO_LATE && is_past(&limit));
    limit = in(20);
    CHECK(piper_writer_write_wait(&writer, other, (const uint8_t *)"abcdef", 6, &limit) == 4 && is_past(&limit));
    CHECK(!piper_writer_is_closed(&writer));
    /* What is there comes, also if the time is over. */
    CHECK(piper_reader_read_wait(&reader, mine, place, 8, &limit) == 4 && memcmp(place, "abcd", 4) == 0);
    piper_writer_drop(&writer);
    CHECK(piper_reader_read_wait(&reader, mine, place, 8, &limit) == 0);
    piper_reader_drop(&reader);
    CHECK(mine->holders == 1 && other->holders == 1);
    piper_waiter_free(mine);
    piper_waiter_free(other);
}

int main(void) {
    a_late_wake();
    a_closed_pipe();
    a_time_limit();
    two_threads(1, write_copies, read_in_place);
    two_threads(7, write_in_place, read_copies);
    two_threads(4096, write_copies, read_copies);
    two_threads(4096, write_in_place, read_in_place);
    return 0;
}
