/* Calls each function of the library, and checks what it gets: on one thread, with wakers that count.
 *
 * It prints nothing and ends with 0, or prints the line of the first check that fails. */
#include <stdio.h>
#include <stdlib.h>
#include <string.h>

#include "piper.h"

#define CHECK(holds)                                              \
    do {                                                          \
        if (!(holds)) {                                           \
            fprintf(stderr, "test.c:%d: %s\n", __LINE__, #holds); \
            exit(1);                                              \
        }                                                         \
    } while (0)

/* A task: how often its wakers were called, and how many clones there are. */
typedef struct {
    int wakes, clones;
} task;

static void *count_clone(void *datum) {
    ((task *)datum)->clones++;
    return datum;
}

static void count_wake(void *datum) {
    ((task *)datum)->wakes++;
}

static void count_drop(void *datum) {
    ((task *)datum)->clones--;
}

static piper_waker waker_of(task *of) {
    static const piper_calls calls = {count_clone, count_wake, count_drop};
    return (piper_waker){of, &calls};
}

static bool is(const task *of, int wakes, int clones) {
    return of->wakes == wakes && of->clones == clones;
}

/* Both handles, and a task of each. */
typedef struct {
    piper_reader reader;
    piper_writer writer;
    task of_reader, of_writer;
} pair;

static pair opened(size_t capacity) {
    pair p = {.of_reader = {0, 0}, .of_writer = {0, 0}};
    CHECK(piper_open(capacity, &p.reader, &p.writer) == PIPER_OPENED);
    return p;
}

static size_t put(pair *p, const char *text) {
    return piper_writer_write(&p->writer, (const uint8_t *)text, strlen(text));
}

static uint32_t poll_reader(pair *p) {
    return piper_reader_poll(&p->reader, waker_of(&p->of_reader));
}

static uint32_t poll_writer(pair *p) {
    return piper_writer_poll(&p->writer, waker_of(&p->of_writer));
}

static void drop_both(pair *p) {
    piper_reader_drop(&p->reader);
    CHECK(p->reader.at == NULL);
    piper_writer_drop(&p->writer);
    CHECK(p->writer.at == NULL && p->of_reader.clones == 0 && p->of_writer.clones == 0);
    /* A handle that was dropped can be dropped. */
    piper_reader_drop(&p->reader);
    piper_writer_drop(&p->writer);
}

static void opens(void) {
    piper_reader reader = {&reader};
    piper_writer writer = {&writer};
    CHECK(piper_open(0, &reader, &writer) == PIPER_BAD_CAPACITY);
    CHECK(reader.at == NULL && writer.at == NULL);
    CHECK(piper_open(PIPER_MAX_CAPACITY + 1, &reader, &writer) == PIPER_BAD_CAPACITY);
    CHECK(piper_open(SIZE_MAX, &reader, &writer) == PIPER_BAD_CAPACITY && writer.at == NULL);
    /* No memory is that large. */
    CHECK(piper_open(PIPER_MAX_CAPACITY, &reader, &writer) == PIPER_NO_MEMORY);
    CHECK(SIZE_MAX == UINT32_MAX || piper_open(PIPER_MAX_CAPACITY / 2, &reader, &writer) == PIPER_NO_MEMORY);
    CHECK(reader.at == NULL && writer.at == NULL);
    pair p = opened(3);
    const piper_reader *asked = &p.reader;
    const piper_writer *other = &p.writer;
    CHECK(piper_reader_capacity(asked) == 3 && piper_writer_capacity(other) == 3);
    CHECK(piper_reader_len(asked) == 0 && piper_writer_len(other) == 0);
    CHECK(!piper_reader_is_closed(asked) && !piper_writer_is_closed(other));
    drop_both(&p);
}

static void copies(void) {
    pair p = opened(4);
    uint8_t to[8] = "........";
    CHECK(piper_reader_read(&p.reader, to, 8) == 0);
    CHECK(put(&p, "abcdef") == 4 && put(&p, "ef") == 0);
    CHECK(piper_writer_len(&p.writer) == 4 && piper_reader_len(&p.reader) == 4);
    CHECK(piper_reader_read(&p.reader, to, 3) == 3 && memcmp(to, "abc.....", 8) == 0);
    CHECK(put(&p, "efg") == 3);
    /* What is known first, and then what came since. */
    CHECK(piper_reader_read(&p.reader, to, 8) == 1 && to[0] == 'd');
    CHECK(piper_reader_read(&p.reader, to, 8) == 3 && memcmp(to, "efg", 3) == 0);
    CHECK(piper_reader_read(&p.reader, to, 0) == 0 && put(&p, "") == 0);
    drop_both(&p);
}

static void in_place(void) {
    pair p = opened(10);
    uint8_t *room;
    const uint8_t *bytes;
    CHECK(piper_reader_peek(&p.reader, &bytes) == 0);
    CHECK(piper_writer_lend(&p.writer, 4, &room) == 4);
    memcpy(room, "wxyz", 4);
    /* A part, the rest of it, and not more than that. */
    CHECK(piper_writer_publish(&p.writer, 2) && piper_writer_len(&p.writer) == 2);
    CHECK(!piper_writer_publish(&p.writer, 3) && piper_writer_len(&p.writer) == 2);
    CHECK(piper_writer_publish(&p.writer, 1) && piper_writer_len(&p.writer) == 3);
    /* Room that is lent anew is not published, and a write ends a loan. */
    CHECK(piper_writer_lend(&p.writer, SIZE_MAX, &room) == 7 && piper_writer_len(&p.writer) == 3);
    CHECK(piper_writer_lend(&p.writer, 0, &room) == 0 && !piper_writer_publish(&p.writer, 1));
    CHECK(piper_writer_lend(&p.writer, 5, &room) == 5 && put(&p, "") == 0);
    CHECK(!piper_writer_publish(&p.writer, 1) && !piper_writer_publish(&p.writer, SIZE_MAX));
    CHECK(poll_reader(&p) == PIPER_READY);
    CHECK(piper_reader_peek(&p.reader, &bytes) == 3 && memcmp(bytes, "wxy", 3) == 0);
    /* More than was peeked is refused. */
    CHECK(!piper_reader_consume(&p.reader, 4) && !piper_reader_consume(&p.reader, SIZE_MAX));
    CHECK(piper_reader_consume(&p.reader, 0) && piper_reader_len(&p.reader) == 3);
    CHECK(piper_reader_consume(&p.reader, 2) && piper_reader_len(&p.reader) == 1);
    CHECK(piper_reader_peek(&p.reader, &bytes) == 1 && bytes[0] == 'y');
    drop_both(&p);
}

static void wakes_the_reader(void) {
    pair p = opened(4);
    task other = {0, 0};
    uint8_t *room, to[4];
    CHECK(poll_reader(&p) == PIPER_PENDING && is(&p.of_reader, 0, 1));
    /* Another waker takes the place of the first, which is let go. */
    CHECK(piper_reader_poll(&p.reader, waker_of(&other)) == PIPER_PENDING);
    CHECK(is(&p.of_reader, 0, 0) && is(&other, 0, 1));
    CHECK(piper_writer_lend(&p.writer, 1, &room) == 1);
    room[0] = 'a';
    CHECK(piper_writer_publish(&p.writer, 1) && is(&other, 1, 0));
    /* Once, and not again. */
    CHECK(put(&p, "b") == 1 && is(&other, 1, 0));
    CHECK(poll_reader(&p) == PIPER_READY && is(&p.of_reader, 0, 0));
    CHECK(piper_reader_read(&p.reader, to, 4) == 2);
    /* By a publish of no bytes, but not if room is only lent. */
    CHECK(poll_reader(&p) == PIPER_PENDING && piper_writer_lend(&p.writer, 1, &room) == 1);
    CHECK(is(&p.of_reader, 0, 1) && piper_writer_publish(&p.writer, 0) && is(&p.of_reader, 1, 0));
    drop_both(&p);
}

static void wakes_the_writer(void) {
    pair p = opened(2);
    CHECK(poll_writer(&p) == PIPER_READY && put(&p, "ab") == 2);
    CHECK(poll_writer(&p) == PIPER_PENDING && is(&p.of_writer, 0, 1));
    CHECK(poll_reader(&p) == PIPER_READY && !piper_reader_consume(&p.reader, 3));
    CHECK(piper_reader_consume(&p.reader, 1) && is(&p.of_writer, 1, 0));
    CHECK(piper_reader_consume(&p.reader, 1) && is(&p.of_writer, 1, 0));
    CHECK(poll_writer(&p) == PIPER_READY && is(&p.of_writer, 1, 0));
    drop_both(&p);
}

/* A drop wakes who waits, lets its own waker go, and leaves what is unread. */
static void leaving(void) {
    uint8_t to[4];
    pair p = opened(4);
    CHECK(put(&p, "ab") == 2 && piper_reader_read(&p.reader, to, 1) == 1);
    piper_writer_drop(&p.writer);
    CHECK(piper_reader_is_closed(&p.reader) && poll_reader(&p) == PIPER_READY);
    CHECK(piper_reader_read(&p.reader, to, 4) == 1 && to[0] == 'b');
    CHECK(poll_reader(&p) == PIPER_END && is(&p.of_reader, 0, 0));
    drop_both(&p);

    p = opened(1);
    CHECK(poll_reader(&p) == PIPER_PENDING);
    piper_writer_drop(&p.writer);
    CHECK(is(&p.of_reader, 1, 0));
    drop_both(&p);

    p = opened(1);
    CHECK(put(&p, "a") == 1 && poll_writer(&p) == PIPER_PENDING);
    piper_reader_drop(&p.reader);
    CHECK(is(&p.of_writer, 1, 0) && piper_writer_is_closed(&p.writer));
    CHECK(poll_writer(&p) == PIPER_END && put(&p, "b") == 0);
    drop_both(&p);

    p = opened(1);
    CHECK(poll_reader(&p) == PIPER_PENDING);
    piper_reader_drop(&p.reader);
    CHECK(is(&p.of_reader, 0, 0));
    drop_both(&p);
}

int main(void) {
    opens();
    copies();
    in_place();
    wakes_the_reader();
    wakes_the_writer();
    leaving();
    return 0;
}
