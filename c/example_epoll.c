/* Counts the lines of a file in a loop of epoll, through a pipe of bytes that a thread fills.
 *
 *     ./example_epoll FILE
 *
 * The loop's waker is an eventfd: each clone of it is a descriptor of its own, which is written to and
 * closed. So the loop waits for bytes of the pipe as it does for any other descriptor. The thread waits
 * by piper_wait.h. */
#include <stdio.h>
#include <sys/epoll.h>
#include <sys/eventfd.h>
#include <unistd.h>

#include "piper_wait.h"

static void *bell_clone(void *datum) {
    int bell = dup((int)(intptr_t)datum);
    if (bell < 0) {
        perror("example_epoll");
        abort();
    }
    return (void *)(intptr_t)bell;
}

static void bell_wake(void *datum) {
    uint64_t one = 1;
    if (write((int)(intptr_t)datum, &one, sizeof one) != sizeof one)
        perror("example_epoll");
}

static void bell_drop(void *datum) {
    close((int)(intptr_t)datum);
}

static const piper_calls BELL = {bell_clone, bell_wake, bell_drop};

/* The thread that reads the file. */
typedef struct {
    FILE *file;
    piper_writer writer;
    piper_waiter *waiter;
} source;

static void *run_source(void *at) {
    source *s = at;
    uint8_t bytes[1000];
    size_t n;
    while ((n = fread(bytes, 1, sizeof bytes, s->file)) > 0)
        if (piper_writer_write_wait(&s->writer, s->waiter, bytes, n, NULL) < n)
            break;
    piper_writer_drop(&s->writer);
    return NULL;
}

/* Takes all bytes that are there, and adds their lines. Returns whether more may come: then the pipe
 * has a clone of the eventfd. */
static bool take_bytes(piper_reader *reader, int bell, size_t *lines) {
    uint32_t found;
    while ((found = piper_reader_poll(reader, (piper_waker){(void *)(intptr_t)bell, &BELL})) == PIPER_READY) {
        const uint8_t *bytes;
        size_t len = piper_reader_peek(reader, &bytes);
        for (size_t i = 0; i < len; i++)
            *lines += bytes[i] == '\n';
        piper_reader_consume(reader, len);
    }
    return found == PIPER_PENDING;
}

static size_t count_lines(piper_reader *reader, int bell) {
    int loop = epoll_create1(0);
    struct epoll_event event = {.events = EPOLLIN};
    size_t lines = 0;
    uint64_t rings;
    epoll_ctl(loop, EPOLL_CTL_ADD, bell, &event);
    /* A real loop would also wait for other descriptors here. */
    while (take_bytes(reader, bell, &lines))
        if (epoll_wait(loop, &event, 1, -1) < 0 || read(bell, &rings, sizeof rings) < 0)
            break;
    close(loop);
    return lines;
}

int main(int argc, char **argv) {
    source s = {.file = argc == 2 ? fopen(argv[1], "rb") : NULL, .waiter = piper_waiter_new()};
    int bell = eventfd(0, 0);
    piper_reader reader;
    pthread_t thread;
    if (s.file == NULL) {
        fprintf(stderr, "usage: example_epoll FILE\n");
        return 2;
    }
    if (s.waiter == NULL || bell < 0 || piper_open(4096, &reader, &s.writer) != PIPER_OPENED ||
        pthread_create(&thread, NULL, run_source, &s) != 0) {
        fprintf(stderr, "example_epoll: no memory, no descriptor or no thread\n");
        return 1;
    }
    printf("%zu\n", count_lines(&reader, bell));
    piper_reader_drop(&reader);
    close(bell);
    pthread_join(thread, NULL);
    piper_waiter_free(s.waiter);
    fclose(s.file);
    return 0;
}
