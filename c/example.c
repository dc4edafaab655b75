/* Reads a file on one thread and counts its lines on another, through a pipe of bytes.
 *
 *     ./example FILE
 *
 * Both sides use the pipe's own memory: the file is read into room that it lends, and lines are counted
 * where the bytes lie. A side that has nothing to do sleeps by piper_wait.h. */
#include <stdio.h>
#include <string.h>

#include "piper_wait.h"

/* The thread that reads the file. */
typedef struct {
    FILE *file;
    piper_writer writer;
    piper_waiter *waiter;
} source;

static void *run_source(void *at) {
    source *s = at;
    uint32_t found;
    while ((found = piper_writer_poll(&s->writer, piper_waiter_waker(s->waiter))) != PIPER_END) {
        if (found == PIPER_PENDING) {
            piper_waiter_sleep(s->waiter, NULL);
            continue;
        }
        uint8_t *room;
        size_t len = piper_writer_lend(&s->writer, SIZE_MAX, &room);
        size_t n = fread(room, 1, len, s->file);
        if (n == 0)
            break;
        piper_writer_publish(&s->writer, n);
    }
    piper_writer_drop(&s->writer);
    return NULL;
}

static size_t count_lines(piper_reader *reader, piper_waiter *mine) {
    size_t lines = 0;
    uint32_t found;
    while ((found = piper_reader_poll(reader, piper_waiter_waker(mine))) != PIPER_END) {
        if (found == PIPER_PENDING) {
            piper_waiter_sleep(mine, NULL);
            continue;
        }
        const uint8_t *bytes;
        size_t len = piper_reader_peek(reader, &bytes);
        for (const uint8_t *at = bytes; (at = memchr(at, '\n', len - (size_t)(at - bytes))); at++)
            lines++;
        piper_reader_consume(reader, len);
    }
    return lines;
}

int main(int argc, char **argv) {
    source s = {.file = argc == 2 ? fopen(argv[1], "rb") : NULL, .waiter = piper_waiter_new()};
    piper_waiter *mine = piper_waiter_new();
    piper_reader reader;
    pthread_t thread;
    if (s.file == NULL) {
        fprintf(stderr, "usage: example FILE\n");
        return 2;
    }
    if (s.waiter == NULL || mine == NULL || piper_open(4096, &reader, &s.writer) != PIPER_OPENED ||
        pthread_create(&thread, NULL, run_source, &s) != 0) {
        fprintf(stderr, "example: no memory or no thread\n");
        return 1;
    }
    printf("%zu\n", count_lines(&reader, mine));
    piper_reader_drop(&reader);
    pthread_join(thread, NULL);
    piper_waiter_free(mine);
    piper_waiter_free(s.waiter);
    fclose(s.file);
    return 0;
}
