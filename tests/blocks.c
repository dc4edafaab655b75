// Counts the blocks that a program asks the heap for and gives back, and refuses the one whose number
// is in REFUSE. As the program ends it appends both counts to the file that BLOCKS names.
#define _GNU_SOURCE
#include <dlfcn.h>
#include <errno.h>
#include <fcntl.h>
#include <stdatomic.h>
#include <stdio.h>
#include <stdlib.h>
#include <sys/syscall.h>
#include <unistd.h>

static atomic_long asked, got, given_back;
static void *(*next_malloc)(size_t);
static void (*next_free)(void *);
static long refused;

__attribute__((constructor)) static void begin(void) {
    next_malloc = (void *(*)(size_t))dlsym(RTLD_NEXT, "malloc");
    next_free = (void (*)(void *))dlsym(RTLD_NEXT, "free");
    refused = getenv("REFUSE") ? atol(getenv("REFUSE")) : 0;
    atomic_store(&asked, 0);
    atomic_store(&got, 0);
    atomic_store(&given_back, 0);
}

void *malloc(size_t size) {
    if (!next_malloc)
        begin();
    if (atomic_fetch_add(&asked, 1) + 1 == refused) {
        errno = ENOMEM;
        return NULL;
    }
    atomic_fetch_add(&got, 1);
    return next_malloc(size);
}

void free(void *block) {
    if (block)
        atomic_fetch_add(&given_back, 1);
    next_free(block);
}

static void report(void) {
    int file = open(getenv("BLOCKS"), O_WRONLY | O_APPEND);
    if (file >= 0)
        dprintf(file, "%ld %ld\n", atomic_load(&got), atomic_load(&given_back));
}

__attribute__((destructor)) static void end(void) {
    report();
}

// A program that may start threads ends by this call, which runs no destructor.
void _exit(int status) {
    report();
    syscall(SYS_exit_group, status);
    __builtin_unreachable();
}
