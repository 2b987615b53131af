#define _GNU_SOURCE
#include <dlfcn.h>
#include <fcntl.h>
#include <pthread.h>
#include <stdatomic.h>
#include <stddef.h>
#include <stdlib.h>
#include <sys/mman.h>
#include <unistd.h>

/* Refuses the growth of number REFUSE that a program asks for (1 is the first), or LENGTH growths from it on. The file COUNTS has
   three numbers of eight octets: how many growths the program asked for, how many found no memory, also in the C library, and how
   many threads it made. tests/preload.py reads it when the program has ended. */

static struct { atomic_ulong asked, refused, threads; } here, *counts = (void *)&here;
static unsigned long refused, length;
static void *(*real_malloc)(size_t);
static void *(*real_realloc)(void *, size_t);

static unsigned long number_of(const char *name, unsigned long otherwise) {
    const char *number = getenv(name);
    return number ? strtoul(number, NULL, 10) : otherwise;
}

__attribute__((constructor)) static void begin(void) {
    const char *file = getenv("COUNTS");
    int out = file ? open(file, O_RDWR | O_CREAT | O_TRUNC, 0644) : -1;
    void *shared = MAP_FAILED;
    real_malloc = dlsym(RTLD_NEXT, "malloc");
    real_realloc = dlsym(RTLD_NEXT, "realloc");
    if (out >= 0 && ftruncate(out, sizeof here) == 0) shared = mmap(NULL, sizeof here, PROT_READ | PROT_WRITE, MAP_SHARED, out, 0);
    if (shared != MAP_FAILED) counts = shared;
    if (out >= 0) close(out);
    atomic_store(&counts->asked, 0);
    refused = number_of("REFUSE", 0);
    length = number_of("LENGTH", 1);
}

static int is_refused(void) {
    unsigned long number = atomic_fetch_add(&counts->asked, 1) + 1;
    return refused != 0 && number >= refused && number - refused < length;
}

static void *counted(void *block) {
    if (!block) atomic_fetch_add(&counts->refused, 1);
    return block;
}

void *malloc(size_t size) {
    if (!real_malloc) real_malloc = dlsym(RTLD_NEXT, "malloc");
    return counted(is_refused() ? NULL : real_malloc(size));
}

void *realloc(void *block, size_t size) {
    if (!real_realloc) real_realloc = dlsym(RTLD_NEXT, "realloc");
    return counted(is_refused() ? NULL : real_realloc(block, size));
}

int pthread_create(pthread_t *thread, const pthread_attr_t *how, void *(*start)(void *), void *with) {
    static int (*real)(pthread_t *, const pthread_attr_t *, void *(*)(void *), void *);
    if (!real) real = dlsym(RTLD_NEXT, "pthread_create");
    int status = real(thread, how, start, with);
    if (status == 0) atomic_fetch_add(&counts->threads, 1);
    return status;
}
