#define _GNU_SOURCE
#include <dlfcn.h>
#include <errno.h>
#include <stdlib.h>
#include <unistd.h>

/* A standard input that gives one octet at a call and a standard output that takes one, and of which the call of number READ, or
   WRITE, fails: only that one, so a program that tries it again succeeds. */

static int fails(const char *device, long call) {
    const char *number = getenv(device);
    errno = EIO;
    return number && atol(number) == call;
}

ssize_t read(int file, void *octets, size_t size) {
    static long calls;
    ssize_t (*real)(int, void *, size_t) = dlsym(RTLD_NEXT, "read");
    if (file != STDIN_FILENO) return real(file, octets, size);
    return fails("READ", ++calls) ? -1 : real(file, octets, size > 0);
}

ssize_t write(int file, const void *octets, size_t size) {
    static long calls;
    ssize_t (*real)(int, const void *, size_t) = dlsym(RTLD_NEXT, "write");
    if (file != STDOUT_FILENO) return real(file, octets, size);
    return fails("WRITE", ++calls) ? -1 : real(file, octets, size > 0);
}
