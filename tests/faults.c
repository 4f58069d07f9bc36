// Stands before the C library of a program (LD_PRELOAD) and fails calls that the program makes. FAULT in the environment
// says which: a kind, a space and the number of the call, from 1, with a + behind it if those that follow fail too.
//
//   memory        malloc, calloc and realloc give none
//   read, write   nothing is read or written, and the error is EIO
//   short-read, short-write      of several bytes one is read or written
//   thread        no thread is started
//
// For each call that it fails it writes a byte to descriptor 9. Where PIECE in the environment is above 0, no read and
// no write is of more bytes than that. A program that runs for a minute is ended.
#define _GNU_SOURCE
#include <dlfcn.h>
#include <errno.h>
#include <pthread.h>
#include <stdatomic.h>
#include <stdlib.h>
#include <string.h>
#include <sys/syscall.h>
#include <unistd.h>

void *__libc_malloc(size_t size);
void *__libc_calloc(size_t count, size_t size);
void *__libc_realloc(void *block, size_t size);

typedef int Start(pthread_t *, const pthread_attr_t *, void *(*)(void *), void *);

static const char *kind = "";
static unsigned long first, last;
static size_t piece;
static atomic_ulong calls;
static Start *start_thread;

__attribute__((constructor)) static void read_fault(void) {
    static char words[64];
    const char *fault = getenv("FAULT"), *most = getenv("PIECE");
    if (most)
        piece = strtoul(most, NULL, 10);
    if (!piece)
        piece = -1;
    start_thread = (Start *)dlsym(RTLD_NEXT, "pthread_create");
    alarm(60);
    if (!fault || strlen(fault) >= sizeof words)
        return;
    strcpy(words, fault);
    char *number = strchr(words, ' ');
    if (!number)
        return;
    *number++ = '\0';
    first = strtoul(number, &number, 10);
    last = *number == '+' ? -1UL : first;
    kind = words;
}

// Whether this call of that kind fails.
static int fails(const char *called) {
    if (strcmp(called, kind) != 0)
        return 0;
    unsigned long number = atomic_fetch_add(&calls, 1) + 1;
    if (number < first || last < number)
        return 0;
    syscall(SYS_write, 9, "x", 1);
    return 1;
}

static int fails_with(const char *called, int error) {
    if (!fails(called))
        return 0;
    errno = error;
    return 1;
}

void *malloc(size_t size) {
    return fails_with("memory", ENOMEM) ? NULL : __libc_malloc(size);
}

void *calloc(size_t count, size_t size) {
    return fails_with("memory", ENOMEM) ? NULL : __libc_calloc(count, size);
}

void *realloc(void *block, size_t size) {
    return fails_with("memory", ENOMEM) ? NULL : __libc_realloc(block, size);
}

ssize_t read(int from, void *bytes, size_t size) {
    if (fails_with("read", EIO))
        return -1;
    return syscall(SYS_read, from, bytes, size > 1 && fails("short-read") ? 1 : size < piece ? size : piece);
}

ssize_t write(int to, const void *bytes, size_t size) {
    if (fails_with("write", EIO))
        return -1;
    return syscall(SYS_write, to, bytes, size > 1 && fails("short-write") ? 1 : size < piece ? size : piece);
}

ssize_t __write(int to, const void *bytes, size_t size) {
    return write(to, bytes, size);
}

int pthread_create(pthread_t *thread, const pthread_attr_t *how, void *(*body)(void *), void *of) {
    return fails("thread") ? EAGAIN : start_thread(thread, how, body, of);
}
