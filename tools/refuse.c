// Stands before a program's C library by LD_PRELOAD and refuses one call, at which it writes a byte on the descriptor that
// REFUSE_TOLD names. Either the call of malloc, calloc or realloc whose number, counted from 1, REFUSE names; or the start of a thread
// whose number REFUSE_THREAD names; or the read or write whose number REFUSE_CALL names, of those of the file REFUSE_STREAM (`out`:
// standard output): it fails, or takes no byte where REFUSE_FULL is set. So does that of REFUSE_OTHER, counted by itself. REFUSE_MOST
// is how many bytes a read or a write moves at most.
#define _GNU_SOURCE
#include <dlfcn.h>
#include <errno.h>
#include <pthread.h>
#include <stdatomic.h>
#include <stdio.h>
#include <stdlib.h>
#include <string.h>
#include <sys/syscall.h>
#include <unistd.h>

void *__libc_malloc(size_t size);
void *__libc_calloc(size_t count, size_t size);
void *__libc_realloc(void *block, size_t size);

typedef int starting(pthread_t *, const pthread_attr_t *, void *(*)(void *), void *);

static atomic_long allocations, starts, calls[2];
static long refused, refused_start, refused_call;
static starting *start;
static size_t most;
static int told, is_full;
static const char *streams[2];

static long number_of(const char *name) {
    const char *word = getenv(name);
    return word ? atol(word) : 0;
}

__attribute__((constructor)) static void begin(void) {
    told = getenv("REFUSE_TOLD") ? (int)number_of("REFUSE_TOLD") : -1;
    start = (starting *)dlsym(RTLD_NEXT, "pthread_create");
    refused_start = number_of("REFUSE_THREAD");
    refused_call = number_of("REFUSE_CALL");
    most = (size_t)number_of("REFUSE_MOST");
    is_full = getenv("REFUSE_FULL") != 0;
    streams[0] = getenv("REFUSE_STREAM");
    streams[1] = getenv("REFUSE_OTHER");
    refused = number_of("REFUSE");
}

static void tell(void) {
    if (told >= 0 && syscall(SYS_write, told, "r", 1) != 1)
        abort();
}

static int is_refused(void) {
    if (refused == 0 || atomic_fetch_add(&allocations, 1) + 1 != refused)
        return 0;
    tell();
    errno = ENOMEM;
    return 1;
}

void *malloc(size_t size) { return is_refused() ? 0 : __libc_malloc(size); }

void *calloc(size_t count, size_t size) { return is_refused() ? 0 : __libc_calloc(count, size); }

void *realloc(void *block, size_t size) { return is_refused() ? 0 : __libc_realloc(block, size); }

int pthread_create(pthread_t *thread, const pthread_attr_t *how, void *(*run)(void *), void *with) {
    if (refused_start == 0 || atomic_fetch_add(&starts, 1) + 1 != refused_start)
        return start(thread, how, run, with);
    tell();
    return EAGAIN;
}

// Whether a descriptor is a stream's.
static int is_stream(int descriptor, const char *stream) {
    char link[64], name[4096];
    if (!stream)
        return 0;
    if (strcmp(stream, "out") == 0)
        return descriptor == 1;
    snprintf(link, sizeof link, "/proc/self/fd/%d", descriptor);
    ssize_t length = readlink(link, name, sizeof name - 1);
    if (length < 0)
        return 0;
    name[length] = 0;
    return strcmp(name, stream) == 0;
}

// Whether this call is one that is refused.
static int is_refused_call(int descriptor) {
    for (int k = 0; refused_call != 0 && k < 2; k++)
        if (is_stream(descriptor, streams[k]) && atomic_fetch_add(&calls[k], 1) + 1 == refused_call) {
            tell();
            errno = EIO;
            return 1;
        }
    return 0;
}

static size_t at_most(int descriptor, size_t count) { return most && descriptor != 2 && count > most ? most : count; }

ssize_t read(int descriptor, void *into, size_t count) {
    if (is_refused_call(descriptor))
        return -1;
    return syscall(SYS_read, descriptor, into, at_most(descriptor, count));
}

ssize_t write(int descriptor, const void *from, size_t count) {
    if (is_refused_call(descriptor))
        return is_full ? 0 : -1;
    return syscall(SYS_write, descriptor, from, at_most(descriptor, count));
}
