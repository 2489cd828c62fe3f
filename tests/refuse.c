/* Stands between a program and the C library: it counts how often the program asks for memory, reads its standard input,
 * writes its standard output and starts a thread, and refuses those calls that it is told to. shim.py builds it, lends it
 * to a program by LD_PRELOAD, and names a file of `struct orders` in REFUSE. */
#define _GNU_SOURCE
#include <dlfcn.h>
#include <errno.h>
#include <fcntl.h>
#include <pthread.h>
#include <stdlib.h>
#include <string.h>
#include <sys/mman.h>
#include <sys/syscall.h>
#include <unistd.h>

enum kind { GROWTH, READ, WRITE, THREAD, KINDS };

struct orders {
    /* How many calls of each kind there were. */
    long count[KINDS];
    /* The first and the last call of each kind that is refused, counted from 1; 0 where none is. */
    long first[KINDS], last[KINDS];
    /* The errno of a read or a write that is refused. */
    long error;
    /* The most bytes that a read or a write moves; 0 where there is no such limit. */
    long most;
    /* The most memory that the program held at a time, in KiB, once it has ended. */
    long peak;
};

static struct orders *orders;

extern void *__libc_malloc(size_t), *__libc_calloc(size_t, size_t), *__libc_realloc(void *, size_t);

__attribute__((constructor)) static void begin(void) {
    const char *name = getenv("REFUSE");
    int file = name ? open(name, O_RDWR | O_CLOEXEC) : -1;
    void *mapped = file < 0 ? MAP_FAILED : mmap(0, sizeof *orders, PROT_READ | PROT_WRITE, MAP_SHARED, file, 0);
    if (mapped == MAP_FAILED)
        _exit(120);
    close(file);
    orders = mapped;
}

/* Asks for no memory itself. getrusage would tell of the process too that started this one. */
__attribute__((destructor)) static void end(void) {
    char status[8192];
    int file = orders ? open("/proc/self/status", O_RDONLY | O_CLOEXEC) : -1;
    long bytes = file < 0 ? -1 : syscall(SYS_read, file, status, sizeof status - 1);
    if (bytes < 0)
        return;
    status[bytes] = 0;
    const char *peak = strstr(status, "VmHWM:");
    if (peak)
        orders->peak = strtol(peak + 6, NULL, 10);
}

static int is_refused(enum kind kind) {
    if (!orders)
        return 0;
    long number = __atomic_add_fetch(&orders->count[kind], 1, __ATOMIC_SEQ_CST);
    return orders->first[kind] && number >= orders->first[kind] && number <= orders->last[kind];
}

static size_t moved(size_t bytes) {
    return orders && orders->most && bytes > (size_t)orders->most ? (size_t)orders->most : bytes;
}

/* The C library relies on the errno of its own growths, as where it makes a thread. */
static void *no_memory(void) {
    errno = ENOMEM;
    return NULL;
}

void *malloc(size_t bytes) {
    return is_refused(GROWTH) ? no_memory() : __libc_malloc(bytes);
}

void *calloc(size_t count, size_t bytes) {
    return is_refused(GROWTH) ? no_memory() : __libc_calloc(count, bytes);
}

void *realloc(void *old, size_t bytes) {
    return is_refused(GROWTH) ? no_memory() : __libc_realloc(old, bytes);
}

ssize_t read(int file, void *into, size_t bytes) {
    if (file == 0 && is_refused(READ)) {
        errno = orders->error;
        return -1;
    }
    return syscall(SYS_read, file, into, file == 0 ? moved(bytes) : bytes);
}

ssize_t write(int file, const void *from, size_t bytes) {
    if (file == 1 && is_refused(WRITE)) {
        errno = orders->error;
        return -1;
    }
    return syscall(SYS_write, file, from, file == 1 ? moved(bytes) : bytes);
}

int pthread_create(pthread_t *thread, const pthread_attr_t *how, void *(*work)(void *), void *given) {
    int (*create)(pthread_t *, const pthread_attr_t *, void *(*)(void *), void *) = dlsym(RTLD_NEXT, "pthread_create");
    return is_refused(THREAD) ? EAGAIN : create(thread, how, work, given);
}
