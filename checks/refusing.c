/* Stands between a program and its allocator, its devices and its threads: counts the calls that ask for memory, and refuses some of them;
   counts the reads and writes of the kinds that are named, and has some of them fail, or pass one byte alone; and counts the threads that
   are begun, and refuses some of them.

   It is preloaded (LD_PRELOAD); memory.py builds it and says what is refused. OVS_REFUSALS names a file of at least the size of a struct
   rules, which this program maps and the check maps too: so what the check writes there holds from the next call on, and what it reads
   there is how far the program is. Without that file nothing is counted or refused.

   Calls are numbered from 1, over all threads, in the order in which they come. A refused call gives what malloc(3) says of want of memory:
   null and ENOMEM, and what was to grow is left as it was. Giving memory back isn't a call for it. A read or write that fails does nothing,
   and a thread that is refused isn't begun (EAGAIN). */
#define _GNU_SOURCE
#include <dlfcn.h>
#include <errno.h>
#include <fcntl.h>
#include <pthread.h>
#include <stdatomic.h>
#include <stdbool.h>
#include <stdint.h>
#include <stdlib.h>
#include <string.h>
#include <sys/mman.h>
#include <sys/socket.h>
#include <sys/stat.h>
#include <sys/syscall.h>
#include <unistd.h>

enum kind { MALLOC, CALLOC, REALLOC, ALIGNED, KINDS };

struct rules {
    /* What is refused: the calls from the first to the last of these numbers, and those for more bytes than `most`. */
    _Atomic uint64_t first, last, most;
    /* What was seen: calls, those that were refused, the most bytes that one call asked for, and the calls of each kind. */
    _Atomic uint64_t calls, refused, largest, of_kind[KINDS];
    /* Of the reads and writes of these kinds, those from the first to the last of these numbers: each fails so, or passes one byte where it
       is 0. Those of one file handle alone are numbered, or of all where it is UINT64_MAX. */
    _Atomic uint64_t kinds, failing_first, failing_last, error, file;
    /* What was seen: calls of those kinds, and those that failed or passed one byte. */
    _Atomic uint64_t passed, failed;
    /* The threads from the first to the last of these numbers are refused; how many were asked for. */
    _Atomic uint64_t thread_first, thread_last, threads;
};

enum device { READ = 1, WRITE = 2, RECEIVE = 4, SEND = 8 };

/* The C library's own functions, by the names that it keeps for those who stand before them. */
void *__libc_malloc(size_t);
void *__libc_calloc(size_t, size_t);
void *__libc_realloc(void *, size_t);
void *__libc_memalign(size_t, size_t);

static struct rules *rules;

/* A program may be started by a shell, which looks at the same environment; it isn't the one that is meant. */
static bool is_shell(void)
{
    const char *name = program_invocation_short_name;
    return strcmp(name, "sh") == 0 || strcmp(name, "dash") == 0 || strcmp(name, "bash") == 0;
}

__attribute__((constructor)) static void begin(void)
{
    const char *path = getenv("OVS_REFUSALS");
    struct stat found;
    if (path == NULL || is_shell())
        return;
    int file = open(path, O_RDWR | O_CLOEXEC);
    if (file < 0)
        return;
    if (fstat(file, &found) == 0 && (size_t)found.st_size >= sizeof *rules) {
        void *mapped = mmap(NULL, sizeof *rules, PROT_READ | PROT_WRITE, MAP_SHARED, file, 0);
        rules = mapped == MAP_FAILED ? NULL : mapped;
    }
    close(file);
}

static void note_size(size_t size)
{
    uint64_t largest = atomic_load(&rules->largest);
    while (size > largest && !atomic_compare_exchange_weak(&rules->largest, &largest, size))
        ;
}

/* Counts a call, and says whether it is given what it asks for. */
static bool is_given(enum kind kind, size_t size)
{
    if (rules == NULL)
        return true;
    uint64_t number = atomic_fetch_add(&rules->calls, 1) + 1;
    atomic_fetch_add(&rules->of_kind[kind], 1);
    note_size(size);
    bool is_named = number >= atomic_load(&rules->first) && number <= atomic_load(&rules->last);
    if (!is_named && size <= atomic_load(&rules->most))
        return true;
    atomic_fetch_add(&rules->refused, 1);
    errno = ENOMEM;
    return false;
}

/* The product of a count and a size, or the greatest size where it is none. */
static size_t product(size_t count, size_t size)
{
    size_t all;
    return __builtin_mul_overflow(count, size, &all) ? SIZE_MAX : all;
}

void *malloc(size_t size)
{
    return is_given(MALLOC, size) ? __libc_malloc(size) : NULL;
}

void *calloc(size_t count, size_t size)
{
    return is_given(CALLOC, product(count, size)) ? __libc_calloc(count, size) : NULL;
}

void *realloc(void *old, size_t size)
{
    return is_given(REALLOC, size) ? __libc_realloc(old, size) : NULL;
}

void *reallocarray(void *old, size_t count, size_t size)
{
    return is_given(REALLOC, product(count, size)) ? __libc_realloc(old, product(count, size)) : NULL;
}

void *memalign(size_t alignment, size_t size)
{
    return is_given(ALIGNED, size) ? __libc_memalign(alignment, size) : NULL;
}

void *aligned_alloc(size_t alignment, size_t size)
{
    return memalign(alignment, size);
}

int posix_memalign(void **given, size_t alignment, size_t size)
{
    if (alignment % sizeof(void *) != 0 || (alignment & (alignment - 1)) != 0 || alignment == 0)
        return EINVAL;
    int before = errno;
    void *made = memalign(alignment, size);
    errno = before;
    if (made == NULL)
        return ENOMEM;
    *given = made;
    return 0;
}

void *valloc(size_t size)
{
    return memalign((size_t)sysconf(_SC_PAGESIZE), size);
}

void *pvalloc(size_t size)
{
    size_t page = (size_t)sysconf(_SC_PAGESIZE);
    return memalign(page, (size + page - 1) & ~(page - 1));
}

/* Whether calls of this kind, of this file handle, are numbered. */
static bool is_meant(enum device kind, int file)
{
    uint64_t only = rules == NULL ? 0 : atomic_load(&rules->file);
    return rules != NULL && (atomic_load(&rules->kinds) & kind) != 0 && (only == UINT64_MAX || only == (uint64_t)file);
}

/* Counts a read or write of so many bytes, and says whether it goes on, with as many as it may pass. */
static bool goes_on(enum device kind, int file, size_t *count)
{
    if (!is_meant(kind, file))
        return true;
    uint64_t number = atomic_fetch_add(&rules->passed, 1) + 1;
    if (number < atomic_load(&rules->failing_first) || number > atomic_load(&rules->failing_last))
        return true;
    atomic_fetch_add(&rules->failed, 1);
    errno = (int)atomic_load(&rules->error);
    if (errno != 0)
        return false;
    if (*count > 1)
        *count = 1;
    return true;
}

ssize_t read(int file, void *to, size_t count)
{
    return goes_on(READ, file, &count) ? syscall(SYS_read, file, to, count) : -1;
}

ssize_t write(int file, const void *from, size_t count)
{
    return goes_on(WRITE, file, &count) ? syscall(SYS_write, file, from, count) : -1;
}

ssize_t recv(int socket, void *to, size_t count, int flags)
{
    return goes_on(RECEIVE, socket, &count) ? syscall(SYS_recvfrom, socket, to, count, flags, NULL, NULL) : -1;
}

ssize_t send(int socket, const void *from, size_t count, int flags)
{
    return goes_on(SEND, socket, &count) ? syscall(SYS_sendto, socket, from, count, flags, NULL, 0) : -1;
}

int pthread_create(pthread_t *thread, const pthread_attr_t *attributes, void *(*run)(void *), void *given)
{
    int (*create)(pthread_t *, const pthread_attr_t *, void *(*)(void *), void *) = dlsym(RTLD_NEXT, "pthread_create");
    if (rules != NULL) {
        uint64_t number = atomic_fetch_add(&rules->threads, 1) + 1;
        if (number >= atomic_load(&rules->thread_first) && number <= atomic_load(&rules->thread_last))
            return EAGAIN;
    }
    return create(thread, attributes, run, given);
}
