/* Loaded before the program (LD_PRELOAD), this makes calls of the system fail as the environment asks. It knows nothing
 * of the program: `tools/refused` says which calls, and what the program owes then.
 *
 *   REFUSED=KIND:FIRST:COUNT:ERROR   calls number FIRST to FIRST + COUNT - 1 of the kind, from 0, fail with that errno.
 *                                    A write with errno 0 takes nothing instead.
 *   REFUSED_SHORT=SEED               reads and writes are interrupted or cut short, by a generator of that seed
 *   REFUSED_PIECE=OCTETS             no read gives more octets
 *   REFUSED_CALLS=FILE               gets the number of calls of each kind, at the exit
 *   REFUSED_SECONDS=N                a run that takes so long is ended
 */
#define _GNU_SOURCE
#include <dlfcn.h>
#include <errno.h>
#include <fcntl.h>
#include <pthread.h>
#include <stdarg.h>
#include <stdatomic.h>
#include <stdio.h>
#include <stdlib.h>
#include <string.h>
#include <sys/syscall.h>
#include <unistd.h>

enum kind { MEMORY, THREAD, OPEN, INPUT, OUTPUT, REPORT, PROFILE, KINDS };

static const char *const KIND_NAMES[KINDS] = {"memory", "thread", "open", "input", "output", "report", "profile"};

static atomic_ulong calls[KINDS];
static enum kind refused = KINDS;
static unsigned long first, count;
static int error;
static unsigned long long state;
static size_t piece;
static volatile int ready;

typedef int create_call(pthread_t *, const pthread_attr_t *, void *(*)(void *), void *);

static ssize_t (*read_on)(int, void *, size_t);
static ssize_t (*write_on)(int, const void *, size_t);
static int (*open_on)(const char *, int, ...);
static create_call *create_on;

/* The allocator's own names. Those of the loader may not be looked up while memory is asked for. */
void *__libc_malloc(size_t);
void *__libc_calloc(size_t, size_t);
void *__libc_realloc(void *, size_t);

/* Reads what the environment asks. A request that can't be read is no request, so it ends the run. */
__attribute__((constructor)) static void begin(void)
{
    char name[16] = "";
    const char *asked = getenv("REFUSED");
    const char *seed = getenv("REFUSED_SHORT");
    const char *most = getenv("REFUSED_PIECE");
    const char *seconds = getenv("REFUSED_SECONDS");

    read_on = (ssize_t(*)(int, void *, size_t))dlsym(RTLD_NEXT, "read");
    write_on = (ssize_t(*)(int, const void *, size_t))dlsym(RTLD_NEXT, "write");
    open_on = (int (*)(const char *, int, ...))dlsym(RTLD_NEXT, "open");
    create_on = (create_call *)dlsym(RTLD_NEXT, "pthread_create");
    if (asked && *asked) {
        if (sscanf(asked, "%15[a-z]:%lu:%lu:%d", name, &first, &count, &error) != 4)
            _exit(125);
        for (refused = 0; refused < KINDS && strcmp(name, KIND_NAMES[refused]) != 0;)
            refused++;
        if (refused == KINDS)
            _exit(125);
    }
    if (seed && *seed)
        state = strtoull(seed, NULL, 10) * 2 + 1;
    if (most && *most)
        piece = strtoull(most, NULL, 10);
    if (seconds && *seconds)
        alarm((unsigned)strtoul(seconds, NULL, 10));
    ready = 1;
}

/* Writes the numbers of calls, once. */
static void tell(void)
{
    const char *file = getenv("REFUSED_CALLS");
    FILE *out;

    if (!ready)
        return;
    ready = 0;
    if (!file || !*file || !(out = fopen(file, "w")))
        return;
    for (int kind = 0; kind < KINDS; kind++)
        fprintf(out, "%s %lu\n", KIND_NAMES[kind], atomic_load(&calls[kind]));
    fclose(out);
}

/* A program ends by a return from `main` or at once. */
__attribute__((destructor)) static void end(void) { tell(); }

void _exit(int status)
{
    tell();
    syscall(SYS_exit_group, status);
    __builtin_unreachable();
}

/* Counts the call, and tells whether it is to fail. */
static int refuses(enum kind kind)
{
    if (!ready)
        return 0;
    unsigned long number = atomic_fetch_add(&calls[kind], 1);
    return kind == refused && number >= first && number - first < count;
}

void *malloc(size_t size)
{
    if (refuses(MEMORY)) {
        errno = ENOMEM;
        return NULL;
    }
    return __libc_malloc(size);
}

void *calloc(size_t number, size_t size)
{
    if (refuses(MEMORY)) {
        errno = ENOMEM;
        return NULL;
    }
    return __libc_calloc(number, size);
}

void *realloc(void *block, size_t size)
{
    if (refuses(MEMORY)) {
        errno = ENOMEM;
        return NULL;
    }
    return __libc_realloc(block, size);
}

int pthread_create(pthread_t *thread, const pthread_attr_t *how, void *(*job)(void *), void *given)
{
    return refuses(THREAD) ? error : create_on(thread, how, job, given);
}

int open(const char *path, int flags, ...)
{
    va_list more;
    va_start(more, flags);
    int mode = flags & O_CREAT ? va_arg(more, int) : 0;
    va_end(more);
    if (refuses(OPEN)) {
        errno = error;
        return -1;
    }
    return open_on(path, flags, mode);
}

/* The next word of a 64 bit generator, xorshift with a multiplication. */
static unsigned long long next(void)
{
    state ^= state >> 12;
    state ^= state << 25;
    state ^= state >> 27;
    return state * 2685821657736338717ULL >> 16;
}

/* How many octets a call of so many passes: 0 where it is to be interrupted. */
static size_t passed(size_t octets)
{
    if (!state || octets == 0)
        return octets;
    switch (next() % 4) {
    case 0:
        return 0;
    case 1:
        return 1;
    case 2:
        return 1 + next() % octets;
    default:
        return octets;
    }
}

ssize_t read(int file, void *into, size_t octets)
{
    if (refuses(file == STDIN_FILENO ? INPUT : PROFILE)) {
        errno = error;
        return -1;
    }
    size_t some = passed(octets);
    if (some == 0 && octets > 0) {
        errno = EINTR;
        return -1;
    }
    return read_on(file, into, piece && piece < some ? piece : some);
}

static ssize_t put(int file, const void *from, size_t octets)
{
    if (refuses(file == STDERR_FILENO ? REPORT : OUTPUT)) {
        errno = error;
        return error ? -1 : 0;
    }
    size_t some = passed(octets);
    if (some == 0 && octets > 0) {
        errno = EINTR;
        return -1;
    }
    return write_on(file, from, some);
}

ssize_t write(int file, const void *from, size_t octets) { return put(file, from, octets); }

/* The same call by its other name, which some programs link. */
ssize_t __write(int file, const void *from, size_t octets) { return put(file, from, octets); }
