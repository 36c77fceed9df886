/* Preloaded into a program by `failures` and `.ci/allocations`. It refuses calls and makes reads and
   writes short, as these words of the environment say:

   REFUSE=CALL:N   the Nth call of CALL fails; REFUSE=CALL:N+ that one and each behind it. CALL is memory
                   (malloc and realloc), open, read, write, sync, rename or thread. Standard error isn't
                   counted.
   REASON=E        is what errno says of such a call, in place of the usual; with 0 a write that is refused
                   doesn't fail, and takes no byte.
   FEW=K           each read and each write moves at most K bytes.
   OPENED=FILE     gets a line with the name of each file that is opened, or that would be.
   REFUSED=FILE    is made when the first call is refused. */
#define _GNU_SOURCE
#include <dlfcn.h>
#include <errno.h>
#include <fcntl.h>
#include <pthread.h>
#include <stdarg.h>
#include <stdatomic.h>
#include <stdlib.h>
#include <string.h>
#include <unistd.h>

enum call { MEMORY, OPEN, READ, WRITE, SYNC, RENAME, THREAD, CALLS };

static const char *const names[CALLS] = {"memory", "open", "read", "write", "sync", "rename", "thread"};
static atomic_ulong made[CALLS];
static unsigned long first[CALLS];
static int and_on[CALLS];
static size_t few;
static const char *mark;
static const char *notes;
static int given = -1;

static int (*real_open)(const char *, int, ...);
static ssize_t (*real_write)(int, const void *, size_t);

__attribute__((constructor)) static void begin(void)
{
    const char *refuse = getenv("REFUSE");
    const char *bytes = getenv("FEW");
    const char *reason = getenv("REASON");

    real_open = dlsym(RTLD_NEXT, "open");
    real_write = dlsym(RTLD_NEXT, "write");
    mark = getenv("REFUSED");
    notes = getenv("OPENED");
    given = reason ? atoi(reason) : -1;
    few = bytes ? strtoul(bytes, 0, 10) : 0;
    for (int call = 0; refuse && call < CALLS; call++) {
        size_t length = strlen(names[call]);
        if (strncmp(refuse, names[call], length) == 0 && refuse[length] == ':') {
            char *end;
            first[call] = strtoul(refuse + length + 1, &end, 10);
            and_on[call] = *end == '+';
        }
    }
}

/* Whether this call is refused, which errno then says. */
static int is_refused(enum call call, int reason)
{
    unsigned long number;

    if (!first[call])
        return 0;
    number = atomic_fetch_add(&made[call], 1) + 1;
    if (number != first[call] && !(and_on[call] && number > first[call]))
        return 0;
    if (number == first[call] && mark)
        close(real_open(mark, O_WRONLY | O_CREAT, 0600));
    errno = given > 0 ? given : reason;
    return 1;
}

/* Notes that a file of this name is to be opened. */
static void note(const char *path)
{
    int file;

    if (!notes)
        return;
    file = real_open(notes, O_WRONLY | O_CREAT | O_APPEND, 0600);
    if (real_write(file, path, strlen(path)) < 0 || real_write(file, "\n", 1) < 0)
        abort();
    close(file);
}

static size_t at_most(size_t bytes)
{
    return few && bytes > few ? few : bytes;
}

void *malloc(size_t size)
{
    static void *(*real)(size_t);
    if (!real)
        real = dlsym(RTLD_NEXT, "malloc");
    return is_refused(MEMORY, ENOMEM) ? 0 : real(size);
}

void *realloc(void *old, size_t size)
{
    static void *(*real)(void *, size_t);
    if (!real)
        real = dlsym(RTLD_NEXT, "realloc");
    return is_refused(MEMORY, ENOMEM) ? 0 : real(old, size);
}

int open(const char *path, int flags, ...)
{
    va_list rest;
    mode_t mode;

    va_start(rest, flags);
    mode = flags & O_CREAT ? va_arg(rest, mode_t) : 0;
    va_end(rest);
    note(path);
    return is_refused(OPEN, EMFILE) ? -1 : real_open(path, flags, mode);
}

ssize_t read(int file, void *bytes, size_t size)
{
    static ssize_t (*real)(int, void *, size_t);
    if (!real)
        real = dlsym(RTLD_NEXT, "read");
    return is_refused(READ, EIO) ? -1 : real(file, bytes, at_most(size));
}

ssize_t write(int file, const void *bytes, size_t size)
{
    if (file == STDERR_FILENO)
        return real_write(file, bytes, size);
    if (is_refused(WRITE, ENOSPC))
        return given ? -1 : 0;
    return real_write(file, bytes, at_most(size));
}

int fsync(int file)
{
    static int (*real)(int);
    if (!real)
        real = dlsym(RTLD_NEXT, "fsync");
    return is_refused(SYNC, EIO) ? -1 : real(file);
}

int rename(const char *from, const char *to)
{
    static int (*real)(const char *, const char *);
    if (!real)
        real = dlsym(RTLD_NEXT, "rename");
    return is_refused(RENAME, EACCES) ? -1 : real(from, to);
}

int pthread_create(pthread_t *thread, const pthread_attr_t *how, void *(*begins)(void *), void *with)
{
    static int (*real)(pthread_t *, const pthread_attr_t *, void *(*)(void *), void *);
    if (!real)
        real = dlsym(RTLD_NEXT, "pthread_create");
    return is_refused(THREAD, EAGAIN) ? EAGAIN : real(thread, how, begins, with);
}
