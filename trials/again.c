/* Preloaded into a program by `bytes`. In the place of running once, the program runs once for each command
   on each source that it is handed, always in a copy of the process as it stands before its first own
   instruction: so it is loaded and linked but once.

   Its words are: seconds, bytes of memory and bytes of output that each run may take, and the commands.
   Standard input has, for each source, its length and its bytes. Standard output gets, for each command on
   each source, the status (less than 0: the signal that ended it), the length of what the command wrote,
   and that. Lengths and statuses are 32-bit numbers. */
#define _GNU_SOURCE
#include <dlfcn.h>
#include <fcntl.h>
#include <stdint.h>
#include <stdio.h>
#include <stdlib.h>
#include <sys/mman.h>
#include <sys/resource.h>
#include <sys/wait.h>
#include <unistd.h>

typedef void (*step)(void);
typedef int (*start)(step, int, char **, step, step, step, void *);

static int source, output, nothing;
static char path_of_source[40];

static void fail(const char *what)
{
    perror(what);
    _exit(125);
}

static void limit(int what, const char *most)
{
    struct rlimit both;

    both.rlim_cur = both.rlim_max = strtoull(most, NULL, 10);
    if (setrlimit(what, &both))
        fail("setrlimit");
}

static void empty(int file)
{
    if (ftruncate(file, 0) || lseek(file, 0, SEEK_SET))
        fail("ftruncate");
}

/* Makes this copy of the process what it would be for one run: its files and its limits. */
static void prepare(char **words)
{
    if (dup2(nothing, 0) < 0 || dup2(output, 1) < 0)
        fail("dup2");
    close(nothing);
    close(output);
    limit(RLIMIT_AS, words[2]);
    limit(RLIMIT_FSIZE, words[3]);
    alarm(strtoul(words[1], NULL, 10));
}

static void put(const void *bytes, size_t size)
{
    if (fwrite(bytes, 1, size, stdout) != size)
        fail("output");
}

static void put_output(void)
{
    uint32_t length = (uint32_t)lseek(output, 0, SEEK_END);
    void *bytes;

    put(&length, sizeof length);
    if (length == 0)
        return;
    bytes = mmap(NULL, length, PROT_READ, MAP_SHARED, output, 0);
    if (bytes == MAP_FAILED)
        fail("mmap");
    put(bytes, length);
    munmap(bytes, length);
}

/* Runs the program on the source. In the copy it answers 1, and the program is to begin there. */
static int run(char **words)
{
    int how;
    int32_t status;
    pid_t child;

    empty(output);
    fflush(stdout);
    child = fork();
    if (child == 0) {
        prepare(words);
        return 1;
    }
    if (child < 0 || waitpid(child, &how, 0) != child)
        fail("fork");
    status = WIFEXITED(how) ? WEXITSTATUS(how) : -WTERMSIG(how);
    put(&status, sizeof status);
    put_output();
    return 0;
}

/* Takes the next source; whether there was one. */
static int next_source(void)
{
    uint32_t length;
    char *bytes;

    if (fread(&length, sizeof length, 1, stdin) != 1)
        return 0;
    bytes = malloc(length + 1);
    if (!bytes || fread(bytes, 1, length, stdin) != length)
        fail("input");
    empty(source);
    if (write(source, bytes, length) != (ssize_t)length)
        fail("source");
    free(bytes);
    return 1;
}

static void begin(int count)
{
    source = memfd_create("source", 0);
    output = memfd_create("output", 0);
    nothing = open("/dev/null", O_RDONLY);
    if (count < 5 || source < 0 || output < 0 || nothing < 0)
        fail("again");
    snprintf(path_of_source, sizeof path_of_source, "/proc/self/fd/%d", source);
}

/* The command with which the program is to begin, in a copy; in the process itself none, at the end. */
static char *command(int count, char **words)
{
    begin(count);
    while (next_source())
        for (int at = 4; at < count; at++)
            if (run(words))
                return words[at];
    return NULL;
}

int __libc_start_main(step first, int count, char **words, step init, step fini, step end, void *stack)
{
    start go_on = (start)dlsym(RTLD_NEXT, "__libc_start_main");
    char *own[5] = {words[0], command(count, words), path_of_source};

    if (!own[1])
        exit(fflush(stdout) ? 125 : 0);
    return go_on(first, 3, own, init, fini, end, stack);
}
