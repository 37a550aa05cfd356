/* Laid before the C library (LD_PRELOAD), it refuses one allocation of a program, or all from one on, or fails its reads and writes:
 *   REFUSE_ALLOCATION=N   the Nth call of malloc or realloc gives nothing
 *   FAIL_READ=N           the Nth read fails
 *   FAIL_WRITE=N          the Nth write fails; with WRITE_NOTHING set, it takes 0 bytes
 *   FAIL_SYNC=N           the Nth sync of a file or a folder fails
 *   FAIL_SYNC_WHILE=FILE  every sync fails while this file is there
 *   SLOW_SYNC=N           every sync takes N microseconds more
 *   LATE_WRITES           what is written to a file of a room waits in memory for its next sync: a kill takes it away, as a power cut may,
 *                         and so does a sync that fails
 *   FAIL_LINK=N           the Nth time that a file gets another name fails
 *   FAIL_RENAME=N         the Nth time that a file is renamed to that of a room fails
 *   FAIL_THREAD=N         the Nth thread can't be made
 *   REFUSE_ON             each later call of the same kind is refused, too
 *   SHORT_READS=N         every read that isn't refused gives at most N bytes
 *   SHORT_WRITES          every write that isn't refused takes one byte
 *   TELL=FILE             a file that gets a byte for each call that is refused
 *   DONE=FILE             a file that gets a letter for each time that a folder is synced (s), a file gets another name (l), or is renamed to
 *                         that of a room (r)
 *   COUNT=FILE            a file that gets the number of allocations at the end, where one is refused or would be
 * Reads and writes are those of descriptors 0 and 1. */
#define _GNU_SOURCE
#include <dlfcn.h>
#include <errno.h>
#include <fcntl.h>
#include <pthread.h>
#include <stdatomic.h>
#include <stdio.h>
#include <stdlib.h>
#include <string.h>
#include <sys/stat.h>
#include <unistd.h>

/* The C library's own function of this name. */
#define UNDER(name) \
    static __typeof__(&name) under; \
    if (!under) \
        under = dlsym(RTLD_NEXT, #name)

static atomic_long allocations, reads, writes, syncs, links, renames, threads;

/* Appends a letter to the file of this name, where one is told. */
static void tell(const char *name, const char *letter)
{
    UNDER(write);
    const char *file = getenv(name);
    int to = file ? open(file, O_WRONLY | O_APPEND) : -1;
    if (to >= 0) {
        under(to, letter, 1);
        close(to);
    }
}

/* Counts the call, and whether it is to be refused: that is told, and leaves the error. */
static int is_refused(atomic_long *calls, const char *name, int error)
{
    const char *number = getenv(name);
    if (!number)
        return 0;
    long at = atomic_fetch_add(calls, 1) + 1, first = atol(number);
    if (at < first || (at > first && !getenv("REFUSE_ON")))
        return 0;
    tell("TELL", "x");
    errno = error;
    return 1;
}

__attribute__((destructor)) static void count(void)
{
    const char *name = getenv("COUNT");
    FILE *file = name ? fopen(name, "w") : NULL;
    if (file) {
        fprintf(file, "%ld", (long)allocations);
        fclose(file);
    }
}

void *malloc(size_t size)
{
    UNDER(malloc);
    return is_refused(&allocations, "REFUSE_ALLOCATION", ENOMEM) ? NULL : under(size);
}

void *realloc(void *old, size_t size)
{
    UNDER(realloc);
    return is_refused(&allocations, "REFUSE_ALLOCATION", ENOMEM) ? NULL : under(old, size);
}

ssize_t read(int from, void *bytes, size_t size)
{
    UNDER(read);
    if (from == 0 && is_refused(&reads, "FAIL_READ", EIO))
        return -1;
    const char *most = from == 0 ? getenv("SHORT_READS") : NULL;
    return under(from, bytes, most && size > (size_t)atol(most) ? (size_t)atol(most) : size);
}

/* What was written late, by descriptor. One thread at a time writes to a file. */
enum { FILES = 4096 };
static struct {
    char *bytes;
    size_t size;
} late[FILES];

/* Whether what is written to the file waits: it is a room's. */
static int is_late(int file)
{
    char link[64], path[4096];
    if (!getenv("LATE_WRITES") || file < 0 || file >= FILES)
        return 0;
    snprintf(link, sizeof link, "/proc/self/fd/%d", file);
    ssize_t length = readlink(link, path, sizeof path);
    return length > 4 && (!memcmp(path + length - 4, ".ops", 4) || !memcmp(path + length - 4, ".new", 4));
}

/* Writes what waits to the file, or takes it away. */
static int settle(int file, int is_written)
{
    UNDER(write);
    if (file < 0 || file >= FILES)
        return 0;
    size_t size = late[file].size;
    late[file].size = 0;
    return is_written && size && under(file, late[file].bytes, size) != (ssize_t)size ? -1 : 0;
}

ssize_t write(int to, const void *bytes, size_t size)
{
    UNDER(write);
    if (is_late(to)) {
        static __typeof__(&realloc) grow;
        if (!grow)
            grow = dlsym(RTLD_NEXT, "realloc");
        char *grown = grow(late[to].bytes, late[to].size + size);
        if (!grown)
            return -1;
        memcpy(grown + late[to].size, bytes, size);
        late[to].bytes = grown;
        late[to].size += size;
        return size;
    }
    if (to == 1 && is_refused(&writes, "FAIL_WRITE", EIO))
        return getenv("WRITE_NOTHING") ? 0 : -1;
    return under(to, bytes, to == 1 && size > 1 && getenv("SHORT_WRITES") ? 1 : size);
}

/* Whether the sync fails; if not, it is as slow as is wanted, and all that waits was written. */
static int sync_fails(int file)
{
    const char *slow = getenv("SLOW_SYNC"), *fails = getenv("FAIL_SYNC_WHILE");
    if (slow)
        usleep(atol(slow));
    if (is_refused(&syncs, "FAIL_SYNC", EIO) || (fails && !access(fails, F_OK))) {
        settle(file, 0);
        errno = EIO;
        return 1;
    }
    return settle(file, 1);
}

int fsync(int file)
{
    UNDER(fsync);
    struct stat known;
    if (!fstat(file, &known) && S_ISDIR(known.st_mode))
        tell("DONE", "s");
    return sync_fails(file) ? -1 : under(file);
}

int fdatasync(int file)
{
    UNDER(fdatasync);
    return sync_fails(file) ? -1 : under(file);
}

int ftruncate(int file, off_t size)
{
    UNDER(ftruncate);
    settle(file, 1);
    return under(file, size);
}

int link(const char *from, const char *to)
{
    UNDER(link);
    tell("DONE", "l");
    return is_refused(&links, "FAIL_LINK", EPERM) ? -1 : under(from, to);
}

int linkat(int at, const char *from, int other, const char *to, int how)
{
    UNDER(linkat);
    tell("DONE", "l");
    return is_refused(&links, "FAIL_LINK", EPERM) ? -1 : under(at, from, other, to, how);
}

int rename(const char *from, const char *to)
{
    UNDER(rename);
    size_t length = strlen(to);
    int is_room = length > 4 && !memcmp(to + length - 4, ".ops", 4);
    if (is_room)
        tell("DONE", "r");
    return is_room && is_refused(&renames, "FAIL_RENAME", EIO) ? -1 : under(from, to);
}

int pthread_create(pthread_t *thread, const pthread_attr_t *how, void *(*run)(void *), void *with)
{
    UNDER(pthread_create);
    return is_refused(&threads, "FAIL_THREAD", EAGAIN) ? EAGAIN : under(thread, how, run, with);
}
