/* What a test preloads into the program. STOP=N fails the Nth call that changes a file whose path begins with STOPPED, and each
   later one, or ends the process there by a signal, if KILL is set: a write, sync or cut, a new name, another mode or owner, a
   removal. COUNT names a file to which the number of these calls is written at the end. Those that don't fail act, but no sync
   waits, so that many runs take little time. */
#define _GNU_SOURCE
#include <dlfcn.h>
#include <errno.h>
#include <fcntl.h>
#include <signal.h>
#include <stdio.h>
#include <stdlib.h>
#include <string.h>
#include <sys/stat.h>
#include <sys/types.h>
#include <unistd.h>

static long calls;

/* Whether a call on the file of this path is one that fails. */
static int is_stopped_at(const char *path)
{
    char *begins = getenv("STOPPED"), *first = getenv("STOP");
    if (!begins || strncmp(path, begins, strlen(begins)) != 0)
        return 0;
    calls++;
    if (!first || calls < atol(first))
        return 0;
    if (getenv("KILL"))
        raise(SIGKILL);
    errno = EIO;
    return 1;
}

/* Whether a call on this file is one that fails. */
static int is_stopped(int descriptor)
{
    char link[64], path[4096];
    snprintf(link, sizeof link, "/proc/self/fd/%d", descriptor);
    ssize_t length = readlink(link, path, sizeof path - 1);
    if (length < 0)
        return 0;
    path[length] = 0;
    return is_stopped_at(path);
}

ssize_t write(int descriptor, const void *bytes, size_t count)
{
    ssize_t (*next)(int, const void *, size_t) = dlsym(RTLD_NEXT, "write");
    return is_stopped(descriptor) ? -1 : next(descriptor, bytes, count);
}

ssize_t pwrite(int descriptor, const void *bytes, size_t count, off_t offset)
{
    ssize_t (*next)(int, const void *, size_t, off_t) = dlsym(RTLD_NEXT, "pwrite");
    return is_stopped(descriptor) ? -1 : next(descriptor, bytes, count, offset);
}

ssize_t pwrite64(int descriptor, const void *bytes, size_t count, off_t offset)
{
    return pwrite(descriptor, bytes, count, offset);
}

int ftruncate(int descriptor, off_t length)
{
    int (*next)(int, off_t) = dlsym(RTLD_NEXT, "ftruncate");
    return is_stopped(descriptor) ? -1 : next(descriptor, length);
}

int ftruncate64(int descriptor, off_t length)
{
    return ftruncate(descriptor, length);
}

int fdatasync(int descriptor)
{
    return is_stopped(descriptor) ? -1 : 0;
}

int fsync(int descriptor)
{
    return is_stopped(descriptor) ? -1 : 0;
}

int fchmod(int descriptor, mode_t mode)
{
    int (*next)(int, mode_t) = dlsym(RTLD_NEXT, "fchmod");
    return is_stopped(descriptor) ? -1 : next(descriptor, mode);
}

int fchown(int descriptor, uid_t owner, gid_t group)
{
    int (*next)(int, uid_t, gid_t) = dlsym(RTLD_NEXT, "fchown");
    return is_stopped(descriptor) ? -1 : next(descriptor, owner, group);
}

int rename(const char *from, const char *to)
{
    int (*next)(const char *, const char *) = dlsym(RTLD_NEXT, "rename");
    return is_stopped_at(from) ? -1 : next(from, to);
}

int unlink(const char *path)
{
    int (*next)(const char *) = dlsym(RTLD_NEXT, "unlink");
    return is_stopped_at(path) ? -1 : next(path);
}

__attribute__((destructor)) static void end(void)
{
    char *name = getenv("COUNT");
    FILE *file = name ? fopen(name, "w") : NULL;
    if (!file)
        return;
    fprintf(file, "%ld", calls);
    fclose(file);
}

/* The numbers that are drawn are the same each time. */
int getentropy(void *bytes, size_t count)
{
    memset(bytes, 1, count);
    return 0;
}
