/* What a test preloads into the program: the Nth call on a file whose path begins with WITHIN fails once, if FAIL=N says so:
   a read, write, cut or sync of it, or its opening. COUNT names a file to which the number of these calls is written at the
   end. Those that don't fail act, but no sync waits. */
#define _GNU_SOURCE
#include <dlfcn.h>
#include <errno.h>
#include <fcntl.h>
#include <stdarg.h>
#include <stdio.h>
#include <stdlib.h>
#include <string.h>
#include <sys/types.h>
#include <unistd.h>

static long calls;

/* Whether a call on a file of this path is the one that fails. */
static int is_failing(const char *path)
{
    char *within = getenv("WITHIN"), *number = getenv("FAIL");
    if (!within || strncmp(path, within, strlen(within)) != 0)
        return 0;
    calls++;
    if (!number || calls != atol(number))
        return 0;
    errno = EIO;
    return 1;
}

static int fails(int descriptor)
{
    char link[64], path[4096];
    snprintf(link, sizeof link, "/proc/self/fd/%d", descriptor);
    ssize_t length = readlink(link, path, sizeof path - 1);
    if (length < 0)
        return 0;
    path[length] = 0;
    return is_failing(path);
}

int open(const char *path, int flags, ...)
{
    int (*next)(const char *, int, ...) = dlsym(RTLD_NEXT, "open");
    mode_t mode = 0;
    if (flags & O_CREAT) {
        va_list rest;
        va_start(rest, flags);
        mode = va_arg(rest, mode_t);
        va_end(rest);
    }
    return is_failing(path) ? -1 : next(path, flags, mode);
}

int open64(const char *path, int flags, ...)
{
    mode_t mode = 0;
    if (flags & O_CREAT) {
        va_list rest;
        va_start(rest, flags);
        mode = va_arg(rest, mode_t);
        va_end(rest);
    }
    return open(path, flags, mode);
}

ssize_t read(int descriptor, void *bytes, size_t count)
{
    ssize_t (*next)(int, void *, size_t) = dlsym(RTLD_NEXT, "read");
    return fails(descriptor) ? -1 : next(descriptor, bytes, count);
}

ssize_t pread(int descriptor, void *bytes, size_t count, off_t offset)
{
    ssize_t (*next)(int, void *, size_t, off_t) = dlsym(RTLD_NEXT, "pread");
    return fails(descriptor) ? -1 : next(descriptor, bytes, count, offset);
}

ssize_t pread64(int descriptor, void *bytes, size_t count, off_t offset)
{
    return pread(descriptor, bytes, count, offset);
}

ssize_t write(int descriptor, const void *bytes, size_t count)
{
    ssize_t (*next)(int, const void *, size_t) = dlsym(RTLD_NEXT, "write");
    return fails(descriptor) ? -1 : next(descriptor, bytes, count);
}

ssize_t pwrite(int descriptor, const void *bytes, size_t count, off_t offset)
{
    ssize_t (*next)(int, const void *, size_t, off_t) = dlsym(RTLD_NEXT, "pwrite");
    return fails(descriptor) ? -1 : next(descriptor, bytes, count, offset);
}

ssize_t pwrite64(int descriptor, const void *bytes, size_t count, off_t offset)
{
    return pwrite(descriptor, bytes, count, offset);
}

int ftruncate(int descriptor, off_t length)
{
    int (*next)(int, off_t) = dlsym(RTLD_NEXT, "ftruncate");
    return fails(descriptor) ? -1 : next(descriptor, length);
}

int ftruncate64(int descriptor, off_t length)
{
    return ftruncate(descriptor, length);
}

int fdatasync(int descriptor)
{
    return fails(descriptor) ? -1 : 0;
}

int fsync(int descriptor)
{
    return fails(descriptor) ? -1 : 0;
}

__attribute__((destructor)) static void end(void)
{
    char *name = getenv("COUNT");
    FILE *file = name ? fopen(name, "w") : NULL;
    if (!file)
        return;
    fprintf(file, "%ld", calls);
    fclose(file);
}

/* The numbers that are drawn are the same each time. */
int getentropy(void *bytes, size_t count)
{
    memset(bytes, 1, count);
    return 0;
}
