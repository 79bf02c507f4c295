/* What a test preloads into the program: a read or a write of a file whose path begins with SHORT takes 100 bytes at most. */
#define _GNU_SOURCE
#include <dlfcn.h>
#include <stdio.h>
#include <stdlib.h>
#include <string.h>
#include <sys/types.h>
#include <unistd.h>

static size_t taken(int descriptor, size_t count)
{
    char link[64], path[4096];
    char *begins = getenv("SHORT");
    snprintf(link, sizeof link, "/proc/self/fd/%d", descriptor);
    ssize_t length = readlink(link, path, sizeof path - 1);
    if (!begins || length < 0)
        return count;
    path[length] = 0;
    return count > 100 && strncmp(path, begins, strlen(begins)) == 0 ? 100 : count;
}

ssize_t pread(int descriptor, void *bytes, size_t count, off_t offset)
{
    ssize_t (*next)(int, void *, size_t, off_t) = dlsym(RTLD_NEXT, "pread");
    return next(descriptor, bytes, taken(descriptor, count), offset);
}

ssize_t pwrite(int descriptor, const void *bytes, size_t count, off_t offset)
{
    ssize_t (*next)(int, const void *, size_t, off_t) = dlsym(RTLD_NEXT, "pwrite");
    return next(descriptor, bytes, taken(descriptor, count), offset);
}

ssize_t pread64(int descriptor, void *bytes, size_t count, off_t offset)
{
    return pread(descriptor, bytes, count, offset);
}

ssize_t pwrite64(int descriptor, const void *bytes, size_t count, off_t offset)
{
    return pwrite(descriptor, bytes, count, offset);
}
