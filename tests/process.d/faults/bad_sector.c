/* What a test preloads into the program: each read of a file whose path ends with BAD_IMAGE fails if it comes to the sector
   BAD_SECTOR, as a disk with a bad sector does. */
#define _GNU_SOURCE
#include <dlfcn.h>
#include <errno.h>
#include <stdio.h>
#include <stdlib.h>
#include <string.h>
#include <sys/types.h>
#include <unistd.h>

static int is_bad(int descriptor, size_t count, off_t offset)
{
    char link[64], path[4096];
    char *image = getenv("BAD_IMAGE"), *number = getenv("BAD_SECTOR");
    if (!image || !number)
        return 0;
    snprintf(link, sizeof link, "/proc/self/fd/%d", descriptor);
    ssize_t length = readlink(link, path, sizeof path - 1);
    if (length < (ssize_t)strlen(image))
        return 0;
    path[length] = 0;
    off_t bad = 512 * atol(number);
    return strcmp(path + length - strlen(image), image) == 0 && offset < bad + 512 && bad < offset + (off_t)count;
}

ssize_t pread(int descriptor, void *bytes, size_t count, off_t offset)
{
    ssize_t (*next)(int, void *, size_t, off_t) = dlsym(RTLD_NEXT, "pread");
    if (!is_bad(descriptor, count, offset))
        return next(descriptor, bytes, count, offset);
    errno = EIO;
    return -1;
}

ssize_t pread64(int descriptor, void *bytes, size_t count, off_t offset)
{
    return pread(descriptor, bytes, count, offset);
}
