/* What a test preloads into the program: its Nth read or write of a standard stream or of a connection fails once, if
   FAIL_READ=N or FAIL_WRITE=N says so, and each other one of these reads gives PIECE bytes at most. COUNT names a file to which
   the numbers of reads and writes are written at the end. With CUT_READS or CUT_WRITES the reads or the writes of a connection
   take so many bytes in all, and fail then: none of the first connection, and one byte more of each after it. */
#define _GNU_SOURCE
#include <dlfcn.h>
#include <errno.h>
#include <stdio.h>
#include <stdlib.h>
#include <sys/socket.h>
#include <sys/stat.h>
#include <sys/types.h>
#include <unistd.h>

static long reads, writes, connections, taken;

static long number_in(const char *name)
{
    char *word = getenv(name);
    return word ? atol(word) : 0;
}

/* Whether it is this standard stream, or a connection. */
static int is_stream(int descriptor, int standard)
{
    struct stat found;
    return descriptor == standard || (fstat(descriptor, &found) == 0 && S_ISSOCK(found.st_mode));
}

static int fails(long number, const char *name)
{
    if (number != number_in(name))
        return 0;
    errno = EIO;
    return 1;
}

static size_t piece(size_t count)
{
    size_t most = number_in("PIECE");
    return most && count > most ? most : count;
}

/* How many of these bytes a call on a connection may take, if this variable cuts its bytes: none if it fails. */
static size_t room(size_t count, const char *name)
{
    size_t left = connections - 1 - taken;
    errno = EIO;
    return getenv(name) && count > left ? left : count;
}

/* What a call took, which is counted if this variable cuts its bytes. */
static ssize_t took(ssize_t count, const char *name)
{
    if (getenv(name) && count > 0)
        taken += count;
    return count;
}

/* The descriptor of a new connection, or none. */
static int connected(int descriptor)
{
    connections += descriptor >= 0;
    taken = 0;
    return descriptor;
}

int accept(int descriptor, struct sockaddr *address, socklen_t *length)
{
    int (*next)(int, struct sockaddr *, socklen_t *) = dlsym(RTLD_NEXT, "accept");
    return connected(next(descriptor, address, length));
}

int accept4(int descriptor, struct sockaddr *address, socklen_t *length, int flags)
{
    int (*next)(int, struct sockaddr *, socklen_t *, int) = dlsym(RTLD_NEXT, "accept4");
    return connected(next(descriptor, address, length, flags));
}

ssize_t read(int descriptor, void *bytes, size_t count)
{
    ssize_t (*next)(int, void *, size_t) = dlsym(RTLD_NEXT, "read");
    if (!is_stream(descriptor, 0))
        return next(descriptor, bytes, count);
    count = room(piece(count), "CUT_READS");
    return fails(++reads, "FAIL_READ") || !count ? -1 : took(next(descriptor, bytes, count), "CUT_READS");
}

ssize_t recv(int descriptor, void *bytes, size_t count, int flags)
{
    ssize_t (*next)(int, void *, size_t, int) = dlsym(RTLD_NEXT, "recv");
    count = room(piece(count), "CUT_READS");
    return fails(++reads, "FAIL_READ") || !count ? -1 : took(next(descriptor, bytes, count, flags), "CUT_READS");
}

ssize_t write(int descriptor, const void *bytes, size_t count)
{
    ssize_t (*next)(int, const void *, size_t) = dlsym(RTLD_NEXT, "write");
    if (!is_stream(descriptor, 1))
        return next(descriptor, bytes, count);
    count = room(count, "CUT_WRITES");
    return fails(++writes, "FAIL_WRITE") || !count ? -1 : took(next(descriptor, bytes, count), "CUT_WRITES");
}

ssize_t send(int descriptor, const void *bytes, size_t count, int flags)
{
    ssize_t (*next)(int, const void *, size_t, int) = dlsym(RTLD_NEXT, "send");
    count = room(count, "CUT_WRITES");
    return fails(++writes, "FAIL_WRITE") || !count ? -1 : took(next(descriptor, bytes, count, flags), "CUT_WRITES");
}

int fdatasync(int descriptor)
{
    (void)descriptor;
    return 0;
}

int fsync(int descriptor)
{
    (void)descriptor;
    return 0;
}

__attribute__((destructor)) static void end(void)
{
    char *name = getenv("COUNT");
    FILE *file = name ? fopen(name, "w") : NULL;
    if (!file)
        return;
    fprintf(file, "%ld %ld", reads, writes);
    fclose(file);
}
