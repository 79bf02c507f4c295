/* What a test preloads into the program. REFUSE=N refuses the Nth call for memory, and says so in the file REFUSED; COUNT
   names a file to which the number of calls is written at the end. No sync waits, so that many runs take little time. */
#include <errno.h>
#include <fcntl.h>
#include <stddef.h>
#include <stdlib.h>
#include <string.h>
#include <unistd.h>

extern void *__libc_malloc(size_t);
extern void *__libc_calloc(size_t, size_t);
extern void *__libc_realloc(void *, size_t);

static long calls, refused_call, is_begun;

static void begin(void)
{
    char *word = getenv("REFUSE");
    is_begun = 1;
    if (word)
        while (*word >= '0' && *word <= '9')
            refused_call = refused_call * 10 + *word++ - '0';
}

static int is_refused(void)
{
    if (!is_begun)
        begin();
    if (++calls != refused_call)
        return 0;
    char *file = getenv("REFUSED");
    int descriptor = file ? open(file, O_WRONLY | O_CREAT | O_CLOEXEC, 0644) : -1;
    if (descriptor >= 0) {
        if (write(descriptor, "x", 1) != 1)
            _exit(99);
        close(descriptor);
    }
    errno = ENOMEM;
    return 1;
}

void *malloc(size_t size)
{
    return is_refused() ? NULL : __libc_malloc(size);
}

void *calloc(size_t count, size_t size)
{
    return is_refused() ? NULL : __libc_calloc(count, size);
}

void *realloc(void *block, size_t size)
{
    return is_refused() ? NULL : __libc_realloc(block, size);
}

int fdatasync(int descriptor)
{
    (void)descriptor;
    return 0;
}

int fsync(int descriptor)
{
    (void)descriptor;
    return 0;
}

__attribute__((destructor)) static void end(void)
{
    char *file = getenv("COUNT");
    char text[24];
    long number = calls;
    int at = sizeof text;
    int descriptor = file ? open(file, O_WRONLY | O_CREAT | O_TRUNC | O_CLOEXEC, 0644) : -1;
    if (descriptor < 0)
        return;
    do
        text[--at] = '0' + number % 10;
    while ((number /= 10) > 0);
    if (write(descriptor, text + at, sizeof text - at) < 0)
        _exit(99);
    close(descriptor);
}

/* The numbers that are drawn are the same each time. */
int getentropy(void *bytes, size_t count)
{
    memset(bytes, 1, count);
    return 0;
}
