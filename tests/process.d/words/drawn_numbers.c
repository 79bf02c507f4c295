/* What a test preloads into the program: the system's random numbers are DRAWN. */
#include <stdint.h>
#include <stdlib.h>
#include <string.h>
#include <unistd.h>

int getentropy(void *bytes, size_t count)
{
    char *drawn = getenv("DRAWN");
    uint32_t number = drawn ? strtoul(drawn, NULL, 10) : 0;
    memset(bytes, 0, count);
    memcpy(bytes, &number, count < sizeof number ? count : sizeof number);
    return 0;
}
