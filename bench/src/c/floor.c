/* The floor: what the C library needs to look at bytes, and to move them. */
#include <stddef.h>
#include <string.h>

enum { IAC = 255 };

/* How many IACs there are. */
size_t floor_memchr(const unsigned char *input, size_t length) {
    const unsigned char *end = input + length, *at = input;
    size_t found = 0;
    while ((at = memchr(at, IAC, (size_t)(end - at)))) {
        found++;
        at++;
    }
    return found;
}

void floor_memcpy(unsigned char *to, const unsigned char *input, size_t length) {
    memcpy(to, input, length);
}
