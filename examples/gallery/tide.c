#include <stdint.h>
#define MASK 0xFFu

/* A sum of bytes, as small packets have it. */
static uint8_t sum(const uint8_t *bytes, size_t n) {
    uint32_t total = 0;
    while (n-- > 0)
        total += *bytes++;
    return (uint8_t)(total & MASK); // '\0' counts too
}
