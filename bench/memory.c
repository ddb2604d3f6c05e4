/* memset, memcpy and memmove for both readers, by moves of 16 bytes, four in a turn of the loop: what the C library's cost under callgrind
   depends on the machine. */
#include <stddef.h>
#include <stdint.h>

typedef uint8_t block __attribute__((vector_size(16), aligned(1), may_alias));

void *memset(void *to, int byte, size_t n)
{
    uint8_t *t = to;
    block filled = (block){0} + (uint8_t)byte;
    for (; n >= 64; n -= 64, t += 64)
        for (int i = 0; i < 64; i += 16)
            *(block *)(t + i) = filled;
    for (; n >= 16; n -= 16, t += 16)
        *(block *)t = filled;
    for (; n > 0; n--)
        *t++ = (uint8_t)byte;
    return to;
}

void *memcpy(void *restrict to, const void *restrict from, size_t n)
{
    uint8_t *t = to;
    const uint8_t *f = from;
    for (; n >= 64; n -= 64, t += 64, f += 64)
        for (int i = 0; i < 64; i += 16)
            *(block *)(t + i) = *(const block *)(f + i);
    for (; n >= 16; n -= 16, t += 16, f += 16)
        *(block *)t = *(const block *)f;
    for (; n > 0; n--)
        *t++ = *f++;
    return to;
}

void *memmove(void *to, const void *from, size_t n)
{
    uint8_t *t = to;
    const uint8_t *f = from;
    if (t <= f)
        return memcpy(to, from, n);
    for (; n >= 16; n -= 16)
        *(block *)(t + n - 16) = *(const block *)(f + n - 16);
    for (; n > 0; n--)
        t[n - 1] = f[n - 1];
    return to;
}
