/* For the files of this folder: choices that are the same wherever `word` starts the same. */
#include <stddef.h>
#include <stdint.h>

static uint64_t word;

static uint64_t draw_word(void)
{
    uint64_t x = word += UINT64_C(0x9e3779b97f4a7c15);
    x = (x ^ x >> 30) * UINT64_C(0xbf58476d1ce4e5b9);
    x = (x ^ x >> 27) * UINT64_C(0x94d049bb133111eb);
    return x ^ x >> 31;
}

static size_t draw(size_t below)
{
    return (size_t)(draw_word() % below);
}
