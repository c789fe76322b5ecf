/* The words that both drivers draw their input from: determined by `state`, which a seed sets. */
#ifndef KELDUSNI_BENCH_RANDOM_H
#define KELDUSNI_BENCH_RANDOM_H

#include <stdint.h>

static uint64_t state;

static uint64_t next_word(void)
{
    state += 0x9e3779b97f4a7c15u;
    uint64_t z = state;
    z = (z ^ (z >> 30)) * 0xbf58476d1ce4e5b9u;
    z = (z ^ (z >> 27)) * 0x94d049bb133111ebu;
    return z ^ (z >> 31);
}

static inline uint64_t below(uint64_t n) { return (uint64_t)(((unsigned __int128)next_word() * n) >> 64); }

#endif
