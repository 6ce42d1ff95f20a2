/* What the programs of speed/ measure with: processor time, memory, and numbers that are the same in every run. */
#ifndef TIMING_H
#define TIMING_H

#include <stdint.h>
#include <stdio.h>
#include <stdlib.h>
#include <time.h>

static double nanoseconds(void)
{
    struct timespec t;
    clock_gettime(CLOCK_PROCESS_CPUTIME_ID, &t);
    return (double)t.tv_sec * 1e9 + (double)t.tv_nsec;
}

static void *memory(size_t length)
{
    void *bytes = calloc(length, 1);
    if (bytes == NULL) {
        fprintf(stderr, "speed: %zu bytes of memory are not to be had\n", length);
        exit(1);
    }
    return bytes;
}

static uint32_t state = 12345;

static uint8_t number(uint32_t below)
{
    state ^= state << 13;
    state ^= state >> 17;
    state ^= state << 5;
    return (uint8_t)(state % below);
}

#endif
