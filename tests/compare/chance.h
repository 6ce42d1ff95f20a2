/* Chance for the programs that write streams: from a fixed seed, the same numbers at each run. */
#ifndef CHANCE_H
#define CHANCE_H

#include <stdbool.h>
#include <stddef.h>
#include <stdint.h>

#define COUNT_OF(table) (sizeof(table) / sizeof((table)[0]))
#define ONE_OF(table) ((table)[below(COUNT_OF(table))])

static uint64_t chance_state;

static uint32_t chance(void)
{
    uint64_t mixed = chance_state += 0x9E3779B97F4A7C15u;
    mixed = (mixed ^ mixed >> 30) * 0xBF58476D1CE4E5B9u;
    mixed = (mixed ^ mixed >> 27) * 0x94D049BB133111EBu;
    return (uint32_t)(mixed >> 32);
}

static uint32_t below(size_t bound)
{
    return (uint32_t)(chance() % bound);
}

static bool one_in(uint32_t bound)
{
    return below(bound) == 0;
}

#endif
