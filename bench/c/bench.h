/* Shared by the benchmarks: the clock, random numbers, and the table of scenes. Each program is run as PROGRAM SCENE COUNT. It writes the
 * seconds and the number of the measured calls, without those that make the scene. Without arguments it lists its scenes. */
#ifndef BENCH_H
#define BENCH_H

#include <stdint.h>
#include <stdio.h>
#include <stdlib.h>
#include <string.h>
#include <time.h>

/* One in this many elements of a tree has others below it. */
enum { LEAVES = 8 };

struct scene {
    const char *name;
    uint64_t (*run)(uint32_t count);
};

static uint64_t chance_state = 1;
static double began, took;

/* A number below a bound, the same in each program. */
static inline uint32_t chance(uint32_t bound)
{
    chance_state = chance_state * 6364136223846793005u + 1442695040888963407u;
    return (uint32_t)((chance_state >> 33) % bound);
}

static inline double now(void)
{
    struct timespec time;
    clock_gettime(CLOCK_MONOTONIC, &time);
    return (double)time.tv_sec + (double)time.tv_nsec * 1e-9;
}

/* (valgrind counts instructions between these two, so they have to be calls) */
__attribute__((noinline)) static void begin(void)
{
    began = now();
}

__attribute__((noinline)) static void end(void)
{
    took = now() - began;
}

static inline int run_scenes(int count, char **words, const struct scene *scenes, int number)
{
    for (int i = 0; i < number; i++) {
        if (count == 1) {
            puts(scenes[i].name);
        } else if (count == 3 && strcmp(words[1], scenes[i].name) == 0) {
            uint64_t calls = scenes[i].run((uint32_t)strtoul(words[2], NULL, 10));
            printf("%.9f %llu\n", took, (unsigned long long)calls);
            return 0;
        }
    }
    return count == 1 ? 0 : 2;
}

#endif
