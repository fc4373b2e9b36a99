/* Times rounds of two frames taken and given back beside two blocks of 4,096 bytes from malloc, and freed; and pools
   of 4,096 frames of 4,096 bytes made and dropped. */
#include <stdint.h>
#include <stdio.h>
#include <stdlib.h>
#include <time.h>

uint32_t frames_export_rounds(uint32_t rounds);
uint32_t frames_export_pools(uint32_t pools);

static double now(void) {
    struct timespec t;
    clock_gettime(CLOCK_MONOTONIC, &t);
    return t.tv_sec + t.tv_nsec / 1e9;
}

static uint32_t malloc_rounds(uint32_t rounds) {
    uint32_t done = 0;
    for (uint32_t i = 0; i < rounds; i++) {
        void *volatile first = malloc(4096);
        void *volatile second = malloc(4096);
        if (first) done++;
        if (second) done++;
        free(first);
        free(second);
    }
    return done;
}

int main(void) {
    const uint32_t rounds = 10000000;
    double a = now();
    uint32_t frames = frames_export_rounds(rounds);
    double b = now();
    uint32_t blocks = malloc_rounds(rounds);
    double c = now();
    printf("frames: %u taken and given back, %.1f ns each\n", frames, (b - a) / frames * 1e9);
    printf("malloc: %u taken and freed, %.1f ns each\n", blocks, (c - b) / blocks * 1e9);
    double d = now();
    uint32_t pools = frames_export_pools(10);
    double e = now();
    printf("pools: %u of 16 MiB made and dropped, %.1f ms each\n", pools, (e - d) * 1e3 / pools);
    return 0;
}
