/* Times the search for the least free block of a group of 65,536 blocks that are all taken but the last, and the count of its
   free blocks. */
#include <stdint.h>
#include <stdio.h>
#include <time.h>

uint64_t groups_export_find(uint32_t rounds);
uint64_t groups_export_count(uint32_t rounds);

static double now(void) {
    struct timespec t;
    clock_gettime(CLOCK_MONOTONIC, &t);
    return t.tv_sec + t.tv_nsec / 1e9;
}

int main(void) {
    const uint32_t rounds = 2000;
    const double blocks = 65536.0 * rounds;
    double a = now();
    uint64_t found = groups_export_find(rounds);
    double b = now();
    uint64_t free_blocks = groups_export_count(rounds);
    double c = now();
    printf("find_free: block %llu, %.2f ns a block\n", (unsigned long long)(found / rounds), (b - a) / blocks * 1e9);
    printf("count_free: %llu free, %.2f ns a block\n", (unsigned long long)(free_blocks / rounds), (c - b) / blocks * 1e9);
    return 0;
}
