// Times the proved CRC-32 and CRC-32C beside zlib's crc32, in one run on one core, and prints the ratios.
#define _POSIX_C_SOURCE 199309L
#include <stdint.h>
#include <stdio.h>
#include <stdlib.h>
#include <time.h>
#include <zlib.h>

uint32_t crc_export_crc32(const uint8_t *bytes, size_t length);
uint32_t crc_export_crc32c_raw(const uint8_t *bytes, size_t length);

static uint32_t zlib_crc32(const uint8_t *bytes, size_t length) {
    return (uint32_t)crc32(0, bytes, (uInt)length);
}

typedef uint32_t (*checksum)(const uint8_t *, size_t);

static double seconds(void) {
    struct timespec now;
    clock_gettime(CLOCK_MONOTONIC, &now);
    return (double)now.tv_sec + 1e-9 * (double)now.tv_nsec;
}

static uint32_t sink;

// Gigabytes a second of one round of about 40 MB.
static double one_round(checksum f, const uint8_t *bytes, size_t length) {
    size_t calls = 40000000 / length;
    double start = seconds();
    for (size_t i = 0; i < calls; i++)
        sink ^= f(bytes, length);
    return (double)calls * (double)length / (seconds() - start) / 1e9;
}

int main(void) {
    static const size_t lengths[] = {16, 64, 200, 512, 4096, 65536};
    static const struct { const char *name; checksum f; } all[] = {
        {"zlib crc32", zlib_crc32}, {"crc32", crc_export_crc32}, {"crc32c_raw", crc_export_crc32c_raw}};
    enum { ROUNDS = 15 };
    uint8_t *bytes = malloc(65536 + 8);
    if (!bytes)
        return 1;
    srand(1);
    for (size_t i = 0; i < 65536 + 8; i++)
        bytes[i] = (uint8_t)(rand() >> 7);
    for (size_t i = 0; i <= 4096; i++)
        if (zlib_crc32(bytes + i % 8, i) != crc_export_crc32(bytes + i % 8, i)) {
            printf("crc32 differs from zlib at %zu bytes\n", i);
            return 1;
        }
    if (crc_export_crc32c_raw((const uint8_t *)"123456789", 9) != 0x1cf96d7c)
        return 1;
    printf("%8s", "bytes");
    for (size_t k = 0; k < 3; k++)
        printf("  %12s", all[k].name);
    printf("  %14s  %14s\n", "crc32/zlib", "crc32c/zlib");
    for (size_t n = 0; n < sizeof lengths / sizeof *lengths; n++) {
        double best[3] = {0, 0, 0};
        for (int round = 0; round < ROUNDS; round++)
            for (size_t k = 0; k < 3; k++) {
                double speed = one_round(all[k].f, bytes, lengths[n]);
                if (speed > best[k])
                    best[k] = speed;
            }
        printf("%8zu  %7.2f GB/s  %7.2f GB/s  %7.2f GB/s  %14.2f  %14.2f\n", lengths[n], best[0], best[1], best[2],
               best[1] / best[0], best[2] / best[0]);
    }
    return sink == 1;
}
