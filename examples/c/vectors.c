/* The digests that RFC 3720 publishes, run and compared; every cut of a region; regions of many lengths
 * at every alignment against the bitwise rule; and comparisons, two empty regions among them. */
#include "xapool.h"
#include <inttypes.h>
#include <stdio.h>
#include <string.h>

#define LARGE 1000003

static int failures = 0;

static void check(int holds, const char *what, size_t which)
{
    if (holds)
        return;
    failures++;
    printf("%s: %zu\n", what, which);
}

/* Bit by bit, by the polynomial alone: nothing here is the library's. */
static uint32_t bitwise(const uint8_t *region, size_t bytes)
{
    uint32_t crc = UINT32_MAX;
    for (size_t i = 0; i < bytes; i++) {
        crc ^= region[i];
        for (int bit = 0; bit < 8; bit++)
            crc = crc & 1 ? crc >> 1 ^ UINT32_C(0x82f63b78) : crc >> 1;
    }
    return ~crc;
}

/* A small generator, the same bytes in every run. */
static void fill(uint8_t *bytes, size_t count, uint64_t seed)
{
    for (size_t i = 0; i < count; i++) {
        seed = seed * UINT64_C(6364136223846793005) + UINT64_C(1442695040888963407);
        bytes[i] = (uint8_t)(seed >> 56);
    }
}

static void published(const char *name, const uint8_t *region, size_t bytes, uint32_t digest)
{
    uint32_t is = xapool_crc32c(0, region, bytes);
    printf("%-22s %08" PRIx32 "\n", name, is);
    check(is == digest, name, is);
    check(bitwise(region, bytes) == digest, "the bitwise rule", is);
}

static void published_digests(void)
{
    static const uint8_t read_10[48] = { 0x01, 0xc0, 0, 0, 0, 0, 0, 0, 0, 0, 0,    0,    0, 0, 0, 0,
                                         0x14, 0,    0, 0, 0, 0, 4, 0, 0, 0, 0,    0x14, 0, 0, 0, 0x18,
                                         0x28, 0,    0, 0, 0, 0, 0, 0, 2, 0, 0,    0,    0, 0, 0, 0 };
    uint8_t region[32];
    published("32 bytes of zeros", memset(region, 0, 32), 32, UINT32_C(0x8a9136aa));
    published("32 bytes of ones", memset(region, 0xff, 32), 32, UINT32_C(0x62a8ab43));
    for (unsigned i = 0; i < 32; i++)
        region[i] = (uint8_t)i;
    published("32 ascending", region, 32, UINT32_C(0x46dd794e));
    for (unsigned i = 0; i < 32; i++)
        region[i] = (uint8_t)(31 - i);
    published("32 descending", region, 32, UINT32_C(0x113fdb5c));
    published("SCSI read (10)", read_10, sizeof read_10, UINT32_C(0xd9963a56));
    published("123456789", (const uint8_t *)"123456789", 9, UINT32_C(0xe3069283));
    check(xapool_crc32c(0, NULL, 0) == 0, "no bytes", 0);
}

static void every_cut(void)
{
    uint8_t region[64];
    fill(region, sizeof region, 1);
    uint32_t whole = bitwise(region, 64);
    for (size_t cut = 0; cut <= 64; cut++)
        for (size_t second = cut; second <= 64; second++) {
            uint32_t crc = xapool_crc32c(0, region, cut);
            check(xapool_crc32c(crc, region + cut, 64 - cut) == whole, "two pieces", cut);
            crc = xapool_crc32c(crc, region + cut, second - cut);
            check(xapool_crc32c(crc, region + second, 64 - second) == whole, "three pieces", 100 * cut + second);
        }
}

static void every_length_and_alignment(void)
{
    static uint64_t space[40];
    static uint8_t region[300], large[LARGE];
    for (size_t bytes = 0; bytes <= 300; bytes++) {
        fill(region, bytes, bytes);
        for (size_t at = 0; at < 8; at++) {
            uint8_t *place = (uint8_t *)space + at;
            memcpy(place, region, bytes);
            check(xapool_crc32c(0, place, bytes) == bitwise(region, bytes), "bytes, at alignment", 10 * bytes + at);
        }
    }
    fill(large, LARGE, 2);
    check(xapool_crc32c(0, large, LARGE) == bitwise(large, LARGE), "a large region", LARGE);
    check(xapool_crc32c(0, large + 5, LARGE - 9) == bitwise(large + 5, LARGE - 9), "a large region", LARGE - 9);
}

static void compared(const uint8_t *old_region, size_t old_bytes, const uint8_t *new_region, size_t new_bytes, uint64_t verdict)
{
    xapool_comparison c = xapool_compare(old_region, old_bytes, new_region, new_bytes);
    check(c.verdict == verdict, xapool_verdict_text(verdict), 1000 * old_bytes + new_bytes);
    check(c.old_crc == bitwise(old_region, old_bytes), "the digest of the old region", old_bytes);
    check(c.new_crc == bitwise(new_region, new_bytes), "the digest of the new region", new_bytes);
}

static void comparisons(void)
{
    uint8_t old_region[301], new_region[301];
    for (size_t bytes = 1; bytes <= 300; bytes++) {
        fill(old_region, 301, bytes);
        memcpy(new_region, old_region, 301);
        compared(old_region, bytes, new_region, bytes, XAPOOL_MATCHED);
        compared(old_region, bytes, old_region, bytes, XAPOOL_MATCHED);
        compared(old_region, bytes, new_region, bytes + 1, XAPOOL_DIFFERENT);
        compared(old_region, bytes + 1, new_region, bytes, XAPOOL_DIFFERENT);
        compared(old_region, bytes, NULL, 0, XAPOOL_NOTHING_TO_COMPARE);
        compared(NULL, 0, new_region, bytes, XAPOOL_NOTHING_TO_COMPARE);
        for (size_t place = 0; place < bytes; place++) {
            new_region[place] ^= 1;
            compared(old_region, bytes, new_region, bytes, XAPOOL_DIFFERENT);
            new_region[place] ^= 1;
        }
    }
    /* Equal digests, and no match: these differ by the polynomial itself, lowest bit of a byte first. */
    uint64_t difference = 1 | (uint64_t)0x82f63b78 << 1;
    for (unsigned i = 0; i < 8; i++)
        new_region[i] = (uint8_t)(old_region[i] ^ difference >> (8 * i));
    check(bitwise(old_region, 8) == bitwise(new_region, 8), "regions of one digest", 8);
    compared(old_region, 8, new_region, 8, XAPOOL_DIFFERENT);
    /* And again: nothing was compared. */
    compared(NULL, 0, NULL, 0, XAPOOL_NOTHING_TO_COMPARE);
    compared(old_region, 0, old_region, 0, XAPOOL_NOTHING_TO_COMPARE);
}

int main(void)
{
    published_digests();
    every_cut();
    every_length_and_alignment();
    comparisons();
    puts(failures ? "some do not hold" : "all hold");
    return failures != 0;
}
