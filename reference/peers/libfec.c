/* The library's outer code against libfec, init_rs_char(8, 0x11d, 0, 1, 16, 51). */
#include "../../include/dvbs.h"

#include <fec.h>
#include <stdio.h>
#include <string.h>

static uint64_t state = 0x300421;
static uint32_t next(uint32_t below)
{
    state ^= state << 13, state ^= state >> 7, state ^= state << 17;
    return (uint32_t)((state >> 32) * below >> 32);
}

static void codeword(void *fec, uint8_t *block)
{
    for (int n = 0; n < 188; n++)
        block[n] = (uint8_t)next(256);
    encode_rs_char(fec, block, block + 188);
}

static void harm(uint8_t *block, int errors)
{
    uint8_t hit[204] = {0};
    while (errors > 0) {
        uint32_t n = next(204);
        if (!hit[n]) {
            hit[n] = 1;
            block[n] ^= (uint8_t)(1 + next(255));
            errors--;
        }
    }
}

/* In how many bits two blocks differ. */
static int bits(const uint8_t *a, const uint8_t *b)
{
    int count = 0;
    for (int n = 0; n < 204; n++)
        for (int i = 0; i < 8; i++)
            count += (a[n] >> i & 1) != (b[n] >> i & 1);
    return count;
}

static int is_codeword(void *fec, const uint8_t *block)
{
    uint8_t check[16], copy[188];
    memcpy(copy, block, 188);
    encode_rs_char(fec, copy, check);
    return !memcmp(check, block + 188, 16);
}

/* Times x, modulo g: g's coefficients below x^16 come from coding a last byte. */
static void times_x(const uint8_t *g, uint8_t *rest)
{
    uint8_t top = rest[0];
    for (int k = 0; k < 16; k++) {
        unsigned product = 0, a = g[k];
        for (int i = 0; i < 8; i++) {
            if (top >> i & 1)
                product ^= a;
            a <<= 1;
            if (a & 0x100)
                a ^= 0x11d;
        }
        rest[k] = (uint8_t)((k < 15 ? rest[k + 1] : 0) ^ product);
    }
}

/* Errors and erasures: 0 to 16 marked bytes, for more of which libfec has no
 * room, and other errors on either side of 2 e + f = 16. Where libfec leaves a
 * codeword beyond that, or a block that is none, it is told apart, and not
 * followed: the library must answer 8. libfec returns how many places it took
 * for wrong, marked ones that are right too, so the counts are those of the
 * blocks. */
static long marked(void *fec)
{
    long agreed = 0, beyond = 0, bad = 0;
    for (int i = 0; i < 170000; i++) {
        int f = i % 17, e = (int)next((uint32_t)((16 - f) / 2 + 4)), places[16], k = 0;
        uint8_t a[204], b[204], before[204], marks[204] = {0}, count[2] = {255, 255}, told[2] = {0, 0};
        codeword(fec, a);
        while (k < f) {
            uint32_t n = next(204);
            if (!marks[n]) {
                marks[n] = 1;
                places[k++] = (int)n;
                a[n] ^= (uint8_t)(next(4) ? next(256) : 0);
            }
        }
        uint8_t hit[204];
        memcpy(hit, marks, 204);
        while (e > 0) {
            uint32_t n = next(204);
            if (!hit[n]) {
                hit[n] = 1;
                a[n] ^= (uint8_t)(1 + next(255));
                e--;
            }
        }
        memcpy(b, a, 204);
        memcpy(before, a, 204);
        int want = decode_rs_char(fec, a, places, f), cost = f;
        uint8_t answer = dvbs_rs_decode_marked(b, 204, marks, 204, count, sizeof count);
        for (int n = 0; n < 204; n++) {
            told[0] += a[n] != before[n];
            cost += a[n] != before[n] && !marks[n] ? 2 : 0;
        }
        told[1] = (uint8_t)bits(before, a);
        int untouched = answer == 8 && count[0] == 255 && count[1] == 255 && !memcmp(b, before, 204);
        if (want >= 0 && is_codeword(fec, a) && cost <= 16)
            answer == 0 && !memcmp(count, told, 2) && !memcmp(a, b, 204) ? agreed++ : bad++;
        else if (want < 0)
            untouched ? agreed++ : bad++;
        else
            untouched ? beyond++ : bad++;
    }
    printf("libfec, decode, 0 to 16 marked bytes and others: 170000 compared, %ld the same, %ld different\n", agreed, bad);
    if (beyond)
        printf("  and %ld where libfec reports success beyond 2 e + f = 16; the library answers 8 there\n", beyond);
    return bad;
}

int main(void)
{
    void *fec = init_rs_char(8, 0x11d, 0, 1, 16, 51);
    long different = 0, bad = 0;

    for (int i = 0; i < 50000; i++) {
        uint8_t a[204], b[204];
        codeword(fec, a);
        bad += dvbs_rs_encode(a, 188, b, 204) != 0 || memcmp(a, b, 204) != 0;
    }
    printf("libfec, encode: 50000 compared, %ld different\n", bad);
    different += bad;

    bad = 0;
    for (int i = 0; i < 90000; i++) {
        uint8_t a[204], b[204], before[204], count[2] = {255, 255};
        codeword(fec, a);
        harm(a, i % 9);
        memcpy(b, a, 204);
        memcpy(before, a, 204);
        int want = decode_rs_char(fec, a, NULL, 0);
        uint8_t answer = dvbs_rs_decode(b, 204, count, sizeof count);
        bad += answer != 0 || want != count[0] || bits(before, a) != count[1] || memcmp(a, b, 204) != 0;
    }
    printf("libfec, decode, 0 to 8 errors (answer, counts, block): 90000 compared, %ld different\n", bad);
    different += bad;

    /* Beyond eight errors, random blocks, and blocks with a hidden error among
     * the 51 bytes never sent. Debian's libfec gives up (-2) where it would place
     * an error among those 51. A version that reports success there, and leaves a
     * block that is no codeword, is counted apart. The library must answer 8. */
    static const char *const kinds[] = {"9 to 20 errors", "random blocks", "a hidden error among the 51 bytes never sent"};
    uint8_t g[204] = {0}, power[51][16];
    g[187] = 1;
    encode_rs_char(fec, g, g + 188);
    uint8_t rest[16];
    memcpy(rest, g + 188, 16); /* x^16 */
    for (int e = 17; e < 255; e++) {
        times_x(g + 188, rest);
        if (e >= 204)
            memcpy(power[e - 204], rest, 16);
    }
    for (int kind = 0; kind < 3; kind++) {
        long explained = 0, agreed = 0;
        bad = 0;
        for (int i = 0; i < 40000; i++) {
            uint8_t a[204], b[204], before[204], count[2] = {255, 255};
            codeword(fec, a);
            if (kind == 0)
                harm(a, 9 + i % 12);
            if (kind == 1)
                for (int n = 0; n < 204; n++)
                    a[n] = (uint8_t)next(256);
            if (kind == 2) {
                for (int k = 0; k < 16; k++)
                    a[188 + k] ^= power[i % 51][k];
                harm(a, (int)next(8));
            }
            memcpy(b, a, 204);
            memcpy(before, a, 204);
            int want = decode_rs_char(fec, a, NULL, 0);
            uint8_t answer = dvbs_rs_decode(b, 204, count, sizeof count);
            int untouched = answer == 8 && count[0] == 255 && count[1] == 255 && !memcmp(b, before, 204);
            if (want >= 0 && is_codeword(fec, a) && answer == 0 && want == count[0] && bits(before, a) == count[1] && !memcmp(a, b, 204))
                agreed++;
            else if (want < 0 && untouched)
                agreed++;
            else if (want >= 0 && !is_codeword(fec, a) && untouched)
                explained++;
            else
                bad++;
        }
        printf("libfec, decode, %s: 40000 compared, %ld the same, %ld different\n", kinds[kind], agreed, bad);
        if (explained)
            printf("  and %ld where libfec reports success but its block is no codeword of 204 bytes\n"
                   "  (an error placed among the bytes never sent); the library answers 8 there\n", explained);
        different += bad;
    }
    different += marked(fec);
    free_rs_char(fec);
    return different != 0;
}
