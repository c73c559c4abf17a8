/* Writes a long stream to standard output.
 *
 *   feed packets COUNT        so many transport packets, for the sender
 *   feed blocks COUNT         so many interleaved blocks of 204 bytes of a sent
 *                             stream, for the report program
 *   feed blocks COUNT EVERY   about one byte in EVERY is wrong
 *
 * The packets come round again, and the blocks go on over the seam as those of an
 * interleaver do that has been running all along. The errors are new each time. */
#include "plain.h"

#include <stdio.h>
#include <stdlib.h>
#include <string.h>

enum { BLOCKS = 5000 }; /* of one round: whole groups of eight */

static uint8_t packets[BLOCKS][188], coded[BLOCKS][204], sent[BLOCKS][204], out[BLOCKS][204];

static uint64_t state = 300421;
static uint64_t random_number(void)
{
    state ^= state << 13, state ^= state >> 7, state ^= state << 17;
    return state >> 16;
}

static void prepare(void)
{
    for (int b = 0; b < BLOCKS; b++) {
        uint8_t randomized[188];
        packets[b][0] = 0x47;
        for (int n = 1; n < 188; n++)
            packets[b][n] = (uint8_t)random_number();
        PLAIN(randomize)((uint8_t)(b % 8), packets[b], 188, randomized, 188);
        PLAIN(rs_encode)(randomized, 188, coded[b], 204);
    }
    for (int b = 0; b < BLOCKS; b++)
        for (int n = 0; n < 204; n++)
            sent[b][n] = coded[(b + BLOCKS - n % 12) % BLOCKS][n];
}

int main(int argc, char **argv)
{
    int of_packets = argc == 3 && !strcmp(argv[1], "packets");
    if (!of_packets && (argc < 3 || argc > 4 || strcmp(argv[1], "blocks"))) {
        fprintf(stderr, "feed packets COUNT | blocks COUNT [EVERY]\n");
        return 2;
    }
    size_t left = strtoull(argv[2], NULL, 10), every = argc == 4 ? strtoull(argv[3], NULL, 10) : 0;
    const void *stream = of_packets ? packets[0] : out[0];
    size_t length = of_packets ? sizeof packets[0] : sizeof out[0];
    prepare();
    while (left > 0) {
        size_t count = left < BLOCKS ? left : BLOCKS;
        memcpy(out, sent, sizeof out);
        for (size_t i = 0; every && i < sizeof out / every; i++)
            ((uint8_t *)out)[random_number() % sizeof out] ^= (uint8_t)(1 + random_number() % 255);
        if (fwrite(stream, length, count, stdout) != count) {
            perror("feed");
            return 1;
        }
        left -= count;
    }
    return 0;
}
