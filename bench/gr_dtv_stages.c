/* The library's side of gr_dtv.py: stages over a whole list of blocks, one call of the library for each block or run. */
#include "../include/dvbs.h"
#include "kernels.h"

#include <string.h>

/* 188 bytes each to 204. */
void stage_rs_encode(const uint8_t *packets, size_t count, uint8_t *blocks)
{
    for (size_t i = 0; i < count; i++)
        dvbs_rs_encode(packets + 188 * i, 188, blocks + 204 * i, 204);
}

/* 204 bytes each, where they lie: a decoder that leaves the block elsewhere copies it too. */
void stage_rs_decode(const uint8_t *came, size_t count, uint8_t *blocks)
{
    uint8_t changed[2];
    memcpy(blocks, came, 204 * count);
    for (size_t i = 0; i < count; i++)
        dvbs_rs_decode(blocks + 204 * i, 204, changed, sizeof changed);
}

void stage_interleave(const uint8_t *blocks, size_t count, uint8_t *sent)
{
    kernel_interleave(blocks, 204 * count, sent, 204 * count);
}

/* Runs of 1,632 bits at rate 1/2, and their bits packed. */
void stage_read(const uint8_t *symbols, size_t count, uint8_t *bytes)
{
    uint8_t bits[1632], result[6], memory = 0;
    for (size_t i = 0; i < count; i++) {
        dvbs_read_run(0, memory, symbols + 1632 * i, 1632, bits, sizeof bits, result, sizeof result);
        for (size_t j = 0; j < 204; j++) {
            uint8_t byte = 0;
            for (size_t k = 0; k < 8; k++)
                byte = (uint8_t)(byte << 1 | bits[8 * j + k]);
            bytes[204 * i + j] = byte;
        }
        memory = result[1];
    }
}
