/* The functions of crates/kernels, which the benchmark and the tests alone call. A buffer is
 * a pointer and its length. */
#ifndef KERNELS_H
#define KERNELS_H

#include <stddef.h>
#include <stdint.h>

/* The first 16 bytes times each factor, one after the other; fewer stay. */
void kernel_scale(uint8_t *lanes, size_t lanes_len, const uint8_t *factors, size_t factors_len);

/* The whole blocks of 204 bytes through a fresh interleaver. An output shorter than
 * the blocks is left as it is. */
void kernel_interleave(const uint8_t *blocks, size_t blocks_len, uint8_t *output, size_t output_len);

/* The whole blocks through a fresh inner coder; returns the symbols written. A
 * mode that is not sent, or room for fewer symbols than bits: returns 0, writes nothing. */
uint64_t kernel_inner_code(uint8_t rate, const uint8_t *blocks, size_t blocks_len, uint8_t *output, size_t output_len);

#endif
