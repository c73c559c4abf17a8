/* The plain-C peer: the same functions as ../include/dvbs.h and kernels.h, with
 * the prefix plain_. */
#ifndef PLAIN_H
#define PLAIN_H

#include <stddef.h>
#include <stdint.h>

/* Built with -DPLAIN_AS_LIBRARY they take the library's own names, so that this
 * file can stand in for the library where the tools themselves are tried. */
#ifdef PLAIN_AS_LIBRARY
#define PLAIN(name) dvbs_##name
#else
#define PLAIN(name) plain_##name
#endif

uint8_t PLAIN(randomize)(uint8_t place, const uint8_t *packet, size_t packet_len, uint8_t *output, size_t output_len);
uint8_t PLAIN(derandomize)(uint8_t place, const uint8_t *packet, size_t packet_len, uint8_t *output, size_t output_len);
uint8_t PLAIN(rs_encode)(const uint8_t *data, size_t data_len, uint8_t *output, size_t output_len);
uint8_t PLAIN(rs_decode)(uint8_t *block, size_t block_len, uint8_t *count, size_t count_len);
uint8_t PLAIN(rs_decode_marked)(uint8_t *block, size_t block_len, const uint8_t *marks, size_t marks_len, uint8_t *count, size_t count_len);
uint64_t PLAIN(send_run)(uint8_t rate, const uint8_t *packets, size_t packets_len, uint8_t *output, size_t output_len,
                         uint8_t *answer, size_t answer_len);
uint64_t PLAIN(read_run)(uint8_t rate, uint8_t memory, const uint8_t *symbols, size_t symbols_len, uint8_t *output, size_t output_len,
                         uint8_t *result, size_t result_len);
uint64_t PLAIN(read_soft_run)(uint8_t rate, uint8_t memory, const float *i, size_t i_len, const float *q, size_t q_len,
                              const uint8_t *lost, size_t lost_len, uint8_t *output, size_t output_len, uint8_t *result,
                              size_t result_len);
uint64_t PLAIN(receive_run)(const uint8_t *blocks, size_t blocks_len, uint8_t *output, size_t output_len,
                            uint8_t *counts, size_t counts_len, uint8_t *answer, size_t answer_len);
uint64_t PLAIN(receive_run_marked)(const uint8_t *blocks, size_t blocks_len, const uint8_t *marks, size_t marks_len, uint8_t *output,
                                   size_t output_len, uint8_t *counts, size_t counts_len, uint8_t *answer, size_t answer_len);
uint8_t PLAIN(recording_block)(const uint8_t *recording, size_t recording_len, uint64_t blocks, uint64_t p,
                               uint8_t *output, size_t output_len, uint8_t *count, size_t count_len);

void PLAIN(scale)(uint8_t *lanes, size_t lanes_len, const uint8_t *factors, size_t factors_len);
void PLAIN(interleave)(const uint8_t *blocks, size_t blocks_len, uint8_t *output, size_t output_len);
uint64_t PLAIN(inner_code)(uint8_t rate, const uint8_t *blocks, size_t blocks_len, uint8_t *output, size_t output_len);

#endif
