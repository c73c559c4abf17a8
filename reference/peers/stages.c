/* The library's stages as filters, standard input to standard output:
 *
 *   stages randomize | derandomize | rs_encode | rs_decode | interleaved
 *        | send RATE | receive
 *
 * interleaved: what is sent at rate 1/2 with the inner code undone (X gives each
 * bit back, the memory being known; Y must then fit). rs_decode writes the
 * counts, bytes and bits (255: no codeword), after the blocks, two bytes each. */
#include "../../include/dvbs.h"

#include <stdio.h>
#include <stdlib.h>
#include <string.h>

static uint8_t *in, *out;
static size_t in_len, out_len;

static void fail(const char *what)
{
    fprintf(stderr, "stages: %s\n", what);
    exit(1);
}

static void read_all(void)
{
    size_t output = 1 << 20;
    in = malloc(output);
    for (size_t n; in && (n = fread(in + in_len, 1, output - in_len, stdin)) > 0;) {
        in_len += n;
        if (in_len == output)
            in = realloc(in, output *= 2);
    }
    out = malloc(16 * in_len + 4096);
    if (!in || !out)
        fail("no memory");
}

static void send(uint8_t rate)
{
    uint8_t answer = 255;
    out_len = dvbs_send_run(rate, in, in_len, out, 16 * in_len + 4096, &answer, 1);
    if (answer)
        fail("send refused");
}

int main(int argc, char **argv)
{
    const char *stage = argc > 1 ? argv[1] : "";
    read_all();
    if (!strcmp(stage, "randomize") || !strcmp(stage, "derandomize")) {
        for (size_t n = 0; 188 * n < in_len; n++) {
            uint8_t (*f)(uint8_t, const uint8_t *, size_t, uint8_t *, size_t) =
                *stage == 'r' ? dvbs_randomize : dvbs_derandomize;
            if (f((uint8_t)(n % 8), in + 188 * n, 188, out + out_len, 188))
                fail("refused");
            out_len += 188;
        }
    } else if (!strcmp(stage, "rs_encode")) {
        for (size_t n = 0; 188 * n < in_len; n++, out_len += 204)
            if (dvbs_rs_encode(in + 188 * n, 188, out + out_len, 204))
                fail("refused");
    } else if (!strcmp(stage, "rs_decode")) {
        size_t blocks = in_len / 204;
        memcpy(out, in, 204 * blocks);
        for (size_t n = 0; n < blocks; n++) {
            uint8_t *count = out + 204 * blocks + 2 * n;
            count[0] = count[1] = 255;
            dvbs_rs_decode(out + 204 * n, 204, count, 2);
        }
        out_len = 206 * blocks;
    } else if (!strcmp(stage, "interleaved")) {
        send(0);
        unsigned memory = 0;
        for (size_t n = 0; n < out_len / 8; n++) {
            uint8_t byte = 0;
            for (int k = 0; k < 8; k++) {
                unsigned symbol = out[8 * n + (size_t)k];
                unsigned bit = symbol >> 1 ^ (unsigned)__builtin_parity(memory & 071);
                unsigned window = memory | bit << 6;
                if ((unsigned)__builtin_parity(window & 0133) != (symbol & 1))
                    fail("Y does not fit X");
                memory = window >> 1;
                byte = (uint8_t)(byte << 1 | bit);
            }
            out[n] = byte;
        }
        out_len /= 8;
    } else if (!strcmp(stage, "send") && argc > 2) {
        send((uint8_t)atoi(argv[2]));
    } else if (!strcmp(stage, "receive")) {
        uint8_t counts[DVBS_COUNTS], answer;
        out_len = dvbs_receive_run(in, in_len, out, 16 * in_len + 4096, counts, sizeof counts, &answer, 1);
        if (answer)
            fail("the run was refused");
    } else if (!strcmp(stage, "read_soft") && argc > 3) {
        /* Runs of so many symbols, I, Q and marks of each one after the other, from memory 0: the bits of each, and what they cost. */
        uint8_t rate = (uint8_t)atoi(argv[2]), result[DVBS_RESULT];
        size_t n = (size_t)atoi(argv[3]);
        for (size_t at = 0; at + 9 * n <= in_len; at += 9 * n) {
            float *i = malloc(4 * n), *q = malloc(4 * n);
            memcpy(i, in + at, 4 * n);
            memcpy(q, in + at + 4 * n, 4 * n);
            out_len += dvbs_read_soft_run(rate, 0, i, n, q, n, in + at + 8 * n, n, out + out_len, 1632, result, sizeof result);
            if (result[0])
                fail("the run was refused");
            memcpy(out + out_len, result + 2, 4);
            out_len += 4;
            free(i), free(q);
        }
    } else {
        fail("which stage?");
    }
    fwrite(out, 1, out_len, stdout);
    return 0;
}
