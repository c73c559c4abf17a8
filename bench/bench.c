/* Measures the library beside its peers.
 *
 *   bench list                      the kernels and their sides, and how many
 *                                   blocks a call takes
 *   bench count KERNEL SIDE CALLS   makes so many calls, in counted_calls (for callgrind)
 *   bench table COUNTS              times all, and prints two tables, by kernels and
 *                                   by the stages of the link; COUNTS is a file of
 *                                   lines "KERNEL SIDE INSTRUCTIONS"
 */
#define _POSIX_C_SOURCE 200809L
#include "../include/dvbs.h"
#include "../include/dvbs_bridge.h"
#include "kernels.h"
#include "plain.h"

#include <stdio.h>
#include <stdlib.h>
#include <string.h>
#include <time.h>
#ifdef HAVE_LIBFEC
#include <fec.h>
static void *fec, *viterbi;
#endif

#ifdef HAVE_VOLK
#include <volk/volk.h>
/* GNU Radio's decoder: VOLK's kernel for constraint length 7, and the way back with the decisions of a step as one word of 64 bits. That is faster than in GNU
 * Radio's cc_decoder, which reads them as two words in an array. */
static uint8_t volk_branches[64] __attribute__((aligned(64))), volk_metrics[2][64] __attribute__((aligned(64)));
static uint8_t volk_decisions[8 * 1632] __attribute__((aligned(64)));
#endif

#ifdef HAVE_OSMOCORE
#include <osmocom/core/conv.h>
/* The decoder of the Osmocom projects, for this code as the two tables of its trellis. */
static uint8_t osmo_outputs[64][2], osmo_states[64][2];
static int osmo_not_sent[2 * 544 + 1]; /* the coded bits of a run that are not sent at 3/4 */
static struct osmo_conv_code osmo_codes[5];
static sbit_t osmo_hard[5][2 * 1632], osmo_soft[2 * 1632]; /* -127 for a sure 1, 127 for a sure 0, and 0 for one not known */
#endif

enum { LIBRARY, PLAIN_C, LIBFEC, VOLK, OSMOCORE, SIDES };
static const char *const side_names[SIDES] = {"library", "plain", "libfec", "volk", "osmocore"};

/* A call takes the next of POOL blocks, so that no branch is learnt by heart, or
 * RUN blocks at once. */
enum { POOL = 1024, RUN = 256, FACTORS = 256, REPEATS = 200 };

static uint8_t packets[RUN * 188], data[POOL][188], coded[POOL][204];
static uint8_t harmed[5][POOL][204]; /* 0, 1, 4, 8 errors, and no codeword */
static const int errors_of[5] = {0, 1, 4, 8, 12};
static uint8_t doubtful[3][POOL][204], marks[3][POOL][204]; /* with marks: f and e */
static const int marks_of[3][2] = {{8, 0}, {8, 4}, {16, 0}};
#ifdef HAVE_LIBFEC
static int places[3][POOL][16]; /* of the marked bytes, for libfec */
#endif
static uint8_t factors[FACTORS];
static uint8_t coded_run[RUN * 204], clean_stream[RUN * 204], harmed_stream[RUN * 204];
static uint8_t output[RUN * 1632], block[204], answer[2], counts[64], result[6];
static uint8_t runs[5][1632]; /* the symbols of a longest run at each rate, whose last six bits are 0 */
static float points_i[5][1632], points_q[5][1632]; /* the same as received points, with noise */
static uint8_t lost[1632];                         /* one symbol in sixteen is lost */
static const int run_symbols[5] = {1632, 1224, 1088, 978, 932}, run_bits[5] = {1632, 1632, 1632, 1630, 1631};
static const int kept_bits[5] = {1531, 1528, 1530, 1525, 1526}; /* of a run, in a stream that is read in runs that overlap */
#if defined HAVE_LIBFEC || defined HAVE_VOLK
/* For libfec and VOLK: X and Y of each bit, 0 for a sure 0, 255 for a sure 1 and 128 for one not known. The first are those of the hard runs at 1/2 and 3/4, made
 * before the measure. */
static uint8_t soft_hard[5][2 * 1632] __attribute__((aligned(64))), soft[2 * 1632] __attribute__((aligned(64)));
#endif
static volatile uint64_t sink;

static uint64_t state = 300421;
static uint8_t random_byte(void)
{
    state ^= state << 13, state ^= state >> 7, state ^= state << 17;
    return (uint8_t)(state >> 32);
}

static uint8_t random_nonzero(void)
{
    return (uint8_t)(1 + random_byte() % 255);
}

static void harm(uint8_t *bytes, const uint8_t *right, int errors)
{
    while (errors > 0) {
        int n = random_byte() % 204;
        if (bytes[n] == right[n]) {
            bytes[n] ^= random_nonzero();
            errors--;
        }
    }
}

static void prepare(void)
{
    for (size_t n = 0; n < sizeof packets; n++)
        packets[n] = n % 188 ? random_byte() : 0x47;
    /* A zero factor would leave nothing but zeros to multiply. */
    for (int i = 0; i < FACTORS; i++)
        factors[i] = random_nonzero();
    for (int p = 0; p < POOL; p++) {
        for (int n = 0; n < 188; n++)
            data[p][n] = random_byte();
        PLAIN(rs_encode)(data[p], 188, coded[p], 204);
        for (int e = 0; e < 5; e++) {
            memcpy(harmed[e][p], coded[p], 204);
            harm(harmed[e][p], coded[p], errors_of[e]);
        }
    }
    for (int m = 0; m < 3; m++)
        for (int p = 0; p < POOL; p++) {
            uint8_t *b = doubtful[m][p];
            memcpy(b, coded[p], 204);
            harm(b, coded[p], marks_of[m][0]);
            for (int n = 0, f = 0; n < 204; n++)
                if ((marks[m][p][n] = b[n] != coded[p][n])) {
#ifdef HAVE_LIBFEC
                    places[m][p][f] = n;
#endif
                    f++;
                }
            for (int e = marks_of[m][1]; e > 0;) {
                int n = random_byte() % 204;
                if (b[n] == coded[p][n])
                    b[n] ^= random_nonzero(), e--;
            }
        }
    for (int p = 0; p < RUN; p++) {
        uint8_t randomized[188];
        PLAIN(randomize)((uint8_t)(p % 8), packets + 188 * p, 188, randomized, 188);
        PLAIN(rs_encode)(randomized, 188, coded_run + 204 * p, 204);
    }
    PLAIN(interleave)(coded_run, sizeof coded_run, clean_stream, sizeof clean_stream);
    /* One byte in 51 wrong: four in a block, now and then more than eight. */
    memcpy(harmed_stream, clean_stream, sizeof clean_stream);
    for (size_t i = 0; i < sizeof harmed_stream / 51; i++) {
        size_t n = ((size_t)random_byte() << 16 | (size_t)random_byte() << 8 | random_byte()) % sizeof harmed_stream;
        harmed_stream[n] ^= random_nonzero();
    }
    /* A coded block of random bytes with nothing but zeros at its end: at 5/6 and 7/8 the run ends a bit or two before the block does. */
    for (int rate = 0; rate < 5; rate++) {
        uint8_t bytes[204];
        memcpy(bytes, clean_stream, 204);
        bytes[203] = 0;
        PLAIN(inner_code)((uint8_t)rate, bytes, 204, output, sizeof output);
        memcpy(runs[rate], output, (size_t)run_symbols[rate]);
        for (int i = 0; i < run_symbols[rate]; i++) {
            points_i[rate][i] = (runs[rate][i] & 2 ? -1.0f : 1.0f) + ((float)random_byte() - 127.5f) / 256;
            points_q[rate][i] = (runs[rate][i] & 1 ? -1.0f : 1.0f) + ((float)random_byte() - 127.5f) / 256;
        }
    }
    for (int i = 0; i < 1632; i++)
        lost[i] = random_byte() % 16 == 0;
    memset(output, 0xa5, sizeof output);
#if defined HAVE_LIBFEC || defined HAVE_VOLK
    for (int i = 0; i < 1632; i++) {
        soft_hard[0][2 * i] = runs[0][i] >> 1 ? 255 : 0;
        soft_hard[0][2 * i + 1] = runs[0][i] & 1 ? 255 : 0;
    }
    /* X2 and Y3 of three bits are not sent. */
    for (int n = 0; n < 544; n++) {
        uint8_t *three = soft_hard[2] + 6 * n, *two = runs[2] + 2 * n;
        three[0] = two[0] >> 1 ? 255 : 0, three[1] = two[0] & 1 ? 255 : 0;
        three[2] = 128, three[3] = two[1] >> 1 ? 255 : 0;
        three[4] = two[1] & 1 ? 255 : 0, three[5] = 128;
    }
#endif
#ifdef HAVE_OSMOCORE
    for (int s = 0; s < 64; s++)
        for (int b = 0; b < 2; b++) {
            int d = b | s << 1; /* the newest bit is the lowest */
            osmo_outputs[s][b] = (uint8_t)(2 * __builtin_parity((unsigned)(d & 0117)) + __builtin_parity((unsigned)(d & 0155)));
            osmo_states[s][b] = d & 63;
        }
    for (int n = 0; n < 544; n++)
        osmo_not_sent[2 * n] = 6 * n + 2, osmo_not_sent[2 * n + 1] = 6 * n + 5;
    osmo_not_sent[1088] = -1;
    for (int rate = 0; rate < 5; rate++) {
        osmo_codes[rate] = (struct osmo_conv_code){
            .N = 2, .K = 7, .len = 1626, .term = CONV_TERM_FLUSH, .next_output = osmo_outputs, .next_state = osmo_states};
        if (rate == 2)
            osmo_codes[rate].puncture = osmo_not_sent;
        for (int i = 0; i < run_symbols[rate]; i++) {
            osmo_hard[rate][2 * i] = runs[rate][i] >> 1 ? -127 : 127;
            osmo_hard[rate][2 * i + 1] = runs[rate][i] & 1 ? -127 : 127;
        }
    }
#endif
#ifdef HAVE_LIBFEC
    set_viterbi27_polynomial((int[]){V27POLYB, V27POLYA});
    viterbi = create_viterbi27(1632);
    fec = init_rs_char(8, 0x11d, 0, 1, 16, 51);
#endif
#ifdef HAVE_VOLK
    /* The generators with the newest bit first: 171 and 133 octal, turned round. */
    static const int generators[2] = {0117, 0155};
    for (int s = 0; s < 32; s++)
        for (int g = 0; g < 2; g++)
            volk_branches[32 * g + s] = __builtin_parity((unsigned)(2 * s & generators[g])) ? 255 : 0;
#endif
}

struct kernel {
    const char *name, *what;
    int blocks; /* in one call */
    int sides;  /* bits */
    int argument;
    void (*call)(const struct kernel *k, int side, int n);
};

static void scale(const struct kernel *k, int side, int n)
{
    (void)k;
    memcpy(block, data[n % POOL], 16);
    (side == LIBRARY ? kernel_scale : PLAIN(scale))(block, 16, factors, FACTORS);
    sink += block[0];
}

static void encode(const struct kernel *k, int side, int n)
{
    const uint8_t *d = data[n % POOL];
    (void)k;
    if (side == LIBRARY)
        sink += dvbs_rs_encode(d, 188, output, 204);
    else if (side == PLAIN_C)
        sink += PLAIN(rs_encode)(d, 188, output, 204);
#ifdef HAVE_LIBFEC
    else {
        memcpy(output, d, 188);
        encode_rs_char(fec, output, output + 188);
    }
#endif
    sink += output[203];
}

static void decode(const struct kernel *k, int side, int n)
{
    memcpy(block, harmed[k->argument][n % POOL], 204);
    if (side == LIBRARY)
        sink += dvbs_rs_decode(block, 204, answer, sizeof answer);
    else if (side == PLAIN_C)
        sink += PLAIN(rs_decode)(block, 204, answer, sizeof answer);
#ifdef HAVE_LIBFEC
    else
        sink += (uint64_t)decode_rs_char(fec, block, NULL, 0);
#endif
    sink += block[0];
}

static void decode_marked(const struct kernel *k, int side, int n)
{
    memcpy(block, doubtful[k->argument][n % POOL], 204);
    if (side != LIBFEC)
        sink += (side == LIBRARY ? dvbs_rs_decode_marked
                                 : PLAIN(rs_decode_marked))(block, 204, marks[k->argument][n % POOL], 204, answer, sizeof answer);
#ifdef HAVE_LIBFEC
    else {
        int eras[16];
        memcpy(eras, places[k->argument][n % POOL], sizeof eras);
        sink += (uint64_t)decode_rs_char(fec, block, eras, marks_of[k->argument][0]);
    }
#endif
    sink += block[0];
}

/* In a loop over the places, with nothing else in it. */
static void randomize(const struct kernel *k, int side, int n)
{
    (void)k, (void)n;
    if (side == LIBRARY)
        for (int p = 0; p < RUN; p++)
            dvbs_randomize((uint8_t)(p % 8), packets + 188 * p, 188, output + 188 * p, 188);
    else
        for (int p = 0; p < RUN; p++)
            PLAIN(randomize)((uint8_t)(p % 8), packets + 188 * p, 188, output + 188 * p, 188);
    sink += output[187];
}

static void interleave(const struct kernel *k, int side, int n)
{
    (void)k, (void)n;
    (side == LIBRARY ? kernel_interleave : PLAIN(interleave))(coded_run, sizeof coded_run, output, sizeof output);
    sink += output[203];
}

static void inner_code(const struct kernel *k, int side, int n)
{
    (void)n;
    sink += (side == LIBRARY ? kernel_inner_code : PLAIN(inner_code))((uint8_t)k->argument, clean_stream, sizeof clean_stream,
                                                                      output, sizeof output);
}

static void send(const struct kernel *k, int side, int n)
{
    (void)n;
    sink += (side == LIBRARY ? dvbs_send_run : PLAIN(send_run))((uint8_t)k->argument, packets, sizeof packets,
                                                                output, sizeof output, answer, 1);
}

#ifdef HAVE_LIBFEC
static void read_by_libfec(const uint8_t *symbols)
{
    uint8_t packed[204] = {0};
    init_viterbi27(viterbi, 0);
    update_viterbi27_blk(viterbi, (uint8_t *)symbols, 1632);
    chainback_viterbi27(viterbi, packed, 1626, 0);
    for (int i = 0; i < 1632; i++)
        output[i] = packed[i / 8] >> (7 - i % 8) & 1;
}
#endif

#ifdef HAVE_VOLK
static void read_by_volk(const uint8_t *symbols)
{
    memset(volk_metrics[0], 63, 64);
    volk_metrics[0][0] = 0;
    memset(volk_decisions, 0, sizeof volk_decisions);
    volk_8u_x4_conv_k7_r2_8u(volk_metrics[1], volk_metrics[0], (uint8_t *)symbols, volk_decisions, 1626, 6, volk_branches);
    unsigned state = 0;
    for (int i = 1632; i-- > 0;) {
        uint64_t decisions;
        memcpy(&decisions, volk_decisions + 8 * i, 8);
        output[i] = state & 1;
        state = state >> 1 | (unsigned)(decisions >> state & 1) << 5;
    }
}
#endif

#if defined HAVE_LIBFEC || defined HAVE_VOLK
/* A number as libfec and VOLK take it, on the scale of GNU Radio's decoder: 48 for 1.0. */
static uint8_t softened(float x)
{
    x = 128.5f - 48 * x;
    x = x > 0 ? x : 0;
    return (uint8_t)(int)(x < 255 ? x : 255);
}

/* The points of a run at 1/2 or 3/4. In loops that the compiler makes vectors of. */
static void soften(int rate)
{
    static uint8_t i[1632], q[1632];
    int symbols = run_symbols[rate];
    for (int n = 0; n < symbols; n++)
        i[n] = softened(points_i[rate][n]);
    for (int n = 0; n < symbols; n++)
        q[n] = softened(points_q[rate][n]);
    for (int n = 0; n < symbols; n++) {
        i[n] = lost[n] ? 128 : i[n];
        q[n] = lost[n] ? 128 : q[n];
    }
    if (rate == 0)
        for (int n = 0; n < 1632; n++)
            soft[2 * n] = i[n], soft[2 * n + 1] = q[n];
    else /* X2 and Y3 of three bits are not sent */
        for (int n = 0; n < 544; n++) {
            uint8_t *three = soft + 6 * n;
            three[0] = i[2 * n], three[1] = q[2 * n];
            three[2] = 128, three[3] = i[2 * n + 1];
            three[4] = q[2 * n + 1], three[5] = 128;
        }
}
#endif

#ifdef HAVE_OSMOCORE
/* After code for AVX that does not clear the upper halves of the registers, code for SSE takes twice its time. */
__attribute__((target("avx"))) static void clear_upper_halves(void)
{
    __builtin_ia32_vzeroupper();
}

static void read_by_osmocore(int rate, const sbit_t *symbols)
{
    osmo_conv_decode(&osmo_codes[rate], symbols, output);
    memset(output + 1626, 0, 6);
    if (__builtin_cpu_supports("avx"))
        clear_upper_halves();
}

static sbit_t osmo_softened(float x)
{
    x = 48 * x;
    x = x > -127 ? x : -127;
    return (sbit_t)(int)(x < 127 ? x : 127);
}

static void osmo_soften(int rate)
{
    static sbit_t i[1632], q[1632];
    int symbols = run_symbols[rate];
    for (int n = 0; n < symbols; n++)
        i[n] = osmo_softened(points_i[rate][n]);
    for (int n = 0; n < symbols; n++)
        q[n] = osmo_softened(points_q[rate][n]);
    for (int n = 0; n < symbols; n++) {
        i[n] = lost[n] ? 0 : i[n];
        q[n] = lost[n] ? 0 : q[n];
    }
    for (int n = 0; n < symbols; n++)
        osmo_soft[2 * n] = i[n], osmo_soft[2 * n + 1] = q[n];
}
#endif

static void read_run(const struct kernel *k, int side, int n)
{
    int rate = k->argument;
    (void)n;
    if (side == LIBRARY || side == PLAIN_C)
        sink += (side == LIBRARY ? dvbs_read_run : PLAIN(read_run))((uint8_t)rate, 0, runs[rate], (size_t)run_symbols[rate], output,
                                                                    (size_t)run_bits[rate], result, 6);
#ifdef HAVE_LIBFEC
    else if (side == LIBFEC)
        read_by_libfec(soft_hard[rate]);
#endif
#ifdef HAVE_VOLK
    else if (side == VOLK)
        read_by_volk(soft_hard[rate]);
#endif
#ifdef HAVE_OSMOCORE
    else if (side == OSMOCORE)
        read_by_osmocore(rate, osmo_hard[rate]);
#endif
    sink += output[0];
}

static void read_soft_run(const struct kernel *k, int side, int n)
{
    int rate = k->argument;
    size_t symbols = (size_t)run_symbols[rate];
    (void)n;
    if (side == LIBRARY || side == PLAIN_C)
        sink += (side == LIBRARY ? dvbs_read_soft_run : PLAIN(read_soft_run))((uint8_t)rate, 0, points_i[rate], symbols, points_q[rate], symbols,
                                                                              lost, symbols, output, (size_t)run_bits[rate], result, 6);
#ifdef HAVE_LIBFEC
    else if (side == LIBFEC)
        soften(rate), read_by_libfec(soft);
#endif
#ifdef HAVE_VOLK
    else if (side == VOLK)
        soften(rate), read_by_volk(soft);
#endif
#ifdef HAVE_OSMOCORE
    else if (side == OSMOCORE)
        osmo_soften(rate), read_by_osmocore(rate, osmo_soft);
#endif
    sink += output[0];
}

static void receive(const struct kernel *k, int side, int n)
{
    const uint8_t *stream = k->argument ? harmed_stream : clean_stream;
    (void)n;
    sink += (side == LIBRARY ? dvbs_receive_run : PLAIN(receive_run))(stream, sizeof clean_stream, output, sizeof output, counts, sizeof counts,
                                                                      answer, 1);
}

/* The state is kept as bytes between the blocks. */
static void bridge(const struct kernel *k, int side, int n)
{
    static uint8_t kept[DVBS_BRIDGE_STATE];
    const uint8_t *stream = k->argument ? harmed_stream : clean_stream;
    if (side != LIBRARY) {
        receive(k, side, n);
        return;
    }
    size_t written = 0;
    dvbs_bridge_fresh(kept, sizeof kept);
    for (int p = 0; p < RUN; p++)
        if (dvbs_bridge_take(kept, sizeof kept, stream + 204 * p, 204, output + written, 188) == 0)
            written += 188;
    sink += written;
}

/* The same of a receiver that is fed with pieces of so many blocks, with a mark for each byte, and writes its report at the end. */
static void pieces(const struct kernel *k, int side, int n)
{
    static uint8_t kept[DVBS_RECEIVER_STATE], marks[RUN * 204], text[DVBS_REPORT];
    const size_t piece = 204 * (size_t)k->argument;
    if (side != LIBRARY) {
        const struct kernel clean = {k->name, k->what, k->blocks, k->sides, 0, receive};
        receive(&clean, side, n);
        return;
    }
    size_t written = 0;
    dvbs_receiver_fresh(kept, sizeof kept);
    for (size_t at = 0; at < sizeof clean_stream; at += piece)
        written += dvbs_receiver_feed(kept, sizeof kept, clean_stream + at, piece, marks + at, piece, output + written, sizeof output - written, answer, 1);
    sink += written + dvbs_receiver_report(kept, sizeof kept, text, sizeof text, answer, 1);
}

/* The same of a reader that is fed with as many points as a longest run has; no other side reads a stream. */
static void points(const struct kernel *k, int side, int n)
{
    static uint8_t kept[DVBS_READER_STATE], left[2];
    const int rate = k->argument;
    const size_t symbols = (size_t)run_symbols[rate];
    (void)side, (void)n;
    size_t written = 0;
    dvbs_reader_fresh(kept, sizeof kept, (uint8_t)rate);
    for (int p = 0; p < RUN; p++)
        written += dvbs_reader_feed_soft(kept, sizeof kept, points_i[rate], symbols, points_q[rate], symbols, lost, symbols, output + written,
                                         sizeof output - written, answer, 1);
    sink += written + dvbs_reader_end(kept, sizeof kept, output + written, sizeof output - written, left, sizeof left, answer, 1);
}

/* The same of a sender, packet by packet. */
static void truck(const struct kernel *k, int side, int n)
{
    static uint8_t kept[DVBS_SENDER_STATE];
    if (side != LIBRARY) {
        send(k, side, n);
        return;
    }
    size_t written = 0;
    dvbs_sender_fresh(kept, sizeof kept, (uint8_t)k->argument);
    for (int p = 0; p < RUN; p++)
        written += dvbs_sender_send(kept, sizeof kept, packets + 188 * p, 188, output + written, sizeof output - written, answer, 1);
    sink += written;
}

enum { ONE = 1, TWO = 3, THREE = 7, ALL = 31 };
static const struct kernel kernels[] = {
    {"scale", "field product, 16 lanes", FACTORS, TWO, 0, scale},
    {"rs_encode", "RS encode", 1, THREE, 0, encode},
    {"rs_decode_0", "RS decode, clean", 1, THREE, 0, decode},
    {"rs_decode_1", "RS decode, 1 error", 1, THREE, 1, decode},
    {"rs_decode_4", "RS decode, 4 errors", 1, THREE, 2, decode},
    {"rs_decode_8", "RS decode, 8 errors", 1, THREE, 3, decode},
    {"rs_decode_lost", "RS decode, uncorrectable", 1, THREE, 4, decode},
    {"rs_decode_f8", "RS decode, 8 marks", 1, THREE, 0, decode_marked},
    {"rs_decode_f8_e4", "RS decode, 8 and 4", 1, THREE, 1, decode_marked},
    {"rs_decode_f16", "RS decode, 16 marks", 1, THREE, 2, decode_marked},
    {"randomize", "randomizer", RUN, TWO, 0, randomize},
    {"interleave", "interleaver", RUN, TWO, 0, interleave},
    {"inner_code_1_2", "inner coder, 1/2", RUN, TWO, 0, inner_code},
    {"inner_code_2_3", "inner coder, 2/3", RUN, TWO, 1, inner_code},
    {"inner_code_3_4", "inner coder, 3/4", RUN, TWO, 2, inner_code},
    {"inner_code_5_6", "inner coder, 5/6", RUN, TWO, 3, inner_code},
    {"inner_code_16qam", "inner coder, 16QAM 3/4", RUN, TWO, 5, inner_code},
    {"send_1_2", "send a packet, 1/2", RUN, TWO, 0, send},
    {"send_2_3", "send a packet, 2/3", RUN, TWO, 1, send},
    {"send_3_4", "send a packet, 3/4", RUN, TWO, 2, send},
    {"send_5_6", "send a packet, 5/6", RUN, TWO, 3, send},
    {"send_16qam", "send a packet, 16QAM 3/4", RUN, TWO, 5, send},
    {"truck_3_4", "truck, a packet, 3/4", RUN, TWO, 2, truck},
    {"read_1_2", "read 1,632 bits, 1/2", 1, ALL, 0, read_run},
    {"read_2_3", "read 1,632 bits, 2/3", 1, TWO, 1, read_run},
    {"read_3_4", "read 1,632 bits, 3/4", 1, ALL, 2, read_run},
    {"read_5_6", "read 1,630 bits, 5/6", 1, TWO, 3, read_run},
    {"read_7_8", "read 1,631 bits, 7/8", 1, TWO, 4, read_run},
    {"read_soft_1_2", "read 1,632 softly, 1/2", 1, ALL, 0, read_soft_run},
    {"read_soft_3_4", "read 1,632 softly, 3/4", 1, ALL, 2, read_soft_run},
    {"stream_soft_3_4", "stream, 1,088 points, 3/4", RUN, ONE, 2, points},
    {"receive_clean", "receive a block, clean", RUN, TWO, 0, receive},
    {"receive_harmed", "receive a block, harmed", RUN, TWO, 1, receive},
    {"bridge_clean", "bridge, a clean block", RUN, TWO, 0, bridge},
    {"bridge_harmed", "bridge, a harmed block", RUN, TWO, 1, bridge},
    {"pieces_1", "fed block by block", RUN, TWO, 1, pieces},
    {"pieces_16", "fed by sixteen blocks", RUN, TWO, 16, pieces},
};
enum { KERNELS = sizeof kernels / sizeof *kernels };

/* The stages of the link, each the sum of kernels. */
static const struct {
    const char *what, *kernels[3];
} stages[] = {
    {"energy dispersal", {"randomize"}},
    {"outer coder", {"rs_encode"}},
    {"interleaver", {"interleave"}},
    {"inner coder, 1/2", {"inner_code_1_2"}},
    {"inner coder, 3/4", {"inner_code_3_4"}},
    {"sender, 1/2", {"send_1_2"}},
    {"sender, 3/4", {"send_3_4"}},
    {"inner decoder, hard, 1/2", {"read_1_2"}},
    {"inner decoder, soft, 1/2", {"read_soft_1_2"}},
    {"inner decoder, hard, 3/4", {"read_3_4"}},
    {"inner decoder, soft, 3/4", {"read_soft_3_4"}},
    {"outer decoder, clean", {"rs_decode_0"}},
    {"outer decoder, 4 errors", {"rs_decode_4"}},
    {"receiver, clean", {"receive_clean"}},
    {"receiver, harmed", {"receive_harmed"}},
    {"bridge, clean", {"bridge_clean"}},
    {"bridge, harmed", {"bridge_harmed"}},
    {"whole link, soft, 1/2", {"send_1_2", "read_soft_1_2", "receive_clean"}},
    {"whole link, hard, 3/4", {"send_3_4", "read_3_4", "receive_clean"}},
    {"whole link, soft, 3/4", {"send_3_4", "read_soft_3_4", "receive_clean"}},
    {"the same, harmed", {"send_3_4", "read_soft_3_4", "receive_harmed"}},
};
enum { STAGES = sizeof stages / sizeof *stages };

static int has(const struct kernel *k, int side)
{
#ifndef HAVE_LIBFEC
    if (side == LIBFEC)
        return 0;
#endif
#ifndef HAVE_VOLK
    if (side == VOLK)
        return 0;
#endif
#ifndef HAVE_OSMOCORE
    if (side == OSMOCORE)
        return 0;
#endif
    return k->sides >> side & 1;
}

static double now(void)
{
    struct timespec t;
    clock_gettime(CLOCK_MONOTONIC, &t);
    return (double)t.tv_sec * 1e9 + (double)t.tv_nsec;
}

static double time_of(const struct kernel *k, int side, int calls)
{
    double start = now();
    for (int n = 0; n < calls; n++)
        k->call(k, side, n);
    return (now() - start) / calls / k->blocks;
}

/* The sides agree on what they are timed on. */
static int agree(const struct kernel *k)
{
    static uint8_t kept[sizeof output];
    uint8_t kept_block[204];
    int calls = k->blocks == 1 ? POOL : 1;
    size_t used = k->blocks == 1 ? 1632 : sizeof output;
    for (int n = 0; n < calls; n++)
        for (int side = 0; side < SIDES; side++) {
            if (!has(k, side))
                continue;
            memset(output, 0xa5, used);
            memset(block, 0, sizeof block);
            k->call(k, side, n);
            if (side == LIBRARY)
                memcpy(kept, output, used), memcpy(kept_block, block, 204);
            else if (memcmp(kept, output, used) || memcmp(kept_block, block, 204))
                return 0;
        }
    return 1;
}

static void cell(int there, const char *format, double value)
{
    if (there)
        printf(format, value);
    else
        printf("          -");
}

static int index_of(const char *name)
{
    int i = 0;
    while (strcmp(name, kernels[i].name))
        i++;
    return i;
}

/* The useful bits, those of transport packets, that one figure of a kernel is for. */
static double useful_bits(const struct kernel *k)
{
    int reads = k->call == read_run || k->call == read_soft_run;
    return reads ? kept_bits[k->argument] * 188.0 / 204 : 188 * 8;
}

/* What a stage takes for a useful bit, 0 where a kernel of it was not measured. */
static double per_bit(int stage, int side, double figures[KERNELS][SIDES])
{
    double sum = 0;
    for (int n = 0; n < 3 && stages[stage].kernels[n]; n++) {
        int i = index_of(stages[stage].kernels[n]);
        if (figures[i][side] == 0)
            return 0;
        sum += figures[i][side] / useful_bits(&kernels[i]);
    }
    return sum;
}

static void stage_table(double instructions[KERNELS][SIDES], double times[KERNELS][SIDES])
{
    printf("\nThe stages of the link, from the figures above. Useful bits are those of transport packets. The inner decoders read\n"
           "runs that overlap: of a run %d bits are kept at 1/2 and %d at 3/4, which is taken so for every side.\n\n",
           kept_bits[0], kept_bits[2]);
    printf("%-25s|         Mbit/s of useful bits                          |         instructions for a useful bit\n", "");
    printf("%-25s|    library    plain C     libfec       VOLK   osmocore |    library    plain C     libfec       VOLK   osmocore\n", "stage");
    for (int i = 0; i < STAGES; i++) {
        printf("%-25s|", stages[i].what);
        for (int s = 0; s < SIDES; s++) {
            double t = per_bit(i, s, times), rate = t > 0 ? 1e3 / t : 0;
            cell(t > 0, rate < 100 ? "%11.1f" : "%11.0f", rate);
        }
        printf(" |");
        for (int s = 0; s < SIDES; s++) {
            double n = per_bit(i, s, instructions);
            cell(n > 0, n < 1 ? "%11.2f" : "%11.1f", n);
        }
        printf("\n");
    }
}

static int table(const char *counts_file)
{
    static double instructions[KERNELS][SIDES], times[KERNELS][SIDES];
    FILE *f = fopen(counts_file, "r");
    char name[64], side_name[64];
    double value;
    while (f && fscanf(f, "%63s %63s %lf", name, side_name, &value) == 3)
        for (int i = 0; i < KERNELS; i++)
            for (int s = 0; s < SIDES; s++)
                if (!strcmp(name, kernels[i].name) && !strcmp(side_name, side_names[s]))
                    instructions[i][s] = value;
    if (f)
        fclose(f);

    printf("Each figure is for one block: one packet in the randomizer and in sending, one longest run in reading,\n"
           "and in the field product sixteen lanes times one factor.\n"
           "Randomizer, interleaver, inner coder, sending, receiving: %d blocks from a fresh state, divided.\n"
           "Data is random. Output buffers are not cleared: they are lent as the call before left them. A block to be\n"
           "decoded is copied in afresh before every call, inside the measure, on every side.\n"
           "Plain C is built at -O3, the others as their packages have them. Times: best of %d, the sides taking turns.\n"
           "Ratio: the library's time to the peer's.\n\n",
           RUN, REPEATS);
    printf("%-25s|                instructions                            |                  time, ns                              |         ratio of times\n", "");
    printf("%-25s|    library    plain C     libfec       VOLK   osmocore |    library    plain C     libfec       VOLK   osmocore | to plain C  to libfec    to VOLK to osmocore\n", "kernel");
    int bad = 0;
    for (int i = 0; i < KERNELS; i++) {
        const struct kernel *k = &kernels[i];
        if (!agree(k)) {
            printf("%-25s|  the sides give different results\n", k->what);
            bad = 1;
            continue;
        }
        double *best = times[i];
        int calls[SIDES];
        for (int s = 0; s < SIDES; s++) {
            calls[s] = 1;
            if (has(k, s)) {
                double once = time_of(k, s, k->blocks == 1 ? 200 : 1) * k->blocks;
                calls[s] = once > 1e6 ? 1 : (int)(1e6 / once) + 1;
            }
        }
        for (int r = 0; r < REPEATS; r++)
            for (int s = 0; s < SIDES; s++)
                if (has(k, s)) {
                    double t = time_of(k, s, calls[s]);
                    if (best[s] == 0 || t < best[s])
                        best[s] = t;
                }
        printf("%-25s|", k->what);
        for (int s = 0; s < SIDES; s++)
            cell(instructions[i][s] > 0, "%11.0f", instructions[i][s]);
        printf(" |");
        for (int s = 0; s < SIDES; s++)
            cell(has(k, s), "%11.1f", best[s]);
        printf(" |");
        for (int s = 1; s < SIDES; s++)
            cell(has(k, s), "%11.2f", best[LIBRARY] / (best[s] > 0 ? best[s] : 1));
        printf("\n");
        fflush(stdout);
    }
    stage_table(instructions, times);
    return bad;
}

static void make_calls(const struct kernel *k, int side, int calls)
{
    for (int n = 0; n < calls; n++)
        k->call(k, side, n);
}

/* callgrind counts what is in this function alone; what a first call prepares is behind it. */
__attribute__((noinline)) void counted_calls(const struct kernel *k, int side, int calls);
void counted_calls(const struct kernel *k, int side, int calls)
{
    make_calls(k, side, calls);
}

int main(int argc, char **argv)
{
    prepare();
    if (argc == 2 && !strcmp(argv[1], "list")) {
        for (int i = 0; i < KERNELS; i++)
            for (int s = 0; s < SIDES; s++)
                if (has(&kernels[i], s))
                    printf("%s %s %d\n", kernels[i].name, side_names[s], kernels[i].blocks);
        return 0;
    }
    if (argc == 5 && !strcmp(argv[1], "count")) {
        int calls = atoi(argv[4]);
        for (int i = 0; i < KERNELS; i++)
            for (int s = 0; s < SIDES; s++)
                if (!strcmp(argv[2], kernels[i].name) && !strcmp(argv[3], side_names[s]) && has(&kernels[i], s)) {
                    make_calls(&kernels[i], s, 1);
                    counted_calls(&kernels[i], s, calls);
                    return 0;
                }
        return 2;
    }
    if (argc == 3 && !strcmp(argv[1], "table"))
        return table(argv[2]);
    fprintf(stderr, "bench: count KERNEL SIDE CALLS | list | table COUNTS\n");
    return 2;
}
