/* The functions of both headers, as a C program has them from there: on inputs all but those of the states that truck, board and bridge_pass keep, and the refusals of all.
 *
 *     calls NAME [WORD] < INPUT > OUTPUT
 *
 * NAME is a function without dvbs_ in front, `receiver` for those of a receiver's state, or `refusals`. What it gives is on standard output, and what else it tells
 * on standard error, in the lines of the programs, with which tests/calls.sh compares both. Where an answer is not the one that is due, that is said, and the status
 * is 1. The answer 7 of runs over more than 4,294,967,295 blocks is not tried: no memory holds them. */
#include "dvbs.h"
#include "dvbs_bridge.h"

#include <stdio.h>
#include <stdlib.h>
#include <string.h>

enum { MOST = 1 << 20 };

static uint8_t input[MOST], marks[MOST], output[MOST], state[DVBS_RECEIVER_STATE];
static float i[MOST / 8], q[MOST / 8];
static uint64_t lines[MOST / DVBS_BLOCK];
static size_t length;

/* Ends where an answer is not the one that is due. */
static void due(const char *call, unsigned wanted, unsigned got)
{
    if (got == wanted)
        return;
    fprintf(stderr, "%s: %u, not %u\n", call, got, wanted);
    exit(1);
}

static void give(uint64_t count)
{
    if (fwrite(output, 1, (size_t)count, stdout) != count || fflush(stdout) != 0)
        due("output", 1, 0);
}

/* Runs a stage over packets, messages or blocks of so many bytes, each with its number; room is what one gives. */
static void stages(size_t from, size_t room, uint8_t (*stage)(size_t, const uint8_t *, uint8_t *))
{
    size_t n;
    for (n = 0; n < length / from; n++)
        due("stage", 0, stage(n, input + from * n, output + room * n));
    give(room * n);
}

static uint8_t randomized(size_t n, const uint8_t *packet, uint8_t *room)
{
    return dvbs_randomize((uint8_t)(n % 8), packet, DVBS_PACKET, room, DVBS_PACKET);
}

static uint8_t derandomized(size_t n, const uint8_t *packet, uint8_t *room)
{
    return dvbs_derandomize((uint8_t)(n % 8), packet, DVBS_PACKET, room, DVBS_PACKET);
}

static uint8_t coded(size_t n, const uint8_t *message, uint8_t *room)
{
    (void)n;
    return dvbs_rs_encode(message, DVBS_PACKET, room, DVBS_BLOCK);
}

/* Block n comes with n modulo 9 bytes inverted, and so many bytes and bits must be changed. */
static uint8_t decoded(size_t n, const uint8_t *block, uint8_t *room)
{
    uint8_t count[2], wrong = (uint8_t)(n % 9), answer;
    memcpy(room, block, DVBS_BLOCK);
    for (size_t k = 0; k < wrong; k++)
        room[25 * k] ^= 0xff;
    answer = dvbs_rs_decode(room, DVBS_BLOCK, count, 2);
    due("changed", wrong, count[0]);
    due("bits", 8u * wrong, count[1]);
    return answer;
}

/* The same with n modulo 17 bytes, all of them marked. */
static uint8_t decoded_marked(size_t n, const uint8_t *block, uint8_t *room)
{
    uint8_t count[2], doubtful[DVBS_BLOCK] = {0}, wrong = (uint8_t)(n % 17), answer;
    memcpy(room, block, DVBS_BLOCK);
    for (size_t k = 0; k < wrong; k++) {
        room[12 * k] ^= 0xff;
        doubtful[12 * k] = 1;
    }
    answer = dvbs_rs_decode_marked(room, DVBS_BLOCK, doubtful, DVBS_BLOCK, count, 2);
    due("changed", wrong, count[0]);
    due("bits", 8u * wrong, count[1]);
    return answer;
}

/* The points of the input, two f32 each. Returns how many. */
static size_t points(void)
{
    size_t n;
    for (n = 0; n < length / 8; n++) {
        memcpy(&i[n], input + 8 * n, 4);
        memcpy(&q[n], input + 8 * n + 4, 4);
        marks[n] = i[n] != i[n] && q[n] != q[n];
    }
    return n;
}

/* Reads runs of whole patterns, as long as they may be, and packs the bits into bytes. */
static void runs(uint8_t rate, int soft)
{
    static const size_t bits[] = {1, 4, 3, 5, 7}, symbols[] = {1, 3, 2, 3, 4};
    size_t patterns = 1632 / bits[rate], run, at, all = soft ? points() : length, came = 0;
    uint8_t room[1632], result[DVBS_RESULT] = {0};
    for (at = 0; at + symbols[rate] <= all; at += run) {
        run = (all - at) / symbols[rate] < patterns ? (all - at) / symbols[rate] * symbols[rate] : patterns * symbols[rate];
        uint64_t count = soft ? dvbs_read_soft_run(rate, result[1], i + at, run, q + at, run, marks + at, run, room, sizeof room, result, sizeof result)
                              : dvbs_read_run(rate, result[1], input + at, run, room, sizeof room, result, sizeof result);
        due("run", 0, result[0]);
        due("run's cost", 0, result[2]);
        for (size_t k = 0; k < count; k++, came++)
            output[came / 8] = (uint8_t)(output[came / 8] | room[k] << (7 - came % 8));
    }
    give(came / 8);
}

/* Feeds a reader with growing pieces, and ends it. */
static void reader(uint8_t rate, int soft)
{
    size_t all = soft ? points() : length, at = 0, piece = 1;
    uint8_t answer = 99, left[2];
    uint64_t given = 0;
    due("reader_fresh", 0, dvbs_reader_fresh(state, DVBS_READER_STATE, rate));
    for (; at < all; at += piece, piece += 97) {
        if (piece > all - at)
            piece = all - at;
        size_t room = piece / 4 + 409;
        given += soft ? dvbs_reader_feed_soft(state, DVBS_READER_STATE, i + at, piece, q + at, piece, marks + at, piece, output + given, room, &answer, 1)
                      : dvbs_reader_feed(state, DVBS_READER_STATE, input + at, piece, output + given, room, &answer, 1);
        due("reader_feed", 0, answer);
    }
    given += dvbs_reader_end(state, DVBS_READER_STATE, output + given, 204, left, 2, &answer, 1);
    due("reader_end", 0, answer);
    give(given);
    fprintf(stderr, "rest=%u\nbits=%u\n", left[0], left[1]);
    if (soft)
        fprintf(stderr, "bytes=%u\n", (unsigned)(length % 8));
}

/* The packets of a recording, and its report. */
static void received(const char *marked)
{
    static const char *const names[] = {"taken", "filling", "delivered", "lost", "waiting", "outofstep", "changed", "bits"};
    uint8_t counts[DVBS_COUNTS], answer = 99;
    size_t room = length / DVBS_BLOCK * DVBS_PACKET;
    give(marked ? dvbs_receive_run_marked(input, length, marks, length, output, room, counts, sizeof counts, &answer, 1)
                : dvbs_receive_run(input, length, output, room, counts, sizeof counts, &answer, 1));
    due("receive_run", 0, answer);
    fprintf(stderr, "form=2\n");
    for (int n = 0; n < 8; n++) {
        unsigned long long value = 0;
        for (int k = 7; k >= 0; k--)
            value = value << 8 | counts[8 * n + k];
        fprintf(stderr, "%s=%llu\n", names[n], value);
    }
    fprintf(stderr, "rest=%u\n", (unsigned)(length % DVBS_BLOCK));
}

/* The same by a receiver that is fed with growing pieces. */
static void receiver(void)
{
    size_t at, piece = 1;
    uint8_t answer = 99, report[DVBS_REPORT];
    uint64_t given = 0;
    due("receiver_fresh", 0, dvbs_receiver_fresh(state, DVBS_RECEIVER_STATE));
    for (at = 0; at < length; at += piece, piece += 97) {
        if (piece > length - at)
            piece = length - at;
        given += dvbs_receiver_feed(state, DVBS_RECEIVER_STATE, input + at, piece, marks + at, piece, output + given,
                                    (state[DVBS_RECEIVER_STATE - 1] + piece) / DVBS_BLOCK * DVBS_PACKET, &answer, 1);
        due("receiver_feed", 0, answer);
    }
    give(given);
    given = dvbs_receiver_report(state, DVBS_RECEIVER_STATE, report, sizeof report, &answer, 1);
    due("receiver_report", 0, answer);
    fwrite(report, 1, (size_t)given, stderr);
}

/* A block of a recording. */
static int block(const char *number)
{
    uint8_t count[2] = {0};
    unsigned answer = dvbs_recording_block(input, length, length / DVBS_BLOCK, strtoull(number, NULL, 10), output, DVBS_BLOCK, count, 2);
    if (answer == 0)
        give(DVBS_BLOCK);
    fprintf(stderr, "answer=%u changed=%u bits=%u\n", answer, count[0], count[1]);
    return answer != 0;
}

/* What to ask for again of a recording. */
static void losses(const char *marked)
{
    uint8_t answer = 99;
    uint64_t count = dvbs_losses_run(input, length, marks, marked ? length : 0, lines, length / DVBS_BLOCK, &answer, 1);
    due("losses_run", 0, answer);
    for (uint64_t n = 0; n < count; n++) {
        unsigned kind = (unsigned)(lines[n] % 16);
        printf("block=%llu %s=%u\n", (unsigned long long)(lines[n] / 16), kind ? "answer" : "doubt", kind ? kind : 1);
    }
    printf("rest=%u\n", (unsigned)(length % DVBS_BLOCK));
}

/* ---- refusals: the answer that is due, and every byte that was lent as it was. */
static struct {
    uint8_t state[DVBS_LOCK_STATE], packet[DVBS_BLOCK], zeros[DVBS_BLOCK], block[DVBS_BLOCK], marks[12 * DVBS_BLOCK], recording[12 * DVBS_BLOCK], symbols[1633];
    uint8_t output[12 * DVBS_PACKET], text[DVBS_LOCK_TEXT], count[DVBS_COUNTS];
    float i[1633], q[1633];
    uint64_t lines[12], counts[2];
} lent, was;
static uint8_t answer, result[DVBS_RESULT];

static void kept(const char *call)
{
    due(call, 0, memcmp(&lent, &was, sizeof was) != 0);
}

/* A call that returns its answer. */
#define REFUSED(wanted, call) (memcpy(&was, &lent, sizeof was), due(#call, wanted, call), kept(#call))
/* One that returns how much was given, here nothing, and has its answer in a byte; 99 where that is not lent. */
#define NOTHING(wanted, call) (memcpy(&was, &lent, sizeof was), answer = 99, due(#call, 0, (unsigned)(call)), due(#call, wanted, answer), kept(#call))
/* One that has a result: the answer, the memory that was given, here 7 or 64, and the number 0. */
#define NO_RUN(wanted, memory, call)                                                                                                                       \
    (memcpy(&was, &lent, sizeof was), memset(result, 99, sizeof result), due(#call, 0, (unsigned)(call)), due(#call, wanted, result[0]),                   \
     due(#call, memory, result[1]), due(#call, 0, result[2] | result[3] | result[4] | result[5]), kept(#call))

/* Makes the receiver at the front of the state one that has taken 4,294,967,295 blocks, all but the first eleven lost. */
static void limit(void)
{
    memset(lent.state + 1136, 0xff, 4);
    lent.state[1144] = 11;
    memset(lent.state + 1160, 0xff, 4);
    lent.state[1160] = 0xf4;
}

static void stage_refusals(void)
{
    REFUSED(5, dvbs_randomize(8, lent.packet, 188, lent.output, 188));
    REFUSED(1, dvbs_randomize(0, lent.packet, 187, lent.output, 188));
    REFUSED(2, dvbs_randomize(0, lent.zeros, 188, lent.output, 188));
    REFUSED(4, dvbs_randomize(0, lent.packet, 188, lent.output, 187));
    REFUSED(5, dvbs_derandomize(8, lent.packet, 188, lent.output, 188));
    REFUSED(1, dvbs_derandomize(0, lent.packet, 189, lent.output, 188));
    REFUSED(4, dvbs_derandomize(0, lent.packet, 188, lent.output, 187));
    REFUSED(1, dvbs_rs_encode(lent.packet, 189, lent.output, 204));
    REFUSED(4, dvbs_rs_encode(lent.packet, 188, lent.output, 203));
    REFUSED(3, dvbs_rs_decode(lent.block, 203, lent.count, 2));
    REFUSED(4, dvbs_rs_decode(lent.block, 204, lent.count, 1));
    REFUSED(8, dvbs_rs_decode(lent.block, 204, lent.count, 2));
    REFUSED(3, dvbs_rs_decode_marked(lent.zeros, 203, lent.marks, 204, lent.count, 2));
    REFUSED(20, dvbs_rs_decode_marked(lent.zeros, 204, lent.marks, 203, lent.count, 2));
    REFUSED(20, dvbs_rs_decode_marked(lent.zeros, 204, lent.block, 204, lent.count, 2));
    REFUSED(4, dvbs_rs_decode_marked(lent.zeros, 204, lent.marks, 204, lent.count, 1));
    memset(lent.marks, 1, 17);
    REFUSED(8, dvbs_rs_decode_marked(lent.zeros, 204, lent.marks, 204, lent.count, 2));
    memset(lent.marks, 0, 17);
}

static void run_refusals(void)
{
    NOTHING(6, dvbs_send_run(4, lent.packet, 188, lent.output, 1632, &answer, 1));
    NOTHING(6, dvbs_send_run(6, lent.packet, 188, lent.output, 1632, &answer, 1));
    NOTHING(1, dvbs_send_run(0, lent.packet, 187, lent.output, 1632, &answer, 1));
    NOTHING(4, dvbs_send_run(0, lent.packet, 188, lent.output, 1631, &answer, 1));
    NOTHING(99, dvbs_send_run(0, lent.packet, 188, lent.output, 1632, &answer, 0));
    NO_RUN(6, 7, dvbs_read_run(5, 7, lent.symbols, 12, lent.output, 1632, result, 6));
    NO_RUN(5, 64, dvbs_read_run(0, 64, lent.symbols, 12, lent.output, 1632, result, 6));
    NO_RUN(12, 7, dvbs_read_run(2, 7, lent.symbols, 13, lent.output, 1632, result, 6));
    NO_RUN(13, 7, dvbs_read_run(0, 7, lent.symbols, 1633, lent.output, 1633, result, 6));
    NO_RUN(14, 7, dvbs_read_run(0, 7, lent.block, 12, lent.output, 1632, result, 6));
    NO_RUN(4, 7, dvbs_read_run(0, 7, lent.symbols, 12, lent.output, 11, result, 6));
    NO_RUN(99, 99, (memset(result + 2, 0, 4), dvbs_read_run(0, 7, lent.symbols, 12, lent.output, 1632, result, 5)));
    NO_RUN(6, 7, dvbs_read_soft_run(5, 7, lent.i, 12, lent.q, 12, lent.marks, 12, lent.output, 1632, result, 6));
    NO_RUN(5, 64, dvbs_read_soft_run(0, 64, lent.i, 12, lent.q, 12, lent.marks, 12, lent.output, 1632, result, 6));
    NO_RUN(24, 7, dvbs_read_soft_run(0, 7, lent.i, 12, lent.q, 11, lent.marks, 12, lent.output, 1632, result, 6));
    NO_RUN(24, 7, dvbs_read_soft_run(0, 7, lent.i, 12, lent.q, 12, lent.marks, 13, lent.output, 1632, result, 6));
    NO_RUN(24, 7, dvbs_read_soft_run(0, 7, lent.i, 12, lent.q, 12, lent.block, 12, lent.output, 1632, result, 6));
    NO_RUN(12, 7, dvbs_read_soft_run(2, 7, lent.i, 13, lent.q, 13, lent.marks, 13, lent.output, 1632, result, 6));
    NO_RUN(13, 7, dvbs_read_soft_run(0, 7, lent.i, 1633, lent.q, 1633, lent.marks, 1633, lent.output, 1633, result, 6));
    NO_RUN(4, 7, dvbs_read_soft_run(0, 7, lent.i, 12, lent.q, 12, lent.marks, 12, lent.output, 11, result, 6));
    NO_RUN(99, 99, (memset(result + 2, 0, 4), dvbs_read_soft_run(0, 7, lent.i, 12, lent.q, 12, lent.marks, 12, lent.output, 1632, result, 5)));
    NOTHING(4, dvbs_receive_run(lent.recording, 2448, lent.output, 2255, lent.count, 64, &answer, 1));
    NOTHING(4, dvbs_receive_run(lent.recording, 2448, lent.output, 2256, lent.count, 63, &answer, 1));
    NOTHING(99, dvbs_receive_run(lent.recording, 2448, lent.output, 2256, lent.count, 64, &answer, 0));
    NOTHING(20, dvbs_receive_run_marked(lent.recording, 2448, lent.marks, 2447, lent.output, 2256, lent.count, 64, &answer, 1));
    NOTHING(20, dvbs_receive_run_marked(lent.recording, 204, lent.block, 204, lent.output, 2256, lent.count, 64, &answer, 1));
    NOTHING(4, dvbs_receive_run_marked(lent.recording, 2448, lent.marks, 2448, lent.output, 2255, lent.count, 64, &answer, 1));
    NOTHING(4, dvbs_receive_run_marked(lent.recording, 2448, lent.marks, 2448, lent.output, 2256, lent.count, 63, &answer, 1));
    NOTHING(99, dvbs_receive_run_marked(lent.recording, 2448, lent.marks, 2448, lent.output, 2256, lent.count, 64, &answer, 0));
    REFUSED(5, dvbs_recording_block(lent.recording, 2448, 11, 0, lent.output, 204, lent.count, 2));
    REFUSED(5, dvbs_recording_block(lent.recording, 2448, 13, 0, lent.output, 204, lent.count, 2));
    REFUSED(16, dvbs_recording_block(lent.recording, 2448, 12, 1, lent.output, 204, lent.count, 2));
    REFUSED(16, dvbs_recording_block(lent.recording, 2448, 12, UINT64_MAX, lent.output, 204, lent.count, 2));
    REFUSED(4, dvbs_recording_block(lent.recording, 2448, 12, 0, lent.output, 203, lent.count, 2));
    REFUSED(4, dvbs_recording_block(lent.recording, 2448, 12, 0, lent.output, 204, lent.count, 1));
    REFUSED(8, dvbs_recording_block(lent.recording, 2448, 12, 0, lent.output, 204, lent.count, 2));
    NOTHING(20, dvbs_losses_run(lent.recording, 2448, lent.marks, 2447, lent.lines, 12, &answer, 1));
    NOTHING(20, dvbs_losses_run(lent.recording, 204, lent.block, 204, lent.lines, 12, &answer, 1));
    NOTHING(4, dvbs_losses_run(lent.recording, 2448, lent.marks, 2448, lent.lines, 11, &answer, 1));
    NOTHING(99, dvbs_losses_run(lent.recording, 2448, lent.marks, 2448, lent.lines, 12, &answer, 0));
}

static void sender_refusals(void)
{
    enum { S = DVBS_SENDER_STATE };
    REFUSED(22, dvbs_sender_fresh(lent.state, S + 1, 0));
    REFUSED(6, dvbs_sender_fresh(lent.state, S, 4));
    REFUSED(6, dvbs_sender_fresh(lent.state, S, 6));
    due("sender_fresh", 0, dvbs_sender_fresh(lent.state, S, 0));
    NOTHING(22, dvbs_sender_send(lent.state, S - 1, lent.packet, 188, lent.output, 1632, &answer, 1));
    NOTHING(1, dvbs_sender_send(lent.state, S, lent.packet, 187, lent.output, 1632, &answer, 1));
    NOTHING(4, dvbs_sender_send(lent.state, S, lent.packet, 188, lent.output, 1631, &answer, 1));
    NOTHING(99, dvbs_sender_send(lent.state, S, lent.packet, 188, lent.output, 1632, &answer, 0));
    lent.state[1135] = 4;
    NOTHING(6, dvbs_sender_send(lent.state, S, lent.packet, 188, lent.output, 1632, &answer, 1));
    lent.state[1135] = 6;
    NOTHING(5, dvbs_sender_send(lent.state, S, lent.packet, 188, lent.output, 1632, &answer, 1));
}

static void reader_refusals(void)
{
    enum { S = DVBS_READER_STATE };
    REFUSED(22, dvbs_reader_fresh(lent.state, S - 1, 0));
    REFUSED(6, dvbs_reader_fresh(lent.state, S, 5));
    due("reader_fresh", 0, dvbs_reader_fresh(lent.state, S, 0));
    NOTHING(22, dvbs_reader_feed(lent.state, S + 1, lent.symbols, 12, lent.output, 412, &answer, 1));
    NOTHING(14, dvbs_reader_feed(lent.state, S, lent.block, 12, lent.output, 412, &answer, 1));
    NOTHING(4, dvbs_reader_feed(lent.state, S, lent.symbols, 12, lent.output, 411, &answer, 1));
    NOTHING(99, dvbs_reader_feed(lent.state, S, lent.symbols, 12, lent.output, 412, &answer, 0));
    NOTHING(22, dvbs_reader_feed_soft(lent.state, S + 1, lent.i, 12, lent.q, 12, lent.marks, 12, lent.output, 412, &answer, 1));
    NOTHING(24, dvbs_reader_feed_soft(lent.state, S, lent.i, 12, lent.q, 11, lent.marks, 12, lent.output, 412, &answer, 1));
    NOTHING(24, dvbs_reader_feed_soft(lent.state, S, lent.i, 12, lent.q, 12, lent.marks, 11, lent.output, 412, &answer, 1));
    NOTHING(24, dvbs_reader_feed_soft(lent.state, S, lent.i, 12, lent.q, 12, lent.block, 12, lent.output, 412, &answer, 1));
    NOTHING(4, dvbs_reader_feed_soft(lent.state, S, lent.i, 12, lent.q, 12, lent.marks, 12, lent.output, 411, &answer, 1));
    NOTHING(99, dvbs_reader_feed_soft(lent.state, S, lent.i, 12, lent.q, 12, lent.marks, 12, lent.output, 412, &answer, 0));
    NOTHING(22, dvbs_reader_end(lent.state, S - 1, lent.output, 204, lent.count, 2, &answer, 1));
    NOTHING(4, dvbs_reader_end(lent.state, S, lent.output, 203, lent.count, 2, &answer, 1));
    NOTHING(4, dvbs_reader_end(lent.state, S, lent.output, 204, lent.count, 1, &answer, 1));
    NOTHING(99, dvbs_reader_end(lent.state, S, lent.output, 204, lent.count, 2, &answer, 0));
    lent.state[1634] = 5;
    NOTHING(5, dvbs_reader_feed(lent.state, S, lent.symbols, 12, lent.output, 412, &answer, 1));
    NOTHING(5, dvbs_reader_feed_soft(lent.state, S, lent.i, 12, lent.q, 12, lent.marks, 12, lent.output, 412, &answer, 1));
    NOTHING(5, dvbs_reader_end(lent.state, S, lent.output, 204, lent.count, 2, &answer, 1));
}

static void receiver_refusals(void)
{
    enum { S = DVBS_RECEIVER_STATE };
    REFUSED(22, dvbs_receiver_fresh(lent.state, S - 1));
    due("receiver_fresh", 0, dvbs_receiver_fresh(lent.state, S));
    NOTHING(22, dvbs_receiver_feed(lent.state, S + 1, lent.recording, 204, lent.marks, 204, lent.output, 188, &answer, 1));
    NOTHING(20, dvbs_receiver_feed(lent.state, S, lent.recording, 204, lent.marks, 203, lent.output, 188, &answer, 1));
    NOTHING(20, dvbs_receiver_feed(lent.state, S, lent.recording, 204, lent.block, 204, lent.output, 188, &answer, 1));
    NOTHING(4, dvbs_receiver_feed(lent.state, S, lent.recording, 204, lent.marks, 204, lent.output, 187, &answer, 1));
    NOTHING(99, dvbs_receiver_feed(lent.state, S, lent.recording, 204, lent.marks, 204, lent.output, 188, &answer, 0));
    NOTHING(22, dvbs_receiver_report(lent.state, S - 1, lent.output, 310, &answer, 1));
    NOTHING(4, dvbs_receiver_report(lent.state, S, lent.output, 10, &answer, 1));
    NOTHING(99, dvbs_receiver_report(lent.state, S, lent.output, 310, &answer, 0));
    limit();
    NOTHING(7, dvbs_receiver_feed(lent.state, S, lent.recording, 204, lent.marks, 204, lent.output, 188, &answer, 1));
    lent.state[1134] = 9;
    NOTHING(5, dvbs_receiver_feed(lent.state, S, lent.recording, 204, lent.marks, 204, lent.output, 188, &answer, 1));
    NOTHING(5, dvbs_receiver_report(lent.state, S, lent.output, 310, &answer, 1));
}

/* The lists of a lock, and the room that it asks for, with other lengths. */
#define FEED(s, n_i, n_q, n_lost, lost, n_packets, n_text, n_counts, n_answer)                                                                             \
    dvbs_lock_feed(lent.state, s, lent.i, n_i, lent.q, n_q, lost, n_lost, lent.output, n_packets, lent.text, n_text, lent.counts, n_counts, &answer, n_answer)
#define END(s, n_packets, n_text, n_counts, n_answer) dvbs_lock_end(lent.state, s, 0, lent.output, n_packets, lent.text, n_text, lent.counts, n_counts, &answer, n_answer)

static void lock_refusals(void)
{
    enum { S = DVBS_LOCK_STATE, P = DVBS_LOCK_PACKETS, T = DVBS_LOCK_TEXT };
    REFUSED(22, dvbs_lock_fresh(lent.state, S - 1, 0));
    REFUSED(6, dvbs_lock_fresh(lent.state, S, 6));
    due("lock_fresh", 0, dvbs_lock_fresh(lent.state, S, 5));
    NOTHING(22, FEED(S - 1, 12, 12, 12, lent.marks, P, T, 2, 1));
    NOTHING(24, FEED(S, 12, 11, 12, lent.marks, P, T, 2, 1));
    NOTHING(24, FEED(S, 12, 12, 13, lent.marks, P, T, 2, 1));
    NOTHING(24, FEED(S, 12, 12, 12, lent.block, P, T, 2, 1));
    NOTHING(4, FEED(S, 12, 12, 12, lent.marks, P - 1, T, 2, 1));
    NOTHING(4, FEED(S, 12, 12, 12, lent.marks, P, T - 1, 2, 1));
    NOTHING(4, FEED(S, 12, 12, 12, lent.marks, P, T, 1, 1));
    NOTHING(99, FEED(S, 12, 12, 12, lent.marks, P, T, 2, 0));
    NOTHING(22, END(S - 1, P, T, 2, 1));
    NOTHING(4, END(S, P - 1, T, 2, 1));
    NOTHING(4, END(S, P, T - 1, 2, 1));
    NOTHING(4, END(S, P, T, 1, 1));
    NOTHING(99, END(S, P, T, 2, 0));
    memset(lent.state + 13760, 0xff, 7);
    lent.state[13767] = 0x0f;
    NOTHING(7, FEED(S, 12, 12, 12, lent.marks, P, T, 2, 1));
    lent.state[13786] = 5;
    NOTHING(5, FEED(S, 12, 12, 12, lent.marks, P, T, 2, 1));
    NOTHING(5, END(S, P, T, 2, 1));
}

static void bridge_refusals(void)
{
    enum { S = DVBS_BRIDGE_STATE };
    REFUSED(22, dvbs_bridge_fresh(lent.state, S + 1));
    due("bridge_fresh", 0, dvbs_bridge_fresh(lent.state, S));
    REFUSED(22, dvbs_bridge_take(lent.state, S - 1, lent.recording, 204, lent.output, 188));
    REFUSED(3, dvbs_bridge_take(lent.state, S, lent.recording, 205, lent.output, 188));
    REFUSED(4, dvbs_bridge_take(lent.state, S, lent.recording, 204, lent.output, 187));
    REFUSED(22, dvbs_bridge_count(lent.state, S - 1, 0, lent.count, 8));
    REFUSED(23, dvbs_bridge_count(lent.state, S, 8, lent.count, 8));
    REFUSED(4, dvbs_bridge_count(lent.state, S, 0, lent.count, 7));
    limit();
    REFUSED(7, dvbs_bridge_take(lent.state, S, lent.recording, 204, lent.output, 188));
    lent.state[1134] = 9;
    REFUSED(5, dvbs_bridge_take(lent.state, S, lent.recording, 204, lent.output, 188));
    REFUSED(5, dvbs_bridge_count(lent.state, S, 0, lent.count, 8));
}

static void refusals(void)
{
    memset(&lent, 0xa5, sizeof lent);
    lent.packet[0] = 0x47;
    memset(lent.zeros, 0, sizeof lent.zeros);
    memset(lent.marks, 0, sizeof lent.marks);
    memset(lent.symbols, 0, sizeof lent.symbols);
    /* No codeword is near these, no symbol or mark is among them, and the recording is such blocks. */
    for (size_t k = 0; k < sizeof lent.block; k++)
        lent.block[k] = (uint8_t)(4 + k * k % 251);
    for (size_t k = 0; k < sizeof lent.recording; k++)
        lent.recording[k] = (uint8_t)(k * k % 251 + k / 204);
    for (size_t k = 0; k < 1633; k++)
        lent.i[k] = lent.q[k] = 1;
    stage_refusals();
    run_refusals();
    sender_refusals();
    reader_refusals();
    receiver_refusals();
    lock_refusals();
    bridge_refusals();
}

int main(int argc, char **argv)
{
    const char *name = argc > 1 ? argv[1] : "", *word = argc > 2 ? argv[2] : NULL;
    uint8_t rate = (uint8_t)(word ? atoi(word) : 0), sent = 99;

    length = fread(input, 1, sizeof input, stdin);
    if (strcmp(name, "receive_run_marked") == 0 || strcmp(name, "receiver") == 0 || (strcmp(name, "losses_run") == 0 && word)) {
        FILE *file = fopen(word, "rb");
        due("marks", 1, file && fread(marks, 1, sizeof marks, file) == length);
    }
    if (strcmp(name, "randomize") == 0)
        stages(DVBS_PACKET, DVBS_PACKET, randomized);
    else if (strcmp(name, "derandomize") == 0)
        stages(DVBS_PACKET, DVBS_PACKET, derandomized);
    else if (strcmp(name, "rs_encode") == 0)
        stages(DVBS_PACKET, DVBS_BLOCK, coded);
    else if (strcmp(name, "rs_decode") == 0)
        stages(DVBS_BLOCK, DVBS_BLOCK, decoded);
    else if (strcmp(name, "rs_decode_marked") == 0)
        stages(DVBS_BLOCK, DVBS_BLOCK, decoded_marked);
    else if (strcmp(name, "send_run") == 0) {
        give(dvbs_send_run(rate, input, length, output, length / DVBS_PACKET * DVBS_SYMBOLS, &sent, 1));
        fprintf(stderr, "answer=%u\n", sent);
    } else if (strcmp(name, "read_run") == 0)
        runs(rate, 0);
    else if (strcmp(name, "read_soft_run") == 0)
        runs(rate, 1);
    else if (strcmp(name, "reader_feed") == 0)
        reader(rate, 0);
    else if (strcmp(name, "reader_feed_soft") == 0)
        reader(rate, 1);
    else if (strcmp(name, "receive_run") == 0)
        received(NULL);
    else if (strcmp(name, "receive_run_marked") == 0)
        received(word);
    else if (strcmp(name, "receiver") == 0)
        receiver();
    else if (strcmp(name, "recording_block") == 0 && word)
        return block(word);
    else if (strcmp(name, "losses_run") == 0)
        losses(word);
    else if (strcmp(name, "refusals") == 0)
        refusals();
    else
        due("name", 1, 0);
    return 0;
}
