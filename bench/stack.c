/* The stack that the functions for C take, in bytes: each is called in a thread whose stack was filled with one byte before, on a stream with errors and marks.
 *
 *   ./build.sh libdvbs libdvbs_bridge
 *   cc -O2 -Iinclude bench/stack.c -Ltarget/staticlib -ldvbs -ldvbs_bridge -pthread -o target/stack && target/stack
 */
#define _XOPEN_SOURCE 700
#include "dvbs.h"
#include "dvbs_bridge.h"

#include <pthread.h>
#include <stdio.h>
#include <stdlib.h>
#include <string.h>

enum { STACK = 1 << 20, FILL = 0xA5, COUNT = 24, RATE = 2, RUN = 1088, ROOM = 1 << 17 };

static uint8_t packets[DVBS_PACKET * COUNT], blocks[DVBS_BLOCK * COUNT], marks[DVBS_BLOCK * COUNT], symbols[DVBS_SYMBOLS * COUNT];
static float i[DVBS_SYMBOLS * COUNT], q[DVBS_SYMBOLS * COUNT];
static uint8_t lost[DVBS_SYMBOLS * COUNT], state[DVBS_LOCK_STATE], output[ROOM], text[DVBS_LOCK_TEXT], counts[DVBS_COUNTS], result[DVBS_RESULT], answer;
static uint64_t lines[COUNT], given[2];
static size_t points;

static void nothing(void)
{
}

static void send_run(void)
{
    dvbs_send_run(RATE, packets, sizeof packets, output, ROOM, &answer, 1);
}

static void sender(void)
{
    dvbs_sender_fresh(state, DVBS_SENDER_STATE, RATE);
    for (int k = 0; k < COUNT; k++)
        dvbs_sender_send(state, DVBS_SENDER_STATE, packets + DVBS_PACKET * k, DVBS_PACKET, output, ROOM, &answer, 1);
}

static void read_run(void)
{
    dvbs_read_run(RATE, 0, symbols, RUN, output, ROOM, result, DVBS_RESULT);
    dvbs_read_soft_run(RATE, 0, i, RUN, q, RUN, lost, RUN, output, ROOM, result, DVBS_RESULT);
}

static void reader(void)
{
    dvbs_reader_fresh(state, DVBS_READER_STATE, RATE);
    dvbs_reader_feed_soft(state, DVBS_READER_STATE, i, points, q, points, lost, points, output, ROOM, &answer, 1);
    dvbs_reader_feed(state, DVBS_READER_STATE, symbols, points, output, ROOM, &answer, 1);
    dvbs_reader_end(state, DVBS_READER_STATE, output, ROOM, result, 2, &answer, 1);
}

static void receive_run(void)
{
    dvbs_receive_run_marked(blocks, sizeof blocks, marks, sizeof marks, output, ROOM, counts, DVBS_COUNTS, &answer, 1);
    dvbs_losses_run(blocks, sizeof blocks, marks, sizeof marks, lines, COUNT, &answer, 1);
}

static void receiver(void)
{
    dvbs_receiver_fresh(state, DVBS_RECEIVER_STATE);
    dvbs_receiver_feed(state, DVBS_RECEIVER_STATE, blocks, sizeof blocks, marks, sizeof marks, output, ROOM, &answer, 1);
    dvbs_receiver_report(state, DVBS_RECEIVER_STATE, output, ROOM, &answer, 1);
}

static void bridge(void)
{
    dvbs_bridge_fresh(state, DVBS_BRIDGE_STATE);
    for (int k = 0; k < COUNT; k++)
        dvbs_bridge_take(state, DVBS_BRIDGE_STATE, blocks + DVBS_BLOCK * k, DVBS_BLOCK, output, ROOM);
}

static void lock(void)
{
    size_t at = 0;
    dvbs_lock_fresh(state, DVBS_LOCK_STATE, 5);
    while (at < points)
        at += dvbs_lock_feed(state, DVBS_LOCK_STATE, i + at, points - at, q + at, points - at, lost + at, points - at, output, ROOM, text, sizeof text, given, 2, &answer, 1);
    while (!dvbs_lock_end(state, DVBS_LOCK_STATE, 0, output, ROOM, text, sizeof text, given, 2, &answer, 1) && answer == 0) {
    }
}

static void (*called)(void);

static void *thread(void *unused)
{
    called();
    return unused;
}

/* How much of the stack was written to while this ran. */
static long taken(void (*function)(void))
{
    static uint8_t *stack;
    pthread_attr_t attributes;
    pthread_t id;
    long k = 0;
    if (!stack && !(stack = aligned_alloc(4096, STACK)))
        exit(1);
    memset(stack, FILL, STACK);
    called = function;
    if (pthread_attr_init(&attributes) || pthread_attr_setstack(&attributes, stack, STACK) || pthread_create(&id, &attributes, thread, NULL) || pthread_join(id, NULL))
        exit(1);
    while (k < STACK && stack[k] == FILL)
        k++;
    return STACK - k;
}

int main(void)
{
    static const struct {
        const char *name;
        void (*function)(void);
    } all[] = {{"dvbs_send_run", send_run}, {"dvbs_sender", sender}, {"dvbs_read_run, dvbs_read_soft_run", read_run}, {"dvbs_reader", reader},
               {"dvbs_receive_run_marked, dvbs_losses_run", receive_run}, {"dvbs_receiver", receiver}, {"dvbs_bridge", bridge}, {"dvbs_lock", lock}};
    uint32_t seed = 1;
    for (size_t k = 0; k < sizeof packets; k++) {
        seed = seed * 1103515245 + 12345;
        packets[k] = k % DVBS_PACKET ? (uint8_t)(seed >> 16) : 0x47;
    }
    points = dvbs_send_run(RATE, packets, sizeof packets, symbols, sizeof symbols, &answer, 1);
    for (size_t k = 0; k < points; k++) {
        i[k] = symbols[k] & 2 ? -1.0f : 1.0f;
        q[k] = symbols[k] & 1 ? -1.0f : 1.0f;
    }
    dvbs_reader_fresh(state, DVBS_READER_STATE, RATE);
    size_t n = dvbs_reader_feed(state, DVBS_READER_STATE, symbols, points, output, ROOM, &answer, 1);
    n += dvbs_reader_end(state, DVBS_READER_STATE, output + n, ROOM - n, result, 2, &answer, 1);
    memcpy(blocks, output, n < sizeof blocks ? n : sizeof blocks);
    for (size_t k = 5; k < sizeof blocks; k += 31)
        blocks[k] ^= 0x55;
    for (size_t k = 7; k < sizeof marks; k += 61)
        marks[k] = 1;
    long own = taken(nothing);
    for (size_t k = 0; k < sizeof all / sizeof *all; k++)
        printf("%-42s %ld\n", all[k].name, taken(all[k].function) - own);
}
