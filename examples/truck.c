/* A truck's sender in firmware: packets on standard input, their symbols on standard output, one packet at a time.
 *
 *   truck MODE FILE < packets > symbols
 *
 * The state of the sender is an array of bytes. After every fifth packet it is saved to FILE, lost, and loaded again, as over a loss of power; the
 * symbols go on as if nothing had happened. It is saved at the end too, and with `on` for MODE the next call goes on from it. Where the last packet
 * is not whole, a null packet is sent in its place. At the end standard error has how many packets were sent, and how many of them were null packets. */
#include "dvbs.h"

#include <stdio.h>
#include <string.h>

static uint8_t state[DVBS_SENDER_STATE], packet[DVBS_PACKET], symbols[DVBS_SYMBOLS];

/* Saves the state. What it tells of is written before it. */
static int save(const char *path)
{
    if (fflush(stdout) != 0) {
        fprintf(stderr, "symbols were not written\n");
        return 0;
    }
    FILE *file = fopen(path, "wb");
    size_t written = file ? fwrite(state, 1, sizeof state, file) : 0;
    if (!file || fclose(file) != 0 || written != sizeof state) {
        fprintf(stderr, "%s: not saved\n", path);
        return 0;
    }
    return 1;
}

/* Loads the state. A file that was damaged is told by its length, or by its fields: a call without room changes nothing, and answers 5 then. */
static int load(const char *path)
{
    FILE *file = fopen(path, "rb");
    int whole = file && fread(state, 1, sizeof state, file) == sizeof state && fgetc(file) == EOF;
    uint8_t answer = 5;
    if (file)
        fclose(file);
    dvbs_sender_send(state, sizeof state, packet, 0, symbols, 0, &answer, 1);
    if (!whole || answer == 5) {
        fprintf(stderr, "%s: not loaded\n", path);
        return 0;
    }
    return 1;
}

int main(int argc, char **argv)
{
    unsigned long packets = 0, nulls = 0;
    size_t length;

    if (argc != 3) {
        fprintf(stderr, "usage: truck MODE FILE < packets > symbols\n");
        return 2;
    }
    if (strcmp(argv[1], "on") == 0) {
        if (!load(argv[2]))
            return 1;
    }
    /* A mode is one digit. */
    else if (strlen(argv[1]) != 1 || argv[1][0] < '0' || argv[1][0] > '9' || dvbs_sender_fresh(state, sizeof state, (uint8_t)(argv[1][0] - '0')) != 0) {
        fprintf(stderr, "%s: no mode that is sent\n", argv[1]);
        return 2;
    }
    /* What came before a read that failed is not the last packet. */
    while ((length = fread(packet, 1, sizeof packet, stdin)) > 0 && !ferror(stdin)) {
        uint8_t answer = 0;
        /* A packet of no bytes is a null packet. */
        uint64_t count = dvbs_sender_send(state, sizeof state, packet, length == sizeof packet ? length : 0, symbols, sizeof symbols, &answer, 1);
        if (answer != 0 && answer != 15) {
            fprintf(stderr, "a packet was refused: answer %u\n", answer);
            return 1;
        }
        packets++;
        nulls += answer == 15;
        if (fwrite(symbols, 1, (size_t)count, stdout) != count) {
            fprintf(stderr, "symbols were not written\n");
            return 1;
        }
        if (packets % 5 == 0) {
            if (!save(argv[2]))
                return 1;
            memset(state, 0xff, sizeof state);
            if (!load(argv[2]))
                return 1;
        }
    }
    if (ferror(stdin)) {
        fprintf(stderr, "packets were not read to their end\n");
        return 1;
    }
    if (!save(argv[2]))
        return 1;
    if (fclose(stdout) != 0) {
        fprintf(stderr, "symbols were not written\n");
        return 1;
    }
    fprintf(stderr, "packets=%lu\nnulls=%lu\n", packets, nulls);
    return ferror(stderr) != 0;
}
