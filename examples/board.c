/* A drive's board in firmware: received points on standard input, their packets on standard output, a few points at a time.
 *
 *   board RATE FILE [more] < points > packets
 *
 * The points are a demodulator's, which begin anywhere and are turned any way: two f32 each, I and then Q, the lowest byte first; both are NaN where a symbol was
 * lost. RATE is 0 to 4, or 5 for any. The state of the lock is an array of bytes. After every fifth piece it is saved to FILE, lost, and loaded again, as over a loss
 * of power; the packets go on as if nothing had happened. It is saved at the end too. With `more` the end of the input is not that of the points: the next call, with
 * `on` for RATE, goes on from FILE. Standard error has what is told of locks, and their reports: the lines of dvbs_lock. Like it, it ends with 0 only where there was
 * a lock, or more is to come. */
#include "dvbs.h"

#include <stdio.h>
#include <string.h>

/* The points of a piece. */
enum { PIECE = 700 };

static uint8_t state[DVBS_LOCK_STATE], packets[DVBS_LOCK_PACKETS], text[DVBS_LOCK_TEXT];
static uint8_t input[8 * PIECE], lost[PIECE];
static float i[PIECE], q[PIECE];
static uint64_t counts[2];

/* Saves the state. What it tells of is written before it. */
static int save(const char *path)
{
    if (fflush(stdout) != 0) {
        fprintf(stderr, "packets were not written\n");
        return 0;
    }
    FILE *file = fopen(path, "wb");
    size_t written = file ? fwrite(state, 1, sizeof state, file) : 0;
    if (!file || fclose(file) != 0 || written != sizeof state) {
        fprintf(stderr, "%s: not saved\n", path);
        return 0;
    }
    return 1;
}

/* Loads the state. A file that was damaged is told by its length, or by its fields: a call with no point changes nothing, and answers 5 then. */
static int load(const char *path)
{
    FILE *file = fopen(path, "rb");
    int whole = file && fread(state, 1, sizeof state, file) == sizeof state && fgetc(file) == EOF;
    uint8_t answer = 5;
    if (file)
        fclose(file);
    dvbs_lock_feed(state, sizeof state, i, 0, q, 0, lost, 0, packets, sizeof packets, text, sizeof text, counts, 2, &answer, 1);
    if (!whole || answer == 5) {
        fprintf(stderr, "%s: not loaded\n", path);
        return 0;
    }
    return 1;
}

/* The f32 of four bytes. */
static float number(const uint8_t *bytes)
{
    uint32_t bits = bytes[0] | (uint32_t)bytes[1] << 8 | (uint32_t)bytes[2] << 16 | (uint32_t)bytes[3] << 24;
    float value;
    memcpy(&value, &bits, sizeof value);
    return value;
}

/* Writes what a call gave and told. */
static int give(uint8_t answer)
{
    if (answer != 0) {
        fprintf(stderr, "points were refused: answer %u\n", answer);
        return 0;
    }
    if (fwrite(text, 1, (size_t)counts[1], stderr) != counts[1])
        return 0;
    if (fwrite(packets, 1, (size_t)counts[0], stdout) != counts[0]) {
        fprintf(stderr, "packets were not written\n");
        return 0;
    }
    return 1;
}

int main(int argc, char **argv)
{
    int more = argc == 4 && strcmp(argv[3], "more") == 0;
    unsigned long pieces = 0;
    size_t length, rest = 0;
    uint64_t over = 0;
    uint8_t answer = 0;

    if (argc != 3 && !more) {
        fprintf(stderr, "usage: board RATE FILE [more] < points > packets\n");
        return 2;
    }
    if (strcmp(argv[1], "on") == 0) {
        if (!load(argv[2]))
            return 1;
    }
    /* A rate is one digit. */
    else if (strlen(argv[1]) != 1 || argv[1][0] < '0' || argv[1][0] > '9' || dvbs_lock_fresh(state, sizeof state, (uint8_t)(argv[1][0] - '0')) != 0) {
        fprintf(stderr, "%s: no rate that is read\n", argv[1]);
        return 2;
    }
    while ((length = fread(input, 1, sizeof input, stdin)) > 0 && !ferror(stdin)) {
        size_t points = length / 8, at = 0;
        rest = length % 8;
        for (size_t k = 0; k < points; k++) {
            i[k] = number(input + 8 * k);
            q[k] = number(input + 8 * k + 4);
            lost[k] = i[k] != i[k] && q[k] != q[k];
        }
        /* A call takes some of the points, and those that are left go to the next one. */
        while (at < points) {
            size_t left = points - at;
            at += (size_t)dvbs_lock_feed(state, sizeof state, i + at, left, q + at, left, lost + at, left, packets, sizeof packets, text, sizeof text,
                                         counts, 2, &answer, 1);
            if (!give(answer))
                return 1;
        }
        if (++pieces % 5 == 0) {
            if (!save(argv[2]))
                return 1;
            memset(state, 0xff, sizeof state);
            if (!load(argv[2]))
                return 1;
        }
    }
    if (ferror(stdin)) {
        fprintf(stderr, "points were not read to their end\n");
        return 1;
    }
    if (more && rest != 0) {
        fprintf(stderr, "the last point is not whole\n");
        return 1;
    }
    while (!more && !over) {
        over = dvbs_lock_end(state, sizeof state, rest, packets, sizeof packets, text, sizeof text, counts, 2, &answer, 1);
        if (!give(answer))
            return 1;
    }
    if (!save(argv[2]))
        return 1;
    if (fclose(stdout) != 0) {
        fprintf(stderr, "packets were not written\n");
        return 1;
    }
    /* The closing lines are those of the last lock, or the one that there was none. */
    return over && counts[1] >= 7 && memcmp(text, "nothing", 7) == 0;
}
