/* A firmware loop on the part for the bridge: blocks on standard input, packets on standard output.
 *
 *   bridge_pass [on] FILE < blocks > packets
 *
 * The state of the receiver is an array of bytes. After every sixteenth block it is saved to FILE, lost, and loaded again, as over a loss of
 * power; the pass goes on as if nothing had happened. It is saved at the end too, and with `on` the next call goes on from it. At the end the
 * counts go to standard error, and how many bytes came after the last whole block. */
#include "dvbs_bridge.h"

#include <stdio.h>
#include <string.h>

static const char *const names[] = {"taken", "filling", "delivered", "lost", "waiting", "outofstep", "changed", "bits"};

/* Saves the state. What it tells of is written before it. */
static int save(const char *path, const uint8_t *state)
{
    if (fflush(stdout) != 0) {
        fprintf(stderr, "packets were not written\n");
        return 0;
    }
    FILE *file = fopen(path, "wb");
    size_t written = file ? fwrite(state, 1, DVBS_BRIDGE_STATE, file) : 0;
    if (!file || fclose(file) != 0 || written != DVBS_BRIDGE_STATE) {
        fprintf(stderr, "%s: not saved\n", path);
        return 0;
    }
    return 1;
}

/* A count of the state; 0 is returned where its bytes stand for no receiver. */
static int count(const uint8_t *state, uint8_t number, uint64_t *value)
{
    uint8_t bytes[DVBS_BRIDGE_COUNT];
    if (dvbs_bridge_count(state, DVBS_BRIDGE_STATE, number, bytes, sizeof bytes) != 0)
        return 0;
    *value = 0;
    for (int k = DVBS_BRIDGE_COUNT - 1; k >= 0; k--)
        *value = *value << 8 | bytes[k];
    return 1;
}

/* Loads the state. A file that was damaged is told by its length, or by its fields: then no count is given. */
static int load(const char *path, uint8_t *state)
{
    FILE *file = fopen(path, "rb");
    uint64_t value;
    int whole = file && fread(state, 1, DVBS_BRIDGE_STATE, file) == DVBS_BRIDGE_STATE && fgetc(file) == EOF;
    if (file)
        fclose(file);
    if (!whole || !count(state, DVBS_BRIDGE_TAKEN, &value)) {
        fprintf(stderr, "%s: not loaded\n", path);
        return 0;
    }
    return 1;
}

int main(int argc, char **argv)
{
    static uint8_t state[DVBS_BRIDGE_STATE], block[DVBS_BRIDGE_BLOCK], packet[DVBS_BRIDGE_PACKET];
    const char *path;
    unsigned long blocks = 0;
    uint64_t value;
    size_t length;

    if (argc != 2 && (argc != 3 || strcmp(argv[1], "on") != 0)) {
        fprintf(stderr, "usage: bridge_pass [on] FILE < blocks > packets\n");
        return 2;
    }
    path = argv[argc - 1];
    dvbs_bridge_fresh(state, sizeof state);
    if (argc == 3 && !load(path, state))
        return 1;
    while ((length = fread(block, 1, sizeof block, stdin)) == sizeof block) {
        uint8_t answer = dvbs_bridge_take(state, sizeof state, block, sizeof block, packet, sizeof packet);
        if (answer == 0 && fwrite(packet, 1, sizeof packet, stdout) != sizeof packet) {
            fprintf(stderr, "packets were not written\n");
            return 1;
        }
        if (answer != 0 && (answer < 8 || answer > 11)) {
            fprintf(stderr, "a block was refused: answer %u\n", answer);
            return 1;
        }
        if (++blocks % 16 == 0) {
            if (!save(path, state))
                return 1;
            memset(state, 0xff, sizeof state);
            if (!load(path, state))
                return 1;
        }
    }
    if (ferror(stdin)) {
        fprintf(stderr, "blocks were not read to their end\n");
        return 1;
    }
    if (!save(path, state))
        return 1;
    if (fclose(stdout) != 0) {
        fprintf(stderr, "packets were not written\n");
        return 1;
    }
    for (uint8_t number = 0; number < 8; number++)
        if (count(state, number, &value))
            fprintf(stderr, "%s=%llu\n", names[number], (unsigned long long)value);
    fprintf(stderr, "rest=%u\n", (unsigned)length);
    return ferror(stderr) != 0;
}
