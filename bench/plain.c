/* A plain-C peer of the same job, as one would write it straightforwardly:
 * products by logarithms, table-driven outer code (decoder by Euclid's
 * algorithm), byte-wise interleaver with ring pointers, bit-serial inner coder
 * with a table of X and Y. EN 300 421, clauses 4.4.1 to 4.4.3. */
#include "plain.h"

#include <string.h>

enum { PACKET = 188, BLOCK = 204, CHECK = 16, T = 8, GROUP = 8, BRANCHES = 12, DEPTH = 17 };

/* Tables, filled before main. */
static uint8_t exp_table[512], log_table[256];
static uint8_t feedback_table[256][CHECK]; /* multiples of g */
static uint8_t root_table[CHECK][256];     /* products with the roots */
static uint8_t prbs[GROUP * PACKET];       /* masks of a group, 0 at the sync bytes */
static uint8_t xy_table[128];              /* 2 X + Y of seven bits, newest on top */
static uint8_t null_packet[PACKET];

static uint8_t mul(uint8_t a, uint8_t b)
{
    return a && b ? exp_table[log_table[a] + log_table[b]] : 0;
}

__attribute__((constructor)) static void fill_tables(void)
{
    unsigned value = 1;
    for (int i = 0; i < 255; i++) {
        exp_table[i] = exp_table[i + 255] = (uint8_t)value;
        log_table[value] = (uint8_t)i;
        value <<= 1;
        if (value > 255)
            value ^= 0x11d;
    }
    uint8_t g[CHECK + 1] = {1};
    for (int i = 0; i < CHECK; i++)
        for (int k = i + 1; k > 0; k--)
            g[k] ^= mul(g[k - 1], exp_table[i]);
    for (int a = 0; a < 256; a++)
        for (int k = 0; k < CHECK; k++) {
            feedback_table[a][k] = mul((uint8_t)a, g[k + 1]);
            root_table[k][a] = mul((uint8_t)a, exp_table[k]);
        }
    /* Stage 1 is the top one of fifteen bits. */
    unsigned stages = 0x4a80;
    for (int n = 1; n < GROUP * PACKET; n++) {
        uint8_t byte = 0;
        for (int k = 0; k < 8; k++) {
            unsigned bit = (stages ^ stages >> 1) & 1;
            stages = stages >> 1 | bit << 14;
            byte = (uint8_t)(byte << 1 | bit);
        }
        prbs[n] = n % PACKET ? byte : 0;
    }
    for (int w = 0; w < 128; w++)
        xy_table[w] = (uint8_t)(__builtin_parity((unsigned)w & 0171) << 1 | __builtin_parity((unsigned)w & 0133));
    memset(null_packet, 0xff, PACKET);
    memcpy(null_packet, "\x47\x1f\xff\x10", 4);
}

static void mask(unsigned place, uint8_t first, const uint8_t *packet, uint8_t *output)
{
    const uint8_t *m = prbs + PACKET * place;
    output[0] = first;
    for (int n = 1; n < PACKET; n++)
        output[n] = packet[n] ^ m[n];
}

uint8_t PLAIN(randomize)(uint8_t place, const uint8_t *packet, size_t packet_len, uint8_t *output, size_t output_len)
{
    if (place >= GROUP)
        return 5;
    if (packet_len != PACKET)
        return 1;
    if (packet[0] != 0x47)
        return 2;
    if (output_len < PACKET)
        return 4;
    mask(place, place ? 0x47 : 0xb8, packet, output);
    return 0;
}

uint8_t PLAIN(derandomize)(uint8_t place, const uint8_t *packet, size_t packet_len, uint8_t *output, size_t output_len)
{
    if (place >= GROUP)
        return 5;
    if (packet_len != PACKET)
        return 1;
    if (output_len < PACKET)
        return 4;
    mask(place, 0x47, packet, output);
    return 0;
}

static void check_bytes(const uint8_t *data, uint8_t *rest)
{
    memset(rest, 0, CHECK);
    for (int n = 0; n < PACKET; n++) {
        const uint8_t *f = feedback_table[data[n] ^ rest[0]];
        for (int k = 0; k < CHECK - 1; k++)
            rest[k] = rest[k + 1] ^ f[k];
        rest[CHECK - 1] = f[CHECK - 1];
    }
}

uint8_t PLAIN(rs_encode)(const uint8_t *data, size_t data_len, uint8_t *output, size_t output_len)
{
    if (data_len != PACKET)
        return 1;
    if (output_len < BLOCK)
        return 4;
    uint8_t rest[CHECK];
    check_bytes(data, rest);
    memcpy(output, data, PACKET);
    memcpy(output + PACKET, rest, CHECK);
    return 0;
}

static int degree(const uint8_t *p, int top)
{
    while (top >= 0 && p[top] == 0)
        top--;
    return top;
}

static uint8_t value_at(const uint8_t *p, int top, uint8_t x)
{
    uint8_t sum = 0;
    for (int i = top; i >= 0; i--)
        sum = mul(sum, x) ^ p[i];
    return sum;
}

/* Whether each of so many marks is 0 or 1. */
static int are_marks(const uint8_t *marks, size_t count)
{
    uint8_t any = 0;
    for (size_t n = 0; n < count; n++)
        any |= marks[n];
    return any < 2;
}

/* Bytes changed, or -1 and the block as it was. The bits changed are added. Bytes with a mark of 1 are erasures; marks may be NULL. */
static int correct(uint8_t *block, const uint8_t *marks, int *bits)
{
    /* The erasure locator: the product of 1 + X x over the marked places X. */
    uint8_t erasures[CHECK + 1] = {1};
    int f = 0;
    for (int n = 0; marks && n < BLOCK; n++)
        if (marks[n]) {
            if (f == CHECK)
                return -1;
            f++;
            for (int i = f; i > 0; i--)
                erasures[i] ^= mul(erasures[i - 1], exp_table[BLOCK - 1 - n]);
        }
    uint8_t s[CHECK] = {0}, any = 0;
    for (int n = 0; n < BLOCK; n++)
        for (int i = 0; i < CHECK; i++)
            s[i] = root_table[i][s[i]] ^ block[n];
    for (int i = 0; i < CHECK; i++)
        any |= s[i];
    if (!any)
        return 0;

    /* Euclid: x^16 and the syndromes, until the rest is of degree below 8. With erasures it is the syndromes times their locator,
     * and a degree below 8 + f / 2. */
    uint8_t r0[CHECK + 1] = {0}, r1[CHECK + 1] = {0}, t0[CHECK + 1] = {0}, t1[CHECK + 1] = {1};
    r0[CHECK] = 1;
    memcpy(r1, s, CHECK);
    for (int i = 0; f && i < CHECK; i++) {
        r1[i] = 0;
        for (int k = 0; k <= i && k <= f; k++)
            r1[i] ^= mul(erasures[k], s[i - k]);
    }
    int d0 = CHECK, d1 = degree(r1, CHECK - 1);
    while (2 * d1 >= CHECK + f) {
        uint8_t lead = exp_table[255 - log_table[r1[d1]]];
        while (d0 >= d1) {
            uint8_t q = mul(r0[d0], lead);
            int up = d0 - d1;
            for (int i = 0; i <= d1; i++)
                r0[i + up] ^= mul(q, r1[i]);
            for (int i = 0; i + up <= CHECK; i++)
                t0[i + up] ^= mul(q, t1[i]);
            d0 = degree(r0, d0);
        }
        uint8_t keep[CHECK + 1];
        memcpy(keep, r0, sizeof keep), memcpy(r0, r1, sizeof keep), memcpy(r1, keep, sizeof keep);
        memcpy(keep, t0, sizeof keep), memcpy(t0, t1, sizeof keep), memcpy(t1, keep, sizeof keep);
        int d = d0;
        d0 = d1, d1 = d;
    }
    int others = degree(t1, CHECK), errors = others + f;
    if (2 * others + f > CHECK || t1[0] == 0 || d1 >= errors)
        return -1;
    if (f) {
        uint8_t both[CHECK + 1] = {0};
        for (int i = 0; i <= others; i++)
            for (int k = 0; k <= f; k++)
                both[i + k] ^= mul(t1[i], erasures[k]);
        memcpy(t1, both, sizeof both);
    }

    /* As many roots among the 204 places as the locator's degree: then its
     * partial fractions give the syndromes back, and the result is a codeword. */
    int place[CHECK], found = 0;
    uint8_t term[CHECK + 1];
    for (int i = 0; i <= errors; i++)
        term[i] = t1[i] ? log_table[t1[i]] : 0;
    for (int e = 0; e < BLOCK && found < errors; e++) {
        uint8_t sum = 0;
        for (int i = 0; i <= errors; i++) {
            if (!t1[i])
                continue;
            sum ^= exp_table[term[i]];
            int next = term[i] - i; /* one power of the inverse further */
            term[i] = (uint8_t)(next < 0 ? next + 255 : next);
        }
        if (sum == 0)
            place[found++] = e;
    }
    if (found != errors)
        return -1;
    int changed = 0;
    for (int k = 0; k < found; k++) {
        uint8_t inverse = exp_table[255 - place[k]], slope = 0;
        for (int i = 1; i <= errors; i += 2)
            slope ^= mul(t1[i], exp_table[(255 - place[k]) * (i - 1) % 255]);
        uint8_t top = mul(value_at(r1, d1, inverse), exp_table[place[k]]);
        uint8_t change = mul(top, exp_table[255 - log_table[slope]]);
        block[BLOCK - 1 - place[k]] ^= change;
        changed += change != 0;
        for (; change; change &= change - 1)
            ++*bits;
    }
    return changed;
}

uint8_t PLAIN(rs_decode)(uint8_t *block, size_t block_len, uint8_t *count, size_t count_len)
{
    if (block_len != BLOCK)
        return 3;
    if (count_len < 2)
        return 4;
    int bits = 0, changed = correct(block, NULL, &bits);
    if (changed < 0)
        return 8;
    count[0] = (uint8_t)changed;
    count[1] = (uint8_t)bits;
    return 0;
}

uint8_t PLAIN(rs_decode_marked)(uint8_t *block, size_t block_len, const uint8_t *marks, size_t marks_len, uint8_t *count, size_t count_len)
{
    if (block_len != BLOCK)
        return 3;
    if (marks_len != BLOCK || !are_marks(marks, BLOCK))
        return 20;
    if (count_len < 2)
        return 4;
    int bits = 0, changed = correct(block, marks, &bits);
    if (changed < 0)
        return 8;
    count[0] = (uint8_t)changed;
    count[1] = (uint8_t)bits;
    return 0;
}

/* One ring for each branch. */
struct branches {
    uint8_t cell[BRANCHES][DEPTH * (BRANCHES - 1)];
    int at[BRANCHES];
};

static void pass(struct branches *b, int reversed, const uint8_t *in, uint8_t *out)
{
    int j = 0;
    for (int n = 0; n < BLOCK; n++) {
        int cells = DEPTH * (reversed ? BRANCHES - 1 - j : j);
        if (cells == 0) {
            out[n] = in[n];
        } else {
            int at = b->at[j];
            uint8_t byte = in[n];
            out[n] = b->cell[j][at];
            b->cell[j][at] = byte;
            b->at[j] = at + 1 == cells ? 0 : at + 1;
        }
        if (++j == BRANCHES)
            j = 0;
    }
}

/* Length of the pattern, and 2 (X sent) + (Y sent) for each bit of it. */
static const struct {
    int length;
    uint8_t sent[7];
} punctured[5] = {
    {1, {3}},
    {2, {3, 1}},
    {3, {3, 1, 2}},
    {5, {3, 1, 2, 1, 2}},
    {7, {3, 1, 1, 1, 2, 1, 2}},
};

struct inner {
    int rate, at, held; /* held: -1 none */
    unsigned memory;
};

static size_t inner_code(struct inner *c, const uint8_t *bytes, int count, uint8_t *output)
{
    size_t written = 0;
    for (int n = 0; n < count; n++)
        for (int k = 7; k >= 0; k--) {
            unsigned window = c->memory | (bytes[n] >> k & 1u) << 6;
            unsigned xy = xy_table[window], sent = punctured[c->rate].sent[c->at];
            c->memory = window >> 1;
            if (++c->at == punctured[c->rate].length)
                c->at = 0;
            if (sent & 2) {
                if (c->held < 0)
                    c->held = (int)(xy >> 1);
                else
                    output[written++] = (uint8_t)(2 * c->held + (int)(xy >> 1)), c->held = -1;
            }
            if (sent & 1) {
                if (c->held < 0)
                    c->held = (int)(xy & 1);
                else
                    output[written++] = (uint8_t)(2 * c->held + (int)(xy & 1)), c->held = -1;
            }
        }
    return written;
}

/* 16QAM 3/4 of EN 301 210: of three bytes the first is coded, beside the bit pairs of the others. */
static size_t code_16qam(struct inner *c, const uint8_t *bytes, int count, uint8_t *output)
{
    size_t written = 0;
    for (int n = 0; n + 3 <= count; n += 3) {
        unsigned beside = (unsigned)bytes[n + 1] << 8 | bytes[n + 2];
        for (int k = 7; k >= 0; k--) {
            unsigned window = c->memory | (bytes[n] >> k & 1u) << 6;
            unsigned xy = xy_table[window];
            c->memory = window >> 1;
            output[written++] = (uint8_t)(4 * (beside >> 2 * k & 3) + 2 * (xy & 1) + (xy >> 1));
        }
    }
    return written;
}

static size_t code(struct inner *c, const uint8_t *bytes, int count, uint8_t *output)
{
    return c->rate == 5 ? code_16qam(c, bytes, count, output) : inner_code(c, bytes, count, output);
}

/* Symbols of so many bits from a fresh coder. */
static uint64_t symbols_of(int rate, uint64_t bits)
{
    if (rate == 5)
        return bits / 3;
    static const int bits_in[5] = {1, 2, 3, 5, 7}, bits_out[5] = {2, 3, 4, 6, 8};
    uint64_t out = bits / (uint64_t)bits_in[rate] * (uint64_t)bits_out[rate];
    for (uint64_t i = 0; i < bits % (uint64_t)bits_in[rate]; i++)
        out += punctured[rate].sent[i] == 3 ? 2 : 1;
    return out / 2;
}

uint64_t PLAIN(send_run)(uint8_t rate, const uint8_t *packets, size_t packets_len, uint8_t *output, size_t output_len,
                         uint8_t *answer, size_t answer_len)
{
    if (answer_len < 1)
        return 0;
    answer[0] = 0;
    if (rate > 5 || rate == 4) /* 7/8 is read, and no longer sent */
        return answer[0] = 6, 0;
    if (packets_len % PACKET)
        return answer[0] = 1, 0;
    size_t count = packets_len / PACKET;
    if (output_len < symbols_of(rate, 8ull * BLOCK * count))
        return answer[0] = 4, 0;
    struct branches branches;
    memset(&branches, 0, sizeof branches);
    struct inner inner = {rate, 0, -1, 0};
    uint64_t written = 0;
    for (size_t p = 0; p < count; p++) {
        uint8_t block[BLOCK], out[BLOCK];
        const uint8_t *packet = packets + PACKET * p;
        if (packet[0] != 0x47)
            packet = null_packet, answer[0] = 15;
        mask(p % GROUP, p % GROUP ? 0x47 : 0xb8, packet, block);
        check_bytes(block, block + PACKET);
        pass(&branches, 0, block, out);
        written += code(&inner, out, BLOCK, output + written);
    }
    return written;
}

/* A run with a mark for each byte; marks may be NULL. */
static uint64_t receive(const uint8_t *blocks, const uint8_t *marks, size_t blocks_len, uint8_t *output, size_t output_len,
                        uint8_t *counts, size_t counts_len, uint8_t *answer)
{
    size_t count = blocks_len / BLOCK;
    answer[0] = counts_len < 64 || output_len < PACKET * count ? 4 : 0;
    if (answer[0])
        return 0;
    enum { TAKEN, FILLING, DELIVERED, LOST, WAITING, OUTOFSTEP, CHANGED, BITS };
    uint64_t tally[8] = {0}, written = 0;
    struct branches branches, doubtful;
    memset(&branches, 0, sizeof branches);
    memset(&doubtful, 0, sizeof doubtful);
    int place = -1, missed = 0;
    for (size_t b = 0; b < count; b++) {
        uint8_t block[BLOCK], marked[BLOCK];
        pass(&branches, 1, blocks + BLOCK * b, block);
        if (marks)
            pass(&doubtful, 1, marks + BLOCK * b, marked);
        tally[TAKEN]++;
        if (b < 11) {
            tally[FILLING]++;
            continue;
        }
        int bits = 0, changed = correct(block, marks ? marked : NULL, &bits);
        if (changed < 0) {
            tally[LOST]++;
            if (place >= 0)
                place = (place + 1) % GROUP;
            continue;
        }
        tally[CHANGED] += (uint64_t)changed;
        tally[BITS] += (uint64_t)bits;
        if (block[0] == 0xb8) {
            place = 0;
        } else if (place < 0) {
            tally[WAITING]++;
            continue;
        } else if (block[0] != 0x47 || place == 0) {
            tally[OUTOFSTEP]++;
            int forgiven = block[0] != 0x47 && !missed;
            place = forgiven ? (place + 1) % GROUP : -1;
            missed = forgiven;
            continue;
        }
        missed = 0;
        mask((unsigned)place, 0x47, block, output + written);
        written += PACKET;
        tally[DELIVERED]++;
        place = (place + 1) % GROUP;
    }
    for (int i = 0; i < 8; i++)
        for (int k = 0; k < 8; k++)
            counts[8 * i + k] = (uint8_t)(tally[i] >> 8 * k);
    return written;
}

uint64_t PLAIN(receive_run)(const uint8_t *blocks, size_t blocks_len, uint8_t *output, size_t output_len,
                            uint8_t *counts, size_t counts_len, uint8_t *answer, size_t answer_len)
{
    return answer_len < 1 ? 0 : receive(blocks, NULL, blocks_len, output, output_len, counts, counts_len, answer);
}

uint64_t PLAIN(receive_run_marked)(const uint8_t *blocks, size_t blocks_len, const uint8_t *marks, size_t marks_len, uint8_t *output,
                                   size_t output_len, uint8_t *counts, size_t counts_len, uint8_t *answer, size_t answer_len)
{
    if (answer_len < 1)
        return 0;
    if (marks_len != blocks_len || !are_marks(marks, marks_len)) {
        answer[0] = 20;
        return 0;
    }
    return receive(blocks, marks, blocks_len, output, output_len, counts, counts_len, answer);
}

uint8_t PLAIN(recording_block)(const uint8_t *recording, size_t recording_len, uint64_t blocks, uint64_t p,
                               uint8_t *output, size_t output_len, uint8_t *count, size_t count_len)
{
    uint64_t most = blocks < 4294967295 ? blocks : 4294967295;
    if (blocks != recording_len / BLOCK)
        return 5;
    if (most < 12 || p > most - 12)
        return 16;
    if (output_len < BLOCK || count_len < 2)
        return 4;
    uint8_t block[BLOCK];
    for (size_t n = 0; n < BLOCK; n++)
        block[n] = recording[BLOCK * (p + n % 12) + n];
    int bits = 0, changed = correct(block, NULL, &bits);
    if (changed < 0)
        return 8;
    memcpy(output, block, BLOCK);
    count[0] = (uint8_t)changed;
    count[1] = (uint8_t)bits;
    return 0;
}

/* The stages by themselves. */
void PLAIN(scale)(uint8_t *lanes, size_t lanes_len, const uint8_t *factors, size_t factors_len)
{
    uint8_t lane[16];
    if (lanes_len < sizeof lane)
        return;
    memcpy(lane, lanes, sizeof lane);
    for (size_t i = 0; i < factors_len; i++)
        for (size_t j = 0; j < sizeof lane; j++)
            lane[j] = mul(lane[j], factors[i]);
    memcpy(lanes, lane, sizeof lane);
}

void PLAIN(interleave)(const uint8_t *blocks, size_t blocks_len, uint8_t *output, size_t output_len)
{
    struct branches branches;
    if (output_len < blocks_len)
        return;
    memset(&branches, 0, sizeof branches);
    for (size_t n = 0; blocks_len - n >= BLOCK; n += BLOCK)
        pass(&branches, 0, blocks + n, output + n);
}

uint64_t PLAIN(inner_code)(uint8_t rate, const uint8_t *blocks, size_t blocks_len, uint8_t *output, size_t output_len)
{
    if (rate > 5 || output_len / 8 < blocks_len)
        return 0;
    struct inner inner = {rate, 0, -1, 0};
    uint64_t written = 0;
    for (size_t n = 0; blocks_len - n >= BLOCK; n += BLOCK)
        written += code(&inner, blocks + n, BLOCK, output + written);
    return written;
}

/* ---- reading a run of symbols: a Viterbi decoder on 64 states ---- */

/* The bits and the symbols after which a pattern begins anew with no I held. */
static const struct {
    size_t bits, symbols;
} patterns[5] = {{1, 1}, {4, 3}, {3, 2}, {5, 3}, {7, 4}};

/* What deciding each received I and Q bit as 0, and as 1, costs. */
static uint8_t costs[2 * 1632][2];

/* The bits that cost the least, and the result. */
static uint64_t decode(uint8_t rate, uint8_t memory, size_t count, uint8_t *output, uint8_t *result)
{
    uint32_t metric[64], next[64];
    static uint8_t oldest[1632][64];
    for (int s = 0; s < 64; s++)
        metric[s] = s == memory ? 0 : 100000;
    size_t at = 0; /* the next received bit */
    for (size_t k = 0; k < count; k++) {
        int sent = punctured[rate].sent[k % (size_t)punctured[rate].length];
        uint8_t step[2][2] = {{0, 0}, {0, 0}};
        for (int y = 0; y < 2; y++)
            if (sent & (y ? 1 : 2)) {
                memcpy(step[y], costs[at], 2);
                at++;
            }
        for (int s = 0; s < 64; s++) {
            uint32_t way[2];
            for (int d = 0; d < 2; d++) {
                int window = (s >> 5) << 6 | (s & 31) << 1 | d;
                way[d] = metric[(s & 31) << 1 | d] + step[0][__builtin_parity(window & 0171)] + step[1][__builtin_parity(window & 0133)];
            }
            oldest[k][s] = way[1] < way[0];
            next[s] = way[1] < way[0] ? way[1] : way[0];
        }
        memcpy(metric, next, sizeof metric);
    }
    int s = 0;
    for (int t = 1; t < 64; t++)
        if (metric[t] < metric[s])
            s = t;
    result[1] = (uint8_t)s;
    for (int i = 0; i < 4; i++)
        result[2 + i] = (uint8_t)(metric[s] >> 8 * i);
    for (size_t k = count; k-- > 0;) {
        output[k] = (uint8_t)(s >> 5);
        s = (s & 31) << 1 | oldest[k][s];
    }
    return count;
}

uint64_t PLAIN(read_run)(uint8_t rate, uint8_t memory, const uint8_t *symbols, size_t symbols_len, uint8_t *output, size_t output_len,
                         uint8_t *result, size_t result_len)
{
    if (result_len < 6)
        return 0;
    memset(result, 0, 6);
    result[1] = memory;
    if (rate > 4)
        return result[0] = 6, 0;
    if (memory > 63)
        return result[0] = 5, 0;
    if (symbols_len % patterns[rate].symbols)
        return result[0] = 12, 0;
    size_t count = symbols_len / patterns[rate].symbols * patterns[rate].bits;
    if (count > 1632)
        return result[0] = 13, 0;
    for (size_t i = 0; i < symbols_len; i++)
        if (symbols[i] > 3)
            return result[0] = 14, 0;
    if (output_len < count)
        return result[0] = 4, 0;
    for (size_t i = 0; i < symbols_len; i++) {
        costs[2 * i][0] = symbols[i] >> 1;
        costs[2 * i][1] = !(symbols[i] >> 1);
        costs[2 * i + 1][0] = symbols[i] & 1;
        costs[2 * i + 1][1] = !(symbols[i] & 1);
    }
    return decode(rate, memory, count, output, result);
}

/* ---- the same by soft decisions ---- */

static const float thresholds[7] = {-0.75f, -0.5f, -0.25f, 0, 0.25f, 0.5f, 0.75f};

static void soft_costs(float x, int lost, uint8_t cost[2])
{
    uint8_t level = 0;
    for (int t = 0; t < 7; t++)
        level += thresholds[t] <= x;
    cost[0] = (uint8_t)(7 - level);
    cost[1] = level;
    if (x != x)
        cost[0] = cost[1] = 0;
    if (lost)
        cost[0] = cost[1] = 0;
}

uint64_t PLAIN(read_soft_run)(uint8_t rate, uint8_t memory, const float *i, size_t i_len, const float *q, size_t q_len,
                              const uint8_t *lost, size_t lost_len, uint8_t *output, size_t output_len, uint8_t *result,
                              size_t result_len)
{
    if (result_len < 6)
        return 0;
    memset(result, 0, 6);
    result[1] = memory;
    if (rate > 4)
        return result[0] = 6, 0;
    if (memory > 63)
        return result[0] = 5, 0;
    if (i_len != q_len || i_len != lost_len)
        return result[0] = 24, 0;
    for (size_t k = 0; k < lost_len; k++)
        if (lost[k] > 1)
            return result[0] = 24, 0;
    if (i_len % patterns[rate].symbols)
        return result[0] = 12, 0;
    size_t count = i_len / patterns[rate].symbols * patterns[rate].bits;
    if (count > 1632)
        return result[0] = 13, 0;
    if (output_len < count)
        return result[0] = 4, 0;
    for (size_t k = 0; k < i_len; k++) {
        soft_costs(i[k], lost[k], costs[2 * k]);
        soft_costs(q[k], lost[k], costs[2 * k + 1]);
    }
    return decode(rate, memory, count, output, result);
}
