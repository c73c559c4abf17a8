"""The library, stage by stage, against GNU Radio's gr-dtv, whose DVB-T energy
dispersal, outer code, outer interleaver and inner code are those of
EN 300 421, and its soft decisions against gr-trellis. Argument: the program
built from stages.c."""

import subprocess
import sys

import numpy as np
from gnuradio import blocks, dtv, gr, trellis

STAGES = sys.argv[1]
PACKETS = 960
# The rates that are sent.
RATES = ["1/2", "2/3", "3/4", "5/6"]
CODES = [dtv.C1_2, dtv.C2_3, dtv.C3_4, dtv.C5_6]
OUTER = (2, 8, 0x11D, 255, 239, 8, 51, 8)
different = 0


def library(data, *stage):
    done = subprocess.run([STAGES, *stage], input=data.tobytes(), stdout=subprocess.PIPE, check=True)
    return np.frombuffer(done.stdout, dtype=np.uint8)


def peer(block, data, vector_in=1, vector_out=1):
    top = gr.top_block()
    source = blocks.vector_source_b(data.tolist(), False, vector_in)
    sink = blocks.vector_sink_b(vector_out)
    top.connect(source, block, sink)
    top.run()
    return np.array(sink.data(), dtype=np.uint8)


def compare(what, ours, theirs, unit, name, atleast=0, remark=""):
    """Compares as far as both go; a peer keeps its last items back."""
    global different
    n = min(len(ours), len(theirs)) // unit
    a, b = ours[: n * unit].reshape(n, unit), theirs[: n * unit].reshape(n, unit)
    wrong = int(np.any(a != b, axis=1).sum())
    if n < atleast or n == 0:
        wrong += 1
        remark += " (too few came)"
    different += wrong
    print(f"GNU Radio, {what}: {n} {name} compared, {wrong} different{remark}", flush=True)


random = np.random.default_rng(300421)
packets = random.integers(0, 256, PACKETS * 188, dtype=np.uint8)
packets[::188] = 0x47
tail = np.concatenate([packets[: 8 * 188]] * 2)  # pushes out what the peers keep back

randomized = library(packets, "randomize")
coded = library(randomized, "rs_encode")
interleaved = library(packets, "interleaved")

theirs = peer(dtv.dvbt_energy_dispersal(1), np.concatenate([packets, tail]), 1, 1504)
compare("energy dispersal", randomized, theirs, 188, "packets", PACKETS)
theirs = peer(dtv.dvbt_reed_solomon_enc(*OUTER), randomized, 1504, 1632)
compare("outer coder", coded, theirs, 204, "blocks", PACKETS)
theirs = peer(dtv.dvbt_convolutional_interleaver(136, 12, 17), coded, 1632, 1)
compare("interleaver (ours: sent at 1/2, inner code undone)", interleaved, theirs, 204, "blocks", PACKETS)
stream = theirs
for rate in range(len(RATES)):
    ours = library(packets, "send", str(rate))
    padded = np.concatenate([stream, np.zeros(20000, np.uint8)])
    theirs = peer(dtv.dvbt_inner_coder(1, 1512, dtv.MOD_QPSK, dtv.NH, CODES[rate]), padded, 1, 1512)
    compare(f"whole chain to the inner coder at {RATES[rate]}", ours, theirs, 1, "symbols", len(ours))

# And back.
ours = library(stream, "receive")
compare("its stream through our receiver, against the packets", ours, packets[: len(ours)], 188, "packets", PACKETS - 11)
theirs = peer(dtv.dvbt_convolutional_deinterleaver(136, 12, 17), interleaved, 1, 1632)[11 * 204 :]
compare("our stream through its de-interleaver", coded, theirs, 204, "blocks", PACKETS - 30)
harmed = coded.copy().reshape(PACKETS, 204)
for n in range(PACKETS):
    places = random.choice(204, n % 9, replace=False)
    harmed[n, places] ^= random.integers(1, 256, n % 9, dtype=np.uint8)
harmed = harmed.reshape(-1)
ours = library(harmed, "rs_decode")
theirs = peer(dtv.dvbt_reed_solomon_dec(*OUTER), harmed, 1632, 1504)
data = ours[: PACKETS * 204].reshape(PACKETS, 204)[:, :188].reshape(-1)
compare("decoder, 0 to 8 errors", data, theirs, 188, "blocks", PACKETS)
bits = np.unpackbits((coded ^ harmed).reshape(PACKETS, 204), axis=1).sum(axis=1)
counts = ours[PACKETS * 204 :].reshape(PACKETS, 2)
wrong = int(((counts[:, 0] != np.arange(PACKETS) % 9) | (counts[:, 1] != bits)).sum())
different += wrong
print(f"  counts against the errors put in: {PACKETS} compared, {wrong} different")
theirs = peer(dtv.dvbt_energy_descramble(8), np.concatenate([randomized, randomized]), 1504, 1)
compare("our packets through its descrambler", packets, theirs, 188, "packets", PACKETS)
for rate in range(len(RATES)):
    longer = library(np.concatenate([packets] + [tail] * 3), "send", str(rate))
    theirs = peer(dtv.dvbt_viterbi_decoder(dtv.MOD_QPSK, dtv.NH, CODES[rate], 768), longer, 1, 1)
    compare(f"our symbols at {RATES[rate]} through its Viterbi decoder", interleaved, theirs, 1, "bytes", PACKETS * 204)

# Soft decisions. gr-trellis takes what each symbol of the mother code would cost at each step, and gives bits of least cost; where several tie, any.
# The rates that are read: 7/8 too.
PATTERNS = [("1/2", "1", "1"), ("2/3", "1010", "1111"), ("3/4", "101", "110"), ("5/6", "10101", "11010"), ("7/8", "1000101", "1111010")]
RUNS = 60


def parities(bits, taps):
    window = np.concatenate([np.zeros(6, int), bits])
    return sum(window[6 - k : len(window) - k] for k in taps) % 2


def soft_costs(points, lost):
    level = sum((points >= np.float32(t)).astype(int) for t in (-0.75, -0.5, -0.25, 0, 0.25, 0.5, 0.75))
    free = np.isnan(points) | lost
    return np.where(free, 0, 7 - level), np.where(free, 0, level)


for rate, (name, keep_x, keep_y) in enumerate(PATTERNS):
    length = 1632 // len(keep_x) * len(keep_x)
    keep = np.array([[x == "1", y == "1"] for x, y in zip(keep_x, keep_y)])
    keep = np.tile(keep, (length // len(keep_x), 1))
    fed, steps, costs_of = [], [], []
    for run in range(RUNS):
        sent = random.integers(0, 2, length)
        coded_bits = np.stack([parities(sent, (0, 1, 2, 3, 6)), parities(sent, (0, 2, 3, 5, 6))], axis=1)
        flat = coded_bits[keep].reshape(-1, 2)
        points = (1 - 2 * flat + random.normal(0, 0.25 + 0.1 * (run % 6), flat.shape)).astype(np.float32)
        points[random.random(points.shape) < 0.01] = np.nan
        lost = random.random(len(points)) < 0.03
        fed.append(points[:, 0].tobytes() + points[:, 1].tobytes() + lost.astype(np.uint8).tobytes())
        zero, one = soft_costs(points, lost[:, None])
        placed = np.zeros((length, 2, 2), int)
        placed[keep] = np.stack([zero.reshape(-1), one.reshape(-1)], axis=1)
        costs_of.append(placed)
        steps.append((placed[:, 0, :, None] + placed[:, 1, None, :]).reshape(-1))
    n = len(flat)
    ours = library(np.frombuffer(b"".join(fed), np.uint8), "read_soft", str(rate), str(n)).reshape(RUNS, length + 4)
    top = gr.top_block()
    source = blocks.vector_source_f(np.concatenate(steps).astype(np.float32).tolist(), False)
    sink = blocks.vector_sink_b()
    top.connect(source, trellis.viterbi_b(trellis.fsm(1, 2, [0o171, 0o133]), length, 0, -1), sink)
    top.run()
    theirs = np.array(sink.data(), dtype=np.uint8).reshape(-1, length)

    def cost(bits, placed):
        bits = bits.astype(int)
        x, y = parities(bits, (0, 1, 2, 3, 6)), parities(bits, (0, 2, 3, 5, 6))
        at = np.arange(length)
        return int(placed[at, 0, x].sum() + placed[at, 1, y].sum())

    wrong = ties = 0
    for run in range(RUNS):
        told = int.from_bytes(ours[run, length:].tobytes(), "little")
        mine, its = cost(ours[run, :length], costs_of[run]), cost(theirs[run], costs_of[run])
        wrong += told != mine or told != its
        ties += told == its and bool(np.any(ours[run, :length] != theirs[run]))
    wrong += len(theirs) != RUNS
    different += wrong
    print(f"GNU Radio, soft decisions at {name}: {RUNS} runs compared, {wrong} different (other bits of the same cost in {ties})", flush=True)

sys.exit(different != 0)
