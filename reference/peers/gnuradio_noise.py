"""The same received points through the project's readers and through GNU Radio's
decoders: bit errors of each against what was sent, and the Eb/N0 where 2 bits in
10,000 are wrong. All of it is seeded.

    gnuradio_noise.py PROGRAMS TOOLS WORK

PROGRAMS is the folder of dvbs_send, dvbs_read and dvbs_read_soft, TOOLS that of the
reference's channel and interleaved, and WORK one for the points. GNU Radio has

  cc_decoder   gr-fec, soft: numbers become 8 bits, what was not sent is put back as
               127, and VOLK's kernel adds costs of 6 bits, as GNU Radio does by itself
  trellis      gr-trellis, soft: the numbers as they are, nothing rounded
  dvbt         gr-dtv, by hard decisions"""

import math
import subprocess
import sys

import numpy as np
from gnuradio import blocks, dtv, fec, gr, trellis

PROGRAMS, TOOLS, WORK = sys.argv[1:]
RATES = ["1/2", "2/3", "3/4", "5/6"]
# X1 Y1 X2 Y2 and so on: 1 where it is sent.
SENT = ["11", "1101", "110110", "1101100110"]
HARD = [dtv.C1_2, dtv.C2_3, dtv.C3_4, dtv.C5_6]
# EN 300 421, table 3, of which 0.8 dB are the modem's.
REQUIRED = [4.5, 5.0, 5.5, 6.0]
WANTED = 2e-4
# A gain before the reader that suits its eight levels better than 1.0; src/channel.rs says why.
GAIN = [0.6, 0.7, 0.8, 0.9]
PACKETS = 4910  # some 8 million bits, whole patterns at every rate
POINTS = f"{WORK}/points"
SYMBOLS = f"{WORK}/symbols"
COSTS = f"{WORK}/costs"
# Bits that cc_decoder takes at once. It decides the last of them with little behind them: with 2,040 it has up to twice as many wrong.
FRAME = 16320
# Windows of gr-trellis, which knows blocks and no stream: of each the margins are not kept.
WINDOW, MARGIN = 16000, 500
# The last decisions of a stream have nothing behind them. GNU Radio's keep some back.
UNCOUNTED = 40000


def run(program, data, *words):
    done = subprocess.run([program, *words], input=data.tobytes(), stdout=subprocess.PIPE, stderr=subprocess.DEVNULL, check=True)
    return np.frombuffer(done.stdout, np.uint8)


def flow(*parts):
    top = gr.top_block()
    sink = blocks.vector_sink_b()
    top.connect(*parts, sink)
    top.run()
    return np.array(sink.data(), np.uint8)


def cc_decoder(rate):
    # The generators with the newest bit first: 171 and 133 octal, turned round.
    decoder = fec.cc_decoder.make(FRAME, 7, 2, [0o117, 0o155], 0, -1, fec.CC_STREAMING, False)
    # A 1 is a positive number there.
    source = blocks.file_source(gr.sizeof_float, POINTS)
    return flow(source, blocks.multiply_const_ff(-1.0), fec.extended_decoder(decoder, None, None, SENT[rate], 10000))


def by_trellis(rate, numbers, bits):
    sent = np.tile(np.array([c == "1" for c in SENT[rate]]), 2 * bits // len(SENT[rate]) + 1)[: 2 * bits]
    placed = np.zeros(2 * bits, np.float32)
    placed[sent] = numbers[: int(sent.sum())]
    placed = np.concatenate([np.zeros(2 * MARGIN, np.float32), placed, np.zeros(2 * (WINDOW + MARGIN), np.float32)])
    with open(COSTS, "wb") as file:
        for at in range(0, bits, WINDOW):
            x, y = placed[2 * at : 2 * (at + WINDOW + 2 * MARGIN)].reshape(-1, 2).T
            np.stack([-x - y, y - x, x - y, x + y], axis=1).tofile(file)
    code = trellis.fsm(1, 2, [0o171, 0o133])
    got = flow(blocks.file_source(gr.sizeof_float, COSTS), trellis.viterbi_b(code, WINDOW + 2 * MARGIN, -1, -1))
    return got.reshape(-1, WINDOW + 2 * MARGIN)[:, MARGIN:-MARGIN].reshape(-1)


def by_hard_decisions(rate):
    return flow(blocks.file_source(gr.sizeof_char, SYMBOLS), dtv.dvbt_viterbi_decoder(dtv.MOD_QPSK, dtv.NH, HARD[rate], 768))


def wrong(got, sent):
    counted = len(sent) - UNCOUNTED
    if len(got) < counted:
        sys.exit(f"of {len(sent)} bits {len(got)} came")
    return float((got[:counted] != sent[:counted]).mean())


def crossing(curve):
    """Between two measured points, straight in the logarithm."""
    for (x, a), (y, b) in zip(curve, curve[1:]):
        if a >= WANTED >= b > 0:
            return x + (y - x) * math.log(a / WANTED) / math.log(a / b)
    return math.nan


def measure(rate, eb_n0, soft):
    """The rates of wrong bits, by one decoder after the other."""
    seed = 1000 * rate + int(100 * eb_n0)
    random = np.random.default_rng(seed)
    packets = random.integers(0, 256, PACKETS * 188, dtype=np.uint8)
    packets[::188] = 0x47
    sent = np.unpackbits(run(f"{TOOLS}/interleaved", packets))
    points = run(f"{TOOLS}/channel", run(f"{PROGRAMS}/dvbs_send", packets, str(rate)), str(rate), str(eb_n0), str(seed))
    numbers = points.view(np.float32)
    if soft:
        points.tofile(POINTS)
        ours = [np.unpackbits(run(f"{PROGRAMS}/dvbs_read_soft", np.float32(gain) * numbers, str(rate))) for gain in (1.0, GAIN[rate])]
        return [wrong(bits, sent) for bits in (*ours, cc_decoder(rate), by_trellis(rate, numbers, len(sent)))]
    symbols = (numbers < 0).astype(np.uint8).reshape(-1, 2) @ np.array([2, 1], np.uint8)
    symbols.tofile(SYMBOLS)
    ours = np.unpackbits(run(f"{PROGRAMS}/dvbs_read", symbols, str(rate)))
    return [wrong(ours, sent), wrong(np.unpackbits(by_hard_decisions(rate)), sent)]


def table(title, names, first, last, soft):
    print(f"\n{title}\nrate  Eb/N0  |" + "".join(f" {name:>14}" for name in names), flush=True)
    reached = []
    for rate in range(len(RATES)):
        curves = [[] for _ in names]
        for eb_n0 in np.arange(REQUIRED[rate] + first, REQUIRED[rate] + last + 0.01, 0.25):
            ratios = measure(rate, float(eb_n0), soft)
            for curve, ratio in zip(curves, ratios):
                curve.append((float(eb_n0), ratio))
            print(f"{RATES[rate]:<4} {eb_n0:6.2f}  |" + "".join(f" {ratio:14.3e}" for ratio in ratios), flush=True)
        reached.append([crossing(curve) for curve in curves])
    print("\n2e-4 at, dB  |" + "".join(f" {name:>14}" for name in names) + " | less ours, dB")
    for rate, at in enumerate(reached):
        print(f"{RATES[rate]:<13}|" + "".join(f" {x:14.2f}" for x in at) + " |" + "".join(f" {x - at[0]:+6.2f}" for x in at[1:]))


table("Wrong bits by soft decisions", ["dvbs_read_soft", "with a gain", "cc_decoder", "trellis"], -1.25, -0.25, True)
table("Wrong bits by hard decisions", ["dvbs_read", "dvbt"], 1.0, 1.5, False)
