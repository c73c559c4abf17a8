"""QPSK symbols through GNU Radio's modulator, a channel and GNU Radio's demodulator,
which knows neither carrier nor clock: gain control, band-edge FLL, symbol
synchronization with a matched filter, Costas loop. Roll-off 0.35, four samples a symbol.

    gnuradio_modem.py SYMBOLS POINTS RATE EBN0 CARRIER CLOCK CUT SEED [mirrored]

SYMBOLS is a file of bytes 0 to 3, of which CUT are missed, and POINTS the file of complex
floats that is written. CARRIER is the offset as a part of the sample rate, and CLOCK that
of the clock in ppm. Mirrored, the demodulator has -Q for Q."""

import math
import sys

from gnuradio import analog, blocks, channels, digital, filter, gr
from gnuradio.filter import firdes

SYMBOLS, POINTS = sys.argv[1:3]
RATE, EB_N0, CARRIER, CLOCK, CUT, SEED = int(sys.argv[3]), float(sys.argv[4]), float(sys.argv[5]), float(sys.argv[6]), int(sys.argv[7]), int(sys.argv[8])
MIRRORED = sys.argv[9:] == ["mirrored"]
SAMPLES = 4
ROLL_OFF = 0.35
ARMS = 32
# Useful bits of a symbol, and by them Es/N0; src/channel.rs has the arithmetic.
ES_N0 = 10 ** (EB_N0 / 10) * 2 * [1 / 2, 2 / 3, 3 / 4, 5 / 6, 7 / 8][RATE] * 188 / 204


def shaping():
    taps = firdes.root_raised_cosine(1.0, SAMPLES, 1.0, ROLL_OFF, 11 * SAMPLES + 1)
    energy = math.sqrt(sum(tap * tap for tap in taps))
    return [tap / energy for tap in taps]


def modulator():
    a = 1 / math.sqrt(2)
    yield blocks.file_source(gr.sizeof_char, SYMBOLS, False, CUT, 0)
    yield digital.chunks_to_symbols_bc([a + a * 1j, a - a * 1j, -a + a * 1j, -a - a * 1j], 1)
    yield filter.interp_fir_filter_ccf(SAMPLES, shaping())


def channel():
    # The amplitude of GNU Radio's complex noise is the deviation of the complex number.
    noise, phase = math.sqrt(1 / ES_N0), 0.1 + SEED % 60 / 10
    yield channels.channel_model(noise, CARRIER, 1 + CLOCK / 1e6, [complex(math.cos(phase), math.sin(phase))], SEED, True)


def demodulator():
    if MIRRORED:
        yield blocks.conjugate_cc()
    yield analog.agc_cc(1e-4, 0.5, 1.0)
    yield digital.fll_band_edge_cc(SAMPLES, ROLL_OFF, 2 * SAMPLES + 1, 0.002)
    matched = firdes.root_raised_cosine(ARMS, ARMS * SAMPLES, 1.0, ROLL_OFF, 11 * SAMPLES * ARMS)
    yield digital.symbol_sync_cc(digital.TED_SIGNAL_TIMES_SLOPE_ML, SAMPLES, 0.005, 1.0, 1.0, 1.5, 1, digital.constellation_qpsk().base(), digital.IR_PFB_MF, ARMS, matched)
    yield digital.costas_loop_cc(0.01, 4)
    # Points of 1.0 and -1.0, with the noise that the gain control sees beside them.
    yield analog.agc_cc(1e-3, math.sqrt(2) * (1 + 0.25 / ES_N0), 1.0)
    yield blocks.file_sink(gr.sizeof_gr_complex, POINTS, False)


top = gr.top_block()
top.connect(*modulator(), *channel(), *demodulator())
top.run()
