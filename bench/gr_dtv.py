"""Stages of the library beside GNU Radio's gr-dtv, whose outer code, outer interleaver and inner code at DVB-T are those of EN 300 421.
gr-dtv runs in flow graphs alone, so its time is that of a graph of a source, the block and a sink that drops all: what a user of GNU Radio waits for.
Sides take turns, and each number is the best of several turns. Argument: gr_dtv_stages.c with the library, as a shared library."""

import ctypes
import sys
import time

import numpy as np
from gnuradio import blocks, dtv, gr

BLOCKS = 9600
TURNS = 15
OUTER = (2, 8, 0x11D, 255, 239, 8, 51, 8)
stages = ctypes.CDLL(sys.argv[1])
stages.kernel_inner_code.restype = ctypes.c_uint64


def pointer(data):
    return data.ctypes.data_as(ctypes.c_void_p)


def library(stage, data, room):
    begun = time.perf_counter()
    stage(pointer(data), ctypes.c_size_t(BLOCKS), pointer(room))
    return time.perf_counter() - begun


def graph(block, data, vector_in, vector_out):
    top = gr.top_block()
    top.connect(blocks.vector_source_b(data.tolist(), False, vector_in), block, blocks.null_sink(vector_out))
    begun = time.perf_counter()
    top.run()
    return time.perf_counter() - begun


random = np.random.default_rng(300421)
packets = random.integers(0, 256, BLOCKS * 188, dtype=np.uint8)
coded, decoded, sent, read = (np.zeros(BLOCKS * 204, np.uint8) for _ in range(4))
stages.stage_rs_encode(pointer(packets), ctypes.c_size_t(BLOCKS), pointer(coded))
stages.stage_interleave(pointer(coded), ctypes.c_size_t(BLOCKS), pointer(sent))
symbols = np.zeros(BLOCKS * 1632, np.uint8)
stages.kernel_inner_code(0, pointer(sent), ctypes.c_size_t(sent.size), pointer(symbols), ctypes.c_size_t(symbols.size))

print(f"{'a block or run of':26} | {'library, ns':>11} | {'gr-dtv, ns':>10} | {'ratio':>5}")
for name, stage, data, room, block, vector_in, vector_out in [
    ("RS encode", stages.stage_rs_encode, packets, coded, lambda: dtv.dvbt_reed_solomon_enc(*OUTER), 1504, 1632),
    ("RS decode, clean", stages.stage_rs_decode, coded, decoded, lambda: dtv.dvbt_reed_solomon_dec(*OUTER), 1632, 1504),
    ("interleaver", stages.stage_interleave, coded, sent, lambda: dtv.dvbt_convolutional_interleaver(136, 12, 17), 1632, 1),
    ("read 1,632 bits, 1/2", stages.stage_read, symbols, read, lambda: dtv.dvbt_viterbi_decoder(dtv.MOD_QPSK, dtv.NH, dtv.C1_2, 768), 1, 1),
]:
    ours = theirs = float("inf")
    for _ in range(TURNS):
        ours = min(ours, library(stage, data, room))
        theirs = min(theirs, graph(block(), data, vector_in, vector_out))
    print(f"{name:26} | {ours / BLOCKS * 1e9:11.1f} | {theirs / BLOCKS * 1e9:10.1f} | {ours / theirs:5.2f}", flush=True)
if not np.array_equal(read, sent):
    sys.exit("the library did not read what was sent")
