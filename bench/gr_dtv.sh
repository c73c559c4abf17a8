#!/bin/bash
# Stages of the library beside GNU Radio's gr-dtv, which runs in flow graphs alone: a table of times, sides taking turns in one run, into docs/PERFORMANCE.md
# behind its mark. It takes a minute or two. Times want a machine with nothing else on it.
# GNU Radio comes from Debian where it is missing (gnuradio); where it cannot be had, that is said and nothing is measured. CC may name another compiler.
set -euo pipefail
cd "$(dirname "$0")/.."
build=target/bench
mkdir -p "$build"
. reference/peers/tools.sh
if ! with_gnuradio && ! { install gnuradio && with_gnuradio; }; then
    echo "bench/gr_dtv.sh: GNU Radio is missing (Debian: gnuradio), so gr-dtv is not measured"
    exit 0
fi
./build.sh libdvbs libkernels > "$build/libraries.log" 2>&1 || { cat "$build/libraries.log"; exit 1; }
"${CC:-cc}" -std=gnu11 -O3 -Wall -Wextra -shared -fPIC bench/gr_dtv_stages.c -Ltarget/staticlib -ldvbs -lkernels -o "$build/gr_dtv_stages.so"
# GNU Radio's remarks on its own buffers are no lines of the table.
"$python" bench/gr_dtv.py "$build/gr_dtv_stages.so" 2> "$build/gr_dtv.log" | grep -v '^buffer_double_mapped' | tee "$build/gr_dtv" || { tail -5 "$build/gr_dtv.log"; exit 1; }
awk -v parts="$build" -f bench/insert.awk docs/PERFORMANCE.md > "$build/PERFORMANCE.md"
mv "$build/PERFORMANCE.md" docs/PERFORMANCE.md
