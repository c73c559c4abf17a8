#!/bin/bash
# Builds the library and its peers, counts instructions with callgrind, takes times side by side, and writes what it found into docs/: a table of kernels and one of
# the stages of the link into PERFORMANCE.md, behind their marks, and a picture of the first, performance.svg. What is built, and the tables, stay in target/bench.
# It takes some four minutes. Times want a machine with nothing else on it.
# libfec, VOLK, libosmocore and valgrind come from Debian where they are missing; what cannot be had is said and skipped. CC may name another compiler.
set -euo pipefail
cd "$(dirname "$0")/.."
build=target/bench
cc=${CC:-cc}

install() {
    command -v apt-get > /dev/null || return 0
    echo "installing $1"
    { apt-get install -y --no-install-recommends "$1" || { apt-get update && apt-get install -y --no-install-recommends "$1"; }; } \
        > "$build/install-$1.log" 2>&1 || true
}

has_libfec() {
    printf '#include <stddef.h>\n#include <fec.h>\nint main(void){return init_rs_char(8,0x11d,0,1,16,51)==NULL;}\n' \
        | "$cc" -x c - -o "$build/probe" -lfec 2> /dev/null
}

has_volk() {
    printf '#include <volk/volk.h>\nint main(void){return volk_8u_x4_conv_k7_r2_8u==0;}\n' | "$cc" -x c - -o "$build/probe" -lvolk 2> /dev/null
}

has_osmocore() {
    printf '#include <osmocom/core/conv.h>\nint main(void){return osmo_conv_decode==0;}\n' | "$cc" -x c - -o "$build/probe" -losmocore 2> /dev/null
}

mkdir -p "$build"
./build.sh libdvbs libdvbs_bridge libkernels > "$build/libraries.log" 2>&1 || { cat "$build/libraries.log"; exit 1; }
peers=() flags=()
has_libfec || install libfec-dev
if has_libfec; then
    flags=(-DHAVE_LIBFEC) peers=(-lfec)
else
    echo "libfec is missing (Debian: libfec-dev); its columns are skipped"
fi
has_volk || install libvolk2-dev
if has_volk; then
    flags+=(-DHAVE_VOLK) peers+=(-lvolk)
else
    echo "VOLK is missing (Debian: libvolk2-dev); its columns are skipped"
fi
has_osmocore || install libosmocore-dev
if has_osmocore; then
    flags+=(-DHAVE_OSMOCORE) peers+=(-losmocore)
else
    echo "libosmocore is missing (Debian: libosmocore-dev); its columns are skipped"
fi
"$cc" -std=gnu11 -O3 -Wall -Wextra -c bench/plain.c -o "$build/plain.o"
"$cc" -std=gnu11 -O3 -Wall -Wextra "${flags[@]}" bench/bench.c "$build/plain.o" -Ltarget/staticlib -ldvbs -ldvbs_bridge -lkernels "${peers[@]}" -o "$build/bench"

: > "$build/counts"
command -v valgrind > /dev/null || install valgrind
if command -v valgrind > /dev/null; then
    # They are the same however many run at a time.
    "$build/bench" list | xargs -P "$(getconf _NPROCESSORS_ONLN)" -L 1 bench/count.sh "$build/bench" > "$build/counts"
else
    echo "valgrind is missing (Debian: valgrind); instructions are not counted"
fi

system=$(. /etc/os-release 2> /dev/null && echo "$PRETTY_NAME" || uname -s)
compiler=$("$cc" -v 2>&1 | sed -nE 's/.*(gcc|clang) version ([0-9.]+).*/\1 \2/p')
measured="$(date +%Y-%m-%d), $(uname -m), $(getconf _NPROCESSORS_ONLN) processors, $system, $compiler"
echo "$measured"
"$build/bench" table "$build/counts" | tee "$build/table"
awk -v measured="$measured" -f bench/chart.awk "$build/table" > "$build/performance.svg"
mv "$build/performance.svg" docs/performance.svg
# The first table ends where the second begins; the lines that explain them stand in the docs.
awk '/^ +\|/ { on = 1 } on && /^$/ { exit } on' "$build/table" > "$build/kernels"
awk '/^The stages of the link/ { second = 1 } second && /^ +\|/ { on = 1 } on' "$build/table" > "$build/stages"
echo "Measured on $measured." > "$build/measured"
awk -v parts="$build" -f bench/insert.awk docs/PERFORMANCE.md > "$build/PERFORMANCE.md"
mv "$build/PERFORMANCE.md" docs/PERFORMANCE.md
