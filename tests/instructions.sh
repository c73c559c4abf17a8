#!/bin/bash
# That the main kernels take as many instructions as tests/instructions.txt says, within three in a hundred. Vector code is lost by small changes that no proof and
# no comparison sees, and a kernel then takes several times as many.
#   tests/instructions.sh          counts them by callgrind, and fails where one is more than that away; without valgrind it says so and checks nothing
#   tests/instructions.sh write    counts them and writes them down
# What callgrind counts inside the C library depends on its version, on valgrind's and on what the processor offers, so the file says of which these are; elsewhere
# nothing is compared, and that is said.
# It needs the libraries in target/staticlib (./build.sh libdvbs libdvbs_bridge libkernels). CC may name another compiler.
set -euo pipefail
cd "$(dirname "$0")/.."
written=tests/instructions.txt
kernels=(rs_encode rs_decode_0 rs_decode_1 rs_decode_4 rs_decode_8 rs_decode_lost rs_decode_f8_e4 randomize interleave inner_code_3_4 send_3_4 truck_3_4
    read_1_2 read_3_4 read_soft_1_2 read_soft_3_4 stream_soft_3_4 receive_clean receive_harmed bridge_clean pieces_16)

if ! command -v valgrind > /dev/null; then
    echo "tests/instructions.sh: valgrind is missing (Debian: valgrind), so no instructions are counted"
    exit 0
fi
here="# $(valgrind --version), $(getconf GNU_LIBC_VERSION), processor with$(for flag in avx2 avx512f erms; do ! grep -qw "$flag" /proc/cpuinfo || printf ' %s' "$flag"; done)"
if [ "${1:-}" != write ] && [ "$here" != "$(head -n 1 "$written")" ]; then
    echo "tests/instructions.sh: nothing is compared, since the counts are of another place: $(head -n 1 "$written"); here: $here"
    exit 0
fi
for library in dvbs dvbs_bridge kernels; do
    [ -f "target/staticlib/lib$library.a" ] || { echo "tests/instructions.sh: target/staticlib/lib$library.a is missing"; exit 1; }
done
work=$(mktemp -d)
trap 'rm -rf "$work"' EXIT
"${CC:-cc}" -std=gnu11 -O3 bench/bench.c bench/plain.c -Ltarget/staticlib -ldvbs -ldvbs_bridge -lkernels -o "$work/bench"
"$work/bench" list | awk -v wanted=" ${kernels[*]} " '$2 == "library" && index(wanted, " " $1 " ")' \
    | xargs -P "$(getconf _NPROCESSORS_ONLN)" -L 1 bench/count.sh "$work/bench" | awk '{ print $1, $3 }' | sort > "$work/counts"
[ "$(wc -l < "$work/counts")" = ${#kernels[@]} ] || { echo "tests/instructions.sh: not every kernel was counted"; exit 1; }

if [ "${1:-}" = write ]; then
    { echo "$here"; cat "$work/counts"; } > "$written"
    exit 0
fi
awk '
    NR == FNR { was[$1] = $2; next } # the line of the place too, which no kernel has the name of
    !($1 in was) { print $1 ": no count is written down"; bad = 1; next }
    {
        away = ($2 - was[$1]) / was[$1]
        if (away > 0.03 || away < -0.03) {
            printf "%s takes %d instructions, and %d are written down\n", $1, $2, was[$1]
            bad = 1
        }
    }
    END { exit bad }' "$written" "$work/counts" || { echo "Where that is meant: tests/instructions.sh write"; exit 1; }
echo "instructions: ${#kernels[@]} kernels take what is written down"
