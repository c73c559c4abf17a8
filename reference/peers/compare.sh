#!/bin/sh
# Compares the library with outside implementations, stage by stage: libfec and
# GNU Radio (gr-dtv). Installs them from Debian where they are missing; one that
# cannot be had is said and skipped. Not needed by the tests.
#
#   EXPORTS_DIR=folder-of-libdvbs.a peers/compare.sh
#
# EXPORTS_LIBS may name further link arguments that the library needs.
set -eu
here=$(cd "$(dirname "$0")" && pwd)
. "$here/../library.sh"
. "$here/tools.sh"
status=0 compared= failed=

with_libfec() {
    $cc -O2 "$here/libfec.c" -o "$build/libfec" -L"$EXPORTS_DIR" -ldvbs ${EXPORTS_LIBS:-} -lfec 2> "$build/libfec.log"
}
[ -f /usr/include/fec.h ] || install libfec-dev || true
if with_libfec; then
    "$build/libfec" || status=1
    compared="$compared libfec"
else
    echo "libfec: not there (Debian: libfec-dev), skipped; see $build/libfec.log"
fi

if with_gnuradio || { install gnuradio && with_gnuradio; }; then
    $cc -O2 "$here/stages.c" -o "$build/stages" -L"$EXPORTS_DIR" -ldvbs ${EXPORTS_LIBS:-}
    # GNU Radio's remarks on its own buffers go to a log.
    "$python" "$here/gnuradio_chain.py" "$build/stages" > "$build/gnuradio.out" 2> "$build/gnuradio.log" || failed=1
    grep -v '^buffer_double_mapped' "$build/gnuradio.out" || failed=1
    if [ -n "$failed" ]; then tail -5 "$build/gnuradio.log" | cut -c 1-500; status=1; fi
    compared="$compared GNU-Radio"
else
    echo "GNU Radio: not there (Debian: gnuradio), skipped"
fi

if [ -z "$compared" ]; then echo "peers: none there, nothing compared"
elif [ $status = 0 ]; then echo "peers:$compared: no difference"
else echo "peers:$compared: DIFFERENT"; fi
exit $status
