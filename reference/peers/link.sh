#!/bin/sh
# The whole link beside outside tools: the same noisy points through the programs and through GNU Radio's decoders, with
# the bit errors of each, and a transport stream made by ffmpeg, sent over noise, received, and judged by ffmpeg.
# Installs what is missing from Debian; what cannot be had is said and skipped. By hand, some minutes.
#
#   PROGRAMS_DIR=folder-of-dvbs_send peers/link.sh [noise | film]
#
# Without a word both.
set -eu
here=$(cd "$(dirname "$0")" && pwd)
: "${PROGRAMS_DIR:?set PROGRAMS_DIR to the folder of dvbs_send, dvbs_read, dvbs_read_soft and dvbs_receive}"
build=$here/build
mkdir -p "$build"
. "$here/tools.sh"
export CARGO_TARGET_DIR="${CARGO_TARGET_DIR:-$here/../target}"
cargo build --quiet --release --offline --manifest-path "$here/../Cargo.toml" --bin channel --bin interleaved
tools=$CARGO_TARGET_DIR/release
work=$(mktemp -d)
trap 'rm -rf "$work"' EXIT
status=0

noise() {
    if ! with_gnuradio && ! { install gnuradio && with_gnuradio; }; then
        echo "GNU Radio: not there (Debian: gnuradio), skipped"
        return
    fi
    # GNU Radio's remarks on its own buffers go to a log, or are no lines of the tables.
    "$python" "$here/gnuradio_noise.py" "$PROGRAMS_DIR" "$tools" "$work" > "$work/tables" 2> "$build/noise.log" || { tail -5 "$build/noise.log" | cut -c 1-500; status=1; }
    grep -v '^buffer_double_mapped' "$work/tables"
}

# over_the_air FILM EBN0 NAME: the film through the link at 3/4, one symbol in a hundred lost, to NAME.ts; the report to NAME.report.
# Eleven inputs that are no packets follow, for which null packets are sent: the deinterleaver keeps those, and the film comes whole.
over_the_air() {
    { cat "$1"; head -c $((11 * 188)) /dev/zero; } | "$PROGRAMS_DIR/dvbs_send" 2 2> "$work/inputs" \
        | "$tools/channel" 2 "$2" 1 lost=0.01 | "$PROGRAMS_DIR/dvbs_read_soft" 2 2> "$work/rest" \
        | "$PROGRAMS_DIR/dvbs_receive" > "$work/$3.ts" 2> "$work/$3.report"
}

# judge NAME: what ffmpeg has to say of NAME.ts. NAME.psi: the programs and streams of its tables. NAME.gaps: breaks in
# the continuity counters. NAME.said: whatever its demultiplexer and decoders complain of. NAME.frames: a sum of each frame.
judge() {
    ffprobe -v error -show_programs -show_streams -show_entries \
        program=program_id,program_num,pmt_pid,pcr_pid:program_tags:stream=id,codec_name,width,height,sample_rate:stream_tags \
        "$work/$1.ts" > "$work/$1.psi" 2>&1 || true
    ffmpeg -v debug -i "$work/$1.ts" -map 0 -c copy -f null - 2>&1 | grep 'Continuity check failed' > "$work/$1.gaps" || true
    ffmpeg -v warning -i "$work/$1.ts" -map 0 -f framemd5 - > "$work/$1.frames" 2> "$work/$1.said" || true
}

lines() {
    wc -l < "$work/$1"
}

# must WHAT COMMAND..: what fails is said, and counts.
must() {
    what=$1
    shift
    if "$@"; then echo "ffmpeg, $what"; else echo "ffmpeg, NOT SO: $what"; status=1; fi
}

# accepted NAME: ffmpeg finds a program, and nothing to complain of.
accepted() {
    grep -q '^program_id=1$' "$work/$1.psi" && [ ! -s "$work/$1.gaps" ] && [ ! -s "$work/$1.said" ]
}

# refused NAME: ffmpeg finds that something is missing, and the frames are others.
refused() {
    [ -s "$work/$1.gaps" ] && [ -s "$work/$1.said" ] && ! cmp -s "$work/$1.frames" "$work/film.frames"
}

film() {
    if ! command -v ffmpeg > /dev/null && ! install ffmpeg; then
        echo "ffmpeg: not there (Debian: ffmpeg), skipped"
        return
    fi
    # Twenty seconds of picture and sound, padded with null packets to a constant rate, as a multiplexer sends them.
    ffmpeg -v error -f lavfi -i testsrc2=size=352x288:rate=25 -f lavfi -i sine=frequency=440:sample_rate=48000 -t 20 \
        -c:v mpeg2video -b:v 2M -maxrate 2M -bufsize 1M -g 12 -c:a mp2 -b:a 192k -flags:v +bitexact -flags:a +bitexact -fflags +bitexact \
        -metadata service_name=Smorrivant -f mpegts -muxrate 3M "$work/film.ts"
    judge film
    packets=$(($(wc -c < "$work/film.ts") / 188))
    must "the film: $packets packets, $(grep -c '^[01],' "$work/film.frames") frames, no complaint" accepted film

    over_the_air "$work/film.ts" 5.0 received
    judge received
    must "received at 5.0 dB, $(sed -n 's/^changed=//p' "$work/received.report") bytes corrected: breaks in continuity $(lines received.gaps), complaints $(lines received.said)" \
        accepted received
    must "received: the same programs and streams" cmp "$work/film.psi" "$work/received.psi"
    must "received: the same frames" cmp "$work/film.frames" "$work/received.frames"
    must "received: the same bytes" cmp "$work/film.ts" "$work/received.ts"

    # What the judge must find: one packet of the picture gone, and a link too weak.
    n=$((packets / 2))
    while :; do
        pid=$(od -An -tx1 -j $((188 * n + 1)) -N 2 "$work/film.ts" | tr -d ' ')
        if [ "$pid" = 0100 ]; then break; fi
        n=$((n + 1))
    done
    { head -c $((188 * n)) "$work/film.ts"; tail -c +$((188 * (n + 1) + 1)) "$work/film.ts"; } > "$work/cut.ts"
    judge cut
    must "without packet $n: breaks in continuity $(lines cut.gaps), complaints $(lines cut.said), other frames" refused cut
    over_the_air "$work/film.ts" 3.5 weak
    judge weak
    must "received at 3.5 dB, $(sed -n 's/^lost=//p' "$work/weak.report") blocks lost: breaks in continuity $(lines weak.gaps), complaints $(lines weak.said), other frames" refused weak
}

case ${1:-both} in
    noise) noise ;;
    film) film ;;
    both) noise; film ;;
    *) echo "usage: link.sh [noise | film]" >&2; exit 2 ;;
esac
if [ $status = 0 ]; then echo "link: as it should be"; else echo "link: NOT as it should be"; fi
exit $status
