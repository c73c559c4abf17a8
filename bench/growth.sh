#!/bin/bash
# How cost grows from 1 MB to 1 GB, in two tables. Inputs are made on the way and never lie on the disk.
#
#   growth.sh report   the report program on a sent stream, clean and with one byte in 51 wrong
#   growth.sh link     the whole link over a channel with noise: packets, symbols at 3/4, points at 5.5 dB, read softly, received;
#                      what comes out is compared with what went in
#
# Without a word both. A time is a program's user time, and memory is the most that it had resident.
set -euo pipefail
cd "$(dirname "$0")/.."
build=target/bench
cc=${CC:-cc}
sizes="1 10 100 1000"

mkdir -p "$build"
./build.sh pass_report dvbs_send dvbs_read_soft dvbs_receive > "$build/programs.log" 2>&1 || { cat "$build/programs.log"; exit 1; }
"$cc" -std=gnu11 -O2 -Wall -Wextra bench/usage.c -o "$build/usage"
"$cc" -std=gnu11 -O3 -Wall -Wextra bench/feed.c bench/plain.c -o "$build/feed"

# of_report FILE KEY: a number of a pass report.
of_report() {
    sed -n "s/^$2=//p" "$1"
}

named() {
    if [ "$1" -lt 1000 ]; then echo "$1 MB"; else echo "$(($1 / 1000)) GB"; fi
}

report() {
    echo "| Input | Blocks | Harm | Blocks lost | User time, s | MB/s | Memory, MB |"
    echo "|---|---|---|---|---|---|---|"
    for every in "" 51; do
        for size in $sizes; do
            blocks=$((size * 1000000 / 204))
            "$build/feed" blocks "$blocks" $every | "$build/usage" "$build/used" target/bin/pass_report > "$build/report"
            [ "$(of_report "$build/report" taken)" = "$blocks" ] || { echo "the report has not $blocks blocks"; exit 1; }
            read -r _ user kilobytes < "$build/used"
            awk -v input="$(named "$size")" -v size="$size" -v blocks="$blocks" -v harm="${every:+one byte in $every}" \
                -v lost="$(of_report "$build/report" lost)" -v user="$user" -v kilobytes="$kilobytes" 'BEGIN {
                    rate = user + 0 == 0 ? "-" : sprintf("%.0f", size / user)
                    printf "| %s | %d | %s | %d | %.2f | %s | %.1f |\n", input, blocks, harm ? harm : "none", lost, user, rate, kilobytes / 1000
                }'
        done
    done
}

link() {
    export CARGO_HOME=$PWD/target/cargo-home CARGO_TARGET_DIR=$PWD/target/cargo
    cargo build --release --offline --quiet --manifest-path reference/Cargo.toml --bin channel
    echo "| Transport stream | Packets | Lost | \`dvbs_send\`, s | MB | channel, s | MB | \`dvbs_read_soft\`, s | MB | \`dvbs_receive\`, s | MB | All but the channel, Mbit/s |"
    echo "|---|---|---|---|---|---|---|---|---|---|---|---|"
    for size in $sizes; do
        packets=$((size * 1000000 / 188))
        # Eleven packets stay in the deinterleaver.
        due=$((packets - 11))
        "$build/feed" packets "$packets" \
            | "$build/usage" "$build/used.send" target/bin/dvbs_send 2 \
            | "$build/usage" "$build/used.channel" target/cargo/release/channel 2 5.5 1 \
            | "$build/usage" "$build/used.read" target/bin/dvbs_read_soft 2 2> "$build/rest" \
            | "$build/usage" "$build/used.receive" target/bin/dvbs_receive 2> "$build/report" \
            | cmp -n "$((due * 188))" - <("$build/feed" packets "$packets") || { echo "what came out is not what went in"; exit 1; }
        [ "$(of_report "$build/report" delivered)" = "$due" ] || { echo "of $due packets $(of_report "$build/report" delivered) came"; exit 1; }
        cat "$build"/used.{send,channel,read,receive} | awk -v input="$(named "$size")" -v size="$size" -v packets="$packets" \
            -v lost="$(of_report "$build/report" lost)" '
            { row = row sprintf(" %.2f | %.1f |", $2, $3 / 1000) }
            NR != 2 { user += $2 }
            END { printf "| %s | %d | %d |%s %s |\n", input, packets, lost, row, user + 0 == 0 ? "-" : sprintf("%.0f", 8 * size / user) }'
    done
}

case ${1:-both} in
    report) report ;;
    link) link ;;
    both) report; echo; link ;;
    *) echo "usage: growth.sh [report | link]" >&2; exit 2 ;;
esac
