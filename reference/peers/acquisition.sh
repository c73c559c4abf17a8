#!/bin/sh
# Measures acquisition: streams that begin anywhere, turned any way and noisy, slips, noise alone, and GNU Radio's modulator and
# demodulator with offsets of carrier and clock in front. Prints the tables, leaves them in build/acquisition and draws them:
# docs/acquisition.svg. All is seeded. A lock that is missed or wrong, or a packet that was never sent, is said, and the status is 1.
# Some minutes; GNU Radio comes from Debian, and is skipped where it cannot be had.
#
#   PROGRAMS_DIR=folder-of-dvbs_lock peers/acquisition.sh [RUNS]
#
# RUNS for each turn, rate and Eb/N0: 4 without a word. LOCK may name another program than $PROGRAMS_DIR/dvbs_lock.
set -eu
here=$(cd "$(dirname "$0")" && pwd)
lock=${LOCK:-${PROGRAMS_DIR:?set PROGRAMS_DIR to the folder of dvbs_lock}/dvbs_lock}
build=$here/build
mkdir -p "$build"
. "$here/tools.sh"
export CARGO_TARGET_DIR="${CARGO_TARGET_DIR:-$here/../target}"
cargo build --quiet --release --offline --manifest-path "$here/../Cargo.toml" --bin acquisition
acquisition=$CARGO_TARGET_DIR/release/acquisition
work=$(mktemp -d)
trap 'rm -rf "$work"' EXIT

# modem RATE EBN0 CARRIER CLOCK CUT SEED [mirrored]: a row of the table. A lock at another rate or mirror is wrong.
modem() {
    "$acquisition" symbols "$1" 400 "$6" > "$work/symbols"
    "$python" "$here/gnuradio_modem.py" "$work/symbols" "$work/points" "$@" >> "$build/modem.log" 2>&1
    "$lock" any < "$work/points" > "$work/packets" 2> "$work/told" || true
    mirror=0
    if [ "${7:-}" = mirrored ]; then mirror=1; fi
    awk -v judged="$("$acquisition" judge 400 "$6" < "$work/packets")" -v row="$(printf '%4s %5s %7s %5s %6s' "$1" "$2" "$3" "$4" $mirror)" -v rate="$1" -v mirror=$mirror '
        /^lock / {
            split($2 "=" $3 "=" $4, part, "=")
            if (!locks++) first = part[2]
            if (part[4] != rate || int(part[6] / 4) != mirror) wrong++
        }
        END {
            split(judged, word, /[ =]/)
            printf "modem %s %5d %5d %13d %7d %7d %10d %s\n", row, locks, wrong, first, word[2], word[6], word[8], word[10]
        }' "$work/told"
}

modems() {
    if ! with_gnuradio && ! { install gnuradio && with_gnuradio; }; then
        echo "GNU Radio: not there (Debian: gnuradio), skipped"
        return
    fi
    printf '\nGNU Radio as modulator and demodulator, 400 packets, 0.5 dB above what EN 300 421 asks of a modem, the rate not told\n\n'
    echo "      rate Eb/N0 carrier clock mirror locks false at-symbol     came missing never-sent in-order"
    : > "$build/modem.log"
    seed=1
    for rate in 0 1 2 3 4; do
        eb_n0=$(echo "5.0 5.5 6.0 6.5 6.9" | cut -d ' ' -f $((rate + 1)))
        for offset in "0.001 20" "0.002 -50" "0.005 100"; do
            for mirrored in "" mirrored; do
                # shellcheck disable=SC2086
                modem $rate "$eb_n0" $offset $((1000 + 777 * seed)) $seed $mirrored
                seed=$((seed + 1))
            done
        done
    done
}

{ "$acquisition" measure "$lock" "${1:-4}" || echo "FAILED"; modems; } | tee "$build/acquisition"
awk -f "$here/acquisition.awk" "$build/acquisition" > "$work/acquisition.svg"
mv "$work/acquisition.svg" "$here/../../docs/acquisition.svg"
# What may never be: from 4.5 dB on a run that does not lock rightly, from 4 dB on a false lock, and at any a packet that was never sent or is out of order.
awk '
    $1 == "lock" { rows++; missed += $3 >= 4.5 ? $4 - $6 : 0; false += $3 >= 4 ? $7 : 0; wrong += $11 + $12 }
    $1 == "slip" { rows++; missed += $8 < $4; false += $9; wrong += $10 + $11 }
    $1 == "noise" { rows++; false += $4; wrong += $5 }
    $1 == "before" { rows++; missed += $3 - $5; wrong += $8 + $9 }
    $1 == "modem" { rows++; missed += $7 < 1 || $10 < 1; false += $8; wrong += $12 + ($13 != "true") }
    $1 == "FAILED" { failed = 1 }
    END {
        printf "\nacquisition: %d rows, %d locks missed, %d false, %d packets never sent or out of order\n", rows, missed, false, wrong
        exit failed || rows < 76 || missed + false + wrong > 0
    }' "$build/acquisition" || { echo "acquisition: NOT as it should be"; exit 1; }
