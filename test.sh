#!/bin/bash
# The tests: that nothing is unused or stands twice, and that the docs are in step; the Rattle gate; then what stands beside the crates: the exported functions
# against the second coder and decoder of reference/, the programs on inputs in pieces, on pass reports, with marks and where something fails, the examples in C and
# the functions as the headers declare them, what is installed, the instructions of the kernels, the commands of README.md and docs/PROGRAMS.md, and the usage lines
# of the programs.
# The gate's line `N passed, 0 failed` comes last, and only where all of it passed.
set -euo pipefail
cd "$(dirname "$0")"
# Programs open no file while a standard stream is closed, so there is an input, whatever this script is started with.
exec < /dev/null
work=$(mktemp -d)
trap 'rm -rf "$work"' EXIT

fail() {
    echo "FAILED: $*"
    exit 1
}

# quietly COMMAND..: what it says is shown only where it fails.
quietly() {
    "$@" > "$work/said" 2>&1 || { cat "$work/said"; fail "$@"; }
}

# tool NAME PACKAGE: one that is missing, or is there and does not run for this user, comes from Debian.
# This is done first, so that nobody waits for the proofs to hear of it.
tool() {
    if "$1" --version > /dev/null 2>&1; then
        return
    fi
    [ "$(id -u)" = 0 ] || fail "the tests need $1 (Debian: $2)"
    export DEBIAN_FRONTEND=noninteractive PATH=/usr/bin:$PATH
    quietly apt-get update
    quietly apt-get install -y "$2"
    hash -r
}
tool cc gcc
tool c++ g++
tool cargo cargo
tool rustc rustc

# What takes seconds comes first.
quietly bash tests/unused.sh
quietly bash tests/sentences.sh
quietly bash tests/arrays.sh
quietly bash tests/repeated.sh
quietly bash tests/programs.sh
bash docs/crates.sh | quietly cmp - docs/crates.svg
bash docs/files.sh | quietly diff docs/FILES.md -
bash tests/believed.sh | quietly diff docs/BELIEVED.md -
# README.md and docs/TRUST.md name the lines of the three tiers.
tiers=$(awk -F ' *[|] *' '$2 ~ /^(Sending|All|These)/ { n[++k] = $4 } END { print n[1] ", " n[2] " and " n[3] " lines" }' docs/BELIEVED.md)
for document in README.md docs/TRUST.md; do grep -qF "$tiers" "$document" || fail "$document: $tiers of docs/BELIEVED.md"; done

# Its last line is held back: where something failed, no line of this script reads as if all had passed. A must-fail edit that is bad fails nothing there.
rt ci | tee "$work/gate" | sed '$d' || fail "rt ci, which ended: $(tail -n 1 "$work/gate")"
last=$(tail -n 1 "$work/gate")
[[ $last =~ ^[0-9]+\ passed,\ 0\ failed$ ]] || fail "rt ci, which ended: $last"
ok=$(grep '^rt: ok' "$work/gate") || fail "rt ci, which does not say ok"
! grep -qE ', [1-9][0-9]* bad' <<< "$ok" || fail "bad must-fail edits: $ok"

# Nothing is written to a home folder.
export CARGO_HOME=$PWD/target/cargo-home CARGO_TARGET_DIR=$PWD/target/cargo
in_reference=(--release --offline --manifest-path reference/Cargo.toml)
# The programs are those that the gate proved and built just now, by LLVM. build.sh proves and builds the libraries, and one of the programs once more.
mkdir -p target/bin
for name in $(basename -s .1 man/*.1) send_calls report_calls; do quietly install "crates/$name/out/$name" target/bin; done
quietly ./build.sh libdvbs libdvbs_bridge libkernels
./build.sh pass_report > "$work/built" 2>&1 &
building=$!
export EXPORTS_DIR=$PWD/target/staticlib
quietly cargo test "${in_reference[@]}" --lib --test programs --test vectors --test library
quietly cargo build "${in_reference[@]}"
compared=target/cargo/release
"$compared/compare_bridge"
"$compared/compare_states"
# The comparison of the library with the reference is the longest of what is left, and goes on beside the others.
"$compared/compare" > "$work/compared" 2>&1 &
comparison=$!
wait "$building" || { cat "$work/built"; fail "./build.sh pass_report"; }
# The scripts go on beside the comparisons of programs.
for script in pieces reports marks failures examples calls install instructions; do bash "tests/$script.sh" || exit; done > "$work/scripts" 2>&1 &
scripts=$!
"$compared/compare_losses"
"$compared/compare_calls" target/bin/send_calls
"$compared/compare_reports" target/bin/report_calls
"$compared/compare_seasons" target/bin/season target/bin/report_calls
"$compared/compare_noise" target/bin
"$compared/compare_lock" target/bin
wait "$scripts" || { cat "$work/scripts"; fail "a script"; }
cat "$work/scripts"
wait "$comparison" || { cat "$work/compared"; fail "the comparison with the reference"; }
cat "$work/compared"

# The commands of README.md that use what was built, and those of docs/PROGRAMS.md, as they stand there.
{ sed -n '/^## Try it/,/^## Reading/s/^    //p' README.md; sed -n 's/^    //p' docs/PROGRAMS.md; } > "$work/commands"
bash -eu -o pipefail "$work/commands" 2>&1 | diff examples/expected.txt - || fail "the commands of README.md and docs/PROGRAMS.md"
echo "the commands of README.md and docs/PROGRAMS.md: as expected"

# usage PROGRAM WORD..: with these words it gives its usage line on standard error, does nothing else, and ends with 2.
usage() {
    local status=0
    target/bin/"$@" < reference/tests/data/packets.ts > "$work/out" 2> "$work/err" || status=$?
    [ $status = 2 ] && [ ! -s "$work/out" ] && [ "$(wc -l < "$work/err")" = 1 ] && grep -q "^usage: $1 " "$work/err" || fail "usage line: $*"
}
usage dvbs_send
usage dvbs_send 4
usage dvbs_send 6
usage dvbs_send 22
usage dvbs_send 2 2
usage dvbs_send 7/8
usage dvbs_send --flush
usage dvbs_send 2 --flush
usage dvbs_read
usage dvbs_read 5
usage dvbs_read 2 2
usage dvbs_read_soft
usage dvbs_read_soft 5
usage dvbs_read_soft 2 2
usage dvbs_lock
usage dvbs_lock 5
usage dvbs_lock all
usage dvbs_lock 2 2
usage dvbs_receive 0 0
usage dvbs_losses 0 0
usage pass_report 0
usage report_form
usage report_form 0
usage report_form 3
usage report_form 11
usage report_form 1 1
usage season 0
usage recording_block
usage recording_block crates/recording_block/data/recording
usage recording_block crates/recording_block/data/recording 1x
usage recording_block crates/recording_block/data/recording ""
usage recording_block crates/recording_block/data/recording 0 0
echo "usage lines: as expected"

# Each block of a recording, and those that it has not, by the program and by the reference.
recording=crates/recording_block/data/recording
for p in {0..28} 4294967283 4294967284 18446744073709551615; do
    for side in target/bin/recording_block target/cargo/release/recorded_block; do
        "$side" "$recording" "$p" > "$work/${side##*/}" 2>&1 || true
    done
    cmp "$work/recording_block" "$work/recorded_block" || fail "recording_block: block $p"
done
# A file that is not there is said, and nothing is written.
! target/bin/recording_block "$work/none" 0 > "$work/out" 2> "$work/err" && [ ! -s "$work/out" ] && [ -s "$work/err" ] || fail "recording_block: no file"
echo "recording_block: as the reference"
echo "$last"
