#!/bin/bash
# The functions of both headers from C and from C++ (tests/calls.c): each beside GNU Radio's output or a proved program, but for those that tests/examples.sh tries,
# and each refusal. The comparisons of reference/ have declarations of their own; one of a header that is not the function's own is seen here.
#   tests/calls.sh      from the top of the repository, after the libraries, the programs and reference/ are built
set -euo pipefail
root=$PWD
bin=$root/target/bin
reference=$root/target/cargo/release
data=$root/reference/tests/data
work=$(mktemp -d)
trap 'rm -rf "$work"' EXIT

fail() {
    echo "FAILED: $*"
    exit 1
}

for name in $(sed -n 's/^uint[0-9]*_t \(dvbs_[a-z_]*\)(.*/\1/p' include/*.h); do
    grep -q "\<$name(" tests/calls.c || fail "$name is not called"
done
cc -std=c99 -O2 -Wall -Wextra -Werror -Iinclude tests/calls.c -Ltarget/staticlib -ldvbs -ldvbs_bridge -o "$work/calls"
c++ -std=c++11 -O2 -Wall -Wextra -Werror -Iinclude -x c++ tests/calls.c -x none -Ltarget/staticlib -ldvbs -ldvbs_bridge -o "$work/calls.cpp"
cd "$work"

# gives WANTED NAME WORD..: the function gives these bytes of the standard input; what it tells is in err.
gives() {
    local wanted=$1
    shift
    "$side" "$@" > out 2> err || fail "$side $*: $(cat err)"
    cmp out "$wanted" || fail "$side $*"
}

# A recording with a gap, a burst of 150 bytes and bytes behind its last block; and marks of 120 bytes of the burst.
cat "$data/packets.ts" "$data/packets.ts" "$data/packets.ts" | "$reference/interleaved" > sent
{ head -c 11628 sent; tail -c +11833 sent; echo rest; } > recording
head -c 150 /dev/zero | tr '\0' '\252' | dd of=recording bs=1 seek=4000 conv=notrunc status=none
head -c "$(wc -c < recording)" /dev/zero > none
cp none marks
head -c 120 /dev/zero | tr '\0' '\1' | dd of=marks bs=1 seek=4000 conv=notrunc status=none
"$bin/dvbs_receive" < recording > received 2> report
"$bin/dvbs_receive" marks < recording > received.marked 2> report.marked
"$bin/dvbs_losses" < recording > losses
"$bin/dvbs_losses" marks < recording > losses.marked
! cmp -s report report.marked && ! cmp -s losses losses.marked && grep -q doubt losses || fail "marks and a gap make no difference"
{ head -c 188 /dev/zero; tail -c +189 "$data/packets.ts"; } > packets
for side in ./calls ./calls.cpp; do
    "$side" refusals < /dev/null || fail "$side: refusals"
    gives "$data/randomized.bin" randomize < "$data/packets.ts"
    gives "$data/packets.ts" derandomize < "$data/randomized.bin"
    gives "$data/coded.bin" rs_encode < "$data/randomized.bin"
    gives "$data/coded.bin" rs_decode < "$data/coded.bin"
    gives "$data/coded.bin" rs_decode_marked < "$data/coded.bin"
    for mode in 0 1 2 3 5; do
        "$bin/dvbs_send" $mode < packets > symbols 2> told
        gives symbols send_run $mode < packets
        [ "$(cat err)" = answer=15 ] || fail "$side send_run: $(cat err) of a null packet"
    done
    for rate in 0 1 2 3 4; do
        symbols=$data/symbols_rate$rate.bin
        "$reference/channel" $rate inf 1 < "$symbols" > points
        "$bin/dvbs_read" $rate < "$symbols" > read 2> told
        gives read read_run $rate < "$symbols"
        gives read read_soft_run $rate < points
        gives read reader_feed $rate < "$symbols"
        cmp err told || fail "$side reader_end $rate"
        "$reference/channel" $rate 5 1 lost=0.01 < "$symbols" > points
        "$bin/dvbs_read_soft" $rate < points > read 2> told
        gives read reader_feed_soft $rate < points
        cmp err told || fail "$side reader_end $rate, soft"
    done
    gives received receive_run < recording
    cmp err report || fail "$side receive_run: its counts"
    gives received.marked receive_run_marked marks < recording
    cmp err report.marked || fail "$side receive_run_marked: its counts"
    gives received receiver none < recording
    cmp err report || fail "$side receiver_report"
    gives received.marked receiver marks < recording
    cmp err report.marked || fail "$side receiver_report with marks"
    gives losses losses_run < recording
    gives losses.marked losses_run marks < recording
    # Whole, corrected, lost, and not there.
    : > kinds
    for p in 0 8 14 20 46 107 108 18446744073709551615; do
        wanted=0 status=0
        "$bin/recording_block" recording $p > read 2> told || wanted=$?
        "$side" recording_block $p < recording > out 2> err || status=$?
        [ $status = $wanted ] && cmp out read && cmp err told || fail "$side recording_block $p"
        cat told >> kinds
    done
    for kind in "0 changed=0" "0 changed=[1-9]" "8 " "16 "; do grep -q "^answer=$kind" kinds || fail "no block of the kind $kind"; done
done
echo "the functions of the headers from C and from C++: as the programs, and every refusal as the headers say"
