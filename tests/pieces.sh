#!/bin/bash
# The programs on inputs that come in pieces, on inputs that end beside a buffer's end, and on inputs and outputs that fail.
#   tests/pieces.sh      from the top of the repository, after the programs and reference/ are built
# Prints a line for each kind of case, and stops at the first that fails.
set -euo pipefail
bin=$PWD/target/bin
reference=$PWD/target/cargo/release
work=$(mktemp -d)
trap 'rm -rf "$work"' EXIT
cd "$work"

fail() {
    echo "FAILED: $*"
    exit 1
}

# A recording of 1,200 blocks, harmed so that packets are lost and bytes corrected, and cut off inside a block.
packets=$OLDPWD/reference/tests/data/packets.ts
for _ in $(seq 30); do cat "$packets"; done > packets
cp "$packets" packets.40
recorded=$OLDPWD/reference/tests/data/symbols_rate4.bin
"$reference/interleaved" < packets > recording
for at in 5000 70001 70300 131072 200000; do
    head -c 97 /dev/zero | tr '\0' '\377' | dd of=recording bs=1 seek="$at" conv=notrunc status=none
done
truncate -s -57 recording

# report_of LENGTH FILE: on so many bytes of the file, from a file and through a pipe, the report is the reference's.
report_of() {
    head -c "$1" "$2" > part
    "$reference/pass_report" < part > wanted
    "$bin/pass_report" < part | cmp - wanted || fail "report of $1 bytes of $2 from a file"
    cat part | "$bin/pass_report" | cmp - wanted || fail "report of $1 bytes of $2 through a pipe"
}
for n in 0 1 203 204 205 2244 65535 65536 65537 130559 130560 130561 131071 131072 131073 244743; do report_of "$n" recording; done
for n in 2448 2449 2651 2752; do report_of "$n" /dev/zero; done
report_of 8013 "$OLDPWD/reference/tests/data/recording"
echo "reports at the ends of the buffers: as the reference's"

"$reference/pieces" 1000 65536 "$bin/pass_report" < recording > report
"$reference/pass_report" < recording | cmp - report || fail "pass_report in pieces"
"$reference/pieces" 200 65536 "$bin/dvbs_receive" < recording > received 2> report.2
cmp report report.2 || fail "the report of dvbs_receive in pieces"
"$bin/dvbs_receive" < recording 2> /dev/null | cmp - received || fail "the packets of dvbs_receive in pieces"
[ "$(wc -c < received)" = $((188 * $(sed -n 's/^delivered=//p' report))) ] || fail "as many packets as the report says"
echo "a recording in 1,200 cuttings: one report, one packet stream"

# A live feed: the packet of a block comes out when the block is whole, and not when a buffer is full.
mkfifo feed
"$bin/dvbs_receive" < feed > live 2> /dev/null &
exec 3> feed
head -c $((204 * 12)) recording >&3
for _ in $(seq 100); do [ "$(wc -c < live)" = 188 ] && break; sleep 0.1; done
[ "$(wc -c < live)" = 188 ] || fail "a live feed's packet comes when its block is whole"
exec 3>&-
wait
echo "a live feed: as it comes"

# no_report WHAT WANTED COMMAND..: nothing on standard output, and this line on standard error.
no_report() {
    local what=$1 wanted=$2
    shift 2
    "$@" > out 2> err || true
    [ ! -s out ] && [ "$(cat err)" = "$wanted" ] || fail "$what: $(cat out err)"
}
no_report "a directory as input" "standard input: Is a directory" bash -c "'$bin/pass_report' < ."
no_report "a closed input" "standard input: Bad file descriptor" bash -c "'$bin/pass_report' <&-"
no_report "a full device for the report" "report: No space left on device" bash -c "'$bin/pass_report' < recording > /dev/full"
no_report "a closed output for the report" "report: Bad file descriptor" bash -c "'$bin/pass_report' < recording >&-"
no_report "a full device for packets" "standard output: No space left on device" bash -c "'$bin/dvbs_receive' < recording > /dev/full"
no_report "a directory as input of dvbs_receive" "standard input: Is a directory" bash -c "'$bin/dvbs_receive' < ."
echo "inputs and outputs that fail: no report, and a message"

# dvbs_send: more than its buffer takes at once, with two packets that are none and a rest. In all pieces the symbols are those of the list
# with null packets put in, and the text on standard error is the same.
null_packet() {
    printf '\x47\x1f\xff\x10'
    head -c 184 /dev/zero | tr '\0' '\377'
}
for _ in 1 2 3 4 5 6 7; do cat "$packets"; done > good
{ head -c 188 /dev/zero; cat good; head -c 188 /dev/zero; head -c 57 "$packets"; } > mixed
{ null_packet; cat good; null_packet; } > put_in
printf 'packet=0 answer=15\npacket=281 answer=15\npackets=282 replaced=2 rest=57\n' > told
for rate in 0 1 2 3 5; do
    "$bin/dvbs_send" $rate < put_in > symbols 2> err
    [ -s symbols ] && [ "$(cat err)" = "packets=282 replaced=0 rest=0" ] || fail "dvbs_send $rate on packets"
    "$reference/pieces" 60 12032 "$bin/dvbs_send" $rate < mixed > out 2> err || fail "dvbs_send $rate in pieces"
    cmp out symbols || fail "dvbs_send $rate in pieces: symbols"
    diff told err || fail "dvbs_send $rate in pieces: standard error"
done
# A rate is the same as its number. Flushed, the symbols are those of the packets and of eleven null packets after them, without the rest.
rates=(1/2 2/3 3/4 5/6)
{ cat put_in; for _ in 1 2 3 4 5 6 7 8 9 10 11; do null_packet; done; } > flushed
for rate in 0 1 2 3; do
    "$bin/dvbs_send" $rate < flushed > symbols 2> err
    "$bin/dvbs_send" --flush ${rates[$rate]} < mixed > out 2> err || fail "dvbs_send --flush ${rates[$rate]}"
    cmp out symbols && diff told err || fail "dvbs_send --flush ${rates[$rate]}: symbols, standard error"
done
no_report "a directory as input of dvbs_send" "standard input: Is a directory" bash -c "'$bin/dvbs_send' 0 < ."
no_report "a closed input of dvbs_send" "standard input: Bad file descriptor" bash -c "'$bin/dvbs_send' 0 <&-"
no_report "a full device for symbols" "standard output: No space left on device" bash -c "'$bin/dvbs_send' 0 < good > /dev/full"
echo "dvbs_send in 300 cuttings: one stream of symbols, one text on standard error; flushed, with eleven null packets"

# The readers of symbols, over more than their buffers take. In all pieces the bytes and the text on standard error are the same; points of 1.0 and
# -1.0 are read as the symbols are; and points with noise, some of them lost, give the bits that were sent. 7/8
# is no longer sent: there the symbols are GNU Radio's.
for rate in 0 1 2 3 4; do
    if [ $rate = 4 ]; then cp "$recorded" symbols; else "$bin/dvbs_send" $rate < packets.40 > symbols 2> err; fi
    "$reference/pieces" 12 32768 "$bin/dvbs_read" $rate < symbols > blocks 2> told || fail "dvbs_read $rate in pieces"
    "$reference/channel" $rate inf 1 < symbols > points
    { cat points; head -c 5 points; } > points.more
    { cat told; echo "bytes=5"; } > told.soft
    "$reference/pieces" 12 65536 "$bin/dvbs_read_soft" $rate < points.more > out 2> err || fail "dvbs_read_soft $rate in pieces"
    cmp out blocks || fail "dvbs_read_soft $rate on points of 1.0 and -1.0"
    diff told.soft err || fail "dvbs_read_soft $rate: standard error"
    # Behind the last hundred bits too little comes for them to be sure.
    "$reference/channel" $rate 12 1 lost=0.002 < symbols | "$bin/dvbs_read_soft" $rate 2> /dev/null | cmp -n 8140 - blocks || fail "dvbs_read_soft $rate on points with noise"
done
"$bin/dvbs_read_soft" 2 < /dev/null > out 2> err
[ ! -s out ] && [ "$(cat err)" = "$(printf 'rest=0\nbits=0\nbytes=0')" ] || fail "dvbs_read_soft on no input"
no_report "a directory as input of dvbs_read_soft" "standard input: Is a directory" bash -c "'$bin/dvbs_read_soft' 0 < ."
no_report "a full device for bytes" "standard output: No space left on device" bash -c "'$bin/dvbs_read_soft' 0 < points > /dev/full"
echo "dvbs_read and dvbs_read_soft in 120 cuttings: one stream of bytes, one text on standard error"
