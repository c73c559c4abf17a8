#!/bin/bash
# dvbs_receive with a file of marks: bursts twice as long as without, marks in another length than the recording, marks that are none.
#   tests/marks.sh      from the top of the repository, after the programs and reference/ are built
# Prints a line for each kind of case, and stops at the first that fails.
set -euo pipefail
bin=$PWD/target/bin
reference=$PWD/target/cargo/release
packets=$PWD/reference/tests/data/packets.ts
work=$(mktemp -d)
trap 'rm -rf "$work"' EXIT
cd "$work"

fail() {
    echo "FAILED: $*"
    exit 1
}

# fill FILE BYTE AT COUNT: so many times this byte, octal, from there on.
fill() {
    head -c "$4" /dev/zero | tr '\0' "\\$2" | dd of="$1" bs=1 seek="$3" conv=notrunc status=none
}

# A recording of 240 blocks, the marks of which are all 0.
for _ in $(seq 6); do cat "$packets"; done > packets
"$reference/interleaved" < packets > sent
head -c "$(wc -c < sent)" /dev/zero > none

# received RECORDING MARKS: the report is the reference's, and the packets are as many as it says.
received() {
    "$bin/dvbs_receive" "$2" < "$1" > got 2> report
    "$reference/pass_report" "$2" < "$1" | cmp - report || fail "the report on $1 with $2"
    [ "$(wc -c < got)" = $((188 * $(sed -n 's/^delivered=//p' report))) ] || fail "as many packets as the report on $1 with $2 says"
}

# all_sent: the packets are the first that were sent, and only those in the delays are missing.
all_sent() {
    cmp -n "$(wc -c < got)" got packets && grep -q "^delivered=229$" report || fail "$1"
}

received sent none
all_sent "no damage and no mark"
# One burst of 192 marked bytes in every 2,448 and 192, so sixteen in each block at most; none is lost.
for from in 0 7 100 203; do
    cp sent harmed
    cp none marks
    for at in $(seq "$from" 2640 46000); do
        fill harmed 252 "$at" 192
        fill marks 001 "$at" 192
    done
    received harmed marks
    all_sent "bursts of 192 marked bytes from $from on"
    received harmed none
    grep -q "^lost=0$" report && fail "bursts of 192 bytes without marks from $from on: none lost"
done
# The same through pipes that bring both in pieces, with pauses.
in_pieces() {
    for n in 1 203 204 205 1000; do head -c "$n"; sleep 0.05; done
    cat
}
"$bin/dvbs_receive" marks < harmed > got 2> report
in_pieces < harmed | "$bin/dvbs_receive" <(in_pieces < marks) 2> report.2 | cmp - got || fail "packets of a recording in pieces"
cmp report report.2 || fail "the report on a recording in pieces"
echo "bursts of 192 marked bytes: none lost, and reports as the reference's"

# Marks that end before the recording, or after it; every byte marked, where nothing is accepted.
head -c 30000 marks > short
cat marks marks > long
head -c "$(wc -c < sent)" /dev/zero | tr '\0' '\1' > every
: > empty
for marks in short long every empty; do received harmed "$marks"; done
received sent every
grep -q "^delivered=0$" report || fail "a clean recording with every byte marked"
echo "marks of other lengths: as the reference"

# said WANTED COMMAND..: nothing on standard output, and this line on standard error.
said() {
    local wanted=$1
    shift
    "$@" > got 2> said || true
    [ ! -s got ] && [ "$(cat said)" = "$wanted" ] || fail "$*: $(cat said), not $wanted"
}
cp none two
fill two 002 $((204 * 7 + 203)) 1
said "block=7 answer=20" bash -c "'$bin/dvbs_receive' two < sent"
said "nowhere: No such file or directory" bash -c "'$bin/dvbs_receive' nowhere < sent"
said "marks: Is a directory" bash -c "'$bin/dvbs_receive' . < sent"
echo "a mark of 2 and marks that cannot be read: no report, and a message"
