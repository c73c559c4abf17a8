#!/bin/sh
# Does the comparison find faults? Builds the plain-C peer in the library's place,
# right and then with one fault after another, and runs the comparison on each:
# the right one must pass, every faulty one must be found.
set -eu
here=$(cd "$(dirname "$0")/.." && pwd)
peer=$here/../bench
work=$(mktemp -d)
trap 'rm -rf "$work"' EXIT
mkdir "$work/lib"
missed=0 found=0

build() {
    cc -std=gnu11 -O2 -w -DPLAIN_AS_LIBRARY -I"$peer" -c "$work/plain.c" -o "$work/plain.o"
    rm -f "$work/lib/libdvbs.a"
    ar rcs "$work/lib/libdvbs.a" "$work/plain.o"
    (cd "$here" && EXPORTS_DIR=$work/lib CARGO_TARGET_DIR=$work/target cargo build -q --release --offline --bin compare)
}

# fault NAME KIND OLD NEW: the text OLD, which must be there, becomes NEW.
fault() {
    name=$1 kind=$2 old=$3 new=$4
    OLD=$old NEW=$new awk 'BEGIN { old = ENVIRON["OLD"]; new = ENVIRON["NEW"] }
        { at = index($0, old); if (at && !done) { $0 = substr($0, 1, at - 1) new substr($0, at + length(old)); done = 1 } print }
        END { exit !done }' "$peer/plain.c" > "$work/plain.c" || { echo "no such text: $old"; exit 2; }
    build
    if timeout 100 "$work/target/release/compare" "$kind" > "$work/out" 2>&1; then
        echo "MISSED: $name"; missed=$((missed + 1))
    else
        echo "found: $name ($(grep -m1 -o 'case [0-9]*' "$work/out" || echo stopped))"; found=$((found + 1))
    fi
}

cp "$peer/plain.c" "$work/plain.c"
build
"$work/target/release/compare" | tail -1 | grep -q ' 0 failed$' || { echo "the right one does not pass"; exit 1; }
echo "the right one passes"

any="rs_decode: 0 to 20 errors anywhere"
line="rs_decode_marked: 0 to 18 marks, errors on either side of the line"
doubtful="receive_run_marked: harmed bytes, most of them marked"
hidden="rs_decode: errors among the 51 bytes never sent"
odd="receive_run: blocks dropped, doubled or strange"
walk="receive_run: sync bytes at random"
put_in="send_run: null packets put in"
recorded="recording_block: every block"
edges="read_soft_run: every edge with every other"
histories="receive_run: histories of five blocks from every state"
fault "generator stops at the sync bytes" "randomize" "prbs[n] = n % PACKET ? byte : 0;" "prbs[n] = byte; if (n % PACKET == 0) prbs[n] = 0, n++, prbs[n] = byte;"
fault "generator restarts at every packet" "randomize" "prbs + PACKET * place" "prbs"
fault "derandomizing refuses a strange first byte" "derandomize" "    mask(place, 0x47, packet, output);" "    if (packet[0] != 0x47 && packet[0] != 0xb8) return 2; mask(place, 0x47, packet, output);"
fault "short output tested before the sync byte" "randomize and derandomize: refusals" "    if (packet[0] != 0x47)" "    if (output_len < PACKET) return 4; if (packet[0] != 0x47)"
fault "one byte of output too many written" "rs_encode" "    memcpy(output, data, PACKET);" "    if (output_len > BLOCK) output[BLOCK] = 0; memcpy(output, data, PACKET);"
fault "decoding as a code of 255 bytes" "$hidden" "for (int e = 0; e < BLOCK && found < errors; e++)" "for (int e = 0; e < 255 && found < errors; e++)"
fault "seven errors only" "$any" "2 * others + f > CHECK ||" "2 * others + f > CHECK - 2 ||"
fault "roots not counted" "$any" "if (found != errors)" "if (0)"
fault "count from the locator, lost block counted" "$any" "return 8;" "return count[0] = 9, 8;"
fault "count not written on a clean block" "$any" "    count[0] = (uint8_t)changed;" "    if (changed) count[0] = (uint8_t)changed;"
fault "bits of the codeword, not of the difference" "$any" "for (; change; change &= change - 1)" "for (change = block[BLOCK - 1 - place[k]]; change; change &= change - 1)"
fault "upper half of a byte not counted" "$any" "for (; change; change &= change - 1)" "for (change &= 15; change; change &= change - 1)"
fault "one error too few beside marks" "$line" "2 * others + f > CHECK ||" "2 * others + f > CHECK - (f > 0) ||"
fault "marks past the sixteenth passed over" "$line" "if (f == CHECK)" "if (f == CHECK) continue; if (0)"
fault "a marked byte that is right counted" "$line" "changed += change != 0;" "changed += 1;"
fault "a mark of 2 taken" "rs_decode_marked: refusals" "return any < 2;" "return any < 4;"
fault "count tested before the marks" "rs_decode_marked: refusals" "    if (marks_len != BLOCK ||" "    if (count_len < 2) return 4; if (marks_len != BLOCK ||"
fault "marks not delayed" "$doubtful" "pass(&doubtful, 1, marks + BLOCK * b, marked);" "memcpy(marked, marks + BLOCK * b, BLOCK);"
fault "count of one byte taken" "rs_decode: refusals" "    if (count_len < 2)" "    if (count_len < 1)"
fault "count tested before the block" "rs_decode: refusals" "    if (block_len != BLOCK)" "    if (count_len < 2) return 4; if (block_len != BLOCK)"
fault "puncturing starts anew at every block, 5/6" "send_run at 5/6" "        written += code(" "        inner.at = 0; written += code("
fault "memory cleared at every block" "send_run at 1/2" "        written += code(" "        inner.memory = 0; written += code("
fault "memory cleared at every block, 16QAM" "send_run at 16QAM 3/4" "        written += code(" "        inner.memory = 0; written += code("
fault "X and Y exchanged, 16QAM" "send_run at 16QAM 3/4" "2 * (xy & 1) + (xy >> 1)" "xy"
fault "the third byte before the second, 16QAM" "send_run at 16QAM 3/4" "(unsigned)bytes[n + 1] << 8 | bytes[n + 2]" "(unsigned)bytes[n + 2] << 8 | bytes[n + 1]"
fault "7/8 still sent" "send_run: refusals" "rate > 5 || rate == 4" "rate > 5"
fault "5/6 no longer sent" "send_run at 5/6" "rate > 5 || rate == 4" "rate > 5 || rate == 3"
fault "delays the wrong way round, sending" "send_run at 3/4" "pass(&branches, 0, block, out)" "pass(&branches, 1, block, out)"
fault "delays the wrong way round, receiving" "receive_run: unharmed" "pass(&branches, 1, blocks" "pass(&branches, 0, blocks"
fault "X and Y in the wrong order" "send_run at 2/3" "0171) << 1" "0133) << 1"
fault "a packet without the sync byte sent as it came" "$put_in" "packet = null_packet, answer[0] = 15;" "answer[0] = 15;"
fault "15 for a good packet too" "$put_in" "        if (packet[0] != 0x47)" "        answer[0] = 15; if (packet[0] != 0x47)"
fault "15 for the last packet alone" "$put_in" "answer[0] = 15;" "answer[0] = p + 1 == count ? 15 : 0;"
fault "another packet identifier" "$put_in" "x1f" "x1e"
fault "a null packet moves no place" "$put_in" "mask(p % GROUP, p % GROUP" "mask((p - (packet == null_packet)) % GROUP, p % GROUP"
fault "a tie taken as one" "read_run: constant symbols, full of ties" "oldest[k][s] = way[1] < way[0];" "oldest[k][s] = way[1] <= way[0];"
fault "the last of the least memories" "read_run: short runs of random symbols" "if (metric[t] < metric[s])" "if (metric[t] <= metric[s])"
fault "any memory at the start" "read_run: short runs of random symbols" "metric[s] = s == memory ? 0 : 100000;" "metric[s] = 0;"
fault "a place of 7/8 punctured wrongly" "read_run: GNU Radio's symbols" "if (sent & (y ? 1 : 2))" "if ((rate == 4 && k % 7 == 3 ? 2 : sent) & (y ? 1 : 2))"
fault "short output tested before the symbols" "read_run: refusals" "    if (count > 1632)" "    if (output_len < count) return result[0] = 4, 0; if (count > 1632)"
fault "a threshold off" "$edges" "0.25f, 0.5f, 0.75f}" "0.25f, 0.5000001f, 0.75f}"
fault "below where at or below is meant" "$edges" "thresholds[t] <= x" "thresholds[t] < x"
fault "NaN as level 0" "$edges" "    if (x != x)" "    if (0)"
fault "a lost symbol as level 4" "read_soft_run: every symbol lost" "    if (lost)" "    if (lost) cost[0] = 3, cost[1] = 4; if (0)"
fault "I and Q exchanged" "$edges" "soft_costs(i[k], lost[k], costs[2 * k]);" "soft_costs(q[k], lost[k], costs[2 * k]);"
fault "costs of six for seven" "read_soft_run: points of 1.0 and -1.0, and read_run" "cost[0] = (uint8_t)(7 - level);" "cost[0] = (uint8_t)(6 - (level < 6 ? level : 6));"
fault "a mark of 2 taken" "read_soft_run: refusals" "if (lost[k] > 1)" "if (lost[k] > 2)"
fault "whole patterns tested before the lists" "read_soft_run: refusals" "    if (i_len != q_len" "    if (i_len % patterns[rate].symbols) return result[0] = 12, 0; if (i_len != q_len"
fault "place stands still at a lost block" "$odd" "place = (place + 1) % GROUP;" "place = place;"
fault "B8 before its time loses the place" "$walk" "        if (block[0] == 0xb8) {" "        if (block[0] == 0xb8 && place <= 0) {"
fault "a restart is derandomized at its old place" "$walk" "            place = 0;" "            place = place < 0 ? 0 : place;"
fault "place not moved on an odd byte" "$histories" "forgiven ? (place + 1) % GROUP : -1" "forgiven ? place : -1"
fault "a second odd byte forgiven" "$histories" "block[0] != 0x47 && !missed;" "block[0] != 0x47;"
fault "47 at place 0 forgiven" "$histories" "block[0] != 0x47 && !missed;" "!missed;"
fault "47 at place 0 given" "$histories" "block[0] != 0x47 || place == 0" "block[0] != 0x47"
fault "the mark cleared by a lost block" "$histories" "            tally[LOST]++;" "            tally[LOST]++, missed = 0;"
fault "changes of waiting blocks not counted" "$walk" "tally[CHANGED] += (uint64_t)changed;" "if (place >= 0) tally[CHANGED] += (uint64_t)changed;"
fault "changes of out-of-step blocks not counted" "$walk" "            tally[OUTOFSTEP]++;" "            tally[OUTOFSTEP]++, tally[CHANGED] -= (uint64_t)changed;"
fault "bits added for a lost block" "$odd" "            tally[LOST]++;" "            tally[LOST]++, tally[BITS]++;"
fault "ten blocks of filling" "receive_run: unharmed" "if (b < 11)" "if (b < 10)"
fault "counts of 63 bytes taken" "receive_run: refusals" "counts_len < 64 ||" "counts_len < 63 ||"
fault "the branches of a recorded block the wrong way round" "$recorded" "BLOCK * (p + n % 12) + n" "BLOCK * (p + 11 - n % 12) + n"
fault "one recorded block too many" "$recorded" "p > most - 12" "p > most - 11"
fault "a recording that is said to have more blocks taken" "recording_block: refusals" "blocks != recording_len / BLOCK" "blocks < recording_len / BLOCK"
fault "bytes for the count tested before the block" "recording_block: refusals" "    uint64_t most = blocks < 4294967295 ? blocks : 4294967295;" "    if (count_len < 2) return 4; uint64_t most = blocks < 4294967295 ? blocks : 4294967295;"
fault "one byte for both counts of a recorded block" "recording_block: refusals" "output_len < BLOCK || count_len < 2" "output_len < BLOCK || count_len < 1"
fault "changed bits of a recorded block not told" "$recorded" "    memcpy(output, block, BLOCK);" "    memcpy(output, block, BLOCK), bits = changed;"
echo "faults: $found found, $missed missed"
[ $missed = 0 ]
