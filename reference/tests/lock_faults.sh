#!/bin/sh
# Does the comparison of acquisition find faults? Puts the reference's own `lock` in the place of dvbs_lock, right and then with one
# fault after another, and runs the comparison on each: the right one must pass, every faulty one must be found. Where EXPORTS_DIR names
# the folder of libdvbs.a, seen from the reference's, the comparison of the calls on a lock's state too: there the reference's side has the faults.
set -eu
here=$(cd "$(dirname "$0")/.." && pwd)
work=$(mktemp -d)
trap 'rm -rf "$work"' EXIT
export CARGO_TARGET_DIR="${CARGO_TARGET_DIR:-$here/target}"
if [ -n "${EXPORTS_DIR:-}" ]; then
    EXPORTS_DIR=$(cd "$here" && cd "$EXPORTS_DIR" && pwd)
    export EXPORTS_DIR
fi
cargo build --quiet --release --offline --manifest-path "$here/Cargo.toml" --bin lock --bin compare_lock
compare=$CARGO_TARGET_DIR/release/compare_lock
mkdir "$work/right" "$work/faulty" "$work/reference"
cp "$CARGO_TARGET_DIR/release/lock" "$work/right/dvbs_lock"
cp -R "$here/Cargo.toml" "$here/Cargo.lock" "$here/build.rs" "$here/src" "$work/reference"
missed=0 found=0

# put OLD NEW: the text OLD, which must be there, becomes NEW in a copy of the reference.
put() {
    rm -r "$work/reference/src"
    cp -R "$here/src" "$work/reference"
    for file in acquisition runs lock_state; do
        if OLD=$1 NEW=$2 awk 'BEGIN { old = ENVIRON["OLD"]; new = ENVIRON["NEW"] }
            { at = index($0, old); if (at && !done) { $0 = substr($0, 1, at - 1) new substr($0, at + length(old)); done = 1 } print }
            END { exit !done }' "$here/src/$file.rs" > "$work/faulty.rs"; then
            cp "$work/faulty.rs" "$work/reference/src/$file.rs"
            return
        fi
    done
    echo "no such text: $1"
    exit 2
}

# build PROGRAM: from that copy.
build() {
    CARGO_TARGET_DIR=$work/target cargo build --quiet --release --offline --manifest-path "$work/reference/Cargo.toml" --bin "$1" 2> "$work/log" || { cat "$work/log"; exit 2; }
}

# judge NAME COMMAND..: a comparison that must find the fault.
judge() {
    name=$1
    shift
    if timeout 200 "$@" > "$work/out" 2>&1; then
        echo "MISSED: $name"; missed=$((missed + 1))
    else
        echo "found: $name ($(grep -o '[0-9]* different' "$work/out" | tail -1))"; found=$((found + 1))
    fi
}

# fault NAME KIND OLD NEW: in the program.
fault() {
    put "$3" "$4"
    build lock
    cp "$work/target/release/lock" "$work/faulty/dvbs_lock"
    judge "$1" "$compare" "$work/faulty" "$2"
}

# state_fault NAME KIND OLD NEW: in the reference's side of the calls on a lock's state, beside the library.
state_fault() {
    put "$3" "$4"
    build compare_states
    judge "$1" "$work/target/release/compare_states" "$2"
}

"$compare" "$work/right" | tail -1 | grep -q ', 0 different$' || { echo "the right one does not pass"; exit 1; }
echo "the right one passes"

fault "a receiver kept over a moved grid" "slipped" "if block.begins || !self.lasts" "if !self.lasts"
fault "the half turn taken for upright" "bits" "|inverted| inverted >= 2)" "|_| false)"
fault "several answered with the first" "short" "candidates.next().map_or(Some(first), |_| None)" "Some(first)"
fault "one B8 of three inverts" "bits, short" "|inverted| inverted >= 2)" "|inverted| inverted >= 1)"
fault "three blocks without a sync byte lose the lock" "bits, slipped" "(0..4).any(|k| self.sync" "(0..3).any(|k| self.sync"
fault "the last place is not searched" "bits, edges" "(0..=BLOCK_BITS).find" "(0..BLOCK_BITS).find"
fault "two of five sync bytes may differ" "bits, slipped" "inverted <= 1 || inverted >= 4" "inverted <= 2 || inverted >= 3"
fault "a pattern more kept of a run" "slipped" "patterns - (100 / bits + 1)" "patterns - 100 / bits"
fault "the mirror changes behind readings at 5/6 alone" "bits without blocks before a stream" "self.mirrored ^= used == SKIPPED_BITS as u64;" "self.mirrored ^= used == SKIPPED_BITS as u64 && reading.runs.rate == FIVE_SIXTHS;"
fault "the mirror changes behind every reading" "slipped" "self.mirrored ^= used == SKIPPED_BITS as u64;" "self.mirrored ^= true;"
fault "another threshold at 1/2" "at the threshold" "[760, 400, 255, 120, 72]" "[759, 400, 255, 120, 72]"
fault "another threshold at 2/3" "at the threshold" "[760, 400, 255, 120, 72]" "[760, 401, 255, 120, 72]"
fault "another threshold at 3/4" "at the threshold" "[760, 400, 255, 120, 72]" "[760, 400, 254, 120, 72]"
fault "another threshold at 5/6" "at the threshold" "[760, 400, 255, 120, 72]" "[760, 400, 255, 121, 72]"
fault "another threshold at 7/8" "at the threshold" "[760, 400, 255, 120, 72]" "[760, 400, 255, 120, 71]"
fault "the threshold itself is enough" "at the threshold" ") < THRESHOLD" ") <= THRESHOLD"
fault "five lost symbols in front at 1/2" "beside a block" "[6, 2, 2, 2, 1]" "[5, 2, 2, 2, 1]"
fault "a window of 1,631 symbols" "beside a block" "const WINDOW: usize = 1632;" "const WINDOW: usize = 1631;"
fault "a polarity that is not told is upright" "bits, short" "map_or(before, " "map_or(false, "
fault "1,634 bits skipped" "bits, edges" "left } else { SKIPPED_BITS }" "left } else { SKIPPED_BITS + 1 }"
fault "packets in doubt given" "whole blocks left out" "Some(false) => text += &line_text(Line { block: number, answer: block.answer })," "Some(false) => { packets.extend(block.packet.iter().filter(|_| block.given())); text += &line_text(Line { block: number, answer: block.answer }) }"
fault "the search goes on where the last run begins" "slipped" "self.reading = None;" "let over = self.reading.take().unwrap(); self.pending.splice(0..0, over.runs.pairs.into_iter().map(|pair| turned_back([0, 3, 2, 1, 4, 5, 6, 7][over.turn as usize], pair))); self.pending.truncate(WINDOW - 1);"
fault "a byte that is not there is no sync byte" "bits, edges" "map_or(true, |sync| sync.is_some())" "map_or(false, |sync| sync.is_some())"
fault "the half turn is not told" "unharmed" "if block.inverted { half_turned(turn) } else { turn }" "turn"
fault "the end told behind the lock" "bits" 'format!("{end}lost {}={} skipped={}\n{}", self.unit, self.end, self.skipped, report.text())' 'format!("lost {}={} skipped={}\n{}{end}", self.unit, self.end, self.skipped, report.text())'

if [ -n "${EXPORTS_DIR:-}" ]; then
    steps="a lock's steps" other="a lock's other states"
    cargo build --quiet --release --offline --manifest-path "$here/Cargo.toml" --bin compare_states
    for kind in "$steps" "$other"; do
        "$CARGO_TARGET_DIR/release/compare_states" "$kind" > "$work/out" || { cat "$work/out"; exit 1; }
    done
    echo "the right one passes beside the library"
    state_fault "a step that takes a point fewer" "$steps" "symbols.len().min(self.runs.missing());" "symbols.len().min(self.runs.missing() - 1).max(1);"
    state_fault "points taken while others are pending" "$steps" "self.read_pending();" "self.read_pending(); self.pending.push(symbols[0]); self.came += 1;"
    state_fault "a bit changed behind the text" "$steps" "self.counts[..2].copy_from_slice" "self.text[text.len()] ^= 1; self.counts[..2].copy_from_slice"
    state_fault "a bit changed behind the packets" "$other" "self.counts[..2].copy_from_slice" "self.packets[PACKETS - 1] ^= 1; self.counts[..2].copy_from_slice"
    state_fault "a closing line with a symbol more" "$steps" "all.saturating_sub(self.end))" "all.saturating_sub(self.end) + 1)"
    state_fault "a closing line without rest" "$steps" "self.close(&end, left as u64 / 8);" "self.close(&end, 0);"
    state_fault "a lock that does not last behind the end" "$steps" "self.close(&end, left as u64 / 8);" "self.close(&end, left as u64 / 8); self.lasts = false;"
    state_fault "a receiver cleared where its lock ends" "$steps" "self.lasts = false;" "self.lasts = false; self.receiver = LockReceiver::fresh();"
    state_fault "points dropped where the end is over" "$steps" 'self.teller.ended(self.came, 0, &format!(" bytes={bytes}"));' 'self.pending.clear(); self.teller.ended(self.came, 0, &format!(" bytes={bytes}"));'
    state_fault "the memory kept at the end of the runs" "$steps" "memory: 0, pairs: Vec::new() };" "memory: self.runs.memory, pairs: Vec::new() };"
    state_fault "the first decision ends a reading" "$steps" "if !gave && used > 0 {" "if !gave {"
    state_fault "the mirror changes behind a reading that gave a block" "$other" "used == SKIPPED_BITS as u64;" "used >= SKIPPED_BITS as u64;"
    state_fault "a decision without a block keeps what was inverted" "$other" "(self.gave, self.inverted) = (false, false);" "self.gave = false;"
    state_fault "a block that follows begins no lock where none lasts" "$other" "block.begins || !self.lasts ||" "block.begins ||"
    state_fault "a lock ends a block before its counts are full" "$other" "taken == MOST_BLOCKS {" "taken >= MOST_BLOCKS - 1 {"
    state_fault "symbols skipped below none" "$other" "start.saturating_sub(self.end)" "start.wrapping_sub(self.end)"
    state_fault "packets that wait at the next place" "$other" "(next - waiting + k)" "(next - waiting + k + 1)"
    state_fault "as many points as can be counted, and one more" "$other" "lock.came >= MOST_CAME - WINDOW as u64" "lock.came > MOST_CAME - WINDOW as u64"
fi
echo "$found found, $missed missed"
[ $missed = 0 ]
