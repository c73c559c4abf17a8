#!/bin/bash
# The examples in C, which nothing proves. bridge_pass, truck and board give what the proved programs give, as C and as C++, in one pass and in several that
# the saved state joins. Where a state is damaged, something fails or a call is refused, they end with 1 and say what, and nothing that they leave looks whole.
#   tests/examples.sh [NAME..]          all three, or some; from the top of the repository, after the libraries, the programs and reference/ are built
#   tests/examples.sh wrong [NAME..]    wrong versions of them, each of which these tests must refuse; two minutes, not part of the gate
# EXAMPLES may name another folder with their sources.
set -euo pipefail
root=$PWD
bin=$root/target/bin
reference=$root/target/cargo/release
data=$root/reference/tests/data
sources=${EXAMPLES:-$root/examples}
work=$(mktemp -d)
trap 'rm -rf "$work"' EXIT
cd "$work"

fail() {
    echo "FAILED: $*"
    exit 1
}

# build NAME LIBRARY: it as C and as C++, NAME and NAME.cpp.
build() {
    cc -std=c99 -O2 -Wall -Wextra -Werror -I"$root/include" "$sources/$1.c" -L"$root/target/staticlib" -l"$2" -o "$1"
    c++ -std=c++11 -O2 -Wall -Wextra -Werror -I"$root/include" -x c++ "$sources/$1.c" -x none -L"$root/target/staticlib" -l"$2" -o "$1.cpp"
}

# bytes FROM COUNT FILE: so many of its bytes from there on, or as many as there are.
bytes() {
    dd if="$3" iflag=skip_bytes,count_bytes skip="$1" count="$2" bs=64K status=none
}

# poke FILE AT BYTES: other bytes from there on, as printf writes them.
poke() {
    printf "$3" | dd of="$1" bs=1 seek="$2" conv=notrunc status=none
}

# failing "CALL DESCRIPTOR WHICH ANSWER" COMMAND..: the command, with one call answered so (tests/failing.c).
failing() {
    local call=$1
    shift
    FAIL=$call LD_PRELOAD=$work/failing.so "$@"
}

# says MESSAGE COMMAND..: status 1; a part of the file whole on standard output; a part of the file lines on standard error, and the message behind it.
says() {
    local message=$1 status=0
    shift
    "$@" > out 2> err || status=$?
    [ $status = 1 ] && [ "$(tail -n 1 err)" = "$message" ] || fail "$*: status $status, $(tail -n 1 err), and not $message"
    head -n -1 err > told
    cmp -n "$(wc -c < out)" out whole && cmp -n "$(wc -c < told)" told lines || fail "$*: what is given and told is no part of the whole"
}

# part WHAT: what was given is less than all.
part() {
    [ "$(wc -c < out)" -lt "$(wc -c < whole)" ] || fail "$*: all is given"
}

# faults NAME READ WRITTEN CUT NEXT REFUSED PLACE:BYTES..: one of them where something fails. The files input, whole and lines have what comes, is given and is told
# before the end; the arrays fresh and more have the words of a first call, and of one that goes on later, and calls has wrong ones. READ and WRITTEN are the names
# of what is read and written. The first call takes CUT bytes, and the next one NEXT, too few for a state in mid-stream. REFUSED is what is said of the state
# limit. Each PLACE of a state with these BYTES makes it none.
faults() {
    local name=$1 read=$2 written=$3 cut=$4 next=$5 refused=$6 fault input status
    shift 6
    local all=("./$name" "${fresh[@]}") on=("./$name" on state "${more[@]}")
    # The input.
    says "$read were not read to their end" "${all[@]}" state < .
    for fault in 1 2; do
        { says "$read were not read to their end" failing "read 0 $fault -5" "${all[@]}" state; cat > left; } < input
        part "$name: read $fault fails"
        [ -s left ] || fail "$name: it reads on behind read $fault, which failed"
    done
    # The output: full at a write, and lost when it is closed; standard error.
    says "$written were not written" bash -c '"$@" > /dev/full' - "${all[@]}" state < input
    says "$written were not written" failing "write 1 2 -28" "${all[@]}" state < input
    says "$written were not written" failing "close 1 1 -5" "${all[@]}" state < input
    status=0
    "${all[@]}" state < input > out 2> /dev/full || status=$?
    [ $status = 1 ] || fail "$name: status $status where nothing can be told"
    # A state in mid-stream that is not saved, or not loaded.
    for fault in none/state /dev/full; do
        says "$fault: not saved" "${all[@]}" $fault < input
        part "$name: $fault"
    done
    for fault in "write 3 1 -28" "write 3 2 -28" "close 3 1 -5"; do says "state: not saved" failing "$fault" "${all[@]}" state < input; done
    says "state: not loaded" failing "read 3 1 -5" "${all[@]}" state < input
    says "/dev/null: not loaded" "${all[@]}" /dev/null < input
    part "$name: /dev/null"
    # A call that is refused. One that is made again and again does not end.
    says "$refused" timeout 10 "./$name" on limit < input
    [ ! -s out ] || fail "$name: something is given of what is refused"
    # What goes on from a state that is none: missing, a directory, short, long or damaged. Nothing is given, and nothing saved.
    bytes 0 "$cut" input | "${all[@]}" good "${more[@]}" > first 2> first.lines
    mkdir folder
    : > empty
    head -c -1 good > short
    { cat good; printf '\0'; } > long
    for fault in "$@"; do
        cp good "damaged.${fault%:*}"
        poke "damaged.${fault%:*}" "${fault%:*}" "${fault#*:}"
    done
    for fault in none/state folder empty short long damaged.*; do
        [ ! -f "$fault" ] || cp "$fault" kept
        for input in input /dev/null; do says "$fault: not loaded" "./$name" on "$fault" < $input; done
        [ ! -s out ] && { [ ! -f "$fault" ] || cmp "$fault" kept; } || fail "$name: on from $fault"
    done
    rm -r folder damaged.*
    # The next call, which gives less than a buffer: it is refused at the flush, and no state is saved that tells of it. The state of its end.
    bytes "$cut" "$next" input > behind
    bytes "$(wc -c < first)" 1000000 whole > whole.behind
    mv whole.behind whole
    if [ -s lines ]; then bytes "$(wc -c < first.lines)" 1000000 lines > lines.behind && mv lines.behind lines; fi
    cp good state
    says "$written were not written" bash -c '"$@" > /dev/full' - "${on[@]}" < behind
    cmp state good || fail "$name: a state is saved that tells of what was not written"
    for fault in "write 3 1 -28" "close 3 2 -5"; do
        cp good state
        says "state: not saved" failing "$fault" "${on[@]}" < behind
    done
    cp good state
    "${on[@]}" < behind > out 2> err || fail "$name: the next call"
    [ -s out ] && [ "$(wc -c < out)" -lt 4096 ] && ! cmp -s state good || fail "$name: the next call gives nothing, or too much"
    # Wrong calls.
    for fault in "${calls[@]}"; do
        status=0
        # Each word of the call is a word here.
        "./$name" $fault < input > out 2> err || status=$?
        [ $status = 2 ] && [ ! -s out ] && [ "$(wc -l < err)" = 1 ] && grep -q "^usage: $name " err || fail "$name $fault: no usage line"
    done
}

# The bridge's loop: the packets and counts of a pass in which no two counts are the same, with bytes behind the last block.
test_bridge_pass() {
    local side
    build bridge_pass dvbs_bridge
    cat "$data/packets.ts" "$data/packets.ts" "$data/packets.ts" | "$reference/interleaved" > sent
    # Blocks of zeros are codewords, and out of step; then the receiver waits. A burst of 97 bytes is one too many.
    { bytes 0 12852 sent; head -c 3672 /dev/zero; bytes 12852 1000000 sent; echo rest; } > input
    head -c 97 /dev/zero | tr '\0' '\252' | dd of=input bs=1 seek=6000 conv=notrunc status=none
    "$bin/dvbs_receive" < input > whole 2> report
    "$reference/pass_report" < input | cmp - report || fail "the reference's report"
    sed 1d report > counts
    [ "$(sed 's/.*=//' counts | sort -u | grep -vcx 0)" = 9 ] || fail "no nine counts that differ: $(cat counts)"
    for side in ./bridge_pass ./bridge_pass.cpp; do
        "$side" state < input > out 2> err || fail "$side: its status"
        cmp out whole && cmp err counts || fail "$side: its packets and counts"
        { bytes 0 1428 input | "$side" state && bytes 1428 6732 input | "$side" on state; } > out 2> err &&
            bytes 8160 1000000 input | "$side" on state >> out 2> err && cmp out whole && cmp err counts || fail "$side: its packets and counts in three passes"
    done
    # A receiver that has taken 4,294,967,295 blocks, all but the first eleven lost.
    ./bridge_pass limit < /dev/null > out 2> err
    poke limit 1136 '\377\377\377\377'
    poke limit 1144 '\13'
    poke limit 1160 '\364\377\377\377'
    : > lines
    fresh=() more=() calls=("" "off state" "on state state")
    faults bridge_pass blocks packets 8160 3060 "a block was refused: answer 7" '1134:\11' '2321:\2'
    # Nothing of the sender is in the part for the bridge.
    nm "$root/target/staticlib/libdvbs_bridge.a" > names
    ! grep -E "send|inner_code|convolutional|puncturing|encode" names || fail "libdvbs_bridge.a has a part of the sender"
}

# The truck's loop in every mode that is sent: the symbols of dvbs_send, with a packet that is none and one that is not whole.
test_truck() {
    local side mode
    build truck dvbs
    { cat "$data/packets.ts"; head -c 188 /dev/zero; cat "$data/packets.ts"; echo rest; } > input
    { bytes 0 15228 input; head -c 188 /dev/zero; } > filled
    for mode in 0 1 2 3 5; do
        "$bin/dvbs_send" $mode < filled > whole 2> err
        sed -n 's/^packets=\(.*\) replaced=\(.*\) rest=.*/packets=\1\nnulls=\2/p' err > counts
        for side in ./truck ./truck.cpp; do
            "$side" $mode state < input > out 2> err || fail "$side $mode: its status"
            cmp out whole && cmp err counts && [ "$(cat counts)" = "$(printf 'packets=82\nnulls=2')" ] || fail "$side $mode: its symbols and counts"
            { bytes 0 1504 input | "$side" $mode state && bytes 1504 9400 input | "$side" on state && bytes 10904 1000000 input | "$side" on state; } > out 2> err &&
                cmp out whole && [ "$(awk -F = '{ n[$1] += $2 } END { print n["packets"], n["nulls"] }' err)" = "82 2" ] || fail "$side $mode: its symbols in three passes"
        done
    done
    for mode in 4 258 2x ""; do
        ! ./truck "$mode" state < input > out 2> err && [ ! -s out ] && [ "$(cat err)" = "$mode: no mode that is sent" ] || fail "truck: mode '$mode', which is not sent"
    done
    # A sender at 7/8, which is a state and sends nothing.
    ./truck 2 limit < /dev/null > out 2> err
    poke limit 1135 '\4'
    "$bin/dvbs_send" 2 < filled > whole 2> err
    : > lines
    fresh=(2) more=() calls=("" 2 "2 state state")
    faults truck packets symbols 3760 376 "a packet was refused: answer 6" '1135:\6' '1138:\2'
}

# blank EDIT EDIT: the file points, with 2,000 of them from 20,000 on edited as lines of hex, and 2,000 from 40,000 on.
blank() {
    local from=0 at
    for at in 20000 40000; do
        bytes $((8 * from)) $((8 * (at - from))) points
        printf "$(bytes $((8 * at)) 16000 points | od -An -v -tx1 -w8 | sed "$1; s/ /\\\\x/g" | tr -d '\n')"
        from=$((at + 2000))
        shift
    done
    bytes $((8 * from)) 1000000 points
}

# The board's loop at every rate and with any: the packets and the lines of dvbs_lock, where the points begin with a pattern and anywhere, with noise, lost symbols
# and a point that is not whole.
test_board() {
    local side rate channel searched nan
    build board dvbs
    for rate in 0 1 2 3 4; do
        for channel in "inf 1" "inf 3 anywhere" "5.5 7 lost=0.01 anywhere"; do
            # Each word of the channel is a word here.
            { "$reference/channel" $rate $channel < "$data/symbols_rate$rate.bin"; printf abc; } > input
            for searched in $rate 5; do
                "$bin/dvbs_lock" ${searched/5/any} < input > whole 2> lines
                for side in ./board ./board.cpp; do
                    "$side" $searched state < input > out 2> err || fail "$side $searched $channel: its status"
                    cmp out whole && cmp err lines || fail "$side $searched $channel: its packets and lines"
                done
            done
        done
        { bytes 0 8000 input | ./board 5 state more && bytes 8000 160008 input | ./board on state more && bytes 168008 1000000 input | ./board on state; } > out 2> err &&
            cmp out whole && cmp err lines || fail "board $rate: its packets and lines in three passes"
    done
    for rate in 6 22 -1 ""; do
        ! ./board "$rate" state < input > out 2> err && [ ! -s out ] && [ "$(cat err)" = "$rate: no rate that is read" ] || fail "board: $rate, which is no rate"
    done
    # A number that is none beside one that is: 2,000 points have only their Q, and 2,000 their I. With these symbols lost, other packets would be given.
    "$reference/channel" 0 inf 1 < "$data/symbols_rate0.bin" > points
    nan='00 00 c0 7f'
    blank "s/^ .. .. .. ../ $nan/" "s/.. .. .. ..$/$nan/" > input
    "$bin/dvbs_lock" 0 < input > whole 2> lines
    ./board 0 state < input > out 2> err || fail "board: a number that is none: its status"
    cmp out whole && cmp err lines || fail "board: a number that is none"
    blank "s/.*/ $nan $nan/" "s/.*/ $nan $nan/" | "$bin/dvbs_lock" 0 2> err | { ! cmp -s - whole; } || fail "lost symbols make no difference"
    # No lock, and points that are cut.
    bytes 0 16003 input > behind
    ! "$bin/dvbs_lock" 0 < behind > whole 2> lines && ! ./board 0 state < behind > out 2> err && [ ! -s out ] && cmp err lines || fail "board: no lock"
    ./board 0 state more < /dev/null > out 2> err || fail "board: more to come"
    ! ./board on state more < behind > out 2> err && [ "$(tail -n 1 err)" = "the last point is not whole" ] || fail "board: a point that is cut"
    # A lock to which as many points came as can be counted.
    ./board 2 limit more < /dev/null > out 2> err
    poke limit 13760 '\377\377\377\377\377\377\377\17'
    "$reference/channel" 2 5.5 7 lost=0.01 < "$data/symbols_rate2.bin" > input
    "$bin/dvbs_lock" 2 < input > whole 2> lines
    fresh=(2) more=(more) calls=("" 2 "2 state less" "2 state more more")
    faults board points packets 240000 24000 "points were refused: answer 7" '13786:\5' '15120:\1'
}

# try NAMES WHAT EDIT: these examples, changed by sed, must fail.
try() {
    local name status
    for name in $1; do
        [[ " ${names[*]} " = *" $name "* ]] || continue
        sed "$3" "$sources/$name.c" > "wrong/$name.c"
        ! cmp -s "$sources/$name.c" "wrong/$name.c" || fail "$name: $2: the edit changes nothing"
        status=0
        (cd "$root" && EXAMPLES=$work/wrong timeout 30 bash tests/examples.sh "$name") > said 2>&1 || status=$?
        if [ $status = 0 ]; then
            echo "$name: $2: ACCEPTED"
            accepted=1
        else
            [ $status = 124 ] || grep -q '^FAILED' said || { cat said; fail "$name: $2: not tried"; }
            echo "$name: $2: refused, $(grep -m 1 '^FAILED' said || echo it does not end)"
        fi
    done
}

wrong() {
    local all="bridge_pass truck board" accepted=0
    mkdir wrong
    try "$all" "a flush that fails before a save" 's/if (fflush(stdout) != 0)/if (fflush(stdout), 0)/'
    try "$all" "an output that is lost when closed" 's/if (fclose(stdout) != 0)/if (fclose(stdout), 0)/'
    try "$all" "an output that is full" 's/if (f\(flush\|close\)(stdout) != 0)/if (f\1(stdout), 0)/'
    try "$all" "a write that fails" 's/\(fwrite([^()]*, stdout)\|fwrite([^()]*(size_t)[^()]*, stdout)\) != [^)]*)/(\1, 0))/'
    try "$all" "a state whose writing fails" 's/ || written != [A-Za-z_ ]*)/ || written > 99999)/'
    try "$all" "a state whose closing fails" 's/fclose(file) != 0/(fclose(file), 0)/'
    try "$all" "a state that is too short" 's/\(fread(state, 1, [A-Za-z_ ]*, file)\) == [A-Za-z_ ]*/(\1, 1)/'
    try "$all" "a state that is too long" 's/ && fgetc(file) == EOF//'
    try bridge_pass "a state that is none" 's/ || !count(state, DVBS_BRIDGE_TAKEN, &value)/ || (value = 0)/'
    try "truck board" "a state that is none" 's/ || answer == 5)/ || answer == 99)/'
    try "$all" "no state in mid-stream" 's/% \(16\|5\) == 0/% \1 == 99/'
    try "$all" "a state in mid-stream that is not loaded" '/memset(state, 0xff/,/return 1/d'
    try "$all" "no state at the end" '/^    if (!save(/,/return 1/d'
    try bridge_pass "a fresh state in place of the saved one" 's/argc == 3 && !load(path, state)/0/'
    try truck "a fresh state in place of the saved one" 's/^        if (!load(argv\[2\]))/        if (dvbs_sender_fresh(state, sizeof state, 2) != 0)/'
    try board "a fresh state in place of the saved one" 's/^        if (!load(argv\[2\]))/        if (dvbs_lock_fresh(state, sizeof state, 2) != 0)/'
    try "$all" "a read that fails, as the end" 's/^    if (ferror(stdin))/    if (0)/'
    try "truck board" "a read that fails, and is passed over" 's/ && !ferror(stdin)//'
    try bridge_pass "a refusal passed over" 's/(answer < 8 || answer > 11)/answer > 99/'
    try truck "a refusal passed over" 's/answer != 0 && answer != 15/answer > 99/'
    try board "a refusal passed over" 's/if (answer != 0)/if (answer > 99)/'
    try "bridge_pass truck" "lines that are not told" 's/ferror(stderr) != 0/0/'
    try board "lines that are not told" 's/\(fwrite([^;]*, stderr)\) != counts\[1\]/\1 > 99999/'
    try bridge_pass "counts 4 and 5 exchanged" 's/if (count(state, number, /if (count(state, number == 4 ? 5 : number == 5 ? 4 : number, /'
    try bridge_pass "names that are exchanged" 's/"waiting", "outofstep"/"outofstep", "waiting"/'
    try bridge_pass "no rest" 's/(unsigned)length/(unsigned)(length * 0)/'
    try truck "the rest is no packet" 's/length == sizeof packet ? length : 0/length/'
    try truck "null packets that are not counted" 's/nulls += answer == 15/nulls += answer == 99/'
    try board "one number that is none, as a lost symbol" 's/i\[k\] && q/i[k] || q/'
    try board "an end where more is to come" 's/while (!more && !over)/while (!over)/'
    try board "a point that is cut" 's/if (more && rest != 0)/if (more \&\& rest > 99)/'
    try board "no lock, as one" 's/return over && /return over > 99 \&\& /'
    [ $accepted = 0 ] || fail "wrong versions are accepted"
}

names=("$@")
[ "${1:-}" != wrong ] || names=("${@:2}")
[ ${#names[@]} -gt 0 ] || names=(bridge_pass truck board)
if [ "${1:-}" = wrong ]; then
    wrong
    exit
fi
cc -O2 -Wall -Wextra -Werror -shared -fPIC -o failing.so "$root/tests/failing.c"
for name in "${names[@]}"; do
    "test_$name"
    echo "$name: as expected"
done
