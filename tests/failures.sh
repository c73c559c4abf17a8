#!/bin/bash
# The programs where something fails or is refused: nothing that they leave then looks whole. Also numbers that a short test does not reach, and a gap in
# the blocks.
#   tests/failures.sh      from the top of the repository, after the programs and reference/ are built
# Prints a line for each kind of case, and stops at the first that fails.
set -euo pipefail
bin=$PWD/target/bin
reference=$PWD/target/cargo/release
data=$PWD/reference/tests/data
work=$(mktemp -d)
trap 'rm -rf "$work"' EXIT
cc -O2 -Wall -Wextra -Werror -shared -fPIC -o "$work/failing.so" tests/failing.c
cd "$work"

fail() {
    echo "FAILED: $*"
    exit 1
}

# ends STATUS WHAT COMMAND..: it ends with this status; its outputs are in out and err.
ends() {
    local status=$1 what=$2 got=0
    shift 2
    "$@" > out 2> err || got=$?
    [ "$got" = "$status" ] || fail "$what: status $got, not $status"
}

# says WHAT WANTED COMMAND..: status 1, nothing on standard output, and exactly these lines on standard error.
says() {
    local what=$1 wanted=$2
    shift 2
    ends 1 "$what" "$@"
    [ ! -s out ] && [ "$(cat err)" = "$wanted" ] || fail "$what: $(cat out err), not $wanted"
}

# part WHAT WHOLE WANTED COMMAND..: status 1, a part of the whole output, and exactly these lines on standard error.
part() {
    local what=$1 whole=$2 wanted=$3
    shift 3
    ends 1 "$what" "$@"
    [ "$(wc -c < out)" -lt "$(wc -c < "$whole")" ] && cmp -n "$(wc -c < out)" out "$whole" || fail "$what: the output is not a part of the whole"
    [ "$(cat err)" = "$wanted" ] || fail "$what: $(cat err), not $wanted"
}

# failing "CALL DESCRIPTOR WHICH ANSWER" COMMAND..: the command, with one call answered so (tests/failing.c).
failing() {
    local call=$1
    shift
    FAIL=$call LD_PRELOAD=$work/failing.so "$@"
}

# fill FILE BYTE AT COUNT: so many times this byte, octal, from there on.
fill() {
    head -c "$4" /dev/zero | tr '\0' "\\$2" | dd of="$1" bs=1 seek="$3" conv=notrunc status=none
}

# 120 packets, their blocks, symbols and points.
cat "$data/packets.ts" "$data/packets.ts" "$data/packets.ts" > packets
"$reference/interleaved" < packets > blocks
"$bin/dvbs_send" 2 < packets > symbols 2> told.send
[ "$(cat told.send)" = "packets=120 replaced=0 rest=0" ] || fail "what dvbs_send tells: $(cat told.send)"
"$reference/channel" 2 inf 1 < symbols > points
"$bin/dvbs_receive" < blocks > received 2> report
"$bin/dvbs_read" 2 < symbols > bytes 2> told
"$bin/dvbs_read_soft" 2 < points > bytes.soft 2> told.soft
cmp bytes blocks && cmp bytes.soft blocks && cmp -n "$(wc -c < received)" received packets || fail "an unharmed link"
io_error="Input/output error"

# ---- a read that fails, or a byte that is none, in mid-stream
part "a failed read of dvbs_read" bytes "standard input: $io_error" failing "read 0 3 -5" "$bin/dvbs_read" 2 < symbols
part "a failed read of dvbs_read_soft" bytes "standard input: $io_error" failing "read 0 3 -5" "$bin/dvbs_read_soft" 2 < points
part "a failed read of dvbs_send" symbols "standard input: $io_error" failing "read 0 2 -5" "$bin/dvbs_send" 2 < packets
ends 1 "dvbs_send 2, read 0 2 -5" failing "read 0 2 -5" "$bin/dvbs_send" 2 < packets
says "a failed first read of dvbs_receive" "standard input: $io_error" failing "read 0 1 -5" "$bin/dvbs_receive" < blocks
says "a failed last read of pass_report" "standard input: $io_error" failing "read 0 2 -5" "$bin/pass_report" < blocks
says "a directory as input of dvbs_read" "standard input: Is a directory" "$bin/dvbs_read" 2 < .
for place in 0 7 32767 32768 40000; do
    cp symbols bad
    fill bad 004 $place 1
    part "a byte above 3 at $place" bytes "symbol=$place answer=14" "$bin/dvbs_read" 2 < bad
done
echo "reads that fail and bytes that are no symbols: a message, and no line that looks whole"

# ---- a write that fails, is short, or takes nothing; an output that is lost when it is closed
for program in "dvbs_read 2" "dvbs_read_soft 2" "dvbs_send 2" dvbs_receive; do
    case $program in
        dvbs_read\ *) input=symbols whole=bytes ;;
        dvbs_read_soft*) input=points whole=bytes ;;
        dvbs_send*) input=packets whole=symbols ;;
        *) input=blocks whole=received ;;
    esac
    # Each word of the program's command is a word here.
    part "a failed write of $program" $whole "standard output: No space left on device" failing "write 1 1 -28" "$bin"/$program < $input
    part "a write of $program that takes nothing" $whole "standard output: not written whole" failing "write 1 1 0" "$bin"/$program < $input
    failing "write 1 1+ 1000" "$bin"/$program < $input 2> err | cmp - $whole || fail "short writes of $program"
    ends 1 "an output of $program that is lost when closed" failing "fsync 1 1 -5" "$bin"/$program < $input
    cmp out $whole && [ "$(cat err)" = "standard output: $io_error" ] || fail "an output of $program that is lost when closed: $(cat err)"
done
# cut_off INPUT NAME COMMAND..: the text on standard output lacks its last line, and that is said.
cut_off() {
    local input=$1 name=$2 what=${3##*/}
    shift 2
    ends 1 "a short write of $what" failing "write 1 1 20" "$@" < "$input"
    [ "$(wc -c < out)" = 20 ] && [ "$(cat err)" = "$name: not written whole" ] || fail "a short write of $what: $(cat err)"
    ends 1 "an output of $what that is lost when closed" failing "fsync 1 1 -5" "$@" < "$input"
    [ "$(cat err)" = "standard output: $io_error" ] || fail "an output of $what that is lost when closed: $(cat err)"
}
"$bin/pass_report" < blocks > told.report
sed 's/^bits=.*/bits=-/' told.report > second
cut_off blocks report "$bin/pass_report"
cut_off told.report season "$bin/season"
cut_off second report "$bin/report_form" 1
# No program that failed ends as if it had not: a write that fails, one that is short, an output that is lost when closed, and standard error, which has
# the lines of dvbs_send and the number of a refusal. dvbs_send still sends all where it cannot tell.
for call in "write 1 1 -28" "write 1 1 0" "fsync 1 1 -5" "read 0 1 -5"; do
    ends 1 "dvbs_send 2, $call" failing "$call" "$bin/dvbs_send" 2 < packets
    ends 1 "dvbs_send --flush 2, $call" failing "$call" "$bin/dvbs_send" --flush 2 < packets
    ends 1 "season, $call" failing "$call" "$bin/season" < told.report
    ends 1 "report_form 1, $call" failing "$call" "$bin/report_form" 1 < second
done
for call in "write 2 1 -5" "write 2 1 5"; do
    ends 1 "dvbs_send 2, $call" failing "$call" "$bin/dvbs_send" 2 < packets
    cmp out symbols && ! grep -q '^packets=' err || fail "dvbs_send with a standard error that fails: $(cat err)"
    ends 1 "report_form 1, $call" failing "$call" "$bin/report_form" 1 < told.report
    [ ! -s out ] || fail "report_form with a standard error that fails: $(cat out)"
done
# The report of dvbs_receive goes to standard error.
ends 1 "a short write of the report of dvbs_receive" failing "write 2 1 20" "$bin/dvbs_receive" < blocks
! grep -q '^rest=' err && grep -q 'report: not written whole$' err || fail "a short write of the report of dvbs_receive"
echo "writes that fail or are short, and outputs that are lost when closed: said, and no line that looks whole"

# ---- the readers: status 0 where all was read and written, 1 where something failed or was refused, 2 for a wrong call
# tells STATUS WHAT WANTED COMMAND..: this status, and exactly these lines on standard error.
tells() {
    local wanted=$1 what=$2 lines=$3 status=0
    shift 3
    "$@" > out 2> err || status=$?
    [ "$status" = "$wanted" ] && [ "$(cat err)" = "$lines" ] || fail "$what: status $status, $(cat err)"
}
for program in dvbs_read dvbs_read_soft; do
    case $program in
        dvbs_read) input=symbols closing=$(cat told) of=symbols ;;
        *) input=points closing=$(cat told.soft) of=points ;;
    esac
    usage="usage: $program RATE < $of > bytes, RATE 0 to 4 or 1/2, 2/3, 3/4, 5/6, 7/8"
    tells 0 "$program 2" "$closing" "$bin/$program" 2 < $input
    cmp out bytes || fail "$program 2"
    tells 0 "$program 3/4" "$closing" "$bin/$program" 3/4 < $input
    cmp out bytes || fail "$program 3/4"
    for call in "" 5 2/2 02 3/4x "2 2" "--help 2"; do
        # Each word of the call is a word here.
        tells 2 "$program $call" "$usage" "$bin/$program" $call < $input
        [ ! -s out ] || fail "$program $call: an output"
    done
    tells 0 "$program --help" "" "$bin/$program" --help < /dev/null
    [ "$(cat out)" = "$usage" ] || fail "$program --help"
    tells 0 "$program --version" "" "$bin/$program" --version < /dev/null
    [ "$(cat out)" = "$program 1.0.0" ] || fail "$program --version"
    tells 1 "$program --help, and a full output" "standard output: No space left on device" bash -c "'$bin/$program' --help > /dev/full"
    for which in 1 2 3; do
        tells 1 "$program: read $which fails" "standard input: $io_error" failing "read 0 $which -5" "$bin/$program" 2 < $input
        tells 1 "$program: read $which is interrupted" "standard input: Interrupted system call" failing "read 0 $which -4" "$bin/$program" 2 < $input
    done
    tells 1 "$program: a directory" "standard input: Is a directory" "$bin/$program" 2 < .
    tells 1 "$program: no input" "standard input: Bad file descriptor" bash -c "'$bin/$program' 2 <&-"
    tells 1 "$program: no output" "standard output: Bad file descriptor" bash -c "'$bin/$program' 2 < $input >&-"
    tells 1 "$program: a full output" "standard output: No space left on device" bash -c "'$bin/$program' 2 < $input > /dev/full"
    tells 1 "$program: a write fails" "standard output: $io_error" failing "write 1 2 -5" "$bin/$program" 2 < $input
    tells 1 "$program: a write takes nothing" "standard output: not written whole" failing "write 1 2 0" "$bin/$program" 2 < $input
    tells 1 "$program: the output is lost when closed" "standard output: $io_error" failing "fsync 1 1 -5" "$bin/$program" 2 < $input
    tells 1 "$program: no standard error" "" bash -c "'$bin/$program' 2 < $input 2>&-"
    tells 1 "$program: a short write of the closing lines" "$(head -c 3 <<< "$closing")standard error: not written whole" failing "write 2 1 3" "$bin/$program" 2 < $input
    tells 1 "$program: the output is gone" "standard output: Broken pipe" failing "write 1 2 -32" "$bin/$program" 2 < $input
done
printf '\0\1\2\3\4\0' > bad
tells 1 "dvbs_read: a byte above 3" "symbol=4 answer=14" "$bin/dvbs_read" 2 < bad
echo "the readers: their status says what failed, and nothing that failed looks whole"

# ---- dvbs_lock: the same faults, and nothing to lock to
for source in 2 any bits; do
    says "dvbs_lock $source: read 1 fails" "standard input: $io_error" failing "read 0 1 -5" "$bin/dvbs_lock" $source < points
    says "dvbs_lock $source: a directory" "standard input: Is a directory" "$bin/dvbs_lock" $source < .
    says "dvbs_lock $source: no input" "standard input: Bad file descriptor" bash -c "'$bin/dvbs_lock' $source <&-"
done
says "dvbs_lock 2: no points" "nothing symbol=0 skipped=0 bytes=0" "$bin/dvbs_lock" 2 < /dev/null
says "dvbs_lock bits: no bits" "nothing bit=0 skipped=0" "$bin/dvbs_lock" bits < /dev/null
head -c 13 points > few
says "dvbs_lock any: a point and a part" "nothing symbol=1 skipped=1 bytes=5" "$bin/dvbs_lock" any < few
ends 0 "dvbs_lock --help" "$bin/dvbs_lock" --help < /dev/null
ends 0 "dvbs_lock --version" "$bin/dvbs_lock" --version < /dev/null
echo "dvbs_lock: its status says what failed, and a search that finds nothing gives nothing"

# ---- the programs over blocks: the same faults. What is on standard output then is a part, and no report and no list looks whole.
head -c 40000 blocks > some
for program in dvbs_receive pass_report dvbs_losses; do
    case $program in
        pass_report) name=report ;;
        *) name="standard output" ;;
    esac
    for which in 1 2; do
        tells 1 "$program: read $which fails" "standard input: $io_error" failing "read 0 $which -5" "$bin/$program" < some
        tells 1 "$program: read $which is interrupted" "standard input: Interrupted system call" failing "read 0 $which -4" "$bin/$program" < some
        ! grep -q '^rest=' out || fail "$program: a list or a report of a part"
    done
    tells 1 "$program: a directory" "standard input: Is a directory" "$bin/$program" < .
    tells 1 "$program: no input" "standard input: Bad file descriptor" bash -c "'$bin/$program' <&-"
    tells 1 "$program: no output" "$name: Bad file descriptor" bash -c "'$bin/$program' < some >&-"
    tells 1 "$program: a full output" "$name: No space left on device" bash -c "'$bin/$program' < some > /dev/full"
    tells 1 "$program: the output is gone" "$name: Broken pipe" failing "write 1 1 -32" "$bin/$program" < some
    tells 1 "$program: a write takes nothing" "$name: not written whole" failing "write 1 1 0" "$bin/$program" < some
    tells 1 "$program: the output is lost when closed" "standard output: $io_error" failing "fsync 1 1 -5" "$bin/$program" < some
    ends 0 "$program --help" "$bin/$program" --help < /dev/null
    ends 0 "$program --version" "$bin/$program" --version < /dev/null
done
fill marks.bad 2 300 1
tells 1 "dvbs_losses: a mark above 1" "marks: a mark above 1" "$bin/dvbs_losses" marks.bad < some
! grep -q '^rest=' out || fail "dvbs_losses: a list of a part"
tells 1 "dvbs_losses: no file of marks" "$PWD/none: No such file or directory" "$bin/dvbs_losses" "$PWD/none" < some
ends 1 "dvbs_receive: no standard error" bash -c "'$bin/dvbs_receive' < some 2>&-"
ends 0 "dvbs_losses: no standard error" bash -c "'$bin/dvbs_losses' < some 2>&-"
echo "the programs over blocks: their status says what failed, and nothing that failed looks whole"

# ---- marks
head -c "$(wc -c < blocks)" /dev/zero > none
head -c $(($(wc -c < blocks) - 57)) blocks > cut
"$bin/dvbs_receive" none < cut > out 2> err
[ "$(tail -n 1 err)" = rest=147 ] && "$reference/pass_report" none < cut | cmp - err || fail "the rest of a pass with marks"
# Twenty blocks, and the others later: two pieces.
in_two() {
    head -c 4080 blocks
    sleep 0.3
    tail -c +4081 blocks
}
part "a failed read with marks" received "standard input: $io_error" failing "read 0 2 -5" "$bin/dvbs_receive" none < <(in_two)
part "failed marks" received "marks: $io_error" failing "read 3 2 -5" "$bin/dvbs_receive" none < <(in_two)
part "a failed write with marks" received "standard output: No space left on device" failing "write 1 2 -28" "$bin/dvbs_receive" none < <(in_two)
part "a write with marks that takes nothing" received "standard output: not written whole" failing "write 1 2 0" "$bin/dvbs_receive" none < <(in_two)
part "a read that a signal interrupts" received "standard input: Interrupted system call" failing "read 0 2 -4" "$bin/dvbs_receive" < <(in_two)
ends 1 "an output with marks that is lost when closed" failing "fsync 1 1 -5" "$bin/dvbs_receive" none < blocks
cmp out received && [ "$(cat err)" = "standard output: $io_error" ] || fail "an output with marks that is lost when closed: $(cat err)"
says "marks, a directory as input, and a full output" "standard input: Is a directory" bash -c "'$bin/dvbs_receive' none < . > /dev/full"
says "marks, and an input and an output that fail" "standard output: No space left on device" bash -c "FAIL='read 0 2 -5' LD_PRELOAD='$work/failing.so' '$bin/dvbs_receive' none < blocks > /dev/full"
# Marks that have ended stay ended: a file that grows after its end was seen marks nothing. Here it ends after ten blocks, and grows after twenty were taken.
cp blocks harmed
fill harmed 252 6000 192
fill none 001 6000 192
head -c 2040 none > marks
"$bin/dvbs_receive" marks < harmed > wanted 2> wanted.report
mkfifo feed
"$bin/dvbs_receive" marks < feed > out 2> err &
exec 3> feed
head -c 4080 harmed >&3
for _ in $(seq 100); do [ "$(wc -c < out)" = $((188 * 9)) ] && break; sleep 0.1; done
[ "$(wc -c < out)" = $((188 * 9)) ] || fail "nine packets of twenty blocks"
tail -c +2041 none >> marks
tail -c +4081 harmed >&3
exec 3>&-
wait
cmp out wanted && cmp err wanted.report || fail "marks that grow after their end"
# A standard stream that is closed has the number that the file would get.
closed="standard input, output or error is closed"
says "marks and a closed input" "$closed" bash -c "'$bin/dvbs_receive' none <&-"
says "marks and a closed output" "$closed" bash -c "'$bin/dvbs_receive' none < blocks >&-"
says "a block and a closed input" "$closed" bash -c "'$bin/recording_block' blocks 0 <&-"
says "a block and a closed output" "$closed" bash -c "'$bin/recording_block' blocks 0 >&-"
echo "marks that fail, that end and grow, and standard streams that are closed: as they should"

# ---- names of files
long=$(head -c 5000 /dev/zero | tr '\0' a)
too_long="file name: none, or longer than 4095 bytes"
says "a long name of marks" "$too_long" "$bin/dvbs_receive" "$long" < blocks
says "a long name of a recording" "$too_long" "$bin/recording_block" "$long" 0
says "an empty name" "$too_long" "$bin/dvbs_receive" "" < blocks
usage="usage: dvbs_receive [MARKS] < blocks > packets"
ends 2 "an option" "$bin/dvbs_receive" -x < blocks
[ ! -s out ] && [ "$(cat err)" = "$usage" ] || fail "an option: $(cat out err)"
ends 0 "--help" "$bin/dvbs_receive" --help < blocks
[ "$(cat out)" = "$usage" ] && [ ! -s err ] || fail "--help: $(cat out err)"
ends 0 "--version" "$bin/dvbs_receive" --version < blocks
[ "$(cat out)" = "dvbs_receive 1.0.0" ] && [ ! -s err ] || fail "--version: $(cat out err)"
says "--help and a full output" "standard output: No space left on device" bash -c "'$bin/dvbs_receive' --help > /dev/full"
says "a directory as a recording" "the recording: Is a directory" "$bin/recording_block" . 0
echo "names that are too long, options and directories: said"

# ---- numbers of blocks: twelve blocks far inside a sparse file are those of a small one
head -c $((204 * 12)) blocks > twelve
"$bin/recording_block" twelve 0 > wanted 2> wanted.said
: > sparse
for p in 400 40000 50001 1000003; do
    dd if=twelve of=sparse bs=204 seek=$p conv=notrunc status=none
done
for p in 400 40000 50001 1000003; do
    "$bin/recording_block" sparse $p > out 2> err
    cmp out wanted && cmp err wanted.said || fail "block $p of a sparse recording"
    "$reference/recorded_block" sparse $p > wanted.out 2> wanted.err
    cmp out wanted.out && cmp err wanted.err || fail "block $p of a sparse recording, by the reference"
done
says "a failed read of a recording" "the recording: $io_error" failing "read 3 1 -5" "$bin/recording_block" sparse 400
failing "read 3 1+ 100" "$bin/recording_block" sparse 400 2> err | cmp - wanted || fail "short reads of a recording"
says "a block's output that is full" "standard output: No space left on device" bash -c "'$bin/recording_block' sparse 400 > /dev/full"
# A million blocks of zeros, and what is after them: each is a codeword that begins with neither sync byte.
truncate -s $((204 * 1000001 + 100)) zeros
printf 'form=2\ntaken=1000001\nfilling=11\ndelivered=0\nlost=0\nwaiting=999990\noutofstep=0\nchanged=0\nbits=0\nrest=100\n' > wanted
"$bin/pass_report" < zeros | cmp - wanted || fail "the report of a million blocks"
"$bin/dvbs_receive" zeros < zeros 2>&1 | cmp - wanted || fail "the report of a million blocks with marks"
echo "blocks beyond the first million: as the first"

# ---- each mode of dvbs_send: GNU Radio's symbols
for mode in 0 1 2 3; do
    "$bin/dvbs_send" $mode < "$data/packets.ts" 2> err | cmp - "$data/symbols_rate$mode.bin" || fail "dvbs_send $mode beside GNU Radio's symbols"
done
echo "dvbs_send in each mode: as GNU Radio"

# ---- a gap in the blocks, by the letter of documents 01 and 02: lost blocks move the place in the group on, so behind a block that is missing or doubled
# packets are given that were never sent, and are counted as delivered, until a group starts. docs/TRUST.md says so under "Not claimed".
od -An -v -tx1 -w188 packets | sort -u > sent
# gap WHAT DELIVERED NEVER_SENT < blocks
gap() {
    cat > gapped
    "$bin/dvbs_receive" < gapped > out 2> err
    "$reference/pass_report" < gapped | cmp - err || fail "$1: the reference's report"
    grep -q "^delivered=$2$" err || fail "$1: $(grep delivered err)"
    [ "$(od -An -v -tx1 -w188 out | grep -vcxFf sent)" = "$3" ] || fail "$1: not $3 packets that were never sent"
}
{ head -c $((204 * 57)) blocks; tail -c +$((204 * 58 + 1)) blocks; } | gap "block 57 missing" 97 6
{ head -c $((204 * 60)) blocks; tail -c +$((204 * 59 + 1)) blocks; } | gap "block 59 twice" 98 4
echo "a gap in the blocks: by the letter of the papers"
