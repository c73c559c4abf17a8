#!/bin/bash
# report_form and season on reports in pieces, on reports that are refused, and on inputs and outputs that fail.
#   tests/reports.sh      from the top of the repository, after the programs and reference/ are built
# Prints a line for each kind of case, and stops at the first that fails.
set -euo pipefail
bin=$PWD/target/bin
reference=$PWD/target/cargo/release
work=$(mktemp -d)
trap 'rm -rf "$work"' EXIT
"$bin/pass_report" < reference/tests/data/recording > "$work/told"
cd "$work"

fail() {
    echo "FAILED: $*"
    exit 1
}

# The report of a recording, with its bits told; the same with a dash; and in form 1.
sed 's/^bits=.*/bits=-/' told > second
sed -e 's/^form=2/form=1/' -e '/^bits=/d' told > first
head -c 1000000 /dev/zero > long

# ends STATUS COMMAND..: the command ends with this status.
ends() {
    local wanted=$1 status=0
    shift
    "$@" || status=$?
    [ $status = "$wanted" ] || fail "status $status of $*, not $wanted"
}

# refused WANTED FORM < text: status 1, nothing on standard output, and this line on standard error.
refused() {
    ends 1 "$bin/report_form" "$2" > out 2> err
    [ ! -s out ] && [ "$(cat err)" = "$1" ] || fail "report_form $2: $(cat out err), not $1"
}

"$reference/pieces" 100 512 "$bin/report_form" 2 < first | cmp - second || fail "form 1 to form 2"
"$reference/pieces" 100 512 "$bin/report_form" 1 < second | cmp - first || fail "form 2 to form 1"
for form in 1 2; do
    refused 19 $form < told
    # As a full disk leaves it: cut off at any byte.
    for n in $(seq 0 $(($(wc -c < second) - 1))); do head -c "$n" second | refused 17 $form; done
    sed 's/^lost=.*/lost=0/' first | refused 18 $form
    cat second second | refused 17 $form
    refused 17 $form < long
done
refused 19 1 < first
refused 19 2 < second
refused "standard input: Is a directory" 1 < .
ends 1 "$bin/report_form" 2 < first > /dev/full 2> err
[ "$(cat err)" = "report: No space left on device" ] || fail "a full device for report_form: $(cat err)"
echo "report_form: there and back, in pieces, and refused where a report is cut off or spelt otherwise"

# A season that is longer than the buffer of its program; 4,096 reports, and one more.
three=$(cat first second told)
for n in $(seq 1024); do
    printf '%s\n' "$three" form=1 taken=$((11 + n)) filling=11 delivered=$n lost=0 waiting=0 outofstep=0 changed=$((2 * n)) rest=0
done > most
head -c 200000 most > cut
# a turn of the loop writes 38 lines
head -n $((38 * 230)) most > part
for input in part cut most /dev/null; do
    "$reference/season" < "$input" > wanted
    if [ $input = cut ]; then status=1; else status=0; fi
    ends $status "$bin/season" < "$input" > out
    cmp out wanted || fail "season of $input"
done
"$reference/season" < part > wanted
grep -q '^passes=' wanted && "$reference/pieces" 100 65536 "$bin/season" < part | cmp - wanted || fail "season in pieces"
ends 1 "$bin/season" < cut > out
[ "$(cat out)" = 17 ] || fail "season of a report that is cut off"
[ "$("$bin/season" < most | head -n 1)" = passes=4096 ] || fail "season of 4,096 reports"
cat most first | ends 1 "$bin/season" > out
[ "$(cat out)" = 21 ] || fail "season of 4,097 reports"
ends 1 "$bin/season" < . > out 2> err
[ ! -s out ] && [ "$(cat err)" = "standard input: Is a directory" ] || fail "a directory as input of season: $(cat out err)"
ends 1 "$bin/season" < part > /dev/full 2> err
[ "$(cat err)" = "season: No space left on device" ] || fail "a full device for season: $(cat err)"
echo "season: as the reference, in pieces, and refused at the first bad report"
