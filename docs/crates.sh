#!/bin/bash
# Draws crates.txt: the crates, and which stands on which.
#   bash docs/crates.sh > docs/crates.svg      from the top of the repository
# The tests draw it anew and compare: after a change of crates.txt it is drawn again.
set -euo pipefail

# What build.sh builds, with all below it; any other code is of the tests and the benchmark.
built="$(sed -n 's/^\(programs\|libdvbs\)=(\(.*\))$/\2/p' build.sh) dvbs_bridge"
programs=$(sed -n 's/^programs=(\(.*\))$/ \1 /p' build.sh)
below=$(for name in $built; do sed -n "s/^$name\\( staticlib\\)\\?:/$name/p" crates.txt; done)

# kind NAME: by what the files of the crate say.
kind() {
    if ! grep -Eq '^ *(pub )?(fn|const) ' "crates/$1"/src/*.rt && ! grep -q 'extern "C" fn' "crates/$1"/src/*.rt; then
        echo theory
    elif [[ " ${below//$'\n'/ } " != *" $1 "* ]]; then
        echo test
    elif [[ $programs = *" $1 "* ]]; then
        echo program
    elif grep -q '^// Inner' "crates/$1/src/lib.rt"; then
        echo inner
    else
        echo public
    fi
}

# The stages from packets to symbols, as the lines at the head of docs/ARCHITECTURE.md have them.
ways=$(sed -n 's/^    packet [0-9]* //p' docs/ARCHITECTURE.md | sed 's/ symbols .*//; s/[<>-]*//g; s/  */ /g' | paste -sd ';')

grep -v '^#' crates.txt | while IFS=: read -r name libraries; do
    name=${name% staticlib}
    echo "$name $(kind "$name") $libraries"
done | awk -v wanted="$ways" -f docs/crates.awk
