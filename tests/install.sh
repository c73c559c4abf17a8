#!/bin/bash
# ./build.sh install PREFIX: what a user finds there. Each program runs and tells its version and its usage, each man page has that usage as its synopsis, and
# programs in C link the libraries by their pkg-config files, and run. The version is one: that of the programs, of the man pages and of the pkg-config files.
set -euo pipefail
cd "$(dirname "$0")/.."
work=$(mktemp -d)
trap 'rm -rf "$work"' EXIT
prefix="$work/a prefix"

fail() {
    echo "FAILED: $*"
    exit 1
}

./build.sh install "$prefix" > "$work/said" 2>&1 || { cat "$work/said"; fail "build.sh install"; }
version=$("$prefix/bin/dvbs_send" --version)
version=${version#dvbs_send }
[[ $version =~ ^[0-9]+\.[0-9]+\.[0-9]+$ ]] || fail "no version: $version"
for page in man/*.1; do
    name=${page##*/}
    name=${name%.1}
    cmp -s "$page" "$prefix/share/man/man1/$name.1" || fail "$name: no man page"
    [ "$("$prefix/bin/$name" --version)" = "$name $version" ] || fail "$name --version"
    head -n 1 "$page" | grep -qF "\"Smorrivant $version\"" || fail "$name: its man page has another version"
    "$prefix/bin/$name" --help > "$work/usage" || fail "$name --help"
    synopsis=$(sed -n 's/\\-/-/g; /^\.SH SYNOPSIS/,/^\.SH DESCRIPTION/s/^\.B //p' "$page")
    [ "$(head -c $((7 + ${#synopsis})) "$work/usage")" = "usage: $synopsis" ] || fail "$name: its man page and its usage differ"
done
for program in "$prefix"/bin/*; do [ -f "man/${program##*/}.1" ] || fail "$program has no man page"; done

# flags NAME: as pkg-config gives them, one a line, and without it as the file has them.
flags() {
    local file="$prefix/lib/pkgconfig/$1.pc"
    if command -v pkg-config > /dev/null; then
        PKG_CONFIG_PATH=$prefix/lib/pkgconfig pkg-config --cflags --libs "$1" | xargs -n 1
    else
        sed -n 's/^\(Cflags\|Libs\): //p' "$file" | tr ' ' '\n' | sed "s/\"//g; s|\${includedir}|$prefix/include|; s|\${libdir}|$prefix/lib|"
    fi
}
for library in dvbs:link_from_c dvbs:truck dvbs_bridge:bridge_pass; do
    grep -qx "prefix=$prefix" "$prefix/lib/pkgconfig/${library%:*}.pc" || fail "${library%:*}.pc: another prefix"
    [ "$(sed -n 's/^Version: //p' "$prefix/lib/pkgconfig/${library%:*}.pc")" = "$version" ] || fail "${library%:*}.pc: another version than $version"
    mapfile -t with < <(flags "${library%:*}")
    cc -O2 "examples/${library#*:}.c" "${with[@]}" -o "$work/${library#*:}" || fail "${library#*:}: not linked by its pkg-config file"
done
"$work/link_from_c" > "$work/said" || { cat "$work/said"; fail "link_from_c"; }
data=reference/tests/data
"$work/truck" 2 "$work/state" < "$data/packets.ts" 2> "$work/said" | cmp - "$data/symbols_rate2.bin" || fail "truck"
"$work/bridge_pass" "$work/state" < "$data/interleaved.bin" > "$work/packets" 2> "$work/said" || fail "bridge_pass"
cmp -n 5452 "$work/packets" "$data/packets.ts" && [ "$(wc -c < "$work/packets")" = 5452 ] || fail "bridge_pass: its packets"
echo "install: as expected"
