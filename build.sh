#!/bin/bash
# Proves and builds the programs, into target/bin, and the libraries for C, into target/staticlib.
#   ./build.sh                    all of them
#   ./build.sh NAME..             some: a program, or libdvbs or libdvbs_bridge; also libkernels, the stages by themselves, for tests and benchmarks, and the
#                                 programs of the tests, send_calls and report_calls
#   ./build.sh install PREFIX     puts what was built, with headers, pkg-config files and man pages, below PREFIX
# libdvbs.a has every function that include/dvbs.h declares. They are several proved crates, since one that reaches both directions takes too much memory to
# prove; here their objects become one archive.
set -euo pipefail
cd "$(dirname "$0")"
programs=(dvbs_send dvbs_read dvbs_read_soft dvbs_lock dvbs_receive dvbs_losses pass_report report_form season recording_block)
calls=(send_calls report_calls)
libdvbs=(dvbs_lock_stream dvbs_reader_stream dvbs dvbs_receiver dvbs_reader dvbs_sender)

usage() {
    echo "usage: ./build.sh [NAME..], or ./build.sh install PREFIX; NAME is one of ${programs[*]} libdvbs libdvbs_bridge libkernels ${calls[*]}" >&2
    exit 2
}

# program NAME: proves, compiles and links it. rt runs it too: it gives its usage, or takes an empty input.
program() {
    (cd "crates/$1" && rt run -- --help < /dev/null > /dev/null)
    mkdir -p target/bin
    install "crates/$1/out/$1" target/bin
}

# staticlib NAME: proves it, and makes crates/NAME/out/libNAME.a.
staticlib() {
    (cd "crates/$1" && rt lib)
    mkdir -p target/staticlib
}

# One archive of the parts of libdvbs. Their objects have different names, those of the crates, and each exports its functions for C alone.
join_libdvbs() {
    local parts=target/staticlib/parts crate name
    rm -rf "$parts"
    mkdir -p "$parts"
    for crate in "${libdvbs[@]}"; do (cd "$parts" && ar x "../../../crates/$crate/out/lib$crate.a"); done
    [ "$(ls "$parts" | wc -l)" = ${#libdvbs[@]} ] || { echo "libdvbs: not an object for each crate" >&2; exit 1; }
    name=$(nm -g --defined-only "$parts"/* | awk 'NF == 3 { print $3 }' | sort | uniq -d)
    [ -z "$name" ] || { echo "libdvbs: in more than one part:" $name >&2; exit 1; }
    rm -f target/staticlib/libdvbs.a
    ar rcs target/staticlib/libdvbs.a "$parts"/*
    rm -r "$parts"
}

# pkg_config NAME WHAT: the pkg-config file of a library. Its version is the one that the programs tell.
pkg_config() {
    local version
    version=$(sed -n 's/.*b" \([0-9.]*\)\\n".*/\1/p' crates/program_io/src/calls.rt)
    cat > "$prefix/lib/pkgconfig/$1.pc" << END
prefix=$prefix
includedir=\${prefix}/include
libdir=\${prefix}/lib

Name: $1
Description: $2
Version: $version
Cflags: "-I\${includedir}"
Libs: "-L\${libdir}" -l$1
END
}

install_all() {
    mkdir -p "$prefix"/{bin,include,lib/pkgconfig,share/man/man1}
    for name in "${programs[@]}"; do
        install "target/bin/$name" "$prefix/bin"
        install -m 644 "man/$name.1" "$prefix/share/man/man1"
    done
    install -m 644 include/*.h "$prefix/include"
    install -m 644 target/staticlib/libdvbs.a target/staticlib/libdvbs_bridge.a "$prefix/lib"
    pkg_config dvbs "channel coding of DVB-S: sending, reading and receiving, proved"
    pkg_config dvbs_bridge "a DVB-S receiver whose state is bytes, proved"
}

if [ "${1-}" = install ]; then
    [ $# = 2 ] || usage
    prefix=$(realpath -m "$2")
    install_all
    exit
fi
[ $# -gt 0 ] || set -- "${programs[@]}" libdvbs libdvbs_bridge
for name in "$@"; do
    case $name in
        libdvbs | libdvbs_bridge | libkernels) ;;
        *) [[ " ${programs[*]} ${calls[*]} " = *" $name "* ]] || usage ;;
    esac
done
for name in "$@"; do
    case $name in
        libdvbs)
            for crate in "${libdvbs[@]}"; do staticlib "$crate"; done
            join_libdvbs
            ;;
        libdvbs_bridge | libkernels)
            staticlib "${name#lib}"
            install -m 644 "crates/${name#lib}/out/$name.a" target/staticlib
            ;;
        *) program "$name" ;;
    esac
done
