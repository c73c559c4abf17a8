#!/bin/bash
# What no contract of a program can refuse, since inputs and outputs are values and may be copied: one that is made twice, or read or written by a copy of
# which nothing is told. programs.awk has the rules. And that a program reaches files by program_io alone.
#   tests/programs.sh      from the top of the repository
# Prints what is wrong, and nothing else; it ends with 1 then.
set -euo pipefail
wrong=0
say() {
    echo "$*"
    wrong=1
}

# The programs are the crates with a main. The crates that they share, and that take files, are listed here; and the programs of the tests, which take none of
# program_io's.
shared=(pass reader_program)
calls=(send_calls report_calls)
for folder in crates/*/; do
    crate=${folder#crates/}
    crate=${crate%/}
    main=crates/$crate/src/main.rt
    # No way to a file but program_io: the system's runtime is what main is given, and goes to a System alone; what the library has of files is not named, and
    # the kit's libraries are not among what a program stands on.
    if [ "$crate" != program_io ] && [[ " ${calls[*]} " != *" $crate "* ]]; then
        named=$(cat crates/"$crate"/src/*.rt | sed 's| *//.*||; /^use std::process::ExitCode;$/d; s/^fn main(rt: HostRuntime) -> ExitCode {$//; s/^    let mut system = System::new(rt);$//' | grep -oE '\<(HostRuntime|rt|std::(fs|io|os|env|net|process|rt)|System::new)\>' || true)
        [ -z "$named" ] || say "crates/$crate: names" $named
    fi
    if [[ " ${shared[*]} " = *" $crate "* ]]; then
        main=
    elif [ ! -f "$main" ] || [[ " ${calls[*]} " = *" $crate "* ]]; then
        [ "$crate" = program_io ] || ! grep -qw program_io crates/"$crate"/src/*.rt || ! grep -qwE 'Input|Output|Filled|Ended|MarkedEnded|Answered|System' crates/"$crate"/src/*.rt || say "crates/$crate: takes files, and is not among those that are followed"
        continue
    fi
    # main is four lines: one System, and the status that the program ends with is the one that its function returned.
    if [ -n "$main" ]; then
        lines=$(printf '%s\n' 'fn main(rt: HostRuntime) -> ExitCode {' '    let mut system = System::new(rt);' "    program_io::exit_code(${crate}_main(&mut system))" '}')
        [ "$(sed -n '/^fn main(/,/^}/p' "$main")" = "$lines" ] || say "$main: its main is not the four lines that hand the status on"
    fi
    deps=$(sed -n "s/^$crate: *//p" crates.txt)
    [ -n "$deps" ] || say "crates.txt: no line of $crate"
    for library in io libc os; do
        [[ " $deps " != *" $library "* ]] || say "crates.txt: $crate names $library"
    done
    # Each kind of input is made in one place.
    for made in Input::standard Input::open Input::none; do
        n=$(cat crates/"$crate"/src/*.rt | { grep -o "$made(" || true; } | wc -l)
        [ "$n" -le 1 ] || say "crates/$crate: $n places make $made"
    done
    # Each input is read in one place, under its name. A function that reads is called in one place too.
    reads=$(cat crates/"$crate"/src/*.rt | tr '\n' ' ' | grep -oE '\.(read|fill)\( *system, *b"[^"]*"' | tr -s ' ' | sort | uniq -d || true)
    # A read whose input cannot be told by its name is none that this sees.
    whole=$(cat crates/"$crate"/src/*.rt | tr '\n' ' ' | { grep -oE '\.(read|fill)\( *[a-z]' || true; } | wc -l)
    known=$(cat crates/"$crate"/src/*.rt | tr '\n' ' ' | { grep -oE '\.(read|fill)\( *system, *b"[^"]*"' || true; } | wc -l)
    [ "$whole" = "$known" ] || say "crates/$crate: a read without a name"
    [ -z "$reads" ] || say "crates/$crate: read in more than one place: $reads"
    # On each path each input and output is made once, and handed on once.
    sources=(crates/program_io/src/*.rt)
    for part in "${shared[@]}" "$crate"; do
        [[ " ${sources[*]} " = *" crates/$part/src/lib.rt "* ]] || sources+=(crates/"$part"/src/*.rt)
    done
    copies=$(awk -v crate="$crate" -f tests/programs.awk "${sources[@]}")
    [ -z "$copies" ] || say "$copies"
done
exit $wrong
