#!/usr/bin/env python3
"""Spells the names that specs/ and proofs/ of this repository's crates declare as the library spells its own.

usage: tools/spell.py [--check]      at the top of the repository; --check prints the names and writes nothing

A name in camel case that begins with a small letter becomes snake case, a prime an apostrophe, and a dash an underscore. A dash stays where it joins a type
to a name, or where each part is a function on lists, as in length-take. A name that would meet another stays, and a line that begins 'stays:' says so.
Names that a file imports from a library stay in that file, and so do the names of Rust items, strings, exported C names and what a check generates. It was run
once, right after the kit's own scripts; run again it changes nothing.
"""

import collections
import glob
import os
import re
import sys

NAME = r"[^\s(){}.;,@\"«»`\\|\[\]]+"
LISTS = set("length take drop append map set replicate flatten reverse filter get_or zip sum chunks chunk rest cons snoc".split())
WORDS = set("let in where module open use elim rw simp omega search mutual unfolding pub abbrev unfoldable data record mod".split())
# What would meet another name in snake case.
ODD = {
    "allLines": "lines_of_all", "bytesRead": "read_bytes", "digitsOf": "digit_list", "fieldsIn": "fields_within", "firstByte": "byte_at_first",
    "frontOf": "front_part", "givenBy": "given_from", "goesOn": "proceeds", "heldBytes": "bytes_held", "heldNext": "next_held", "inStep": "in_a_step",
    "isLost": "was_lost", "leadBits": "bits_of_lead", "nextPlace": "place_next", "oddStep": "step_odd", "oneMore": "and_one_more", "otherByte": "byte_other",
    "placeAfter": "later_place", "runLength": "length_of_run", "tooLong": "too_long_text",
}
DECLARED = re.compile(rf"^\s*(?:(?:abbrev|unfoldable|pub|data|record|mutual) )*({NAME})(?: +(?:\([^)]*\)|\{{[^}}]*\}}))* ?:(?:\s|$)")
USE = re.compile(r"(?m)^\s*(?:ghost )?(?:pub )?use ([^\s;{]+?)\.?\{([^}]*)\}")


def texts(pattern):
    for path in sorted(glob.glob(pattern, recursive=True)):
        if "/out/" not in path:
            with open(path, encoding="utf-8") as f:
                yield path, f.read()


def snake(word):
    return re.sub(r"(?<=[a-z0-9])([A-Z])", lambda m: "_" + m[1].lower(), word)


def spelled(name):
    if name in ODD:
        return ODD[name]
    name = name.replace("′", "'")
    parts = name.split("-")
    parts = [p if p[:1].isupper() else snake(p) for p in parts]
    if len(parts) > 1 and (parts[0][:1].isupper() or all(p in LISTS for p in parts)):
        return "-".join(parts)
    return "_".join(parts)


def is_generated(path):
    return os.path.basename(path) in ("Proof.antt", "Answers.antt", "Invariants.antt")


def foreign(text, crates):
    """The names that a file imports from elsewhere than this repository's crates."""
    found = set()
    for m in USE.finditer(text):
        steps = m[1].split(".")
        if not (steps[0] == "Rattle" and len(steps) > 1 and steps[1] in crates):
            found |= {w for item in m[2].split(",") for w in item.split()}
    return found


def turn_clauses(text, turn):
    """The text of a .rt file with its clauses, ghost items and lines 'ghost use' turned, and a comment's words in camel case."""
    done, at = [], 0
    for m in re.finditer(r"(?m)^\s*//[^\n]*|ghost\s+use\b[^;]*;|(?:requires|ensures)\s*\*?\s*(?:\w+\s*)?\{|ghost\s+\w+\s*:\s*\{", text):
        if m.start() < at:
            continue
        end = m.end()
        if m[0].endswith("{"):
            depth = 1
            while depth:
                depth += {"{": 1, "}": -1}.get(text[end], 0)
                end += 1
        part = text[m.start() : end]
        comment = part.lstrip().startswith("//")
        done += [text[at : m.start()], re.sub(r"\b[a-z]+[A-Z]\w*", lambda w: turn(w[0]), part) if comment else turn(part)]
        at = end
    return "".join(done) + text[at:]


def main(check):
    crates = {os.path.basename(os.path.dirname(p)) for p in glob.glob("crates/*/src")}
    antt = dict(texts("crates/*/specs/**/*.antt")) | dict(texts("crates/*/proofs/**/*.antt"))
    own = set()
    for path, text in antt.items():
        if is_generated(path):
            continue
        for line in text.split("\n"):
            m = DECLARED.match(line)
            if m and m[1] not in WORDS and not line.lstrip().startswith("--"):
                own.add(m[1])
    renamed = {n: spelled(n) for n in own if spelled(n) != n}
    token = re.compile(rf"(?<![^\s(){{}}.;,@\"«»`\\|\[\]])({NAME})")
    bare = re.compile(rf"(?<![^\s(){{}};,@\"«»`\\|\[\]])({NAME})(?!\.)")
    words = {path: set(bare.findall(re.sub(r"(?m)^\s*use [^\s{]*", "", text))) for path, text in antt.items()}
    rust = dict(texts("crates/*/src/**/*.rt"))
    back = collections.defaultdict(set)
    for old, new in renamed.items():
        back[new].add(old)
    for new, olds in sorted(back.items()):
        # A definition keeps its name in snake case, and a lemma of that name is marked as one.
        lemmas = {o for o in olds if "-" in o}
        if new in own or len(olds) > len(lemmas) > 0:
            for old in lemmas:
                renamed[old] = new + "_lem"
    back = collections.defaultdict(set)
    for old, new in renamed.items():
        back[new].add(old)
    for new, olds in sorted(back.items()):
        meets = [p for p, w in words.items() if new in w and w & olds]
        if len(olds) > 1 or new in own or meets:
            for old in olds:
                print(f"stays: {old} (as {new}) {' '.join(meets[:3])}")
                del renamed[old]
    print(f"{len(renamed)} names")
    if check:
        for old, new in sorted(renamed.items()):
            print(f"{old}\t{new}")
        return

    camel = {o: n for o, n in renamed.items() if "-" not in o}
    spelled_now = (own - set(renamed)) | set(renamed.values())

    def turn(text, skip, names=renamed):
        return token.sub(lambda m: names.get(m[1], m[1]) if m[1] not in skip else m[1], text)

    def turn_lines(text, skip):
        """Code turns whole, and a comment's words where they are in camel case."""
        return re.sub(r"(?m)(?<![^\s(){}.;,])--.*$|[^\n]+?(?=\s--|\n|$)", lambda m: turn(m[0], skip, camel if m[0].startswith("--") else renamed), text)

    def word(m):
        """A name, also one that the kit's scripts spelled anew where they went."""
        return renamed.get(m[1]) or (spelled(m[1]) if m[1] not in own and spelled(m[1]) in spelled_now else m[1])

    def quoted(text):
        """The names in a document's code spans."""
        return re.sub(r"`[^`\n]+`", lambda s: s[0] if "/" in s[0] else token.sub(word, s[0]), text)

    def write(path, old, new):
        if old != new:
            with open(path, "w", encoding="utf-8") as f:
                f.write(new)

    for path, text in antt.items():
        write(path, text, turn_lines(text, foreign(text, crates)))
    for path, text in rust.items():
        write(path, text, turn_clauses(text, lambda clause: token.sub(lambda m: m[1] if m[1] in foreign(text, crates) else word(m), clause)))
    for pattern in ("crates/*/must-fail/*.edit", "tests/wrong/*/*.edit", "tests/*.sh", "tests/*.awk"):
        for path, text in texts(pattern):
            of_code = path.endswith((".sh", ".awk")) or "file: src/" in text
            write(path, text, turn(text, (), camel) if of_code else token.sub(word, text))
    for pattern in ("docs/*.md", "README.md"):
        for path, text in texts(pattern):
            write(path, text, quoted(text))


if __name__ == "__main__":
    main("--check" in sys.argv[1:])
