"""Lists the places in src/ that an older Rattle had left, point by point: docs/DESIGN-PASS.md has what became of them.

python3 tools/places.py [COMMIT]     the working tree, or a commit; with -v each place
"""
import re
import subprocess
import sys

words = [w for w in sys.argv[1:] if w != '-v']
commit = words[0] if words else None


def git(*args):
    return subprocess.run(['git', *args], capture_output=True, text=True, check=True).stdout


def sources():
    """The name and the text of each source file."""
    names = git('ls-tree', '-r', '--name-only', commit).split() if commit else git('ls-files').split()
    for name in names:
        if re.fullmatch(r'crates/\w+/src/[\w/]+\.rt', name):
            yield name, git('show', f'{commit}:{name}') if commit else open(name).read()


FILES = list(sources())
FN = re.compile(r'^( *)((?:pub(?:\(crate\))? )?(?:extern "C" )?fn (\w+)(?:\[(?:[^\[\]]|\[[^\]]*\])*\]|[^{;\[])*?)(?=\n *requires|\n *ensures| \{|;)', re.M)


def line(text, at):
    return text.count('\n', 0, at) + 1


def found(pattern, flags=re.M):
    for name, text in FILES:
        for m in re.finditer(pattern, text, flags):
            yield name, line(text, m.start()), m.group(0).strip().split('\n')[0]


def enums():
    """Enums of the shape of Option or Result: of their cases one alone holds a value, or none of two."""
    for name, text in FILES:
        for m in re.finditer(r'enum (\w+)[^{]*\{(.*?)\n\}', text, re.S):
            cases = re.findall(r'^    (\w+)(\(.*\))?,', m.group(2), re.M)
            if sum(1 for _, value in cases if value) == 1 and len(cases) in (2, 4):
                yield name, line(text, m.start()), 'enum ' + m.group(1)


def functions():
    for name, text in FILES:
        for m in FN.finditer(text):
            end = m.end() if text.startswith(' {', m.end()) else text.find('\n' + m.group(1) + '{', m.end())
            yield name, line(text, m.start()), m.group(3), m.group(2), text[m.end():end]


def structs():
    for name, text in FILES:
        for m in re.finditer(r'^\s*(?:pub )?struct (\w+)[^{;]*\{(.*?)\n\s*\}', text, re.S | re.M):
            yield name, line(text, m.start()), m.group(1), m.group(2)


def facts():
    """A fact that the requires of three or more functions of a crate state of a parameter."""
    seen = {}
    for name, at, function, _, contract in functions():
        for clause in re.findall(r'requires[^{]*\{(.*?)\}\s*(?=ensures|$)', contract, re.S):
            for fact in re.split(r'×', clause):
                fact = re.sub(r'[()\s]+', ' ', fact).strip()
                seen.setdefault((name.split('/')[1], fact), []).append((name, at, function))
    for (_, fact), where in seen.items():
        if len(where) >= 3:
            yield (*where[0][:2], f'{fact}: {len(where)} functions')


def together():
    """Three parameters that three or more functions of a crate take side by side."""
    seen = {}
    for name, at, function, signature, _ in functions():
        inside = signature[signature.index('('):].rsplit(')', 1)[0]
        parts = [re.sub(r'\s+', ' ', p).strip(' (,') for p in re.split(r',\s*(?![^\[]*\])', inside)]
        parts = [p for p in parts if ':' in p]
        for i in range(len(parts) - 2):
            seen.setdefault((name.split('/')[1], tuple(parts[i:i + 3])), []).append((name, at, function))
    for (_, three), where in seen.items():
        if len(where) >= 3:
            yield (*where[0][:2], ', '.join(three) + f': {len(where)} functions')


def bodies():
    """Each function with its body as words."""
    for name, text in FILES:
        for m in FN.finditer(text):
            start = m.end() if text.startswith(' {', m.end()) else text.find('\n' + m.group(1) + '{\n', m.end())
            end = text.find('\n' + m.group(1) + '}\n', start)
            if 0 < start < end:
                body = re.sub(r'//.*', '', text[start:end])
                yield name, line(text, m.start()), m.group(3), re.findall(r'\w+|[^\w\s]', body)


def twins():
    """Functions whose bodies, of forty words or more, differ in names and numbers alone."""
    seen = {}
    for name, at, function, words in bodies():
        if len(words) < 40:
            continue
        numbered = {}
        shape = tuple(('n' if w[0].isdigit() else numbered.setdefault(w, len(numbered))) if re.match(r'\w', w) else w for w in words)
        seen.setdefault(shape, []).append((name, at, function))
    for where in seen.values():
        if len(where) > 1:
            yield (*where[0][:2], ', '.join(f for _, _, f in where))


def lengths():
    for name, at, struct, fields in structs():
        if re.search(r': \[', fields) and re.search(r'\b(held|count|length): usize', fields):
            yield name, at, 'struct ' + struct


POINTS = [
    ('1a', 'an answer, or a flag, beside a value', found(r'^\s*(pub )?(answer: Answer|(found|failed|given|over|stopped): bool),$')),
    ('1b', 'functions that give an answer', found(r'->\s*Answer\b')),
    ('1c', 'own enums of the shape of Option or Result', enums()),
    ('1d', 'a number for a kind: rate, mode, form, turn, kind', ((n, a, f) for n, a, f, s, _ in functions() if re.search(r'\b(rate|mode|form|turn|kind|q): (u8|u64|usize)', s))),
    ('2', 'functions that differ in names and numbers alone', twins()),
    ('3', 'while and loop', found(r'^\s*(while|loop)\b.*')),
    ('4', 'comparing, choosing and converting by hand', ((n, a, f) for n, a, f, _, _ in functions() if re.fullmatch(
        r'least|smaller|larger|lesser|larger_of|same_bytes|is_text|matches|is_zero|is_sure|either|bit_value|number|byte_at|put_number|number_at|join|word_of|word_at|limit_of|cells_at|positions_at|block_at|packets_at|sixteen|joined|filled|clear|between|is_refusal|decide', f))),
    ('5a', 'a fact in the contracts of three or more functions', facts()),
    ('5b', 'three parameters that travel together', together()),
    ('6a', 'an array with a length beside it', lengths()),
    ('7', 'a flag that says which step to run', ((n, a, f) for n, a, f, s, _ in functions() if re.search(r'\b(bits|soft|wanted|none|clean|valid|lists|exchange|inverted|mirrored|flush): bool', s))),
]

for point, what, places in POINTS:
    places = list(places)
    print(f'{point:3} {len(places):4}  {what}')
    if '-v' in sys.argv:
        for name, at, text in places:
            print(f'          {name}:{at}: {text}')
