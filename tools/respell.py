#!/usr/bin/env python3
"""Respells the project's own definitions and lemmas as today's Rattle writes them: words in snake case, where they stood in camel case or with
dashes. Run once, at the top, right after the toolchain's port.py. Functions of src/ and the library's names keep theirs.

usage: tools/respell [--dry]    prints what falls together, and writes the files unless --dry is given
"""
import os
import re
import sys

# Lemmas whose names, respelled, would be those of the definitions that they are about: they get `_lem`.
LEMMAS = """blocks-of byte-at bytes-of code-byte crc-bytes entries-most fault-of field-on first-match header-length is-image is-over last-end line-most
load-refused mask-length no-round none-held number-from one-slot round-bytes row-most said-of session-byte state-byte with-areas""".split()
# The same, of lemmas that port.py has respelled already.
AGAIN = "field_off held_bytes mask_fits room_most".split()
# Names whose heads have more than a name before their colon.
MORE = "afterVerdict each-address if-both if-one one-result or-one".split()

WORD = re.compile(r"[A-Za-z_◌][\w'◌]*(?:-[\w'◌]+)*")
HEAD = re.compile(r"^\s*(?:(?:pub|abbrev|unfoldable|opaque)\s+)*((?:[a-z_][\w'\-]*\s+)*[a-z_][\w'\-]*)\s+:(?=\s)(.*)")
BOUND = [re.compile(r"\blet\s+([a-z_][\w'\-]*)"), re.compile(r"[({]((?:[a-z_][\w'\-]*\s+)+):\s"), re.compile(r"λ\s+((?:[a-z_][\w'\-]*\s*)+)\.")]
MADE = re.compile(r"^(invariant|decreases|loop|returns|if|then|else|in|overflow|bounds|slice|need|nonzero|cast|shr|sub|add|mul|has|index)-")


def snake(name):
    return re.sub(r'([a-z0-9])([A-Z])', lambda m: m.group(1) + '_' + m.group(2).lower(), name.replace('-', '_'))


def is_odd(name):
    return name[0].islower() and ('-' in name or bool(re.search(r'[a-z0-9][A-Z]', name)))


def texts(ends):
    for folder, dirs, files in os.walk('crates'):
        dirs[:] = sorted(d for d in dirs if d != 'out')
        for name in sorted(files):
            if name.endswith(ends):
                yield os.path.join(folder, name)


def pages():
    yield 'README.md'
    for folder, dirs, files in os.walk('docs'):
        for name in sorted(files):
            if name.endswith('.md'):
                yield os.path.join(folder, name)


def read(path):
    with open(path, encoding='utf-8') as f:
        return f.read()


def uncommented(line):
    return re.split(r'(?:^|\s)--(?:\s|$)', line, maxsplit=1)[0]


def declared(path):
    own, made = set(), set()
    for line in read(path).split('\n'):
        line = uncommented(line)
        m = HEAD.match(line)
        if m:
            names = m.group(1).split()
            tie = m.group(2).strip().startswith(('tie.', 'Tie.', 'goal.'))
            (made if tie else own).update(n for n in names if n not in ('pub', 'abbrev', 'unfoldable'))
        for pattern in BOUND:
            for m in pattern.finditer(line):
                own.update(m.group(1).split())
    return own, made


def imported(text):
    """The names that a file takes from a library."""
    found = set()
    for m in re.finditer(r'(?m)^(?:ghost )?use ([^\s{;]+)\.\{([^}]*)\}', text):
        first = m.group(1).split('.')
        if first[0] == 'Rattle' and os.path.isdir(os.path.join('crates', first[1])):
            continue
        found |= set(WORD.findall(m.group(2)))
    return found


def table():
    out = {name: snake(name) for name in MORE}
    for path in texts('.antt'):
        own, made = declared(path)
        for name in own | made:
            if is_odd(name) and not (path.endswith('/Proof.antt') and MADE.match(name)):
                out[name] = snake(name) + '_lem' * (name in LEMMAS)
    out.update({name: name + '_lem' for name in AGAIN})
    return out


def put(text, names):
    def one(m):
        name = m.group(0)
        if name not in names:
            return name
        return names[name] if m.start() == 0 or text[m.start() - 1] != '.' else snake(name)

    return WORD.sub(one, text)


def code(line, names, comment):
    """A line: names in what is code, and of a comment those that stand in back quotes or in camel case."""
    cut = re.search(r'(?:^|\s)' + comment + r'(?:\s|$)', line)
    if not cut:
        return put(line, names)
    camel = {a: b for a, b in names.items() if '-' not in a}
    said = re.sub(r'`[^`]*`', lambda m: put(m.group(0), names), line[cut.start():])
    return put(line[:cut.start()], names) + put(said, camel)


def turned(path, names):
    old = read(path)
    if path.endswith('.md'):
        names = {a: b for a, b in names.items() if a not in AGAIN}
        return old, re.sub(r'`[^`\n]*`', lambda m: put(m.group(0), names), old)
    mine = imported(old) if path.endswith('.antt') else AGAIN
    names = {a: b for a, b in names.items() if a not in mine}
    comment = '//' if path.endswith('.rt') else '#' if path.endswith('.edit') else '--'
    return old, '\n'.join(code(line, names, comment) for line in old.split('\n'))


def main():
    dry = '--dry' in sys.argv[1:]
    names = table()
    taken = {}
    for a, b in sorted(names.items()):
        if b in taken:
            print(f'falls together: {a} and {taken[b]}, as {b}')
        taken[b] = a
    changed = 0
    for path in list(texts(('.antt', '.rt', '.edit'))) + list(pages()):
        old = read(path)
        there = set(WORD.findall('\n'.join(uncommented(x) for x in old.split('\n')))) if path.endswith(('.antt', '.rt')) else set()
        for a, b in names.items():
            if a in there and b in there and b not in AGAIN:
                print(f'look: {path}: {a} becomes {b}, which stands there already')
        old, new = turned(path, names)
        if new != old:
            changed += 1
            if not dry:
                with open(path, 'w', encoding='utf-8') as f:
                    f.write(new)
    print(f'{len(names)} names, {changed} files' + (' (nothing written)' if dry else ''))


main()
