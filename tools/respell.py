#!/usr/bin/env python3
"""Respells the definitions and lemmas of this repository: words in snake case, types in camel case.

    python3 tools/respell.py [--dry]

Run once, at the top, after the kit's port.py, when the repository came over to a newer Rattle. Names that .antt files declare lose their
dashes (`less-last` to `less_last`, `Same-mod` to `SameMod`); names of functions, clauses and variables of src/ are written in proofs as in
src/ (`last-subtracted-from-all` to `last_subtracted_from_all`, also as a part of a name that Rattle makes). Names of the library stay.
It prints names that fall together.
"""
import os
import re
import sys

OWN = r'Rattle\.(?:algebra|euclid|arithmetic|scheme|polynomials|keycards|vectors|bench)\.'
NAME = r"[^\s(){}\[\];,.\"`λ→×⌜⌝]+"
WORD = re.compile(NAME)
HEAD = re.compile(rf"^\s*(?:pub |abbrev |unfoldable |data |record |ruleset |module )*({NAME})(?= :| [({{]|\s*=| as |$)", re.M)
LET = re.compile(rf"\b(?:let|where) ({NAME}) (?::|=)")
BINDER = re.compile(rf"[({{]((?:{NAME} )+):")
LAMBDA = re.compile(r"λ ((?:[^\s.]+ )*[^\s.]+)\.")
MADE = re.compile(rf"^\s*(?:pub |abbrev )*({NAME})\s*:\s*goal\.", re.M)
WORDS = {'pub', 'abbrev', 'unfoldable', 'data', 'record', 'use', 'mod', 'where', 'let', 'in', 'unfolding', 'open', 'ruleset', 'module'}


def files(ending, top='crates'):
    for folder, dirs, names in os.walk(top):
        dirs[:] = sorted(d for d in dirs if d != 'out')
        for name in sorted(names):
            if name.endswith(ending):
                yield os.path.join(folder, name)


def read(path):
    with open(path, encoding='utf-8') as f:
        return f.read()


def bare(text):
    """The text of an .antt file without its comments."""
    return re.sub(r'--.*', '', text)


def dashed(name):
    return bool(re.search(r'[\w+]-\w', name))


def camel(name):
    return bool(re.match(r'[a-z][a-z0-9]*[A-Z]', name))


def snake(name):
    """The new spelling of a name of our own."""
    if name[0].isupper() and dashed(name):
        return ''.join(part[:1].upper() + part[1:] for part in name.split('-'))
    name = re.sub(r'(?<=\w)-(?=\w)|(?<=\+)-(?=\w)', '_', name)
    if re.match(r'[a-z]', name):
        name = re.sub(r'([a-z0-9])([A-Z]+)', lambda m: m.group(1) + '_' + m.group(2).lower(), name)
    return name


def survey():
    """What is declared here, what comes from libraries, and what Rattle makes."""
    own, library, made, seen = set(), set(), set(), set()
    for path in files('.antt'):
        text = bare(read(path))
        for m in re.finditer(r'^use (\S+?)\.\{([^}]*)\}', text, re.M):
            names = {x.strip() for x in m.group(2).split(',')}
            if not re.match(OWN, m.group(1)):
                library |= names
            elif '.declared.' in m.group(1) or re.search(r'\.(Goals|Given)$', m.group(1)):
                made |= names
        body = re.sub(r'^use .*$', '', text, flags=re.M)
        made |= set(MADE.findall(body))
        own |= set(HEAD.findall(body)) | set(LET.findall(body))
        for m in BINDER.finditer(body):
            own |= set(m.group(1).split())
        for m in LAMBDA.finditer(body):
            own |= set(m.group(1).split())
        seen |= set(WORD.findall(text))
    own = {n for n in own if (dashed(n) or camel(n)) and n not in WORDS}
    return own - library - made, library, made, seen


def source_names():
    """Identifiers of src/ with an underscore."""
    names = set()
    for path in files('.rt'):
        names |= set(re.findall(r'\b[A-Za-z]\w*_\w+\b', read(path)))
    return names


def merge(token, names):
    """A made name whose parts are written as in src/."""
    parts, out = token.split('-'), []
    while parts:
        for k in range(len(parts), 0, -1):
            word = '_'.join(parts[:k])
            if k == 1 or len(word) > 3 and word in names:
                out.append(word)
                parts = parts[k:]
                break
    return '-'.join(out)


def table():
    own, library, made, seen = survey()
    names = source_names()
    turn = {}
    for name in own:
        turn[name] = snake(name)
    for token in seen - own - library:
        if dashed(token) and not token[0].isdigit():
            new = merge(token, names)
            if new != token:
                turn[token] = new
    new = {}
    for old, name in turn.items():
        new.setdefault(name, []).append(old)
    for name, olds in sorted(new.items()):
        if len(olds) > 1 or name in seen and name not in turn:
            print('falls together:', name, 'from', ', '.join(sorted(olds)), '(stands already)' if name in seen else '')
    return turn


def turn_words(text, turn):
    return WORD.sub(lambda m: turn.get(m.group(0), m.group(0)), text)


def turn_antt(text, turn):
    out = []
    for line in text.split('\n'):
        k = line.find('--')
        while k > 0 and not line[k - 1].isspace():
            k = line.find('--', k + 1)
        code, comment = (line, '') if k < 0 else (line[:k], line[k:])
        m = re.match(r'(use \S+?\.\{)(.*)(\}.*)$', code)
        if m and not re.match(r'use ' + OWN, code):
            out.append(line)
        else:
            out.append(turn_words(code, turn) + comment)
    return '\n'.join(out)


def turn_rt(text, turn):
    """Only what stands in ghost text: names with a dash, which the code's own text never has."""
    dashes = {a: b for a, b in turn.items() if dashed(a)}
    out = []
    for line in text.split('\n'):
        k = line.find('//')
        code, comment = (line, '') if k < 0 else (line[:k], line[k:])
        if '"' not in code:
            code = turn_words(code, dashes)
        out.append(code + comment)
    return '\n'.join(out)


def turn_page(text, turn):
    """Names in backticks."""
    dashes = {a: b for a, b in turn.items() if dashed(a)}
    return re.sub(r'`[^`\n]*`', lambda m: turn_words(m.group(0), dashes) if dashes.get(m.group(0)[1:-1]) else m.group(0), text)


def main(arguments):
    turn = table()
    if '--dry' in arguments:
        for old, new in sorted(turn.items()):
            print(old, new)
        return 0
    count = 0
    for ending, how in (('.antt', turn_antt), ('.rt', turn_rt), ('.edit', turn_rt)):
        for path in files(ending):
            old = read(path)
            new = how(old, turn)
            if new != old:
                count += 1
                with open(path, 'w', encoding='utf-8') as f:
                    f.write(new)
    for path in files('.md', 'docs'):
        old = read(path)
        new = turn_page(old, turn)
        if new != old:
            count += 1
            with open(path, 'w', encoding='utf-8') as f:
                f.write(new)
    print(f'{len(turn)} names, {count} files')
    return 0


if __name__ == '__main__':
    sys.exit(main(sys.argv[1:]))
