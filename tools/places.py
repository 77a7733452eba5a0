#!/usr/bin/env python3
"""Lists the places of docs/DESIGN-PASS.md in the code, point by point.

    python3 tools/places.py [COMMIT]

Reads crates/*/src/**.rt of the commit, or of the tree where none is named, and prints for each point how many places it found and where.
A place is a candidate: the page says of each whether it was changed or why it stays.
"""
import re
import subprocess
import sys
from collections import defaultdict
from pathlib import Path


def sources(commit):
    if commit is None:
        paths = sorted(p for p in Path('crates').glob('*/src/**/*.rt'))
        return {str(p): p.read_text() for p in paths}
    names = subprocess.run(['git', 'ls-tree', '-r', '--name-only', commit, 'crates'], capture_output=True, text=True, check=True).stdout.split()
    names = [n for n in names if re.match(r'crates/[^/]+/src/.*\.rt$', n)]
    return {n: subprocess.run(['git', 'show', f'{commit}:{n}'], capture_output=True, text=True, check=True).stdout for n in names}


class Function:
    def __init__(self, path, line, name, signature, clauses, body):
        self.path, self.line, self.name, self.signature, self.clauses, self.body = path, line, name, signature, clauses, body

    def where(self):
        return f'{self.path}:{self.line} {self.name}'

    def parameters(self):
        rest = self.signature.split(f'fn {self.name}', 1)[-1]
        depth, start = 0, 0
        for start, c in enumerate(rest):
            if c == '(' and depth == 0:
                break
            depth += (c == '<') - (c == '>' and rest[start - 1] != '-')
        inner = rest[start:]
        return re.findall(r'(\w+): ([^,()]+(?:\([^)]*\))?)', inner.split('->')[0])

    def answer(self):
        parts = self.signature.rsplit('->', 1)
        return parts[1].strip() if len(parts) == 2 else '()'


def functions(files):
    """Every fn with a body: rustfmt's layout puts the closing brace at the indentation of the fn."""
    for path, text in files.items():
        lines = text.split('\n')
        i = 0
        while i < len(lines):
            start = re.match(r'^(\s*)(?:pub(?:\(crate\))? )?(?:final )?(?:const )?fn (\w+)', lines[i])
            if not start:
                i += 1
                continue
            indent, name = start.group(1), start.group(2)
            j = i
            signature, clauses = [], []
            while j < len(lines):
                line = lines[j].strip()
                if lines[j].rstrip().endswith(';') and not signature and '{' not in line:
                    break
                if lines[j] == indent + '{' or (lines[j].rstrip().endswith('{') and not line.startswith(('requires', 'ensures'))):
                    if lines[j] != indent + '{':
                        signature.append(line[:-1])
                    break
                if line.startswith(('requires', 'ensures')):
                    clauses.append(line)
                elif clauses and not line.startswith('//'):
                    if line.endswith(';'):
                        break
                    clauses[-1] += ' ' + line
                elif not line.startswith('//'):
                    signature.append(line)
                j += 1
            k = j
            while k < len(lines) and lines[k] != indent + '}':
                if lines[j].rstrip().endswith(';'):
                    break
                k += 1
            yield Function(path, i + 1, name, ' '.join(signature), clauses, '\n'.join(lines[j + 1:k]))
            i = max(k, i) + 1


def tokens(body):
    body = re.sub(r'//[^\n]*', '', body)
    body = re.sub(r'"(?:\\.|[^"])*"', 'S', body)
    return re.findall(r'[A-Za-z_]\w*|\d\w*|[^\sA-Za-z_\d]', body)


def skeleton(body):
    """The body with each name and number replaced by a sign for its first place, so that twins have one."""
    names, out = {}, []
    for token in tokens(body):
        if re.match(r'[A-Za-z_]', token) and token not in ('if', 'else', 'for', 'in', 'while', 'match', 'let', 'mut', 'return', 'true', 'false', 'self'):
            out.append(f'n{names.setdefault(token, len(names))}')
        elif token[0].isdigit():
            out.append('0')
        else:
            out.append(token)
    return ' '.join(out)


def grep(files, pattern):
    found = []
    for path, text in files.items():
        for number, line in enumerate(text.split('\n'), 1):
            if re.search(pattern, line) and not line.strip().startswith('//') and not line.strip().startswith(('ghost', 'requires', 'ensures')):
                found.append(f'{path}:{number} {line.strip()}')
    return found


def point_1(files, all_functions):
    found = [f.where() + ' answers bool beside a written list' for f in all_functions if f.answer() == 'bool' and '&mut [' in f.signature]
    found += [f.where() + ' takes a flag' for f in all_functions if any(t.strip() == 'bool' for _, t in f.parameters())]
    found += grep(files, r'^\s*\w+::\w+ => \d+,')
    found += grep(files, r'^\s*code: u8,$')
    found += [f.where() + ' takes a number for a set' for f in all_functions if any(n in ('set', 'number') and t.strip() == 'u8' for n, t in f.parameters())]
    found += grep(files, r'Err\(_\) => 0,|unwrap_or\(0\)|return 0;')
    return found


def point_2(all_functions):
    groups = defaultdict(list)
    for f in all_functions:
        shape = skeleton(f.body)
        if len(shape.split()) >= 12:
            groups[shape].append(f.where())
    return [' ~ '.join(g) for g in groups.values() if len(g) > 1]


def point_3(files):
    return grep(files, r'\bfor (?!_ )\w+ in [^{]*\.\.') + grep(files, r'\bwhile (?!let)') + grep(files, r'\bloop \{')


def point_4(files):
    names = 'from_number|from_sign|from_code|signed|code|number|same|hex|shown|named|copy_into|codes|bit_codes|wrapped|digits|bits'
    return grep(files, rf'fn ({names})\b') + grep(files, r'^impl.* (fmt::Display|From<.*>|PartialEq|Clone|Eq|Ord|PartialOrd) for ')


def point_5(all_functions):
    facts = defaultdict(set)
    for f in all_functions:
        for clause in f.clauses:
            if clause.startswith('requires'):
                text = re.sub(r'^requires \w* ?', '', clause)
                facts[re.sub(r'\s+', ' ', text)].add(f.where())
    found = [f'{text} in {len(at)}: ' + ', '.join(a.split()[-1] for a in sorted(at)) for text, at in facts.items() if len(at) >= 3]
    groups = defaultdict(set)
    for f in all_functions:
        ps = sorted({f'{n}: {t.strip()}' for n, t in f.parameters()})
        for i in range(len(ps)):
            for j in range(i + 1, len(ps)):
                for k in range(j + 1, len(ps)):
                    groups[(ps[i], ps[j], ps[k])].add(f.where())
    together = defaultdict(set)
    for group, at in groups.items():
        if len(at) >= 3:
            together[frozenset(at)].update(group)
    found += [', '.join(sorted(ps)) + ' travel through ' + ', '.join(sorted(a.split()[-1] for a in at)) for at, ps in together.items()]
    return found


def point_6(files, all_functions):
    found = [f.where() + ' takes a length beside a list' for f in all_functions
             if any(n in ('size', 'count', 'm', 'len') and t.strip() == 'usize' for n, t in f.parameters()) and '&' in f.signature and '[' in f.signature]
    return found + grep(files, r'= \[[^;\]]+; (LONGEST|MOST_WORDS|2 \* \w+|2816)\];')


def point_7(files):
    return grep(files, r'match (self|task|command\.as_str\(\)|word\.as_str\(\)|case\.call|at_stake|words\.first\(\)) \{')


def main(arguments):
    commit = arguments[0] if arguments else None
    files = sources(commit)
    everything = list(functions(files))
    points = [
        ('1, a flag with a value beside it, numbers for kinds or refusals', point_1(files, everything)),
        ('2, functions of one shape', point_2(everything)),
        ('3, loops over an index', point_3(files)),
        ('4, conversion, printing and equality by hand', point_4(files)),
        ('5, facts in three contracts and parameters that travel together', point_5(everything)),
        ('6, a length beside a list, parts of longer arrays', point_6(files, everything)),
        ('7, switches', point_7(files)),
    ]
    for name, found in points:
        print(f'point {name}: {len(found)}')
        for place in found:
            print('  ' + place)
    return 0


sys.exit(main(sys.argv[1:]))
