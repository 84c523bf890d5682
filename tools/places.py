#!/usr/bin/env python3
"""Lists the places in crates/*/src that an older form of the language may have left, by kind. Usage: tools/places.py [KIND..]

option    own enums; a flag beside a value; arms that pass on an absence or an error by hand; results that say nothing
twins     functions whose bodies differ only in names of types, numbers and texts
loops     `while`, and `for` over a range of numbers, with the line where the number is an index
hand      equality, order, conversion and printing written by hand, by the names of functions
facts     clauses that stand on three functions or more, and parameters that stand together on as many
buffers   arrays of a fixed length, and slices with a number beside them that says how much of them counts
switches  matches on which instance to run, and function pointers or dyn
proofs    lines of answers, and runs of eight lines and more that stand in two files
"""
import collections
import itertools
import re
import subprocess
import sys

HEAD = re.compile(r'\bfn (\w+)(<[^(]*>)?\(([^{]*?)\)(?=\s*(->|requires|ensures|\{|where|;))', re.S)


def files(pattern):
    listed = subprocess.run(['git', 'ls-files', pattern], capture_output=True, text=True, check=True)
    return sorted(listed.stdout.split())


def sources():
    for path in files('crates/*/src/*.rt'):
        yield path, re.sub(r'//[^\n]*', '', open(path).read())


def grep(pattern, but=None):
    for path, text in sources():
        for number, line in enumerate(text.split('\n'), 1):
            if re.search(pattern, line) and not (but and re.search(but, line)):
                yield f'{path}:{number}: {line.strip()}'


def functions():
    """Path, name, parameters, clauses and body of each function."""
    for path, text in sources():
        for found in HEAD.finditer(text):
            rest = text[found.end():]
            opened = re.search(r'(\n\s*\{|\s\{)\n|;\n', rest)
            clauses = rest[:opened.start()] if opened else ''
            body = ''
            if opened and '{' in opened.group(0):
                depth = 1
                for i, c in enumerate(rest[opened.end():]):
                    depth += {'{': 1, '}': -1}.get(c, 0)
                    if depth == 0:
                        body = rest[opened.end():opened.end() + i]
                        break
            yield path, found.group(1), found.group(3), clauses, body


def option():
    yield from grep(r'^\s*(pub(\([a-z]+\))? )?enum ')
    yield from grep(r'\(([A-Za-z0-9]+, )*bool(, [A-Za-z0-9]+)*\)( \{|$)|: bool,$')
    yield from grep(r'^\s*(None|Err\(_\)) => (None|false|0|Err|return)')
    yield from grep(r'fn \w+(<[^(]*>)?\(\) -> u8$')


def shape(body):
    body = re.sub(r'"[^"]*"|b\'.\'|0x[0-9a-fA-F_]+|\b[0-9][0-9_]*\b', '#', body)
    body = re.sub(r'\b[A-Z]\w*\b|\b[ui](8|16|32|64|size)\b', 'T', body)
    return ' '.join(body.split())


def twins():
    groups = collections.defaultdict(list)
    for path, name, _, _, body in functions():
        if body.strip() and body.strip() != '0':
            groups[shape(body)].append(f'{path}: {name}')
    for body, places in groups.items():
        if len(places) > 1 and len(body) > 12:
            yield f'{len(places)} of one shape: ' + '; '.join(places)


def loops():
    yield from grep(r'\bwhile |\bfor [a-z_]+ in .*\.\.')


def hand():
    yield from grep(r'fn (eq|ne|cmp|partial_cmp|clone|fmt|from|try_from|into|text|read|number|digits|is_zero|is_one|'
                    r'to_[a-z_]+|from_[a-z_]+|as_[a-z_]+|load|store|of)\b')


def facts():
    clauses, together = collections.defaultdict(set), collections.defaultdict(set)
    for path, name, parameters, head, _ in functions():
        where = path.split('/')[1] + ':' + name
        for required in re.finditer(r'requires( \w+)? \{(.*)\}\s*$', head, re.M):
            for part in ' '.join(required.group(2).split()).split(' × '):
                clauses[part.strip('() ')].add(where)
        named = []
        for parameter in re.split(r',\s*(?![^<(\[]*[>)\]])', parameters):
            match = re.match(r'\s*(mut )?(\w+)\s*:\s*(.*)', parameter.strip(), re.S)
            if match:
                named.append(match.group(2) + ': ' + ' '.join(match.group(3).split()))
        for pair in itertools.combinations(sorted(named), 2):
            together[' / '.join(pair)].add(where)
    for kind in (clauses, together):
        for what, places in sorted(kind.items()):
            if len(places) >= 3:
                yield f'{len(places)} {what}: ' + ' '.join(sorted(places))


def buffers():
    yield from grep(r'\[[A-Za-z0-9<>]+; ?[A-Z0-9]+\]|\[\[.*\]; ?[0-9]+\]')
    for path, name, parameters, _, _ in functions():
        if re.search(r'&(mut )?\[', parameters) and re.search(r'\b(dim|dimension|n|count|places|at|len|many): usize', parameters):
            yield f'{path}: {name}({" ".join(parameters.split())})'


def switches():
    yield from grep(r'::<(Octet|Word|Nibble)>\(|\bdyn |: fn\(')


def proofs():
    answers = files('crates/*/proofs/*Answers.antt')
    yield f'{len(answers)} files of answers, {sum(len(open(p).read().split(chr(10))) for p in answers)} lines'
    seen, runs = collections.defaultdict(set), collections.defaultdict(int)
    for path in answers:
        lines = [line.strip() for line in open(path).read().split('\n') if line.strip() and not line.startswith('use ')]
        for i in range(len(lines) - 7):
            seen[tuple(lines[i:i + 8])].add(path)
    for block, paths in seen.items():
        for pair in itertools.combinations(sorted(paths), 2):
            runs[pair] += 1
    for (first, second), count in sorted(runs.items()):
        yield f'{count + 7} lines the same: {first} {second}'


KINDS = [option, twins, loops, hand, facts, buffers, switches, proofs]

if __name__ == '__main__':
    for kind in KINDS:
        if len(sys.argv) == 1 or kind.__name__ in sys.argv[1:]:
            places = list(kind())
            print(f'{kind.__name__}: {len(places)}')
            for place in places:
                print('  ' + place)
