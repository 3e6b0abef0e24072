#!/usr/bin/env python3
"""Lists the functions of src/ that have one shape: their code is the same but for names, types and numbers.

python3 tools/twins.py [WORDS]    functions of at least WORDS words of code (12 if none is given)"""
import re
import sys
from pathlib import Path

KEYWORDS = set('fn let mut match if else for in while loop return break continue self Self as pub impl true false Some None Ok Err ref move unreachable'.split())
TOKEN = re.compile(r'b?"(?:[^"\\]|\\.)*"|b?\'(?:[^\'\\]|\\.)\'|[A-Za-z_][A-Za-z_0-9]*|\d[\d_]*|[^\sA-Za-z_0-9]')


def functions(text):
    """The name and the body of each function of a file."""
    text = re.sub(r'//[^\n]*', '', text)
    for head in re.finditer(r'\bfn ([a-z_0-9]+)', text):
        at = head.end()
        clause = 0
        while at < len(text):
            rest = text[at:]
            if re.match(r'(requires|ensures)\b[^{\n]*\{', rest) or rest.startswith('ghost '):
                at += rest.index('{') + 1
                clause = 1
                while clause:
                    clause += {'{': 1, '}': -1}.get(text[at], 0)
                    at += 1
                continue
            if rest[0] in '{;':
                break
            at += 1
        if at == len(text) or text[at] == ';':
            continue
        start, depth = at, 0
        while True:
            depth += {'{': 1, '}': -1}.get(text[at], 0)
            at += 1
            if depth == 0:
                break
        yield head.group(1), text[start:at]


def shape(body):
    names = {}
    out = []
    for token in TOKEN.findall(body):
        if re.match(r'\d|b?"|b?\'', token):
            out.append('0')
        elif token in KEYWORDS or not re.match(r'[A-Za-z_]', token):
            out.append(token)
        else:
            out.append('n%d' % names.setdefault(token, len(names)))
    return out


def main():
    least = int(sys.argv[1]) if len(sys.argv) > 1 else 12
    groups = {}
    for path in sorted(Path('crates').glob('*/src/**/*.rt')):
        for name, body in functions(path.read_text()):
            words = shape(body)
            if len(words) >= least:
                groups.setdefault(' '.join(words), []).append('%s %s' % (path, name))
    twins = sorted(group for group in groups.values() if len(group) > 1)
    for group in twins:
        print(len(group), '; '.join(group))
    print('%d groups, %d functions' % (len(twins), sum(map(len, twins))))


main()
