#!/usr/bin/env python3
"""Respells the repository's own definitions, lemmas and fields, by the table spelling.tsv beside this script: an old name, a tab, the new one.

Words are in snake case; in a lemma's name a dash joins two names, and any other part is added with `_`; a lemma that would have its function's name ends in
`_lem`, a field that states a definition's fact in `_holds`. Whole names turn: in .antt files and in edits of them all names, in .rt files and in edits of them
those in camel case (code has none), in documents those in camel case, and the others in code spans. The proof of a function f is `f_spec`.

The names that the kit's own script has turned in the sources are in spelled.tsv, in the same form: they turn in edits and documents.

usage: respell.py [ROOT]
"""
import os
import re
import sys

HERE = os.path.dirname(os.path.abspath(__file__))
ROOT = sys.argv[1] if len(sys.argv) > 1 else os.path.dirname(HERE)


def rows(name):
    with open(os.path.join(HERE, name), encoding='utf-8') as file:
        return dict(line.rstrip('\n').split('\t') for line in file if '\t' in line)


def camel(table):
    return {old: new for old, new in table.items() if re.search('[A-Z]', old) and '-' not in old}


TABLE = rows('spelling.tsv')
ALL = {**rows('spelled.tsv'), **TABLE}
NAME = re.compile(r'[^\s(){}.;,@"«»`\'|/:]+')
SPAN = re.compile(r'`[^`\n]*`')
# the lemma `same_bits` of floats, whose definition was spelled `sameBits`: the two files that cite it, since a function has that name too
SAME_BITS = ('floats/proofs/Words.antt', 'coefficients/proofs/Bits.antt')


def turn(text, table):
    return NAME.sub(lambda m: table.get(m.group(), m.group()), text)


def turn_comment(text):
    return SPAN.sub(lambda m: turn(m.group(), ALL), turn(text, camel(ALL)))


def tight(text):
    """In an edit: a projection is written tight, and needs no parentheses as an argument. One of a call is left as it is."""
    return re.sub(r'\((\w+(?:\.\w+)*)((?: \.\w+)+)\)', lambda m: m.group(1) + m.group(2).replace(' .', '.'), text)


def turn_antt(text, path):
    lines = []
    table = dict(TABLE, same_bits='same_bits_lem') if path.endswith(SAME_BITS) else TABLE
    for line in text.split('\n'):
        at = 0 if line.lstrip().startswith('--') else line.find(' -- ')
        code, comment = (line, '') if at < 0 else (line[:at], line[at:])
        code = turn(code, table)
        if path.endswith('/Proof.antt'):
            code = re.sub(r'(?<![^\s(])([a-z0-9_]+(?:-[a-z0-9_]+)*)-spec(?= |$)', lambda m: m.group(1).replace('-', '_') + '_spec', code)
        lines.append(code + turn_comment(comment))
    return '\n'.join(lines)


def turn_edit(text):
    file = re.search(r'^file: (.*)$', text, re.M)
    antt = file and file.group(1).endswith('.antt')

    def line_of(line):
        if line.startswith('#'):
            return turn_comment(line)
        if not re.match('(old|new): ', line):
            return line
        if antt:
            return re.sub(r'(?<![\w◌])_([^\w\s{},.]+)_(?![\w◌])', r'◌\1◌', turn(tight(line), {**ALL, 'getD': 'get_or'}))
        return turn(line, camel(ALL))

    return '\n'.join(map(line_of, text.split('\n')))


for top, folders, files in os.walk(ROOT):
    folders[:] = [name for name in folders if name not in ('.git', 'out', 'target', 'tools')]
    for name in files:
        path = os.path.join(top, name)
        kind = os.path.splitext(name)[1]
        if kind not in ('.antt', '.rt', '.edit', '.md'):
            continue
        if kind == '.md' and name.startswith('PORT'):
            continue
        with open(path, encoding='utf-8') as file:
            old = file.read()
        if kind == '.antt':
            new = turn_antt(old, path)
        elif kind == '.rt':
            new = turn(old, camel(TABLE))
        elif kind == '.edit':
            new = turn_edit(old)
        else:
            new = turn_comment(old)
        if new != old:
            with open(path, 'w', encoding='utf-8') as file:
                file.write(new)
