#!/usr/bin/env python3
"""Spells the names of this repository's own definitions and lemmas as today's Rattle spells names.

usage: tools/respell.py [--check]     at the top of the repository, once, straight after the kit's port.py

A function, a lemma, a field or a constructor is in snake case: `wildMatch` becomes `wild_match`, `put-then` becomes `put_then`, `rest′`
becomes `rest'`. A type keeps its capital. Where a lemma would get the name of another definition it ends in `_lem`. What turns are the
names that specs/ and the lemma files of proofs/ declare, in .antt files, in the clauses and comments of .rt files, in .edit files, and in
the code spans of the documents. Functions of src/, exported names, strings and outputs keep their names. --check writes nothing and lists
the pairs of names.
"""
import os
import re
import sys

WORD = re.compile(r'[^\s(){}.;,@"«»]+')
DECLARED = re.compile(r'(?m)^( *)(?:(?:abbrev|unfoldable|pub|package|axiom) )*([^\s():{}.;,]+)(?: \{[^{}\n]*\})* :(?= |$)')
TYPED = re.compile(r'(?m)^ *(?:(?:abbrev|unfoldable|pub) )*(?:record|data) ([^\s():{}.;,]+)')
AS = re.compile(r'([^\s{},]+) as ([^\s{},]*·[^\s{},]*)')
USE = re.compile(r'use ([^\s;{]+?)(?:\.\{([^}]*)\})?(?: as \S+)?;?$', re.M)
FUNCTION = re.compile(r'/(?:Proof|Stages|Loops|Answers|Invariants)\.antt$')
SHOWN = ('Marked Unmarked Noselect NoInferiors Remote Subscribed NonExistent All Archive Drafts Flagged Junk Sent Trash HasChildren '
         'HasNoChildren').split()


def files(*endings):
    for top in ('crates', 'docs', '.'):
        for folder, dirs, names in os.walk(top):
            dirs[:] = sorted(d for d in dirs if d not in ('out', 'target', '.git') and top != '.')
            for n in sorted(names):
                if n.endswith(endings):
                    yield os.path.join(folder, n)


def read(path):
    with open(path, encoding='utf-8') as f:
        return f.read()


def snake(part):
    part = part.replace('getD', 'get_or').replace('ᴰ', '').replace('′', "'")
    part = re.sub(r'([a-z0-9₀-₉])([A-Z]+)', lambda m: m[1] + '_' + m[2].lower(), part)
    return re.sub(r'-+', '_', part)


# Names whose new spelling a library of the kit has taken.
TAKEN = {'placeIs': 'place_made', 'endIs': 'end_verdict'}


def spelled(name):
    """The new spelling of a declared name."""
    if name in TAKEN:
        return TAKEN[name]
    if '·' in name:
        return '_'.join(snake(p[:1].lower() + p[1:]) for p in name.split('·'))
    if name[:1].isupper():
        head, dash, rest = name.partition('-')
        return head.replace('′', "'") + dash + snake(rest)
    return snake(name)


def names():
    """Each declared name with its new spelling, and the fields among them."""
    declared, fields, kept, theirs = {}, set(), set(), set()
    own = {n for n in os.listdir('crates')}
    for path in files('.antt'):
        text = read(path)
        for m in USE.finditer(text):
            steps = m[1].split('.')
            if m[2] and not (steps[0] == 'Rattle' and len(steps) > 1 and steps[1] in own):
                theirs |= {item.split(' as ')[0].strip() for item in m[2].split(',')}
        if FUNCTION.search(path):
            continue
        text = re.sub(r'--.*', '', text)
        for m in WORD.finditer(text):
            if text[m.end():m.end() + 1] != '.' and text[m.start() - 1:m.start()] != '.':
                kept.add(m[0])
        for m in DECLARED.finditer(text):
            declared.setdefault(m[2], '/specs/' in path)
            declared[m[2]] |= '/specs/' in path
            if m[1]:
                fields.add(m[2])
        for m in AS.finditer(text):
            declared.setdefault(m[2], False)
    table = {}
    for name in declared:
        new = spelled(name)
        if new != name and name not in theirs:
            table[name] = new
    # a definition of specs/ has the first right to a name, then what is spelled with capitals, then a lemma
    lemmas = {n for n in declared if n not in table and not declared[n]}
    taken = {n for n in kept if n not in table}
    for name in sorted(list(table), key=lambda n: (not declared[n], '-' in n, n)):
        new = table[name]
        if new in lemmas and (declared[name] or '-' not in name):
            lemmas.discard(new)
            table[new] = new + '_lem'
            taken.add(new + '_lem')
        else:
            while new in taken:
                new += '_lem'
        table[name] = new
        taken.add(new)
    return table, {n for n in fields if n in table}


def in_antt(text, table, fields, function):
    def turn(m):
        word, at = m[0], m.start()
        if word not in table:
            return word.replace('′', "'")
        if function and at and text[at - 1] == '.' and '-' in word and word not in fields:
            return word
        return table[word]
    text = WORD.sub(turn, text)
    # the sixteen attributes are fields
    some = '|'.join(SHOWN)
    text = re.sub(r'(?m)(?<=[\w\')]\.)(%s)(?![\w-])(?!.*\}$)' % some, lambda m: spelled_field(m[1]), text)
    text = re.sub(r'(?m)^(  pub )(%s)(?= : Bool)' % some, lambda m: m[1] + spelled_field(m[2]), text)
    return re.sub(r'(?<![\w\'.-])(%s)(?= = )' % some, lambda m: spelled_field(m[1]), text)


def spelled_field(name):
    return re.sub(r'(?<=[a-z])[A-Z]', lambda m: '_' + m[0], name).lower()


def in_rust(text, table):
    pieces = re.split(r'("(?:[^"\\\n]|\\.)*")', text)
    for i in range(0, len(pieces), 2):
        pieces[i] = WORD.sub(lambda m: table.get(m[0], m[0].replace('′', "'")), pieces[i])
        pieces[i] = re.sub(r'`([^`\n]+)`', lambda m: '`' + WORD.sub(lambda w: table.get(w[0], w[0]), m[1]) + '`', pieces[i])
    return ''.join(pieces)


def in_document(text, table):
    def span(m):
        return m[1] + WORD.sub(lambda w: table.get(w[0], w[0]), m[2]) + m[1]
    return re.sub(r'(?<!`)(`)([^`\n]+)`', span, text)


def main(argv):
    table, fields = names()
    if argv == ['--check']:
        for name in sorted(table):
            print(name, table[name], sep='\t')
        return 0
    if argv:
        print(__doc__)
        return 2
    changed = 0
    for path in files('.antt', '.rt', '.edit', '.md'):
        old = read(path)
        if path.endswith('.antt'):
            new = in_antt(old, table, fields, bool(FUNCTION.search(path)))
        elif path.endswith('.md'):
            new = in_document(old, table)
        elif path.endswith('.rt') or '\nfile: src/' in '\n' + old:
            new = in_rust(old, table)
        else:
            new = in_antt(old, table, fields, False)
        if new != old:
            changed += 1
            with open(path, 'w', encoding='utf-8') as f:
                f.write(new)
    print('respell: %d names, %d files' % (len(table), changed))
    return 0


if __name__ == '__main__':
    raise SystemExit(main(sys.argv[1:]))
