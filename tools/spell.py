#!/usr/bin/env python3
"""Brings the repository's own definitions, lemmas, constructors and fields to today's spelling: words in snake case, facts and types in
camel case, a dash only between two names of definitions. Run once, after port.py, at the top of the repository:

    tools/spell.py            reads the declarations below crates/, writes tools/spelling.tsv (old, tab, new) and respells .antt and .rt files
    tools/spell.py FOLDER..   respells the files below other folders by the tools/spelling.tsv that stands here

It also renames specs/Contracts.antt to specs/Promises.antt, since Rattle makes a module of that name.

A lemma that would get the name of a definition ends in _lem. Names that Rattle makes in proofs stay."""
import os
import re
import sys

HERE = os.path.dirname(os.path.abspath(__file__))
TABLE = os.path.join(HERE, 'spelling.tsv')
WORD = r"[^\s(){}\[\].;,⌜⌝\"|`@]+"
HEAD = r"^( *)((?:abbrev |unfoldable |pub |data |record |ruleset )*)((?:[^\s(){}.;,:]+ )*?[^\s(){}.;,:]+)(?: \{[^{}]*\}| \([^()]*\))* (:|=) (.*)"
KEEP = {'package', 'unfolding', 'let', 'in', 'use', 'where', 'module', 'elim', 'infix', 'infixl', 'infixr'}


def texts(root, ends=('.antt', '.rt')):
    for folder, dirs, files in os.walk(os.path.join(root, 'crates')):
        dirs[:] = sorted(d for d in dirs if d != 'out')
        for f in sorted(files):
            if f.endswith(ends):
                yield os.path.join(folder, f)


def declared(root):
    """The names that specs/ and proofs/ declare, and those among them that are fields."""
    names, fields, others = set(), set(), set()
    for path in texts(root, ('.antt',)):
        for line in open(path, encoding='utf-8'):
            m = re.match(HEAD, line.rstrip('\n'))
            if not m or m.group(4) != ':' or re.search(r'\b(tie|goal)\.|\bstatement\b', m.group(5)):
                continue
            for name in m.group(3).split():
                if name not in KEEP:
                    names.add(name)
                    (fields if m.group(1) and 'pub' in m.group(2) else others).add(name)
    return names, fields, others


def snake(name):
    return re.sub(r'(?<=[a-z0-9₀-₉])([A-Z])', lambda m: '_' + m.group(1).lower(), name)


def respelled(name, words):
    """The name as today's rules have it. A dash stays between two names of definitions."""
    if re.match(r'[A-Z]', name) and '-' in name:
        if name.upper() == name:
            return name.replace('-', '_')
        return ''.join(p[:1].upper() + p[1:] for p in name.split('-'))
    parts = [p if re.match(r'[A-Z]', p) else snake(p) for p in name.split('-')]
    if '' in parts:
        return name
    def known(ps):
        return '_'.join(ps) in words
    out = parts[0]
    for i in range(1, len(parts)):
        left = any(known(parts[a:i]) for a in range(i))
        right = any(known(parts[i:b]) for b in range(i + 1, len(parts) + 1))
        out += ('-' if left and right else '_') + parts[i]
    return out


def table(root):
    names, fields, others = declared(root)
    specs = set()
    for path in texts(root, ('.antt',)):
        if '/specs/' in path:
            for line in open(path, encoding='utf-8'):
                m = re.match(HEAD, line.rstrip('\n'))
                if m and m.group(4) == ':' and not m.group(1):
                    specs |= {snake(n) if re.match('[a-z]', n) else n for n in m.group(3).split()}
    specs |= {'length', 'map', 'take', 'drop', 'sum', 'reverse', 'replicate'}
    specs = {n for n in specs if len(n) > 2 and '-' not in n}
    new, taken = {}, {}
    for name in sorted(names):
        if '◌' in name or name.endswith(('-spec', '_spec')):
            continue
        to = respelled(name, specs)
        if to != name:
            new[name] = to
    for name in others:
        taken.setdefault(new.get(name, name), []).append(name)
    # a definition in camel case keeps the name, and a lemma that would have it too gets _lem
    for to, olds in sorted(taken.items()):
        if len(olds) > 1:
            camel = any('-' not in o and o != to for o in olds)
            for o in olds:
                if '-' in o or o == to and camel:
                    new[o] = to + '_lem'
    ends = [new.get(o, o) for o in others]
    print('names meet:', sorted({to for to in ends if ends.count(to) > 1}))
    return new, fields


def respell(root, new, fields, exts=('.antt', '.rt')):
    n = 0
    for path in list(texts(root, exts)):
        text = open(path, encoding='utf-8').read()
        heads = {a for m, a in re.findall(r'\buse (Rattle\.[\w.+]*[\w]) as ([^\s;]+)', text) if not re.search(r'\.(Tie|Statement|Goals|Given|Code|Symbol|Met|Key|TheLaws)$|\.contracts\.', m)}
        words = set(re.findall(r"(?<![.\w])" + WORD, re.sub(r'(?m)--.*$|Rattle\.[\w.+]*\.(?=\{)|Rattle\.[\w.+]*', '', text)))
        for o in words & set(new):
            if new[o] in words and new[o] not in new and path.endswith('.antt'):
                print('look:', path, o, new[o])
        # a name that the file takes from the library is the library's
        taken = {w for m, ws in re.findall(r'(?m)^(?:pub )?use ([\w.·]+)\.\{([^}]*)\}', text) if m.split('.')[1:2] == ['std'] or m.split('.')[0] != 'Rattle' for w in re.split(r',\s*', ws)}
        def one(m):
            word = m.group(0)
            if word not in new or word in taken or path.endswith('.rt') and '_' in word:
                return word
            before = text[:m.start()]
            if before.endswith('.'):
                head = re.search(r"([^\s(){}\[\];,]+)\.$", before)
                if word not in fields and not (head and head.group(1) in heads):
                    return word
            return new[word]
        out = re.sub(WORD, one, text)
        # Rattle makes a module specs.contracts of its own
        out = re.sub(r'(?<=\.specs\.)Contracts(?![\w-])', 'Promises', out)
        if path.endswith('/specs/Lib.antt'):
            out = re.sub(r'(?m)^pub mod Contracts$', 'pub mod Promises', out)
        if out != text:
            open(path, 'w', encoding='utf-8').write(out)
            n += 1
        if path.endswith('/specs/Contracts.antt'):
            os.rename(path, path[:-len('Contracts.antt')] + 'Promises.antt')
    print(root, n, 'files respelled')


def main():
    if len(sys.argv) < 2:
        root = os.path.dirname(HERE)
        new, fields = table(root)
        with open(TABLE, 'w', encoding='utf-8') as f:
            for o in sorted(new):
                f.write('%s\t%s%s\n' % (o, new[o], '\tfield' if o in fields else ''))
        respell(root, new, fields)
    else:
        rows = [l.rstrip('\n').split('\t') for l in open(TABLE, encoding='utf-8')]
        for root in sys.argv[1:]:
            respell(root, {r[0]: r[1] for r in rows}, {r[0] for r in rows if len(r) > 2})


main()
