#!/usr/bin/env python3
"""Brings the repository's own names in specs/ and proofs/ to one spelling, wherever they are cited.

Run at the top of the repository, after port.py. Words are in snake case, types and modules in upper camel case.
Names that the check makes (goals, steps of a proof), functions of src/, strings and comments stay as they are.
A second run changes nothing.
"""
import glob
import re

ANTT = sorted(glob.glob('crates/*/specs/**/*.antt', recursive=True) + glob.glob('crates/*/proofs/**/*.antt', recursive=True))
RT = sorted(glob.glob('crates/*/src/**/*.rt', recursive=True))
EDITS = sorted(glob.glob('crates/*/must-fail/*.edit'))

DEFINED = re.compile(r"\s*((?:abbrev|unfoldable|pub|infixr?|infixl)\s+)*(?:record\s+|data\s+|ruleset\s+)?([A-Za-z][^\s:(){}\[\].,;λ]*)\s*(?::(?!:)|\(|\{|where)")
TOKEN = re.compile(r'"(?:[^"\\]|\\.)*"|[^\s(){}\[\];,.λ`"]+')


def split_comment(line, marker):
    """the code of a line, and its comment"""
    found = re.search(marker, line)
    return (line, '') if found is None else (line[:found.start()], line[found.start():])


KIT = re.compile(r'\s*(?:ghost )?use (?:Rattle\.(?:std|core)|borrow|lib|mathlib|Prim|denote)\b[\w.]*\.\{(.*)\}')


def own_names():
    """names with a dash that a file of specs/ or proofs/ defines, that are no goals and that no file has from the kit"""
    names, goals, kit = set(), set(), set()
    for path in ANTT + RT:
        for line in open(path, encoding='utf-8'):
            found = KIT.match(line)
            if found is not None:
                kit.update(TOKEN.findall(found.group(1)))
    for path in ANTT:
        for line in open(path, encoding='utf-8'):
            code, _ = split_comment(line, r'(?:^|(?<=\s))--(?=\s|$)')
            found = DEFINED.match(code)
            if found is None or '-' not in found.group(2):
                continue
            (goals if re.search(r':\s*(?:goal|rules|need|needs)\.', code) else names).add(found.group(2))
    return names - goals - kit


def respelled(name):
    """the same name in today's spelling"""
    if name[0].isupper():
        return ''.join(part[:1].upper() + part[1:] for part in name.split('-'))
    return name.replace('-', '_')


def turn(code, names):
    """a piece of code with each own name respelled, but for steps of a proof"""
    def one(found):
        word = found.group(0)
        if word not in names:
            return word
        if re.search(r"(?:^|[^\w.'-])[cw]\.$", code[:found.start()]):
            return word
        return respelled(word)
    return TOKEN.sub(one, code)


def turn_file(path, names, marker):
    old = open(path, encoding='utf-8').read()
    new = []
    for line in old.splitlines(keepends=True):
        code, comment = split_comment(line, marker)
        new.append(turn(code, names) + comment)
    new = ''.join(new)
    if new != old:
        open(path, 'w', encoding='utf-8').write(new)
    return new != old


def main():
    names = own_names()
    files = [(p, r'(?:^|(?<=\s))--(?=\s|$)') for p in ANTT] + [(p, r'//') for p in RT + EDITS]
    print(len(names), 'names,', sum(turn_file(p, names, m) for p, m in files), 'files')


if __name__ == '__main__':
    main()
