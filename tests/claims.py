#!/usr/bin/env python3
"""Holds docs/CLAIMS.md to the files: each wrong program, file and function that it names is there, its table of public functions lists the
wrong programs that there are, each public function has two wrong programs or more, none of them stands twice, their places are there, and each public law that no other file
cites is a claim. With --write, that table is written again."""
import glob
import os
import re
import sys
from collections import Counter

from edits import Program, programs

PATH = 'docs/CLAIMS.md'
HEAD = '| Crate | Must-fail edits | `tests/wrong/`, with how many |\n|---|---|---|\n'


def crates():
    with open('crates.txt', encoding='utf-8') as lines:
        return [line.split(':')[0].split()[0] for line in lines if ':' in line.partition('#')[0]]


def edits_of(crate):
    """The names of the wrong programs that the gate tries of a crate."""
    return sorted(program.name for path in glob.glob(f'crates/{crate}/must-fail/*.edit') for program in programs(path))


def wrong_programs(crate):
    """How many wrong programs each function of a crate has."""
    path = f'tests/wrong/{crate}.txt'
    if not os.path.exists(path):
        return Counter()
    with open(path, encoding='utf-8') as lines:
        return Counter(line[2:].split(': ')[0] for line in lines if line.startswith('# '))


# The head of an `impl`: the trait, if it is one of a trait, and the type.
IMPL = re.compile(r'^impl(?:<[^>]*>)? (?:(\w+).* for )?(\w+|\[.*\])')


def public_functions(crate):
    """The public functions of a library, those of a type with its name in front. Those of a trait are as public as the type."""
    for path in glob.glob(f'crates/{crate}/src/*.rt'):
        text = text_of(path)
        private = re.findall(r'^(?:struct|enum) (\w+)', text, re.M)
        trait = kind = ''
        for line in text.splitlines():
            head = IMPL.match(line)
            if head:
                trait, kind = head[1], head[2]
            elif not line.startswith((' ', '}')) and line:
                trait = kind = ''
            name = re.match(r'( *)(pub )?(?:extern "C" )?fn (\w+)', line)
            if name and (name[2] or trait and kind not in private):
                of = f'<{kind}>' if kind.startswith('[') else kind
                yield f'{of}::{name[3]}' if name[1] else name[3]


def rows():
    for crate in crates():
        edits = edits_of(crate)
        wrong = wrong_programs(crate)
        if edits or wrong:
            yield f"| `{crate}` | {', '.join(f'`{e}`' for e in edits)} | {', '.join(f'`{f}` {n}' for f, n in wrong.items())} |\n"


def edits():
    """Each wrong program: where it stands, its crate, and its changes, each with the file, the text to be changed and the other text."""
    for path in sorted(glob.glob('crates/*/must-fail/*.edit') + glob.glob('tests/wrong/*.txt')):
        crate = os.path.basename(path)[:-4] if path.startswith('tests/') else path.split('/')[1]
        with open(path, encoding='utf-8') as file:
            texts = re.split(r'^(?=# )', file.read(), flags=re.M)
        for text in filter(None, texts):
            label = text.split('\n')[0][2:]
            yield f'{path}, {label!r}', crate, Program(label, text).changes


def text_of(path):
    with open(path, encoding='utf-8') as file:
        return file.read()


def stale_edits():
    """The wrong programs whose text to be changed does not stand in its file, or stands there more than once."""
    for place, crate, changes in edits():
        for name, old, _ in changes:
            if not os.path.exists(f'crates/{crate}/{name}'):
                yield f'{place}: no file {name}'
                continue
            count = text_of(f'crates/{crate}/{name}').count(old)
            if count != 1:
                yield f'{place}: {old!r} stands {count} times'


def copied_edits():
    """The wrong programs that stand somewhere else too: their files have the same text once changed, proofs aside."""
    places = {}
    for place, crate, changes in edits():
        program = {}
        for name, old, other in changes:
            if not name.startswith('proofs/'):
                path = f'crates/{crate}/{name}'
                program[path] = program.get(path, text_of(path)).replace(old, other)
        program = frozenset(program.items())
        if program in places:
            yield f'{place} is {places[program]} again'
        places[program] = place


def lost_places():
    """The places of wrong programs that no proof has: neither a law of that name in a file of laws, nor the function, whose goals mostly need no answer."""
    for path in sorted(glob.glob('crates/*/must-fail/*.edit')):
        crate = path.split('/')[1]
        for program in programs(path):
            for place in program.places:
                where, _, name = place.partition(' ')
                laws = f'crates/{crate}/proofs/{where}.antt'
                told = (re.search(rf'^ *(?:pub )?{re.escape(name)} :', text_of(laws), re.M) if os.path.exists(laws)
                        else re.search(rf'\bfn {where.split("/")[-1]}\b', source(f'crates/{crate}/src')))
                if not told:
                    yield f'{path}, {program.name}: no place {place}'


def names_in(text):
    """The names in a text of definitions, without its comments, and those at the ends of its paths."""
    return set(re.findall(r'[^\s(){};,.`]+', re.sub(r'--.*', '', text).replace('::', ' ')))


def unclaimed_laws(claimed):
    """The public laws that no other file cites, no public signature beside them has and docs/CLAIMS.md does not name."""
    texts = {}
    for path in files('crates'):
        texts[path] = text_of(path)
    cited = Counter(name for text in texts.values() for name in names_in(text))
    for path in sorted(glob.glob('crates/*/proofs/*.antt')):
        for indent, name in re.findall(r'^( *)(?:unfoldable |abbrev )?pub (\S+) :', texts[path], re.M):
            defined = re.search(rf'^{indent}{re.escape(name)}(?: .*)?=', texts[path], re.M)
            signed = any(name in names_in(sign) for _, sign in re.findall(r'^( *)(?:unfoldable |abbrev )?pub \S+ (.*\n(?:\1 .*\n)*)', texts[path], re.M))
            if defined and cited[name] == 1 and name not in claimed and not signed:
                yield f'{path}: no other file cites {name}, and no claim names it'


def files(folder):
    """The files of code and of proofs below a folder. What is built has copies of them, which tell nothing."""
    return [path for path in glob.glob(f'{folder}/**/*', recursive=True) if path.endswith(('.rt', '.antt')) and '/out/' not in path]


def source(folder):
    return ''.join(map(text_of, files(folder)))


def main():
    with open(PATH, encoding='utf-8') as file:
        text = file.read()
    at = text.index(HEAD) + len(HEAD)
    if '--write' in sys.argv:
        with open(PATH, 'w', encoding='utf-8') as file:
            file.write(text[:at] + ''.join(rows()))
        return []
    faults = [] if text[at:] == ''.join(rows()) else ['the table of public functions is not that of the files (tests/claims.py --write)']
    faults += stale_edits()
    faults += copied_edits()
    faults += lost_places()
    faults += unclaimed_laws(names_in(text))
    names = set(crates())
    definitions = source('crates')
    functions = {f for crate in crates() for f in public_functions(crate)}
    for crate in crates():
        faults += [f'{crate}, {f}: fewer than two wrong programs' for f in public_functions(crate) if wrong_programs(crate)[f] < 2]
    for row in text[:at].splitlines():
        for word in re.findall(r'`([^`]+)`', row):
            edit = re.fullmatch(r'([a-z_]+)/must-fail: ([a-z0-9_, ]+)', word)
            if edit:
                faults += [f'no wrong program {name} in crates/{edit[1]}/must-fail' for name in edit[2].split(', ') if name not in edits_of(edit[1])]
            elif re.fullmatch(r'[a-z_]+/(specs|proofs|src|must-fail)/.*', word) and not os.path.exists(f'crates/{word}'):
                faults.append(f'no file {word}')
            call = re.fullmatch(r'([a-z_]+)::(?:[a-z_]+::)?([a-z_]+)', word)
            if call and call[1] in names and not re.search(rf'\bfn {call[2]}\b', source(f'crates/{call[1]}/src')):
                faults.append(f'no function {word}')
            method = re.fullmatch(r'(?:[a-z_]+::)?((?:[A-Z]\w*|u\d+)::[a-z_]+)', word)
            if method and method[1] not in functions:
                faults.append(f'no function {word}')
            if word.startswith('impl ') and f'\n{word} {{\n' not in definitions:
                faults.append(f'no {word}')
    for word in sorted(set(re.findall(r'`([a-zA-Z][a-zA-Z0-9-]*)`', text[:at]))):
        if not re.search(rf'(?<![\w-]){re.escape(word)}(?![\w-])', definitions) and word not in names:
            faults.append(f'no name {word}')
    return faults


if __name__ == '__main__':
    found = main()
    for fault in found:
        print(f'{PATH}: {fault}')
    sys.exit(1 if found else 0)
