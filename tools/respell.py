#!/usr/bin/env python3
"""Spells the repository's own names as this Rattle does: definitions and lemmas in snake case. It is run once, behind the kit's port.py, at the top.
A hump becomes an underscore. A dash stays where it joins two names that are declared, as the library's lemmas have it, and else becomes an underscore;
it also stays where the name would be one that is there already. Functions of src/, exported C names and texts in quotes keep their names: of a source file
only the clauses and ghost items are turned, of comments and pages only what stands in `..`.
The crate `hex`, whose name is one of the kit's libraries, becomes `hexadecimal`.
With --names, it prints the names that would change, and changes nothing."""
import glob
import os
import re
import sys

# What the protocol calls its operations and statistics: in comments and pages these are not our names.
PROTOCOL = {
    'putIfAbsent', 'replaceIfUnmodified', 'removeIfUnmodified', 'containsKey', 'getWithVersion', 'bulkGet', 'bulkGetKeys', 'timeSinceStart',
    'currentNumberOfEntries', 'totalNumberOfEntries', 'stores', 'retrievals', 'hits', 'misses', 'removeHits', 'removeMisses', 'maxIdle', 'hotRod',
}
WORD = r"(?<![\w'·-])[a-z][\w'-]*"
HUMP = re.compile(r'(?<=[a-z0-9])[A-Z]')
DECLARED = re.compile(r'^ *(?:(?:abbrev|unfoldable|pub|record|data) )*([^\s(){}.;,@"«»:]+)(?: *[({][^\n]*?)* :(?=\s)', re.M)
FUNCTION = re.compile(r'/proofs/.*/[^/]+\.antt$')
TEXTS = re.compile(r'"(?:[^"\\\n]|\\.)*"')


def files(*patterns):
    found = (path for pattern in patterns for path in glob.glob(pattern, recursive=True))
    return sorted(path for path in found if os.path.isfile(path) and '/out/' not in path and '/target/' not in path)


def read(path):
    with open(path, encoding='utf-8') as file:
        return file.read()


def parts(text, comment):
    """A file as (kind, text): code, quoted, comment."""
    at = 0
    for one in re.finditer(rf'{TEXTS.pattern}|{comment}[^\n]*', text):
        yield 'code', text[at:one.start()]
        yield 'quoted' if one[0][0] == '"' else 'comment', one[0]
        at = one.end()
    yield 'code', text[at:]


def code(path):
    return ''.join(text if kind == 'code' else ' ' for kind, text in parts(read(path), '--' if path.endswith('.antt') else '//'))


def lowered(name):
    return HUMP.sub(lambda one: '_' + one[0].lower(), name.replace('getD', 'get_or'))


def renamed():
    """The names that change, with their new spelling."""
    antt = files('crates/*/specs/**/*.antt', 'crates/*/proofs/**/*.antt')
    texts = {path: code(path) for path in antt}
    words = {word for text in texts.values() for word in re.findall(WORD, text)}
    declared = {name for path, text in texts.items() if not FUNCTION.search(path) for name in DECLARED.findall(text)}
    declared |= {name for path, text in texts.items() for name in re.findall(r'\buse \S+ as (\S+)', text)}
    humps = {word: lowered(word) for word in words if HUMP.search(word) and '-' not in word}
    # a lemma that would have its function's name
    names = humps | {new: new + '_lem' for new in humps.values() if new in declared}
    taken = {names.get(word, word) for word in words}
    for name in sorted(name for name in declared if '-' in name and name[0].islower()):
        pieces = [lowered(piece) for piece in name.split('-')]
        new = pieces[0]
        for left, right in zip(pieces, pieces[1:]):
            is_joint = left in known_names(declared, humps) and right in known_names(declared, humps)
            new += ('-' if is_joint else '_') + right
        if new != name and new in taken:
            new = '-'.join(pieces)
        if new != name:
            names[name] = new
            taken.add(new)
    return names


def known_names(declared, humps, kept={}):
    """The names that are declared and have no dash."""
    if not kept:
        kept.update({humps.get(name, name): True for name in declared if '-' not in name})
    return kept


def turned(text, names, keep=()):
    """The text with its names turned. A name of `names` with a dot in front says what stands for it behind a dot."""
    def new(one):
        name, dotted = one[0], '.' + one[0]
        if name in keep:
            return name
        return names[dotted] if dotted in names and text[one.start() - 1:one.start()] == '.' else names.get(name, name)

    return re.sub(WORD, new, text)


def labels(crate, kept={}):
    """What Rattle's names for the steps of a crate's functions are made of: the words of its source."""
    if crate not in kept:
        words = {word for path in files(f'crates/{crate}/src/**/*.rt') for word in re.findall(r'[a-z_]\w*', read(path))}
        kept[crate] = words | {word.replace('_', '-') for word in words}
    return kept[crate]


def in_ticks(text, names):
    """What stands in `..` and is no name of the protocol."""
    return re.sub(r'`[^`\n]+`', lambda one: turned(one[0], names, PROTOCOL), text)


def antt(path, names):
    """A file of definitions or laws. In a function's proof the names that Rattle makes are left: those it declares, and those behind a dot that have a dash."""
    text = read(path)
    if FUNCTION.search(path):
        made = set(re.findall(r'^(\S+) :', text, re.M)) | {f'.{name}' for name in labels(path.split('/')[1])}
        names = {name: new for name, new in names.items() if name not in made}
        names |= {f'.{name}': name for name in names if f'.{name}' in made}
    say = {'code': turned, 'comment': in_ticks, 'quoted': lambda one, _: one}
    return ''.join(say[kind](one, names) for kind, one in parts(text, '--'))


def source(path, names):
    """A source file: clauses, ghost items, and what stands in `..` in its comments. Rust's own names have no hump and no dash."""
    say = {'code': turned, 'comment': in_ticks, 'quoted': lambda one, _: one}
    only = {name: new for name, new in names.items() if HUMP.search(name)}
    return ''.join(say[kind](one, names if kind == 'comment' else dashed(one, names, only)[0] and only) if kind != 'code' else dashed(one, names, only)[1]
                   for kind, one in parts(read(path), '//'))


def dashed(text, names, only):
    """In code a dash is also a minus: names with one are turned in ghost items alone."""
    lines = [turned(line, names if re.match(r' *(?:pub )?ghost ', line) else only) for line in text.split('\n')]
    return True, '\n'.join(lines)


def edit(path, names):
    """An edit: its texts are of a source file or of definitions, and its places of a proof."""
    lines = read(path).split('\n')
    of = ''
    for at, line in enumerate(lines):
        word, _, rest = line.partition(': ')
        of = rest if word == 'file' else of
        if word in ('old', 'new') and of.endswith('.antt'):
            lines[at] = turned(line, names)
        elif word in ('old', 'new'):
            lines[at] = turned(line, {name: new for name, new in names.items() if HUMP.search(name)})
        elif word == 'at' and re.match(r'at: [A-Z]\S* ', line):
            lines[at] = turned(line, names)
        elif line.startswith('#'):
            lines[at] = in_ticks(line, names)
    return '\n'.join(lines)


def main():
    names = renamed()
    if '--names' in sys.argv:
        for name, new in sorted(names.items()):
            print(name, new)
        return
    for path in files('crates/*/specs/**/*.antt', 'crates/*/proofs/**/*.antt'):
        write(path, antt(path, names))
    for path in files('crates/*/src/**/*.rt'):
        write(path, source(path, names))
    for path in files('crates/*/must-fail/*.edit', 'tests/wrong/*.txt'):
        write(path, edit(path, names))
    for path in files('README.md', 'docs/*.md', 'crates/**/*.md'):
        write(path, in_ticks(read(path), names))
    rename_crate('hex', 'hexadecimal')


def rename_crate(old, new):
    """Gives a crate another name: its folder, its wrong programs, and where code, definitions, proofs, crates.txt and pages name it."""
    os.rename(f'crates/{old}', f'crates/{new}')
    os.rename(f'tests/wrong/{old}.txt', f'tests/wrong/{new}.txt')
    write('crates.txt', re.sub(rf'\b{old}\b', new, read('crates.txt')))
    for path in files('crates/*/specs/**/*.antt', 'crates/*/proofs/**/*.antt', 'crates/*/src/**/*.rt'):
        write(path, re.sub(rf'\bRattle\.{old}\.|\b{old}::', lambda one: one[0].replace(old, new), read(path)))
    for path in files('README.md', 'docs/*.md'):
        write(path, re.sub(rf'`{old}`|\b{old}::|\b{old}/(?=specs|proofs|src|must-fail)|tests/wrong/{old}\.', lambda one: one[0].replace(old, new), read(path)))


def write(path, text):
    if text != read(path):
        with open(path, 'w', encoding='utf-8') as file:
            file.write(text)


if __name__ == '__main__':
    main()
