"""Holds the must-fail edits to their places. An edit file has one wrong program or more, each with a line `# NAME: WHAT IS WRONG`, its changes, and lines
`at: PROOF NAME`: the folder of the function's proof (or the file of laws) and the goal (or the law) there that has to be refused. Every place has to be refused by
the prover, by itself and because a fact does not hold, and not because the proof file does not fit the code. The place of a change in a function is in
that function, and no two wrong programs of a file have a place in common, so that each is refused for itself.

`rt ci` and `rt must-fail` tell the first refusal of an edit alone, so each edit is checked here once more, on a copy of its crate and over the libraries that are proved
below it: what its places rest on, and no more. What the prover said is kept by the check sum of all that it read, below EDITS_LOGS or target/edits.
With names of crates, their edits alone."""
import contextlib
import glob
import hashlib
import os
import re
import shutil
import subprocess
import sys
import tempfile
from concurrent.futures import ThreadPoolExecutor

sys.dont_write_bytecode = True
sys.path.insert(0, os.path.join(os.path.dirname(os.path.dirname(os.path.abspath(__file__))), 'tools'))
import kit  # noqa: E402

# What the prover says of a proof file that is written for other code: a goal, a field or a name that is not there, a place that an argument no longer determines,
# a loop's invariant or measure that is not even of its type.
UNFIT = re.compile(r'has no field|is not in scope(?! here, so what is shown)|has no `|the goal is not yet determined|/Invariants\.antt:')
# An error that only follows from another one.
FOLLOWS = re.compile(r'was not admitted|which was rejected, (?:was|were) not checked')
PLACE = re.compile(r'(?:^|/)proofs/(\S+?)(?:/(?:Answers|Invariants|Proof))?\.antt:\d+:\d+: error: `([^`]+)`')
# A goal that no answer of a file is for, which the prover searches for by itself.
SEARCHED = re.compile(r'^note: (?:\S*/)?src/(\S+)\.rt:(\d+):\d+: it is not proved that .*?\(`([^`]+)`\)')
# The end of a check, and whether it refused anything.
VERDICT = re.compile(r'^(?:only=(\d+) proved=(\d+)|logic=(proved|not-proved))', re.M)
LOGS = os.environ.get('EDITS_LOGS', os.path.join(kit.TOP, 'target/edits'))


class Program:
    """A wrong program of an edit file: its name, its changes (file, old text, new text) and the places where it has to be refused."""

    def __init__(self, name, text):
        self.name = name
        self.changes = []
        self.places = []
        file = old = None
        for word, rest in re.findall(r'^(file|old|new|at):(?: (.*))?$', text, re.M):
            if word == 'file':
                file = rest
            elif word == 'old':
                old = rest
            elif word == 'new':
                self.changes.append((file, old, rest))
            else:
                self.places.append(' '.join(rest.split()))


def programs(path):
    """The wrong programs of an edit file. One without a name has that of its file."""
    with open(path, encoding='utf-8') as file:
        text = file.read()
    for part in filter(str.strip, re.split(r'^(?=# )', text, flags=re.M)):
        name = re.match(r'# ([a-z][a-z0-9_]*): ', part)
        yield Program(name[1] if name else path.split('/')[-1].rsplit('.', 1)[0], part)


def word_of(kind):
    """A type in one word, as the folders of proofs have it: `u8` is `U8`, and an array is one of what it is of and how many."""
    return 'Array' * kind.startswith('[') + ''.join(word[:1].upper() + word[1:] for word in re.findall(r'\w+', kind))


def impl_of(text):
    """The folder of the functions of an `impl` that begins with this line: the type's name, or for one of a trait the type, the trait and its argument in one word."""
    start = re.match(r'impl(?:<[^>]*>)? (?:(\w+)(?:<(.*)>)? for )?(\w+|\[.*\])', text)
    if not start or not start[1]:
        return start and start[3]
    return word_of(start[3]) + word_of(start[1]) + word_of(start[2] or '')


def function_at(crate, module, line):
    """The function that has the line of a source file, or the attributes that stand there, as the folder of its proof."""
    kind = name = None
    with open(f'crates/{crate}/src/{module}.rt', encoding='utf-8') as lines:
        texts = lines.read().splitlines()
    while line < len(texts) and re.match(r' *(#\[|//)', texts[line - 1]):
        line += 1
    for text in texts[:line]:
        start = re.match(r'( *)(?:pub(?:\(crate\))? )?(?:const )?(?:unsafe )?(?:extern "C" )?fn (\w+)', text)
        if start:
            name = f'{kind}/{start[2]}' if start[1] else start[2]
        elif re.match(r'[a-z]', text):
            name = None
            kind = impl_of(text)
    return name and (name if module in ('lib', 'main') else f'{module}/{name}')


def strays(crate, program):
    """The changes of functions that have no place among those of the wrong program."""
    folders = {place.split()[0] for place in program.places}
    for name, old, _ in program.changes:
        if name.startswith('src/'):
            with open(f'crates/{crate}/{name}', encoding='utf-8') as file:
                before, found, _ = file.read().partition(old)
            function = function_at(crate, name[4:-3], before.count('\n') + 1) if found else None
            if function and function not in folders:
                yield function


def refusals(crate, lines):
    """Each refusal of a log that follows from no other one: its place, and what the prover says of it. What goes on behind an error begins with two blanks."""
    for at, line in enumerate(lines):
        error = re.search(r'(?:^|: )error\b', line)
        searched = SEARCHED.match(line)
        if not error and not searched:
            continue
        end = at + 1
        while end < len(lines) and lines[end].startswith('  '):
            end += 1
        said = ' '.join(lines[at:end])
        if FOLLOWS.search(said):
            continue
        place = PLACE.search(line)
        if place:
            yield f'{place[1]} {place[2]}', said
        elif searched:
            yield f'{function_at(crate, searched[1], int(searched[2]))} {searched[3]}', said
        else:
            yield '', said


def sum_of(crate, path, said):
    """The check sum of all that the check of an edit reads, and of the words of its call."""
    files = [path] + [one for part in ('src', 'specs', 'proofs') for one in glob.glob(f'crates/{crate}/{part}/**/*', recursive=True)]
    files += [os.path.join(kit.library(one), 'format') for one in kit.below(crate, kit.needs()[0])]
    whole = hashlib.sha256(repr(said).encode())
    with open(os.path.join(kit.home(), 'KIT-ID'), 'rb') as name:
        whole.update(name.read())
    for one in sorted(filter(os.path.isfile, files)):
        with open(one, 'rb') as file:
            whole.update(repr((os.path.basename(one) if one == path else os.path.relpath(one), file.read())).encode())
    return whole.hexdigest()


def edited(crate, path, to):
    """Changes the copy of a crate as the edit file says. It raises ValueError where a file is not there, or a text to be changed does not stand there once."""
    for program in programs(path):
        for name, old, new in program.changes:
            if not os.path.isfile(os.path.join(to, name)):
                raise ValueError(f'{program.name}: there is no file {name}')
            with open(os.path.join(to, name), encoding='utf-8') as file:
                text = file.read()
            if text.count(old) != 1:
                raise ValueError(f'{program.name}: {old!r} stands {text.count(old)} times in {name}')
            with open(os.path.join(to, name), 'w', encoding='utf-8') as file:
                file.write(text.replace(old, new))


def log_of(path):
    """What the prover says of a crate with the changes of an edit file."""
    crate, label = path.split('/')[1], os.path.basename(path)[:-5]
    home, said = kit.words(crate)
    places = {place.split()[0] for program in programs(path) for place in program.places}
    # A place in a file of laws may be of any function's, so that all are checked,
    functions = {place for place in places if not os.path.isfile(f'crates/{crate}/proofs/{place}.antt')}
    # and so may one of functions that call one another, whose folder has another name.
    alone = functions == places and not any(place.startswith('+') for place in places)
    asked = [word for place in sorted(functions) for word in ('--only', place.replace('/', '::'))] if alone else []
    kept = os.path.join(LOGS, f'{crate}-{label}-{sum_of(crate, path, (said, asked))[:32]}.log')
    with contextlib.suppress(FileNotFoundError):
        with open(kept, encoding='utf-8') as log:
            return log.read()
    with tempfile.TemporaryDirectory() as copy:
        for part in ('src', 'specs', 'proofs'):
            if os.path.isdir(f'crates/{crate}/{part}'):
                shutil.copytree(f'crates/{crate}/{part}', os.path.join(copy, part))
        edited(crate, path, copy)
        done = subprocess.run([f'{home}/bin/rattle', 'check', *said, *asked], cwd=copy, stdin=subprocess.DEVNULL, stdout=subprocess.PIPE, stderr=subprocess.STDOUT,
                              check=False, text=True, errors='replace')
    if done.returncode in (0, 1) and VERDICT.search(done.stdout):
        os.makedirs(LOGS, exist_ok=True)
        with open(f'{kept}.new', 'w', encoding='utf-8') as log:
            log.write(done.stdout)
        os.replace(f'{kept}.new', kept)
    return done.stdout


def is_refused(log):
    """Whether the prover came to a verdict and refused something."""
    ends = VERDICT.findall(log)
    return bool(ends) and (ends[-1][2] == 'not-proved' or ends[-1][0] != ends[-1][1])


def faults_of(path):
    """What is wrong with an edit file, or with what the prover says of it, and how many of its places are goals that only the changed code has."""
    crate = path.split('/')[1]
    try:
        log = log_of(path)
    except (ValueError, kit.Missing) as error:
        return [f'it was not tried: {error}'], 0
    lines = log.splitlines()
    if not is_refused(log):
        return [f'the prover did not refuse it: {lines[-1] if lines else ""}'], 0
    found, said = [], {}
    for place, text in refusals(crate, lines):
        said.setdefault(place, text)
    facts = [place for place, text in said.items() if not UNFIT.search(text)]
    # The functions with an answer for a goal that the changed code has no more: there another goal stands in its place, with no answer.
    moved = {place.split()[0] for place, text in said.items() if place and UNFIT.search(text)}
    renamed, seen = 0, {}
    for program in programs(path):
        if not program.places:
            found.append(f"{program.name}: it names no place; refused are: {', '.join(facts)}")
        for place in program.places:
            if place in seen:
                found.append(f'{program.name}: {place} is the place of {seen[place]} too')
            seen[place] = program.name
            if place not in said:
                found.append(f"{program.name}: {place} is not refused; refused are: {', '.join(facts)}")
            elif UNFIT.search(said[place]):
                found.append(f'{program.name}: at {place} the proof file does not fit the code; refused are: {", ".join(facts)}')
            elif place.split()[0] in moved and said[place].startswith('note: '):
                renamed += 1
        for function in strays(crate, program):
            found.append(f'{program.name}: it changes {function}, and names no place there')
    return found, renamed


def at_once():
    """How many checks are run beside each other: one a processor, and one for each four gigabytes of free memory."""
    with open('/proc/meminfo', encoding='utf-8') as file:
        free = int(re.search(r'MemAvailable: +(\d+)', file.read())[1])
    return max(1, min(len(os.sched_getaffinity(0)), free // 4_000_000))


def renew(crates):
    """Has rt prove what other commands left of the libraries below these crates, where it is old."""
    named = kit.needs()[0]
    for one in {one: None for crate in crates for one in kit.below(crate, named)}:
        subprocess.run(['rt', 'lib'], cwd=f'crates/{one}', check=True, stdin=subprocess.DEVNULL, stdout=subprocess.DEVNULL)


def main(words):
    paths = sorted(path for path in glob.glob('crates/*/must-fail/*.edit') if not words or path.split('/')[1] in words)
    if kit.is_kept():
        renew(path.split('/')[1] for path in paths)
    with ThreadPoolExecutor(at_once()) as pool:
        told = list(pool.map(faults_of, paths))
    found = [f'{path}: {fault}' for path, (faults, _) in zip(paths, told) for fault in faults]
    renamed = sum(count for _, count in told)
    print('\n'.join(found) or f'{sum(1 for path in paths for _ in programs(path))} wrong programs in {len(paths)} edits are refused at their places'
          + f', {renamed} of them at a goal that their change names anew, so that no answer stands for it' * bool(renamed))
    return 1 if found or not paths else 0


if __name__ == '__main__':
    sys.exit(main(sys.argv[1:]))
