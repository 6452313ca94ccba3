"""The toolchain's prover, called over the libraries that `rt` has proved and left below crates/*/out. `rt` itself has no such call: after `rt ci` its other commands
prove each library once more. It is the prover's verdict on a crate that counts, and the libraries below are taken as they stand."""
import glob
import os
import subprocess

TOP = os.path.dirname(os.path.dirname(os.path.abspath(__file__)))


class Missing(Exception):
    """What is not there, in words."""


def home():
    """The folder of the toolchain."""
    try:
        page = subprocess.run(['rt', 'doc'], check=True, capture_output=True, text=True).stdout.strip()
    except OSError:
        raise Missing('the Rattle toolchain (rt) is not there') from None
    return os.path.dirname(page)


def needs(top=TOP):
    """What crates.txt says: the crates that each crate names, those of the toolchain among them, and the names of the static libraries."""
    named, static = {}, set()
    with open(os.path.join(top, 'crates.txt'), encoding='utf-8') as lines:
        for line in lines:
            head, colon, rest = line.partition('#')[0].partition(':')
            if colon:
                named[head.split()[0]] = rest.replace(',', ' ').split()
                static.update(head.split()[:1] if 'staticlib' in head.split() else ())
    return named, static


def below(crate, named):
    """The crates of the repository below a crate, each behind those that it needs."""
    found = []
    for one in named[crate]:
        if one in named:
            found += [it for it in [*below(one, named), one] if it not in found]
    return found


def is_kept(top=TOP):
    """Whether other commands of rt have left libraries of their own here, with a stamp, which may be older than the sources. Those of rt ci have none."""
    return bool(glob.glob(os.path.join(top, 'crates/*/out/rlib/stamp')))


def library(crate, top=TOP):
    return os.path.join(top, 'crates', crate, 'out/rlib', f'{crate}.rlib')


def words(crate, jobs=1, top=TOP):
    """The words with which rt calls the prover for a crate, in the crate's folder or a copy of it."""
    kit, (named, static) = home(), needs(top)
    lacking = [one for one in below(crate, named) if not os.path.isfile(os.path.join(library(one, top), 'format'))]
    if lacking:
        raise Missing(f'{crate}: its libraries {", ".join(lacking)} are not proved here (rt ci)')
    root = 'src/main.rt' if os.path.isfile(os.path.join(top, 'crates', crate, 'src/main.rt')) else 'src/lib.rt'
    said = ['--crate-name', crate, root, '--extern', f'std={kit}/rlibs/std.rlib']
    for one in named[crate]:
        said += ['--extern', f'{one}={library(one, top) if one in named else f"{kit}/rlibs/{one}.rlib"}']
    said += ['-L', f'dependency={kit}/rlibs']
    for one in below(crate, named):
        said += ['-L', f'dependency={os.path.dirname(library(one, top))}']
    said += ['--antt-project', f'{kit}/rattle/logic/antt-project.json', '--logic-built', f'{kit}/logic_built', '--jobs', str(jobs), '--links', f'{crate}=']
    return kit, said + ['--crate-type', 'staticlib'] * (crate in static)
