"""Part 8: storing fails since the disk is full, at many byte counts. TABLE stays old and whole, a sentence is said, nothing is left beside it.

A small tmpfs is filled page by page where mounting is permitted; a limit on the size of files gives every byte count.
"""
import os
import resource
import signal
import subprocess

from board_frames import MOST_KEYS, PUT, entry_line, head_line, key_name, request
from board_run import (ABSENT, BOARD, Bench, LONG, REFERENCE, STAND_IN, beside, demand, demand_calm, demand_nothing_beside, demand_sentence,
                       place, read_file, run_part, short, start, write_file)

PAGE = 4096
SMALL = head_line(3) + entry_line(3, b'k', b'old')
LARGE = head_line(900) + b''.join(entry_line(at + 1, key_name(at), b'old' * 60, at) for at in range(MOST_KEYS))
REQUESTS = request(PUT, value=b'new') + request(PUT, key=key_name(7), value=b'new', flags=1)


class Scene:
    """A TABLE in a folder, and what the second program makes of REQUESTS over it."""

    def __init__(self, bench, old, folder):
        self.requests = os.path.join(bench.top, 'requests')
        write_file(self.requests, REQUESTS)
        self.old, self.table = old, os.path.join(folder, 'table')
        path = bench.path(REFERENCE, 'table')
        place(path, old)
        wanted = start(REFERENCE, ['serve', self.requests, path])
        demand_calm(wanted, 'the second program')
        self.replies, self.new = wanted.out, read_file(path)

    def run(self, case, **options):
        """Serves where storing may fail; says whether it was stored."""
        outcome = start(BOARD, ['serve', self.requests, self.table], **options)
        outcome.table, outcome.beside = read_file(self.table), beside(self.table)
        for name in outcome.beside:
            os.unlink(os.path.join(os.path.dirname(self.table), name))
        demand_nothing_beside(outcome, case)
        if outcome.err == b'':
            demand_calm(outcome, case)
            demand((outcome.out, outcome.table) == (self.replies, self.new), case, f'replies {short(outcome.out)}, TABLE {short(outcome.table)}')
            return True
        demand_sentence(outcome, case)
        demand(outcome.table == self.old, case, f'TABLE is {short(outcome.table)}, and was {short(self.old)}')
        # Where the file beside TABLE can't even be made, nothing is served.
        demand(outcome.out in (self.replies, b''), case, f'replies {short(outcome.out)}, wanted {short(self.replies)} or none')
        return False


def limit_size(most):
    """In the child: no file grows above so many bytes, and trying is an error and no signal."""
    def limit():
        signal.signal(signal.SIGXFSZ, signal.SIG_IGN)
        resource.setrlimit(resource.RLIMIT_FSIZE, (most, most))
    return limit


def by_limit(bench):
    """Every byte count of a small table, many of a large one."""
    failed = 0
    for old in (SMALL, ABSENT, LARGE):
        scene = Scene(bench, old, os.path.join(bench.top, 'board'))
        step = 1 if len(scene.new) < 1000 else 97 if LONG else 1999
        for most in [*range(0, len(scene.new), step), len(scene.new) - 1, len(scene.new)]:
            place(scene.table, old)
            case = f'files limited to {most} bytes, a table of {len(scene.new)} to be stored'
            stored = scene.run(case, preexec_fn=limit_size(most), restore_signals=False)
            demand(stored == (most >= len(scene.new)), case, 'stored' if stored else 'not stored')
            failed += not stored
    return failed


def mount(folder, pages, files=100):
    """A file system of so many pages."""
    return subprocess.run(['mount', '-t', 'tmpfs', '-o', f'size={pages * PAGE},nr_inodes={files}', 'board', folder],
                          stderr=subprocess.DEVNULL, check=False).returncode == 0


def by_pages(bench):
    """A file system with room for the old table and so many pages; nothing where mounting is refused."""
    folder = os.path.join(bench.top, 'disk')
    os.mkdir(folder)
    seen = {True: 0, False: 0}
    for old in (SMALL, LARGE, ABSENT):
        held = 0 if old is ABSENT else -(-len(old) // PAGE)
        scene = Scene(bench, old, folder)
        needed = -(-len(scene.new) // PAGE)
        for free in range(needed + 2):
            if held + free == 0:
                continue  # a size of 0 means no limit
            if not mount(folder, held + free):
                return None
            try:
                place(scene.table, old)
                case = f'a disk with {free} free pages, {needed} needed'
                stored = scene.run(case)
                demand(stored == (free >= needed), case, 'stored' if stored else 'not stored')
                seen[stored] += 1
            finally:
                subprocess.run(['umount', folder], check=True)
    seen[False] += no_file_left(bench, folder)
    return seen


def no_file_left(bench, folder):
    """A file system with pages and without room for one more file: the file beside TABLE can't be made, so nothing is served."""
    scene = Scene(bench, SMALL, folder)
    if STAND_IN or not mount(folder, 10, 3):
        return 0
    try:
        place(scene.table, SMALL)
        count = 0
        while count < 10:
            count += 1
            try:
                write_file(os.path.join(folder, f'other{count}'), b'')
            except OSError:
                break
        demand(count < 10, 'no room for a file', 'the file system takes more files than it should')
        outcome = start(BOARD, ['serve', scene.requests, scene.table])
        demand_sentence(outcome, 'no room for a file')
        demand(outcome.out == b'', 'no room for a file', f'standard output is not empty: {short(outcome.out)}')
        demand(read_file(scene.table) == SMALL and not beside(scene.table), 'no room for a file', 'TABLE was changed or a file left')
    finally:
        subprocess.run(['umount', folder], check=True)
    return 1


def part():
    with Bench() as bench:
        limited = by_limit(bench)
        pages = by_pages(bench)
        told = 'mounting is refused here' if pages is None else f'{pages[False]} full disks and {pages[True]} with room enough'
        return f'{limited} sizes at which storing failed, {told}'


if __name__ == '__main__':
    run_part('8 full disk', part)
