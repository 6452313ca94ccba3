"""Part 9: system calls that fail or pass only a few bytes (tests/kill_at.c), and the order in which TABLE is written.

Whatever fails, TABLE is the old or the new one; and where nothing is said on standard error, replies and TABLE are as they should be.
"""
import errno
import os

from board_frames import GET_WITH_VERSION, PUT, entry_line, head_line, key_name, request
from board_random import Maker
from board_run import BOARD, Bench, LONG, PROGRAM, REFERENCE, STAND_IN, beside, demand, demand_calm, place, read_file, run_part, short, start, traced, \
    write_file

KILL_AT = os.environ['KILL_AT']
DISTURBED, REFUSED, ENDED = 0, 2, 3
ERRORS = (errno.EIO, errno.ENOSPC, errno.EINTR, errno.EACCES) if LONG else (errno.EIO, errno.ENOSPC)
OLD = head_line(300) + b''.join(entry_line(at + 1, key_name(at), b'old' * 80, at) for at in range(100))
FEW = b''.join(request(PUT, key=key_name(at), value=b'new' * 70) + request(GET_WITH_VERSION, key=key_name(at)) for at in range(300))
# System calls of x86-64.
WRITES, SYNCS, RENAMES, UNLINKS = {1, 18, 20}, {74, 75}, {82, 264, 316}, {87, 263}


class Scene:
    def __init__(self, bench, requests):
        self.requests, self.table = os.path.join(bench.top, 'requests'), bench.path(BOARD, 'table')
        write_file(self.requests, requests)
        path = bench.path(REFERENCE, 'table')
        place(path, OLD)
        wanted = start(REFERENCE, ['serve', self.requests, path])
        demand_calm(wanted, 'the second program')
        self.replies, self.new = wanted.out, read_file(path)
        demand(self.new != OLD, 'calls', 'the requests do not change TABLE')

    def run(self, words):
        """Runs under kill_at over the old TABLE; gives the outcome and what kill_at told."""
        place(self.table, OLD)
        outcome, told = traced(KILL_AT, [*words, BOARD, 'serve', self.requests, self.table])
        outcome.table, outcome.beside = read_file(self.table), beside(self.table)
        for name in outcome.beside:
            os.unlink(os.path.join(os.path.dirname(self.table), name))
        return outcome, told

    def is_right(self, outcome):
        return outcome.out == self.replies and outcome.table == self.new and outcome.beside == []


def each_fails(scene, error):
    """Lets the calls on files fail one after another; gives how many did."""
    at = 0
    while True:
        at += 1
        outcome, told = scene.run(['fail', str(at), str(error)])
        case = f'kill_at fail {at} {error} board serve REQUESTS TABLE ({errno.errorcode[error]}, call {told[:1]})'
        demand(outcome.ended in (DISTURBED, ENDED), case, f'kill_at ended with {outcome.ended}')
        if outcome.ended == ENDED:
            demand(scene.is_right(outcome) and outcome.err == b'', case, 'an undisturbed run is not right')
            return at - 1
        demand(outcome.table in (OLD, scene.new), case, f'TABLE is neither old nor new: {short(outcome.table)}')
        demand(outcome.err != b'' or scene.is_right(outcome) or is_word_lost(told), case,
               f'nothing was said, but TABLE is {short(outcome.table, 80)}, replies {short(outcome.out, 80)}, beside {outcome.beside}')
        demand(scene.replies.startswith(outcome.out), case, f'replies {short(outcome.out)}')
        removed = BOARD == PROGRAM and int(told[0].split()[0]) in UNLINKS  # the script removes what the program can't
        demand(STAND_IN or removed or outcome.beside == [], case, f'left beside TABLE: {outcome.beside}')


def is_word_lost(told):
    """Whether the call that failed was the writing of the sentence itself."""
    call, first = told[0].split()
    return int(call) in WRITES and first == '2'


def few_bytes(scene):
    """Reads and writes that pass only so many bytes at once."""
    sizes = (1, 2, 3, 7, 64, 1000, 4095) if LONG else (7, 1000)
    for most in sizes:
        outcome, _ = scene.run(['short', str(most)])
        case = f'kill_at short {most} board serve REQUESTS TABLE'
        demand(outcome.ended == DISTURBED, case, f'kill_at ended with {outcome.ended}')
        demand(scene.is_right(outcome) and outcome.err == b'', case,
               f'replies {short(outcome.out, 80)}, TABLE {short(outcome.table, 80)}, beside {outcome.beside}, said {short(outcome.err)}')
    return len(sizes)


def order(scene):
    """The last write to TABLE's new file is followed by a sync of it, and that by the renaming."""
    _, told = scene.run(['list'])
    calls = [tuple(int(word) for word in text.split()) for text in told]
    renames = [at for at, call in enumerate(calls) if call[0] in RENAMES and call[3] == 0]
    demand(len(renames) == 1, 'order of calls', f'{len(renames)} calls rename')
    syncs = [at for at, call in enumerate(calls[:renames[0]]) if call[0] in SYNCS and call[3] == 0]
    demand(syncs != [], 'order of calls', 'nothing is synced before the renaming')
    file = calls[syncs[-1]][1]
    writes = [at for at, call in enumerate(calls) if call[0] in WRITES and call[1] == file and call[3] > 0]
    demand(writes != [] and writes[-1] < syncs[-1], 'order of calls', 'the file is written after it is synced, or never')
    written = sum(calls[at][3] for at in writes)
    demand(written == len(scene.new), 'order of calls', f'{written} bytes are written and synced, the table has {len(scene.new)}')


def part():
    with Bench() as bench:
        scene = Scene(bench, FEW)
        if scene.run(['list'])[0].ended == REFUSED:
            return 'ptrace is refused here, so nothing was tried'
        order(scene)
        failures = sum(each_fails(scene, error) for error in ERRORS)
        pieces = few_bytes(scene)
        maker = Maker(900)
        pieces += few_bytes(Scene(bench, FEW[:2000] + maker.file(200)))
        return f'written, synced and then renamed; {failures} calls failed, {pieces} runs in small pieces'


if __name__ == '__main__':
    run_part('9 calls', part)
