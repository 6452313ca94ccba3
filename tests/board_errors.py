"""Part 5: what is no run at all, files that may not be read or written, and outputs that fail.

Each has to give a sentence on standard error and nothing on standard output, to change no file and to leave none.
"""
import os
import shutil
import signal
import subprocess

from board_frames import GET, PUT, entry_line, head_line, key_name, request
from board_run import (ABSENT, BOARD, Bench, PROGRAM, REFERENCE, STAND_IN, TOP, demand, demand_calm, demand_refused,
                       demand_sentence, read_file, run_part, short, start, write_file)

NOBODY = 65534
OLD = head_line(4) + entry_line(4, b'old', b'value')
REQUESTS = request(PUT, value=b'new') + request(GET)
MANY = b''.join(request(PUT, key=key_name(at % 100), value=b'v' * 200) + request(GET, key=key_name(at % 100)) for at in range(2000))


class Folder:
    """A folder with `requests` and `table`, and a look at all of it before and after a run."""

    def __init__(self, top, name):
        self.at = os.path.join(top, name)
        os.makedirs(self.at)
        self.requests, self.table = os.path.join(self.at, 'requests'), os.path.join(self.at, 'table')
        write_file(self.requests, REQUESTS)
        write_file(self.table, OLD)

    def look(self):
        """Each file below with its bytes, each folder without."""
        seen = {}
        for at, folders, files in os.walk(self.at):
            seen.update({os.path.join(at, name): None for name in folders})
            seen.update({os.path.join(at, name): read_file(os.path.join(at, name)) for name in files})
        return seen

    def refuses(self, case, arguments, **options):
        """The run is refused with a sentence, and the folder stays as it is."""
        before = self.look()
        outcome = start(options.pop('program', BOARD), arguments, cwd=self.at, **options)
        case = f'{case}: board {" ".join(short(word.encode(), 60) for word in arguments)}'
        demand_refused(outcome, None, case)
        self.demand_same(before, case)
        return outcome

    def demand_same(self, before, case):
        after = self.look()
        changed = sorted(set(before.items()) ^ set(after.items()), key=str)
        demand(not changed, case, f'files came, went or changed: {short(str(changed).encode())}')


def wrong_words(folder):
    """Arguments that are no command, and files that are not there."""
    long = 'x' * 4096
    longer = [(f'an argument of {size:,} bytes', words) for size in (4095, 4097, 4098, 5000, 8192, 65536, 100_000)
              for words in (['serve', 'x' * size], ['serve', 'requests', 'x' * size], ['serve', 'x' * size, 'table'], ['x' * size])]
    cases = [('missing REQUESTS', ['serve', 'none']), ('missing REQUESTS', ['serve', 'none', 'table']),
             ('missing REQUESTS and TABLE', ['serve', 'none', 'none']), ('REQUESTS in no folder', ['serve', 'no/requests', 'table']),
             ('REQUESTS below a file', ['serve', 'requests/x', 'table']),
             ('REQUESTS without a name', ['serve', '']), ('REQUESTS without a name', ['serve', '', 'table']),
             ('REQUESTS a folder', ['serve', '.']), ('REQUESTS a folder', ['serve', '.', 'table']),
             ('REQUESTS that cannot be read', ['serve', '/proc/self/mem']), ('REQUESTS that cannot be read', ['serve', '/proc/self/mem', 'table']),
             ('no REQUESTS', ['serve']), ('too many arguments', ['serve', 'requests', 'table', 'more']),
             ('too many arguments', ['serve', 'requests', 'table', '']), ('too many arguments', ['serve'] + ['requests'] * 300),
             ('unknown command', ['store']), ('unknown command', ['Serve', 'requests']), ('unknown command', ['serv', 'requests']),
             ('unknown command', ['server', 'requests', 'table']), ('unknown command', ['--serve', 'requests']),
             ('unknown command', ['']), ('unknown command', ['requests', 'table']), ('unknown command', ['serve ', 'requests']),
             ('unknown command', ['serve\n', 'requests']), ('unknown command', ['', 'requests']), ('unknown command', ['serve requests']),
             ('an argument of 4,096 bytes', [long]), ('an argument of 4,096 bytes', ['serve', long]),
             ('an argument of 4,096 bytes', ['serve', 'requests', long]), ('an argument of 4,096 bytes', ['serve', long, 'table']),
             ('an argument of 4,096 bytes', ['serve', './' * 2044 + 'requests']), *longer,
             ('a path of 4,095 bytes and more for the file beside', ['serve', 'requests', './' * 2045 + 'table'])]
    if STAND_IN:  # it serves first and stores afterwards
        cases = [case for case in cases if case[0] != 'a path of 4,095 bytes and more for the file beside']
    for case, arguments in cases:
        folder.refuses(case, arguments)
    return len(cases)


def usage(folder):
    """No argument, or `help`: how to use it, with an example, on standard output."""
    if STAND_IN:
        return 0
    seen = [start(BOARD, arguments, cwd=folder.at) for arguments in ([], ['help'])]
    for outcome in seen:
        demand_calm(outcome, 'usage')
        text = outcome.out.decode('utf-8', 'replace')
        demand('board serve' in text and 'xample' in text and text.endswith('\n'), 'usage', f'no usage with an example: {text!r}')
    demand(seen[0].out == seen[1].out, 'usage', 'board and board help differ')
    return 2


def long_paths(folder):
    """Arguments just short enough for the system are served."""
    before = folder.look()
    path = './' * 2042 + 'requests'
    demand(len(path) <= 4095, 'a path of nearly 4,095 bytes', 'is longer')
    made, wanted = (start(program, ['serve', path], cwd=folder.at) for program in (BOARD, REFERENCE))
    demand_calm(made, 'REQUESTS of 4,092 bytes')
    demand(made.out == wanted.out != b'', 'REQUESTS of 4,092 bytes', f'{short(made.out)}, wanted {short(wanted.out)}')
    folder.demand_same(before, 'REQUESTS of 4,092 bytes')
    return 1


def long_names(folder):
    """A TABLE name that fits while the file's beside it does not: served and stored, or refused before anything is served."""
    for length in (240, 244, 248, 250, 255):
        name = 'n' * length
        path = os.path.join(folder.at, name)
        write_file(path, OLD)
        before = folder.look()
        wanted = bench_new(folder)
        outcome = start(BOARD, ['serve', 'requests', name], cwd=folder.at)
        case = f'TABLE with a name of {length} bytes'
        if outcome.err and not STAND_IN:
            demand_refused(outcome, None, case)
            folder.demand_same(before, case)
        elif not outcome.err:
            demand((outcome.out, read_file(path)) == wanted, case, 'neither refused nor stored')
        os.unlink(path)
    return 5


def bench_new(folder):
    """The replies and the table that the second program makes of the folder's files."""
    copy = folder.at + '.copy'
    shutil.copytree(folder.at, copy)
    done = start(REFERENCE, ['serve', os.path.join(copy, 'requests'), os.path.join(copy, 'table')])
    demand_calm(done, 'the second program')
    result = done.out, read_file(os.path.join(copy, 'table'))
    shutil.rmtree(copy)
    return result


def copy_of_board(top):
    """BOARD where any user may run it, with the program where it looks for it."""
    folder = os.path.join(top, 'clone')
    os.makedirs(os.path.join(folder, 'target/bin'))
    os.makedirs(os.path.join(folder, 'tools'))
    for path, name in ((BOARD, 'board'), (os.path.join(TOP, 'tools/building'), 'tools/building'), (os.path.join(TOP, 'crates.txt'), 'crates.txt'),
                       (PROGRAM, 'target/bin/board')):
        os.chmod(shutil.copy(path, os.path.join(folder, name)), 0o755)
    return os.path.join(folder, 'board')


def closed_to_us(top):
    """Files and folders that a user without privilege may not read, write or search."""
    folder = Folder(top, 'closed')
    for name in ('unsearched', 'unwritten'):
        os.mkdir(os.path.join(folder.at, name))
        write_file(os.path.join(folder.at, name, 'table'), OLD)
    write_file(os.path.join(folder.at, 'secret'), OLD)
    user = {}
    program = BOARD
    if os.getuid() == 0:
        os.chmod(top, 0o755)
        program = copy_of_board(top)
        subprocess.run(['chown', '-R', f'{NOBODY}:{NOBODY}', folder.at], check=True)
        user = {'user': NOBODY, 'group': NOBODY, 'extra_groups': []}
    os.chmod(os.path.join(folder.at, 'secret'), 0)
    os.chmod(os.path.join(folder.at, 'unwritten'), 0o555)
    before = folder.look() if os.getuid() == 0 else None
    os.chmod(os.path.join(folder.at, 'unsearched'), 0)
    cases = [('unreadable REQUESTS', ['serve', 'secret']), ('unreadable REQUESTS', ['serve', 'secret', 'table']),
             ('unreadable REQUESTS, no TABLE yet', ['serve', 'secret', 'none']),
             ('unreadable TABLE', ['serve', 'requests', 'secret']), ('TABLE in a folder not to be searched', ['serve', 'requests', 'unsearched/table']),
             ('TABLE, not there, in a folder not to be searched', ['serve', 'requests', 'unsearched/none']),
             ('TABLE in a folder not to be written', ['serve', 'requests', 'unwritten/table']),
             ('TABLE, not there, in a folder not to be written', ['serve', 'requests', 'unwritten/none'])]
    for case, arguments in cases:
        if STAND_IN and 'written' in case:
            continue
        outcome = start(program, arguments, cwd=folder.at, **user)
        demand_refused(outcome, None, case)
        if before is not None:
            folder.demand_same(before, case)
    for name in ('secret', 'unsearched', 'unwritten'):
        os.chmod(os.path.join(folder.at, name), 0o755)
    for name in ('unsearched/table', 'unwritten/table', 'secret', 'table'):
        demand(read_file(os.path.join(folder.at, name)) == OLD, name, 'was changed')
    demand(sorted(os.listdir(os.path.join(folder.at, 'unwritten'))) == ['table'], 'unwritten', 'a file was left')
    read_only_table(folder, program, user)
    return len(cases) + 3


def read_only_table(folder, program, user):
    """A TABLE without the right to write, in a folder with it: its owner wants it to stay, also where the system would let us write."""
    if STAND_IN:
        return
    for mode, who in ((0o444, user), (0o400, user), (0o444, {})):
        os.chmod(folder.table, mode)
        outcome = start(program, ['serve', 'requests', 'table'], cwd=folder.at, **who)
        outcome.table = read_file(folder.table)
        demand_refused(outcome, OLD, f'TABLE is read-only, mode {mode:o}')


def full_output(top):
    """Standard output is full or its reader is gone: TABLE stays as it was, nothing is left."""
    count = 0
    for name, requests in (('few', REQUESTS), ('many', MANY)):
        for table in (OLD, ABSENT):
            folder = Folder(top, f'full-{name}-{count}')
            write_file(folder.requests, requests)
            if table is ABSENT:
                os.unlink(folder.table)
            before = folder.look()
            for case, options in outputs_that_fail():
                outcome = start(BOARD, ['serve', 'requests', 'table'], cwd=folder.at, **options)
                case = f'{case}, {name} requests, TABLE {short(table)}'
                demand_sentence(outcome, case)
                folder.demand_same(before, case)
                outcome = start(BOARD, ['serve', 'requests'], cwd=folder.at, **options)
                demand_sentence(outcome, f'{case}, no TABLE')
                count += 2
    return count


def outputs_that_fail():
    with open('/dev/full', 'wb') as full:
        yield '/dev/full', {'stdout': full}
    yield 'no reader, SIGPIPE ignored', {'stdout': no_reader(), 'restore_signals': False}


def no_reader():
    """The writing end of a pipe that nobody reads. Python ignores SIGPIPE, and so does a child that keeps its signals."""
    read_end, write_end = os.pipe()
    os.close(read_end)
    return os.fdopen(write_end, 'wb')


def gone_reader(top):
    """The reader is gone and SIGPIPE ends the run, as in `board .. | head -1`: TABLE is the old or the new one."""
    folder = Folder(top, 'gone')
    write_file(folder.requests, MANY)
    _, new = bench_new(folder)
    start(BOARD, ['serve', 'requests', 'table'], cwd=folder.at, stdout=no_reader())
    demand(read_file(folder.table) in (OLD, new), 'reader gone', 'TABLE is neither old nor new')
    return 1


def closed_ends(top):
    """Standard input, output and error closed, in all ways: no file opened in their place may take replies or words."""
    for table, requests, name in ((OLD, REQUESTS, 'good'), (OLD, MANY, 'many'), (b'broken\n', REQUESTS, 'broken')):
        folder = Folder(top, f'ends-{name}')
        write_file(folder.requests, requests)
        new = table if name == 'broken' else bench_new_of(folder, OLD)
        for closed in range(1, 8):
            write_file(folder.table, table)
            shut = ''.join(f' {end}' for end, bit in (('<&-', 1), ('>&-', 2), ('2>&-', 4)) if closed & bit)
            outcome = start('/bin/sh', ['-c', f'exec "$0" serve requests table{shut}', BOARD], cwd=folder.at)
            case = f'board serve requests table{shut}, {name}'
            demand(outcome.ended >= 0, case, f'ended by signal {-outcome.ended}')
            now = read_file(folder.table)
            demand(now in (table, new), case, f'TABLE is neither old nor new: {short(now)}')
            demand(read_file(folder.requests) == requests, case, 'REQUESTS were changed')
            for other in os.listdir(folder.at):
                if other not in ('requests', 'table'):
                    demand(STAND_IN, case, f'left beside TABLE: {other}')
                    os.unlink(os.path.join(folder.at, other))
    return 21


def bench_new_of(folder, table):
    write_file(folder.table, table)
    return bench_new(folder)[1]


def same_file(bench):
    """REQUESTS and TABLE are one file: a stored table is read as lines that are none, and stored again."""
    seen = []
    for program in (BOARD, REFERENCE):
        path = bench.path(program, 'both')
        write_file(path, OLD)
        outcome = start(program, ['serve', path, path])
        demand_calm(outcome, 'one file for both')
        seen.append((outcome.out, read_file(path)))
    demand(seen[0] == seen[1], 'one file for both', f'{seen[0]}, wanted {seen[1]}')
    return 1


def part():
    signal.signal(signal.SIGPIPE, signal.SIG_IGN)
    with Bench() as bench:
        folder = Folder(bench.top, 'plain')
        words = wrong_words(folder) + usage(folder) + long_paths(folder) + long_names(folder) + same_file(bench)
        rights = closed_to_us(bench.top)
        outputs = full_output(bench.top) + gone_reader(bench.top)
        ends = closed_ends(bench.top)
        return (f'{words} of arguments and paths, {rights} of rights{"" if os.getuid() else " (as nobody)"}, '
                f'{outputs} of outputs that fail, {ends} of closed ends')


if __name__ == '__main__':
    run_part('5 errors', part)
