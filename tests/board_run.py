"""Running BOARD and the second program on the same files, and comparing what they leave.

The expected bytes come from the second program or from the paper, never from BOARD.
"""
import fcntl
import filecmp
import os
import shutil
import subprocess
import sys
import tempfile

TOP = os.path.dirname(os.path.dirname(os.path.abspath(__file__)))
BOARD = os.path.abspath(os.environ.get('BOARD', os.path.join(TOP, 'board')))
# The program below the script ./board, whose system calls are counted (tests/kill_at.c) and whose memory is measured.
PROGRAM = os.path.join(TOP, 'target/bin/board') if BOARD == os.path.join(TOP, 'board') else BOARD
if BOARD != PROGRAM:
    os.environ['PROGRAM'] = os.path.realpath(PROGRAM)
REFERENCE = os.path.join(TOP, 'reference/target/release/reference')
LONG = sys.argv[1:2] == ['long']
# The second program may stand in for BOARD. Then the demands that it does not meet by design are left out.
STAND_IN = filecmp.cmp(BOARD, REFERENCE, shallow=False)
NO_TABLE = object()   # no TABLE argument
ABSENT = None         # a TABLE argument, and no such file
SECONDS = 120         # a run that takes longer hangs


class Difference(Exception):
    """What was found, with all that is needed to repeat it."""


class Outcome:
    """What a run left: its two outputs, how it ended, TABLE's bytes, and the files beside TABLE."""

    def __init__(self, out, err, ended, table, beside):
        self.out, self.err, self.ended, self.table, self.beside = out, err, ended, table, beside

    def first_error(self):
        return self.err.split(b'\n', 1)[0]

    def refused_17(self):
        return self.err.startswith(b'refused 17\n')


def short(data, most=600):
    """Bytes as text for a message."""
    if data is None:
        return 'no file'
    if len(data) <= most:
        return repr(data)
    return f'{data[:most]!r}.. ({len(data)} bytes)'


def beside(path):
    """The other files in TABLE's folder whose names begin with TABLE's."""
    folder, name = os.path.split(path)
    return sorted(other for other in os.listdir(folder) if other.startswith(name) and other != name)


def read_file(path):
    if not os.path.lexists(path):
        return None
    with open(path, 'rb') as file:
        return file.read()


def write_file(path, data):
    with open(path, 'wb') as file:
        file.write(data)


def place(path, data):
    """Gives the file these bytes, or none at all."""
    if data is ABSENT:
        if os.path.lexists(path):
            os.unlink(path)
    else:
        write_file(path, data)


def start(program, arguments, **options):
    """Runs a program to its end and gives its outputs and how it ended."""
    options.setdefault('stdin', subprocess.DEVNULL)
    options.setdefault('stdout', subprocess.PIPE)
    options.setdefault('stderr', subprocess.PIPE)
    try:
        done = subprocess.run([program, *arguments], timeout=SECONDS, check=False, **options)
    except subprocess.TimeoutExpired as error:
        raise Difference(f'{program} {arguments} does not end within {SECONDS} seconds') from error
    return Outcome(done.stdout or b'', done.stderr or b'', done.returncode, None, [])


def wait_for_end(table):
    """Waits until no run holds the folder of TABLE: a program whose script was killed ends a moment later."""
    folder = os.open(os.path.dirname(table), os.O_RDONLY)
    fcntl.flock(folder, fcntl.LOCK_EX)
    os.close(folder)


def traced(kill_at, arguments):
    """Runs tests/kill_at; gives its outcome and the lines it wrote to file descriptor 9."""
    with tempfile.TemporaryFile() as told:
        def give_nine():
            os.dup2(told.fileno(), 9)
        outcome = start(kill_at, arguments, preexec_fn=give_nine, pass_fds=[9])
        told.seek(0)
        return outcome, told.read().decode().splitlines()


def demand(good, case, why):
    if not good:
        raise Difference(f'{case}: {why}')


def demand_sentence(outcome, case):
    """Something was said in words on standard error, and the status tells it. The program without its script has no status."""
    demand(outcome.ended == 1 or BOARD == PROGRAM and outcome.ended == 0, case, f'ended with {outcome.ended}')
    words = outcome.err.decode('utf-8', 'replace').split()
    demand(len(words) >= 3 and outcome.err.endswith(b'\n'), case, f'no sentence on standard error: {short(outcome.err)}')


def demand_calm(outcome, case):
    """Nothing was said on standard error, and the status is 0."""
    demand(outcome.ended == 0, case, f'ended with {outcome.ended}')
    demand(outcome.err == b'', case, f'standard error: {short(outcome.err)}')


def demand_nothing_beside(outcome, case):
    demand(STAND_IN or not outcome.beside, case, f'left beside TABLE: {outcome.beside}')


def demand_refused(outcome, table, case):
    """A sentence, nothing on standard output, TABLE as it was, nothing left beside it."""
    demand_sentence(outcome, case)
    demand(outcome.out == b'', case, f'standard output is not empty: {short(outcome.out)}')
    demand(outcome.table == table, case, f'TABLE was {short(table)} and is {short(outcome.table)}')
    demand_nothing_beside(outcome, case)


def line_count(requests):
    """How many lines a file has; what follows the last line end is one if it is not empty."""
    return requests.count(b'\n') + (requests != b'' and not requests.endswith(b'\n'))


class Bench:
    """A folder for each program, with the files `requests` and `table`, and a count of the comparisons made."""

    def __init__(self):
        self.top = tempfile.mkdtemp(prefix='board.')
        self.count = 0
        for name in ('board', 'reference'):
            os.mkdir(os.path.join(self.top, name))

    def __enter__(self):
        return self

    def __exit__(self, *_):
        shutil.rmtree(self.top)

    def path(self, program, name):
        folder = 'reference' if program == REFERENCE else 'board'
        return os.path.join(self.top, folder, name)

    def serve(self, program, requests, table=NO_TABLE, arrange=None):
        """Serves the requests. `arrange` may give the REQUESTS argument and options in place of a plain file."""
        path, at = self.path(program, 'requests'), self.path(program, 'table')
        arguments, options = ['serve', path], {}
        if arrange is None:
            write_file(path, requests)
        else:
            arguments[1], options = arrange(path, requests)
        if table is not NO_TABLE:
            place(at, table)
            arguments.append(at)
        outcome = start(program, arguments, **options)
        if table is not NO_TABLE:
            outcome.table, outcome.beside = read_file(at), beside(at)
        for name in outcome.beside:
            os.unlink(self.path(program, name))
        return outcome

    def same(self, case, requests, table=NO_TABLE, arrange=None):
        """Serves with both programs and compares; gives the second program's outcome."""
        made = self.serve(BOARD, requests, table, arrange)
        wanted = self.serve(REFERENCE, requests, table, arrange)
        given = 'no TABLE' if table is NO_TABLE else f'TABLE {short(table)}'
        case = f'{case}; requests {short(requests)}; {given}'
        demand(wanted.ended >= 0, case, f'the second program ended by signal {-wanted.ended}')
        if wanted.err == b'':
            demand_calm(made, case)
            demand(wanted.out.count(b'\n') == line_count(requests), case, 'the second program gives another number of lines')
        else:
            demand_sentence(made, case)
            demand(made.first_error() == wanted.first_error(), case,
                   f'standard error: {short(made.err)}, wanted {short(wanted.err)}')
        demand(made.out == wanted.out, case, difference(made.out, wanted.out))
        demand(made.table == wanted.table, case, f'TABLE is {short(made.table)}, wanted {short(wanted.table)}')
        demand_nothing_beside(made, case)
        self.count += 1
        return wanted


def difference(made, wanted):
    """The first output line that differs."""
    made_lines, wanted_lines = made.split(b'\n'), wanted.split(b'\n')
    for at, (one, other) in enumerate(zip(made_lines, wanted_lines)):
        if one != other:
            return f'reply line {at + 1} is {short(one)}, wanted {short(other)}'
    return f'{len(made_lines) - 1} reply lines, wanted {len(wanted_lines) - 1}'


def run_part(name, part):
    """Runs a part and prints its line; ends the program at the first difference."""
    try:
        print(f'board: {name}: {part()}', flush=True)
    except Difference as found:
        print(f'board: {name}: DIFFERENT\n  {found}\n  BOARD={BOARD}', flush=True)
        sys.exit(1)
