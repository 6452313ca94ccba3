"""Part 6: a file of a million lines, and a very long line: the same output, and a peak memory that does not grow with the file."""
import filecmp
import os
import random
import subprocess

from board_frames import CONTAINS_KEY, GET, GET_WITH_VERSION, PUT, REMOVE, key_name, request
from board_run import Bench, Difference, PROGRAM, REFERENCE, SECONDS, demand, place, read_file, run_part, short, write_file

MEASURE = os.environ['MEASURE']
MORE_KIB = 512  # how much the peak may differ between a file of one line and a long one; chance alone gives some


HOURS = 20


def mixed_lines(count):
    """Gets and puts of about 130 keys, picked from 20,000 different lines, a thousand an hour; some entries expire."""
    chance = random.Random(6)
    operations = (GET, GET, GET_WITH_VERSION, CONTAINS_KEY, PUT, PUT, PUT, REMOVE)
    out = bytearray()
    for hour in range(HOURS):
        some = [request(chance.choice(operations), 3600 * hour + chance.randint(0, 3599), key=key_name(chance.randrange(130)),
                        value=chance.randbytes(chance.choice((0, 3, 8, 60))), lifespan=chance.choice((0, 100)), message=chance.randint(0, 10 ** 6),
                        flags=chance.randint(0, 1)) for _ in range(1_000)]
        out += b''.join(chance.choices(some, k=count // HOURS))
    return bytes(out)


def measure(bench, program, table):
    """Serves the file `requests`; gives seconds and peak in KiB. The replies are in the file `replies`."""
    words = [MEASURE, bench.path(program, 'replies'), program, 'serve', os.path.join(bench.top, 'requests')]
    if table:
        place(bench.path(program, 'table'), None)
        words.append(bench.path(program, 'table'))
    try:
        done = subprocess.run(words, stdout=subprocess.PIPE, stderr=subprocess.PIPE, timeout=SECONDS, check=True)
    except subprocess.TimeoutExpired as error:
        raise Difference(f'{program} does not end within {SECONDS} seconds over a large file') from error
    demand(done.stderr == b'', 'a large file', f'{program} says {short(done.stderr)}')
    seconds, peak, ended = done.stdout.split()
    demand(ended == b'0', 'a large file', f'{program} ended by signal {ended}')
    return float(seconds), int(peak)


def large(bench, case, requests, table):
    """Both programs over one large file; gives what they took."""
    write_file(os.path.join(bench.top, 'requests'), requests)
    board, reference = (measure(bench, program, table) for program in (PROGRAM, REFERENCE))
    paths = [bench.path(program, 'replies') for program in (PROGRAM, REFERENCE)]
    demand(filecmp.cmp(*paths, shallow=False), case, 'the replies differ; the file is made by tests/board_large.py from its own seed')
    demand(os.path.getsize(paths[1]) > 0, case, 'no replies')
    if table:
        tables = [read_file(bench.path(program, 'table')) for program in (PROGRAM, REFERENCE)]
        demand(tables[0] == tables[1] and tables[1], case, f'TABLE {short(tables[0])}, wanted {short(tables[1])}')
    return board, reference


def peak_of_small(bench, table):
    """The peak over a file of one line that fills the reply room, the least that any run takes."""
    write_file(os.path.join(bench.top, 'requests'), request(PUT))
    return measure(bench, PROGRAM, table)[1]


def part():
    lines = 1_000_000
    with Bench() as bench:
        small = {table: peak_of_small(bench, table) for table in (False, True)}
        told = []
        for case, requests, table in (
                (f'{lines} lines', mixed_lines(lines), True),
                ('a line of 50,000,000 characters', b'0' * 50_000_000, False),
                ('1,000,000 empty lines', b'\n' * 1_000_000, False)):
            board, reference = large(bench, case, requests, table)
            demand(board[1] <= small[table] + MORE_KIB, case, f'peak memory {board[1]} KiB, over one line {small[table]} KiB')
            told.append(f'{case} in {board[0]:.2f} s and {board[1]} KiB (second program {reference[0]:.2f} s, {reference[1]} KiB)')
        return f'{"; ".join(told)}; one line takes {small[True]} KiB'


if __name__ == '__main__':
    run_part('6 large', part)
