"""The speed of the program: gets, puts and a mix of both over a full table, beside the second program and a plain copy of the same bytes."""
import os
import random
import statistics
import subprocess

from board_frames import GET, MOST_KEYS, PUT, entry_line, head_line, request
from board_run import Bench, PROGRAM, REFERENCE, place, read_file, write_file

MEASURE = os.environ['MEASURE']
LINES, ROUNDS = 200_000, 11
FAR = 1_000_000  # a deadline far behind the second of the requests, which is 0


def key(index):
    """Keys of 32 bytes, 24 of them the same."""
    return b'harbour/north/arrivals/b' + b'%08d' % index


def full_table(deadline):
    return head_line(MOST_KEYS) + b''.join(entry_line(index + 1, key(index), bytes([index]) * 256, deadline) for index in range(MOST_KEYS))


def lines(gets, chance):
    """Request lines, so many of ten of which are gets, picked from 2,000 different ones."""
    def one(at):
        name = key(chance.randrange(MOST_KEYS))
        return request(GET, key=name, message=at) if at % 10 < gets else request(PUT, key=name, value=chance.randbytes(256), message=at)
    some = [one(at) for at in range(2_000)]
    return b''.join(chance.choices(some, k=LINES))


def seconds(words, output):
    done = subprocess.run([MEASURE, output, *words], stdout=subprocess.PIPE, check=True)
    return float(done.stdout.split()[0])


def served(bench, program, deadline):
    """Serves the file from the full table, whose entries have this deadline; gives the seconds."""
    table = bench.path(program, 'table')
    place(table, full_table(deadline))
    return seconds([program, 'serve', bench.path(PROGRAM, 'requests'), table], bench.path(program, 'replies'))


def row(bench, name, requests, deadline):
    write_file(bench.path(PROGRAM, 'requests'), requests)
    times = {'board': [], 'reference': [], 'copy': []}
    for _ in range(ROUNDS):
        times['board'].append(served(bench, PROGRAM, deadline))
        times['reference'].append(served(bench, REFERENCE, deadline))
        times['copy'].append(seconds(['/bin/cat', bench.path(PROGRAM, 'requests'), bench.path(REFERENCE, 'replies')], bench.path(PROGRAM, 'copy')))
    replies = [read_file(bench.path(program, 'replies')) for program in (PROGRAM, REFERENCE)]
    assert replies[0] == replies[1], 'the replies differ'
    board, reference, copy = (statistics.median(times[name]) for name in ('board', 'reference', 'copy'))
    print(f'{name:24}{len(requests) / 1e6:9.1f}{len(replies[0]) / 1e6:9.1f}{board * 1e3:10.0f}{reference * 1e3:11.0f}{copy * 1e3:8.0f}'
          f'{reference / board:18.2f}{board / copy:12.2f}')


if __name__ == '__main__':
    print(f'Medians of {ROUNDS} runs in milliseconds: {LINES:,} lines, from a stored table of {MOST_KEYS} entries with keys of 32 bytes, 24 of them the\n'
          'same, and values of 256 bytes, to a stored table. `copy` is cat over the requests and the replies.\n')
    print('                         requests  replies     board  reference    copy   reference/board  board/copy')
    print('                               MB       MB        ms         ms      ms')
    with Bench() as where:
        for kind, gets, deadline in (('get', 10, 0), ('get, all with deadlines', 10, FAR), ('put over a held key', 0, 0), ('nine gets to one put', 9, 0)):
            row(where, kind, lines(gets, random.Random(1)), deadline)
