"""Part 3: stored tables, good ones and ones broken in every way.

Each named table says by the paper whether it is one; the second program has to agree, and BOARD with it.
"""
import os
import random

from board_frames import (GET_WITH_VERSION, LARGEST_DEADLINE, LARGEST_VERSION, MOST_KEYS, PUT, entry_line, head_line, key_name, request)
from board_run import (ABSENT, BOARD, Bench, LONG, REFERENCE, STAND_IN, beside, demand, demand_refused, read_file, run_part,
                       start, write_file)

ASK = request(GET_WITH_VERSION) + request(PUT, key=b'new', value=b'x', lifespan=3) + request(GET_WITH_VERSION, key=b'new')
SMALL = head_line(9) + entry_line(3, b'k', b'one', 104) + entry_line(9, b'l', b'')


def full(count=MOST_KEYS, value=b'v'):
    return head_line(count) + b''.join(entry_line(at + 1, key_name(at), value) for at in range(count))


def good_tables():
    yield 'fresh', head_line(0)
    yield 'empty, last version 5', head_line(5)
    yield 'empty, the last version', head_line(LARGEST_VERSION)
    yield 'one entry', head_line(1) + entry_line(1)
    yield 'small', SMALL
    yield '127 entries', full(127)
    yield '128 entries', full()
    yield '128 entries with the longest keys and values', head_line(LARGEST_VERSION) + b''.join(
        entry_line(LARGEST_VERSION - MOST_KEYS + at + 1, key_name(at) + b'k' * 61, bytes([at]) * 256, LARGEST_DEADLINE)
        for at in range(MOST_KEYS))
    for length in (0, 1, 126, 127, 128, 129, 255, 256):
        yield f'value of {length}', head_line(1) + entry_line(1, value=b'\n' * length)
    for length in (0, 1, 63, 64):
        yield f'key of {length}', head_line(1) + entry_line(1, key=b'\n' * length)
    for deadline in (0, 1, 2 ** 32, LARGEST_DEADLINE):
        yield f'deadline {deadline}', head_line(1) + entry_line(1, deadline=deadline)
    yield 'last versions', head_line(LARGEST_VERSION) + entry_line(LARGEST_VERSION - 1) + entry_line(LARGEST_VERSION, b'l')
    yield 'versions with gaps', head_line(1000) + entry_line(2) + entry_line(500, b'l') + entry_line(999, b'm')


def wide_length(length):
    """A length of one byte written in two."""
    return (bytes([length + 128, 0])).hex().encode()


def broken_tables():
    one = head_line(1) + entry_line(1)
    yield 'empty file', b''
    yield 'a lone line end', b'\n'
    for form in (0, 2, 16, 255):
        yield f'form {form}', head_line(9, form) + SMALL.split(b'\n', 1)[1]
    yield 'upper case in the first line', head_line(10).upper() + entry_line(1)
    yield 'upper case in an entry', head_line(10) + entry_line(10).upper()
    yield 'odd digits in the first line', one.replace(b'\n', b'0\n', 1)
    yield 'odd digits in an entry', one[:-1] + b'0\n'
    yield 'no line end behind the first line', head_line(1)[:-1]
    yield 'no line end behind an entry', one[:-1]
    yield 'blank line at the end', one + b'\n'
    yield 'blank line in front', b'\n' + one
    yield 'blank line between', head_line(1) + b'\n' + entry_line(1)
    yield 'carriage returns', one.replace(b'\n', b'\r\n')
    yield 'carriage return at the end', one[:-1] + b'\r\n'
    yield 'a blank before the value', b'010000000000000001\n00000000000000010000000000000068026231 03496461\n'
    yield 'a blank behind', one[:-1] + b' \n'
    yield 'a blank in front', b' ' + one
    yield 'NUL behind', one + b'\0'
    yield 'byte order mark', b'\xef\xbb\xbf' + one
    yield 'descending versions', head_line(9) + entry_line(5) + entry_line(4, b'l')
    yield 'equal versions', head_line(9) + entry_line(5) + entry_line(5, b'l')
    yield 'version 0', head_line(9) + entry_line(0)
    yield 'version above the last', head_line(9) + entry_line(10)
    yield 'version with the highest bit', head_line(LARGEST_VERSION) + entry_line(2 ** 63)
    yield 'versions ascending as signed numbers', head_line(9) + entry_line(2 ** 64 - 1) + entry_line(1, b'l')
    yield 'an entry and last version 0', head_line(0) + entry_line(1)
    yield 'equal keys', head_line(9) + entry_line(5) + entry_line(6)
    yield 'equal keys apart', head_line(9) + entry_line(5) + entry_line(6, b'l') + entry_line(7)
    yield 'equal empty keys', head_line(9) + entry_line(5, b'') + entry_line(6, b'')
    yield 'last of 128 keys equal to the first', full(127)[:-1] + b'\n' + entry_line(128, key_name(0))
    for deadline in (LARGEST_DEADLINE + 1, 2 ** 33, 2 ** 63, 2 ** 64 - 1):
        yield f'deadline {deadline}', head_line(1) + entry_line(1, deadline=deadline)
    plain = head_line(1) + b'0000000000000001' + b'0' * 16
    yield 'key length not shortest', plain + wide_length(1) + b'6b' + b'0176\n'
    yield 'value length not shortest', plain + b'016b' + wide_length(1) + b'76\n'
    yield 'lengths of 0 not shortest', plain + wide_length(0) + wide_length(0) + b'\n'
    yield 'key length cut', plain + b'80\n'
    yield 'key length too large a number', plain + b'ffffffff10' + b'00\n'
    yield 'value length 4,294,967,295', plain + b'00' + b'ffffffff0f\n'
    yield 'key of 65', head_line(1) + entry_line(1, key=b'k' * 65)
    yield 'value of 257', head_line(1) + entry_line(1, value=b'v' * 257)
    yield '129 entries', full(129)
    yield '200 entries', full(200)
    for last in (2 ** 63, 2 ** 64 - 1):
        yield f'last version {last}', head_line(last) + entry_line(1)
        yield f'last version {last}, no entry', head_line(last)
    yield 'bytes behind the last version', one.replace(b'\n', b'00\n', 1)
    yield 'bytes behind an entry', one[:-1] + b'00\n'
    yield 'an entry behind an entry on its line', one[:-1] + entry_line(1, b'l')
    yield 'first line cut', b'0100000000000000\n'
    yield 'form alone', b'01\n'
    yield 'entry cut', one[:-3] + b'\n'
    yield 'two first lines', head_line(1) + head_line(1)
    yield 'an entry before the first line', entry_line(1) + head_line(1)
    yield 'no first line', entry_line(1)
    yield 'requests', ASK
    for length in (1024, 5000, 70000):
        yield f'first line of {length} digits', b'01' + b'0' * (length - 2) + b'\n' + entry_line(1)
        yield f'entry of {length} digits', head_line(1) + entry_line(1)[:-1] + b'0' * length + b'\n'
        yield f'{length} NULs', b'\0' * length
        yield f'{length} empty lines', b'\n' * length
    yield 'a good table and 70,000 digits without line end', one + b'0' * 70000
    yield 'a good table of the greatest size and one byte', head_line(LARGEST_VERSION) + b''.join(
        entry_line(at + 1, key_name(at) + b'k' * 61, b'v' * 256) for at in range(MOST_KEYS)) + b'0'
    yield '99,999 entries', head_line(2 ** 40) + b''.join(entry_line(at, at.to_bytes(4, 'big')) for at in range(1, 100_000))


def small_changes():
    """The small table cut at every byte, and each byte of it changed, taken out, doubled."""
    for end in range(len(SMALL)):
        yield f'cut at byte {end}', SMALL[:end]
        yield f'cut at byte {end}, with line end', SMALL[:end] + b'\n'
    for at, byte in enumerate(SMALL):
        others = range(256) if LONG else {byte ^ 1, byte ^ 2, byte ^ 32, byte ^ 64, byte ^ 128, 0, 10, 32, 48, 49, 57, 97, 102, 103}
        for other in sorted(set(others) - {byte}):
            yield f'byte {at} changed to {other}', SMALL[:at] + bytes([other]) + SMALL[at + 1:]
        yield f'byte {at} out', SMALL[:at] + SMALL[at + 1:]
        yield f'byte {at} doubled', SMALL[:at + 1] + SMALL[at:]


def random_changes(count):
    """Changes of one to four bytes of larger tables."""
    chance = random.Random(3)
    tables = [table for _, table in good_tables()]
    for index in range(count):
        table = bytearray(chance.choice(tables))
        for _ in range(chance.randint(1, 4)):
            table[chance.randrange(len(table))] = chance.choice(b'0123456789abcdef\n')
        yield f'random change {index}', bytes(table)


def judge(bench, case, table, good):
    """Compares on this table; good is the paper's word, or None where only the second program judges. Says whether it was refused."""
    got = bench.same(f'table: {case}', ASK, table)
    refused = got.refused_17()
    if good is not None:
        demand(refused != good, f'table: {case}', f'the paper says {"good" if good else "broken"}, the second program differs')
    if refused:
        demand(got.out == b'' and got.table == table, f'table: {case}', 'the second program served it or changed it')
    return refused


def first_bad_line(folder, table):
    """The number of the first line that is not good, by the second program: the lines before it, each with its line end, store a table."""
    lines = table.split(b'\n')[:-1]
    path, requests = os.path.join(folder, 'front'), os.path.join(folder, 'none')
    write_file(requests, b'')
    low, high = 0, len(lines)
    while low < high:
        middle = (low + high + 1) // 2
        write_file(path, b''.join(line + b'\n' for line in lines[:middle]))
        low, high = (low, middle - 1) if start(REFERENCE, ['serve', requests, path]).refused_17() else (middle, high)
    return low + 1


def line_numbers(bench):
    """`refused 17` tells the number of the first line that is not good."""
    if STAND_IN:
        return 0
    folder = os.path.join(bench.top, 'lines')
    os.mkdir(folder)
    table, cases = os.path.join(folder, 'table'), 0
    for case, broken in broken_tables():
        if len(broken) < 100_000:
            write_file(table, broken)
            said = start(BOARD, ['serve', '/dev/null', table]).err
            number = first_bad_line(folder, broken)
            demand(f'that is not good has the number {number}.'.encode() in said, f'the line of a broken table: {case}', f'said {said!r}, wanted {number}')
            cases += 1
    return cases


def other_places(bench):
    """A TABLE that is a folder, whose folder is not there, or whose folder is a file."""
    folder = os.path.join(bench.top, 'board')
    requests = os.path.join(folder, 'requests')
    write_file(requests, ASK)
    cases = 0
    if not STAND_IN:
        for name in ('nowhere/table', 'nowhere/no/table', 'table/', ''):
            check_place(requests, folder, name, None)
            cases += 1
    os.mkdir(os.path.join(folder, 'inside'))
    write_file(os.path.join(folder, 'inside/kept'), b'kept')
    for name in ('inside', 'inside/', 'requests/table', '.', '/', 'inside/kept/', 't' * 256):
        check_place(requests, folder, name, b'kept')
        cases += 1
    return cases


def check_place(requests, folder, name, kept):
    """Serving with this TABLE is refused and no file comes or goes."""
    case = f'TABLE is {name!r}, seen from the folder of the requests'
    before = tree(folder)
    outcome = start(BOARD, ['serve', requests, name], cwd=folder)
    demand_refused(outcome, None, case)
    after = tree(folder)
    demand(before == after, case, f'files before {before}, after {after}')
    if kept is not None:
        demand(read_file(os.path.join(folder, 'inside/kept')) == kept, case, 'a file was changed')


def tree(folder):
    """The files and folders below."""
    return sorted(os.path.join(at, name) for at, folders, files in os.walk(folder) for name in folders + files)


def links(bench):
    """A TABLE that is reached through a link to it, and through a link to nothing: as the second program does."""
    cases = 0
    for target in (SMALL, ABSENT):
        seen = []
        for program in (BOARD, REFERENCE):
            table, aim = bench.path(program, 'link'), bench.path(program, 'aim')
            if target is not ABSENT:
                write_file(aim, target)
            os.symlink('aim', table)
            write_file(bench.path(program, 'requests'), ASK)
            outcome = start(program, ['serve', bench.path(program, 'requests'), table])
            seen.append((outcome.out, outcome.err, read_file(table), beside(table)))
            for path in (table, aim):
                if os.path.lexists(path):
                    os.unlink(path)
        demand(seen[0] == seen[1], 'TABLE is a link', f'{seen[0]}, wanted {seen[1]}')
        cases += 1
    return cases


def part():
    counts = {True: 0, False: 0}
    with Bench() as bench:
        for case, table in good_tables():
            counts[judge(bench, case, table, True)] += 1
        for case, table in broken_tables():
            counts[judge(bench, case, table, False)] += 1
        for case, table in [*small_changes(), *random_changes(5000 if LONG else 300)]:
            counts[judge(bench, case, table, None)] += 1
        bench.same('TABLE is not there', ASK, ABSENT)
        places, lines = other_places(bench) + links(bench), line_numbers(bench)
        return f'{counts[False]} tables taken, {counts[True]} refused 17, {places + 1} other places for TABLE, {lines} numbers of a bad line'


if __name__ == '__main__':
    run_part('3 tables', part)
