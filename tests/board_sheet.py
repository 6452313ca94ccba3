"""Part 11: the keys of a stored table by their order, compared with the second program, and what is no listing."""
import os
import random

from board_frames import LARGEST_DEADLINE, MOST_KEYS, entry_line, head_line, key_name
from board_run import BOARD, LONG, REFERENCE, Bench, demand, demand_calm, demand_refused, read_file, run_part, short, start, write_file

# Keys at the corners of the order: empty, one that begins another, lengths around eight bytes, bytes that a signed comparison would turn round.
CORNERS = [b'', b'a', b'a\x7f', b'a\x80', b'a\xff', b'aa', b'b', b'\x01', b'\x7f', b'\x80', b'\xff', b'1234567', b'12345678', b'123456789',
           b'12345678' * 2, b'12345678' * 2 + b'\x80', b'k' * 63, b'k' * 64, b'berth/1', b'berth/10', b'berth/2']


def table(keys):
    return head_line(len(keys)) + b''.join(entry_line(at + 1, key, b'v', at % 3 * LARGEST_DEADLINE // 2) for at, key in enumerate(keys))


def tables(chance):
    yield 'no entry', table([])
    yield 'one entry', table([b'k'])
    yield 'the corners', table(CORNERS)
    yield 'the corners from behind', table(CORNERS[::-1])
    yield 'as many as there can be', table([key_name(at * 37 % MOST_KEYS) for at in range(MOST_KEYS)])
    yield 'the longest keys', table([bytes([at]) * 64 for at in range(MOST_KEYS)])
    for at in range(200 if LONG else 10):
        keys = {chance.randbytes(chance.choice((0, 1, 2, 3, 8, 63, 64))) for _ in range(chance.randrange(MOST_KEYS))}
        mixed = list(keys)
        chance.shuffle(mixed)
        yield f'random keys {at}', table(mixed)


def words(chance):
    """What may stand behind TABLE. A word can't have a byte 0."""
    yield []
    yield [b'']
    for key in (b'', b'a', b'a\x80', b'aaa', b'\xff\xff', b'k' * 65, b'k' * 4000, key_name(5).replace(b'\0', b'\1'), chance.randbytes(2).replace(b'\0', b'\1')):
        yield [b'', key]
        for count in (b'0', b'1', b'2', b'127', b'128', b'129', b'9223372036854775807'):
            yield [b'', key, count]
    yield [b'cafe']
    yield [b'cafe', b'a', b'0']


def compared(bench, chance):
    count = 0
    path = os.path.join(bench.top, 'sheet')
    for name, data in tables(chance):
        write_file(path, data)
        for given in words(chance):
            case = f'{name}, sheet TABLE {given}'
            made, wanted = start(BOARD, ['sheet', path, *given]), start(REFERENCE, ['sheet', path, *given])
            demand(made.out == wanted.out, case, f'{short(made.out)}, wanted {short(wanted.out)}')
            if wanted.ended == 0:
                demand_calm(made, case)
            else:
                demand(made.first_error() == wanted.first_error(), case, f'{short(made.err)}, wanted {short(wanted.err)}')
            demand(read_file(path) == data, case, 'the table was changed')
            count += 1
    return count


def paper(bench):
    """A listing as the paper's words give it."""
    path = os.path.join(bench.top, 'paper')
    write_file(path, table([b'b2', b'b10', b'b1']))
    for given, wanted in (([], b'0102623101036231300102623200\n'), ([b'', b'b10'], b'01036231300102623200\n'), ([b'', b'b', b'1'], b'0102623100\n'), ([b'', b'', b'0'], b'00\n')):
        outcome = start(BOARD, ['sheet', path, *given])
        demand_calm(outcome, f'sheet {given}')
        demand(outcome.out == wanted, f'sheet {given}', f'{short(outcome.out)}, wanted {short(wanted)}')
    return 4


def refused(bench):
    """What is no listing has a sentence, and leaves all as it is; a table that is not there is not made."""
    path = os.path.join(bench.top, 'refused')
    write_file(path, table([b'k'])[:-1])
    cases = [['sheet'], ['sheet', ''], ['sheet', path], ['sheet', os.path.join(bench.top, 'none')], ['sheet', bench.top], ['sheet', path, '', '', '1', 'more'],
             *(['sheet', path, '', '', count] for count in ('', 'x', '-1', '01', '1 ', '9223372036854775808', '1' * 40))]
    before = sorted(os.listdir(bench.top))
    for given in cases:
        case = f'board {" ".join(given)}'
        demand_refused(start(BOARD, given), None, case)
        demand(sorted(os.listdir(bench.top)) == before and read_file(path) == table([b'k'])[:-1], case, 'something was changed')
    demand(start(BOARD, ['sheet', path]).refused_17(), 'a broken table', 'it is not refused 17')
    write_file(path, table([b'k']))
    with open('/dev/full', 'wb') as full:
        outcome = start(BOARD, ['sheet', path], stdout=full)
        demand(b"can't write the keys" in outcome.err, 'sheet > /dev/full', f'standard error: {short(outcome.err)}')
    return len(cases) + 2


def part():
    chance = random.Random(24)
    with Bench() as bench:
        return f'{compared(bench, chance)} listings, {paper(bench)} of the paper, {refused(bench)} refused'


if __name__ == '__main__':
    run_part('11 sheet', part)
