"""Part 4: random request files, each made from its seed alone, from plain files and through pipes in small pieces.

`python3 tests/board_random.py make SEED > FILE` writes the file of a seed again.
"""
import os
import random
import sys
import threading

from board_frames import (BULK, BULK_GET, BULK_GET_KEYS, CLEAR, CONTAINS_KEY, GET, GET_WITH_VERSION, GREATEST_FLAGS, LARGEST_SECOND, LARGEST_VERSION,
                          MOST_KEYS, PING, PUT, PUT_IF_ABSENT, REMOVE, REMOVE_IF_UNMODIFIED, REPLACE, REPLACE_IF_UNMODIFIED, STATS,
                          THIRTY_DAYS, entry_line, frame, head_line, line)

COMMON = (PUT, PUT, PUT, PUT_IF_ABSENT, PUT_IF_ABSENT, REPLACE, REPLACE, REPLACE_IF_UNMODIFIED, REPLACE_IF_UNMODIFIED, REMOVE,
          REMOVE_IF_UNMODIFIED, GET, GET, GET_WITH_VERSION, GET_WITH_VERSION, CONTAINS_KEY, STATS, PING)
NUMBERS = (0, 1, 100, 127, 128, 16383, 16384, 2 ** 21, 2 ** 28, 2 ** 31, LARGEST_SECOND)
BULK_NUMBERS = (0, 0, 1, 2, 3, 100, 127, 128, 129, LARGEST_SECOND)  # entry counts and scopes
LIFESPANS = (*NUMBERS, *4 * (THIRTY_DAYS, THIRTY_DAYS + 1), THIRTY_DAYS - 1, THIRTY_DAYS + 2)


class Maker:
    """Makes request lines. It follows the versions roughly, so that conditions are often met, and the clock goes on slowly, so that entries
    expire a few at a time."""

    def __init__(self, seed):
        self.chance = random.Random(seed)
        self.keys = [self.chance.randbytes(self.chance.choice((0, 1, 2, 8, 63, 64))) for _ in range(self.chance.choice((3, 120, 135, 150)))]
        self.damage = self.chance.choice((0, 0.02, 0.2, 0.6))
        self.versions, self.last = {}, 0
        self.clock = self.chance.choice((0, 0, 1000, THIRTY_DAYS, 2 ** 30, LARGEST_SECOND - 50))

    def second(self):
        """Mostly at the clock or behind it, at times before it, and rarely anywhere."""
        chance = self.chance
        if chance.random() < 0.05:
            self.clock = min(self.clock + chance.randint(1, 30), LARGEST_SECOND)
        if chance.random() < 0.0005:
            return chance.choice((LARGEST_SECOND, chance.randint(0, LARGEST_SECOND)))
        near = chance.choice((self.clock, self.clock, self.clock, self.clock + 1, self.clock - 1, self.clock - chance.randint(0, 100), 0))
        return min(max(near, 0), LARGEST_SECOND)

    def lifespan(self):
        """Mostly none, at times short, a date about the clock, or any."""
        chance = self.chance
        date = min(max(self.clock + chance.randint(-2, 20), 0), LARGEST_SECOND)
        return chance.choice((0, 0, 0, 0, chance.randint(1, 40), date, chance.choice(LIFESPANS)))

    def value(self):
        length = self.chance.choice((0, 1, 3, 3, 8, 40, 127, 128, 129, 255, 256))
        return self.chance.randbytes(length)

    def entry_version(self, key):
        return self.chance.choice((self.versions.get(key, 0), self.versions.get(key, 0), self.last, self.last + 1, 0, 2 ** 64 - 1,
                                   self.chance.randint(0, self.last + 1)))

    def follow(self, operation, key):
        """Keeps the rough picture of the table."""
        if operation in (PUT, PUT_IF_ABSENT, REPLACE, REPLACE_IF_UNMODIFIED):
            if key in self.versions or (operation in (PUT, PUT_IF_ABSENT) and len(self.versions) < MOST_KEYS):
                self.last += 1
                self.versions[key] = self.last
        elif operation in (REMOVE, REMOVE_IF_UNMODIFIED):
            self.versions.pop(key, None)
        elif operation == CLEAR:
            self.versions.clear()

    def good_line(self):
        chance = self.chance
        operation = CLEAR if chance.random() < 0.001 else chance.choice(COMMON)
        if chance.random() < 0.005:  # a reply may have 83,000 characters
            operation = chance.choice(BULK)
        key = chance.choice(self.keys)
        version = chance.choice((10, 11, 12, 20, 20))
        data = frame(operation, key=key, value=self.value(), lifespan=self.lifespan(), idle=chance.choice(NUMBERS),
                     entry_version=self.entry_version(key), bulk=chance.choice(BULK_NUMBERS),
                     message=chance.choice((*NUMBERS, LARGEST_VERSION)), version=version,
                     flags=chance.randint(0, GREATEST_FLAGS[version]), intelligence=chance.randint(1, 3), topology=chance.choice(NUMBERS),
                     name=b'other' if chance.random() < 0.01 else b'')
        self.follow(operation, key)
        return line(data, self.second())

    def damaged(self, text):
        """A line with something wrong, or at least with something else."""
        chance, at = self.chance, self.chance.randrange(len(text))
        return chance.choice((
            lambda: text[:at] + chance.choice(b'0123456789abcdef').to_bytes(1, 'big') + text[at + 1:],
            lambda: text[:at] + chance.randbytes(1) + text[at + 1:],
            lambda: text[:at] + text[at + 1:],
            lambda: text[:at] + b'\n',
            lambda: text[:-1] + chance.choice((b'0', b'00', b'a0', b' ', b'\r', b'\0')) + b'\n',
            lambda: text.upper(),
            lambda: text[:9] + text[9:11] * chance.randint(0, 700) + b'\n',
            lambda: text[:-1] + b'0' * chance.randint(900, 1200) + b'\n',
            lambda: chance.randbytes(chance.choice((0, 1, 30, 1024, 5000))) + b'\n',
            lambda: chance.choice((b'', b'\n', b'\r\n', b'00000000\n', b'00000000 \n')),
            lambda: text[:-1] + text,
        ))()

    def file(self, lines):
        out = bytearray()
        for _ in range(lines):
            text = self.good_line()
            out += self.damaged(text) if self.chance.random() < self.damage else text
        return bytes(out[:-1] if self.chance.random() < 0.3 else out)

    def deadline(self):
        """None, one that never comes, the first second, or one about the clock."""
        return self.chance.choice((0, 0, 0, 2 ** 32, 1, max(self.clock + self.chance.randint(-3, 60), 0)))

    def table(self):
        """A good stored table of some of the keys."""
        keys = list(dict.fromkeys(self.keys))[:self.chance.choice((1, 3, MOST_KEYS))]
        version, entries = 0, b''
        for key in keys:
            version += self.chance.randint(1, 3)
            entries += entry_line(version, key, self.value(), self.deadline())
        return head_line(version + self.chance.randint(0, 2)) + entries


def make(seed):
    """The request file of a seed, and the rest of its chances."""
    maker = Maker(seed)
    lines = maker.chance.choice((1, 2, 10, 100, 130, 300, 300, 1000, 5000))
    return maker.file(lines), maker


def feed(open_end, data, seed):
    """Writes the data in small pieces of random size."""
    chance, at = random.Random(seed), 0
    most = chance.choice((1, 5, 70, 700, 7000)) if len(data) < 20000 else chance.choice((700, 7000))
    try:
        with open_end() as end:
            while at < len(data):
                size = chance.randint(1, most)
                end.write(data[at:at + size])
                at += size
    except BrokenPipeError:
        pass  # the reader has stopped; the comparison tells


def through_named_pipe(seed):
    """REQUESTS is a named pipe."""
    def arrange(path, data):
        pipe = path + '.pipe'
        if os.path.lexists(pipe):
            os.unlink(pipe)
        os.mkfifo(pipe)
        threading.Thread(target=feed, args=(lambda: open(pipe, 'wb', buffering=0), data, seed), daemon=True).start()
        return pipe, {}
    return arrange


def through_input(seed):
    """REQUESTS is /dev/stdin, and that is a pipe."""
    def arrange(_, data):
        read_end, write_end = os.pipe()
        threading.Thread(target=feed, args=(lambda: os.fdopen(write_end, 'wb', buffering=0), data, seed), daemon=True).start()
        return '/dev/stdin', {'stdin': os.fdopen(read_end, 'rb')}
    return arrange


def kinds(replies):
    """The pairs of operation and status in reply lines, and the words of lines that are no reply."""
    seen = set()
    for text in replies.splitlines():
        if text.startswith(b'refused'):
            seen.add(text.decode())
            continue
        data = bytes.fromhex(text.decode())
        at = 1
        while data[at] >= 128:
            at += 1
        seen.add((data[at + 1], data[at + 2]))
    return seen


# The reply table of the paper, with the statuses 03 and 04 of version 20, and the statuses of its error replies.
ALL_KINDS = {(operation + 1, status) for statuses, operations in (
    ((0,), (PUT, CLEAR, STATS, PING, BULK_GET, BULK_GET_KEYS)), ((0, 1), (PUT_IF_ABSENT, REPLACE)), ((3,), (PUT, REPLACE, REMOVE)),
    ((0, 1, 2, 3, 4), (REPLACE_IF_UNMODIFIED, REMOVE_IF_UNMODIFIED)), ((0, 2), (REMOVE, GET, GET_WITH_VERSION, CONTAINS_KEY)), ((4,), (PUT_IF_ABSENT,))) for status in statuses for operation in operations} | {
        (0x50, status) for status in range(0x81, 0x86)} | {'refused 14', 'refused 15'}


def part():
    from board_run import ABSENT, Bench, LONG, demand
    lines = 0
    pipes = 0
    seen = set()
    with Bench() as bench:
        for seed in range(2000 if LONG else 120):
            requests, maker = make(seed)
            case = f'seed {seed} (python3 tests/board_random.py make {seed} > FILE)'
            bench.same(case, requests)
            once = bench.same(case, requests, ABSENT)
            bench.same(f'{case} over the table it left', requests, once.table)
            bench.same(f'{case} over a random table', requests, maker.table())
            lines += requests.count(b'\n')
            seen |= kinds(once.out)
            if seed % 3 == 0:
                bench.same(f'{case} through a named pipe', requests, ABSENT, through_named_pipe(seed))
                bench.same(f'{case} through /dev/stdin', requests, once.table, through_input(seed))
                pipes += 2
        demand(seen == ALL_KINDS, 'random files', f'kinds of replies not met or not known: {seen ^ ALL_KINDS}')
        return f'{bench.count} runs over random files of {lines} lines together, {pipes} of them through pipes, {len(seen)} kinds of replies'


if __name__ == '__main__':
    if sys.argv[1:2] == ['make']:
        sys.stdout.buffer.write(make(int(sys.argv[2]))[0])
    else:
        from board_run import run_part
        run_part('4 random', part)
