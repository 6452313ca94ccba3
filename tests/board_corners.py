"""Part 2: corners of request files, each compared with the second program, with and without a TABLE."""
import itertools

from board_frames import (BULK_GET, BULK_GET_KEYS, CLEAR, CONTAINS_KEY, GET, GET_WITH_VERSION, GREATEST_FLAGS, LARGEST_SECOND, LARGEST_VERSION, MOST_KEYS,
                          OPERATIONS, PING, PUT, PUT_IF_ABSENT, REMOVE, REMOVE_IF_UNMODIFIED, REPLACE, REPLACE_IF_UNMODIFIED, STATS,
                          THIRTY_DAYS, entry_line, frame, head_line, header, key_name, line, number, request, sized)
from board_run import ABSENT, Bench, demand, run_part

GOOD = request(PUT, key=b'good', value=b'line')
AFTER = request(GET_WITH_VERSION, key=b'good')


def line_forms():
    """Files whose lines are or are not of the form, with what the paper says of each where it is one line."""
    ping = request(PING)
    yield 'empty file', b'', b''
    yield 'a lone line end', b'\n', b'refused 14\n'
    yield 'several empty lines', b'\n\n\n', b'refused 14\n' * 3
    yield 'an empty line between', ping + b'\n' + ping, None
    yield 'last line without its end', ping[:-1], b'a101180000\n'
    yield 'one character', b'0', b'refused 14\n'
    yield 'one NUL', b'\0', b'refused 14\n'
    yield 'carriage returns', GOOD.replace(b'\n', b'\r\n') + AFTER, None
    yield 'carriage return alone', ping[:-1] + b'\r' + ping, b'refused 14\n'
    yield 'upper-case digits', GOOD.upper() + AFTER, None
    yield 'upper-case digits in the second', b'0000000A' + ping[8:], b'refused 14\n'
    yield 'eight digits and a blank', b'00000000 \n', b'refused 15\n'
    yield 'eight digits and a blank without line end', b'00000000 ', b'refused 15\n'
    yield 'eight digits', b'00000000\n', b'refused 14\n'
    yield 'no blank', ping.replace(b' ', b''), b'refused 14\n'
    yield 'two blanks', ping.replace(b' ', b'  '), b'refused 14\n'
    yield 'a tab', ping.replace(b' ', b'\t'), b'refused 14\n'
    yield 'blank in front', b' ' + ping, b'refused 14\n'
    yield 'blank behind', ping[:-1] + b' \n', b'refused 14\n'
    yield 'byte order mark', b'\xef\xbb\xbf' + ping, b'refused 14\n'
    yield 'seven digits', ping[1:], b'refused 14\n'
    yield 'nine digits', b'0' + ping, b'refused 14\n'
    yield 'odd digits', ping[:-2] + b'\n', b'refused 14\n'
    yield 'one digit', b'00000000 a\n', b'refused 14\n'
    yield 'blank among the digits', b'00000000 a0 010a170000010000\n', b'refused 14\n'


def long_lines():
    """Lines around the limit and far above it, each before a good line, and at the end without line end."""
    for length in [*range(1016, 1032), 2047, 2048, 4095, 4096, 4097, 5000, 65535, 65536, 65537, 70000, 131072, 200000]:
        for name, fill in (('digits', b'00000000 ' + b'a0' * length), ('zeros', b'0' * length), ('NULs', b'\0' * length),
                           ('a good beginning', GOOD[:-1] + b'0' * length), ('carriage returns', b'\r' * length)):
            long = fill[:length]
            yield f'{length} characters of {name}, then good lines', GOOD + long + b'\n' + AFTER + long + b'\n' + AFTER
            yield f'{length} characters of {name} at the end', GOOD + long


def sizes():
    """Files that end at, before and behind the sizes that buffers have, in lines of 32 bytes."""
    text = b''.join(request(CONTAINS_KEY, key=bytes([at % 251])) for at in range(5000))
    demand(len(text) == 5000 * 32, 'sizes', 'a line is not 32 bytes long')
    for size in (512, 1024, 2048, 4096, 8192, 16384, 32768, 65536, 131072):
        for near in (-1, 0, 1):
            yield f'a file of {size + near} bytes', text[:size + near]


def odd_bytes():
    """Every byte at every kind of place, in one file."""
    base = GOOD[:-1]
    out = bytearray()
    for place in (0, 4, 7, 8, 9, 10, len(base) - 1):
        for byte in range(256):
            out += base[:place] + bytes([byte]) + base[place + 1:] + b'\n'
    yield 'every byte at seven places', bytes(out) + AFTER
    yield 'NUL and high bytes', b'\0\n' + b'\xff' * 40 + b'\n' + b'\x80\xfe\0' * 300 + b'\n' + GOOD + AFTER


def refusals():
    """Frames refused 1 to 9; 10 and 11 need a table and stand below."""
    many = b'\xff' * 4
    yield 1, b'\xa1' + header(PING)[1:]
    yield 2, b'\xa0\x80\x00' + header(PING)[2:]
    yield 2, b'\xa0' + b'\xff' * 8 + b'\x80' + header(PING)[2:]
    for version in (0, 9, 13, 19, 21, 0x41, 255):
        yield 3, header(PING, version=version)
    for operation in (0, 2, 4, 0x14, 0x16, 0x18, 0x1a, 0x1b, 0x1d, 0x1e, 0x50, 255):
        yield 4, header(operation)
    for operation in (0, 2, 0x1b, 0x1f, 0x21, 0x23, 0x29, 0x50):
        yield 4, header(operation, version=20)
    yield 4, frame(BULK_GET_KEYS, version=11)
    yield 5, header(PING)[:4] + b'\x80\x00' + header(PING)[5:]
    yield 5, header(PING)[:4] + many + b'\x10'
    yield 5, header(GET) + b'\x81\x00' + b'k'
    yield 5, header(PUT) + b'\x01k' + many + b'\x1f'
    yield 5, header(BULK_GET) + b'\x80\x00'
    yield 5, header(BULK_GET_KEYS, version=12) + many + b'\x10'
    yield 6, header(PING, name=b'n' * 33)
    yield 6, header(GET) + number(65) + b'k' * 65
    yield 6, header(GET) + many + b'\x0f'
    yield 6, header(PUT) + b'\x01k\0\0' + number(257) + b'v' * 257
    for name in (b'\xc3', b'\xc0\x80', b'\xed\xa0\x80', b'\xf4\x90\x80\x80', b'\xff', b'\x80', b'\xe0\x9f\xbf', b'\xf0\x8f\xbf\xbf'):
        yield 7, header(PING, name=name)
    for flags, version in ((2, 10), (7, 11), (8, 12), (LARGEST_SECOND, 12), (32, 20), (LARGEST_SECOND, 20)):
        yield 8, header(PING, flags=flags, version=version)
    for intelligence in (0, 4, 255):
        yield 8, header(PING, intelligence=intelligence)
    yield 8, header(PING, transaction=1)
    for scope in (3, 127, 128, LARGEST_SECOND):
        yield 8, frame(BULK_GET_KEYS, bulk=scope)
    for name in (b'n', b'n' * 32, 'é'.encode(), '\U0010ffff'.encode(), b'\0'):
        yield 9, header(PING, name=name)
    yield 9, header(PING, name=b'n', version=20)
    yield 9, header(CLEAR, name=b'x')
    yield 9, frame(BULK_GET, name=b'x')
    yield 9, frame(BULK_GET_KEYS, name=b'x')


STATUS = {1: '81', 2: '81', 3: '83', 4: '82', 5: '84', 6: '84', 7: '84', 8: '84', 9: '85', 10: '85', 11: '85'}
TEXT = {1: 'bad magic', 2: 'bad message id', 3: 'bad version', 4: 'bad command', 5: 'bad number', 6: 'too long', 7: 'bad text',
        8: 'bad field', 9: 'no such cache', 10: 'full', 11: 'no versions left'}


def error_line(refusal, message=1):
    """The error reply of the paper's table."""
    text = TEXT[refusal].encode()
    message = 0 if refusal in (1, 2) else message
    return (b'\xa1' + number(message) + b'\x50' + bytes.fromhex(STATUS[refusal]) + b'\0' + number(len(text)) + text).hex().encode() + b'\n'


def refusal_files(bench):
    """Each refusal alone and with bytes behind, both by the paper's table."""
    for refusal, data in refusals():
        case = f'refused {refusal} at {data.hex()}'
        behind = b'refused 15\n' if refusal == 9 else error_line(refusal)
        wanted = error_line(refusal) + behind
        got = bench.same(case, line(data) + line(data + b'\0') + GOOD + AFTER)
        demand(got.out.startswith(wanted), case, f'the second program gives {got.out!r}, the paper {wanted!r}')


def cut_frames():
    """Every beginning of a frame of each operation, and bytes behind it, with a look at the table after each."""
    for operation, version in itertools.product(OPERATIONS, (12, 20)):
        data = frame(operation, key=b'good', value=b'new', flags=1, entry_version=1, version=version)
        out = GOOD
        for end in range(len(data)):
            out += line(data[:end]) + AFTER
        for tail in (b'\0', b'\xa0', data):
            out += line(data + tail) + AFTER
        yield f'cut frames and bytes behind, operation {operation:02x}, version {version}', out + line(data) + AFTER


def operations():
    """All operations, each flag and version, on a held and on an absent key, with the right version and with others."""
    for version, most in GREATEST_FLAGS.items():
        for flags in (*range(most + 1),) if most < 31 else (0, 1, 2, 3, 8, 9, 16, 17, 28, 29, 31):
            out = b''
            for operation in OPERATIONS:
                for key in (b'good', b'none'):
                    for entry_version in (1, 0, 2, LARGEST_VERSION, LARGEST_VERSION + 2, 2 ** 64 - 1):
                        out += request(CLEAR) + GOOD
                        out += request(operation, 5, key=key, value=b'new', lifespan=7, idle=9, entry_version=entry_version,
                                       version=version, flags=flags, message=300, intelligence=3, topology=70000)
                        out += AFTER + request(GET_WITH_VERSION, key=b'none')
            # Versions go up, so the right one is hit here.
            for last in range(2):
                put = out.count(GOOD) + last
                out += request(REPLACE_IF_UNMODIFIED, key=b'good', value=b'x', entry_version=put, version=version, flags=flags) + AFTER
            yield f'all operations, version {version}, flags {flags}', out
    for version in GREATEST_FLAGS:
        yield f'conditions met, version {version}', conditions_met(version)
    yield 'versions mixed', versions_mixed()


def conditions_met(protocol):
    """Conditional writes with the right version, the one above, the one below, in this protocol version."""
    told = dict(version=protocol, flags=1)
    out = request(PUT, value=b'one')
    for version in (0, 2, 1):
        out += request(REPLACE_IF_UNMODIFIED, value=b'two', entry_version=version, **told) + request(GET_WITH_VERSION)
    for version in (1, 3, 2 + 2 ** 63, 2):
        out += request(REMOVE_IF_UNMODIFIED, entry_version=version, **told) + request(GET_WITH_VERSION)
    return out + request(PUT, value=b'three') + request(GET_WITH_VERSION)


def versions_mixed():
    """Each operation in each protocol version behind each, with the old value asked for."""
    out = b''
    for one, other in itertools.product(GREATEST_FLAGS, repeat=2):
        for operation in (PUT, PUT_IF_ABSENT, REPLACE, REPLACE_IF_UNMODIFIED, REMOVE, REMOVE_IF_UNMODIFIED):
            out += request(PUT, value=b'one', version=one, flags=1) + request(operation, value=b'two', version=other, flags=1, entry_version=1)
            out += request(operation, value=b'', version=one, flags=1) + request(operation, value=b'x', version=other, flags=1) + request(STATS, version=other)
    return out


def told_by_status(bench):
    """The replies of version 20 with flag 0x0001, by document 000: 03 and 04 with the value held before, and no old value at another status."""
    # Operation, entry version, status where the key is absent, status where it holds `Ida`.
    for operation, entry_version, absent, held in ((PUT, 0, 0, 3), (PUT_IF_ABSENT, 0, 0, 4), (REPLACE, 0, 1, 3), (REPLACE_IF_UNMODIFIED, 1, 2, 3),
                                                   (REPLACE_IF_UNMODIFIED, 9, 2, 4), (REMOVE, 0, 2, 3), (REMOVE_IF_UNMODIFIED, 1, 2, 3),
                                                   (REMOVE_IF_UNMODIFIED, 9, 2, 4)):
        for flags in (1, 9, 17, 29, 31):
            call = request(operation, entry_version=entry_version, version=20, flags=flags)
            case = f'version 20, operation {operation:02x}, flags {flags}'
            for table, wanted in ((head_line(1), bytes([absent, 0])), (head_line(1) + entry_line(1, value=b'Ida'), bytes([held, 0, 3]) + b'Ida'),
                                  (head_line(1) + entry_line(1, value=b''), bytes([held, 0, 0]))):
                got = bench.same(case, call, table)
                wanted = (bytes([0xa1, 1, operation + 1]) + wanted).hex().encode() + b'\n'
                demand(got.out == wanted, case, f'the second program gives {got.out!r}, the paper {wanted!r}')


def values():
    """Values and keys with all bytes, of no bytes and of the most bytes."""
    every = bytes(range(256))
    yield 'every byte in a value', request(PUT, value=every) + request(GET) + request(PUT, value=every[::-1], flags=1) + request(REMOVE, flags=1)
    yield 'line ends in key and value', request(PUT, key=b'\n', value=b'\n\n') + request(GET, key=b'\n') + request(GET, key=b'\n\n')
    for length in (0, 1, 63, 64):
        key = b'\n' * length
        yield f'key of {length}', request(PUT, key=key, value=b'x') + request(GET_WITH_VERSION, key=key) + request(REMOVE, key=key, flags=1)
    for length in (0, 1, 127, 128, 129, 255, 256):
        yield f'value of {length}', request(PUT, value=b'\n' * length) + request(GET_WITH_VERSION) + request(PUT, value=b'', flags=1)
    largest = dict(message=LARGEST_VERSION, key=b'k' * 64, value=b'v' * 256, topology=LARGEST_SECOND, lifespan=LARGEST_SECOND,
                   idle=LARGEST_SECOND, entry_version=1)
    yield 'the longest request and reply', (request(PUT, **largest) + request(GET_WITH_VERSION, **largest)
                                            + request(REPLACE_IF_UNMODIFIED, flags=1, **largest) + request(GET, **largest))
    yield 'message ids', b''.join(request(PING, message=2 ** bits - less) for bits in range(1, 64) for less in (0, 1))
    yield 'topologies and lifespans', b''.join(request(PUT, topology=2 ** bits - 1, lifespan=2 ** bits - 1, idle=2 ** bits - 1)
                                               + request(GET_WITH_VERSION) for bits in range(33))


def deadline(second, lifespan, flags):
    """The papers' deadline of a put: none for lifespan 0 or flag 0x0002, and a lifespan above 30 days is a date."""
    if lifespan == 0 or flags & 2:
        return 0
    return second + lifespan if lifespan <= THIRTY_DAYS else lifespan


def stored_entry(second, deadline):
    """The line of an entry of version 1 in a TABLE stored at this second, or none where it has expired."""
    return entry_line(1, deadline=deadline) if deadline == 0 or deadline > second else b''


def deadlines(bench):
    """Deadlines are seen in the TABLE, which holds the entries that stand."""
    for second in (0, 1, 0x7fffffff, 0x80000000, LARGEST_SECOND):
        for lifespan in (0, 1, 127, 128, THIRTY_DAYS - 1, THIRTY_DAYS, THIRTY_DAYS + 1, THIRTY_DAYS + 2, 0x80000000, LARGEST_SECOND):
            for flags in (0, 2, 4, 6):
                case = f'second {second}, lifespan {lifespan}, flags {flags}'
                got = bench.same(case, request(PUT, second, lifespan=lifespan, idle=5, version=12, flags=flags), ABSENT)
                wanted = head_line(1) + stored_entry(second, deadline(second, lifespan, flags))
                demand(got.table == wanted, case, f'the second program stores {got.table!r}, the paper {wanted!r}')


# A lifespan, a second, and the deadline that they give without flag 0x0002, worked out by hand.
DEADLINES = ((0, 0, 0), (1, 0, 1), (2_592_000, 0, 2_592_000), (2_592_001, 0, 2_592_001), (4_294_967_295, 0, 4_294_967_295),
             (0, 4_294_967_295, 0), (1, 4_294_967_295, 4_294_967_296), (2_592_000, 4_294_967_295, 4_297_559_295),
             (2_592_001, 4_294_967_295, 2_592_001), (4_294_967_295, 4_294_967_295, 4_294_967_295))


def deadline_edges(bench):
    """The edges between spans and dates, each with the TABLE that it leaves."""
    for lifespan, second, deadline in DEADLINES:
        for flags in range(8):
            case = f'lifespan {lifespan} at second {second}, flags {flags}'
            wanted = head_line(1) + stored_entry(second, 0 if flags & 2 else deadline)
            got = bench.same(case, request(PUT, second, lifespan=lifespan, idle=5, version=12, flags=flags), ABSENT)
            demand(got.table == wanted, case, f'the second program leaves {got.table!r}, the paper {wanted!r}')
            bench.same(f'{case}, then a look', request(GET_WITH_VERSION, second), got.table)


NAMES = ('timeSinceStart', 'currentNumberOfEntries', 'totalNumberOfEntries', 'stores', 'retrievals', 'hits', 'misses', 'removeHits',
         'removeMisses')


def stats_line(*values):
    """The reply to a stats request, with these nine values."""
    data = b'\xa1\x01\x16\0\0' + number(len(NAMES))
    for name, value in zip(NAMES, values, strict=True):
        data += sized(name.encode()) + sized(b'%d' % value)
    return data.hex().encode() + b'\n'


def statistics(bench):
    """What stats replies tell, worked out by hand, from a fresh table and from one that was loaded."""
    bad = b'x\n' + line(b'\xa1') + line(header(STATS) + b'\0', 3) + request(STATS, 3, name=b'x')
    calls = (request(STATS, 10) + request(PUT, 12, key=b'a') + request(PUT, 12, key=b'a') + request(PUT_IF_ABSENT, 11, key=b'b')
             + request(GET, 11, key=b'a') + request(GET, 11, key=b'c') + request(GET, 11, key=b'c') + request(GET_WITH_VERSION, 11, key=b'a')
             + request(REMOVE, 11, key=b'a') + request(REMOVE, 11, key=b'a') + request(PUT, 11, name=b'x') + request(STATS, 17)
             + request(CLEAR, 5) + request(STATS, 9) + request(STATS, LARGEST_SECOND))
    for held, table in ((0, ABSENT), (1, head_line(7) + entry_line(5))):
        got = bench.same(f'statistics with {held} keys at first', bad + calls, table)
        wanted = [stats_line(0, held, 0, 0, 0, 0, 0, 0, 0), stats_line(7, held + 1, 2, 2, 3, 1, 2, 1, 1), stats_line(0, 0, 2, 2, 3, 1, 2, 1, 1),
                  stats_line(LARGEST_SECOND - 10, 0, 2, 2, 3, 1, 2, 1, 1)]
        told = [text + b'\n' for text in got.out.splitlines() if text.startswith(b'a10116')]
        demand(told == wanted, 'statistics', f'the second program tells {told!r}, the paper {wanted!r}')
        bench.same('statistics behind a load', request(STATS, 4), got.table)


def bulk_line(operation, entries):
    """The reply to a bulk request with these keys and values."""
    data = b'\xa1\x01' + bytes([operation + 1]) + b'\0\0'
    for key, value in entries:
        data += b'\1' + sized(key) + (sized(value) if operation == BULK_GET else b'')
    return (data + b'\0').hex().encode() + b'\n'


def bulk_table(held, long=False):
    """A stored table with so many entries, and their keys and values, in the order of versions."""
    if long:
        entries = [(bytes([255 - at]) * 64, b'%3d' % at + b'v' * 253) for at in range(held)]
    else:
        entries = [(key_name(3 * at % 256), b'v' * (at % 7)) for at in range(held)]
    lines = (entry_line(2 * at + 1, key, value, at % 3) for at, (key, value) in enumerate(entries))
    return head_line(2 * held + 5) + b''.join(lines), entries


def bulk(bench):
    """What bulk replies list, for tables of several sizes: all of it, the lowest versions of it, and the keys alone."""
    for held, long in ((0, False), (1, False), (96, False), (128, False), (128, True)):
        table, entries = bulk_table(held, long)
        calls, wanted = b'', b''
        for count in (0, 1, 2, 95, 96, 127, 128, 129, LARGEST_SECOND):
            for version in GREATEST_FLAGS:
                calls += request(BULK_GET, bulk=count, version=version)
                wanted += bulk_line(BULK_GET, entries[:count or held])
        for scope in (0, 1, 2):
            for version in (12, 20):
                calls += request(BULK_GET_KEYS, bulk=scope, version=version)
                wanted += bulk_line(BULK_GET_KEYS, entries)
        case = f'bulk requests with {held} entries'
        got = bench.same(case, calls, table)
        demand(got.out == wanted, case, 'the second program does not list what the paper says')
    bench.same('bulk requests between writes', moved(), ABSENT)
    case = 'statistics behind bulk requests'
    got = bench.same(case, request(BULK_GET, 7) + request(BULK_GET_KEYS, 9) + request(STATS, 10), bulk_table(3)[0])
    demand(got.out.endswith(stats_line(3, 1, 0, 0, 0, 0, 0, 0, 0)), case, f'the second program tells {got.out!r}')


def moved():
    """Writes and removals, with a look at all entries after each."""
    look = request(BULK_GET) + request(BULK_GET, bulk=2) + request(BULK_GET_KEYS, bulk=1)
    out = look
    for at in (5, 3, 9, 1, 7, 3, 5):
        out += request(PUT, key=key_name(at), value=b'%d' % at) + look
    for at in (9, 3, 3):
        out += request(REMOVE, key=key_name(at)) + look
    return out + request(CLEAR) + look


NONE, HIT = b'a101040200\n', b'a1010400000176\n'  # replies to a get of `k`
DONE, FULL = b'a101020000\n', error_line(10)        # replies to a put
GONE = head_line(1)                                 # a TABLE whose one entry has expired


def expiry(bench):
    """Entries that expire: the replies and the TABLE, worked out by hand."""
    elsewhere = {second: request(PING, second, name=b'x') for second in (10, 11, LARGEST_SECOND)}
    no_cache = error_line(9)
    one = head_line(1) + entry_line(1, deadline=10)
    past = dict(key=b'k', value=b'v', lifespan=THIRTY_DAYS + 1)
    cases = [
        ('before the deadline', one, request(GET, 9), HIT, one),
        ('at the deadline', one, request(GET, 10), NONE, GONE),
        ('behind the deadline', one, request(GET, 11), NONE, GONE),
        ('at the last second', one, request(GET, LARGEST_SECOND), NONE, GONE),
        ('the clock goes back', one, request(PING, 10) + request(GET, 9), b'a101180000\n' + NONE, GONE),
        ('a put for five seconds', ABSENT, request(PUT, 5, lifespan=5) + request(GET, 9) + request(GET, 10), DONE + HIT + NONE, GONE),
        ('reckoned from the present second', ABSENT, request(PING, 100) + request(PUT, 5, lifespan=5) + request(GET, 104),
         b'a101180000\n' + DONE + HIT, head_line(1) + entry_line(1, deadline=105)),
        ('a past date', ABSENT, request(PUT, 3_000_000, **past) + request(GET, 0), DONE + NONE, GONE),
        ('a past date at the end', ABSENT, request(PUT, 3_000_000, **past), DONE, GONE),
        ('a past date over a held key', head_line(1) + entry_line(1), request(PUT, 3_000_000, **past) + request(GET, 0), DONE + NONE, head_line(2)),
        ('no lifespan', ABSENT, request(PUT, 5) + request(GET, LARGEST_SECOND), DONE + HIT, head_line(1) + entry_line(1)),
        ('no request', one, b'', b'', one),
    ]
    for second, refused in elsewhere.items():
        cases.append((f'refused at {second}', one, refused + request(GET, 9), no_cache + HIT, one))
    for case, table, requests, replies, left in cases:
        got = bench.same(f'expiry: {case}', requests, table)
        demand((got.out, got.table) == (replies, left), f'expiry: {case}', f'the second program gives {got.out!r} and leaves {got.table!r}')
    expired_rows(bench)
    two_runs(bench)


def expired_rows(bench):
    """A full table of which the first entries expire at second 10: refusal 10, listings and statistics count those that stand."""
    new = request(PUT, 9, key=b'new'), request(PUT, 10, key=b'new'), request(PUT, 10, key=b'more')
    for expired in (0, 1, 2, 128):
        keys = [(key_name(at), b'%d' % at) for at in range(MOST_KEYS)]
        lines = [entry_line(at + 1, key, value, 10 if at < expired else 0) for at, (key, value) in enumerate(keys)]
        table, standing, case = head_line(MOST_KEYS) + b''.join(lines), keys[expired:], f'expiry: {expired} of 128'
        look = request(BULK_GET, 10) + request(BULK_GET, 10, bulk=1) + request(BULK_GET_KEYS, 10) + request(STATS, 10)
        wanted = (bulk_line(BULK_GET, standing) + bulk_line(BULK_GET, standing[:1]) + bulk_line(BULK_GET_KEYS, standing)
                  + stats_line(0, len(standing), 0, 0, 0, 0, 0, 0, 0))
        got = bench.same(f'{case}, listings', look, table)
        demand(got.out == wanted, case, 'the second program does not list what stands')
        replies = FULL + (FULL if expired < 1 else DONE) + (FULL if expired < 2 else DONE)
        got = bench.same(f'{case}, writes', b''.join(new), table)
        demand(got.out == replies, case, f'the second program gives {got.out!r}, the paper {replies!r}')
        tries = b''.join(request(operation, 10, key=key_name(0), value=b'x', flags=1, entry_version=1) for operation in OPERATIONS)
        bench.same(f'{case}, each operation', tries + look, table)
        bench.same(f'{case}, each operation before', tries.replace(b'0000000a ', b'00000009 ') + look, table)


def two_runs(bench):
    """A loaded table starts from second 0: a run over the TABLE of a later run may have earlier seconds."""
    first = bench.same('expiry: the first run', request(PUT, 1000, lifespan=50), ABSENT)
    for second, reply in ((0, HIT), (1049, HIT), (1050, NONE)):
        got = bench.same(f'expiry: the second run at {second}', request(GET, second), first.table)
        demand(got.out == reply, f'expiry: the second run at {second}', f'the second program gives {got.out!r}')
    again = bench.same('expiry: reckoned from second 0', request(PUT, 3, lifespan=4), first.table)
    demand(again.table == head_line(2) + entry_line(2, deadline=7), 'expiry: reckoned from second 0', f'the second program leaves {again.table!r}')


def many_keys():
    """The 129th key, and writes to a full table."""
    fill = b''.join(request(PUT, key=key_name(at), value=b'%d' % at) for at in range(MOST_KEYS))
    new, held = key_name(MOST_KEYS), key_name(77)
    look = request(CONTAINS_KEY, key=new) + request(GET_WITH_VERSION, key=held)
    tries = b''.join(request(operation, key=key, value=b'x', flags=1, entry_version=78) + look
                     for operation in (PUT, PUT_IF_ABSENT, REPLACE, REPLACE_IF_UNMODIFIED) for key in (new, held))
    yield '128 keys', fill
    yield '129 keys', fill + request(PUT, key=new)
    yield 'writes at 128 keys', fill + tries
    yield 'room freed and used again', (fill + request(REMOVE, key=key_name(5), flags=1) + request(PUT, key=new)
                                        + request(PUT, key=key_name(5)) + look)
    yield 'cleared and filled again', fill + request(CLEAR) + look + fill[::1] + tries
    yield '300 keys', b''.join(request(PUT, key=key_name(at)) for at in range(300)) + b''.join(request(GET, key=key_name(at)) for at in range(300))


def last_versions(bench):
    """The last version, through a TABLE."""
    writes = b''.join(request(operation, key=key, value=b'x', flags=1, entry_version=LARGEST_VERSION)
                      + request(GET_WITH_VERSION, key=key)
                      for operation in (PUT, PUT_IF_ABSENT, REPLACE, REPLACE_IF_UNMODIFIED, REMOVE_IF_UNMODIFIED, REMOVE, PUT, CLEAR, PUT)
                      for key in (b'k', b'none'))
    for last in range(LARGEST_VERSION - 3, LARGEST_VERSION + 1):
        for held in (1, last):
            bench.same(f'last version {last}', writes, head_line(last) + entry_line(held))
        bench.same(f'last version {last}, no entry', writes, head_line(last))
    full = head_line(LARGEST_VERSION) + b''.join(entry_line(at + 1, key_name(at)) for at in range(MOST_KEYS))
    got = bench.same('full and no version left', request(PUT, key=b'new') + request(PUT, key=key_name(3)) + writes, full)
    wanted = error_line(10) + error_line(11)
    demand(got.out.startswith(wanted), 'full and no version left', f'the second program gives {got.out!r}, the paper {wanted!r}')


def plain_files():
    for maker in (long_lines, sizes, odd_bytes, cut_frames, operations, values, many_keys):
        yield from maker()


def part():
    with Bench() as bench:
        for case, requests, wanted in line_forms():
            for table in (ABSENT, head_line(7) + entry_line(5)):
                got = bench.same(case, requests, table)
                demand(wanted in (None, got.out), case, f'the second program gives {got.out!r}, the paper {wanted!r}')
            bench.same(case, requests)
            bench.same(f'{case}, then a good line', requests + b'\n' + GOOD + AFTER, ABSENT)
        refusal_files(bench)
        for case, requests in plain_files():
            bench.same(case, requests, ABSENT)
        told_by_status(bench)
        deadlines(bench)
        last_versions(bench)
        deadline_edges(bench)
        statistics(bench)
        bulk(bench)
        expiry(bench)
        return f'{bench.count} files of corners, same replies and same tables'


if __name__ == '__main__':
    run_part('2 corners', part)
