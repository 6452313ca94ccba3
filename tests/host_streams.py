"""Part 1: streams. Every cut of a stream, many requests in one write, refusals that end a stream and refusals that do not, noise, an end in the middle."""
import random
import selectors
import socket
import time

from board_frames import (BULK_GET, BULK_GET_KEYS, CLEAR, CONTAINS_KEY, GET, GET_WITH_VERSION, OPERATIONS, PING, PUT, PUT_IF_ABSENT, REMOVE, REMOVE_IF_UNMODIFIED, REPLACE,
                          frame, header, key_name)
from host_run import Bench, Difference, Host, LONG, demand, reference, run_part, short

LONG_KEY, LONG_VALUE = b'k' * 64, bytes(range(256))
STREAM = [frame(PING, message=300), frame(PUT, key=b'b1', value=b'Ida', lifespan=100), frame(GET, key=b'b1'), frame(GET_WITH_VERSION, key=b'b1'),
          frame(PUT_IF_ABSENT, key=b'b1', value=b'Bo', flags=1), frame(REPLACE, key=LONG_KEY, value=b'', flags=1, version=12),
          frame(PUT, key=LONG_KEY, value=LONG_VALUE[:40], flags=7, version=12), frame(BULK_GET, bulk=1), frame(BULK_GET), frame(BULK_GET_KEYS, bulk=2),
          frame(PUT_IF_ABSENT, key=b'b1', value=b'Cai', flags=9, version=20), frame(PUT, key=b'b1', value=b'', flags=31, version=20),
          frame(REMOVE, key=b'b1', flags=1), frame(CONTAINS_KEY, key=b'b1', version=20), frame(REMOVE, key=LONG_KEY, flags=1, version=20),
          frame(PING, name=b'cafe'), frame(REMOVE_IF_UNMODIFIED, key=b'b1', entry_version=1), frame(CLEAR)]


def cuts(bench):
    """A stream cut at every place, and byte by byte. The second program serves all of them in a row."""
    whole = b''.join(STREAM)
    replies, left = reference(STREAM * (len(whole) + 2))
    with Host(bench.table('cuts')) as host:
        for cut in range(len(whole) + 1):
            wanted = b''.join(replies[cut * len(STREAM):(cut + 1) * len(STREAM)])
            with host.connect() as caller:
                caller.send(whole[:cut])
                before = sum(1 for end in ends(STREAM) if end <= cut)
                begun = b''.join(replies[cut * len(STREAM):][:before])
                case = f'a stream of {len(whole)} bytes, cut behind {cut}'
                demand(caller.read(len(begun), case) == begun, case, 'other replies before the cut')
                time.sleep(0.001)
                caller.send(whole[cut:])
                caller.end()
                demand(begun + caller.rest(case) == wanted, case, f'the replies are not {short(wanted)}')
        with host.connect() as caller:
            for byte in whole:
                caller.send(bytes([byte]))
                time.sleep(0.0005)
            caller.end()
            wanted = b''.join(replies[-len(STREAM):])
            demand(caller.rest('byte by byte') == wanted, 'byte by byte', f'the replies are not {short(wanted)}')
        demand(host.stop() == 0, 'the end', host.words())
    with open(host.table, 'rb') as file:
        demand(file.read() == left, 'the table left', f'it is not {short(left)}')
    return len(whole) + 2


def ends(frames):
    at = 0
    for one in frames:
        at += len(one)
        yield at


def pipelined(bench):
    """Many requests in one write, far more than the buffers hold, to one connection and to several at once."""
    random.seed(5)
    with Host(bench.table('pipelined')) as host:
        puts = [frame(PUT, key=key_name(at), value=bytes([at]) * 256) for at in range(128)]
        frames = [frame(BULK_GET) if at % 100 == 99 else frame(GET, key=key_name(random.randrange(130)), message=at, version=random.choice((10, 11, 12, 20))) for at in range(4000)]
        replies, _ = reference(puts + frames)
        with host.connect() as caller:
            feed([caller], b''.join(puts), b''.join(replies[:len(puts)]))
        wanted = b''.join(replies[len(puts):])
        for count in (1, 5):
            callers = [host.connect() for _ in range(count)]
            try:
                for caller in callers:
                    caller.socket.settimeout(None)
                feed(callers, b''.join(frames), wanted)
            finally:
                for caller in callers:
                    caller.socket.close()
    return len(puts) + 6 * len(frames)


def feed(callers, data, wanted):
    """Writes all to each connection and ends it, and reads as it comes."""
    waiting = selectors.DefaultSelector()
    state = {}
    for caller in callers:
        caller.socket.setblocking(False)
        state[caller.socket] = [0, 0]
        waiting.register(caller.socket, selectors.EVENT_READ | selectors.EVENT_WRITE)
    end = time.monotonic() + 20
    while state:
        demand(time.monotonic() < end, 'many requests', f'after 20 seconds {[tuple(one) for one in state.values()]} bytes were sent and came')
        for key, events in waiting.select(1):
            place = state[key.fileobj]
            if events & selectors.EVENT_WRITE:
                place[0] += key.fileobj.send(data[place[0]:place[0] + 100_000])
                if place[0] == len(data):
                    key.fileobj.shutdown(socket.SHUT_WR)
                    waiting.modify(key.fileobj, selectors.EVENT_READ)
            if events & selectors.EVENT_READ:
                came = key.fileobj.recv(65536)
                demand(came and wanted[place[1]:place[1] + len(came)] == came, 'many requests', f'behind {place[1]} bytes {short(came)} came')
                place[1] += len(came)
                if place[1] == len(wanted):
                    waiting.unregister(key.fileobj)
                    del state[key.fileobj]


BAD = [b'\xff', b'\xa0\x80\x00', b'\xa0\x01\x0d', b'\xa0\x01\x0a\x02', b'\xa0\x01\x0a\x01\x80\x00', b'\xa0\x01\x0a\x01\x21', b'\xa0\x01\x0a\x01\x01\xff',
       header(PUT, flags=2), header(GET, version=12) + b'\x41', b'\xa0\x01\x14\x29', header(PING, flags=32, version=20), header(GET, version=20) + b'\x41']


def refusals(bench):
    """1 to 8 give their error reply behind the replies before, and close; what was sent behind is passed over, however much. 9 to 11 go on."""
    good = frame(PUT, key=b'a', value=b'b')
    with Host(bench.table('refusals')) as host:
        for at, bad in enumerate(BAD):
            replies, _ = reference([bad])
            for before in (0, 3):
                for behind in (b'', good, b'\xa0' * 300_000):
                    case = f'refused bytes {bad.hex()}, {before} requests before, {len(behind)} bytes behind'
                    wanted = reference([good] * before)[0] + replies
                    with host.connect() as one, host.connect() as other:
                        other.send(good)  # so that two are served together
                        one.send(good * before + bad)
                        for piece in (behind[:len(behind) // 2], behind[len(behind) // 2:], behind and b'end'):
                            try:
                                one.send(piece)
                            except ConnectionError as error:
                                raise Difference(f'{case}: {error}') from error
                            time.sleep(0.005)
                        demand(one.rest(case) == b''.join(wanted), case, f'the replies are not {wanted}')
                        other.reply(PUT)
        with host.connect() as caller:
            frames = [frame(PUT, key=key_name(at)) for at in range(128)] + [frame(PUT, key=b'more'), frame(PING, name=b'x'), frame(PING)]
            caller.send(frame(CLEAR) + b''.join(frames))
            wanted = reference([frame(CLEAR)] + frames)[0]
            demand(wanted[-3][2] == 0x50 and wanted[-2][2] == 0x50, 'refusals 9 and 10', 'the second program does not refuse')
            caller.end()
            demand(caller.rest('refusals 9 and 10') == b''.join(wanted), 'refusals 9 and 10', 'other replies')
    return 6 * len(BAD) + 2


def noise(bench):
    """Bytes by chance, and good requests with one byte changed."""
    random.seed(7)
    blobs = [random.randbytes(random.randrange(1, 500)) for _ in range(150)]
    for _ in range(1500 if LONG else 400):
        data = bytearray(frame(random.choice(OPERATIONS), key=random.randbytes(5), value=random.randbytes(9), version=random.choice((10, 11, 12))))
        data[random.randrange(len(data))] = random.randrange(256)
        blobs.append(bytes(data))
    counted = 0
    with Host(bench.table('noise')) as host:
        # Each blob begins on an empty table, which a clear makes, so that each reply is known.
        replies = reference([one for blob in blobs for one in (frame(CLEAR), blob)])[0][1::2]
        for blob, wanted in zip(blobs, replies):
            with host.connect() as caller:
                caller.call(CLEAR)
                caller.send(blob)
                caller.end()
                came = caller.rest(f'noise {blob.hex()}')
                if not wanted.startswith(b'refused') and wanted[2] not in (0x12, 0x16):  # versions, and seconds since start
                    demand(came == wanted, f'noise {blob.hex()}', f'{short(came)} came, wanted {short(wanted)}')
                    counted += 1
        with host.connect() as caller:
            demand(caller.call(PING).status == 0, 'behind the noise', 'no ping is answered')
    demand(counted > 300, 'noise', f'only {counted} replies were compared')
    return len(blobs)


def waiting(bench):
    """A request that is not whole waits, and its connection ends with the client's end."""
    with Host(bench.table('waiting')) as host, host.connect() as caller:
        caller.send(frame(PUT)[:-1])
        caller.silent('a request that is not whole')
        caller.end()
        demand(caller.rest('an end in a request') == b'', 'an end in a request', 'a reply came')
    return 1


def part():
    with Bench() as bench:
        return (f'{cuts(bench)} cuts, {pipelined(bench)} requests in large writes, {refusals(bench)} refusals, {noise(bench)} noises, '
                f'{waiting(bench)} end in a request')


if __name__ == '__main__':
    run_part('1 streams', part)
