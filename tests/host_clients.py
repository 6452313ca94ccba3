"""Part 3: clients that behave badly: one that never reads, a slow one, too many, idle ones, and connections one after another."""
import os
import re
import resource
import socket
import statistics
import struct
import subprocess
import threading
import time

from board_frames import BULK_GET, GET, PING, PUT, frame, key_name
from host_run import Bench, Host, PROGRAM, SECONDS, demand, read_file, run_part, short, together, until

ROW = 10_000  # connections one after another
VALUE = bytes(range(256))


def stuff(caller, data, case):
    """Writes the data again and again until nothing is taken for half a second; gives how many bytes."""
    sent = 0
    caller.socket.settimeout(0.5)
    try:
        while sent < 200_000_000:
            sent += caller.socket.send(data[sent % len(data):])
    except TimeoutError:
        caller.socket.settimeout(SECONDS)
        return sent
    demand(False, case, f'{sent} bytes were taken from a client that does not read')
    return sent


def demand_rest(host, case):
    """The server waits, and does not turn in vain."""
    before = host.busy()
    time.sleep(0.5)
    demand(host.busy() - before < 0.1, case, f'it is busy for {host.busy() - before} of 0.5 seconds')


def never_reads(bench):
    """It stops being read from, the server does not grow, others are served at once; when it reads, all its replies are there."""
    with Host(bench.table('never')) as host, host.connect() as good, host.connect() as bad:
        good.call(PUT, key=b'k', value=VALUE)
        bad.socket.setsockopt(socket.SOL_SOCKET, socket.SO_SNDBUF, 32768)
        before = host.memory()
        one = frame(GET, key=b'k')
        sent = stuff(bad, one * 1000, 'never reads')
        grown = host.memory() - before
        demand(grown < 1000, 'never reads', f'the server grew by {grown} kB')
        demand_rest(host, 'never reads')
        for _ in range(100):
            demand(good.call(GET, key=b'k').value == VALUE, 'beside one that never reads', 'another value')
        # It reads at last, slowly first.
        wanted = b'\xa1\x01\x04\x00\x00\x80\x02' + VALUE
        count = sent // len(one)
        for at in range(50):
            demand(bad.socket.recv(1) == wanted[at:at + 1], 'a slow client', 'another byte')
            time.sleep(0.002)
        bad.end()
        came = wanted[:50] + bad.rest('a slow client')
        demand(came == wanted * count, 'a slow client', f'{len(came)} bytes came to {count} requests, {short(came[-300:])} at the end')
        until(lambda: host.files() == files_of(1), 'a client that left', f'{host.files()} files are open')
    return count


def never_reads_bulk(bench):
    """The same with replies of many kilobytes."""
    with Host(bench.table('bulk')) as host, host.connect() as good, host.connect() as bad:
        for at in range(128):
            good.call(PUT, key=key_name(at), value=VALUE)
        before, count = host.memory(), 2000
        bad.send(frame(BULK_GET) * count)
        time.sleep(0.3)
        grown = host.memory() - before
        demand(grown < 1000, 'bulk replies never read', f'the server grew by {grown} kB')
        demand_rest(host, 'bulk replies never read')
        wanted = [(key_name(at), VALUE) for at in range(128)]
        for _ in range(20):
            demand(good.call(BULK_GET).entries == wanted, 'beside one that never reads', 'other entries')
        bad.end()
        reply = b'\xa1\x01\x1a\0\0' + b''.join(b'\1\3' + key + b'\x80\2' + value for key, value in wanted) + b'\0'
        demand(bad.rest('bulk replies read late') == reply * count, 'bulk replies read late', 'other replies')
    return count


def files_of(connections):
    """Files that a server has with so many connections: three, and folder, two polls, signals and listener."""
    return 8 + connections


def queues(host, caller):
    """Of the server's end of a connection: whether it sends, and how many bytes wait to be read by the server, as the system tells."""
    ends = '%04X' % host.port, '%04X' % caller.socket.getsockname()[1]
    for line in read_file('/proc/net/tcp').decode().splitlines()[1:]:
        words = line.split()
        if (words[1][-4:], words[2][-4:]) == ends:
            return int(words[3], 16) == ESTABLISHED, int(words[4].split(':')[1], 16)
    return False, 0


def is_stuck(host, caller):
    """Whether the server does not read on for a while."""
    return all(queues(host, caller)[1] > 0 and time.sleep(0.002) is None for _ in range(25))


ESTABLISHED, BURST, LAST = 1, 50, 230  # gets sent at a time, and at the end, whose replies have less than the 64 KB that the server keeps


def burst(caller, good, count):
    """Sends so many bursts of gets, and waits until the server has seen them: it answers the other connection behind them."""
    for _ in range(count):
        caller.send(frame(GET, key=b'k') * BURST)
        good.call(PING)


def bursts_taken(host, good, first, step):
    """How many bursts are sent to a client that does not read until the server reads no more of them."""
    with host.connect(4096) as caller:
        burst(caller, good, first)
        while not is_stuck(host, caller):
            burst(caller, good, step)
            first += step
    return first


def slow_behind_refusal(bench):
    """One that takes its replies late, behind a refusal and with more of them than the system keeps, gets all of them and the error reply. How many the system
    keeps is seen at connections before it."""
    with Host(bench.table('late')) as host, host.connect() as good, host.connect(4096) as late:
        good.call(PUT, key=b'k', value=VALUE)
        one, wanted = frame(GET, key=b'k'), b'\xa1\x01\x04\x00\x00\x80\x02' + VALUE
        bursts = bursts_taken(host, good, max(0, bursts_taken(host, good, 0, 16) - 24), 1)
        burst(late, good, bursts - 4)
        late.send(one * LAST + b'\xff')
        time.sleep(0.5)
        demand(queues(host, late) == (True, 0), 'a slow client', f'nothing is shown: {queues(host, late)}, where the server has all requests and keeps some replies')
        time.sleep(3.5)
        count = (bursts - 4) * BURST + LAST
        came = late.rest('a slow client behind a refusal')
        demand(came == wanted * count + b'\xa1\x00\x50\x81\x00\x09bad magic', 'a slow client behind a refusal',
               f'{len(came)} bytes came to {count} requests, {short(came[-300:])} at the end')
    return count


def greedy(bench, operation):
    """One that sends without end, and reads as fast, does not keep another from being served; gives how many calls the other made meanwhile."""
    with Host(bench.table(f'greedy{operation}')) as host, host.connect() as many, host.connect() as one:
        one.call(PUT, value=VALUE)
        for at in range(127):
            one.call(PUT, key=key_name(at), value=VALUE)
        many.socket.settimeout(None)
        data, room, read = frame(operation) * 20_000, bytearray(1 << 20), [0]

        def write():
            try:
                while True:
                    many.socket.sendall(data)
            except OSError:
                pass  # it is shut

        def take():
            try:
                while count := many.socket.recv_into(room):
                    read[0] += count
            except OSError:
                pass

        threads = [threading.Thread(target=target) for target in (write, take)]
        for thread in threads:
            thread.start()
        calls, begin = [], time.monotonic()
        while time.monotonic() < begin + 1:
            before = time.monotonic()
            one.call(operation)
            calls.append(time.monotonic() - before)
        many.socket.shutdown(socket.SHUT_RDWR)
        for thread in threads:
            thread.join(SECONDS)
        demand(statistics.median(calls) < 0.1, 'beside a greedy one', f'most calls took {statistics.median(calls)} seconds')
        demand(read[0] > 1_000_000, 'a greedy one', f'only {read[0]} bytes were read')
    return len(calls)


def gone(bench):
    """Clients that are gone in the middle, by a reset, with replies unread: their places are free again."""
    with Host(bench.table('gone')) as host:
        for at in range(200):
            caller = host.connect()
            caller.send(frame(PUT, value=VALUE) + frame(GET) * (at % 50) + frame(PUT)[:at % 12])
            reset(caller)
        until(lambda: host.files() == files_of(0), 'clients that are gone', f'{host.files()} files are open')
        with host.connect() as caller:
            demand(caller.call(PING).status == 0, 'clients that are gone', 'no ping is answered')
    return 200


def rests(bench):
    """Behind many quick calls the server rests, and beside one that calls rarely it rests for the most part."""
    with Host(bench.table('rests')) as host, host.connect() as caller:
        for _ in range(5000):
            caller.call(PING)
        demand_rest(host, 'behind quick calls')
        before, begin, count = host.busy(), time.monotonic(), 0
        while time.monotonic() < begin + 1:
            caller.call(PING)
            time.sleep(0.005)
            count += 1
        demand(host.busy() - before < 0.1, 'beside rare calls', f'it is busy for {host.busy() - before} seconds with {count} calls')
    return 5000 + count


def reset(caller):
    caller.socket.setsockopt(socket.SOL_SOCKET, socket.SO_LINGER, struct.pack('ii', 1, 0))
    caller.socket.close()


def too_many(bench):
    """One above the limit gets an error reply and a close, also where it has sent something; the others are served on, and a free place is given again."""
    with Host(bench.table('limit'), '--connections', '4') as host:
        callers = [host.connect() for _ in range(4)]
        for caller in callers:
            caller.call(PING)
        for data in (b'', frame(PING, message=77), b'x' * 100_000):
            with host.connect() as more:
                try:
                    more.send(data)
                except ConnectionError:
                    pass
                reply = more.reply(PING)
                demand((reply.operation, reply.status, reply.message, reply.text) == (0x50, 0x85, 0, b'too many connections'), 'too many', vars(reply))
                demand(more.rest('too many') == b'', 'too many', 'more came')
        crowd = [host.connect() for _ in range(100)]  # most of them are closed at once
        demand(host.files() <= files_of(4 + 16), 'a crowd', f'{host.files()} files are open')
        for caller in callers:
            demand(caller.call(PING).status == 0, 'too many', 'those within the limit are not served')
        for caller in crowd + callers:
            caller.socket.close()
        until(lambda: host.files() == files_of(0), 'a crowd', f'{host.files()} files are open')
        with host.connect() as caller:
            demand(caller.call(PING).operation == PING + 1, 'too many', 'a free place is not given again')
        demand(host.words().count('4 connections are open, which is the limit') == 1, 'too many', f'it says {host.words()}')
    return 103


def lingering(bench):
    """A connection that has got its last reply counts no more; the number that is told is that of the others, and one is not told as many."""
    for limit in (1, 2):
        with Host(bench.table(f'linger{limit}'), '--connections', str(limit)) as host:
            gone = [host.connect() for _ in range(limit)]
            for caller in gone:
                caller.send(b'\xff')
                caller.reply(PING)
            callers = [host.connect() for _ in range(limit)]
            for caller in callers:
                demand(caller.call(PING).operation == PING + 1, 'beside one that leaves', 'no place is free')
            more = host.connect()
            demand(more.reply(PING).text == b'too many connections', 'too many', 'it is served')
            told = ('1 connection is open', '2 connections are open')[limit - 1] + ', which is the limit (--connections)'
            until(lambda: told in host.words(), 'too many', f'it says {host.words()}')
            for caller in [*gone, *callers, more]:
                caller.socket.close()
    return 3


def limit_files(soft, hard):
    """In the child: so many files may be open, and as many more as it may raise that to."""
    return lambda: resource.setrlimit(resource.RLIMIT_NOFILE, (soft, hard))


def few_files(bench):
    """The system permits few files: there are fewer connections, which is said, and a change is stored in both ways however many call. Where it permits more than
    it gives at first, these are taken; where it permits none, it does not start."""
    for sync in ('always', 'second'):
        most = files_of(6) + 16 + 2  # those that are told that there are too many, one that is closed at once, and the file that becomes the table
        with Host(bench.table(f'few-{sync}'), '--sync', sync, preexec_fn=limit_files(most, most)) as host:
            demand(f'the system permits {most} open files, so --connections is 6, and not 1000' in host.words(), 'few files', f'it says {host.words()}')
            callers = [host.connect() for _ in range(60)]
            for at, caller in enumerate(callers[:6]):
                demand(caller.call(PUT, key=key_name(at)).operation == PUT + 1, 'few files', 'a put within the limit is not served')
            until(lambda: read_file(host.table).count(b'\n') == 7, f'few files, --sync {sync}', 'the puts are not stored', 5)
            demand_rest(host, 'few files')
            for caller in callers:
                caller.socket.close()
    with Host(bench.table('raised'), preexec_fn=limit_files(20, 200)) as host:
        for caller in [host.connect() for _ in range(60)]:
            demand(caller.call(PING).operation == PING + 1, 'files that may be taken', 'one is not served')
            caller.socket.close()
    for more, needed in ((), 27), (('--page', '127.0.0.1:0'), 27 + 70):  # a page has 64 visitors, listener, poll, and both ends of a bell and of a connection
        words = [PROGRAM, 'serve', bench.table('none'), '--listen', '127.0.0.1:0', *more]
        done = subprocess.run(words, preexec_fn=limit_files(needed - 1, needed - 1), capture_output=True, timeout=SECONDS, check=False)
        demand(done.returncode == 1 and b'permits %d open files, and %d are needed' % (needed - 1, needed) in done.stderr, 'no files', f'{done}')
        demand(not os.listdir(os.path.dirname(words[2])), 'no files', 'a table was made')
    return 3 * 60


def no_files(bench):
    """The system gives no more files: callers wait without being lost, and get the places that become free."""
    with Host(bench.table('files')) as host:
        resource.prlimit(host.run.pid, resource.RLIMIT_NOFILE, (files_of(6), resource.prlimit(host.run.pid, resource.RLIMIT_NOFILE)[1]))
        callers = [host.connect() for _ in range(10)]
        for caller in callers:
            caller.send(frame(PING))
        for caller in callers[:6]:
            caller.reply(PING)
        demand_rest(host, 'no files left')
        callers[9].silent('no files left')
        for caller in callers[:6]:
            caller.socket.close()
        for caller in callers[6:]:
            caller.reply(PING)
            caller.socket.close()
        demand(host.words().count('callers wait, since none can be taken: Too many open files') == 1, 'no files left', f'it says {host.words()}')
    return 4


def idle(bench):
    """A connection on which nothing moves is closed, also in the middle of a request; one that calls stays."""
    with Host(bench.table('idle'), '--idle', '2') as host:
        with host.connect() as quiet, host.connect() as cut, host.connect() as busy:
            cut.send(frame(PUT)[:5])
            until(lambda: busy.call(PING).status == 0 and host.files() == files_of(1), 'idle', 'they are not closed')
            for caller in (quiet, cut):
                demand(caller.rest('idle') == b'', 'idle', 'a byte came')
            demand(busy.call(PING).status == 0, 'idle', 'the busy one is not served')
            until(lambda: re.search('2 connections were closed|(1 connection was closed.*\n.*){2}', host.words()), 'idle', f'it says {host.words()}')
    return 2


def in_a_row(bench):
    """Connections one after another; half of them end by a reset."""
    with Host(bench.table('row')) as host:
        request, reply = frame(PING), b'\xa1\x01\x18\x00\x00'
        before = host.memory()
        for at in range(ROW):
            caller = host.connect()
            caller.send(request)
            demand(caller.read(len(reply), f'connection {at}') == reply, f'connection {at}', 'another reply')
            if at % 8:
                reset(caller)  # leaves no waiting state in the system
            else:
                caller.socket.close()
        until(lambda: host.files() == files_of(0), 'in a row', f'{host.files()} files are open')
        demand(host.memory() - before < 1000, 'in a row', f'the server grew by {host.memory() - before} kB')
    return ROW


def part():
    with Bench() as bench:
        late, rest, few, idles = together(lambda: slow_behind_refusal(bench), lambda: rests(bench), lambda: few_files(bench) + no_files(bench), lambda: idle(bench))
        return (f'{never_reads(bench) + never_reads_bulk(bench)} requests of clients that do not read, {late} of one that reads late, {greedy(bench, GET) + greedy(bench, BULK_GET)} beside greedy ones, '
                f'{gone(bench)} gone in the middle, {too_many(bench)} too many, {lingering(bench)} beside one that leaves, {few} with few files or none, {idles} idle, {rest} before a rest, {in_a_row(bench)} in a row')


if __name__ == '__main__':
    run_part('3 clients', part)
