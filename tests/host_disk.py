"""Part 6: storing fails since the disk is full, or takes long. The file stays whole; it is said in words, once; and it is stored when there is room again.

A limit on the size of files stands for a full disk, and can be lifted while the server runs; a small tmpfs is filled too.
"""
import os
import re
import resource
import signal
import subprocess
import time

from board_frames import BULK_GET, GET, PING, PUT, PUT_IF_ABSENT, REMOVE, STATS, entry_line, frame, head_line
from host_clients import reset
from host_run import Bench, Host, SECONDS, demand, is_permitted, preloaded, read_file, run_part, short, together, until, write_file

OLD = head_line(4) + entry_line(4, b'k', b'old')
NEW = head_line(5) + entry_line(5, b'k', b'new')
NONE = resource.RLIM_INFINITY
CROWD = 400  # more connections than the server looks at in one turn


def limit_size(most):
    """In the child: no file grows above so many bytes, and trying is an error and no signal."""
    def limit():
        signal.signal(signal.SIGXFSZ, signal.SIG_IGN)
        resource.setrlimit(resource.RLIMIT_FSIZE, (most, NONE))
    return limit


def lift(host):
    resource.prlimit(host.run.pid, resource.RLIMIT_FSIZE, (NONE, NONE))


class Limited(Host):
    """A server that can't write files above so many bytes."""

    def __init__(self, table, *options):
        super().__init__(table, *options, preexec_fn=limit_size(10), restore_signals=False)


def tidy(host, case):
    """The file is the old one, nothing is beside it, and the failure is told once."""
    demand(read_file(host.table) == OLD, case, f'the file is {short(read_file(host.table))}')
    demand(os.listdir(os.path.dirname(host.table)) == ['table'], case, f'{os.listdir(os.path.dirname(host.table))}')
    told = host.words().count("can't store the table")
    demand(told == 1, case, f'told {told} times: {host.words()}')


def second(bench):
    """Without --sync always: requests are served, and the change is stored when there is room."""
    with Limited(bench.table('second', OLD)) as host, host.connect() as caller:
        demand(caller.call(PUT, key=b'k', value=b'new').status == 0, 'a full disk', 'the put is not served')
        until(lambda: "can't store the table" in host.words(), 'a full disk', 'nothing is said')
        demand(caller.call(GET, key=b'k').value == b'new', 'a full disk', 'the put was not done')
        time.sleep(1.2)  # it is tried again meanwhile
        tidy(host, 'a full disk')
        lift(host)
        until(lambda: read_file(host.table) == NEW, 'room again', 'the table is not stored', 5)
        until(lambda: 'the table is stored again' in host.words(), 'room again', 'nothing is said', 5)
    return 1


def always(bench):
    """With --sync always a write waits until there is room, and so does what its connection sent behind it. Reads are answered meanwhile, from the table as it was
    stored last; what changes nothing is served, and an entry leaves by its deadline. Then all replies come, in order, and nobody was idle meanwhile."""
    deadline = int(time.time()) + 4
    old = head_line(4) + entry_line(3, b'leaves', b'soon', deadline) + entry_line(4, b'k', b'old')
    with Limited(bench.table('always', old), '--sync', 'always', '--idle', '4') as host, host.connect() as one:
        one.send(frame(PUT, key=b'k', value=b'new'))
        until(lambda: "can't store the table" in host.words(), 'a full disk', 'nothing is said')
        crowd = []
        for _ in range(CROWD):
            crowd.append(host.connect())
            demand(crowd[-1].call(GET, key=b'k').value == b'old', 'a get behind a put on a full disk', 'another value')
        other, third = host.connect(), host.connect()
        demand(other.call(GET, key=b'k').value == b'old', 'a full disk', 'a get is not served')
        # What is in front of a write is answered, and what is behind it waits with it.
        third.send(frame(GET, key=b'k') * 3 + frame(PUT_IF_ABSENT, key=b'k') + frame(REMOVE, key=b'none') + frame(REMOVE, key=b'k') + frame(GET, key=b'k') + frame(PING))
        values = [third.reply(GET).value for _ in range(3)] + [third.reply(PUT_IF_ABSENT).status, third.reply(REMOVE).status]
        demand(values == [b'old'] * 3 + [1, 2], 'what changes nothing, in front of a write', f'{values}')
        begin = statistics_of(other)
        until(lambda: other.call(GET, key=b'leaves').status == 2, 'a deadline on a full disk', 'the entry stays', deadline - time.time() + SECONDS)
        demand([key for key, _ in other.call(BULK_GET).entries] == [b'k'], 'a list on a full disk', 'other entries')
        until(lambda: other.call(PING).status == 0 and re.search(r'nothing could be stored for \d+ seconds', host.words()), 'a full disk for long', f'it does not say how long: {host.words()}')
        demand(statistics_of(other)[4] > begin[4] and statistics_of(other)[3] == begin[3], 'a full disk', f'the statistics are {statistics_of(other)}, and were {begin}')
        gone = host.connect()
        gone.send(frame(PUT, key=b'k', value=b'gone'))
        gone.silent('a put on a full disk')
        reset(gone)
        for caller in (one, third):
            caller.silent('a put on a full disk')
        busy = host.busy()
        time.sleep(1)
        demand(host.busy() - busy < 0.5, 'a full disk', f'{host.busy() - busy} seconds of processor time in one')
        demand(read_file(host.table) == old and host.words().count("can't store the table") == 1, 'a full disk', f'the file is {short(read_file(host.table))}; {host.words()}')
        lift(host)
        demand(one.reply(PUT).status == 0, 'room again', 'the put is not done')
        replies = [third.reply(REMOVE).status, third.reply(GET).status, third.reply(PING).status]
        demand(replies == [0, 2, 0] and read_file(host.table) == head_line(5), 'room again', f'{replies}, the file is {short(read_file(host.table))} at the replies')
        until(lambda: re.search(r'the table is stored again, after \d+ seconds', host.words()), 'room again', f'it says {host.words()}')
        with host.connect() as last:
            demand(last.call(GET, key=b'k').status == 2, 'room again', 'another value')
        demand(one.call(PUT, key=b'k', value=b'next').status == 0 and read_file(host.table) == head_line(6) + entry_line(6, b'k', b'next'), 'room again', 'a put is not stored')
        for caller in [other, third, *crowd]:
            caller.socket.close()
    return 8 + CROWD


def statistics_of(caller):
    """The nine numbers of a stats reply: pairs of a name and a number in digits, in the order of the protocol."""
    caller.send(frame(STATS))
    head = caller.read(5, 'statistics')
    demand(head[2:4] == bytes([STATS + 1, 0]), 'statistics', short(head))
    count = caller.read(1, 'statistics')[0]
    texts = [caller.read(caller.read(1, 'statistics')[0], 'statistics') for _ in range(2 * count)]
    return [int(one) for one in texts[1::2]]


def ends(bench):
    """A signal while the disk is full: it tries on; with room it stores and ends with 0, and a second signal ends it with 1 and a word."""
    for sync in ('second', 'always'):
        for room in (True, False):
            case = f'--sync {sync}, a signal on a full disk, room {room}'
            with Limited(bench.table('ends', OLD), '--sync', sync) as host, host.connect() as caller:
                caller.send(frame(PUT, key=b'k', value=b'new'))
                until(lambda: "can't store the table" in host.words(), case, 'nothing is said')
                host.run.send_signal(signal.SIGTERM)
                time.sleep(0.2)
                demand(host.run.poll() is None, case, f'it ended with {host.run.returncode}, and the change is lost')
                if room:
                    lift(host)
                    demand(host.run.wait(timeout=SECONDS) == 0 and read_file(host.table) == NEW, case, f'{host.run.returncode} {host.words()}')
                else:
                    demand(host.stop() == 1 and 'before the table could be stored' in host.words(), case, f'{host.run.returncode} {host.words()}')
                    tidy(host, case)
    return 4


def slow(bench):
    """A store takes 1.4 seconds. Without --sync always nobody waits for it, and no write is lost at the end; with it the reply comes behind the store."""
    environment = preloaded(bench, 'slow_disk')
    for sync in ('second', 'always'):
        case = f'--sync {sync}, a slow disk'
        with Host(bench.table(f'slow-{sync}', OLD), '--sync', sync, env=environment) as host, host.connect() as caller:
            times, end = [], time.monotonic() + (3 if sync == 'second' else 0)
            while not times or time.monotonic() < end:
                begin = time.monotonic()
                caller.call(PUT, key=b'k', value=b'%d' % len(times))
                times.append(time.monotonic() - begin)
            waited = [one for one in times if one > 0.2]
            demand((sum(waited) < 1) == (sync == 'second'), case, f'of {len(times)} puts some waited: {waited} seconds')
            demand(host.stop() == 0, case, host.words())
            last = head_line(4 + len(times)) + entry_line(4 + len(times), b'k', b'%d' % (len(times) - 1))
            demand(read_file(host.table) == last, case, f'at the end the file is {short(read_file(host.table))}')
    return 2


def pages(bench):
    """A file system without room, and then with some."""
    folder = os.path.join(bench.top, 'disk')
    os.mkdir(folder)
    mounted = subprocess.run(['mount', '-t', 'tmpfs', '-o', 'size=16384', 'host', folder], stderr=subprocess.DEVNULL, check=False)
    if not is_permitted(mounted.returncode == 0, 'mounting a file system'):
        return 'no full file system, since mounting is refused here'
    table, filler = os.path.join(folder, 'table'), os.path.join(folder, 'filler')
    try:
        write_file(table, OLD)
        write_file(filler, b'x' * 12288)
        with Host(table, '--sync', 'always') as host, host.connect() as caller:
            caller.send(frame(PUT, key=b'k', value=b'new'))
            until(lambda: 'No space left' in host.words(), 'a full file system', 'nothing is said')
            caller.silent('a full file system')
            demand(read_file(table) == OLD, 'a full file system', f'the file is {short(read_file(table))}')
            os.unlink(filler)
            demand(caller.reply(PUT).status == 0 and read_file(table) == NEW, 'room again', f'the file is {short(read_file(table))}')
            demand(os.listdir(folder) == ['table'], 'room again', f'{os.listdir(folder)}')
    finally:
        subprocess.run(['umount', folder], check=True)
    return '1 full file system'


def part():
    with Bench() as bench:
        served, held, ended, slowly, full = together(*(lambda one=one: one(bench) for one in (second, always, ends, slow, pages)))
        return f'{served} served on, {held} held until there is room, {ended} ended on a full disk, {slowly} on a slow one, {full}'


if __name__ == '__main__':
    run_part('6 full disk', part)
