"""Part 4: the table's file. Loading and what stores no table, when a change is stored, signals, the lock, rights and links, and the order of system calls."""
import calendar
import os
import re
import signal
import stat
import statistics
import subprocess
import threading
import time

from board_frames import GET, GET_WITH_VERSION, LARGEST_SECOND, PING, PUT, entry_line, frame, head_line
from host_run import (BOARD, Bench, HOST, Host, MARGIN, PROGRAM, SECONDS, can_trace, demand, preloaded, read_file, reference, run_part, short, together, until,
                      write_file)

OLD = head_line(4) + entry_line(4, b'old', b'value')
BROKEN = [(b'', 1), (b'\n', 1), (OLD[:-1], 2), (b'02' + OLD[2:], 1), (OLD + b'\n', 3), (OLD + OLD.split(b'\n')[1] + b'\n', 3), (head_line(3) + entry_line(4), 2),
          (head_line(900) + b''.join(entry_line(at + 1, b'k%d' % at) for at in range(129)), 130), (b'\xff' * 100_000, 1),
          (head_line(4) + entry_line(4, b'jk').upper(), 2)]
NOBODY = 65534


def refuses(table, case, words, *options, **more):
    """Starting fails with these words, the file is as it was, and nothing is left beside it."""
    before = os.path.isfile(table) and read_file(table)
    done = subprocess.run([HOST, 'serve', table, '--listen', '127.0.0.1:0', *options], capture_output=True, timeout=SECONDS, check=False, **more)
    said = done.stderr.decode()
    demand(done.returncode == 1 and words in said and said.startswith('feyqoolad: '), case, f'status {done.returncode}, said {said!r}, wanted {words!r}')
    demand(before == (os.path.isfile(table) and read_file(table)), case, 'the file was changed')
    demand(not beside(table), case, f'left beside the table: {beside(table)}')


def beside(table):
    folder, name = os.path.split(table)
    return [] if not os.path.isdir(folder) else [one for one in os.listdir(folder) if one.startswith(name + '.new')]


def broken(bench):
    """What stores no table is refused 17, with the number of the line that ./board tells."""
    requests = os.path.join(bench.top, 'requests')
    write_file(requests, b'')
    for at, (data, number) in enumerate(BROKEN):
        table = bench.table(f'broken{at}', data)
        told = subprocess.run([BOARD, 'serve', requests, table], capture_output=True, check=False).stderr.decode()
        demand(f'has the number {number}.' in told, f'a broken table {short(data)}', f'./board says {told!r}, wanted line {number}')
        refuses(table, f'a broken table {short(data)}', f'has the number {number};')
        refuses(table, f'a broken table {short(data)}', 'refused 17')
    return len(BROKEN)


def names(bench):
    """Names that can't be a table, a folder that is not there, a read-only table, an address in use, wrong options."""
    table = bench.table('names', OLD)
    folder = os.path.dirname(table)
    os.mkfifo(os.path.join(folder, 'fifo'))
    os.symlink('loop', os.path.join(folder, 'loop'))
    for name, words in (('fifo', 'is not a file'), ('.', 'is not a file'), ('none/table', "can't open the folder"), ('loop', 'too many links')):
        refuses(os.path.join(folder, name), f'a table {name}', words)
    for options, words in ((('--sync', 'never'), 'second or always'), (('--idle', 'x'), 'has to be a number'), (('--connections', '0'), 'has to be a number from 1 to'), (('--idle', '+5'), 'has to be a number'), (('--what',), 'no option --what'),
                           (('more',), 'followed by TABLE')):
        refuses(table, f'options {options}', words, *options)
    with Host(bench.table('other')) as host:
        for name in (table, os.path.join(folder, 'none')):
            refuses(name, 'an address in use', "can't listen", '--listen', f'127.0.0.1:{host.port}')
    os.chmod(table, 0o444)
    refuses(table, 'a read-only table', 'is read-only')
    return 13


def loads(bench):
    """A stored table is served, a fresh one is made with a word, and the stored form is the second program's."""
    with Host(bench.table('loads', OLD)) as host, host.connect() as caller:
        reply = caller.call(GET_WITH_VERSION, key=b'old')
        demand((reply.version, reply.value) == (4, b'value'), 'a stored table', vars(reply))
        caller.call(PUT, key=b'new', value=b'n')
        demand(host.stop() == 0 and 'ended; the table is stored' in host.words(), 'the end', host.words())
    wanted = reference([frame(PUT, key=b'new', value=b'n')], OLD)[1]
    demand(read_file(host.table) == wanted, 'the stored table', short(read_file(host.table)))
    with Host(bench.table('fresh')) as host:
        demand('a fresh one is made' in host.words(), 'no table', host.words())
        demand(read_file(host.table) == head_line(0), 'no table', short(read_file(host.table)))
    return 2


def seconds(bench):
    """The second of a call is the system's UNIX time: it and the lifespan are the deadline that is stored."""
    with Host(bench.table('seconds'), '--sync', 'always') as host, host.connect() as caller, host.connect() as other:
        for count in range(3):
            before = int(time.time())
            other.send(frame(PUT, key=b'other'))  # so that some are served together
            caller.call(PUT, key=b'k', lifespan=1000)
            other.reply(PUT)
            after = int(time.time())
            line = next(one for one in read_file(host.table).splitlines() if one.endswith(b'016b0176'))
            deadline = int(line[16:32], 16)
            demand(before + 1000 <= deadline <= after + 1000, 'the second', f'the deadline is {deadline}, and it is {before} to {after}')
            time.sleep(0.7)
    return count + 1


def other_clocks(bench):
    """A UNIX time that is above the greatest second or below the least one is taken for that one."""
    clocks = {-5: 0, 2 ** 32 + 5: LARGEST_SECOND}
    for clock, second in clocks.items():
        with Host(bench.table(f'clock{clock}'), '--sync', 'always', env=preloaded(bench, 'other_clock', OTHER_CLOCK=str(clock))) as host, host.connect() as caller:
            caller.call(PUT, lifespan=1000)
            wanted = head_line(1) + entry_line(1, deadline=second + 1000)
            demand(read_file(host.table) == wanted, f'the UNIX time {clock}', f'the file is {short(read_file(host.table))}, wanted {short(wanted)}')
    return len(clocks)


def fails(bench):
    """Where connections can't be waited for any more, it ends with a word, and what was answered is stored."""
    sign = os.path.join(bench.top, 'sign')
    with Host(bench.table('fails', OLD), env=preloaded(bench, 'fail_wait', FAIL_WAIT=sign)) as host, host.connect() as caller:
        caller.call(PUT, key=b'late')
        write_file(sign, b'')
        caller.send(frame(PING))
        demand(host.run.wait(timeout=SECONDS) == 1 and "can't wait for connections" in host.words(), 'a wait that fails', f'{host.run.returncode} {host.words()}')
        demand(read_file(host.table).endswith(entry_line(5, b'late')), 'a wait that fails', f'the file is {short(read_file(host.table))}')
    return 1


def soon(bench):
    """A change is in the file a second later, and without a change the file is left alone."""
    with Host(bench.table('soon', OLD)) as host, host.connect() as caller:
        first = os.stat(host.table).st_ino
        for _ in range(20):
            caller.call(GET, key=b'old')
            time.sleep(0.05)
        demand(os.stat(host.table).st_ino == first, 'no change', 'the file was replaced')
        waits = []
        for at in range(3):
            caller.call(PUT, key=b'soon', value=b'%d' % at)
            answered, wanted = time.monotonic(), entry_line(5 + at, b'soon', b'%d' % at)
            until(lambda: read_file(host.table).endswith(wanted), 'a change', 'it is not stored', 1 + MARGIN)
            waits.append(time.monotonic() - answered)
        demand(statistics.median(waits) < 1, 'a change', f'most changes were not stored in a second: {waits}')
        demand(not beside(host.table), 'a change', f'left beside the table: {beside(host.table)}')
    return 3


STEADY = 4  # seconds of writes


def steady(bench):
    """While writes come without a pause, what is not in the file was answered within the last second. The last version that the file has tells how many are there."""
    with Host(bench.table('steady')) as host, host.connect() as caller:
        answered, end = [], time.monotonic() + STEADY

        def write():
            while time.monotonic() < end:
                caller.call(PUT)
                answered.append(time.monotonic())
        writer = threading.Thread(target=write)
        writer.start()
        oldest = {}  # by the last version in the file, how old the first write behind it was seen to become
        while writer.is_alive():
            now, stored = time.monotonic(), int(read_file(host.table)[2:18], 16)
            if stored < len(answered):
                oldest[stored] = now - answered[stored]
            time.sleep(0.005)
        demand(len(answered) > 100 * STEADY, 'a steady load', f'only {len(answered)} writes were answered')
        told = f'the ages at {len(oldest)} stores: {[round(one, 2) for one in oldest.values()]}'
        demand(max(oldest.values()) < 1 + MARGIN, 'a steady load', f'a write was not stored in time; {told}')
        demand(statistics.median(oldest.values()) < 1, 'a steady load', f'most writes were not stored in a second; {told}')
    return len(oldest)


# Those that end a program and tell nothing of a fault of its own.
ENDING = [signal.SIGHUP, signal.SIGINT, signal.SIGQUIT, signal.SIGUSR1, signal.SIGUSR2, signal.SIGALRM, signal.SIGTERM, signal.SIGXCPU, signal.SIGVTALRM, signal.SIGPROF,
          signal.SIGIO, signal.SIGPWR, signal.SIGRTMIN, signal.SIGRTMAX]


def signals(bench):
    """Each signal that ends a program stores the table first and then ends the server with status 0, also with connections open. nohup's SIGHUP is ignored."""
    for at, number in enumerate(ENDING):
        with Host(bench.table('signals', OLD)) as host, host.connect() as caller, host.connect():
            caller.call(PUT, key=b'late', value=b'%d' % at)
            demand(host.stop(number) == 0, f'signal {number}', f'it ended with {host.run.returncode}: {host.words()}')
            demand(entry_line(5, b'late', b'%d' % at) in read_file(host.table), f'signal {number}', short(read_file(host.table)))
    with Host(bench.table('nohup', OLD), before=('nohup',)) as host, host.connect() as caller:
        host.run.send_signal(signal.SIGHUP)
        for _ in range(5):
            demand(caller.call(PING).status == 0, 'SIGHUP behind nohup', f'it does not answer: {host.words()}')
            time.sleep(0.05)
        demand(host.stop() == 0, 'SIGTERM behind nohup', host.words())
    return len(ENDING) + 1


def second_signal(bench):
    """A second signal while the table is stored at the end, which takes ten seconds here: it ends at once, with a sentence and status 1, and the file is whole."""
    case = 'a second signal'
    with Host(bench.table('twice', OLD), env=preloaded(bench, 'slow_disk', SLOW_DISK='5000')) as host, host.connect() as caller:
        caller.call(PUT, key=b'late')
        host.run.send_signal(signal.SIGTERM)
        time.sleep(0.2)
        demand(host.run.poll() is None, case, f'it ended before the table was stored: {host.words()}')
        demand(host.stop(signal.SIGHUP) == 1 and 'ended at once' in host.words(), case, f'it ended with {host.run.returncode}: {host.words()}')
        demand(read_file(host.table) == OLD, case, f'the file is {short(read_file(host.table))}')
    return 1


def set_clocks(bench):
    """The clock is set forward and back while it serves, and is behind the stored file at a start: each is told once, with both times; a smaller step is not."""
    sign = os.path.join(bench.top, 'clock')
    environment = preloaded(bench, 'set_clock', SET_CLOCK=sign)
    table = bench.table('set', OLD)

    def told(host, more):
        """The number of warnings, and whether the last one has both times."""
        found = re.findall(r'clock was set: it says (.*) UTC, and by the time that has passed it should be (.*) UTC', host.words())
        times = [calendar.timegm(time.strptime(one, '%Y-%m-%d %H:%M:%S')) for one in (found[-1] if found else ())]
        return len(found), bool(times) and abs(times[0] - times[1] - more) <= 5
    with Host(table, env=environment) as host, host.connect() as caller:
        last = 0
        for count, offset in enumerate((40, 0, 150_000_000, 0, -100)):
            write_file(sign, b'%d' % offset)
            for _ in range(3):
                caller.call(PING)
            step, wanted = offset - last, (0, 0, 1, 2, 3)[count]
            until(lambda: told(host, step)[0] >= wanted, f'the clock is set by {step} seconds', f'it says {host.words()}')
            demand(told(host, step) == (wanted, wanted > 0 and told(host, step)[1]) and (not wanted or told(host, step)[1]), f'the clock is set by {step} seconds', f'it says {host.words()}')
            last = offset
        demand('does not go back: until the clock says 20' in host.words(), 'the clock is set back', host.words())
        demand(host.stop() == 0, 'the end', host.words())
    for offset, wanted in ((-100_000, 1), (0, 0)):
        write_file(sign, b'%d' % offset)
        with Host(table, env=environment) as host:
            demand(host.words().count('warning: the table was stored at 20') == wanted, f'a clock that is {-offset} seconds behind the file', f'it says {host.words()}')
    return 7


def locked(bench):
    """A second server is refused, also by way of a link, and ./board waits; what a killed run left beside the table goes."""
    table = bench.table('locked', OLD)
    link = os.path.join(bench.top, 'link')
    os.symlink(table, link)
    write_file(table + '.new-0123456789abcdef', b'left')
    write_file(table + '.new-other', b'mine')
    with Host(table) as host, host.connect() as caller:
        demand(beside(table) == ['table.new-other'], 'what a killed run left', f'{beside(table)}')
        os.unlink(table + '.new-other')
        for name in (table, link):
            refuses(name, 'a second server', 'another run, a server or ./board')
        requests = os.path.join(bench.top, 'put')
        write_file(requests, b'00000000 ' + frame(PUT, key=b'board').hex().encode() + b'\n')
        other = subprocess.Popen([BOARD, 'serve', requests, table], stdout=subprocess.PIPE, stderr=subprocess.PIPE)
        word = other.stderr.readline()
        demand(b'waiting for another run' in word, './board beside a server', f'it says {short(word)}')
        caller.call(PUT, key=b'host')
        demand(other.poll() is None, './board beside a server', 'it does not wait')
        demand(host.stop() == 0, 'the end', host.words())
        out, err = other.communicate(timeout=SECONDS)
        demand(out == b'a101020000\n', './board behind a server', f'{short(out)} {short(err)}')
    demand(read_file(table) == OLD.replace(head_line(4), head_line(6)) + entry_line(5, b'host') + entry_line(6, b'board'), 'both', short(read_file(table)))
    waits = subprocess.Popen([BOARD, 'serve', '-', table], stdin=subprocess.PIPE, stdout=subprocess.PIPE)
    waits.stdin.write(b'00000000 ' + frame(PING).hex().encode() + b'\n')
    waits.stdin.flush()
    waits.stdout.readline()
    done = subprocess.run([HOST, 'serve', table, '--listen', '127.0.0.1:0'], capture_output=True, timeout=SECONDS, check=False)
    demand(done.returncode == 1 and b'another run' in done.stderr, 'a server beside ./board', f'{done.returncode} {short(done.stderr)}')
    waits.communicate(timeout=SECONDS)
    return 4


def rights(bench):
    """The file keeps its rights, its owner and its group, and a link stays a link."""
    table = bench.table('rights', OLD)
    link = os.path.join(bench.top, 'rights-link')
    os.symlink(os.path.relpath(table, bench.top), link)
    owners = [(os.getuid(), os.getgid())] + ([(NOBODY, NOBODY)] if os.getuid() == 0 else [])
    count = 0
    for owner in owners:
        for mode in (0o600, 0o640, 0o664):
            write_file(table, OLD)
            os.chown(table, *owner)
            os.chmod(table, mode)
            with Host(link, '--sync', 'always') as host, host.connect() as caller:
                caller.call(PUT, key=b'k')
                now = os.lstat(table)
                demand(read_file(table) != OLD and os.path.islink(link), 'rights', 'the table was not stored')
                demand((stat.S_IMODE(now.st_mode), now.st_uid, now.st_gid) == (mode, *owner), f'mode {mode:o}', f'{now.st_mode:o} {now.st_uid}:{now.st_gid}')
            count += 1
    return count


CALLS = {0: 'read', 1: 'write', 44: 'write', 45: 'read', 74: 'fsync', 82: 'rename', 264: 'rename', 316: 'rename', 257: 'open', 288: 'accept', 3: 'close'}


def order(bench):
    """Between the request's bytes and the reply's, with --sync always: the file is written and synced, takes its name, and the folder is synced. Of many puts
    in one write that is done once, and their replies are one write too."""
    if not can_trace():
        return 0
    told = os.path.join(bench.top, 'calls')
    before = ('bash', '-c', 'exec 9> "$0" "$@"', told, os.environ['KILL_AT'], 'list')
    environment = {key: value for key, value in os.environ.items() if key != 'PROGRAM'}
    with Host(bench.table('order', OLD), '--sync', 'always', program=PROGRAM, before=before, env=environment) as host, host.connect() as caller:
        caller.call(PUT, key=b'k')
        caller.call(GET, key=b'k')
        caller.send(frame(PUT, key=b'k') * 20)
        for _ in range(20):
            caller.reply(PUT)
        child = int(read_file(f'/proc/{host.run.pid}/task/{host.run.pid}/children').split()[0])
        os.kill(child, signal.SIGTERM)
        host.run.wait(timeout=SECONDS)
    calls = [[int(word) for word in one.split()] for one in read_file(told).decode().splitlines()]
    calls = [(CALLS[one[0]], one[1], one[3]) for one in calls if one[0] in CALLS]
    start = next((at for at, call in enumerate(calls) if call[0] == 'accept' and call[2] > 0), None)
    demand(start is not None, 'order of calls', f'no connection is seen in {calls}')
    connection = calls[start][2]
    seen = [(name, fd == connection) for name, fd, result in calls[start + 1:] if 0 <= result < 1 << 40]
    letters = {True: {'read': 'R', 'write': 'W'}, False: {'write': 'w', 'fsync': 's', 'rename': 'n', 'open': 'o'}}
    names = ''.join(letters[own].get(name, '') for name, own in seen)
    demand(names.rstrip('w') == 'RowsnsWRWRowsnsW', 'order of calls', f'{names} is not read, open, write, sync, rename, sync, reply; a get alone; and the first again')
    return 22


def part():
    with Bench() as bench:
        deadlines, changes, load = together(lambda: seconds(bench), lambda: soon(bench), lambda: steady(bench))
        return (f'{loads(bench)} tables loaded, {deadlines} deadlines, {other_clocks(bench)} other clocks, {fails(bench)} wait that fails, {broken(bench)} broken, '
                f'{names(bench)} wrong names and options, {changes} changes in a second, {load} under a steady load, {signals(bench) + second_signal(bench)} signals, {set_clocks(bench)} set clocks, {locked(bench)} locks, '
                f'{rights(bench)} rights, {order(bench)} order of calls')


if __name__ == '__main__':
    run_part('4 files', part)
