"""Part 5: kills under load. Behind each kill the file is one whole table; with --sync always it has every write that was answered.

Each connection puts its own keys, each with a count that ascends, and remembers the order of its puts and how many were answered. The file has to be what some
beginning of each connection's puts leaves. The kills come at random moments, and at every system call between a request and its reply (tests/kill_at.c).
"""
import bisect
import os
import random
import subprocess
import threading
import time

from board_frames import GET, PUT, entry_line, frame, head_line
from host_run import (Bench, Difference, Host, LONG, MARGIN, PROGRAM, SECONDS, can_trace, demand, read_file, read_sized, reference, run_part, short,
                      together)

CONNECTIONS, KEYS = 6, 4
ROUNDS = 60 if LONG else 12


class Writer(threading.Thread):
    """A connection that writes until the server is gone; a burst of puts at a time, each reply read by the papers."""

    def __init__(self, host, number, start):
        super().__init__()
        self.caller, self.number = host.connect(), number
        self.counts = dict(start)
        self.sent = []
        self.answers = []  # when each was answered
        self.fault = None

    def run(self):
        try:
            while True:
                burst = []
                for _ in range(random.randrange(1, 4)):
                    key = b'w%d/%d' % (self.number, random.randrange(KEYS))
                    self.counts[key] = self.counts.get(key, 0) + 1
                    burst.append((key, self.counts[key]))
                self.sent += burst
                self.caller.send(b''.join(frame(PUT, key=key, value=b'%d' % count) for key, count in burst))
                for _ in burst:
                    demand(self.caller.reply(PUT).status == 0, 'a put', 'it is not stored')
                    self.answers.append(time.monotonic())
        except (ConnectionError, Difference):
            pass  # the server is gone
        except Exception as fault:  # shown by the caller
            self.fault = fault
        self.caller.socket.close()


def entries(data, case):
    """The entries of a stored table: key to value. The second program has to load it."""
    try:
        demand(reference([frame(GET)], data)[1] == data, case, f'the second program reads another table than {short(data)}')
    except subprocess.CalledProcessError as error:
        raise Difference(f'{case}: not a stored table: {short(data)}') from error
    held = {}
    for one in data.splitlines()[1:]:
        raw = bytes.fromhex(one.decode())
        key, at = read_sized(raw, 16)
        held[key] = read_sized(raw, at)[0]
    return held


def kill(table, sync, held, seconds, case):
    """Kills a server after so many seconds of writes to a table that holds this, and checks the file: gives what it holds, and how many writes were answered."""
    with Host(table, '--sync', sync) as host:
        own = [of_writer(number, held) for number in range(CONNECTIONS)]
        writers = [Writer(host, number, own[number]) for number in range(CONNECTIONS)]
        for writer in writers:
            writer.start()
        time.sleep(seconds)
        host.run.kill()
        killed = time.monotonic()
        host.run.wait()
        for writer in writers:
            writer.join(SECONDS)
            demand(writer.fault is None and not writer.is_alive(), case, f'{writer.fault}')
    held = entries(read_file(table), case)
    # With --sync always all that was answered is there, else what was answered more than a second ago.
    latest = killed + SECONDS if sync == 'always' else killed - 1 - MARGIN
    for writer, start in zip(writers, own):
        least = bisect.bisect(writer.answers, latest)
        place = place_of(writer, start, of_writer(writer.number, held))
        demand(place is not None, case, f'connection {writer.number}: no beginning of its puts leaves {of_writer(writer.number, held)}')
        demand(place >= least, case, f'connection {writer.number}: {place} of its puts are stored, and {least} were to be')
    return held, sum(len(writer.answers) for writer in writers)


def random_kills(bench, sync):
    """Kills at random moments; the next server goes on from the file."""
    random.seed(13)
    table, held, answered = bench.table(sync), {}, 0
    for at in range(ROUNDS):
        seconds = random.uniform(0.005, 0.15) if sync == 'always' else random.choice((0.03, random.uniform(0.4, 0.7)))
        held, count = kill(table, sync, held, seconds, f'--sync {sync}, kill {at}')
        answered += count
    demand(answered > 100, f'--sync {sync}', f'only {answered} writes were answered')
    return answered


LATE = 1 + MARGIN + 1.5  # seconds of writes of which some have to be stored


def late_kill(bench):
    """Without --sync always, killed after some seconds of writes: what was answered more than a second before is there."""
    held, answered = kill(bench.table('late'), 'second', {}, LATE, 'a late kill')
    demand(len(held) > CONNECTIONS, 'a late kill', f'only {held} is held')
    return answered


def of_writer(number, held):
    """The counts of a connection's keys."""
    return {key: int(value) for key, value in held.items() if key.startswith(b'w%d/' % number)}


def place_of(writer, start, held):
    """How many of its puts leave these counts, or nothing."""
    state = dict(start)
    if state == held:
        return 0
    for at, (key, count) in enumerate(writer.sent):
        state[key] = count
        if state == held:
            return at + 1
    return None


OLD = head_line(4) + entry_line(4, b'k', b'old')
NEW = head_line(5) + entry_line(5, b'k', b'new')


def every_call(bench):
    """With --sync always, killed at each stop from the request on, until it is answered before: the file is the old or the new table, and the new one where
    the reply came."""
    if not can_trace():
        return 0
    seen = {OLD: 0, NEW: 0}
    environment = {key: value for key, value in os.environ.items() if key != 'PROGRAM'}
    stop, answered = first_stop(bench, environment), 0
    while answered < 3:
        table = bench.table('calls', OLD)
        host = Host(table, '--sync', 'always', program=PROGRAM, before=(os.environ['KILL_AT'], 'kill', str(stop)), env=environment)
        came = False
        with host:
            try:
                with host.connect() as caller:
                    caller.send(frame(PUT, key=b'k', value=b'new'))
                    came = caller.reply(PUT).status == 0
            except (ConnectionError, Difference):
                pass
            host.run.kill()
        now = read_file(table)
        demand(now in seen and (now == NEW or not came), f'killed at stop {stop}', f'the file is {short(now)}, and the reply came: {came}')
        seen[now] += 1
        answered += came
        stop += 1
    demand(min(seen.values()) > 5, 'killed at each stop', f'{seen[OLD]} old and {seen[NEW]} new tables')
    return sum(seen.values())


def first_stop(bench, environment):
    """The last stop, or a few behind it, that a server reaches before it waits for connections."""
    low, high = 1, 2000
    while high - low > 4:
        middle = (low + high) // 2
        if started(bench, environment, middle):
            high = middle
        else:
            low = middle
    return high


def started(bench, environment, stop):
    """Whether a server that is to be killed at this stop waits for connections before."""
    try:
        with Host(bench.table('calls', OLD), '--sync', 'always', program=PROGRAM, before=(os.environ['KILL_AT'], 'kill', str(stop)), env=environment) as host:
            time.sleep(0.05)
            return host.run.poll() is None
    except Difference:
        return False


def part():
    with Bench() as bench:
        always, second, late = together(lambda: random_kills(bench, 'always'), lambda: random_kills(bench, 'second'), lambda: late_kill(bench))
        return (f'{2 * ROUNDS} at random moments, {always} writes answered with --sync always and all there, {second} without; {late} before a late one; '
                f'{every_call(bench)} at each system call of a put')


if __name__ == '__main__':
    run_part('5 kills', part)
