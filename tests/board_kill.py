"""Part 7: killed at every moment. After each kill TABLE is the old or the new table, byte for byte, and a further run over it works.

The moments are all entries and exits of the program's system calls, found by ptrace (tests/kill_at.c), after which the script tells it and leaves nothing
beside TABLE; and random times by the clock, at which the script itself is killed.
"""
import os
import random
import signal
import subprocess
import time

from board_frames import GET_WITH_VERSION, PUT, REMOVE, entry_line, head_line, key_name, request
from board_random import Maker
from board_run import (ABSENT, BOARD, Bench, LONG, PROGRAM, REFERENCE, STAND_IN, beside, demand, demand_calm, place, read_file, run_part, short,
                       start, traced, wait_for_end, write_file)

KILL_AT = os.environ['KILL_AT']
DISTURBED, REFUSED, ENDED = 0, 2, 3
OLD = head_line(900) + b''.join(entry_line(at + 1, key_name(at), b'old' * 30, at) for at in range(128))
SHORT = request(PUT, key=key_name(3), value=b'new') + request(REMOVE, key=key_name(4), flags=1)
NEXT = request(GET_WITH_VERSION, key=key_name(3)) + request(GET_WITH_VERSION, key=key_name(4)) + request(PUT, key=b'next')


class Scene:
    """REQUESTS over a TABLE, what the second program makes of them, and what it makes of NEXT over each table that may be left."""

    def __init__(self, bench, name, requests, old):
        self.bench, self.name, self.old = bench, name, old
        self.requests, self.next = (os.path.join(bench.top, part) for part in ('requests', 'next'))
        self.table = bench.path(BOARD, 'table')
        write_file(self.requests, requests)
        write_file(self.next, NEXT)
        self.new = self.expected(self.requests, old)[1]
        demand(self.new != old, name, 'the requests do not change TABLE, so nothing would be seen')
        self.after = {table: self.expected(self.next, table) for table in (self.old, self.new)}
        self.seen = {self.old: 0, self.new: 0}

    def expected(self, requests, table):
        """The second program's replies and its new table."""
        path = self.bench.path(REFERENCE, 'table')
        place(path, table)
        done = start(REFERENCE, ['serve', requests, path])
        demand_calm(done, f'{self.name} with the second program')
        return done.out, read_file(path)

    def command(self):
        return [BOARD, 'serve', self.requests, self.table]

    def check(self, moment):
        """TABLE is old or new, and BOARD goes on from it and removes what lies beside."""
        case = f'{self.name}, killed {moment}'
        now = read_file(self.table)
        demand(now in self.seen, case, f'TABLE is neither the old nor the new one: {short(now)}')
        self.seen[now] += 1
        done = start(BOARD, ['serve', self.next, self.table])
        demand_calm(done, f'{case}, the run after it')
        made = done.out, read_file(self.table)
        demand(made == self.after[now], f'{case}, the run after it', f'{short(made[0])} {short(made[1])}, wanted {short(self.after[now][0])}')
        demand(STAND_IN or beside(self.table) == [], f'{case}, the run after it', f'left beside TABLE: {beside(self.table)}')


def moments(stops):
    """All stops, or, where they are very many, the first and the last ones and some between."""
    most = 20_000 if LONG else 600
    if stops <= most:
        return list(range(1, stops + 1))
    between = random.Random(stops).sample(range(1, stops), most // 2)
    return sorted({*range(1, most // 4), *range(stops - most // 4, stops + 1), *between})


def by_calls(scene):
    """Kills at the stops and once not at all; gives the number of kills, or nothing where ptrace is refused."""
    place(scene.table, scene.old)
    done, told = traced(KILL_AT, ['kill', str(10 ** 9), *scene.command()])
    if done.ended == REFUSED:
        return None
    demand(done.ended == ENDED, scene.name, f'kill_at ended with {done.ended}')
    scene.check('not at all')
    chosen = moments(int(told[0]))
    for at in chosen:
        place(scene.table, scene.old)
        done = start(KILL_AT, ['kill', str(at), *scene.command()])
        demand(done.ended in (DISTURBED, ENDED), scene.name, f'kill_at ended with {done.ended}')
        demand(BOARD == PROGRAM or done.ended == ENDED or b'signal 9 ended the program' in done.err and beside(scene.table) == [], scene.name,
               f'killed at stop {at}: said {short(done.err)}, beside TABLE {beside(scene.table)}')
        scene.check(f'at stop {at} (kill_at kill {at} board serve REQUESTS TABLE)')
    demand(scene.seen[scene.new] >= 2 and scene.seen[scene.old] >= 1, scene.name, 'old and new were not both seen')
    return len(chosen)


def by_clock(scene, count, seed=7):
    """Kills at random times, up to a little more than the time of a whole run."""
    chance = random.Random(seed)
    place(scene.table, scene.old)
    begin = time.monotonic()
    demand_calm(start(BOARD, scene.command()[1:]), scene.name)
    whole = time.monotonic() - begin
    for _ in range(count):
        place(scene.table, scene.old)
        moment = chance.uniform(0, whole * 1.1)
        with subprocess.Popen(scene.command(), stdout=subprocess.DEVNULL, stderr=subprocess.DEVNULL) as child:
            time.sleep(moment)
            child.send_signal(signal.SIGKILL)
        wait_for_end(scene.table)
        scene.check(f'after {moment * 1000:.2f} ms')
    demand(scene.seen[scene.old] >= 1, scene.name, 'no kill came before the end')
    return count


def at_once(bench, rounds):
    """Several runs over one TABLE at once: one waits for the other, and each goes on from the table that the last one left."""
    scene = Scene(bench, 'several at once', SHORT, OLD)
    several, wanted = 4, OLD
    for _ in range(several):
        wanted = scene.expected(scene.requests, wanted)[1]
    waits = b'board: waiting for another run in the folder of ' + scene.table.encode() + b'\n'
    for _ in range(rounds):
        place(scene.table, OLD)
        runs = [subprocess.Popen(scene.command(), stdout=subprocess.DEVNULL, stderr=subprocess.PIPE) for _ in range(several)]
        for run in runs:
            _, said = run.communicate(timeout=60)
            demand(said in (b'', waits) and run.returncode == 0, scene.name, f'one says {short(said)}')
        demand(read_file(scene.table) == wanted, scene.name, f'TABLE is {short(read_file(scene.table))}')
        demand(beside(scene.table) == [], scene.name, f'left beside TABLE: {beside(scene.table)}')
    return rounds


def random_scene(bench, seed, lines):
    """Random requests over a random table."""
    maker = Maker(seed)
    return Scene(bench, f'{lines:,} random requests', maker.file(lines), maker.table())


def part():
    told = []
    with Bench() as bench:
        makers = [lambda: Scene(bench, 'a few requests over a table', SHORT, OLD),
                  lambda: Scene(bench, 'a few requests, no TABLE yet', SHORT, ABSENT),
                  lambda: random_scene(bench, 1000, 1000)]
        for make_scene in makers + ([lambda: random_scene(bench, 1001, 5000)] if LONG else []):
            scene = make_scene()
            stops = by_calls(scene)
            told.append(f'{scene.name}: ptrace is refused here' if stops is None else
                        f'{scene.name}: killed at {stops} stops, {scene.seen[scene.old]} old, {scene.seen[scene.new]} new')
        scene = random_scene(bench, 1002, 3000)
        kills = by_clock(scene, 2000 if LONG else 100)
        told.append(f'by the clock: {kills} kills, {scene.seen[scene.old]} old, {scene.seen[scene.new]} new')
        told.append(f'four at once: {0 if STAND_IN else at_once(bench, 200 if LONG else 10)}')
    return '; '.join(told)


if __name__ == '__main__':
    run_part('7 killed', part)
