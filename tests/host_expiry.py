"""Part 9: entries that leave by themselves: from the commands for people, from the page, from the file, and from a table that is loaded behind their deadline."""
import os
import time

from board_frames import GET, OPERATIONS, PING, PUT, THIRTY_DAYS, entry_line, frame, head_line
from host_page import Shown
from host_people import run
from host_run import Bench, Host, demand, read_file, reference, run_part, short, until

PAST = THIRTY_DAYS + 1  # a date in January 1970


def now():
    return int(time.time())


def said(host, *words):
    """What a command prints, and its status."""
    done = run([*words, '--to', f'127.0.0.1:{host.port}'])
    return done.stdout.decode().rstrip('\n'), done.returncode


def seen(host):
    """The board as the commands for people tell it."""
    statistics = said(host, 'stats')[0].split('\n')
    return [said(host, *words.split()) for words in ('get b1', 'getwithversion b1', 'contains b1', 'list', 'keys')] + [statistics[1]]


def on_page(host):
    return [(one['key'], one['value']) for one in host.entries()]


BEFORE = [('Ida', 0), ('version {}: Ida', 0), ('yes', 0), ('b2: Bo\nb3: Cai\nb1: Ida', 0), ('b2\nb3\nb1', 0), 'entries: 3']
BEHIND = [('there is no such key', 2)] * 2 + [('no', 2), ('b2: Bo\nb3: Cai', 0), ('b2\nb3', 0), 'entries: 2']


def leaves(bench):
    """A ship is on the board up to its deadline, and then on no list, with no write in between; others stay. Where this machine was too slow to see it in time, its
    lifespan is made longer."""
    with Shown(bench.table('leaves')) as host:
        others = [('b2', 'Bo'), ('b3', 'Cai')]
        demand(said(host, 'put', 'b2', 'Bo') == said(host, 'put', 'b3', 'Cai', '--lifespan', '1000') == ('stored', 0), 'two that stay', 'they are not stored')
        version, lifespan, late = 2, 1, True
        while late:
            version, lifespan = version + 1, 2 * lifespan
            demand(lifespan < 100, 'a ship', 'it is not seen within a minute')
            begin = now()
            demand(said(host, 'put', 'b1', 'Ida', '--lifespan', str(lifespan)) == ('stored', 0), 'a ship', 'it is not stored')
            latest = now() + lifespan
            board, page = seen(host), on_page(host)
            late = now() >= begin + lifespan
        wanted = [(one[0].format(version), one[1]) for one in BEFORE[:-1]] + BEFORE[-1:]
        demand(board == wanted, 'before the deadline', f'{board}, wanted {wanted}')
        demand(page == [('b1', 'Ida'), *others], 'before the deadline', f'the page shows {page}')
        until(lambda: now() >= latest, 'the deadline', 'it does not come')
        until(lambda: on_page(host) == others, 'behind the deadline', 'the page shows it on', seconds=3)
        demand(seen(host) == BEHIND, 'behind the deadline', f'{seen(host)}, wanted {BEHIND}')
        demand(host.stop() == 0, 'the end', host.words())
    stored = read_file(host.table)
    deadline = int(stored.splitlines()[2][16:32], 16)
    demand(stored == head_line(version) + entry_line(1, b'b2', b'Bo') + entry_line(2, b'b3', b'Cai', deadline), 'the stored file', short(stored))
    return 1


def dates(bench):
    """A date as lifespan: a past one is answered as any write, and the key is gone; one to come is the deadline."""
    with Shown(bench.table('dates'), '--sync', 'always') as host, host.connect() as caller:
        for words in ('b2 Bo', f'b3 Cai --lifespan {now() + 1000}', 'b1 Ida', f'b1 Ida --lifespan {PAST}', f'b4 Dor --lifespan {PAST}'):
            demand(said(host, 'put', *words.split()) == ('stored', 0), f'put {words}', 'it is not stored')
        reply = caller.call(PUT, key=b'b1', lifespan=PAST, flags=1)
        demand((reply.status, reply.value) == (0, b''), 'a date in the past', vars(reply))
        demand(seen(host) == BEHIND and on_page(host) == [('b2', 'Bo'), ('b3', 'Cai')], 'a date in the past', f'{seen(host)}, the page shows {on_page(host)}')
        stored = read_file(host.table)
        demand(stored.startswith(head_line(6)) and stored.count(b'\n') == 3, 'a date in the past', f'the file is {short(stored)}')
    return 4


def first_calls(bench):
    """Started on a table whose entry has expired, whatever is asked first: the reply, and the file at the end, are the second program's at this second. A refused
    call leaves the file."""
    late = now()
    stays = entry_line(7, b'b2', b'Bo', late + 1000) + entry_line(9, b'b3')
    some = head_line(9) + entry_line(3, b'k', b'Ida', late) + entry_line(4, b'b4', b'', 1) + stays
    full = head_line(128) + b''.join(entry_line(at + 1, b'%d' % at, b'v', late - at) for at in range(128))
    calls = [(some, frame(operation, entry_version=3, version=version, flags=flag)) for operation in OPERATIONS for version in (12, 20) for flag in (0, 1)]
    calls += [(full, frame(PUT)), (full, frame(GET, key=b'5')), (some, frame(PING, name=b'none'))]
    for table, one in calls:
        (reply,), left = reference([one], table, late)
        case = f'first call {one.hex()}'
        with Host(bench.table('first', table)) as host, host.connect() as caller:
            caller.send(one)
            found = caller.read(len(reply), case)
            demand(found == reply, case, f'{short(found)}, wanted {short(reply)}')
            demand(host.stop() == 0 and read_file(host.table) == left, case, f'the file is {short(read_file(host.table))}, wanted {short(left)}')
    demand(left == some and reply[2] == 0x50, case, 'the second program does not refuse it')
    return len(calls)


def swept(bench):
    """A call that writes nothing, behind a deadline, takes the entry from the file, as any change: with --sync always before its reply, else within a second;
    before it and behind it the file is left alone."""
    stays = entry_line(9, b'b3')
    for sync in ('always', 'second'):
        case = f'--sync {sync}, a ping behind a deadline'
        with Host(bench.table(sync, head_line(9) + entry_line(3, b'k', b'Ida', now()) + stays), '--sync', sync) as host, host.connect() as caller:
            time.sleep(0.7)
            demand(entry_line(3, b'k')[:16] in read_file(host.table), case, 'the file was changed before the call')
            caller.call(PING)
            if sync == 'second':
                until(lambda: read_file(host.table) == head_line(9) + stays, case, 'the file has it on', seconds=3)
            demand(read_file(host.table) == head_line(9) + stays, case, f'the file is {short(read_file(host.table))}')
            first = os.stat(host.table).st_ino
            for _ in range(14):
                caller.call(PING)
                time.sleep(0.05)
            demand(os.stat(host.table).st_ino == first, case, 'the file was replaced again')
    return 2


def part():
    with Bench() as bench:
        return f'{leaves(bench)} that leaves by itself, {dates(bench)} dates, {first_calls(bench)} first calls behind a deadline, {swept(bench)} taken from the file'


if __name__ == '__main__':
    run_part('9 expiry', part)
