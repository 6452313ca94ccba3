"""Part 10: asking as people and scripts do: dates and spans, JSON and raw bytes, and what goes to standard output and what to standard error with these."""
import datetime
import json
import os
import subprocess
import time
import zoneinfo

from board_frames import PUT, THIRTY_DAYS, frame
from host_run import Bench, HOST, Host, SECONDS, demand, run_part

UTC = datetime.timezone.utc


def run(*words, **more):
    return subprocess.run([HOST, *words], capture_output=True, timeout=SECONDS, check=False, **more)


def sent(second, *words, zone='UTC'):
    """The lifespan that a put with these words sends at a second, or what is said."""
    done = run('encode', 'put', 'k', 'v', '--second', str(second), *words, env={**os.environ, 'TZ': zone})
    if done.returncode:
        return done.stderr.decode()
    text = done.stdout.decode().split()[1]
    head, tail = frame(PUT, lifespan=0, version=20).hex().split('6b0000')
    demand(text.startswith(head + '6b') and text.endswith('00' + tail), f'{words}', f'another request: {text}')
    value = shift = 0
    for byte in bytes.fromhex(text[len(head) + 2:len(text) - len(tail) - 2]):
        value, shift = value | (byte & 127) << shift, shift + 7
    return value


EVE = int(datetime.datetime(2026, 12, 24, 18, tzinfo=UTC).timestamp())
PLACES = ('UTC', 'Europe/Berlin', 'America/St_Johns', 'Asia/Kathmandu', 'Australia/Lord_Howe', 'Pacific/Apia')
# Times of day in 2026, also close to the changes of clocks.
TIMES = ((1, 15, 0, 0), (3, 29, 1, 59), (3, 29, 3, 0), (4, 5, 12, 30), (7, 1, 23, 59), (10, 4, 3, 0), (10, 25, 4, 0), (12, 24, 18, 0), (12, 31, 23, 59))


def dates():
    """Dates of many places are the UNIX times that Python's zones give them; those that a clock shows twice or never are told."""
    now = int(datetime.datetime(2026, 1, 1, tzinfo=UTC).timestamp())
    for zone in PLACES:
        for month, day, hour, minute in TIMES:
            local = datetime.datetime(2026, month, day, hour, minute, tzinfo=zoneinfo.ZoneInfo(zone))
            wanted = int(local.timestamp())
            told = sent(now, '--until', f'{local:%Y-%m-%d %H:%M}', zone=zone)
            demand(told == wanted, f'--until {local} in {zone}', f'{told}, wanted {wanted}')
            demand(sent(now, f'--until={local:%Y-%m-%dT%H:%M:%S}', zone=zone) == wanted, f'--until {local} in {zone}', 'with seconds it is another')
            demand(sent(now, '--until', f'{local.astimezone(UTC):%Y-%m-%d %H:%M}Z', zone=zone) == wanted, f'--until {local} in {zone}', 'in UTC it is another')
    for zone in ('Europe/Berlin', 'CET-1CEST,M3.5.0,M10.5.0/3'):
        for text, words in (('2026-03-29 02:30', 'is passed over by the local clock'), ('2026-10-25 02:30', 'comes twice')):
            demand(words in str(sent(now, '--until', text, zone=zone)), f'{text} in {zone}', f"it is {sent(now, '--until', text, zone=zone)}")
        for offset, hours in (('+02:00', 0), ('+01:00', 1)):
            wanted = int(datetime.datetime(2026, 10, 25, hours, 30, tzinfo=UTC).timestamp())
            demand(sent(now, '--until', f'2026-10-25 02:30 {offset}', zone=zone) == wanted, f'02:30 {offset}', 'another')
    demand(sent(EVE, '--until', '2026-12-24 18:00Z').startswith('feyqoolad: --until is past: it is 2026-12-24 18:00:00 UTC, and the clock says 2026-12-24 18:00:00 UTC'), 'a date that is past', 'another answer')
    return len(PLACES) * len(TIMES) * 3 + 9


def spans():
    """Spans up to 30 days are sent as they are, and longer ones as the date that they lead to."""
    cases = [('2h', 7200), ('3d', 259_200), ('90m', 5400), ('1d12h', 129_600), ('1w', 604_800), ('30d', THIRTY_DAYS), ('30d1s', EVE + THIRTY_DAYS + 1), ('52w', EVE + 52 * 604_800)]
    for text, wanted in cases:
        demand(sent(EVE, '--for', text) == wanted, f'--for {text}', f"{sent(EVE, '--for', text)}, wanted {wanted}")
    demand(sent(EVE, '--lifespan', str(THIRTY_DAYS + 1)) == THIRTY_DAYS + 1, '--lifespan', 'another')
    return len(cases) + 1


def deadlines(bench):
    """What is put for a span or until a date has that deadline in the file, and leaves then."""
    with Host(bench.table('deadlines'), '--sync', 'always') as host:
        to = ('--to', f'127.0.0.1:{host.port}')
        before = int(time.time())
        at = before + 4000
        for key, words in (('span', ('--for', '1h')), ('long', ('--for', '60d')), ('date', ('--until', time.strftime('%Y-%m-%d %H:%M:%S', time.gmtime(at)))), ('short', ('--for', '1s'))):
            done = run('put', key, 'v', *words, *to, env={**os.environ, 'TZ': 'UTC'})
            demand(done.stdout == b'stored\n' and not done.stderr, f'put {key}', f'{done}')
        after = int(time.time())
        lines = run('show', host.table).stdout.decode().splitlines()
        for line, (low, high) in zip(lines, ((before + 3600, after + 3600), (before + 5_184_000, after + 5_184_000), (at, at), (before + 1, after + 1))):
            found = line.split(', ')[1].split(': ')[0].split(' ', 1)[1]
            second = int(datetime.datetime.strptime(found, '%Y-%m-%d %H:%M:%S %Z').replace(tzinfo=UTC).timestamp())
            demand(low <= second <= high, line, f'the deadline is {second}, wanted {low} to {high}')
        time.sleep(1.2)
        done = run('get', 'short', *to)
        demand((done.stdout, done.stderr, done.returncode) == (b'there is no such key\n', b'', 2), 'a second later', f'{done}')
    return 5


# Words, the object that is printed, and the status; with --json a no, and that there is nothing to list, is said on standard error.
OBJECTS = [(('ping',), {'done': True}, 0), (('put', 'b1', 'Ida'), {'key': 'b1', 'done': True}, 0), (('get', 'b1'), {'key': 'b1', 'found': True, 'value': 'Ida'}, 0),
           (('get', 'b2'), {'key': 'b2', 'found': False}, 2), (('getwithversion', 'b1'), {'key': 'b1', 'found': True, 'version': 1, 'value': 'Ida'}, 0),
           (('getwithversion', 'b2'), {'key': 'b2', 'found': False}, 2), (('contains', 'b1'), {'key': 'b1', 'found': True}, 0), (('contains', 'b2'), {'key': 'b2', 'found': False}, 2),
           (('put', 'b1', '', '--previous'), {'key': 'b1', 'done': True, 'previous': 'Ida'}, 0), (('get', 'b1'), {'key': 'b1', 'found': True, 'value': ''}, 0),
           (('put', 'b1', 'a\n"b"\\', '--previous'), {'key': 'b1', 'done': True, 'previous': ''}, 0), (('get', 'b1'), {'key': 'b1', 'found': True, 'value': 'a\n"b"\\'}, 0),
           (('putifabsent', 'b1', 'x', '--previous'), {'key': 'b1', 'done': False, 'reason': 'not stored: the key is there', 'previous': 'a\n"b"\\'}, 2),
           (('putifabsent', 'b1', 'x'), {'key': 'b1', 'done': False, 'reason': 'not stored: the key is there'}, 2),
           (('replace', 'b9', 'x'), {'key': 'b9', 'done': False, 'reason': 'not stored: there is no such key'}, 2),
           (('removeifunmodified', 'b1', '--version', '9'), {'key': 'b1', 'done': False, 'reason': 'not removed: the entry has another version'}, 2),
           ((b'put', b'\xff', b'\x00'.replace(b'\x00', b'\xfe\x80')), {'key': {'digits': 'ff'}, 'done': True}, 0), ((b'get', b'\xff'), {'key': {'digits': 'ff'}, 'found': True, 'value': {'digits': 'fe80'}}, 0),
           (('remove', 'b9'), {'key': 'b9', 'done': False, 'reason': 'there is no such key'}, 2), (('stats',), None, 0),
           (('list',), [{'key': 'b1', 'value': 'a\n"b"\\'}, {'key': {'digits': 'ff'}, 'value': {'digits': 'fe80'}}], 0), (('keys',), [{'key': 'b1'}, {'key': {'digits': 'ff'}}], 0),
           (('clear',), {'done': True}, 0), (('list',), [], 0), (('keys',), [], 0)]
STATISTICS = ['timeSinceStart', 'currentNumberOfEntries', 'totalNumberOfEntries', 'stores', 'retrievals', 'hits', 'misses', 'removeHits', 'removeMisses']


def objects(bench):
    """--json prints an object a line that a reader of JSON reads, whatever the bytes, and the status is the same."""
    with Host(bench.table('objects')) as host:
        to = ('--to', f'127.0.0.1:{host.port}')
        for words, wanted, status in OBJECTS:
            done = run(*words, '--json', *to)
            lines = done.stdout.decode().split('\n')
            demand(lines.pop() == '' and done.returncode == status, f'{words} --json', f'{done}')
            found = [json.loads(line) for line in lines]
            good = found == (wanted if isinstance(wanted, list) else [wanted]) if wanted is not None else [list(one) for one in found] == [STATISTICS]
            demand(good, f'{words} --json', f'{found}, wanted {wanted}')
            demand(bool(done.stderr) == (status == 2 or wanted == []), f'{words} --json', f'standard error has {done.stderr}')
        bad = run('put', 'k' * 65, '', '--json', *to)
        demand(bad.returncode == 1 and not bad.stdout and b'refused 16' in bad.stderr, 'a key that is too long, --json', f'{bad}')
    return len(OBJECTS) + 1


def raw(bench):
    """--raw prints the bytes of a value and nothing else: none for an empty one, with the status 0; a key that is not there has the status 2."""
    values = [b'', b'Ida', b'a\nb', b'\n', b'(empty)', b'0xff', b'\xff\xfe\x80', 'Äß'.encode(), bytes(range(1, 256))]
    with Host(bench.table('raw')) as host:
        to = ('--to', f'127.0.0.1:{host.port}')
        shown = set()
        for value in values:
            run('put', b'k', value, *to)
            done = run('get', '--raw', 'k', *to)
            demand((done.stdout, done.stderr, done.returncode) == (value, b'', 0), f'the value {value}', f'{done}')
            done = run('get', 'k', *to)
            demand(done.stdout.count(b'\n') == 1 and done.stdout.endswith(b'\n') and done.stdout not in shown, f'the value {value}', f'shown as {done.stdout}, and so is another')
            shown.add(done.stdout)
        done = run('get', '--raw', 'none', *to)
        demand((done.stdout, done.returncode) == (b'', 2) and done.stderr == b'feyqoolad: there is no such key\n', 'no value', f'{done}')
    return 2 * len(values) + 1


def part():
    with Bench() as bench:
        return f'{dates()} dates, {spans()} spans, {deadlines(bench)} deadlines, {objects(bench)} objects, {raw(bench)} raw values'


if __name__ == '__main__':
    run_part('10 asking', part)
