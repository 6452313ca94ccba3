"""Part 7: the commands for people, their help, encode and decode, and the script."""
import os
import re
import shutil
import signal
import socket
import subprocess
import threading
import time

from board_frames import (BULK_GET, BULK_GET_KEYS, CLEAR, CONTAINS_KEY, GET, GET_WITH_VERSION, LARGEST_DEADLINE, PING, PUT, PUT_IF_ABSENT, REMOVE, REMOVE_IF_UNMODIFIED, REPLACE,
                          REPLACE_IF_UNMODIFIED, STATS, entry_line, frame, head_line)
from host_run import BOARD, Bench, HOST, Host, REFERENCE, SECONDS, TOP, demand, read_file, run_part, until, write_file

CONTROL, BYTES = b'a\nb', b'\xff\x00'.replace(b'\x00', b'\x80')
# Words, what is printed, and the status.
TALK = [('ping', 'the server answers', 0), ('put b1 Ida --lifespan 100', 'stored', 0), ('get b1', 'Ida', 0), ('getwithversion b1', 'version 1: Ida', 0),
        ('get b2', 'there is no such key', 2), ('getwithversion b2', 'there is no such key', 2), ('contains b1', 'yes', 0), ('contains b2', 'no', 2),
        ('put b1 Bo --previous --max-idle 5', 'stored; before: Ida', 0), ('put b2 x --previous', 'stored', 0), ('putifabsent b1 x', 'not stored: the key is there', 2),
        ('putifabsent b1 x --previous', 'not stored: the key is there; held: Bo', 2), ('putifabsent b3 x --previous', 'stored', 0),
        ('replace b9 x', 'not stored: there is no such key', 2), ('replace b3 y --previous', 'stored; before: x', 0),
        ('replaceifunmodified b3 z --version 1', 'not stored: the entry has another version', 2),
        ('replaceifunmodified b3 z --version 5 --previous', 'stored; before: y', 0), ('replaceifunmodified b9 z --version 5', 'not stored: there is no such key', 2),
        ('removeifunmodified b3 --version 1', 'not removed: the entry has another version', 2), ('removeifunmodified b3 --version 6 --previous', 'removed; before: z', 0),
        ('removeifunmodified b3 --version 6', 'there is no such key', 2), ('remove b2', 'removed', 0), ('remove b2 --previous', 'there is no such key', 2),
        ('put -- --key --value', 'stored', 0), ('get -- --key', '--value', 0), ('list', 'b1: Bo\n--key: --value', 0), ('list --count 1', 'b1: Bo', 0),
        ('keys', 'b1\n--key', 0), ('clear', 'cleared', 0), ('list', 'there are no entries', 0), ('keys', 'there are no entries', 0), ('get b1', 'there is no such key', 2)]
WRONG = [('nothing b1', 'there is no command'), ('get', 'is followed by KEY'), ('get a b', 'is followed by KEY'), ('put a', 'is followed by KEY VALUE'),
         ('ping x', 'is followed by no words'), ('get a --lifespan 5', 'no option --lifespan'), ('put a b --lifespan', 'needs a value'),
         ('put a b --for 5', '--for has to be a span'), ('put a b --for 0s', 'at least 1s'), ('put a b --for 4000w4000w', 'the last date'), ('put a b --for 2h --lifespan 5', 'only one of --lifespan'),
         ('put a b --until 2026-12-24', '--until has to be like'), ('put a b --until=2020-01-01T00:00Z', '--until is past: it is 2020-01-01 00:00:00 UTC'), ('get a --for 2h', 'no option --for'),
         ('put a b --until=2020-02-30T00:00Z', '--until is no day'), ('put a b --until=2107-01-01T00:00Z', 'the last date'), ('get a --raw --json', 'only one of --raw and --json'), ('get a --raw=1', '--raw takes no value'),
         ('put a b --lifespan=4294967296', 'has to be a number from 0 to 4294967295'), ('list --raw', 'no option --raw'), ('encode get a --json', 'no option --json'),
         ('put a b --lifespan 4294967296', 'has to be a number from 0 to 4294967295'), ('put a b --lifespan -1', 'has to be a number'), ('put a b --lifespan +5', 'has to be a number'), ('put a b --lifespan ', 'needs a value'),
         ('removeifunmodified a', 'needs --version N'), ('put ' + 'k' * 65 + ' v', 'refused 16'), ('put k ' + 'v' * 257, 'refused 16'),
         ('list x', 'is followed by no words'), ('keys --count 1', 'no option --count'), ('list --count 4294967296', 'has to be a number'),
         ('keys --protocol 11', 'keys needs --protocol 12 or 20'), ('ping --protocol 13', '--protocol has to be 10, 11, 12 or 20'), ('ping --protocol 020', '--protocol has to be'), ('encode keys --protocol 10', 'keys needs --protocol'),
         ('show', 'is followed by TABLE'), ('show /nowhere', 'there is no table /nowhere'), ('show /dev/null', 'is not a file'), ('sheet', 'is followed by TABLE'), ('sheet a b', 'is followed by TABLE'), ('sheet /nowhere', 'there is no table /nowhere'), ('sheet /dev/null', 'is not a file'), ('encode get', 'is followed by KEY'), ('decode', 'is followed by REQUESTS'), ('decode /nowhere', "can't open /nowhere"),
         ('decode -', "can't both be standard input"), ('decode - -', "can't both be standard input"), ('encode', 'a command is missing'), ('encode put', 'is followed by KEY VALUE'),
         (b'\xff b1', 'there is no command'), (b'encode \xff', 'there is no command'), ('serve', 'is followed by TABLE'), ('serve table --what', 'no option --what'),
         ('serve table --connections 0', 'has to be a number from 1 to 100000')]
HINT = "'feyqoolad help' shows what is understood. Nothing was done."


def run(words, **more):
    return subprocess.run([HOST, *words], capture_output=True, timeout=SECONDS, check=False, **more)


def talk(bench):
    with Host(bench.table('people')) as host:
        to = ['--to', f'127.0.0.1:{host.port}']
        for words, wanted, status in TALK:
            words = words.split()
            done = run(words[:1] + to + words[1:])
            demand((done.stdout.decode(), done.returncode, done.stderr) == (wanted + '\n', status, b''), ' '.join(words), f'{done}, wanted {wanted!r}')
        for value, shown in ((b'', '(empty)'), ('Äß'.encode(), 'Äß'), (CONTROL, '0x610a62'), (BYTES, '0xff80'), (b'v' * 256, 'v' * 256), (b'(empty)', '0x28656d70747929'), (b'0xff80', '0x307866663830')):
            run([b'put', b'v', value] + to)
            done = run(['get', 'v'] + to)
            demand(done.stdout.decode() == shown + '\n', f'a value {value}', f'{done}, wanted {shown!r}')
        with host.connect() as caller:
            for at in range(128):
                caller.call(PUT, key=b'%d' % at)
        done = run(['put', 'more', 'x'] + to)
        demand(done.returncode == 1 and done.stderr == b'feyqoolad: the server refuses: full (status 85)\n' and not done.stdout, 'a full table', f'{done}')
        gone = host.port
    for words, wanted in WRONG:
        done = run(words.split())
        demand(done.returncode == 1 and wanted in done.stderr.decode() and not done.stdout, words, f'{done}, wanted {wanted!r}')
        understood = 'refused' in wanted or 'nowhere' in wanted or 'not a file' in wanted
        demand(understood or HINT in done.stderr.decode(), words, f'{done}, wanted {HINT!r}')
    done = run([''])
    demand(done.returncode == 1 and b'there is no command' in done.stderr, 'an empty word', f'{done}')
    done = run(['ping', '--to', f'127.0.0.1:{gone}'])
    demand(done.returncode == 1 and b"can't reach a server" in done.stderr, 'no server', f'{done}')
    return len(TALK) + len(WRONG) + 8


COUNTED = '''entries: 2
keys added: 3
puts: 2
gets: 3
gets that found the key: 2
gets that did not: 1
removes that found the key: 1
removes that did not: 2
'''


# Words for a key of their own, what is printed in versions 10 to 12, and what in 20, whose status says whether a value follows.
OLD = [(('putifabsent', 'a', '--previous'), 'stored', 'stored'), (('put', 'b', '--previous'), 'stored; before: a', 'stored; before: a'), (('put', 'b'), 'stored', 'stored'),
       (('putifabsent', 'c', '--previous'), 'not stored: the key is there; held: b', 'not stored: the key is there; held: b'), (('putifabsent', 'c'), 'not stored: the key is there', 'not stored: the key is there'),
       (('replaceifunmodified', 'c', '--version', '0', '--previous'), 'not stored: the entry has another version', 'not stored: the entry has another version; held: b'),
       (('removeifunmodified', '--version', '0', '--previous'), 'not removed: the entry has another version', 'not removed: the entry has another version; held: b'),
       (('replace', '', '--previous'), 'stored; before: b', 'stored; before: b'), (('replace', 'd', '--previous'), 'stored', 'stored; before: (empty)'),
       (('remove', '--previous'), 'removed; before: d', 'removed; before: d'), (('remove', '--previous'), 'there is no such key', 'there is no such key'),
       (('replace', 'e', '--previous'), 'not stored: there is no such key', 'not stored: there is no such key'), (('get',), 'there is no such key', 'there is no such key')]


def protocols(bench):
    """The same words in each version of the protocol."""
    with Host(bench.table('protocols')) as host:
        for protocol in ('10', '11', '12', '20'):
            for words, early, late in OLD:
                done = run([words[0], f'k{protocol}', *words[1:], '--protocol', protocol, '--to', f'127.0.0.1:{host.port}'])
                wanted = late if protocol == '20' else early
                status = 2 if wanted.startswith(('not', 'there')) else 0
                demand((done.stdout.decode(), done.returncode, done.stderr) == (wanted + '\n', status, b''), f'{" ".join(words)} in version {protocol}', f'{done}, wanted {wanted!r}')
        done = run(['keys', '--protocol', '12', '--to', f'127.0.0.1:{host.port}'])
        demand(done.stdout == b'there are no entries\n', 'keys in version 12', f'{done}')
    return 4 * len(OLD) + 1


def statistics(bench):
    """The nine statistics of a few calls, a line each."""
    with Host(bench.table('statistics')) as host:
        to = ['--to', f'127.0.0.1:{host.port}']
        words = 'put b1 a, put b1 b, putifabsent b2 c, putifabsent b3 d, get b1, get b1, get b4, getwithversion b1, remove b4, remove b2, remove b2'.split(', ')
        for one in words:
            run(one.split() + to)
        done = run(['stats'] + to)
        first, rest = done.stdout.decode().split('\n', 1)
        demand(re.fullmatch(r'seconds since the first call: \d+', first) and (rest, done.returncode) == (COUNTED, 0), 'stats', f'{done}, wanted {COUNTED!r}')
    return len(words) + 1


def strange_servers():
    """Servers that answer with something else: each is told in words."""
    answers = [(b'', 'was closed before the reply'), (b'\xa1\x01', 'was closed before the reply'), (b'HTTP/1.1 400', 'is not a reply'),
               (b'\xa1\x02\x18\x00\x00', 'is to another request'), (b'\xa1\x00\x18\x00\x00', 'is to another request'),
               (b'\xa1\x02\x50\x85\x00\x04full', 'is to another request'), (b'\xa1\x00\x50\x85\x00\x04full', 'the server refuses: full'), (b'\xa1\x01\x18\x01\x00', 'is not a reply')]
    with socket.create_server(('127.0.0.1', 0)) as server:
        for answer, wanted in answers:
            def serve():
                connection = server.accept()[0]
                with connection:
                    connection.recv(100)
                    connection.sendall(answer)
            thread = threading.Thread(target=serve)
            thread.start()
            done = run(['ping', '--to', f'127.0.0.1:{server.getsockname()[1]}'])
            thread.join(SECONDS)
            demand(done.returncode == 1 and wanted in done.stderr.decode(), f'a server that answers {answer}', f'{done}')
    return len(answers)


ENCODED = [('put b1 Ida --lifespan 100 --max-idle 7', frame(PUT, key=b'b1', value=b'Ida', lifespan=100, idle=7, version=20)),
           ('get b1', frame(GET, key=b'b1', version=20)), ('putifabsent b1 x --previous', frame(PUT_IF_ABSENT, key=b'b1', value=b'x', flags=1, version=20)),
           ('replace b1 x', frame(REPLACE, key=b'b1', value=b'x', version=20)), ('remove b1', frame(REMOVE, key=b'b1', version=20)),
           ('replaceifunmodified b1 x --version 300', frame(REPLACE_IF_UNMODIFIED, key=b'b1', value=b'x', entry_version=300, version=20)),
           ('removeifunmodified b1 --version 18446744073709551615', frame(REMOVE_IF_UNMODIFIED, key=b'b1', entry_version=2 ** 64 - 1, version=20)),
           ('contains b1', frame(CONTAINS_KEY, key=b'b1', version=20)), ('getwithversion b1', frame(GET_WITH_VERSION, key=b'b1', version=20)),
           ('list', frame(BULK_GET, version=20)), ('list --count 300', frame(BULK_GET, bulk=300, version=20)), ('keys', frame(BULK_GET_KEYS, version=20)),
           ('clear', frame(CLEAR, version=20)), ('stats', frame(STATS, version=20)), ('ping', frame(PING, version=20)),
           ('put b1 Ida --lifespan 100 --protocol 10', frame(PUT, key=b'b1', value=b'Ida', lifespan=100, version=10)), ('remove b1 --previous --protocol 11', frame(REMOVE, key=b'b1', flags=1, version=11)),
           ('replace b1 x --protocol 12 --previous', frame(REPLACE, key=b'b1', value=b'x', flags=1, version=12)), ('keys --protocol 12', frame(BULK_GET_KEYS, version=12)),
           ('get b1 --protocol 20', frame(GET, key=b'b1', version=20))]
DECODED = '''ping: the server answers
put b1: stored
getwithversion b1: version 1: Ida
removeifunmodified b1: not removed: the entry has another version
?: the server refuses: bad magic (status 81)
'''


def lines(bench):
    """Encoded lines are the papers' bytes; decoded replies are words; ./board is between them."""
    for words, data in ENCODED:
        done = run(['encode', *words.split(), '--second', '255'])
        demand(done.stdout == b'000000ff ' + data.hex().encode() + b'\n', f'encode {words}', f'{done}')
    requests = os.path.join(bench.top, 'requests')
    shown = [os.path.join(TOP, 'crates/board/data/requests'), os.path.join(TOP, 'tests/paper/example.replies')]
    done = run(['decode', *shown])
    demand((done.stdout.decode(), done.returncode) == (DECODED, 0), 'decode', f'{done}')
    write_file(requests, b''.join(run(['encode', *words.split()]).stdout for words, _ in ENCODED) + b'no line\n00000000 a0\n')
    replies = subprocess.run([BOARD, 'serve', requests], capture_output=True, check=True).stdout
    others = subprocess.run([REFERENCE, 'serve', requests], capture_output=True, check=True).stdout
    demand(others == replies, 'encode', f'the second program answers {others!r}')
    done = run(['decode', requests], input=replies)
    said = done.stdout.decode().splitlines()
    demand(said[1] == 'get b1: Ida' and said[2] == 'putifabsent b1: not stored: the key is there; held: Ida', 'decode', f'{done}')
    demand(said[-2:] == ['?: refused 14: not a request line', '?: refused 15: not exactly one request'] and len(said) == len(ENCODED) + 2, 'decode', f'{done}')
    demand(said[15:18] == ['put b1: stored', 'remove b1: removed; before: Ida', 'replace b1: not stored: there is no such key'], 'decode', f'{done}')
    demand(said[9:12] == ['list: there are no entries', 'list 300: there are no entries', 'keys: there are no entries'], 'decode', f'{done}')
    demand(re.match(r'stats: seconds since the first call: \d+; entries: 0; keys added: 1; puts: 1; gets: 1; ', said[13]), 'decode', f'{done}')
    for change in (replies[:replies.rindex(b'\n', 0, -1) + 1], replies + b'a101180000\n'):
        done = run(['decode', requests], input=change)
        demand(done.returncode == 1 and b'replies than requests' in done.stderr, 'decode', f'{done}')
    return len(ENCODED) + 4


def date(second):
    return time.strftime('%Y-%m-%d %H:%M:%S UTC', time.gmtime(second))


def show(bench):
    """A stored table in words, also while it is served, with deadlines as dates; what stores no table is told and left as it is."""
    now = int(time.time())
    ends = [(104, 'expired 1970-01-01 00:01:44 UTC'), (now, f'expired {date(now)}'), (now + 1000, f'until {date(now + 1000)}'), (LARGEST_DEADLINE, 'until 2242-03-16 12:56:30 UTC')]
    tables = [(head_line(0), 'there are no entries\n'), (head_line(300) + entry_line(7, b'b1', b'Ida') + entry_line(260, b'\xff', b''), 'version 7: b1: Ida\nversion 260: 0xff: (empty)\n'),
              (head_line(128) + b''.join(entry_line(at + 1, b'%d' % at, b'v' * 256) for at in range(128)),
               ''.join(f'version {at + 1}: {at}: {"v" * 256}\n' for at in range(128))),
              (head_line(9) + b''.join(entry_line(at + 1, b'%d' % at, b'v', deadline) for at, (deadline, _) in enumerate(ends)),
               ''.join(f'version {at + 1}, {words}: {at}: v\n' for at, (_, words) in enumerate(ends)))]
    for at, (data, wanted) in enumerate(tables):
        with Host(bench.table(f'show{at}', data)) as host:
            done = run(['show', host.table])
            demand((done.stdout.decode(), done.returncode, done.stderr) == (wanted, 0, b''), 'show', f'{done}, wanted {wanted!r}')
    for data, number in ((b'', 1), (b'no table\n', 1), (tables[2][0] + entry_line(129, b'more'), 130), (tables[1][0][:-1], 3)):
        path = bench.table('shown', data)
        done = run(['show', path])
        demand(done.returncode == 1 and not done.stdout and b'refused 17: not a stored table' in done.stderr and b'has the number %d;' % number in done.stderr,
               f'show {data}', f'{done}')
        demand(read_file(path) == data and os.listdir(os.path.dirname(path)) == ['table'], f'show {data}', 'something was touched')
    return len(tables) + 4


def address(bench):
    """Without --listen and --to it is 127.0.0.1:11222; where somebody has that port, the words of the failure tell it."""
    with subprocess.Popen([HOST, 'serve', bench.table('address')], stderr=subprocess.PIPE) as server:
        said = next((line for line in server.stderr if b' on ' in line), b'')
        answers = b"can't listen" in said or run(['ping']).stdout == b'the server answers\n'
        server.terminate()
    demand(re.search(rb" on 127\.0\.0\.1:11222(: .*)?\n", said), 'no --listen', f'it says {said}')
    demand(answers, 'no --to', 'the server is not asked')
    return 2


TOOLS = ('awk', 'bash', 'cat', 'cut', 'cp', 'find', 'flock', 'head', 'kill', 'mkdir', 'readlink', 'rm', 'sha256sum', 'sleep', 'sort', 'tee', 'touch', 'xargs')


class Clone:
    """A clone in which nothing is built, with few tools on the PATH: those that the script needs, and stand-ins."""

    def __init__(self, bench):
        self.at = os.path.join(bench.top, 'clone')
        for folder in ('host/src', 'crates/exports/src', 'bin', 'tools'):
            os.makedirs(os.path.join(self.at, folder))
        for name in ('feyqoolad', 'tools/building', 'host/src/usage.txt', 'host/Cargo.toml'):
            shutil.copy(os.path.join(TOP, name), os.path.join(self.at, name))
        write_file(os.path.join(self.at, 'crates.txt'), b'wire:\ntext: wire\nboard: wire text io\nexports: text wire bytes\n')
        for tool in TOOLS:
            os.symlink(shutil.which(tool), os.path.join(self.at, 'bin', tool))

    def stand_in(self, tool, body):
        path = os.path.join(self.at, 'bin', tool)
        write_file(path, f'#!{os.path.join(self.at, "bin/bash")}\n{body}\n'.encode())
        os.chmod(path, 0o755)

    def begin(self, *words):
        return subprocess.Popen([os.path.join(self.at, 'bin/bash'), os.path.join(self.at, 'feyqoolad'), *words], env={'PATH': os.path.join(self.at, 'bin')},
                                stdout=subprocess.PIPE, stderr=subprocess.PIPE)

    def run(self, *words):
        started = self.begin(*words)
        out, err = started.communicate(timeout=SECONDS)
        return subprocess.CompletedProcess(words, started.returncode, out, err)


PROVED = ('echo "only=0 proved=0"; echo "crate wire: modules loaded=0 checked=9"; echo "logic=proved functions=2"; echo "more"; '
          'echo "crate text: modules loaded=4 checked=1" >&2; echo "logic=proved functions=3" >&2; ')
MADE = PROVED + 'echo "crate exports: modules loaded=4 checked=1"; echo "logic=proved functions=1"; mkdir -p out && echo a > out/libexports.a'
PROGRAM_MADE = '[ "$1" != --version ] || { echo "cargo 1.85.0 (x 2025)"; exit; }; cd "${0%/*}/.." && mkdir -p host/target/release && printf "#!$PWD/bin/bash\\necho built \\$*" > host/target/release/feyqoolad && bin/chmod +x host/target/release/feyqoolad'
STEPS = [(None, b'the Rattle toolchain (rt) is not there'), (('rt', 'exit 1'), b'the library was not built'),
         (('rt', PROVED + 'exit 1'), b'feyqoolad: 1 of 3: wire proved (0 s)\nfeyqoolad: 2 of 3: text proved (0 s)\nfeyqoolad: the library was not built'),
         (('rt', MADE), b'2 of 3: text proved (0 s)\nfeyqoolad: 3 of 3: exports proved (0 s)\nfeyqoolad: proved and built, after 0 seconds\nfeyqoolad: the Rust compiler (cargo) is not there'),
         (('cargo', 'echo "cargo 1.63.0 (fd9c4297c 2022)"'), b'the Rust compiler (cargo) is version 1.63.0, and version 1.85 or later is needed'),
         (('cargo', '[ "$1" != --version ] || { echo "cargo 1.120.1"; exit; }; exit 1'), b'the program was not built')]


def at_once(bench):
    """On a fresh clone help, the version and a word that is no command are answered without rt and cargo, with the words of the program."""
    clone = Clone(bench)
    for words in (['help'], [], ['-h'], ['--help'], ['--version'], ['-V'], ['help', 'put'], ['put', '--help'], ['serve', 'x', '--help'], ['nothing'], ['nothing', '--help'], ['help', 'nothing'], ['']):
        done, built = clone.run(*words), run(words)
        demand((done.stdout, done.stderr, done.returncode) == (built.stdout, built.stderr, built.returncode), f'{words} on a fresh clone', f'{done}, and the program: {built}')
        demand(done.returncode == ('nothing' in words or words == ['']), f'{words} on a fresh clone', f'{done}')
    demand(b'there is no command' not in clone.run('put', '--', '--help').stderr, 'a key --help', 'it is taken for an option')
    shutil.rmtree(clone.at)
    return 14


def script(bench):
    """The script through a link and from elsewhere; what it says where it can't build, with stand-ins for the tools; a signal ends the build; a copy of a folder
    that was built runs without tools."""
    if HOST != os.path.join(TOP, 'feyqoolad'):
        return 0
    link = os.path.join(bench.top, 'link')
    os.symlink(HOST, link)
    done = subprocess.run(['bash', '-c', 'cd / && CDPATH=/tmp: PATH=$0:$PATH link --version', bench.top], capture_output=True, check=False)
    demand(done.returncode == 0 and done.stdout.startswith(b'feyqoolad 1.0') and not done.stderr, 'through a link', f'{done}')
    clone = Clone(bench)
    for tool, wanted in STEPS:
        if tool:
            clone.stand_in(*tool)
        done = clone.run('ping')
        done.stderr = re.sub(rb'\(\d+ s\)', b'(0 s)', re.sub(rb'after \d+ seconds', b'after 0 seconds', done.stderr))
        demand(done.returncode == 1 and wanted in done.stderr and done.stderr.endswith(b'Nothing was done.\n'), f'ping with {tool}', f'{done}')
    build_ends(clone)
    os.symlink(shutil.which('chmod'), os.path.join(clone.at, 'bin/chmod'))
    clone.stand_in('cargo', PROGRAM_MADE)
    demand(clone.run('ping', 'it').stdout == b'built ping it\n', 'the build', 'the program does not run')
    copied(bench, clone)
    return len(STEPS) + 4


def build_ends(clone):
    """A signal to the script ends what the build has started."""
    sign = os.path.join(clone.at, 'pid')
    clone.stand_in('cargo', f'[ "$1" != --version ] || {{ echo "cargo 1.99.0"; exit; }}; (echo "$BASHPID" > {sign}.new; mv {sign}.new {sign}; exec sleep 300); exit 1')
    os.symlink(shutil.which('mv'), os.path.join(clone.at, 'bin/mv'))
    for number in (signal.SIGTERM, signal.SIGINT, signal.SIGHUP, signal.SIGKILL):
        started = clone.begin('ping')
        until(lambda: os.path.exists(sign), 'a signal to a build', 'the build does not begin')
        child = int(read_file(sign))
        os.unlink(sign)
        started.send_signal(number)
        err = started.communicate(timeout=SECONDS)[1]
        demand(number == signal.SIGKILL or started.returncode == 1 and b'a signal ended the build' in err, f'signal {number} to a build', f'{started.returncode} {err}')
        until(lambda: not os.path.exists(f'/proc/{child}') or b') Z' in read_file(f'/proc/{child}/stat'), f'signal {number} to a build', 'what it started runs on')


def copied(bench, clone):
    """A copy has other times, of which each may be the latest; it runs where there is no cargo and no rt, and a changed source is built."""
    at = os.path.join(bench.top, 'copy')
    shutil.copytree(clone.at, at, symlinks=True, copy_function=shutil.copyfile)
    shutil.copymode(os.path.join(clone.at, 'host/target/release/feyqoolad'), os.path.join(at, 'host/target/release/feyqoolad'))
    for name in ('rt', 'cargo'):
        os.unlink(os.path.join(at, 'bin', name))
    for folder in ('crates/exports/src', 'host/src'):
        path = os.path.join(at, folder, 'later')
        write_file(path, b'')
        os.utime(os.path.join(at, 'crates.txt'), (2 ** 31, 2 ** 31))
        os.utime(os.path.join(at, 'host/src/usage.txt'), (2 ** 31, 2 ** 31))
        words = [os.path.join(at, 'bin/bash'), os.path.join(at, 'feyqoolad'), 'ping']
        done = subprocess.run(words, env={'PATH': os.path.join(at, 'bin')}, capture_output=True, check=False)
        demand(done.returncode == 1 and b'is not there' in done.stderr, 'a copy with another source', f'{done}')
        os.unlink(path)
        done = subprocess.run(words, env={'PATH': os.path.join(at, 'bin')}, capture_output=True, check=False)
        demand((done.stdout, done.stderr) == (b'built ping\n', b''), 'a copy', f'{done}')


def sheet(bench):
    """The keys of a stored table by their bytes, also while it is served; what stores no table is told and left as it is."""
    keys = [b'b10', b'b9', b'', b'b', b'b1', b'b1\xc3\xa4', b'b1~', b'\xff', b'\x7f', b'B2', b'k' * 64, b'k' * 63]
    tables = [(head_line(0), 'there are no entries\n'),
              (head_line(300) + b''.join(entry_line(at + 1, key, b'v', at % 3 * 1000) for at, key in enumerate(keys)),
               '(empty)\nB2\nb\nb1\nb10\nb1~\nb1\u00e4\nb9\n' + 'k' * 63 + '\n' + 'k' * 64 + '\n0x7f\n0xff\n')]
    for at, (data, wanted) in enumerate(tables):
        with Host(bench.table(f'sheet{at}', data)) as host:
            done = run(['sheet', host.table])
            demand((done.stdout.decode(), done.returncode, done.stderr) == (wanted, 0, b''), 'sheet', f'{done}, wanted {wanted!r}')
    path = bench.table('sheets', tables[1][0][:-1])
    done = run(['sheet', path])
    demand(done.returncode == 1 and not done.stdout and b'refused 17: not a stored table' in done.stderr, 'sheet', f'{done}')
    demand(read_file(path) == tables[1][0][:-1] and os.listdir(os.path.dirname(path)) == ['table'], 'sheet', 'something was touched')
    return len(tables) + 1


def outputs():
    """Standard output that takes nothing is an error and no silence; help tells the commands and the statuses."""
    for words in (['--version'], ['encode', 'ping']):
        with open('/dev/full', 'wb') as taken:
            done = subprocess.run([HOST, *words], stdout=taken, stderr=subprocess.PIPE, check=False)
        demand(done.returncode == 1 and b"can't write" in done.stderr, f'{words} > /dev/full', f'{done}')
    return 2


def helps(bench):
    """Each command has its help, within 80 columns, with the options that it takes and two examples that it understands; the first page lists all commands."""
    parts = dict(one.split('\n', 1) for one in ('\n' + read_file(os.path.join(TOP, 'host/src/usage.txt')).decode()).split('\n== ')[1:])
    first = run(['help']).stdout.decode()
    demand(run([]).stdout.decode() == run(['-h']).stdout.decode() == run(['--help']).stdout.decode() == first == parts.pop('help') + '\n', 'help', 'other words')
    demand(run(['--version']).stdout == run(['-V']).stdout and parts.pop('version').startswith('feyqoolad 1.0'), '--version', 'other words')
    demand('exit status: 0' in first and {one.split()[0] for one, _, _ in TALK} | {'stats', 'show', 'sheet', 'serve', 'encode', 'decode'} <= set(parts), 'help', f'only {set(parts)}')
    for name, text in parts.items():
        done = run([name, '--help'])
        demand(done.stdout.decode().rstrip('\n') == text.rstrip('\n') == run(['help', name]).stdout.decode().rstrip('\n') and done.returncode == 0, f'{name} --help', f'{done}')
        demand(re.search(rf'^  {name}\b', first, re.M), 'help', f'it does not list {name}')
        usage, examples = text.split('\nexamples:\n')
        demand(usage.startswith(f'feyqoolad {name}') and len(examples.rstrip('\n').split('\n')) == 2, f'{name} --help', text)
    for line in '\n'.join([first, *parts.values()]).split('\n'):
        demand(len(line) <= 80 and line == line.rstrip(), 'help', f'a long line: {line}')
    with Host(bench.table('helps')) as host:
        for name in parts:
            options = re.findall(r'^  (--[a-z-]+)(?: (\S+))?', parts[name], re.M)
            for line in parts[name].split('examples:\n')[1].rstrip('\n').split('\n'):
                words = line.split()[1:]
                if name not in ('serve', 'show', 'sheet', 'decode') and line.startswith('  feyqoolad'):
                    to = [] if name == 'encode' or '--to' in words else ['--to', f'127.0.0.1:{host.port}']
                    words = [f'127.0.0.1:{host.port}' if one == '127.0.0.1:11222' else one for one in words]
                    done = run(words[:1] + to + words[1:])
                    demand(done.returncode in (0, 2) and not done.stderr, f'an example of {name}', f'{line}: {done}')
            if name not in ('decode', 'show', 'sheet'):
                # An option that is listed is taken, and needs a value where one is listed; all others are unknown.
                for option, value in options:
                    done = run([name, option])
                    demand((f'{option} needs a value' in done.stderr.decode()) == bool(value) and b'there is no option' not in done.stderr or name == 'encode', f'{name} {option}', f'{done}')
                others = {'--lifespan', '--for', '--until', '--raw', '--json', '--version', '--previous', '--count', '--protocol', '--to', '--second', '--listen', '--idle'} - {one for one, _ in options}
                for option in others if name != 'encode' else ():
                    demand(b'there is no option' in run([name, option, '1']).stderr, f'{name} {option}', 'it is taken, and the help does not list it')
    return 2 * len(parts)


def part():
    with Bench() as bench:
        return f'{talk(bench) + protocols(bench) + statistics(bench)} commands, {strange_servers()} strange servers, {lines(bench)} lines, {show(bench)} tables shown, {sheet(bench)} sheets, {address(bench)} without an address, {outputs()} outputs, {helps(bench)} of the help, {at_once(bench)} on a fresh clone, {script(bench)} of the script'


if __name__ == '__main__':
    run_part('7 people', part)
