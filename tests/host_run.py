"""Running HOST, talking to it over sockets, and a reader of replies written from the papers (docs/PROTOCOL.md names their tables).

The expected bytes come from the second program or from the papers, never from HOST.
"""
import concurrent.futures
import os
import re
import shutil
import signal
import socket
import subprocess
import sys
import tempfile
import threading
import time

from board_frames import (BULK_GET, BULK_GET_KEYS, GET, GET_WITH_VERSION, PUT, PUT_IF_ABSENT, REMOVE, REMOVE_IF_UNMODIFIED, REPLACE, REPLACE_IF_UNMODIFIED,
                          frame, line)

TOP = os.path.dirname(os.path.dirname(os.path.abspath(__file__)))
HOST = os.path.abspath(os.environ.get('HOST', os.path.join(TOP, 'feyqoolad')))
# The program below the script, whose system calls are listed.
PROGRAM = os.path.realpath(os.path.join(TOP, 'host/target/release/feyqoolad') if HOST == os.path.join(TOP, 'feyqoolad') else HOST)
REFERENCE = os.path.join(TOP, 'reference/target/release/reference')
BOARD = os.path.abspath(os.environ.get('BOARD', os.path.join(TOP, 'board')))
LONG = sys.argv[1:2] == ['long']
SECONDS = 20  # an answer that takes longer does not come


class Difference(Exception):
    """What was found, with all that is needed to repeat it."""


def demand(good, case, why):
    if not good:
        raise Difference(f'{case}: {why}')


def short(data, most=300):
    """Bytes as text for a message."""
    if data is None or len(data) <= most:
        return repr(data)
    return f'{data[:most]!r}.. ({len(data)} bytes)'


def read_file(path):
    with open(path, 'rb') as file:
        return file.read()


def write_file(path, data):
    with open(path, 'wb') as file:
        file.write(data)


def until(true, case, why, seconds=SECONDS):
    """Waits until something holds."""
    end = time.monotonic() + seconds
    while not true():
        demand(time.monotonic() < end, case, why)
        time.sleep(0.01)


class Host:
    """A server on a free port of this machine, with what it says on standard error."""

    def __init__(self, table, *options, program=HOST, before=(), **more):
        self.table, self.port, self.said = table, None, b''
        words = [*before, program, 'serve', table, '--listen', '127.0.0.1:0', *options]
        self.run = subprocess.Popen(words, stdin=subprocess.DEVNULL, stdout=subprocess.DEVNULL, stderr=subprocess.PIPE, **more)
        self.listener = threading.Thread(target=self.listen, daemon=True)
        self.listener.start()
        try:
            until(self.listens, 'starting', f'{words} does not listen: {self.words()}')
        except BaseException:
            self.run.kill()
            raise

    def listen(self):
        """Takes down what it says; a pipe has no limit of size, as a file may have."""
        while more := os.read(self.run.stderr.fileno(), 65536):
            self.said += more

    def words(self):
        if self.run.poll() is not None:
            self.listener.join(SECONDS)
        return self.said.decode()

    def listens(self):
        """Whether it has told its port."""
        found = re.search(r'^feyqoolad: serves .* on 127\.0\.0\.1:(\d+)$', self.words(), re.M)
        demand(found or self.run.poll() is None, 'starting', f'it ended with {self.run.returncode}: {self.words()}')
        self.port = found and int(found[1])
        return self.port is not None

    def __enter__(self):
        return self

    def __exit__(self, *_):
        if self.run.poll() is None:
            self.run.kill()
        self.run.wait()
        self.listener.join(SECONDS)
        self.run.stderr.close()

    def stop(self, number=signal.SIGTERM):
        """Ends it by a signal; gives the status."""
        self.run.send_signal(number)
        try:
            return self.run.wait(timeout=SECONDS)
        except subprocess.TimeoutExpired as error:
            raise Difference(f'signal {number}: it does not end; it says {self.words()}') from error

    def connect(self, room=None):
        return Caller(self.port, room)

    def memory(self):
        """Kilobytes of memory that it has."""
        return int(re.search(r'^VmRSS:\s+(\d+)', read_file(f'/proc/{self.run.pid}/status').decode(), re.M)[1])

    def busy(self):
        """Seconds of processor time that it has used."""
        words = read_file(f'/proc/{self.run.pid}/stat').rsplit(b')', 1)[1].split()
        return (int(words[11]) + int(words[12])) / os.sysconf('SC_CLK_TCK')

    def files(self):
        """How many files it has open."""
        return len(os.listdir(f'/proc/{self.run.pid}/fd'))


class Caller:
    """A connection; with a room the system keeps no more than about so many bytes for it that it did not read."""

    def __init__(self, port, room=None):
        self.socket = socket.socket()
        self.socket.settimeout(SECONDS)
        if room:
            self.socket.setsockopt(socket.SOL_SOCKET, socket.SO_RCVBUF, room)
        self.socket.connect(('127.0.0.1', port))
        self.socket.setsockopt(socket.IPPROTO_TCP, socket.TCP_NODELAY, 1)
        self.bytes = b''

    def __enter__(self):
        return self

    def __exit__(self, *_):
        self.socket.close()

    def send(self, data):
        self.socket.sendall(data)

    def end(self):
        """Sends no more."""
        self.socket.shutdown(socket.SHUT_WR)

    def read(self, count, case):
        """So many bytes."""
        while len(self.bytes) < count:
            try:
                more = self.socket.recv(65536)
            except TimeoutError as error:
                raise Difference(f'{case}: only {short(self.bytes)} came, {count} bytes are awaited') from error
            demand(more, case, f'closed behind {short(self.bytes)}, {count} bytes are awaited')
            self.bytes += more
        data, self.bytes = self.bytes[:count], self.bytes[count:]
        return data

    def rest(self, case):
        """All bytes until the other end closes; a reset is an error."""
        pieces = [self.bytes]
        self.bytes = b''
        try:
            while more := self.socket.recv(65536):
                pieces.append(more)
        except (TimeoutError, ConnectionError) as error:
            raise Difference(f"{case}: {error} behind {short(b''.join(pieces))}") from error
        return b''.join(pieces)

    def silent(self, case, seconds=0.2):
        """Nothing comes, and the connection stays open."""
        self.socket.settimeout(seconds)
        try:
            more = self.socket.recv(65536)
        except TimeoutError:
            more = None
        self.socket.settimeout(SECONDS)
        demand(more is None and not self.bytes, case, f'{short(more)} came')

    def reply(self, operation, flags=0, case='a reply', version=10):
        """Reads the reply to a request with this operation, these flags and this version."""
        while (found := read_reply(self.bytes, operation, flags & 1, version)) is None:
            more = self.socket.recv(65536)
            demand(more, case, f'closed behind {short(self.bytes)}')
            self.bytes += more
        self.bytes = self.bytes[found.size:]
        return found

    def call(self, operation, **fields):
        """Sends a request and reads its reply."""
        self.send(frame(operation, **fields))
        return self.reply(operation, fields.get('flags', 0), version=fields.get('version', 10))


class Reply:
    """A reply's fields."""

    def __init__(self):
        self.size = self.message = self.operation = self.status = self.version = 0
        self.value = self.text = b''
        self.entries = []


def read_number(data, at):
    """A number, seven bits a byte, the lowest first; the place behind it, or nothing."""
    value = shift = 0
    while at < len(data):
        value |= (data[at] & 127) << shift
        at, shift = at + 1, shift + 7
        if data[at - 1] < 128:
            return value, at
    return None


def read_sized(data, at):
    """Bytes behind their length, and the place behind them, or nothing."""
    found = read_number(data, at)
    if found is None or found[1] + found[0] > len(data):
        return None
    return data[found[1]:found[1] + found[0]], found[1] + found[0]


def read_entries(data, at, values):
    """Pairs of key and value behind a byte 1 each, up to a byte 0, and the place behind it, or nothing."""
    entries = []
    while data[at:at + 1] == b'\1':
        key = read_sized(data, at + 1)
        value = read_sized(data, key[1]) if key and values else key and (b'', key[1])
        if value is None:
            return None
        entries.append((key[0], value[0]))
        at = value[1]
    demand(data[at:at + 1] in (b'', b'\0'), 'a bulk reply', f'{short(data[at:])} behind {len(entries)} entries')
    return (entries, at + 1) if at < len(data) else None


WITH_OLD = (PUT, PUT_IF_ABSENT, REPLACE, REPLACE_IF_UNMODIFIED, REMOVE, REMOVE_IF_UNMODIFIED)


def read_reply(data, operation, flag, version):
    """The reply at the front of the bytes, or nothing where it is not whole. In version 20 an old value is behind the statuses 3 and 4 alone."""
    reply = Reply()
    found = read_number(data, 1)
    if found is None or found[1] + 3 > len(data):
        return None
    reply.message, at = found
    reply.operation, reply.status, marker = data[at:at + 3]
    demand(data[0] == 0xa1 and marker == 0 and reply.operation in (operation + 1, 0x50), 'a reply', f'{short(data)} to operation {operation:02x}')
    at += 3
    has_value = operation in (GET, GET_WITH_VERSION) and reply.status == 0 or operation in WITH_OLD and (reply.status in (3, 4) if version == 20 else flag)
    if reply.operation == 0x50:
        found = read_sized(data, at)
    elif operation in (BULK_GET, BULK_GET_KEYS):
        listed = read_entries(data, at, operation == BULK_GET)
        reply.entries, found = listed[0] if listed else [], listed and (b'', listed[1])
    elif operation == GET_WITH_VERSION and reply.status == 0:
        found = read_sized(data, at + 8)
    elif has_value:
        found = read_sized(data, at)
    else:
        found = b'', at
    if found is None:
        return None
    reply.version = int.from_bytes(data[at:at + 8], 'big') if operation == GET_WITH_VERSION and reply.status == 0 else 0
    reply.value, reply.size = found
    if reply.operation == 0x50:
        reply.text, reply.value = reply.value, b''
    return reply


def reference(frames, table=None, second=0):
    """What the second program answers to each request at a second, as bytes, or the line where it is none; and its table."""
    with tempfile.TemporaryDirectory() as at:
        requests, path = os.path.join(at, 'requests'), os.path.join(at, 'table')
        write_file(requests, b''.join(line(one, second) for one in frames))
        if table is not None:
            write_file(path, table)
        done = subprocess.run([REFERENCE, 'serve', requests, path], check=True, capture_output=True)
        lines = done.stdout.splitlines()
        return [one if one.startswith(b'refused') else bytes.fromhex(one.decode()) for one in lines], read_file(path)


def is_permitted(works, what):
    """Whether something works here that a test needs. Where it does not, the test fails, unless HOST_SKIPS=yes lets it be passed over."""
    demand(works or os.environ.get('HOST_SKIPS') == 'yes', what, 'this is refused here, so a test can not run; HOST_SKIPS=yes passes it over')
    return works


def can_trace():
    """Whether system calls can be traced here (tests/kill_at.c)."""
    done = subprocess.run([os.environ['KILL_AT'], 'list', shutil.which('true')], stdout=subprocess.DEVNULL, check=False)
    return is_permitted(done.returncode == 0, 'tracing system calls')


MARGIN = 2  # how many seconds a loaded machine may take longer for what is due


def preloaded(bench, name, **more):
    """The environment of a server before whose libraries one of ours is loaded (tests/NAME.c)."""
    library = os.path.join(bench.top, f'{name}.so')
    subprocess.run(['gcc', '-O1', '-Wall', '-Wextra', '-shared', '-fPIC', '-o', library, os.path.join(TOP, f'tests/{name}.c')], check=True)
    return {**os.environ, 'LD_PRELOAD': library, **more}


class Bench:
    """A folder for a served table."""

    def __enter__(self):
        self.top = tempfile.mkdtemp(prefix='host.')
        return self

    def __exit__(self, *_):
        shutil.rmtree(self.top)

    def table(self, name, data=None):
        """A table's path in a folder of its own."""
        folder = os.path.join(self.top, name)
        os.makedirs(folder, exist_ok=True)
        path = os.path.join(folder, 'table')
        if data is not None:
            write_file(path, data)
        return path


def together(*parts):
    """What these give, which mostly wait and so run at the same time."""
    with concurrent.futures.ThreadPoolExecutor(len(parts)) as pool:
        return [one.result() for one in [pool.submit(part) for part in parts]]


def run_part(name, part):
    """Runs a part and prints its line; ends the program at the first difference."""
    begin = time.monotonic()
    try:
        print(f'host: {name}: {part()}, {time.monotonic() - begin:.0f} s', flush=True)
    except (Difference, ConnectionError, TimeoutError, subprocess.TimeoutExpired) as found:
        print(f'host: {name}: DIFFERENT\n  {type(found).__name__}: {found}\n  HOST={HOST}', flush=True)
        sys.exit(1)
