"""Part 8: the page. What it says, its title, the order of keys, hostile keys and values, methods, broken and long requests, many visitors at once and slow ones,
its place among the connections, and a server that does not answer."""
import html
import json
import os
import random
import re
import select
import socket
import subprocess
import time

from board_frames import GET, PING, PUT, REMOVE, entry_line, frame, head_line, key_name
from host_disk import lift, limit_size
from host_run import Bench, HOST, Host, SECONDS, demand, preloaded, read_file, run_part, short, together, until, write_file

POLICY = ("default-src 'none'; script-src 'self'; style-src 'self'; img-src 'self'; connect-src 'self'; base-uri 'none'; form-action 'none'; frame-ancestors 'none'")
# Keys and values with what a page must not take for markup, script, a string's end or an order of writing.
HOSTILE = [b'<script>alert(1)</script>', b'</script><b>', b'"', b"'", b'\\', b'\\u0022', b'&lt;', b'<!--', b'<img src=x onerror=alert(1)>', b'javascript:alert(1)', b'${1}', b'`',
           b']]>', b'\xe2\x80\xa8', b'\xe2\x80\xae abc', b'\xf0\x9f\x9a\xa2', 'Äolus'.encode(), b'a b', b'', b' ', b'__proto__', b'constructor', b'\x7f', b'\x00', b'a\nb', b'\x1b[2J',
           b'\xc2\x85', b'\xff', b'\xc3', b'\xed\xa0\x80', b'\xf4\x90\x80\x80', b'ok\xfe', b'k' * 64]


class Shown(Host):
    """A server with a page, at a port of its own or at this one."""

    def __init__(self, table, *options, page=0, **more):
        super().__init__(table, '--page', f'127.0.0.1:{page}', *options, **more)
        self.page = None
        until(self.shows, 'starting', 'no page is told')

    def shows(self):
        found = re.search(r'^feyqoolad: shows it on http://127\.0\.0\.1:(\d+)/$', self.words(), re.M)
        self.page = found and int(found[1])
        return self.page is not None

    def visit(self, data):
        """Sends these bytes to the page; gives all that comes."""
        with socket.create_connection(('127.0.0.1', self.page), timeout=SECONDS) as visitor:
            visitor.sendall(data)
            return rest(visitor)

    def ask(self, path='/data', method='GET', version='1.1'):
        """The status, the fields and the body of an answer."""
        return parts(self.visit(f'{method} {path} HTTP/{version}\r\nHost: 127.0.0.1\r\n\r\n'.encode()), f'{method} {path}', method != 'HEAD')

    def entries(self):
        status, _, body = self.ask()
        demand(status == 200, 'the data', f'status {status}')
        return json.loads(body)['entries']


class Stuck(Shown):
    """A server that answers nobody from a put on, since its disk is stuck, until that is lifted."""

    def __init__(self, bench, name):
        self.sign = os.path.join(bench.top, f'{name}.stuck')
        super().__init__(bench.table(name), '--sync', 'always', env=preloaded(bench, 'stuck_disk', STUCK_DISK=self.sign))
        write_file(self.sign, b'')
        self.caller = self.connect()
        self.caller.send(frame(PUT, key=b'b1', value=b'Ida'))
        until(lambda: os.listdir(os.path.dirname(self.table)) != ['table'], 'a disk that is stuck', 'nothing is written')

    def lift(self):
        os.remove(self.sign)
        self.caller.reply(PUT)


def rest(visitor):
    pieces = []
    while more := visitor.recv(65536):
        pieces.append(more)
    return b''.join(pieces)


def parts(data, case, with_body=True):
    """Status, fields and body of an answer, which has to be whole. One that refuses says why in a sentence."""
    head, _, body = data.partition(b'\r\n\r\n')
    first, *lines = head.decode().split('\r\n')
    found = re.fullmatch(r'HTTP/1\.1 (\d{3}) [A-Za-z ]+', first)
    demand(found, case, f'{short(data)} is no answer')
    fields = dict(line.split(': ', 1) for line in lines)
    demand(int(fields['Content-Length']) == len(body) if with_body else body == b'', case, f'{fields} before {len(body)} bytes')
    demand(not with_body or found[1][0] != '4' or re.fullmatch(rb"[A-Z][A-Za-z :/'.,0-9]+\.\n", body), case, f'{short(body)} is no sentence')
    wanted = {'Content-Security-Policy': POLICY, 'X-Content-Type-Options': 'nosniff', 'Cache-Control': 'no-store', 'Connection': 'close',
              'Referrer-Policy': 'no-referrer', 'X-Frame-Options': 'DENY', 'Cross-Origin-Resource-Policy': 'same-origin'}
    demand(wanted.items() <= fields.items(), case, f'{wanted} is not said in {fields}')
    return int(found[1]), fields, body


DOCUMENTS = [('/', 'text/html'), ('/?x=/data', 'text/html'), ('/page.css', 'text/css'), ('/page.js', 'text/javascript'), ('/favicon.svg', 'image/svg+xml'),
             ('/favicon.ico', 'image/svg+xml'), ('/data', 'application/json'), ('/health', 'text/plain')]


def documents(bench):
    """The page, its style, its script and its icon are there, and name nothing outside but what the icon is; HEAD and the absolute form of a target get the same."""
    with Shown(bench.table('documents')) as host:
        for path, kind in DOCUMENTS:
            for version in ('1.0', '1.1'):
                status, fields, body = host.ask(path, version=version)
                demand(status == 200 and fields['Content-Type'].split(';')[0] == kind, path, f'{status} {fields}')
            text = body.decode().replace('xmlns="http://www.w3.org/2000/svg"', '')
            demand(not re.search(r'https?:|//[a-z]|url\(|@import|innerHTML|insertAdjacent|document\.write|eval\(|style="|<script>|\son[a-z]+=', text), path, 'something that it must not name')
            named = re.findall(r'(?:src|href)="([^"]*)"|fetch\("([^"]*)"', text)
            for name in filter(None, sum(named, ())):
                demand(host.ask(name)[0] == 200, path, f'it names {name}, which is not there')
            demand(host.ask(path, 'HEAD') == (200, fields, b''), f'HEAD {path}', f'{host.ask(path, "HEAD")}, wanted {fields}')
            for name in ('http://board.harbour.example:8080', 'HTTP://127.0.0.1'):
                demand(host.ask(name + path) == (200, fields, body), name + path, 'another answer')
        demand(host.ask('http://board.harbour.example')[2] == host.ask('/')[2], 'no path', 'another answer')
        demand(host.ask('/health')[2] == b'The server answers.\n', '/health', 'other words')
        demand(host.stop() == 0, 'the end', host.words())
    return len(DOCUMENTS)


def title(bench):
    """A title is text in the page. A page has a number, which its data tell, and which is another one where the title is; without a table nothing differs."""
    numbers = {}
    for name in (None, None, 'Ships', '<b>"Äo" & \'x\' {{page}}'):
        with Shown(bench.table('title'), *(('--title', name) if name else ())) as host:
            text = host.ask('/')[2].decode()
            found = re.search(r'<title>([^<]*)</title>(?s:.*)<bdi>([^<]*)</bdi>', text)
            demand(found and html.unescape(found[1]) == html.unescape(found[2]) == (name or 'Arrivals'), f'the title {name}', text)
            number = re.search(r'<html lang="en" data-page="([0-9a-f]{16})">', text)[1]
            demand(json.loads(host.ask()[2])['page'] == number == numbers.setdefault(name, number), f'the title {name}', f'its number is {number}, and not that of its data')
    demand(len(set(numbers.values())) == 3, 'titles', f'{numbers}')
    for words, said in (('', 'at most 64 characters'), (' ', 'at most 64 characters'), ('a\nb', 'at most 64 characters'), ('ä' * 65, 'at most 64 characters'), (None, 'needs --page')):
        table = bench.table('untitled')
        done = subprocess.run([HOST, 'serve', table, '--listen', '127.0.0.1:0', '--title', words or '', *(() if words is None else ('--page', '127.0.0.1:0'))], capture_output=True,
                              timeout=SECONDS, check=False)
        demand(done.returncode == 1 and said in done.stderr.decode() and not os.path.exists(table), f'--title {words!r}', f'{done}')
    return 9


def is_text(data):
    try:
        text = data.decode()
    except UnicodeDecodeError:
        return False
    return not any(ord(one) < 32 or 127 <= ord(one) < 160 for one in text)


def field(data):
    """What the data has to have for a key or a value."""
    return data.decode() if is_text(data) else {'digits': data.hex()}


def counted(entry):
    """An entry's place as people count: digits are a number. A number stands among other bytes as its digits do."""
    tokens = re.findall(rb'[0-9]+|[^0-9]', entry[0], re.S)
    return [(ord(b'0'), int(token)) if token.isdigit() else (token[0], 0) for token in tokens], entry[0]


ORDERED = [b'', b'007', b'berth/02', b'berth/2', b'berth/10', b'berth/10/2', b'berth/10/10', b'berth/x', b'pier 9', b'pier 11', b'pier 99999999999999999999', b'pier 100000000000000000000']


def order(bench):
    """2 stands before 10, whatever the order in which entries were put."""
    with Shown(bench.table('order')) as host, host.connect() as caller:
        for key in random.Random(7).sample(ORDERED, len(ORDERED)):
            caller.call(PUT, key=key, value=b'x')
        time.sleep(0.3)
        found = [entry['key'] for entry in host.entries()]
        demand(found == [key.decode() for key in ORDERED], 'the order', f'{found}')
    return len(ORDERED)


def hostile(bench):
    """Each hostile key and value is data: the escaped text, or digits; nothing else of it is in the answer. Entries stand by key, as people count."""
    with Shown(bench.table('hostile')) as host, host.connect() as caller:
        held = {}
        for at, key in enumerate(HOSTILE):
            value = HOSTILE[(at + 7) % len(HOSTILE)] * 3
            caller.call(PUT, key=key, value=value)
            held[key] = value
        time.sleep(0.3)
        status, _, body = host.ask()
        demand(status == 200 and re.fullmatch(rb'[A-Za-z0-9 {}\[\]":,\\\n]*', body), 'hostile entries', f'{status}, {short(body)}')
        demand(not re.search(rb'\\[^u]|\\u(?![0-9a-f]{4})', body), 'hostile entries', 'another escape')
        wanted = [{'key': field(key), 'value': field(value)} for key, value in sorted(held.items(), key=counted)]
        found = json.loads(body)['entries']
        for one, other in zip(found, wanted):
            demand(one == other, 'hostile entries', f'{one} is shown for {other}')
        demand(len(found) == len(wanted), 'hostile entries', f'{len(found)} are shown')
    return len(HOSTILE)


def full(bench):
    """The longest table is shown whole; a ship comes and goes."""
    lines = [entry_line(at + 1, key_name(at) + b'<' * 61, b'"' * 256) for at in range(128)]
    with Shown(bench.table('full', head_line(128) + b''.join(lines))) as host, host.connect() as caller:
        demand(len(host.entries()) == 128 and all(one['value'] == '"' * 256 for one in host.entries()), 'a full table', 'other entries')
        caller.call(REMOVE, key=key_name(5) + b'<' * 61)
        until(lambda: len(host.entries()) == 127, 'a ship that leaves', 'it is shown on', seconds=3)
        caller.call(PUT, key=b'Ida', value=b'x')
        until(lambda: {'key': 'Ida', 'value': 'x'} in host.entries(), 'a ship that comes', 'it is not shown', seconds=3)
    return 130


LINES = [(b'POST / HTTP/1.1', 405), (b'POST /data HTTP/1.1', 405), (b'PUT /data HTTP/1.1', 405), (b'DELETE /data HTTP/1.1', 405), (b'HEAD / HTTP/1.1', 200),
         (b'OPTIONS * HTTP/1.1', 400), (b'OPTIONS / HTTP/1.1', 405), (b'TRACE / HTTP/1.1', 405), (b'PATCH / HTTP/1.1', 405), (b'get / HTTP/1.1', 405),
         (b'GET /x HTTP/1.1', 404), (b'GET //data HTTP/1.1', 404), (b'GET /../../etc/passwd HTTP/1.1', 404), (b'GET /%2e%2e/ HTTP/1.1', 404), (b'GET /page.rs HTTP/1.1', 404),
         (b'GET http://127.0.0.1/ HTTP/1.1', 200), (b'GET http://127.0.0.1/x HTTP/1.1', 404), (b'GET ftp://127.0.0.1/ HTTP/1.1', 400), (b'GET http:/ HTTP/1.1', 400), (b'GET / HTTP/1.1 x', 400), (b'GET /', 400), (b'GET', 400), (b'', 400), (b'GET / HTTP/3', 400), (b'GET / http/1.1', 400),
         (b'GET  / HTTP/1.1', 400), (b'GET\t/\tHTTP/1.1', 400), (b'GET /\x00 HTTP/1.1', 400), (b'GET /\xff HTTP/1.1', 400), (b'\xa0\x01\x0a\x17', 400), (b'CONNECT a:1 HTTP/1.1', 400),
         (b'GET /' + b'a' * 7000 + b' HTTP/1.1', 404), (b'GET /' + b'a' * 9000 + b' HTTP/1.1', 431), (b'GET / HTTP/1.1\r\nX: ' + b'y' * 500_000, 431),
         (b'GET / HTTP/1.1\r\n' + b'X: y\r\n' * 1000 + b'X: y', 200), (b'GET / HTTP/1.1\r\n' + b'X: y\r\n' * 2000 + b'X: y', 431),
         (b'GET / HTTP/1.1\r\nX', 400), (b'GET / HTTP/1.1\r\nX y: z', 400), (b'GET / HTTP/1.1\r\n: z', 400), (b'GET / HTTP/1.1\r\nX: y\r\n z', 400), (b'GET / HTTP/1.1\rX: y', 400)]
# Heads that can't become good, before they are whole: they are not waited for.
BROKEN = [b'GET / HTTP/1.1\n\n', b'GET / HTTP/1.1\nHost: x\n\n', b'GET / HTTP/1.1\r\nHost: x\n', b'\x16\x03\x01\x02', b'GET / HTTP/1.1\r\rX', b'\n']
CUT = [b'G', b'GET / HTTP/1.1', b'GET / HTTP/1.1\r\n', b'GET / HTTP/1.1\r\nHost: x\r\n\r']


def requests(bench):
    """Methods, and requests that are broken, long, cut or noise. The table is what it was."""
    table = head_line(4) + entry_line(4, b'b1', b'Ida')
    random.seed(11)
    with Shown(bench.table('requests', table)) as host:
        for line, wanted in LINES:
            for behind in (b'', b'x' * 3000):
                status, fields, _ = parts(host.visit(line + b'\r\n\r\n' + behind), short(line), not line.startswith(b'HEAD'))
                demand(status == wanted and fields['Allow'] == 'GET, HEAD', short(line), f'status {status}, wanted {wanted}')
        for line in BROKEN:
            demand(parts(host.visit(line), short(line))[0] == 400, short(line), 'another status')
        for line in CUT:
            with socket.create_connection(('127.0.0.1', host.page), timeout=SECONDS) as cut:
                cut.sendall(line)
                cut.shutdown(socket.SHUT_WR)
                demand(parts(rest(cut), short(line))[0] == 400, short(line), 'another status')
        with socket.create_connection(('127.0.0.1', host.page), timeout=SECONDS) as half:
            half.sendall(b'GET /data HTTP/1.1\r\n\r\n')
            half.shutdown(socket.SHUT_WR)
            demand(parts(rest(half), 'one that sends no more')[0] == 200, 'one that sends no more', 'another status')
        with socket.create_connection(('127.0.0.1', host.page), timeout=SECONDS) as slow:
            for byte in b'GET /data HTTP/1.1\r\n\r\n':
                slow.sendall(bytes([byte]))
                time.sleep(0.002)
            demand(parts(rest(slow), 'byte by byte')[0] == 200, 'byte by byte', 'another status')
        begin = time.monotonic()
        for _ in range(50):
            with socket.create_connection(('127.0.0.1', host.page), timeout=SECONDS) as noise:
                noise.sendall(random.randbytes(random.randrange(1, 2000)))
                noise.shutdown(socket.SHUT_WR)
                came = rest(noise)
                demand(time.monotonic() - begin < 30, 'noise', 'connections that have ended are kept until they are late')
                demand(came == b'' or parts(came, 'noise')[0] in (400, 431), 'noise', short(came))
        demand(host.entries() == [{'key': 'b1', 'value': 'Ida'}], 'behind the noise', 'other entries')
        demand(host.stop() == 0 and read_file(host.table) == table, 'the end', 'the table was changed')
    return 2 * len(LINES) + len(BROKEN) + len(CUT) + 52


def crowd(bench):
    """Many at once behind as many that send nothing as there are places: all are answered, clients of the server meanwhile; nobody's memory or file stays."""
    lines = [entry_line(at + 1, key_name(at), b'"' * 256) for at in range(128)]
    with Shown(bench.table('crowd', head_line(128) + b''.join(lines))) as host, host.connect() as caller:
        host.entries()
        files, before = host.files(), host.memory()
        silent = [socket.create_connection(('127.0.0.1', host.page), timeout=SECONDS) for _ in range(64)]
        many = []
        for _ in range(120):  # each asks at once: one that does not may lose its place to another
            many.append(socket.create_connection(('127.0.0.1', host.page), timeout=SECONDS))
            many[-1].sendall(b'GET /data HTTP/1.1\r\n\r\n')
        for _ in range(200):
            demand(caller.call(GET, key=key_name(1)).status == 0 and caller.call(PING).status == 0, 'beside the page', 'no answer')
        demand(host.files() <= files + 66, 'a crowd', f'{host.files() - files} files more')
        bodies = [parts(rest(visitor), 'a crowd') for visitor in many]
        demand(all(body == bodies[0] and body[0] == 200 for body in bodies), 'a crowd', 'other answers')
        demand(all(rest(visitor) == b'' for visitor in silent), 'silent ones', 'bytes came')
        for visitor in silent + many:
            visitor.close()
        until(lambda: host.files() <= files, 'a crowd', f'{host.files() - files} files more')
        grown = host.memory() - before
        demand(grown < 4000, 'a crowd', f'the server grew by {grown} kB')
        idle = host.busy()
        time.sleep(0.5)
        demand(host.busy() - idle < 0.1, 'behind a crowd', f'it is busy for {host.busy() - idle} of 0.5 seconds')
    return 184


def never_read(bench):
    """Visitors that do not read their answers, and ones that go in the middle: others are answered."""
    lines = [entry_line(at + 1, key_name(at), b'"' * 256) for at in range(128)]
    with Shown(bench.table('never', head_line(128) + b''.join(lines))) as host:
        host.entries()
        files, bad = host.files(), []
        for at in range(60):
            visitor = socket.socket()
            visitor.setsockopt(socket.SOL_SOCKET, socket.SO_RCVBUF, 4096)
            visitor.connect(('127.0.0.1', host.page))
            visitor.sendall(b'GET /data HTTP/1.1\r\n\r\n'[:22 if at % 3 else at % 22])
            bad.append(visitor)
        for _ in range(20):
            demand(len(host.entries()) == 128, 'beside visitors that do not read', 'other entries')
        for visitor in bad:
            visitor.close()
        until(lambda: host.files() <= files, 'visitors that left', f'{host.files() - files} files more')
    return 60


def slow_ones(bench):
    """Visitors that send half a head and wait, many more than there are places, and ones that do not read: others are answered, long before these are late. One that
    sends its head slowly beside them is answered too."""
    lines = [entry_line(at + 1, key_name(at), b'"' * 256) for at in range(128)]
    with Shown(bench.table('slow-ones', head_line(128) + b''.join(lines))) as host:
        host.entries()
        files, slow = host.files(), []
        for _ in range(400):
            slow.append(socket.create_connection(('127.0.0.1', host.page), timeout=SECONDS))
            slow[-1].sendall(b'GET / HTT')
        begin = time.monotonic()
        for _ in range(10):
            demand(len(host.entries()) == 128, 'beside slow visitors', 'other entries')
        took = time.monotonic() - begin
        demand(took < 7, 'beside slow visitors', f'10 visitors waited for {took:.1f} s')  # 336 slow ones before them, 64 at a time and 3 seconds each, would take 15
        for visitor in slow:
            visitor.close()
        until(lambda: host.files() <= files, 'slow visitors', f'{host.files() - files} files more')
    return 410


def own_place(bench):
    """With all connections taken the page has its entries, and one client more is turned away as before; the page's connection is no client's, and is never idle."""
    with Shown(bench.table('place'), '--connections', '1', '--idle', '1') as host:
        files = host.files()
        for _ in range(2):
            with host.connect() as only, host.connect() as more:
                only.call(PUT, key=b'b1', value=b'Ida')
                demand(more.reply(PING).text == b'too many connections', 'one above the limit', 'it is served')
                until(lambda: host.entries() == [{'key': 'b1', 'value': 'Ida'}], 'all connections are taken', 'the page has other entries')
                demand(host.ask('/health')[0] == 200, 'all connections are taken', 'the server does not answer')
                until(lambda: only.rest('idle') == b'', 'idle', 'a client is not closed')
        time.sleep(2.5)
        demand(host.entries() == [{'key': 'b1', 'value': 'Ida'}], 'behind a rest', 'other entries')
        until(lambda: host.files() == files, 'behind a rest', f'{host.files()} files, and not {files}')
        demand(host.words().count('closed, since nothing moved') == 2, 'the page is idle', f'it says {host.words()}')
        demand(host.stop() == 0, 'the end', host.words())
    return 2


def used(bench):
    """An address in use is told, and no table is made."""
    with Shown(bench.table('user')) as host:
        table = bench.table('used')
        done = subprocess.run([HOST, 'serve', table, '--listen', '127.0.0.1:0', '--page', f'127.0.0.1:{host.page}'], capture_output=True, timeout=SECONDS, check=False)
        demand(done.returncode == 1 and b"can't listen" in done.stderr and b'fresh' not in done.stderr, 'a page at an address in use', f'{done}')
    return 1


def full_disk(bench):
    """On a full disk the page goes on to show the entries as they were stored last, and the write that waits when there is room."""
    with Shown(bench.table('disk', head_line(4) + entry_line(4, b'k', b'old')), '--sync', 'always', preexec_fn=limit_size(20), restore_signals=False) as host, host.connect() as caller:
        caller.send(frame(PUT, key=b'k', value=b'new'))
        until(lambda: "can't store the table" in host.words(), 'a full disk', 'nothing is said')
        for _ in range(4):
            demand([one['value'] for one in host.entries()] == ['old'], 'the page on a full disk', 'other entries')
            time.sleep(0.3)
        lift(host)
        until(lambda: [one['value'] for one in host.entries()] == ['new'], 'the page with room again', 'other entries')
    return 1


def slow_server(bench):
    """While the server does not answer, since its disk is stuck, the page is there and its data and its health say so. A visitor waits for the data, and others are answered
    meanwhile; when the disk is well again, the entries come."""
    with Stuck(bench, 'stuck') as host:
        with socket.create_connection(('127.0.0.1', host.page), timeout=SECONDS) as first, socket.socket() as second:
            first.sendall(b'GET /data HTTP/1.1\r\n\r\n')
            time.sleep(0.2)
            second.settimeout(SECONDS)
            second.connect(('127.0.0.1', host.page))
            second.sendall(b'GET / HTTP')
            demand(host.ask('/')[0] == 200, 'beside one that waits', 'another status')
            demand(not select.select([first], [], [], 0)[0], 'beside one that waits', 'the others waited too')
            status, _, body = parts(rest(first), 'a server that does not answer')
            demand((status, body) == (503, b'{}'), 'a server that does not answer', f'{status} {body}')
            second.sendall(b'/1.1\r\n\r\n')
            demand(parts(rest(second), 'beside one that waits')[0] == 200, 'beside one that waits', 'another status')
        demand(host.ask('/health')[::2] == (503, b'The server does not answer.\n'), '/health', f'{host.ask("/health")}')
        host.lift()
        until(lambda: host.ask('/health')[0] == 200, 'a disk that is well again', 'the server does not answer')
        demand(host.entries() == [{'key': 'b1', 'value': 'Ida'}], 'a disk that is well again', 'other entries')
    return 6


def part():
    with Bench() as bench:
        place, slow, slow_visitors, disk = together(lambda: own_place(bench), lambda: slow_server(bench), lambda: slow_ones(bench), lambda: full_disk(bench))
        return (f'{documents(bench)} documents, {title(bench)} titles, {order(bench)} keys in order, {hostile(bench)} hostile entries, {full(bench)} entries of a full table, '
                f'{requests(bench)} requests, {crowd(bench)} at once, {never_read(bench)} that do not read, {slow_visitors} beside slow ones, {place} with all connections taken, '
                f'{used(bench)} in use, {slow} of a slow server, {disk} on a full disk')


if __name__ == '__main__':
    run_part('8 page', part)
