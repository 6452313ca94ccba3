"""Part 2: 64 connections at once. There is one order of all calls, in which each connection's calls are in its own order, that gives every reply.

Each connection puts a key of its own and asks for its version right behind, and all replace shared keys by replaceIfUnmodified. So the version of each
write is known: from the reply behind it, or since the write that came next on that key had to name it. The writes stand in the order of their versions,
and every other call has to find a place between them that fits its reply and is not before the place of the connection's call before it. Nothing is
removed, so a bulk reply stands at the place of its highest version. Values are long, so that few bulk replies fit into one buffer.

Calls of all operations, with removes, clears and statistics, are made by the second program's own reader and writer (reference/src/bin/caller.rs): a few of 64
connections make them at a time, and all orders of these are tried on its map.
"""
import bisect
import os
import random
import subprocess

from board_frames import BULK_GET, CONTAINS_KEY, GET, GET_WITH_VERSION, PUT, PUT_IF_ABSENT, REPLACE_IF_UNMODIFIED, frame
from host_run import Bench, Host, LONG, REFERENCE, SECONDS, demand, read_file, run_part, short

CONNECTIONS, SHARED = 64, 4
ROUNDS = 200 if LONG else 40


class Call:
    """A request, and its reply once it is there."""

    def __init__(self, message, operation, key, value=b'', named=0, flags=0):
        self.message, self.operation, self.key, self.value, self.named, self.flags = message, operation, key, value, named, flags
        self.reply = self.version = None

    def bytes(self):
        return frame(self.operation, message=self.message, key=self.key, value=self.value, entry_version=self.named, flags=self.flags, version=12)

    def told(self):
        return f'call {self.message} of {self.operation:02x} {self.key} {self.value} named {self.named}: status {self.reply.status} version {self.reply.version} {self.reply.value}'


class Client:
    """A connection with all its calls, and the versions that it has seen on the shared keys."""

    def __init__(self, host, number):
        self.caller, self.number, self.calls = host.connect(), number, []
        self.seen = {}

    def call(self, *words, **more):
        self.calls.append(Call(len(self.calls) + 1, *words, **more))
        return self.calls[-1]

    def plan(self):
        """Some calls, as bytes."""
        first = len(self.calls)
        for _ in range(random.randrange(1, 5)):
            value = (b'%d/%d' % (self.number, len(self.calls))).ljust(200, b'.')
            shared = b's%d' % random.randrange(SHARED)
            kind = random.randrange(6)
            if kind == 0:
                own = b'own%d' % self.number
                self.call(PUT, own, value, flags=random.randrange(2))
                self.call(GET_WITH_VERSION, own)
            elif kind == 1:
                self.call(GET, shared)
            elif kind == 5:
                self.call(BULK_GET, b'')
            elif kind == 2 or shared not in self.seen:
                self.call(GET_WITH_VERSION, shared)
            else:
                self.call(REPLACE_IF_UNMODIFIED, shared, value, named=self.seen[shared], flags=random.randrange(2))
        return b''.join(call.bytes() for call in self.calls[first:])

    def hear(self):
        """Reads the replies that are missing."""
        for call in self.calls:
            if call.reply is None:
                call.reply = self.caller.reply(call.operation, call.flags)
                demand(call.reply.message == call.message and call.reply.operation != 0x50, 'a reply', call.told())
                if call.operation == GET_WITH_VERSION and call.key.startswith(b's'):
                    self.seen[call.key] = call.reply.version


def speak(clients):
    """Rounds in which all connections send before any reads, each in two pieces with any cut."""
    for _ in range(ROUNDS):
        pieces = []
        for client in clients:
            data = client.plan()
            cut = random.randrange(len(data) + 1)
            client.caller.send(data[:cut])
            pieces.append(data[cut:])
        for client, piece in zip(clients, pieces):
            client.caller.send(piece)
        for client in clients:
            client.hear()


class Writes:
    """All writes by their versions."""

    def __init__(self):
        self.by_version, self.by_key, self.by_value = {}, {}, {}

    def add(self, call, version):
        case = call.told()
        demand(version not in self.by_version, case, f'version {version} was given twice')
        self.by_version[version] = call
        self.by_value[call.value] = version
        self.by_key.setdefault(call.key, []).append(version)
        call.version = version

    def held(self, key, at):
        """The version of the key behind this many writes, or 0."""
        versions = self.by_key.get(key, [])
        place = bisect.bisect_right(versions, at)
        return versions[place - 1] if place else 0

    def behind(self, key, at):
        """The next write to the key behind that place."""
        versions = self.by_key.get(key, [])
        place = bisect.bisect_right(versions, at)
        return versions[place] if place < len(versions) else None


def collect(clients, last):
    """Finds the version of each write."""
    writes, named = Writes(), {}
    for client in clients:
        for call, behind in zip(client.calls, client.calls[1:] + [None]):
            if call.operation == PUT or call.operation == PUT_IF_ABSENT:
                writes.add(call, behind.reply.version)
            elif call.operation == REPLACE_IF_UNMODIFIED and call.reply.status == 0:
                demand((call.key, call.named) not in named, call.told(), 'two writes replaced one version')
                named[call.key, call.named] = call
    for key, final in last.items():
        chain = sorted(version for name, version in named if name == key)
        for version, after in zip(chain, chain[1:] + [final]):
            writes.add(named[key, version], after)
    for versions in writes.by_key.values():
        versions.sort()
    return writes


def bulk_place(call, at, writes):
    """The place at which the entries of a bulk reply are all that are held."""
    case = f'call {call.message}, a bulkGet behind place {at}'
    versions = [writes.by_value.get(value, 0) for _, value in call.reply.entries]
    demand(call.reply.status == 0 and versions == sorted(versions) and versions[-1] >= at, case, f'versions {versions} are listed')
    held = {key: writes.held(key, versions[-1]) for key in writes.by_key}
    listed = dict(zip((key for key, _ in call.reply.entries), versions))
    demand(listed == {key: version for key, version in held.items() if version}, case, f'{listed} are listed, {held} are held')
    return versions[-1]


def place(call, at, writes):
    """The first place, not before `at`, at which the call gives its reply."""
    case = call.told()
    if call.operation == BULK_GET:
        return bulk_place(call, at, writes)
    if call.version is not None:
        demand(call.version > at, case, f'version {call.version} stands before place {at} of the call before it')
        before = writes.held(call.key, call.version - 1)
        old = writes.by_version[before].value if before else b''
        demand(not call.flags or call.reply.value == old, case, f'the value before was {old}')
        demand(call.operation != REPLACE_IF_UNMODIFIED or call.named == before, case, f'the version before was {before}')
        return call.version
    if call.operation == REPLACE_IF_UNMODIFIED:
        demand(call.reply.status == 1, case, 'the key was never removed')
        if writes.held(call.key, at) == call.named:
            at = writes.behind(call.key, at)
            demand(at is not None, case, 'the versions are never different')
        return at
    demand(call.reply.status == 0, case, 'the key was never removed')
    version = writes.by_value.get(call.reply.value)
    demand(version is not None and writes.by_version[version].key == call.key, case, 'nobody wrote this value')
    demand(call.operation == GET or call.reply.version == version, case, f'the value has version {version}')
    at = max(at, version)
    demand(writes.held(call.key, at) == version, case, f'at place {at} the key has another version')
    return at


def check(clients, last, stored):
    """The versions are 1, 2, 3 and so on to the last one stored, and each connection's calls have places that ascend."""
    writes = collect(clients, last)
    demand(sorted(writes.by_version) == list(range(1, stored + 1)), 'versions', f'{len(writes.by_version)} writes, and {stored} is the last version')
    for client in clients:
        at = 0
        for call in client.calls:
            at = place(call, at, writes)
    return len(writes.by_version)


def second_program(bench):
    """The second program calls the server; the table that is left is its own. Gives how many rounds there were."""
    rounds = 2000 if LONG else 400
    for sync in ('second', 'always'):
        with Host(bench.table(f'caller-{sync}'), '--sync', sync) as host:
            words = [os.path.join(os.path.dirname(REFERENCE), 'caller'), str(host.port), str(rounds), str(rounds)]
            done = subprocess.run(words, capture_output=True, timeout=10 * SECONDS, check=False)
            demand(done.returncode == 0, f'the second program, --sync {sync}', short(done.stderr, 3000))
            demand(host.stop() == 0 and read_file(host.table) == done.stdout, f'the table left, --sync {sync}', f'{short(read_file(host.table))}, wanted {short(done.stdout)}')
    return 2 * rounds


def own_calls(bench):
    random.seed(11)
    with Host(bench.table('many')) as host:
        clients = [Client(host, number) for number in range(CONNECTIONS)]
        for shared in range(SHARED):
            clients[0].call(PUT_IF_ABSENT, b's%d' % shared, b'first %d' % shared)
            clients[0].call(GET_WITH_VERSION, b's%d' % shared)
            clients[0].caller.send(b''.join(call.bytes() for call in clients[0].calls[-2:]))
            clients[0].hear()
        speak(clients)
        last = {b's%d' % shared: clients[1].caller.call(GET_WITH_VERSION, key=b's%d' % shared).version for shared in range(SHARED)}
        demand(clients[2].caller.call(CONTAINS_KEY, key=b'own').status == 2, 'a key', 'it is there')
        demand(host.stop() == 0, 'the end', host.words())
        stored = int(read_file(host.table)[2:18], 16)
        calls = [call for client in clients for call in client.calls]
        written = check(clients, last, stored)
        replaced = sum(call.operation == REPLACE_IF_UNMODIFIED and call.version is not None for call in calls)
        refused = sum(call.operation == REPLACE_IF_UNMODIFIED and call.version is None for call in calls)
        demand(min(replaced, refused) > 50, 'many', f'{replaced} replaced and {refused} did not, so little was tried')
        return f'{len(calls)} calls of {CONNECTIONS} connections have one order; {written} versions, {replaced} replaced in turn, {refused} came too late'


def part():
    with Bench() as bench:
        return f'{own_calls(bench)}; {second_program(bench)} rounds of the second program'


if __name__ == '__main__':
    run_part('2 many', part)
