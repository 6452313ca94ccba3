"""Measures the server beside memcached and redis-server, each on loopback with one thread that serves, and the same load generator (host/src/bin/load.rs).

BENCH_SECONDS and BENCH_ROUNDS set the length of a measurement and how many there are; the servers take turns within a round.
"""
import os
import shutil
import socket
import statistics
import subprocess
import tempfile
import time

from host_run import Bench, Host, PROGRAM

LOAD = os.path.join(os.path.dirname(PROGRAM), 'load')
TIME, ROUNDS = os.environ.get('BENCH_SECONDS', '1'), int(os.environ.get('BENCH_ROUNDS', '5'))
WHAT, CONNECTIONS, DEPTHS = ('get', 'put', 'mix'), (1, 16, 64), (1, 16)


def free_port():
    with socket.socket() as taken:
        taken.bind(('127.0.0.1', 0))
        return taken.getsockname()[1]


def commands(port, folder):
    """How the other servers are started, with one thread, in memory alone."""
    return {'memcached': ['memcached', '-u', 'root', '-l', '127.0.0.1', '-p', str(port), '-U', '0', '-t', '1'],
            'redis': ['redis-server', '--bind', '127.0.0.1', '--port', str(port), '--save', '', '--appendonly', 'no', '--dir', folder]}


class Other:
    """Another server, where it is installed."""

    def __init__(self, name, folder):
        self.port = free_port()
        self.run = subprocess.Popen(commands(self.port, folder)[name], stdout=subprocess.DEVNULL, stderr=subprocess.DEVNULL)
        end = time.monotonic() + 10
        while True:
            try:
                socket.create_connection(('127.0.0.1', self.port), timeout=1).close()
                return
            except OSError:
                if time.monotonic() > end:
                    raise
                time.sleep(0.05)

    def stop(self):
        self.run.terminate()
        self.run.wait()


def measure(kind, port, what, connections, depth):
    """Requests a second, and the 99th percentile in microseconds."""
    words = [LOAD, kind, f'127.0.0.1:{port}', what, str(connections), str(depth), TIME]
    done = subprocess.run(words, capture_output=True, check=False, text=True)
    if done.returncode:
        raise SystemExit(f'{words}: {done.stderr}')
    rate, _, late = done.stdout.split()
    return float(rate), float(late)


def table(ports):
    names = list(ports)
    print(f'Medians of {ROUNDS} runs of {TIME} s: requests a second, and the 99th percentile of the time to a reply in microseconds. One thread of each serves,')
    print('on loopback, the load from another process: 128 keys of 32 bytes, 24 of them the same, values of 256 bytes; mix is nine gets to a put. Of the')
    print('requests of a connection so many are on their way at a time as `depth` says. Another thread of hotrod stores the table each half second in which')
    print('it changed; the others never store theirs.\n')
    print(f"{'what':5}{'connections':>12}{'depth':>6}" + ''.join(f'{name:>22}' for name in names))
    print(' ' * 23 + ''.join(f"{'requests/s':>13}{'99th':>9}" for _ in names))
    for what in WHAT:
        for depth in DEPTHS:
            for connections in CONNECTIONS:
                runs = {name: [] for name in names}
                for _ in range(ROUNDS):
                    for name in names:
                        runs[name].append(measure(name, ports[name], what, connections, depth))
                cells = ''.join(f'{statistics.median(one[0] for one in runs[name]):13,.0f}{statistics.median(one[1] for one in runs[name]):9,.0f}'
                                for name in names)
                print(f'{what:5}{connections:12}{depth:6}{cells}', flush=True)


def main():
    if subprocess.run(['cargo', 'build', '--release', '--offline', '--quiet', '-j1', '--manifest-path', 'host/Cargo.toml'], check=False).returncode:
        raise SystemExit('the load generator is not built')
    others = []
    with Bench() as bench, tempfile.TemporaryDirectory() as folder:
        try:
            with Host(bench.table('bench')) as host:
                ports = {'hotrod': host.port}
                for name, command in commands(0, folder).items():
                    if shutil.which(command[0]):
                        others.append(Other(name, folder))
                        ports[name] = others[-1].port
                    else:
                        print(f'{command[0]} is not installed, and so not measured')
                table(ports)
        finally:
            for other in others:
                other.stop()


if __name__ == '__main__':
    main()
