#!/usr/bin/env python3
"""Holds the documents to the programs.

The commands of README.md and of docs/USING.md, which are the blocks `sh`, are run in their order, each document in a fresh copy of the clone with a home and a
network of its own, without the toolchain: they print the blocks `output`, a server says the lines of the block `text` behind its command, and no file is left in the clone. Each block of
`requests` gives the block of `replies` behind it, by the second program and by BOARD; one that is headed `requests behind N puts` is served behind puts of N keys. What docs/LAWS.md says to be equal
is equal. docs/TESTING.md says the comparison's size as tests/compare printed it last.
Documents for users have short sentences and plain words, and links lead to files. `documents.py commands` does the first alone, `documents.py examples` the second, `documents.py words` the last."""
import ctypes
import fcntl
import glob
import os
import re
import shutil
import signal
import socket
import struct
import subprocess
import sys
import tempfile
import time

BLOCK = re.compile(r'^```(requests|replies)(?: behind (\d+) puts)?\n(.*?)^```$', re.M | re.S)
SAID = re.compile(r'in each gate the same ([\d,]+) messages, ([\d,]+) served\s+requests and ([\d,]+) pairs of keys')
PRINTED = re.compile(r'^keys +\d+ rounds +(\d+) inputs .*^compared (\d+) messages, (\d+) served requests, 0 differences$', re.M | re.S)


def examples(text, path):
    """The pairs of blocks of a text, each with the number of puts before it; blocks that do not come in pairs are an error."""
    blocks = BLOCK.findall(text)
    kinds = [kind for kind, _, _ in blocks]
    if kinds != ['requests', 'replies'] * (len(kinds) // 2):
        sys.exit(f'{path}: requests and replies do not come in pairs')
    return [(int(blocks[i][1] or 0), blocks[i][2], blocks[i + 1][2]) for i in range(0, len(blocks), 2)]


def first_puts(count):
    """Puts of so many keys, k001 and so on, with no value, and the replies to them."""
    keys = [(f'{n:02x}', f'k{n:03}'.encode().hex()) for n in range(1, count + 1)]
    return ''.join(f'00000000 a0{n}0a01000001000004{key}000000\n' for n, key in keys), ''.join(f'a1{n}020000\n' for n, _ in keys)


def served(program, requests):
    with tempfile.NamedTemporaryFile('w', suffix='.requests') as file:
        file.write(requests)
        file.flush()
        os.chmod(file.name, 0o644)
        return subprocess.run([program, 'serve', file.name], check=True, capture_output=True, text=True).stdout


def text_of(path):
    with open(path, encoding='utf-8') as file:
        return file.read()


def check_size():
    """docs/TESTING.md says how many messages, served requests and pairs of keys are compared."""
    totals = PRINTED.search(text_of('target/compare.txt')) if os.path.exists('target/compare.txt') else None
    if not totals:
        sys.exit('documents: target/compare.txt has no totals (bash tests/compare)')
    pairs, messages, requests = (f'{int(number):,}' for number in totals.groups())
    said = SAID.findall(text_of('docs/TESTING.md'))
    if said != [(messages, requests, pairs)]:
        sys.exit(f'docs/TESTING.md: it says {said}, and tests/compare printed {messages}, {requests}, {pairs}')
    print('documents: docs/TESTING.md says how much tests/compare compares')


def check_examples():
    """Worked requests and replies."""
    count = 0
    for path in sorted(glob.glob('*.md') + glob.glob('docs/*.md')):
        for puts, requests, replies in examples(text_of(path), path):
            asked, told = first_puts(puts)
            for program in ('reference/target/release/reference', os.environ.get('BOARD', './board')):
                if served(program, asked + requests) != told + replies:
                    sys.exit(f'{path}: the replies of {program} are not those of the document')
            count += 1
    if count == 0:
        sys.exit('documents: no example was found')
    print(f'documents: {count} examples are what both programs give')


def check_laws():
    """Each law of docs/LAWS.md has two examples: the requests from message id 8 on, which look at what stands, get the same replies. Two more differ."""
    laws = re.split(r'^## (?=Law )', text_of('docs/LAWS.md'), flags=re.M)[1:]
    for law in laws:
        looks = [[line for line in replies.splitlines() if int(line[2:4], 16) >= 8] for _, _, replies in examples(law, 'docs/LAWS.md')]
        if len(looks) not in (2, 4) or looks[0] != looks[1] or not looks[0] or (len(looks) == 4 and looks[2] == looks[3]):
            sys.exit(f'docs/LAWS.md: {law.splitlines()[0]}: the examples do not show it')
    if len(laws) != 5:
        sys.exit(f'docs/LAWS.md: it has {len(laws)} laws')
    print('documents: each law of docs/LAWS.md is what its examples show')


RUN = re.compile(r'^```(sh|output|text)\n(.*?)^```$', re.M | re.S)
SECONDS = 60
BUILT = ('target/staticlib/libexports.a', 'target/bin/board', 'host/target/release/feyqoolad')


def own_network():
    """Leaves the network of this machine for one with nothing but loopback, where every port is free. False where that is refused."""
    if ctypes.CDLL(None, use_errno=True).unshare(0x40000000) != 0:
        return False
    with socket.socket() as one:
        fcntl.ioctl(one, 0x8914, struct.pack('16sH14s', b'lo', 1, b''))
    return True


class Fresh:
    """A copy of the clone as git has it, with what was built, and a home beside it."""

    def __init__(self, top):
        self.at, self.home = os.path.join(top, 'clone'), os.path.join(top, 'home')
        os.mkdir(self.home)
        tracked = subprocess.run(['git', 'ls-files', '-z', '--cached', '--others', '--exclude-standard'], check=True, capture_output=True, text=True).stdout.split('\0')[:-1]
        for name in [*tracked, *BUILT, *(f'{one}.sum' for one in BUILT)]:
            if os.path.exists(name):
                os.makedirs(os.path.dirname(os.path.join(self.at, name)), exist_ok=True)
                shutil.copy(name, os.path.join(self.at, name))
        self.before = self.files()
        # What was built has to run without the toolchain, in a folder that was copied.
        self.environment = {**os.environ, 'HOME': self.home, 'PATH': '/usr/sbin:/usr/bin:/sbin:/bin'}
        found = [tool for tool in ('rt', 'cargo') if shutil.which(tool, path=self.environment['PATH'])]
        if found:
            print(f'documents: {found} are on every PATH here, so it is not seen whether a copy runs without them')
        self.server = self.said = None

    def files(self):
        return sorted(os.path.join(at, name) for at, _, names in os.walk(self.at) for name in names if '/target' not in at)

    def run(self, line, path):
        """What a line prints; a server is left running."""
        if re.match(r'\./feyqoolad serve ', line):
            self.begin(line, path)
            return ''
        done = subprocess.run(['bash', '-c', line], cwd=self.at, env=self.environment, capture_output=True, text=True, timeout=SECONDS, check=False)
        if done.stderr or done.returncode:
            sys.exit(f'{path}: {line}: status {done.returncode}, {done.stderr}')
        return done.stdout

    def begin(self, line, path):
        self.said = os.path.join(self.home, '.said')
        with open(self.said, 'wb') as said:
            self.server = subprocess.Popen(['bash', '-c', f'exec {line}'], cwd=self.at, env=self.environment, stderr=said)
        self.hear('shows it on' if '--page' in line else 'serves ', path)

    def hear(self, words, path):
        """Waits until the server has said something."""
        end = time.monotonic() + SECONDS
        while words not in text_of(self.said):
            if self.server.poll() is not None or time.monotonic() > end:
                sys.exit(f'{path}: the server says {text_of(self.said)!r}, and {words!r} is awaited')
            time.sleep(0.02)

    def end(self, path):
        if self.server:
            self.server.send_signal(signal.SIGTERM)
            if self.server.wait(timeout=SECONDS) != 0:
                sys.exit(f'{path}: the server ends with {self.server.returncode}: {text_of(self.said)}')
        if self.files() != self.before:
            sys.exit(f'{path}: its commands leave files in the clone: {set(self.files()) ^ set(self.before)}')


def run_commands(path, top):
    """Runs a document's commands; answers how many there are."""
    fresh, printed, count, last = Fresh(top), None, 0, ''
    try:
        for kind, text in RUN.findall(text_of(path)):
            if kind == 'sh':
                lines = text.splitlines()
                printed, count, last = ''.join(fresh.run(line, path) for line in lines), count + len(lines), lines[-1]
            elif kind == 'output' and printed != text:
                sys.exit(f'{path}: the commands up to {last!r} print {printed!r}, and not {text!r}')
            elif kind == 'text' and ' serve ' in last and text.startswith('feyqoolad: '):
                for words in text.splitlines():
                    fresh.hear(words, path)
        fresh.end(path)
    finally:
        if fresh.server and fresh.server.poll() is None:
            fresh.server.kill()
    return count


def check_commands():
    subprocess.run(['./feyqoolad', 'encode', 'ping'], check=True, stdout=subprocess.DEVNULL)  # builds it
    subprocess.run(['./board', 'serve', '/dev/null'], check=True)
    if not own_network():
        if os.environ.get('HOST_SKIPS') != 'yes':
            sys.exit('documents: a network of its own is refused here, so no command was run; HOST_SKIPS=yes passes it over')
        print('documents: no command was run, since a network of its own is refused here')
        return
    for path in ('README.md', 'docs/USING.md'):
        with tempfile.TemporaryDirectory() as top:
            print(f'documents: {run_commands(path, top)} commands of {path} print what it says')


LEFT_OUT = ('is told', 'with a word', 'gets on', 'tells ')


def check_words():
    """Documents for users: no sentence of 35 words or more, and no words that a reader has to guess; README has about 700 words."""
    long = []
    for path in ('README.md', 'docs/USING.md', 'host/src/usage.txt'):
        text = re.sub(r'^(```.*?^```|\|.*?|#.*?|  .*?|== .*?)$', '', text_of(path), flags=re.M | re.S) if path.endswith('.md') else text_of(path)
        for words in LEFT_OUT:
            if words in text_of(path):
                sys.exit(f'{path}: it says {words!r}')
        for sentence in re.split(r'(?<=[.:])\s+|\n\n+|\n  ', text) if path.endswith('.md') else ():
            if len(sentence.split()) >= 35:
                long.append(f'{path}: a sentence of {len(sentence.split())} words: {sentence}')
    if long:
        sys.exit('\n'.join(long))
    words = len(text_of('README.md').split())
    if words > 720:
        sys.exit(f'README.md: it has {words} words')
    print('documents: sentences are short')


def check_links():
    """Every link leads to a file, and so does every path of README.md, docs/USING.md and docs/TESTING.md."""
    count = 0
    for path in sorted(glob.glob('*.md') + glob.glob('docs/*.md')):
        links = [os.path.join(os.path.dirname(path), one) for one in re.findall(r'\]\(([^)#:]+)(?:#[^)]*)?\)', text_of(path))]
        paths = re.findall(r'`((?:crates|host|reference|tests|tools|docs)/[A-Za-z0-9_./-]+)`', text_of(path)) if path in ('README.md', 'docs/USING.md', 'docs/TESTING.md') else []
        for one in links + paths:
            if not os.path.exists(one):
                sys.exit(f'{path}: there is no {one}')
        count += len(links + paths)
    print(f'documents: {count} links lead to files')


def main():
    only = sys.argv[1:2]
    if not only:
        check_size()
    if only in ([], ['examples']):
        check_examples()
        check_laws()
    if only in ([], ['words']):
        check_words()
        check_links()
    if only in ([], ['commands']):
        check_commands()


main()
