"""Part 10: the script ./board around the program: signals, runs at once, standard input, rights, links, and building."""
import fcntl
import os
import re
import shutil
import signal
import socket
import stat
import subprocess
import tempfile
import termios

from board_errors import NOBODY, Folder, copy_of_board
from board_frames import GET, PUT, entry_line, head_line, key_name, request
from board_run import ABSENT, BOARD, Bench, PROGRAM, REFERENCE, STAND_IN, TOP, beside, demand, demand_sentence, read_file, run_part, short, start, place, wait_for_end, \
    write_file

OLD = head_line(4) + entry_line(4, b'old', b'value')
LINE, REPLY = request(PUT, value=b'new'), b'a101020000\n'
MANY = b''.join(request(PUT, key=key_name(at % 100), value=b'v' * 200) + request(GET, key=key_name(at % 100)) for at in range(4000))
PING, PONG = b'00000000 a0010a170000010000\n', b'a101180000\n'


def folder_of(bench, name, table=OLD):
    folder = Folder(bench.top, name)
    write_file(folder.requests, LINE)
    write_file(folder.table, table)
    return folder


def after(folder, requests, table=OLD):
    """The table that the second program makes."""
    with tempfile.TemporaryDirectory(dir=folder.at) as at:
        paths = os.path.join(at, 'requests'), os.path.join(at, 'table')
        write_file(paths[0], requests)
        place(paths[1], table)
        start(REFERENCE, ['serve', *paths])
        return read_file(paths[1])


def said(outcome, words, case):
    """It failed with a sentence that has these words, and with nothing on standard output."""
    demand_sentence(outcome, case)
    text = outcome.err.decode()
    demand(outcome.ended == 1 and words in text and text.startswith('board: '), case, f'status {outcome.ended}, said {text!r}, wanted {words!r}')
    demand('line ' not in text and BOARD + ':' not in text, case, f'the shell says {text!r}')
    demand(outcome.out == b'', case, f'standard output is not empty: {short(outcome.out)}')


class Open:
    """A run that has served one line from a pipe and waits for the next: its TABLE is loaded, and the file beside it is there."""

    def __init__(self, folder, way_in=None, **options):
        options.setdefault('stdin', subprocess.PIPE)
        self.run = subprocess.Popen([BOARD, 'serve', '-', 'table'], cwd=folder.at, stdout=subprocess.PIPE, stderr=subprocess.PIPE, **options)
        os.write(way_in or self.run.stdin.fileno(), LINE)
        self.reply = self.run.stdout.readline()
        demand(self.reply == REPLY, 'a line from a pipe', f'the reply is {short(self.reply)} before the next line is there')

    def end(self):
        """Closes the pipe; gives what was said and how it ended."""
        _, err = self.run.communicate(timeout=60)
        return err, self.run.returncode


def signals(bench):
    """A signal to the script alone ends the program, nothing is stored, and no file is left."""
    folder = folder_of(bench, 'signals')
    for number in (signal.SIGTERM, signal.SIGINT, signal.SIGHUP, signal.SIGKILL):
        case = f'signal {number} to the script'
        one = Open(folder)
        demand(len(beside(folder.table)) == 1, case, f'beside TABLE {beside(folder.table)}')
        one.run.send_signal(number)
        one.run.wait(timeout=60)
        if number == signal.SIGKILL:
            wait_for_end(folder.table)
        else:
            demand(beside(folder.table) == [], case, f'left beside TABLE: {beside(folder.table)}')
        err, ended = one.end()
        demand((err, ended) == (b'', -number), case, f'said {short(err)}, ended with {ended}')
        demand(read_file(folder.table) == OLD, case, 'TABLE was stored')
    # What the last one left goes when the next run has started, and nothing else does.
    others = ['table.new', 'table.new-', 'table.new-1', 'table.new-0123456789ABCDEF', 'table.new-0123456789abcdef0', 'other.new-0123456789abcdef']
    for name in others + ['table.new-0123456789abcdef']:
        write_file(os.path.join(folder.at, name), b'left')
    one = Open(folder)
    left = sorted(set(os.listdir(folder.at)) - {'requests', 'table', *others})
    demand(len(left) == 1 and left[0] != 'table.new-0123456789abcdef', 'the run after a kill', f'beside TABLE {left}')
    demand(one.end() == (b'', 0), 'the run after a kill', 'it fails')
    left = sorted(set(os.listdir(folder.at)) - {'requests', 'table'})
    demand(left == sorted(others), 'the run after a kill', f'beside TABLE {left}')
    return 5


def control_c(bench):
    """Control-C at a terminal, which reaches script and program."""
    folder = folder_of(bench, 'terminal')
    try:
        ours, theirs = os.openpty()
    except OSError:
        return 0  # there are no terminals here
    one = Open(folder, ours, stdin=theirs, start_new_session=True, preexec_fn=lambda: fcntl.ioctl(0, termios.TIOCSCTTY, 0))
    os.write(ours, b'\x03')
    one.run.wait(timeout=60)
    demand(beside(folder.table) == [] and read_file(folder.table) == OLD, 'control-C', f'beside TABLE {beside(folder.table)}')
    demand(one.end() == (b'', -signal.SIGINT), 'control-C', f'ended with {one.run.returncode}')
    os.close(ours)
    os.close(theirs)
    return 1


def children_of(parent):
    for child in filter(str.isdigit, os.listdir('/proc')):
        try:
            stat_line = read_file(f'/proc/{child}/stat')
        except OSError:
            continue  # it has ended meanwhile
        if stat_line and int(stat_line.rsplit(b')', 1)[1].split()[1]) == parent:
            yield int(child)


def program_killed(bench):
    """The program is killed alone: the script says so, and removes what it left."""
    folder = folder_of(bench, 'program')
    one = Open(folder)
    children = [child for child in children_of(one.run.pid) if os.readlink(f'/proc/{child}/exe') == os.path.realpath(PROGRAM)]
    demand(len(children) == 1, 'the program killed', f'{len(children)} programs run')
    os.kill(children[0], signal.SIGKILL)
    one.run.wait(timeout=60)
    demand(beside(folder.table) == [] and read_file(folder.table) == OLD, 'the program killed', f'beside TABLE {beside(folder.table)}')
    err, ended = one.end()
    demand(ended == 1 and b'signal 9 ended the program' in err, 'the program killed', f'said {short(err)}, ended with {ended}')
    return 1


def reader_gone(bench):
    """`| head -1`, with SIGPIPE as usual and ignored: no advice to make room, TABLE as it was, nothing left."""
    folder = folder_of(bench, 'head')
    write_file(folder.requests, MANY)
    for ignore in ('', "trap '' PIPE; "):
        command = f'{ignore}"$0" serve requests table | head -n 1; echo "${{PIPESTATUS[0]}}"'
        outcome = start('bash', ['-c', command, BOARD], cwd=folder.at)
        case = f'a closed pipe: {command}'
        demand(outcome.out == REPLY + b'1\n', case, f'written {short(outcome.out)}')
        demand(b'No table was stored' in outcome.err and b'room' not in outcome.err, case, f'said {short(outcome.err)}')
        demand(read_file(folder.table) == OLD and beside(folder.table) == [], case, f'beside TABLE {beside(folder.table)}')
    return 2


def at_once(bench):
    """A second run waits for the first with a word, and goes on from its table. One in another folder does not wait."""
    folder, other = folder_of(bench, 'once'), folder_of(bench, 'other')
    one = Open(folder)
    two = subprocess.Popen([BOARD, 'serve', 'requests', 'table'], cwd=folder.at, stdout=subprocess.PIPE, stderr=subprocess.PIPE)
    word = two.stderr.readline()
    demand(word == b'board: waiting for another run in the folder of table\n', 'two at once', f'the second says {short(word)}')
    outcome = start(BOARD, ['serve', 'requests', 'table'], cwd=other.at)
    demand((outcome.out, outcome.err) == (REPLY, b''), 'a run in another folder', f'said {short(outcome.err)}')
    demand(two.poll() is None, 'two at once', 'the second does not wait')
    demand(one.end() == (b'', 0), 'two at once', 'the first fails')
    out, err = two.communicate(timeout=60)
    demand((out, err, two.returncode) == (REPLY, b'', 0), 'two at once', f'the second says {short(err)}, ends with {two.returncode}')
    demand(read_file(folder.table) == after(folder, LINE * 2), 'two at once', f'TABLE {short(read_file(folder.table))}')
    return 2


def standard_input(bench):
    """`-` is standard input: a pipe, a file from where it stands, a socket, and one that can't be read, where nothing is stored."""
    folder = folder_of(bench, 'input')
    write_file(folder.requests, b'passed over\n' + PING)
    with open(folder.requests, 'rb', buffering=0) as file:
        file.seek(12)
        outcome = start(BOARD, ['serve', '-'], stdin=file)
        demand((outcome.out, outcome.err, outcome.ended) == (PONG, b'', 0), 'a file as standard input', f'{short(outcome.out)} {short(outcome.err)}')
    ours, theirs = socket.socketpair()
    with ours, theirs:
        ours.sendall(PING)
        ours.shutdown(socket.SHUT_WR)
        outcome = start(BOARD, ['serve', '-'], stdin=theirs)
        demand((outcome.out, outcome.err, outcome.ended) == (PONG, b'', 0), 'a socket as standard input', f'{short(outcome.out)} {short(outcome.err)}')
    with open(os.path.join(folder.at, 'unreadable'), 'wb') as unreadable:
        said(start(BOARD, ['serve', '-', 'table'], cwd=folder.at, stdin=unreadable), "can't read on in standard input", 'reading fails')
    demand(read_file(folder.table) == OLD and beside(folder.table) == [], 'reading fails', f'beside TABLE {beside(folder.table)}')
    return 4


def not_files(bench):
    """A folder as REQUESTS, and what is no file as TABLE, are told at once."""
    folder = folder_of(bench, 'kinds')
    os.mkfifo(os.path.join(folder.at, 'fifo'))
    os.mkdir(os.path.join(folder.at, 'folder'))
    cases = [(['serve', 'folder'], 'it is a folder'), (['serve', 'folder', 'table'], 'it is a folder'), (['serve', 'requests', 'fifo'], 'is not a file'),
             (['serve', 'requests', 'folder'], 'is not a file'), (['serve', 'requests', '/dev/null'], 'is not a file'),
             (['serve', 'requests', 'none/table'], "can't open the folder")]
    for words, wanted in cases:
        said(start(BOARD, words, cwd=folder.at), wanted, ' '.join(words))
    said(start(BOARD, ['serve', '-'], cwd=folder.at, stdin=os.open(folder.at, os.O_RDONLY)), 'it is a folder', 'a folder as standard input')
    demand(read_file(folder.table) == OLD, 'no files', 'TABLE was changed')
    return len(cases) + 1


def mode_of(path):
    return stat.S_IMODE(os.lstat(path).st_mode)


def rights(bench):
    """TABLE keeps its rights, the file beside it has them from the beginning, a link stays a link."""
    folder = folder_of(bench, 'rights')
    for mode in (0o600, 0o640, 0o644, 0o664, 0o660, 0o200 | 0o444):
        os.chmod(folder.table, mode)
        one = Open(folder, umask=0o022)
        while_open = mode_of(os.path.join(folder.at, beside(folder.table)[0]))
        demand(one.end() == (b'', 0), f'mode {mode:o}', 'the run fails')
        demand((while_open, mode_of(folder.table)) == (mode, mode), f'mode {mode:o}', f'is {while_open:o} beside, then {mode_of(folder.table):o}')
    count = 6
    link = os.path.join(folder.at, 'link')
    os.symlink('table', link)
    outcome = start(BOARD, ['serve', 'requests', 'link'], cwd=folder.at)
    demand(outcome.err == b'' and os.path.islink(link) and not os.path.islink(folder.table), 'TABLE is a link', f'said {short(outcome.err)}')
    demand(mode_of(folder.table) == mode, 'TABLE is a link', f'mode {mode_of(folder.table):o}')
    if os.getuid() == 0:
        for mode in (0o600, 0o640):
            os.chown(folder.table, NOBODY, NOBODY)
            os.chmod(folder.table, mode)
            one = Open(folder)
            private = mode_of(os.path.join(folder.at, beside(folder.table)[0]))
            demand(one.end() == (b'', 0), 'another owner', 'the run fails')
            now = os.stat(folder.table)
            demand((private, now.st_uid, now.st_gid, mode_of(folder.table)) == (0o600, NOBODY, NOBODY, mode), 'another owner',
                   f'{private:o} beside, then {now.st_uid}:{now.st_gid} {mode_of(folder.table):o}')
            count += 1
        # A file in such a folder gets the folder's group, which may not read this table.
        os.chown(folder.table, 0, 0)
        os.chown(folder.at, 0, NOBODY)
        os.chmod(folder.at, 0o2755)
        outcome = start(BOARD, ['serve', 'requests', 'table'], cwd=folder.at)
        now = os.stat(folder.table)
        demand(outcome.err == b'' and (now.st_gid, mode_of(folder.table)) == (0, mode), 'a folder with a group', f'{now.st_gid} {mode_of(folder.table):o}')
        count += 1
    return count + 1


def names(bench):
    """Names that are no UTF-8, of REQUESTS, TABLE and their folder: served, stored, listed and told as any other; nothing is left beside."""
    plain, count = folder_of(bench, 'names'), 0
    new, keys = after(plain, LINE), start(BOARD, ['sheet', plain.table]).out
    for at in (os.fsencode(plain.at), os.path.join(os.fsencode(plain.at), b'odd\xff')):
        os.makedirs(at, exist_ok=True)
        for requests, table in ((b'lines', b'odd\xff'), (b'lines\xff', b'stored'), (b'\xc3 & \n', b'\xf4\x90\x80\x80 & \\')):
            case = f'REQUESTS {requests!r} and TABLE {table!r} in {at!r}'
            requests, table = os.path.join(at, requests), os.path.join(at, table)
            for name, data, wanted in ((table, OLD, new), (table, ABSENT, after(plain, LINE, ABSENT)), (os.path.relpath(table, at), OLD, new)):
                place(table, data)
                write_file(requests, LINE)
                outcome = start(BOARD, ['serve', os.path.join(os.path.dirname(name), os.path.basename(requests)), name], cwd=at)
                demand((outcome.out, outcome.err, outcome.ended) == (REPLY, b'', 0), case, f'{short(outcome.out)} {short(outcome.err)} {outcome.ended}')
                demand(read_file(table) == wanted, case, f'TABLE {short(read_file(table))}')
            write_file(table, OLD)
            demand(start(BOARD, ['sheet', table]).out == keys, case, 'the keys differ')
            write_file(table, b'broken\n')
            for words in (['serve', requests, table], ['sheet', table]):
                told = start(BOARD, words)
                demand(b'not a stored table: ' + table + b'\n' in told.err and told.ended == 1 and told.out == b'', case, f'said {short(told.err)}')
            demand(read_file(table) == b'broken\n', case, 'TABLE was changed')
            demand(sorted(set(os.listdir(at)) - {b'requests', b'table', b'odd\xff'}) == sorted({os.path.basename(requests), os.path.basename(table)} - {b'odd\xff'}),
                   case, f'left {os.listdir(at)}')
            for name in (requests, table):
                said_without = start(BOARD, ['serve', name + b'-none'])
                demand(said_without.ended == 1 and name + b'-none' in said_without.err, case, f'said {short(said_without.err)}')
                os.unlink(name)
            count += 8
    return count


def ways_to_it(bench):
    """Through a link on the PATH, with CDPATH set, by a relative path, and with an end closed."""
    folder = folder_of(bench, 'ways')
    os.symlink(BOARD, os.path.join(folder.at, 'link'))
    os.symlink('link', os.path.join(folder.at, 'board'))
    near = os.path.relpath(BOARD, folder.at)
    for command in ('PATH=$PWD:$PATH CDPATH=/:.:$PWD board serve requests', './link serve requests', f'{near} serve requests', f'bash {near} serve requests',
                    f'cd {TOP} && CDPATH=/:. bash board serve "$OLDPWD/requests"'):
        outcome = start('bash', ['-c', command], cwd=folder.at)
        demand((outcome.out, outcome.err, outcome.ended) == (REPLY, b'', 0), command, f'{short(outcome.out)} {short(outcome.err)} {outcome.ended}')
    for shut in ('>&-', '<&-', '>&- <&-'):
        for words in ('serve requests', 'serve requests table', 'help', '--version'):
            outcome = start('bash', ['-c', f'exec "$0" {words} {shut}', BOARD], cwd=folder.at)
            said(outcome, 'standard input, output and error have to be open. Nothing was done.', f'{words} {shut}')
    for words in ('help', '--version'):
        with open('/dev/full', 'wb') as full:
            said(start(BOARD, [words], stdout=full), "can't write to standard output", f'{words} > /dev/full')
    return 19


def clone_of(bench, name):
    """A clone in which the program is not built."""
    at = os.path.join(bench.top, name)
    os.makedirs(os.path.join(at, 'crates/board/src'))
    os.makedirs(os.path.join(at, 'tools'))
    shutil.copy(os.path.join(TOP, 'tools/building'), os.path.join(at, 'tools'))
    shutil.copy(os.path.join(TOP, 'crates.txt'), at)
    return shutil.copy(BOARD, os.path.join(at, 'board')), at


def toolchain(at, body):
    """A stand-in for rt, first on the PATH."""
    os.makedirs(os.path.join(at, 'bin'))
    write_file(os.path.join(at, 'bin/rt'), b'#!/bin/bash\n' + body.encode())
    os.chmod(os.path.join(at, 'bin/rt'), 0o755)
    return {**os.environ, 'PATH': os.path.join(at, 'bin') + ':' + os.environ['PATH']}


def without_building(bench):
    """Help, the version and wrong arguments need no program."""
    board, at = clone_of(bench, 'unbuilt')
    env = toolchain(at, 'touch "$0.called"; exit 1\n')
    texts = [start(board, words, env=env) for words in (['help'], ['-h'], ['--help'], [])]
    for outcome in texts:
        demand((outcome.err, outcome.ended) == (b'', 0) and outcome.out == texts[0].out, 'help', f'{short(outcome.out)} {short(outcome.err)}')
    for word in ('lowercase', 'line end', 'putIfAbsent', 'getWithVersion', '1.2', 'standard input', 'TCP', 'USING.md', 'DECISIONS.md'):
        demand(word in texts[0].out.decode(), 'help', f'it does not tell {word}')
    demand(all(len(line) <= 80 or at in line for line in texts[0].out.decode().split('\n')), 'help', 'a line is longer than 80')
    for words in (['--version'], ['-V']):
        outcome = start(board, words, env=env)
        demand((outcome.err, outcome.ended, outcome.out.count(b'\n')) == (b'', 0, 1), words, f'{short(outcome.out)} {short(outcome.err)}')
    for words in (['store'], ['serve'], ['serve', ''], ['serve', 'a', 'b', 'c'], ['serve', 'x' * 5000], ['-x']):
        said(start(board, words, env=env), 'are not understood', str(words)[:60])
    said(start(board, ['serve', at], env=env), 'it is a folder', 'a folder as REQUESTS')
    demand(not os.path.exists(os.path.join(at, 'bin/rt.called')), 'without building', 'rt was called')
    return 12


def building(bench):
    """The build tells each crate and how many there are; a build that fails, and a clone that may not be written to, are told in a sentence."""
    board, at = clone_of(bench, 'built')
    write_file(os.path.join(at, 'crates.txt'), b'wire:\nhex: wire\nlone: wire\nboard: hex wire io\n')
    os.makedirs(os.path.join(bench.top, 'elsewhere/built'))
    write_file(os.path.join(at, 'ping'), PING)
    lines = ''.join(f'fn {crate}::f: proved\ncrate {crate}: modules loaded=0 checked=3\nlogic=proved functions=1\n' for crate in ('wire', 'hex', 'board'))
    write_file(os.path.join(at, 'lines'), b'only=0 proved=0\n' + lines.encode())
    env = toolchain(at, f'[ "$PWD:$*" = "{at}/crates/board:run -- serve /dev/null" ] && cat {at}/lines && mkdir -p out && cp {PROGRAM} out/board\n')
    outcome = start('bash', ['-c', 'CDPATH=$PWD/elsewhere: exec bash built/board serve built/ping'], cwd=bench.top, env=env)
    outcome.err = re.sub(rb'\(\d+ s\)', b'(0 s)', re.sub(rb'after \d+ seconds', b'after 0 seconds', outcome.err))
    wanted = ['the library is proved and built first, about five minutes', '1 of 3: wire proved (0 s)', '2 of 3: hex proved (0 s)', '3 of 3: board proved (0 s)',
              'proved and built, after 0 seconds']
    demand((outcome.out, outcome.err.decode(), outcome.ended) == (PONG, ''.join(f'board: {line}\n' for line in wanted), 0), 'the first build',
           f'{short(outcome.out)} {short(outcome.err)} {outcome.ended}')
    outcome = start(board, ['serve', os.path.join(at, 'ping')], env=env)
    demand((outcome.out, outcome.err, outcome.ended) == (PONG, b'', 0), 'the second run', f'{short(outcome.err)}')
    write_file(os.path.join(at, 'crates/board/src/main.rt'), b'changed')
    os.utime(os.path.join(at, 'crates/board/src/main.rt'), (2 ** 31, 2 ** 31))
    write_file(os.path.join(at, 'bin/rt'), b'#!/bin/bash\nexit 1\n')
    said(start(board, ['serve', os.path.join(at, 'ping')], env=env), '1 of' if STAND_IN else 'the program was not built', 'a build that fails')
    logs = [read_file(path).decode() for path in (os.path.join(TOP, f'target/{name}.log') for name in ('board', 'feyqoolad')) if os.path.exists(path)]
    demand(STAND_IN or any(re.search(r'^crate \w+: modules .*^logic=proved ', log, re.M | re.S) for log in logs), 'the first build', 'rt tells a proved crate in other words')
    demand(b'five minutes' in read_file(os.path.join(TOP, 'README.md')), 'the first build', 'README tells another duration')
    return 3


def unwritable(bench):
    """A clone that the user may not write to: the program runs where it is built, else a sentence."""
    os.chmod(bench.top, 0o755)
    user = {'user': NOBODY, 'group': NOBODY, 'extra_groups': []} if os.getuid() == 0 else {}
    board = copy_of_board(bench.top)
    at = os.path.dirname(board)
    write_file(os.path.join(at, 'ping'), PING)
    env = toolchain(at, 'touch "$0.called"; exit 1\n')
    for path in (at, os.path.join(at, 'target')):
        os.chmod(path, 0o555)
    outcome = start(board, ['serve', os.path.join(at, 'ping')], env=env, cwd='/', **user)
    demand((outcome.out, outcome.err, outcome.ended) == (PONG, b'', 0), 'a clone that is not ours', f'{short(outcome.out)} {short(outcome.err)}')
    os.chmod(os.path.join(at, 'target'), 0o755)
    shutil.rmtree(os.path.join(at, 'target/bin'))
    os.chmod(os.path.join(at, 'target'), 0o555)
    said(start(board, ['serve', os.path.join(at, 'ping')], env=env, cwd='/', **user), "so the program can't be built", 'a clone that is not ours')
    for path in (at, os.path.join(at, 'target')):
        os.chmod(path, 0o755)
    return 2


def part():
    if BOARD == PROGRAM:
        return 'BOARD is not the script, so nothing was tried'
    with Bench() as bench:
        told = [('signals', signals(bench) + control_c(bench) + program_killed(bench)), ('closed pipes', reader_gone(bench)), ('runs at once', at_once(bench)),
                ('standard inputs', standard_input(bench)), ('files that are none', not_files(bench)), ('rights', rights(bench)), ('names', names(bench)),
                ('ways to call it', ways_to_it(bench)), ('calls without building', without_building(bench)),
                ('builds', building(bench) + unwritable(bench))]
        return ', '.join(f'{count} {name}' for name, count in told)


if __name__ == '__main__':
    run_part('10 script', part)
