"""The page in chromium, by what is in sight: how many entries on how many screens, how large their letters are, what is cut, what it says and when."""
import json
import os
import re
import signal
import sys
import tempfile
import time

from board_frames import CLEAR, PUT, REMOVE
from host_page import HOSTILE, Shown, Stuck, counted, is_text
from host_run import Bench, demand, run_part, until
from page_chromium import Chromium

WALLS = {'wall': (1920, 1080), 'small': (1366, 768), '4k': (3840, 2160), 'wide': (2560, 1080), 'upright': (1080, 1920)}
PHONES = {'phone': (390, 844), 'turned': (844, 390)}
NAMES = ['Ida', 'Äolus, due 14:20', 'Nordlicht', 'Santa Maria', 'Blue Heron, fuel', 'Pegasus', 'Stella Maris', 'Odin', 'Frieda von Husum', 'Möwe', 'Albatros, pilot', 'Triton', 'Juno',
         'Windrose', 'Kormoran, 16:40', 'Seute Deern', 'Calypso', 'Rán', 'Havfruen, late', 'Zephyr']
YACHT = ('Her Serene Highness Princess Wilhelmina Augusta of the Northern Isles, Protector of the Lighthouses and of all who see them, ' * 3)[:256].encode()
LONG_KEY = b'berth/northern-pier-extension-of-the-old-fishing-harbour-east-04'
CALM = {'prefers_reduced_motion': 'reduce'}
# What somebody sees of each row: its text, whether it is in sight, its place, its letters, how many lines they take, and whether something of it is cut.
ROWS = """[...document.querySelectorAll('li')].map((row) => {
  const box = row.getBoundingClientRect(), middle = document.elementFromPoint(box.left + box.width / 2, box.top + box.height / 2);
  const inside = box.height > 0 && box.left >= -1 && box.right <= innerWidth + 1 && box.top >= -1 && box.bottom <= innerHeight + 1;
  const [key, value] = [...row.children].map((cell) => {
    const style = getComputedStyle(cell), box = cell.getBoundingClientRect(), words = document.createRange();
    words.selectNodeContents(cell);
    const texts = [...words.getClientRects()].filter((text) => text.top < box.bottom - 2);
    return { text: cell.textContent, left: Math.min(...texts.map((text) => text.left)), right: Math.max(...texts.map((text) => text.right)), width: box.width,
             letters: parseFloat(style.fontSize), lines: Math.round(box.height / parseFloat(style.lineHeight)),
             cut: cell.scrollHeight > cell.clientHeight + 2 || words.getBoundingClientRect().right > row.getBoundingClientRect().right + 2 };
  });
  return { key, value, seen: inside && row.contains(middle), x: box.left, y: box.top, width: box.width, height: box.height };
})"""
# The words in sight, and the size of their letters.
WORDS = """(() => {
  const found = [], texts = document.createTreeWalker(document.body, NodeFilter.SHOW_TEXT);
  while (texts.nextNode()) {
    const words = document.createRange();
    words.selectNodeContents(texts.currentNode);
    const box = words.getBoundingClientRect();
    if (box.width > 2 && box.left >= 0 && box.right <= innerWidth && box.top >= 0 && box.bottom <= innerHeight) found.push([texts.currentNode.data.trim(), parseFloat(getComputedStyle(texts.currentNode.parentElement).fontSize)]);
  }
  return found;
})()"""
# Shifts the clock of a page by the milliseconds in `later`.
CLOCK = """window.later = %d; { const Real = Date;
  window.Date = class extends Real { constructor(...given) { given.length ? super(...given) : super(Real.now() + window.later); } static now() { return Real.now() + window.later; } }; }"""


class Board:
    """A server with its page, and what is put there."""

    def __init__(self, browser, host, pictures):
        self.browser, self.host, self.pictures, self.views = browser, host, pictures, 0
        self.caller = host.connect()

    def put(self, entries):
        for key, value in entries:
            self.caller.call(PUT, key=key, value=value)

    def clear(self):
        self.caller.call(CLEAR)

    def tab(self, size, **more):
        return self.browser.tab(size, f'http://127.0.0.1:{self.host.page}/', **more)

    def picture(self, tab, name):
        self.views += 1
        tab.picture(os.path.join(self.pictures, f'{name}.png'))


def ship(at):
    return b'berth/%d' % at, NAMES[(at - 1) % len(NAMES)].encode()


def unit(size):
    """A hundredth of the width of a screen of 16 to 9 with as many points."""
    return (size[0] * size[1]) ** 0.5 / 75


def wait_for(tab, count, case, seconds=10):
    """Waits until the page has so many rows; gives them."""
    tab.until(f'document.querySelectorAll("li").length === {count}', case, seconds)
    return tab.run(ROWS)


def screens_of(tab, case):
    """The rows of each screen, as the arrow key turns to it, until the first one comes again."""
    screens, rows = [], seen(tab)
    while not screens or [row['key']['text'] for row in rows] != [row['key']['text'] for row in screens[0]]:
        screens.append(rows)
        demand(rows, case, f'screen {len(screens)} is empty')
        demand(len(screens) < 30, case, 'the first screen does not come again')
        tab.press('ArrowRight')
        rows = seen(tab)
    return screens


def seen(tab):
    """The rows in sight, as they are read: down each column."""
    return sorted((row for row in tab.run(ROWS) if row['seen']), key=lambda row: (round(row['x']), row['y']))


def demand_good(rows, case):
    """The rows of one screen do not overlap, have columns that are even, begin below each other, and have one size of letters but for those that are long."""
    columns = {}
    for row in rows:
        columns.setdefault(round(row['x']), []).append(row)
        demand(row['key']['width'] <= row['width'] / 3 + 1 and row['key']['lines'] <= 2 and row['value']['lines'] <= 2, case, f'a row is {row}')
    counts = [len(column) for column in columns.values()]
    demand(max(counts) - min(counts) <= 1, case, f'its columns have {counts} rows')
    for column in columns.values():
        for above, below in zip(column, column[1:]):
            demand(above['y'] + above['height'] <= below['y'] + 1, case, f'{above} and {below} overlap')
    demand(all(abs(row['height'] - rows[0]['height']) < 2 for row in rows), case, 'rows are not of one height')


def letters(rows):
    return min(row['value']['letters'] for row in rows)


# How many hundredths of a wide screen's width the letters have at least, where so many entries are on it.
LETTERS = ((3, 4.8), (6, 4), (10, 3.4), (15, 2.8), (20, 2.4), (30, 2), (128, 1.89))


def few_screens(board):
    """Point 1: entries one after another, on each kind of wall: how many screens there are, and how large the letters."""
    wanted = {**{count: 1 for count in range(1, 31)}, 40: 2, 60: 2, 128: 4}
    with board.tab(WALLS['wall'], media=CALM) as tab:
        there = 0
        for count, most in wanted.items():
            board.put(ship(at) for at in range(there + 1, count + 1))
            there = count
            wait_for(tab, count, f'{count} entries')
            for name, size in WALLS.items():
                case = f'{count} entries, {name}'
                tab.resize(*size)
                screens = screens_of(tab, case)
                shown = [row['key']['text'] for screen in screens for row in screen]
                demand(len(screens) <= most and (name != 'wall' or len(screens) == most), case, f'{len(screens)} screens, wanted {most}')
                demand(shown == [str(at) for at in range(1, count + 1)], case, f'these are seen: {shown}')
                for rows in screens:
                    demand_good(rows, case)
                    demand(not any(row['value']['cut'] or row['key']['cut'] for row in rows), case, 'a short text is cut')
                least = next(least for most_of, least in LETTERS if count <= most_of) * unit(size)
                found = min(letters(rows) for rows in screens)
                demand(found >= least * (1 if name == 'wall' else 0.8), case, f'letters of {found}, wanted {least}')
            tab.resize(*WALLS['wall'])
            if count in (3, 9, 20, 40, 128):
                board.picture(tab, f'{count:03}')
        demand(not tab.wrong, 'the browser', f'it says {tab.wrong}')
        for name in ('wide', 'upright'):
            tab.resize(*WALLS[name])
            board.picture(tab, f'128-{name}')
    with board.tab(WALLS['wall']) as tab:  # by itself, with motion
        wait_for(tab, 128, 'a round')
        begin, seen_keys = time.monotonic(), set()
        while len(seen_keys) < 128:
            seen_keys |= {row['key']['text'] for row in seen(tab)}
            demand(time.monotonic() - begin < 40, 'a round of 128', f'{len(seen_keys)} are seen after 40 seconds')
            time.sleep(0.3)
    board.clear()
    return len(wanted) * len(WALLS)


def long_texts(board):
    """Point 2: a value of 256 bytes, a key of 64 and heaped marks among 25 entries push nobody away, and paint nothing outside their row."""
    ships = [ship(at) for at in range(1, 26)]
    with board.tab(WALLS['wall'], media=CALM) as tab:
        board.put(ships)
        wait_for(tab, 25, 'short texts')
        plain = {}
        for name, size in WALLS.items():
            tab.resize(*size)
            screens = screens_of(tab, name)
            plain[name] = len(screens), letters(screens[0])
        board.caller.call(REMOVE, key=b'berth/4')
        board.put([(b'berth/9', YACHT), (LONG_KEY, b'Santa Maria')])
        tab.until(f'document.body.textContent.includes({json.dumps(YACHT.decode())})', 'a long value')
        tab.until('document.body.textContent.includes("fishing-harbour")', 'a long key')
        for name, size in WALLS.items():
            tab.resize(*size)
            screens = screens_of(tab, f'the yacht, {name}')
            demand(len(screens) == plain[name][0] == 1 and len(screens[0]) == 25, f'the yacht, {name}', f'{len(screens)} screens of {[len(rows) for rows in screens]}, {plain[name]} before')
            others = letters(row for row in screens[0] if len(row['value']['text']) < 100)
            demand(others >= 0.95 * plain[name][1], f'the yacht, {name}', f'the letters of others are {others}, and {plain[name]} before')
            demand_good(screens[0], f'the yacht, {name}')
            yacht = next(row for row in screens[0] if row['key']['text'] == '9')
            demand(yacht['value']['lines'] == 2 and yacht['value']['cut'] and yacht['value']['letters'] >= 1.4 * unit(size), f'the yacht, {name}', f'{yacht}')
            board.picture(tab, f'yacht-{name}')
        tab.resize(*WALLS['wall'])
        marks(board, tab)
        two_lines(board, tab)
        board.put([(b'berth/9', YACHT)])
    for name, size in PHONES.items():
        with board.tab(size, media=CALM) as tab:
            rows = wait_for(tab, 25, 'a phone')
            whole = next(row for row in rows if row['value']['text'] == YACHT.decode())
            demand(not any(row['value']['cut'] or row['key']['cut'] for row in rows) and whole['value']['lines'] > 2, f'the yacht, {name}', f'{whole}')
            demand(tab.run('document.documentElement.scrollWidth <= innerWidth') and letters(rows) >= 18, f'the yacht, {name}', 'it is wider than the screen, or small')
            board.picture(tab, f'yacht-{name}')
    board.clear()
    return 2 * len(WALLS) + 3


def two_lines(board, tab):
    """25 texts that need two lines are whole, on one screen."""
    board.clear()
    board.put((key, value + b', from Rotterdam to Oslo') for key, value in map(ship, range(1, 26)))
    tab.until('document.body.textContent.split("Rotterdam").length === 26', 'texts of two lines')
    for name, size in WALLS.items():
        tab.resize(*size)
        screens = screens_of(tab, f'texts of two lines, {name}')
        demand_good(screens[0], f'texts of two lines, {name}')
        demand(len(screens) == 1 and not any(row['value']['cut'] for row in screens[0]), f'texts of two lines, {name}', f'{len(screens)} screens, or a text is cut')
        demand(letters(screens[0]) >= 1.5 * unit(size), f'texts of two lines, {name}', f'letters of {letters(screens[0])}')
    tab.resize(*WALLS['wall'])
    board.picture(tab, 'two-lines')


def marks(board, tab):
    """60 marks on one letter leave the rows beside them as they were."""
    def others():
        rows = {row['key']['text']: row for row in tab.run(ROWS)}
        return [tab.piece(rows[key]['x'], rows[key]['y'] + 2, rows[key]['width'], rows[key]['height'] - 4) for key in ('11', '13')]

    before = others()
    board.put([(b'berth/12', 'Z'.encode() + '\u0301'.encode() * 30 + '\u0323'.encode() * 30 + b' Zed')])
    tab.until('document.body.textContent.includes(" Zed")', 'marks')
    time.sleep(0.3)
    demand(others() == before, 'marks', 'the rows beside them look otherwise')
    board.picture(tab, 'marks')


def heading(board):
    """Point 3: keys stand as people count; what all of them share stands in the heading."""
    with board.tab(WALLS['wall'], media=CALM) as tab:
        for entries, wanted, keys in (([b'berth/10', b'berth/2', b'berth/1'], 'Arrivals by berth', ['1', '2', '10']), ([b'berth/3'], 'Arrivals by berth', ['1', '2', '3', '10']),
                                      ([b'berth/n/1'], 'Arrivals by berth', ['1', '2', '3', '10', 'n/1']),
                                      ([b'pier/3'], 'Arrivals', ['berth/1', 'berth/2', 'berth/3', 'berth/10', 'berth/n/1', 'pier/3'])):
            board.put((key, b'Ida') for key in entries)
            wait_for(tab, len(keys), wanted)
            found = [row['key']['text'] for row in seen(tab)]
            demand(found == keys, wanted, f'the keys are {found}')
            said = ' '.join(tab.run('document.querySelector("h1").innerText').split())
            demand(said == wanted, wanted, f'the heading is {said}')
        board.clear()
        board.put([(b'a/b/1', b'x'), (b'a/b/2', b'x')])
        tab.until('document.querySelector("h1").innerText.endsWith("by a/b")', 'two parts')
        board.put([(b'a/b/', b'x')])
        demand([row['key']['text'] for row in wait_for(tab, 3, 'a key that ends with a slash')] == ['b/', 'b/1', 'b/2'], 'a key that ends with a slash', 'other keys')
    board.clear()
    return 6


# Takes down, at each frame, how many rows are in sight and what the page says of its screens.
WATCH = """window.frames_seen = []; (function look() { const rows = %s;
  window.frames_seen.push([rows.filter((row) => row.seen).length, (document.body.innerText.match(/\\d+ of \\d+/) || [''])[0]]); requestAnimationFrame(look); })()""" % ROWS


def changes(board):
    """Point 4: rows that leave count no more, and nothing is laid out where nothing changed."""
    board.put(ship(at) for at in range(1, 129))
    with board.tab(WALLS['wall']) as tab:
        wait_for(tab, 128, 'all')
        tab.press('ArrowLeft')
        tab.until('/(\\d+) of \\1/.test(document.body.innerText)', 'the last screen')
        time.sleep(1)  # it slides there
        tab.run(WATCH)
        for at in range(4, 129):
            board.caller.call(REMOVE, key=b'berth/%d' % at)
        gone = time.monotonic()
        tab.until('document.querySelectorAll("li").length === 3', 'three are left', 3)
        demand(time.monotonic() - gone < 1.2, 'three are left', f'they are shown after {time.monotonic() - gone:.2f} s')
        demand(len(seen(tab)) == 3, 'three are left', 'they are not in sight')
        frames = tab.run('window.frames_seen')
        demand(all(rows > 0 for rows, _ in frames) and frames[-1] == [3, ''], 'three are left', f'frames show {sorted(map(tuple, frames))[:3]} and {frames[-1]}')
        demand(all(not said or int(said.split()[0]) <= int(said.split()[2]) <= 4 for _, said in frames), 'three are left', f'{sorted({said for _, said in frames})}')
    with board.tab(WALLS['wall']) as tab:
        wait_for(tab, 3, 'nothing changes')
        time.sleep(1.5)
        before = tab.layouts()
        time.sleep(4)
        demand(tab.layouts() - before <= 2, 'nothing changes', f'it is laid out {tab.layouts() - before} times in 4 seconds')
        board.put([(b'berth/2', b'moved to the outer harbour')])
        tab.until('document.body.innerText.includes("outer harbour")', 'a value that changes')
        board.caller.call(PUT, key=b'berth/7', value=b'Rasmus', lifespan=2)
        tab.until('document.body.innerText.includes("Rasmus")', 'a ship that comes')
        tab.until('!document.body.innerText.includes("Rasmus")', 'a ship that leaves by itself')
        demand(not tab.wrong, 'the browser', f'it says {tab.wrong}')
    board.clear()
    return 5


def full_server(bench, browser, pictures):
    """Point 5: with all connections taken, and behind a time in which every connection was idle, the page shows the entries."""
    for options in ((), ('--idle', '1')):
        with Shown(bench.table('taken'), '--connections', '1', *options) as host:
            board = Board(browser, host, pictures)
            board.put([ship(1), ship(2)])
            if options:
                until(lambda: 'closed, since nothing moved' in host.words(), 'idle', 'no connection is closed')
            with board.tab(WALLS['wall'], media=CALM) as tab:
                rows = wait_for(tab, 2, 'all connections are taken')
                demand(all(row['seen'] for row in rows) and 'does not answer' not in tab.run('document.body.innerText'), 'all connections are taken', 'the entries are not seen')
                demand(not tab.wrong, 'the browser', f'it says {tab.wrong}')
    return 2


def said(tab, pattern, least, case):
    """That words of this pattern are in sight, in letters of at least this size."""
    found = [(words, size) for words, size in tab.run(WORDS) if re.fullmatch(pattern, words)]
    demand(found and found[0][1] >= least, case, f'{pattern} is not seen so large: {found or tab.run(WORDS)}')


def lost(bench, browser, pictures):
    """Point 6: a server that is gone, for hours; that comes back with another page; and a screen that was switched on before it."""
    table = bench.table('lost')
    with Shown(table) as host:
        page = host.page
        board = Board(browser, host, pictures)
        board.put(ship(at) for at in range(1, 10))
        tab, phone = board.tab(WALLS['wall'], media=CALM, before=CLOCK % 0), board.tab(PHONES['phone'], media=CALM, before=CLOCK % 0)
        for one in (tab, phone):
            wait_for(one, 9, 'before it is lost')
        heard = time.localtime()
        demand(host.stop(signal.SIGTERM) == 0, 'the end', host.words())
    tab.until('document.body.innerText.includes("The server does not answer.")', 'a lost server')
    for later, words in ((0, 'less than a minute ago'), (5 * 60, '5 minutes ago'), (3 * 3600, '3 hours ago'), (50 * 3600, '2 days ago')):
        tab.run(f'window.later = {later * 1000 + 20_000 * (later > 0)}')
        tab.until(f'document.body.innerText.includes("{words}")', f'lost, {words}', 3)
        said(tab, rf'As of \d\d:\d\d, {words}', 3 * unit(WALLS['wall']), 'a lost server')
        if later == 3 * 3600:
            board.picture(tab, 'lost')
    told = tab.run('document.body.innerText.match(/As of (\\d\\d:\\d\\d)/)[1]')
    demand(told in (time.strftime('%H:%M', heard), time.strftime('%H:%M', time.localtime(time.mktime(heard) - 60))), 'a lost server', f'it tells {told}')
    demand(len(seen(tab)) == 9, 'a lost server', 'the entries are not seen')
    phone.until('document.body.innerText.includes("As of ")', 'a lost server on a phone')
    board.picture(phone, 'lost-phone')
    with browser.tab(WALLS['wall'], f'http://127.0.0.1:{page}/', media=CALM) as early:
        time.sleep(1)
        demand('berth' not in early.run('document.body.innerText'), 'a screen that is early', 'it shows something')
        with Shown(table, '--title', 'Ships at their berths', page=page) as host:
            for one, case in ((tab, 'another page'), (phone, 'another page on a phone'), (early, 'a screen that is early')):
                wait_for(one, 9, case, 40)
                one.until('document.querySelector("h1").innerText.startsWith("Ships at their berths")', case)
                one.until('!document.body.innerText.includes("does not answer")', case)
            demand(host.stop() == 0, 'the end', host.words())
    for one in (tab, phone):
        one.__exit__()
    never_heard(bench, browser, pictures)
    return 11


def never_heard(bench, browser, pictures):
    """A screen that is switched on while the server does not answer says so, and shows the entries when it does."""
    with Stuck(bench, 'stuck') as host:
        board = Board(browser, host, pictures)
        with board.tab(WALLS['wall'], media=CALM) as tab:
            tab.until('document.body.innerText.includes("The server does not answer.")', 'a server that does not answer')
            said(tab, r'The server does not answer\.', 3 * unit(WALLS['wall']), 'a server that does not answer')
            board.picture(tab, 'never-heard')
            host.lift()
            wait_for(tab, 1, 'a server that answers at last')


def luminance(tab):
    """How light the ground is, from 0 to 255."""
    return sum(int(part) for part in re.findall(r'\d+', tab.run('getComputedStyle(document.body).backgroundColor'))[:3]) / 3


def everyone(bench, board):
    """Point 8: what is read out, texts that are read to the left, clock, scheme, an empty board, the printed sheet."""
    with board.tab(WALLS['wall'], media=CALM, before=CLOCK % 0) as tab:
        tab.call('Emulation.setLocaleOverride', locale='en-US')
        wait_for(tab, 0, 'an empty board')
        midnight = tab.run('(() => { const day = new Date(); day.setHours(24, 7, 30, 0); return day - new Date(); })()')
        tab.run(f'window.later = {midnight}')
        tab.until('document.body.innerText.includes("00:07")', 'the clock')
        said(tab, '00:07', 8 * unit(WALLS['wall']), 'an empty board')
        said(tab, 'All is quiet.*', 2 * unit(WALLS['wall']), 'an empty board')
        board.picture(tab, '000')
        board.put([(b'berth/1', 'שלום, due 14:20'.encode()), (b'berth/2', 'سفينة الشمال'.encode()), (b'berth/3', b'Ida')])
        rows = wait_for(tab, 3, 'texts that are read to the left')
        lefts = [row['value']['left'] for row in rows]
        demand(max(lefts) - min(lefts) < 3, 'texts that are read to the left', f'values begin at {lefts}')
        said(tab, '00:07', 2 * unit(WALLS['wall']), 'the clock')
        board.picture(tab, 'to-the-left')
        tree = tab.call('Accessibility.getFullAXTree')['nodes']
        roles = [(node['role']['value'], node.get('name', {}).get('value')) for node in tree if not node.get('ignored')]
        demand(('list', 'Arrivals by berth') in roles and sum(role == 'listitem' for role, _ in roles) == 3, 'for those who listen', f'{roles}')
        demand(any(role == 'status' for role, _ in roles) and ('heading', 'Arrivals by berth') in roles, 'for those who listen', f'{roles}')
        tab.run('window.read = []; new MutationObserver(() => window.read.push(document.querySelector("[role=status]").textContent)).observe(document.querySelector("[role=status]"), '
                '{ childList: true, characterData: true, subtree: true })')
        for at in range(12):
            board.put([(b'berth/%d' % (at + 1), b'Number %d' % at)])
            time.sleep(0.25)
        tab.until('window.read.length > 0', 'for those who listen')
        demand(len(tab.run('window.read')) <= 2, 'for those who listen', f'{tab.run("window.read")} is read out in 3 seconds')
    board.clear()
    board.put(ship(at) for at in range(1, 129))
    schemes(board)
    sheet(board)
    board.clear()
    with Shown(bench.table('titled'), '--title', '<i>Fähren</i> & "mehr"') as host:
        with board.browser.tab(WALLS['wall'], f'http://127.0.0.1:{host.page}/', media=CALM) as tab:
            tab.until('document.querySelector("h1").innerText.trim() === \'<i>Fähren</i> & "mehr"\' && document.title === \'<i>Fähren</i> & "mehr"\'', 'a title')
            demand(not tab.wrong, 'the browser', f'it says {tab.wrong}')
    return 9


def sheet(board):
    """Printed, all entries are on a light sheet with the date, whichever screen is shown."""
    with board.tab(WALLS['wall'], media=CALM) as tab:
        wait_for(tab, 128, 'a sheet')
        tab.press('ArrowRight')
        pages = len(re.findall(rb'/Type\s*/Page\b', tab.sheet()))
        demand(1 <= pages <= 3, 'a sheet', f'it has {pages} pages')
        tab.resize(680, 4000)
        tab.media(kind='print', **CALM)
        rows = tab.run(ROWS)
        demand(all(row['seen'] for row in rows) and [row['key']['text'] for row in rows] == [str(at) for at in range(1, 129)], 'a sheet', 'not all entries are on it')
        said(tab, r'\w+day,? \d+ \w+ \d{4}, \d\d:\d\d', 10, 'a sheet')
        demand(luminance(tab) == 255 or tab.run('getComputedStyle(document.body).backgroundColor') == 'rgba(0, 0, 0, 0)', 'a sheet', 'it is dark')
        tab.resize(680, 1000)
        board.picture(tab, 'sheet')


def schemes(board):
    """A phone is light or dark as it asks; a wall is dark."""
    for name, size, scheme, light in (('phone', PHONES['phone'], 'light', True), ('phone', PHONES['phone'], 'dark', False), ('turned', PHONES['turned'], 'light', True),
                                      ('wall', WALLS['wall'], 'light', False)):
        with board.tab(size, media={'prefers_color_scheme': scheme, **CALM}) as tab:
            wait_for(tab, 128, 'a scheme')
            found = luminance(tab)
            demand(found > 220 if light else found < 40, f'{scheme} on a {name}', f'the ground is {found}')
            board.picture(tab, f'{scheme}-{name}')


def as_shown(data):
    if data == b'':
        return '(empty)'
    return data.decode() if is_text(data) else '0x' + data.hex()


def hostile(board):
    """Hostile keys and values are text."""
    entries = [(key, (HOSTILE[(at + 7) % len(HOSTILE)] * 3)[:256]) for at, key in enumerate(HOSTILE)]
    board.put(entries)
    wanted = [[as_shown(key), as_shown(value)] for key, value in sorted(entries, key=counted)]
    for name, size in (('wall', WALLS['wall']), ('phone', PHONES['phone'])):
        with board.tab(size, media=CALM) as tab:
            found = [[row['key']['text'], row['value']['text']] for row in wait_for(tab, len(entries), 'hostile entries')]
            demand(found == wanted, 'hostile entries', f'{found} is shown, wanted {wanted}')
            demand(not tab.wrong and tab.run('document.querySelectorAll("b, img, script").length') == 2, 'hostile entries', f'the browser says {tab.wrong}, or there is markup')
            board.picture(tab, f'hostile-{name}')
    board.clear()
    return 2


def for_readme(board, path):
    """The picture of README, at a time that is always the same."""
    board.put([*(ship(at) for at in range(1, 9)), (b'berth/9', YACHT), *(ship(at) for at in range(10, 19))])
    with board.tab((1920, 1080), media=CALM, before=CLOCK % 0) as tab:
        wait_for(tab, 18, 'the picture')
        tab.run('(() => { const noon = new Date(); noon.setHours(14, 5, 0, 0); window.later += noon - new Date(); })()')
        tab.until('document.body.innerText.includes("14:05")', 'the picture')
        tab.picture(path, scale=0.5)
    board.clear()
    demand(os.path.getsize(path) < 100_000, path, f'{os.path.getsize(path)} bytes')


def part():
    pictures = tempfile.mkdtemp(prefix='page.', dir='/tmp')
    chosen = sys.argv[1:]
    with Bench() as bench, Chromium(os.path.join(bench.top, 'profile')) as browser, Shown(bench.table('views')) as host:
        board = Board(browser, host, pictures)
        tests = {'everyone': lambda: everyone(bench, board), 'heading': lambda: heading(board), 'long': lambda: long_texts(board), 'screens': lambda: few_screens(board),
                 'changes': lambda: changes(board), 'hostile': lambda: hostile(board), 'taken': lambda: full_server(bench, browser, pictures), 'lost': lambda: lost(bench, browser, pictures)}
        unknown = [name for name in chosen if name not in tests and not name.endswith('.png')]
        demand(not unknown, f'{unknown}', f'a part is one of {[*tests]}')
        done = {name: test() for name, test in tests.items() if not chosen or name in chosen}
        for_readme(board, next((name for name in chosen if name.endswith('.png')), os.path.join(pictures, 'board.png')))
    return f'{", ".join(f"{count} {name}" for name, count in done.items())} in chromium; screenshots are in {pictures}'


if __name__ == '__main__':
    run_part('page', part)
