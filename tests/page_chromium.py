"""Chromium without a screen, by its DevTools protocol over a pair of pipes: messages are JSON with a byte 0 behind each."""
import base64
import json
import os
import select
import subprocess
import time

from host_run import Difference, demand

PATIENCE = 30


class Navigated(Difference):
    """A page has gone for another one before it answered."""


class Chromium:
    def __init__(self, profile):
        (theirs_in, self.to), (self.come, theirs_out) = os.pipe(), os.pipe()
        # It reads from file 3 and writes to file 4; these are made in a shell, since other files may have these numbers here.
        words = [os.environ['CHROMIUM'], '--headless', '--remote-debugging-pipe', '--no-sandbox', '--disable-gpu', '--hide-scrollbars', '--no-first-run', '--lang=en-US',
                 '--force-prefers-reduced-motion=0', f'--user-data-dir={profile}', 'about:blank']
        shell = f'exec "$@" 3<&{theirs_in} 4>&{theirs_out}'
        self.run = subprocess.Popen(['bash', '-c', shell, 'bash', *words], pass_fds=(theirs_in, theirs_out), stdin=subprocess.DEVNULL, stdout=subprocess.DEVNULL,
                                    stderr=subprocess.DEVNULL)
        os.close(theirs_in)
        os.close(theirs_out)
        self.count, self.bytes, self.replies, self.sessions = 0, b'', {}, {}

    def __enter__(self):
        return self

    def __exit__(self, *_):
        try:
            self.call('Browser.close')
            self.run.wait(timeout=10)
        except (Difference, OSError, subprocess.TimeoutExpired):
            self.run.kill()
            self.run.wait()
        os.close(self.to)
        os.close(self.come)

    def call(self, method, session=None, **parameters):
        """Has something done, and gives the answer."""
        self.count += 1
        number = self.count
        message = {'id': number, 'method': method, 'params': parameters}
        if session:
            message['sessionId'] = session
        os.write(self.to, json.dumps(message).encode() + b'\0')
        end = time.monotonic() + PATIENCE
        while number not in self.replies:
            self.read(max(0, end - time.monotonic()), method)
        reply = self.replies.pop(number)
        if 'navigated' in str(reply.get('error')):
            raise Navigated(method)
        demand('error' not in reply, method, f"{reply.get('error')}")
        return reply['result']

    def read(self, seconds, case='the browser'):
        """Takes what has come; waits so long for it."""
        ready = select.select([self.come], [], [], seconds)[0]
        demand(ready, case, 'the browser does not answer')
        more = os.read(self.come, 1 << 20)
        demand(more, case, 'the browser has gone')
        *whole, self.bytes = (self.bytes + more).split(b'\0')
        for one in whole:
            message = json.loads(one)
            if 'id' in message:
                self.replies[message['id']] = message
            elif tab := self.sessions.get(message.get('sessionId')):
                tab.notice(message['method'], message['params'])

    def tab(self, size, address, **more):
        return Tab(self, size, address, **more)


class Tab:
    """One page of a size, as somebody looks at it. `wrong` is what the browser complained of."""

    def __init__(self, browser, size, address, before='', media=()):
        self.browser, self.wrong = browser, []
        self.target = browser.call('Target.createTarget', url='about:blank')['targetId']
        self.session = browser.call('Target.attachToTarget', targetId=self.target, flatten=True)['sessionId']
        browser.sessions[self.session] = self
        for domain in ('Page', 'Runtime', 'Log', 'Performance'):
            self.call(f'{domain}.enable')
        self.resize(*size)
        self.media(**dict(media))
        if before:
            self.call('Page.addScriptToEvaluateOnNewDocument', source=before)
        self.go(address)

    def __enter__(self):
        return self

    def __exit__(self, *_):
        self.browser.call('Target.closeTarget', targetId=self.target)
        del self.browser.sessions[self.session]

    def call(self, method, **parameters):
        return self.browser.call(method, self.session, **parameters)

    def notice(self, method, parameters):
        if method == 'Log.entryAdded' and parameters['entry']['level'] in ('error', 'warning'):
            self.wrong.append(f"{parameters['entry']['text']} {parameters['entry'].get('url', '')}")
        if method == 'Runtime.exceptionThrown':
            self.wrong.append(str(parameters['exceptionDetails'].get('exception', parameters)))

    def go(self, address):
        self.call('Page.navigate', url=address)

    def resize(self, width, height, scale=1):
        self.call('Emulation.setDeviceMetricsOverride', width=width, height=height, deviceScaleFactor=scale, mobile=False)
        self.run('new Promise((done) => requestAnimationFrame(() => requestAnimationFrame(done)))')  # the page has seen it

    def media(self, kind='', **features):
        self.call('Emulation.setEmulatedMedia', media=kind, features=[{'name': name.replace('_', '-'), 'value': value} for name, value in features.items()])

    def run(self, script):
        """What a script gives in the page."""
        result = self.call('Runtime.evaluate', expression=script, returnByValue=True, awaitPromise=True)
        demand('exceptionDetails' not in result, script[:80], f'{result}')
        return result['result'].get('value')

    def press(self, key):
        for kind in ('keyDown', 'keyUp'):
            self.call('Input.dispatchKeyEvent', type=kind, key=key)

    def until(self, script, case, seconds=10):
        """Waits until a script gives something true in the page."""
        end, found = time.monotonic() + seconds, None
        while not found:
            demand(time.monotonic() < end, case, f'{script} does not come to hold; the page has: {self.run("document.body && document.body.innerText")}')
            try:
                found = self.run(f'(() => {{ try {{ return {script} }} catch (error) {{ return null }} }})()')
            except Navigated:
                pass
            time.sleep(0.03)
        return found

    def layouts(self):
        """How often something was laid out."""
        return next(int(one['value']) for one in self.call('Performance.getMetrics')['metrics'] if one['name'] == 'LayoutCount')

    def picture(self, path, scale=None):
        """Leaves a screenshot, made smaller where a scale is given."""
        width, height = self.run('[innerWidth, innerHeight]')
        with open(path, 'wb') as file:
            file.write(self.piece(0, 0, width, height, scale or 1))

    def piece(self, x, y, width, height, scale=1):
        """A part of the screen, as the bytes of a picture; two that look the same have the same bytes."""
        clip = {'x': x, 'y': y, 'width': width, 'height': height, 'scale': scale}
        return base64.b64decode(self.call('Page.captureScreenshot', format='png', clip=clip)['data'])

    def sheet(self):
        """The bytes of the printed page."""
        return base64.b64decode(self.call('Page.printToPDF', paperWidth=8.27, paperHeight=11.69)['data'])
