"""Chromium without a window, for tools/check-examples. It is driven through two pipes, by commands of its DevTools
protocol: each is JSON with a zero byte behind it, and so is each answer."""
import base64
import fcntl
import json
import os
import select
import shutil
import tempfile
import time

NAMES = ('chromium', 'chromium-browser', 'google-chrome', 'google-chrome-stable')
SECONDS = 180


def find_browser():
    """The program of a browser, or None where there is none."""
    return next(filter(None, map(shutil.which, NAMES)), None)


class Failed(Exception):
    """The browser does not do what it is asked, or a page is not as it should be."""


class Browser:
    """A browser that shows one page."""

    def __init__(self, program):
        self.folder = tempfile.mkdtemp()
        words = [program, '--headless=new', '--remote-debugging-pipe', f'--user-data-dir={self.folder}',
                 '--no-first-run', '--disable-gpu', '--disable-dev-shm-usage', '--disable-background-networking',
                 '--disable-component-update', '--disable-sync']
        # In this way alone it runs as root, as it may in a container. It is shown nothing but pages of this machine.
        words += ['--no-sandbox'] if os.geteuid() == 0 else []
        self.process, self.input, self.output = started(words)
        self.unread = b''
        self.number = 0
        self.session = None

    def __enter__(self):
        return self

    def __exit__(self, *raised):
        """Ends the browser."""
        try:
            self.ask('Browser.close')
        except Failed:
            pass
        os.close(self.input)
        os.close(self.output)
        os.waitpid(self.process, 0)
        shutil.rmtree(self.folder, ignore_errors=True)

    # ---- The protocol

    def ask(self, method, **given):
        """Sends one command, and gives its answer."""
        self.number += 1
        message = {'id': self.number, 'method': method, 'params': given}
        if self.session:
            message['sessionId'] = self.session
        try:
            os.write(self.input, json.dumps(message).encode() + b'\0')
        except OSError:
            raise Failed('the browser has ended') from None
        while True:
            answer = self.read()
            if answer.get('id') != self.number:
                continue
            if 'error' in answer:
                raise Failed(f'{method}: {answer["error"]["message"]}')
            return answer['result']

    def read(self):
        """The next message of the browser: an answer, or an event."""
        while b'\0' not in self.unread:
            if not select.select([self.output], [], [], SECONDS)[0]:
                raise Failed(f'the browser says nothing for {SECONDS} seconds')
            more = os.read(self.output, 1 << 16)
            if not more:
                raise Failed('the browser has ended')
            self.unread += more
        message, _, self.unread = self.unread.partition(b'\0')
        return json.loads(message)

    # ---- What somebody does who sits before it

    def open(self, address, width=1440, height=900):
        """Shows the page at this address, in a window of this size."""
        if self.session is None:
            target = self.ask('Target.createTarget', url='about:blank')['targetId']
            self.session = self.ask('Target.attachToTarget', targetId=target, flatten=True)['sessionId']
        self.ask('Emulation.setDeviceMetricsOverride', width=width, height=height, deviceScaleFactor=1, mobile=False)
        self.ask('Page.navigate', url=address)

    def value(self, expression):
        """The value of an expression of the page's JavaScript; of a promise, what it comes to."""
        answer = self.ask('Runtime.evaluate', expression=expression, returnByValue=True, awaitPromise=True)
        if 'exceptionDetails' in answer:
            raise Failed(f'{expression}: {answer["exceptionDetails"]["exception"]["description"]}')
        return answer['result'].get('value')

    def wait_for(self, expression):
        """Waits until an expression is true."""
        end = time.monotonic() + SECONDS
        while not self.value(expression):
            if time.monotonic() > end:
                raise Failed(f'this does not come to be: {expression}')
            time.sleep(0.02)

    def click(self, element):
        """Clicks in the middle of an element, which an expression gives, or of its first line."""
        self.value(f'({element}).scrollIntoView({{block: "nearest"}})')
        box = self.value(f'({element}).getClientRects()[0].toJSON()')
        at = {'x': box['x'] + box['width'] / 2, 'y': box['y'] + box['height'] / 2}
        self.point_at(**at)
        for kind in ('mousePressed', 'mouseReleased'):
            self.ask('Input.dispatchMouseEvent', type=kind, button='left', clickCount=1, **at)

    def point_at(self, x, y):
        self.ask('Input.dispatchMouseEvent', type='mouseMoved', x=x, y=y)

    def type(self, text):
        self.ask('Input.insertText', text=text)

    def press(self, key, with_alt=False):
        for kind in ('rawKeyDown', 'keyUp'):
            self.ask('Input.dispatchKeyEvent', type=kind, key=key, modifiers=1 if with_alt else 0)

    def picture(self):
        """The bytes of a PNG of what is shown."""
        return base64.b64decode(self.ask('Page.captureScreenshot', format='png')['data'])


def started(words):
    """Starts a browser, which reads commands as file 3 and writes as file 4: its process, and the other ends."""
    asked, told = os.pipe(), os.pipe()
    # Neither of the ends may be 3 or 4 itself while they are put there.
    ends = [fcntl.fcntl(end, fcntl.F_DUPFD_CLOEXEC, 10) for end in (asked[0], told[1])]
    places = [(os.POSIX_SPAWN_DUP2, ends[0], 3), (os.POSIX_SPAWN_DUP2, ends[1], 4)]
    places += [(os.POSIX_SPAWN_OPEN, stream, os.devnull, os.O_WRONLY, 0) for stream in (1, 2)]
    process = os.posix_spawn(words[0], words, os.environ, file_actions=places)
    for end in (asked[0], told[1], *ends):
        os.close(end)
    return process, asked[1], told[0]
