"""A browser without a window, Chromium, that is told what to do through two pipes."""

import base64
import json
import os
import select
import shutil
import subprocess
import tempfile
import time

NAMES = ('chromium', 'chromium-browser', 'google-chrome', 'chrome')


def browser_name():
    return next((name for name in NAMES if shutil.which(name)), None)


class Browser:
    """A browser with one page."""

    def __init__(self, width=1300, height=1400):
        self.folder = tempfile.TemporaryDirectory(ignore_cleanup_errors=True)
        told, self.tell = os.pipe()
        self.hear, said = os.pipe()
        # the browser reads from its descriptor 3 and writes to 4, at which a shell puts the ends
        words = [browser_name(), '--headless', '--no-sandbox', '--disable-gpu', '--no-first-run', '--disable-dev-shm-usage',
                 '--user-data-dir=' + self.folder.name, '--window-size=%d,%d' % (width, height), '--hide-scrollbars',
                 '--remote-debugging-pipe', 'about:blank']
        script = 'exec 3<&%d 4>&%d; exec "$@"' % (told, said)
        self.child = subprocess.Popen(['bash', '-c', script, 'browser'] + words, pass_fds=(told, said), stdout=subprocess.DEVNULL,
                                      stderr=subprocess.DEVNULL, stdin=subprocess.DEVNULL)
        os.close(told)
        os.close(said)
        self.count, self.kept, self.session, self.heard = 0, b'', None, []
        pages = self.ask('Target.getTargets')['targetInfos']
        page = next(target for target in pages if target['type'] == 'page')
        self.session = self.ask('Target.attachToTarget', targetId=page['targetId'], flatten=True)['sessionId']
        self.ask('Page.enable')

    def message(self, seconds):
        """The next message of the browser."""
        end = time.monotonic() + seconds
        while b'\0' not in self.kept:
            if not select.select([self.hear], [], [], max(end - time.monotonic(), 0))[0]:
                raise TimeoutError('the browser says nothing')
            told = os.read(self.hear, 1 << 20)
            if not told:
                raise TimeoutError('the browser has ended')
            self.kept += told
        message, _, self.kept = self.kept.partition(b'\0')
        return json.loads(message)

    def ask(self, method, seconds=60, **parameters):
        """The answer to a command."""
        self.count += 1
        command = {'id': self.count, 'method': method, 'params': parameters}
        if self.session:
            command['sessionId'] = self.session
        os.write(self.tell, json.dumps(command).encode() + b'\0')
        while True:
            message = self.message(seconds)
            if message.get('id') == self.count:
                if 'error' in message:
                    raise ValueError('%s: %s' % (method, message['error']))
                return message['result']
            self.heard.append(message.get('method'))

    def open(self, path, seconds=60):
        """Opens a file, and gives the seconds until it was loaded and drawn."""
        self.heard = []
        begin = time.monotonic()
        self.ask('Page.navigate', url='file://' + path)
        while 'Page.loadEventFired' not in self.heard:
            self.heard.append(self.message(seconds).get('method'))
        self.value('new Promise(done => requestAnimationFrame(() => requestAnimationFrame(() => done(1))))')
        return time.monotonic() - begin

    def size(self, width, height):
        """Gives the page this size in pixels."""
        self.ask('Emulation.setDeviceMetricsOverride', width=width, height=height, deviceScaleFactor=1, mobile=False)

    def value(self, expression):
        """The value of an expression in the page."""
        answer = self.ask('Runtime.evaluate', expression=expression, returnByValue=True, awaitPromise=True)
        if 'exceptionDetails' in answer:
            raise ValueError(str(answer['exceptionDetails'])[:500])
        return answer['result'].get('value')

    def type(self, text):
        """Types a text where the page expects one."""
        for character in text:
            self.ask('Input.dispatchKeyEvent', type='keyDown', text=character, key=character)
            self.ask('Input.dispatchKeyEvent', type='keyUp', key=character)

    def click(self, x, y):
        for kind in ('mousePressed', 'mouseReleased'):
            self.ask('Input.dispatchMouseEvent', type=kind, x=x, y=y, button='left', clickCount=1)

    def picture(self, path):
        with open(path, 'wb') as file:
            file.write(base64.b64decode(self.ask('Page.captureScreenshot')['data']))

    def end(self):
        self.child.kill()
        self.child.wait()
        os.close(self.tell)
        os.close(self.hear)
        self.folder.cleanup()
