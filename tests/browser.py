"""A headless Chromium, driven over a pipe by the DevTools protocol, with python's standard library alone."""
import json
import os
import select
import subprocess
import tempfile
import time


class Browser:
    """One tab. `errors` has script errors, console errors and dialogs; `fetched` all that was asked for beside the page itself."""

    def __init__(self, program):
        to_read, self.to_write = os.pipe()
        self.from_read, from_write = os.pipe()
        # the browser's last helpers may still write there while it is taken away
        self.profile = tempfile.TemporaryDirectory(ignore_cleanup_errors=True)
        flags = ['--headless=new', '--no-sandbox', '--disable-gpu', '--hide-scrollbars', '--no-first-run', '--disable-extensions',
                 '--disable-background-networking', '--disable-sync', '--disable-component-update', '--remote-debugging-pipe',
                 '--disable-dev-shm-usage', '--mute-audio', f'--user-data-dir={self.profile.name}', 'about:blank']
        # the browser reads from descriptor 3 and writes to 4
        wiring = f'exec 3<&{to_read} 4>&{from_write}; exec "$@"'
        self.process = subprocess.Popen(['bash', '-c', wiring, 'bash', program, *flags], pass_fds=(to_read, from_write),
                                        stdin=subprocess.DEVNULL, stdout=subprocess.DEVNULL, stderr=subprocess.DEVNULL)
        os.close(to_read)
        os.close(from_write)
        self.buffer, self.number, self.events = b'', 0, []
        self.errors, self.fetched, self.page = [], [], ''
        self.session = None
        target = self.call('Target.createTarget', url='about:blank')['targetId']
        self.session = self.call('Target.attachToTarget', targetId=target, flatten=True)['sessionId']
        for domain in ['Page', 'Runtime', 'Log', 'Network']:
            self.call(domain + '.enable')

    def close(self):
        self.process.terminate()
        self.process.wait()
        os.close(self.to_write)
        os.close(self.from_read)
        self.profile.cleanup()

    def message(self, seconds):
        """The next message, or nothing after so many seconds."""
        end = time.monotonic() + seconds
        while b'\0' not in self.buffer:
            ready, _, _ = select.select([self.from_read], [], [], max(0, end - time.monotonic()))
            part = os.read(self.from_read, 1 << 20) if ready else b''
            if not part:
                return None
            self.buffer += part
        one, self.buffer = self.buffer.split(b'\0', 1)
        return json.loads(one)

    def note(self, event):
        """Keeps what an event tells of errors and of what is fetched."""
        method, told = event.get('method'), event.get('params', {})
        if method == 'Runtime.exceptionThrown':
            self.errors.append(json.dumps(told['exceptionDetails'])[:500])
        elif method == 'Log.entryAdded' and told['entry']['level'] == 'error':
            self.errors.append(told['entry']['text'])
        elif method == 'Runtime.consoleAPICalled' and told['type'] in ('error', 'assert'):
            self.errors.append('console: ' + json.dumps(told['args'])[:500])
        elif method == 'Page.javascriptDialogOpening':
            self.errors.append('a dialog: ' + told['message'])
            self.send('Page.handleJavaScriptDialog', accept=True)
        elif method == 'Network.requestWillBeSent' and told['request']['url'] != self.page:
            self.fetched.append(told['request']['url'])
        self.events.append(method)

    def send(self, method, **told):
        self.number += 1
        message = {'id': self.number, 'method': method, 'params': told}
        if self.session:
            message['sessionId'] = self.session
        os.write(self.to_write, json.dumps(message).encode() + b'\0')
        return self.number

    def call(self, method, **told):
        number = self.send(method, **told)
        while True:
            message = self.message(60)
            if message is None:
                raise RuntimeError(f'no answer to {method}')
            if message.get('id') == number:
                if 'error' in message:
                    raise RuntimeError(f'{method}: {message["error"]}')
                return message['result']
            self.note(message)

    def open(self, path):
        """Opens a page from the disk, and waits until it is loaded."""
        self.page, self.events = 'file://' + os.path.abspath(path), []
        self.call('Page.navigate', url=self.page)
        while 'Page.loadEventFired' not in self.events:
            message = self.message(60)
            if message is None:
                raise RuntimeError(f'{path} does not load')
            self.note(message)

    def run(self, script):
        """What a function of the page's own gives."""
        told = self.call('Runtime.evaluate', expression=f'({script})()', returnByValue=True, awaitPromise=True)
        if 'exceptionDetails' in told:
            raise RuntimeError(json.dumps(told['exceptionDetails'])[:800])
        return told['result'].get('value')

    def looks(self, width, height, dark=False):
        self.call('Emulation.setDeviceMetricsOverride', width=width, height=height, deviceScaleFactor=1, mobile=False)
        scheme = 'dark' if dark else 'light'
        self.call('Emulation.setEmulatedMedia', features=[{'name': 'prefers-color-scheme', 'value': scheme}])
