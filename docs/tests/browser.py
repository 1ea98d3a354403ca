"""Chromium without a window, driven through a pipe."""
import json, os, pathlib, shutil, subprocess, tempfile, time

KEYS = {'Tab': 9, 'Enter': 13, 'Escape': 27, 'End': 35, 'Home': 36, 'ArrowUp': 38, 'ArrowDown': 40}


class Browser:
    """One page of a browser; what its console and its network tell is kept from one opening to the next."""
    def __enter__(self):
        self.folder, self.number, self.rest, self.told, self.session = tempfile.mkdtemp(), 0, b'', [], None
        reads, self.out = os.pipe()
        self.into, writes = os.pipe()
        words = f'exec chromium --headless=new --no-sandbox --disable-gpu --user-data-dir={self.folder} --remote-debugging-pipe about:blank 3<&{reads} 4>&{writes}'
        self.process = subprocess.Popen(['bash', '-c', words], pass_fds=(reads, writes), stdout=subprocess.DEVNULL, stderr=subprocess.DEVNULL)
        os.close(reads), os.close(writes)
        target = self.ask('Target.createTarget', url='about:blank')['targetId']
        self.session = self.ask('Target.attachToTarget', targetId=target, flatten=True)['sessionId']
        for part in ('Page', 'Runtime', 'Log', 'Network'):
            self.ask(f'{part}.enable')
        return self

    def __exit__(self, *_):
        self.process.kill()
        self.process.wait()
        shutil.rmtree(self.folder, ignore_errors=True)

    def heard(self):
        while b'\0' not in self.rest:
            read = os.read(self.into, 1 << 20)
            if not read:
                raise EOFError('the browser has ended')
            self.rest += read
        message, _, self.rest = self.rest.partition(b'\0')
        return json.loads(message)

    def ask(self, method, **params):
        self.number += 1
        message = {'id': self.number, 'method': method, 'params': params, **({'sessionId': self.session} if self.session else {})}
        os.write(self.out, json.dumps(message).encode() + b'\0')
        while True:
            heard = self.heard()
            if heard.get('id') == self.number:
                return heard['result']
            self.told.append(heard)

    def open(self, path, width, dark, height=900):
        """Opens a file, and tells the seconds until it is there."""
        self.ask('Emulation.setDeviceMetricsOverride', width=width, height=height, deviceScaleFactor=1, mobile=False)
        self.ask('Emulation.setEmulatedMedia', features=[{'name': 'prefers-color-scheme', 'value': 'dark' if dark else 'light'}])
        self.told.clear()
        began = time.time()
        self.ask('Page.navigate', url=pathlib.Path(path).resolve().as_uri())
        while not any(each.get('method') == 'Page.loadEventFired' for each in self.told):
            self.told.append(self.heard())
        self.run('new Promise(drawn => requestAnimationFrame(() => requestAnimationFrame(drawn)))')
        return time.time() - began

    def run(self, text):
        return self.ask('Runtime.evaluate', expression=text, returnByValue=True, awaitPromise=True)['result'].get('value')

    def key(self, key):
        about = {'key': key, 'code': key, 'windowsVirtualKeyCode': KEYS[key]}
        self.ask('Input.dispatchKeyEvent', type='keyDown', **about, **({'text': '\r'} if key == 'Enter' else {}))
        self.ask('Input.dispatchKeyEvent', type='keyUp', **about)

    def faults(self):
        return [each for each in self.told if each.get('method') in ('Runtime.exceptionThrown', 'Log.entryAdded')]

    def asked(self):
        """What was loaded since the page was opened."""
        return [each['params']['request']['url'] for each in self.told if each.get('method') == 'Network.requestWillBeSent']
