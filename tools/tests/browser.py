"""A browser for the tests: Chromium without a window, driven through chromedriver's own protocol, so that no library is needed."""
import base64
import contextlib
import json
import re
import shutil
import subprocess
import tempfile
import time
import urllib.error
import urllib.request
from typing import Any, Dict, Iterator, Optional

KEYS = {'Enter': '\ue007', 'Tab': '\ue004', 'Escape': '\ue00c', 'Up': '\ue013', 'Down': '\ue015', 'Left': '\ue012', 'Right': '\ue014', 'Home': '\ue011',
        'End': '\ue010', 'PageDown': '\ue00f', 'PageUp': '\ue00e', 'Shift': '\ue008', 'Blank': ' '}


def missing() -> Optional[str]:
    """What is not there to drive a browser, or None."""
    for words in (('chromium', 'chromium-browser', 'google-chrome'), ('chromedriver',)):
        if not any(map(shutil.which, words)):
            return f'there is no {words[0]}'
    return None


class Driver:
    """A chromedriver, and what is asked of it."""

    def __init__(self) -> None:
        self._folder = tempfile.TemporaryDirectory(prefix='persist-browser-')
        self._process = subprocess.Popen(['chromedriver', '--port=0'], stdout=subprocess.PIPE, stderr=subprocess.DEVNULL, start_new_session=True)
        assert self._process.stdout
        self._port = 0
        while not self._port:
            line = self._process.stdout.readline().decode()
            if not line:
                raise OSError('chromedriver does not begin')
            found = re.search(r'on port (\d+)\.', line)
            self._port = int(found[1]) if found else 0

    def ask(self, method: str, path: str, given: Optional[Dict[str, Any]] = None) -> Any:
        """A question of the protocol."""
        data = None if method == 'GET' else json.dumps(given or {}).encode()
        request = urllib.request.Request(f'http://127.0.0.1:{self._port}{path}', data, {'Content-Type': 'application/json'}, method=method)
        try:
            with urllib.request.urlopen(request, timeout=60) as answer:
                return json.load(answer)['value']
        except urllib.error.HTTPError as error:
            raise AssertionError(json.load(error)['value']['message'][:500]) from None

    def end(self) -> None:
        """Ends it, and the browsers that it began."""
        with contextlib.suppress(Exception):
            self.ask('GET', '/shutdown')
        try:
            self._process.wait(5)
        except subprocess.TimeoutExpired:
            self._process.kill()
            self._process.wait()
        assert self._process.stdout
        self._process.stdout.close()
        self._folder.cleanup()

    @contextlib.contextmanager
    def browser(self, url: str, width: int = 1280, height: int = 860, dark: bool = False) -> Iterator['Browser']:
        """A browser at an address."""
        words = ['--headless=new', '--no-sandbox', '--disable-gpu', '--disable-dev-shm-usage', f'--window-size={width},{height}', '--disable-extensions',
                 '--no-first-run', f'--user-data-dir={tempfile.mkdtemp(dir=self._folder.name)}']
        if dark:
            words.append('--force-dark-mode')
        wanted = {'browserName': 'chrome', 'goog:chromeOptions': {'args': words}, 'goog:loggingPrefs': {'browser': 'ALL'}}
        path = shutil.which('chromium') or shutil.which('chromium-browser')
        if path:
            wanted['goog:chromeOptions']['binary'] = path
        session = self.ask('POST', '/session', {'capabilities': {'alwaysMatch': wanted}})['sessionId']
        it = Browser(self, f'/session/{session}')
        try:
            it.size(width, height)
            if dark:
                it.dark()
            it.go(url)
            yield it
        finally:
            self.ask('DELETE', f'/session/{session}')


class Browser:
    """A browser with one page."""

    def __init__(self, driver: Driver, path: str) -> None:
        self._driver, self._path = driver, path

    def size(self, width: int, height: int) -> None:
        """Sets the size of what is seen."""
        self._driver.ask('POST', f'{self._path}/goog/cdp/execute', {'cmd': 'Emulation.setDeviceMetricsOverride', 'params': {
            'width': width, 'height': height, 'deviceScaleFactor': 1, 'mobile': False}})

    def dark(self) -> None:
        """Prefers dark colours."""
        self._driver.ask('POST', f'{self._path}/goog/cdp/execute', {'cmd': 'Emulation.setEmulatedMedia', 'params': {
            'features': [{'name': 'prefers-color-scheme', 'value': 'dark'}]}})

    def go(self, url: str) -> None:
        """Opens an address."""
        self._driver.ask('POST', f'{self._path}/url', {'url': url})

    def run(self, script: str, *given: Any) -> Any:
        """What a script of the page returns."""
        return self._driver.ask('POST', f'{self._path}/execute/sync', {'script': script, 'args': list(given)})

    def text(self, css: str) -> str:
        """The text of the first that a selector finds."""
        return str(self.run('const it = document.querySelector(arguments[0]); return it ? it.innerText : "";', css))

    def wait(self, script: str, *given: Any, seconds: float = 90) -> Any:
        """Waits until an expression is true, and gives it."""
        until = time.monotonic() + seconds
        while True:
            found = self.run(f'return {script}', *given)
            if found:
                return found
            if time.monotonic() > until:
                raise AssertionError(f'{script} does not come; the page says: {self.text("body")[:600]}')
            time.sleep(0.05)

    def wait_text(self, css: str, text: str, seconds: float = 90) -> None:
        """Waits until a text stands in what a selector finds."""
        self.wait('[...document.querySelectorAll(arguments[0])].some(it => it.innerText.includes(arguments[1]))', css, text, seconds=seconds)

    def keys(self, *keys: str) -> None:
        """Types on the keyboard: names of keys, or texts that are typed letter by letter."""
        actions = []
        for key in keys:
            for one in [KEYS[key]] if key in KEYS else key:
                actions += [{'type': 'keyDown', 'value': one}, {'type': 'keyUp', 'value': one}]
        self._driver.ask('POST', f'{self._path}/actions', {'actions': [{'type': 'key', 'id': 'keyboard', 'actions': actions}]})

    def faults(self) -> list:
        """What the page complained of on its console."""
        found = self._driver.ask('POST', f'{self._path}/se/log', {'type': 'browser'})
        return [it['message'] for it in found if it['level'] == 'SEVERE']

    def picture(self, path: str) -> None:
        """Keeps a picture of the page."""
        with open(path, 'wb') as file:
            file.write(base64.b64decode(self._driver.ask('GET', f'{self._path}/screenshot')))
