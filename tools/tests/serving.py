"""A server for the tests, and how it is asked: by the standard library alone, so that whatever python runs the tests will do."""
import contextlib
import http.client
import json
import os
import shutil
import signal
import socket
import subprocess
import sys
import tempfile
import time
from typing import Any, Dict, Iterator, List, Optional, Tuple

from tests.samples import TOOLS


def python_with_aiohttp() -> Optional[str]:
    """A python that has aiohttp: this one, or that of the system."""
    for path in (sys.executable, '/usr/bin/python3', shutil.which('python3')):
        if path and os.access(path, os.X_OK):
            done = subprocess.run([path, '-c', 'import aiohttp'], stdout=subprocess.DEVNULL, stderr=subprocess.DEVNULL)
            if done.returncode == 0:
                return path
    return None


PYTHON = python_with_aiohttp()
MISSING = None if PYTHON else 'no python here has aiohttp: apt-get install python3-aiohttp'


class Answer:
    """What a server answered."""

    def __init__(self, status: int, headers: Dict[str, str], data: bytes) -> None:
        self.status, self.headers, self.data = status, headers, data

    @property
    def json(self) -> Any:
        """The value of the body."""
        return json.loads(self.data)

    @property
    def text(self) -> str:
        """The body as text."""
        return self.data.decode()


class Serving:
    """A process of the server."""

    def __init__(self, folder: str, *words: str, listen: str = '127.0.0.1:0', env: Optional[Dict[str, str]] = None, before: Optional[List[str]] = None) -> None:
        self.folder, self.words, self.listen, self.env, self.before = folder, words, listen, env, before or []
        self.errors = tempfile.TemporaryFile('w+')
        self.begin()

    def begin(self) -> None:
        """Starts it, and waits until it listens."""
        command = [*self.before, str(PYTHON), '-W', 'error', os.path.join(TOOLS, 'persist_server.py'), self.folder, '--listen', self.listen, *self.words]
        self.process = subprocess.Popen(command, stdout=subprocess.PIPE, stderr=self.errors, env={**os.environ, **(self.env or {})})
        assert self.process.stdout
        first = self.process.stdout.readline().decode()
        self.url = first.rpartition(' at ')[2].strip()
        if not self.url:
            self.process.wait()
            self.process.stdout.close()
            said = self.said()
            self.errors.close()
            raise OSError(said)
        if not self.url.startswith('unix:'):
            self.host, _, port = self.url[len('http://'):].rpartition(':')
            self.port = int(port)

    def said(self) -> str:
        """What it wrote on standard error."""
        self.errors.seek(0)
        return self.errors.read()

    def connect(self, timeout: float = 30) -> socket.socket:
        """A bare connection."""
        return socket.create_connection((self.host, self.port), timeout)

    def ask(self, method: str, path: str, body: Any = None, headers: Optional[Dict[str, str]] = None, timeout: float = 200) -> Answer:
        """A request on a connection of its own."""
        connection = http.client.HTTPConnection(self.host, self.port, timeout=timeout)
        try:
            return request(connection, method, path, body, headers)
        finally:
            connection.close()

    def do(self, store: str, *lines: str, **who: str) -> List[Any]:
        """The replies to commands, which all have to be answered."""
        answer = self.ask('POST', f'/stores/{store}/commands', {'lines': lines, **who})
        if answer.status != 200:
            raise AssertionError(f'{answer.status}: {answer.text}')
        return list(answer.json['replies'])

    def kill(self) -> None:
        """Kills the server, and nothing else."""
        self.process.kill()
        self._gone()

    def end(self) -> int:
        """Ends it as Ctrl-C does; gives its status."""
        if self.process.poll() is None:
            self.process.send_signal(signal.SIGTERM)
        try:
            self.process.wait(20)
        except subprocess.TimeoutExpired:
            self.process.kill()
            self.process.wait()
            raise AssertionError('the server does not end') from None
        finally:
            self._gone()
        return self.process.returncode

    def _gone(self) -> None:
        self.process.wait()
        assert self.process.stdout
        self.process.stdout.close()


def request(connection: http.client.HTTPConnection, method: str, path: str, body: Any = None, headers: Optional[Dict[str, str]] = None) -> Answer:
    """A request on a connection; a body that is no text or bytes is sent as JSON."""
    headers = dict(headers or {})
    if body is not None and not isinstance(body, (str, bytes)):
        body, headers = json.dumps(body), {'Content-Type': 'application/json', **headers}
    connection.request(method, path, body, headers)
    answer = connection.getresponse()
    return Answer(answer.status, dict(answer.getheaders()), answer.read())


@contextlib.contextmanager
def a_server(*words: str, folder: Optional[str] = None, **given: Any) -> Iterator[Serving]:
    """A server on a folder of its own."""
    with contextlib.ExitStack() as stack:
        folder = folder or os.path.join(stack.enter_context(tempfile.TemporaryDirectory(prefix='persist-server-')), 'stores')
        serving = Serving(folder, *words, **given)
        try:
            yield serving
        finally:
            with contextlib.suppress(AssertionError):
                serving.end()
            serving.errors.close()


def raw(serving: Serving, data: bytes, seconds: float = 10) -> Tuple[int, bytes]:
    """Sends bytes, and gives the status and what came until the connection ended or nothing came any more."""
    with serving.connect(seconds) as connection:
        with contextlib.suppress(OSError):
            connection.sendall(data)
        found = b''
        until = time.monotonic() + seconds
        with contextlib.suppress(OSError):
            while time.monotonic() < until:
                part = connection.recv(65536)
                if not part:
                    break
                found += part
        return (int(found.split(b' ')[1]) if found.startswith(b'HTTP/1.') else 0), found
