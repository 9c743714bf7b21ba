"""Servers of etcd and machines that share stores by them, for the tests: on loopback, or each in a network of its own.

Where the system allows it each server and each machine has a network namespace, and all of them hang on one bridge, so that any of them can be
cut off. All that is started here ends with this process.
"""
import contextlib
import http.client
import os
import shutil
import signal
import socket
import subprocess
import time
from concurrent.futures import ThreadPoolExecutor
from typing import Any, Dict, Iterator, List, Optional, Sequence, Tuple

from tests.samples import TOOLS
from tests.serving import PYTHON, Answer, request

TOKEN = 'a token of the tests'.replace(' ', '-')
SERVERS = MACHINES = 3


def missing() -> Optional[str]:
    """Why there are no machines here, or None."""
    if not shutil.which('etcd'):
        return 'there is no etcd: apt-get install etcd-server'
    return None if PYTHON else 'no python here has aiohttp: apt-get install python3-aiohttp'


def may_cut_off() -> bool:
    """Whether this process may make networks."""
    done = subprocess.run(['unshare', '-n', 'ip', 'link', 'add', 'v0', 'type', 'veth', 'peer', 'name', 'v1'], stderr=subprocess.DEVNULL)
    return done.returncode == 0


def free_port() -> int:
    """A port that nobody has now."""
    with socket.socket() as probe:
        probe.bind(('127.0.0.1', 0))
        return int(probe.getsockname()[1])


# Starts all processes: one that ends with its parent ends with the thread that started it, so this thread stays.
STARTER = ThreadPoolExecutor(1)


def end_with_parent() -> None:
    """Lets a process end when the thread ends that started it."""
    import ctypes
    ctypes.CDLL(None).prctl(1, signal.SIGKILL)


class Place:
    """Where a server or a machine runs: an address, and the words that lead into its network."""

    def __init__(self, number: int, apart: bool) -> None:
        self.number, self.apart = number, apart
        self.address = f'10.213.0.{number + 1}' if apart else '127.0.0.1'
        self.before: List[str] = []
        if apart:
            self._room = STARTER.submit(subprocess.Popen, ['unshare', '-n', 'sleep', '100000'], preexec_fn=end_with_parent).result()
            self.before = ['nsenter', '-t', str(self._room.pid), '-n']
            self._join()

    def _join(self) -> None:
        here, there = f'h{self.number}', f'n{self.number}'
        own = os.readlink('/proc/self/ns/net')
        while os.readlink(f'/proc/{self._room.pid}/ns/net') == own:
            time.sleep(0.01)
        ip('link', 'add', here, 'type', 'veth', 'peer', 'name', there)
        ip('link', 'set', there, 'netns', str(self._room.pid))
        ip('link', 'set', here, 'master', 'bridge0')
        ip('link', 'set', here, 'up')
        for words in (['addr', 'add', f'{self.address}/24', 'dev', there], ['link', 'set', there, 'up'], ['link', 'set', 'lo', 'up']):
            subprocess.run([*self.before, 'ip', *words], check=True)

    def cut(self, off: bool) -> None:
        """Cuts it off from all others, or no more."""
        ip('link', 'set', f'h{self.number}', 'down' if off else 'up')

    def cut_from(self, others: Sequence['Place'], off: bool) -> None:
        """Cuts it off from some, though the rest still reach it."""
        for it in others:
            words = [*self.before, 'ip', 'route', 'add' if off else 'del', 'blackhole', f'{it.address}/32']
            subprocess.run(words, check=True)

    def end(self) -> None:
        """Takes its network away."""
        if self.apart:
            self._room.kill()
            self._room.wait()
            ip('link', 'del', f'h{self.number}')


def ip(*words: str) -> None:
    """Changes the network."""
    subprocess.run(['ip', *words], check=True, stderr=subprocess.DEVNULL if words[:2] == ('link', 'del') else None)


class Process:
    """A process that may be killed, stopped and started again."""

    def __init__(self, place: Place, log: str) -> None:
        self.place, self.log = place, log
        self.process: Optional['subprocess.Popen[bytes]'] = None

    def words(self) -> List[str]:
        """The command."""
        raise NotImplementedError

    def start(self, before: Sequence[str] = ()) -> None:
        """Starts it."""
        with open(self.log, 'ab') as said:
            self.process = STARTER.submit(subprocess.Popen, [*self.place.before, *before, *self.words()], stdin=subprocess.DEVNULL, stdout=said, stderr=said,
                                          preexec_fn=end_with_parent, start_new_session=True).result()

    def signal(self, number: int) -> None:
        """Sends a signal to it alone."""
        assert self.process
        with contextlib.suppress(ProcessLookupError):
            os.kill(self.process.pid, number)

    def kill(self) -> None:
        """Kills it."""
        if self.process:
            self.process.kill()
            self.process.wait()

    def end(self) -> None:
        """Ends it as an operator does."""
        if self.process and self.process.poll() is None:
            self.process.terminate()
            try:
                self.process.wait(20)
            except subprocess.TimeoutExpired:
                self.kill()


class EtcdServer(Process):
    """A server of etcd."""

    def __init__(self, place: Place, folder: str, number: int) -> None:
        super().__init__(place, os.path.join(folder, f'etcd{number}.log'))
        self.folder, self.number = os.path.join(folder, f'etcd{number}'), number
        self.port, self.peer = (2379, 2380) if place.apart else (free_port(), free_port())
        self.others: List['EtcdServer'] = []

    @property
    def endpoint(self) -> str:
        """Where it is asked."""
        return f'{self.place.address}:{self.port}'

    def words(self) -> List[str]:
        """The command."""
        client, peer = f'http://{self.endpoint}', f'http://{self.place.address}:{self.peer}'
        all_of_them = ','.join(f'e{it.number}=http://{it.place.address}:{it.peer}' for it in self.others)
        return ['etcd', '--name', f'e{self.number}', '--data-dir', self.folder, '--listen-client-urls', client, '--advertise-client-urls', client,
                '--listen-peer-urls', peer, '--initial-advertise-peer-urls', peer, '--initial-cluster', all_of_them, '--initial-cluster-state', 'new',
                '--initial-cluster-token', 'tests', '--auto-compaction-mode', 'revision', '--auto-compaction-retention', '10000', '--log-level', 'error']


class MachineServer(Process):
    """A machine: a server of stores."""

    def __init__(self, place: Place, folder: str, number: int, endpoints: Sequence[str], limits: Sequence[str], planted: str = '') -> None:
        super().__init__(place, os.path.join(folder, f'machine{number}.log'))
        self.folder, self.number, self.endpoints, self.limits, self.planted = os.path.join(folder, f'machine{number}'), number, list(endpoints), limits, planted
        self.port = 8040 if place.apart else free_port()
        self.token = os.path.join(folder, f'token{number}')
        with open(os.open(self.token, os.O_WRONLY | os.O_CREAT, 0o600), 'w') as file:
            file.write(f'{TOKEN}\n')

    @property
    def url(self) -> str:
        """How others reach it."""
        return f'http://{self.place.address}:{self.port}'

    def words(self) -> List[str]:
        """The command."""
        # Each has another order of servers, so that not all of them ask one.
        servers = self.endpoints[self.number:] + self.endpoints[:self.number]
        program = os.path.join(TOOLS, 'persist_server.py')
        if self.planted:
            program = os.path.join(TOOLS, 'tests', 'planted.py')
        return [str(PYTHON), program, *([self.planted] if self.planted else []), self.folder, '--listen', f'{self.place.address}:{self.port}', '--token', self.token,
                '--log', 'etcd:' + ','.join(servers), *(word for limit in self.limits for word in ('--limit', limit))]

    def ask(self, method: str, path: str, body: Any = None, headers: Optional[Dict[str, str]] = None, timeout: float = 30) -> Answer:
        """A request on a connection of its own."""
        connection = http.client.HTTPConnection(self.place.address, self.port, timeout=timeout)
        try:
            return request(connection, method, path, body, {'Authorization': f'Bearer {TOKEN}', **(headers or {})})
        finally:
            connection.close()

    def do(self, store: str, *lines: str, **more: str) -> List[Any]:
        """The replies to commands, which all have to be answered."""
        answer = self.ask('POST', f'/stores/{store}/commands', {'lines': lines, **more})
        if answer.status != 200:
            raise AssertionError(f'{answer.status}: {answer.text}')
        return list(answer.json['replies'])

    def wait(self, seconds: float = 60) -> None:
        """Waits until it answers."""
        until = time.monotonic() + seconds
        while True:
            try:
                if self.ask('GET', '/stores', timeout=5).status == 200:
                    return
            except (OSError, http.client.HTTPException):
                pass
            if time.monotonic() > until or self.process is None or self.process.poll() is not None:
                with open(self.log) as said:
                    raise AssertionError(f'machine {self.number} does not answer: {said.read()[-1000:]}')
            time.sleep(0.1)


class Cluster:
    """Three servers of etcd and three machines."""

    def __init__(self, folder: str, apart: bool = False, limits: Sequence[str] = (), planted: str = '', machines: int = MACHINES) -> None:
        self.folder, self.apart = folder, apart
        self.places: List[Place] = []
        if apart:
            ip('link', 'set', 'lo', 'up')
            ip('link', 'add', 'bridge0', 'type', 'bridge')
            ip('addr', 'add', '10.213.0.254/24', 'dev', 'bridge0')
            ip('link', 'set', 'bridge0', 'up')
        self.places = [Place(number, apart) for number in range(SERVERS + machines)]
        self.servers = [EtcdServer(place, folder, number) for number, place in enumerate(self.places[:SERVERS])]
        for it in self.servers:
            it.others = self.servers
        endpoints = [it.endpoint for it in self.servers]
        self.machines = [MachineServer(place, folder, number, endpoints, limits, planted) for number, place in enumerate(self.places[SERVERS:])]

    @property
    def endpoints(self) -> List[Tuple[str, int]]:
        """Where etcd is asked."""
        return [(it.place.address, it.port) for it in self.servers]

    def start(self) -> None:
        """Starts all of them."""
        for server in self.servers:
            server.start()
        self.wait_for_etcd()
        for machine in self.machines:
            machine.start()
        for machine in self.machines:
            machine.wait()

    def wait_for_etcd(self) -> None:
        """Waits until etcd has a leader."""
        from persist.etcd import Etcd, EtcdError
        etcd = Etcd(self.endpoints)
        try:
            etcd.get(b'none', 90)
        except EtcdError as error:
            raise AssertionError(str(error)) from error
        finally:
            etcd.end()

    def end(self) -> None:
        """Ends all of them."""
        for process in (*self.machines, *self.servers):
            process.signal(signal.SIGCONT)
        for machine in self.machines:
            if machine.process and machine.process.poll() is None:
                machine.process.terminate()
        for machine in self.machines:
            machine.end()
        for server in self.servers:
            server.kill()
        for place in self.places:
            with contextlib.suppress(subprocess.CalledProcessError):
                place.end()
        if self.apart:
            ip('link', 'del', 'bridge0')


@contextlib.contextmanager
def a_cluster(folder: str, **given: Any) -> Iterator[Cluster]:
    """A cluster that runs."""
    cluster = Cluster(folder, **given)
    try:
        cluster.start()
        yield cluster
    finally:
        cluster.end()
