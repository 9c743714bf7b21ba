"""Stores on three machines and three servers of etcd, under clients and faults; the history of calls and replies is checked then.

    python3 tools/tests/replicated.py [FAULTS [COMMANDS [SEED]]]

`.ci/replicated` says what is tried. It needs etcd, and for networks that are cut off the right to make them.
"""
import contextlib
import glob
import http.client
import os
import random
import signal
import statistics
import sys
import tempfile
import threading
import time
from typing import Any, Callable, Dict, Iterator, List, Optional, Sequence, Tuple

TOOLS = os.path.dirname(os.path.dirname(os.path.abspath(__file__)))
sys.path.insert(0, TOOLS)
from persist.client import program_path, written_by  # noqa: E402
from persist.etcd import Etcd, EtcdError  # noqa: E402
from persist.etcd_log import Keys, behind, group_of  # noqa: E402
from tests.cluster import TOKEN, Cluster, MachineServer, a_cluster, may_cut_off, missing  # noqa: E402
from tests.linearity import ANSWERED, NOT_BEGUN, UNKNOWN, Call, Record, dumps_of, faults_of, versions_in  # noqa: E402
from tests.serving import request  # noqa: E402

# What a version holds depends on all commands before it on its way, in their order.
PROGRAM = '''record Item 2 { val key: int; ptr next: Item; }
root sum: int;
root many: int;
root first: Item;
proc add(key: int) {
  var it: Item;
  sum = (sum * 31 + key) % 1000003;
  many = many + 1;
  it = new Item;
  it.key = key;
  if many % 8 != 1 {
    it.next = first;
  }
  first = it;
}
query now() {
  print sum;
  print many;
  print first.key;
}
'''
STORES = ('a', 'b', 'c')
# The library that lets a process have another clock.
FAKETIME = glob.glob('/usr/lib/*/faketime/libfaketimeMT.so.1')
CLIENTS = 8
LIMITS = ('lease=2', 'log_seconds=4', 'pass_seconds=4', 'image_commands=400', 'behind=2')


class Watcher(threading.Thread):
    """Reads the logs as they grow, so that what an image takes the place of is known too."""

    def __init__(self, cluster: Cluster) -> None:
        super().__init__(daemon=True)
        self._etcd = Etcd(cluster.endpoints)
        self.values: Dict[str, Dict[int, bytes]] = {store: {} for store in STORES}
        self.images = 0
        self.ended = threading.Event()

    def run(self) -> None:
        """Reads now and then."""
        while not self.ended.wait(0.2):
            with contextlib.suppress(EtcdError):
                self.look()

    def look(self) -> None:
        """Reads on."""
        for store, values in self.values.items():
            keys = Keys(store)
            for key in self._etcd.all(keys.group(len(values) + 1), behind(keys.groups)):
                values[keys.number(key.key)] = key.value

    def groups(self, store: str) -> Tuple[List[Tuple[int, Sequence[str]]], List[str]]:
        """The groups of a store, and those that were another thing at first."""
        self.look()
        keys, values = Keys(store), self.values[store]
        now = {keys.number(it.key): it.value for it in self._etcd.all(keys.groups, behind(keys.groups))}
        changed = [f'group {number} of the log was another one before' for number, value in now.items() if values.get(number) != value]
        base = self._etcd.get(keys.base)
        self.images += base is not None
        return [(number, group_of(now.get(number, value)).lines) for number, value in sorted(values.items())], changed


class Client(threading.Thread):
    """Sends commands and queries to the machines, and keeps what comes of them."""

    def __init__(self, run: 'Run', number: int) -> None:
        super().__init__(daemon=True)
        self.run_of, self.number = run, number
        self.random = random.Random(run.seed * 1000 + number)
        self.calls: Dict[str, List[Call]] = {store: [] for store in STORES}
        # For each store the newest version and the largest number that this client was told.
        self.newest, self.told = dict.fromkeys(STORES, 0), dict.fromkeys(STORES, 0)
        self.connection: Optional[http.client.HTTPConnection] = None
        self.count = self.sent = 0
        self.failed = ''

    def run(self) -> None:
        """Sends until the run is at its end."""
        try:
            while not self.run_of.over.is_set():
                self.step()
                self.run_of.pace(self)
        except Exception as error:
            self.failed = repr(error)
            raise

    def step(self) -> None:
        """One request, or the few that an open run takes."""
        store, chance = self.random.choice(STORES), self.random.random()
        if self.connection is None or self.random.random() < 0.02:
            self.go_to(self.random.choice(self.run_of.cluster.machines))
        if chance < 0.2:
            version = self.newest[store] - (self.random.randrange(3) if self.newest[store] > 3 else 0)
            self.send(store, [f'query {max(0, version)} now'])
        elif chance < 0.26:
            self.open_run(store)
        elif chance < 0.28:
            self.send(store, [f'run {self.newest[store] + self.random.randrange(1, 400)} add {self.key()}'])
        else:
            back = self.random.randrange(20) if self.newest[store] > 20 and self.random.random() < 0.1 else 0
            self.send(store, [f'run {self.newest[store] - back} add {self.key()}' for _ in range(self.random.choice((1, 1, 2, 4)))])

    def open_run(self, store: str) -> None:
        """A run in parts."""
        told = self.send(store, [f'open {self.newest[store]} add {self.key()}'])
        if told and told[0].startswith('run '):
            run = told[0].split()[1]
            if self.send(store, [f'call {run} add {self.key()}']):
                self.send(store, [f'close {run}'])

    def key(self) -> int:
        """A number that nobody sends twice."""
        self.count += 1
        return self.count * CLIENTS + self.number

    def go_to(self, machine: MachineServer) -> None:
        """Asks this machine from now on."""
        if self.connection is not None:
            self.connection.close()
        self.connection = http.client.HTTPConnection(machine.place.address, machine.port, timeout=4)

    def send(self, store: str, lines: List[str]) -> List[str]:
        """Sends lines, and notes what became of each; gives the replies."""
        assert self.connection
        after, start = self.told[store], time.monotonic()
        headers = {'Authorization': f'Bearer {TOKEN}', 'Persist-After': str(after)}
        status, replies, number, said = 0, [], 0, ''
        try:
            answer = request(self.connection, 'POST', f'/stores/{store}/commands', {'lines': lines, 'by': f'client {self.number}'}, headers)
            status, number = answer.status, int(answer.headers.get('Persist-Number', 0))
            replies, said = [str(it['text']) for it in answer.json.get('replies', ())], answer.text[:300]
        except (OSError, http.client.HTTPException, ValueError):
            self.go_to(self.random.choice(self.run_of.cluster.machines))
        end = time.monotonic()
        fates = [(ANSWERED, text) for text in replies] + [(NOT_BEGUN if status == 421 else UNKNOWN, '')] * (len(lines) - len(replies))
        self.calls[store] += [Call(line, start, end, fate, text, number, after) for line, (fate, text) in zip(lines, fates)]
        self.sent += len(lines)
        self.learn(store, replies, number, status, end, said)
        return replies

    def learn(self, store: str, replies: Sequence[str], number: int, status: int, end: float, said: str) -> None:
        """Knows what it was told."""
        if status not in (0, 200, 421, 503):
            self.failed = f'status {status}: {said}'
        self.told[store] = max(self.told[store], number)
        made = [version for version in map(versions_in, replies) if version is not None]
        self.newest[store] = max([self.newest[store], *made])
        if made:
            self.run_of.answered(store, end)
        if status != 200:
            time.sleep(0.05)
            if self.random.random() < 0.3:
                self.go_to(self.random.choice(self.run_of.cluster.machines))


class Run:
    """Clients, faults, and what is found."""

    def __init__(self, cluster: Cluster, faults: int, commands: int, seed: int, kinds: Optional[Sequence[str]] = None) -> None:
        self.cluster, self.faults, self.commands, self.seed, self.kinds = cluster, faults, commands, seed, kinds
        self.over = threading.Event()
        self.done: Dict[str, int] = {}
        self.takeovers: List[float] = []
        self._waiting: Dict[str, float] = {}
        self._lock = threading.Lock()
        self.clients = [Client(self, number) for number in range(CLIENTS)]
        self.watcher = Watcher(cluster)
        self.etcd = Etcd(cluster.endpoints)

    # Clients.

    def pace(self, client: Client) -> None:
        """Holds clients back that are ahead of the faults."""
        with self._lock:
            part = (sum(self.done.values()) + 1) / max(1, self.faults)
        while client.sent * CLIENTS > self.commands * min(1.0, part) + 400 and not self.over.is_set() and part < 1:
            time.sleep(0.01)
            with self._lock:
                part = (sum(self.done.values()) + 1) / max(1, self.faults)

    def answered(self, store: str, at: float) -> None:
        """Notes how long a store was not written behind a fault of its writer."""
        with self._lock:
            since = self._waiting.pop(store, None)
        if since is not None:
            self.takeovers.append(at - since)

    # Faults.

    def machine_faults(self) -> Dict[str, Callable[[random.Random], Any]]:
        """What may befall a machine."""
        found: Dict[str, Callable[[random.Random], Any]] = {'kill a machine': self.kill_machine, 'stop a machine': self.stop_machine,
                                                            'kill a process': self.kill_process}
        if FAKETIME:
            found['clocks apart'] = self.clocks_apart
        if self.cluster.apart:
            found.update({'cut a machine off': self.cut_machine, 'cut a machine off from etcd': self.cut_from_etcd})
        return {name: work for name, work in found.items() if self.kinds is None or name in self.kinds}

    def server_faults(self) -> Dict[str, Callable[[random.Random], Any]]:
        """What may befall a server of etcd."""
        found: Dict[str, Callable[[random.Random], Any]] = {'kill a server of etcd': self.kill_server, 'stop a server of etcd': self.stop_server}
        if self.cluster.apart:
            found['cut a server of etcd off'] = self.cut_server
        return {name: work for name, work in found.items() if self.kinds is None or name in self.kinds}

    def some_machine(self, chance: random.Random) -> MachineServer:
        """A machine, most times one that writes."""
        with contextlib.suppress(EtcdError):
            store = chance.choice(STORES)
            owner = self.etcd.get(Keys(store).owner, 2.0)
            for machine in self.cluster.machines:
                if owner and machine.url.encode() in owner.value and chance.random() < 0.8:
                    with self._lock:
                        self._waiting[store] = time.monotonic()
                    return machine
        return chance.choice(self.cluster.machines)

    def kill_machine(self, chance: random.Random) -> None:
        machine = self.some_machine(chance)
        machine.kill()
        time.sleep(chance.choice((0.0, 0.5, 3.5)))
        machine.start()
        machine.wait()

    def clocks_apart(self, chance: random.Random) -> None:
        machine = self.some_machine(chance)
        machine.kill()
        pace = chance.choice(('x0.4', 'x0.7', 'x1.5', 'x3'))
        # Not by the command `faketime`, which lives on when what it starts is killed, and the other way round.
        machine.start(['env', f'LD_PRELOAD={FAKETIME[0]}', f'FAKETIME={chance.choice("+-")}{chance.randrange(1, 500)}d {pace}'])
        machine.wait()

    def stop_machine(self, chance: random.Random) -> None:
        machine = self.some_machine(chance)
        machine.signal(signal.SIGSTOP)
        time.sleep(chance.choice((0.3, 1.0, 2.5, 4.5)))
        machine.signal(signal.SIGCONT)

    def kill_process(self, chance: random.Random) -> None:
        machine = self.some_machine(chance)
        assert machine.process
        with open(f'/proc/{machine.process.pid}/task/{machine.process.pid}/children') as file:
            children = [int(it) for it in file.read().split()]
        if not children:
            # Those that its threads started.
            children = [int(pid) for pid in os.listdir('/proc') if pid.isdigit() and parent_of(int(pid)) == machine.process.pid]
        for child in chance.sample(children, min(2, len(children))):
            with contextlib.suppress(ProcessLookupError):
                os.kill(child, signal.SIGKILL)

    def cut_machine(self, chance: random.Random) -> None:
        machine = self.some_machine(chance)
        machine.place.cut(True)
        time.sleep(chance.choice((0.5, 2.0, 4.0)))
        machine.place.cut(False)

    def cut_from_etcd(self, chance: random.Random) -> None:
        machine = self.some_machine(chance)
        places = [it.place for it in self.cluster.servers]
        machine.place.cut_from(places, True)
        time.sleep(chance.choice((1.0, 3.0, 5.0)))
        machine.place.cut_from(places, False)

    def kill_server(self, chance: random.Random) -> None:
        server = chance.choice(self.cluster.servers)
        server.kill()
        time.sleep(chance.choice((0.0, 1.0, 2.0)))
        server.start()

    def stop_server(self, chance: random.Random) -> None:
        server = chance.choice(self.cluster.servers)
        server.signal(signal.SIGSTOP)
        time.sleep(chance.choice((0.5, 1.5, 3.0)))
        server.signal(signal.SIGCONT)

    def cut_server(self, chance: random.Random) -> None:
        server = chance.choice(self.cluster.servers)
        server.place.cut(True)
        time.sleep(chance.choice((0.5, 1.5, 3.0)))
        server.place.cut(False)

    def trouble(self, faults: Dict[str, Callable[[random.Random], Any]], seed: int) -> None:
        """One fault behind the other, until there were enough."""
        chance = random.Random(seed)
        while faults:
            with self._lock:
                if sum(self.done.values()) >= self.faults:
                    return
                name = chance.choice(sorted(faults))
                self.done[name] = self.done.get(name, 0) + 1
            try:
                faults[name](chance)
            except Exception as error:
                self.clients[0].failed = f'{name}: {error!r}'
                return
            if sum(self.done.values()) % 25 == 0:
                print(f'{sum(self.done.values())} faults, {sum(it.sent for it in self.clients):,} commands', file=sys.stderr, flush=True)
            time.sleep(chance.choice((0.1, 0.5, 1.5)))

    # The run.

    def go(self) -> None:
        """Makes the stores, and runs until there were enough faults and commands."""
        for store in STORES:
            answer = self.cluster.machines[0].ask('PUT', f'/stores/{store}', PROGRAM)
            if answer.status != 201:
                raise AssertionError(answer.text)
        troubles = [threading.Thread(target=self.trouble, args=(faults, self.seed + at), daemon=True)
                    for at, faults in enumerate((self.machine_faults(), self.server_faults()))]
        for thread in (self.watcher, *self.clients, *troubles):
            thread.start()
        for thread in troubles:
            thread.join()
        while sum(it.sent for it in self.clients) < self.commands and not any(it.failed for it in self.clients):
            time.sleep(0.1)
        time.sleep(1)
        self.over.set()
        for client in self.clients:
            client.join()
        self.watcher.ended.set()
        self.watcher.join()

    def found(self) -> List[str]:
        """What is wrong."""
        faults = [f'a client or a fault ended: {it.failed}' for it in self.clients if it.failed]
        for store in STORES:
            try:
                groups, changed = self.watcher.groups(store)
            except EtcdError as error:
                return [*faults, str(error)]
            faults += [f'{store}: {it}' for it in changed]
            calls = [call for client in self.clients for call in client.calls[store]]
            try:
                record = Record(PROGRAM, groups)
                faults += [f'{store}: {it}' for it in faults_of(record, calls, 'now')]
            except (AssertionError, ValueError, LookupError, StopIteration) as error:
                faults.append(f'{store}: the log can not be carried out: {error!r}')
                continue
            if not faults:
                faults += self.replicas_that_differ(store, record, groups[-1][0])
        return faults

    def replicas_that_differ(self, store: str, record: Record, last: int) -> List[str]:
        """Machines of which a version is another one than that of the log."""
        status, image = written_by(['pack'], f'{PROGRAM}%%\n{"".join(it.line + chr(10) for it in record.lines)}'.encode(), program_path())
        assert status == 0
        wanted = dumps_of(image, record.newest)
        self.versions = getattr(self, 'versions', 0) + len(wanted)
        found = []
        for machine in self.cluster.machines:
            answer = until_answered(machine, f'/stores/{store}/image', last)
            dumps = dumps_of(answer, record.newest)
            found += [f'{store}: version {version} of machine {machine.number} is another one' for version, (own, it) in enumerate(zip(wanted, dumps)) if own != it]
            if len(dumps) != len(wanted):
                found.append(f'{store}: machine {machine.number} has {len(dumps)} versions of {len(wanted)}')
        return found

    def told(self) -> str:
        """What was done, in lines."""
        calls = [call for client in self.clients for row in client.calls.values() for call in row]
        fates = {fate: sum(it.fate == fate for it in calls) for fate in (ANSWERED, UNKNOWN, NOT_BEGUN)}
        waits = sorted(it for it in self.takeovers)
        lines = [f'{sum(self.done.values())} faults: ' + ', '.join(f'{many} {name}' for name, many in sorted(self.done.items())),
                 f'{len(calls):,} commands and queries of {CLIENTS} clients: {fates[ANSWERED]:,} answered, {fates[UNKNOWN]:,} in doubt, '
                 f'{fates[NOT_BEGUN]:,} not begun; {self.watcher.images} of {len(STORES)} stores have an image']
        if waits:
            lines.append(f'behind {len(waits)} faults of a writer the next change was answered after {statistics.median(waits):.1f} s (median), '
                         f'{waits[int(len(waits) * 0.9)]:.1f} s (nine of ten), {waits[-1]:.1f} s (longest)')
        return '\n'.join(lines)


def parent_of(pid: int) -> int:
    """The parent of a process; 0 where it is gone."""
    with contextlib.suppress(OSError, ValueError, IndexError):
        with open(f'/proc/{pid}/stat') as file:
            return int(file.read().rpartition(')')[2].split()[1])
    return 0


def until_answered(machine: MachineServer, path: str, after: int, seconds: float = 90) -> bytes:
    """What a machine answers behind a number."""
    until = time.monotonic() + seconds
    while True:
        try:
            answer = machine.ask('GET', path, headers={'Persist-After': str(after)})
            if answer.status == 200:
                return answer.data
            said = answer.text
        except (OSError, http.client.HTTPException) as error:
            said = repr(error)
        if time.monotonic() > until:
            raise AssertionError(f'machine {machine.number}: {said}')
        time.sleep(0.2)


@contextlib.contextmanager
def a_run(faults: int, commands: int, seed: int, planted: str = '', kinds: Optional[Sequence[str]] = None) -> Iterator[Run]:
    """A run that has come to its end, with its machines."""
    with contextlib.ExitStack() as stack:
        # KEEP names a folder in which what the machines and servers say stays.
        folder = os.environ.get('KEEP') or stack.enter_context(tempfile.TemporaryDirectory(prefix='persist-machines-'))
        folder = os.path.join(folder, planted or 'run')
        os.makedirs(folder)
        with a_cluster(folder, apart=os.environ.get('APART') == '1', limits=LIMITS, planted=planted) as cluster:
            run = Run(cluster, faults, commands, seed, kinds)
            run.go()
            yield run


PLANTED = {'fence': ['stop a machine', 'cut a machine off from etcd'], 'early': ['kill a machine'], 'repeated': ['kill a process']}


def main(words: Sequence[str]) -> int:
    """Tries all; gives the status."""
    faults, commands, seed = (int(word) for word in (*words, *('16', '3000', '1')[len(words):]))
    begun = time.monotonic()
    with a_run(faults, commands, seed) as run:
        found = run.found()
        print(run.told())
        print(f'replicated: {getattr(run, "versions", 0):,} versions are the same on 3 machines, {len(found)} faults found, {time.monotonic() - begun:.0f} s')
        for it in found[:20]:
            print(f'  {it}')
    for planted, kinds in PLANTED.items():
        with a_run(8, 600, seed, planted, kinds) as run:
            # What ends a client is no proof of a fault.
            caught = [it for it in run.found() if not it.startswith('a client')]
            print(f'replicated: planted `{planted}`: {len(caught)} found, such as: {caught[0] if caught else "nothing"}')
            found += [] if caught else [planted]
    return 1 if found else 0


if __name__ == '__main__':
    if os.environ.get('APART') is None:
        why = missing()
        if why:
            print(f'replicated: skipped, {why}')
            sys.exit(0)
        if may_cut_off():
            os.environ['APART'] = '1'
            os.execvp('unshare', ['unshare', '-n', sys.executable, *sys.argv])
        print('replicated: no networks can be made here, so nothing is cut off')
        os.environ['APART'] = '0'
    sys.exit(main(sys.argv[1:]))
