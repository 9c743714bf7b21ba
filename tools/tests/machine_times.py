"""What stores on three machines take, with three servers of etcd on loopback: machine_times.py [PART..]

The parts are put, commands, takeover, join and stores. It prints the figures of docs/MEASUREMENTS.md.
"""
import concurrent.futures
import contextlib
import http.client
import json
import os
import statistics
import sys
import tempfile
import time
from typing import Callable, List, Sequence, Tuple

sys.path.insert(0, os.path.dirname(os.path.dirname(os.path.abspath(__file__))))
from persist.etcd import Etcd, put  # noqa: E402
from persist.etcd_log import Keys  # noqa: E402
from tests.cluster import TOKEN, Cluster, MachineServer, a_cluster  # noqa: E402
from tests.replicated import PROGRAM, until_answered  # noqa: E402
from tests.serving import request  # noqa: E402


def told(name: str, times: Sequence[float], commands: int, seconds: float) -> None:
    """Prints a row."""
    row = sorted(times)
    print(f'{name}: {commands / seconds:,.0f} a second; {statistics.median(row) * 1e3:.1f} ms (median), {row[int(len(row) * 0.99)] * 1e3:.1f} ms (99 of 100)', flush=True)


def at_once(clients: int, work: Callable[[int], List[float]]) -> Tuple[List[float], float]:
    """What clients take together: the times of all, and the seconds of the whole."""
    begun = time.perf_counter()
    with concurrent.futures.ThreadPoolExecutor(clients) as pool:
        times = [it for row in pool.map(work, range(clients)) for it in row]
    return times, time.perf_counter() - begun


def times_of(many: int, work: Callable[[int], object]) -> List[float]:
    """How long each of some calls takes."""
    times = []
    for count in range(many):
        begun = time.perf_counter()
        work(count)
        times.append(time.perf_counter() - begun)
    return times


def owner(cluster: Cluster, store: str) -> MachineServer:
    """The machine that writes a store."""
    etcd = Etcd(cluster.endpoints)
    found = etcd.get(Keys(store).owner)
    etcd.end()
    url = json.loads(found.value)['url'] if found else ''
    return next((it for it in cluster.machines if it.url == url), cluster.machines[0])


def puts(cluster: Cluster) -> None:
    """etcd's own writes."""
    for clients in (1, 8):
        etcd = Etcd(cluster.endpoints)
        times, seconds = at_once(clients, lambda client: times_of(500, lambda count: etcd.txn([], [put(b'put/%d' % client, b'x' * 100)])))
        told(f'etcd puts of 100 bytes, {clients} at once', times, len(times), seconds)
        etcd.end()


def send(machine: MachineServer, store: str, many: int, lines: int) -> List[float]:
    """The times of requests on one connection."""
    connection = http.client.HTTPConnection(machine.place.address, machine.port, timeout=60)

    def one(count: int) -> None:
        answer = request(connection, 'POST', f'/stores/{store}/commands', {'lines': [f'run 0 add {count}'] * lines}, {'Authorization': f'Bearer {TOKEN}'})
        if answer.status != 200:
            raise AssertionError(answer.text)
    try:
        return times_of(many, one)
    finally:
        connection.close()


def commands(cluster: Cluster) -> None:
    """Runs of one store."""
    cluster.machines[0].ask('PUT', '/stores/fast', PROGRAM)
    cluster.machines[0].do('fast', 'run 0 add 1')
    writer = owner(cluster, 'fast')
    other = next(it for it in cluster.machines if it is not writer)
    for clients, lines, many in ((1, 1, 500), (8, 1, 300), (32, 1, 100), (8, 32, 60), (8, 320, 15)):
        times, seconds = at_once(clients, lambda _: send(writer, 'fast', many, lines))
        told(f'{clients} clients of the writer, {lines} runs a request', times, len(times) * lines, seconds)
    times, seconds = at_once(8, lambda _: send(other, 'fast', 200, 1))
    told('8 clients of another machine, 1 run a request', times, len(times), seconds)
    number = int(writer.ask('GET', '/stores/fast/names').headers['Persist-Number'])
    waits = []
    for _ in range(200):
        answer = writer.ask('POST', '/stores/fast/commands', 'run 0 add 1\n')
        number = int(answer.headers['Persist-Number'])
        begun = time.perf_counter()
        other.ask('POST', '/stores/fast/commands', 'query 1 now\n', {'Persist-After': str(number)})
        waits.append(time.perf_counter() - begun)
    told('a query on another machine that names the number', waits, len(waits), sum(waits))


def takeover(cluster: Cluster) -> None:
    """How long a store is not written behind the end of its writer, with a lease of 5 s."""
    cluster.machines[0].ask('PUT', '/stores/moves', PROGRAM)
    cluster.machines[0].do('moves', 'run 0 add 1')
    for name in ('killed', 'ended by a signal'):
        times = []
        for _ in range(7):
            writer = owner(cluster, 'moves')
            other = next(it for it in cluster.machines if it is not writer)
            other.do('moves', 'query 1 now')
            time.sleep(1.0)
            begun = time.monotonic()
            if name == 'killed':
                writer.kill()
            else:
                writer.end()
                begun = time.monotonic()
            other.do('moves', 'run 0 add 2')
            times.append(time.monotonic() - begun)
            writer.start()
            writer.wait()
        print(f'a writer is {name}: the next run is answered after {min(times):.2f} to {max(times):.2f} s, median {statistics.median(times):.2f} s', flush=True)


def join(cluster: Cluster) -> None:
    """A machine comes to a store of 100,000 versions."""
    cluster.machines[0].ask('PUT', '/stores/large', PROGRAM)
    number = '0'
    begun = time.monotonic()
    for at in range(0, 100_000, 2_000):
        answer = cluster.machines[0].ask('POST', '/stores/large/commands', {'lines': [f'run {it} add {it}' for it in range(at, at + 2_000)]}, timeout=300)
        if answer.status != 200:
            raise AssertionError(answer.text)
        number = answer.headers['Persist-Number']
    print(f'100,000 versions were written in {time.monotonic() - begun:.1f} s', flush=True)
    time.sleep(5)
    etcd = Etcd(cluster.endpoints)
    base = etcd.get(Keys('large').base)
    print(f'the last image: {base.value.decode() if base else "none"}, the last group: {number}', flush=True)
    etcd.end()
    writer = owner(cluster, 'large')
    other = next(it for it in cluster.machines if it is not writer)
    times = []
    for _ in range(3):
        other.end()
        other.start()
        other.wait()
        begun = time.monotonic()
        until_answered(other, '/stores/large/versions?from=100000', int(number))
        history = time.monotonic() - begun
        said = other.do('large', 'query 100000 now')
        times.append((history, time.monotonic() - begun))
        assert said[0]['reply'] == 'answer', said
    print('it joins: the versions are told after ' + ', '.join(f'{it[0]:.1f}' for it in times) + ' s, a query of the newest one is answered after '
          + ', '.join(f'{it[1]:.1f}' for it in times) + ' s', flush=True)


def stores(cluster: Cluster) -> None:
    """A thousand stores on three machines."""
    names = [f's{count}' for count in range(1000)]

    def where() -> List[str]:
        etcd = Etcd(cluster.endpoints)
        found = [etcd.get(Keys(name).owner) for name in names]
        etcd.end()
        return [json.loads(it.value)['url'] if it else '' for it in found]

    def all_of_them(line: str, machines: Sequence[MachineServer]) -> None:
        with concurrent.futures.ThreadPoolExecutor(8) as pool:
            list(pool.map(lambda it: machines[it[0] % len(machines)].do(it[1], line), enumerate(names)))

    def many(urls: Sequence[str]) -> str:
        return ' '.join(str(urls.count(it.url)) for it in cluster.machines)
    begun = time.monotonic()
    with concurrent.futures.ThreadPoolExecutor(8) as pool:
        list(pool.map(lambda it: cluster.machines[it[0] % 3].ask('PUT', f'/stores/{it[1]}', PROGRAM), enumerate(names)))
    all_of_them('run 0 add 1', cluster.machines)
    first = where()
    print(f'1,000 stores, made and written in {time.monotonic() - begun:.0f} s, are spread {many(first)}', flush=True)
    all_of_them('run 1 add 2', cluster.machines)
    time.sleep(20)
    then = where()
    print(f'behind another run of each, and 20 s, {sum(a == b for a, b in zip(first, then)):,} are where they were', flush=True)
    begun = time.monotonic()
    cluster.machines[2].kill()
    all_of_them('run 2 add 3', cluster.machines[:2])
    last = where()
    moved = [a != b for a, b in zip(then, last)]
    print(f'one machine is killed: all 1,000 are written again after {time.monotonic() - begun:.1f} s, {sum(moved)} moved, of which '
          f'{sum(a == cluster.machines[2].url for a, it in zip(then, moved) if it)} were its own; they are spread {many(last)}', flush=True)


PARTS = {'put': puts, 'commands': commands, 'takeover': takeover, 'join': join, 'stores': stores}

if __name__ == '__main__':
    for part in sys.argv[1:] or PARTS:
        with tempfile.TemporaryDirectory(prefix='persist-times-') as top, contextlib.ExitStack() as stack:
            limits = ['open_stores=700', 'lease=5', 'processes=64', 'store_seconds=600']
            PARTS[part](stack.enter_context(a_cluster(top, limits=limits)))
