"""How quickly the server answers: python3 tools/tests/server_load.py [SECONDS]

64 clients send a command, and the next one when the reply is there, for so many seconds each (3): a `run` each to one store, a query each
of one store, and runs spread over 200 stores; beside that one client, and the bare client, which has a process of its own and no disk, and
the journal, which has the disk and no HTTP. A row says how many commands came a second, and how long one took.
"""
import http.client
import json
import multiprocessing
import os
import statistics
import sys
import tempfile
import threading
import time

sys.path.insert(0, os.path.dirname(os.path.dirname(os.path.abspath(__file__))))
from persist.client import Session  # noqa: E402
from persist.journal import Journal  # noqa: E402
from tests.samples import LIST  # noqa: E402
from tests.serving import a_server  # noqa: E402


def over_http(host, port, stores, line, until, into):
    """Clients of one process, each on a thread: sends a line again and again."""
    times, threads = [], []

    def client(store):
        connection = http.client.HTTPConnection(host, port, timeout=60)
        body, path = json.dumps({'lines': [line]}), f'/stores/{store}/commands'
        while time.time() < until:
            begun = time.perf_counter()
            connection.request('POST', path, body, {'Content-Type': 'application/json'})
            answer = connection.getresponse()
            data = answer.read()
            times.append(time.perf_counter() - begun)
            assert answer.status == 200, data
        connection.close()
    for store in stores:
        threads.append(threading.Thread(target=client, args=(store,)))
        threads[-1].start()
    for thread in threads:
        thread.join()
    into.put(times)


def clients(server, stores, line, seconds, many):
    """All times of so many clients, in 4 processes."""
    into = multiprocessing.Queue()
    until = time.time() + seconds + 0.5
    shares = [[stores[at % len(stores)] for at in range(number, many, 4)] for number in range(min(4, many))]
    processes = [multiprocessing.Process(target=over_http, args=(server.host, server.port, share, line, until, into)) for share in shares]
    for process in processes:
        process.start()
    times = [one for _ in processes for one in into.get(timeout=60 + seconds)]
    for process in processes:
        process.join()
    return times


def bare(way, line, seconds):
    """The times of one client without a server."""
    times = []
    until = time.time() + seconds
    while time.time() < until:
        begun = time.perf_counter()
        way.command(line)
        times.append(time.perf_counter() - begun)
    return times


def row(name, times, seconds):
    """A row of the table."""
    times.sort()
    worst = times[min(len(times) - 1, len(times) * 99 // 100)]
    print(f'| {name} | {len(times) / seconds:,.0f} | {statistics.median(times) * 1e3:.2f} ms | {worst * 1e3:.1f} ms |', flush=True)


def main(seconds):
    """The table."""
    print('| who | commands a second | median | 99th of a hundred |\n|---|---|---|---|')
    with Session(LIST) as session:
        row('the bare client, `run`', bare(session, 'run 0 add 5', seconds), seconds)
        row('the bare client, `query`', bare(session, 'query 1 sum', seconds), seconds)
    with tempfile.TemporaryDirectory() as above, Journal.create(os.path.join(above, 'a'), LIST) as journal:
        row('the journal alone, `run`', bare(journal, 'run 0 add 5', seconds), seconds)
    with a_server() as server:
        names = [f's{number}' for number in range(200)]
        for name in names:
            assert server.ask('PUT', f'/stores/{name}', LIST).status == 201
        server.do('s0', 'run 0 add 5')
        row('1 client, 1 store, `run`', clients(server, ['s0'], 'run 0 add 5', seconds, 1), seconds)
        row('1 client, 1 store, `query`', clients(server, ['s0'], 'query 1 sum', seconds, 1), seconds)
        row('64 clients, 1 store, `run`', clients(server, ['s0'], 'run 0 add 5', seconds, 64), seconds)
        row('64 clients, 1 store, `query`', clients(server, ['s0'], 'query 1 sum', seconds, 64), seconds)
        row('200 clients, 200 stores, `run`', clients(server, names, 'run 0 add 5', seconds, 200), seconds)
        row('64 clients, 64 of 200 stores, `run`', clients(server, names, 'run 0 add 5', seconds, 64), seconds)


if __name__ == '__main__':
    main(float(sys.argv[1]) if len(sys.argv) > 1 else 3)
