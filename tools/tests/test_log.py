"""The log of a store: the same tests over the folder and over etcd, and what only one of several machines has to show."""
import contextlib
import json
import os
import signal
import tempfile
import threading
import time
import unittest

from persist.client import Refused, Version, program_path
from persist.etcd import Etcd, created, delete, endpoints_of, get, put
from persist.etcd_log import PIECE, EtcdShelf, Keys, Machine, Shape, behind
from persist.journal import JournalError, Locked, NoStore
from persist.log import Began, FolderShelf, Heard, NotOwner, Trimmed, Who
from tests.cluster import Cluster, EtcdServer, Place, a_cluster, missing
from tests.samples import LIST

ANNA, BEN = Who('anna', 'a loaf'), Who('ben')


class LogCases:
    """What both engines do. `shelf` is one on which no store stands that another test made."""

    def test_what_is_appended_is_answered_and_read(self):
        log = self.made()
        log.own()
        _, begin = log.base()
        outcomes = log.append(['run 0 add 5', 'run 7 add 1', 'run 1 add 6'], [ANNA, BEN, BEN])
        self.assertEqual(outcomes, [Version(1), Refused('version'), Version(2)])
        middle = log.size
        self.assertEqual(log.append(['run 9 add 1'], [ANNA]), [Refused('version')])
        self.assertEqual(log.size, middle)
        self.assertEqual(log.append(['open 2 add 7'], [ANNA])[0].run, 3)
        self.assertEqual(log.read(begin), (['run 0 add 5', 'run 1 add 6', 'open 2 add 7'], log.size))
        self.assertEqual(log.read(middle), (['open 2 add 7'], log.size))
        self.assertEqual(log.read(log.size), ([], log.size))

    def test_what_is_told_of_it(self):
        log = self.made()
        log.own()
        self.assertIsInstance(log.news()[0], Began)
        log.append(['run 0 add 5'], [ANNA])
        log.name('draft', 1)
        heard, named = log.news()
        self.assertEqual((heard.line, heard.reply, heard.who, named.name, named.version), ('run 0 add 5', Version(1), ANNA, 'draft', 1))
        self.assertTrue(abs(heard.at - time.time()) < 60 and heard.place <= named.place == log.size)
        self.assertEqual(log.news(), [])

    def test_it_goes_on_where_it_ended(self):
        log = self.made()
        log.own()
        log.append(['run 0 add 5', 'open 1'], [ANNA, BEN])
        log.end()
        log.end()
        again = self.log()
        again.begin()
        self.assertEqual([(it.line, str(it.reply)) for it in again.news()[1:]], [('run 0 add 5', 'version 1'), ('open 1', 'run 2')])
        again.own()
        self.assertEqual(again.append(['run 1 add 6'], [ANNA]), [Version(2)])

    def test_one_alone_owns_it(self):
        log = self.made()
        log.own()
        log.own()
        other = self.log(1)
        with self.assertRaises((Locked, NotOwner)):
            other.begin()
            other.own()
        log.append(['run 0 add 5'], [ANNA])
        log.end()
        other = self.log(1)
        other.begin()
        other.own()
        self.assertEqual(other.append(['run 1 add 6'], [ANNA]), [Version(2)])

    def test_who_follows_is_woken(self):
        log = self.made()
        log.own()
        begin = log.size
        self.assertFalse(log.follow(begin, 0.1))
        work = threading.Timer(0.2, log.append, (['run 0 add 5'], [ANNA]))
        work.start()
        self.assertTrue(log.follow(begin, 20))
        work.join()
        self.assertGreater(log.size, begin)

    def test_a_store_is_made_once_and_has_its_program(self):
        log = self.made()
        self.assertTrue(self.shelf.has(self.name))
        self.assertFalse(self.shelf.has('none'))
        self.assertIn(self.name, self.shelf.names())
        self.assertTrue(self.shelf.is_of(self.name, '# A note.\n' + LIST))
        self.assertFalse(self.shelf.is_of(self.name, 'root a: int;'))
        log.end()
        with self.assertRaises(NoStore):
            self.shelf.create(self.name, 'root a: int;')

    def test_when_the_process_is_killed_nothing_answered_is_lost(self):
        log = self.made()
        log.own()
        log.append(['run 0 add 5'], [ANNA])
        for pid in self.children():
            os.kill(pid, signal.SIGKILL)
        with self.assertRaises(JournalError):
            outcome = log.append(['run 1 add 6'], [ANNA])[0]
            raise outcome
        with contextlib.suppress(JournalError):
            outcome = log.append(['run 1 add 6'], [ANNA])[0]
            self.assertIsInstance(outcome, JournalError)
        log.end()
        again = self.log()
        again.begin()
        self.assertEqual([it.line for it in again.news() if isinstance(it, Heard)], ['run 0 add 5'])

    # What they stand on.

    def made(self):
        """The log of a fresh store, which was begun."""
        self.shelf.create(self.name, LIST)
        log = self.log()
        log.begin()
        return log

    def children(self):
        """The processes that this one started, but those of etcd."""
        found = []
        for pid in filter(str.isdigit, os.listdir('/proc')):
            with contextlib.suppress(OSError):
                with open(f'/proc/{pid}/stat') as file:
                    name, _, rest = file.read().rpartition(')')
                if int(rest.split()[1]) == os.getpid() and 'persist' in name:
                    found.append(int(pid))
        return found


class InAFolder(LogCases, unittest.TestCase):
    name = 'book'

    def setUp(self):
        self.enter = contextlib.ExitStack()
        self.addCleanup(self.enter.close)
        self.shelf = FolderShelf(self.enter.enter_context(tempfile.TemporaryDirectory(prefix='persist-log-')), program_path())

    def log(self, machine=0):
        """A log of the store, as another process has it."""
        log = self.shelf.log(self.name)
        self.enter.callback(log.end)
        return log


class WithEtcd(unittest.TestCase):
    """Tests that share one server of etcd."""

    @classmethod
    def setUpClass(cls):
        if missing():
            raise unittest.SkipTest(missing())
        cls.stack = contextlib.ExitStack()
        folder = cls.stack.enter_context(tempfile.TemporaryDirectory(prefix='persist-etcd-'))
        server = EtcdServer(Place(0, False), folder, 0)
        server.others = [server]
        server.start()
        cls.stack.callback(server.kill)
        cls.endpoints = endpoints_of(server.endpoint)
        etcd = Etcd(cls.endpoints)
        etcd.get(b'none', 60)
        etcd.end()
        cls.count = 0

    @classmethod
    def tearDownClass(cls):
        cls.stack.close()

    def setUp(self):
        type(self).count += 1
        self.name = f'{type(self).__name__}-{self.count}'
        self.enter = contextlib.ExitStack()
        self.addCleanup(self.enter.close)
        self.shelves = [self.shelf_of(f'http://127.0.0.1:{number}') for number in (1, 2, 3)]
        self.shelf = self.shelves[0]

    def shelf_of(self, url, **shape):
        """The shelf of a machine."""
        shelf = EtcdShelf(Machine(Etcd(self.endpoints), url, 2), program_path(), Shape(**shape))
        self.enter.callback(shelf.end)
        return shelf

    def etcd(self):
        """A way to etcd of its own."""
        etcd = Etcd(self.endpoints)
        self.enter.callback(etcd.end)
        return etcd

    def log(self, machine=0):
        """A log of the store, as a machine has it."""
        log = self.shelves[machine].log(self.name)
        self.enter.callback(log.end)
        return log


class InEtcd(LogCases, WithEtcd):
    pass


class OnMachines(WithEtcd):
    made = LogCases.made

    def begun(self, machine):
        """A log that follows."""
        log = self.log(machine)
        log.begin()
        return log

    def test_followers_hear_the_same(self):
        log, other = self.made(), self.begun(1)
        log.own()
        log.news(), other.news()
        for count in range(20):
            log.append([f'run {count} add {count}'] * 3, [ANNA] * 3)
        log.name('here', 4)
        while other.size < log.size:
            self.assertTrue(other.follow(other.size, 10))
        self.assertEqual(other.news(), log.news())
        self.assertEqual(other.read(0), log.read(0))
        other.follow(other.size, 0.1)
        self.assertEqual(other.owner, 'http://127.0.0.1:1')

    def test_who_lost_the_store_answers_nothing(self):
        for line in ('run 1 add 6', 'run 9 add 6'):
            with self.subTest(line):
                self.setUp()
                log, etcd = self.made(), self.etcd()
                log.own()
                log.append(['run 0 add 5'], [ANNA])
                etcd.txn([], [delete(Keys(self.name).owner)])
                other = self.begun(1)
                other.own()
                self.assertEqual(other.append(['run 1 add 7'], [BEN]), [Version(2)])
                with self.assertRaises(NotOwner):
                    log.append([line], [ANNA])
                with self.assertRaises(NotOwner):
                    log.append([line], [ANNA])
                self.assertTrue(log.dead)
                other.look()
                self.assertEqual(other.read(0)[0], ['run 0 add 5', 'run 1 add 7'])

    def test_a_lease_that_is_not_renewed_is_lost(self):
        log = self.made()
        log.own()
        self.shelf.machine._ended.set()
        other = self.begun(1)
        with self.assertRaises(NotOwner) as caught:
            other.own()
        self.assertEqual(caught.exception.url, 'http://127.0.0.1:1')
        until = time.monotonic() + 30
        while not other.owned and time.monotonic() < until:
            with contextlib.suppress(NotOwner):
                other.own()
            time.sleep(0.1)
        self.assertEqual(other.append(['run 0 add 5'], [BEN]), [Version(1)])
        with self.assertRaises(NotOwner):
            log.append(['run 0 add 6'], [ANNA])

    def test_an_attempt_that_was_cut_off_is_known_by_its_mark(self):
        log = self.made()
        log.own()
        ask, cut = log._etcd._ask, []

        def cut_off(at, path, text, seconds):
            told = ask(at, path, text, seconds)
            if path == '/v3/kv/txn':
                cut.append(path)
                if len(cut) % 3:
                    raise OSError('cut off')
            return told
        log._etcd._ask = cut_off
        for count in range(5):
            self.assertEqual(log.append([f'run {count} add {count}'], [ANNA]), [Version(count + 1)])
        self.assertEqual(len(cut), 15)
        log._etcd._ask = ask
        other = self.begun(1)
        self.assertEqual(other.read(0), ([f'run {count} add {count}' for count in range(5)], 5))

    def test_images_shorten_the_log(self):
        self.shelves[0] = self.shelf = self.shelf_of('http://127.0.0.1:1', commands=60)
        log, old, etcd, keys = self.made(), self.begun(1), self.etcd(), Keys(self.name)
        log.own()
        numbers = []
        for count in range(300):
            log.append([f'run {count} add {count}'], [ANNA])
            if log.due:
                self.assertTrue(log.shorten(b'{"version":1,"parent":0,"by":"anna"}\n'))
                numbers.append(log.base()[1])
        self.assertGreater(len(numbers), 2)
        self.assertEqual(keys.number(etcd.all(keys.groups, behind(keys.groups))[0].key), numbers[-2] + 1)
        self.assertEqual(len({it.key.split(b'/')[3] for it in etcd.all(keys.images, behind(keys.images))}), 2)
        young = self.begun(2)
        self.assertEqual((young.base()[1], young.size), (numbers[-1], 300))
        self.assertEqual(young.news()[0].notes, b'{"version":1,"parent":0,"by":"anna"}\n')
        with self.assertRaises(Trimmed):
            young.read(numbers[-1] - 1)
        # One that is too far behind begins again.
        with self.assertRaises(Trimmed):
            old.look()
        log.end()
        young.own()
        self.assertEqual(young.append(['run 300 add 5', 'run 1 add 5'], [BEN, BEN]), [Version(301), Version(302)])

    def test_an_image_waits_for_open_runs(self):
        self.shelves[0] = self.shelf = self.shelf_of('http://127.0.0.1:1', commands=5)
        log = self.made()
        log.own()
        log.append([f'run {count} add {count}' for count in range(9)], [ANNA] * 9)
        log.append(['open 3 add 1'], [ANNA])
        log.append(['run 9 add 9'], [ANNA])
        self.assertTrue(log.shorten(b''))
        self.assertEqual(log.base()[1], 1)
        other = self.begun(1)
        log.end()
        other.own()
        self.assertEqual([str(it) for it in other.append(['close 10'], [ANNA])], ['version 11'])

    def test_large_images_are_in_pieces(self):
        log, etcd, keys = self.made(), self.etcd(), Keys(self.name)
        log.own()
        for begin in range(0, 6000, 500):
            log.append([f'run {count} add {count}' for count in range(begin, begin + 500)], [ANNA] * 500)
        self.assertTrue(log.shorten(b'x' * 3_000_000))
        pieces = etcd.all(keys.images, behind(keys.images), 1)
        self.assertGreaterEqual(len(pieces), 4)
        self.assertLessEqual(max(len(it.value) for it in pieces), PIECE)
        young = self.begun(1)
        self.assertEqual((young.base(), len(young.news()[0].notes)), (log.base(), 3_000_000))
        # One that is not whole is not taken.
        etcd.txn([], [put(pieces[1].key, b'')])
        with self.assertRaises(Trimmed):
            self.begun(2)

    def test_stores_are_spread_and_stay(self):
        names = [f'store-{count}' for count in range(1000)]
        self.shelf.machine.machines()
        first = {name: self.shelf.machine.preferred(name) for name in names}
        many = {url: list(first.values()).count(url) for url in set(first.values())}
        self.assertEqual(len(many), 3)
        self.assertTrue(all(270 < it < 400 for it in many.values()), many)
        self.shelves[2].end()
        time.sleep(1.1)
        then = {name: self.shelf.machine.preferred(name) for name in names}
        self.assertTrue(all(first[name] in (then[name], 'http://127.0.0.1:3') for name in names))
        self.assertEqual(len(set(then.values())), 2)

    def test_the_words_of_etcd(self):
        etcd = self.etcd()
        self.assertTrue(etcd.txn([created(b'x', 0)], [put(b'x', b'1')]).held)
        told = etcd.txn([created(b'x', 0)], [put(b'x', b'2')], [get(b'x')])
        self.assertEqual((told.held, told.found[0][0].value), (False, b'1'))
        for wrong in ('', 'a', 'a:b', 'a:1,', 'a:1 b:2'):
            with self.assertRaises(ValueError):
                endpoints_of(wrong)
        etcd.txn([], [delete(b'x')])


class Machines(unittest.TestCase):
    """Three machines as processes."""

    @classmethod
    def setUpClass(cls):
        if missing():
            raise unittest.SkipTest(missing())
        cls.stack = contextlib.ExitStack()
        folder = cls.stack.enter_context(tempfile.TemporaryDirectory(prefix='persist-machines-'))
        cls.cluster: Cluster = cls.stack.enter_context(a_cluster(folder, limits=['lease=2', 'store_seconds=60']))
        cls.etcd = Etcd(cls.cluster.endpoints)
        cls.stack.callback(cls.etcd.end)

    @classmethod
    def tearDownClass(cls):
        cls.stack.close()

    def owner(self, name):
        """The machine that writes a store."""
        url = json.loads(self.etcd.get(Keys(name).owner).value)['url']
        return next(it for it in self.cluster.machines if it.url == url)

    def test_any_machine_takes_commands_and_reads_what_was_written(self):
        first, second, third = self.cluster.machines
        self.assertEqual(first.ask('PUT', '/stores/any', LIST).status, 201)
        self.assertEqual(second.ask('PUT', '/stores/any', LIST).status, 200)
        self.assertEqual(second.ask('PUT', '/stores/any', 'root a: int;').status, 409)
        for count in range(30):
            writer, reader = self.cluster.machines[count % 3], self.cluster.machines[(count + 1) % 3]
            answer = writer.ask('POST', '/stores/any/commands', {'lines': [f'run {count} add 1', f'query {count + 1} sum'], 'by': 'anna', 'why': 'it is so'})
            self.assertEqual([it['text'] for it in answer.json['replies']], [f'version {count + 1}\n', f'| {count + 1}\nok\n'])
            number = answer.headers['Persist-Number']
            answer = reader.ask('POST', '/stores/any/commands', f'query {count + 1} sum\n', {'Persist-After': number})
            self.assertEqual(answer.json['replies'][0]['printed'], [str(count + 1)])
            self.assertGreaterEqual(int(answer.headers['Persist-Number']), int(number))
        self.assertEqual(second.ask('PUT', '/stores/any/names/draft', '7').status, 200)
        last = str(int(number) + 1)
        told = [it.ask('GET', '/stores/any/log/30?as=text', headers={'Persist-After': last}).text for it in self.cluster.machines]
        self.assertIn('version 7  (draft)  add 1  by anna', told[0])
        self.assertEqual(len(set(told)), 1)
        answer = third.ask('GET', f'/stores/any?after={int(last) + 1}')
        self.assertEqual((answer.status, 'has followed any up to' in answer.json['error']), (503, True))
        self.assertEqual(third.ask('GET', '/stores/any?after=x').status, 400)
        self.assertEqual(third.ask('POST', '/stores/none/commands', 'run 0 add 1').status, 404)

    def test_stores_move_when_a_machine_ends(self):
        names = [f'move-{count}' for count in range(12)]
        for count, name in enumerate(names):
            self.cluster.machines[count % 3].ask('PUT', f'/stores/{name}', LIST)
            self.cluster.machines[count % 3].do(name, 'run 0 add 5')
        before = {name: self.owner(name) for name in names}
        self.assertGreater(len({it.number for it in before.values()}), 1)
        ended = before[names[0]]
        rest = [it for it in self.cluster.machines if it is not ended]
        ended.kill()
        for count, name in enumerate(names):
            rest[count % 2].do(name, 'run 1 add 6')
        after = {name: self.owner(name) for name in names}
        self.assertNotIn(ended, after.values())
        self.assertTrue(all(after[name] is before[name] for name in names if before[name] is not ended))
        ended.start()
        ended.wait()
        for name in names:
            self.assertEqual(ended.do(name, 'run 2 add 7', 'query 3 sum')[1]['printed'], ['18'])
        self.assertEqual({name: self.owner(name).number for name in names}, {name: it.number for name, it in after.items()})
