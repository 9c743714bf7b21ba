"""A machine with a fault, which the checker has to find: planted.py FAULT, and then the words of persist_server.py.

    fence       whoever believes that he writes a store puts groups into its log
    early       a group is answered before it is in the log
    repeated    now and then a group is asked again under the next number, as if it was not known by its mark
"""
import os
import sys
import threading
from typing import Sequence

sys.path.insert(0, os.path.dirname(os.path.dirname(os.path.abspath(__file__))))
from persist import server  # noqa: E402
from persist.client import Reply  # noqa: E402
from persist.etcd import Key, put  # noqa: E402
from persist.etcd_log import EtcdLog, Group  # noqa: E402

PUT, ADD = EtcdLog._put, EtcdLog._add


def put_without_conditions(log: EtcdLog, number: int, data: bytes) -> None:
    """Puts a group whatever stands there, and whoever writes."""
    log._etcd.txn([], [put(log._keys.group(number), data)])


def believe(log: EtcdLog, key: 'Key | None' = None) -> None:
    """Takes no notice of who writes."""


def add_later(log: EtcdLog, group: Group, replies: Sequence[Reply]) -> None:
    """Answers, and puts the group into the log a while later."""
    number, data = log._size + 1, group.data()
    threading.Timer(0.1, PUT, (log, number, data)).start()
    log._note(number, group, replies)


def add_again(log: EtcdLog, group: Group, replies: Sequence[Reply]) -> None:
    """Puts every tenth group into the log twice."""
    ADD(log, group, replies)
    if log._size % 10 == 0:
        PUT(log, log._size + 1, group.data())
        log._size += 1
        log._groups.append([])


FAULTS = {'fence': {'_put': put_without_conditions, '_check_owner': believe, '_read_own_key': believe}, 'early': {'_add': add_later},
          'repeated': {'_add': add_again}}

if __name__ == '__main__':
    for name, work in FAULTS[sys.argv[1]].items():
        setattr(EtcdLog, name, work)
    sys.exit(server.main(sys.argv[2:]))
