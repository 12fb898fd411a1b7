"""The checks: each is a function, has a client and a node of its own, and fails by an exception."""

import argparse
import logging
import os
import queue
import signal
import socket
import struct
import subprocess
import sys
import threading
import time
import traceback

from kazoo.client import KazooClient
from kazoo.exceptions import (
    AuthFailedError,
    BadArgumentsError,
    BadVersionError,
    InvalidACLError,
    MarshallingError,
    NoChildrenForEphemeralsError,
    NodeExistsError,
    NoNodeError,
    NotEmptyError,
    RolledBackError,
    RuntimeInconsistency,
    UnimplementedError,
)
from kazoo.protocol.states import EventType, KazooState
from kazoo.recipe.watchers import ChildrenWatch, DataWatch
from kazoo.retry import KazooRetry
from kazoo.security import make_acl, make_digest_acl

from servers import Plain, SecureKeeper, die_with_parent

CLI = "/usr/lib/zookeeper/bin/cli_mt"
SECONDS = 90
CHECKS = []


class Skip(Exception):
    """Why a check cannot be made here."""


class Here:
    """What a check works with: the servers, clients that are stopped at its end, and a node below which it may do what it likes."""

    def __init__(self, servers, base):
        self.servers = servers
        self.base = base
        self.clients = []
        self.processes = []

    def path(self, name):
        return f"{self.base}/{name}"

    def client(self, address=None, timeout=10.0, **more):
        """A client that is connected."""
        client = KazooClient(
            hosts=address or self.servers.address,
            timeout=timeout,
            connection_retry=KazooRetry(max_tries=-1, delay=0.05, max_delay=0.5),
            **more,
        )
        self.clients.append(client)
        client.start(timeout=20)
        return client

    def run(self, words, **more):
        """A process, with pipes to its standard input and output."""
        process = subprocess.Popen(
            words,
            stdin=subprocess.PIPE,
            stdout=subprocess.PIPE,
            stderr=subprocess.STDOUT,
            text=True,
            preexec_fn=die_with_parent,
            **more,
        )
        self.processes.append(process)
        return process

    def end(self):
        for process in self.processes:
            process.kill()
            process.wait()
            process.stdin.close()
            process.stdout.close()
        for client in self.clients:
            try:
                client.stop()
                client.close()
            except Exception:  # What a check left broken is its own failure.
                pass


def check(function):
    CHECKS.append(function)
    return function


def equal(got, wanted):
    if got != wanted:
        raise AssertionError(f"got {got!r}, wanted {wanted!r}")


def raises(kind, call, *words, **more):
    try:
        result = call(*words, **more)
    except kind as fault:
        if type(fault) is not kind:
            raise
        return
    raise AssertionError(f"got {result!r}, wanted {kind.__name__}")


def soon(what, holds, seconds=10.0):
    """Waits until something holds."""
    end = time.monotonic() + seconds
    while not holds():
        if time.monotonic() > end:
            raise AssertionError(f"not after {seconds} s: {what}")
        time.sleep(0.02)


def run_all(works):
    """Runs each in a thread of its own, and fails where one does."""
    faults = []

    def run(work):
        try:
            work()
        except BaseException as fault:
            faults.append(fault)

    threads = [threading.Thread(target=run, args=(work,), daemon=True) for work in works]
    for thread in threads:
        thread.start()
    for thread in threads:
        thread.join(SECONDS)
        if thread.is_alive():
            raise AssertionError("a thread does not end")
    if faults:
        raise faults[0]


# Nodes.


@check
def a_node_is_created_read_changed_and_deleted(here):
    client = here.client()
    node = here.path("node")
    equal(client.create(node, b"first"), node)
    content, stat = client.get(node)
    equal((content, stat.version, stat.data_length, stat.children_count), (b"first", 0, 5, 0))
    equal(client.set(node, b"second one").version, 1)
    content, stat = client.get(node)
    equal((content, stat.version, stat.data_length), (b"second one", 1, 10))
    if not stat.mzxid > stat.czxid:
        raise AssertionError(f"a change without a zxid of its own: {stat}")
    client.delete(node)
    equal(client.exists(node), None)


@check
def exists_tells_of_a_node_that_is_there(here):
    client = here.client()
    equal(client.exists(here.path("none")), None)
    client.create(here.path("some"), b"12345678")
    stat = client.exists(here.path("some"))
    equal((stat.data_length, stat.version, stat.ephemeralOwner), (8, 0, 0))
    if abs(stat.created - time.time()) > 3600:
        raise AssertionError(f"a time far from now: {stat}")


@check
def children_are_listed(here):
    client = here.client()
    names = [f"child-{number}" for number in range(1000)]
    for answer in [client.create_async(here.path(name)) for name in names]:
        answer.get(timeout=30)
    equal(sorted(client.get_children(here.base)), sorted(names))
    listed, stat = client.get_children(here.base, include_data=True)
    equal((sorted(listed), stat.children_count), (sorted(names), 1000))
    raises(NoNodeError, client.get_children, here.path("none"))


@check
def errors_are_those_of_zookeeper(here):
    client = here.client()
    node = here.path("node")
    client.create(node, b"")
    raises(NodeExistsError, client.create, node, b"")
    raises(NoNodeError, client.create, here.path("none/below"), b"")
    raises(NoNodeError, client.get, here.path("none"))
    raises(NoNodeError, client.set, here.path("none"), b"")
    raises(NoNodeError, client.delete, here.path("none"))
    raises(BadVersionError, client.set, node, b"", version=3)
    raises(BadVersionError, client.delete, node, version=3)
    client.create(f"{node}/below", b"")
    raises(NotEmptyError, client.delete, node)
    client.create(here.path("short"), b"", ephemeral=True)
    raises(NoChildrenForEphemeralsError, client.create, here.path("short/below"), b"")


@check
def names_and_contents_may_be_any(here):
    client = here.client()
    above = ["clé-🔑"] if here.servers.sealed else []  # A plain ZooKeeper refuses characters above U+FFFF.
    for name in ["x", "with space", "große Straße", "日本語", "n" * 200] + above:
        node = here.path(name)
        for content in (b"", bytes(range(256))):
            client.ensure_path(here.base)
            equal(client.create(node, content), node)
            equal(client.get(node)[0], content)
            equal(client.get_children(here.base), [name])
            client.delete(node)
    deep = here.path("/".join("abcdefghij"))
    client.ensure_path(deep)
    client.set(deep, b"deep")
    equal(client.get(deep)[0], b"deep")
    client.delete(here.path("a"), recursive=True)
    equal(client.get_children(here.base), [])


@check
def sequential_nodes_are_numbered(here):
    client = here.client()
    made = [client.create(here.path("n-"), str(number).encode(), sequence=True) for number in range(12)]
    equal(made, [here.path(f"n-{number:010}") for number in range(12)])
    for number, node in enumerate(made):
        equal(client.get(node)[0], str(number).encode())
    client.delete(made[11])
    equal(client.create(here.path("m-"), b"next", sequence=True), here.path("m-0000000012"))
    client.set(made[3], b"changed")
    equal(client.get(made[3])[0], b"changed")


@check
def ephemeral_nodes_go_with_their_session(here):
    one, other = here.client(), here.client()
    plain = one.create(here.path("plain"), b"1", ephemeral=True)
    numbered = one.create(here.path("numbered-"), b"2", ephemeral=True, sequence=True)
    equal(numbered, here.path("numbered-0000000001"))
    equal(other.get(plain)[1].ephemeralOwner, one.client_id[0])
    gone = threading.Event()
    other.exists(numbered, watch=lambda event: gone.set())
    one.stop()
    if not gone.wait(10):
        raise AssertionError("the end of a session deleted no ephemeral node")
    soon("no node is left", lambda: other.get_children(here.base) == [])


@check
def a_killed_client_loses_its_ephemeral_nodes_after_its_timeout(here):
    source = (
        "import sys, time\n"
        "from kazoo.client import KazooClient\n"
        "client = KazooClient(hosts=sys.argv[1], timeout=4.0)\n"
        "client.start()\n"
        "client.create(sys.argv[2], b'', ephemeral=True)\n"
        "print('ready', flush=True)\n"
        "time.sleep(600)\n"
    )
    client = here.client()
    client.create(here.path("lasting"), b"")
    node = here.path("short")
    process = here.run([sys.executable, "-c", source, here.servers.address, node])
    equal(process.stdout.readline(), "ready\n")
    gone = threading.Event()
    if client.exists(node, watch=lambda event: gone.set()) is None:
        raise AssertionError("no ephemeral node")
    process.send_signal(signal.SIGKILL)
    killed = time.monotonic()
    if not gone.wait(15):
        raise AssertionError("the ephemeral node of a killed client stays")
    waited = time.monotonic() - killed
    if waited < 1.5:
        raise AssertionError(f"it went after {waited:.1f} s, before its session's time was up")
    equal(client.get_children(here.base), ["lasting"])


# Watches.


@check
def a_data_watch_tells_once_of_a_change_and_of_a_deletion(here):
    client, other = here.client(), here.client()
    node = client.create(here.path("node"), b"1")
    events = queue.Queue()
    client.get(node, watch=events.put)
    other.set(node, b"2")
    other.set(node, b"3")
    event = events.get(timeout=10)
    equal((event.type, event.path), (EventType.CHANGED, node))
    client.get(node, watch=events.put)
    other.delete(node)
    event = events.get(timeout=10)
    equal((event.type, event.path), (EventType.DELETED, node))
    client.sync(here.base)
    equal(events.qsize(), 0)


@check
def an_exists_watch_tells_of_a_creation(here):
    client, other = here.client(), here.client()
    node = here.path("node")
    events = queue.Queue()
    equal(client.exists(node, watch=events.put), None)
    other.create(node, b"")
    event = events.get(timeout=10)
    equal((event.type, event.path), (EventType.CREATED, node))


@check
def a_child_watch_tells_of_children(here):
    client, other = here.client(), here.client()
    events = queue.Queue()
    equal(client.get_children(here.base, watch=events.put), [])
    other.create(here.path("node"), b"")
    event = events.get(timeout=10)
    equal((event.type, event.path), (EventType.CHILD, here.base))
    equal(client.get_children(here.base, watch=events.put), ["node"])
    other.set(here.path("node"), b"no matter")
    other.delete(here.path("node"))
    event = events.get(timeout=10)
    equal((event.type, event.path), (EventType.CHILD, here.base))
    equal(events.qsize(), 0)


@check
def watchers_of_kazoo_see_each_last_state(here):
    client, other = here.client(), here.client()
    node = here.path("node")
    contents, lists = [], []
    DataWatch(client, node, lambda content, stat: contents.append(content))
    ChildrenWatch(client, here.base, lambda names: lists.append(sorted(names)))
    other.create(node, b"0")
    soon("the creation is seen", lambda: contents[-1] == b"0" and lists[-1] == ["node"])
    for number in range(1, 50):
        other.set(node, str(number).encode())
    soon("the last content is seen", lambda: contents[-1] == b"49")
    other.delete(node)
    soon("the deletion is seen", lambda: contents[-1] is None and lists[-1] == [])


@check
def an_event_comes_soon(here):
    client, other = here.client(), here.client()
    node = client.create(here.path("node"), b"")
    took = []
    for number in range(100):
        seen = threading.Event()
        client.get(node, watch=lambda event: seen.set())
        begin = time.monotonic()
        answer = other.set_async(node, str(number).encode())
        if not seen.wait(10):
            raise AssertionError("no event")
        took.append(time.monotonic() - begin)
        answer.get(timeout=10)
    took.sort()
    median, last = took[50] * 1000, took[98] * 1000
    here.note = f"median {median:.1f} ms, 99th of 100 {last:.1f} ms"
    if median > 50:
        raise AssertionError(here.note)


# Transactions.


@check
def a_transaction_is_done_as_a_whole(here):
    client, other = here.client(), here.client()
    kept = client.create(here.path("kept"), b"1")
    gone = client.create(here.path("gone"), b"")
    events = queue.Queue()
    other.get(kept, watch=events.put)
    parts = client.transaction()
    parts.check(kept, 0)
    parts.create(here.path("new"), b"new")
    parts.create(here.path("n-"), b"numbered", sequence=True)
    parts.create(here.path("new/below"), b"", ephemeral=True)
    parts.set_data(kept, b"2")
    parts.delete(gone)
    results = parts.commit()
    equal(results[:4], [True, here.path("new"), here.path("n-0000000003"), here.path("new/below")])
    equal((results[4].version, results[4].data_length, results[5]), (1, 1, True))
    equal(events.get(timeout=10).type, EventType.CHANGED)
    equal(sorted(other.get_children(here.base)), ["kept", "n-0000000003", "new"])
    equal(other.get(here.path("n-0000000003"))[0], b"numbered")
    stats = [other.exists(here.path(name)) for name in ("new", "n-0000000003")]
    equal(stats[0].czxid, stats[1].czxid)


@check
def a_failed_transaction_leaves_nothing(here):
    client = here.client()
    kept = client.create(here.path("kept"), b"1")
    parts = client.transaction()
    parts.create(here.path("new"), b"")
    parts.set_data(kept, b"2")
    parts.check(kept, 7)
    parts.delete(kept)
    results = parts.commit()
    equal([type(result) for result in results], [RolledBackError, RolledBackError, BadVersionError, RuntimeInconsistency])
    equal(client.get_children(here.base), ["kept"])
    content, stat = client.get(kept)
    equal((content, stat.version), (b"1", 0))


# Recipes of kazoo.


@check
def a_lock_lets_one_in_at_a_time(here):
    inside, most, order = [], [], []

    def work(number):
        client = here.client()
        for _ in range(5):
            with client.Lock(here.path("lock"), f"client-{number}"):
                inside.append(number)
                most.append(len(inside))
                time.sleep(0.005)
                order.append(number)
                inside.remove(number)

    run_all([lambda number=number: work(number) for number in range(6)])
    equal((max(most), len(order)), (1, 30))
    client = here.client()
    lock = client.Lock(here.path("lock"), "last")
    equal(lock.contenders(), [])
    equal(lock.acquire(timeout=5), True)
    equal(here.client().Lock(here.path("lock"), "other").acquire(blocking=False), False)
    equal(lock.contenders(), ["last"])
    lock.release()


@check
def an_election_has_one_leader_at_a_time(here):
    led, most, inside = [], [], []

    def lead(number):
        inside.append(number)
        most.append(len(inside))
        time.sleep(0.02)
        led.append(number)
        inside.remove(number)

    def work(number):
        client = here.client()
        client.Election(here.path("election"), f"client-{number}").run(lead, number)

    run_all([lambda number=number: work(number) for number in range(6)])
    equal((sorted(led), max(most)), ([0, 1, 2, 3, 4, 5], 1))


@check
def a_queue_gives_each_entry_once(here):
    taken = []

    def produce():
        entries = here.client().Queue(here.path("queue"))
        for number in range(40):
            entries.put(str(number).encode())

    def consume():
        entries = here.client().Queue(here.path("queue"))
        while len(taken) < 40:
            entry = entries.get()
            if entry is None:
                time.sleep(0.01)
            else:
                taken.append(int(entry))

    run_all([produce, consume, consume])
    equal(sorted(taken), list(range(40)))
    entries = here.client().LockingQueue(here.path("locking"))
    entries.put_all([b"a", b"b"])
    equal(entries.get(timeout=10), b"a")
    equal(entries.consume(), True)
    equal(len(entries), 1)


@check
def a_counter_a_party_a_barrier_and_a_semaphore_work(here):
    def count():
        counter = here.client().Counter(here.path("counter"))
        for _ in range(10):
            counter += 1

    run_all([count, count, count])
    equal(here.client().Counter(here.path("counter")).value, 30)
    one, other = here.client(), here.client()
    party = one.Party(here.path("party"), "one")
    party.join()
    equal(list(other.Party(here.path("party"), "other")), ["one"])
    barrier = one.Barrier(here.path("barrier"))
    barrier.create()
    equal(other.Barrier(here.path("barrier")).wait(0.2), False)
    barrier.remove()
    equal(other.Barrier(here.path("barrier")).wait(5), True)
    semaphore = one.Semaphore(here.path("semaphore"), "one", max_leases=1)
    equal(semaphore.acquire(), True)
    equal(other.Semaphore(here.path("semaphore"), "other", max_leases=1).acquire(blocking=False), False)
    semaphore.release()


# Many, large and broken connections.


@check
def requests_under_way_are_answered_in_order(here):
    client = here.client()
    node = client.create(here.path("node"), b"")
    done = []
    answers = []
    for number in range(300):
        answers.append(client.set_async(node, str(number).encode()))
        answer = client.get_async(node)
        answer.rawlink(lambda answer, number=number: done.append((number, answer.value[0])))
        answers.append(answer)
    for answer in answers:
        answer.get(timeout=30)
    soon("all are told", lambda: len(done) == 300)
    equal(done, [(number, str(number).encode()) for number in range(300)])


@check
def a_payload_of_512_kib_comes_back(here):
    client = here.client()
    content = os.urandom(512 * 1024)
    node = client.create(here.path("large"), content)
    read, stat = here.client().get(node)
    equal((read == content, stat.data_length), (True, len(content)))
    client.set(node, content[::-1])
    equal(client.get(node)[0] == content[::-1], True)


@check
def twenty_clients_work_at_once(here):
    parent = here.client()

    def work(number):
        client = here.client()
        own = here.path(f"client-{number}")
        client.create(own, b"")
        for step in range(20):
            client.create(here.path("all-"), str(number).encode(), sequence=True)
            client.set(own, str(step).encode())
            equal(client.get(own)[0], str(step).encode())

    run_all([lambda number=number: work(number) for number in range(20)])
    names = parent.get_children(here.base)
    equal(len(names), 420)
    equal(sorted(name for name in names if name.startswith("all-"))[-1][:4], "all-")
    contents = [int(parent.get(here.path(name))[0]) for name in names if name.startswith("all-")]
    equal([contents.count(number) for number in range(20)], [20] * 20)


@check
def a_session_moves_to_a_new_connection(here):
    one = here.client()
    node = one.create(here.path("short"), b"", ephemeral=True)
    number = one.client_id
    other = here.client(client_id=number)
    equal(other.client_id, number)
    equal(other.exists(node).ephemeralOwner, number[0])
    bad = here.client(client_id=(number[0], b"\x01" * 16))
    if bad.client_id[0] == number[0]:
        raise AssertionError("a session moved with a wrong password")


@check
def sessions_outlive_a_proxy_that_is_killed(here):
    states = []
    client, other = here.client(), here.client()
    client.add_listener(states.append)
    number = client.client_id[0]
    node = client.create(here.path("short"), b"1", ephemeral=True)
    lasting = client.create(here.path("lasting"), b"1")
    contents = []
    DataWatch(other, lasting, lambda content, stat: contents.append(content))
    lock = client.Lock(here.path("lock"), "client")
    lock.acquire()
    here.servers.kill_proxy()
    soon("the loss is seen", lambda: KazooState.SUSPENDED in states)
    here.servers.start_proxy()
    soon("the connection is back", lambda: client.connected and other.connected, 20)
    equal((client.client_id[0], KazooState.LOST in states), (number, False))
    equal(client.retry(client.get, node)[0], b"1")
    equal(other.retry(other.exists, node).ephemeralOwner, number)
    client.retry(client.set, lasting, b"2")
    soon("the change is seen", lambda: contents[-1] == b"2")
    equal(lock.is_acquired, True)
    lock.release()


@check
def servers_that_were_stopped_for_a_moment_go_on(here):
    client, other = here.client(), here.client()
    node = client.create(here.path("short"), b"1", ephemeral=True)
    events = queue.Queue()
    other.get(node, watch=events.put)
    states = []
    client.add_listener(states.append)
    for server in here.servers.processes():
        server.process.send_signal(signal.SIGSTOP)
        answer = client.set_async(node, b"2")
        time.sleep(0.5)
        server.process.send_signal(signal.SIGCONT)
        answer.get(timeout=10)
    equal(events.get(timeout=10).type, EventType.CHANGED)
    equal((client.get(node)[1].ephemeralOwner, states), (client.client_id[0], []))


def session_on(line):
    """Begins a session on a socket."""
    line.sendall(struct.pack(">iiqiqi17x", 45, 0, 0, 10000, 0, 16))
    equal(line.recv(4), struct.pack(">i", 37))
    equal(len(line.recv(37, socket.MSG_WAITALL)), 37)


def get_frame(xid, path):
    body = struct.pack(">iii", xid, 4, len(path)) + path + b"\0"
    return struct.pack(">i", len(body)) + body


@check
def a_client_that_reads_nothing_holds_up_no_other(here):
    client = here.client()
    node = client.create(here.path("large"), os.urandom(256 * 1024))
    with socket.create_connection(("127.0.0.1", here.servers.port), timeout=10) as line:
        session_on(line)
        line.sendall(b"".join(get_frame(xid, node.encode()) for xid in range(1, 201)))
        time.sleep(0.5)
        took = []
        for number in range(50):
            begin = time.monotonic()
            client.create(here.path(str(number)), b"")
            took.append(time.monotonic() - begin)
    here.note = f"at most {max(took) * 1000:.0f} ms"
    if max(took) > 2:
        raise AssertionError(here.note)


# The C client.


class Cli:
    """The command line of the C client."""

    def __init__(self, here):
        if not os.access(CLI, os.X_OK):
            raise Skip(f"there is no {CLI}")
        self.process = here.run([CLI, "-h", here.servers.address])
        self.text = ""
        self.lock = threading.Lock()
        threading.Thread(target=self.read, daemon=True).start()
        self.wait("CONNECTED_STATE")

    def read(self):
        for line in self.process.stdout:
            with self.lock:
                self.text += line

    def wait(self, *wanted):
        """Waits until the texts came, in this order, since the last wait, and answers all that did."""
        found = []

        def came():
            with self.lock:
                text, place = self.text, 0
                for word in wanted:
                    place = text.find(word, place)
                    if place < 0:
                        return False
                    place += len(word)
                end = text.find("\n", place)
                if end < 0:
                    return False
                found.append(text[:end])
                self.text = text[end:]
                return True

        try:
            soon(f"{wanted} from {CLI}", came)
        except AssertionError as fault:
            raise AssertionError(f"{fault}; it printed {self.text!r}") from None
        return found[0]

    def do(self, command, *wanted):
        self.process.stdin.write(command + "\n")
        self.process.stdin.flush()
        return self.wait(*wanted)


@check
def the_c_client_reads_and_writes(here):
    client, cli = here.client(), Cli(here)
    node = here.path("node")
    cli.do(f"create {node}", "Creating", "rc = 0", f"name = {node}")
    equal(client.get(node)[0], b"new")
    cli.do(f"set {node} changed", "rc = 0", "version=1")
    equal(client.get(node)[0], b"changed")
    client.set(node, b"by kazoo")
    cli.do(f"get {node}", "rc = 0", "value_len = 8", "by kazoo", "version=2")
    cli.do(f"create +s {here.path('n-')}", "rc = 0", f"name = {here.path('n-0000000001')}")
    cli.do(f"create2 {here.path('two')}", "rc = 0", f"name = {here.path('two')}", "version=0")
    for word in ("ls", "ls2"):
        text = cli.do(f"{word} {here.base}", "rc = 0", "time = ")
        for name in ("node", "n-0000000001", "two"):
            if name not in text:
                raise AssertionError(f"no {name} in {text!r}")
    cli.do(f"sync {node}", "rc = 0")
    cli.do(f"delete {node}", "rc = 0")
    equal(client.exists(node), None)


@check
def the_c_client_is_told_what_it_watches_after_a_proxy_was_killed(here):
    client, cli = here.client(), Cli(here)
    new, changed, missed = here.path("new"), here.path("changed"), here.path("missed")
    for node in (changed, missed):
        client.create(node, b"")
    cli.do(f"wexists {new}", f"Error -101 for {new}")
    for node in (changed, missed):
        cli.do(f"get {node}", "rc = 0", "value_len = 0", "ephemeralOwner")
    here.servers.kill_proxy()
    soon("the loss is seen", lambda: not client.connected)
    here.servers.start_proxy()
    soon("kazoo is back", lambda: client.connected, 20)
    client.retry(client.set, missed, b"2")
    cli.wait("CHANGED_EVENT", missed)
    client.retry(client.create, new, b"")
    cli.wait("CREATED_EVENT", new)
    client.retry(client.set, changed, b"2")
    cli.wait("CHANGED_EVENT", changed)


# What the proxy does that a plain ZooKeeper does not.


def needs_proxy(here):
    if not here.servers.sealed:
        raise Skip("a plain ZooKeeper seals and refuses none of it")


@check
def what_is_refused_gets_its_error(here):
    needs_proxy(here)
    client = here.client()
    node = client.create(here.path("node"), b"")
    closed = [make_digest_acl("name", "word", all=True)]
    raises(InvalidACLError, client.create, here.path("closed"), b"", acl=closed)
    raises(InvalidACLError, client.set_acls, node, [make_acl("world", "anyone", read=True)])
    equal(client.get_acls(node)[0], [make_acl("world", "anyone", all=True)])
    client.set_acls(node, [make_acl("world", "anyone", all=True)])
    raises(BadArgumentsError, client.get, "/")
    raises(BadArgumentsError, client.set, "/", b"")
    raises(BadArgumentsError, client.create, "/bad\x01name", b"")
    raises(UnimplementedError, client.reconfig, "", "", "server.1=127.0.0.1:1:1;1")
    raises(AuthFailedError, here.client().add_auth, "digest", "name:word")
    equal(here.client().exists("/zookeeper"), None)


@check
def four_letter_words_get_no_answer(here):
    needs_proxy(here)
    for word in (b"ruok", b"stat"):
        with socket.create_connection(("127.0.0.1", here.servers.port), timeout=10) as line:
            line.sendall(word)
            equal(line.recv(100), b"")


@check
def the_store_gets_sealed_names_and_payloads(here):
    needs_proxy(here)
    client = here.client()
    node = client.create(here.path("secret-name"), b"secret content")
    equal(client.get(node)[0], b"secret content")
    store = here.client(address=here.servers.store_address)
    seen = []

    def walk(path):
        for name in store.get_children(path):
            below = f"{path.rstrip('/')}/{name}"
            seen.append((name, store.get(below)[0]))
            walk(below)

    walk("/")
    for name, content in seen:
        if set(name) - set("0123456789abcdef") or b"secret" in content or len(content) < 61:
            raise AssertionError(f"not sealed: {name} {content!r}")
    if len(seen) < 2:
        raise AssertionError(f"too few nodes: {seen}")


@check
def a_changed_payload_is_found(here):
    needs_proxy(here)
    client = here.client()
    store = here.client(address=here.servers.store_address)
    before = set(store.get_children("/"))
    node = client.create(f"{here.base}-changed", b"content")
    (name,) = set(store.get_children("/")) - before
    payload = store.get(f"/{name}")[0]
    store.set(f"/{name}", payload[:-1] + bytes([payload[-1] ^ 1]))
    raises(MarshallingError, client.get, node)
    soon("a finding", lambda: any(line.endswith("payload bad-tag") for line in here.servers.proxy.lines()))
    equal([line.split()[0] for line in here.servers.proxy.lines()[1:] if "bad-tag" in line], ["finding"])
    store.set(f"/{name}", payload)
    equal(client.get(node)[0], b"content")
    client.delete(node)


@check
def bytes_that_are_no_requests_end_their_connection_alone(here):
    client = here.client()
    node = client.create(here.path("node"), b"1")
    number = client.client_id[0]
    pieces = [b"\xff" * 64, struct.pack(">i", 4194304), struct.pack(">i", -1), b"\0\0\0\x01\0", os.urandom(4096)]
    for piece in pieces:
        with socket.create_connection(("127.0.0.1", here.servers.port), timeout=20) as line:
            line.sendall(piece)
            line.shutdown(socket.SHUT_WR)
            while line.recv(4096):
                pass
    equal((client.get(node)[0], client.client_id[0]), (b"1", number))


def give_up(number, frame):
    raise TimeoutError(f"not done after {SECONDS} s")


def run_check(function, servers):
    """Runs one check, and prints and answers how it ended."""
    name = function.__name__.replace("_", " ")
    here = Here(servers, f"/{function.__name__[:30]}-{os.getpid()}")
    here.note = ""
    begin = time.monotonic()
    signal.signal(signal.SIGALRM, give_up)
    signal.alarm(SECONDS)
    try:
        here.client().ensure_path(here.base)
        function(here)
        down = servers.faults()
        if down:
            raise AssertionError(f"not running any more: {down}")
        signal.alarm(0)
        end, more = "passed", here.note
    except Skip as reason:
        end, more = "skipped", str(reason)
    except Exception as fault:
        end, more = "failed", f"{type(fault).__name__}: {fault}"
        trace = traceback.format_exc()
    finally:
        signal.alarm(0)
        here.end()
    print(f"{end}: {name}{': ' if more else ''}{more} ({time.monotonic() - begin:.1f} s)", flush=True)
    if end == "failed":
        print(trace, flush=True)
    return end


def main():
    words = argparse.ArgumentParser()
    words.add_argument("--scratch", required=True)
    words.add_argument("--program")
    words.add_argument("--against")
    words.add_argument("only", nargs="*")
    words = words.parse_args()
    logging.basicConfig(filename=os.path.join(words.scratch, "kazoo.log"))
    signal.signal(signal.SIGTERM, lambda number, frame: sys.exit(1))
    ends = []
    servers = None
    try:
        if words.against:
            servers = Plain(words.against, words.scratch)
        else:
            servers = SecureKeeper(words.program, words.scratch)
        for function in CHECKS:
            if not words.only or function.__name__ in words.only:
                ends.append(run_check(function, servers))
    except Exception as fault:
        print(f"failed: the servers do not start: {fault}")
        ends.append("failed")
    finally:
        if servers is not None:
            if "failed" in ends:
                print("the last lines of the proxy:", *servers.proxy.lines()[-10:], sep="\n  ")
            servers.end()
    if "passed" not in ends and "failed" not in ends:
        ends.append("failed")
    print(f"clients: {ends.count('passed')} passed, {ends.count('failed')} failed, {ends.count('skipped')} skipped")
    sys.exit(0 if "failed" not in ends else 1)


if __name__ == "__main__":
    main()
