"""The servers that the checks stand on: a store and a proxy, or a ZooKeeper and a forwarder in their places."""

import ctypes
import os
import random
import selectors
import signal
import socket
import subprocess
import sys
import threading
import time

PR_SET_PDEATHSIG = 1


def die_with_parent():
    """Has the system end this process where its parent dies, however that comes."""
    ctypes.CDLL(None).prctl(PR_SET_PDEATHSIG, signal.SIGKILL)


def free_port():
    """A port that is free now, and that the system gives no connection of its own accord."""
    for port in random.sample(range(20000, 32000), 100):
        with socket.socket() as probe:
            try:
                probe.bind(("127.0.0.1", port))
                return port
            except OSError:
                pass
    raise RuntimeError("no port is free")


def wait_for_port(port, process, seconds=20):
    """Waits until something listens on a loopback port, as long as the process runs."""
    end = time.monotonic() + seconds
    while time.monotonic() < end:
        if process.poll() is not None:
            raise RuntimeError(f"{process.args} ended with status {process.returncode}")
        try:
            socket.create_connection(("127.0.0.1", port), timeout=1).close()
            return
        except OSError:
            time.sleep(0.05)
    raise RuntimeError(f"nothing listens on port {port} after {seconds} s")


class Process:
    """A process whose standard error is kept in a file."""

    def __init__(self, words, log):
        self.log = log
        with open(log, "ab") as stderr:
            self.process = subprocess.Popen(
                words, stdin=subprocess.DEVNULL, stdout=stderr, stderr=stderr, preexec_fn=die_with_parent
            )

    def kill(self):
        if self.process.poll() is None:
            self.process.kill()
        self.process.wait()

    def runs(self):
        return self.process.poll() is None

    def lines(self):
        with open(self.log, encoding="utf-8", errors="replace") as log:
            return log.read().splitlines()


class SecureKeeper:
    """A store and a proxy before it, on free loopback ports."""

    sealed = True

    def __init__(self, program, scratch):
        self.program = program
        self.key = os.path.join(scratch, "key")
        self.counter_key = os.path.join(scratch, "counterkey")
        self.boot = 0
        secret = os.urandom(64)
        self.write(self.key, secret)
        self.write(self.counter_key, secret[:16] + secret[32:])
        self.proxy_log = os.path.join(scratch, "proxy.log")
        store_port = free_port()
        self.store_address = f"127.0.0.1:{store_port}"
        self.store = Process([program, "store", self.counter_key, self.store_address], os.path.join(scratch, "store.log"))
        self.proxy = None
        try:
            wait_for_port(store_port, self.store.process)
            self.port = free_port()
            self.address = f"127.0.0.1:{self.port}"
            self.start_proxy()
        except BaseException:
            self.end()
            raise

    @staticmethod
    def write(name, secret):
        with open(os.open(name, os.O_WRONLY | os.O_CREAT | os.O_EXCL, 0o600), "wb") as file:
            file.write(secret)

    def start_proxy(self):
        """Starts the proxy, each time with the next boot."""
        self.boot += 1
        words = [self.program, "proxy", self.key, str(self.boot), self.address, self.store_address]
        self.proxy = Process(words, self.proxy_log)
        wait_for_port(self.port, self.proxy.process)

    def kill_proxy(self):
        self.proxy.kill()

    def processes(self):
        return [self.proxy, self.store]

    def faults(self):
        """What is wrong with the servers now, in words."""
        return [name for name, server in (("store", self.store), ("proxy", self.proxy)) if not server.runs()]

    def end(self):
        for server in (self.proxy, self.store):
            if server is not None:
                server.kill()


class Plain:
    """A ZooKeeper that runs already, and a forwarder before it."""

    sealed = False

    def __init__(self, address, scratch):
        self.store_address = address
        self.log = os.path.join(scratch, "proxy.log")
        self.port = free_port()
        self.address = f"127.0.0.1:{self.port}"
        self.proxy = None
        self.start_proxy()

    def start_proxy(self):
        words = [sys.executable, "-B", __file__, str(self.port), self.store_address]
        self.proxy = Process(words, self.log)
        wait_for_port(self.port, self.proxy.process)

    def kill_proxy(self):
        self.proxy.kill()

    def processes(self):
        return [self.proxy]

    def faults(self):
        return [] if self.proxy.runs() else ["forwarder"]

    def end(self):
        self.proxy.kill()


def forward(client, address):
    """Moves bytes between a client and a server until one of them ends."""
    try:
        server = socket.create_connection(address)
        with client, server, selectors.DefaultSelector() as ready:
            client.setsockopt(socket.IPPROTO_TCP, socket.TCP_NODELAY, 1)
            server.setsockopt(socket.IPPROTO_TCP, socket.TCP_NODELAY, 1)
            ready.register(client, selectors.EVENT_READ, server)
            ready.register(server, selectors.EVENT_READ, client)
            while True:
                for key, _ in ready.select():
                    piece = key.fileobj.recv(65536)
                    if not piece:
                        return
                    key.data.sendall(piece)
    except OSError:
        pass


def forward_all(port, address):
    host, server_port = address.rsplit(":", 1)
    with socket.socket() as listener:
        listener.setsockopt(socket.SOL_SOCKET, socket.SO_REUSEADDR, 1)
        listener.bind(("127.0.0.1", port))
        listener.listen(128)
        while True:
            client, _ = listener.accept()
            threading.Thread(target=forward, args=(client, (host, int(server_port))), daemon=True).start()


if __name__ == "__main__":
    forward_all(int(sys.argv[1]), sys.argv[2])
