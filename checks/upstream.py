"""A stand-in of an upstream, which does what a check says, and what stands between a node and its upstream."""
import json
import selectors
import socket
import threading
import time

from client import Closed, Framer
from processes import free_port

PIECE = 1 << 16


class Connection:
    """One connection that a relay has made to the stand-in."""

    def __init__(self, upstream, connected):
        self.upstream, self.socket = upstream, connected
        self.framer, self.inbox = Framer(), []
        self.asked = None
        self.began = time.monotonic()

    def receive(self):
        """The next message of the relay, or Closed."""
        while not self.inbox:
            try:
                piece = self.socket.recv(PIECE)
            except OSError as fault:
                raise Closed(str(fault)) from fault
            if not piece:
                raise Closed("the relay closed the connection")
            self.inbox += self.framer.feed(piece)
        return self.inbox.pop(0)

    def send_bytes(self, text):
        try:
            self.socket.sendall(text)
        except OSError as fault:
            raise Closed(str(fault)) from fault

    def send(self, message):
        self.send_bytes(json.dumps(message).encode())

    def reply(self, number, result):
        self.send({"id": number, "result": result, "error": None})

    def begin(self, answer):
        """Answers what a relay asks first. Its monitor is answered by `answer(asked)`, a result."""
        message = self.receive()
        assert message["method"] == "get_schema", message
        self.reply(message["id"], self.upstream.schema)
        message = self.receive()
        assert message["method"] == "monitor_cond_since", message
        self.name, self.asked = message["params"][1], message["params"][3]
        self.upstream.asked.append(self.asked)
        self.reply(message["id"], answer(self.asked))

    def update3(self, commit, updates):
        self.send({"id": None, "method": "update3", "params": [self.name, commit, updates]})

    def wait_closed(self):
        """Reads until the relay closes the connection; gives what it said."""
        said = []
        while True:
            try:
                said.append(self.receive())
            except Closed:
                return said


class Upstream:
    """Listens at a port and gives each connection to the script of its number; the last script serves all further ones."""

    def __init__(self, schema, *scripts, port=None):
        self.schema, self.scripts = schema, scripts
        self.port = port or free_port()
        self.asked, self.connections, self.faults = [], [], []
        self.listener = socket.create_server(("127.0.0.1", self.port), backlog=64)
        threading.Thread(target=self._accept, daemon=True).start()

    def _accept(self):
        while True:
            try:
                connected, _ = self.listener.accept()
            except OSError:
                return
            connection = Connection(self, connected)
            script = self.scripts[min(len(self.connections), len(self.scripts) - 1)]
            self.connections.append(connection)
            threading.Thread(target=self._serve, args=(script, connection), daemon=True).start()

    def _serve(self, script, connection):
        try:
            script(connection)
        except Closed:
            pass
        except Exception as fault:  # pylint: disable=broad-except
            self.faults.append(fault)
        finally:
            connection.socket.close()

    def times(self):
        """When each connection was made."""
        return [connection.began for connection in self.connections]

    def close(self):
        # A shutdown wakes the thread that waits in `accept`; closing alone doesn't.
        for one in (self.listener, *(connection.socket for connection in self.connections)):
            try:
                one.shutdown(socket.SHUT_RDWR)
            except OSError:
                pass
            one.close()


def unknown(_asked):
    """The answer of an upstream to which an id says nothing, and which begins from nothing."""
    return [False, "00000000-0000-0000-0000-000000000000", {}]


def known(asked):
    return [True, asked, {}]


class Passage:
    """What lies between a node and its upstream: passes bytes both ways until it is shut, and again once it is opened."""

    def __init__(self, target):
        self.target, self.port = target, free_port()
        self.selector = selectors.DefaultSelector()
        self.listener = socket.create_server(("127.0.0.1", self.port), backlog=64)
        self.lock = threading.Lock()
        self.pairs, self.is_open, self.is_ended = {}, True, False
        self.selector.register(self.listener, selectors.EVENT_READ)
        self.thread = threading.Thread(target=self._run, daemon=True)
        self.thread.start()

    def _run(self):
        while not self.is_ended:
            for key, _ in self.selector.select(0.05):
                with self.lock:
                    self._enter() if key.fileobj is self.listener else self._move(key.fileobj)

    def _enter(self):
        near, _ = self.listener.accept()
        if not self.is_open:
            near.close()
            return
        try:
            far = socket.create_connection(("127.0.0.1", self.target), timeout=5)
        except OSError:
            near.close()
            return
        for one, other in ((near, far), (far, near)):
            self.pairs[one] = other
            self.selector.register(one, selectors.EVENT_READ)

    def _move(self, one):
        if one not in self.pairs:
            return
        try:
            piece = one.recv(PIECE)
            if piece:
                self.pairs[one].sendall(piece)
                return
        except OSError:
            pass
        self._part(one)

    def _part(self, one):
        for end in (one, self.pairs[one]):
            self.selector.unregister(end)
            end.close()
        del self.pairs[self.pairs[one]], self.pairs[one]

    def shut(self):
        """Cuts what is connected, and lets nothing in."""
        with self.lock:
            self.is_open = False
            while self.pairs:
                self._part(next(iter(self.pairs)))

    def open(self):
        with self.lock:
            self.is_open = True

    def close(self):
        self.is_ended = True
        self.thread.join()
        self.shut()
        self.listener.close()
        self.selector.close()
