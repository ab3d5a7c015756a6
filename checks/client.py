"""A client of a node: JSON-RPC 1.0 over TCP, as RFC 7047 section 4 has it, or over a Unix socket."""
import json
import re
import selectors
import socket
import struct
import time

from processes import PATIENCE

REST_OF_TEXT = rb'[^"\\]*(?:\\.[^"\\]*)*("?)'
TOKEN = re.compile(rb'[{}\[\]]|"' + REST_OF_TEXT, re.DOTALL)
TEXT = re.compile(REST_OF_TEXT, re.DOTALL)
PIECE = 1 << 18


class Refused(Exception):
    """A request was answered by an error."""


class Closed(Exception):
    """The peer closed the connection, or it broke."""


class Framer:
    """Cuts a stream into messages."""

    def __init__(self):
        self.rest = b""
        self.scanned = 0
        self.depth = 0
        self.is_in_text = False

    def feed(self, piece):
        """The messages that a further piece completes, decoded."""
        text = self.rest + piece
        begin, at, messages = 0, self._end_of_text(text), []
        for token in TOKEN.finditer(text, at) if not self.is_in_text else ():
            at = token.end()
            if text[token.start()] == 0x22:
                self.is_in_text = not token.group(1)
                continue
            self.depth += 1 if text[token.start()] in b"{[" else -1
            if self.depth == 0:
                messages.append(json.loads(text[begin:at]))
                begin = at
        self.rest, self.scanned = text[begin:], at - begin
        return messages

    def _end_of_text(self, text):
        """Where to look on: behind the text in whose middle the last piece ended, if it did."""
        if not self.is_in_text:
            return self.scanned
        found = TEXT.match(text, self.scanned)
        self.is_in_text = not found.group(1)
        return found.end()


class Session:
    """One connection with a node. What comes while a reply is awaited is kept: `notices` has the notifications."""

    def __init__(self, port, seconds=20.0, buffer=None, host="127.0.0.1", path=None):
        self.seconds = seconds * PATIENCE
        self.socket = socket.socket(socket.AF_UNIX if path else socket.AF_INET6 if ":" in host else socket.AF_INET)
        if buffer is not None:
            # How much the kernel keeps of what isn't read; it has to be said before the connection is made.
            self.socket.setsockopt(socket.SOL_SOCKET, socket.SO_RCVBUF, buffer)
        self.socket.settimeout(self.seconds)
        self.socket.connect(path or (host, port))
        if not path:
            self.socket.setsockopt(socket.IPPROTO_TCP, socket.TCP_NODELAY, 1)
        self.framer = Framer()
        self.inbox = []
        self.notices = []
        self.replies = {}
        self.number = 0

    def __enter__(self):
        return self

    def __exit__(self, *_):
        self.close()

    def close(self):
        self.socket.close()

    def reset(self):
        """Breaks the connection, so that the peer reads an error and no end."""
        self.socket.setsockopt(socket.SOL_SOCKET, socket.SO_LINGER, struct.pack("ii", 1, 0))
        self.socket.close()

    def send_bytes(self, text):
        try:
            self.socket.sendall(text)
        except (BrokenPipeError, ConnectionResetError) as fault:
            raise Closed(str(fault)) from fault

    def send(self, message):
        self.send_bytes(json.dumps(message).encode())

    def request(self, method, *params):
        """Sends a request and gives its id."""
        self.number += 1
        self.send({"id": self.number, "method": method, "params": list(params)})
        return self.number

    def read_piece(self):
        """Reads once, and keeps the messages that are whole."""
        try:
            piece = self.socket.recv(PIECE)
        except (ConnectionResetError, BrokenPipeError) as fault:
            raise Closed(str(fault)) from fault
        if not piece:
            raise Closed("the peer closed the connection")
        self.inbox += self.framer.feed(piece)

    def receive(self, seconds=None):
        """The next message; TimeoutError where none comes in time."""
        until = time.monotonic() + (self.seconds if seconds is None else seconds)
        while not self.inbox:
            left = until - time.monotonic()
            if left <= 0:
                raise TimeoutError("no message came in time")
            self.socket.settimeout(left)
            try:
                self.read_piece()
            except socket.timeout as fault:
                raise TimeoutError("no message came in time") from fault
            finally:
                self.socket.settimeout(self.seconds)
        return self.inbox.pop(0)

    def hear(self, seconds=None):
        """Takes one message in: a reply, a notification, or a request, of which an echo is answered."""
        message = self.receive(seconds)
        if "method" not in message:
            self.replies[message["id"]] = message
        elif message.get("id") is None:
            self.notices.append((message["method"], message["params"]))
        elif message["method"] == "echo":
            self.send({"id": message["id"], "result": message["params"], "error": None})

    def reply(self, number, seconds=None):
        """The result that answers a request."""
        until = time.monotonic() + (self.seconds if seconds is None else seconds * PATIENCE)
        while number not in self.replies:
            self.hear(max(0.0, until - time.monotonic()))
        message = self.replies.pop(number)
        if message.get("error") is not None:
            raise Refused(message["error"])
        return message["result"]

    def ask(self, method, *params, seconds=None):
        return self.reply(self.request(method, *params), seconds)

    def notice(self, seconds=None):
        """The next notification, as its method and params."""
        until = time.monotonic() + (self.seconds if seconds is None else seconds * PATIENCE)
        while not self.notices:
            self.hear(max(0.0, until - time.monotonic()))
        return self.notices.pop(0)

    def is_quiet(self, seconds):
        """Whether nothing comes for so long."""
        try:
            self.hear(seconds)
        except TimeoutError:
            return not self.notices
        return False

    def is_closed(self, seconds):
        """Whether the peer ends the connection within the time; what comes before is kept."""
        until = time.monotonic() + seconds * PATIENCE
        while time.monotonic() < until:
            try:
                self.hear(max(0.01, until - time.monotonic()))
            except TimeoutError:
                return False
            except Closed:
                return True
        return False

    def transact(self, database, *operations, seconds=None):
        return self.ask("transact", database, *operations, seconds=seconds)


def refusal(session, method, *params):
    """The text with which a request is refused, or None."""
    try:
        session.ask(method, *params)
    except Refused as refused:
        error = refused.args[0]
        return error["error"] if isinstance(error, dict) else error
    return None


def hear_all(sessions, is_done, seconds):
    """Reads from all sessions, whichever has something, until `is_done(session)` holds of each. Answers those of which it doesn't."""
    until = time.monotonic() + seconds * PATIENCE
    waiting = {session for session in sessions if not is_done(session)}
    with selectors.DefaultSelector() as selector:
        for session in waiting:
            selector.register(session.socket, selectors.EVENT_READ, session)
        while waiting and time.monotonic() < until:
            for key, _ in selector.select(max(0.0, until - time.monotonic())):
                session = key.data
                session.read_piece()
                while session.inbox:
                    session.hear(0)
                if is_done(session) and session in waiting:
                    waiting.remove(session)
                    selector.unregister(session.socket)
    return waiting
