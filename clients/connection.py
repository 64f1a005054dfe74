"""A kept connection to the service, with requests one behind the other; the clients import it, and it does nothing alone."""
import functools
import re
import socket
from urllib.parse import urlsplit

HEAD = re.compile(rb"HTTP/1\.1 (\d{3}) [^\r\n]*\r\n((?:[^\r\n]+\r\n)*)\r\n")
END = b"\r\n\r\n"
MOST_HEAD = 65_536


class Lost(Exception):
    """The service can't be reached, or the connection ended before the reply that was due."""


@functools.lru_cache(maxsize=256)
def head_of(text):
    """The status, the fields and the length of the body that a head tells."""
    found = HEAD.fullmatch(text)
    if not found:
        raise Lost("what answers is no such service")
    fields = dict(line.split(b":", 1) for line in found[2].lower().splitlines() if b":" in line)
    fields = {name: value.strip() for name, value in fields.items()}
    status, length = int(found[1]), fields.get(b"content-length", b"0" if found[1] == b"100" else b"")
    if not length.isdigit():
        raise Lost("what answers is no such service")
    return status, fields, int(length)


class Reply:
    """A reply: its status, its fields by their small names, and its body."""

    def __init__(self, status, fields, body):
        self.status, self.fields, self.body = status, fields, body

    def closes(self):
        return self.fields.get(b"connection", b"").lower() == b"close"

    def message(self):
        """What a refusal says, as the service spells it."""
        found = re.search(rb'"message":"([^"]*)"', self.body)
        return f"{self.status} {found[1].decode(errors='replace')}" if found else f"status {self.status}"


class Connection:
    """Requests may be sent before the replies to earlier ones are read; replies come in the order of the requests."""

    def __init__(self, url, patience=60.0):
        parts = urlsplit(url if "://" in url else f"http://{url}")
        if parts.scheme not in ("http", "https") or not parts.hostname or parts.path not in ("", "/"):
            raise ValueError(f"{url} is no address of a service, as http://127.0.0.1:8080")
        self.host, self.secure = parts.netloc, parts.scheme == "https"
        self.address = (parts.hostname, parts.port or (443 if self.secure else 80))
        # Of what came, the bytes from here on are unread.
        self.patience, self.socket, self.held, self.at, self.sent = patience, None, b"", 0, 0

    def open(self):
        """A new connection, where there is none."""
        if self.socket:
            return
        try:
            self.socket = socket.create_connection(self.address, self.patience)
            if self.secure:
                import ssl  # Here alone: it takes as long to load as all else.
                self.socket = ssl.create_default_context().wrap_socket(self.socket, server_hostname=self.address[0])
            self.socket.setsockopt(socket.IPPROTO_TCP, socket.TCP_NODELAY, 1)
        except OSError as error:
            self.close()
            raise Lost(f"no connection to {self.address[0]}:{self.address[1]}: {error}")
        self.held, self.at, self.sent = b"", 0, 0

    def close(self):
        if self.socket:
            self.socket.close()
        self.socket = None

    def head(self, method, path, fields=""):
        return f"{method} {path} HTTP/1.1\r\nhost: {self.host}\r\n{fields}\r\n".encode()

    def post(self, path, body, fields=""):
        return self.head("POST", path, f"content-type: application/json\r\ncontent-length: {len(body)}\r\n{fields}") + body

    def send(self, bytes, requests=1):
        self.open()
        try:
            self.socket.sendall(bytes)
        except OSError as error:
            raise Lost(f"the connection was lost: {error}")
        self.sent += requests

    def more(self):
        try:
            piece = self.socket.recv(1 << 18)
        except OSError as error:
            raise Lost(f"the connection was lost: {error}")
        if not piece:
            raise Lost("the service closed the connection")
        self.held, self.at = self.held[self.at:] + piece, 0

    def reply(self):
        """The next reply; one that asks for close is the last of its connection."""
        status = 100
        while status == 100:
            while (end := self.held.find(END, self.at)) < 0:
                if len(self.held) - self.at > MOST_HEAD:
                    raise Lost("what answers is no such service")
                self.more()
            end += len(END)
            status, fields, length = head_of(self.held[self.at:end])
            self.at = end
        while len(self.held) < self.at + length:
            self.more()
        found = Reply(status, fields, self.held[self.at:self.at + length])
        self.at += length
        if found.closes():
            self.close()
        return found

    def ask(self, bytes):
        """The reply to one request, over a new connection where the kept one was closed meanwhile."""
        fresh = self.socket is None
        try:
            self.send(bytes)
            return self.reply()
        except Lost:
            self.close()
            if fresh:
                raise
        self.send(bytes)
        return self.reply()
