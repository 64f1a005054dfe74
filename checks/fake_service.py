"""A small service that listens on a loopback port and misbehaves as it is told; the checks of the clients import it, and it
does nothing alone.

What it answers is the model's (service_model.py), over one history for all connections.
"""
import socket
import threading

import service_model
import wire_model


class Fake:
    """A service with one of these faults; requests are counted over all connections, from 1.

    most: so many requests are answered on a connection. replies: replies in place of those to requests of these numbers.
    drops: connections are closed in place of the replies to these. cuts: replies to these end in the middle.
    dies, restarts: at this request it closes all and listens no more, or begins anew without a history.
    building: so many publications are told to be under way. hurries: behind each batch it imports and publishes.
    garbage: it is no service at all. patience: a connection is closed where nothing came for so many seconds.
    """

    def __init__(self, most=1_000, replies=None, drops=(), cuts=(), dies=None, restarts=None, building=0, hurries=False,
                 garbage=False, patience=None, **settings):
        self.settings, self.most, self.replies, self.drops, self.cuts = settings, most, replies or {}, drops, cuts
        self.dies, self.restarts, self.building, self.hurries, self.garbage = dies, restarts, building, hurries, garbage
        self.service, self.lock, self.count, self.seen, self.open = service_model.Service(**settings), threading.Lock(), 0, [], set()
        self.patience, self.connections = patience, 0
        self.listener = socket.create_server(("127.0.0.1", 0))
        self.url = f"http://127.0.0.1:{self.listener.getsockname()[1]}"
        threading.Thread(target=self.listen, daemon=True).start()

    def __enter__(self):
        return self

    def __exit__(self, *_):
        self.stop()

    def stop(self):
        # A thread that waits for a connection keeps a listener that is only closed.
        try:
            self.listener.shutdown(socket.SHUT_RDWR)
        except OSError:
            pass
        self.listener.close()
        self.close_all()

    def close_all(self):
        for connection in list(self.open):
            connection.close()

    def listen(self):
        while True:
            try:
                connection, _ = self.listener.accept()
            except OSError:
                return
            self.connections += 1
            connection.settimeout(self.patience)
            self.open.add(connection)
            threading.Thread(target=self.serve, args=[connection], daemon=True).start()

    def serve(self, connection):
        try:
            with connection:
                self.answer_all(connection)
        except OSError:
            pass
        self.open.discard(connection)

    def answer_all(self, connection):
        if self.garbage:
            connection.recv(1 << 16)
            connection.sendall(b"220 mail.example ready\r\n" * 5_000)
            return
        text = b""
        for number in range(1, self.most + 1):
            while True:
                try:
                    settings = self.service.settings
                    request, end = wire_model.next_request(text, 0, settings["body"], settings["stream"])
                    break
                except (wire_model.Ended, wire_model.Truncated):
                    piece = connection.recv(1 << 20)
                    if not piece:
                        return
                    text += piece
                except wire_model.Refused as refused:
                    connection.sendall(refused.reply())
                    return
            text = text[end:]
            closes = request.close or number == self.most
            with self.lock:
                reply = self.reply(request, closes)
            connection.sendall(reply or b"")
            if reply is None or closes or self.count in self.cuts or b"connection: close\r\n" in reply.split(b"\r\n\r\n")[0] + b"\r\n":
                return

    def reply(self, request, closes):
        """The bytes of the reply, or nothing where the connection is dropped."""
        self.count += 1
        self.seen.append((request.method.decode(), request.path.decode()))
        if self.count in (self.dies, self.restarts):
            if self.count == self.dies:
                self.stop()
            self.service = service_model.Service(**self.settings)
            return None
        if self.count in self.drops:
            return None
        if self.count in self.replies:
            status, body = self.replies[self.count]
            return wire_model.reply(status, body, closes or status == 503)
        found = self.usual(request, closes)
        return found[:len(found) // 2] if self.count in self.cuts else found

    def usual(self, request, closes):
        if request.path == b"/x/publish" and self.building:
            self.building -= 1
            return wire_model.reply(200, b'{"state":"building","out":1,"took":3}', closes)
        found = self.service.answered(request, closes)
        if self.hurries and request.path == b"/v1/querybatch":
            self.service.history += [self.service.imports()[0], len(self.service.imports()) + 1]
        return found

    def asked(self, path):
        """How often a path was asked."""
        return sum(seen.startswith(path) for _, seen in self.seen)
