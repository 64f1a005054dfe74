"""Requests and replies of HTTP/1.1 as the service reads and writes them, in plain Python; the model of the service imports
it, and it does nothing alone.

It divides a text that is there as a whole (RFC 9112; the limits, the order of the tests and the refusals are those of
README.md), and shares no code with the program.
"""
import re

TOKEN = rb"[!#$%&'*+\-.^_`|~0-9A-Za-z]+"
FIELD = re.compile(rb"(" + TOKEN + rb"):([\t\x20-\x7e\x80-\xff]*)\r?\n")
START = re.compile(rb"(" + TOKEN + rb") ([\x21-\x7e\x80-\xff]+) HTTP/1\.([01])\r?\n")
HEAD_END = re.compile(rb"\n\r?\n")
LINE_ENDS = re.compile(rb"(?:\r?\n)*")
MOST_HEAD = 65_536

PHRASES = {
    200: "OK", 400: "Bad Request", 404: "Not Found", 405: "Method Not Allowed", 409: "Conflict", 410: "Gone",
    413: "Content Too Large", 415: "Unsupported Media Type", 431: "Request Header Fields Too Large",
    501: "Not Implemented", 503: "Service Unavailable", 507: "Insufficient Storage",
}
INTERIM = b"HTTP/1.1 100 Continue\r\n\r\n"
FAULTS = {
    1: (400, "bad request head"), 2: (400, "bad content-length"), 3: (400, "content-length with transfer-encoding"),
    4: (400, "bad chunk"), 5: (413, "body larger than {limit}"), 6: (415, "content-encoding not supported"),
    7: (431, "request head too long"), 8: (501, "transfer-encoding not supported"),
}


class Refused(Exception):
    """The text is refused by the code, and the interim reply was due before it or not."""

    def __init__(self, code, limit=None):
        self.code, self.limit, self.waits = code, limit, False

    def reply(self):
        """What is written of it, behind the interim reply where that was due."""
        status, message = FAULTS[self.code]
        return (INTERIM if self.waits else b"") + reply(status, refusal(self.code, message.format(limit=self.limit)), True)


class Ended(Exception):
    """The text ended between requests."""


class Truncated(Exception):
    """The text ended inside a request, behind whose head the interim reply was due or not."""

    def __init__(self, waits=False):
        self.waits = waits


class Request:
    def __init__(self, method, target, minor, fields):
        self.method, self.minor, self.fields = method, minor, fields
        self.path, _, self.query = target.partition(b"?")
        self.close = minor == 0 or any(
            member.strip(b" \t").lower() == b"close" for value in self.values(b"connection") for member in value.split(b","))
        self.least = (self.values(b"x-osv-min-snapshot") + [None])[0]
        self.body, self.waits = b"", False

    def values(self, name):
        return [value for given, value in self.fields if given == name]


def head_of(bytes):
    """The request of a head, or its refusal."""
    start = START.match(bytes)
    if not start:
        raise Refused(1)
    at, fields = start.end(), []
    while field := FIELD.match(bytes, at):
        fields.append((field[1].lower(), field[2].strip(b" \t")))
        at = field.end()
    if bytes[at:] not in (b"\n", b"\r\n") or len(fields) > 100:
        raise Refused(1)
    try:
        start[2].decode()
    except UnicodeDecodeError:
        raise Refused(1)
    return Request(start[1], start[2], int(start[3]), fields)


def framing(request, limit):
    """The length of the body, or None where it comes in chunks."""
    lengths, codings = request.values(b"content-length"), request.values(b"transfer-encoding")
    if lengths and codings:
        raise Refused(3)
    if len(codings) > 1 or codings and codings[0].lower() != b"chunked":
        raise Refused(8)
    if any(not re.fullmatch(rb"[0-9]{1,19}", length) for length in lengths) or len({int(length) for length in lengths}) > 1:
        raise Refused(2)
    if any(value.lower() != b"identity" for value in request.values(b"content-encoding")):
        raise Refused(6)
    length = int(lengths[0]) if lengths else 0
    if length > limit:
        raise Refused(5, limit)
    return None if codings else length


def line_of(text, at, most):
    """The line at a place without its CR LF, of at most so many bytes with it, and the place behind it."""
    end = text.find(b"\n", at, at + most)
    if end < 0:
        raise Refused(4) if len(text) - at >= most + 1 else Truncated()
    if end == at or text[end - 1:end] != b"\r":
        raise Refused(4)
    return text[at:end - 1], end + 1


def chunks(text, at, limit):
    """The body in chunks, and the place behind it."""
    body = []
    while True:
        line, at = line_of(text, at, 1_024)
        digits, _, rest = line.partition(b";")
        if not re.fullmatch(rb"[0-9a-fA-F]{1,16}", digits) or b"\r" in rest:
            raise Refused(4)
        size = int(digits, 16)
        if size == 0:
            break
        if sum(map(len, body)) + size > limit:
            raise Refused(5, limit)
        if len(text) < at + size + 2:
            raise Truncated()
        if text[at + size:at + size + 2] != b"\r\n":
            raise Refused(4)
        body.append(text[at:at + size])
        at += size + 2
    room = 65_536
    while line:
        start = at
        line, at = line_of(text, at, room)
        room -= at - start
    return b"".join(body), at


def next_request(text, start, body, stream):
    """The request at a place of the text, and the place behind it, by the limits of bodies and of streams."""
    skipped = LINE_ENDS.match(text, start, start + MOST_HEAD).end()
    end = HEAD_END.search(text, skipped, start + MOST_HEAD)
    if not end:
        if len(text) - start >= MOST_HEAD:
            raise Refused(7)
        raise Ended() if skipped == len(text) else Truncated()
    request = head_of(text[skipped:end.end()])
    limit = stream if request.path == b"/x/repo" else body
    length, at = framing(request, limit), end.end()
    expects = any(value.lower() == b"100-continue" for value in request.values(b"expect"))
    request.waits = request.minor == 1 and expects and length != 0
    try:
        if length is None:
            request.body, at = chunks(text, at, limit)
        elif len(text) < at + length:
            raise Truncated()
        else:
            request.body, at = text[at:at + length], at + length
    except Refused as refused:
        refused.waits = request.waits
        raise
    except Truncated:
        raise Truncated(request.waits)
    return request, at


def reply(status, body, closes=False, snapshot=None, allow=None):
    """The bytes of a reply."""
    lines = [f"HTTP/1.1 {status} {PHRASES[status]}", "content-type: application/json", f"content-length: {len(body)}"]
    if snapshot is not None:
        lines.append(f"x-osv-snapshot: {snapshot}")
    if allow:
        lines.append(f"allow: {allow}")
    if closes:
        lines.append("connection: close")
    return "\r\n".join(lines + ["", ""]).encode() + body


def refusal(code, message):
    return b'{"code":%d,"message":"%s"}' % (code, message.encode())


def session(text, body, stream, most, answered):
    """What is written for a text, and the status: `answered(request, closes)` gives the bytes of each reply."""
    written, at = [], 0
    for number in range(1, most + 1):
        try:
            request, at = next_request(text, at, body, stream)
        except Refused as refused:
            return b"".join(written + [refused.reply()]), 5
        except Truncated as cut:
            return b"".join(written + [INTERIM if cut.waits else b""]), 5
        except Ended:
            return b"".join(written), 0
        written.append(INTERIM if request.waits else b"")
        written.append(answered(request, request.close or number == most))
        if request.close:
            return b"".join(written), 0
    return b"".join(written), 5
