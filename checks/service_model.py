"""A reference of the service in plain Python: the bytes and the status of `replay` for any requests on one connection.

`replayed(words, text)` answers what `osv_service WORDS` has to write for the text. It is written from README.md,
docs/SERVICE.md and docs/DEFINITIONS.md, keeps a list of what happened, and makes each answer anew from it; it shares no
code with the program.
"""
import re
from urllib.parse import parse_qsl, unquote_to_bytes

from commits_model import GraphFault, Stream, StreamFault, new_rows, repo_key
from reading_model import Advisory, Fault, Query, json_of, read_batch
from version_model import U64
from wire_model import refusal, reply, session

SETTINGS = {
    "keep": 8, "page": 100, "weight": 1_073_741_824, "commits": 16_777_216, "body": 268_435_456, "stream": 8_589_934_592,
    "requests": 1_000_000,
}


class Reply(Exception):
    """The reply to a request: its status, its body, and what stands in its head."""

    def __init__(self, status, body, snapshot=None, allow=None):
        self.status, self.body, self.snapshot, self.allow = status, body, snapshot, allow


def refused(status, code, message, allow=None):
    return Reply(status, refusal(code, message), allow=allow)


class Rows:
    """Commits that came to a repository's graph, each with its parents."""

    def __init__(self, repo, rows):
        self.repo, self.rows = repo, rows

    def weight(self):
        return 64 + len(self.repo.encode()) + sum(64 + 32 * len(parents) for _, parents in self.rows)


class Service:
    """One book: the entries of its history are advisories, rows, and for publications how many imports they have."""

    def __init__(self, **settings):
        self.settings = {**SETTINGS, **settings}
        self.history = []

    def imports(self):
        return [entry for entry in self.history if not isinstance(entry, int)]

    def publications(self):
        return [0] + [entry for entry in self.history if isinstance(entry, int)]

    def newest(self):
        return len(self.publications()) - 1

    def records(self, snapshot):
        """The advisories that count in a snapshot, by their ids."""
        return {one.id: one for one in self.prefix(snapshot) if isinstance(one, Advisory)}

    def prefix(self, snapshot):
        return self.imports()[:self.publications()[snapshot]]

    def graph(self, imports, repo):
        return [row for one in imports if isinstance(one, Rows) and one.repo == repo for row in one.rows]

    def graphs(self, snapshot):
        prefix = self.prefix(snapshot)
        return {one.repo: self.graph(prefix, one.repo) for one in prefix if isinstance(one, Rows)}

    # Each of these raises the reply.
    def add(self, body):
        try:
            advisory = Advisory(body)
        except Fault as fault:
            raise refused(400, 12, f"record refused: {fault.number} {fault.name}")
        raise Reply(200, b'{"entry":%d}' % self.enter(advisory))

    def enter(self, entry):
        """The place of an entry, for which there is room."""
        used, limit = sum(one.weight() for one in self.imports()), self.settings["weight"]
        if used + entry.weight() > limit:
            raise refused(507, 20, f"journal full, used {used} limit {limit}")
        self.history.append(entry)
        return len(self.history) - 1

    def grow(self, query, body):
        urls = [value for name, value in parse_qsl(query.decode("latin-1"), True, encoding="utf-8", errors="replace") if name == "url"]
        repo, most = repo_key(urls[0]) if urls else "", self.settings["commits"]
        if not repo:
            raise refused(400, 21, "repo missing")
        graph = self.graph(self.imports(), repo)
        try:
            rows = new_rows(graph, Stream(body, most).read(), most)
        except StreamFault as fault:
            raise refused(400, 14, f"stream refused: {fault.number} {fault.name} at {fault.at}")
        except GraphFault as fault:
            raise refused(400, 15, f"graph refused: {fault.number} {fault.name} at row {fault.row}")
        raise Reply(200, b'{"entry":%d,"commits":%d}' % (self.enter(Rows(repo, rows)), len(graph) + len(rows)))

    def publish(self):
        count = len(self.imports())
        if self.publications()[-1] < count:
            self.history.append(count)
        raise Reply(200, b'{"state":"published","snapshot":%d,"upto":%d}' % (self.newest(), self.publications()[-1]))

    def test_least(self, least):
        if least > self.newest():
            raise refused(409, 18, f"snapshot {least} not yet, newest {self.newest()}")

    def snapshot_of(self, query, front):
        number, newest, keep = query.token[0] if query.token else self.newest(), self.newest(), self.settings["keep"]
        if number > newest:
            raise refused(400, 17, f"{front}snapshot {number} ahead, newest {newest}")
        if number + keep <= newest:
            raise refused(410, 16, f"{front}snapshot {number} gone, oldest {max(newest + 1 - keep, 0)}")
        return number

    def page(self, query, snapshot, spelled):
        """The body of a page, in which an advisory is spelled so."""
        after = query.token[1] if query.token else ""
        records, graphs = self.records(snapshot).values(), self.graphs(snapshot)
        hits = sorted((one for one in records if one.is_hit_by(query, graphs)), key=lambda one: one.id)
        hits = [one for one in hits if one.id > after]
        page = hits[:self.settings["page"]]
        if not page:
            return b"{}"
        token = b',"next_page_token":"%d~%s"' % (snapshot, page[-1].id.encode()) if len(hits) > len(page) else b""
        return b'{"vulns":[' + b",".join(map(spelled, page)) + b"]" + token + b"}"

    def query(self, body, least):
        try:
            asked = Query(json_of(body))
        except Fault as fault:
            raise refused(400, 13, f"query refused: {fault.number} {fault.name}")
        self.test_least(least)
        snapshot = self.snapshot_of(asked, "")
        raise Reply(200, self.page(asked, snapshot, Advisory.whole), snapshot)

    def batch(self, body, least):
        try:
            asked = read_batch(body)
        except Fault as fault:
            front = "" if fault.index is None else f"query {fault.index}: "
            raise refused(400, 13, f"{front}query refused: {fault.number} {fault.name}")
        self.test_least(least)
        snapshots = [self.snapshot_of(query, f"query {index}: ") for index, query in enumerate(asked)]
        pages = [self.page(query, snapshot, Advisory.brief) for query, snapshot in zip(asked, snapshots)]
        raise Reply(200, b'{"results":[' + b",".join(pages) + b"]}", self.newest())

    def advisory(self, id, least):
        self.test_least(least)
        found = self.records(self.newest()).get(id.decode("latin-1"))
        raise Reply(200, found.text, self.newest()) if found else refused(404, 11, "no such id")

    def route(self, request):
        """The method of the path, and what is done by it."""
        if request.path.startswith(b"/v1/vulns/"):
            return "GET", lambda least: self.advisory(unquote_to_bytes(request.path[len(b"/v1/vulns/"):]), least)
        return "POST", {
            b"/v1/query": lambda least: self.query(request.body, least),
            b"/v1/querybatch": lambda least: self.batch(request.body, least),
            b"/x/import": lambda least: self.add(request.body),
            b"/x/repo": lambda least: self.grow(request.query, request.body),
            b"/x/publish": lambda least: self.publish(),
        }.get(request.path)

    def carry_out(self, request):
        method, done = self.route(request)
        if not done:
            raise refused(404, 9, "no such path")
        if request.method != method.encode():
            raise refused(405, 10, "method not allowed", allow=method)
        least = b"0" if request.least is None or not request.path.startswith(b"/v1/") else request.least
        if not re.fullmatch(rb"[0-9]+", least) or len(least.lstrip(b"0")) > 20 or int(least) >= U64:
            raise refused(400, 23, "bad x-osv-min-snapshot")
        done(int(least))

    def answered(self, request, closes):
        """The bytes of the reply to a request."""
        try:
            self.carry_out(request)
        except Reply as found:
            return reply(found.status, found.body, closes, found.snapshot, found.allow)


def settings_of(words):
    """The settings of the words of `replay`, each in its range."""
    pairs = [part for word in words[1:] for part in word.split("=", 1)]
    return {name.removeprefix("--"): int(value) for name, value in zip(pairs[::2], pairs[1::2])}


def replayed(words, text):
    """What `replay` writes for a text, and its status."""
    service = Service(**settings_of(words))
    settings = service.settings
    return session(text, settings["body"], settings["stream"], settings["requests"], service.answered)
