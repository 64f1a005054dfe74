"""Streams of `git fast-export`, graphs of commits and ranges of type GIT as the service reads them, in plain Python; the model
of the service imports it, and it does nothing alone.

It is written from git's "git-fast-import", docs/DEFINITIONS.md and docs/DECISIONS.md, and shares no code with the program.
"""
import re

U64 = 1 << 64
MOST_LINE = 65_536
OID = re.compile(rb"[0-9a-fA-F]{40}")
NAMES = {1: "BadLine", 2: "BadData", 3: "NoOriginalOid", 4: "BadOid", 5: "UnknownMark", 6: "MarkTwice", 7: "RefParent",
         8: "Ended", 9: "TooManyCommits", 10: "LineTooLong"}
GRAPH_NAMES = {1: "UnknownParent", 2: "ParentsDiffer", 3: "SelfParent", 4: "TooMany"}


class StreamFault(Exception):
    """A refusal of a stream by its number, at an offset in bytes."""

    def __init__(self, number, at):
        self.number, self.name, self.at = number, NAMES[number], at


class GraphFault(Exception):
    """A refusal of rows by its number, at a row."""

    def __init__(self, number, row):
        self.number, self.name, self.row = number, GRAPH_NAMES[number], row


class Stream:
    """A whole stream, and the place up to which it was read."""

    def __init__(self, text, most):
        self.text, self.most, self.at = text, most, 0
        self.marks, self.rows = {}, []

    def is_at_end(self):
        return self.at == len(self.text)

    def peek(self):
        """The next line, and the place behind it."""
        end = self.text.find(b"\n", self.at, self.at + MOST_LINE + 1)
        if end < 0:
            raise StreamFault(10, self.at) if len(self.text) - self.at > MOST_LINE else StreamFault(8, len(self.text))
        return self.text[self.at:end], end + 1

    def take(self, word):
        """The text behind a word, where the next line begins with it, which is taken then."""
        line, behind = self.peek()
        if not line.startswith(word):
            return None
        self.at = behind
        return line[len(word):]

    def may_take(self, word):
        return None if self.is_at_end() else self.take(word)

    def need(self, word):
        at, found = self.at, self.take(word)
        if found is None:
            raise StreamFault(1, at)
        return found

    def mark(self):
        at, text = self.at, self.take(b"mark ")
        if text is None:
            return None, at
        if not re.fullmatch(rb":[0-9]+", text) or int(text[1:]) >= U64:
            raise StreamFault(1, at)
        return int(text[1:]), at

    def data(self):
        at, text = self.at, self.need(b"data ")
        if not re.fullmatch(rb"[0-9]+", text) or int(text) >= U64:
            raise StreamFault(2, at)
        if len(self.text) - self.at < int(text):
            raise StreamFault(8, len(self.text))
        self.at += int(text)
        self.at += self.text[self.at:self.at + 1] == b"\n"

    def parent(self, text, at):
        if OID.fullmatch(text):
            return text.lower()
        if not re.fullmatch(rb":[0-9]+", text):
            raise StreamFault(7, at)
        if int(text[1:]) not in self.marks:
            raise StreamFault(5, at)
        return self.marks[int(text[1:])]

    def parents(self):
        found = []
        for word in (b"from ", b"merge "):
            while not self.is_at_end() and (found or word == b"from "):
                at, text = self.at, self.take(word)
                if text is None:
                    break
                found.append(self.parent(text, at))
                if word == b"from ":
                    break
        return found

    def files(self):
        while not self.is_at_end():
            line, behind = self.peek()
            if line != b"deleteall" and line[:2] not in (b"M ", b"D ", b"R ", b"C ", b"N "):
                return
            fields = line.split(b" ")
            if line[:2] == b"M " and fields[2:3] == [b"inline"] or line[:2] == b"N " and fields[1:2] == [b"inline"]:
                raise StreamFault(1, self.at)
            self.at = behind

    def commit(self, at):
        if len(self.rows) == self.most:
            raise StreamFault(9, at)
        mark, at = self.mark()
        if mark in self.marks:
            raise StreamFault(6, at)
        at, oid = self.at, self.take(b"original-oid ")
        if oid is None:
            raise StreamFault(3, at)
        if not OID.fullmatch(oid):
            raise StreamFault(4, at)
        self.take(b"author ")
        self.need(b"committer ")
        self.take(b"encoding ")
        self.data()
        self.rows.append((oid.lower(), self.parents()))
        if mark is not None:
            self.marks[mark] = oid.lower()
        self.files()

    def command(self, line, at):
        if line == b"blob":
            self.mark()
            self.take(b"original-oid ")
            self.data()
        elif re.match(rb"commit .", line):
            self.commit(at)
        elif re.match(rb"tag .", line):
            self.mark()
            self.need(b"from ")
            self.take(b"original-oid ")
            self.take(b"tagger ")
            self.data()
        elif re.match(rb"reset .", line):
            self.may_take(b"from ")
        elif not re.match(rb"(?:feature|option|progress) .", line) and line != b"checkpoint":
            raise StreamFault(1, at)

    def read(self):
        wants_done = False
        while not self.is_at_end():
            at = self.at
            line, self.at = self.peek()
            if line == b"done":
                return self.rows
            if line:
                self.command(line, at)
            wants_done = wants_done or line == b"feature done"
        if wants_done:
            raise StreamFault(8, len(self.text))
        return self.rows


def new_rows(graph, rows, most):
    """The rows whose commits the graph, a list of rows, has not yet; or the fault of the first faulty row."""
    known, new = dict(graph), []
    for number, (oid, parents) in enumerate(rows):
        if oid in known:
            if known[oid] != parents:
                raise GraphFault(2, number)
            continue
        if oid in parents:
            raise GraphFault(3, number)
        if any(parent not in known for parent in parents):
            raise GraphFault(1, number)
        if len(known) == most:
            raise GraphFault(4, number)
        known[oid] = parents
        new.append((oid, parents))
    return new


def repo_key(url):
    return url.removesuffix("/").removesuffix(".git")


def ancestors(graph, oids):
    """The proper ancestors of commits."""
    known, found, left = dict(graph), set(), list(oids)
    while left:
        for parent in known.get(left.pop(), []):
            if parent not in found:
                found.add(parent)
                left.append(parent)
    return found


def affects(events, graph, commit):
    """Whether a range of type GIT, of events as (kind, value), affects a commit of a graph."""
    named = {kind: [value for given, value in events if given == kind] for kind in ("introduced", "fixed", "last_affected", "limit")}
    special = {"introduced": "0", "limit": "*"}
    if any(value != special.get(kind) and not OID.fullmatch(value.encode()) for kind, value in events):
        return False
    oids = {kind: {value.lower().encode() for value in values} for kind, values in named.items()}
    if named["limit"] and "*" not in named["limit"] and commit not in ancestors(graph, oids["limit"]):
        return False
    reached = set()
    for oid, parents in graph:
        begins = oid in oids["introduced"] or "0" in named["introduced"] and not parents
        goes_on = any(parent in reached and parent not in oids["last_affected"] for parent in parents)
        if (begins or goes_on) and oid not in oids["fixed"]:
            reached.add(oid)
    return commit in reached
