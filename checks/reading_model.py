"""Advisories and queries as the service reads them, in plain Python; the model of the service imports it, and it does
nothing alone.

It is written from README.md, docs/DEFINITIONS.md and docs/DECISIONS.md, and shares no code with the program.
"""
import json
import re
from urllib.parse import unquote_to_bytes

from commits_model import affects, repo_key
from version_model import U64, base, contains, normal_name, order_of

ID = re.compile(r"[A-Za-z0-9_.:+-]{1,128}")
TIME = re.compile(r"(\d{4})-(\d\d)-(\d\d)T([01]\d|2[0-3]):[0-5]\d:[0-5]\d(?:\.\d{1,9})?Z", re.ASCII)
OID = re.compile("[0-9a-fA-F]{40}")
TOKEN = re.compile(r"(0|[1-9]\d{0,19})~(.*)", re.ASCII | re.DOTALL)
MOST_ADVISORY = 16_777_216
MOST_QUERIES = 1_000
PURL_TYPES = {
    "pypi": "PyPI", "npm": "npm", "cargo": "crates.io", "golang": "Go", "gem": "RubyGems", "nuget": "NuGet",
    "composer": "Packagist", "maven": "Maven",
}


class Fault(Exception):
    """A refusal by its number and name, and in a batch by the index of its query."""

    def __init__(self, number, name, index=None):
        self.number, self.name, self.index = number, name, index


# ---- JSON

def finite(text):
    if float(text) in (float("inf"), float("-inf")):
        raise ValueError(text)
    return float(text)


def no_constant(text):
    raise ValueError(text)


def deepest(text):
    depth = most = 0
    for sign in re.findall(r"[\[\]{}]", re.sub(r'"(?:[^"\\]|\\.)*"', "", text, flags=re.DOTALL)):
        depth += (sign in "[{") - (sign in "]}")
        most = max(most, depth)
    return most


def json_of(bytes):
    """The JSON value of bytes, or 1 NotJson; numbers are not told apart from one another."""
    try:
        text = bytes.decode()
        if deepest(text) > 127:
            raise ValueError("too deep")
        value = json.loads(text, parse_float=finite, parse_int=finite, parse_constant=no_constant)
        pairs = r"\\u[dD][89abAB][0-9a-fA-F]{2}\\u[dD][c-fC-F][0-9a-fA-F]{2}|\\u[dD][89a-fA-F]|\\."
        if any(len(one) == 4 for one in re.findall(pairs, text, re.DOTALL)):
            raise ValueError("half of a pair")
        return value
    except ValueError:
        raise Fault(1, "NotJson")


def object_of(bytes):
    value = json_of(bytes)
    if not isinstance(value, dict):
        raise Fault(2, "NotObject")
    return value


def member(value, name, kind, fault):
    """A member that is absent where it is null, and of the JSON type where it is there."""
    found = value.get(name)
    if found is not None and not isinstance(found, kind):
        raise Fault(*fault)
    return found


# ---- advisories

def is_time(text):
    found = isinstance(text, str) and TIME.fullmatch(text)
    if not found:
        return False
    year, month, day = (int(one) for one in found.groups()[:3])
    leap = year % 4 == 0 and (year % 100 != 0 or year % 400 == 0)
    days = [31, 29 if leap else 28, 31, 30, 31, 30, 31, 31, 30, 31, 30, 31]
    return 1 <= month <= 12 and 1 <= day <= days[month - 1]


def read_event(event):
    kinds = [kind for kind in ("introduced", "fixed", "last_affected", "limit") if isinstance(event, dict) and event.get(kind) is not None]
    if len(kinds) != 1 or not isinstance(event[kinds[0]], str) or event[kinds[0]] == "":
        raise Fault(11, "BadEvent")
    return kinds[0], event[kinds[0]]


def read_range(value):
    if not isinstance(value, dict):
        raise Fault(7, "WrongType(Range)")
    kind = value.get("type")
    if kind not in ("SEMVER", "ECOSYSTEM", "GIT"):
        raise Fault(8, "BadRangeType")
    repo = member(value, "repo", str, (7, "WrongType(Repo)"))
    if kind == "GIT" and not repo:
        raise Fault(9, "GitWithoutRepo")
    events = member(value, "events", list, (7, "WrongType(Events)"))
    if not events:
        raise Fault(10, "NoEvents")
    events = [read_event(event) for event in events]
    if all(kind != "introduced" for kind, _ in events):
        raise Fault(12, "NoIntroduced")
    return kind, events, repo_key(repo) if kind == "GIT" else None


def read_package(value):
    if value is None:
        return None
    names = [value.get(name) for name in ("ecosystem", "name")] if isinstance(value, dict) else [None]
    if not all(isinstance(name, str) and name for name in names):
        raise Fault(13, "BadPackage")
    return names[0], normal_name(*names)


def read_entry(value):
    if not isinstance(value, dict):
        raise Fault(7, "WrongType(Entry)")
    package = read_package(value.get("package"))
    ranges = [read_range(one) for one in member(value, "ranges", list, (7, "WrongType(Ranges)")) or []]
    versions = member(value, "versions", list, (7, "WrongType(Versions)")) or []
    if not all(isinstance(version, str) for version in versions):
        raise Fault(7, "WrongType(Version)")
    return package, ranges, versions


class Advisory:
    def __init__(self, bytes):
        if len(bytes) > MOST_ADVISORY:
            raise Fault(14, "TooLarge")
        value = object_of(bytes)
        self.text, self.id, self.modified = bytes, value.get("id"), value.get("modified")
        if self.id is None:
            raise Fault(3, "NoId")
        if not (isinstance(self.id, str) and ID.fullmatch(self.id)):
            raise Fault(4, "BadId")
        if self.modified is None:
            raise Fault(5, "NoModified")
        if not is_time(self.modified):
            raise Fault(6, "BadModified")
        self.withdrawn = value.get("withdrawn") is not None
        if self.withdrawn and not is_time(value["withdrawn"]):
            raise Fault(7, "WrongType(Withdrawn)")
        self.entries = [read_entry(one) for one in member(value, "affected", list, (7, "WrongType(Affected)")) or []]

    def weight(self):
        git = sum(kind == "GIT" for _, ranges, _ in self.entries for kind, _, _ in ranges)
        return 64 + len(self.text) + 64 * git

    def whole(self):
        return self.text

    def brief(self):
        return b'{"id":"%s","modified":"%s"}' % (self.id.encode(), self.modified.encode())

    def is_hit_by(self, query, graphs):
        """Whether a query lists it, where repositories have these graphs by their keys."""
        if self.withdrawn:
            return False
        entries = [one for one in self.entries if query.package is None or matches(one[0], query.package)]
        if query.commit is not None:
            oid = query.commit.lower().encode()
            return any(kind == "GIT" and affects(events, graphs.get(repo, []), oid) for _, ranges, _ in entries for kind, events, repo in ranges)
        return any(query.version is None or is_touched(entry, query.version) for entry in entries)


def matches(package, asked):
    return package is not None and package[1] == asked[1] and asked[0] in (package[0], base(package[0]))


def is_touched(entry, version):
    package, ranges, versions = entry
    orders = ((order_of(kind, package[0]), events) for kind, events, _ in ranges)
    return version in versions or any(order and contains(order, events, version) for order, events in orders)


# ---- queries

def decoded(text):
    try:
        text = unquote_to_bytes(text).decode()
    except UnicodeDecodeError:
        text = ""
    if not text:
        raise Fault(5, "BadPurl")
    return text


def read_purl(text):
    """The package and the version of a package URL."""
    if not text.startswith("pkg:"):
        raise Fault(5, "BadPurl")
    *front, last = text[4:].lstrip("/").split("#")[0].split("?")[0].split("/")
    at = last.rfind("@")
    version = decoded(last[at + 1:]) if at > 0 else None
    name = decoded(last[:at] if at > 0 else last)
    kind, *namespace = front or [""]
    kind, namespace = re.sub("[A-Z]", lambda letter: letter.group().lower(), kind), [decoded(one) for one in namespace]
    if kind == "deb" and namespace in (["debian"], ["ubuntu"]):
        return (namespace[0].capitalize(), name), version
    counts = {"npm": (0, 1), "golang": range(1 << 20), "composer": (1,), "maven": (1,)}.get(kind, (0,))
    if kind not in PURL_TYPES or len(namespace) not in counts:
        raise Fault(5, "BadPurl")
    name = (":" if kind == "maven" else "/").join(namespace + [name])
    return (PURL_TYPES[kind], normal_name(PURL_TYPES[kind], name)), version


def read_token(text):
    found = TOKEN.fullmatch(text)
    if not found or int(found[1]) >= U64 or not ID.fullmatch(found[2]):
        raise Fault(9, "BadToken")
    return int(found[1]), found[2]


class Query:
    def __init__(self, value):
        if not isinstance(value, dict):
            raise Fault(2, "NotObject")
        value = {name: found for name, found in value.items() if found != ""}
        self.commit = member(value, "commit", str, (3, "WrongType(Commit)"))
        package = member(value, "package", dict, (3, "WrongType(Package)"))
        self.version = member(value, "version", str, (3, "WrongType(Version)"))
        token = member(value, "page_token", str, (3, "WrongType(PageToken)"))
        parts = {name: found for name, found in (package or {}).items() if found != ""}
        name, ecosystem, purl = (member(parts, one.lower(), str, (3, f"WrongType({one})")) for one in ("Name", "Ecosystem", "Purl"))
        if self.commit is not None and not OID.fullmatch(self.commit):
            raise Fault(4, "BadCommit")
        self.package, in_purl = read_purl(purl) if purl is not None else (None, None)
        if package is not None:
            both = name is not None and ecosystem is not None
            one = name is not None or ecosystem is not None
            if (one if purl is not None else not both) or in_purl is not None and self.version is not None:
                raise Fault(6, "BadPackage")
        if purl is None and package is not None:
            self.package = ecosystem, normal_name(ecosystem, name)
        if self.commit is None and package is None:
            raise Fault(7, "NoSubject")
        if self.version is None:
            self.version = in_purl
        if self.commit is not None and self.version is not None:
            raise Fault(8, "CommitWithVersion")
        self.token = read_token(token) if token is not None else None


def read_batch(bytes):
    queries = object_of(bytes).get("queries")
    if not isinstance(queries, list):
        raise Fault(10, "NoQueries")
    if len(queries) > MOST_QUERIES:
        raise Fault(11, "TooManyQueries")
    read = []
    for index, one in enumerate(queries):
        try:
            read.append(Query(one))
        except Fault as fault:
            raise Fault(fault.number, fault.name, index)
    return read
