"""Versions and ranges as the service reads them, in plain Python; the model of the service imports it, and it does nothing alone.

It is written from the standards (SemVer 2.0.0; PEP 440; Debian Policy, 5.6.12; OSV schema 1.6, "Evaluation") and from
docs/DECISIONS.md where they are silent, and shares no code with the program. A key is a tuple that compares as versions do.
"""
import re

U64 = 1 << 64
SEMVER = re.compile(r"v?(\d+(?:\.\d+){0,2})(?:-([0-9A-Za-z.-]+))?(?:\+([0-9A-Za-z.-]+))?", re.ASCII)
PYPI = re.compile(
    r"[ \t\n\x0b\f\r]*v?+(?:(\d+)!)?+(\d+(?:\.\d+)*+)"
    r"(?:[-_.]?(alpha|beta|preview|pre|rc|a|b|c)[-_.]?(\d*+))?+"
    r"(?:-(\d++)|[-_.]?(post|rev|r)[-_.]?(\d*+))?+"
    r"(?:[-_.]?(dev)[-_.]?(\d*+))?+"
    r"(?:\+([a-z0-9]+(?:[-_.][a-z0-9]+)*))?[ \t\n\x0b\f\r]*", re.ASCII)
WORDS = {"alpha": "a", "beta": "b", "c": "rc", "pre": "rc", "preview": "rc"}
ORDERS = {"PyPI": "pypi", "Debian": "debian", "Ubuntu": "debian", "npm": "semver", "crates.io": "semver", "Go": "semver"}
KINDS = ["introduced", "fixed", "last_affected", "limit"]


def base(ecosystem):
    return ecosystem.split(":")[0]


def normal_name(ecosystem, name):
    """The name of a package as it is compared (PEP 503 in PyPI, over ASCII letters)."""
    if base(ecosystem) != "PyPI":
        return name
    return re.sub(r"[-_.]+", "-", re.sub("[A-Z]", lambda letter: letter.group().lower(), name))


def number(digits):
    """Digits of any length as something that compares as their number does."""
    digits = digits.lstrip("0")
    return len(digits), digits


def semver_key(text):
    found = SEMVER.fullmatch(text)
    if not found:
        return None
    release, pre, build = found.groups()
    numbers = (release.split(".") + ["0", "0"])[:3]
    pres, builds = (part.split(".") if part is not None else [] for part in (pre, build))
    if any(len(one) > 1 and one[0] == "0" or int(one[:21]) >= U64 for one in numbers) or "" in pres or "" in builds:
        return None
    if any(re.fullmatch("0[0-9]+", one) for one in pres):
        return None
    ranks = tuple((0, number(one)) if one.isdigit() else (1, one) for one in pres)
    return tuple(int(one) for one in numbers), (0, ranks) if pres else (1, ())


def pypi_key(text):
    found = PYPI.fullmatch(re.sub("[A-Z]", lambda letter: letter.group().lower(), text))
    if not found:
        return None
    epoch, release, word, at, bare_post, post_word, post, dev_word, dev, local = found.groups()
    numbers = [number(one) for one in release.split(".")]
    while numbers and numbers[-1] == number("0"):
        numbers.pop()
    has_post = bare_post is not None or post_word is not None
    if word:
        pre = (1, WORDS.get(word, word), number(at))
    else:
        pre = (0,) if dev_word and not has_post else (2,)
    segments = re.split("[-_.]", local) if local is not None else []
    ranks = tuple((1, number(one)) if one.isdigit() else (0, one) for one in segments)
    return (number(epoch or ""), tuple(numbers), pre, (1, number(bare_post or post or "")) if has_post else (0,),
            (0, number(dev)) if dev_word else (1,), (0,) if local is None else (1, ranks))


def debian_part(text):
    """A part by turns: a front without digits, whose end ranks between `~` and letters, then a number."""
    turns = []
    for front, digits in re.findall("([^0-9]*)([0-9]*)", text):
        if front or digits:
            ranks = tuple(-1 if one == "~" else ord(one) if one.isalpha() else 256 + ord(one) for one in front)
            turns.append((ranks + (0,), number(digits)))
    return tuple(turns)


def debian_key(text):
    epoch, mark, rest = text.partition(":")
    if not mark:
        epoch, rest = "0", text
    upstream, dash, revision = rest.rpartition("-")
    if not dash:
        upstream, revision = rest, "0"
    signs = "[A-Za-z0-9.+~:-]+" if mark else "[A-Za-z0-9.+~-]+"
    if not (re.fullmatch("[0-9]+", epoch) and re.fullmatch(signs, upstream) and re.fullmatch("[A-Za-z0-9+.~]+", revision)):
        return None
    return Debian(number(epoch), debian_part(upstream), debian_part(revision))


class Debian:
    """A key of a Debian version: the shorter list of turns is filled with empty ones."""

    def __init__(self, epoch, upstream, revision):
        self.epoch, self.parts = epoch, (upstream, revision)

    def compared(self, other):
        if self.epoch != other.epoch:
            return -1 if self.epoch < other.epoch else 1
        for mine, theirs in zip(self.parts, other.parts):
            empty = ((0,), number(""))
            length = max(len(mine), len(theirs))
            mine, theirs = (turns + (empty,) * (length - len(turns)) for turns in (mine, theirs))
            if mine != theirs:
                return -1 if mine < theirs else 1
        return 0

    def __eq__(self, other):
        return self.compared(other) == 0

    def __lt__(self, other):
        return self.compared(other) < 0


KEYS = {"semver": semver_key, "pypi": pypi_key, "debian": debian_key}


class Bound:
    """The value of an event: before every version, a version, or behind every one."""

    def __init__(self, rank, key=None):
        self.rank, self.key = rank, key

    def is_at_or_before(self, key):
        return self.rank < 0 or self.rank == 0 and not key < self.key

    def is_at(self, key):
        return self.rank == 0 and self.key == key

    def __eq__(self, other):
        return self.rank == other.rank and (self.rank != 0 or self.key == other.key)

    def __lt__(self, other):
        return self.rank < other.rank or self.rank == other.rank == 0 and self.key < other.key


def bound(order, kind, value):
    if kind == "introduced" and value == "0":
        return Bound(-1)
    if kind == "limit" and value == "*":
        return Bound(1)
    key = KEYS[order](value)
    return None if key is None else Bound(0, key)


def contains(order, events, version):
    """Whether a range of the order, of events as (kind, value), contains a version: never where one of them can't be read."""
    key = KEYS[order](version)
    bounds = [(bound(order, kind, value), KINDS.index(kind)) for kind, value in events]
    if key is None or any(one is None for one, _ in bounds):
        return False
    limits = [one for one, kind in bounds if KINDS[kind] == "limit"]
    if limits and all(one.is_at_or_before(key) for one in limits):
        return False
    is_in = False
    for one, kind in sorted(bounds):
        if KINDS[kind] == "introduced" and one.is_at_or_before(key):
            is_in = True
        elif KINDS[kind] == "fixed" and one.is_at_or_before(key):
            is_in = False
        elif KINDS[kind] == "last_affected" and one.is_at_or_before(key) and not one.is_at(key):
            is_in = False
    return is_in


def order_of(kind, ecosystem):
    return "semver" if kind == "SEMVER" else ORDERS.get(base(ecosystem)) if kind == "ECOSYSTEM" else None
