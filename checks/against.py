"""What the comparisons with other programs' orders of versions share; they import it, and it does nothing alone.

The program is asked for each of some versions over advisories that introduce each of the others, so
its hits are the versions that it has at or below the asked one. It is $OSV_SERVICE, or else that of
this repository.
"""
import json, random, subprocess, sys

from program import built

SHOWN = 10


class Dice:
    """Draws by `random()` alone, whose values no version of Python changes."""

    def __init__(self, seed):
        self.random = random.Random(seed).random

    def below(self, n):
        return int(self.random() * n)

    def chance(self, p):
        return self.random() < p

    def one_of(self, things):
        return things[self.below(len(things))]


def different(count, draw):
    """So many different texts of what `draw` gives. `0` is none of them: introduced with it means something else."""
    found = {}
    while len(found) < count:
        text = draw()
        if text != "0":
            found[text] = None
    return list(found)


def mangled(dice, text, letters):
    """The text with one to three letters put in, left out or exchanged."""
    for _ in range(1 + dice.below(3)):
        at = dice.below(len(text) + 1)
        letter = dice.one_of(letters) if dice.chance(0.7) else ""
        text = text[:at] + letter + text[at + (1 if dice.chance(0.5) else 0):]
    return text


def ask(program, ecosystem, version, ranges):
    """The numbers of the ranges that have the version, each given by the values of its introduced events."""
    lines = []
    for number, values in enumerate(ranges):
        events = [{"introduced": value} for value in values]
        affected = [{"package": {"ecosystem": ecosystem, "name": "p"}, "ranges": [{"type": "ECOSYSTEM", "events": events}]}]
        lines.append(json.dumps({"id": str(number), "modified": "2024-01-01T00:00:00Z", "affected": affected}) + "\n")
    words = [program, "ask", ecosystem, "p", version]
    done = subprocess.run(words, input="".join(lines).encode(), stdout=subprocess.PIPE, timeout=600)
    if done.returncode:
        sys.exit(f"{' '.join(words)}: status {done.returncode}, {done.stdout.decode()}")
    return {int(line) for line in done.stdout.decode().splitlines()}


def compare(tool, ecosystem, versions, is_at_most, texts, reads):
    """Compares the program with another one on all pairs of the versions, and on whether each text is read.

    `is_at_most(a, b)` and `reads(text)` are the other one's. Ends with 1 where the two differ.
    """
    program, wrong = built(), []
    for asked in versions:
        hits = ask(program, ecosystem, asked, [[version] for version in versions])
        for number, version in enumerate(versions):
            if (number in hits) != is_at_most(version, asked):
                wrong.append(f"{version!r} is {'' if number in hits else 'not '}at or below {asked!r}")
    found = ask(program, ecosystem, versions[0], [["0", text] for text in texts])
    for number, text in enumerate(texts):
        if (number in found) != reads(text):
            wrong.append(f"{text!r} is {'' if number in found else 'not '}read")
    for one in wrong[:SHOWN]:
        print(f"{one}, and {tool} says otherwise")
    print(f"{tool}: {len(versions) ** 2} pairs compared, {len(texts)} texts read or not, {len(wrong)} wrong")
    sys.exit(1 if wrong else 0)
