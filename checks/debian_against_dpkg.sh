#!/usr/bin/env python3
"""Compares the order of Debian versions with that of `dpkg --compare-versions`, on generated versions.

Skipped, saying so, where there is no dpkg. On purpose other than dpkg's are upstream versions that
don't begin with a digit, epochs from 2^31 on or with a sign, and white space outside: there are none
such here.
"""
import re, shutil, subprocess

from against import Dice, compare, different, mangled

UPSTREAM = ["0", "1", "2", "9", "10", "00", "01", "99999999999999999999999", ".", ".", ".", "~", "~~", "+", "a", "b",
            "z", "A", "Z", "rc", "-", "git", "dfsg"]
REVISION = ["0", "1", "2", "10", "01", ".", "~", "+", "a", "Z", "ubuntu", "deb12u", "~bpo"]
EPOCHS = ["0:", "1:", "2:", "10:", "00:", "01:", "2147483647:"]


def version(dice):
    epoch = dice.one_of(EPOCHS) if dice.chance(0.2) else ""
    upstream = dice.one_of("01111112") + "".join(dice.one_of(UPSTREAM) for _ in range(dice.below(4)))
    if epoch and dice.chance(0.2):
        upstream += ":" + dice.one_of("12a")
    revision = "".join(dice.one_of(REVISION) for _ in range(1 + dice.below(3)))
    return epoch + upstream + ("-" + revision if dice.chance(0.6) else "")


def text(dice):
    """A text that may be no version, but is none of those that the two read apart on purpose."""
    while True:
        found = mangled(dice, version(dice), "01.-+~:aZ_ /")
        epoch, colon, rest = found.partition(":")
        begins = re.match("[0-9]", rest if colon else found) or rest == "" and colon
        if begins and not re.search("^[+ -]|[0-9]{6}", epoch if colon else "") and found == found.strip():
            return found


def dpkg(*words):
    return subprocess.run(["dpkg", *words], stdout=subprocess.DEVNULL, stderr=subprocess.DEVNULL).returncode == 0


def main():
    if not shutil.which("dpkg"):
        print("skipped: no dpkg")
        return
    dice = Dice(1)

    def reads(text):
        return dpkg("--validate-version", text)

    versions = [text for text in different(60, lambda: version(dice)) if not text.endswith("-")][:48]
    texts = different(300, lambda: text(dice)) if reads("1.0") else []
    compare("dpkg", "Debian", versions, lambda a, b: dpkg("--compare-versions", a, "le", b), texts, reads)


main()
