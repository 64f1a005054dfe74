#!/usr/bin/env python3
"""Compares the order of Python versions with that of `packaging`, as pip brings it, on generated versions.

Skipped, saying so, where pip has no `packaging`. On purpose other than its are white space outside
beyond the six characters of ASCII, and letters outside ASCII that become ASCII ones in lower case:
there are none such here.
"""
from against import Dice, compare, different, mangled

WORDS = {
    "pre": ["a", "b", "c", "rc", "alpha", "beta", "pre", "preview", "A", "RC", "Beta", "Preview"],
    "post": ["post", "rev", "r", "POST", "Rev"],
    "dev": ["dev", "DEV"],
}
NUMBERS = ["0", "1", "2", "9", "10", "01", "007", "99999999999999999999999999999999999999999"]
SEPARATORS = ["", "", ".", "-", "_"]
LOCALS = ["a", "A", "abc", "b", "z", "0", "1", "9", "10", "010", "1a", "a1", "ubuntu", "99999999999999999999999"]
SPACES = [" ", "\t", "\n", "\v", "\f", "\r", "  \t"]


def number(dice):
    return dice.one_of(NUMBERS[:3] if dice.chance(0.7) else NUMBERS)


def word(dice, kind):
    text = dice.one_of(SEPARATORS) + dice.one_of(WORDS[kind])
    return text + (dice.one_of(SEPARATORS) + number(dice) if dice.chance(0.8) else dice.one_of(["", "", "", ".", "-", "_"]))


def version(dice):
    text = dice.one_of(["", "", "", "", "", "", "v", "V"])
    text += number(dice) + "!" if dice.chance(0.1) else ""
    numbers = ".".join(number(dice) for _ in range(1 + dice.below(4)))
    text += dice.one_of(["1", "1.0", "1.0.0"]) if dice.chance(0.7) else numbers
    text += word(dice, "pre") if dice.chance(0.4) else ""
    if dice.chance(0.3):
        text += "-" + number(dice) if dice.chance(0.3) else word(dice, "post")
    text += word(dice, "dev") if dice.chance(0.3) else ""
    if dice.chance(0.4):
        more = "".join(dice.one_of(".-_") + dice.one_of(LOCALS) for _ in range(dice.below(3)))
        text += "+" + dice.one_of(LOCALS) + more
    return text


def spaced(dice, text):
    return dice.one_of(SPACES) + text + dice.one_of(SPACES) if dice.chance(0.1) else text


def main():
    try:
        from pip._vendor.packaging.version import InvalidVersion, Version
    except ImportError:
        print("skipped: no packaging in pip")
        return

    def reads(text):
        try:
            Version(text)
        except InvalidVersion:
            return False
        return True

    dice = Dice(1)
    versions = different(120, lambda: spaced(dice, version(dice)))
    texts = different(500, lambda: mangled(dice, version(dice), "01.-_+! aAbcdrvx") or "x")
    keys = {text: Version(text) for text in versions}
    compare("packaging", "PyPI", versions, lambda a, b: keys[a] <= keys[b], texts, reads)


main()
