#!/usr/bin/env python3
"""Compares the order of SemVer versions with that of npm's own `semver`, on generated versions.

Skipped, saying so, where there is no node with npm's semver. On purpose other than npm's are one and
two numbers, numbers from 2^53 on, which npm refuses or compares as floats, white space and `=`
outside, and texts above 256 characters: there are none such here.
"""
import json, os, re, shutil, subprocess

from against import Dice, compare, different, mangled

NUMBERS = ["0", "0", "1", "1", "1", "2", "9", "10", "100", "4294967296", "900719925474099"]
PARTS = ["0", "1", "2", "9", "10", "11", "100", "900719925474099", "a", "A", "alpha", "beta", "rc", "z", "Z", "-", "--",
         "a-b", "a0", "a9", "a10", "0a", "1a", "00a", "1-", "-1"]
BUILDS = ["a", "1", "01", "0.00", "a.b-c", "-"]

SCRIPT = """
const semver = require(process.argv[1]);
const [versions, texts] = JSON.parse(require('fs').readFileSync(0));
const atMost = versions.map(a => versions.map(b => semver.compare(a, b) <= 0));
console.log(JSON.stringify([atMost, texts.map(text => semver.valid(text) !== null)]));
"""


def version(dice):
    text = "v" if dice.chance(0.1) else ""
    text += "1.0.0" if dice.chance(0.6) else ".".join(dice.one_of(NUMBERS) for _ in range(3))
    if dice.chance(0.8):
        text += "-" + ".".join(dice.one_of(PARTS) for _ in range(1 + dice.below(3)))
    if dice.chance(0.2):
        text += "+" + dice.one_of(BUILDS)
    return text


def text(dice):
    """A text that may be no version, whose numbers are three."""
    while True:
        found = mangled(dice, version(dice), "01.-+aAvV_~x")
        if re.split("[-+]", found)[0].count(".") == 2:
            return found


def semver_of_npm():
    npm = shutil.which("npm")
    folders = [os.path.join(os.path.dirname(os.path.realpath(npm)), "..")] if npm else []
    for folder in folders + ["/usr/lib/node_modules/npm", "/usr/share/nodejs/npm", "/usr/share/nodejs"]:
        for path in (os.path.join(folder, "node_modules", "semver"), os.path.join(folder, "semver")):
            if os.path.isdir(path):
                return os.path.abspath(path)
    return None


def main():
    module = semver_of_npm()
    if not module or not shutil.which("node"):
        print("skipped: no node with npm's semver")
        return
    dice = Dice(1)
    versions = different(120, lambda: version(dice))
    texts = different(400, lambda: text(dice))
    words, asked = ["node", "-e", SCRIPT, module], json.dumps([versions, texts]).encode()
    at_most, valid = json.loads(subprocess.run(words, input=asked, stdout=subprocess.PIPE, check=True).stdout)
    place = {version: number for number, version in enumerate(versions)}
    valid = dict(zip(texts, valid))
    compare("npm's semver", "npm", versions, lambda a, b: at_most[place[a]][place[b]], texts, valid.get)


main()
