"""Package URLs from the files that build tools leave; `scan` imports it, and it does nothing alone.

CycloneDX and SPDX in JSON, `pip freeze`, package-lock.json, Cargo.lock and go.sum are told apart by what is in them.
"""
import json
import re
import tomllib
from urllib.parse import quote, unquote

try:
    from packageurl import PackageURL
except ImportError:
    PackageURL = None

FROZEN = re.compile(r"([A-Za-z0-9][A-Za-z0-9._-]*)===?([^\s;#]+)")
GO_SUM = re.compile(r"(\S+) (v\S+?)(/go\.mod)? h1:\S+")


class Unknown(Exception):
    """The file is of no kind that is read here."""


def purl(kind, name, version):
    """The URL of a package, whose name may have a namespace in front."""
    space, _, last = name.rpartition("/")
    if PackageURL:
        return PackageURL(kind, space or None, last, version or None).to_string()
    path = "/".join(quote(part, safe=":") for part in name.split("/"))
    return f"pkg:{kind}/{path}" + (f"@{quote(version, safe=':')}" if version else "")


def cyclone_dx(document):
    left, found = [document.get("metadata", {}).get("component"), *document.get("components", [])], []
    while left:
        component = left.pop(0)
        if component:
            found.append(component.get("purl"))
            left += component.get("components", [])
    return found


def spdx(document):
    references = [one for package in document.get("packages", []) for one in package.get("externalRefs", [])]
    return [one.get("referenceLocator") for one in references if one.get("referenceType") == "purl"]


def of_tree(dependencies):
    """The packages of a package-lock.json of the first version, whose dependencies hold their own."""
    for name, one in dependencies.items():
        yield purl("npm", name, one.get("version"))
        yield from of_tree(one.get("dependencies", {}))


def package_lock(document):
    if "packages" not in document:
        return list(of_tree(document.get("dependencies", {})))
    found = []
    for path, one in document["packages"].items():
        if path and not one.get("link") and one.get("version"):
            found.append(purl("npm", one.get("name") or path.rpartition("node_modules/")[2], one["version"]))
    return found


def of_json(document):
    if not isinstance(document, dict):
        raise Unknown("it is JSON of another kind")
    if document.get("bomFormat") == "CycloneDX":
        return cyclone_dx(document)
    if "spdxVersion" in document:
        return spdx(document)
    if "lockfileVersion" in document:
        return package_lock(document)
    raise Unknown("it is JSON of another kind")


def cargo_lock(text):
    packages = tomllib.loads(text)["package"]
    return [purl("cargo", one["name"], one["version"]) for one in packages if "source" in one or len(packages) == 1]


def of_lines(text):
    lines = [line.strip() for line in text.splitlines()]
    lines = [line for line in lines if line and not line.startswith(("#", "-"))]
    go = [GO_SUM.fullmatch(line) for line in lines]
    if lines and all(go):
        return [purl("golang", one[1], one[2]) for one in go if not one[3]]
    frozen = [FROZEN.match(line) for line in lines]
    if any(frozen):
        return [purl("pypi", one[1], one[2]) for one in frozen if one]
    raise Unknown("it has no line of `pip freeze` or go.sum")


def read(bytes):
    """The package URLs of a file, each once, in their order."""
    text = bytes.decode("utf-8-sig")
    if text.lstrip().startswith("{"):
        found = of_json(json.loads(text))
    elif "[[package]]" in text:
        found = cargo_lock(text)
    else:
        found = of_lines(text)
    return list(dict.fromkeys(one for one in found if one))


def parts(url):
    """Name and version of a package URL, as they are shown."""
    front, slash, last = url.split("#")[0].split("?")[0].removeprefix("pkg:").rpartition("/")
    at = last.rfind("@")
    name, version = (last[:at], last[at + 1:]) if at > 0 else (last, "")
    return unquote(front + slash + name), unquote(version)
