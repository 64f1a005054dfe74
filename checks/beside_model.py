"""What the comparisons of `replay` with the model of the service share; they import it, and it does nothing alone."""
import importlib.machinery, importlib.util, os, subprocess, sys

from program import TOP
from service_model import replayed

FILES = ("service.cases", "batches.cases", "repo.cases")


def cases():
    """The cases of the files that are there, as the script `cases` reads them."""
    sys.dont_write_bytecode = True
    loader = importlib.machinery.SourceFileLoader("cases", os.path.join(TOP, "checks", "cases"))
    module = importlib.util.module_from_spec(importlib.util.spec_from_loader("cases", loader))
    loader.exec_module(module)
    paths = [os.path.join(TOP, "checks", name) for name in FILES]
    return [case for path in paths if os.path.exists(path) for case in module.read_cases(path)]


def difference(program, words, text, name):
    """What the program wrote otherwise than the model, or nothing."""
    done = subprocess.run([program, *words], input=text, stdout=subprocess.PIPE, timeout=600)
    wanted, status = replayed(words, text)
    if (done.stdout, done.returncode) == (wanted, status):
        return None
    both = list(zip(done.stdout, wanted))
    apart = next((at for at, (got, due) in enumerate(both) if got != due), len(both))
    part = slice(max(apart - 200, 0), apart + 200)
    return (f"{name}: {' '.join(words)}, apart at byte {apart}, status {done.returncode}, wanted {status}\n"
            f"  got    {done.stdout[part]!r}\n  wanted {wanted[part]!r}")


def told(found, what):
    """Prints the first differences of some, and says whether there are none."""
    bad = [one for one in found if one]
    print("\n".join(bad[:20] + [f"{len(found)} {what}, {len(bad)} apart"]))
    return not bad
