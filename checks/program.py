"""The program that the checks run; they import it, and it does nothing alone."""
import contextlib, itertools, os, socket, subprocess, sys, time

TOP = os.path.dirname(os.path.dirname(os.path.abspath(__file__)))
PORTS = itertools.count(10_240 + os.getpid() * 64 % 20_000)


def built():
    """The file in $OSV_SERVICE, or else this repository's program, built where it is missing or old.

    `bin/osv_service` looks at the sources at each run, so it is run once, and then the program itself.
    """
    named = os.environ.get("OSV_SERVICE")
    if named:
        return os.path.abspath(named)
    words = [os.path.join(TOP, "bin", "osv_service"), "ask", "a", "b", "c"]
    done = subprocess.run(words, stdin=subprocess.DEVNULL, stdout=subprocess.DEVNULL)
    if done.returncode:
        sys.exit(f"{words[0]}: status {done.returncode}")
    return os.path.join(TOP, "crates", "osv_service", "out", "osv_service")


def standing_on(name):
    """A crate of this repository and all that it stands on."""
    uses = {}
    with open(os.path.join(TOP, "crates.txt")) as lines:
        for line in lines:
            head, _, rest = line.partition("#")[0].partition(":")
            if head.split():
                uses[head.split()[0]] = rest.split()
    found, left = set(), [name]
    while left:
        crate = left.pop()
        if crate in uses and crate not in found:
            found.add(crate)
            left += uses[crate]
    return found


def built_test(name):
    """The program of a crate `tests_*`: the file in its name in capitals, as $TESTS_NAMES, or else this
    repository's, built where it is missing or older than its sources."""
    named = os.environ.get(name.upper())
    if named:
        return os.path.abspath(named)
    folder = os.path.join(TOP, "crates", name)
    program = os.path.join(folder, "out", name)
    parts = [os.path.join(TOP, "crates", crate, part) for crate in standing_on(name) for part in ("src", "specs", "proofs")]
    files = [os.path.join(at, file) for part in parts for at, _, inside in os.walk(part) for file in inside]
    if not os.path.exists(program) or any(os.path.getmtime(file) > os.path.getmtime(program) for file in files):
        done = subprocess.run(["rt", "run"], cwd=folder, stdin=subprocess.DEVNULL, stdout=subprocess.DEVNULL)
        if done.returncode:
            sys.exit(f"rt run in crates/{name}: status {done.returncode}")
        os.utime(program)
    return program


def free_port():
    """A loopback port below those that the system gives to clients, which come and go while a program starts. It is bound
    and not listened on: a process that another thread starts just then holds it for a moment more, and could not be told
    from a server."""
    while True:
        with socket.socket() as one:
            one.setsockopt(socket.SOL_SOCKET, socket.SO_REUSEADDR, 1)
            try:
                one.bind(("127.0.0.1", next(PORTS)))
                return one.getsockname()[1]
            except OSError:
                pass


@contextlib.contextmanager
def listening(port, words):
    """A program that listens on a loopback port, until it isn't wanted any more."""
    process = subprocess.Popen(words)
    try:
        for _ in range(600):
            if process.poll() is not None:
                sys.exit(f"{words[0]} ended with {process.returncode}")
            try:
                socket.create_connection(("127.0.0.1", port)).close()
                break
            except OSError:
                time.sleep(0.05)
        else:
            sys.exit(f"{words[0]} doesn't listen")
        yield
    finally:
        process.terminate()
        process.wait()
