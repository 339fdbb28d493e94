"""Request and answer texts, and the two programs that turn one into the other. For the scripts of this project."""
import contextlib
import filecmp
import json
import os
import shutil
import subprocess
import sys

ROOT = os.path.dirname(os.path.dirname(os.path.abspath(__file__)))
SCRIPT = os.path.join(ROOT, "rowfind")
COMPILED = os.path.join(ROOT, "target", "bin", "rowfind")
SECOND = os.path.join(ROOT, "target", "second", "release", "second")

sys.path.insert(0, os.path.join(ROOT, "bindings", "python"))
sys.dont_write_bytecode = True

from rowfind import (
    ALWAYS_ZERO, CHECK, CIRCULANT, GATES, LARGEST, MEANINGS, MOST_VALUES, MOST_VALUES_OF_A_WALK, NONE_YET, SEARCH, SURVEY, WALK, line,
    numbers, request,
)


def give_up(words):
    """Ends a script that cannot do its work: one line, and a status of its own."""
    print(f"{os.path.basename(sys.argv[0])}: {words}", file=sys.stderr)
    sys.exit(2)


def needed(command, what_for, where_from):
    """Gives up where a command is missing."""
    if not shutil.which(command):
        give_up(f"the command {command}, which {what_for}, is missing: install {where_from} first")


def rowfind_path():
    """The program under test: the environment variable ROWFIND, or ./rowfind in the project's root."""
    return os.path.abspath(os.environ.get("ROWFIND") or SCRIPT)


def ready_rowfind():
    """The program under test, ready to run many times: what ROWFIND names, or the compiled program, which ./rowfind first brings
    up to date."""
    path = rowfind_path()
    if is_second(path):
        give_up("ROWFIND names the second program, which would be compared with itself")
    try:
        done = subprocess.run([path], stdin=subprocess.DEVNULL, stdout=subprocess.DEVNULL, check=False)
    except OSError as error:
        give_up(f"{path} cannot be run ({error.strerror}); ROWFIND may name another program")
    if done.returncode and path == SCRIPT:
        sys.exit(2)  # the script has said why
    if done.returncode:
        give_up(f"{path} ended with status {done.returncode}, so nothing can be asked of it")
    return COMPILED if path == SCRIPT else path


def ready_calls():
    """What the environment variable CALLS names, or the program `calls` from the sources that are there."""
    if os.environ.get("CALLS"):
        return os.path.abspath(os.environ["CALLS"])
    needed("rt", "proves and builds the program calls", "the Rattle kit")
    build = [os.path.join(ROOT, "tools", "build"), "calls"]
    done = subprocess.run(build, cwd=ROOT, stdout=subprocess.PIPE, stderr=subprocess.STDOUT, check=False)
    if done.returncode:
        give_up("the program calls could not be built from the sources that are here: `tools/build calls` says why")
    return os.path.join(ROOT, "target", "bin", "calls")


def is_second(path):
    """Whether a program is the second program or a copy of it."""
    both = os.path.isfile(path) and os.path.isfile(SECOND)
    return both and (os.path.samefile(path, SECOND) or filecmp.cmp(path, SECOND, shallow=False))


def build_second():
    """Builds the second program, without a network."""
    needed("cargo", "builds the second program", "the Rust toolchain")
    command = ["cargo", "build", "--release", "--offline", "--quiet"]
    places = ["--manifest-path", os.path.join(ROOT, "second", "Cargo.toml"), "--target-dir", os.path.join(ROOT, "target", "second")]
    if subprocess.run(command + places, check=False).returncode:
        give_up("the second program could not be built")


def chosen(parts, names):
    """The parts, functions, that a command line names; all if it names none."""
    known = {part.__name__: part for part in parts}
    for name in names:
        if name not in known:
            give_up(f"there is no part {name!r}; the parts are {', '.join(known)}")
    return [known[name] for name in names] if names else parts


def hadamard(row):
    """Entry h at (i xor j), line by line."""
    n = range(len(row))
    return [row[i ^ j] for i in n for j in n]


def circulant(row):
    """Entry (i, j) is the row's element at (j - i) modulo n, line by line."""
    n = len(row)
    return [row[(j - i) % n] for i in range(n) for j in range(n)]


def run(program, text, timeout=None):
    """Standard output of one run of a program on a text."""
    return run_on(program, {"input": text}, timeout)


def run_on(program, source, timeout=None):
    """The same with the standard input that `source`, arguments of subprocess.run, sets up. A status other than 0, death by a
    signal and an overrun of the time are answers of their own, which no answer text is equal to."""
    try:
        done = subprocess.run([program], stdout=subprocess.PIPE, timeout=timeout, check=False, **source)
    except subprocess.TimeoutExpired:
        return b"no answer within %d seconds" % timeout
    if done.returncode:
        how = b"signal %d" if done.returncode < 0 else b"exit status %d"
        return b"ended by " + how % abs(done.returncode) + b" after " + done.stdout
    return done.stdout


@contextlib.contextmanager
def directory():
    """A standard input that can be opened and not be read."""
    place = os.open(ROOT, os.O_RDONLY)
    yield {"stdin": place}
    os.close(place)


@contextlib.contextmanager
def closed():
    """A standard input that is not open."""
    yield {"stdin": subprocess.DEVNULL, "preexec_fn": lambda: os.close(0)}


@contextlib.contextmanager
def failing_behind(text):
    """A standard input that gives a short text, and fails instead of telling its end: its writer stays, and it does not wait."""
    reader, writer = os.pipe()
    os.set_blocking(reader, False)
    os.write(writer, text)
    yield {"stdin": reader}
    os.close(reader)
    os.close(writer)


class Server:
    """The second program answering many requests in one process."""

    def __init__(self):
        self.process = subprocess.Popen([SECOND, "serve"], stdin=subprocess.PIPE, stdout=subprocess.PIPE)

    def answer(self, text):
        self.process.stdin.write(len(text).to_bytes(4, "little") + text)
        self.process.stdin.flush()
        return self.process.stdout.read(int.from_bytes(self.process.stdout.read(4), "little"))

    def close(self):
        self.process.stdin.close()
        self.process.wait()
        self.process.stdout.close()


def printed_matrices():
    """The matrices of vectors/matrices.json."""
    with open(os.path.join(ROOT, "vectors", "matrices.json"), encoding="utf8") as f:
        return json.load(f)["matrices"]


def entries_of(matrix):
    """All entries of a printed matrix, line by line."""
    shapes = {"hadamard": hadamard, "circulant": circulant, "full": list}
    return shapes[matrix["shape"]](matrix["entries"])


def check_of(matrix):
    """The check of a printed matrix."""
    return request(CHECK, matrix["polynomial"], matrix["order"], entries_of(matrix))


def irreducible_polynomials():
    """All irreducible polynomials of degrees 2 to 8: those below 512 that are no product, by a sieve."""
    products = {product_of(a, b) for a in range(2, 256) for b in range(2, 256)}
    return [p for p in range(4, 512) if p not in products]


def product_of(a, b):
    """Product of two polynomials over two elements."""
    result = 0
    while b:
        result ^= a * (b & 1)
        a, b = a * 2, b // 2
    return result


def field_product(p, a, b):
    """Product of two elements: the remainder after division by the polynomial."""
    result = product_of(a, b)
    while result.bit_length() >= p.bit_length():
        result ^= p << (result.bit_length() - p.bit_length())
    return result


def product_steps(p, a, b):
    """The steps of a times b in the order of FIPS 197 (2001), section 4.2.1: for each bit of b, the lowest first, its power of 2 and
    the doubled value, then the bits up to it and the sum after them."""
    m, doubled, total = degree(p), a, 0
    for k in range(m):
        total ^= doubled * (b >> k & 1)
        yield 1 << k, doubled
        yield b % (2 << k), total
        doubled = doubled << 1 ^ p * (doubled >> (m - 1))


def inverse(p, a):
    """The element whose product with a is 1."""
    return next(b for b in range(1, 1 << degree(p)) if field_product(p, a, b) == 1)


def degree(p):
    return p.bit_length() - 1
