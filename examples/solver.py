"""include/solver.h for Python, over the shared library of docs/MANUAL.md. As a script it judges the files it is given.

>>> from solver import ALL, ANY, GREATEST, LEAST, Model, built, lines, write
>>> p = write(Model(signs=[LEAST, GREATEST], kinds=[ALL, ANY], thresholds=[0, 0], words=[2, 0, 0, 1]))
>>> judged = built(p)
>>> lines(judged.set), judged.count
([0, 1], 4)
"""
import ctypes
import os
import sys
from array import array
from pathlib import Path
from typing import Any, List, NamedTuple, Optional, Sequence

LEAST, GREATEST, ANY, ALL, VOTE = 0, 1, 0, 1, 2  # signs, and kinds
MAX_LINES, MAX_LEVELS, MAX_READ_WORDS, MAX_FILE, MAX_PAGE = 64, 8, 512, 4248, 2665
Judged = NamedTuple("Judged", [("set", int), ("count", int)])  # the good lines, bit i for line i, and the queries made
_Answer = NamedTuple("_Answer", [(name, Any) for name in "number set count length lines levels lent made".split()])
_ROOT = Path(__file__).resolve().parent.parent
_PATH = os.path.abspath(os.environ.get("SOLVER_LIBRARY") or _ROOT / "target/libsolver.so")
_MAKE = "cc -shared -Wl,--whole-archive target/staticlib/libsolver_c.a -Wl,--no-whole-archive -o target/libsolver.so"
_LIBRARY = ctypes.CDLL(_PATH) if os.path.exists(_PATH) else None
_ROWS = [row.split("\t") for row in (_ROOT / "include/refusals.txt").read_text().splitlines() if row[0] != "#"]
_WORDS = {(int(row[0]), operation): row[2:] for row in _ROWS for operation in row[1].split(", ")}


class Refused(Exception):  # the operation is named as in include/refusals.txt; the count is the forecast, if any
    def __init__(self, number: int, operation: str, count: int = 0) -> None:
        self.number, self.operation, self.count = number, operation, count

    def __str__(self) -> str:
        why, what_to_do = _WORDS.get((self.number, self.operation)) or _WORDS[self.number, "whatever takes a file"]
        return f"refused {self.number}: {why}{f' ({self.count} are forecast)' if self.count else ''}; {what_to_do}"


class Model(NamedTuple):
    signs: Sequence[int]
    kinds: Sequence[int]
    thresholds: Sequence[int]
    words: Sequence[int]  # line 0 first, and within a line level 1 first
    n = property(lambda self: len(self.kinds))
    d = property(lambda self: len(self.signs))


def _call(operation: str, function: str, codes: str, *values: Any) -> _Answer:
    """Lends bytes (B), words (Q), numbers (n) and an upper bound (b); the answer has also what was lent and made."""
    if _LIBRARY is None:
        raise FileNotFoundError(f"{_PATH} is missing; make it by: tools/build.py solver_c && {_MAKE}")
    # An array turns down numbers that ctypes would cut. It has an entry more than is lent, so that no pointer is null.
    lent = [value if code in "nb" else array(code, [*value, 0]) for code, value in zip(codes, values)]
    words, arguments = array("Q", bytes(8 * 6)), array("Q")
    for code, item in zip(codes, lent):
        if code == "b" and item is None:  # all lines of the file, which is lent first
            item = 2 ** min(int.from_bytes(lent[0][:2], "little"), MAX_LINES) - 1
        arguments.extend((item.buffer_info()[0], len(item) - 1) if code in "BQ" else (item,))
    getattr(_LIBRARY, function)(*map(ctypes.c_uint64, arguments), ctypes.c_void_p(words.buffer_info()[0]))
    number, _, count, length, _, _ = words
    if number:
        raise Refused(number, operation, count)
    return _Answer(*words, lent, lent[-1][:length].tobytes() if length else b"")


def read(file: bytes) -> Model:
    slices = bytes(MAX_LEVELS), bytes(MAX_LINES), bytes(MAX_LINES), [0] * MAX_READ_WORDS
    answer = _call("reading", "solver_read", "BBBBQ", file, *slices)
    lengths = answer.levels, answer.lines, answer.lines, answer.lines * answer.levels
    return Model(*(part[:length].tolist() for part, length in zip(answer.lent[1:], lengths)))


def write(model: Model) -> bytes:
    return _call("writing", "solver_write", "nnBBBQB", model.n, model.d, *model, bytes(MAX_FILE)).made


def query(file: bytes, sets: Sequence[int]) -> int:
    return _call("one query", "solver_query", "BQ", file, sets).set


def plain(file: bytes, a: int = 0, b: Optional[int] = None, ceiling: int = 1_000_000) -> Judged:
    return Judged(*_call("judging plainly", "solver_plain", "Bnbn", file, a, b, ceiling)[1:3])


def built(file: bytes, a: int = 0, b: Optional[int] = None, ceiling: int = 1_000_000) -> Judged:
    return Judged(*_call("judging by built-in trees", "solver_built", "Bnbn", file, a, b, ceiling)[1:3])


def lent(file: bytes, a: int, b: Optional[int], u: Sequence[int], v: Sequence[int]) -> Judged:
    return Judged(*_call("judging by lent trees", "solver_lent", "BnbBB", file, a, b, u, v)[1:3])


def one_sided(file: bytes, v: Sequence[int]) -> Judged:
    room = [0] * (len(v) + 2)
    return Judged(*_call("judging one-sidedly", "solver_one_sided", "BBQ", file, v, room)[1:3])


def page(file: bytes) -> str:
    return _call("making the page", "solver_page", "BB", file, bytes(MAX_PAGE)).made.decode()


def join(first: bytes, second: bytes) -> bytes:
    read(first), read(second)  # joining gives 2 for both together: one that is wrong by itself is refused here
    return _call("joining", "solver_join", "BBB", first, second, bytes(MAX_FILE)).made


def lines(set: int) -> List[int]:
    return [line for line in range(set.bit_length()) if set >> line & 1]


if __name__ == "__main__":  # status 1: a file is refused; 2: one cannot be read, or none is given
    status = 0 if sys.argv[1:] else 2
    if status:
        print("usage: python3 examples/solver.py FILE..", file=sys.stderr)
    for name in sys.argv[1:]:
        try:
            judged = built(Path(name).read_bytes())
            row = f"good lines {lines(judged.set)}, count {judged.count}"
        except (Refused, OSError) as error:
            row, status = str(error), max(status, 1 if isinstance(error, Refused) else 2)
        print(f"{name}: {row}")
    sys.exit(status)
