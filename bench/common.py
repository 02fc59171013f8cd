"""What the benches share: the bytes of a drawing, runs in turn with their times and memory, how these are told, and the
command line:

    bench/NAME PROGRAM [FOLDER] [--small]

PROGRAM is the built program (crates/dgnedit/out/dgnedit). FOLDER is where a bench makes its drawings, or else a
temporary folder. A bench runs what it compares in turn, five times where it says nothing else, and prints the least,
the middle and the greatest time of each in seconds, how many times the middle of another one its middle is, and its
peak memory.
With --small the drawings and the scripts have a 64th of their size and there is one round: that tries a bench, and
measures nothing."""

import os
import statistics
import struct
import subprocess
import sys
import tempfile
import time
from functools import partial
from typing import Callable, Dict, List, Mapping, Optional, Sequence, Tuple

sys.path.insert(0, os.path.join(os.path.dirname(os.path.dirname(os.path.abspath(__file__))), 'dgnkit', 'src'))

from dgnkit.format.numbers import long_bytes, range_bytes  # noqa: E402

long, offset_long = long_bytes, range_bytes
Point = Tuple[int, int]

IS_SMALL = '--small' in sys.argv


def scaled(count: int) -> int:
    """So many, or a 64th of it for a trial."""
    return count // 64 if IS_SMALL else count


SIZE = scaled(67108864)
ROUNDS = 1 if IS_SMALL else 5
TCB = bytes([8, 9, 0xFE, 2]) + bytes(1532)
END = b'\xff\xff'
DATA = bytes([0, 0x80, 1, 0, 0, 0, 0, 0, 0, 0, 0, 0])  # attribute data: a linkage and a rest


def line(x: int, data: bytes = b'') -> bytes:
    """A line on level 1 from x,0 to x+100,50: 52 bytes, and attribute data behind them."""
    low = offset_long(x) + offset_long(0) + offset_long(0)
    high = offset_long(x + 100) + offset_long(50) + offset_long(0)
    words = struct.pack('<HHH', 0, 10, 0x0800 if data else 0)
    points = long(x) + long(0) + long(x + 100) + long(50)
    head = bytes([1, 3]) + struct.pack('<H', 24 + len(data) // 2)
    return head + low + high + words + bytes(2) + points + data


def element(kind: int, corners: Tuple[Point, Point], body: bytes, member: bool = False) -> bytes:
    """An element on level 1 with a display header: its type, the low and the high corner of its range, what stands
    behind the header, and whether it is a member."""
    (left, below), (right, above) = corners
    low = offset_long(left) + offset_long(below) + offset_long(0)
    high = offset_long(right) + offset_long(above) + offset_long(0)
    rest = low + high + struct.pack('<HHH', 0, (4 + len(body)) // 2, 0) + bytes(2) + body
    return bytes([0x81 if member else 1, kind]) + struct.pack('<H', len(rest) // 2) + rest


def points(*pairs: Point) -> bytes:
    return b''.join(long(x) + long(y) for x, y in pairs)


def trees(x: int) -> bytes:
    """A cell of two lines, a line, a line string, a shape and a text at x,0: 444 bytes, seven elements, five roots."""
    box = (x, 0), (x + 100, 50)
    member = element(3, box, points(*box), True)
    counted = struct.pack('<H', (92 + 2 * len(member) - 38) // 2)
    cell = element(2, box, counted + bytes(46) + points((x, 0)))
    string = struct.pack('<H', 3) + points((x, 0), (x + 50, 50), (x + 100, 0))
    shape = struct.pack('<H', 4) + points((x, 0), (x + 100, 0), (x + 100, 50), (x, 0))
    text = bytes(14) + points((x, 0)) + bytes([4, 0]) + b'SITE'
    return (cell + member + member + element(3, box, points(*box)) + element(4, box, string)
            + element(6, box, shape) + element(17, box, text))


def write_drawing(path: str, pieces: Sequence[bytes], count: int, tail: bytes, before: bytes = b'') -> None:
    """A TCB, what stands before the others, so many elements, which are these pieces again and again, and a tail."""
    chunk = b''.join(pieces)
    size = len(pieces[0])
    with open(path, 'wb') as out:
        out.write(TCB + before)
        for _ in range(count // len(pieces)):
            out.write(chunk)
        out.write(chunk[:size * (count % len(pieces))] + tail)


def seconds(words: List[str], folder: str, made: Optional[int], said: Optional[int]) -> Tuple[float, float]:
    """How long a command takes, and its peak memory in MB. It has to make a file `out` of so many bytes,
    or none, and to say so many bytes, if that is given."""
    path = os.path.join(folder, 'out')
    if os.path.exists(path):
        os.remove(path)
    with open(os.path.join(folder, 'said'), 'wb') as text:
        start = time.perf_counter()
        child = subprocess.Popen(words, cwd=folder, stdout=text)
        _, status, usage = os.wait4(child.pid, 0)
        end = time.perf_counter()
    child.returncode = os.waitstatus_to_exitcode(status)
    if child.returncode != 0:
        raise SystemExit('%s ended with %d' % (words[0], child.returncode))
    size = os.path.getsize(path) if os.path.exists(path) else None
    if size != made or said not in (None, os.path.getsize(os.path.join(folder, 'said'))):
        raise SystemExit('%s wrote or said something else' % words[0])
    return end - start, usage.ru_maxrss / 1024


Measure = Callable[[], Tuple[float, float]]    # one run: its seconds, and its peak memory in MB


def command(words: List[str], folder: str, made: Optional[int], said: Optional[int]) -> Measure:
    """A run of a command, as `seconds` has it."""
    return partial(seconds, words, folder, made, said)


class Took:
    """The times of the runs of one thing, and its peak memory."""

    def __init__(self, times: Sequence[float] = ()) -> None:
        self.times: List[float] = list(times)
        self.memory = 0.0

    def add(self, time: float, memory: float) -> None:
        self.times.append(time)
        self.memory = max(self.memory, memory)

    @property
    def middle(self) -> float:
        return statistics.median(self.times)

    def ratios(self, other: 'Took') -> List[float]:
        """How many times the other's each time is, turn by turn."""
        return [a / b for a, b in zip(self.times, other.times)]


def in_turn(runs: Mapping[str, Measure], rounds: int = ROUNDS,
            after: Optional[Callable[[str], None]] = None) -> Dict[str, Took]:
    """What each run took, where each round runs all of them; `after` is called with the name of each that has run."""
    took = {name: Took() for name in runs}
    for _ in range(rounds):
        for name, run in runs.items():
            took[name].add(*run())
            if after:
                after(name)
    return took


def together(parts: Sequence[Took]) -> Took:
    """Runs of one round as one."""
    return Took([sum(times) for times in zip(*(it.times for it in parts))])


def three(values: Sequence[float], form: str = '%.3f') -> str:
    """The least, the middle and the greatest."""
    return ' '.join(form % it for it in (min(values), statistics.median(values), max(values)))


def tell(name: str, took: Took, *others: Tuple[Took, str]) -> None:
    """Says what a run took, and how many times each of the others its middle is."""
    ratios = ''.join('  %.2f times %s' % (took.middle / other.middle, said) for other, said in others)
    memory = '  %.0f MB' % took.memory if took.memory else ''
    print('%-34s %s s%s%s' % (name, three(took.times), ratios, memory))


def number_of(words: List[str], otherwise: int) -> int:
    """The first number among the words, which is taken from them."""
    found = next((it for it in words if it.isdigit()), None)
    if found is not None:
        words.remove(found)
    return otherwise if found is None else int(found)


def run_bench(bench: Callable[[str, str], None], usage: Optional[str]) -> None:
    """Runs a bench on the program and in the folder that the words name, or in a temporary folder."""
    words = [it for it in sys.argv[1:] if it != '--small']
    if len(words) not in (1, 2):
        raise SystemExit(usage)
    program = os.path.abspath(words[0])
    if len(words) == 2:
        bench(program, words[1])
    else:
        with tempfile.TemporaryDirectory(prefix='dgnedit-bench-') as folder:
            bench(program, folder)
