"""What measures share: the module of the built program, plain Rust programs to measure beside it, and how long a command takes."""
import os
import resource
import subprocess
import sys
import tempfile
import time
from collections.abc import Iterator, Sequence
from contextlib import contextmanager
from dataclasses import dataclass
from pathlib import Path

HERE = Path(__file__).resolve().parent
RECEIVE_BUFFER, LARGE_BUFFER = Path("/proc/sys/net/core/rmem_default"), 8_388_608  # bytes of each socket that is made
sys.path.insert(0, str(HERE.parent / "trials"))


def compiled(source: str, work: Path) -> Path:
    """A plain Rust program beside this file, compiled into a folder."""
    program = work / source.removesuffix(".rs")
    subprocess.run(["rustc", "-O", "--edition", "2021", "-o", program, HERE / source], check=True)
    return program


def seconds(words: Sequence[str | Path], given: Path | None = None, into: Path | None = None) -> float:
    """How long a command takes, with its standard input from a file and its output into one."""
    with open(given or "/dev/null", "rb") as lines, open(into or "/dev/null", "wb") as told:
        begin = time.monotonic()
        subprocess.run(words, stdin=lines, stdout=told, check=True)
        return time.monotonic() - begin


def most_memory() -> int:
    """The most megabytes that a program which has ended held, or that this one did when it began it: for who compiles nothing."""
    return resource.getrusage(resource.RUSAGE_CHILDREN).ru_maxrss // 1024


def large_buffer() -> int | None:
    """The size of a large receive buffer; None where the system's default can't be changed."""
    return LARGE_BUFFER if os.access(RECEIVE_BUFFER, os.W_OK) else None


@contextmanager
def receive_buffer(size: int | None) -> Iterator[None]:
    """Gives each socket that is made meanwhile a receive buffer so large; None leaves it as it is."""
    usual = RECEIVE_BUFFER.read_text()
    if size is not None:
        RECEIVE_BUFFER.write_text(str(size))
    try:
        yield
    finally:
        if size is not None:
            RECEIVE_BUFFER.write_text(usual)


@dataclass(frozen=True)
class Cost:
    """What a command took: seconds by the clock and of a processor, and the most memory that it held."""

    clock: float
    processor: float
    kibibytes: int


def cost(words: Sequence[str | Path], given: Path | None = None, into: Path | None = None) -> Cost:
    """What a command takes, with its standard input from a file and its output into one. Its memory is what `/usr/bin/time` tells:
    the system counts for a child what its parent held when it began, and this program may hold more than the command."""
    with open(given or "/dev/null", "rb") as lines, open(into or "/dev/null", "wb") as told, tempfile.NamedTemporaryFile("r") as memory:
        begin = time.monotonic()
        timed = ["/usr/bin/time", "-f", "%M", "-o", memory.name, *words]
        child = subprocess.Popen(timed, stdin=lines, stdout=told, stderr=subprocess.DEVNULL)
        _, status, used = os.wait4(child.pid, 0)
        child.returncode = os.waitstatus_to_exitcode(status)
        clock = time.monotonic() - begin
        if child.returncode:
            raise subprocess.CalledProcessError(child.returncode, words)
        return Cost(clock, used.ru_utime + used.ru_stime, int(memory.read()))
