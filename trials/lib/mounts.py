"""File systems that trials mount: where they may not, the trial is skipped."""
import subprocess
from collections.abc import Iterator
from contextlib import contextmanager
from pathlib import Path


class Skipped(Exception):
    """What is not to be had on this machine."""


def done(*words: str | Path) -> None:
    """Runs a command without which the trial is skipped."""
    try:
        ended = subprocess.run(words, capture_output=True, text=True)
    except FileNotFoundError:
        raise Skipped(f"there is no {words[0]}") from None
    if ended.returncode != 0:
        raise Skipped(ended.stderr.strip().splitlines()[0])


def mount(*words: str | Path) -> None:
    done("mount", *words)


def make_ext4(image: Path, size: int) -> None:
    """A file of so many bytes that holds an empty ext4."""
    with open(image, "wb") as file:
        file.truncate(size)
    done("mkfs.ext4", "-q", "-m", "0", image)


@contextmanager
def mounted(where: Path, *words: str | Path) -> Iterator[Path]:
    """A new folder on which a file system is mounted until the block ends."""
    where.mkdir(exist_ok=True)
    mount(*words, where)
    try:
        yield where
    finally:
        subprocess.run(["umount", "-l", where], check=True)
