#!/usr/bin/env python3
"""Builds archive_tool in minutes, optimised for this processor's kind, without proving anything: for a first hour and for trials.

Usage: tools/quick_build.py [--out FILE]   FILE is crates/archive_tool/out/quick/archive_tool if it is not given
Status 0 if the program was built and prints its version.

The proved build takes an hour, because the toolchain compiles a program only after it has proved it. `rt try` compiles without a proof,
but with checks of each address and without optimising, and its program is some 400 times slower than the proved one. This tool runs
`rt try` with a compiler that optimises and leaves the address checks out, keeps the object file, and links it as the toolchain links a
proved program. The program stops at an index out of bounds or an overflow as that of `rt try` does, which a proved program never meets;
so it takes 1.5 to 5 times the processor time of the proved one. Don't serve with it: `tools/libraries.py` builds the proved program.

The tool leans on how `rt try` of this kit calls its compiler. If another kit calls it otherwise, the tool says so and builds nothing.
"""
import argparse
import hashlib
import os
import shutil
import stat
import subprocess
import sys
import time
from pathlib import Path

from repository import ROOT

CRATE = ROOT / "crates/archive_tool"
ROOM = CRATE / "out/quick"
KIT = Path(shutil.which("rt") or "rt").resolve().parent.parent
TARGET = "x86_64-unknown-linux-gnu"
# What a compiler's words are changed to, and the object files that a call of it made, one a line.
COMPILER = """#!/usr/bin/env python3
import os, sys
words = ["-O2" if word == "-O0" else word for word in sys.argv[1:] if word != "-fsanitize=address"]
made = words[words.index("-o") + 1] if "-o" in words else ""
if status := os.spawnv(os.P_WAIT, {clang!r}, [{clang!r}, *words]):
    sys.exit(status)
if made and os.path.isfile(made):
    kept = {objects!r} + "/" + str(len(os.listdir({objects!r}))) + ".o"
    with open(made, "rb") as source, open(kept, "wb") as target:
        target.write(source.read())
"""


def linked_kit(room: Path, objects: Path) -> Path:
    """A copy of the kit, of links but for `rt` itself and the compiler, which optimises and keeps its object files."""
    copy = room / "kit"
    for folder in ("bin", "toolchain/bin"):
        (copy / folder).mkdir(parents=True)
    for own in KIT.iterdir():
        if own.name not in ("bin", "toolchain"):
            (copy / own.name).symlink_to(own)
    for own in (KIT / "bin").iterdir():
        # `rt` finds its kit by where its own files lie, so its scripts are copied.
        is_script = own.suffix == ".py" or own.open("rb").read(2) == b"#!"
        (shutil.copy2 if is_script else os.symlink)(own, copy / "bin" / own.name)
    for own in (KIT / "toolchain").iterdir():
        if own.name != "bin":
            (copy / "toolchain" / own.name).symlink_to(own)
    for own in (KIT / "toolchain/bin").iterdir():
        if own.name != "clang":
            (copy / "toolchain/bin" / own.name).symlink_to(own.resolve())
    clang = copy / "toolchain/bin/clang"
    clang.write_text(COMPILER.format(clang=str(KIT / "toolchain/bin/clang"), objects=str(objects)))
    clang.chmod(clang.stat().st_mode | stat.S_IXUSR)
    return copy


def object_of(room: Path) -> Path:
    """The object file of the program, which `rt try` compiled."""
    objects = room / "objects"
    objects.mkdir()
    kit = linked_kit(room, objects)
    words = [kit / "bin/rt", "try", "--seconds", "60", "--", "--version"]
    ran = subprocess.run(words, cwd=CRATE, stdin=subprocess.DEVNULL, stdout=subprocess.PIPE, stderr=subprocess.STDOUT, text=True)
    made = sorted(objects.iterdir(), key=lambda it: it.stat().st_size)
    if ran.returncode or not made:
        print(ran.stdout, end="")
        sys.exit(
            f"`rt try` ended with status {ran.returncode}"
            if ran.returncode
            else f"`rt try` of the kit in {KIT} does not call its compiler as this tool expects it: nothing was built"
        )
    return made[-1]


def link(program: Path, made: Path) -> None:
    """Links the object file as the toolchain links a proved program."""
    libraries = [KIT / "c/libos_c.a", KIT / "c/liblibc_c.a"]
    words = [KIT / "bin/rattle-link", "--target", TARGET, "--toolchain", KIT / "toolchain", "-o", program, made, *libraries]
    ran = subprocess.run(words, stdout=subprocess.PIPE, stderr=subprocess.STDOUT, text=True)
    if ran.returncode:
        sys.exit(f"the program was not linked:\n{ran.stdout}")


def text_that_was_built() -> str:
    """Which text was built, and who proved it."""
    commit = subprocess.run(["git", "rev-parse", "--short=10", "HEAD"], cwd=ROOT, capture_output=True, text=True)
    changes = subprocess.run(["git", "status", "--porcelain", "crates", "crates.txt"], cwd=ROOT, capture_output=True, text=True)
    if commit.returncode or changes.returncode:
        return "It was built from a folder that is no checkout, so nothing is known of who proved its text."
    if changes.stdout.strip():
        return f"It was built from {commit.stdout.strip()} with changes: nobody has proved this text."
    return f"It was built from {commit.stdout.strip()}. The gate proves each commit before it becomes part of main."


def main() -> int:
    words = argparse.ArgumentParser(description=__doc__, formatter_class=argparse.RawDescriptionHelpFormatter)
    words.add_argument("--out", type=Path, default=ROOM / "archive_tool", help="the program's file")
    program = words.parse_args().out.resolve()
    began = time.monotonic()
    shutil.rmtree(ROOM / "work", ignore_errors=True)
    (ROOM / "work").mkdir(parents=True)
    program.parent.mkdir(parents=True, exist_ok=True)
    try:
        link(program, object_of(ROOM / "work"))
    finally:
        shutil.rmtree(ROOM / "work", ignore_errors=True)
    ran = subprocess.run([program, "--version"], stdout=subprocess.PIPE, text=True)
    print(f"{ran.stdout}{program}: built in {time.monotonic() - began:.0f} s, sha256 {hashlib.sha256(program.read_bytes()).hexdigest()}")
    print(f"This program is unproved: nothing was proved while it was built. {text_that_was_built()}")
    print("It takes 1.5 to 5 times the processor time of the proved program. For production build that: README.md, \"Build it proved\".")
    return ran.returncode


if __name__ == "__main__":
    sys.exit(main())
