#!/usr/bin/env python3
"""Checks that README.md and docs/ show what the program prints, that README.md names a toolchain which the one here may stand
for, and that links lead to what is there.

Usage: tools/sessions.py [program]            without a program the one in crates/archive_tool/out
Each block of `console` is a session, which begins at the top of the repository: lines that begin with `$ ` are commands for
bash. Under each stands all that it prints on either stream; a line `...` leaves lines out. `rt run --`, `rt try --` and
`archive_tool` are the program. /var/tmp is a folder of the page's own, which is removed at its end.
A command that README.md, SERVING.md or CONTROL.md shows elsewhere is run too: one of a folder or a file in a piece of code, or
one of /usr/local/bin/archive_tool. It is run over a recorded archive, with a value for each <word>, once with all that stands
in brackets and once without, and has to end with status 0.
What proves (`rt ci`, `tools/libraries.py`) is not run again. The followers of examples/ are checked against a small server
(trials/lib/followers.py). The unit that SERVING.md prints has to be the one of examples/operations/. Status 1 if anything differs.
"""
import os
import re
import shlex
import socket
import subprocess
import sys
import tempfile
from collections.abc import Iterator
from pathlib import Path

from repository import ROOT

sys.path.insert(0, str(ROOT / "trials"))
from lib import followers  # noqa: E402
from lib.tool import free_port  # noqa: E402

PAGES = [ROOT / "README.md", ROOT / "CONTRIBUTING.md", ROOT / "SECURITY.md", *sorted((ROOT / "docs").glob("*.md"))]
BLOCK = re.compile(r"^```console\n(.*?)^```$", re.M | re.S)
UNITS = ("recorder.service", "mirror.service")
UNIT = re.compile(r"^```ini\n(.*?)^```$", re.M | re.S)
LINK = re.compile(r"\[[^\]]*\]\(([^)\s]+)\)")
TOOLCHAIN = re.compile(r"rattle-kit-(\d+)([a-z]*)( or later|)`?,?(?: of|) logic `?(\w+)")
PROVES = re.compile(r"^rt (ci|check|test)\b")
PROGRAM = re.compile(r"\brt run (--jobs \d+ )?-- |\brt try -- |(?<![\w/])(out/)?archive_tool ")
# Lines of `rt try` itself.
TRIED = re.compile(r"^(checked: |races: |run=).*\n", re.M)

SHOWING = [ROOT / "README.md", ROOT / "docs/SERVING.md", ROOT / "docs/CONTROL.md"]
WORD = r"(?:create|run|serve|compact|list|describe|verify|export|frames)"
SHOWN = re.compile(
    rf"`(?:archive_tool )?({WORD} [^`\n]*[<\[](?:folder|copy|file)[>\]][^`\n]*|(?:<command> )?--(?:help|version))`"
    rf"|/usr/local/bin/archive_tool ({WORD} (?:.*\\\n)*.*)$",
    re.M,
)


def sessions(text: str) -> Iterator[list[tuple[str, str]]]:
    """The sessions of a page: commands, each with what stands under it."""
    for block in BLOCK.findall(text):
        yield [tuple(part.split("\n", 1)) for part in re.split(r"^\$ ", block, flags=re.M)[1:]]


def differences(page: Path, program: Path, room: str) -> Iterator[str]:
    """The commands of a page that print something else than stands there."""
    for session in sessions(page.read_text()):
        folder = str(ROOT)
        for shown, told in session:
            command = shown
            if PROVES.search(command):
                continue
            if folder.endswith("/first_look") or "crates/first_look && " in command:
                # The small program answers the lines as `archive_tool run` does.
                command = command.replace("rt try -- ", "archive_tool run ")
            given = PROGRAM.sub(f"{shlex.quote(str(program))} ", command.replace("python3 tools/libraries.py && ", ""))
            words = ["bash", "-c", given.replace("/var/tmp", room) + f"\npwd > {room}/.folder"]
            # `rt try` prints standard error after standard output.
            errors = subprocess.PIPE if "rt try" in shown else subprocess.STDOUT
            ran = subprocess.run(words, cwd=folder, stdout=subprocess.PIPE, stderr=errors, text=True)
            folder = Path(room, ".folder").read_text().strip()
            printed = ran.stdout + (ran.stderr or "")
            if not agrees(steady(printed.replace(room, "/var/tmp")), steady(TRIED.sub("", told))):
                yield f"{page.relative_to(ROOT)}: $ {shown}\n  printed: {printed!r}\n  shown:   {told!r}"


def agrees(printed: str, shown: str) -> bool:
    """Whether a page shows what was printed; a line `...` leaves lines out."""
    front, left_out, rest = shown.partition("...\n")
    return printed.startswith(front) and printed.endswith(rest) if left_out else printed == shown


def steady(told: str) -> str:
    """A text without a sender's port and how many datagrams came, which differ each time."""
    return re.sub(r"(?<=joined from 127\.0\.0\.1:)\d+|(?<=, datagrams )\d+(?=, images)", "", told)


def shown_commands(page: Path) -> list[str]:
    """The commands that a page shows outside its sessions, each once without and once with what stands in brackets."""
    found = []
    for one, other in SHOWN.findall(BLOCK.sub("", page.read_text())):
        command = re.sub(r"\\\n +", "", one or other)
        found += [re.sub(r" ?\[[^\]]*\]", "", command), re.sub(r"[\[\]]", "", command.replace("[folder]", "<folder>"))]
    return list(dict.fromkeys(found))


def filled(command: str, folder: Path, control: int) -> list[str]:
    """The words of a command, with values in the place of what it names."""
    receive = free_port(socket.SOCK_DGRAM)
    values = [
        (r"(?<=^create )\S+", str(folder / "new")), (r"<folder>|<copy>|/var/lib/recorder", str(folder / "archive")),
        (r"(?<=--pcap )<file>", str(folder / "frames.pcap")), (r"(?<=--metrics )\S+", str(folder / "metrics")),
        (r"<file>", str(folder / "archive/0-0.rec")),
        (r"(?<=--control )\S+", str(control)), (r"(?<=--receive )\S+", str(receive)), (r"<IPv4 address>", "127.0.0.1"),
        (r"(?<=--to )<position>", "128"), (r"<recording>|<position>", "0"), (r"<seconds>|<entries>|<milliseconds>", "60"), (r"<bytes>", "65536"),
        (r"<count>", "2"), (r"<stream id>", "1001"),
        (r"<command>", "export"),
    ]
    for pattern, value in values:
        command = re.sub(pattern, value, command)
    return shlex.split(command)


def refused(page: Path, program: Path) -> Iterator[str]:
    """The commands that a page shows outside its sessions and that don't end with status 0."""
    for command in shown_commands(page):
        with tempfile.TemporaryDirectory() as room, tempfile.TemporaryFile("w+") as printed:
            archive, control = Path(room, "archive"), free_port(socket.SOCK_STREAM)
            archive.mkdir()
            with open(ROOT / "examples/record.lines") as lines:
                subprocess.run([program, "run", archive], stdin=lines, capture_output=True, check=True)
            words = [program, *filled(command, Path(room), control)]
            ran = subprocess.Popen(words, stdin=subprocess.DEVNULL, stdout=printed, stderr=subprocess.STDOUT)
            if command.startswith("serve "):
                client = [sys.executable, ROOT / "examples/client.py", f"127.0.0.1:{control}"]
                subprocess.run(client, input="quit\n", capture_output=True, text=True)
            try:
                status = ran.wait(60)
            except subprocess.TimeoutExpired:
                ran.kill()
                status = ran.wait()
            printed.seek(0)
            if status:
                yield f"{page.relative_to(ROOT)}: {command}\n  status {status}: {printed.read()!r}"


def other_units() -> Iterator[str]:
    """The units that SERVING.md prints, if they are not those of examples/operations/, or not the only ones."""
    page, folder = ROOT / "docs/SERVING.md", ROOT / "examples/operations"
    if UNIT.findall(page.read_text()) != [(folder / name).read_text() for name in UNITS]:
        yield f"{page.relative_to(ROOT)}: it does not print {' and '.join(UNITS)} of {folder.relative_to(ROOT)}, or prints another unit"


def anchor(head: str) -> str:
    """The name by which a heading is linked to."""
    return re.sub(r"[^\w\- ]", "", head.strip().lower()).replace(" ", "-")


def dead_links(page: Path) -> Iterator[str]:
    """The links of a page that lead nowhere in the repository."""
    for link in LINK.findall(page.read_text()):
        path, _, head = link.partition("#")
        if "://" in link:
            continue
        to = (page.parent / path).resolve() if path else page
        heads = [anchor(it) for it in re.findall(r"^#+ (.*)$", to.read_text(), re.M)] if to.suffix == ".md" and to.exists() else []
        if not to.exists() or (head and head not in heads):
            yield f"{page.relative_to(ROOT)}: the link {link} leads nowhere"


def other_toolchains(program: Path) -> Iterator[str]:
    """Where a toolchain is named which the one that is here may not stand for: of another logic, or a later one. The program
    names the one that it was written with, of which the logic counts."""
    own = subprocess.run(["rt", "version"], capture_output=True, text=True).stdout.strip()
    number, letters, _, logic = TOOLCHAIN.search(own).groups()
    version = subprocess.run([program, "--version"], capture_output=True, text=True).stdout
    for where, text, any_kit in [("README.md", (ROOT / "README.md").read_text(), False), (f"{program.name} --version", version, True)]:
        named = TOOLCHAIN.findall(text)
        for least_number, least_letters, or_later, its_logic in named:
            same = (least_number, least_letters) == (number, letters)
            later = (int(least_number), least_letters) <= (int(number), letters)
            if its_logic != logic or not (any_kit or same or (or_later and later)):
                yield f"{where} names rattle-kit-{least_number}{least_letters}{or_later} of logic {its_logic}, and here is {own}"
        if not named:
            yield f"{where} names no toolchain, and here is {own}"


def main() -> int:
    named = sys.argv[1] if len(sys.argv) > 1 else ROOT / "crates/archive_tool/out/archive_tool"
    program = Path(named).resolve()
    if not os.access(program, os.X_OK):
        sys.exit(f"there is no program {program}")
    found = [*other_toolchains(program), *other_units(), *(it for page in PAGES for it in dead_links(page))]
    count = 0
    for page in PAGES:
        count += sum(not PROVES.search(command) for session in sessions(page.read_text()) for command, _ in session)
        with tempfile.TemporaryDirectory() as room:
            found += differences(page, program, room)
    for page in SHOWING:
        count += len(shown_commands(page))
        found += refused(page, program)
    with tempfile.TemporaryDirectory() as room:
        for name, command in followers.followers(Path(room)).items():
            found += followers.differences(name, command)
    print("".join(f"{it}\n" for it in found), end="")
    print(f"{count} commands were run, {len(found)} findings")
    return 1 if found else 0


if __name__ == "__main__":
    sys.exit(main())
