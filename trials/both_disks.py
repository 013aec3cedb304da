#!/usr/bin/env python3
"""Asks that a folder answers as memory does, and that each command of the program ends as docs/CONTROL.md says.

The worked scripts are read from the cases of tests_scripts. One over an empty disk is run over memory and over a folder, and
both have to give the case's text, byte for byte. A case with more steps is played over a folder, whose files are changed as it says.
Then each command is run on archives that are whole, damaged, absent or in use: its status, what it prints, and the line of
its refusal on standard error (what stands there beside that line is tried by standard_error.py). Then what docs/STORAGE.md tells an operator: retention to its end, and what `verify` and `frames` don't see.

Usage: trials/both_disks.py [program]. Prints what differs and the folder that it lies in, and ends with status 1 where
anything does.
"""
import os
import re
import shutil
import subprocess
import sys
import tempfile
from collections.abc import Iterator
from contextlib import contextmanager
from pathlib import Path

from lib.tool import ROOT, Session, Stream, bank, program, room, settle_entry

CRATES = ROOT / "crates"
CASES = CRATES / "tests_scripts/data"
WORD = re.compile(r"\{(\w+)\}")
FEWEST_SCRIPTS = 25

STREAM = Stream(term_length=65_536, segment_length=131_072)
START = STREAM.start("c")
HELLO = STREAM.message(0, b"hello")
STORED = HELLO.ljust(64, b"\x00")
RECORDED = f"{START}\nblock 0 {HELLO.hex()}\n"
STOPPED = STREAM.descriptor(0, -1, 64, "c") + "\n"
BAD_PARAMETER, DAMAGED, DEVICE_FAULT = "error 10 BadParameter\n", "error 15 Damaged", "error 17 DeviceFault\n"
NOT_CATALOGUE, NEWER_VERSION, BAD_FRAME = "error 19 NotCatalogue\n", "error 20 NewerVersion\n", "error 21 BadFrame"

EXPORT = ("export", "0")  # with `in_folder`

Ended = tuple[int, str, str]


class Trial:
    """The program, an empty folder for each question, and how many answers were as they have to be."""

    def __init__(self, tool: Path) -> None:
        self.tool = tool
        self.right = self.wrong = 0

    @contextmanager
    def folder(self, *scripts: str) -> Iterator[Path]:
        """A folder, over which some scripts have been run. Where an answer in the block is wrong, a copy of it stays."""
        before = self.wrong
        with room() as path:
            for script in scripts:
                self.ended("run", path, given=script)
            yield path
            if self.wrong > before:
                kept = tempfile.mkdtemp(prefix="trial-", dir=os.environ.get("TRIAL_ROOM"))
                shutil.copytree(path, kept, symlinks=True, dirs_exist_ok=True)
                print(f"  what failed lies in {kept}")

    def ended(self, *words: str | Path, given: str = "", into: str | None = None) -> Ended:
        """Status and standard output of a command, and the line of its refusal, if it was refused."""
        status, told, error = self.streams(*words, given=given, into=into)
        refused = re.search(r"^error \d+ .*\n", error, re.M)
        return status, told, refused[0] if refused else ""

    def streams(self, *words: str | Path, given: str = "", into: str | None = None) -> Ended:
        """Status, standard output and standard error of a command."""
        with open(into, "wb") if into else tempfile.TemporaryFile() as output:
            done = subprocess.run([self.tool, *words], input=given.encode(), stdout=output, stderr=subprocess.PIPE)
            if into:
                return done.returncode, "", done.stderr.decode()
            output.seek(0)
            return done.returncode, output.read().decode(), done.stderr.decode()

    def expect(self, what: str, told: object, right: object) -> None:
        """Counts an answer, and prints one that is wrong."""
        if told == right:
            self.right += 1
            return
        self.wrong += 1
        print(f"{what}\n  told:  {told!r}\n  right: {right!r}")


def in_folder(folder: Path, word: str, *words: str) -> tuple[str | Path, ...]:
    """A command with its folder, and a capture file beside it."""
    return word, folder, *words, *(["--pcap", f"{folder}.pcap"] if word == "export" else [])


def overwrite(path: Path, offset: int, text: bytes) -> None:
    """Writes over some bytes of a file."""
    with open(path, "r+b") as file:
        file.seek(offset)
        file.write(text)


def damage(folder: Path) -> None:
    """The first byte of the first recording's first file becomes 0."""
    overwrite(folder / "0-0.rec", 0, b"\x00")


# Scripts, as the cases have them: crates/case_files/README.md, "The format"

Step = tuple[str, str]
# Words of steps that can be played over a folder.
PLAYED = frozenset("run run-text make put cut remove clear bytes list-archive compact-archive".split())
# The refusal of an opening, in a case whose folder has none that opens.
UNOPENED = {"an_archive_that_is_refused": NOT_CATALOGUE}


def steps_of(lines: list[str]) -> list[Step]:
    """The steps of a case's lines: each line that is asked, and its answer."""
    steps: list[Step] = []
    for line in lines:
        if line.startswith("=>"):
            steps[-1] = steps[-1][0], steps[-1][1] + line[2:].removeprefix(" ") + "\n"
        else:
            asked, arrow, answer = line.partition(" => ")
            steps.append((asked, answer + "\n" if arrow else ""))
    return steps


def cases_of(text: str) -> Iterator[tuple[str, list[Step]]]:
    """The cases of a file that have no rows: each one's name and its steps."""
    paragraphs = [[it for it in part.splitlines() if not it.startswith("#")] for part in text.split("\n\n")]
    words = dict(line.split(" ", 1) for head, *lines in filter(None, paragraphs) if head == "let" for line in lines)
    texts = {head.removeprefix("text "): lines for head, *lines in filter(None, paragraphs) if head.startswith("text ")}
    for head, *lines in filter(None, paragraphs):
        if head.startswith("case ") and not any(it.startswith("each ") for it in lines):
            whole = [it for line in lines for it in (texts[line[1:]] if line.startswith("@") else [line]) if not it.startswith("- ")]
            yield head.removeprefix("case "), steps_of([WORD.sub(lambda it: words.get(it[1], it[0]), line) for line in whole])


def script_of(word: str, rest: str) -> str:
    """The script of a step."""
    return rest.replace("\\n", "\n") if word == "run-text" else rest.replace("; ", "\n") + "\n"


def file_of(folder: Path, name: str) -> Path:
    """The file of a step: a bank, or a segment file by its recording and base."""
    return folder / (f"catalogue-{name[-1]}.bank" if name.startswith("bank-") else f"{name}.rec")


def change(folder: Path, word: str, rest: str) -> str:
    """Changes a file as a step says."""
    name, *words = rest.split(" ")
    path = file_of(folder, name)
    if word == "put":
        path.touch()
        overwrite(path, int(words[0]), bytes.fromhex(words[1]))
    elif word == "cut":
        os.truncate(path, int(words[0]))
    else:
        path.unlink()
    return "done\n"


def play(trial: Trial, name: str, folder: Path, step: Step) -> None:
    """Plays a step over a folder."""
    line, right = step
    word, _, rest = line.partition(" ")
    if word.startswith("run"):
        told = trial.ended("run", folder, given=script_of(word, rest))
        trial.expect(f"{name}, over a folder", told, (0, right, UNOPENED.get(name, "")))
    elif word == "make":
        trial.expect(f"{name}: {line}", trial.ended("create", folder, "--history", rest), (0, "created\n", ""))
    elif word.endswith("-archive"):
        trial.expect(f"{name}: {line}", trial.ended(word.removesuffix("-archive"), folder), (0, right, ""))
    elif word == "bytes":
        trial.expect(f"{name}: {line}", file_of(folder, rest).read_bytes().hex() + "\n", right)
    elif word == "clear":
        for path in folder.iterdir():
            path.unlink()
    else:
        trial.expect(f"{name}: {line}", change(folder, word, rest), right)


def try_scripts(trial: Trial) -> None:
    """Each script of the cases, over memory and a folder, or over a folder that is changed as its case says."""
    files = [(CASES / f"tool_{name}.cases").read_text() for name in ("scenarios", "disks", "compactions", "versions")]
    found = [(name, steps) for text in files for name, steps in cases_of(text)]
    found.append(("stdin", [("run-text " + (CRATES / "archive_tool/stdin").read_text(), (CRATES / "archive_tool/stdout").read_text())]))
    played = [(name, steps) for name, steps in found if PLAYED.issuperset(line.split(" ")[0] for line, _ in steps)]
    for name, steps in played:
        if len(steps) == 1 or name == "lines_at_the_edges_of_a_script":
            for line, right in (it for it in steps if it[0].startswith("run")):
                word, _, rest = line.partition(" ")
                trial.expect(f"{name}, over memory", trial.ended("run", given=script_of(word, rest)), (0, right, ""))
        with trial.folder() as folder:
            for step in steps:
                play(trial, name, folder, step)
    trial.expect("scripts found in the cases", len(played) >= FEWEST_SCRIPTS, True)


# Commands


def try_creation(trial: Trial) -> None:
    """An archive is made in a folder without files, with a history of 1 to 16,777,216 entries."""
    with trial.folder() as folder:
        trial.expect("create", trial.ended("create", folder), (0, "created\n", ""))
        trial.expect("the bank", (folder / "catalogue-a.bank").read_bytes(), bank(1_048_576, []))
        trial.expect("create twice", trial.ended("create", folder), (1, "", BAD_PARAMETER))
        trial.expect("list nothing", trial.ended("list", folder), (0, "end 0\n", ""))
        trial.expect("verify nothing", trial.ended("verify", folder), (0, "", ""))
        trial.expect("run on it", trial.ended("run", folder, given=START), (0, "started 0 0\n", ""))
        trial.expect("create over a recording", trial.ended("create", folder), (1, "", BAD_PARAMETER))
    for history in ("1", "16777216"):
        with trial.folder() as folder:
            trial.expect(f"history {history}", trial.ended("create", folder, "--history", history), (0, "created\n", ""))
            trial.expect("its bank", (folder / "catalogue-a.bank").read_bytes(), bank(int(history), []))
    for history in ("0", "16777217", "4294967295"):
        with trial.folder() as folder:
            answer = trial.ended("create", folder, "--history", history)
            trial.expect(f"history {history}", answer, (1, "", BAD_PARAMETER))
            trial.expect("nothing is made", list(folder.iterdir()), [])


def try_absence(trial: Trial) -> None:
    """A folder or a file that is not there, which `create` alone makes, and a folder without an archive."""
    with trial.folder() as folder:
        for words in (("run",), ("compact",), ("list",), ("verify",), ("describe",), EXPORT):
            trial.expect(f"{words[0]} of nothing", trial.ended(*in_folder(folder / "gone", *words)), (3, "", DEVICE_FAULT))
        trial.expect("frames of nothing", trial.ended("frames", folder / "gone"), (3, "", DEVICE_FAULT))
        trial.expect("create of nothing in nothing", trial.ended("create", folder / "gone" / "new"), (3, "", DEVICE_FAULT))
        for words in (("compact",), ("list",), ("verify",), ("describe",), EXPORT):
            trial.expect(f"{words[0]} without an archive", trial.ended(*in_folder(folder, *words)), (1, "", NOT_CATALOGUE))
        trial.expect("nothing is made", list(folder.iterdir()), [])
        trial.expect("create of nothing", trial.ended("create", folder / "new"), (0, "created\n", ""))
        trial.expect("list of what was made", trial.ended("list", folder / "new"), (0, "end 0\n", ""))
        (folder / "file").touch()
        for words in (("create",), ("run",), ("compact",), ("list",), ("verify",), ("describe",), EXPORT):
            trial.expect(f"{words[0]} of a file", trial.ended(*in_folder(folder / "file", *words)), (3, "", DEVICE_FAULT))
        trial.expect("frames of a folder", trial.ended("frames", folder), (3, "", DEVICE_FAULT))
        trial.expect("create beside another file", trial.ended("create", folder), (0, "created\n", ""))


def try_use_by_two(trial: Trial) -> None:
    """A folder is one process's at a time, and the next one's as soon as that has ended."""
    with trial.folder(RECORDED) as folder:
        first = Session(trial.tool, folder)
        trial.expect("the first process", first.ask("positions 0"), ["positions 0 64 64"])
        for command in ("create", "run", "compact", "list", "verify"):
            trial.expect(f"{command} in use", trial.ended(command, folder), (3, "", DEVICE_FAULT))
        trial.expect("export in use", trial.ended(*in_folder(folder, *EXPORT)), (0, "exported\n", ""))
        trial.expect("frames in use", trial.ended("frames", folder / "0-0.rec"), (0, "frame 42 0 1 37 c0\nend 1\n", ""))
        trial.expect("the first process goes on", first.ask("verify 0"), ["verified 1"])
        trial.expect("its status", first.end(), 0)
        trial.expect("list behind it", trial.ended("list", folder), (0, STOPPED + "end 1\n", ""))


def try_reports(trial: Trial) -> None:
    """`list` and `verify` of an archive that is whole, and of one with a damaged frame."""
    second = f"{STREAM.start('b c')}\nstop 1 2000\n"
    with trial.folder(RECORDED + second) as folder:
        listed = STOPPED + STREAM.descriptor(1, 2_000, 0, "b c") + "\nend 2\n"
        trial.expect("list", trial.ended("list", folder), (0, listed, ""))
        trial.expect("verify", trial.ended("verify", folder), (0, "verified 1\nverified 0\n", ""))
        damage(folder)
        trial.expect("list where a frame is damaged", trial.ended("list", folder), (0, listed, ""))
        right = 3, f"{DAMAGED} 0 0\nverified 0\n", ""
        trial.expect("verify where a frame is damaged", trial.ended("verify", folder), right)
        (folder / "0-0.rec").unlink()
        trial.expect("verify where a file is gone", trial.ended("verify", folder), right)
    with trial.folder(f"{START}\nstop 0 2000\npurge 0\n{STREAM.start('d')}\n") as folder:
        right = 0, STREAM.descriptor(1, -1, 0, "d") + "\nend 1\n", ""
        trial.expect("list behind a purge", trial.ended("list", folder), right)
        trial.expect("verify behind a purge", trial.ended("verify", folder), (0, "verified 0\n", ""))


def try_catalogues(trial: Trial) -> None:
    """A catalogue that is cut or changed: docs/STORAGE.md, "Opening". A script answers each line but `reopen` by Broken."""
    whole = bank(3, [STREAM.start_entry(0, b"c"), settle_entry(0, 64)])
    cases = {
        "cut to nothing": (b"", 1, NOT_CATALOGUE),
        "cut in its header": (whole[:31], 1, NOT_CATALOGUE),
        "cut behind its header": (whole[:32], 3, f"{DAMAGED} -1 32\n"),
        "cut in its second entry": (whole[:100], 3, f"{DAMAGED} -1 89\n"),
        "cut in front of its last gate": (whole[:-1], 3, f"{DAMAGED} -1 89\n"),
        "closed": (b"\x00" + whole[1:], 1, NOT_CATALOGUE),
        "of a later version": (b"\x01\x03" + whole[2:], 1, NEWER_VERSION),
        "with an unknown entry": (whole[:33] + b"\x09" + whole[34:], 3, f"{DAMAGED} -1 32\n"),
    }
    for what, (text, status, line) in cases.items():
        with trial.folder() as folder:
            (folder / "catalogue-a.bank").write_bytes(text)
            for command in ("list", "verify"):
                trial.expect(f"{command}, a catalogue {what}", trial.ended(command, folder), (status, "", line))
            answer = trial.ended("run", folder, given="list 0 1\nreopen\nquit\n")
            trial.expect(f"run, a catalogue {what}", answer, (0, f"error 16 Broken\n{line}bye\n", line))
            trial.expect(f"create, a catalogue {what}", trial.ended("create", folder), (1, "", BAD_PARAMETER))
            trial.expect("the catalogue stays", (folder / "catalogue-a.bank").read_bytes(), text)
    with trial.folder() as folder:
        (folder / "catalogue-a.bank").write_bytes(whole)
        (folder / "0-0.rec").write_bytes(STORED)
        trial.expect("a bank by hand", trial.ended("list", folder), (0, STOPPED + "end 1\n", ""))
        trial.expect("its frames", trial.ended("verify", folder), (0, "verified 1\n", ""))


def try_frames(trial: Trial) -> None:
    """`frames` of a segment file that is whole, cut or bad."""
    hello, pad = "frame 42 0 1 37 c0\n", STREAM.header(64, 65_472, 0)
    cases = {
        "the worked file": (STORED + bytes(64), 0, hello + "end 1\n"),
        "no byte": (b"", 0, "end 0\n"),
        "a frame alone": (STORED, 0, hello + "end 1\n"),
        "a frame without its zeros": (HELLO, 0, hello + "end 1\n"),
        "a pad whose range is missing": (STORED + pad, 0, hello + "frame 42 64 0 65472 c0\nend 2\n"),
        "a cut frame": (STORED + HELLO[:-1], 3, hello + f"{BAD_FRAME} 64\n"),
        "a cut header": (HELLO[:31], 3, f"{BAD_FRAME} 0\n"),
        "one byte": (b"\x01", 3, f"{BAD_FRAME} 0\n"),
        "another version": (STORED + HELLO[:4] + b"\x01" + HELLO[5:], 3, hello + f"{BAD_FRAME} 64\n"),
        "a setup frame": (STORED + HELLO[:6] + b"\x05" + HELLO[7:], 3, hello + f"{BAD_FRAME} 64\n"),
        "many frames": (STORED * 5_000, 0, hello * 5_000 + "end 5000\n"),
    }
    for what, (text, status, told) in cases.items():
        with trial.folder() as folder:
            (folder / "0-0.rec").write_bytes(text)
            trial.expect(f"frames of {what}", trial.ended("frames", folder / "0-0.rec"), (status, told, ""))


def try_words(trial: Trial) -> None:
    """Command lines that are none end with status 2 and a text on standard error, help with 0 and one on standard output."""
    with trial.folder() as folder:
        path = str(folder)
        wrong = [(), ("play",), ("create",), ("compact",), ("list",), ("verify",), ("frames",), ("create", path, path), ("run", path, path)]
        wrong += [("ask",), ("ask", "1"), ("ask", "0", "sweep"), ("ask", "x", "sweep"), ("ask", "1", "a\nb"), ("ask", "1", "a", "--until", "b\n")]
        wrong += [("describe",), ("export", path, "0"), ("export", path, "-1", "--pcap", "f"), ("export", path, "x", "--pcap", "f")]
        wrong += [("list", path, path), ("create", path, "--history"), ("create", path, "--history", "x")]
        wrong += [("create", path, "--history", "4294967296"), ("create", path, "--history", "-1"), ("list", path, "--history", "1")]
        for words in wrong:
            status, told, fault = trial.streams(*words)
            trial.expect(f"wrong words {words}", (status, told, fault != ""), (2, "", True))
        for words in [("--help",), *((word, "--help") for word in ("create", "run", "compact", "list", "verify", "describe", "export", "frames", "ask"))]:
            status, told, fault = trial.streams(*words)
            trial.expect(f"help {words}", (status, told != "", fault), (0, True, ""))
        trial.expect("nothing is made", list(folder.iterdir()), [])


def try_full_output(trial: Trial) -> None:
    """A standard output that takes nothing is a fault of the device."""
    with trial.folder(RECORDED) as folder:
        looks = [("describe", folder), in_folder(folder, *EXPORT)]
        for words in [("compact", folder), ("list", folder), ("verify", folder), *looks, ("frames", folder / "0-0.rec"), ("--help",)]:
            trial.expect(f"{words[0]} into a full output", trial.ended(*words, into="/dev/full"), (3, "", DEVICE_FAULT))
        answer = trial.ended("run", folder, given="list 0 1\n", into="/dev/full")
        trial.expect("run into a full output", answer, (3, "", DEVICE_FAULT))
    with trial.folder() as folder:
        trial.expect("create into a full output", trial.ended("create", folder, into="/dev/full"), (3, "", DEVICE_FAULT))


def try_compaction(trial: Trial) -> None:
    """A full history goes on behind a compaction, which stops what is active; refused, it leaves the archive as it was."""
    with trial.folder() as folder:
        trial.ended("create", folder, "--history", "2")
        trial.expect("a full history", trial.ended("run", folder, given=RECORDED + "stop 0 1\n"), (0, "started 0 0\nsettled 64\nerror 11 HistoryFull\n", ""))
        trial.expect("compact", trial.ended("compact", folder), (0, "compacted\n", ""))
        trial.expect("list behind it", trial.ended("list", folder), (0, STOPPED + "end 1\n", ""))
        trial.expect("a start behind it", trial.ended("run", folder, given=RECORDED), (0, "started 1 0\nsettled 64\n", ""))
        for number in range(3):
            trial.expect(f"compact again {number}", trial.ended("compact", folder), (0, "compacted\n", ""))
        trial.expect("verify behind them", trial.ended("verify", folder), (0, "verified 1\nverified 1\n", ""))
        (folder / "catalogue-b.bank").write_bytes(b"\x01")
        before = (folder / "catalogue-a.bank").read_bytes()
        trial.expect("compact beside a bank that may not be written", trial.ended("compact", folder), (1, "", NOT_CATALOGUE))
        trial.expect("the bank in use", (folder / "catalogue-a.bank").read_bytes(), before)


def try_retention(trial: Trial) -> None:
    """Old segments of an active recording go, and then the whole recording: docs/STORAGE.md, "Plan a deployment"."""
    script = (ROOT / "examples/retention.lines").read_text()
    swept = "swept 1\nswept 1\nswept 0\n"
    told = f"started 0 0\nsettled 65536\nsettled 131072\nsettled 196608\npurged 2\n{swept}"
    with trial.folder() as folder:
        answer = trial.ended("run", folder, given=script)
        trial.expect("retention", answer, (0, f"{told}positions 131072 196608 -1\nstopped 196608\nbye\n", ""))
        names = sorted(it.name for it in folder.glob("*.rec"))
        trial.expect("the files that stay", names, ["0-131072.rec"])
        answer = trial.ended("run", folder, given="purge 0\nsweep\nsweep\nlist 0 1\n")
        trial.expect("a whole recording", answer, (0, "purged-recording\nswept 1\nswept 0\nend 0\n", ""))
        trial.expect("no file stays", list(folder.glob("*.rec")), [])


def try_older_catalogue(trial: Trial) -> None:
    """Behind an older catalogue `sweep` removes the files of what was recorded since: docs/STORAGE.md, "Plan a deployment"."""
    stream = Stream(term_length=65_536, segment_length=65_536)
    pads = [f"block 0 {stream.header(begin, 65_536, 0).hex()}" for begin in range(0, 4 * 65_536, 65_536)]
    with trial.folder(f"{stream.start('c')}\n{pads[0]}\n") as folder:
        older = (folder / "catalogue-a.bank").read_bytes()
        trial.ended("run", folder, given="\n".join([stream.extend(0, 65_536), *pads[1:]]))
        (folder / "catalogue-a.bank").write_bytes(older)
        answer = trial.ended("run", folder, given="sweep\n" * 4)
        trial.expect("an older catalogue", answer, (0, "swept 1\n" * 3 + "swept 0\n", ""))


def try_blind_spots(trial: Trial) -> None:
    """What `verify` does not find, and what `frames` does not show: docs/STORAGE.md, "What verify finds"."""
    both = f"{START}\nblock 0 {STORED.hex()}\nblock 0 {STREAM.message(64, b'world').hex()}\nstop 0 2000\n"
    with trial.folder(both) as folder:
        overwrite(folder / "0-0.rec", 32, b"j")
        trial.expect("verify of a changed payload", trial.ended("verify", folder), (0, "verified 2\n", ""))
        entries = [STREAM.start_entry(0, b"c"), settle_entry(0, 64)]
        overwrite(folder / "catalogue-a.bank", len(bank(1_048_576, entries)) - 1, b"\x00")
        trial.expect("verify where a gate reads closed", trial.ended("verify", folder), (0, "verified 1\n", ""))
    with trial.folder(f"{STREAM.start('c', 64)}\nblock 0 {STREAM.message(64, b'hello').hex()}\n") as folder:
        trial.expect("verify past the base", trial.ended("verify", folder), (0, "verified 1\n", ""))
        trial.expect("frames past the base", trial.ended("frames", folder / "0-0.rec"), (0, "end 0\n", ""))


def try_version(trial: Trial) -> None:
    """The version names the catalogue's that a new archive has."""
    with trial.folder() as folder:
        trial.ended("create", folder)
        status, told, fault = trial.streams("--version")
        catalogue = (folder / "catalogue-a.bank").read_bytes()[1]
        named = told.startswith("archive_tool ") and f"(catalogue {catalogue}, " in told
        trial.expect(f"--version: {told}", (status, named, fault), (0, True, ""))


PARTS = (try_scripts, try_creation, try_absence, try_use_by_two, try_reports, try_catalogues, try_frames, try_words,
         try_full_output, try_compaction, try_retention, try_older_catalogue, try_blind_spots, try_version)


def main() -> int:
    trial = Trial(program(sys.argv[1] if len(sys.argv) > 1 else None))
    for part in PARTS:
        part(trial)
    print(f"{trial.right} answers as they have to be, {trial.wrong} wrong")
    return 1 if trial.wrong else 0


if __name__ == "__main__":
    sys.exit(main())
