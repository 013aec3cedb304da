"""What the tools know of the repository: its crates, and which of them stand on which.

Usage: tools/repository.py   asks what no clause can say of the crates' text: that followers take no lock, since position_board
names none, and its board has nothing but the table of its positions; and that the metrics have the version which `--version`
prints. It prints what it finds, with status 1
"""
import re
import sys
from pathlib import Path

ROOT = Path(__file__).resolve().parent.parent
BOARD = "crates/position_board/src"
LOCKS = re.compile(r"\b(?:Mutex|RwLock|Condvar|OnceLock|try_lock|lock)\b")
FIELDS = ["pub(crate) table: Words"]
WORDS = "pub(crate) type Words = Table<(), View, Vec<u64>, BoardRule, Global>;"


def dependencies() -> dict[str, list[str]]:
    """The repository's crates, each with those of the repository that it stands on."""
    lines = [line.split("#")[0].strip() for line in (ROOT / "crates.txt").read_text().splitlines()]
    named = {line.split(":")[0].split()[0]: line.split(":")[1].split() for line in lines if line}
    return {name: [it for it in below if it in named] for name, below in named.items()}


def code_of(text: str) -> str:
    """A file without its comments, its lines as they were."""
    return re.sub(r"//.*", "", text)


def locks_in(folder: Path) -> list[str]:
    """Where a lock is named."""
    files = sorted(folder.glob("**/*.rt"))
    lines = [(path, number, line) for path in files for number, line in enumerate(code_of(path.read_text()).splitlines(), 1)]
    found = [f"{path.relative_to(ROOT)}:{number}: names a lock: {line.strip()}" for path, number, line in lines if LOCKS.search(line)]
    return found if files else [f"{folder}: no file"]


def fields_beside(text: str) -> list[str]:
    """What the board has besides its table."""
    board = re.search(r"^pub struct Board \{(.*?)^\}", text, re.MULTILINE | re.DOTALL)
    if not board:
        return [f"{BOARD}: no struct Board is found"]
    fields = [line.strip().rstrip(",") for line in board[1].splitlines() if line.strip()]
    found = [] if fields == FIELDS else [f"{BOARD}: Board has the fields {fields}, and not {FIELDS}"]
    return found + ([] if WORDS in text else [f"{BOARD}: its table is another one than {WORDS}"])


def versions() -> list[str]:
    """The program's version and that of its catalogues, where `--version` prints others than the metrics have."""
    text = (ROOT / "crates/command_line/src/version.rt").read_text()
    printed = re.search(r'\bVERSION: &str =\s*"(\S+) \(catalogue (\S+),', text)
    measured = re.findall(r'\b(?:PROGRAM|CATALOGUE)_VERSION: &str = "(\S+)";', text)
    if not printed or len(measured) != 2:
        return ["no versions are found in command_line"]
    return [] if list(printed.groups()) == measured else [f"--version prints {printed.groups()}, and the metrics have {measured}"]


def main() -> int:
    folder = ROOT / BOARD
    found = locks_in(folder) + fields_beside(code_of((folder / "board.rt").read_text())) + versions()
    print("\n".join(found) or "position_board names no lock, its board is a table alone, and the metrics have the program's version")
    return 1 if found else 0


if __name__ == "__main__":
    sys.exit(main())
