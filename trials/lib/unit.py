"""A unit file of systemd: what it runs, and what that may do."""
import re
import shlex
import subprocess
from pathlib import Path

from lib.tool import Fault

ALWAYS = "@default"  # a filter of calls that allows some allows these too


class Unit:
    """The settings of a unit file, by their names."""

    def __init__(self, path: Path) -> None:
        lines = re.sub(r"\\\n", " ", path.read_text()).splitlines()
        self.settings = [(name, value) for name, found, value in (line.partition("=") for line in lines if line[:1] not in ("#", "[")) if found]

    def values(self, name: str) -> list[str]:
        """The values of a setting, in their order."""
        return [value for known, value in self.settings if known == name]

    def value(self, name: str) -> str:
        """The value of a setting that comes once."""
        found = self.values(name)
        if len(found) != 1:
            raise Fault(f"the unit has {name} {len(found)} times")
        return found[0]

    def words(self, name: str) -> list[str]:
        """The words of a command, without the sign that its failure does not count."""
        return shlex.split(self.value(name).removeprefix("-"))

    def calls(self) -> set[str]:
        """The system calls that it allows. A line of its filter adds some, and one that begins with ~ takes some away."""
        sets = call_sets()
        allowed = members(sets, ALWAYS)
        for line in self.values("SystemCallFilter"):
            named = {call for word in line.removeprefix("~").split() for call in members(sets, word)}
            allowed = allowed - named if line.startswith("~") else allowed | named
        return allowed


def call_sets() -> dict[str, list[str]]:
    """The sets of system calls that systemd knows, each with the calls and sets that it has."""
    told = subprocess.run(["systemd-analyze", "syscall-filter", "--no-pager"], capture_output=True, text=True, check=True).stdout
    sets: dict[str, list[str]] = {}
    name = ""
    for line in told.splitlines():
        if line.startswith("@"):
            name = line.strip()
            sets[name] = []
        elif line.startswith("    ") and not line.lstrip().startswith("#"):
            sets[name].append(line.strip())
    return sets


def members(sets: dict[str, list[str]], name: str) -> set[str]:
    """The calls of a set, and of the sets in it; a call is its own."""
    if not name.startswith("@"):
        return {name}
    return {call for member in sets[name] for call in members(sets, member)}
