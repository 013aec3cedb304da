#!/usr/bin/env python3
"""Makes what installs archive_tool from one file, of a program that is built: a tar archive, a Debian package, and a folder to build a
container image from.

Usage: tools/package.py [--program FILE] [--out FOLDER]
FILE is crates/archive_tool/out/archive_tool if it is not given, FOLDER is out/package. Status 0 if all was made.

| Made | What it has |
|---|---|
| archive_tool-VERSION-COMMIT-linux-x86_64.tar.gz | the program, units for systemd, alerts, dashboard, examples, pages, a man page, completions, checksums |
| archive-tool_VERSION_amd64.deb | the same for Debian: a user `recorder`, options in /etc/default/recorder, a unit that is neither enabled nor started |
| container/ | a Containerfile, and root/ with the program and the libraries that it loads |

No licence is chosen yet, so each has a file NOTICE that says so. The Debian package needs `dpkg-deb`; without it, it is left out with a line.
Removing the package keeps the recordings in /var/lib/recorder, purging it too.
"""
import argparse
import hashlib
import re
import shutil
import subprocess
import sys
import tarfile
from pathlib import Path

from help_pages import page
from repository import ROOT

NAME, PACKAGE, USER = "archive_tool", "archive-tool", "recorder"
OPERATIONS = ROOT / "examples/operations"
UNIT_OPTIONS = re.compile(r"^ExecStart=(\S+) serve (\S+) ((?:.*\\\n)*.*)$", re.MULTILINE)
NOTICE = "No licence is chosen yet: nobody is given a right to copy, change or pass on this software.\n"
PAGES = ("README.md", "CHANGELOG.md", "SECURITY.md")

POSTINST = f"""#!/bin/sh
set -e
if ! getent passwd {USER} >/dev/null; then
    adduser --system --group --no-create-home --home /var/lib/recorder {USER}
fi
if [ -d /run/systemd/system ]; then
    systemctl daemon-reload
fi
"""
PRERM = """#!/bin/sh
set -e
if [ "$1" = remove ] && [ -d /run/systemd/system ]; then
    systemctl stop recorder.service || true
fi
"""
POSTRM = f"""#!/bin/sh
set -e
if [ -d /run/systemd/system ]; then
    systemctl daemon-reload
fi
if [ "$1" = purge ] && getent passwd {USER} >/dev/null; then
    # What was recorded in /var/lib/recorder stays.
    deluser --quiet --system {USER} || true
fi
"""
CONTAINERFILE = f"""# The recorder in a container of its own. In this folder: podman build -t {NAME} .
# docs/SERVING.md says what a server needs: a volume on a local file system, its ports, and `ask PORT quit` to end it.
FROM scratch
COPY root/ /
USER 65534:65534
VOLUME /var/lib/recorder
ENTRYPOINT ["/usr/bin/{NAME}"]
CMD ["--help"]
"""


def said_by(*words: object) -> str:
    """What a program prints. It has to end well."""
    return subprocess.run(list(map(str, words)), cwd=ROOT, stdin=subprocess.DEVNULL, capture_output=True, text=True, check=True).stdout


def version_of(program: Path) -> tuple[str, str]:
    """The program's version, and the commit of this checkout, with `+changes` if it is not clean."""
    version = said_by(program, "--version").split()[1]
    commit = said_by("git", "rev-parse", "--short=10", "HEAD").strip()
    return version, commit + ("+changes" if said_by("git", "status", "--porcelain").strip() else "")


def put(path: Path, text: str, mode: int = 0o644) -> None:
    """Writes a file, and the folders above it."""
    path.parent.mkdir(parents=True, exist_ok=True)
    path.write_text(text)
    path.chmod(mode)


def copy(source: Path, to: Path, mode: int = 0o644) -> None:
    """Copies a file, and makes the folders above it."""
    to.parent.mkdir(parents=True, exist_ok=True)
    shutil.copyfile(source, to)
    to.chmod(mode)


def put_common(program: Path, share: Path, pages: Path) -> None:
    """Puts what both packages have besides the program and its units: operations, examples, and pages of documents."""
    for source in sorted(OPERATIONS.iterdir()):
        if source.suffix != ".service":
            copy(source, share / "operations" / source.name, 0o755 if source.suffix == ".py" else 0o644)
    for source in sorted(it for it in (ROOT / "examples").iterdir() if it.is_file()):
        copy(source, share / "examples" / source.name, 0o755 if source.suffix in (".py", ".sh") else 0o644)
    for source in [*(ROOT / it for it in PAGES), *sorted((ROOT / "docs").glob("*.md"))]:
        copy(source, pages / source.relative_to(ROOT))
    put(pages / "NOTICE", NOTICE)


def put_shells(program: Path, man: Path, bash: Path, zsh: Path, fish: Path) -> None:
    """Puts the man page and the completions."""
    for kind, path in (("man", man), ("bash", bash), ("zsh", zsh), ("fish", fish)):
        put(path, page(program, kind))


def checksums(folder: Path) -> str:
    """The SHA-256 checksums of all files of a folder, as `sha256sum --check` reads them."""
    files = sorted(it for it in folder.rglob("*") if it.is_file())
    return "".join(f"{hashlib.sha256(it.read_bytes()).hexdigest()}  {it.relative_to(folder)}\n" for it in files)


def owned_by_root(member: tarfile.TarInfo) -> tarfile.TarInfo:
    """A member of an archive that belongs to root, without a time."""
    member.uid, member.gid, member.uname, member.gname, member.mtime = 0, 0, "root", "root", 0
    return member


def make_archive(program: Path, version: str, commit: str, out: Path) -> Path:
    """Makes the tar archive."""
    name = f"{NAME}-{version}-{commit}-linux-x86_64"
    top = out / "room" / name
    copy(program, top / "bin" / NAME, 0o755)
    put_common(program, top / "share", top)
    for unit in sorted(OPERATIONS.glob("*.service")):
        copy(unit, top / "systemd" / unit.name)
    shells = top / "share/completions"
    put_shells(program, top / f"share/man/man1/{NAME}.1", shells / f"{NAME}.bash", shells / f"_{NAME}", shells / f"{NAME}.fish")
    put(top / "SHA256SUMS", checksums(top))
    made = out / f"{name}.tar.gz"
    with tarfile.open(made, "w:gz") as archive:
        archive.add(top, name, filter=owned_by_root)
    return made


def unit_with_defaults(unit: str) -> tuple[str, str]:
    """The recorder's unit, whose options are in /etc/default/recorder, and that file."""
    found = UNIT_OPTIONS.search(unit)
    if not found:
        sys.exit("recorder.service has no line ExecStart=PROGRAM serve FOLDER OPTIONS")
    options = " ".join(found[3].replace("\\\n", " ").split())
    unit = unit.replace(found[0], f"EnvironmentFile=/etc/default/recorder\nExecStart=/usr/bin/{NAME} serve {found[2]} $RECORDER_OPTIONS")
    unit = unit.replace(found[1], f"/usr/bin/{NAME}")
    return unit, f"# The options of `{NAME} serve {found[2]}`: {NAME} serve --help\nRECORDER_OPTIONS=\"{options}\"\n"


def make_debian(program: Path, version: str, commit: str, out: Path) -> Path | None:
    """Makes the Debian package, if `dpkg-deb` is there."""
    if not shutil.which("dpkg-deb"):
        print("there is no dpkg-deb here, so the Debian package is left out")
        return None
    top = out / "room/debian"
    copy(program, top / "usr/bin" / NAME, 0o755)
    put_common(program, top / f"usr/share/{PACKAGE}", top / f"usr/share/doc/{PACKAGE}")
    unit, defaults = unit_with_defaults((OPERATIONS / "recorder.service").read_text())
    put(top / "usr/lib/systemd/system/recorder.service", unit)
    put(top / "etc/default/recorder", defaults)
    put(top / "DEBIAN/conffiles", "/etc/default/recorder\n")
    shells = top / "usr/share"
    bash, zsh, fish = shells / "bash-completion/completions", shells / "zsh/vendor-completions", shells / "fish/vendor_completions.d"
    put_shells(program, shells / f"man/man1/{NAME}.1", bash / NAME, zsh / f"_{NAME}", fish / f"{NAME}.fish")
    debian = f"{version}+{commit.replace('+', '.')}"
    size = sum(it.stat().st_size for it in top.rglob("*") if it.is_file()) // 1024
    put(
        top / "DEBIAN/control",
        f"Package: {PACKAGE}\nVersion: {debian}\nArchitecture: amd64\nMaintainer: nobody yet <root@localhost>\nInstalled-Size: {size}\n"
        "Depends: libc6, adduser\nRecommends: python3\nSection: net\nPriority: optional\n"
        "Description: recorder of Aeron streams\n Records UDP publications of Aeron streams into a folder, and replays them.\n"
        " No licence is chosen yet.\n",
    )
    for script, text in (("postinst", POSTINST), ("prerm", PRERM), ("postrm", POSTRM)):
        put(top / "DEBIAN" / script, text, 0o755)
    made = out / f"{PACKAGE}_{debian}_amd64.deb"
    said_by("dpkg-deb", "--root-owner-group", "--build", top, made)
    return made


def loaded_by(program: Path) -> list[Path]:
    """The libraries that a program loads, with the loader."""
    return [Path(it) for it in re.findall(r"(/\S+) \(0x", said_by("ldd", program))]


def make_container(program: Path, out: Path) -> Path:
    """Makes the folder to build a container image from."""
    made = out / "container"
    copy(program, made / "root/usr/bin" / NAME, 0o755)
    for library in loaded_by(program):
        copy(library.resolve(), made / "root" / library.relative_to("/"), 0o755)
    (made / "root/var/lib/recorder").mkdir(parents=True)
    put(made / "root/NOTICE", NOTICE)
    put(made / "Containerfile", CONTAINERFILE)
    return made


def main() -> int:
    words = argparse.ArgumentParser(description=__doc__, formatter_class=argparse.RawDescriptionHelpFormatter)
    words.add_argument("--program", type=Path, default=ROOT / "crates/archive_tool/out/archive_tool")
    words.add_argument("--out", type=Path, default=ROOT / "out/package")
    asked = words.parse_args()
    program, out = asked.program.resolve(), asked.out.resolve()
    if not program.is_file():
        sys.exit(f"there is no program {program}: README.md says how to build it")
    shutil.rmtree(out, ignore_errors=True)
    (out / "room").mkdir(parents=True)
    version, commit = version_of(program)
    made = [make_archive(program, version, commit, out), make_debian(program, version, commit, out), make_container(program, out)]
    shutil.rmtree(out / "room")
    for path in filter(None, made):
        print(path)
    return 0


if __name__ == "__main__":
    sys.exit(main())
