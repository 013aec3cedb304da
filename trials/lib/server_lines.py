"""What a server prints while nothing fails: docs/SERVING.md, "What the server prints"."""
import re

from lib.tool import expect

COUNTS = r"bytes recorded \d+, datagrams lost \d+, NAKs \d+"
CALM = re.compile(
    r"control lines on [0-9.:]+, datagrams on [0-9.:]+"
    r"|a new archive was made, as there was none"
    r"|the archive is open"
    r"|image \d+ joined from [0-9.:]+: stream -?\d+, session id -?\d+, initial term -?\d+, term length \d+, mtu \d+, position \d+"
    r"|image \d+ feeds session \d+"
    r"|image \d+ is sent no status messages: its MTU of \d+ bytes is longer than its window"
    rf"|image \d+ has left: {COUNTS}"
    r"|image \d+ resumes stream -?\d+, session id -?\d+ at \d+, where recording \d+ stands: \d+ bytes before its setup frame are asked for"
    r"|image \d+ has what was missing: \d+ bytes up to \d+, after \d+ milliseconds"
    r"|image \d+ waits for \d+ bytes at \d+ of stream -?\d+, session id -?\d+: for 5 seconds, \d+ NAKs"
    r"|image \d+ has the bytes at \d+, after \d+ seconds"
    r"|image \d+ takes no frames from [0-9.:]+: its sender is [0-9.:]+"
    r"|image \d+ has another sender: [0-9.:]+ in place of [0-9.:]+"
    r"|image \d+ yields its place to stream -?\d+, session id -?\d+"
    r"|the last of 64 images is used: .*"
    r"|all 64 places of images are taken: .*"
    r"|a connection ended and left replays open:(?: \d+)+"
    r"|recording \d+ is held by \d+ open replays: .+"
    r"|\d+ of the \d+ entries of the history are used, \d+ are left"
    r"|the history was made short: \d+ entries became \d+"
    rf"|ended: connections \d+, datagrams \d+, images \d+, {COUNTS}"
)


def expect_calm(errors: str) -> None:
    """Asks that a server's standard error has only these lines."""
    expect("lines of a server that are of a failure, or unknown", [line for line in errors.splitlines() if not CALM.fullmatch(line)], [])
