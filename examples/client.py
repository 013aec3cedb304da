#!/usr/bin/env python3
"""Asks a served archive: each line of standard input is a control line, and what it is answered goes to standard output.
docs/SERVING.md, "Control lines".

Usage: examples/client.py HOST:PORT < lines

A line is sent once the one before it was answered. A reply is one line, but those of `list`, `poll`, `images`, `replays` and
`sends`: lines that begin with `recording`, `frame`, `image`, `open` or `send`, and one more. At a line `follow`, whose answer is bytes, it ends with status 2.
"""
import socket
import sys
import time
from collections.abc import Iterator


PATIENCE = 5  # seconds in which a server may begin to listen
LONG_REPLIES = {  # how all lines but the last begin
    "list": "recording ", "poll": "frame ", "poll-to": "frame ", "images": "image ", "replays": "open ", "sends": "send ",
}  # fmt: skip


def connected(address: tuple[str, int], seconds: float) -> socket.socket:
    """A connection, once somebody listens."""
    until = time.monotonic() + PATIENCE
    while True:
        try:
            return socket.create_connection(address, timeout=seconds)
        except ConnectionRefusedError:
            if time.monotonic() > until:
                raise
            time.sleep(0.05)


class Client:
    """A connection to a served archive."""

    def __init__(self, address: tuple[str, int], seconds: float = 30) -> None:
        self.socket = connected(address, seconds)
        self.socket.setsockopt(socket.IPPROTO_TCP, socket.TCP_NODELAY, 1)
        self.replies = self.socket.makefile("r", encoding="utf-8", newline="\n")

    def ask(self, line: str) -> Iterator[str]:
        """The lines of a line's reply; none more where the connection was closed."""
        self.socket.sendall(line.encode("utf-8") + b"\n")
        beginning = LONG_REPLIES.get(line.split(" ", 1)[0])
        for reply in self.replies:
            yield reply.rstrip("\n")
            if beginning is None or not reply.startswith(beginning):
                return

    def close(self) -> None:
        self.replies.close()
        self.socket.close()


def main() -> int:
    if len(sys.argv) != 2:
        sys.exit(__doc__)
    host, _, port = sys.argv[1].rpartition(":")
    client = Client((host, int(port)))
    for line in sys.stdin:
        if line.startswith("follow "):
            print("follow is answered by bytes, and not by lines alone", file=sys.stderr)
            return 2
        for reply in client.ask(line.rstrip("\n")):
            print(reply, flush=True)
    client.close()
    return 0


if __name__ == "__main__":
    sys.exit(main())
