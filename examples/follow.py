#!/usr/bin/env python3
"""Follows a recording of a served archive: docs/PROTOCOL.md, "Following a recording".

Usage: examples/follow.py HOST:PORT RECORDING POSITION LENGTH > frames

Standard output gets each frame as it comes: a data frame with zeros up to its aligned length, a pad's 32 header bytes. Standard
error gets the server's answer, and at the end the position to go on from. Status 0: the recording has stopped, or its bound is
reached. 1: the server refused, or ended early. 3: the server can't read on.
"""
import socket
import struct
import sys
from typing import BinaryIO

HEADER_LENGTH, PAD = 32, 0
END_OF_STREAM, FAULT = 0x20, 0x01  # flags of a heartbeat
SILENCE = 10  # seconds; the server sends a heartbeat every 100 milliseconds


def received(stream: BinaryIO, count: int) -> bytes:
    """So many bytes, or fewer if the server is gone."""
    try:
        return stream.read(count)
    except OSError:
        return b""


def follow(stream: BinaryIO, position: int, taken: BinaryIO) -> tuple[int, int]:
    """Writes the frames that come. The position to go on from, and the status."""
    while len(header := received(stream, HEADER_LENGTH)) == HEADER_LENGTH:
        length, _, flags, kind = struct.unpack_from("<iBBH", header)
        if length == 0 and flags & END_OF_STREAM:
            return position, 3 if flags & FAULT else 0
        if length == 0:
            continue
        aligned = -(-length // 32) * 32  # how many bytes of the stream the frame covers
        rest = 0 if kind == PAD else aligned - HEADER_LENGTH
        payload = received(stream, rest)
        if len(payload) < rest:
            break
        taken.write(header + payload)
        taken.flush()
        position += aligned
    return position, 1


def main() -> int:
    host, _, port = sys.argv[1].rpartition(":")
    with socket.create_connection((host, int(port)), SILENCE) as server, server.makefile("rb") as stream:
        server.sendall(f"follow {' '.join(sys.argv[2:5])}\n".encode())
        answer = stream.readline().decode().strip()
        print(answer, file=sys.stderr)
        if not answer.startswith("following "):
            return 1
        position, status = follow(stream, int(answer.split()[1]), sys.stdout.buffer)
    print(f"go on from {position}", file=sys.stderr)
    return status


sys.exit(main() if len(sys.argv) == 5 else __doc__)
