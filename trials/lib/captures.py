"""Capture files of datagrams, and how Wireshark's Aeron dissector (`tshark`) reads them."""
import struct
import subprocess
from collections.abc import Iterable, Sequence
from pathlib import Path

PORT = 40_123  # of both ends of what `write_capture` writes
PARTS = "session_id", "stream_id", "term_id", "term_offset"
NAKS_AND_FRAMES = [
    *(f"aeron.nak.{part}" for part in (*PARTS, "length", "frame_length")),
    *(f"aeron.{kind}.{part}" for kind in ("data", "pad") for part in (*PARTS, "frame_length")),
]


def dissected(capture: Path, fields: Sequence[str] = NAKS_AND_FRAMES, port: int = PORT) -> list[list[int]]:
    """The numbers that Wireshark's Aeron dissector has in these fields of each frame of a capture file to a port. Without fields
    they are those of NAK, data and pad frames."""
    words = ["tshark", "-r", capture, "-d", f"udp.port=={port},aeron", "-T", "fields", "-E", "separator=,"]
    told = subprocess.run([*words, *(word for field in fields for word in ("-e", field))], capture_output=True, text=True, check=True)
    return [read_numbers(line) for line in told.stdout.splitlines()]


def malformed(capture: Path) -> list[str]:
    """The datagrams of a capture file that are malformed to Wireshark's dissector."""
    words = ["tshark", "-r", capture, "-d", f"udp.port=={PORT},aeron", "-Y", "_ws.malformed"]
    return subprocess.run(words, capture_output=True, text=True, check=True).stdout.splitlines()


def read_numbers(line: str) -> list[int]:
    """The numbers of a line of tshark; ids are told in hexadecimal there."""
    found = []
    for word in line.split(","):
        if word:
            number = int(word, 0)
            found.append(number - 2**32 if number >= 2**31 else number)
    return found


def told_of_frame(frame: bytes) -> list[int]:
    """The numbers of a frame as `dissected` has them, without fields."""
    length, _, _, _, offset, session_id, stream_id, term_id = struct.unpack_from("<iBBHiiii", frame)
    return [session_id, stream_id, term_id, offset, length]


def write_capture(path: Path, datagrams: Iterable[bytes]) -> None:
    """A capture file of datagrams between two ends at 127.0.0.1, as raw IPv4."""
    with open(path, "wb") as out:
        out.write(struct.pack("<IHHiIII", 0xA1B2C3D4, 2, 4, 0, 0, 262_144, 101))
        for datagram in datagrams:
            udp = struct.pack(">HHHH", PORT, PORT, 8 + len(datagram), 0) + datagram
            ip = struct.pack(">BBHHHBBH4s4s", 0x45, 0, 20 + len(udp), 0, 0, 64, 17, 0, b"\x7f\0\0\1", b"\x7f\0\0\1") + udp
            out.write(struct.pack("<IIII", 0, 0, len(ip), len(ip)) + ip)
