"""A script that takes one recording through each change of an archive, and its replies. Its first block, a pad, fills a segment."""
from lib.tool import Stream

STREAM = Stream(term_length=65_536, segment_length=65_536)
HISTORY = 64  # entries
PAD = STREAM.header(0, STREAM.segment_length, 0).hex()
HELLO = STREAM.message(STREAM.segment_length, b"hello").hex()
ANSWERED = [
    (STREAM.start("c"), "started 0 0"),
    (f"block 0 {PAD}", "settled 65536"),
    (f"block 0 {HELLO}", "settled 65600"),
    ("purge-segments 0 65536", "purged 1"),
    ("sweep", "swept 1"),
    ("stop 0 2000", "stopped 65600"),
    ("truncate 0 65536", "truncated 65536"),
    ("sweep", "swept 1"),
    (STREAM.extend(0, 65_536), "extended 1"),
    (f"block 1 {HELLO}", "settled 65600"),
    ("stop 0 3000", "stopped 65600"),
]
LINES = [line for line, _ in ANSWERED]
REPLIES = [reply for _, reply in ANSWERED]
