"""The form of control lines and replies as docs/CONTROL.md describes it ("Words", "Lines", "Refusals"). Nothing here is taken from the
program."""
import re
from collections.abc import Callable

LINE_LIMIT = 262_144  # bytes
BAD_LINE = "error 22 BadLine"

NUMBER = re.compile(rb"0|-?[1-9][0-9]*")
HEX = re.compile(rb"(?:[0-9a-fA-F]{2})+")


def is_number(word: bytes, bits: int) -> bool:
    """Whether a word is a number of at most this many bits."""
    return len(word) <= 20 and bool(NUMBER.fullmatch(word)) and -(2 ** (bits - 1)) <= int(word) < 2 ** (bits - 1)


def is_long(word: bytes) -> bool:
    """Whether a word is a number of 64 bits."""
    return is_number(word, 64)


def is_short(word: bytes) -> bool:
    """Whether a word is a number of 32 bits."""
    return is_number(word, 32)


def is_hex(word: bytes) -> bool:
    """Whether a word is a `<hex>`."""
    return bool(HEX.fullmatch(word))


def is_rest(text: bytes) -> bool:
    """Whether bytes are a `<channel>` or a `<fragment>`; a `<source>` too, as a word without blanks."""
    try:
        text.decode()
    except UnicodeDecodeError:
        return False
    return bool(text)


Kind = Callable[[bytes], bool]
LONG, SHORT, BYTES, REST = is_long, is_short, is_hex, is_rest

# By its first word: the words that follow in a line, and the last line of its reply. N is a number.
LINES: dict[bytes, tuple[list[Kind], str]] = {
    b"start": ([SHORT] * 6 + [LONG, LONG, REST], r"started N N"),
    b"start-from": ([REST] + [SHORT] * 6 + [LONG, LONG, REST], r"started N N"),
    b"extend": ([LONG, *[SHORT] * 5, LONG], r"extended N"),
    b"write": ([LONG, BYTES], r"written N"),
    b"settle": ([LONG], r"settled N"),
    b"block": ([LONG, BYTES], r"settled N"),
    b"stop": ([LONG, LONG], r"stopped N"),
    b"truncate": ([LONG, LONG], r"truncated N"),
    b"purge-segments": ([LONG, LONG], r"purged N"),
    b"purge": ([LONG], r"purged-recording"),
    b"list": ([LONG, LONG], r"end N"),
    b"find": ([LONG, SHORT, SHORT, REST], r"found (?:N|-1)"),
    b"positions": ([LONG], r"positions N N (?:N|-1)"),
    b"source": ([LONG], r"source (?:0|N [^ ]+)"),
    b"replay": ([LONG, LONG, LONG], r"replay N"),
    b"poll": ([LONG, LONG], r"done|more N"),
    b"poll-to": ([LONG, LONG, LONG], r"done|more N"),
    b"close": ([LONG], r"closed"),
    b"sweep": ([], r"swept [01]"),
    b"verify": ([LONG], r"verified N"),
    b"reopen": ([], r"reopened N"),
    b"compact": ([], r"compacted"),
    b"merge": ([SHORT, SHORT, LONG], r"merge N"),
    b"merge-replay": ([BYTES], r"held|ignored|full"),
    b"merge-live": ([BYTES], r"held|ignored|full"),
    b"merge-take": ([], r"frame N (?:[0-9a-f]{2})+|none"),
    b"merge-state": ([], r"merged (?:yes|no) N"),
    b"quit": ([], r"bye"),
}
REPLIES = {word: re.compile(reply.replace("N", "(?:0|[1-9][0-9]*)")) for word, (_, reply) in LINES.items()}
# How the lines before the last line of a reply begin.
BEFORE = {b"list": "recording ", b"poll": "frame ", b"poll-to": "frame "}

REFUSALS = (
    "UnknownRecording ActiveRecording NotActive ActiveReplay BadPosition BadExtension MaxRecordings MaxReplays UnknownReplay "
    "BadParameter HistoryFull StaleSession BadBlock NeedSettle Damaged Broken DeviceFault NoMemory NotCatalogue NewerVersion "
    "BadFrame BadLine NeedCompact"
).split()
DETAILS = {"Damaged": r" (?:-1|\d+) \d+", "BadFrame": r" \d+"}
REFUSAL = re.compile("|".join(rf"error {number} {name}{DETAILS.get(name, '')}" for number, name in enumerate(REFUSALS, 1)))


def form_of(line: bytes) -> bytes | None:
    """The first word of a line that has the form of its row. None means that the answer is BadLine."""
    word, *rest = line.split(b" ", 1)
    if len(line) > LINE_LIMIT or word not in LINES:
        return None
    kinds = LINES[word][0]
    words = rest[0].split(b" ", len(kinds) - 1 if kinds and kinds[-1] is REST else -1) if rest else []
    is_formed = len(words) == len(kinds) and all(kind(each) for kind, each in zip(kinds, words))
    return word if is_formed else None


def is_reply(word: bytes | None, told: list[str]) -> bool:
    """Whether lines can be the reply to a line of this form."""
    if word is None:
        return told == [BAD_LINE]
    *before, last = told
    if REFUSAL.fullmatch(last):
        return not before and last != BAD_LINE
    return bool(REPLIES[word].fullmatch(last)) and all(word in BEFORE and each.startswith(BEFORE[word]) for each in before)
