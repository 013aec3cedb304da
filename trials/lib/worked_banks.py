"""The banks that docs/STORAGE.md shows byte for byte, of both versions, and their forms: cut to each length, with each bit turned, and each
byte set to some values."""
from readers.catalogue import BANKS
from lib.tool import Stream

WORKED_BANKS = [
    bytes.fromhex(
        "01 01 0000 03000000 0100000000000000 00000000000000000000000000000000"
        "01 01 3300 0000000000000000e8030000000000000000000000000000 2a000000000002000000010080050000 07000000e9030000 0100 63"
        "01 02 1000 00000000000000004000000000000000 00"
    ),
    bytes.fromhex(
        "01 02 0000 03000000 0100000000000000 00000000000000000000000000000000"
        "01 01 3500 0000000000000000e8030000000000000000000000000000 2a000000000002000000010080050000 07000000e9030000 0100 63 0000"
        "01 02 1000 00000000000000004000000000000000 00"
    ),
]
WORKED_FILES = {  # with the frame that they settled
    BANKS[0]: WORKED_BANKS[1],
    BANKS[1]: b"\x00",
    "0-0.rec": Stream(term_length=65_536, segment_length=131_072).message(0, b"hello").ljust(64, b"\x00"),
}
VALUES = 0, 2, 10, 127, 255  # that each byte of a worked bank is set to
OF_BYTE = 1 + 8 + len(VALUES)  # forms for each byte of a bank
FORMS = OF_BYTE * sum(map(len, WORKED_BANKS))


def worked_bank(number: int) -> bytes:
    """A form of a worked bank: first those of version 1, then those of version 2."""
    before = OF_BYTE * len(WORKED_BANKS[0])
    return form(WORKED_BANKS[0], number) if number < before else form(WORKED_BANKS[1], number - before)


def form(bank: bytes, number: int) -> bytes:
    """A form of a bank. The first ones are its cuts, the next ones have one bit turned, the last ones one byte set."""
    text = bytearray(bank)
    size = len(text)
    if number < size:
        return bytes(text[:number])
    if number < 9 * size:
        at, bit = divmod(number - size, 8)
        text[at] ^= 1 << bit
    else:
        value, at = divmod(number - 9 * size, size)
        text[at] = VALUES[value]
    return bytes(text)
