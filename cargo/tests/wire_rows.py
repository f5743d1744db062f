"""The tables of docs/WIRE.md: bytes, and the fault of the first frame or none."""

from .rows import EMPTY_BATCH, ONE_WRITE, ONE_WRITE_2, SINGLE_KEY_2

EMPTY_REPLY = bytes.fromhex("0000000b 02 0000000000000000 0000")
COMMITTED_AND_CONFLICT = bytes.fromhex("00000013 02 0000000000000064 0002 02 0000 00 0001 0000")
ONE_COMMITTED = bytes.fromhex("0000000e 02 0000000000000064 0001 02 0000")


def edited(frame: bytes, at: int, field: str, length: str = "", more: str = "") -> bytes:
    """Returns the frame with another field, another length of the body, and bytes after it."""
    put = bytes.fromhex(field)
    changed = frame[:at] + put + frame[at + len(put) :] + bytes.fromhex(more)
    return bytes.fromhex(length) + changed[4:] if length else changed


# Indices in the frame of a batch.
KIND, PREVIOUS, VERSION, RECEIVED, COUNT = 4, 5, 13, 21, 29
# Indices in ONE_WRITE, and in ONE_WRITE_2 with its form.
MARKS, READS, BEGIN_LENGTH, BEGIN, END_LENGTH, END = 39, 40, 44, 46, 47, 49

BATCHES = (
    (b"\0\0\0", "1 Short"),
    (bytes.fromhex("00400001"), "2 Long"),
    (bytes.fromhex("00400000"), "1 Short"),
    (bytes.fromhex("00000000"), "10 Cut"),
    (bytes.fromhex("00000001 02"), "3 Kind"),
    (bytes.fromhex("00000001 03"), "10 Cut"),
    (EMPTY_BATCH[:-1], "1 Short"),
    (edited(EMPTY_BATCH[:-1], 4, "01", "0000001a"), "10 Cut"),
    (edited(EMPTY_BATCH, 4, "01", "0000001c", "00"), "4 Trailing"),
    (edited(EMPTY_BATCH, PREVIOUS, "fffffffffffffffe"), "5 Version"),
    (edited(EMPTY_BATCH, VERSION, "ffffffffffffffff"), "5 Version"),
    (edited(EMPTY_BATCH, PREVIOUS, "0000000000000000"), "5 Version"),
    (edited(EMPTY_BATCH, RECEIVED, "0000000000000000"), "5 Version"),
    (edited(EMPTY_BATCH, COUNT, "1001"), "7 Count"),
    (edited(EMPTY_BATCH, COUNT, "1000"), "10 Cut"),
    (edited(edited(EMPTY_BATCH, COUNT, "1000"), KIND, "03"), "10 Cut"),
    (edited(EMPTY_BATCH, COUNT, "0001"), "10 Cut"),
    (edited(ONE_WRITE, MARKS, "02"), "6 Marks"),
    (edited(ONE_WRITE, READS, "0401"), "7 Count"),
    (edited(ONE_WRITE, BEGIN_LENGTH, "2712"), "8 KeyLength"),
    (edited(ONE_WRITE, BEGIN_LENGTH, "2711"), "10 Cut"),
    (edited(edited(ONE_WRITE, BEGIN, "62"), END, "61"), "9 Inverted"),
    (edited(ONE_WRITE, BEGIN, "62"), ""),
    (edited(ONE_WRITE, END_LENGTH, "0002"), "10 Cut"),
    (edited(ONE_WRITE[:-1], END_LENGTH, "0000", "0000002d"), "9 Inverted"),
    (edited(EMPTY_BATCH, KIND, "03"), ""),
    (edited(ONE_WRITE_2, BEGIN_LENGTH, "02"), "13 Form"),
    (
        ONE_WRITE_2[:BEGIN_LENGTH].replace(b"\0\0\0\x2f", b"\0\0\0\x30")
        + bytes.fromhex("00 0001 6b 0002 6b00"),
        "14 Spelling",
    ),
    (edited(edited(ONE_WRITE_2, BEGIN + 1, "62"), END + 1, "61"), "9 Inverted"),
    (edited(ONE_WRITE_2, BEGIN + 1, "62"), ""),
    (edited(SINGLE_KEY_2, BEGIN_LENGTH + 1, "2711"), "8 KeyLength"),
    (edited(SINGLE_KEY_2, BEGIN_LENGTH + 1, "2710"), "10 Cut"),
)

REPLIES = (
    (EMPTY_BATCH, "3 Kind"),
    (edited(EMPTY_REPLY, 5, "ffffffffffffffff"), "5 Version"),
    (edited(ONE_COMMITTED, 15, "03"), "3 Kind"),
    (edited(ONE_COMMITTED, 16, "0001"), "7 Count"),
    (edited(COMMITTED_AND_CONFLICT, 21, "0400"), "6 Marks"),
    (
        COMMITTED_AND_CONFLICT[:18].replace(b"\x13", b"\x15", 1)
        + bytes.fromhex("00 0002 0000 0000"),
        "6 Marks",
    ),
    (
        COMMITTED_AND_CONFLICT[:18].replace(b"\x13", b"\x15", 1)
        + bytes.fromhex("00 0002 0000 0001"),
        "",
    ),
    (edited(COMMITTED_AND_CONFLICT, 4, "02", "00000014", "00"), "4 Trailing"),
)
