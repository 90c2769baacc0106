"""Contents in pieces that lines of a world or of a script can hold."""
from typing import Iterator

from labask.kernel_profile import MAX_LINE

LINE_BYTES = MAX_LINE


def piece_length(content: bytes, room: int) -> int:
    """How many of the first bytes have a quoted form of at most `room` bytes, without the quotes."""
    for index, byte in enumerate(content):
        room -= 2 if byte in b'"\\' else 1 if 0x20 <= byte <= 0x7E else 4
        if room < 0:
            return index
    return len(content)


def pieces(prefix: str, content: bytes) -> Iterator[bytes]:
    """Content in pieces, each of which a line that begins with `prefix` can hold as its quoted last word; at least one piece."""
    room, begin = LINE_BYTES - len(prefix) - 2, 0
    while True:
        length = piece_length(content[begin:begin + room], room)
        yield content[begin:begin + length]
        begin += length
        if begin >= len(content):
            return
