"""Makes a picture of a browser small: a PNG of at most 256 colours."""
import struct
import zlib
from collections import Counter
from collections.abc import Iterator

HEAD = b"\x89PNG\r\n\x1a\n"
Color = tuple[int, int, int]


def chunks(content: bytes) -> Iterator[tuple[bytes, bytes]]:
    """The parts of a PNG, each with its kind."""
    place = len(HEAD)
    while place < len(content):
        length, kind = struct.unpack(">I4s", content[place:place + 8])
        yield kind, content[place + 8:place + 8 + length]
        place += length + 12


def rows_of(data: bytes, width: int, bytes_each: int) -> Iterator[bytearray]:
    """The rows of pixels, with their filters undone."""
    stride, before = width * bytes_each, bytearray(width * bytes_each)
    for start in range(0, len(data), stride + 1):
        kind, row = data[start], bytearray(data[start + 1:start + 1 + stride])
        for at, value in enumerate(row):
            left = row[at - bytes_each] if at >= bytes_each else 0
            corner = before[at - bytes_each] if at >= bytes_each else 0
            row[at] = (value + added(kind, left, before[at], corner)) & 255
        yield row
        before = row


def added(kind: int, left: int, above: int, corner: int) -> int:
    """What a filter has taken off."""
    if kind == 4:
        guess = left + above - corner
        return min((left, above, corner), key=lambda one: abs(guess - one))
    return (0, left, above, (left + above) // 2)[kind]


def near(color: Color, palette: list[Color]) -> int:
    """The place of the nearest color."""
    return min(range(len(palette)), key=lambda one: sum((a - b) ** 2 for a, b in zip(color, palette[one])))


def small(content: bytes) -> bytes:
    """The same picture in at most 256 colours."""
    parts = list(chunks(content))
    width, height, _, kind = struct.unpack(">IIBB", dict(parts)[b"IHDR"][:10])
    each = {2: 3, 6: 4}[kind]
    data = zlib.decompress(b"".join(part for name, part in parts if name == b"IDAT"))
    rows = [[tuple(row[at:at + 3]) for at in range(0, len(row), each)] for row in rows_of(data, width, each)]
    counts = Counter(color for row in rows for color in row)
    palette: list[Color] = [color for color, _ in counts.most_common(256)]  # type: ignore[misc]
    places: dict[tuple[int, ...], int] = {color: place for place, color in enumerate(palette)}
    for color in counts:
        if color not in places:
            places[color] = near(color, palette)  # type: ignore[arg-type]
    made = b"".join(b"\0" + bytes(places[color] for color in row) for row in rows)
    head = struct.pack(">IIBBBBB", width, height, 8, 3, 0, 0, 0)
    table = b"".join(map(bytes, palette))
    return HEAD + b"".join(chunk(*one) for one in ((b"IHDR", head), (b"PLTE", table), (b"IDAT", zlib.compress(made, 9)),
                                                   (b"IEND", b"")))


def chunk(kind: bytes, content: bytes) -> bytes:
    """A part of a PNG."""
    return struct.pack(">I", len(content)) + kind + content + struct.pack(">I", zlib.crc32(kind + content))
