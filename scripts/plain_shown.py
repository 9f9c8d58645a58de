"""The texts of scripts and of the frames of captures in plain Python, written from docs/FORMATS.md: what `show` and `frames` print."""
import struct

TICK, RESET, FRAME, QUERY, TYPED_QUERY = 2, 4, 1, 3, 5
SECOND = 1_000_000
WORDS = {1: "A", 28: "AAAA"}


class Broken(Exception):
    """Something else than an event or an entry stands here."""


def line_of(at, words):
    return f"{at // SECOND}.{at % SECOND:06} {words}\n"


def frame_words(frame):
    return f"frame {frame.hex()}" if frame else "frame"


def name_word(name):
    if name in (b"", b"-"):
        return "\\2d" if name else "-"
    return "".join(chr(byte) if 0x21 <= byte <= 0x7E and byte not in b"#\\" else f"\\{byte:02x}" for byte in name)


class Bytes:
    """Bytes that are taken piece by piece."""

    def __init__(self, data):
        self.data, self.at = data, 0

    def take(self, count):
        piece = self.data[self.at:self.at + count]
        if len(piece) < count:
            raise Broken
        self.at += count
        return piece

    def number(self, count, order="big"):
        return int.from_bytes(self.take(count), order)


def event_of(source, last):
    """The time of the next event, and its words."""
    kind = source.number(1)
    if kind not in (TICK, RESET, FRAME, QUERY, TYPED_QUERY):
        raise Broken
    at = source.number(8)
    if not last <= at < 2 ** 32 * SECOND:
        raise Broken
    if kind in (TICK, RESET):
        return at, "tick" if kind == TICK else "reset"
    if kind == FRAME:
        return at, frame_words(source.take(source.number(2)))
    asked = source.number(2) if kind == TYPED_QUERY else 1
    if asked not in WORDS:
        raise Broken
    name = source.take(source.number(1))
    try:
        name.decode()
    except UnicodeDecodeError:
        raise Broken from None
    return at, f"query {WORDS[asked]} {name_word(name)}"


def entry_of(source, last):
    """The time of the next entry, and its words."""
    secs, micros, captured, _ = struct.unpack("<IIII", source.take(16))
    if captured > 262144:
        raise Broken
    frame, at = source.take(captured), secs * SECOND + micros
    if micros >= SECOND or at < last or captured > 65535:
        raise Broken
    return at, frame_words(frame)


def shown(source, most, next_of, error, limit):
    lines, last = [], 0
    while source.at < len(source.data):
        if len(lines) == most:
            return 3, "".join([*lines, f"# {limit}\n"])
        place = source.at
        try:
            last, words = next_of(source, last)
        except Broken:
            return 2, "".join([*lines, f"# {error} {place}\n"])
        lines.append(line_of(last, words))
    return 0, "".join([*lines, "# done\n"])


def show(script, most):
    """The status and the output of `show`."""
    return shown(Bytes(script), most, event_of, "script error at", "event limit reached")


def frames(capture, most):
    """The status and the output of `frames`."""
    if len(capture) < 24 or capture[:8] != bytes.fromhex("d4c3b2a102000400") or capture[20:24] != b"\1\0\0\0":
        return 2, "# capture error at 0\n"
    source = Bytes(capture)
    source.at = 24
    return shown(source, most, entry_of, "capture error at", "frame limit reached")
