"""A writer in plain Python, from document 01 alone.

    writer.py example   what the program `program_roundtrip` has to print
    writer.py script    cases as a script, rust/scripts/lists/writings.txt
    writer.py cases     what has to come of it, rust/scripts/lists/writings.expected
"""
import os
import sys

from reader import crc32c, decode, encode, header, pseudo, read, sent, words

sys.path.insert(0, os.path.join(os.path.dirname(os.path.abspath(__file__)), "..", "samples"))
from make_samples import expected  # the second reader, for the text of a report

SOURCE, DESTINATION = bytes([192, 0, 2, 1]), bytes([198, 51, 100, 7])
PORTS = (4660, 53)
WIDTHS = {2: (), 4: (2,), 5: (2, 1), 6: (4,), 7: (4,), 8: (4, 4)}
LARGEST, LARGEST_BODY = 65515, 65531


class Refused(Exception):
    pass


def number(docket, at, below):
    """The number at `at` and where the next stands; 7 where there is none below `below`."""
    found = decode(docket, at)
    if found is None or found[0] >= below:
        raise Refused(7)
    return found


def option(kind, body):
    """An option on the wire: the short form up to 254 bytes, the extended one beyond."""
    if 2 + len(body) <= 254:
        return bytes([kind, 2 + len(body)]) + body
    return bytes([kind, 255]) + (4 + len(body)).to_bytes(2, "big") + body


def options(docket, data):
    """The options of a docket, or the refusal of the first number or body that can't be taken."""
    count, at = number(docket, 0, 33)
    out = b""
    for _ in range(count):
        kind, at = number(docket, at, 256)
        if kind in (0, 1, 3) or kind >= 192:
            raise Refused(9)
        if kind in WIDTHS:
            body = crc32c(data).to_bytes(4, "big") if kind == 2 else b""
            for width in WIDTHS[kind]:
                value, at = number(docket, at, 256 ** width)
                body += value.to_bytes(width, "big")
        else:
            size, at = number(docket, at, LARGEST_BODY + 1)
            if at + size > len(docket):
                raise Refused(7)
            body, at = docket[at:at + size], at + size
        out += option(kind, body)
    if at != len(docket):
        raise Refused(7)
    return out


def write(data, docket, fill, room):
    """The payload, or Refused."""
    tail = options(docket, data) + bytes(fill)
    size = 8 + len(data)
    odd = size % 2
    if size + odd + 2 + len(tail) > min(room, LARGEST):
        raise Refused(8)
    ports = b"".join(port.to_bytes(2, "big") for port in PORTS)
    head = ports + size.to_bytes(2, "big")
    checksum = sent(words(pseudo(SOURCE, DESTINATION, size) + head + data))
    blank = bytes(odd + 2) + tail
    ocs = sent(len(blank) + words(blank, bool(odd)))
    return head + checksum.to_bytes(2, "big") + data + bytes(odd) + ocs.to_bytes(2, "big") + tail


def docket(payload, at, end):
    """The options of a sound list as a docket; an APC has no field, a body its length."""
    count, out = 0, b""
    while at < end and payload[at] != 0:
        if payload[at] == 1:
            at += 1
            continue
        whole, size = header(payload, at, end)
        kind, body = payload[at], payload[at + size:at + whole]
        out += encode(kind)
        if kind in WIDTHS:
            for width in WIDTHS[kind]:
                out += encode(int.from_bytes(body[:width], "big"))
                body = body[width:]
        else:
            out += encode(len(body)) + body
        count, at = count + 1, at + whole
    return encode(count) + out


def example():
    payload = write(b"level 412 cm", bytes([3, 2, 6, 0xAC, 2, 9, 2, 0xCA, 0xFE]), 1, 128)
    _, _, rest = read(payload, SOURCE, DESTINATION)
    again = f"listed {docket(payload, *rest['list']).hex()}\nfill {rest['fill']}\n"
    return "written " + payload.hex() + "\n" + expected(SOURCE + DESTINATION + payload) + again


# ---- cases: name, data, docket, fill, room. Long ones are data of one byte a5, and a docket's front and then c0.

ROOM = 65536
UNTOUCHED = 0x5A


def listed(*numbers, body=b""):
    return b"".join(encode(n) for n in numbers) + body


REQ = listed(1, 6, 300)
ALL = listed(8, 2, 4, 1400, 5, 65535, 255, 6, 2**32 - 1, 7, 0, 8, 1, 2, 9, 0, 191, 3, body=b"\xca\xfe\x00")
SMALL = [
    ("figure-1", b"", REQ, 0, ROOM),
    ("figure-2", b"A", REQ, 0, ROOM),
    ("figure-3", b"", listed(0), 0, ROOM),
    ("figure-4", b"", listed(1, 6, 63985), 0, ROOM),
    ("figure-8", b"", b"\x01\x06\x80\x00", 0, ROOM),
    ("checksum-0-even", b"\x01\x35", listed(0), 0, ROOM),
    ("checksum-0-odd", b"\x00\x33\x01", listed(0), 0, ROOM),
    ("option-checksum-0-odd", b"A", listed(1, 6, 63984), 0, ROOM),
    ("every-kind", b"AB", ALL, 0, ROOM),
    ("every-kind-odd", b"ABC", ALL, 3, ROOM),
    ("req-then-res", b"", listed(2, 6, 1, 7, 2), 0, ROOM),
    ("res-then-req", b"", listed(2, 7, 2, 6, 1), 0, ROOM),
    ("apc-of-no-data", b"", listed(1, 2), 0, ROOM),
    ("two-apcs", b"123456789", listed(2, 2, 2), 0, ROOM),
    ("fill-1", b"", REQ, 1, ROOM),
    ("fill-255", b"A", REQ, 255, ROOM),
    ("options-32", b"", listed(32, *[2] * 32), 0, ROOM),
    ("options-33", b"", listed(33, *[2] * 33), 0, ROOM),
    ("room-16", b"", REQ, 0, 16),
    ("room-15", b"", REQ, 0, 15),
    ("room-18-odd", b"A", REQ, 0, 18),
    ("room-17-odd", b"A", REQ, 0, 17),
    ("room-9", b"", listed(0), 0, 9),
    ("room-0", b"", listed(0), 0, 0),
    ("list-empty", b"", b"", 0, ROOM),
    ("count-cut", b"", b"\x81", 0, ROOM),
    ("option-missing", b"", listed(2, 6, 300), 0, ROOM),
    ("field-missing", b"", listed(1, 6), 0, ROOM),
    ("second-field-missing", b"", listed(1, 8, 1), 0, ROOM),
    ("left-over", b"", REQ + b"\0", 0, ROOM),
    ("body-cut", b"", listed(1, 9, 3, body=b"ab"), 0, ROOM),
    ("body-65532", b"", listed(1, 9, 65532), 0, ROOM),
    ("mds-too-wide", b"", listed(1, 4, 65536), 0, ROOM),
    ("mrds-too-wide", b"", listed(1, 5, 1, 256), 0, ROOM),
    ("req-too-wide", b"", listed(1, 6, 2**32), 0, ROOM),
    ("res-too-wide", b"", listed(1, 7, 2**32), 0, ROOM),
    ("time-too-wide", b"", listed(1, 8, 1, 2**32), 0, ROOM),
    ("number-over-64-bits", b"", b"\x01\x06" + b"\xff" * 9 + b"\x02", 0, ROOM),
    ("kind-0", b"", listed(1, 0), 0, ROOM),
    ("kind-1", b"", listed(1, 1), 0, ROOM),
    ("kind-3", b"", listed(1, 3), 0, ROOM),
    ("kind-192", b"", listed(1, 192), 0, ROOM),
    ("kind-255", b"", listed(1, 255), 0, ROOM),
    ("kind-256", b"", listed(1, 256), 0, ROOM),
    ("kind-0-long-form", b"", b"\x01\x80\x00", 0, ROOM),
    ("7-before-9", b"", listed(2, 4, 65536, 3), 0, ROOM),
    ("9-before-7", b"", listed(2, 3, 4, 65536), 0, ROOM),
    ("9-before-left-over", b"", listed(1, 1, 5), 0, ROOM),
    ("9-behind-the-count", b"", listed(1, 6, 300, 3), 0, ROOM),
    ("7-before-8", b"", REQ + b"\0", 0, 0),
    ("9-before-8", b"", listed(1, 3), 0, 0),
]
# Name, size of the data, the docket's front, the docket's size, fill, room.
LARGE = [
    ("body-251", 0, listed(1, 9, 251), 4 + 251, 0, ROOM),
    ("body-252", 0, listed(1, 9, 252), 4 + 252, 0, ROOM),
    ("body-253", 0, listed(1, 9, 253), 4 + 253, 0, ROOM),
    ("body-253-odd", 3, listed(1, 191, 253), 5 + 253, 2, ROOM),
    ("body-253-cut", 0, listed(1, 9, 253), 4 + 252, 0, ROOM),
    ("body-largest", 0, listed(1, 9, 65501), 5 + 65501, 0, ROOM),
    ("body-one-more", 0, listed(1, 9, 65502), 5 + 65502, 0, ROOM),
    ("body-65531", 0, listed(1, 9, 65531), 5 + 65531, 0, ROOM),
    ("data-largest-even", 65504, listed(0), 1, 1, ROOM),
    ("data-largest-even-exact", 65504, listed(0), 1, 1, 65515),
    ("data-largest-even-short", 65504, listed(0), 1, 1, 65514),
    ("data-even-one-more", 65504, listed(0), 1, 2, ROOM),
    ("data-largest-odd", 65503, listed(0), 1, 1, ROOM),
    ("data-odd-one-more", 65503, listed(0), 1, 2, ROOM),
    ("data-odd-too-long", 65505, listed(0), 1, 0, ROOM),
    ("data-65507", 65507, listed(0), 1, 0, ROOM),
    ("data-65536", 65536, listed(0), 1, 0, ROOM),
    ("data-apc", 65494, listed(1, 2), 2, 4, ROOM),
]


def case(name, data, docket, fill, room):
    """The answer, and the CRC32c of the whole buffer lent; a short payload in hexadecimal."""
    try:
        payload = write(data, docket, fill, room)
        assert read(payload, SOURCE, DESTINATION) == read(payload, SOURCE, DESTINATION, strict=True)
        answer = f"length {len(payload)}"
    except Refused as refused:
        payload = b""
        answer = f"refused {refused}"
    buffer = payload + bytes([UNTOUCHED]) * (room - len(payload))
    shown = " payload " + payload.hex() if 0 < len(payload) <= 96 else ""
    return f"{name} {answer} buffer {crc32c(buffer):08x}{shown}\n"


def long(size, front, total):
    return b"\xa5" * size, front + b"\xc0" * (total - len(front))


def cases():
    lines = [case(*c) for c in SMALL]
    for name, size, front, total, fill, room in LARGE:
        lines.append(case(name, *long(size, front, total), fill, room))
    return "".join(lines)


def spelled(data, then=None, total=0):
    """Bytes in a script: in hexadecimal, and one byte over and over behind them."""
    return (" " + data.hex() if data else "") + (f" then {then} up to {total}" if total > len(data) else "")


def script():
    lines = ["-- Made by tools/vectors/writer.py"]
    for name, data, docket, fill, room in SMALL:
        lines.append(f"write {name} data{spelled(data)} list{spelled(docket)} fill {fill} room {room}")
    for name, size, front, total, fill, room in LARGE:
        lines.append(f"write {name} data{spelled(b'', 'a5', size)} list{spelled(front, 'c0', total)} fill {fill} room {room}")
    return "\n".join(lines) + "\n"


if __name__ == "__main__":
    sys.stdout.write({"example": example, "script": script, "cases": cases}[sys.argv[1]]())
